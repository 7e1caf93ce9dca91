@ Made by tools/dist from the proved crate gcm_c; BUILD says from what. Don't edit it.
/* A Rust crate defines in_rust; for x86-64, a static library of both builds defines chosen, and choose_*.c calls these names. */
	.macro	export_gcm_v6m_small name
	.ifdef	in_rust
	.globl	gcm_v6m_small.\name
	.hidden	gcm_v6m_small.\name
	.else
	.globl	\name
	.set	\name, gcm_v6m_small.\name
	.endif
	.endm
	.syntax	unified
	.file	"rattle"
	.section	.text.gcm_v6m_small.aes_cipher.zeroize.elements.zeroize_elements.1,"ax",%progbits
	.p2align	1                               @ -- Begin function aes_cipher::zeroize::elements::zeroize_elements::<#54a2bb646728b9ee>
	.type	gcm_v6m_small.aes_cipher.zeroize.elements.zeroize_elements.1,%function
	.code	16
	.thumb_func
gcm_v6m_small.aes_cipher.zeroize.elements.zeroize_elements.1: @ @gcm_v6m_small.aes_cipher.zeroize.elements.zeroize_elements.1
	.fnstart
@ %bb.0:                                @ %start
	.save	{r4, r5, r6, r7, lr}
	push	{r4, r5, r6, r7, lr}
	.pad	#12
	sub	sp, #12
	movs	r4, #0
	str	r4, [sp, #4]
	str	r4, [sp]
	@APP
	@NO_APP
	ldr	r2, [sp, #4]
	ldr	r1, [sp]
	@APP
	@NO_APP
	mov	r3, r1
	subs	r3, #120
	sbcs	r2, r4
	bhs	.Lgcm_v6m_small_BB0_2
@ %bb.1:                                @ %then.1.i
	lsls	r6, r1, #2
	ldr	r7, [r0, r6]
	movs	r1, #15
	lsls	r2, r1, #5
	movs	r1, #0
	mov	r5, r0
	bl	memset
	ldr	r0, [r5, r6]
	ands	r0, r7
	b	.Lgcm_v6m_small_BB0_3
.Lgcm_v6m_small_BB0_2:                                @ %"aes_cipher::zeroize::observe::<#94bc162b3f62047f>.exit12"
	movs	r1, #15
	lsls	r2, r1, #5
	mov	r1, r4
	bl	memset
	mov	r0, r4
.Lgcm_v6m_small_BB0_3:                                @ %"aes_cipher::zeroize::observe::<#94bc162b3f62047f>.exit"
	@APP
	@NO_APP
	ldr	r1, [sp, #4]
	ldr	r1, [sp]
	str	r4, [sp, #4]
	uxtb	r0, r0
	str	r0, [sp]
	@APP
	@NO_APP
	add	sp, #12
	pop	{r4, r5, r6, r7, pc}
.Lgcm_v6m_small_func_end0:
	.size	gcm_v6m_small.aes_cipher.zeroize.elements.zeroize_elements.1, .Lgcm_v6m_small_func_end0-gcm_v6m_small.aes_cipher.zeroize.elements.zeroize_elements.1
	.cantunwind
	.fnend
                                        @ -- End function
	.section	.text.gcm_v6m_small.gcm.message_state.MessageZeroize.zeroize,"ax",%progbits
	.p2align	1                               @ -- Begin function gcm::message_state::MessageZeroize::zeroize
	.type	gcm_v6m_small.gcm.message_state.MessageZeroize.zeroize,%function
	.code	16
	.thumb_func
gcm_v6m_small.gcm.message_state.MessageZeroize.zeroize: @ @gcm_v6m_small.gcm.message_state.MessageZeroize.zeroize
	.fnstart
@ %bb.0:                                @ %start
	.save	{r4, lr}
	push	{r4, lr}
	mov	r4, r0
	movs	r0, #0
	str	r0, [r4]
	str	r0, [r4, #4]
	str	r0, [r4, #8]
	str	r0, [r4, #12]
	str	r0, [r4, #16]
	str	r0, [r4, #20]
	str	r0, [r4, #24]
	str	r0, [r4, #28]
	mov	r0, r4
	adds	r0, #32
	bl	gcm_v6m_small.aes_cipher.zeroize.elements.zeroize_elements.2
	mov	r0, r4
	adds	r0, #48
	bl	gcm_v6m_small.aes_cipher.zeroize.elements.zeroize_elements.2
	adds	r4, #64
	mov	r0, r4
	bl	gcm_v6m_small.aes_cipher.zeroize.elements.zeroize_elements.2
	pop	{r4, pc}
.Lgcm_v6m_small_func_end1:
	.size	gcm_v6m_small.gcm.message_state.MessageZeroize.zeroize, .Lgcm_v6m_small_func_end1-gcm_v6m_small.gcm.message_state.MessageZeroize.zeroize
	.cantunwind
	.fnend
                                        @ -- End function
	.section	.text.gcm_v6m_small.aes_cipher.zeroize.elements.zeroize_elements.2,"ax",%progbits
	.p2align	1                               @ -- Begin function aes_cipher::zeroize::elements::zeroize_elements::<#3b2097f0eef5a37b>
	.type	gcm_v6m_small.aes_cipher.zeroize.elements.zeroize_elements.2,%function
	.code	16
	.thumb_func
gcm_v6m_small.aes_cipher.zeroize.elements.zeroize_elements.2: @ @gcm_v6m_small.aes_cipher.zeroize.elements.zeroize_elements.2
	.fnstart
@ %bb.0:                                @ %start
	.save	{r4, lr}
	push	{r4, lr}
	.pad	#8
	sub	sp, #8
	movs	r4, #0
	str	r4, [sp, #4]
	str	r4, [sp]
	@APP
	@NO_APP
	ldr	r1, [sp, #4]
	ldr	r1, [sp]
	@APP
	@NO_APP
	movs	r2, #16
	mov	r1, r4
	bl	memset
	@APP
	@NO_APP
	ldr	r0, [sp, #4]
	ldr	r0, [sp]
	str	r4, [sp, #4]
	str	r4, [sp]
	@APP
	@NO_APP
	add	sp, #8
	pop	{r4, pc}
.Lgcm_v6m_small_func_end2:
	.size	gcm_v6m_small.aes_cipher.zeroize.elements.zeroize_elements.2, .Lgcm_v6m_small_func_end2-gcm_v6m_small.aes_cipher.zeroize.elements.zeroize_elements.2
	.cantunwind
	.fnend
                                        @ -- End function
	.section	.text.gcm_v6m_small.aes_narrow.word_room.expand_words,"ax",%progbits
	.p2align	2                               @ -- Begin function aes_narrow::word_room::expand_words::<#6af90bfc14753d47>
	.type	gcm_v6m_small.aes_narrow.word_room.expand_words,%function
	.code	16
	.thumb_func
gcm_v6m_small.aes_narrow.word_room.expand_words: @ @gcm_v6m_small.aes_narrow.word_room.expand_words
	.fnstart
@ %bb.0:                                @ %start
	.save	{r4, r5, r6, r7, lr}
	push	{r4, r5, r6, r7, lr}
	.pad	#220
	sub	sp, #220
	str	r3, [sp, #12]                   @ 4-byte Spill
	mov	r7, r0
	cmp	r2, #24
	str	r2, [sp, #8]                    @ 4-byte Spill
	str	r0, [sp, #56]                   @ 4-byte Spill
	beq	.Lgcm_v6m_small_BB3_4
@ %bb.1:                                @ %start
	cmp	r2, #16
	beq	.Lgcm_v6m_small_BB3_2
	b	.Lgcm_v6m_small_BB3_7
.Lgcm_v6m_small_BB3_2:                                @ %then.1.i
	add	r5, sp, #188
	movs	r4, #0
	mov	r0, r5
	mov	r2, r4
	mov	r3, r4
	bl	gcm_v6m_small.aes_soft.soft.plane_words.PlaneWordsFourWords.load
	str	r5, [sp]
	mov	r0, r7
	mov	r2, r4
	mov	r3, r4
	bl	gcm_v6m_small.aes_soft.soft.plane_words.PlaneWordsFourWords.store
	mov	r6, r4
	str	r4, [sp, #48]                   @ 4-byte Spill
	mov	r7, r4
	mov	r5, r4
.Lgcm_v6m_small_BB3_3:                                @ %join.5.i.i
                                        @ =>This Inner Loop Header: Depth=1
	add	r0, sp, #156
	str	r0, [sp, #52]                   @ 4-byte Spill
	ldr	r1, [sp, #56]                   @ 4-byte Reload
	mov	r2, r6
	mov	r3, r7
	bl	gcm_v6m_small.aes_soft.soft.plane_words.PlaneWordsFourWords.read_back
	ldr	r0, .Lgcm_v6m_small_CPI3_0
	ldrb	r3, [r0, r6]
	add	r4, sp, #188
	mov	r0, r4
	ldr	r1, [sp, #52]                   @ 4-byte Reload
	mov	r2, r4
	bl	gcm_v6m_small.aes_soft.soft.plane_words.PlaneWordsFourWords.rotated
	str	r4, [sp]
	adds	r2, r6, #1
	str	r2, [sp, #52]                   @ 4-byte Spill
	ldr	r4, [sp, #48]                   @ 4-byte Reload
	adcs	r5, r4
	ldr	r0, [sp, #56]                   @ 4-byte Reload
	mov	r3, r5
	bl	gcm_v6m_small.aes_soft.soft.plane_words.PlaneWordsFourWords.store
	subs	r6, #9
	sbcs	r7, r4
	ldr	r6, [sp, #52]                   @ 4-byte Reload
	mov	r7, r5
	blo	.Lgcm_v6m_small_BB3_3
	b	.Lgcm_v6m_small_BB3_6
.Lgcm_v6m_small_BB3_4:                                @ %then.4.i
	add	r4, sp, #188
	movs	r6, #0
	mov	r0, r4
	mov	r5, r1
	mov	r2, r6
	mov	r3, r6
	bl	gcm_v6m_small.aes_soft.soft.plane_words.PlaneWordsFourWords.load
	add	r0, sp, #156
	movs	r2, #8
	mov	r1, r5
	mov	r3, r6
	bl	gcm_v6m_small.aes_soft.soft.plane_words.PlaneWordsFourWords.load
	str	r4, [sp]
	mov	r0, r7
	mov	r2, r6
	mov	r3, r6
	bl	gcm_v6m_small.aes_soft.soft.plane_words.PlaneWordsFourWords.store
	mov	r0, r6
	str	r6, [sp, #16]                   @ 4-byte Spill
	mov	r5, r6
	mov	r2, r6
.Lgcm_v6m_small_BB3_5:                                @ %join.5.i14.i
                                        @ =>This Inner Loop Header: Depth=1
	str	r0, [sp, #52]                   @ 4-byte Spill
	str	r2, [sp, #48]                   @ 4-byte Spill
	lsls	r1, r0, #1
	str	r1, [sp, #44]                   @ 4-byte Spill
	ldr	r2, .Lgcm_v6m_small_CPI3_0
	ldrb	r3, [r2, r1]
	add	r4, sp, #124
	add	r1, sp, #188
	str	r1, [sp, #40]                   @ 4-byte Spill
	add	r6, sp, #156
	str	r6, [sp, #36]                   @ 4-byte Spill
	mov	r0, r4
	mov	r2, r6
	bl	gcm_v6m_small.aes_soft.soft.plane_words.PlaneWordsFourWords.rotated
	add	r0, sp, #92
	str	r0, [sp, #24]                   @ 4-byte Spill
	mov	r1, r6
	mov	r2, r4
	str	r4, [sp, #28]                   @ 4-byte Spill
	bl	gcm_v6m_small.aes_soft.soft.plane_words.PlaneWordsFourWords.plain
	add	r7, sp, #60
	mov	r0, r7
	mov	r1, r6
	mov	r2, r4
	bl	gcm_v6m_small.aes_soft.soft.plane_words.PlaneWordsFourWords.straddled
	movs	r2, #3
	ldr	r0, [sp, #52]                   @ 4-byte Reload
	str	r5, [sp, #32]                   @ 4-byte Spill
	mov	r1, r5
	ldr	r6, [sp, #16]                   @ 4-byte Reload
	mov	r3, r6
	bl	__aeabi_lmul
	mov	r4, r0
	str	r0, [sp, #20]                   @ 4-byte Spill
	mov	r5, r1
	str	r7, [sp]
	adds	r2, r0, #1
	mov	r3, r1
	adcs	r3, r6
	ldr	r0, [sp, #56]                   @ 4-byte Reload
	bl	gcm_v6m_small.aes_soft.soft.plane_words.PlaneWordsFourWords.store
	ldr	r7, [sp, #24]                   @ 4-byte Reload
	str	r7, [sp]
	adds	r2, r4, #2
	mov	r3, r5
	adcs	r3, r6
	ldr	r0, [sp, #56]                   @ 4-byte Reload
	bl	gcm_v6m_small.aes_soft.soft.plane_words.PlaneWordsFourWords.store
	ldr	r0, .Lgcm_v6m_small_CPI3_0
	ldr	r1, [sp, #44]                   @ 4-byte Reload
	adds	r0, r0, r1
	ldrb	r3, [r0, #1]
	ldr	r4, [sp, #40]                   @ 4-byte Reload
	mov	r0, r4
	ldr	r1, [sp, #28]                   @ 4-byte Reload
	mov	r2, r7
	bl	gcm_v6m_small.aes_soft.soft.plane_words.PlaneWordsFourWords.rotated
	ldr	r0, [sp, #36]                   @ 4-byte Reload
	mov	r1, r7
	mov	r2, r4
	bl	gcm_v6m_small.aes_soft.soft.plane_words.PlaneWordsFourWords.plain
	str	r4, [sp]
	ldr	r0, [sp, #20]                   @ 4-byte Reload
	adds	r2, r0, #3
	adcs	r5, r6
	ldr	r0, [sp, #56]                   @ 4-byte Reload
	mov	r3, r5
	bl	gcm_v6m_small.aes_soft.soft.plane_words.PlaneWordsFourWords.store
	ldr	r2, [sp, #48]                   @ 4-byte Reload
	ldr	r1, [sp, #52]                   @ 4-byte Reload
	adds	r0, r1, #1
	adcs	r2, r6
	subs	r1, r1, #3
	ldr	r1, [sp, #32]                   @ 4-byte Reload
	sbcs	r1, r6
	mov	r5, r2
	blo	.Lgcm_v6m_small_BB3_5
.Lgcm_v6m_small_BB3_6:                                @ %"aes_planes::expansion::expand_128::<#389ec886eeff95cb>.exit.i"
	ldr	r0, [sp, #56]                   @ 4-byte Reload
	b	.Lgcm_v6m_small_BB3_10
.Lgcm_v6m_small_BB3_7:                                @ %else.5.i
	add	r0, sp, #188
	str	r0, [sp, #52]                   @ 4-byte Spill
	movs	r5, #0
	mov	r4, r1
	mov	r2, r5
	mov	r3, r5
	bl	gcm_v6m_small.aes_soft.soft.plane_words.PlaneWordsFourWords.load
	add	r6, sp, #156
	movs	r2, #16
	mov	r0, r6
	mov	r1, r4
	mov	r3, r5
	bl	gcm_v6m_small.aes_soft.soft.plane_words.PlaneWordsFourWords.load
	ldr	r0, [sp, #52]                   @ 4-byte Reload
	str	r0, [sp]
	mov	r0, r7
	mov	r2, r5
	mov	r3, r5
	bl	gcm_v6m_small.aes_soft.soft.plane_words.PlaneWordsFourWords.store
	str	r6, [sp]
	movs	r2, #1
	mov	r0, r7
	mov	r3, r5
	bl	gcm_v6m_small.aes_soft.soft.plane_words.PlaneWordsFourWords.store
	mov	r0, r5
	str	r5, [sp, #48]                   @ 4-byte Spill
	mov	r2, r5
.Lgcm_v6m_small_BB3_8:                                @ %join.5.i23.i
                                        @ =>This Inner Loop Header: Depth=1
	str	r2, [sp, #44]                   @ 4-byte Spill
	mov	r3, r0
	lsrs	r0, r0, #31
	lsls	r1, r5, #1
	adds	r4, r1, r0
	lsls	r2, r3, #1
	str	r2, [sp, #52]                   @ 4-byte Spill
	mov	r7, r3
	str	r3, [sp, #40]                   @ 4-byte Spill
	add	r6, sp, #124
	mov	r0, r6
	ldr	r1, [sp, #56]                   @ 4-byte Reload
	mov	r3, r4
	bl	gcm_v6m_small.aes_soft.soft.plane_words.PlaneWordsFourWords.read_back
	ldr	r0, .Lgcm_v6m_small_CPI3_0
	ldrb	r3, [r0, r7]
	add	r7, sp, #188
	str	r7, [sp, #32]                   @ 4-byte Spill
	add	r2, sp, #156
	str	r2, [sp, #36]                   @ 4-byte Spill
	mov	r0, r7
	mov	r1, r6
	bl	gcm_v6m_small.aes_soft.soft.plane_words.PlaneWordsFourWords.rotated
	str	r7, [sp]
	ldr	r6, [sp, #52]                   @ 4-byte Reload
	adds	r2, r6, #2
	mov	r3, r4
	ldr	r0, [sp, #48]                   @ 4-byte Reload
	adcs	r3, r0
	ldr	r7, [sp, #56]                   @ 4-byte Reload
	mov	r0, r7
	bl	gcm_v6m_small.aes_soft.soft.plane_words.PlaneWordsFourWords.store
	adds	r2, r6, #1
	add	r6, sp, #92
	mov	r0, r6
	mov	r1, r7
	mov	r3, r4
	bl	gcm_v6m_small.aes_soft.soft.plane_words.PlaneWordsFourWords.read_back
	ldr	r7, [sp, #36]                   @ 4-byte Reload
	mov	r0, r7
	mov	r1, r6
	ldr	r2, [sp, #32]                   @ 4-byte Reload
	bl	gcm_v6m_small.aes_soft.soft.plane_words.PlaneWordsFourWords.substituted
	str	r7, [sp]
	ldr	r0, [sp, #52]                   @ 4-byte Reload
	adds	r2, r0, #3
	ldr	r6, [sp, #48]                   @ 4-byte Reload
	adcs	r4, r6
	ldr	r0, [sp, #56]                   @ 4-byte Reload
	mov	r3, r4
	bl	gcm_v6m_small.aes_soft.soft.plane_words.PlaneWordsFourWords.store
	ldr	r2, [sp, #44]                   @ 4-byte Reload
	ldr	r1, [sp, #40]                   @ 4-byte Reload
	adds	r0, r1, #1
	adcs	r2, r6
	subs	r1, r1, #5
	sbcs	r5, r6
	mov	r5, r2
	blo	.Lgcm_v6m_small_BB3_8
@ %bb.9:                                @ %"aes_planes::expansion::expand_256::<#389ec886eeff95cb>.exit.i"
	add	r5, sp, #60
	movs	r2, #12
	movs	r4, #0
	mov	r0, r5
	ldr	r7, [sp, #56]                   @ 4-byte Reload
	mov	r1, r7
	mov	r3, r4
	bl	gcm_v6m_small.aes_soft.soft.plane_words.PlaneWordsFourWords.read_back
	add	r6, sp, #188
	add	r2, sp, #156
	movs	r3, #64
	mov	r0, r6
	mov	r1, r5
	bl	gcm_v6m_small.aes_soft.soft.plane_words.PlaneWordsFourWords.rotated
	str	r6, [sp]
	movs	r2, #14
	mov	r0, r7
	mov	r3, r4
	bl	gcm_v6m_small.aes_soft.soft.plane_words.PlaneWordsFourWords.store
	mov	r0, r7
.Lgcm_v6m_small_BB3_10:                               @ %"aes_planes::expansion::expand::<#389ec886eeff95cb>.exit"
	ldr	r1, [sp, #8]                    @ 4-byte Reload
	lsrs	r2, r1, #2
	ldr	r3, [sp, #12]                   @ 4-byte Reload
	lsls	r1, r3, #30
	adds	r2, r2, r1
	lsrs	r1, r3, #2
	movs	r3, #0
	adds	r2, r2, #6
	adcs	r3, r1
	bl	gcm_v6m_small.aes_soft.soft.key_layout.store
	add	sp, #220
	pop	{r4, r5, r6, r7, pc}
	.p2align	2
@ %bb.11:
.Lgcm_v6m_small_CPI3_0:
	.long	.Lgcm_v6m_small_static.0
.Lgcm_v6m_small_func_end3:
	.size	gcm_v6m_small.aes_narrow.word_room.expand_words, .Lgcm_v6m_small_func_end3-gcm_v6m_small.aes_narrow.word_room.expand_words
	.cantunwind
	.fnend
                                        @ -- End function
	.section	.text.gcm_v6m_small.aes_soft.soft.plane_words.PlaneWordsFourWords.load,"ax",%progbits
	.p2align	1                               @ -- Begin function aes_soft::soft::plane_words::PlaneWordsFourWords::load::<#6af90bfc14753d47>
	.type	gcm_v6m_small.aes_soft.soft.plane_words.PlaneWordsFourWords.load,%function
	.code	16
	.thumb_func
gcm_v6m_small.aes_soft.soft.plane_words.PlaneWordsFourWords.load: @ @gcm_v6m_small.aes_soft.soft.plane_words.PlaneWordsFourWords.load
	.fnstart
@ %bb.0:                                @ %start
	.save	{r4, r5, r6, r7, lr}
	push	{r4, r5, r6, r7, lr}
	.pad	#92
	sub	sp, #92
	str	r0, [sp, #24]                   @ 4-byte Spill
	adds	r5, r1, r2
	ldrb	r0, [r5, #12]
	ldrb	r3, [r5, #13]
	lsls	r3, r3, #8
	adds	r0, r3, r0
	ldrb	r3, [r5, #14]
	lsls	r3, r3, #16
	adds	r0, r0, r3
	ldrb	r3, [r5, #15]
	lsls	r3, r3, #24
	adds	r0, r0, r3
	ldrb	r3, [r5, #3]
	str	r3, [sp, #20]                   @ 4-byte Spill
	ldrb	r3, [r5, #2]
	str	r3, [sp, #16]                   @ 4-byte Spill
	ldrb	r1, [r1, r2]
	str	r1, [sp, #12]                   @ 4-byte Spill
	ldrb	r1, [r5, #1]
	str	r1, [sp, #8]                    @ 4-byte Spill
	ldrb	r1, [r5, #7]
	str	r1, [sp, #4]                    @ 4-byte Spill
	ldrb	r7, [r5, #6]
	ldrb	r6, [r5, #4]
	ldrb	r4, [r5, #5]
	ldrb	r3, [r5, #11]
	ldrb	r2, [r5, #10]
	ldrb	r1, [r5, #8]
	ldrb	r5, [r5, #9]
	str	r0, [sp, #88]
	str	r0, [sp, #84]
	lsls	r0, r5, #8
	adds	r0, r0, r1
	lsls	r1, r2, #16
	adds	r0, r0, r1
	lsls	r1, r3, #24
	adds	r0, r0, r1
	str	r0, [sp, #80]
	str	r0, [sp, #76]
	lsls	r0, r4, #8
	adds	r0, r0, r6
	lsls	r1, r7, #16
	adds	r0, r0, r1
	ldr	r1, [sp, #4]                    @ 4-byte Reload
	lsls	r1, r1, #24
	adds	r0, r0, r1
	str	r0, [sp, #72]
	str	r0, [sp, #68]
	ldr	r0, [sp, #8]                    @ 4-byte Reload
	lsls	r0, r0, #8
	ldr	r1, [sp, #12]                   @ 4-byte Reload
	adds	r0, r0, r1
	ldr	r1, [sp, #16]                   @ 4-byte Reload
	lsls	r1, r1, #16
	adds	r0, r0, r1
	ldr	r1, [sp, #20]                   @ 4-byte Reload
	lsls	r1, r1, #24
	adds	r0, r0, r1
	str	r0, [sp, #64]
	str	r0, [sp, #60]
	add	r5, sp, #28
	add	r1, sp, #60
	mov	r0, r5
	bl	gcm_v6m_small.aes_planes.soft.word.transpose.transpose
	movs	r2, #32
	ldr	r0, [sp, #24]                   @ 4-byte Reload
	mov	r1, r5
	bl	memcpy
	add	sp, #92
	pop	{r4, r5, r6, r7, pc}
.Lgcm_v6m_small_func_end4:
	.size	gcm_v6m_small.aes_soft.soft.plane_words.PlaneWordsFourWords.load, .Lgcm_v6m_small_func_end4-gcm_v6m_small.aes_soft.soft.plane_words.PlaneWordsFourWords.load
	.cantunwind
	.fnend
                                        @ -- End function
	.section	.text.gcm_v6m_small.aes_planes.soft.word.transpose.transpose,"ax",%progbits
	.p2align	2                               @ -- Begin function aes_planes::soft::word::transpose::transpose::<#9d6d04665546a1c3>
	.type	gcm_v6m_small.aes_planes.soft.word.transpose.transpose,%function
	.code	16
	.thumb_func
gcm_v6m_small.aes_planes.soft.word.transpose.transpose: @ @gcm_v6m_small.aes_planes.soft.word.transpose.transpose
	.fnstart
@ %bb.0:                                @ %start
	.save	{r4, r5, r6, r7, lr}
	push	{r4, r5, r6, r7, lr}
	.pad	#40
	sub	sp, #40
	mov	r2, r0
	ldrb	r0, [r1, #28]
	ldrb	r3, [r1, #29]
	lsls	r3, r3, #8
	adds	r0, r3, r0
	ldrb	r3, [r1, #30]
	lsls	r3, r3, #16
	ldrb	r4, [r1, #31]
	lsls	r4, r4, #24
	adds	r3, r4, r3
	adds	r3, r3, r0
	ldrb	r0, [r1, #24]
	ldrb	r4, [r1, #25]
	lsls	r4, r4, #8
	adds	r0, r4, r0
	ldrb	r4, [r1, #26]
	lsls	r4, r4, #16
	ldrb	r5, [r1, #27]
	lsls	r5, r5, #24
	adds	r4, r5, r4
	adds	r0, r4, r0
	str	r0, [sp, #36]                   @ 4-byte Spill
	lsrs	r0, r0, #1
	eors	r0, r3
	ldr	r7, .Lgcm_v6m_small_CPI5_0
	ands	r0, r7
	str	r0, [sp, #28]                   @ 4-byte Spill
	eors	r3, r0
	ldrb	r0, [r1, #20]
	ldrb	r4, [r1, #21]
	lsls	r4, r4, #8
	adds	r0, r4, r0
	ldrb	r4, [r1, #22]
	lsls	r4, r4, #16
	ldrb	r5, [r1, #23]
	lsls	r5, r5, #24
	adds	r4, r5, r4
	adds	r6, r4, r0
	ldrb	r0, [r1, #16]
	ldrb	r4, [r1, #17]
	lsls	r4, r4, #8
	adds	r0, r4, r0
	ldrb	r4, [r1, #18]
	lsls	r4, r4, #16
	ldrb	r5, [r1, #19]
	lsls	r5, r5, #24
	adds	r4, r5, r4
	adds	r0, r4, r0
	str	r0, [sp, #20]                   @ 4-byte Spill
	lsrs	r0, r0, #1
	eors	r0, r6
	ands	r0, r7
	str	r0, [sp, #16]                   @ 4-byte Spill
	eors	r6, r0
	str	r6, [sp, #32]                   @ 4-byte Spill
	lsrs	r0, r6, #2
	eors	r0, r3
	ldr	r4, .Lgcm_v6m_small_CPI5_1
	ands	r0, r4
	str	r0, [sp, #24]                   @ 4-byte Spill
	eors	r3, r0
	ldrb	r0, [r1, #12]
	ldrb	r4, [r1, #13]
	lsls	r4, r4, #8
	adds	r0, r4, r0
	ldrb	r4, [r1, #14]
	lsls	r4, r4, #16
	ldrb	r6, [r1, #15]
	lsls	r6, r6, #24
	adds	r4, r6, r4
	adds	r5, r4, r0
	ldrb	r0, [r1, #8]
	ldrb	r4, [r1, #9]
	lsls	r4, r4, #8
	adds	r0, r4, r0
	ldrb	r4, [r1, #10]
	lsls	r4, r4, #16
	ldrb	r6, [r1, #11]
	lsls	r6, r6, #24
	adds	r4, r6, r4
	adds	r0, r4, r0
	str	r0, [sp, #12]                   @ 4-byte Spill
	lsrs	r0, r0, #1
	eors	r0, r5
	ands	r0, r7
	eors	r5, r0
	ldrb	r4, [r1, #4]
	ldrb	r6, [r1, #5]
	lsls	r6, r6, #8
	adds	r4, r6, r4
	ldrb	r6, [r1, #6]
	lsls	r6, r6, #16
	ldrb	r7, [r1, #7]
	lsls	r7, r7, #24
	adds	r6, r7, r6
	adds	r7, r6, r4
	ldrb	r4, [r1]
	ldrb	r6, [r1, #1]
	lsls	r6, r6, #8
	adds	r4, r6, r4
	ldrb	r6, [r1, #2]
	lsls	r6, r6, #16
	ldrb	r1, [r1, #3]
	lsls	r1, r1, #24
	adds	r1, r1, r6
	adds	r1, r1, r4
	str	r1, [sp]                        @ 4-byte Spill
	lsrs	r4, r1, #1
	eors	r4, r7
	ldr	r1, .Lgcm_v6m_small_CPI5_0
	ands	r4, r1
	eors	r7, r4
	str	r7, [sp, #4]                    @ 4-byte Spill
	lsrs	r6, r7, #2
	eors	r6, r5
	ldr	r1, .Lgcm_v6m_small_CPI5_1
	ands	r6, r1
	eors	r5, r6
	str	r5, [sp, #8]                    @ 4-byte Spill
	lsrs	r7, r5, #4
	eors	r7, r3
	ldr	r1, .Lgcm_v6m_small_CPI5_2
	ands	r7, r1
	eors	r3, r7
	strb	r3, [r2, #28]
	lsrs	r1, r3, #24
	strb	r1, [r2, #31]
	lsrs	r1, r3, #16
	strb	r1, [r2, #30]
	lsrs	r1, r3, #8
	strb	r1, [r2, #29]
	ldr	r1, [sp, #28]                   @ 4-byte Reload
	lsls	r3, r1, #1
	ldr	r1, [sp, #36]                   @ 4-byte Reload
	eors	r3, r1
	ldr	r1, [sp, #16]                   @ 4-byte Reload
	lsls	r5, r1, #1
	ldr	r1, [sp, #20]                   @ 4-byte Reload
	eors	r5, r1
	str	r5, [sp, #28]                   @ 4-byte Spill
	lsrs	r5, r5, #2
	eors	r5, r3
	ldr	r1, .Lgcm_v6m_small_CPI5_1
	ands	r5, r1
	eors	r3, r5
	lsls	r0, r0, #1
	ldr	r1, [sp, #12]                   @ 4-byte Reload
	eors	r0, r1
	lsls	r1, r4, #1
	ldr	r4, [sp]                        @ 4-byte Reload
	eors	r1, r4
	str	r1, [sp, #16]                   @ 4-byte Spill
	lsrs	r1, r1, #2
	eors	r1, r0
	ldr	r4, .Lgcm_v6m_small_CPI5_1
	ands	r1, r4
	eors	r0, r1
	str	r0, [sp, #36]                   @ 4-byte Spill
	lsrs	r0, r0, #4
	eors	r0, r3
	ldr	r4, .Lgcm_v6m_small_CPI5_2
	ands	r0, r4
	str	r0, [sp, #20]                   @ 4-byte Spill
	eors	r3, r0
	strb	r3, [r2, #24]
	ldr	r0, [sp, #24]                   @ 4-byte Reload
	lsls	r0, r0, #2
	ldr	r4, [sp, #32]                   @ 4-byte Reload
	eors	r0, r4
	lsls	r6, r6, #2
	ldr	r4, [sp, #4]                    @ 4-byte Reload
	eors	r6, r4
	str	r6, [sp, #32]                   @ 4-byte Spill
	lsrs	r6, r6, #4
	eors	r6, r0
	ldr	r4, .Lgcm_v6m_small_CPI5_2
	ands	r6, r4
	eors	r0, r6
	strb	r0, [r2, #20]
	lsls	r7, r7, #4
	ldr	r4, [sp, #8]                    @ 4-byte Reload
	eors	r7, r4
	strb	r7, [r2, #12]
	lsrs	r4, r3, #24
	strb	r4, [r2, #27]
	lsrs	r4, r3, #16
	strb	r4, [r2, #26]
	lsrs	r3, r3, #8
	strb	r3, [r2, #25]
	lsrs	r3, r0, #24
	strb	r3, [r2, #23]
	lsrs	r3, r0, #16
	strb	r3, [r2, #22]
	lsrs	r0, r0, #8
	strb	r0, [r2, #21]
	lsls	r5, r5, #2
	ldr	r0, [sp, #28]                   @ 4-byte Reload
	eors	r5, r0
	lsls	r1, r1, #2
	ldr	r0, [sp, #16]                   @ 4-byte Reload
	eors	r1, r0
	lsrs	r3, r1, #4
	eors	r3, r5
	ldr	r0, .Lgcm_v6m_small_CPI5_2
	ands	r3, r0
	eors	r5, r3
	strb	r5, [r2, #16]
	lsrs	r0, r7, #24
	strb	r0, [r2, #15]
	lsrs	r0, r7, #16
	strb	r0, [r2, #14]
	lsrs	r0, r7, #8
	strb	r0, [r2, #13]
	ldr	r0, [sp, #20]                   @ 4-byte Reload
	lsls	r4, r0, #4
	ldr	r0, [sp, #36]                   @ 4-byte Reload
	eors	r4, r0
	strb	r4, [r2, #8]
	lsls	r0, r6, #4
	ldr	r6, [sp, #32]                   @ 4-byte Reload
	eors	r0, r6
	strb	r0, [r2, #4]
	lsrs	r6, r5, #24
	strb	r6, [r2, #19]
	lsrs	r6, r5, #16
	strb	r6, [r2, #18]
	lsrs	r5, r5, #8
	strb	r5, [r2, #17]
	lsrs	r5, r4, #24
	strb	r5, [r2, #11]
	lsrs	r5, r4, #16
	strb	r5, [r2, #10]
	lsrs	r4, r4, #8
	strb	r4, [r2, #9]
	lsrs	r4, r0, #24
	strb	r4, [r2, #7]
	lsrs	r4, r0, #16
	strb	r4, [r2, #6]
	lsrs	r0, r0, #8
	strb	r0, [r2, #5]
	lsls	r0, r3, #4
	eors	r0, r1
	strb	r0, [r2]
	lsrs	r1, r0, #24
	strb	r1, [r2, #3]
	lsrs	r1, r0, #16
	strb	r1, [r2, #2]
	lsrs	r0, r0, #8
	strb	r0, [r2, #1]
	add	sp, #40
	pop	{r4, r5, r6, r7, pc}
	.p2align	2
@ %bb.1:
.Lgcm_v6m_small_CPI5_0:
	.long	1431655765                      @ 0x55555555
.Lgcm_v6m_small_CPI5_1:
	.long	858993459                       @ 0x33333333
.Lgcm_v6m_small_CPI5_2:
	.long	252645135                       @ 0xf0f0f0f
.Lgcm_v6m_small_func_end5:
	.size	gcm_v6m_small.aes_planes.soft.word.transpose.transpose, .Lgcm_v6m_small_func_end5-gcm_v6m_small.aes_planes.soft.word.transpose.transpose
	.cantunwind
	.fnend
                                        @ -- End function
	.section	.text.gcm_v6m_small.aes_soft.soft.plane_words.PlaneWordsFourWords.read_back,"ax",%progbits
	.p2align	1                               @ -- Begin function aes_soft::soft::plane_words::PlaneWordsFourWords::read_back::<#6af90bfc14753d47>
	.type	gcm_v6m_small.aes_soft.soft.plane_words.PlaneWordsFourWords.read_back,%function
	.code	16
	.thumb_func
gcm_v6m_small.aes_soft.soft.plane_words.PlaneWordsFourWords.read_back: @ @gcm_v6m_small.aes_soft.soft.plane_words.PlaneWordsFourWords.read_back
	.fnstart
@ %bb.0:                                @ %start
	.save	{r4, r5, r7, lr}
	push	{r4, r5, r7, lr}
	.pad	#32
	sub	sp, #32
	mov	r4, r0
	mov	r5, sp
	mov	r0, r5
	bl	gcm_v6m_small.aes_planes.soft.round_keys.round_key.1
	movs	r2, #32
	mov	r0, r4
	mov	r1, r5
	bl	memcpy
	add	sp, #32
	pop	{r4, r5, r7, pc}
.Lgcm_v6m_small_func_end6:
	.size	gcm_v6m_small.aes_soft.soft.plane_words.PlaneWordsFourWords.read_back, .Lgcm_v6m_small_func_end6-gcm_v6m_small.aes_soft.soft.plane_words.PlaneWordsFourWords.read_back
	.cantunwind
	.fnend
                                        @ -- End function
	.section	.text.gcm_v6m_small.aes_planes.soft.round_keys.round_key.1,"ax",%progbits
	.p2align	1                               @ -- Begin function aes_planes::soft::round_keys::round_key::<#6af90bfc14753d47>
	.type	gcm_v6m_small.aes_planes.soft.round_keys.round_key.1,%function
	.code	16
	.thumb_func
gcm_v6m_small.aes_planes.soft.round_keys.round_key.1: @ @gcm_v6m_small.aes_planes.soft.round_keys.round_key.1
	.fnstart
@ %bb.0:                                @ %start
	.save	{r4, r5, r6, r7, lr}
	push	{r4, r5, r6, r7, lr}
	.pad	#12
	sub	sp, #12
	lsls	r2, r2, #5
	ldr	r7, [r1, r2]
	adds	r1, r1, r2
	ldr	r2, [r1, #4]
	str	r2, [sp, #8]                    @ 4-byte Spill
	ldr	r4, [r1, #8]
	str	r4, [sp, #4]                    @ 4-byte Spill
	ldr	r3, [r1, #12]
	ldr	r2, [r1, #16]
	str	r2, [sp]                        @ 4-byte Spill
	ldr	r5, [r1, #20]
	ldr	r6, [r1, #24]
	ldr	r1, [r1, #28]
	strb	r1, [r0, #28]
	strb	r6, [r0, #24]
	strb	r5, [r0, #20]
	strb	r2, [r0, #16]
	strb	r3, [r0, #12]
	strb	r4, [r0, #8]
	ldr	r2, [sp, #8]                    @ 4-byte Reload
	strb	r2, [r0, #4]
	lsrs	r2, r7, #24
	strb	r2, [r0, #3]
	lsrs	r2, r7, #16
	strb	r2, [r0, #2]
	lsrs	r2, r7, #8
	strb	r2, [r0, #1]
	strb	r7, [r0]
	lsrs	r2, r1, #24
	strb	r2, [r0, #31]
	lsrs	r2, r1, #16
	strb	r2, [r0, #30]
	lsrs	r1, r1, #8
	strb	r1, [r0, #29]
	lsrs	r1, r6, #24
	strb	r1, [r0, #27]
	lsrs	r1, r6, #16
	strb	r1, [r0, #26]
	lsrs	r1, r6, #8
	strb	r1, [r0, #25]
	lsrs	r1, r5, #24
	strb	r1, [r0, #23]
	lsrs	r1, r5, #16
	strb	r1, [r0, #22]
	lsrs	r1, r5, #8
	strb	r1, [r0, #21]
	ldr	r2, [sp]                        @ 4-byte Reload
	lsrs	r1, r2, #24
	strb	r1, [r0, #19]
	lsrs	r1, r2, #16
	strb	r1, [r0, #18]
	lsrs	r1, r2, #8
	strb	r1, [r0, #17]
	lsrs	r1, r3, #24
	strb	r1, [r0, #15]
	lsrs	r1, r3, #16
	strb	r1, [r0, #14]
	lsrs	r1, r3, #8
	strb	r1, [r0, #13]
	ldr	r2, [sp, #4]                    @ 4-byte Reload
	lsrs	r1, r2, #24
	strb	r1, [r0, #11]
	lsrs	r1, r2, #16
	strb	r1, [r0, #10]
	lsrs	r1, r2, #8
	strb	r1, [r0, #9]
	ldr	r2, [sp, #8]                    @ 4-byte Reload
	lsrs	r1, r2, #24
	strb	r1, [r0, #7]
	lsrs	r1, r2, #16
	strb	r1, [r0, #6]
	lsrs	r1, r2, #8
	strb	r1, [r0, #5]
	add	sp, #12
	pop	{r4, r5, r6, r7, pc}
.Lgcm_v6m_small_func_end7:
	.size	gcm_v6m_small.aes_planes.soft.round_keys.round_key.1, .Lgcm_v6m_small_func_end7-gcm_v6m_small.aes_planes.soft.round_keys.round_key.1
	.cantunwind
	.fnend
                                        @ -- End function
	.section	.text.gcm_v6m_small.aes_soft.soft.plane_words.PlaneWordsFourWords.rotated,"ax",%progbits
	.p2align	1                               @ -- Begin function aes_soft::soft::plane_words::PlaneWordsFourWords::rotated::<#6af90bfc14753d47>
	.type	gcm_v6m_small.aes_soft.soft.plane_words.PlaneWordsFourWords.rotated,%function
	.code	16
	.thumb_func
gcm_v6m_small.aes_soft.soft.plane_words.PlaneWordsFourWords.rotated: @ @gcm_v6m_small.aes_soft.soft.plane_words.PlaneWordsFourWords.rotated
	.fnstart
@ %bb.0:                                @ %start
	.save	{r4, r5, r6, r7, lr}
	push	{r4, r5, r6, r7, lr}
	.pad	#108
	sub	sp, #108
	str	r3, [sp, #4]                    @ 4-byte Spill
	mov	r7, r2
	str	r0, [sp, #8]                    @ 4-byte Spill
	add	r6, sp, #44
	movs	r5, #32
	mov	r0, r6
	mov	r2, r5
	bl	memcpy
	add	r4, sp, #12
	mov	r0, r4
	mov	r1, r7
	mov	r2, r5
	bl	memcpy
	mov	r0, r4
	bl	gcm_v6m_small.aes_soft.soft.plane_words.substitute
	mov	r0, r4
	ldr	r1, [sp, #4]                    @ 4-byte Reload
	bl	gcm_v6m_small.aes_planes.soft.key_columns.add_round_constant
	add	r7, sp, #76
	movs	r3, #14
	mov	r0, r7
	mov	r1, r6
	mov	r2, r4
	bl	gcm_v6m_small.aes_planes.soft.key_columns.summed_columns
	ldr	r0, [sp, #8]                    @ 4-byte Reload
	mov	r1, r7
	mov	r2, r5
	bl	memcpy
	add	sp, #108
	pop	{r4, r5, r6, r7, pc}
.Lgcm_v6m_small_func_end8:
	.size	gcm_v6m_small.aes_soft.soft.plane_words.PlaneWordsFourWords.rotated, .Lgcm_v6m_small_func_end8-gcm_v6m_small.aes_soft.soft.plane_words.PlaneWordsFourWords.rotated
	.cantunwind
	.fnend
                                        @ -- End function
	.section	.text.gcm_v6m_small.aes_soft.soft.plane_words.substitute,"ax",%progbits
	.p2align	1                               @ -- Begin function aes_soft::soft::plane_words::substitute::<#6af90bfc14753d47>
	.type	gcm_v6m_small.aes_soft.soft.plane_words.substitute,%function
	.code	16
	.thumb_func
gcm_v6m_small.aes_soft.soft.plane_words.substitute: @ @gcm_v6m_small.aes_soft.soft.plane_words.substitute
	.fnstart
@ %bb.0:                                @ %start
	.save	{r4, lr}
	push	{r4, lr}
	mov	r4, r0
	bl	gcm_v6m_small.aes_planes.soft.sbox.sub_bytes
	mov	r0, r4
	bl	gcm_v6m_small.aes_planes.soft.sbox.sub_bytes_nots
	pop	{r4, pc}
.Lgcm_v6m_small_func_end9:
	.size	gcm_v6m_small.aes_soft.soft.plane_words.substitute, .Lgcm_v6m_small_func_end9-gcm_v6m_small.aes_soft.soft.plane_words.substitute
	.cantunwind
	.fnend
                                        @ -- End function
	.section	.text.gcm_v6m_small.aes_planes.soft.sbox.sub_bytes,"ax",%progbits
	.p2align	1                               @ -- Begin function aes_planes::soft::sbox::sub_bytes::<#6af90bfc14753d47>
	.type	gcm_v6m_small.aes_planes.soft.sbox.sub_bytes,%function
	.code	16
	.thumb_func
gcm_v6m_small.aes_planes.soft.sbox.sub_bytes: @ @gcm_v6m_small.aes_planes.soft.sbox.sub_bytes
	.fnstart
@ %bb.0:                                @ %start
	.save	{r4, r5, r6, r7, lr}
	push	{r4, r5, r6, r7, lr}
	.pad	#96
	sub	sp, #96
	mov	r1, r0
	str	r0, [sp, #36]                   @ 4-byte Spill
	ldr	r0, [r0]
	str	r0, [sp, #92]                   @ 4-byte Spill
	ldr	r4, [r1, #4]
	str	r4, [sp, #76]                   @ 4-byte Spill
	ldr	r7, [r1, #8]
	ldr	r0, [r1, #12]
	str	r0, [sp, #56]                   @ 4-byte Spill
	ldr	r5, [r1, #16]
	str	r5, [sp, #68]                   @ 4-byte Spill
	ldr	r6, [r1, #20]
	ldr	r2, [r1, #24]
	ldr	r1, [r1, #28]
	eors	r5, r7
	str	r7, [sp, #64]                   @ 4-byte Spill
	mov	r0, r1
	str	r1, [sp, #44]                   @ 4-byte Spill
	eors	r0, r4
	str	r0, [sp, #32]                   @ 4-byte Spill
	mov	r3, r0
	eors	r3, r5
	mov	r4, r5
	str	r5, [sp, #12]                   @ 4-byte Spill
	str	r3, [sp, #72]                   @ 4-byte Spill
	ldr	r5, [sp, #56]                   @ 4-byte Reload
	eors	r5, r3
	mov	r0, r5
	eors	r0, r7
	str	r0, [sp, #28]                   @ 4-byte Spill
	eors	r6, r2
	eors	r0, r6
	str	r0, [sp, #84]                   @ 4-byte Spill
	eors	r5, r2
	str	r5, [sp, #56]                   @ 4-byte Spill
	mov	r2, r1
	ldr	r1, [sp, #68]                   @ 4-byte Reload
	eors	r2, r1
	eors	r5, r2
	mov	r1, r2
	str	r2, [sp, #8]                    @ 4-byte Spill
	mov	r3, r5
	eors	r3, r0
	str	r3, [sp, #52]                   @ 4-byte Spill
	ands	r3, r4
	mov	r2, r5
	ands	r2, r1
	eors	r3, r2
	str	r3, [sp, #40]                   @ 4-byte Spill
	mov	r0, r5
	mov	r1, r5
	str	r5, [sp, #48]                   @ 4-byte Spill
	eors	r0, r6
	ldr	r5, [sp, #92]                   @ 4-byte Reload
	eors	r6, r5
	str	r6, [sp, #80]                   @ 4-byte Spill
	ldr	r7, [sp, #76]                   @ 4-byte Reload
	eors	r7, r6
	str	r7, [sp, #76]                   @ 4-byte Spill
	ands	r7, r6
	str	r0, [sp, #60]                   @ 4-byte Spill
	eors	r7, r0
	mov	r5, r0
	ldr	r0, [sp, #32]                   @ 4-byte Reload
	ands	r5, r0
	eors	r7, r5
	eors	r7, r0
	eors	r7, r3
	str	r7, [sp, #88]                   @ 4-byte Spill
	ldr	r4, [sp, #64]                   @ 4-byte Reload
	ldr	r0, [sp, #44]                   @ 4-byte Reload
	eors	r4, r0
	ldr	r6, [sp, #84]                   @ 4-byte Reload
	ands	r6, r4
	mov	r7, r4
	str	r4, [sp, #64]                   @ 4-byte Spill
	eors	r6, r2
	mov	r4, r1
	ldr	r3, [sp, #92]                   @ 4-byte Reload
	eors	r4, r3
	str	r4, [sp, #16]                   @ 4-byte Spill
	ldr	r1, [sp, #80]                   @ 4-byte Reload
	eors	r1, r0
	str	r1, [sp, #4]                    @ 4-byte Spill
	ands	r4, r1
	ldr	r1, [sp, #60]                   @ 4-byte Reload
	eors	r4, r1
	eors	r4, r5
	eors	r4, r0
	eors	r4, r6
	ldr	r0, [sp, #88]                   @ 4-byte Reload
	eors	r0, r4
	str	r0, [sp, #24]                   @ 4-byte Spill
	ldr	r2, [sp, #28]                   @ 4-byte Reload
	mov	r1, r2
	ldr	r5, [sp, #72]                   @ 4-byte Reload
	ands	r1, r5
	ldr	r5, [sp, #76]                   @ 4-byte Reload
	eors	r5, r7
	mov	r7, r5
	str	r5, [sp, #44]                   @ 4-byte Spill
	mov	r5, r2
	eors	r5, r3
	str	r5, [sp]                        @ 4-byte Spill
	ands	r5, r7
	ldr	r0, [sp, #56]                   @ 4-byte Reload
	eors	r5, r0
	eors	r5, r1
	ldr	r0, [sp, #40]                   @ 4-byte Reload
	eors	r5, r0
	ldr	r3, [sp, #88]                   @ 4-byte Reload
	mov	r7, r3
	ands	r7, r5
	ldr	r0, [sp, #68]                   @ 4-byte Reload
	ldr	r2, [sp, #80]                   @ 4-byte Reload
	eors	r0, r2
	str	r0, [sp, #68]                   @ 4-byte Spill
	ldr	r2, [sp, #92]                   @ 4-byte Reload
	ands	r0, r2
	ldr	r2, [sp, #64]                   @ 4-byte Reload
	eors	r0, r2
	ldr	r2, [sp, #84]                   @ 4-byte Reload
	eors	r0, r2
	eors	r0, r1
	eors	r0, r6
	mov	r1, r7
	eors	r1, r0
	ldr	r2, [sp, #24]                   @ 4-byte Reload
	ands	r1, r2
	mov	r6, r1
	eors	r6, r4
	eors	r1, r7
	ands	r1, r4
	mov	r2, r3
	eors	r2, r1
	str	r2, [sp, #88]                   @ 4-byte Spill
	mov	r3, r2
	eors	r3, r6
	str	r3, [sp, #20]                   @ 4-byte Spill
	str	r6, [sp, #24]                   @ 4-byte Spill
	eors	r5, r0
	eors	r7, r4
	eors	r1, r7
	ands	r7, r5
	eors	r7, r0
	ands	r1, r7
	eors	r1, r5
	mov	r5, r1
	eors	r5, r3
	mov	r3, r7
	eors	r3, r6
	mov	r0, r5
	eors	r0, r3
	str	r0, [sp, #40]                   @ 4-byte Spill
	ldr	r2, [sp, #52]                   @ 4-byte Reload
	ands	r2, r0
	ldr	r6, [sp, #80]                   @ 4-byte Reload
	ands	r6, r1
	mov	r0, r1
	eors	r0, r7
	str	r0, [sp, #56]                   @ 4-byte Spill
	ldr	r0, [sp, #60]                   @ 4-byte Reload
	ldr	r4, [sp, #56]                   @ 4-byte Reload
	ands	r0, r4
	str	r0, [sp, #60]                   @ 4-byte Spill
	eors	r6, r0
	str	r6, [sp, #80]                   @ 4-byte Spill
	eors	r2, r6
	str	r2, [sp, #52]                   @ 4-byte Spill
	ldr	r0, [sp, #48]                   @ 4-byte Reload
	mov	r4, r3
	ands	r0, r3
	eors	r0, r2
	mov	r6, r0
	str	r0, [sp, #48]                   @ 4-byte Spill
	ldr	r0, [sp, #12]                   @ 4-byte Reload
	ldr	r3, [sp, #40]                   @ 4-byte Reload
	ands	r3, r0
	ldr	r0, [sp, #8]                    @ 4-byte Reload
	ands	r4, r0
	eors	r3, r4
	str	r3, [sp, #40]                   @ 4-byte Spill
	ldr	r2, [sp, #44]                   @ 4-byte Reload
	ldr	r0, [sp, #20]                   @ 4-byte Reload
	ands	r2, r0
	eors	r2, r3
	str	r2, [sp, #44]                   @ 4-byte Spill
	ldr	r0, [sp, #72]                   @ 4-byte Reload
	ldr	r3, [sp, #88]                   @ 4-byte Reload
	ands	r0, r3
	eors	r0, r2
	str	r0, [sp, #72]                   @ 4-byte Spill
	eors	r0, r6
	ldr	r6, [sp, #36]                   @ 4-byte Reload
	str	r0, [r6, #28]
	ldr	r2, [sp, #84]                   @ 4-byte Reload
	ands	r2, r5
	ldr	r0, [sp, #92]                   @ 4-byte Reload
	ldr	r6, [sp, #24]                   @ 4-byte Reload
	ands	r0, r6
	ldr	r6, [sp, #28]                   @ 4-byte Reload
	ands	r3, r6
	str	r3, [sp, #88]                   @ 4-byte Spill
	eors	r0, r3
	str	r0, [sp, #92]                   @ 4-byte Spill
	eors	r2, r0
	ldr	r0, [sp, #32]                   @ 4-byte Reload
	ldr	r3, [sp, #56]                   @ 4-byte Reload
	ands	r3, r0
	str	r3, [sp, #56]                   @ 4-byte Spill
	mov	r0, r2
	eors	r0, r3
	ldr	r2, [sp, #52]                   @ 4-byte Reload
	eors	r0, r2
	str	r0, [sp, #84]                   @ 4-byte Spill
	ldr	r2, [sp, #4]                    @ 4-byte Reload
	ands	r2, r7
	eors	r2, r0
	ldr	r0, [sp, #64]                   @ 4-byte Reload
	ands	r5, r0
	eors	r5, r4
	ldr	r6, [sp, #48]                   @ 4-byte Reload
	eors	r5, r6
	eors	r5, r2
	ldr	r0, [sp, #36]                   @ 4-byte Reload
	str	r5, [r0, #20]
	ldr	r4, [sp]                        @ 4-byte Reload
	ldr	r3, [sp, #20]                   @ 4-byte Reload
	ands	r3, r4
	ldr	r4, [sp, #88]                   @ 4-byte Reload
	eors	r3, r4
	ldr	r4, [sp, #80]                   @ 4-byte Reload
	eors	r3, r4
	ldr	r4, [sp, #72]                   @ 4-byte Reload
	eors	r3, r4
	str	r3, [r0, #16]
	ldr	r4, [sp, #68]                   @ 4-byte Reload
	ldr	r5, [sp, #24]                   @ 4-byte Reload
	ands	r5, r4
	ldr	r4, [sp, #44]                   @ 4-byte Reload
	eors	r5, r4
	eors	r5, r2
	str	r5, [r0, #8]
	ldr	r2, [sp, #16]                   @ 4-byte Reload
	ands	r7, r2
	ldr	r2, [sp, #92]                   @ 4-byte Reload
	eors	r7, r2
	ldr	r2, [sp, #60]                   @ 4-byte Reload
	eors	r7, r2
	ldr	r4, [sp, #76]                   @ 4-byte Reload
	ands	r1, r4
	ldr	r2, [sp, #40]                   @ 4-byte Reload
	eors	r1, r2
	eors	r1, r7
	ldr	r2, [sp, #84]                   @ 4-byte Reload
	eors	r2, r1
	str	r2, [r0, #4]
	ldr	r2, [sp, #56]                   @ 4-byte Reload
	eors	r1, r2
	str	r1, [r0]
	eors	r6, r3
	str	r6, [r0, #24]
	eors	r7, r3
	str	r7, [r0, #12]
	add	sp, #96
	pop	{r4, r5, r6, r7, pc}
.Lgcm_v6m_small_func_end10:
	.size	gcm_v6m_small.aes_planes.soft.sbox.sub_bytes, .Lgcm_v6m_small_func_end10-gcm_v6m_small.aes_planes.soft.sbox.sub_bytes
	.cantunwind
	.fnend
                                        @ -- End function
	.section	.text.gcm_v6m_small.aes_planes.soft.sbox.sub_bytes_nots,"ax",%progbits
	.p2align	1                               @ -- Begin function aes_planes::soft::sbox::sub_bytes_nots::<#6af90bfc14753d47>
	.type	gcm_v6m_small.aes_planes.soft.sbox.sub_bytes_nots,%function
	.code	16
	.thumb_func
gcm_v6m_small.aes_planes.soft.sbox.sub_bytes_nots: @ @gcm_v6m_small.aes_planes.soft.sbox.sub_bytes_nots
	.fnstart
@ %bb.0:                                @ %start
	ldr	r1, [r0, #24]
	mvns	r1, r1
	str	r1, [r0, #24]
	ldr	r1, [r0, #20]
	mvns	r1, r1
	str	r1, [r0, #20]
	ldr	r1, [r0, #4]
	mvns	r1, r1
	str	r1, [r0, #4]
	ldr	r1, [r0]
	mvns	r1, r1
	str	r1, [r0]
	bx	lr
.Lgcm_v6m_small_func_end11:
	.size	gcm_v6m_small.aes_planes.soft.sbox.sub_bytes_nots, .Lgcm_v6m_small_func_end11-gcm_v6m_small.aes_planes.soft.sbox.sub_bytes_nots
	.cantunwind
	.fnend
                                        @ -- End function
	.section	.text.gcm_v6m_small.aes_planes.soft.key_columns.add_round_constant,"ax",%progbits
	.p2align	1                               @ -- Begin function aes_planes::soft::key_columns::add_round_constant::<#6af90bfc14753d47>
	.type	gcm_v6m_small.aes_planes.soft.key_columns.add_round_constant,%function
	.code	16
	.thumb_func
gcm_v6m_small.aes_planes.soft.key_columns.add_round_constant: @ @gcm_v6m_small.aes_planes.soft.key_columns.add_round_constant
	.fnstart
@ %bb.0:                                @ %start
	.save	{r4, r5, r7, lr}
	push	{r4, r5, r7, lr}
	movs	r3, #64
	mov	r4, r1
	ands	r4, r3
	movs	r2, #3
	lsls	r2, r2, #8
	muls	r4, r2, r4
	ldr	r5, [r0, #24]
	eors	r5, r4
	str	r5, [r0, #24]
	lsrs	r4, r1, #1
	ands	r4, r3
	muls	r4, r2, r4
	ldr	r5, [r0, #28]
	eors	r5, r4
	str	r5, [r0, #28]
	lsls	r4, r1, #1
	ands	r4, r3
	muls	r4, r2, r4
	ldr	r5, [r0, #20]
	eors	r5, r4
	str	r5, [r0, #20]
	lsls	r4, r1, #2
	ands	r4, r3
	muls	r4, r2, r4
	ldr	r5, [r0, #16]
	eors	r5, r4
	str	r5, [r0, #16]
	lsls	r4, r1, #3
	ands	r4, r3
	muls	r4, r2, r4
	ldr	r5, [r0, #12]
	eors	r5, r4
	str	r5, [r0, #12]
	lsls	r4, r1, #4
	ands	r4, r3
	muls	r4, r2, r4
	ldr	r5, [r0, #8]
	eors	r5, r4
	str	r5, [r0, #8]
	lsls	r4, r1, #5
	ands	r4, r3
	muls	r4, r2, r4
	ldr	r3, [r0, #4]
	eors	r3, r4
	str	r3, [r0, #4]
	lsls	r1, r1, #31
	lsrs	r1, r1, #25
	muls	r1, r2, r1
	ldr	r2, [r0]
	eors	r2, r1
	str	r2, [r0]
	pop	{r4, r5, r7, pc}
.Lgcm_v6m_small_func_end12:
	.size	gcm_v6m_small.aes_planes.soft.key_columns.add_round_constant, .Lgcm_v6m_small_func_end12-gcm_v6m_small.aes_planes.soft.key_columns.add_round_constant
	.cantunwind
	.fnend
                                        @ -- End function
	.section	.text.gcm_v6m_small.aes_planes.soft.key_columns.summed_columns,"ax",%progbits
	.p2align	2                               @ -- Begin function aes_planes::soft::key_columns::summed_columns::<#6af90bfc14753d47>
	.type	gcm_v6m_small.aes_planes.soft.key_columns.summed_columns,%function
	.code	16
	.thumb_func
gcm_v6m_small.aes_planes.soft.key_columns.summed_columns: @ @gcm_v6m_small.aes_planes.soft.key_columns.summed_columns
	.fnstart
@ %bb.0:                                @ %start
	.save	{r4, r5, r6, r7, lr}
	push	{r4, r5, r6, r7, lr}
	.pad	#48
	sub	sp, #48
	str	r3, [sp, #4]                    @ 4-byte Spill
	ldr	r5, [r2, #28]
	rors	r5, r3
	ldr	r3, .Lgcm_v6m_small_CPI13_0
	ands	r5, r3
	ldr	r4, [r1, #28]
	eors	r4, r5
	lsls	r3, r4, #2
	ldr	r5, .Lgcm_v6m_small_CPI13_1
	ands	r3, r5
	eors	r3, r4
	lsls	r4, r3, #4
	ldr	r5, .Lgcm_v6m_small_CPI13_2
	ands	r4, r5
	eors	r4, r3
	mov	r5, r4
	str	r4, [sp, #40]                   @ 4-byte Spill
	ldr	r3, [r1]
	str	r3, [sp, #44]                   @ 4-byte Spill
	ldr	r3, [r2]
	str	r3, [sp, #36]                   @ 4-byte Spill
	ldr	r3, [r1, #4]
	str	r3, [sp, #28]                   @ 4-byte Spill
	ldr	r3, [r2, #4]
	str	r3, [sp, #24]                   @ 4-byte Spill
	ldr	r3, [r1, #8]
	str	r3, [sp, #16]                   @ 4-byte Spill
	ldr	r3, [r2, #8]
	str	r3, [sp]                        @ 4-byte Spill
	ldr	r3, [r1, #12]
	str	r3, [sp, #12]                   @ 4-byte Spill
	ldr	r4, [r2, #12]
	ldr	r3, [r1, #16]
	str	r3, [sp, #8]                    @ 4-byte Spill
	ldr	r3, [r2, #16]
	ldr	r6, [r1, #20]
	str	r6, [sp, #20]                   @ 4-byte Spill
	ldr	r7, [r2, #20]
	ldr	r6, [r1, #24]
	ldr	r2, [r2, #24]
	strb	r5, [r0, #28]
	ldr	r5, [sp, #4]                    @ 4-byte Reload
	rors	r2, r5
	ldr	r1, .Lgcm_v6m_small_CPI13_0
	ands	r2, r1
	eors	r2, r6
	lsls	r1, r2, #2
	ldr	r6, .Lgcm_v6m_small_CPI13_1
	ands	r1, r6
	eors	r1, r2
	lsls	r2, r1, #4
	ldr	r6, .Lgcm_v6m_small_CPI13_2
	ands	r2, r6
	eors	r2, r1
	str	r2, [sp, #32]                   @ 4-byte Spill
	strb	r2, [r0, #24]
	rors	r7, r5
	mov	r2, r5
	ldr	r6, .Lgcm_v6m_small_CPI13_0
	ands	r7, r6
	ldr	r1, [sp, #20]                   @ 4-byte Reload
	eors	r7, r1
	lsls	r1, r7, #2
	ldr	r5, .Lgcm_v6m_small_CPI13_1
	ands	r1, r5
	eors	r1, r7
	lsls	r7, r1, #4
	ldr	r5, .Lgcm_v6m_small_CPI13_2
	ands	r7, r5
	eors	r7, r1
	str	r7, [sp, #20]                   @ 4-byte Spill
	strb	r7, [r0, #20]
	mov	r7, r2
	rors	r3, r2
	ands	r3, r6
	ldr	r1, [sp, #8]                    @ 4-byte Reload
	eors	r3, r1
	lsls	r1, r3, #2
	ldr	r2, .Lgcm_v6m_small_CPI13_1
	ands	r1, r2
	eors	r1, r3
	lsls	r2, r1, #4
	ands	r2, r5
	mov	r6, r5
	eors	r2, r1
	strb	r2, [r0, #16]
	rors	r4, r7
	mov	r1, r7
	ldr	r5, .Lgcm_v6m_small_CPI13_0
	ands	r4, r5
	ldr	r3, [sp, #12]                   @ 4-byte Reload
	eors	r4, r3
	lsls	r3, r4, #2
	ldr	r7, .Lgcm_v6m_small_CPI13_1
	ands	r3, r7
	eors	r3, r4
	lsls	r7, r3, #4
	ands	r7, r6
	eors	r7, r3
	strb	r7, [r0, #12]
	ldr	r6, [sp]                        @ 4-byte Reload
	rors	r6, r1
	ands	r6, r5
	ldr	r3, [sp, #16]                   @ 4-byte Reload
	eors	r6, r3
	lsls	r4, r6, #2
	ldr	r3, .Lgcm_v6m_small_CPI13_1
	ands	r4, r3
	eors	r4, r6
	lsls	r3, r4, #4
	ldr	r5, .Lgcm_v6m_small_CPI13_2
	ands	r3, r5
	eors	r3, r4
	strb	r3, [r0, #8]
	ldr	r4, [sp, #24]                   @ 4-byte Reload
	rors	r4, r1
	ldr	r5, .Lgcm_v6m_small_CPI13_0
	ands	r4, r5
	ldr	r5, [sp, #28]                   @ 4-byte Reload
	eors	r4, r5
	lsls	r5, r4, #2
	ldr	r6, .Lgcm_v6m_small_CPI13_1
	ands	r5, r6
	eors	r5, r4
	lsls	r4, r5, #4
	ldr	r6, .Lgcm_v6m_small_CPI13_2
	ands	r4, r6
	eors	r4, r5
	strb	r4, [r0, #4]
	ldr	r5, [sp, #36]                   @ 4-byte Reload
	rors	r5, r1
	ldr	r1, .Lgcm_v6m_small_CPI13_0
	ands	r5, r1
	ldr	r1, [sp, #44]                   @ 4-byte Reload
	eors	r5, r1
	lsls	r1, r5, #2
	ldr	r6, .Lgcm_v6m_small_CPI13_1
	ands	r1, r6
	eors	r1, r5
	lsls	r6, r1, #4
	ldr	r5, .Lgcm_v6m_small_CPI13_2
	ands	r6, r5
	eors	r6, r1
	strb	r6, [r0]
	ldr	r1, [sp, #40]                   @ 4-byte Reload
	lsrs	r5, r1, #24
	strb	r5, [r0, #31]
	lsrs	r5, r1, #16
	strb	r5, [r0, #30]
	lsrs	r5, r1, #8
	strb	r5, [r0, #29]
	ldr	r1, [sp, #32]                   @ 4-byte Reload
	lsrs	r5, r1, #24
	strb	r5, [r0, #27]
	lsrs	r5, r1, #16
	strb	r5, [r0, #26]
	lsrs	r5, r1, #8
	strb	r5, [r0, #25]
	ldr	r1, [sp, #20]                   @ 4-byte Reload
	lsrs	r5, r1, #24
	strb	r5, [r0, #23]
	lsrs	r5, r1, #16
	strb	r5, [r0, #22]
	lsrs	r5, r1, #8
	strb	r5, [r0, #21]
	lsrs	r5, r2, #24
	strb	r5, [r0, #19]
	lsrs	r5, r2, #16
	strb	r5, [r0, #18]
	lsrs	r2, r2, #8
	strb	r2, [r0, #17]
	lsrs	r2, r7, #24
	strb	r2, [r0, #15]
	lsrs	r2, r7, #16
	strb	r2, [r0, #14]
	lsrs	r1, r7, #8
	strb	r1, [r0, #13]
	lsrs	r1, r3, #24
	strb	r1, [r0, #11]
	lsrs	r1, r3, #16
	strb	r1, [r0, #10]
	lsrs	r1, r3, #8
	strb	r1, [r0, #9]
	lsrs	r1, r4, #24
	strb	r1, [r0, #7]
	lsrs	r1, r4, #16
	strb	r1, [r0, #6]
	lsrs	r1, r4, #8
	strb	r1, [r0, #5]
	lsrs	r1, r6, #24
	strb	r1, [r0, #3]
	lsrs	r1, r6, #16
	strb	r1, [r0, #2]
	lsrs	r1, r6, #8
	strb	r1, [r0, #1]
	add	sp, #48
	pop	{r4, r5, r6, r7, pc}
	.p2align	2
@ %bb.1:
.Lgcm_v6m_small_CPI13_0:
	.long	50529027                        @ 0x3030303
.Lgcm_v6m_small_CPI13_1:
	.long	4244438268                      @ 0xfcfcfcfc
.Lgcm_v6m_small_CPI13_2:
	.long	4042322160                      @ 0xf0f0f0f0
.Lgcm_v6m_small_func_end13:
	.size	gcm_v6m_small.aes_planes.soft.key_columns.summed_columns, .Lgcm_v6m_small_func_end13-gcm_v6m_small.aes_planes.soft.key_columns.summed_columns
	.cantunwind
	.fnend
                                        @ -- End function
	.section	.text.gcm_v6m_small.aes_soft.soft.plane_words.PlaneWordsFourWords.store,"ax",%progbits
	.p2align	1                               @ -- Begin function aes_soft::soft::plane_words::PlaneWordsFourWords::store::<#6af90bfc14753d47>
	.type	gcm_v6m_small.aes_soft.soft.plane_words.PlaneWordsFourWords.store,%function
	.code	16
	.thumb_func
gcm_v6m_small.aes_soft.soft.plane_words.PlaneWordsFourWords.store: @ @gcm_v6m_small.aes_soft.soft.plane_words.PlaneWordsFourWords.store
	.fnstart
@ %bb.0:                                @ %start
	.save	{r4, r5, r6, r7, lr}
	push	{r4, r5, r6, r7, lr}
	.pad	#36
	sub	sp, #36
	mov	r4, r3
	mov	r5, r2
	mov	r6, r0
	add	r7, sp, #4
	ldr	r1, [sp, #56]
	movs	r2, #32
	mov	r0, r7
	bl	memcpy
	str	r7, [sp]
	mov	r0, r6
	mov	r2, r5
	mov	r3, r4
	bl	gcm_v6m_small.aes_planes.soft.round_keys.store_round_key
	add	sp, #36
	pop	{r4, r5, r6, r7, pc}
.Lgcm_v6m_small_func_end14:
	.size	gcm_v6m_small.aes_soft.soft.plane_words.PlaneWordsFourWords.store, .Lgcm_v6m_small_func_end14-gcm_v6m_small.aes_soft.soft.plane_words.PlaneWordsFourWords.store
	.cantunwind
	.fnend
                                        @ -- End function
	.section	.text.gcm_v6m_small.aes_planes.soft.round_keys.store_round_key,"ax",%progbits
	.p2align	1                               @ -- Begin function aes_planes::soft::round_keys::store_round_key::<#6af90bfc14753d47>
	.type	gcm_v6m_small.aes_planes.soft.round_keys.store_round_key,%function
	.code	16
	.thumb_func
gcm_v6m_small.aes_planes.soft.round_keys.store_round_key: @ @gcm_v6m_small.aes_planes.soft.round_keys.store_round_key
	.fnstart
@ %bb.0:                                @ %start
	ldr	r1, [sp]
	ldr	r3, [r1]
	lsls	r2, r2, #5
	str	r3, [r0, r2]
	adds	r0, r0, r2
	ldr	r2, [r1, #4]
	str	r2, [r0, #4]
	ldr	r2, [r1, #8]
	str	r2, [r0, #8]
	ldr	r2, [r1, #12]
	str	r2, [r0, #12]
	ldr	r2, [r1, #16]
	str	r2, [r0, #16]
	ldr	r2, [r1, #20]
	str	r2, [r0, #20]
	ldr	r2, [r1, #24]
	str	r2, [r0, #24]
	ldr	r1, [r1, #28]
	str	r1, [r0, #28]
	bx	lr
.Lgcm_v6m_small_func_end15:
	.size	gcm_v6m_small.aes_planes.soft.round_keys.store_round_key, .Lgcm_v6m_small_func_end15-gcm_v6m_small.aes_planes.soft.round_keys.store_round_key
	.cantunwind
	.fnend
                                        @ -- End function
	.section	.text.gcm_v6m_small.aes_soft.soft.plane_words.PlaneWordsFourWords.straddled,"ax",%progbits
	.p2align	1                               @ -- Begin function aes_soft::soft::plane_words::PlaneWordsFourWords::straddled::<#6af90bfc14753d47>
	.type	gcm_v6m_small.aes_soft.soft.plane_words.PlaneWordsFourWords.straddled,%function
	.code	16
	.thumb_func
gcm_v6m_small.aes_soft.soft.plane_words.PlaneWordsFourWords.straddled: @ @gcm_v6m_small.aes_soft.soft.plane_words.PlaneWordsFourWords.straddled
	.fnstart
@ %bb.0:                                @ %start
	.save	{r4, r5, r6, r7, lr}
	push	{r4, r5, r6, r7, lr}
	.pad	#100
	sub	sp, #100
	mov	r7, r2
	str	r0, [sp]                        @ 4-byte Spill
	add	r6, sp, #36
	movs	r5, #32
	mov	r0, r6
	mov	r2, r5
	bl	memcpy
	add	r4, sp, #4
	mov	r0, r4
	mov	r1, r7
	mov	r2, r5
	bl	memcpy
	add	r7, sp, #68
	mov	r0, r7
	mov	r1, r6
	mov	r2, r4
	bl	gcm_v6m_small.aes_planes.soft.key_columns.straddle_columns
	ldr	r0, [sp]                        @ 4-byte Reload
	mov	r1, r7
	mov	r2, r5
	bl	memcpy
	add	sp, #100
	pop	{r4, r5, r6, r7, pc}
.Lgcm_v6m_small_func_end16:
	.size	gcm_v6m_small.aes_soft.soft.plane_words.PlaneWordsFourWords.straddled, .Lgcm_v6m_small_func_end16-gcm_v6m_small.aes_soft.soft.plane_words.PlaneWordsFourWords.straddled
	.cantunwind
	.fnend
                                        @ -- End function
	.section	.text.gcm_v6m_small.aes_planes.soft.key_columns.straddle_columns,"ax",%progbits
	.p2align	1                               @ -- Begin function aes_planes::soft::key_columns::straddle_columns::<#6af90bfc14753d47>
	.type	gcm_v6m_small.aes_planes.soft.key_columns.straddle_columns,%function
	.code	16
	.thumb_func
gcm_v6m_small.aes_planes.soft.key_columns.straddle_columns: @ @gcm_v6m_small.aes_planes.soft.key_columns.straddle_columns
	.fnstart
@ %bb.0:                                @ %start
	.save	{r4, r5, r6, r7, lr}
	push	{r4, r5, r6, r7, lr}
	.pad	#28
	sub	sp, #28
	mov	r6, r2
	mov	r7, r1
	mov	r4, r0
	ldr	r1, [r2]
	ldr	r0, [r7]
	bl	gcm_v6m_small.aes_planes.soft.key_columns.straddle
	str	r0, [sp, #24]                   @ 4-byte Spill
	ldr	r0, [r7, #4]
	ldr	r1, [r6, #4]
	bl	gcm_v6m_small.aes_planes.soft.key_columns.straddle
	str	r0, [sp, #20]                   @ 4-byte Spill
	ldr	r0, [r7, #8]
	ldr	r1, [r6, #8]
	bl	gcm_v6m_small.aes_planes.soft.key_columns.straddle
	str	r0, [sp, #16]                   @ 4-byte Spill
	ldr	r0, [r7, #12]
	ldr	r1, [r6, #12]
	bl	gcm_v6m_small.aes_planes.soft.key_columns.straddle
	str	r0, [sp, #12]                   @ 4-byte Spill
	ldr	r0, [r7, #16]
	ldr	r1, [r6, #16]
	bl	gcm_v6m_small.aes_planes.soft.key_columns.straddle
	str	r0, [sp, #8]                    @ 4-byte Spill
	ldr	r0, [r7, #20]
	ldr	r1, [r6, #20]
	bl	gcm_v6m_small.aes_planes.soft.key_columns.straddle
	str	r0, [sp, #4]                    @ 4-byte Spill
	ldr	r0, [r7, #24]
	ldr	r1, [r6, #24]
	bl	gcm_v6m_small.aes_planes.soft.key_columns.straddle
	mov	r5, r0
	ldr	r0, [r7, #28]
	ldr	r1, [r6, #28]
	bl	gcm_v6m_small.aes_planes.soft.key_columns.straddle
	strb	r0, [r4, #28]
	lsrs	r1, r5, #24
	strb	r1, [r4, #27]
	lsrs	r1, r5, #16
	strb	r1, [r4, #26]
	lsrs	r1, r5, #8
	strb	r1, [r4, #25]
	strb	r5, [r4, #24]
	ldr	r2, [sp, #4]                    @ 4-byte Reload
	lsrs	r1, r2, #24
	strb	r1, [r4, #23]
	lsrs	r1, r2, #16
	strb	r1, [r4, #22]
	lsrs	r1, r2, #8
	strb	r1, [r4, #21]
	strb	r2, [r4, #20]
	ldr	r2, [sp, #8]                    @ 4-byte Reload
	lsrs	r1, r2, #24
	strb	r1, [r4, #19]
	lsrs	r1, r2, #16
	strb	r1, [r4, #18]
	lsrs	r1, r2, #8
	strb	r1, [r4, #17]
	strb	r2, [r4, #16]
	ldr	r2, [sp, #12]                   @ 4-byte Reload
	lsrs	r1, r2, #24
	strb	r1, [r4, #15]
	lsrs	r1, r2, #16
	strb	r1, [r4, #14]
	lsrs	r1, r2, #8
	strb	r1, [r4, #13]
	strb	r2, [r4, #12]
	ldr	r2, [sp, #16]                   @ 4-byte Reload
	lsrs	r1, r2, #24
	strb	r1, [r4, #11]
	lsrs	r1, r2, #16
	strb	r1, [r4, #10]
	lsrs	r1, r2, #8
	strb	r1, [r4, #9]
	strb	r2, [r4, #8]
	ldr	r2, [sp, #20]                   @ 4-byte Reload
	lsrs	r1, r2, #24
	strb	r1, [r4, #7]
	lsrs	r1, r2, #16
	strb	r1, [r4, #6]
	lsrs	r1, r2, #8
	strb	r1, [r4, #5]
	strb	r2, [r4, #4]
	ldr	r2, [sp, #24]                   @ 4-byte Reload
	lsrs	r1, r2, #24
	strb	r1, [r4, #3]
	lsrs	r1, r2, #16
	strb	r1, [r4, #2]
	lsrs	r1, r2, #8
	strb	r1, [r4, #1]
	strb	r2, [r4]
	lsrs	r1, r0, #24
	strb	r1, [r4, #31]
	lsrs	r1, r0, #16
	strb	r1, [r4, #30]
	lsrs	r0, r0, #8
	strb	r0, [r4, #29]
	add	sp, #28
	pop	{r4, r5, r6, r7, pc}
.Lgcm_v6m_small_func_end17:
	.size	gcm_v6m_small.aes_planes.soft.key_columns.straddle_columns, .Lgcm_v6m_small_func_end17-gcm_v6m_small.aes_planes.soft.key_columns.straddle_columns
	.cantunwind
	.fnend
                                        @ -- End function
	.section	.text.gcm_v6m_small.aes_planes.soft.key_columns.straddle,"ax",%progbits
	.p2align	2                               @ -- Begin function aes_planes::soft::key_columns::straddle::<#6af90bfc14753d47>
	.type	gcm_v6m_small.aes_planes.soft.key_columns.straddle,%function
	.code	16
	.thumb_func
gcm_v6m_small.aes_planes.soft.key_columns.straddle: @ @gcm_v6m_small.aes_planes.soft.key_columns.straddle
	.fnstart
@ %bb.0:                                @ %start
	lsrs	r0, r0, #4
	ldr	r2, .Lgcm_v6m_small_CPI18_0
	ands	r2, r0
	lsls	r0, r1, #4
	ldr	r1, .Lgcm_v6m_small_CPI18_1
	ands	r1, r0
	adds	r0, r1, r2
	bx	lr
	.p2align	2
@ %bb.1:
.Lgcm_v6m_small_CPI18_0:
	.long	252645135                       @ 0xf0f0f0f
.Lgcm_v6m_small_CPI18_1:
	.long	4042322160                      @ 0xf0f0f0f0
.Lgcm_v6m_small_func_end18:
	.size	gcm_v6m_small.aes_planes.soft.key_columns.straddle, .Lgcm_v6m_small_func_end18-gcm_v6m_small.aes_planes.soft.key_columns.straddle
	.cantunwind
	.fnend
                                        @ -- End function
	.section	.text.gcm_v6m_small.aes_soft.soft.plane_words.PlaneWordsFourWords.plain,"ax",%progbits
	.p2align	1                               @ -- Begin function aes_soft::soft::plane_words::PlaneWordsFourWords::plain::<#6af90bfc14753d47>
	.type	gcm_v6m_small.aes_soft.soft.plane_words.PlaneWordsFourWords.plain,%function
	.code	16
	.thumb_func
gcm_v6m_small.aes_soft.soft.plane_words.PlaneWordsFourWords.plain: @ @gcm_v6m_small.aes_soft.soft.plane_words.PlaneWordsFourWords.plain
	.fnstart
@ %bb.0:                                @ %start
	.save	{r4, r5, r6, r7, lr}
	push	{r4, r5, r6, r7, lr}
	.pad	#100
	sub	sp, #100
	mov	r7, r2
	str	r0, [sp]                        @ 4-byte Spill
	add	r6, sp, #36
	movs	r5, #32
	mov	r0, r6
	mov	r2, r5
	bl	memcpy
	add	r4, sp, #4
	mov	r0, r4
	mov	r1, r7
	mov	r2, r5
	bl	memcpy
	add	r7, sp, #68
	movs	r3, #2
	mov	r0, r7
	mov	r1, r6
	mov	r2, r4
	bl	gcm_v6m_small.aes_planes.soft.key_columns.summed_columns
	ldr	r0, [sp]                        @ 4-byte Reload
	mov	r1, r7
	mov	r2, r5
	bl	memcpy
	add	sp, #100
	pop	{r4, r5, r6, r7, pc}
.Lgcm_v6m_small_func_end19:
	.size	gcm_v6m_small.aes_soft.soft.plane_words.PlaneWordsFourWords.plain, .Lgcm_v6m_small_func_end19-gcm_v6m_small.aes_soft.soft.plane_words.PlaneWordsFourWords.plain
	.cantunwind
	.fnend
                                        @ -- End function
	.section	.text.gcm_v6m_small.aes_soft.soft.plane_words.PlaneWordsFourWords.substituted,"ax",%progbits
	.p2align	1                               @ -- Begin function aes_soft::soft::plane_words::PlaneWordsFourWords::substituted::<#6af90bfc14753d47>
	.type	gcm_v6m_small.aes_soft.soft.plane_words.PlaneWordsFourWords.substituted,%function
	.code	16
	.thumb_func
gcm_v6m_small.aes_soft.soft.plane_words.PlaneWordsFourWords.substituted: @ @gcm_v6m_small.aes_soft.soft.plane_words.PlaneWordsFourWords.substituted
	.fnstart
@ %bb.0:                                @ %start
	.save	{r4, r5, r6, r7, lr}
	push	{r4, r5, r6, r7, lr}
	.pad	#100
	sub	sp, #100
	mov	r7, r2
	str	r0, [sp]                        @ 4-byte Spill
	add	r6, sp, #36
	movs	r5, #32
	mov	r0, r6
	mov	r2, r5
	bl	memcpy
	add	r4, sp, #4
	mov	r0, r4
	mov	r1, r7
	mov	r2, r5
	bl	memcpy
	mov	r0, r4
	bl	gcm_v6m_small.aes_soft.soft.plane_words.substitute
	add	r7, sp, #68
	movs	r3, #6
	mov	r0, r7
	mov	r1, r6
	mov	r2, r4
	bl	gcm_v6m_small.aes_planes.soft.key_columns.summed_columns
	ldr	r0, [sp]                        @ 4-byte Reload
	mov	r1, r7
	mov	r2, r5
	bl	memcpy
	add	sp, #100
	pop	{r4, r5, r6, r7, pc}
.Lgcm_v6m_small_func_end20:
	.size	gcm_v6m_small.aes_soft.soft.plane_words.PlaneWordsFourWords.substituted, .Lgcm_v6m_small_func_end20-gcm_v6m_small.aes_soft.soft.plane_words.PlaneWordsFourWords.substituted
	.cantunwind
	.fnend
                                        @ -- End function
	.section	.text.gcm_v6m_small.aes_soft.soft.key_layout.store,"ax",%progbits
	.p2align	2                               @ -- Begin function aes_soft::soft::key_layout::store::<#dfb00681c6d298fe>
	.type	gcm_v6m_small.aes_soft.soft.key_layout.store,%function
	.code	16
	.thumb_func
gcm_v6m_small.aes_soft.soft.key_layout.store: @ @gcm_v6m_small.aes_soft.soft.key_layout.store
	.fnstart
@ %bb.0:                                @ %start
	.save	{r4, r5, r6, r7, lr}
	push	{r4, r5, r6, r7, lr}
	.pad	#84
	sub	sp, #84
	str	r3, [sp, #12]                   @ 4-byte Spill
	str	r2, [sp, #8]                    @ 4-byte Spill
	mov	r1, r0
	add	r4, sp, #20
	movs	r5, #1
	movs	r6, #0
	mov	r0, r4
	str	r1, [sp, #16]                   @ 4-byte Spill
	mov	r2, r5
	mov	r3, r6
	bl	gcm_v6m_small.aes_planes.soft.round_keys.round_key.1
	add	r0, sp, #52
	ldm	r4!, {r1, r2, r3, r7}
	stm	r0!, {r1, r2, r3, r7}
	ldm	r4!, {r1, r2, r3, r7}
	stm	r0!, {r1, r2, r3, r7}
	b	.Lgcm_v6m_small_BB21_3
.Lgcm_v6m_small_BB21_1:                               @ %join.8
                                        @   in Loop: Header=BB21_3 Depth=1
	bl	gcm_v6m_small.aes_planes.soft.shifts.swap_columns.1
.Lgcm_v6m_small_BB21_2:                               @ %join.8
                                        @   in Loop: Header=BB21_3 Depth=1
	add	r4, sp, #52
	mov	r0, r4
	bl	gcm_v6m_small.aes_planes.soft.sbox.sub_bytes_nots
	str	r4, [sp]
	ldr	r0, [sp, #16]                   @ 4-byte Reload
	mov	r2, r5
	mov	r3, r7
	bl	gcm_v6m_small.aes_planes.soft.round_keys.store_round_key
	movs	r6, #0
	adds	r5, r5, #1
	adcs	r6, r7
	add	r7, sp, #20
	mov	r0, r7
	ldr	r1, [sp, #16]                   @ 4-byte Reload
	mov	r2, r5
	mov	r3, r6
	bl	gcm_v6m_small.aes_planes.soft.round_keys.round_key.1
	ldm	r7!, {r0, r1, r2, r3}
	stm	r4!, {r0, r1, r2, r3}
	ldm	r7!, {r0, r1, r2, r3}
	stm	r4!, {r0, r1, r2, r3}
	ldr	r0, [sp, #8]                    @ 4-byte Reload
	subs	r0, r5, r0
	mov	r0, r6
	ldr	r1, [sp, #12]                   @ 4-byte Reload
	sbcs	r0, r1
	bhs	.Lgcm_v6m_small_BB21_10
.Lgcm_v6m_small_BB21_3:                               @ %ok.10
                                        @ =>This Inner Loop Header: Depth=1
	movs	r0, #3
	ands	r0, r5
	mov	r7, r6
	.p2align	2
	add	r0, pc
	ldrb	r0, [r0, #4]
	lsls	r0, r0, #1
.Lgcm_v6m_small_CPI21_4:
	add	pc, r0
@ %bb.4:
	.p2align	2
.Lgcm_v6m_small_JTI21_0:
	.byte	(.Lgcm_v6m_small_BB21_6-(.Lgcm_v6m_small_CPI21_4+4))/2
	.byte	(.Lgcm_v6m_small_BB21_7-(.Lgcm_v6m_small_CPI21_4+4))/2
	.byte	(.Lgcm_v6m_small_BB21_5-(.Lgcm_v6m_small_CPI21_4+4))/2
	.byte	(.Lgcm_v6m_small_BB21_8-(.Lgcm_v6m_small_CPI21_4+4))/2
	.p2align	1
.Lgcm_v6m_small_BB21_5:                               @ %then.4.i
                                        @   in Loop: Header=BB21_3 Depth=1
	add	r0, sp, #52
	movs	r1, #4
	ldr	r2, .Lgcm_v6m_small_CPI21_2
	b	.Lgcm_v6m_small_BB21_1
.Lgcm_v6m_small_BB21_6:                               @ %ok.10
                                        @   in Loop: Header=BB21_3 Depth=1
	b	.Lgcm_v6m_small_BB21_2
.Lgcm_v6m_small_BB21_7:                               @ %then.1.i
                                        @   in Loop: Header=BB21_3 Depth=1
	add	r4, sp, #52
	movs	r1, #4
	ldr	r2, .Lgcm_v6m_small_CPI21_3
	b	.Lgcm_v6m_small_BB21_9
.Lgcm_v6m_small_BB21_8:                               @ %then.7.i
                                        @   in Loop: Header=BB21_3 Depth=1
	add	r4, sp, #52
	movs	r1, #4
	ldr	r2, .Lgcm_v6m_small_CPI21_1
.Lgcm_v6m_small_BB21_9:                               @ %join.8
                                        @   in Loop: Header=BB21_3 Depth=1
	mov	r0, r4
	bl	gcm_v6m_small.aes_planes.soft.shifts.swap_columns.1
	movs	r1, #2
	mov	r0, r4
	ldr	r2, .Lgcm_v6m_small_CPI21_0
	b	.Lgcm_v6m_small_BB21_1
.Lgcm_v6m_small_BB21_10:                              @ %after.1.critedge
	add	r4, sp, #52
	mov	r0, r4
	bl	gcm_v6m_small.aes_planes.soft.sbox.sub_bytes_nots
	str	r4, [sp]
	ldr	r0, [sp, #16]                   @ 4-byte Reload
	mov	r2, r5
	mov	r3, r6
	bl	gcm_v6m_small.aes_planes.soft.round_keys.store_round_key
	add	sp, #84
	pop	{r4, r5, r6, r7, pc}
	.p2align	2
@ %bb.11:
.Lgcm_v6m_small_CPI21_0:
	.long	855651072                       @ 0x33003300
.Lgcm_v6m_small_CPI21_1:
	.long	202310400                       @ 0xc0f0300
.Lgcm_v6m_small_CPI21_2:
	.long	251662080                       @ 0xf000f00
.Lgcm_v6m_small_CPI21_3:
	.long	51317760                        @ 0x30f0c00
.Lgcm_v6m_small_func_end21:
	.size	gcm_v6m_small.aes_soft.soft.key_layout.store, .Lgcm_v6m_small_func_end21-gcm_v6m_small.aes_soft.soft.key_layout.store
	.cantunwind
	.fnend
                                        @ -- End function
	.section	.text.gcm_v6m_small.aes_planes.soft.shifts.swap_columns.1,"ax",%progbits
	.p2align	1                               @ -- Begin function aes_planes::soft::shifts::swap_columns::<#6af90bfc14753d47>
	.type	gcm_v6m_small.aes_planes.soft.shifts.swap_columns.1,%function
	.code	16
	.thumb_func
gcm_v6m_small.aes_planes.soft.shifts.swap_columns.1: @ @gcm_v6m_small.aes_planes.soft.shifts.swap_columns.1
	.fnstart
@ %bb.0:                                @ %start
	.save	{r4, r5, r6, r7, lr}
	push	{r4, r5, r6, r7, lr}
	.pad	#36
	sub	sp, #36
	mov	r5, r2
	mov	r6, r1
	mov	r4, r0
	ldr	r0, [r0]
	ldr	r7, [r4, #4]
	ldr	r1, [r4, #8]
	str	r1, [sp, #12]                   @ 4-byte Spill
	ldr	r1, [r4, #12]
	str	r1, [sp, #4]                    @ 4-byte Spill
	ldr	r1, [r4, #16]
	str	r1, [sp, #8]                    @ 4-byte Spill
	ldr	r1, [r4, #20]
	str	r1, [sp, #16]                   @ 4-byte Spill
	ldr	r1, [r4, #24]
	str	r1, [sp, #24]                   @ 4-byte Spill
	ldr	r1, [r4, #28]
	str	r1, [sp, #32]                   @ 4-byte Spill
	mov	r1, r6
	bl	gcm_v6m_small.aes_planes.soft.shifts.delta_swap_1.1
	str	r0, [sp, #28]                   @ 4-byte Spill
	mov	r0, r7
	mov	r1, r6
	mov	r2, r5
	bl	gcm_v6m_small.aes_planes.soft.shifts.delta_swap_1.1
	str	r0, [sp, #20]                   @ 4-byte Spill
	ldr	r0, [sp, #12]                   @ 4-byte Reload
	mov	r1, r6
	mov	r2, r5
	bl	gcm_v6m_small.aes_planes.soft.shifts.delta_swap_1.1
	str	r0, [sp, #12]                   @ 4-byte Spill
	ldr	r0, [sp, #4]                    @ 4-byte Reload
	mov	r1, r6
	mov	r2, r5
	bl	gcm_v6m_small.aes_planes.soft.shifts.delta_swap_1.1
	str	r0, [sp, #4]                    @ 4-byte Spill
	ldr	r0, [sp, #8]                    @ 4-byte Reload
	mov	r1, r6
	mov	r2, r5
	bl	gcm_v6m_small.aes_planes.soft.shifts.delta_swap_1.1
	str	r0, [sp, #8]                    @ 4-byte Spill
	ldr	r0, [sp, #16]                   @ 4-byte Reload
	mov	r1, r6
	mov	r2, r5
	bl	gcm_v6m_small.aes_planes.soft.shifts.delta_swap_1.1
	str	r0, [sp, #16]                   @ 4-byte Spill
	ldr	r0, [sp, #24]                   @ 4-byte Reload
	mov	r1, r6
	mov	r2, r5
	bl	gcm_v6m_small.aes_planes.soft.shifts.delta_swap_1.1
	mov	r7, r0
	ldr	r0, [sp, #32]                   @ 4-byte Reload
	mov	r1, r6
	mov	r2, r5
	bl	gcm_v6m_small.aes_planes.soft.shifts.delta_swap_1.1
	ldr	r1, [sp, #28]                   @ 4-byte Reload
	str	r1, [r4]
	ldr	r1, [sp, #20]                   @ 4-byte Reload
	str	r1, [r4, #4]
	ldr	r1, [sp, #12]                   @ 4-byte Reload
	str	r1, [r4, #8]
	ldr	r1, [sp, #4]                    @ 4-byte Reload
	str	r1, [r4, #12]
	ldr	r1, [sp, #8]                    @ 4-byte Reload
	str	r1, [r4, #16]
	ldr	r1, [sp, #16]                   @ 4-byte Reload
	str	r1, [r4, #20]
	str	r7, [r4, #24]
	str	r0, [r4, #28]
	add	sp, #36
	pop	{r4, r5, r6, r7, pc}
.Lgcm_v6m_small_func_end22:
	.size	gcm_v6m_small.aes_planes.soft.shifts.swap_columns.1, .Lgcm_v6m_small_func_end22-gcm_v6m_small.aes_planes.soft.shifts.swap_columns.1
	.cantunwind
	.fnend
                                        @ -- End function
	.section	.text.gcm_v6m_small.aes_planes.soft.shifts.delta_swap_1.1,"ax",%progbits
	.p2align	1                               @ -- Begin function aes_planes::soft::shifts::delta_swap_1::<#6af90bfc14753d47>
	.type	gcm_v6m_small.aes_planes.soft.shifts.delta_swap_1.1,%function
	.code	16
	.thumb_func
gcm_v6m_small.aes_planes.soft.shifts.delta_swap_1.1: @ @gcm_v6m_small.aes_planes.soft.shifts.delta_swap_1.1
	.fnstart
@ %bb.0:                                @ %start
	mov	r3, r0
	lsrs	r3, r1
	eors	r3, r0
	ands	r3, r2
	mov	r2, r3
	lsls	r2, r1
	eors	r0, r2
	eors	r0, r3
	bx	lr
.Lgcm_v6m_small_func_end23:
	.size	gcm_v6m_small.aes_planes.soft.shifts.delta_swap_1.1, .Lgcm_v6m_small_func_end23-gcm_v6m_small.aes_planes.soft.shifts.delta_swap_1.1
	.cantunwind
	.fnend
                                        @ -- End function
	.section	.text.gcm_v6m_small.aes_cipher.zeroize.stack.wipe_stack.768,"ax",%progbits
	.p2align	1                               @ -- Begin function aes_cipher::zeroize::stack::wipe_stack::<=768>
	.type	gcm_v6m_small.aes_cipher.zeroize.stack.wipe_stack.768,%function
	.code	16
	.thumb_func
gcm_v6m_small.aes_cipher.zeroize.stack.wipe_stack.768: @ @gcm_v6m_small.aes_cipher.zeroize.stack.wipe_stack.768
	.fnstart
@ %bb.0:                                @ %start
	.save	{r4, lr}
	push	{r4, lr}
	.pad	#508
	sub	sp, #508
	.pad	#268
	sub	sp, #268
	movs	r0, #3
	lsls	r2, r0, #8
	add	r0, sp, #8
	movs	r4, #0
	mov	r1, r4
	bl	memset
	str	r4, [sp, #4]
	str	r4, [sp]
	@APP
	@NO_APP
	ldr	r1, [sp, #4]
	lsls	r2, r1, #24
	ldr	r0, [sp]
	lsrs	r3, r0, #8
	adds	r2, r3, r2
	@APP
	@NO_APP
	lsrs	r1, r1, #8
	subs	r2, r2, #3
	sbcs	r1, r4
	bhs	.Lgcm_v6m_small_BB24_2
@ %bb.1:                                @ %then.1
	add	r1, sp, #8
	ldrb	r0, [r1, r0]
	@APP
	@NO_APP
	ldr	r1, [sp, #4]
	ldr	r1, [sp]
	str	r4, [sp, #4]
	str	r0, [sp]
	@APP
	@NO_APP
.Lgcm_v6m_small_BB24_2:                               @ %common.ret
	add	sp, #508
	add	sp, #268
	pop	{r4, pc}
.Lgcm_v6m_small_func_end24:
	.size	gcm_v6m_small.aes_cipher.zeroize.stack.wipe_stack.768, .Lgcm_v6m_small_func_end24-gcm_v6m_small.aes_cipher.zeroize.stack.wipe_stack.768
	.cantunwind
	.fnend
                                        @ -- End function
	.section	.text.gcm_v6m_small.gcm.mode.BorrowedGcm.put_pre_counter,"ax",%progbits
	.p2align	1                               @ -- Begin function gcm::mode::BorrowedGcm::put_pre_counter::<#c01aad2b5fbc92b1>
	.type	gcm_v6m_small.gcm.mode.BorrowedGcm.put_pre_counter,%function
	.code	16
	.thumb_func
gcm_v6m_small.gcm.mode.BorrowedGcm.put_pre_counter: @ @gcm_v6m_small.gcm.mode.BorrowedGcm.put_pre_counter
	.fnstart
@ %bb.0:                                @ %start
	.save	{r4, r5, r6, r7, lr}
	push	{r4, r5, r6, r7, lr}
	.setfp	r7, sp, #12
	add	r7, sp, #12
	.pad	#92
	sub	sp, #92
	mov	r4, sp
	lsrs	r4, r4, #4
	lsls	r4, r4, #4
	mov	sp, r4
	movs	r4, #12
	eors	r4, r2
	orrs	r4, r3
	ldr	r4, [r7, #8]
	bne	.Lgcm_v6m_small_BB25_2
@ %bb.1:                                @ %then.1
	add	r0, sp, #64
	movs	r2, #0
	strb	r2, [r0, #14]
	strh	r2, [r0, #12]
	ldrb	r2, [r1]
	ldrb	r3, [r1, #1]
	lsls	r3, r3, #8
	adds	r2, r3, r2
	ldrb	r3, [r1, #2]
	lsls	r3, r3, #16
	ldrb	r5, [r1, #3]
	lsls	r5, r5, #24
	adds	r3, r5, r3
	adds	r2, r3, r2
	str	r2, [sp, #64]
	ldrb	r2, [r1, #4]
	ldrb	r3, [r1, #5]
	lsls	r3, r3, #8
	adds	r2, r3, r2
	ldrb	r3, [r1, #6]
	lsls	r3, r3, #16
	ldrb	r5, [r1, #7]
	lsls	r5, r5, #24
	adds	r3, r5, r3
	adds	r2, r3, r2
	str	r2, [sp, #68]
	ldrb	r2, [r1, #8]
	ldrb	r3, [r1, #9]
	lsls	r3, r3, #8
	adds	r2, r3, r2
	ldrb	r3, [r1, #10]
	lsls	r3, r3, #16
	ldrb	r1, [r1, #11]
	lsls	r1, r1, #24
	adds	r1, r1, r3
	adds	r1, r1, r2
	str	r1, [sp, #72]
	add	r1, sp, #48
	mov	r2, r1
	ldm	r0!, {r3, r5, r6}
	stm	r2!, {r3, r5, r6}
	ldrh	r3, [r0]
	strh	r3, [r2]
	ldrb	r0, [r0, #2]
	strb	r0, [r2, #2]
	movs	r2, #15
	mov	r0, r4
	bl	memcpy
	movs	r0, #1
	b	.Lgcm_v6m_small_BB25_3
.Lgcm_v6m_small_BB25_2:                               @ %else.2
	str	r0, [sp, #44]                   @ 4-byte Spill
	ldr	r5, [r0, #16]
	ldrb	r6, [r5]
	lsls	r0, r6, #24
	ldrb	r6, [r5, #1]
	lsls	r6, r6, #16
	adds	r0, r6, r0
	ldrb	r6, [r5, #2]
	lsls	r6, r6, #8
	adds	r0, r0, r6
	ldrb	r6, [r5, #3]
	adds	r0, r0, r6
	str	r0, [sp, #76]
	ldrb	r0, [r5, #5]
	lsls	r0, r0, #16
	ldrb	r6, [r5, #4]
	lsls	r6, r6, #24
	adds	r0, r6, r0
	ldrb	r6, [r5, #6]
	lsls	r6, r6, #8
	adds	r0, r0, r6
	ldrb	r6, [r5, #7]
	adds	r0, r0, r6
	str	r0, [sp, #72]
	ldrb	r0, [r5, #8]
	lsls	r0, r0, #24
	ldrb	r6, [r5, #9]
	lsls	r6, r6, #16
	adds	r0, r6, r0
	ldrb	r6, [r5, #10]
	lsls	r6, r6, #8
	adds	r0, r0, r6
	ldrb	r6, [r5, #11]
	adds	r0, r0, r6
	str	r0, [sp, #68]
	ldrb	r0, [r5, #13]
	lsls	r0, r0, #16
	ldrb	r6, [r5, #12]
	lsls	r6, r6, #24
	adds	r0, r6, r0
	ldrb	r6, [r5, #14]
	lsls	r6, r6, #8
	adds	r0, r0, r6
	ldrb	r5, [r5, #15]
	adds	r0, r0, r5
	str	r0, [sp, #64]
	str	r2, [sp, #16]
	str	r3, [sp, #20]
	movs	r6, #0
	str	r6, [sp]
	str	r6, [sp, #4]
	str	r1, [sp, #8]
	add	r0, sp, #64
	ldr	r5, [sp, #44]                   @ 4-byte Reload
	str	r2, [sp, #32]                   @ 4-byte Spill
	mov	r2, r6
	str	r3, [sp, #36]                   @ 4-byte Spill
	mov	r3, r6
	bl	gcm_v6m_small.gcm.single_blocks.hash_singly.1
	str	r0, [sp, #40]                   @ 4-byte Spill
	add	r0, sp, #0
	stm	r0!, {r2, r3, r6}
	str	r6, [sp, #12]
	ldr	r0, [sp, #32]                   @ 4-byte Reload
	str	r0, [sp, #16]
	ldr	r0, [sp, #36]                   @ 4-byte Reload
	str	r0, [sp, #20]
	adds	r5, #16
	mov	r0, r5
	ldr	r2, [sp, #40]                   @ 4-byte Reload
	mov	r3, r1
	bl	gcm_v6m_small.gcm.tags.hash_lengths
	strb	r1, [r4, #11]
	strb	r2, [r4, #7]
	strb	r3, [r4, #3]
	lsrs	r5, r0, #8
	strb	r5, [r4, #14]
	lsrs	r5, r0, #16
	strb	r5, [r4, #13]
	lsrs	r5, r0, #24
	strb	r5, [r4, #12]
	lsrs	r5, r1, #8
	strb	r5, [r4, #10]
	lsrs	r5, r1, #16
	strb	r5, [r4, #9]
	lsrs	r1, r1, #24
	strb	r1, [r4, #8]
	lsrs	r1, r2, #8
	strb	r1, [r4, #6]
	lsrs	r1, r2, #16
	strb	r1, [r4, #5]
	lsrs	r1, r2, #24
	strb	r1, [r4, #4]
	lsrs	r1, r3, #8
	strb	r1, [r4, #2]
	lsrs	r1, r3, #16
	strb	r1, [r4, #1]
	lsrs	r1, r3, #24
	strb	r1, [r4]
.Lgcm_v6m_small_BB25_3:                               @ %join.3
	strb	r0, [r4, #15]
	subs	r6, r7, #7
	subs	r6, #5
	mov	sp, r6
	pop	{r4, r5, r6, r7, pc}
.Lgcm_v6m_small_func_end25:
	.size	gcm_v6m_small.gcm.mode.BorrowedGcm.put_pre_counter, .Lgcm_v6m_small_func_end25-gcm_v6m_small.gcm.mode.BorrowedGcm.put_pre_counter
	.cantunwind
	.fnend
                                        @ -- End function
	.section	.text.gcm_v6m_small.gcm.single_blocks.hash_singly.1,"ax",%progbits
	.p2align	1                               @ -- Begin function gcm::single_blocks::hash_singly::<#165deadc48559e33>
	.type	gcm_v6m_small.gcm.single_blocks.hash_singly.1,%function
	.code	16
	.thumb_func
gcm_v6m_small.gcm.single_blocks.hash_singly.1: @ @gcm_v6m_small.gcm.single_blocks.hash_singly.1
	.fnstart
@ %bb.0:                                @ %start
	.save	{r4, r5, r6, r7, lr}
	push	{r4, r5, r6, r7, lr}
	.pad	#132
	sub	sp, #132
	mov	r1, r3
	str	r2, [sp, #112]                  @ 4-byte Spill
	ldr	r3, [sp, #172]
	lsls	r4, r3, #28
	ldr	r2, [sp, #168]
	str	r2, [sp, #20]                   @ 4-byte Spill
	lsrs	r2, r2, #4
	adds	r7, r2, r4
	lsrs	r4, r3, #4
	mov	r2, r7
	orrs	r2, r4
	ldr	r3, [sp, #156]
	ldr	r2, [sp, #152]
	ldr	r6, [sp, #160]
	str	r0, [sp, #16]                   @ 4-byte Spill
	beq	.Lgcm_v6m_small_BB26_3
@ %bb.1:                                @ %join.5.i.lr.ph
	ldr	r5, [r0]
	str	r5, [sp, #44]                   @ 4-byte Spill
	ldr	r5, [r0, #4]
	str	r5, [sp, #40]                   @ 4-byte Spill
	ldr	r5, [r0, #8]
	str	r5, [sp, #36]                   @ 4-byte Spill
	ldr	r0, [r0, #12]
	str	r0, [sp, #32]                   @ 4-byte Spill
	movs	r0, #0
	str	r4, [sp, #24]                   @ 4-byte Spill
	mov	r4, r0
	str	r0, [sp, #28]                   @ 4-byte Spill
	str	r0, [sp, #96]                   @ 4-byte Spill
	str	r6, [sp, #52]                   @ 4-byte Spill
	str	r7, [sp, #48]                   @ 4-byte Spill
.Lgcm_v6m_small_BB26_2:                               @ %join.5.i
                                        @ =>This Inner Loop Header: Depth=1
	add	r0, sp, #100
	stm	r0!, {r1, r2, r3}               @ 12-byte Folded Spill
	lsls	r0, r4, #4
	adds	r5, r6, r0
	ldrb	r7, [r5, #3]
	str	r7, [sp, #92]                   @ 4-byte Spill
	ldrb	r7, [r5, #2]
	str	r7, [sp, #88]                   @ 4-byte Spill
	ldrb	r7, [r5, #1]
	str	r7, [sp, #84]                   @ 4-byte Spill
	ldrb	r0, [r6, r0]
	str	r0, [sp, #80]                   @ 4-byte Spill
	ldrb	r0, [r5, #6]
	str	r0, [sp, #76]                   @ 4-byte Spill
	ldrb	r0, [r5, #5]
	str	r0, [sp, #72]                   @ 4-byte Spill
	ldrb	r0, [r5, #7]
	str	r0, [sp, #68]                   @ 4-byte Spill
	ldrb	r0, [r5, #4]
	str	r0, [sp, #64]                   @ 4-byte Spill
	ldrb	r0, [r5, #11]
	str	r0, [sp, #60]                   @ 4-byte Spill
	ldrb	r0, [r5, #10]
	str	r0, [sp, #56]                   @ 4-byte Spill
	ldrb	r6, [r5, #8]
	ldrb	r3, [r5, #9]
	ldrb	r2, [r5, #14]
	ldrb	r1, [r5, #13]
	ldrb	r0, [r5, #15]
	ldrb	r5, [r5, #12]
	ldr	r7, [sp, #44]                   @ 4-byte Reload
	str	r7, [sp]
	ldr	r7, [sp, #40]                   @ 4-byte Reload
	str	r7, [sp, #4]
	ldr	r7, [sp, #36]                   @ 4-byte Reload
	str	r7, [sp, #8]
	ldr	r7, [sp, #32]                   @ 4-byte Reload
	str	r7, [sp, #12]
	lsls	r5, r5, #24
	adds	r0, r0, r5
	lsls	r1, r1, #16
	adds	r0, r0, r1
	lsls	r1, r2, #8
	adds	r5, r0, r1
	ldr	r0, [sp, #112]                  @ 4-byte Reload
	eors	r5, r0
	lsls	r0, r3, #16
	lsls	r1, r6, #24
	adds	r0, r1, r0
	ldr	r1, [sp, #56]                   @ 4-byte Reload
	lsls	r1, r1, #8
	adds	r0, r0, r1
	ldr	r1, [sp, #60]                   @ 4-byte Reload
	adds	r6, r0, r1
	ldr	r0, [sp, #100]                  @ 4-byte Reload
	eors	r6, r0
	ldr	r0, [sp, #64]                   @ 4-byte Reload
	lsls	r0, r0, #24
	ldr	r1, [sp, #68]                   @ 4-byte Reload
	adds	r0, r1, r0
	ldr	r1, [sp, #72]                   @ 4-byte Reload
	lsls	r1, r1, #16
	adds	r0, r0, r1
	ldr	r1, [sp, #76]                   @ 4-byte Reload
	lsls	r1, r1, #8
	adds	r7, r0, r1
	ldr	r0, [sp, #104]                  @ 4-byte Reload
	eors	r7, r0
	ldr	r0, [sp, #80]                   @ 4-byte Reload
	lsls	r0, r0, #24
	ldr	r1, [sp, #84]                   @ 4-byte Reload
	lsls	r1, r1, #16
	adds	r0, r0, r1
	ldr	r1, [sp, #88]                   @ 4-byte Reload
	lsls	r1, r1, #8
	adds	r0, r0, r1
	ldr	r1, [sp, #92]                   @ 4-byte Reload
	adds	r3, r0, r1
	ldr	r0, [sp, #108]                  @ 4-byte Reload
	eors	r3, r0
	mov	r0, r5
	mov	r1, r6
	ldr	r6, [sp, #52]                   @ 4-byte Reload
	mov	r2, r7
	ldr	r7, [sp, #48]                   @ 4-byte Reload
	bl	gcm_v6m_small.gcm.bitwise.product_bitwise
	str	r0, [sp, #112]                  @ 4-byte Spill
	adds	r4, r4, #1
	ldr	r0, [sp, #28]                   @ 4-byte Reload
	ldr	r5, [sp, #96]                   @ 4-byte Reload
	adcs	r5, r0
	subs	r0, r4, r7
	str	r5, [sp, #96]                   @ 4-byte Spill
	mov	r0, r5
	ldr	r5, [sp, #24]                   @ 4-byte Reload
	sbcs	r0, r5
	blo	.Lgcm_v6m_small_BB26_2
.Lgcm_v6m_small_BB26_3:                               @ %"gcm::single_blocks::hash_whole::<#165deadc48559e33>.exit"
	ldr	r7, [sp, #112]                  @ 4-byte Reload
	movs	r0, #15
	ldr	r4, [sp, #20]                   @ 4-byte Reload
	mov	r5, r4
	ands	r5, r0
	beq	.Lgcm_v6m_small_BB26_5
@ %bb.4:                                @ %join.3
	add	r7, sp, #100
	stm	r7!, {r1, r2, r3}               @ 12-byte Folded Spill
	movs	r2, #0
	str	r2, [sp, #128]
	str	r2, [sp, #124]
	str	r2, [sp, #120]
	str	r2, [sp, #116]
	bics	r4, r0
	adds	r1, r6, r4
	add	r0, sp, #116
	subs	r0, r0, r1
	mov	r3, r2
	sbcs	r3, r2
	subs	r0, r0, r5
	sbcs	r3, r2
	add	r0, sp, #116
	mov	r2, r5
	bl	memcpy
	ldr	r3, [sp, #116]
	ldr	r2, [sp, #120]
	ldr	r1, [sp, #124]
	ldr	r0, [sp, #128]
	ldr	r4, [sp, #16]                   @ 4-byte Reload
	ldm	r4!, {r5, r6, r7}
	ldr	r4, [r4]
	str	r5, [sp]
	str	r6, [sp, #4]
	str	r7, [sp, #8]
	str	r4, [sp, #12]
	rev	r0, r0
	ldr	r4, [sp, #112]                  @ 4-byte Reload
	eors	r0, r4
	rev	r1, r1
	ldr	r4, [sp, #100]                  @ 4-byte Reload
	eors	r1, r4
	rev	r2, r2
	ldr	r4, [sp, #104]                  @ 4-byte Reload
	eors	r2, r4
	rev	r3, r3
	ldr	r4, [sp, #108]                  @ 4-byte Reload
	eors	r3, r4
	bl	gcm_v6m_small.gcm.bitwise.product_bitwise
	add	sp, #132
	pop	{r4, r5, r6, r7, pc}
.Lgcm_v6m_small_BB26_5:
	mov	r0, r7
	add	sp, #132
	pop	{r4, r5, r6, r7, pc}
.Lgcm_v6m_small_func_end26:
	.size	gcm_v6m_small.gcm.single_blocks.hash_singly.1, .Lgcm_v6m_small_func_end26-gcm_v6m_small.gcm.single_blocks.hash_singly.1
	.cantunwind
	.fnend
                                        @ -- End function
	.section	.text.gcm_v6m_small.gcm.bitwise.product_bitwise,"ax",%progbits
	.p2align	1                               @ -- Begin function gcm::bitwise::product_bitwise
	.type	gcm_v6m_small.gcm.bitwise.product_bitwise,%function
	.code	16
	.thumb_func
gcm_v6m_small.gcm.bitwise.product_bitwise:        @ @gcm_v6m_small.gcm.bitwise.product_bitwise
	.fnstart
@ %bb.0:                                @ %start
	.save	{r4, r5, r6, r7, lr}
	push	{r4, r5, r6, r7, lr}
	.pad	#92
	sub	sp, #92
	str	r3, [sp, #60]                   @ 4-byte Spill
	str	r2, [sp, #48]                   @ 4-byte Spill
	str	r1, [sp, #44]                   @ 4-byte Spill
	str	r0, [sp, #52]                   @ 4-byte Spill
	movs	r0, #225
	lsls	r0, r0, #24
	str	r0, [sp, #64]                   @ 4-byte Spill
	movs	r3, #0
	ldr	r0, [sp, #124]
	str	r0, [sp, #84]                   @ 4-byte Spill
	ldr	r0, [sp, #120]
	str	r0, [sp, #80]                   @ 4-byte Spill
	ldr	r1, [sp, #116]
	ldr	r0, [sp, #112]
	str	r0, [sp, #88]                   @ 4-byte Spill
	movs	r0, #128
	str	r3, [sp, #36]                   @ 4-byte Spill
	mov	r4, r3
	str	r3, [sp, #32]                   @ 4-byte Spill
	str	r3, [sp, #40]                   @ 4-byte Spill
.Lgcm_v6m_small_BB27_1:                               @ %join.5
                                        @ =>This Inner Loop Header: Depth=1
	str	r0, [sp, #28]                   @ 4-byte Spill
	ldr	r6, [sp, #80]                   @ 4-byte Reload
	lsrs	r5, r6, #1
	str	r6, [sp, #80]                   @ 4-byte Spill
	str	r5, [sp, #24]                   @ 4-byte Spill
	ldr	r0, [sp, #84]                   @ 4-byte Reload
	lsls	r0, r0, #31
	adds	r5, r5, r0
	str	r5, [sp, #68]                   @ 4-byte Spill
	ldr	r7, [sp, #60]                   @ 4-byte Reload
	lsls	r0, r7, #1
	asrs	r3, r0, #31
	str	r3, [sp, #76]                   @ 4-byte Spill
	ands	r3, r5
	asrs	r0, r7, #31
	str	r0, [sp, #72]                   @ 4-byte Spill
	ands	r0, r6
	eors	r0, r4
	eors	r0, r3
	movs	r3, #1
	ldr	r2, [sp, #88]                   @ 4-byte Reload
	ands	r3, r2
	rsbs	r3, r3, #0
	ldr	r5, [sp, #64]                   @ 4-byte Reload
	ands	r3, r5
	ldr	r2, [sp, #84]                   @ 4-byte Reload
	lsrs	r2, r2, #1
	eors	r2, r3
	lsls	r3, r2, #31
	str	r2, [sp, #20]                   @ 4-byte Spill
	ldr	r4, [sp, #68]                   @ 4-byte Reload
	lsrs	r4, r4, #1
	str	r4, [sp, #8]                    @ 4-byte Spill
	adds	r4, r4, r3
	lsls	r3, r7, #2
	asrs	r6, r3, #31
	str	r6, [sp, #68]                   @ 4-byte Spill
	ands	r6, r4
	eors	r6, r0
	ldr	r3, [sp, #88]                   @ 4-byte Reload
	lsls	r0, r3, #30
	asrs	r0, r0, #31
	ands	r0, r5
	lsrs	r5, r2, #1
	eors	r5, r0
	str	r5, [sp, #56]                   @ 4-byte Spill
	lsls	r0, r5, #31
	lsrs	r2, r4, #1
	str	r2, [sp, #4]                    @ 4-byte Spill
	adds	r2, r2, r0
	str	r2, [sp, #12]                   @ 4-byte Spill
	lsls	r0, r7, #3
	asrs	r5, r0, #31
	mov	r4, r5
	ands	r4, r2
	eors	r4, r6
	lsrs	r0, r1, #1
	ldr	r2, [sp, #80]                   @ 4-byte Reload
	lsls	r6, r2, #31
	adds	r2, r0, r6
	str	r2, [sp, #80]                   @ 4-byte Spill
	lsrs	r2, r2, #1
	str	r2, [sp]                        @ 4-byte Spill
	lsls	r2, r2, #31
	lsrs	r6, r3, #1
	lsls	r7, r1, #31
	adds	r7, r6, r7
	lsrs	r6, r7, #1
	lsls	r0, r0, #31
	adds	r6, r6, r0
	lsrs	r0, r6, #1
	adds	r2, r0, r2
	str	r2, [sp, #16]                   @ 4-byte Spill
	mov	r0, r5
	ands	r0, r2
	ldr	r2, [sp, #76]                   @ 4-byte Reload
	ands	r7, r2
	ldr	r2, [sp, #72]                   @ 4-byte Reload
	ands	r2, r3
	ldr	r3, [sp, #32]                   @ 4-byte Reload
	eors	r2, r3
	eors	r2, r7
	ldr	r3, [sp, #68]                   @ 4-byte Reload
	ands	r6, r3
	eors	r6, r2
	eors	r6, r0
	ldr	r0, [sp, #4]                    @ 4-byte Reload
	lsls	r3, r0, #31
	ldr	r0, [sp, #8]                    @ 4-byte Reload
	lsls	r7, r0, #31
	ldr	r0, [sp, #24]                   @ 4-byte Reload
	lsls	r0, r0, #31
	ldr	r2, [sp]                        @ 4-byte Reload
	adds	r0, r2, r0
	lsrs	r2, r0, #1
	str	r2, [sp, #32]                   @ 4-byte Spill
	adds	r7, r2, r7
	lsrs	r2, r7, #1
	adds	r2, r2, r3
	str	r2, [sp, #24]                   @ 4-byte Spill
	ldr	r2, [sp, #76]                   @ 4-byte Reload
	ldr	r3, [sp, #80]                   @ 4-byte Reload
	ands	r3, r2
	ldr	r2, [sp, #72]                   @ 4-byte Reload
	ands	r1, r2
	ldr	r2, [sp, #36]                   @ 4-byte Reload
	eors	r1, r2
	eors	r1, r3
	ldr	r2, [sp, #68]                   @ 4-byte Reload
	ands	r0, r2
	eors	r0, r1
	ands	r7, r5
	eors	r7, r0
	ldr	r0, [sp, #12]                   @ 4-byte Reload
	lsrs	r0, r0, #1
	ldr	r1, [sp, #56]                   @ 4-byte Reload
	lsrs	r2, r1, #1
	ldr	r1, [sp, #88]                   @ 4-byte Reload
	lsls	r1, r1, #29
	asrs	r1, r1, #31
	ldr	r3, [sp, #64]                   @ 4-byte Reload
	ands	r1, r3
	eors	r1, r2
	lsls	r2, r1, #31
	adds	r0, r0, r2
	str	r0, [sp, #80]                   @ 4-byte Spill
	ldr	r0, [sp, #76]                   @ 4-byte Reload
	ldr	r3, [sp, #20]                   @ 4-byte Reload
	ands	r3, r0
	ldr	r2, [sp, #72]                   @ 4-byte Reload
	ldr	r0, [sp, #84]                   @ 4-byte Reload
	ands	r2, r0
	ldr	r0, [sp, #40]                   @ 4-byte Reload
	eors	r2, r0
	eors	r2, r3
	ldr	r0, [sp, #56]                   @ 4-byte Reload
	ldr	r3, [sp, #68]                   @ 4-byte Reload
	ands	r0, r3
	eors	r0, r2
	ands	r5, r1
	eors	r5, r0
	ldr	r0, [sp, #16]                   @ 4-byte Reload
	lsrs	r0, r0, #1
	ldr	r2, [sp, #32]                   @ 4-byte Reload
	lsls	r2, r2, #31
	adds	r0, r0, r2
	str	r0, [sp, #76]                   @ 4-byte Spill
	lsrs	r0, r1, #1
	ldr	r1, [sp, #88]                   @ 4-byte Reload
	lsls	r1, r1, #28
	asrs	r1, r1, #31
	ldr	r2, [sp, #64]                   @ 4-byte Reload
	ands	r1, r2
	eors	r1, r0
	str	r1, [sp, #84]                   @ 4-byte Spill
	ldr	r0, [sp, #52]                   @ 4-byte Reload
	lsrs	r2, r0, #28
	ldr	r3, [sp, #44]                   @ 4-byte Reload
	lsls	r1, r3, #4
	adds	r1, r1, r2
	str	r1, [sp, #72]                   @ 4-byte Spill
	lsrs	r3, r3, #28
	ldr	r2, [sp, #48]                   @ 4-byte Reload
	lsls	r1, r2, #4
	adds	r3, r1, r3
	lsrs	r1, r2, #28
	ldr	r2, [sp, #60]                   @ 4-byte Reload
	lsls	r2, r2, #4
	adds	r1, r2, r1
	str	r1, [sp, #60]                   @ 4-byte Spill
	lsls	r0, r0, #4
	str	r0, [sp, #52]                   @ 4-byte Spill
	ldr	r0, [sp, #28]                   @ 4-byte Reload
	subs	r0, r0, #4
	str	r6, [sp, #32]                   @ 4-byte Spill
	str	r7, [sp, #36]                   @ 4-byte Spill
	str	r5, [sp, #40]                   @ 4-byte Spill
	ldr	r1, [sp, #76]                   @ 4-byte Reload
	str	r1, [sp, #88]                   @ 4-byte Spill
	ldr	r1, [sp, #24]                   @ 4-byte Reload
	ldr	r2, [sp, #72]                   @ 4-byte Reload
	str	r2, [sp, #44]                   @ 4-byte Spill
	str	r3, [sp, #48]                   @ 4-byte Spill
	beq	.Lgcm_v6m_small_BB27_2
	b	.Lgcm_v6m_small_BB27_1
.Lgcm_v6m_small_BB27_2:                               @ %after.1
	mov	r0, r6
	mov	r1, r7
	mov	r2, r4
	mov	r3, r5
	add	sp, #92
	pop	{r4, r5, r6, r7, pc}
.Lgcm_v6m_small_func_end27:
	.size	gcm_v6m_small.gcm.bitwise.product_bitwise, .Lgcm_v6m_small_func_end27-gcm_v6m_small.gcm.bitwise.product_bitwise
	.cantunwind
	.fnend
                                        @ -- End function
	.section	.text.gcm_v6m_small.gcm.tags.hash_lengths,"ax",%progbits
	.p2align	1                               @ -- Begin function gcm::tags::hash_lengths::<#d9ba0fa9ccec4268>
	.type	gcm_v6m_small.gcm.tags.hash_lengths,%function
	.code	16
	.thumb_func
gcm_v6m_small.gcm.tags.hash_lengths: @ @gcm_v6m_small.gcm.tags.hash_lengths
	.fnstart
@ %bb.0:                                @ %start
	.save	{r4, r5, r6, r7, lr}
	push	{r4, r5, r6, r7, lr}
	.pad	#44
	sub	sp, #44
	str	r3, [sp, #40]                   @ 4-byte Spill
	str	r2, [sp, #36]                   @ 4-byte Spill
	ldr	r6, [r0]
	ldrb	r0, [r6]
	lsls	r0, r0, #24
	ldrb	r1, [r6, #1]
	lsls	r1, r1, #16
	adds	r0, r1, r0
	ldrb	r1, [r6, #2]
	lsls	r1, r1, #8
	adds	r0, r0, r1
	ldrb	r1, [r6, #3]
	adds	r4, r0, r1
	ldrb	r0, [r6, #15]
	str	r0, [sp, #32]                   @ 4-byte Spill
	ldrb	r0, [r6, #14]
	str	r0, [sp, #28]                   @ 4-byte Spill
	ldrb	r0, [r6, #12]
	str	r0, [sp, #24]                   @ 4-byte Spill
	ldrb	r0, [r6, #13]
	str	r0, [sp, #20]                   @ 4-byte Spill
	ldrb	r0, [r6, #11]
	str	r0, [sp, #16]                   @ 4-byte Spill
	ldrb	r7, [r6, #10]
	ldrb	r5, [r6, #9]
	ldrb	r3, [r6, #8]
	ldrb	r2, [r6, #7]
	ldrb	r1, [r6, #6]
	ldrb	r0, [r6, #4]
	ldrb	r6, [r6, #5]
	str	r4, [sp, #12]
	lsls	r4, r6, #16
	lsls	r0, r0, #24
	adds	r0, r0, r4
	lsls	r1, r1, #8
	adds	r0, r0, r1
	adds	r0, r0, r2
	str	r0, [sp, #8]
	lsls	r0, r3, #24
	lsls	r1, r5, #16
	adds	r0, r1, r0
	lsls	r1, r7, #8
	adds	r0, r0, r1
	ldr	r1, [sp, #16]                   @ 4-byte Reload
	adds	r0, r0, r1
	str	r0, [sp, #4]
	ldr	r0, [sp, #20]                   @ 4-byte Reload
	lsls	r0, r0, #16
	ldr	r1, [sp, #24]                   @ 4-byte Reload
	lsls	r1, r1, #24
	adds	r0, r1, r0
	ldr	r1, [sp, #28]                   @ 4-byte Reload
	lsls	r1, r1, #8
	adds	r0, r0, r1
	ldr	r1, [sp, #32]                   @ 4-byte Reload
	adds	r0, r0, r1
	str	r0, [sp]
	ldr	r1, [sp, #80]
	lsls	r0, r1, #3
	ldr	r2, [sp, #36]                   @ 4-byte Reload
	eors	r0, r2
	ldr	r3, [sp, #72]
	lsls	r4, r3, #3
	ldr	r2, [sp, #64]
	eors	r2, r4
	lsrs	r1, r1, #29
	ldr	r4, [sp, #84]
	lsls	r4, r4, #3
	adds	r1, r4, r1
	ldr	r4, [sp, #40]                   @ 4-byte Reload
	eors	r1, r4
	lsrs	r3, r3, #29
	ldr	r4, [sp, #76]
	lsls	r4, r4, #3
	adds	r4, r4, r3
	ldr	r3, [sp, #68]
	eors	r3, r4
	bl	gcm_v6m_small.gcm.bitwise.product_bitwise
	add	sp, #44
	pop	{r4, r5, r6, r7, pc}
.Lgcm_v6m_small_func_end28:
	.size	gcm_v6m_small.gcm.tags.hash_lengths, .Lgcm_v6m_small_func_end28-gcm_v6m_small.gcm.tags.hash_lengths
	.cantunwind
	.fnend
                                        @ -- End function
	.section	.text.gcm_v6m_small.aes_cipher.zeroize.stack.wipe_stack.512,"ax",%progbits
	.p2align	1                               @ -- Begin function aes_cipher::zeroize::stack::wipe_stack::<=512>
	.type	gcm_v6m_small.aes_cipher.zeroize.stack.wipe_stack.512,%function
	.code	16
	.thumb_func
gcm_v6m_small.aes_cipher.zeroize.stack.wipe_stack.512: @ @gcm_v6m_small.aes_cipher.zeroize.stack.wipe_stack.512
	.fnstart
@ %bb.0:                                @ %start
	.save	{r4, lr}
	push	{r4, lr}
	.pad	#508
	sub	sp, #508
	.pad	#12
	sub	sp, #12
	movs	r0, #1
	lsls	r2, r0, #9
	add	r0, sp, #8
	movs	r4, #0
	mov	r1, r4
	bl	memset
	str	r4, [sp, #4]
	str	r4, [sp]
	@APP
	@NO_APP
	ldr	r0, [sp]
	lsrs	r1, r0, #9
	ldr	r2, [sp, #4]
	orrs	r2, r1
	@APP
	@NO_APP
	bne	.Lgcm_v6m_small_BB29_2
@ %bb.1:                                @ %then.1
	add	r1, sp, #8
	ldrb	r0, [r1, r0]
	@APP
	@NO_APP
	ldr	r1, [sp, #4]
	ldr	r1, [sp]
	str	r4, [sp, #4]
	str	r0, [sp]
	@APP
	@NO_APP
.Lgcm_v6m_small_BB29_2:                               @ %common.ret
	add	sp, #508
	add	sp, #12
	pop	{r4, pc}
.Lgcm_v6m_small_func_end29:
	.size	gcm_v6m_small.aes_cipher.zeroize.stack.wipe_stack.512, .Lgcm_v6m_small_func_end29-gcm_v6m_small.aes_cipher.zeroize.stack.wipe_stack.512
	.cantunwind
	.fnend
                                        @ -- End function
	.section	.text.gcm_v6m_small.gcm.mode.BorrowedGcm.put_tag_so_far,"ax",%progbits
	.p2align	2                               @ -- Begin function gcm::mode::BorrowedGcm::put_tag_so_far::<#c01aad2b5fbc92b1>
	.type	gcm_v6m_small.gcm.mode.BorrowedGcm.put_tag_so_far,%function
	.code	16
	.thumb_func
gcm_v6m_small.gcm.mode.BorrowedGcm.put_tag_so_far: @ @gcm_v6m_small.gcm.mode.BorrowedGcm.put_tag_so_far
	.fnstart
@ %bb.0:                                @ %start
	.save	{r4, r5, r6, r7, lr}
	push	{r4, r5, r6, r7, lr}
	.pad	#76
	sub	sp, #76
	mov	r4, r2
	mov	r6, r1
	mov	r5, r0
	adds	r1, #32
	movs	r2, #16
	mov	r0, r4
	bl	memmove
	ldrb	r0, [r5, #15]
	str	r0, [sp, #68]                   @ 4-byte Spill
	ldrb	r0, [r5, #14]
	str	r0, [sp, #64]                   @ 4-byte Spill
	ldrb	r0, [r5, #12]
	str	r0, [sp, #60]                   @ 4-byte Spill
	ldrb	r0, [r5, #13]
	str	r0, [sp, #56]                   @ 4-byte Spill
	ldrb	r0, [r5, #11]
	str	r0, [sp, #52]                   @ 4-byte Spill
	ldrb	r0, [r5, #10]
	str	r0, [sp, #48]                   @ 4-byte Spill
	ldrb	r0, [r5, #8]
	str	r0, [sp, #44]                   @ 4-byte Spill
	ldrb	r0, [r5, #9]
	str	r0, [sp, #40]                   @ 4-byte Spill
	ldrb	r0, [r5, #3]
	str	r0, [sp, #36]                   @ 4-byte Spill
	ldrb	r3, [r5, #2]
	ldrb	r2, [r5]
	ldrb	r1, [r5, #1]
	movs	r0, #0
	movs	r7, #1
	str	r7, [sp, #8]
	str	r0, [sp, #72]                   @ 4-byte Spill
	str	r0, [sp, #12]
	str	r4, [sp]
	lsls	r0, r1, #8
	adds	r0, r0, r2
	lsls	r1, r3, #16
	ldr	r2, [sp, #36]                   @ 4-byte Reload
	lsls	r2, r2, #24
	adds	r1, r2, r1
	adds	r0, r1, r0
	ldr	r1, [sp, #40]                   @ 4-byte Reload
	lsls	r1, r1, #8
	ldr	r2, [sp, #44]                   @ 4-byte Reload
	adds	r1, r1, r2
	ldr	r2, [sp, #48]                   @ 4-byte Reload
	lsls	r2, r2, #16
	ldr	r3, [sp, #52]                   @ 4-byte Reload
	lsls	r3, r3, #24
	adds	r2, r3, r2
	adds	r2, r2, r1
	ldr	r1, [sp, #56]                   @ 4-byte Reload
	lsls	r1, r1, #8
	ldr	r3, [sp, #60]                   @ 4-byte Reload
	adds	r1, r1, r3
	ldr	r3, [sp, #64]                   @ 4-byte Reload
	lsls	r3, r3, #16
	ldr	r7, [sp, #68]                   @ 4-byte Reload
	lsls	r7, r7, #24
	adds	r3, r7, r3
	adds	r3, r3, r1
	bl	gcm_v6m_small.aes_narrow.blocks.process_all_batches
	bl	gcm_v6m_small.aes_cipher.zeroize.stack.wipe_stack.1024
	mov	r0, r5
	mov	r1, r6
	bl	gcm_v6m_small.gcm.mode.BorrowedGcm.hash_so_far
	str	r0, [sp, #68]                   @ 4-byte Spill
	str	r1, [sp, #64]                   @ 4-byte Spill
	ldr	r0, [r6]
	str	r0, [sp, #60]                   @ 4-byte Spill
	ldr	r7, [r6, #4]
	ldr	r1, [r6, #8]
	ldr	r6, [r6, #12]
	str	r2, [sp]
	str	r3, [sp, #4]
	movs	r2, #31
	mvns	r2, r2
	movs	r3, #15
	mov	r0, r1
	adds	r0, #32
	mov	r0, r6
	sbcs	r0, r3
	blo	.Lgcm_v6m_small_BB30_2
@ %bb.1:                                @ %start
	mov	r6, r3
.Lgcm_v6m_small_BB30_2:                               @ %start
	str	r6, [sp, #20]
	blo	.Lgcm_v6m_small_BB30_4
@ %bb.3:                                @ %start
	mov	r1, r2
.Lgcm_v6m_small_BB30_4:                               @ %start
	str	r1, [sp, #16]
	ldr	r0, [sp, #72]                   @ 4-byte Reload
	mvns	r0, r0
	lsrs	r1, r7, #29
	cmp	r1, #0
	beq	.Lgcm_v6m_small_BB30_6
@ %bb.5:                                @ %start
	ldr	r7, .Lgcm_v6m_small_CPI30_0
.Lgcm_v6m_small_BB30_6:                               @ %start
	str	r7, [sp, #12]
	ldr	r1, [sp, #60]                   @ 4-byte Reload
	beq	.Lgcm_v6m_small_BB30_8
@ %bb.7:                                @ %start
	mov	r1, r0
.Lgcm_v6m_small_BB30_8:                               @ %start
	str	r1, [sp, #8]
	adds	r5, #16
	mov	r0, r5
	ldr	r2, [sp, #68]                   @ 4-byte Reload
	ldr	r3, [sp, #64]                   @ 4-byte Reload
	bl	gcm_v6m_small.gcm.tags.hash_lengths
	mov	r5, r0
	mov	r6, r1
	str	r2, [sp, #56]                   @ 4-byte Spill
	str	r3, [sp, #68]                   @ 4-byte Spill
	lsrs	r0, r3, #24
	ldrb	r1, [r4]
	eors	r1, r0
	strb	r1, [r4]
	ldrb	r0, [r4, #15]
	eors	r0, r5
	ldrb	r1, [r4, #1]
	str	r1, [sp, #72]                   @ 4-byte Spill
	ldrb	r1, [r4, #2]
	str	r1, [sp, #64]                   @ 4-byte Spill
	ldrb	r1, [r4, #3]
	str	r1, [sp, #60]                   @ 4-byte Spill
	ldrb	r1, [r4, #4]
	str	r1, [sp, #52]                   @ 4-byte Spill
	ldrb	r1, [r4, #5]
	str	r1, [sp, #48]                   @ 4-byte Spill
	ldrb	r1, [r4, #6]
	str	r1, [sp, #44]                   @ 4-byte Spill
	ldrb	r3, [r4, #7]
	ldrb	r1, [r4, #8]
	str	r1, [sp, #40]                   @ 4-byte Spill
	ldrb	r1, [r4, #9]
	str	r1, [sp, #36]                   @ 4-byte Spill
	ldrb	r1, [r4, #10]
	str	r1, [sp, #32]                   @ 4-byte Spill
	ldrb	r1, [r4, #11]
	ldrb	r2, [r4, #12]
	str	r2, [sp, #28]                   @ 4-byte Spill
	ldrb	r7, [r4, #13]
	ldrb	r2, [r4, #14]
	strb	r0, [r4, #15]
	lsrs	r0, r5, #8
	eors	r0, r2
	strb	r0, [r4, #14]
	lsrs	r0, r5, #16
	eors	r0, r7
	strb	r0, [r4, #13]
	lsrs	r0, r5, #24
	ldr	r2, [sp, #28]                   @ 4-byte Reload
	eors	r0, r2
	strb	r0, [r4, #12]
	eors	r1, r6
	strb	r1, [r4, #11]
	lsrs	r0, r6, #8
	ldr	r1, [sp, #32]                   @ 4-byte Reload
	eors	r0, r1
	strb	r0, [r4, #10]
	lsrs	r0, r6, #16
	ldr	r1, [sp, #36]                   @ 4-byte Reload
	eors	r0, r1
	strb	r0, [r4, #9]
	lsrs	r0, r6, #24
	ldr	r1, [sp, #40]                   @ 4-byte Reload
	eors	r0, r1
	strb	r0, [r4, #8]
	ldr	r1, [sp, #56]                   @ 4-byte Reload
	eors	r3, r1
	strb	r3, [r4, #7]
	lsrs	r0, r1, #8
	ldr	r2, [sp, #44]                   @ 4-byte Reload
	eors	r0, r2
	strb	r0, [r4, #6]
	lsrs	r0, r1, #16
	ldr	r2, [sp, #48]                   @ 4-byte Reload
	eors	r0, r2
	strb	r0, [r4, #5]
	lsrs	r0, r1, #24
	ldr	r1, [sp, #52]                   @ 4-byte Reload
	eors	r0, r1
	strb	r0, [r4, #4]
	ldr	r1, [sp, #68]                   @ 4-byte Reload
	ldr	r0, [sp, #60]                   @ 4-byte Reload
	eors	r0, r1
	strb	r0, [r4, #3]
	lsrs	r0, r1, #8
	ldr	r2, [sp, #64]                   @ 4-byte Reload
	eors	r0, r2
	strb	r0, [r4, #2]
	lsrs	r0, r1, #16
	ldr	r1, [sp, #72]                   @ 4-byte Reload
	eors	r0, r1
	strb	r0, [r4, #1]
	add	sp, #76
	pop	{r4, r5, r6, r7, pc}
	.p2align	2
@ %bb.9:
.Lgcm_v6m_small_CPI30_0:
	.long	536870911                       @ 0x1fffffff
.Lgcm_v6m_small_func_end30:
	.size	gcm_v6m_small.gcm.mode.BorrowedGcm.put_tag_so_far, .Lgcm_v6m_small_func_end30-gcm_v6m_small.gcm.mode.BorrowedGcm.put_tag_so_far
	.cantunwind
	.fnend
                                        @ -- End function
	.section	.text.gcm_v6m_small.aes_narrow.blocks.process_all_batches,"ax",%progbits
	.p2align	1                               @ -- Begin function aes_narrow::blocks::process_all_batches::<#f6c900d3ac1e47b9>
	.type	gcm_v6m_small.aes_narrow.blocks.process_all_batches,%function
	.code	16
	.thumb_func
gcm_v6m_small.aes_narrow.blocks.process_all_batches: @ @gcm_v6m_small.aes_narrow.blocks.process_all_batches
	.fnstart
@ %bb.0:                                @ %start
	.save	{r4, r5, r6, r7, lr}
	push	{r4, r5, r6, r7, lr}
	.pad	#44
	sub	sp, #44
	add	r1, sp, #32
	stm	r1!, {r0, r2, r3}               @ 12-byte Folded Spill
	movs	r1, #0
	ldr	r2, [sp, #76]
	ldr	r5, [sp, #72]
	ldr	r0, [sp, #64]
	str	r0, [sp, #20]                   @ 4-byte Spill
	mov	r7, r1
	mov	r6, r1
	str	r1, [sp, #28]                   @ 4-byte Spill
	str	r2, [sp, #24]                   @ 4-byte Spill
	b	.Lgcm_v6m_small_BB31_2
.Lgcm_v6m_small_BB31_1:                               @ %join.5
                                        @   in Loop: Header=BB31_2 Depth=1
	str	r4, [sp, #8]
	add	r3, sp, #32
	ldm	r3, {r0, r2, r3}                @ 12-byte Folded Reload
	bl	gcm_v6m_small.aes_soft.soft.blocks.filled_up.process_filled_up
	adds	r7, r4, r7
	ldr	r1, [sp, #28]                   @ 4-byte Reload
	adcs	r6, r1
	subs	r0, r7, r5
	mov	r0, r6
	ldr	r2, [sp, #24]                   @ 4-byte Reload
	sbcs	r0, r2
	bhs	.Lgcm_v6m_small_BB31_6
.Lgcm_v6m_small_BB31_2:                               @ %join.5
                                        @ =>This Inner Loop Header: Depth=1
	str	r1, [sp, #12]
	lsls	r0, r7, #4
	ldr	r1, [sp, #20]                   @ 4-byte Reload
	adds	r0, r1, r0
	str	r0, [sp]
	subs	r4, r5, r7
	mov	r1, r2
	sbcs	r1, r6
	movs	r0, #2
	cmp	r4, #2
	blo	.Lgcm_v6m_small_BB31_4
@ %bb.3:                                @ %join.5
                                        @   in Loop: Header=BB31_2 Depth=1
	mov	r4, r0
.Lgcm_v6m_small_BB31_4:                               @ %join.5
                                        @   in Loop: Header=BB31_2 Depth=1
	cmp	r1, #0
	beq	.Lgcm_v6m_small_BB31_1
@ %bb.5:                                @ %join.5
                                        @   in Loop: Header=BB31_2 Depth=1
	mov	r4, r0
	b	.Lgcm_v6m_small_BB31_1
.Lgcm_v6m_small_BB31_6:                               @ %after.1
	add	sp, #44
	pop	{r4, r5, r6, r7, pc}
.Lgcm_v6m_small_func_end31:
	.size	gcm_v6m_small.aes_narrow.blocks.process_all_batches, .Lgcm_v6m_small_func_end31-gcm_v6m_small.aes_narrow.blocks.process_all_batches
	.cantunwind
	.fnend
                                        @ -- End function
	.section	.text.gcm_v6m_small.aes_soft.soft.blocks.filled_up.process_filled_up,"ax",%progbits
	.p2align	1                               @ -- Begin function aes_soft::soft::blocks::filled_up::process_filled_up::<#f6c900d3ac1e47b9>
	.type	gcm_v6m_small.aes_soft.soft.blocks.filled_up.process_filled_up,%function
	.code	16
	.thumb_func
gcm_v6m_small.aes_soft.soft.blocks.filled_up.process_filled_up: @ @gcm_v6m_small.aes_soft.soft.blocks.filled_up.process_filled_up
	.fnstart
@ %bb.0:                                @ %start
	.save	{r4, r5, r6, r7, lr}
	push	{r4, r5, r6, r7, lr}
	.pad	#156
	sub	sp, #156
	str	r3, [sp, #8]                    @ 4-byte Spill
	str	r2, [sp, #24]                   @ 4-byte Spill
	str	r0, [sp, #20]                   @ 4-byte Spill
	movs	r6, #0
	str	r6, [sp, #120]
	str	r6, [sp, #116]
	str	r6, [sp, #112]
	str	r6, [sp, #108]
	str	r6, [sp, #104]
	str	r6, [sp, #100]
	str	r6, [sp, #96]
	str	r6, [sp, #92]
	str	r6, [sp, #60]
	str	r6, [sp, #64]
	str	r6, [sp, #68]
	str	r6, [sp, #72]
	str	r6, [sp, #76]
	str	r6, [sp, #80]
	str	r6, [sp, #84]
	str	r6, [sp, #88]
	str	r6, [sp, #28]
	str	r6, [sp, #32]
	str	r6, [sp, #36]
	str	r6, [sp, #40]
	str	r6, [sp, #44]
	str	r6, [sp, #48]
	str	r6, [sp, #52]
	str	r6, [sp, #56]
	ldr	r4, [sp, #176]
	ldrb	r0, [r4, #12]
	ldrb	r1, [r4, #13]
	lsls	r1, r1, #8
	adds	r0, r1, r0
	ldrb	r1, [r4, #14]
	lsls	r1, r1, #16
	ldrb	r2, [r4, #15]
	lsls	r2, r2, #24
	adds	r1, r2, r1
	adds	r0, r1, r0
	str	r0, [sp, #136]
	ldrb	r0, [r4, #8]
	ldrb	r1, [r4, #9]
	lsls	r1, r1, #8
	adds	r0, r1, r0
	ldrb	r1, [r4, #10]
	lsls	r1, r1, #16
	ldrb	r2, [r4, #11]
	lsls	r2, r2, #24
	adds	r1, r2, r1
	adds	r0, r1, r0
	str	r0, [sp, #132]
	ldrb	r0, [r4, #4]
	ldrb	r1, [r4, #5]
	lsls	r1, r1, #8
	adds	r0, r1, r0
	ldrb	r1, [r4, #6]
	lsls	r1, r1, #16
	ldrb	r2, [r4, #7]
	lsls	r2, r2, #24
	adds	r1, r2, r1
	adds	r0, r1, r0
	str	r0, [sp, #128]
	ldrb	r0, [r4]
	ldrb	r1, [r4, #1]
	lsls	r1, r1, #8
	adds	r0, r1, r0
	ldrb	r1, [r4, #2]
	lsls	r1, r1, #16
	ldrb	r2, [r4, #3]
	lsls	r2, r2, #24
	adds	r1, r2, r1
	adds	r0, r1, r0
	str	r0, [sp, #124]
	add	r0, sp, #124
	adds	r0, #16
	movs	r2, #16
	mov	r1, r4
	bl	memcpy
	ldr	r5, [sp, #188]
	ldr	r7, [sp, #184]
	mov	r1, r7
	orrs	r1, r5
	rsbs	r0, r1, #0
	adcs	r0, r1
	str	r0, [sp, #12]                   @ 4-byte Spill
	ldr	r3, [sp, #8]                    @ 4-byte Reload
	lsls	r0, r3, #29
	ldr	r2, [sp, #24]                   @ 4-byte Reload
	lsrs	r2, r2, #3
	adds	r0, r2, r0
	lsrs	r3, r3, #3
	subs	r0, r0, #1
	str	r0, [sp, #24]                   @ 4-byte Spill
	sbcs	r3, r6
	cmp	r1, #0
	str	r5, [sp, #4]                    @ 4-byte Spill
	str	r7, [sp, #16]                   @ 4-byte Spill
	beq	.Lgcm_v6m_small_BB32_2
@ %bb.1:                                @ %join.8.i
	ldrb	r0, [r4, #12]
	ldrb	r1, [r4, #13]
	lsls	r1, r1, #8
	adds	r0, r1, r0
	ldrb	r1, [r4, #14]
	lsls	r1, r1, #16
	ldrb	r2, [r4, #15]
	lsls	r2, r2, #24
	adds	r1, r2, r1
	adds	r0, r1, r0
	str	r0, [sp, #136]
	ldrb	r0, [r4, #8]
	ldrb	r1, [r4, #9]
	lsls	r1, r1, #8
	adds	r0, r1, r0
	ldrb	r1, [r4, #10]
	lsls	r1, r1, #16
	ldrb	r2, [r4, #11]
	lsls	r2, r2, #24
	adds	r1, r2, r1
	adds	r0, r1, r0
	str	r0, [sp, #132]
	ldrb	r0, [r4, #4]
	ldrb	r1, [r4, #5]
	lsls	r1, r1, #8
	adds	r0, r1, r0
	ldrb	r1, [r4, #6]
	lsls	r1, r1, #16
	ldrb	r2, [r4, #7]
	lsls	r2, r2, #24
	adds	r1, r2, r1
	adds	r0, r1, r0
	str	r0, [sp, #128]
	ldrb	r0, [r4]
	ldrb	r1, [r4, #1]
	lsls	r1, r1, #8
	adds	r0, r1, r0
	ldrb	r1, [r4, #2]
	lsls	r1, r1, #16
	ldrb	r2, [r4, #3]
	lsls	r2, r2, #24
	adds	r1, r2, r1
	adds	r0, r1, r0
	str	r0, [sp, #124]
	movs	r0, #1
	eors	r0, r7
	orrs	r0, r5
	bne	.Lgcm_v6m_small_BB32_3
.Lgcm_v6m_small_BB32_2:                               @ %then.6.i
	add	r0, sp, #124
	add	r1, sp, #60
	ldm	r0!, {r2, r5, r6, r7}
	stm	r1!, {r2, r5, r6, r7}
	ldm	r0!, {r2, r5, r6, r7}
	stm	r1!, {r2, r5, r6, r7}
	b	.Lgcm_v6m_small_BB32_4
.Lgcm_v6m_small_BB32_3:                               @ %join.8.i.1
	add	r5, sp, #124
	mov	r0, r5
	adds	r0, #16
	mov	r1, r4
	adds	r1, #16
	movs	r2, #16
	mov	r6, r3
	bl	memcpy
	mov	r3, r6
	add	r0, sp, #60
	ldm	r5!, {r1, r2, r6, r7}
	stm	r0!, {r1, r2, r6, r7}
	ldm	r5!, {r1, r2, r6, r7}
	stm	r0!, {r1, r2, r6, r7}
.Lgcm_v6m_small_BB32_4:                               @ %"aes_soft::soft::blocks::filled_up::filled_up::<#ee324ebdabaa1892>.exit"
	add	r0, sp, #60
	str	r0, [sp]
	add	r6, sp, #28
	mov	r0, r6
	ldr	r1, [sp, #20]                   @ 4-byte Reload
	ldr	r2, [sp, #24]                   @ 4-byte Reload
	bl	gcm_v6m_small.aes_soft.soft.ciphers.planes.process_outlined
	add	r0, sp, #92
	ldm	r6!, {r1, r2, r3, r5}
	stm	r0!, {r1, r2, r3, r5}
	ldm	r6!, {r1, r2, r3, r5}
	stm	r0!, {r1, r2, r3, r5}
	ldr	r0, [sp, #12]                   @ 4-byte Reload
	cmp	r0, #0
	ldr	r5, [sp, #16]                   @ 4-byte Reload
	bne	.Lgcm_v6m_small_BB32_7
@ %bb.5:                                @ %join.8.i22
	add	r1, sp, #92
	movs	r2, #16
	mov	r0, r4
	bl	memcpy
	movs	r0, #1
	eors	r5, r0
	ldr	r0, [sp, #4]                    @ 4-byte Reload
	orrs	r5, r0
	beq	.Lgcm_v6m_small_BB32_7
@ %bb.6:                                @ %join.8.i22.1
	adds	r4, #16
	add	r1, sp, #92
	adds	r1, #16
	movs	r2, #16
	mov	r0, r4
	bl	memcpy
.Lgcm_v6m_small_BB32_7:                               @ %"aes_soft::soft::blocks::filled_up::copy_first::<#ee324ebdabaa1892>.exit"
	add	sp, #156
	pop	{r4, r5, r6, r7, pc}
.Lgcm_v6m_small_func_end32:
	.size	gcm_v6m_small.aes_soft.soft.blocks.filled_up.process_filled_up, .Lgcm_v6m_small_func_end32-gcm_v6m_small.aes_soft.soft.blocks.filled_up.process_filled_up
	.cantunwind
	.fnend
                                        @ -- End function
	.section	.text.gcm_v6m_small.aes_soft.soft.ciphers.planes.process_outlined,"ax",%progbits
	.p2align	2                               @ -- Begin function aes_soft::soft::ciphers::planes::process_outlined::<#dc651273b304e77a>
	.type	gcm_v6m_small.aes_soft.soft.ciphers.planes.process_outlined,%function
	.code	16
	.thumb_func
gcm_v6m_small.aes_soft.soft.ciphers.planes.process_outlined: @ @gcm_v6m_small.aes_soft.soft.ciphers.planes.process_outlined
	.fnstart
@ %bb.0:                                @ %start
	.save	{r4, r5, r6, r7, lr}
	push	{r4, r5, r6, r7, lr}
	.pad	#204
	sub	sp, #204
	str	r3, [sp, #76]                   @ 4-byte Spill
	str	r2, [sp, #80]                   @ 4-byte Spill
	str	r1, [sp, #96]                   @ 4-byte Spill
	str	r0, [sp, #68]                   @ 4-byte Spill
	ldr	r0, [sp, #224]
	ldrb	r1, [r0, #28]
	ldrb	r2, [r0, #29]
	lsls	r2, r2, #8
	adds	r1, r2, r1
	ldrb	r2, [r0, #30]
	lsls	r2, r2, #16
	adds	r1, r1, r2
	ldrb	r2, [r0, #31]
	lsls	r2, r2, #24
	adds	r1, r1, r2
	str	r1, [sp, #20]                   @ 4-byte Spill
	ldrb	r1, [r0, #3]
	str	r1, [sp, #104]                  @ 4-byte Spill
	ldrb	r1, [r0, #2]
	str	r1, [sp, #100]                  @ 4-byte Spill
	ldrb	r1, [r0]
	str	r1, [sp, #92]                   @ 4-byte Spill
	ldrb	r1, [r0, #1]
	str	r1, [sp, #88]                   @ 4-byte Spill
	ldrb	r1, [r0, #19]
	str	r1, [sp, #84]                   @ 4-byte Spill
	ldrb	r1, [r0, #18]
	str	r1, [sp, #72]                   @ 4-byte Spill
	ldrb	r1, [r0, #16]
	str	r1, [sp, #64]                   @ 4-byte Spill
	ldrb	r1, [r0, #17]
	str	r1, [sp, #60]                   @ 4-byte Spill
	ldrb	r1, [r0, #7]
	str	r1, [sp, #56]                   @ 4-byte Spill
	ldrb	r1, [r0, #6]
	str	r1, [sp, #52]                   @ 4-byte Spill
	ldrb	r1, [r0, #4]
	str	r1, [sp, #48]                   @ 4-byte Spill
	ldrb	r1, [r0, #5]
	str	r1, [sp, #44]                   @ 4-byte Spill
	ldrb	r1, [r0, #23]
	str	r1, [sp, #40]                   @ 4-byte Spill
	ldrb	r1, [r0, #22]
	str	r1, [sp, #36]                   @ 4-byte Spill
	ldrb	r1, [r0, #20]
	str	r1, [sp, #32]                   @ 4-byte Spill
	ldrb	r1, [r0, #21]
	str	r1, [sp, #28]                   @ 4-byte Spill
	ldrb	r1, [r0, #11]
	str	r1, [sp, #24]                   @ 4-byte Spill
	ldrb	r1, [r0, #10]
	str	r1, [sp, #16]                   @ 4-byte Spill
	ldrb	r1, [r0, #8]
	str	r1, [sp, #12]                   @ 4-byte Spill
	ldrb	r1, [r0, #9]
	str	r1, [sp, #8]                    @ 4-byte Spill
	ldrb	r1, [r0, #27]
	str	r1, [sp, #4]                    @ 4-byte Spill
	ldrb	r6, [r0, #26]
	ldrb	r5, [r0, #24]
	ldrb	r4, [r0, #25]
	ldrb	r3, [r0, #15]
	ldrb	r2, [r0, #14]
	ldrb	r1, [r0, #12]
	ldrb	r0, [r0, #13]
	ldr	r7, [sp, #20]                   @ 4-byte Reload
	str	r7, [sp, #200]
	lsls	r0, r0, #8
	adds	r0, r0, r1
	lsls	r1, r2, #16
	adds	r0, r0, r1
	lsls	r1, r3, #24
	adds	r0, r0, r1
	str	r0, [sp, #196]
	lsls	r0, r4, #8
	adds	r0, r0, r5
	lsls	r1, r6, #16
	adds	r0, r0, r1
	ldr	r1, [sp, #4]                    @ 4-byte Reload
	lsls	r1, r1, #24
	adds	r0, r0, r1
	str	r0, [sp, #192]
	ldr	r0, [sp, #8]                    @ 4-byte Reload
	lsls	r0, r0, #8
	ldr	r1, [sp, #12]                   @ 4-byte Reload
	adds	r0, r0, r1
	ldr	r1, [sp, #16]                   @ 4-byte Reload
	lsls	r1, r1, #16
	adds	r0, r0, r1
	ldr	r1, [sp, #24]                   @ 4-byte Reload
	lsls	r1, r1, #24
	adds	r0, r0, r1
	str	r0, [sp, #188]
	ldr	r0, [sp, #28]                   @ 4-byte Reload
	lsls	r0, r0, #8
	ldr	r1, [sp, #32]                   @ 4-byte Reload
	adds	r0, r0, r1
	ldr	r1, [sp, #36]                   @ 4-byte Reload
	lsls	r1, r1, #16
	adds	r0, r0, r1
	ldr	r1, [sp, #40]                   @ 4-byte Reload
	lsls	r1, r1, #24
	adds	r0, r0, r1
	str	r0, [sp, #184]
	ldr	r0, [sp, #44]                   @ 4-byte Reload
	lsls	r0, r0, #8
	ldr	r1, [sp, #48]                   @ 4-byte Reload
	adds	r0, r0, r1
	ldr	r1, [sp, #52]                   @ 4-byte Reload
	lsls	r1, r1, #16
	adds	r0, r0, r1
	ldr	r1, [sp, #56]                   @ 4-byte Reload
	lsls	r1, r1, #24
	adds	r0, r0, r1
	str	r0, [sp, #180]
	ldr	r0, [sp, #60]                   @ 4-byte Reload
	lsls	r0, r0, #8
	ldr	r1, [sp, #64]                   @ 4-byte Reload
	adds	r0, r0, r1
	ldr	r1, [sp, #72]                   @ 4-byte Reload
	lsls	r1, r1, #16
	adds	r0, r0, r1
	ldr	r1, [sp, #84]                   @ 4-byte Reload
	lsls	r1, r1, #24
	adds	r0, r0, r1
	str	r0, [sp, #176]
	ldr	r0, [sp, #88]                   @ 4-byte Reload
	lsls	r0, r0, #8
	ldr	r1, [sp, #92]                   @ 4-byte Reload
	adds	r0, r0, r1
	ldr	r1, [sp, #100]                  @ 4-byte Reload
	lsls	r1, r1, #16
	adds	r0, r0, r1
	ldr	r1, [sp, #104]                  @ 4-byte Reload
	lsls	r1, r1, #24
	adds	r0, r0, r1
	str	r0, [sp, #172]
	add	r4, sp, #108
	add	r1, sp, #172
	mov	r0, r4
	bl	gcm_v6m_small.aes_planes.soft.word.transpose.transpose
	add	r0, sp, #140
	ldm	r4!, {r1, r2, r3, r5}
	stm	r0!, {r1, r2, r3, r5}
	ldm	r4!, {r1, r2, r3, r5}
	stm	r0!, {r1, r2, r3, r5}
	add	r0, sp, #172
	movs	r4, #0
	ldr	r1, [sp, #96]                   @ 4-byte Reload
	mov	r2, r4
	mov	r3, r4
	bl	gcm_v6m_small.aes_planes.soft.round_keys.round_key.2
	ldr	r0, [sp, #200]
	ldr	r1, [sp, #168]
	eors	r1, r0
	str	r1, [sp, #168]
	ldr	r0, [sp, #196]
	ldr	r1, [sp, #164]
	eors	r1, r0
	str	r1, [sp, #164]
	ldr	r0, [sp, #192]
	ldr	r1, [sp, #160]
	eors	r1, r0
	str	r1, [sp, #160]
	ldr	r0, [sp, #188]
	ldr	r1, [sp, #156]
	eors	r1, r0
	str	r1, [sp, #156]
	ldr	r0, [sp, #184]
	ldr	r1, [sp, #152]
	eors	r1, r0
	str	r1, [sp, #152]
	ldr	r0, [sp, #180]
	ldr	r1, [sp, #148]
	eors	r1, r0
	str	r1, [sp, #148]
	ldr	r0, [sp, #176]
	ldr	r1, [sp, #144]
	eors	r1, r0
	str	r1, [sp, #144]
	ldr	r0, [sp, #172]
	ldr	r1, [sp, #140]
	eors	r1, r0
	str	r1, [sp, #140]
	ldr	r0, [sp, #80]                   @ 4-byte Reload
	subs	r1, r0, #2
	ldr	r2, [sp, #76]                   @ 4-byte Reload
	str	r4, [sp, #92]                   @ 4-byte Spill
	sbcs	r2, r4
	lsls	r0, r2, #30
	str	r1, [sp, #72]                   @ 4-byte Spill
	lsrs	r1, r1, #2
	adds	r1, r1, r0
	str	r2, [sp, #64]                   @ 4-byte Spill
	lsrs	r2, r2, #2
	mov	r0, r1
	orrs	r0, r2
	bne	.Lgcm_v6m_small_BB33_1
	b	.Lgcm_v6m_small_BB33_3
.Lgcm_v6m_small_BB33_1:                               @ %join.7.lr.ph.i
	ldr	r7, [sp, #92]                   @ 4-byte Reload
	mov	r5, r7
	str	r1, [sp, #88]                   @ 4-byte Spill
	str	r2, [sp, #84]                   @ 4-byte Spill
.Lgcm_v6m_small_BB33_2:                               @ %join.7.i
                                        @ =>This Inner Loop Header: Depth=1
	str	r5, [sp, #100]                  @ 4-byte Spill
	str	r7, [sp, #104]                  @ 4-byte Spill
	add	r4, sp, #140
	mov	r0, r4
	bl	gcm_v6m_small.aes_planes.soft.sbox.sub_bytes
	mov	r0, r4
	bl	gcm_v6m_small.aes_planes.soft.mix_columns.mix_columns_1
	lsrs	r0, r5, #30
	lsls	r1, r7, #2
	adds	r6, r1, r0
	lsls	r5, r5, #2
	adds	r2, r5, #1
	add	r0, sp, #172
	ldr	r7, [sp, #96]                   @ 4-byte Reload
	mov	r1, r7
	mov	r3, r6
	bl	gcm_v6m_small.aes_planes.soft.round_keys.round_key.2
	ldr	r0, [sp, #200]
	ldr	r1, [sp, #168]
	eors	r1, r0
	str	r1, [sp, #168]
	ldr	r0, [sp, #196]
	ldr	r1, [sp, #164]
	eors	r1, r0
	str	r1, [sp, #164]
	ldr	r0, [sp, #192]
	ldr	r1, [sp, #160]
	eors	r1, r0
	str	r1, [sp, #160]
	ldr	r0, [sp, #188]
	ldr	r1, [sp, #156]
	eors	r1, r0
	str	r1, [sp, #156]
	ldr	r0, [sp, #184]
	ldr	r1, [sp, #152]
	eors	r1, r0
	str	r1, [sp, #152]
	ldr	r0, [sp, #180]
	ldr	r1, [sp, #148]
	eors	r1, r0
	str	r1, [sp, #148]
	ldr	r0, [sp, #176]
	ldr	r1, [sp, #144]
	eors	r1, r0
	str	r1, [sp, #144]
	ldr	r0, [sp, #172]
	ldr	r1, [sp, #140]
	eors	r1, r0
	str	r1, [sp, #140]
	mov	r0, r4
	bl	gcm_v6m_small.aes_planes.soft.sbox.sub_bytes
	mov	r0, r4
	bl	gcm_v6m_small.aes_planes.soft.mix_columns.mix_columns_2
	adds	r2, r5, #2
	add	r0, sp, #172
	mov	r1, r7
	mov	r3, r6
	bl	gcm_v6m_small.aes_planes.soft.round_keys.round_key.2
	ldr	r0, [sp, #200]
	ldr	r1, [sp, #168]
	eors	r1, r0
	str	r1, [sp, #168]
	ldr	r0, [sp, #196]
	ldr	r1, [sp, #164]
	eors	r1, r0
	str	r1, [sp, #164]
	ldr	r0, [sp, #192]
	ldr	r1, [sp, #160]
	eors	r1, r0
	str	r1, [sp, #160]
	ldr	r0, [sp, #188]
	ldr	r1, [sp, #156]
	eors	r1, r0
	str	r1, [sp, #156]
	ldr	r0, [sp, #184]
	ldr	r1, [sp, #152]
	eors	r1, r0
	str	r1, [sp, #152]
	ldr	r0, [sp, #180]
	ldr	r1, [sp, #148]
	eors	r1, r0
	str	r1, [sp, #148]
	ldr	r0, [sp, #176]
	ldr	r1, [sp, #144]
	eors	r1, r0
	str	r1, [sp, #144]
	ldr	r0, [sp, #172]
	ldr	r1, [sp, #140]
	eors	r1, r0
	str	r1, [sp, #140]
	mov	r0, r4
	bl	gcm_v6m_small.aes_planes.soft.sbox.sub_bytes
	mov	r0, r4
	bl	gcm_v6m_small.aes_planes.soft.mix_columns.mix_columns_3
	adds	r2, r5, #3
	add	r0, sp, #172
	mov	r1, r7
	mov	r3, r6
	bl	gcm_v6m_small.aes_planes.soft.round_keys.round_key.2
	ldr	r0, [sp, #200]
	ldr	r1, [sp, #168]
	eors	r1, r0
	str	r1, [sp, #168]
	ldr	r0, [sp, #196]
	ldr	r1, [sp, #164]
	eors	r1, r0
	str	r1, [sp, #164]
	ldr	r0, [sp, #192]
	ldr	r1, [sp, #160]
	eors	r1, r0
	str	r1, [sp, #160]
	ldr	r0, [sp, #188]
	ldr	r1, [sp, #156]
	eors	r1, r0
	str	r1, [sp, #156]
	ldr	r0, [sp, #184]
	ldr	r1, [sp, #152]
	eors	r1, r0
	str	r1, [sp, #152]
	ldr	r0, [sp, #180]
	ldr	r1, [sp, #148]
	eors	r1, r0
	str	r1, [sp, #148]
	ldr	r0, [sp, #176]
	ldr	r1, [sp, #144]
	eors	r1, r0
	str	r1, [sp, #144]
	ldr	r0, [sp, #172]
	ldr	r1, [sp, #140]
	eors	r1, r0
	str	r1, [sp, #140]
	mov	r0, r4
	bl	gcm_v6m_small.aes_planes.soft.sbox.sub_bytes
	mov	r0, r4
	bl	gcm_v6m_small.aes_planes.soft.mix_columns.mix_columns_0
	adds	r2, r5, #4
	ldr	r5, [sp, #100]                  @ 4-byte Reload
	ldr	r4, [sp, #92]                   @ 4-byte Reload
	adcs	r6, r4
	add	r0, sp, #172
	mov	r1, r7
	mov	r3, r6
	ldr	r7, [sp, #104]                  @ 4-byte Reload
	bl	gcm_v6m_small.aes_planes.soft.round_keys.round_key.2
	ldr	r2, [sp, #84]                   @ 4-byte Reload
	ldr	r0, [sp, #200]
	ldr	r1, [sp, #168]
	eors	r1, r0
	str	r1, [sp, #168]
	ldr	r0, [sp, #196]
	ldr	r1, [sp, #164]
	eors	r1, r0
	str	r1, [sp, #164]
	ldr	r0, [sp, #192]
	ldr	r1, [sp, #160]
	eors	r1, r0
	str	r1, [sp, #160]
	ldr	r0, [sp, #188]
	ldr	r1, [sp, #156]
	eors	r1, r0
	str	r1, [sp, #156]
	ldr	r0, [sp, #184]
	ldr	r1, [sp, #152]
	eors	r1, r0
	str	r1, [sp, #152]
	ldr	r0, [sp, #180]
	ldr	r1, [sp, #148]
	eors	r1, r0
	str	r1, [sp, #148]
	ldr	r0, [sp, #176]
	ldr	r1, [sp, #144]
	eors	r1, r0
	str	r1, [sp, #144]
	ldr	r0, [sp, #172]
	ldr	r1, [sp, #140]
	eors	r1, r0
	str	r1, [sp, #140]
	ldr	r1, [sp, #88]                   @ 4-byte Reload
	adds	r5, r5, #1
	adcs	r7, r4
	subs	r0, r5, r1
	mov	r0, r7
	sbcs	r0, r2
	bhs	.Lgcm_v6m_small_BB33_3
	b	.Lgcm_v6m_small_BB33_2
.Lgcm_v6m_small_BB33_3:                               @ %after.3.i
	add	r4, sp, #140
	mov	r0, r4
	bl	gcm_v6m_small.aes_planes.soft.sbox.sub_bytes
	mov	r0, r4
	bl	gcm_v6m_small.aes_planes.soft.mix_columns.mix_columns_1
	movs	r0, #3
	ldr	r4, [sp, #72]                   @ 4-byte Reload
	bics	r4, r0
	adds	r2, r4, #1
	add	r0, sp, #172
	ldr	r7, [sp, #96]                   @ 4-byte Reload
	mov	r1, r7
	ldr	r5, [sp, #64]                   @ 4-byte Reload
	mov	r3, r5
	bl	gcm_v6m_small.aes_planes.soft.round_keys.round_key.2
	mov	r2, r5
	ldr	r0, [sp, #200]
	ldr	r1, [sp, #168]
	eors	r1, r0
	str	r1, [sp, #168]
	ldr	r0, [sp, #196]
	ldr	r1, [sp, #164]
	eors	r1, r0
	str	r1, [sp, #164]
	ldr	r0, [sp, #192]
	ldr	r1, [sp, #160]
	eors	r1, r0
	str	r1, [sp, #160]
	ldr	r0, [sp, #188]
	ldr	r1, [sp, #156]
	eors	r1, r0
	str	r1, [sp, #156]
	ldr	r0, [sp, #184]
	ldr	r1, [sp, #152]
	eors	r1, r0
	str	r1, [sp, #152]
	ldr	r0, [sp, #180]
	ldr	r1, [sp, #148]
	eors	r1, r0
	str	r1, [sp, #148]
	ldr	r0, [sp, #176]
	ldr	r1, [sp, #144]
	eors	r1, r0
	str	r1, [sp, #144]
	ldr	r0, [sp, #172]
	ldr	r1, [sp, #140]
	eors	r1, r0
	str	r1, [sp, #140]
	adds	r0, r4, #2
	ldr	r6, [sp, #80]                   @ 4-byte Reload
	subs	r0, r0, r6
	mov	r0, r5
	ldr	r5, [sp, #76]                   @ 4-byte Reload
	sbcs	r0, r5
	bhs	.Lgcm_v6m_small_BB33_5
@ %bb.4:                                @ %then.11.i
	add	r4, sp, #140
	mov	r0, r4
	mov	r6, r2
	bl	gcm_v6m_small.aes_planes.soft.sbox.sub_bytes
	mov	r0, r4
	bl	gcm_v6m_small.aes_planes.soft.mix_columns.mix_columns_2
	add	r0, sp, #172
	mov	r1, r7
	ldr	r2, [sp, #72]                   @ 4-byte Reload
	mov	r3, r6
	bl	gcm_v6m_small.aes_planes.soft.round_keys.round_key.2
	ldr	r0, [sp, #200]
	ldr	r1, [sp, #168]
	eors	r1, r0
	str	r1, [sp, #168]
	ldr	r0, [sp, #196]
	ldr	r1, [sp, #164]
	eors	r1, r0
	str	r1, [sp, #164]
	ldr	r0, [sp, #192]
	ldr	r1, [sp, #160]
	eors	r1, r0
	str	r1, [sp, #160]
	ldr	r0, [sp, #188]
	ldr	r1, [sp, #156]
	eors	r1, r0
	str	r1, [sp, #156]
	ldr	r0, [sp, #184]
	ldr	r1, [sp, #152]
	eors	r1, r0
	str	r1, [sp, #152]
	ldr	r0, [sp, #180]
	ldr	r1, [sp, #148]
	eors	r1, r0
	str	r1, [sp, #148]
	ldr	r0, [sp, #176]
	ldr	r1, [sp, #144]
	eors	r1, r0
	str	r1, [sp, #144]
	ldr	r0, [sp, #172]
	ldr	r1, [sp, #140]
	eors	r1, r0
	str	r1, [sp, #140]
	mov	r0, r4
	bl	gcm_v6m_small.aes_planes.soft.sbox.sub_bytes
	mov	r0, r4
	bl	gcm_v6m_small.aes_planes.soft.mix_columns.mix_columns_3
	movs	r0, #0
	ldr	r6, [sp, #80]                   @ 4-byte Reload
	subs	r2, r6, #1
	mov	r3, r5
	sbcs	r3, r0
	add	r0, sp, #172
	mov	r1, r7
	bl	gcm_v6m_small.aes_planes.soft.round_keys.round_key.2
	ldr	r0, [sp, #200]
	ldr	r1, [sp, #168]
	eors	r1, r0
	str	r1, [sp, #168]
	ldr	r0, [sp, #196]
	ldr	r1, [sp, #164]
	eors	r1, r0
	str	r1, [sp, #164]
	ldr	r0, [sp, #192]
	ldr	r1, [sp, #160]
	eors	r1, r0
	str	r1, [sp, #160]
	ldr	r0, [sp, #188]
	ldr	r1, [sp, #156]
	eors	r1, r0
	str	r1, [sp, #156]
	ldr	r0, [sp, #184]
	ldr	r1, [sp, #152]
	eors	r1, r0
	str	r1, [sp, #152]
	ldr	r0, [sp, #180]
	ldr	r1, [sp, #148]
	eors	r1, r0
	str	r1, [sp, #148]
	ldr	r0, [sp, #176]
	ldr	r1, [sp, #144]
	eors	r1, r0
	str	r1, [sp, #144]
	ldr	r0, [sp, #172]
	ldr	r1, [sp, #140]
	eors	r1, r0
	str	r1, [sp, #140]
	b	.Lgcm_v6m_small_BB33_6
.Lgcm_v6m_small_BB33_5:                               @ %else.12.i
	add	r0, sp, #140
	ldr	r1, .Lgcm_v6m_small_CPI33_0
	bl	gcm_v6m_small.aes_planes.soft.shifts.swap_columns.2
.Lgcm_v6m_small_BB33_6:                               @ %"aes_soft::soft::ciphers::planes::EncryptPlaneCipher::process_planes::<#49ec3a76f5e72ccf>.exit"
	add	r4, sp, #140
	mov	r0, r4
	bl	gcm_v6m_small.aes_planes.soft.sbox.sub_bytes
	add	r0, sp, #172
	mov	r1, r7
	mov	r2, r6
	mov	r3, r5
	bl	gcm_v6m_small.aes_planes.soft.round_keys.round_key.2
	ldr	r0, [sp, #200]
	ldr	r1, [sp, #168]
	eors	r1, r0
	str	r1, [sp, #168]
	ldr	r0, [sp, #196]
	ldr	r1, [sp, #164]
	eors	r1, r0
	str	r1, [sp, #164]
	ldr	r0, [sp, #192]
	ldr	r1, [sp, #160]
	eors	r1, r0
	str	r1, [sp, #160]
	ldr	r0, [sp, #188]
	ldr	r1, [sp, #156]
	eors	r1, r0
	str	r1, [sp, #156]
	ldr	r0, [sp, #184]
	ldr	r1, [sp, #152]
	eors	r1, r0
	str	r1, [sp, #152]
	ldr	r0, [sp, #180]
	ldr	r1, [sp, #148]
	eors	r1, r0
	str	r1, [sp, #148]
	ldr	r0, [sp, #176]
	ldr	r1, [sp, #144]
	eors	r1, r0
	str	r1, [sp, #144]
	ldr	r0, [sp, #172]
	ldr	r1, [sp, #140]
	eors	r1, r0
	str	r1, [sp, #140]
	add	r1, sp, #108
	mov	r0, r1
	ldm	r4!, {r2, r3, r5, r6}
	stm	r0!, {r2, r3, r5, r6}
	ldm	r4!, {r2, r3, r5, r6}
	stm	r0!, {r2, r3, r5, r6}
	add	r0, sp, #172
	bl	gcm_v6m_small.aes_planes.soft.word.transpose.transpose
	ldr	r0, [sp, #172]
	str	r0, [sp, #104]                  @ 4-byte Spill
	ldr	r0, [sp, #180]
	str	r0, [sp, #100]                  @ 4-byte Spill
	ldr	r2, [sp, #188]
	ldr	r3, [sp, #196]
	ldr	r4, [sp, #176]
	ldr	r5, [sp, #184]
	ldr	r6, [sp, #192]
	ldr	r7, [sp, #200]
	lsrs	r0, r7, #24
	ldr	r1, [sp, #68]                   @ 4-byte Reload
	strb	r0, [r1, #31]
	lsrs	r0, r7, #16
	strb	r0, [r1, #30]
	lsrs	r0, r7, #8
	strb	r0, [r1, #29]
	strb	r7, [r1, #28]
	lsrs	r0, r6, #24
	strb	r0, [r1, #27]
	lsrs	r0, r6, #16
	strb	r0, [r1, #26]
	lsrs	r0, r6, #8
	strb	r0, [r1, #25]
	strb	r6, [r1, #24]
	lsrs	r0, r5, #24
	strb	r0, [r1, #23]
	lsrs	r0, r5, #16
	strb	r0, [r1, #22]
	lsrs	r0, r5, #8
	strb	r0, [r1, #21]
	strb	r5, [r1, #20]
	lsrs	r0, r4, #24
	strb	r0, [r1, #19]
	lsrs	r0, r4, #16
	strb	r0, [r1, #18]
	lsrs	r0, r4, #8
	strb	r0, [r1, #17]
	strb	r4, [r1, #16]
	lsrs	r0, r3, #24
	strb	r0, [r1, #15]
	lsrs	r0, r3, #16
	strb	r0, [r1, #14]
	lsrs	r0, r3, #8
	strb	r0, [r1, #13]
	strb	r3, [r1, #12]
	lsrs	r0, r2, #24
	strb	r0, [r1, #11]
	lsrs	r0, r2, #16
	strb	r0, [r1, #10]
	lsrs	r0, r2, #8
	strb	r0, [r1, #9]
	strb	r2, [r1, #8]
	ldr	r2, [sp, #100]                  @ 4-byte Reload
	lsrs	r0, r2, #24
	strb	r0, [r1, #7]
	lsrs	r0, r2, #16
	strb	r0, [r1, #6]
	lsrs	r0, r2, #8
	strb	r0, [r1, #5]
	strb	r2, [r1, #4]
	ldr	r2, [sp, #104]                  @ 4-byte Reload
	lsrs	r0, r2, #24
	strb	r0, [r1, #3]
	lsrs	r0, r2, #16
	strb	r0, [r1, #2]
	lsrs	r0, r2, #8
	strb	r0, [r1, #1]
	strb	r2, [r1]
	add	sp, #204
	pop	{r4, r5, r6, r7, pc}
	.p2align	2
@ %bb.7:
.Lgcm_v6m_small_CPI33_0:
	.long	251662080                       @ 0xf000f00
.Lgcm_v6m_small_func_end33:
	.size	gcm_v6m_small.aes_soft.soft.ciphers.planes.process_outlined, .Lgcm_v6m_small_func_end33-gcm_v6m_small.aes_soft.soft.ciphers.planes.process_outlined
	.cantunwind
	.fnend
                                        @ -- End function
	.section	.text.gcm_v6m_small.aes_planes.soft.mix_columns.mix_columns_0,"ax",%progbits
	.p2align	1                               @ -- Begin function aes_planes::soft::mix_columns::mix_columns_0::<#b6c81c619c5084c8>
	.type	gcm_v6m_small.aes_planes.soft.mix_columns.mix_columns_0,%function
	.code	16
	.thumb_func
gcm_v6m_small.aes_planes.soft.mix_columns.mix_columns_0: @ @gcm_v6m_small.aes_planes.soft.mix_columns.mix_columns_0
	.fnstart
@ %bb.0:                                @ %start
	.save	{r4, r5, r6, r7, lr}
	push	{r4, r5, r6, r7, lr}
	.pad	#16
	sub	sp, #16
	mov	r1, r0
	ldr	r2, [r0, #28]
	movs	r6, #8
	mov	r0, r2
	rors	r0, r6
	eors	r2, r0
	str	r2, [sp, #12]                   @ 4-byte Spill
	movs	r4, #16
	rors	r2, r4
	eors	r2, r0
	ldr	r0, [r1, #24]
	mov	r3, r0
	rors	r3, r6
	eors	r0, r3
	eors	r2, r0
	str	r2, [r1, #28]
	rors	r0, r4
	eors	r0, r3
	ldr	r2, [r1, #20]
	mov	r3, r2
	rors	r3, r6
	eors	r2, r3
	eors	r0, r2
	str	r0, [r1, #24]
	rors	r2, r4
	eors	r2, r3
	ldr	r5, [r1, #16]
	mov	r0, r5
	rors	r0, r6
	str	r0, [sp, #4]                    @ 4-byte Spill
	eors	r5, r0
	eors	r2, r5
	str	r2, [r1, #20]
	ldr	r2, [r1, #8]
	mov	r0, r2
	rors	r0, r6
	eors	r2, r0
	str	r2, [sp]                        @ 4-byte Spill
	rors	r2, r4
	mov	r3, r4
	eors	r2, r0
	ldr	r4, [r1, #4]
	mov	r0, r4
	rors	r0, r6
	str	r0, [sp, #8]                    @ 4-byte Spill
	eors	r4, r0
	eors	r2, r4
	str	r2, [r1, #8]
	ldr	r7, [r1]
	mov	r0, r7
	rors	r0, r6
	eors	r7, r0
	mov	r2, r7
	rors	r2, r3
	eors	r2, r0
	ldr	r0, [sp, #12]                   @ 4-byte Reload
	eors	r2, r0
	str	r2, [r1]
	ldr	r0, [r1, #12]
	mov	r2, r0
	rors	r2, r6
	eors	r0, r2
	rors	r5, r3
	eors	r5, r0
	ldr	r6, [sp, #4]                    @ 4-byte Reload
	eors	r5, r6
	ldr	r6, [sp, #12]                   @ 4-byte Reload
	eors	r5, r6
	str	r5, [r1, #16]
	mov	r5, r3
	rors	r0, r3
	ldr	r3, [sp]                        @ 4-byte Reload
	eors	r0, r3
	eors	r0, r2
	eors	r0, r6
	str	r0, [r1, #12]
	rors	r4, r5
	eors	r4, r7
	ldr	r0, [sp, #8]                    @ 4-byte Reload
	eors	r4, r0
	eors	r4, r6
	str	r4, [r1, #4]
	add	sp, #16
	pop	{r4, r5, r6, r7, pc}
.Lgcm_v6m_small_func_end34:
	.size	gcm_v6m_small.aes_planes.soft.mix_columns.mix_columns_0, .Lgcm_v6m_small_func_end34-gcm_v6m_small.aes_planes.soft.mix_columns.mix_columns_0
	.cantunwind
	.fnend
                                        @ -- End function
	.section	.text.gcm_v6m_small.aes_planes.soft.mix_columns.mix_columns_1,"ax",%progbits
	.p2align	2                               @ -- Begin function aes_planes::soft::mix_columns::mix_columns_1::<#b6c81c619c5084c8>
	.type	gcm_v6m_small.aes_planes.soft.mix_columns.mix_columns_1,%function
	.code	16
	.thumb_func
gcm_v6m_small.aes_planes.soft.mix_columns.mix_columns_1: @ @gcm_v6m_small.aes_planes.soft.mix_columns.mix_columns_1
	.fnstart
@ %bb.0:                                @ %start
	.save	{r4, r5, r6, r7, lr}
	push	{r4, r5, r6, r7, lr}
	.pad	#40
	sub	sp, #40
	mov	r7, r0
	ldr	r3, [r0, #28]
	movs	r5, #2
	mov	r0, r3
	rors	r0, r5
	str	r5, [sp, #16]                   @ 4-byte Spill
	ldr	r1, .Lgcm_v6m_small_CPI35_0
	ands	r0, r1
	movs	r2, #10
	str	r2, [sp, #28]                   @ 4-byte Spill
	mov	r1, r3
	rors	r1, r2
	ldr	r2, .Lgcm_v6m_small_CPI35_1
	ands	r1, r2
	adds	r0, r1, r0
	eors	r3, r0
	str	r3, [sp, #20]                   @ 4-byte Spill
	movs	r2, #12
	str	r2, [sp, #36]                   @ 4-byte Spill
	mov	r1, r3
	rors	r1, r2
	ldr	r2, .Lgcm_v6m_small_CPI35_2
	ands	r1, r2
	movs	r6, #20
	mov	r2, r3
	rors	r2, r6
	str	r6, [sp, #32]                   @ 4-byte Spill
	ldr	r3, .Lgcm_v6m_small_CPI35_3
	ands	r2, r3
	adds	r1, r2, r1
	eors	r1, r0
	ldr	r0, [r7, #24]
	mov	r2, r0
	rors	r2, r5
	ldr	r3, .Lgcm_v6m_small_CPI35_0
	ands	r2, r3
	mov	r3, r0
	ldr	r4, [sp, #28]                   @ 4-byte Reload
	rors	r3, r4
	ldr	r5, .Lgcm_v6m_small_CPI35_1
	ands	r3, r5
	adds	r2, r3, r2
	eors	r0, r2
	eors	r1, r0
	str	r1, [r7, #28]
	mov	r1, r0
	ldr	r5, [sp, #36]                   @ 4-byte Reload
	rors	r1, r5
	ldr	r3, .Lgcm_v6m_small_CPI35_2
	ands	r1, r3
	rors	r0, r6
	ldr	r3, .Lgcm_v6m_small_CPI35_3
	ands	r0, r3
	adds	r1, r0, r1
	eors	r1, r2
	ldr	r0, [r7, #20]
	mov	r2, r0
	ldr	r6, [sp, #16]                   @ 4-byte Reload
	rors	r2, r6
	ldr	r3, .Lgcm_v6m_small_CPI35_0
	ands	r2, r3
	mov	r3, r0
	rors	r3, r4
	ldr	r4, .Lgcm_v6m_small_CPI35_1
	ands	r3, r4
	adds	r2, r3, r2
	eors	r0, r2
	eors	r1, r0
	str	r1, [r7, #24]
	mov	r1, r0
	rors	r1, r5
	ldr	r3, .Lgcm_v6m_small_CPI35_2
	ands	r1, r3
	ldr	r3, [sp, #32]                   @ 4-byte Reload
	rors	r0, r3
	ldr	r3, .Lgcm_v6m_small_CPI35_3
	ands	r0, r3
	adds	r1, r0, r1
	eors	r1, r2
	ldr	r0, [r7, #16]
	mov	r2, r0
	mov	r4, r6
	rors	r2, r6
	ldr	r3, .Lgcm_v6m_small_CPI35_0
	ands	r2, r3
	mov	r3, r0
	ldr	r6, [sp, #28]                   @ 4-byte Reload
	rors	r3, r6
	ldr	r5, .Lgcm_v6m_small_CPI35_1
	ands	r3, r5
	adds	r2, r3, r2
	str	r2, [sp, #12]                   @ 4-byte Spill
	eors	r0, r2
	eors	r1, r0
	str	r1, [r7, #20]
	ldr	r3, [r7, #8]
	str	r7, [sp, #24]                   @ 4-byte Spill
	mov	r1, r3
	rors	r1, r4
	mov	r5, r4
	ldr	r2, .Lgcm_v6m_small_CPI35_0
	ands	r1, r2
	mov	r2, r3
	rors	r2, r6
	ldr	r4, .Lgcm_v6m_small_CPI35_1
	ands	r2, r4
	adds	r2, r2, r1
	eors	r3, r2
	mov	r1, r3
	str	r3, [sp, #8]                    @ 4-byte Spill
	ldr	r4, [sp, #36]                   @ 4-byte Reload
	rors	r1, r4
	ldr	r4, .Lgcm_v6m_small_CPI35_2
	ands	r1, r4
	ldr	r4, [sp, #32]                   @ 4-byte Reload
	rors	r3, r4
	ldr	r4, .Lgcm_v6m_small_CPI35_3
	ands	r3, r4
	adds	r1, r3, r1
	eors	r1, r2
	ldr	r4, [r7, #4]
	mov	r3, r4
	rors	r3, r5
	ldr	r2, .Lgcm_v6m_small_CPI35_0
	ands	r3, r2
	mov	r2, r4
	rors	r2, r6
	ldr	r7, .Lgcm_v6m_small_CPI35_1
	ands	r2, r7
	adds	r2, r2, r3
	str	r2, [sp, #4]                    @ 4-byte Spill
	eors	r4, r2
	eors	r1, r4
	ldr	r7, [sp, #24]                   @ 4-byte Reload
	str	r1, [r7, #8]
	ldr	r7, [r7]
	mov	r1, r7
	rors	r1, r5
	ldr	r2, .Lgcm_v6m_small_CPI35_0
	ands	r1, r2
	mov	r2, r7
	rors	r2, r6
	ldr	r3, .Lgcm_v6m_small_CPI35_1
	ands	r2, r3
	adds	r1, r2, r1
	eors	r7, r1
	str	r7, [sp]                        @ 4-byte Spill
	mov	r2, r7
	ldr	r5, [sp, #36]                   @ 4-byte Reload
	rors	r2, r5
	ldr	r3, .Lgcm_v6m_small_CPI35_2
	ands	r2, r3
	mov	r3, r7
	ldr	r6, [sp, #32]                   @ 4-byte Reload
	rors	r3, r6
	ldr	r7, .Lgcm_v6m_small_CPI35_3
	ands	r3, r7
	adds	r2, r3, r2
	eors	r2, r1
	ldr	r1, [sp, #20]                   @ 4-byte Reload
	eors	r2, r1
	ldr	r3, [sp, #24]                   @ 4-byte Reload
	str	r2, [r3]
	mov	r1, r0
	rors	r1, r5
	ldr	r2, .Lgcm_v6m_small_CPI35_2
	ands	r1, r2
	mov	r5, r6
	rors	r0, r6
	ands	r0, r7
	adds	r1, r0, r1
	ldr	r0, [r3, #12]
	mov	r2, r0
	ldr	r3, [sp, #16]                   @ 4-byte Reload
	rors	r2, r3
	ldr	r3, .Lgcm_v6m_small_CPI35_0
	ands	r2, r3
	mov	r3, r0
	ldr	r6, [sp, #28]                   @ 4-byte Reload
	rors	r3, r6
	ldr	r6, .Lgcm_v6m_small_CPI35_1
	ands	r3, r6
	adds	r7, r3, r2
	eors	r0, r7
	eors	r1, r0
	ldr	r3, [sp, #12]                   @ 4-byte Reload
	eors	r1, r3
	ldr	r3, [sp, #20]                   @ 4-byte Reload
	eors	r1, r3
	ldr	r6, [sp, #24]                   @ 4-byte Reload
	str	r1, [r6, #16]
	mov	r1, r0
	ldr	r2, [sp, #36]                   @ 4-byte Reload
	rors	r1, r2
	ldr	r2, .Lgcm_v6m_small_CPI35_2
	ands	r1, r2
	rors	r0, r5
	ldr	r2, .Lgcm_v6m_small_CPI35_3
	ands	r0, r2
	adds	r0, r0, r1
	ldr	r1, [sp, #8]                    @ 4-byte Reload
	eors	r0, r1
	eors	r0, r7
	eors	r0, r3
	str	r0, [r6, #12]
	mov	r0, r4
	ldr	r1, [sp, #36]                   @ 4-byte Reload
	rors	r0, r1
	ldr	r1, .Lgcm_v6m_small_CPI35_2
	ands	r0, r1
	rors	r4, r5
	ldr	r1, .Lgcm_v6m_small_CPI35_3
	ands	r4, r1
	adds	r0, r4, r0
	ldr	r1, [sp]                        @ 4-byte Reload
	eors	r0, r1
	ldr	r1, [sp, #4]                    @ 4-byte Reload
	eors	r0, r1
	eors	r0, r3
	str	r0, [r6, #4]
	add	sp, #40
	pop	{r4, r5, r6, r7, pc}
	.p2align	2
@ %bb.1:
.Lgcm_v6m_small_CPI35_0:
	.long	3233857728                      @ 0xc0c0c0c0
.Lgcm_v6m_small_CPI35_1:
	.long	1061109567                      @ 0x3f3f3f3f
.Lgcm_v6m_small_CPI35_2:
	.long	4042322160                      @ 0xf0f0f0f0
.Lgcm_v6m_small_CPI35_3:
	.long	252645135                       @ 0xf0f0f0f
.Lgcm_v6m_small_func_end35:
	.size	gcm_v6m_small.aes_planes.soft.mix_columns.mix_columns_1, .Lgcm_v6m_small_func_end35-gcm_v6m_small.aes_planes.soft.mix_columns.mix_columns_1
	.cantunwind
	.fnend
                                        @ -- End function
	.section	.text.gcm_v6m_small.aes_planes.soft.mix_columns.mix_columns_2,"ax",%progbits
	.p2align	2                               @ -- Begin function aes_planes::soft::mix_columns::mix_columns_2::<#b6c81c619c5084c8>
	.type	gcm_v6m_small.aes_planes.soft.mix_columns.mix_columns_2,%function
	.code	16
	.thumb_func
gcm_v6m_small.aes_planes.soft.mix_columns.mix_columns_2: @ @gcm_v6m_small.aes_planes.soft.mix_columns.mix_columns_2
	.fnstart
@ %bb.0:                                @ %start
	.save	{r4, r5, r6, r7, lr}
	push	{r4, r5, r6, r7, lr}
	.pad	#24
	sub	sp, #24
	mov	r5, r0
	ldr	r2, [r0, #28]
	movs	r6, #4
	mov	r0, r2
	rors	r0, r6
	ldr	r4, .Lgcm_v6m_small_CPI36_0
	ands	r0, r4
	movs	r7, #12
	mov	r1, r2
	rors	r1, r7
	ldr	r3, .Lgcm_v6m_small_CPI36_1
	ands	r1, r3
	adds	r0, r1, r0
	eors	r2, r0
	str	r2, [sp, #12]                   @ 4-byte Spill
	movs	r3, #16
	str	r3, [sp, #20]                   @ 4-byte Spill
	mov	r1, r2
	rors	r1, r3
	eors	r1, r0
	ldr	r0, [r5, #24]
	mov	r2, r0
	rors	r2, r6
	mov	r3, r6
	str	r6, [sp, #16]                   @ 4-byte Spill
	ands	r2, r4
	mov	r4, r0
	rors	r4, r7
	mov	r6, r7
	ldr	r7, .Lgcm_v6m_small_CPI36_1
	ands	r4, r7
	adds	r2, r4, r2
	eors	r0, r2
	eors	r1, r0
	str	r1, [r5, #28]
	ldr	r7, [sp, #20]                   @ 4-byte Reload
	rors	r0, r7
	eors	r0, r2
	ldr	r1, [r5, #20]
	mov	r2, r1
	rors	r2, r3
	ldr	r3, .Lgcm_v6m_small_CPI36_0
	ands	r2, r3
	mov	r4, r1
	rors	r4, r6
	ldr	r3, .Lgcm_v6m_small_CPI36_1
	ands	r4, r3
	adds	r2, r4, r2
	eors	r1, r2
	eors	r0, r1
	str	r0, [r5, #24]
	rors	r1, r7
	eors	r1, r2
	ldr	r7, [r5, #16]
	mov	r0, r7
	ldr	r4, [sp, #16]                   @ 4-byte Reload
	rors	r0, r4
	ldr	r2, .Lgcm_v6m_small_CPI36_0
	ands	r0, r2
	mov	r2, r7
	rors	r2, r6
	mov	r3, r6
	ldr	r6, .Lgcm_v6m_small_CPI36_1
	ands	r2, r6
	adds	r0, r2, r0
	str	r0, [sp, #8]                    @ 4-byte Spill
	eors	r7, r0
	eors	r1, r7
	str	r1, [r5, #20]
	ldr	r2, [r5, #8]
	mov	r0, r2
	rors	r0, r4
	mov	r6, r4
	ldr	r1, .Lgcm_v6m_small_CPI36_0
	ands	r0, r1
	mov	r1, r2
	mov	r4, r3
	rors	r1, r3
	ldr	r3, .Lgcm_v6m_small_CPI36_1
	ands	r1, r3
	adds	r1, r1, r0
	eors	r2, r1
	str	r2, [sp, #4]                    @ 4-byte Spill
	mov	r0, r2
	ldr	r2, [sp, #20]                   @ 4-byte Reload
	rors	r0, r2
	eors	r0, r1
	ldr	r3, [r5, #4]
	mov	r2, r3
	rors	r2, r6
	ldr	r1, .Lgcm_v6m_small_CPI36_0
	ands	r2, r1
	mov	r1, r3
	rors	r1, r4
	mov	r6, r4
	ldr	r4, .Lgcm_v6m_small_CPI36_1
	ands	r1, r4
	adds	r1, r1, r2
	str	r1, [sp]                        @ 4-byte Spill
	eors	r3, r1
	eors	r0, r3
	str	r0, [r5, #8]
	ldr	r4, [r5]
	mov	r0, r4
	ldr	r1, [sp, #16]                   @ 4-byte Reload
	rors	r0, r1
	ldr	r1, .Lgcm_v6m_small_CPI36_0
	ands	r0, r1
	mov	r1, r4
	rors	r1, r6
	ldr	r2, .Lgcm_v6m_small_CPI36_1
	ands	r1, r2
	adds	r0, r1, r0
	eors	r4, r0
	mov	r1, r4
	ldr	r2, [sp, #20]                   @ 4-byte Reload
	rors	r1, r2
	eors	r1, r0
	ldr	r0, [sp, #12]                   @ 4-byte Reload
	eors	r1, r0
	str	r1, [r5]
	ldr	r1, [r5, #12]
	mov	r2, r1
	ldr	r0, [sp, #16]                   @ 4-byte Reload
	rors	r2, r0
	ldr	r0, .Lgcm_v6m_small_CPI36_0
	ands	r2, r0
	mov	r0, r1
	rors	r0, r6
	ldr	r6, .Lgcm_v6m_small_CPI36_1
	ands	r0, r6
	adds	r0, r0, r2
	eors	r1, r0
	ldr	r6, [sp, #20]                   @ 4-byte Reload
	rors	r7, r6
	eors	r7, r1
	ldr	r2, [sp, #8]                    @ 4-byte Reload
	eors	r7, r2
	ldr	r2, [sp, #12]                   @ 4-byte Reload
	eors	r7, r2
	str	r7, [r5, #16]
	mov	r7, r6
	rors	r1, r6
	ldr	r6, [sp, #4]                    @ 4-byte Reload
	eors	r1, r6
	eors	r1, r0
	eors	r1, r2
	str	r1, [r5, #12]
	rors	r3, r7
	eors	r3, r4
	ldr	r0, [sp]                        @ 4-byte Reload
	eors	r3, r0
	eors	r3, r2
	str	r3, [r5, #4]
	add	sp, #24
	pop	{r4, r5, r6, r7, pc}
	.p2align	2
@ %bb.1:
.Lgcm_v6m_small_CPI36_0:
	.long	4042322160                      @ 0xf0f0f0f0
.Lgcm_v6m_small_CPI36_1:
	.long	252645135                       @ 0xf0f0f0f
.Lgcm_v6m_small_func_end36:
	.size	gcm_v6m_small.aes_planes.soft.mix_columns.mix_columns_2, .Lgcm_v6m_small_func_end36-gcm_v6m_small.aes_planes.soft.mix_columns.mix_columns_2
	.cantunwind
	.fnend
                                        @ -- End function
	.section	.text.gcm_v6m_small.aes_planes.soft.mix_columns.mix_columns_3,"ax",%progbits
	.p2align	2                               @ -- Begin function aes_planes::soft::mix_columns::mix_columns_3::<#b6c81c619c5084c8>
	.type	gcm_v6m_small.aes_planes.soft.mix_columns.mix_columns_3,%function
	.code	16
	.thumb_func
gcm_v6m_small.aes_planes.soft.mix_columns.mix_columns_3: @ @gcm_v6m_small.aes_planes.soft.mix_columns.mix_columns_3
	.fnstart
@ %bb.0:                                @ %start
	.save	{r4, r5, r6, r7, lr}
	push	{r4, r5, r6, r7, lr}
	.pad	#40
	sub	sp, #40
	mov	r7, r0
	ldr	r3, [r0, #28]
	movs	r5, #6
	mov	r0, r3
	rors	r0, r5
	str	r5, [sp, #16]                   @ 4-byte Spill
	ldr	r1, .Lgcm_v6m_small_CPI37_0
	ands	r0, r1
	movs	r2, #14
	str	r2, [sp, #28]                   @ 4-byte Spill
	mov	r1, r3
	rors	r1, r2
	ldr	r2, .Lgcm_v6m_small_CPI37_1
	ands	r1, r2
	adds	r0, r1, r0
	eors	r3, r0
	str	r3, [sp, #20]                   @ 4-byte Spill
	movs	r2, #12
	str	r2, [sp, #36]                   @ 4-byte Spill
	mov	r1, r3
	rors	r1, r2
	ldr	r2, .Lgcm_v6m_small_CPI37_2
	ands	r1, r2
	movs	r6, #20
	mov	r2, r3
	rors	r2, r6
	str	r6, [sp, #32]                   @ 4-byte Spill
	ldr	r3, .Lgcm_v6m_small_CPI37_3
	ands	r2, r3
	adds	r1, r2, r1
	eors	r1, r0
	ldr	r0, [r7, #24]
	mov	r2, r0
	rors	r2, r5
	ldr	r3, .Lgcm_v6m_small_CPI37_0
	ands	r2, r3
	mov	r3, r0
	ldr	r4, [sp, #28]                   @ 4-byte Reload
	rors	r3, r4
	ldr	r5, .Lgcm_v6m_small_CPI37_1
	ands	r3, r5
	adds	r2, r3, r2
	eors	r0, r2
	eors	r1, r0
	str	r1, [r7, #28]
	mov	r1, r0
	ldr	r5, [sp, #36]                   @ 4-byte Reload
	rors	r1, r5
	ldr	r3, .Lgcm_v6m_small_CPI37_2
	ands	r1, r3
	rors	r0, r6
	ldr	r3, .Lgcm_v6m_small_CPI37_3
	ands	r0, r3
	adds	r1, r0, r1
	eors	r1, r2
	ldr	r0, [r7, #20]
	mov	r2, r0
	ldr	r6, [sp, #16]                   @ 4-byte Reload
	rors	r2, r6
	ldr	r3, .Lgcm_v6m_small_CPI37_0
	ands	r2, r3
	mov	r3, r0
	rors	r3, r4
	ldr	r4, .Lgcm_v6m_small_CPI37_1
	ands	r3, r4
	adds	r2, r3, r2
	eors	r0, r2
	eors	r1, r0
	str	r1, [r7, #24]
	mov	r1, r0
	rors	r1, r5
	ldr	r3, .Lgcm_v6m_small_CPI37_2
	ands	r1, r3
	ldr	r3, [sp, #32]                   @ 4-byte Reload
	rors	r0, r3
	ldr	r3, .Lgcm_v6m_small_CPI37_3
	ands	r0, r3
	adds	r1, r0, r1
	eors	r1, r2
	ldr	r0, [r7, #16]
	mov	r2, r0
	mov	r4, r6
	rors	r2, r6
	ldr	r3, .Lgcm_v6m_small_CPI37_0
	ands	r2, r3
	mov	r3, r0
	ldr	r6, [sp, #28]                   @ 4-byte Reload
	rors	r3, r6
	ldr	r5, .Lgcm_v6m_small_CPI37_1
	ands	r3, r5
	adds	r2, r3, r2
	str	r2, [sp, #12]                   @ 4-byte Spill
	eors	r0, r2
	eors	r1, r0
	str	r1, [r7, #20]
	ldr	r3, [r7, #8]
	str	r7, [sp, #24]                   @ 4-byte Spill
	mov	r1, r3
	rors	r1, r4
	mov	r5, r4
	ldr	r2, .Lgcm_v6m_small_CPI37_0
	ands	r1, r2
	mov	r2, r3
	rors	r2, r6
	ldr	r4, .Lgcm_v6m_small_CPI37_1
	ands	r2, r4
	adds	r2, r2, r1
	eors	r3, r2
	mov	r1, r3
	str	r3, [sp, #8]                    @ 4-byte Spill
	ldr	r4, [sp, #36]                   @ 4-byte Reload
	rors	r1, r4
	ldr	r4, .Lgcm_v6m_small_CPI37_2
	ands	r1, r4
	ldr	r4, [sp, #32]                   @ 4-byte Reload
	rors	r3, r4
	ldr	r4, .Lgcm_v6m_small_CPI37_3
	ands	r3, r4
	adds	r1, r3, r1
	eors	r1, r2
	ldr	r4, [r7, #4]
	mov	r3, r4
	rors	r3, r5
	ldr	r2, .Lgcm_v6m_small_CPI37_0
	ands	r3, r2
	mov	r2, r4
	rors	r2, r6
	ldr	r7, .Lgcm_v6m_small_CPI37_1
	ands	r2, r7
	adds	r2, r2, r3
	str	r2, [sp, #4]                    @ 4-byte Spill
	eors	r4, r2
	eors	r1, r4
	ldr	r7, [sp, #24]                   @ 4-byte Reload
	str	r1, [r7, #8]
	ldr	r7, [r7]
	mov	r1, r7
	rors	r1, r5
	ldr	r2, .Lgcm_v6m_small_CPI37_0
	ands	r1, r2
	mov	r2, r7
	rors	r2, r6
	ldr	r3, .Lgcm_v6m_small_CPI37_1
	ands	r2, r3
	adds	r1, r2, r1
	eors	r7, r1
	str	r7, [sp]                        @ 4-byte Spill
	mov	r2, r7
	ldr	r5, [sp, #36]                   @ 4-byte Reload
	rors	r2, r5
	ldr	r3, .Lgcm_v6m_small_CPI37_2
	ands	r2, r3
	mov	r3, r7
	ldr	r6, [sp, #32]                   @ 4-byte Reload
	rors	r3, r6
	ldr	r7, .Lgcm_v6m_small_CPI37_3
	ands	r3, r7
	adds	r2, r3, r2
	eors	r2, r1
	ldr	r1, [sp, #20]                   @ 4-byte Reload
	eors	r2, r1
	ldr	r3, [sp, #24]                   @ 4-byte Reload
	str	r2, [r3]
	mov	r1, r0
	rors	r1, r5
	ldr	r2, .Lgcm_v6m_small_CPI37_2
	ands	r1, r2
	mov	r5, r6
	rors	r0, r6
	ands	r0, r7
	adds	r1, r0, r1
	ldr	r0, [r3, #12]
	mov	r2, r0
	ldr	r3, [sp, #16]                   @ 4-byte Reload
	rors	r2, r3
	ldr	r3, .Lgcm_v6m_small_CPI37_0
	ands	r2, r3
	mov	r3, r0
	ldr	r6, [sp, #28]                   @ 4-byte Reload
	rors	r3, r6
	ldr	r6, .Lgcm_v6m_small_CPI37_1
	ands	r3, r6
	adds	r7, r3, r2
	eors	r0, r7
	eors	r1, r0
	ldr	r3, [sp, #12]                   @ 4-byte Reload
	eors	r1, r3
	ldr	r3, [sp, #20]                   @ 4-byte Reload
	eors	r1, r3
	ldr	r6, [sp, #24]                   @ 4-byte Reload
	str	r1, [r6, #16]
	mov	r1, r0
	ldr	r2, [sp, #36]                   @ 4-byte Reload
	rors	r1, r2
	ldr	r2, .Lgcm_v6m_small_CPI37_2
	ands	r1, r2
	rors	r0, r5
	ldr	r2, .Lgcm_v6m_small_CPI37_3
	ands	r0, r2
	adds	r0, r0, r1
	ldr	r1, [sp, #8]                    @ 4-byte Reload
	eors	r0, r1
	eors	r0, r7
	eors	r0, r3
	str	r0, [r6, #12]
	mov	r0, r4
	ldr	r1, [sp, #36]                   @ 4-byte Reload
	rors	r0, r1
	ldr	r1, .Lgcm_v6m_small_CPI37_2
	ands	r0, r1
	rors	r4, r5
	ldr	r1, .Lgcm_v6m_small_CPI37_3
	ands	r4, r1
	adds	r0, r4, r0
	ldr	r1, [sp]                        @ 4-byte Reload
	eors	r0, r1
	ldr	r1, [sp, #4]                    @ 4-byte Reload
	eors	r0, r1
	eors	r0, r3
	str	r0, [r6, #4]
	add	sp, #40
	pop	{r4, r5, r6, r7, pc}
	.p2align	2
@ %bb.1:
.Lgcm_v6m_small_CPI37_0:
	.long	4244438268                      @ 0xfcfcfcfc
.Lgcm_v6m_small_CPI37_1:
	.long	50529027                        @ 0x3030303
.Lgcm_v6m_small_CPI37_2:
	.long	4042322160                      @ 0xf0f0f0f0
.Lgcm_v6m_small_CPI37_3:
	.long	252645135                       @ 0xf0f0f0f
.Lgcm_v6m_small_func_end37:
	.size	gcm_v6m_small.aes_planes.soft.mix_columns.mix_columns_3, .Lgcm_v6m_small_func_end37-gcm_v6m_small.aes_planes.soft.mix_columns.mix_columns_3
	.cantunwind
	.fnend
                                        @ -- End function
	.section	.text.gcm_v6m_small.aes_planes.soft.shifts.swap_columns.2,"ax",%progbits
	.p2align	1                               @ -- Begin function aes_planes::soft::shifts::swap_columns::<#b6c81c619c5084c8>
	.type	gcm_v6m_small.aes_planes.soft.shifts.swap_columns.2,%function
	.code	16
	.thumb_func
gcm_v6m_small.aes_planes.soft.shifts.swap_columns.2: @ @gcm_v6m_small.aes_planes.soft.shifts.swap_columns.2
	.fnstart
@ %bb.0:                                @ %start
	.save	{r4, r5, r6, r7, lr}
	push	{r4, r5, r6, r7, lr}
	.pad	#36
	sub	sp, #36
	mov	r5, r1
	mov	r4, r0
	ldr	r0, [r0]
	ldr	r7, [r4, #4]
	ldr	r6, [r4, #8]
	ldr	r1, [r4, #12]
	str	r1, [sp, #4]                    @ 4-byte Spill
	ldr	r1, [r4, #16]
	str	r1, [sp, #8]                    @ 4-byte Spill
	ldr	r1, [r4, #20]
	str	r1, [sp, #16]                   @ 4-byte Spill
	ldr	r1, [r4, #24]
	str	r1, [sp, #24]                   @ 4-byte Spill
	ldr	r1, [r4, #28]
	str	r1, [sp, #32]                   @ 4-byte Spill
	mov	r1, r5
	bl	gcm_v6m_small.aes_planes.soft.shifts.delta_swap_1.2
	str	r0, [sp, #28]                   @ 4-byte Spill
	mov	r0, r7
	mov	r1, r5
	bl	gcm_v6m_small.aes_planes.soft.shifts.delta_swap_1.2
	str	r0, [sp, #20]                   @ 4-byte Spill
	mov	r0, r6
	mov	r1, r5
	bl	gcm_v6m_small.aes_planes.soft.shifts.delta_swap_1.2
	str	r0, [sp, #12]                   @ 4-byte Spill
	ldr	r0, [sp, #4]                    @ 4-byte Reload
	mov	r1, r5
	bl	gcm_v6m_small.aes_planes.soft.shifts.delta_swap_1.2
	str	r0, [sp, #4]                    @ 4-byte Spill
	ldr	r0, [sp, #8]                    @ 4-byte Reload
	mov	r1, r5
	bl	gcm_v6m_small.aes_planes.soft.shifts.delta_swap_1.2
	str	r0, [sp, #8]                    @ 4-byte Spill
	ldr	r0, [sp, #16]                   @ 4-byte Reload
	mov	r1, r5
	bl	gcm_v6m_small.aes_planes.soft.shifts.delta_swap_1.2
	mov	r7, r0
	ldr	r0, [sp, #24]                   @ 4-byte Reload
	mov	r1, r5
	bl	gcm_v6m_small.aes_planes.soft.shifts.delta_swap_1.2
	mov	r6, r0
	ldr	r0, [sp, #32]                   @ 4-byte Reload
	mov	r1, r5
	bl	gcm_v6m_small.aes_planes.soft.shifts.delta_swap_1.2
	ldr	r1, [sp, #28]                   @ 4-byte Reload
	str	r1, [r4]
	ldr	r1, [sp, #20]                   @ 4-byte Reload
	str	r1, [r4, #4]
	ldr	r1, [sp, #12]                   @ 4-byte Reload
	str	r1, [r4, #8]
	ldr	r1, [sp, #4]                    @ 4-byte Reload
	str	r1, [r4, #12]
	ldr	r1, [sp, #8]                    @ 4-byte Reload
	str	r1, [r4, #16]
	str	r7, [r4, #20]
	str	r6, [r4, #24]
	str	r0, [r4, #28]
	add	sp, #36
	pop	{r4, r5, r6, r7, pc}
.Lgcm_v6m_small_func_end38:
	.size	gcm_v6m_small.aes_planes.soft.shifts.swap_columns.2, .Lgcm_v6m_small_func_end38-gcm_v6m_small.aes_planes.soft.shifts.swap_columns.2
	.cantunwind
	.fnend
                                        @ -- End function
	.section	.text.gcm_v6m_small.aes_planes.soft.shifts.delta_swap_1.2,"ax",%progbits
	.p2align	1                               @ -- Begin function aes_planes::soft::shifts::delta_swap_1::<#b6c81c619c5084c8>
	.type	gcm_v6m_small.aes_planes.soft.shifts.delta_swap_1.2,%function
	.code	16
	.thumb_func
gcm_v6m_small.aes_planes.soft.shifts.delta_swap_1.2: @ @gcm_v6m_small.aes_planes.soft.shifts.delta_swap_1.2
	.fnstart
@ %bb.0:                                @ %start
	lsrs	r2, r0, #4
	eors	r2, r0
	ands	r2, r1
	lsls	r1, r2, #4
	eors	r0, r1
	eors	r0, r2
	bx	lr
.Lgcm_v6m_small_func_end39:
	.size	gcm_v6m_small.aes_planes.soft.shifts.delta_swap_1.2, .Lgcm_v6m_small_func_end39-gcm_v6m_small.aes_planes.soft.shifts.delta_swap_1.2
	.cantunwind
	.fnend
                                        @ -- End function
	.section	.text.gcm_v6m_small.aes_planes.soft.round_keys.round_key.2,"ax",%progbits
	.p2align	1                               @ -- Begin function aes_planes::soft::round_keys::round_key::<#b6c81c619c5084c8>
	.type	gcm_v6m_small.aes_planes.soft.round_keys.round_key.2,%function
	.code	16
	.thumb_func
gcm_v6m_small.aes_planes.soft.round_keys.round_key.2: @ @gcm_v6m_small.aes_planes.soft.round_keys.round_key.2
	.fnstart
@ %bb.0:                                @ %start
	.save	{r4, r5, r6, r7, lr}
	push	{r4, r5, r6, r7, lr}
	.pad	#12
	sub	sp, #12
	lsls	r2, r2, #5
	ldr	r7, [r1, r2]
	adds	r1, r1, r2
	ldr	r2, [r1, #4]
	str	r2, [sp, #8]                    @ 4-byte Spill
	ldr	r4, [r1, #8]
	str	r4, [sp, #4]                    @ 4-byte Spill
	ldr	r3, [r1, #12]
	ldr	r2, [r1, #16]
	str	r2, [sp]                        @ 4-byte Spill
	ldr	r5, [r1, #20]
	ldr	r6, [r1, #24]
	ldr	r1, [r1, #28]
	strb	r1, [r0, #28]
	strb	r6, [r0, #24]
	strb	r5, [r0, #20]
	strb	r2, [r0, #16]
	strb	r3, [r0, #12]
	strb	r4, [r0, #8]
	ldr	r2, [sp, #8]                    @ 4-byte Reload
	strb	r2, [r0, #4]
	lsrs	r2, r7, #24
	strb	r2, [r0, #3]
	lsrs	r2, r7, #16
	strb	r2, [r0, #2]
	lsrs	r2, r7, #8
	strb	r2, [r0, #1]
	strb	r7, [r0]
	lsrs	r2, r1, #24
	strb	r2, [r0, #31]
	lsrs	r2, r1, #16
	strb	r2, [r0, #30]
	lsrs	r1, r1, #8
	strb	r1, [r0, #29]
	lsrs	r1, r6, #24
	strb	r1, [r0, #27]
	lsrs	r1, r6, #16
	strb	r1, [r0, #26]
	lsrs	r1, r6, #8
	strb	r1, [r0, #25]
	lsrs	r1, r5, #24
	strb	r1, [r0, #23]
	lsrs	r1, r5, #16
	strb	r1, [r0, #22]
	lsrs	r1, r5, #8
	strb	r1, [r0, #21]
	ldr	r2, [sp]                        @ 4-byte Reload
	lsrs	r1, r2, #24
	strb	r1, [r0, #19]
	lsrs	r1, r2, #16
	strb	r1, [r0, #18]
	lsrs	r1, r2, #8
	strb	r1, [r0, #17]
	lsrs	r1, r3, #24
	strb	r1, [r0, #15]
	lsrs	r1, r3, #16
	strb	r1, [r0, #14]
	lsrs	r1, r3, #8
	strb	r1, [r0, #13]
	ldr	r2, [sp, #4]                    @ 4-byte Reload
	lsrs	r1, r2, #24
	strb	r1, [r0, #11]
	lsrs	r1, r2, #16
	strb	r1, [r0, #10]
	lsrs	r1, r2, #8
	strb	r1, [r0, #9]
	ldr	r2, [sp, #8]                    @ 4-byte Reload
	lsrs	r1, r2, #24
	strb	r1, [r0, #7]
	lsrs	r1, r2, #16
	strb	r1, [r0, #6]
	lsrs	r1, r2, #8
	strb	r1, [r0, #5]
	add	sp, #12
	pop	{r4, r5, r6, r7, pc}
.Lgcm_v6m_small_func_end40:
	.size	gcm_v6m_small.aes_planes.soft.round_keys.round_key.2, .Lgcm_v6m_small_func_end40-gcm_v6m_small.aes_planes.soft.round_keys.round_key.2
	.cantunwind
	.fnend
                                        @ -- End function
	.section	.text.gcm_v6m_small.aes_cipher.zeroize.stack.wipe_stack.1024,"ax",%progbits
	.p2align	1                               @ -- Begin function aes_cipher::zeroize::stack::wipe_stack::<=1024>
	.type	gcm_v6m_small.aes_cipher.zeroize.stack.wipe_stack.1024,%function
	.code	16
	.thumb_func
gcm_v6m_small.aes_cipher.zeroize.stack.wipe_stack.1024: @ @gcm_v6m_small.aes_cipher.zeroize.stack.wipe_stack.1024
	.fnstart
@ %bb.0:                                @ %start
	.save	{r4, r5, r6, lr}
	push	{r4, r5, r6, lr}
	.pad	#508
	sub	sp, #508
	.pad	#508
	sub	sp, #508
	.pad	#16
	sub	sp, #16
	movs	r0, #1
	lsls	r2, r0, #10
	add	r0, sp, #8
	movs	r4, #0
	mov	r1, r4
	bl	memset
	str	r4, [sp, #4]
	str	r4, [sp]
	@APP
	@NO_APP
	ldr	r0, [sp]
	lsrs	r1, r0, #10
	ldr	r2, [sp, #4]
	orrs	r2, r1
	@APP
	@NO_APP
	bne	.Lgcm_v6m_small_BB41_2
@ %bb.1:                                @ %then.1
	add	r1, sp, #8
	ldrb	r0, [r1, r0]
	@APP
	@NO_APP
	ldr	r1, [sp, #4]
	ldr	r1, [sp]
	str	r4, [sp, #4]
	str	r0, [sp]
	@APP
	@NO_APP
.Lgcm_v6m_small_BB41_2:                               @ %common.ret
	add	sp, #508
	add	sp, #508
	add	sp, #16
	pop	{r4, r5, r6, pc}
.Lgcm_v6m_small_func_end41:
	.size	gcm_v6m_small.aes_cipher.zeroize.stack.wipe_stack.1024, .Lgcm_v6m_small_func_end41-gcm_v6m_small.aes_cipher.zeroize.stack.wipe_stack.1024
	.cantunwind
	.fnend
                                        @ -- End function
	.section	.text.gcm_v6m_small.gcm.mode.BorrowedGcm.hash_so_far,"ax",%progbits
	.p2align	1                               @ -- Begin function gcm::mode::BorrowedGcm::hash_so_far::<#c01aad2b5fbc92b1>
	.type	gcm_v6m_small.gcm.mode.BorrowedGcm.hash_so_far,%function
	.code	16
	.thumb_func
gcm_v6m_small.gcm.mode.BorrowedGcm.hash_so_far: @ @gcm_v6m_small.gcm.mode.BorrowedGcm.hash_so_far
	.fnstart
@ %bb.0:                                @ %start
	.save	{r4, r5, r6, r7, lr}
	push	{r4, r5, r6, r7, lr}
	.setfp	r7, sp, #12
	add	r7, sp, #12
	.pad	#76
	sub	sp, #76
	mov	r4, sp
	lsrs	r4, r4, #4
	lsls	r4, r4, #4
	mov	sp, r4
	ldr	r4, [r1, #24]
	ldr	r3, [r1, #28]
	movs	r2, #0
	subs	r6, r4, #1
	sbcs	r3, r2
	mov	r4, r1
	adds	r4, #8
	lsls	r5, r6, #24
	mov	r5, r1
	beq	.Lgcm_v6m_small_BB42_2
@ %bb.1:                                @ %start
	mov	r5, r4
.Lgcm_v6m_small_BB42_2:                               @ %start
	subs	r6, r6, #4
	sbcs	r3, r2
	blo	.Lgcm_v6m_small_BB42_4
@ %bb.3:                                @ %start
	mov	r5, r4
.Lgcm_v6m_small_BB42_4:                               @ %start
	ldr	r3, [r5]
	ldr	r6, [r1, #48]
	ldr	r4, [r1, #52]
	str	r4, [sp, #36]                   @ 4-byte Spill
	ldr	r4, [r1, #56]
	str	r4, [sp, #44]                   @ 4-byte Spill
	ldr	r4, [r1, #60]
	str	r4, [sp, #40]                   @ 4-byte Spill
	ldr	r0, [r0, #16]
	ldrb	r4, [r0]
	lsls	r4, r4, #24
	ldrb	r5, [r0, #1]
	lsls	r5, r5, #16
	adds	r4, r5, r4
	ldrb	r5, [r0, #2]
	lsls	r5, r5, #8
	adds	r4, r4, r5
	ldrb	r5, [r0, #3]
	adds	r4, r4, r5
	str	r4, [sp, #60]
	ldrb	r4, [r0, #5]
	lsls	r4, r4, #16
	ldrb	r5, [r0, #4]
	lsls	r5, r5, #24
	adds	r4, r5, r4
	ldrb	r5, [r0, #6]
	lsls	r5, r5, #8
	adds	r4, r4, r5
	ldrb	r5, [r0, #7]
	adds	r4, r4, r5
	str	r4, [sp, #56]
	ldrb	r4, [r0, #8]
	lsls	r4, r4, #24
	ldrb	r5, [r0, #9]
	lsls	r5, r5, #16
	adds	r4, r5, r4
	ldrb	r5, [r0, #10]
	lsls	r5, r5, #8
	adds	r4, r4, r5
	ldrb	r5, [r0, #11]
	adds	r4, r4, r5
	str	r4, [sp, #52]
	ldrb	r4, [r0, #13]
	lsls	r4, r4, #16
	ldrb	r5, [r0, #12]
	lsls	r5, r5, #24
	adds	r4, r5, r4
	ldrb	r5, [r0, #14]
	lsls	r5, r5, #8
	adds	r4, r4, r5
	ldrb	r0, [r0, #15]
	adds	r0, r4, r0
	str	r0, [sp, #48]
	movs	r0, #15
	ands	r0, r3
	str	r0, [sp, #16]
	str	r2, [sp, #20]
	adds	r1, #64
	rev	r0, r6
	ldr	r2, [sp, #36]                   @ 4-byte Reload
	rev	r2, r2
	str	r2, [sp]
	str	r0, [sp, #4]
	str	r1, [sp, #8]
	ldr	r0, [sp, #40]                   @ 4-byte Reload
	rev	r2, r0
	ldr	r0, [sp, #44]                   @ 4-byte Reload
	rev	r3, r0
	add	r0, sp, #48
	bl	gcm_v6m_small.gcm.single_blocks.hash_singly.1
	subs	r6, r7, #7
	subs	r6, #5
	mov	sp, r6
	pop	{r4, r5, r6, r7, pc}
.Lgcm_v6m_small_func_end42:
	.size	gcm_v6m_small.gcm.mode.BorrowedGcm.hash_so_far, .Lgcm_v6m_small_func_end42-gcm_v6m_small.gcm.mode.BorrowedGcm.hash_so_far
	.cantunwind
	.fnend
                                        @ -- End function
	.section	.text.gcm_v6m_small.gcm.mode.put_subkey,"ax",%progbits
	.p2align	1                               @ -- Begin function gcm::mode::put_subkey::<#107cc7d9d0728059>
	.type	gcm_v6m_small.gcm.mode.put_subkey,%function
	.code	16
	.thumb_func
gcm_v6m_small.gcm.mode.put_subkey: @ @gcm_v6m_small.gcm.mode.put_subkey
	.fnstart
@ %bb.0:                                @ %start
	.save	{r4, r5, r6, r7, lr}
	push	{r4, r5, r6, r7, lr}
	.pad	#60
	sub	sp, #60
	mov	r4, r1
	movs	r5, #0
	str	r5, [sp, #56]
	str	r5, [sp, #52]
	str	r5, [sp, #48]
	str	r5, [sp, #44]
	ldrb	r1, [r0, #15]
	str	r1, [sp, #40]                   @ 4-byte Spill
	ldrb	r1, [r0, #14]
	str	r1, [sp, #36]                   @ 4-byte Spill
	ldrb	r1, [r0, #12]
	str	r1, [sp, #32]                   @ 4-byte Spill
	ldrb	r1, [r0, #13]
	str	r1, [sp, #28]                   @ 4-byte Spill
	ldrb	r1, [r0, #11]
	str	r1, [sp, #24]                   @ 4-byte Spill
	ldrb	r1, [r0, #10]
	str	r1, [sp, #20]                   @ 4-byte Spill
	ldrb	r1, [r0, #8]
	str	r1, [sp, #16]                   @ 4-byte Spill
	ldrb	r6, [r0, #9]
	ldrb	r3, [r0, #3]
	ldrb	r2, [r0, #2]
	ldrb	r1, [r0]
	ldrb	r0, [r0, #1]
	movs	r7, #1
	str	r7, [sp, #8]
	str	r5, [sp, #12]
	add	r5, sp, #44
	str	r5, [sp]
	lsls	r0, r0, #8
	adds	r0, r0, r1
	lsls	r1, r2, #16
	lsls	r2, r3, #24
	adds	r1, r2, r1
	adds	r0, r1, r0
	lsls	r1, r6, #8
	ldr	r2, [sp, #16]                   @ 4-byte Reload
	adds	r1, r1, r2
	ldr	r2, [sp, #20]                   @ 4-byte Reload
	lsls	r2, r2, #16
	ldr	r3, [sp, #24]                   @ 4-byte Reload
	lsls	r3, r3, #24
	adds	r2, r3, r2
	adds	r2, r2, r1
	ldr	r1, [sp, #28]                   @ 4-byte Reload
	lsls	r1, r1, #8
	ldr	r3, [sp, #32]                   @ 4-byte Reload
	adds	r1, r1, r3
	ldr	r3, [sp, #36]                   @ 4-byte Reload
	lsls	r3, r3, #16
	ldr	r6, [sp, #40]                   @ 4-byte Reload
	lsls	r6, r6, #24
	adds	r3, r6, r3
	adds	r3, r3, r1
	bl	gcm_v6m_small.aes_narrow.blocks.process_all_batches
	bl	gcm_v6m_small.aes_cipher.zeroize.stack.wipe_stack.1024
	ldrb	r0, [r5, #11]
	strb	r0, [r4, #11]
	ldrb	r0, [r5, #10]
	strb	r0, [r4, #10]
	ldrb	r0, [r5, #9]
	strb	r0, [r4, #9]
	ldr	r0, [sp, #52]
	strb	r0, [r4, #8]
	ldrb	r0, [r5, #3]
	strb	r0, [r4, #3]
	ldrb	r0, [r5, #2]
	strb	r0, [r4, #2]
	ldrb	r0, [r5, #1]
	strb	r0, [r4, #1]
	ldr	r0, [sp, #44]
	strb	r0, [r4]
	ldr	r0, [sp, #56]
	rev	r0, r0
	strb	r0, [r4, #15]
	ldr	r1, [sp, #48]
	rev	r1, r1
	strb	r1, [r4, #7]
	lsrs	r2, r0, #8
	strb	r2, [r4, #14]
	lsrs	r2, r0, #16
	strb	r2, [r4, #13]
	lsrs	r0, r0, #24
	strb	r0, [r4, #12]
	lsrs	r0, r1, #8
	strb	r0, [r4, #6]
	lsrs	r0, r1, #16
	strb	r0, [r4, #5]
	lsrs	r0, r1, #24
	strb	r0, [r4, #4]
	mov	r0, r5
	bl	gcm_v6m_small.aes_cipher.zeroize.elements.zeroize_elements.2
	add	sp, #60
	pop	{r4, r5, r6, r7, pc}
.Lgcm_v6m_small_func_end43:
	.size	gcm_v6m_small.gcm.mode.put_subkey, .Lgcm_v6m_small_func_end43-gcm_v6m_small.gcm.mode.put_subkey
	.cantunwind
	.fnend
                                        @ -- End function
	.section	.text.gcm_v6m_small.gcm.mode.BorrowedGcm.compare,"ax",%progbits
	.p2align	1                               @ -- Begin function gcm::mode::BorrowedGcm::compare::<#c01aad2b5fbc92b1>
	.type	gcm_v6m_small.gcm.mode.BorrowedGcm.compare,%function
	.code	16
	.thumb_func
gcm_v6m_small.gcm.mode.BorrowedGcm.compare: @ @gcm_v6m_small.gcm.mode.BorrowedGcm.compare
	.fnstart
@ %bb.0:                                @ %start
	.save	{r4, r5, r6, r7, lr}
	push	{r4, r5, r6, r7, lr}
	.pad	#68
	sub	sp, #68
	mov	r4, r2
	orrs	r4, r3
	beq	.Lgcm_v6m_small_BB44_2
@ %bb.1:                                @ %else.7
	ldr	r4, [sp, #116]
	str	r4, [sp, #40]                   @ 4-byte Spill
	ldr	r4, [sp, #112]
	str	r4, [sp, #28]                   @ 4-byte Spill
	ldr	r4, [sp, #100]
	str	r4, [sp, #44]                   @ 4-byte Spill
	ldr	r4, [sp, #96]
	str	r4, [sp, #36]                   @ 4-byte Spill
	ldr	r5, [sp, #124]
	ldr	r4, [sp, #120]
	str	r4, [sp, #48]                   @ 4-byte Spill
	ldr	r6, [sp, #104]
	ldr	r4, [sp, #88]
	str	r4, [sp, #32]                   @ 4-byte Spill
	str	r5, [sp]
	mov	r4, r0
	bl	gcm_v6m_small.gcm.mode.BorrowedGcm.put_pre_counter
	add	r7, sp, #52
	ldr	r0, [sp, #28]                   @ 4-byte Reload
	str	r0, [sp, #16]
	ldr	r0, [sp, #40]                   @ 4-byte Reload
	str	r0, [sp, #20]
	str	r7, [sp, #24]
	ldr	r0, [sp, #36]                   @ 4-byte Reload
	str	r0, [sp]
	ldr	r0, [sp, #44]                   @ 4-byte Reload
	str	r0, [sp, #4]
	str	r6, [sp, #8]
	mov	r0, r4
	mov	r1, r5
	ldr	r2, [sp, #32]                   @ 4-byte Reload
	bl	gcm_v6m_small.gcm.mode.BorrowedGcm.put_tag
	ldr	r0, [sp, #48]                   @ 4-byte Reload
	mov	r1, r7
	bl	gcm_v6m_small.aes_cipher.blocks.difference
	mov	r4, r0
	mov	r0, r7
	bl	gcm_v6m_small.aes_cipher.zeroize.elements.zeroize_elements.2
	mov	r0, r4
	subs	r1, r4, #1
	sbcs	r0, r1
	add	sp, #68
	pop	{r4, r5, r6, r7, pc}
.Lgcm_v6m_small_BB44_2:
	movs	r0, #1
	add	sp, #68
	pop	{r4, r5, r6, r7, pc}
.Lgcm_v6m_small_func_end44:
	.size	gcm_v6m_small.gcm.mode.BorrowedGcm.compare, .Lgcm_v6m_small_func_end44-gcm_v6m_small.gcm.mode.BorrowedGcm.compare
	.cantunwind
	.fnend
                                        @ -- End function
	.section	.text.gcm_v6m_small.gcm.mode.BorrowedGcm.put_tag,"ax",%progbits
	.p2align	1                               @ -- Begin function gcm::mode::BorrowedGcm::put_tag::<#c01aad2b5fbc92b1>
	.type	gcm_v6m_small.gcm.mode.BorrowedGcm.put_tag,%function
	.code	16
	.thumb_func
gcm_v6m_small.gcm.mode.BorrowedGcm.put_tag: @ @gcm_v6m_small.gcm.mode.BorrowedGcm.put_tag
	.fnstart
@ %bb.0:                                @ %start
	.save	{r4, r5, r6, r7, lr}
	push	{r4, r5, r6, r7, lr}
	.setfp	r7, sp, #12
	add	r7, sp, #12
	.pad	#108
	sub	sp, #108
	mov	r4, sp
	lsrs	r4, r4, #4
	lsls	r4, r4, #4
	mov	sp, r4
	str	r2, [sp, #76]                   @ 4-byte Spill
	mov	r5, r0
	ldr	r4, [r7, #32]
	movs	r2, #16
	mov	r0, r4
	bl	memmove
	ldrb	r0, [r5, #15]
	str	r0, [sp, #72]                   @ 4-byte Spill
	ldrb	r0, [r5, #14]
	str	r0, [sp, #64]                   @ 4-byte Spill
	ldrb	r0, [r5, #12]
	str	r0, [sp, #60]                   @ 4-byte Spill
	ldrb	r0, [r5, #13]
	str	r0, [sp, #56]                   @ 4-byte Spill
	ldrb	r0, [r5, #11]
	str	r0, [sp, #52]                   @ 4-byte Spill
	ldrb	r0, [r5, #10]
	str	r0, [sp, #48]                   @ 4-byte Spill
	ldrb	r0, [r5, #8]
	str	r0, [sp, #44]                   @ 4-byte Spill
	ldrb	r0, [r5, #9]
	str	r0, [sp, #40]                   @ 4-byte Spill
	ldrb	r0, [r5, #3]
	str	r0, [sp, #36]                   @ 4-byte Spill
	ldrb	r2, [r5, #2]
	ldrb	r1, [r5]
	ldrb	r0, [r5, #1]
	movs	r6, #0
	str	r6, [sp, #68]                   @ 4-byte Spill
	movs	r3, #1
	str	r3, [sp, #8]
	str	r6, [sp, #12]
	str	r4, [sp]
	lsls	r0, r0, #8
	adds	r0, r0, r1
	lsls	r1, r2, #16
	ldr	r2, [sp, #36]                   @ 4-byte Reload
	lsls	r2, r2, #24
	adds	r1, r2, r1
	adds	r0, r1, r0
	ldr	r1, [sp, #40]                   @ 4-byte Reload
	lsls	r1, r1, #8
	ldr	r2, [sp, #44]                   @ 4-byte Reload
	adds	r1, r1, r2
	ldr	r2, [sp, #48]                   @ 4-byte Reload
	lsls	r2, r2, #16
	ldr	r3, [sp, #52]                   @ 4-byte Reload
	lsls	r3, r3, #24
	adds	r2, r3, r2
	adds	r2, r2, r1
	ldr	r1, [sp, #56]                   @ 4-byte Reload
	lsls	r1, r1, #8
	ldr	r3, [sp, #60]                   @ 4-byte Reload
	adds	r1, r1, r3
	ldr	r3, [sp, #64]                   @ 4-byte Reload
	lsls	r3, r3, #16
	ldr	r6, [sp, #72]                   @ 4-byte Reload
	lsls	r6, r6, #24
	adds	r3, r6, r3
	adds	r3, r3, r1
	bl	gcm_v6m_small.aes_narrow.blocks.process_all_batches
	bl	gcm_v6m_small.aes_cipher.zeroize.stack.wipe_stack.1024
	ldr	r0, [r5, #16]
	ldrb	r1, [r0]
	lsls	r1, r1, #24
	ldrb	r2, [r0, #1]
	lsls	r2, r2, #16
	adds	r1, r2, r1
	ldrb	r2, [r0, #2]
	lsls	r2, r2, #8
	adds	r1, r1, r2
	ldrb	r2, [r0, #3]
	adds	r1, r1, r2
	str	r1, [sp, #92]
	ldrb	r1, [r0, #5]
	lsls	r1, r1, #16
	ldrb	r2, [r0, #4]
	lsls	r2, r2, #24
	adds	r1, r2, r1
	ldrb	r2, [r0, #6]
	lsls	r2, r2, #8
	adds	r1, r1, r2
	ldrb	r2, [r0, #7]
	adds	r1, r1, r2
	str	r1, [sp, #88]
	ldrb	r1, [r0, #8]
	lsls	r1, r1, #24
	ldrb	r2, [r0, #9]
	lsls	r2, r2, #16
	adds	r1, r2, r1
	ldrb	r2, [r0, #10]
	lsls	r2, r2, #8
	adds	r1, r1, r2
	ldrb	r2, [r0, #11]
	adds	r1, r1, r2
	str	r1, [sp, #84]
	ldrb	r1, [r0, #13]
	lsls	r1, r1, #16
	ldrb	r2, [r0, #12]
	lsls	r2, r2, #24
	adds	r1, r2, r1
	ldrb	r2, [r0, #14]
	lsls	r2, r2, #8
	adds	r1, r1, r2
	ldrb	r0, [r0, #15]
	adds	r0, r1, r0
	str	r0, [sp, #80]
	ldr	r0, [r7, #12]
	str	r0, [sp, #20]
	ldr	r0, [r7, #8]
	str	r0, [sp, #72]                   @ 4-byte Spill
	str	r0, [sp, #16]
	ldr	r2, [sp, #68]                   @ 4-byte Reload
	str	r2, [sp]
	str	r2, [sp, #4]
	ldr	r0, [sp, #76]                   @ 4-byte Reload
	str	r0, [sp, #8]
	add	r0, sp, #80
	mov	r3, r2
	bl	gcm_v6m_small.gcm.single_blocks.hash_singly.1
	str	r0, [sp, #76]                   @ 4-byte Spill
	ldr	r0, [r5, #16]
	ldrb	r5, [r0]
	lsls	r5, r5, #24
	ldrb	r6, [r0, #1]
	lsls	r6, r6, #16
	adds	r5, r6, r5
	ldrb	r6, [r0, #2]
	lsls	r6, r6, #8
	adds	r5, r5, r6
	ldrb	r6, [r0, #3]
	adds	r5, r5, r6
	str	r5, [sp, #68]                   @ 4-byte Spill
	str	r5, [sp, #92]
	ldrb	r5, [r0, #5]
	lsls	r5, r5, #16
	ldrb	r6, [r0, #4]
	lsls	r6, r6, #24
	adds	r5, r6, r5
	ldrb	r6, [r0, #6]
	lsls	r6, r6, #8
	adds	r5, r5, r6
	ldrb	r6, [r0, #7]
	adds	r5, r5, r6
	str	r5, [sp, #64]                   @ 4-byte Spill
	str	r5, [sp, #88]
	ldrb	r5, [r0, #8]
	lsls	r5, r5, #24
	ldrb	r6, [r0, #9]
	lsls	r6, r6, #16
	adds	r5, r6, r5
	ldrb	r6, [r0, #10]
	lsls	r6, r6, #8
	adds	r5, r5, r6
	ldrb	r6, [r0, #11]
	adds	r5, r5, r6
	str	r5, [sp, #60]                   @ 4-byte Spill
	str	r5, [sp, #84]
	ldrb	r5, [r0, #13]
	lsls	r5, r5, #16
	ldrb	r6, [r0, #12]
	lsls	r6, r6, #24
	adds	r5, r6, r5
	ldrb	r6, [r0, #14]
	lsls	r6, r6, #8
	adds	r5, r5, r6
	ldrb	r0, [r0, #15]
	adds	r6, r5, r0
	str	r6, [sp, #80]
	ldr	r0, [r7, #28]
	str	r0, [sp, #20]
	ldr	r5, [r7, #24]
	str	r5, [sp, #16]
	ldr	r0, [r7, #16]
	str	r2, [sp]
	str	r3, [sp, #4]
	str	r0, [sp, #8]
	add	r0, sp, #80
	ldr	r2, [sp, #76]                   @ 4-byte Reload
	mov	r3, r1
	bl	gcm_v6m_small.gcm.single_blocks.hash_singly.1
	str	r6, [sp]
	ldr	r6, [sp, #60]                   @ 4-byte Reload
	str	r6, [sp, #4]
	ldr	r6, [sp, #64]                   @ 4-byte Reload
	str	r6, [sp, #8]
	ldr	r6, [sp, #68]                   @ 4-byte Reload
	str	r6, [sp, #12]
	lsls	r6, r5, #3
	eors	r0, r6
	lsrs	r5, r5, #29
	eors	r1, r5
	ldr	r6, [sp, #72]                   @ 4-byte Reload
	lsls	r5, r6, #3
	eors	r2, r5
	lsrs	r5, r6, #29
	eors	r3, r5
	bl	gcm_v6m_small.gcm.bitwise.product_bitwise
	ldrb	r5, [r4, #15]
	eors	r5, r0
	strb	r5, [r4, #15]
	lsrs	r5, r0, #8
	ldrb	r6, [r4, #14]
	eors	r6, r5
	strb	r6, [r4, #14]
	lsrs	r5, r0, #16
	ldrb	r6, [r4, #13]
	eors	r6, r5
	strb	r6, [r4, #13]
	lsrs	r0, r0, #24
	ldrb	r5, [r4, #12]
	eors	r5, r0
	strb	r5, [r4, #12]
	ldrb	r0, [r4, #11]
	eors	r0, r1
	strb	r0, [r4, #11]
	lsrs	r0, r1, #8
	ldrb	r5, [r4, #10]
	eors	r5, r0
	strb	r5, [r4, #10]
	lsrs	r0, r1, #16
	ldrb	r5, [r4, #9]
	eors	r5, r0
	strb	r5, [r4, #9]
	lsrs	r0, r1, #24
	ldrb	r1, [r4, #8]
	eors	r1, r0
	strb	r1, [r4, #8]
	ldrb	r0, [r4, #7]
	eors	r0, r2
	strb	r0, [r4, #7]
	lsrs	r0, r2, #8
	ldrb	r1, [r4, #6]
	eors	r1, r0
	strb	r1, [r4, #6]
	lsrs	r0, r2, #16
	ldrb	r1, [r4, #5]
	eors	r1, r0
	strb	r1, [r4, #5]
	lsrs	r0, r2, #24
	ldrb	r1, [r4, #4]
	eors	r1, r0
	strb	r1, [r4, #4]
	ldrb	r0, [r4, #3]
	eors	r0, r3
	strb	r0, [r4, #3]
	lsrs	r0, r3, #8
	ldrb	r1, [r4, #2]
	eors	r1, r0
	strb	r1, [r4, #2]
	lsrs	r0, r3, #16
	ldrb	r1, [r4, #1]
	eors	r1, r0
	strb	r1, [r4, #1]
	lsrs	r0, r3, #24
	ldrb	r1, [r4]
	eors	r1, r0
	strb	r1, [r4]
	subs	r6, r7, #7
	subs	r6, #5
	mov	sp, r6
	pop	{r4, r5, r6, r7, pc}
.Lgcm_v6m_small_func_end45:
	.size	gcm_v6m_small.gcm.mode.BorrowedGcm.put_tag, .Lgcm_v6m_small_func_end45-gcm_v6m_small.gcm.mode.BorrowedGcm.put_tag
	.cantunwind
	.fnend
                                        @ -- End function
	.section	.text.gcm_v6m_small.aes_cipher.blocks.difference,"ax",%progbits
	.p2align	1                               @ -- Begin function aes_cipher::blocks::difference
	.type	gcm_v6m_small.aes_cipher.blocks.difference,%function
	.code	16
	.thumb_func
gcm_v6m_small.aes_cipher.blocks.difference:       @ @gcm_v6m_small.aes_cipher.blocks.difference
	.fnstart
@ %bb.0:                                @ %start
	.save	{r4, lr}
	push	{r4, lr}
	ldrb	r2, [r0]
	ldrb	r3, [r1]
	eors	r3, r2
	ldrb	r2, [r0, #1]
	ldrb	r4, [r1, #1]
	eors	r4, r2
	orrs	r4, r3
	ldrb	r2, [r0, #2]
	ldrb	r3, [r1, #2]
	eors	r3, r2
	orrs	r3, r4
	ldrb	r2, [r0, #3]
	ldrb	r4, [r1, #3]
	eors	r4, r2
	orrs	r4, r3
	ldrb	r2, [r0, #4]
	ldrb	r3, [r1, #4]
	eors	r3, r2
	orrs	r3, r4
	ldrb	r2, [r0, #5]
	ldrb	r4, [r1, #5]
	eors	r4, r2
	orrs	r4, r3
	ldrb	r2, [r0, #6]
	ldrb	r3, [r1, #6]
	eors	r3, r2
	orrs	r3, r4
	ldrb	r2, [r0, #7]
	ldrb	r4, [r1, #7]
	eors	r4, r2
	orrs	r4, r3
	ldrb	r2, [r0, #8]
	ldrb	r3, [r1, #8]
	eors	r3, r2
	orrs	r3, r4
	ldrb	r2, [r0, #9]
	ldrb	r4, [r1, #9]
	eors	r4, r2
	orrs	r4, r3
	ldrb	r2, [r0, #10]
	ldrb	r3, [r1, #10]
	eors	r3, r2
	orrs	r3, r4
	ldrb	r2, [r0, #11]
	ldrb	r4, [r1, #11]
	eors	r4, r2
	orrs	r4, r3
	ldrb	r2, [r0, #12]
	ldrb	r3, [r1, #12]
	eors	r3, r2
	orrs	r3, r4
	ldrb	r2, [r0, #13]
	ldrb	r4, [r1, #13]
	eors	r4, r2
	orrs	r4, r3
	ldrb	r2, [r0, #14]
	ldrb	r3, [r1, #14]
	eors	r3, r2
	orrs	r3, r4
	ldrb	r2, [r0, #15]
	ldrb	r0, [r1, #15]
	eors	r0, r2
	orrs	r0, r3
	pop	{r4, pc}
.Lgcm_v6m_small_func_end46:
	.size	gcm_v6m_small.aes_cipher.blocks.difference, .Lgcm_v6m_small_func_end46-gcm_v6m_small.aes_cipher.blocks.difference
	.cantunwind
	.fnend
                                        @ -- End function
	.section	.text.gcm_v6m_small.gcm.gctr.add_gctr,"ax",%progbits
	.p2align	1                               @ -- Begin function gcm::gctr::add_gctr::<#099a9bc28799ce6c>
	.type	gcm_v6m_small.gcm.gctr.add_gctr,%function
	.code	16
	.thumb_func
gcm_v6m_small.gcm.gctr.add_gctr: @ @gcm_v6m_small.gcm.gctr.add_gctr
	.fnstart
@ %bb.0:                                @ %start
	.save	{r4, r5, r6, r7, lr}
	push	{r4, r5, r6, r7, lr}
	.pad	#92
	sub	sp, #92
	ldr	r4, [sp, #124]
	ldr	r5, [sp, #120]
	mov	r6, r5
	orrs	r6, r4
	beq	.Lgcm_v6m_small_BB47_3
@ %bb.1:                                @ %then.1
	str	r3, [sp, #36]                   @ 4-byte Spill
	ldr	r3, [sp, #112]
	str	r3, [sp, #32]                   @ 4-byte Spill
	mov	r3, r4
	ldrb	r7, [r1, #12]
	ldrb	r6, [r1, #13]
	lsls	r6, r6, #8
	adds	r6, r6, r7
	ldrb	r7, [r1, #14]
	lsls	r7, r7, #16
	ldrb	r4, [r1, #15]
	lsls	r4, r4, #24
	adds	r4, r4, r7
	adds	r4, r4, r6
	str	r4, [sp, #52]
	ldrb	r4, [r1, #8]
	ldrb	r6, [r1, #9]
	lsls	r6, r6, #8
	adds	r4, r6, r4
	ldrb	r6, [r1, #10]
	lsls	r6, r6, #16
	ldrb	r7, [r1, #11]
	lsls	r7, r7, #24
	adds	r6, r7, r6
	adds	r4, r6, r4
	str	r4, [sp, #48]
	ldrb	r4, [r1, #4]
	ldrb	r6, [r1, #5]
	lsls	r6, r6, #8
	adds	r4, r6, r4
	ldrb	r6, [r1, #6]
	lsls	r6, r6, #16
	ldrb	r7, [r1, #7]
	lsls	r7, r7, #24
	adds	r6, r7, r6
	adds	r4, r6, r4
	str	r4, [sp, #44]
	ldrb	r4, [r1]
	ldrb	r6, [r1, #1]
	lsls	r6, r6, #8
	adds	r4, r6, r4
	ldrb	r6, [r1, #2]
	lsls	r6, r6, #16
	ldrb	r1, [r1, #3]
	lsls	r1, r1, #24
	adds	r1, r1, r6
	adds	r1, r1, r4
	str	r1, [sp, #40]
	movs	r1, #0
	str	r1, [sp, #60]
	str	r1, [sp, #56]
	movs	r4, #15
	ands	r4, r2
	movs	r6, #16
	subs	r4, r6, r4
	subs	r4, r4, r5
	mov	r4, r1
	sbcs	r4, r3
	bhs	.Lgcm_v6m_small_BB47_4
@ %bb.2:                                @ %else.2.i
	str	r5, [sp, #80]
	str	r2, [sp, #64]
	str	r1, [sp, #76]
	ldr	r1, [sp, #32]                   @ 4-byte Reload
	str	r1, [sp, #72]
	add	r1, sp, #40
	str	r1, [sp, #56]
	str	r3, [sp, #84]
	ldr	r1, [sp, #36]                   @ 4-byte Reload
	str	r1, [sp, #68]
	ldrb	r1, [r0, #15]
	str	r1, [sp, #36]                   @ 4-byte Spill
	ldrb	r1, [r0, #14]
	str	r1, [sp, #32]                   @ 4-byte Spill
	ldrb	r1, [r0, #12]
	str	r1, [sp, #28]                   @ 4-byte Spill
	ldrb	r1, [r0, #13]
	str	r1, [sp, #24]                   @ 4-byte Spill
	ldrb	r1, [r0, #11]
	str	r1, [sp, #20]                   @ 4-byte Spill
	ldrb	r6, [r0, #10]
	ldrb	r7, [r0, #8]
	ldrb	r4, [r0, #9]
	ldrb	r3, [r0, #3]
	ldrb	r2, [r0, #2]
	ldrb	r1, [r0]
	ldrb	r0, [r0, #1]
	add	r5, sp, #56
	str	r5, [sp]
	lsls	r0, r0, #8
	adds	r0, r0, r1
	lsls	r1, r2, #16
	lsls	r2, r3, #24
	adds	r1, r2, r1
	adds	r0, r1, r0
	lsls	r1, r4, #8
	adds	r1, r1, r7
	lsls	r2, r6, #16
	ldr	r3, [sp, #20]                   @ 4-byte Reload
	lsls	r3, r3, #24
	adds	r2, r3, r2
	adds	r2, r2, r1
	ldr	r1, [sp, #24]                   @ 4-byte Reload
	lsls	r1, r1, #8
	ldr	r3, [sp, #28]                   @ 4-byte Reload
	adds	r1, r1, r3
	ldr	r3, [sp, #32]                   @ 4-byte Reload
	lsls	r3, r3, #16
	ldr	r4, [sp, #36]                   @ 4-byte Reload
	lsls	r4, r4, #24
	adds	r3, r4, r3
	adds	r3, r3, r1
	bl	gcm_v6m_small.aes_narrow.borrowed_words.call_to_encrypt.1
	bl	gcm_v6m_small.aes_cipher.zeroize.stack.wipe_stack.2032
.Lgcm_v6m_small_BB47_3:                               @ %join.3
	add	sp, #92
	pop	{r4, r5, r6, r7, pc}
.Lgcm_v6m_small_BB47_4:                               @ %then.1.i
	ldr	r1, [sp, #32]                   @ 4-byte Reload
	str	r1, [sp]
	str	r5, [sp, #8]
	str	r3, [sp, #12]
	add	r1, sp, #40
	ldr	r3, [sp, #36]                   @ 4-byte Reload
	bl	gcm_v6m_small.aes_ctr.add_in_batches.add_to_one.1
	add	sp, #92
	pop	{r4, r5, r6, r7, pc}
.Lgcm_v6m_small_func_end47:
	.size	gcm_v6m_small.gcm.gctr.add_gctr, .Lgcm_v6m_small_func_end47-gcm_v6m_small.gcm.gctr.add_gctr
	.cantunwind
	.fnend
                                        @ -- End function
	.section	.text.gcm_v6m_small.aes_ctr.add_in_batches.add_to_one.1,"ax",%progbits
	.p2align	1                               @ -- Begin function aes_ctr::add_in_batches::add_to_one::<#9f2532018b56b7e7>
	.type	gcm_v6m_small.aes_ctr.add_in_batches.add_to_one.1,%function
	.code	16
	.thumb_func
gcm_v6m_small.aes_ctr.add_in_batches.add_to_one.1: @ @gcm_v6m_small.aes_ctr.add_in_batches.add_to_one.1
	.fnstart
@ %bb.0:                                @ %start
	.save	{r4, r5, r6, r7, lr}
	push	{r4, r5, r6, r7, lr}
	.pad	#68
	sub	sp, #68
	mov	r4, r2
	str	r2, [sp, #48]                   @ 4-byte Spill
	ldrb	r2, [r1, #11]
	add	r5, sp, #52
	strb	r2, [r5, #11]
	ldrb	r2, [r1, #10]
	strb	r2, [r5, #10]
	ldrb	r2, [r1, #9]
	strb	r2, [r5, #9]
	ldrb	r2, [r1, #8]
	strb	r2, [r5, #8]
	ldrb	r2, [r1, #7]
	strb	r2, [r5, #7]
	ldrb	r2, [r1, #6]
	strb	r2, [r5, #6]
	ldrb	r2, [r1, #5]
	strb	r2, [r5, #5]
	ldrb	r2, [r1, #4]
	strb	r2, [r5, #4]
	ldrb	r2, [r1, #3]
	strb	r2, [r5, #3]
	ldrb	r2, [r1, #2]
	strb	r2, [r5, #2]
	ldrb	r2, [r1, #1]
	strb	r2, [r5, #1]
	ldrb	r2, [r1]
	strb	r2, [r5]
	lsls	r2, r3, #28
	lsrs	r3, r4, #4
	adds	r2, r3, r2
	ldrb	r3, [r1, #13]
	lsls	r3, r3, #16
	ldrb	r4, [r1, #12]
	lsls	r4, r4, #24
	adds	r3, r4, r3
	ldrb	r4, [r1, #14]
	lsls	r4, r4, #8
	adds	r3, r3, r4
	ldrb	r1, [r1, #15]
	adds	r1, r3, r1
	adds	r1, r1, r2
	strb	r1, [r5, #15]
	lsrs	r2, r1, #8
	strb	r2, [r5, #14]
	lsrs	r2, r1, #16
	strb	r2, [r5, #13]
	lsrs	r1, r1, #24
	strb	r1, [r5, #12]
	ldrb	r1, [r0, #15]
	str	r1, [sp, #44]                   @ 4-byte Spill
	ldrb	r1, [r0, #14]
	str	r1, [sp, #40]                   @ 4-byte Spill
	ldrb	r1, [r0, #12]
	str	r1, [sp, #36]                   @ 4-byte Spill
	ldrb	r1, [r0, #13]
	str	r1, [sp, #32]                   @ 4-byte Spill
	ldrb	r1, [r0, #11]
	str	r1, [sp, #28]                   @ 4-byte Spill
	ldrb	r1, [r0, #10]
	str	r1, [sp, #24]                   @ 4-byte Spill
	ldrb	r1, [r0, #8]
	str	r1, [sp, #20]                   @ 4-byte Spill
	ldrb	r6, [r0, #9]
	ldrb	r4, [r0, #3]
	ldrb	r3, [r0, #2]
	ldrb	r2, [r0]
	ldrb	r1, [r0, #1]
	movs	r0, #0
	movs	r7, #1
	str	r7, [sp, #8]
	str	r0, [sp, #12]
	mov	r7, r0
	str	r5, [sp]
	lsls	r0, r1, #8
	adds	r0, r0, r2
	lsls	r1, r3, #16
	lsls	r2, r4, #24
	adds	r1, r2, r1
	adds	r0, r1, r0
	lsls	r1, r6, #8
	ldr	r2, [sp, #20]                   @ 4-byte Reload
	adds	r1, r1, r2
	ldr	r2, [sp, #24]                   @ 4-byte Reload
	lsls	r2, r2, #16
	ldr	r3, [sp, #28]                   @ 4-byte Reload
	lsls	r3, r3, #24
	adds	r2, r3, r2
	adds	r2, r2, r1
	ldr	r1, [sp, #32]                   @ 4-byte Reload
	lsls	r1, r1, #8
	ldr	r3, [sp, #36]                   @ 4-byte Reload
	adds	r1, r1, r3
	ldr	r3, [sp, #40]                   @ 4-byte Reload
	lsls	r3, r3, #16
	ldr	r4, [sp, #44]                   @ 4-byte Reload
	lsls	r4, r4, #24
	adds	r3, r4, r3
	adds	r3, r3, r1
	bl	gcm_v6m_small.aes_narrow.blocks.process_all_batches
	bl	gcm_v6m_small.aes_cipher.zeroize.stack.wipe_stack.1024
	ldr	r0, [sp, #100]
	str	r0, [sp, #12]
	ldr	r0, [sp, #96]
	str	r0, [sp, #8]
	ldr	r0, [sp, #88]
	str	r0, [sp]
	movs	r2, #15
	ldr	r0, [sp, #48]                   @ 4-byte Reload
	ands	r2, r0
	mov	r0, r5
	mov	r3, r7
	bl	gcm_v6m_small.aes_ctr.add_blocks.add_blocks
	add	sp, #68
	pop	{r4, r5, r6, r7, pc}
.Lgcm_v6m_small_func_end48:
	.size	gcm_v6m_small.aes_ctr.add_in_batches.add_to_one.1, .Lgcm_v6m_small_func_end48-gcm_v6m_small.aes_ctr.add_in_batches.add_to_one.1
	.cantunwind
	.fnend
                                        @ -- End function
	.section	.text.gcm_v6m_small.aes_ctr.add_blocks.add_blocks,"ax",%progbits
	.p2align	1                               @ -- Begin function aes_ctr::add_blocks::add_blocks
	.type	gcm_v6m_small.aes_ctr.add_blocks.add_blocks,%function
	.code	16
	.thumb_func
gcm_v6m_small.aes_ctr.add_blocks.add_blocks:      @ @gcm_v6m_small.aes_ctr.add_blocks.add_blocks
	.fnstart
@ %bb.0:                                @ %start
	.save	{r4, r5, r6, r7, lr}
	push	{r4, r5, r6, r7, lr}
	.pad	#44
	sub	sp, #44
	str	r0, [sp, #36]                   @ 4-byte Spill
	mov	r0, r2
	orrs	r0, r3
	movs	r5, #0
	ldr	r4, [sp, #76]
	ldr	r7, [sp, #72]
	ldr	r1, [sp, #64]
	cmp	r0, #0
	str	r2, [sp, #32]                   @ 4-byte Spill
	str	r1, [sp, #24]                   @ 4-byte Spill
	str	r4, [sp, #28]                   @ 4-byte Spill
	str	r7, [sp, #40]                   @ 4-byte Spill
	beq	.Lgcm_v6m_small_BB49_6
@ %bb.1:                                @ %then.1
	str	r5, [sp, #20]                   @ 4-byte Spill
	str	r1, [sp]
	movs	r1, #0
	movs	r0, #16
	subs	r5, r0, r2
	sbcs	r1, r3
	subs	r2, r7, r5
	mov	r2, r4
	sbcs	r2, r1
	blo	.Lgcm_v6m_small_BB49_3
@ %bb.2:                                @ %then.1
	mov	r4, r1
.Lgcm_v6m_small_BB49_3:                               @ %then.1
	str	r4, [sp, #12]
	ldr	r6, [sp, #36]                   @ 4-byte Reload
	blo	.Lgcm_v6m_small_BB49_5
@ %bb.4:                                @ %then.1
	mov	r7, r5
.Lgcm_v6m_small_BB49_5:                               @ %then.1
	str	r7, [sp, #8]
	mov	r0, r6
	ldr	r2, [sp, #32]                   @ 4-byte Reload
	bl	gcm_v6m_small.aes_ctr.add_blocks.add_part
	ldr	r5, [sp, #20]                   @ 4-byte Reload
	b	.Lgcm_v6m_small_BB49_7
.Lgcm_v6m_small_BB49_6:
	mov	r7, r5
	mov	r4, r5
.Lgcm_v6m_small_BB49_7:                               @ %join.3
	ldr	r0, [sp, #40]                   @ 4-byte Reload
	subs	r0, r0, r7
	ldr	r3, [sp, #28]                   @ 4-byte Reload
	mov	r1, r3
	sbcs	r1, r4
	mov	r2, r0
	subs	r2, #16
	mov	r2, r1
	sbcs	r2, r5
	blo	.Lgcm_v6m_small_BB49_9
.Lgcm_v6m_small_BB49_8:                               @ %join.8
                                        @ =>This Inner Loop Header: Depth=1
	movs	r6, #0
	movs	r0, #16
	str	r0, [sp, #8]
	str	r6, [sp, #12]
	ldr	r0, [sp, #24]                   @ 4-byte Reload
	adds	r0, r0, r7
	str	r0, [sp]
	ldr	r0, [sp, #32]                   @ 4-byte Reload
	adds	r0, r7, r0
	movs	r5, #15
	bics	r0, r5
	ldr	r1, [sp, #36]                   @ 4-byte Reload
	adds	r0, r1, r0
	mov	r2, r6
	mov	r3, r6
	bl	gcm_v6m_small.aes_ctr.add_blocks.add_part
	ldr	r3, [sp, #28]                   @ 4-byte Reload
	adds	r7, #16
	adcs	r4, r6
	ldr	r0, [sp, #40]                   @ 4-byte Reload
	subs	r0, r0, r7
	mov	r1, r3
	sbcs	r1, r4
	subs	r2, r5, r0
	sbcs	r6, r1
	blo	.Lgcm_v6m_small_BB49_8
.Lgcm_v6m_small_BB49_9:                               @ %after.4
	ldr	r2, [sp, #40]                   @ 4-byte Reload
	subs	r2, r7, r2
	sbcs	r4, r3
	bhs	.Lgcm_v6m_small_BB49_11
@ %bb.10:                               @ %then.9
	str	r0, [sp, #8]
	str	r1, [sp, #12]
	ldr	r0, [sp, #24]                   @ 4-byte Reload
	adds	r0, r0, r7
	str	r0, [sp]
	ldr	r0, [sp, #32]                   @ 4-byte Reload
	adds	r0, r7, r0
	movs	r1, #15
	bics	r0, r1
	ldr	r1, [sp, #36]                   @ 4-byte Reload
	adds	r0, r1, r0
	movs	r2, #0
	mov	r3, r2
	bl	gcm_v6m_small.aes_ctr.add_blocks.add_part
.Lgcm_v6m_small_BB49_11:                              @ %join.11
	add	sp, #44
	pop	{r4, r5, r6, r7, pc}
.Lgcm_v6m_small_func_end49:
	.size	gcm_v6m_small.aes_ctr.add_blocks.add_blocks, .Lgcm_v6m_small_func_end49-gcm_v6m_small.aes_ctr.add_blocks.add_blocks
	.cantunwind
	.fnend
                                        @ -- End function
	.section	.text.gcm_v6m_small.aes_ctr.add_blocks.add_part,"ax",%progbits
	.p2align	1                               @ -- Begin function aes_ctr::add_blocks::add_part
	.type	gcm_v6m_small.aes_ctr.add_blocks.add_part,%function
	.code	16
	.thumb_func
gcm_v6m_small.aes_ctr.add_blocks.add_part:        @ @gcm_v6m_small.aes_ctr.add_blocks.add_part
	.fnstart
@ %bb.0:                                @ %start
	.save	{r4, r5, r6, r7, lr}
	push	{r4, r5, r6, r7, lr}
	.pad	#100
	sub	sp, #100
	ldr	r3, [sp, #128]
	lsls	r1, r3, #26
	bne	.Lgcm_v6m_small_BB50_1
	b	.Lgcm_v6m_small_BB50_14
.Lgcm_v6m_small_BB50_1:                               @ %start
	ldr	r1, [sp, #120]
	cmp	r3, #16
	bne	.Lgcm_v6m_small_BB50_3
@ %bb.2:                                @ %then.1
	ldrb	r2, [r1, #15]
	ldrb	r3, [r0, #15]
	eors	r3, r2
	str	r3, [sp]                        @ 4-byte Spill
	ldrb	r2, [r1]
	str	r2, [sp, #96]                   @ 4-byte Spill
	ldrb	r2, [r0]
	str	r2, [sp, #92]                   @ 4-byte Spill
	ldrb	r2, [r1, #1]
	str	r2, [sp, #88]                   @ 4-byte Spill
	ldrb	r2, [r0, #1]
	str	r2, [sp, #84]                   @ 4-byte Spill
	ldrb	r2, [r1, #2]
	str	r2, [sp, #80]                   @ 4-byte Spill
	ldrb	r2, [r0, #2]
	str	r2, [sp, #76]                   @ 4-byte Spill
	ldrb	r2, [r1, #3]
	str	r2, [sp, #72]                   @ 4-byte Spill
	ldrb	r2, [r0, #3]
	str	r2, [sp, #68]                   @ 4-byte Spill
	ldrb	r2, [r1, #4]
	str	r2, [sp, #64]                   @ 4-byte Spill
	ldrb	r2, [r0, #4]
	str	r2, [sp, #60]                   @ 4-byte Spill
	ldrb	r2, [r1, #5]
	str	r2, [sp, #56]                   @ 4-byte Spill
	ldrb	r2, [r0, #5]
	str	r2, [sp, #52]                   @ 4-byte Spill
	ldrb	r2, [r1, #6]
	str	r2, [sp, #48]                   @ 4-byte Spill
	ldrb	r2, [r0, #6]
	str	r2, [sp, #44]                   @ 4-byte Spill
	ldrb	r2, [r1, #7]
	str	r2, [sp, #40]                   @ 4-byte Spill
	ldrb	r2, [r0, #7]
	str	r2, [sp, #36]                   @ 4-byte Spill
	ldrb	r2, [r1, #8]
	str	r2, [sp, #32]                   @ 4-byte Spill
	ldrb	r2, [r0, #8]
	str	r2, [sp, #28]                   @ 4-byte Spill
	ldrb	r2, [r1, #9]
	str	r2, [sp, #24]                   @ 4-byte Spill
	ldrb	r6, [r0, #9]
	ldrb	r2, [r1, #10]
	str	r2, [sp, #20]                   @ 4-byte Spill
	ldrb	r5, [r0, #10]
	ldrb	r2, [r1, #11]
	str	r2, [sp, #16]                   @ 4-byte Spill
	ldrb	r4, [r0, #11]
	ldrb	r2, [r1, #12]
	str	r2, [sp, #12]                   @ 4-byte Spill
	ldrb	r3, [r0, #12]
	ldrb	r2, [r1, #13]
	str	r2, [sp, #8]                    @ 4-byte Spill
	ldrb	r2, [r0, #13]
	ldrb	r7, [r1, #14]
	str	r7, [sp, #4]                    @ 4-byte Spill
	ldrb	r0, [r0, #14]
	ldr	r7, [sp]                        @ 4-byte Reload
	strb	r7, [r1, #15]
	ldr	r7, [sp, #4]                    @ 4-byte Reload
	eors	r0, r7
	strb	r0, [r1, #14]
	ldr	r0, [sp, #8]                    @ 4-byte Reload
	eors	r2, r0
	strb	r2, [r1, #13]
	ldr	r0, [sp, #12]                   @ 4-byte Reload
	eors	r3, r0
	strb	r3, [r1, #12]
	ldr	r0, [sp, #16]                   @ 4-byte Reload
	eors	r4, r0
	strb	r4, [r1, #11]
	ldr	r0, [sp, #20]                   @ 4-byte Reload
	eors	r5, r0
	strb	r5, [r1, #10]
	ldr	r0, [sp, #24]                   @ 4-byte Reload
	eors	r6, r0
	strb	r6, [r1, #9]
	ldr	r0, [sp, #32]                   @ 4-byte Reload
	ldr	r2, [sp, #28]                   @ 4-byte Reload
	eors	r2, r0
	strb	r2, [r1, #8]
	ldr	r0, [sp, #40]                   @ 4-byte Reload
	ldr	r2, [sp, #36]                   @ 4-byte Reload
	eors	r2, r0
	strb	r2, [r1, #7]
	ldr	r0, [sp, #48]                   @ 4-byte Reload
	ldr	r2, [sp, #44]                   @ 4-byte Reload
	eors	r2, r0
	strb	r2, [r1, #6]
	ldr	r0, [sp, #56]                   @ 4-byte Reload
	ldr	r2, [sp, #52]                   @ 4-byte Reload
	eors	r2, r0
	strb	r2, [r1, #5]
	ldr	r0, [sp, #64]                   @ 4-byte Reload
	ldr	r2, [sp, #60]                   @ 4-byte Reload
	eors	r2, r0
	strb	r2, [r1, #4]
	ldr	r0, [sp, #72]                   @ 4-byte Reload
	ldr	r2, [sp, #68]                   @ 4-byte Reload
	eors	r2, r0
	strb	r2, [r1, #3]
	ldr	r0, [sp, #80]                   @ 4-byte Reload
	ldr	r2, [sp, #76]                   @ 4-byte Reload
	eors	r2, r0
	strb	r2, [r1, #2]
	ldr	r0, [sp, #88]                   @ 4-byte Reload
	ldr	r2, [sp, #84]                   @ 4-byte Reload
	eors	r2, r0
	strb	r2, [r1, #1]
	ldr	r0, [sp, #96]                   @ 4-byte Reload
	ldr	r2, [sp, #92]                   @ 4-byte Reload
	eors	r2, r0
	strb	r2, [r1]
	add	sp, #100
	pop	{r4, r5, r6, r7, pc}
.Lgcm_v6m_small_BB50_3:                               @ %join.8.preheader
	ldr	r7, [sp, #132]
	mov	r4, r3
	movs	r6, #1
	cmp	r3, #1
	mov	r5, r3
	bls	.Lgcm_v6m_small_BB50_15
@ %bb.4:                                @ %join.8.preheader
	cmp	r7, #0
	beq	.Lgcm_v6m_small_BB50_16
.Lgcm_v6m_small_BB50_5:                               @ %join.8.preheader
	beq	.Lgcm_v6m_small_BB50_7
.Lgcm_v6m_small_BB50_6:                               @ %join.8.preheader
	mov	r5, r4
.Lgcm_v6m_small_BB50_7:                               @ %join.8.preheader
	movs	r4, #3
	mov	r6, r5
	str	r4, [sp, #96]                   @ 4-byte Spill
	ands	r6, r4
	movs	r4, #0
	subs	r3, r3, #4
	sbcs	r7, r4
	blo	.Lgcm_v6m_small_BB50_11
@ %bb.8:                                @ %join.8.preheader.new
	str	r6, [sp, #84]                   @ 4-byte Spill
	movs	r3, #60
	ands	r5, r3
	movs	r7, #0
	mov	r4, r7
	str	r7, [sp, #88]                   @ 4-byte Spill
	str	r5, [sp, #92]                   @ 4-byte Spill
.Lgcm_v6m_small_BB50_9:                               @ %join.8
                                        @ =>This Inner Loop Header: Depth=1
	ldrb	r5, [r1, r4]
	adds	r6, r4, r2
	ldrb	r6, [r0, r6]
	eors	r6, r5
	strb	r6, [r1, r4]
	movs	r5, #1
	orrs	r5, r4
	ldrb	r6, [r1, r5]
	adds	r3, r5, r2
	ldrb	r3, [r0, r3]
	eors	r3, r6
	strb	r3, [r1, r5]
	movs	r3, #2
	orrs	r3, r4
	ldrb	r5, [r1, r3]
	adds	r6, r3, r2
	ldrb	r6, [r0, r6]
	eors	r6, r5
	strb	r6, [r1, r3]
	mov	r3, r4
	ldr	r5, [sp, #96]                   @ 4-byte Reload
	orrs	r3, r5
	ldrb	r5, [r1, r3]
	adds	r6, r3, r2
	ldrb	r6, [r0, r6]
	eors	r6, r5
	ldr	r5, [sp, #92]                   @ 4-byte Reload
	strb	r6, [r1, r3]
	adds	r4, r4, #4
	ldr	r3, [sp, #88]                   @ 4-byte Reload
	adcs	r7, r3
	mov	r3, r4
	eors	r3, r5
	orrs	r3, r7
	bne	.Lgcm_v6m_small_BB50_9
@ %bb.10:                               @ %join.3.loopexit.unr-lcssa
	ldr	r6, [sp, #84]                   @ 4-byte Reload
	cmp	r6, #0
	beq	.Lgcm_v6m_small_BB50_14
.Lgcm_v6m_small_BB50_11:                              @ %join.8.epil.preheader
	ldrb	r3, [r1, r4]
	adds	r5, r4, r2
	ldrb	r5, [r0, r5]
	eors	r5, r3
	strb	r5, [r1, r4]
	cmp	r6, #1
	beq	.Lgcm_v6m_small_BB50_14
@ %bb.12:                               @ %join.8.epil.1
	adds	r3, r4, #1
	ldrb	r5, [r1, r3]
	mov	r7, r6
	adds	r6, r3, r2
	ldrb	r6, [r0, r6]
	eors	r6, r5
	strb	r6, [r1, r3]
	cmp	r7, #2
	beq	.Lgcm_v6m_small_BB50_14
@ %bb.13:                               @ %join.8.epil.2
	adds	r3, r4, #2
	ldrb	r4, [r1, r3]
	adds	r2, r3, r2
	ldrb	r0, [r0, r2]
	eors	r0, r4
	strb	r0, [r1, r3]
.Lgcm_v6m_small_BB50_14:                              @ %join.3
	add	sp, #100
	pop	{r4, r5, r6, r7, pc}
.Lgcm_v6m_small_BB50_15:                              @ %join.8.preheader
	mov	r5, r6
	cmp	r7, #0
	bne	.Lgcm_v6m_small_BB50_5
.Lgcm_v6m_small_BB50_16:                              @ %join.8.preheader
	mov	r4, r6
	bne	.Lgcm_v6m_small_BB50_6
	b	.Lgcm_v6m_small_BB50_7
.Lgcm_v6m_small_func_end50:
	.size	gcm_v6m_small.aes_ctr.add_blocks.add_part, .Lgcm_v6m_small_func_end50-gcm_v6m_small.aes_ctr.add_blocks.add_part
	.cantunwind
	.fnend
                                        @ -- End function
	.section	.text.gcm_v6m_small.aes_narrow.borrowed_words.call_to_encrypt.1,"ax",%progbits
	.p2align	1                               @ -- Begin function aes_narrow::borrowed_words::call_to_encrypt::<#1305835a18aa05db>
	.type	gcm_v6m_small.aes_narrow.borrowed_words.call_to_encrypt.1,%function
	.code	16
	.thumb_func
gcm_v6m_small.aes_narrow.borrowed_words.call_to_encrypt.1: @ @gcm_v6m_small.aes_narrow.borrowed_words.call_to_encrypt.1
	.fnstart
@ %bb.0:                                @ %start
	.save	{r4, r5, r7, lr}
	push	{r4, r5, r7, lr}
	.pad	#32
	sub	sp, #32
	str	r3, [sp, #28]
	str	r2, [sp, #24]
	movs	r1, #0
	str	r1, [sp, #20]
	str	r0, [sp, #16]
	ldr	r0, [sp, #48]
	mov	r4, r0
	adds	r4, #8
	ldm	r4, {r2, r3, r4}
	ldr	r1, [r0]
	ldr	r5, [r0, #24]
	ldr	r0, [r0, #28]
	str	r5, [sp, #8]
	str	r0, [sp, #12]
	str	r4, [sp]
	add	r0, sp, #16
	bl	gcm_v6m_small.aes_ctr.add_in_batches.add_by_backend.1
	add	sp, #32
	pop	{r4, r5, r7, pc}
.Lgcm_v6m_small_func_end51:
	.size	gcm_v6m_small.aes_narrow.borrowed_words.call_to_encrypt.1, .Lgcm_v6m_small_func_end51-gcm_v6m_small.aes_narrow.borrowed_words.call_to_encrypt.1
	.cantunwind
	.fnend
                                        @ -- End function
	.section	.text.gcm_v6m_small.aes_ctr.add_in_batches.add_by_backend.1,"ax",%progbits
	.p2align	1                               @ -- Begin function aes_ctr::add_in_batches::add_by_backend::<#8f445e75de4b0592>
	.type	gcm_v6m_small.aes_ctr.add_in_batches.add_by_backend.1,%function
	.code	16
	.thumb_func
gcm_v6m_small.aes_ctr.add_in_batches.add_by_backend.1: @ @gcm_v6m_small.aes_ctr.add_in_batches.add_by_backend.1
	.fnstart
@ %bb.0:                                @ %start
	.save	{r4, r5, r6, r7, lr}
	push	{r4, r5, r6, r7, lr}
	.pad	#332
	sub	sp, #332
	str	r3, [sp, #28]                   @ 4-byte Spill
	mov	r4, r2
	str	r1, [sp, #52]                   @ 4-byte Spill
	str	r0, [sp, #48]                   @ 4-byte Spill
	movs	r0, #15
	str	r2, [sp, #56]                   @ 4-byte Spill
	str	r0, [sp, #20]                   @ 4-byte Spill
	ands	r4, r0
	movs	r5, #0
	ldr	r1, [sp, #364]
	ldr	r7, [sp, #360]
	ldr	r0, [sp, #352]
	str	r0, [sp, #24]                   @ 4-byte Spill
	cmp	r4, #0
	str	r1, [sp, #72]                   @ 4-byte Spill
	str	r7, [sp, #60]                   @ 4-byte Spill
	beq	.Lgcm_v6m_small_BB52_8
@ %bb.1:                                @ %then.1
	add	r6, sp, #76
	mov	r0, r6
	adds	r0, #32
	movs	r2, #224
	mov	r1, r5
	bl	memset
	ldr	r3, [sp, #72]                   @ 4-byte Reload
	str	r6, [sp, #68]                   @ 4-byte Spill
	str	r6, [sp, #8]
	movs	r0, #32
	subs	r1, r0, r4
	movs	r0, #1
	subs	r2, r7, r1
	mov	r2, r3
	sbcs	r2, r5
	blo	.Lgcm_v6m_small_BB52_3
@ %bb.2:                                @ %then.1
	mov	r7, r1
.Lgcm_v6m_small_BB52_3:                               @ %then.1
	blo	.Lgcm_v6m_small_BB52_5
@ %bb.4:                                @ %then.1
	mov	r0, r5
.Lgcm_v6m_small_BB52_5:                               @ %then.1
	cmp	r0, #0
	mov	r6, r3
	bne	.Lgcm_v6m_small_BB52_7
@ %bb.6:                                @ %then.1
	mov	r6, r0
.Lgcm_v6m_small_BB52_7:                               @ %then.1
	adds	r0, r4, r7
	mov	r1, r6
	adcs	r1, r5
	adds	r0, #15
	adcs	r1, r5
	lsrs	r2, r1, #4
	lsls	r1, r1, #28
	lsrs	r0, r0, #4
	adds	r0, r0, r1
	str	r0, [sp]
	str	r2, [sp, #4]
	ldr	r0, [sp, #56]                   @ 4-byte Reload
	lsrs	r0, r0, #4
	ldr	r3, [sp, #28]                   @ 4-byte Reload
	lsls	r1, r3, #28
	adds	r2, r0, r1
	lsrs	r3, r3, #4
	ldr	r0, [sp, #48]                   @ 4-byte Reload
	ldr	r1, [sp, #52]                   @ 4-byte Reload
	bl	gcm_v6m_small.aes_ctr.keystream.fill_by_backend.1
	str	r7, [sp, #8]
	str	r6, [sp, #12]
	ldr	r0, [sp, #24]                   @ 4-byte Reload
	str	r0, [sp]
	ldr	r0, [sp, #68]                   @ 4-byte Reload
	mov	r2, r4
	mov	r3, r5
	bl	gcm_v6m_small.aes_ctr.add_blocks.add_blocks
	ldr	r1, [sp, #72]                   @ 4-byte Reload
	b	.Lgcm_v6m_small_BB52_9
.Lgcm_v6m_small_BB52_8:
	mov	r7, r5
	mov	r6, r5
.Lgcm_v6m_small_BB52_9:                               @ %join.3
	ldr	r0, [sp, #60]                   @ 4-byte Reload
	subs	r0, r0, r7
	sbcs	r1, r6
	movs	r3, #0
	subs	r0, #32
	str	r3, [sp, #68]                   @ 4-byte Spill
	sbcs	r1, r3
	ldr	r3, [sp, #28]                   @ 4-byte Reload
	ldr	r5, [sp, #24]                   @ 4-byte Reload
	blo	.Lgcm_v6m_small_BB52_11
.Lgcm_v6m_small_BB52_10:                              @ %join.11
                                        @ =>This Inner Loop Header: Depth=1
	adds	r0, r5, r7
	str	r0, [sp]
	ldr	r0, [sp, #56]                   @ 4-byte Reload
	adds	r0, r7, r0
	mov	r1, r6
	adcs	r1, r3
	lsrs	r0, r0, #4
	lsls	r2, r1, #28
	adds	r2, r0, r2
	mov	r4, r3
	lsrs	r3, r1, #4
	ldr	r0, [sp, #48]                   @ 4-byte Reload
	ldr	r1, [sp, #52]                   @ 4-byte Reload
	bl	gcm_v6m_small.aes_ctr.add_in_batches.add_batch.1
	movs	r0, #0
	adds	r7, #32
	adcs	r6, r0
	ldr	r1, [sp, #60]                   @ 4-byte Reload
	subs	r1, r1, r7
	ldr	r2, [sp, #72]                   @ 4-byte Reload
	sbcs	r2, r6
	movs	r3, #31
	subs	r1, r3, r1
	mov	r3, r4
	sbcs	r0, r2
	blo	.Lgcm_v6m_small_BB52_10
.Lgcm_v6m_small_BB52_11:                              @ %loop.13.preheader
	ldr	r5, [sp, #60]                   @ 4-byte Reload
	subs	r0, r7, r5
	mov	r0, r6
	ldr	r4, [sp, #72]                   @ 4-byte Reload
	sbcs	r0, r4
	ldr	r1, [sp, #68]                   @ 4-byte Reload
	bhs	.Lgcm_v6m_small_BB52_20
@ %bb.12:                               @ %join.16.lr.ph
	add	r0, sp, #76
	adds	r0, #32
	str	r0, [sp, #16]                   @ 4-byte Spill
	b	.Lgcm_v6m_small_BB52_14
.Lgcm_v6m_small_BB52_13:                              @ %join.16
                                        @   in Loop: Header=BB52_14 Depth=1
	ldr	r6, [sp, #64]                   @ 4-byte Reload
	adds	r1, r5, r6
	mov	r2, r4
	adcs	r2, r3
	adds	r1, #15
	adcs	r2, r3
	lsrs	r3, r2, #4
	lsls	r2, r2, #28
	lsrs	r1, r1, #4
	adds	r1, r1, r2
	str	r1, [sp]
	str	r3, [sp, #4]
	ldr	r0, [sp, #36]                   @ 4-byte Reload
	lsrs	r1, r0, #4
	ldr	r0, [sp, #40]                   @ 4-byte Reload
	lsls	r2, r0, #28
	adds	r2, r1, r2
	lsrs	r3, r0, #4
	ldr	r0, [sp, #48]                   @ 4-byte Reload
	ldr	r1, [sp, #52]                   @ 4-byte Reload
	bl	gcm_v6m_small.aes_ctr.keystream.fill_by_backend.1
	mov	r2, r5
	mov	r5, r6
	str	r6, [sp, #8]
	str	r4, [sp, #12]
	ldr	r0, [sp, #24]                   @ 4-byte Reload
	adds	r0, r0, r7
	str	r0, [sp]
	ldr	r0, [sp, #44]                   @ 4-byte Reload
	ldr	r6, [sp, #68]                   @ 4-byte Reload
	mov	r3, r6
	bl	gcm_v6m_small.aes_ctr.add_blocks.add_blocks
	mov	r1, r6
	adds	r7, r5, r7
	ldr	r6, [sp, #32]                   @ 4-byte Reload
	adcs	r6, r4
	ldr	r5, [sp, #60]                   @ 4-byte Reload
	subs	r0, r7, r5
	mov	r0, r6
	ldr	r2, [sp, #72]                   @ 4-byte Reload
	sbcs	r0, r2
	ldr	r3, [sp, #28]                   @ 4-byte Reload
	bhs	.Lgcm_v6m_small_BB52_20
.Lgcm_v6m_small_BB52_14:                              @ %join.16
                                        @ =>This Inner Loop Header: Depth=1
	movs	r2, #224
	ldr	r0, [sp, #16]                   @ 4-byte Reload
	mov	r4, r3
	bl	memset
	add	r0, sp, #76
	str	r0, [sp, #44]                   @ 4-byte Spill
	str	r0, [sp, #8]
	ldr	r0, [sp, #56]                   @ 4-byte Reload
	adds	r1, r7, r0
	mov	r0, r6
	adcs	r0, r4
	str	r0, [sp, #40]                   @ 4-byte Spill
	subs	r0, r5, r7
	ldr	r4, [sp, #72]                   @ 4-byte Reload
	sbcs	r4, r6
	str	r1, [sp, #36]                   @ 4-byte Spill
	mov	r5, r1
	ldr	r1, [sp, #20]                   @ 4-byte Reload
	ands	r5, r1
	movs	r2, #32
	subs	r3, r2, r5
	movs	r2, #1
	str	r0, [sp, #64]                   @ 4-byte Spill
	subs	r1, r0, r3
	mov	r1, r4
	ldr	r0, [sp, #68]                   @ 4-byte Reload
	sbcs	r1, r0
	blo	.Lgcm_v6m_small_BB52_16
@ %bb.15:                               @ %join.16
                                        @   in Loop: Header=BB52_14 Depth=1
	str	r3, [sp, #64]                   @ 4-byte Spill
.Lgcm_v6m_small_BB52_16:                              @ %join.16
                                        @   in Loop: Header=BB52_14 Depth=1
	ldr	r3, [sp, #68]                   @ 4-byte Reload
	blo	.Lgcm_v6m_small_BB52_18
@ %bb.17:                               @ %join.16
                                        @   in Loop: Header=BB52_14 Depth=1
	mov	r2, r3
.Lgcm_v6m_small_BB52_18:                              @ %join.16
                                        @   in Loop: Header=BB52_14 Depth=1
	str	r6, [sp, #32]                   @ 4-byte Spill
	cmp	r2, #0
	bne	.Lgcm_v6m_small_BB52_13
@ %bb.19:                               @ %join.16
                                        @   in Loop: Header=BB52_14 Depth=1
	mov	r4, r2
	b	.Lgcm_v6m_small_BB52_13
.Lgcm_v6m_small_BB52_20:                              @ %after.12
	add	sp, #332
	pop	{r4, r5, r6, r7, pc}
.Lgcm_v6m_small_func_end52:
	.size	gcm_v6m_small.aes_ctr.add_in_batches.add_by_backend.1, .Lgcm_v6m_small_func_end52-gcm_v6m_small.aes_ctr.add_in_batches.add_by_backend.1
	.cantunwind
	.fnend
                                        @ -- End function
	.section	.text.gcm_v6m_small.aes_ctr.add_in_batches.add_batch.1,"ax",%progbits
	.p2align	1                               @ -- Begin function aes_ctr::add_in_batches::add_batch::<#8f445e75de4b0592>
	.type	gcm_v6m_small.aes_ctr.add_in_batches.add_batch.1,%function
	.code	16
	.thumb_func
gcm_v6m_small.aes_ctr.add_in_batches.add_batch.1: @ @gcm_v6m_small.aes_ctr.add_in_batches.add_batch.1
	.fnstart
@ %bb.0:                                @ %start
	.save	{r4, r5, r6, r7, lr}
	push	{r4, r5, r6, r7, lr}
	.pad	#300
	sub	sp, #300
	str	r2, [sp, #36]                   @ 4-byte Spill
	mov	r7, r1
	mov	r6, r0
	add	r4, sp, #44
	mov	r0, r4
	adds	r0, #32
	movs	r1, #0
	str	r1, [sp, #40]                   @ 4-byte Spill
	movs	r2, #224
	bl	memset
	ldrb	r0, [r7, #11]
	strb	r0, [r4, #27]
	ldrb	r1, [r7, #7]
	strb	r1, [r4, #23]
	ldrb	r2, [r7, #3]
	strb	r2, [r4, #19]
	strb	r0, [r4, #11]
	strb	r1, [r4, #7]
	strb	r2, [r4, #3]
	ldrb	r0, [r7, #10]
	lsls	r0, r0, #8
	lsrs	r0, r0, #8
	str	r0, [sp, #24]                   @ 4-byte Spill
	strb	r0, [r4, #26]
	ldrb	r0, [r7, #8]
	lsls	r0, r0, #24
	str	r0, [sp, #32]                   @ 4-byte Spill
	lsrs	r0, r0, #24
	str	r0, [sp, #16]                   @ 4-byte Spill
	strb	r0, [r4, #24]
	ldrb	r1, [r7, #6]
	lsls	r1, r1, #8
	lsrs	r5, r1, #8
	strb	r5, [r4, #22]
	ldrb	r1, [r7, #4]
	lsls	r0, r1, #24
	str	r0, [sp, #28]                   @ 4-byte Spill
	lsrs	r3, r0, #24
	strb	r3, [r4, #20]
	ldrb	r1, [r7, #2]
	lsls	r1, r1, #8
	lsrs	r2, r1, #8
	strb	r2, [r4, #18]
	ldrb	r1, [r7]
	lsls	r0, r1, #24
	str	r0, [sp, #20]                   @ 4-byte Spill
	lsrs	r0, r0, #24
	strb	r0, [r4, #16]
	ldr	r1, [sp, #24]                   @ 4-byte Reload
	strb	r1, [r4, #10]
	ldr	r1, [sp, #16]                   @ 4-byte Reload
	strb	r1, [r4, #8]
	strb	r5, [r4, #6]
	strb	r3, [r4, #4]
	strb	r2, [r4, #2]
	strb	r0, [r4]
	ldrb	r0, [r7, #9]
	lsls	r0, r0, #16
	ldr	r2, [sp, #32]                   @ 4-byte Reload
	adds	r0, r0, r2
	lsrs	r0, r0, #16
	strb	r0, [r4, #25]
	ldrb	r2, [r7, #5]
	lsls	r2, r2, #16
	ldr	r3, [sp, #28]                   @ 4-byte Reload
	adds	r2, r3, r2
	lsrs	r2, r2, #16
	strb	r2, [r4, #21]
	ldrb	r3, [r7, #1]
	lsls	r3, r3, #16
	ldr	r1, [sp, #20]                   @ 4-byte Reload
	adds	r1, r3, r1
	lsrs	r1, r1, #16
	strb	r1, [r4, #17]
	strb	r0, [r4, #9]
	strb	r2, [r4, #5]
	strb	r1, [r4, #1]
	ldrb	r0, [r7, #13]
	lsls	r0, r0, #16
	ldrb	r1, [r7, #12]
	lsls	r1, r1, #24
	adds	r0, r1, r0
	ldrb	r1, [r7, #14]
	lsls	r1, r1, #8
	adds	r0, r0, r1
	ldrb	r1, [r7, #15]
	adds	r0, r0, r1
	ldr	r1, [sp, #36]                   @ 4-byte Reload
	adds	r0, r0, r1
	strb	r0, [r4, #15]
	adds	r1, r0, #1
	strb	r1, [r4, #31]
	lsrs	r2, r0, #8
	strb	r2, [r4, #14]
	lsrs	r2, r0, #16
	strb	r2, [r4, #13]
	lsrs	r0, r0, #24
	strb	r0, [r4, #12]
	lsrs	r0, r1, #8
	strb	r0, [r4, #30]
	lsrs	r0, r1, #16
	strb	r0, [r4, #29]
	lsrs	r0, r1, #24
	strb	r0, [r4, #28]
	ldrb	r0, [r6, #15]
	str	r0, [sp, #36]                   @ 4-byte Spill
	ldrb	r0, [r6, #14]
	str	r0, [sp, #32]                   @ 4-byte Spill
	ldrb	r0, [r6, #12]
	str	r0, [sp, #28]                   @ 4-byte Spill
	ldrb	r0, [r6, #13]
	str	r0, [sp, #24]                   @ 4-byte Spill
	ldrb	r0, [r6, #11]
	str	r0, [sp, #20]                   @ 4-byte Spill
	ldrb	r0, [r6, #10]
	str	r0, [sp, #16]                   @ 4-byte Spill
	ldrb	r5, [r6, #8]
	ldrb	r3, [r6, #9]
	ldrb	r2, [r6, #3]
	ldrb	r1, [r6, #2]
	ldrb	r0, [r6]
	ldrb	r6, [r6, #1]
	movs	r7, #2
	str	r7, [sp, #8]
	ldr	r7, [sp, #40]                   @ 4-byte Reload
	str	r7, [sp, #12]
	str	r4, [sp]
	lsls	r6, r6, #8
	adds	r0, r6, r0
	lsls	r1, r1, #16
	lsls	r2, r2, #24
	adds	r1, r2, r1
	adds	r0, r1, r0
	lsls	r1, r3, #8
	adds	r1, r1, r5
	ldr	r2, [sp, #16]                   @ 4-byte Reload
	lsls	r2, r2, #16
	ldr	r3, [sp, #20]                   @ 4-byte Reload
	lsls	r3, r3, #24
	adds	r2, r3, r2
	adds	r2, r2, r1
	ldr	r1, [sp, #24]                   @ 4-byte Reload
	lsls	r1, r1, #8
	ldr	r3, [sp, #28]                   @ 4-byte Reload
	adds	r1, r1, r3
	ldr	r3, [sp, #32]                   @ 4-byte Reload
	lsls	r3, r3, #16
	ldr	r5, [sp, #36]                   @ 4-byte Reload
	lsls	r5, r5, #24
	adds	r3, r5, r3
	adds	r3, r3, r1
	bl	gcm_v6m_small.aes_soft.soft.blocks.filled_up.process_filled_up
	movs	r0, #32
	str	r0, [sp, #8]
	mov	r2, r7
	str	r7, [sp, #12]
	ldr	r0, [sp, #320]
	str	r0, [sp]
	mov	r0, r4
	mov	r3, r7
	bl	gcm_v6m_small.aes_ctr.add_blocks.add_blocks
	add	sp, #300
	pop	{r4, r5, r6, r7, pc}
.Lgcm_v6m_small_func_end53:
	.size	gcm_v6m_small.aes_ctr.add_in_batches.add_batch.1, .Lgcm_v6m_small_func_end53-gcm_v6m_small.aes_ctr.add_in_batches.add_batch.1
	.cantunwind
	.fnend
                                        @ -- End function
	.section	.text.gcm_v6m_small.aes_ctr.keystream.fill_by_backend.1,"ax",%progbits
	.p2align	1                               @ -- Begin function aes_ctr::keystream::fill_by_backend::<#8f445e75de4b0592>
	.type	gcm_v6m_small.aes_ctr.keystream.fill_by_backend.1,%function
	.code	16
	.thumb_func
gcm_v6m_small.aes_ctr.keystream.fill_by_backend.1: @ @gcm_v6m_small.aes_ctr.keystream.fill_by_backend.1
	.fnstart
@ %bb.0:                                @ %start
	.save	{r4, r5, r6, r7, lr}
	push	{r4, r5, r6, r7, lr}
	.pad	#68
	sub	sp, #68
	str	r2, [sp, #64]                   @ 4-byte Spill
	mov	r2, r0
	ldrb	r0, [r1, #15]
	str	r0, [sp, #60]                   @ 4-byte Spill
	ldrb	r0, [r1, #14]
	str	r0, [sp, #56]                   @ 4-byte Spill
	ldrb	r0, [r1, #12]
	str	r0, [sp, #52]                   @ 4-byte Spill
	ldrb	r0, [r1, #13]
	str	r0, [sp, #48]                   @ 4-byte Spill
	ldrb	r0, [r1, #1]
	str	r0, [sp, #44]                   @ 4-byte Spill
	ldrb	r0, [r1, #5]
	str	r0, [sp, #40]                   @ 4-byte Spill
	ldrb	r0, [r1, #9]
	str	r0, [sp, #36]                   @ 4-byte Spill
	ldrb	r0, [r1]
	str	r0, [sp, #32]                   @ 4-byte Spill
	ldrb	r0, [r1, #2]
	str	r0, [sp, #28]                   @ 4-byte Spill
	ldrb	r0, [r1, #4]
	str	r0, [sp, #24]                   @ 4-byte Spill
	ldrb	r7, [r1, #6]
	ldrb	r6, [r1, #8]
	ldrb	r5, [r1, #10]
	ldrb	r4, [r1, #3]
	ldrb	r3, [r1, #7]
	ldrb	r0, [r1, #11]
	ldr	r1, [sp, #96]
	strb	r0, [r1, #27]
	strb	r3, [r1, #23]
	strb	r4, [r1, #19]
	strb	r0, [r1, #11]
	strb	r3, [r1, #7]
	strb	r4, [r1, #3]
	lsls	r0, r5, #8
	lsrs	r0, r0, #8
	str	r0, [sp, #16]                   @ 4-byte Spill
	strb	r0, [r1, #26]
	lsls	r0, r6, #24
	str	r0, [sp, #20]                   @ 4-byte Spill
	lsrs	r6, r0, #24
	strb	r6, [r1, #24]
	lsls	r3, r7, #8
	lsrs	r7, r3, #8
	strb	r7, [r1, #22]
	ldr	r0, [sp, #24]                   @ 4-byte Reload
	lsls	r0, r0, #24
	str	r0, [sp, #24]                   @ 4-byte Spill
	lsrs	r5, r0, #24
	strb	r5, [r1, #20]
	ldr	r0, [sp, #28]                   @ 4-byte Reload
	lsls	r3, r0, #8
	lsrs	r4, r3, #8
	strb	r4, [r1, #18]
	ldr	r0, [sp, #32]                   @ 4-byte Reload
	lsls	r0, r0, #24
	str	r0, [sp, #32]                   @ 4-byte Spill
	lsrs	r3, r0, #24
	strb	r3, [r1, #16]
	ldr	r0, [sp, #16]                   @ 4-byte Reload
	strb	r0, [r1, #10]
	strb	r6, [r1, #8]
	strb	r7, [r1, #6]
	strb	r5, [r1, #4]
	strb	r4, [r1, #2]
	strb	r3, [r1]
	ldr	r0, [sp, #36]                   @ 4-byte Reload
	lsls	r0, r0, #16
	ldr	r3, [sp, #20]                   @ 4-byte Reload
	adds	r0, r0, r3
	lsrs	r0, r0, #16
	strb	r0, [r1, #25]
	ldr	r3, [sp, #40]                   @ 4-byte Reload
	lsls	r3, r3, #16
	ldr	r4, [sp, #24]                   @ 4-byte Reload
	adds	r3, r4, r3
	lsrs	r3, r3, #16
	strb	r3, [r1, #21]
	ldr	r4, [sp, #44]                   @ 4-byte Reload
	lsls	r4, r4, #16
	ldr	r5, [sp, #32]                   @ 4-byte Reload
	adds	r4, r4, r5
	lsrs	r4, r4, #16
	strb	r4, [r1, #17]
	strb	r0, [r1, #9]
	strb	r3, [r1, #5]
	strb	r4, [r1, #1]
	ldr	r0, [sp, #48]                   @ 4-byte Reload
	lsls	r0, r0, #16
	ldr	r3, [sp, #52]                   @ 4-byte Reload
	lsls	r3, r3, #24
	adds	r0, r3, r0
	ldr	r3, [sp, #56]                   @ 4-byte Reload
	lsls	r3, r3, #8
	adds	r0, r0, r3
	ldr	r3, [sp, #60]                   @ 4-byte Reload
	adds	r0, r0, r3
	ldr	r3, [sp, #64]                   @ 4-byte Reload
	adds	r0, r0, r3
	strb	r0, [r1, #15]
	adds	r3, r0, #1
	strb	r3, [r1, #31]
	lsrs	r4, r0, #8
	strb	r4, [r1, #14]
	lsrs	r4, r0, #16
	strb	r4, [r1, #13]
	lsrs	r0, r0, #24
	strb	r0, [r1, #12]
	lsrs	r0, r3, #8
	strb	r0, [r1, #30]
	lsrs	r0, r3, #16
	strb	r0, [r1, #29]
	lsrs	r0, r3, #24
	strb	r0, [r1, #28]
	ldrb	r0, [r2, #12]
	ldrb	r3, [r2, #13]
	lsls	r3, r3, #8
	adds	r0, r3, r0
	ldrb	r3, [r2, #14]
	lsls	r3, r3, #16
	ldrb	r4, [r2, #15]
	lsls	r4, r4, #24
	adds	r3, r4, r3
	adds	r3, r3, r0
	ldrb	r0, [r2, #8]
	ldrb	r4, [r2, #9]
	lsls	r4, r4, #8
	adds	r0, r4, r0
	ldrb	r4, [r2, #10]
	lsls	r4, r4, #16
	ldrb	r5, [r2, #11]
	lsls	r5, r5, #24
	adds	r4, r5, r4
	adds	r5, r4, r0
	ldrb	r0, [r2]
	ldrb	r4, [r2, #1]
	lsls	r4, r4, #8
	adds	r0, r4, r0
	ldrb	r4, [r2, #2]
	lsls	r4, r4, #16
	ldrb	r2, [r2, #3]
	lsls	r2, r2, #24
	adds	r2, r2, r4
	adds	r0, r2, r0
	movs	r4, #1
	ldr	r2, [sp, #88]
	eors	r2, r4
	ldr	r6, [sp, #92]
	orrs	r6, r2
	bne	.Lgcm_v6m_small_BB54_2
@ %bb.1:                                @ %then.1.i.i
	movs	r2, #0
	b	.Lgcm_v6m_small_BB54_3
.Lgcm_v6m_small_BB54_2:                               @ %else.2.i.i
	movs	r2, #0
	movs	r4, #2
.Lgcm_v6m_small_BB54_3:                               @ %"aes_narrow::borrowed_words::BorrowedWordsBlockCipherEncBackend::encrypt_first_blocks::<#5b4689a38c32c9c5>.exit"
	str	r4, [sp, #8]
	str	r2, [sp, #12]
	str	r1, [sp]
	mov	r2, r5
	bl	gcm_v6m_small.aes_soft.soft.blocks.filled_up.process_filled_up
	add	sp, #68
	pop	{r4, r5, r6, r7, pc}
.Lgcm_v6m_small_func_end54:
	.size	gcm_v6m_small.aes_ctr.keystream.fill_by_backend.1, .Lgcm_v6m_small_func_end54-gcm_v6m_small.aes_ctr.keystream.fill_by_backend.1
	.cantunwind
	.fnend
                                        @ -- End function
	.section	.text.gcm_v6m_small.aes_cipher.zeroize.stack.wipe_stack.2032,"ax",%progbits
	.p2align	2                               @ -- Begin function aes_cipher::zeroize::stack::wipe_stack::<=2032>
	.type	gcm_v6m_small.aes_cipher.zeroize.stack.wipe_stack.2032,%function
	.code	16
	.thumb_func
gcm_v6m_small.aes_cipher.zeroize.stack.wipe_stack.2032: @ @gcm_v6m_small.aes_cipher.zeroize.stack.wipe_stack.2032
	.fnstart
@ %bb.0:                                @ %start
	.save	{r4, r5, r6, lr}
	push	{r4, r5, r6, lr}
	ldr	r6, .Lgcm_v6m_small_CPI55_0
	.pad	#2040
	add	sp, r6
	movs	r0, #127
	lsls	r2, r0, #4
	add	r0, sp, #8
	movs	r4, #0
	mov	r1, r4
	bl	memset
	str	r4, [sp, #4]
	str	r4, [sp]
	@APP
	@NO_APP
	ldr	r1, [sp, #4]
	lsls	r2, r1, #28
	ldr	r0, [sp]
	lsrs	r3, r0, #4
	adds	r2, r3, r2
	@APP
	@NO_APP
	lsrs	r1, r1, #4
	subs	r2, #127
	sbcs	r1, r4
	bhs	.Lgcm_v6m_small_BB55_2
@ %bb.1:                                @ %then.1
	add	r1, sp, #8
	ldrb	r0, [r1, r0]
	@APP
	@NO_APP
	ldr	r1, [sp, #4]
	ldr	r1, [sp]
	str	r4, [sp, #4]
	str	r0, [sp]
	@APP
	@NO_APP
.Lgcm_v6m_small_BB55_2:                               @ %common.ret
	ldr	r6, .Lgcm_v6m_small_CPI55_1
	add	sp, r6
	pop	{r4, r5, r6, pc}
	.p2align	2
@ %bb.3:
.Lgcm_v6m_small_CPI55_0:
	.long	4294965256                      @ 0xfffff808
.Lgcm_v6m_small_CPI55_1:
	.long	2040                            @ 0x7f8
.Lgcm_v6m_small_func_end55:
	.size	gcm_v6m_small.aes_cipher.zeroize.stack.wipe_stack.2032, .Lgcm_v6m_small_func_end55-gcm_v6m_small.aes_cipher.zeroize.stack.wipe_stack.2032
	.cantunwind
	.fnend
                                        @ -- End function
	.section	.text.gcm_v6m_small.aes_cipher.zeroize.stack.wipe_stack.1536,"ax",%progbits
	.p2align	2                               @ -- Begin function aes_cipher::zeroize::stack::wipe_stack::<=1536>
	.type	gcm_v6m_small.aes_cipher.zeroize.stack.wipe_stack.1536,%function
	.code	16
	.thumb_func
gcm_v6m_small.aes_cipher.zeroize.stack.wipe_stack.1536: @ @gcm_v6m_small.aes_cipher.zeroize.stack.wipe_stack.1536
	.fnstart
@ %bb.0:                                @ %start
	.save	{r4, r5, r6, lr}
	push	{r4, r5, r6, lr}
	ldr	r6, .Lgcm_v6m_small_CPI56_0
	.pad	#1544
	add	sp, r6
	movs	r0, #3
	lsls	r2, r0, #9
	add	r0, sp, #8
	movs	r4, #0
	mov	r1, r4
	bl	memset
	str	r4, [sp, #4]
	str	r4, [sp]
	@APP
	@NO_APP
	ldr	r1, [sp, #4]
	lsls	r2, r1, #23
	ldr	r0, [sp]
	lsrs	r3, r0, #9
	adds	r2, r3, r2
	@APP
	@NO_APP
	lsrs	r1, r1, #9
	subs	r2, r2, #3
	sbcs	r1, r4
	bhs	.Lgcm_v6m_small_BB56_2
@ %bb.1:                                @ %then.1
	add	r1, sp, #8
	ldrb	r0, [r1, r0]
	@APP
	@NO_APP
	ldr	r1, [sp, #4]
	ldr	r1, [sp]
	str	r4, [sp, #4]
	str	r0, [sp]
	@APP
	@NO_APP
.Lgcm_v6m_small_BB56_2:                               @ %common.ret
	ldr	r6, .Lgcm_v6m_small_CPI56_1
	add	sp, r6
	pop	{r4, r5, r6, pc}
	.p2align	2
@ %bb.3:
.Lgcm_v6m_small_CPI56_0:
	.long	4294965752                      @ 0xfffff9f8
.Lgcm_v6m_small_CPI56_1:
	.long	1544                            @ 0x608
.Lgcm_v6m_small_func_end56:
	.size	gcm_v6m_small.aes_cipher.zeroize.stack.wipe_stack.1536, .Lgcm_v6m_small_func_end56-gcm_v6m_small.aes_cipher.zeroize.stack.wipe_stack.1536
	.cantunwind
	.fnend
                                        @ -- End function
	.section	.text.gcm_v6m_small.gcm_c.whole.fotsgure_gcm_seal,"ax",%progbits
	.p2align	2                               @ -- Begin function gcm_c::whole::fotsgure_gcm_seal
	.type	gcm_v6m_small.gcm_c.whole.fotsgure_gcm_seal,%function
	.code	16
	.thumb_func
gcm_v6m_small.gcm_c.whole.fotsgure_gcm_seal:      @ @gcm_v6m_small.gcm_c.whole.fotsgure_gcm_seal
	.fnstart
@ %bb.0:                                @ %start
	.save	{r4, r5, r6, r7, lr}
	push	{r4, r5, r6, r7, lr}
	.pad	#124
	sub	sp, #124
	mov	r4, r2
	orrs	r4, r3
	beq	.Lgcm_v6m_small_BB57_4
@ %bb.1:                                @ %after.11.i
	ldr	r5, [r0]
	mov	r6, r5
	subs	r6, #16
	movs	r4, #2
	cmp	r6, #16
	bhi	.Lgcm_v6m_small_BB57_5
@ %bb.2:                                @ %after.11.i
	movs	r7, #1
	lsls	r7, r6
	ldr	r6, .Lgcm_v6m_small_CPI57_0
	tst	r7, r6
	beq	.Lgcm_v6m_small_BB57_5
@ %bb.3:                                @ %join.3
	ldr	r4, [sp, #172]
	str	r4, [sp, #36]                   @ 4-byte Spill
	ldr	r4, [sp, #168]
	str	r4, [sp, #60]                   @ 4-byte Spill
	ldr	r4, [sp, #156]
	str	r4, [sp, #48]                   @ 4-byte Spill
	ldr	r4, [sp, #152]
	str	r4, [sp, #40]                   @ 4-byte Spill
	ldr	r4, [sp, #176]
	str	r4, [sp, #52]                   @ 4-byte Spill
	ldr	r4, [sp, #160]
	str	r4, [sp, #56]                   @ 4-byte Spill
	ldr	r4, [sp, #144]
	str	r4, [sp, #44]                   @ 4-byte Spill
	movs	r4, #0
	str	r4, [sp, #100]
	str	r4, [sp, #84]
	adds	r6, r0, #4
	str	r6, [sp, #80]
	movs	r6, #121
	lsls	r6, r6, #2
	adds	r0, r0, r6
	lsrs	r6, r5, #31
	lsls	r5, r5, #1
	adds	r5, #56
	str	r5, [sp, #88]
	str	r0, [sp, #96]
	adcs	r6, r4
	str	r6, [sp, #92]
	add	r7, sp, #108
	str	r7, [sp]
	add	r5, sp, #80
	mov	r0, r5
	bl	gcm_v6m_small.gcm.mode.BorrowedGcm.put_pre_counter
	ldr	r0, [sp, #60]                   @ 4-byte Reload
	str	r0, [sp, #8]
	ldr	r6, [sp, #36]                   @ 4-byte Reload
	str	r6, [sp, #12]
	ldr	r0, [sp, #56]                   @ 4-byte Reload
	str	r0, [sp]
	movs	r2, #16
	str	r2, [sp, #32]                   @ 4-byte Spill
	mov	r0, r5
	mov	r1, r7
	mov	r3, r4
	bl	gcm_v6m_small.gcm.gctr.add_gctr
	add	r1, sp, #64
	ldr	r0, [sp, #60]                   @ 4-byte Reload
	str	r0, [sp, #16]
	str	r6, [sp, #20]
	str	r1, [sp, #24]
	mov	r6, r1
	ldr	r0, [sp, #40]                   @ 4-byte Reload
	str	r0, [sp]
	ldr	r0, [sp, #48]                   @ 4-byte Reload
	str	r0, [sp, #4]
	ldr	r0, [sp, #56]                   @ 4-byte Reload
	str	r0, [sp, #8]
	mov	r0, r5
	mov	r1, r7
	ldr	r2, [sp, #44]                   @ 4-byte Reload
	bl	gcm_v6m_small.gcm.mode.BorrowedGcm.put_tag
	mov	r0, r7
	bl	gcm_v6m_small.aes_cipher.zeroize.elements.zeroize_elements.2
	bl	gcm_v6m_small.aes_cipher.zeroize.stack.wipe_stack.1536
	ldr	r0, [sp, #52]                   @ 4-byte Reload
	mov	r1, r6
	ldr	r2, [sp, #32]                   @ 4-byte Reload
	bl	memcpy
	b	.Lgcm_v6m_small_BB57_5
.Lgcm_v6m_small_BB57_4:
	movs	r4, #3
.Lgcm_v6m_small_BB57_5:                               @ %common.ret
	mov	r0, r4
	add	sp, #124
	pop	{r4, r5, r6, r7, pc}
	.p2align	2
@ %bb.6:
.Lgcm_v6m_small_CPI57_0:
	.long	65793                           @ 0x10101
.Lgcm_v6m_small_func_end57:
	.size	gcm_v6m_small.gcm_c.whole.fotsgure_gcm_seal, .Lgcm_v6m_small_func_end57-gcm_v6m_small.gcm_c.whole.fotsgure_gcm_seal
	.cantunwind
	.fnend
                                        @ -- End function
	.section	.text.gcm_v6m_small.gcm_c.whole_to.copy,"ax",%progbits
	.p2align	1                               @ -- Begin function gcm_c::whole_to::copy
	.type	gcm_v6m_small.gcm_c.whole_to.copy,%function
	.code	16
	.thumb_func
gcm_v6m_small.gcm_c.whole_to.copy:                @ @gcm_v6m_small.gcm_c.whole_to.copy
	.fnstart
@ %bb.0:                                @ %start
	.save	{r4, r5, r6, r7, lr}
	push	{r4, r5, r6, r7, lr}
	.pad	#12
	sub	sp, #12
	mov	r1, r0
	movs	r4, #0
	ldr	r0, [sp, #32]
	subs	r5, r0, r1
	mov	r6, r4
	sbcs	r6, r4
	subs	r5, r5, r2
	sbcs	r6, r3
	bhs	.Lgcm_v6m_small_BB58_9
@ %bb.1:                                @ %join.7.i.i.i.i.i.i.preheader
	movs	r6, #3
	mov	r5, r2
	str	r6, [sp, #8]                    @ 4-byte Spill
	ands	r5, r6
	subs	r7, r2, #4
	sbcs	r3, r4
	blo	.Lgcm_v6m_small_BB58_5
@ %bb.2:                                @ %join.7.i.i.i.i.i.i.preheader.new
	str	r5, [sp, #4]                    @ 4-byte Spill
	ldr	r3, [sp, #8]                    @ 4-byte Reload
	bics	r2, r3
	movs	r3, #0
	mov	r4, r3
	mov	r7, r3
.Lgcm_v6m_small_BB58_3:                               @ %join.7.i.i.i.i.i.i
                                        @ =>This Inner Loop Header: Depth=1
	ldrb	r5, [r1, r4]
	strb	r5, [r0, r4]
	movs	r5, #1
	orrs	r5, r4
	ldrb	r6, [r1, r5]
	strb	r6, [r0, r5]
	movs	r5, #2
	orrs	r5, r4
	ldrb	r6, [r1, r5]
	strb	r6, [r0, r5]
	mov	r5, r4
	ldr	r6, [sp, #8]                    @ 4-byte Reload
	orrs	r5, r6
	ldrb	r6, [r1, r5]
	strb	r6, [r0, r5]
	adds	r4, r4, #4
	adcs	r7, r3
	mov	r5, r4
	eors	r5, r2
	orrs	r5, r7
	bne	.Lgcm_v6m_small_BB58_3
@ %bb.4:                                @ %"core::slice::edits::slice+T::copy_from_slice::<i8,20'core::clone::U8Clone{}>.exit.loopexit.unr-lcssa"
	ldr	r5, [sp, #4]                    @ 4-byte Reload
	cmp	r5, #0
	beq	.Lgcm_v6m_small_BB58_8
.Lgcm_v6m_small_BB58_5:                               @ %join.7.i.i.i.i.i.i.epil.preheader
	ldrb	r2, [r1, r4]
	strb	r2, [r0, r4]
	cmp	r5, #1
	beq	.Lgcm_v6m_small_BB58_8
@ %bb.6:                                @ %join.7.i.i.i.i.i.i.epil.1
	adds	r2, r4, #1
	ldrb	r3, [r1, r2]
	strb	r3, [r0, r2]
	cmp	r5, #2
	beq	.Lgcm_v6m_small_BB58_8
@ %bb.7:                                @ %join.7.i.i.i.i.i.i.epil.2
	adds	r2, r4, #2
	ldrb	r1, [r1, r2]
	strb	r1, [r0, r2]
.Lgcm_v6m_small_BB58_8:                               @ %"core::slice::edits::slice+T::copy_from_slice::<i8,20'core::clone::U8Clone{}>.exit"
	add	sp, #12
	pop	{r4, r5, r6, r7, pc}
.Lgcm_v6m_small_BB58_9:                               @ %apart.2.i.i.i.i.i.i
	bl	memmove
	add	sp, #12
	pop	{r4, r5, r6, r7, pc}
.Lgcm_v6m_small_func_end58:
	.size	gcm_v6m_small.gcm_c.whole_to.copy, .Lgcm_v6m_small_func_end58-gcm_v6m_small.gcm_c.whole_to.copy
	.cantunwind
	.fnend
                                        @ -- End function
	.section	.text.gcm_v6m_small.gcm_siv.course.open_in,"ax",%progbits
	.p2align	1                               @ -- Begin function gcm_siv::course::open_in::<#a4ece9b7a9859b66>
	.type	gcm_v6m_small.gcm_siv.course.open_in,%function
	.code	16
	.thumb_func
gcm_v6m_small.gcm_siv.course.open_in: @ @gcm_v6m_small.gcm_siv.course.open_in
	.fnstart
@ %bb.0:                                @ %start
	.save	{r4, r5, r6, r7, lr}
	push	{r4, r5, r6, r7, lr}
	.pad	#508
	sub	sp, #508
	.pad	#40
	sub	sp, #40
	add	r1, sp, #32
	stm	r1!, {r0, r2, r3}               @ 12-byte Folded Spill
	add	r7, sp, #48
	adds	r0, r7, #4
	str	r0, [sp, #44]                   @ 4-byte Spill
	movs	r1, #15
	lsls	r2, r1, #5
	movs	r5, #0
	mov	r1, r5
	bl	memset
	str	r5, [sp, #48]
	add	r6, sp, #532
	str	r6, [sp, #8]
	str	r7, [sp, #4]
	ldr	r4, [sp, #568]
	str	r4, [sp]
	add	r3, sp, #32
	ldm	r3, {r0, r2, r3}                @ 12-byte Folded Reload
	bl	gcm_v6m_small.gcm_siv.keys.derive_and_prepare
	ldr	r0, [sp, #600]
	str	r0, [sp, #24]
	ldr	r0, [sp, #596]
	str	r0, [sp, #20]
	ldr	r0, [sp, #592]
	str	r0, [sp, #16]
	ldr	r0, [sp, #584]
	str	r0, [sp, #8]
	ldr	r0, [sp, #580]
	str	r0, [sp, #4]
	ldr	r0, [sp, #576]
	str	r0, [sp]
	ldr	r3, [sp, #572]
	mov	r0, r7
	mov	r1, r6
	mov	r2, r4
	bl	gcm_v6m_small.gcm_siv.message.open
	mov	r4, r0
	str	r5, [sp, #48]
	ldr	r0, [sp, #44]                   @ 4-byte Reload
	bl	gcm_v6m_small.aes_cipher.zeroize.elements.zeroize_elements.1
	mov	r0, r6
	bl	gcm_v6m_small.aes_cipher.zeroize.elements.zeroize_elements.2
	bl	gcm_v6m_small.aes_cipher.zeroize.stack.wipe_stack.2816
	mov	r0, r4
	add	sp, #508
	add	sp, #40
	pop	{r4, r5, r6, r7, pc}
.Lgcm_v6m_small_func_end59:
	.size	gcm_v6m_small.gcm_siv.course.open_in, .Lgcm_v6m_small_func_end59-gcm_v6m_small.gcm_siv.course.open_in
	.cantunwind
	.fnend
                                        @ -- End function
	.section	.text.gcm_v6m_small.gcm_siv.keys.derive_and_prepare,"ax",%progbits
	.p2align	1                               @ -- Begin function gcm_siv::keys::derive_and_prepare::<#a4ece9b7a9859b66>
	.type	gcm_v6m_small.gcm_siv.keys.derive_and_prepare,%function
	.code	16
	.thumb_func
gcm_v6m_small.gcm_siv.keys.derive_and_prepare: @ @gcm_v6m_small.gcm_siv.keys.derive_and_prepare
	.fnstart
@ %bb.0:                                @ %start
	.save	{r4, r5, r6, r7, lr}
	push	{r4, r5, r6, r7, lr}
	.pad	#164
	sub	sp, #164
	str	r3, [sp, #60]                   @ 4-byte Spill
	str	r2, [sp, #64]                   @ 4-byte Spill
	mov	r6, r0
	add	r4, sp, #68
	adds	r0, r4, #4
	ldr	r7, [sp, #184]
	movs	r5, #12
	mov	r1, r7
	mov	r2, r5
	bl	memcpy
	mov	r0, r4
	adds	r0, #20
	mov	r1, r7
	mov	r2, r5
	bl	memcpy
	mov	r0, r4
	adds	r0, #36
	mov	r1, r7
	mov	r2, r5
	bl	memcpy
	mov	r0, r4
	adds	r0, #52
	mov	r1, r7
	mov	r2, r5
	bl	memcpy
	mov	r0, r4
	adds	r0, #68
	mov	r1, r7
	mov	r2, r5
	bl	memcpy
	mov	r0, r4
	adds	r0, #84
	mov	r1, r7
	mov	r2, r5
	bl	memcpy
	movs	r0, #5
	str	r0, [sp, #148]
	movs	r0, #4
	str	r0, [sp, #132]
	movs	r0, #3
	str	r0, [sp, #116]
	movs	r0, #2
	str	r0, [sp, #100]
	movs	r3, #0
	str	r3, [sp, #56]                   @ 4-byte Spill
	str	r3, [sp, #68]
	ldr	r2, [sp, #60]                   @ 4-byte Reload
	lsls	r0, r2, #29
	ldr	r1, [sp, #64]                   @ 4-byte Reload
	lsrs	r1, r1, #3
	adds	r1, r1, r0
	lsrs	r0, r2, #3
	adds	r1, r1, #2
	str	r1, [sp, #24]                   @ 4-byte Spill
	adcs	r0, r3
	movs	r1, #1
	str	r1, [sp, #52]                   @ 4-byte Spill
	str	r1, [sp, #84]
	ldrb	r1, [r6, #15]
	str	r1, [sp, #48]                   @ 4-byte Spill
	ldrb	r1, [r6, #14]
	str	r1, [sp, #44]                   @ 4-byte Spill
	ldrb	r1, [r6, #12]
	str	r1, [sp, #40]                   @ 4-byte Spill
	ldrb	r1, [r6, #13]
	str	r1, [sp, #36]                   @ 4-byte Spill
	ldrb	r1, [r6, #11]
	str	r1, [sp, #32]                   @ 4-byte Spill
	ldrb	r1, [r6, #10]
	str	r1, [sp, #28]                   @ 4-byte Spill
	ldrb	r1, [r6, #8]
	str	r1, [sp, #20]                   @ 4-byte Spill
	ldrb	r5, [r6, #9]
	ldrb	r3, [r6, #3]
	ldrb	r2, [r6, #2]
	ldrb	r1, [r6]
	ldrb	r6, [r6, #1]
	ldr	r7, [sp, #24]                   @ 4-byte Reload
	str	r7, [sp, #8]
	str	r0, [sp, #12]
	str	r4, [sp]
	lsls	r0, r6, #8
	adds	r0, r0, r1
	lsls	r1, r2, #16
	lsls	r2, r3, #24
	adds	r1, r2, r1
	adds	r0, r1, r0
	lsls	r1, r5, #8
	ldr	r2, [sp, #20]                   @ 4-byte Reload
	adds	r1, r1, r2
	ldr	r2, [sp, #28]                   @ 4-byte Reload
	lsls	r2, r2, #16
	ldr	r3, [sp, #32]                   @ 4-byte Reload
	lsls	r3, r3, #24
	adds	r2, r3, r2
	adds	r2, r2, r1
	ldr	r1, [sp, #36]                   @ 4-byte Reload
	lsls	r1, r1, #8
	ldr	r3, [sp, #40]                   @ 4-byte Reload
	adds	r1, r1, r3
	ldr	r3, [sp, #44]                   @ 4-byte Reload
	lsls	r3, r3, #16
	ldr	r5, [sp, #48]                   @ 4-byte Reload
	lsls	r5, r5, #24
	adds	r3, r5, r3
	adds	r3, r3, r1
	bl	gcm_v6m_small.aes_narrow.blocks.process_all_batches
	bl	gcm_v6m_small.aes_cipher.zeroize.stack.wipe_stack.1024
	ldr	r0, [sp, #88]
	lsrs	r2, r0, #17
	ldr	r1, [sp, #192]
	strb	r2, [r1, #1]
	lsrs	r2, r0, #9
	strb	r2, [r1, #2]
	lsrs	r2, r0, #1
	str	r2, [sp, #48]                   @ 4-byte Spill
	strb	r2, [r1, #3]
	ldr	r2, [sp, #84]
	lsrs	r5, r2, #17
	strb	r5, [r1, #5]
	lsrs	r5, r2, #9
	strb	r5, [r1, #6]
	lsrs	r5, r2, #1
	strb	r5, [r1, #7]
	ldr	r6, [sp, #68]
	lsrs	r7, r6, #17
	strb	r7, [r1, #13]
	lsrs	r7, r6, #9
	strb	r7, [r1, #14]
	lsrs	r7, r6, #1
	strb	r7, [r1, #15]
	lsls	r3, r0, #31
	adds	r3, r5, r3
	lsrs	r3, r3, #24
	strb	r3, [r1, #4]
	ldrb	r3, [r4, #4]
	lsls	r5, r3, #31
	adds	r5, r7, r5
	lsrs	r5, r5, #24
	strb	r5, [r1, #12]
	ldrb	r5, [r4, #5]
	lsls	r5, r5, #8
	adds	r3, r3, r5
	ldrb	r5, [r4, #6]
	lsls	r5, r5, #16
	adds	r3, r3, r5
	lsrs	r5, r3, #9
	strb	r5, [r1, #10]
	ldr	r5, [sp, #52]                   @ 4-byte Reload
	ands	r6, r5
	rsbs	r5, r6, #0
	movs	r6, #225
	lsls	r6, r6, #24
	ands	r6, r5
	ldr	r5, [sp, #48]                   @ 4-byte Reload
	eors	r6, r5
	lsrs	r5, r6, #24
	strb	r5, [r1]
	ldrb	r5, [r4, #7]
	lsls	r5, r5, #24
	adds	r3, r3, r5
	lsrs	r5, r3, #17
	strb	r5, [r1, #9]
	lsrs	r3, r3, #1
	strb	r3, [r1, #11]
	lsls	r5, r2, #31
	adds	r3, r3, r5
	lsrs	r3, r3, #24
	strb	r3, [r1, #8]
	str	r0, [sp, #80]
	str	r2, [sp, #76]
	ldr	r0, [sp, #100]
	ldr	r1, [sp, #132]
	str	r1, [sp, #100]
	ldr	r1, [sp, #104]
	ldr	r2, [sp, #136]
	str	r2, [sp, #104]
	ldr	r2, [sp, #120]
	str	r2, [sp, #96]
	ldr	r2, [sp, #116]
	add	r3, sp, #84
	stm	r3!, {r0, r1, r2}
	ldr	r0, [sp, #152]
	str	r0, [sp, #112]
	ldr	r0, [sp, #148]
	str	r0, [sp, #108]
	ldr	r7, [sp, #188]
	adds	r6, r7, #4
	movs	r0, #15
	lsls	r2, r0, #5
	mov	r0, r6
	ldr	r1, [sp, #56]                   @ 4-byte Reload
	bl	memset
	movs	r5, #16
	ldr	r0, [sp, #64]                   @ 4-byte Reload
	eors	r0, r5
	ldr	r1, [sp, #60]                   @ 4-byte Reload
	orrs	r0, r1
	adds	r4, #16
	cmp	r0, #0
	beq	.Lgcm_v6m_small_BB60_2
@ %bb.1:                                @ %else.2.i
	movs	r5, #32
.Lgcm_v6m_small_BB60_2:                               @ %"gcm_siv::keys::set_encryption_key::<#a556ffa628b2ee02>.exit"
	movs	r3, #0
	mov	r0, r6
	mov	r1, r4
	mov	r2, r5
	bl	gcm_v6m_small.aes_narrow.word_room.expand_words
	bl	gcm_v6m_small.aes_cipher.zeroize.stack.wipe_stack.768
	str	r5, [r7]
	add	r0, sp, #68
	movs	r2, #6
	movs	r3, #0
	bl	gcm_v6m_small.aes_cipher.zeroize.elements.zeroize_elements.3
	add	sp, #164
	pop	{r4, r5, r6, r7, pc}
.Lgcm_v6m_small_func_end60:
	.size	gcm_v6m_small.gcm_siv.keys.derive_and_prepare, .Lgcm_v6m_small_func_end60-gcm_v6m_small.gcm_siv.keys.derive_and_prepare
	.cantunwind
	.fnend
                                        @ -- End function
	.section	.text.gcm_v6m_small.aes_cipher.zeroize.elements.zeroize_elements.3,"ax",%progbits
	.p2align	1                               @ -- Begin function aes_cipher::zeroize::elements::zeroize_elements::<#82a118249f09cfc6>
	.type	gcm_v6m_small.aes_cipher.zeroize.elements.zeroize_elements.3,%function
	.code	16
	.thumb_func
gcm_v6m_small.aes_cipher.zeroize.elements.zeroize_elements.3: @ @gcm_v6m_small.aes_cipher.zeroize.elements.zeroize_elements.3
	.fnstart
@ %bb.0:                                @ %start
	.save	{r4, r5, r6, r7, lr}
	push	{r4, r5, r6, r7, lr}
	.pad	#28
	sub	sp, #28
	mov	r5, r3
	mov	r6, r2
	mov	r4, r0
	movs	r7, #0
	str	r7, [sp, #20]
	str	r7, [sp, #16]
	@APP
	@NO_APP
	movs	r2, #1
	ldr	r0, [sp, #20]
	ldr	r1, [sp, #16]
	str	r1, [sp, #12]                   @ 4-byte Spill
	subs	r1, r1, r6
	sbcs	r0, r3
	blo	.Lgcm_v6m_small_BB61_2
@ %bb.1:                                @ %start
	mov	r2, r7
.Lgcm_v6m_small_BB61_2:                               @ %start
	str	r2, [sp, #8]                    @ 4-byte Spill
	@APP
	@NO_APP
	mov	r0, r7
	bhs	.Lgcm_v6m_small_BB61_4
@ %bb.3:                                @ %then.1.i8
	ldr	r0, [sp, #12]                   @ 4-byte Reload
	lsls	r0, r0, #4
	ldrb	r0, [r4, r0]
.Lgcm_v6m_small_BB61_4:                               @ %join.6.i
	str	r0, [sp, #4]                    @ 4-byte Spill
	movs	r2, #16
	mov	r0, r4
	mov	r1, r7
	bl	memset
	subs	r0, r6, #2
	mov	r0, r5
	sbcs	r0, r7
	blo	.Lgcm_v6m_small_BB61_10
@ %bb.5:                                @ %join.6.i.1
	mov	r0, r4
	adds	r0, #16
	movs	r7, #0
	movs	r2, #16
	mov	r1, r7
	bl	memset
	movs	r0, #2
	eors	r0, r6
	orrs	r0, r5
	beq	.Lgcm_v6m_small_BB61_10
@ %bb.6:                                @ %join.6.i.2
	mov	r0, r4
	adds	r0, #32
	movs	r2, #16
	mov	r1, r7
	bl	memset
	subs	r0, r6, #4
	mov	r0, r5
	sbcs	r0, r7
	blo	.Lgcm_v6m_small_BB61_10
@ %bb.7:                                @ %join.6.i.3
	mov	r0, r4
	adds	r0, #48
	movs	r7, #0
	movs	r2, #16
	mov	r1, r7
	bl	memset
	movs	r0, #4
	eors	r0, r6
	orrs	r0, r5
	beq	.Lgcm_v6m_small_BB61_10
@ %bb.8:                                @ %join.6.i.4
	mov	r0, r4
	adds	r0, #64
	movs	r2, #16
	mov	r1, r7
	bl	memset
	subs	r0, r6, #6
	sbcs	r5, r7
	blo	.Lgcm_v6m_small_BB61_10
@ %bb.9:                                @ %join.6.i.5
	mov	r0, r4
	adds	r0, #80
	movs	r1, #0
	movs	r2, #16
	bl	memset
.Lgcm_v6m_small_BB61_10:                              @ %"aes_cipher::zeroize::overwrite::<#8c2be25e1e7027ab>.exit"
	movs	r0, #0
	ldr	r1, [sp, #8]                    @ 4-byte Reload
	cmp	r1, #0
	mov	r1, r0
	beq	.Lgcm_v6m_small_BB61_12
@ %bb.11:                               @ %then.1.i
	ldr	r1, [sp, #12]                   @ 4-byte Reload
	lsls	r1, r1, #4
	ldrb	r1, [r4, r1]
	ldr	r2, [sp, #4]                    @ 4-byte Reload
	ands	r1, r2
.Lgcm_v6m_small_BB61_12:                              @ %"aes_cipher::zeroize::observe::<#aefc49fcc22ee515>.exit"
	@APP
	@NO_APP
	ldr	r2, [sp, #20]
	ldr	r2, [sp, #16]
	str	r0, [sp, #20]
	str	r1, [sp, #16]
	@APP
	@NO_APP
	add	sp, #28
	pop	{r4, r5, r6, r7, pc}
.Lgcm_v6m_small_func_end61:
	.size	gcm_v6m_small.aes_cipher.zeroize.elements.zeroize_elements.3, .Lgcm_v6m_small_func_end61-gcm_v6m_small.aes_cipher.zeroize.elements.zeroize_elements.3
	.cantunwind
	.fnend
                                        @ -- End function
	.section	.text.gcm_v6m_small.gcm_siv.message.open,"ax",%progbits
	.p2align	1                               @ -- Begin function gcm_siv::message::open::<#bc93ff5f0cc4cd41>
	.type	gcm_v6m_small.gcm_siv.message.open,%function
	.code	16
	.thumb_func
gcm_v6m_small.gcm_siv.message.open: @ @gcm_v6m_small.gcm_siv.message.open
	.fnstart
@ %bb.0:                                @ %start
	.save	{r4, r5, r6, r7, lr}
	push	{r4, r5, r6, r7, lr}
	.pad	#148
	sub	sp, #148
	add	r4, sp, #56
	stm	r4!, {r1, r2, r3}               @ 12-byte Folded Spill
	mov	r7, r0
	ldr	r1, [sp, #192]
	ldrb	r5, [r1, #15]
	add	r4, sp, #96
	movs	r2, #15
	mov	r0, r4
	str	r1, [sp, #68]                   @ 4-byte Spill
	bl	memcpy
	movs	r0, #128
	str	r0, [sp, #36]                   @ 4-byte Spill
	orrs	r5, r0
	strb	r5, [r4, #15]
	movs	r6, #0
	str	r6, [sp, #84]
	mov	r0, r7
	ldm	r0!, {r1}
	str	r0, [sp, #80]
	lsrs	r3, r1, #31
	lsls	r2, r1, #1
	adds	r2, #56
	str	r2, [sp, #88]
	adcs	r3, r6
	str	r3, [sp, #92]
	str	r6, [sp, #116]
	str	r6, [sp, #112]
	ldr	r4, [sp, #188]
	ldr	r1, [sp, #184]
	str	r1, [sp, #72]                   @ 4-byte Spill
	subs	r1, #17
	mov	r1, r4
	sbcs	r1, r6
	str	r7, [sp, #76]                   @ 4-byte Spill
	blo	.Lgcm_v6m_small_BB62_2
@ %bb.1:                                @ %start
	str	r6, [sp, #32]                   @ 4-byte Spill
	b	.Lgcm_v6m_small_BB62_3
.Lgcm_v6m_small_BB62_2:
	movs	r1, #1
	str	r1, [sp, #32]                   @ 4-byte Spill
.Lgcm_v6m_small_BB62_3:                               @ %start
	ldr	r1, [sp, #172]
	str	r1, [sp, #52]                   @ 4-byte Spill
	ldr	r1, [sp, #168]
	str	r1, [sp, #48]                   @ 4-byte Spill
	ldr	r7, [sp, #176]
	movs	r1, #16
	ldr	r5, [sp, #72]                   @ 4-byte Reload
	subs	r1, r1, r5
	sbcs	r6, r4
	str	r0, [sp, #44]                   @ 4-byte Spill
	blo	.Lgcm_v6m_small_BB62_5
@ %bb.4:                                @ %then.1.i.i.i
	str	r5, [sp]
	str	r4, [sp, #4]
	add	r0, sp, #80
	add	r1, sp, #96
	mov	r2, r7
	bl	gcm_v6m_small.aes_ctr.add_in_batches.add_to_one.2
	b	.Lgcm_v6m_small_BB62_6
.Lgcm_v6m_small_BB62_5:                               @ %else.2.i.i.i
	str	r5, [sp, #136]
	movs	r1, #0
	str	r1, [sp, #124]
	str	r1, [sp, #120]
	str	r1, [sp, #132]
	str	r7, [sp, #128]
	add	r1, sp, #96
	str	r1, [sp, #112]
	str	r4, [sp, #140]
	add	r1, sp, #112
	str	r1, [sp]
	bl	gcm_v6m_small.aes_narrow.borrowed_words.call_to_encrypt.2
	bl	gcm_v6m_small.aes_cipher.zeroize.stack.wipe_stack.2032
.Lgcm_v6m_small_BB62_6:                               @ %"gcm_siv::message::process_text::<#a556ffa628b2ee02>.exit"
	mov	r0, r4
	add	r4, sp, #112
	str	r5, [sp, #16]
	str	r0, [sp, #40]                   @ 4-byte Spill
	str	r0, [sp, #20]
	str	r4, [sp, #24]
	ldr	r0, [sp, #48]                   @ 4-byte Reload
	str	r0, [sp]
	ldr	r0, [sp, #52]                   @ 4-byte Reload
	str	r0, [sp, #4]
	str	r7, [sp, #52]                   @ 4-byte Spill
	str	r7, [sp, #8]
	ldr	r0, [sp, #76]                   @ 4-byte Reload
	add	r3, sp, #56
	ldm	r3, {r1, r2, r3}                @ 12-byte Folded Reload
	bl	gcm_v6m_small.gcm_siv.message.put_tag
	ldr	r5, [sp, #68]                   @ 4-byte Reload
	mov	r0, r5
	mov	r1, r4
	bl	gcm_v6m_small.aes_cipher.blocks.difference
	mov	r6, r0
	movs	r2, #1
	movs	r7, #0
	mov	r0, r4
	mov	r3, r7
	bl	gcm_v6m_small.aes_cipher.zeroize.elements.zeroize_elements.3
	str	r6, [sp, #64]                   @ 4-byte Spill
	cmp	r6, #0
	beq	.Lgcm_v6m_small_BB62_10
@ %bb.7:                                @ %join.3
	ldrb	r6, [r5, #15]
	add	r4, sp, #96
	movs	r2, #15
	mov	r0, r4
	mov	r1, r5
	bl	memcpy
	ldr	r0, [sp, #36]                   @ 4-byte Reload
	orrs	r6, r0
	strb	r6, [r4, #15]
	ldr	r0, [sp, #44]                   @ 4-byte Reload
	str	r7, [sp, #84]
	str	r0, [sp, #80]
	ldr	r1, [sp, #76]                   @ 4-byte Reload
	ldr	r1, [r1]
	lsrs	r3, r1, #31
	lsls	r2, r1, #1
	adds	r2, #56
	str	r2, [sp, #88]
	adcs	r3, r7
	str	r3, [sp, #92]
	str	r7, [sp, #116]
	str	r7, [sp, #112]
	ldr	r1, [sp, #32]                   @ 4-byte Reload
	cmp	r1, #0
	beq	.Lgcm_v6m_small_BB62_9
@ %bb.8:                                @ %then.1.i.i.i30
	ldr	r0, [sp, #72]                   @ 4-byte Reload
	str	r0, [sp]
	ldr	r0, [sp, #40]                   @ 4-byte Reload
	str	r0, [sp, #4]
	add	r0, sp, #80
	add	r1, sp, #96
	ldr	r2, [sp, #52]                   @ 4-byte Reload
	bl	gcm_v6m_small.aes_ctr.add_in_batches.add_to_one.2
	b	.Lgcm_v6m_small_BB62_10
.Lgcm_v6m_small_BB62_9:                               @ %else.2.i.i.i25
	ldr	r1, [sp, #72]                   @ 4-byte Reload
	str	r1, [sp, #136]
	str	r7, [sp, #124]
	str	r7, [sp, #120]
	str	r7, [sp, #132]
	ldr	r1, [sp, #52]                   @ 4-byte Reload
	str	r1, [sp, #128]
	add	r1, sp, #96
	str	r1, [sp, #112]
	ldr	r1, [sp, #40]                   @ 4-byte Reload
	str	r1, [sp, #140]
	add	r1, sp, #112
	str	r1, [sp]
	bl	gcm_v6m_small.aes_narrow.borrowed_words.call_to_encrypt.2
	bl	gcm_v6m_small.aes_cipher.zeroize.stack.wipe_stack.2032
.Lgcm_v6m_small_BB62_10:                              @ %common.ret
	ldr	r1, [sp, #64]                   @ 4-byte Reload
	rsbs	r0, r1, #0
	adcs	r0, r1
	add	sp, #148
	pop	{r4, r5, r6, r7, pc}
.Lgcm_v6m_small_func_end62:
	.size	gcm_v6m_small.gcm_siv.message.open, .Lgcm_v6m_small_func_end62-gcm_v6m_small.gcm_siv.message.open
	.cantunwind
	.fnend
                                        @ -- End function
	.section	.text.gcm_v6m_small.gcm_siv.message.put_tag,"ax",%progbits
	.p2align	1                               @ -- Begin function gcm_siv::message::put_tag::<#bc93ff5f0cc4cd41>
	.type	gcm_v6m_small.gcm_siv.message.put_tag,%function
	.code	16
	.thumb_func
gcm_v6m_small.gcm_siv.message.put_tag: @ @gcm_v6m_small.gcm_siv.message.put_tag
	.fnstart
@ %bb.0:                                @ %start
	.save	{r4, r5, r6, r7, lr}
	push	{r4, r5, r6, r7, lr}
	.setfp	r7, sp, #12
	add	r7, sp, #12
	.pad	#108
	sub	sp, #108
	mov	r4, sp
	lsrs	r4, r4, #4
	lsls	r4, r4, #4
	mov	sp, r4
	mov	r6, r2
	str	r0, [sp, #76]                   @ 4-byte Spill
	ldrb	r0, [r1]
	lsls	r0, r0, #24
	ldrb	r2, [r1, #1]
	lsls	r2, r2, #16
	adds	r0, r2, r0
	ldrb	r2, [r1, #2]
	lsls	r2, r2, #8
	adds	r0, r0, r2
	ldrb	r2, [r1, #3]
	adds	r0, r0, r2
	str	r0, [sp, #68]                   @ 4-byte Spill
	str	r0, [sp, #92]
	ldrb	r0, [r1, #5]
	lsls	r0, r0, #16
	ldrb	r2, [r1, #4]
	lsls	r2, r2, #24
	adds	r0, r2, r0
	ldrb	r2, [r1, #6]
	lsls	r2, r2, #8
	adds	r0, r0, r2
	ldrb	r2, [r1, #7]
	adds	r0, r0, r2
	str	r0, [sp, #64]                   @ 4-byte Spill
	str	r0, [sp, #88]
	ldrb	r0, [r1, #8]
	lsls	r0, r0, #24
	ldrb	r2, [r1, #9]
	lsls	r2, r2, #16
	adds	r0, r2, r0
	ldrb	r2, [r1, #10]
	lsls	r2, r2, #8
	adds	r0, r0, r2
	ldrb	r2, [r1, #11]
	adds	r0, r0, r2
	str	r0, [sp, #60]                   @ 4-byte Spill
	str	r0, [sp, #84]
	ldrb	r0, [r1, #13]
	lsls	r0, r0, #16
	ldrb	r2, [r1, #12]
	lsls	r2, r2, #24
	adds	r0, r2, r0
	ldrb	r2, [r1, #14]
	lsls	r2, r2, #8
	adds	r0, r0, r2
	ldrb	r1, [r1, #15]
	adds	r0, r0, r1
	str	r0, [sp, #56]                   @ 4-byte Spill
	str	r0, [sp, #80]
	ldr	r0, [r7, #12]
	str	r0, [sp, #20]
	ldr	r0, [r7, #8]
	str	r0, [sp, #52]                   @ 4-byte Spill
	str	r0, [sp, #16]
	movs	r2, #0
	str	r2, [sp, #72]                   @ 4-byte Spill
	str	r2, [sp]
	str	r2, [sp, #4]
	str	r3, [sp, #8]
	add	r5, sp, #80
	mov	r0, r5
	mov	r3, r2
	bl	gcm_v6m_small.gcm.single_blocks.hash_singly.2
	mov	r4, r0
	ldr	r0, [r7, #28]
	str	r0, [sp, #20]
	ldr	r0, [r7, #24]
	str	r0, [sp, #48]                   @ 4-byte Spill
	str	r0, [sp, #16]
	ldr	r0, [r7, #16]
	str	r2, [sp]
	str	r3, [sp, #4]
	str	r0, [sp, #8]
	mov	r0, r5
	mov	r2, r4
	mov	r3, r1
	bl	gcm_v6m_small.gcm.single_blocks.hash_singly.2
	mov	r4, r0
	ldr	r0, [sp, #56]                   @ 4-byte Reload
	str	r0, [sp]
	ldr	r5, [sp, #60]                   @ 4-byte Reload
	str	r5, [sp, #4]
	ldr	r5, [sp, #64]                   @ 4-byte Reload
	str	r5, [sp, #8]
	ldr	r5, [sp, #68]                   @ 4-byte Reload
	str	r5, [sp, #12]
	ldr	r0, [sp, #52]                   @ 4-byte Reload
	lsls	r5, r0, #3
	eors	r4, r5
	str	r4, [sp, #68]                   @ 4-byte Spill
	lsrs	r5, r0, #29
	eors	r1, r5
	ldr	r0, [sp, #48]                   @ 4-byte Reload
	lsls	r5, r0, #3
	eors	r2, r5
	lsrs	r4, r0, #29
	eors	r3, r4
	ldr	r0, [sp, #68]                   @ 4-byte Reload
	bl	gcm_v6m_small.gcm.bitwise.product_bitwise
	str	r0, [sp, #60]                   @ 4-byte Spill
	lsls	r0, r3, #1
	lsrs	r0, r0, #25
	str	r0, [sp, #28]                   @ 4-byte Spill
	ldrb	r0, [r6]
	str	r0, [sp, #68]                   @ 4-byte Spill
	ldrb	r0, [r6, #1]
	str	r0, [sp, #64]                   @ 4-byte Spill
	ldrb	r0, [r6, #2]
	str	r0, [sp, #56]                   @ 4-byte Spill
	ldrb	r0, [r6, #3]
	str	r0, [sp, #52]                   @ 4-byte Spill
	ldrb	r4, [r6, #4]
	ldrb	r0, [r6, #5]
	str	r0, [sp, #48]                   @ 4-byte Spill
	ldrb	r0, [r6, #6]
	str	r0, [sp, #44]                   @ 4-byte Spill
	ldrb	r0, [r6, #7]
	str	r0, [sp, #40]                   @ 4-byte Spill
	ldrb	r0, [r6, #8]
	ldrb	r5, [r6, #9]
	str	r5, [sp, #36]                   @ 4-byte Spill
	ldrb	r5, [r6, #10]
	str	r5, [sp, #32]                   @ 4-byte Spill
	ldrb	r5, [r6, #11]
	str	r5, [sp, #24]                   @ 4-byte Spill
	ldr	r6, [r7, #32]
	ldr	r5, [sp, #28]                   @ 4-byte Reload
	strb	r5, [r6, #15]
	lsrs	r5, r3, #16
	strb	r5, [r6, #14]
	lsrs	r5, r3, #8
	strb	r5, [r6, #13]
	strb	r3, [r6, #12]
	lsrs	r3, r2, #24
	ldr	r5, [sp, #24]                   @ 4-byte Reload
	eors	r3, r5
	strb	r3, [r6, #11]
	lsrs	r3, r2, #16
	ldr	r5, [sp, #32]                   @ 4-byte Reload
	eors	r3, r5
	strb	r3, [r6, #10]
	lsrs	r3, r2, #8
	ldr	r5, [sp, #36]                   @ 4-byte Reload
	eors	r3, r5
	strb	r3, [r6, #9]
	eors	r0, r2
	strb	r0, [r6, #8]
	lsrs	r0, r1, #24
	ldr	r2, [sp, #40]                   @ 4-byte Reload
	eors	r0, r2
	strb	r0, [r6, #7]
	lsrs	r0, r1, #16
	ldr	r2, [sp, #44]                   @ 4-byte Reload
	eors	r0, r2
	strb	r0, [r6, #6]
	lsrs	r0, r1, #8
	ldr	r2, [sp, #48]                   @ 4-byte Reload
	eors	r0, r2
	strb	r0, [r6, #5]
	eors	r4, r1
	strb	r4, [r6, #4]
	ldr	r1, [sp, #60]                   @ 4-byte Reload
	lsrs	r0, r1, #24
	ldr	r2, [sp, #52]                   @ 4-byte Reload
	eors	r0, r2
	strb	r0, [r6, #3]
	lsrs	r0, r1, #16
	ldr	r2, [sp, #56]                   @ 4-byte Reload
	eors	r0, r2
	strb	r0, [r6, #2]
	lsrs	r0, r1, #8
	ldr	r2, [sp, #64]                   @ 4-byte Reload
	eors	r0, r2
	strb	r0, [r6, #1]
	ldr	r0, [sp, #68]                   @ 4-byte Reload
	eors	r0, r1
	strb	r0, [r6]
	ldr	r0, [sp, #76]                   @ 4-byte Reload
	ldm	r0!, {r2}
	movs	r1, #1
	str	r1, [sp, #8]
	ldr	r1, [sp, #72]                   @ 4-byte Reload
	str	r1, [sp, #12]
	str	r6, [sp]
	lsrs	r3, r2, #31
	lsls	r2, r2, #1
	adds	r2, #56
	adcs	r3, r1
	bl	gcm_v6m_small.aes_narrow.blocks.process_all_batches
	bl	gcm_v6m_small.aes_cipher.zeroize.stack.wipe_stack.1024
	subs	r6, r7, #7
	subs	r6, #5
	mov	sp, r6
	pop	{r4, r5, r6, r7, pc}
.Lgcm_v6m_small_func_end63:
	.size	gcm_v6m_small.gcm_siv.message.put_tag, .Lgcm_v6m_small_func_end63-gcm_v6m_small.gcm_siv.message.put_tag
	.cantunwind
	.fnend
                                        @ -- End function
	.section	.text.gcm_v6m_small.gcm.single_blocks.hash_singly.2,"ax",%progbits
	.p2align	1                               @ -- Begin function gcm::single_blocks::hash_singly::<#4042f4b97f1aa5e1>
	.type	gcm_v6m_small.gcm.single_blocks.hash_singly.2,%function
	.code	16
	.thumb_func
gcm_v6m_small.gcm.single_blocks.hash_singly.2: @ @gcm_v6m_small.gcm.single_blocks.hash_singly.2
	.fnstart
@ %bb.0:                                @ %start
	.save	{r4, r5, r6, r7, lr}
	push	{r4, r5, r6, r7, lr}
	.pad	#132
	sub	sp, #132
	mov	r1, r3
	str	r2, [sp, #92]                   @ 4-byte Spill
	ldr	r3, [sp, #172]
	lsls	r4, r3, #28
	ldr	r2, [sp, #168]
	str	r2, [sp, #20]                   @ 4-byte Spill
	lsrs	r2, r2, #4
	adds	r7, r2, r4
	lsrs	r4, r3, #4
	mov	r2, r7
	orrs	r2, r4
	ldr	r3, [sp, #156]
	ldr	r2, [sp, #152]
	ldr	r5, [sp, #160]
	str	r5, [sp, #112]                  @ 4-byte Spill
	str	r0, [sp, #16]                   @ 4-byte Spill
	beq	.Lgcm_v6m_small_BB64_3
@ %bb.1:                                @ %join.5.i.lr.ph
	ldr	r5, [r0]
	str	r5, [sp, #44]                   @ 4-byte Spill
	ldr	r5, [r0, #4]
	str	r5, [sp, #40]                   @ 4-byte Spill
	ldr	r5, [r0, #8]
	str	r5, [sp, #36]                   @ 4-byte Spill
	ldr	r0, [r0, #12]
	str	r0, [sp, #32]                   @ 4-byte Spill
	movs	r0, #0
	str	r4, [sp, #24]                   @ 4-byte Spill
	mov	r4, r0
	str	r0, [sp, #28]                   @ 4-byte Spill
	str	r0, [sp, #96]                   @ 4-byte Spill
	ldr	r6, [sp, #92]                   @ 4-byte Reload
	str	r7, [sp, #48]                   @ 4-byte Spill
.Lgcm_v6m_small_BB64_2:                               @ %join.5.i
                                        @ =>This Inner Loop Header: Depth=1
	add	r0, sp, #100
	stm	r0!, {r1, r2, r3}               @ 12-byte Folded Spill
	lsls	r5, r4, #4
	ldr	r0, [sp, #112]                  @ 4-byte Reload
	adds	r0, r0, r5
	ldrb	r7, [r0, #15]
	str	r7, [sp, #92]                   @ 4-byte Spill
	ldrb	r7, [r0, #14]
	str	r7, [sp, #88]                   @ 4-byte Spill
	ldrb	r7, [r0, #12]
	str	r7, [sp, #84]                   @ 4-byte Spill
	ldrb	r7, [r0, #13]
	str	r7, [sp, #80]                   @ 4-byte Spill
	ldrb	r3, [r0, #11]
	str	r3, [sp, #76]                   @ 4-byte Spill
	ldrb	r3, [r0, #10]
	str	r3, [sp, #72]                   @ 4-byte Spill
	ldrb	r2, [r0, #8]
	str	r2, [sp, #68]                   @ 4-byte Spill
	ldrb	r2, [r0, #9]
	str	r2, [sp, #64]                   @ 4-byte Spill
	ldrb	r1, [r0, #7]
	str	r1, [sp, #60]                   @ 4-byte Spill
	ldrb	r1, [r0, #6]
	str	r1, [sp, #56]                   @ 4-byte Spill
	ldrb	r1, [r0, #4]
	str	r1, [sp, #52]                   @ 4-byte Spill
	ldrb	r3, [r0, #5]
	ldrb	r2, [r0, #3]
	ldrb	r1, [r0, #2]
	ldr	r7, [sp, #112]                  @ 4-byte Reload
	ldrb	r5, [r7, r5]
	ldrb	r0, [r0, #1]
	ldr	r7, [sp, #44]                   @ 4-byte Reload
	str	r7, [sp]
	ldr	r7, [sp, #40]                   @ 4-byte Reload
	str	r7, [sp, #4]
	ldr	r7, [sp, #36]                   @ 4-byte Reload
	str	r7, [sp, #8]
	ldr	r7, [sp, #32]                   @ 4-byte Reload
	str	r7, [sp, #12]
	lsls	r0, r0, #8
	adds	r0, r0, r5
	lsls	r1, r1, #16
	lsls	r2, r2, #24
	adds	r1, r2, r1
	adds	r5, r1, r0
	eors	r5, r6
	lsls	r0, r3, #8
	ldr	r1, [sp, #52]                   @ 4-byte Reload
	adds	r0, r0, r1
	ldr	r1, [sp, #56]                   @ 4-byte Reload
	lsls	r1, r1, #16
	ldr	r2, [sp, #60]                   @ 4-byte Reload
	lsls	r2, r2, #24
	adds	r1, r2, r1
	adds	r6, r1, r0
	ldr	r0, [sp, #100]                  @ 4-byte Reload
	eors	r6, r0
	ldr	r0, [sp, #64]                   @ 4-byte Reload
	lsls	r0, r0, #8
	ldr	r1, [sp, #68]                   @ 4-byte Reload
	adds	r0, r0, r1
	ldr	r1, [sp, #72]                   @ 4-byte Reload
	lsls	r1, r1, #16
	ldr	r2, [sp, #76]                   @ 4-byte Reload
	lsls	r2, r2, #24
	adds	r1, r2, r1
	adds	r7, r1, r0
	ldr	r0, [sp, #104]                  @ 4-byte Reload
	eors	r7, r0
	ldr	r0, [sp, #80]                   @ 4-byte Reload
	lsls	r0, r0, #8
	ldr	r1, [sp, #84]                   @ 4-byte Reload
	adds	r0, r0, r1
	ldr	r1, [sp, #88]                   @ 4-byte Reload
	lsls	r1, r1, #16
	ldr	r2, [sp, #92]                   @ 4-byte Reload
	lsls	r2, r2, #24
	adds	r1, r2, r1
	adds	r3, r1, r0
	ldr	r0, [sp, #108]                  @ 4-byte Reload
	eors	r3, r0
	mov	r0, r5
	mov	r1, r6
	mov	r2, r7
	ldr	r7, [sp, #48]                   @ 4-byte Reload
	bl	gcm_v6m_small.gcm.bitwise.product_bitwise
	mov	r6, r0
	adds	r4, r4, #1
	ldr	r0, [sp, #28]                   @ 4-byte Reload
	ldr	r5, [sp, #96]                   @ 4-byte Reload
	adcs	r5, r0
	subs	r0, r4, r7
	str	r5, [sp, #96]                   @ 4-byte Spill
	mov	r0, r5
	ldr	r5, [sp, #24]                   @ 4-byte Reload
	sbcs	r0, r5
	blo	.Lgcm_v6m_small_BB64_2
	b	.Lgcm_v6m_small_BB64_4
.Lgcm_v6m_small_BB64_3:
	ldr	r6, [sp, #92]                   @ 4-byte Reload
.Lgcm_v6m_small_BB64_4:                               @ %"gcm::single_blocks::hash_whole::<#4042f4b97f1aa5e1>.exit"
	movs	r0, #15
	ldr	r4, [sp, #20]                   @ 4-byte Reload
	mov	r5, r4
	ands	r5, r0
	beq	.Lgcm_v6m_small_BB64_6
@ %bb.5:                                @ %join.3
	str	r6, [sp, #92]                   @ 4-byte Spill
	add	r6, sp, #100
	stm	r6!, {r1, r2, r3}               @ 12-byte Folded Spill
	movs	r2, #0
	str	r2, [sp, #128]
	str	r2, [sp, #124]
	str	r2, [sp, #120]
	str	r2, [sp, #116]
	bics	r4, r0
	ldr	r0, [sp, #112]                  @ 4-byte Reload
	adds	r1, r0, r4
	add	r0, sp, #116
	subs	r0, r0, r1
	mov	r3, r2
	sbcs	r3, r2
	subs	r0, r0, r5
	sbcs	r3, r2
	add	r0, sp, #116
	mov	r2, r5
	bl	memcpy
	add	r3, sp, #116
	ldm	r3, {r0, r1, r2, r3}
	ldr	r4, [sp, #16]                   @ 4-byte Reload
	ldm	r4!, {r5, r6, r7}
	ldr	r4, [r4]
	str	r5, [sp]
	str	r6, [sp, #4]
	str	r7, [sp, #8]
	str	r4, [sp, #12]
	ldr	r4, [sp, #92]                   @ 4-byte Reload
	eors	r0, r4
	ldr	r4, [sp, #100]                  @ 4-byte Reload
	eors	r1, r4
	ldr	r4, [sp, #104]                  @ 4-byte Reload
	eors	r2, r4
	ldr	r4, [sp, #108]                  @ 4-byte Reload
	eors	r3, r4
	bl	gcm_v6m_small.gcm.bitwise.product_bitwise
	add	sp, #132
	pop	{r4, r5, r6, r7, pc}
.Lgcm_v6m_small_BB64_6:
	mov	r0, r6
	add	sp, #132
	pop	{r4, r5, r6, r7, pc}
.Lgcm_v6m_small_func_end64:
	.size	gcm_v6m_small.gcm.single_blocks.hash_singly.2, .Lgcm_v6m_small_func_end64-gcm_v6m_small.gcm.single_blocks.hash_singly.2
	.cantunwind
	.fnend
                                        @ -- End function
	.section	.text.gcm_v6m_small.aes_ctr.add_in_batches.add_to_one.2,"ax",%progbits
	.p2align	1                               @ -- Begin function aes_ctr::add_in_batches::add_to_one::<#3853cb094ce32add>
	.type	gcm_v6m_small.aes_ctr.add_in_batches.add_to_one.2,%function
	.code	16
	.thumb_func
gcm_v6m_small.aes_ctr.add_in_batches.add_to_one.2: @ @gcm_v6m_small.aes_ctr.add_in_batches.add_to_one.2
	.fnstart
@ %bb.0:                                @ %start
	.save	{r4, r5, r6, r7, lr}
	push	{r4, r5, r6, r7, lr}
	.pad	#68
	sub	sp, #68
	str	r2, [sp, #48]                   @ 4-byte Spill
	mov	r6, r0
	ldrb	r0, [r1, #3]
	str	r0, [sp, #44]                   @ 4-byte Spill
	ldrb	r7, [r1, #2]
	ldrb	r4, [r1]
	ldrb	r5, [r1, #1]
	add	r0, sp, #52
	str	r0, [sp, #36]                   @ 4-byte Spill
	adds	r0, r0, #4
	adds	r1, r1, #4
	movs	r2, #12
	bl	memcpy
	lsls	r0, r5, #8
	adds	r0, r0, r4
	lsls	r1, r7, #16
	ldr	r2, [sp, #44]                   @ 4-byte Reload
	lsls	r2, r2, #24
	adds	r1, r2, r1
	adds	r0, r1, r0
	str	r0, [sp, #52]
	ldrb	r0, [r6, #15]
	str	r0, [sp, #44]                   @ 4-byte Spill
	ldrb	r0, [r6, #14]
	str	r0, [sp, #40]                   @ 4-byte Spill
	ldrb	r0, [r6, #12]
	str	r0, [sp, #32]                   @ 4-byte Spill
	ldrb	r0, [r6, #13]
	str	r0, [sp, #28]                   @ 4-byte Spill
	ldrb	r0, [r6, #11]
	str	r0, [sp, #24]                   @ 4-byte Spill
	ldrb	r0, [r6, #10]
	str	r0, [sp, #20]                   @ 4-byte Spill
	ldrb	r4, [r6, #8]
	ldrb	r3, [r6, #9]
	ldrb	r2, [r6, #3]
	ldrb	r5, [r6, #2]
	ldrb	r1, [r6]
	ldrb	r0, [r6, #1]
	movs	r6, #0
	movs	r7, #1
	str	r7, [sp, #8]
	str	r6, [sp, #12]
	ldr	r7, [sp, #36]                   @ 4-byte Reload
	str	r7, [sp]
	lsls	r0, r0, #8
	adds	r0, r0, r1
	lsls	r1, r5, #16
	lsls	r2, r2, #24
	adds	r1, r2, r1
	adds	r0, r1, r0
	lsls	r1, r3, #8
	adds	r1, r1, r4
	ldr	r2, [sp, #20]                   @ 4-byte Reload
	lsls	r2, r2, #16
	ldr	r3, [sp, #24]                   @ 4-byte Reload
	lsls	r3, r3, #24
	adds	r2, r3, r2
	adds	r2, r2, r1
	ldr	r1, [sp, #28]                   @ 4-byte Reload
	lsls	r1, r1, #8
	ldr	r3, [sp, #32]                   @ 4-byte Reload
	adds	r1, r1, r3
	ldr	r3, [sp, #40]                   @ 4-byte Reload
	lsls	r3, r3, #16
	ldr	r4, [sp, #44]                   @ 4-byte Reload
	lsls	r4, r4, #24
	adds	r3, r4, r3
	adds	r3, r3, r1
	bl	gcm_v6m_small.aes_narrow.blocks.process_all_batches
	bl	gcm_v6m_small.aes_cipher.zeroize.stack.wipe_stack.1024
	ldr	r0, [sp, #92]
	str	r0, [sp, #12]
	ldr	r0, [sp, #88]
	str	r0, [sp, #8]
	ldr	r0, [sp, #48]                   @ 4-byte Reload
	str	r0, [sp]
	mov	r0, r7
	mov	r2, r6
	mov	r3, r6
	bl	gcm_v6m_small.aes_ctr.add_blocks.add_blocks
	add	sp, #68
	pop	{r4, r5, r6, r7, pc}
.Lgcm_v6m_small_func_end65:
	.size	gcm_v6m_small.aes_ctr.add_in_batches.add_to_one.2, .Lgcm_v6m_small_func_end65-gcm_v6m_small.aes_ctr.add_in_batches.add_to_one.2
	.cantunwind
	.fnend
                                        @ -- End function
	.section	.text.gcm_v6m_small.aes_narrow.borrowed_words.call_to_encrypt.2,"ax",%progbits
	.p2align	1                               @ -- Begin function aes_narrow::borrowed_words::call_to_encrypt::<#d0e731d912aff965>
	.type	gcm_v6m_small.aes_narrow.borrowed_words.call_to_encrypt.2,%function
	.code	16
	.thumb_func
gcm_v6m_small.aes_narrow.borrowed_words.call_to_encrypt.2: @ @gcm_v6m_small.aes_narrow.borrowed_words.call_to_encrypt.2
	.fnstart
@ %bb.0:                                @ %start
	.save	{r4, r5, r7, lr}
	push	{r4, r5, r7, lr}
	.pad	#32
	sub	sp, #32
	str	r3, [sp, #28]
	str	r2, [sp, #24]
	movs	r1, #0
	str	r1, [sp, #20]
	str	r0, [sp, #16]
	ldr	r0, [sp, #48]
	mov	r4, r0
	adds	r4, #8
	ldm	r4, {r2, r3, r4}
	ldr	r1, [r0]
	ldr	r5, [r0, #24]
	ldr	r0, [r0, #28]
	str	r5, [sp, #8]
	str	r0, [sp, #12]
	str	r4, [sp]
	add	r0, sp, #16
	bl	gcm_v6m_small.aes_ctr.add_in_batches.add_by_backend.2
	add	sp, #32
	pop	{r4, r5, r7, pc}
.Lgcm_v6m_small_func_end66:
	.size	gcm_v6m_small.aes_narrow.borrowed_words.call_to_encrypt.2, .Lgcm_v6m_small_func_end66-gcm_v6m_small.aes_narrow.borrowed_words.call_to_encrypt.2
	.cantunwind
	.fnend
                                        @ -- End function
	.section	.text.gcm_v6m_small.aes_ctr.add_in_batches.add_by_backend.2,"ax",%progbits
	.p2align	1                               @ -- Begin function aes_ctr::add_in_batches::add_by_backend::<#9f5b6b63b811461e>
	.type	gcm_v6m_small.aes_ctr.add_in_batches.add_by_backend.2,%function
	.code	16
	.thumb_func
gcm_v6m_small.aes_ctr.add_in_batches.add_by_backend.2: @ @gcm_v6m_small.aes_ctr.add_in_batches.add_by_backend.2
	.fnstart
@ %bb.0:                                @ %start
	.save	{r4, r5, r6, r7, lr}
	push	{r4, r5, r6, r7, lr}
	.pad	#332
	sub	sp, #332
	str	r3, [sp, #28]                   @ 4-byte Spill
	mov	r4, r2
	str	r1, [sp, #52]                   @ 4-byte Spill
	str	r0, [sp, #48]                   @ 4-byte Spill
	movs	r0, #15
	str	r2, [sp, #56]                   @ 4-byte Spill
	str	r0, [sp, #20]                   @ 4-byte Spill
	ands	r4, r0
	movs	r5, #0
	ldr	r1, [sp, #364]
	ldr	r7, [sp, #360]
	ldr	r0, [sp, #352]
	str	r0, [sp, #24]                   @ 4-byte Spill
	cmp	r4, #0
	str	r1, [sp, #72]                   @ 4-byte Spill
	str	r7, [sp, #60]                   @ 4-byte Spill
	beq	.Lgcm_v6m_small_BB67_8
@ %bb.1:                                @ %then.1
	add	r6, sp, #76
	mov	r0, r6
	adds	r0, #32
	movs	r2, #224
	mov	r1, r5
	bl	memset
	ldr	r3, [sp, #72]                   @ 4-byte Reload
	str	r6, [sp, #68]                   @ 4-byte Spill
	str	r6, [sp, #8]
	movs	r0, #32
	subs	r1, r0, r4
	movs	r0, #1
	subs	r2, r7, r1
	mov	r2, r3
	sbcs	r2, r5
	blo	.Lgcm_v6m_small_BB67_3
@ %bb.2:                                @ %then.1
	mov	r7, r1
.Lgcm_v6m_small_BB67_3:                               @ %then.1
	blo	.Lgcm_v6m_small_BB67_5
@ %bb.4:                                @ %then.1
	mov	r0, r5
.Lgcm_v6m_small_BB67_5:                               @ %then.1
	cmp	r0, #0
	mov	r6, r3
	bne	.Lgcm_v6m_small_BB67_7
@ %bb.6:                                @ %then.1
	mov	r6, r0
.Lgcm_v6m_small_BB67_7:                               @ %then.1
	adds	r0, r4, r7
	mov	r1, r6
	adcs	r1, r5
	adds	r0, #15
	adcs	r1, r5
	lsrs	r2, r1, #4
	lsls	r1, r1, #28
	lsrs	r0, r0, #4
	adds	r0, r0, r1
	str	r0, [sp]
	str	r2, [sp, #4]
	ldr	r0, [sp, #56]                   @ 4-byte Reload
	lsrs	r0, r0, #4
	ldr	r3, [sp, #28]                   @ 4-byte Reload
	lsls	r1, r3, #28
	adds	r2, r0, r1
	lsrs	r3, r3, #4
	ldr	r0, [sp, #48]                   @ 4-byte Reload
	ldr	r1, [sp, #52]                   @ 4-byte Reload
	bl	gcm_v6m_small.aes_ctr.keystream.fill_by_backend.2
	str	r7, [sp, #8]
	str	r6, [sp, #12]
	ldr	r0, [sp, #24]                   @ 4-byte Reload
	str	r0, [sp]
	ldr	r0, [sp, #68]                   @ 4-byte Reload
	mov	r2, r4
	mov	r3, r5
	bl	gcm_v6m_small.aes_ctr.add_blocks.add_blocks
	ldr	r1, [sp, #72]                   @ 4-byte Reload
	b	.Lgcm_v6m_small_BB67_9
.Lgcm_v6m_small_BB67_8:
	mov	r7, r5
	mov	r6, r5
.Lgcm_v6m_small_BB67_9:                               @ %join.3
	ldr	r0, [sp, #60]                   @ 4-byte Reload
	subs	r0, r0, r7
	sbcs	r1, r6
	movs	r3, #0
	subs	r0, #32
	str	r3, [sp, #68]                   @ 4-byte Spill
	sbcs	r1, r3
	ldr	r3, [sp, #28]                   @ 4-byte Reload
	ldr	r5, [sp, #24]                   @ 4-byte Reload
	blo	.Lgcm_v6m_small_BB67_11
.Lgcm_v6m_small_BB67_10:                              @ %join.11
                                        @ =>This Inner Loop Header: Depth=1
	adds	r0, r5, r7
	str	r0, [sp]
	ldr	r0, [sp, #56]                   @ 4-byte Reload
	adds	r0, r7, r0
	mov	r1, r6
	adcs	r1, r3
	lsrs	r0, r0, #4
	lsls	r2, r1, #28
	adds	r2, r0, r2
	mov	r4, r3
	lsrs	r3, r1, #4
	ldr	r0, [sp, #48]                   @ 4-byte Reload
	ldr	r1, [sp, #52]                   @ 4-byte Reload
	bl	gcm_v6m_small.aes_ctr.add_in_batches.add_batch.2
	movs	r0, #0
	adds	r7, #32
	adcs	r6, r0
	ldr	r1, [sp, #60]                   @ 4-byte Reload
	subs	r1, r1, r7
	ldr	r2, [sp, #72]                   @ 4-byte Reload
	sbcs	r2, r6
	movs	r3, #31
	subs	r1, r3, r1
	mov	r3, r4
	sbcs	r0, r2
	blo	.Lgcm_v6m_small_BB67_10
.Lgcm_v6m_small_BB67_11:                              @ %loop.13.preheader
	ldr	r5, [sp, #60]                   @ 4-byte Reload
	subs	r0, r7, r5
	mov	r0, r6
	ldr	r4, [sp, #72]                   @ 4-byte Reload
	sbcs	r0, r4
	ldr	r1, [sp, #68]                   @ 4-byte Reload
	bhs	.Lgcm_v6m_small_BB67_20
@ %bb.12:                               @ %join.16.lr.ph
	add	r0, sp, #76
	adds	r0, #32
	str	r0, [sp, #16]                   @ 4-byte Spill
	b	.Lgcm_v6m_small_BB67_14
.Lgcm_v6m_small_BB67_13:                              @ %join.16
                                        @   in Loop: Header=BB67_14 Depth=1
	ldr	r6, [sp, #64]                   @ 4-byte Reload
	adds	r1, r5, r6
	mov	r2, r4
	adcs	r2, r3
	adds	r1, #15
	adcs	r2, r3
	lsrs	r3, r2, #4
	lsls	r2, r2, #28
	lsrs	r1, r1, #4
	adds	r1, r1, r2
	str	r1, [sp]
	str	r3, [sp, #4]
	ldr	r0, [sp, #36]                   @ 4-byte Reload
	lsrs	r1, r0, #4
	ldr	r0, [sp, #40]                   @ 4-byte Reload
	lsls	r2, r0, #28
	adds	r2, r1, r2
	lsrs	r3, r0, #4
	ldr	r0, [sp, #48]                   @ 4-byte Reload
	ldr	r1, [sp, #52]                   @ 4-byte Reload
	bl	gcm_v6m_small.aes_ctr.keystream.fill_by_backend.2
	mov	r2, r5
	mov	r5, r6
	str	r6, [sp, #8]
	str	r4, [sp, #12]
	ldr	r0, [sp, #24]                   @ 4-byte Reload
	adds	r0, r0, r7
	str	r0, [sp]
	ldr	r0, [sp, #44]                   @ 4-byte Reload
	ldr	r6, [sp, #68]                   @ 4-byte Reload
	mov	r3, r6
	bl	gcm_v6m_small.aes_ctr.add_blocks.add_blocks
	mov	r1, r6
	adds	r7, r5, r7
	ldr	r6, [sp, #32]                   @ 4-byte Reload
	adcs	r6, r4
	ldr	r5, [sp, #60]                   @ 4-byte Reload
	subs	r0, r7, r5
	mov	r0, r6
	ldr	r2, [sp, #72]                   @ 4-byte Reload
	sbcs	r0, r2
	ldr	r3, [sp, #28]                   @ 4-byte Reload
	bhs	.Lgcm_v6m_small_BB67_20
.Lgcm_v6m_small_BB67_14:                              @ %join.16
                                        @ =>This Inner Loop Header: Depth=1
	movs	r2, #224
	ldr	r0, [sp, #16]                   @ 4-byte Reload
	mov	r4, r3
	bl	memset
	add	r0, sp, #76
	str	r0, [sp, #44]                   @ 4-byte Spill
	str	r0, [sp, #8]
	ldr	r0, [sp, #56]                   @ 4-byte Reload
	adds	r1, r7, r0
	mov	r0, r6
	adcs	r0, r4
	str	r0, [sp, #40]                   @ 4-byte Spill
	subs	r0, r5, r7
	ldr	r4, [sp, #72]                   @ 4-byte Reload
	sbcs	r4, r6
	str	r1, [sp, #36]                   @ 4-byte Spill
	mov	r5, r1
	ldr	r1, [sp, #20]                   @ 4-byte Reload
	ands	r5, r1
	movs	r2, #32
	subs	r3, r2, r5
	movs	r2, #1
	str	r0, [sp, #64]                   @ 4-byte Spill
	subs	r1, r0, r3
	mov	r1, r4
	ldr	r0, [sp, #68]                   @ 4-byte Reload
	sbcs	r1, r0
	blo	.Lgcm_v6m_small_BB67_16
@ %bb.15:                               @ %join.16
                                        @   in Loop: Header=BB67_14 Depth=1
	str	r3, [sp, #64]                   @ 4-byte Spill
.Lgcm_v6m_small_BB67_16:                              @ %join.16
                                        @   in Loop: Header=BB67_14 Depth=1
	ldr	r3, [sp, #68]                   @ 4-byte Reload
	blo	.Lgcm_v6m_small_BB67_18
@ %bb.17:                               @ %join.16
                                        @   in Loop: Header=BB67_14 Depth=1
	mov	r2, r3
.Lgcm_v6m_small_BB67_18:                              @ %join.16
                                        @   in Loop: Header=BB67_14 Depth=1
	str	r6, [sp, #32]                   @ 4-byte Spill
	cmp	r2, #0
	bne	.Lgcm_v6m_small_BB67_13
@ %bb.19:                               @ %join.16
                                        @   in Loop: Header=BB67_14 Depth=1
	mov	r4, r2
	b	.Lgcm_v6m_small_BB67_13
.Lgcm_v6m_small_BB67_20:                              @ %after.12
	add	sp, #332
	pop	{r4, r5, r6, r7, pc}
.Lgcm_v6m_small_func_end67:
	.size	gcm_v6m_small.aes_ctr.add_in_batches.add_by_backend.2, .Lgcm_v6m_small_func_end67-gcm_v6m_small.aes_ctr.add_in_batches.add_by_backend.2
	.cantunwind
	.fnend
                                        @ -- End function
	.section	.text.gcm_v6m_small.aes_ctr.add_in_batches.add_batch.2,"ax",%progbits
	.p2align	1                               @ -- Begin function aes_ctr::add_in_batches::add_batch::<#9f5b6b63b811461e>
	.type	gcm_v6m_small.aes_ctr.add_in_batches.add_batch.2,%function
	.code	16
	.thumb_func
gcm_v6m_small.aes_ctr.add_in_batches.add_batch.2: @ @gcm_v6m_small.aes_ctr.add_in_batches.add_batch.2
	.fnstart
@ %bb.0:                                @ %start
	.save	{r4, r5, r6, r7, lr}
	push	{r4, r5, r6, r7, lr}
	.pad	#332
	sub	sp, #332
	str	r2, [sp, #40]                   @ 4-byte Spill
	mov	r7, r1
	mov	r6, r0
	add	r0, sp, #52
	str	r0, [sp, #48]                   @ 4-byte Spill
	adds	r0, #16
	movs	r1, #0
	str	r1, [sp, #44]                   @ 4-byte Spill
	movs	r2, #240
	bl	memset
	ldrb	r0, [r7, #3]
	str	r0, [sp, #36]                   @ 4-byte Spill
	ldrb	r0, [r7, #2]
	str	r0, [sp, #32]                   @ 4-byte Spill
	ldrb	r0, [r7]
	str	r0, [sp, #28]                   @ 4-byte Spill
	ldrb	r3, [r7, #1]
	ldrb	r0, [r7, #12]
	ldrb	r5, [r7, #13]
	lsls	r5, r5, #8
	adds	r0, r5, r0
	ldrb	r5, [r7, #14]
	lsls	r5, r5, #16
	ldrb	r4, [r7, #15]
	lsls	r4, r4, #24
	adds	r4, r4, r5
	adds	r0, r4, r0
	str	r0, [sp, #316]
	ldrb	r4, [r7, #8]
	ldrb	r5, [r7, #9]
	lsls	r5, r5, #8
	adds	r4, r5, r4
	ldrb	r5, [r7, #10]
	lsls	r5, r5, #16
	ldrb	r1, [r7, #11]
	lsls	r1, r1, #24
	adds	r1, r1, r5
	adds	r1, r1, r4
	str	r1, [sp, #312]
	ldrb	r4, [r7, #4]
	ldrb	r5, [r7, #5]
	lsls	r5, r5, #8
	adds	r4, r5, r4
	ldrb	r5, [r7, #6]
	lsls	r5, r5, #16
	ldrb	r2, [r7, #7]
	lsls	r2, r2, #24
	adds	r2, r2, r5
	adds	r2, r2, r4
	str	r2, [sp, #308]
	str	r2, [sp, #56]
	str	r1, [sp, #60]
	str	r0, [sp, #64]
	lsls	r0, r3, #8
	ldr	r1, [sp, #28]                   @ 4-byte Reload
	adds	r0, r0, r1
	ldr	r1, [sp, #32]                   @ 4-byte Reload
	lsls	r1, r1, #16
	ldr	r2, [sp, #36]                   @ 4-byte Reload
	lsls	r2, r2, #24
	adds	r1, r2, r1
	adds	r0, r1, r0
	ldr	r1, [sp, #40]                   @ 4-byte Reload
	adds	r0, r0, r1
	str	r0, [sp, #52]
	ldrb	r1, [r7, #12]
	ldrb	r2, [r7, #13]
	lsls	r2, r2, #8
	adds	r1, r2, r1
	ldrb	r2, [r7, #14]
	lsls	r2, r2, #16
	ldrb	r3, [r7, #15]
	lsls	r3, r3, #24
	adds	r2, r3, r2
	adds	r1, r2, r1
	str	r1, [sp, #328]
	ldrb	r2, [r7, #8]
	ldrb	r3, [r7, #9]
	lsls	r3, r3, #8
	adds	r2, r3, r2
	ldrb	r3, [r7, #10]
	lsls	r3, r3, #16
	ldrb	r4, [r7, #11]
	lsls	r4, r4, #24
	adds	r3, r4, r3
	adds	r2, r3, r2
	str	r2, [sp, #324]
	ldrb	r3, [r7, #4]
	ldrb	r4, [r7, #5]
	lsls	r4, r4, #8
	adds	r3, r4, r3
	ldrb	r4, [r7, #6]
	lsls	r4, r4, #16
	ldrb	r5, [r7, #7]
	lsls	r5, r5, #24
	adds	r4, r5, r4
	adds	r3, r4, r3
	str	r3, [sp, #320]
	str	r1, [sp, #316]
	str	r2, [sp, #312]
	str	r3, [sp, #308]
	adds	r0, r0, #1
	str	r0, [sp, #68]
	ldr	r0, [sp, #316]
	str	r0, [sp, #80]
	ldr	r0, [sp, #312]
	str	r0, [sp, #76]
	ldr	r0, [sp, #308]
	str	r0, [sp, #72]
	ldrb	r0, [r6, #15]
	str	r0, [sp, #40]                   @ 4-byte Spill
	ldrb	r0, [r6, #14]
	str	r0, [sp, #36]                   @ 4-byte Spill
	ldrb	r0, [r6, #12]
	str	r0, [sp, #32]                   @ 4-byte Spill
	ldrb	r0, [r6, #13]
	str	r0, [sp, #28]                   @ 4-byte Spill
	ldrb	r0, [r6, #11]
	str	r0, [sp, #24]                   @ 4-byte Spill
	ldrb	r0, [r6, #10]
	str	r0, [sp, #20]                   @ 4-byte Spill
	ldrb	r4, [r6, #8]
	ldrb	r3, [r6, #9]
	ldrb	r2, [r6, #3]
	ldrb	r1, [r6, #2]
	ldrb	r0, [r6]
	ldrb	r6, [r6, #1]
	movs	r7, #2
	str	r7, [sp, #8]
	ldr	r5, [sp, #44]                   @ 4-byte Reload
	str	r5, [sp, #12]
	ldr	r7, [sp, #48]                   @ 4-byte Reload
	str	r7, [sp]
	lsls	r6, r6, #8
	adds	r0, r6, r0
	lsls	r1, r1, #16
	lsls	r2, r2, #24
	adds	r1, r2, r1
	adds	r0, r1, r0
	lsls	r1, r3, #8
	adds	r1, r1, r4
	ldr	r2, [sp, #20]                   @ 4-byte Reload
	lsls	r2, r2, #16
	ldr	r3, [sp, #24]                   @ 4-byte Reload
	lsls	r3, r3, #24
	adds	r2, r3, r2
	adds	r2, r2, r1
	ldr	r1, [sp, #28]                   @ 4-byte Reload
	lsls	r1, r1, #8
	ldr	r3, [sp, #32]                   @ 4-byte Reload
	adds	r1, r1, r3
	ldr	r3, [sp, #36]                   @ 4-byte Reload
	lsls	r3, r3, #16
	ldr	r4, [sp, #40]                   @ 4-byte Reload
	lsls	r4, r4, #24
	adds	r3, r4, r3
	adds	r3, r3, r1
	bl	gcm_v6m_small.aes_soft.soft.blocks.filled_up.process_filled_up
	movs	r0, #32
	str	r0, [sp, #8]
	str	r5, [sp, #12]
	ldr	r0, [sp, #352]
	str	r0, [sp]
	mov	r0, r7
	mov	r2, r5
	mov	r3, r5
	bl	gcm_v6m_small.aes_ctr.add_blocks.add_blocks
	add	sp, #332
	pop	{r4, r5, r6, r7, pc}
.Lgcm_v6m_small_func_end68:
	.size	gcm_v6m_small.aes_ctr.add_in_batches.add_batch.2, .Lgcm_v6m_small_func_end68-gcm_v6m_small.aes_ctr.add_in_batches.add_batch.2
	.cantunwind
	.fnend
                                        @ -- End function
	.section	.text.gcm_v6m_small.aes_ctr.keystream.fill_by_backend.2,"ax",%progbits
	.p2align	1                               @ -- Begin function aes_ctr::keystream::fill_by_backend::<#9f5b6b63b811461e>
	.type	gcm_v6m_small.aes_ctr.keystream.fill_by_backend.2,%function
	.code	16
	.thumb_func
gcm_v6m_small.aes_ctr.keystream.fill_by_backend.2: @ @gcm_v6m_small.aes_ctr.keystream.fill_by_backend.2
	.fnstart
@ %bb.0:                                @ %start
	.save	{r4, r5, r6, r7, lr}
	push	{r4, r5, r6, r7, lr}
	.pad	#52
	sub	sp, #52
	str	r2, [sp, #24]                   @ 4-byte Spill
	mov	r5, r1
	mov	r4, r0
	ldrb	r0, [r1, #3]
	str	r0, [sp, #20]                   @ 4-byte Spill
	ldrb	r1, [r1, #2]
	ldrb	r3, [r5]
	ldrb	r6, [r5, #1]
	ldrb	r7, [r5, #4]
	ldrb	r0, [r5, #5]
	lsls	r0, r0, #8
	adds	r0, r0, r7
	ldrb	r7, [r5, #6]
	lsls	r7, r7, #16
	ldrb	r2, [r5, #7]
	lsls	r2, r2, #24
	adds	r2, r2, r7
	adds	r0, r2, r0
	str	r0, [sp, #28]
	ldrb	r0, [r5, #8]
	ldrb	r2, [r5, #9]
	lsls	r2, r2, #8
	adds	r0, r2, r0
	ldrb	r2, [r5, #10]
	lsls	r2, r2, #16
	ldrb	r7, [r5, #11]
	lsls	r7, r7, #24
	adds	r2, r7, r2
	adds	r0, r2, r0
	str	r0, [sp, #32]
	ldrb	r0, [r5, #12]
	ldrb	r2, [r5, #13]
	lsls	r2, r2, #8
	adds	r0, r2, r0
	ldrb	r2, [r5, #14]
	lsls	r2, r2, #16
	ldrb	r7, [r5, #15]
	lsls	r7, r7, #24
	adds	r2, r7, r2
	adds	r0, r2, r0
	str	r0, [sp, #36]
	lsls	r0, r6, #8
	adds	r0, r0, r3
	lsls	r1, r1, #16
	ldr	r2, [sp, #20]                   @ 4-byte Reload
	lsls	r2, r2, #24
	adds	r1, r2, r1
	adds	r0, r1, r0
	ldr	r1, [sp, #24]                   @ 4-byte Reload
	adds	r7, r0, r1
	lsrs	r0, r7, #24
	ldr	r6, [sp, #80]
	strb	r0, [r6, #3]
	lsrs	r0, r7, #16
	strb	r0, [r6, #2]
	lsrs	r0, r7, #8
	strb	r0, [r6, #1]
	strb	r7, [r6]
	adds	r0, r6, #4
	add	r1, sp, #28
	str	r1, [sp, #24]                   @ 4-byte Spill
	movs	r2, #12
	str	r2, [sp, #20]                   @ 4-byte Spill
	bl	memcpy
	ldrb	r0, [r5, #4]
	ldrb	r1, [r5, #5]
	lsls	r1, r1, #8
	adds	r0, r1, r0
	ldrb	r1, [r5, #6]
	lsls	r1, r1, #16
	ldrb	r2, [r5, #7]
	lsls	r2, r2, #24
	adds	r1, r2, r1
	adds	r0, r1, r0
	str	r0, [sp, #28]
	ldrb	r0, [r5, #8]
	ldrb	r1, [r5, #9]
	lsls	r1, r1, #8
	adds	r0, r1, r0
	ldrb	r1, [r5, #10]
	lsls	r1, r1, #16
	ldrb	r2, [r5, #11]
	lsls	r2, r2, #24
	adds	r1, r2, r1
	adds	r0, r1, r0
	str	r0, [sp, #32]
	ldrb	r0, [r5, #12]
	ldrb	r1, [r5, #13]
	lsls	r1, r1, #8
	adds	r0, r1, r0
	ldrb	r1, [r5, #14]
	lsls	r1, r1, #16
	ldrb	r2, [r5, #15]
	lsls	r2, r2, #24
	adds	r1, r2, r1
	adds	r0, r1, r0
	str	r0, [sp, #36]
	adds	r0, r7, #1
	lsrs	r1, r0, #24
	strb	r1, [r6, #19]
	lsrs	r1, r0, #16
	strb	r1, [r6, #18]
	lsrs	r1, r0, #8
	strb	r1, [r6, #17]
	strb	r0, [r6, #16]
	mov	r0, r6
	adds	r0, #20
	ldr	r1, [sp, #24]                   @ 4-byte Reload
	ldr	r2, [sp, #20]                   @ 4-byte Reload
	bl	memcpy
	ldrb	r0, [r4, #12]
	ldrb	r1, [r4, #13]
	lsls	r1, r1, #8
	adds	r0, r1, r0
	ldrb	r1, [r4, #14]
	lsls	r1, r1, #16
	ldrb	r2, [r4, #15]
	lsls	r2, r2, #24
	adds	r1, r2, r1
	adds	r3, r1, r0
	ldrb	r0, [r4, #8]
	ldrb	r1, [r4, #9]
	lsls	r1, r1, #8
	adds	r0, r1, r0
	ldrb	r1, [r4, #10]
	lsls	r1, r1, #16
	ldrb	r2, [r4, #11]
	lsls	r2, r2, #24
	adds	r1, r2, r1
	adds	r2, r1, r0
	ldrb	r0, [r4]
	ldrb	r1, [r4, #1]
	lsls	r1, r1, #8
	adds	r0, r1, r0
	ldrb	r1, [r4, #2]
	lsls	r1, r1, #16
	ldrb	r4, [r4, #3]
	lsls	r4, r4, #24
	adds	r1, r4, r1
	adds	r0, r1, r0
	movs	r1, #1
	ldr	r4, [sp, #72]
	eors	r4, r1
	ldr	r5, [sp, #76]
	orrs	r5, r4
	bne	.Lgcm_v6m_small_BB69_2
@ %bb.1:                                @ %then.1.i.i
	movs	r4, #0
	str	r1, [sp, #8]
	str	r4, [sp, #12]
	b	.Lgcm_v6m_small_BB69_3
.Lgcm_v6m_small_BB69_2:                               @ %else.2.i.i
	movs	r1, #0
	movs	r4, #2
	str	r4, [sp, #8]
	str	r1, [sp, #12]
.Lgcm_v6m_small_BB69_3:                               @ %"aes_narrow::borrowed_words::BorrowedWordsBlockCipherEncBackend::encrypt_first_blocks::<#5b4689a38c32c9c5>.exit"
	str	r6, [sp]
	bl	gcm_v6m_small.aes_soft.soft.blocks.filled_up.process_filled_up
	add	sp, #52
	pop	{r4, r5, r6, r7, pc}
.Lgcm_v6m_small_func_end69:
	.size	gcm_v6m_small.aes_ctr.keystream.fill_by_backend.2, .Lgcm_v6m_small_func_end69-gcm_v6m_small.aes_ctr.keystream.fill_by_backend.2
	.cantunwind
	.fnend
                                        @ -- End function
	.section	.text.gcm_v6m_small.aes_cipher.zeroize.stack.wipe_stack.2816,"ax",%progbits
	.p2align	2                               @ -- Begin function aes_cipher::zeroize::stack::wipe_stack::<=2816>
	.type	gcm_v6m_small.aes_cipher.zeroize.stack.wipe_stack.2816,%function
	.code	16
	.thumb_func
gcm_v6m_small.aes_cipher.zeroize.stack.wipe_stack.2816: @ @gcm_v6m_small.aes_cipher.zeroize.stack.wipe_stack.2816
	.fnstart
@ %bb.0:                                @ %start
	.save	{r4, r5, r6, lr}
	push	{r4, r5, r6, lr}
	ldr	r6, .Lgcm_v6m_small_CPI70_0
	.pad	#2824
	add	sp, r6
	movs	r0, #11
	lsls	r2, r0, #8
	add	r0, sp, #8
	movs	r4, #0
	mov	r1, r4
	bl	memset
	str	r4, [sp, #4]
	str	r4, [sp]
	@APP
	@NO_APP
	ldr	r1, [sp, #4]
	lsls	r2, r1, #24
	ldr	r0, [sp]
	lsrs	r3, r0, #8
	adds	r2, r3, r2
	@APP
	@NO_APP
	lsrs	r1, r1, #8
	subs	r2, #11
	sbcs	r1, r4
	bhs	.Lgcm_v6m_small_BB70_2
@ %bb.1:                                @ %then.1
	add	r1, sp, #8
	ldrb	r0, [r1, r0]
	@APP
	@NO_APP
	ldr	r1, [sp, #4]
	ldr	r1, [sp]
	str	r4, [sp, #4]
	str	r0, [sp]
	@APP
	@NO_APP
.Lgcm_v6m_small_BB70_2:                               @ %common.ret
	ldr	r6, .Lgcm_v6m_small_CPI70_1
	add	sp, r6
	pop	{r4, r5, r6, pc}
	.p2align	2
@ %bb.3:
.Lgcm_v6m_small_CPI70_0:
	.long	4294964472                      @ 0xfffff4f8
.Lgcm_v6m_small_CPI70_1:
	.long	2824                            @ 0xb08
.Lgcm_v6m_small_func_end70:
	.size	gcm_v6m_small.aes_cipher.zeroize.stack.wipe_stack.2816, .Lgcm_v6m_small_func_end70-gcm_v6m_small.aes_cipher.zeroize.stack.wipe_stack.2816
	.cantunwind
	.fnend
                                        @ -- End function
	.section	.text.gcm_v6m_small.gcm_siv.course.seal_in,"ax",%progbits
	.p2align	1                               @ -- Begin function gcm_siv::course::seal_in::<#a4ece9b7a9859b66>
	.type	gcm_v6m_small.gcm_siv.course.seal_in,%function
	.code	16
	.thumb_func
gcm_v6m_small.gcm_siv.course.seal_in: @ @gcm_v6m_small.gcm_siv.course.seal_in
	.fnstart
@ %bb.0:                                @ %start
	.save	{r4, r5, r6, r7, lr}
	push	{r4, r5, r6, r7, lr}
	.pad	#508
	sub	sp, #508
	.pad	#64
	sub	sp, #64
	str	r3, [sp, #44]                   @ 4-byte Spill
	str	r2, [sp, #36]                   @ 4-byte Spill
	mov	r5, r1
	str	r0, [sp, #52]                   @ 4-byte Spill
	add	r7, sp, #72
	adds	r0, r7, #4
	str	r0, [sp, #48]                   @ 4-byte Spill
	movs	r1, #15
	lsls	r2, r1, #5
	movs	r6, #0
	mov	r1, r6
	bl	memset
	str	r6, [sp, #72]
	add	r4, sp, #556
	str	r4, [sp, #8]
	str	r7, [sp, #4]
	ldr	r0, [sp, #592]
	str	r0, [sp, #40]                   @ 4-byte Spill
	str	r0, [sp]
	mov	r0, r5
	ldr	r2, [sp, #36]                   @ 4-byte Reload
	ldr	r3, [sp, #44]                   @ 4-byte Reload
	bl	gcm_v6m_small.gcm_siv.keys.derive_and_prepare
	ldr	r0, [sp, #620]
	str	r0, [sp, #28]
	ldr	r0, [sp, #616]
	str	r0, [sp, #24]
	ldr	r0, [sp, #608]
	str	r0, [sp, #16]
	ldr	r0, [sp, #604]
	str	r0, [sp, #12]
	ldr	r0, [sp, #600]
	str	r0, [sp, #8]
	ldr	r0, [sp, #596]
	str	r0, [sp]
	add	r5, sp, #56
	mov	r0, r5
	mov	r1, r7
	mov	r2, r4
	ldr	r3, [sp, #40]                   @ 4-byte Reload
	bl	gcm_v6m_small.gcm_siv.message.seal
	str	r6, [sp, #72]
	ldr	r0, [sp, #48]                   @ 4-byte Reload
	bl	gcm_v6m_small.aes_cipher.zeroize.elements.zeroize_elements.1
	mov	r0, r4
	bl	gcm_v6m_small.aes_cipher.zeroize.elements.zeroize_elements.2
	bl	gcm_v6m_small.aes_cipher.zeroize.stack.wipe_stack.2816
	movs	r2, #16
	ldr	r0, [sp, #52]                   @ 4-byte Reload
	mov	r1, r5
	bl	memcpy
	add	sp, #508
	add	sp, #64
	pop	{r4, r5, r6, r7, pc}
.Lgcm_v6m_small_func_end71:
	.size	gcm_v6m_small.gcm_siv.course.seal_in, .Lgcm_v6m_small_func_end71-gcm_v6m_small.gcm_siv.course.seal_in
	.cantunwind
	.fnend
                                        @ -- End function
	.section	.text.gcm_v6m_small.gcm_siv.message.seal,"ax",%progbits
	.p2align	1                               @ -- Begin function gcm_siv::message::seal::<#bc93ff5f0cc4cd41>
	.type	gcm_v6m_small.gcm_siv.message.seal,%function
	.code	16
	.thumb_func
gcm_v6m_small.gcm_siv.message.seal: @ @gcm_v6m_small.gcm_siv.message.seal
	.fnstart
@ %bb.0:                                @ %start
	.save	{r4, r5, r6, r7, lr}
	push	{r4, r5, r6, r7, lr}
	.pad	#132
	sub	sp, #132
	mov	r4, r3
	str	r1, [sp, #28]                   @ 4-byte Spill
	str	r0, [sp, #44]                   @ 4-byte Spill
	add	r7, sp, #48
	str	r7, [sp, #24]
	ldr	r0, [sp, #180]
	str	r0, [sp, #36]                   @ 4-byte Spill
	str	r0, [sp, #20]
	ldr	r5, [sp, #176]
	str	r5, [sp, #16]
	ldr	r0, [sp, #168]
	str	r0, [sp, #40]                   @ 4-byte Spill
	str	r0, [sp, #8]
	ldr	r0, [sp, #164]
	str	r0, [sp, #4]
	ldr	r0, [sp, #160]
	str	r0, [sp]
	ldr	r3, [sp, #152]
	mov	r0, r1
	mov	r1, r2
	mov	r2, r4
	bl	gcm_v6m_small.gcm_siv.message.put_tag
	ldrb	r0, [r7, #15]
	str	r0, [sp, #32]                   @ 4-byte Spill
	add	r1, sp, #80
	mov	r2, r1
	ldm	r7!, {r3, r4, r6}
	stm	r2!, {r3, r4, r6}
	mov	r6, r5
	ldr	r4, [sp, #36]                   @ 4-byte Reload
	ldr	r0, [sp, #28]                   @ 4-byte Reload
	ldrh	r3, [r7]
	strh	r3, [r2]
	ldrb	r3, [r7, #2]
	strb	r3, [r2, #2]
	movs	r2, #128
	ldr	r3, [sp, #32]                   @ 4-byte Reload
	orrs	r2, r3
	strb	r2, [r1, #15]
	movs	r5, #0
	str	r5, [sp, #68]
	ldm	r0!, {r1}
	str	r0, [sp, #64]
	lsrs	r3, r1, #31
	lsls	r2, r1, #1
	adds	r2, #56
	str	r2, [sp, #72]
	adcs	r3, r5
	str	r3, [sp, #76]
	str	r5, [sp, #100]
	str	r5, [sp, #96]
	movs	r1, #16
	subs	r1, r1, r6
	mov	r1, r5
	sbcs	r1, r4
	blo	.Lgcm_v6m_small_BB72_2
@ %bb.1:                                @ %then.1.i.i.i
	str	r6, [sp]
	str	r4, [sp, #4]
	add	r0, sp, #64
	add	r1, sp, #80
	ldr	r2, [sp, #40]                   @ 4-byte Reload
	bl	gcm_v6m_small.aes_ctr.add_in_batches.add_to_one.2
	b	.Lgcm_v6m_small_BB72_3
.Lgcm_v6m_small_BB72_2:                               @ %else.2.i.i.i
	str	r6, [sp, #120]
	str	r5, [sp, #108]
	str	r5, [sp, #104]
	str	r5, [sp, #116]
	ldr	r1, [sp, #40]                   @ 4-byte Reload
	str	r1, [sp, #112]
	add	r1, sp, #80
	str	r1, [sp, #96]
	str	r4, [sp, #124]
	add	r1, sp, #96
	str	r1, [sp]
	bl	gcm_v6m_small.aes_narrow.borrowed_words.call_to_encrypt.2
	bl	gcm_v6m_small.aes_cipher.zeroize.stack.wipe_stack.2032
.Lgcm_v6m_small_BB72_3:                               @ %"gcm_siv::message::process_text::<#a556ffa628b2ee02>.exit"
	add	r1, sp, #48
	movs	r2, #16
	ldr	r0, [sp, #44]                   @ 4-byte Reload
	bl	memcpy
	add	sp, #132
	pop	{r4, r5, r6, r7, pc}
.Lgcm_v6m_small_func_end72:
	.size	gcm_v6m_small.gcm_siv.message.seal, .Lgcm_v6m_small_func_end72-gcm_v6m_small.gcm_siv.message.seal
	.cantunwind
	.fnend
                                        @ -- End function
	.section	.text.gcm_v6m_small.gcm.hash_room.hash_piece,"ax",%progbits
	.p2align	1                               @ -- Begin function gcm::hash_room::hash_piece::<#d9ba0fa9ccec4268>
	.type	gcm_v6m_small.gcm.hash_room.hash_piece,%function
	.code	16
	.thumb_func
gcm_v6m_small.gcm.hash_room.hash_piece: @ @gcm_v6m_small.gcm.hash_room.hash_piece
	.fnstart
@ %bb.0:                                @ %start
	.save	{r4, r5, r6, r7, lr}
	push	{r4, r5, r6, r7, lr}
	.setfp	r7, sp, #12
	add	r7, sp, #12
	.pad	#188
	sub	sp, #188
	mov	r4, sp
	lsrs	r4, r4, #4
	lsls	r4, r4, #4
	mov	sp, r4
	str	r2, [sp, #144]                  @ 4-byte Spill
	mov	r6, r1
	str	r0, [sp, #140]                  @ 4-byte Spill
	ldr	r1, [r7, #12]
	movs	r4, #0
	ldr	r5, [r7, #8]
	movs	r0, #16
	subs	r0, r0, r5
	str	r4, [sp, #152]                  @ 4-byte Spill
	str	r1, [sp, #148]                  @ 4-byte Spill
	sbcs	r4, r1
	ldr	r2, [r7, #28]
	ldr	r3, [r7, #24]
	ldr	r1, [r7, #16]
	str	r0, [sp, #156]                  @ 4-byte Spill
	subs	r0, r3, r0
	mov	r0, r2
	sbcs	r0, r4
	bhs	.Lgcm_v6m_small_BB73_9
@ %bb.1:                                @ %then.1
	ldr	r0, [sp, #144]                  @ 4-byte Reload
	adds	r0, r0, r5
	subs	r4, r0, r1
	ldr	r6, [sp, #152]                  @ 4-byte Reload
	mov	r5, r6
	sbcs	r5, r6
	subs	r4, r4, r3
	sbcs	r5, r2
	blo	.Lgcm_v6m_small_BB73_2
	b	.Lgcm_v6m_small_BB73_17
.Lgcm_v6m_small_BB73_2:                               @ %join.7.i.i.i.i.i.i.preheader
	movs	r4, #3
	mov	r5, r3
	str	r4, [sp, #156]                  @ 4-byte Spill
	ands	r5, r4
	subs	r4, r3, #4
	sbcs	r2, r6
	mov	r4, r6
	blo	.Lgcm_v6m_small_BB73_6
@ %bb.3:                                @ %join.7.i.i.i.i.i.i.preheader.new
	str	r5, [sp, #148]                  @ 4-byte Spill
	movs	r2, #15
	mvns	r2, r2
	adds	r2, #12
	ands	r3, r2
	mov	r4, r6
.Lgcm_v6m_small_BB73_4:                               @ %join.7.i.i.i.i.i.i
                                        @ =>This Inner Loop Header: Depth=1
	ldrb	r2, [r1, r4]
	strb	r2, [r0, r4]
	movs	r2, #1
	orrs	r2, r4
	ldrb	r5, [r1, r2]
	strb	r5, [r0, r2]
	movs	r2, #2
	orrs	r2, r4
	ldrb	r5, [r1, r2]
	strb	r5, [r0, r2]
	mov	r2, r4
	ldr	r5, [sp, #156]                  @ 4-byte Reload
	orrs	r2, r5
	ldrb	r5, [r1, r2]
	strb	r5, [r0, r2]
	adds	r4, r4, #4
	ldr	r2, [sp, #152]                  @ 4-byte Reload
	adcs	r6, r2
	mov	r2, r4
	eors	r2, r3
	orrs	r2, r6
	bne	.Lgcm_v6m_small_BB73_4
@ %bb.5:                                @ %common.ret.loopexit.unr-lcssa
	ldr	r5, [sp, #148]                  @ 4-byte Reload
	cmp	r5, #0
	bne	.Lgcm_v6m_small_BB73_6
	b	.Lgcm_v6m_small_BB73_30
.Lgcm_v6m_small_BB73_6:                               @ %join.7.i.i.i.i.i.i.epil.preheader
	ldrb	r2, [r1, r4]
	strb	r2, [r0, r4]
	cmp	r5, #1
	bne	.Lgcm_v6m_small_BB73_7
	b	.Lgcm_v6m_small_BB73_30
.Lgcm_v6m_small_BB73_7:                               @ %join.7.i.i.i.i.i.i.epil.1
	adds	r2, r4, #1
	ldrb	r3, [r1, r2]
	strb	r3, [r0, r2]
	cmp	r5, #2
	bne	.Lgcm_v6m_small_BB73_8
	b	.Lgcm_v6m_small_BB73_30
.Lgcm_v6m_small_BB73_8:                               @ %join.7.i.i.i.i.i.i.epil.2
	adds	r2, r4, #2
	ldrb	r1, [r1, r2]
	strb	r1, [r0, r2]
	b	.Lgcm_v6m_small_BB73_30
.Lgcm_v6m_small_BB73_9:                               @ %join.3
	str	r5, [sp, #132]                  @ 4-byte Spill
	ldr	r5, [sp, #156]                  @ 4-byte Reload
	subs	r0, r3, r5
	str	r0, [sp, #124]                  @ 4-byte Spill
	sbcs	r2, r4
	adds	r0, r1, r5
	str	r0, [sp, #136]                  @ 4-byte Spill
	ldrb	r0, [r6]
	lsls	r0, r0, #24
	ldrb	r2, [r6, #1]
	lsls	r2, r2, #16
	adds	r0, r2, r0
	ldrb	r2, [r6, #2]
	lsls	r2, r2, #8
	adds	r0, r0, r2
	ldrb	r2, [r6, #3]
	adds	r0, r0, r2
	str	r0, [sp, #120]                  @ 4-byte Spill
	ldrb	r0, [r6, #5]
	lsls	r0, r0, #16
	ldrb	r2, [r6, #4]
	lsls	r2, r2, #24
	adds	r0, r2, r0
	ldrb	r2, [r6, #6]
	lsls	r2, r2, #8
	adds	r0, r0, r2
	ldrb	r2, [r6, #7]
	adds	r0, r0, r2
	str	r0, [sp, #116]                  @ 4-byte Spill
	ldrb	r0, [r6, #8]
	lsls	r0, r0, #24
	ldrb	r2, [r6, #9]
	lsls	r2, r2, #16
	adds	r0, r2, r0
	ldrb	r2, [r6, #10]
	lsls	r2, r2, #8
	adds	r0, r0, r2
	ldrb	r2, [r6, #11]
	adds	r0, r0, r2
	str	r0, [sp, #112]                  @ 4-byte Spill
	ldrb	r0, [r6, #13]
	lsls	r0, r0, #16
	ldrb	r2, [r6, #12]
	lsls	r2, r2, #24
	adds	r0, r2, r0
	ldrb	r2, [r6, #14]
	lsls	r2, r2, #8
	adds	r0, r0, r2
	str	r6, [sp, #128]                  @ 4-byte Spill
	ldrb	r2, [r6, #15]
	adds	r0, r0, r2
	str	r0, [sp, #108]                  @ 4-byte Spill
	ldr	r0, [sp, #144]                  @ 4-byte Reload
	ldr	r2, [sp, #132]                  @ 4-byte Reload
	adds	r0, r0, r2
	subs	r2, r0, r1
	ldr	r6, [sp, #152]                  @ 4-byte Reload
	mov	r3, r6
	sbcs	r3, r6
	ldr	r5, [sp, #156]                  @ 4-byte Reload
	subs	r2, r2, r5
	sbcs	r3, r4
	bhs	.Lgcm_v6m_small_BB73_18
@ %bb.10:                               @ %join.7.i.i.i.i.i.i38.preheader
	movs	r3, #3
	ldr	r2, [sp, #156]                  @ 4-byte Reload
	str	r3, [sp, #104]                  @ 4-byte Spill
	ands	r2, r3
	movs	r3, #15
	ldr	r4, [sp, #132]                  @ 4-byte Reload
	eors	r4, r3
	subs	r3, r4, #3
	mov	r5, r2
	ldr	r2, [sp, #148]                  @ 4-byte Reload
	sbcs	r2, r6
	mov	r4, r6
	blo	.Lgcm_v6m_small_BB73_14
@ %bb.11:                               @ %join.7.i.i.i.i.i.i38.preheader.new
	str	r5, [sp, #132]                  @ 4-byte Spill
	movs	r3, #28
	ldr	r2, [sp, #156]                  @ 4-byte Reload
	ands	r2, r3
	str	r2, [sp, #156]                  @ 4-byte Spill
	movs	r5, #0
	mov	r4, r5
	str	r5, [sp, #148]                  @ 4-byte Spill
	ldr	r3, [sp, #104]                  @ 4-byte Reload
.Lgcm_v6m_small_BB73_12:                              @ %join.7.i.i.i.i.i.i38
                                        @ =>This Inner Loop Header: Depth=1
	ldrb	r2, [r1, r4]
	strb	r2, [r0, r4]
	movs	r2, #1
	orrs	r2, r4
	ldrb	r6, [r1, r2]
	strb	r6, [r0, r2]
	movs	r2, #2
	orrs	r2, r4
	ldrb	r6, [r1, r2]
	strb	r6, [r0, r2]
	mov	r2, r4
	orrs	r2, r3
	ldrb	r6, [r1, r2]
	strb	r6, [r0, r2]
	adds	r4, r4, #4
	ldr	r2, [sp, #148]                  @ 4-byte Reload
	adcs	r5, r2
	mov	r2, r4
	ldr	r6, [sp, #156]                  @ 4-byte Reload
	eors	r2, r6
	orrs	r2, r5
	bne	.Lgcm_v6m_small_BB73_12
@ %bb.13:                               @ %"core::slice::edits::slice+T::copy_from_slice::<i8,20'core::clone::U8Clone{}>.exit45.loopexit.unr-lcssa"
	ldr	r5, [sp, #132]                  @ 4-byte Reload
	cmp	r5, #0
	beq	.Lgcm_v6m_small_BB73_19
.Lgcm_v6m_small_BB73_14:                              @ %join.7.i.i.i.i.i.i38.epil.preheader
	ldrb	r2, [r1, r4]
	strb	r2, [r0, r4]
	cmp	r5, #1
	beq	.Lgcm_v6m_small_BB73_19
@ %bb.15:                               @ %join.7.i.i.i.i.i.i38.epil.1
	adds	r2, r4, #1
	ldrb	r3, [r1, r2]
	strb	r3, [r0, r2]
	cmp	r5, #2
	beq	.Lgcm_v6m_small_BB73_19
@ %bb.16:                               @ %join.7.i.i.i.i.i.i38.epil.2
	adds	r2, r4, #2
	ldrb	r1, [r1, r2]
	strb	r1, [r0, r2]
	b	.Lgcm_v6m_small_BB73_19
.Lgcm_v6m_small_BB73_17:                              @ %apart.2.i.i.i.i.i.i
	mov	r2, r3
	bl	memmove
	b	.Lgcm_v6m_small_BB73_30
.Lgcm_v6m_small_BB73_18:                              @ %apart.2.i.i.i.i.i.i36
	ldr	r2, [sp, #156]                  @ 4-byte Reload
	bl	memmove
.Lgcm_v6m_small_BB73_19:                              @ %"core::slice::edits::slice+T::copy_from_slice::<i8,20'core::clone::U8Clone{}>.exit45"
	ldr	r0, [sp, #140]                  @ 4-byte Reload
	ldr	r0, [r0]
	ldrb	r1, [r0]
	lsls	r1, r1, #24
	ldrb	r2, [r0, #1]
	lsls	r2, r2, #16
	adds	r1, r2, r1
	ldrb	r2, [r0, #2]
	lsls	r2, r2, #8
	adds	r1, r1, r2
	ldrb	r2, [r0, #3]
	adds	r1, r1, r2
	str	r1, [sp, #48]                   @ 4-byte Spill
	ldr	r5, [sp, #144]                  @ 4-byte Reload
	ldrb	r1, [r5, #3]
	str	r1, [sp, #156]                  @ 4-byte Spill
	ldrb	r1, [r5, #2]
	str	r1, [sp, #148]                  @ 4-byte Spill
	ldrb	r1, [r5, #1]
	str	r1, [sp, #132]                  @ 4-byte Spill
	ldrb	r1, [r5]
	str	r1, [sp, #104]                  @ 4-byte Spill
	ldrb	r1, [r5, #7]
	str	r1, [sp, #100]                  @ 4-byte Spill
	ldrb	r1, [r5, #6]
	str	r1, [sp, #96]                   @ 4-byte Spill
	ldrb	r1, [r5, #4]
	str	r1, [sp, #92]                   @ 4-byte Spill
	ldrb	r1, [r5, #5]
	str	r1, [sp, #88]                   @ 4-byte Spill
	ldrb	r1, [r5, #11]
	str	r1, [sp, #84]                   @ 4-byte Spill
	ldrb	r1, [r5, #10]
	str	r1, [sp, #80]                   @ 4-byte Spill
	ldrb	r1, [r5, #9]
	str	r1, [sp, #76]                   @ 4-byte Spill
	ldrb	r1, [r5, #8]
	str	r1, [sp, #72]                   @ 4-byte Spill
	ldrb	r1, [r5, #15]
	str	r1, [sp, #68]                   @ 4-byte Spill
	ldrb	r1, [r5, #14]
	str	r1, [sp, #64]                   @ 4-byte Spill
	ldrb	r1, [r5, #12]
	str	r1, [sp, #60]                   @ 4-byte Spill
	ldrb	r1, [r5, #13]
	str	r1, [sp, #56]                   @ 4-byte Spill
	ldrb	r1, [r0, #15]
	str	r1, [sp, #52]                   @ 4-byte Spill
	ldrb	r1, [r0, #14]
	str	r1, [sp, #44]                   @ 4-byte Spill
	ldrb	r1, [r0, #12]
	str	r1, [sp, #40]                   @ 4-byte Spill
	ldrb	r1, [r0, #13]
	str	r1, [sp, #36]                   @ 4-byte Spill
	ldrb	r1, [r0, #11]
	str	r1, [sp, #32]                   @ 4-byte Spill
	ldrb	r1, [r0, #10]
	str	r1, [sp, #28]                   @ 4-byte Spill
	ldrb	r1, [r0, #9]
	str	r1, [sp, #24]                   @ 4-byte Spill
	ldrb	r6, [r0, #8]
	ldrb	r3, [r0, #7]
	ldrb	r2, [r0, #6]
	ldrb	r1, [r0, #4]
	ldrb	r0, [r0, #5]
	ldr	r4, [sp, #48]                   @ 4-byte Reload
	str	r4, [sp, #12]
	lsls	r0, r0, #16
	lsls	r1, r1, #24
	adds	r0, r1, r0
	lsls	r1, r2, #8
	adds	r0, r0, r1
	adds	r0, r0, r3
	str	r0, [sp, #8]
	lsls	r0, r6, #24
	ldr	r1, [sp, #24]                   @ 4-byte Reload
	lsls	r1, r1, #16
	adds	r0, r1, r0
	ldr	r1, [sp, #28]                   @ 4-byte Reload
	lsls	r1, r1, #8
	adds	r0, r0, r1
	ldr	r1, [sp, #32]                   @ 4-byte Reload
	adds	r0, r0, r1
	str	r0, [sp, #4]
	ldr	r0, [sp, #36]                   @ 4-byte Reload
	lsls	r0, r0, #16
	ldr	r1, [sp, #40]                   @ 4-byte Reload
	lsls	r1, r1, #24
	adds	r0, r1, r0
	ldr	r1, [sp, #44]                   @ 4-byte Reload
	lsls	r1, r1, #8
	adds	r0, r0, r1
	ldr	r1, [sp, #52]                   @ 4-byte Reload
	adds	r0, r0, r1
	str	r0, [sp]
	ldr	r0, [sp, #56]                   @ 4-byte Reload
	lsls	r0, r0, #16
	ldr	r1, [sp, #60]                   @ 4-byte Reload
	lsls	r1, r1, #24
	adds	r0, r1, r0
	ldr	r1, [sp, #64]                   @ 4-byte Reload
	lsls	r1, r1, #8
	adds	r0, r0, r1
	ldr	r1, [sp, #68]                   @ 4-byte Reload
	adds	r0, r0, r1
	ldr	r1, [sp, #108]                  @ 4-byte Reload
	eors	r0, r1
	ldr	r1, [sp, #72]                   @ 4-byte Reload
	lsls	r1, r1, #24
	ldr	r2, [sp, #76]                   @ 4-byte Reload
	lsls	r2, r2, #16
	adds	r1, r2, r1
	ldr	r2, [sp, #80]                   @ 4-byte Reload
	lsls	r2, r2, #8
	adds	r1, r1, r2
	ldr	r2, [sp, #84]                   @ 4-byte Reload
	adds	r1, r1, r2
	ldr	r2, [sp, #112]                  @ 4-byte Reload
	eors	r1, r2
	ldr	r2, [sp, #88]                   @ 4-byte Reload
	lsls	r2, r2, #16
	ldr	r3, [sp, #92]                   @ 4-byte Reload
	lsls	r3, r3, #24
	adds	r2, r3, r2
	ldr	r3, [sp, #96]                   @ 4-byte Reload
	lsls	r3, r3, #8
	adds	r2, r2, r3
	ldr	r3, [sp, #100]                  @ 4-byte Reload
	adds	r2, r2, r3
	ldr	r3, [sp, #116]                  @ 4-byte Reload
	eors	r2, r3
	ldr	r3, [sp, #104]                  @ 4-byte Reload
	lsls	r3, r3, #24
	ldr	r4, [sp, #132]                  @ 4-byte Reload
	lsls	r4, r4, #16
	adds	r3, r4, r3
	ldr	r4, [sp, #148]                  @ 4-byte Reload
	lsls	r4, r4, #8
	adds	r3, r3, r4
	ldr	r4, [sp, #156]                  @ 4-byte Reload
	adds	r3, r3, r4
	ldr	r4, [sp, #120]                  @ 4-byte Reload
	eors	r3, r4
	bl	gcm_v6m_small.gcm.bitwise.product_bitwise
	str	r0, [sp, #132]                  @ 4-byte Spill
	str	r1, [sp, #120]                  @ 4-byte Spill
	str	r2, [sp, #116]                  @ 4-byte Spill
	str	r3, [sp, #112]                  @ 4-byte Spill
	movs	r2, #15
	ldr	r6, [sp, #124]                  @ 4-byte Reload
	mov	r0, r6
	bics	r0, r2
	str	r0, [sp, #108]                  @ 4-byte Spill
	ldr	r1, [sp, #136]                  @ 4-byte Reload
	adds	r1, r1, r0
	subs	r0, r5, r1
	ldr	r4, [sp, #152]                  @ 4-byte Reload
	mov	r3, r4
	sbcs	r3, r4
	ands	r2, r6
	subs	r0, r0, r2
	sbcs	r3, r4
	bhs	.Lgcm_v6m_small_BB73_22
@ %bb.20:                               @ %join.7.i.i.i.i.i.i217.preheader
	movs	r3, #3
	mov	r0, r6
	ands	r0, r3
	cmp	r2, #4
	str	r0, [sp, #104]                  @ 4-byte Spill
	bhs	.Lgcm_v6m_small_BB73_23
@ %bb.21:
	movs	r2, #0
	ldr	r5, [sp, #128]                  @ 4-byte Reload
	ldr	r3, [sp, #144]                  @ 4-byte Reload
	b	.Lgcm_v6m_small_BB73_26
.Lgcm_v6m_small_BB73_22:                              @ %apart.2.i.i.i.i.i.i215
	mov	r0, r5
	bl	memmove
	ldr	r5, [sp, #128]                  @ 4-byte Reload
	ldr	r6, [sp, #136]                  @ 4-byte Reload
	b	.Lgcm_v6m_small_BB73_29
.Lgcm_v6m_small_BB73_23:                              @ %join.7.i.i.i.i.i.i217.preheader.new
	movs	r2, #12
	ands	r6, r2
	movs	r5, #0
	mov	r2, r5
	str	r5, [sp, #156]                  @ 4-byte Spill
	str	r3, [sp, #148]                  @ 4-byte Spill
	ldr	r3, [sp, #144]                  @ 4-byte Reload
	mov	r4, r6
.Lgcm_v6m_small_BB73_24:                              @ %join.7.i.i.i.i.i.i217
                                        @ =>This Inner Loop Header: Depth=1
	ldrb	r6, [r1, r2]
	strb	r6, [r3, r2]
	movs	r6, #1
	orrs	r6, r2
	ldrb	r0, [r1, r6]
	strb	r0, [r3, r6]
	movs	r0, #2
	orrs	r0, r2
	ldrb	r6, [r1, r0]
	strb	r6, [r3, r0]
	mov	r0, r2
	ldr	r6, [sp, #148]                  @ 4-byte Reload
	orrs	r0, r6
	ldrb	r6, [r1, r0]
	strb	r6, [r3, r0]
	adds	r2, r2, #4
	ldr	r0, [sp, #156]                  @ 4-byte Reload
	adcs	r5, r0
	mov	r0, r2
	eors	r0, r4
	orrs	r0, r5
	bne	.Lgcm_v6m_small_BB73_24
@ %bb.25:                               @ %"core::slice::edits::slice+T::copy_from_slice::<i8,20'core::clone::U8Clone{}>.exit224.loopexit.unr-lcssa"
	ldr	r0, [sp, #104]                  @ 4-byte Reload
	cmp	r0, #0
	ldr	r4, [sp, #152]                  @ 4-byte Reload
	ldr	r5, [sp, #128]                  @ 4-byte Reload
	ldr	r6, [sp, #136]                  @ 4-byte Reload
	beq	.Lgcm_v6m_small_BB73_29
.Lgcm_v6m_small_BB73_26:                              @ %join.7.i.i.i.i.i.i217.epil.preheader
	mov	r6, r0
	ldrb	r0, [r1, r2]
	strb	r0, [r3, r2]
	mov	r0, r6
	ldr	r6, [sp, #136]                  @ 4-byte Reload
	cmp	r0, #1
	beq	.Lgcm_v6m_small_BB73_29
@ %bb.27:                               @ %join.7.i.i.i.i.i.i217.epil.1
	adds	r3, r2, #1
	str	r3, [sp, #156]                  @ 4-byte Spill
	ldrb	r3, [r1, r3]
	ldr	r0, [sp, #144]                  @ 4-byte Reload
	ldr	r6, [sp, #156]                  @ 4-byte Reload
	strb	r3, [r0, r6]
	ldr	r3, [sp, #144]                  @ 4-byte Reload
	ldr	r0, [sp, #104]                  @ 4-byte Reload
	cmp	r0, #2
	ldr	r6, [sp, #136]                  @ 4-byte Reload
	beq	.Lgcm_v6m_small_BB73_29
@ %bb.28:                               @ %join.7.i.i.i.i.i.i217.epil.2
	adds	r0, r2, #2
	ldrb	r1, [r1, r0]
	strb	r1, [r3, r0]
.Lgcm_v6m_small_BB73_29:                              @ %"core::slice::edits::slice+T::copy_from_slice::<i8,20'core::clone::U8Clone{}>.exit224"
	ldr	r0, [sp, #140]                  @ 4-byte Reload
	ldr	r0, [r0]
	ldrb	r1, [r0]
	lsls	r1, r1, #24
	ldrb	r2, [r0, #1]
	lsls	r2, r2, #16
	adds	r1, r2, r1
	ldrb	r2, [r0, #2]
	lsls	r2, r2, #8
	adds	r1, r1, r2
	ldrb	r2, [r0, #3]
	adds	r1, r1, r2
	str	r1, [sp, #172]
	ldrb	r1, [r0, #5]
	lsls	r1, r1, #16
	ldrb	r2, [r0, #4]
	lsls	r2, r2, #24
	adds	r1, r2, r1
	ldrb	r2, [r0, #6]
	lsls	r2, r2, #8
	adds	r1, r1, r2
	ldrb	r2, [r0, #7]
	adds	r1, r1, r2
	str	r1, [sp, #168]
	ldrb	r1, [r0, #8]
	lsls	r1, r1, #24
	ldrb	r2, [r0, #9]
	lsls	r2, r2, #16
	adds	r1, r2, r1
	ldrb	r2, [r0, #10]
	lsls	r2, r2, #8
	adds	r1, r1, r2
	ldrb	r2, [r0, #11]
	adds	r1, r1, r2
	str	r1, [sp, #164]
	ldrb	r1, [r0, #13]
	lsls	r1, r1, #16
	ldrb	r2, [r0, #12]
	lsls	r2, r2, #24
	adds	r1, r2, r1
	ldrb	r2, [r0, #14]
	lsls	r2, r2, #8
	adds	r1, r1, r2
	ldrb	r0, [r0, #15]
	adds	r0, r1, r0
	str	r0, [sp, #160]
	ldr	r0, [sp, #108]                  @ 4-byte Reload
	str	r0, [sp, #16]
	str	r4, [sp, #20]
	ldr	r0, [sp, #116]                  @ 4-byte Reload
	str	r0, [sp]
	ldr	r0, [sp, #112]                  @ 4-byte Reload
	str	r0, [sp, #4]
	str	r6, [sp, #8]
	add	r0, sp, #160
	ldr	r2, [sp, #132]                  @ 4-byte Reload
	ldr	r3, [sp, #120]                  @ 4-byte Reload
	bl	gcm_v6m_small.gcm.single_blocks.hash_singly.1
	strb	r0, [r5, #15]
	lsrs	r4, r0, #8
	strb	r4, [r5, #14]
	lsrs	r4, r0, #16
	strb	r4, [r5, #13]
	lsrs	r0, r0, #24
	strb	r0, [r5, #12]
	strb	r1, [r5, #11]
	lsrs	r0, r1, #8
	strb	r0, [r5, #10]
	lsrs	r0, r1, #16
	strb	r0, [r5, #9]
	lsrs	r0, r1, #24
	strb	r0, [r5, #8]
	strb	r2, [r5, #7]
	lsrs	r0, r2, #8
	strb	r0, [r5, #6]
	lsrs	r0, r2, #16
	strb	r0, [r5, #5]
	lsrs	r0, r2, #24
	strb	r0, [r5, #4]
	strb	r3, [r5, #3]
	lsrs	r0, r3, #8
	strb	r0, [r5, #2]
	lsrs	r0, r3, #16
	strb	r0, [r5, #1]
	lsrs	r0, r3, #24
	strb	r0, [r5]
.Lgcm_v6m_small_BB73_30:                              @ %common.ret
	subs	r6, r7, #7
	subs	r6, #5
	mov	sp, r6
	pop	{r4, r5, r6, r7, pc}
.Lgcm_v6m_small_func_end73:
	.size	gcm_v6m_small.gcm.hash_room.hash_piece, .Lgcm_v6m_small_func_end73-gcm_v6m_small.gcm.hash_room.hash_piece
	.cantunwind
	.fnend
                                        @ -- End function
	.section	.text.gcm_v6m_small.gcm.mode.BorrowedGcm.enter_phase,"ax",%progbits
	.p2align	1                               @ -- Begin function gcm::mode::BorrowedGcm::enter_phase::<#c01aad2b5fbc92b1>
	.type	gcm_v6m_small.gcm.mode.BorrowedGcm.enter_phase,%function
	.code	16
	.thumb_func
gcm_v6m_small.gcm.mode.BorrowedGcm.enter_phase: @ @gcm_v6m_small.gcm.mode.BorrowedGcm.enter_phase
	.fnstart
@ %bb.0:                                @ %start
	.save	{r4, r5, r6, r7, lr}
	push	{r4, r5, r6, r7, lr}
	.pad	#20
	sub	sp, #20
	str	r2, [sp, #16]                   @ 4-byte Spill
	mov	r3, r1
	mov	r7, r0
	ldr	r0, [r1, #24]
	ldr	r2, [r1, #28]
	movs	r1, #0
	subs	r0, r0, #1
	sbcs	r2, r1
	movs	r4, #1
	subs	r5, r0, #4
	sbcs	r2, r1
	mov	r2, r4
	blo	.Lgcm_v6m_small_BB74_2
@ %bb.1:                                @ %start
	mov	r2, r1
.Lgcm_v6m_small_BB74_2:                               @ %start
	cmp	r2, #0
	beq	.Lgcm_v6m_small_BB74_4
@ %bb.3:
	adds	r2, r0, #1
.Lgcm_v6m_small_BB74_4:                               @ %start
	uxtb	r6, r2
	cmp	r6, #1
	beq	.Lgcm_v6m_small_BB74_6
@ %bb.5:                                @ %start
	ldr	r0, [sp, #16]                   @ 4-byte Reload
	uxtb	r0, r0
	cmp	r6, r0
	bne	.Lgcm_v6m_small_BB74_18
.Lgcm_v6m_small_BB74_6:                               @ %join.3
	str	r7, [sp, #8]                    @ 4-byte Spill
	mov	r5, r3
	adds	r5, #48
	ldr	r2, [sp, #44]
	ldr	r0, [sp, #40]
	ldr	r7, [r3, #8]
	ldr	r4, [r3, #12]
	movs	r1, #0
	adds	r0, r0, r7
	adcs	r4, r2
	mov	r2, r1
	adcs	r2, r1
	mvns	r7, r1
	cmp	r2, #0
	str	r7, [sp, #12]                   @ 4-byte Spill
	bne	.Lgcm_v6m_small_BB74_8
@ %bb.7:                                @ %join.3
	str	r4, [sp, #12]                   @ 4-byte Spill
.Lgcm_v6m_small_BB74_8:                               @ %join.3
	bne	.Lgcm_v6m_small_BB74_10
@ %bb.9:                                @ %join.3
	mov	r7, r0
.Lgcm_v6m_small_BB74_10:                              @ %join.3
	movs	r0, #31
	mvns	r0, r0
	movs	r4, #15
	str	r0, [sp, #4]                    @ 4-byte Spill
	subs	r2, r0, r7
	mov	r2, r4
	ldr	r0, [sp, #12]                   @ 4-byte Reload
	sbcs	r2, r0
	bhs	.Lgcm_v6m_small_BB74_12
@ %bb.11:
	movs	r1, #1
.Lgcm_v6m_small_BB74_12:                              @ %join.3
	cmp	r6, #1
	bne	.Lgcm_v6m_small_BB74_17
@ %bb.13:                               @ %join.3
	ldr	r0, [sp, #4]                    @ 4-byte Reload
	subs	r0, r0, r7
	ldr	r0, [sp, #12]                   @ 4-byte Reload
	sbcs	r4, r0
	mov	r4, r1
	ldr	r0, [sp, #8]                    @ 4-byte Reload
	blo	.Lgcm_v6m_small_BB74_18
@ %bb.14:                               @ %then.8
	mov	r4, r3
	mov	r1, r3
	bl	gcm_v6m_small.gcm.mode.BorrowedGcm.hash_so_far
	strb	r0, [r5, #15]
	strb	r1, [r5, #11]
	strb	r2, [r5, #7]
	strb	r3, [r5, #3]
	lsrs	r6, r0, #8
	strb	r6, [r5, #14]
	lsrs	r6, r0, #16
	strb	r6, [r5, #13]
	lsrs	r0, r0, #24
	strb	r0, [r5, #12]
	lsrs	r0, r1, #8
	strb	r0, [r5, #10]
	lsrs	r0, r1, #16
	strb	r0, [r5, #9]
	lsrs	r0, r1, #24
	strb	r0, [r5, #8]
	lsrs	r0, r2, #8
	strb	r0, [r5, #6]
	lsrs	r0, r2, #16
	strb	r0, [r5, #5]
	lsrs	r0, r2, #24
	strb	r0, [r5, #4]
	lsrs	r0, r3, #8
	strb	r0, [r5, #2]
	lsrs	r0, r3, #16
	strb	r0, [r5, #1]
	lsrs	r0, r3, #24
	strb	r0, [r5]
	movs	r1, #0
	str	r1, [r4, #28]
	ldr	r0, [sp, #16]                   @ 4-byte Reload
	uxtb	r0, r0
	cmp	r0, #3
	beq	.Lgcm_v6m_small_BB74_16
@ %bb.15:
	movs	r0, #2
.Lgcm_v6m_small_BB74_16:                              @ %then.8
	str	r0, [r4, #24]
.Lgcm_v6m_small_BB74_17:                              @ %return.4
	mov	r4, r1
.Lgcm_v6m_small_BB74_18:                              @ %return.4
	mov	r0, r4
	add	sp, #20
	pop	{r4, r5, r6, r7, pc}
.Lgcm_v6m_small_func_end74:
	.size	gcm_v6m_small.gcm.mode.BorrowedGcm.enter_phase, .Lgcm_v6m_small_func_end74-gcm_v6m_small.gcm.mode.BorrowedGcm.enter_phase
	.cantunwind
	.fnend
                                        @ -- End function
	.section	.text.gcm_v6m_small.gcm.mode.BorrowedGcm.is_tag_so_far,"ax",%progbits
	.p2align	1                               @ -- Begin function gcm::mode::BorrowedGcm::is_tag_so_far::<#c01aad2b5fbc92b1>
	.type	gcm_v6m_small.gcm.mode.BorrowedGcm.is_tag_so_far,%function
	.code	16
	.thumb_func
gcm_v6m_small.gcm.mode.BorrowedGcm.is_tag_so_far: @ @gcm_v6m_small.gcm.mode.BorrowedGcm.is_tag_so_far
	.fnstart
@ %bb.0:                                @ %start
	.save	{r4, r5, r7, lr}
	push	{r4, r5, r7, lr}
	.pad	#16
	sub	sp, #16
	mov	r4, r2
	mov	r5, sp
	mov	r2, r5
	bl	gcm_v6m_small.gcm.mode.BorrowedGcm.put_tag_so_far
	mov	r0, r4
	mov	r1, r5
	bl	gcm_v6m_small.aes_cipher.blocks.difference
	mov	r4, r0
	mov	r0, r5
	bl	gcm_v6m_small.aes_cipher.zeroize.elements.zeroize_elements.2
	rsbs	r0, r4, #0
	adcs	r0, r4
	add	sp, #16
	pop	{r4, r5, r7, pc}
.Lgcm_v6m_small_func_end75:
	.size	gcm_v6m_small.gcm.mode.BorrowedGcm.is_tag_so_far, .Lgcm_v6m_small_func_end75-gcm_v6m_small.gcm.mode.BorrowedGcm.is_tag_so_far
	.cantunwind
	.fnend
                                        @ -- End function
	.section	.text.gcm_v6m_small.gcm.mode.BorrowedGcm.is_short_tag_so_far,"ax",%progbits
	.p2align	1                               @ -- Begin function gcm::mode::BorrowedGcm::is_short_tag_so_far::<#c01aad2b5fbc92b1>
	.type	gcm_v6m_small.gcm.mode.BorrowedGcm.is_short_tag_so_far,%function
	.code	16
	.thumb_func
gcm_v6m_small.gcm.mode.BorrowedGcm.is_short_tag_so_far: @ @gcm_v6m_small.gcm.mode.BorrowedGcm.is_short_tag_so_far
	.fnstart
@ %bb.0:                                @ %start
	.save	{r4, r5, r6, lr}
	push	{r4, r5, r6, lr}
	.pad	#32
	sub	sp, #32
	mov	r5, r2
	add	r4, sp, #16
	mov	r2, r4
	bl	gcm_v6m_small.gcm.mode.BorrowedGcm.put_tag_so_far
	ldr	r0, [sp, #28]
	str	r0, [sp, #12]
	ldr	r0, [sp, #24]
	str	r0, [sp, #8]
	ldr	r0, [sp, #20]
	str	r0, [sp, #4]
	ldr	r0, [sp, #16]
	str	r0, [sp]
	mov	r6, sp
	ldr	r2, [sp, #48]
	mov	r0, r6
	mov	r1, r5
	bl	memcpy
	mov	r0, r6
	mov	r1, r4
	bl	gcm_v6m_small.aes_cipher.blocks.difference
	mov	r5, r0
	mov	r0, r4
	bl	gcm_v6m_small.aes_cipher.zeroize.elements.zeroize_elements.2
	mov	r0, r6
	bl	gcm_v6m_small.aes_cipher.zeroize.elements.zeroize_elements.2
	rsbs	r0, r5, #0
	adcs	r0, r5
	add	sp, #32
	pop	{r4, r5, r6, pc}
.Lgcm_v6m_small_func_end76:
	.size	gcm_v6m_small.gcm.mode.BorrowedGcm.is_short_tag_so_far, .Lgcm_v6m_small_func_end76-gcm_v6m_small.gcm.mode.BorrowedGcm.is_short_tag_so_far
	.cantunwind
	.fnend
                                        @ -- End function
	.section	.text.gcm_v6m_small.fotsgure_gcm_version,"ax",%progbits
	export_gcm_v6m_small	fotsgure_gcm_version
	.p2align	1
	.type	gcm_v6m_small.fotsgure_gcm_version,%function
	.code	16
	.thumb_func
gcm_v6m_small.fotsgure_gcm_version:                   @ @gcm_v6m_small.fotsgure_gcm_version
	.fnstart
@ %bb.0:
	movs	r0, #25
	lsls	r0, r0, #4
	b	.Lgcm_v6m_small_return_10308
.Lgcm_v6m_small_return_10308:
	movs	r1, #0
	movs	r2, #0
	movs	r3, #0
	mov	r12, r1
	bx	lr
.Lgcm_v6m_small_func_end77:
	.size	gcm_v6m_small.fotsgure_gcm_version, .Lgcm_v6m_small_func_end77-gcm_v6m_small.fotsgure_gcm_version
	.cantunwind
	.fnend
                                        @ -- End function
	.section	.text.gcm_v6m_small.fotsgure_gcm_set_key,"ax",%progbits
	export_gcm_v6m_small	fotsgure_gcm_set_key
	.p2align	1
	.type	gcm_v6m_small.fotsgure_gcm_set_key,%function
	.code	16
	.thumb_func
gcm_v6m_small.fotsgure_gcm_set_key:                   @ @gcm_v6m_small.fotsgure_gcm_set_key
	.fnstart
@ %bb.0:
	.save	{r4, r5, r6, r7, lr}
	push	{r4, r5, r6, r7, lr}
	.pad	#28
	sub	sp, #28
	mov	r5, r2
	cmp	r2, #32
	beq	.Lgcm_v6m_small_BB78_3
@ %bb.1:
	movs	r2, #8
	mov	r3, r5
	bics	r3, r2
	cmp	r3, #16
	beq	.Lgcm_v6m_small_BB78_3
@ %bb.2:                                @ %then.1.i.i
	movs	r1, #125
	lsls	r2, r1, #2
	movs	r1, #0
	bl	memset
	movs	r4, #1
	b	.Lgcm_v6m_small_BB78_6
.Lgcm_v6m_small_BB78_3:                               @ %join.3.i.i
	str	r0, [sp, #4]                    @ 4-byte Spill
	adds	r6, r0, #4
	movs	r0, #15
	lsls	r2, r0, #5
	movs	r4, #0
	mov	r0, r6
	mov	r7, r1
	mov	r1, r4
	bl	memset
	cmp	r7, #0
	bne	.Lgcm_v6m_small_BB78_5
@ %bb.4:
	movs	r0, #1
	lsls	r0, r0, #12
	adds	r7, r7, r0
.Lgcm_v6m_small_BB78_5:                               @ %join.3.i.i
	mov	r0, r6
	mov	r1, r7
	mov	r2, r5
	mov	r3, r4
	bl	gcm_v6m_small.aes_narrow.word_room.expand_words
	bl	gcm_v6m_small.aes_cipher.zeroize.stack.wipe_stack.768
	ldr	r0, [sp, #4]                    @ 4-byte Reload
	str	r5, [r0]
	lsrs	r1, r5, #31
	lsls	r2, r5, #1
	adds	r2, #56
	adcs	r1, r4
	str	r1, [sp, #20]
	str	r2, [sp, #16]
	str	r4, [sp, #12]
	str	r6, [sp, #8]
	movs	r1, #121
	lsls	r1, r1, #2
	adds	r1, r0, r1
	add	r0, sp, #8
	bl	gcm_v6m_small.gcm.mode.put_subkey
	bl	gcm_v6m_small.aes_cipher.zeroize.stack.wipe_stack.512
.Lgcm_v6m_small_BB78_6:                               @ %wide_fotsgure_gcm_set_key.exit
	mov	r0, r4
	add	sp, #28
	b	.Lgcm_v6m_small_return_10391
.Lgcm_v6m_small_return_10391:
	movs	r1, #0
	movs	r2, #0
	movs	r3, #0
	mov	r12, r1
	mov	lr, r1
	pop	{r4, r5, r6, r7, pc}
.Lgcm_v6m_small_func_end78:
	.size	gcm_v6m_small.fotsgure_gcm_set_key, .Lgcm_v6m_small_func_end78-gcm_v6m_small.fotsgure_gcm_set_key
	.cantunwind
	.fnend
                                        @ -- End function
	.section	.text.gcm_v6m_small.fotsgure_gcm_set_key_of,"ax",%progbits
	export_gcm_v6m_small	fotsgure_gcm_set_key_of
	.p2align	1
	.type	gcm_v6m_small.fotsgure_gcm_set_key_of,%function
	.code	16
	.thumb_func
gcm_v6m_small.fotsgure_gcm_set_key_of:                @ @gcm_v6m_small.fotsgure_gcm_set_key_of
	.fnstart
@ %bb.0:
	.save	{r4, r5, r6, lr}
	push	{r4, r5, r6, lr}
	.pad	#16
	sub	sp, #16
	mov	r4, r0
	ldr	r5, [r1]
	cmp	r5, #32
	beq	.Lgcm_v6m_small_BB79_3
@ %bb.1:
	movs	r0, #8
	mov	r2, r5
	bics	r2, r0
	cmp	r2, #16
	beq	.Lgcm_v6m_small_BB79_3
@ %bb.2:                                @ %then.1.i.i
	movs	r0, #125
	lsls	r2, r0, #2
	movs	r1, #0
	mov	r0, r4
	bl	memset
	adds	r0, r4, #4
	bl	gcm_v6m_small.aes_cipher.zeroize.elements.zeroize_elements.1
	movs	r0, #121
	lsls	r0, r0, #2
	adds	r0, r4, r0
	bl	gcm_v6m_small.aes_cipher.zeroize.elements.zeroize_elements.2
	movs	r5, #2
	b	.Lgcm_v6m_small_BB79_4
.Lgcm_v6m_small_BB79_3:                               @ %join.3.i.i
	mov	r6, r4
	stm	r6!, {r5}
	adds	r1, r1, #4
	movs	r0, #15
	lsls	r2, r0, #5
	mov	r0, r6
	bl	memmove
	lsrs	r0, r5, #31
	lsls	r1, r5, #1
	movs	r5, #0
	adds	r1, #56
	adcs	r0, r5
	str	r0, [sp, #12]
	str	r1, [sp, #8]
	str	r5, [sp, #4]
	str	r6, [sp]
	movs	r0, #121
	lsls	r0, r0, #2
	adds	r1, r4, r0
	mov	r0, sp
	bl	gcm_v6m_small.gcm.mode.put_subkey
	bl	gcm_v6m_small.aes_cipher.zeroize.stack.wipe_stack.512
.Lgcm_v6m_small_BB79_4:                               @ %wide_fotsgure_gcm_set_key_of.exit
	mov	r0, r5
	add	sp, #16
	b	.Lgcm_v6m_small_return_10467
.Lgcm_v6m_small_return_10467:
	movs	r1, #0
	movs	r2, #0
	movs	r3, #0
	mov	r12, r1
	mov	lr, r1
	pop	{r4, r5, r6, pc}
.Lgcm_v6m_small_func_end79:
	.size	gcm_v6m_small.fotsgure_gcm_set_key_of, .Lgcm_v6m_small_func_end79-gcm_v6m_small.fotsgure_gcm_set_key_of
	.cantunwind
	.fnend
                                        @ -- End function
	.section	.text.gcm_v6m_small.fotsgure_gcm_key_length,"ax",%progbits
	export_gcm_v6m_small	fotsgure_gcm_key_length
	.p2align	1
	.type	gcm_v6m_small.fotsgure_gcm_key_length,%function
	.code	16
	.thumb_func
gcm_v6m_small.fotsgure_gcm_key_length:                @ @gcm_v6m_small.fotsgure_gcm_key_length
	.fnstart
@ %bb.0:
	ldr	r0, [r0]
	movs	r1, #8
	mov	r2, r0
	bics	r2, r1
	cmp	r2, #16
	mov	r1, r0
	bne	.Lgcm_v6m_small_BB80_3
@ %bb.1:
	cmp	r0, #32
	bne	.Lgcm_v6m_small_BB80_4
.Lgcm_v6m_small_BB80_2:
	b	.Lgcm_v6m_small_return_10500
.Lgcm_v6m_small_BB80_3:
	movs	r1, #0
	cmp	r0, #32
	beq	.Lgcm_v6m_small_BB80_2
.Lgcm_v6m_small_BB80_4:
	mov	r0, r1
	b	.Lgcm_v6m_small_return_10500
.Lgcm_v6m_small_return_10500:
	movs	r1, #0
	movs	r2, #0
	movs	r3, #0
	mov	r12, r1
	bx	lr
.Lgcm_v6m_small_func_end80:
	.size	gcm_v6m_small.fotsgure_gcm_key_length, .Lgcm_v6m_small_func_end80-gcm_v6m_small.fotsgure_gcm_key_length
	.cantunwind
	.fnend
                                        @ -- End function
	.section	.text.gcm_v6m_small.fotsgure_gcm_wipe,"ax",%progbits
	export_gcm_v6m_small	fotsgure_gcm_wipe
	.p2align	1
	.type	gcm_v6m_small.fotsgure_gcm_wipe,%function
	.code	16
	.thumb_func
gcm_v6m_small.fotsgure_gcm_wipe:                      @ @gcm_v6m_small.fotsgure_gcm_wipe
	.fnstart
@ %bb.0:
	.save	{r4, lr}
	push	{r4, lr}
	mov	r4, r0
	movs	r0, #125
	lsls	r2, r0, #2
	movs	r1, #0
	mov	r0, r4
	bl	memset
	adds	r0, r4, #4
	bl	gcm_v6m_small.aes_cipher.zeroize.elements.zeroize_elements.1
	movs	r0, #121
	lsls	r0, r0, #2
	adds	r0, r4, r0
	bl	gcm_v6m_small.aes_cipher.zeroize.elements.zeroize_elements.2
	b	.Lgcm_v6m_small_return_10542
.Lgcm_v6m_small_return_10542:
	movs	r1, #0
	movs	r2, #0
	movs	r3, #0
	mov	r12, r1
	mov	lr, r1
	pop	{r4, pc}
.Lgcm_v6m_small_func_end81:
	.size	gcm_v6m_small.fotsgure_gcm_wipe, .Lgcm_v6m_small_func_end81-gcm_v6m_small.fotsgure_gcm_wipe
	.cantunwind
	.fnend
                                        @ -- End function
	.section	.text.gcm_v6m_small.fotsgure_gcm_seal,"ax",%progbits
	export_gcm_v6m_small	fotsgure_gcm_seal
	.p2align	1
	.type	gcm_v6m_small.fotsgure_gcm_seal,%function
	.code	16
	.thumb_func
gcm_v6m_small.fotsgure_gcm_seal:                      @ @gcm_v6m_small.fotsgure_gcm_seal
	.fnstart
@ %bb.0:
	.save	{r4, r5, r6, lr}
	push	{r4, r5, r6, lr}
	.pad	#40
	sub	sp, #40
	mov	r4, r3
	ldr	r3, [sp, #68]
	str	r3, [sp, #32]
	movs	r3, #0
	str	r3, [sp, #28]
	ldr	r5, [sp, #64]
	str	r5, [sp, #24]
	str	r3, [sp, #12]
	ldr	r5, [sp, #56]
	str	r5, [sp, #8]
	movs	r5, #1
	lsls	r5, r5, #12
	ldr	r6, [sp, #60]
	cmp	r6, #0
	bne	.Lgcm_v6m_small_BB82_2
@ %bb.1:
	adds	r6, r6, r5
.Lgcm_v6m_small_BB82_2:
	str	r6, [sp, #16]
	cmp	r4, #0
	bne	.Lgcm_v6m_small_BB82_4
@ %bb.3:
	adds	r4, r4, r5
.Lgcm_v6m_small_BB82_4:
	str	r4, [sp]
	cmp	r1, #0
	bne	.Lgcm_v6m_small_BB82_6
@ %bb.5:
	adds	r1, r1, r5
.Lgcm_v6m_small_BB82_6:
	bl	gcm_v6m_small.gcm_c.whole.fotsgure_gcm_seal
	add	sp, #40
	b	.Lgcm_v6m_small_return_10600
.Lgcm_v6m_small_return_10600:
	movs	r1, #0
	movs	r2, #0
	movs	r3, #0
	mov	r12, r1
	mov	lr, r1
	pop	{r4, r5, r6, pc}
.Lgcm_v6m_small_func_end82:
	.size	gcm_v6m_small.fotsgure_gcm_seal, .Lgcm_v6m_small_func_end82-gcm_v6m_small.fotsgure_gcm_seal
	.cantunwind
	.fnend
                                        @ -- End function
	.section	.text.gcm_v6m_small.fotsgure_gcm_seal_to,"ax",%progbits
	export_gcm_v6m_small	fotsgure_gcm_seal_to
	.p2align	2
	.type	gcm_v6m_small.fotsgure_gcm_seal_to,%function
	.code	16
	.thumb_func
gcm_v6m_small.fotsgure_gcm_seal_to:                   @ @gcm_v6m_small.fotsgure_gcm_seal_to
	.fnstart
@ %bb.0:
	.save	{r4, r5, r6, r7, lr}
	push	{r4, r5, r6, r7, lr}
	.pad	#60
	sub	sp, #60
	str	r2, [sp, #56]                   @ 4-byte Spill
	str	r0, [sp, #52]                   @ 4-byte Spill
	movs	r2, #1
	lsls	r5, r2, #12
	ldr	r7, [sp, #92]
	cmp	r7, #0
	bne	.Lgcm_v6m_small_BB83_2
@ %bb.1:
	adds	r7, r7, r5
.Lgcm_v6m_small_BB83_2:
	ldr	r4, [sp, #84]
	cmp	r4, #0
	beq	.Lgcm_v6m_small_BB83_11
@ %bb.3:
	cmp	r3, #0
	beq	.Lgcm_v6m_small_BB83_12
.Lgcm_v6m_small_BB83_4:
	cmp	r1, #0
	bne	.Lgcm_v6m_small_BB83_6
.Lgcm_v6m_small_BB83_5:
	adds	r1, r1, r5
.Lgcm_v6m_small_BB83_6:
	ldr	r5, [sp, #88]
	ldr	r0, [sp, #96]
	cmp	r5, r0
	bne	.Lgcm_v6m_small_BB83_13
@ %bb.7:                                @ %join.3.i.i
	ldr	r0, [sp, #56]                   @ 4-byte Reload
	cmp	r0, #0
	beq	.Lgcm_v6m_small_BB83_14
@ %bb.8:                                @ %after.11.i.i.i
	ldr	r0, [sp, #52]                   @ 4-byte Reload
	ldr	r0, [r0]
	subs	r0, #16
	movs	r6, #2
	cmp	r0, #16
	bhi	.Lgcm_v6m_small_BB83_15
@ %bb.9:                                @ %after.11.i.i.i
	lsls	r2, r0
	ldr	r0, .Lgcm_v6m_small_CPI83_0
	tst	r2, r0
	beq	.Lgcm_v6m_small_BB83_15
@ %bb.10:                               @ %join.6.i.i
	ldr	r0, [sp, #100]
	str	r0, [sp, #44]                   @ 4-byte Spill
	ldr	r0, [sp, #80]
	str	r0, [sp, #48]                   @ 4-byte Spill
	str	r7, [sp]
	movs	r6, #0
	mov	r0, r4
	mov	r2, r5
	mov	r4, r3
	mov	r3, r6
	str	r1, [sp, #40]                   @ 4-byte Spill
	bl	gcm_v6m_small.gcm_c.whole_to.copy
	str	r5, [sp, #24]
	str	r6, [sp, #28]
	ldr	r0, [sp, #44]                   @ 4-byte Reload
	str	r0, [sp, #32]
	ldr	r0, [sp, #48]                   @ 4-byte Reload
	add	r1, sp, #8
	stm	r1!, {r0, r6, r7}
	str	r4, [sp]
	ldr	r0, [sp, #52]                   @ 4-byte Reload
	ldr	r1, [sp, #40]                   @ 4-byte Reload
	ldr	r2, [sp, #56]                   @ 4-byte Reload
	mov	r3, r6
	bl	gcm_v6m_small.gcm_c.whole.fotsgure_gcm_seal
	mov	r6, r0
	b	.Lgcm_v6m_small_BB83_15
.Lgcm_v6m_small_BB83_11:
	adds	r4, r4, r5
	cmp	r3, #0
	bne	.Lgcm_v6m_small_BB83_4
.Lgcm_v6m_small_BB83_12:
	adds	r3, r3, r5
	cmp	r1, #0
	beq	.Lgcm_v6m_small_BB83_5
	b	.Lgcm_v6m_small_BB83_6
.Lgcm_v6m_small_BB83_13:
	movs	r6, #10
	b	.Lgcm_v6m_small_BB83_15
.Lgcm_v6m_small_BB83_14:
	movs	r6, #3
.Lgcm_v6m_small_BB83_15:                              @ %wide_fotsgure_gcm_seal_to.exit
	mov	r0, r6
	add	sp, #60
	b	.Lgcm_v6m_small_return_10713
	.p2align	2
@ %bb.16:
.Lgcm_v6m_small_CPI83_0:
	.long	65793                           @ 0x10101
.Lgcm_v6m_small_return_10713:
	movs	r1, #0
	movs	r2, #0
	movs	r3, #0
	mov	r12, r1
	mov	lr, r1
	pop	{r4, r5, r6, r7, pc}
.Lgcm_v6m_small_func_end83:
	.size	gcm_v6m_small.fotsgure_gcm_seal_to, .Lgcm_v6m_small_func_end83-gcm_v6m_small.fotsgure_gcm_seal_to
	.cantunwind
	.fnend
                                        @ -- End function
	.section	.text.gcm_v6m_small.fotsgure_gcm_seal_next,"ax",%progbits
	export_gcm_v6m_small	fotsgure_gcm_seal_next
	.p2align	1
	.type	gcm_v6m_small.fotsgure_gcm_seal_next,%function
	.code	16
	.thumb_func
gcm_v6m_small.fotsgure_gcm_seal_next:                 @ @gcm_v6m_small.fotsgure_gcm_seal_next
	.fnstart
@ %bb.0:
	.save	{r4, r5, r6, r7, lr}
	push	{r4, r5, r6, r7, lr}
	.pad	#44
	sub	sp, #44
	mov	r4, r2
	mov	r5, r1
	ldrb	r1, [r1, #8]
	ldrb	r2, [r5, #9]
	lsls	r2, r2, #8
	adds	r1, r2, r1
	ldrb	r2, [r5, #10]
	lsls	r2, r2, #16
	ldrb	r6, [r5, #11]
	lsls	r6, r6, #24
	adds	r2, r6, r2
	adds	r1, r2, r1
	ldrb	r2, [r5, #4]
	ldrb	r6, [r5, #5]
	lsls	r6, r6, #8
	adds	r2, r6, r2
	ldrb	r6, [r5, #6]
	lsls	r6, r6, #16
	ldrb	r7, [r5, #7]
	lsls	r7, r7, #24
	adds	r6, r7, r6
	adds	r2, r6, r2
	ands	r2, r1
	movs	r1, #1
	lsls	r6, r1, #12
	ldr	r1, [sp, #68]
	cmp	r1, #0
	bne	.Lgcm_v6m_small_BB84_2
@ %bb.1:
	adds	r1, r1, r6
.Lgcm_v6m_small_BB84_2:
	adds	r2, r2, #1
	cmp	r3, #0
	bne	.Lgcm_v6m_small_BB84_4
@ %bb.3:
	adds	r3, r3, r6
.Lgcm_v6m_small_BB84_4:
	cmp	r2, #0
	bne	.Lgcm_v6m_small_BB84_6
@ %bb.5:                                @ %"gcm::counter::Counter::is_over.exit.i.i"
	ldrb	r2, [r5]
	ldrb	r6, [r5, #1]
	lsls	r6, r6, #8
	adds	r2, r6, r2
	ldrb	r6, [r5, #2]
	lsls	r6, r6, #16
	ldrb	r7, [r5, #3]
	lsls	r7, r7, #24
	adds	r6, r7, r6
	adds	r2, r6, r2
	adds	r2, r2, #1
	beq	.Lgcm_v6m_small_BB84_10
.Lgcm_v6m_small_BB84_6:                               @ %join.3.i.i
	str	r4, [sp, #40]                   @ 4-byte Spill
	movs	r6, #0
	ldr	r2, [sp, #76]
	ldr	r7, [sp, #72]
	ldr	r4, [sp, #64]
	str	r7, [sp, #24]
	str	r6, [sp, #28]
	str	r2, [sp, #32]
	str	r4, [sp, #8]
	str	r6, [sp, #12]
	str	r1, [sp, #16]
	str	r3, [sp]
	movs	r2, #12
	mov	r1, r5
	mov	r3, r6
	bl	gcm_v6m_small.gcm_c.whole.fotsgure_gcm_seal
	cmp	r0, #0
	beq	.Lgcm_v6m_small_BB84_8
@ %bb.7:                                @ %wide_fotsgure_gcm_seal_next.exit
	add	sp, #44
	b	.Lgcm_v6m_small_return_10816
.Lgcm_v6m_small_BB84_8:                               @ %then.4.i.i
	mvns	r3, r6
	ldrb	r0, [r5, #8]
	ldrb	r1, [r5, #9]
	lsls	r1, r1, #8
	adds	r0, r1, r0
	ldrb	r1, [r5, #10]
	lsls	r1, r1, #16
	ldrb	r2, [r5, #11]
	lsls	r2, r2, #24
	adds	r1, r2, r1
	adds	r0, r1, r0
	mov	r2, r0
	eors	r2, r3
	ldrb	r1, [r5, #4]
	ldrb	r4, [r5, #5]
	lsls	r4, r4, #8
	adds	r1, r4, r1
	ldrb	r4, [r5, #6]
	lsls	r4, r4, #16
	ldrb	r7, [r5, #7]
	lsls	r7, r7, #24
	adds	r4, r7, r4
	adds	r1, r4, r1
	eors	r3, r1
	orrs	r3, r2
	ldrb	r2, [r5]
	ldrb	r4, [r5, #1]
	lsls	r4, r4, #8
	adds	r2, r4, r2
	ldrb	r4, [r5, #2]
	lsls	r4, r4, #16
	ldrb	r7, [r5, #3]
	lsls	r7, r7, #24
	adds	r4, r7, r4
	adds	r2, r4, r2
	rev	r4, r2
	cmp	r3, #0
	beq	.Lgcm_v6m_small_BB84_11
@ %bb.9:                                @ %"gcm::counter::nonce_after.exit.thread.i.i.i"
	str	r4, [sp, #36]                   @ 4-byte Spill
	rev	r3, r1
	rev	r4, r0
	adds	r4, r4, #1
	adcs	r3, r6
	rev	r3, r3
	rev	r7, r4
	b	.Lgcm_v6m_small_BB84_13
.Lgcm_v6m_small_BB84_10:
	movs	r0, #7
	add	sp, #44
	b	.Lgcm_v6m_small_return_10816
.Lgcm_v6m_small_BB84_11:                              @ %"gcm::counter::nonce_after.exit.i.i.i"
	adds	r3, r2, #1
	beq	.Lgcm_v6m_small_BB84_14
@ %bb.12:
	adds	r4, r4, #1
	str	r4, [sp, #36]                   @ 4-byte Spill
	movs	r7, #0
	mov	r3, r7
.Lgcm_v6m_small_BB84_13:                              @ %arm.1.i.i.i
	strb	r3, [r5, #4]
	strb	r7, [r5, #8]
	lsrs	r4, r3, #24
	strb	r4, [r5, #7]
	lsrs	r4, r3, #16
	strb	r4, [r5, #6]
	lsrs	r3, r3, #8
	strb	r3, [r5, #5]
	ldr	r3, [sp, #36]                   @ 4-byte Reload
	rev	r3, r3
	strb	r3, [r5]
	lsrs	r4, r7, #24
	strb	r4, [r5, #11]
	lsrs	r4, r7, #16
	strb	r4, [r5, #10]
	lsrs	r4, r7, #8
	strb	r4, [r5, #9]
	lsrs	r4, r3, #24
	strb	r4, [r5, #3]
	lsrs	r4, r3, #16
	strb	r4, [r5, #2]
	lsrs	r3, r3, #8
	strb	r3, [r5, #1]
.Lgcm_v6m_small_BB84_14:                              @ %"gcm::counter::Counter::take.exit.i.i"
	ldr	r4, [sp, #40]                   @ 4-byte Reload
	strb	r1, [r4, #4]
	strb	r2, [r4]
	strb	r0, [r4, #8]
	lsrs	r3, r1, #24
	strb	r3, [r4, #7]
	lsrs	r3, r1, #16
	strb	r3, [r4, #6]
	lsrs	r1, r1, #8
	strb	r1, [r4, #5]
	lsrs	r1, r2, #24
	strb	r1, [r4, #3]
	lsrs	r1, r2, #16
	strb	r1, [r4, #2]
	lsrs	r1, r2, #8
	strb	r1, [r4, #1]
	lsrs	r1, r0, #24
	strb	r1, [r4, #11]
	lsrs	r1, r0, #16
	strb	r1, [r4, #10]
	lsrs	r0, r0, #8
	strb	r0, [r4, #9]
	mov	r0, r6
	add	sp, #44
	b	.Lgcm_v6m_small_return_10816
.Lgcm_v6m_small_return_10816:
	movs	r1, #0
	movs	r2, #0
	movs	r3, #0
	mov	r12, r1
	mov	lr, r1
	pop	{r4, r5, r6, r7, pc}
.Lgcm_v6m_small_func_end84:
	.size	gcm_v6m_small.fotsgure_gcm_seal_next, .Lgcm_v6m_small_func_end84-gcm_v6m_small.fotsgure_gcm_seal_next
	.cantunwind
	.fnend
                                        @ -- End function
	.section	.text.gcm_v6m_small.fotsgure_gcm_open,"ax",%progbits
	export_gcm_v6m_small	fotsgure_gcm_open
	.p2align	2
	.type	gcm_v6m_small.fotsgure_gcm_open,%function
	.code	16
	.thumb_func
gcm_v6m_small.fotsgure_gcm_open:                      @ @gcm_v6m_small.fotsgure_gcm_open
	.fnstart
@ %bb.0:
	.save	{r4, r5, r6, r7, lr}
	push	{r4, r5, r6, r7, lr}
	.pad	#116
	sub	sp, #116
	movs	r7, #1
	lsls	r4, r7, #12
	ldr	r6, [sp, #148]
	cmp	r6, #0
	bne	.Lgcm_v6m_small_BB85_2
@ %bb.1:
	adds	r6, r6, r4
.Lgcm_v6m_small_BB85_2:
	ldr	r5, [sp, #140]
	cmp	r5, #0
	beq	.Lgcm_v6m_small_BB85_12
@ %bb.3:
	cmp	r3, #0
	beq	.Lgcm_v6m_small_BB85_13
.Lgcm_v6m_small_BB85_4:
	cmp	r1, #0
	bne	.Lgcm_v6m_small_BB85_6
.Lgcm_v6m_small_BB85_5:
	adds	r1, r1, r4
.Lgcm_v6m_small_BB85_6:
	ldr	r4, [sp, #152]
	cmp	r4, #16
	bne	.Lgcm_v6m_small_BB85_14
@ %bb.7:                                @ %join.3.i.i
	cmp	r2, #0
	beq	.Lgcm_v6m_small_BB85_15
@ %bb.8:                                @ %after.11.i.i.i
	str	r5, [sp, #48]                   @ 4-byte Spill
	str	r2, [sp, #52]                   @ 4-byte Spill
	ldr	r2, [r0]
	mov	r5, r2
	subs	r5, #16
	movs	r4, #2
	cmp	r5, #16
	bhi	.Lgcm_v6m_small_BB85_18
@ %bb.9:                                @ %after.11.i.i.i
	lsls	r7, r5
	ldr	r5, .Lgcm_v6m_small_CPI85_0
	tst	r7, r5
	beq	.Lgcm_v6m_small_BB85_18
@ %bb.10:                               @ %join.6.i.i
	ldr	r7, [sp, #144]
	ldr	r4, [sp, #136]
	str	r4, [sp, #44]                   @ 4-byte Spill
	movs	r4, #0
	str	r4, [sp, #76]
	str	r4, [sp, #60]
	adds	r5, r0, #4
	str	r5, [sp, #56]
	movs	r5, #121
	lsls	r5, r5, #2
	adds	r0, r0, r5
	lsrs	r5, r2, #31
	lsls	r2, r2, #1
	adds	r2, #56
	str	r2, [sp, #64]
	str	r0, [sp, #72]
	adcs	r5, r4
	str	r5, [sp, #68]
	ldrb	r0, [r6, #12]
	ldrb	r2, [r6, #13]
	lsls	r2, r2, #8
	adds	r0, r2, r0
	ldrb	r2, [r6, #14]
	lsls	r2, r2, #16
	ldrb	r5, [r6, #15]
	lsls	r5, r5, #24
	adds	r2, r5, r2
	adds	r0, r2, r0
	str	r0, [sp, #96]
	ldrb	r0, [r6, #8]
	ldrb	r2, [r6, #9]
	lsls	r2, r2, #8
	adds	r0, r2, r0
	ldrb	r2, [r6, #10]
	lsls	r2, r2, #16
	ldrb	r5, [r6, #11]
	lsls	r5, r5, #24
	adds	r2, r5, r2
	adds	r0, r2, r0
	str	r0, [sp, #92]
	ldrb	r0, [r6, #4]
	ldrb	r2, [r6, #5]
	lsls	r2, r2, #8
	adds	r0, r2, r0
	ldrb	r2, [r6, #6]
	lsls	r2, r2, #16
	ldrb	r5, [r6, #7]
	lsls	r5, r5, #24
	adds	r2, r5, r2
	adds	r0, r2, r0
	str	r0, [sp, #88]
	ldrb	r0, [r6]
	ldrb	r2, [r6, #1]
	lsls	r2, r2, #8
	adds	r0, r2, r0
	ldrb	r2, [r6, #2]
	lsls	r2, r2, #16
	ldrb	r5, [r6, #3]
	lsls	r5, r5, #24
	adds	r2, r5, r2
	adds	r0, r2, r0
	str	r0, [sp, #84]
	str	r4, [sp, #112]
	str	r4, [sp, #108]
	str	r4, [sp, #104]
	str	r4, [sp, #100]
	add	r0, sp, #100
	str	r0, [sp, #36]
	add	r0, sp, #84
	str	r0, [sp, #32]
	str	r4, [sp, #28]
	str	r7, [sp, #24]
	ldr	r0, [sp, #44]                   @ 4-byte Reload
	str	r0, [sp, #8]
	str	r4, [sp, #12]
	ldr	r5, [sp, #48]                   @ 4-byte Reload
	str	r5, [sp, #16]
	str	r3, [sp]
	add	r0, sp, #56
	ldr	r2, [sp, #52]                   @ 4-byte Reload
	mov	r3, r4
	bl	gcm_v6m_small.gcm.mode.BorrowedGcm.compare
	uxtb	r0, r0
	cmp	r0, #0
	beq	.Lgcm_v6m_small_BB85_16
@ %bb.11:
	movs	r4, #6
	b	.Lgcm_v6m_small_BB85_17
.Lgcm_v6m_small_BB85_12:
	adds	r5, r5, r4
	cmp	r3, #0
	bne	.Lgcm_v6m_small_BB85_4
.Lgcm_v6m_small_BB85_13:
	adds	r3, r3, r4
	cmp	r1, #0
	beq	.Lgcm_v6m_small_BB85_5
	b	.Lgcm_v6m_small_BB85_6
.Lgcm_v6m_small_BB85_14:
	movs	r4, #4
	b	.Lgcm_v6m_small_BB85_18
.Lgcm_v6m_small_BB85_15:
	movs	r4, #3
	b	.Lgcm_v6m_small_BB85_18
.Lgcm_v6m_small_BB85_16:                              @ %then.1.i.i.i
	str	r7, [sp, #8]
	str	r4, [sp, #12]
	str	r5, [sp]
	add	r0, sp, #56
	add	r1, sp, #100
	movs	r2, #16
	mov	r3, r4
	bl	gcm_v6m_small.gcm.gctr.add_gctr
.Lgcm_v6m_small_BB85_17:                              @ %"gcm::mode::BorrowedGcm::decrypt::<#c01aad2b5fbc92b1>.exit.i.i"
	add	r0, sp, #100
	bl	gcm_v6m_small.aes_cipher.zeroize.elements.zeroize_elements.2
	bl	gcm_v6m_small.aes_cipher.zeroize.stack.wipe_stack.1536
.Lgcm_v6m_small_BB85_18:                              @ %wide_fotsgure_gcm_open.exit
	mov	r0, r4
	add	sp, #116
	b	.Lgcm_v6m_small_return_11112
	.p2align	2
@ %bb.19:
.Lgcm_v6m_small_CPI85_0:
	.long	65793                           @ 0x10101
.Lgcm_v6m_small_return_11112:
	movs	r1, #0
	movs	r2, #0
	movs	r3, #0
	mov	r12, r1
	mov	lr, r1
	pop	{r4, r5, r6, r7, pc}
.Lgcm_v6m_small_func_end85:
	.size	gcm_v6m_small.fotsgure_gcm_open, .Lgcm_v6m_small_func_end85-gcm_v6m_small.fotsgure_gcm_open
	.cantunwind
	.fnend
                                        @ -- End function
	.section	.text.gcm_v6m_small.fotsgure_gcm_open_to,"ax",%progbits
	export_gcm_v6m_small	fotsgure_gcm_open_to
	.p2align	2
	.type	gcm_v6m_small.fotsgure_gcm_open_to,%function
	.code	16
	.thumb_func
gcm_v6m_small.fotsgure_gcm_open_to:                   @ @gcm_v6m_small.fotsgure_gcm_open_to
	.fnstart
@ %bb.0:
	.save	{r4, r5, r6, r7, lr}
	push	{r4, r5, r6, r7, lr}
	.pad	#132
	sub	sp, #132
	str	r2, [sp, #64]                   @ 4-byte Spill
	movs	r2, #1
	lsls	r7, r2, #12
	ldr	r6, [sp, #172]
	cmp	r6, #0
	str	r2, [sp, #60]                   @ 4-byte Spill
	bne	.Lgcm_v6m_small_BB86_2
@ %bb.1:
	adds	r6, r6, r7
.Lgcm_v6m_small_BB86_2:
	ldr	r4, [sp, #164]
	cmp	r4, #0
	bne	.Lgcm_v6m_small_BB86_4
@ %bb.3:
	adds	r4, r4, r7
.Lgcm_v6m_small_BB86_4:
	ldr	r5, [sp, #156]
	cmp	r5, #0
	bne	.Lgcm_v6m_small_BB86_5
	b	.Lgcm_v6m_small_BB86_19
.Lgcm_v6m_small_BB86_5:
	cmp	r3, #0
	bne	.Lgcm_v6m_small_BB86_6
	b	.Lgcm_v6m_small_BB86_20
.Lgcm_v6m_small_BB86_6:
	cmp	r1, #0
	bne	.Lgcm_v6m_small_BB86_8
.Lgcm_v6m_small_BB86_7:
	adds	r1, r1, r7
.Lgcm_v6m_small_BB86_8:
	ldr	r7, [sp, #160]
	ldr	r2, [sp, #168]
	cmp	r7, r2
	beq	.Lgcm_v6m_small_BB86_9
	b	.Lgcm_v6m_small_BB86_22
.Lgcm_v6m_small_BB86_9:                               @ %join.3.i.i
	ldr	r2, [sp, #176]
	cmp	r2, #16
	beq	.Lgcm_v6m_small_BB86_10
	b	.Lgcm_v6m_small_BB86_23
.Lgcm_v6m_small_BB86_10:                              @ %join.6.i.i
	ldr	r2, [sp, #64]                   @ 4-byte Reload
	cmp	r2, #0
	bne	.Lgcm_v6m_small_BB86_11
	b	.Lgcm_v6m_small_BB86_24
.Lgcm_v6m_small_BB86_11:                              @ %after.11.i.i.i
	str	r7, [sp, #48]                   @ 4-byte Spill
	ldr	r2, [r0]
	str	r2, [sp, #52]                   @ 4-byte Spill
	subs	r2, #16
	movs	r7, #2
	cmp	r2, #16
	bls	.Lgcm_v6m_small_BB86_12
	b	.Lgcm_v6m_small_BB86_37
.Lgcm_v6m_small_BB86_12:                              @ %after.11.i.i.i
	str	r4, [sp, #68]                   @ 4-byte Spill
	ldr	r4, [sp, #60]                   @ 4-byte Reload
	lsls	r4, r2
	ldr	r2, .Lgcm_v6m_small_CPI86_0
	tst	r4, r2
	bne	.Lgcm_v6m_small_BB86_13
	b	.Lgcm_v6m_small_BB86_37
.Lgcm_v6m_small_BB86_13:                              @ %join.9.i.i
	ldr	r2, [sp, #152]
	str	r2, [sp, #44]                   @ 4-byte Spill
	movs	r7, #0
	str	r7, [sp, #92]
	str	r7, [sp, #76]
	adds	r2, r0, #4
	str	r2, [sp, #72]
	movs	r2, #121
	lsls	r2, r2, #2
	adds	r0, r0, r2
	ldr	r4, [sp, #52]                   @ 4-byte Reload
	lsrs	r2, r4, #31
	lsls	r4, r4, #1
	adds	r4, #56
	str	r4, [sp, #80]
	str	r0, [sp, #88]
	adcs	r2, r7
	str	r2, [sp, #84]
	ldrb	r0, [r6, #12]
	ldrb	r2, [r6, #13]
	lsls	r2, r2, #8
	adds	r0, r2, r0
	ldrb	r2, [r6, #14]
	lsls	r2, r2, #16
	ldrb	r4, [r6, #15]
	lsls	r4, r4, #24
	adds	r2, r4, r2
	adds	r0, r2, r0
	str	r0, [sp, #112]
	ldrb	r0, [r6, #8]
	ldrb	r2, [r6, #9]
	lsls	r2, r2, #8
	adds	r0, r2, r0
	ldrb	r2, [r6, #10]
	lsls	r2, r2, #16
	ldrb	r4, [r6, #11]
	lsls	r4, r4, #24
	adds	r2, r4, r2
	adds	r0, r2, r0
	str	r0, [sp, #108]
	ldrb	r0, [r6, #4]
	ldrb	r2, [r6, #5]
	lsls	r2, r2, #8
	adds	r0, r2, r0
	ldrb	r2, [r6, #6]
	lsls	r2, r2, #16
	ldrb	r4, [r6, #7]
	lsls	r4, r4, #24
	adds	r2, r4, r2
	adds	r0, r2, r0
	str	r0, [sp, #104]
	ldrb	r0, [r6]
	ldrb	r2, [r6, #1]
	lsls	r2, r2, #8
	adds	r0, r2, r0
	ldrb	r2, [r6, #2]
	lsls	r2, r2, #16
	ldrb	r4, [r6, #3]
	lsls	r4, r4, #24
	adds	r2, r4, r2
	adds	r0, r2, r0
	str	r0, [sp, #100]
	str	r7, [sp, #128]
	str	r7, [sp, #124]
	str	r7, [sp, #120]
	str	r7, [sp, #116]
	add	r0, sp, #116
	str	r0, [sp, #36]
	add	r0, sp, #100
	str	r0, [sp, #32]
	str	r7, [sp, #28]
	ldr	r6, [sp, #48]                   @ 4-byte Reload
	str	r6, [sp, #24]
	ldr	r0, [sp, #44]                   @ 4-byte Reload
	str	r0, [sp, #8]
	str	r7, [sp, #12]
	str	r5, [sp, #16]
	str	r3, [sp]
	add	r0, sp, #72
	ldr	r2, [sp, #64]                   @ 4-byte Reload
	str	r7, [sp, #56]                   @ 4-byte Spill
	mov	r3, r7
	bl	gcm_v6m_small.gcm.mode.BorrowedGcm.compare
	uxtb	r0, r0
	cmp	r0, #0
	beq	.Lgcm_v6m_small_BB86_25
@ %bb.14:                               @ %else.2.i.i.i
	movs	r7, #6
	cmp	r6, #0
	ldr	r4, [sp, #68]                   @ 4-byte Reload
	beq	.Lgcm_v6m_small_BB86_18
@ %bb.15:                               @ %loop.5.preheader.i.i.i.i
	subs	r5, r6, #1
	ldr	r0, [sp, #56]                   @ 4-byte Reload
	mov	r1, r0
	sbcs	r1, r0
	orrs	r1, r5
	beq	.Lgcm_v6m_small_BB86_17
@ %bb.16:                               @ %join.8.preheader.i.i.i.i
	movs	r1, #0
	mov	r0, r4
	mov	r2, r5
	bl	memset
	ldr	r0, [sp, #56]                   @ 4-byte Reload
.Lgcm_v6m_small_BB86_17:                              @ %after.4.i.i.i.i
	strb	r0, [r4, r5]
.Lgcm_v6m_small_BB86_18:                              @ %"gcm::mode::BorrowedGcm::decrypt_to::<#c01aad2b5fbc92b1>.exit.i.i"
	str	r7, [sp, #56]                   @ 4-byte Spill
	b	.Lgcm_v6m_small_BB86_36
.Lgcm_v6m_small_BB86_19:
	adds	r5, r5, r7
	cmp	r3, #0
	beq	.Lgcm_v6m_small_BB86_20
	b	.Lgcm_v6m_small_BB86_6
.Lgcm_v6m_small_BB86_20:
	adds	r3, r3, r7
	cmp	r1, #0
	bne	.Lgcm_v6m_small_BB86_21
	b	.Lgcm_v6m_small_BB86_7
.Lgcm_v6m_small_BB86_21:
	b	.Lgcm_v6m_small_BB86_8
.Lgcm_v6m_small_BB86_22:
	movs	r7, #10
	b	.Lgcm_v6m_small_BB86_37
.Lgcm_v6m_small_BB86_23:
	movs	r7, #4
	b	.Lgcm_v6m_small_BB86_37
.Lgcm_v6m_small_BB86_24:
	movs	r7, #3
	b	.Lgcm_v6m_small_BB86_37
.Lgcm_v6m_small_BB86_25:                              @ %then.1.i.i.i
	ldr	r4, [sp, #68]                   @ 4-byte Reload
	subs	r0, r4, r5
	ldr	r3, [sp, #56]                   @ 4-byte Reload
	mov	r1, r3
	sbcs	r1, r3
	subs	r0, r0, r6
	sbcs	r1, r3
	bhs	.Lgcm_v6m_small_BB86_28
@ %bb.26:                               @ %join.7.i.i.i.i.i.i.i.i.i.preheader
	movs	r0, #3
	mov	r7, r6
	str	r0, [sp, #64]                   @ 4-byte Spill
	ands	r7, r0
	cmp	r6, #4
	bhs	.Lgcm_v6m_small_BB86_29
@ %bb.27:
	movs	r1, #0
	b	.Lgcm_v6m_small_BB86_32
.Lgcm_v6m_small_BB86_28:                              @ %apart.2.i.i.i.i.i.i.i.i.i
	mov	r0, r4
	mov	r1, r5
	mov	r2, r6
	bl	memmove
	ldr	r3, [sp, #56]                   @ 4-byte Reload
	b	.Lgcm_v6m_small_BB86_35
.Lgcm_v6m_small_BB86_29:                              @ %join.7.i.i.i.i.i.i.i.i.i.preheader.new
	str	r7, [sp, #44]                   @ 4-byte Spill
	ldr	r0, [sp, #64]                   @ 4-byte Reload
	bics	r6, r0
	str	r6, [sp, #52]                   @ 4-byte Spill
	movs	r0, #0
	mov	r1, r0
	mov	r7, r0
	ldr	r6, [sp, #60]                   @ 4-byte Reload
.Lgcm_v6m_small_BB86_30:                              @ %join.7.i.i.i.i.i.i.i.i.i
                                        @ =>This Inner Loop Header: Depth=1
	ldrb	r4, [r5, r1]
	ldr	r3, [sp, #68]                   @ 4-byte Reload
	strb	r4, [r3, r1]
	mov	r4, r1
	orrs	r4, r6
	ldrb	r3, [r5, r4]
	ldr	r2, [sp, #68]                   @ 4-byte Reload
	strb	r3, [r2, r4]
	movs	r3, #2
	orrs	r3, r1
	ldrb	r4, [r5, r3]
	ldr	r2, [sp, #68]                   @ 4-byte Reload
	strb	r4, [r2, r3]
	mov	r3, r1
	ldr	r2, [sp, #64]                   @ 4-byte Reload
	orrs	r3, r2
	ldrb	r4, [r5, r3]
	ldr	r2, [sp, #68]                   @ 4-byte Reload
	strb	r4, [r2, r3]
	ldr	r4, [sp, #68]                   @ 4-byte Reload
	adds	r1, r1, #4
	adcs	r7, r0
	mov	r3, r1
	ldr	r2, [sp, #52]                   @ 4-byte Reload
	eors	r3, r2
	orrs	r3, r7
	bne	.Lgcm_v6m_small_BB86_30
@ %bb.31:                               @ %"core::slice::edits::slice+T::copy_from_slice::<i8,20'core::clone::U8Clone{}>.exit.i.i.i.loopexit.unr-lcssa"
	ldr	r7, [sp, #44]                   @ 4-byte Reload
	cmp	r7, #0
	ldr	r6, [sp, #48]                   @ 4-byte Reload
	ldr	r3, [sp, #56]                   @ 4-byte Reload
	beq	.Lgcm_v6m_small_BB86_35
.Lgcm_v6m_small_BB86_32:                              @ %join.7.i.i.i.i.i.i.i.i.i.epil.preheader
	ldrb	r0, [r5, r1]
	strb	r0, [r4, r1]
	cmp	r7, #1
	beq	.Lgcm_v6m_small_BB86_35
@ %bb.33:                               @ %join.7.i.i.i.i.i.i.i.i.i.epil.1
	adds	r0, r1, #1
	ldrb	r2, [r5, r0]
	strb	r2, [r4, r0]
	cmp	r7, #2
	beq	.Lgcm_v6m_small_BB86_35
@ %bb.34:                               @ %join.7.i.i.i.i.i.i.i.i.i.epil.2
	adds	r0, r1, #2
	ldrb	r1, [r5, r0]
	strb	r1, [r4, r0]
.Lgcm_v6m_small_BB86_35:                              @ %"core::slice::edits::slice+T::copy_from_slice::<i8,20'core::clone::U8Clone{}>.exit.i.i.i"
	str	r6, [sp, #8]
	str	r3, [sp, #12]
	str	r4, [sp]
	add	r0, sp, #72
	add	r1, sp, #116
	movs	r2, #16
	bl	gcm_v6m_small.gcm.gctr.add_gctr
.Lgcm_v6m_small_BB86_36:                              @ %"gcm::mode::BorrowedGcm::decrypt_to::<#c01aad2b5fbc92b1>.exit.i.i"
	add	r0, sp, #116
	bl	gcm_v6m_small.aes_cipher.zeroize.elements.zeroize_elements.2
	bl	gcm_v6m_small.aes_cipher.zeroize.stack.wipe_stack.1536
	ldr	r7, [sp, #56]                   @ 4-byte Reload
.Lgcm_v6m_small_BB86_37:                              @ %wide_fotsgure_gcm_open_to.exit
	mov	r0, r7
	add	sp, #132
	b	.Lgcm_v6m_small_return_11436
	.p2align	2
@ %bb.38:
.Lgcm_v6m_small_CPI86_0:
	.long	65793                           @ 0x10101
.Lgcm_v6m_small_return_11436:
	movs	r1, #0
	movs	r2, #0
	movs	r3, #0
	mov	r12, r1
	mov	lr, r1
	pop	{r4, r5, r6, r7, pc}
.Lgcm_v6m_small_func_end86:
	.size	gcm_v6m_small.fotsgure_gcm_open_to, .Lgcm_v6m_small_func_end86-gcm_v6m_small.fotsgure_gcm_open_to
	.cantunwind
	.fnend
                                        @ -- End function
	.section	.text.gcm_v6m_small.fotsgure_gcm_begin,"ax",%progbits
	export_gcm_v6m_small	fotsgure_gcm_begin
	.p2align	2
	.type	gcm_v6m_small.fotsgure_gcm_begin,%function
	.code	16
	.thumb_func
gcm_v6m_small.fotsgure_gcm_begin:                     @ @gcm_v6m_small.fotsgure_gcm_begin
	.fnstart
@ %bb.0:
	.save	{r4, r5, r6, r7, lr}
	push	{r4, r5, r6, r7, lr}
	.pad	#36
	sub	sp, #36
	movs	r6, #1
	cmp	r2, #0
	bne	.Lgcm_v6m_small_BB87_2
@ %bb.1:
	lsls	r4, r6, #12
	adds	r2, r2, r4
.Lgcm_v6m_small_BB87_2:
	cmp	r3, #0
	beq	.Lgcm_v6m_small_BB87_7
@ %bb.3:                                @ %after.1.i.i
	ldr	r5, [r0]
	mov	r7, r5
	subs	r7, #16
	movs	r4, #2
	cmp	r7, #16
	bhi	.Lgcm_v6m_small_BB87_8
@ %bb.4:                                @ %after.1.i.i
	str	r6, [sp, #4]                    @ 4-byte Spill
	lsls	r6, r7
	ldr	r7, .Lgcm_v6m_small_CPI87_0
	tst	r6, r7
	beq	.Lgcm_v6m_small_BB87_8
@ %bb.5:                                @ %join.13.i.i
	movs	r4, #0
	str	r4, [sp, #28]
	str	r4, [sp, #12]
	adds	r6, r0, #4
	str	r6, [sp, #8]
	movs	r6, #121
	lsls	r6, r6, #2
	adds	r0, r0, r6
	lsrs	r6, r5, #31
	lsls	r5, r5, #1
	adds	r5, #56
	str	r5, [sp, #16]
	str	r0, [sp, #24]
	adcs	r6, r4
	str	r6, [sp, #20]
	mov	r0, r1
	adds	r0, #32
	str	r0, [sp]
	add	r0, sp, #8
	mov	r5, r1
	mov	r1, r2
	mov	r2, r3
	mov	r7, r3
	mov	r3, r4
	bl	gcm_v6m_small.gcm.mode.BorrowedGcm.put_pre_counter
	str	r4, [r5]
	str	r4, [r5, #4]
	str	r4, [r5, #8]
	str	r4, [r5, #12]
	str	r4, [r5, #16]
	str	r4, [r5, #20]
	ldr	r0, [sp, #4]                    @ 4-byte Reload
	str	r0, [r5, #24]
	str	r4, [r5, #28]
	adds	r5, #48
	movs	r2, #32
	mov	r0, r5
	mov	r1, r4
	bl	memset
	cmp	r7, #12
	beq	.Lgcm_v6m_small_BB87_8
@ %bb.6:                                @ %then.1.i.i.i.i
	bl	gcm_v6m_small.aes_cipher.zeroize.stack.wipe_stack.512
	b	.Lgcm_v6m_small_BB87_8
.Lgcm_v6m_small_BB87_7:
	movs	r4, #3
.Lgcm_v6m_small_BB87_8:                               @ %wide_fotsgure_gcm_begin.exit
	mov	r0, r4
	add	sp, #36
	b	.Lgcm_v6m_small_return_11538
	.p2align	2
@ %bb.9:
.Lgcm_v6m_small_CPI87_0:
	.long	65793                           @ 0x10101
.Lgcm_v6m_small_return_11538:
	movs	r1, #0
	movs	r2, #0
	movs	r3, #0
	mov	r12, r1
	mov	lr, r1
	pop	{r4, r5, r6, r7, pc}
.Lgcm_v6m_small_func_end87:
	.size	gcm_v6m_small.fotsgure_gcm_begin, .Lgcm_v6m_small_func_end87-gcm_v6m_small.fotsgure_gcm_begin
	.cantunwind
	.fnend
                                        @ -- End function
	.section	.text.gcm_v6m_small.fotsgure_gcm_begin_next,"ax",%progbits
	export_gcm_v6m_small	fotsgure_gcm_begin_next
	.p2align	2
	.type	gcm_v6m_small.fotsgure_gcm_begin_next,%function
	.code	16
	.thumb_func
gcm_v6m_small.fotsgure_gcm_begin_next:                @ @gcm_v6m_small.fotsgure_gcm_begin_next
	.fnstart
@ %bb.0:
	.save	{r4, r5, r6, r7, lr}
	push	{r4, r5, r6, r7, lr}
	.pad	#68
	sub	sp, #68
	str	r3, [sp, #8]                    @ 4-byte Spill
	str	r1, [sp, #12]                   @ 4-byte Spill
	ldrb	r1, [r2, #8]
	ldrb	r3, [r2, #9]
	lsls	r3, r3, #8
	adds	r1, r3, r1
	ldrb	r3, [r2, #10]
	lsls	r3, r3, #16
	ldrb	r4, [r2, #11]
	lsls	r4, r4, #24
	adds	r3, r4, r3
	adds	r1, r3, r1
	ldrb	r3, [r2, #4]
	ldrb	r4, [r2, #5]
	lsls	r4, r4, #8
	adds	r3, r4, r3
	ldrb	r4, [r2, #6]
	lsls	r4, r4, #16
	ldrb	r5, [r2, #7]
	lsls	r5, r5, #24
	adds	r4, r5, r4
	adds	r6, r4, r3
	mov	r3, r6
	str	r1, [sp, #16]                   @ 4-byte Spill
	ands	r3, r1
	adds	r3, r3, #1
	rsbs	r7, r3, #0
	adcs	r7, r3
	cmp	r3, #0
	bne	.Lgcm_v6m_small_BB88_2
@ %bb.1:                                @ %"gcm::counter::Counter::is_over.exit.i.i"
	ldrb	r3, [r2]
	ldrb	r4, [r2, #1]
	lsls	r4, r4, #8
	adds	r3, r4, r3
	ldrb	r4, [r2, #2]
	lsls	r4, r4, #16
	ldrb	r5, [r2, #3]
	lsls	r5, r5, #24
	adds	r4, r5, r4
	adds	r3, r4, r3
	adds	r3, r3, #1
	beq	.Lgcm_v6m_small_BB88_11
.Lgcm_v6m_small_BB88_2:                               @ %join.3.i.i
	ldr	r4, [r0]
	mov	r3, r4
	subs	r3, #16
	movs	r5, #2
	cmp	r3, #16
	bhi	.Lgcm_v6m_small_BB88_10
@ %bb.3:                                @ %join.3.i.i
	movs	r1, #1
	str	r1, [sp, #4]                    @ 4-byte Spill
	lsls	r1, r3
	ldr	r3, .Lgcm_v6m_small_CPI88_0
	tst	r1, r3
	beq	.Lgcm_v6m_small_BB88_10
@ %bb.4:                                @ %join.6.i.i
	movs	r5, #0
	str	r5, [sp, #52]
	str	r5, [sp, #36]
	adds	r1, r0, #4
	str	r1, [sp, #32]
	movs	r1, #121
	lsls	r1, r1, #2
	adds	r0, r0, r1
	lsrs	r1, r4, #31
	lsls	r3, r4, #1
	adds	r3, #56
	str	r3, [sp, #40]
	str	r0, [sp, #48]
	adcs	r1, r5
	str	r1, [sp, #44]
	ldrb	r0, [r2]
	ldrb	r1, [r2, #1]
	lsls	r1, r1, #8
	adds	r0, r1, r0
	ldrb	r1, [r2, #2]
	lsls	r1, r1, #16
	ldrb	r3, [r2, #3]
	lsls	r3, r3, #24
	adds	r1, r3, r1
	adds	r0, r1, r0
	rev	r4, r0
	cmp	r7, #0
	bne	.Lgcm_v6m_small_BB88_6
@ %bb.5:                                @ %"gcm::counter::nonce_after.exit.thread.i.i.i.i"
	rev	r1, r6
	ldr	r3, [sp, #16]                   @ 4-byte Reload
	rev	r3, r3
	adds	r3, r3, #1
	adcs	r1, r5
	rev	r7, r1
	rev	r3, r3
	b	.Lgcm_v6m_small_BB88_8
.Lgcm_v6m_small_BB88_6:                               @ %"gcm::counter::nonce_after.exit.i.i.i.i"
	adds	r1, r0, #1
	beq	.Lgcm_v6m_small_BB88_9
@ %bb.7:
	adds	r4, r4, #1
	movs	r3, #0
	mov	r7, r3
.Lgcm_v6m_small_BB88_8:                               @ %arm.1.i.i.i.i
	strb	r7, [r2, #4]
	strb	r3, [r2, #8]
	lsrs	r1, r7, #24
	strb	r1, [r2, #7]
	lsrs	r1, r7, #16
	strb	r1, [r2, #6]
	lsrs	r1, r7, #8
	strb	r1, [r2, #5]
	rev	r1, r4
	strb	r1, [r2]
	lsrs	r4, r3, #24
	strb	r4, [r2, #11]
	lsrs	r4, r3, #16
	strb	r4, [r2, #10]
	lsrs	r3, r3, #8
	strb	r3, [r2, #9]
	lsrs	r3, r1, #24
	strb	r3, [r2, #3]
	lsrs	r3, r1, #16
	strb	r3, [r2, #2]
	lsrs	r1, r1, #8
	strb	r1, [r2, #1]
.Lgcm_v6m_small_BB88_9:                               @ %"gcm::mode::BorrowedGcm::begin_next::<#c01aad2b5fbc92b1>.exit.i.i"
	str	r6, [sp, #60]
	str	r0, [sp, #56]
	ldr	r0, [sp, #16]                   @ 4-byte Reload
	str	r0, [sp, #64]
	ldr	r7, [sp, #12]                   @ 4-byte Reload
	mov	r0, r7
	adds	r0, #32
	str	r0, [sp]
	add	r0, sp, #32
	add	r1, sp, #56
	movs	r6, #12
	mov	r2, r6
	mov	r3, r5
	bl	gcm_v6m_small.gcm.mode.BorrowedGcm.put_pre_counter
	str	r5, [r7]
	str	r5, [r7, #4]
	str	r5, [r7, #8]
	str	r5, [r7, #12]
	str	r5, [r7, #16]
	str	r5, [r7, #20]
	ldr	r0, [sp, #4]                    @ 4-byte Reload
	str	r0, [r7, #24]
	str	r5, [r7, #28]
	adds	r7, #48
	movs	r2, #32
	mov	r0, r7
	mov	r1, r5
	bl	memset
	ldr	r0, [sp, #56]
	str	r0, [sp, #20]
	ldr	r0, [sp, #60]
	str	r0, [sp, #24]
	ldr	r0, [sp, #64]
	str	r0, [sp, #28]
	add	r1, sp, #20
	ldr	r0, [sp, #8]                    @ 4-byte Reload
	mov	r2, r6
	bl	memcpy
.Lgcm_v6m_small_BB88_10:                              @ %wide_fotsgure_gcm_begin_next.exit
	mov	r0, r5
	add	sp, #68
	b	.Lgcm_v6m_small_return_11735
.Lgcm_v6m_small_BB88_11:
	movs	r5, #7
	b	.Lgcm_v6m_small_BB88_10
	.p2align	2
@ %bb.12:
.Lgcm_v6m_small_CPI88_0:
	.long	65793                           @ 0x10101
.Lgcm_v6m_small_return_11735:
	movs	r1, #0
	movs	r2, #0
	movs	r3, #0
	mov	r12, r1
	mov	lr, r1
	pop	{r4, r5, r6, r7, pc}
.Lgcm_v6m_small_func_end88:
	.size	gcm_v6m_small.fotsgure_gcm_begin_next, .Lgcm_v6m_small_func_end88-gcm_v6m_small.fotsgure_gcm_begin_next
	.cantunwind
	.fnend
                                        @ -- End function
	.section	.text.gcm_v6m_small.fotsgure_gcm_additional,"ax",%progbits
	export_gcm_v6m_small	fotsgure_gcm_additional
	.p2align	2
	.type	gcm_v6m_small.fotsgure_gcm_additional,%function
	.code	16
	.thumb_func
gcm_v6m_small.fotsgure_gcm_additional:                @ @gcm_v6m_small.fotsgure_gcm_additional
	.fnstart
@ %bb.0:
	.save	{r4, r5, r6, r7, lr}
	push	{r4, r5, r6, r7, lr}
	.pad	#60
	sub	sp, #60
	str	r3, [sp, #28]                   @ 4-byte Spill
	movs	r5, #1
	cmp	r2, #0
	bne	.Lgcm_v6m_small_BB89_2
@ %bb.1:
	lsls	r4, r5, #12
	adds	r2, r2, r4
.Lgcm_v6m_small_BB89_2:
	ldr	r6, [r0]
	mov	r7, r6
	subs	r7, #16
	movs	r3, #2
	cmp	r7, #16
	bhi	.Lgcm_v6m_small_BB89_11
@ %bb.3:
	lsls	r5, r7
	ldr	r7, .Lgcm_v6m_small_CPI89_0
	tst	r5, r7
	beq	.Lgcm_v6m_small_BB89_11
@ %bb.4:                                @ %join.3.i.i
	movs	r5, #0
	str	r5, [sp, #52]
	str	r5, [sp, #36]
	adds	r4, r0, #4
	str	r4, [sp, #32]
	movs	r4, #121
	lsls	r4, r4, #2
	adds	r0, r0, r4
	lsrs	r4, r6, #31
	lsls	r6, r6, #1
	adds	r6, #56
	str	r6, [sp, #40]
	str	r0, [sp, #48]
	adcs	r4, r5
	str	r4, [sp, #44]
	ldr	r0, [r1, #24]
	ldr	r7, [r1, #28]
	subs	r6, r0, #1
	sbcs	r7, r5
	add	r0, sp, #32
	movs	r3, #8
	movs	r4, #3
	subs	r4, r4, r6
	mov	r4, r5
	sbcs	r4, r7
	blo	.Lgcm_v6m_small_BB89_11
@ %bb.5:                                @ %join.3.i.i
	lsls	r4, r6, #24
	bne	.Lgcm_v6m_small_BB89_11
@ %bb.6:                                @ %join.3.i.i.i
	ldm	r1!, {r4, r6}
	ldr	r3, [sp, #28]                   @ 4-byte Reload
	subs	r1, #8
	adds	r3, r3, r4
	adcs	r6, r5
	mov	r3, r5
	adcs	r3, r5
	beq	.Lgcm_v6m_small_BB89_8
@ %bb.7:
	mvns	r6, r5
.Lgcm_v6m_small_BB89_8:                               @ %join.3.i.i.i
	lsrs	r3, r6, #29
	beq	.Lgcm_v6m_small_BB89_10
@ %bb.9:
	movs	r3, #5
	b	.Lgcm_v6m_small_BB89_11
.Lgcm_v6m_small_BB89_10:                              @ %arm.4.i.i
	adds	r0, #16
	ldr	r3, [sp, #28]                   @ 4-byte Reload
	str	r3, [sp, #16]
	str	r5, [sp, #20]
	movs	r6, #15
	ands	r4, r6
	str	r4, [sp]
	str	r5, [sp, #4]
	str	r2, [sp, #8]
	mov	r4, r1
	adds	r4, #48
	mov	r2, r1
	adds	r2, #64
	mov	r6, r1
	mov	r1, r4
	mov	r4, r3
	bl	gcm_v6m_small.gcm.hash_room.hash_piece
	bl	gcm_v6m_small.aes_cipher.zeroize.stack.wipe_stack.512
	ldr	r0, [r6]
	adds	r0, r0, r4
	str	r0, [r6]
	ldr	r0, [r6, #4]
	adcs	r0, r5
	str	r0, [r6, #4]
	mov	r3, r5
.Lgcm_v6m_small_BB89_11:                              @ %wide_fotsgure_gcm_additional.exit
	mov	r0, r3
	add	sp, #60
	b	.Lgcm_v6m_small_return_11863
	.p2align	2
@ %bb.12:
.Lgcm_v6m_small_CPI89_0:
	.long	65793                           @ 0x10101
.Lgcm_v6m_small_return_11863:
	movs	r1, #0
	movs	r2, #0
	movs	r3, #0
	mov	r12, r1
	mov	lr, r1
	pop	{r4, r5, r6, r7, pc}
.Lgcm_v6m_small_func_end89:
	.size	gcm_v6m_small.fotsgure_gcm_additional, .Lgcm_v6m_small_func_end89-gcm_v6m_small.fotsgure_gcm_additional
	.cantunwind
	.fnend
                                        @ -- End function
	.section	.text.gcm_v6m_small.fotsgure_gcm_encrypt,"ax",%progbits
	export_gcm_v6m_small	fotsgure_gcm_encrypt
	.p2align	2
	.type	gcm_v6m_small.fotsgure_gcm_encrypt,%function
	.code	16
	.thumb_func
gcm_v6m_small.fotsgure_gcm_encrypt:                   @ @gcm_v6m_small.fotsgure_gcm_encrypt
	.fnstart
@ %bb.0:
	.save	{r4, r5, r6, r7, lr}
	push	{r4, r5, r6, r7, lr}
	.pad	#60
	sub	sp, #60
	mov	r7, r2
	mov	r5, r1
	movs	r2, #1
	cmp	r7, #0
	bne	.Lgcm_v6m_small_BB90_2
@ %bb.1:
	lsls	r1, r2, #12
	adds	r7, r7, r1
.Lgcm_v6m_small_BB90_2:
	ldr	r1, [r0]
	mov	r6, r1
	subs	r6, #16
	movs	r4, #2
	cmp	r6, #16
	bhi	.Lgcm_v6m_small_BB90_9
@ %bb.3:
	lsls	r2, r6
	ldr	r6, .Lgcm_v6m_small_CPI90_0
	tst	r2, r6
	beq	.Lgcm_v6m_small_BB90_9
@ %bb.4:                                @ %join.3.i.i
	movs	r4, #0
	str	r4, [sp, #52]
	str	r4, [sp, #36]
	adds	r2, r0, #4
	str	r2, [sp, #32]
	movs	r2, #121
	lsls	r2, r2, #2
	adds	r0, r0, r2
	lsrs	r2, r1, #31
	lsls	r1, r1, #1
	adds	r1, #56
	str	r1, [sp, #40]
	str	r0, [sp, #48]
	adcs	r2, r4
	str	r2, [sp, #44]
	str	r3, [sp]
	str	r4, [sp, #4]
	str	r3, [sp, #28]                   @ 4-byte Spill
	add	r6, sp, #32
	movs	r2, #2
	mov	r0, r6
	mov	r1, r5
	bl	gcm_v6m_small.gcm.mode.BorrowedGcm.enter_phase
	lsls	r0, r0, #24
	beq	.Lgcm_v6m_small_BB90_7
@ %bb.5:                                @ %arm.2.i.i.i
	lsls	r0, r1, #31
	bne	.Lgcm_v6m_small_BB90_8
@ %bb.6:                                @ %arm.2.i.i.i
	movs	r4, #8
	b	.Lgcm_v6m_small_BB90_9
.Lgcm_v6m_small_BB90_7:                               @ %arm.1.i.i.i
	adds	r6, #16
	ldr	r2, [r5, #8]
	ldr	r3, [r5, #12]
	ldr	r0, [sp, #28]                   @ 4-byte Reload
	str	r0, [sp, #8]
	str	r4, [sp, #12]
	str	r7, [sp]
	adds	r2, #16
	adcs	r3, r4
	mov	r1, r5
	adds	r1, #32
	add	r0, sp, #32
	bl	gcm_v6m_small.gcm.gctr.add_gctr
	ldr	r0, [r5, #8]
	ldr	r1, [sp, #28]                   @ 4-byte Reload
	str	r1, [sp, #16]
	str	r4, [sp, #20]
	movs	r1, #15
	ands	r1, r0
	add	r0, sp, #0
	stm	r0!, {r1, r4, r7}
	mov	r1, r5
	adds	r1, #48
	mov	r2, r5
	adds	r2, #64
	mov	r0, r6
	bl	gcm_v6m_small.gcm.hash_room.hash_piece
	ldr	r0, [r5, #8]
	ldr	r1, [sp, #28]                   @ 4-byte Reload
	adds	r0, r0, r1
	str	r0, [r5, #8]
	ldr	r0, [r5, #12]
	adcs	r0, r4
	str	r0, [r5, #12]
	bl	gcm_v6m_small.aes_cipher.zeroize.stack.wipe_stack.1536
	b	.Lgcm_v6m_small_BB90_9
.Lgcm_v6m_small_BB90_8:
	movs	r4, #5
.Lgcm_v6m_small_BB90_9:                               @ %wide_fotsgure_gcm_encrypt.exit
	mov	r0, r4
	add	sp, #60
	b	.Lgcm_v6m_small_return_11987
	.p2align	2
@ %bb.10:
.Lgcm_v6m_small_CPI90_0:
	.long	65793                           @ 0x10101
.Lgcm_v6m_small_return_11987:
	movs	r1, #0
	movs	r2, #0
	movs	r3, #0
	mov	r12, r1
	mov	lr, r1
	pop	{r4, r5, r6, r7, pc}
.Lgcm_v6m_small_func_end90:
	.size	gcm_v6m_small.fotsgure_gcm_encrypt, .Lgcm_v6m_small_func_end90-gcm_v6m_small.fotsgure_gcm_encrypt
	.cantunwind
	.fnend
                                        @ -- End function
	.section	.text.gcm_v6m_small.fotsgure_gcm_finish,"ax",%progbits
	export_gcm_v6m_small	fotsgure_gcm_finish
	.p2align	2
	.type	gcm_v6m_small.fotsgure_gcm_finish,%function
	.code	16
	.thumb_func
gcm_v6m_small.fotsgure_gcm_finish:                    @ @gcm_v6m_small.fotsgure_gcm_finish
	.fnstart
@ %bb.0:
	.save	{r4, r5, r6, r7, lr}
	push	{r4, r5, r6, r7, lr}
	.pad	#44
	sub	sp, #44
	ldr	r3, [r0]
	mov	r6, r3
	subs	r6, #16
	movs	r4, #2
	cmp	r6, #16
	bhi	.Lgcm_v6m_small_BB91_5
@ %bb.1:
	mov	r5, r2
	movs	r2, #1
	mov	r7, r2
	lsls	r7, r6
	ldr	r6, .Lgcm_v6m_small_CPI91_0
	tst	r7, r6
	beq	.Lgcm_v6m_small_BB91_5
@ %bb.2:                                @ %join.3.i.i
	movs	r4, #0
	str	r4, [sp, #36]
	str	r4, [sp, #20]
	adds	r6, r0, #4
	str	r6, [sp, #16]
	movs	r6, #121
	lsls	r6, r6, #2
	adds	r0, r0, r6
	lsrs	r6, r3, #31
	lsls	r3, r3, #1
	adds	r3, #56
	str	r3, [sp, #24]
	str	r0, [sp, #32]
	adcs	r6, r4
	str	r6, [sp, #28]
	ldr	r0, [r1, #24]
	ldr	r3, [r1, #28]
	subs	r0, r0, #1
	sbcs	r3, r4
	subs	r0, r2, r0
	mov	r0, r4
	sbcs	r0, r3
	blo	.Lgcm_v6m_small_BB91_4
@ %bb.3:                                @ %arm.4.i.i
	add	r0, sp, #16
	mov	r6, sp
	mov	r7, r1
	mov	r2, r6
	bl	gcm_v6m_small.gcm.mode.BorrowedGcm.put_tag_so_far
	bl	gcm_v6m_small.aes_cipher.zeroize.stack.wipe_stack.512
	mov	r0, r7
	bl	gcm_v6m_small.gcm.message_state.MessageZeroize.zeroize
	movs	r2, #16
	mov	r0, r5
	mov	r1, r6
	bl	memcpy
	b	.Lgcm_v6m_small_BB91_5
.Lgcm_v6m_small_BB91_4:
	movs	r4, #8
.Lgcm_v6m_small_BB91_5:                               @ %wide_fotsgure_gcm_finish.exit
	mov	r0, r4
	add	sp, #44
	b	.Lgcm_v6m_small_return_12074
	.p2align	2
@ %bb.6:
.Lgcm_v6m_small_CPI91_0:
	.long	65793                           @ 0x10101
.Lgcm_v6m_small_return_12074:
	movs	r1, #0
	movs	r2, #0
	movs	r3, #0
	mov	r12, r1
	mov	lr, r1
	pop	{r4, r5, r6, r7, pc}
.Lgcm_v6m_small_func_end91:
	.size	gcm_v6m_small.fotsgure_gcm_finish, .Lgcm_v6m_small_func_end91-gcm_v6m_small.fotsgure_gcm_finish
	.cantunwind
	.fnend
                                        @ -- End function
	.section	.text.gcm_v6m_small.fotsgure_gcm_verify,"ax",%progbits
	export_gcm_v6m_small	fotsgure_gcm_verify
	.p2align	2
	.type	gcm_v6m_small.fotsgure_gcm_verify,%function
	.code	16
	.thumb_func
gcm_v6m_small.fotsgure_gcm_verify:                    @ @gcm_v6m_small.fotsgure_gcm_verify
	.fnstart
@ %bb.0:
	.save	{r4, r5, r6, r7, lr}
	push	{r4, r5, r6, r7, lr}
	.pad	#60
	sub	sp, #60
	mov	r7, r2
	mov	r5, r1
	movs	r2, #1
	cmp	r7, #0
	bne	.Lgcm_v6m_small_BB92_2
@ %bb.1:
	lsls	r1, r2, #12
	adds	r7, r7, r1
.Lgcm_v6m_small_BB92_2:
	ldr	r1, [r0]
	mov	r6, r1
	subs	r6, #16
	movs	r4, #2
	cmp	r6, #16
	bhi	.Lgcm_v6m_small_BB92_9
@ %bb.3:
	lsls	r2, r6
	ldr	r6, .Lgcm_v6m_small_CPI92_0
	tst	r2, r6
	beq	.Lgcm_v6m_small_BB92_9
@ %bb.4:                                @ %join.3.i.i
	movs	r4, #0
	str	r4, [sp, #52]
	str	r4, [sp, #36]
	adds	r2, r0, #4
	str	r2, [sp, #32]
	movs	r2, #121
	lsls	r2, r2, #2
	adds	r0, r0, r2
	lsrs	r2, r1, #31
	lsls	r1, r1, #1
	adds	r1, #56
	str	r1, [sp, #40]
	str	r0, [sp, #48]
	adcs	r2, r4
	str	r2, [sp, #44]
	str	r3, [sp]
	str	r4, [sp, #4]
	str	r3, [sp, #28]                   @ 4-byte Spill
	add	r6, sp, #32
	movs	r2, #3
	mov	r0, r6
	mov	r1, r5
	bl	gcm_v6m_small.gcm.mode.BorrowedGcm.enter_phase
	lsls	r0, r0, #24
	beq	.Lgcm_v6m_small_BB92_7
@ %bb.5:                                @ %arm.2.i.i.i
	lsls	r0, r1, #31
	bne	.Lgcm_v6m_small_BB92_8
@ %bb.6:                                @ %arm.2.i.i.i
	movs	r4, #8
	b	.Lgcm_v6m_small_BB92_9
.Lgcm_v6m_small_BB92_7:                               @ %arm.1.i.i.i
	adds	r6, #16
	ldr	r0, [r5, #8]
	ldr	r1, [sp, #28]                   @ 4-byte Reload
	str	r1, [sp, #16]
	str	r4, [sp, #20]
	movs	r1, #15
	ands	r1, r0
	add	r0, sp, #0
	stm	r0!, {r1, r4, r7}
	mov	r1, r5
	adds	r1, #48
	mov	r2, r5
	adds	r2, #64
	mov	r0, r6
	bl	gcm_v6m_small.gcm.hash_room.hash_piece
	ldr	r0, [r5, #8]
	ldr	r1, [sp, #28]                   @ 4-byte Reload
	adds	r0, r0, r1
	str	r0, [r5, #8]
	ldr	r0, [r5, #12]
	adcs	r0, r4
	str	r0, [r5, #12]
	bl	gcm_v6m_small.aes_cipher.zeroize.stack.wipe_stack.512
	b	.Lgcm_v6m_small_BB92_9
.Lgcm_v6m_small_BB92_8:
	movs	r4, #5
.Lgcm_v6m_small_BB92_9:                               @ %wide_fotsgure_gcm_verify.exit
	mov	r0, r4
	add	sp, #60
	b	.Lgcm_v6m_small_return_12186
	.p2align	2
@ %bb.10:
.Lgcm_v6m_small_CPI92_0:
	.long	65793                           @ 0x10101
.Lgcm_v6m_small_return_12186:
	movs	r1, #0
	movs	r2, #0
	movs	r3, #0
	mov	r12, r1
	mov	lr, r1
	pop	{r4, r5, r6, r7, pc}
.Lgcm_v6m_small_func_end92:
	.size	gcm_v6m_small.fotsgure_gcm_verify, .Lgcm_v6m_small_func_end92-gcm_v6m_small.fotsgure_gcm_verify
	.cantunwind
	.fnend
                                        @ -- End function
	.section	.text.gcm_v6m_small.fotsgure_gcm_accept,"ax",%progbits
	export_gcm_v6m_small	fotsgure_gcm_accept
	.p2align	2
	.type	gcm_v6m_small.fotsgure_gcm_accept,%function
	.code	16
	.thumb_func
gcm_v6m_small.fotsgure_gcm_accept:                    @ @gcm_v6m_small.fotsgure_gcm_accept
	.fnstart
@ %bb.0:
	.save	{r4, r5, r6, r7, lr}
	push	{r4, r5, r6, r7, lr}
	.pad	#44
	sub	sp, #44
	movs	r4, #1
	cmp	r2, #0
	bne	.Lgcm_v6m_small_BB93_2
@ %bb.1:
	lsls	r5, r4, #12
	adds	r2, r2, r5
.Lgcm_v6m_small_BB93_2:
	cmp	r3, #16
	bne	.Lgcm_v6m_small_BB93_12
@ %bb.3:                                @ %join.3.i.i
	ldr	r5, [r0]
	mov	r6, r5
	subs	r6, #16
	movs	r3, #2
	cmp	r6, #16
	bhi	.Lgcm_v6m_small_BB93_13
@ %bb.4:                                @ %join.3.i.i
	mov	r7, r4
	lsls	r7, r6
	ldr	r6, .Lgcm_v6m_small_CPI93_0
	tst	r7, r6
	beq	.Lgcm_v6m_small_BB93_13
@ %bb.5:                                @ %join.6.i.i
	movs	r3, #0
	str	r3, [sp, #36]
	str	r3, [sp, #20]
	adds	r6, r0, #4
	str	r6, [sp, #16]
	movs	r6, #121
	lsls	r6, r6, #2
	adds	r0, r0, r6
	lsrs	r6, r5, #31
	lsls	r5, r5, #1
	adds	r5, #56
	str	r5, [sp, #24]
	str	r0, [sp, #32]
	adcs	r6, r3
	str	r6, [sp, #28]
	ldrb	r0, [r2]
	ldrb	r5, [r2, #1]
	lsls	r5, r5, #8
	adds	r0, r5, r0
	ldrb	r5, [r2, #2]
	lsls	r5, r5, #16
	ldrb	r6, [r2, #3]
	lsls	r6, r6, #24
	adds	r5, r6, r5
	adds	r0, r5, r0
	str	r0, [sp]
	ldrb	r0, [r2, #4]
	ldrb	r5, [r2, #5]
	lsls	r5, r5, #8
	adds	r0, r5, r0
	ldrb	r5, [r2, #6]
	lsls	r5, r5, #16
	ldrb	r6, [r2, #7]
	lsls	r6, r6, #24
	adds	r5, r6, r5
	adds	r0, r5, r0
	str	r0, [sp, #4]
	ldrb	r0, [r2, #8]
	ldrb	r5, [r2, #9]
	lsls	r5, r5, #8
	adds	r0, r5, r0
	ldrb	r5, [r2, #10]
	lsls	r5, r5, #16
	ldrb	r6, [r2, #11]
	lsls	r6, r6, #24
	adds	r5, r6, r5
	adds	r0, r5, r0
	str	r0, [sp, #8]
	ldrb	r0, [r2, #12]
	ldrb	r5, [r2, #13]
	lsls	r5, r5, #8
	adds	r0, r5, r0
	ldrb	r5, [r2, #14]
	lsls	r5, r5, #16
	ldrb	r2, [r2, #15]
	lsls	r2, r2, #24
	adds	r2, r2, r5
	adds	r0, r2, r0
	str	r0, [sp, #12]
	ldr	r0, [r1, #24]
	ldr	r2, [r1, #28]
	subs	r0, r0, #1
	sbcs	r2, r3
	subs	r5, r0, #4
	sbcs	r2, r3
	blo	.Lgcm_v6m_small_BB93_7
@ %bb.6:                                @ %join.6.i.i
	mov	r4, r3
.Lgcm_v6m_small_BB93_7:                               @ %join.6.i.i
	cmp	r4, #0
	beq	.Lgcm_v6m_small_BB93_9
@ %bb.8:
	adds	r4, r0, #1
.Lgcm_v6m_small_BB93_9:                               @ %join.6.i.i
	movs	r0, #2
	orrs	r0, r4
	uxtb	r0, r0
	cmp	r0, #3
	bne	.Lgcm_v6m_small_BB93_14
@ %bb.10:                               @ %join.3.i.i.i
	add	r0, sp, #16
	mov	r2, sp
	mov	r5, r1
	bl	gcm_v6m_small.gcm.mode.BorrowedGcm.is_tag_so_far
	mov	r4, r0
	bl	gcm_v6m_small.aes_cipher.zeroize.stack.wipe_stack.1536
	cmp	r4, #0
	beq	.Lgcm_v6m_small_BB93_15
@ %bb.11:                               @ %arm.7.i.i
	movs	r3, #0
	movs	r0, #4
	str	r3, [r5, #16]
	str	r3, [r5, #20]
	str	r0, [r5, #24]
	str	r3, [r5, #28]
	b	.Lgcm_v6m_small_BB93_13
.Lgcm_v6m_small_BB93_12:
	movs	r3, #4
.Lgcm_v6m_small_BB93_13:                              @ %wide_fotsgure_gcm_accept.exit
	mov	r0, r3
	add	sp, #44
	b	.Lgcm_v6m_small_return_12340
.Lgcm_v6m_small_BB93_14:
	movs	r3, #8
	b	.Lgcm_v6m_small_BB93_13
.Lgcm_v6m_small_BB93_15:
	movs	r3, #6
	b	.Lgcm_v6m_small_BB93_13
	.p2align	2
@ %bb.16:
.Lgcm_v6m_small_CPI93_0:
	.long	65793                           @ 0x10101
.Lgcm_v6m_small_return_12340:
	movs	r1, #0
	movs	r2, #0
	movs	r3, #0
	mov	r12, r1
	mov	lr, r1
	pop	{r4, r5, r6, r7, pc}
.Lgcm_v6m_small_func_end93:
	.size	gcm_v6m_small.fotsgure_gcm_accept, .Lgcm_v6m_small_func_end93-gcm_v6m_small.fotsgure_gcm_accept
	.cantunwind
	.fnend
                                        @ -- End function
	.section	.text.gcm_v6m_small.fotsgure_gcm_accept_short,"ax",%progbits
	export_gcm_v6m_small	fotsgure_gcm_accept_short
	.p2align	2
	.type	gcm_v6m_small.fotsgure_gcm_accept_short,%function
	.code	16
	.thumb_func
gcm_v6m_small.fotsgure_gcm_accept_short:              @ @gcm_v6m_small.fotsgure_gcm_accept_short
	.fnstart
@ %bb.0:
	.save	{r4, r5, r6, r7, lr}
	push	{r4, r5, r6, r7, lr}
	.pad	#44
	sub	sp, #44
	str	r1, [sp, #12]                   @ 4-byte Spill
	movs	r4, #3
	mov	r5, r2
	bics	r5, r4
	subs	r5, #12
	rsbs	r6, r5, #0
	adcs	r6, r5
	subs	r5, r2, #4
	movs	r4, #4
	bics	r5, r4
	rsbs	r7, r5, #0
	adcs	r7, r5
	movs	r1, #1
	cmp	r3, #0
	bne	.Lgcm_v6m_small_BB94_2
@ %bb.1:
	lsls	r5, r1, #12
	adds	r3, r3, r5
.Lgcm_v6m_small_BB94_2:
	ldr	r5, [sp, #64]
	cmp	r5, r2
	bne	.Lgcm_v6m_small_BB94_15
@ %bb.3:
	orrs	r7, r6
	beq	.Lgcm_v6m_small_BB94_15
@ %bb.4:                                @ %join.3.i.i
	ldr	r6, [r0]
	mov	r7, r6
	subs	r7, #16
	movs	r4, #2
	cmp	r7, #16
	bhi	.Lgcm_v6m_small_BB94_15
@ %bb.5:                                @ %join.3.i.i
	mov	r5, r1
	lsls	r5, r7
	ldr	r7, .Lgcm_v6m_small_CPI94_0
	tst	r5, r7
	beq	.Lgcm_v6m_small_BB94_15
@ %bb.6:                                @ %join.6.i.i
	movs	r4, #0
	str	r4, [sp, #36]
	str	r4, [sp, #20]
	adds	r5, r0, #4
	str	r5, [sp, #16]
	movs	r5, #121
	lsls	r5, r5, #2
	adds	r0, r0, r5
	lsrs	r5, r6, #31
	lsls	r6, r6, #1
	adds	r6, #56
	str	r6, [sp, #24]
	str	r0, [sp, #32]
	adcs	r5, r4
	str	r5, [sp, #28]
	ldr	r7, [sp, #12]                   @ 4-byte Reload
	ldr	r0, [r7, #24]
	ldr	r5, [r7, #28]
	subs	r0, r0, #1
	sbcs	r5, r4
	subs	r6, r0, #4
	sbcs	r5, r4
	blo	.Lgcm_v6m_small_BB94_8
@ %bb.7:                                @ %join.6.i.i
	mov	r1, r4
.Lgcm_v6m_small_BB94_8:                               @ %join.6.i.i
	cmp	r1, #0
	beq	.Lgcm_v6m_small_BB94_10
@ %bb.9:
	adds	r1, r0, #1
.Lgcm_v6m_small_BB94_10:                              @ %join.6.i.i
	movs	r0, #2
	orrs	r0, r1
	uxtb	r0, r0
	cmp	r0, #3
	bne	.Lgcm_v6m_small_BB94_13
@ %bb.11:                               @ %join.7.i.i.i
	movs	r0, #0
	str	r2, [sp]
	mov	r5, r0
	str	r0, [sp, #4]
	add	r0, sp, #16
	mov	r6, r7
	mov	r1, r7
	mov	r2, r3
	bl	gcm_v6m_small.gcm.mode.BorrowedGcm.is_short_tag_so_far
	mov	r4, r0
	bl	gcm_v6m_small.aes_cipher.zeroize.stack.wipe_stack.1536
	cmp	r4, #0
	beq	.Lgcm_v6m_small_BB94_14
@ %bb.12:                               @ %arm.7.i.i
	movs	r0, #4
	mov	r4, r5
	str	r5, [r6, #16]
	str	r5, [r6, #20]
	str	r0, [r6, #24]
	str	r5, [r6, #28]
	b	.Lgcm_v6m_small_BB94_15
.Lgcm_v6m_small_BB94_13:
	movs	r4, #8
	b	.Lgcm_v6m_small_BB94_15
.Lgcm_v6m_small_BB94_14:
	movs	r4, #6
.Lgcm_v6m_small_BB94_15:                              @ %wide_fotsgure_gcm_accept_short.exit
	mov	r0, r4
	add	sp, #44
	b	.Lgcm_v6m_small_return_12481
	.p2align	2
@ %bb.16:
.Lgcm_v6m_small_CPI94_0:
	.long	65793                           @ 0x10101
.Lgcm_v6m_small_return_12481:
	movs	r1, #0
	movs	r2, #0
	movs	r3, #0
	mov	r12, r1
	mov	lr, r1
	pop	{r4, r5, r6, r7, pc}
.Lgcm_v6m_small_func_end94:
	.size	gcm_v6m_small.fotsgure_gcm_accept_short, .Lgcm_v6m_small_func_end94-gcm_v6m_small.fotsgure_gcm_accept_short
	.cantunwind
	.fnend
                                        @ -- End function
	.section	.text.gcm_v6m_small.fotsgure_gcm_decrypt,"ax",%progbits
	export_gcm_v6m_small	fotsgure_gcm_decrypt
	.p2align	2
	.type	gcm_v6m_small.fotsgure_gcm_decrypt,%function
	.code	16
	.thumb_func
gcm_v6m_small.fotsgure_gcm_decrypt:                   @ @gcm_v6m_small.fotsgure_gcm_decrypt
	.fnstart
@ %bb.0:
	.save	{r4, r5, r6, r7, lr}
	push	{r4, r5, r6, r7, lr}
	.pad	#60
	sub	sp, #60
	str	r3, [sp, #28]                   @ 4-byte Spill
	movs	r6, #1
	cmp	r2, #0
	bne	.Lgcm_v6m_small_BB95_2
@ %bb.1:
	lsls	r3, r6, #12
	adds	r2, r2, r3
.Lgcm_v6m_small_BB95_2:
	ldr	r5, [r0]
	mov	r3, r5
	subs	r3, #16
	movs	r4, #2
	cmp	r3, #16
	bhi	.Lgcm_v6m_small_BB95_17
@ %bb.3:
	lsls	r6, r3
	ldr	r3, .Lgcm_v6m_small_CPI95_0
	tst	r6, r3
	beq	.Lgcm_v6m_small_BB95_17
@ %bb.4:                                @ %join.3.i.i
	movs	r6, #0
	str	r6, [sp, #52]
	str	r6, [sp, #36]
	adds	r3, r0, #4
	str	r3, [sp, #32]
	movs	r3, #121
	lsls	r3, r3, #2
	adds	r0, r0, r3
	lsrs	r3, r5, #31
	lsls	r4, r5, #1
	adds	r4, #56
	str	r4, [sp, #40]
	str	r0, [sp, #48]
	adcs	r3, r6
	str	r3, [sp, #44]
	ldr	r0, [r1, #24]
	ldr	r3, [r1, #28]
	subs	r0, r0, #1
	sbcs	r3, r6
	movs	r4, #8
	movs	r5, #3
	subs	r5, r5, r0
	mov	r5, r6
	sbcs	r5, r3
	blo	.Lgcm_v6m_small_BB95_17
@ %bb.5:                                @ %join.3.i.i
	uxtb	r0, r0
	cmp	r0, #3
	bne	.Lgcm_v6m_small_BB95_17
@ %bb.6:                                @ %join.3.i.i.i
	movs	r0, #31
	mvns	r4, r0
	ldr	r7, [r1, #8]
	ldr	r0, [r1, #12]
	movs	r3, #15
	mov	r5, r7
	adds	r5, #32
	mov	r5, r0
	sbcs	r5, r3
	blo	.Lgcm_v6m_small_BB95_8
@ %bb.7:                                @ %join.3.i.i.i
	mov	r0, r3
.Lgcm_v6m_small_BB95_8:                               @ %join.3.i.i.i
	blo	.Lgcm_v6m_small_BB95_10
@ %bb.9:                                @ %join.3.i.i.i
	mov	r7, r4
.Lgcm_v6m_small_BB95_10:                              @ %join.3.i.i.i
	ldr	r4, [r1, #16]
	ldr	r5, [r1, #20]
	ldr	r3, [sp, #28]                   @ 4-byte Reload
	str	r4, [sp, #24]                   @ 4-byte Spill
	adds	r3, r3, r4
	str	r3, [sp, #16]                   @ 4-byte Spill
	str	r5, [sp, #20]                   @ 4-byte Spill
	adcs	r5, r6
	mov	r4, r6
	adcs	r4, r6
	mvns	r3, r6
	cmp	r4, #0
	mov	r4, r3
	bne	.Lgcm_v6m_small_BB95_12
@ %bb.11:                               @ %join.3.i.i.i
	mov	r4, r5
.Lgcm_v6m_small_BB95_12:                              @ %join.3.i.i.i
	bne	.Lgcm_v6m_small_BB95_14
@ %bb.13:                               @ %join.3.i.i.i
	ldr	r3, [sp, #16]                   @ 4-byte Reload
.Lgcm_v6m_small_BB95_14:                              @ %join.3.i.i.i
	subs	r3, r7, r3
	sbcs	r0, r4
	bhs	.Lgcm_v6m_small_BB95_16
@ %bb.15:
	movs	r4, #5
	b	.Lgcm_v6m_small_BB95_17
.Lgcm_v6m_small_BB95_16:                              @ %arm.4.i.i
	ldr	r7, [sp, #28]                   @ 4-byte Reload
	str	r7, [sp, #8]
	str	r6, [sp, #12]
	str	r2, [sp]
	ldr	r2, [sp, #24]                   @ 4-byte Reload
	adds	r2, #16
	ldr	r3, [sp, #20]                   @ 4-byte Reload
	adcs	r3, r6
	mov	r5, r1
	adds	r5, #32
	add	r0, sp, #32
	mov	r4, r1
	mov	r1, r5
	bl	gcm_v6m_small.gcm.gctr.add_gctr
	ldr	r0, [r4, #16]
	adds	r0, r0, r7
	str	r0, [r4, #16]
	ldr	r0, [r4, #20]
	adcs	r0, r6
	str	r0, [r4, #20]
	bl	gcm_v6m_small.aes_cipher.zeroize.stack.wipe_stack.1536
	mov	r4, r6
.Lgcm_v6m_small_BB95_17:                              @ %wide_fotsgure_gcm_decrypt.exit
	mov	r0, r4
	add	sp, #60
	b	.Lgcm_v6m_small_return_12631
	.p2align	2
@ %bb.18:
.Lgcm_v6m_small_CPI95_0:
	.long	65793                           @ 0x10101
.Lgcm_v6m_small_return_12631:
	movs	r1, #0
	movs	r2, #0
	movs	r3, #0
	mov	r12, r1
	mov	lr, r1
	pop	{r4, r5, r6, r7, pc}
.Lgcm_v6m_small_func_end95:
	.size	gcm_v6m_small.fotsgure_gcm_decrypt, .Lgcm_v6m_small_func_end95-gcm_v6m_small.fotsgure_gcm_decrypt
	.cantunwind
	.fnend
                                        @ -- End function
	.section	.text.gcm_v6m_small.fotsgure_gcm_decrypt_unverified,"ax",%progbits
	export_gcm_v6m_small	fotsgure_gcm_decrypt_unverified
	.p2align	2
	.type	gcm_v6m_small.fotsgure_gcm_decrypt_unverified,%function
	.code	16
	.thumb_func
gcm_v6m_small.fotsgure_gcm_decrypt_unverified:        @ @gcm_v6m_small.fotsgure_gcm_decrypt_unverified
	.fnstart
@ %bb.0:
	.save	{r4, r5, r6, r7, lr}
	push	{r4, r5, r6, r7, lr}
	.pad	#68
	sub	sp, #68
	mov	r6, r2
	mov	r5, r1
	movs	r2, #1
	cmp	r6, #0
	bne	.Lgcm_v6m_small_BB96_2
@ %bb.1:
	lsls	r1, r2, #12
	adds	r6, r6, r1
.Lgcm_v6m_small_BB96_2:
	ldr	r1, [r0]
	mov	r7, r1
	subs	r7, #16
	movs	r4, #2
	cmp	r7, #16
	bhi	.Lgcm_v6m_small_BB96_9
@ %bb.3:
	lsls	r2, r7
	ldr	r7, .Lgcm_v6m_small_CPI96_0
	tst	r2, r7
	beq	.Lgcm_v6m_small_BB96_9
@ %bb.4:                                @ %join.3.i.i
	movs	r4, #0
	str	r4, [sp, #60]
	str	r4, [sp, #44]
	adds	r2, r0, #4
	str	r2, [sp, #40]
	movs	r2, #121
	lsls	r2, r2, #2
	adds	r0, r0, r2
	lsrs	r2, r1, #31
	lsls	r1, r1, #1
	adds	r1, #56
	str	r1, [sp, #48]
	str	r0, [sp, #56]
	adcs	r2, r4
	str	r2, [sp, #52]
	str	r3, [sp]
	str	r4, [sp, #4]
	str	r3, [sp, #36]                   @ 4-byte Spill
	add	r7, sp, #40
	movs	r2, #3
	mov	r0, r7
	mov	r1, r5
	bl	gcm_v6m_small.gcm.mode.BorrowedGcm.enter_phase
	lsls	r0, r0, #24
	beq	.Lgcm_v6m_small_BB96_7
@ %bb.5:                                @ %arm.2.i.i.i
	lsls	r0, r1, #31
	bne	.Lgcm_v6m_small_BB96_8
@ %bb.6:                                @ %arm.2.i.i.i
	movs	r4, #8
	b	.Lgcm_v6m_small_BB96_9
.Lgcm_v6m_small_BB96_7:                               @ %arm.1.i.i.i
	adds	r7, #16
	ldr	r1, [r5, #8]
	str	r1, [sp, #28]                   @ 4-byte Spill
	ldr	r0, [r5, #12]
	str	r0, [sp, #32]                   @ 4-byte Spill
	ldr	r0, [sp, #36]                   @ 4-byte Reload
	str	r0, [sp, #16]
	str	r4, [sp, #20]
	movs	r0, #15
	ands	r0, r1
	add	r1, sp, #0
	stm	r1!, {r0, r4, r6}
	mov	r1, r5
	adds	r1, #48
	mov	r2, r5
	adds	r2, #64
	mov	r0, r7
	bl	gcm_v6m_small.gcm.hash_room.hash_piece
	ldr	r0, [r5, #8]
	ldr	r1, [sp, #36]                   @ 4-byte Reload
	adds	r0, r0, r1
	str	r0, [r5, #8]
	ldr	r0, [r5, #12]
	adcs	r0, r4
	str	r0, [r5, #12]
	str	r1, [sp, #8]
	str	r4, [sp, #12]
	str	r6, [sp]
	ldr	r2, [sp, #28]                   @ 4-byte Reload
	adds	r2, #16
	ldr	r3, [sp, #32]                   @ 4-byte Reload
	adcs	r3, r4
	adds	r5, #32
	add	r0, sp, #40
	mov	r1, r5
	bl	gcm_v6m_small.gcm.gctr.add_gctr
	bl	gcm_v6m_small.aes_cipher.zeroize.stack.wipe_stack.1536
	b	.Lgcm_v6m_small_BB96_9
.Lgcm_v6m_small_BB96_8:
	movs	r4, #5
.Lgcm_v6m_small_BB96_9:                               @ %wide_fotsgure_gcm_decrypt_unverified.exit
	mov	r0, r4
	add	sp, #68
	b	.Lgcm_v6m_small_return_12757
	.p2align	2
@ %bb.10:
.Lgcm_v6m_small_CPI96_0:
	.long	65793                           @ 0x10101
.Lgcm_v6m_small_return_12757:
	movs	r1, #0
	movs	r2, #0
	movs	r3, #0
	mov	r12, r1
	mov	lr, r1
	pop	{r4, r5, r6, r7, pc}
.Lgcm_v6m_small_func_end96:
	.size	gcm_v6m_small.fotsgure_gcm_decrypt_unverified, .Lgcm_v6m_small_func_end96-gcm_v6m_small.fotsgure_gcm_decrypt_unverified
	.cantunwind
	.fnend
                                        @ -- End function
	.section	.text.gcm_v6m_small.fotsgure_gcm_finish_unverified,"ax",%progbits
	export_gcm_v6m_small	fotsgure_gcm_finish_unverified
	.p2align	2
	.type	gcm_v6m_small.fotsgure_gcm_finish_unverified,%function
	.code	16
	.thumb_func
gcm_v6m_small.fotsgure_gcm_finish_unverified:         @ @gcm_v6m_small.fotsgure_gcm_finish_unverified
	.fnstart
@ %bb.0:
	.save	{r4, r5, r6, r7, lr}
	push	{r4, r5, r6, r7, lr}
	.pad	#28
	sub	sp, #28
	ldr	r5, [r0]
	mov	r6, r5
	subs	r6, #16
	movs	r3, #2
	cmp	r6, #16
	bhi	.Lgcm_v6m_small_BB97_9
@ %bb.1:
	movs	r4, #1
	mov	r7, r4
	lsls	r7, r6
	ldr	r6, .Lgcm_v6m_small_CPI97_0
	tst	r7, r6
	beq	.Lgcm_v6m_small_BB97_9
@ %bb.2:                                @ %join.3.i.i
	movs	r3, #0
	str	r3, [sp, #20]
	str	r3, [sp, #4]
	adds	r6, r0, #4
	str	r6, [sp]
	movs	r6, #121
	lsls	r6, r6, #2
	adds	r0, r0, r6
	lsrs	r6, r5, #31
	lsls	r5, r5, #1
	adds	r5, #56
	str	r5, [sp, #8]
	str	r0, [sp, #16]
	adcs	r6, r3
	str	r6, [sp, #12]
	ldr	r0, [r1, #24]
	ldr	r5, [r1, #28]
	subs	r0, r0, #1
	sbcs	r5, r3
	subs	r6, r0, #4
	sbcs	r5, r3
	blo	.Lgcm_v6m_small_BB97_4
@ %bb.3:                                @ %join.3.i.i
	mov	r4, r3
.Lgcm_v6m_small_BB97_4:                               @ %join.3.i.i
	cmp	r4, #0
	beq	.Lgcm_v6m_small_BB97_6
@ %bb.5:
	adds	r4, r0, #1
.Lgcm_v6m_small_BB97_6:                               @ %join.3.i.i
	movs	r0, #2
	orrs	r0, r4
	uxtb	r0, r0
	cmp	r0, #3
	bne	.Lgcm_v6m_small_BB97_8
@ %bb.7:                                @ %arm.4.i.i
	mov	r0, sp
	mov	r4, r1
	bl	gcm_v6m_small.gcm.mode.BorrowedGcm.put_tag_so_far
	bl	gcm_v6m_small.aes_cipher.zeroize.stack.wipe_stack.512
	mov	r0, r4
	bl	gcm_v6m_small.gcm.message_state.MessageZeroize.zeroize
	movs	r3, #0
	b	.Lgcm_v6m_small_BB97_9
.Lgcm_v6m_small_BB97_8:
	movs	r3, #8
.Lgcm_v6m_small_BB97_9:                               @ %wide_fotsgure_gcm_finish_unverified.exit
	mov	r0, r3
	add	sp, #28
	b	.Lgcm_v6m_small_return_12850
	.p2align	2
@ %bb.10:
.Lgcm_v6m_small_CPI97_0:
	.long	65793                           @ 0x10101
.Lgcm_v6m_small_return_12850:
	movs	r1, #0
	movs	r2, #0
	movs	r3, #0
	mov	r12, r1
	mov	lr, r1
	pop	{r4, r5, r6, r7, pc}
.Lgcm_v6m_small_func_end97:
	.size	gcm_v6m_small.fotsgure_gcm_finish_unverified, .Lgcm_v6m_small_func_end97-gcm_v6m_small.fotsgure_gcm_finish_unverified
	.cantunwind
	.fnend
                                        @ -- End function
	.section	.text.gcm_v6m_small.fotsgure_gcm_wipe_message,"ax",%progbits
	export_gcm_v6m_small	fotsgure_gcm_wipe_message
	.p2align	1
	.type	gcm_v6m_small.fotsgure_gcm_wipe_message,%function
	.code	16
	.thumb_func
gcm_v6m_small.fotsgure_gcm_wipe_message:              @ @gcm_v6m_small.fotsgure_gcm_wipe_message
	.fnstart
@ %bb.0:
	.save	{r4, lr}
	push	{r4, lr}
	mov	r4, r0
	movs	r1, #0
	movs	r2, #80
	bl	memset
	mov	r0, r4
	bl	gcm_v6m_small.gcm.message_state.MessageZeroize.zeroize
	b	.Lgcm_v6m_small_return_12884
.Lgcm_v6m_small_return_12884:
	movs	r1, #0
	movs	r2, #0
	movs	r3, #0
	mov	r12, r1
	mov	lr, r1
	pop	{r4, pc}
.Lgcm_v6m_small_func_end98:
	.size	gcm_v6m_small.fotsgure_gcm_wipe_message, .Lgcm_v6m_small_func_end98-gcm_v6m_small.fotsgure_gcm_wipe_message
	.cantunwind
	.fnend
                                        @ -- End function
	.section	.text.gcm_v6m_small.fotsgure_gcm_siv_set_key,"ax",%progbits
	export_gcm_v6m_small	fotsgure_gcm_siv_set_key
	.p2align	1
	.type	gcm_v6m_small.fotsgure_gcm_siv_set_key,%function
	.code	16
	.thumb_func
gcm_v6m_small.fotsgure_gcm_siv_set_key:               @ @gcm_v6m_small.fotsgure_gcm_siv_set_key
	.fnstart
@ %bb.0:
	.save	{r4, r5, r6, r7, lr}
	push	{r4, r5, r6, r7, lr}
	.pad	#4
	sub	sp, #4
	mov	r5, r2
	mov	r7, r1
	cmp	r2, #16
	beq	.Lgcm_v6m_small_BB99_2
@ %bb.1:
	cmp	r5, #32
	bne	.Lgcm_v6m_small_BB99_5
.Lgcm_v6m_small_BB99_2:                               @ %join.3.i.i
	str	r0, [sp]                        @ 4-byte Spill
	adds	r4, r0, #4
	movs	r0, #15
	lsls	r2, r0, #5
	movs	r6, #0
	mov	r0, r4
	mov	r1, r6
	bl	memset
	cmp	r7, #0
	bne	.Lgcm_v6m_small_BB99_4
@ %bb.3:
	movs	r0, #1
	lsls	r0, r0, #12
	adds	r7, r7, r0
.Lgcm_v6m_small_BB99_4:                               @ %join.3.i.i
	mov	r0, r4
	mov	r1, r7
	mov	r2, r5
	mov	r3, r6
	bl	gcm_v6m_small.aes_narrow.word_room.expand_words
	bl	gcm_v6m_small.aes_cipher.zeroize.stack.wipe_stack.768
	ldr	r0, [sp]                        @ 4-byte Reload
	str	r5, [r0]
	b	.Lgcm_v6m_small_BB99_6
.Lgcm_v6m_small_BB99_5:                               @ %then.1.i.i
	movs	r1, #121
	lsls	r2, r1, #2
	movs	r1, #0
	bl	memset
	movs	r6, #1
.Lgcm_v6m_small_BB99_6:                               @ %wide_fotsgure_gcm_siv_set_key.exit
	mov	r0, r6
	add	sp, #4
	b	.Lgcm_v6m_small_return_12951
.Lgcm_v6m_small_return_12951:
	movs	r1, #0
	movs	r2, #0
	movs	r3, #0
	mov	r12, r1
	mov	lr, r1
	pop	{r4, r5, r6, r7, pc}
.Lgcm_v6m_small_func_end99:
	.size	gcm_v6m_small.fotsgure_gcm_siv_set_key, .Lgcm_v6m_small_func_end99-gcm_v6m_small.fotsgure_gcm_siv_set_key
	.cantunwind
	.fnend
                                        @ -- End function
	.section	.text.gcm_v6m_small.fotsgure_gcm_siv_seal,"ax",%progbits
	export_gcm_v6m_small	fotsgure_gcm_siv_seal
	.p2align	1
	.type	gcm_v6m_small.fotsgure_gcm_siv_seal,%function
	.code	16
	.thumb_func
gcm_v6m_small.fotsgure_gcm_siv_seal:                  @ @gcm_v6m_small.fotsgure_gcm_siv_seal
	.fnstart
@ %bb.0:
	.save	{r4, r5, r6, r7, lr}
	push	{r4, r5, r6, r7, lr}
	.pad	#76
	sub	sp, #76
	mov	r5, r2
	ldr	r2, [r0]
	cmp	r2, #32
	beq	.Lgcm_v6m_small_BB100_2
@ %bb.1:
	cmp	r2, #16
	bne	.Lgcm_v6m_small_BB100_7
.Lgcm_v6m_small_BB100_2:                              @ %join.3.i.i
	str	r1, [sp, #36]                   @ 4-byte Spill
	ldr	r1, [sp, #100]
	ldr	r7, [sp, #96]
	movs	r4, #0
	str	r4, [sp, #44]
	adds	r0, r0, #4
	str	r0, [sp, #40]
	lsrs	r0, r2, #31
	lsls	r6, r2, #1
	adds	r6, #56
	str	r6, [sp, #48]
	adcs	r0, r4
	str	r0, [sp, #52]
	str	r1, [sp, #24]
	str	r4, [sp, #28]
	movs	r0, #1
	lsls	r0, r0, #12
	cmp	r7, #0
	bne	.Lgcm_v6m_small_BB100_4
@ %bb.3:
	adds	r7, r7, r0
.Lgcm_v6m_small_BB100_4:                              @ %join.3.i.i
	ldr	r6, [sp, #104]
	add	r1, sp, #8
	stm	r1!, {r3, r4, r7}
	cmp	r5, #0
	bne	.Lgcm_v6m_small_BB100_6
@ %bb.5:
	adds	r5, r5, r0
.Lgcm_v6m_small_BB100_6:                              @ %join.3.i.i
	ldr	r0, [sp, #36]                   @ 4-byte Reload
	str	r0, [sp]
	str	r5, [sp, #4]
	add	r5, sp, #60
	add	r1, sp, #40
	mov	r0, r5
	mov	r3, r4
	bl	gcm_v6m_small.gcm_siv.course.seal_in
	movs	r2, #16
	mov	r0, r6
	mov	r1, r5
	bl	memcpy
	b	.Lgcm_v6m_small_BB100_8
.Lgcm_v6m_small_BB100_7:
	movs	r4, #2
.Lgcm_v6m_small_BB100_8:                              @ %wide_fotsgure_gcm_siv_seal.exit
	mov	r0, r4
	add	sp, #76
	b	.Lgcm_v6m_small_return_13033
.Lgcm_v6m_small_return_13033:
	movs	r1, #0
	movs	r2, #0
	movs	r3, #0
	mov	r12, r1
	mov	lr, r1
	pop	{r4, r5, r6, r7, pc}
.Lgcm_v6m_small_func_end100:
	.size	gcm_v6m_small.fotsgure_gcm_siv_seal, .Lgcm_v6m_small_func_end100-gcm_v6m_small.fotsgure_gcm_siv_seal
	.cantunwind
	.fnend
                                        @ -- End function
	.section	.text.gcm_v6m_small.fotsgure_gcm_siv_seal_to,"ax",%progbits
	export_gcm_v6m_small	fotsgure_gcm_siv_seal_to
	.p2align	1
	.type	gcm_v6m_small.fotsgure_gcm_siv_seal_to,%function
	.code	16
	.thumb_func
gcm_v6m_small.fotsgure_gcm_siv_seal_to:               @ @gcm_v6m_small.fotsgure_gcm_siv_seal_to
	.fnstart
@ %bb.0:
	.save	{r4, r5, r6, r7, lr}
	push	{r4, r5, r6, r7, lr}
	.pad	#108
	sub	sp, #108
	str	r3, [sp, #52]                   @ 4-byte Spill
	str	r2, [sp, #68]                   @ 4-byte Spill
	str	r1, [sp, #48]                   @ 4-byte Spill
	str	r0, [sp, #56]                   @ 4-byte Spill
	movs	r2, #1
	lsls	r0, r2, #12
	ldr	r4, [sp, #136]
	cmp	r4, #0
	bne	.Lgcm_v6m_small_BB101_2
@ %bb.1:
	adds	r4, r4, r0
.Lgcm_v6m_small_BB101_2:
	ldr	r7, [sp, #128]
	cmp	r7, #0
	bne	.Lgcm_v6m_small_BB101_4
@ %bb.3:
	adds	r7, r7, r0
.Lgcm_v6m_small_BB101_4:
	ldr	r1, [sp, #68]                   @ 4-byte Reload
	cmp	r1, #0
	bne	.Lgcm_v6m_small_BB101_6
@ %bb.5:
	ldr	r1, [sp, #68]                   @ 4-byte Reload
	adds	r1, r1, r0
	str	r1, [sp, #68]                   @ 4-byte Spill
.Lgcm_v6m_small_BB101_6:
	ldr	r6, [sp, #132]
	ldr	r0, [sp, #140]
	cmp	r6, r0
	bne	.Lgcm_v6m_small_BB101_12
@ %bb.7:                                @ %join.3.i.i
	ldr	r0, [sp, #56]                   @ 4-byte Reload
	ldr	r0, [r0]
	cmp	r0, #32
	beq	.Lgcm_v6m_small_BB101_9
@ %bb.8:                                @ %join.3.i.i
	cmp	r0, #16
	bne	.Lgcm_v6m_small_BB101_23
.Lgcm_v6m_small_BB101_9:                              @ %join.6.i.i
	movs	r5, #0
	subs	r0, r4, r7
	mov	r1, r5
	sbcs	r1, r5
	subs	r0, r0, r6
	sbcs	r1, r5
	bhs	.Lgcm_v6m_small_BB101_13
@ %bb.10:                               @ %join.7.i.i.i.i.i.i.i.i.preheader
	movs	r0, #3
	mov	r1, r6
	str	r0, [sp, #64]                   @ 4-byte Spill
	ands	r1, r0
	cmp	r6, #4
	bhs	.Lgcm_v6m_small_BB101_14
@ %bb.11:
	movs	r3, #0
	b	.Lgcm_v6m_small_BB101_17
.Lgcm_v6m_small_BB101_12:
	movs	r5, #10
	b	.Lgcm_v6m_small_BB101_24
.Lgcm_v6m_small_BB101_13:                             @ %apart.2.i.i.i.i.i.i.i.i
	mov	r0, r4
	mov	r1, r7
	mov	r2, r6
	bl	memmove
	b	.Lgcm_v6m_small_BB101_20
.Lgcm_v6m_small_BB101_14:                             @ %join.7.i.i.i.i.i.i.i.i.preheader.new
	str	r1, [sp, #36]                   @ 4-byte Spill
	str	r5, [sp, #44]                   @ 4-byte Spill
	str	r6, [sp, #40]                   @ 4-byte Spill
	ldr	r0, [sp, #64]                   @ 4-byte Reload
	bics	r6, r0
	str	r6, [sp, #60]                   @ 4-byte Spill
	movs	r0, #0
	mov	r3, r0
	mov	r6, r0
	mov	r5, r2
.Lgcm_v6m_small_BB101_15:                             @ %join.7.i.i.i.i.i.i.i.i
                                        @ =>This Inner Loop Header: Depth=1
	ldrb	r2, [r7, r3]
	strb	r2, [r4, r3]
	mov	r2, r3
	orrs	r2, r5
	ldrb	r1, [r7, r2]
	strb	r1, [r4, r2]
	movs	r1, #2
	orrs	r1, r3
	ldrb	r2, [r7, r1]
	strb	r2, [r4, r1]
	mov	r1, r3
	ldr	r2, [sp, #64]                   @ 4-byte Reload
	orrs	r1, r2
	ldrb	r2, [r7, r1]
	strb	r2, [r4, r1]
	adds	r3, r3, #4
	adcs	r6, r0
	mov	r1, r3
	ldr	r2, [sp, #60]                   @ 4-byte Reload
	eors	r1, r2
	orrs	r1, r6
	bne	.Lgcm_v6m_small_BB101_15
@ %bb.16:                               @ %"core::slice::edits::slice+T::copy_from_slice::<i8,20'core::clone::U8Clone{}>.exit.i.i.loopexit.unr-lcssa"
	ldr	r1, [sp, #36]                   @ 4-byte Reload
	cmp	r1, #0
	ldr	r5, [sp, #44]                   @ 4-byte Reload
	ldr	r6, [sp, #40]                   @ 4-byte Reload
	beq	.Lgcm_v6m_small_BB101_20
.Lgcm_v6m_small_BB101_17:                             @ %join.7.i.i.i.i.i.i.i.i.epil.preheader
	ldrb	r0, [r7, r3]
	strb	r0, [r4, r3]
	cmp	r1, #1
	beq	.Lgcm_v6m_small_BB101_20
@ %bb.18:                               @ %join.7.i.i.i.i.i.i.i.i.epil.1
	adds	r0, r3, #1
	mov	r2, r1
	ldrb	r1, [r7, r0]
	strb	r1, [r4, r0]
	cmp	r2, #2
	beq	.Lgcm_v6m_small_BB101_20
@ %bb.19:                               @ %join.7.i.i.i.i.i.i.i.i.epil.2
	adds	r0, r3, #2
	ldrb	r1, [r7, r0]
	strb	r1, [r4, r0]
.Lgcm_v6m_small_BB101_20:                             @ %"core::slice::edits::slice+T::copy_from_slice::<i8,20'core::clone::U8Clone{}>.exit.i.i"
	ldr	r0, [sp, #56]                   @ 4-byte Reload
	ldr	r7, [r0]
	cmp	r7, #32
	beq	.Lgcm_v6m_small_BB101_22
@ %bb.21:                               @ %"core::slice::edits::slice+T::copy_from_slice::<i8,20'core::clone::U8Clone{}>.exit.i.i"
	cmp	r7, #16
	bne	.Lgcm_v6m_small_BB101_23
.Lgcm_v6m_small_BB101_22:                             @ %join.3.i.i.i
	ldr	r0, [sp, #144]
	str	r0, [sp, #64]                   @ 4-byte Spill
	str	r5, [sp, #76]
	ldr	r0, [sp, #56]                   @ 4-byte Reload
	adds	r0, r0, #4
	str	r0, [sp, #72]
	lsrs	r0, r7, #31
	lsls	r1, r7, #1
	adds	r1, #56
	str	r1, [sp, #80]
	adcs	r0, r5
	str	r0, [sp, #84]
	str	r6, [sp, #24]
	str	r5, [sp, #28]
	ldr	r0, [sp, #48]                   @ 4-byte Reload
	str	r0, [sp]
	ldr	r0, [sp, #68]                   @ 4-byte Reload
	str	r0, [sp, #4]
	ldr	r0, [sp, #52]                   @ 4-byte Reload
	str	r0, [sp, #8]
	str	r5, [sp, #12]
	str	r4, [sp, #16]
	add	r4, sp, #92
	add	r1, sp, #72
	mov	r0, r4
	mov	r2, r7
	mov	r3, r5
	bl	gcm_v6m_small.gcm_siv.course.seal_in
	movs	r2, #16
	ldr	r0, [sp, #64]                   @ 4-byte Reload
	mov	r1, r4
	bl	memcpy
	b	.Lgcm_v6m_small_BB101_24
.Lgcm_v6m_small_BB101_23:
	movs	r5, #2
.Lgcm_v6m_small_BB101_24:                             @ %wide_fotsgure_gcm_siv_seal_to.exit
	mov	r0, r5
	add	sp, #108
	b	.Lgcm_v6m_small_return_13228
.Lgcm_v6m_small_return_13228:
	movs	r1, #0
	movs	r2, #0
	movs	r3, #0
	mov	r12, r1
	mov	lr, r1
	pop	{r4, r5, r6, r7, pc}
.Lgcm_v6m_small_func_end101:
	.size	gcm_v6m_small.fotsgure_gcm_siv_seal_to, .Lgcm_v6m_small_func_end101-gcm_v6m_small.fotsgure_gcm_siv_seal_to
	.cantunwind
	.fnend
                                        @ -- End function
	.section	.text.gcm_v6m_small.fotsgure_gcm_siv_open,"ax",%progbits
	export_gcm_v6m_small	fotsgure_gcm_siv_open
	.p2align	1
	.type	gcm_v6m_small.fotsgure_gcm_siv_open,%function
	.code	16
	.thumb_func
gcm_v6m_small.fotsgure_gcm_siv_open:                  @ @gcm_v6m_small.fotsgure_gcm_siv_open
	.fnstart
@ %bb.0:
	.save	{r4, r5, r6, r7, lr}
	push	{r4, r5, r6, r7, lr}
	.pad	#68
	sub	sp, #68
	mov	r5, r2
	ldr	r2, [r0]
	cmp	r2, #32
	beq	.Lgcm_v6m_small_BB102_2
@ %bb.1:
	cmp	r2, #16
	bne	.Lgcm_v6m_small_BB102_8
.Lgcm_v6m_small_BB102_2:                              @ %join.3.i.i
	str	r3, [sp, #40]                   @ 4-byte Spill
	str	r1, [sp, #44]                   @ 4-byte Spill
	ldr	r3, [sp, #96]
	ldr	r1, [sp, #92]
	ldr	r6, [sp, #88]
	movs	r4, #0
	str	r4, [sp, #52]
	adds	r0, r0, #4
	str	r0, [sp, #48]
	lsrs	r0, r2, #31
	lsls	r7, r2, #1
	adds	r7, #56
	str	r7, [sp, #56]
	adcs	r0, r4
	str	r0, [sp, #60]
	str	r1, [sp, #24]
	str	r4, [sp, #28]
	str	r3, [sp, #32]
	movs	r0, #1
	lsls	r0, r0, #12
	cmp	r6, #0
	bne	.Lgcm_v6m_small_BB102_4
@ %bb.3:
	adds	r6, r6, r0
.Lgcm_v6m_small_BB102_4:                              @ %join.3.i.i
	ldr	r1, [sp, #40]                   @ 4-byte Reload
	add	r3, sp, #8
	stm	r3!, {r1, r4, r6}
	cmp	r5, #0
	bne	.Lgcm_v6m_small_BB102_6
@ %bb.5:
	adds	r5, r5, r0
.Lgcm_v6m_small_BB102_6:                              @ %join.3.i.i
	ldr	r0, [sp, #44]                   @ 4-byte Reload
	str	r0, [sp]
	str	r5, [sp, #4]
	add	r0, sp, #48
	mov	r3, r4
	bl	gcm_v6m_small.gcm_siv.course.open_in
	cmp	r0, #0
	bne	.Lgcm_v6m_small_BB102_9
@ %bb.7:                                @ %join.3.i.i
	movs	r4, #6
	b	.Lgcm_v6m_small_BB102_9
.Lgcm_v6m_small_BB102_8:
	movs	r4, #2
.Lgcm_v6m_small_BB102_9:                              @ %wide_fotsgure_gcm_siv_open.exit
	mov	r0, r4
	add	sp, #68
	b	.Lgcm_v6m_small_return_13311
.Lgcm_v6m_small_return_13311:
	movs	r1, #0
	movs	r2, #0
	movs	r3, #0
	mov	r12, r1
	mov	lr, r1
	pop	{r4, r5, r6, r7, pc}
.Lgcm_v6m_small_func_end102:
	.size	gcm_v6m_small.fotsgure_gcm_siv_open, .Lgcm_v6m_small_func_end102-gcm_v6m_small.fotsgure_gcm_siv_open
	.cantunwind
	.fnend
                                        @ -- End function
	.section	.text.gcm_v6m_small.fotsgure_gcm_siv_open_to,"ax",%progbits
	export_gcm_v6m_small	fotsgure_gcm_siv_open_to
	.p2align	1
	.type	gcm_v6m_small.fotsgure_gcm_siv_open_to,%function
	.code	16
	.thumb_func
gcm_v6m_small.fotsgure_gcm_siv_open_to:               @ @gcm_v6m_small.fotsgure_gcm_siv_open_to
	.fnstart
@ %bb.0:
	.save	{r4, r5, r6, r7, lr}
	push	{r4, r5, r6, r7, lr}
	.pad	#92
	sub	sp, #92
	str	r3, [sp, #52]                   @ 4-byte Spill
	str	r2, [sp, #68]                   @ 4-byte Spill
	str	r1, [sp, #48]                   @ 4-byte Spill
	str	r0, [sp, #56]                   @ 4-byte Spill
	movs	r2, #1
	lsls	r0, r2, #12
	ldr	r4, [sp, #120]
	cmp	r4, #0
	bne	.Lgcm_v6m_small_BB103_2
@ %bb.1:
	adds	r4, r4, r0
.Lgcm_v6m_small_BB103_2:
	ldr	r7, [sp, #112]
	cmp	r7, #0
	bne	.Lgcm_v6m_small_BB103_4
@ %bb.3:
	adds	r7, r7, r0
.Lgcm_v6m_small_BB103_4:
	ldr	r1, [sp, #68]                   @ 4-byte Reload
	cmp	r1, #0
	bne	.Lgcm_v6m_small_BB103_6
@ %bb.5:
	ldr	r1, [sp, #68]                   @ 4-byte Reload
	adds	r1, r1, r0
	str	r1, [sp, #68]                   @ 4-byte Spill
.Lgcm_v6m_small_BB103_6:
	ldr	r6, [sp, #116]
	ldr	r0, [sp, #124]
	cmp	r6, r0
	bne	.Lgcm_v6m_small_BB103_12
@ %bb.7:                                @ %join.3.i.i
	ldr	r0, [sp, #56]                   @ 4-byte Reload
	ldr	r0, [r0]
	cmp	r0, #32
	beq	.Lgcm_v6m_small_BB103_9
@ %bb.8:                                @ %join.3.i.i
	cmp	r0, #16
	bne	.Lgcm_v6m_small_BB103_14
.Lgcm_v6m_small_BB103_9:                              @ %join.6.i.i
	movs	r5, #0
	subs	r0, r4, r7
	mov	r1, r5
	sbcs	r1, r5
	subs	r0, r0, r6
	sbcs	r1, r5
	bhs	.Lgcm_v6m_small_BB103_13
@ %bb.10:                               @ %join.7.i.i.i.i.i.i.i.i.preheader
	movs	r0, #3
	mov	r1, r6
	str	r0, [sp, #64]                   @ 4-byte Spill
	ands	r1, r0
	cmp	r6, #4
	bhs	.Lgcm_v6m_small_BB103_15
@ %bb.11:
	movs	r3, #0
	b	.Lgcm_v6m_small_BB103_18
.Lgcm_v6m_small_BB103_12:
	movs	r0, #10
	add	sp, #92
	b	.Lgcm_v6m_small_return_13396
.Lgcm_v6m_small_BB103_13:                             @ %apart.2.i.i.i.i.i.i.i.i
	mov	r0, r4
	mov	r1, r7
	mov	r2, r6
	bl	memmove
	b	.Lgcm_v6m_small_BB103_21
.Lgcm_v6m_small_BB103_14:
	movs	r0, #2
	add	sp, #92
	b	.Lgcm_v6m_small_return_13396
.Lgcm_v6m_small_BB103_15:                             @ %join.7.i.i.i.i.i.i.i.i.preheader.new
	str	r1, [sp, #36]                   @ 4-byte Spill
	str	r5, [sp, #44]                   @ 4-byte Spill
	str	r6, [sp, #40]                   @ 4-byte Spill
	ldr	r0, [sp, #64]                   @ 4-byte Reload
	bics	r6, r0
	str	r6, [sp, #60]                   @ 4-byte Spill
	movs	r0, #0
	mov	r3, r0
	mov	r5, r0
	mov	r6, r2
.Lgcm_v6m_small_BB103_16:                             @ %join.7.i.i.i.i.i.i.i.i
                                        @ =>This Inner Loop Header: Depth=1
	ldrb	r2, [r7, r3]
	strb	r2, [r4, r3]
	mov	r2, r3
	orrs	r2, r6
	ldrb	r1, [r7, r2]
	strb	r1, [r4, r2]
	movs	r1, #2
	orrs	r1, r3
	ldrb	r2, [r7, r1]
	strb	r2, [r4, r1]
	mov	r1, r3
	ldr	r2, [sp, #64]                   @ 4-byte Reload
	orrs	r1, r2
	ldrb	r2, [r7, r1]
	strb	r2, [r4, r1]
	adds	r3, r3, #4
	adcs	r5, r0
	mov	r1, r3
	ldr	r2, [sp, #60]                   @ 4-byte Reload
	eors	r1, r2
	orrs	r1, r5
	bne	.Lgcm_v6m_small_BB103_16
@ %bb.17:                               @ %"core::slice::edits::slice+T::copy_from_slice::<i8,20'core::clone::U8Clone{}>.exit.i.i.loopexit.unr-lcssa"
	ldr	r1, [sp, #36]                   @ 4-byte Reload
	cmp	r1, #0
	ldr	r5, [sp, #44]                   @ 4-byte Reload
	ldr	r6, [sp, #40]                   @ 4-byte Reload
	beq	.Lgcm_v6m_small_BB103_21
.Lgcm_v6m_small_BB103_18:                             @ %join.7.i.i.i.i.i.i.i.i.epil.preheader
	ldrb	r0, [r7, r3]
	strb	r0, [r4, r3]
	cmp	r1, #1
	beq	.Lgcm_v6m_small_BB103_21
@ %bb.19:                               @ %join.7.i.i.i.i.i.i.i.i.epil.1
	adds	r0, r3, #1
	mov	r2, r1
	ldrb	r1, [r7, r0]
	strb	r1, [r4, r0]
	cmp	r2, #2
	beq	.Lgcm_v6m_small_BB103_21
@ %bb.20:                               @ %join.7.i.i.i.i.i.i.i.i.epil.2
	adds	r0, r3, #2
	ldrb	r1, [r7, r0]
	strb	r1, [r4, r0]
.Lgcm_v6m_small_BB103_21:                             @ %"core::slice::edits::slice+T::copy_from_slice::<i8,20'core::clone::U8Clone{}>.exit.i.i"
	ldr	r0, [sp, #56]                   @ 4-byte Reload
	ldr	r7, [r0]
	cmp	r7, #32
	beq	.Lgcm_v6m_small_BB103_23
@ %bb.22:                               @ %"core::slice::edits::slice+T::copy_from_slice::<i8,20'core::clone::U8Clone{}>.exit.i.i"
	cmp	r7, #16
	bne	.Lgcm_v6m_small_BB103_27
.Lgcm_v6m_small_BB103_23:                             @ %join.3.i.i.i
	ldr	r1, [sp, #128]
	str	r5, [sp, #76]
	ldr	r0, [sp, #56]                   @ 4-byte Reload
	adds	r0, r0, #4
	str	r0, [sp, #72]
	lsrs	r0, r7, #31
	lsls	r2, r7, #1
	adds	r2, #56
	str	r2, [sp, #80]
	adcs	r0, r5
	str	r0, [sp, #84]
	str	r6, [sp, #24]
	str	r5, [sp, #28]
	str	r1, [sp, #32]
	ldr	r0, [sp, #48]                   @ 4-byte Reload
	str	r0, [sp]
	ldr	r0, [sp, #68]                   @ 4-byte Reload
	str	r0, [sp, #4]
	ldr	r0, [sp, #52]                   @ 4-byte Reload
	str	r0, [sp, #8]
	str	r5, [sp, #12]
	str	r4, [sp, #16]
	add	r0, sp, #72
	mov	r2, r7
	mov	r3, r5
	bl	gcm_v6m_small.gcm_siv.course.open_in
	cmp	r0, #0
	beq	.Lgcm_v6m_small_BB103_25
@ %bb.24:                               @ %"gcm_c::siv::fotsgure_gcm_siv_open.exit.i.i"
	mov	r0, r5
	add	sp, #92
	b	.Lgcm_v6m_small_return_13396
.Lgcm_v6m_small_BB103_25:
	movs	r0, #6
	cmp	r6, #0
	bne	.Lgcm_v6m_small_BB103_28
.Lgcm_v6m_small_BB103_26:                             @ %wide_fotsgure_gcm_siv_open_to.exit
	add	sp, #92
	b	.Lgcm_v6m_small_return_13396
.Lgcm_v6m_small_BB103_27:
	movs	r0, #2
	cmp	r6, #0
	beq	.Lgcm_v6m_small_BB103_26
.Lgcm_v6m_small_BB103_28:                             @ %loop.5.preheader.i.i.i
	subs	r6, r6, #1
	mov	r1, r5
	sbcs	r1, r5
	orrs	r1, r6
	beq	.Lgcm_v6m_small_BB103_30
@ %bb.29:                               @ %join.8.preheader.i.i.i
	movs	r1, #0
	mov	r7, r5
	mov	r5, r0
	mov	r0, r4
	mov	r2, r6
	bl	memset
	mov	r0, r5
	mov	r5, r7
.Lgcm_v6m_small_BB103_30:                             @ %after.4.i.i.i
	strb	r5, [r4, r6]
	add	sp, #92
	b	.Lgcm_v6m_small_return_13396
.Lgcm_v6m_small_return_13396:
	movs	r1, #0
	movs	r2, #0
	movs	r3, #0
	mov	r12, r1
	mov	lr, r1
	pop	{r4, r5, r6, r7, pc}
.Lgcm_v6m_small_func_end103:
	.size	gcm_v6m_small.fotsgure_gcm_siv_open_to, .Lgcm_v6m_small_func_end103-gcm_v6m_small.fotsgure_gcm_siv_open_to
	.cantunwind
	.fnend
                                        @ -- End function
	.section	.text.gcm_v6m_small.fotsgure_gcm_siv_wipe,"ax",%progbits
	export_gcm_v6m_small	fotsgure_gcm_siv_wipe
	.p2align	1
	.type	gcm_v6m_small.fotsgure_gcm_siv_wipe,%function
	.code	16
	.thumb_func
gcm_v6m_small.fotsgure_gcm_siv_wipe:                  @ @gcm_v6m_small.fotsgure_gcm_siv_wipe
	.fnstart
@ %bb.0:
	.save	{r4, lr}
	push	{r4, lr}
	mov	r4, r0
	movs	r0, #121
	lsls	r2, r0, #2
	movs	r1, #0
	mov	r0, r4
	bl	memset
	adds	r0, r4, #4
	bl	gcm_v6m_small.aes_cipher.zeroize.elements.zeroize_elements.1
	b	.Lgcm_v6m_small_return_13566
.Lgcm_v6m_small_return_13566:
	movs	r1, #0
	movs	r2, #0
	movs	r3, #0
	mov	r12, r1
	mov	lr, r1
	pop	{r4, pc}
.Lgcm_v6m_small_func_end104:
	.size	gcm_v6m_small.fotsgure_gcm_siv_wipe, .Lgcm_v6m_small_func_end104-gcm_v6m_small.fotsgure_gcm_siv_wipe
	.cantunwind
	.fnend
                                        @ -- End function
	.type	.Lgcm_v6m_small_static.0,%object              @ @static.0
	.section	.rodata..Lgcm_v6m_small_static.0,"a",%progbits
.Lgcm_v6m_small_static.0:
	.ascii	"\001\002\004\b\020 @\200\0336"
	.size	.Lgcm_v6m_small_static.0, 10

	.ident	"rattle logic=dac8208d650f15bf3e2dc313a14fa4c783a3acf887bdfab66e1714b038d9e11b"
	.section	".note.GNU-stack","",%progbits

	.section	.note.fotsgure,"",%note
	.p2align	2, 0x0
	.long	9, 124, 1
	.asciz	"Fotsgure"
	.p2align	2, 0x0
	.asciz	"fotsgure_gcm 0.4.0, thumb/gcm_v6m_small.s, sources SHA-256 7839658995c36f00d13f13ab6f42fa9360d959953d441bf3a57996a9c2aa56dc"
	.p2align	2, 0x0
