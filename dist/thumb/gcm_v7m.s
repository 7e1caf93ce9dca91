@ Made by tools/dist from the proved crate gcm_c; BUILD says from what. Don't edit it.
/* A Rust crate defines in_rust; for x86-64, a static library of both builds defines chosen, and choose_*.c calls these names. */
	.macro	export_gcm_v7m name
	.ifdef	in_rust
	.globl	gcm_v7m.\name
	.hidden	gcm_v7m.\name
	.else
	.globl	\name
	.set	\name, gcm_v7m.\name
	.endif
	.endm
	.syntax	unified
	.file	"rattle"
	.section	.text.gcm_v7m.aes_cipher.zeroize.elements.zeroize_elements.1,"ax",%progbits
	.p2align	2                               @ -- Begin function aes_cipher::zeroize::elements::zeroize_elements::<#54a2bb646728b9ee>
	.type	gcm_v7m.aes_cipher.zeroize.elements.zeroize_elements.1,%function
	.code	16
	.thumb_func
gcm_v7m.aes_cipher.zeroize.elements.zeroize_elements.1: @ @gcm_v7m.aes_cipher.zeroize.elements.zeroize_elements.1
	.fnstart
@ %bb.0:                                @ %start
	.save	{r4, r5, r6, r7, lr}
	push	{r4, r5, r6, r7, lr}
	.pad	#12
	sub	sp, #12
	movs	r1, #0
	strd	r1, r1, [sp]
	@APP
	@NO_APP
	mov	r5, sp
	ldrd	r6, r1, [r5]
	@APP
	@NO_APP
	subs	r4, r6, r2
	sbcs	r1, r3
	bhs	.Lgcm_v7m_BB0_2
@ %bb.1:                                @ %then.1.i
	ldr.w	r7, [r0, r6, lsl #2]
	lsls	r2, r2, #2
	movs	r1, #0
	mov	r4, r0
	bl	memset
	ldr.w	r0, [r4, r6, lsl #2]
	and.w	r4, r7, r0
	b	.Lgcm_v7m_BB0_3
	.p2align	2
.Lgcm_v7m_BB0_2:                                @ %"aes_cipher::zeroize::observe::<#94bc162b3f62047f>.exit12"
	lsls	r2, r2, #2
	movs	r1, #0
	movs	r4, #0
	bl	memset
.Lgcm_v7m_BB0_3:                                @ %"aes_cipher::zeroize::observe::<#94bc162b3f62047f>.exit"
	@APP
	@NO_APP
	ldrd	r1, r2, [r5]
	uxtb	r0, r4
	movs	r1, #0
	strd	r0, r1, [r5]
	@APP
	@NO_APP
	add	sp, #12
	b	.Lgcm_v7m_return_50
.Lgcm_v7m_return_50:
	movs	r1, #0
	movs	r2, #0
	movs	r3, #0
	mov	r12, r1
	mov	lr, r1
	pop	{r4, r5, r6, r7, pc}
.Lgcm_v7m_func_end0:
	.size	gcm_v7m.aes_cipher.zeroize.elements.zeroize_elements.1, .Lgcm_v7m_func_end0-gcm_v7m.aes_cipher.zeroize.elements.zeroize_elements.1
	.cantunwind
	.fnend
                                        @ -- End function
	.section	.text.gcm_v7m.gcm.message_state.MessageZeroize.zeroize,"ax",%progbits
	.p2align	2                               @ -- Begin function gcm::message_state::MessageZeroize::zeroize
	.type	gcm_v7m.gcm.message_state.MessageZeroize.zeroize,%function
	.code	16
	.thumb_func
gcm_v7m.gcm.message_state.MessageZeroize.zeroize: @ @gcm_v7m.gcm.message_state.MessageZeroize.zeroize
	.fnstart
@ %bb.0:                                @ %start
	.save	{r4, lr}
	push	{r4, lr}
	mov	r4, r0
	adds	r0, #32
	movs	r1, #0
	strd	r1, r1, [r4]
	strd	r1, r1, [r4, #8]
	strd	r1, r1, [r4, #16]
	strd	r1, r1, [r4, #24]
	bl	gcm_v7m.aes_cipher.zeroize.elements.zeroize_elements.2
	add.w	r0, r4, #48
	bl	gcm_v7m.aes_cipher.zeroize.elements.zeroize_elements.2
	add.w	r0, r4, #64
	pop.w	{r4, lr}
	b	gcm_v7m.aes_cipher.zeroize.elements.zeroize_elements.2
.Lgcm_v7m_func_end1:
	.size	gcm_v7m.gcm.message_state.MessageZeroize.zeroize, .Lgcm_v7m_func_end1-gcm_v7m.gcm.message_state.MessageZeroize.zeroize
	.cantunwind
	.fnend
                                        @ -- End function
	.section	.text.gcm_v7m.aes_cipher.zeroize.elements.zeroize_elements.2,"ax",%progbits
	.p2align	2                               @ -- Begin function aes_cipher::zeroize::elements::zeroize_elements::<#3b2097f0eef5a37b>
	.type	gcm_v7m.aes_cipher.zeroize.elements.zeroize_elements.2,%function
	.code	16
	.thumb_func
gcm_v7m.aes_cipher.zeroize.elements.zeroize_elements.2: @ @gcm_v7m.aes_cipher.zeroize.elements.zeroize_elements.2
	.fnstart
@ %bb.0:                                @ %start
	.pad	#8
	sub	sp, #8
	movs	r1, #0
	strd	r1, r1, [sp]
	@APP
	@NO_APP
	mov	r12, sp
	ldrd	r3, r2, [r12]
	@APP
	@NO_APP
	str	r1, [r0, #12]
	str	r1, [r0, #8]
	str	r1, [r0, #4]
	str	r1, [r0]
	@APP
	@NO_APP
	ldrd	r0, r2, [r12]
	strd	r1, r1, [r12]
	@APP
	@NO_APP
	add	sp, #8
	b	.Lgcm_v7m_return_120
.Lgcm_v7m_return_120:
	movs	r1, #0
	movs	r2, #0
	movs	r3, #0
	mov	r12, r1
	bx	lr
.Lgcm_v7m_func_end2:
	.size	gcm_v7m.aes_cipher.zeroize.elements.zeroize_elements.2, .Lgcm_v7m_func_end2-gcm_v7m.aes_cipher.zeroize.elements.zeroize_elements.2
	.cantunwind
	.fnend
                                        @ -- End function
	.section	.text.gcm_v7m.aes_narrow.word_room.expand_words,"ax",%progbits
	.p2align	2                               @ -- Begin function aes_narrow::word_room::expand_words::<#6af90bfc14753d47>
	.type	gcm_v7m.aes_narrow.word_room.expand_words,%function
	.code	16
	.thumb_func
gcm_v7m.aes_narrow.word_room.expand_words: @ @gcm_v7m.aes_narrow.word_room.expand_words
	.fnstart
@ %bb.0:                                @ %start
	.save	{r4, r5, r6, r7, r8, r9, r10, r11, lr}
	push.w	{r4, r5, r6, r7, r8, r9, r10, r11, lr}
	.pad	#212
	sub	sp, #212
	cmp	r2, #24
	mov	r7, r0
	str	r0, [sp, #176]                  @ 4-byte Spill
	add	r0, sp, #180
	str	r3, [sp, #8]                    @ 4-byte Spill
	str	r2, [sp, #4]                    @ 4-byte Spill
	beq.w	.Lgcm_v7m_BB3_4
@ %bb.1:                                @ %start
	cmp	r2, #16
	bne.w	.Lgcm_v7m_BB3_6
@ %bb.2:                                @ %then.1.i160
	bl	gcm_v7m.aes_planes.soft.word.word32.U32Word.in_every_slot
	ldrd	r11, r0, [sp, #180]
	ldrd	r8, lr, [sp, #188]
	ldrd	r4, r12, [sp, #196]
	ldrd	r3, r9, [sp, #204]
	adds	r1, r7, #4
	mov	r10, r0
	stm.w	r1, {r0, r8, lr}
	movs	r0, #0
	movs	r2, #0
	str.w	r11, [r7]
	strd	r4, r12, [r7, #16]
	strd	r3, r9, [r7, #24]
	str	r0, [sp, #164]                  @ 4-byte Spill
	.p2align	2
.Lgcm_v7m_BB3_3:                                @ %join.5.i.i161
                                        @ =>This Inner Loop Header: Depth=1
	eor.w	r1, r9, r10
	eor.w	r5, r4, r8
	str	r1, [sp, #108]                  @ 4-byte Spill
	eors	r1, r5
	eor.w	r0, r1, lr
	eor.w	r7, r9, r4
	str	r1, [sp, #172]                  @ 4-byte Spill
	eor.w	r1, r0, r3
	str	r2, [sp, #160]                  @ 4-byte Spill
	eor.w	r2, r3, r12
	eor.w	r12, r0, r8
	eor.w	r0, r1, r7
	str	r7, [sp, #152]                  @ 4-byte Spill
	eor.w	r3, r9, r8
	and.w	r8, r0, r7
	eor.w	r7, r12, r2
	str	r4, [sp, #124]                  @ 4-byte Spill
	eor.w	r4, r0, r7
	str	r4, [sp, #148]                  @ 4-byte Spill
	ands	r4, r5
	and.w	r6, r7, r3
	eor.w	r4, r4, r8
	eor.w	lr, r6, r8
	eor.w	r8, r2, r11
	str	r0, [sp, #168]                  @ 4-byte Spill
	eor.w	r0, r8, r10
	str	r5, [sp, #144]                  @ 4-byte Spill
	mov	r5, r7
	str	r7, [sp, #140]                  @ 4-byte Spill
	eor.w	r7, r12, r11
	eor.w	r6, r0, r3
	str	r6, [sp, #132]                  @ 4-byte Spill
	ands	r6, r7
	eors	r1, r6
	ldr	r6, [sp, #124]                  @ 4-byte Reload
	str	r7, [sp, #128]                  @ 4-byte Spill
	eor.w	r6, r6, r8
	and.w	r7, r6, r11
	str	r3, [sp, #156]                  @ 4-byte Spill
	eors	r7, r3
	ldr	r3, [sp, #172]                  @ 4-byte Reload
	str	r6, [sp, #124]                  @ 4-byte Spill
	and.w	r6, r12, r3
	ldr	r3, [sp, #168]                  @ 4-byte Reload
	str.w	r12, [sp, #136]                 @ 4-byte Spill
	ldr.w	r12, [sp, #108]                 @ 4-byte Reload
	eors	r7, r5
	eor.w	r10, r3, r2
	and.w	r2, r0, r8
	eor.w	r5, r7, r6
	eor.w	r2, r2, r10
	and.w	r7, r10, r12
	eors	r2, r7
	eors	r1, r6
	eor.w	r2, r2, r12
	str	r0, [sp, #112]                  @ 4-byte Spill
	eors	r1, r4
	eors	r2, r4
	eor.w	r4, r8, r9
	eor.w	r0, r3, r11
	str	r4, [sp, #116]                  @ 4-byte Spill
	ands	r4, r0
	eor.w	r4, r4, r10
	eors	r4, r7
	eor.w	r4, r4, r9
	str	r0, [sp, #120]                  @ 4-byte Spill
	eor.w	r7, r5, lr
	eor.w	r4, r4, lr
	and.w	r0, r2, r1
	eor.w	r5, r0, r7
	eor.w	r6, r4, r2
	ands	r5, r6
	eors	r1, r7
	eor.w	r6, r0, r4
	and.w	r3, r6, r1
	eor.w	lr, r3, r7
	eor.w	r3, r5, r0
	ands	r3, r4
	eor.w	r0, r5, r4
	eor.w	r4, r3, r6
	and.w	r4, r4, lr
	eor.w	r5, r4, r1
	eor.w	r1, r3, r2
	eor.w	r3, r5, lr
	and.w	r2, r3, r12
	str	r2, [sp, #108]                  @ 4-byte Spill
	ldr	r2, [sp, #112]                  @ 4-byte Reload
	eor.w	r6, r1, r0
	ands	r2, r5
	str	r2, [sp, #112]                  @ 4-byte Spill
	ldr	r2, [sp, #128]                  @ 4-byte Reload
	and.w	r7, r3, r10
	and.w	r10, r5, r8
	and.w	r8, r6, r2
	ldr	r2, [sp, #132]                  @ 4-byte Reload
	and.w	r4, r0, r11
	and.w	r9, r6, r2
	ldr	r2, [sp, #124]                  @ 4-byte Reload
	eors	r5, r6
	ands	r2, r0
	str	r2, [sp, #132]                  @ 4-byte Spill
	ldr	r2, [sp, #168]                  @ 4-byte Reload
	eor.w	r0, r0, lr
	and.w	r12, r0, r2
	ldr	r2, [sp, #152]                  @ 4-byte Reload
	ldr	r3, [sp, #148]                  @ 4-byte Reload
	and.w	r11, r0, r2
	ldr	r2, [sp, #144]                  @ 4-byte Reload
	eors	r0, r5
	ands	r2, r0
	ands	r3, r0
	ldr	r0, [sp, #116]                  @ 4-byte Reload
	ldr	r6, [sp, #172]                  @ 4-byte Reload
	and.w	r0, r0, lr
	str	r0, [sp, #152]                  @ 4-byte Spill
	ldr	r0, [sp, #120]                  @ 4-byte Reload
	eor.w	r2, r2, r11
	and.w	lr, lr, r0
	ldr	r0, [sp, #136]                  @ 4-byte Reload
	str.w	r11, [sp, #168]                 @ 4-byte Spill
	ands	r0, r1
	eors	r4, r0
	ands	r1, r6
	eor.w	r6, r4, lr
	str	r1, [sp, #148]                  @ 4-byte Spill
	eor.w	r1, r8, r0
	eor.w	r8, r6, r7
	ldr	r6, [sp, #112]                  @ 4-byte Reload
	eor.w	r0, r7, r10
	eor.w	r7, r8, r6
	eor.w	lr, r2, r9
	eors	r7, r2
	eor.w	r2, r0, r3
	eors	r0, r1
	str	r0, [sp, #172]                  @ 4-byte Spill
	ldr	r0, [sp, #140]                  @ 4-byte Reload
	ldr	r6, [sp, #108]                  @ 4-byte Reload
	ands	r0, r5
	eors	r0, r4
	eors	r0, r6
	eor.w	r3, r0, r2
	ldr	r0, [sp, #156]                  @ 4-byte Reload
	eor.w	r1, r2, r12
	ldr.w	r10, [sp, #164]                 @ 4-byte Reload
	and.w	r12, r5, r0
	movw	r0, :lower16:.Lgcm_v7m_static.0
	movt	r0, :upper16:.Lgcm_v7m_static.0
	ldrb.w	r4, [r0, r10]
	movs	r2, #64
	and.w	r0, r2, r4, lsl #6
	orr.w	r0, r0, r0, lsl #1
	eor.w	r0, r7, r0, lsl #8
	eor.w	r9, r0, r6
	and.w	r0, r2, r4, lsl #5
	orr.w	r0, r0, r0, lsl #1
	and.w	r6, r2, r4, lsl #3
	eor.w	r0, r7, r0, lsl #8
	ldr	r5, [sp, #152]                  @ 4-byte Reload
	orr.w	r6, r6, r6, lsl #1
	eors	r0, r3
	eor.w	r11, r8, r6, lsl #8
	and.w	r6, r2, r4, lsl #1
	eor.w	r7, r3, r5
	str	r0, [sp, #156]                  @ 4-byte Spill
	and.w	r0, r2, r4, lsl #4
	ldr	r3, [sp, #132]                  @ 4-byte Reload
	orr.w	r6, r6, r6, lsl #1
	orr.w	r0, r0, r0, lsl #1
	eor.w	r6, r12, r6, lsl #8
	ldr	r5, [sp, #168]                  @ 4-byte Reload
	eor.w	r3, r3, r0, lsl #8
	ldr	r0, [sp, #148]                  @ 4-byte Reload
	eors	r6, r1
	eor.w	r3, r3, lr
	eor.w	r12, r6, r5
	ldr	r5, [sp, #176]                  @ 4-byte Reload
	eor.w	r0, r0, lr
	lsl.w	lr, r10, #5
	eor.w	r8, r3, r7
	and.w	r3, r2, r4, lsl #2
	add.w	r6, r5, r10, lsl #5
	ldr.w	lr, [r5, lr]
	ldr	r5, [sp, #172]                  @ 4-byte Reload
	eor.w	r12, r12, r7
	orr.w	r7, r3, r3, lsl #1
	and.w	r2, r2, r4, lsr #1
	and	r3, r4, #64
	orr.w	r4, r3, r3, lsl #1
	orr.w	r2, r2, r2, lsl #1
	eors	r5, r0
	eor.w	r4, r1, r4, lsl #8
	eor.w	r1, r1, r2, lsl #8
	eor.w	r3, r11, r5
	eor.w	r7, r5, r7, lsl #8
	eors	r4, r5
	eors	r0, r1
	mov.w	r5, #50529027
	str	r0, [sp, #168]                  @ 4-byte Spill
	bic.w	r0, r5, r9, ror #14
	eor.w	r1, r0, lr
	mov.w	r0, #-50529028
	and.w	r2, r0, r1, lsl #2
	eors	r1, r2
	mov.w	r2, #-252645136
	str	r4, [sp, #164]                  @ 4-byte Spill
	and.w	r4, r2, r1, lsl #4
	eor.w	r11, r4, r1
	ldr	r4, [sp, #156]                  @ 4-byte Reload
	ldr	r1, [r6, #4]
	bic.w	r4, r5, r4, ror #14
	eors	r1, r4
	and.w	r4, r0, r1, lsl #2
	eors	r1, r4
	and.w	r4, r2, r1, lsl #4
	eors	r1, r4
	str	r1, [sp, #172]                  @ 4-byte Spill
	ldr	r1, [r6, #8]
	and.w	r4, r5, r8, ror #14
	eors	r1, r4
	and.w	r4, r0, r1, lsl #2
	eors	r1, r4
	and.w	r4, r2, r1, lsl #4
	eor.w	r8, r4, r1
	ldr	r1, [r6, #12]
	and.w	r3, r5, r3, ror #14
	eors	r1, r3
	and.w	r3, r0, r1, lsl #2
	eors	r1, r3
	and.w	r3, r2, r1, lsl #4
	eor.w	lr, r3, r1
	ldr	r1, [r6, #16]
	and.w	r3, r5, r7, ror #14
	eors	r1, r3
	and.w	r3, r0, r1, lsl #2
	eors	r1, r3
	and.w	r3, r2, r1, lsl #4
	eor.w	r4, r3, r1
	ldr	r1, [r6, #20]
	bic.w	r3, r5, r12, ror #14
	eors	r1, r3
	and.w	r3, r0, r1, lsl #2
	eors	r1, r3
	and.w	r3, r2, r1, lsl #4
	eor.w	r12, r3, r1
	ldr	r1, [sp, #164]                  @ 4-byte Reload
	ldr	r3, [r6, #24]
	bic.w	r7, r5, r1, ror #14
	eors	r3, r7
	and.w	r7, r0, r3, lsl #2
	eors	r3, r7
	and.w	r7, r2, r3, lsl #4
	ldr	r1, [sp, #168]                  @ 4-byte Reload
	eors	r3, r7
	ldr	r7, [r6, #28]
	and.w	r5, r5, r1, ror #14
	eors	r7, r5
	and.w	r0, r0, r7, lsl #2
	eors	r0, r7
	ldr	r1, [sp, #160]                  @ 4-byte Reload
	and.w	r2, r2, r0, lsl #4
	eor.w	r9, r2, r0
	adds.w	r0, r10, #1
	str	r0, [sp, #164]                  @ 4-byte Spill
	adc	r2, r1, #0
	subs.w	r0, r10, #9
	sbcs	r0, r1, #0
	ldr	r0, [sp, #172]                  @ 4-byte Reload
	add.w	r1, r6, #36
	mov	r10, r0
	str.w	r11, [r6, #32]
	stm.w	r1, {r0, r8, lr}
	strd	r4, r12, [r6, #48]
	strd	r3, r9, [r6, #56]
	blo.w	.Lgcm_v7m_BB3_3
	b.w	.Lgcm_v7m_BB3_9
	.p2align	2
.Lgcm_v7m_BB3_4:                                @ %then.4.i157
	mov	r4, r1
	bl	gcm_v7m.aes_planes.soft.word.word32.U32Word.in_every_slot
	ldrd	r8, r0, [sp, #180]
	ldrd	r9, r5, [sp, #188]
	str	r0, [sp, #124]                  @ 4-byte Spill
	ldr	r0, [sp, #204]
	ldrd	r6, r11, [sp, #196]
	str	r0, [sp, #148]                  @ 4-byte Spill
	ldr	r0, [sp, #208]
	add.w	r1, r4, #8
	str	r0, [sp, #144]                  @ 4-byte Spill
	add	r0, sp, #180
	bl	gcm_v7m.aes_planes.soft.word.word32.U32Word.in_every_slot
	ldr	r0, [sp, #180]
	ldrd	r10, r12, [sp, #204]
	str	r0, [sp, #172]                  @ 4-byte Spill
	ldr	r0, [sp, #184]
	str	r5, [sp, #132]                  @ 4-byte Spill
	str	r0, [sp, #164]                  @ 4-byte Spill
	ldr	r0, [sp, #188]
	str	r5, [r7, #12]
	str	r0, [sp, #160]                  @ 4-byte Spill
	ldr	r0, [sp, #192]
	movs	r5, #0
	str	r0, [sp, #116]                  @ 4-byte Spill
	ldr	r0, [sp, #196]
	movs	r2, #0
	str	r0, [sp, #156]                  @ 4-byte Spill
	ldr	r0, [sp, #200]
	str.w	r8, [sp, #120]                  @ 4-byte Spill
	str	r0, [sp, #112]                  @ 4-byte Spill
	ldr	r0, [sp, #124]                  @ 4-byte Reload
	str.w	r8, [r7]
	str	r0, [r7, #4]
	ldr	r0, [sp, #148]                  @ 4-byte Reload
	str.w	r9, [sp, #128]                  @ 4-byte Spill
	str	r0, [r7, #24]
	ldr	r0, [sp, #144]                  @ 4-byte Reload
	str.w	r9, [r7, #8]
	str	r6, [sp, #140]                  @ 4-byte Spill
	str	r6, [r7, #16]
	str.w	r11, [sp, #136]                 @ 4-byte Spill
	str.w	r11, [r7, #20]
	str	r0, [r7, #28]
	.p2align	2
.Lgcm_v7m_BB3_5:                                @ %join.5.i164.i
                                        @ =>This Inner Loop Header: Depth=1
	ldr.w	r8, [sp, #164]                  @ 4-byte Reload
	ldrd	r4, r7, [sp, #156]              @ 8-byte Folded Reload
	eor.w	r1, r12, r8
	eor.w	r9, r4, r7
	ldr	r0, [sp, #116]                  @ 4-byte Reload
	str	r1, [sp, #52]                   @ 4-byte Spill
	eor.w	r1, r1, r9
	eors	r0, r1
	str	r5, [sp, #152]                  @ 4-byte Spill
	eor.w	r5, r0, r7
	eor.w	lr, r0, r10
	ldr	r0, [sp, #112]                  @ 4-byte Reload
	str	r1, [sp, #168]                  @ 4-byte Spill
	eor.w	r1, r12, r4
	str.w	r10, [sp, #76]                  @ 4-byte Spill
	eor.w	r10, r10, r0
	eor.w	r0, lr, r1
	str	r2, [sp, #88]                   @ 4-byte Spill
	str	r1, [sp, #104]                  @ 4-byte Spill
	and.w	r2, r0, r1
	eor.w	r1, r5, r10
	str	r7, [sp, #160]                  @ 4-byte Spill
	eor.w	r3, r0, r1
	eor.w	r7, r7, r12
	str	r3, [sp, #100]                  @ 4-byte Spill
	and.w	r3, r3, r9
	and.w	r6, r1, r7
	str	r0, [sp, #44]                   @ 4-byte Spill
	eor.w	r11, r3, r2
	eor.w	r0, r6, r2
	ldr	r2, [sp, #172]                  @ 4-byte Reload
	str.w	r9, [sp, #92]                   @ 4-byte Spill
	eor.w	r9, r10, r2
	str.w	r8, [sp, #164]                  @ 4-byte Spill
	eor.w	r8, r8, r9
	mov	r3, r1
	str	r1, [sp, #96]                   @ 4-byte Spill
	str	r0, [sp, #48]                   @ 4-byte Spill
	eor.w	r1, r5, r2
	eor.w	r0, r8, r7
	str	r4, [sp, #156]                  @ 4-byte Spill
	and.w	r6, r1, r0
	eor.w	r4, r4, r9
	str	r0, [sp, #68]                   @ 4-byte Spill
	eor.w	lr, lr, r6
	and.w	r6, r4, r2
	ldr	r0, [sp, #168]                  @ 4-byte Reload
	eors	r6, r7
	str	r4, [sp, #84]                   @ 4-byte Spill
	eors	r6, r3
	and.w	r4, r5, r0
	str	r7, [sp, #108]                  @ 4-byte Spill
	eor.w	r7, r6, r4
	ldr	r6, [sp, #44]                   @ 4-byte Reload
	str	r5, [sp, #80]                   @ 4-byte Spill
	eor.w	r4, r4, lr
	ldr	r5, [sp, #52]                   @ 4-byte Reload
	str	r1, [sp, #64]                   @ 4-byte Spill
	eor.w	r1, r6, r10
	eor.w	lr, r4, r11
	and.w	r4, r8, r9
	eors	r4, r1
	and.w	r0, r1, r5
	eors	r4, r0
	eors	r4, r5
	str	r2, [sp, #172]                  @ 4-byte Spill
	eor.w	r3, r4, r11
	eor.w	r4, r9, r12
	eors	r2, r6
	mov	r10, r6
	and.w	r6, r2, r4
	eors	r6, r1
	str	r2, [sp, #60]                   @ 4-byte Spill
	eors	r0, r6
	ldr	r2, [sp, #48]                   @ 4-byte Reload
	eor.w	r0, r0, r12
	eor.w	r6, r7, r2
	eor.w	r7, r0, r2
	and.w	r0, r3, lr
	str.w	r12, [sp, #72]                  @ 4-byte Spill
	eor.w	r12, r0, r6
	eor.w	r11, r7, r3
	and.w	r12, r12, r11
	eor.w	r11, lr, r6
	eor.w	r2, r0, r7
	str	r4, [sp, #56]                   @ 4-byte Spill
	and.w	r4, r2, r11
	eors	r6, r4
	eor.w	r4, r12, r0
	eor.w	r0, r12, r7
	ands	r7, r4
	eors	r2, r7
	ands	r2, r6
	eor.w	r2, r2, r11
	eors	r3, r7
	eor.w	r7, r2, r6
	and.w	r12, r7, r1
	and.w	r1, r7, r5
	str	r1, [sp, #52]                   @ 4-byte Spill
	ldr	r1, [sp, #64]                   @ 4-byte Reload
	eor.w	r5, r3, r0
	and.w	lr, r5, r1
	ldr	r1, [sp, #68]                   @ 4-byte Reload
	eor.w	r7, r6, r0
	and.w	r11, r2, r8
	eor.w	r8, r2, r5
	ands	r5, r1
	and.w	r1, r7, r10
	str	r1, [sp, #68]                   @ 4-byte Spill
	ldr	r1, [sp, #104]                  @ 4-byte Reload
	and.w	r9, r9, r2
	and.w	r2, r7, r1
	ldr	r1, [sp, #92]                   @ 4-byte Reload
	ldr	r4, [sp, #100]                  @ 4-byte Reload
	eor.w	r7, r7, r8
	ands	r1, r7
	ands	r7, r4
	ldr	r4, [sp, #56]                   @ 4-byte Reload
	str	r2, [sp, #104]                  @ 4-byte Spill
	ands	r4, r6
	str	r4, [sp, #100]                  @ 4-byte Spill
	ldr	r4, [sp, #60]                   @ 4-byte Reload
	eors	r1, r2
	ands	r6, r4
	ldr	r4, [sp, #80]                   @ 4-byte Reload
	ldr	r2, [sp, #96]                   @ 4-byte Reload
	and.w	r10, r3, r4
	ldr	r4, [sp, #168]                  @ 4-byte Reload
	and.w	r2, r2, r8
	ands	r3, r4
	str	r3, [sp, #168]                  @ 4-byte Spill
	ldr	r3, [sp, #84]                   @ 4-byte Reload
	eor.w	r4, r12, r9
	ands	r3, r0
	str	r3, [sp, #92]                   @ 4-byte Spill
	ldr	r3, [sp, #172]                  @ 4-byte Reload
	eors	r5, r1
	ands	r0, r3
	eor.w	r0, r0, r10
	eors	r6, r0
	eor.w	r6, r6, r12
	eor.w	r3, r6, r11
	eors	r0, r2
	ldr	r2, [sp, #68]                   @ 4-byte Reload
	eors	r1, r3
	eor.w	r3, r4, r7
	ldr	r7, [sp, #52]                   @ 4-byte Reload
	eor.w	r12, r3, r2
	ldr	r2, [sp, #108]                  @ 4-byte Reload
	eors	r0, r7
	eors	r0, r3
	and.w	r8, r8, r2
	ldr	r2, [sp, #152]                  @ 4-byte Reload
	movw	r3, :lower16:.Lgcm_v7m_static.0
	movt	r3, :upper16:.Lgcm_v7m_static.0
	ldrb.w	r2, [r3, r2, lsl #1]
	eor.w	lr, lr, r10
	mov.w	r10, #64
	and.w	r3, r10, r2, lsl #6
	orr.w	r3, r3, r3, lsl #1
	eor.w	r3, r1, r3, lsl #8
	eor.w	r9, r3, r7
	and.w	r3, r10, r2, lsl #5
	orr.w	r3, r3, r3, lsl #1
	eor.w	r1, r1, r3, lsl #8
	ldr	r3, [sp, #100]                  @ 4-byte Reload
	eor.w	r4, r4, lr
	eors	r3, r0
	eor.w	lr, r1, r0
	and.w	r0, r10, r2, lsl #4
	ldr	r1, [sp, #92]                   @ 4-byte Reload
	orr.w	r0, r0, r0, lsl #1
	eor.w	r0, r1, r0, lsl #8
	ldr	r1, [sp, #168]                  @ 4-byte Reload
	eors	r0, r5
	eor.w	r7, r5, r1
	and.w	r1, r10, r2, lsl #3
	and.w	r5, r10, r2, lsl #1
	orr.w	r1, r1, r1, lsl #1
	orr.w	r5, r5, r5, lsl #1
	eor.w	r1, r6, r1, lsl #8
	eor.w	r5, r8, r5, lsl #8
	ldr	r6, [sp, #104]                  @ 4-byte Reload
	eor.w	r5, r5, r12
	eors	r5, r6
	eors	r0, r3
	eor.w	r8, r5, r3
	and.w	r6, r10, r2, lsl #2
	and	r3, r2, #64
	and.w	r2, r10, r2, lsr #1
	orr.w	r3, r3, r3, lsl #1
	orr.w	r2, r2, r2, lsl #1
	eor.w	r5, r4, r7
	orr.w	r6, r6, r6, lsl #1
	eor.w	r3, r12, r3, lsl #8
	eor.w	r2, r12, r2, lsl #8
	eor.w	r4, r1, r5
	eor.w	r1, r5, r6, lsl #8
	eor.w	r11, r3, r5
	eor.w	r12, r2, r7
	mov.w	r5, #50529027
	ldr	r2, [sp, #120]                  @ 4-byte Reload
	bic.w	r3, r5, r9, ror #14
	eors	r3, r2
	mov.w	r2, #-50529028
	and.w	r7, r2, r3, lsl #2
	eor.w	r6, r7, r3
	ldr	r7, [sp, #124]                  @ 4-byte Reload
	bic.w	r3, r5, lr, ror #14
	eors	r3, r7
	and.w	r7, r2, r3, lsl #2
	eors	r7, r3
	ldr	r3, [sp, #128]                  @ 4-byte Reload
	and.w	r0, r5, r0, ror #14
	eors	r0, r3
	and.w	r3, r2, r0, lsl #2
	eor.w	r9, r3, r0
	ldr	r3, [sp, #132]                  @ 4-byte Reload
	and.w	r0, r5, r4, ror #14
	eors	r0, r3
	and.w	r3, r2, r0, lsl #2
	eor.w	r4, r3, r0
	and.w	r0, r5, r1, ror #14
	ldr	r1, [sp, #140]                  @ 4-byte Reload
	str.w	r9, [sp, #104]                  @ 4-byte Spill
	eors	r0, r1
	and.w	r1, r2, r0, lsl #2
	eor.w	r10, r1, r0
	ldr	r1, [sp, #136]                  @ 4-byte Reload
	bic.w	r0, r5, r8, ror #14
	eors	r0, r1
	and.w	r1, r2, r0, lsl #2
	eor.w	r8, r1, r0
	ldr	r1, [sp, #148]                  @ 4-byte Reload
	bic.w	r0, r5, r11, ror #14
	eors	r0, r1
	and.w	r1, r2, r0, lsl #2
	eor.w	lr, r1, r0
	ldr	r1, [sp, #144]                  @ 4-byte Reload
	and.w	r0, r5, r12, ror #14
	eors	r0, r1
	and.w	r1, r2, r0, lsl #2
	eor.w	r3, r1, r0
	ldr	r1, [sp, #172]                  @ 4-byte Reload
	and.w	r0, r5, r6, lsr #2
	eors	r0, r1
	and.w	r1, r2, r0, lsl #2
	eors	r0, r1
	mov.w	r12, #-252645136
	and.w	r1, r12, r0, lsl #4
	eors	r0, r1
	ldr.w	r11, [sp, #164]                 @ 4-byte Reload
	str	r0, [sp, #124]                  @ 4-byte Spill
	and.w	r0, r5, r7, lsr #2
	eor.w	r0, r0, r11
	and.w	r1, r2, r0, lsl #2
	eors	r0, r1
	and.w	r1, r12, r0, lsl #4
	eors	r0, r1
	str	r0, [sp, #128]                  @ 4-byte Spill
	and.w	r0, r5, r9, lsr #2
	ldr.w	r9, [sp, #160]                  @ 4-byte Reload
	str	r7, [sp, #100]                  @ 4-byte Spill
	eor.w	r0, r0, r9
	and.w	r1, r2, r0, lsl #2
	eors	r0, r1
	and.w	r1, r12, r0, lsl #4
	eors	r0, r1
	ldr	r7, [sp, #116]                  @ 4-byte Reload
	str	r0, [sp, #132]                  @ 4-byte Spill
	and.w	r0, r5, r4, lsr #2
	eors	r0, r7
	and.w	r1, r2, r0, lsl #2
	eors	r0, r1
	and.w	r1, r12, r0, lsl #4
	str	r6, [sp, #96]                   @ 4-byte Spill
	eors	r0, r1
	ldr	r6, [sp, #156]                  @ 4-byte Reload
	str	r0, [sp, #140]                  @ 4-byte Spill
	and.w	r0, r5, r10, lsr #2
	eors	r0, r6
	and.w	r1, r2, r0, lsl #2
	eors	r0, r1
	and.w	r1, r12, r0, lsl #4
	eors	r0, r1
	str.w	r8, [sp, #92]                   @ 4-byte Spill
	str	r0, [sp, #136]                  @ 4-byte Spill
	and.w	r0, r5, r8, lsr #2
	ldr.w	r8, [sp, #112]                  @ 4-byte Reload
	str	r4, [sp, #108]                  @ 4-byte Spill
	eor.w	r0, r0, r8
	and.w	r1, r2, r0, lsl #2
	eors	r0, r1
	and.w	r1, r12, r0, lsl #4
	eors	r0, r1
	ldr	r4, [sp, #76]                   @ 4-byte Reload
	str	r0, [sp, #144]                  @ 4-byte Spill
	and.w	r0, r5, lr, lsr #2
	eors	r0, r4
	and.w	r1, r2, r0, lsl #2
	eors	r0, r1
	and.w	r1, r12, r0, lsl #4
	eors	r0, r1
	str	r0, [sp, #148]                  @ 4-byte Spill
	and.w	r0, r5, r3, lsr #2
	mov	r5, r3
	str	r3, [sp, #84]                   @ 4-byte Spill
	ldr	r3, [sp, #72]                   @ 4-byte Reload
	str.w	r10, [sp, #120]                 @ 4-byte Spill
	eors	r0, r3
	and.w	r1, r2, r0, lsl #2
	eors	r0, r1
	and.w	r1, r12, r0, lsl #4
	eors	r0, r1
	ldr	r1, [sp, #172]                  @ 4-byte Reload
	str	r0, [sp, #168]                  @ 4-byte Spill
	mov.w	r0, #252645135
	mov	r10, lr
	str.w	lr, [sp, #80]                   @ 4-byte Spill
	and.w	r2, r0, r1, lsr #4
	and.w	r12, r0, r11, lsr #4
	and.w	lr, r0, r9, lsr #4
	and.w	r7, r0, r7, lsr #4
	and.w	r6, r0, r6, lsr #4
	and.w	r11, r0, r8, lsr #4
	and.w	r1, r0, r4, lsr #4
	and.w	r3, r0, r3, lsr #4
	ldr	r0, [sp, #152]                  @ 4-byte Reload
	ldr	r4, [sp, #176]                  @ 4-byte Reload
	add.w	r0, r0, r0, lsl #1
	add.w	r9, r4, r0, lsl #5
	ldr	r0, [sp, #96]                   @ 4-byte Reload
	mov.w	r4, #-252645136
	and.w	r0, r4, r0, lsl #4
	str	r0, [sp, #64]                   @ 4-byte Spill
	add	r0, r2
	str.w	r0, [r9, #32]
	ldr	r0, [sp, #100]                  @ 4-byte Reload
	and.w	r0, r4, r0, lsl #4
	str	r0, [sp, #68]                   @ 4-byte Spill
	add	r0, r12
	str.w	r0, [r9, #36]
	ldr	r0, [sp, #104]                  @ 4-byte Reload
	and.w	r0, r4, r0, lsl #4
	str	r0, [sp, #72]                   @ 4-byte Spill
	add	r0, lr
	str.w	r0, [r9, #40]
	ldr	r0, [sp, #108]                  @ 4-byte Reload
	and.w	r0, r4, r0, lsl #4
	str	r0, [sp, #76]                   @ 4-byte Spill
	add	r0, r7
	str.w	r0, [r9, #44]
	ldr	r0, [sp, #120]                  @ 4-byte Reload
	ldr	r7, [sp, #128]                  @ 4-byte Reload
	and.w	r0, r4, r0, lsl #4
	str	r0, [sp, #112]                  @ 4-byte Spill
	add	r0, r6
	str.w	r0, [r9, #48]
	ldr	r0, [sp, #92]                   @ 4-byte Reload
	and.w	r0, r4, r0, lsl #4
	str	r0, [sp, #116]                  @ 4-byte Spill
	add	r0, r11
	str.w	r0, [r9, #52]
	and.w	r0, r4, r10, lsl #4
	str	r0, [sp, #156]                  @ 4-byte Spill
	add	r0, r1
	str.w	r0, [r9, #56]
	and.w	r0, r4, r5, lsl #4
	ldr.w	r11, [sp, #168]                 @ 4-byte Reload
	ldrd	r1, r6, [sp, #132]              @ 8-byte Folded Reload
	str	r0, [sp, #160]                  @ 4-byte Spill
	add	r0, r3
	str.w	r0, [r9, #60]
	eor.w	r3, r7, r11
	eor.w	lr, r6, r1
	ldr	r0, [sp, #140]                  @ 4-byte Reload
	str	r3, [sp, #12]                   @ 4-byte Spill
	eor.w	r3, r3, lr
	str	r3, [sp, #172]                  @ 4-byte Spill
	eors	r0, r3
	ldr	r3, [sp, #148]                  @ 4-byte Reload
	eor.w	r10, r0, r1
	eor.w	r4, r0, r3
	ldr	r0, [sp, #144]                  @ 4-byte Reload
	str	r4, [sp, #40]                   @ 4-byte Spill
	eor.w	r8, r3, r0
	eor.w	r3, r6, r11
	eor.w	r0, r4, r3
	eor.w	r4, r10, r8
	str	r3, [sp, #56]                   @ 4-byte Spill
	and.w	r2, r0, r3
	eor.w	r3, r0, r4
	str	r3, [sp, #52]                   @ 4-byte Spill
	and.w	r3, r3, lr
	eor.w	r1, r1, r11
	eor.w	r5, r3, r2
	and.w	r3, r4, r1
	eor.w	r11, r3, r2
	ldr	r2, [sp, #124]                  @ 4-byte Reload
	str.w	lr, [sp, #48]                   @ 4-byte Spill
	eor.w	lr, r8, r2
	eor.w	r12, lr, r7
	str	r0, [sp, #164]                  @ 4-byte Spill
	eor.w	r3, r10, r2
	eor.w	r0, r12, r1
	str	r0, [sp, #32]                   @ 4-byte Spill
	and.w	r7, r3, r0
	ldr	r0, [sp, #40]                   @ 4-byte Reload
	str	r4, [sp, #44]                   @ 4-byte Spill
	eors	r0, r7
	eor.w	r7, lr, r6
	str	r7, [sp, #40]                   @ 4-byte Spill
	ands	r7, r2
	mov	r6, r2
	ldr	r2, [sp, #172]                  @ 4-byte Reload
	eors	r7, r1
	eors	r7, r4
	and.w	r2, r2, r10
	eor.w	r4, r7, r2
	ldr	r7, [sp, #164]                  @ 4-byte Reload
	str.w	r10, [sp, #36]                  @ 4-byte Spill
	eors	r2, r0
	ldr.w	r10, [sp, #12]                  @ 4-byte Reload
	str	r3, [sp, #28]                   @ 4-byte Spill
	eor.w	r3, r7, r8
	eor.w	r8, r2, r5
	and.w	r2, r12, lr
	str.w	r12, [sp, #16]                  @ 4-byte Spill
	eors	r2, r3
	and.w	r12, r3, r10
	str	r1, [sp, #60]                   @ 4-byte Spill
	eor.w	r2, r2, r12
	ldr	r1, [sp, #168]                  @ 4-byte Reload
	eor.w	r2, r2, r10
	eors	r5, r2
	eor.w	r0, lr, r1
	eor.w	r2, r7, r6
	str	r2, [sp, #24]                   @ 4-byte Spill
	ands	r2, r0
	eors	r2, r3
	str	r0, [sp, #20]                   @ 4-byte Spill
	eor.w	r0, r2, r12
	eors	r0, r1
	eor.w	r2, r4, r11
	eor.w	r4, r0, r11
	and.w	r6, r5, r8
	eor.w	r0, r6, r2
	eor.w	r7, r4, r5
	ands	r7, r0
	eor.w	r12, r8, r2
	eor.w	r1, r6, r4
	and.w	r0, r1, r12
	eors	r6, r7
	eors	r0, r2
	eor.w	r2, r7, r4
	ands	r4, r6
	eors	r1, r4
	ands	r1, r0
	eor.w	r1, r1, r12
	eors	r5, r4
	eor.w	r4, r1, r0
	and.w	r8, r4, r3
	and.w	r3, r4, r10
	str	r3, [sp, #12]                   @ 4-byte Spill
	ldr	r3, [sp, #16]                   @ 4-byte Reload
	eor.w	r7, r5, r2
	and.w	r10, r1, lr
	ands	r3, r1
	eor.w	lr, r1, r7
	ldr	r1, [sp, #28]                   @ 4-byte Reload
	str	r3, [sp, #16]                   @ 4-byte Spill
	and.w	r4, r7, r1
	ldr	r1, [sp, #32]                   @ 4-byte Reload
	eor.w	r3, r0, r2
	and.w	r12, r7, r1
	ldr	r1, [sp, #164]                  @ 4-byte Reload
	ands	r1, r3
	str	r1, [sp, #32]                   @ 4-byte Spill
	ldr	r1, [sp, #56]                   @ 4-byte Reload
	and.w	r7, r3, r1
	ldr	r1, [sp, #48]                   @ 4-byte Reload
	eor.w	r3, r3, lr
	and.w	r6, r3, r1
	ldr	r1, [sp, #52]                   @ 4-byte Reload
	str	r7, [sp, #164]                  @ 4-byte Spill
	and.w	r11, r3, r1
	ldr	r1, [sp, #20]                   @ 4-byte Reload
	ands	r1, r0
	str	r1, [sp, #56]                   @ 4-byte Spill
	ldr	r1, [sp, #24]                   @ 4-byte Reload
	ands	r0, r1
	ldr	r1, [sp, #36]                   @ 4-byte Reload
	and.w	r3, r5, r1
	ldr	r1, [sp, #172]                  @ 4-byte Reload
	eors	r4, r3
	ands	r1, r5
	str	r1, [sp, #52]                   @ 4-byte Spill
	ldr	r1, [sp, #40]                   @ 4-byte Reload
	ldr	r5, [sp, #16]                   @ 4-byte Reload
	ands	r1, r2
	str	r1, [sp, #48]                   @ 4-byte Spill
	ldr	r1, [sp, #124]                  @ 4-byte Reload
	ands	r2, r1
	eors	r2, r3
	eors	r0, r2
	eor.w	r3, r8, r10
	eor.w	r8, r8, r0
	eor.w	r0, r6, r7
	eor.w	r5, r5, r8
	eor.w	r12, r12, r0
	eor.w	r7, r5, r0
	eor.w	r0, r3, r11
	eors	r3, r4
	str	r3, [sp, #172]                  @ 4-byte Spill
	ldr	r3, [sp, #44]                   @ 4-byte Reload
	ldr	r6, [sp, #12]                   @ 4-byte Reload
	and.w	r3, r3, lr
	eors	r2, r3
	eors	r2, r6
	eor.w	r10, r2, r0
	ldr	r2, [sp, #32]                   @ 4-byte Reload
	movw	r3, :lower16:.Lgcm_v7m_static.0
	eors	r0, r2
	ldr	r2, [sp, #152]                  @ 4-byte Reload
	movt	r3, :upper16:.Lgcm_v7m_static.0
	add.w	r2, r3, r2, lsl #1
	ldr	r3, [sp, #128]                  @ 4-byte Reload
	str.w	r1, [r9, #64]
	str.w	r3, [r9, #68]
	ldr	r3, [sp, #132]                  @ 4-byte Reload
	movs	r4, #64
	str.w	r3, [r9, #72]
	ldr	r3, [sp, #140]                  @ 4-byte Reload
	ldr	r1, [sp, #60]                   @ 4-byte Reload
	str.w	r3, [r9, #76]
	ldr	r3, [sp, #136]                  @ 4-byte Reload
	and.w	lr, lr, r1
	str.w	r3, [r9, #80]
	ldr	r3, [sp, #144]                  @ 4-byte Reload
	str.w	r3, [r9, #84]
	ldr	r3, [sp, #148]                  @ 4-byte Reload
	str.w	r3, [r9, #88]
	ldr	r3, [sp, #168]                  @ 4-byte Reload
	str.w	r3, [r9, #92]
	ldrb	r5, [r2, #1]
	ldr	r3, [sp, #164]                  @ 4-byte Reload
	and.w	r2, r4, r5, lsl #6
	orr.w	r2, r2, r2, lsl #1
	eor.w	r2, r7, r2, lsl #8
	eor.w	r1, r2, r6
	and.w	r2, r4, r5, lsl #5
	str	r1, [sp, #60]                   @ 4-byte Spill
	orr.w	r2, r2, r2, lsl #1
	ldr	r1, [sp, #56]                   @ 4-byte Reload
	eor.w	r2, r7, r2, lsl #8
	eor.w	r7, r10, r1
	eor.w	r10, r10, r2
	and.w	r2, r4, r5, lsl #4
	ldr	r1, [sp, #48]                   @ 4-byte Reload
	orr.w	r2, r2, r2, lsl #1
	eor.w	r2, r1, r2, lsl #8
	ldr	r1, [sp, #52]                   @ 4-byte Reload
	and.w	r6, r4, r5, lsl #3
	orr.w	r6, r6, r6, lsl #1
	eor.w	r1, r1, r12
	eor.w	r2, r2, r12
	eor.w	r12, r8, r6, lsl #8
	and.w	r6, r4, r5, lsl #1
	orr.w	r6, r6, r6, lsl #1
	eor.w	r6, lr, r6, lsl #8
	eors	r6, r0
	eor.w	r11, r2, r7
	ldr	r2, [sp, #172]                  @ 4-byte Reload
	eors	r6, r3
	eor.w	lr, r6, r7
	eor.w	r6, r2, r1
	and.w	r7, r4, r5, lsl #2
	and.w	r2, r4, r5, lsr #1
	and	r5, r5, #64
	orr.w	r5, r5, r5, lsl #1
	orr.w	r2, r2, r2, lsl #1
	eor.w	r5, r0, r5, lsl #8
	eor.w	r0, r0, r2, lsl #8
	eors	r0, r1
	orr.w	r7, r7, r7, lsl #1
	str	r0, [sp, #172]                  @ 4-byte Spill
	ldr	r0, [sp, #60]                   @ 4-byte Reload
	eor.w	r4, r12, r6
	eor.w	r7, r6, r7, lsl #8
	eor.w	r8, r5, r6
	mov.w	r6, #50529027
	ldr	r1, [sp, #64]                   @ 4-byte Reload
	bic.w	r0, r6, r0, ror #14
	add	r0, r1
	ldr	r1, [sp, #96]                   @ 4-byte Reload
	mov.w	r12, #-50529028
	eors	r0, r1
	and.w	r1, r12, r0, lsl #2
	ldr	r2, [sp, #68]                   @ 4-byte Reload
	eors	r1, r0
	bic.w	r0, r6, r10, ror #14
	add	r0, r2
	ldr	r2, [sp, #100]                  @ 4-byte Reload
	ldr	r3, [sp, #72]                   @ 4-byte Reload
	eors	r0, r2
	and.w	r2, r12, r0, lsl #2
	eors	r0, r2
	and.w	r2, r6, r11, ror #14
	add	r2, r3
	ldr	r3, [sp, #104]                  @ 4-byte Reload
	mov	r11, r6
	eors	r2, r3
	and.w	r3, r12, r2, lsl #2
	eor.w	r5, r3, r2
	ldr	r3, [sp, #76]                   @ 4-byte Reload
	and.w	r2, r6, r4, ror #14
	add	r2, r3
	ldr	r3, [sp, #108]                  @ 4-byte Reload
	ldr	r4, [sp, #156]                  @ 4-byte Reload
	eors	r2, r3
	and.w	r3, r12, r2, lsl #2
	eor.w	r6, r3, r2
	ldr	r3, [sp, #112]                  @ 4-byte Reload
	and.w	r2, r11, r7, ror #14
	add	r2, r3
	ldr	r3, [sp, #120]                  @ 4-byte Reload
	ldr	r7, [sp, #116]                  @ 4-byte Reload
	eors	r2, r3
	and.w	r3, r12, r2, lsl #2
	eors	r3, r2
	bic.w	r2, r11, lr, ror #14
	add	r2, r7
	ldr	r7, [sp, #92]                   @ 4-byte Reload
	mov.w	lr, #-252645136
	eors	r2, r7
	and.w	r7, r12, r2, lsl #2
	eors	r2, r7
	bic.w	r7, r11, r8, ror #14
	add	r7, r4
	ldr	r4, [sp, #80]                   @ 4-byte Reload
	eors	r7, r4
	and.w	r4, r12, r7, lsl #2
	eor.w	r8, r4, r7
	ldr	r7, [sp, #172]                  @ 4-byte Reload
	ldr	r4, [sp, #160]                  @ 4-byte Reload
	and.w	r7, r11, r7, ror #14
	add	r7, r4
	ldr	r4, [sp, #84]                   @ 4-byte Reload
	eors	r7, r4
	and.w	r4, r12, r7, lsl #2
	eors	r7, r4
	and.w	r4, lr, r1, lsl #4
	eors	r4, r1
	str	r4, [sp, #120]                  @ 4-byte Spill
	ldr	r4, [sp, #124]                  @ 4-byte Reload
	and.w	r1, r11, r1, lsr #2
	eors	r1, r4
	and.w	r4, r12, r1, lsl #2
	eors	r1, r4
	and.w	r4, lr, r1, lsl #4
	eors	r1, r4
	str	r1, [sp, #172]                  @ 4-byte Spill
	and.w	r1, lr, r0, lsl #4
	eors	r1, r0
	str	r1, [sp, #124]                  @ 4-byte Spill
	ldr	r1, [sp, #128]                  @ 4-byte Reload
	and.w	r0, r11, r0, lsr #2
	eors	r0, r1
	and.w	r1, r12, r0, lsl #2
	eors	r0, r1
	and.w	r1, lr, r0, lsl #4
	eors	r0, r1
	str	r0, [sp, #164]                  @ 4-byte Spill
	and.w	r0, lr, r5, lsl #4
	eors	r0, r5
	ldr	r1, [sp, #132]                  @ 4-byte Reload
	str	r0, [sp, #128]                  @ 4-byte Spill
	and.w	r0, r11, r5, lsr #2
	eors	r0, r1
	and.w	r1, r12, r0, lsl #2
	eors	r0, r1
	and.w	r1, lr, r0, lsl #4
	eors	r0, r1
	str	r0, [sp, #160]                  @ 4-byte Spill
	and.w	r0, lr, r6, lsl #4
	eors	r0, r6
	ldr	r1, [sp, #140]                  @ 4-byte Reload
	str	r0, [sp, #132]                  @ 4-byte Spill
	and.w	r0, r11, r6, lsr #2
	eors	r0, r1
	and.w	r1, r12, r0, lsl #2
	eors	r0, r1
	and.w	r1, lr, r0, lsl #4
	eors	r0, r1
	str	r0, [sp, #116]                  @ 4-byte Spill
	and.w	r0, lr, r3, lsl #4
	ldr	r1, [sp, #136]                  @ 4-byte Reload
	eor.w	r6, r0, r3
	and.w	r0, r11, r3, lsr #2
	eors	r0, r1
	and.w	r1, r12, r0, lsl #2
	eors	r0, r1
	and.w	r1, lr, r0, lsl #4
	eors	r0, r1
	str	r0, [sp, #156]                  @ 4-byte Spill
	and.w	r0, lr, r2, lsl #4
	ldr	r1, [sp, #144]                  @ 4-byte Reload
	mov	r4, lr
	eor.w	lr, r0, r2
	and.w	r0, r11, r2, lsr #2
	eors	r0, r1
	and.w	r1, r12, r0, lsl #2
	eors	r0, r1
	and.w	r1, r4, r0, lsl #4
	eors	r0, r1
	str	r0, [sp, #112]                  @ 4-byte Spill
	and.w	r0, r4, r8, lsl #4
	ldr	r1, [sp, #148]                  @ 4-byte Reload
	eor.w	r3, r0, r8
	and.w	r0, r11, r8, lsr #2
	eors	r0, r1
	and.w	r1, r12, r0, lsl #2
	eors	r0, r1
	and.w	r1, r4, r0, lsl #4
	eor.w	r10, r1, r0
	and.w	r0, r4, r7, lsl #4
	ldr	r1, [sp, #168]                  @ 4-byte Reload
	mov	r2, r4
	eor.w	r4, r0, r7
	and.w	r0, r11, r7, lsr #2
	eors	r0, r1
	and.w	r1, r12, r0, lsl #2
	eors	r0, r1
	and.w	r1, r2, r0, lsl #4
	eor.w	r12, r1, r0
	ldr	r1, [sp, #152]                  @ 4-byte Reload
	ldr	r0, [sp, #88]                   @ 4-byte Reload
	adds	r5, r1, #1
	adc	r2, r0, #0
	subs	r1, #3
	sbcs	r0, r0, #0
	ldr	r0, [sp, #120]                  @ 4-byte Reload
	str	r6, [sp, #140]                  @ 4-byte Spill
	str.w	r0, [r9, #96]
	ldr	r0, [sp, #124]                  @ 4-byte Reload
	str.w	r6, [r9, #112]
	str.w	r0, [r9, #100]
	ldr	r0, [sp, #128]                  @ 4-byte Reload
	str.w	lr, [sp, #136]                  @ 4-byte Spill
	str.w	r0, [r9, #104]
	ldr	r0, [sp, #132]                  @ 4-byte Reload
	str.w	lr, [r9, #116]
	str.w	r0, [r9, #108]
	str	r3, [sp, #148]                  @ 4-byte Spill
	str.w	r3, [r9, #120]
	str	r4, [sp, #144]                  @ 4-byte Spill
	str.w	r4, [r9, #124]
	blo.w	.Lgcm_v7m_BB3_5
	b.w	.Lgcm_v7m_BB3_9
	.p2align	2
.Lgcm_v7m_BB3_6:                                @ %else.5.i
	mov	r5, r1
	bl	gcm_v7m.aes_planes.soft.word.word32.U32Word.in_every_slot
	ldrd	r11, r0, [sp, #196]
	ldrd	r6, r4, [sp, #180]
	str	r0, [sp, #168]                  @ 4-byte Spill
	ldrd	r9, r0, [sp, #204]
	ldrd	r10, r8, [sp, #188]
	str	r0, [sp, #172]                  @ 4-byte Spill
	add.w	r1, r5, #16
	add	r0, sp, #180
	bl	gcm_v7m.aes_planes.soft.word.word32.U32Word.in_every_slot
	str	r4, [r7, #4]
	ldr	r4, [sp, #168]                  @ 4-byte Reload
	ldrd	r1, r0, [sp, #180]
	ldr	r3, [sp, #192]
	ldr.w	lr, [sp, #188]
	ldr	r2, [sp, #196]
	str	r4, [r7, #20]
	ldr	r4, [sp, #172]                  @ 4-byte Reload
	str	r6, [r7]
	ldr.w	r12, [sp, #200]
	str.w	r11, [r7, #16]
	mov	r11, r3
	mov	r3, r0
	ldr	r0, [sp, #204]
	ldr	r6, [sp, #208]
	str.w	r10, [r7, #8]
	str.w	r8, [r7, #12]
	str	r4, [r7, #28]
	mov	r4, r3
	strd	r3, lr, [r7, #36]
	mov	r8, r2
	mov.w	r10, #0
	movs	r3, #0
	str.w	r9, [r7, #24]
	str	r1, [sp, #164]                  @ 4-byte Spill
	str	r1, [r7, #32]
	str.w	r11, [r7, #44]
	strd	r2, r12, [r7, #48]
	strd	r0, r6, [r7, #56]
	.p2align	2
.Lgcm_v7m_BB3_7:                                @ %join.5.i348.i
                                        @ =>This Inner Loop Header: Depth=1
	strd	r3, r10, [sp, #156]             @ 8-byte Folded Spill
	eor.w	r5, r6, r8
	mov	r10, r6
	eor.w	r1, r6, r4
	eor.w	r6, r8, lr
	str	r1, [sp, #168]                  @ 4-byte Spill
	eors	r1, r6
	eor.w	r2, r1, r11
	eor.w	r9, r0, r12
	eor.w	r3, r2, lr
	eors	r0, r2
	str	r1, [sp, #172]                  @ 4-byte Spill
	eor.w	r1, r0, r5
	eor.w	r2, r3, r9
	str	r5, [sp, #152]                  @ 4-byte Spill
	str	r0, [sp, #120]                  @ 4-byte Spill
	and.w	r0, r1, r5
	mov	r5, r3
	eor.w	r3, r1, r2
	str	r6, [sp, #140]                  @ 4-byte Spill
	eor.w	r12, r10, lr
	ands	r6, r3
	ldr.w	lr, [sp, #164]                  @ 4-byte Reload
	eor.w	r11, r6, r0
	and.w	r6, r2, r12
	eors	r0, r6
	eor.w	r6, r9, lr
	str	r3, [sp, #144]                  @ 4-byte Spill
	eor.w	r3, r6, r4
	str	r1, [sp, #100]                  @ 4-byte Spill
	str	r0, [sp, #104]                  @ 4-byte Spill
	eor.w	r1, r5, lr
	eor.w	r0, r3, r12
	str	r0, [sp, #128]                  @ 4-byte Spill
	and.w	r4, r1, r0
	ldr	r0, [sp, #120]                  @ 4-byte Reload
	str	r1, [sp, #124]                  @ 4-byte Spill
	eor.w	r7, r0, r4
	eor.w	r0, r6, r8
	str	r0, [sp, #120]                  @ 4-byte Spill
	and.w	r4, r0, lr
	ldr	r0, [sp, #172]                  @ 4-byte Reload
	eor.w	r4, r4, r12
	eors	r4, r2
	ands	r0, r5
	eors	r4, r0
	eors	r0, r7
	ldr	r7, [sp, #100]                  @ 4-byte Reload
	str	r3, [sp, #108]                  @ 4-byte Spill
	and.w	r1, r3, r6
	ldr	r3, [sp, #168]                  @ 4-byte Reload
	str	r2, [sp, #136]                  @ 4-byte Spill
	eor.w	r2, r7, r9
	eors	r1, r2
	and.w	r9, r2, r3
	eor.w	r1, r1, r9
	str	r5, [sp, #132]                  @ 4-byte Spill
	eors	r1, r3
	eor.w	r5, r6, r10
	eor.w	r3, r7, lr
	str	r3, [sp, #116]                  @ 4-byte Spill
	ands	r3, r5
	eors	r3, r2
	eor.w	r3, r3, r9
	eor.w	r8, r3, r10
	ldr	r3, [sp, #104]                  @ 4-byte Reload
	eor.w	r0, r0, r11
	eor.w	r1, r1, r11
	str.w	r12, [sp, #148]                 @ 4-byte Spill
	eor.w	r9, r4, r3
	eor.w	r3, r3, r8
	and.w	r12, r1, r0
	eor.w	r8, r12, r9
	eor.w	r4, r3, r1
	and.w	r4, r4, r8
	eor.w	r11, r0, r9
	eor.w	r8, r12, r3
	and.w	r0, r8, r11
	eor.w	r12, r12, r4
	eor.w	r9, r9, r0
	eor.w	r0, r4, r3
	and.w	r3, r3, r12
	eor.w	r4, r3, r8
	and.w	r4, r4, r9
	eor.w	r4, r4, r11
	eor.w	r12, r3, r1
	ldr	r1, [sp, #168]                  @ 4-byte Reload
	eor.w	r3, r4, r9
	ands	r1, r3
	str	r1, [sp, #104]                  @ 4-byte Spill
	ldr	r1, [sp, #108]                  @ 4-byte Reload
	and.w	r8, r4, r6
	ands	r1, r4
	str	r1, [sp, #108]                  @ 4-byte Spill
	ldr	r1, [sp, #124]                  @ 4-byte Reload
	eor.w	r6, r12, r0
	str	r5, [sp, #112]                  @ 4-byte Spill
	and.w	r5, r3, r2
	eor.w	r2, r4, r6
	and.w	r4, r6, r1
	ldr	r1, [sp, #128]                  @ 4-byte Reload
	ldr	r3, [sp, #152]                  @ 4-byte Reload
	and.w	r11, r6, r1
	ldr	r1, [sp, #120]                  @ 4-byte Reload
	and.w	r6, r0, lr
	ands	r1, r0
	eor.w	r0, r0, r9
	str	r1, [sp, #168]                  @ 4-byte Spill
	and.w	r1, r0, r7
	str	r1, [sp, #128]                  @ 4-byte Spill
	and.w	r1, r0, r3
	ldr	r3, [sp, #140]                  @ 4-byte Reload
	ldr	r7, [sp, #144]                  @ 4-byte Reload
	eors	r0, r2
	and.w	lr, r0, r3
	ands	r0, r7
	str	r0, [sp, #152]                  @ 4-byte Spill
	ldr	r0, [sp, #112]                  @ 4-byte Reload
	ldr	r7, [sp, #132]                  @ 4-byte Reload
	and.w	r0, r0, r9
	and.w	r10, r12, r7
	ldr	r7, [sp, #172]                  @ 4-byte Reload
	str	r0, [sp, #144]                  @ 4-byte Spill
	ldr	r0, [sp, #116]                  @ 4-byte Reload
	and.w	r3, r12, r7
	and.w	r0, r0, r9
	str	r3, [sp, #140]                  @ 4-byte Spill
	eor.w	r3, r4, r10
	eor.w	r4, r10, r6
	eors	r0, r4
	str	r1, [sp, #164]                  @ 4-byte Spill
	eor.w	r9, r0, r5
	eor.w	r0, lr, r1
	ldr	r1, [sp, #108]                  @ 4-byte Reload
	eor.w	r6, r0, r11
	eor.w	r7, r9, r1
	eor.w	r12, r7, r0
	ldr	r0, [sp, #152]                  @ 4-byte Reload
	eor.w	r8, r8, r5
	ldr	r1, [sp, #128]                  @ 4-byte Reload
	eor.w	r7, r8, r0
	eor.w	r0, r3, r8
	eor.w	r8, r7, r1
	ldr	r1, [sp, #148]                  @ 4-byte Reload
	str	r0, [sp, #172]                  @ 4-byte Spill
	ldr	r0, [sp, #136]                  @ 4-byte Reload
	ldr.w	lr, [sp, #160]                  @ 4-byte Reload
	and.w	r10, r2, r1
	movw	r1, :lower16:.Lgcm_v7m_static.0
	ands	r0, r2
	movt	r1, :upper16:.Lgcm_v7m_static.0
	eors	r0, r4
	ldrb.w	r4, [r1, lr]
	movs	r1, #64
	and.w	r2, r1, r4, lsl #6
	ldr	r3, [sp, #104]                  @ 4-byte Reload
	orr.w	r2, r2, r2, lsl #1
	eor.w	r2, r12, r2, lsl #8
	eor.w	r11, r2, r3
	and.w	r2, r1, r4, lsl #5
	eors	r0, r3
	orr.w	r2, r2, r2, lsl #1
	ldr	r3, [sp, #144]                  @ 4-byte Reload
	eors	r0, r7
	eor.w	r2, r12, r2, lsl #8
	eor.w	r7, r0, r3
	eor.w	r12, r2, r0
	and.w	r0, r1, r4, lsl #4
	ldr	r2, [sp, #168]                  @ 4-byte Reload
	orr.w	r0, r0, r0, lsl #1
	eor.w	r0, r2, r0, lsl #8
	ldr	r2, [sp, #140]                  @ 4-byte Reload
	and.w	r5, r1, r4, lsl #1
	and.w	r3, r1, r4, lsl #3
	orr.w	r5, r5, r5, lsl #1
	eors	r2, r6
	eors	r0, r6
	orr.w	r3, r3, r3, lsl #1
	eor.w	r6, r10, r5, lsl #8
	ldr	r5, [sp, #164]                  @ 4-byte Reload
	ldr.w	r10, [sp, #176]                 @ 4-byte Reload
	eor.w	r9, r9, r3, lsl #8
	mov	r3, lr
	eor.w	r6, r6, r8
	eors	r6, r5
	add.w	r5, r10, r3, lsl #6
	ldr	r3, [sp, #172]                  @ 4-byte Reload
	str.w	lr, [sp, #152]                  @ 4-byte Spill
	lsl.w	lr, lr, #6
	ldr.w	lr, [r10, lr]
	eor.w	r10, r3, r2
	and.w	r3, r1, r4, lsl #2
	and.w	r1, r1, r4, lsr #1
	and	r4, r4, #64
	orr.w	r4, r4, r4, lsl #1
	orr.w	r3, r3, r3, lsl #1
	orr.w	r1, r1, r1, lsl #1
	eor.w	r4, r8, r4, lsl #8
	eors	r0, r7
	eors	r7, r6
	eor.w	r6, r9, r10
	eor.w	r3, r10, r3, lsl #8
	eor.w	r10, r10, r4
	eor.w	r1, r8, r1, lsl #8
	mov.w	r4, #50529027
	eor.w	r8, r1, r2
	bic.w	r1, r4, r11, ror #14
	eor.w	r1, r1, lr
	mov.w	lr, #-50529028
	and.w	r2, lr, r1, lsl #2
	eors	r1, r2
	mov.w	r11, #-252645136
	and.w	r2, r11, r1, lsl #4
	eors	r1, r2
	str	r1, [sp, #140]                  @ 4-byte Spill
	ldr	r1, [r5, #4]
	bic.w	r2, r4, r12, ror #14
	eors	r1, r2
	and.w	r2, lr, r1, lsl #2
	eors	r1, r2
	and.w	r2, r11, r1, lsl #4
	eors	r1, r2
	ldr	r2, [r5, #8]
	and.w	r0, r4, r0, ror #14
	eors	r0, r2
	and.w	r2, lr, r0, lsl #2
	eors	r0, r2
	and.w	r2, r11, r0, lsl #4
	eor.w	r9, r2, r0
	ldr	r2, [r5, #12]
	and.w	r6, r4, r6, ror #14
	eors	r2, r6
	and.w	r6, lr, r2, lsl #2
	eors	r2, r6
	and.w	r6, r11, r2, lsl #4
	eors	r2, r6
	ldr	r6, [r5, #16]
	and.w	r3, r4, r3, ror #14
	eors	r3, r6
	and.w	r6, lr, r3, lsl #2
	eors	r3, r6
	and.w	r6, r11, r3, lsl #4
	eor.w	r12, r6, r3
	ldr	r3, [r5, #20]
	bic.w	r7, r4, r7, ror #14
	eors	r3, r7
	and.w	r7, lr, r3, lsl #2
	eors	r3, r7
	and.w	r7, r11, r3, lsl #4
	eors	r7, r3
	ldr	r3, [r5, #24]
	bic.w	r6, r4, r10, ror #14
	eors	r3, r6
	and.w	r6, lr, r3, lsl #2
	eors	r3, r6
	and.w	r6, r11, r3, lsl #4
	eor.w	r0, r6, r3
	ldr	r6, [r5, #28]
	and.w	r4, r4, r8, ror #14
	eors	r6, r4
	and.w	r4, lr, r6, lsl #2
	eors	r6, r4
	and.w	r4, r11, r6, lsl #4
	eor.w	r10, r4, r6
	eor.w	r3, r0, r7
	str	r3, [sp, #160]                  @ 4-byte Spill
	eor.w	r3, r1, r10
	eor.w	r8, r12, r9
	eor.w	r6, r3, r8
	str	r1, [sp, #120]                  @ 4-byte Spill
	strd	r9, r2, [r5, #72]
	strd	r7, r0, [r5, #84]
	mov	r7, r12
	eors	r2, r6
	ldr	r1, [sp, #160]                  @ 4-byte Reload
	eor.w	lr, r2, r0
	eor.w	r12, r2, r9
	eor.w	r0, r7, r10
	str	r3, [sp, #164]                  @ 4-byte Spill
	eor.w	r2, lr, r0
	eor.w	r3, r12, r1
	str	r0, [sp, #144]                  @ 4-byte Spill
	and.w	r11, r2, r0
	eor.w	r0, r2, r3
	eor.w	r4, r10, r9
	str	r2, [sp, #168]                  @ 4-byte Spill
	and.w	r2, r0, r8
	eor.w	r9, r2, r11
	and.w	r2, r3, r4
	str	r0, [sp, #136]                  @ 4-byte Spill
	eor.w	r0, r2, r11
	ldr.w	r11, [sp, #140]                 @ 4-byte Reload
	str	r0, [sp, #100]                  @ 4-byte Spill
	ldr	r0, [sp, #120]                  @ 4-byte Reload
	str.w	r8, [sp, #132]                  @ 4-byte Spill
	eor.w	r8, r1, r11
	eor.w	r1, r8, r0
	str	r6, [sp, #172]                  @ 4-byte Spill
	str	r0, [r5, #68]
	eor.w	r6, r12, r11
	eor.w	r0, r1, r4
	mov	r2, r12
	str.w	r12, [sp, #124]                 @ 4-byte Spill
	mov	r12, r1
	str	r1, [sp, #104]                  @ 4-byte Spill
	str	r0, [sp, #120]                  @ 4-byte Spill
	and.w	r1, r6, r0
	eor.w	r0, r8, r7
	str	r6, [sp, #116]                  @ 4-byte Spill
	str	r0, [sp, #112]                  @ 4-byte Spill
	and.w	r6, r0, r11
	ldr	r0, [sp, #172]                  @ 4-byte Reload
	str	r4, [sp, #148]                  @ 4-byte Spill
	eor.w	lr, lr, r1
	eors	r6, r4
	and.w	r1, r2, r0
	ldr	r4, [sp, #168]                  @ 4-byte Reload
	ldr	r0, [sp, #160]                  @ 4-byte Reload
	eors	r6, r3
	ldr	r2, [sp, #164]                  @ 4-byte Reload
	str	r7, [r5, #80]
	eors	r6, r1
	eor.w	lr, lr, r1
	eor.w	r1, r4, r0
	and.w	r7, r12, r8
	eors	r7, r1
	and.w	r0, r1, r2
	eors	r7, r0
	eors	r7, r2
	str	r3, [sp, #128]                  @ 4-byte Spill
	eor.w	r3, r7, r9
	eor.w	r7, r8, r10
	eor.w	r2, r4, r11
	eor.w	lr, lr, r9
	and.w	r9, r2, r7
	str	r7, [sp, #108]                  @ 4-byte Spill
	eor.w	r7, r1, r9
	str	r2, [sp, #160]                  @ 4-byte Spill
	eors	r0, r7
	ldr	r2, [sp, #100]                  @ 4-byte Reload
	eor.w	r0, r0, r10
	eors	r6, r2
	eor.w	r7, r0, r2
	and.w	r0, r3, lr
	eor.w	r12, r0, r6
	eor.w	r4, r7, r3
	and.w	r4, r4, r12
	eor.w	r12, lr, r6
	eor.w	lr, r0, r7
	and.w	r2, lr, r12
	str.w	r10, [r5, #92]
	eor.w	r10, r2, r6
	eor.w	r2, r4, r0
	ands	r2, r7
	eor.w	r0, r4, r7
	eor.w	r7, r2, lr
	and.w	r7, r7, r10
	eor.w	r7, r7, r12
	eors	r3, r2
	eor.w	r2, r7, r10
	and.w	lr, r2, r1
	ldr	r1, [sp, #164]                  @ 4-byte Reload
	eor.w	r4, r3, r0
	ands	r1, r2
	ldr	r2, [sp, #116]                  @ 4-byte Reload
	str	r1, [sp, #164]                  @ 4-byte Spill
	and.w	r9, r4, r2
	ldr	r2, [sp, #120]                  @ 4-byte Reload
	and.w	r1, r7, r8
	ands	r2, r4
	str	r2, [sp, #116]                  @ 4-byte Spill
	ldr	r2, [sp, #112]                  @ 4-byte Reload
	str	r1, [sp, #100]                  @ 4-byte Spill
	ldr	r1, [sp, #104]                  @ 4-byte Reload
	ands	r2, r0
	ands	r1, r7
	str	r2, [sp, #120]                  @ 4-byte Spill
	ldr	r2, [sp, #168]                  @ 4-byte Reload
	str	r1, [sp, #104]                  @ 4-byte Spill
	eor.w	r1, r7, r4
	and.w	r7, r0, r11
	eor.w	r0, r0, r10
	ands	r2, r0
	str	r2, [sp, #168]                  @ 4-byte Spill
	ldr	r2, [sp, #144]                  @ 4-byte Reload
	ldr	r6, [sp, #136]                  @ 4-byte Reload
	and.w	r8, r0, r2
	ldr	r2, [sp, #132]                  @ 4-byte Reload
	eors	r0, r1
	ands	r2, r0
	and.w	r12, r0, r6
	ldr	r0, [sp, #108]                  @ 4-byte Reload
	ldr	r4, [sp, #172]                  @ 4-byte Reload
	and.w	r0, r0, r10
	str	r0, [sp, #144]                  @ 4-byte Spill
	ldr	r0, [sp, #160]                  @ 4-byte Reload
	str.w	r11, [r5, #64]
	and.w	r10, r10, r0
	ldr	r0, [sp, #124]                  @ 4-byte Reload
	and.w	r11, r3, r4
	ands	r0, r3
	eors	r7, r0
	eor.w	r3, r9, r0
	ldr	r0, [sp, #100]                  @ 4-byte Reload
	eor.w	r6, r7, r10
	ldr	r4, [sp, #104]                  @ 4-byte Reload
	eor.w	r10, r6, lr
	eor.w	r0, r0, lr
	eor.w	r2, r2, r8
	eor.w	r4, r4, r10
	ldr	r6, [sp, #116]                  @ 4-byte Reload
	eor.w	lr, r4, r2
	eor.w	r4, r0, r12
	eor.w	r9, r3, r0
	ldr	r0, [sp, #128]                  @ 4-byte Reload
	eors	r6, r2
	ands	r0, r1
	ldr	r2, [sp, #164]                  @ 4-byte Reload
	eors	r0, r7
	ldr	r3, [sp, #168]                  @ 4-byte Reload
	eors	r0, r2
	eors	r0, r4
	eors	r3, r4
	ldr	r4, [sp, #120]                  @ 4-byte Reload
	ldr	r7, [sp, #148]                  @ 4-byte Reload
	eor.w	r12, r6, r11
	eors	r6, r4
	ands	r1, r7
	ldr	r4, [sp, #144]                  @ 4-byte Reload
	eor.w	r7, lr, r2
	eor.w	r2, r8, r1
	eors	r4, r0
	eors	r2, r3
	eors	r6, r4
	eor.w	r8, r2, r4
	ldr	r2, [r5, #32]
	mvns	r7, r7
	mov.w	r4, #50529027
	and.w	r7, r4, r7, lsr #6
	ldr	r1, [sp, #156]                  @ 4-byte Reload
	eors	r2, r7
	mov.w	r11, #-50529028
	and.w	r7, r11, r2, lsl #2
	str	r1, [sp, #172]                  @ 4-byte Spill
	eors	r2, r7
	mov.w	r1, #-252645136
	eor.w	r0, r0, lr
	and.w	r7, r1, r2, lsl #4
	eors	r7, r2
	ldr	r2, [r5, #36]
	mvns	r0, r0
	and.w	r0, r4, r0, lsr #6
	eors	r0, r2
	and.w	r2, r11, r0, lsl #2
	eors	r0, r2
	and.w	r2, r1, r0, lsl #4
	eors	r0, r2
	str	r0, [sp, #168]                  @ 4-byte Spill
	ldr	r0, [r5, #40]
	and.w	r2, r4, r6, lsr #6
	eors	r0, r2
	and.w	r2, r11, r0, lsl #2
	eors	r0, r2
	and.w	r2, r1, r0, lsl #4
	mov	r6, r1
	eor.w	r1, r9, r12
	eor.w	lr, r2, r0
	ldr	r0, [r5, #44]
	eor.w	r2, r1, r10
	and.w	r2, r4, r2, lsr #6
	eors	r0, r2
	and.w	r2, r11, r0, lsl #2
	eors	r0, r2
	and.w	r2, r6, r0, lsl #4
	eor.w	r10, r2, r0
	ldr	r0, [r5, #48]
	mov	r9, r7
	eor.w	r7, r12, r3
	eors	r3, r1
	and.w	r1, r4, r1, lsr #6
	eors	r0, r1
	and.w	r1, r11, r0, lsl #2
	eors	r0, r1
	and.w	r1, r6, r0, lsl #4
	eor.w	r2, r1, r0
	ldr	r0, [r5, #52]
	mvn.w	r1, r8
	and.w	r1, r4, r1, lsr #6
	eors	r0, r1
	and.w	r1, r11, r0, lsl #2
	eors	r0, r1
	and.w	r1, r6, r0, lsl #4
	eor.w	r12, r1, r0
	ldr	r0, [r5, #56]
	mvns	r1, r3
	and.w	r1, r4, r1, lsr #6
	eors	r0, r1
	and.w	r1, r11, r0, lsl #2
	eors	r0, r1
	and.w	r1, r6, r0, lsl #4
	eors	r0, r1
	ldr	r1, [r5, #60]
	and.w	r3, r4, r7, lsr #6
	eors	r1, r3
	and.w	r3, r11, r1, lsl #2
	eors	r1, r3
	and.w	r3, r6, r1, lsl #4
	eor.w	r6, r3, r1
	ldr	r1, [sp, #152]                  @ 4-byte Reload
	ldr	r4, [sp, #172]                  @ 4-byte Reload
	mov	r11, r10
	ldr	r7, [sp, #168]                  @ 4-byte Reload
	adds.w	r10, r1, #1
	adc	r3, r4, #0
	subs	r1, #5
	sbcs	r1, r4, #0
	mov	r4, r7
	mov	r8, r2
	str.w	r9, [sp, #164]                  @ 4-byte Spill
	str.w	r9, [r5, #96]
	strd	r7, lr, [r5, #100]
	str.w	r11, [r5, #108]
	strd	r2, r12, [r5, #112]
	strd	r0, r6, [r5, #120]
	blo.w	.Lgcm_v7m_BB3_7
@ %bb.8:                                @ %after.1.i.i
	eor.w	r1, r6, r4
	eor.w	r2, r8, lr
	str	r1, [sp, #116]                  @ 4-byte Spill
	eors	r1, r2
	eor.w	r3, r1, r11
	eor.w	r10, r0, r12
	eor.w	r12, r6, r8
	eor.w	r11, r3, r0
	eor.w	r3, r3, lr
	eor.w	r5, r11, r12
	eor.w	r7, r3, r10
	ldr.w	r9, [sp, #164]                  @ 4-byte Reload
	str	r1, [sp, #172]                  @ 4-byte Spill
	eor.w	r1, r6, lr
	str	r6, [sp, #112]                  @ 4-byte Spill
	mov	r6, r3
	eor.w	r3, r5, r7
	str.w	r8, [sp, #128]                  @ 4-byte Spill
	str	r5, [sp, #160]                  @ 4-byte Spill
	and.w	r0, r5, r12
	str	r3, [sp, #148]                  @ 4-byte Spill
	ands	r3, r2
	and.w	r5, r7, r1
	eor.w	lr, r10, r9
	str.w	r12, [sp, #152]                 @ 4-byte Spill
	eor.w	r8, r3, r0
	eors	r5, r0
	eor.w	r12, lr, r4
	ldr	r0, [sp, #128]                  @ 4-byte Reload
	str	r2, [sp, #144]                  @ 4-byte Spill
	eor.w	r4, r6, r9
	eor.w	r2, r12, r1
	mov	r3, r6
	str	r6, [sp, #136]                  @ 4-byte Spill
	and.w	r6, r4, r2
	eor.w	r0, r0, lr
	str	r2, [sp, #168]                  @ 4-byte Spill
	eor.w	r2, r11, r6
	str	r0, [sp, #128]                  @ 4-byte Spill
	and.w	r6, r0, r9
	ldr	r0, [sp, #172]                  @ 4-byte Reload
	str	r1, [sp, #156]                  @ 4-byte Spill
	eors	r6, r1
	and.w	r1, r3, r0
	ldr	r0, [sp, #160]                  @ 4-byte Reload
	str	r7, [sp, #140]                  @ 4-byte Spill
	eors	r6, r7
	ldr	r7, [sp, #116]                  @ 4-byte Reload
	eor.w	r11, r6, r1
	eors	r1, r2
	eor.w	r2, r0, r10
	and.w	r6, r12, lr
	mov	r10, r12
	eors	r6, r2
	and.w	r12, r2, r7
	str	r4, [sp, #132]                  @ 4-byte Spill
	eor.w	r6, r6, r12
	ldr	r4, [sp, #112]                  @ 4-byte Reload
	eors	r6, r7
	eor.w	r3, r6, r8
	eor.w	r6, lr, r4
	eor.w	r0, r0, r9
	str	r6, [sp, #120]                  @ 4-byte Spill
	ands	r6, r0
	eors	r6, r2
	str	r0, [sp, #124]                  @ 4-byte Spill
	eor.w	r0, r6, r12
	eor.w	r1, r1, r8
	eors	r0, r4
	eor.w	r8, r11, r5
	eors	r0, r5
	and.w	r6, r3, r1
	eor.w	r12, r6, r8
	eor.w	r4, r0, r3
	and.w	r4, r4, r12
	eor.w	r12, r1, r8
	eor.w	r11, r6, r0
	and.w	r1, r11, r12
	eor.w	r1, r1, r8
	eor.w	r8, r4, r6
	eor.w	r6, r4, r0
	and.w	r0, r0, r8
	eor.w	r4, r0, r11
	ands	r4, r1
	eor.w	r4, r4, r12
	eors	r3, r0
	eor.w	r0, r4, r1
	and.w	r8, r0, r2
	ands	r0, r7
	str	r0, [sp, #116]                  @ 4-byte Spill
	and.w	r0, r4, lr
	str	r0, [sp, #108]                  @ 4-byte Spill
	and.w	r0, r4, r10
	str	r0, [sp, #112]                  @ 4-byte Spill
	ldr	r0, [sp, #132]                  @ 4-byte Reload
	eor.w	r5, r3, r6
	and.w	r7, r5, r0
	ldr	r0, [sp, #168]                  @ 4-byte Reload
	and.w	r12, r6, r9
	and.w	r11, r5, r0
	ldr	r0, [sp, #128]                  @ 4-byte Reload
	eor.w	lr, r4, r5
	ands	r0, r6
	str	r0, [sp, #168]                  @ 4-byte Spill
	ldr	r0, [sp, #160]                  @ 4-byte Reload
	eors	r6, r1
	and.w	r10, r6, r0
	ldr	r0, [sp, #152]                  @ 4-byte Reload
	and.w	r5, r6, r0
	ldr	r0, [sp, #144]                  @ 4-byte Reload
	eor.w	r6, r6, lr
	and.w	r2, r6, r0
	ldr	r0, [sp, #148]                  @ 4-byte Reload
	and.w	r4, r6, r0
	ldr	r0, [sp, #120]                  @ 4-byte Reload
	ldr	r6, [sp, #172]                  @ 4-byte Reload
	ands	r0, r1
	str	r0, [sp, #164]                  @ 4-byte Spill
	ldr	r0, [sp, #124]                  @ 4-byte Reload
	ands	r1, r0
	ldr	r0, [sp, #136]                  @ 4-byte Reload
	ands	r0, r3
	eor.w	r9, r7, r0
	eor.w	r12, r12, r0
	ldr	r0, [sp, #108]                  @ 4-byte Reload
	ands	r3, r6
	eor.w	r1, r1, r12
	ldr	r6, [sp, #112]                  @ 4-byte Reload
	eor.w	r0, r0, r8
	eor.w	r8, r8, r1
	eor.w	r1, r2, r5
	eor.w	r6, r6, r8
	eor.w	r2, r1, r11
	eor.w	r11, r6, r1
	eor.w	r1, r0, r4
	eor.w	r9, r9, r0
	ldr	r0, [sp, #140]                  @ 4-byte Reload
	ldr	r6, [sp, #116]                  @ 4-byte Reload
	and.w	r4, lr, r0
	ldr	r0, [sp, #168]                  @ 4-byte Reload
	eor.w	r7, r1, r10
	eor.w	r10, r2, r3
	eors	r2, r0
	ldr	r0, [sp, #156]                  @ 4-byte Reload
	eor.w	r4, r4, r12
	eors	r4, r6
	and.w	r3, lr, r0
	ldr	r0, [sp, #164]                  @ 4-byte Reload
	eors	r4, r1
	eors	r3, r5
	ldr	r5, [sp, #176]                  @ 4-byte Reload
	eors	r0, r4
	eors	r3, r7
	eor.w	r1, r11, r6
	eors	r2, r0
	eor.w	r6, r3, r0
	ldr.w	r0, [r5, #384]
	mov.w	r3, #50529027
	bic.w	r1, r3, r1, ror #14
	eors	r0, r1
	mov.w	r12, #-50529028
	and.w	r1, r12, r0, lsl #2
	eors	r0, r1
	mov.w	lr, #-252645136
	and.w	r1, lr, r0, lsl #4
	eors	r0, r1
	eor.w	r4, r4, r11
	str	r0, [sp, #172]                  @ 4-byte Spill
	ldr.w	r0, [r5, #388]
	bic.w	r1, r3, r4, ror #14
	eors	r0, r1
	and.w	r1, r12, r0, lsl #2
	eors	r0, r1
	and.w	r1, lr, r0, lsl #4
	eors	r0, r1
	str	r0, [sp, #168]                  @ 4-byte Spill
	ldr.w	r0, [r5, #392]
	and.w	r1, r3, r2, ror #14
	eors	r0, r1
	and.w	r1, r12, r0, lsl #2
	eors	r0, r1
	and.w	r1, lr, r0, lsl #4
	eor.w	r11, r1, r0
	eor.w	r1, r9, r10
	ldr.w	r0, [r5, #396]
	eor.w	r2, r1, r8
	and.w	r2, r3, r2, ror #14
	eors	r0, r2
	and.w	r2, r12, r0, lsl #2
	eors	r0, r2
	and.w	r2, lr, r0, lsl #4
	eors	r0, r2
	ldr.w	r2, [r5, #400]
	eor.w	r4, r10, r7
	eors	r7, r1
	and.w	r1, r3, r1, ror #14
	eors	r1, r2
	and.w	r2, r12, r1, lsl #2
	eors	r1, r2
	and.w	r2, lr, r1, lsl #4
	eors	r1, r2
	ldr.w	r2, [r5, #404]
	bic.w	r6, r3, r6, ror #14
	eors	r2, r6
	and.w	r6, r12, r2, lsl #2
	eors	r2, r6
	and.w	r6, lr, r2, lsl #4
	eor	r7, r7, #12583104
	eors	r2, r6
	ldr.w	r6, [r5, #408]
	eor	r7, r7, #3221225472
	and.w	r7, r3, r7, ror #14
	eors	r7, r6
	and.w	r6, r12, r7, lsl #2
	eors	r7, r6
	and.w	r6, lr, r7, lsl #4
	eors	r7, r6
	ldr.w	r6, [r5, #412]
	and.w	r3, r3, r4, ror #14
	eors	r3, r6
	and.w	r6, r12, r3, lsl #2
	eors	r3, r6
	and.w	r6, lr, r3, lsl #4
	eors	r3, r6
	ldr	r6, [sp, #172]                  @ 4-byte Reload
	add.w	r12, r5, #460
	str.w	r6, [r5, #448]
	ldr	r6, [sp, #168]                  @ 4-byte Reload
	stm.w	r12, {r0, r1, r2, r7}
	strd	r6, r11, [r5, #452]
	str.w	r3, [r5, #476]
.Lgcm_v7m_BB3_9:                                @ %"aes_planes::expansion::expand::<#389ec886eeff95cb>.exit"
	ldr	r0, [sp, #4]                    @ 4-byte Reload
	ldr	r1, [sp, #8]                    @ 4-byte Reload
	lsrs	r0, r0, #2
	orr.w	r0, r0, r1, lsl #30
	ldr	r2, [sp, #176]                  @ 4-byte Reload
	lsrs	r1, r1, #2
	adds	r0, #6
	str	r0, [sp, #168]                  @ 4-byte Spill
	adc	r0, r1, #0
	add.w	r7, r2, #60
	movs	r6, #0
	movs	r5, #1
	str	r0, [sp, #164]                  @ 4-byte Spill
	b	.Lgcm_v7m_BB3_12
	.p2align	2
.Lgcm_v7m_BB3_10:                               @ %join.8.i
                                        @   in Loop: Header=BB3_12 Depth=1
	eors	r0, r1
.Lgcm_v7m_BB3_11:                               @ %join.8.i
                                        @   in Loop: Header=BB3_12 Depth=1
	mvns	r1, r4
	mvn.w	r2, r12
	mvn.w	r4, lr
	sub.w	r12, r7, #28
	strd	r10, r9, [r7, #-16]
	strd	r2, r4, [r7, #-8]
	str	r0, [r7], #32
	ldr	r0, [sp, #172]                  @ 4-byte Reload
	adds	r5, #1
	ldr	r2, [sp, #176]                  @ 4-byte Reload
	adc	r6, r6, #0
	cmp	r0, #0
	mvn.w	r3, r3
	stm.w	r12, {r1, r3, r11}
	beq.w	.Lgcm_v7m_BB3_20
.Lgcm_v7m_BB3_12:                               @ %join.5.i
                                        @ =>This Inner Loop Header: Depth=1
	lsls	r0, r5, #5
	add.w	r1, r2, r5, lsl #5
	ldr	r4, [r2, r0]
	ldrd	r3, r11, [r1, #4]
	ldrd	r10, r9, [r1, #12]
	ldrd	r12, lr, [r1, #20]
	ldr	r0, [r1, #28]
	ldr	r1, [sp, #168]                  @ 4-byte Reload
	subs	r1, r5, r1
	ldr	r1, [sp, #164]                  @ 4-byte Reload
	sbcs.w	r1, r6, r1
	mov.w	r1, #0
	it	lo
	movlo	r1, #1
	str	r1, [sp, #172]                  @ 4-byte Spill
	bhs	.Lgcm_v7m_BB3_11
@ %bb.13:                               @ %ok.10.i
                                        @   in Loop: Header=BB3_12 Depth=1
	and	r8, r5, #3
.Lgcm_v7m_CPI3_0:
	tbb	[pc, r8]
@ %bb.14:
.Lgcm_v7m_JTI3_0:
	.byte	(.Lgcm_v7m_BB3_16-(.Lgcm_v7m_CPI3_0+4))/2
	.byte	(.Lgcm_v7m_BB3_17-(.Lgcm_v7m_CPI3_0+4))/2
	.byte	(.Lgcm_v7m_BB3_15-(.Lgcm_v7m_CPI3_0+4))/2
	.byte	(.Lgcm_v7m_BB3_18-(.Lgcm_v7m_CPI3_0+4))/2
	.p2align	1
	.p2align	2
.Lgcm_v7m_BB3_15:                               @ %then.4.i
                                        @   in Loop: Header=BB3_12 Depth=1
	eor.w	r1, r4, r4, lsr #4
	and	r1, r1, #251662080
	add.w	r1, r1, r1, lsl #4
	eors	r4, r1
	eor.w	r1, r3, r3, lsr #4
	and	r1, r1, #251662080
	add.w	r1, r1, r1, lsl #4
	eors	r3, r1
	eor.w	r1, r11, r11, lsr #4
	and	r1, r1, #251662080
	add.w	r1, r1, r1, lsl #4
	eor.w	r11, r11, r1
	eor.w	r1, r10, r10, lsr #4
	and	r1, r1, #251662080
	add.w	r1, r1, r1, lsl #4
	eor.w	r10, r10, r1
	eor.w	r1, r9, r9, lsr #4
	and	r1, r1, #251662080
	add.w	r1, r1, r1, lsl #4
	eor.w	r9, r9, r1
	eor.w	r1, r12, r12, lsr #4
	and	r1, r1, #251662080
	add.w	r1, r1, r1, lsl #4
	eor.w	r12, r12, r1
	eor.w	r1, lr, lr, lsr #4
	and	r1, r1, #251662080
	add.w	r1, r1, r1, lsl #4
	eor.w	lr, lr, r1
	eor.w	r1, r0, r0, lsr #4
	and	r1, r1, #251662080
	add.w	r1, r1, r1, lsl #4
	b	.Lgcm_v7m_BB3_10
	.p2align	2
.Lgcm_v7m_BB3_16:                               @ %ok.10.i
                                        @   in Loop: Header=BB3_12 Depth=1
	b	.Lgcm_v7m_BB3_11
	.p2align	2
.Lgcm_v7m_BB3_17:                               @ %then.1.i
                                        @   in Loop: Header=BB3_12 Depth=1
	movw	r2, #3072
	eor.w	r1, r4, r4, lsr #4
	movt	r2, #783
	b	.Lgcm_v7m_BB3_19
	.p2align	2
.Lgcm_v7m_BB3_18:                               @ %then.7.i
                                        @   in Loop: Header=BB3_12 Depth=1
	movw	r2, #768
	eor.w	r1, r4, r4, lsr #4
	movt	r2, #3087
.Lgcm_v7m_BB3_19:                               @ %join.8.i
                                        @   in Loop: Header=BB3_12 Depth=1
	ands	r1, r2
	add.w	r1, r1, r1, lsl #4
	eor.w	r8, r1, r4
	eor.w	r1, r3, r3, lsr #4
	ands	r1, r2
	add.w	r1, r1, r1, lsl #4
	eors	r3, r1
	eor.w	r1, r11, r11, lsr #4
	ands	r1, r2
	add.w	r1, r1, r1, lsl #4
	eor.w	r11, r11, r1
	eor.w	r1, r10, r10, lsr #4
	ands	r1, r2
	add.w	r1, r1, r1, lsl #4
	eor.w	r10, r10, r1
	eor.w	r1, r9, r9, lsr #4
	ands	r1, r2
	add.w	r1, r1, r1, lsl #4
	eor.w	r9, r9, r1
	eor.w	r1, r12, r12, lsr #4
	ands	r1, r2
	add.w	r1, r1, r1, lsl #4
	eor.w	r12, r12, r1
	eor.w	r1, lr, lr, lsr #4
	ands	r1, r2
	add.w	r1, r1, r1, lsl #4
	eor.w	lr, lr, r1
	eor.w	r1, r0, r0, lsr #4
	ands	r1, r2
	add.w	r1, r1, r1, lsl #4
	eors	r0, r1
	eor.w	r1, r8, r8, lsr #2
	and	r1, r1, #855651072
	add.w	r1, r1, r1, lsl #2
	eor.w	r4, r1, r8
	eor.w	r1, r3, r3, lsr #2
	and	r1, r1, #855651072
	add.w	r1, r1, r1, lsl #2
	eors	r3, r1
	eor.w	r1, r11, r11, lsr #2
	and	r1, r1, #855651072
	add.w	r1, r1, r1, lsl #2
	eor.w	r11, r11, r1
	eor.w	r1, r10, r10, lsr #2
	and	r1, r1, #855651072
	add.w	r1, r1, r1, lsl #2
	eor.w	r10, r10, r1
	eor.w	r1, r9, r9, lsr #2
	and	r1, r1, #855651072
	add.w	r1, r1, r1, lsl #2
	eor.w	r9, r9, r1
	eor.w	r1, r12, r12, lsr #2
	and	r1, r1, #855651072
	add.w	r1, r1, r1, lsl #2
	eor.w	r12, r12, r1
	eor.w	r1, lr, lr, lsr #2
	and	r1, r1, #855651072
	add.w	r1, r1, r1, lsl #2
	eor.w	lr, lr, r1
	eor.w	r1, r0, r0, lsr #2
	and	r1, r1, #855651072
	add.w	r1, r1, r1, lsl #2
	b	.Lgcm_v7m_BB3_10
	.p2align	2
.Lgcm_v7m_BB3_20:                               @ %"aes_soft::soft::key_layout::store::<#dfb00681c6d298fe>.exit"
	add	sp, #212
	pop.w	{r4, r5, r6, r7, r8, r9, r10, r11, pc}
.Lgcm_v7m_func_end3:
	.size	gcm_v7m.aes_narrow.word_room.expand_words, .Lgcm_v7m_func_end3-gcm_v7m.aes_narrow.word_room.expand_words
	.cantunwind
	.fnend
                                        @ -- End function
	.section	.text.gcm_v7m.aes_planes.soft.word.word32.U32Word.in_every_slot,"ax",%progbits
	.p2align	2                               @ -- Begin function aes_planes::soft::word::word32::U32Word::in_every_slot
	.type	gcm_v7m.aes_planes.soft.word.word32.U32Word.in_every_slot,%function
	.code	16
	.thumb_func
gcm_v7m.aes_planes.soft.word.word32.U32Word.in_every_slot: @ @gcm_v7m.aes_planes.soft.word.word32.U32Word.in_every_slot
	.fnstart
@ %bb.0:                                @ %start
	.save	{r4, r5, r6, r7, r8, r9, lr}
	push.w	{r4, r5, r6, r7, r8, r9, lr}
	ldr	r2, [r1]
	ldr	r3, [r1, #4]
	ldr.w	r12, [r1, #8]
	ldr.w	lr, [r1, #12]
	eor.w	r1, r2, r2, lsr #1
	bic	r1, r1, #-1431655766
	eor.w	r4, r2, r1, lsl #1
	eor.w	r8, r1, r2
	eor.w	r2, r3, r3, lsr #1
	bic	r2, r2, #-1431655766
	eor.w	r5, r3, r2, lsl #1
	eor.w	r9, r2, r3
	eor.w	r3, r12, r12, lsr #1
	eor.w	r1, lr, lr, lsr #1
	bic	r3, r3, #-1431655766
	bic	r1, r1, #-1431655766
	eor.w	r2, r5, r4, lsr #2
	eor.w	r6, r12, r3, lsl #1
	eor.w	r7, lr, r1, lsl #1
	bic	r2, r2, #-858993460
	eor.w	r3, r3, r12
	eor.w	r12, r2, r5
	eor.w	r5, r7, r6, lsr #2
	eor.w	r1, r1, lr
	bic	r5, r5, #-858993460
	eor.w	lr, r5, r7
	eor.w	r7, r1, r3, lsr #2
	eor.w	r4, r4, r2, lsl #2
	eor.w	r6, r6, r5, lsl #2
	eor.w	r5, r9, r8, lsr #2
	bic	r7, r7, #-858993460
	bic	r5, r5, #-858993460
	eor.w	r3, r3, r7, lsl #2
	eors	r1, r7
	eor.w	r7, r6, r4, lsr #4
	eor.w	r2, r8, r5, lsl #2
	bic	r7, r7, #-252645136
	eor.w	r4, r4, r7, lsl #4
	eor.w	r8, r7, r6
	eor.w	r7, r3, r2, lsr #4
	eor.w	r5, r5, r9
	bic	r7, r7, #-252645136
	eor.w	r2, r2, r7, lsl #4
	eor.w	r9, r7, r3
	eor.w	r7, lr, r12, lsr #4
	eor.w	r3, r1, r5, lsr #4
	bic	r7, r7, #-252645136
	bic	r3, r3, #-252645136
	eor.w	r6, r12, r7, lsl #4
	eor.w	r7, r7, lr
	eor.w	r5, r5, r3, lsl #4
	eors	r1, r3
	str	r4, [r0]
	str	r2, [r0, #4]
	str	r6, [r0, #8]
	str	r5, [r0, #12]
	str.w	r8, [r0, #16]
	str.w	r9, [r0, #20]
	str	r7, [r0, #24]
	str	r1, [r0, #28]
	pop.w	{r4, r5, r6, r7, r8, r9, pc}
.Lgcm_v7m_func_end4:
	.size	gcm_v7m.aes_planes.soft.word.word32.U32Word.in_every_slot, .Lgcm_v7m_func_end4-gcm_v7m.aes_planes.soft.word.word32.U32Word.in_every_slot
	.cantunwind
	.fnend
                                        @ -- End function
	.section	.text.gcm_v7m.aes_cipher.zeroize.stack.wipe_stack.768,"ax",%progbits
	.p2align	2                               @ -- Begin function aes_cipher::zeroize::stack::wipe_stack::<=768>
	.type	gcm_v7m.aes_cipher.zeroize.stack.wipe_stack.768,%function
	.code	16
	.thumb_func
gcm_v7m.aes_cipher.zeroize.stack.wipe_stack.768: @ @gcm_v7m.aes_cipher.zeroize.stack.wipe_stack.768
	.fnstart
@ %bb.0:                                @ %start
	.save	{r4, r5, r7, lr}
	push	{r4, r5, r7, lr}
	.pad	#776
	sub.w	sp, sp, #776
	add	r4, sp, #8
	mov	r0, r4
	movs	r1, #0
	mov.w	r2, #768
	movs	r5, #0
	bl	memset
	strd	r5, r5, [sp]
	@APP
	@NO_APP
	mov	r0, sp
	ldrd	r1, r2, [r0]
	@APP
	@NO_APP
	subs.w	r3, r1, #768
	sbcs	r2, r2, #0
	itt	hs
	addhs.w	sp, sp, #776
	pophs	{r4, r5, r7, pc}
.Lgcm_v7m_BB5_1:                                @ %then.1
	ldrb	r1, [r4, r1]
	@APP
	@NO_APP
	ldrd	r2, r3, [r0]
	strd	r1, r5, [r0]
	@APP
	@NO_APP
	add.w	sp, sp, #776
	pop	{r4, r5, r7, pc}
.Lgcm_v7m_func_end5:
	.size	gcm_v7m.aes_cipher.zeroize.stack.wipe_stack.768, .Lgcm_v7m_func_end5-gcm_v7m.aes_cipher.zeroize.stack.wipe_stack.768
	.cantunwind
	.fnend
                                        @ -- End function
	.section	.text.gcm_v7m.gcm.mode.BorrowedGcm.put_pre_counter,"ax",%progbits
	.p2align	2                               @ -- Begin function gcm::mode::BorrowedGcm::put_pre_counter::<#84a61a6dd6ff62d6>
	.type	gcm_v7m.gcm.mode.BorrowedGcm.put_pre_counter,%function
	.code	16
	.thumb_func
gcm_v7m.gcm.mode.BorrowedGcm.put_pre_counter: @ @gcm_v7m.gcm.mode.BorrowedGcm.put_pre_counter
	.fnstart
@ %bb.0:                                @ %start
	.save	{r4, r5, r6, r7, r8, r9, lr}
	push.w	{r4, r5, r6, r7, r8, r9, lr}
	.pad	#68
	sub	sp, #68
	mov	r12, r1
	ldr.w	r9, [sp, #96]
	eor	r1, r2, #12
	orrs	r1, r3
	bne	.Lgcm_v7m_BB6_2
@ %bb.1:                                @ %then.1
	ldr.w	r1, [r12, #8]
	movs	r0, #0
	strb.w	r0, [sp, #66]
	strh.w	r0, [sp, #64]
	str	r1, [sp, #60]
	ldr.w	r3, [sp, #63]
	str	r1, [sp, #44]
	str.w	r3, [sp, #47]
	ldr.w	r0, [r12]
	ldr.w	r2, [r12, #4]
	ldr.w	r1, [sp, #47]
	ldr	r3, [sp, #44]
	strd	r0, r2, [sp, #36]
	str.w	r1, [r9, #11]
	str.w	r3, [r9, #8]
	str.w	r2, [r9, #4]
	str.w	r0, [r9]
	movs	r0, #1
	strb.w	r0, [r9, #15]
	add	sp, #68
	pop.w	{r4, r5, r6, r7, r8, r9, pc}
	.p2align	2
.Lgcm_v7m_BB6_2:                                @ %else.2
	ldr	r5, [r0, #16]
	mov	r7, r0
	ldrd	lr, r1, [r5]
	ldrd	r8, r5, [r5, #8]
	strd	r2, r3, [sp, #24]
	movs	r3, #0
	strd	r3, r3, [sp]
	strd	r3, r3, [sp, #8]
	mov	r0, lr
	mov	r4, r2
	mov	r2, r8
	mov	r3, r5
	str.w	r12, [sp, #16]
	bl	gcm_v7m.gcm.single_blocks.hash_singly.1
	mvn	r5, #248
	ldr	r7, [r7, #16]
	and.w	r5, r5, r4, lsl #3
	and	r6, r4, #31
	orr.w	r6, r5, r6, lsl #3
	eors	r0, r6
	ldrd	r6, r5, [r7]
	ldrd	r12, r7, [r7, #8]
	eor.w	r1, r1, r4, lsr #29
	strd	r6, r5, [sp]
	strd	r12, r7, [sp, #8]
	bl	gcm_v7m.gcm.holes.product_with_holes
	lsrs	r7, r3, #24
	strb.w	r7, [r9]
	lsrs	r7, r3, #16
	strb.w	r7, [r9, #1]
	lsrs	r7, r3, #8
	strb.w	r3, [r9, #3]
	lsrs	r3, r2, #24
	strb.w	r3, [r9, #4]
	lsrs	r3, r2, #16
	strb.w	r3, [r9, #5]
	lsrs	r3, r2, #8
	strb.w	r2, [r9, #7]
	lsrs	r2, r1, #24
	strb.w	r2, [r9, #8]
	lsrs	r2, r1, #16
	strb.w	r2, [r9, #9]
	lsrs	r2, r1, #8
	strb.w	r1, [r9, #11]
	lsrs	r1, r0, #24
	strb.w	r1, [r9, #12]
	lsrs	r1, r0, #16
	strb.w	r1, [r9, #13]
	lsrs	r1, r0, #8
	strb.w	r7, [r9, #2]
	strb.w	r3, [r9, #6]
	strb.w	r2, [r9, #10]
	strb.w	r1, [r9, #14]
	strb.w	r0, [r9, #15]
	add	sp, #68
	pop.w	{r4, r5, r6, r7, r8, r9, pc}
.Lgcm_v7m_func_end6:
	.size	gcm_v7m.gcm.mode.BorrowedGcm.put_pre_counter, .Lgcm_v7m_func_end6-gcm_v7m.gcm.mode.BorrowedGcm.put_pre_counter
	.cantunwind
	.fnend
                                        @ -- End function
	.section	.text.gcm_v7m.gcm.single_blocks.hash_singly.1,"ax",%progbits
	.p2align	2                               @ -- Begin function gcm::single_blocks::hash_singly::<#bdc3ab7bdf33215b>
	.type	gcm_v7m.gcm.single_blocks.hash_singly.1,%function
	.code	16
	.thumb_func
gcm_v7m.gcm.single_blocks.hash_singly.1: @ @gcm_v7m.gcm.single_blocks.hash_singly.1
	.fnstart
@ %bb.0:                                @ %start
	.save	{r4, r5, r6, r7, r8, r9, r10, r11, lr}
	push.w	{r4, r5, r6, r7, r8, r9, r10, r11, lr}
	.pad	#44
	sub	sp, #44
	ldrd	r4, r6, [sp, #104]
	mov	lr, r3
	lsrs	r7, r4, #4
	mov	r5, r2
	str	r1, [sp, #24]                   @ 4-byte Spill
	ldrd	r2, r3, [sp, #88]
	ldrd	r12, r1, [sp, #80]
	orr.w	r10, r7, r6, lsl #28
	orrs.w	r7, r10, r6, lsr #4
	str	r0, [sp, #16]                   @ 4-byte Spill
	beq	.Lgcm_v7m_BB7_6
@ %bb.1:                                @ %join.5.i.preheader
	lsrs	r0, r6, #4
	ldr.w	r11, [sp, #16]                  @ 4-byte Reload
	str	r0, [sp, #20]                   @ 4-byte Spill
	mov.w	r8, #0
	mov.w	r9, #0
	mov	r0, r12
	.p2align	2
.Lgcm_v7m_BB7_2:                                @ %join.5.i
                                        @ =>This Inner Loop Header: Depth=1
	ldr	r6, [sp, #96]
	lsl.w	r7, r8, #4
	ldr	r7, [r6, r7]
	add.w	r4, r6, r8, lsl #4
	rev.w	r12, r7
	mov	r7, r5
	ldr	r5, [r4, #8]
	ldr	r6, [r4, #4]
	ldr	r4, [r4, #12]
	rev	r5, r5
	rev	r6, r6
	rev	r4, r4
	eors	r1, r5
	mov	r5, r7
	ldr	r7, [sp, #24]                   @ 4-byte Reload
	eors	r0, r4
	eors	r2, r6
	eor.w	r3, r3, r12
	str.w	r11, [sp]
	strd	r7, r5, [sp, #4]
	str.w	lr, [sp, #12]
	mov	r4, lr
	bl	gcm_v7m.gcm.holes.product_with_holes
	adds.w	r8, r8, #1
	adc	r9, r9, #0
	subs.w	r7, r8, r10
	ldr	r7, [sp, #20]                   @ 4-byte Reload
	mov	lr, r4
	sbcs.w	r7, r9, r7
	blo	.Lgcm_v7m_BB7_2
@ %bb.3:                                @ %"gcm::single_blocks::hash_whole::<#bdc3ab7bdf33215b>.exit"
	ldr	r4, [sp, #104]
	ands	r12, r4, #15
	beq	.Lgcm_v7m_BB7_5
.Lgcm_v7m_BB7_4:                                @ %join.3
	mov	r11, r5
	mov	r5, r1
	ldr	r1, [sp, #96]
	mov	r6, r0
	bic	r0, r4, #15
	add	r1, r0
	add	r0, sp, #28
	mov	r9, r2
	subs	r0, r0, r1
	mov.w	r2, #0
	mov	r8, r3
	sbc	r3, r2, #0
	subs.w	r0, r0, r12
	sbcs	r0, r3, #0
	strd	r2, r2, [sp, #36]
	strd	r2, r2, [sp, #28]
	add	r0, sp, #28
	mov	r2, r12
	mov	r10, lr
	bl	memcpy
	add	r3, sp, #28
	ldm	r3, {r0, r1, r2, r3}
	rev	r4, r1
	rev	r7, r0
	rev	r0, r3
	eor.w	r3, r7, r8
	ldr	r7, [sp, #16]                   @ 4-byte Reload
	rev	r1, r2
	str	r7, [sp]
	ldr	r7, [sp, #24]                   @ 4-byte Reload
	eor.w	r0, r0, r6
	eor.w	r1, r1, r5
	eor.w	r2, r4, r9
	strd	r7, r11, [sp, #4]
	str.w	r10, [sp, #12]
	bl	gcm_v7m.gcm.holes.product_with_holes
.Lgcm_v7m_BB7_5:                                @ %common.ret
	add	sp, #44
	pop.w	{r4, r5, r6, r7, r8, r9, r10, r11, pc}
	.p2align	2
.Lgcm_v7m_BB7_6:
	mov	r0, r12
	ldr	r4, [sp, #104]
	ands	r12, r4, #15
	bne	.Lgcm_v7m_BB7_4
	b	.Lgcm_v7m_BB7_5
.Lgcm_v7m_func_end7:
	.size	gcm_v7m.gcm.single_blocks.hash_singly.1, .Lgcm_v7m_func_end7-gcm_v7m.gcm.single_blocks.hash_singly.1
	.cantunwind
	.fnend
                                        @ -- End function
	.section	.text.gcm_v7m.gcm.holes.product_with_holes,"ax",%progbits
	.p2align	2                               @ -- Begin function gcm::holes::product_with_holes
	.type	gcm_v7m.gcm.holes.product_with_holes,%function
	.code	16
	.thumb_func
gcm_v7m.gcm.holes.product_with_holes:       @ @gcm_v7m.gcm.holes.product_with_holes
	.fnstart
@ %bb.0:                                @ %start
	.save	{r4, r5, r6, r7, r8, r9, r10, r11, lr}
	push.w	{r4, r5, r6, r7, r8, r9, r10, r11, lr}
	.pad	#60
	sub	sp, #60
	ldrd	r9, r11, [sp, #96]
	mov	r7, r1
	str	r1, [sp, #16]                   @ 4-byte Spill
	mov	r1, r9
	str	r3, [sp, #28]                   @ 4-byte Spill
	str	r2, [sp]                        @ 4-byte Spill
	mov	r4, r0
	str	r0, [sp, #24]                   @ 4-byte Spill
	bl	gcm_v7m.gcm.holes.product_of_words
	mov	r8, r0
	str	r0, [sp, #52]                   @ 4-byte Spill
	mov	r10, r1
	mov	r0, r7
	mov	r1, r11
	bl	gcm_v7m.gcm.holes.product_of_words
	mov	r6, r0
	mov	r5, r1
	str	r1, [sp, #48]                   @ 4-byte Spill
	eor.w	r0, r7, r4
	eor.w	r1, r11, r9
	bl	gcm_v7m.gcm.holes.product_of_words
	eor.w	r0, r0, r8
	eor.w	r1, r1, r10
	eors	r0, r6
	eors	r1, r5
	str	r0, [sp, #56]                   @ 4-byte Spill
	eor.w	r0, r0, r10
	ldr.w	r9, [sp]                        @ 4-byte Reload
	ldr.w	r10, [sp, #104]
	str	r0, [sp, #44]                   @ 4-byte Spill
	eor.w	r0, r6, r1
	str	r0, [sp, #40]                   @ 4-byte Spill
	mov	r0, r9
	mov	r1, r10
	bl	gcm_v7m.gcm.holes.product_of_words
	ldr.w	r11, [sp, #28]                  @ 4-byte Reload
	ldr	r4, [sp, #108]
	mov	r7, r0
	str	r0, [sp, #20]                   @ 4-byte Spill
	mov	r6, r1
	mov	r0, r11
	mov	r1, r4
	bl	gcm_v7m.gcm.holes.product_of_words
	mov	r8, r0
	mov	r5, r1
	str	r1, [sp, #12]                   @ 4-byte Spill
	eor.w	r0, r9, r11
	eor.w	r1, r10, r4
	bl	gcm_v7m.gcm.holes.product_of_words
	eors	r1, r6
	eors	r0, r7
	eor.w	r2, r0, r8
	eor.w	r0, r1, r5
	eor.w	r0, r0, r8
	str	r0, [sp, #8]                    @ 4-byte Spill
	eor.w	r0, r6, r2
	str	r0, [sp, #4]                    @ 4-byte Spill
	ldr	r0, [sp, #16]                   @ 4-byte Reload
	ldr	r1, [sp, #104]
	eor.w	r5, r11, r0
	ldr	r0, [sp, #24]                   @ 4-byte Reload
	str.w	r8, [sp, #36]                   @ 4-byte Spill
	eor.w	r6, r9, r0
	ldr	r0, [sp, #100]
	str	r2, [sp, #32]                   @ 4-byte Spill
	eor.w	r7, r4, r0
	ldr	r0, [sp, #96]
	eor.w	r4, r1, r0
	mov	r0, r6
	mov	r1, r4
	bl	gcm_v7m.gcm.holes.product_of_words
	mov	r8, r0
	mov	r11, r1
	mov	r0, r5
	mov	r1, r7
	bl	gcm_v7m.gcm.holes.product_of_words
	mov	r10, r0
	mov	r9, r1
	eor.w	r0, r5, r6
	eor.w	r1, r7, r4
	bl	gcm_v7m.gcm.holes.product_of_words
	ldr	r5, [sp, #52]                   @ 4-byte Reload
	ldr	r4, [sp, #20]                   @ 4-byte Reload
	eor.w	r0, r0, r8
	eor.w	r1, r1, r11
	ldr	r7, [sp, #48]                   @ 4-byte Reload
	eor.w	r3, r8, r5
	eor.w	r0, r0, r10
	eor.w	r1, r1, r9
	ldr	r6, [sp, #40]                   @ 4-byte Reload
	ldr.w	lr, [sp, #44]                   @ 4-byte Reload
	eor.w	r12, r3, r4
	ldr	r3, [sp, #12]                   @ 4-byte Reload
	eor.w	r0, r0, r11
	eor.w	r1, r1, r10
	eor.w	r9, r9, r7
	ldr	r2, [sp, #4]                    @ 4-byte Reload
	ldr.w	r8, [sp, #8]                    @ 4-byte Reload
	eors	r1, r6
	eor.w	r0, r0, lr
	eor.w	r9, r9, r3
	eors	r0, r2
	eor.w	r1, r1, r8
	eor.w	r2, r2, r9
	eors	r1, r4
	lsls	r2, r2, #1
	orr.w	r2, r2, r1, lsr #31
	lsls	r1, r1, #1
	eor.w	r4, r12, r6
	eor.w	r6, r0, r7
	orr.w	r7, r1, r0, lsr #31
	ldr	r1, [sp, #32]                   @ 4-byte Reload
	lsl.w	r0, r8, #1
	orr.w	r0, r0, r1, lsr #31
	ldr	r1, [sp, #36]                   @ 4-byte Reload
	str	r0, [sp, #40]                   @ 4-byte Spill
	lsls	r0, r3, #1
	orr.w	r0, r0, r1, lsr #31
	str	r2, [sp, #48]                   @ 4-byte Spill
	str	r0, [sp, #36]                   @ 4-byte Spill
	lsls	r0, r6, #1
	lsls	r2, r5, #26
	orr.w	r3, r0, r4, lsr #31
	ldr	r6, [sp, #56]                   @ 4-byte Reload
	eor.w	r2, r2, r5, lsl #31
	lsls	r0, r4, #1
	lsl.w	r1, lr, #1
	eors	r2, r3
	orr.w	r12, r0, r6, lsr #31
	orr.w	r1, r1, r5, lsr #31
	lsrs.w	r11, r2, #1
	mov	r0, r5
	rrx	r10, r12
	and	r5, r6, #-2147483648
	lsrs.w	r6, r1, #1
	orr.w	r8, r6, r5
	ubfx	r6, r4, #1, #30
	ubfx	r4, r4, #6, #25
	orr.w	r9, r4, r3, lsl #25
	ubfx	r4, r0, #1, #30
	orr.w	r4, r4, r1, lsl #30
	orr.w	r6, r6, r3, lsl #30
	eor.w	r4, r4, r7
	ubfx	r7, lr, #1, #30
	ldr	r3, [sp, #48]                   @ 4-byte Reload
	orr.w	r7, r7, r12, lsl #30
	eor.w	r7, r7, r3
	ldr	r3, [sp, #40]                   @ 4-byte Reload
	eor.w	r7, r7, r8
	eor.w	r6, r6, r3
	ldr	r3, [sp, #36]                   @ 4-byte Reload
	eor.w	r6, r6, r10
	eor.w	r5, r3, r2, lsr #2
	lsl.w	r3, r0, #1
	rrx	r3, r3
	eors	r3, r4
	ubfx	r4, r0, #6, #25
	orr.w	r4, r4, r1, lsl #25
	eors	r4, r3
	ubfx	r3, lr, #6, #25
	eor.w	r5, r5, r11
	orr.w	r3, r3, r12, lsl #25
	eor.w	r6, r6, r9
	eors	r7, r3
	eor.w	r3, r5, r2, lsr #7
	eors	r3, r2
	eor.w	r2, r6, r12
	eors	r1, r7
	eor.w	r0, r4, r0, lsl #1
	add	sp, #60
	pop.w	{r4, r5, r6, r7, r8, r9, r10, r11, pc}
.Lgcm_v7m_func_end8:
	.size	gcm_v7m.gcm.holes.product_with_holes, .Lgcm_v7m_func_end8-gcm_v7m.gcm.holes.product_with_holes
	.cantunwind
	.fnend
                                        @ -- End function
	.section	.text.gcm_v7m.gcm.holes.product_of_words,"ax",%progbits
	.p2align	2                               @ -- Begin function gcm::holes::product_of_words
	.type	gcm_v7m.gcm.holes.product_of_words,%function
	.code	16
	.thumb_func
gcm_v7m.gcm.holes.product_of_words:         @ @gcm_v7m.gcm.holes.product_of_words
	.fnstart
@ %bb.0:                                @ %start
	.save	{r4, r5, r6, r7, r8, r9, r10, r11, lr}
	push.w	{r4, r5, r6, r7, r8, r9, r10, r11, lr}
	mov	r12, r0
	bic	r0, r0, #-286331154
	bic	r4, r12, #-572662307
	bic	r9, r1, #-286331154
	bic	r7, r1, #2004318071
	bic	r3, r12, #-1145324613
	bic	r6, r1, #-1145324613
	mul	r8, r9, r0
	mul	r2, r7, r4
	bic	lr, r12, #2004318071
	bic	r5, r1, #-572662307
	eor.w	r8, r8, r2
	mul	r2, r6, r3
	eor.w	r8, r8, r2
	mul	r2, r5, lr
	eor.w	r8, r8, r2
	mul	r10, r5, r0
	mul	r2, r9, r4
	eor.w	r10, r10, r2
	mul	r2, r7, r3
	eor.w	r10, r10, r2
	mul	r2, r6, lr
	eor.w	r10, r10, r2
	mul	r11, r6, r0
	mul	r2, r5, r4
	muls	r0, r7, r0
	muls	r4, r6, r4
	eor.w	r11, r11, r2
	mul	r2, r9, r3
	eors	r0, r4
	muls	r3, r5, r3
	eor.w	r11, r11, r2
	mul	r2, r7, lr
	eors	r0, r3
	mul	r3, r9, lr
	eor.w	r2, r2, r11
	eors	r0, r3
	bic	r3, r8, #-286331154
	bic	r7, r10, #-572662307
	add	r3, r7
	bic	r2, r2, #-1145324613
	add	r2, r3
	rbit	r3, r12
	rbit	r7, r1
	bic	r0, r0, #2004318071
	bic	r4, r3, #-286331154
	bic	r1, r3, #-572662307
	bic	r8, r3, #-1145324613
	bic	r12, r3, #2004318071
	bic	r3, r7, #-286331154
	bic	r6, r7, #-572662307
	bic	r5, r7, #-1145324613
	bic	r7, r7, #2004318071
	add	r0, r2
	mul	lr, r3, r4
	mul	r2, r7, r1
	eor.w	lr, lr, r2
	mul	r2, r5, r8
	eor.w	lr, lr, r2
	mul	r2, r6, r12
	eor.w	lr, lr, r2
	mul	r9, r6, r4
	mul	r2, r3, r1
	eor.w	r9, r9, r2
	mul	r2, r7, r8
	eor.w	r9, r9, r2
	mul	r2, r5, r12
	eor.w	r9, r9, r2
	mul	r10, r5, r4
	mul	r2, r6, r1
	muls	r4, r7, r4
	muls	r1, r5, r1
	eor.w	r10, r10, r2
	mul	r2, r3, r8
	eors	r1, r4
	mul	r4, r6, r8
	eor.w	r10, r10, r2
	mul	r2, r7, r12
	eors	r1, r4
	mul	r3, r3, r12
	eor.w	r2, r2, r10
	eors	r1, r3
	bic	r3, lr, #-286331154
	bic	r7, r9, #-572662307
	add	r3, r7
	bic	r2, r2, #-1145324613
	add	r2, r3
	movw	r3, #34952
	movt	r3, #2184
	ands	r1, r3
	add	r1, r2
	rbit	r1, r1
	lsrs	r1, r1, #1
	pop.w	{r4, r5, r6, r7, r8, r9, r10, r11, pc}
.Lgcm_v7m_func_end9:
	.size	gcm_v7m.gcm.holes.product_of_words, .Lgcm_v7m_func_end9-gcm_v7m.gcm.holes.product_of_words
	.cantunwind
	.fnend
                                        @ -- End function
	.section	.text.gcm_v7m.aes_cipher.zeroize.stack.wipe_stack.512,"ax",%progbits
	.p2align	2                               @ -- Begin function aes_cipher::zeroize::stack::wipe_stack::<=512>
	.type	gcm_v7m.aes_cipher.zeroize.stack.wipe_stack.512,%function
	.code	16
	.thumb_func
gcm_v7m.aes_cipher.zeroize.stack.wipe_stack.512: @ @gcm_v7m.aes_cipher.zeroize.stack.wipe_stack.512
	.fnstart
@ %bb.0:                                @ %start
	.save	{r4, r5, r7, lr}
	push	{r4, r5, r7, lr}
	.pad	#520
	sub.w	sp, sp, #520
	add	r4, sp, #8
	mov	r0, r4
	movs	r1, #0
	mov.w	r2, #512
	movs	r5, #0
	bl	memset
	strd	r5, r5, [sp]
	@APP
	@NO_APP
	mov	r0, sp
	ldrd	r1, r2, [r0]
	@APP
	@NO_APP
	subs.w	r3, r1, #512
	sbcs	r2, r2, #0
	itt	hs
	addhs.w	sp, sp, #520
	pophs	{r4, r5, r7, pc}
.Lgcm_v7m_BB10_1:                               @ %then.1
	ldrb	r1, [r4, r1]
	@APP
	@NO_APP
	ldrd	r2, r3, [r0]
	strd	r1, r5, [r0]
	@APP
	@NO_APP
	add.w	sp, sp, #520
	pop	{r4, r5, r7, pc}
.Lgcm_v7m_func_end10:
	.size	gcm_v7m.aes_cipher.zeroize.stack.wipe_stack.512, .Lgcm_v7m_func_end10-gcm_v7m.aes_cipher.zeroize.stack.wipe_stack.512
	.cantunwind
	.fnend
                                        @ -- End function
	.section	.text.gcm_v7m.gcm.mode.BorrowedGcm.put_tag_so_far,"ax",%progbits
	.p2align	2                               @ -- Begin function gcm::mode::BorrowedGcm::put_tag_so_far::<#84a61a6dd6ff62d6>
	.type	gcm_v7m.gcm.mode.BorrowedGcm.put_tag_so_far,%function
	.code	16
	.thumb_func
gcm_v7m.gcm.mode.BorrowedGcm.put_tag_so_far: @ @gcm_v7m.gcm.mode.BorrowedGcm.put_tag_so_far
	.fnstart
@ %bb.0:                                @ %start
	.save	{r4, r5, r6, r7, r8, r9, r10, r11, lr}
	push.w	{r4, r5, r6, r7, r8, r9, r10, r11, lr}
	.pad	#44
	sub	sp, #44
	mov	r6, r1
	mov	r4, r2
	mov	r8, r0
	ldr	r0, [r1, #32]
	ldr	r1, [r1, #36]
	ldr	r2, [r6, #44]
	ldr	r3, [r6, #40]
	str	r2, [r4, #12]
	str	r3, [r4, #8]
	str	r1, [r4, #4]
	str	r0, [r4]
	ldr.w	r0, [r8]
	ldr.w	r2, [r8, #8]
	ldr.w	r3, [r8, #12]
	mov.w	r12, #0
	movs	r1, #1
	strd	r1, r12, [sp, #8]
	str	r4, [sp]
	bl	gcm_v7m.aes_narrow.blocks.process_all_batches
	bl	gcm_v7m.aes_cipher.zeroize.stack.wipe_stack.1024
	ldr.w	r0, [r8, #16]
	mov	r1, r6
	bl	gcm_v7m.gcm.mode.BorrowedGcm.hash_so_far
	ldm.w	r6, {r5, r9, r12, lr}
	cmp.w	r9, #536870912
	mvn	r6, #31
	itt	hs
	movhs.w	r5, #-1
	mvnhs	r9, #-536870912
	subs.w	r7, r12, r6
	sbcs	r7, lr, #15
	ite	lo
	movlo	r6, r12
	movhs.w	lr, #15
	ldr.w	r12, [r8, #16]
	lsl.w	r7, r9, #3
	mvn	r8, #248
	orr.w	r9, r7, r5, lsr #29
	and.w	r7, r8, r5, lsl #3
	and	r5, r5, #31
	orr.w	r5, r7, r5, lsl #3
	lsl.w	r7, lr, #3
	orr.w	r7, r7, r6, lsr #29
	and	lr, r7, #127
	and.w	r7, r8, r6, lsl #3
	and	r6, r6, #31
	orr.w	r6, r7, r6, lsl #3
	eors	r2, r5
	eors	r0, r6
	ldm.w	r12, {r5, r6, r7, r12}
	eor.w	r3, r3, r9
	eor.w	r1, r1, lr
	stm.w	sp, {r5, r6, r7, r12}
	bl	gcm_v7m.gcm.holes.product_with_holes
	ldrb	r7, [r4, #4]
	ldrb.w	lr, [r4, #15]
	str	r7, [sp, #24]                   @ 4-byte Spill
	ldrb	r7, [r4, #5]
	ldrb.w	r12, [r4, #14]
	str	r7, [sp, #20]                   @ 4-byte Spill
	ldrb	r5, [r4, #12]
	ldrb.w	r8, [r4, #13]
	eor.w	r7, lr, r0
	str	r7, [sp, #40]                   @ 4-byte Spill
	eor.w	r7, r12, r0, lsr #8
	str	r7, [sp, #36]                   @ 4-byte Spill
	eor.w	r7, r8, r0, lsr #16
	eor.w	r0, r5, r0, lsr #24
	ldrb	r6, [r4, #11]
	str	r0, [sp, #28]                   @ 4-byte Spill
	ldrb	r5, [r4, #10]
	ldrb	r0, [r4, #6]
	ldrb.w	r10, [r4, #8]
	ldrb.w	r9, [r4, #9]
	eor.w	r8, r6, r1
	eor.w	r6, r5, r1, lsr #8
	eor.w	r5, r0, r2, lsr #8
	ldr	r0, [sp, #20]                   @ 4-byte Reload
	str	r7, [sp, #32]                   @ 4-byte Spill
	eor.w	r7, r9, r1, lsr #16
	eor.w	r9, r10, r1, lsr #24
	eor.w	r10, r0, r2, lsr #16
	ldr	r0, [sp, #24]                   @ 4-byte Reload
	ldrb.w	r11, [r4, #7]
	eor.w	lr, r0, r2, lsr #24
	ldrb	r0, [r4, #2]
	eor.w	r11, r11, r2
	eor.w	r2, r0, r3, lsr #8
	ldrb	r0, [r4, #1]
	ldrb	r1, [r4, #3]
	eor.w	r0, r0, r3, lsr #16
	strb	r0, [r4, #1]
	ldr	r0, [sp, #28]                   @ 4-byte Reload
	eor.w	r12, r1, r3
	strb	r0, [r4, #12]
	ldr	r0, [sp, #32]                   @ 4-byte Reload
	ldrb	r1, [r4]
	strb	r0, [r4, #13]
	ldr	r0, [sp, #36]                   @ 4-byte Reload
	eor.w	r1, r1, r3, lsr #24
	strb	r0, [r4, #14]
	ldr	r0, [sp, #40]                   @ 4-byte Reload
	strb	r1, [r4]
	strb	r2, [r4, #2]
	strb.w	r12, [r4, #3]
	strb.w	lr, [r4, #4]
	strb.w	r10, [r4, #5]
	strb	r5, [r4, #6]
	strb.w	r11, [r4, #7]
	strb.w	r9, [r4, #8]
	strb	r7, [r4, #9]
	strb	r6, [r4, #10]
	strb.w	r8, [r4, #11]
	strb	r0, [r4, #15]
	add	sp, #44
	pop.w	{r4, r5, r6, r7, r8, r9, r10, r11, pc}
.Lgcm_v7m_func_end11:
	.size	gcm_v7m.gcm.mode.BorrowedGcm.put_tag_so_far, .Lgcm_v7m_func_end11-gcm_v7m.gcm.mode.BorrowedGcm.put_tag_so_far
	.cantunwind
	.fnend
                                        @ -- End function
	.section	.text.gcm_v7m.aes_narrow.blocks.process_all_batches,"ax",%progbits
	.p2align	2                               @ -- Begin function aes_narrow::blocks::process_all_batches::<#f6c900d3ac1e47b9>
	.type	gcm_v7m.aes_narrow.blocks.process_all_batches,%function
	.code	16
	.thumb_func
gcm_v7m.aes_narrow.blocks.process_all_batches: @ @gcm_v7m.aes_narrow.blocks.process_all_batches
	.fnstart
@ %bb.0:                                @ %start
	.save	{r4, r5, r6, r7, r8, r9, r10, r11, lr}
	push.w	{r4, r5, r6, r7, r8, r9, r10, r11, lr}
	.pad	#20
	sub	sp, #20
	ldrd	r4, r7, [sp, #64]
	mov	r9, r3
	mov	r11, r2
	mov	r10, r0
	mov.w	r8, #0
	movs	r5, #0
	.p2align	2
.Lgcm_v7m_BB12_1:                               @ %join.5
                                        @ =>This Inner Loop Header: Depth=1
	subs.w	r1, r4, r8
	sbc.w	r0, r7, r5
	cmp	r1, #2
	mov.w	r2, #2
	it	hs
	movhs	r1, r2
	cmp	r0, #0
	ldr	r0, [sp, #56]
	it	ne
	movne	r1, r2
	add.w	r0, r0, r8, lsl #4
	adds.w	r8, r8, r1
	str	r0, [sp]
	mov	r0, r10
	mov	r2, r11
	mov	r3, r9
	mov.w	r6, #0
	adc	r5, r5, #0
	strd	r1, r6, [sp, #8]
	bl	gcm_v7m.aes_soft.soft.blocks.filled_up.process_filled_up
	subs.w	r0, r8, r4
	sbcs.w	r0, r5, r7
	blo	.Lgcm_v7m_BB12_1
@ %bb.2:                                @ %after.1
	add	sp, #20
	pop.w	{r4, r5, r6, r7, r8, r9, r10, r11, pc}
.Lgcm_v7m_func_end12:
	.size	gcm_v7m.aes_narrow.blocks.process_all_batches, .Lgcm_v7m_func_end12-gcm_v7m.aes_narrow.blocks.process_all_batches
	.cantunwind
	.fnend
                                        @ -- End function
	.section	.text.gcm_v7m.aes_soft.soft.blocks.filled_up.process_filled_up,"ax",%progbits
	.p2align	2                               @ -- Begin function aes_soft::soft::blocks::filled_up::process_filled_up::<#f6c900d3ac1e47b9>
	.type	gcm_v7m.aes_soft.soft.blocks.filled_up.process_filled_up,%function
	.code	16
	.thumb_func
gcm_v7m.aes_soft.soft.blocks.filled_up.process_filled_up: @ @gcm_v7m.aes_soft.soft.blocks.filled_up.process_filled_up
	.fnstart
@ %bb.0:                                @ %start
	.save	{r4, r5, r6, r7, r8, r9, r10, r11, lr}
	push.w	{r4, r5, r6, r7, r8, r9, r10, r11, lr}
	.pad	#132
	sub	sp, #132
	ldr.w	r11, [sp, #168]
	mov	r12, r0
	movs	r0, #0
	strd	r0, r0, [sp, #92]
	strd	r0, r0, [sp, #84]
	strd	r0, r0, [sp, #76]
	strd	r0, r0, [sp, #68]
	strd	r0, r0, [sp, #36]
	strd	r0, r0, [sp, #44]
	strd	r0, r0, [sp, #52]
	strd	r0, r0, [sp, #60]
	strd	r0, r0, [sp, #4]
	strd	r0, r0, [sp, #12]
	strd	r0, r0, [sp, #20]
	strd	r0, r0, [sp, #28]
	ldr.w	r0, [r11]
	ldr.w	r4, [r11, #12]
	add	r1, sp, #100
	ldr.w	r6, [r11, #4]
	ldr.w	r7, [r11, #8]
	stm	r1!, {r0, r6, r7}
	strd	r4, r0, [sp, #112]
	lsrs	r0, r2, #3
	ldrd	r9, r8, [sp, #176]
	orr.w	r0, r0, r3, lsl #29
	lsrs	r3, r3, #3
	subs	r2, r0, #1
	sbc	r3, r3, #0
	orrs.w	r0, r9, r8
	clz	r0, r0
	lsr.w	r10, r0, #5
	strd	r6, r7, [sp, #120]
	str	r4, [sp, #128]
	beq	.Lgcm_v7m_BB13_2
@ %bb.1:                                @ %join.8.i
	ldr.w	r1, [r11, #4]
	add.w	lr, sp, #104
	ldr.w	r0, [r11]
	ldr.w	r7, [r11, #12]
	ldr.w	r6, [r11, #8]
	stm.w	lr, {r1, r6, r7}
	eor	r1, r9, #1
	orrs.w	r1, r1, r8
	str	r0, [sp, #100]
	bne	.Lgcm_v7m_BB13_3
.Lgcm_v7m_BB13_2:                               @ %then.6.i
	add	r0, sp, #100
	ldm	r0!, {r1, r4, r5, r6}
	add	r7, sp, #36
	stm	r7!, {r1, r4, r5, r6}
	ldm.w	r0, {r1, r4, r5, r6}
	stm	r7!, {r1, r4, r5, r6}
	b	.Lgcm_v7m_BB13_4
	.p2align	2
.Lgcm_v7m_BB13_3:                               @ %join.8.i.1
	ldr.w	r0, [r11, #16]
	add.w	lr, sp, #116
	ldr.w	r1, [r11, #20]
	ldr.w	r7, [r11, #28]
	ldr.w	r6, [r11, #24]
	stm.w	lr, {r0, r1, r6, r7}
	add	r0, sp, #100
	ldm	r0!, {r4, r5, r6, r7}
	add	r1, sp, #36
	stm	r1!, {r4, r5, r6, r7}
	ldm.w	r0, {r4, r5, r6, r7}
	stm	r1!, {r4, r5, r6, r7}
.Lgcm_v7m_BB13_4:                               @ %"aes_soft::soft::blocks::filled_up::filled_up::<#ee324ebdabaa1892>.exit"
	add	r4, sp, #4
	add	r7, sp, #36
	mov	r0, r4
	mov	r1, r12
	str	r7, [sp]
	bl	gcm_v7m.aes_soft.soft.ciphers.planes.process_outlined
	ldm	r4!, {r1, r2, r3, r7}
	add	r0, sp, #68
	stm	r0!, {r1, r2, r3, r7}
	ldm.w	r4, {r1, r2, r3, r7}
	cmp.w	r10, #0
	stm	r0!, {r1, r2, r3, r7}
	bne	.Lgcm_v7m_BB13_7
@ %bb.5:                                @ %join.8.i22
	add	r3, sp, #68
	ldm	r3, {r0, r1, r3}
	ldr	r2, [sp, #80]
	str.w	r1, [r11, #4]
	eor	r1, r9, #1
	orrs.w	r1, r1, r8
	str.w	r2, [r11, #12]
	str.w	r3, [r11, #8]
	str.w	r0, [r11]
	beq	.Lgcm_v7m_BB13_7
@ %bb.6:                                @ %join.8.i22.1
	add	r3, sp, #84
	ldr	r2, [sp, #96]
	ldm	r3, {r0, r1, r3}
	str.w	r2, [r11, #28]
	str.w	r3, [r11, #24]
	str.w	r1, [r11, #20]
	str.w	r0, [r11, #16]
.Lgcm_v7m_BB13_7:                               @ %"aes_soft::soft::blocks::filled_up::copy_first::<#ee324ebdabaa1892>.exit"
	add	sp, #132
	pop.w	{r4, r5, r6, r7, r8, r9, r10, r11, pc}
.Lgcm_v7m_func_end13:
	.size	gcm_v7m.aes_soft.soft.blocks.filled_up.process_filled_up, .Lgcm_v7m_func_end13-gcm_v7m.aes_soft.soft.blocks.filled_up.process_filled_up
	.cantunwind
	.fnend
                                        @ -- End function
	.section	.text.gcm_v7m.aes_soft.soft.ciphers.planes.process_outlined,"ax",%progbits
	.p2align	2                               @ -- Begin function aes_soft::soft::ciphers::planes::process_outlined::<#dc651273b304e77a>
	.type	gcm_v7m.aes_soft.soft.ciphers.planes.process_outlined,%function
	.code	16
	.thumb_func
gcm_v7m.aes_soft.soft.ciphers.planes.process_outlined: @ @gcm_v7m.aes_soft.soft.ciphers.planes.process_outlined
	.fnstart
@ %bb.0:                                @ %start
	.save	{r4, r5, r6, r7, r8, r9, r10, r11, lr}
	push.w	{r4, r5, r6, r7, r8, r9, r10, r11, lr}
	.pad	#112
	sub	sp, #112
	mov	r8, r1
	ldr	r1, [sp, #148]
	str	r0, [sp, #4]                    @ 4-byte Spill
	ldr	r0, [r1, #16]
	ldr	r7, [r1]
	strd	r3, r2, [sp, #12]               @ 8-byte Folded Spill
	ldr	r2, [r1, #20]
	ldr	r6, [r1, #4]
	eor.w	r3, r0, r7, lsr #1
	ldr.w	r12, [r1, #24]
	ldr	r5, [r1, #8]
	ldr	r4, [r1, #12]
	ldr	r1, [r1, #28]
	bic	r3, r3, #-1431655766
	eor.w	r7, r7, r3, lsl #1
	eor.w	lr, r3, r0
	eor.w	r3, r2, r6, lsr #1
	bic	r3, r3, #-1431655766
	eor.w	r0, r1, r4, lsr #1
	eor.w	r6, r6, r3, lsl #1
	eors	r3, r2
	eor.w	r2, r12, r5, lsr #1
	bic	r0, r0, #-1431655766
	bic	r2, r2, #-1431655766
	eor.w	r4, r4, r0, lsl #1
	eors	r1, r0
	eor.w	r0, r6, r7, lsr #2
	eor.w	r5, r5, r2, lsl #1
	bic	r0, r0, #-858993460
	eor.w	r7, r7, r0, lsl #2
	eor.w	r10, r0, r6
	eor.w	r0, r4, r5, lsr #2
	bic	r0, r0, #-858993460
	eor.w	r2, r2, r12
	eor.w	r12, r5, r0, lsl #2
	eor.w	r6, r0, r4
	eor.w	r0, r3, lr, lsr #2
	bic	r4, r0, #-858993460
	eor.w	r9, r4, r3
	eor.w	r3, r1, r2, lsr #2
	bic	r3, r3, #-858993460
	eor.w	r0, lr, r4, lsl #2
	eor.w	lr, r3, r1
	eor.w	r1, r12, r7, lsr #4
	bic	r5, r1, #-252645136
	ldr.w	r1, [r8]
	eor.w	r11, r2, r3, lsl #2
	eor.w	r1, r1, r5, lsl #4
	eors	r1, r7
	eor.w	r2, r11, r0, lsr #4
	str	r1, [sp, #96]                   @ 4-byte Spill
	ldr.w	r1, [r8, #4]
	bic	r7, r2, #-252645136
	eor.w	r1, r1, r7, lsl #4
	eors	r0, r1
	str	r0, [sp, #108]                  @ 4-byte Spill
	eor.w	r0, r6, r10, lsr #4
	ldr.w	r1, [r8, #8]
	bic	r0, r0, #-252645136
	eor.w	r1, r1, r0, lsl #4
	eor.w	r4, r1, r10
	eor.w	r1, lr, r9, lsr #4
	ldr.w	r2, [r8, #12]
	bic	r10, r1, #-252645136
	mov	r3, r6
	eor.w	r1, r2, r10, lsl #4
	ldr.w	r6, [r8, #16]
	eor.w	r1, r1, r9
	str	r1, [sp, #100]                  @ 4-byte Spill
	eor.w	r1, r12, r6
	ldr.w	r6, [r8, #20]
	eor.w	r12, r1, r5
	ldr.w	r5, [r8, #24]
	eor.w	r1, r11, r6
	eor.w	r11, r1, r7
	ldr	r1, [sp, #16]                   @ 4-byte Reload
	eor.w	r6, r3, r5
	ldr.w	r5, [r8, #28]
	eor.w	r9, r6, r0
	ldr	r0, [sp, #12]                   @ 4-byte Reload
	subs	r6, r1, #2
	eor.w	r1, lr, r5
	sbc	r3, r0, #0
	lsrs	r5, r6, #2
	orr.w	r5, r5, r3, lsl #30
	mov	r0, r5
	orrs.w	r5, r5, r3, lsr #2
	eor.w	r10, r10, r1
	str.w	r8, [sp, #28]                   @ 4-byte Spill
	str	r6, [sp, #8]                    @ 4-byte Spill
	str	r3, [sp]                        @ 4-byte Spill
	beq.w	.Lgcm_v7m_BB14_3
@ %bb.1:                                @ %join.7.i.preheader
	lsrs	r3, r3, #2
	ldr	r1, [sp, #108]                  @ 4-byte Reload
	ldrd	lr, r2, [sp, #96]               @ 8-byte Folded Reload
	str	r3, [sp, #20]                   @ 4-byte Spill
	movs	r3, #0
	movs	r5, #0
	str	r3, [sp, #104]                  @ 4-byte Spill
	str	r0, [sp, #24]                   @ 4-byte Spill
	.p2align	2
.Lgcm_v7m_BB14_2:                               @ %join.7.i
                                        @ =>This Inner Loop Header: Depth=1
	str	r5, [sp, #80]                   @ 4-byte Spill
	eor.w	r0, r1, r10
	eor.w	r5, r4, r12
	str	r0, [sp, #40]                   @ 4-byte Spill
	eors	r0, r5
	eors	r2, r0
	eor.w	r8, r11, r9
	eor.w	r6, r12, r10
	eor.w	r11, r2, r4
	eor.w	r9, r9, r2
	mov	r7, r1
	str	r0, [sp, #108]                  @ 4-byte Spill
	eor.w	r1, r9, r6
	eor.w	r0, r11, r8
	str	r1, [sp, #100]                  @ 4-byte Spill
	and.w	r2, r1, r6
	eors	r1, r0
	eor.w	r4, r4, r10
	and.w	r3, r1, r5
	str.w	r12, [sp, #92]                  @ 4-byte Spill
	str	r5, [sp, #72]                   @ 4-byte Spill
	mov	r12, r10
	eor.w	r5, r3, r2
	and.w	r3, r0, r4
	eor.w	r10, lr, r8
	strd	r6, r4, [sp, #84]               @ 8-byte Folded Spill
	eor.w	r6, r3, r2
	eor.w	r2, r10, r7
	str	r1, [sp, #76]                   @ 4-byte Spill
	eor.w	r7, r11, lr
	eor.w	r1, r2, r4
	str	r1, [sp, #60]                   @ 4-byte Spill
	and.w	r3, r7, r1
	ldr	r1, [sp, #92]                   @ 4-byte Reload
	str	r7, [sp, #56]                   @ 4-byte Spill
	eor.w	r1, r1, r10
	eor.w	r7, r9, r3
	and.w	r3, r1, lr
	eors	r3, r4
	str	r0, [sp, #68]                   @ 4-byte Spill
	eors	r3, r0
	ldr	r0, [sp, #108]                  @ 4-byte Reload
	str	r1, [sp, #92]                   @ 4-byte Spill
	and.w	r1, r11, r0
	eors	r3, r1
	eors	r1, r7
	ldr	r7, [sp, #100]                  @ 4-byte Reload
	str.w	lr, [sp, #96]                   @ 4-byte Spill
	eor.w	r0, r7, r8
	eor.w	r8, r1, r5
	mov	r1, lr
	ldr.w	lr, [sp, #40]                   @ 4-byte Reload
	and.w	r4, r2, r10
	str.w	r11, [sp, #64]                  @ 4-byte Spill
	eors	r4, r0
	and.w	r11, r0, lr
	eor.w	r4, r4, r11
	eor.w	r4, r4, lr
	str	r2, [sp, #44]                   @ 4-byte Spill
	eor.w	r9, r4, r5
	eor.w	r4, r10, r12
	eor.w	r2, r7, r1
	and.w	r5, r2, r4
	eors	r5, r0
	eor.w	r5, r5, r11
	eor.w	r5, r5, r12
	str	r2, [sp, #52]                   @ 4-byte Spill
	eors	r3, r6
	eors	r5, r6
	and.w	r2, r9, r8
	str	r4, [sp, #48]                   @ 4-byte Spill
	eor.w	r12, r2, r3
	eor.w	r4, r5, r9
	and.w	r4, r4, r12
	eor.w	r12, r8, r3
	eor.w	r1, r2, r5
	and.w	r7, r1, r12
	eors	r3, r7
	eor.w	r7, r4, r2
	eor.w	r2, r4, r5
	and.w	r4, r7, r5
	eors	r1, r4
	ands	r1, r3
	eor.w	r5, r1, r12
	eor.w	r7, r5, r3
	and.w	r8, r7, r0
	and.w	r0, r5, r10
	str	r0, [sp, #40]                   @ 4-byte Spill
	ldr	r0, [sp, #44]                   @ 4-byte Reload
	eor.w	r1, r4, r9
	ands	r0, r5
	str	r0, [sp, #44]                   @ 4-byte Spill
	ldr	r0, [sp, #56]                   @ 4-byte Reload
	eor.w	r4, r1, r2
	and.w	r11, r7, lr
	eor.w	lr, r5, r4
	and.w	r5, r4, r0
	ldr	r0, [sp, #60]                   @ 4-byte Reload
	and.w	r7, r4, r0
	ldr	r0, [sp, #92]                   @ 4-byte Reload
	ands	r0, r2
	str	r0, [sp, #92]                   @ 4-byte Spill
	ldr	r0, [sp, #96]                   @ 4-byte Reload
	and.w	r4, r2, r0
	ldr	r0, [sp, #100]                  @ 4-byte Reload
	eors	r2, r3
	ands	r0, r2
	str	r0, [sp, #100]                  @ 4-byte Spill
	ldr	r0, [sp, #84]                   @ 4-byte Reload
	and.w	r6, r2, r0
	ldr	r0, [sp, #72]                   @ 4-byte Reload
	eor.w	r2, r2, lr
	and.w	r12, r2, r0
	ldr	r0, [sp, #76]                   @ 4-byte Reload
	and.w	r9, r2, r0
	ldr	r0, [sp, #48]                   @ 4-byte Reload
	ldr	r2, [sp, #108]                  @ 4-byte Reload
	and.w	r10, r3, r0
	ldr	r0, [sp, #52]                   @ 4-byte Reload
	ands	r3, r0
	ldr	r0, [sp, #64]                   @ 4-byte Reload
	ands	r0, r1
	ands	r1, r2
	ldr	r2, [sp, #40]                   @ 4-byte Reload
	eors	r5, r0
	eors	r0, r4
	eor.w	r4, r8, r2
	eors	r3, r0
	ldr	r2, [sp, #44]                   @ 4-byte Reload
	eor.w	r8, r8, r3
	eor.w	r3, r12, r6
	eor.w	r2, r2, r8
	eor.w	r12, r3, r7
	eors	r3, r2
	eor.w	r2, r4, r9
	eors	r5, r4
	ldr	r4, [sp, #68]                   @ 4-byte Reload
	eor.w	r7, r12, r1
	and.w	r4, r4, lr
	eors	r0, r4
	eor.w	r0, r0, r11
	eors	r0, r2
	eor.w	r1, r0, r10
	eor.w	r10, r3, r0
	ldr	r0, [sp, #100]                  @ 4-byte Reload
	str	r7, [sp, #84]                   @ 4-byte Spill
	eor.w	r4, r2, r0
	eor.w	r0, r3, r11
	ldr	r2, [sp, #92]                   @ 4-byte Reload
	ldr	r3, [sp, #88]                   @ 4-byte Reload
	eors	r5, r7
	eor.w	r2, r2, r12
	and.w	r7, lr, r3
	eor.w	r12, r2, r1
	eor.w	r2, r7, r6
	eors	r2, r4
	eor.w	r3, r2, r1
	mov.w	r1, #1061109567
	mov.w	r6, #-1061109568
	and.w	r2, r1, r0, ror #10
	and.w	r7, r6, r0, ror #2
	eor.w	r11, r5, r8
	add.w	r8, r2, r7
	and.w	r2, r1, r10, ror #10
	and.w	r7, r6, r10, ror #2
	add.w	lr, r2, r7
	and.w	r2, r1, r12, ror #10
	and.w	r7, r6, r12, ror #2
	add.w	r9, r2, r7
	and.w	r2, r1, r11, ror #10
	and.w	r7, r6, r11, ror #2
	add	r2, r7
	str	r2, [sp, #100]                  @ 4-byte Spill
	and.w	r2, r1, r5, ror #10
	and.w	r7, r6, r5, ror #2
	add	r2, r7
	str	r2, [sp, #92]                   @ 4-byte Spill
	and.w	r2, r1, r3, ror #10
	and.w	r7, r6, r3, ror #2
	add	r2, r7
	str	r2, [sp, #96]                   @ 4-byte Spill
	ldr	r2, [sp, #84]                   @ 4-byte Reload
	str	r3, [sp, #108]                  @ 4-byte Spill
	eors	r2, r4
	eors	r4, r5
	and.w	r7, r1, r4, ror #10
	and.w	r3, r6, r4, ror #2
	add	r3, r7
	str	r3, [sp, #44]                   @ 4-byte Spill
	and.w	r1, r1, r2, ror #10
	and.w	r3, r6, r2, ror #2
	add	r1, r3
	str	r1, [sp, #48]                   @ 4-byte Spill
	eor.w	r1, r8, r0
	mov.w	r3, #252645135
	mov.w	r6, #-252645136
	str	r1, [sp, #72]                   @ 4-byte Spill
	and.w	r0, r3, r1, ror #20
	and.w	r1, r6, r1, ror #12
	str.w	r8, [sp, #76]                   @ 4-byte Spill
	add	r0, r1
	eor.w	r8, lr, r10
	str	r0, [sp, #52]                   @ 4-byte Spill
	and.w	r0, r3, r8, ror #20
	and.w	r1, r6, r8, ror #12
	add.w	r10, r0, r1
	eor.w	r1, r9, r12
	str	r1, [sp, #84]                   @ 4-byte Spill
	and.w	r0, r3, r1, ror #20
	and.w	r1, r6, r1, ror #12
	add	r0, r1
	str	r0, [sp, #56]                   @ 4-byte Spill
	ldr	r0, [sp, #100]                  @ 4-byte Reload
	str.w	lr, [sp, #60]                   @ 4-byte Spill
	eor.w	lr, r0, r11
	and.w	r0, r3, lr, ror #20
	and.w	r1, r6, lr, ror #12
	add	r0, r1
	str	r0, [sp, #88]                   @ 4-byte Spill
	ldr	r0, [sp, #92]                   @ 4-byte Reload
	ldr.w	r11, [sp, #44]                  @ 4-byte Reload
	eors	r5, r0
	and.w	r0, r3, r5, ror #20
	and.w	r1, r6, r5, ror #12
	add	r0, r1
	str	r0, [sp, #40]                   @ 4-byte Spill
	ldr	r0, [sp, #96]                   @ 4-byte Reload
	ldr	r1, [sp, #108]                  @ 4-byte Reload
	str.w	r9, [sp, #64]                   @ 4-byte Spill
	eor.w	r12, r0, r1
	and.w	r1, r3, r12, ror #20
	and.w	r7, r6, r12, ror #12
	ldr.w	r9, [sp, #48]                   @ 4-byte Reload
	adds	r0, r1, r7
	eor.w	r1, r11, r4
	and.w	r4, r3, r1, ror #20
	and.w	r7, r6, r1, ror #12
	eor.w	r2, r2, r9
	str	r0, [sp, #68]                   @ 4-byte Spill
	adds	r0, r4, r7
	and.w	r4, r3, r2, ror #20
	and.w	r7, r6, r2, ror #12
	ldr	r3, [sp, #28]                   @ 4-byte Reload
	ldr	r6, [sp, #104]                  @ 4-byte Reload
	str	r0, [sp, #36]                   @ 4-byte Spill
	add.w	r0, r3, r6, lsl #7
	add	r4, r7
	ldr	r3, [r0, #32]
	str	r4, [sp, #32]                   @ 4-byte Spill
	ldr	r4, [sp, #52]                   @ 4-byte Reload
	ldr	r7, [r0, #36]
	eors	r3, r4
	ldr	r4, [sp, #76]                   @ 4-byte Reload
	eor.w	r7, r7, r10
	eors	r3, r4
	str	r3, [sp, #76]                   @ 4-byte Spill
	ldr	r3, [sp, #60]                   @ 4-byte Reload
	ldr.w	r10, [r0, #40]
	eors	r7, r3
	ldr	r3, [sp, #72]                   @ 4-byte Reload
	str	r0, [sp, #108]                  @ 4-byte Spill
	eor.w	r4, r7, r3
	ldr	r3, [sp, #56]                   @ 4-byte Reload
	ldr	r7, [r0, #48]
	eor.w	r6, r10, r3
	ldr	r3, [sp, #64]                   @ 4-byte Reload
	eors	r6, r3
	ldr	r3, [sp, #40]                   @ 4-byte Reload
	eor.w	r10, r6, r8
	eors	r7, r3
	ldr	r3, [sp, #92]                   @ 4-byte Reload
	ldr	r6, [r0, #56]
	eors	r7, r3
	ldr	r3, [sp, #36]                   @ 4-byte Reload
	eors	r7, r2
	eor.w	r8, r7, lr
	eor.w	r7, r6, r3
	eor.w	r7, r7, r11
	ldr	r6, [r0, #60]
	eor.w	r3, r7, r12
	ldr	r7, [sp, #32]                   @ 4-byte Reload
	eor.w	lr, r4, r2
	eors	r7, r6
	eor.w	r7, r7, r9
	ldr	r6, [r0, #52]
	eors	r7, r1
	ldr	r1, [sp, #68]                   @ 4-byte Reload
	eor.w	r4, lr, r7
	eors	r1, r6
	ldr	r6, [sp, #96]                   @ 4-byte Reload
	eor.w	r9, r8, r7
	eors	r1, r6
	eors	r1, r5
	ldr	r5, [r0, #44]
	ldr	r0, [sp, #76]                   @ 4-byte Reload
	eor.w	r11, r1, r3
	eor.w	r6, r0, r2
	ldr	r0, [sp, #88]                   @ 4-byte Reload
	str	r4, [sp, #36]                   @ 4-byte Spill
	eor.w	r1, r5, r0
	ldr	r0, [sp, #84]                   @ 4-byte Reload
	str.w	r9, [sp, #88]                   @ 4-byte Spill
	eors	r1, r0
	ldr	r0, [sp, #100]                  @ 4-byte Reload
	eors	r1, r2
	eor.w	r2, r8, r10
	eors	r1, r0
	eor.w	r0, r4, r2
	eors	r1, r0
	eor.w	r5, r1, r3
	eor.w	r12, r1, r10
	str	r0, [sp, #100]                  @ 4-byte Spill
	eor.w	r0, r5, r9
	eor.w	r3, r12, r11
	mov	r4, r2
	str	r0, [sp, #96]                   @ 4-byte Spill
	and.w	r9, r9, r0
	eors	r0, r3
	str	r2, [sp, #76]                   @ 4-byte Spill
	eor.w	r2, r7, r10
	and.w	r1, r0, r4
	str.w	r8, [sp, #56]                   @ 4-byte Spill
	eor.w	r8, r1, r9
	and.w	r1, r3, r2
	eor.w	r10, r1, r9
	eor.w	r9, r11, r6
	mov	r4, r3
	str	r3, [sp, #72]                   @ 4-byte Spill
	eor.w	r3, r9, lr
	str	r0, [sp, #84]                   @ 4-byte Spill
	eor.w	r1, r12, r6
	eor.w	r0, r3, r2
	mov	lr, r6
	str	r0, [sp, #64]                   @ 4-byte Spill
	and.w	r6, r1, r0
	ldr	r0, [sp, #56]                   @ 4-byte Reload
	eors	r5, r6
	eor.w	r0, r0, r9
	str	r0, [sp, #56]                   @ 4-byte Spill
	and.w	r6, r0, lr
	ldr	r0, [sp, #100]                  @ 4-byte Reload
	eors	r6, r2
	str	r1, [sp, #60]                   @ 4-byte Spill
	eor.w	r1, r6, r4
	and.w	r6, r12, r0
	eor.w	r4, r1, r6
	ldr	r1, [sp, #96]                   @ 4-byte Reload
	eors	r6, r5
	eor.w	r5, r1, r11
	ldr.w	r11, [sp, #36]                  @ 4-byte Reload
	str	r2, [sp, #92]                   @ 4-byte Spill
	eor.w	r2, r6, r8
	and.w	r6, r3, r9
	eors	r6, r5
	and.w	r0, r5, r11
	eors	r6, r0
	eor.w	r6, r6, r11
	str.w	r12, [sp, #68]                  @ 4-byte Spill
	str	r3, [sp, #40]                   @ 4-byte Spill
	eor.w	r12, r6, r8
	eor.w	r6, r9, r7
	eor.w	r3, r1, lr
	and.w	r8, r3, r6
	str	r6, [sp, #48]                   @ 4-byte Spill
	eor.w	r6, r5, r8
	eors	r0, r6
	eors	r0, r7
	str	r3, [sp, #52]                   @ 4-byte Spill
	eor.w	r7, r4, r10
	eor.w	r3, r0, r10
	and.w	r0, r12, r2
	eor.w	r6, r0, r7
	eor.w	r4, r3, r12
	ands	r6, r4
	eors	r2, r7
	eor.w	r4, r0, r3
	and.w	r1, r4, r2
	eors	r7, r1
	eor.w	r1, r6, r0
	ands	r1, r3
	eor.w	r0, r6, r3
	eor.w	r3, r1, r4
	ands	r3, r7
	eors	r2, r3
	eor.w	r12, r12, r1
	eor.w	r1, r2, r7
	ands	r5, r1
	and.w	r1, r1, r11
	str	r1, [sp, #36]                   @ 4-byte Spill
	ldr	r1, [sp, #40]                   @ 4-byte Reload
	eor.w	r3, r12, r0
	ands	r1, r2
	str	r1, [sp, #40]                   @ 4-byte Spill
	ldr	r1, [sp, #60]                   @ 4-byte Reload
	str.w	lr, [sp, #44]                   @ 4-byte Spill
	and.w	lr, r3, r1
	ldr	r1, [sp, #64]                   @ 4-byte Reload
	and.w	r6, r2, r9
	and.w	r11, r3, r1
	ldr	r1, [sp, #56]                   @ 4-byte Reload
	eors	r2, r3
	ands	r1, r0
	str	r1, [sp, #64]                   @ 4-byte Spill
	ldr	r1, [sp, #44]                   @ 4-byte Reload
	eor.w	r9, r7, r0
	and.w	r3, r0, r1
	ldr	r0, [sp, #96]                   @ 4-byte Reload
	ldr	r4, [sp, #100]                  @ 4-byte Reload
	and.w	r0, r0, r9
	str	r0, [sp, #96]                   @ 4-byte Spill
	ldr	r0, [sp, #88]                   @ 4-byte Reload
	and.w	r10, r9, r0
	ldr	r0, [sp, #76]                   @ 4-byte Reload
	eor.w	r9, r9, r2
	and.w	r1, r9, r0
	ldr	r0, [sp, #84]                   @ 4-byte Reload
	eor.w	r1, r1, r10
	and.w	r9, r9, r0
	ldr	r0, [sp, #48]                   @ 4-byte Reload
	eor.w	r11, r11, r1
	and.w	r8, r7, r0
	ldr	r0, [sp, #52]                   @ 4-byte Reload
	ands	r7, r0
	ldr	r0, [sp, #68]                   @ 4-byte Reload
	and.w	r0, r0, r12
	eor.w	lr, lr, r0
	eors	r0, r3
	and.w	r12, r12, r4
	eor.w	r3, r5, r6
	eor.w	r6, r0, r7
	ldr	r4, [sp, #40]                   @ 4-byte Reload
	ldr	r7, [sp, #72]                   @ 4-byte Reload
	eors	r5, r6
	eor.w	r6, r5, r4
	and.w	r4, r2, r7
	eors	r0, r4
	ldr	r4, [sp, #36]                   @ 4-byte Reload
	eors	r1, r6
	eor.w	r6, r3, r9
	eors	r0, r4
	ldr	r7, [sp, #96]                   @ 4-byte Reload
	eors	r0, r6
	eor.w	r3, r3, lr
	eor.w	lr, r6, r7
	eor.w	r7, r0, r8
	eor.w	r9, r1, r0
	ldr	r0, [sp, #64]                   @ 4-byte Reload
	eors	r1, r4
	eor.w	r4, r11, r0
	ldr	r0, [sp, #92]                   @ 4-byte Reload
	eor.w	r12, r12, r11
	ands	r2, r0
	eor.w	r2, r2, r10
	eor.w	r2, r2, lr
	eor.w	r3, r3, r12
	eor.w	r6, r2, r7
	mov.w	r0, #252645135
	mov.w	r2, #-252645136
	eor.w	r11, r3, r5
	eor.w	r8, r4, r7
	and.w	r5, r0, r1, ror #12
	and.w	r7, r2, r1, ror #4
	add.w	r10, r5, r7
	and.w	r7, r0, r9, ror #12
	and.w	r5, r2, r9, ror #4
	adds	r4, r7, r5
	and.w	r5, r0, r8, ror #12
	and.w	r7, r2, r8, ror #4
	str	r4, [sp, #76]                   @ 4-byte Spill
	adds	r4, r5, r7
	and.w	r5, r0, r11, ror #12
	and.w	r7, r2, r11, ror #4
	str	r4, [sp, #84]                   @ 4-byte Spill
	adds	r4, r5, r7
	str	r4, [sp, #92]                   @ 4-byte Spill
	and.w	r5, r0, r3, ror #12
	and.w	r7, r2, r3, ror #4
	mov.w	r4, #-252645136
	str.w	r11, [sp, #100]                 @ 4-byte Spill
	add.w	r11, r5, r7
	and.w	r7, r0, r6, ror #12
	and.w	r5, r4, r6, ror #4
	adds	r2, r7, r5
	eor.w	r7, r12, lr
	eor.w	r12, r3, lr
	str	r2, [sp, #88]                   @ 4-byte Spill
	and.w	r5, r0, r12, ror #12
	and.w	r2, r4, r12, ror #4
	add.w	lr, r5, r2
	and.w	r2, r0, r7, ror #12
	ldr	r0, [sp, #108]                  @ 4-byte Reload
	and.w	r5, r4, r7, ror #4
	add	r5, r2
	ldr	r2, [r0, #64]
	eor.w	r1, r1, r10
	eor.w	r2, r2, r1, ror #16
	eor.w	r2, r2, r10
	ldr	r4, [sp, #76]                   @ 4-byte Reload
	str	r2, [sp, #72]                   @ 4-byte Spill
	ldr	r2, [r0, #68]
	str	r6, [sp, #96]                   @ 4-byte Spill
	eor.w	r6, r4, r9
	eor.w	r2, r2, r6, ror #16
	eors	r2, r4
	eor.w	r10, r2, r1
	ldr	r2, [sp, #84]                   @ 4-byte Reload
	ldr	r1, [r0, #72]
	eor.w	r4, r2, r8
	eor.w	r1, r1, r4, ror #16
	eors	r1, r2
	ldr	r2, [r0, #80]
	eor.w	r9, r11, r3
	ldr	r3, [r0, #88]
	eor.w	r2, r2, r9, ror #16
	eor.w	r12, r12, lr
	eor.w	r8, r2, r11
	eor.w	r3, r3, r12, ror #16
	ldr	r2, [r0, #92]
	eor.w	lr, lr, r3
	eor.w	r3, r5, r7
	eor.w	r2, r2, r3, ror #16
	eors	r1, r6
	mov	r6, r0
	eors	r2, r5
	ldr	r7, [sp, #88]                   @ 4-byte Reload
	ldr	r0, [sp, #96]                   @ 4-byte Reload
	eor.w	r11, r2, r12
	ldr	r2, [r6, #84]
	eors	r0, r7
	eor.w	lr, lr, r0
	eor.w	r0, r2, r0, ror #16
	eors	r0, r7
	ldr	r5, [sp, #92]                   @ 4-byte Reload
	ldr	r2, [sp, #100]                  @ 4-byte Reload
	ldr	r7, [sp, #72]                   @ 4-byte Reload
	eor.w	r0, r0, r9
	ldr.w	r9, [r6, #76]
	eors	r2, r5
	eors	r7, r3
	str	r7, [sp, #96]                   @ 4-byte Spill
	eor.w	r6, r10, r3
	eor.w	r7, r8, r3
	eor.w	r10, r0, lr
	eor.w	r0, r9, r2, ror #16
	eor.w	r8, r7, r2
	eors	r0, r4
	eor.w	r2, r6, r11
	eors	r0, r3
	eor.w	r9, r8, r1
	str	r2, [sp, #44]                   @ 4-byte Spill
	eors	r0, r5
	eor.w	r2, r2, r9
	eors	r0, r2
	eor.w	r12, r8, r11
	eor.w	r5, r0, lr
	eor.w	r4, r0, r1
	eor.w	r3, r11, r1
	eor.w	r0, r5, r12
	strd	r12, r3, [sp, #88]              @ 8-byte Folded Spill
	and.w	lr, r0, r12
	eor.w	r12, r4, r10
	str	r0, [sp, #36]                   @ 4-byte Spill
	eor.w	r0, r0, r12
	and.w	r1, r0, r9
	ldr	r7, [sp, #96]                   @ 4-byte Reload
	str.w	r9, [sp, #76]                   @ 4-byte Spill
	eor.w	r9, r1, lr
	and.w	r1, r12, r3
	str	r0, [sp, #84]                   @ 4-byte Spill
	eor.w	r0, r1, lr
	eor.w	lr, r10, r7
	str	r2, [sp, #100]                  @ 4-byte Spill
	eor.w	r2, lr, r6
	str	r0, [sp, #40]                   @ 4-byte Spill
	eor.w	r1, r4, r7
	eor.w	r0, r2, r3
	str	r0, [sp, #64]                   @ 4-byte Spill
	and.w	r6, r1, r0
	eor.w	r0, lr, r8
	eors	r5, r6
	str	r0, [sp, #56]                   @ 4-byte Spill
	mov	r6, r7
	ands	r7, r0
	ldr	r0, [sp, #100]                  @ 4-byte Reload
	eors	r7, r3
	ldr	r3, [sp, #36]                   @ 4-byte Reload
	eor.w	r7, r7, r12
	ands	r0, r4
	str.w	r12, [sp, #72]                  @ 4-byte Spill
	eor.w	r12, r7, r0
	eors	r0, r5
	eor.w	r5, r3, r10
	ldr.w	r10, [sp, #44]                  @ 4-byte Reload
	and.w	r7, r2, lr
	eor.w	r8, r0, r9
	eors	r7, r5
	and.w	r0, r5, r10
	eors	r7, r0
	eor.w	r7, r7, r10
	str	r4, [sp, #68]                   @ 4-byte Spill
	str	r1, [sp, #60]                   @ 4-byte Spill
	mov	r1, r2
	eor.w	r2, r7, r9
	eor.w	r4, lr, r11
	eor.w	r7, r3, r6
	and.w	r6, r7, r4
	eors	r6, r5
	mov	r9, r3
	eors	r0, r6
	ldr	r3, [sp, #40]                   @ 4-byte Reload
	eor.w	r0, r0, r11
	str	r4, [sp, #48]                   @ 4-byte Spill
	eor.w	r4, r12, r3
	eor.w	r6, r0, r3
	and.w	r0, r2, r8
	str	r7, [sp, #52]                   @ 4-byte Spill
	eor.w	r12, r0, r4
	eor.w	r7, r6, r2
	and.w	r7, r7, r12
	eor.w	r12, r8, r4
	eor.w	r8, r0, r6
	and.w	r3, r8, r12
	eor.w	r11, r3, r4
	eor.w	r3, r7, r0
	ands	r3, r6
	eor.w	r4, r3, r8
	and.w	r4, r4, r11
	eor.w	r0, r7, r6
	eor.w	r7, r4, r12
	eors	r2, r3
	eor.w	r3, r7, r11
	ands	r5, r3
	and.w	r8, r3, r10
	and.w	r3, r7, lr
	str	r3, [sp, #40]                   @ 4-byte Spill
	ldr	r3, [sp, #60]                   @ 4-byte Reload
	ands	r1, r7
	eor.w	r6, r2, r0
	str	r1, [sp, #44]                   @ 4-byte Spill
	eor.w	r1, r7, r6
	and.w	r7, r6, r3
	ldr	r3, [sp, #64]                   @ 4-byte Reload
	ldr	r4, [sp, #84]                   @ 4-byte Reload
	and.w	lr, r6, r3
	ldr	r3, [sp, #56]                   @ 4-byte Reload
	ldr	r6, [sp, #88]                   @ 4-byte Reload
	ands	r3, r0
	str	r3, [sp, #64]                   @ 4-byte Spill
	ldr	r3, [sp, #96]                   @ 4-byte Reload
	ands	r3, r0
	eor.w	r0, r0, r11
	and.w	r10, r0, r6
	ldr	r6, [sp, #76]                   @ 4-byte Reload
	and.w	r9, r9, r0
	eors	r0, r1
	ands	r6, r0
	and.w	r12, r0, r4
	ldr	r0, [sp, #48]                   @ 4-byte Reload
	ldr	r4, [sp, #100]                  @ 4-byte Reload
	and.w	r0, r0, r11
	str	r0, [sp, #96]                   @ 4-byte Spill
	ldr	r0, [sp, #52]                   @ 4-byte Reload
	and.w	r11, r11, r0
	ldr	r0, [sp, #68]                   @ 4-byte Reload
	ands	r0, r2
	ands	r2, r4
	str	r2, [sp, #88]                   @ 4-byte Spill
	eor.w	r2, r7, r0
	eors	r0, r3
	ldr	r3, [sp, #40]                   @ 4-byte Reload
	eor.w	r7, r5, r3
	eors	r2, r7
	eor.w	r3, r0, r11
	str	r2, [sp, #100]                  @ 4-byte Spill
	ldr	r2, [sp, #72]                   @ 4-byte Reload
	eor.w	r4, r3, r5
	eor.w	r5, r6, r10
	ldr	r6, [sp, #44]                   @ 4-byte Reload
	ands	r2, r1
	eors	r6, r4
	eors	r0, r2
	eor.w	r3, r5, lr
	eors	r6, r5
	eor.w	r5, r7, r12
	eor.w	r0, r0, r8
	eors	r0, r5
	eor.w	r7, r5, r9
	ldr	r5, [sp, #96]                   @ 4-byte Reload
	mov	r2, r8
	eors	r5, r0
	eor.w	r8, r6, r0
	ldr	r0, [sp, #88]                   @ 4-byte Reload
	eor.w	r9, r6, r2
	eor.w	r11, r3, r0
	ldr	r0, [sp, #64]                   @ 4-byte Reload
	mov.w	r6, #50529027
	eors	r3, r0
	ldr	r0, [sp, #92]                   @ 4-byte Reload
	eor.w	lr, r3, r5
	ands	r1, r0
	eor.w	r1, r1, r10
	eors	r1, r7
	eor.w	r0, r1, r5
	str	r0, [sp, #84]                   @ 4-byte Spill
	mov.w	r0, #-50529028
	and.w	r1, r6, r9, ror #14
	and.w	r3, r0, r9, ror #6
	add.w	r12, r1, r3
	and.w	r1, r6, r8, ror #14
	and.w	r3, r0, r8, ror #6
	add	r1, r3
	str	r1, [sp, #92]                   @ 4-byte Spill
	and.w	r1, r6, lr, ror #14
	and.w	r3, r0, lr, ror #6
	add	r1, r3
	str	r1, [sp, #96]                   @ 4-byte Spill
	ldr	r1, [sp, #100]                  @ 4-byte Reload
	str.w	r12, [sp, #64]                  @ 4-byte Spill
	eor.w	r5, r1, r11
	eor.w	r1, r5, r4
	and.w	r3, r6, r1, ror #14
	and.w	r2, r0, r1, ror #6
	add.w	r10, r3, r2
	and.w	r2, r6, r5, ror #14
	and.w	r3, r0, r5, ror #6
	add	r2, r3
	ldr	r3, [sp, #84]                   @ 4-byte Reload
	str	r2, [sp, #88]                   @ 4-byte Spill
	and.w	r2, r6, r3, ror #14
	and.w	r3, r0, r3, ror #6
	add	r2, r3
	eor.w	r3, r11, r7
	eors	r7, r5
	str	r2, [sp, #100]                  @ 4-byte Spill
	and.w	r2, r6, r7, ror #14
	and.w	r4, r0, r7, ror #6
	add	r2, r4
	str	r2, [sp, #40]                   @ 4-byte Spill
	and.w	r2, r6, r3, ror #14
	and.w	r0, r0, r3, ror #6
	add	r0, r2
	str	r0, [sp, #48]                   @ 4-byte Spill
	eor.w	r11, r12, r9
	mov.w	r0, #252645135
	mov.w	r9, #-252645136
	and.w	r4, r0, r11, ror #20
	and.w	r2, r9, r11, ror #12
	add	r2, r4
	str	r2, [sp, #56]                   @ 4-byte Spill
	ldr	r2, [sp, #92]                   @ 4-byte Reload
	eor.w	r1, r1, r10
	eor.w	r2, r2, r8
	and.w	r4, r0, r2, ror #20
	and.w	r6, r9, r2, ror #12
	add	r6, r4
	str	r6, [sp, #52]                   @ 4-byte Spill
	ldr	r6, [sp, #96]                   @ 4-byte Reload
	str.w	r10, [sp, #76]                  @ 4-byte Spill
	eor.w	r6, r6, lr
	and.w	r12, r0, r6, ror #20
	and.w	r4, r9, r6, ror #12
	str	r6, [sp, #68]                   @ 4-byte Spill
	add.w	r6, r12, r4
	str	r6, [sp, #60]                   @ 4-byte Spill
	and.w	r6, r0, r1, ror #20
	and.w	r4, r9, r1, ror #12
	add	r6, r4
	str	r6, [sp, #72]                   @ 4-byte Spill
	ldr	r6, [sp, #88]                   @ 4-byte Reload
	ldr.w	r10, [sp, #40]                  @ 4-byte Reload
	eor.w	r4, r6, r5
	and.w	r6, r0, r4, ror #20
	and.w	r5, r9, r4, ror #12
	add	r6, r5
	str	r6, [sp, #44]                   @ 4-byte Spill
	ldr	r6, [sp, #100]                  @ 4-byte Reload
	ldr	r5, [sp, #84]                   @ 4-byte Reload
	mov.w	r8, #-252645136
	eors	r5, r6
	and.w	r12, r0, r5, ror #20
	and.w	r6, r9, r5, ror #12
	add	r6, r12
	eor.w	r12, r10, r7
	str	r6, [sp, #84]                   @ 4-byte Spill
	and.w	r6, r9, r12, ror #12
	ldr.w	r9, [sp, #48]                   @ 4-byte Reload
	and.w	r7, r0, r12, ror #20
	eor.w	r3, r3, r9
	add	r7, r6
	and.w	lr, r0, r3, ror #20
	and.w	r6, r8, r3, ror #12
	ldr	r0, [sp, #108]                  @ 4-byte Reload
	str	r7, [sp, #36]                   @ 4-byte Spill
	add.w	r7, lr, r6
	ldr.w	r8, [r0, #96]
	str	r7, [sp, #32]                   @ 4-byte Spill
	ldr	r7, [sp, #56]                   @ 4-byte Reload
	eor.w	r6, r8, r7
	ldr	r7, [sp, #64]                   @ 4-byte Reload
	ldr.w	r8, [r0, #100]
	eors	r7, r6
	str	r7, [sp, #64]                   @ 4-byte Spill
	ldr	r7, [sp, #52]                   @ 4-byte Reload
	ldr	r6, [sp, #92]                   @ 4-byte Reload
	eor.w	r7, r7, r8
	eors	r7, r6
	ldr.w	r8, [r0, #104]
	ldr	r6, [sp, #60]                   @ 4-byte Reload
	eor.w	lr, r7, r11
	eor.w	r7, r8, r6
	ldr	r6, [sp, #96]                   @ 4-byte Reload
	ldr.w	r8, [r0, #112]
	eors	r7, r6
	ldr	r6, [sp, #44]                   @ 4-byte Reload
	eors	r2, r7
	eor.w	r7, r8, r6
	ldr	r6, [sp, #88]                   @ 4-byte Reload
	ldr.w	r11, [r0, #120]
	eors	r7, r6
	eors	r7, r3
	eor.w	r8, r7, r1
	ldr	r1, [sp, #36]                   @ 4-byte Reload
	ldr	r7, [r0, #124]
	eor.w	r1, r1, r11
	eor.w	r1, r1, r10
	eors	r5, r1
	ldr	r1, [sp, #32]                   @ 4-byte Reload
	eor.w	r11, lr, r3
	eors	r1, r7
	eor.w	r1, r1, r9
	ldr	r7, [r0, #116]
	ldr.w	r9, [r0, #108]
	ldr	r0, [sp, #64]                   @ 4-byte Reload
	eor.w	r10, r1, r12
	ldr	r1, [sp, #84]                   @ 4-byte Reload
	eors	r0, r3
	str	r0, [sp, #92]                   @ 4-byte Spill
	ldr	r0, [sp, #100]                  @ 4-byte Reload
	eors	r7, r1
	eors	r0, r7
	eors	r0, r4
	eor.w	r12, r0, r5
	ldr	r0, [sp, #72]                   @ 4-byte Reload
	ldr	r1, [sp, #68]                   @ 4-byte Reload
	eor.w	r0, r0, r9
	eors	r0, r1
	ldr	r1, [sp, #76]                   @ 4-byte Reload
	eor.w	r6, r11, r10
	eor.w	r9, r8, r2
	eors	r0, r3
	str	r6, [sp, #40]                   @ 4-byte Spill
	eor.w	r6, r6, r9
	eors	r0, r1
	eors	r0, r6
	eor.w	r4, r8, r10
	eor.w	lr, r0, r2
	eors	r5, r0
	str	r6, [sp, #100]                  @ 4-byte Spill
	eor.w	r6, r10, r2
	eor.w	r1, r5, r4
	eor.w	r3, lr, r12
	strd	r4, r6, [sp, #84]               @ 8-byte Folded Spill
	and.w	r0, r1, r4
	eor.w	r2, r1, r3
	ldr	r4, [sp, #92]                   @ 4-byte Reload
	str	r2, [sp, #76]                   @ 4-byte Spill
	and.w	r2, r2, r9
	str.w	r9, [sp, #72]                   @ 4-byte Spill
	str.w	r12, [sp, #48]                  @ 4-byte Spill
	eor.w	r9, r2, r0
	and.w	r2, r3, r6
	eor.w	r12, r12, r4
	eors	r0, r2
	eor.w	r2, r12, r11
	str	r1, [sp, #96]                   @ 4-byte Spill
	str	r0, [sp, #36]                   @ 4-byte Spill
	eor.w	r1, lr, r4
	eor.w	r0, r2, r6
	mov	r11, r4
	str	r0, [sp, #60]                   @ 4-byte Spill
	and.w	r4, r1, r0
	eor.w	r0, r12, r8
	eors	r4, r5
	str	r0, [sp, #52]                   @ 4-byte Spill
	and.w	r5, r0, r11
	ldr	r0, [sp, #100]                  @ 4-byte Reload
	eors	r5, r6
	str	r1, [sp, #56]                   @ 4-byte Spill
	eor.w	r8, r5, r3
	and.w	r5, lr, r0
	ldr	r0, [sp, #96]                   @ 4-byte Reload
	ldr	r1, [sp, #48]                   @ 4-byte Reload
	eor.w	r6, r8, r5
	ldr.w	r8, [sp, #40]                   @ 4-byte Reload
	eors	r4, r5
	eor.w	r5, r0, r1
	and.w	r7, r2, r12
	str.w	lr, [sp, #64]                   @ 4-byte Spill
	eor.w	lr, r4, r9
	eors	r7, r5
	and.w	r4, r5, r8
	eors	r7, r4
	str	r3, [sp, #68]                   @ 4-byte Spill
	eor.w	r7, r7, r8
	eor.w	r3, r12, r10
	eor.w	r0, r0, r11
	eor.w	r9, r9, r7
	and.w	r7, r0, r3
	eors	r7, r5
	str	r0, [sp, #48]                   @ 4-byte Spill
	eors	r4, r7
	ldr	r0, [sp, #36]                   @ 4-byte Reload
	eor.w	r1, r4, r10
	eor.w	r7, r6, r0
	eor.w	r4, r1, r0
	and.w	r0, r9, lr
	eor.w	r1, r0, r7
	eor.w	r6, r4, r9
	ands	r6, r1
	eor.w	lr, lr, r7
	eor.w	r1, r0, r4
	and.w	r11, r1, lr
	eor.w	r7, r7, r11
	eor.w	r11, r6, r0
	eor.w	r0, r6, r4
	and.w	r4, r4, r11
	eors	r1, r4
	ands	r1, r7
	eor.w	r1, r1, lr
	eor.w	r6, r1, r7
	str	r3, [sp, #44]                   @ 4-byte Spill
	eor.w	r3, r4, r9
	and.w	r10, r6, r5
	and.w	r6, r6, r8
	str	r6, [sp, #40]                   @ 4-byte Spill
	eor.w	r6, r3, r0
	and.w	r11, r1, r12
	ands	r2, r1
	eor.w	r4, r1, r6
	ldr	r1, [sp, #56]                   @ 4-byte Reload
	str	r2, [sp, #36]                   @ 4-byte Spill
	and.w	lr, r6, r1
	ldr	r1, [sp, #60]                   @ 4-byte Reload
	ldr	r2, [sp, #76]                   @ 4-byte Reload
	and.w	r9, r6, r1
	ldr	r1, [sp, #52]                   @ 4-byte Reload
	ldr	r5, [sp, #100]                  @ 4-byte Reload
	and.w	r12, r0, r1
	ldr	r1, [sp, #92]                   @ 4-byte Reload
	and.w	r6, r0, r1
	ldr	r1, [sp, #96]                   @ 4-byte Reload
	eors	r0, r7
	ands	r1, r0
	str	r1, [sp, #96]                   @ 4-byte Spill
	ldr	r1, [sp, #84]                   @ 4-byte Reload
	and.w	r8, r0, r1
	ldr	r1, [sp, #72]                   @ 4-byte Reload
	eors	r0, r4
	ands	r1, r0
	ands	r2, r0
	ldr	r0, [sp, #44]                   @ 4-byte Reload
	eor.w	r1, r1, r8
	ands	r0, r7
	str	r0, [sp, #92]                   @ 4-byte Spill
	ldr	r0, [sp, #48]                   @ 4-byte Reload
	ands	r7, r0
	ldr	r0, [sp, #64]                   @ 4-byte Reload
	ands	r0, r3
	ands	r3, r5
	eor.w	lr, lr, r0
	eors	r0, r6
	str	r3, [sp, #100]                  @ 4-byte Spill
	eors	r7, r0
	ldr	r3, [sp, #36]                   @ 4-byte Reload
	eor.w	r5, r7, r10
	eors	r3, r5
	eor.w	r7, r1, r9
	eors	r1, r3
	ldr	r3, [sp, #68]                   @ 4-byte Reload
	eor.w	r6, r10, r11
	eors	r2, r6
	eor.w	lr, lr, r6
	and.w	r6, r4, r3
	ldr	r3, [sp, #40]                   @ 4-byte Reload
	eors	r0, r6
	ldr	r6, [sp, #96]                   @ 4-byte Reload
	eors	r0, r3
	eors	r0, r2
	eors	r6, r2
	ldr	r2, [sp, #92]                   @ 4-byte Reload
	eor.w	r11, r1, r0
	eors	r2, r0
	ldr	r0, [sp, #100]                  @ 4-byte Reload
	eor.w	r10, r1, r3
	eor.w	r3, r7, r0
	eor.w	r1, lr, r3
	eor.w	lr, r1, r5
	ldr	r5, [sp, #88]                   @ 4-byte Reload
	eor.w	r0, r7, r12
	ands	r4, r5
	eor.w	r5, r0, r2
	eor.w	r0, r4, r8
	eors	r0, r6
	eor.w	r8, r0, r2
	ldr	r0, [sp, #108]                  @ 4-byte Reload
	eor.w	r7, r3, r6
	ldrd	r2, r4, [r0, #128]
	eor.w	r3, r10, r10, ror #8
	eor.w	r2, r2, r3, ror #16
	eor.w	r9, r1, r6
	eor.w	r2, r2, r10, ror #8
	ldr.w	r6, [r0, #136]
	str	r2, [sp, #96]                   @ 4-byte Spill
	eor.w	r2, r5, r5, ror #8
	eor.w	r12, r11, r11, ror #8
	eor.w	r6, r6, r2, ror #16
	eor.w	r4, r4, r12, ror #16
	eor.w	r5, r6, r5, ror #8
	ldr.w	r6, [r0, #140]
	eor.w	r4, r4, r11, ror #8
	eor.w	r11, lr, lr, ror #8
	eors	r3, r4
	eor.w	r4, r5, r12
	eor.w	r5, r6, r11, ror #16
	eors	r2, r5
	ldr.w	r5, [r0, #144]
	str	r3, [sp, #92]                   @ 4-byte Spill
	eor.w	r3, r7, r7, ror #8
	eor.w	r6, r1, r1, ror #8
	eors	r2, r3
	eor.w	r5, r5, r6, ror #16
	eor.w	r2, r2, lr, ror #8
	eor.w	r1, r5, r1, ror #8
	ldr.w	r5, [r0, #148]
	str	r2, [sp, #100]                  @ 4-byte Spill
	eors	r1, r3
	eor.w	r2, r8, r8, ror #8
	eor.w	r12, r1, r11
	eor.w	r1, r5, r2, ror #16
	str	r7, [sp, #88]                   @ 4-byte Spill
	eor.w	r1, r1, r8, ror #8
	ldr.w	r7, [r0, #152]
	eor.w	r11, r1, r6
	eor.w	r6, r9, r9, ror #8
	eor.w	r7, r7, r6, ror #16
	eor.w	r7, r7, r9, ror #8
	eor.w	r9, r7, r2
	ldr.w	r7, [r0, #156]
	ldr	r0, [sp, #96]                   @ 4-byte Reload
	ldr.w	r10, [sp, #24]                  @ 4-byte Reload
	eor.w	lr, r0, r3
	ldr	r0, [sp, #92]                   @ 4-byte Reload
	ldr	r5, [sp, #80]                   @ 4-byte Reload
	eor.w	r1, r0, r3
	eor.w	r3, r7, r3, ror #16
	ldr	r7, [sp, #104]                  @ 4-byte Reload
	ldr	r0, [sp, #88]                   @ 4-byte Reload
	adds	r7, #1
	adc	r5, r5, #0
	str	r7, [sp, #104]                  @ 4-byte Spill
	subs.w	r7, r7, r10
	ldr	r7, [sp, #20]                   @ 4-byte Reload
	eor.w	r3, r3, r0, ror #8
	ldr	r2, [sp, #100]                  @ 4-byte Reload
	sbcs.w	r7, r5, r7
	eor.w	r10, r3, r6
	blo.w	.Lgcm_v7m_BB14_2
	b	.Lgcm_v7m_BB14_4
	.p2align	2
.Lgcm_v7m_BB14_3:
	ldr	r1, [sp, #108]                  @ 4-byte Reload
	ldrd	lr, r2, [sp, #96]               @ 8-byte Folded Reload
.Lgcm_v7m_BB14_4:                               @ %after.3.i
	strd	r12, lr, [sp, #92]              @ 8-byte Folded Spill
	eor.w	r0, r10, r1
	eor.w	lr, r12, r4
	str	r0, [sp, #52]                   @ 4-byte Spill
	eor.w	r0, r0, lr
	eors	r2, r0
	eor.w	r11, r11, r9
	eor.w	r6, r10, r12
	eor.w	r8, r2, r4
	eor.w	r12, r2, r9
	str	r0, [sp, #108]                  @ 4-byte Spill
	eor.w	r0, r12, r6
	eor.w	r7, r8, r11
	eor.w	r2, r0, r7
	str	r2, [sp, #84]                   @ 4-byte Spill
	and.w	r3, r2, lr
	ldr	r2, [sp, #96]                   @ 4-byte Reload
	eor.w	r4, r4, r10
	and.w	r9, r0, r6
	str.w	lr, [sp, #80]                   @ 4-byte Spill
	str	r6, [sp, #88]                   @ 4-byte Spill
	eor.w	r6, r3, r9
	and.w	r3, r7, r4
	eor.w	lr, r11, r2
	eor.w	r9, r9, r3
	eor.w	r3, lr, r1
	str	r0, [sp, #104]                  @ 4-byte Spill
	eor.w	r1, r8, r2
	eor.w	r0, r3, r4
	str	r1, [sp, #64]                   @ 4-byte Spill
	and.w	r5, r1, r0
	ldr	r1, [sp, #92]                   @ 4-byte Reload
	str	r0, [sp, #68]                   @ 4-byte Spill
	eor.w	r1, r1, lr
	eor.w	r0, r12, r5
	str	r1, [sp, #92]                   @ 4-byte Spill
	and.w	r5, r1, r2
	ldr	r1, [sp, #108]                  @ 4-byte Reload
	eors	r5, r4
	eors	r5, r7
	and.w	r1, r1, r8
	mov	r12, r2
	eor.w	r2, r5, r1
	ldr	r5, [sp, #104]                  @ 4-byte Reload
	str.w	r8, [sp, #72]                   @ 4-byte Spill
	ldr.w	r8, [sp, #52]                   @ 4-byte Reload
	str	r7, [sp, #76]                   @ 4-byte Spill
	str	r2, [sp, #48]                   @ 4-byte Spill
	eor.w	r2, r5, r11
	and.w	r7, r3, lr
	eors	r1, r0
	eors	r7, r2
	and.w	r0, r2, r8
	eors	r7, r0
	eor.w	r7, r7, r8
	str	r4, [sp, #100]                  @ 4-byte Spill
	eors	r1, r6
	mov	r11, r3
	eor.w	r4, r7, r6
	eor.w	r6, lr, r10
	eor.w	r3, r5, r12
	and.w	r7, r3, r6
	eors	r7, r2
	str	r3, [sp, #60]                   @ 4-byte Spill
	eors	r0, r7
	ldr	r3, [sp, #48]                   @ 4-byte Reload
	eor.w	r0, r0, r10
	eor.w	r7, r3, r9
	eor.w	r5, r0, r9
	and.w	r0, r4, r1
	str	r6, [sp, #56]                   @ 4-byte Spill
	eor.w	r12, r0, r7
	eor.w	r6, r5, r4
	and.w	r6, r6, r12
	eor.w	r12, r1, r7
	eor.w	r1, r0, r5
	and.w	r3, r1, r12
	eors	r7, r3
	eor.w	r3, r6, r0
	ands	r3, r5
	eors	r1, r3
	ands	r1, r7
	eor.w	r0, r6, r5
	eor.w	r6, r1, r12
	eor.w	r1, r6, r7
	and.w	r5, r1, r2
	and.w	r1, r1, r8
	str	r1, [sp, #52]                   @ 4-byte Spill
	and.w	r1, r6, lr
	eors	r4, r3
	str	r1, [sp, #44]                   @ 4-byte Spill
	and.w	r1, r6, r11
	ldr	r3, [sp, #64]                   @ 4-byte Reload
	str	r1, [sp, #48]                   @ 4-byte Spill
	eor.w	r1, r4, r0
	and.w	lr, r1, r3
	ldr	r3, [sp, #68]                   @ 4-byte Reload
	eor.w	r2, r6, r1
	and.w	r11, r1, r3
	ldr	r1, [sp, #92]                   @ 4-byte Reload
	ldr	r3, [sp, #104]                  @ 4-byte Reload
	ands	r1, r0
	str	r1, [sp, #92]                   @ 4-byte Spill
	ldr	r1, [sp, #96]                   @ 4-byte Reload
	ldr	r6, [sp, #84]                   @ 4-byte Reload
	ands	r1, r0
	eors	r0, r7
	ands	r3, r0
	str	r3, [sp, #104]                  @ 4-byte Spill
	ldr	r3, [sp, #88]                   @ 4-byte Reload
	and.w	r8, r0, r3
	ldr	r3, [sp, #80]                   @ 4-byte Reload
	eors	r0, r2
	ands	r3, r0
	and.w	r12, r0, r6
	ldr	r0, [sp, #56]                   @ 4-byte Reload
	ldr	r6, [sp, #108]                  @ 4-byte Reload
	ands	r0, r7
	str	r0, [sp, #96]                   @ 4-byte Spill
	ldr	r0, [sp, #60]                   @ 4-byte Reload
	and.w	r10, r4, r6
	ands	r7, r0
	ldr	r0, [sp, #72]                   @ 4-byte Reload
	ldr	r6, [sp, #48]                   @ 4-byte Reload
	ands	r0, r4
	eor.w	r9, lr, r0
	eors	r0, r1
	ldr	r1, [sp, #44]                   @ 4-byte Reload
	eors	r7, r0
	eor.w	r4, r7, r5
	eors	r1, r5
	eor.w	r3, r3, r8
	eor.w	r5, r4, r6
	eor.w	r7, r3, r11
	eors	r5, r3
	eor.w	r3, r1, r12
	eor.w	r12, r9, r1
	ldr	r1, [sp, #76]                   @ 4-byte Reload
	ldr	r6, [sp, #52]                   @ 4-byte Reload
	ands	r1, r2
	eors	r0, r1
	ldr	r1, [sp, #104]                  @ 4-byte Reload
	eors	r0, r6
	eor.w	lr, r3, r1
	ldr	r1, [sp, #96]                   @ 4-byte Reload
	eors	r0, r3
	eors	r1, r0
	eor.w	r3, r5, r0
	ldr	r0, [sp, #92]                   @ 4-byte Reload
	eor.w	r9, r7, r10
	eors	r0, r7
	ldr	r7, [sp, #100]                  @ 4-byte Reload
	eor.w	r10, r0, r1
	ands	r2, r7
	eor.w	r0, r2, r8
	eor.w	r0, r0, lr
	eors	r5, r6
	eor.w	r8, r0, r1
	mov.w	r6, #1061109567
	mov.w	r1, #-1061109568
	and.w	r0, r6, r5, ror #10
	and.w	r2, r1, r5, ror #2
	add	r0, r2
	str	r0, [sp, #104]                  @ 4-byte Spill
	and.w	r0, r6, r3, ror #10
	and.w	r2, r1, r3, ror #2
	add	r0, r2
	str	r0, [sp, #108]                  @ 4-byte Spill
	ldr	r0, [sp, #8]                    @ 4-byte Reload
	ldr	r2, [sp, #16]                   @ 4-byte Reload
	bic	r0, r0, #3
	str	r0, [sp, #84]                   @ 4-byte Spill
	adds	r0, #2
	str	r3, [sp, #88]                   @ 4-byte Spill
	subs	r0, r0, r2
	ldr	r3, [sp, #12]                   @ 4-byte Reload
	ldr	r7, [sp]                        @ 4-byte Reload
	eor.w	r0, r12, r9
	eor.w	r12, r0, r4
	sbcs.w	r4, r7, r3
	and.w	r4, r6, r10, ror #10
	and.w	r3, r1, r10, ror #2
	str.w	r10, [sp, #60]                  @ 4-byte Spill
	add.w	r10, r4, r3
	and.w	r3, r6, r12, ror #10
	and.w	r4, r1, r12, ror #2
	add.w	r2, r3, r4
	and.w	r3, r6, r0, ror #10
	and.w	r4, r1, r0, ror #2
	str	r2, [sp, #96]                   @ 4-byte Spill
	add.w	r2, r3, r4
	and.w	r3, r6, r8, ror #10
	and.w	r4, r1, r8, ror #2
	str.w	r8, [sp, #72]                   @ 4-byte Spill
	add.w	r8, r3, r4
	eor.w	r3, r9, lr
	eor.w	lr, lr, r0
	and.w	r4, r6, lr, ror #10
	and.w	r7, r1, lr, ror #2
	str	r2, [sp, #92]                   @ 4-byte Spill
	add.w	r2, r4, r7
	and.w	r7, r6, r3, ror #10
	and.w	r1, r1, r3, ror #2
	add.w	r11, r7, r1
	ldr	r1, [sp, #104]                  @ 4-byte Reload
	str	r2, [sp, #100]                  @ 4-byte Spill
	eor.w	r9, r1, r5
	mov.w	r2, #252645135
	mov.w	r1, #-252645136
	and.w	r7, r2, r9, ror #20
	and.w	r6, r1, r9, ror #12
	add.w	r4, r7, r6
	str	r4, [sp, #64]                   @ 4-byte Spill
	ldr	r4, [sp, #88]                   @ 4-byte Reload
	ldr	r5, [sp, #108]                  @ 4-byte Reload
	str.w	r10, [sp, #68]                  @ 4-byte Spill
	eor.w	r6, r5, r4
	and.w	r7, r2, r6, ror #20
	and.w	r5, r1, r6, ror #12
	add.w	r4, r7, r5
	str	r4, [sp, #56]                   @ 4-byte Spill
	ldr	r4, [sp, #60]                   @ 4-byte Reload
	str.w	r8, [sp, #76]                   @ 4-byte Spill
	eor.w	r7, r10, r4
	and.w	r4, r2, r7, ror #20
	and.w	r5, r1, r7, ror #12
	add	r4, r5
	str	r4, [sp, #52]                   @ 4-byte Spill
	ldr	r4, [sp, #96]                   @ 4-byte Reload
	str.w	r11, [sp, #80]                  @ 4-byte Spill
	eor.w	r10, r4, r12
	and.w	r5, r2, r10, ror #20
	and.w	r4, r1, r10, ror #12
	add	r5, r4
	str	r5, [sp, #48]                   @ 4-byte Spill
	ldr	r5, [sp, #92]                   @ 4-byte Reload
	eor.w	r5, r5, r0
	and.w	r0, r2, r5, ror #20
	and.w	r4, r1, r5, ror #12
	add	r0, r4
	str	r0, [sp, #60]                   @ 4-byte Spill
	ldr	r0, [sp, #72]                   @ 4-byte Reload
	eor.w	r12, r8, r0
	and.w	r8, r2, r12, ror #20
	and.w	r4, r1, r12, ror #12
	add.w	r0, r8, r4
	str	r0, [sp, #88]                   @ 4-byte Spill
	ldr	r0, [sp, #100]                  @ 4-byte Reload
	eor.w	r8, r0, lr
	and.w	r4, r2, r8, ror #20
	and.w	r0, r1, r8, ror #12
	add	r0, r4
	str	r0, [sp, #72]                   @ 4-byte Spill
	eor.w	r4, r11, r3
	ldr	r0, [sp, #28]                   @ 4-byte Reload
	ldr	r3, [sp, #84]                   @ 4-byte Reload
	and.w	lr, r2, r4, ror #20
	add.w	r3, r0, r3, lsl #5
	and.w	r0, r1, r4, ror #12
	add	r0, lr
	ldr	r1, [r3, #32]
	str	r0, [sp, #84]                   @ 4-byte Spill
	ldr	r0, [sp, #64]                   @ 4-byte Reload
	ldr	r2, [sp, #104]                  @ 4-byte Reload
	eor.w	r0, r0, r1
	ldr	r1, [r3, #36]
	eor.w	lr, r0, r2
	ldr	r0, [sp, #56]                   @ 4-byte Reload
	ldr.w	r11, [r3, #40]
	eor.w	r1, r1, r0
	ldr	r0, [sp, #108]                  @ 4-byte Reload
	eor.w	r1, r1, r0
	ldr	r0, [sp, #52]                   @ 4-byte Reload
	eor.w	r2, r1, r9
	ldr	r1, [sp, #68]                   @ 4-byte Reload
	eor.w	r0, r0, r11
	eor.w	r0, r0, r1
	ldr	r1, [r3, #44]
	eor.w	r6, r6, r0
	ldr	r0, [sp, #48]                   @ 4-byte Reload
	eor.w	r11, r2, r4
	eor.w	r0, r0, r1
	eor.w	r0, r0, r7
	ldr	r7, [sp, #96]                   @ 4-byte Reload
	eor.w	r0, r0, r4
	ldr	r1, [r3, #48]
	eor.w	r9, r0, r7
	ldr	r0, [sp, #60]                   @ 4-byte Reload
	eor.w	r7, lr, r4
	eor.w	r0, r0, r1
	ldr	r1, [sp, #92]                   @ 4-byte Reload
	eor.w	r1, r1, r0
	eor.w	r1, r1, r4
	ldr	r4, [r3, #52]
	ldr	r0, [sp, #88]                   @ 4-byte Reload
	eor.w	lr, r1, r10
	eor.w	r1, r4, r0
	ldr	r0, [sp, #76]                   @ 4-byte Reload
	ldr	r4, [r3, #56]
	eor.w	r1, r1, r0
	ldr	r0, [sp, #72]                   @ 4-byte Reload
	eor.w	r1, r1, r5
	eor.w	r5, r4, r0
	ldr	r0, [sp, #100]                  @ 4-byte Reload
	ldr	r3, [r3, #60]
	eor.w	r5, r5, r0
	ldr	r0, [sp, #84]                   @ 4-byte Reload
	eor.w	r5, r5, r12
	eor.w	r3, r3, r0
	ldr	r0, [sp, #80]                   @ 4-byte Reload
	eor.w	r3, r3, r0
	eor.w	r12, r3, r8
	bhs.w	.Lgcm_v7m_BB14_6
@ %bb.5:                                @ %then.11.i
	eor.w	r0, r11, r12
	eor.w	r2, lr, r6
	eor.w	r3, r0, r2
	eor.w	r8, r5, r1
	eor.w	r1, r3, r9
	eor.w	r9, r1, r5
	eor.w	r5, r1, r6
	eor.w	r1, lr, r12
	str	r7, [sp, #96]                   @ 4-byte Spill
	str	r0, [sp, #100]                  @ 4-byte Spill
	eor.w	r0, r9, r1
	eor.w	r7, r5, r8
	str	r1, [sp, #88]                   @ 4-byte Spill
	str	r0, [sp, #104]                  @ 4-byte Spill
	ands	r1, r0
	eors	r0, r7
	str	r3, [sp, #108]                  @ 4-byte Spill
	eor.w	r3, r12, r6
	and.w	r6, r0, r2
	eor.w	r4, r6, r1
	and.w	r6, r7, r3
	eor.w	r10, r6, r1
	ldr	r1, [sp, #96]                   @ 4-byte Reload
	str	r2, [sp, #80]                   @ 4-byte Spill
	eor.w	r6, r8, r1
	eor.w	r11, r11, r6
	str	r0, [sp, #84]                   @ 4-byte Spill
	eor.w	r2, r5, r1
	eor.w	r0, r11, r3
	str	r0, [sp, #68]                   @ 4-byte Spill
	ands	r0, r2
	eor.w	r9, r9, r0
	eor.w	r0, r6, lr
	str	r2, [sp, #64]                   @ 4-byte Spill
	str	r0, [sp, #60]                   @ 4-byte Spill
	and.w	r2, r0, r1
	ldr	r0, [sp, #108]                  @ 4-byte Reload
	eors	r2, r3
	str	r3, [sp, #92]                   @ 4-byte Spill
	str	r7, [sp, #76]                   @ 4-byte Spill
	eors	r2, r7
	and.w	r7, r5, r0
	ldr	r3, [sp, #104]                  @ 4-byte Reload
	eor.w	r0, r9, r7
	eor.w	lr, r3, r8
	eor.w	r8, r0, r4
	ldr	r0, [sp, #100]                  @ 4-byte Reload
	str	r5, [sp, #72]                   @ 4-byte Spill
	eor.w	r5, r2, r7
	and.w	r2, r11, r6
	eor.w	r2, r2, lr
	and.w	r7, lr, r0
	eors	r2, r7
	eors	r2, r0
	eor.w	r0, r2, r4
	eor.w	r4, r6, r12
	eor.w	r2, r3, r1
	str.w	r11, [sp, #48]                  @ 4-byte Spill
	and.w	r11, r2, r4
	str	r2, [sp, #56]                   @ 4-byte Spill
	eor.w	r2, lr, r11
	eors	r2, r7
	eor.w	r2, r2, r12
	str	r4, [sp, #52]                   @ 4-byte Spill
	eor.w	r4, r5, r10
	eor.w	r2, r2, r10
	and.w	r7, r0, r8
	eor.w	r9, r7, r4
	eor.w	r5, r2, r0
	eor.w	r11, r8, r4
	eor.w	r1, r7, r2
	and.w	r5, r5, r9
	and.w	r3, r1, r11
	eor.w	r10, r3, r4
	eor.w	r3, r5, r7
	eor.w	r9, r5, r2
	ands	r2, r3
	eors	r1, r2
	and.w	r1, r1, r10
	eor.w	r3, r1, r11
	eor.w	r1, r2, r0
	ldr	r2, [sp, #100]                  @ 4-byte Reload
	eor.w	r0, r3, r10
	and.w	r4, r0, lr
	and.w	r11, r0, r2
	and.w	r0, r3, r6
	str	r0, [sp, #44]                   @ 4-byte Spill
	ldr	r0, [sp, #48]                   @ 4-byte Reload
	ldr	r2, [sp, #64]                   @ 4-byte Reload
	ands	r0, r3
	str	r0, [sp, #48]                   @ 4-byte Spill
	eor.w	r0, r1, r9
	and.w	lr, r0, r2
	ldr	r2, [sp, #68]                   @ 4-byte Reload
	eor.w	r12, r3, r0
	and.w	r5, r0, r2
	ldr	r0, [sp, #60]                   @ 4-byte Reload
	ldr	r2, [sp, #104]                  @ 4-byte Reload
	and.w	r0, r0, r9
	str	r0, [sp, #100]                  @ 4-byte Spill
	ldr	r0, [sp, #96]                   @ 4-byte Reload
	ldr	r6, [sp, #52]                   @ 4-byte Reload
	and.w	r0, r0, r9
	eor.w	r9, r9, r10
	and.w	r2, r2, r9
	str	r2, [sp, #104]                  @ 4-byte Spill
	ldr	r2, [sp, #88]                   @ 4-byte Reload
	and.w	r6, r6, r10
	and.w	r7, r9, r2
	ldr	r2, [sp, #80]                   @ 4-byte Reload
	ldr	r3, [sp, #84]                   @ 4-byte Reload
	str	r6, [sp, #96]                   @ 4-byte Spill
	ldr	r6, [sp, #56]                   @ 4-byte Reload
	eor.w	r9, r9, r12
	and.w	r2, r2, r9
	and.w	r3, r3, r9
	and.w	r9, r10, r6
	ldr	r6, [sp, #72]                   @ 4-byte Reload
	and.w	r10, r1, r6
	ldr	r6, [sp, #108]                  @ 4-byte Reload
	eor.w	r0, r0, r10
	and.w	r8, r1, r6
	ldr	r1, [sp, #44]                   @ 4-byte Reload
	eor.w	lr, lr, r10
	eor.w	r6, r4, r1
	eor.w	r1, r0, r9
	eor.w	r9, r1, r4
	eor.w	r1, r2, r7
	ldr	r2, [sp, #48]                   @ 4-byte Reload
	eors	r5, r1
	eor.w	r2, r2, r9
	eors	r1, r2
	eor.w	r2, r6, r3
	eor.w	r3, lr, r6
	str	r3, [sp, #108]                  @ 4-byte Spill
	ldr	r3, [sp, #76]                   @ 4-byte Reload
	eor.w	r10, r5, r8
	and.w	r3, r3, r12
	eors	r0, r3
	eor.w	r0, r0, r11
	eor.w	r3, r0, r2
	ldr	r0, [sp, #104]                  @ 4-byte Reload
	eor.w	lr, r1, r3
	eors	r2, r0
	ldr	r0, [sp, #96]                   @ 4-byte Reload
	str.w	lr, [sp, #88]                   @ 4-byte Spill
	eor.w	r4, r3, r0
	ldr	r0, [sp, #100]                  @ 4-byte Reload
	eor.w	r3, r1, r11
	eor.w	r1, r5, r0
	ldr	r0, [sp, #92]                   @ 4-byte Reload
	eor.w	r6, r1, r4
	and.w	r5, r12, r0
	eor.w	r1, r5, r7
	eors	r1, r2
	eor.w	r12, r1, r4
	mov.w	r1, #252645135
	mov.w	r0, #-252645136
	and.w	r5, r1, r3, ror #12
	and.w	r7, r0, r3, ror #4
	add.w	r11, r5, r7
	and.w	r7, r1, lr, ror #12
	and.w	r5, r0, lr, ror #4
	add.w	lr, r7, r5
	and.w	r5, r1, r6, ror #12
	and.w	r4, r0, r6, ror #4
	add	r4, r5
	str	r4, [sp, #92]                   @ 4-byte Spill
	ldr	r4, [sp, #108]                  @ 4-byte Reload
	str.w	r12, [sp, #100]                 @ 4-byte Spill
	eor.w	r5, r4, r10
	eor.w	r4, r5, r9
	and.w	r8, r1, r4, ror #12
	and.w	r7, r0, r4, ror #4
	str	r4, [sp, #108]                  @ 4-byte Spill
	add.w	r4, r8, r7
	str	r4, [sp, #104]                  @ 4-byte Spill
	and.w	r7, r1, r5, ror #12
	and.w	r4, r0, r5, ror #4
	add.w	r9, r7, r4
	and.w	r7, r1, r12, ror #12
	and.w	r4, r0, r12, ror #4
	add	r7, r4
	eor.w	r12, r5, r2
	str	r7, [sp, #96]                   @ 4-byte Spill
	eor.w	r4, r10, r2
	and.w	r7, r1, r12, ror #12
	mov	r2, r1
	and.w	r1, r0, r12, ror #4
	add.w	r8, r7, r1
	and.w	r1, r2, r4, ror #12
	and.w	r7, r0, r4, ror #4
	add.w	r10, r1, r7
	ldr	r7, [sp, #8]                    @ 4-byte Reload
	ldr	r0, [sp, #28]                   @ 4-byte Reload
	lsls	r1, r7, #5
	ldr	r1, [r0, r1]
	eor.w	r2, r11, r3
	eor.w	r1, r1, r2, ror #16
	eor.w	r1, r1, r11
	str	r1, [sp, #84]                   @ 4-byte Spill
	add.w	r1, r0, r7, lsl #5
	ldr	r0, [sp, #88]                   @ 4-byte Reload
	ldr	r7, [r1, #4]
	eor.w	r3, lr, r0
	eor.w	r7, r7, r3, ror #16
	eor.w	r7, r7, lr
	ldr	r0, [sp, #92]                   @ 4-byte Reload
	eor.w	r11, r7, r2
	ldr	r2, [r1, #8]
	eors	r6, r0
	eor.w	r2, r2, r6, ror #16
	eors	r2, r0
	eors	r3, r2
	ldr	r2, [r1, #16]
	eor.w	r7, r9, r5
	eor.w	r2, r2, r7, ror #16
	eor.w	r9, r9, r2
	ldr	r2, [r1, #24]
	eor.w	r0, r8, r12
	eor.w	r2, r2, r0, ror #16
	ldr	r5, [r1, #28]
	eor.w	lr, r2, r8
	eor.w	r2, r10, r4
	eor.w	r4, r5, r2, ror #16
	eor.w	r4, r4, r10
	eor.w	r5, r4, r0
	ldrd	r4, r0, [sp, #96]               @ 8-byte Folded Reload
	ldr.w	r12, [r1, #20]
	eors	r0, r4
	eor.w	r10, lr, r0
	eor.w	r0, r12, r0, ror #16
	eors	r0, r4
	eor.w	lr, r0, r7
	ldrd	r12, r0, [sp, #104]             @ 8-byte Folded Reload
	ldr	r4, [sp, #84]                   @ 4-byte Reload
	ldr	r1, [r1, #12]
	eor.w	r0, r0, r12
	eor.w	r8, r4, r2
	eor.w	r4, r9, r2
	eor.w	r9, r4, r0
	eor.w	r0, r1, r0, ror #16
	eor.w	r7, r11, r2
	eors	r0, r6
	eor.w	r1, r5, r7
	eors	r0, r2
	eor.w	r2, r9, r3
	str	r1, [sp, #52]                   @ 4-byte Spill
	eor.w	r0, r0, r12
	eors	r1, r2
	eors	r0, r1
	eor.w	r11, lr, r10
	eor.w	lr, r5, r9
	eor.w	r4, r0, r10
	str	r1, [sp, #108]                  @ 4-byte Spill
	eor.w	r12, r0, r3
	eor.w	r6, r5, r3
	eor.w	r1, r4, lr
	strd	lr, r6, [sp, #96]               @ 8-byte Folded Spill
	and.w	r10, r1, lr
	eor.w	lr, r12, r11
	eor.w	r0, r1, lr
	str	r7, [sp, #76]                   @ 4-byte Spill
	str	r2, [sp, #88]                   @ 4-byte Spill
	ands	r2, r0
	str	r0, [sp, #92]                   @ 4-byte Spill
	eor.w	r3, r2, r10
	and.w	r2, lr, r6
	ldr	r0, [sp, #76]                   @ 4-byte Reload
	eor.w	r7, r2, r10
	eor.w	r10, r11, r8
	eor.w	r2, r10, r0
	str	r1, [sp, #104]                  @ 4-byte Spill
	eor.w	r1, r12, r8
	eor.w	r0, r2, r6
	str	r1, [sp, #72]                   @ 4-byte Spill
	str	r0, [sp, #76]                   @ 4-byte Spill
	ands	r0, r1
	eor.w	r1, r10, r9
	str	r1, [sp, #68]                   @ 4-byte Spill
	and.w	r1, r1, r8
	eors	r1, r6
	ldr	r6, [sp, #108]                  @ 4-byte Reload
	eors	r0, r4
	eor.w	r1, r1, lr
	and.w	r4, r12, r6
	ldr	r6, [sp, #104]                  @ 4-byte Reload
	eors	r1, r4
	ldr.w	r9, [sp, #52]                   @ 4-byte Reload
	str	r1, [sp, #48]                   @ 4-byte Spill
	eors	r0, r4
	eor.w	r1, r6, r11
	and.w	r4, r2, r10
	str.w	lr, [sp, #84]                   @ 4-byte Spill
	eor.w	lr, r0, r3
	eors	r4, r1
	and.w	r0, r1, r9
	eors	r4, r0
	eor.w	r4, r4, r9
	str.w	r12, [sp, #80]                  @ 4-byte Spill
	eor.w	r12, r4, r3
	eor.w	r4, r10, r5
	eor.w	r3, r6, r8
	and.w	r11, r3, r4
	str	r4, [sp, #60]                   @ 4-byte Spill
	eor.w	r4, r1, r11
	str	r3, [sp, #64]                   @ 4-byte Spill
	eors	r0, r4
	ldr	r3, [sp, #48]                   @ 4-byte Reload
	eors	r0, r5
	eor.w	r4, r3, r7
	eor.w	r3, r0, r7
	and.w	r0, r12, lr
	eor.w	r5, r0, r4
	eor.w	r6, r3, r12
	ands	r6, r5
	eor.w	lr, lr, r4
	eor.w	r5, r0, r3
	and.w	r7, r5, lr
	eors	r4, r7
	eor.w	r7, r6, r0
	eor.w	r0, r6, r3
	ands	r3, r7
	eors	r5, r3
	ands	r5, r4
	eor.w	r5, r5, lr
	eor.w	r7, r5, r4
	str.w	r8, [sp, #56]                   @ 4-byte Spill
	and.w	r8, r7, r1
	and.w	r1, r7, r9
	eor.w	r3, r3, r12
	str	r1, [sp, #52]                   @ 4-byte Spill
	and.w	r1, r5, r2
	ldr	r2, [sp, #72]                   @ 4-byte Reload
	eor.w	r6, r3, r0
	and.w	r11, r5, r10
	str	r1, [sp, #48]                   @ 4-byte Spill
	eor.w	r1, r5, r6
	and.w	r5, r6, r2
	ldr	r2, [sp, #76]                   @ 4-byte Reload
	ldr	r7, [sp, #104]                  @ 4-byte Reload
	ands	r6, r2
	ldr	r2, [sp, #68]                   @ 4-byte Reload
	ands	r2, r0
	str	r2, [sp, #76]                   @ 4-byte Spill
	ldr	r2, [sp, #56]                   @ 4-byte Reload
	ands	r2, r0
	eors	r0, r4
	and.w	r10, r0, r7
	ldr	r7, [sp, #96]                   @ 4-byte Reload
	and.w	r9, r0, r7
	ldr	r7, [sp, #88]                   @ 4-byte Reload
	eors	r0, r1
	and.w	r12, r0, r7
	ldr	r7, [sp, #92]                   @ 4-byte Reload
	and.w	lr, r0, r7
	ldr	r0, [sp, #60]                   @ 4-byte Reload
	ldr	r7, [sp, #108]                  @ 4-byte Reload
	ands	r0, r4
	str	r0, [sp, #104]                  @ 4-byte Spill
	ldr	r0, [sp, #64]                   @ 4-byte Reload
	ands	r7, r3
	ands	r4, r0
	ldr	r0, [sp, #80]                   @ 4-byte Reload
	ands	r0, r3
	eor.w	r3, r5, r0
	eors	r2, r0
	eor.w	r5, r8, r11
	eor.w	r0, r2, r4
	eor.w	r4, r12, r9
	eor.w	r12, r3, r5
	ldr	r3, [sp, #84]                   @ 4-byte Reload
	eor.w	r11, r0, r8
	eor.w	r0, r4, r6
	ldr	r6, [sp, #48]                   @ 4-byte Reload
	ands	r3, r1
	eors	r2, r3
	ldr	r3, [sp, #52]                   @ 4-byte Reload
	eor.w	r6, r6, r11
	eors	r6, r4
	eor.w	r4, r5, lr
	eors	r2, r3
	eors	r2, r4
	eor.w	r5, r4, r10
	ldr	r4, [sp, #104]                  @ 4-byte Reload
	eor.w	r10, r6, r2
	eors	r4, r2
	ldr	r2, [sp, #76]                   @ 4-byte Reload
	eor.w	lr, r0, r7
	eors	r0, r2
	ldr	r2, [sp, #100]                  @ 4-byte Reload
	eor.w	r8, r0, r4
	ands	r1, r2
	eor.w	r0, r1, r9
	eors	r6, r3
	eors	r0, r5
	mov.w	r9, #50529027
	mov.w	r3, #-50529028
	eor.w	r7, r0, r4
	and.w	r0, r9, r6, ror #14
	and.w	r1, r3, r6, ror #6
	adds	r2, r0, r1
	and.w	r0, r9, r10, ror #14
	and.w	r1, r3, r10, ror #6
	add	r0, r1
	str	r0, [sp, #96]                   @ 4-byte Spill
	and.w	r0, r9, r8, ror #14
	and.w	r1, r3, r8, ror #6
	eor.w	r4, r12, lr
	add	r0, r1
	eor.w	r12, r4, r11
	str	r0, [sp, #100]                  @ 4-byte Spill
	and.w	r0, r9, r12, ror #14
	and.w	r1, r3, r12, ror #6
	add	r0, r1
	str	r0, [sp, #88]                   @ 4-byte Spill
	and.w	r0, r9, r4, ror #14
	and.w	r1, r3, r4, ror #6
	add	r0, r1
	str	r0, [sp, #104]                  @ 4-byte Spill
	and.w	r0, r9, r7, ror #14
	and.w	r1, r3, r7, ror #6
	add	r0, r1
	eor.w	r1, r4, r5
	str	r7, [sp, #84]                   @ 4-byte Spill
	eor.w	lr, lr, r5
	and.w	r5, r9, r1, ror #14
	and.w	r7, r3, r1, ror #6
	add	r7, r5
	and.w	r5, r9, lr, ror #14
	and.w	r3, r3, lr, ror #6
	str	r0, [sp, #108]                  @ 4-byte Spill
	adds	r0, r5, r3
	str	r2, [sp, #72]                   @ 4-byte Spill
	str	r0, [sp, #92]                   @ 4-byte Spill
	eors	r2, r6
	mov.w	r11, #252645135
	mov.w	r0, #-252645136
	and.w	r3, r11, r2, ror #20
	and.w	r5, r0, r2, ror #12
	str	r2, [sp, #60]                   @ 4-byte Spill
	adds	r2, r3, r5
	ldr	r3, [sp, #96]                   @ 4-byte Reload
	str	r2, [sp, #44]                   @ 4-byte Spill
	eor.w	r9, r3, r10
	and.w	r6, r11, r9, ror #20
	and.w	r5, r0, r9, ror #12
	adds	r2, r6, r5
	ldr	r3, [sp, #100]                  @ 4-byte Reload
	str	r2, [sp, #48]                   @ 4-byte Spill
	ldr	r2, [sp, #88]                   @ 4-byte Reload
	eor.w	r3, r3, r8
	and.w	r5, r11, r3, ror #20
	and.w	r6, r0, r3, ror #12
	eor.w	r12, r12, r2
	add.w	r10, r5, r6
	and.w	r6, r11, r12, ror #20
	and.w	r5, r0, r12, ror #12
	add	r5, r6
	str	r5, [sp, #52]                   @ 4-byte Spill
	ldr	r5, [sp, #104]                  @ 4-byte Reload
	mov	r2, r11
	eor.w	r11, r5, r4
	and.w	r4, r2, r11, ror #20
	and.w	r5, r0, r11, ror #12
	add.w	r8, r4, r5
	ldr	r4, [sp, #108]                  @ 4-byte Reload
	ldr	r5, [sp, #84]                   @ 4-byte Reload
	str	r7, [sp, #76]                   @ 4-byte Spill
	eors	r4, r5
	and.w	r5, r2, r4, ror #20
	and.w	r6, r0, r4, ror #12
	str	r4, [sp, #80]                   @ 4-byte Spill
	adds	r4, r5, r6
	str	r4, [sp, #64]                   @ 4-byte Spill
	eor.w	r4, r7, r1
	and.w	r1, r2, r4, ror #20
	and.w	r5, r0, r4, ror #12
	add	r1, r5
	str	r1, [sp, #68]                   @ 4-byte Spill
	ldr	r1, [sp, #92]                   @ 4-byte Reload
	str	r4, [sp, #84]                   @ 4-byte Spill
	eor.w	r1, r1, lr
	and.w	r6, r0, r1, ror #12
	ldr.w	lr, [sp, #16]                   @ 4-byte Reload
	ldr	r0, [sp, #28]                   @ 4-byte Reload
	and.w	r5, r2, r1, ror #20
	add.w	r0, r0, lr, lsl #5
	adds	r4, r5, r6
	ldr	r2, [r0, #-32]
	str	r4, [sp, #56]                   @ 4-byte Spill
	ldr	r4, [sp, #44]                   @ 4-byte Reload
	ldr	r5, [r0, #-28]
	eors	r2, r4
	ldr	r4, [sp, #72]                   @ 4-byte Reload
	ldr	r6, [r0, #-24]
	eors	r2, r4
	ldr	r4, [sp, #48]                   @ 4-byte Reload
	eor.w	r6, r6, r10
	eors	r5, r4
	ldr	r4, [sp, #96]                   @ 4-byte Reload
	ldr	r7, [r0, #-20]
	eors	r5, r4
	ldr	r4, [sp, #60]                   @ 4-byte Reload
	eors	r5, r4
	ldr	r4, [sp, #100]                  @ 4-byte Reload
	eors	r6, r4
	ldr	r4, [sp, #52]                   @ 4-byte Reload
	eor.w	r10, r6, r9
	eors	r7, r4
	eors	r3, r7
	ldr	r7, [r0, #-16]
	ldr	r6, [sp, #88]                   @ 4-byte Reload
	eors	r3, r1
	ldr	r4, [sp, #104]                  @ 4-byte Reload
	eors	r6, r3
	eor.w	r3, r7, r8
	eors	r3, r4
	eor.w	r8, r2, r1
	eor.w	r7, r5, r1
	eors	r1, r3
	ldr	r2, [r0, #-12]
	eor.w	r3, r1, r12
	ldr	r1, [sp, #64]                   @ 4-byte Reload
	ldr	r5, [r0, #-8]
	eors	r1, r2
	ldr	r2, [sp, #108]                  @ 4-byte Reload
	ldr	r0, [r0, #-4]
	eors	r1, r2
	eor.w	r2, r1, r11
	ldr	r1, [sp, #68]                   @ 4-byte Reload
	mov	r11, r6
	ldr	r6, [sp, #76]                   @ 4-byte Reload
	eors	r1, r5
	eors	r1, r6
	ldr	r6, [sp, #80]                   @ 4-byte Reload
	eor.w	r5, r1, r6
	ldr	r1, [sp, #56]                   @ 4-byte Reload
	eors	r0, r1
	ldr	r1, [sp, #92]                   @ 4-byte Reload
	eors	r0, r1
	ldr	r1, [sp, #84]                   @ 4-byte Reload
	eor.w	r4, r0, r1
	lsl.w	r0, lr, #5
	b	.Lgcm_v7m_BB14_7
	.p2align	2
.Lgcm_v7m_BB14_6:                               @ %else.12.i
	eor.w	r3, r7, r7, lsr #4
	eor.w	r0, r6, r6, lsr #4
	and	r3, r3, #251662080
	and	r0, r0, #251662080
	orr.w	r3, r3, r3, lsl #4
	orr.w	r0, r0, r0, lsl #4
	eor.w	r8, r3, r7
	eor.w	r3, r11, r11, lsr #4
	eor.w	r10, r0, r6
	eor.w	r0, r9, r9, lsr #4
	and	r3, r3, #251662080
	and	r0, r0, #251662080
	orr.w	r3, r3, r3, lsl #4
	orr.w	r0, r0, r0, lsl #4
	eor.w	r7, r3, r11
	eor.w	r11, r0, r9
	eor.w	r0, lr, lr, lsr #4
	and	r0, r0, #251662080
	orr.w	r0, r0, r0, lsl #4
	eor.w	r3, r0, lr
	eor.w	r0, r1, r1, lsr #4
	and	r0, r0, #251662080
	orr.w	r0, r0, r0, lsl #4
	eor.w	r2, r0, r1
	eor.w	r0, r5, r5, lsr #4
	and	r0, r0, #251662080
	orr.w	r0, r0, r0, lsl #4
	eors	r5, r0
	eor.w	r0, r12, r12, lsr #4
	and	r0, r0, #251662080
	orr.w	r0, r0, r0, lsl #4
	eor.w	r4, r0, r12
	ldr	r0, [sp, #16]                   @ 4-byte Reload
	lsls	r0, r0, #5
.Lgcm_v7m_BB14_7:                               @ %"aes_soft::soft::ciphers::planes::EncryptPlaneCipher::process_planes::<#49ec3a76f5e72ccf>.exit"
	mov	r9, r7
	eor.w	r1, r4, r7
	eor.w	r7, r3, r10
	str	r1, [sp, #100]                  @ 4-byte Spill
	eors	r1, r7
	str	r0, [sp, #96]                   @ 4-byte Spill
	eor.w	r0, r1, r11
	eor.w	r6, r4, r3
	eor.w	r11, r0, r5
	eors	r2, r5
	str	r1, [sp, #108]                  @ 4-byte Spill
	eor.w	r1, r0, r10
	eor.w	r0, r11, r6
	str	r3, [sp, #60]                   @ 4-byte Spill
	str	r6, [sp, #88]                   @ 4-byte Spill
	eor.w	r3, r4, r10
	and.w	r10, r0, r6
	eor.w	r6, r1, r2
	str	r0, [sp, #104]                  @ 4-byte Spill
	eors	r0, r6
	str	r7, [sp, #80]                   @ 4-byte Spill
	and.w	r5, r0, r7
	and.w	r7, r6, r3
	str	r0, [sp, #84]                   @ 4-byte Spill
	eor.w	lr, r5, r10
	eor.w	r0, r7, r10
	eor.w	r10, r2, r8
	eor.w	r5, r10, r9
	eor.w	r9, r1, r8
	eor.w	r7, r5, r3
	str	r7, [sp, #68]                   @ 4-byte Spill
	and.w	r7, r7, r9
	str.w	r9, [sp, #64]                   @ 4-byte Spill
	eor.w	r9, r11, r7
	ldr	r7, [sp, #60]                   @ 4-byte Reload
	str	r3, [sp, #92]                   @ 4-byte Spill
	eor.w	r7, r7, r10
	str	r7, [sp, #60]                   @ 4-byte Spill
	and.w	r7, r7, r8
	eors	r7, r3
	ldr	r3, [sp, #108]                  @ 4-byte Reload
	eors	r7, r6
	ands	r3, r1
	eor.w	r12, r7, r3
	ldr	r7, [sp, #104]                  @ 4-byte Reload
	eor.w	r3, r3, r9
	str	r1, [sp, #72]                   @ 4-byte Spill
	str	r5, [sp, #48]                   @ 4-byte Spill
	eor.w	r1, r7, r2
	eor.w	r2, r3, lr
	and.w	r3, r5, r10
	ldr	r5, [sp, #100]                  @ 4-byte Reload
	eors	r3, r1
	and.w	r11, r1, r5
	eor.w	r3, r3, r11
	eors	r3, r5
	str	r6, [sp, #76]                   @ 4-byte Spill
	eor.w	r5, r3, lr
	eor.w	r6, r10, r4
	eor.w	r3, r7, r8
	str	r3, [sp, #56]                   @ 4-byte Spill
	ands	r3, r6
	eors	r3, r1
	eor.w	r3, r3, r11
	eor.w	r9, r3, r4
	eor.w	lr, r12, r0
	eor.w	r0, r0, r9
	and.w	r3, r5, r2
	eor.w	r9, r3, lr
	eor.w	r7, r0, r5
	and.w	r7, r7, r9
	eor.w	r9, r2, lr
	eor.w	r2, r3, r0
	str	r6, [sp, #52]                   @ 4-byte Spill
	and.w	r6, r2, r9
	eor.w	lr, lr, r6
	eor.w	r6, r7, r3
	eor.w	r3, r7, r0
	ands	r0, r6
	eors	r2, r0
	and.w	r2, r2, lr
	eor.w	r2, r2, r9
	eor.w	r12, r0, r5
	ldr	r0, [sp, #100]                  @ 4-byte Reload
	eor.w	r5, r2, lr
	ands	r0, r5
	str	r0, [sp, #44]                   @ 4-byte Spill
	and.w	r0, r2, r10
	str	r0, [sp, #40]                   @ 4-byte Spill
	ldr	r0, [sp, #48]                   @ 4-byte Reload
	eor.w	r7, r12, r3
	ands	r0, r2
	str	r0, [sp, #48]                   @ 4-byte Spill
	ldr	r0, [sp, #64]                   @ 4-byte Reload
	eor.w	r10, r2, r7
	and.w	r11, r7, r0
	ldr	r0, [sp, #68]                   @ 4-byte Reload
	and.w	r9, r5, r1
	ands	r7, r0
	ldr	r0, [sp, #60]                   @ 4-byte Reload
	and.w	r5, r3, r8
	ands	r0, r3
	str	r0, [sp, #100]                  @ 4-byte Spill
	ldr	r0, [sp, #104]                  @ 4-byte Reload
	eor.w	r3, r3, lr
	ands	r0, r3
	str	r0, [sp, #68]                   @ 4-byte Spill
	ldr	r0, [sp, #88]                   @ 4-byte Reload
	ldr	r4, [sp, #108]                  @ 4-byte Reload
	and.w	r2, r3, r0
	ldr	r0, [sp, #80]                   @ 4-byte Reload
	eor.w	r3, r3, r10
	and.w	r6, r3, r0
	ldr	r0, [sp, #84]                   @ 4-byte Reload
	str	r2, [sp, #104]                  @ 4-byte Spill
	ands	r3, r0
	ldr	r0, [sp, #52]                   @ 4-byte Reload
	and.w	r0, r0, lr
	str	r0, [sp, #88]                   @ 4-byte Spill
	ldr	r0, [sp, #56]                   @ 4-byte Reload
	and.w	r1, lr, r0
	ldr	r0, [sp, #72]                   @ 4-byte Reload
	and.w	lr, r12, r4
	and.w	r0, r0, r12
	eors	r5, r0
	eor.w	r12, r11, r0
	ldr	r0, [sp, #40]                   @ 4-byte Reload
	eors	r1, r5
	ldr	r4, [sp, #48]                   @ 4-byte Reload
	eor.w	r8, r1, r9
	eor.w	r0, r0, r9
	eor.w	r1, r6, r2
	eor.w	r6, r8, r4
	eor.w	r2, r1, r7
	eor.w	r7, r6, r1
	eor.w	r1, r0, r3
	eor.w	r12, r12, r0
	ldr	r0, [sp, #76]                   @ 4-byte Reload
	ldr	r4, [sp, #44]                   @ 4-byte Reload
	and.w	r3, r10, r0
	eors	r3, r5
	ldr	r0, [sp, #68]                   @ 4-byte Reload
	eors	r3, r4
	eors	r3, r1
	eors	r1, r0
	ldr	r0, [sp, #92]                   @ 4-byte Reload
	ldr	r5, [sp, #96]                   @ 4-byte Reload
	and.w	r9, r10, r0
	ldr	r0, [sp, #28]                   @ 4-byte Reload
	adds	r6, r0, r5
	ldr.w	r10, [r0, r5]
	ldr	r5, [r6, #4]
	ldr	r0, [sp, #88]                   @ 4-byte Reload
	eor.w	r4, r4, r10
	eors	r0, r3
	eors	r3, r5
	eor.w	r10, r3, r7
	ldr	r3, [r6, #8]
	ldr	r5, [sp, #100]                  @ 4-byte Reload
	eor.w	r11, r4, r7
	eors	r3, r5
	eor.w	r7, r2, lr
	eors	r2, r3
	ldr	r3, [r6, #20]
	ldr	r5, [sp, #104]                  @ 4-byte Reload
	eor.w	r3, r3, r9
	ldr	r4, [r6, #12]
	eors	r3, r5
	eors	r3, r1
	eor.w	lr, r8, r4
	eor.w	r4, r12, r7
	ldr.w	r12, [r6, #16]
	eor.w	r8, r3, r0
	ldrd	r3, r6, [r6, #24]
	eors	r2, r0
	eors	r3, r1
	eors	r1, r6
	eor.w	r5, lr, r4
	eors	r1, r7
	eor.w	r7, r10, r11, lsr #1
	eor.w	r0, r4, r12
	eors	r3, r4
	bic	r7, r7, #-1431655766
	eor.w	r4, r5, r2, lsr #1
	eor.w	r6, r11, r7, lsl #1
	eor.w	r12, r7, r10
	bic	r4, r4, #-1431655766
	eor.w	r7, r1, r3, lsr #1
	eor.w	r2, r2, r4, lsl #1
	eors	r5, r4
	eor.w	r4, r8, r0, lsr #1
	bic	r7, r7, #-1431655766
	bic	r4, r4, #-1431655766
	eor.w	r3, r3, r7, lsl #1
	eors	r1, r7
	eor.w	r7, r2, r6, lsr #2
	eor.w	r0, r0, r4, lsl #1
	bic	r7, r7, #-858993460
	eor.w	r6, r6, r7, lsl #2
	eor.w	lr, r7, r2
	eor.w	r7, r3, r0, lsr #2
	bic	r7, r7, #-858993460
	eor.w	r0, r0, r7, lsl #2
	eors	r3, r7
	eor.w	r7, r5, r12, lsr #2
	eor.w	r4, r4, r8
	bic	r7, r7, #-858993460
	eor.w	r2, r12, r7, lsl #2
	eors	r7, r5
	eor.w	r5, r1, r4, lsr #2
	bic	r5, r5, #-858993460
	eor.w	r4, r4, r5, lsl #2
	eors	r1, r5
	eor.w	r5, r0, r6, lsr #4
	bic	r5, r5, #-252645136
	eor.w	r6, r6, r5, lsl #4
	eor.w	r12, r5, r0
	eor.w	r5, r4, r2, lsr #4
	bic	r5, r5, #-252645136
	eor.w	r2, r2, r5, lsl #4
	eors	r5, r4
	eor.w	r4, r3, lr, lsr #4
	bic	r4, r4, #-252645136
	eor.w	r0, lr, r4, lsl #4
	eors	r3, r4
	eor.w	r4, r1, r7, lsr #4
	bic	r4, r4, #-252645136
	eor.w	r7, r7, r4, lsl #4
	eors	r1, r4
	ldr	r4, [sp, #4]                    @ 4-byte Reload
	str	r6, [r4]
	str	r0, [r4, #4]
	str.w	r12, [r4, #8]
	str	r3, [r4, #12]
	str	r2, [r4, #16]
	str	r7, [r4, #20]
	str	r5, [r4, #24]
	str	r1, [r4, #28]
	add	sp, #112
	pop.w	{r4, r5, r6, r7, r8, r9, r10, r11, pc}
.Lgcm_v7m_func_end14:
	.size	gcm_v7m.aes_soft.soft.ciphers.planes.process_outlined, .Lgcm_v7m_func_end14-gcm_v7m.aes_soft.soft.ciphers.planes.process_outlined
	.cantunwind
	.fnend
                                        @ -- End function
	.section	.text.gcm_v7m.aes_cipher.zeroize.stack.wipe_stack.1024,"ax",%progbits
	.p2align	2                               @ -- Begin function aes_cipher::zeroize::stack::wipe_stack::<=1024>
	.type	gcm_v7m.aes_cipher.zeroize.stack.wipe_stack.1024,%function
	.code	16
	.thumb_func
gcm_v7m.aes_cipher.zeroize.stack.wipe_stack.1024: @ @gcm_v7m.aes_cipher.zeroize.stack.wipe_stack.1024
	.fnstart
@ %bb.0:                                @ %start
	.save	{r4, r5, r7, lr}
	push	{r4, r5, r7, lr}
	.pad	#1032
	sub.w	sp, sp, #1032
	add	r4, sp, #8
	mov	r0, r4
	movs	r1, #0
	mov.w	r2, #1024
	movs	r5, #0
	bl	memset
	strd	r5, r5, [sp]
	@APP
	@NO_APP
	mov	r0, sp
	ldrd	r1, r2, [r0]
	@APP
	@NO_APP
	subs.w	r3, r1, #1024
	sbcs	r2, r2, #0
	itt	hs
	addhs.w	sp, sp, #1032
	pophs	{r4, r5, r7, pc}
.Lgcm_v7m_BB15_1:                               @ %then.1
	ldrb	r1, [r4, r1]
	@APP
	@NO_APP
	ldrd	r2, r3, [r0]
	strd	r1, r5, [r0]
	@APP
	@NO_APP
	add.w	sp, sp, #1032
	pop	{r4, r5, r7, pc}
.Lgcm_v7m_func_end15:
	.size	gcm_v7m.aes_cipher.zeroize.stack.wipe_stack.1024, .Lgcm_v7m_func_end15-gcm_v7m.aes_cipher.zeroize.stack.wipe_stack.1024
	.cantunwind
	.fnend
                                        @ -- End function
	.section	.text.gcm_v7m.gcm.mode.BorrowedGcm.hash_so_far,"ax",%progbits
	.p2align	2                               @ -- Begin function gcm::mode::BorrowedGcm::hash_so_far::<#84a61a6dd6ff62d6>
	.type	gcm_v7m.gcm.mode.BorrowedGcm.hash_so_far,%function
	.code	16
	.thumb_func
gcm_v7m.gcm.mode.BorrowedGcm.hash_so_far: @ @gcm_v7m.gcm.mode.BorrowedGcm.hash_so_far
	.fnstart
@ %bb.0:                                @ %start
	.save	{r4, r5, r6, r7, r8, r9, lr}
	push.w	{r4, r5, r6, r7, r8, r9, lr}
	.pad	#36
	sub	sp, #36
	ldrd	r2, r3, [r1, #24]
	add.w	r5, r1, #8
	subs	r2, #1
	sbc	r3, r3, #0
	lsls	r6, r2, #24
	mov	r6, r5
	ldrd	r12, lr, [r1, #48]
	ldr	r4, [r1, #56]
	it	eq
	moveq	r6, r1
	subs	r2, #4
	sbcs	r2, r3, #0
	it	hs
	movhs	r6, r5
	ldr	r2, [r6]
	ldr	r3, [r1, #60]
	rev.w	r8, r12
	rev.w	r9, lr
	ldrd	r12, lr, [r0]
	and	r5, r2, #15
	rev	r6, r3
	ldrd	r2, r3, [r0, #8]
	movs	r0, #0
	rev	r4, r4
	add.w	r7, r1, #64
	strd	r5, r0, [sp, #24]
	mov	r0, r12
	mov	r1, lr
	strd	r6, r4, [sp]
	strd	r9, r8, [sp, #8]
	str	r7, [sp, #16]
	bl	gcm_v7m.gcm.single_blocks.hash_singly.1
	add	sp, #36
	pop.w	{r4, r5, r6, r7, r8, r9, pc}
.Lgcm_v7m_func_end16:
	.size	gcm_v7m.gcm.mode.BorrowedGcm.hash_so_far, .Lgcm_v7m_func_end16-gcm_v7m.gcm.mode.BorrowedGcm.hash_so_far
	.cantunwind
	.fnend
                                        @ -- End function
	.section	.text.gcm_v7m.gcm.mode.put_subkey,"ax",%progbits
	.p2align	2                               @ -- Begin function gcm::mode::put_subkey::<#dab42bd6aa024cc0>
	.type	gcm_v7m.gcm.mode.put_subkey,%function
	.code	16
	.thumb_func
gcm_v7m.gcm.mode.put_subkey: @ @gcm_v7m.gcm.mode.put_subkey
	.fnstart
@ %bb.0:                                @ %start
	.save	{r4, r5, r7, lr}
	push	{r4, r5, r7, lr}
	.pad	#32
	sub	sp, #32
	movs	r1, #0
	movs	r4, #1
	ldr	r5, [sp, #48]
	strd	r4, r1, [sp, #8]
	add	r4, sp, #16
	strd	r1, r1, [sp, #24]
	strd	r1, r1, [sp, #16]
	str	r4, [sp]
	bl	gcm_v7m.aes_narrow.blocks.process_all_batches
	bl	gcm_v7m.aes_cipher.zeroize.stack.wipe_stack.1024
	add	r3, sp, #16
	ldm	r3, {r0, r1, r2, r3}
	rev	r1, r1
	rev	r0, r0
	rev	r2, r2
	rev	r3, r3
	str	r0, [r5, #12]
	mov	r0, r4
	str	r3, [r5]
	str	r2, [r5, #4]
	str	r1, [r5, #8]
	bl	gcm_v7m.aes_cipher.zeroize.elements.zeroize_elements.2
	add	sp, #32
	pop	{r4, r5, r7, pc}
.Lgcm_v7m_func_end17:
	.size	gcm_v7m.gcm.mode.put_subkey, .Lgcm_v7m_func_end17-gcm_v7m.gcm.mode.put_subkey
	.cantunwind
	.fnend
                                        @ -- End function
	.section	.text.gcm_v7m.gcm.mode.BorrowedGcm.compare,"ax",%progbits
	.p2align	2                               @ -- Begin function gcm::mode::BorrowedGcm::compare::<#84a61a6dd6ff62d6>
	.type	gcm_v7m.gcm.mode.BorrowedGcm.compare,%function
	.code	16
	.thumb_func
gcm_v7m.gcm.mode.BorrowedGcm.compare: @ @gcm_v7m.gcm.mode.BorrowedGcm.compare
	.fnstart
@ %bb.0:                                @ %start
	.save	{r4, r5, r6, r7, r8, r9, r10, r11, lr}
	push.w	{r4, r5, r6, r7, r8, r9, r10, r11, lr}
	.pad	#44
	sub	sp, #44
	orrs.w	r7, r2, r3
	beq	.Lgcm_v7m_BB18_2
@ %bb.1:                                @ %else.7
	ldr	r5, [sp, #116]
	ldrd	r10, r9, [sp, #104]
	ldr.w	r8, [sp, #88]
	ldr.w	r11, [sp, #96]
	ldr	r4, [sp, #80]
	mov	r7, r0
	str	r5, [sp]
	bl	gcm_v7m.gcm.mode.BorrowedGcm.put_pre_counter
	ldr	r0, [sp, #92]
	add	r6, sp, #28
	str	r0, [sp, #4]
	mov	r0, r7
	mov	r1, r5
	mov	r2, r4
	strd	r10, r9, [sp, #16]
	str	r6, [sp, #24]
	str.w	r8, [sp]
	str.w	r11, [sp, #8]
	bl	gcm_v7m.gcm.mode.BorrowedGcm.put_tag
	ldr	r0, [sp, #112]
	mov	r1, r6
	bl	gcm_v7m.aes_cipher.blocks.difference
	mov	r4, r0
	cmp	r0, #0
	mov	r0, r6
	it	ne
	movne	r4, #1
	bl	gcm_v7m.aes_cipher.zeroize.elements.zeroize_elements.2
	mov	r0, r4
	add	sp, #44
	pop.w	{r4, r5, r6, r7, r8, r9, r10, r11, pc}
	.p2align	2
.Lgcm_v7m_BB18_2:
	movs	r4, #1
	mov	r0, r4
	add	sp, #44
	pop.w	{r4, r5, r6, r7, r8, r9, r10, r11, pc}
.Lgcm_v7m_func_end18:
	.size	gcm_v7m.gcm.mode.BorrowedGcm.compare, .Lgcm_v7m_func_end18-gcm_v7m.gcm.mode.BorrowedGcm.compare
	.cantunwind
	.fnend
                                        @ -- End function
	.section	.text.gcm_v7m.gcm.mode.BorrowedGcm.put_tag,"ax",%progbits
	.p2align	2                               @ -- Begin function gcm::mode::BorrowedGcm::put_tag::<#84a61a6dd6ff62d6>
	.type	gcm_v7m.gcm.mode.BorrowedGcm.put_tag,%function
	.code	16
	.thumb_func
gcm_v7m.gcm.mode.BorrowedGcm.put_tag: @ @gcm_v7m.gcm.mode.BorrowedGcm.put_tag
	.fnstart
@ %bb.0:                                @ %start
	.save	{r4, r5, r6, r7, r8, r9, r10, r11, lr}
	push.w	{r4, r5, r6, r7, r8, r9, r10, r11, lr}
	.pad	#60
	sub	sp, #60
	mov	r4, r0
	ldr	r5, [sp, #120]
	ldr	r0, [r1]
	ldr	r3, [r1, #4]
	ldr	r6, [r1, #12]
	ldr	r1, [r1, #8]
	str	r6, [r5, #12]
	str	r1, [r5, #8]
	str	r3, [r5, #4]
	str	r0, [r5]
	ldr	r1, [r4, #8]
	ldr	r0, [r4]
	ldr	r3, [r4, #12]
	mov	r6, r2
	movs	r7, #0
	movs	r2, #1
	ldrd	r9, r8, [sp, #96]
	strd	r2, r7, [sp, #8]
	mov	r2, r1
	str	r5, [sp]
	bl	gcm_v7m.aes_narrow.blocks.process_all_batches
	bl	gcm_v7m.aes_cipher.zeroize.stack.wipe_stack.1024
	ldr	r3, [r4, #16]
	ldm	r3, {r0, r1, r2, r3}
	strd	r9, r8, [sp, #24]
	strd	r7, r7, [sp]
	strd	r7, r7, [sp, #8]
	str	r6, [sp, #16]
	bl	gcm_v7m.gcm.single_blocks.hash_singly.1
	ldr	r4, [r4, #16]
	ldrd	r7, r6, [sp, #112]
	ldrd	r11, r9, [r4]
	ldrd	r10, r8, [r4, #8]
	strd	r7, r6, [sp, #24]
	ldr	r7, [sp, #104]
	stm.w	sp, {r0, r1, r2, r3}
	mov	r0, r11
	mov	r1, r9
	mov	r2, r10
	mov	r3, r8
	str	r7, [sp, #16]
	bl	gcm_v7m.gcm.single_blocks.hash_singly.1
	ldr	r7, [sp, #96]
	mvn	lr, #248
	and.w	r6, lr, r7, lsl #3
	and	r7, r7, #31
	orr.w	r12, r6, r7, lsl #3
	ldr	r7, [sp, #112]
	eor.w	r2, r2, r12
	and.w	r6, lr, r7, lsl #3
	and	r4, r7, #31
	eor.w	r1, r1, r7, lsr #29
	ldr	r7, [sp, #96]
	orr.w	r6, r6, r4, lsl #3
	eors	r0, r6
	eor.w	r3, r3, r7, lsr #29
	strd	r11, r9, [sp]
	strd	r10, r8, [sp, #8]
	bl	gcm_v7m.gcm.holes.product_with_holes
	ldrb	r7, [r5, #4]
	ldrb.w	lr, [r5, #15]
	str	r7, [sp, #40]                   @ 4-byte Spill
	ldrb	r7, [r5, #5]
	ldrb.w	r12, [r5, #14]
	str	r7, [sp, #36]                   @ 4-byte Spill
	ldrb	r4, [r5, #12]
	ldrb.w	r8, [r5, #13]
	eor.w	r7, lr, r0
	str	r7, [sp, #56]                   @ 4-byte Spill
	eor.w	r7, r12, r0, lsr #8
	str	r7, [sp, #52]                   @ 4-byte Spill
	eor.w	r7, r8, r0, lsr #16
	eor.w	r0, r4, r0, lsr #24
	ldrb	r6, [r5, #11]
	str	r0, [sp, #44]                   @ 4-byte Spill
	ldrb	r4, [r5, #10]
	ldrb	r0, [r5, #6]
	ldrb.w	r10, [r5, #8]
	ldrb.w	r9, [r5, #9]
	eor.w	r8, r6, r1
	eor.w	r6, r4, r1, lsr #8
	eor.w	r4, r0, r2, lsr #8
	ldr	r0, [sp, #36]                   @ 4-byte Reload
	str	r7, [sp, #48]                   @ 4-byte Spill
	eor.w	r7, r9, r1, lsr #16
	eor.w	r9, r10, r1, lsr #24
	eor.w	r10, r0, r2, lsr #16
	ldr	r0, [sp, #40]                   @ 4-byte Reload
	ldrb.w	r11, [r5, #7]
	eor.w	lr, r0, r2, lsr #24
	ldrb	r0, [r5, #2]
	eor.w	r11, r11, r2
	eor.w	r2, r0, r3, lsr #8
	ldrb	r0, [r5, #1]
	ldrb	r1, [r5, #3]
	eor.w	r0, r0, r3, lsr #16
	strb	r0, [r5, #1]
	ldr	r0, [sp, #44]                   @ 4-byte Reload
	eor.w	r12, r1, r3
	strb	r0, [r5, #12]
	ldr	r0, [sp, #48]                   @ 4-byte Reload
	ldrb	r1, [r5]
	strb	r0, [r5, #13]
	ldr	r0, [sp, #52]                   @ 4-byte Reload
	eor.w	r1, r1, r3, lsr #24
	strb	r0, [r5, #14]
	ldr	r0, [sp, #56]                   @ 4-byte Reload
	strb	r1, [r5]
	strb	r2, [r5, #2]
	strb.w	r12, [r5, #3]
	strb.w	lr, [r5, #4]
	strb.w	r10, [r5, #5]
	strb	r4, [r5, #6]
	strb.w	r11, [r5, #7]
	strb.w	r9, [r5, #8]
	strb	r7, [r5, #9]
	strb	r6, [r5, #10]
	strb.w	r8, [r5, #11]
	strb	r0, [r5, #15]
	add	sp, #60
	pop.w	{r4, r5, r6, r7, r8, r9, r10, r11, pc}
.Lgcm_v7m_func_end19:
	.size	gcm_v7m.gcm.mode.BorrowedGcm.put_tag, .Lgcm_v7m_func_end19-gcm_v7m.gcm.mode.BorrowedGcm.put_tag
	.cantunwind
	.fnend
                                        @ -- End function
	.section	.text.gcm_v7m.aes_cipher.blocks.difference,"ax",%progbits
	.p2align	2                               @ -- Begin function aes_cipher::blocks::difference
	.type	gcm_v7m.aes_cipher.blocks.difference,%function
	.code	16
	.thumb_func
gcm_v7m.aes_cipher.blocks.difference:       @ @gcm_v7m.aes_cipher.blocks.difference
	.fnstart
@ %bb.0:                                @ %start
	.save	{r4, r5, r6, r7, lr}
	push	{r4, r5, r6, r7, lr}
	ldrb	r2, [r0]
	ldrb	r3, [r0, #1]
	ldrb	r4, [r1]
	ldrb	r5, [r1, #1]
	ldrb.w	r12, [r0, #2]
	ldrb	r6, [r1, #2]
	ldrb.w	lr, [r0, #3]
	ldrb	r7, [r1, #3]
	eors	r2, r4
	eors	r3, r5
	orrs	r2, r3
	eor.w	r3, r6, r12
	orrs	r2, r3
	eor.w	r3, r7, lr
	ldrb	r7, [r0, #4]
	ldrb	r6, [r1, #4]
	orrs	r2, r3
	eor.w	r3, r6, r7
	ldrb	r7, [r0, #5]
	ldrb	r6, [r1, #5]
	orrs	r2, r3
	eor.w	r3, r6, r7
	ldrb	r7, [r0, #6]
	ldrb	r6, [r1, #6]
	orrs	r2, r3
	eor.w	r3, r6, r7
	ldrb	r7, [r0, #7]
	ldrb	r6, [r1, #7]
	orrs	r2, r3
	eor.w	r3, r6, r7
	ldrb	r7, [r0, #8]
	ldrb	r6, [r1, #8]
	orrs	r2, r3
	eor.w	r3, r6, r7
	ldrb	r7, [r0, #9]
	ldrb	r6, [r1, #9]
	orrs	r2, r3
	eor.w	r3, r6, r7
	ldrb	r7, [r0, #10]
	ldrb	r6, [r1, #10]
	orrs	r2, r3
	eor.w	r3, r6, r7
	ldrb	r7, [r0, #11]
	ldrb	r6, [r1, #11]
	orrs	r2, r3
	eor.w	r3, r6, r7
	ldrb	r7, [r0, #12]
	ldrb	r6, [r1, #12]
	orrs	r2, r3
	eor.w	r3, r6, r7
	ldrb	r7, [r0, #13]
	ldrb	r6, [r1, #13]
	orrs	r2, r3
	eor.w	r3, r6, r7
	ldrb	r7, [r0, #14]
	ldrb	r6, [r1, #14]
	ldrb	r0, [r0, #15]
	ldrb	r1, [r1, #15]
	orrs	r2, r3
	eor.w	r3, r6, r7
	orrs	r2, r3
	eors	r0, r1
	orrs	r0, r2
	pop	{r4, r5, r6, r7, pc}
.Lgcm_v7m_func_end20:
	.size	gcm_v7m.aes_cipher.blocks.difference, .Lgcm_v7m_func_end20-gcm_v7m.aes_cipher.blocks.difference
	.cantunwind
	.fnend
                                        @ -- End function
	.section	.text.gcm_v7m.gcm.gctr.add_gctr,"ax",%progbits
	.p2align	2                               @ -- Begin function gcm::gctr::add_gctr::<#099a9bc28799ce6c>
	.type	gcm_v7m.gcm.gctr.add_gctr,%function
	.code	16
	.thumb_func
gcm_v7m.gcm.gctr.add_gctr: @ @gcm_v7m.gcm.gctr.add_gctr
	.fnstart
@ %bb.0:                                @ %start
	.save	{r4, r5, r6, r7, r8, r9, r10, r11, lr}
	push.w	{r4, r5, r6, r7, r8, r9, r10, r11, lr}
	.pad	#132
	sub	sp, #132
	ldrd	r4, lr, [sp, #176]
	orrs.w	r7, r4, lr
	beq.w	.Lgcm_v7m_BB21_24
@ %bb.1:                                @ %then.1
	ldr	r7, [r1]
	ldr	r6, [r1, #4]
	ldr	r5, [r1, #12]
	ldr	r1, [r1, #8]
	strd	r7, r6, [sp, #64]
	and	r7, r2, #15
	strd	r1, r5, [sp, #72]
	rsb.w	r1, r7, #16
	ldr.w	r12, [sp, #168]
	movs	r6, #0
	subs	r1, r1, r4
	sbcs.w	r1, r6, lr
	str	r6, [sp, #84]
	str	r6, [sp, #80]
	bhs	.Lgcm_v7m_BB21_3
@ %bb.2:                                @ %else.2.i
	add	r1, sp, #64
	str	r1, [sp, #80]
	add	r1, sp, #88
	stm.w	r1, {r2, r3, r12}
	ldr	r1, [r0]
	ldr	r2, [r0, #8]
	ldr	r3, [r0, #12]
	add	r7, sp, #80
	mov	r0, r1
	strd	r6, r4, [sp, #100]
	str.w	lr, [sp, #108]
	str	r7, [sp]
	bl	gcm_v7m.aes_narrow.borrowed_words.call_to_encrypt.1
	bl	gcm_v7m.aes_cipher.zeroize.stack.wipe_stack.2032
	add	sp, #132
	pop.w	{r4, r5, r6, r7, r8, r9, r10, r11, pc}
	.p2align	2
.Lgcm_v7m_BB21_3:                               @ %then.1.i
	ldrd	r9, r5, [sp, #72]
	ldr.w	r8, [r0]
	ldr	r1, [r0, #8]
	ldr.w	lr, [r0, #12]
	lsrs	r0, r2, #4
	orr.w	r0, r0, r3, lsl #28
	rev	r5, r5
	ldrd	r10, r3, [sp, #64]
	add	r0, r5
	str	r1, [sp, #60]                   @ 4-byte Spill
	lsrs	r2, r0, #16
	rev	r3, r3
	str	r7, [sp, #20]                   @ 4-byte Spill
	lsr.w	r11, r0, #8
	lsrs	r5, r0, #24
	strb.w	r2, [sp, #129]
	strb.w	r0, [sp, #131]
	movs	r0, #1
	ldr	r2, [sp, #60]                   @ 4-byte Reload
	lsr.w	r12, r3, #8
	lsrs	r1, r3, #16
	lsrs	r4, r3, #24
	str.w	r10, [sp, #116]
	strb.w	r3, [sp, #123]
	strb.w	r11, [sp, #130]
	ldr.w	r11, [sp, #20]                  @ 4-byte Reload
	strd	r0, r6, [sp, #8]
	add.w	r10, sp, #116
	mov	r0, r8
	mov	r3, lr
	strb.w	r4, [sp, #120]
	strb.w	r1, [sp, #121]
	strb.w	r12, [sp, #122]
	str.w	r9, [sp, #124]
	strb.w	r5, [sp, #128]
	str.w	r10, [sp]
	bl	gcm_v7m.aes_narrow.blocks.process_all_batches
	bl	gcm_v7m.aes_cipher.zeroize.stack.wipe_stack.1024
	cmp.w	r11, #0
	beq	.Lgcm_v7m_BB21_6
@ %bb.4:                                @ %join.8.i72.i.i.preheader
	ldr.w	r9, [sp, #176]
	ldr.w	lr, [sp, #180]
	subs.w	r0, r9, #4
	sbcs	r0, lr, #0
	and	r12, r9, #3
	bhs	.Lgcm_v7m_BB21_7
@ %bb.5:
	ldr	r4, [sp, #168]
	movs	r1, #0
	b	.Lgcm_v7m_BB21_10
	.p2align	2
.Lgcm_v7m_BB21_6:
	ldr	r4, [sp, #168]
	ldrd	r9, lr, [sp, #176]
	mov.w	r10, #0
	b	.Lgcm_v7m_BB21_13
	.p2align	2
.Lgcm_v7m_BB21_7:                               @ %join.8.i72.i.i.preheader.new
	ldr	r4, [sp, #168]
	bic	r8, r9, #3
	movs	r1, #0
	movs	r3, #0
	.p2align	2
.Lgcm_v7m_BB21_8:                               @ %join.8.i72.i.i
                                        @ =>This Inner Loop Header: Depth=1
	orr	r6, r1, #1
	add.w	r5, r6, r11
	ldrb.w	r5, [r10, r5]
	ldrb	r0, [r4, r6]
	add.w	r7, r1, r11
	eors	r5, r0
	strb	r5, [r4, r6]
	orr	r6, r1, #2
	add.w	r5, r6, r11
	ldrb.w	r7, [r10, r7]
	ldrb	r2, [r4, r1]
	ldrb.w	r5, [r10, r5]
	ldrb	r0, [r4, r6]
	eors	r2, r7
	eor.w	r7, r0, r5
	strb	r7, [r4, r6]
	orr	r7, r1, #3
	add.w	r6, r7, r11
	ldrb.w	r6, [r10, r6]
	ldrb	r5, [r4, r7]
	strb	r2, [r4, r1]
	adds	r1, #4
	eor.w	r2, r5, r6
	adc	r3, r3, #0
	eor.w	r6, r1, r8
	orrs	r6, r3
	strb	r2, [r4, r7]
	bne	.Lgcm_v7m_BB21_8
@ %bb.9:                                @ %join.3.i.i.i.loopexit.unr-lcssa
	cmp.w	r12, #0
	mov	r6, r9
	mov	r10, lr
	beq	.Lgcm_v7m_BB21_13
.Lgcm_v7m_BB21_10:                              @ %join.8.i72.i.i.epil.preheader
	add.w	r0, r1, r11
	add	r2, sp, #116
	ldrb	r0, [r2, r0]
	ldrb	r2, [r4, r1]
	cmp.w	r12, #1
	eor.w	r0, r0, r2
	mov	r6, r9
	mov	r10, lr
	strb	r0, [r4, r1]
	beq	.Lgcm_v7m_BB21_13
@ %bb.11:                               @ %join.8.i72.i.i.epil.1
	adds	r0, r1, #1
	add.w	r2, r0, r11
	add	r3, sp, #116
	ldrb	r2, [r3, r2]
	ldrb	r3, [r4, r0]
	cmp.w	r12, #2
	eor.w	r2, r2, r3
	mov	r6, r9
	mov	r10, lr
	strb	r2, [r4, r0]
	beq	.Lgcm_v7m_BB21_13
@ %bb.12:                               @ %join.8.i72.i.i.epil.2
	adds	r0, r1, #2
	add.w	r1, r0, r11
	add	r2, sp, #116
	ldrb	r1, [r2, r1]
	ldrb	r2, [r4, r0]
	mov	r6, r9
	eors	r1, r2
	mov	r10, lr
	strb	r1, [r4, r0]
.Lgcm_v7m_BB21_13:                              @ %join.3.i.i.i
	subs.w	r3, r9, r6
	sbc.w	r2, lr, r10
	subs.w	r1, r3, #16
	sbcs	r1, r2, #0
	blo.w	.Lgcm_v7m_BB21_15
	.p2align	2
.Lgcm_v7m_BB21_14:                              @ %join.8.i.i.i
                                        @ =>This Inner Loop Header: Depth=1
	add.w	r1, r6, r11
	bic	r1, r1, #15
	add	r0, sp, #116
	str	r1, [sp, #60]                   @ 4-byte Spill
	adds	r3, r0, r1
	adds	r1, r4, r6
	ldrb	r7, [r1, #1]
	ldrb	r4, [r1, #2]
	ldrb.w	r12, [r3, #1]
	ldrb	r5, [r3, #2]
	ldrb	r0, [r1, #10]
	eor.w	r7, r7, r12
	eors	r5, r4
	str	r0, [sp, #40]                   @ 4-byte Spill
	ldrb	r0, [r1, #3]
	ldrb	r2, [r1, #4]
	str	r7, [sp, #56]                   @ 4-byte Spill
	ldrb	r7, [r3, #3]
	str	r5, [sp, #52]                   @ 4-byte Spill
	ldrb	r5, [r3, #4]
	eors	r0, r7
	eors	r2, r5
	ldrb.w	r8, [r1, #6]
	ldrb.w	r9, [r1, #5]
	str	r0, [sp, #48]                   @ 4-byte Spill
	ldrb	r0, [r3, #5]
	str	r2, [sp, #44]                   @ 4-byte Spill
	ldrb	r2, [r3, #6]
	eor.w	r0, r0, r9
	eor.w	r2, r2, r8
	ldrb.w	r11, [r1, #8]
	ldrb.w	lr, [r1, #7]
	str	r0, [sp, #36]                   @ 4-byte Spill
	ldrb	r0, [r3, #7]
	str	r2, [sp, #32]                   @ 4-byte Spill
	ldrb	r2, [r3, #8]
	eor.w	r0, r0, lr
	eor.w	r2, r2, r11
	str	r0, [sp, #28]                   @ 4-byte Spill
	ldrb	r0, [r1, #9]
	str	r2, [sp, #24]                   @ 4-byte Spill
	ldrb	r2, [r3, #9]
	ldrb	r5, [r3, #10]
	eor.w	r9, r2, r0
	ldr	r0, [sp, #40]                   @ 4-byte Reload
	ldrb	r7, [r1, #11]
	eor.w	r12, r5, r0
	ldrb	r0, [r3, #11]
	ldrb	r5, [r1, #12]
	eors	r0, r7
	strb	r0, [r1, #11]
	ldr	r0, [sp, #24]                   @ 4-byte Reload
	ldrb	r2, [r3, #12]
	strb	r0, [r1, #8]
	ldr	r0, [sp, #28]                   @ 4-byte Reload
	eors	r2, r5
	ldrb	r5, [r1, #14]
	ldrb.w	r8, [r3, #14]
	strb	r0, [r1, #7]
	ldr	r0, [sp, #32]                   @ 4-byte Reload
	ldrb	r7, [r1, #13]
	ldrb.w	lr, [r3, #13]
	eor.w	r8, r8, r5
	ldr	r5, [sp, #60]                   @ 4-byte Reload
	add	r4, sp, #116
	strb	r0, [r1, #6]
	ldr	r0, [sp, #36]                   @ 4-byte Reload
	eor.w	lr, lr, r7
	ldrb	r7, [r4, r5]
	ldr	r4, [sp, #168]
	strb	r0, [r1, #5]
	ldr	r0, [sp, #44]                   @ 4-byte Reload
	ldrb	r3, [r3, #15]
	ldrb	r5, [r1, #15]
	ldrb.w	r11, [r4, r6]
	strb	r0, [r1, #4]
	ldr	r0, [sp, #48]                   @ 4-byte Reload
	eors	r3, r5
	eor.w	r5, r7, r11
	strb.w	r9, [r1, #9]
	ldr.w	r9, [sp, #176]
	strb	r5, [r4, r6]
	strb.w	lr, [r1, #13]
	ldr.w	lr, [sp, #180]
	adds	r6, #16
	strb	r0, [r1, #3]
	ldr	r0, [sp, #52]                   @ 4-byte Reload
	strb	r3, [r1, #15]
	adc	r10, r10, #0
	subs.w	r3, r9, r6
	strb	r2, [r1, #12]
	strb	r0, [r1, #2]
	sbc.w	r2, lr, r10
	rsbs.w	r0, r3, #15
	mov.w	r0, #0
	sbcs	r0, r2
	ldr.w	r11, [sp, #20]                  @ 4-byte Reload
	ldr	r0, [sp, #56]                   @ 4-byte Reload
	strb.w	r8, [r1, #14]
	strb.w	r12, [r1, #10]
	strb	r0, [r1, #1]
	blo.w	.Lgcm_v7m_BB21_14
.Lgcm_v7m_BB21_15:                              @ %after.4.i.i.i
	subs.w	r0, r6, r9
	sbcs.w	r0, r10, lr
	bhs	.Lgcm_v7m_BB21_24
@ %bb.16:                               @ %then.9.i.i.i
	orrs.w	r0, r3, r2
	beq	.Lgcm_v7m_BB21_24
@ %bb.17:                               @ %join.8.i15.i.i.preheader
	add.w	r0, r6, r11
	bic	r0, r0, #15
	add	r1, sp, #116
	subs	r7, r3, #4
	add	r1, r0
	add.w	r0, r4, r6
	sbcs	r2, r2, #0
	and	r12, r3, #3
	bhs	.Lgcm_v7m_BB21_19
@ %bb.18:
	movs	r3, #0
	b	.Lgcm_v7m_BB21_22
	.p2align	2
.Lgcm_v7m_BB21_19:                              @ %join.8.i15.i.i.preheader.new
	and	r7, r3, #12
	movs	r3, #0
	movs	r6, #0
	.p2align	2
.Lgcm_v7m_BB21_20:                              @ %join.8.i15.i.i
                                        @ =>This Inner Loop Header: Depth=1
	ldrb	r5, [r1, r3]
	ldrb	r4, [r0, r3]
	eors	r5, r4
	strb	r5, [r0, r3]
	orr	r5, r3, #1
	ldrb	r4, [r1, r5]
	ldrb	r2, [r0, r5]
	eors	r2, r4
	strb	r2, [r0, r5]
	orr	r2, r3, #2
	ldrb	r5, [r1, r2]
	ldrb	r4, [r0, r2]
	eors	r5, r4
	strb	r5, [r0, r2]
	orr	r2, r3, #3
	ldrb	r5, [r1, r2]
	ldrb	r4, [r0, r2]
	adds	r3, #4
	eor.w	r5, r5, r4
	adc	r6, r6, #0
	eor.w	r4, r3, r7
	orrs	r4, r6
	strb	r5, [r0, r2]
	bne	.Lgcm_v7m_BB21_20
@ %bb.21:                               @ %"aes_ctr::add_in_batches::add_to_one::<#9f2532018b56b7e7>.exit.i.loopexit.unr-lcssa"
	cmp.w	r12, #0
	beq	.Lgcm_v7m_BB21_24
.Lgcm_v7m_BB21_22:                              @ %join.8.i15.i.i.epil.preheader
	ldrb	r2, [r1, r3]
	ldrb	r7, [r0, r3]
	cmp.w	r12, #1
	eor.w	r2, r2, r7
	strb	r2, [r0, r3]
	beq	.Lgcm_v7m_BB21_24
@ %bb.23:                               @ %join.8.i15.i.i.epil.1
	adds	r2, r3, #1
	ldrb	r7, [r1, r2]
	ldrb	r6, [r0, r2]
	cmp.w	r12, #2
	eor.w	r7, r7, r6
	strb	r7, [r0, r2]
	bne	.Lgcm_v7m_BB21_25
.Lgcm_v7m_BB21_24:                              @ %join.3
	add	sp, #132
	pop.w	{r4, r5, r6, r7, r8, r9, r10, r11, pc}
	.p2align	2
.Lgcm_v7m_BB21_25:                              @ %join.8.i15.i.i.epil.2
	adds	r2, r3, #2
	ldrb	r1, [r1, r2]
	ldrb	r3, [r0, r2]
	eors	r1, r3
	strb	r1, [r0, r2]
	add	sp, #132
	pop.w	{r4, r5, r6, r7, r8, r9, r10, r11, pc}
.Lgcm_v7m_func_end21:
	.size	gcm_v7m.gcm.gctr.add_gctr, .Lgcm_v7m_func_end21-gcm_v7m.gcm.gctr.add_gctr
	.cantunwind
	.fnend
                                        @ -- End function
	.section	.text.gcm_v7m.aes_narrow.borrowed_words.call_to_encrypt.1,"ax",%progbits
	.p2align	2                               @ -- Begin function aes_narrow::borrowed_words::call_to_encrypt::<#1305835a18aa05db>
	.type	gcm_v7m.aes_narrow.borrowed_words.call_to_encrypt.1,%function
	.code	16
	.thumb_func
gcm_v7m.aes_narrow.borrowed_words.call_to_encrypt.1: @ @gcm_v7m.aes_narrow.borrowed_words.call_to_encrypt.1
	.fnstart
@ %bb.0:                                @ %start
	.save	{r4, r5, r6, r7, r8, r9, r10, r11, lr}
	push.w	{r4, r5, r6, r7, r8, r9, r10, r11, lr}
	.pad	#380
	sub	sp, #380
	ldr	r1, [sp, #416]
	mov	r7, r3
	ldrd	r5, r11, [r1, #8]
	ldr	r4, [r1]
	ldr	r6, [r1, #16]
	ldrd	r8, r10, [r1, #24]
	mov	r9, r2
	str	r0, [sp, #48]                   @ 4-byte Spill
	str	r0, [sp, #104]
	movs	r0, #0
	lsls	r1, r5, #28
	str	r0, [sp, #108]
	str	r3, [sp, #116]
	str	r2, [sp, #112]
	beq	.Lgcm_v7m_BB22_2
@ %bb.1:                                @ %then.1.i.i
	strd	r0, r0, [sp]
	add	r0, sp, #104
	mov	r1, r4
	mov	r2, r5
	mov	r3, r11
	strd	r8, r10, [sp, #16]
	str	r6, [sp, #8]
	bl	gcm_v7m.aes_ctr.add_in_batches.add_next.1
	b	.Lgcm_v7m_BB22_3
	.p2align	2
.Lgcm_v7m_BB22_2:
	movs	r1, #0
.Lgcm_v7m_BB22_3:                               @ %join.3.i.i
	subs.w	r3, r8, r0
	mov	lr, r1
	sbc.w	r1, r10, r1
	subs	r3, #32
	sbcs	r1, r1, #0
	strd	r10, r8, [sp, #52]              @ 8-byte Folded Spill
	blo.w	.Lgcm_v7m_BB22_6
@ %bb.4:                                @ %join.11.lr.ph.i.i
	add	r1, sp, #124
	adds	r1, #32
	mov	r10, lr
	str	r1, [sp, #24]                   @ 4-byte Spill
	str	r4, [sp, #44]                   @ 4-byte Spill
	strd	r11, r5, [sp, #36]              @ 8-byte Folded Spill
	str	r6, [sp, #96]                   @ 4-byte Spill
	strd	r9, r7, [sp, #28]               @ 8-byte Folded Spill
	.p2align	2
.Lgcm_v7m_BB22_5:                               @ %join.11.i.i
                                        @ =>This Inner Loop Header: Depth=1
	str	r0, [sp, #100]                  @ 4-byte Spill
	adds	r0, r0, r5
	adc.w	r1, r10, r11
	lsrs	r0, r0, #4
	orr.w	r5, r0, r1, lsl #28
	ldr	r0, [sp, #24]                   @ 4-byte Reload
	movs	r1, #0
	movs	r2, #224
	str.w	r10, [sp, #92]                  @ 4-byte Spill
	mov.w	r8, #0
	bl	memset
	ldr	r0, [r4, #12]
	ldrb	r1, [r4, #1]
	rev	r0, r0
	add	r0, r5
	lsrs	r2, r0, #24
	strb.w	r2, [sp, #136]
	lsrs	r2, r0, #16
	strb.w	r2, [sp, #137]
	lsrs	r2, r0, #8
	strb.w	r2, [sp, #138]
	ldrb	r2, [r4]
	lsls	r1, r1, #16
	orr.w	r1, r1, r2, lsl #24
	strb.w	r2, [sp, #124]
	strb.w	r2, [sp, #140]
	ldrb	r2, [r4, #2]
	lsrs	r1, r1, #16
	strb.w	r1, [sp, #125]
	strb.w	r1, [sp, #141]
	ldr	r1, [r4, #4]
	strb.w	r2, [sp, #126]
	strb.w	r2, [sp, #142]
	ldrb	r2, [r4, #3]
	rev	r1, r1
	strb.w	r2, [sp, #127]
	strb.w	r2, [sp, #143]
	lsrs	r2, r1, #24
	strb.w	r2, [sp, #128]
	strb.w	r2, [sp, #144]
	lsrs	r2, r1, #16
	strb.w	r2, [sp, #129]
	strb.w	r2, [sp, #145]
	uxth	r2, r1
	lsrs	r2, r2, #8
	strb.w	r2, [sp, #130]
	strb.w	r2, [sp, #146]
	ldrb	r2, [r4, #9]
	strb.w	r1, [sp, #131]
	strb.w	r1, [sp, #147]
	ldrb	r1, [r4, #8]
	lsls	r2, r2, #16
	orr.w	r2, r2, r1, lsl #24
	strb.w	r1, [sp, #132]
	strb.w	r1, [sp, #148]
	ldrb	r1, [r4, #10]
	strb.w	r0, [sp, #139]
	adds	r0, #1
	strb.w	r1, [sp, #134]
	strb.w	r1, [sp, #150]
	lsrs	r1, r0, #24
	strb.w	r1, [sp, #152]
	lsrs	r1, r0, #16
	strb.w	r1, [sp, #153]
	lsrs	r1, r0, #8
	strb.w	r0, [sp, #155]
	ldr	r0, [sp, #100]                  @ 4-byte Reload
	lsrs	r2, r2, #16
	strb.w	r2, [sp, #133]
	strb.w	r2, [sp, #149]
	ldrb	r2, [r4, #11]
	adds	r5, r6, r0
	movs	r0, #2
	strd	r0, r8, [sp, #8]
	ldr	r0, [sp, #48]                   @ 4-byte Reload
	strb.w	r2, [sp, #135]
	strb.w	r2, [sp, #151]
	strb.w	r1, [sp, #154]
	mov	r2, r9
	mov	r3, r7
	add	r1, sp, #124
	str	r1, [sp]
	bl	gcm_v7m.aes_soft.soft.blocks.filled_up.process_filled_up
	ldrb.w	lr, [r5, #1]
	ldrb.w	r1, [sp, #125]
	ldrb	r7, [r5, #2]
	ldrb.w	r9, [sp, #126]
	eor.w	r1, r1, lr
	ldrb.w	r11, [r5, #3]
	str	r1, [sp, #88]                   @ 4-byte Spill
	ldrb.w	r1, [sp, #127]
	eor.w	r7, r7, r9
	ldrb	r0, [r5, #4]
	str	r7, [sp, #84]                   @ 4-byte Spill
	ldrb.w	r7, [sp, #128]
	eor.w	r1, r1, r11
	ldrb	r2, [r5, #6]
	ldrb	r3, [r5, #5]
	str	r1, [sp, #80]                   @ 4-byte Spill
	ldrb.w	r1, [sp, #129]
	eors	r0, r7
	ldrb.w	r7, [sp, #130]
	ldrb.w	r8, [r5, #8]
	ldrb	r4, [r5, #7]
	str	r0, [sp, #76]                   @ 4-byte Spill
	eor.w	r0, r1, r3
	ldrb.w	r1, [sp, #131]
	eor.w	r11, r7, r2
	ldrb.w	r7, [sp, #132]
	ldrb.w	r10, [r5, #10]
	ldrb.w	r12, [r5, #9]
	eor.w	r9, r1, r4
	ldrb.w	r1, [sp, #133]
	eor.w	lr, r7, r8
	ldrb.w	r7, [sp, #134]
	ldrb	r6, [r5, #12]
	str	r0, [sp, #72]                   @ 4-byte Spill
	eor.w	r12, r12, r1
	ldrb	r1, [r5, #11]
	eor.w	r7, r7, r10
	ldrb.w	r0, [sp, #135]
	ldrb.w	r10, [sp, #136]
	eor.w	r3, r0, r1
	eor.w	r10, r10, r6
	ldrb	r1, [r5, #14]
	ldrb.w	r6, [sp, #138]
	ldrb.w	r8, [r5, #13]
	ldrb.w	r4, [sp, #137]
	eor.w	r2, r6, r1
	ldrd	r0, r1, [sp, #96]               @ 8-byte Folded Reload
	eor.w	r8, r8, r4
	ldrb	r6, [r0, r1]
	ldrb	r4, [r5, #15]
	ldrb.w	r0, [sp, #139]
	ldrb.w	r1, [sp, #124]
	eors	r0, r4
	strb	r0, [r5, #15]
	ldr	r0, [sp, #72]                   @ 4-byte Reload
	strb	r2, [r5, #14]
	strb	r0, [r5, #5]
	ldr	r0, [sp, #76]                   @ 4-byte Reload
	ldr	r2, [sp, #100]                  @ 4-byte Reload
	strb	r0, [r5, #4]
	ldr	r0, [sp, #80]                   @ 4-byte Reload
	eors	r1, r6
	ldrd	r4, r6, [sp, #96]               @ 8-byte Folded Reload
	strb	r0, [r5, #3]
	ldr	r0, [sp, #84]                   @ 4-byte Reload
	adds	r2, #32
	str	r2, [sp, #100]                  @ 4-byte Spill
	strb	r1, [r4, r6]
	strb	r3, [r5, #11]
	strb	r0, [r5, #2]
	ldr	r0, [sp, #88]                   @ 4-byte Reload
	ldr	r6, [sp, #92]                   @ 4-byte Reload
	ldr	r2, [sp, #100]                  @ 4-byte Reload
	ldr	r3, [sp, #56]                   @ 4-byte Reload
	strb	r0, [r5, #1]
	ldrb	r0, [r5, #27]
	adc	r6, r6, #0
	subs	r3, r3, r2
	ldr	r2, [sp, #52]                   @ 4-byte Reload
	strb.w	r10, [r5, #12]
	str	r0, [sp, #88]                   @ 4-byte Spill
	ldrb	r0, [r5, #26]
	mov	r10, r6
	sbc.w	r6, r2, r6
	rsbs.w	r3, r3, #31
	mov.w	r2, #0
	sbcs.w	r6, r2, r6
	str	r0, [sp, #84]                   @ 4-byte Spill
	ldrb	r0, [r5, #16]
	ldrb.w	r6, [sp, #140]
	strb	r7, [r5, #10]
	ldrb	r7, [r5, #17]
	ldrb.w	r2, [sp, #141]
	strb.w	r11, [r5, #6]
	ldrb.w	r11, [r5, #18]
	eor.w	r0, r0, r6
	ldrb.w	r6, [sp, #142]
	ldrb	r3, [r5, #19]
	str	r0, [sp, #92]                   @ 4-byte Spill
	eor.w	r0, r2, r7
	ldrb.w	r2, [sp, #143]
	ldrb	r4, [r5, #20]
	str	r0, [sp, #80]                   @ 4-byte Spill
	eor.w	r0, r6, r11
	ldrb.w	r6, [sp, #144]
	ldrb	r1, [r5, #21]
	str	r0, [sp, #76]                   @ 4-byte Spill
	eor.w	r0, r2, r3
	ldrb.w	r2, [sp, #145]
	str	r0, [sp, #72]                   @ 4-byte Spill
	eor.w	r0, r6, r4
	strb.w	r9, [r5, #7]
	ldrb.w	r9, [r5, #22]
	str	r0, [sp, #68]                   @ 4-byte Spill
	ldrb.w	r6, [sp, #146]
	eor.w	r0, r2, r1
	strb.w	r8, [r5, #13]
	ldrb.w	r8, [r5, #23]
	str	r0, [sp, #64]                   @ 4-byte Spill
	ldrb.w	r0, [sp, #147]
	eor.w	r1, r6, r9
	strb.w	r12, [r5, #9]
	ldrb.w	r12, [r5, #24]
	str	r1, [sp, #60]                   @ 4-byte Spill
	ldrb.w	r6, [sp, #148]
	eor.w	r9, r0, r8
	ldrb.w	r0, [sp, #150]
	ldr	r1, [sp, #84]                   @ 4-byte Reload
	strb.w	lr, [r5, #8]
	ldrb.w	lr, [r5, #25]
	ldrb.w	r2, [sp, #149]
	eor.w	r8, r6, r12
	ldrb.w	r6, [sp, #151]
	eor.w	r4, r0, r1
	ldr	r0, [sp, #88]                   @ 4-byte Reload
	eor.w	r7, r2, lr
	ldrb	r3, [r5, #29]
	eor.w	r6, r6, r0
	ldrb	r2, [r5, #28]
	ldrb.w	r0, [sp, #152]
	ldrb.w	r1, [sp, #153]
	eor.w	lr, r0, r2
	eor.w	r12, r1, r3
	ldrb	r2, [r5, #31]
	ldrb.w	r1, [sp, #155]
	ldrb	r3, [r5, #30]
	eor.w	r1, r1, r2
	strb	r1, [r5, #31]
	ldr	r1, [sp, #60]                   @ 4-byte Reload
	ldrb.w	r0, [sp, #154]
	strb	r1, [r5, #22]
	ldr	r1, [sp, #64]                   @ 4-byte Reload
	eor.w	r0, r0, r3
	strb	r1, [r5, #21]
	ldr	r1, [sp, #68]                   @ 4-byte Reload
	strb	r0, [r5, #30]
	strb	r1, [r5, #20]
	ldr	r1, [sp, #72]                   @ 4-byte Reload
	strb.w	r12, [r5, #29]
	strb	r1, [r5, #19]
	ldr	r1, [sp, #76]                   @ 4-byte Reload
	ldr	r0, [sp, #100]                  @ 4-byte Reload
	strb	r1, [r5, #18]
	ldr	r1, [sp, #80]                   @ 4-byte Reload
	strb.w	lr, [r5, #28]
	strb	r1, [r5, #17]
	ldr	r1, [sp, #92]                   @ 4-byte Reload
	strb	r6, [r5, #27]
	ldr.w	r11, [sp, #36]                  @ 4-byte Reload
	strb	r4, [r5, #26]
	ldr	r4, [sp, #44]                   @ 4-byte Reload
	strb	r7, [r5, #25]
	ldr	r6, [sp, #96]                   @ 4-byte Reload
	strb.w	r8, [r5, #24]
	strb.w	r9, [r5, #23]
	ldr	r7, [sp, #32]                   @ 4-byte Reload
	ldr.w	r9, [sp, #28]                   @ 4-byte Reload
	strb	r1, [r5, #16]
	ldr	r5, [sp, #40]                   @ 4-byte Reload
	blo.w	.Lgcm_v7m_BB22_5
	b	.Lgcm_v7m_BB22_7
	.p2align	2
.Lgcm_v7m_BB22_6:
	mov	r10, lr
.Lgcm_v7m_BB22_7:                               @ %loop.13.preheader.i.i
	ldr.w	r8, [sp, #56]                   @ 4-byte Reload
	ldr	r7, [sp, #52]                   @ 4-byte Reload
	subs.w	r1, r0, r8
	sbcs.w	r1, r10, r7
	mov	r1, r10
	bhs	.Lgcm_v7m_BB22_9
	.p2align	2
.Lgcm_v7m_BB22_8:                               @ %join.16.i.i
                                        @ =>This Inner Loop Header: Depth=1
	strd	r0, r1, [sp]
	add	r0, sp, #104
	mov	r1, r4
	mov	r2, r5
	mov	r3, r11
	strd	r8, r7, [sp, #16]
	str	r6, [sp, #8]
	bl	gcm_v7m.aes_ctr.add_in_batches.add_next.1
	subs.w	r2, r0, r8
	sbcs.w	r2, r1, r7
	blo	.Lgcm_v7m_BB22_8
.Lgcm_v7m_BB22_9:                               @ %"aes_ctr::add_in_batches::AddStreamBlockCipherEncClosure::call::<#5af79e2f176a0632>.exit"
	add	sp, #380
	pop.w	{r4, r5, r6, r7, r8, r9, r10, r11, pc}
.Lgcm_v7m_func_end22:
	.size	gcm_v7m.aes_narrow.borrowed_words.call_to_encrypt.1, .Lgcm_v7m_func_end22-gcm_v7m.aes_narrow.borrowed_words.call_to_encrypt.1
	.cantunwind
	.fnend
                                        @ -- End function
	.section	.text.gcm_v7m.aes_ctr.add_in_batches.add_next.1,"ax",%progbits
	.p2align	2                               @ -- Begin function aes_ctr::add_in_batches::add_next::<#8f445e75de4b0592>
	.type	gcm_v7m.aes_ctr.add_in_batches.add_next.1,%function
	.code	16
	.thumb_func
gcm_v7m.aes_ctr.add_in_batches.add_next.1: @ @gcm_v7m.aes_ctr.add_in_batches.add_next.1
	.fnstart
@ %bb.0:                                @ %start
	.save	{r4, r5, r6, r7, r8, r9, r10, r11, lr}
	push.w	{r4, r5, r6, r7, r8, r9, r10, r11, lr}
	.pad	#332
	sub	sp, #332
	ldrd	r9, r10, [sp, #368]
	mov	r8, r0
	ldrd	r7, r4, [sp, #384]
	adds.w	r0, r9, r2
	and	r6, r0, #15
	mov	r5, r1
	adc.w	r1, r10, r3
	rsb.w	r11, r6, #32
	subs.w	r2, r7, r9
	sbc.w	r3, r4, r10
	subs.w	r7, r2, r11
	sbcs	r7, r3, #0
	it	lo
	movlo	r11, r2
	mov.w	r2, #0
	it	lo
	movlo	r2, #1
	cmp	r2, #0
	it	ne
	movne	r2, r3
	strd	r6, r2, [sp, #24]               @ 8-byte Folded Spill
	add.w	r2, r6, r11
	lsrs	r0, r0, #4
	add	r4, sp, #76
	add.w	r7, r2, #15
	orr.w	r6, r0, r1, lsl #28
	add.w	r0, r4, #32
	movs	r1, #0
	movs	r2, #224
	bl	memset
	ldr	r0, [r5, #12]
	ldrb	r1, [r5, #1]
	rev	r0, r0
	add	r0, r6
	lsrs	r2, r0, #24
	strb.w	r2, [sp, #88]
	lsrs	r2, r0, #16
	strb.w	r2, [sp, #89]
	lsrs	r2, r0, #8
	strb.w	r2, [sp, #90]
	ldrb	r2, [r5]
	lsls	r1, r1, #16
	orr.w	r1, r1, r2, lsl #24
	strb.w	r2, [sp, #76]
	strb.w	r2, [sp, #92]
	ldrb	r2, [r5, #2]
	lsrs	r1, r1, #16
	strb.w	r1, [sp, #77]
	strb.w	r1, [sp, #93]
	ldr	r1, [r5, #4]
	strb.w	r2, [sp, #78]
	strb.w	r2, [sp, #94]
	ldrb	r2, [r5, #3]
	rev	r1, r1
	strb.w	r2, [sp, #79]
	strb.w	r2, [sp, #95]
	lsrs	r2, r1, #24
	strb.w	r2, [sp, #80]
	strb.w	r2, [sp, #96]
	lsrs	r2, r1, #16
	strb.w	r2, [sp, #81]
	strb.w	r2, [sp, #97]
	uxth	r2, r1
	lsrs	r2, r2, #8
	strb.w	r2, [sp, #82]
	strb.w	r2, [sp, #98]
	ldrb	r2, [r5, #9]
	strb.w	r1, [sp, #83]
	strb.w	r1, [sp, #99]
	ldrb	r1, [r5, #8]
	lsls	r2, r2, #16
	orr.w	r2, r2, r1, lsl #24
	strb.w	r1, [sp, #84]
	strb.w	r1, [sp, #100]
	lsrs	r1, r2, #16
	strb.w	r1, [sp, #85]
	strb.w	r1, [sp, #101]
	ldrb	r1, [r5, #10]
	strb.w	r0, [sp, #91]
	strb.w	r1, [sp, #86]
	strb.w	r1, [sp, #102]
	adds	r1, r0, #1
	lsrs	r0, r1, #24
	strb.w	r0, [sp, #104]
	lsrs	r0, r1, #16
	ldrb	r2, [r5, #11]
	strb.w	r0, [sp, #105]
	lsrs	r0, r1, #8
	strb.w	r0, [sp, #106]
	and	r0, r7, #112
	strb.w	r2, [sp, #87]
	strb.w	r2, [sp, #103]
	cmp	r0, #16
	ldr.w	r0, [r8]
	ldr.w	r2, [r8, #8]
	ldr.w	r3, [r8, #12]
	mov.w	r7, #0
	strb.w	r1, [sp, #107]
	ite	ne
	movne	r1, #2
	moveq	r1, #1
	strd	r1, r7, [sp, #8]
	str	r4, [sp]
	bl	gcm_v7m.aes_soft.soft.blocks.filled_up.process_filled_up
	mov	r7, r4
	ldr	r0, [sp, #376]
	ldr	r4, [sp, #24]                   @ 4-byte Reload
	ldr.w	r8, [sp, #28]                   @ 4-byte Reload
	add	r0, r9
	mov.w	r2, #0
	str	r0, [sp, #72]                   @ 4-byte Spill
	cbz	r4, .Lgcm_v7m_BB23_4
@ %bb.1:                                @ %then.1.i
	rsb.w	lr, r4, #16
	subs.w	r0, r11, lr
	sbcs	r0, r8, #0
	ldr	r0, [sp, #384]
	ldr	r1, [sp, #388]
	itt	lo
	movlo	r2, #1
	movlo	lr, r11
	cmp	r2, #0
	eor.w	r0, r0, r9
	eor.w	r1, r1, r10
	it	ne
	movne	r2, r8
	orrs	r0, r1
	beq	.Lgcm_v7m_BB23_11
@ %bb.2:                                @ %join.8.i85.preheader
	subs.w	r0, lr, #4
	sbcs	r0, r2, #0
	and	r3, lr, #3
	bhs	.Lgcm_v7m_BB23_5
@ %bb.3:
	movs	r5, #0
	b	.Lgcm_v7m_BB23_8
	.p2align	2
.Lgcm_v7m_BB23_4:
	mov.w	lr, #0
	b	.Lgcm_v7m_BB23_11
	.p2align	2
.Lgcm_v7m_BB23_5:                               @ %join.8.i85.preheader.new
	ldr	r0, [sp, #72]                   @ 4-byte Reload
	and	r9, lr, #28
	movs	r5, #0
	mov	r12, r4
	mov	r10, r7
	movs	r7, #0
	str	r3, [sp, #68]                   @ 4-byte Spill
	.p2align	2
.Lgcm_v7m_BB23_6:                               @ %join.8.i85
                                        @ =>This Inner Loop Header: Depth=1
	orr	r6, r5, #1
	add.w	r4, r6, r12
	ldrb.w	r4, [r10, r4]
	ldrb	r3, [r0, r6]
	ldr	r0, [sp, #72]                   @ 4-byte Reload
	eors	r3, r4
	ldr	r4, [sp, #72]                   @ 4-byte Reload
	add.w	r1, r5, r12
	strb	r3, [r4, r6]
	orr	r3, r5, #2
	ldr	r6, [sp, #72]                   @ 4-byte Reload
	add.w	r4, r3, r12
	ldrb.w	r1, [r10, r1]
	ldrb	r0, [r0, r5]
	ldrb.w	r4, [r10, r4]
	ldrb	r6, [r6, r3]
	eors	r0, r1
	eor.w	r1, r6, r4
	ldr	r4, [sp, #72]                   @ 4-byte Reload
	ldr	r6, [sp, #72]                   @ 4-byte Reload
	strb	r1, [r4, r3]
	orr	r1, r5, #3
	ldr	r4, [sp, #72]                   @ 4-byte Reload
	add.w	r3, r1, r12
	ldrb.w	r3, [r10, r3]
	ldrb	r4, [r4, r1]
	strb	r0, [r6, r5]
	adds	r5, #4
	eor.w	r0, r4, r3
	adc	r7, r7, #0
	eor.w	r3, r5, r9
	orrs	r3, r7
	ldr	r3, [sp, #72]                   @ 4-byte Reload
	strb	r0, [r3, r1]
	ldr	r0, [sp, #72]                   @ 4-byte Reload
	bne	.Lgcm_v7m_BB23_6
@ %bb.7:                                @ %join.3.i.loopexit.unr-lcssa
	ldr	r3, [sp, #68]                   @ 4-byte Reload
	mov	r7, r10
	ldrd	r9, r10, [sp, #368]
	mov	r4, r12
	cbz	r3, .Lgcm_v7m_BB23_11
.Lgcm_v7m_BB23_8:                               @ %join.8.i85.epil.preheader
	ldr	r6, [sp, #72]                   @ 4-byte Reload
	adds	r0, r5, r4
	ldrb	r0, [r7, r0]
	ldrb	r1, [r6, r5]
	cmp	r3, #1
	eor.w	r0, r0, r1
	strb	r0, [r6, r5]
	beq	.Lgcm_v7m_BB23_11
@ %bb.9:                                @ %join.8.i85.epil.1
	add.w	r12, r5, #1
	add.w	r1, r12, r4
	ldrb	r1, [r7, r1]
	mov	r0, r3
	ldrb.w	r3, [r6, r12]
	cmp	r0, #2
	eor.w	r1, r1, r3
	strb.w	r1, [r6, r12]
	beq	.Lgcm_v7m_BB23_11
@ %bb.10:                               @ %join.8.i85.epil.2
	adds	r0, r5, #2
	adds	r1, r0, r4
	ldrb	r1, [r7, r1]
	ldrb	r3, [r6, r0]
	eors	r1, r3
	strb	r1, [r6, r0]
.Lgcm_v7m_BB23_11:                              @ %join.3.i
	subs.w	r6, r11, lr
	sbc.w	r5, r8, r2
	subs.w	r0, r6, #16
	sbcs	r0, r5, #0
	blo.w	.Lgcm_v7m_BB23_15
@ %bb.12:                               @ %join.8.i.preheader
	str.w	r11, [sp, #20]                  @ 4-byte Spill
	.p2align	2
.Lgcm_v7m_BB23_13:                              @ %join.8.i
                                        @ =>This Inner Loop Header: Depth=1
	add.w	r0, lr, r4
	ldr.w	r8, [sp, #72]                   @ 4-byte Reload
	bic	r0, r0, #15
	adds	r6, r7, r0
	add.w	r3, r8, lr
	str	r0, [sp, #64]                   @ 4-byte Spill
	ldrb	r0, [r3, #10]
	ldrb	r1, [r3, #1]
	ldrb	r5, [r6, #1]
	str	r0, [sp, #44]                   @ 4-byte Spill
	ldrb	r4, [r3, #2]
	ldrb	r0, [r6, #2]
	eors	r1, r5
	ldrb	r7, [r3, #3]
	str	r1, [sp, #60]                   @ 4-byte Spill
	ldrb	r1, [r6, #3]
	str	r2, [sp, #68]                   @ 4-byte Spill
	ldrb	r2, [r3, #4]
	eors	r0, r4
	ldrb	r4, [r6, #4]
	ldrb.w	r9, [r3, #5]
	str	r0, [sp, #56]                   @ 4-byte Spill
	eor.w	r0, r1, r7
	ldrb	r1, [r6, #5]
	ldrb.w	r10, [r3, #6]
	str	r0, [sp, #52]                   @ 4-byte Spill
	eor.w	r0, r4, r2
	ldrb	r4, [r6, #6]
	ldrb.w	r12, [r3, #7]
	str	r0, [sp, #48]                   @ 4-byte Spill
	eor.w	r0, r1, r9
	ldrb	r1, [r6, #7]
	ldrb.w	r11, [r3, #8]
	str	r0, [sp, #40]                   @ 4-byte Spill
	eor.w	r0, r4, r10
	ldrb	r4, [r6, #8]
	str	r0, [sp, #36]                   @ 4-byte Spill
	eor.w	r0, r1, r12
	str	r0, [sp, #32]                   @ 4-byte Spill
	ldrb	r5, [r3, #9]
	eor.w	r11, r11, r4
	ldrb	r4, [r6, #9]
	ldrb	r1, [r6, #10]
	ldr	r0, [sp, #44]                   @ 4-byte Reload
	eor.w	r10, r4, r5
	eor.w	r9, r1, r0
	ldrb	r5, [r3, #12]
	ldrb	r2, [r3, #11]
	ldrb	r0, [r6, #11]
	ldrb	r1, [r6, #12]
	eor.w	r7, r0, r2
	eor.w	r4, r1, r5
	ldrb	r2, [r3, #14]
	ldrb	r1, [r6, #14]
	ldrb	r5, [r3, #13]
	ldrb	r0, [r6, #13]
	eors	r1, r2
	ldr	r2, [sp, #64]                   @ 4-byte Reload
	eor.w	r12, r0, r5
	add	r0, sp, #76
	ldrb	r2, [r0, r2]
	ldrb.w	r0, [r8, lr]
	ldrb	r5, [r6, #15]
	eors	r0, r2
	strb.w	r0, [r8, lr]
	ldr	r0, [sp, #32]                   @ 4-byte Reload
	ldrb	r6, [r3, #15]
	strb	r0, [r3, #7]
	ldr	r0, [sp, #36]                   @ 4-byte Reload
	ldr	r2, [sp, #68]                   @ 4-byte Reload
	strb	r0, [r3, #6]
	ldr	r0, [sp, #40]                   @ 4-byte Reload
	strb.w	r11, [r3, #8]
	strb	r0, [r3, #5]
	ldr	r0, [sp, #48]                   @ 4-byte Reload
	ldr.w	r11, [sp, #20]                  @ 4-byte Reload
	strb	r0, [r3, #4]
	ldr	r0, [sp, #52]                   @ 4-byte Reload
	adds.w	lr, lr, #16
	ldr.w	r8, [sp, #28]                   @ 4-byte Reload
	strb	r0, [r3, #3]
	ldr	r0, [sp, #56]                   @ 4-byte Reload
	eor.w	r5, r5, r6
	adc	r2, r2, #0
	subs.w	r6, r11, lr
	strb	r5, [r3, #15]
	strb	r0, [r3, #2]
	sbc.w	r5, r8, r2
	rsbs.w	r0, r6, #15
	mov.w	r0, #0
	sbcs	r0, r5
	strb	r4, [r3, #12]
	ldr	r4, [sp, #24]                   @ 4-byte Reload
	ldr	r0, [sp, #60]                   @ 4-byte Reload
	strb	r7, [r3, #11]
	add	r7, sp, #76
	strb	r1, [r3, #14]
	strb.w	r12, [r3, #13]
	strb.w	r9, [r3, #10]
	strb.w	r10, [r3, #9]
	strb	r0, [r3, #1]
	blo.w	.Lgcm_v7m_BB23_13
@ %bb.14:
	ldrd	r9, r10, [sp, #368]
.Lgcm_v7m_BB23_15:                              @ %after.4.i
	subs.w	r0, lr, r11
	sbcs.w	r0, r2, r8
	bhs	.Lgcm_v7m_BB23_25
@ %bb.16:                               @ %then.9.i
	orrs.w	r0, r6, r5
	beq	.Lgcm_v7m_BB23_25
@ %bb.17:                               @ %join.8.i28.preheader
	add.w	r0, lr, r4
	bic	r0, r0, #15
	adds	r1, r7, r0
	ldr	r0, [sp, #72]                   @ 4-byte Reload
	subs	r2, r6, #4
	add	r0, lr
	sbcs	r2, r5, #0
	and	r12, r6, #3
	bhs	.Lgcm_v7m_BB23_19
@ %bb.18:
	movs	r3, #0
	b	.Lgcm_v7m_BB23_22
	.p2align	2
.Lgcm_v7m_BB23_19:                              @ %join.8.i28.preheader.new
	and	r7, r6, #12
	movs	r3, #0
	movs	r6, #0
	.p2align	2
.Lgcm_v7m_BB23_20:                              @ %join.8.i28
                                        @ =>This Inner Loop Header: Depth=1
	ldrb	r5, [r1, r3]
	ldrb	r4, [r0, r3]
	eors	r5, r4
	strb	r5, [r0, r3]
	orr	r5, r3, #1
	ldrb	r4, [r1, r5]
	ldrb	r2, [r0, r5]
	eors	r2, r4
	strb	r2, [r0, r5]
	orr	r2, r3, #2
	ldrb	r5, [r1, r2]
	ldrb	r4, [r0, r2]
	eors	r5, r4
	strb	r5, [r0, r2]
	orr	r2, r3, #3
	ldrb	r5, [r1, r2]
	ldrb	r4, [r0, r2]
	adds	r3, #4
	eor.w	r5, r5, r4
	adc	r6, r6, #0
	eor.w	r4, r3, r7
	orrs	r4, r6
	strb	r5, [r0, r2]
	bne	.Lgcm_v7m_BB23_20
@ %bb.21:                               @ %"aes_ctr::add_blocks::add_blocks.exit.loopexit.unr-lcssa"
	cmp.w	r12, #0
	beq	.Lgcm_v7m_BB23_25
.Lgcm_v7m_BB23_22:                              @ %join.8.i28.epil.preheader
	ldrb	r2, [r1, r3]
	ldrb	r7, [r0, r3]
	cmp.w	r12, #1
	eor.w	r2, r2, r7
	strb	r2, [r0, r3]
	beq	.Lgcm_v7m_BB23_25
@ %bb.23:                               @ %join.8.i28.epil.1
	adds	r2, r3, #1
	ldrb	r7, [r1, r2]
	ldrb	r6, [r0, r2]
	cmp.w	r12, #2
	eor.w	r7, r7, r6
	strb	r7, [r0, r2]
	beq	.Lgcm_v7m_BB23_25
@ %bb.24:                               @ %join.8.i28.epil.2
	adds	r2, r3, #2
	ldrb	r1, [r1, r2]
	ldrb	r3, [r0, r2]
	eors	r1, r3
	strb	r1, [r0, r2]
.Lgcm_v7m_BB23_25:                              @ %"aes_ctr::add_blocks::add_blocks.exit"
	adds.w	r0, r11, r9
	adc.w	r1, r8, r10
	add	sp, #332
	pop.w	{r4, r5, r6, r7, r8, r9, r10, r11, pc}
.Lgcm_v7m_func_end23:
	.size	gcm_v7m.aes_ctr.add_in_batches.add_next.1, .Lgcm_v7m_func_end23-gcm_v7m.aes_ctr.add_in_batches.add_next.1
	.cantunwind
	.fnend
                                        @ -- End function
	.section	.text.gcm_v7m.aes_cipher.zeroize.stack.wipe_stack.2032,"ax",%progbits
	.p2align	2                               @ -- Begin function aes_cipher::zeroize::stack::wipe_stack::<=2032>
	.type	gcm_v7m.aes_cipher.zeroize.stack.wipe_stack.2032,%function
	.code	16
	.thumb_func
gcm_v7m.aes_cipher.zeroize.stack.wipe_stack.2032: @ @gcm_v7m.aes_cipher.zeroize.stack.wipe_stack.2032
	.fnstart
@ %bb.0:                                @ %start
	.save	{r4, r5, r7, lr}
	push	{r4, r5, r7, lr}
	.pad	#2040
	sub.w	sp, sp, #2040
	add	r4, sp, #8
	mov	r0, r4
	movs	r1, #0
	mov.w	r2, #2032
	movs	r5, #0
	bl	memset
	strd	r5, r5, [sp]
	@APP
	@NO_APP
	mov	r0, sp
	ldrd	r1, r2, [r0]
	@APP
	@NO_APP
	subs.w	r3, r1, #2032
	sbcs	r2, r2, #0
	itt	hs
	addhs.w	sp, sp, #2040
	pophs	{r4, r5, r7, pc}
.Lgcm_v7m_BB24_1:                               @ %then.1
	ldrb	r1, [r4, r1]
	@APP
	@NO_APP
	ldrd	r2, r3, [r0]
	strd	r1, r5, [r0]
	@APP
	@NO_APP
	add.w	sp, sp, #2040
	pop	{r4, r5, r7, pc}
.Lgcm_v7m_func_end24:
	.size	gcm_v7m.aes_cipher.zeroize.stack.wipe_stack.2032, .Lgcm_v7m_func_end24-gcm_v7m.aes_cipher.zeroize.stack.wipe_stack.2032
	.cantunwind
	.fnend
                                        @ -- End function
	.section	.text.gcm_v7m.aes_cipher.zeroize.stack.wipe_stack.1536,"ax",%progbits
	.p2align	2                               @ -- Begin function aes_cipher::zeroize::stack::wipe_stack::<=1536>
	.type	gcm_v7m.aes_cipher.zeroize.stack.wipe_stack.1536,%function
	.code	16
	.thumb_func
gcm_v7m.aes_cipher.zeroize.stack.wipe_stack.1536: @ @gcm_v7m.aes_cipher.zeroize.stack.wipe_stack.1536
	.fnstart
@ %bb.0:                                @ %start
	.save	{r4, r5, r7, lr}
	push	{r4, r5, r7, lr}
	.pad	#1544
	sub.w	sp, sp, #1544
	add	r4, sp, #8
	mov	r0, r4
	movs	r1, #0
	mov.w	r2, #1536
	movs	r5, #0
	bl	memset
	strd	r5, r5, [sp]
	@APP
	@NO_APP
	mov	r0, sp
	ldrd	r1, r2, [r0]
	@APP
	@NO_APP
	subs.w	r3, r1, #1536
	sbcs	r2, r2, #0
	itt	hs
	addhs.w	sp, sp, #1544
	pophs	{r4, r5, r7, pc}
.Lgcm_v7m_BB25_1:                               @ %then.1
	ldrb	r1, [r4, r1]
	@APP
	@NO_APP
	ldrd	r2, r3, [r0]
	strd	r1, r5, [r0]
	@APP
	@NO_APP
	add.w	sp, sp, #1544
	pop	{r4, r5, r7, pc}
.Lgcm_v7m_func_end25:
	.size	gcm_v7m.aes_cipher.zeroize.stack.wipe_stack.1536, .Lgcm_v7m_func_end25-gcm_v7m.aes_cipher.zeroize.stack.wipe_stack.1536
	.cantunwind
	.fnend
                                        @ -- End function
	.section	.text.gcm_v7m.gcm_c.whole.fotsgure_gcm_seal,"ax",%progbits
	.p2align	2                               @ -- Begin function gcm_c::whole::fotsgure_gcm_seal
	.type	gcm_v7m.gcm_c.whole.fotsgure_gcm_seal,%function
	.code	16
	.thumb_func
gcm_v7m.gcm_c.whole.fotsgure_gcm_seal:      @ @gcm_v7m.gcm_c.whole.fotsgure_gcm_seal
	.fnstart
@ %bb.0:                                @ %start
	.save	{r4, r5, r6, r7, r8, r9, r10, r11, lr}
	push.w	{r4, r5, r6, r7, r8, r9, r10, r11, lr}
	.pad	#92
	sub	sp, #92
	orrs.w	r7, r2, r3
	beq	.Lgcm_v7m_BB26_5
@ %bb.1:                                @ %after.11.i
	ldr	r7, [r0]
	movs	r4, #2
	sub.w	r6, r7, #16
	cmp	r6, #16
	bhi	.Lgcm_v7m_BB26_4
@ %bb.2:                                @ %after.11.i
	movs	r5, #1
	lsl.w	r6, r5, r6
	movw	r5, #257
	movt	r5, #1
	tst	r6, r5
	beq	.Lgcm_v7m_BB26_4
@ %bb.3:                                @ %join.3
	movs	r5, #56
	lsrs	r4, r7, #31
	adds.w	r7, r5, r7, lsl #1
	adc	r5, r4, #0
	movs	r4, #0
	adds	r6, r0, #4
	add.w	r0, r0, #484
	strd	r4, r7, [sp, #52]
	add	r7, sp, #48
	ldrd	r9, r11, [sp, #152]
	ldr.w	r8, [sp, #160]
	ldr.w	r10, [sp, #144]
	str	r6, [sp, #48]
	strd	r5, r0, [sp, #60]
	add	r6, sp, #76
	mov	r0, r7
	str	r4, [sp, #68]
	str	r6, [sp]
	bl	gcm_v7m.gcm.mode.BorrowedGcm.put_pre_counter
	mov	r0, r7
	mov	r1, r6
	movs	r2, #16
	movs	r3, #0
	strd	r9, r11, [sp, #8]
	str.w	r10, [sp]
	bl	gcm_v7m.gcm.gctr.add_gctr
	add	r0, sp, #32
	str	r0, [sp, #24]
	ldr	r0, [sp, #136]
	ldr	r2, [sp, #128]
	str	r0, [sp]
	ldr	r0, [sp, #140]
	mov	r1, r6
	str	r0, [sp, #4]
	mov	r0, r7
	strd	r9, r11, [sp, #16]
	str.w	r10, [sp, #8]
	bl	gcm_v7m.gcm.mode.BorrowedGcm.put_tag
	mov	r0, r6
	bl	gcm_v7m.aes_cipher.zeroize.elements.zeroize_elements.2
	bl	gcm_v7m.aes_cipher.zeroize.stack.wipe_stack.1536
	add	r3, sp, #32
	ldr	r2, [sp, #44]
	ldm	r3, {r0, r1, r3}
	str.w	r2, [r8, #12]
	str.w	r3, [r8, #8]
	str.w	r1, [r8, #4]
	str.w	r0, [r8]
.Lgcm_v7m_BB26_4:                               @ %common.ret
	mov	r0, r4
	add	sp, #92
	pop.w	{r4, r5, r6, r7, r8, r9, r10, r11, pc}
	.p2align	2
.Lgcm_v7m_BB26_5:
	movs	r4, #3
	mov	r0, r4
	add	sp, #92
	pop.w	{r4, r5, r6, r7, r8, r9, r10, r11, pc}
.Lgcm_v7m_func_end26:
	.size	gcm_v7m.gcm_c.whole.fotsgure_gcm_seal, .Lgcm_v7m_func_end26-gcm_v7m.gcm_c.whole.fotsgure_gcm_seal
	.cantunwind
	.fnend
                                        @ -- End function
	.section	.text.gcm_v7m.gcm_c.whole_to.copy,"ax",%progbits
	.p2align	2                               @ -- Begin function gcm_c::whole_to::copy
	.type	gcm_v7m.gcm_c.whole_to.copy,%function
	.code	16
	.thumb_func
gcm_v7m.gcm_c.whole_to.copy:                @ @gcm_v7m.gcm_c.whole_to.copy
	.fnstart
@ %bb.0:                                @ %start
	.save	{r4, r5, r6, lr}
	push	{r4, r5, r6, lr}
	ldr.w	r12, [sp, #16]
	mov	r1, r0
	subs.w	lr, r12, r0
	mov.w	r0, #0
	sbc	r4, r0, #0
	subs.w	r0, lr, r2
	sbcs.w	r0, r4, r3
	bhs	.Lgcm_v7m_BB27_3
@ %bb.1:                                @ %join.7.i.i.i.i.i.i.preheader
	subs	r0, r2, #4
	sbcs	r0, r3, #0
	and	lr, r2, #3
	bhs	.Lgcm_v7m_BB27_4
@ %bb.2:
	movs	r2, #0
	b	.Lgcm_v7m_BB27_7
	.p2align	2
.Lgcm_v7m_BB27_3:                               @ %apart.2.i.i.i.i.i.i
	mov	r0, r12
	pop.w	{r4, r5, r6, lr}
	b	memmove
	.p2align	2
.Lgcm_v7m_BB27_4:                               @ %join.7.i.i.i.i.i.i.preheader.new
	bic	r3, r2, #3
	movs	r2, #0
	movs	r0, #0
	.p2align	2
.Lgcm_v7m_BB27_5:                               @ %join.7.i.i.i.i.i.i
                                        @ =>This Inner Loop Header: Depth=1
	ldrb	r4, [r1, r2]
	strb.w	r4, [r12, r2]
	orr	r4, r2, #1
	ldrb	r5, [r1, r4]
	strb.w	r5, [r12, r4]
	orr	r4, r2, #2
	ldrb	r5, [r1, r4]
	strb.w	r5, [r12, r4]
	orr	r4, r2, #3
	adds	r2, #4
	ldrb	r5, [r1, r4]
	adc	r0, r0, #0
	eor.w	r6, r2, r3
	orrs	r6, r0
	strb.w	r5, [r12, r4]
	bne	.Lgcm_v7m_BB27_5
@ %bb.6:                                @ %"core::slice::edits::slice+T::copy_from_slice::<i8,20'core::clone::U8Clone{}>.exit.loopexit.unr-lcssa"
	cmp.w	lr, #0
	beq	.Lgcm_v7m_BB27_10
.Lgcm_v7m_BB27_7:                               @ %join.7.i.i.i.i.i.i.epil.preheader
	ldrb	r0, [r1, r2]
	cmp.w	lr, #1
	strb.w	r0, [r12, r2]
	beq	.Lgcm_v7m_BB27_10
@ %bb.8:                                @ %join.7.i.i.i.i.i.i.epil.1
	adds	r0, r2, #1
	ldrb	r3, [r1, r0]
	cmp.w	lr, #2
	strb.w	r3, [r12, r0]
	it	eq
	popeq	{r4, r5, r6, pc}
.Lgcm_v7m_BB27_9:                               @ %join.7.i.i.i.i.i.i.epil.2
	adds	r0, r2, #2
	ldrb	r1, [r1, r0]
	strb.w	r1, [r12, r0]
.Lgcm_v7m_BB27_10:                              @ %"core::slice::edits::slice+T::copy_from_slice::<i8,20'core::clone::U8Clone{}>.exit"
	pop	{r4, r5, r6, pc}
.Lgcm_v7m_func_end27:
	.size	gcm_v7m.gcm_c.whole_to.copy, .Lgcm_v7m_func_end27-gcm_v7m.gcm_c.whole_to.copy
	.cantunwind
	.fnend
                                        @ -- End function
	.section	.text.gcm_v7m.gcm_siv.course.open_in,"ax",%progbits
	.p2align	2                               @ -- Begin function gcm_siv::course::open_in::<#dd49eccd619dd2e8>
	.type	gcm_v7m.gcm_siv.course.open_in,%function
	.code	16
	.thumb_func
gcm_v7m.gcm_siv.course.open_in: @ @gcm_v7m.gcm_siv.course.open_in
	.fnstart
@ %bb.0:                                @ %start
	.save	{r4, r5, r6, r7, r8, r9, r10, r11, lr}
	push.w	{r4, r5, r6, r7, r8, r9, r10, r11, lr}
	.pad	#532
	sub.w	sp, sp, #532
	add.w	r11, sp, #32
	add.w	r5, r11, #4
	mov	r6, r2
	mov	r4, r0
	ldr.w	r9, [sp, #568]
	mov	r0, r5
	movs	r1, #0
	mov.w	r2, #480
	mov	r7, r3
	mov.w	r8, #0
	bl	memset
	add.w	r10, sp, #516
	mov	r0, r4
	mov	r2, r6
	mov	r3, r7
	str.w	r8, [sp, #32]
	strd	r9, r11, [sp]
	str.w	r10, [sp, #8]
	bl	gcm_v7m.gcm_siv.keys.derive_and_prepare
	ldr	r0, [sp, #592]
	ldr	r3, [sp, #572]
	str	r0, [sp, #16]
	ldr	r0, [sp, #596]
	ldr	r7, [sp, #584]
	str	r0, [sp, #20]
	ldr	r0, [sp, #600]
	mov	r1, r10
	str	r0, [sp, #24]
	ldr	r0, [sp, #576]
	mov	r2, r9
	str	r0, [sp]
	ldr	r0, [sp, #580]
	str	r7, [sp, #8]
	str	r0, [sp, #4]
	mov	r0, r11
	bl	gcm_v7m.gcm_siv.message.open
	mov	r4, r0
	mov	r0, r5
	movs	r2, #120
	movs	r3, #0
	str.w	r8, [sp, #32]
	bl	gcm_v7m.aes_cipher.zeroize.elements.zeroize_elements.1
	mov	r0, r10
	movs	r2, #4
	movs	r3, #0
	bl	gcm_v7m.aes_cipher.zeroize.elements.zeroize_elements.1
	bl	gcm_v7m.aes_cipher.zeroize.stack.wipe_stack.2816
	mov	r0, r4
	add.w	sp, sp, #532
	pop.w	{r4, r5, r6, r7, r8, r9, r10, r11, pc}
.Lgcm_v7m_func_end28:
	.size	gcm_v7m.gcm_siv.course.open_in, .Lgcm_v7m_func_end28-gcm_v7m.gcm_siv.course.open_in
	.cantunwind
	.fnend
                                        @ -- End function
	.section	.text.gcm_v7m.gcm_siv.keys.derive_and_prepare,"ax",%progbits
	.p2align	2                               @ -- Begin function gcm_siv::keys::derive_and_prepare::<#dd49eccd619dd2e8>
	.type	gcm_v7m.gcm_siv.keys.derive_and_prepare,%function
	.code	16
	.thumb_func
gcm_v7m.gcm_siv.keys.derive_and_prepare: @ @gcm_v7m.gcm_siv.keys.derive_and_prepare
	.fnstart
@ %bb.0:                                @ %start
	.save	{r4, r5, r6, r7, r8, r9, r10, r11, lr}
	push.w	{r4, r5, r6, r7, r8, r9, r10, r11, lr}
	.pad	#116
	sub	sp, #116
	ldr	r1, [sp, #152]
	mov	r8, r3
	mov	r11, r2
	ldr	r2, [r1]
	ldr	r3, [r1, #8]
	ldr	r6, [r1, #4]
	str	r3, [sp, #32]
	strd	r2, r6, [sp, #24]
	strd	r2, r6, [sp, #40]
	str	r3, [sp, #48]
	strd	r2, r6, [sp, #56]
	str	r3, [sp, #64]
	str	r3, [sp, #80]
	strd	r2, r6, [sp, #72]
	strd	r2, r6, [sp, #88]
	str	r3, [sp, #96]
	ldr	r2, [r1]
	ldr	r3, [r1, #8]
	ldr	r1, [r1, #4]
	lsr.w	r7, r8, #3
	strd	r2, r1, [sp, #104]
	movs	r1, #0
	str	r1, [sp, #20]
	movs	r1, #1
	str	r1, [sp, #36]
	movs	r1, #2
	str	r1, [sp, #52]
	movs	r1, #3
	str	r1, [sp, #68]
	movs	r1, #4
	str	r1, [sp, #84]
	movs	r1, #5
	str	r1, [sp, #100]
	lsr.w	r1, r11, #3
	orr.w	r1, r1, r8, lsl #29
	adds	r5, r1, #2
	ldr	r1, [r0]
	str	r3, [sp, #112]
	ldr	r2, [r0, #8]
	ldr	r3, [r0, #12]
	adc	r0, r7, #0
	ldr.w	r10, [sp, #160]
	add	r6, sp, #20
	strd	r5, r0, [sp, #8]
	mov	r0, r1
	add.w	r9, r6, #16
	str	r6, [sp]
	bl	gcm_v7m.aes_narrow.blocks.process_all_batches
	bl	gcm_v7m.aes_cipher.zeroize.stack.wipe_stack.1024
	ldrd	r6, r7, [sp, #52]
	ldrd	r5, r4, [sp, #68]
	ldrd	r1, r0, [sp, #20]
	ldrd	r3, r2, [sp, #36]
	strd	r6, r7, [sp, #36]
	strd	r5, r4, [sp, #44]
	ldrd	r6, r7, [sp, #84]
	ldrd	r5, r4, [sp, #100]
	str	r6, [sp, #52]
	strd	r7, r5, [sp, #56]
	lsrs.w	r7, r0, #1
	rrx	r7, r1
	and	r1, r1, #1
	ldr	r6, [sp, #156]
	rsbs	r1, r1, #0
	lsrs	r0, r0, #1
	strd	r3, r2, [sp, #28]
	and	r1, r1, #-520093696
	lsrs.w	r2, r2, #1
	orr.w	r0, r0, r3, lsl #31
	str	r4, [sp, #64]
	eor.w	r1, r1, r2
	rrx	r2, r3
	str.w	r0, [r10, #4]
	eor	r0, r11, #16
	adds	r4, r6, #4
	str.w	r2, [r10, #8]
	str.w	r1, [r10, #12]
	orr.w	r5, r0, r8
	mov	r0, r4
	movs	r1, #0
	mov.w	r2, #480
	str.w	r7, [r10]
	bl	memset
	mov	r0, r4
	mov	r1, r9
	cbnz	r5, .Lgcm_v7m_BB29_2
@ %bb.1:                                @ %then.1.i
	movs	r2, #16
	movs	r3, #0
	movs	r4, #16
	b	.Lgcm_v7m_BB29_3
	.p2align	2
.Lgcm_v7m_BB29_2:                               @ %else.2.i
	movs	r2, #32
	movs	r3, #0
	movs	r4, #32
.Lgcm_v7m_BB29_3:                               @ %"gcm_siv::keys::set_encryption_key::<#4ed5dc91d5e47edc>.exit"
	bl	gcm_v7m.aes_narrow.word_room.expand_words
	bl	gcm_v7m.aes_cipher.zeroize.stack.wipe_stack.768
	add	r0, sp, #20
	movs	r2, #6
	movs	r3, #0
	str	r4, [r6]
	bl	gcm_v7m.aes_cipher.zeroize.elements.zeroize_elements.3
	add	sp, #116
	pop.w	{r4, r5, r6, r7, r8, r9, r10, r11, pc}
.Lgcm_v7m_func_end29:
	.size	gcm_v7m.gcm_siv.keys.derive_and_prepare, .Lgcm_v7m_func_end29-gcm_v7m.gcm_siv.keys.derive_and_prepare
	.cantunwind
	.fnend
                                        @ -- End function
	.section	.text.gcm_v7m.aes_cipher.zeroize.elements.zeroize_elements.3,"ax",%progbits
	.p2align	2                               @ -- Begin function aes_cipher::zeroize::elements::zeroize_elements::<#82a118249f09cfc6>
	.type	gcm_v7m.aes_cipher.zeroize.elements.zeroize_elements.3,%function
	.code	16
	.thumb_func
gcm_v7m.aes_cipher.zeroize.elements.zeroize_elements.3: @ @gcm_v7m.aes_cipher.zeroize.elements.zeroize_elements.3
	.fnstart
@ %bb.0:                                @ %start
	.save	{r4, r5, r6, lr}
	push	{r4, r5, r6, lr}
	.pad	#8
	sub	sp, #8
	movs	r6, #0
	strd	r6, r6, [sp]
	@APP
	@NO_APP
	mov	r12, sp
	ldrd	r1, r4, [r12]
	@APP
	@NO_APP
	subs	r5, r1, r2
	sbcs.w	r5, r4, r3
	mov.w	r4, #0
	lsl.w	lr, r1, #4
	mov.w	r1, #0
	it	lo
	movlo	r4, #1
	it	lo
	ldrblo.w	r1, [r0, lr]
	subs	r5, r2, #2
	sbcs	r5, r3, #0
	str	r6, [r0, #12]
	str	r6, [r0, #8]
	str	r6, [r0, #4]
	str	r6, [r0]
	blo	.Lgcm_v7m_BB30_6
@ %bb.1:                                @ %join.6.i.1
	eor	r6, r2, #2
	movs	r5, #0
	orrs	r6, r3
	str	r5, [r0, #28]
	str	r5, [r0, #24]
	str	r5, [r0, #20]
	str	r5, [r0, #16]
	beq	.Lgcm_v7m_BB30_6
@ %bb.2:                                @ %join.6.i.2
	subs	r6, r2, #4
	sbcs	r6, r3, #0
	str	r5, [r0, #44]
	str	r5, [r0, #40]
	str	r5, [r0, #36]
	str	r5, [r0, #32]
	blo	.Lgcm_v7m_BB30_6
@ %bb.3:                                @ %join.6.i.3
	eor	r6, r2, #4
	orrs	r6, r3
	str	r5, [r0, #60]
	str	r5, [r0, #56]
	str	r5, [r0, #52]
	str	r5, [r0, #48]
	beq	.Lgcm_v7m_BB30_6
@ %bb.4:                                @ %join.6.i.4
	subs	r2, #6
	sbcs	r2, r3, #0
	str	r5, [r0, #76]
	str	r5, [r0, #72]
	str	r5, [r0, #68]
	str	r5, [r0, #64]
	blo	.Lgcm_v7m_BB30_6
@ %bb.5:                                @ %join.6.i.5
	movs	r2, #0
	str	r2, [r0, #92]
	str	r2, [r0, #88]
	str	r2, [r0, #84]
	str	r2, [r0, #80]
.Lgcm_v7m_BB30_6:                               @ %"aes_cipher::zeroize::overwrite::<#8c2be25e1e7027ab>.exit"
	movs	r3, #0
	movs	r2, #0
	cmp	r4, #0
	itt	ne
	ldrbne.w	r0, [r0, lr]
	andne.w	r3, r0, r1
	@APP
	@NO_APP
	ldrd	r0, r1, [r12]
	strd	r3, r2, [r12]
	@APP
	@NO_APP
	add	sp, #8
	pop	{r4, r5, r6, pc}
.Lgcm_v7m_func_end30:
	.size	gcm_v7m.aes_cipher.zeroize.elements.zeroize_elements.3, .Lgcm_v7m_func_end30-gcm_v7m.aes_cipher.zeroize.elements.zeroize_elements.3
	.cantunwind
	.fnend
                                        @ -- End function
	.section	.text.gcm_v7m.gcm_siv.message.open,"ax",%progbits
	.p2align	2                               @ -- Begin function gcm_siv::message::open::<#e5fd4d72f9ad47b7>
	.type	gcm_v7m.gcm_siv.message.open,%function
	.code	16
	.thumb_func
gcm_v7m.gcm_siv.message.open: @ @gcm_v7m.gcm_siv.message.open
	.fnstart
@ %bb.0:                                @ %start
	.save	{r4, r5, r6, r7, r8, r9, r10, r11, lr}
	push.w	{r4, r5, r6, r7, r8, r9, r10, r11, lr}
	.pad	#44
	sub	sp, #44
	ldr.w	r9, [sp, #104]
	mov	r4, r2
	ldrd	r8, r11, [sp, #96]
	ldr	r2, [sp, #88]
	mov	r5, r1
	mov	r1, r9
	mov	r10, r3
	mov	r6, r0
	strd	r8, r11, [sp]
	bl	gcm_v7m.gcm_siv.message.process_text
	ldr	r0, [sp, #80]
	mov	r1, r5
	str	r0, [sp]
	ldr	r0, [sp, #84]
	ldr	r5, [sp, #88]
	add	r7, sp, #28
	str	r0, [sp, #4]
	mov	r0, r6
	mov	r2, r4
	mov	r3, r10
	strd	r8, r11, [sp, #16]
	str	r7, [sp, #24]
	str	r5, [sp, #8]
	bl	gcm_v7m.gcm_siv.message.put_tag
	mov	r0, r9
	mov	r1, r7
	bl	gcm_v7m.aes_cipher.blocks.difference
	mov	r4, r0
	mov	r0, r7
	movs	r2, #1
	movs	r3, #0
	bl	gcm_v7m.aes_cipher.zeroize.elements.zeroize_elements.3
	cbz	r4, .Lgcm_v7m_BB31_2
@ %bb.1:                                @ %join.3
	ldrd	r7, r3, [sp, #96]
	mov	r0, r6
	mov	r1, r9
	mov	r2, r5
	strd	r7, r3, [sp]
	bl	gcm_v7m.gcm_siv.message.process_text
.Lgcm_v7m_BB31_2:                               @ %common.ret
	clz	r0, r4
	lsrs	r0, r0, #5
	add	sp, #44
	pop.w	{r4, r5, r6, r7, r8, r9, r10, r11, pc}
.Lgcm_v7m_func_end31:
	.size	gcm_v7m.gcm_siv.message.open, .Lgcm_v7m_func_end31-gcm_v7m.gcm_siv.message.open
	.cantunwind
	.fnend
                                        @ -- End function
	.section	.text.gcm_v7m.gcm_siv.message.put_tag,"ax",%progbits
	.p2align	2                               @ -- Begin function gcm_siv::message::put_tag::<#e5fd4d72f9ad47b7>
	.type	gcm_v7m.gcm_siv.message.put_tag,%function
	.code	16
	.thumb_func
gcm_v7m.gcm_siv.message.put_tag: @ @gcm_v7m.gcm_siv.message.put_tag
	.fnstart
@ %bb.0:                                @ %start
	.save	{r4, r5, r6, r7, r8, r9, r10, r11, lr}
	push.w	{r4, r5, r6, r7, r8, r9, r10, r11, lr}
	.setfp	r7, sp, #12
	add	r7, sp, #12
	.pad	#76
	sub	sp, #76
	mov	r4, sp
	bfc	r4, #0, #4
	mov	sp, r4
	str	r0, [sp, #44]                   @ 4-byte Spill
	ldr	r0, [r7, #32]
	ldr	r6, [r7, #48]
	str	r0, [sp, #32]                   @ 4-byte Spill
	ldrd	r10, r0, [r7, #40]
	mov	r4, r3
	str	r0, [sp, #28]                   @ 4-byte Spill
	mov	r5, r2
	ldrd	r9, r0, [r7, #24]
	ldr	r3, [r1]
	ldr.w	r11, [r1, #4]
	ldr	r2, [r1, #12]
	ldr.w	r8, [r1, #8]
	str	r3, [sp, #36]                   @ 4-byte Spill
	str	r2, [sp, #40]                   @ 4-byte Spill
	strd	r8, r2, [sp, #56]
	strd	r3, r11, [sp, #48]
	strd	r9, r0, [sp, #16]
	movs	r0, #0
	strd	r0, r0, [sp]
	add	r0, sp, #48
	movs	r2, #0
	movs	r3, #0
	str	r4, [sp, #8]
	bl	gcm_v7m.gcm.single_blocks.hash_singly.2
	mov	r4, r0
	ldr	r0, [sp, #28]                   @ 4-byte Reload
	strd	r2, r3, [sp]
	strd	r10, r0, [sp, #16]
	mov	r3, r1
	ldr	r1, [sp, #32]                   @ 4-byte Reload
	add	r0, sp, #48
	mov	r2, r4
	str	r1, [sp, #8]
	bl	gcm_v7m.gcm.single_blocks.hash_singly.2
	mvn	r12, #248
	and.w	lr, r12, r10, lsl #3
	and	r4, r10, #31
	orr.w	lr, lr, r4, lsl #3
	and.w	r12, r12, r9, lsl #3
	and	r4, r9, #31
	orr.w	r4, r12, r4, lsl #3
	eors	r0, r4
	ldr	r4, [sp, #36]                   @ 4-byte Reload
	str.w	r8, [sp, #8]
	strd	r4, r11, [sp]
	ldr	r4, [sp, #40]                   @ 4-byte Reload
	eor.w	r2, r2, lr
	eor.w	r1, r1, r9, lsr #29
	eor.w	r3, r3, r10, lsr #29
	str	r4, [sp, #12]
	bl	gcm_v7m.gcm.holes.product_with_holes
	mov	lr, r3
	ldrb	r3, [r5]
	ldrb.w	r12, [r5, #10]
	str	r3, [sp, #40]                   @ 4-byte Spill
	ldrb	r3, [r5, #1]
	ldrb.w	r9, [r5, #4]
	str	r3, [sp, #32]                   @ 4-byte Spill
	ldrb	r3, [r5, #11]
	ldrb.w	r10, [r5, #5]
	eor.w	r3, r3, r2, lsr #24
	str	r3, [sp, #36]                   @ 4-byte Spill
	eor.w	r3, r12, r2, lsr #16
	ldrb.w	r11, [r5, #7]
	ldrb.w	r8, [r5, #8]
	ldrb	r4, [r5, #9]
	str	r3, [sp, #28]                   @ 4-byte Spill
	ldrb	r3, [r5, #6]
	eor.w	r4, r4, r2, lsr #8
	eor.w	r8, r8, r2
	eor.w	r11, r11, r1, lsr #24
	eor.w	r3, r3, r1, lsr #16
	eor.w	r10, r10, r1, lsr #8
	eor.w	r9, r9, r1
	ldrb	r2, [r5, #3]
	ldrb	r5, [r5, #2]
	ldr	r1, [sp, #32]                   @ 4-byte Reload
	ldr.w	r12, [sp, #40]                  @ 4-byte Reload
	eor.w	r2, r2, r0, lsr #24
	eor.w	r5, r5, r0, lsr #16
	eor.w	r1, r1, r0, lsr #8
	eor.w	r0, r0, r12
	strb	r0, [r6]
	ldr	r0, [sp, #28]                   @ 4-byte Reload
	strb	r1, [r6, #1]
	strb	r0, [r6, #10]
	ldr	r0, [sp, #36]                   @ 4-byte Reload
	ubfx	r1, lr, #24, #7
	strb	r0, [r6, #11]
	lsr.w	r0, lr, #8
	strb	r0, [r6, #13]
	lsr.w	r0, lr, #16
	strb	r0, [r6, #14]
	ldr	r0, [sp, #44]                   @ 4-byte Reload
	strb	r5, [r6, #2]
	strb	r2, [r6, #3]
	strb.w	r9, [r6, #4]
	strb.w	r10, [r6, #5]
	strb	r3, [r6, #6]
	strb.w	r11, [r6, #7]
	strb.w	r8, [r6, #8]
	strb	r4, [r6, #9]
	strb.w	lr, [r6, #12]
	strb	r1, [r6, #15]
	ldr	r3, [r0], #4
	movs	r1, #56
	adds.w	r2, r1, r3, lsl #1
	lsr.w	r1, r3, #31
	adc	r3, r1, #0
	movs	r1, #1
	movs	r5, #0
	strd	r1, r5, [sp, #8]
	str	r6, [sp]
	bl	gcm_v7m.aes_narrow.blocks.process_all_batches
	sub.w	r4, r7, #12
	mov	sp, r4
	pop.w	{r4, r5, r6, r7, r8, r9, r10, r11, lr}
	b	gcm_v7m.aes_cipher.zeroize.stack.wipe_stack.1024
.Lgcm_v7m_func_end32:
	.size	gcm_v7m.gcm_siv.message.put_tag, .Lgcm_v7m_func_end32-gcm_v7m.gcm_siv.message.put_tag
	.cantunwind
	.fnend
                                        @ -- End function
	.section	.text.gcm_v7m.gcm.single_blocks.hash_singly.2,"ax",%progbits
	.p2align	2                               @ -- Begin function gcm::single_blocks::hash_singly::<#e9e90393c6907c0d>
	.type	gcm_v7m.gcm.single_blocks.hash_singly.2,%function
	.code	16
	.thumb_func
gcm_v7m.gcm.single_blocks.hash_singly.2: @ @gcm_v7m.gcm.single_blocks.hash_singly.2
	.fnstart
@ %bb.0:                                @ %start
	.save	{r4, r5, r6, r7, r8, r9, r10, r11, lr}
	push.w	{r4, r5, r6, r7, r8, r9, r10, r11, lr}
	.pad	#52
	sub	sp, #52
	ldrd	r6, r7, [sp, #104]
	add.w	lr, sp, #88
	lsrs	r6, r6, #4
	mov	r1, r3
	mov	r12, r2
	ldm.w	lr, {r2, r3, lr}
	orr.w	r11, r6, r7, lsl #28
	orrs.w	r6, r11, r7, lsr #4
	str	r0, [sp, #16]                   @ 4-byte Spill
	beq	.Lgcm_v7m_BB33_6
@ %bb.1:                                @ %join.5.i.lr.ph
	lsrs	r5, r7, #4
	str	r5, [sp, #32]                   @ 4-byte Spill
	ldr	r5, [r0]
	ldr.w	r8, [r0, #12]
	str	r5, [sp, #28]                   @ 4-byte Spill
	ldr	r5, [r0, #4]
	mov.w	r9, #0
	str	r5, [sp, #24]                   @ 4-byte Spill
	ldr	r5, [r0, #8]
	mov.w	r10, #0
	mov	r0, r12
	str	r5, [sp, #20]                   @ 4-byte Spill
	.p2align	2
.Lgcm_v7m_BB33_2:                               @ %join.5.i
                                        @ =>This Inner Loop Header: Depth=1
	add.w	r4, lr, r9, lsl #4
	ldr	r7, [r4, #4]
	lsl.w	r5, r9, #4
	eors	r1, r7
	ldr	r7, [sp, #28]                   @ 4-byte Reload
	ldr	r6, [r4, #8]
	ldr.w	r5, [lr, r5]
	ldr	r4, [r4, #12]
	str	r7, [sp]
	ldr	r7, [sp, #24]                   @ 4-byte Reload
	eors	r0, r5
	str	r7, [sp, #4]
	ldr	r7, [sp, #20]                   @ 4-byte Reload
	eors	r2, r6
	eors	r3, r4
	strd	r7, r8, [sp, #8]
	mov	r4, lr
	bl	gcm_v7m.gcm.holes.product_with_holes
	adds.w	r9, r9, #1
	adc	r10, r10, #0
	subs.w	r7, r9, r11
	ldr	r7, [sp, #32]                   @ 4-byte Reload
	mov	lr, r4
	sbcs.w	r7, r10, r7
	blo	.Lgcm_v7m_BB33_2
@ %bb.3:                                @ %"gcm::single_blocks::hash_whole::<#e9e90393c6907c0d>.exit"
	ldr	r6, [sp, #104]
	ands	r4, r6, #15
	beq	.Lgcm_v7m_BB33_5
.Lgcm_v7m_BB33_4:                               @ %join.3
	mov	r5, r0
	bic	r0, r6, #15
	mov	r7, r1
	add.w	r1, lr, r0
	add	r0, sp, #36
	mov	r9, r2
	subs	r0, r0, r1
	mov.w	r2, #0
	mov	r8, r3
	sbc	r3, r2, #0
	subs	r0, r0, r4
	sbcs	r0, r3, #0
	strd	r2, r2, [sp, #44]
	strd	r2, r2, [sp, #36]
	add	r0, sp, #36
	mov	r2, r4
	bl	memcpy
	add	r3, sp, #36
	ldm	r3, {r0, r1, r2, r3}
	ldr	r4, [sp, #16]                   @ 4-byte Reload
	eor.w	r0, r0, r5
	eor.w	r1, r1, r7
	ldrd	r7, r6, [r4]
	ldrd	r5, r4, [r4, #8]
	eor.w	r2, r2, r9
	eor.w	r3, r3, r8
	strd	r7, r6, [sp]
	strd	r5, r4, [sp, #8]
	bl	gcm_v7m.gcm.holes.product_with_holes
.Lgcm_v7m_BB33_5:                               @ %common.ret
	add	sp, #52
	pop.w	{r4, r5, r6, r7, r8, r9, r10, r11, pc}
	.p2align	2
.Lgcm_v7m_BB33_6:
	mov	r0, r12
	ldr	r6, [sp, #104]
	ands	r4, r6, #15
	bne	.Lgcm_v7m_BB33_4
	b	.Lgcm_v7m_BB33_5
.Lgcm_v7m_func_end33:
	.size	gcm_v7m.gcm.single_blocks.hash_singly.2, .Lgcm_v7m_func_end33-gcm_v7m.gcm.single_blocks.hash_singly.2
	.cantunwind
	.fnend
                                        @ -- End function
	.section	.text.gcm_v7m.gcm_siv.message.process_text,"ax",%progbits
	.p2align	2                               @ -- Begin function gcm_siv::message::process_text::<#4ed5dc91d5e47edc>
	.type	gcm_v7m.gcm_siv.message.process_text,%function
	.code	16
	.thumb_func
gcm_v7m.gcm_siv.message.process_text: @ @gcm_v7m.gcm_siv.message.process_text
	.fnstart
@ %bb.0:                                @ %start
	.save	{r4, r5, r6, r7, r8, r9, r10, r11, lr}
	push.w	{r4, r5, r6, r7, r8, r9, r10, r11, lr}
	.pad	#108
	sub	sp, #108
	mov	r4, r2
	ldrb	r2, [r1, #15]
	ldr	r3, [r0], #4
	orn	r12, r2, #127
	movs	r2, #56
	lsrs	r6, r3, #31
	adds.w	r2, r2, r3, lsl #1
	ldrd	r9, r8, [sp, #144]
	adc	r3, r6, #0
	ldr.w	lr, [r1]
	ldr	r7, [r1, #4]
	ldr.w	r5, [r1, #11]
	ldr	r6, [r1, #8]
	str.w	r5, [sp, #51]
	str	r6, [sp, #48]
	strd	lr, r7, [sp, #40]
	movs	r6, #0
	rsbs.w	r7, r9, #16
	sbcs.w	r7, r6, r8
	strb.w	r12, [sp, #55]
	str	r6, [sp, #60]
	str	r6, [sp, #56]
	blo.w	.Lgcm_v7m_BB34_4
@ %bb.1:                                @ %then.1.i.i
	ldr	r5, [r1, #4]
	ldr	r7, [r1, #8]
	ldr.w	r1, [r1, #11]
	ldr.w	lr, [sp, #40]
	strd	r5, r7, [sp, #96]
	str.w	r1, [sp, #103]
	movs	r1, #1
	add	r5, sp, #92
	strb.w	r12, [sp, #107]
	str.w	lr, [sp, #92]
	strd	r1, r6, [sp, #8]
	str	r5, [sp]
	bl	gcm_v7m.aes_narrow.blocks.process_all_batches
	bl	gcm_v7m.aes_cipher.zeroize.stack.wipe_stack.1024
	lsls.w	r0, r9, #27
	beq.w	.Lgcm_v7m_BB34_5
@ %bb.2:                                @ %then.1.i.i
	cmp.w	r9, #16
	bne.w	.Lgcm_v7m_BB34_6
@ %bb.3:                                @ %after.4.i.thread.i.i.i
	ldrb	r0, [r4, #11]
	ldrb.w	lr, [r4]
	str	r0, [sp, #36]                   @ 4-byte Spill
	ldrb.w	r9, [r4, #1]
	ldrb.w	r6, [sp, #92]
	ldrb.w	r0, [sp, #93]
	eor.w	r6, r6, lr
	eor.w	r0, r0, r9
	ldrb	r5, [r4, #2]
	ldrb	r1, [r4, #3]
	str	r6, [sp, #32]                   @ 4-byte Spill
	ldrb.w	r6, [sp, #94]
	str	r0, [sp, #28]                   @ 4-byte Spill
	ldrb.w	r0, [sp, #95]
	ldrb	r7, [r4, #5]
	ldrb	r2, [r4, #4]
	eors	r6, r5
	ldrb.w	r5, [sp, #96]
	eors	r0, r1
	ldrb.w	r1, [sp, #97]
	ldrb.w	r12, [r4, #7]
	ldrb	r3, [r4, #6]
	str	r0, [sp, #20]                   @ 4-byte Spill
	eor.w	r0, r5, r2
	ldrb.w	r5, [sp, #98]
	eor.w	r9, r1, r7
	ldrb.w	r1, [sp, #99]
	ldrb.w	r10, [r4, #9]
	ldrb.w	r11, [r4, #8]
	str	r6, [sp, #24]                   @ 4-byte Spill
	eor.w	r7, r5, r3
	ldrb.w	r5, [sp, #100]
	eor.w	r6, r1, r12
	ldrb.w	r1, [sp, #101]
	ldrb.w	r8, [r4, #10]
	str	r0, [sp, #16]                   @ 4-byte Spill
	eor.w	r11, r11, r5
	ldrb.w	r5, [sp, #102]
	eor.w	r10, r10, r1
	ldrb.w	r1, [sp, #103]
	ldr	r0, [sp, #36]                   @ 4-byte Reload
	eor.w	r8, r8, r5
	ldrb	r5, [r4, #13]
	eor.w	lr, r1, r0
	ldrb	r2, [r4, #12]
	ldrb.w	r0, [sp, #104]
	ldrb.w	r1, [sp, #105]
	eor.w	r12, r0, r2
	eor.w	r3, r1, r5
	ldrb	r5, [r4, #14]
	ldrb.w	r0, [sp, #106]
	ldrb	r2, [r4, #15]
	eors	r0, r5
	strb	r0, [r4, #14]
	ldr	r0, [sp, #16]                   @ 4-byte Reload
	ldrb.w	r1, [sp, #107]
	strb	r0, [r4, #4]
	ldr	r0, [sp, #20]                   @ 4-byte Reload
	eors	r1, r2
	strb	r0, [r4, #3]
	ldr	r0, [sp, #24]                   @ 4-byte Reload
	strb	r1, [r4, #15]
	strb	r0, [r4, #2]
	ldr	r0, [sp, #28]                   @ 4-byte Reload
	strb	r3, [r4, #13]
	strb	r0, [r4, #1]
	ldr	r0, [sp, #32]                   @ 4-byte Reload
	strb.w	r12, [r4, #12]
	strb.w	lr, [r4, #11]
	strb.w	r8, [r4, #10]
	strb.w	r10, [r4, #9]
	strb.w	r11, [r4, #8]
	strb	r6, [r4, #7]
	strb	r7, [r4, #6]
	strb.w	r9, [r4, #5]
	strb	r0, [r4]
	add	sp, #108
	pop.w	{r4, r5, r6, r7, r8, r9, r10, r11, pc}
	.p2align	2
.Lgcm_v7m_BB34_4:                               @ %else.2.i.i
	add	r1, sp, #40
	str	r1, [sp, #56]
	add	r1, sp, #72
	stm.w	r1, {r4, r6, r9}
	add	r1, sp, #56
	strd	r6, r6, [sp, #64]
	str.w	r8, [sp, #84]
	str	r1, [sp]
	bl	gcm_v7m.aes_narrow.borrowed_words.call_to_encrypt.2
	bl	gcm_v7m.aes_cipher.zeroize.stack.wipe_stack.2032
.Lgcm_v7m_BB34_5:                               @ %"gcm_siv::counters::add_keystream::<#099a9bc28799ce6c>.exit"
	add	sp, #108
	pop.w	{r4, r5, r6, r7, r8, r9, r10, r11, pc}
	.p2align	2
.Lgcm_v7m_BB34_6:                               @ %join.8.i10.i.i.i.preheader
	cmp.w	r9, #1
	mov.w	r0, #1
	mov.w	r1, #1
	it	hi
	movhi	r0, r9
	cmp.w	r8, #0
	ite	ne
	movne	r1, r9
	moveq	r1, r0
	subs.w	r0, r9, #4
	sbcs	r0, r8, #0
	and	r12, r1, #3
	bhs	.Lgcm_v7m_BB34_8
@ %bb.7:
	movs	r1, #0
	b	.Lgcm_v7m_BB34_11
	.p2align	2
.Lgcm_v7m_BB34_8:                               @ %join.8.i10.i.i.i.preheader.new
	and	r2, r1, #28
	movs	r1, #0
	movs	r3, #0
	.p2align	2
.Lgcm_v7m_BB34_9:                               @ %join.8.i10.i.i.i
                                        @ =>This Inner Loop Header: Depth=1
	ldrb	r7, [r5, r1]
	ldrb	r6, [r4, r1]
	eors	r7, r6
	strb	r7, [r4, r1]
	orr	r7, r1, #1
	ldrb	r6, [r5, r7]
	ldrb	r0, [r4, r7]
	eors	r0, r6
	strb	r0, [r4, r7]
	orr	r0, r1, #2
	ldrb	r7, [r5, r0]
	ldrb	r6, [r4, r0]
	eors	r7, r6
	strb	r7, [r4, r0]
	orr	r0, r1, #3
	ldrb	r7, [r5, r0]
	ldrb	r6, [r4, r0]
	adds	r1, #4
	eor.w	r7, r7, r6
	adc	r3, r3, #0
	eor.w	r6, r1, r2
	orrs	r6, r3
	strb	r7, [r4, r0]
	bne	.Lgcm_v7m_BB34_9
@ %bb.10:                               @ %"aes_ctr::add_in_batches::add_to_one::<#3853cb094ce32add>.exit.i.i.loopexit.unr-lcssa"
	cmp.w	r12, #0
	beq	.Lgcm_v7m_BB34_5
.Lgcm_v7m_BB34_11:                              @ %join.8.i10.i.i.i.epil.preheader
	ldrb	r0, [r5, r1]
	ldrb	r2, [r4, r1]
	cmp.w	r12, #1
	eor.w	r0, r0, r2
	strb	r0, [r4, r1]
	beq	.Lgcm_v7m_BB34_5
@ %bb.12:                               @ %join.8.i10.i.i.i.epil.1
	adds	r0, r1, #1
	ldrb	r2, [r5, r0]
	ldrb	r3, [r4, r0]
	cmp.w	r12, #2
	eor.w	r2, r2, r3
	strb	r2, [r4, r0]
	beq	.Lgcm_v7m_BB34_5
@ %bb.13:                               @ %join.8.i10.i.i.i.epil.2
	adds	r0, r1, #2
	ldrb	r1, [r5, r0]
	ldrb	r2, [r4, r0]
	eors	r1, r2
	strb	r1, [r4, r0]
	add	sp, #108
	pop.w	{r4, r5, r6, r7, r8, r9, r10, r11, pc}
.Lgcm_v7m_func_end34:
	.size	gcm_v7m.gcm_siv.message.process_text, .Lgcm_v7m_func_end34-gcm_v7m.gcm_siv.message.process_text
	.cantunwind
	.fnend
                                        @ -- End function
	.section	.text.gcm_v7m.aes_narrow.borrowed_words.call_to_encrypt.2,"ax",%progbits
	.p2align	2                               @ -- Begin function aes_narrow::borrowed_words::call_to_encrypt::<#d0e731d912aff965>
	.type	gcm_v7m.aes_narrow.borrowed_words.call_to_encrypt.2,%function
	.code	16
	.thumb_func
gcm_v7m.aes_narrow.borrowed_words.call_to_encrypt.2: @ @gcm_v7m.aes_narrow.borrowed_words.call_to_encrypt.2
	.fnstart
@ %bb.0:                                @ %start
	.save	{r4, r5, r6, r7, r8, r9, r10, r11, lr}
	push.w	{r4, r5, r6, r7, r8, r9, r10, r11, lr}
	.pad	#396
	sub	sp, #396
	ldr	r1, [sp, #432]
	mov	r4, r3
	add.w	r8, r1, #8
	ldm.w	r8, {r5, r6, r8}
	ldr.w	r10, [r1]
	ldrd	r7, r9, [r1, #24]
	mov	r11, r2
	str	r0, [sp, #68]                   @ 4-byte Spill
	str	r0, [sp, #120]
	movs	r0, #0
	lsls	r1, r5, #28
	str	r0, [sp, #124]
	str	r3, [sp, #132]
	str	r2, [sp, #128]
	beq	.Lgcm_v7m_BB35_2
@ %bb.1:                                @ %then.1.i.i
	strd	r0, r0, [sp]
	add	r0, sp, #120
	mov	r1, r10
	mov	r2, r5
	mov	r3, r6
	strd	r7, r9, [sp, #16]
	str.w	r8, [sp, #8]
	bl	gcm_v7m.aes_ctr.add_in_batches.add_next.2
	b	.Lgcm_v7m_BB35_3
	.p2align	2
.Lgcm_v7m_BB35_2:
	movs	r1, #0
.Lgcm_v7m_BB35_3:                               @ %join.3.i.i
	mov	r12, r7
	subs	r7, r7, r0
	sbc.w	r3, r9, r1
	subs	r7, #32
	sbcs	r3, r3, #0
	strd	r9, r12, [sp, #72]              @ 8-byte Folded Spill
	blo.w	.Lgcm_v7m_BB35_6
@ %bb.4:                                @ %join.11.lr.ph.i.i
	add	r3, sp, #140
	adds	r7, r3, #4
	str	r7, [sp, #44]                   @ 4-byte Spill
	add.w	r7, r3, #20
	str	r7, [sp, #40]                   @ 4-byte Spill
	add.w	r7, r10, #4
	adds	r3, #32
	str	r7, [sp, #36]                   @ 4-byte Spill
	strd	r11, r3, [sp, #28]              @ 8-byte Folded Spill
	str.w	r10, [sp, #64]                  @ 4-byte Spill
	strd	r6, r5, [sp, #56]               @ 8-byte Folded Spill
	strd	r4, r8, [sp, #48]               @ 8-byte Folded Spill
	.p2align	2
.Lgcm_v7m_BB35_5:                               @ %join.11.i.i
                                        @ =>This Inner Loop Header: Depth=1
	mov	r7, r0
	adds	r0, r0, r5
	adc.w	r2, r1, r6
	lsrs	r0, r0, #4
	orr.w	r5, r0, r2, lsl #28
	adds.w	r0, r7, #32
	str	r0, [sp, #112]                  @ 4-byte Spill
	adc	r1, r1, #0
	ldr	r0, [sp, #32]                   @ 4-byte Reload
	str	r1, [sp, #116]                  @ 4-byte Spill
	movs	r1, #0
	movs	r2, #224
	add.w	r11, r8, r7
	mov.w	r9, #0
	bl	memset
	ldr.w	r0, [r10]
	ldr	r3, [sp, #36]                   @ 4-byte Reload
	add	r0, r5
	str	r0, [sp, #140]
	adds	r0, #1
	ldr	r1, [r3]
	ldr	r2, [r3, #4]
	ldr	r3, [r3, #8]
	str	r0, [sp, #156]
	ldr	r0, [sp, #40]                   @ 4-byte Reload
	ldr	r6, [sp, #44]                   @ 4-byte Reload
	str	r1, [r0]
	str	r2, [r0, #4]
	str	r3, [r0, #8]
	movs	r0, #2
	str	r2, [r6, #4]
	strd	r0, r9, [sp, #8]
	ldr	r0, [sp, #68]                   @ 4-byte Reload
	ldr	r2, [sp, #28]                   @ 4-byte Reload
	str	r1, [r6]
	str	r3, [r6, #8]
	mov	r3, r4
	add	r1, sp, #140
	str	r1, [sp]
	bl	gcm_v7m.aes_soft.soft.blocks.filled_up.process_filled_up
	ldrb.w	r2, [r8, r7]
	ldrb.w	r4, [sp, #140]
	ldrb.w	r0, [r11, #10]
	eors	r2, r4
	str	r0, [sp, #108]                  @ 4-byte Spill
	ldrb.w	r0, [r11, #9]
	ldrb.w	r3, [r11, #1]
	strb.w	r2, [r8, r7]
	ldrb.w	r2, [sp, #141]
	ldrb.w	r5, [r11, #2]
	ldrb.w	r7, [sp, #142]
	str	r0, [sp, #104]                  @ 4-byte Spill
	ldrb.w	r0, [r11, #3]
	eors	r2, r3
	ldrb.w	r3, [sp, #143]
	ldrb.w	r4, [r11, #4]
	str	r2, [sp, #100]                  @ 4-byte Spill
	eor.w	r2, r7, r5
	ldrb.w	r7, [sp, #144]
	ldrb.w	r1, [r11, #5]
	str	r2, [sp, #96]                   @ 4-byte Spill
	eors	r0, r3
	ldrb.w	r2, [sp, #145]
	str	r0, [sp, #92]                   @ 4-byte Spill
	eor.w	r0, r7, r4
	ldrb.w	lr, [r11, #7]
	ldrb.w	r12, [r11, #6]
	str	r0, [sp, #88]                   @ 4-byte Spill
	ldrb.w	r4, [sp, #146]
	eor.w	r5, r2, r1
	ldrb.w	r2, [sp, #147]
	ldrb.w	r7, [sp, #149]
	ldr	r0, [sp, #104]                  @ 4-byte Reload
	ldrb.w	r9, [r11, #11]
	ldrb.w	r10, [r11, #8]
	eor.w	r12, r12, r4
	ldrb.w	r4, [sp, #148]
	eor.w	lr, lr, r2
	ldrb.w	r6, [sp, #150]
	eors	r7, r0
	ldrb.w	r2, [sp, #151]
	ldr	r0, [sp, #108]                  @ 4-byte Reload
	eor.w	r10, r10, r4
	eors	r6, r0
	ldrb.w	r4, [r11, #13]
	eor.w	r3, r2, r9
	ldrb.w	r0, [r11, #12]
	ldrb.w	r8, [sp, #152]
	ldrb.w	r9, [sp, #153]
	eor.w	r8, r8, r0
	eor.w	r9, r9, r4
	ldrb.w	r4, [r11, #14]
	ldrb.w	r0, [sp, #154]
	strb.w	r5, [r11, #5]
	eors	r0, r4
	strb.w	r0, [r11, #14]
	ldr	r0, [sp, #88]                   @ 4-byte Reload
	ldr	r5, [sp, #76]                   @ 4-byte Reload
	strb.w	r0, [r11, #4]
	ldr	r0, [sp, #92]                   @ 4-byte Reload
	ldr	r4, [sp, #112]                  @ 4-byte Reload
	strb.w	r0, [r11, #3]
	ldr	r0, [sp, #96]                   @ 4-byte Reload
	strb.w	r6, [r11, #10]
	strb.w	r0, [r11, #2]
	ldr	r0, [sp, #100]                  @ 4-byte Reload
	strb.w	r7, [r11, #9]
	strb.w	r0, [r11, #1]
	ldrb.w	r0, [r11, #27]
	ldr	r6, [sp, #116]                  @ 4-byte Reload
	ldr	r7, [sp, #72]                   @ 4-byte Reload
	subs	r5, r5, r4
	str	r0, [sp, #108]                  @ 4-byte Spill
	ldrb.w	r0, [r11, #26]
	sbc.w	r6, r7, r6
	rsbs.w	r5, r5, #31
	mov.w	r7, #0
	ldrb.w	r2, [r11, #15]
	ldrb.w	r1, [sp, #155]
	sbcs.w	r6, r7, r6
	str	r0, [sp, #104]                  @ 4-byte Spill
	ldrb.w	r0, [r11, #16]
	ldrb.w	r6, [sp, #156]
	eor.w	r1, r1, r2
	strb.w	r10, [r11, #8]
	ldrb.w	r10, [r11, #17]
	ldrb.w	r7, [sp, #157]
	strb.w	r1, [r11, #15]
	ldrb.w	r1, [r11, #18]
	eor.w	r0, r0, r6
	ldrb.w	r6, [sp, #158]
	ldrb.w	r5, [r11, #19]
	str	r0, [sp, #100]                  @ 4-byte Spill
	eor.w	r0, r7, r10
	ldrb.w	r7, [sp, #159]
	ldrb.w	r2, [r11, #20]
	str	r0, [sp, #96]                   @ 4-byte Spill
	eor.w	r0, r6, r1
	ldrb.w	r6, [sp, #160]
	str	r0, [sp, #92]                   @ 4-byte Spill
	eor.w	r0, r7, r5
	strb.w	r3, [r11, #11]
	strb.w	r12, [r11, #6]
	ldrb.w	r12, [r11, #22]
	ldrb.w	r3, [r11, #21]
	str	r0, [sp, #88]                   @ 4-byte Spill
	ldrb.w	r7, [sp, #161]
	eor.w	r0, r6, r2
	ldrb.w	r6, [sp, #162]
	strb.w	r9, [r11, #13]
	strb.w	r8, [r11, #12]
	ldrb.w	r8, [r11, #24]
	ldrb.w	r9, [r11, #23]
	str	r0, [sp, #84]                   @ 4-byte Spill
	eor.w	r0, r7, r3
	ldrb.w	r7, [sp, #163]
	eor.w	r5, r6, r12
	ldrb.w	r6, [sp, #164]
	strb.w	lr, [r11, #7]
	ldrb.w	lr, [r11, #25]
	str	r0, [sp, #80]                   @ 4-byte Spill
	eor.w	r9, r9, r7
	ldrb.w	r7, [sp, #165]
	eor.w	r8, r8, r6
	ldrb.w	r6, [sp, #166]
	ldr	r0, [sp, #104]                  @ 4-byte Reload
	eor.w	r10, r7, lr
	ldrb.w	r7, [sp, #167]
	eor.w	lr, r6, r0
	ldr	r0, [sp, #108]                  @ 4-byte Reload
	ldrb.w	r6, [r11, #29]
	eor.w	r7, r7, r0
	ldrb.w	r2, [r11, #28]
	ldrb.w	r0, [sp, #168]
	ldrb.w	r1, [sp, #169]
	eor.w	r12, r0, r2
	eor.w	r3, r1, r6
	ldrb.w	r2, [r11, #31]
	ldrb.w	r1, [sp, #171]
	ldrb.w	r6, [r11, #30]
	eor.w	r1, r1, r2
	ldr	r2, [sp, #80]                   @ 4-byte Reload
	ldrb.w	r0, [sp, #170]
	strb.w	r2, [r11, #21]
	ldr	r2, [sp, #84]                   @ 4-byte Reload
	eor.w	r0, r0, r6
	strb.w	r2, [r11, #20]
	ldr	r2, [sp, #88]                   @ 4-byte Reload
	ldr	r6, [sp, #56]                   @ 4-byte Reload
	strb.w	r2, [r11, #19]
	ldr	r2, [sp, #92]                   @ 4-byte Reload
	strb.w	r1, [r11, #31]
	strb.w	r2, [r11, #18]
	ldr	r2, [sp, #96]                   @ 4-byte Reload
	strb.w	r0, [r11, #30]
	ldr	r1, [sp, #116]                  @ 4-byte Reload
	mov	r0, r4
	strb.w	r10, [r11, #25]
	ldr	r4, [sp, #48]                   @ 4-byte Reload
	ldr.w	r10, [sp, #64]                  @ 4-byte Reload
	strb.w	r8, [r11, #24]
	ldr.w	r8, [sp, #52]                   @ 4-byte Reload
	strb.w	r5, [r11, #22]
	ldr	r5, [sp, #60]                   @ 4-byte Reload
	strb.w	r2, [r11, #17]
	ldr	r2, [sp, #100]                  @ 4-byte Reload
	strb.w	r3, [r11, #29]
	strb.w	r12, [r11, #28]
	strb.w	r7, [r11, #27]
	strb.w	lr, [r11, #26]
	strb.w	r9, [r11, #23]
	strb.w	r2, [r11, #16]
	blo.w	.Lgcm_v7m_BB35_5
.Lgcm_v7m_BB35_6:                               @ %loop.13.preheader.i.i
	ldr	r7, [sp, #76]                   @ 4-byte Reload
	ldr	r4, [sp, #72]                   @ 4-byte Reload
	subs	r2, r0, r7
	sbcs.w	r2, r1, r4
	bhs	.Lgcm_v7m_BB35_8
	.p2align	2
.Lgcm_v7m_BB35_7:                               @ %join.16.i.i
                                        @ =>This Inner Loop Header: Depth=1
	strd	r0, r1, [sp]
	add	r0, sp, #120
	mov	r1, r10
	mov	r2, r5
	mov	r3, r6
	strd	r7, r4, [sp, #16]
	str.w	r8, [sp, #8]
	bl	gcm_v7m.aes_ctr.add_in_batches.add_next.2
	subs	r2, r0, r7
	sbcs.w	r2, r1, r4
	blo	.Lgcm_v7m_BB35_7
.Lgcm_v7m_BB35_8:                               @ %"aes_ctr::add_in_batches::AddStreamBlockCipherEncClosure::call::<#dc401293e4f3bac2>.exit"
	add	sp, #396
	pop.w	{r4, r5, r6, r7, r8, r9, r10, r11, pc}
.Lgcm_v7m_func_end35:
	.size	gcm_v7m.aes_narrow.borrowed_words.call_to_encrypt.2, .Lgcm_v7m_func_end35-gcm_v7m.aes_narrow.borrowed_words.call_to_encrypt.2
	.cantunwind
	.fnend
                                        @ -- End function
	.section	.text.gcm_v7m.aes_ctr.add_in_batches.add_next.2,"ax",%progbits
	.p2align	2                               @ -- Begin function aes_ctr::add_in_batches::add_next::<#9f5b6b63b811461e>
	.type	gcm_v7m.aes_ctr.add_in_batches.add_next.2,%function
	.code	16
	.thumb_func
gcm_v7m.aes_ctr.add_in_batches.add_next.2: @ @gcm_v7m.aes_ctr.add_in_batches.add_next.2
	.fnstart
@ %bb.0:                                @ %start
	.save	{r4, r5, r6, r7, r8, r9, r10, r11, lr}
	push.w	{r4, r5, r6, r7, r8, r9, r10, r11, lr}
	.pad	#332
	sub	sp, #332
	ldrd	r10, r11, [sp, #368]
	mov	r4, r0
	ldrd	r7, lr, [sp, #384]
	adds.w	r0, r10, r2
	mov	r5, r1
	and	r1, r0, #15
	adc.w	r12, r11, r3
	rsb.w	r6, r1, #32
	subs.w	r2, r7, r10
	sbc.w	r3, lr, r11
	subs	r7, r2, r6
	sbcs	r7, r3, #0
	it	lo
	movlo	r6, r2
	mov.w	r2, #0
	it	lo
	movlo	r2, #1
	cmp	r2, #0
	it	ne
	movne	r2, r3
	add	r3, sp, #20
	stm	r3!, {r1, r2, r6}               @ 12-byte Folded Spill
	adds	r2, r1, r6
	lsrs	r0, r0, #4
	add.w	r8, sp, #76
	add.w	r7, r2, #15
	orr.w	r6, r0, r12, lsl #28
	add.w	r0, r8, #32
	movs	r1, #0
	movs	r2, #224
	mov.w	r9, #0
	bl	memset
	ldr	r0, [r5]
	add	r3, sp, #76
	add	r0, r6
	ldr	r1, [r5, #4]
	ldr	r2, [r5, #8]
	ldr	r5, [r5, #12]
	stm	r3!, {r0, r1, r2, r5}
	adds	r0, #1
	add	r3, sp, #92
	stm	r3!, {r0, r1, r2}
	ldr	r0, [r4]
	ldr	r2, [r4, #8]
	ldr	r3, [r4, #12]
	and	r1, r7, #112
	cmp	r1, #16
	str	r5, [sp, #104]
	ite	ne
	movne	r1, #2
	moveq	r1, #1
	strd	r1, r9, [sp, #8]
	str.w	r8, [sp]
	bl	gcm_v7m.aes_soft.soft.blocks.filled_up.process_filled_up
	ldr	r0, [sp, #376]
	ldr	r4, [sp, #20]                   @ 4-byte Reload
	mov	r7, r8
	ldrd	r9, r8, [sp, #24]               @ 8-byte Folded Reload
	add	r0, r10
	mov.w	r2, #0
	str	r0, [sp, #72]                   @ 4-byte Spill
	cbz	r4, .Lgcm_v7m_BB36_4
@ %bb.1:                                @ %then.1.i
	rsb.w	lr, r4, #16
	subs.w	r0, r8, lr
	sbcs	r0, r9, #0
	ldr	r0, [sp, #384]
	ldr	r1, [sp, #388]
	itt	lo
	movlo	r2, #1
	movlo	lr, r8
	cmp	r2, #0
	eor.w	r0, r0, r10
	eor.w	r1, r1, r11
	it	ne
	movne	r2, r9
	orrs	r0, r1
	beq	.Lgcm_v7m_BB36_11
@ %bb.2:                                @ %join.8.i85.preheader
	subs.w	r0, lr, #4
	sbcs	r0, r2, #0
	and	r3, lr, #3
	bhs	.Lgcm_v7m_BB36_5
@ %bb.3:
	movs	r5, #0
	b	.Lgcm_v7m_BB36_8
	.p2align	2
.Lgcm_v7m_BB36_4:
	mov.w	lr, #0
	b	.Lgcm_v7m_BB36_11
	.p2align	2
.Lgcm_v7m_BB36_5:                               @ %join.8.i85.preheader.new
	ldr	r0, [sp, #72]                   @ 4-byte Reload
	and	r10, lr, #28
	movs	r5, #0
	mov	r12, r4
	mov	r11, r7
	movs	r7, #0
	str	r3, [sp, #68]                   @ 4-byte Spill
	.p2align	2
.Lgcm_v7m_BB36_6:                               @ %join.8.i85
                                        @ =>This Inner Loop Header: Depth=1
	orr	r6, r5, #1
	add.w	r4, r6, r12
	ldrb.w	r4, [r11, r4]
	ldrb	r3, [r0, r6]
	ldr	r0, [sp, #72]                   @ 4-byte Reload
	eors	r3, r4
	ldr	r4, [sp, #72]                   @ 4-byte Reload
	add.w	r1, r5, r12
	strb	r3, [r4, r6]
	orr	r3, r5, #2
	ldr	r6, [sp, #72]                   @ 4-byte Reload
	add.w	r4, r3, r12
	ldrb.w	r1, [r11, r1]
	ldrb	r0, [r0, r5]
	ldrb.w	r4, [r11, r4]
	ldrb	r6, [r6, r3]
	eors	r0, r1
	eor.w	r1, r6, r4
	ldr	r4, [sp, #72]                   @ 4-byte Reload
	ldr	r6, [sp, #72]                   @ 4-byte Reload
	strb	r1, [r4, r3]
	orr	r1, r5, #3
	ldr	r4, [sp, #72]                   @ 4-byte Reload
	add.w	r3, r1, r12
	ldrb.w	r3, [r11, r3]
	ldrb	r4, [r4, r1]
	strb	r0, [r6, r5]
	adds	r5, #4
	eor.w	r0, r4, r3
	adc	r7, r7, #0
	eor.w	r3, r5, r10
	orrs	r3, r7
	ldr	r3, [sp, #72]                   @ 4-byte Reload
	strb	r0, [r3, r1]
	ldr	r0, [sp, #72]                   @ 4-byte Reload
	bne	.Lgcm_v7m_BB36_6
@ %bb.7:                                @ %join.3.i.loopexit.unr-lcssa
	ldr	r3, [sp, #68]                   @ 4-byte Reload
	mov	r7, r11
	ldrd	r10, r11, [sp, #368]
	mov	r4, r12
	cbz	r3, .Lgcm_v7m_BB36_11
.Lgcm_v7m_BB36_8:                               @ %join.8.i85.epil.preheader
	ldr	r6, [sp, #72]                   @ 4-byte Reload
	adds	r0, r5, r4
	ldrb	r0, [r7, r0]
	ldrb	r1, [r6, r5]
	cmp	r3, #1
	eor.w	r0, r0, r1
	strb	r0, [r6, r5]
	beq	.Lgcm_v7m_BB36_11
@ %bb.9:                                @ %join.8.i85.epil.1
	add.w	r12, r5, #1
	add.w	r1, r12, r4
	ldrb	r1, [r7, r1]
	mov	r0, r3
	ldrb.w	r3, [r6, r12]
	cmp	r0, #2
	eor.w	r1, r1, r3
	strb.w	r1, [r6, r12]
	beq	.Lgcm_v7m_BB36_11
@ %bb.10:                               @ %join.8.i85.epil.2
	adds	r0, r5, #2
	adds	r1, r0, r4
	ldrb	r1, [r7, r1]
	ldrb	r3, [r6, r0]
	eors	r1, r3
	strb	r1, [r6, r0]
.Lgcm_v7m_BB36_11:                              @ %join.3.i
	subs.w	r6, r8, lr
	sbc.w	r5, r9, r2
	subs.w	r0, r6, #16
	sbcs	r0, r5, #0
	blo.w	.Lgcm_v7m_BB36_14
	.p2align	2
.Lgcm_v7m_BB36_12:                              @ %join.8.i
                                        @ =>This Inner Loop Header: Depth=1
	add.w	r0, lr, r4
	ldr.w	r8, [sp, #72]                   @ 4-byte Reload
	bic	r0, r0, #15
	adds	r6, r7, r0
	add.w	r3, r8, lr
	str	r0, [sp, #64]                   @ 4-byte Spill
	ldrb	r0, [r3, #10]
	ldrb	r1, [r3, #1]
	ldrb	r5, [r6, #1]
	str	r0, [sp, #44]                   @ 4-byte Spill
	ldrb	r4, [r3, #2]
	ldrb	r0, [r6, #2]
	eors	r1, r5
	ldrb	r7, [r3, #3]
	str	r1, [sp, #60]                   @ 4-byte Spill
	ldrb	r1, [r6, #3]
	str	r2, [sp, #68]                   @ 4-byte Spill
	ldrb	r2, [r3, #4]
	eors	r0, r4
	ldrb	r4, [r6, #4]
	ldrb.w	r12, [r3, #5]
	str	r0, [sp, #56]                   @ 4-byte Spill
	eor.w	r0, r1, r7
	ldrb	r1, [r6, #5]
	ldrb.w	r10, [r3, #6]
	str	r0, [sp, #52]                   @ 4-byte Spill
	eor.w	r0, r4, r2
	ldrb	r4, [r6, #6]
	ldrb.w	r9, [r3, #7]
	str	r0, [sp, #48]                   @ 4-byte Spill
	eor.w	r0, r1, r12
	ldrb	r1, [r6, #7]
	ldrb.w	r11, [r3, #8]
	str	r0, [sp, #40]                   @ 4-byte Spill
	eor.w	r0, r4, r10
	ldrb	r4, [r6, #8]
	str	r0, [sp, #36]                   @ 4-byte Spill
	eor.w	r0, r1, r9
	str	r0, [sp, #32]                   @ 4-byte Spill
	ldrb	r5, [r3, #9]
	eor.w	r11, r11, r4
	ldrb	r4, [r6, #9]
	ldrb	r1, [r6, #10]
	ldr	r0, [sp, #44]                   @ 4-byte Reload
	eor.w	r10, r4, r5
	eor.w	r9, r1, r0
	ldrb	r5, [r3, #12]
	ldrb	r2, [r3, #11]
	ldrb	r0, [r6, #11]
	ldrb	r1, [r6, #12]
	eor.w	r7, r0, r2
	eor.w	r4, r1, r5
	ldrb	r2, [r3, #14]
	ldrb	r1, [r6, #14]
	ldrb	r5, [r3, #13]
	ldrb	r0, [r6, #13]
	eors	r1, r2
	ldr	r2, [sp, #64]                   @ 4-byte Reload
	eor.w	r12, r0, r5
	add	r0, sp, #76
	ldrb	r2, [r0, r2]
	ldrb.w	r0, [r8, lr]
	ldrb	r5, [r6, #15]
	eors	r0, r2
	strb.w	r0, [r8, lr]
	ldr	r0, [sp, #32]                   @ 4-byte Reload
	ldrb	r6, [r3, #15]
	strb	r0, [r3, #7]
	ldr	r0, [sp, #36]                   @ 4-byte Reload
	ldr	r2, [sp, #68]                   @ 4-byte Reload
	strb	r0, [r3, #6]
	ldr	r0, [sp, #40]                   @ 4-byte Reload
	ldr.w	r8, [sp, #28]                   @ 4-byte Reload
	strb	r0, [r3, #5]
	ldr	r0, [sp, #48]                   @ 4-byte Reload
	strb.w	r9, [r3, #10]
	strb	r0, [r3, #4]
	ldr	r0, [sp, #52]                   @ 4-byte Reload
	ldr.w	r9, [sp, #24]                   @ 4-byte Reload
	adds.w	lr, lr, #16
	strb	r0, [r3, #3]
	ldr	r0, [sp, #56]                   @ 4-byte Reload
	eor.w	r5, r5, r6
	adc	r2, r2, #0
	subs.w	r6, r8, lr
	strb	r5, [r3, #15]
	strb	r0, [r3, #2]
	sbc.w	r5, r9, r2
	rsbs.w	r0, r6, #15
	mov.w	r0, #0
	sbcs	r0, r5
	strb	r4, [r3, #12]
	ldr	r4, [sp, #20]                   @ 4-byte Reload
	ldr	r0, [sp, #60]                   @ 4-byte Reload
	strb	r7, [r3, #11]
	add	r7, sp, #76
	strb	r1, [r3, #14]
	strb.w	r12, [r3, #13]
	strb.w	r10, [r3, #9]
	strb.w	r11, [r3, #8]
	strb	r0, [r3, #1]
	blo.w	.Lgcm_v7m_BB36_12
@ %bb.13:
	ldrd	r10, r11, [sp, #368]
.Lgcm_v7m_BB36_14:                              @ %after.4.i
	subs.w	r0, lr, r8
	sbcs.w	r0, r2, r9
	bhs	.Lgcm_v7m_BB36_24
@ %bb.15:                               @ %then.9.i
	orrs.w	r0, r6, r5
	beq	.Lgcm_v7m_BB36_24
@ %bb.16:                               @ %join.8.i28.preheader
	add.w	r0, lr, r4
	bic	r0, r0, #15
	adds	r1, r7, r0
	ldr	r0, [sp, #72]                   @ 4-byte Reload
	subs	r2, r6, #4
	add	r0, lr
	sbcs	r2, r5, #0
	and	r12, r6, #3
	bhs	.Lgcm_v7m_BB36_18
@ %bb.17:
	movs	r3, #0
	b	.Lgcm_v7m_BB36_21
	.p2align	2
.Lgcm_v7m_BB36_18:                              @ %join.8.i28.preheader.new
	and	r7, r6, #12
	movs	r3, #0
	movs	r6, #0
	.p2align	2
.Lgcm_v7m_BB36_19:                              @ %join.8.i28
                                        @ =>This Inner Loop Header: Depth=1
	ldrb	r5, [r1, r3]
	ldrb	r4, [r0, r3]
	eors	r5, r4
	strb	r5, [r0, r3]
	orr	r5, r3, #1
	ldrb	r4, [r1, r5]
	ldrb	r2, [r0, r5]
	eors	r2, r4
	strb	r2, [r0, r5]
	orr	r2, r3, #2
	ldrb	r5, [r1, r2]
	ldrb	r4, [r0, r2]
	eors	r5, r4
	strb	r5, [r0, r2]
	orr	r2, r3, #3
	ldrb	r5, [r1, r2]
	ldrb	r4, [r0, r2]
	adds	r3, #4
	eor.w	r5, r5, r4
	adc	r6, r6, #0
	eor.w	r4, r3, r7
	orrs	r4, r6
	strb	r5, [r0, r2]
	bne	.Lgcm_v7m_BB36_19
@ %bb.20:                               @ %"aes_ctr::add_blocks::add_blocks.exit.loopexit.unr-lcssa"
	cmp.w	r12, #0
	beq	.Lgcm_v7m_BB36_24
.Lgcm_v7m_BB36_21:                              @ %join.8.i28.epil.preheader
	ldrb	r2, [r1, r3]
	ldrb	r7, [r0, r3]
	cmp.w	r12, #1
	eor.w	r2, r2, r7
	strb	r2, [r0, r3]
	beq	.Lgcm_v7m_BB36_24
@ %bb.22:                               @ %join.8.i28.epil.1
	adds	r2, r3, #1
	ldrb	r7, [r1, r2]
	ldrb	r6, [r0, r2]
	cmp.w	r12, #2
	eor.w	r7, r7, r6
	strb	r7, [r0, r2]
	beq	.Lgcm_v7m_BB36_24
@ %bb.23:                               @ %join.8.i28.epil.2
	adds	r2, r3, #2
	ldrb	r1, [r1, r2]
	ldrb	r3, [r0, r2]
	eors	r1, r3
	strb	r1, [r0, r2]
.Lgcm_v7m_BB36_24:                              @ %"aes_ctr::add_blocks::add_blocks.exit"
	adds.w	r0, r8, r10
	adc.w	r1, r9, r11
	add	sp, #332
	pop.w	{r4, r5, r6, r7, r8, r9, r10, r11, pc}
.Lgcm_v7m_func_end36:
	.size	gcm_v7m.aes_ctr.add_in_batches.add_next.2, .Lgcm_v7m_func_end36-gcm_v7m.aes_ctr.add_in_batches.add_next.2
	.cantunwind
	.fnend
                                        @ -- End function
	.section	.text.gcm_v7m.aes_cipher.zeroize.stack.wipe_stack.2816,"ax",%progbits
	.p2align	2                               @ -- Begin function aes_cipher::zeroize::stack::wipe_stack::<=2816>
	.type	gcm_v7m.aes_cipher.zeroize.stack.wipe_stack.2816,%function
	.code	16
	.thumb_func
gcm_v7m.aes_cipher.zeroize.stack.wipe_stack.2816: @ @gcm_v7m.aes_cipher.zeroize.stack.wipe_stack.2816
	.fnstart
@ %bb.0:                                @ %start
	.save	{r4, r5, r7, lr}
	push	{r4, r5, r7, lr}
	.pad	#2824
	subw	sp, sp, #2824
	add	r4, sp, #8
	mov	r0, r4
	movs	r1, #0
	mov.w	r2, #2816
	movs	r5, #0
	bl	memset
	strd	r5, r5, [sp]
	@APP
	@NO_APP
	mov	r0, sp
	ldrd	r1, r2, [r0]
	@APP
	@NO_APP
	subs.w	r3, r1, #2816
	sbcs	r2, r2, #0
	itt	hs
	addwhs	sp, sp, #2824
	pophs	{r4, r5, r7, pc}
.Lgcm_v7m_BB37_1:                               @ %then.1
	ldrb	r1, [r4, r1]
	@APP
	@NO_APP
	ldrd	r2, r3, [r0]
	strd	r1, r5, [r0]
	@APP
	@NO_APP
	addw	sp, sp, #2824
	pop	{r4, r5, r7, pc}
.Lgcm_v7m_func_end37:
	.size	gcm_v7m.aes_cipher.zeroize.stack.wipe_stack.2816, .Lgcm_v7m_func_end37-gcm_v7m.aes_cipher.zeroize.stack.wipe_stack.2816
	.cantunwind
	.fnend
                                        @ -- End function
	.section	.text.gcm_v7m.gcm_siv.course.seal_in,"ax",%progbits
	.p2align	2                               @ -- Begin function gcm_siv::course::seal_in::<#dd49eccd619dd2e8>
	.type	gcm_v7m.gcm_siv.course.seal_in,%function
	.code	16
	.thumb_func
gcm_v7m.gcm_siv.course.seal_in: @ @gcm_v7m.gcm_siv.course.seal_in
	.fnstart
@ %bb.0:                                @ %start
	.save	{r4, r5, r6, r7, r8, r9, r10, r11, lr}
	push.w	{r4, r5, r6, r7, r8, r9, r10, r11, lr}
	.pad	#548
	sub.w	sp, sp, #548
	add.w	r10, sp, #48
	add.w	r5, r10, #4
	mov	r9, r2
	mov	r7, r1
	mov	r4, r0
	ldr.w	r8, [sp, #584]
	mov	r0, r5
	movs	r1, #0
	mov.w	r2, #480
	mov	r11, r3
	movs	r6, #0
	bl	memset
	str	r6, [sp, #48]
	add	r6, sp, #532
	mov	r0, r7
	mov	r2, r9
	mov	r3, r11
	strd	r8, r10, [sp]
	str	r6, [sp, #8]
	bl	gcm_v7m.gcm_siv.keys.derive_and_prepare
	ldrd	r0, r1, [sp, #608]
	ldr	r7, [sp, #588]
	strd	r0, r1, [sp, #24]
	ldr	r0, [sp, #592]
	mov	r1, r10
	str	r0, [sp, #8]
	ldr	r0, [sp, #596]
	mov	r2, r6
	str	r0, [sp, #12]
	ldr	r0, [sp, #600]
	mov	r3, r8
	str	r0, [sp, #16]
	add	r0, sp, #32
	str	r7, [sp]
	bl	gcm_v7m.gcm_siv.message.seal
	movs	r0, #0
	str	r0, [sp, #48]
	mov	r0, r5
	movs	r2, #120
	movs	r3, #0
	bl	gcm_v7m.aes_cipher.zeroize.elements.zeroize_elements.1
	mov	r0, r6
	movs	r2, #4
	movs	r3, #0
	bl	gcm_v7m.aes_cipher.zeroize.elements.zeroize_elements.1
	bl	gcm_v7m.aes_cipher.zeroize.stack.wipe_stack.2816
	add	r3, sp, #32
	ldr	r2, [sp, #44]
	ldm	r3, {r0, r1, r3}
	str	r2, [r4, #12]
	str	r3, [r4, #8]
	str	r1, [r4, #4]
	str	r0, [r4]
	add.w	sp, sp, #548
	pop.w	{r4, r5, r6, r7, r8, r9, r10, r11, pc}
.Lgcm_v7m_func_end38:
	.size	gcm_v7m.gcm_siv.course.seal_in, .Lgcm_v7m_func_end38-gcm_v7m.gcm_siv.course.seal_in
	.cantunwind
	.fnend
                                        @ -- End function
	.section	.text.gcm_v7m.gcm_siv.message.seal,"ax",%progbits
	.p2align	2                               @ -- Begin function gcm_siv::message::seal::<#e5fd4d72f9ad47b7>
	.type	gcm_v7m.gcm_siv.message.seal,%function
	.code	16
	.thumb_func
gcm_v7m.gcm_siv.message.seal: @ @gcm_v7m.gcm_siv.message.seal
	.fnstart
@ %bb.0:                                @ %start
	.save	{r4, r5, r6, r7, r8, r9, lr}
	push.w	{r4, r5, r6, r7, r8, r9, lr}
	.pad	#44
	sub	sp, #44
	mov	r5, r1
	ldrd	r1, lr, [sp, #80]
	mov	r12, r3
	ldr	r3, [sp, #72]
	ldr.w	r9, [sp, #88]
	ldrd	r8, r6, [sp, #96]
	mov	r4, r0
	add	r7, sp, #28
	strd	r1, lr, [sp]
	mov	r0, r5
	mov	r1, r2
	mov	r2, r12
	strd	r8, r6, [sp, #16]
	str	r7, [sp, #24]
	str.w	r9, [sp, #8]
	bl	gcm_v7m.gcm_siv.message.put_tag
	mov	r0, r5
	mov	r1, r7
	mov	r2, r9
	strd	r8, r6, [sp]
	bl	gcm_v7m.gcm_siv.message.process_text
	add	r3, sp, #28
	ldr	r2, [sp, #40]
	ldm	r3, {r0, r1, r3}
	str	r2, [r4, #12]
	str	r3, [r4, #8]
	str	r1, [r4, #4]
	str	r0, [r4]
	add	sp, #44
	pop.w	{r4, r5, r6, r7, r8, r9, pc}
.Lgcm_v7m_func_end39:
	.size	gcm_v7m.gcm_siv.message.seal, .Lgcm_v7m_func_end39-gcm_v7m.gcm_siv.message.seal
	.cantunwind
	.fnend
                                        @ -- End function
	.section	.text.gcm_v7m.gcm.hash_room.hash_piece,"ax",%progbits
	.p2align	2                               @ -- Begin function gcm::hash_room::hash_piece::<#692ea192ac7b1787>
	.type	gcm_v7m.gcm.hash_room.hash_piece,%function
	.code	16
	.thumb_func
gcm_v7m.gcm.hash_room.hash_piece: @ @gcm_v7m.gcm.hash_room.hash_piece
	.fnstart
@ %bb.0:                                @ %start
	.save	{r4, r5, r6, r7, r8, r9, r10, r11, lr}
	push.w	{r4, r5, r6, r7, r8, r9, r10, r11, lr}
	.pad	#60
	sub	sp, #60
	ldrd	r6, lr, [sp, #96]
	ldrd	r3, r4, [sp, #112]
	mov	r5, r2
	rsbs.w	r2, r6, #16
	mov.w	r12, #0
	mov	r11, r1
	ldr	r1, [sp, #104]
	sbc.w	r10, r12, lr
	subs.w	r9, r3, r2
	sbcs.w	r7, r4, r10
	str	r0, [sp, #56]                   @ 4-byte Spill
	bhs	.Lgcm_v7m_BB40_4
@ %bb.1:                                @ %then.1
	adds	r0, r5, r6
	subs	r2, r0, r1
	sbc	r7, r12, #0
	subs	r2, r2, r3
	sbcs.w	r2, r7, r4
	bhs	.Lgcm_v7m_BB40_7
@ %bb.2:                                @ %join.7.i.i.i.i.i.i.preheader
	subs	r2, r3, #4
	sbcs	r2, r4, #0
	and	r12, r3, #3
	bhs	.Lgcm_v7m_BB40_9
@ %bb.3:
	movs	r3, #0
	b	.Lgcm_v7m_BB40_12
	.p2align	2
.Lgcm_v7m_BB40_4:                               @ %join.3
	ldr.w	r0, [r11]
	ldr.w	r3, [r11, #4]
	ldr.w	r4, [r11, #8]
	rev	r0, r0
	str	r0, [sp, #48]                   @ 4-byte Spill
	rev	r0, r3
	str	r0, [sp, #44]                   @ 4-byte Spill
	rev	r0, r4
	ldr.w	r7, [r11, #12]
	str	r0, [sp, #40]                   @ 4-byte Spill
	adds	r0, r5, r6
	subs	r3, r0, r1
	rev.w	r8, r7
	sbc	r7, r12, #0
	subs	r3, r3, r2
	sbcs.w	r3, r7, r10
	add.w	r4, r1, r2
	bhs	.Lgcm_v7m_BB40_8
@ %bb.5:                                @ %join.7.i.i.i.i.i.i49.preheader
	eor	r3, r6, #15
	subs	r3, #3
	sbcs	r3, lr, #0
	and	r12, r2, #3
	bhs	.Lgcm_v7m_BB40_16
@ %bb.6:
	movs	r2, #0
	b	.Lgcm_v7m_BB40_19
	.p2align	2
.Lgcm_v7m_BB40_7:                               @ %apart.2.i.i.i.i.i.i
	mov	r2, r3
	add	sp, #60
	pop.w	{r4, r5, r6, r7, r8, r9, r10, r11, lr}
	b	memmove
	.p2align	2
.Lgcm_v7m_BB40_8:                               @ %apart.2.i.i.i.i.i.i47
	bl	memmove
	b	.Lgcm_v7m_BB40_22
	.p2align	2
.Lgcm_v7m_BB40_9:                               @ %join.7.i.i.i.i.i.i.preheader.new
	bic	r7, r3, #3
	movs	r3, #0
	movs	r6, #0
	.p2align	2
.Lgcm_v7m_BB40_10:                              @ %join.7.i.i.i.i.i.i
                                        @ =>This Inner Loop Header: Depth=1
	ldrb	r5, [r1, r3]
	strb	r5, [r0, r3]
	orr	r5, r3, #1
	ldrb	r4, [r1, r5]
	strb	r4, [r0, r5]
	orr	r5, r3, #2
	ldrb	r4, [r1, r5]
	strb	r4, [r0, r5]
	orr	r5, r3, #3
	adds	r3, #4
	ldrb	r4, [r1, r5]
	adc	r6, r6, #0
	eor.w	r2, r3, r7
	orrs	r2, r6
	strb	r4, [r0, r5]
	bne	.Lgcm_v7m_BB40_10
@ %bb.11:                               @ %common.ret.loopexit.unr-lcssa
	cmp.w	r12, #0
	beq	.Lgcm_v7m_BB40_15
.Lgcm_v7m_BB40_12:                              @ %join.7.i.i.i.i.i.i.epil.preheader
	ldrb	r7, [r1, r3]
	cmp.w	r12, #1
	strb	r7, [r0, r3]
	beq	.Lgcm_v7m_BB40_15
@ %bb.13:                               @ %join.7.i.i.i.i.i.i.epil.1
	adds	r7, r3, #1
	ldrb	r6, [r1, r7]
	cmp.w	r12, #2
	strb	r6, [r0, r7]
	beq	.Lgcm_v7m_BB40_15
@ %bb.14:                               @ %join.7.i.i.i.i.i.i.epil.2
	adds	r2, r3, #2
	ldrb	r1, [r1, r2]
	strb	r1, [r0, r2]
.Lgcm_v7m_BB40_15:                              @ %common.ret
	add	sp, #60
	pop.w	{r4, r5, r6, r7, r8, r9, r10, r11, pc}
	.p2align	2
.Lgcm_v7m_BB40_16:                              @ %join.7.i.i.i.i.i.i49.preheader.new
	mov	r10, r4
	and	lr, r2, #28
	movs	r2, #0
	movs	r6, #0
	.p2align	2
.Lgcm_v7m_BB40_17:                              @ %join.7.i.i.i.i.i.i49
                                        @ =>This Inner Loop Header: Depth=1
	ldrb	r4, [r1, r2]
	strb	r4, [r0, r2]
	orr	r4, r2, #1
	ldrb	r3, [r1, r4]
	strb	r3, [r0, r4]
	orr	r3, r2, #2
	ldrb	r4, [r1, r3]
	strb	r4, [r0, r3]
	orr	r3, r2, #3
	adds	r2, #4
	ldrb	r4, [r1, r3]
	adc	r6, r6, #0
	eor.w	r7, r2, lr
	orrs	r7, r6
	strb	r4, [r0, r3]
	bne	.Lgcm_v7m_BB40_17
@ %bb.18:                               @ %"core::slice::edits::slice+T::copy_from_slice::<i8,20'core::clone::U8Clone{}>.exit56.loopexit.unr-lcssa"
	cmp.w	r12, #0
	mov	r4, r10
	beq	.Lgcm_v7m_BB40_22
.Lgcm_v7m_BB40_19:                              @ %join.7.i.i.i.i.i.i49.epil.preheader
	ldrb	r3, [r1, r2]
	cmp.w	r12, #1
	strb	r3, [r0, r2]
	beq	.Lgcm_v7m_BB40_22
@ %bb.20:                               @ %join.7.i.i.i.i.i.i49.epil.1
	adds	r3, r2, #1
	ldrb	r7, [r1, r3]
	cmp.w	r12, #2
	strb	r7, [r0, r3]
	beq	.Lgcm_v7m_BB40_22
@ %bb.21:                               @ %join.7.i.i.i.i.i.i49.epil.2
	adds	r2, #2
	ldrb	r1, [r1, r2]
	strb	r1, [r0, r2]
.Lgcm_v7m_BB40_22:                              @ %"core::slice::edits::slice+T::copy_from_slice::<i8,20'core::clone::U8Clone{}>.exit56"
	bic	r0, r9, #15
	ldr	r1, [r5, #4]
	ldr	r2, [r5, #8]
	str	r4, [sp, #52]                   @ 4-byte Spill
	str	r0, [sp, #36]                   @ 4-byte Spill
	adds	r7, r4, r0
	ldr	r0, [r5]
	ldr	r3, [r5, #12]
	rev	r4, r1
	rev	r1, r2
	ldr	r2, [sp, #40]                   @ 4-byte Reload
	rev	r6, r0
	rev	r0, r3
	eors	r1, r2
	ldr	r2, [sp, #44]                   @ 4-byte Reload
	ldr	r3, [sp, #56]                   @ 4-byte Reload
	eors	r2, r4
	ldr	r4, [r3]
	ldr	r3, [sp, #48]                   @ 4-byte Reload
	eor.w	r0, r0, r8
	eors	r3, r6
	ldm.w	r4, {r6, r12, lr}
	ldr	r4, [r4, #12]
	and	r8, r9, #15
	stm.w	sp, {r6, r12, lr}
	str	r4, [sp, #12]
	bl	gcm_v7m.gcm.holes.product_with_holes
	mov	r10, r0
	mov	r4, r1
	subs	r0, r5, r7
	mov.w	r1, #0
	sbc	r1, r1, #0
	subs.w	r0, r0, r8
	mov	r6, r2
	sbcs	r0, r1, #0
	mov	lr, r3
	bhs	.Lgcm_v7m_BB40_25
@ %bb.23:                               @ %join.7.i.i.i.i.i.i149.preheader
	cmp.w	r8, #4
	and	r12, r9, #3
	bhs	.Lgcm_v7m_BB40_26
@ %bb.24:
	ldr.w	r9, [sp, #52]                   @ 4-byte Reload
	movs	r1, #0
	b	.Lgcm_v7m_BB40_29
	.p2align	2
.Lgcm_v7m_BB40_25:                              @ %apart.2.i.i.i.i.i.i147
	mov	r0, r5
	mov	r1, r7
	mov	r2, r8
	mov	r5, lr
	bl	memmove
	ldr.w	r9, [sp, #52]                   @ 4-byte Reload
	mov	lr, r5
	b	.Lgcm_v7m_BB40_32
	.p2align	2
.Lgcm_v7m_BB40_26:                              @ %join.7.i.i.i.i.i.i149.preheader.new
	and	r2, r9, #12
	movs	r1, #0
	movs	r3, #0
	strd	r4, r6, [sp, #44]               @ 8-byte Folded Spill
	.p2align	2
.Lgcm_v7m_BB40_27:                              @ %join.7.i.i.i.i.i.i149
                                        @ =>This Inner Loop Header: Depth=1
	ldrb	r4, [r7, r1]
	strb	r4, [r5, r1]
	orr	r4, r1, #1
	ldrb	r0, [r7, r4]
	strb	r0, [r5, r4]
	orr	r0, r1, #2
	ldrb	r4, [r7, r0]
	strb	r4, [r5, r0]
	orr	r0, r1, #3
	adds	r1, #4
	ldrb	r4, [r7, r0]
	adc	r3, r3, #0
	eor.w	r6, r1, r2
	orrs	r6, r3
	strb	r4, [r5, r0]
	bne	.Lgcm_v7m_BB40_27
@ %bb.28:                               @ %"core::slice::edits::slice+T::copy_from_slice::<i8,20'core::clone::U8Clone{}>.exit156.loopexit.unr-lcssa"
	add.w	r9, sp, #44
	ldm.w	r9, {r4, r6, r9}                @ 12-byte Folded Reload
	cmp.w	r12, #0
	beq	.Lgcm_v7m_BB40_32
.Lgcm_v7m_BB40_29:                              @ %join.7.i.i.i.i.i.i149.epil.preheader
	ldrb	r0, [r7, r1]
	cmp.w	r12, #1
	strb	r0, [r5, r1]
	beq	.Lgcm_v7m_BB40_32
@ %bb.30:                               @ %join.7.i.i.i.i.i.i149.epil.1
	adds	r0, r1, #1
	ldrb	r2, [r7, r0]
	cmp.w	r12, #2
	strb	r2, [r5, r0]
	beq	.Lgcm_v7m_BB40_32
@ %bb.31:                               @ %join.7.i.i.i.i.i.i149.epil.2
	adds	r0, r1, #2
	ldrb	r1, [r7, r0]
	strb	r1, [r5, r0]
.Lgcm_v7m_BB40_32:                              @ %"core::slice::edits::slice+T::copy_from_slice::<i8,20'core::clone::U8Clone{}>.exit156"
	ldr	r0, [sp, #56]                   @ 4-byte Reload
	ldr	r5, [sp, #36]                   @ 4-byte Reload
	ldr	r3, [r0]
	movs	r7, #0
	ldm	r3, {r0, r1, r2, r3}
	strd	r5, r7, [sp, #24]
	strd	r10, r4, [sp]
	strd	r6, lr, [sp, #8]
	str.w	r9, [sp, #16]
	bl	gcm_v7m.gcm.single_blocks.hash_singly.1
	lsrs	r7, r3, #24
	strb.w	r7, [r11]
	lsrs	r7, r3, #16
	strb.w	r7, [r11, #1]
	lsrs	r7, r3, #8
	strb.w	r3, [r11, #3]
	lsrs	r3, r2, #24
	strb.w	r3, [r11, #4]
	lsrs	r3, r2, #16
	strb.w	r3, [r11, #5]
	lsrs	r3, r2, #8
	strb.w	r2, [r11, #7]
	lsrs	r2, r1, #24
	strb.w	r2, [r11, #8]
	lsrs	r2, r1, #16
	strb.w	r2, [r11, #9]
	lsrs	r2, r1, #8
	strb.w	r1, [r11, #11]
	lsrs	r1, r0, #24
	strb.w	r1, [r11, #12]
	lsrs	r1, r0, #16
	strb.w	r1, [r11, #13]
	lsrs	r1, r0, #8
	strb.w	r7, [r11, #2]
	strb.w	r3, [r11, #6]
	strb.w	r2, [r11, #10]
	strb.w	r1, [r11, #14]
	strb.w	r0, [r11, #15]
	add	sp, #60
	pop.w	{r4, r5, r6, r7, r8, r9, r10, r11, pc}
.Lgcm_v7m_func_end40:
	.size	gcm_v7m.gcm.hash_room.hash_piece, .Lgcm_v7m_func_end40-gcm_v7m.gcm.hash_room.hash_piece
	.cantunwind
	.fnend
                                        @ -- End function
	.section	.text.gcm_v7m.gcm.mode.BorrowedGcm.enter_phase,"ax",%progbits
	.p2align	2                               @ -- Begin function gcm::mode::BorrowedGcm::enter_phase::<#84a61a6dd6ff62d6>
	.type	gcm_v7m.gcm.mode.BorrowedGcm.enter_phase,%function
	.code	16
	.thumb_func
gcm_v7m.gcm.mode.BorrowedGcm.enter_phase: @ @gcm_v7m.gcm.mode.BorrowedGcm.enter_phase
	.fnstart
@ %bb.0:                                @ %start
	.save	{r4, r5, r6, r7, lr}
	push	{r4, r5, r6, r7, lr}
	.pad	#4
	sub	sp, #4
	mov	r12, r1
	ldr	r3, [r1, #28]
	ldr	r1, [r1, #24]
	subs	r1, #1
	sbc	r3, r3, #0
	subs	r6, r1, #4
	sbcs	r3, r3, #0
	mov.w	r3, #0
	it	lo
	movlo	r3, #1
	cmp	r3, #0
	it	ne
	addne	r3, r1, #1
	uxtb	r5, r3
	cmp	r5, #1
	mov.w	r1, #0
	beq	.Lgcm_v7m_BB41_4
@ %bb.1:                                @ %start
	uxtb	r3, r2
	cmp	r5, r3
	beq	.Lgcm_v7m_BB41_4
@ %bb.2:
	movs	r4, #1
.Lgcm_v7m_BB41_3:                               @ %return.4
	mov	r0, r4
	add	sp, #4
	pop	{r4, r5, r6, r7, pc}
	.p2align	2
.Lgcm_v7m_BB41_4:                               @ %join.3
	ldr	r3, [sp, #24]
	ldrd	r6, r4, [r12, #8]
	ldr.w	lr, [sp, #28]
	adds	r3, r3, r6
	adcs.w	r4, r4, lr
	adcs	r6, r1, #0
	mvn	lr, #31
	itt	ne
	movne.w	r4, #-1
	movne.w	r3, #-1
	subs.w	r6, lr, r3
	mov.w	r6, #15
	sbcs.w	r7, r6, r4
	it	lo
	movlo	r1, #1
	cmp	r5, #1
	bne	.Lgcm_v7m_BB41_7
@ %bb.5:                                @ %join.3
	subs.w	r3, lr, r3
	sbcs.w	r3, r6, r4
	mov	r4, r1
	blo	.Lgcm_v7m_BB41_3
@ %bb.6:                                @ %then.8
	ldr	r0, [r0, #16]
	mov	r1, r12
	mov	r4, r12
	mov	r5, r2
	bl	gcm_v7m.gcm.mode.BorrowedGcm.hash_so_far
	lsrs	r7, r3, #24
	strb.w	r7, [r4, #48]
	lsrs	r7, r3, #16
	strb.w	r7, [r4, #49]
	lsrs	r7, r3, #8
	strb.w	r3, [r4, #51]
	lsrs	r3, r2, #24
	strb.w	r3, [r4, #52]
	lsrs	r3, r2, #16
	strb.w	r3, [r4, #53]
	lsrs	r3, r2, #8
	strb.w	r2, [r4, #55]
	lsrs	r2, r1, #24
	strb.w	r2, [r4, #56]
	lsrs	r2, r1, #16
	strb.w	r2, [r4, #57]
	lsrs	r2, r1, #8
	strb.w	r1, [r4, #59]
	lsrs	r1, r0, #24
	strb.w	r1, [r4, #60]
	lsrs	r1, r0, #16
	strb.w	r1, [r4, #61]
	lsrs	r1, r0, #8
	strb.w	r1, [r4, #62]
	strb.w	r0, [r4, #63]
	uxtb	r0, r5
	movs	r1, #0
	strb.w	r7, [r4, #50]
	strb.w	r3, [r4, #54]
	strb.w	r2, [r4, #58]
	cmp	r0, #3
	it	ne
	movne	r0, #2
	strd	r0, r1, [r4, #24]
	movs	r4, #0
	mov	r0, r4
	add	sp, #4
	pop	{r4, r5, r6, r7, pc}
	.p2align	2
.Lgcm_v7m_BB41_7:
	mov	r4, r1
	mov	r0, r4
	add	sp, #4
	pop	{r4, r5, r6, r7, pc}
.Lgcm_v7m_func_end41:
	.size	gcm_v7m.gcm.mode.BorrowedGcm.enter_phase, .Lgcm_v7m_func_end41-gcm_v7m.gcm.mode.BorrowedGcm.enter_phase
	.cantunwind
	.fnend
                                        @ -- End function
	.section	.text.gcm_v7m.gcm.mode.BorrowedGcm.is_tag_so_far,"ax",%progbits
	.p2align	2                               @ -- Begin function gcm::mode::BorrowedGcm::is_tag_so_far::<#84a61a6dd6ff62d6>
	.type	gcm_v7m.gcm.mode.BorrowedGcm.is_tag_so_far,%function
	.code	16
	.thumb_func
gcm_v7m.gcm.mode.BorrowedGcm.is_tag_so_far: @ @gcm_v7m.gcm.mode.BorrowedGcm.is_tag_so_far
	.fnstart
@ %bb.0:                                @ %start
	.save	{r4, r5, r7, lr}
	push	{r4, r5, r7, lr}
	.pad	#16
	sub	sp, #16
	mov	r5, sp
	mov	r4, r2
	mov	r2, r5
	bl	gcm_v7m.gcm.mode.BorrowedGcm.put_tag_so_far
	mov	r0, r4
	mov	r1, r5
	bl	gcm_v7m.aes_cipher.blocks.difference
	clz	r0, r0
	lsrs	r4, r0, #5
	mov	r0, r5
	bl	gcm_v7m.aes_cipher.zeroize.elements.zeroize_elements.2
	mov	r0, r4
	add	sp, #16
	pop	{r4, r5, r7, pc}
.Lgcm_v7m_func_end42:
	.size	gcm_v7m.gcm.mode.BorrowedGcm.is_tag_so_far, .Lgcm_v7m_func_end42-gcm_v7m.gcm.mode.BorrowedGcm.is_tag_so_far
	.cantunwind
	.fnend
                                        @ -- End function
	.section	.text.gcm_v7m.gcm.mode.BorrowedGcm.is_short_tag_so_far,"ax",%progbits
	.p2align	2                               @ -- Begin function gcm::mode::BorrowedGcm::is_short_tag_so_far::<#84a61a6dd6ff62d6>
	.type	gcm_v7m.gcm.mode.BorrowedGcm.is_short_tag_so_far,%function
	.code	16
	.thumb_func
gcm_v7m.gcm.mode.BorrowedGcm.is_short_tag_so_far: @ @gcm_v7m.gcm.mode.BorrowedGcm.is_short_tag_so_far
	.fnstart
@ %bb.0:                                @ %start
	.save	{r4, r5, r6, r7, lr}
	push	{r4, r5, r6, r7, lr}
	.pad	#36
	sub	sp, #36
	add	r4, sp, #20
	mov	r5, r2
	ldr	r6, [sp, #56]
	mov	r2, r4
	bl	gcm_v7m.gcm.mode.BorrowedGcm.put_tag_so_far
	ldr	r2, [sp, #32]
	add	r3, sp, #20
	ldm	r3, {r0, r1, r3}
	str	r2, [sp, #16]
	add	r2, sp, #4
	add	r7, sp, #4
	stm	r2!, {r0, r1, r3}
	mov	r0, r7
	mov	r1, r5
	mov	r2, r6
	bl	memcpy
	mov	r0, r7
	mov	r1, r4
	bl	gcm_v7m.aes_cipher.blocks.difference
	clz	r0, r0
	lsrs	r5, r0, #5
	mov	r0, r4
	bl	gcm_v7m.aes_cipher.zeroize.elements.zeroize_elements.2
	mov	r0, r7
	bl	gcm_v7m.aes_cipher.zeroize.elements.zeroize_elements.2
	mov	r0, r5
	add	sp, #36
	pop	{r4, r5, r6, r7, pc}
.Lgcm_v7m_func_end43:
	.size	gcm_v7m.gcm.mode.BorrowedGcm.is_short_tag_so_far, .Lgcm_v7m_func_end43-gcm_v7m.gcm.mode.BorrowedGcm.is_short_tag_so_far
	.cantunwind
	.fnend
                                        @ -- End function
	.section	.text.gcm_v7m.fotsgure_gcm_version,"ax",%progbits
	export_gcm_v7m	fotsgure_gcm_version
	.p2align	2
	.type	gcm_v7m.fotsgure_gcm_version,%function
	.code	16
	.thumb_func
gcm_v7m.fotsgure_gcm_version:                   @ @gcm_v7m.fotsgure_gcm_version
	.fnstart
@ %bb.0:
	mov.w	r0, #400
	b	.Lgcm_v7m_return_9608
.Lgcm_v7m_return_9608:
	movs	r1, #0
	movs	r2, #0
	movs	r3, #0
	mov	r12, r1
	bx	lr
.Lgcm_v7m_func_end44:
	.size	gcm_v7m.fotsgure_gcm_version, .Lgcm_v7m_func_end44-gcm_v7m.fotsgure_gcm_version
	.cantunwind
	.fnend
                                        @ -- End function
	.section	.text.gcm_v7m.fotsgure_gcm_set_key,"ax",%progbits
	export_gcm_v7m	fotsgure_gcm_set_key
	.p2align	2
	.type	gcm_v7m.fotsgure_gcm_set_key,%function
	.code	16
	.thumb_func
gcm_v7m.fotsgure_gcm_set_key:                   @ @gcm_v7m.fotsgure_gcm_set_key
	.fnstart
@ %bb.0:
	.save	{r4, r5, r6, r7, r8, r9, r10, lr}
	push.w	{r4, r5, r6, r7, r8, r9, r10, lr}
	.pad	#8
	sub	sp, #8
	mov	r4, r2
	cmp	r2, #32
	beq	.Lgcm_v7m_BB45_3
@ %bb.1:
	bic	r2, r4, #8
	cmp	r2, #16
	beq	.Lgcm_v7m_BB45_3
@ %bb.2:                                @ %then.1.i.i
	movs	r1, #0
	mov.w	r2, #500
	bl	memset
	movs	r5, #1
	mov	r0, r5
	add	sp, #8
	b	.Lgcm_v7m_return_9647
	.p2align	2
.Lgcm_v7m_BB45_3:                               @ %join.3.i.i
	cmp	r1, #0
	it	eq
	addeq.w	r1, r1, #4096
	adds	r6, r0, #4
	mov	r7, r0
	mov	r0, r6
	mov	r10, r1
	movs	r1, #0
	mov.w	r2, #480
	movs	r5, #0
	bl	memset
	movs	r1, #56
	lsrs	r0, r4, #31
	adds.w	r8, r1, r4, lsl #1
	adc	r9, r0, #0
	mov	r0, r6
	mov	r1, r10
	mov	r2, r4
	movs	r3, #0
	bl	gcm_v7m.aes_narrow.word_room.expand_words
	bl	gcm_v7m.aes_cipher.zeroize.stack.wipe_stack.768
	add.w	r1, r7, #484
	mov	r0, r6
	mov	r2, r8
	mov	r3, r9
	str	r4, [r7]
	str	r1, [sp]
	bl	gcm_v7m.gcm.mode.put_subkey
	bl	gcm_v7m.aes_cipher.zeroize.stack.wipe_stack.512
	mov	r0, r5
	add	sp, #8
	b	.Lgcm_v7m_return_9647
.Lgcm_v7m_return_9647:
	movs	r1, #0
	movs	r2, #0
	movs	r3, #0
	mov	r12, r1
	mov	lr, r1
	pop.w	{r4, r5, r6, r7, r8, r9, r10, pc}
.Lgcm_v7m_func_end45:
	.size	gcm_v7m.fotsgure_gcm_set_key, .Lgcm_v7m_func_end45-gcm_v7m.fotsgure_gcm_set_key
	.cantunwind
	.fnend
                                        @ -- End function
	.section	.text.gcm_v7m.fotsgure_gcm_set_key_of,"ax",%progbits
	export_gcm_v7m	fotsgure_gcm_set_key_of
	.p2align	2
	.type	gcm_v7m.fotsgure_gcm_set_key_of,%function
	.code	16
	.thumb_func
gcm_v7m.fotsgure_gcm_set_key_of:                @ @gcm_v7m.fotsgure_gcm_set_key_of
	.fnstart
@ %bb.0:
	.save	{r4, r5, r6, lr}
	push	{r4, r5, r6, lr}
	.pad	#8
	sub	sp, #8
	ldr	r5, [r1]
	cmp	r5, #32
	beq	.Lgcm_v7m_BB46_3
@ %bb.1:
	bic	r2, r5, #8
	cmp	r2, #16
	beq	.Lgcm_v7m_BB46_3
@ %bb.2:                                @ %then.1.i.i
	movs	r1, #0
	mov.w	r2, #500
	adds	r4, r0, #4
	add.w	r5, r0, #484
	bl	memset
	mov	r0, r4
	movs	r2, #120
	movs	r3, #0
	bl	gcm_v7m.aes_cipher.zeroize.elements.zeroize_elements.1
	mov	r0, r5
	movs	r2, #4
	movs	r3, #0
	bl	gcm_v7m.aes_cipher.zeroize.elements.zeroize_elements.1
	movs	r0, #2
	add	sp, #8
	b	.Lgcm_v7m_return_9730
	.p2align	2
.Lgcm_v7m_BB46_3:                               @ %join.3.i.i
	mov	r4, r0
	str	r5, [r4], #4
	adds	r1, #4
	mov	r6, r0
	mov	r0, r4
	mov.w	r2, #480
	bl	memmove
	movs	r1, #56
	lsrs	r0, r5, #31
	adds.w	r2, r1, r5, lsl #1
	adc	r3, r0, #0
	add.w	r1, r6, #484
	mov	r0, r4
	str	r1, [sp]
	bl	gcm_v7m.gcm.mode.put_subkey
	bl	gcm_v7m.aes_cipher.zeroize.stack.wipe_stack.512
	movs	r0, #0
	add	sp, #8
	b	.Lgcm_v7m_return_9730
.Lgcm_v7m_return_9730:
	movs	r1, #0
	movs	r2, #0
	movs	r3, #0
	mov	r12, r1
	mov	lr, r1
	pop	{r4, r5, r6, pc}
.Lgcm_v7m_func_end46:
	.size	gcm_v7m.fotsgure_gcm_set_key_of, .Lgcm_v7m_func_end46-gcm_v7m.fotsgure_gcm_set_key_of
	.cantunwind
	.fnend
                                        @ -- End function
	.section	.text.gcm_v7m.fotsgure_gcm_key_length,"ax",%progbits
	export_gcm_v7m	fotsgure_gcm_key_length
	.p2align	2
	.type	gcm_v7m.fotsgure_gcm_key_length,%function
	.code	16
	.thumb_func
gcm_v7m.fotsgure_gcm_key_length:                @ @gcm_v7m.fotsgure_gcm_key_length
	.fnstart
@ %bb.0:
	ldr	r1, [r0]
	bic	r0, r1, #8
	cmp	r0, #16
	mov	r0, r1
	it	ne
	movne	r0, #0
	cmp	r1, #32
	it	eq
	moveq	r0, r1
	b	.Lgcm_v7m_return_9782
.Lgcm_v7m_return_9782:
	movs	r1, #0
	movs	r2, #0
	movs	r3, #0
	mov	r12, r1
	bx	lr
.Lgcm_v7m_func_end47:
	.size	gcm_v7m.fotsgure_gcm_key_length, .Lgcm_v7m_func_end47-gcm_v7m.fotsgure_gcm_key_length
	.cantunwind
	.fnend
                                        @ -- End function
	.section	.text.gcm_v7m.fotsgure_gcm_wipe,"ax",%progbits
	export_gcm_v7m	fotsgure_gcm_wipe
	.p2align	2
	.type	gcm_v7m.fotsgure_gcm_wipe,%function
	.code	16
	.thumb_func
gcm_v7m.fotsgure_gcm_wipe:                      @ @gcm_v7m.fotsgure_gcm_wipe
	.fnstart
@ %bb.0:
	.save	{r4, r5, r7, lr}
	push	{r4, r5, r7, lr}
	movs	r1, #0
	mov.w	r2, #500
	adds	r4, r0, #4
	add.w	r5, r0, #484
	bl	memset
	mov	r0, r4
	movs	r2, #120
	movs	r3, #0
	bl	gcm_v7m.aes_cipher.zeroize.elements.zeroize_elements.1
	mov	r0, r5
	movs	r2, #4
	movs	r3, #0
	pop.w	{r4, r5, r7, lr}
	b	gcm_v7m.aes_cipher.zeroize.elements.zeroize_elements.1
.Lgcm_v7m_func_end48:
	.size	gcm_v7m.fotsgure_gcm_wipe, .Lgcm_v7m_func_end48-gcm_v7m.fotsgure_gcm_wipe
	.cantunwind
	.fnend
                                        @ -- End function
	.section	.text.gcm_v7m.fotsgure_gcm_seal,"ax",%progbits
	export_gcm_v7m	fotsgure_gcm_seal
	.p2align	2
	.type	gcm_v7m.fotsgure_gcm_seal,%function
	.code	16
	.thumb_func
gcm_v7m.fotsgure_gcm_seal:                      @ @gcm_v7m.fotsgure_gcm_seal
	.fnstart
@ %bb.0:
	.save	{r4, r5, r6, lr}
	push	{r4, r5, r6, lr}
	.pad	#40
	sub	sp, #40
	ldrd	r12, r5, [sp, #56]
	cmp	r1, #0
	ldrd	lr, r4, [sp, #64]
	it	eq
	addeq.w	r1, r1, #4096
	cmp	r3, #0
	it	eq
	addeq.w	r3, r3, #4096
	cmp	r5, #0
	it	eq
	addeq.w	r5, r5, #4096
	movs	r6, #0
	str	r3, [sp]
	movs	r3, #0
	strd	lr, r6, [sp, #24]
	str	r4, [sp, #32]
	strd	r6, r5, [sp, #12]
	str.w	r12, [sp, #8]
	bl	gcm_v7m.gcm_c.whole.fotsgure_gcm_seal
	add	sp, #40
	b	.Lgcm_v7m_return_9857
.Lgcm_v7m_return_9857:
	movs	r1, #0
	movs	r2, #0
	movs	r3, #0
	mov	r12, r1
	mov	lr, r1
	pop	{r4, r5, r6, pc}
.Lgcm_v7m_func_end49:
	.size	gcm_v7m.fotsgure_gcm_seal, .Lgcm_v7m_func_end49-gcm_v7m.fotsgure_gcm_seal
	.cantunwind
	.fnend
                                        @ -- End function
	.section	.text.gcm_v7m.fotsgure_gcm_seal_to,"ax",%progbits
	export_gcm_v7m	fotsgure_gcm_seal_to
	.p2align	2
	.type	gcm_v7m.fotsgure_gcm_seal_to,%function
	.code	16
	.thumb_func
gcm_v7m.fotsgure_gcm_seal_to:                   @ @gcm_v7m.fotsgure_gcm_seal_to
	.fnstart
@ %bb.0:
	.save	{r4, r5, r6, r7, r8, r9, r10, r11, lr}
	push.w	{r4, r5, r6, r7, r8, r9, r10, r11, lr}
	.pad	#36
	sub	sp, #36
	ldrd	r4, r9, [sp, #76]
	cmp	r1, #0
	ldrd	r7, r6, [sp, #84]
	it	eq
	addeq.w	r1, r1, #4096
	cmp	r3, #0
	it	eq
	addeq.w	r3, r3, #4096
	cmp	r4, #0
	it	eq
	addeq.w	r4, r4, #4096
	cmp	r7, #0
	it	eq
	addeq.w	r7, r7, #4096
	cmp	r9, r6
	bne	.Lgcm_v7m_BB50_5
@ %bb.1:                                @ %join.3.i.i
	cbz	r2, .Lgcm_v7m_BB50_7
@ %bb.2:                                @ %after.11.i.i.i
	ldr	r6, [r0]
	movs	r5, #2
	sub.w	r12, r6, #16
	cmp.w	r12, #16
	bhi	.Lgcm_v7m_BB50_6
@ %bb.3:                                @ %after.11.i.i.i
	movs	r6, #1
	lsl.w	r12, r6, r12
	movw	r6, #257
	movt	r6, #1
	tst.w	r12, r6
	beq	.Lgcm_v7m_BB50_6
@ %bb.4:                                @ %join.6.i.i
	ldr.w	r11, [sp, #92]
	mov	r5, r0
	mov	r0, r4
	mov	r8, r2
	mov	r2, r9
	mov	r6, r3
	movs	r3, #0
	str	r7, [sp]
	mov.w	r10, #0
	mov	r4, r1
	bl	gcm_v7m.gcm_c.whole_to.copy
	add	r0, sp, #24
	stm.w	r0, {r9, r10, r11}
	ldr	r0, [sp, #72]
	mov	r1, r4
	strd	r0, r10, [sp, #8]
	mov	r0, r5
	mov	r2, r8
	movs	r3, #0
	str	r7, [sp, #16]
	str	r6, [sp]
	bl	gcm_v7m.gcm_c.whole.fotsgure_gcm_seal
	add	sp, #36
	b	.Lgcm_v7m_return_9938
	.p2align	2
.Lgcm_v7m_BB50_5:
	movs	r5, #10
.Lgcm_v7m_BB50_6:                               @ %wide_fotsgure_gcm_seal_to.exit
	mov	r0, r5
	add	sp, #36
	b	.Lgcm_v7m_return_9938
	.p2align	2
.Lgcm_v7m_BB50_7:
	movs	r5, #3
	mov	r0, r5
	add	sp, #36
	b	.Lgcm_v7m_return_9938
.Lgcm_v7m_return_9938:
	movs	r1, #0
	movs	r2, #0
	movs	r3, #0
	mov	r12, r1
	mov	lr, r1
	pop.w	{r4, r5, r6, r7, r8, r9, r10, r11, pc}
.Lgcm_v7m_func_end50:
	.size	gcm_v7m.fotsgure_gcm_seal_to, .Lgcm_v7m_func_end50-gcm_v7m.fotsgure_gcm_seal_to
	.cantunwind
	.fnend
                                        @ -- End function
	.section	.text.gcm_v7m.fotsgure_gcm_seal_next,"ax",%progbits
	export_gcm_v7m	fotsgure_gcm_seal_next
	.p2align	2
	.type	gcm_v7m.fotsgure_gcm_seal_next,%function
	.code	16
	.thumb_func
gcm_v7m.fotsgure_gcm_seal_next:                 @ @gcm_v7m.fotsgure_gcm_seal_next
	.fnstart
@ %bb.0:
	.save	{r4, r5, r6, r7, r8, lr}
	push.w	{r4, r5, r6, r7, r8, lr}
	.pad	#40
	sub	sp, #40
	ldr	r5, [r1, #4]
	ldr	r4, [r1, #8]
	ands	r5, r4
	adds	r5, #1
	itt	eq
	ldreq	r5, [r1]
	addseq.w	r5, r5, #1
	beq	.Lgcm_v7m_BB51_3
@ %bb.1:                                @ %join.3.i.i
	ldrd	r6, r4, [sp, #64]
	mov	r8, r2
	ldrd	r5, r2, [sp, #72]
	cmp	r4, #0
	it	eq
	addeq.w	r4, r4, #4096
	cmp	r3, #0
	it	eq
	addeq.w	r3, r3, #4096
	movs	r7, #0
	str	r2, [sp, #32]
	str	r3, [sp]
	movs	r2, #12
	movs	r3, #0
	strd	r5, r7, [sp, #24]
	strd	r7, r4, [sp, #12]
	mov	r5, r1
	str	r6, [sp, #8]
	bl	gcm_v7m.gcm_c.whole.fotsgure_gcm_seal
	cbz	r0, .Lgcm_v7m_BB51_4
@ %bb.2:                                @ %wide_fotsgure_gcm_seal_next.exit
	add	sp, #40
	b	.Lgcm_v7m_return_10008
	.p2align	2
.Lgcm_v7m_BB51_3:
	movs	r0, #7
	add	sp, #40
	b	.Lgcm_v7m_return_10008
	.p2align	2
.Lgcm_v7m_BB51_4:                               @ %then.4.i.i
	ldr	r1, [r5, #8]
	ldr	r3, [r5, #4]
	mov.w	r7, #-1
	ldr	r0, [r5]
	eor.w	r6, r1, r7
	eors	r7, r3
	mov	r2, r5
	orrs	r7, r6
	rev.w	r12, r0
	beq	.Lgcm_v7m_BB51_6
@ %bb.5:                                @ %"gcm::counter::nonce_after.exit.thread.i.i.i"
	rev	r6, r1
	rev	r7, r3
	adds	r4, r6, #1
	adc	r7, r7, #0
	rev.w	lr, r7
	rev	r5, r4
	mov	r4, r8
	b	.Lgcm_v7m_BB51_8
	.p2align	2
.Lgcm_v7m_BB51_6:                               @ %"gcm::counter::nonce_after.exit.i.i.i"
	adds	r7, r0, #1
	mov	r4, r8
	beq	.Lgcm_v7m_BB51_9
@ %bb.7:
	add.w	r12, r12, #1
	mov.w	lr, #0
	movs	r5, #0
.Lgcm_v7m_BB51_8:                               @ %arm.1.i.i.i
	rev.w	r7, r12
	str	r7, [r2]
	str.w	lr, [r2, #4]
	str	r5, [r2, #8]
.Lgcm_v7m_BB51_9:                               @ %"gcm::counter::Counter::take.exit.i.i"
	str	r0, [r4]
	movs	r0, #0
	str	r3, [r4, #4]
	str	r1, [r4, #8]
	add	sp, #40
	b	.Lgcm_v7m_return_10008
.Lgcm_v7m_return_10008:
	movs	r1, #0
	movs	r2, #0
	movs	r3, #0
	mov	r12, r1
	mov	lr, r1
	pop.w	{r4, r5, r6, r7, r8, pc}
.Lgcm_v7m_func_end51:
	.size	gcm_v7m.fotsgure_gcm_seal_next, .Lgcm_v7m_func_end51-gcm_v7m.fotsgure_gcm_seal_next
	.cantunwind
	.fnend
                                        @ -- End function
	.section	.text.gcm_v7m.fotsgure_gcm_open,"ax",%progbits
	export_gcm_v7m	fotsgure_gcm_open
	.p2align	2
	.type	gcm_v7m.fotsgure_gcm_open,%function
	.code	16
	.thumb_func
gcm_v7m.fotsgure_gcm_open:                      @ @gcm_v7m.fotsgure_gcm_open
	.fnstart
@ %bb.0:
	.save	{r4, r5, r6, r7, r8, r9, lr}
	push.w	{r4, r5, r6, r7, r8, r9, lr}
	.pad	#100
	sub	sp, #100
	ldr	r5, [sp, #132]
	cmp	r1, #0
	ldrd	r6, r7, [sp, #140]
	it	eq
	addeq.w	r1, r1, #4096
	cmp	r3, #0
	it	eq
	addeq.w	r3, r3, #4096
	cmp	r5, #0
	it	eq
	addeq.w	r5, r5, #4096
	cmp	r6, #0
	it	eq
	addeq.w	r6, r6, #4096
	cmp	r7, #16
	bne	.Lgcm_v7m_BB52_6
@ %bb.1:                                @ %join.3.i.i
	cmp	r2, #0
	beq	.Lgcm_v7m_BB52_8
@ %bb.2:                                @ %after.11.i.i.i
	ldr.w	lr, [r0]
	movs	r4, #2
	sub.w	r12, lr, #16
	cmp.w	r12, #16
	bhi	.Lgcm_v7m_BB52_7
@ %bb.3:                                @ %after.11.i.i.i
	movs	r7, #1
	lsl.w	r12, r7, r12
	movw	r7, #257
	movt	r7, #1
	tst.w	r12, r7
	beq	.Lgcm_v7m_BB52_7
@ %bb.4:                                @ %join.6.i.i
	ldr.w	r9, [r6]
	ldr	r7, [r6, #4]
	ldr	r4, [r6, #12]
	ldr	r6, [r6, #8]
	strd	r9, r7, [sp, #68]
	movs	r7, #56
	strd	r6, r4, [sp, #76]
	adds	r4, r0, #4
	lsr.w	r6, lr, #31
	adds.w	r7, r7, lr, lsl #1
	adc	r6, r6, #0
	add.w	r0, r0, #484
	str	r4, [sp, #40]
	movs	r4, #0
	ldr.w	r8, [sp, #136]
	ldr.w	r12, [sp, #128]
	strd	r4, r7, [sp, #44]
	strd	r6, r0, [sp, #52]
	add	r0, sp, #84
	add	r7, sp, #68
	strd	r7, r0, [sp, #32]
	add	r0, sp, #40
	mov	r7, r3
	movs	r3, #0
	str	r4, [sp, #60]
	strd	r4, r4, [sp, #92]
	strd	r4, r4, [sp, #84]
	strd	r8, r4, [sp, #24]
	strd	r12, r4, [sp, #8]
	str	r5, [sp, #16]
	str	r7, [sp]
	bl	gcm_v7m.gcm.mode.BorrowedGcm.compare
	uxtb	r0, r0
	cbz	r0, .Lgcm_v7m_BB52_9
@ %bb.5:
	movs	r4, #6
	b	.Lgcm_v7m_BB52_10
	.p2align	2
.Lgcm_v7m_BB52_6:
	movs	r4, #4
.Lgcm_v7m_BB52_7:                               @ %wide_fotsgure_gcm_open.exit
	mov	r0, r4
	add	sp, #100
	b	.Lgcm_v7m_return_10157
	.p2align	2
.Lgcm_v7m_BB52_8:
	movs	r4, #3
	mov	r0, r4
	add	sp, #100
	b	.Lgcm_v7m_return_10157
	.p2align	2
.Lgcm_v7m_BB52_9:                               @ %then.1.i.i.i
	add	r0, sp, #40
	add	r1, sp, #84
	movs	r2, #16
	movs	r3, #0
	strd	r8, r4, [sp, #8]
	str	r5, [sp]
	bl	gcm_v7m.gcm.gctr.add_gctr
.Lgcm_v7m_BB52_10:                              @ %"gcm::mode::BorrowedGcm::decrypt::<#84a61a6dd6ff62d6>.exit.i.i"
	add	r0, sp, #84
	bl	gcm_v7m.aes_cipher.zeroize.elements.zeroize_elements.2
	bl	gcm_v7m.aes_cipher.zeroize.stack.wipe_stack.1536
	mov	r0, r4
	add	sp, #100
	b	.Lgcm_v7m_return_10157
.Lgcm_v7m_return_10157:
	movs	r1, #0
	movs	r2, #0
	movs	r3, #0
	mov	r12, r1
	mov	lr, r1
	pop.w	{r4, r5, r6, r7, r8, r9, pc}
.Lgcm_v7m_func_end52:
	.size	gcm_v7m.fotsgure_gcm_open, .Lgcm_v7m_func_end52-gcm_v7m.fotsgure_gcm_open
	.cantunwind
	.fnend
                                        @ -- End function
	.section	.text.gcm_v7m.fotsgure_gcm_open_to,"ax",%progbits
	export_gcm_v7m	fotsgure_gcm_open_to
	.p2align	2
	.type	gcm_v7m.fotsgure_gcm_open_to,%function
	.code	16
	.thumb_func
gcm_v7m.fotsgure_gcm_open_to:                   @ @gcm_v7m.fotsgure_gcm_open_to
	.fnstart
@ %bb.0:
	.save	{r4, r5, r6, r7, r8, r9, r10, lr}
	push.w	{r4, r5, r6, r7, r8, r9, r10, lr}
	.pad	#96
	sub	sp, #96
	add.w	r9, sp, #132
	ldm.w	r9, {r6, r8, r9}
	cmp	r1, #0
	it	eq
	addeq.w	r1, r1, #4096
	cmp	r3, #0
	ldrd	r5, r7, [sp, #144]
	it	eq
	addeq.w	r3, r3, #4096
	cmp	r6, #0
	it	eq
	addeq.w	r6, r6, #4096
	cmp.w	r9, #0
	it	eq
	addeq.w	r9, r9, #4096
	cmp	r7, #0
	it	eq
	addeq.w	r7, r7, #4096
	cmp	r8, r5
	bne	.Lgcm_v7m_BB53_11
@ %bb.1:                                @ %join.3.i.i
	ldr	r5, [sp, #152]
	cmp	r5, #16
	bne	.Lgcm_v7m_BB53_13
@ %bb.2:                                @ %join.6.i.i
	cmp	r2, #0
	beq	.Lgcm_v7m_BB53_14
@ %bb.3:                                @ %after.11.i.i.i
	ldr.w	r12, [r0]
	movs	r5, #2
	sub.w	lr, r12, #16
	cmp.w	lr, #16
	bhi	.Lgcm_v7m_BB53_12
@ %bb.4:                                @ %after.11.i.i.i
	movs	r4, #1
	lsl.w	lr, r4, lr
	movw	r4, #257
	movt	r4, #1
	tst.w	lr, r4
	beq	.Lgcm_v7m_BB53_12
@ %bb.5:                                @ %join.9.i.i
	ldr.w	r10, [r7]
	ldr	r5, [r7, #4]
	ldr	r4, [r7, #12]
	ldr	r7, [r7, #8]
	strd	r10, r5, [sp, #64]
	strd	r7, r4, [sp, #72]
	movs	r7, #56
	lsr.w	r5, r12, #31
	adds.w	r12, r7, r12, lsl #1
	add.w	r4, r0, #4
	adc	r5, r5, #0
	add.w	r0, r0, #484
	ldr.w	lr, [sp, #128]
	strd	r5, r0, [sp, #52]
	add	r0, sp, #80
	add	r5, sp, #64
	movs	r7, #0
	strd	r5, r0, [sp, #32]
	add	r0, sp, #40
	mov	r5, r3
	movs	r3, #0
	str	r4, [sp, #40]
	strd	r7, r12, [sp, #44]
	str	r7, [sp, #60]
	strd	r7, r7, [sp, #88]
	strd	r7, r7, [sp, #80]
	strd	r8, r7, [sp, #24]
	strd	lr, r7, [sp, #8]
	str	r6, [sp, #16]
	str	r5, [sp]
	bl	gcm_v7m.gcm.mode.BorrowedGcm.compare
	uxtb	r0, r0
	cbz	r0, .Lgcm_v7m_BB53_15
@ %bb.6:                                @ %else.2.i.i.i
	cmp.w	r8, #0
	beq	.Lgcm_v7m_BB53_10
@ %bb.7:                                @ %loop.5.preheader.i.i.i.i
	subs.w	r5, r8, #1
	mov.w	r6, #0
	sbc	r0, r6, #0
	orrs	r0, r5
	beq	.Lgcm_v7m_BB53_9
@ %bb.8:                                @ %join.8.preheader.i.i.i.i
	sub.w	r2, r8, #1
	mov	r0, r9
	movs	r1, #0
	bl	memset
.Lgcm_v7m_BB53_9:                               @ %after.4.i.i.i.i
	strb.w	r6, [r9, r5]
.Lgcm_v7m_BB53_10:                              @ %"gcm::mode::BorrowedGcm::decrypt_to::<#84a61a6dd6ff62d6>.exit.i.i"
	movs	r5, #6
	b	.Lgcm_v7m_BB53_26
	.p2align	2
.Lgcm_v7m_BB53_11:
	movs	r5, #10
.Lgcm_v7m_BB53_12:                              @ %wide_fotsgure_gcm_open_to.exit
	mov	r0, r5
	add	sp, #96
	b	.Lgcm_v7m_return_10304
	.p2align	2
.Lgcm_v7m_BB53_13:
	movs	r5, #4
	mov	r0, r5
	add	sp, #96
	b	.Lgcm_v7m_return_10304
	.p2align	2
.Lgcm_v7m_BB53_14:
	movs	r5, #3
	mov	r0, r5
	add	sp, #96
	b	.Lgcm_v7m_return_10304
	.p2align	2
.Lgcm_v7m_BB53_15:                              @ %then.1.i.i.i
	subs.w	r0, r9, r6
	sbc	r1, r7, #0
	subs.w	r0, r0, r8
	sbcs	r0, r1, #0
	bhs	.Lgcm_v7m_BB53_18
@ %bb.16:                               @ %join.7.i.i.i.i.i.i.i.i.i.preheader
	cmp.w	r8, #4
	and	r0, r8, #3
	bhs	.Lgcm_v7m_BB53_19
@ %bb.17:
	movs	r1, #0
	b	.Lgcm_v7m_BB53_22
	.p2align	2
.Lgcm_v7m_BB53_18:                              @ %apart.2.i.i.i.i.i.i.i.i.i
	mov	r0, r9
	mov	r1, r6
	mov	r2, r8
	bl	memmove
	b	.Lgcm_v7m_BB53_25
	.p2align	2
.Lgcm_v7m_BB53_19:                              @ %join.7.i.i.i.i.i.i.i.i.i.preheader.new
	bic	r2, r8, #3
	movs	r1, #0
	movs	r3, #0
	.p2align	2
.Lgcm_v7m_BB53_20:                              @ %join.7.i.i.i.i.i.i.i.i.i
                                        @ =>This Inner Loop Header: Depth=1
	ldrb	r7, [r6, r1]
	strb.w	r7, [r9, r1]
	orr	r7, r1, #1
	ldrb	r5, [r6, r7]
	strb.w	r5, [r9, r7]
	orr	r7, r1, #2
	ldrb	r5, [r6, r7]
	strb.w	r5, [r9, r7]
	orr	r7, r1, #3
	adds	r1, #4
	ldrb	r5, [r6, r7]
	adc	r3, r3, #0
	eor.w	r4, r1, r2
	orrs	r4, r3
	strb.w	r5, [r9, r7]
	bne	.Lgcm_v7m_BB53_20
@ %bb.21:                               @ %"core::slice::edits::slice+T::copy_from_slice::<i8,20'core::clone::U8Clone{}>.exit.i.i.i.loopexit.unr-lcssa"
	cbz	r0, .Lgcm_v7m_BB53_25
.Lgcm_v7m_BB53_22:                              @ %join.7.i.i.i.i.i.i.i.i.i.epil.preheader
	ldrb	r2, [r6, r1]
	cmp	r0, #1
	strb.w	r2, [r9, r1]
	beq	.Lgcm_v7m_BB53_25
@ %bb.23:                               @ %join.7.i.i.i.i.i.i.i.i.i.epil.1
	adds	r2, r1, #1
	ldrb	r3, [r6, r2]
	cmp	r0, #2
	strb.w	r3, [r9, r2]
	beq	.Lgcm_v7m_BB53_25
@ %bb.24:                               @ %join.7.i.i.i.i.i.i.i.i.i.epil.2
	adds	r0, r1, #2
	ldrb	r1, [r6, r0]
	strb.w	r1, [r9, r0]
.Lgcm_v7m_BB53_25:                              @ %"core::slice::edits::slice+T::copy_from_slice::<i8,20'core::clone::U8Clone{}>.exit.i.i.i"
	movs	r0, #0
	strd	r8, r0, [sp, #8]
	add	r0, sp, #40
	add	r1, sp, #80
	movs	r2, #16
	movs	r3, #0
	movs	r5, #0
	str.w	r9, [sp]
	bl	gcm_v7m.gcm.gctr.add_gctr
.Lgcm_v7m_BB53_26:                              @ %"gcm::mode::BorrowedGcm::decrypt_to::<#84a61a6dd6ff62d6>.exit.i.i"
	add	r0, sp, #80
	bl	gcm_v7m.aes_cipher.zeroize.elements.zeroize_elements.2
	bl	gcm_v7m.aes_cipher.zeroize.stack.wipe_stack.1536
	mov	r0, r5
	add	sp, #96
	b	.Lgcm_v7m_return_10304
.Lgcm_v7m_return_10304:
	movs	r1, #0
	movs	r2, #0
	movs	r3, #0
	mov	r12, r1
	mov	lr, r1
	pop.w	{r4, r5, r6, r7, r8, r9, r10, pc}
.Lgcm_v7m_func_end53:
	.size	gcm_v7m.fotsgure_gcm_open_to, .Lgcm_v7m_func_end53-gcm_v7m.fotsgure_gcm_open_to
	.cantunwind
	.fnend
                                        @ -- End function
	.section	.text.gcm_v7m.fotsgure_gcm_begin,"ax",%progbits
	export_gcm_v7m	fotsgure_gcm_begin
	.p2align	2
	.type	gcm_v7m.fotsgure_gcm_begin,%function
	.code	16
	.thumb_func
gcm_v7m.fotsgure_gcm_begin:                     @ @gcm_v7m.fotsgure_gcm_begin
	.fnstart
@ %bb.0:
	cmp	r2, #0
	it	eq
	addeq.w	r2, r2, #4096
	cmp	r3, #0
	itt	eq
	moveq	r0, #3
	bxeq	lr
.Lgcm_v7m_BB54_1:                               @ %after.1.i.i
	.save	{r4, r5, r6, r7, r8, lr}
	push.w	{r4, r5, r6, r7, r8, lr}
	.pad	#32
	sub	sp, #32
	ldr	r4, [r0]
	mov	r12, r0
	sub.w	r5, r4, #16
	cmp	r5, #16
	mov.w	r0, #2
	bhi	.Lgcm_v7m_BB54_5
@ %bb.2:                                @ %after.1.i.i
	mov.w	r8, #1
	movw	r6, #257
	lsl.w	r5, r8, r5
	movt	r6, #1
	tst	r5, r6
	beq	.Lgcm_v7m_BB54_5
@ %bb.3:                                @ %join.13.i.i
	movs	r5, #56
	lsrs	r6, r4, #31
	adds.w	r5, r5, r4, lsl #1
	add.w	r0, r12, #4
	adc	r6, r6, #0
	add.w	r4, r12, #484
	movs	r7, #0
	str	r0, [sp, #8]
	strd	r7, r5, [sp, #12]
	strd	r6, r4, [sp, #20]
	add.w	r6, r1, #32
	add	r0, sp, #8
	mov	r4, r1
	mov	r1, r2
	mov	r2, r3
	mov	r5, r3
	movs	r3, #0
	str	r7, [sp, #28]
	str	r6, [sp]
	bl	gcm_v7m.gcm.mode.BorrowedGcm.put_pre_counter
	mov	r0, r7
	cmp	r5, #12
	strd	r7, r7, [r4]
	strd	r7, r7, [r4, #8]
	strd	r7, r7, [r4, #16]
	strd	r8, r7, [r4, #24]
	str	r7, [r4, #48]
	str	r7, [r4, #52]
	str	r7, [r4, #56]
	str	r7, [r4, #60]
	str	r7, [r4, #64]
	str	r7, [r4, #68]
	str	r7, [r4, #72]
	str	r7, [r4, #76]
	beq	.Lgcm_v7m_BB54_5
@ %bb.4:                                @ %then.1.i.i.i.i
	bl	gcm_v7m.aes_cipher.zeroize.stack.wipe_stack.512
	movs	r0, #0
.Lgcm_v7m_BB54_5:
	add	sp, #32
	b	.Lgcm_v7m_return_10483
.Lgcm_v7m_return_10483:
	movs	r1, #0
	movs	r2, #0
	movs	r3, #0
	mov	r12, r1
	mov	lr, r1
	pop.w	{r4, r5, r6, r7, r8, pc}
.Lgcm_v7m_func_end54:
	.size	gcm_v7m.fotsgure_gcm_begin, .Lgcm_v7m_func_end54-gcm_v7m.fotsgure_gcm_begin
	.cantunwind
	.fnend
                                        @ -- End function
	.section	.text.gcm_v7m.fotsgure_gcm_begin_next,"ax",%progbits
	export_gcm_v7m	fotsgure_gcm_begin_next
	.p2align	2
	.type	gcm_v7m.fotsgure_gcm_begin_next,%function
	.code	16
	.thumb_func
gcm_v7m.fotsgure_gcm_begin_next:                @ @gcm_v7m.fotsgure_gcm_begin_next
	.fnstart
@ %bb.0:
	.save	{r4, r5, r6, r7, r8, r9, r10, lr}
	push.w	{r4, r5, r6, r7, r8, r9, r10, lr}
	.pad	#56
	sub	sp, #56
	ldr.w	r12, [r2, #4]
	ldr.w	r9, [r2, #8]
	mov	r8, r3
	ldr.w	r10, [r2]
	and.w	r3, r12, r9
	adds	r7, r3, #1
	mov	r3, r0
	it	eq
	addseq.w	r0, r10, #1
	beq	.Lgcm_v7m_BB55_5
@ %bb.1:                                @ %join.3.i.i
	ldr	r4, [r3]
	movs	r0, #2
	sub.w	lr, r4, #16
	cmp.w	lr, #16
	bhi	.Lgcm_v7m_BB55_10
@ %bb.2:                                @ %join.3.i.i
	movs	r5, #1
	movw	r6, #257
	lsl.w	r5, r5, lr
	movt	r6, #1
	tst	r5, r6
	beq	.Lgcm_v7m_BB55_10
@ %bb.3:                                @ %join.6.i.i
	clz	r0, r7
	movs	r5, #56
	lsrs	r0, r0, #5
	adds	r7, r3, #4
	lsrs	r6, r4, #31
	adds.w	r5, r5, r4, lsl #1
	adc	r6, r6, #0
	add.w	r3, r3, #484
	str	r7, [sp, #16]
	movs	r7, #0
	cmp	r0, #0
	rev.w	r0, r10
	strd	r7, r5, [sp, #20]
	strd	r6, r3, [sp, #28]
	str	r7, [sp, #36]
	bne	.Lgcm_v7m_BB55_6
@ %bb.4:                                @ %"gcm::counter::nonce_after.exit.thread.i.i.i.i"
	rev.w	r7, r9
	rev.w	r3, r12
	adds	r7, #1
	adc	r3, r3, #0
	rev	r3, r3
	rev	r7, r7
	b	.Lgcm_v7m_BB55_8
	.p2align	2
.Lgcm_v7m_BB55_5:
	movs	r0, #7
	add	sp, #56
	b	.Lgcm_v7m_return_10561
	.p2align	2
.Lgcm_v7m_BB55_6:                               @ %"gcm::counter::nonce_after.exit.i.i.i.i"
	adds.w	r3, r10, #1
	beq	.Lgcm_v7m_BB55_9
@ %bb.7:
	adds	r0, #1
	movs	r3, #0
.Lgcm_v7m_BB55_8:                               @ %arm.1.i.i.i.i
	rev	r0, r0
	str	r0, [r2]
	str	r3, [r2, #4]
	str	r7, [r2, #8]
.Lgcm_v7m_BB55_9:                               @ %"gcm::mode::BorrowedGcm::begin_next::<#84a61a6dd6ff62d6>.exit.i.i"
	add.w	r0, r1, #32
	add	r2, sp, #44
	str	r0, [sp]
	add	r0, sp, #16
	mov	r4, r1
	mov	r1, r2
	movs	r2, #12
	movs	r3, #0
	strd	r10, r12, [sp, #44]
	str.w	r9, [sp, #52]
	movs	r5, #0
	bl	gcm_v7m.gcm.mode.BorrowedGcm.put_pre_counter
	movs	r1, #1
	add	r3, sp, #44
	strd	r1, r5, [r4, #24]
	ldm	r3, {r1, r2, r3}
	add.w	r12, sp, #4
	stm.w	r12, {r1, r2, r3}
	ldr	r2, [sp, #12]
	ldrd	r1, r3, [sp, #4]
	mov	r0, r5
	strd	r5, r5, [r4]
	strd	r5, r5, [r4, #8]
	strd	r5, r5, [r4, #16]
	str	r5, [r4, #48]
	str	r5, [r4, #52]
	str	r5, [r4, #56]
	str	r5, [r4, #60]
	str	r5, [r4, #64]
	str	r5, [r4, #68]
	str	r5, [r4, #72]
	str	r5, [r4, #76]
	str.w	r2, [r8, #8]
	str.w	r3, [r8, #4]
	str.w	r1, [r8]
.Lgcm_v7m_BB55_10:                              @ %wide_fotsgure_gcm_begin_next.exit
	add	sp, #56
	b	.Lgcm_v7m_return_10561
.Lgcm_v7m_return_10561:
	movs	r1, #0
	movs	r2, #0
	movs	r3, #0
	mov	r12, r1
	mov	lr, r1
	pop.w	{r4, r5, r6, r7, r8, r9, r10, pc}
.Lgcm_v7m_func_end55:
	.size	gcm_v7m.fotsgure_gcm_begin_next, .Lgcm_v7m_func_end55-gcm_v7m.fotsgure_gcm_begin_next
	.cantunwind
	.fnend
                                        @ -- End function
	.section	.text.gcm_v7m.fotsgure_gcm_additional,"ax",%progbits
	export_gcm_v7m	fotsgure_gcm_additional
	.p2align	2
	.type	gcm_v7m.fotsgure_gcm_additional,%function
	.code	16
	.thumb_func
gcm_v7m.fotsgure_gcm_additional:                @ @gcm_v7m.fotsgure_gcm_additional
	.fnstart
@ %bb.0:
	.save	{r4, r5, r6, lr}
	push	{r4, r5, r6, lr}
	.pad	#48
	sub	sp, #48
	ldr.w	lr, [r0]
	cmp	r2, #0
	sub.w	r4, lr, #16
	mov	r12, r0
	it	eq
	addeq.w	r2, r2, #4096
	cmp	r4, #16
	mov.w	r0, #2
	bhi	.Lgcm_v7m_BB56_7
@ %bb.1:
	movs	r5, #1
	lsl.w	r4, r5, r4
	movw	r5, #257
	movt	r5, #1
	tst	r4, r5
	beq	.Lgcm_v7m_BB56_7
@ %bb.2:                                @ %join.3.i.i
	movs	r5, #56
	lsr.w	r4, lr, #31
	adds.w	r5, r5, lr, lsl #1
	add.w	r0, r12, #4
	adc	r4, r4, #0
	add.w	r12, r12, #484
	mov.w	lr, #0
	strd	lr, r5, [sp, #28]
	strd	r4, r12, [sp, #36]
	ldrd	r5, r4, [r1, #24]
	str	r0, [sp, #24]
	subs	r5, #1
	sbc	r4, r4, #0
	rsbs.w	r0, r5, #3
	sbcs.w	r0, lr, r4
	mov.w	r0, #8
	str.w	lr, [sp, #44]
	blo	.Lgcm_v7m_BB56_7
@ %bb.3:                                @ %join.3.i.i
	lsls	r5, r5, #24
	bne	.Lgcm_v7m_BB56_7
@ %bb.4:                                @ %join.3.i.i.i
	ldrd	r12, r0, [r1]
	adds.w	r5, r3, r12
	adcs	r0, r0, #0
	mov.w	r5, #0
	adcs	r4, r5, #0
	it	ne
	movne.w	r0, #-1
	cmp.w	r5, r0, lsr #29
	beq	.Lgcm_v7m_BB56_6
@ %bb.5:
	movs	r0, #5
	add	sp, #48
	b	.Lgcm_v7m_return_10689
	.p2align	2
.Lgcm_v7m_BB56_6:                               @ %arm.4.i.i
	add	r0, sp, #24
	and	r4, r12, #15
	add.w	r12, r1, #48
	add.w	lr, r1, #64
	adds	r0, #16
	strd	r3, r5, [sp, #16]
	strd	r4, r5, [sp]
	mov	r6, r5
	mov	r4, r1
	mov	r1, r12
	mov	r5, r2
	mov	r2, lr
	str	r5, [sp, #8]
	mov	r5, r3
	bl	gcm_v7m.gcm.hash_room.hash_piece
	bl	gcm_v7m.aes_cipher.zeroize.stack.wipe_stack.512
	ldrd	r1, r2, [r4]
	mov	r0, r6
	adds	r1, r1, r5
	adc	r2, r2, #0
	strd	r1, r2, [r4]
.Lgcm_v7m_BB56_7:                               @ %wide_fotsgure_gcm_additional.exit
	add	sp, #48
	b	.Lgcm_v7m_return_10689
.Lgcm_v7m_return_10689:
	movs	r1, #0
	movs	r2, #0
	movs	r3, #0
	mov	r12, r1
	mov	lr, r1
	pop	{r4, r5, r6, pc}
.Lgcm_v7m_func_end56:
	.size	gcm_v7m.fotsgure_gcm_additional, .Lgcm_v7m_func_end56-gcm_v7m.fotsgure_gcm_additional
	.cantunwind
	.fnend
                                        @ -- End function
	.section	.text.gcm_v7m.fotsgure_gcm_encrypt,"ax",%progbits
	export_gcm_v7m	fotsgure_gcm_encrypt
	.p2align	2
	.type	gcm_v7m.fotsgure_gcm_encrypt,%function
	.code	16
	.thumb_func
gcm_v7m.fotsgure_gcm_encrypt:                   @ @gcm_v7m.fotsgure_gcm_encrypt
	.fnstart
@ %bb.0:
	.save	{r4, r5, r6, r7, r8, lr}
	push.w	{r4, r5, r6, r7, r8, lr}
	.pad	#48
	sub	sp, #48
	mov	r4, r1
	ldr	r1, [r0]
	mov	r7, r2
	cmp	r2, #0
	sub.w	r2, r1, #16
	it	eq
	addeq.w	r7, r7, #4096
	cmp	r2, #16
	mov.w	r6, #2
	bhi	.Lgcm_v7m_BB57_4
@ %bb.1:
	mov	r5, r3
	movs	r3, #1
	lsl.w	r2, r3, r2
	movw	r3, #257
	movt	r3, #1
	tst	r2, r3
	beq	.Lgcm_v7m_BB57_4
@ %bb.2:                                @ %join.3.i.i
	movs	r6, #56
	adds	r2, r0, #4
	lsrs	r3, r1, #31
	adds.w	r1, r6, r1, lsl #1
	add.w	r0, r0, #484
	mov.w	r6, #0
	add.w	r8, sp, #24
	adc	r3, r3, #0
	str	r2, [sp, #24]
	strd	r6, r1, [sp, #28]
	strd	r0, r6, [sp, #40]
	mov	r0, r8
	mov	r1, r4
	movs	r2, #2
	str	r3, [sp, #36]
	strd	r5, r6, [sp]
	bl	gcm_v7m.gcm.mode.BorrowedGcm.enter_phase
	lsls	r0, r0, #24
	beq	.Lgcm_v7m_BB57_5
@ %bb.3:                                @ %arm.2.i.i.i
	movs	r6, #8
	lsls	r0, r1, #31
	it	ne
	movne	r6, #5
.Lgcm_v7m_BB57_4:                               @ %wide_fotsgure_gcm_encrypt.exit
	mov	r0, r6
	add	sp, #48
	b	.Lgcm_v7m_return_10787
	.p2align	2
.Lgcm_v7m_BB57_5:                               @ %arm.1.i.i.i
	ldrd	r0, r3, [r4, #8]
	add.w	r1, r4, #32
	adds.w	r2, r0, #16
	adc	r3, r3, #0
	add	r0, sp, #24
	add.w	r8, r8, #16
	strd	r5, r6, [sp, #8]
	str	r7, [sp]
	bl	gcm_v7m.gcm.gctr.add_gctr
	ldr	r0, [r4, #8]
	add.w	r1, r4, #48
	and	r0, r0, #15
	add.w	r2, r4, #64
	strd	r0, r6, [sp]
	mov	r0, r8
	strd	r5, r6, [sp, #16]
	str	r7, [sp, #8]
	bl	gcm_v7m.gcm.hash_room.hash_piece
	ldrd	r0, r1, [r4, #8]
	adds	r0, r0, r5
	adc	r1, r1, #0
	strd	r0, r1, [r4, #8]
	bl	gcm_v7m.aes_cipher.zeroize.stack.wipe_stack.1536
	mov	r0, r6
	add	sp, #48
	b	.Lgcm_v7m_return_10787
.Lgcm_v7m_return_10787:
	movs	r1, #0
	movs	r2, #0
	movs	r3, #0
	mov	r12, r1
	mov	lr, r1
	pop.w	{r4, r5, r6, r7, r8, pc}
.Lgcm_v7m_func_end57:
	.size	gcm_v7m.fotsgure_gcm_encrypt, .Lgcm_v7m_func_end57-gcm_v7m.fotsgure_gcm_encrypt
	.cantunwind
	.fnend
                                        @ -- End function
	.section	.text.gcm_v7m.fotsgure_gcm_finish,"ax",%progbits
	export_gcm_v7m	fotsgure_gcm_finish
	.p2align	2
	.type	gcm_v7m.fotsgure_gcm_finish,%function
	.code	16
	.thumb_func
gcm_v7m.fotsgure_gcm_finish:                    @ @gcm_v7m.fotsgure_gcm_finish
	.fnstart
@ %bb.0:
	.save	{r4, r5, r6, lr}
	push	{r4, r5, r6, lr}
	.pad	#40
	sub	sp, #40
	ldr	r3, [r0]
	mov	r6, r2
	sub.w	r5, r3, #16
	cmp	r5, #16
	mov.w	r2, #2
	bhi	.Lgcm_v7m_BB58_4
@ %bb.1:
	movs	r4, #1
	lsl.w	r5, r4, r5
	movw	r4, #257
	movt	r4, #1
	tst	r5, r4
	beq	.Lgcm_v7m_BB58_4
@ %bb.2:                                @ %join.3.i.i
	movs	r4, #56
	adds	r2, r0, #4
	lsrs	r5, r3, #31
	adds.w	r3, r4, r3, lsl #1
	adc	r5, r5, #0
	str	r2, [sp, #16]
	movs	r2, #0
	add.w	r12, sp, #20
	stm.w	r12, {r2, r3, r5}
	ldrd	r3, r5, [r1, #24]
	add.w	r0, r0, #484
	str	r0, [sp, #32]
	subs	r0, r3, #1
	sbc	r3, r5, #0
	rsbs.w	r0, r0, #1
	sbcs.w	r0, r2, r3
	str	r2, [sp, #36]
	blo	.Lgcm_v7m_BB58_5
@ %bb.3:                                @ %arm.4.i.i
	add	r0, sp, #16
	mov	r2, sp
	mov	r5, r1
	bl	gcm_v7m.gcm.mode.BorrowedGcm.put_tag_so_far
	bl	gcm_v7m.aes_cipher.zeroize.stack.wipe_stack.512
	mov	r0, r5
	bl	gcm_v7m.gcm.message_state.MessageZeroize.zeroize
	ldr	r2, [sp, #12]
	ldm.w	sp, {r0, r1, r3}
	str	r2, [r6, #12]
	movs	r2, #0
	str	r3, [r6, #8]
	str	r1, [r6, #4]
	str	r0, [r6]
.Lgcm_v7m_BB58_4:                               @ %wide_fotsgure_gcm_finish.exit
	mov	r0, r2
	add	sp, #40
	b	.Lgcm_v7m_return_10891
	.p2align	2
.Lgcm_v7m_BB58_5:
	movs	r2, #8
	mov	r0, r2
	add	sp, #40
	b	.Lgcm_v7m_return_10891
.Lgcm_v7m_return_10891:
	movs	r1, #0
	movs	r2, #0
	movs	r3, #0
	mov	r12, r1
	mov	lr, r1
	pop	{r4, r5, r6, pc}
.Lgcm_v7m_func_end58:
	.size	gcm_v7m.fotsgure_gcm_finish, .Lgcm_v7m_func_end58-gcm_v7m.fotsgure_gcm_finish
	.cantunwind
	.fnend
                                        @ -- End function
	.section	.text.gcm_v7m.fotsgure_gcm_verify,"ax",%progbits
	export_gcm_v7m	fotsgure_gcm_verify
	.p2align	2
	.type	gcm_v7m.fotsgure_gcm_verify,%function
	.code	16
	.thumb_func
gcm_v7m.fotsgure_gcm_verify:                    @ @gcm_v7m.fotsgure_gcm_verify
	.fnstart
@ %bb.0:
	.save	{r4, r5, r6, r7, r8, lr}
	push.w	{r4, r5, r6, r7, r8, lr}
	.pad	#48
	sub	sp, #48
	mov	r4, r1
	ldr	r1, [r0]
	mov	r7, r2
	cmp	r2, #0
	sub.w	r2, r1, #16
	it	eq
	addeq.w	r7, r7, #4096
	cmp	r2, #16
	mov.w	r6, #2
	bhi	.Lgcm_v7m_BB59_4
@ %bb.1:
	mov	r5, r3
	movs	r3, #1
	lsl.w	r2, r3, r2
	movw	r3, #257
	movt	r3, #1
	tst	r2, r3
	beq	.Lgcm_v7m_BB59_4
@ %bb.2:                                @ %join.3.i.i
	movs	r6, #56
	adds	r2, r0, #4
	lsrs	r3, r1, #31
	adds.w	r1, r6, r1, lsl #1
	add.w	r0, r0, #484
	mov.w	r6, #0
	add.w	r8, sp, #24
	adc	r3, r3, #0
	str	r2, [sp, #24]
	strd	r6, r1, [sp, #28]
	strd	r0, r6, [sp, #40]
	mov	r0, r8
	mov	r1, r4
	movs	r2, #3
	str	r3, [sp, #36]
	strd	r5, r6, [sp]
	bl	gcm_v7m.gcm.mode.BorrowedGcm.enter_phase
	lsls	r0, r0, #24
	beq	.Lgcm_v7m_BB59_5
@ %bb.3:                                @ %arm.2.i.i.i
	movs	r6, #8
	lsls	r0, r1, #31
	it	ne
	movne	r6, #5
.Lgcm_v7m_BB59_4:                               @ %wide_fotsgure_gcm_verify.exit
	mov	r0, r6
	add	sp, #48
	b	.Lgcm_v7m_return_10969
	.p2align	2
.Lgcm_v7m_BB59_5:                               @ %arm.1.i.i.i
	ldr	r1, [r4, #8]
	add.w	r0, r8, #16
	and	r3, r1, #15
	add.w	r1, r4, #48
	add.w	r2, r4, #64
	strd	r5, r6, [sp, #16]
	stm.w	sp, {r3, r6, r7}
	bl	gcm_v7m.gcm.hash_room.hash_piece
	ldrd	r0, r1, [r4, #8]
	adds	r0, r0, r5
	adc	r1, r1, #0
	strd	r0, r1, [r4, #8]
	bl	gcm_v7m.aes_cipher.zeroize.stack.wipe_stack.512
	mov	r0, r6
	add	sp, #48
	b	.Lgcm_v7m_return_10969
.Lgcm_v7m_return_10969:
	movs	r1, #0
	movs	r2, #0
	movs	r3, #0
	mov	r12, r1
	mov	lr, r1
	pop.w	{r4, r5, r6, r7, r8, pc}
.Lgcm_v7m_func_end59:
	.size	gcm_v7m.fotsgure_gcm_verify, .Lgcm_v7m_func_end59-gcm_v7m.fotsgure_gcm_verify
	.cantunwind
	.fnend
                                        @ -- End function
	.section	.text.gcm_v7m.fotsgure_gcm_accept,"ax",%progbits
	export_gcm_v7m	fotsgure_gcm_accept
	.p2align	2
	.type	gcm_v7m.fotsgure_gcm_accept,%function
	.code	16
	.thumb_func
gcm_v7m.fotsgure_gcm_accept:                    @ @gcm_v7m.fotsgure_gcm_accept
	.fnstart
@ %bb.0:
	cmp	r2, #0
	it	eq
	addeq.w	r2, r2, #4096
	cmp	r3, #16
	itt	ne
	movne	r0, #4
	bxne	lr
.Lgcm_v7m_BB60_1:                               @ %join.3.i.i
	.save	{r4, r5, r7, lr}
	push	{r4, r5, r7, lr}
	.pad	#40
	sub	sp, #40
	ldr	r4, [r0]
	mov	r3, r0
	sub.w	r12, r4, #16
	cmp.w	r12, #16
	mov.w	r0, #2
	bhi	.Lgcm_v7m_BB60_6
@ %bb.2:                                @ %join.3.i.i
	movs	r5, #1
	lsl.w	r12, r5, r12
	movw	r5, #257
	movt	r5, #1
	tst.w	r12, r5
	beq	.Lgcm_v7m_BB60_6
@ %bb.3:                                @ %join.6.i.i
	movs	r0, #56
	lsrs	r5, r4, #31
	adds.w	r0, r0, r4, lsl #1
	add.w	r12, r3, #4
	adc	r5, r5, #0
	add.w	r3, r3, #484
	movs	r4, #0
	strd	r4, r0, [sp, #20]
	strd	r5, r3, [sp, #28]
	ldr	r0, [r2]
	ldr	r3, [r2, #4]
	ldr	r5, [r2, #8]
	strd	r0, r3, [sp]
	ldrd	r0, r3, [r1, #24]
	str	r5, [sp, #8]
	subs	r0, #1
	sbc	r3, r3, #0
	subs	r5, r0, #4
	sbcs	r3, r3, #0
	add.w	r0, r0, #1
	mov.w	r3, #2
	str.w	r12, [sp, #16]
	str	r4, [sp, #36]
	ldr	r2, [r2, #12]
	it	lo
	orrlo	r3, r0, #2
	uxtb	r0, r3
	cmp	r0, #3
	str	r2, [sp, #12]
	bne	.Lgcm_v7m_BB60_7
@ %bb.4:                                @ %join.3.i.i.i
	add	r0, sp, #16
	mov	r2, sp
	mov	r5, r1
	bl	gcm_v7m.gcm.mode.BorrowedGcm.is_tag_so_far
	mov	r4, r0
	bl	gcm_v7m.aes_cipher.zeroize.stack.wipe_stack.1536
	cbz	r4, .Lgcm_v7m_BB60_8
@ %bb.5:                                @ %arm.7.i.i
	movs	r0, #0
	movs	r1, #4
	strd	r0, r0, [r5, #16]
	strd	r1, r0, [r5, #24]
.Lgcm_v7m_BB60_6:
	add	sp, #40
	b	.Lgcm_v7m_return_11080
	.p2align	2
.Lgcm_v7m_BB60_7:
	movs	r0, #8
	add	sp, #40
	b	.Lgcm_v7m_return_11080
	.p2align	2
.Lgcm_v7m_BB60_8:
	movs	r0, #6
	add	sp, #40
	b	.Lgcm_v7m_return_11080
.Lgcm_v7m_return_11080:
	movs	r1, #0
	movs	r2, #0
	movs	r3, #0
	mov	r12, r1
	mov	lr, r1
	pop	{r4, r5, r7, pc}
.Lgcm_v7m_func_end60:
	.size	gcm_v7m.fotsgure_gcm_accept, .Lgcm_v7m_func_end60-gcm_v7m.fotsgure_gcm_accept
	.cantunwind
	.fnend
                                        @ -- End function
	.section	.text.gcm_v7m.fotsgure_gcm_accept_short,"ax",%progbits
	export_gcm_v7m	fotsgure_gcm_accept_short
	.p2align	2
	.type	gcm_v7m.fotsgure_gcm_accept_short,%function
	.code	16
	.thumb_func
gcm_v7m.fotsgure_gcm_accept_short:              @ @gcm_v7m.fotsgure_gcm_accept_short
	.fnstart
@ %bb.0:
	.save	{r4, r5, r7, lr}
	push	{r4, r5, r7, lr}
	.pad	#32
	sub	sp, #32
	mov	r12, r0
	ldr	r0, [sp, #48]
	cmp	r3, #0
	it	eq
	addeq.w	r3, r3, #4096
	cmp	r0, r2
	mov.w	r0, #4
	bne	.Lgcm_v7m_BB61_7
@ %bb.1:
	subs	r5, r2, #4
	bic	r4, r2, #3
	bic	r5, r5, #4
	subs	r4, #12
	clz	r5, r5
	clz	r4, r4
	lsrs	r5, r5, #5
	lsrs	r4, r4, #5
	orrs	r5, r4
	beq	.Lgcm_v7m_BB61_7
@ %bb.2:                                @ %join.3.i.i
	ldr.w	r4, [r12]
	movs	r0, #2
	sub.w	lr, r4, #16
	cmp.w	lr, #16
	bhi	.Lgcm_v7m_BB61_7
@ %bb.3:                                @ %join.3.i.i
	movs	r5, #1
	lsl.w	lr, r5, lr
	movw	r5, #257
	movt	r5, #1
	tst.w	lr, r5
	beq	.Lgcm_v7m_BB61_7
@ %bb.4:                                @ %join.6.i.i
	movs	r0, #56
	lsrs	r5, r4, #31
	adds.w	r0, r0, r4, lsl #1
	add.w	lr, r12, #4
	adc	r5, r5, #0
	add.w	r4, r12, #484
	mov.w	r12, #0
	strd	r12, r0, [sp, #12]
	str	r5, [sp, #20]
	ldrd	r0, r5, [r1, #24]
	str	r4, [sp, #24]
	subs	r0, #1
	sbc	r5, r5, #0
	subs	r4, r0, #4
	sbcs	r5, r5, #0
	add.w	r0, r0, #1
	mov.w	r5, #2
	str.w	lr, [sp, #8]
	it	lo
	orrlo	r5, r0, #2
	uxtb	r0, r5
	cmp	r0, #3
	str.w	r12, [sp, #28]
	bne	.Lgcm_v7m_BB61_8
@ %bb.5:                                @ %join.7.i.i.i
	add	r0, sp, #8
	mov	r4, r2
	mov	r2, r3
	mov	r5, r1
	strd	r4, r12, [sp]
	bl	gcm_v7m.gcm.mode.BorrowedGcm.is_short_tag_so_far
	mov	r4, r0
	bl	gcm_v7m.aes_cipher.zeroize.stack.wipe_stack.1536
	cbz	r4, .Lgcm_v7m_BB61_9
@ %bb.6:                                @ %arm.7.i.i
	movs	r0, #0
	movs	r1, #4
	strd	r0, r0, [r5, #16]
	strd	r1, r0, [r5, #24]
.Lgcm_v7m_BB61_7:                               @ %wide_fotsgure_gcm_accept_short.exit
	add	sp, #32
	b	.Lgcm_v7m_return_11190
	.p2align	2
.Lgcm_v7m_BB61_8:
	movs	r0, #8
	add	sp, #32
	b	.Lgcm_v7m_return_11190
	.p2align	2
.Lgcm_v7m_BB61_9:
	movs	r0, #6
	add	sp, #32
	b	.Lgcm_v7m_return_11190
.Lgcm_v7m_return_11190:
	movs	r1, #0
	movs	r2, #0
	movs	r3, #0
	mov	r12, r1
	mov	lr, r1
	pop	{r4, r5, r7, pc}
.Lgcm_v7m_func_end61:
	.size	gcm_v7m.fotsgure_gcm_accept_short, .Lgcm_v7m_func_end61-gcm_v7m.fotsgure_gcm_accept_short
	.cantunwind
	.fnend
                                        @ -- End function
	.section	.text.gcm_v7m.fotsgure_gcm_decrypt,"ax",%progbits
	export_gcm_v7m	fotsgure_gcm_decrypt
	.p2align	2
	.type	gcm_v7m.fotsgure_gcm_decrypt,%function
	.code	16
	.thumb_func
gcm_v7m.fotsgure_gcm_decrypt:                   @ @gcm_v7m.fotsgure_gcm_decrypt
	.fnstart
@ %bb.0:
	.save	{r4, r5, r6, r7, r8, r9, lr}
	push.w	{r4, r5, r6, r7, r8, r9, lr}
	.pad	#44
	sub	sp, #44
	ldr	r5, [r0]
	cmp	r2, #0
	sub.w	lr, r5, #16
	mov	r12, r0
	it	eq
	addeq.w	r2, r2, #4096
	cmp.w	lr, #16
	mov.w	r0, #2
	bhi	.Lgcm_v7m_BB62_7
@ %bb.1:
	movs	r4, #1
	lsl.w	lr, r4, lr
	movw	r4, #257
	movt	r4, #1
	tst.w	lr, r4
	beq	.Lgcm_v7m_BB62_7
@ %bb.2:                                @ %join.3.i.i
	movs	r0, #56
	lsrs	r4, r5, #31
	adds.w	r0, r0, r5, lsl #1
	add.w	lr, r12, #4
	adc	r4, r4, #0
	add.w	r5, r12, #484
	mov.w	r12, #0
	strd	r12, r0, [sp, #20]
	strd	r4, r5, [sp, #28]
	ldrd	r0, r4, [r1, #24]
	str.w	lr, [sp, #16]
	subs	r5, r0, #1
	sbc	r0, r4, #0
	rsbs.w	r4, r5, #3
	sbcs.w	r0, r12, r0
	mov.w	r0, #8
	str.w	r12, [sp, #36]
	blo	.Lgcm_v7m_BB62_7
@ %bb.3:                                @ %join.3.i.i
	uxtb	r5, r5
	cmp	r5, #3
	bne	.Lgcm_v7m_BB62_7
@ %bb.4:                                @ %join.3.i.i.i
	ldrd	lr, r8, [r1, #16]
	movs	r5, #0
	adds.w	r9, r3, lr
	adcs	r7, r8, #0
	ldrd	r12, r4, [r1, #8]
	adcs	r0, r5, #0
	mvn	r0, #31
	itt	ne
	movne.w	r7, #-1
	movne.w	r9, #-1
	subs.w	r6, r12, r0
	sbcs	r6, r4, #15
	ite	hs
	movhs	r4, #15
	movlo	r0, r12
	subs.w	r0, r0, r9
	sbcs.w	r0, r4, r7
	bhs	.Lgcm_v7m_BB62_6
@ %bb.5:
	movs	r0, #5
	add	sp, #44
	b	.Lgcm_v7m_return_11287
	.p2align	2
.Lgcm_v7m_BB62_6:                               @ %arm.4.i.i
	adds.w	lr, lr, #16
	add.w	r12, r1, #32
	adc	r4, r8, #0
	strd	r3, r5, [sp, #8]
	add	r0, sp, #16
	mov	r8, r5
	mov	r6, r1
	mov	r1, r12
	mov	r7, r2
	mov	r2, lr
	mov	r5, r3
	mov	r3, r4
	str	r7, [sp]
	bl	gcm_v7m.gcm.gctr.add_gctr
	ldrd	r0, r1, [r6, #16]
	adds	r0, r0, r5
	adc	r1, r1, #0
	strd	r0, r1, [r6, #16]
	bl	gcm_v7m.aes_cipher.zeroize.stack.wipe_stack.1536
	mov	r0, r8
.Lgcm_v7m_BB62_7:                               @ %wide_fotsgure_gcm_decrypt.exit
	add	sp, #44
	b	.Lgcm_v7m_return_11287
.Lgcm_v7m_return_11287:
	movs	r1, #0
	movs	r2, #0
	movs	r3, #0
	mov	r12, r1
	mov	lr, r1
	pop.w	{r4, r5, r6, r7, r8, r9, pc}
.Lgcm_v7m_func_end62:
	.size	gcm_v7m.fotsgure_gcm_decrypt, .Lgcm_v7m_func_end62-gcm_v7m.fotsgure_gcm_decrypt
	.cantunwind
	.fnend
                                        @ -- End function
	.section	.text.gcm_v7m.fotsgure_gcm_decrypt_unverified,"ax",%progbits
	export_gcm_v7m	fotsgure_gcm_decrypt_unverified
	.p2align	2
	.type	gcm_v7m.fotsgure_gcm_decrypt_unverified,%function
	.code	16
	.thumb_func
gcm_v7m.fotsgure_gcm_decrypt_unverified:        @ @gcm_v7m.fotsgure_gcm_decrypt_unverified
	.fnstart
@ %bb.0:
	.save	{r4, r5, r6, r7, r8, r9, lr}
	push.w	{r4, r5, r6, r7, r8, r9, lr}
	.pad	#52
	sub	sp, #52
	mov	r7, r1
	ldr	r1, [r0]
	mov	r4, r2
	cmp	r2, #0
	sub.w	r2, r1, #16
	it	eq
	addeq.w	r4, r4, #4096
	cmp	r2, #16
	mov.w	r5, #2
	bhi	.Lgcm_v7m_BB63_4
@ %bb.1:
	mov	r6, r3
	movs	r3, #1
	lsl.w	r2, r3, r2
	movw	r3, #257
	movt	r3, #1
	tst	r2, r3
	beq	.Lgcm_v7m_BB63_4
@ %bb.2:                                @ %join.3.i.i
	movs	r5, #56
	adds	r2, r0, #4
	lsrs	r3, r1, #31
	adds.w	r1, r5, r1, lsl #1
	add.w	r0, r0, #484
	mov.w	r5, #0
	add.w	r8, sp, #24
	adc	r3, r3, #0
	str	r2, [sp, #24]
	strd	r5, r1, [sp, #28]
	strd	r0, r5, [sp, #40]
	mov	r0, r8
	mov	r1, r7
	movs	r2, #3
	str	r3, [sp, #36]
	strd	r6, r5, [sp]
	bl	gcm_v7m.gcm.mode.BorrowedGcm.enter_phase
	lsls	r0, r0, #24
	beq	.Lgcm_v7m_BB63_5
@ %bb.3:                                @ %arm.2.i.i.i
	movs	r5, #8
	lsls	r0, r1, #31
	it	ne
	movne	r5, #5
.Lgcm_v7m_BB63_4:                               @ %wide_fotsgure_gcm_decrypt_unverified.exit
	mov	r0, r5
	add	sp, #52
	b	.Lgcm_v7m_return_11384
	.p2align	2
.Lgcm_v7m_BB63_5:                               @ %arm.1.i.i.i
	ldrd	r1, r2, [r7, #8]
	add.w	r0, r8, #16
	adds.w	r8, r1, #16
	adc	r9, r2, #0
	and	r3, r1, #15
	add.w	r1, r7, #48
	add.w	r2, r7, #64
	strd	r6, r5, [sp, #16]
	strd	r3, r5, [sp]
	str	r4, [sp, #8]
	bl	gcm_v7m.gcm.hash_room.hash_piece
	ldrd	r0, r1, [r7, #8]
	mov	r2, r8
	adds	r0, r0, r6
	adc	r1, r1, #0
	strd	r0, r1, [r7, #8]
	add.w	r1, r7, #32
	add	r0, sp, #24
	mov	r3, r9
	strd	r6, r5, [sp, #8]
	str	r4, [sp]
	bl	gcm_v7m.gcm.gctr.add_gctr
	bl	gcm_v7m.aes_cipher.zeroize.stack.wipe_stack.1536
	mov	r0, r5
	add	sp, #52
	b	.Lgcm_v7m_return_11384
.Lgcm_v7m_return_11384:
	movs	r1, #0
	movs	r2, #0
	movs	r3, #0
	mov	r12, r1
	mov	lr, r1
	pop.w	{r4, r5, r6, r7, r8, r9, pc}
.Lgcm_v7m_func_end63:
	.size	gcm_v7m.fotsgure_gcm_decrypt_unverified, .Lgcm_v7m_func_end63-gcm_v7m.fotsgure_gcm_decrypt_unverified
	.cantunwind
	.fnend
                                        @ -- End function
	.section	.text.gcm_v7m.fotsgure_gcm_finish_unverified,"ax",%progbits
	export_gcm_v7m	fotsgure_gcm_finish_unverified
	.p2align	2
	.type	gcm_v7m.fotsgure_gcm_finish_unverified,%function
	.code	16
	.thumb_func
gcm_v7m.fotsgure_gcm_finish_unverified:         @ @gcm_v7m.fotsgure_gcm_finish_unverified
	.fnstart
@ %bb.0:
	.save	{r4, lr}
	push	{r4, lr}
	.pad	#24
	sub	sp, #24
	ldr	r4, [r0]
	mov.w	lr, #2
	sub.w	r12, r4, #16
	cmp.w	r12, #16
	bhi	.Lgcm_v7m_BB64_4
@ %bb.1:
	movs	r3, #1
	lsl.w	r12, r3, r12
	movw	r3, #257
	movt	r3, #1
	tst.w	r12, r3
	beq	.Lgcm_v7m_BB64_4
@ %bb.2:                                @ %join.3.i.i
	movs	r3, #56
	add.w	r12, r0, #4
	lsr.w	lr, r4, #31
	adds.w	r3, r3, r4, lsl #1
	adc	r4, lr, #0
	str.w	r12, [sp]
	mov.w	r12, #0
	strd	r12, r3, [sp, #4]
	str	r4, [sp, #12]
	ldrd	r3, r4, [r1, #24]
	add.w	r0, r0, #484
	str	r0, [sp, #16]
	subs	r0, r3, #1
	sbc	r3, r4, #0
	subs	r4, r0, #4
	sbcs	r3, r3, #0
	add.w	r0, r0, #1
	mov.w	r3, #2
	it	lo
	orrlo	r3, r0, #2
	uxtb	r0, r3
	cmp	r0, #3
	str.w	r12, [sp, #20]
	bne	.Lgcm_v7m_BB64_5
@ %bb.3:                                @ %arm.4.i.i
	mov	r0, sp
	mov	r4, r1
	bl	gcm_v7m.gcm.mode.BorrowedGcm.put_tag_so_far
	bl	gcm_v7m.aes_cipher.zeroize.stack.wipe_stack.512
	mov	r0, r4
	bl	gcm_v7m.gcm.message_state.MessageZeroize.zeroize
	mov.w	lr, #0
.Lgcm_v7m_BB64_4:                               @ %wide_fotsgure_gcm_finish_unverified.exit
	mov	r0, lr
	add	sp, #24
	b	.Lgcm_v7m_return_11486
	.p2align	2
.Lgcm_v7m_BB64_5:
	mov.w	lr, #8
	mov	r0, lr
	add	sp, #24
	b	.Lgcm_v7m_return_11486
.Lgcm_v7m_return_11486:
	movs	r1, #0
	movs	r2, #0
	movs	r3, #0
	mov	r12, r1
	mov	lr, r1
	pop	{r4, pc}
.Lgcm_v7m_func_end64:
	.size	gcm_v7m.fotsgure_gcm_finish_unverified, .Lgcm_v7m_func_end64-gcm_v7m.fotsgure_gcm_finish_unverified
	.cantunwind
	.fnend
                                        @ -- End function
	.section	.text.gcm_v7m.fotsgure_gcm_wipe_message,"ax",%progbits
	export_gcm_v7m	fotsgure_gcm_wipe_message
	.p2align	2
	.type	gcm_v7m.fotsgure_gcm_wipe_message,%function
	.code	16
	.thumb_func
gcm_v7m.fotsgure_gcm_wipe_message:              @ @gcm_v7m.fotsgure_gcm_wipe_message
	.fnstart
@ %bb.0:
	.save	{r4, lr}
	push	{r4, lr}
	movs	r1, #0
	movs	r2, #80
	mov	r4, r0
	bl	memset
	mov	r0, r4
	pop.w	{r4, lr}
	b	gcm_v7m.gcm.message_state.MessageZeroize.zeroize
.Lgcm_v7m_func_end65:
	.size	gcm_v7m.fotsgure_gcm_wipe_message, .Lgcm_v7m_func_end65-gcm_v7m.fotsgure_gcm_wipe_message
	.cantunwind
	.fnend
                                        @ -- End function
	.section	.text.gcm_v7m.fotsgure_gcm_siv_set_key,"ax",%progbits
	export_gcm_v7m	fotsgure_gcm_siv_set_key
	.p2align	2
	.type	gcm_v7m.fotsgure_gcm_siv_set_key,%function
	.code	16
	.thumb_func
gcm_v7m.fotsgure_gcm_siv_set_key:               @ @gcm_v7m.fotsgure_gcm_siv_set_key
	.fnstart
@ %bb.0:
	.save	{r4, r5, r6, r7, r8, lr}
	push.w	{r4, r5, r6, r7, r8, lr}
	mov	r4, r2
	cmp	r2, #16
	beq	.Lgcm_v7m_BB66_2
@ %bb.1:
	cmp	r4, #32
	bne	.Lgcm_v7m_BB66_3
.Lgcm_v7m_BB66_2:                               @ %join.3.i.i
	cmp	r1, #0
	it	eq
	addeq.w	r1, r1, #4096
	add.w	r8, r0, #4
	mov	r6, r0
	mov	r0, r8
	mov	r7, r1
	movs	r1, #0
	mov.w	r2, #480
	movs	r5, #0
	bl	memset
	mov	r0, r8
	mov	r1, r7
	mov	r2, r4
	movs	r3, #0
	bl	gcm_v7m.aes_narrow.word_room.expand_words
	bl	gcm_v7m.aes_cipher.zeroize.stack.wipe_stack.768
	mov	r0, r5
	str	r4, [r6]
	b	.Lgcm_v7m_return_11565
	.p2align	2
.Lgcm_v7m_BB66_3:                               @ %then.1.i.i
	movs	r1, #0
	mov.w	r2, #484
	bl	memset
	movs	r0, #1
	b	.Lgcm_v7m_return_11565
.Lgcm_v7m_return_11565:
	movs	r1, #0
	movs	r2, #0
	movs	r3, #0
	mov	r12, r1
	mov	lr, r1
	pop.w	{r4, r5, r6, r7, r8, pc}
.Lgcm_v7m_func_end66:
	.size	gcm_v7m.fotsgure_gcm_siv_set_key, .Lgcm_v7m_func_end66-gcm_v7m.fotsgure_gcm_siv_set_key
	.cantunwind
	.fnend
                                        @ -- End function
	.section	.text.gcm_v7m.fotsgure_gcm_siv_seal,"ax",%progbits
	export_gcm_v7m	fotsgure_gcm_siv_seal
	.p2align	2
	.type	gcm_v7m.fotsgure_gcm_siv_seal,%function
	.code	16
	.thumb_func
gcm_v7m.fotsgure_gcm_siv_seal:                  @ @gcm_v7m.fotsgure_gcm_siv_seal
	.fnstart
@ %bb.0:
	.save	{r4, r5, r6, r7, r8, lr}
	push.w	{r4, r5, r6, r7, r8, lr}
	.pad	#64
	sub	sp, #64
	ldr.w	r12, [r0]
	cmp.w	r12, #32
	beq	.Lgcm_v7m_BB67_2
@ %bb.1:
	cmp.w	r12, #16
	bne	.Lgcm_v7m_BB67_3
.Lgcm_v7m_BB67_2:                               @ %join.3.i.i
	ldrd	r5, lr, [sp, #88]
	movs	r7, #56
	cmp	r5, #0
	it	eq
	addeq.w	r5, r5, #4096
	cmp	r2, #0
	it	eq
	addeq.w	r2, r2, #4096
	adds	r0, #4
	lsr.w	r4, r12, #31
	adds.w	r7, r7, r12, lsl #1
	ldr.w	r8, [sp, #96]
	adc	r6, r4, #0
	str	r0, [sp, #32]
	movs	r4, #0
	stm.w	sp, {r1, r2, r3}
	add	r0, sp, #48
	add	r1, sp, #32
	mov	r2, r12
	movs	r3, #0
	strd	r4, r7, [sp, #36]
	str	r6, [sp, #44]
	strd	lr, r4, [sp, #24]
	str	r5, [sp, #16]
	str	r4, [sp, #12]
	bl	gcm_v7m.gcm_siv.course.seal_in
	add	r3, sp, #48
	ldr	r2, [sp, #60]
	ldm	r3, {r0, r1, r3}
	str.w	r2, [r8, #12]
	str.w	r3, [r8, #8]
	str.w	r1, [r8, #4]
	str.w	r0, [r8]
	mov	r0, r4
	add	sp, #64
	b	.Lgcm_v7m_return_11640
	.p2align	2
.Lgcm_v7m_BB67_3:
	movs	r4, #2
	mov	r0, r4
	add	sp, #64
	b	.Lgcm_v7m_return_11640
.Lgcm_v7m_return_11640:
	movs	r1, #0
	movs	r2, #0
	movs	r3, #0
	mov	r12, r1
	mov	lr, r1
	pop.w	{r4, r5, r6, r7, r8, pc}
.Lgcm_v7m_func_end67:
	.size	gcm_v7m.fotsgure_gcm_siv_seal, .Lgcm_v7m_func_end67-gcm_v7m.fotsgure_gcm_siv_seal
	.cantunwind
	.fnend
                                        @ -- End function
	.section	.text.gcm_v7m.fotsgure_gcm_siv_seal_to,"ax",%progbits
	export_gcm_v7m	fotsgure_gcm_siv_seal_to
	.p2align	2
	.type	gcm_v7m.fotsgure_gcm_siv_seal_to,%function
	.code	16
	.thumb_func
gcm_v7m.fotsgure_gcm_siv_seal_to:               @ @gcm_v7m.fotsgure_gcm_siv_seal_to
	.fnstart
@ %bb.0:
	.save	{r4, r5, r6, r7, r8, r9, r10, r11, lr}
	push.w	{r4, r5, r6, r7, r8, r9, r10, r11, lr}
	.pad	#68
	sub	sp, #68
	ldrd	r11, r8, [sp, #104]
	ldrd	r10, r7, [sp, #112]
	cmp	r2, #0
	it	eq
	addeq.w	r2, r2, #4096
	cmp.w	r11, #0
	it	eq
	addeq.w	r11, r11, #4096
	cmp.w	r10, #0
	it	eq
	addeq.w	r10, r10, #4096
	cmp	r8, r7
	bne	.Lgcm_v7m_BB68_6
@ %bb.1:                                @ %join.3.i.i
	ldr	r7, [r0]
	cmp	r7, #32
	beq	.Lgcm_v7m_BB68_3
@ %bb.2:                                @ %join.3.i.i
	cmp	r7, #16
	bne.w	.Lgcm_v7m_BB68_17
.Lgcm_v7m_BB68_3:                               @ %join.6.i.i
	subs.w	r7, r10, r11
	mov.w	r6, #0
	sbc	r6, r6, #0
	subs.w	r7, r7, r8
	sbcs	r7, r6, #0
	bhs	.Lgcm_v7m_BB68_7
@ %bb.4:                                @ %join.7.i.i.i.i.i.i.i.i.preheader
	cmp.w	r8, #4
	and	r12, r8, #3
	bhs	.Lgcm_v7m_BB68_8
@ %bb.5:
	movs	r6, #0
	b	.Lgcm_v7m_BB68_11
	.p2align	2
.Lgcm_v7m_BB68_6:
	movs	r0, #10
	add	sp, #68
	b	.Lgcm_v7m_return_11710
	.p2align	2
.Lgcm_v7m_BB68_7:                               @ %apart.2.i.i.i.i.i.i.i.i
	mov	r9, r0
	mov	r0, r10
	mov	r7, r1
	mov	r1, r11
	mov	r5, r2
	mov	r2, r8
	mov	r6, r3
	bl	memmove
	mov	r0, r9
	mov	r1, r7
	mov	r2, r5
	mov	r3, r6
	b	.Lgcm_v7m_BB68_14
	.p2align	2
.Lgcm_v7m_BB68_8:                               @ %join.7.i.i.i.i.i.i.i.i.preheader.new
	bic	lr, r8, #3
	movs	r6, #0
	movs	r7, #0
	.p2align	2
.Lgcm_v7m_BB68_9:                               @ %join.7.i.i.i.i.i.i.i.i
                                        @ =>This Inner Loop Header: Depth=1
	ldrb.w	r4, [r11, r6]
	strb.w	r4, [r10, r6]
	orr	r4, r6, #1
	ldrb.w	r5, [r11, r4]
	strb.w	r5, [r10, r4]
	orr	r4, r6, #2
	ldrb.w	r5, [r11, r4]
	strb.w	r5, [r10, r4]
	orr	r4, r6, #3
	adds	r6, #4
	ldrb.w	r9, [r11, r4]
	adc	r7, r7, #0
	eor.w	r5, r6, lr
	orrs	r5, r7
	strb.w	r9, [r10, r4]
	bne	.Lgcm_v7m_BB68_9
@ %bb.10:                               @ %"core::slice::edits::slice+T::copy_from_slice::<i8,20'core::clone::U8Clone{}>.exit.i.i.loopexit.unr-lcssa"
	cmp.w	r12, #0
	beq	.Lgcm_v7m_BB68_14
.Lgcm_v7m_BB68_11:                              @ %join.7.i.i.i.i.i.i.i.i.epil.preheader
	ldrb.w	r7, [r11, r6]
	cmp.w	r12, #1
	strb.w	r7, [r10, r6]
	beq	.Lgcm_v7m_BB68_14
@ %bb.12:                               @ %join.7.i.i.i.i.i.i.i.i.epil.1
	adds	r7, r6, #1
	ldrb.w	r5, [r11, r7]
	cmp.w	r12, #2
	strb.w	r5, [r10, r7]
	beq	.Lgcm_v7m_BB68_14
@ %bb.13:                               @ %join.7.i.i.i.i.i.i.i.i.epil.2
	adds	r7, r6, #2
	ldrb.w	r6, [r11, r7]
	strb.w	r6, [r10, r7]
.Lgcm_v7m_BB68_14:                              @ %"core::slice::edits::slice+T::copy_from_slice::<i8,20'core::clone::U8Clone{}>.exit.i.i"
	ldr	r5, [r0]
	cmp	r5, #32
	beq	.Lgcm_v7m_BB68_16
@ %bb.15:                               @ %"core::slice::edits::slice+T::copy_from_slice::<i8,20'core::clone::U8Clone{}>.exit.i.i"
	cmp	r5, #16
	bne	.Lgcm_v7m_BB68_17
.Lgcm_v7m_BB68_16:                              @ %join.3.i.i.i
	movs	r4, #56
	adds	r0, #4
	lsrs	r7, r5, #31
	adds.w	r4, r4, r5, lsl #1
	ldr.w	r9, [sp, #120]
	adc	r7, r7, #0
	str	r0, [sp, #32]
	movs	r6, #0
	stm.w	sp, {r1, r2, r3}
	add	r0, sp, #52
	add	r1, sp, #32
	mov	r2, r5
	movs	r3, #0
	strd	r6, r4, [sp, #36]
	str	r7, [sp, #44]
	strd	r8, r6, [sp, #24]
	str.w	r10, [sp, #16]
	str	r6, [sp, #12]
	bl	gcm_v7m.gcm_siv.course.seal_in
	add	r7, sp, #52
	ldr	r3, [sp, #64]
	ldm	r7, {r1, r2, r7}
	mov	r0, r6
	str.w	r3, [r9, #12]
	str.w	r7, [r9, #8]
	str.w	r2, [r9, #4]
	str.w	r1, [r9]
	add	sp, #68
	b	.Lgcm_v7m_return_11710
	.p2align	2
.Lgcm_v7m_BB68_17:
	movs	r0, #2
	add	sp, #68
	b	.Lgcm_v7m_return_11710
.Lgcm_v7m_return_11710:
	movs	r1, #0
	movs	r2, #0
	movs	r3, #0
	mov	r12, r1
	mov	lr, r1
	pop.w	{r4, r5, r6, r7, r8, r9, r10, r11, pc}
.Lgcm_v7m_func_end68:
	.size	gcm_v7m.fotsgure_gcm_siv_seal_to, .Lgcm_v7m_func_end68-gcm_v7m.fotsgure_gcm_siv_seal_to
	.cantunwind
	.fnend
                                        @ -- End function
	.section	.text.gcm_v7m.fotsgure_gcm_siv_open,"ax",%progbits
	export_gcm_v7m	fotsgure_gcm_siv_open
	.p2align	2
	.type	gcm_v7m.fotsgure_gcm_siv_open,%function
	.code	16
	.thumb_func
gcm_v7m.fotsgure_gcm_siv_open:                  @ @gcm_v7m.fotsgure_gcm_siv_open
	.fnstart
@ %bb.0:
	ldr.w	r12, [r0]
	cmp.w	r12, #32
	beq	.Lgcm_v7m_BB69_2
@ %bb.1:
	cmp.w	r12, #16
	itt	ne
	movne	r0, #2
	bxne	lr
.Lgcm_v7m_BB69_2:                               @ %join.3.i.i
	.save	{r4, r5, r6, r7, lr}
	push	{r4, r5, r6, r7, lr}
	.pad	#60
	sub	sp, #60
	ldrd	lr, r5, [sp, #80]
	adds	r0, #4
	cmp.w	lr, #0
	it	eq
	addeq.w	lr, lr, #4096
	cmp	r2, #0
	mov.w	r7, #56
	ldr	r4, [sp, #88]
	it	eq
	addeq.w	r2, r2, #4096
	lsr.w	r6, r12, #31
	adds.w	r7, r7, r12, lsl #1
	str	r0, [sp, #40]
	mov.w	r0, #0
	adc	r6, r6, #0
	strd	r0, r7, [sp, #44]
	strd	r5, r0, [sp, #24]
	stm.w	sp, {r1, r2, r3}
	str	r0, [sp, #12]
	add	r0, sp, #40
	mov	r2, r12
	movs	r3, #0
	str	r6, [sp, #52]
	str	r4, [sp, #32]
	str.w	lr, [sp, #16]
	bl	gcm_v7m.gcm_siv.course.open_in
	cmp	r0, #0
	mov.w	r0, #6
	it	ne
	movne	r0, #0
	add	sp, #60
	b	.Lgcm_v7m_return_11875
.Lgcm_v7m_return_11875:
	movs	r1, #0
	movs	r2, #0
	movs	r3, #0
	mov	r12, r1
	mov	lr, r1
	pop	{r4, r5, r6, r7, pc}
.Lgcm_v7m_func_end69:
	.size	gcm_v7m.fotsgure_gcm_siv_open, .Lgcm_v7m_func_end69-gcm_v7m.fotsgure_gcm_siv_open
	.cantunwind
	.fnend
                                        @ -- End function
	.section	.text.gcm_v7m.fotsgure_gcm_siv_open_to,"ax",%progbits
	export_gcm_v7m	fotsgure_gcm_siv_open_to
	.p2align	2
	.type	gcm_v7m.fotsgure_gcm_siv_open_to,%function
	.code	16
	.thumb_func
gcm_v7m.fotsgure_gcm_siv_open_to:               @ @gcm_v7m.fotsgure_gcm_siv_open_to
	.fnstart
@ %bb.0:
	.save	{r4, r5, r6, r7, r8, r9, r10, r11, lr}
	push.w	{r4, r5, r6, r7, r8, r9, r10, r11, lr}
	.pad	#60
	sub	sp, #60
	ldrd	r11, r8, [sp, #96]
	ldrd	r10, r7, [sp, #104]
	cmp	r2, #0
	it	eq
	addeq.w	r2, r2, #4096
	cmp.w	r11, #0
	it	eq
	addeq.w	r11, r11, #4096
	cmp.w	r10, #0
	it	eq
	addeq.w	r10, r10, #4096
	cmp	r8, r7
	bne	.Lgcm_v7m_BB70_6
@ %bb.1:                                @ %join.3.i.i
	ldr	r7, [r0]
	cmp	r7, #32
	beq	.Lgcm_v7m_BB70_3
@ %bb.2:                                @ %join.3.i.i
	cmp	r7, #16
	bne	.Lgcm_v7m_BB70_8
.Lgcm_v7m_BB70_3:                               @ %join.6.i.i
	subs.w	r7, r10, r11
	mov.w	r6, #0
	sbc	r6, r6, #0
	subs.w	r7, r7, r8
	sbcs	r7, r6, #0
	bhs	.Lgcm_v7m_BB70_7
@ %bb.4:                                @ %join.7.i.i.i.i.i.i.i.i.preheader
	cmp.w	r8, #4
	and	r12, r8, #3
	bhs	.Lgcm_v7m_BB70_9
@ %bb.5:
	movs	r6, #0
	b	.Lgcm_v7m_BB70_12
	.p2align	2
.Lgcm_v7m_BB70_6:
	movs	r0, #10
	add	sp, #60
	b	.Lgcm_v7m_return_11939
	.p2align	2
.Lgcm_v7m_BB70_7:                               @ %apart.2.i.i.i.i.i.i.i.i
	mov	r9, r0
	mov	r0, r10
	mov	r7, r1
	mov	r1, r11
	mov	r5, r2
	mov	r2, r8
	mov	r6, r3
	bl	memmove
	mov	r0, r9
	mov	r1, r7
	mov	r2, r5
	mov	r3, r6
	b	.Lgcm_v7m_BB70_15
	.p2align	2
.Lgcm_v7m_BB70_8:
	movs	r0, #2
	add	sp, #60
	b	.Lgcm_v7m_return_11939
	.p2align	2
.Lgcm_v7m_BB70_9:                               @ %join.7.i.i.i.i.i.i.i.i.preheader.new
	bic	lr, r8, #3
	movs	r6, #0
	movs	r7, #0
	.p2align	2
.Lgcm_v7m_BB70_10:                              @ %join.7.i.i.i.i.i.i.i.i
                                        @ =>This Inner Loop Header: Depth=1
	ldrb.w	r4, [r11, r6]
	strb.w	r4, [r10, r6]
	orr	r4, r6, #1
	ldrb.w	r5, [r11, r4]
	strb.w	r5, [r10, r4]
	orr	r4, r6, #2
	ldrb.w	r5, [r11, r4]
	strb.w	r5, [r10, r4]
	orr	r4, r6, #3
	adds	r6, #4
	ldrb.w	r9, [r11, r4]
	adc	r7, r7, #0
	eor.w	r5, r6, lr
	orrs	r5, r7
	strb.w	r9, [r10, r4]
	bne	.Lgcm_v7m_BB70_10
@ %bb.11:                               @ %"core::slice::edits::slice+T::copy_from_slice::<i8,20'core::clone::U8Clone{}>.exit.i.i.loopexit.unr-lcssa"
	cmp.w	r12, #0
	beq	.Lgcm_v7m_BB70_15
.Lgcm_v7m_BB70_12:                              @ %join.7.i.i.i.i.i.i.i.i.epil.preheader
	ldrb.w	r7, [r11, r6]
	cmp.w	r12, #1
	strb.w	r7, [r10, r6]
	beq	.Lgcm_v7m_BB70_15
@ %bb.13:                               @ %join.7.i.i.i.i.i.i.i.i.epil.1
	adds	r7, r6, #1
	ldrb.w	r5, [r11, r7]
	cmp.w	r12, #2
	strb.w	r5, [r10, r7]
	beq	.Lgcm_v7m_BB70_15
@ %bb.14:                               @ %join.7.i.i.i.i.i.i.i.i.epil.2
	adds	r7, r6, #2
	ldrb.w	r6, [r11, r7]
	strb.w	r6, [r10, r7]
.Lgcm_v7m_BB70_15:                              @ %"core::slice::edits::slice+T::copy_from_slice::<i8,20'core::clone::U8Clone{}>.exit.i.i"
	ldr	r5, [r0]
	cmp	r5, #32
	beq	.Lgcm_v7m_BB70_17
@ %bb.16:                               @ %"core::slice::edits::slice+T::copy_from_slice::<i8,20'core::clone::U8Clone{}>.exit.i.i"
	cmp	r5, #16
	bne	.Lgcm_v7m_BB70_21
.Lgcm_v7m_BB70_17:                              @ %join.3.i.i.i
	adds	r0, #4
	movs	r4, #56
	ldr	r7, [sp, #112]
	lsrs	r6, r5, #31
	adds.w	r4, r4, r5, lsl #1
	str	r0, [sp, #40]
	mov.w	r0, #0
	add.w	r12, sp, #44
	adc	r6, r6, #0
	stm.w	r12, {r0, r4, r6}
	strd	r8, r0, [sp, #24]
	stm.w	sp, {r1, r2, r3}
	str	r0, [sp, #12]
	add	r0, sp, #40
	mov	r2, r5
	movs	r3, #0
	str	r7, [sp, #32]
	str.w	r10, [sp, #16]
	bl	gcm_v7m.gcm_siv.course.open_in
	cbz	r0, .Lgcm_v7m_BB70_19
@ %bb.18:                               @ %"gcm_c::siv::fotsgure_gcm_siv_open.exit.i.i"
	movs	r0, #0
	add	sp, #60
	b	.Lgcm_v7m_return_11939
	.p2align	2
.Lgcm_v7m_BB70_19:
	movs	r0, #6
	cmp.w	r8, #0
	bne	.Lgcm_v7m_BB70_22
.Lgcm_v7m_BB70_20:                              @ %wide_fotsgure_gcm_siv_open_to.exit
	add	sp, #60
	b	.Lgcm_v7m_return_11939
	.p2align	2
.Lgcm_v7m_BB70_21:
	movs	r0, #2
	cmp.w	r8, #0
	beq	.Lgcm_v7m_BB70_20
.Lgcm_v7m_BB70_22:                              @ %loop.5.preheader.i.i.i
	subs.w	r5, r8, #1
	mov.w	r6, #0
	sbc	r1, r6, #0
	orrs	r1, r5
	beq	.Lgcm_v7m_BB70_24
@ %bb.23:                               @ %join.8.preheader.i.i.i
	sub.w	r2, r8, #1
	mov	r7, r0
	mov	r0, r10
	movs	r1, #0
	bl	memset
	mov	r0, r7
.Lgcm_v7m_BB70_24:                              @ %after.4.i.i.i
	strb.w	r6, [r10, r5]
	add	sp, #60
	b	.Lgcm_v7m_return_11939
.Lgcm_v7m_return_11939:
	movs	r1, #0
	movs	r2, #0
	movs	r3, #0
	mov	r12, r1
	mov	lr, r1
	pop.w	{r4, r5, r6, r7, r8, r9, r10, r11, pc}
.Lgcm_v7m_func_end70:
	.size	gcm_v7m.fotsgure_gcm_siv_open_to, .Lgcm_v7m_func_end70-gcm_v7m.fotsgure_gcm_siv_open_to
	.cantunwind
	.fnend
                                        @ -- End function
	.section	.text.gcm_v7m.fotsgure_gcm_siv_wipe,"ax",%progbits
	export_gcm_v7m	fotsgure_gcm_siv_wipe
	.p2align	2
	.type	gcm_v7m.fotsgure_gcm_siv_wipe,%function
	.code	16
	.thumb_func
gcm_v7m.fotsgure_gcm_siv_wipe:                  @ @gcm_v7m.fotsgure_gcm_siv_wipe
	.fnstart
@ %bb.0:
	.save	{r4, lr}
	push	{r4, lr}
	movs	r1, #0
	mov.w	r2, #484
	adds	r4, r0, #4
	bl	memset
	mov	r0, r4
	movs	r2, #120
	movs	r3, #0
	pop.w	{r4, lr}
	b	gcm_v7m.aes_cipher.zeroize.elements.zeroize_elements.1
.Lgcm_v7m_func_end71:
	.size	gcm_v7m.fotsgure_gcm_siv_wipe, .Lgcm_v7m_func_end71-gcm_v7m.fotsgure_gcm_siv_wipe
	.cantunwind
	.fnend
                                        @ -- End function
	.type	.Lgcm_v7m_static.0,%object              @ @static.0
	.section	.rodata..Lgcm_v7m_static.0,"a",%progbits
.Lgcm_v7m_static.0:
	.ascii	"\001\002\004\b\020 @\200\0336"
	.size	.Lgcm_v7m_static.0, 10

	.ident	"rattle logic=dac8208d650f15bf3e2dc313a14fa4c783a3acf887bdfab66e1714b038d9e11b"
	.section	".note.GNU-stack","",%progbits

	.section	.note.fotsgure,"",%note
	.p2align	2, 0x0
	.long	9, 118, 1
	.asciz	"Fotsgure"
	.p2align	2, 0x0
	.asciz	"fotsgure_gcm 0.4.0, thumb/gcm_v7m.s, sources SHA-256 7839658995c36f00d13f13ab6f42fa9360d959953d441bf3a57996a9c2aa56dc"
	.p2align	2, 0x0
