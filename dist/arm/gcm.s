@ Made by tools/dist from the proved crate gcm_c; BUILD says from what. Don't edit it.
/* A Rust crate defines in_rust; for x86-64, a static library of both builds defines chosen, and choose_*.c calls these names. */
	.macro	export_gcm name
	.ifdef	in_rust
	.globl	gcm.\name
	.hidden	gcm.\name
	.else
	.globl	\name
	.set	\name, gcm.\name
	.endif
	.endm
	.syntax	unified
	.file	"rattle"
	.section	.text.gcm.aes_cipher.zeroize.elements.zeroize_elements.1,"ax",%progbits
	.p2align	2                               @ -- Begin function aes_cipher::zeroize::elements::zeroize_elements::<#54a2bb646728b9ee>
	.type	gcm.aes_cipher.zeroize.elements.zeroize_elements.1,%function
	.code	32
gcm.aes_cipher.zeroize.elements.zeroize_elements.1: @ @gcm.aes_cipher.zeroize.elements.zeroize_elements.1
	.fnstart
@ %bb.0:                                @ %start
	.save	{r4, r5, r6, r7, r11, lr}
	push	{r4, r5, r6, r7, r11, lr}
	.pad	#8
	sub	sp, sp, #8
	mov	r4, #0
	str	r4, [sp, #4]
	str	r4, [sp]
	@APP
	@NO_APP
	ldrd	r6, r7, [sp]
	@APP
	@NO_APP
	subs	r1, r6, r2
	sbcs	r1, r7, r3
	bhs	.Lgcm_BB0_2
@ %bb.1:                                @ %then.1.i
	ldr	r5, [r0, r6, lsl #2]
	lsl	r2, r2, #2
	mov	r1, #0
	mov	r4, r0
	bl	memset
	ldr	r0, [r4, r6, lsl #2]
	and	r4, r5, r0
	b	.Lgcm_BB0_3
.Lgcm_BB0_2:                                @ %"aes_cipher::zeroize::observe::<#94bc162b3f62047f>.exit12"
	lsl	r2, r2, #2
	mov	r1, #0
	bl	memset
.Lgcm_BB0_3:                                @ %"aes_cipher::zeroize::observe::<#94bc162b3f62047f>.exit"
	uxtb	r0, r4
	@APP
	@NO_APP
	mov	r1, #0
	ldrd	r2, r3, [sp]
	strd	r0, r1, [sp]
	@APP
	@NO_APP
	add	sp, sp, #8
	mov	r1, #0
	mov	r2, #0
	mov	r3, #0
	mov	r12, #0
	mov	lr, r1
	pop	{r4, r5, r6, r7, r11, pc}
.Lgcm_func_end0:
	.size	gcm.aes_cipher.zeroize.elements.zeroize_elements.1, .Lgcm_func_end0-gcm.aes_cipher.zeroize.elements.zeroize_elements.1
	.cantunwind
	.fnend
                                        @ -- End function
	.section	.text.gcm.gcm.message_state.MessageZeroize.zeroize,"ax",%progbits
	.p2align	2                               @ -- Begin function gcm::message_state::MessageZeroize::zeroize
	.type	gcm.gcm.message_state.MessageZeroize.zeroize,%function
	.code	32
gcm.gcm.message_state.MessageZeroize.zeroize: @ @gcm.gcm.message_state.MessageZeroize.zeroize
	.fnstart
@ %bb.0:                                @ %start
	.save	{r4, lr}
	push	{r4, lr}
	mov	r4, r0
	mov	r0, #0
	str	r0, [r4]
	str	r0, [r4, #4]
	str	r0, [r4, #8]
	str	r0, [r4, #12]
	str	r0, [r4, #16]
	str	r0, [r4, #20]
	str	r0, [r4, #24]
	str	r0, [r4, #28]
	add	r0, r4, #32
	bl	gcm.aes_cipher.zeroize.elements.zeroize_elements.2
	add	r0, r4, #48
	bl	gcm.aes_cipher.zeroize.elements.zeroize_elements.2
	add	r0, r4, #64
	pop	{r4, lr}
	b	gcm.aes_cipher.zeroize.elements.zeroize_elements.2
.Lgcm_func_end1:
	.size	gcm.gcm.message_state.MessageZeroize.zeroize, .Lgcm_func_end1-gcm.gcm.message_state.MessageZeroize.zeroize
	.cantunwind
	.fnend
                                        @ -- End function
	.section	.text.gcm.aes_cipher.zeroize.elements.zeroize_elements.2,"ax",%progbits
	.p2align	2                               @ -- Begin function aes_cipher::zeroize::elements::zeroize_elements::<#3b2097f0eef5a37b>
	.type	gcm.aes_cipher.zeroize.elements.zeroize_elements.2,%function
	.code	32
gcm.aes_cipher.zeroize.elements.zeroize_elements.2: @ @gcm.aes_cipher.zeroize.elements.zeroize_elements.2
	.fnstart
@ %bb.0:                                @ %start
	.save	{r4, r5, r11, lr}
	push	{r4, r5, r11, lr}
	.pad	#8
	sub	sp, sp, #8
	mov	r2, #0
	str	r2, [sp, #4]
	str	r2, [sp]
	@APP
	@NO_APP
	ldrd	r4, r5, [sp]
	@APP
	@NO_APP
	str	r2, [r0, #12]
	str	r2, [r0, #8]
	str	r2, [r0, #4]
	str	r2, [r0]
	mov	r3, r2
	@APP
	@NO_APP
	ldrd	r0, r1, [sp]
	strd	r2, r3, [sp]
	@APP
	@NO_APP
	add	sp, sp, #8
	mov	r1, #0
	mov	r2, #0
	mov	r3, #0
	mov	r12, #0
	mov	lr, r1
	pop	{r4, r5, r11, pc}
.Lgcm_func_end2:
	.size	gcm.aes_cipher.zeroize.elements.zeroize_elements.2, .Lgcm_func_end2-gcm.aes_cipher.zeroize.elements.zeroize_elements.2
	.cantunwind
	.fnend
                                        @ -- End function
	.section	.text.gcm.aes_narrow.word_room.expand_words,"ax",%progbits
	.p2align	2                               @ -- Begin function aes_narrow::word_room::expand_words::<#6af90bfc14753d47>
	.type	gcm.aes_narrow.word_room.expand_words,%function
	.code	32
gcm.aes_narrow.word_room.expand_words: @ @gcm.aes_narrow.word_room.expand_words
	.fnstart
@ %bb.0:                                @ %start
	.save	{r4, r5, r6, r7, r8, r9, r10, r11, lr}
	push	{r4, r5, r6, r7, r8, r9, r10, r11, lr}
	.pad	#236
	sub	sp, sp, #236
	mov	r8, r0
	str	r0, [sp, #188]                  @ 4-byte Spill
	add	r0, sp, #204
	cmp	r2, #24
	str	r3, [sp, #8]                    @ 4-byte Spill
	str	r2, [sp, #4]                    @ 4-byte Spill
	beq	.Lgcm_BB3_5
@ %bb.1:                                @ %start
	cmp	r2, #16
	bne	.Lgcm_BB3_8
@ %bb.2:                                @ %then.1.i160
	bl	gcm.aes_planes.soft.word.word32.U32Word.in_every_slot
	ldr	r7, [sp, #204]
	ldr	r9, [sp, #208]
	ldr	r1, [sp, #216]
	ldr	r2, [sp, #220]
	ldr	r0, [sp, #224]
	ldr	r11, [sp, #228]
	ldr	r3, [sp, #232]
	ldr	r6, [sp, #212]
	str	r7, [sp, #200]                  @ 4-byte Spill
	stm	r8, {r7, r9}
	mov	r7, #0
	str	r3, [sp, #176]                  @ 4-byte Spill
	str	r3, [r8, #28]
	mov	r3, #0
	str	r6, [sp, #172]                  @ 4-byte Spill
	str	r6, [r8, #8]
	str	r1, [r8, #12]
	str	r2, [r8, #16]
	str	r0, [r8, #20]
	str	r11, [r8, #24]
	str	r3, [sp, #196]                  @ 4-byte Spill
.Lgcm_BB3_3:                                @ %join.5.i.i161
                                        @ =>This Inner Loop Header: Depth=1
	ldr	r6, [sp, #172]                  @ 4-byte Reload
	eor	r4, r11, r0
	ldr	r8, [sp, #176]                  @ 4-byte Reload
	mov	lr, r9
	eor	r10, r2, r6
	str	r2, [sp, #132]                  @ 4-byte Spill
	eor	r5, r8, r9
	eor	r2, r8, r2
	eor	r3, r5, r10
	str	r3, [sp, #192]                  @ 4-byte Spill
	eor	r1, r3, r1
	str	r7, [sp, #168]                  @ 4-byte Spill
	eor	r3, r1, r6
	eor	r1, r1, r11
	eor	r12, r3, r4
	eor	r7, r1, r2
	mov	r9, r6
	ldr	r6, [sp, #200]                  @ 4-byte Reload
	str	r1, [sp, #136]                  @ 4-byte Spill
	eor	r1, r7, r12
	str	r1, [sp, #144]                  @ 4-byte Spill
	and	r1, r1, r10
	str	r10, [sp, #148]                 @ 4-byte Spill
	eor	r10, r4, r6
	str	r2, [sp, #128]                  @ 4-byte Spill
	eor	lr, r10, lr
	and	r2, r7, r2
	str	r3, [sp, #180]                  @ 4-byte Spill
	eor	r3, r1, r2
	eor	r11, r7, r4
	and	r1, lr, r10
	mov	r0, r5
	str	r5, [sp, #140]                  @ 4-byte Spill
	eor	r1, r11, r1
	and	r5, r11, r5
	mov	r4, r3
	eor	r1, r1, r5
	str	r12, [sp, #184]                 @ 4-byte Spill
	eor	r1, r1, r0
	eor	r0, r8, r9
	eor	r1, r1, r3
	and	r3, r12, r0
	eor	r12, r3, r2
	eor	r2, r7, r6
	eor	r3, r10, r8
	str	r3, [sp, #172]                  @ 4-byte Spill
	and	r3, r2, r3
	str	r2, [sp, #156]                  @ 4-byte Spill
	ldr	r9, [sp, #180]                  @ 4-byte Reload
	eor	r3, r11, r3
	ldr	r2, [sp, #192]                  @ 4-byte Reload
	eor	r3, r3, r5
	str	lr, [sp, #152]                  @ 4-byte Spill
	eor	r3, r3, r8
	and	r5, r9, r2
	eor	r2, lr, r0
	mov	lr, r0
	str	r0, [sp, #164]                  @ 4-byte Spill
	eor	r0, r9, r6
	str	r0, [sp, #160]                  @ 4-byte Spill
	str	r2, [sp, #176]                  @ 4-byte Spill
	and	r0, r0, r2
	ldr	r2, [sp, #136]                  @ 4-byte Reload
	eor	r3, r3, r12
	str	r6, [sp, #200]                  @ 4-byte Spill
	eor	r8, r3, r1
	eor	r0, r2, r0
	ldr	r2, [sp, #132]                  @ 4-byte Reload
	eor	r0, r0, r5
	eor	r2, r10, r2
	str	r2, [sp, #120]                  @ 4-byte Spill
	and	r2, r2, r6
	ldr	r6, [sp, #184]                  @ 4-byte Reload
	eor	r2, r2, lr
	eor	r9, r0, r4
	eor	r2, r2, r6
	and	r0, r1, r9
	eor	r2, r2, r5
	eor	r2, r2, r12
	eor	r5, r0, r2
	and	r5, r5, r8
	eor	r8, r5, r3
	eor	r5, r5, r0
	and	r5, r5, r3
	eor	r0, r0, r3
	eor	lr, r5, r1
	eor	r1, r9, r2
	and	r3, r0, r1
	eor	r0, r5, r0
	eor	r6, r3, r2
	eor	r12, lr, r8
	and	r0, r0, r6
	ldr	r3, [sp, #144]                  @ 4-byte Reload
	eor	r9, r0, r1
	eor	r0, r6, r8
	eor	r2, r9, r12
	and	r4, r9, r10
	eor	r10, r9, r6
	eor	r1, r2, r0
	and	r5, r10, r11
	and	r3, r1, r3
	eor	r4, r5, r4
	str	r5, [sp, #112]                  @ 4-byte Spill
	eor	r5, r4, r3
	and	r3, r0, r7
	eor	r11, r5, r3
	str	r12, [sp, #132]                 @ 4-byte Spill
	str	r2, [sp, #124]                  @ 4-byte Spill
	str	r4, [sp, #144]                  @ 4-byte Spill
	str	r11, [sp, #136]                 @ 4-byte Spill
	ldr	r3, .Lgcm_CPI3_4
	ldr	r4, [sp, #196]                  @ 4-byte Reload
.Lgcm_PC3_0:
	add	r3, pc, r3
	ldrb	r7, [r3, r4]
	mov	r3, #64
	and	r3, r3, r7, lsr #1
	orr	r3, r3, r3, lsl #1
	eor	r11, r11, r3, lsl #8
	ldr	r3, [sp, #148]                  @ 4-byte Reload
	and	r1, r1, r3
	ldr	r3, [sp, #128]                  @ 4-byte Reload
	and	r0, r0, r3
	str	r0, [sp, #148]                  @ 4-byte Spill
	eor	r1, r1, r0
	ldr	r0, [sp, #176]                  @ 4-byte Reload
	str	r1, [sp, #104]                  @ 4-byte Spill
	movw	r3, #771
	and	r0, r12, r0
	movt	r3, #771
	eor	r12, r1, r0
	ldr	r1, [sp, #192]                  @ 4-byte Reload
	and	r1, lr, r1
	eor	r1, r12, r1
	str	r1, [sp, #128]                  @ 4-byte Spill
	eor	r1, r11, r1
	and	r1, r3, r1, ror #14
	ldr	r3, [sp, #188]                  @ 4-byte Reload
	ldr	r4, [r3, r4, lsl #5]!
	str	r4, [sp, #116]                  @ 4-byte Spill
	movw	r4, #64764
	ldr	r11, [r3, #28]
	movt	r4, #64764
	eor	r1, r1, r11
	movw	r11, #771
	movt	r11, #771
	and	r4, r4, r1, lsl #2
	eor	r1, r4, r1
	movw	r4, #61680
	movt	r4, #61680
	and	r4, r4, r1, lsl #4
	eor	r1, r4, r1
	str	r1, [sp, #176]                  @ 4-byte Spill
	str	r1, [r3, #60]
	ldr	r1, [sp, #184]                  @ 4-byte Reload
	and	r1, r2, r1
	ldr	r2, [sp, #200]                  @ 4-byte Reload
	and	r4, r8, r2
	ldr	r2, [sp, #180]                  @ 4-byte Reload
	and	r2, lr, r2
	str	r2, [sp, #108]                  @ 4-byte Spill
	eor	r4, r2, r4
	ldr	r2, [sp, #140]                  @ 4-byte Reload
	eor	r1, r1, r4
	movw	lr, #61680
	and	r10, r10, r2
	movt	lr, #61680
	eor	r1, r1, r10
	eor	r2, r1, r5
	ldr	r1, [sp, #172]                  @ 4-byte Reload
	and	r1, r6, r1
	eor	r5, r2, r1
	ldr	r1, [sp, #120]                  @ 4-byte Reload
	str	r5, [sp, #140]                  @ 4-byte Spill
	and	r0, r8, r1
	mov	r1, #64
	and	r1, r1, r7, lsl #4
	orr	r1, r1, r1, lsl #1
	eor	r1, r0, r1, lsl #8
	eor	r0, r1, r12
	ldr	r1, [r3, #12]
	eor	r0, r0, r5
	movw	r12, #64764
	str	r1, [sp, #192]                  @ 4-byte Spill
	movt	r12, #64764
	and	r8, r11, r0, ror #14
	ldr	r0, [r3, #8]
	ldr	r1, [r3, #16]
	eor	r0, r8, r0
	str	r1, [sp, #184]                  @ 4-byte Spill
	mov	r8, #64
	ldr	r5, [r3, #4]
	and	r1, r12, r0, lsl #2
	eor	r0, r1, r0
	and	r1, lr, r0, lsl #4
	eor	r0, r1, r0
	str	r0, [sp, #172]                  @ 4-byte Spill
	str	r0, [r3, #40]
	ldr	r0, [sp, #156]                  @ 4-byte Reload
	ldr	r1, [sp, #112]                  @ 4-byte Reload
	and	r0, r6, r0
	ldr	r6, [sp, #136]                  @ 4-byte Reload
	eor	r0, r4, r0
	ldr	r4, [sp, #132]                  @ 4-byte Reload
	eor	r1, r0, r1
	ldr	r0, [sp, #152]                  @ 4-byte Reload
	str	r1, [sp, #180]                  @ 4-byte Spill
	and	r0, r9, r0
	eor	r0, r1, r0
	ldr	r1, [sp, #104]                  @ 4-byte Reload
	eor	r0, r0, r1
	and	r1, r8, r7, lsl #5
	orr	r1, r1, r1, lsl #1
	eor	r1, r0, r1, lsl #8
	eor	r1, r1, r2
	bic	r1, r11, r1, ror #14
	eor	r1, r1, r5
	mov	r5, r12
	and	r2, r12, r1, lsl #2
	eor	r1, r2, r1
	and	r2, lr, r1, lsl #4
	eor	r9, r2, r1
	and	r1, r8, r7, lsl #6
	str	r9, [r3, #36]
	orr	r1, r1, r1, lsl #1
	eor	r0, r0, r1, lsl #8
	ldr	r1, [sp, #116]                  @ 4-byte Reload
	eor	r0, r0, r10
	bic	r0, r11, r0, ror #14
	eor	r0, r0, r1
	and	r1, r12, r0, lsl #2
	mov	r12, r11
	eor	r0, r1, r0
	and	r1, lr, r0, lsl #4
	eor	r0, r1, r0
	ldr	r1, [sp, #160]                  @ 4-byte Reload
	str	r0, [sp, #200]                  @ 4-byte Spill
	and	r1, r4, r1
	ldr	r4, [sp, #108]                  @ 4-byte Reload
	str	r0, [r3, #32]
	and	r0, r7, #64
	eor	r1, r1, r4
	ldr	r4, [sp, #144]                  @ 4-byte Reload
	orr	r0, r0, r0, lsl #1
	eor	r1, r1, r4
	ldr	r4, [sp, #128]                  @ 4-byte Reload
	eor	r0, r6, r0, lsl #8
	eor	r4, r1, r4
	ldr	r1, [r3, #24]
	eor	r0, r0, r4
	bic	r0, r11, r0, ror #14
	eor	r0, r0, r1
	and	r1, r5, r0, lsl #2
	eor	r0, r1, r0
	and	r1, lr, r0, lsl #4
	eor	r11, r1, r0
	ldr	r0, [sp, #164]                  @ 4-byte Reload
	ldr	r1, [sp, #124]                  @ 4-byte Reload
	str	r11, [r3, #56]
	and	r0, r1, r0
	and	r1, r8, r7, lsl #1
	orr	r1, r1, r1, lsl #1
	eor	r0, r0, r1, lsl #8
	ldr	r1, [sp, #148]                  @ 4-byte Reload
	eor	r0, r0, r6
	ldr	r6, [sp, #184]                  @ 4-byte Reload
	eor	r0, r0, r1
	ldr	r1, [sp, #140]                  @ 4-byte Reload
	eor	r0, r0, r1
	ldr	r1, [r3, #20]
	bic	r0, r12, r0, ror #14
	eor	r0, r0, r1
	and	r1, r5, r0, lsl #2
	eor	r0, r1, r0
	and	r1, lr, r0, lsl #4
	eor	r0, r1, r0
	and	r1, r8, r7, lsl #2
	str	r0, [r3, #52]
	orr	r1, r1, r1, lsl #1
	eor	r1, r4, r1, lsl #8
	and	r1, r12, r1, ror #14
	eor	r1, r1, r6
	and	r6, r5, r1, lsl #2
	eor	r1, r6, r1
	and	r6, lr, r1, lsl #4
	eor	r2, r6, r1
	and	r1, r8, r7, lsl #3
	ldr	r7, [sp, #180]                  @ 4-byte Reload
	orr	r1, r1, r1, lsl #1
	ldr	r6, [sp, #196]                  @ 4-byte Reload
	str	r2, [r3, #48]
	eor	r1, r7, r1, lsl #8
	ldr	r7, [sp, #192]                  @ 4-byte Reload
	eor	r1, r1, r4
	ldr	r4, [sp, #168]                  @ 4-byte Reload
	and	r1, r12, r1, ror #14
	eor	r1, r1, r7
	and	r7, r5, r1, lsl #2
	eor	r1, r7, r1
	and	r7, lr, r1, lsl #4
	eor	r1, r7, r1
	str	r1, [r3, #44]
	adds	r3, r6, #1
	str	r3, [sp, #196]                  @ 4-byte Spill
	adc	r7, r4, #0
	subs	r6, r6, #9
	sbcs	r6, r4, #0
	blo	.Lgcm_BB3_3
	b	.Lgcm_BB3_11
	.p2align	2
@ %bb.4:
.Lgcm_CPI3_4:
	.long	.Lgcm_static.0-(.Lgcm_PC3_0+8)
	.p2align	2
.Lgcm_BB3_5:                                @ %then.4.i157
	mov	r4, r1
	bl	gcm.aes_planes.soft.word.word32.U32Word.in_every_slot
	ldr	r0, [sp, #204]
	add	r1, r4, #8
	str	r0, [sp, #148]                  @ 4-byte Spill
	ldr	r0, [sp, #216]
	str	r0, [sp, #124]                  @ 4-byte Spill
	ldr	r0, [sp, #220]
	str	r0, [sp, #128]                  @ 4-byte Spill
	ldr	r0, [sp, #224]
	str	r0, [sp, #140]                  @ 4-byte Spill
	ldr	r0, [sp, #228]
	str	r0, [sp, #136]                  @ 4-byte Spill
	ldr	r0, [sp, #232]
	str	r0, [sp, #132]                  @ 4-byte Spill
	add	r0, sp, #204
	ldr	r7, [sp, #208]
	ldr	r11, [sp, #212]
	bl	gcm.aes_planes.soft.word.word32.U32Word.in_every_slot
	ldr	r0, [sp, #204]
	mov	r1, #0
	str	r0, [sp, #200]                  @ 4-byte Spill
	ldr	r0, [sp, #208]
	str	r0, [sp, #196]                  @ 4-byte Spill
	ldr	r0, [sp, #148]                  @ 4-byte Reload
	str	r0, [r8]
	ldr	r0, [sp, #124]                  @ 4-byte Reload
	str	r0, [r8, #12]
	ldr	r0, [sp, #128]                  @ 4-byte Reload
	str	r0, [r8, #16]
	ldr	r0, [sp, #140]                  @ 4-byte Reload
	ldr	r2, [sp, #216]
	str	r0, [r8, #20]
	ldr	r0, [sp, #136]                  @ 4-byte Reload
	ldr	lr, [sp, #232]
	ldr	r4, [sp, #228]
	ldr	r9, [sp, #224]
	ldr	r6, [sp, #220]
	ldr	r10, [sp, #212]
	str	r0, [r8, #24]
	ldr	r0, [sp, #132]                  @ 4-byte Reload
	str	r0, [r8, #28]
	mov	r0, #0
	str	r7, [sp, #120]                  @ 4-byte Spill
	str	r7, [r8, #4]
	mov	r7, r2
	str	r11, [sp, #116]                 @ 4-byte Spill
	str	r11, [r8, #8]
.Lgcm_BB3_6:                                @ %join.5.i164.i
                                        @ =>This Inner Loop Header: Depth=1
	ldr	r11, [sp, #196]                 @ 4-byte Reload
	eor	r5, r6, r10
	str	r0, [sp, #192]                  @ 4-byte Spill
	eor	r8, lr, r11
	str	r4, [sp, #92]                   @ 4-byte Spill
	eor	r2, r8, r5
	str	r1, [sp, #112]                  @ 4-byte Spill
	eor	r0, r2, r7
	str	r2, [sp, #184]                  @ 4-byte Spill
	eor	r1, r0, r10
	eor	r0, r0, r4
	eor	r2, r4, r9
	eor	r4, lr, r6
	str	r9, [sp, #164]                  @ 4-byte Spill
	eor	r9, r1, r2
	eor	r3, r0, r4
	str	r7, [sp, #96]                   @ 4-byte Spill
	mov	r7, lr
	str	r0, [sp, #160]                  @ 4-byte Spill
	eor	r0, r3, r9
	str	r4, [sp, #88]                   @ 4-byte Spill
	and	lr, r3, r4
	ldr	r4, [sp, #200]                  @ 4-byte Reload
	str	r5, [sp, #64]                   @ 4-byte Spill
	and	r5, r0, r5
	eor	r12, r5, lr
	eor	r5, r2, r4
	str	r0, [sp, #108]                  @ 4-byte Spill
	eor	r0, r5, r11
	str	r1, [sp, #172]                  @ 4-byte Spill
	eor	r1, r3, r2
	str	r11, [sp, #196]                 @ 4-byte Spill
	and	r11, r0, r5
	eor	r2, r1, r11
	and	r11, r1, r8
	eor	r2, r2, r11
	str	r0, [sp, #180]                  @ 4-byte Spill
	eor	r0, r7, r10
	eor	r2, r2, r8
	str	r8, [sp, #80]                   @ 4-byte Spill
	eor	r8, r2, r12
	str	r12, [sp, #68]                  @ 4-byte Spill
	and	r12, r9, r0
	str	r9, [sp, #176]                  @ 4-byte Spill
	eor	r9, r12, lr
	eor	r12, r3, r4
	eor	r2, r5, r7
	str	r0, [sp, #168]                  @ 4-byte Spill
	mov	r0, r7
	str	r7, [sp, #144]                  @ 4-byte Spill
	and	r7, r12, r2
	eor	r7, r1, r7
	str	r10, [sp, #152]                 @ 4-byte Spill
	eor	r7, r7, r11
	mov	r10, r6
	eor	r7, r7, r0
	str	r6, [sp, #156]                  @ 4-byte Spill
	ldr	r6, [sp, #172]                  @ 4-byte Reload
	eor	r7, r7, r9
	ldr	r0, [sp, #184]                  @ 4-byte Reload
	str	r2, [sp, #76]                   @ 4-byte Spill
	and	r2, r6, r0
	ldr	lr, [sp, #168]                  @ 4-byte Reload
	ldr	r0, [sp, #180]                  @ 4-byte Reload
	str	r1, [sp, #84]                   @ 4-byte Spill
	eor	r1, r0, lr
	eor	r0, r6, r4
	str	r0, [sp, #100]                  @ 4-byte Spill
	and	r11, r0, r1
	ldr	r0, [sp, #160]                  @ 4-byte Reload
	str	r4, [sp, #200]                  @ 4-byte Spill
	eor	r6, r0, r11
	ldr	r0, [sp, #68]                   @ 4-byte Reload
	eor	r6, r6, r2
	str	r12, [sp, #104]                 @ 4-byte Spill
	eor	r11, r6, r0
	eor	r0, r5, r10
	and	r4, r0, r4
	str	r0, [sp, #56]                   @ 4-byte Spill
	ldr	r0, [sp, #176]                  @ 4-byte Reload
	eor	r4, r4, lr
	and	r6, r8, r11
	eor	r12, r7, r8
	eor	r4, r4, r0
	str	r3, [sp, #72]                   @ 4-byte Spill
	eor	r0, r4, r2
	str	r1, [sp, #60]                   @ 4-byte Spill
	eor	r4, r0, r9
	eor	r0, r6, r4
	eor	r2, r11, r4
	and	r3, r0, r12
	eor	r0, r3, r7
	eor	r3, r3, r6
	eor	r6, r6, r7
	and	r12, r3, r7
	and	r7, r6, r2
	eor	r3, r12, r8
	eor	lr, r7, r4
	eor	r7, r12, r6
	and	r7, r7, lr
	eor	r9, r3, r0
	eor	r12, r7, r2
	mov	r8, r0
	eor	r0, r12, r9
	eor	r4, lr, r8
	str	r0, [sp, #160]                  @ 4-byte Spill
	eor	r6, r0, r4
	ldr	r0, [sp, #108]                  @ 4-byte Reload
	eor	r1, r12, lr
	and	r5, r12, r5
	str	r9, [sp, #68]                   @ 4-byte Spill
	and	r7, r6, r0
	ldr	r0, [sp, #84]                   @ 4-byte Reload
	str	r1, [sp, #44]                   @ 4-byte Spill
	and	r0, r1, r0
	str	r0, [sp, #52]                   @ 4-byte Spill
	eor	r0, r0, r5
	str	r0, [sp, #84]                   @ 4-byte Spill
	eor	r11, r0, r7
	ldr	r0, [sp, #72]                   @ 4-byte Reload
	and	r5, r4, r0
	eor	r1, r11, r5
	str	r1, [sp, #72]                   @ 4-byte Spill
	ldr	r0, .Lgcm_CPI3_5
	ldr	r2, [sp, #192]                  @ 4-byte Reload
.Lgcm_PC3_1:
	add	r0, pc, r0
	ldrb	r5, [r0, r2, lsl #1]!
	str	r0, [sp, #108]                  @ 4-byte Spill
	mov	r0, #64
	and	r7, r0, r5, lsr #1
	orr	r7, r7, r7, lsl #1
	eor	r0, r1, r7, lsl #8
	ldr	r1, [sp, #64]                   @ 4-byte Reload
	and	r6, r6, r1
	ldr	r1, [sp, #88]                   @ 4-byte Reload
	and	r1, r4, r1
	str	r1, [sp, #88]                   @ 4-byte Spill
	eor	r6, r6, r1
	ldr	r1, [sp, #60]                   @ 4-byte Reload
	str	r6, [sp, #48]                   @ 4-byte Spill
	and	r4, r9, r1
	ldr	r1, [sp, #184]                  @ 4-byte Reload
	eor	r6, r6, r4
	and	r4, r3, r1
	eor	r1, r6, r4
	str	r1, [sp, #60]                   @ 4-byte Spill
	eor	r0, r0, r1
	movw	r1, #771
	movt	r1, #771
	and	r0, r1, r0, ror #14
	ldr	r1, [sp, #132]                  @ 4-byte Reload
	eor	r0, r0, r1
	movw	r1, #64764
	movt	r1, #64764
	and	r4, r1, r0, lsl #2
	eor	r1, r4, r0
	movw	r0, #61680
	movt	r0, #61680
	str	r1, [sp, #184]                  @ 4-byte Spill
	and	r1, r0, r1, lsl #4
	ldr	r0, [sp, #144]                  @ 4-byte Reload
	movw	r4, #3855
	str	r1, [sp, #132]                  @ 4-byte Spill
	movt	r4, #3855
	and	r0, r4, r0, lsr #4
	add	r4, r2, r2, lsl #1
	orr	r0, r1, r0
	ldr	r1, [sp, #188]                  @ 4-byte Reload
	ldr	r2, [sp, #80]                   @ 4-byte Reload
	add	r10, r1, r4, lsl #5
	ldr	r1, [sp, #160]                  @ 4-byte Reload
	ldr	r4, [sp, #200]                  @ 4-byte Reload
	str	r0, [r10, #60]
	ldr	r0, [sp, #176]                  @ 4-byte Reload
	and	r9, r1, r0
	ldr	r1, [sp, #172]                  @ 4-byte Reload
	and	r0, r8, r4
	and	r1, r3, r1
	ldr	r3, [sp, #44]                   @ 4-byte Reload
	str	r1, [sp, #172]                  @ 4-byte Spill
	eor	r1, r1, r0
	eor	r0, r9, r1
	and	r9, r3, r2
	ldr	r2, [sp, #76]                   @ 4-byte Reload
	eor	r0, r0, r9
	eor	r0, r0, r11
	and	r3, lr, r2
	ldr	r2, [sp, #56]                   @ 4-byte Reload
	eor	r11, r0, r3
	str	r11, [sp, #76]                  @ 4-byte Spill
	and	r3, r8, r2
	mov	r2, #64
	and	r7, r2, r5, lsl #4
	ldr	r2, [sp, #116]                  @ 4-byte Reload
	movw	r8, #3855
	orr	r7, r7, r7, lsl #1
	movt	r8, #3855
	eor	r3, r3, r7, lsl #8
	movw	r7, #771
	eor	r3, r3, r6
	movt	r7, #771
	eor	r3, r3, r11
	movw	r11, #64764
	movt	r11, #64764
	and	r3, r7, r3, ror #14
	eor	r3, r3, r2
	and	r6, r11, r3, lsl #2
	eor	r2, r6, r3
	movw	r3, #61680
	movt	r3, #61680
	str	r2, [sp, #176]                  @ 4-byte Spill
	and	r6, r3, r2, lsl #4
	ldr	r2, [sp, #152]                  @ 4-byte Reload
	str	r6, [sp, #116]                  @ 4-byte Spill
	and	r3, r8, r2, lsr #4
	ldr	r2, [sp, #104]                  @ 4-byte Reload
	orr	r3, r6, r3
	str	r3, [r10, #40]
	and	r3, lr, r2
	ldr	r2, [sp, #52]                   @ 4-byte Reload
	eor	r1, r1, r3
	mov	r6, r10
	eor	r3, r1, r2
	ldr	r1, [sp, #180]                  @ 4-byte Reload
	str	r3, [sp, #80]                   @ 4-byte Spill
	movw	r10, #61680
	and	r2, r12, r1
	mov	r12, #64
	eor	r2, r3, r2
	and	r3, r12, r5, lsl #5
	ldr	r1, [sp, #48]                   @ 4-byte Reload
	movt	r10, #61680
	orr	r3, r3, r3, lsl #1
	eor	r2, r2, r1
	ldr	r1, [sp, #72]                   @ 4-byte Reload
	eor	r3, r2, r3, lsl #8
	eor	r0, r3, r0
	ldr	r3, [sp, #120]                  @ 4-byte Reload
	bic	r0, r7, r0, ror #14
	eor	r0, r0, r3
	and	r3, r11, r0, lsl #2
	eor	r0, r3, r0
	str	r0, [sp, #180]                  @ 4-byte Spill
	and	r3, r10, r0, lsl #4
	ldr	r0, [sp, #196]                  @ 4-byte Reload
	str	r3, [sp, #120]                  @ 4-byte Spill
	and	r0, r8, r0, lsr #4
	orr	r0, r3, r0
	str	r0, [r6, #36]
	and	r0, r12, r5, lsl #6
	ldr	r3, [sp, #68]                   @ 4-byte Reload
	orr	r0, r0, r0, lsl #1
	eor	r0, r2, r0, lsl #8
	ldr	r2, [sp, #148]                  @ 4-byte Reload
	eor	r0, r0, r9
	ldr	r9, [sp, #92]                   @ 4-byte Reload
	bic	r0, r7, r0, ror #14
	eor	r0, r0, r2
	and	r2, r11, r0, lsl #2
	eor	r0, r2, r0
	str	r0, [sp, #148]                  @ 4-byte Spill
	and	r2, r10, r0, lsl #4
	and	r0, r8, r4, lsr #4
	orr	r0, r2, r0
	str	r0, [r6, #32]
	and	r0, r5, #64
	str	r2, [sp, #104]                  @ 4-byte Spill
	mov	r4, r6
	orr	r0, r0, r0, lsl #1
	eor	r2, r1, r0, lsl #8
	ldr	r0, [sp, #100]                  @ 4-byte Reload
	and	r0, r3, r0
	ldr	r3, [sp, #172]                  @ 4-byte Reload
	eor	r0, r0, r3
	ldr	r3, [sp, #84]                   @ 4-byte Reload
	eor	r0, r0, r3
	ldr	r3, [sp, #60]                   @ 4-byte Reload
	eor	r0, r0, r3
	ldr	r3, [sp, #136]                  @ 4-byte Reload
	eor	r2, r2, r0
	bic	r2, r7, r2, ror #14
	eor	r2, r2, r3
	and	r3, r11, r2, lsl #2
	eor	r2, r3, r2
	str	r2, [sp, #172]                  @ 4-byte Spill
	and	r3, r10, r2, lsl #4
	and	r2, r8, r9, lsr #4
	orr	r2, r3, r2
	str	r3, [sp, #136]                  @ 4-byte Spill
	str	r2, [r6, #56]
	ldr	r2, [sp, #168]                  @ 4-byte Reload
	ldr	r3, [sp, #160]                  @ 4-byte Reload
	and	r2, r3, r2
	and	r3, r12, r5, lsl #1
	orr	r3, r3, r3, lsl #1
	eor	r2, r2, r3, lsl #8
	ldr	r3, [sp, #140]                  @ 4-byte Reload
	eor	r2, r2, r1
	ldr	r1, [sp, #88]                   @ 4-byte Reload
	eor	r2, r2, r1
	ldr	r1, [sp, #76]                   @ 4-byte Reload
	eor	r2, r2, r1
	ldr	r1, [sp, #80]                   @ 4-byte Reload
	bic	r2, r7, r2, ror #14
	eor	r2, r2, r3
	and	r3, r11, r2, lsl #2
	eor	r2, r3, r2
	str	r2, [sp, #168]                  @ 4-byte Spill
	and	r3, r10, r2, lsl #4
	ldr	r2, [sp, #164]                  @ 4-byte Reload
	str	r3, [sp, #100]                  @ 4-byte Spill
	and	r2, r8, r2, lsr #4
	orr	r2, r3, r2
	str	r2, [r6, #52]
	and	r2, r12, r5, lsl #2
	ldr	r3, [sp, #128]                  @ 4-byte Reload
	orr	r2, r2, r2, lsl #1
	eor	r2, r0, r2, lsl #8
	and	r2, r7, r2, ror #14
	eor	r2, r2, r3
	and	r3, r11, r2, lsl #2
	eor	r2, r3, r2
	str	r2, [sp, #160]                  @ 4-byte Spill
	and	r3, r10, r2, lsl #4
	ldr	r2, [sp, #156]                  @ 4-byte Reload
	str	r3, [sp, #128]                  @ 4-byte Spill
	and	r2, r8, r2, lsr #4
	orr	r2, r3, r2
	str	r2, [r6, #48]
	and	r2, r12, r5, lsl #3
	ldr	r12, [sp, #96]                  @ 4-byte Reload
	mov	r6, r10
	mov	r3, r11
	orr	r2, r2, r2, lsl #1
	eor	r1, r1, r2, lsl #8
	mov	r2, r4
	eor	r0, r1, r0
	ldr	r1, [sp, #124]                  @ 4-byte Reload
	str	r2, [sp, #64]                   @ 4-byte Spill
	and	r0, r7, r0, ror #14
	eor	r0, r0, r1
	and	r1, r11, r0, lsl #2
	eor	r0, r1, r0
	str	r0, [sp, #88]                   @ 4-byte Spill
	and	r1, r10, r0, lsl #4
	mov	r10, r0
	and	r0, r8, r12, lsr #4
	str	r1, [sp, #124]                  @ 4-byte Spill
	orr	r0, r1, r0
	str	r0, [r4, #44]
	ldr	r0, [sp, #184]                  @ 4-byte Reload
	ldr	r1, [sp, #144]                  @ 4-byte Reload
	and	r0, r7, r0, lsr #2
	eor	r0, r0, r1
	and	r1, r11, r0, lsl #2
	eor	r0, r1, r0
	and	r1, r6, r0, lsl #4
	eor	r11, r1, r0
	ldr	r0, [sp, #176]                  @ 4-byte Reload
	ldr	r1, [sp, #152]                  @ 4-byte Reload
	str	r11, [r4, #92]
	and	r0, r7, r0, lsr #2
	str	r11, [sp, #76]                  @ 4-byte Spill
	eor	r0, r0, r1
	and	r1, r3, r0, lsl #2
	eor	r0, r1, r0
	and	r1, r6, r0, lsl #4
	eor	r0, r1, r0
	str	r0, [sp, #152]                  @ 4-byte Spill
	str	r0, [r4, #72]
	ldr	r0, [sp, #180]                  @ 4-byte Reload
	ldr	r1, [sp, #196]                  @ 4-byte Reload
	and	r0, r7, r0, lsr #2
	eor	r0, r0, r1
	and	r1, r3, r0, lsl #2
	eor	r0, r1, r0
	and	r1, r6, r0, lsl #4
	eor	r8, r1, r0
	ldr	r0, [sp, #148]                  @ 4-byte Reload
	ldr	r1, [sp, #200]                  @ 4-byte Reload
	str	r8, [r4, #68]
	and	r0, r7, r0, lsr #2
	str	r8, [sp, #80]                   @ 4-byte Spill
	eor	r0, r0, r1
	and	r1, r3, r0, lsl #2
	eor	r0, r1, r0
	and	r1, r6, r0, lsl #4
	eor	lr, r1, r0
	ldr	r0, [sp, #172]                  @ 4-byte Reload
	str	lr, [r4, #64]
	str	lr, [sp, #200]                  @ 4-byte Spill
	and	r0, r7, r0, lsr #2
	eor	r0, r0, r9
	and	r1, r3, r0, lsl #2
	eor	r0, r1, r0
	and	r1, r6, r0, lsl #4
	eor	r9, r1, r0
	ldr	r0, [sp, #168]                  @ 4-byte Reload
	ldr	r1, [sp, #164]                  @ 4-byte Reload
	str	r9, [r4, #88]
	and	r0, r7, r0, lsr #2
	str	r9, [sp, #84]                   @ 4-byte Spill
	eor	r0, r0, r1
	and	r1, r3, r0, lsl #2
	eor	r0, r1, r0
	and	r1, r6, r0, lsl #4
	eor	r4, r1, r0
	ldr	r0, [sp, #160]                  @ 4-byte Reload
	ldr	r1, [sp, #156]                  @ 4-byte Reload
	str	r4, [r2, #84]
	and	r0, r7, r0, lsr #2
	str	r4, [sp, #92]                   @ 4-byte Spill
	eor	r0, r0, r1
	and	r1, r3, r0, lsl #2
	eor	r0, r1, r0
	and	r1, r6, r0, lsl #4
	eor	r5, r1, r0
	and	r0, r7, r10, lsr #2
	eor	r0, r0, r12
	str	r5, [r2, #80]
	str	r5, [sp, #164]                  @ 4-byte Spill
	and	r1, r3, r0, lsl #2
	eor	r0, r1, r0
	and	r1, r6, r0, lsl #4
	eor	r6, r1, r0
	eor	r0, r9, r4
	str	r6, [r2, #76]
	eor	r2, r0, lr
	eor	r1, r2, r8
	str	r2, [sp, #140]                  @ 4-byte Spill
	and	lr, r1, r2
	ldr	r2, [sp, #152]                  @ 4-byte Reload
	str	r1, [sp, #196]                  @ 4-byte Spill
	mov	r1, r5
	eor	r4, r8, r11
	eor	r5, r5, r2
	eor	r7, r4, r5
	str	r7, [sp, #144]                  @ 4-byte Spill
	eor	r7, r7, r6
	eor	r1, r1, r11
	eor	r3, r7, r9
	str	r6, [sp, #96]                   @ 4-byte Spill
	eor	r10, r3, r1
	str	r3, [sp, #156]                  @ 4-byte Spill
	eor	r6, r10, r0
	eor	r12, r7, r2
	eor	r3, r6, lr
	and	lr, r6, r4
	eor	r3, r3, lr
	str	r4, [sp, #56]                   @ 4-byte Spill
	eor	r8, r3, r4
	eor	r4, r12, r0
	mov	r3, r2
	eor	r2, r10, r4
	str	r2, [sp, #52]                   @ 4-byte Spill
	and	r0, r2, r5
	and	r2, r10, r1
	str	r5, [sp, #24]                   @ 4-byte Spill
	eor	r5, r0, r2
	ldr	r0, [sp, #140]                  @ 4-byte Reload
	str	r1, [sp, #28]                   @ 4-byte Spill
	eor	r9, r8, r5
	eor	r7, r0, r11
	ldr	r0, [sp, #200]                  @ 4-byte Reload
	str	r7, [sp, #48]                   @ 4-byte Spill
	eor	r1, r10, r0
	str	r1, [sp, #60]                   @ 4-byte Spill
	and	r7, r1, r7
	str	r6, [sp, #44]                   @ 4-byte Spill
	eor	r7, r6, r7
	str	r4, [sp, #16]                   @ 4-byte Spill
	eor	r1, r7, lr
	eor	lr, r11, r3
	and	r7, r4, lr
	mov	r3, r4
	eor	r6, r7, r2
	ldr	r2, [sp, #144]                  @ 4-byte Reload
	eor	r8, r1, r11
	eor	r1, r12, r0
	and	r4, r12, r2
	ldr	r2, [sp, #196]                  @ 4-byte Reload
	str	r1, [sp, #68]                   @ 4-byte Spill
	eor	r7, r8, r6
	eor	r2, r2, lr
	str	r12, [sp, #32]                  @ 4-byte Spill
	and	r11, r1, r2
	ldr	r1, [sp, #156]                  @ 4-byte Reload
	eor	r8, r7, r9
	str	r2, [sp, #12]                   @ 4-byte Spill
	eor	r1, r1, r11
	ldr	r11, [sp, #140]                 @ 4-byte Reload
	eor	r1, r1, r4
	str	lr, [sp, #72]                   @ 4-byte Spill
	eor	r12, r1, r5
	ldr	r5, [sp, #164]                  @ 4-byte Reload
	and	r1, r9, r12
	eor	r5, r11, r5
	str	r5, [sp, #36]                   @ 4-byte Spill
	and	r5, r5, r0
	eor	r5, r5, lr
	eor	r5, r5, r3
	eor	r0, r5, r4
	eor	r0, r0, r6
	eor	r3, r1, r0
	and	r5, r3, r8
	eor	r3, r5, r7
	eor	r5, r5, r1
	and	r8, r5, r7
	eor	r5, r12, r0
	eor	r1, r1, r7
	eor	r9, r8, r9
	and	r7, r1, r5
	eor	r1, r8, r1
	eor	r0, r7, r0
	eor	r2, r9, r3
	and	r1, r1, r0
	eor	r7, r0, r3
	eor	r8, r1, r5
	and	r6, r7, r10
	eor	r1, r8, r2
	str	r1, [sp, #156]                  @ 4-byte Spill
	eor	r5, r1, r7
	ldr	r1, [sp, #52]                   @ 4-byte Reload
	and	lr, r8, r11
	eor	r11, r8, r0
	and	r12, r5, r1
	ldr	r1, [sp, #44]                   @ 4-byte Reload
	str	r2, [sp, #40]                   @ 4-byte Spill
	and	r1, r11, r1
	str	r1, [sp, #20]                   @ 4-byte Spill
	eor	r1, r1, lr
	str	r1, [sp, #52]                   @ 4-byte Spill
	eor	lr, r1, r12
	ldr	r1, [sp, #108]                  @ 4-byte Reload
	eor	r4, lr, r6
	str	r4, [sp, #44]                   @ 4-byte Spill
	ldrb	r6, [r1, #1]
	mov	r1, #64
	and	r1, r1, r6, lsr #1
	orr	r1, r1, r1, lsl #1
	eor	r1, r4, r1, lsl #8
	ldr	r4, [sp, #24]                   @ 4-byte Reload
	and	r5, r5, r4
	ldr	r4, [sp, #28]                   @ 4-byte Reload
	and	r7, r7, r4
	ldr	r4, [sp, #12]                   @ 4-byte Reload
	eor	r12, r5, r7
	str	r7, [sp, #140]                  @ 4-byte Spill
	and	r5, r2, r4
	ldr	r2, [sp, #144]                  @ 4-byte Reload
	eor	r7, r12, r5
	ldr	r4, [sp, #64]                   @ 4-byte Reload
	and	r5, r9, r2
	eor	r2, r7, r5
	str	r2, [sp, #108]                  @ 4-byte Spill
	eor	r1, r1, r2
	movw	r2, #771
	ldr	r5, [sp, #132]                  @ 4-byte Reload
	movt	r2, #771
	and	r1, r2, r1, ror #14
	movw	r2, #64764
	orr	r1, r1, r5
	ldr	r5, [sp, #184]                  @ 4-byte Reload
	movt	r2, #64764
	eor	r1, r1, r5
	and	r5, r2, r1, lsl #2
	ldr	r2, [sp, #16]                   @ 4-byte Reload
	eor	r5, r5, r1
	movw	r1, #61680
	movt	r1, #61680
	str	r5, [sp, #184]                  @ 4-byte Spill
	and	r1, r1, r5, lsl #4
	eor	r1, r1, r5
	str	r1, [sp, #132]                  @ 4-byte Spill
	str	r1, [r4, #124]
	ldr	r1, [sp, #156]                  @ 4-byte Reload
	and	r5, r1, r2
	ldr	r1, [sp, #200]                  @ 4-byte Reload
	ldr	r2, [sp, #32]                   @ 4-byte Reload
	and	r1, r3, r1
	and	r2, r9, r2
	str	r2, [sp, #32]                   @ 4-byte Spill
	eor	r1, r2, r1
	ldr	r2, [sp, #56]                   @ 4-byte Reload
	eor	r10, r5, r1
	ldr	r5, [sp, #48]                   @ 4-byte Reload
	and	r11, r11, r2
	movw	r9, #64764
	eor	r2, r10, r11
	and	r5, r0, r5
	eor	r2, r2, lr
	movw	lr, #771
	eor	r10, r2, r5
	ldr	r5, [sp, #36]                   @ 4-byte Reload
	movt	lr, #771
	movt	r9, #64764
	and	r3, r3, r5
	mov	r5, #64
	and	r5, r5, r6, lsl #4
	orr	r5, r5, r5, lsl #1
	eor	r3, r3, r5, lsl #8
	ldr	r5, [sp, #116]                  @ 4-byte Reload
	eor	r3, r3, r7
	eor	r3, r3, r10
	and	r3, lr, r3, ror #14
	orr	r3, r3, r5
	ldr	r5, [sp, #176]                  @ 4-byte Reload
	eor	r3, r3, r5
	and	r5, r9, r3, lsl #2
	eor	r7, r5, r3
	movw	r5, #61680
	movt	r5, #61680
	str	r7, [sp, #176]                  @ 4-byte Spill
	and	r3, r5, r7, lsl #4
	eor	r3, r3, r7
	str	r3, [sp, #116]                  @ 4-byte Spill
	str	r3, [r4, #104]
	mov	r3, r4
	ldr	r4, [sp, #60]                   @ 4-byte Reload
	mov	r7, #64
	and	r0, r0, r4
	ldr	r4, [sp, #44]                   @ 4-byte Reload
	eor	r0, r1, r0
	ldr	r1, [sp, #20]                   @ 4-byte Reload
	eor	r1, r0, r1
	ldr	r0, [sp, #196]                  @ 4-byte Reload
	str	r1, [sp, #144]                  @ 4-byte Spill
	and	r0, r8, r0
	mov	r8, #64
	eor	r0, r1, r0
	and	r1, r7, r6, lsl #5
	eor	r0, r0, r12
	mov	r12, r9
	orr	r1, r1, r1, lsl #1
	eor	r1, r0, r1, lsl #8
	eor	r1, r1, r2
	ldr	r2, [sp, #120]                  @ 4-byte Reload
	bic	r1, lr, r1, ror #14
	orr	r1, r1, r2
	ldr	r2, [sp, #180]                  @ 4-byte Reload
	eor	r1, r1, r2
	and	r2, r9, r1, lsl #2
	eor	r9, r2, r1
	ldr	r2, [sp, #40]                   @ 4-byte Reload
	and	r1, r5, r9, lsl #4
	eor	r1, r1, r9
	str	r1, [sp, #120]                  @ 4-byte Spill
	str	r1, [r3, #100]
	and	r1, r7, r6, lsl #6
	orr	r1, r1, r1, lsl #1
	eor	r0, r0, r1, lsl #8
	ldr	r1, [sp, #104]                  @ 4-byte Reload
	eor	r0, r0, r11
	mov	r11, r5
	bic	r0, lr, r0, ror #14
	orr	r0, r0, r1
	ldr	r1, [sp, #148]                  @ 4-byte Reload
	eor	r0, r0, r1
	and	r1, r12, r0, lsl #2
	eor	r0, r1, r0
	str	r0, [sp, #180]                  @ 4-byte Spill
	and	r1, r5, r0, lsl #4
	eor	r0, r1, r0
	str	r0, [sp, #148]                  @ 4-byte Spill
	str	r0, [r3, #96]
	and	r1, r6, #64
	ldr	r0, [sp, #68]                   @ 4-byte Reload
	orr	r1, r1, r1, lsl #1
	and	r2, r2, r0
	ldr	r0, [sp, #32]                   @ 4-byte Reload
	eor	r1, r4, r1, lsl #8
	eor	r2, r2, r0
	ldr	r0, [sp, #52]                   @ 4-byte Reload
	eor	r2, r2, r0
	ldr	r0, [sp, #108]                  @ 4-byte Reload
	eor	r7, r2, r0
	ldr	r0, [sp, #136]                  @ 4-byte Reload
	eor	r1, r1, r7
	bic	r1, lr, r1, ror #14
	orr	r1, r1, r0
	ldr	r0, [sp, #172]                  @ 4-byte Reload
	eor	r1, r1, r0
	and	r2, r12, r1, lsl #2
	eor	r2, r2, r1
	and	r1, r5, r2, lsl #4
	and	r5, r8, r6, lsl #1
	eor	r0, r1, r2
	str	r0, [sp, #136]                  @ 4-byte Spill
	str	r0, [r3, #120]
	orr	r5, r5, r5, lsl #1
	ldr	r0, [sp, #72]                   @ 4-byte Reload
	ldr	r1, [sp, #156]                  @ 4-byte Reload
	and	r1, r1, r0
	ldr	r0, [sp, #140]                  @ 4-byte Reload
	eor	r1, r1, r5, lsl #8
	eor	r1, r1, r4
	mov	r4, #64
	eor	r1, r1, r0
	ldr	r0, [sp, #100]                  @ 4-byte Reload
	eor	r1, r1, r10
	bic	r1, lr, r1, ror #14
	orr	r1, r1, r0
	ldr	r0, [sp, #168]                  @ 4-byte Reload
	eor	r1, r1, r0
	and	r5, r12, r1, lsl #2
	eor	r5, r5, r1
	and	r1, r11, r5, lsl #4
	eor	r0, r1, r5
	and	r1, r8, r6, lsl #2
	str	r0, [sp, #140]                  @ 4-byte Spill
	orr	r1, r1, r1, lsl #1
	str	r0, [r3, #116]
	ldr	r0, [sp, #128]                  @ 4-byte Reload
	eor	r1, r7, r1, lsl #8
	and	r1, lr, r1, ror #14
	orr	r1, r1, r0
	ldr	r0, [sp, #160]                  @ 4-byte Reload
	eor	r1, r1, r0
	and	r0, r12, r1, lsl #2
	eor	r1, r0, r1
	and	r0, r11, r1, lsl #4
	eor	r0, r0, r1
	str	r0, [sp, #128]                  @ 4-byte Spill
	str	r0, [r3, #112]
	and	r0, r4, r6, lsl #3
	ldr	r4, [sp, #144]                  @ 4-byte Reload
	orr	r0, r0, r0, lsl #1
	eor	r0, r4, r0, lsl #8
	ldr	r4, [sp, #88]                   @ 4-byte Reload
	eor	r0, r0, r7
	ldr	r7, [sp, #124]                  @ 4-byte Reload
	and	r0, lr, r0, ror #14
	orr	r0, r0, r7
	eor	r0, r0, r4
	and	r7, r12, r0, lsl #2
	eor	r7, r7, r0
	and	r0, r11, r7, lsl #4
	eor	r0, r0, r7
	str	r0, [r3, #108]
	ldr	r3, [sp, #80]                   @ 4-byte Reload
	str	r0, [sp, #124]                  @ 4-byte Spill
	and	r0, lr, r9, lsr #2
	eor	r0, r0, r3
	and	r3, r12, r0, lsl #2
	eor	r0, r3, r0
	and	r3, r11, r0, lsl #4
	eor	r0, r3, r0
	str	r0, [sp, #196]                  @ 4-byte Spill
	and	r0, lr, r2, lsr #2
	ldr	r2, [sp, #84]                   @ 4-byte Reload
	mov	r3, lr
	eor	r0, r0, r2
	and	r2, r12, r0, lsl #2
	eor	r0, r2, r0
	and	r2, r11, r0, lsl #4
	eor	r4, r2, r0
	ldr	r2, [sp, #92]                   @ 4-byte Reload
	and	r0, lr, r5, lsr #2
	eor	r0, r0, r2
	and	r2, r12, r0, lsl #2
	eor	r0, r2, r0
	and	r2, r11, r0, lsl #4
	eor	r9, r2, r0
	ldr	r0, [sp, #184]                  @ 4-byte Reload
	ldr	r2, [sp, #76]                   @ 4-byte Reload
	and	r0, lr, r0, lsr #2
	eor	r0, r0, r2
	and	r2, r12, r0, lsl #2
	eor	r0, r2, r0
	and	r2, r11, r0, lsl #4
	eor	lr, r2, r0
	ldr	r0, [sp, #176]                  @ 4-byte Reload
	ldr	r2, [sp, #152]                  @ 4-byte Reload
	and	r0, r3, r0, lsr #2
	eor	r0, r0, r2
	and	r2, r12, r0, lsl #2
	eor	r0, r2, r0
	and	r2, r11, r0, lsl #4
	eor	r10, r2, r0
	ldr	r0, [sp, #180]                  @ 4-byte Reload
	ldr	r2, [sp, #200]                  @ 4-byte Reload
	and	r0, r3, r0, lsr #2
	eor	r0, r0, r2
	and	r2, r12, r0, lsl #2
	eor	r0, r2, r0
	and	r2, r11, r0, lsl #4
	eor	r0, r2, r0
	str	r0, [sp, #200]                  @ 4-byte Spill
	and	r0, r3, r1, lsr #2
	ldr	r1, [sp, #164]                  @ 4-byte Reload
	ldr	r2, [sp, #192]                  @ 4-byte Reload
	eor	r0, r0, r1
	and	r1, r12, r0, lsl #2
	eor	r0, r1, r0
	and	r1, r11, r0, lsl #4
	eor	r6, r1, r0
	ldr	r1, [sp, #96]                   @ 4-byte Reload
	and	r0, r3, r7, lsr #2
	ldr	r3, [sp, #112]                  @ 4-byte Reload
	eor	r0, r0, r1
	and	r1, r12, r0, lsl #2
	eor	r0, r1, r0
	and	r1, r11, r0, lsl #4
	eor	r7, r1, r0
	adds	r0, r2, #1
	adc	r1, r3, #0
	subs	r2, r2, #3
	sbcs	r2, r3, #0
	blo	.Lgcm_BB3_6
	b	.Lgcm_BB3_11
	.p2align	2
@ %bb.7:
.Lgcm_CPI3_5:
	.long	.Lgcm_static.0-(.Lgcm_PC3_1+8)
	.p2align	2
.Lgcm_BB3_8:                                @ %else.5.i
	mov	r7, r1
	bl	gcm.aes_planes.soft.word.word32.U32Word.in_every_slot
	ldr	r0, [sp, #204]
	add	r1, r7, #16
	str	r0, [sp, #192]                  @ 4-byte Spill
	mov	r6, r8
	ldr	r0, [sp, #208]
	str	r0, [sp, #184]                  @ 4-byte Spill
	ldr	r0, [sp, #212]
	str	r0, [sp, #180]                  @ 4-byte Spill
	ldr	r0, [sp, #216]
	str	r0, [sp, #176]                  @ 4-byte Spill
	ldr	r0, [sp, #228]
	str	r0, [sp, #164]                  @ 4-byte Spill
	ldr	r0, [sp, #232]
	str	r0, [sp, #160]                  @ 4-byte Spill
	add	r0, sp, #204
	ldr	r10, [sp, #220]
	ldr	r5, [sp, #224]
	bl	gcm.aes_planes.soft.word.word32.U32Word.in_every_slot
	ldr	r0, [sp, #204]
	ldr	r1, [sp, #220]
	str	r0, [sp, #200]                  @ 4-byte Spill
	str	r0, [r6, #32]
	add	r0, r6, #48
	ldr	r8, [sp, #224]
	ldr	r9, [sp, #228]
	stm	r0, {r1, r8, r9}
	ldr	r0, [sp, #192]                  @ 4-byte Reload
	str	r0, [r6]
	ldr	r0, [sp, #184]                  @ 4-byte Reload
	str	r0, [r6, #4]
	ldr	r0, [sp, #180]                  @ 4-byte Reload
	str	r0, [r6, #8]
	ldr	r0, [sp, #176]                  @ 4-byte Reload
	ldr	r12, [sp, #208]
	ldr	r11, [sp, #216]
	str	r0, [r6, #12]
	ldr	r0, [sp, #164]                  @ 4-byte Reload
	str	r0, [r6, #24]
	ldr	r0, [sp, #160]                  @ 4-byte Reload
	ldr	r4, [sp, #212]
	ldr	r7, [sp, #232]
	str	r1, [sp, #196]                  @ 4-byte Spill
	mov	r1, #0
	str	r0, [r6, #28]
	mov	r0, #0
	str	r12, [r6, #36]
	str	r4, [sp, #168]                  @ 4-byte Spill
	str	r4, [r6, #40]
	str	r11, [r6, #44]
	str	r7, [sp, #172]                  @ 4-byte Spill
	str	r7, [r6, #60]
	str	r10, [r6, #16]
	str	r5, [r6, #20]
.Lgcm_BB3_9:                                @ %join.5.i348.i
                                        @ =>This Inner Loop Header: Depth=1
	str	r0, [sp, #192]                  @ 4-byte Spill
	eor	r3, r9, r8
	ldr	r5, [sp, #172]                  @ 4-byte Reload
	ldr	r0, [sp, #196]                  @ 4-byte Reload
	ldr	r10, [sp, #168]                 @ 4-byte Reload
	eor	lr, r5, r12
	str	r1, [sp, #164]                  @ 4-byte Spill
	eor	r6, r5, r0
	eor	r2, r0, r10
	str	r2, [sp, #160]                  @ 4-byte Spill
	eor	r1, lr, r2
	str	r1, [sp, #184]                  @ 4-byte Spill
	eor	r1, r1, r11
	str	r6, [sp, #148]                  @ 4-byte Spill
	eor	r4, r1, r10
	eor	r1, r1, r9
	eor	r9, r1, r6
	str	r4, [sp, #180]                  @ 4-byte Spill
	eor	r4, r4, r3
	str	r1, [sp, #132]                  @ 4-byte Spill
	eor	r0, r9, r4
	str	r4, [sp, #176]                  @ 4-byte Spill
	and	r1, r0, r2
	ldr	r2, [sp, #200]                  @ 4-byte Reload
	and	r6, r9, r6
	str	r0, [sp, #144]                  @ 4-byte Spill
	eor	r4, r3, r2
	eor	r8, r9, r3
	eor	r11, r4, r12
	eor	r7, r1, r6
	and	r0, r11, r4
	mov	r1, lr
	str	lr, [sp, #140]                  @ 4-byte Spill
	eor	r0, r8, r0
	and	lr, r8, lr
	ldr	r12, [sp, #176]                 @ 4-byte Reload
	eor	r0, r0, lr
	eor	r3, r5, r10
	eor	r0, r0, r1
	str	r7, [sp, #128]                  @ 4-byte Spill
	eor	r7, r0, r7
	and	r0, r12, r3
	eor	r10, r0, r6
	eor	r1, r4, r5
	mov	r0, r2
	str	r2, [sp, #200]                  @ 4-byte Spill
	eor	r2, r9, r2
	str	r1, [sp, #136]                  @ 4-byte Spill
	and	r6, r2, r1
	str	r2, [sp, #156]                  @ 4-byte Spill
	eor	r6, r8, r6
	ldr	r2, [sp, #180]                  @ 4-byte Reload
	eor	r6, r6, lr
	str	r11, [sp, #152]                 @ 4-byte Spill
	eor	r6, r6, r5
	eor	r5, r2, r0
	eor	lr, r6, r10
	eor	r6, r11, r3
	eor	r1, lr, r7
	str	r1, [sp, #120]                  @ 4-byte Spill
	ldr	r1, [sp, #184]                  @ 4-byte Reload
	and	r11, r5, r6
	str	r5, [sp, #172]                  @ 4-byte Spill
	and	r1, r2, r1
	ldr	r2, [sp, #132]                  @ 4-byte Reload
	str	r6, [sp, #124]                  @ 4-byte Spill
	eor	r5, r2, r11
	ldr	r2, [sp, #128]                  @ 4-byte Reload
	eor	r5, r5, r1
	str	r3, [sp, #168]                  @ 4-byte Spill
	eor	r11, r5, r2
	ldr	r2, [sp, #196]                  @ 4-byte Reload
	and	r5, r7, r11
	eor	r2, r4, r2
	str	r2, [sp, #196]                  @ 4-byte Spill
	and	r2, r2, r0
	eor	r2, r2, r3
	eor	r2, r2, r12
	eor	r0, r2, r1
	ldr	r2, [sp, #120]                  @ 4-byte Reload
	eor	r0, r0, r10
	eor	r1, r5, r0
	eor	r12, r11, r0
	and	r2, r1, r2
	eor	r10, r2, lr
	eor	r2, r2, r5
	eor	r5, r5, lr
	and	r6, r2, lr
	and	r2, r5, r12
	eor	r1, r6, r7
	eor	lr, r2, r0
	eor	r2, r6, r5
	and	r2, r2, lr
	eor	r3, r1, r10
	eor	r12, r2, r12
	eor	r2, lr, r10
	eor	r11, r12, r3
	ldr	r0, [sp, #144]                  @ 4-byte Reload
	eor	r5, r11, r2
	and	r4, r12, r4
	and	r6, r5, r0
	eor	r0, r12, lr
	str	r0, [sp, #104]                  @ 4-byte Spill
	and	r0, r0, r8
	str	r0, [sp, #112]                  @ 4-byte Spill
	eor	r0, r0, r4
	and	r4, r2, r9
	eor	r8, r0, r6
	str	r0, [sp, #144]                  @ 4-byte Spill
	eor	r6, r8, r4
	str	r1, [sp, #100]                  @ 4-byte Spill
	mov	r0, #64
	str	r3, [sp, #128]                  @ 4-byte Spill
	mov	r9, #64
	str	r11, [sp, #120]                 @ 4-byte Spill
	str	r6, [sp, #132]                  @ 4-byte Spill
	ldr	r4, .Lgcm_CPI3_2
	ldr	r1, [sp, #192]                  @ 4-byte Reload
.Lgcm_PC3_2:
	add	r4, pc, r4
	ldrb	r7, [r4, r1]
	and	r4, r0, r7, lsr #1
	ldr	r0, [sp, #160]                  @ 4-byte Reload
	and	r5, r5, r0
	ldr	r0, [sp, #148]                  @ 4-byte Reload
	orr	r4, r4, r4, lsl #1
	and	r0, r2, r0
	ldr	r2, [sp, #124]                  @ 4-byte Reload
	str	r0, [sp, #148]                  @ 4-byte Spill
	eor	r0, r5, r0
	and	r2, r3, r2
	str	r0, [sp, #108]                  @ 4-byte Spill
	eor	r5, r0, r2
	ldr	r0, [sp, #184]                  @ 4-byte Reload
	ldr	r3, [sp, #100]                  @ 4-byte Reload
	eor	r4, r6, r4, lsl #8
	ldr	r6, [sp, #188]                  @ 4-byte Reload
	and	r2, r3, r0
	eor	r0, r5, r2
	str	r0, [sp, #124]                  @ 4-byte Spill
	eor	r2, r4, r0
	movw	r0, #771
	movt	r0, #771
	and	r2, r0, r2, ror #14
	ldr	r0, [r6, r1, lsl #6]!
	str	r0, [sp, #116]                  @ 4-byte Spill
	movw	r0, #64764
	ldr	r4, [r6, #28]
	movt	r0, #64764
	ldr	r1, [sp, #180]                  @ 4-byte Reload
	eor	r2, r2, r4
	and	r1, r3, r1
	ldr	r3, [sp, #104]                  @ 4-byte Reload
	and	r4, r0, r2, lsl #2
	movw	r0, #61680
	eor	r2, r4, r2
	movt	r0, #61680
	and	r4, r0, r2, lsl #4
	eor	r0, r4, r2
	str	r0, [sp, #160]                  @ 4-byte Spill
	str	r0, [r6, #92]
	and	r4, r9, r7, lsl #4
	ldr	r0, [sp, #176]                  @ 4-byte Reload
	str	r1, [sp, #176]                  @ 4-byte Spill
	orr	r4, r4, r4, lsl #1
	and	r2, r11, r0
	ldr	r0, [sp, #200]                  @ 4-byte Reload
	ldr	r9, [r6, #4]
	and	r0, r10, r0
	eor	r1, r1, r0
	eor	r0, r2, r1
	ldr	r2, [sp, #140]                  @ 4-byte Reload
	and	r11, r3, r2
	eor	r0, r0, r11
	eor	r2, r0, r8
	ldr	r0, [sp, #136]                  @ 4-byte Reload
	movw	r8, #61680
	and	r0, lr, r0
	movt	r8, #61680
	eor	r3, r2, r0
	ldr	r0, [sp, #196]                  @ 4-byte Reload
	str	r3, [sp, #140]                  @ 4-byte Spill
	and	r0, r10, r0
	eor	r0, r0, r4, lsl #8
	movw	r4, #771
	eor	r0, r0, r5
	ldr	r5, [r6, #8]
	eor	r0, r0, r3
	movt	r4, #771
	ldr	r3, [r6, #12]
	and	r0, r4, r0, ror #14
	str	r3, [sp, #184]                  @ 4-byte Spill
	ldr	r3, [r6, #16]
	eor	r0, r0, r5
	str	r3, [sp, #180]                  @ 4-byte Spill
	movw	r3, #64764
	movt	r3, #64764
	and	r5, r3, r0, lsl #2
	eor	r0, r5, r0
	and	r5, r8, r0, lsl #4
	eor	r0, r5, r0
	str	r0, [sp, #196]                  @ 4-byte Spill
	str	r0, [r6, #72]
	ldr	r0, [sp, #156]                  @ 4-byte Reload
	ldr	r5, [sp, #132]                  @ 4-byte Reload
	and	r0, lr, r0
	mov	lr, #64
	eor	r0, r1, r0
	ldr	r1, [sp, #112]                  @ 4-byte Reload
	eor	r10, r0, r1
	ldr	r0, [sp, #152]                  @ 4-byte Reload
	ldr	r1, [sp, #108]                  @ 4-byte Reload
	and	r0, r12, r0
	mov	r12, #64
	eor	r0, r10, r0
	eor	r0, r0, r1
	and	r1, r12, r7, lsl #5
	orr	r1, r1, r1, lsl #1
	eor	r1, r0, r1, lsl #8
	eor	r1, r1, r2
	mov	r2, r3
	bic	r1, r4, r1, ror #14
	eor	r1, r1, r9
	mov	r9, r8
	and	r3, r3, r1, lsl #2
	eor	r1, r3, r1
	and	r3, r8, r1, lsl #4
	eor	r3, r3, r1
	and	r1, r12, r7, lsl #6
	mov	r12, r2
	str	r3, [r6, #68]
	orr	r1, r1, r1, lsl #1
	eor	r0, r0, r1, lsl #8
	ldr	r1, [sp, #116]                  @ 4-byte Reload
	eor	r0, r0, r11
	bic	r0, r4, r0, ror #14
	eor	r0, r0, r1
	and	r1, r2, r0, lsl #2
	ldr	r2, [sp, #128]                  @ 4-byte Reload
	eor	r0, r1, r0
	and	r1, r8, r0, lsl #4
	eor	r0, r1, r0
	ldr	r1, [sp, #172]                  @ 4-byte Reload
	str	r0, [sp, #200]                  @ 4-byte Spill
	and	r1, r2, r1
	ldr	r2, [sp, #176]                  @ 4-byte Reload
	str	r0, [r6, #64]
	and	r0, r7, #64
	eor	r1, r1, r2
	ldr	r2, [sp, #144]                  @ 4-byte Reload
	orr	r0, r0, r0, lsl #1
	eor	r1, r1, r2
	ldr	r2, [sp, #124]                  @ 4-byte Reload
	eor	r0, r5, r0, lsl #8
	eor	r11, r1, r2
	ldr	r1, [r6, #24]
	eor	r0, r0, r11
	ldr	r2, [sp, #120]                  @ 4-byte Reload
	bic	r0, r4, r0, ror #14
	eor	r0, r0, r1
	and	r1, r12, r0, lsl #2
	eor	r0, r1, r0
	and	r1, r8, r0, lsl #4
	eor	r0, r1, r0
	ldr	r1, [sp, #168]                  @ 4-byte Reload
	str	r0, [r6, #88]
	and	r1, r2, r1
	and	r2, lr, r7, lsl #1
	orr	r2, r2, r2, lsl #1
	eor	r1, r1, r2, lsl #8
	ldr	r2, [sp, #148]                  @ 4-byte Reload
	eor	r1, r1, r5
	mov	r5, #64
	eor	r1, r1, r2
	ldr	r2, [sp, #140]                  @ 4-byte Reload
	eor	r1, r1, r2
	ldr	r2, [r6, #20]
	bic	r1, r4, r1, ror #14
	eor	r1, r1, r2
	and	r2, r12, r1, lsl #2
	eor	r1, r2, r1
	and	r2, r8, r1, lsl #4
	eor	r1, r2, r1
	and	r2, lr, r7, lsl #2
	mov	lr, r4
	and	r7, r5, r7, lsl #3
	orr	r2, r2, r2, lsl #1
	str	r1, [r6, #84]
	orr	r7, r7, r7, lsl #1
	eor	r2, r11, r2, lsl #8
	eor	r7, r10, r7, lsl #8
	and	r2, r4, r2, ror #14
	ldr	r4, [sp, #180]                  @ 4-byte Reload
	eor	r7, r7, r11
	eor	r2, r2, r4
	and	r7, lr, r7, ror #14
	and	r4, r12, r2, lsl #2
	eor	r2, r4, r2
	and	r4, r8, r2, lsl #4
	eor	r8, r4, r2
	ldr	r2, [sp, #184]                  @ 4-byte Reload
	eor	r4, r0, r1
	ldr	r1, [sp, #200]                  @ 4-byte Reload
	eor	r7, r7, r2
	str	r8, [r6, #80]
	eor	r11, r4, r1
	str	r8, [sp, #140]                  @ 4-byte Spill
	and	r5, r12, r7, lsl #2
	eor	r1, r11, r3
	eor	r7, r5, r7
	str	r1, [sp, #184]                  @ 4-byte Spill
	str	r11, [sp, #120]                 @ 4-byte Spill
	and	r5, r9, r7, lsl #4
	and	r9, r1, r11
	ldr	r1, [sp, #160]                  @ 4-byte Reload
	eor	r12, r5, r7
	str	r12, [r6, #76]
	eor	r2, r3, r1
	ldr	r3, [sp, #196]                  @ 4-byte Reload
	str	r2, [sp, #168]                  @ 4-byte Spill
	eor	lr, r8, r3
	str	lr, [sp, #172]                  @ 4-byte Spill
	eor	r5, r2, lr
	str	r5, [sp, #180]                  @ 4-byte Spill
	eor	r7, r5, r12
	eor	r5, r7, r0
	eor	r0, r8, r1
	eor	r12, r5, r0
	str	r5, [sp, #124]                  @ 4-byte Spill
	eor	r8, r12, r4
	str	r0, [sp, #148]                  @ 4-byte Spill
	eor	r10, r8, r9
	and	r9, r8, r2
	eor	r5, r10, r9
	str	r8, [sp, #132]                  @ 4-byte Spill
	eor	r10, r5, r2
	eor	r2, r7, r3
	str	r2, [sp, #176]                  @ 4-byte Spill
	eor	r2, r2, r4
	eor	r4, r12, r2
	mov	r3, r12
	and	r7, r4, lr
	ldr	lr, [sp, #200]                  @ 4-byte Reload
	str	r4, [sp, #136]                  @ 4-byte Spill
	and	r4, r3, r0
	mov	r12, r2
	mov	r0, r3
	str	r3, [sp, #144]                  @ 4-byte Spill
	eor	r3, r11, r1
	eor	r2, r0, lr
	str	r3, [sp, #152]                  @ 4-byte Spill
	and	r3, r2, r3
	str	r2, [sp, #156]                  @ 4-byte Spill
	eor	r3, r8, r3
	ldr	r2, [sp, #196]                  @ 4-byte Reload
	eor	r0, r3, r9
	eor	r5, r7, r4
	eor	r0, r0, r1
	eor	r1, r1, r2
	and	r3, r12, r1
	eor	r10, r10, r5
	eor	r8, r3, r4
	ldr	r3, [sp, #176]                  @ 4-byte Reload
	eor	r0, r0, r8
	ldr	r9, [sp, #120]                  @ 4-byte Reload
	eor	r2, r0, r10
	str	r2, [sp, #112]                  @ 4-byte Spill
	ldr	r2, [sp, #180]                  @ 4-byte Reload
	str	r12, [sp, #128]                 @ 4-byte Spill
	and	r4, r3, r2
	ldr	r2, [sp, #184]                  @ 4-byte Reload
	eor	r3, r3, lr
	str	r3, [sp, #196]                  @ 4-byte Spill
	eor	r7, r2, r1
	ldr	r2, [sp, #124]                  @ 4-byte Reload
	and	r11, r3, r7
	ldr	r3, [sp, #140]                  @ 4-byte Reload
	eor	r2, r2, r11
	str	r1, [sp, #160]                  @ 4-byte Spill
	eor	r2, r2, r4
	eor	r3, r9, r3
	eor	r11, r2, r5
	and	r5, r3, lr
	eor	r5, r5, r1
	and	r2, r10, r11
	eor	r5, r5, r12
	ldr	r1, [sp, #112]                  @ 4-byte Reload
	eor	r5, r5, r4
	str	r3, [sp, #140]                  @ 4-byte Spill
	eor	r12, r5, r8
	str	r7, [sp, #116]                  @ 4-byte Spill
	eor	r3, r2, r12
	eor	r11, r11, r12
	and	r3, r3, r1
	ldr	r4, [sp, #132]                  @ 4-byte Reload
	eor	r8, r3, r0
	eor	r3, r3, r2
	and	lr, r3, r0
	eor	r0, r2, r0
	and	r2, r0, r11
	eor	r0, lr, r0
	eor	r7, r2, r12
	eor	r5, lr, r10
	and	r0, r0, r7
	eor	r3, r5, r8
	eor	r12, r0, r11
	eor	r0, r7, r8
	eor	r1, r12, r3
	str	r1, [sp, #104]                  @ 4-byte Spill
	eor	r11, r1, r0
	ldr	r1, [sp, #136]                  @ 4-byte Reload
	and	lr, r12, r9
	ldr	r9, [r6, #48]
	and	r2, r11, r1
	eor	r1, r12, r7
	str	r1, [sp, #108]                  @ 4-byte Spill
	and	r1, r1, r4
	eor	lr, r1, lr
	str	r1, [sp, #124]                  @ 4-byte Spill
	ldr	r1, [sp, #144]                  @ 4-byte Reload
	eor	r2, lr, r2
	str	r2, [sp, #100]                  @ 4-byte Spill
	and	r1, r0, r1
	ldr	r4, [sp, #148]                  @ 4-byte Reload
	eor	r2, r2, r1
	ldr	r1, [sp, #172]                  @ 4-byte Reload
	and	r0, r0, r4
	str	r0, [sp, #144]                  @ 4-byte Spill
	and	r1, r11, r1
	str	r2, [sp, #136]                  @ 4-byte Spill
	eor	r1, r1, r0
	ldr	r0, [sp, #116]                  @ 4-byte Reload
	str	r1, [sp, #120]                  @ 4-byte Spill
	and	r0, r3, r0
	ldr	r11, [r6, #60]
	eor	r4, r1, r0
	ldr	r0, [sp, #180]                  @ 4-byte Reload
	str	r4, [sp, #96]                   @ 4-byte Spill
	and	r1, r5, r0
	movw	r0, #771
	eor	r1, r4, r1
	movt	r0, #771
	eor	r2, r1, r2
	movw	r4, #61680
	movt	r4, #61680
	ldr	r10, [sp, #140]                 @ 4-byte Reload
	and	r2, r0, r2, lsr #6
	ldr	r0, [r6, #36]
	str	r0, [sp, #116]                  @ 4-byte Spill
	eor	r2, r2, r11
	ldr	r0, [r6, #40]
	movw	r11, #64764
	str	r0, [sp, #92]                   @ 4-byte Spill
	movt	r11, #64764
	ldr	r0, [r6, #44]
	str	r0, [sp, #148]                  @ 4-byte Spill
	ldr	r0, [r6, #52]
	str	r0, [sp, #132]                  @ 4-byte Spill
	ldr	r0, [r6, #56]
	str	r0, [sp, #180]                  @ 4-byte Spill
	and	r0, r11, r2, lsl #2
	eor	r0, r0, r2
	and	r2, r4, r0, lsl #4
	eor	r0, r2, r0
	ldr	r2, [r6, #32]
	str	r2, [sp, #112]                  @ 4-byte Spill
	ldr	r2, [sp, #176]                  @ 4-byte Reload
	str	r0, [sp, #172]                  @ 4-byte Spill
	str	r0, [r6, #124]
	and	r2, r5, r2
	ldr	r0, [sp, #196]                  @ 4-byte Reload
	ldr	r5, [sp, #96]                   @ 4-byte Reload
	and	r0, r3, r0
	eor	r0, r0, r2
	eor	r0, r0, lr
	movw	lr, #771
	eor	r0, r0, r1
	str	r0, [sp, #176]                  @ 4-byte Spill
	movt	lr, #771
	and	r0, lr, r0, lsr #6
	eor	r0, r0, r9
	mov	r9, r11
	and	r1, r11, r0, lsl #2
	ldr	r11, [sp, #104]                 @ 4-byte Reload
	eor	r0, r1, r0
	and	r1, r4, r0, lsl #4
	and	r4, r8, r10
	eor	r0, r1, r0
	ldr	r1, [sp, #200]                  @ 4-byte Reload
	str	r0, [sp, #196]                  @ 4-byte Spill
	eor	r4, r5, r4
	and	r1, r8, r1
	str	r0, [r6, #112]
	ldr	r0, [sp, #128]                  @ 4-byte Reload
	eor	r3, r2, r1
	ldr	r1, [sp, #168]                  @ 4-byte Reload
	movw	r8, #61680
	ldr	r2, [sp, #108]                  @ 4-byte Reload
	and	r0, r11, r0
	eor	r0, r0, r3
	ldr	r5, [sp, #92]                   @ 4-byte Reload
	and	r1, r2, r1
	ldr	r2, [sp, #100]                  @ 4-byte Reload
	eor	r0, r0, r1
	movt	r8, #61680
	eor	r0, r0, r2
	ldr	r2, [sp, #152]                  @ 4-byte Reload
	and	r2, r7, r2
	eor	r2, r0, r2
	eor	r4, r4, r2
	and	r4, lr, r4, lsr #6
	eor	r4, r4, r5
	and	r5, r9, r4, lsl #2
	eor	r4, r5, r4
	and	r5, r8, r4, lsl #4
	eor	r4, r5, r4
	str	r4, [sp, #168]                  @ 4-byte Spill
	str	r4, [r6, #104]
	ldr	r4, [sp, #156]                  @ 4-byte Reload
	ldr	r5, [sp, #120]                  @ 4-byte Reload
	and	r4, r7, r4
	eor	r3, r3, r4
	ldr	r4, [sp, #124]                  @ 4-byte Reload
	eor	r7, r3, r4
	ldr	r3, [sp, #184]                  @ 4-byte Reload
	and	r3, r12, r3
	eor	r3, r7, r3
	eor	r3, r3, r5
	ldr	r5, [sp, #116]                  @ 4-byte Reload
	eor	r0, r3, r0
	mvn	r0, r0
	and	r0, lr, r0, lsr #6
	eor	r0, r0, r5
	and	r5, r9, r0, lsl #2
	eor	r0, r5, r0
	and	r5, r8, r0, lsl #4
	eor	r12, r5, r0
	eor	r0, r3, r1
	ldr	r1, [sp, #112]                  @ 4-byte Reload
	mov	r5, r8
	mvn	r0, r0
	ldr	r3, [sp, #136]                  @ 4-byte Reload
	and	r0, lr, r0, lsr #6
	str	r12, [r6, #100]
	eor	r0, r0, r1
	and	r1, r9, r0, lsl #2
	eor	r0, r1, r0
	and	r1, r8, r0, lsl #4
	eor	r0, r1, r0
	str	r0, [sp, #200]                  @ 4-byte Spill
	str	r0, [r6, #96]
	ldr	r0, [sp, #160]                  @ 4-byte Reload
	ldr	r1, [sp, #144]                  @ 4-byte Reload
	and	r0, r11, r0
	eor	r0, r1, r0
	ldr	r1, [sp, #132]                  @ 4-byte Reload
	eor	r0, r0, r3
	eor	r0, r0, r2
	ldr	r2, [sp, #176]                  @ 4-byte Reload
	mvn	r0, r0
	and	r0, lr, r0, lsr #6
	eor	r0, r0, r1
	and	r1, r9, r0, lsl #2
	eor	r0, r1, r0
	and	r1, r8, r0, lsl #4
	eor	r8, r1, r0
	eor	r0, r2, r7
	ldr	r1, [sp, #148]                  @ 4-byte Reload
	and	r0, lr, r0, lsr #6
	ldr	r7, [sp, #192]                  @ 4-byte Reload
	eor	r0, r0, r1
	str	r8, [r6, #116]
	and	r1, r9, r0, lsl #2
	eor	r0, r1, r0
	and	r1, r5, r0, lsl #4
	eor	r11, r1, r0
	eor	r0, r3, r2
	ldr	r1, [sp, #180]                  @ 4-byte Reload
	mvn	r0, r0
	str	r11, [r6, #108]
	and	r0, lr, r0, lsr #6
	eor	r0, r0, r1
	and	r1, r9, r0, lsl #2
	eor	r0, r1, r0
	and	r1, r5, r0, lsl #4
	eor	r9, r1, r0
	str	r9, [r6, #120]
	ldr	r6, [sp, #164]                  @ 4-byte Reload
	adds	r0, r7, #1
	adc	r1, r6, #0
	subs	r7, r7, #5
	sbcs	r7, r6, #0
	blo	.Lgcm_BB3_9
@ %bb.10:                               @ %after.1.i.i
	ldr	r4, [sp, #172]                  @ 4-byte Reload
	eor	r1, r9, r8
	ldr	r10, [sp, #196]                 @ 4-byte Reload
	ldr	r7, [sp, #168]                  @ 4-byte Reload
	eor	lr, r4, r12
	eor	r5, r4, r10
	ldr	r8, [sp, #200]                  @ 4-byte Reload
	eor	r2, r10, r7
	str	r2, [sp, #152]                  @ 4-byte Spill
	eor	r0, lr, r2
	str	r0, [sp, #192]                  @ 4-byte Spill
	eor	r0, r0, r11
	str	r5, [sp, #148]                  @ 4-byte Spill
	eor	r3, r0, r7
	eor	r0, r0, r9
	eor	r11, r3, r1
	str	r3, [sp, #184]                  @ 4-byte Spill
	eor	r3, r0, r5
	str	r0, [sp, #136]                  @ 4-byte Spill
	eor	r0, r3, r11
	and	r6, r3, r5
	and	r2, r0, r2
	str	r0, [sp, #156]                  @ 4-byte Spill
	eor	r0, r2, r6
	eor	r2, r1, r8
	eor	r9, r3, r1
	eor	r1, r4, r7
	eor	r12, r2, r12
	and	r7, r11, r1
	and	r5, r12, r2
	str	r11, [sp, #120]                 @ 4-byte Spill
	eor	r11, r7, r6
	str	r3, [sp, #164]                  @ 4-byte Spill
	eor	r3, r3, r8
	eor	r6, r2, r4
	str	r0, [sp, #128]                  @ 4-byte Spill
	eor	r5, r9, r5
	and	r0, r9, lr
	str	r6, [sp, #176]                  @ 4-byte Spill
	and	r6, r3, r6
	eor	r5, r5, r0
	eor	r6, r9, r6
	str	r3, [sp, #140]                  @ 4-byte Spill
	eor	r3, r6, r0
	str	lr, [sp, #144]                  @ 4-byte Spill
	eor	r5, r5, lr
	ldr	lr, [sp, #128]                  @ 4-byte Reload
	eor	r3, r3, r4
	ldr	r4, [sp, #192]                  @ 4-byte Reload
	ldr	r7, [sp, #184]                  @ 4-byte Reload
	eor	r5, r5, lr
	eor	r3, r3, r11
	str	r1, [sp, #168]                  @ 4-byte Spill
	eor	r0, r3, r5
	str	r0, [sp, #172]                  @ 4-byte Spill
	and	r6, r7, r4
	eor	r4, r12, r1
	mov	r0, r1
	eor	r1, r7, r8
	mov	r7, r10
	str	r1, [sp, #180]                  @ 4-byte Spill
	and	r10, r1, r4
	ldr	r1, [sp, #136]                  @ 4-byte Reload
	str	r4, [sp, #160]                  @ 4-byte Spill
	eor	r4, r1, r10
	eor	r1, r2, r7
	and	r7, r1, r8
	str	r12, [sp, #132]                 @ 4-byte Spill
	ldr	r12, [sp, #120]                 @ 4-byte Reload
	eor	r7, r7, r0
	eor	r4, r4, r6
	ldr	r0, [sp, #172]                  @ 4-byte Reload
	eor	r7, r7, r12
	eor	lr, r4, lr
	eor	r6, r7, r6
	and	r4, r5, lr
	eor	r6, r6, r11
	str	r1, [sp, #196]                  @ 4-byte Spill
	eor	r7, r4, r6
	and	r7, r7, r0
	eor	r10, r7, r3
	eor	r7, r7, r4
	and	r7, r7, r3
	eor	r3, r4, r3
	eor	r11, r7, r5
	eor	r5, lr, r6
	and	r0, r3, r5
	eor	r3, r7, r3
	eor	r8, r0, r6
	eor	r1, r11, r10
	and	r3, r3, r8
	ldr	r7, [sp, #156]                  @ 4-byte Reload
	eor	r6, r3, r5
	eor	r3, r8, r10
	eor	r4, r6, r1
	str	r1, [sp, #128]                  @ 4-byte Spill
	eor	r1, r4, r3
	mov	r0, r10
	str	r10, [sp, #172]                 @ 4-byte Spill
	and	r10, r1, r7
	eor	r7, r6, r8
	and	r2, r6, r2
	and	r9, r7, r9
	and	lr, r4, r12
	eor	r2, r9, r2
	str	r2, [sp, #156]                  @ 4-byte Spill
	eor	r5, r2, r10
	ldr	r2, [sp, #200]                  @ 4-byte Reload
	str	r11, [sp, #124]                 @ 4-byte Spill
	and	r10, r0, r2
	ldr	r0, [sp, #184]                  @ 4-byte Reload
	str	r4, [sp, #136]                  @ 4-byte Spill
	and	r0, r11, r0
	str	r0, [sp, #184]                  @ 4-byte Spill
	eor	r10, r0, r10
	ldr	r0, [sp, #144]                  @ 4-byte Reload
	eor	lr, lr, r10
	ldr	r12, [sp, #188]                 @ 4-byte Reload
	and	r2, r7, r0
	ldr	r0, [sp, #152]                  @ 4-byte Reload
	eor	r7, lr, r2
	eor	r11, r7, r5
	and	r7, r1, r0
	ldr	r0, [sp, #148]                  @ 4-byte Reload
	ldr	lr, [r12, #384]
	and	r0, r3, r0
	str	r0, [sp, #144]                  @ 4-byte Spill
	eor	r7, r7, r0
	ldr	r0, [sp, #140]                  @ 4-byte Reload
	and	r4, r8, r0
	ldr	r0, [sp, #132]                  @ 4-byte Reload
	eor	r4, r10, r4
	movw	r10, #771
	eor	r4, r4, r9
	and	r1, r6, r0
	eor	r1, r4, r1
	ldr	r0, [r12, #388]
	eor	r1, r1, r7
	movt	r10, #771
	eor	r6, r1, r11
	movw	r9, #64764
	str	r4, [sp, #148]                  @ 4-byte Spill
	movt	r9, #64764
	bic	r6, r10, r6, ror #14
	ldr	r4, [r12, #392]
	eor	r0, r0, r6
	str	r4, [sp, #152]                  @ 4-byte Spill
	ldr	r4, [r12, #396]
	and	r6, r9, r0, lsl #2
	str	r4, [sp, #200]                  @ 4-byte Spill
	eor	r0, r6, r0
	movw	r4, #61680
	movt	r4, #61680
	and	r6, r4, r0, lsl #4
	eor	r0, r6, r0
	str	r0, [r12, #452]
	eor	r0, r1, r2
	ldr	r2, [sp, #124]                  @ 4-byte Reload
	bic	r0, r10, r0, ror #14
	eor	r0, lr, r0
	and	r1, r9, r0, lsl #2
	eor	r0, r1, r0
	and	r1, r4, r0, lsl #4
	eor	r0, r1, r0
	str	r0, [r12, #448]
	ldr	r0, [sp, #164]                  @ 4-byte Reload
	and	r0, r3, r0
	ldr	r3, [r12, #412]
	eor	r6, r5, r0
	ldr	r5, [sp, #128]                  @ 4-byte Reload
	ldr	r0, [sp, #160]                  @ 4-byte Reload
	and	r0, r5, r0
	eor	r1, r7, r0
	ldr	r0, [sp, #192]                  @ 4-byte Reload
	ldr	r7, [sp, #136]                  @ 4-byte Reload
	and	r0, r2, r0
	eor	r0, r1, r0
	eor	r2, r0, r6
	and	r2, r10, r2, ror #14
	eor	r2, r3, r2
	and	r3, r9, r2, lsl #2
	eor	r2, r3, r2
	and	r3, r4, r2, lsl #4
	eor	r2, r3, r2
	ldr	r3, [sp, #168]                  @ 4-byte Reload
	str	r2, [r12, #476]
	ldr	r2, [sp, #176]                  @ 4-byte Reload
	and	r3, r7, r3
	ldr	r7, [sp, #144]                  @ 4-byte Reload
	and	r2, r8, r2
	eor	r3, r7, r3
	eor	r2, r11, r2
	eor	r3, r3, r6
	ldr	r7, [r12, #404]
	eor	r3, r3, r2
	bic	r3, r10, r3, ror #14
	eor	r3, r7, r3
	and	r7, r9, r3, lsl #2
	eor	r3, r7, r3
	and	r7, r4, r3, lsl #4
	eor	r3, r7, r3
	str	r3, [r12, #468]
	ldr	r3, [sp, #180]                  @ 4-byte Reload
	ldr	r7, [sp, #184]                  @ 4-byte Reload
	and	r3, r5, r3
	eor	r3, r3, r7
	ldr	r7, [sp, #156]                  @ 4-byte Reload
	eor	r3, r3, r7
	ldr	r7, [r12, #400]
	eor	r0, r3, r0
	and	r3, r10, r0, ror #14
	eor	r3, r7, r3
	and	r7, r9, r3, lsl #2
	eor	r3, r7, r3
	and	r7, r4, r3, lsl #4
	eor	r3, r7, r3
	str	r3, [r12, #464]
	ldr	r3, [sp, #196]                  @ 4-byte Reload
	ldr	r7, [sp, #172]                  @ 4-byte Reload
	and	r3, r7, r3
	eor	r1, r1, r3
	eor	r1, r1, r2
	ldr	r2, [sp, #152]                  @ 4-byte Reload
	and	r1, r10, r1, ror #14
	eor	r1, r2, r1
	and	r2, r9, r1, lsl #2
	eor	r1, r2, r1
	and	r2, r4, r1, lsl #4
	eor	r1, r2, r1
	str	r1, [r12, #456]
	ldr	r1, [sp, #148]                  @ 4-byte Reload
	ldr	r2, [sp, #200]                  @ 4-byte Reload
	eor	r1, r0, r1
	eor	r0, r6, r0
	and	r1, r10, r1, ror #14
	eor	r1, r2, r1
	and	r2, r9, r1, lsl #2
	eor	r1, r2, r1
	and	r2, r4, r1, lsl #4
	eor	r1, r2, r1
	str	r1, [r12, #460]
	mvn	r1, #65280
	eor	r0, r0, r1
	ldr	r1, [r12, #408]
	and	r0, r10, r0, ror #14
	eor	r0, r1, r0
	and	r1, r9, r0, lsl #2
	eor	r0, r1, r0
	and	r1, r4, r0, lsl #4
	eor	r0, r1, r0
	str	r0, [r12, #472]
.Lgcm_BB3_11:                               @ %"aes_planes::expansion::expand::<#389ec886eeff95cb>.exit"
	ldr	r0, [sp, #4]                    @ 4-byte Reload
	mov	lr, #0
	ldr	r1, [sp, #8]                    @ 4-byte Reload
	mov	r7, #1
	ldr	r10, [sp, #188]                 @ 4-byte Reload
	lsr	r0, r0, #2
	orr	r0, r0, r1, lsl #30
	add	r2, r10, #60
	adds	r0, r0, #6
	lsr	r1, r1, #2
	str	r0, [sp, #184]                  @ 4-byte Spill
	adc	r0, r1, #0
	str	r0, [sp, #180]                  @ 4-byte Spill
	b	.Lgcm_BB3_14
.Lgcm_BB3_12:                               @ %then.4.i
                                        @   in Loop: Header=BB3_14 Depth=1
	movw	r1, #3840
	eor	r0, r6, r6, lsr #4
	movt	r1, #3840
	and	r0, r0, r1
	ldr	r4, [sp, #192]                  @ 4-byte Reload
	add	r0, r0, r0, lsl #4
	eor	r6, r0, r6
	eor	r0, r9, r9, lsr #4
	and	r0, r0, r1
	add	r0, r0, r0, lsl #4
	eor	r9, r0, r9
	eor	r0, r8, r8, lsr #4
	and	r0, r0, r1
	add	r0, r0, r0, lsl #4
	eor	r8, r0, r8
	eor	r0, r4, r4, lsr #4
	and	r0, r0, r1
	add	r0, r0, r0, lsl #4
	eor	r4, r0, r4
	str	r4, [sp, #192]                  @ 4-byte Spill
	ldr	r4, [sp, #196]                  @ 4-byte Reload
	eor	r0, r4, r4, lsr #4
	and	r0, r0, r1
	add	r0, r0, r0, lsl #4
	eor	r4, r0, r4
	str	r4, [sp, #196]                  @ 4-byte Spill
	ldr	r4, [sp, #200]                  @ 4-byte Reload
	eor	r0, r4, r4, lsr #4
	and	r0, r0, r1
	add	r0, r0, r0, lsl #4
	eor	r4, r0, r4
	eor	r0, r3, r3, lsr #4
	and	r0, r0, r1
	str	r4, [sp, #200]                  @ 4-byte Spill
	add	r0, r0, r0, lsl #4
	eor	r3, r0, r3
	eor	r0, r5, r5, lsr #4
	and	r0, r0, r1
	add	r0, r0, r0, lsl #4
	eor	r5, r0, r5
.Lgcm_BB3_13:                               @ %join.8.i
                                        @   in Loop: Header=BB3_14 Depth=1
	mvn	r4, r3
	mov	r3, r6
	mvn	r6, r5
	mvn	r0, r9
	str	r6, [r2, #-28]
	mvn	r1, r8
	ldr	r6, [sp, #200]                  @ 4-byte Reload
	adds	r7, r7, #1
	str	r6, [r2, #-20]
	adc	lr, lr, #0
	ldr	r6, [sp, #196]                  @ 4-byte Reload
	cmp	r12, #0
	str	r6, [r2, #-16]
	ldr	r6, [sp, #192]                  @ 4-byte Reload
	str	r4, [r2, #-24]
	str	r6, [r2, #-12]
	str	r1, [r2, #-8]
	stmda	r2, {r0, r3}
	add	r2, r2, #32
	beq	.Lgcm_BB3_20
.Lgcm_BB3_14:                               @ %join.5.i
                                        @ =>This Inner Loop Header: Depth=1
	ldr	r0, [sp, #184]                  @ 4-byte Reload
	mov	r6, r10
	ldr	r5, [r6, r7, lsl #5]!
	mov	r12, #0
	subs	r0, r7, r0
	ldr	r0, [sp, #180]                  @ 4-byte Reload
	ldr	r3, [r6, #4]
	sbcs	r0, lr, r0
	ldr	r8, [r6, #20]
	ldr	r0, [r6, #8]
	movwlo	r12, #1
	str	r0, [sp, #200]                  @ 4-byte Spill
	ldr	r0, [r6, #12]
	str	r0, [sp, #196]                  @ 4-byte Spill
	ldr	r0, [r6, #16]
	ldr	r9, [r6, #24]
	ldr	r6, [r6, #28]
	str	r0, [sp, #192]                  @ 4-byte Spill
	bhs	.Lgcm_BB3_13
@ %bb.15:                               @ %ok.10.i
                                        @   in Loop: Header=BB3_14 Depth=1
	mov	r1, r10
	and	r10, r7, #3
	adr	r11, .Lgcm_JTI3_0
	ldr	r0, [r11, r10, lsl #2]
	mov	r10, r1
	add	pc, r11, r0
@ %bb.16:
	.p2align	2
.Lgcm_JTI3_0:
	.long	.Lgcm_BB3_13-.Lgcm_JTI3_0
	.long	.Lgcm_BB3_17-.Lgcm_JTI3_0
	.long	.Lgcm_BB3_12-.Lgcm_JTI3_0
	.long	.Lgcm_BB3_18-.Lgcm_JTI3_0
.Lgcm_BB3_17:                               @ %then.1.i
                                        @   in Loop: Header=BB3_14 Depth=1
	movw	r4, #3072
	eor	r0, r6, r6, lsr #4
	movt	r4, #783
	and	r0, r0, r4
	movw	r11, #13056
	add	r0, r0, r0, lsl #4
	movt	r11, #13056
	eor	r0, r0, r6
	eor	r6, r0, r0, lsr #2
	and	r6, r6, r11
	add	r6, r6, r6, lsl #2
	eor	r6, r6, r0
	eor	r0, r9, r9, lsr #4
	and	r0, r0, r4
	add	r0, r0, r0, lsl #4
	eor	r0, r0, r9
	eor	r1, r0, r0, lsr #2
	and	r1, r1, r11
	add	r1, r1, r1, lsl #2
	eor	r9, r1, r0
	eor	r0, r8, r8, lsr #4
	and	r0, r0, r4
	add	r0, r0, r0, lsl #4
	eor	r0, r0, r8
	eor	r1, r0, r0, lsr #2
	and	r1, r1, r11
	add	r1, r1, r1, lsl #2
	eor	r8, r1, r0
	ldr	r1, [sp, #192]                  @ 4-byte Reload
	eor	r0, r1, r1, lsr #4
	and	r0, r0, r4
	add	r0, r0, r0, lsl #4
	eor	r0, r0, r1
	eor	r1, r0, r0, lsr #2
	and	r1, r1, r11
	add	r1, r1, r1, lsl #2
	eor	r0, r1, r0
	ldr	r1, [sp, #196]                  @ 4-byte Reload
	str	r0, [sp, #192]                  @ 4-byte Spill
	eor	r0, r1, r1, lsr #4
	and	r0, r0, r4
	add	r0, r0, r0, lsl #4
	eor	r0, r0, r1
	eor	r1, r0, r0, lsr #2
	and	r1, r1, r11
	add	r1, r1, r1, lsl #2
	eor	r0, r1, r0
	ldr	r1, [sp, #200]                  @ 4-byte Reload
	str	r0, [sp, #196]                  @ 4-byte Spill
	eor	r0, r1, r1, lsr #4
	and	r0, r0, r4
	add	r0, r0, r0, lsl #4
	eor	r0, r0, r1
	eor	r1, r0, r0, lsr #2
	and	r1, r1, r11
	add	r1, r1, r1, lsl #2
	eor	r0, r1, r0
	str	r0, [sp, #200]                  @ 4-byte Spill
	eor	r0, r3, r3, lsr #4
	and	r0, r0, r4
	add	r0, r0, r0, lsl #4
	eor	r0, r0, r3
	eor	r1, r0, r0, lsr #2
	and	r1, r1, r11
	add	r1, r1, r1, lsl #2
	eor	r3, r1, r0
	eor	r0, r5, r5, lsr #4
	and	r0, r0, r4
	add	r0, r0, r0, lsl #4
	eor	r0, r0, r5
	eor	r1, r0, r0, lsr #2
	and	r1, r1, r11
	b	.Lgcm_BB3_19
.Lgcm_BB3_18:                               @ %then.7.i
                                        @   in Loop: Header=BB3_14 Depth=1
	movw	r4, #768
	eor	r0, r6, r6, lsr #4
	movt	r4, #3087
	and	r0, r0, r4
	add	r0, r0, r0, lsl #4
	eor	r0, r0, r6
	movw	r6, #13056
	movt	r6, #13056
	eor	r1, r0, r0, lsr #2
	and	r1, r1, r6
	add	r1, r1, r1, lsl #2
	eor	r11, r1, r0
	eor	r0, r9, r9, lsr #4
	and	r0, r0, r4
	add	r0, r0, r0, lsl #4
	eor	r0, r0, r9
	eor	r1, r0, r0, lsr #2
	and	r1, r1, r6
	add	r1, r1, r1, lsl #2
	eor	r9, r1, r0
	eor	r0, r8, r8, lsr #4
	and	r0, r0, r4
	add	r0, r0, r0, lsl #4
	eor	r0, r0, r8
	eor	r1, r0, r0, lsr #2
	and	r1, r1, r6
	add	r1, r1, r1, lsl #2
	eor	r8, r1, r0
	ldr	r1, [sp, #192]                  @ 4-byte Reload
	eor	r0, r1, r1, lsr #4
	and	r0, r0, r4
	add	r0, r0, r0, lsl #4
	eor	r0, r0, r1
	eor	r1, r0, r0, lsr #2
	and	r1, r1, r6
	add	r1, r1, r1, lsl #2
	eor	r0, r1, r0
	ldr	r1, [sp, #196]                  @ 4-byte Reload
	str	r0, [sp, #192]                  @ 4-byte Spill
	eor	r0, r1, r1, lsr #4
	and	r0, r0, r4
	add	r0, r0, r0, lsl #4
	eor	r0, r0, r1
	eor	r1, r0, r0, lsr #2
	and	r1, r1, r6
	add	r1, r1, r1, lsl #2
	eor	r0, r1, r0
	ldr	r1, [sp, #200]                  @ 4-byte Reload
	str	r0, [sp, #196]                  @ 4-byte Spill
	eor	r0, r1, r1, lsr #4
	and	r0, r0, r4
	add	r0, r0, r0, lsl #4
	eor	r0, r0, r1
	eor	r1, r0, r0, lsr #2
	and	r1, r1, r6
	add	r1, r1, r1, lsl #2
	eor	r0, r1, r0
	str	r0, [sp, #200]                  @ 4-byte Spill
	eor	r0, r3, r3, lsr #4
	and	r0, r0, r4
	add	r0, r0, r0, lsl #4
	eor	r0, r0, r3
	eor	r1, r0, r0, lsr #2
	and	r1, r1, r6
	add	r1, r1, r1, lsl #2
	eor	r3, r1, r0
	eor	r0, r5, r5, lsr #4
	and	r0, r0, r4
	add	r0, r0, r0, lsl #4
	eor	r0, r0, r5
	eor	r1, r0, r0, lsr #2
	and	r1, r1, r6
	mov	r6, r11
.Lgcm_BB3_19:                               @ %join.8.i
                                        @   in Loop: Header=BB3_14 Depth=1
	add	r1, r1, r1, lsl #2
	eor	r5, r1, r0
	b	.Lgcm_BB3_13
.Lgcm_BB3_20:                               @ %"aes_soft::soft::key_layout::store::<#dfb00681c6d298fe>.exit"
	add	sp, sp, #236
	pop	{r4, r5, r6, r7, r8, r9, r10, r11, pc}
	.p2align	2
@ %bb.21:
.Lgcm_CPI3_2:
	.long	.Lgcm_static.0-(.Lgcm_PC3_2+8)
.Lgcm_func_end3:
	.size	gcm.aes_narrow.word_room.expand_words, .Lgcm_func_end3-gcm.aes_narrow.word_room.expand_words
	.cantunwind
	.fnend
                                        @ -- End function
	.section	.text.gcm.aes_planes.soft.word.word32.U32Word.in_every_slot,"ax",%progbits
	.p2align	2                               @ -- Begin function aes_planes::soft::word::word32::U32Word::in_every_slot
	.type	gcm.aes_planes.soft.word.word32.U32Word.in_every_slot,%function
	.code	32
gcm.aes_planes.soft.word.word32.U32Word.in_every_slot: @ @gcm.aes_planes.soft.word.word32.U32Word.in_every_slot
	.fnstart
@ %bb.0:                                @ %start
	.save	{r4, r5, r6, r7, r8, r9, r10, r11, lr}
	push	{r4, r5, r6, r7, r8, r9, r10, r11, lr}
	.pad	#16
	sub	sp, sp, #16
	ldr	r4, [r1]
	movw	r10, #21845
	ldr	r5, [r1, #4]
	movt	r10, #21845
	mov	r3, r0
	ldr	r12, [r1, #8]
	eor	r2, r4, r4, lsr #1
	ldr	r8, [r1, #12]
	and	r11, r2, r10
	eor	r2, r5, r5, lsr #1
	eor	r0, r11, r4
	and	r2, r2, r10
	eor	r7, r2, r5
	str	r0, [sp, #12]                   @ 4-byte Spill
	eor	r6, r7, r0, lsr #2
	movw	r0, #13107
	movt	r0, #13107
	eor	r2, r5, r2, lsl #1
	and	r0, r6, r0
	eor	r6, r12, r12, lsr #1
	eor	r1, r0, r7
	and	r7, r6, r10
	eor	r6, r8, r8, lsr #1
	str	r0, [sp, #4]                    @ 4-byte Spill
	eor	r0, r7, r12
	and	r6, r6, r10
	eor	r10, r6, r8
	str	r0, [sp]                        @ 4-byte Spill
	eor	lr, r10, r0, lsr #2
	movw	r0, #13107
	movt	r0, #13107
	and	r9, lr, r0
	eor	r0, r9, r10
	str	r1, [sp, #8]                    @ 4-byte Spill
	eor	r10, r0, r1, lsr #4
	movw	r1, #3855
	eor	lr, r4, r11, lsl #1
	movt	r1, #3855
	and	r10, r10, r1
	eor	r7, r12, r7, lsl #1
	eor	r0, r10, r0
	eor	r1, r8, r6, lsl #1
	str	r0, [r3, #28]
	movw	r0, #13107
	eor	r4, r2, lr, lsr #2
	movt	r0, #13107
	eor	r6, r1, r7, lsr #2
	and	r4, r4, r0
	and	r6, r6, r0
	eor	r11, r4, r2
	eor	r1, r6, r1
	movw	r12, #3855
	eor	r5, r1, r11, lsr #4
	movt	r12, #3855
	and	r5, r5, r12
	ldr	r0, [sp, #12]                   @ 4-byte Reload
	eor	r1, r5, r1
	str	r1, [r3, #24]
	ldr	r1, [sp, #4]                    @ 4-byte Reload
	eor	r7, r7, r6, lsl #2
	eor	r1, r0, r1, lsl #2
	ldr	r0, [sp]                        @ 4-byte Reload
	eor	r2, r0, r9, lsl #2
	eor	r0, r2, r1, lsr #4
	and	r0, r0, r12
	eor	r2, r0, r2
	str	r2, [r3, #20]
	eor	r2, lr, r4, lsl #2
	eor	r0, r1, r0, lsl #4
	str	r0, [r3, #4]
	eor	r6, r7, r2, lsr #4
	and	r6, r6, r12
	eor	r7, r6, r7
	str	r7, [r3, #16]
	ldr	r7, [sp, #8]                    @ 4-byte Reload
	eor	r0, r2, r6, lsl #4
	str	r0, [r3]
	eor	r7, r7, r10, lsl #4
	str	r7, [r3, #12]
	eor	r7, r11, r5, lsl #4
	str	r7, [r3, #8]
	add	sp, sp, #16
	pop	{r4, r5, r6, r7, r8, r9, r10, r11, pc}
.Lgcm_func_end4:
	.size	gcm.aes_planes.soft.word.word32.U32Word.in_every_slot, .Lgcm_func_end4-gcm.aes_planes.soft.word.word32.U32Word.in_every_slot
	.cantunwind
	.fnend
                                        @ -- End function
	.section	.text.gcm.aes_cipher.zeroize.stack.wipe_stack.768,"ax",%progbits
	.p2align	2                               @ -- Begin function aes_cipher::zeroize::stack::wipe_stack::<=768>
	.type	gcm.aes_cipher.zeroize.stack.wipe_stack.768,%function
	.code	32
gcm.aes_cipher.zeroize.stack.wipe_stack.768: @ @gcm.aes_cipher.zeroize.stack.wipe_stack.768
	.fnstart
@ %bb.0:                                @ %start
	.save	{r4, r5, r6, r7, r8, lr}
	push	{r4, r5, r6, r7, r8, lr}
	.pad	#776
	sub	sp, sp, #776
	add	r4, sp, #8
	mov	r1, #0
	mov	r2, #768
	mov	r7, #0
	mov	r0, r4
	bl	memset
	str	r7, [sp, #4]
	str	r7, [sp]
	@APP
	@NO_APP
	ldrd	r0, r1, [sp]
	@APP
	@NO_APP
	subs	r2, r0, #768
	sbcs	r2, r1, #0
	bhs	.Lgcm_BB5_2
@ %bb.1:                                @ %then.1
	ldrb	r6, [r4, r0]
	@APP
	@NO_APP
	ldrd	r0, r1, [sp]
	strd	r6, r7, [sp]
	@APP
	@NO_APP
	add	sp, sp, #776
	pop	{r4, r5, r6, r7, r8, pc}
.Lgcm_BB5_2:                                @ %common.ret
	add	sp, sp, #776
	pop	{r4, r5, r6, r7, r8, pc}
.Lgcm_func_end5:
	.size	gcm.aes_cipher.zeroize.stack.wipe_stack.768, .Lgcm_func_end5-gcm.aes_cipher.zeroize.stack.wipe_stack.768
	.cantunwind
	.fnend
                                        @ -- End function
	.section	.text.gcm.gcm.mode.BorrowedGcm.put_pre_counter,"ax",%progbits
	.p2align	2                               @ -- Begin function gcm::mode::BorrowedGcm::put_pre_counter::<#84a61a6dd6ff62d6>
	.type	gcm.gcm.mode.BorrowedGcm.put_pre_counter,%function
	.code	32
gcm.gcm.mode.BorrowedGcm.put_pre_counter: @ @gcm.gcm.mode.BorrowedGcm.put_pre_counter
	.fnstart
@ %bb.0:                                @ %start
	.save	{r4, r5, r6, r7, r11, lr}
	push	{r4, r5, r6, r7, r11, lr}
	.pad	#64
	sub	sp, sp, #64
	ldr	r4, [sp, #88]
	mov	r6, r2
	eor	r2, r2, #12
	orrs	r2, r2, r3
	bne	.Lgcm_BB6_2
@ %bb.1:                                @ %then.1
	mov	r0, #0
	ldr	r2, [r1, #4]
	strb	r0, [sp, #62]
	strh	r0, [sp, #60]
	ldr	r0, [r1]
	ldr	r1, [r1, #8]
	str	r1, [sp, #56]
	str	r1, [sp, #40]
	ldr	r1, [sp, #59]
	str	r1, [sp, #43]
	ldr	r3, [sp, #43]
	ldr	r1, [sp, #40]
	str	r3, [r4, #11]
	str	r0, [sp, #32]
	str	r0, [r4]
	mov	r0, #1
	str	r2, [sp, #36]
	str	r1, [r4, #8]
	str	r2, [r4, #4]
	strb	r0, [r4, #15]
	add	sp, sp, #64
	pop	{r4, r5, r6, r7, r11, pc}
.Lgcm_BB6_2:                                @ %else.2
	mov	r7, r3
	ldr	r3, [r0, #16]
	mov	r5, #0
	ldm	r3, {r12, lr}
	ldr	r2, [r3, #8]
	ldr	r3, [r3, #12]
	str	r1, [sp, #16]
	mov	r1, lr
	str	r5, [sp]
	str	r5, [sp, #4]
	str	r5, [sp, #8]
	str	r5, [sp, #12]
	mov	r5, r0
	mov	r0, r12
	strd	r6, r7, [sp, #24]
	bl	gcm.gcm.single_blocks.hash_singly.1
	ldr	r7, [r5, #16]
	eor	r1, r1, r6, lsr #29
	ldm	r7, {r5, r12, lr}
	ldr	r7, [r7, #12]
	stm	sp, {r5, r12, lr}
	and	r5, r6, #31
	str	r7, [sp, #12]
	mvn	r7, #248
	and	r7, r7, r6, lsl #3
	orr	r7, r7, r5, lsl #3
	eor	r0, r0, r7
	bl	gcm.gcm.holes.product_with_holes
	lsr	r7, r0, #8
	strb	r1, [r4, #11]
	strb	r7, [r4, #14]
	lsr	r7, r0, #16
	strb	r7, [r4, #13]
	lsr	r7, r0, #24
	strb	r7, [r4, #12]
	lsr	r7, r1, #8
	strb	r7, [r4, #10]
	lsr	r7, r1, #16
	lsr	r1, r1, #24
	strb	r2, [r4, #7]
	strb	r1, [r4, #8]
	lsr	r1, r2, #8
	strb	r1, [r4, #6]
	lsr	r1, r2, #16
	strb	r1, [r4, #5]
	lsr	r1, r2, #24
	strb	r1, [r4, #4]
	lsr	r1, r3, #8
	strb	r1, [r4, #2]
	lsr	r1, r3, #16
	strb	r1, [r4, #1]
	lsr	r1, r3, #24
	strb	r3, [r4, #3]
	strb	r7, [r4, #9]
	strb	r1, [r4]
	strb	r0, [r4, #15]
	add	sp, sp, #64
	pop	{r4, r5, r6, r7, r11, pc}
.Lgcm_func_end6:
	.size	gcm.gcm.mode.BorrowedGcm.put_pre_counter, .Lgcm_func_end6-gcm.gcm.mode.BorrowedGcm.put_pre_counter
	.cantunwind
	.fnend
                                        @ -- End function
	.section	.text.gcm.gcm.single_blocks.hash_singly.1,"ax",%progbits
	.p2align	2                               @ -- Begin function gcm::single_blocks::hash_singly::<#bdc3ab7bdf33215b>
	.type	gcm.gcm.single_blocks.hash_singly.1,%function
	.code	32
gcm.gcm.single_blocks.hash_singly.1: @ @gcm.gcm.single_blocks.hash_singly.1
	.fnstart
@ %bb.0:                                @ %start
	.save	{r4, r5, r6, r7, r8, r9, r10, r11, lr}
	push	{r4, r5, r6, r7, r8, r9, r10, r11, lr}
	.pad	#60
	sub	sp, sp, #60
	mov	r4, r0
	ldr	r0, [sp, #120]
	ldr	r5, [sp, #124]
	mov	lr, r3
	add	r3, sp, #96
	mov	r7, r2
	lsr	r0, r0, #4
	mov	r6, r1
	orr	r12, r0, r5, lsl #28
	add	r8, sp, #28
	orrs	r0, r12, r5, lsr #4
	stm	r8, {r4, r6, r7}                @ 12-byte Folded Spill
	ldm	r3, {r0, r1, r2, r3}
	beq	.Lgcm_BB7_3
@ %bb.1:                                @ %join.5.i.preheader
	lsr	r5, r5, #4
	mov	r8, #0
	mov	r9, #0
	str	r5, [sp, #24]                   @ 4-byte Spill
.Lgcm_BB7_2:                                @ %join.5.i
                                        @ =>This Inner Loop Header: Depth=1
	ldr	r6, [sp, #112]
	ldr	r7, [sp, #28]                   @ 4-byte Reload
	ldr	r11, [sp, #36]                  @ 4-byte Reload
	ldr	r10, [r6, r9, lsl #4]!
	ldr	r4, [r6, #4]
	ldr	r5, [r6, #8]
	ldr	r6, [r6, #12]
	str	r7, [sp]
	rev	r6, r6
	ldr	r7, [sp, #32]                   @ 4-byte Reload
	eor	r0, r6, r0
	rev	r6, r5
	str	r7, [sp, #4]
	eor	r1, r6, r1
	rev	r6, r4
	rev	r7, r10
	eor	r2, r6, r2
	eor	r3, r7, r3
	str	r11, [sp, #8]
	mov	r4, lr
	str	lr, [sp, #12]
	mov	r5, r12
	bl	gcm.gcm.holes.product_with_holes
	adds	r9, r9, #1
	mov	lr, r4
	adc	r8, r8, #0
	ldr	r4, [sp, #24]                   @ 4-byte Reload
	subs	r7, r9, r5
	mov	r12, r5
	sbcs	r7, r8, r4
	blo	.Lgcm_BB7_2
.Lgcm_BB7_3:                                @ %"gcm::single_blocks::hash_whole::<#bdc3ab7bdf33215b>.exit"
	ldr	r4, [sp, #120]
	ldr	r10, [sp, #112]
	ldr	r7, [sp, #28]                   @ 4-byte Reload
	ands	r12, r4, #15
	ldr	r11, [sp, #32]                  @ 4-byte Reload
	ldr	r9, [sp, #36]                   @ 4-byte Reload
	beq	.Lgcm_BB7_5
@ %bb.4:                                @ %join.3
	mov	r8, r1
	bic	r1, r4, #15
	str	r2, [sp, #20]                   @ 4-byte Spill
	add	r1, r10, r1
	add	r2, sp, #40
	mov	r5, r0
	mov	r0, #0
	subs	r2, r2, r1
	str	r0, [sp, #52]
	mov	r6, lr
	str	r0, [sp, #48]
	str	r0, [sp, #44]
	str	r0, [sp, #40]
	sbc	r0, r0, #0
	subs	r2, r2, r12
	str	r3, [sp, #24]                   @ 4-byte Spill
	sbcs	r0, r0, #0
	mov	r2, r12
	add	r0, sp, #40
	bl	memcpy
	ldr	r2, [sp, #44]
	stm	sp, {r7, r11}
	rev	r2, r2
	ldr	r7, [sp, #20]                   @ 4-byte Reload
	ldr	r3, [sp, #40]
	ldr	r1, [sp, #48]
	eor	r2, r2, r7
	ldr	r0, [sp, #52]
	rev	r3, r3
	ldr	r7, [sp, #24]                   @ 4-byte Reload
	rev	r1, r1
	rev	r0, r0
	eor	r1, r1, r8
	eor	r0, r0, r5
	eor	r3, r3, r7
	str	r9, [sp, #8]
	str	r6, [sp, #12]
	bl	gcm.gcm.holes.product_with_holes
.Lgcm_BB7_5:                                @ %common.ret
	add	sp, sp, #60
	pop	{r4, r5, r6, r7, r8, r9, r10, r11, pc}
.Lgcm_func_end7:
	.size	gcm.gcm.single_blocks.hash_singly.1, .Lgcm_func_end7-gcm.gcm.single_blocks.hash_singly.1
	.cantunwind
	.fnend
                                        @ -- End function
	.section	.text.gcm.gcm.holes.product_with_holes,"ax",%progbits
	.p2align	2                               @ -- Begin function gcm::holes::product_with_holes
	.type	gcm.gcm.holes.product_with_holes,%function
	.code	32
gcm.gcm.holes.product_with_holes:       @ @gcm.gcm.holes.product_with_holes
	.fnstart
@ %bb.0:                                @ %start
	.save	{r4, r5, r6, r7, r8, r9, r10, r11, lr}
	push	{r4, r5, r6, r7, r8, r9, r10, r11, lr}
	.pad	#68
	sub	sp, sp, #68
	ldr	r10, [sp, #104]
	mov	r6, r1
	mov	r9, r3
	mov	r7, r2
	mov	r5, r0
	mov	r1, r10
	bl	gcm.gcm.holes.product_of_words
	ldr	r4, [sp, #108]
	str	r0, [sp, #32]                   @ 4-byte Spill
	mov	r0, r6
	str	r1, [sp, #56]                   @ 4-byte Spill
	mov	r1, r4
	bl	gcm.gcm.holes.product_of_words
	str	r0, [sp, #52]                   @ 4-byte Spill
	eor	r0, r6, r5
	str	r1, [sp, #64]                   @ 4-byte Spill
	eor	r1, r4, r10
	bl	gcm.gcm.holes.product_of_words
	ldr	r8, [sp, #112]
	str	r0, [sp, #48]                   @ 4-byte Spill
	mov	r0, r7
	str	r1, [sp, #24]                   @ 4-byte Spill
	mov	r1, r8
	bl	gcm.gcm.holes.product_of_words
	ldr	r11, [sp, #116]
	str	r0, [sp, #60]                   @ 4-byte Spill
	mov	r0, r9
	str	r1, [sp, #36]                   @ 4-byte Spill
	mov	r1, r11
	bl	gcm.gcm.holes.product_of_words
	str	r0, [sp, #20]                   @ 4-byte Spill
	eor	r0, r7, r9
	str	r1, [sp, #40]                   @ 4-byte Spill
	eor	r1, r8, r11
	bl	gcm.gcm.holes.product_of_words
	eor	r5, r7, r5
	eor	r7, r8, r10
	str	r0, [sp, #12]                   @ 4-byte Spill
	str	r1, [sp, #44]                   @ 4-byte Spill
	mov	r0, r5
	mov	r1, r7
	bl	gcm.gcm.holes.product_of_words
	eor	r9, r9, r6
	eor	r11, r11, r4
	mov	r10, r0
	str	r1, [sp, #4]                    @ 4-byte Spill
	mov	r0, r9
	mov	r1, r11
	bl	gcm.gcm.holes.product_of_words
	str	r1, [sp, #28]                   @ 4-byte Spill
	mov	r8, r0
	str	r0, [sp, #8]                    @ 4-byte Spill
	eor	r0, r9, r5
	eor	r1, r11, r7
	bl	gcm.gcm.holes.product_of_words
	str	r1, [sp, #16]                   @ 4-byte Spill
	eor	r0, r10, r0
	ldr	r7, [sp, #56]                   @ 4-byte Reload
	eor	r0, r0, r8
	ldr	r1, [sp, #24]                   @ 4-byte Reload
	ldr	r4, [sp, #64]                   @ 4-byte Reload
	eor	r2, r7, r1
	ldr	r6, [sp, #52]                   @ 4-byte Reload
	ldr	r5, [sp, #32]                   @ 4-byte Reload
	eor	r2, r2, r4
	ldr	r1, [sp, #60]                   @ 4-byte Reload
	eor	r3, r6, r2
	eor	r2, r10, r5
	ldr	lr, [sp, #4]                    @ 4-byte Reload
	eor	r2, r2, r1
	str	r3, [sp, #24]                   @ 4-byte Spill
	eor	r2, r2, r3
	eor	r3, lr, r0
	ldr	r0, [sp, #48]                   @ 4-byte Reload
	mov	r10, r5
	ldr	r12, [sp, #36]                  @ 4-byte Reload
	eor	r0, r5, r0
	eor	r9, r0, r6
	ldr	r0, [sp, #12]                   @ 4-byte Reload
	eor	r11, r7, r9
	eor	r7, r1, r0
	ldr	r0, [sp, #20]                   @ 4-byte Reload
	eor	r3, r3, r11
	eor	r6, r7, r0
	eor	r8, r12, r6
	eor	r1, r3, r8
	str	r1, [sp, #52]                   @ 4-byte Spill
	eor	r3, r1, r4
	ldr	r1, [sp, #40]                   @ 4-byte Reload
	lsl	r3, r3, #1
	orr	r7, r3, r2, lsr #31
	lsl	r3, r5, #26
	eor	r3, r3, r5, lsl #31
	lsl	r5, r1, #1
	eor	r3, r3, r7
	orr	r5, r5, r0, lsr #31
	eor	r5, r5, r3, lsr #2
	lsrs	r4, r3, #1
	eor	r4, r5, r4
	eor	r4, r4, r3, lsr #7
	eor	r3, r4, r3
	str	r3, [sp, #56]                   @ 4-byte Spill
	ubfx	r4, r2, #1, #30
	ldr	r3, [sp, #44]                   @ 4-byte Reload
	orr	r4, r4, r7, lsl #30
	eor	r5, r12, r3
	mov	r3, r1
	eor	r5, r5, r1
	eor	r5, r0, r5
	lsl	r0, r5, #1
	orr	r0, r0, r6, lsr #31
	eor	r0, r0, r4
	lsl	r4, r2, #1
	orr	r4, r4, r9, lsr #31
	ubfx	r2, r2, #6, #25
	orr	r2, r2, r7, lsl #25
	ldr	r1, [sp, #28]                   @ 4-byte Reload
	rrx	r6, r4
	eor	r0, r0, r6
	eor	r0, r0, r2
	ldr	r7, [sp, #8]                    @ 4-byte Reload
	eor	r2, r0, r4
	ldr	r0, [sp, #16]                   @ 4-byte Reload
	lsl	r6, r11, #1
	eor	r0, lr, r0
	orr	r6, r6, r10, lsr #31
	eor	r0, r0, r1
	eor	r0, r7, r0
	ldr	r7, [sp, #24]                   @ 4-byte Reload
	eor	r0, r0, r7
	ldr	r7, [sp, #60]                   @ 4-byte Reload
	eor	r0, r0, r5
	lsrs	r5, r6, #1
	eor	r0, r0, r7
	ldr	r7, [sp, #64]                   @ 4-byte Reload
	eor	r1, r1, r7
	ubfx	r7, r11, #1, #30
	eor	r1, r1, r3
	orr	r7, r7, r4, lsl #30
	eor	r1, r1, r8
	lsl	r1, r1, #1
	orr	r1, r1, r0, lsr #31
	lsl	r0, r0, #1
	eor	r1, r1, r7
	and	r7, r9, #-2147483648
	orr	r7, r5, r7
	eor	r1, r1, r7
	ubfx	r7, r11, #6, #25
	ldr	r3, [sp, #52]                   @ 4-byte Reload
	orr	r7, r7, r4, lsl #25
	eor	r1, r1, r7
	ubfx	r7, r10, #1, #30
	orr	r7, r7, r6, lsl #30
	eor	r1, r1, r6
	orr	r0, r0, r3, lsr #31
	eor	r0, r0, r7
	lsl	r7, r10, #1
	rrx	r7, r7
	eor	r0, r0, r7
	ubfx	r7, r10, #6, #25
	ldr	r3, [sp, #56]                   @ 4-byte Reload
	orr	r7, r7, r6, lsl #25
	eor	r0, r0, r7
	eor	r0, r0, r10, lsl #1
	add	sp, sp, #68
	pop	{r4, r5, r6, r7, r8, r9, r10, r11, pc}
.Lgcm_func_end8:
	.size	gcm.gcm.holes.product_with_holes, .Lgcm_func_end8-gcm.gcm.holes.product_with_holes
	.cantunwind
	.fnend
                                        @ -- End function
	.section	.text.gcm.gcm.holes.product_of_words,"ax",%progbits
	.p2align	2                               @ -- Begin function gcm::holes::product_of_words
	.type	gcm.gcm.holes.product_of_words,%function
	.code	32
gcm.gcm.holes.product_of_words:         @ @gcm.gcm.holes.product_of_words
	.fnstart
@ %bb.0:                                @ %start
	.save	{r4, r5, r6, r7, r8, r9, r10, r11, lr}
	push	{r4, r5, r6, r7, r8, r9, r10, r11, lr}
	mov	r10, r1
	movw	r1, #8738
	movt	r1, #8738
	mov	r12, r0
	and	lr, r0, r1
	movw	r0, #4369
	movt	r0, #4369
	and	r11, r10, r0
	and	r7, r12, r0
	and	r6, r10, r1
	mul	r3, r11, lr
	movw	r8, #17476
	movw	r0, #34952
	mul	r4, r6, r7
	movt	r8, #17476
	movt	r0, #34952
	mul	r9, r11, r7
	eor	r5, r4, r3
	and	r3, r12, r8
	and	r4, r10, r0
	mul	r2, r4, r3
	eor	r5, r5, r2
	and	r2, r12, r0
	and	r0, r10, r8
	mul	r8, r0, r2
	eor	r5, r5, r8
	and	r8, r5, r1
	mul	r5, r4, lr
	movw	r1, #4369
	movt	r1, #4369
	eor	r9, r9, r5
	mul	r5, r0, r3
	eor	r9, r9, r5
	mul	r5, r6, r2
	eor	r5, r9, r5
	mul	r9, r6, lr
	and	r5, r5, r1
	orr	r8, r5, r8
	mul	r5, r0, r7
	mul	r0, r0, lr
	mul	r7, r4, r7
	eor	r9, r5, r9
	mul	r5, r11, r3
	mul	r3, r6, r3
	rbit	r6, r12
	eor	r0, r7, r0
	eor	r9, r9, r5
	mul	r5, r4, r2
	rbit	r4, r10
	mul	r2, r11, r2
	eor	r0, r0, r3
	movw	r11, #34952
	movt	r11, #34952
	and	lr, r4, r1
	eor	r5, r9, r5
	movw	r9, #17476
	movt	r9, #17476
	and	r5, r5, r9
	eor	r0, r0, r2
	movw	r2, #8738
	orr	r5, r8, r5
	and	r0, r0, r11
	movt	r2, #8738
	orr	r0, r5, r0
	and	r8, r6, r2
	and	r5, r6, r1
	and	r10, r4, r2
	and	r7, r4, r11
	mul	r12, lr, r8
	mov	r1, r2
	and	r4, r4, r9
	mul	r3, r10, r5
	eor	r12, r3, r12
	and	r3, r6, r9
	and	r6, r6, r11
	mov	r11, r9
	mul	r2, r7, r3
	mul	r9, r7, r8
	eor	r12, r12, r2
	mul	r2, r4, r6
	eor	r2, r12, r2
	and	r12, r2, r1
	mul	r2, lr, r5
	movw	r1, #4369
	movt	r1, #4369
	eor	r9, r2, r9
	mul	r2, r4, r3
	eor	r9, r9, r2
	mul	r2, r10, r6
	eor	r2, r9, r2
	mul	r9, r10, r8
	and	r2, r2, r1
	orr	r12, r2, r12
	mul	r2, r4, r5
	mul	r4, r4, r8
	mul	r1, r10, r3
	eor	r9, r2, r9
	mul	r2, lr, r3
	mul	r3, lr, r6
	eor	r9, r9, r2
	mul	r2, r7, r6
	mul	r7, r7, r5
	eor	r2, r9, r2
	and	r2, r2, r11
	eor	r7, r7, r4
	orr	r2, r12, r2
	eor	r1, r7, r1
	eor	r1, r1, r3
	movw	r3, #34952
	movt	r3, #34952
	and	r1, r1, r3
	orr	r1, r2, r1
	rbit	r1, r1
	lsr	r1, r1, #1
	pop	{r4, r5, r6, r7, r8, r9, r10, r11, pc}
.Lgcm_func_end9:
	.size	gcm.gcm.holes.product_of_words, .Lgcm_func_end9-gcm.gcm.holes.product_of_words
	.cantunwind
	.fnend
                                        @ -- End function
	.section	.text.gcm.aes_cipher.zeroize.stack.wipe_stack.512,"ax",%progbits
	.p2align	2                               @ -- Begin function aes_cipher::zeroize::stack::wipe_stack::<=512>
	.type	gcm.aes_cipher.zeroize.stack.wipe_stack.512,%function
	.code	32
gcm.aes_cipher.zeroize.stack.wipe_stack.512: @ @gcm.aes_cipher.zeroize.stack.wipe_stack.512
	.fnstart
@ %bb.0:                                @ %start
	.save	{r4, r5, r6, r7, r8, lr}
	push	{r4, r5, r6, r7, r8, lr}
	.pad	#520
	sub	sp, sp, #520
	add	r4, sp, #8
	mov	r1, #0
	mov	r2, #512
	mov	r7, #0
	mov	r0, r4
	bl	memset
	str	r7, [sp, #4]
	str	r7, [sp]
	@APP
	@NO_APP
	ldrd	r0, r1, [sp]
	@APP
	@NO_APP
	subs	r2, r0, #512
	sbcs	r2, r1, #0
	bhs	.Lgcm_BB10_2
@ %bb.1:                                @ %then.1
	ldrb	r6, [r4, r0]
	@APP
	@NO_APP
	ldrd	r0, r1, [sp]
	strd	r6, r7, [sp]
	@APP
	@NO_APP
	add	sp, sp, #520
	pop	{r4, r5, r6, r7, r8, pc}
.Lgcm_BB10_2:                               @ %common.ret
	add	sp, sp, #520
	pop	{r4, r5, r6, r7, r8, pc}
.Lgcm_func_end10:
	.size	gcm.aes_cipher.zeroize.stack.wipe_stack.512, .Lgcm_func_end10-gcm.aes_cipher.zeroize.stack.wipe_stack.512
	.cantunwind
	.fnend
                                        @ -- End function
	.section	.text.gcm.gcm.mode.BorrowedGcm.put_tag_so_far,"ax",%progbits
	.p2align	2                               @ -- Begin function gcm::mode::BorrowedGcm::put_tag_so_far::<#84a61a6dd6ff62d6>
	.type	gcm.gcm.mode.BorrowedGcm.put_tag_so_far,%function
	.code	32
gcm.gcm.mode.BorrowedGcm.put_tag_so_far: @ @gcm.gcm.mode.BorrowedGcm.put_tag_so_far
	.fnstart
@ %bb.0:                                @ %start
	.save	{r4, r5, r6, r7, r8, r9, r10, r11, lr}
	push	{r4, r5, r6, r7, r8, r9, r10, r11, lr}
	.pad	#44
	sub	sp, sp, #44
	mov	r6, r1
	mov	r4, r2
	mov	r9, r0
	ldr	r0, [r1, #32]
	ldr	r1, [r1, #36]
	mov	r8, #1
	ldr	r2, [r6, #40]
	ldr	r3, [r6, #44]
	str	r1, [r4, #4]
	mov	r1, #0
	str	r3, [r4, #12]
	str	r2, [r4, #8]
	str	r0, [r4]
	ldr	r0, [r9]
	ldr	r2, [r9, #8]
	ldr	r3, [r9, #12]
	str	r8, [sp, #8]
	str	r1, [sp, #12]
	str	r4, [sp]
	bl	gcm.aes_narrow.blocks.process_all_batches
	bl	gcm.aes_cipher.zeroize.stack.wipe_stack.1024
	ldr	r0, [r9, #16]
	mov	r1, r6
	bl	gcm.gcm.mode.BorrowedGcm.hash_so_far
	ldmib	r6, {r5, r12, lr}
	ldr	r7, [r6]
	cmp	r5, #536870912
	ldr	r6, [r9, #16]
	mvnhs	r5, #-536870912
	mvnhs	r7, #0
	lsl	r5, r5, #3
	orr	r5, r5, r7, lsr #29
	ldm	r6, {r8, r9, r10}
	eor	r3, r5, r3
	mvn	r5, #31
	ldr	r6, [r6, #12]
	str	r6, [sp, #12]
	and	r6, r7, #31
	stm	sp, {r8, r9, r10}
	mvn	r8, #248
	and	r9, r8, r7, lsl #3
	orr	r6, r9, r6, lsl #3
	eor	r2, r6, r2
	subs	r6, r12, r5
	sbcs	r6, lr, #15
	movlo	r5, r12
	and	r6, r5, #31
	and	r7, r8, r5, lsl #3
	movhs	lr, #15
	orr	r7, r7, r6, lsl #3
	eor	r0, r7, r0
	lsl	r7, lr, #3
	orr	r7, r7, r5, lsr #29
	and	r7, r7, #127
	eor	r1, r7, r1
	bl	gcm.gcm.holes.product_with_holes
	mov	r12, r3
	ldrb	r3, [r4, #1]
	str	r3, [sp, #40]                   @ 4-byte Spill
	ldrb	r3, [r4, #2]
	ldrb	r5, [r4]
	str	r3, [sp, #36]                   @ 4-byte Spill
	ldrb	r3, [r4, #3]
	eor	r5, r5, r12, lsr #24
	str	r3, [sp, #32]                   @ 4-byte Spill
	ldrb	r3, [r4, #4]
	str	r3, [sp, #28]                   @ 4-byte Spill
	ldrb	r3, [r4, #5]
	strb	r5, [r4]
	ldrb	r5, [r4, #15]
	str	r3, [sp, #24]                   @ 4-byte Spill
	ldrb	r3, [r4, #6]
	eor	r7, r5, r0
	str	r3, [sp, #20]                   @ 4-byte Spill
	ldrb	r3, [r4, #14]
	ldrb	r5, [r4, #12]
	ldrb	lr, [r4, #13]
	eor	r3, r3, r0, lsr #8
	ldrb	r6, [r4, #11]
	strb	r3, [r4, #14]
	eor	r3, lr, r0, lsr #16
	eor	r0, r5, r0, lsr #24
	ldrb	r8, [r4, #10]
	strb	r0, [r4, #12]
	eor	r0, r6, r1
	ldrb	r9, [r4, #9]
	strb	r0, [r4, #11]
	eor	r0, r8, r1, lsr #8
	ldrb	r10, [r4, #8]
	strb	r0, [r4, #10]
	eor	r0, r9, r1, lsr #16
	ldrb	r11, [r4, #7]
	strb	r0, [r4, #9]
	eor	r0, r10, r1, lsr #24
	strb	r0, [r4, #8]
	eor	r0, r11, r2
	strb	r0, [r4, #7]
	ldr	r0, [sp, #20]                   @ 4-byte Reload
	strb	r7, [r4, #15]
	eor	r0, r0, r2, lsr #8
	strb	r0, [r4, #6]
	ldr	r0, [sp, #24]                   @ 4-byte Reload
	strb	r3, [r4, #13]
	eor	r0, r0, r2, lsr #16
	strb	r0, [r4, #5]
	ldr	r0, [sp, #28]                   @ 4-byte Reload
	eor	r0, r0, r2, lsr #24
	strb	r0, [r4, #4]
	ldr	r0, [sp, #32]                   @ 4-byte Reload
	eor	r0, r0, r12
	strb	r0, [r4, #3]
	ldr	r0, [sp, #36]                   @ 4-byte Reload
	eor	r0, r0, r12, lsr #8
	strb	r0, [r4, #2]
	ldr	r0, [sp, #40]                   @ 4-byte Reload
	eor	r0, r0, r12, lsr #16
	strb	r0, [r4, #1]
	add	sp, sp, #44
	pop	{r4, r5, r6, r7, r8, r9, r10, r11, pc}
.Lgcm_func_end11:
	.size	gcm.gcm.mode.BorrowedGcm.put_tag_so_far, .Lgcm_func_end11-gcm.gcm.mode.BorrowedGcm.put_tag_so_far
	.cantunwind
	.fnend
                                        @ -- End function
	.section	.text.gcm.aes_narrow.blocks.process_all_batches,"ax",%progbits
	.p2align	2                               @ -- Begin function aes_narrow::blocks::process_all_batches::<#f6c900d3ac1e47b9>
	.type	gcm.aes_narrow.blocks.process_all_batches,%function
	.code	32
gcm.aes_narrow.blocks.process_all_batches: @ @gcm.aes_narrow.blocks.process_all_batches
	.fnstart
@ %bb.0:                                @ %start
	.save	{r4, r5, r6, r7, r8, r9, r10, r11, lr}
	push	{r4, r5, r6, r7, r8, r9, r10, r11, lr}
	.pad	#20
	sub	sp, sp, #20
	ldr	r7, [sp, #68]
	mov	r8, r3
	ldr	r10, [sp, #64]
	mov	r11, r2
	mov	r6, r0
	mov	r5, #0
	mov	r9, #0
.Lgcm_BB12_1:                               @ %join.5
                                        @ =>This Inner Loop Header: Depth=1
	ldr	r0, [sp, #56]
	subs	r4, r10, r5
	mov	r1, #2
	mov	r2, r11
	add	r0, r0, r5, lsl #4
	str	r0, [sp]
	sbc	r0, r7, r9
	cmp	r4, #2
	movhs	r4, r1
	cmp	r0, #0
	movne	r4, r1
	mov	r0, #0
	str	r4, [sp, #8]
	mov	r3, r8
	str	r0, [sp, #12]
	mov	r0, r6
	bl	gcm.aes_soft.soft.blocks.filled_up.process_filled_up
	adds	r5, r4, r5
	adc	r9, r9, #0
	subs	r0, r5, r10
	sbcs	r0, r9, r7
	blo	.Lgcm_BB12_1
@ %bb.2:                                @ %after.1
	add	sp, sp, #20
	pop	{r4, r5, r6, r7, r8, r9, r10, r11, pc}
.Lgcm_func_end12:
	.size	gcm.aes_narrow.blocks.process_all_batches, .Lgcm_func_end12-gcm.aes_narrow.blocks.process_all_batches
	.cantunwind
	.fnend
                                        @ -- End function
	.section	.text.gcm.aes_soft.soft.blocks.filled_up.process_filled_up,"ax",%progbits
	.p2align	2                               @ -- Begin function aes_soft::soft::blocks::filled_up::process_filled_up::<#f6c900d3ac1e47b9>
	.type	gcm.aes_soft.soft.blocks.filled_up.process_filled_up,%function
	.code	32
gcm.aes_soft.soft.blocks.filled_up.process_filled_up: @ @gcm.aes_soft.soft.blocks.filled_up.process_filled_up
	.fnstart
@ %bb.0:                                @ %start
	.save	{r4, r5, r6, r7, r8, r9, r10, r11, lr}
	push	{r4, r5, r6, r7, r8, r9, r10, r11, lr}
	.pad	#140
	sub	sp, sp, #140
	ldr	r11, [sp, #176]
	mov	r12, r0
	mov	r0, #0
	ldr	r8, [sp, #188]
	str	r0, [sp, #100]
	str	r0, [sp, #96]
	str	r0, [sp, #92]
	str	r0, [sp, #88]
	str	r0, [sp, #84]
	str	r0, [sp, #80]
	str	r0, [sp, #76]
	str	r0, [sp, #72]
	str	r0, [sp, #40]
	str	r0, [sp, #44]
	str	r0, [sp, #48]
	str	r0, [sp, #52]
	str	r0, [sp, #56]
	str	r0, [sp, #60]
	str	r0, [sp, #64]
	str	r0, [sp, #68]
	str	r0, [sp, #8]
	str	r0, [sp, #12]
	str	r0, [sp, #16]
	str	r0, [sp, #20]
	str	r0, [sp, #24]
	str	r0, [sp, #28]
	str	r0, [sp, #32]
	str	r0, [sp, #36]
	ldr	r0, [r11]
	str	r0, [sp, #104]
	str	r0, [sp, #120]
	lsr	r0, r2, #3
	orr	r0, r0, r3, lsl #29
	ldr	r9, [sp, #184]
	lsr	r3, r3, #3
	subs	r2, r0, #1
	sbc	r3, r3, #0
	orrs	r0, r9, r8
	clz	r0, r0
	ldr	r7, [r11, #4]
	ldr	r6, [r11, #8]
	ldr	r4, [r11, #12]
	lsr	r10, r0, #5
	str	r4, [sp, #116]
	str	r6, [sp, #112]
	str	r7, [sp, #108]
	str	r7, [sp, #124]
	str	r6, [sp, #128]
	str	r4, [sp, #132]
	beq	.Lgcm_BB13_2
@ %bb.1:                                @ %join.8.i
	ldr	r0, [r11]
	add	lr, sp, #104
	ldr	r6, [r11, #12]
	ldr	r1, [r11, #4]
	ldr	r7, [r11, #8]
	stm	lr, {r0, r1, r7}
	eor	r0, r9, #1
	orrs	r0, r0, r8
	str	r6, [sp, #116]
	bne	.Lgcm_BB13_3
.Lgcm_BB13_2:                               @ %then.6.i
	add	r0, sp, #104
	add	r4, sp, #40
	ldm	r0!, {r1, r5, r6, r7}
	stm	r4!, {r1, r5, r6, r7}
	ldm	r0, {r1, r5, r6, r7}
	stm	r4, {r1, r5, r6, r7}
	b	.Lgcm_BB13_4
.Lgcm_BB13_3:                               @ %join.8.i.1
	ldr	r0, [r11, #16]
	add	lr, sp, #120
	ldr	r6, [r11, #28]
	ldr	r1, [r11, #20]
	ldr	r7, [r11, #24]
	stm	lr, {r0, r1, r7}
	add	r0, sp, #104
	add	r1, sp, #40
	str	r6, [sp, #132]
	ldm	r0!, {r4, r5, r6, r7}
	stm	r1!, {r4, r5, r6, r7}
	ldm	r0, {r4, r5, r6, r7}
	stm	r1, {r4, r5, r6, r7}
.Lgcm_BB13_4:                               @ %"aes_soft::soft::blocks::filled_up::filled_up::<#ee324ebdabaa1892>.exit"
	add	r4, sp, #8
	add	r0, sp, #40
	str	r0, [sp]
	mov	r1, r12
	mov	r0, r4
	bl	gcm.aes_soft.soft.ciphers.planes.process_outlined
	ldm	r4!, {r1, r2, r3, r7}
	add	r0, sp, #72
	cmp	r10, #0
	stm	r0!, {r1, r2, r3, r7}
	ldm	r4, {r1, r2, r3, r7}
	stm	r0, {r1, r2, r3, r7}
	bne	.Lgcm_BB13_7
@ %bb.5:                                @ %join.8.i22
	add	r3, sp, #72
	ldm	r3, {r0, r1, r2, r3}
	str	r0, [r11]
	eor	r0, r9, #1
	orrs	r0, r0, r8
	str	r3, [r11, #12]
	str	r2, [r11, #8]
	str	r1, [r11, #4]
	beq	.Lgcm_BB13_7
@ %bb.6:                                @ %join.8.i22.1
	add	r3, sp, #88
	ldm	r3, {r0, r1, r2, r3}
	str	r3, [r11, #28]
	str	r2, [r11, #24]
	str	r1, [r11, #20]
	str	r0, [r11, #16]
.Lgcm_BB13_7:                               @ %"aes_soft::soft::blocks::filled_up::copy_first::<#ee324ebdabaa1892>.exit"
	add	sp, sp, #140
	pop	{r4, r5, r6, r7, r8, r9, r10, r11, pc}
.Lgcm_func_end13:
	.size	gcm.aes_soft.soft.blocks.filled_up.process_filled_up, .Lgcm_func_end13-gcm.aes_soft.soft.blocks.filled_up.process_filled_up
	.cantunwind
	.fnend
                                        @ -- End function
	.section	.text.gcm.aes_soft.soft.ciphers.planes.process_outlined,"ax",%progbits
	.p2align	2                               @ -- Begin function aes_soft::soft::ciphers::planes::process_outlined::<#dc651273b304e77a>
	.type	gcm.aes_soft.soft.ciphers.planes.process_outlined,%function
	.code	32
gcm.aes_soft.soft.ciphers.planes.process_outlined: @ @gcm.aes_soft.soft.ciphers.planes.process_outlined
	.fnstart
@ %bb.0:                                @ %start
	.save	{r4, r5, r6, r7, r8, r9, r10, r11, lr}
	push	{r4, r5, r6, r7, r8, r9, r10, r11, lr}
	.pad	#124
	sub	sp, sp, #124
	ldr	r7, [sp, #160]
	movw	r11, #21845
	str	r0, [sp, #4]                    @ 4-byte Spill
	mov	r12, r1
	movt	r11, #21845
	str	r3, [sp, #12]                   @ 4-byte Spill
	ldr	r9, [r7]
	movw	r8, #13107
	ldr	r0, [r7, #16]
	movt	r8, #13107
	ldr	r10, [r7, #4]
	eor	r1, r0, r9, lsr #1
	ldr	r5, [r7, #8]
	and	r6, r1, r11
	str	r2, [sp, #16]                   @ 4-byte Spill
	eor	r3, r6, r0
	ldr	r0, [r7, #20]
	str	r3, [sp, #116]                  @ 4-byte Spill
	eor	r4, r0, r10, lsr #1
	ldr	r2, [r7, #12]
	and	r1, r4, r11
	str	r5, [sp, #92]                   @ 4-byte Spill
	eor	r0, r1, r0
	str	r2, [sp, #88]                   @ 4-byte Spill
	eor	r4, r0, r3, lsr #2
	eor	r1, r10, r1, lsl #1
	and	r3, r4, r8
	str	r3, [sp, #108]                  @ 4-byte Spill
	eor	lr, r3, r0
	ldr	r0, [r7, #24]
	ldr	r7, [r7, #28]
	eor	r3, r0, r5, lsr #1
	str	lr, [sp, #120]                  @ 4-byte Spill
	eor	r4, r7, r2, lsr #1
	and	r3, r3, r11
	and	r4, r4, r11
	eor	r0, r3, r0
	eor	r7, r4, r7
	str	r0, [sp, #96]                   @ 4-byte Spill
	eor	r5, r7, r0, lsr #2
	movw	r11, #3855
	and	r5, r5, r8
	movt	r11, #3855
	eor	r0, r5, r7
	str	r12, [sp, #28]                  @ 4-byte Spill
	eor	r7, r0, lr, lsr #4
	ldr	lr, [r12, #28]
	and	r2, r7, r11
	str	r2, [sp, #112]                  @ 4-byte Spill
	eor	r0, r0, lr
	eor	r0, r0, r2
	str	r0, [sp, #104]                  @ 4-byte Spill
	eor	r0, r9, r6, lsl #1
	ldr	r6, [r12, #24]
	eor	r2, r1, r0, lsr #2
	and	r2, r2, r8
	eor	r7, r2, r1
	ldr	r1, [sp, #92]                   @ 4-byte Reload
	str	r7, [sp, #100]                  @ 4-byte Spill
	eor	r0, r0, r2, lsl #2
	eor	r1, r1, r3, lsl #1
	ldr	r3, [sp, #88]                   @ 4-byte Reload
	eor	r3, r3, r4, lsl #1
	eor	r4, r3, r1, lsr #2
	and	r4, r4, r8
	eor	r3, r4, r3
	eor	r7, r3, r7, lsr #4
	eor	r3, r3, r6
	and	lr, r7, r11
	ldr	r6, [sp, #108]                  @ 4-byte Reload
	eor	r9, r3, lr
	ldr	r3, [sp, #116]                  @ 4-byte Reload
	ldr	r7, [r12, #20]
	eor	r1, r1, r4, lsl #2
	eor	r10, r3, r6, lsl #2
	ldr	r3, [sp, #96]                   @ 4-byte Reload
	eor	r2, r1, r0, lsr #4
	eor	r6, r3, r5, lsl #2
	ldr	r3, [sp, #112]                  @ 4-byte Reload
	eor	r5, r6, r10, lsr #4
	eor	r7, r6, r7
	and	r5, r5, r11
	eor	r6, r7, r5
	and	r7, r2, r11
	ldr	r2, [r12, #16]
	ldr	r11, [r12]
	eor	r1, r1, r2
	ldr	r2, [r12, #12]
	str	r6, [sp, #108]                  @ 4-byte Spill
	eor	r4, r1, r7
	eor	r2, r2, r3, lsl #4
	ldr	r3, [sp, #120]                  @ 4-byte Reload
	ldr	r6, [r12, #4]
	ldr	r1, [r12, #8]
	eor	r8, r2, r3
	eor	r3, r11, r7, lsl #4
	eor	r5, r6, r5, lsl #4
	eor	r6, r3, r0
	ldr	r2, [sp, #100]                  @ 4-byte Reload
	ldr	r0, [sp, #16]                   @ 4-byte Reload
	eor	r1, r1, lr, lsl #4
	eor	lr, r1, r2
	eor	r10, r5, r10
	subs	r1, r0, #2
	ldr	r0, [sp, #12]                   @ 4-byte Reload
	str	r1, [sp, #8]                    @ 4-byte Spill
	sbc	r3, r0, #0
	lsr	r0, r1, #2
	str	r3, [sp]                        @ 4-byte Spill
	orr	r7, r0, r3, lsl #30
	orrs	r0, r7, r3, lsr #2
	beq	.Lgcm_BB14_3
@ %bb.1:                                @ %join.7.i.preheader
	lsr	r0, r3, #2
	ldr	r3, [sp, #108]                  @ 4-byte Reload
	str	r0, [sp, #20]                   @ 4-byte Spill
	mov	r1, #0
	mov	r0, #0
	str	r7, [sp, #24]                   @ 4-byte Spill
	str	r0, [sp, #116]                  @ 4-byte Spill
.Lgcm_BB14_2:                               @ %join.7.i
                                        @ =>This Inner Loop Header: Depth=1
	str	r1, [sp, #92]                   @ 4-byte Spill
	eor	r1, lr, r4
	mov	r11, lr
	ldr	lr, [sp, #104]                  @ 4-byte Reload
	eor	r3, r3, r9
	mov	r5, r4
	eor	r2, r10, lr
	str	r4, [sp, #96]                   @ 4-byte Spill
	eor	r0, r2, r1
	str	r0, [sp, #112]                  @ 4-byte Spill
	eor	r0, r0, r8
	eor	r8, r6, r3
	eor	r7, r0, r11
	eor	r0, r0, r9
	eor	r4, r7, r3
	str	r7, [sp, #120]                  @ 4-byte Spill
	eor	r7, r5, lr
	str	r0, [sp, #88]                   @ 4-byte Spill
	eor	r5, r0, r7
	str	r1, [sp, #76]                   @ 4-byte Spill
	eor	r0, r5, r4
	str	r0, [sp, #60]                   @ 4-byte Spill
	and	r1, r0, r1
	eor	r0, r8, r10
	and	r9, r5, r7
	eor	r10, r5, r3
	str	r4, [sp, #108]                  @ 4-byte Spill
	eor	r4, r1, r9
	and	r1, r0, r8
	and	r3, r10, r2
	eor	r1, r10, r1
	str	r2, [sp, #64]                   @ 4-byte Spill
	eor	r1, r1, r3
	str	r4, [sp, #56]                   @ 4-byte Spill
	eor	r1, r1, r2
	eor	r2, r8, lr
	eor	r12, r1, r4
	eor	r1, r5, r6
	str	r5, [sp, #32]                   @ 4-byte Spill
	and	r5, r1, r2
	ldr	r4, [sp, #108]                  @ 4-byte Reload
	eor	r5, r10, r5
	eor	r11, r11, lr
	eor	r3, r5, r3
	str	r7, [sp, #72]                   @ 4-byte Spill
	and	r7, r4, r11
	eor	r7, r7, r9
	eor	r3, r3, lr
	eor	r3, r3, r7
	str	r1, [sp, #84]                   @ 4-byte Spill
	eor	r1, r3, r12
	str	r2, [sp, #52]                   @ 4-byte Spill
	str	r1, [sp, #48]                   @ 4-byte Spill
	ldr	r1, [sp, #112]                  @ 4-byte Reload
	ldr	r2, [sp, #120]                  @ 4-byte Reload
	str	r0, [sp, #80]                   @ 4-byte Spill
	eor	r0, r0, r11
	and	r5, r2, r1
	eor	r1, r2, r6
	str	r0, [sp, #104]                  @ 4-byte Spill
	and	lr, r1, r0
	ldr	r0, [sp, #88]                   @ 4-byte Reload
	str	r1, [sp, #68]                   @ 4-byte Spill
	eor	r2, r0, lr
	ldr	r0, [sp, #56]                   @ 4-byte Reload
	eor	r2, r2, r5
	str	r6, [sp, #100]                  @ 4-byte Spill
	eor	r9, r2, r0
	ldr	r0, [sp, #96]                   @ 4-byte Reload
	and	r2, r12, r9
	eor	r0, r8, r0
	str	r0, [sp, #96]                   @ 4-byte Spill
	and	r1, r0, r6
	ldr	r0, [sp, #48]                   @ 4-byte Reload
	eor	r1, r1, r11
	eor	r1, r1, r4
	eor	r1, r1, r5
	eor	r1, r1, r7
	eor	r7, r2, r1
	and	r7, r7, r0
	eor	r0, r7, r3
	eor	r7, r7, r2
	and	lr, r7, r3
	eor	r2, r2, r3
	eor	r7, lr, r12
	eor	r12, r9, r1
	and	r3, r2, r12
	eor	r4, r7, r0
	eor	r3, r3, r1
	eor	r1, lr, r2
	and	r1, r1, r3
	ldr	r2, [sp, #60]                   @ 4-byte Reload
	eor	r5, r1, r12
	eor	r12, r3, r0
	eor	r1, r5, r4
	str	r4, [sp, #44]                   @ 4-byte Spill
	eor	r6, r1, r12
	eor	r4, r5, r3
	str	r5, [sp, #56]                   @ 4-byte Spill
	and	r2, r6, r2
	str	r6, [sp, #36]                   @ 4-byte Spill
	and	r6, r5, r8
	and	r5, r4, r10
	str	r5, [sp, #48]                   @ 4-byte Spill
	eor	r9, r5, r6
	ldr	r6, [sp, #108]                  @ 4-byte Reload
	ldr	r5, [sp, #100]                  @ 4-byte Reload
	eor	r2, r9, r2
	and	lr, r1, r6
	str	r0, [sp, #88]                   @ 4-byte Spill
	and	r6, r0, r5
	ldr	r0, [sp, #120]                  @ 4-byte Reload
	movw	r10, #16191
	and	r5, r7, r0
	movt	r10, #16191
	eor	r0, r5, r6
	ldr	r6, [sp, #64]                   @ 4-byte Reload
	str	r0, [sp, #40]                   @ 4-byte Spill
	eor	r0, lr, r0
	and	r6, r4, r6
	str	r6, [sp, #100]                  @ 4-byte Spill
	eor	r0, r0, r6
	movw	r4, #3855
	eor	r6, r0, r2
	ldr	r0, [sp, #52]                   @ 4-byte Reload
	str	r6, [sp, #64]                   @ 4-byte Spill
	movt	r4, #3855
	and	r0, r3, r0
	eor	r6, r6, r0
	ldr	r0, [sp, #32]                   @ 4-byte Reload
	str	r6, [sp, #108]                  @ 4-byte Spill
	and	r0, r12, r0
	eor	r8, r2, r0
	and	r0, r1, r11
	ldr	r1, [sp, #72]                   @ 4-byte Reload
	ldr	r2, [sp, #44]                   @ 4-byte Reload
	and	r11, r12, r1
	movw	r1, #49344
	eor	r0, r0, r11
	movt	r1, #49344
	eor	r0, r0, r8
	str	r8, [sp, #32]                   @ 4-byte Spill
	eor	r0, r0, r6
	and	r1, r1, r0, ror #2
	and	r6, r10, r0, ror #10
	orr	r6, r6, r1
	ldr	r1, [sp, #116]                  @ 4-byte Reload
	eor	r12, r6, r0
	movw	r0, #61680
	movt	r0, #61680
	and	r0, r0, r12, ror #12
	and	r4, r4, r12, ror #20
	orr	r0, r4, r0
	ldr	r4, [sp, #28]                   @ 4-byte Reload
	add	lr, r4, r1, lsl #7
	ldr	r1, [sp, #76]                   @ 4-byte Reload
	str	lr, [sp, #120]                  @ 4-byte Spill
	ldr	r4, [lr, #52]
	eor	r0, r4, r0
	ldr	r4, [sp, #36]                   @ 4-byte Reload
	eor	r6, r0, r6
	ldr	r0, [sp, #68]                   @ 4-byte Reload
	and	r4, r4, r1
	ldr	r1, [sp, #104]                  @ 4-byte Reload
	and	r0, r2, r0
	eor	r11, r4, r11
	and	r2, r2, r1
	ldr	r1, [sp, #112]                  @ 4-byte Reload
	eor	r0, r0, r5
	eor	r4, r11, r2
	and	r2, r7, r1
	eor	r0, r0, r9
	eor	r9, r4, r2
	movw	r1, #16191
	eor	r10, r0, r9
	str	r4, [sp, #60]                   @ 4-byte Spill
	movw	r4, #49344
	movt	r1, #16191
	movt	r4, #49344
	and	r2, r4, r10, ror #2
	and	r7, r1, r10, ror #10
	orr	r0, r7, r2
	eor	r2, r10, r8
	str	r0, [sp, #72]                   @ 4-byte Spill
	eor	r0, r0, r10
	eor	r7, r6, r0
	and	r5, r1, r2, ror #10
	and	r6, r4, r2, ror #2
	movw	r1, #61680
	orr	r6, r5, r6
	str	r0, [sp, #68]                   @ 4-byte Spill
	eor	r0, r6, r2
	movt	r1, #61680
	ldr	r2, [sp, #40]                   @ 4-byte Reload
	movw	r8, #3855
	and	r5, r1, r0, ror #12
	ldr	r1, [sp, #84]                   @ 4-byte Reload
	movt	r8, #3855
	and	r4, r8, r0, ror #20
	and	r1, r3, r1
	orr	r5, r4, r5
	eor	r1, r2, r1
	ldr	r2, [sp, #48]                   @ 4-byte Reload
	ldr	r4, [lr, #56]
	eor	r3, r1, r2
	ldr	r1, [sp, #80]                   @ 4-byte Reload
	ldr	r2, [sp, #56]                   @ 4-byte Reload
	eor	r5, r4, r5
	eor	r6, r5, r6
	str	r0, [sp, #44]                   @ 4-byte Spill
	and	r1, r2, r1
	eor	r0, r6, r12
	eor	r1, r3, r1
	movw	r2, #49344
	eor	r5, r1, r11
	ldr	r1, [sp, #100]                  @ 4-byte Reload
	str	r0, [sp, #76]                   @ 4-byte Spill
	eor	r0, r7, r0
	eor	r1, r5, r1
	movw	r7, #16191
	movt	r7, #16191
	str	r3, [sp, #84]                   @ 4-byte Spill
	movt	r2, #49344
	and	r6, r7, r1, ror #10
	and	r3, r2, r1, ror #2
	movw	r11, #61680
	orr	r6, r6, r3
	movt	r11, #61680
	eor	r3, r6, r1
	ldr	r7, [lr, #40]
	str	r7, [sp, #80]                   @ 4-byte Spill
	and	r1, r11, r3, ror #12
	and	r4, r8, r3, ror #20
	orr	r1, r4, r1
	ldr	r4, [lr, #32]
	ldr	r7, [lr, #44]
	eor	r1, r4, r1
	ldr	r12, [lr, #36]
	eor	r4, r1, r6
	ldr	r1, [sp, #32]                   @ 4-byte Reload
	movw	lr, #16191
	str	r7, [sp, #56]                   @ 4-byte Spill
	eor	r1, r9, r1
	movt	lr, #16191
	str	r0, [sp, #52]                   @ 4-byte Spill
	and	r6, r2, r1, ror #2
	and	r7, lr, r1, ror #10
	orr	r7, r7, r6
	eor	r1, r7, r1
	eor	r4, r4, r1
	str	r4, [sp, #104]                  @ 4-byte Spill
	eor	r9, r0, r4
	ldr	r0, [sp, #64]                   @ 4-byte Reload
	str	r9, [sp, #100]                  @ 4-byte Spill
	eor	r4, r5, r0
	and	r5, r2, r4, ror #2
	and	r6, lr, r4, ror #10
	orr	r5, r6, r5
	mov	lr, r8
	eor	r4, r5, r4
	mov	r2, r11
	and	r6, r11, r4, ror #12
	and	r8, r8, r4, ror #20
	orr	r6, r8, r6
	eor	r6, r12, r6
	eor	r6, r6, r5
	and	r5, r11, r1, ror #12
	eor	r3, r6, r3
	ldr	r11, [sp, #120]                 @ 4-byte Reload
	eor	r3, r3, r1
	eor	r6, r9, r3
	str	r6, [sp, #112]                  @ 4-byte Spill
	and	r0, r6, r9
	and	r6, lr, r1, ror #20
	orr	r5, r6, r5
	ldr	r6, [r11, #60]
	str	r0, [sp, #48]                   @ 4-byte Spill
	movw	r9, #49344
	eor	r5, r6, r5
	ldr	r0, [sp, #44]                   @ 4-byte Reload
	eor	r5, r5, r7
	movt	r9, #49344
	eor	r8, r5, r0
	ldr	r5, [sp, #88]                   @ 4-byte Reload
	eor	r12, r3, r8
	ldr	r3, [sp, #96]                   @ 4-byte Reload
	ldr	r0, [sp, #60]                   @ 4-byte Reload
	and	r3, r5, r3
	ldr	r5, [sp, #108]                  @ 4-byte Reload
	eor	r3, r0, r3
	movw	r0, #16191
	eor	r3, r3, r5
	movt	r0, #16191
	str	r12, [sp, #64]                  @ 4-byte Spill
	and	r6, r0, r3, ror #10
	and	r5, r9, r3, ror #2
	orr	r5, r6, r5
	ldr	r0, [sp, #80]                   @ 4-byte Reload
	eor	r3, r5, r3
	and	r6, r2, r3, ror #12
	and	r7, lr, r3, ror #20
	orr	r6, r7, r6
	eor	r6, r0, r6
	ldr	r0, [sp, #68]                   @ 4-byte Reload
	eor	r5, r6, r5
	ldr	r6, [r11, #48]
	eor	r5, r5, r4
	str	r5, [sp, #60]                   @ 4-byte Spill
	and	r4, r2, r0, ror #12
	and	r7, lr, r0, ror #20
	orr	r7, r7, r4
	ldr	r0, [sp, #72]                   @ 4-byte Reload
	eor	r7, r6, r7
	movw	r4, #16191
	eor	r7, r7, r0
	ldr	r0, [sp, #84]                   @ 4-byte Reload
	movt	r4, #16191
	eor	r7, r7, r1
	eor	r0, r10, r0
	mov	r10, r5
	and	r6, r9, r0, ror #2
	and	r4, r4, r0, ror #10
	orr	r9, r4, r6
	eor	r4, r9, r0
	eor	r6, r7, r4
	str	r6, [sp, #96]                   @ 4-byte Spill
	and	r7, r2, r4, ror #12
	and	r4, lr, r4, ror #20
	orr	r7, r4, r7
	ldr	r4, [sp, #56]                   @ 4-byte Reload
	eor	r5, r6, r5
	str	r5, [sp, #80]                   @ 4-byte Spill
	eor	r7, r4, r7
	eor	r0, r12, r5
	eor	r3, r7, r3
	str	r0, [sp, #108]                  @ 4-byte Spill
	eor	r1, r3, r1
	eor	r3, r6, r8
	eor	r1, r1, r9
	ldr	r7, [sp, #48]                   @ 4-byte Reload
	eor	r2, r1, r0
	ldr	r0, [sp, #76]                   @ 4-byte Reload
	eor	r9, r2, r10
	str	r3, [sp, #72]                   @ 4-byte Spill
	eor	r1, r2, r0
	ldr	r0, [sp, #52]                   @ 4-byte Reload
	str	r1, [sp, #84]                   @ 4-byte Spill
	eor	r1, r1, r3
	eor	r6, r1, r0
	str	r1, [sp, #56]                   @ 4-byte Spill
	eor	r7, r6, r7
	and	lr, r6, r12
	eor	r7, r7, lr
	str	r6, [sp, #44]                   @ 4-byte Spill
	eor	r7, r7, r12
	eor	r12, r9, r0
	eor	r2, r1, r12
	and	r0, r1, r3
	and	r4, r2, r5
	str	r2, [sp, #52]                   @ 4-byte Spill
	eor	r4, r4, r0
	ldr	r2, [sp, #100]                  @ 4-byte Reload
	eor	r10, r7, r4
	ldr	r7, [sp, #104]                  @ 4-byte Reload
	eor	r5, r2, r8
	str	r5, [sp, #76]                   @ 4-byte Spill
	eor	r3, r1, r7
	ldr	r1, [sp, #60]                   @ 4-byte Reload
	and	r11, r3, r5
	str	r3, [sp, #88]                   @ 4-byte Spill
	eor	r5, r6, r11
	str	r9, [sp, #48]                   @ 4-byte Spill
	eor	r5, r5, lr
	eor	r5, r5, r8
	eor	r8, r8, r1
	and	r6, r12, r8
	ldr	r1, [sp, #108]                  @ 4-byte Reload
	eor	lr, r6, r0
	eor	r0, r9, r7
	eor	r6, r5, lr
	and	r5, r9, r1
	ldr	r1, [sp, #112]                  @ 4-byte Reload
	eor	r11, r6, r10
	str	r0, [sp, #60]                   @ 4-byte Spill
	eor	r1, r1, r8
	str	r1, [sp, #68]                   @ 4-byte Spill
	and	r3, r0, r1
	ldr	r0, [sp, #84]                   @ 4-byte Reload
	eor	r3, r0, r3
	ldr	r0, [sp, #96]                   @ 4-byte Reload
	eor	r3, r3, r5
	eor	r1, r2, r0
	str	r1, [sp, #96]                   @ 4-byte Spill
	and	r1, r1, r7
	eor	r3, r3, r4
	eor	r1, r1, r8
	and	r4, r10, r3
	eor	r1, r1, r12
	eor	r1, r1, r5
	eor	r0, r1, lr
	eor	r1, r4, r0
	eor	r3, r3, r0
	and	r1, r1, r11
	eor	r2, r1, r6
	eor	r1, r1, r4
	eor	r4, r4, r6
	and	r1, r1, r6
	and	r6, r4, r3
	eor	r9, r1, r10
	eor	lr, r6, r0
	eor	r1, r1, r4
	and	r1, r1, lr
	eor	r11, r9, r2
	eor	r7, r1, r3
	eor	r4, lr, r2
	eor	r1, r7, r11
	ldr	r0, [sp, #52]                   @ 4-byte Reload
	eor	r3, r1, r4
	str	r3, [sp, #40]                   @ 4-byte Spill
	and	r6, r3, r0
	ldr	r0, [sp, #100]                  @ 4-byte Reload
	ldr	r3, [sp, #44]                   @ 4-byte Reload
	and	r12, r1, r12
	and	r5, r7, r0
	eor	r0, r7, lr
	and	r3, r0, r3
	str	r3, [sp, #100]                  @ 4-byte Spill
	eor	r5, r3, r5
	ldr	r3, [sp, #104]                  @ 4-byte Reload
	str	r2, [sp, #84]                   @ 4-byte Spill
	eor	r10, r5, r6
	and	r2, r2, r3
	ldr	r3, [sp, #48]                   @ 4-byte Reload
	ldr	r6, [sp, #64]                   @ 4-byte Reload
	and	r3, r9, r3
	eor	r2, r3, r2
	str	r2, [sp, #52]                   @ 4-byte Spill
	eor	r2, r12, r2
	and	r0, r0, r6
	str	r0, [sp, #104]                  @ 4-byte Spill
	eor	r0, r2, r0
	eor	r2, r0, r10
	ldr	r0, [sp, #76]                   @ 4-byte Reload
	str	r2, [sp, #64]                   @ 4-byte Spill
	and	r0, lr, r0
	ldr	r12, [sp, #120]                 @ 4-byte Reload
	eor	r2, r2, r0
	ldr	r0, [sp, #56]                   @ 4-byte Reload
	str	r2, [sp, #76]                   @ 4-byte Spill
	and	r0, r4, r0
	eor	r6, r10, r0
	and	r0, r1, r8
	ldr	r1, [sp, #72]                   @ 4-byte Reload
	movw	r10, #3855
	movt	r10, #3855
	str	r6, [sp, #48]                   @ 4-byte Spill
	and	r1, r4, r1
	eor	r0, r0, r1
	eor	r0, r0, r6
	eor	r0, r0, r2
	movw	r2, #61680
	movt	r2, #61680
	and	r2, r2, r0, ror #4
	and	r4, r10, r0, ror #12
	orr	r2, r4, r2
	ldr	r4, [r12, #84]
	eor	r0, r2, r0
	eor	r4, r4, r0, ror #16
	eor	r6, r4, r2
	ldr	r2, [sp, #60]                   @ 4-byte Reload
	and	r4, r11, r2
	ldr	r2, [sp, #80]                   @ 4-byte Reload
	eor	r3, r4, r3
	eor	r4, r3, r5
	ldr	r3, [sp, #40]                   @ 4-byte Reload
	and	r3, r3, r2
	eor	r2, r3, r1
	ldr	r1, [sp, #68]                   @ 4-byte Reload
	and	r1, r11, r1
	mov	r11, r10
	eor	r3, r2, r1
	ldr	r1, [sp, #108]                  @ 4-byte Reload
	str	r3, [sp, #60]                   @ 4-byte Spill
	and	r1, r9, r1
	eor	r9, r3, r1
	movw	r3, #61680
	eor	r8, r4, r9
	movt	r3, #61680
	and	r5, r10, r8, ror #12
	and	r4, r3, r8, ror #4
	orr	r1, r5, r4
	ldr	r4, [sp, #48]                   @ 4-byte Reload
	str	r1, [sp, #108]                  @ 4-byte Spill
	eor	r1, r1, r8
	eor	r5, r8, r4
	str	r1, [sp, #80]                   @ 4-byte Spill
	eor	r1, r6, r1
	mov	r10, r3
	and	r6, r3, r5, ror #4
	and	r3, r11, r5, ror #12
	orr	r3, r3, r6
	eor	r11, r3, r5
	ldr	r5, [r12, #88]
	eor	r5, r5, r11, ror #16
	eor	r3, r5, r3
	eor	r0, r3, r0
	str	r0, [sp, #72]                   @ 4-byte Spill
	eor	r1, r1, r0
	ldr	r0, [sp, #88]                   @ 4-byte Reload
	ldr	r3, [sp, #52]                   @ 4-byte Reload
	and	r0, lr, r0
	str	r1, [sp, #56]                   @ 4-byte Spill
	eor	r0, r3, r0
	ldr	r3, [sp, #100]                  @ 4-byte Reload
	eor	r6, r0, r3
	ldr	r0, [sp, #112]                  @ 4-byte Reload
	str	r6, [sp, #88]                   @ 4-byte Spill
	and	r3, r7, r0
	ldr	r0, [sp, #104]                  @ 4-byte Reload
	eor	r3, r6, r3
	eor	r2, r3, r2
	eor	r3, r2, r0
	movw	r0, #3855
	movt	r0, #3855
	and	r7, r10, r3, ror #4
	and	r6, r0, r3, ror #12
	orr	r7, r6, r7
	ldr	r6, [r12, #64]
	eor	r3, r7, r3
	eor	r6, r6, r3, ror #16
	eor	r6, r6, r7
	eor	r7, r9, r4
	and	r5, r10, r7, ror #4
	and	r4, r0, r7, ror #12
	orr	r5, r4, r5
	eor	r7, r5, r7
	eor	r6, r6, r7
	str	r6, [sp, #104]                  @ 4-byte Spill
	eor	lr, r1, r6
	ldr	r1, [sp, #64]                   @ 4-byte Reload
	str	lr, [sp, #100]                  @ 4-byte Spill
	eor	r2, r2, r1
	mov	r1, r10
	and	r6, r10, r2, ror #4
	and	r4, r0, r2, ror #12
	orr	r6, r4, r6
	ldr	r4, [r12, #68]
	eor	r2, r6, r2
	mov	r10, r0
	mov	r0, r12
	eor	r4, r4, r2, ror #16
	eor	r6, r4, r6
	eor	r3, r6, r3
	eor	r3, r3, r7
	eor	r6, lr, r3
	str	r6, [sp, #112]                  @ 4-byte Spill
	and	r12, r6, lr
	ldr	r6, [r0, #92]
	eor	r6, r6, r7, ror #16
	eor	r6, r6, r5
	eor	lr, r6, r11
	ldr	r6, [sp, #84]                   @ 4-byte Reload
	eor	r9, r3, lr
	ldr	r3, [sp, #96]                   @ 4-byte Reload
	mov	r11, r10
	str	r9, [sp, #68]                   @ 4-byte Spill
	and	r3, r6, r3
	ldr	r6, [sp, #60]                   @ 4-byte Reload
	eor	r3, r6, r3
	ldr	r6, [sp, #76]                   @ 4-byte Reload
	eor	r3, r3, r6
	mov	r6, r0
	and	r4, r1, r3, ror #4
	and	r5, r10, r3, ror #12
	orr	r4, r5, r4
	ldr	r5, [r0, #72]
	eor	r3, r4, r3
	eor	r5, r5, r3, ror #16
	eor	r4, r5, r4
	eor	r10, r4, r2
	ldr	r4, [r0, #80]
	ldr	r0, [sp, #80]                   @ 4-byte Reload
	eor	r4, r4, r0, ror #16
	ldr	r0, [sp, #108]                  @ 4-byte Reload
	eor	r4, r4, r0
	ldr	r0, [sp, #88]                   @ 4-byte Reload
	eor	r4, r4, r7
	eor	r0, r8, r0
	and	r1, r1, r0, ror #4
	and	r5, r11, r0, ror #12
	orr	r5, r5, r1
	eor	r0, r5, r0
	eor	r2, r4, r0
	ldr	r4, [r6, #76]
	eor	r11, r2, r10
	str	r2, [sp, #96]                   @ 4-byte Spill
	eor	r0, r4, r0, ror #16
	eor	r1, r9, r11
	eor	r0, r0, r3
	str	r1, [sp, #108]                  @ 4-byte Spill
	eor	r0, r0, r7
	eor	r7, r2, lr
	eor	r0, r0, r5
	ldr	r5, [sp, #56]                   @ 4-byte Reload
	eor	r0, r0, r1
	ldr	r1, [sp, #72]                   @ 4-byte Reload
	str	r7, [sp, #72]                   @ 4-byte Spill
	eor	r1, r0, r1
	str	r1, [sp, #88]                   @ 4-byte Spill
	eor	r1, r1, r7
	str	r11, [sp, #80]                  @ 4-byte Spill
	eor	r3, r1, r5
	and	r2, r1, r7
	eor	r6, r3, r12
	and	r8, r3, r9
	eor	r6, r6, r8
	ldr	r7, [sp, #104]                  @ 4-byte Reload
	eor	r4, r6, r9
	eor	r9, r0, r10
	eor	r12, r9, r5
	str	r1, [sp, #60]                   @ 4-byte Spill
	eor	r0, r1, r12
	str	r0, [sp, #52]                   @ 4-byte Spill
	and	r6, r0, r11
	ldr	r0, [sp, #100]                  @ 4-byte Reload
	eor	r11, r1, r7
	str	r11, [sp, #84]                  @ 4-byte Spill
	eor	r5, r0, lr
	str	r5, [sp, #56]                   @ 4-byte Spill
	and	r11, r11, r5
	eor	r6, r6, r2
	eor	r1, r3, r11
	str	r9, [sp, #48]                   @ 4-byte Spill
	eor	r1, r1, r8
	eor	r4, r4, r6
	eor	r1, r1, lr
	eor	lr, lr, r10
	and	r5, r12, lr
	eor	r8, r5, r2
	ldr	r2, [sp, #108]                  @ 4-byte Reload
	eor	r5, r9, r7
	eor	r1, r1, r8
	and	r10, r9, r2
	ldr	r2, [sp, #112]                  @ 4-byte Reload
	mov	r9, r7
	eor	r11, r1, r4
	eor	r2, r2, lr
	str	r2, [sp, #76]                   @ 4-byte Spill
	and	r7, r5, r2
	ldr	r2, [sp, #88]                   @ 4-byte Reload
	str	r5, [sp, #64]                   @ 4-byte Spill
	eor	r7, r2, r7
	ldr	r2, [sp, #96]                   @ 4-byte Reload
	eor	r7, r7, r10
	eor	r2, r0, r2
	str	r2, [sp, #96]                   @ 4-byte Spill
	and	r2, r2, r9
	eor	r6, r7, r6
	eor	r2, r2, lr
	and	r7, r4, r6
	eor	r2, r2, r12
	eor	r2, r2, r10
	eor	r0, r2, r8
	eor	r2, r7, r0
	and	r2, r2, r11
	eor	r5, r2, r1
	eor	r2, r2, r7
	and	r10, r2, r1
	str	r5, [sp, #88]                   @ 4-byte Spill
	eor	r2, r10, r4
	eor	r4, r6, r0
	eor	r6, r7, r1
	eor	r11, r2, r5
	and	r1, r6, r4
	eor	r9, r1, r0
	eor	r0, r10, r6
	and	r0, r0, r9
	eor	r1, r9, r5
	eor	r0, r0, r4
	ldr	r4, [sp, #52]                   @ 4-byte Reload
	eor	r7, r0, r11
	mov	r6, r5
	eor	r5, r7, r1
	str	r0, [sp, #40]                   @ 4-byte Spill
	and	r10, r5, r4
	ldr	r4, [sp, #100]                  @ 4-byte Reload
	str	r5, [sp, #44]                   @ 4-byte Spill
	and	r8, r0, r4
	eor	r0, r0, r9
	and	r5, r0, r3
	ldr	r4, [sp, #104]                  @ 4-byte Reload
	str	r5, [sp, #100]                  @ 4-byte Spill
	eor	r5, r5, r8
	eor	r8, r5, r10
	and	r10, r6, r4
	ldr	r6, [sp, #48]                   @ 4-byte Reload
	and	r3, r7, r12
	movw	r12, #61680
	and	r4, r2, r6
	movt	r12, #61680
	eor	r6, r4, r10
	str	r6, [sp, #48]                   @ 4-byte Spill
	eor	r3, r3, r6
	ldr	r6, [sp, #68]                   @ 4-byte Reload
	and	r0, r0, r6
	str	r0, [sp, #52]                   @ 4-byte Spill
	eor	r0, r3, r0
	movw	r6, #3855
	eor	r3, r0, r8
	ldr	r0, [sp, #56]                   @ 4-byte Reload
	str	r3, [sp, #68]                   @ 4-byte Spill
	movt	r6, #3855
	and	r0, r9, r0
	eor	r3, r3, r0
	ldr	r0, [sp, #60]                   @ 4-byte Reload
	str	r3, [sp, #104]                  @ 4-byte Spill
	and	r0, r1, r0
	eor	r10, r8, r0
	and	r0, r7, lr
	ldr	r7, [sp, #72]                   @ 4-byte Reload
	ldr	lr, [sp, #120]                  @ 4-byte Reload
	and	r1, r1, r7
	movw	r7, #771
	eor	r0, r0, r1
	movt	r7, #771
	eor	r0, r0, r10
	eor	r0, r0, r3
	movw	r3, #64764
	movt	r3, #64764
	and	r3, r3, r0, ror #6
	and	r7, r7, r0, ror #14
	orr	r3, r7, r3
	eor	r7, r3, r0
	and	r0, r12, r7, ror #12
	and	r6, r6, r7, ror #20
	orr	r0, r6, r0
	ldr	r6, [lr, #116]
	eor	r0, r6, r0
	eor	r0, r0, r3
	ldr	r3, [sp, #64]                   @ 4-byte Reload
	and	r3, r11, r3
	eor	r3, r3, r4
	ldr	r4, [sp, #44]                   @ 4-byte Reload
	eor	r3, r3, r5
	ldr	r5, [sp, #80]                   @ 4-byte Reload
	and	r6, r4, r5
	movw	r4, #64764
	eor	r6, r6, r1
	ldr	r1, [sp, #76]                   @ 4-byte Reload
	movt	r4, #64764
	and	r1, r11, r1
	eor	r5, r6, r1
	ldr	r1, [sp, #108]                  @ 4-byte Reload
	str	r5, [sp, #64]                   @ 4-byte Spill
	and	r1, r2, r1
	eor	r11, r5, r1
	eor	r8, r3, r11
	movw	r3, #771
	movt	r3, #771
	and	r1, r4, r8, ror #6
	and	r5, r3, r8, ror #14
	orr	r1, r5, r1
	str	r1, [sp, #76]                   @ 4-byte Spill
	eor	r1, r1, r8
	str	r1, [sp, #72]                   @ 4-byte Spill
	eor	r2, r0, r1
	eor	r1, r8, r10
	and	r5, r4, r1, ror #6
	and	r0, r3, r1, ror #14
	orr	r0, r0, r5
	movw	r3, #3855
	eor	r1, r0, r1
	str	r1, [sp, #44]                   @ 4-byte Spill
	mov	r4, r12
	movt	r3, #3855
	and	r5, r12, r1, ror #12
	and	r12, r3, r1, ror #20
	ldr	r1, [lr, #120]
	orr	r5, r12, r5
	movw	r12, #771
	mov	r3, lr
	eor	r1, r1, r5
	movt	r12, #771
	eor	r0, r1, r0
	ldr	r1, [sp, #48]                   @ 4-byte Reload
	eor	r0, r0, r7
	str	r0, [sp, #80]                   @ 4-byte Spill
	eor	r7, r2, r0
	ldr	r0, [sp, #84]                   @ 4-byte Reload
	ldr	r2, [sp, #40]                   @ 4-byte Reload
	movw	r5, #3855
	and	r0, r9, r0
	movw	r9, #64764
	eor	r0, r1, r0
	ldr	r1, [sp, #100]                  @ 4-byte Reload
	movt	r9, #64764
	movt	r5, #3855
	eor	r1, r0, r1
	ldr	r0, [sp, #112]                  @ 4-byte Reload
	str	r1, [sp, #56]                   @ 4-byte Spill
	and	r0, r2, r0
	str	r7, [sp, #60]                   @ 4-byte Spill
	eor	r0, r1, r0
	eor	r1, r0, r6
	ldr	r0, [sp, #52]                   @ 4-byte Reload
	eor	r0, r1, r0
	and	r2, r9, r0, ror #6
	and	r6, r12, r0, ror #14
	orr	r2, r6, r2
	eor	r6, r2, r0
	and	r0, r4, r6, ror #12
	and	r5, r5, r6, ror #20
	orr	r0, r5, r0
	ldr	r5, [lr, #96]
	eor	r0, r5, r0
	eor	r2, r0, r2
	eor	r0, r11, r10
	movw	r11, #61680
	movw	r10, #3855
	and	r5, r9, r0, ror #6
	and	r4, r12, r0, ror #14
	orr	r4, r4, r5
	movt	r11, #61680
	eor	r0, r4, r0
	movt	r10, #3855
	eor	r2, r2, r0
	str	r2, [sp, #108]                  @ 4-byte Spill
	eor	lr, r7, r2
	ldr	r2, [sp, #68]                   @ 4-byte Reload
	str	lr, [sp, #100]                  @ 4-byte Spill
	eor	r1, r1, r2
	and	r2, r9, r1, ror #6
	and	r5, r12, r1, ror #14
	orr	r2, r5, r2
	mov	r9, r12
	eor	r5, r2, r1
	and	r1, r11, r5, ror #12
	and	r7, r10, r5, ror #20
	orr	r1, r7, r1
	ldr	r7, [r3, #100]
	eor	r1, r7, r1
	ldr	r7, [sp, #44]                   @ 4-byte Reload
	eor	r1, r1, r2
	eor	r1, r1, r6
	and	r6, r10, r0, ror #20
	eor	r2, r1, r0
	eor	r1, lr, r2
	str	r1, [sp, #112]                  @ 4-byte Spill
	and	r1, r1, lr
	str	r1, [sp, #52]                   @ 4-byte Spill
	and	r1, r11, r0, ror #12
	mov	lr, r10
	orr	r1, r6, r1
	ldr	r6, [r3, #124]
	eor	r1, r6, r1
	eor	r1, r1, r4
	eor	r12, r1, r7
	ldr	r7, [sp, #88]                   @ 4-byte Reload
	eor	r10, r2, r12
	ldr	r2, [sp, #96]                   @ 4-byte Reload
	ldr	r1, [sp, #64]                   @ 4-byte Reload
	and	r2, r7, r2
	str	r10, [sp, #84]                  @ 4-byte Spill
	eor	r2, r1, r2
	ldr	r1, [sp, #104]                  @ 4-byte Reload
	eor	r2, r2, r1
	movw	r1, #64764
	movt	r1, #64764
	and	r4, r1, r2, ror #6
	and	r6, r9, r2, ror #14
	orr	r4, r6, r4
	ldr	r1, [sp, #72]                   @ 4-byte Reload
	eor	r2, r4, r2
	mov	r9, lr
	and	r6, r11, r2, ror #12
	and	r7, lr, r2, ror #20
	orr	r6, r7, r6
	ldr	r7, [r3, #104]
	eor	r6, r7, r6
	eor	r4, r6, r4
	eor	lr, r4, r5
	and	r4, r11, r1, ror #12
	and	r5, r9, r1, ror #20
	mov	r1, r3
	orr	r4, r5, r4
	ldr	r5, [r3, #112]
	ldr	r3, [sp, #76]                   @ 4-byte Reload
	eor	r4, r5, r4
	movw	r5, #64764
	eor	r4, r4, r3
	ldr	r3, [sp, #56]                   @ 4-byte Reload
	movt	r5, #64764
	eor	r4, r4, r0
	eor	r3, r8, r3
	and	r7, r5, r3, ror #6
	movw	r5, #771
	movt	r5, #771
	and	r6, r5, r3, ror #14
	orr	r8, r6, r7
	eor	r3, r8, r3
	eor	r5, r4, r3
	str	r5, [sp, #76]                   @ 4-byte Spill
	and	r4, r11, r3, ror #12
	and	r3, r9, r3, ror #20
	orr	r3, r3, r4
	ldr	r4, [r1, #108]
	eor	r7, r5, lr
	ldr	r1, [sp, #80]                   @ 4-byte Reload
	eor	r3, r4, r3
	eor	r6, r10, r7
	eor	r2, r3, r2
	str	r6, [sp, #104]                  @ 4-byte Spill
	eor	r0, r2, r0
	ldr	r3, [sp, #60]                   @ 4-byte Reload
	eor	r0, r0, r8
	str	r7, [sp, #68]                   @ 4-byte Spill
	eor	r0, r0, r6
	eor	r6, r5, r12
	eor	r2, r0, r1
	str	r2, [sp, #40]                   @ 4-byte Spill
	eor	r9, r2, r6
	ldr	r2, [sp, #52]                   @ 4-byte Reload
	eor	r5, r9, r3
	eor	r0, r0, lr
	eor	r4, r5, r2
	eor	r2, r0, r3
	eor	r1, r9, r2
	and	r8, r5, r10
	str	r0, [sp, #96]                   @ 4-byte Spill
	and	r0, r1, r7
	and	r7, r9, r6
	str	r6, [sp, #64]                   @ 4-byte Spill
	ldr	r6, [sp, #100]                  @ 4-byte Reload
	eor	r4, r4, r8
	ldr	r3, [sp, #108]                  @ 4-byte Reload
	eor	r11, r0, r7
	eor	r4, r4, r10
	str	r1, [sp, #52]                   @ 4-byte Spill
	eor	r1, r6, r12
	eor	r0, r9, r3
	eor	r10, r4, r11
	and	r4, r0, r1
	eor	r4, r5, r4
	str	r5, [sp, #48]                   @ 4-byte Spill
	eor	r5, r4, r8
	str	r0, [sp, #88]                   @ 4-byte Spill
	eor	r0, r5, r12
	eor	r5, r12, lr
	str	r1, [sp, #80]                   @ 4-byte Spill
	and	r1, r2, r5
	eor	r12, r1, r7
	mov	lr, r2
	eor	r7, r0, r12
	str	r2, [sp, #60]                   @ 4-byte Spill
	eor	r0, r7, r10
	str	r0, [sp, #36]                   @ 4-byte Spill
	ldr	r0, [sp, #104]                  @ 4-byte Reload
	mov	r1, r5
	ldr	r2, [sp, #96]                   @ 4-byte Reload
	str	r5, [sp, #72]                   @ 4-byte Spill
	and	r8, r2, r0
	ldr	r0, [sp, #112]                  @ 4-byte Reload
	eor	r4, r0, r5
	eor	r0, r2, r3
	str	r0, [sp, #56]                   @ 4-byte Spill
	and	r5, r0, r4
	ldr	r0, [sp, #40]                   @ 4-byte Reload
	str	r4, [sp, #44]                   @ 4-byte Spill
	eor	r2, r0, r5
	eor	r2, r2, r8
	eor	r11, r2, r11
	ldr	r2, [sp, #76]                   @ 4-byte Reload
	and	r0, r10, r11
	eor	r2, r6, r2
	str	r2, [sp, #76]                   @ 4-byte Spill
	and	r2, r2, r3
	ldr	r3, [sp, #36]                   @ 4-byte Reload
	eor	r2, r2, r1
	eor	r2, r2, lr
	eor	r2, r2, r8
	eor	r1, r2, r12
	eor	r2, r0, r1
	and	r2, r2, r3
	eor	r3, r2, r7
	eor	r2, r2, r0
	and	r12, r2, r7
	str	r3, [sp, #40]                   @ 4-byte Spill
	eor	lr, r12, r10
	mov	r2, r3
	eor	r5, lr, r3
	eor	r3, r11, r1
	eor	r0, r0, r7
	and	r6, r0, r3
	eor	r0, r12, r0
	eor	r8, r6, r1
	ldr	r1, [sp, #52]                   @ 4-byte Reload
	and	r0, r0, r8
	eor	r10, r0, r3
	eor	r3, r8, r2
	eor	r4, r10, r5
	ldr	r2, [sp, #48]                   @ 4-byte Reload
	eor	r0, r4, r3
	eor	r6, r10, r8
	and	r12, r0, r1
	ldr	r1, [sp, #100]                  @ 4-byte Reload
	and	r2, r6, r2
	str	r2, [sp, #100]                  @ 4-byte Spill
	and	r1, r10, r1
	and	r7, r3, r9
	eor	r2, r2, r1
	str	r6, [sp, #36]                   @ 4-byte Spill
	eor	r1, r2, r12
	str	r1, [sp, #32]                   @ 4-byte Spill
	eor	r9, r1, r7
	ldr	r1, [sp, #68]                   @ 4-byte Reload
	ldr	r6, [sp, #120]                  @ 4-byte Reload
	and	r7, r0, r1
	ldr	r0, [sp, #64]                   @ 4-byte Reload
	ldr	r1, [sp, #44]                   @ 4-byte Reload
	and	r0, r3, r0
	str	r0, [sp, #48]                   @ 4-byte Spill
	eor	r0, r7, r0
	and	r3, r5, r1
	eor	r1, r0, r3
	str	r0, [sp, #68]                   @ 4-byte Spill
	ldr	r0, [sp, #104]                  @ 4-byte Reload
	str	r1, [sp, #52]                   @ 4-byte Spill
	and	r3, lr, r0
	ldr	r11, [r6, #156]
	eor	r7, r1, r3
	eor	r1, r7, r9
	eor	r3, r1, r1, ror #8
	eor	r0, r11, r3, ror #16
	eor	r0, r0, r1, ror #8
	ldr	r1, [sp, #56]                   @ 4-byte Reload
	and	r1, r5, r1
	ldr	r5, [sp, #96]                   @ 4-byte Reload
	and	r5, lr, r5
	mov	lr, r6
	eor	r1, r1, r5
	ldr	r6, [r6, #148]
	eor	r1, r1, r2
	ldr	r2, [sp, #108]                  @ 4-byte Reload
	eor	r12, r1, r7
	eor	r1, r12, r9
	str	r1, [sp, #96]                   @ 4-byte Spill
	eor	r1, r1, r1, ror #8
	str	r1, [sp, #64]                   @ 4-byte Spill
	eor	r0, r0, r1
	ldr	r1, [sp, #40]                   @ 4-byte Reload
	str	r0, [sp, #104]                  @ 4-byte Spill
	ldr	r0, [sp, #60]                   @ 4-byte Reload
	and	r7, r1, r2
	eor	r5, r5, r7
	ldr	r7, [sp, #84]                   @ 4-byte Reload
	ldr	r2, [sp, #36]                   @ 4-byte Reload
	and	r0, r4, r0
	eor	r0, r0, r5
	and	r2, r2, r7
	str	r2, [sp, #60]                   @ 4-byte Spill
	eor	r0, r0, r2
	ldr	r2, [sp, #32]                   @ 4-byte Reload
	ldr	r7, [sp, #72]                   @ 4-byte Reload
	eor	r11, r0, r2
	ldr	r0, [sp, #80]                   @ 4-byte Reload
	ldr	r2, [sp, #48]                   @ 4-byte Reload
	and	r4, r4, r7
	and	r0, r8, r0
	eor	r4, r4, r2
	eor	r0, r11, r0
	eor	r4, r4, r9
	eor	r4, r4, r0
	eor	r9, r4, r4, ror #8
	eor	r6, r6, r9, ror #16
	eor	r6, r6, r4, ror #8
	eor	r4, r12, r12, ror #8
	eor	r2, r6, r4
	ldr	r6, [sp, #76]                   @ 4-byte Reload
	str	r2, [sp, #108]                  @ 4-byte Spill
	and	r6, r1, r6
	ldr	r1, [sp, #52]                   @ 4-byte Reload
	eor	r6, r1, r6
	eor	r0, r6, r0
	ldr	r6, [lr, #136]
	eor	r1, r0, r0, ror #8
	str	r1, [sp, #84]                   @ 4-byte Spill
	eor	r6, r6, r1, ror #16
	ldr	r1, [sp, #68]                   @ 4-byte Reload
	eor	r0, r6, r0, ror #8
	ldr	r6, [sp, #88]                   @ 4-byte Reload
	and	r2, r8, r6
	eor	r2, r5, r2
	ldr	r5, [sp, #100]                  @ 4-byte Reload
	eor	r2, r2, r5
	ldr	r5, [sp, #112]                  @ 4-byte Reload
	and	r6, r10, r5
	mov	r5, lr
	eor	r6, r2, r6
	eor	r10, r6, r1
	ldr	r1, [sp, #60]                   @ 4-byte Reload
	eor	r6, r10, r11
	eor	r7, r6, r6, ror #8
	eor	r11, r0, r7
	ldr	r0, [lr, #132]
	eor	r0, r0, r7, ror #16
	mov	lr, r11
	eor	r0, r0, r6, ror #8
	eor	r6, r10, r1
	ldr	r1, [sp, #64]                   @ 4-byte Reload
	eor	r7, r6, r6, ror #8
	eor	r0, r0, r7
	eor	r10, r0, r3
	ldr	r0, [r5, #152]
	eor	r0, r0, r1, ror #16
	ldr	r1, [sp, #96]                   @ 4-byte Reload
	eor	r0, r0, r1, ror #8
	eor	r1, r12, r2
	eor	r9, r0, r9
	ldr	r0, [r5, #128]
	eor	r2, r1, r1, ror #8
	eor	r0, r0, r7, ror #16
	ldr	r7, [sp, #24]                   @ 4-byte Reload
	eor	r0, r0, r6, ror #8
	eor	r6, r0, r3
	ldr	r0, [r5, #144]
	eor	r0, r0, r4, ror #16
	eor	r0, r0, r12, ror #8
	eor	r0, r0, r3
	eor	r4, r0, r2
	ldr	r0, [r5, #140]
	eor	r0, r0, r2, ror #16
	ldr	r2, [sp, #84]                   @ 4-byte Reload
	eor	r0, r0, r2
	eor	r0, r0, r3
	ldr	r3, [sp, #108]                  @ 4-byte Reload
	eor	r8, r0, r1, ror #8
	ldr	r0, [sp, #116]                  @ 4-byte Reload
	ldr	r1, [sp, #92]                   @ 4-byte Reload
	adds	r0, r0, #1
	str	r0, [sp, #116]                  @ 4-byte Spill
	adc	r1, r1, #0
	subs	r0, r0, r7
	ldr	r0, [sp, #20]                   @ 4-byte Reload
	sbcs	r0, r1, r0
	blo	.Lgcm_BB14_2
	b	.Lgcm_BB14_4
.Lgcm_BB14_3:
	ldr	r3, [sp, #108]                  @ 4-byte Reload
.Lgcm_BB14_4:                               @ %after.3.i
	ldr	r5, [sp, #104]                  @ 4-byte Reload
	eor	r2, r4, lr
	eor	r7, r9, r3
	mov	r11, lr
	eor	r12, r5, r10
	eor	r3, r5, r4
	eor	r0, r12, r2
	str	r0, [sp, #116]                  @ 4-byte Spill
	eor	r0, r0, r8
	mov	r8, r10
	eor	r1, r0, lr
	eor	r0, r0, r9
	eor	lr, r1, r7
	str	r0, [sp, #120]                  @ 4-byte Spill
	eor	r0, r0, r3
	str	r1, [sp, #112]                  @ 4-byte Spill
	eor	r1, r0, lr
	and	r9, r0, r3
	and	r10, r1, r2
	str	r2, [sp, #76]                   @ 4-byte Spill
	eor	r2, r10, r9
	eor	r10, r7, r6
	eor	r8, r10, r8
	str	r4, [sp, #96]                   @ 4-byte Spill
	str	r1, [sp, #68]                   @ 4-byte Spill
	mov	r1, r0
	and	r4, r8, r10
	eor	r7, r1, r7
	str	r0, [sp, #56]                   @ 4-byte Spill
	mov	r0, r6
	eor	r4, r7, r4
	and	r6, r7, r12
	eor	r4, r4, r6
	eor	r11, r5, r11
	eor	r4, r4, r12
	str	r3, [sp, #108]                  @ 4-byte Spill
	and	r3, lr, r11
	str	r2, [sp, #64]                   @ 4-byte Spill
	eor	r4, r4, r2
	eor	r9, r3, r9
	eor	r3, r1, r0
	eor	r2, r10, r5
	str	r3, [sp, #92]                   @ 4-byte Spill
	and	r3, r3, r2
	eor	r3, r7, r3
	str	r12, [sp, #84]                  @ 4-byte Spill
	eor	r3, r3, r6
	mov	r12, lr
	eor	r3, r3, r5
	str	lr, [sp, #52]                   @ 4-byte Spill
	mov	lr, r0
	ldr	r0, [sp, #116]                  @ 4-byte Reload
	ldr	r5, [sp, #112]                  @ 4-byte Reload
	eor	r6, r3, r9
	str	r8, [sp, #88]                   @ 4-byte Spill
	and	r1, r5, r0
	eor	r0, r8, r11
	eor	r3, r5, lr
	str	r0, [sp, #44]                   @ 4-byte Spill
	mov	r8, r11
	str	r11, [sp, #72]                  @ 4-byte Spill
	and	r11, r3, r0
	ldr	r0, [sp, #120]                  @ 4-byte Reload
	str	r3, [sp, #48]                   @ 4-byte Spill
	mov	r5, lr
	eor	r3, r0, r11
	ldr	r0, [sp, #64]                   @ 4-byte Reload
	eor	r3, r3, r1
	str	lr, [sp, #100]                  @ 4-byte Spill
	eor	r11, r3, r0
	ldr	r0, [sp, #96]                   @ 4-byte Reload
	and	lr, r4, r11
	str	r2, [sp, #80]                   @ 4-byte Spill
	eor	r3, r10, r0
	eor	r2, r6, r4
	and	r5, r3, r5
	str	r3, [sp, #104]                  @ 4-byte Spill
	eor	r5, r5, r8
	eor	r3, lr, r6
	eor	r5, r5, r12
	movw	r8, #16191
	eor	r0, r5, r1
	ldr	r1, [sp, #68]                   @ 4-byte Reload
	eor	r5, r0, r9
	movt	r8, #16191
	eor	r0, lr, r5
	and	r0, r0, r2
	eor	r2, r0, r6
	eor	r0, r0, lr
	and	r12, r0, r6
	eor	r0, r11, r5
	and	r6, r3, r0
	eor	r3, r12, r3
	eor	r6, r6, r5
	eor	r9, r12, r4
	and	r3, r3, r6
	eor	r4, r9, r2
	eor	r5, r3, r0
	eor	r0, r6, r2
	eor	r11, r5, r4
	str	r2, [sp, #120]                  @ 4-byte Spill
	eor	r3, r11, r0
	eor	r2, r5, r6
	and	lr, r3, r1
	str	r2, [sp, #40]                   @ 4-byte Spill
	and	r2, r2, r7
	and	r1, r5, r10
	eor	r7, r2, r1
	ldr	r1, [sp, #56]                   @ 4-byte Reload
	str	r2, [sp, #60]                   @ 4-byte Spill
	movw	r12, #3855
	and	r2, r0, r1
	ldr	r1, [sp, #48]                   @ 4-byte Reload
	str	r5, [sp, #64]                   @ 4-byte Spill
	eor	r5, r7, lr
	str	r5, [sp, #36]                   @ 4-byte Spill
	eor	r10, r5, r2
	and	r5, r4, r1
	ldr	r1, [sp, #112]                  @ 4-byte Reload
	movw	lr, #61680
	movt	r12, #3855
	and	r1, r9, r1
	str	r1, [sp, #24]                   @ 4-byte Spill
	eor	r5, r5, r1
	ldr	r1, [sp, #76]                   @ 4-byte Reload
	eor	r5, r5, r7
	movt	lr, #61680
	and	r3, r3, r1
	ldr	r1, [sp, #108]                  @ 4-byte Reload
	and	r0, r0, r1
	str	r0, [sp, #32]                   @ 4-byte Spill
	eor	r1, r3, r0
	ldr	r0, [sp, #44]                   @ 4-byte Reload
	str	r1, [sp, #48]                   @ 4-byte Spill
	and	r0, r4, r0
	eor	r1, r1, r0
	ldr	r0, [sp, #116]                  @ 4-byte Reload
	str	r1, [sp, #56]                   @ 4-byte Spill
	and	r0, r9, r0
	movw	r9, #49344
	eor	r0, r1, r0
	movt	r9, #49344
	eor	r1, r5, r0
	eor	r0, r0, r10
	eor	r3, r1, r10
	str	r1, [sp, #116]                  @ 4-byte Spill
	and	r4, r9, r3, ror #2
	and	r5, r8, r3, ror #10
	orr	r1, r5, r4
	and	r4, r8, r0, ror #10
	eor	r2, r1, r3
	and	r3, r9, r0, ror #2
	orr	r4, r4, r3
	str	r1, [sp, #96]                   @ 4-byte Spill
	eor	r1, r4, r0
	str	r1, [sp, #76]                   @ 4-byte Spill
	str	r2, [sp, #68]                   @ 4-byte Spill
	and	r0, lr, r1, ror #12
	and	r5, r12, r1, ror #20
	orr	r5, r5, r0
	ldr	r0, [sp, #8]                    @ 4-byte Reload
	ldr	r3, [sp, #84]                   @ 4-byte Reload
	bic	r1, r0, #3
	ldr	r0, [sp, #28]                   @ 4-byte Reload
	str	r1, [sp, #108]                  @ 4-byte Spill
	add	r0, r0, r1, lsl #5
	ldr	r7, [r0, #60]
	eor	r5, r7, r5
	eor	r4, r5, r4
	eor	r1, r4, r2
	str	r1, [sp, #112]                  @ 4-byte Spill
	ldr	r1, [sp, #52]                   @ 4-byte Reload
	ldr	r2, [sp, #100]                  @ 4-byte Reload
	and	r4, r11, r1
	ldr	r1, [sp, #120]                  @ 4-byte Reload
	and	r5, r1, r2
	ldr	r1, [sp, #24]                   @ 4-byte Reload
	ldr	r2, [sp, #40]                   @ 4-byte Reload
	eor	r1, r1, r5
	and	r2, r2, r3
	eor	r4, r4, r1
	str	r2, [sp, #52]                   @ 4-byte Spill
	eor	r4, r4, r2
	ldr	r2, [sp, #36]                   @ 4-byte Reload
	ldr	r3, [sp, #80]                   @ 4-byte Reload
	eor	r4, r4, r2
	ldr	r2, [sp, #72]                   @ 4-byte Reload
	and	r5, r6, r3
	eor	r3, r4, r5
	and	r5, r11, r2
	ldr	r2, [sp, #32]                   @ 4-byte Reload
	eor	r5, r5, r2
	eor	r2, r5, r10
	mov	r10, r3
	eor	r2, r2, r3
	and	r5, r9, r2, ror #2
	and	r7, r8, r2, ror #10
	orr	r7, r7, r5
	eor	r3, r7, r2
	str	r3, [sp, #80]                   @ 4-byte Spill
	and	r2, lr, r3, ror #12
	and	r5, r12, r3, ror #20
	orr	r2, r5, r2
	ldr	r5, [r0, #52]
	ldr	r3, [sp, #116]                  @ 4-byte Reload
	eor	r2, r5, r2
	eor	r2, r2, r7
	and	r7, r9, r3, ror #2
	and	r5, r8, r3, ror #10
	orr	r5, r5, r7
	str	r5, [sp, #84]                   @ 4-byte Spill
	eor	r3, r5, r3
	str	r3, [sp, #44]                   @ 4-byte Spill
	eor	r2, r2, r3
	str	r2, [sp, #100]                  @ 4-byte Spill
	ldr	r2, [sp, #92]                   @ 4-byte Reload
	and	r2, r6, r2
	eor	r1, r1, r2
	ldr	r2, [sp, #60]                   @ 4-byte Reload
	eor	r3, r1, r2
	ldr	r1, [sp, #88]                   @ 4-byte Reload
	ldr	r2, [sp, #64]                   @ 4-byte Reload
	str	r3, [sp, #72]                   @ 4-byte Spill
	and	r1, r2, r1
	ldr	r2, [sp, #48]                   @ 4-byte Reload
	eor	r1, r3, r1
	ldr	r3, [r0, #36]
	eor	r11, r1, r2
	ldr	r2, [sp, #120]                  @ 4-byte Reload
	eor	r1, r11, r4
	and	r7, r9, r1, ror #2
	and	r6, r8, r1, ror #10
	orr	r6, r6, r7
	eor	r7, r6, r1
	ldr	r1, [sp, #104]                  @ 4-byte Reload
	and	r1, r2, r1
	ldr	r2, [sp, #56]                   @ 4-byte Reload
	eor	r1, r2, r1
	eor	r1, r1, r10
	and	r4, r9, r1, ror #2
	and	r5, r8, r1, ror #10
	orr	r5, r5, r4
	eor	r10, r5, r1
	and	r4, lr, r10, ror #12
	and	r1, r12, r10, ror #20
	orr	r2, r1, r4
	ldr	r1, [r0, #32]
	str	r1, [sp, #104]                  @ 4-byte Spill
	ldr	r1, [r0, #40]
	ldr	r4, [r0, #44]
	eor	r1, r1, r2
	and	r2, r12, r7, ror #20
	eor	r1, r1, r5
	ldr	r5, [sp, #76]                   @ 4-byte Reload
	eor	r1, r1, r7
	str	r1, [sp, #120]                  @ 4-byte Spill
	and	r1, lr, r7, ror #12
	str	r4, [sp, #88]                   @ 4-byte Spill
	orr	r1, r2, r1
	ldr	r2, [sp, #52]                   @ 4-byte Reload
	eor	r1, r3, r1
	ldr	r4, [sp, #104]                  @ 4-byte Reload
	eor	r2, r11, r2
	eor	r1, r1, r6
	and	r3, r9, r2, ror #2
	and	r7, r8, r2, ror #10
	orr	r3, r7, r3
	eor	r7, r3, r2
	ldr	r2, [sp, #68]                   @ 4-byte Reload
	eor	r1, r1, r7
	eor	r1, r1, r5
	str	r1, [sp, #92]                   @ 4-byte Spill
	and	r1, lr, r2, ror #12
	and	r2, r12, r2, ror #20
	orr	r1, r2, r1
	ldr	r2, [r0, #56]
	ldr	r0, [r0, #48]
	eor	r1, r2, r1
	ldr	r2, [sp, #96]                   @ 4-byte Reload
	eor	r1, r1, r2
	ldr	r2, [sp, #80]                   @ 4-byte Reload
	eor	r11, r1, r2
	and	r1, lr, r7, ror #12
	and	r7, r12, r7, ror #20
	orr	r1, r7, r1
	eor	r1, r4, r1
	eor	r1, r1, r3
	ldr	r3, [sp, #44]                   @ 4-byte Reload
	eor	r1, r1, r5
	str	r1, [sp, #104]                  @ 4-byte Spill
	and	r1, lr, r3, ror #12
	and	r3, r12, r3, ror #20
	orr	r1, r3, r1
	ldr	r3, [sp, #72]                   @ 4-byte Reload
	eor	r0, r0, r1
	ldr	r1, [sp, #84]                   @ 4-byte Reload
	eor	r0, r0, r1
	ldr	r1, [sp, #116]                  @ 4-byte Reload
	eor	r0, r0, r5
	eor	r1, r1, r3
	and	r3, r9, r1, ror #2
	and	r6, r8, r1, ror #10
	orr	r3, r6, r3
	eor	r1, r3, r1
	eor	r6, r0, r1
	and	r0, lr, r1, ror #12
	and	r1, r12, r1, ror #20
	orr	r0, r1, r0
	ldr	r1, [sp, #88]                   @ 4-byte Reload
	eor	r0, r1, r0
	eor	r0, r0, r10
	eor	r0, r0, r5
	ldr	r5, [sp, #16]                   @ 4-byte Reload
	eor	r1, r0, r3
	ldr	r0, [sp, #108]                  @ 4-byte Reload
	ldr	r3, [sp]                        @ 4-byte Reload
	orr	r0, r0, #2
	subs	r0, r0, r5
	ldr	r0, [sp, #12]                   @ 4-byte Reload
	sbcs	r0, r3, r0
	bhs	.Lgcm_BB14_6
@ %bb.5:                                @ %then.11.i
	ldr	r10, [sp, #120]                 @ 4-byte Reload
	mov	r2, r6
	ldr	r3, [sp, #112]                  @ 4-byte Reload
	ldr	r8, [sp, #92]                   @ 4-byte Reload
	eor	r7, r6, r10
	eor	r2, r2, r3
	str	r6, [sp, #60]                   @ 4-byte Spill
	eor	r5, r8, r3
	ldr	r9, [sp, #104]                  @ 4-byte Reload
	eor	r0, r5, r7
	str	r0, [sp, #116]                  @ 4-byte Spill
	eor	r0, r0, r1
	ldr	r1, [sp, #100]                  @ 4-byte Reload
	eor	r6, r0, r10
	eor	r0, r0, r11
	eor	r1, r11, r1
	str	r6, [sp, #108]                  @ 4-byte Spill
	eor	r12, r6, r1
	eor	r6, r0, r2
	str	r0, [sp, #100]                  @ 4-byte Spill
	eor	r0, r6, r12
	str	r0, [sp, #68]                   @ 4-byte Spill
	and	r4, r0, r7
	eor	r0, r1, r9
	and	lr, r6, r2
	str	r2, [sp, #84]                   @ 4-byte Spill
	eor	r2, r0, r8
	str	r7, [sp, #88]                   @ 4-byte Spill
	eor	r11, r4, lr
	eor	r4, r6, r1
	and	r7, r2, r0
	eor	r7, r4, r7
	and	r8, r4, r5
	eor	r1, r7, r8
	str	r5, [sp, #80]                   @ 4-byte Spill
	eor	r1, r1, r5
	eor	r5, r6, r9
	str	r6, [sp, #72]                   @ 4-byte Spill
	eor	r6, r0, r3
	str	r6, [sp, #64]                   @ 4-byte Spill
	and	r6, r5, r6
	eor	r7, r3, r10
	eor	r6, r4, r6
	eor	r6, r6, r8
	and	r10, r12, r7
	eor	lr, r10, lr
	eor	r6, r6, r3
	eor	r1, r1, r11
	eor	r6, r6, lr
	eor	r3, r6, r1
	str	r4, [sp, #56]                   @ 4-byte Spill
	str	r3, [sp, #48]                   @ 4-byte Spill
	ldr	r3, [sp, #116]                  @ 4-byte Reload
	ldr	r4, [sp, #108]                  @ 4-byte Reload
	str	r2, [sp, #96]                   @ 4-byte Spill
	eor	r2, r2, r7
	and	r8, r4, r3
	eor	r3, r4, r9
	str	r2, [sp, #92]                   @ 4-byte Spill
	and	r10, r3, r2
	ldr	r2, [sp, #100]                  @ 4-byte Reload
	str	r3, [sp, #76]                   @ 4-byte Spill
	eor	r3, r2, r10
	ldr	r2, [sp, #60]                   @ 4-byte Reload
	eor	r3, r3, r8
	str	r12, [sp, #44]                  @ 4-byte Spill
	mov	r12, r9
	eor	r9, r3, r11
	eor	r3, r0, r2
	str	r5, [sp, #120]                  @ 4-byte Spill
	and	r5, r3, r12
	ldr	r11, [sp, #44]                  @ 4-byte Reload
	eor	r5, r5, r7
	str	r7, [sp, #52]                   @ 4-byte Spill
	eor	r5, r5, r11
	and	r4, r1, r9
	eor	r5, r5, r8
	ldr	r2, [sp, #48]                   @ 4-byte Reload
	eor	r7, r5, lr
	str	r3, [sp, #112]                  @ 4-byte Spill
	eor	r5, r4, r7
	and	r5, r5, r2
	ldr	r2, [sp, #68]                   @ 4-byte Reload
	eor	r3, r5, r6
	eor	r5, r5, r4
	and	lr, r5, r6
	eor	r5, r9, r7
	eor	r6, r4, r6
	eor	r8, lr, r1
	and	r1, r6, r5
	eor	r10, r8, r3
	eor	r1, r1, r7
	eor	r7, lr, r6
	and	r7, r7, r1
	eor	r6, r1, r3
	eor	r7, r7, r5
	str	r7, [sp, #60]                   @ 4-byte Spill
	eor	r5, r7, r10
	and	r0, r7, r0
	eor	r4, r5, r6
	eor	r7, r7, r1
	and	r9, r4, r2
	ldr	r2, [sp, #56]                   @ 4-byte Reload
	str	r4, [sp, #48]                   @ 4-byte Spill
	and	r2, r7, r2
	str	r2, [sp, #68]                   @ 4-byte Spill
	eor	lr, r2, r0
	ldr	r0, [sp, #108]                  @ 4-byte Reload
	eor	r4, lr, r9
	and	r9, r3, r12
	and	r12, r8, r0
	and	r2, r5, r11
	eor	r0, r12, r9
	str	r0, [sp, #56]                   @ 4-byte Spill
	eor	r0, r2, r0
	ldr	r2, [sp, #80]                   @ 4-byte Reload
	str	r3, [sp, #100]                  @ 4-byte Spill
	and	r2, r7, r2
	str	r2, [sp, #108]                  @ 4-byte Spill
	eor	r0, r0, r2
	ldr	r3, [sp, #84]                   @ 4-byte Reload
	eor	r2, r0, r4
	ldr	r0, [sp, #64]                   @ 4-byte Reload
	str	r2, [sp, #80]                   @ 4-byte Spill
	and	r0, r1, r0
	eor	r2, r2, r0
	ldr	r0, [sp, #72]                   @ 4-byte Reload
	str	r2, [sp, #104]                  @ 4-byte Spill
	and	r0, r6, r0
	eor	r11, r4, r0
	ldr	r0, [sp, #52]                   @ 4-byte Reload
	and	r0, r5, r0
	and	r5, r6, r3
	eor	r0, r0, r5
	eor	r0, r0, r11
	eor	r0, r0, r2
	movw	r2, #61680
	movt	r2, #61680
	and	r6, r2, r0, ror #4
	movw	r2, #3855
	movt	r2, #3855
	and	r7, r2, r0, ror #12
	orr	r3, r7, r6
	ldr	r7, [sp, #28]                   @ 4-byte Reload
	eor	r6, r3, r0
	ldr	r0, [sp, #8]                    @ 4-byte Reload
	ldr	r2, [sp, #88]                   @ 4-byte Reload
	ldr	r0, [r7, r0, lsl #5]!
	str	r0, [sp, #64]                   @ 4-byte Spill
	ldr	r0, [r7, #20]
	eor	r0, r0, r6, ror #16
	eor	r3, r0, r3
	ldr	r0, [sp, #76]                   @ 4-byte Reload
	and	r0, r10, r0
	eor	r0, r0, r12
	eor	r12, r0, lr
	ldr	r0, [sp, #48]                   @ 4-byte Reload
	and	r4, r0, r2
	ldr	r2, [sp, #56]                   @ 4-byte Reload
	eor	lr, r4, r5
	ldr	r5, [sp, #92]                   @ 4-byte Reload
	and	r5, r10, r5
	eor	r0, lr, r5
	ldr	r5, [sp, #116]                  @ 4-byte Reload
	str	r0, [sp, #76]                   @ 4-byte Spill
	and	r4, r8, r5
	movw	r8, #3855
	eor	r9, r0, r4
	movt	r8, #3855
	eor	r0, r12, r9
	movw	r12, #61680
	movt	r12, #61680
	and	r4, r12, r0, ror #4
	and	r5, r8, r0, ror #12
	orr	r4, r5, r4
	str	r4, [sp, #92]                   @ 4-byte Spill
	eor	r4, r4, r0
	str	r4, [sp, #84]                   @ 4-byte Spill
	eor	r3, r3, r4
	eor	r4, r0, r11
	and	r5, r12, r4, ror #4
	and	r10, r8, r4, ror #12
	orr	r5, r10, r5
	eor	r10, r5, r4
	ldr	r4, [r7, #24]
	eor	r4, r4, r10, ror #16
	eor	r4, r4, r5
	eor	r4, r4, r6
	str	r4, [sp, #116]                  @ 4-byte Spill
	eor	r6, r3, r4
	ldr	r3, [sp, #120]                  @ 4-byte Reload
	str	r6, [sp, #72]                   @ 4-byte Spill
	and	r1, r1, r3
	ldr	r3, [sp, #60]                   @ 4-byte Reload
	eor	r1, r2, r1
	ldr	r2, [sp, #68]                   @ 4-byte Reload
	eor	r2, r1, r2
	ldr	r1, [sp, #96]                   @ 4-byte Reload
	str	r2, [sp, #68]                   @ 4-byte Spill
	and	r3, r3, r1
	ldr	r1, [sp, #108]                  @ 4-byte Reload
	eor	r3, r2, r3
	eor	r3, r3, lr
	eor	r2, r3, r1
	mov	r1, r12
	and	r5, r12, r2, ror #4
	and	r4, r8, r2, ror #12
	orr	r5, r4, r5
	mov	r12, r8
	eor	r4, r5, r2
	ldr	r2, [sp, #64]                   @ 4-byte Reload
	mov	r8, r1
	eor	r2, r2, r4, ror #16
	eor	lr, r2, r5
	eor	r2, r9, r11
	and	r5, r1, r2, ror #4
	and	r1, r12, r2, ror #12
	orr	r5, r1, r5
	eor	r2, r5, r2
	eor	r1, lr, r2
	str	r1, [sp, #108]                  @ 4-byte Spill
	eor	lr, r6, r1
	ldr	r1, [sp, #80]                   @ 4-byte Reload
	str	lr, [sp, #60]                   @ 4-byte Spill
	eor	r1, r3, r1
	and	r3, r8, r1, ror #4
	and	r6, r12, r1, ror #12
	orr	r3, r6, r3
	ldr	r6, [r7, #12]
	eor	r11, r3, r1
	ldmib	r7, {r1, r9}
	mov	r8, r12
	eor	r1, r1, r11, ror #16
	str	r6, [sp, #64]                   @ 4-byte Spill
	eor	r1, r1, r3
	ldr	r3, [r7, #28]
	eor	r1, r1, r4
	ldr	r6, [r7, #16]
	eor	r4, r1, r2
	eor	r3, r3, r2, ror #16
	eor	r1, lr, r4
	str	r1, [sp, #120]                  @ 4-byte Spill
	and	r1, r1, lr
	eor	r3, r3, r5
	str	r1, [sp, #96]                   @ 4-byte Spill
	eor	r3, r3, r10
	ldr	r1, [sp, #112]                  @ 4-byte Reload
	eor	r12, r3, r4
	ldr	r7, [sp, #100]                  @ 4-byte Reload
	movw	lr, #61680
	movt	lr, #61680
	mov	r10, r8
	and	r4, r7, r1
	ldr	r1, [sp, #76]                   @ 4-byte Reload
	str	r12, [sp, #88]                  @ 4-byte Spill
	eor	r4, r1, r4
	ldr	r1, [sp, #104]                  @ 4-byte Reload
	eor	r4, r4, r1
	ldr	r1, [sp, #84]                   @ 4-byte Reload
	and	r5, lr, r4, ror #4
	and	r7, r8, r4, ror #12
	orr	r5, r7, r5
	eor	r4, r5, r4
	eor	r7, r9, r4, ror #16
	eor	r7, r7, r5
	eor	r8, r7, r11
	eor	r7, r6, r1, ror #16
	ldr	r1, [sp, #92]                   @ 4-byte Reload
	eor	r7, r7, r1
	ldr	r1, [sp, #68]                   @ 4-byte Reload
	eor	r7, r7, r2
	eor	r0, r0, r1
	and	r6, lr, r0, ror #4
	and	r1, r10, r0, ror #12
	orr	r1, r1, r6
	eor	r6, r1, r0
	eor	r10, r7, r6
	ldr	r7, [sp, #64]                   @ 4-byte Reload
	eor	r11, r10, r8
	str	r11, [sp, #80]                  @ 4-byte Spill
	eor	r7, r7, r6, ror #16
	eor	r0, r12, r11
	eor	r7, r7, r4
	str	r0, [sp, #112]                  @ 4-byte Spill
	eor	r2, r7, r2
	ldr	r7, [sp, #96]                   @ 4-byte Reload
	eor	r1, r2, r1
	eor	r1, r1, r0
	ldr	r0, [sp, #116]                  @ 4-byte Reload
	eor	r2, r1, r0
	eor	r0, r3, r10
	str	r2, [sp, #116]                  @ 4-byte Spill
	eor	r9, r2, r0
	mov	r2, r0
	str	r0, [sp, #64]                   @ 4-byte Spill
	ldr	r0, [sp, #72]                   @ 4-byte Reload
	eor	r1, r1, r8
	str	r1, [sp, #100]                  @ 4-byte Spill
	eor	lr, r9, r0
	eor	r0, r1, r0
	eor	r6, lr, r7
	and	r5, lr, r12
	eor	r6, r6, r5
	eor	r1, r9, r0
	eor	r12, r6, r12
	str	r1, [sp, #72]                   @ 4-byte Spill
	and	r1, r1, r11
	and	r6, r9, r2
	eor	r11, r1, r6
	ldr	r1, [sp, #108]                  @ 4-byte Reload
	eor	r7, r12, r11
	ldr	r12, [sp, #60]                  @ 4-byte Reload
	str	r0, [sp, #104]                  @ 4-byte Spill
	eor	r4, r9, r1
	eor	r0, r12, r3
	str	r4, [sp, #96]                   @ 4-byte Spill
	and	r4, r4, r0
	str	r0, [sp, #84]                   @ 4-byte Spill
	eor	r4, lr, r4
	str	lr, [sp, #52]                   @ 4-byte Spill
	eor	r0, r4, r5
	eor	r5, r3, r8
	ldr	r8, [sp, #104]                  @ 4-byte Reload
	eor	r0, r0, r3
	str	r5, [sp, #76]                   @ 4-byte Spill
	and	r3, r8, r5
	eor	lr, r3, r6
	ldr	r6, [sp, #100]                  @ 4-byte Reload
	eor	r4, r0, lr
	eor	r0, r4, r7
	str	r0, [sp, #68]                   @ 4-byte Spill
	ldr	r0, [sp, #112]                  @ 4-byte Reload
	and	r3, r6, r0
	ldr	r0, [sp, #120]                  @ 4-byte Reload
	eor	r2, r0, r5
	eor	r0, r6, r1
	str	r0, [sp, #40]                   @ 4-byte Spill
	and	r6, r0, r2
	ldr	r0, [sp, #116]                  @ 4-byte Reload
	str	r2, [sp, #56]                   @ 4-byte Spill
	mov	r2, r12
	eor	r6, r0, r6
	eor	r0, r12, r10
	str	r0, [sp, #92]                   @ 4-byte Spill
	and	r0, r0, r1
	eor	r0, r0, r5
	eor	r6, r6, r3
	eor	r0, r0, r8
	eor	r6, r6, r11
	eor	r0, r0, r3
	and	r11, r7, r6
	eor	r3, r0, lr
	ldr	r1, [sp, #68]                   @ 4-byte Reload
	eor	r0, r11, r3
	and	r0, r0, r1
	eor	r1, r0, r4
	eor	r0, r0, r11
	and	r5, r0, r4
	str	r1, [sp, #116]                  @ 4-byte Spill
	eor	r12, r5, r7
	mov	r0, r1
	eor	lr, r12, r1
	eor	r1, r6, r3
	eor	r4, r11, r4
	and	r6, r4, r1
	eor	r10, r6, r3
	eor	r3, r5, r4
	and	r3, r3, r10
	eor	r4, r10, r0
	eor	r3, r3, r1
	ldr	r0, [sp, #72]                   @ 4-byte Reload
	eor	r6, r3, lr
	and	r5, r3, r2
	eor	r8, r6, r4
	ldr	r2, [sp, #52]                   @ 4-byte Reload
	and	r1, r8, r0
	eor	r0, r3, r10
	str	r0, [sp, #48]                   @ 4-byte Spill
	and	r0, r0, r2
	eor	r7, r0, r5
	str	r0, [sp, #72]                   @ 4-byte Spill
	eor	r0, r7, r1
	and	r1, r4, r9
	str	r3, [sp, #68]                   @ 4-byte Spill
	eor	r3, r0, r1
	str	r0, [sp, #44]                   @ 4-byte Spill
	movw	r5, #771
	ldr	r0, [sp, #40]                   @ 4-byte Reload
	movt	r5, #771
	and	r2, lr, r0
	ldr	r0, [sp, #100]                  @ 4-byte Reload
	and	r9, r12, r0
	ldr	r0, [sp, #80]                   @ 4-byte Reload
	eor	r2, r2, r9
	eor	r2, r2, r7
	and	r7, r8, r0
	ldr	r0, [sp, #64]                   @ 4-byte Reload
	and	r4, r4, r0
	ldr	r0, [sp, #56]                   @ 4-byte Reload
	eor	r1, r7, r4
	str	r1, [sp, #52]                   @ 4-byte Spill
	and	r0, lr, r0
	movw	lr, #64764
	eor	r1, r1, r0
	ldr	r0, [sp, #112]                  @ 4-byte Reload
	movt	lr, #64764
	str	r1, [sp, #60]                   @ 4-byte Spill
	and	r0, r12, r0
	eor	r0, r1, r0
	eor	r8, r2, r0
	eor	r0, r0, r3
	eor	r2, r8, r3
	str	r8, [sp, #64]                   @ 4-byte Spill
	and	r12, lr, r2, ror #6
	and	r7, r5, r2, ror #14
	orr	r7, r7, r12
	str	r7, [sp, #112]                  @ 4-byte Spill
	eor	r1, r7, r2
	and	r2, lr, r0, ror #6
	and	r7, r5, r0, ror #14
	mov	lr, r5
	orr	r2, r7, r2
	movw	r7, #3855
	eor	r11, r2, r0
	movw	r0, #61680
	movt	r0, #61680
	movt	r7, #3855
	and	r0, r0, r11, ror #12
	and	r7, r7, r11, ror #20
	orr	r0, r7, r0
	ldr	r7, [sp, #16]                   @ 4-byte Reload
	ldr	r5, [sp, #28]                   @ 4-byte Reload
	str	r1, [sp, #80]                   @ 4-byte Spill
	add	r12, r5, r7, lsl #5
	ldr	r7, [r12, #-4]
	eor	r0, r7, r0
	eor	r0, r0, r2
	ldr	r2, [sp, #108]                  @ 4-byte Reload
	eor	r0, r0, r1
	ldr	r1, [sp, #116]                  @ 4-byte Reload
	str	r0, [sp, #100]                  @ 4-byte Spill
	ldr	r0, [sp, #104]                  @ 4-byte Reload
	and	r2, r1, r2
	eor	r7, r9, r2
	ldr	r1, [sp, #48]                   @ 4-byte Reload
	and	r0, r6, r0
	movw	r9, #64764
	eor	r2, r0, r7
	ldr	r0, [sp, #88]                   @ 4-byte Reload
	movt	r9, #64764
	and	r0, r1, r0
	str	r0, [sp, #56]                   @ 4-byte Spill
	eor	r2, r2, r0
	ldr	r0, [sp, #44]                   @ 4-byte Reload
	ldr	r1, [sp, #76]                   @ 4-byte Reload
	eor	r0, r2, r0
	ldr	r2, [sp, #84]                   @ 4-byte Reload
	and	r2, r10, r2
	eor	r5, r0, r2
	and	r2, r6, r1
	eor	r2, r2, r4
	eor	r1, r2, r3
	eor	r1, r1, r5
	and	r2, r9, r1, ror #6
	and	r3, lr, r1, ror #14
	orr	r3, r3, r2
	movw	r2, #61680
	eor	r6, r3, r1
	movt	r2, #61680
	str	r6, [sp, #88]                   @ 4-byte Spill
	and	r1, r2, r6, ror #12
	movw	r2, #3855
	movt	r2, #3855
	and	r4, r2, r6, ror #20
	orr	r1, r4, r1
	ldr	r4, [r12, #-12]
	eor	r1, r4, r1
	and	r4, lr, r8, ror #14
	eor	r1, r1, r3
	and	r3, r9, r8, ror #6
	orr	r2, r4, r3
	mov	r9, lr
	eor	lr, r2, r8
	str	r2, [sp, #104]                  @ 4-byte Spill
	eor	r1, r1, lr
	str	r1, [sp, #108]                  @ 4-byte Spill
	ldr	r1, [sp, #96]                   @ 4-byte Reload
	ldr	r2, [sp, #72]                   @ 4-byte Reload
	and	r1, r10, r1
	ldr	r8, [r12, #-24]
	eor	r1, r7, r1
	eor	r3, r1, r2
	ldr	r1, [sp, #120]                  @ 4-byte Reload
	ldr	r2, [sp, #68]                   @ 4-byte Reload
	str	r3, [sp, #96]                   @ 4-byte Spill
	and	r4, r2, r1
	ldr	r1, [sp, #52]                   @ 4-byte Reload
	eor	r4, r3, r4
	ldr	r2, [sp, #116]                  @ 4-byte Reload
	eor	r6, r4, r1
	movw	r1, #64764
	eor	r0, r6, r0
	movt	r1, #64764
	movw	r3, #3855
	and	r4, r1, r0, ror #6
	and	r7, r9, r0, ror #14
	orr	r7, r7, r4
	ldr	r4, [sp, #92]                   @ 4-byte Reload
	movt	r3, #3855
	eor	r0, r7, r0
	and	r4, r2, r4
	ldr	r2, [sp, #60]                   @ 4-byte Reload
	eor	r4, r2, r4
	movw	r2, #61680
	eor	r4, r4, r5
	movt	r2, #61680
	and	r5, r1, r4, ror #6
	and	r1, r9, r4, ror #14
	orr	r1, r1, r5
	eor	r9, r1, r4
	and	r4, r2, r9, ror #12
	and	r5, r3, r9, ror #20
	orr	r10, r5, r4
	ldr	r2, [r12, #-32]
	eor	r5, r8, r10
	str	r2, [sp, #116]                  @ 4-byte Spill
	eor	r1, r5, r1
	ldr	r2, [r12, #-28]
	eor	r8, r1, r0
	movw	r1, #61680
	movt	r1, #61680
	ldr	r4, [r12, #-20]
	and	r1, r1, r0, ror #12
	and	r0, r3, r0, ror #20
	orr	r0, r0, r1
	ldr	r1, [sp, #56]                   @ 4-byte Reload
	eor	r0, r2, r0
	movw	r2, #64764
	str	r4, [sp, #120]                  @ 4-byte Spill
	eor	r1, r6, r1
	ldr	r4, [sp, #80]                   @ 4-byte Reload
	mov	r10, r3
	movt	r2, #64764
	movw	r3, #771
	eor	r0, r0, r7
	movw	r7, #61680
	movt	r3, #771
	and	r5, r3, r1, ror #14
	and	r2, r2, r1, ror #6
	movt	r7, #61680
	orr	r2, r5, r2
	and	r5, r7, r4, ror #12
	and	r6, r10, r4, ror #20
	ldr	r4, [sp, #112]                  @ 4-byte Reload
	orr	r5, r6, r5
	ldr	r6, [r12, #-8]
	eor	r1, r2, r1
	ldr	r3, [sp, #88]                   @ 4-byte Reload
	eor	r5, r6, r5
	eor	r0, r0, r1
	eor	r5, r5, r4
	mov	r6, r7
	eor	r4, r5, r3
	and	r5, r7, r1, ror #12
	and	r1, r10, r1, ror #20
	ldr	r3, [sp, #116]                  @ 4-byte Reload
	orr	r1, r1, r5
	mov	r7, r10
	eor	r1, r3, r1
	ldr	r3, [sp, #96]                   @ 4-byte Reload
	eor	r1, r1, r2
	and	r2, r7, lr, ror #20
	eor	r5, r1, r11
	and	r1, r6, lr, ror #12
	orr	r1, r2, r1
	ldr	r2, [r12, #-16]
	mov	r10, r6
	movw	r6, #771
	eor	r1, r2, r1
	ldr	r2, [sp, #104]                  @ 4-byte Reload
	movt	r6, #771
	eor	r0, r0, r11
	eor	r1, r1, r2
	ldr	r2, [sp, #64]                   @ 4-byte Reload
	eor	r1, r1, r11
	mov	r12, r5
	eor	r2, r2, r3
	movw	r3, #64764
	movt	r3, #64764
	and	r3, r3, r2, ror #6
	and	r6, r6, r2, ror #14
	orr	r3, r6, r3
	eor	r2, r3, r2
	eor	lr, r1, r2
	and	r1, r10, r2, ror #12
	and	r2, r7, r2, ror #20
	orr	r1, r2, r1
	ldr	r2, [sp, #120]                  @ 4-byte Reload
	ldr	r10, [sp, #100]                 @ 4-byte Reload
	eor	r1, r2, r1
	ldr	r2, [sp, #16]                   @ 4-byte Reload
	eor	r1, r1, r9
	eor	r1, r1, r11
	eor	r1, r1, r3
	lsl	r2, r2, #5
	b	.Lgcm_BB14_7
.Lgcm_BB14_6:                               @ %else.12.i
	ldr	r7, [sp, #112]                  @ 4-byte Reload
	movw	r3, #3840
	movt	r3, #3840
	ldr	r2, [sp, #100]                  @ 4-byte Reload
	eor	r0, r7, r7, lsr #4
	and	r0, r0, r3
	orr	r0, r0, r0, lsl #4
	eor	r10, r0, r7
	eor	r0, r11, r11, lsr #4
	and	r0, r0, r3
	ldr	r7, [sp, #104]                  @ 4-byte Reload
	orr	r0, r0, r0, lsl #4
	eor	r4, r0, r11
	eor	r0, r2, r2, lsr #4
	and	r0, r0, r3
	orr	r0, r0, r0, lsl #4
	eor	r0, r0, r2
	str	r0, [sp, #108]                  @ 4-byte Spill
	eor	r0, r6, r6, lsr #4
	ldr	r2, [sp, #120]                  @ 4-byte Reload
	and	r0, r0, r3
	orr	r0, r0, r0, lsl #4
	eor	lr, r0, r6
	eor	r0, r1, r1, lsr #4
	and	r0, r0, r3
	orr	r0, r0, r0, lsl #4
	eor	r1, r0, r1
	eor	r0, r2, r2, lsr #4
	and	r0, r0, r3
	orr	r0, r0, r0, lsl #4
	eor	r8, r0, r2
	ldr	r2, [sp, #92]                   @ 4-byte Reload
	eor	r0, r2, r2, lsr #4
	and	r0, r0, r3
	orr	r0, r0, r0, lsl #4
	eor	r0, r0, r2
	eor	r2, r7, r7, lsr #4
	and	r2, r2, r3
	orr	r2, r2, r2, lsl #4
	eor	r12, r2, r7
	lsl	r2, r5, #5
.Lgcm_BB14_7:                               @ %"aes_soft::soft::ciphers::planes::EncryptPlaneCipher::process_planes::<#49ec3a76f5e72ccf>.exit"
	eor	r6, lr, r8
	mov	r3, r10
	eor	r10, r10, r0
	str	r2, [sp, #112]                  @ 4-byte Spill
	eor	r2, r10, r6
	str	r2, [sp, #120]                  @ 4-byte Spill
	eor	r1, r2, r1
	ldr	r2, [sp, #108]                  @ 4-byte Reload
	eor	r5, r1, r8
	eor	r1, r1, r4
	eor	r7, r4, r2
	eor	r4, r3, lr
	str	r5, [sp, #116]                  @ 4-byte Spill
	eor	r5, r5, r7
	eor	r2, r1, r4
	eor	r11, r7, r12
	str	lr, [sp, #72]                   @ 4-byte Spill
	eor	lr, r11, r0
	str	r1, [sp, #80]                   @ 4-byte Spill
	eor	r1, r2, r5
	str	r1, [sp, #92]                   @ 4-byte Spill
	and	r1, r1, r6
	str	r6, [sp, #76]                   @ 4-byte Spill
	and	r6, r2, r4
	str	r4, [sp, #68]                   @ 4-byte Spill
	eor	r4, r2, r7
	and	r0, lr, r11
	eor	r9, r1, r6
	eor	r0, r4, r0
	mov	r1, r10
	str	r10, [sp, #84]                  @ 4-byte Spill
	and	r10, r4, r10
	eor	r0, r0, r10
	str	r8, [sp, #104]                  @ 4-byte Spill
	eor	r0, r0, r1
	str	r2, [sp, #108]                  @ 4-byte Spill
	eor	r1, r0, r9
	ldr	r0, [sp, #104]                  @ 4-byte Reload
	mov	r7, r5
	str	r5, [sp, #40]                   @ 4-byte Spill
	eor	r0, r3, r0
	str	r4, [sp, #64]                   @ 4-byte Spill
	and	r8, r5, r0
	eor	r5, r2, r12
	eor	r2, r11, r3
	str	r2, [sp, #100]                  @ 4-byte Spill
	and	r2, r5, r2
	str	r5, [sp, #60]                   @ 4-byte Spill
	eor	r2, r4, r2
	ldr	r4, [sp, #116]                  @ 4-byte Reload
	eor	r2, r2, r10
	eor	r5, lr, r0
	eor	r2, r2, r3
	ldr	r3, [sp, #120]                  @ 4-byte Reload
	str	r5, [sp, #88]                   @ 4-byte Spill
	eor	r6, r8, r6
	and	r10, r4, r3
	eor	r3, r4, r12
	str	r3, [sp, #96]                   @ 4-byte Spill
	and	r5, r3, r5
	ldr	r3, [sp, #80]                   @ 4-byte Reload
	eor	r2, r2, r6
	eor	r8, r2, r1
	str	r0, [sp, #104]                  @ 4-byte Spill
	eor	r5, r3, r5
	ldr	r3, [sp, #72]                   @ 4-byte Reload
	eor	r5, r5, r10
	str	lr, [sp, #48]                   @ 4-byte Spill
	eor	r3, r11, r3
	eor	r9, r5, r9
	and	r4, r3, r12
	and	r5, r1, r9
	eor	r4, r4, r0
	str	r3, [sp, #80]                   @ 4-byte Spill
	eor	r4, r4, r7
	eor	r4, r4, r10
	eor	r10, r4, r6
	eor	r4, r5, r10
	and	r4, r4, r8
	eor	r8, r4, r2
	eor	r4, r4, r5
	and	r0, r4, r2
	eor	r5, r5, r2
	eor	r6, r0, r1
	eor	r1, r9, r10
	and	r2, r5, r1
	eor	r0, r0, r5
	eor	r2, r2, r10
	eor	r3, r6, r8
	and	r0, r0, r2
	str	r3, [sp, #44]                   @ 4-byte Spill
	eor	r1, r0, r1
	ldr	r0, [sp, #76]                   @ 4-byte Reload
	eor	lr, r1, r3
	eor	r3, r2, r8
	ldr	r4, [sp, #68]                   @ 4-byte Reload
	eor	r5, lr, r3
	str	r3, [sp, #72]                   @ 4-byte Spill
	and	r0, r5, r0
	and	r3, r3, r4
	str	r3, [sp, #76]                   @ 4-byte Spill
	eor	r10, r0, r3
	ldr	r0, [sp, #116]                  @ 4-byte Reload
	ldr	r3, [sp, #60]                   @ 4-byte Reload
	and	r12, r8, r12
	and	r0, r6, r0
	str	r6, [sp, #56]                   @ 4-byte Spill
	str	r0, [sp, #68]                   @ 4-byte Spill
	eor	r0, r0, r12
	and	r3, r2, r3
	ldr	r6, [sp, #48]                   @ 4-byte Reload
	ldr	r4, [sp, #64]                   @ 4-byte Reload
	eor	r12, r0, r3
	eor	r3, r1, r2
	and	r9, r1, r6
	and	r7, r3, r4
	and	r1, r1, r11
	ldr	r6, [sp, #92]                   @ 4-byte Reload
	eor	r4, r12, r7
	eor	r1, r7, r1
	ldr	r7, [sp, #40]                   @ 4-byte Reload
	and	r5, r5, r6
	ldr	r12, [sp, #28]                  @ 4-byte Reload
	eor	r6, r1, r5
	and	r5, lr, r7
	eor	r0, r5, r0
	ldr	r5, [sp, #112]                  @ 4-byte Reload
	ldr	r7, [sp, #84]                   @ 4-byte Reload
	str	r4, [sp, #64]                   @ 4-byte Spill
	eor	r4, r4, r9
	ldr	r5, [r12, r5]!
	and	r3, r3, r7
	eor	r0, r0, r3
	eor	r4, r4, r10
	ldmib	r12, {r7, r9}
	eor	r3, r3, r5
	eor	r0, r0, r6
	eor	r7, r0, r7
	eor	r3, r3, r4
	eor	r7, r7, r4
	movw	r4, #21845
	str	r3, [sp, #116]                  @ 4-byte Spill
	eor	r3, r7, r3, lsr #1
	movt	r4, #21845
	and	r3, r3, r4
	eor	r11, r3, r7
	str	r3, [sp, #112]                  @ 4-byte Spill
	ldr	r3, [sp, #100]                  @ 4-byte Reload
	ldr	r5, [sp, #44]                   @ 4-byte Reload
	and	r2, r2, r3
	str	lr, [sp, #52]                   @ 4-byte Spill
	eor	r4, r0, r2
	ldr	r0, [sp, #88]                   @ 4-byte Reload
	ldr	r2, [sp, #80]                   @ 4-byte Reload
	mov	lr, r6
	and	r0, r5, r0
	ldr	r6, [r12, #12]
	and	r2, r8, r2
	eor	r0, r10, r0
	eor	r2, r2, r9
	str	r6, [sp, #60]                   @ 4-byte Spill
	eor	r2, r2, r0
	ldr	r6, [r12, #16]
	eor	r3, r2, r4
	ldr	r2, [sp, #96]                   @ 4-byte Reload
	str	r6, [sp, #92]                   @ 4-byte Spill
	and	r2, r5, r2
	ldr	r5, [sp, #68]                   @ 4-byte Reload
	str	r11, [sp, #84]                  @ 4-byte Spill
	eor	r2, r2, r5
	ldr	r5, [sp, #56]                   @ 4-byte Reload
	eor	r1, r2, r1
	ldr	r2, [sp, #120]                  @ 4-byte Reload
	str	r3, [sp, #100]                  @ 4-byte Spill
	and	r2, r5, r2
	movw	r5, #21845
	eor	r7, r0, r2
	ldr	r0, [sp, #64]                   @ 4-byte Reload
	eor	r6, r1, r7
	ldr	r1, [sp, #60]                   @ 4-byte Reload
	movt	r5, #21845
	eor	r0, r0, r1
	eor	r0, r0, r6
	eor	r1, r0, r3, lsr #1
	ldr	r3, [sp, #52]                   @ 4-byte Reload
	and	r9, r1, r5
	eor	r0, r9, r0
	eor	r1, r0, r11, lsr #2
	movw	r11, #13107
	movt	r11, #13107
	and	r2, r1, r11
	eor	r8, r2, r0
	ldr	r0, [sp, #108]                  @ 4-byte Reload
	ldr	r1, [sp, #72]                   @ 4-byte Reload
	and	r1, r1, r0
	eor	r0, lr, r1
	ldr	r1, [sp, #104]                  @ 4-byte Reload
	and	r1, r3, r1
	ldr	r3, [r12, #20]
	eor	r1, r3, r1
	ldr	r3, [sp, #76]                   @ 4-byte Reload
	eor	r1, r1, r3
	eor	r1, r1, r0
	eor	r3, r1, r4
	ldr	r1, [sp, #92]                   @ 4-byte Reload
	eor	lr, r6, r1
	mov	r1, r5
	eor	r4, r3, lr, lsr #1
	and	r10, r4, r5
	ldr	r5, [r12, #24]
	eor	r3, r10, r3
	ldr	r4, [sp, #4]                    @ 4-byte Reload
	eor	r5, r0, r5
	eor	r6, r5, r6
	ldr	r5, [r12, #28]
	movw	r12, #3855
	eor	r0, r0, r5
	movt	r12, #3855
	eor	r0, r0, r7
	eor	r7, r0, r6, lsr #1
	and	r7, r7, r1
	eor	r0, r7, r0
	eor	r5, r0, r3, lsr #2
	and	r5, r5, r11
	eor	r0, r5, r0
	eor	r1, r0, r8, lsr #4
	and	r1, r1, r12
	eor	r0, r1, r0
	str	r0, [r4, #28]
	ldr	r0, [sp, #84]                   @ 4-byte Reload
	eor	r1, r8, r1, lsl #4
	str	r1, [r4, #20]
	eor	r1, lr, r10, lsl #1
	eor	r0, r0, r2, lsl #2
	eor	r2, r3, r5, lsl #2
	eor	r3, r2, r0, lsr #4
	and	r3, r3, r12
	eor	r2, r3, r2
	str	r2, [r4, #24]
	eor	r0, r0, r3, lsl #4
	str	r0, [r4, #16]
	eor	r0, r6, r7, lsl #1
	ldr	r7, [sp, #112]                  @ 4-byte Reload
	ldr	r3, [sp, #116]                  @ 4-byte Reload
	eor	r2, r0, r1, lsr #2
	and	r2, r2, r11
	eor	r3, r3, r7, lsl #1
	ldr	r7, [sp, #100]                  @ 4-byte Reload
	eor	r0, r2, r0
	eor	r1, r1, r2, lsl #2
	eor	r7, r7, r9, lsl #1
	eor	r6, r7, r3, lsr #2
	and	r6, r6, r11
	eor	r7, r6, r7
	eor	r5, r0, r7, lsr #4
	and	r5, r5, r12
	eor	r0, r5, r0
	str	r0, [r4, #12]
	eor	r0, r3, r6, lsl #2
	eor	r2, r1, r0, lsr #4
	and	r2, r2, r12
	eor	r1, r2, r1
	str	r1, [r4, #8]
	eor	r1, r7, r5, lsl #4
	eor	r0, r0, r2, lsl #4
	str	r1, [r4, #4]
	str	r0, [r4]
	add	sp, sp, #124
	pop	{r4, r5, r6, r7, r8, r9, r10, r11, pc}
.Lgcm_func_end14:
	.size	gcm.aes_soft.soft.ciphers.planes.process_outlined, .Lgcm_func_end14-gcm.aes_soft.soft.ciphers.planes.process_outlined
	.cantunwind
	.fnend
                                        @ -- End function
	.section	.text.gcm.aes_cipher.zeroize.stack.wipe_stack.1024,"ax",%progbits
	.p2align	2                               @ -- Begin function aes_cipher::zeroize::stack::wipe_stack::<=1024>
	.type	gcm.aes_cipher.zeroize.stack.wipe_stack.1024,%function
	.code	32
gcm.aes_cipher.zeroize.stack.wipe_stack.1024: @ @gcm.aes_cipher.zeroize.stack.wipe_stack.1024
	.fnstart
@ %bb.0:                                @ %start
	.save	{r4, r5, r6, r7, r8, lr}
	push	{r4, r5, r6, r7, r8, lr}
	.pad	#8
	sub	sp, sp, #8
	.pad	#1024
	sub	sp, sp, #1024
	add	r4, sp, #8
	mov	r1, #0
	mov	r2, #1024
	mov	r7, #0
	mov	r0, r4
	bl	memset
	str	r7, [sp, #4]
	str	r7, [sp]
	@APP
	@NO_APP
	ldrd	r0, r1, [sp]
	@APP
	@NO_APP
	subs	r2, r0, #1024
	sbcs	r2, r1, #0
	bhs	.Lgcm_BB15_2
@ %bb.1:                                @ %then.1
	ldrb	r6, [r4, r0]
	@APP
	@NO_APP
	ldrd	r0, r1, [sp]
	strd	r6, r7, [sp]
	@APP
	@NO_APP
.Lgcm_BB15_2:                               @ %common.ret
	add	sp, sp, #8
	add	sp, sp, #1024
	pop	{r4, r5, r6, r7, r8, pc}
.Lgcm_func_end15:
	.size	gcm.aes_cipher.zeroize.stack.wipe_stack.1024, .Lgcm_func_end15-gcm.aes_cipher.zeroize.stack.wipe_stack.1024
	.cantunwind
	.fnend
                                        @ -- End function
	.section	.text.gcm.gcm.mode.BorrowedGcm.hash_so_far,"ax",%progbits
	.p2align	2                               @ -- Begin function gcm::mode::BorrowedGcm::hash_so_far::<#84a61a6dd6ff62d6>
	.type	gcm.gcm.mode.BorrowedGcm.hash_so_far,%function
	.code	32
gcm.gcm.mode.BorrowedGcm.hash_so_far: @ @gcm.gcm.mode.BorrowedGcm.hash_so_far
	.fnstart
@ %bb.0:                                @ %start
	.save	{r4, r5, r6, r7, r8, r9, r11, lr}
	push	{r4, r5, r6, r7, r8, r9, r11, lr}
	.pad	#32
	sub	sp, sp, #32
	ldrd	r2, r3, [r1, #24]
	add	r5, r1, #8
	ldr	r8, [r1, #48]
	subs	r2, r2, #1
	mov	r4, r5
	sbc	r3, r3, #0
	tst	r2, #255
	moveq	r4, r1
	subs	r2, r2, #4
	sbcs	r2, r3, #0
	ldm	r0, {r12, lr}
	movhs	r4, r5
	ldr	r4, [r4]
	mov	r5, #0
	ldr	r2, [r0, #8]
	ldr	r3, [r0, #12]
	add	r0, r1, #64
	ldr	r9, [r1, #52]
	and	r4, r4, #15
	ldr	r6, [r1, #56]
	ldr	r7, [r1, #60]
	rev	r1, r8
	str	r1, [sp, #12]
	mov	r1, lr
	str	r0, [sp, #16]
	mov	r0, r12
	strd	r4, r5, [sp, #24]
	rev	r5, r6
	rev	r4, r9
	rev	r6, r7
	str	r6, [sp]
	str	r5, [sp, #4]
	str	r4, [sp, #8]
	bl	gcm.gcm.single_blocks.hash_singly.1
	add	sp, sp, #32
	pop	{r4, r5, r6, r7, r8, r9, r11, pc}
.Lgcm_func_end16:
	.size	gcm.gcm.mode.BorrowedGcm.hash_so_far, .Lgcm_func_end16-gcm.gcm.mode.BorrowedGcm.hash_so_far
	.cantunwind
	.fnend
                                        @ -- End function
	.section	.text.gcm.gcm.mode.put_subkey,"ax",%progbits
	.p2align	2                               @ -- Begin function gcm::mode::put_subkey::<#dab42bd6aa024cc0>
	.type	gcm.gcm.mode.put_subkey,%function
	.code	32
gcm.gcm.mode.put_subkey: @ @gcm.gcm.mode.put_subkey
	.fnstart
@ %bb.0:                                @ %start
	.save	{r4, r5, r11, lr}
	push	{r4, r5, r11, lr}
	.pad	#32
	sub	sp, sp, #32
	mov	r1, #0
	mov	r4, #1
	str	r4, [sp, #8]
	add	r5, sp, #16
	str	r1, [sp, #28]
	str	r1, [sp, #24]
	str	r1, [sp, #20]
	str	r1, [sp, #16]
	str	r1, [sp, #12]
	str	r5, [sp]
	bl	gcm.aes_narrow.blocks.process_all_batches
	bl	gcm.aes_cipher.zeroize.stack.wipe_stack.1024
	add	r3, sp, #16
	ldr	r4, [sp, #48]
	ldm	r3, {r0, r1, r2, r3}
	rev	r0, r0
	str	r0, [r4, #12]
	rev	r0, r1
	str	r0, [r4, #8]
	rev	r0, r2
	str	r0, [r4, #4]
	rev	r0, r3
	str	r0, [r4]
	mov	r0, r5
	bl	gcm.aes_cipher.zeroize.elements.zeroize_elements.2
	add	sp, sp, #32
	pop	{r4, r5, r11, pc}
.Lgcm_func_end17:
	.size	gcm.gcm.mode.put_subkey, .Lgcm_func_end17-gcm.gcm.mode.put_subkey
	.cantunwind
	.fnend
                                        @ -- End function
	.section	.text.gcm.gcm.mode.BorrowedGcm.compare,"ax",%progbits
	.p2align	2                               @ -- Begin function gcm::mode::BorrowedGcm::compare::<#84a61a6dd6ff62d6>
	.type	gcm.gcm.mode.BorrowedGcm.compare,%function
	.code	32
gcm.gcm.mode.BorrowedGcm.compare: @ @gcm.gcm.mode.BorrowedGcm.compare
	.fnstart
@ %bb.0:                                @ %start
	.save	{r4, r5, r6, r7, r8, r9, r10, r11, lr}
	push	{r4, r5, r6, r7, r8, r9, r10, r11, lr}
	.pad	#44
	sub	sp, sp, #44
	orrs	r7, r2, r3
	beq	.Lgcm_BB18_2
@ %bb.1:                                @ %else.7
	ldr	r4, [sp, #116]
	mov	r7, r0
	ldr	r9, [sp, #108]
	ldr	r10, [sp, #104]
	ldr	r8, [sp, #88]
	ldr	r11, [sp, #96]
	ldr	r6, [sp, #80]
	str	r4, [sp]
	bl	gcm.gcm.mode.BorrowedGcm.put_pre_counter
	ldr	r0, [sp, #92]
	mov	r1, r4
	mov	r2, r6
	add	r5, sp, #28
	stmib	sp, {r0, r11}
	mov	r0, r7
	str	r10, [sp, #16]
	str	r9, [sp, #20]
	str	r5, [sp, #24]
	str	r8, [sp]
	bl	gcm.gcm.mode.BorrowedGcm.put_tag
	ldr	r0, [sp, #112]
	mov	r1, r5
	bl	gcm.aes_cipher.blocks.difference
	mov	r4, r0
	mov	r0, r5
	bl	gcm.aes_cipher.zeroize.elements.zeroize_elements.2
	mov	r0, r4
	cmp	r4, #0
	movwne	r0, #1
	add	sp, sp, #44
	pop	{r4, r5, r6, r7, r8, r9, r10, r11, pc}
.Lgcm_BB18_2:
	mov	r0, #1
	add	sp, sp, #44
	pop	{r4, r5, r6, r7, r8, r9, r10, r11, pc}
.Lgcm_func_end18:
	.size	gcm.gcm.mode.BorrowedGcm.compare, .Lgcm_func_end18-gcm.gcm.mode.BorrowedGcm.compare
	.cantunwind
	.fnend
                                        @ -- End function
	.section	.text.gcm.gcm.mode.BorrowedGcm.put_tag,"ax",%progbits
	.p2align	2                               @ -- Begin function gcm::mode::BorrowedGcm::put_tag::<#84a61a6dd6ff62d6>
	.type	gcm.gcm.mode.BorrowedGcm.put_tag,%function
	.code	32
gcm.gcm.mode.BorrowedGcm.put_tag: @ @gcm.gcm.mode.BorrowedGcm.put_tag
	.fnstart
@ %bb.0:                                @ %start
	.save	{r4, r5, r6, r7, r8, r9, r10, r11, lr}
	push	{r4, r5, r6, r7, r8, r9, r10, r11, lr}
	.pad	#60
	sub	sp, sp, #60
	ldr	r5, [sp, #120]
	mov	r10, r2
	mov	r4, r0
	ldr	r0, [r1]
	ldr	r2, [r1, #4]
	mov	r7, #0
	ldr	r3, [r1, #8]
	mov	r8, #1
	ldr	r1, [r1, #12]
	str	r1, [r5, #12]
	str	r3, [r5, #8]
	str	r2, [r5, #4]
	str	r0, [r5]
	ldr	r0, [r4]
	ldr	r2, [r4, #8]
	ldr	r3, [r4, #12]
	str	r8, [sp, #8]
	str	r7, [sp, #12]
	str	r5, [sp]
	bl	gcm.aes_narrow.blocks.process_all_batches
	bl	gcm.aes_cipher.zeroize.stack.wipe_stack.1024
	ldr	r3, [r4, #16]
	ldr	r6, [sp, #100]
	ldr	r9, [sp, #96]
	ldm	r3, {r0, r1, r2, r3}
	str	r6, [sp, #28]
	str	r9, [sp, #24]
	str	r7, [sp]
	str	r7, [sp, #4]
	str	r7, [sp, #8]
	str	r7, [sp, #12]
	str	r10, [sp, #16]
	bl	gcm.gcm.single_blocks.hash_singly.1
	ldr	r7, [r4, #16]
	ldr	r4, [sp, #116]
	ldr	r10, [sp, #112]
	ldr	r11, [r7]
	ldr	r8, [r7, #4]
	ldr	r6, [r7, #8]
	ldr	r7, [r7, #12]
	str	r4, [sp, #28]
	ldr	r4, [sp, #104]
	stm	sp, {r0, r1, r2, r3, r4}
	mov	r0, r11
	mov	r1, r8
	mov	r2, r6
	mov	r3, r7
	str	r10, [sp, #24]
	bl	gcm.gcm.single_blocks.hash_singly.1
	and	r4, r10, #31
	str	r7, [sp, #12]
	str	r6, [sp, #8]
	mvn	r7, #248
	and	r6, r7, r10, lsl #3
	and	r7, r7, r9, lsl #3
	orr	r6, r6, r4, lsl #3
	eor	r1, r1, r10, lsr #29
	eor	r0, r0, r6
	and	r6, r9, #31
	eor	r3, r3, r9, lsr #29
	str	r11, [sp]
	orr	r7, r7, r6, lsl #3
	str	r8, [sp, #4]
	eor	r2, r2, r7
	bl	gcm.gcm.holes.product_with_holes
	mov	r12, r3
	ldrb	r3, [r5, #1]
	str	r3, [sp, #56]                   @ 4-byte Spill
	ldrb	r3, [r5, #2]
	str	r3, [sp, #52]                   @ 4-byte Spill
	ldrb	r3, [r5, #3]
	ldrb	r6, [r5]
	str	r3, [sp, #48]                   @ 4-byte Spill
	ldrb	r3, [r5, #4]
	eor	r6, r6, r12, lsr #24
	str	r3, [sp, #44]                   @ 4-byte Spill
	ldrb	r3, [r5, #5]
	str	r3, [sp, #40]                   @ 4-byte Spill
	ldrb	r3, [r5, #6]
	strb	r6, [r5]
	ldrb	r6, [r5, #15]
	str	r3, [sp, #36]                   @ 4-byte Spill
	ldrb	r3, [r5, #14]
	eor	r7, r6, r0
	ldrb	r4, [r5, #12]
	ldrb	lr, [r5, #13]
	eor	r3, r3, r0, lsr #8
	ldrb	r6, [r5, #11]
	strb	r3, [r5, #14]
	eor	r3, lr, r0, lsr #16
	eor	r0, r4, r0, lsr #24
	ldrb	r8, [r5, #10]
	strb	r0, [r5, #12]
	eor	r0, r6, r1
	ldrb	r9, [r5, #9]
	strb	r0, [r5, #11]
	eor	r0, r8, r1, lsr #8
	ldrb	r10, [r5, #8]
	strb	r0, [r5, #10]
	eor	r0, r9, r1, lsr #16
	ldrb	r11, [r5, #7]
	strb	r0, [r5, #9]
	eor	r0, r10, r1, lsr #24
	strb	r0, [r5, #8]
	eor	r0, r11, r2
	strb	r0, [r5, #7]
	ldr	r0, [sp, #36]                   @ 4-byte Reload
	strb	r7, [r5, #15]
	eor	r0, r0, r2, lsr #8
	strb	r0, [r5, #6]
	ldr	r0, [sp, #40]                   @ 4-byte Reload
	strb	r3, [r5, #13]
	eor	r0, r0, r2, lsr #16
	strb	r0, [r5, #5]
	ldr	r0, [sp, #44]                   @ 4-byte Reload
	eor	r0, r0, r2, lsr #24
	strb	r0, [r5, #4]
	ldr	r0, [sp, #48]                   @ 4-byte Reload
	eor	r0, r0, r12
	strb	r0, [r5, #3]
	ldr	r0, [sp, #52]                   @ 4-byte Reload
	eor	r0, r0, r12, lsr #8
	strb	r0, [r5, #2]
	ldr	r0, [sp, #56]                   @ 4-byte Reload
	eor	r0, r0, r12, lsr #16
	strb	r0, [r5, #1]
	add	sp, sp, #60
	pop	{r4, r5, r6, r7, r8, r9, r10, r11, pc}
.Lgcm_func_end19:
	.size	gcm.gcm.mode.BorrowedGcm.put_tag, .Lgcm_func_end19-gcm.gcm.mode.BorrowedGcm.put_tag
	.cantunwind
	.fnend
                                        @ -- End function
	.section	.text.gcm.aes_cipher.blocks.difference,"ax",%progbits
	.p2align	2                               @ -- Begin function aes_cipher::blocks::difference
	.type	gcm.aes_cipher.blocks.difference,%function
	.code	32
gcm.aes_cipher.blocks.difference:       @ @gcm.aes_cipher.blocks.difference
	.fnstart
@ %bb.0:                                @ %start
	.save	{r4, r5, r6, r7, r11, lr}
	push	{r4, r5, r6, r7, r11, lr}
	ldrb	r2, [r0]
	ldrb	r4, [r1]
	ldrb	r3, [r0, #1]
	ldrb	r5, [r1, #1]
	eor	r2, r4, r2
	ldrb	r12, [r0, #2]
	ldrb	r6, [r1, #2]
	eor	r3, r5, r3
	ldrb	lr, [r0, #3]
	orr	r2, r3, r2
	ldrb	r7, [r1, #3]
	eor	r3, r6, r12
	orr	r2, r3, r2
	eor	r3, r7, lr
	ldrb	r7, [r1, #4]
	orr	r2, r3, r2
	ldrb	r3, [r0, #4]
	eor	r3, r7, r3
	ldrb	r7, [r1, #5]
	orr	r2, r3, r2
	ldrb	r3, [r0, #5]
	eor	r3, r7, r3
	ldrb	r7, [r1, #6]
	orr	r2, r3, r2
	ldrb	r3, [r0, #6]
	eor	r3, r7, r3
	ldrb	r7, [r1, #7]
	orr	r2, r3, r2
	ldrb	r3, [r0, #7]
	eor	r3, r7, r3
	ldrb	r7, [r1, #8]
	orr	r2, r3, r2
	ldrb	r3, [r0, #8]
	eor	r3, r7, r3
	ldrb	r7, [r1, #9]
	orr	r2, r3, r2
	ldrb	r3, [r0, #9]
	eor	r3, r7, r3
	ldrb	r7, [r1, #10]
	orr	r2, r3, r2
	ldrb	r3, [r0, #10]
	eor	r3, r7, r3
	ldrb	r7, [r1, #11]
	orr	r2, r3, r2
	ldrb	r3, [r0, #11]
	eor	r3, r7, r3
	ldrb	r7, [r1, #12]
	orr	r2, r3, r2
	ldrb	r3, [r0, #12]
	eor	r3, r7, r3
	ldrb	r7, [r1, #13]
	orr	r2, r3, r2
	ldrb	r3, [r0, #13]
	eor	r3, r7, r3
	ldrb	r7, [r1, #14]
	orr	r2, r3, r2
	ldrb	r3, [r0, #14]
	ldrb	r0, [r0, #15]
	ldrb	r1, [r1, #15]
	eor	r3, r7, r3
	orr	r2, r3, r2
	eor	r0, r1, r0
	orr	r0, r0, r2
	pop	{r4, r5, r6, r7, r11, pc}
.Lgcm_func_end20:
	.size	gcm.aes_cipher.blocks.difference, .Lgcm_func_end20-gcm.aes_cipher.blocks.difference
	.cantunwind
	.fnend
                                        @ -- End function
	.section	.text.gcm.gcm.gctr.add_gctr,"ax",%progbits
	.p2align	2                               @ -- Begin function gcm::gctr::add_gctr::<#099a9bc28799ce6c>
	.type	gcm.gcm.gctr.add_gctr,%function
	.code	32
gcm.gcm.gctr.add_gctr: @ @gcm.gcm.gctr.add_gctr
	.fnstart
@ %bb.0:                                @ %start
	.save	{r4, r5, r6, r7, r8, r9, r10, r11, lr}
	push	{r4, r5, r6, r7, r8, r9, r10, r11, lr}
	.pad	#180
	sub	sp, sp, #180
	ldr	r10, [sp, #224]
	mov	r8, r2
	ldr	r2, [sp, #228]
	orrs	r2, r10, r2
	beq	.Lgcm_BB21_14
@ %bb.1:                                @ %then.1
	mov	r9, r3
	ldr	r2, [r1]
	ldr	r3, [r1, #4]
	and	r11, r8, #15
	ldr	r7, [r1, #8]
	mov	r6, #0
	ldr	r1, [r1, #12]
	str	r1, [sp, #124]
	add	r1, sp, #112
	stm	r1, {r2, r3, r7}
	rsb	r1, r11, #16
	subs	r1, r1, r10
	ldr	r4, [sp, #216]
	ldr	r1, [sp, #228]
	str	r6, [sp, #132]
	rscs	r1, r1, #0
	str	r6, [sp, #128]
	bhs	.Lgcm_BB21_3
@ %bb.2:                                @ %else.2.i
	add	r7, sp, #128
	ldr	r2, [sp, #228]
	add	r1, r7, #8
	ldr	r3, [r0, #12]
	str	r4, [sp, #144]
	str	r10, [r1, #16]
	str	r2, [r1, #20]
	strd	r8, r9, [r1]
	add	r1, sp, #112
	str	r1, [sp, #128]
	mov	r1, #0
	str	r1, [sp, #148]
	ldr	r1, [r0]
	ldr	r2, [r0, #8]
	str	r7, [sp]
	mov	r0, r1
	bl	gcm.aes_narrow.borrowed_words.call_to_encrypt.1
	bl	gcm.aes_cipher.zeroize.stack.wipe_stack.2032
	add	sp, sp, #180
	pop	{r4, r5, r6, r7, r8, r9, r10, r11, pc}
.Lgcm_BB21_3:                               @ %then.1.i
	ldr	r7, [sp, #116]
	ldr	r12, [r0]
	ldr	r2, [r0, #8]
	ldr	r3, [r0, #12]
	ldr	r0, [sp, #112]
	str	r0, [sp, #164]
	rev	r0, r7
	ldr	r1, [sp, #124]
	lsr	r7, r0, #8
	strb	r0, [sp, #171]
	strb	r7, [sp, #170]
	lsr	r7, r0, #16
	lsr	r0, r0, #24
	rev	r1, r1
	strb	r0, [sp, #168]
	lsr	r0, r8, #4
	orr	r0, r0, r9, lsl #28
	ldr	r5, [sp, #120]
	add	r0, r1, r0
	strb	r0, [sp, #179]
	mov	r8, #1
	str	r5, [sp, #172]
	lsr	r1, r0, #8
	str	r8, [sp, #8]
	strb	r1, [sp, #178]
	lsr	r1, r0, #16
	lsr	r0, r0, #24
	add	r5, sp, #164
	strb	r0, [sp, #176]
	mov	r0, r12
	strb	r7, [sp, #169]
	strb	r1, [sp, #177]
	str	r6, [sp, #12]
	str	r5, [sp]
	bl	gcm.aes_narrow.blocks.process_all_batches
	bl	gcm.aes_cipher.zeroize.stack.wipe_stack.1024
	cmp	r11, #0
	beq	.Lgcm_BB21_7
@ %bb.4:                                @ %join.8.i72.i.i.preheader
	mov	r0, #0
	mov	r1, #0
.Lgcm_BB21_5:                               @ %join.8.i72.i.i
                                        @ =>This Inner Loop Header: Depth=1
	add	r3, r1, r11
	ldrb	r2, [r4, r1]
	ldrb	r3, [r5, r3]
	eor	r2, r2, r3
	strb	r2, [r4, r1]
	adds	r1, r1, #1
	adc	r0, r0, #0
	subs	r2, r1, r10
	ldr	r2, [sp, #228]
	sbcs	r2, r0, r2
	blo	.Lgcm_BB21_5
@ %bb.6:
	ldr	r12, [sp, #228]
	mov	r6, r10
	b	.Lgcm_BB21_8
.Lgcm_BB21_7:
	mov	r12, #0
	mov	r6, #0
.Lgcm_BB21_8:                               @ %join.3.i.i.i
	ldr	r0, [sp, #228]
	subs	r1, r10, r6
	sbc	r2, r0, r12
	subs	r3, r1, #16
	sbcs	r3, r2, #0
	blo	.Lgcm_BB21_10
.Lgcm_BB21_9:                               @ %join.8.i.i.i
                                        @ =>This Inner Loop Header: Depth=1
	add	r3, r6, r11
	mov	r1, r4
	bic	r3, r3, #15
	ldrb	r2, [r1, r6]!
	add	r9, r5, r3
	mov	r8, r10
	ldrb	r7, [r5, r3]
	mov	r3, r6
	ldrb	r5, [r9, #12]
	ldrb	r10, [r9, #13]
	mov	lr, r11
	eor	r0, r7, r2
	str	r0, [sp, #52]                   @ 4-byte Spill
	ldrb	r0, [r1, #1]
	mov	r2, r4
	str	r0, [sp, #108]                  @ 4-byte Spill
	ldrb	r0, [r1, #2]
	str	r0, [sp, #104]                  @ 4-byte Spill
	ldrb	r0, [r1, #3]
	str	r0, [sp, #96]                   @ 4-byte Spill
	ldrb	r0, [r1, #4]
	str	r0, [sp, #88]                   @ 4-byte Spill
	ldrb	r0, [r9, #1]
	str	r0, [sp, #100]                  @ 4-byte Spill
	ldrb	r0, [r9, #2]
	str	r0, [sp, #92]                   @ 4-byte Spill
	ldrb	r0, [r9, #3]
	str	r0, [sp, #84]                   @ 4-byte Spill
	ldrb	r0, [r9, #4]
	str	r0, [sp, #80]                   @ 4-byte Spill
	ldrb	r0, [r1, #5]
	str	r0, [sp, #76]                   @ 4-byte Spill
	ldrb	r0, [r9, #5]
	str	r0, [sp, #72]                   @ 4-byte Spill
	ldrb	r0, [r1, #6]
	str	r0, [sp, #68]                   @ 4-byte Spill
	ldrb	r0, [r9, #6]
	str	r0, [sp, #64]                   @ 4-byte Spill
	ldrb	r0, [r1, #7]
	str	r0, [sp, #60]                   @ 4-byte Spill
	ldrb	r0, [r9, #7]
	str	r0, [sp, #56]                   @ 4-byte Spill
	ldrb	r0, [r1, #8]
	str	r0, [sp, #48]                   @ 4-byte Spill
	ldrb	r0, [r9, #8]
	str	r0, [sp, #44]                   @ 4-byte Spill
	ldrb	r0, [r1, #9]
	str	r0, [sp, #40]                   @ 4-byte Spill
	ldrb	r0, [r9, #9]
	str	r0, [sp, #36]                   @ 4-byte Spill
	ldrb	r0, [r1, #10]
	str	r0, [sp, #32]                   @ 4-byte Spill
	ldrb	r0, [r9, #10]
	str	r0, [sp, #28]                   @ 4-byte Spill
	ldrb	r0, [r1, #11]
	str	r0, [sp, #24]                   @ 4-byte Spill
	ldrb	r0, [r9, #11]
	str	r0, [sp, #20]                   @ 4-byte Spill
	ldrb	r0, [r1, #12]
	str	r0, [sp, #16]                   @ 4-byte Spill
	ldrb	r4, [r9, #14]
	ldrb	r0, [r1, #15]
	ldrb	r9, [r9, #15]
	ldrb	r6, [r1, #14]
	eor	r0, r9, r0
	ldrb	r11, [r1, #13]
	strb	r0, [r1, #15]
	eor	r0, r4, r6
	strb	r0, [r1, #14]
	eor	r0, r10, r11
	strb	r0, [r1, #13]
	mov	r6, r3
	ldr	r0, [sp, #16]                   @ 4-byte Reload
	mov	r4, r2
	ldr	r3, [sp, #20]                   @ 4-byte Reload
	adds	r6, r6, #16
	eor	r0, r5, r0
	strb	r0, [r1, #12]
	ldr	r0, [sp, #24]                   @ 4-byte Reload
	adc	r12, r12, #0
	ldr	r7, [sp, #52]                   @ 4-byte Reload
	add	r5, sp, #164
	eor	r0, r3, r0
	strb	r0, [r1, #11]
	ldr	r0, [sp, #32]                   @ 4-byte Reload
	mov	r11, lr
	ldr	r3, [sp, #28]                   @ 4-byte Reload
	mov	r10, r8
	ldr	r2, [sp, #228]
	eor	r0, r3, r0
	strb	r0, [r1, #10]
	ldr	r0, [sp, #40]                   @ 4-byte Reload
	ldr	r3, [sp, #36]                   @ 4-byte Reload
	strb	r7, [r1]
	eor	r0, r3, r0
	strb	r0, [r1, #9]
	ldr	r0, [sp, #48]                   @ 4-byte Reload
	ldr	r3, [sp, #44]                   @ 4-byte Reload
	eor	r0, r3, r0
	strb	r0, [r1, #8]
	ldr	r0, [sp, #60]                   @ 4-byte Reload
	ldr	r3, [sp, #56]                   @ 4-byte Reload
	eor	r0, r3, r0
	strb	r0, [r1, #7]
	ldr	r0, [sp, #68]                   @ 4-byte Reload
	ldr	r3, [sp, #64]                   @ 4-byte Reload
	eor	r0, r3, r0
	strb	r0, [r1, #6]
	ldr	r0, [sp, #76]                   @ 4-byte Reload
	ldr	r3, [sp, #72]                   @ 4-byte Reload
	eor	r0, r3, r0
	strb	r0, [r1, #5]
	ldr	r0, [sp, #88]                   @ 4-byte Reload
	ldr	r3, [sp, #80]                   @ 4-byte Reload
	eor	r0, r3, r0
	strb	r0, [r1, #4]
	ldr	r0, [sp, #96]                   @ 4-byte Reload
	ldr	r3, [sp, #84]                   @ 4-byte Reload
	eor	r0, r3, r0
	strb	r0, [r1, #3]
	ldr	r0, [sp, #104]                  @ 4-byte Reload
	ldr	r3, [sp, #92]                   @ 4-byte Reload
	eor	r0, r3, r0
	strb	r0, [r1, #2]
	ldr	r0, [sp, #108]                  @ 4-byte Reload
	ldr	r3, [sp, #100]                  @ 4-byte Reload
	eor	r0, r3, r0
	strb	r0, [r1, #1]
	subs	r1, r8, r6
	sbc	r2, r2, r12
	rsbs	r0, r1, #15
	rscs	r0, r2, #0
	blo	.Lgcm_BB21_9
.Lgcm_BB21_10:                              @ %after.4.i.i.i
	subs	r0, r6, r10
	ldr	r0, [sp, #228]
	sbcs	r0, r12, r0
	bhs	.Lgcm_BB21_14
@ %bb.11:                               @ %then.9.i.i.i
	orrs	r0, r1, r2
	beq	.Lgcm_BB21_14
@ %bb.12:                               @ %join.8.i15.i.i.preheader
	add	r3, r6, r11
	add	r0, r4, r6
	bic	r3, r3, #15
	mov	r7, #0
	add	r3, r5, r3
	mov	r6, #0
.Lgcm_BB21_13:                              @ %join.8.i15.i.i
                                        @ =>This Inner Loop Header: Depth=1
	ldrb	r5, [r3, r6]
	ldrb	r4, [r0, r6]
	eor	r5, r4, r5
	strb	r5, [r0, r6]
	adds	r6, r6, #1
	adc	r7, r7, #0
	subs	r5, r6, r1
	sbcs	r5, r7, r2
	blo	.Lgcm_BB21_13
.Lgcm_BB21_14:                              @ %join.3
	add	sp, sp, #180
	pop	{r4, r5, r6, r7, r8, r9, r10, r11, pc}
.Lgcm_func_end21:
	.size	gcm.gcm.gctr.add_gctr, .Lgcm_func_end21-gcm.gcm.gctr.add_gctr
	.cantunwind
	.fnend
                                        @ -- End function
	.section	.text.gcm.aes_narrow.borrowed_words.call_to_encrypt.1,"ax",%progbits
	.p2align	2                               @ -- Begin function aes_narrow::borrowed_words::call_to_encrypt::<#1305835a18aa05db>
	.type	gcm.aes_narrow.borrowed_words.call_to_encrypt.1,%function
	.code	32
gcm.aes_narrow.borrowed_words.call_to_encrypt.1: @ @gcm.aes_narrow.borrowed_words.call_to_encrypt.1
	.fnstart
@ %bb.0:                                @ %start
	.save	{r4, r5, r6, r7, r8, r9, r10, r11, lr}
	push	{r4, r5, r6, r7, r8, r9, r10, r11, lr}
	.pad	#428
	sub	sp, sp, #428
	str	r0, [sp, #64]                   @ 4-byte Spill
	mov	r7, #0
	str	r0, [sp, #152]
	mov	r10, r3
	ldr	r0, [sp, #464]
	str	r3, [sp, #164]
	str	r2, [sp, #68]                   @ 4-byte Spill
	ldr	r11, [r0, #8]
	ldrd	r4, r5, [r0, #24]
	ldr	r6, [r0]
	tst	r11, #15
	ldr	r8, [r0, #12]
	ldr	r9, [r0, #16]
	str	r2, [sp, #160]
	str	r7, [sp, #156]
	beq	.Lgcm_BB22_2
@ %bb.1:                                @ %then.1.i.i
	mov	r0, #0
	mov	r1, r6
	str	r0, [sp]
	mov	r2, r11
	stmib	sp, {r0, r9}
	add	r0, sp, #152
	mov	r3, r8
	strd	r4, r5, [sp, #16]
	bl	gcm.aes_ctr.add_in_batches.add_next.1
	mov	r7, r0
	b	.Lgcm_BB22_3
.Lgcm_BB22_2:
	mov	r1, #0
.Lgcm_BB22_3:                               @ %join.3.i.i
	subs	r0, r4, r7
	mov	r2, r1
	sbc	r1, r5, r1
	subs	r0, r0, #32
	sbcs	r0, r1, #0
	blo	.Lgcm_BB22_9
@ %bb.4:                                @ %join.11.lr.ph.i.i
	add	r0, sp, #168
	str	r10, [sp, #32]                  @ 4-byte Spill
	mov	r10, r2
	add	r0, r0, #32
	str	r0, [sp, #36]                   @ 4-byte Spill
	str	r4, [sp, #60]                   @ 4-byte Spill
	str	r5, [sp, #56]                   @ 4-byte Spill
	str	r6, [sp, #52]                   @ 4-byte Spill
	str	r11, [sp, #48]                  @ 4-byte Spill
	str	r8, [sp, #44]                   @ 4-byte Spill
	str	r9, [sp, #40]                   @ 4-byte Spill
.Lgcm_BB22_5:                               @ %join.11.i.i
                                        @ =>This Inner Loop Header: Depth=1
	ldr	r0, [sp, #36]                   @ 4-byte Reload
	mov	r1, #0
	mov	r2, #224
	str	r7, [sp, #148]                  @ 4-byte Spill
	bl	memset
	ldrb	r1, [r6, #3]
	strb	r1, [sp, #187]
	strb	r1, [sp, #171]
	ldr	r1, [r6, #4]
	ldrb	r0, [r6]
	rev	r1, r1
	ldrb	r12, [r6, #1]
	ldrb	r3, [r6, #10]
	strb	r3, [sp, #194]
	strb	r3, [sp, #178]
	lsr	r3, r1, #24
	strb	r0, [sp, #184]
	strb	r0, [sp, #168]
	strb	r3, [sp, #188]
	strb	r3, [sp, #172]
	lsl	r3, r12, #16
	orr	r0, r3, r0, lsl #24
	ldrb	r2, [r6, #11]
	strb	r2, [sp, #195]
	lsr	r0, r0, #16
	strb	r2, [sp, #179]
	lsr	r2, r1, #16
	strb	r1, [sp, #191]
	strb	r1, [sp, #175]
	uxth	r1, r1
	lsr	r1, r1, #8
	strb	r0, [sp, #185]
	strb	r0, [sp, #169]
	adds	r0, r7, r11
	strb	r1, [sp, #190]
	strb	r1, [sp, #174]
	adc	r1, r10, r8
	lsr	r0, r0, #4
	strb	r2, [sp, #189]
	orr	r0, r0, r1, lsl #28
	ldr	r1, [r6, #12]
	strb	r2, [sp, #173]
	mov	r8, #2
	rev	r1, r1
	ldrb	r2, [r6, #9]
	add	r0, r1, r0
	ldrb	r5, [r6, #8]
	strb	r0, [sp, #183]
	lsr	r1, r0, #8
	lsl	r2, r2, #16
	strb	r1, [sp, #182]
	lsr	r1, r0, #16
	strb	r1, [sp, #181]
	lsr	r1, r0, #24
	add	r0, r0, #1
	strb	r1, [sp, #180]
	orr	r2, r2, r5, lsl #24
	strb	r0, [sp, #199]
	lsr	r1, r0, #8
	ldrb	r4, [r6, #2]
	strb	r1, [sp, #198]
	lsr	r1, r0, #16
	lsr	r0, r0, #24
	lsr	r2, r2, #16
	strb	r0, [sp, #196]
	mov	r0, #0
	str	r8, [sp, #8]
	str	r0, [sp, #12]
	add	r0, sp, #168
	str	r0, [sp]
	strb	r2, [sp, #193]
	strb	r2, [sp, #177]
	ldr	r0, [sp, #64]                   @ 4-byte Reload
	ldr	r2, [sp, #68]                   @ 4-byte Reload
	ldr	r3, [sp, #32]                   @ 4-byte Reload
	strb	r5, [sp, #192]
	strb	r4, [sp, #186]
	strb	r5, [sp, #176]
	strb	r4, [sp, #170]
	str	r10, [sp, #144]                 @ 4-byte Spill
	strb	r1, [sp, #197]
	bl	gcm.aes_soft.soft.blocks.filled_up.process_filled_up
	mov	r0, r9
	ldrb	r5, [sp, #168]
	ldrb	r1, [r0, r7]!
	ldrb	r7, [sp, #181]
	ldrb	r2, [r0, #1]
	eor	r3, r5, r1
	str	r2, [sp, #140]                  @ 4-byte Spill
	ldrb	r2, [r0, #2]
	str	r2, [sp, #136]                  @ 4-byte Spill
	ldrb	r2, [r0, #3]
	str	r2, [sp, #132]                  @ 4-byte Spill
	ldrb	r2, [r0, #4]
	str	r2, [sp, #128]                  @ 4-byte Spill
	ldrb	r2, [r0, #5]
	str	r2, [sp, #124]                  @ 4-byte Spill
	ldrb	r2, [r0, #6]
	str	r2, [sp, #120]                  @ 4-byte Spill
	ldrb	r2, [r0, #7]
	str	r2, [sp, #112]                  @ 4-byte Spill
	ldrb	r2, [r0, #8]
	str	r2, [sp, #104]                  @ 4-byte Spill
	ldrb	r2, [r0, #9]
	str	r2, [sp, #96]                   @ 4-byte Spill
	ldrb	r2, [r0, #10]
	str	r2, [sp, #88]                   @ 4-byte Spill
	ldrb	r2, [r0, #11]
	str	r2, [sp, #80]                   @ 4-byte Spill
	ldrb	r2, [r0, #12]
	ldrb	r1, [sp, #172]
	str	r2, [sp, #72]                   @ 4-byte Spill
	ldrb	r2, [sp, #169]
	str	r1, [sp, #92]                   @ 4-byte Spill
	ldrb	r1, [sp, #173]
	str	r2, [sp, #116]                  @ 4-byte Spill
	ldrb	r2, [sp, #170]
	str	r1, [sp, #84]                   @ 4-byte Spill
	ldrb	r1, [sp, #174]
	str	r2, [sp, #108]                  @ 4-byte Spill
	ldrb	r2, [sp, #171]
	str	r1, [sp, #76]                   @ 4-byte Spill
	ldrb	r6, [r0, #15]
	ldrb	r1, [sp, #183]
	str	r2, [sp, #100]                  @ 4-byte Spill
	ldrb	lr, [r0, #14]
	eor	r1, r1, r6
	ldrb	r2, [sp, #182]
	ldrb	r8, [r0, #13]
	strb	r1, [r0, #15]
	eor	r1, r2, lr
	strb	r1, [r0, #14]
	eor	r1, r7, r8
	strb	r1, [r0, #13]
	ldrb	r9, [sp, #180]
	ldr	r1, [sp, #72]                   @ 4-byte Reload
	ldrb	r11, [sp, #179]
	eor	r1, r9, r1
	strb	r1, [r0, #12]
	ldr	r1, [sp, #80]                   @ 4-byte Reload
	ldrb	r10, [sp, #178]
	eor	r1, r11, r1
	strb	r1, [r0, #11]
	ldr	r1, [sp, #88]                   @ 4-byte Reload
	ldrb	r12, [sp, #177]
	eor	r1, r10, r1
	strb	r1, [r0, #10]
	ldr	r1, [sp, #96]                   @ 4-byte Reload
	ldrb	r4, [sp, #176]
	eor	r1, r12, r1
	strb	r1, [r0, #9]
	ldr	r1, [sp, #104]                  @ 4-byte Reload
	ldrb	r5, [sp, #175]
	eor	r1, r4, r1
	strb	r1, [r0, #8]
	ldr	r1, [sp, #112]                  @ 4-byte Reload
	ldr	r2, [sp, #76]                   @ 4-byte Reload
	eor	r1, r5, r1
	strb	r1, [r0, #7]
	ldr	r1, [sp, #120]                  @ 4-byte Reload
	strb	r3, [r0]
	eor	r1, r2, r1
	strb	r1, [r0, #6]
	ldr	r1, [sp, #124]                  @ 4-byte Reload
	ldr	r2, [sp, #84]                   @ 4-byte Reload
	ldrb	r3, [sp, #199]
	eor	r1, r2, r1
	strb	r1, [r0, #5]
	ldr	r1, [sp, #128]                  @ 4-byte Reload
	ldr	r2, [sp, #92]                   @ 4-byte Reload
	ldrb	r6, [r0, #30]
	eor	r1, r2, r1
	strb	r1, [r0, #4]
	ldr	r1, [sp, #132]                  @ 4-byte Reload
	ldr	r2, [sp, #100]                  @ 4-byte Reload
	ldrb	r8, [r0, #29]
	eor	r1, r2, r1
	strb	r1, [r0, #3]
	ldr	r1, [sp, #136]                  @ 4-byte Reload
	ldr	r2, [sp, #108]                  @ 4-byte Reload
	ldrb	r11, [r0, #28]
	eor	r1, r2, r1
	strb	r1, [r0, #2]
	ldr	r1, [sp, #140]                  @ 4-byte Reload
	ldr	r2, [sp, #116]                  @ 4-byte Reload
	ldrb	r12, [sp, #195]
	eor	r1, r2, r1
	strb	r1, [r0, #1]
	ldrb	r1, [r0, #16]
	str	r1, [sp, #140]                  @ 4-byte Spill
	ldrb	r1, [r0, #17]
	str	r1, [sp, #136]                  @ 4-byte Spill
	ldrb	r1, [r0, #18]
	str	r1, [sp, #132]                  @ 4-byte Spill
	ldrb	r1, [r0, #19]
	str	r1, [sp, #128]                  @ 4-byte Spill
	ldrb	r1, [r0, #20]
	str	r1, [sp, #124]                  @ 4-byte Spill
	ldrb	r1, [r0, #21]
	str	r1, [sp, #120]                  @ 4-byte Spill
	ldrb	r1, [r0, #22]
	str	r1, [sp, #116]                  @ 4-byte Spill
	ldrb	r1, [r0, #23]
	str	r1, [sp, #108]                  @ 4-byte Spill
	ldrb	r1, [r0, #24]
	str	r1, [sp, #100]                  @ 4-byte Spill
	ldrb	r1, [r0, #25]
	str	r1, [sp, #92]                   @ 4-byte Spill
	ldrb	r1, [r0, #26]
	str	r1, [sp, #84]                   @ 4-byte Spill
	ldrb	r1, [r0, #27]
	str	r1, [sp, #76]                   @ 4-byte Spill
	ldrb	r1, [sp, #184]
	str	r1, [sp, #112]                  @ 4-byte Spill
	ldrb	r1, [sp, #185]
	str	r1, [sp, #104]                  @ 4-byte Spill
	ldrb	r1, [sp, #186]
	str	r1, [sp, #96]                   @ 4-byte Spill
	ldrb	r1, [sp, #187]
	str	r1, [sp, #88]                   @ 4-byte Spill
	ldrb	r1, [sp, #188]
	ldrb	r2, [r0, #31]
	str	r1, [sp, #80]                   @ 4-byte Spill
	ldrb	r1, [sp, #189]
	eor	r4, r3, r2
	str	r1, [sp, #72]                   @ 4-byte Spill
	ldrb	r1, [sp, #198]
	ldrb	r2, [sp, #197]
	eor	r1, r1, r6
	ldrb	r3, [sp, #196]
	strb	r1, [r0, #30]
	eor	r1, r2, r8
	strb	r1, [r0, #29]
	eor	r1, r3, r11
	strb	r1, [r0, #28]
	ldr	r1, [sp, #76]                   @ 4-byte Reload
	ldrb	lr, [sp, #194]
	eor	r1, r12, r1
	strb	r1, [r0, #27]
	ldr	r1, [sp, #84]                   @ 4-byte Reload
	ldrb	r5, [sp, #193]
	eor	r1, lr, r1
	strb	r1, [r0, #26]
	ldr	r1, [sp, #92]                   @ 4-byte Reload
	ldrb	r7, [sp, #192]
	eor	r1, r5, r1
	strb	r1, [r0, #25]
	ldr	r1, [sp, #100]                  @ 4-byte Reload
	ldrb	r9, [sp, #191]
	eor	r1, r7, r1
	strb	r1, [r0, #24]
	ldr	r1, [sp, #108]                  @ 4-byte Reload
	ldrb	r10, [sp, #190]
	eor	r1, r9, r1
	strb	r1, [r0, #23]
	ldr	r1, [sp, #116]                  @ 4-byte Reload
	ldr	r2, [sp, #72]                   @ 4-byte Reload
	eor	r1, r10, r1
	strb	r1, [r0, #22]
	ldr	r1, [sp, #120]                  @ 4-byte Reload
	ldr	r7, [sp, #148]                  @ 4-byte Reload
	eor	r1, r2, r1
	strb	r1, [r0, #21]
	ldr	r1, [sp, #124]                  @ 4-byte Reload
	adds	r7, r7, #32
	ldr	r2, [sp, #80]                   @ 4-byte Reload
	strb	r4, [r0, #31]
	eor	r1, r2, r1
	strb	r1, [r0, #20]
	ldr	r1, [sp, #128]                  @ 4-byte Reload
	ldr	r2, [sp, #88]                   @ 4-byte Reload
	ldr	r4, [sp, #60]                   @ 4-byte Reload
	eor	r1, r2, r1
	strb	r1, [r0, #19]
	ldr	r1, [sp, #132]                  @ 4-byte Reload
	ldr	r2, [sp, #96]                   @ 4-byte Reload
	ldr	r6, [sp, #52]                   @ 4-byte Reload
	eor	r1, r2, r1
	strb	r1, [r0, #18]
	ldr	r1, [sp, #136]                  @ 4-byte Reload
	ldr	r2, [sp, #104]                  @ 4-byte Reload
	ldr	r8, [sp, #44]                   @ 4-byte Reload
	eor	r1, r2, r1
	strb	r1, [r0, #17]
	ldr	r1, [sp, #140]                  @ 4-byte Reload
	ldr	r2, [sp, #112]                  @ 4-byte Reload
	ldr	r5, [sp, #56]                   @ 4-byte Reload
	eor	r1, r2, r1
	strb	r1, [r0, #16]
	ldr	r1, [sp, #144]                  @ 4-byte Reload
	ldr	r11, [sp, #48]                  @ 4-byte Reload
	adc	r1, r1, #0
	ldr	r9, [sp, #40]                   @ 4-byte Reload
	subs	r0, r4, r7
	mov	r10, r1
	sbc	r1, r5, r1
	rsbs	r0, r0, #31
	rscs	r0, r1, #0
	blo	.Lgcm_BB22_5
@ %bb.6:                                @ %loop.13.preheader.i.i
	subs	r0, r7, r4
	mov	r1, r10
	sbcs	r0, r10, r5
	bhs	.Lgcm_BB22_8
.Lgcm_BB22_7:                               @ %join.16.i.i
                                        @ =>This Inner Loop Header: Depth=1
	add	r0, sp, #152
	stmib	sp, {r1, r9}
	mov	r1, r6
	mov	r2, r11
	mov	r3, r8
	strd	r4, r5, [sp, #16]
	str	r7, [sp]
	bl	gcm.aes_ctr.add_in_batches.add_next.1
	mov	r7, r0
	subs	r0, r0, r4
	sbcs	r0, r1, r5
	blo	.Lgcm_BB22_7
.Lgcm_BB22_8:                               @ %"aes_ctr::add_in_batches::AddStreamBlockCipherEncClosure::call::<#5af79e2f176a0632>.exit"
	add	sp, sp, #428
	pop	{r4, r5, r6, r7, r8, r9, r10, r11, pc}
.Lgcm_BB22_9:
	mov	r10, r2
	subs	r0, r7, r4
	mov	r1, r10
	sbcs	r0, r10, r5
	blo	.Lgcm_BB22_7
	b	.Lgcm_BB22_8
.Lgcm_func_end22:
	.size	gcm.aes_narrow.borrowed_words.call_to_encrypt.1, .Lgcm_func_end22-gcm.aes_narrow.borrowed_words.call_to_encrypt.1
	.cantunwind
	.fnend
                                        @ -- End function
	.section	.text.gcm.aes_ctr.add_in_batches.add_next.1,"ax",%progbits
	.p2align	2                               @ -- Begin function aes_ctr::add_in_batches::add_next::<#8f445e75de4b0592>
	.type	gcm.aes_ctr.add_in_batches.add_next.1,%function
	.code	32
gcm.aes_ctr.add_in_batches.add_next.1: @ @gcm.aes_ctr.add_in_batches.add_next.1
	.fnstart
@ %bb.0:                                @ %start
	.save	{r4, r5, r6, r7, r8, r9, r10, r11, lr}
	push	{r4, r5, r6, r7, r8, r9, r10, r11, lr}
	.pad	#388
	sub	sp, sp, #388
	add	r11, sp, #128
	mov	r10, r0
	add	r0, r11, #32
	mov	r9, r2
	mov	r5, r1
	mov	r1, #0
	mov	r2, #224
	mov	r8, r3
	bl	memset
	ldrb	r3, [r5, #2]
	ldrb	r12, [r5, #1]
	strb	r3, [sp, #130]
	strb	r3, [sp, #146]
	ldr	r3, [r5, #4]
	ldrb	r1, [r5]
	ldrb	r2, [r5, #11]
	rev	r3, r3
	ldrb	r6, [r5, #3]
	ldrb	r7, [r5, #10]
	strb	r2, [sp, #139]
	strb	r2, [sp, #155]
	lsl	r2, r12, #16
	ldrb	r0, [r5, #8]
	strb	r1, [sp, #128]
	strb	r1, [sp, #144]
	orr	r1, r2, r1, lsl #24
	uxth	r2, r3
	strb	r6, [sp, #131]
	strb	r6, [sp, #147]
	lsr	r6, r3, #16
	strb	r7, [sp, #138]
	lsr	r1, r1, #16
	strb	r7, [sp, #154]
	lsr	r7, r3, #24
	strb	r3, [sp, #135]
	lsr	r2, r2, #8
	strb	r3, [sp, #151]
	ldrb	r3, [r5, #9]
	strb	r0, [sp, #136]
	strb	r0, [sp, #152]
	lsl	r3, r3, #16
	orr	r0, r3, r0, lsl #24
	strb	r1, [sp, #129]
	strb	r1, [sp, #145]
	lsr	r0, r0, #16
	ldr	r1, [sp, #424]
	ldr	r3, [sp, #428]
	strb	r0, [sp, #137]
	strb	r0, [sp, #153]
	adds	r0, r1, r9
	mov	r9, r1
	adc	r1, r3, r8
	strb	r2, [sp, #134]
	strb	r2, [sp, #150]
	lsr	r2, r0, #4
	orr	r1, r2, r1, lsl #28
	ldr	r2, [r5, #12]
	strb	r6, [sp, #133]
	rev	r2, r2
	strb	r6, [sp, #149]
	add	r1, r2, r1
	strb	r1, [sp, #143]
	ldr	r6, [sp, #440]
	lsr	r2, r1, #24
	ldr	r4, [sp, #444]
	strb	r2, [sp, #140]
	lsr	r2, r1, #16
	strb	r2, [sp, #141]
	lsr	r2, r1, #8
	add	r1, r1, #1
	strb	r2, [sp, #142]
	strb	r1, [sp, #159]
	lsr	r2, r1, #24
	strb	r7, [sp, #132]
	strb	r2, [sp, #156]
	lsr	r2, r1, #16
	lsr	r1, r1, #8
	strb	r7, [sp, #148]
	strb	r1, [sp, #158]
	and	r7, r0, #15
	subs	r1, r6, r9
	strb	r2, [sp, #157]
	sbc	r2, r4, r3
	rsb	r3, r7, #32
	subs	r0, r1, r3
	str	r7, [sp, #24]                   @ 4-byte Spill
	sbcs	r0, r2, #0
	mov	r0, #0
	movlo	r3, r1
	movwlo	r0, #1
	cmp	r0, #0
	movne	r0, r2
	str	r3, [sp, #32]                   @ 4-byte Spill
	str	r0, [sp, #28]                   @ 4-byte Spill
	add	r0, r7, r3
	add	r0, r0, #15
	ldr	r2, [r10, #8]
	and	r1, r0, #112
	ldr	r0, [r10]
	ldr	r3, [r10, #12]
	cmp	r1, #16
	movne	r8, #2
	mov	r1, #0
	moveq	r8, #1
	ldr	r7, [sp, #432]
	str	r8, [sp, #8]
	str	r1, [sp, #12]
	str	r11, [sp]
	bl	gcm.aes_soft.soft.blocks.filled_up.process_filled_up
	ldr	r12, [sp, #24]                  @ 4-byte Reload
	add	r5, r7, r9
	ldr	lr, [sp, #32]                   @ 4-byte Reload
	ldr	r8, [sp, #28]                   @ 4-byte Reload
	cmp	r12, #0
	beq	.Lgcm_BB23_4
@ %bb.1:                                @ %then.1.i
	ldr	r1, [sp, #428]
	eor	r0, r6, r9
	rsb	r2, r12, #16
	eor	r1, r4, r1
	mov	r4, #0
	orr	r3, r0, r1
	subs	r0, lr, r2
	sbcs	r0, r8, #0
	movlo	r2, lr
	movwlo	r4, #1
	cmp	r4, #0
	mov	r0, #0
	movne	r4, r8
	cmp	r3, #0
	beq	.Lgcm_BB23_5
@ %bb.2:                                @ %join.8.i85.preheader
	mov	r3, #0
.Lgcm_BB23_3:                               @ %join.8.i85
                                        @ =>This Inner Loop Header: Depth=1
	add	r6, r3, r12
	ldrb	r7, [r5, r3]
	ldrb	r6, [r11, r6]
	eor	r7, r7, r6
	strb	r7, [r5, r3]
	adds	r3, r3, #1
	adc	r0, r0, #0
	subs	r7, r3, r2
	sbcs	r7, r0, r4
	blo	.Lgcm_BB23_3
	b	.Lgcm_BB23_5
.Lgcm_BB23_4:
	mov	r2, #0
	mov	r4, #0
.Lgcm_BB23_5:                               @ %join.3.i
	subs	r3, lr, r2
	sbc	r6, r8, r4
	subs	r0, r3, #16
	sbcs	r0, r6, #0
	blo	.Lgcm_BB23_7
.Lgcm_BB23_6:                               @ %join.8.i
                                        @ =>This Inner Loop Header: Depth=1
	add	r7, r2, r12
	mov	r3, r5
	bic	r7, r7, #15
	ldrb	r0, [r3, r2]!
	mov	lr, r11
	mov	r12, r5
	ldrb	r6, [r11, r7]
	adds	r2, r2, #16
	ldrb	r8, [r3, #14]
	ldrb	r10, [r3, #13]
	eor	r0, r6, r0
	str	r0, [sp, #68]                   @ 4-byte Spill
	ldrb	r0, [r3, #1]
	str	r0, [sp, #124]                  @ 4-byte Spill
	ldrb	r0, [r3, #2]
	str	r0, [sp, #120]                  @ 4-byte Spill
	ldrb	r0, [r3, #3]
	str	r0, [sp, #112]                  @ 4-byte Spill
	ldrb	r0, [r3, #4]
	str	r0, [sp, #104]                  @ 4-byte Spill
	add	r0, r11, r7
	ldrb	r6, [r3, #12]
	ldrb	r1, [r0, #1]
	str	r1, [sp, #116]                  @ 4-byte Spill
	ldrb	r1, [r0, #2]
	str	r1, [sp, #108]                  @ 4-byte Spill
	ldrb	r1, [r0, #3]
	str	r1, [sp, #100]                  @ 4-byte Spill
	ldrb	r1, [r0, #4]
	str	r1, [sp, #96]                   @ 4-byte Spill
	ldrb	r1, [r3, #5]
	str	r1, [sp, #92]                   @ 4-byte Spill
	ldrb	r1, [r0, #5]
	str	r1, [sp, #88]                   @ 4-byte Spill
	ldrb	r1, [r3, #6]
	str	r1, [sp, #84]                   @ 4-byte Spill
	ldrb	r1, [r0, #6]
	str	r1, [sp, #80]                   @ 4-byte Spill
	ldrb	r1, [r3, #7]
	str	r1, [sp, #76]                   @ 4-byte Spill
	ldrb	r1, [r0, #7]
	str	r1, [sp, #72]                   @ 4-byte Spill
	ldrb	r1, [r3, #8]
	str	r1, [sp, #64]                   @ 4-byte Spill
	ldrb	r1, [r0, #8]
	str	r1, [sp, #60]                   @ 4-byte Spill
	ldrb	r1, [r3, #9]
	str	r1, [sp, #56]                   @ 4-byte Spill
	ldrb	r1, [r0, #9]
	str	r1, [sp, #52]                   @ 4-byte Spill
	ldrb	r1, [r3, #10]
	str	r1, [sp, #48]                   @ 4-byte Spill
	ldrb	r1, [r0, #10]
	str	r1, [sp, #44]                   @ 4-byte Spill
	ldrb	r1, [r3, #11]
	str	r1, [sp, #40]                   @ 4-byte Spill
	ldrb	r1, [r0, #11]
	str	r1, [sp, #36]                   @ 4-byte Spill
	mov	r1, r4
	ldrb	r11, [r0, #12]
	ldrb	r9, [r0, #13]
	ldrb	r5, [r0, #14]
	ldrb	r4, [r3, #15]
	ldrb	r0, [r0, #15]
	ldr	r7, [sp, #68]                   @ 4-byte Reload
	eor	r0, r0, r4
	strb	r0, [r3, #15]
	eor	r0, r5, r8
	strb	r0, [r3, #14]
	eor	r0, r9, r10
	strb	r0, [r3, #13]
	eor	r0, r11, r6
	mov	r4, r1
	strb	r0, [r3, #12]
	mov	r11, lr
	ldr	r0, [sp, #40]                   @ 4-byte Reload
	mov	r5, r12
	ldr	r1, [sp, #36]                   @ 4-byte Reload
	adc	r4, r4, #0
	ldr	lr, [sp, #32]                   @ 4-byte Reload
	eor	r0, r1, r0
	strb	r0, [r3, #11]
	ldr	r0, [sp, #48]                   @ 4-byte Reload
	ldr	r1, [sp, #44]                   @ 4-byte Reload
	ldr	r8, [sp, #28]                   @ 4-byte Reload
	eor	r0, r1, r0
	strb	r0, [r3, #10]
	ldr	r0, [sp, #56]                   @ 4-byte Reload
	ldr	r1, [sp, #52]                   @ 4-byte Reload
	strb	r7, [r3]
	eor	r0, r1, r0
	strb	r0, [r3, #9]
	ldr	r0, [sp, #64]                   @ 4-byte Reload
	ldr	r1, [sp, #60]                   @ 4-byte Reload
	ldr	r12, [sp, #24]                  @ 4-byte Reload
	eor	r0, r1, r0
	strb	r0, [r3, #8]
	ldr	r0, [sp, #76]                   @ 4-byte Reload
	ldr	r1, [sp, #72]                   @ 4-byte Reload
	eor	r0, r1, r0
	strb	r0, [r3, #7]
	ldr	r0, [sp, #84]                   @ 4-byte Reload
	ldr	r1, [sp, #80]                   @ 4-byte Reload
	eor	r0, r1, r0
	strb	r0, [r3, #6]
	ldr	r0, [sp, #92]                   @ 4-byte Reload
	ldr	r1, [sp, #88]                   @ 4-byte Reload
	eor	r0, r1, r0
	strb	r0, [r3, #5]
	ldr	r0, [sp, #104]                  @ 4-byte Reload
	ldr	r1, [sp, #96]                   @ 4-byte Reload
	eor	r0, r1, r0
	strb	r0, [r3, #4]
	ldr	r0, [sp, #112]                  @ 4-byte Reload
	ldr	r1, [sp, #100]                  @ 4-byte Reload
	eor	r0, r1, r0
	strb	r0, [r3, #3]
	ldr	r0, [sp, #120]                  @ 4-byte Reload
	ldr	r1, [sp, #108]                  @ 4-byte Reload
	eor	r0, r1, r0
	strb	r0, [r3, #2]
	ldr	r0, [sp, #124]                  @ 4-byte Reload
	ldr	r1, [sp, #116]                  @ 4-byte Reload
	eor	r0, r1, r0
	strb	r0, [r3, #1]
	subs	r3, lr, r2
	sbc	r6, r8, r4
	rsbs	r0, r3, #15
	rscs	r0, r6, #0
	blo	.Lgcm_BB23_6
.Lgcm_BB23_7:                               @ %after.4.i
	subs	r0, r2, lr
	sbcs	r0, r4, r8
	bhs	.Lgcm_BB23_11
@ %bb.8:                                @ %then.9.i
	orrs	r0, r3, r6
	beq	.Lgcm_BB23_11
@ %bb.9:                                @ %join.8.i28.preheader
	add	r1, r2, r12
	add	r0, r5, r2
	bic	r1, r1, #15
	mov	r2, #0
	add	r1, r11, r1
	mov	r7, #0
.Lgcm_BB23_10:                              @ %join.8.i28
                                        @ =>This Inner Loop Header: Depth=1
	ldrb	r5, [r1, r7]
	ldrb	r4, [r0, r7]
	eor	r5, r4, r5
	strb	r5, [r0, r7]
	adds	r7, r7, #1
	adc	r2, r2, #0
	subs	r5, r7, r3
	sbcs	r5, r2, r6
	blo	.Lgcm_BB23_10
.Lgcm_BB23_11:                              @ %"aes_ctr::add_blocks::add_blocks.exit"
	ldr	r0, [sp, #424]
	ldr	r1, [sp, #428]
	adds	r0, lr, r0
	adc	r1, r8, r1
	add	sp, sp, #388
	pop	{r4, r5, r6, r7, r8, r9, r10, r11, pc}
.Lgcm_func_end23:
	.size	gcm.aes_ctr.add_in_batches.add_next.1, .Lgcm_func_end23-gcm.aes_ctr.add_in_batches.add_next.1
	.cantunwind
	.fnend
                                        @ -- End function
	.section	.text.gcm.aes_cipher.zeroize.stack.wipe_stack.2032,"ax",%progbits
	.p2align	2                               @ -- Begin function aes_cipher::zeroize::stack::wipe_stack::<=2032>
	.type	gcm.aes_cipher.zeroize.stack.wipe_stack.2032,%function
	.code	32
gcm.aes_cipher.zeroize.stack.wipe_stack.2032: @ @gcm.aes_cipher.zeroize.stack.wipe_stack.2032
	.fnstart
@ %bb.0:                                @ %start
	.save	{r4, r5, r6, r7, r8, lr}
	push	{r4, r5, r6, r7, r8, lr}
	.pad	#1016
	sub	sp, sp, #1016
	.pad	#1024
	sub	sp, sp, #1024
	add	r4, sp, #8
	mov	r1, #0
	mov	r2, #2032
	mov	r7, #0
	mov	r0, r4
	bl	memset
	str	r7, [sp, #4]
	str	r7, [sp]
	@APP
	@NO_APP
	ldrd	r0, r1, [sp]
	@APP
	@NO_APP
	subs	r2, r0, #2032
	sbcs	r2, r1, #0
	bhs	.Lgcm_BB24_2
@ %bb.1:                                @ %then.1
	ldrb	r6, [r4, r0]
	@APP
	@NO_APP
	ldrd	r0, r1, [sp]
	strd	r6, r7, [sp]
	@APP
	@NO_APP
.Lgcm_BB24_2:                               @ %common.ret
	add	sp, sp, #1016
	add	sp, sp, #1024
	pop	{r4, r5, r6, r7, r8, pc}
.Lgcm_func_end24:
	.size	gcm.aes_cipher.zeroize.stack.wipe_stack.2032, .Lgcm_func_end24-gcm.aes_cipher.zeroize.stack.wipe_stack.2032
	.cantunwind
	.fnend
                                        @ -- End function
	.section	.text.gcm.aes_cipher.zeroize.stack.wipe_stack.1536,"ax",%progbits
	.p2align	2                               @ -- Begin function aes_cipher::zeroize::stack::wipe_stack::<=1536>
	.type	gcm.aes_cipher.zeroize.stack.wipe_stack.1536,%function
	.code	32
gcm.aes_cipher.zeroize.stack.wipe_stack.1536: @ @gcm.aes_cipher.zeroize.stack.wipe_stack.1536
	.fnstart
@ %bb.0:                                @ %start
	.save	{r4, r5, r6, r7, r8, lr}
	push	{r4, r5, r6, r7, r8, lr}
	.pad	#520
	sub	sp, sp, #520
	.pad	#1024
	sub	sp, sp, #1024
	add	r4, sp, #8
	mov	r1, #0
	mov	r2, #1536
	mov	r7, #0
	mov	r0, r4
	bl	memset
	str	r7, [sp, #4]
	str	r7, [sp]
	@APP
	@NO_APP
	ldrd	r0, r1, [sp]
	@APP
	@NO_APP
	subs	r2, r0, #1536
	sbcs	r2, r1, #0
	bhs	.Lgcm_BB25_2
@ %bb.1:                                @ %then.1
	ldrb	r6, [r4, r0]
	@APP
	@NO_APP
	ldrd	r0, r1, [sp]
	strd	r6, r7, [sp]
	@APP
	@NO_APP
.Lgcm_BB25_2:                               @ %common.ret
	add	sp, sp, #520
	add	sp, sp, #1024
	pop	{r4, r5, r6, r7, r8, pc}
.Lgcm_func_end25:
	.size	gcm.aes_cipher.zeroize.stack.wipe_stack.1536, .Lgcm_func_end25-gcm.aes_cipher.zeroize.stack.wipe_stack.1536
	.cantunwind
	.fnend
                                        @ -- End function
	.section	.text.gcm.gcm_c.whole.fotsgure_gcm_seal,"ax",%progbits
	.p2align	2                               @ -- Begin function gcm_c::whole::fotsgure_gcm_seal
	.type	gcm.gcm_c.whole.fotsgure_gcm_seal,%function
	.code	32
gcm.gcm_c.whole.fotsgure_gcm_seal:      @ @gcm.gcm_c.whole.fotsgure_gcm_seal
	.fnstart
@ %bb.0:                                @ %start
	.save	{r4, r5, r6, r7, r8, r9, r10, r11, lr}
	push	{r4, r5, r6, r7, r8, r9, r10, r11, lr}
	.pad	#92
	sub	sp, sp, #92
	orrs	r7, r2, r3
	beq	.Lgcm_BB26_5
@ %bb.1:                                @ %after.11.i
	ldr	r7, [r0]
	mov	r4, #2
	sub	r6, r7, #16
	cmp	r6, #16
	bhi	.Lgcm_BB26_4
@ %bb.2:                                @ %after.11.i
	movw	r5, #257
	mov	r12, #1
	movt	r5, #1
	tst	r5, r12, lsl r6
	beq	.Lgcm_BB26_4
@ %bb.3:                                @ %join.3
	mov	r6, #56
	mov	r4, #0
	adds	r6, r6, r7, lsl #1
	str	r6, [sp, #56]
	add	r6, r0, #484
	add	r0, r0, #4
	str	r0, [sp, #48]
	lsr	r0, r7, #31
	add	r7, sp, #48
	adc	r0, r0, #0
	str	r0, [sp, #60]
	mov	r0, r7
	str	r6, [sp, #64]
	add	r6, sp, #76
	ldr	r11, [sp, #156]
	ldr	r10, [sp, #152]
	ldr	r5, [sp, #160]
	ldr	r9, [sp, #144]
	ldr	r8, [sp, #128]
	str	r4, [sp, #68]
	str	r4, [sp, #52]
	str	r6, [sp]
	bl	gcm.gcm.mode.BorrowedGcm.put_pre_counter
	mov	r0, r7
	mov	r1, r6
	mov	r2, #16
	mov	r3, #0
	strd	r10, r11, [sp, #8]
	str	r9, [sp]
	bl	gcm.gcm.gctr.add_gctr
	add	r0, sp, #32
	str	r0, [sp, #24]
	ldr	r0, [sp, #136]
	mov	r1, r6
	str	r0, [sp]
	mov	r2, r8
	ldr	r0, [sp, #140]
	str	r10, [sp, #16]
	stmib	sp, {r0, r9}
	mov	r0, r7
	str	r11, [sp, #20]
	bl	gcm.gcm.mode.BorrowedGcm.put_tag
	mov	r0, r6
	bl	gcm.aes_cipher.zeroize.elements.zeroize_elements.2
	bl	gcm.aes_cipher.zeroize.stack.wipe_stack.1536
	add	r3, sp, #32
	ldm	r3, {r0, r1, r2, r3}
	str	r3, [r5, #12]
	str	r2, [r5, #8]
	str	r1, [r5, #4]
	str	r0, [r5]
.Lgcm_BB26_4:                               @ %common.ret
	mov	r0, r4
	add	sp, sp, #92
	pop	{r4, r5, r6, r7, r8, r9, r10, r11, pc}
.Lgcm_BB26_5:
	mov	r4, #3
	mov	r0, r4
	add	sp, sp, #92
	pop	{r4, r5, r6, r7, r8, r9, r10, r11, pc}
.Lgcm_func_end26:
	.size	gcm.gcm_c.whole.fotsgure_gcm_seal, .Lgcm_func_end26-gcm.gcm_c.whole.fotsgure_gcm_seal
	.cantunwind
	.fnend
                                        @ -- End function
	.section	.text.gcm.gcm_c.whole_to.copy,"ax",%progbits
	.p2align	2                               @ -- Begin function gcm_c::whole_to::copy
	.type	gcm.gcm_c.whole_to.copy,%function
	.code	32
gcm.gcm_c.whole_to.copy:                @ @gcm.gcm_c.whole_to.copy
	.fnstart
@ %bb.0:                                @ %start
	.save	{r4, lr}
	push	{r4, lr}
	mov	r12, r0
	ldr	r0, [sp, #8]
	mov	lr, #0
	subs	r1, r0, r12
	sbc	r4, lr, #0
	subs	r1, r1, r2
	sbcs	r1, r4, r3
	bhs	.Lgcm_BB27_4
@ %bb.1:                                @ %join.7.i.i.i.i.i.i.preheader
	mov	r1, #0
.Lgcm_BB27_2:                               @ %join.7.i.i.i.i.i.i
                                        @ =>This Inner Loop Header: Depth=1
	ldrb	r4, [r12, r1]
	strb	r4, [r0, r1]
	adds	r1, r1, #1
	adc	lr, lr, #0
	subs	r4, r1, r2
	sbcs	r4, lr, r3
	blo	.Lgcm_BB27_2
@ %bb.3:                                @ %"core::slice::edits::slice+T::copy_from_slice::<i8,20'core::clone::U8Clone{}>.exit"
	pop	{r4, pc}
.Lgcm_BB27_4:                               @ %apart.2.i.i.i.i.i.i
	mov	r1, r12
	pop	{r4, lr}
	b	memmove
.Lgcm_func_end27:
	.size	gcm.gcm_c.whole_to.copy, .Lgcm_func_end27-gcm.gcm_c.whole_to.copy
	.cantunwind
	.fnend
                                        @ -- End function
	.section	.text.gcm.gcm_siv.course.open_in,"ax",%progbits
	.p2align	2                               @ -- Begin function gcm_siv::course::open_in::<#dd49eccd619dd2e8>
	.type	gcm.gcm_siv.course.open_in,%function
	.code	32
gcm.gcm_siv.course.open_in: @ @gcm.gcm_siv.course.open_in
	.fnstart
@ %bb.0:                                @ %start
	.save	{r4, r5, r6, r7, r8, r9, r10, r11, lr}
	push	{r4, r5, r6, r7, r8, r9, r10, r11, lr}
	.pad	#532
	sub	sp, sp, #532
	add	r9, sp, #32
	mov	r5, r2
	add	r4, r9, #4
	mov	r6, r0
	mov	r1, #0
	mov	r2, #480
	mov	r0, r4
	mov	r7, r3
	mov	r11, #0
	bl	memset
	ldr	r10, [sp, #568]
	mov	r0, r6
	mov	r2, r5
	mov	r3, r7
	add	r8, sp, #516
	str	r11, [sp, #32]
	str	r8, [sp, #8]
	str	r9, [sp, #4]
	str	r10, [sp]
	bl	gcm.gcm_siv.keys.derive_and_prepare
	ldr	r0, [sp, #600]
	mov	r1, r8
	str	r0, [sp, #24]
	mov	r2, r10
	ldr	r0, [sp, #596]
	str	r0, [sp, #20]
	ldr	r0, [sp, #592]
	str	r0, [sp, #16]
	ldr	r0, [sp, #584]
	str	r0, [sp, #8]
	ldr	r0, [sp, #580]
	ldr	r3, [sp, #572]
	str	r0, [sp, #4]
	ldr	r0, [sp, #576]
	str	r0, [sp]
	mov	r0, r9
	bl	gcm.gcm_siv.message.open
	mov	r5, r0
	mov	r0, r4
	mov	r2, #120
	mov	r3, #0
	str	r11, [sp, #32]
	bl	gcm.aes_cipher.zeroize.elements.zeroize_elements.1
	mov	r0, r8
	mov	r2, #4
	mov	r3, #0
	bl	gcm.aes_cipher.zeroize.elements.zeroize_elements.1
	bl	gcm.aes_cipher.zeroize.stack.wipe_stack.2816
	mov	r0, r5
	add	sp, sp, #532
	pop	{r4, r5, r6, r7, r8, r9, r10, r11, pc}
.Lgcm_func_end28:
	.size	gcm.gcm_siv.course.open_in, .Lgcm_func_end28-gcm.gcm_siv.course.open_in
	.cantunwind
	.fnend
                                        @ -- End function
	.section	.text.gcm.gcm_siv.keys.derive_and_prepare,"ax",%progbits
	.p2align	2                               @ -- Begin function gcm_siv::keys::derive_and_prepare::<#dd49eccd619dd2e8>
	.type	gcm.gcm_siv.keys.derive_and_prepare,%function
	.code	32
gcm.gcm_siv.keys.derive_and_prepare: @ @gcm.gcm_siv.keys.derive_and_prepare
	.fnstart
@ %bb.0:                                @ %start
	.save	{r4, r5, r6, r7, r8, r9, r11, lr}
	push	{r4, r5, r6, r7, r8, r9, r11, lr}
	.pad	#112
	sub	sp, sp, #112
	ldr	r1, [sp, #144]
	mov	r9, r2
	add	r12, sp, #20
	mov	r4, r3
	add	r8, sp, #16
	ldr	r2, [r1]
	ldr	r3, [r1, #4]
	ldr	r7, [r1, #8]
	stm	r12, {r2, r3, r7}
	add	r12, sp, #36
	stm	r12, {r2, r3, r7}
	add	r12, sp, #52
	stm	r12, {r2, r3, r7}
	add	r12, sp, #68
	stm	r12, {r2, r3, r7}
	add	r12, sp, #84
	stm	r12, {r2, r3, r7}
	mov	r2, #0
	str	r2, [sp, #16]
	mov	r2, #1
	str	r2, [sp, #32]
	mov	r2, #2
	str	r2, [sp, #48]
	mov	r2, #3
	str	r2, [sp, #64]
	mov	r2, #4
	str	r2, [sp, #80]
	mov	r2, #5
	str	r2, [sp, #96]
	ldr	r2, [r1]
	ldr	r3, [r1, #4]
	ldr	r1, [r1, #8]
	str	r1, [sp, #108]
	lsr	r1, r9, #3
	orr	r1, r1, r4, lsl #29
	str	r2, [sp, #100]
	adds	r6, r1, #2
	lsr	r2, r4, #3
	ldr	r1, [r0]
	adc	r7, r2, #0
	str	r3, [sp, #104]
	ldr	r2, [r0, #8]
	ldr	r3, [r0, #12]
	mov	r0, r1
	strd	r6, r7, [sp, #8]
	str	r8, [sp]
	bl	gcm.aes_narrow.blocks.process_all_batches
	bl	gcm.aes_cipher.zeroize.stack.wipe_stack.1024
	ldr	r3, [sp, #36]
	ldr	r2, [sp, #32]
	ldr	r1, [sp, #20]
	ldr	r5, [sp, #152]
	lsrs	r7, r3, #1
	ldr	r0, [sp, #16]
	rrx	r6, r2
	str	r2, [sp, #24]
	str	r6, [r5, #8]
	lsr	r6, r1, #1
	lsrs	r1, r1, #1
	orr	r6, r6, r2, lsl #31
	rrx	r1, r0
	and	r0, r0, #1
	rsb	r0, r0, #0
	str	r1, [r5]
	and	r0, r0, #-520093696
	ldr	r1, [sp, #80]
	eor	r0, r7, r0
	str	r0, [r5, #12]
	ldr	r0, [sp, #48]
	ldr	r2, [sp, #84]
	ldr	r7, [sp, #148]
	str	r3, [sp, #28]
	add	r3, sp, #32
	str	r1, [sp, #48]
	ldr	r1, [sp, #52]
	str	r2, [sp, #52]
	ldr	r2, [sp, #68]
	str	r6, [r5, #4]
	add	r6, r7, #4
	str	r2, [sp, #44]
	ldr	r2, [sp, #64]
	stm	r3, {r0, r1, r2}
	mov	r1, #0
	mov	r2, #480
	ldr	r0, [sp, #100]
	str	r0, [sp, #60]
	ldr	r0, [sp, #96]
	str	r0, [sp, #56]
	mov	r0, r6
	bl	memset
	add	r1, r8, #16
	eor	r0, r9, #16
	orrs	r0, r0, r4
	bne	.Lgcm_BB29_2
@ %bb.1:                                @ %then.1.i
	mov	r4, #16
	mov	r0, r6
	mov	r2, #16
	b	.Lgcm_BB29_3
.Lgcm_BB29_2:                               @ %else.2.i
	mov	r4, #32
	mov	r0, r6
	mov	r2, #32
.Lgcm_BB29_3:                               @ %"gcm_siv::keys::set_encryption_key::<#4ed5dc91d5e47edc>.exit"
	mov	r3, #0
	bl	gcm.aes_narrow.word_room.expand_words
	bl	gcm.aes_cipher.zeroize.stack.wipe_stack.768
	add	r0, sp, #16
	mov	r2, #6
	mov	r3, #0
	str	r4, [r7]
	bl	gcm.aes_cipher.zeroize.elements.zeroize_elements.3
	add	sp, sp, #112
	pop	{r4, r5, r6, r7, r8, r9, r11, pc}
.Lgcm_func_end29:
	.size	gcm.gcm_siv.keys.derive_and_prepare, .Lgcm_func_end29-gcm.gcm_siv.keys.derive_and_prepare
	.cantunwind
	.fnend
                                        @ -- End function
	.section	.text.gcm.aes_cipher.zeroize.elements.zeroize_elements.3,"ax",%progbits
	.p2align	2                               @ -- Begin function aes_cipher::zeroize::elements::zeroize_elements::<#82a118249f09cfc6>
	.type	gcm.aes_cipher.zeroize.elements.zeroize_elements.3,%function
	.code	32
gcm.aes_cipher.zeroize.elements.zeroize_elements.3: @ @gcm.aes_cipher.zeroize.elements.zeroize_elements.3
	.fnstart
@ %bb.0:                                @ %start
	.save	{r4, r6, r8, r9, r11, lr}
	push	{r4, r6, r8, r9, r11, lr}
	.pad	#8
	sub	sp, sp, #8
	mov	r4, #0
	mov	r12, #0
	str	r4, [sp, #4]
	str	r4, [sp]
	@APP
	@NO_APP
	ldrd	r8, r9, [sp]
	@APP
	@NO_APP
	subs	r1, r8, r2
	sbcs	r1, r9, r3
	ldrblo	r12, [r0, r8, lsl #4]
	mov	r1, #0
	movwlo	r1, #1
	str	r4, [r0, #12]
	str	r4, [r0, #8]
	str	r4, [r0, #4]
	str	r4, [r0]
	subs	r4, r2, #2
	sbcs	r4, r3, #0
	blo	.Lgcm_BB30_6
@ %bb.1:                                @ %join.6.i.1
	mov	r4, #0
	eor	r6, r2, #2
	orrs	r6, r6, r3
	str	r4, [r0, #28]
	str	r4, [r0, #24]
	str	r4, [r0, #20]
	str	r4, [r0, #16]
	beq	.Lgcm_BB30_6
@ %bb.2:                                @ %join.6.i.2
	subs	r6, r2, #4
	str	r4, [r0, #44]
	sbcs	r6, r3, #0
	str	r4, [r0, #40]
	str	r4, [r0, #36]
	str	r4, [r0, #32]
	blo	.Lgcm_BB30_6
@ %bb.3:                                @ %join.6.i.3
	eor	r6, r2, #4
	str	r4, [r0, #60]
	orrs	r6, r6, r3
	str	r4, [r0, #56]
	str	r4, [r0, #52]
	str	r4, [r0, #48]
	beq	.Lgcm_BB30_6
@ %bb.4:                                @ %join.6.i.4
	subs	r2, r2, #6
	str	r4, [r0, #76]
	sbcs	r2, r3, #0
	str	r4, [r0, #72]
	str	r4, [r0, #68]
	str	r4, [r0, #64]
	blo	.Lgcm_BB30_6
@ %bb.5:                                @ %join.6.i.5
	mov	r2, #0
	str	r2, [r0, #92]
	str	r2, [r0, #88]
	str	r2, [r0, #84]
	str	r2, [r0, #80]
.Lgcm_BB30_6:                               @ %"aes_cipher::zeroize::overwrite::<#8c2be25e1e7027ab>.exit"
	cmp	r1, #0
	mov	r3, #0
	ldrbne	r0, [r0, r8, lsl #4]
	mov	r2, #0
	@APP
	@NO_APP
	andne	r2, r0, r12
	ldrd	r0, r1, [sp]
	strd	r2, r3, [sp]
	@APP
	@NO_APP
	add	sp, sp, #8
	pop	{r4, r6, r8, r9, r11, pc}
.Lgcm_func_end30:
	.size	gcm.aes_cipher.zeroize.elements.zeroize_elements.3, .Lgcm_func_end30-gcm.aes_cipher.zeroize.elements.zeroize_elements.3
	.cantunwind
	.fnend
                                        @ -- End function
	.section	.text.gcm.gcm_siv.message.open,"ax",%progbits
	.p2align	2                               @ -- Begin function gcm_siv::message::open::<#e5fd4d72f9ad47b7>
	.type	gcm.gcm_siv.message.open,%function
	.code	32
gcm.gcm_siv.message.open: @ @gcm.gcm_siv.message.open
	.fnstart
@ %bb.0:                                @ %start
	.save	{r4, r5, r6, r7, r8, r9, r10, r11, lr}
	push	{r4, r5, r6, r7, r8, r9, r10, r11, lr}
	.pad	#44
	sub	sp, sp, #44
	ldr	r9, [sp, #88]
	mov	r6, r1
	ldr	r1, [sp, #104]
	mov	r5, r2
	ldr	r11, [sp, #100]
	mov	r10, r3
	ldr	r8, [sp, #96]
	mov	r2, r9
	mov	r4, r0
	str	r11, [sp, #4]
	str	r8, [sp]
	bl	gcm.gcm_siv.message.process_text
	ldr	r0, [sp, #84]
	mov	r1, r6
	str	r0, [sp, #4]
	mov	r2, r5
	ldr	r0, [sp, #80]
	mov	r3, r10
	str	r0, [sp]
	mov	r0, r4
	add	r7, sp, #28
	str	r8, [sp, #16]
	str	r11, [sp, #20]
	str	r7, [sp, #24]
	str	r9, [sp, #8]
	ldr	r6, [sp, #104]
	bl	gcm.gcm_siv.message.put_tag
	mov	r0, r6
	mov	r1, r7
	bl	gcm.aes_cipher.blocks.difference
	mov	r5, r0
	mov	r0, r7
	mov	r2, #1
	mov	r3, #0
	bl	gcm.aes_cipher.zeroize.elements.zeroize_elements.3
	cmp	r5, #0
	beq	.Lgcm_BB31_2
@ %bb.1:                                @ %join.3
	ldr	r1, [sp, #96]
	mov	r2, r9
	ldr	r0, [sp, #100]
	str	r1, [sp]
	mov	r1, r6
	str	r0, [sp, #4]
	mov	r0, r4
	bl	gcm.gcm_siv.message.process_text
.Lgcm_BB31_2:                               @ %common.ret
	clz	r0, r5
	lsr	r0, r0, #5
	add	sp, sp, #44
	pop	{r4, r5, r6, r7, r8, r9, r10, r11, pc}
.Lgcm_func_end31:
	.size	gcm.gcm_siv.message.open, .Lgcm_func_end31-gcm.gcm_siv.message.open
	.cantunwind
	.fnend
                                        @ -- End function
	.section	.text.gcm.gcm_siv.message.put_tag,"ax",%progbits
	.p2align	2                               @ -- Begin function gcm_siv::message::put_tag::<#e5fd4d72f9ad47b7>
	.type	gcm.gcm_siv.message.put_tag,%function
	.code	32
gcm.gcm_siv.message.put_tag: @ @gcm.gcm_siv.message.put_tag
	.fnstart
@ %bb.0:                                @ %start
	.save	{r4, r5, r6, r7, r8, r9, r10, r11, lr}
	push	{r4, r5, r6, r7, r8, r9, r10, r11, lr}
	.setfp	r11, sp, #28
	add	r11, sp, #28
	.pad	#76
	sub	sp, sp, #76
	bfc	sp, #0, #4
	str	r0, [sp, #44]                   @ 4-byte Spill
	mov	r5, r2
	ldr	r0, [r1]
	mov	r2, #0
	ldr	r9, [r1, #4]
	ldr	r7, [r1, #8]
	ldr	r10, [r1, #12]
	str	r0, [sp, #40]                   @ 4-byte Spill
	str	r10, [sp, #60]
	str	r7, [sp, #56]
	str	r9, [sp, #52]
	str	r0, [sp, #48]
	ldr	r0, [r11, #12]
	str	r0, [sp, #20]
	mov	r0, #0
	ldr	r8, [r11, #8]
	stmib	sp, {r0, r3}
	mov	r3, #0
	str	r0, [sp]
	add	r0, sp, #48
	str	r8, [sp, #16]
	bl	gcm.gcm.single_blocks.hash_singly.2
	mov	r4, r0
	ldr	r0, [r11, #28]
	str	r0, [sp, #20]
	ldr	r6, [r11, #24]
	str	r6, [sp, #16]
	ldr	r0, [r11, #16]
	str	r0, [sp, #8]
	add	r0, sp, #48
	stm	sp, {r2, r3}
	mov	r2, r4
	mov	r3, r1
	bl	gcm.gcm.single_blocks.hash_singly.2
	ldr	r4, [sp, #40]                   @ 4-byte Reload
	mvn	r12, #248
	str	r7, [sp, #8]
	and	r7, r8, #31
	stm	sp, {r4, r9}
	and	r4, r12, r8, lsl #3
	orr	r7, r4, r7, lsl #3
	and	r4, r6, #31
	eor	r0, r0, r7
	and	r7, r12, r6, lsl #3
	eor	r1, r1, r8, lsr #29
	orr	r7, r7, r4, lsl #3
	eor	r3, r3, r6, lsr #29
	eor	r2, r2, r7
	str	r10, [sp, #12]
	bl	gcm.gcm.holes.product_with_holes
	ubfx	r4, r3, #24, #7
	ldrb	r7, [r5]
	str	r7, [sp, #40]                   @ 4-byte Spill
	ldrb	r7, [r5, #1]
	str	r7, [sp, #36]                   @ 4-byte Spill
	ldrb	r7, [r5, #2]
	str	r7, [sp, #32]                   @ 4-byte Spill
	ldrb	r7, [r5, #3]
	str	r7, [sp, #28]                   @ 4-byte Spill
	ldrb	r7, [r5, #4]
	str	r7, [sp, #24]                   @ 4-byte Spill
	ldrb	r10, [r5, #5]
	ldrb	r9, [r5, #6]
	ldrb	r8, [r5, #7]
	ldrb	r7, [r5, #8]
	ldrb	r6, [r5, #9]
	ldrb	lr, [r5, #10]
	ldrb	r12, [r5, #11]
	ldr	r5, [r11, #32]
	strb	r4, [r5, #15]
	lsr	r4, r3, #16
	strb	r4, [r5, #14]
	lsr	r4, r3, #8
	strb	r3, [r5, #12]
	eor	r3, r12, r2, lsr #24
	strb	r3, [r5, #11]
	eor	r3, lr, r2, lsr #16
	strb	r3, [r5, #10]
	eor	r3, r6, r2, lsr #8
	eor	r2, r2, r7
	strb	r2, [r5, #8]
	eor	r2, r8, r1, lsr #24
	strb	r2, [r5, #7]
	eor	r2, r9, r1, lsr #16
	strb	r2, [r5, #6]
	eor	r2, r10, r1, lsr #8
	strb	r2, [r5, #5]
	ldr	r2, [sp, #24]                   @ 4-byte Reload
	strb	r4, [r5, #13]
	eor	r1, r1, r2
	strb	r1, [r5, #4]
	ldr	r1, [sp, #28]                   @ 4-byte Reload
	mov	r2, #1
	strb	r3, [r5, #9]
	eor	r1, r1, r0, lsr #24
	strb	r1, [r5, #3]
	ldr	r1, [sp, #32]                   @ 4-byte Reload
	eor	r1, r1, r0, lsr #16
	strb	r1, [r5, #2]
	ldr	r1, [sp, #36]                   @ 4-byte Reload
	eor	r1, r1, r0, lsr #8
	strb	r1, [r5, #1]
	ldr	r1, [sp, #40]                   @ 4-byte Reload
	eor	r0, r0, r1
	strb	r0, [r5]
	ldr	r0, [sp, #44]                   @ 4-byte Reload
	mov	r1, #0
	ldr	r3, [r0], #4
	str	r2, [sp, #8]
	mov	r2, #56
	str	r1, [sp, #12]
	adds	r2, r2, r3, lsl #1
	lsr	r1, r3, #31
	adc	r3, r1, #0
	str	r5, [sp]
	bl	gcm.aes_narrow.blocks.process_all_batches
	sub	sp, r11, #28
	pop	{r4, r5, r6, r7, r8, r9, r10, r11, lr}
	b	gcm.aes_cipher.zeroize.stack.wipe_stack.1024
.Lgcm_func_end32:
	.size	gcm.gcm_siv.message.put_tag, .Lgcm_func_end32-gcm.gcm_siv.message.put_tag
	.cantunwind
	.fnend
                                        @ -- End function
	.section	.text.gcm.gcm.single_blocks.hash_singly.2,"ax",%progbits
	.p2align	2                               @ -- Begin function gcm::single_blocks::hash_singly::<#e9e90393c6907c0d>
	.type	gcm.gcm.single_blocks.hash_singly.2,%function
	.code	32
gcm.gcm.single_blocks.hash_singly.2: @ @gcm.gcm.single_blocks.hash_singly.2
	.fnstart
@ %bb.0:                                @ %start
	.save	{r4, r5, r6, r7, r8, r9, r10, r11, lr}
	push	{r4, r5, r6, r7, r8, r9, r10, r11, lr}
	.pad	#60
	sub	sp, sp, #60
	mov	r12, r2
	ldr	r2, [sp, #112]
	ldr	r7, [sp, #116]
	add	r5, sp, #96
	mov	r1, r3
	str	r0, [sp, #16]                   @ 4-byte Spill
	lsr	r2, r2, #4
	orr	lr, r2, r7, lsl #28
	orrs	r2, lr, r7, lsr #4
	ldm	r5, {r2, r3, r5}
	beq	.Lgcm_BB33_6
@ %bb.1:                                @ %join.5.i.lr.ph
	lsr	r4, r7, #4
	mov	r9, #0
	str	r4, [sp, #36]                   @ 4-byte Spill
	mov	r10, #0
	ldr	r4, [r0]
	str	r4, [sp, #32]                   @ 4-byte Spill
	ldr	r4, [r0, #4]
	str	r4, [sp, #28]                   @ 4-byte Spill
	ldr	r4, [r0, #8]
	ldr	r0, [r0, #12]
	str	r0, [sp, #20]                   @ 4-byte Spill
	mov	r0, r12
	str	r4, [sp, #24]                   @ 4-byte Spill
.Lgcm_BB33_2:                               @ %join.5.i
                                        @ =>This Inner Loop Header: Depth=1
	mov	r6, r5
	ldr	r4, [sp, #28]                   @ 4-byte Reload
	ldr	r12, [r6, r10, lsl #4]!
	ldr	r11, [sp, #32]                  @ 4-byte Reload
	ldr	r7, [r6, #4]
	eor	r0, r12, r0
	ldr	r8, [r6, #8]
	ldr	r6, [r6, #12]
	eor	r1, r7, r1
	str	r4, [sp, #4]
	eor	r2, r8, r2
	ldr	r4, [sp, #24]                   @ 4-byte Reload
	eor	r3, r6, r3
	str	r4, [sp, #8]
	ldr	r4, [sp, #20]                   @ 4-byte Reload
	str	r4, [sp, #12]
	mov	r4, lr
	str	r11, [sp]
	bl	gcm.gcm.holes.product_with_holes
	adds	r10, r10, #1
	mov	lr, r4
	adc	r9, r9, #0
	subs	r7, r10, r4
	ldr	r7, [sp, #36]                   @ 4-byte Reload
	sbcs	r7, r9, r7
	blo	.Lgcm_BB33_2
@ %bb.3:                                @ %"gcm::single_blocks::hash_whole::<#e9e90393c6907c0d>.exit"
	ldr	r7, [sp, #112]
	ands	r4, r7, #15
	beq	.Lgcm_BB33_5
.Lgcm_BB33_4:                               @ %join.3
	mov	r10, r1
	bic	r1, r7, #15
	mov	r9, r2
	add	r1, r5, r1
	add	r2, sp, #40
	mov	r11, r0
	mov	r0, #0
	subs	r2, r2, r1
	str	r0, [sp, #52]
	mov	r8, r3
	str	r0, [sp, #48]
	str	r0, [sp, #44]
	str	r0, [sp, #40]
	sbc	r0, r0, #0
	subs	r2, r2, r4
	sbcs	r0, r0, #0
	mov	r2, r4
	add	r0, sp, #40
	bl	memcpy
	add	r3, sp, #40
	ldr	r5, [sp, #16]                   @ 4-byte Reload
	ldm	r3, {r0, r1, r2, r3}
	eor	r1, r1, r10
	ldm	r5, {r4, r6, r7}
	eor	r0, r0, r11
	eor	r2, r2, r9
	eor	r3, r3, r8
	ldr	r5, [r5, #12]
	stm	sp, {r4, r6, r7}
	str	r5, [sp, #12]
	bl	gcm.gcm.holes.product_with_holes
.Lgcm_BB33_5:                               @ %common.ret
	add	sp, sp, #60
	pop	{r4, r5, r6, r7, r8, r9, r10, r11, pc}
.Lgcm_BB33_6:
	mov	r0, r12
	ldr	r7, [sp, #112]
	ands	r4, r7, #15
	bne	.Lgcm_BB33_4
	b	.Lgcm_BB33_5
.Lgcm_func_end33:
	.size	gcm.gcm.single_blocks.hash_singly.2, .Lgcm_func_end33-gcm.gcm.single_blocks.hash_singly.2
	.cantunwind
	.fnend
                                        @ -- End function
	.section	.text.gcm.gcm_siv.message.process_text,"ax",%progbits
	.p2align	2                               @ -- Begin function gcm_siv::message::process_text::<#4ed5dc91d5e47edc>
	.type	gcm.gcm_siv.message.process_text,%function
	.code	32
gcm.gcm_siv.message.process_text: @ @gcm.gcm_siv.message.process_text
	.fnstart
@ %bb.0:                                @ %start
	.save	{r4, r5, r6, r7, r8, r9, r10, r11, lr}
	push	{r4, r5, r6, r7, r8, r9, r10, r11, lr}
	.pad	#164
	sub	sp, sp, #164
	mov	r4, r2
	ldrb	r2, [r1, #15]
	mvn	r3, #127
	ldr	r6, [r1, #4]
	orr	r12, r2, r3
	ldr	r2, [r0], #4
	ldr	r3, [r1]
	mov	r9, #0
	ldr	r7, [r1, #11]
	ldr	r5, [r1, #8]
	str	r7, [sp, #107]
	mov	r7, #56
	str	r5, [sp, #104]
	str	r6, [sp, #100]
	str	r3, [sp, #96]
	lsr	r3, r2, #31
	adds	r2, r7, r2, lsl #1
	ldr	r5, [sp, #204]
	ldr	r6, [sp, #200]
	adc	r3, r3, #0
	strb	r12, [sp, #111]
	rsbs	r7, r6, #16
	str	r9, [sp, #116]
	rscs	r7, r5, #0
	str	r9, [sp, #112]
	blo	.Lgcm_BB34_4
@ %bb.1:                                @ %then.1.i.i
	ldr	r7, [sp, #96]
	mov	r8, #1
	strb	r12, [sp, #163]
	str	r7, [sp, #148]
	ldr	r7, [r1, #4]
	ldr	r12, [r1, #8]
	ldr	r1, [r1, #11]
	str	r7, [sp, #152]
	add	r7, sp, #148
	str	r12, [sp, #156]
	str	r1, [sp, #159]
	strd	r8, r9, [sp, #8]
	str	r7, [sp]
	bl	gcm.aes_narrow.blocks.process_all_batches
	bl	gcm.aes_cipher.zeroize.stack.wipe_stack.1024
	tst	r6, #31
	beq	.Lgcm_BB34_7
@ %bb.2:                                @ %then.1.i.i
	cmp	r6, #16
	bne	.Lgcm_BB34_5
@ %bb.3:                                @ %after.4.i.thread.i.i.i
	ldrb	r0, [r4, #15]
	ldrb	r1, [sp, #163]
	ldrb	r5, [r4, #14]
	eor	r0, r1, r0
	str	r0, [sp, #32]                   @ 4-byte Spill
	ldrb	r0, [r4]
	str	r0, [sp, #92]                   @ 4-byte Spill
	ldrb	r0, [r4, #1]
	str	r0, [sp, #88]                   @ 4-byte Spill
	ldrb	r0, [r4, #2]
	str	r0, [sp, #84]                   @ 4-byte Spill
	ldrb	r0, [r4, #3]
	str	r0, [sp, #80]                   @ 4-byte Spill
	ldrb	r0, [r4, #4]
	str	r0, [sp, #76]                   @ 4-byte Spill
	ldrb	r0, [r4, #5]
	str	r0, [sp, #72]                   @ 4-byte Spill
	ldrb	r0, [r4, #6]
	str	r0, [sp, #64]                   @ 4-byte Spill
	ldrb	r0, [r4, #7]
	str	r0, [sp, #56]                   @ 4-byte Spill
	ldrb	r0, [r4, #8]
	str	r0, [sp, #48]                   @ 4-byte Spill
	ldrb	r0, [r4, #9]
	str	r0, [sp, #40]                   @ 4-byte Spill
	ldrb	r0, [r4, #10]
	str	r0, [sp, #28]                   @ 4-byte Spill
	ldrb	r0, [r4, #11]
	str	r0, [sp, #20]                   @ 4-byte Spill
	ldrb	r0, [sp, #148]
	str	r0, [sp, #68]                   @ 4-byte Spill
	ldrb	r0, [sp, #149]
	str	r0, [sp, #60]                   @ 4-byte Spill
	ldrb	r0, [sp, #150]
	str	r0, [sp, #52]                   @ 4-byte Spill
	ldrb	r0, [sp, #151]
	str	r0, [sp, #44]                   @ 4-byte Spill
	ldrb	r0, [sp, #152]
	str	r0, [sp, #36]                   @ 4-byte Spill
	ldrb	r0, [sp, #153]
	str	r0, [sp, #24]                   @ 4-byte Spill
	ldrb	r0, [sp, #162]
	ldrb	r6, [r4, #13]
	ldrb	r1, [sp, #161]
	eor	r0, r0, r5
	ldrb	r9, [r4, #12]
	ldrb	r2, [sp, #160]
	strb	r0, [r4, #14]
	eor	r0, r1, r6
	strb	r0, [r4, #13]
	eor	r0, r2, r9
	strb	r0, [r4, #12]
	ldrb	r3, [sp, #159]
	ldr	r0, [sp, #20]                   @ 4-byte Reload
	ldrb	r12, [sp, #158]
	eor	r0, r3, r0
	strb	r0, [r4, #11]
	ldr	r0, [sp, #28]                   @ 4-byte Reload
	ldrb	lr, [sp, #157]
	eor	r0, r12, r0
	strb	r0, [r4, #10]
	ldr	r0, [sp, #40]                   @ 4-byte Reload
	ldrb	r7, [sp, #156]
	eor	r0, lr, r0
	strb	r0, [r4, #9]
	ldr	r0, [sp, #48]                   @ 4-byte Reload
	ldrb	r8, [sp, #155]
	eor	r0, r7, r0
	strb	r0, [r4, #8]
	ldr	r0, [sp, #56]                   @ 4-byte Reload
	ldrb	r11, [sp, #154]
	eor	r0, r8, r0
	strb	r0, [r4, #7]
	ldr	r0, [sp, #64]                   @ 4-byte Reload
	ldr	r1, [sp, #24]                   @ 4-byte Reload
	eor	r0, r11, r0
	strb	r0, [r4, #6]
	ldr	r0, [sp, #72]                   @ 4-byte Reload
	ldr	r10, [sp, #32]                  @ 4-byte Reload
	eor	r0, r1, r0
	strb	r0, [r4, #5]
	ldr	r0, [sp, #76]                   @ 4-byte Reload
	ldr	r1, [sp, #36]                   @ 4-byte Reload
	strb	r10, [r4, #15]
	eor	r0, r1, r0
	strb	r0, [r4, #4]
	ldr	r0, [sp, #80]                   @ 4-byte Reload
	ldr	r1, [sp, #44]                   @ 4-byte Reload
	eor	r0, r1, r0
	strb	r0, [r4, #3]
	ldr	r0, [sp, #84]                   @ 4-byte Reload
	ldr	r1, [sp, #52]                   @ 4-byte Reload
	eor	r0, r1, r0
	strb	r0, [r4, #2]
	ldr	r0, [sp, #88]                   @ 4-byte Reload
	ldr	r1, [sp, #60]                   @ 4-byte Reload
	eor	r0, r1, r0
	strb	r0, [r4, #1]
	ldr	r0, [sp, #92]                   @ 4-byte Reload
	ldr	r1, [sp, #68]                   @ 4-byte Reload
	eor	r0, r1, r0
	strb	r0, [r4]
	add	sp, sp, #164
	pop	{r4, r5, r6, r7, r8, r9, r10, r11, pc}
.Lgcm_BB34_4:                               @ %else.2.i.i
	add	r1, sp, #112
	str	r9, [sp, #132]
	add	r7, r1, #8
	str	r4, [sp, #128]
	str	r1, [sp]
	str	r6, [r7, #16]
	str	r9, [r7]
	str	r9, [r7, #4]
	str	r5, [r7, #20]
	add	r7, sp, #96
	str	r7, [sp, #112]
	bl	gcm.aes_narrow.borrowed_words.call_to_encrypt.2
	bl	gcm.aes_cipher.zeroize.stack.wipe_stack.2032
	add	sp, sp, #164
	pop	{r4, r5, r6, r7, r8, r9, r10, r11, pc}
.Lgcm_BB34_5:                               @ %join.8.i10.i.i.i.preheader
	mov	r0, #0
	mov	r1, #0
.Lgcm_BB34_6:                               @ %join.8.i10.i.i.i
                                        @ =>This Inner Loop Header: Depth=1
	ldrb	r2, [r7, r1]
	ldrb	r3, [r4, r1]
	eor	r2, r3, r2
	strb	r2, [r4, r1]
	adds	r1, r1, #1
	adc	r0, r0, #0
	subs	r2, r1, r6
	sbcs	r2, r0, r5
	blo	.Lgcm_BB34_6
.Lgcm_BB34_7:                               @ %"gcm_siv::counters::add_keystream::<#099a9bc28799ce6c>.exit"
	add	sp, sp, #164
	pop	{r4, r5, r6, r7, r8, r9, r10, r11, pc}
.Lgcm_func_end34:
	.size	gcm.gcm_siv.message.process_text, .Lgcm_func_end34-gcm.gcm_siv.message.process_text
	.cantunwind
	.fnend
                                        @ -- End function
	.section	.text.gcm.aes_narrow.borrowed_words.call_to_encrypt.2,"ax",%progbits
	.p2align	2                               @ -- Begin function aes_narrow::borrowed_words::call_to_encrypt::<#d0e731d912aff965>
	.type	gcm.aes_narrow.borrowed_words.call_to_encrypt.2,%function
	.code	32
gcm.aes_narrow.borrowed_words.call_to_encrypt.2: @ @gcm.aes_narrow.borrowed_words.call_to_encrypt.2
	.fnstart
@ %bb.0:                                @ %start
	.save	{r4, r5, r6, r7, r8, r9, r10, r11, lr}
	push	{r4, r5, r6, r7, r8, r9, r10, r11, lr}
	.pad	#436
	sub	sp, sp, #436
	str	r0, [sp, #68]                   @ 4-byte Spill
	mov	r7, #0
	str	r0, [sp, #160]
	mov	r10, r3
	ldr	r0, [sp, #472]
	mov	r5, r2
	str	r2, [sp, #168]
	str	r3, [sp, #172]
	ldr	r4, [r0, #24]
	ldr	r11, [r0, #28]
	ldr	r6, [r0]
	ldr	r9, [r0, #16]
	ldr	r1, [r0, #8]
	ldr	r2, [r0, #12]
	tst	r1, #15
	str	r7, [sp, #164]
	str	r2, [sp, #152]                  @ 4-byte Spill
	str	r1, [sp, #156]                  @ 4-byte Spill
	beq	.Lgcm_BB35_2
@ %bb.1:                                @ %then.1.i.i
	mov	r0, #0
	ldr	r2, [sp, #156]                  @ 4-byte Reload
	ldr	r3, [sp, #152]                  @ 4-byte Reload
	mov	r1, r6
	str	r0, [sp]
	stmib	sp, {r0, r9}
	add	r0, sp, #160
	str	r4, [sp, #16]
	str	r11, [sp, #20]
	bl	gcm.aes_ctr.add_in_batches.add_next.2
	mov	r7, r0
	b	.Lgcm_BB35_3
.Lgcm_BB35_2:
	mov	r1, #0
.Lgcm_BB35_3:                               @ %join.3.i.i
	subs	r0, r4, r7
	mov	r8, r1
	sbc	r1, r11, r1
	subs	r0, r0, #32
	sbcs	r0, r1, #0
	blo	.Lgcm_BB35_6
@ %bb.4:                                @ %join.11.lr.ph.i.i
	add	r0, sp, #176
	str	r5, [sp, #28]                   @ 4-byte Spill
	add	r1, r0, #32
	str	r1, [sp, #44]                   @ 4-byte Spill
	add	r1, r6, #4
	str	r1, [sp, #40]                   @ 4-byte Spill
	add	r1, r0, #20
	orr	r0, r0, #4
	str	r1, [sp, #36]                   @ 4-byte Spill
	str	r0, [sp, #32]                   @ 4-byte Spill
	str	r4, [sp, #64]                   @ 4-byte Spill
	str	r11, [sp, #60]                  @ 4-byte Spill
	str	r6, [sp, #56]                   @ 4-byte Spill
	str	r9, [sp, #52]                   @ 4-byte Spill
	str	r10, [sp, #48]                  @ 4-byte Spill
.Lgcm_BB35_5:                               @ %join.11.i.i
                                        @ =>This Inner Loop Header: Depth=1
	ldr	r0, [sp, #44]                   @ 4-byte Reload
	mov	r1, #0
	mov	r2, #224
	str	r7, [sp, #148]                  @ 4-byte Spill
	mov	r11, #0
	bl	memset
	ldr	r2, [sp, #40]                   @ 4-byte Reload
	mov	r4, #2
	ldr	r3, [sp, #32]                   @ 4-byte Reload
	str	r8, [sp, #144]                  @ 4-byte Spill
	ldr	r0, [r2]
	ldr	r1, [r2, #4]
	ldr	r2, [r2, #8]
	str	r0, [r3]
	str	r1, [r3, #4]
	str	r2, [r3, #8]
	ldr	r3, [sp, #36]                   @ 4-byte Reload
	str	r0, [r3]
	ldr	r0, [sp, #156]                  @ 4-byte Reload
	str	r1, [r3, #4]
	ldr	r1, [sp, #152]                  @ 4-byte Reload
	adds	r0, r7, r0
	str	r2, [r3, #8]
	mov	r3, r10
	adc	r1, r8, r1
	lsr	r0, r0, #4
	ldr	r2, [sp, #28]                   @ 4-byte Reload
	orr	r0, r0, r1, lsl #28
	ldr	r1, [r6]
	str	r4, [sp, #8]
	add	r0, r1, r0
	str	r0, [sp, #176]
	add	r0, r0, #1
	str	r0, [sp, #192]
	add	r0, sp, #176
	str	r0, [sp]
	ldr	r0, [sp, #68]                   @ 4-byte Reload
	str	r11, [sp, #12]
	bl	gcm.aes_soft.soft.blocks.filled_up.process_filled_up
	mov	r0, r9
	ldrb	r5, [sp, #176]
	ldrb	lr, [r0, r7]!
	ldrb	r9, [sp, #191]
	ldrb	r1, [r0, #3]
	str	r1, [sp, #140]                  @ 4-byte Spill
	ldrb	r1, [r0, #4]
	str	r1, [sp, #136]                  @ 4-byte Spill
	ldrb	r1, [r0, #5]
	str	r1, [sp, #132]                  @ 4-byte Spill
	ldrb	r1, [r0, #6]
	str	r1, [sp, #128]                  @ 4-byte Spill
	ldrb	r1, [r0, #7]
	str	r1, [sp, #120]                  @ 4-byte Spill
	ldrb	r1, [r0, #8]
	str	r1, [sp, #112]                  @ 4-byte Spill
	ldrb	r1, [r0, #9]
	str	r1, [sp, #104]                  @ 4-byte Spill
	ldrb	r1, [r0, #10]
	str	r1, [sp, #96]                   @ 4-byte Spill
	ldrb	r1, [r0, #11]
	str	r1, [sp, #88]                   @ 4-byte Spill
	ldrb	r1, [r0, #12]
	str	r1, [sp, #80]                   @ 4-byte Spill
	ldrb	r1, [r0, #13]
	str	r1, [sp, #72]                   @ 4-byte Spill
	ldrb	r1, [sp, #177]
	str	r1, [sp, #124]                  @ 4-byte Spill
	ldrb	r1, [sp, #178]
	str	r1, [sp, #116]                  @ 4-byte Spill
	ldrb	r1, [sp, #179]
	ldrb	r12, [r0, #15]
	str	r1, [sp, #108]                  @ 4-byte Spill
	eor	r1, r5, lr
	ldrb	r4, [r0, #14]
	ldrb	r10, [sp, #190]
	strb	r1, [r0]
	eor	r1, r9, r12
	strb	r1, [r0, #15]
	eor	r1, r10, r4
	strb	r1, [r0, #14]
	ldrb	r11, [sp, #189]
	ldr	r1, [sp, #72]                   @ 4-byte Reload
	ldrb	r2, [sp, #180]
	eor	r1, r11, r1
	str	r2, [sp, #100]                  @ 4-byte Spill
	ldrb	r2, [sp, #181]
	strb	r1, [r0, #13]
	ldrb	r6, [sp, #188]
	ldr	r1, [sp, #80]                   @ 4-byte Reload
	str	r2, [sp, #92]                   @ 4-byte Spill
	ldrb	r2, [sp, #182]
	eor	r1, r6, r1
	str	r2, [sp, #84]                   @ 4-byte Spill
	ldrb	r2, [sp, #183]
	str	r2, [sp, #76]                   @ 4-byte Spill
	strb	r1, [r0, #12]
	ldrb	r2, [sp, #187]
	ldr	r1, [sp, #88]                   @ 4-byte Reload
	ldrb	r3, [sp, #186]
	eor	r1, r2, r1
	strb	r1, [r0, #11]
	ldr	r1, [sp, #96]                   @ 4-byte Reload
	ldrb	lr, [sp, #185]
	eor	r1, r3, r1
	strb	r1, [r0, #10]
	ldr	r1, [sp, #104]                  @ 4-byte Reload
	ldrb	r5, [sp, #184]
	eor	r1, lr, r1
	strb	r1, [r0, #9]
	ldr	r1, [sp, #112]                  @ 4-byte Reload
	ldr	r2, [sp, #76]                   @ 4-byte Reload
	eor	r1, r5, r1
	strb	r1, [r0, #8]
	ldr	r1, [sp, #120]                  @ 4-byte Reload
	ldrb	r7, [r0, #2]
	eor	r1, r2, r1
	strb	r1, [r0, #7]
	ldr	r1, [sp, #128]                  @ 4-byte Reload
	ldr	r2, [sp, #84]                   @ 4-byte Reload
	ldrb	r8, [r0, #1]
	eor	r1, r2, r1
	strb	r1, [r0, #6]
	ldr	r1, [sp, #132]                  @ 4-byte Reload
	ldr	r2, [sp, #92]                   @ 4-byte Reload
	ldrb	r11, [r0, #30]
	eor	r1, r2, r1
	strb	r1, [r0, #5]
	ldr	r1, [sp, #136]                  @ 4-byte Reload
	ldr	r2, [sp, #100]                  @ 4-byte Reload
	ldrb	r9, [r0, #29]
	eor	r1, r2, r1
	strb	r1, [r0, #4]
	ldr	r1, [sp, #140]                  @ 4-byte Reload
	ldr	r2, [sp, #108]                  @ 4-byte Reload
	ldrb	r3, [sp, #204]
	eor	r1, r2, r1
	strb	r1, [r0, #3]
	ldr	r1, [sp, #116]                  @ 4-byte Reload
	ldrb	lr, [sp, #202]
	eor	r1, r1, r7
	strb	r1, [r0, #2]
	ldr	r1, [sp, #124]                  @ 4-byte Reload
	ldrb	r7, [sp, #205]
	eor	r1, r1, r8
	strb	r1, [r0, #1]
	ldrb	r1, [r0, #18]
	str	r1, [sp, #140]                  @ 4-byte Spill
	ldrb	r1, [r0, #19]
	str	r1, [sp, #136]                  @ 4-byte Spill
	ldrb	r1, [r0, #20]
	str	r1, [sp, #132]                  @ 4-byte Spill
	ldrb	r1, [r0, #21]
	str	r1, [sp, #128]                  @ 4-byte Spill
	ldrb	r1, [r0, #22]
	str	r1, [sp, #124]                  @ 4-byte Spill
	ldrb	r1, [r0, #23]
	str	r1, [sp, #116]                  @ 4-byte Spill
	ldrb	r1, [r0, #24]
	str	r1, [sp, #108]                  @ 4-byte Spill
	ldrb	r1, [r0, #25]
	str	r1, [sp, #100]                  @ 4-byte Spill
	ldrb	r1, [r0, #26]
	str	r1, [sp, #92]                   @ 4-byte Spill
	ldrb	r1, [r0, #27]
	str	r1, [sp, #84]                   @ 4-byte Spill
	ldrb	r1, [r0, #28]
	str	r1, [sp, #76]                   @ 4-byte Spill
	ldrb	r1, [sp, #192]
	str	r1, [sp, #120]                  @ 4-byte Spill
	ldrb	r1, [sp, #193]
	str	r1, [sp, #112]                  @ 4-byte Spill
	ldrb	r1, [sp, #194]
	str	r1, [sp, #104]                  @ 4-byte Spill
	ldrb	r1, [sp, #195]
	str	r1, [sp, #96]                   @ 4-byte Spill
	ldrb	r1, [sp, #196]
	str	r1, [sp, #88]                   @ 4-byte Spill
	ldrb	r1, [sp, #197]
	str	r1, [sp, #80]                   @ 4-byte Spill
	ldrb	r1, [sp, #198]
	str	r1, [sp, #72]                   @ 4-byte Spill
	ldrb	r1, [sp, #206]
	ldrb	r8, [sp, #203]
	eor	r1, r1, r11
	strb	r1, [r0, #30]
	eor	r1, r7, r9
	strb	r1, [r0, #29]
	ldr	r1, [sp, #76]                   @ 4-byte Reload
	ldrb	r5, [sp, #201]
	eor	r1, r3, r1
	strb	r1, [r0, #28]
	ldr	r1, [sp, #84]                   @ 4-byte Reload
	ldrb	r6, [r0, #31]
	eor	r1, r8, r1
	strb	r1, [r0, #27]
	ldr	r1, [sp, #92]                   @ 4-byte Reload
	ldrb	r4, [sp, #207]
	eor	r1, lr, r1
	strb	r1, [r0, #26]
	ldr	r1, [sp, #100]                  @ 4-byte Reload
	eor	r4, r4, r6
	ldrb	r6, [sp, #200]
	eor	r1, r5, r1
	strb	r1, [r0, #25]
	ldr	r1, [sp, #108]                  @ 4-byte Reload
	ldrb	r10, [sp, #199]
	eor	r1, r6, r1
	strb	r1, [r0, #24]
	ldr	r1, [sp, #116]                  @ 4-byte Reload
	ldr	r3, [sp, #72]                   @ 4-byte Reload
	eor	r1, r10, r1
	strb	r1, [r0, #23]
	ldr	r1, [sp, #124]                  @ 4-byte Reload
	ldrb	r2, [r0, #17]
	eor	r1, r3, r1
	strb	r1, [r0, #22]
	ldr	r1, [sp, #128]                  @ 4-byte Reload
	ldr	r3, [sp, #80]                   @ 4-byte Reload
	ldrb	r12, [r0, #16]
	eor	r1, r3, r1
	strb	r1, [r0, #21]
	ldr	r1, [sp, #132]                  @ 4-byte Reload
	ldr	r3, [sp, #88]                   @ 4-byte Reload
	ldr	r7, [sp, #148]                  @ 4-byte Reload
	eor	r1, r3, r1
	strb	r1, [r0, #20]
	ldr	r1, [sp, #136]                  @ 4-byte Reload
	adds	r7, r7, #32
	ldr	r3, [sp, #96]                   @ 4-byte Reload
	strb	r4, [r0, #31]
	eor	r1, r3, r1
	strb	r1, [r0, #19]
	ldr	r1, [sp, #140]                  @ 4-byte Reload
	ldr	r3, [sp, #104]                  @ 4-byte Reload
	ldr	r4, [sp, #64]                   @ 4-byte Reload
	eor	r1, r3, r1
	strb	r1, [r0, #18]
	ldr	r1, [sp, #112]                  @ 4-byte Reload
	ldr	r11, [sp, #60]                  @ 4-byte Reload
	eor	r1, r1, r2
	strb	r1, [r0, #17]
	ldr	r1, [sp, #120]                  @ 4-byte Reload
	ldr	r9, [sp, #52]                   @ 4-byte Reload
	eor	r1, r1, r12
	strb	r1, [r0, #16]
	ldr	r1, [sp, #144]                  @ 4-byte Reload
	ldr	r10, [sp, #48]                  @ 4-byte Reload
	adc	r1, r1, #0
	ldr	r6, [sp, #56]                   @ 4-byte Reload
	subs	r0, r4, r7
	mov	r8, r1
	sbc	r1, r11, r1
	rsbs	r0, r0, #31
	rscs	r0, r1, #0
	blo	.Lgcm_BB35_5
.Lgcm_BB35_6:                               @ %loop.13.preheader.i.i
	subs	r0, r7, r4
	mov	r1, r8
	sbcs	r0, r8, r11
	bhs	.Lgcm_BB35_8
.Lgcm_BB35_7:                               @ %join.16.i.i
                                        @ =>This Inner Loop Header: Depth=1
	ldr	r2, [sp, #156]                  @ 4-byte Reload
	add	r0, sp, #160
	ldr	r3, [sp, #152]                  @ 4-byte Reload
	stmib	sp, {r1, r9}
	mov	r1, r6
	str	r4, [sp, #16]
	str	r11, [sp, #20]
	str	r7, [sp]
	bl	gcm.aes_ctr.add_in_batches.add_next.2
	mov	r7, r0
	subs	r0, r0, r4
	sbcs	r0, r1, r11
	blo	.Lgcm_BB35_7
.Lgcm_BB35_8:                               @ %"aes_ctr::add_in_batches::AddStreamBlockCipherEncClosure::call::<#dc401293e4f3bac2>.exit"
	add	sp, sp, #436
	pop	{r4, r5, r6, r7, r8, r9, r10, r11, pc}
.Lgcm_func_end35:
	.size	gcm.aes_narrow.borrowed_words.call_to_encrypt.2, .Lgcm_func_end35-gcm.aes_narrow.borrowed_words.call_to_encrypt.2
	.cantunwind
	.fnend
                                        @ -- End function
	.section	.text.gcm.aes_ctr.add_in_batches.add_next.2,"ax",%progbits
	.p2align	2                               @ -- Begin function aes_ctr::add_in_batches::add_next::<#9f5b6b63b811461e>
	.type	gcm.aes_ctr.add_in_batches.add_next.2,%function
	.code	32
gcm.aes_ctr.add_in_batches.add_next.2: @ @gcm.aes_ctr.add_in_batches.add_next.2
	.fnstart
@ %bb.0:                                @ %start
	.save	{r4, r5, r6, r7, r8, r9, r10, r11, lr}
	push	{r4, r5, r6, r7, r8, r9, r10, r11, lr}
	.pad	#388
	sub	sp, sp, #388
	add	r10, sp, #128
	mov	r5, r0
	add	r0, r10, #32
	mov	r6, r2
	mov	r7, r1
	mov	r1, #0
	mov	r2, #224
	mov	r9, r3
	mov	r4, #0
	bl	memset
	ldr	r1, [r7, #4]
	ldr	r2, [r7, #8]
	ldr	r3, [r7, #12]
	ldr	r0, [r7]
	ldr	r7, [sp, #424]
	ldr	r11, [sp, #428]
	str	r1, [sp, #148]
	str	r1, [sp, #132]
	adds	r1, r7, r6
	str	r2, [sp, #152]
	and	r6, r1, #15
	str	r2, [sp, #136]
	adc	r2, r11, r9
	str	r3, [sp, #156]
	str	r3, [sp, #140]
	lsr	r3, r1, #4
	orr	r2, r3, r2, lsl #28
	ldr	r9, [sp, #440]
	add	r0, r0, r2
	str	r0, [sp, #128]
	add	r0, r0, #1
	ldr	r2, [sp, #444]
	str	r0, [sp, #144]
	subs	r0, r9, r7
	rsb	r3, r6, #32
	sbc	r2, r2, r11
	subs	r1, r0, r3
	str	r6, [sp, #24]                   @ 4-byte Spill
	sbcs	r1, r2, #0
	movlo	r3, r0
	mov	r0, #0
	movwlo	r0, #1
	cmp	r0, #0
	movne	r0, r2
	str	r3, [sp, #32]                   @ 4-byte Spill
	str	r0, [sp, #28]                   @ 4-byte Spill
	add	r0, r6, r3
	add	r0, r0, #15
	ldr	r2, [r5, #8]
	and	r1, r0, #112
	ldr	r0, [r5]
	ldr	r3, [r5, #12]
	cmp	r1, #16
	movne	r8, #2
	ldr	r5, [sp, #432]
	moveq	r8, #1
	str	r10, [sp]
	str	r8, [sp, #8]
	str	r4, [sp, #12]
	bl	gcm.aes_soft.soft.blocks.filled_up.process_filled_up
	ldr	r8, [sp, #24]                   @ 4-byte Reload
	add	r4, r5, r7
	ldr	r12, [sp, #32]                  @ 4-byte Reload
	ldr	lr, [sp, #28]                   @ 4-byte Reload
	cmp	r8, #0
	beq	.Lgcm_BB36_4
@ %bb.1:                                @ %then.1.i
	ldr	r1, [sp, #444]
	eor	r0, r9, r7
	eor	r1, r1, r11
	rsb	r11, r8, #16
	orr	r3, r0, r1
	subs	r0, r12, r11
	sbcs	r0, lr, #0
	mov	r1, #0
	movlo	r11, r12
	movwlo	r1, #1
	cmp	r1, #0
	mov	r0, #0
	movne	r1, lr
	cmp	r3, #0
	beq	.Lgcm_BB36_5
@ %bb.2:                                @ %join.8.i85.preheader
	mov	r3, #0
.Lgcm_BB36_3:                               @ %join.8.i85
                                        @ =>This Inner Loop Header: Depth=1
	add	r6, r3, r8
	ldrb	r7, [r4, r3]
	ldrb	r6, [r10, r6]
	eor	r7, r7, r6
	strb	r7, [r4, r3]
	adds	r3, r3, #1
	adc	r0, r0, #0
	subs	r7, r3, r11
	sbcs	r7, r0, r1
	blo	.Lgcm_BB36_3
	b	.Lgcm_BB36_5
.Lgcm_BB36_4:
	mov	r11, #0
	mov	r1, #0
.Lgcm_BB36_5:                               @ %join.3.i
	subs	r3, r12, r11
	sbc	r5, lr, r1
	subs	r0, r3, #16
	sbcs	r0, r5, #0
	blo	.Lgcm_BB36_7
.Lgcm_BB36_6:                               @ %join.8.i
                                        @ =>This Inner Loop Header: Depth=1
	add	r7, r11, r8
	mov	r3, r4
	bic	r7, r7, #15
	ldrb	r0, [r3, r11]!
	mov	r12, r10
	adds	r11, r11, #16
	ldrb	r6, [r10, r7]
	ldrb	lr, [r3, #15]
	ldrb	r8, [r3, #14]
	eor	r0, r6, r0
	str	r0, [sp, #68]                   @ 4-byte Spill
	ldrb	r0, [r3, #1]
	str	r0, [sp, #124]                  @ 4-byte Spill
	ldrb	r0, [r3, #2]
	str	r0, [sp, #120]                  @ 4-byte Spill
	ldrb	r0, [r3, #3]
	str	r0, [sp, #112]                  @ 4-byte Spill
	ldrb	r0, [r3, #4]
	str	r0, [sp, #104]                  @ 4-byte Spill
	add	r0, r10, r7
	ldrb	r10, [r3, #13]
	ldrb	r2, [r0, #1]
	str	r2, [sp, #116]                  @ 4-byte Spill
	ldrb	r2, [r0, #2]
	str	r2, [sp, #108]                  @ 4-byte Spill
	ldrb	r2, [r0, #3]
	str	r2, [sp, #100]                  @ 4-byte Spill
	ldrb	r2, [r0, #4]
	str	r2, [sp, #96]                   @ 4-byte Spill
	ldrb	r2, [r3, #5]
	str	r2, [sp, #92]                   @ 4-byte Spill
	ldrb	r2, [r0, #5]
	str	r2, [sp, #88]                   @ 4-byte Spill
	ldrb	r2, [r3, #6]
	str	r2, [sp, #84]                   @ 4-byte Spill
	ldrb	r2, [r0, #6]
	str	r2, [sp, #80]                   @ 4-byte Spill
	ldrb	r2, [r3, #7]
	str	r2, [sp, #76]                   @ 4-byte Spill
	ldrb	r2, [r0, #7]
	str	r2, [sp, #72]                   @ 4-byte Spill
	ldrb	r2, [r3, #8]
	str	r2, [sp, #64]                   @ 4-byte Spill
	ldrb	r2, [r0, #8]
	str	r2, [sp, #60]                   @ 4-byte Spill
	ldrb	r2, [r3, #9]
	str	r2, [sp, #56]                   @ 4-byte Spill
	ldrb	r2, [r0, #9]
	str	r2, [sp, #52]                   @ 4-byte Spill
	ldrb	r2, [r3, #10]
	str	r2, [sp, #48]                   @ 4-byte Spill
	ldrb	r2, [r0, #10]
	str	r2, [sp, #44]                   @ 4-byte Spill
	ldrb	r2, [r3, #11]
	str	r2, [sp, #40]                   @ 4-byte Spill
	ldrb	r2, [r0, #11]
	str	r2, [sp, #36]                   @ 4-byte Spill
	mov	r2, r1
	mov	r1, r4
	ldrb	r5, [r0, #12]
	ldrb	r9, [r0, #13]
	ldrb	r4, [r0, #14]
	ldrb	r0, [r0, #15]
	ldrb	r6, [r3, #12]
	eor	r0, r0, lr
	strb	r0, [r3, #15]
	eor	r0, r4, r8
	strb	r0, [r3, #14]
	eor	r0, r9, r10
	strb	r0, [r3, #13]
	eor	r0, r5, r6
	mov	r4, r1
	mov	r1, r2
	strb	r0, [r3, #12]
	ldr	r0, [sp, #40]                   @ 4-byte Reload
	mov	r10, r12
	ldr	r2, [sp, #36]                   @ 4-byte Reload
	adc	r1, r1, #0
	ldr	r12, [sp, #32]                  @ 4-byte Reload
	eor	r0, r2, r0
	strb	r0, [r3, #11]
	ldr	r0, [sp, #48]                   @ 4-byte Reload
	ldr	r2, [sp, #44]                   @ 4-byte Reload
	ldr	r7, [sp, #68]                   @ 4-byte Reload
	eor	r0, r2, r0
	strb	r0, [r3, #10]
	ldr	r0, [sp, #56]                   @ 4-byte Reload
	ldr	r2, [sp, #52]                   @ 4-byte Reload
	ldr	lr, [sp, #28]                   @ 4-byte Reload
	eor	r0, r2, r0
	strb	r0, [r3, #9]
	ldr	r0, [sp, #64]                   @ 4-byte Reload
	ldr	r2, [sp, #60]                   @ 4-byte Reload
	strb	r7, [r3]
	eor	r0, r2, r0
	strb	r0, [r3, #8]
	ldr	r0, [sp, #76]                   @ 4-byte Reload
	ldr	r2, [sp, #72]                   @ 4-byte Reload
	ldr	r8, [sp, #24]                   @ 4-byte Reload
	eor	r0, r2, r0
	strb	r0, [r3, #7]
	ldr	r0, [sp, #84]                   @ 4-byte Reload
	ldr	r2, [sp, #80]                   @ 4-byte Reload
	eor	r0, r2, r0
	strb	r0, [r3, #6]
	ldr	r0, [sp, #92]                   @ 4-byte Reload
	ldr	r2, [sp, #88]                   @ 4-byte Reload
	eor	r0, r2, r0
	strb	r0, [r3, #5]
	ldr	r0, [sp, #104]                  @ 4-byte Reload
	ldr	r2, [sp, #96]                   @ 4-byte Reload
	eor	r0, r2, r0
	strb	r0, [r3, #4]
	ldr	r0, [sp, #112]                  @ 4-byte Reload
	ldr	r2, [sp, #100]                  @ 4-byte Reload
	eor	r0, r2, r0
	strb	r0, [r3, #3]
	ldr	r0, [sp, #120]                  @ 4-byte Reload
	ldr	r2, [sp, #108]                  @ 4-byte Reload
	eor	r0, r2, r0
	strb	r0, [r3, #2]
	ldr	r0, [sp, #124]                  @ 4-byte Reload
	ldr	r2, [sp, #116]                  @ 4-byte Reload
	eor	r0, r2, r0
	strb	r0, [r3, #1]
	subs	r3, r12, r11
	sbc	r5, lr, r1
	rsbs	r0, r3, #15
	rscs	r0, r5, #0
	blo	.Lgcm_BB36_6
.Lgcm_BB36_7:                               @ %after.4.i
	subs	r0, r11, r12
	sbcs	r0, r1, lr
	bhs	.Lgcm_BB36_11
@ %bb.8:                                @ %then.9.i
	orrs	r0, r3, r5
	beq	.Lgcm_BB36_11
@ %bb.9:                                @ %join.8.i28.preheader
	add	r1, r11, r8
	add	r0, r4, r11
	bic	r1, r1, #15
	mov	r2, #0
	add	r1, r10, r1
	mov	r7, #0
.Lgcm_BB36_10:                              @ %join.8.i28
                                        @ =>This Inner Loop Header: Depth=1
	ldrb	r6, [r1, r7]
	ldrb	r4, [r0, r7]
	eor	r6, r4, r6
	strb	r6, [r0, r7]
	adds	r7, r7, #1
	adc	r2, r2, #0
	subs	r6, r7, r3
	sbcs	r6, r2, r5
	blo	.Lgcm_BB36_10
.Lgcm_BB36_11:                              @ %"aes_ctr::add_blocks::add_blocks.exit"
	ldr	r0, [sp, #424]
	ldr	r1, [sp, #428]
	adds	r0, r12, r0
	adc	r1, lr, r1
	add	sp, sp, #388
	pop	{r4, r5, r6, r7, r8, r9, r10, r11, pc}
.Lgcm_func_end36:
	.size	gcm.aes_ctr.add_in_batches.add_next.2, .Lgcm_func_end36-gcm.aes_ctr.add_in_batches.add_next.2
	.cantunwind
	.fnend
                                        @ -- End function
	.section	.text.gcm.aes_cipher.zeroize.stack.wipe_stack.2816,"ax",%progbits
	.p2align	2                               @ -- Begin function aes_cipher::zeroize::stack::wipe_stack::<=2816>
	.type	gcm.aes_cipher.zeroize.stack.wipe_stack.2816,%function
	.code	32
gcm.aes_cipher.zeroize.stack.wipe_stack.2816: @ @gcm.aes_cipher.zeroize.stack.wipe_stack.2816
	.fnstart
@ %bb.0:                                @ %start
	.save	{r4, r5, r6, r7, r8, lr}
	push	{r4, r5, r6, r7, r8, lr}
	.pad	#776
	sub	sp, sp, #776
	.pad	#2048
	sub	sp, sp, #2048
	add	r4, sp, #8
	mov	r1, #0
	mov	r2, #2816
	mov	r7, #0
	mov	r0, r4
	bl	memset
	str	r7, [sp, #4]
	str	r7, [sp]
	@APP
	@NO_APP
	ldrd	r0, r1, [sp]
	@APP
	@NO_APP
	subs	r2, r0, #2816
	sbcs	r2, r1, #0
	bhs	.Lgcm_BB37_2
@ %bb.1:                                @ %then.1
	ldrb	r6, [r4, r0]
	@APP
	@NO_APP
	ldrd	r0, r1, [sp]
	strd	r6, r7, [sp]
	@APP
	@NO_APP
.Lgcm_BB37_2:                               @ %common.ret
	add	sp, sp, #776
	add	sp, sp, #2048
	pop	{r4, r5, r6, r7, r8, pc}
.Lgcm_func_end37:
	.size	gcm.aes_cipher.zeroize.stack.wipe_stack.2816, .Lgcm_func_end37-gcm.aes_cipher.zeroize.stack.wipe_stack.2816
	.cantunwind
	.fnend
                                        @ -- End function
	.section	.text.gcm.gcm_siv.course.seal_in,"ax",%progbits
	.p2align	2                               @ -- Begin function gcm_siv::course::seal_in::<#dd49eccd619dd2e8>
	.type	gcm.gcm_siv.course.seal_in,%function
	.code	32
gcm.gcm_siv.course.seal_in: @ @gcm.gcm_siv.course.seal_in
	.fnstart
@ %bb.0:                                @ %start
	.save	{r4, r5, r6, r7, r8, r9, r10, r11, lr}
	push	{r4, r5, r6, r7, r8, r9, r10, r11, lr}
	.pad	#556
	sub	sp, sp, #556
	add	r9, sp, #56
	mov	r7, r2
	add	r5, r9, #4
	mov	r6, r1
	mov	r4, r0
	mov	r1, #0
	mov	r0, r5
	mov	r2, #480
	mov	r10, r3
	mov	r8, #0
	bl	memset
	ldr	r11, [sp, #592]
	mov	r0, r6
	mov	r2, r7
	mov	r3, r10
	str	r8, [sp, #56]
	add	r8, sp, #540
	str	r8, [sp, #8]
	str	r9, [sp, #4]
	str	r11, [sp]
	bl	gcm.gcm_siv.keys.derive_and_prepare
	ldr	r0, [sp, #620]
	mov	r1, r9
	str	r0, [sp, #28]
	mov	r2, r8
	ldr	r0, [sp, #616]
	mov	r3, r11
	str	r0, [sp, #24]
	ldr	r0, [sp, #608]
	str	r0, [sp, #16]
	ldr	r0, [sp, #604]
	str	r0, [sp, #12]
	ldr	r0, [sp, #600]
	str	r0, [sp, #8]
	ldr	r0, [sp, #596]
	str	r0, [sp]
	add	r0, sp, #40
	bl	gcm.gcm_siv.message.seal
	mov	r0, #0
	mov	r2, #120
	str	r0, [sp, #56]
	mov	r0, r5
	mov	r3, #0
	bl	gcm.aes_cipher.zeroize.elements.zeroize_elements.1
	mov	r0, r8
	mov	r2, #4
	mov	r3, #0
	bl	gcm.aes_cipher.zeroize.elements.zeroize_elements.1
	bl	gcm.aes_cipher.zeroize.stack.wipe_stack.2816
	add	r3, sp, #40
	ldm	r3, {r0, r1, r2, r3}
	str	r3, [r4, #12]
	str	r2, [r4, #8]
	str	r1, [r4, #4]
	str	r0, [r4]
	add	sp, sp, #556
	pop	{r4, r5, r6, r7, r8, r9, r10, r11, pc}
.Lgcm_func_end38:
	.size	gcm.gcm_siv.course.seal_in, .Lgcm_func_end38-gcm.gcm_siv.course.seal_in
	.cantunwind
	.fnend
                                        @ -- End function
	.section	.text.gcm.gcm_siv.message.seal,"ax",%progbits
	.p2align	2                               @ -- Begin function gcm_siv::message::seal::<#e5fd4d72f9ad47b7>
	.type	gcm.gcm_siv.message.seal,%function
	.code	32
gcm.gcm_siv.message.seal: @ @gcm.gcm_siv.message.seal
	.fnstart
@ %bb.0:                                @ %start
	.save	{r4, r5, r6, r7, r8, r9, r10, lr}
	push	{r4, r5, r6, r7, r8, r9, r10, lr}
	.pad	#48
	sub	sp, sp, #48
	mov	r6, r3
	mov	r4, r0
	ldr	r0, [sp, #92]
	mov	r5, r1
	ldr	r3, [sp, #80]
	add	r8, sp, #32
	str	r0, [sp, #4]
	ldr	r0, [sp, #88]
	ldr	r9, [sp, #108]
	ldr	r10, [sp, #104]
	ldr	r7, [sp, #96]
	str	r0, [sp]
	mov	r0, r1
	mov	r1, r2
	mov	r2, r6
	str	r8, [sp, #24]
	str	r9, [sp, #20]
	str	r10, [sp, #16]
	str	r7, [sp, #8]
	bl	gcm.gcm_siv.message.put_tag
	mov	r0, r5
	mov	r1, r8
	mov	r2, r7
	str	r10, [sp]
	str	r9, [sp, #4]
	bl	gcm.gcm_siv.message.process_text
	add	r3, sp, #32
	ldm	r3, {r0, r1, r2, r3}
	str	r3, [r4, #12]
	str	r2, [r4, #8]
	str	r1, [r4, #4]
	str	r0, [r4]
	add	sp, sp, #48
	pop	{r4, r5, r6, r7, r8, r9, r10, pc}
.Lgcm_func_end39:
	.size	gcm.gcm_siv.message.seal, .Lgcm_func_end39-gcm.gcm_siv.message.seal
	.cantunwind
	.fnend
                                        @ -- End function
	.section	.text.gcm.gcm.hash_room.hash_piece,"ax",%progbits
	.p2align	2                               @ -- Begin function gcm::hash_room::hash_piece::<#692ea192ac7b1787>
	.type	gcm.gcm.hash_room.hash_piece,%function
	.code	32
gcm.gcm.hash_room.hash_piece: @ @gcm.gcm.hash_room.hash_piece
	.fnstart
@ %bb.0:                                @ %start
	.save	{r4, r5, r6, r7, r8, r9, r10, r11, lr}
	push	{r4, r5, r6, r7, r8, r9, r10, r11, lr}
	.pad	#52
	sub	sp, sp, #52
	str	r0, [sp, #48]                   @ 4-byte Spill
	mov	r9, r1
	ldr	r0, [sp, #88]
	mov	r6, r2
	ldr	r1, [sp, #92]
	rsbs	r2, r0, #16
	ldr	r3, [sp, #104]
	rsc	r7, r1, #0
	ldr	r5, [sp, #108]
	ldr	r1, [sp, #96]
	subs	r11, r3, r2
	sbcs	r4, r5, r7
	bhs	.Lgcm_BB40_5
@ %bb.1:                                @ %then.1
	add	r0, r6, r0
	mov	r2, #0
	subs	r7, r0, r1
	sbc	r6, r2, #0
	subs	r7, r7, r3
	sbcs	r7, r6, r5
	bhs	.Lgcm_BB40_8
@ %bb.2:                                @ %join.7.i.i.i.i.i.i.preheader
	mov	r7, #0
.Lgcm_BB40_3:                               @ %join.7.i.i.i.i.i.i
                                        @ =>This Inner Loop Header: Depth=1
	ldrb	r6, [r1, r7]
	strb	r6, [r0, r7]
	adds	r7, r7, #1
	adc	r2, r2, #0
	subs	r6, r7, r3
	sbcs	r6, r2, r5
	blo	.Lgcm_BB40_3
@ %bb.4:                                @ %common.ret
	add	sp, sp, #52
	pop	{r4, r5, r6, r7, r8, r9, r10, r11, pc}
.Lgcm_BB40_5:                               @ %join.3
	ldr	r4, [r9]
	add	r3, r1, r2
	ldr	r5, [r9, #4]
	add	r0, r6, r0
	ldr	r8, [r9, #8]
	rev	r4, r4
	ldr	r10, [r9, #12]
	subs	lr, r0, r1
	str	r3, [sp, #44]                   @ 4-byte Spill
	mov	r3, #0
	str	r4, [sp, #40]                   @ 4-byte Spill
	rev	r4, r5
	str	r4, [sp, #36]                   @ 4-byte Spill
	rev	r4, r8
	rev	r8, r10
	sbc	r12, r3, #0
	subs	r5, lr, r2
	str	r4, [sp, #32]                   @ 4-byte Spill
	sbcs	r5, r12, r7
	bhs	.Lgcm_BB40_9
@ %bb.6:                                @ %join.7.i.i.i.i.i.i49.preheader
	mov	r5, #0
.Lgcm_BB40_7:                               @ %join.7.i.i.i.i.i.i49
                                        @ =>This Inner Loop Header: Depth=1
	ldrb	r4, [r1, r5]
	strb	r4, [r0, r5]
	adds	r5, r5, #1
	adc	r3, r3, #0
	subs	r4, r5, r2
	sbcs	r4, r3, r7
	blo	.Lgcm_BB40_7
	b	.Lgcm_BB40_10
.Lgcm_BB40_8:                               @ %apart.2.i.i.i.i.i.i
	mov	r2, r3
	add	sp, sp, #52
	pop	{r4, r5, r6, r7, r8, r9, r10, r11, lr}
	b	memmove
.Lgcm_BB40_9:                               @ %apart.2.i.i.i.i.i.i47
	bl	memmove
.Lgcm_BB40_10:                              @ %"core::slice::edits::slice+T::copy_from_slice::<i8,20'core::clone::U8Clone{}>.exit56"
	ldr	r3, [sp, #48]                   @ 4-byte Reload
	ldr	r2, [r6, #4]
	ldr	r1, [r6, #8]
	ldr	r7, [r3]
	rev	r2, r2
	ldr	r0, [r6, #12]
	rev	r1, r1
	ldr	r12, [r6]
	ldr	r5, [r7]
	rev	r0, r0
	ldr	r4, [r7, #4]
	eor	r0, r0, r8
	ldr	r3, [r7, #8]
	ldr	r7, [r7, #12]
	str	r5, [sp]
	str	r4, [sp, #4]
	str	r3, [sp, #8]
	str	r7, [sp, #12]
	ldr	r3, [sp, #32]                   @ 4-byte Reload
	ldr	r7, [sp, #40]                   @ 4-byte Reload
	eor	r1, r1, r3
	ldr	r3, [sp, #36]                   @ 4-byte Reload
	eor	r2, r2, r3
	rev	r3, r12
	eor	r3, r3, r7
	bl	gcm.gcm.holes.product_with_holes
	mov	r12, r0
	ldr	r0, [sp, #44]                   @ 4-byte Reload
	bic	r8, r11, #15
	mov	r7, r1
	add	r1, r0, r8
	mov	r5, r2
	mov	r10, r3
	subs	r3, r6, r1
	and	r2, r11, #15
	mov	r0, #0
	sbc	r4, r0, #0
	subs	r3, r3, r2
	sbcs	r3, r4, #0
	bhs	.Lgcm_BB40_13
@ %bb.11:                               @ %join.7.i.i.i.i.i.i149.preheader
	mov	r3, #0
.Lgcm_BB40_12:                              @ %join.7.i.i.i.i.i.i149
                                        @ =>This Inner Loop Header: Depth=1
	ldrb	r4, [r1, r3]
	strb	r4, [r6, r3]
	adds	r3, r3, #1
	adc	r0, r0, #0
	subs	r4, r3, r2
	sbcs	r4, r0, #0
	blo	.Lgcm_BB40_12
	b	.Lgcm_BB40_14
.Lgcm_BB40_13:                              @ %apart.2.i.i.i.i.i.i147
	mov	r0, r6
	mov	r4, r12
	bl	memmove
	mov	r12, r4
.Lgcm_BB40_14:                              @ %"core::slice::edits::slice+T::copy_from_slice::<i8,20'core::clone::U8Clone{}>.exit156"
	ldr	r0, [sp, #48]                   @ 4-byte Reload
	mov	r11, #0
	ldr	r3, [r0]
	ldm	r3, {r0, r1, r2, r3}
	str	r8, [sp, #24]
	str	r11, [sp, #28]
	str	r12, [sp]
	str	r7, [sp, #4]
	str	r5, [sp, #8]
	str	r10, [sp, #12]
	ldr	r7, [sp, #44]                   @ 4-byte Reload
	str	r7, [sp, #16]
	bl	gcm.gcm.single_blocks.hash_singly.1
	lsr	r7, r0, #8
	strb	r0, [r9, #15]
	strb	r7, [r9, #14]
	lsr	r7, r0, #16
	lsr	r0, r0, #24
	strb	r1, [r9, #11]
	strb	r0, [r9, #12]
	lsr	r0, r1, #8
	strb	r0, [r9, #10]
	lsr	r0, r1, #16
	strb	r0, [r9, #9]
	lsr	r0, r1, #24
	strb	r0, [r9, #8]
	lsr	r0, r2, #8
	strb	r0, [r9, #6]
	lsr	r0, r2, #16
	strb	r0, [r9, #5]
	lsr	r0, r2, #24
	strb	r0, [r9, #4]
	lsr	r0, r3, #8
	strb	r0, [r9, #2]
	lsr	r0, r3, #16
	strb	r0, [r9, #1]
	lsr	r0, r3, #24
	strb	r2, [r9, #7]
	strb	r3, [r9, #3]
	strb	r7, [r9, #13]
	strb	r0, [r9]
	add	sp, sp, #52
	pop	{r4, r5, r6, r7, r8, r9, r10, r11, pc}
.Lgcm_func_end40:
	.size	gcm.gcm.hash_room.hash_piece, .Lgcm_func_end40-gcm.gcm.hash_room.hash_piece
	.cantunwind
	.fnend
                                        @ -- End function
	.section	.text.gcm.gcm.mode.BorrowedGcm.enter_phase,"ax",%progbits
	.p2align	2                               @ -- Begin function gcm::mode::BorrowedGcm::enter_phase::<#84a61a6dd6ff62d6>
	.type	gcm.gcm.mode.BorrowedGcm.enter_phase,%function
	.code	32
gcm.gcm.mode.BorrowedGcm.enter_phase: @ @gcm.gcm.mode.BorrowedGcm.enter_phase
	.fnstart
@ %bb.0:                                @ %start
	.save	{r4, r5, r6, r7, r8, r9, r10, lr}
	push	{r4, r5, r6, r7, r8, r9, r10, lr}
	mov	r10, r1
	ldr	r3, [r10, #24]!
	ldr	r7, [r10, #4]
	subs	r3, r3, #1
	sbc	r6, r7, #0
	subs	r4, r3, #4
	sbcs	r6, r6, #0
	mov	r7, #0
	mov	r6, #0
	movwlo	r6, #1
	cmp	r6, #0
	addne	r6, r3, #1
	uxtb	r6, r6
	cmp	r6, #1
	movne	r3, #1
	uxtbne	r4, r2
	cmpne	r6, r4
	bne	.Lgcm_BB41_4
@ %bb.1:                                @ %join.3
	sub	r3, r10, #16
	ldr	r4, [sp, #32]
	ldr	r12, [sp, #36]
	ldrd	r8, r9, [r3]
	adds	r3, r4, r8
	adcs	r4, r12, r9
	mvn	r12, #31
	adcs	r5, r7, #0
	mvnne	r4, #0
	mvnne	r3, #0
	subs	r5, r12, r3
	rscs	r5, r4, #15
	movwlo	r7, #1
	cmp	r6, #1
	bne	.Lgcm_BB41_5
@ %bb.2:                                @ %join.3
	subs	r3, r12, r3
	rscs	r3, r4, #15
	mov	r3, r7
	blo	.Lgcm_BB41_4
@ %bb.3:                                @ %then.8
	ldr	r0, [r0, #16]
	mov	r4, r1
	mov	r6, r2
	bl	gcm.gcm.mode.BorrowedGcm.hash_so_far
	lsr	r7, r0, #8
	strb	r0, [r4, #63]
	strb	r7, [r4, #62]
	lsr	r7, r0, #16
	lsr	r0, r0, #24
	uxtb	r6, r6
	strb	r0, [r4, #60]
	lsr	r0, r1, #8
	strb	r0, [r4, #58]
	lsr	r0, r1, #16
	strb	r0, [r4, #57]
	lsr	r0, r1, #24
	strb	r0, [r4, #56]
	lsr	r0, r2, #8
	strb	r0, [r4, #54]
	lsr	r0, r2, #16
	strb	r0, [r4, #53]
	lsr	r0, r2, #24
	strb	r0, [r4, #52]
	lsr	r0, r3, #8
	cmp	r6, #3
	strb	r0, [r4, #50]
	lsr	r0, r3, #16
	strb	r7, [r4, #61]
	strb	r0, [r4, #49]
	lsr	r0, r3, #24
	strb	r3, [r4, #51]
	mov	r7, #0
	movwne	r6, #2
	mov	r3, #0
	strb	r1, [r4, #59]
	strb	r2, [r4, #55]
	strb	r0, [r4, #48]
	strd	r6, r7, [r10]
.Lgcm_BB41_4:                               @ %return.4
	mov	r0, r3
	mov	r1, r7
	pop	{r4, r5, r6, r7, r8, r9, r10, pc}
.Lgcm_BB41_5:
	mov	r3, r7
	mov	r0, r3
	mov	r1, r7
	pop	{r4, r5, r6, r7, r8, r9, r10, pc}
.Lgcm_func_end41:
	.size	gcm.gcm.mode.BorrowedGcm.enter_phase, .Lgcm_func_end41-gcm.gcm.mode.BorrowedGcm.enter_phase
	.cantunwind
	.fnend
                                        @ -- End function
	.section	.text.gcm.gcm.mode.BorrowedGcm.is_tag_so_far,"ax",%progbits
	.p2align	2                               @ -- Begin function gcm::mode::BorrowedGcm::is_tag_so_far::<#84a61a6dd6ff62d6>
	.type	gcm.gcm.mode.BorrowedGcm.is_tag_so_far,%function
	.code	32
gcm.gcm.mode.BorrowedGcm.is_tag_so_far: @ @gcm.gcm.mode.BorrowedGcm.is_tag_so_far
	.fnstart
@ %bb.0:                                @ %start
	.save	{r4, r5, r11, lr}
	push	{r4, r5, r11, lr}
	.pad	#16
	sub	sp, sp, #16
	mov	r5, sp
	mov	r4, r2
	mov	r2, r5
	bl	gcm.gcm.mode.BorrowedGcm.put_tag_so_far
	mov	r0, r4
	mov	r1, r5
	bl	gcm.aes_cipher.blocks.difference
	mov	r4, r0
	mov	r0, r5
	bl	gcm.aes_cipher.zeroize.elements.zeroize_elements.2
	clz	r0, r4
	lsr	r0, r0, #5
	add	sp, sp, #16
	pop	{r4, r5, r11, pc}
.Lgcm_func_end42:
	.size	gcm.gcm.mode.BorrowedGcm.is_tag_so_far, .Lgcm_func_end42-gcm.gcm.mode.BorrowedGcm.is_tag_so_far
	.cantunwind
	.fnend
                                        @ -- End function
	.section	.text.gcm.gcm.mode.BorrowedGcm.is_short_tag_so_far,"ax",%progbits
	.p2align	2                               @ -- Begin function gcm::mode::BorrowedGcm::is_short_tag_so_far::<#84a61a6dd6ff62d6>
	.type	gcm.gcm.mode.BorrowedGcm.is_short_tag_so_far,%function
	.code	32
gcm.gcm.mode.BorrowedGcm.is_short_tag_so_far: @ @gcm.gcm.mode.BorrowedGcm.is_short_tag_so_far
	.fnstart
@ %bb.0:                                @ %start
	.save	{r4, r5, r6, lr}
	push	{r4, r5, r6, lr}
	.pad	#32
	sub	sp, sp, #32
	add	r4, sp, #16
	mov	r5, r2
	mov	r2, r4
	bl	gcm.gcm.mode.BorrowedGcm.put_tag_so_far
	add	r3, sp, #16
	mov	r6, sp
	ldm	r3, {r0, r1, r2, r3}
	stm	sp, {r0, r1, r2, r3}
	mov	r0, r6
	mov	r1, r5
	ldr	r2, [sp, #48]
	bl	memcpy
	mov	r0, r6
	mov	r1, r4
	bl	gcm.aes_cipher.blocks.difference
	mov	r5, r0
	mov	r0, r4
	bl	gcm.aes_cipher.zeroize.elements.zeroize_elements.2
	mov	r0, r6
	bl	gcm.aes_cipher.zeroize.elements.zeroize_elements.2
	clz	r0, r5
	lsr	r0, r0, #5
	add	sp, sp, #32
	pop	{r4, r5, r6, pc}
.Lgcm_func_end43:
	.size	gcm.gcm.mode.BorrowedGcm.is_short_tag_so_far, .Lgcm_func_end43-gcm.gcm.mode.BorrowedGcm.is_short_tag_so_far
	.cantunwind
	.fnend
                                        @ -- End function
	.section	.text.gcm.fotsgure_gcm_version,"ax",%progbits
	export_gcm	fotsgure_gcm_version
	.p2align	2
	.type	gcm.fotsgure_gcm_version,%function
	.code	32
gcm.fotsgure_gcm_version:                   @ @gcm.fotsgure_gcm_version
	.fnstart
@ %bb.0:
	mov	r0, #400
	mov	r1, #0
	mov	r2, #0
	mov	r3, #0
	mov	r12, #0
	bx	lr
.Lgcm_func_end44:
	.size	gcm.fotsgure_gcm_version, .Lgcm_func_end44-gcm.fotsgure_gcm_version
	.cantunwind
	.fnend
                                        @ -- End function
	.section	.text.gcm.fotsgure_gcm_set_key,"ax",%progbits
	export_gcm	fotsgure_gcm_set_key
	.p2align	2
	.type	gcm.fotsgure_gcm_set_key,%function
	.code	32
gcm.fotsgure_gcm_set_key:                   @ @gcm.fotsgure_gcm_set_key
	.fnstart
@ %bb.0:
	.save	{r4, r5, r6, r7, r8, lr}
	push	{r4, r5, r6, r7, r8, lr}
	.pad	#8
	sub	sp, sp, #8
	cmp	r2, #32
	mov	r5, r2
	bicne	r2, r5, #8
	cmpne	r2, #16
	bne	.Lgcm_BB45_2
@ %bb.1:                                @ %join.3.i.i
	add	r6, r0, #4
	mov	r4, r0
	mov	r7, r1
	mov	r1, #0
	mov	r0, r6
	mov	r2, #480
	mov	r8, #0
	bl	memset
	cmp	r7, #0
	mov	r0, r6
	addeq	r7, r7, #4096
	mov	r2, r5
	mov	r3, #0
	mov	r1, r7
	bl	gcm.aes_narrow.word_room.expand_words
	bl	gcm.aes_cipher.zeroize.stack.wipe_stack.768
	mov	r1, #56
	adds	r2, r1, r5, lsl #1
	lsr	r0, r5, #31
	adc	r3, r0, #0
	mov	r0, r6
	str	r5, [r4], #484
	str	r4, [sp]
	bl	gcm.gcm.mode.put_subkey
	bl	gcm.aes_cipher.zeroize.stack.wipe_stack.512
	mov	r0, r8
	add	sp, sp, #8
	mov	r1, #0
	mov	r2, #0
	mov	r3, #0
	mov	r12, #0
	mov	lr, r1
	pop	{r4, r5, r6, r7, r8, pc}
.Lgcm_BB45_2:                               @ %then.1.i.i
	mov	r1, #0
	mov	r2, #500
	bl	memset
	mov	r8, #1
	mov	r0, r8
	add	sp, sp, #8
	mov	r1, #0
	mov	r2, #0
	mov	r3, #0
	mov	r12, #0
	mov	lr, r1
	pop	{r4, r5, r6, r7, r8, pc}
.Lgcm_func_end45:
	.size	gcm.fotsgure_gcm_set_key, .Lgcm_func_end45-gcm.fotsgure_gcm_set_key
	.cantunwind
	.fnend
                                        @ -- End function
	.section	.text.gcm.fotsgure_gcm_set_key_of,"ax",%progbits
	export_gcm	fotsgure_gcm_set_key_of
	.p2align	2
	.type	gcm.fotsgure_gcm_set_key_of,%function
	.code	32
gcm.fotsgure_gcm_set_key_of:                @ @gcm.fotsgure_gcm_set_key_of
	.fnstart
@ %bb.0:
	.save	{r4, r5, r6, lr}
	push	{r4, r5, r6, lr}
	.pad	#8
	sub	sp, sp, #8
	ldr	r5, [r1]
	cmp	r5, #32
	bicne	r2, r5, #8
	cmpne	r2, #16
	bne	.Lgcm_BB46_2
@ %bb.1:                                @ %join.3.i.i
	add	r4, r0, #4
	add	r1, r1, #4
	mov	r6, r0
	mov	r2, #480
	mov	r0, r4
	str	r5, [r6], #484
	bl	memmove
	mov	r1, #56
	adds	r2, r1, r5, lsl #1
	lsr	r0, r5, #31
	adc	r3, r0, #0
	mov	r0, r4
	str	r6, [sp]
	bl	gcm.gcm.mode.put_subkey
	bl	gcm.aes_cipher.zeroize.stack.wipe_stack.512
	mov	r0, #0
	add	sp, sp, #8
	mov	r1, #0
	mov	r2, #0
	mov	r3, #0
	mov	r12, #0
	mov	lr, r1
	pop	{r4, r5, r6, pc}
.Lgcm_BB46_2:                               @ %then.1.i.i
	mov	r1, #0
	mov	r2, #500
	mov	r4, r0
	bl	memset
	add	r0, r4, #4
	mov	r2, #120
	mov	r3, #0
	bl	gcm.aes_cipher.zeroize.elements.zeroize_elements.1
	add	r0, r4, #484
	mov	r2, #4
	mov	r3, #0
	bl	gcm.aes_cipher.zeroize.elements.zeroize_elements.1
	mov	r0, #2
	add	sp, sp, #8
	mov	r1, #0
	mov	r2, #0
	mov	r3, #0
	mov	r12, #0
	mov	lr, r1
	pop	{r4, r5, r6, pc}
.Lgcm_func_end46:
	.size	gcm.fotsgure_gcm_set_key_of, .Lgcm_func_end46-gcm.fotsgure_gcm_set_key_of
	.cantunwind
	.fnend
                                        @ -- End function
	.section	.text.gcm.fotsgure_gcm_key_length,"ax",%progbits
	export_gcm	fotsgure_gcm_key_length
	.p2align	2
	.type	gcm.fotsgure_gcm_key_length,%function
	.code	32
gcm.fotsgure_gcm_key_length:                @ @gcm.fotsgure_gcm_key_length
	.fnstart
@ %bb.0:
	ldr	r1, [r0]
	bic	r0, r1, #8
	cmp	r0, #16
	mov	r0, r1
	movne	r0, #0
	cmp	r1, #32
	moveq	r0, r1
	mov	r1, #0
	mov	r2, #0
	mov	r3, #0
	mov	r12, #0
	bx	lr
.Lgcm_func_end47:
	.size	gcm.fotsgure_gcm_key_length, .Lgcm_func_end47-gcm.fotsgure_gcm_key_length
	.cantunwind
	.fnend
                                        @ -- End function
	.section	.text.gcm.fotsgure_gcm_wipe,"ax",%progbits
	export_gcm	fotsgure_gcm_wipe
	.p2align	2
	.type	gcm.fotsgure_gcm_wipe,%function
	.code	32
gcm.fotsgure_gcm_wipe:                      @ @gcm.fotsgure_gcm_wipe
	.fnstart
@ %bb.0:
	.save	{r4, lr}
	push	{r4, lr}
	mov	r1, #0
	mov	r2, #500
	mov	r4, r0
	bl	memset
	add	r0, r4, #4
	mov	r2, #120
	mov	r3, #0
	bl	gcm.aes_cipher.zeroize.elements.zeroize_elements.1
	add	r0, r4, #484
	mov	r2, #4
	mov	r3, #0
	pop	{r4, lr}
	b	gcm.aes_cipher.zeroize.elements.zeroize_elements.1
.Lgcm_func_end48:
	.size	gcm.fotsgure_gcm_wipe, .Lgcm_func_end48-gcm.fotsgure_gcm_wipe
	.cantunwind
	.fnend
                                        @ -- End function
	.section	.text.gcm.fotsgure_gcm_seal,"ax",%progbits
	export_gcm	fotsgure_gcm_seal
	.p2align	2
	.type	gcm.fotsgure_gcm_seal,%function
	.code	32
gcm.fotsgure_gcm_seal:                      @ @gcm.fotsgure_gcm_seal
	.fnstart
@ %bb.0:
	.save	{r11, lr}
	push	{r11, lr}
	.pad	#40
	sub	sp, sp, #40
	ldr	r12, [sp, #60]
	str	r12, [sp, #32]
	mov	r12, #0
	str	r12, [sp, #28]
	str	r12, [sp, #12]
	ldr	r12, [sp, #48]
	str	r12, [sp, #8]
	ldr	r12, [sp, #52]
	ldr	lr, [sp, #56]
	cmp	r12, #0
	str	lr, [sp, #24]
	addeq	r12, r12, #4096
	cmp	r3, #0
	addeq	r3, r3, #4096
	cmp	r1, #0
	addeq	r1, r1, #4096
	str	r3, [sp]
	mov	r3, #0
	str	r12, [sp, #16]
	bl	gcm.gcm_c.whole.fotsgure_gcm_seal
	add	sp, sp, #40
	mov	r1, #0
	mov	r2, #0
	mov	r3, #0
	mov	r12, #0
	mov	lr, r1
	pop	{r11, pc}
.Lgcm_func_end49:
	.size	gcm.fotsgure_gcm_seal, .Lgcm_func_end49-gcm.fotsgure_gcm_seal
	.cantunwind
	.fnend
                                        @ -- End function
	.section	.text.gcm.fotsgure_gcm_seal_to,"ax",%progbits
	export_gcm	fotsgure_gcm_seal_to
	.p2align	2
	.type	gcm.fotsgure_gcm_seal_to,%function
	.code	32
gcm.fotsgure_gcm_seal_to:                   @ @gcm.fotsgure_gcm_seal_to
	.fnstart
@ %bb.0:
	.save	{r4, r5, r6, r7, r8, r9, r10, r11, lr}
	push	{r4, r5, r6, r7, r8, r9, r10, r11, lr}
	.pad	#36
	sub	sp, sp, #36
	ldr	r6, [sp, #84]
	mov	r4, #10
	ldr	r12, [sp, #76]
	cmp	r6, #0
	ldr	r9, [sp, #80]
	addeq	r6, r6, #4096
	cmp	r12, #0
	addeq	r12, r12, #4096
	cmp	r3, #0
	addeq	r3, r3, #4096
	cmp	r1, #0
	addeq	r1, r1, #4096
	ldr	r7, [sp, #88]
	cmp	r9, r7
	bne	.Lgcm_BB50_6
@ %bb.1:                                @ %join.3.i.i
	cmp	r2, #0
	beq	.Lgcm_BB50_5
@ %bb.2:                                @ %after.11.i.i.i
	ldr	r7, [r0]
	mov	r4, #2
	sub	r7, r7, #16
	cmp	r7, #16
	bhi	.Lgcm_BB50_6
@ %bb.3:                                @ %after.11.i.i.i
	movw	r5, #257
	mov	lr, #1
	movt	r5, #1
	tst	r5, lr, lsl r7
	beq	.Lgcm_BB50_6
@ %bb.4:                                @ %join.6.i.i
	mov	r4, r0
	mov	r8, r2
	mov	r10, r3
	mov	r0, r12
	mov	r2, r9
	mov	r3, #0
	ldr	r11, [sp, #92]
	mov	r5, #0
	str	r6, [sp]
	mov	r7, r1
	bl	gcm.gcm_c.whole_to.copy
	ldr	r0, [sp, #72]
	add	r1, sp, #8
	mov	r2, r8
	mov	r3, #0
	stm	r1, {r0, r5, r6}
	mov	r0, r4
	mov	r1, r7
	str	r9, [sp, #24]
	str	r5, [sp, #28]
	str	r11, [sp, #32]
	str	r10, [sp]
	bl	gcm.gcm_c.whole.fotsgure_gcm_seal
	add	sp, sp, #36
	mov	r1, #0
	mov	r2, #0
	mov	r3, #0
	mov	r12, #0
	mov	lr, r1
	pop	{r4, r5, r6, r7, r8, r9, r10, r11, pc}
.Lgcm_BB50_5:
	mov	r4, #3
.Lgcm_BB50_6:                               @ %wide_fotsgure_gcm_seal_to.exit
	mov	r0, r4
	add	sp, sp, #36
	mov	r1, #0
	mov	r2, #0
	mov	r3, #0
	mov	r12, #0
	mov	lr, r1
	pop	{r4, r5, r6, r7, r8, r9, r10, r11, pc}
.Lgcm_func_end50:
	.size	gcm.fotsgure_gcm_seal_to, .Lgcm_func_end50-gcm.fotsgure_gcm_seal_to
	.cantunwind
	.fnend
                                        @ -- End function
	.section	.text.gcm.fotsgure_gcm_seal_next,"ax",%progbits
	export_gcm	fotsgure_gcm_seal_next
	.p2align	2
	.type	gcm.fotsgure_gcm_seal_next,%function
	.code	32
gcm.fotsgure_gcm_seal_next:                 @ @gcm.fotsgure_gcm_seal_next
	.fnstart
@ %bb.0:
	.save	{r4, r5, r6, r7, r8, lr}
	push	{r4, r5, r6, r7, r8, lr}
	.pad	#40
	sub	sp, sp, #40
	mov	r5, r1
	mov	r8, r2
	mov	r6, r5
	ldr	r1, [r1, #8]
	ldr	r2, [r6, #4]!
	and	r1, r2, r1
	cmn	r1, #1
	ldreq	r2, [r5]
	moveq	r1, #7
	cmneq	r2, #1
	beq	.Lgcm_BB51_2
@ %bb.1:                                @ %join.3.i.i
	ldr	r4, [sp, #68]
	mov	r7, #0
	ldr	r1, [sp, #76]
	cmp	r4, #0
	ldr	r2, [sp, #72]
	addeq	r4, r4, #4096
	cmp	r3, #0
	addeq	r3, r3, #4096
	ldr	r12, [sp, #64]
	str	r2, [sp, #24]
	mov	r2, #12
	str	r1, [sp, #32]
	mov	r1, r5
	str	r3, [sp]
	mov	r3, #0
	str	r7, [sp, #28]
	str	r12, [sp, #8]
	str	r7, [sp, #12]
	str	r4, [sp, #16]
	bl	gcm.gcm_c.whole.fotsgure_gcm_seal
	mov	r1, r0
	cmp	r0, #0
	beq	.Lgcm_BB51_3
.Lgcm_BB51_2:                               @ %wide_fotsgure_gcm_seal_next.exit
	mov	r0, r1
	add	sp, sp, #40
	mov	r1, #0
	mov	r2, #0
	mov	r3, #0
	mov	r12, #0
	mov	lr, r1
	pop	{r4, r5, r6, r7, r8, pc}
.Lgcm_BB51_3:                               @ %then.4.i.i
	ldr	r1, [r6]
	mvn	r2, #0
	ldr	r0, [r6, #4]
	eor	r3, r0, r2
	eor	r2, r1, r2
	orrs	r2, r2, r3
	ldr	r2, [r5]
	rev	r12, r2
	beq	.Lgcm_BB51_5
@ %bb.4:                                @ %"gcm::counter::nonce_after.exit.thread.i.i.i"
	rev	r7, r0
	rev	r3, r1
	adds	r7, r7, #1
	adc	r3, r3, #0
	rev	lr, r7
	rev	r3, r3
	b	.Lgcm_BB51_7
.Lgcm_BB51_5:                               @ %"gcm::counter::nonce_after.exit.i.i.i"
	cmn	r2, #1
	beq	.Lgcm_BB51_8
@ %bb.6:
	add	r12, r12, #1
	mov	lr, #0
	mov	r3, #0
.Lgcm_BB51_7:                               @ %arm.1.i.i.i
	str	r3, [r6]
	rev	r3, r12
	str	lr, [r6, #4]
	str	r3, [r5]
.Lgcm_BB51_8:                               @ %"gcm::counter::Counter::take.exit.i.i"
	str	r1, [r8, #4]
	mov	r1, #0
	str	r2, [r8]
	str	r0, [r8, #8]
	mov	r0, r1
	add	sp, sp, #40
	mov	r1, #0
	mov	r2, #0
	mov	r3, #0
	mov	r12, #0
	mov	lr, r1
	pop	{r4, r5, r6, r7, r8, pc}
.Lgcm_func_end51:
	.size	gcm.fotsgure_gcm_seal_next, .Lgcm_func_end51-gcm.fotsgure_gcm_seal_next
	.cantunwind
	.fnend
                                        @ -- End function
	.section	.text.gcm.fotsgure_gcm_open,"ax",%progbits
	export_gcm	fotsgure_gcm_open
	.p2align	2
	.type	gcm.fotsgure_gcm_open,%function
	.code	32
gcm.fotsgure_gcm_open:                      @ @gcm.fotsgure_gcm_open
	.fnstart
@ %bb.0:
	.save	{r4, r5, r6, r7, r8, r9, r10, lr}
	push	{r4, r5, r6, r7, r8, r9, r10, lr}
	.pad	#96
	sub	sp, sp, #96
	ldr	r6, [sp, #140]
	mov	r4, #4
	ldr	r5, [sp, #132]
	cmp	r6, #0
	ldr	r7, [sp, #144]
	addeq	r6, r6, #4096
	cmp	r5, #0
	addeq	r5, r5, #4096
	cmp	r3, #0
	addeq	r3, r3, #4096
	cmp	r1, #0
	addeq	r1, r1, #4096
	cmp	r7, #16
	bne	.Lgcm_BB52_7
@ %bb.1:                                @ %join.3.i.i
	cmp	r2, #0
	beq	.Lgcm_BB52_8
@ %bb.2:                                @ %after.11.i.i.i
	ldr	r10, [r0]
	mov	r4, #2
	sub	r12, r10, #16
	cmp	r12, #16
	bhi	.Lgcm_BB52_7
@ %bb.3:                                @ %after.11.i.i.i
	movw	r7, #257
	mov	lr, #1
	movt	r7, #1
	tst	r7, lr, lsl r12
	beq	.Lgcm_BB52_7
@ %bb.4:                                @ %join.6.i.i
	mov	r7, #56
	ldr	lr, [r6]
	adds	r7, r7, r10, lsl #1
	str	r7, [sp, #48]
	ldr	r7, [r6, #8]
	mov	r9, #0
	str	r7, [sp, #72]
	add	r7, r0, #484
	add	r0, r0, #4
	str	r0, [sp, #40]
	lsr	r0, r10, #31
	ldr	r4, [r6, #4]
	adc	r0, r0, #0
	str	r0, [sp, #52]
	add	r0, sp, #80
	ldr	r6, [r6, #12]
	str	r0, [sp, #36]
	add	r0, sp, #40
	ldr	r8, [sp, #136]
	ldr	r12, [sp, #128]
	str	r3, [sp]
	mov	r3, #0
	str	r7, [sp, #56]
	add	r7, sp, #64
	str	r9, [sp, #60]
	str	r9, [sp, #44]
	str	r6, [sp, #76]
	str	r4, [sp, #68]
	str	lr, [sp, #64]
	str	r9, [sp, #92]
	str	r9, [sp, #88]
	str	r9, [sp, #84]
	str	r9, [sp, #80]
	str	r8, [sp, #24]
	str	r9, [sp, #28]
	str	r7, [sp, #32]
	str	r12, [sp, #8]
	str	r9, [sp, #12]
	str	r5, [sp, #16]
	bl	gcm.gcm.mode.BorrowedGcm.compare
	mov	r4, #6
	uxtb	r0, r0
	cmp	r0, #0
	bne	.Lgcm_BB52_6
@ %bb.5:                                @ %then.1.i.i.i
	add	r0, sp, #40
	add	r1, sp, #80
	mov	r2, #16
	mov	r3, #0
	strd	r8, r9, [sp, #8]
	str	r5, [sp]
	bl	gcm.gcm.gctr.add_gctr
	mov	r4, #0
.Lgcm_BB52_6:                               @ %"gcm::mode::BorrowedGcm::decrypt::<#84a61a6dd6ff62d6>.exit.i.i"
	add	r0, sp, #80
	bl	gcm.aes_cipher.zeroize.elements.zeroize_elements.2
	bl	gcm.aes_cipher.zeroize.stack.wipe_stack.1536
.Lgcm_BB52_7:                               @ %wide_fotsgure_gcm_open.exit
	mov	r0, r4
	add	sp, sp, #96
	mov	r1, #0
	mov	r2, #0
	mov	r3, #0
	mov	r12, #0
	mov	lr, r1
	pop	{r4, r5, r6, r7, r8, r9, r10, pc}
.Lgcm_BB52_8:
	mov	r4, #3
	mov	r0, r4
	add	sp, sp, #96
	mov	r1, #0
	mov	r2, #0
	mov	r3, #0
	mov	r12, #0
	mov	lr, r1
	pop	{r4, r5, r6, r7, r8, r9, r10, pc}
.Lgcm_func_end52:
	.size	gcm.fotsgure_gcm_open, .Lgcm_func_end52-gcm.fotsgure_gcm_open
	.cantunwind
	.fnend
                                        @ -- End function
	.section	.text.gcm.fotsgure_gcm_open_to,"ax",%progbits
	export_gcm	fotsgure_gcm_open_to
	.p2align	2
	.type	gcm.fotsgure_gcm_open_to,%function
	.code	32
gcm.fotsgure_gcm_open_to:                   @ @gcm.fotsgure_gcm_open_to
	.fnstart
@ %bb.0:
	.save	{r4, r5, r6, r7, r8, r9, r10, r11, lr}
	push	{r4, r5, r6, r7, r8, r9, r10, r11, lr}
	.pad	#100
	sub	sp, sp, #100
	ldr	r6, [sp, #156]
	mov	r7, #10
	ldr	r9, [sp, #148]
	cmp	r6, #0
	ldr	r5, [sp, #140]
	addeq	r6, r6, #4096
	cmp	r9, #0
	addeq	r9, r9, #4096
	cmp	r5, #0
	addeq	r5, r5, #4096
	cmp	r3, #0
	addeq	r3, r3, #4096
	cmp	r1, #0
	ldr	r8, [sp, #144]
	addeq	r1, r1, #4096
	ldr	r4, [sp, #152]
	cmp	r8, r4
	bne	.Lgcm_BB53_11
@ %bb.1:                                @ %join.3.i.i
	ldr	r4, [sp, #160]
	mov	r7, #4
	cmp	r4, #16
	bne	.Lgcm_BB53_11
@ %bb.2:                                @ %join.6.i.i
	cmp	r2, #0
	beq	.Lgcm_BB53_10
@ %bb.3:                                @ %after.11.i.i.i
	ldr	lr, [r0]
	mov	r7, #2
	sub	r12, lr, #16
	cmp	r12, #16
	bhi	.Lgcm_BB53_11
@ %bb.4:                                @ %after.11.i.i.i
	movw	r4, #257
	mov	r10, #1
	movt	r4, #1
	tst	r4, r10, lsl r12
	beq	.Lgcm_BB53_11
@ %bb.5:                                @ %join.9.i.i
	mov	r4, #56
	ldr	r11, [r6]
	adds	r4, r4, lr, lsl #1
	str	r4, [sp, #48]
	ldr	r4, [r6, #8]
	mov	r10, #0
	str	r4, [sp, #72]
	add	r4, r0, #484
	add	r0, r0, #4
	str	r0, [sp, #40]
	lsr	r0, lr, #31
	ldr	r7, [r6, #4]
	adc	r0, r0, #0
	str	r0, [sp, #52]
	add	r0, sp, #80
	ldr	r6, [r6, #12]
	str	r0, [sp, #36]
	add	r0, sp, #40
	ldr	r12, [sp, #136]
	str	r3, [sp]
	mov	r3, #0
	str	r7, [sp, #68]
	add	r7, sp, #64
	str	r10, [sp, #60]
	str	r10, [sp, #44]
	str	r6, [sp, #76]
	str	r11, [sp, #64]
	str	r4, [sp, #56]
	str	r10, [sp, #92]
	str	r10, [sp, #88]
	str	r10, [sp, #84]
	str	r10, [sp, #80]
	str	r8, [sp, #24]
	str	r10, [sp, #28]
	str	r7, [sp, #32]
	str	r12, [sp, #8]
	str	r10, [sp, #12]
	str	r5, [sp, #16]
	bl	gcm.gcm.mode.BorrowedGcm.compare
	uxtb	r0, r0
	cmp	r0, #0
	beq	.Lgcm_BB53_12
@ %bb.6:                                @ %else.2.i.i.i
	mov	r7, #6
	cmp	r8, #0
	beq	.Lgcm_BB53_17
@ %bb.7:                                @ %loop.5.preheader.i.i.i.i
	subs	r6, r8, #1
	mov	r5, #0
	sbc	r0, r5, #0
	orrs	r0, r6, r0
	beq	.Lgcm_BB53_9
@ %bb.8:                                @ %join.8.preheader.i.i.i.i
	sub	r2, r8, #1
	mov	r0, r9
	mov	r1, #0
	bl	memset
.Lgcm_BB53_9:                               @ %after.4.i.i.i.i
	strb	r5, [r9, r6]
	b	.Lgcm_BB53_17
.Lgcm_BB53_10:
	mov	r7, #3
.Lgcm_BB53_11:                              @ %wide_fotsgure_gcm_open_to.exit
	mov	r0, r7
	add	sp, sp, #100
	mov	r1, #0
	mov	r2, #0
	mov	r3, #0
	mov	r12, #0
	mov	lr, r1
	pop	{r4, r5, r6, r7, r8, r9, r10, r11, pc}
.Lgcm_BB53_12:                              @ %then.1.i.i.i
	subs	r0, r9, r5
	sbc	r1, r10, #0
	subs	r0, r0, r8
	sbcs	r0, r1, #0
	bhs	.Lgcm_BB53_15
@ %bb.13:                               @ %join.7.i.i.i.i.i.i.i.i.i.preheader
	mov	r0, #0
	mov	r1, #0
.Lgcm_BB53_14:                              @ %join.7.i.i.i.i.i.i.i.i.i
                                        @ =>This Inner Loop Header: Depth=1
	ldrb	r2, [r5, r1]
	strb	r2, [r9, r1]
	adds	r1, r1, #1
	adc	r0, r0, #0
	subs	r2, r1, r8
	sbcs	r2, r0, #0
	blo	.Lgcm_BB53_14
	b	.Lgcm_BB53_16
.Lgcm_BB53_15:                              @ %apart.2.i.i.i.i.i.i.i.i.i
	mov	r0, r9
	mov	r1, r5
	mov	r2, r8
	bl	memmove
.Lgcm_BB53_16:                              @ %"core::slice::edits::slice+T::copy_from_slice::<i8,20'core::clone::U8Clone{}>.exit.i.i.i"
	add	r0, sp, #40
	add	r1, sp, #80
	mov	r7, #0
	mov	r2, #16
	mov	r3, #0
	str	r8, [sp, #8]
	str	r7, [sp, #12]
	str	r9, [sp]
	bl	gcm.gcm.gctr.add_gctr
.Lgcm_BB53_17:                              @ %"gcm::mode::BorrowedGcm::decrypt_to::<#84a61a6dd6ff62d6>.exit.i.i"
	add	r0, sp, #80
	bl	gcm.aes_cipher.zeroize.elements.zeroize_elements.2
	bl	gcm.aes_cipher.zeroize.stack.wipe_stack.1536
	mov	r0, r7
	add	sp, sp, #100
	mov	r1, #0
	mov	r2, #0
	mov	r3, #0
	mov	r12, #0
	mov	lr, r1
	pop	{r4, r5, r6, r7, r8, r9, r10, r11, pc}
.Lgcm_func_end53:
	.size	gcm.fotsgure_gcm_open_to, .Lgcm_func_end53-gcm.fotsgure_gcm_open_to
	.cantunwind
	.fnend
                                        @ -- End function
	.section	.text.gcm.fotsgure_gcm_begin,"ax",%progbits
	export_gcm	fotsgure_gcm_begin
	.p2align	2
	.type	gcm.fotsgure_gcm_begin,%function
	.code	32
gcm.fotsgure_gcm_begin:                     @ @gcm.fotsgure_gcm_begin
	.fnstart
@ %bb.0:
	.save	{r4, r5, r6, r7, r8, lr}
	push	{r4, r5, r6, r7, r8, lr}
	.pad	#32
	sub	sp, sp, #32
	cmp	r2, #0
	addeq	r2, r2, #4096
	cmp	r3, #0
	beq	.Lgcm_BB54_5
@ %bb.1:                                @ %after.1.i.i
	ldr	r5, [r0]
	mov	r4, #2
	sub	r6, r5, #16
	cmp	r6, #16
	bhi	.Lgcm_BB54_4
@ %bb.2:                                @ %after.1.i.i
	movw	r7, #257
	mov	r8, #1
	movt	r7, #1
	tst	r7, r8, lsl r6
	beq	.Lgcm_BB54_4
@ %bb.3:                                @ %join.13.i.i
	mov	r7, #56
	mov	r4, #0
	adds	r7, r7, r5, lsl #1
	str	r7, [sp, #16]
	add	r7, r0, #484
	add	r0, r0, #4
	str	r0, [sp, #8]
	lsr	r0, r5, #31
	adc	r0, r0, #0
	str	r0, [sp, #20]
	add	r0, r1, #32
	str	r0, [sp]
	add	r0, sp, #8
	mov	r5, r1
	mov	r1, r2
	mov	r2, r3
	mov	r6, r3
	mov	r3, #0
	str	r4, [sp, #28]
	str	r4, [sp, #12]
	str	r7, [sp, #24]
	bl	gcm.gcm.mode.BorrowedGcm.put_pre_counter
	cmp	r6, #12
	str	r4, [r5]
	str	r4, [r5, #4]
	str	r4, [r5, #8]
	str	r4, [r5, #12]
	str	r4, [r5, #16]
	str	r4, [r5, #20]
	str	r8, [r5, #24]
	str	r4, [r5, #28]
	str	r4, [r5, #48]
	str	r4, [r5, #52]
	str	r4, [r5, #56]
	str	r4, [r5, #60]
	str	r4, [r5, #64]
	str	r4, [r5, #68]
	str	r4, [r5, #72]
	str	r4, [r5, #76]
	blne	gcm.aes_cipher.zeroize.stack.wipe_stack.512
.Lgcm_BB54_4:                               @ %wide_fotsgure_gcm_begin.exit
	mov	r0, r4
	add	sp, sp, #32
	mov	r1, #0
	mov	r2, #0
	mov	r3, #0
	mov	r12, #0
	mov	lr, r1
	pop	{r4, r5, r6, r7, r8, pc}
.Lgcm_BB54_5:
	mov	r4, #3
	mov	r0, r4
	add	sp, sp, #32
	mov	r1, #0
	mov	r2, #0
	mov	r3, #0
	mov	r12, #0
	mov	lr, r1
	pop	{r4, r5, r6, r7, r8, pc}
.Lgcm_func_end54:
	.size	gcm.fotsgure_gcm_begin, .Lgcm_func_end54-gcm.fotsgure_gcm_begin
	.cantunwind
	.fnend
                                        @ -- End function
	.section	.text.gcm.fotsgure_gcm_begin_next,"ax",%progbits
	export_gcm	fotsgure_gcm_begin_next
	.p2align	2
	.type	gcm.fotsgure_gcm_begin_next,%function
	.code	32
gcm.fotsgure_gcm_begin_next:                @ @gcm.fotsgure_gcm_begin_next
	.fnstart
@ %bb.0:
	.save	{r4, r5, r6, r7, r8, r9, r10, r11, lr}
	push	{r4, r5, r6, r7, r8, r9, r10, r11, lr}
	.pad	#60
	sub	sp, sp, #60
	mov	r7, r2
	ldr	r12, [r2, #8]
	ldr	r11, [r7, #4]!
	mov	r8, r3
	ldr	lr, [r2]
	mov	r3, r0
	and	r4, r11, r12
	cmn	r4, #1
	moveq	r0, #7
	cmneq	lr, #1
	beq	.Lgcm_BB55_9
@ %bb.1:                                @ %join.3.i.i
	ldr	r5, [r3]
	mov	r0, #2
	sub	r9, r5, #16
	cmp	r9, #16
	bhi	.Lgcm_BB55_9
@ %bb.2:                                @ %join.3.i.i
	movw	r6, #257
	mov	r10, #1
	movt	r6, #1
	tst	r6, r10, lsl r9
	beq	.Lgcm_BB55_9
@ %bb.3:                                @ %join.6.i.i
	mov	r6, #56
	add	r0, r4, #1
	adds	r6, r6, r5, lsl #1
	str	r6, [sp, #32]
	add	r6, r3, #484
	add	r3, r3, #4
	str	r3, [sp, #24]
	lsr	r3, r5, #31
	clz	r0, r0
	adc	r3, r3, #0
	str	r3, [sp, #36]
	rev	r3, lr
	lsr	r4, r0, #5
	mov	r0, #0
	cmp	r4, #0
	str	r0, [sp, #44]
	str	r0, [sp, #28]
	str	r6, [sp, #40]
	bne	.Lgcm_BB55_5
@ %bb.4:                                @ %"gcm::counter::nonce_after.exit.thread.i.i.i.i"
	rev	r4, r12
	rev	r0, r11
	adds	r5, r4, #1
	adc	r0, r0, #0
	rev	r4, r0
	rev	r0, r5
	b	.Lgcm_BB55_7
.Lgcm_BB55_5:                               @ %"gcm::counter::nonce_after.exit.i.i.i.i"
	cmn	lr, #1
	beq	.Lgcm_BB55_8
@ %bb.6:
	add	r3, r3, #1
	mov	r4, #0
.Lgcm_BB55_7:                               @ %arm.1.i.i.i.i
	str	r0, [r7, #4]
	rev	r0, r3
	str	r4, [r7]
	str	r0, [r2]
.Lgcm_BB55_8:                               @ %"gcm::mode::BorrowedGcm::begin_next::<#84a61a6dd6ff62d6>.exit.i.i"
	add	r0, r1, #32
	add	r2, sp, #48
	str	r0, [sp]
	add	r0, sp, #24
	mov	r4, r1
	mov	r1, r2
	mov	r2, #12
	mov	r3, #0
	str	r11, [sp, #52]
	str	lr, [sp, #48]
	str	r12, [sp, #56]
	bl	gcm.gcm.mode.BorrowedGcm.put_pre_counter
	add	r3, sp, #48
	mov	r1, #1
	str	r1, [r4, #24]
	add	r12, sp, #8
	ldm	r3, {r1, r2, r3}
	mov	r0, #0
	str	r0, [r4]
	stm	r12, {r1, r2, r3}
	add	r3, sp, #8
	ldm	r3, {r1, r2, r3}
	str	r0, [r4, #4]
	str	r0, [r4, #8]
	str	r0, [r4, #12]
	str	r0, [r4, #16]
	str	r0, [r4, #20]
	str	r0, [r4, #28]
	str	r0, [r4, #48]
	str	r0, [r4, #52]
	str	r0, [r4, #56]
	str	r0, [r4, #60]
	str	r0, [r4, #64]
	str	r0, [r4, #68]
	str	r0, [r4, #72]
	str	r0, [r4, #76]
	str	r3, [r8, #8]
	str	r2, [r8, #4]
	str	r1, [r8]
.Lgcm_BB55_9:                               @ %wide_fotsgure_gcm_begin_next.exit
	add	sp, sp, #60
	mov	r1, #0
	mov	r2, #0
	mov	r3, #0
	mov	r12, #0
	mov	lr, r1
	pop	{r4, r5, r6, r7, r8, r9, r10, r11, pc}
.Lgcm_func_end55:
	.size	gcm.fotsgure_gcm_begin_next, .Lgcm_func_end55-gcm.fotsgure_gcm_begin_next
	.cantunwind
	.fnend
                                        @ -- End function
	.section	.text.gcm.fotsgure_gcm_additional,"ax",%progbits
	export_gcm	fotsgure_gcm_additional
	.p2align	2
	.type	gcm.fotsgure_gcm_additional,%function
	.code	32
gcm.fotsgure_gcm_additional:                @ @gcm.fotsgure_gcm_additional
	.fnstart
@ %bb.0:
	.save	{r4, r5, r6, r7, r8, lr}
	push	{r4, r5, r6, r7, r8, lr}
	.pad	#48
	sub	sp, sp, #48
	ldr	r4, [r0]
	cmp	r2, #0
	addeq	r2, r2, #4096
	mov	r8, r3
	sub	r7, r4, #16
	mov	r3, r0
	mov	r0, #2
	cmp	r7, #16
	bhi	.Lgcm_BB56_6
@ %bb.1:
	movw	r6, #257
	mov	r12, #1
	movt	r6, #1
	tst	r6, r12, lsl r7
	beq	.Lgcm_BB56_6
@ %bb.2:                                @ %join.3.i.i
	mov	r0, #0
	ldr	r5, [r1, #28]
	str	r0, [sp, #44]
	str	r0, [sp, #28]
	mov	r0, #56
	adds	r0, r0, r4, lsl #1
	str	r0, [sp, #32]
	add	r0, r3, #484
	str	r0, [sp, #40]
	add	r0, r3, #4
	str	r0, [sp, #24]
	lsr	r0, r4, #31
	adc	r0, r0, #0
	str	r0, [sp, #36]
	ldr	r0, [r1, #24]
	subs	r3, r0, #1
	mov	r0, #8
	sbc	r7, r5, #0
	rsbs	r6, r3, #3
	rscs	r7, r7, #0
	blo	.Lgcm_BB56_6
@ %bb.3:                                @ %join.3.i.i
	tst	r3, #255
	bne	.Lgcm_BB56_6
@ %bb.4:                                @ %join.3.i.i.i
	ldrd	r4, r5, [r1]
	mov	r7, #0
	adds	r0, r8, r4
	adcs	r3, r5, #0
	adcs	r0, r7, #0
	mov	r0, #5
	mvnne	r3, #0
	cmn	r3, #-536870911
	bhi	.Lgcm_BB56_6
@ %bb.5:                                @ %arm.4.i.i
	and	r3, r4, #15
	add	r0, sp, #24
	stm	sp, {r3, r7}
	add	r3, r1, #48
	add	r0, r0, #16
	str	r2, [sp, #8]
	add	r2, r1, #64
	mov	r4, r1
	mov	r1, r3
	str	r8, [sp, #16]
	str	r7, [sp, #20]
	bl	gcm.gcm.hash_room.hash_piece
	bl	gcm.aes_cipher.zeroize.stack.wipe_stack.512
	ldrd	r0, r1, [r4]
	adds	r0, r0, r8
	adc	r1, r1, #0
	strd	r0, r1, [r4]
	mov	r0, #0
.Lgcm_BB56_6:                               @ %wide_fotsgure_gcm_additional.exit
	add	sp, sp, #48
	mov	r1, #0
	mov	r2, #0
	mov	r3, #0
	mov	r12, #0
	mov	lr, r1
	pop	{r4, r5, r6, r7, r8, pc}
.Lgcm_func_end56:
	.size	gcm.fotsgure_gcm_additional, .Lgcm_func_end56-gcm.fotsgure_gcm_additional
	.cantunwind
	.fnend
                                        @ -- End function
	.section	.text.gcm.fotsgure_gcm_encrypt,"ax",%progbits
	export_gcm	fotsgure_gcm_encrypt
	.p2align	2
	.type	gcm.fotsgure_gcm_encrypt,%function
	.code	32
gcm.fotsgure_gcm_encrypt:                   @ @gcm.fotsgure_gcm_encrypt
	.fnstart
@ %bb.0:
	.save	{r4, r5, r6, r7, r8, lr}
	push	{r4, r5, r6, r7, r8, lr}
	.pad	#48
	sub	sp, sp, #48
	mov	r4, r1
	ldr	r1, [r0]
	mov	r5, r2
	cmp	r2, #0
	addeq	r5, r5, #4096
	sub	r2, r1, #16
	mov	r7, #2
	cmp	r2, #16
	bhi	.Lgcm_BB57_4
@ %bb.1:
	movw	r6, #257
	mov	r8, r3
	mov	r3, #1
	movt	r6, #1
	tst	r6, r3, lsl r2
	beq	.Lgcm_BB57_4
@ %bb.2:                                @ %join.3.i.i
	mov	r2, #56
	add	r6, sp, #24
	adds	r2, r2, r1, lsl #1
	str	r2, [sp, #32]
	add	r2, r0, #484
	add	r0, r0, #4
	str	r0, [sp, #24]
	lsr	r0, r1, #31
	adc	r0, r0, #0
	mov	r7, #0
	str	r2, [sp, #40]
	mov	r1, r4
	str	r0, [sp, #36]
	mov	r0, r6
	mov	r2, #2
	str	r8, [sp]
	str	r7, [sp, #44]
	str	r7, [sp, #28]
	str	r7, [sp, #4]
	bl	gcm.gcm.mode.BorrowedGcm.enter_phase
	tst	r0, #255
	beq	.Lgcm_BB57_5
@ %bb.3:                                @ %arm.2.i.i.i
	mov	r7, #8
	tst	r1, #1
	movwne	r7, #5
.Lgcm_BB57_4:                               @ %wide_fotsgure_gcm_encrypt.exit
	mov	r0, r7
	add	sp, sp, #48
	mov	r1, #0
	mov	r2, #0
	mov	r3, #0
	mov	r12, #0
	mov	lr, r1
	pop	{r4, r5, r6, r7, r8, pc}
.Lgcm_BB57_5:                               @ %arm.1.i.i.i
	ldrd	r0, r1, [r4, #8]
	add	r6, r6, #16
	str	r8, [sp, #8]
	adds	r2, r0, #16
	add	r0, sp, #24
	adc	r3, r1, #0
	add	r1, r4, #32
	str	r7, [sp, #12]
	str	r5, [sp]
	bl	gcm.gcm.gctr.add_gctr
	ldr	r0, [r4, #8]
	add	r1, r4, #48
	add	r2, r4, #64
	str	r8, [sp, #16]
	and	r0, r0, #15
	str	r7, [sp, #20]
	stm	sp, {r0, r7}
	mov	r0, r6
	str	r5, [sp, #8]
	bl	gcm.gcm.hash_room.hash_piece
	ldrd	r0, r1, [r4, #8]
	adds	r0, r0, r8
	adc	r1, r1, #0
	strd	r0, r1, [r4, #8]
	bl	gcm.aes_cipher.zeroize.stack.wipe_stack.1536
	mov	r0, r7
	add	sp, sp, #48
	mov	r1, #0
	mov	r2, #0
	mov	r3, #0
	mov	r12, #0
	mov	lr, r1
	pop	{r4, r5, r6, r7, r8, pc}
.Lgcm_func_end57:
	.size	gcm.fotsgure_gcm_encrypt, .Lgcm_func_end57-gcm.fotsgure_gcm_encrypt
	.cantunwind
	.fnend
                                        @ -- End function
	.section	.text.gcm.fotsgure_gcm_finish,"ax",%progbits
	export_gcm	fotsgure_gcm_finish
	.p2align	2
	.type	gcm.fotsgure_gcm_finish,%function
	.code	32
gcm.fotsgure_gcm_finish:                    @ @gcm.fotsgure_gcm_finish
	.fnstart
@ %bb.0:
	.save	{r4, r5, r6, r7, r11, lr}
	push	{r4, r5, r6, r7, r11, lr}
	.pad	#40
	sub	sp, sp, #40
	ldr	r3, [r0]
	mov	r7, r2
	mov	r2, #2
	sub	r5, r3, #16
	cmp	r5, #16
	bhi	.Lgcm_BB58_4
@ %bb.1:
	movw	r6, #257
	mov	r4, #1
	movt	r6, #1
	tst	r6, r4, lsl r5
	beq	.Lgcm_BB58_4
@ %bb.2:                                @ %join.3.i.i
	mov	r2, #0
	str	r2, [sp, #36]
	str	r2, [sp, #20]
	mov	r2, #56
	adds	r2, r2, r3, lsl #1
	str	r2, [sp, #24]
	add	r2, r0, #484
	add	r0, r0, #4
	str	r0, [sp, #16]
	lsr	r0, r3, #31
	adc	r0, r0, #0
	str	r0, [sp, #28]
	ldr	r0, [r1, #24]
	ldr	r3, [r1, #28]
	subs	r0, r0, #1
	str	r2, [sp, #32]
	sbc	r3, r3, #0
	rsbs	r0, r0, #1
	mov	r2, #8
	rscs	r0, r3, #0
	blo	.Lgcm_BB58_4
@ %bb.3:                                @ %arm.4.i.i
	add	r0, sp, #16
	mov	r2, sp
	mov	r5, r1
	bl	gcm.gcm.mode.BorrowedGcm.put_tag_so_far
	bl	gcm.aes_cipher.zeroize.stack.wipe_stack.512
	mov	r0, r5
	bl	gcm.gcm.message_state.MessageZeroize.zeroize
	ldm	sp, {r0, r1, r2, r3}
	str	r2, [r7, #8]
	mov	r2, #0
	str	r3, [r7, #12]
	str	r1, [r7, #4]
	str	r0, [r7]
.Lgcm_BB58_4:                               @ %wide_fotsgure_gcm_finish.exit
	mov	r0, r2
	add	sp, sp, #40
	mov	r1, #0
	mov	r2, #0
	mov	r3, #0
	mov	r12, #0
	mov	lr, r1
	pop	{r4, r5, r6, r7, r11, pc}
.Lgcm_func_end58:
	.size	gcm.fotsgure_gcm_finish, .Lgcm_func_end58-gcm.fotsgure_gcm_finish
	.cantunwind
	.fnend
                                        @ -- End function
	.section	.text.gcm.fotsgure_gcm_verify,"ax",%progbits
	export_gcm	fotsgure_gcm_verify
	.p2align	2
	.type	gcm.fotsgure_gcm_verify,%function
	.code	32
gcm.fotsgure_gcm_verify:                    @ @gcm.fotsgure_gcm_verify
	.fnstart
@ %bb.0:
	.save	{r4, r5, r6, r7, r8, lr}
	push	{r4, r5, r6, r7, r8, lr}
	.pad	#48
	sub	sp, sp, #48
	mov	r4, r1
	ldr	r1, [r0]
	mov	r5, r2
	cmp	r2, #0
	addeq	r5, r5, #4096
	sub	r2, r1, #16
	mov	r7, #2
	cmp	r2, #16
	bhi	.Lgcm_BB59_4
@ %bb.1:
	movw	r6, #257
	mov	r8, r3
	mov	r3, #1
	movt	r6, #1
	tst	r6, r3, lsl r2
	beq	.Lgcm_BB59_4
@ %bb.2:                                @ %join.3.i.i
	mov	r2, #56
	add	r6, sp, #24
	adds	r2, r2, r1, lsl #1
	str	r2, [sp, #32]
	add	r2, r0, #484
	add	r0, r0, #4
	str	r0, [sp, #24]
	lsr	r0, r1, #31
	adc	r0, r0, #0
	mov	r7, #0
	str	r2, [sp, #40]
	mov	r1, r4
	str	r0, [sp, #36]
	mov	r0, r6
	mov	r2, #3
	str	r8, [sp]
	str	r7, [sp, #44]
	str	r7, [sp, #28]
	str	r7, [sp, #4]
	bl	gcm.gcm.mode.BorrowedGcm.enter_phase
	tst	r0, #255
	beq	.Lgcm_BB59_5
@ %bb.3:                                @ %arm.2.i.i.i
	mov	r7, #8
	tst	r1, #1
	movwne	r7, #5
.Lgcm_BB59_4:                               @ %wide_fotsgure_gcm_verify.exit
	mov	r0, r7
	add	sp, sp, #48
	mov	r1, #0
	mov	r2, #0
	mov	r3, #0
	mov	r12, #0
	mov	lr, r1
	pop	{r4, r5, r6, r7, r8, pc}
.Lgcm_BB59_5:                               @ %arm.1.i.i.i
	ldr	r1, [r4, #8]
	add	r0, r6, #16
	add	r2, r4, #64
	str	r8, [sp, #16]
	and	r1, r1, #15
	str	r7, [sp, #20]
	stm	sp, {r1, r7}
	add	r1, r4, #48
	str	r5, [sp, #8]
	bl	gcm.gcm.hash_room.hash_piece
	ldrd	r0, r1, [r4, #8]
	adds	r0, r0, r8
	adc	r1, r1, #0
	strd	r0, r1, [r4, #8]
	bl	gcm.aes_cipher.zeroize.stack.wipe_stack.512
	mov	r0, r7
	add	sp, sp, #48
	mov	r1, #0
	mov	r2, #0
	mov	r3, #0
	mov	r12, #0
	mov	lr, r1
	pop	{r4, r5, r6, r7, r8, pc}
.Lgcm_func_end59:
	.size	gcm.fotsgure_gcm_verify, .Lgcm_func_end59-gcm.fotsgure_gcm_verify
	.cantunwind
	.fnend
                                        @ -- End function
	.section	.text.gcm.fotsgure_gcm_accept,"ax",%progbits
	export_gcm	fotsgure_gcm_accept
	.p2align	2
	.type	gcm.fotsgure_gcm_accept,%function
	.code	32
gcm.fotsgure_gcm_accept:                    @ @gcm.fotsgure_gcm_accept
	.fnstart
@ %bb.0:
	.save	{r4, r5, r6, r7, r11, lr}
	push	{r4, r5, r6, r7, r11, lr}
	.pad	#40
	sub	sp, sp, #40
	cmp	r2, #0
	mov	r7, #4
	addeq	r2, r2, #4096
	cmp	r3, #16
	bne	.Lgcm_BB60_6
@ %bb.1:                                @ %join.3.i.i
	ldr	r3, [r0]
	mov	r7, #2
	sub	r6, r3, #16
	cmp	r6, #16
	bhi	.Lgcm_BB60_6
@ %bb.2:                                @ %join.3.i.i
	movw	r4, #257
	mov	r5, #1
	movt	r4, #1
	tst	r4, r5, lsl r6
	beq	.Lgcm_BB60_6
@ %bb.3:                                @ %join.6.i.i
	mov	r7, #0
	add	r5, r1, #16
	str	r7, [sp, #36]
	str	r7, [sp, #20]
	mov	r7, #56
	adds	r7, r7, r3, lsl #1
	str	r7, [sp, #24]
	add	r7, r0, #484
	add	r0, r0, #4
	str	r0, [sp, #16]
	ldr	r0, [r2]
	str	r7, [sp, #32]
	ldr	r7, [r2, #4]
	ldr	r6, [r2, #8]
	stm	sp, {r0, r7}
	lsr	r0, r3, #31
	adc	r0, r0, #0
	str	r6, [sp, #8]
	mov	r6, r5
	str	r0, [sp, #28]
	mov	r7, #2
	ldr	r0, [r6, #8]!
	ldr	r2, [r2, #12]
	str	r2, [sp, #12]
	subs	r0, r0, #1
	ldr	r2, [r6, #4]
	add	r3, r0, #1
	sbc	r2, r2, #0
	subs	r0, r0, #4
	sbcs	r0, r2, #0
	orrlo	r7, r3, #2
	uxtb	r0, r7
	cmp	r0, #3
	bne	.Lgcm_BB60_7
@ %bb.4:                                @ %join.3.i.i.i
	add	r0, sp, #16
	mov	r2, sp
	bl	gcm.gcm.mode.BorrowedGcm.is_tag_so_far
	mov	r4, r0
	bl	gcm.aes_cipher.zeroize.stack.wipe_stack.1536
	mov	r7, #6
	cmp	r4, #0
	beq	.Lgcm_BB60_6
@ %bb.5:                                @ %arm.7.i.i
	mov	r7, #0
	mov	r0, #4
	str	r7, [r5]
	str	r7, [r5, #4]
	stm	r6, {r0, r7}
.Lgcm_BB60_6:                               @ %wide_fotsgure_gcm_accept.exit
	mov	r0, r7
	add	sp, sp, #40
	mov	r1, #0
	mov	r2, #0
	mov	r3, #0
	mov	r12, #0
	mov	lr, r1
	pop	{r4, r5, r6, r7, r11, pc}
.Lgcm_BB60_7:
	mov	r7, #8
	mov	r0, r7
	add	sp, sp, #40
	mov	r1, #0
	mov	r2, #0
	mov	r3, #0
	mov	r12, #0
	mov	lr, r1
	pop	{r4, r5, r6, r7, r11, pc}
.Lgcm_func_end60:
	.size	gcm.fotsgure_gcm_accept, .Lgcm_func_end60-gcm.fotsgure_gcm_accept
	.cantunwind
	.fnend
                                        @ -- End function
	.section	.text.gcm.fotsgure_gcm_accept_short,"ax",%progbits
	export_gcm	fotsgure_gcm_accept_short
	.p2align	2
	.type	gcm.fotsgure_gcm_accept_short,%function
	.code	32
gcm.fotsgure_gcm_accept_short:              @ @gcm.fotsgure_gcm_accept_short
	.fnstart
@ %bb.0:
	.save	{r4, r5, r6, r7, r8, r9, r11, lr}
	push	{r4, r5, r6, r7, r8, r9, r11, lr}
	.pad	#32
	sub	sp, sp, #32
	cmp	r3, #0
	ldr	r6, [sp, #64]
	addeq	r3, r3, #4096
	mov	r7, #4
	cmp	r6, r2
	bne	.Lgcm_BB61_7
@ %bb.1:
	bic	r6, r2, #3
	sub	r5, r2, #4
	sub	r6, r6, #12
	bic	r5, r5, #4
	clz	r6, r6
	clz	r5, r5
	lsr	r6, r6, #5
	lsr	r5, r5, #5
	orrs	r6, r5, r6
	beq	.Lgcm_BB61_7
@ %bb.2:                                @ %join.3.i.i
	ldr	r6, [r0]
	mov	r7, #2
	sub	r5, r6, #16
	cmp	r5, #16
	bhi	.Lgcm_BB61_7
@ %bb.3:                                @ %join.3.i.i
	movw	r4, #257
	mov	r12, #1
	movt	r4, #1
	tst	r4, r12, lsl r5
	beq	.Lgcm_BB61_7
@ %bb.4:                                @ %join.6.i.i
	mov	r4, #56
	add	r8, r1, #16
	adds	r4, r4, r6, lsl #1
	str	r4, [sp, #16]
	add	r4, r0, #484
	add	r0, r0, #4
	str	r0, [sp, #8]
	lsr	r0, r6, #31
	adc	r0, r0, #0
	mov	r6, r8
	str	r0, [sp, #20]
	mov	r5, #2
	ldr	r0, [r6, #8]!
	mov	r9, #0
	str	r4, [sp, #24]
	ldr	r4, [r6, #4]
	subs	r0, r0, #1
	add	r7, r0, #1
	str	r9, [sp, #28]
	sbc	r4, r4, #0
	subs	r0, r0, #4
	sbcs	r0, r4, #0
	str	r9, [sp, #12]
	orrlo	r5, r7, #2
	uxtb	r0, r5
	cmp	r0, #3
	bne	.Lgcm_BB61_8
@ %bb.5:                                @ %join.7.i.i.i
	add	r0, sp, #8
	stm	sp, {r2, r9}
	mov	r2, r3
	bl	gcm.gcm.mode.BorrowedGcm.is_short_tag_so_far
	mov	r4, r0
	bl	gcm.aes_cipher.zeroize.stack.wipe_stack.1536
	mov	r7, #6
	cmp	r4, #0
	beq	.Lgcm_BB61_7
@ %bb.6:                                @ %arm.7.i.i
	mov	r7, #0
	mov	r0, #4
	str	r7, [r8]
	str	r7, [r8, #4]
	stm	r6, {r0, r7}
.Lgcm_BB61_7:                               @ %wide_fotsgure_gcm_accept_short.exit
	mov	r0, r7
	add	sp, sp, #32
	mov	r1, #0
	mov	r2, #0
	mov	r3, #0
	mov	r12, #0
	mov	lr, r1
	pop	{r4, r5, r6, r7, r8, r9, r11, pc}
.Lgcm_BB61_8:
	mov	r7, #8
	mov	r0, r7
	add	sp, sp, #32
	mov	r1, #0
	mov	r2, #0
	mov	r3, #0
	mov	r12, #0
	mov	lr, r1
	pop	{r4, r5, r6, r7, r8, r9, r11, pc}
.Lgcm_func_end61:
	.size	gcm.fotsgure_gcm_accept_short, .Lgcm_func_end61-gcm.fotsgure_gcm_accept_short
	.cantunwind
	.fnend
                                        @ -- End function
	.section	.text.gcm.fotsgure_gcm_decrypt,"ax",%progbits
	export_gcm	fotsgure_gcm_decrypt
	.p2align	2
	.type	gcm.fotsgure_gcm_decrypt,%function
	.code	32
gcm.fotsgure_gcm_decrypt:                   @ @gcm.fotsgure_gcm_decrypt
	.fnstart
@ %bb.0:
	.save	{r4, r5, r6, r7, r8, r9, r11, lr}
	push	{r4, r5, r6, r7, r8, r9, r11, lr}
	.pad	#40
	sub	sp, sp, #40
	ldr	r4, [r0]
	cmp	r2, #0
	addeq	r2, r2, #4096
	mov	r8, r3
	sub	r7, r4, #16
	mov	r3, r0
	mov	r0, #2
	cmp	r7, #16
	bhi	.Lgcm_BB62_6
@ %bb.1:
	movw	r6, #257
	mov	r5, #1
	movt	r6, #1
	tst	r6, r5, lsl r7
	beq	.Lgcm_BB62_6
@ %bb.2:                                @ %join.3.i.i
	mov	r0, #0
	add	r5, r1, #8
	str	r0, [sp, #36]
	str	r0, [sp, #20]
	mov	r0, #56
	adds	r0, r0, r4, lsl #1
	str	r0, [sp, #24]
	add	r0, r3, #484
	str	r0, [sp, #32]
	add	r0, r3, #4
	str	r0, [sp, #16]
	lsr	r0, r4, #31
	ldr	r7, [r5, #20]
	adc	r0, r0, #0
	str	r0, [sp, #28]
	ldr	r0, [r5, #16]
	subs	r3, r0, #1
	mov	r0, #8
	sbc	r7, r7, #0
	rsbs	r6, r3, #3
	rscs	r7, r7, #0
	blo	.Lgcm_BB62_6
@ %bb.3:                                @ %join.3.i.i
	uxtb	r3, r3
	cmp	r3, #3
	bne	.Lgcm_BB62_6
@ %bb.4:                                @ %join.3.i.i.i
	ldm	r5, {r0, r9}
	mov	r11, #0
	ldr	r12, [r5, #12]
	ldr	lr, [r5, #8]!
	adds	r6, r8, lr
	adcs	r7, r12, #0
	adcs	r3, r11, #0
	mvnne	r7, #0
	mvnne	r6, #0
	mvn	r3, #31
	subs	r4, r0, r3
	sbcs	r4, r9, #15
	movlo	r3, r0
	movhs	r9, #15
	subs	r3, r3, r6
	mov	r0, #5
	sbcs	r3, r9, r7
	blo	.Lgcm_BB62_6
@ %bb.5:                                @ %arm.4.i.i
	str	r2, [sp]
	adds	r2, lr, #16
	adc	r3, r12, #0
	add	r1, r1, #32
	add	r0, sp, #16
	str	r8, [sp, #8]
	str	r11, [sp, #12]
	bl	gcm.gcm.gctr.add_gctr
	ldrd	r0, r1, [r5]
	adds	r0, r0, r8
	adc	r1, r1, #0
	strd	r0, r1, [r5]
	bl	gcm.aes_cipher.zeroize.stack.wipe_stack.1536
	mov	r0, #0
.Lgcm_BB62_6:                               @ %wide_fotsgure_gcm_decrypt.exit
	add	sp, sp, #40
	mov	r1, #0
	mov	r2, #0
	mov	r3, #0
	mov	r12, #0
	mov	lr, r1
	pop	{r4, r5, r6, r7, r8, r9, r11, pc}
.Lgcm_func_end62:
	.size	gcm.fotsgure_gcm_decrypt, .Lgcm_func_end62-gcm.fotsgure_gcm_decrypt
	.cantunwind
	.fnend
                                        @ -- End function
	.section	.text.gcm.fotsgure_gcm_decrypt_unverified,"ax",%progbits
	export_gcm	fotsgure_gcm_decrypt_unverified
	.p2align	2
	.type	gcm.fotsgure_gcm_decrypt_unverified,%function
	.code	32
gcm.fotsgure_gcm_decrypt_unverified:        @ @gcm.fotsgure_gcm_decrypt_unverified
	.fnstart
@ %bb.0:
	.save	{r4, r5, r6, r7, r8, r9, r11, lr}
	push	{r4, r5, r6, r7, r8, r9, r11, lr}
	.pad	#48
	sub	sp, sp, #48
	mov	r4, r1
	ldr	r1, [r0]
	mov	r5, r2
	cmp	r2, #0
	addeq	r5, r5, #4096
	sub	r2, r1, #16
	mov	r7, #2
	cmp	r2, #16
	bhi	.Lgcm_BB63_4
@ %bb.1:
	movw	r6, #257
	mov	r8, r3
	mov	r3, #1
	movt	r6, #1
	tst	r6, r3, lsl r2
	beq	.Lgcm_BB63_4
@ %bb.2:                                @ %join.3.i.i
	mov	r2, #56
	add	r6, sp, #24
	adds	r2, r2, r1, lsl #1
	str	r2, [sp, #32]
	add	r2, r0, #484
	add	r0, r0, #4
	str	r0, [sp, #24]
	lsr	r0, r1, #31
	adc	r0, r0, #0
	mov	r7, #0
	str	r2, [sp, #40]
	mov	r1, r4
	str	r0, [sp, #36]
	mov	r0, r6
	mov	r2, #3
	str	r8, [sp]
	str	r7, [sp, #44]
	str	r7, [sp, #28]
	str	r7, [sp, #4]
	bl	gcm.gcm.mode.BorrowedGcm.enter_phase
	tst	r0, #255
	beq	.Lgcm_BB63_5
@ %bb.3:                                @ %arm.2.i.i.i
	mov	r7, #8
	tst	r1, #1
	movwne	r7, #5
.Lgcm_BB63_4:                               @ %wide_fotsgure_gcm_decrypt_unverified.exit
	mov	r0, r7
	add	sp, sp, #48
	mov	r1, #0
	mov	r2, #0
	mov	r3, #0
	mov	r12, #0
	mov	lr, r1
	pop	{r4, r5, r6, r7, r8, r9, r11, pc}
.Lgcm_BB63_5:                               @ %arm.1.i.i.i
	add	r0, r6, #16
	ldr	r6, [r4, #8]
	ldr	r9, [r4, #12]
	add	r2, r4, #64
	and	r1, r6, #15
	str	r8, [sp, #16]
	stm	sp, {r1, r7}
	add	r1, r4, #48
	str	r7, [sp, #20]
	str	r5, [sp, #8]
	bl	gcm.gcm.hash_room.hash_piece
	ldrd	r0, r1, [r4, #8]
	adds	r0, r0, r8
	adc	r1, r1, #0
	adds	r2, r6, #16
	adc	r3, r9, #0
	strd	r0, r1, [r4, #8]
	add	r1, r4, #32
	add	r0, sp, #24
	str	r8, [sp, #8]
	str	r7, [sp, #12]
	str	r5, [sp]
	bl	gcm.gcm.gctr.add_gctr
	bl	gcm.aes_cipher.zeroize.stack.wipe_stack.1536
	mov	r0, r7
	add	sp, sp, #48
	mov	r1, #0
	mov	r2, #0
	mov	r3, #0
	mov	r12, #0
	mov	lr, r1
	pop	{r4, r5, r6, r7, r8, r9, r11, pc}
.Lgcm_func_end63:
	.size	gcm.fotsgure_gcm_decrypt_unverified, .Lgcm_func_end63-gcm.fotsgure_gcm_decrypt_unverified
	.cantunwind
	.fnend
                                        @ -- End function
	.section	.text.gcm.fotsgure_gcm_finish_unverified,"ax",%progbits
	export_gcm	fotsgure_gcm_finish_unverified
	.p2align	2
	.type	gcm.fotsgure_gcm_finish_unverified,%function
	.code	32
gcm.fotsgure_gcm_finish_unverified:         @ @gcm.fotsgure_gcm_finish_unverified
	.fnstart
@ %bb.0:
	.save	{r4, r5, r11, lr}
	push	{r4, r5, r11, lr}
	.pad	#24
	sub	sp, sp, #24
	ldr	r3, [r0]
	mov	r4, #2
	sub	lr, r3, #16
	cmp	lr, #16
	bhi	.Lgcm_BB64_4
@ %bb.1:
	movw	r5, #257
	mov	r12, #1
	movt	r5, #1
	tst	r5, r12, lsl lr
	beq	.Lgcm_BB64_4
@ %bb.2:                                @ %join.3.i.i
	mov	r5, #56
	mov	r4, #0
	adds	r5, r5, r3, lsl #1
	str	r5, [sp, #8]
	add	r5, r0, #484
	add	r0, r0, #4
	str	r0, [sp]
	lsr	r0, r3, #31
	adc	r0, r0, #0
	str	r0, [sp, #12]
	ldr	r0, [r1, #24]
	ldr	r3, [r1, #28]
	subs	r0, r0, #1
	str	r5, [sp, #16]
	sbc	r3, r3, #0
	add	r12, r0, #1
	subs	r0, r0, #4
	mov	r5, #2
	sbcs	r0, r3, #0
	str	r4, [sp, #20]
	orrlo	r5, r12, #2
	str	r4, [sp, #4]
	uxtb	r0, r5
	cmp	r0, #3
	bne	.Lgcm_BB64_5
@ %bb.3:                                @ %arm.4.i.i
	mov	r0, sp
	mov	r5, r1
	bl	gcm.gcm.mode.BorrowedGcm.put_tag_so_far
	bl	gcm.aes_cipher.zeroize.stack.wipe_stack.512
	mov	r0, r5
	bl	gcm.gcm.message_state.MessageZeroize.zeroize
.Lgcm_BB64_4:                               @ %wide_fotsgure_gcm_finish_unverified.exit
	mov	r0, r4
	add	sp, sp, #24
	mov	r1, #0
	mov	r2, #0
	mov	r3, #0
	mov	r12, #0
	mov	lr, r1
	pop	{r4, r5, r11, pc}
.Lgcm_BB64_5:
	mov	r4, #8
	mov	r0, r4
	add	sp, sp, #24
	mov	r1, #0
	mov	r2, #0
	mov	r3, #0
	mov	r12, #0
	mov	lr, r1
	pop	{r4, r5, r11, pc}
.Lgcm_func_end64:
	.size	gcm.fotsgure_gcm_finish_unverified, .Lgcm_func_end64-gcm.fotsgure_gcm_finish_unverified
	.cantunwind
	.fnend
                                        @ -- End function
	.section	.text.gcm.fotsgure_gcm_wipe_message,"ax",%progbits
	export_gcm	fotsgure_gcm_wipe_message
	.p2align	2
	.type	gcm.fotsgure_gcm_wipe_message,%function
	.code	32
gcm.fotsgure_gcm_wipe_message:              @ @gcm.fotsgure_gcm_wipe_message
	.fnstart
@ %bb.0:
	.save	{r4, lr}
	push	{r4, lr}
	mov	r1, #0
	mov	r2, #80
	mov	r4, r0
	bl	memset
	mov	r0, r4
	pop	{r4, lr}
	b	gcm.gcm.message_state.MessageZeroize.zeroize
.Lgcm_func_end65:
	.size	gcm.fotsgure_gcm_wipe_message, .Lgcm_func_end65-gcm.fotsgure_gcm_wipe_message
	.cantunwind
	.fnend
                                        @ -- End function
	.section	.text.gcm.fotsgure_gcm_siv_set_key,"ax",%progbits
	export_gcm	fotsgure_gcm_siv_set_key
	.p2align	2
	.type	gcm.fotsgure_gcm_siv_set_key,%function
	.code	32
gcm.fotsgure_gcm_siv_set_key:               @ @gcm.fotsgure_gcm_siv_set_key
	.fnstart
@ %bb.0:
	.save	{r4, r5, r6, r7, r8, lr}
	push	{r4, r5, r6, r7, r8, lr}
	mov	r4, r2
	cmp	r2, #16
	mov	r6, r1
	cmpne	r4, #32
	bne	.Lgcm_BB66_2
@ %bb.1:                                @ %join.3.i.i
	add	r8, r0, #4
	mov	r7, r0
	mov	r1, #0
	mov	r2, #480
	mov	r0, r8
	mov	r5, #0
	bl	memset
	cmp	r6, #0
	mov	r0, r8
	addeq	r6, r6, #4096
	mov	r2, r4
	mov	r3, #0
	mov	r1, r6
	bl	gcm.aes_narrow.word_room.expand_words
	bl	gcm.aes_cipher.zeroize.stack.wipe_stack.768
	mov	r0, r5
	str	r4, [r7]
	mov	r1, #0
	mov	r2, #0
	mov	r3, #0
	mov	r12, #0
	mov	lr, r1
	pop	{r4, r5, r6, r7, r8, pc}
.Lgcm_BB66_2:                               @ %then.1.i.i
	mov	r1, #0
	mov	r2, #484
	bl	memset
	mov	r0, #1
	mov	r1, #0
	mov	r2, #0
	mov	r3, #0
	mov	r12, #0
	mov	lr, r1
	pop	{r4, r5, r6, r7, r8, pc}
.Lgcm_func_end66:
	.size	gcm.fotsgure_gcm_siv_set_key, .Lgcm_func_end66-gcm.fotsgure_gcm_siv_set_key
	.cantunwind
	.fnend
                                        @ -- End function
	.section	.text.gcm.fotsgure_gcm_siv_seal,"ax",%progbits
	export_gcm	fotsgure_gcm_siv_seal
	.p2align	2
	.type	gcm.fotsgure_gcm_siv_seal,%function
	.code	32
gcm.fotsgure_gcm_siv_seal:                  @ @gcm.fotsgure_gcm_siv_seal
	.fnstart
@ %bb.0:
	.save	{r4, r5, r6, r7, r8, lr}
	push	{r4, r5, r6, r7, r8, lr}
	.pad	#64
	sub	sp, sp, #64
	mov	r12, r2
	ldr	r2, [r0]
	cmp	r2, #32
	movne	r5, #2
	cmpne	r2, #16
	bne	.Lgcm_BB67_2
@ %bb.1:                                @ %join.3.i.i
	mov	r4, #56
	add	r0, r0, #4
	ldr	r6, [sp, #88]
	adds	r4, r4, r2, lsl #1
	str	r0, [sp, #32]
	lsr	r0, r2, #31
	adc	r0, r0, #0
	cmp	r6, #0
	str	r0, [sp, #44]
	addeq	r6, r6, #4096
	cmp	r12, #0
	add	r0, sp, #8
	mov	r5, #0
	stm	r0, {r3, r5, r6}
	addeq	r12, r12, #4096
	stm	sp, {r1, r12}
	add	r0, sp, #48
	add	r1, sp, #32
	ldr	r8, [sp, #92]
	mov	r3, #0
	str	r8, [sp, #24]
	ldr	r7, [sp, #96]
	str	r5, [sp, #36]
	str	r4, [sp, #40]
	str	r5, [sp, #28]
	bl	gcm.gcm_siv.course.seal_in
	add	r3, sp, #48
	ldm	r3, {r0, r1, r2, r3}
	str	r3, [r7, #12]
	str	r2, [r7, #8]
	str	r1, [r7, #4]
	str	r0, [r7]
.Lgcm_BB67_2:                               @ %wide_fotsgure_gcm_siv_seal.exit
	mov	r0, r5
	add	sp, sp, #64
	mov	r1, #0
	mov	r2, #0
	mov	r3, #0
	mov	r12, #0
	mov	lr, r1
	pop	{r4, r5, r6, r7, r8, pc}
.Lgcm_func_end67:
	.size	gcm.fotsgure_gcm_siv_seal, .Lgcm_func_end67-gcm.fotsgure_gcm_siv_seal
	.cantunwind
	.fnend
                                        @ -- End function
	.section	.text.gcm.fotsgure_gcm_siv_seal_to,"ax",%progbits
	export_gcm	fotsgure_gcm_siv_seal_to
	.p2align	2
	.type	gcm.fotsgure_gcm_siv_seal_to,%function
	.code	32
gcm.fotsgure_gcm_siv_seal_to:               @ @gcm.fotsgure_gcm_siv_seal_to
	.fnstart
@ %bb.0:
	.save	{r4, r5, r6, r7, r8, r9, r10, lr}
	push	{r4, r5, r6, r7, r8, r9, r10, lr}
	.pad	#64
	sub	sp, sp, #64
	ldr	r9, [sp, #104]
	mov	r7, #10
	ldr	r4, [sp, #96]
	cmp	r9, #0
	ldr	r10, [sp, #100]
	addeq	r9, r9, #4096
	cmp	r4, #0
	addeq	r4, r4, #4096
	cmp	r2, #0
	addeq	r2, r2, #4096
	ldr	r6, [sp, #108]
	cmp	r10, r6
	bne	.Lgcm_BB68_8
@ %bb.1:                                @ %join.3.i.i
	ldr	r6, [r0]
	cmp	r6, #32
	movne	r7, #2
	cmpne	r6, #16
	bne	.Lgcm_BB68_8
@ %bb.2:                                @ %join.6.i.i
	subs	r6, r9, r4
	mov	r7, #0
	sbc	r12, r7, #0
	subs	r6, r6, r10
	sbcs	r6, r12, #0
	bhs	.Lgcm_BB68_5
@ %bb.3:                                @ %join.7.i.i.i.i.i.i.i.i.preheader
	mov	r6, #0
.Lgcm_BB68_4:                               @ %join.7.i.i.i.i.i.i.i.i
                                        @ =>This Inner Loop Header: Depth=1
	ldrb	r5, [r4, r6]
	strb	r5, [r9, r6]
	adds	r6, r6, #1
	adc	r7, r7, #0
	subs	r5, r6, r10
	sbcs	r5, r7, #0
	blo	.Lgcm_BB68_4
	b	.Lgcm_BB68_6
.Lgcm_BB68_5:                               @ %apart.2.i.i.i.i.i.i.i.i
	mov	r8, r0
	mov	r7, r1
	mov	r1, r4
	mov	r4, r2
	mov	r0, r9
	mov	r2, r10
	mov	r6, r3
	bl	memmove
	mov	r0, r8
	mov	r1, r7
	mov	r2, r4
	mov	r3, r6
.Lgcm_BB68_6:                               @ %"core::slice::edits::slice+T::copy_from_slice::<i8,20'core::clone::U8Clone{}>.exit.i.i"
	ldr	r4, [r0]
	cmp	r4, #32
	movne	r7, #2
	cmpne	r4, #16
	bne	.Lgcm_BB68_8
@ %bb.7:                                @ %join.3.i.i.i
	mov	r6, #56
	add	r0, r0, #4
	adds	r6, r6, r4, lsl #1
	str	r0, [sp, #32]
	lsr	r0, r4, #31
	mov	r7, #0
	adc	r0, r0, #0
	stm	sp, {r1, r2, r3, r7, r9}
	add	r1, sp, #32
	str	r0, [sp, #44]
	add	r0, sp, #48
	mov	r2, r4
	mov	r3, #0
	str	r10, [sp, #24]
	ldr	r8, [sp, #112]
	str	r7, [sp, #36]
	str	r6, [sp, #40]
	str	r7, [sp, #28]
	bl	gcm.gcm_siv.course.seal_in
	add	r3, sp, #48
	ldm	r3, {r0, r1, r2, r3}
	str	r3, [r8, #12]
	str	r2, [r8, #8]
	str	r1, [r8, #4]
	str	r0, [r8]
.Lgcm_BB68_8:                               @ %wide_fotsgure_gcm_siv_seal_to.exit
	mov	r0, r7
	add	sp, sp, #64
	mov	r1, #0
	mov	r2, #0
	mov	r3, #0
	mov	r12, #0
	mov	lr, r1
	pop	{r4, r5, r6, r7, r8, r9, r10, pc}
.Lgcm_func_end68:
	.size	gcm.fotsgure_gcm_siv_seal_to, .Lgcm_func_end68-gcm.fotsgure_gcm_siv_seal_to
	.cantunwind
	.fnend
                                        @ -- End function
	.section	.text.gcm.fotsgure_gcm_siv_open,"ax",%progbits
	export_gcm	fotsgure_gcm_siv_open
	.p2align	2
	.type	gcm.fotsgure_gcm_siv_open,%function
	.code	32
gcm.fotsgure_gcm_siv_open:                  @ @gcm.fotsgure_gcm_siv_open
	.fnstart
@ %bb.0:
	.save	{r4, r5, r6, r7, r11, lr}
	push	{r4, r5, r6, r7, r11, lr}
	.pad	#56
	sub	sp, sp, #56
	mov	r12, r2
	ldr	r2, [r0]
	cmp	r2, #32
	movne	lr, #2
	cmpne	r2, #16
	bne	.Lgcm_BB69_2
@ %bb.1:                                @ %join.3.i.i
	mov	r7, #56
	add	r0, r0, #4
	adds	r7, r7, r2, lsl #1
	str	r0, [sp, #40]
	lsr	r0, r2, #31
	ldr	r4, [sp, #84]
	adc	r0, r0, #0
	ldr	r5, [sp, #80]
	str	r0, [sp, #52]
	add	r0, sp, #24
	mov	r6, #0
	cmp	r5, #0
	ldr	lr, [sp, #88]
	addeq	r5, r5, #4096
	stm	r0, {r4, r6, lr}
	add	r0, sp, #40
	cmp	r12, #0
	str	r3, [sp, #8]
	mov	r3, #0
	addeq	r12, r12, #4096
	str	r6, [sp, #44]
	str	r7, [sp, #48]
	stm	sp, {r1, r12}
	str	r6, [sp, #12]
	str	r5, [sp, #16]
	bl	gcm.gcm_siv.course.open_in
	mov	lr, #6
	cmp	r0, #0
	movwne	lr, #0
.Lgcm_BB69_2:                               @ %wide_fotsgure_gcm_siv_open.exit
	mov	r0, lr
	add	sp, sp, #56
	mov	r1, #0
	mov	r2, #0
	mov	r3, #0
	mov	r12, #0
	mov	lr, r1
	pop	{r4, r5, r6, r7, r11, pc}
.Lgcm_func_end69:
	.size	gcm.fotsgure_gcm_siv_open, .Lgcm_func_end69-gcm.fotsgure_gcm_siv_open
	.cantunwind
	.fnend
                                        @ -- End function
	.section	.text.gcm.fotsgure_gcm_siv_open_to,"ax",%progbits
	export_gcm	fotsgure_gcm_siv_open_to
	.p2align	2
	.type	gcm.fotsgure_gcm_siv_open_to,%function
	.code	32
gcm.fotsgure_gcm_siv_open_to:               @ @gcm.fotsgure_gcm_siv_open_to
	.fnstart
@ %bb.0:
	.save	{r4, r5, r6, r7, r8, r9, r10, lr}
	push	{r4, r5, r6, r7, r8, r9, r10, lr}
	.pad	#56
	sub	sp, sp, #56
	ldr	r10, [sp, #96]
	mov	r7, #10
	ldr	r5, [sp, #88]
	cmp	r10, #0
	ldr	r8, [sp, #92]
	addeq	r10, r10, #4096
	cmp	r5, #0
	addeq	r5, r5, #4096
	cmp	r2, #0
	addeq	r2, r2, #4096
	ldr	r6, [sp, #100]
	cmp	r8, r6
	bne	.Lgcm_BB70_9
@ %bb.1:                                @ %join.3.i.i
	ldr	r6, [r0]
	cmp	r6, #32
	movne	r7, #2
	cmpne	r6, #16
	bne	.Lgcm_BB70_9
@ %bb.2:                                @ %join.6.i.i
	subs	r6, r10, r5
	mov	r7, #0
	sbc	r12, r7, #0
	subs	r6, r6, r8
	sbcs	r6, r12, #0
	bhs	.Lgcm_BB70_5
@ %bb.3:                                @ %join.7.i.i.i.i.i.i.i.i.preheader
	mov	r6, #0
.Lgcm_BB70_4:                               @ %join.7.i.i.i.i.i.i.i.i
                                        @ =>This Inner Loop Header: Depth=1
	ldrb	r4, [r5, r6]
	strb	r4, [r10, r6]
	adds	r6, r6, #1
	adc	r7, r7, #0
	subs	r4, r6, r8
	sbcs	r4, r7, #0
	blo	.Lgcm_BB70_4
	b	.Lgcm_BB70_6
.Lgcm_BB70_5:                               @ %apart.2.i.i.i.i.i.i.i.i
	mov	r9, r0
	mov	r7, r1
	mov	r1, r5
	mov	r5, r2
	mov	r0, r10
	mov	r2, r8
	mov	r6, r3
	bl	memmove
	mov	r0, r9
	mov	r1, r7
	mov	r2, r5
	mov	r3, r6
.Lgcm_BB70_6:                               @ %"core::slice::edits::slice+T::copy_from_slice::<i8,20'core::clone::U8Clone{}>.exit.i.i"
	ldr	r5, [r0]
	cmp	r5, #32
	movne	r7, #2
	cmpne	r5, #16
	bne	.Lgcm_BB70_10
@ %bb.7:                                @ %join.3.i.i.i
	mov	r4, #56
	add	r0, r0, #4
	adds	r4, r4, r5, lsl #1
	str	r0, [sp, #40]
	lsr	r0, r5, #31
	mov	r6, #0
	adc	r0, r0, #0
	str	r0, [sp, #52]
	add	r0, sp, #40
	stm	sp, {r1, r2, r3, r6, r10}
	mov	r2, r5
	ldr	r7, [sp, #104]
	mov	r3, #0
	str	r6, [sp, #44]
	str	r4, [sp, #48]
	str	r8, [sp, #24]
	str	r6, [sp, #28]
	str	r7, [sp, #32]
	bl	gcm.gcm_siv.course.open_in
	mov	r7, #6
	cmp	r0, #0
	beq	.Lgcm_BB70_10
@ %bb.8:                                @ %"gcm_c::siv::fotsgure_gcm_siv_open.exit.i.i"
	mov	r7, #0
.Lgcm_BB70_9:                               @ %wide_fotsgure_gcm_siv_open_to.exit
	mov	r0, r7
	add	sp, sp, #56
	mov	r1, #0
	mov	r2, #0
	mov	r3, #0
	mov	r12, #0
	mov	lr, r1
	pop	{r4, r5, r6, r7, r8, r9, r10, pc}
.Lgcm_BB70_10:                              @ %then.7.i.i
	cmp	r8, #0
	beq	.Lgcm_BB70_9
@ %bb.11:                               @ %loop.5.preheader.i.i.i
	subs	r6, r8, #1
	mov	r5, #0
	sbc	r0, r5, #0
	orrs	r0, r6, r0
	beq	.Lgcm_BB70_13
@ %bb.12:                               @ %join.8.preheader.i.i.i
	sub	r2, r8, #1
	mov	r0, r10
	mov	r1, #0
	bl	memset
.Lgcm_BB70_13:                              @ %after.4.i.i.i
	strb	r5, [r10, r6]
	mov	r0, r7
	add	sp, sp, #56
	mov	r1, #0
	mov	r2, #0
	mov	r3, #0
	mov	r12, #0
	mov	lr, r1
	pop	{r4, r5, r6, r7, r8, r9, r10, pc}
.Lgcm_func_end70:
	.size	gcm.fotsgure_gcm_siv_open_to, .Lgcm_func_end70-gcm.fotsgure_gcm_siv_open_to
	.cantunwind
	.fnend
                                        @ -- End function
	.section	.text.gcm.fotsgure_gcm_siv_wipe,"ax",%progbits
	export_gcm	fotsgure_gcm_siv_wipe
	.p2align	2
	.type	gcm.fotsgure_gcm_siv_wipe,%function
	.code	32
gcm.fotsgure_gcm_siv_wipe:                  @ @gcm.fotsgure_gcm_siv_wipe
	.fnstart
@ %bb.0:
	.save	{r4, lr}
	push	{r4, lr}
	mov	r1, #0
	mov	r2, #484
	mov	r4, r0
	bl	memset
	add	r0, r4, #4
	mov	r2, #120
	mov	r3, #0
	pop	{r4, lr}
	b	gcm.aes_cipher.zeroize.elements.zeroize_elements.1
.Lgcm_func_end71:
	.size	gcm.fotsgure_gcm_siv_wipe, .Lgcm_func_end71-gcm.fotsgure_gcm_siv_wipe
	.cantunwind
	.fnend
                                        @ -- End function
	.type	.Lgcm_static.0,%object              @ @static.0
	.section	.rodata..Lgcm_static.0,"a",%progbits
.Lgcm_static.0:
	.ascii	"\001\002\004\b\020 @\200\0336"
	.size	.Lgcm_static.0, 10

	.ident	"rattle logic=dac8208d650f15bf3e2dc313a14fa4c783a3acf887bdfab66e1714b038d9e11b"
	.section	".note.GNU-stack","",%progbits

	.section	.note.fotsgure,"",%note
	.p2align	2, 0x0
	.long	9, 112, 1
	.asciz	"Fotsgure"
	.p2align	2, 0x0
	.asciz	"fotsgure_gcm 0.4.0, arm/gcm.s, sources SHA-256 7839658995c36f00d13f13ab6f42fa9360d959953d441bf3a57996a9c2aa56dc"
	.p2align	2, 0x0
