@ Made by tools/dist from the proved crate gcm_c; BUILD says from what. Don't edit it.
/* A Rust crate defines in_rust; for x86-64, a static library of both builds defines chosen, and choose_*.c calls these names. */
	.macro	export_gcm_v6m name
	.ifdef	in_rust
	.globl	gcm_v6m.\name
	.hidden	gcm_v6m.\name
	.else
	.globl	\name
	.set	\name, gcm_v6m.\name
	.endif
	.endm
	.syntax	unified
	.file	"rattle"
	.section	.text.gcm_v6m.aes_cipher.zeroize.elements.zeroize_elements.1,"ax",%progbits
	.p2align	1                               @ -- Begin function aes_cipher::zeroize::elements::zeroize_elements::<#54a2bb646728b9ee>
	.type	gcm_v6m.aes_cipher.zeroize.elements.zeroize_elements.1,%function
	.code	16
	.thumb_func
gcm_v6m.aes_cipher.zeroize.elements.zeroize_elements.1: @ @gcm_v6m.aes_cipher.zeroize.elements.zeroize_elements.1
	.fnstart
@ %bb.0:                                @ %start
	.save	{r4, r5, r6, r7, lr}
	push	{r4, r5, r6, r7, lr}
	.pad	#12
	sub	sp, #12
	movs	r4, #0
	str	r4, [sp, #4]
	str	r4, [sp]
	@APP
	@NO_APP
	ldr	r2, [sp, #4]
	ldr	r1, [sp]
	@APP
	@NO_APP
	mov	r3, r1
	subs	r3, #120
	sbcs	r2, r4
	bhs	.Lgcm_v6m_BB0_2
@ %bb.1:                                @ %then.1.i
	lsls	r6, r1, #2
	ldr	r7, [r0, r6]
	movs	r1, #15
	lsls	r2, r1, #5
	movs	r1, #0
	mov	r5, r0
	bl	memset
	ldr	r0, [r5, r6]
	ands	r0, r7
	b	.Lgcm_v6m_BB0_3
.Lgcm_v6m_BB0_2:                                @ %"aes_cipher::zeroize::observe::<#94bc162b3f62047f>.exit12"
	movs	r1, #15
	lsls	r2, r1, #5
	mov	r1, r4
	bl	memset
	mov	r0, r4
.Lgcm_v6m_BB0_3:                                @ %"aes_cipher::zeroize::observe::<#94bc162b3f62047f>.exit"
	@APP
	@NO_APP
	ldr	r1, [sp, #4]
	ldr	r1, [sp]
	str	r4, [sp, #4]
	uxtb	r0, r0
	str	r0, [sp]
	@APP
	@NO_APP
	add	sp, #12
	pop	{r4, r5, r6, r7, pc}
.Lgcm_v6m_func_end0:
	.size	gcm_v6m.aes_cipher.zeroize.elements.zeroize_elements.1, .Lgcm_v6m_func_end0-gcm_v6m.aes_cipher.zeroize.elements.zeroize_elements.1
	.cantunwind
	.fnend
                                        @ -- End function
	.section	.text.gcm_v6m.aes_cipher.zeroize.elements.zeroize_elements.2,"ax",%progbits
	.p2align	1                               @ -- Begin function aes_cipher::zeroize::elements::zeroize_elements::<#d3d1c9d97fea966e>
	.type	gcm_v6m.aes_cipher.zeroize.elements.zeroize_elements.2,%function
	.code	16
	.thumb_func
gcm_v6m.aes_cipher.zeroize.elements.zeroize_elements.2: @ @gcm_v6m.aes_cipher.zeroize.elements.zeroize_elements.2
	.fnstart
@ %bb.0:                                @ %start
	.save	{r4, lr}
	push	{r4, lr}
	.pad	#8
	sub	sp, #8
	movs	r4, #0
	str	r4, [sp, #4]
	str	r4, [sp]
	@APP
	@NO_APP
	ldr	r1, [sp, #4]
	ldr	r1, [sp]
	@APP
	@NO_APP
	movs	r2, #16
	mov	r1, r4
	bl	memset
	@APP
	@NO_APP
	ldr	r0, [sp, #4]
	ldr	r0, [sp]
	str	r4, [sp, #4]
	str	r4, [sp]
	@APP
	@NO_APP
	add	sp, #8
	pop	{r4, pc}
.Lgcm_v6m_func_end1:
	.size	gcm_v6m.aes_cipher.zeroize.elements.zeroize_elements.2, .Lgcm_v6m_func_end1-gcm_v6m.aes_cipher.zeroize.elements.zeroize_elements.2
	.cantunwind
	.fnend
                                        @ -- End function
	.section	.text.gcm_v6m.gcm.message_state.MessageZeroize.zeroize,"ax",%progbits
	.p2align	1                               @ -- Begin function gcm::message_state::MessageZeroize::zeroize
	.type	gcm_v6m.gcm.message_state.MessageZeroize.zeroize,%function
	.code	16
	.thumb_func
gcm_v6m.gcm.message_state.MessageZeroize.zeroize: @ @gcm_v6m.gcm.message_state.MessageZeroize.zeroize
	.fnstart
@ %bb.0:                                @ %start
	.save	{r4, lr}
	push	{r4, lr}
	mov	r4, r0
	movs	r0, #0
	str	r0, [r4]
	str	r0, [r4, #4]
	str	r0, [r4, #8]
	str	r0, [r4, #12]
	str	r0, [r4, #16]
	str	r0, [r4, #20]
	str	r0, [r4, #24]
	str	r0, [r4, #28]
	mov	r0, r4
	adds	r0, #32
	bl	gcm_v6m.aes_cipher.zeroize.elements.zeroize_elements.3
	mov	r0, r4
	adds	r0, #48
	bl	gcm_v6m.aes_cipher.zeroize.elements.zeroize_elements.3
	adds	r4, #64
	mov	r0, r4
	bl	gcm_v6m.aes_cipher.zeroize.elements.zeroize_elements.3
	pop	{r4, pc}
.Lgcm_v6m_func_end2:
	.size	gcm_v6m.gcm.message_state.MessageZeroize.zeroize, .Lgcm_v6m_func_end2-gcm_v6m.gcm.message_state.MessageZeroize.zeroize
	.cantunwind
	.fnend
                                        @ -- End function
	.section	.text.gcm_v6m.aes_cipher.zeroize.elements.zeroize_elements.3,"ax",%progbits
	.p2align	1                               @ -- Begin function aes_cipher::zeroize::elements::zeroize_elements::<#3b2097f0eef5a37b>
	.type	gcm_v6m.aes_cipher.zeroize.elements.zeroize_elements.3,%function
	.code	16
	.thumb_func
gcm_v6m.aes_cipher.zeroize.elements.zeroize_elements.3: @ @gcm_v6m.aes_cipher.zeroize.elements.zeroize_elements.3
	.fnstart
@ %bb.0:                                @ %start
	.save	{r4, lr}
	push	{r4, lr}
	.pad	#8
	sub	sp, #8
	movs	r4, #0
	str	r4, [sp, #4]
	str	r4, [sp]
	@APP
	@NO_APP
	ldr	r1, [sp, #4]
	ldr	r1, [sp]
	@APP
	@NO_APP
	movs	r2, #16
	mov	r1, r4
	bl	memset
	@APP
	@NO_APP
	ldr	r0, [sp, #4]
	ldr	r0, [sp]
	str	r4, [sp, #4]
	str	r4, [sp]
	@APP
	@NO_APP
	add	sp, #8
	pop	{r4, pc}
.Lgcm_v6m_func_end3:
	.size	gcm_v6m.aes_cipher.zeroize.elements.zeroize_elements.3, .Lgcm_v6m_func_end3-gcm_v6m.aes_cipher.zeroize.elements.zeroize_elements.3
	.cantunwind
	.fnend
                                        @ -- End function
	.section	.text.gcm_v6m.aes_narrow.word_room.expand_words,"ax",%progbits
	.p2align	2                               @ -- Begin function aes_narrow::word_room::expand_words::<#6af90bfc14753d47>
	.type	gcm_v6m.aes_narrow.word_room.expand_words,%function
	.code	16
	.thumb_func
gcm_v6m.aes_narrow.word_room.expand_words: @ @gcm_v6m.aes_narrow.word_room.expand_words
	.fnstart
@ %bb.0:                                @ %start
	.save	{r4, r5, r6, r7, lr}
	push	{r4, r5, r6, r7, lr}
	.pad	#276
	sub	sp, #276
	str	r3, [sp, #8]                    @ 4-byte Spill
	mov	r4, r0
	movs	r0, #3
	cmp	r2, #24
	str	r4, [sp, #220]                  @ 4-byte Spill
	str	r0, [sp, #164]                  @ 4-byte Spill
	str	r2, [sp, #4]                    @ 4-byte Spill
	bne	.Lgcm_v6m_BB4_1
	b	.Lgcm_v6m_BB4_9
.Lgcm_v6m_BB4_1:                                @ %start
	cmp	r2, #16
	beq	.Lgcm_v6m_BB4_2
	bl	.Lgcm_v6m_BB4_22
.Lgcm_v6m_BB4_2:                                @ %then.1.i160
	add	r0, sp, #244
	bl	gcm_v6m.aes_planes.soft.word.word32.U32Word.in_every_slot
	ldr	r2, [sp, #244]
	ldr	r6, [sp, #248]
	ldr	r0, [sp, #252]
	str	r0, [sp, #240]                  @ 4-byte Spill
	ldr	r3, [sp, #256]
	ldr	r5, [sp, #260]
	ldr	r0, [sp, #264]
	ldr	r1, [sp, #268]
	ldr	r7, [sp, #272]
	str	r2, [sp, #236]                  @ 4-byte Spill
	str	r2, [r4]
	str	r6, [sp, #208]                  @ 4-byte Spill
	str	r6, [r4, #4]
	ldr	r6, [sp, #240]                  @ 4-byte Reload
	str	r6, [r4, #8]
	str	r3, [r4, #12]
	str	r5, [sp, #228]                  @ 4-byte Spill
	str	r5, [r4, #16]
	str	r0, [r4, #20]
	str	r1, [r4, #24]
	str	r7, [sp, #180]                  @ 4-byte Spill
	str	r7, [r4, #28]
	movs	r2, #0
	str	r2, [sp, #184]                  @ 4-byte Spill
	str	r2, [sp, #104]                  @ 4-byte Spill
	mov	r7, r2
	mov	r4, r6
.Lgcm_v6m_BB4_3:                                @ %join.5.i.i161
                                        @ =>This Inner Loop Header: Depth=1
	str	r2, [sp, #128]                  @ 4-byte Spill
	str	r7, [sp, #132]                  @ 4-byte Spill
	ldr	r2, [sp, #228]                  @ 4-byte Reload
	str	r4, [sp, #240]                  @ 4-byte Spill
	eors	r2, r4
	mov	r4, r2
	ldr	r5, [sp, #180]                  @ 4-byte Reload
	mov	r2, r5
	str	r5, [sp, #180]                  @ 4-byte Spill
	ldr	r6, [sp, #208]                  @ 4-byte Reload
	eors	r2, r6
	str	r2, [sp, #140]                  @ 4-byte Spill
	mov	r7, r2
	eors	r7, r4
	str	r4, [sp, #192]                  @ 4-byte Spill
	str	r7, [sp, #200]                  @ 4-byte Spill
	eors	r3, r7
	mov	r2, r3
	ldr	r7, [sp, #240]                  @ 4-byte Reload
	eors	r2, r7
	str	r2, [sp, #136]                  @ 4-byte Spill
	eors	r0, r1
	mov	r7, r2
	eors	r7, r0
	str	r7, [sp, #216]                  @ 4-byte Spill
	eors	r3, r1
	ldr	r2, [sp, #228]                  @ 4-byte Reload
	eors	r5, r2
	mov	r2, r3
	eors	r2, r5
	str	r2, [sp, #224]                  @ 4-byte Spill
	str	r5, [sp, #148]                  @ 4-byte Spill
	mov	r1, r2
	eors	r1, r7
	str	r1, [sp, #168]                  @ 4-byte Spill
	mov	r7, r1
	ands	r7, r4
	mov	r4, r2
	ands	r4, r5
	eors	r7, r4
	str	r7, [sp, #212]                  @ 4-byte Spill
	mov	r5, r2
	eors	r5, r0
	ldr	r1, [sp, #236]                  @ 4-byte Reload
	eors	r0, r1
	eors	r6, r0
	str	r6, [sp, #208]                  @ 4-byte Spill
	ands	r6, r0
	str	r5, [sp, #196]                  @ 4-byte Spill
	eors	r6, r5
	ldr	r1, [sp, #140]                  @ 4-byte Reload
	ands	r5, r1
	eors	r6, r5
	eors	r6, r1
	eors	r6, r7
	str	r6, [sp, #232]                  @ 4-byte Spill
	ldr	r2, [sp, #240]                  @ 4-byte Reload
	ldr	r7, [sp, #180]                  @ 4-byte Reload
	eors	r2, r7
	str	r2, [sp, #240]                  @ 4-byte Spill
	ldr	r6, [sp, #216]                  @ 4-byte Reload
	ands	r6, r2
	eors	r6, r4
	str	r6, [sp, #188]                  @ 4-byte Spill
	ldr	r2, [sp, #224]                  @ 4-byte Reload
	ldr	r1, [sp, #236]                  @ 4-byte Reload
	eors	r2, r1
	str	r2, [sp, #116]                  @ 4-byte Spill
	mov	r1, r0
	eors	r1, r7
	str	r1, [sp, #172]                  @ 4-byte Spill
	ands	r2, r1
	ldr	r1, [sp, #196]                  @ 4-byte Reload
	eors	r2, r1
	eors	r2, r5
	eors	r2, r7
	eors	r2, r6
	mov	r1, r2
	ldr	r6, [sp, #232]                  @ 4-byte Reload
	eors	r1, r6
	str	r1, [sp, #204]                  @ 4-byte Spill
	ldr	r5, [sp, #136]                  @ 4-byte Reload
	mov	r7, r5
	ldr	r1, [sp, #200]                  @ 4-byte Reload
	ands	r7, r1
	ldr	r4, [sp, #208]                  @ 4-byte Reload
	ldr	r1, [sp, #240]                  @ 4-byte Reload
	eors	r4, r1
	str	r4, [sp, #156]                  @ 4-byte Spill
	ldr	r1, [sp, #236]                  @ 4-byte Reload
	eors	r5, r1
	str	r0, [sp, #176]                  @ 4-byte Spill
	str	r5, [sp, #124]                  @ 4-byte Spill
	ands	r5, r4
	eors	r5, r3
	eors	r5, r7
	ldr	r3, [sp, #212]                  @ 4-byte Reload
	eors	r5, r3
	mov	r3, r6
	ands	r3, r5
	ldr	r4, [sp, #228]                  @ 4-byte Reload
	eors	r4, r0
	str	r4, [sp, #228]                  @ 4-byte Spill
	ands	r4, r1
	ldr	r0, [sp, #240]                  @ 4-byte Reload
	eors	r4, r0
	ldr	r0, [sp, #216]                  @ 4-byte Reload
	eors	r4, r0
	eors	r4, r7
	ldr	r0, [sp, #188]                  @ 4-byte Reload
	eors	r4, r0
	mov	r7, r3
	eors	r7, r4
	ldr	r0, [sp, #204]                  @ 4-byte Reload
	ands	r7, r0
	mov	r1, r7
	eors	r1, r2
	eors	r7, r3
	ands	r7, r2
	eors	r6, r7
	str	r6, [sp, #232]                  @ 4-byte Spill
	eors	r6, r1
	str	r1, [sp, #108]                  @ 4-byte Spill
	str	r6, [sp, #204]                  @ 4-byte Spill
	eors	r5, r4
	eors	r3, r2
	eors	r7, r3
	ands	r3, r5
	eors	r3, r4
	ands	r7, r3
	eors	r7, r5
	mov	r4, r7
	eors	r4, r6
	str	r4, [sp, #144]                  @ 4-byte Spill
	mov	r0, r3
	eors	r0, r1
	eors	r4, r0
	mov	r6, r0
	ldr	r2, [sp, #168]                  @ 4-byte Reload
	ands	r2, r4
	ldr	r0, [sp, #176]                  @ 4-byte Reload
	ands	r0, r7
	mov	r5, r7
	eors	r5, r3
	str	r5, [sp, #152]                  @ 4-byte Spill
	ldr	r1, [sp, #196]                  @ 4-byte Reload
	ands	r1, r5
	str	r1, [sp, #196]                  @ 4-byte Spill
	eors	r0, r1
	str	r0, [sp, #176]                  @ 4-byte Spill
	eors	r2, r0
	str	r2, [sp, #168]                  @ 4-byte Spill
	ldr	r1, [sp, #224]                  @ 4-byte Reload
	ands	r1, r6
	eors	r1, r2
	mov	r0, r1
	str	r1, [sp, #224]                  @ 4-byte Spill
	ldr	r1, .Lgcm_v6m_CPI4_11
	ldr	r5, [sp, #184]                  @ 4-byte Reload
	ldrb	r1, [r1, r5]
	str	r1, [sp, #212]                  @ 4-byte Spill
	str	r5, [sp, #184]                  @ 4-byte Spill
	lsrs	r2, r1, #1
	movs	r1, #64
	str	r1, [sp, #188]                  @ 4-byte Spill
	ands	r2, r1
	ldr	r1, [sp, #164]                  @ 4-byte Reload
	lsls	r1, r1, #8
	str	r1, [sp, #160]                  @ 4-byte Spill
	muls	r2, r1, r2
	eors	r2, r0
	ldr	r0, [sp, #192]                  @ 4-byte Reload
	ands	r4, r0
	ldr	r0, [sp, #148]                  @ 4-byte Reload
	ands	r6, r0
	str	r6, [sp, #120]                  @ 4-byte Spill
	eors	r4, r6
	ldr	r0, [sp, #204]                  @ 4-byte Reload
	ldr	r6, [sp, #156]                  @ 4-byte Reload
	ands	r6, r0
	eors	r6, r4
	str	r6, [sp, #156]                  @ 4-byte Spill
	ldr	r0, [sp, #200]                  @ 4-byte Reload
	ldr	r1, [sp, #232]                  @ 4-byte Reload
	ands	r0, r1
	eors	r0, r6
	str	r0, [sp, #200]                  @ 4-byte Spill
	eors	r2, r0
	movs	r0, #14
	str	r0, [sp, #192]                  @ 4-byte Spill
	rors	r2, r0
	ldr	r1, .Lgcm_v6m_CPI4_12
	ands	r2, r1
	lsls	r0, r5, #5
	str	r0, [sp, #112]                  @ 4-byte Spill
	ldr	r1, [sp, #220]                  @ 4-byte Reload
	adds	r0, r1, r0
	ldr	r1, [r0, #28]
	str	r0, [sp, #148]                  @ 4-byte Spill
	eors	r1, r2
	lsls	r2, r1, #2
	ldr	r5, .Lgcm_v6m_CPI4_13
	ands	r2, r5
	eors	r2, r1
	lsls	r5, r2, #4
	ldr	r1, .Lgcm_v6m_CPI4_14
	ands	r5, r1
	eors	r5, r2
	str	r5, [sp, #180]                  @ 4-byte Spill
	str	r5, [r0, #60]
	ldr	r5, [sp, #216]                  @ 4-byte Reload
	ldr	r0, [sp, #144]                  @ 4-byte Reload
	ands	r5, r0
	ldr	r0, [sp, #236]                  @ 4-byte Reload
	ldr	r6, [sp, #108]                  @ 4-byte Reload
	ands	r0, r6
	ldr	r1, [sp, #232]                  @ 4-byte Reload
	ldr	r2, [sp, #136]                  @ 4-byte Reload
	ands	r1, r2
	str	r1, [sp, #232]                  @ 4-byte Spill
	eors	r0, r1
	str	r0, [sp, #236]                  @ 4-byte Spill
	eors	r5, r0
	ldr	r1, [sp, #140]                  @ 4-byte Reload
	ldr	r0, [sp, #152]                  @ 4-byte Reload
	ands	r0, r1
	str	r0, [sp, #152]                  @ 4-byte Spill
	eors	r5, r0
	ldr	r0, [sp, #168]                  @ 4-byte Reload
	eors	r5, r0
	str	r5, [sp, #216]                  @ 4-byte Spill
	ldr	r1, [sp, #172]                  @ 4-byte Reload
	ands	r1, r3
	eors	r1, r5
	mov	r2, r1
	str	r1, [sp, #172]                  @ 4-byte Spill
	ldr	r1, [sp, #228]                  @ 4-byte Reload
	ands	r6, r1
	mov	r0, r6
	ldr	r1, [sp, #212]                  @ 4-byte Reload
	lsls	r1, r1, #4
	ldr	r5, [sp, #188]                  @ 4-byte Reload
	ands	r1, r5
	ldr	r6, [sp, #160]                  @ 4-byte Reload
	muls	r1, r6, r1
	eors	r1, r0
	ldr	r0, [sp, #156]                  @ 4-byte Reload
	eors	r1, r0
	eors	r1, r2
	ldr	r0, [sp, #192]                  @ 4-byte Reload
	rors	r1, r0
	ldr	r0, .Lgcm_v6m_CPI4_12
	ands	r1, r0
	ldr	r6, [sp, #148]                  @ 4-byte Reload
	ldr	r2, [r6, #8]
	eors	r2, r1
	lsls	r1, r2, #2
	ldr	r0, .Lgcm_v6m_CPI4_13
	ands	r1, r0
	eors	r1, r2
	lsls	r2, r1, #4
	ldr	r0, .Lgcm_v6m_CPI4_14
	ands	r2, r0
	eors	r2, r1
	str	r2, [sp, #168]                  @ 4-byte Spill
	str	r2, [r6, #40]
	ldr	r1, [sp, #116]                  @ 4-byte Reload
	ands	r3, r1
	ldr	r0, [sp, #236]                  @ 4-byte Reload
	eors	r3, r0
	ldr	r0, [sp, #196]                  @ 4-byte Reload
	eors	r3, r0
	str	r3, [sp, #196]                  @ 4-byte Spill
	ldr	r0, [sp, #208]                  @ 4-byte Reload
	ands	r7, r0
	eors	r7, r3
	eors	r7, r4
	ldr	r4, [sp, #212]                  @ 4-byte Reload
	lsls	r1, r4, #5
	ands	r1, r5
	ldr	r6, [sp, #160]                  @ 4-byte Reload
	muls	r1, r6, r1
	eors	r1, r7
	ldr	r0, [sp, #216]                  @ 4-byte Reload
	eors	r1, r0
	ldr	r3, [sp, #192]                  @ 4-byte Reload
	rors	r1, r3
	ldr	r2, .Lgcm_v6m_CPI4_12
	bics	r2, r1
	ldr	r0, [sp, #148]                  @ 4-byte Reload
	ldr	r1, [r0, #4]
	eors	r1, r2
	lsls	r2, r1, #2
	ldr	r5, .Lgcm_v6m_CPI4_13
	ands	r2, r5
	eors	r2, r1
	lsls	r1, r2, #4
	ldr	r5, .Lgcm_v6m_CPI4_14
	ands	r1, r5
	eors	r1, r2
	str	r1, [sp, #208]                  @ 4-byte Spill
	mov	r5, r0
	str	r1, [r0, #36]
	lsls	r1, r4, #31
	lsrs	r1, r1, #25
	mov	r4, r6
	muls	r1, r6, r1
	eors	r1, r7
	ldr	r2, [sp, #152]                  @ 4-byte Reload
	eors	r1, r2
	rors	r1, r3
	mov	r6, r3
	ldr	r2, .Lgcm_v6m_CPI4_12
	bics	r2, r1
	ldr	r0, [sp, #220]                  @ 4-byte Reload
	ldr	r1, [sp, #112]                  @ 4-byte Reload
	ldr	r1, [r0, r1]
	eors	r1, r2
	lsls	r2, r1, #2
	ldr	r0, .Lgcm_v6m_CPI4_13
	ands	r2, r0
	eors	r2, r1
	lsls	r1, r2, #4
	ldr	r0, .Lgcm_v6m_CPI4_14
	ands	r1, r0
	eors	r1, r2
	str	r1, [sp, #236]                  @ 4-byte Spill
	str	r1, [r5, #32]
	ldr	r5, [sp, #212]                  @ 4-byte Reload
	mov	r1, r5
	ldr	r2, [sp, #188]                  @ 4-byte Reload
	ands	r1, r2
	muls	r1, r4, r1
	mov	r3, r4
	ldr	r0, [sp, #224]                  @ 4-byte Reload
	eors	r1, r0
	ldr	r7, [sp, #204]                  @ 4-byte Reload
	ldr	r4, [sp, #124]                  @ 4-byte Reload
	ands	r7, r4
	ldr	r0, [sp, #232]                  @ 4-byte Reload
	eors	r7, r0
	ldr	r0, [sp, #176]                  @ 4-byte Reload
	eors	r7, r0
	ldr	r0, [sp, #200]                  @ 4-byte Reload
	eors	r7, r0
	str	r7, [sp, #204]                  @ 4-byte Spill
	eors	r1, r7
	rors	r1, r6
	ldr	r0, .Lgcm_v6m_CPI4_12
	bics	r0, r1
	ldr	r7, [sp, #148]                  @ 4-byte Reload
	ldr	r1, [r7, #24]
	eors	r1, r0
	lsls	r0, r1, #2
	ldr	r4, .Lgcm_v6m_CPI4_13
	ands	r0, r4
	eors	r0, r1
	lsls	r1, r0, #4
	ldr	r4, .Lgcm_v6m_CPI4_14
	ands	r1, r4
	eors	r1, r0
	str	r1, [r7, #56]
	ldr	r0, [sp, #240]                  @ 4-byte Reload
	ldr	r4, [sp, #144]                  @ 4-byte Reload
	ands	r4, r0
	lsls	r0, r5, #1
	ands	r0, r2
	mov	r5, r3
	muls	r0, r3, r0
	eors	r0, r4
	ldr	r2, [sp, #224]                  @ 4-byte Reload
	eors	r0, r2
	ldr	r2, [sp, #120]                  @ 4-byte Reload
	eors	r0, r2
	ldr	r2, [sp, #172]                  @ 4-byte Reload
	eors	r0, r2
	ldr	r4, [sp, #192]                  @ 4-byte Reload
	rors	r0, r4
	ldr	r2, .Lgcm_v6m_CPI4_12
	bics	r2, r0
	ldr	r0, [r7, #20]
	eors	r0, r2
	lsls	r2, r0, #2
	ldr	r6, .Lgcm_v6m_CPI4_13
	ands	r2, r6
	eors	r2, r0
	lsls	r0, r2, #4
	ldr	r3, .Lgcm_v6m_CPI4_14
	ands	r0, r3
	eors	r0, r2
	str	r0, [r7, #52]
	ldr	r2, [sp, #212]                  @ 4-byte Reload
	lsls	r2, r2, #2
	ldr	r6, [sp, #188]                  @ 4-byte Reload
	ands	r2, r6
	muls	r2, r5, r2
	ldr	r5, [sp, #204]                  @ 4-byte Reload
	eors	r2, r5
	rors	r2, r4
	ldr	r3, .Lgcm_v6m_CPI4_12
	ands	r2, r3
	ldr	r4, [r7, #16]
	eors	r4, r2
	lsls	r2, r4, #2
	ldr	r3, .Lgcm_v6m_CPI4_13
	ands	r2, r3
	eors	r2, r4
	lsls	r6, r2, #4
	ldr	r4, .Lgcm_v6m_CPI4_14
	ands	r6, r4
	eors	r6, r2
	str	r6, [sp, #228]                  @ 4-byte Spill
	str	r6, [r7, #48]
	ldr	r2, [sp, #212]                  @ 4-byte Reload
	lsls	r2, r2, #3
	ldr	r6, [sp, #188]                  @ 4-byte Reload
	ands	r2, r6
	ldr	r3, [sp, #160]                  @ 4-byte Reload
	muls	r2, r3, r2
	ldr	r3, [sp, #196]                  @ 4-byte Reload
	eors	r2, r3
	eors	r2, r5
	ldr	r3, [sp, #192]                  @ 4-byte Reload
	rors	r2, r3
	ldr	r3, .Lgcm_v6m_CPI4_12
	ands	r2, r3
	ldr	r3, [r7, #12]
	eors	r3, r2
	lsls	r2, r3, #2
	ldr	r5, .Lgcm_v6m_CPI4_13
	ands	r2, r5
	eors	r2, r3
	lsls	r3, r2, #4
	ands	r3, r4
	eors	r3, r2
	str	r3, [r7, #44]
	ldr	r7, [sp, #184]                  @ 4-byte Reload
	adds	r5, r7, #1
	ldr	r4, [sp, #104]                  @ 4-byte Reload
	ldr	r2, [sp, #132]                  @ 4-byte Reload
	adcs	r2, r4
	subs	r7, #9
	ldr	r7, [sp, #128]                  @ 4-byte Reload
	sbcs	r7, r4
	ldr	r4, [sp, #168]                  @ 4-byte Reload
	str	r5, [sp, #184]                  @ 4-byte Spill
	mov	r7, r2
	bhs	.Lgcm_v6m_BB4_4
	b	.Lgcm_v6m_BB4_3
.Lgcm_v6m_BB4_4:                                @ %join.5.i.i161
	bl	.Lgcm_v6m_BB4_33
	.p2align	2
@ %bb.5:
.Lgcm_v6m_CPI4_11:
	.long	.Lgcm_v6m_static.0
	.p2align	2
@ %bb.6:
.Lgcm_v6m_CPI4_12:
	.long	50529027                        @ 0x3030303
	.p2align	2
@ %bb.7:
.Lgcm_v6m_CPI4_13:
	.long	4244438268                      @ 0xfcfcfcfc
	.p2align	2
@ %bb.8:
.Lgcm_v6m_CPI4_14:
	.long	4042322160                      @ 0xf0f0f0f0
	.p2align	1
.Lgcm_v6m_BB4_9:                                @ %then.4.i157
	add	r0, sp, #244
	mov	r6, r1
	bl	gcm_v6m.aes_planes.soft.word.word32.U32Word.in_every_slot
	ldr	r7, [sp, #244]
	ldr	r0, [sp, #248]
	str	r0, [sp, #96]                   @ 4-byte Spill
	ldr	r0, [sp, #252]
	str	r0, [sp, #88]                   @ 4-byte Spill
	ldr	r0, [sp, #256]
	str	r0, [sp, #100]                  @ 4-byte Spill
	ldr	r0, [sp, #260]
	str	r0, [sp, #104]                  @ 4-byte Spill
	ldr	r0, [sp, #264]
	str	r0, [sp, #92]                   @ 4-byte Spill
	ldr	r0, [sp, #268]
	str	r0, [sp, #84]                   @ 4-byte Spill
	ldr	r0, [sp, #272]
	str	r0, [sp, #132]                  @ 4-byte Spill
	adds	r6, #8
	add	r0, sp, #244
	mov	r1, r6
	bl	gcm_v6m.aes_planes.soft.word.word32.U32Word.in_every_slot
	ldr	r0, [sp, #272]
	str	r0, [sp, #216]                  @ 4-byte Spill
	ldr	r0, [sp, #268]
	str	r0, [sp, #196]                  @ 4-byte Spill
	add	r6, sp, #252
	ldm	r6, {r0, r1, r5, r6}
	str	r0, [sp, #212]                  @ 4-byte Spill
	ldr	r0, [sp, #248]
	str	r0, [sp, #224]                  @ 4-byte Spill
	ldr	r0, [sp, #244]
	str	r0, [sp, #232]                  @ 4-byte Spill
	str	r7, [sp, #80]                   @ 4-byte Spill
	str	r7, [r4]
	mov	r7, r1
	ldr	r0, [sp, #96]                   @ 4-byte Reload
	str	r0, [r4, #4]
	ldr	r0, [sp, #88]                   @ 4-byte Reload
	str	r0, [r4, #8]
	ldr	r0, [sp, #100]                  @ 4-byte Reload
	str	r0, [r4, #12]
	ldr	r0, [sp, #104]                  @ 4-byte Reload
	str	r0, [r4, #16]
	ldr	r0, [sp, #92]                   @ 4-byte Reload
	str	r0, [r4, #20]
	ldr	r0, [sp, #84]                   @ 4-byte Reload
	str	r0, [r4, #24]
	ldr	r0, [sp, #132]                  @ 4-byte Reload
	str	r0, [r4, #28]
	movs	r0, #0
	str	r0, [sp, #136]                  @ 4-byte Spill
	str	r0, [sp, #12]                   @ 4-byte Spill
	mov	r3, r0
.Lgcm_v6m_BB4_10:                               @ %join.5.i164.i
                                        @ =>This Inner Loop Header: Depth=1
	str	r7, [sp, #120]                  @ 4-byte Spill
	str	r6, [sp, #124]                  @ 4-byte Spill
	str	r0, [sp, #72]                   @ 4-byte Spill
	str	r3, [sp, #76]                   @ 4-byte Spill
	mov	r0, r5
	str	r5, [sp, #192]                  @ 4-byte Spill
	ldr	r3, [sp, #212]                  @ 4-byte Reload
	eors	r0, r3
	str	r0, [sp, #204]                  @ 4-byte Spill
	ldr	r4, [sp, #216]                  @ 4-byte Reload
	mov	r1, r4
	str	r4, [sp, #216]                  @ 4-byte Spill
	ldr	r2, [sp, #224]                  @ 4-byte Reload
	eors	r1, r2
	str	r1, [sp, #112]                  @ 4-byte Spill
	mov	r5, r1
	eors	r5, r0
	str	r5, [sp, #172]                  @ 4-byte Spill
	eors	r5, r7
	mov	r0, r5
	eors	r0, r3
	str	r0, [sp, #108]                  @ 4-byte Spill
	ldr	r2, [sp, #196]                  @ 4-byte Reload
	mov	r3, r2
	eors	r3, r6
	mov	r6, r0
	eors	r6, r3
	str	r6, [sp, #200]                  @ 4-byte Spill
	eors	r5, r2
	ldr	r0, [sp, #192]                  @ 4-byte Reload
	eors	r4, r0
	str	r4, [sp, #188]                  @ 4-byte Spill
	mov	r2, r5
	eors	r2, r4
	str	r2, [sp, #180]                  @ 4-byte Spill
	mov	r7, r2
	eors	r7, r6
	str	r7, [sp, #152]                  @ 4-byte Spill
	ldr	r0, [sp, #204]                  @ 4-byte Reload
	ands	r7, r0
	mov	r0, r2
	ands	r0, r4
	eors	r7, r0
	mov	r6, r2
	eors	r6, r3
	ldr	r1, [sp, #232]                  @ 4-byte Reload
	eors	r3, r1
	str	r3, [sp, #208]                  @ 4-byte Spill
	mov	r1, r3
	ldr	r2, [sp, #224]                  @ 4-byte Reload
	eors	r1, r2
	str	r1, [sp, #128]                  @ 4-byte Spill
	mov	r4, r1
	ands	r4, r3
	mov	r1, r6
	str	r6, [sp, #168]                  @ 4-byte Spill
	eors	r4, r6
	ldr	r3, [sp, #112]                  @ 4-byte Reload
	ands	r1, r3
	eors	r4, r1
	eors	r4, r3
	eors	r4, r7
	mov	r6, r4
	str	r4, [sp, #236]                  @ 4-byte Spill
	ldr	r2, [sp, #216]                  @ 4-byte Reload
	mov	r3, r2
	ldr	r4, [sp, #212]                  @ 4-byte Reload
	eors	r3, r4
	str	r3, [sp, #160]                  @ 4-byte Spill
	ldr	r4, [sp, #200]                  @ 4-byte Reload
	ands	r4, r3
	eors	r4, r0
	mov	r3, r4
	str	r4, [sp, #228]                  @ 4-byte Spill
	ldr	r0, [sp, #180]                  @ 4-byte Reload
	ldr	r4, [sp, #232]                  @ 4-byte Reload
	eors	r0, r4
	str	r0, [sp, #56]                   @ 4-byte Spill
	ldr	r4, [sp, #208]                  @ 4-byte Reload
	eors	r4, r2
	str	r4, [sp, #156]                  @ 4-byte Spill
	ands	r0, r4
	ldr	r4, [sp, #168]                  @ 4-byte Reload
	eors	r0, r4
	eors	r0, r1
	eors	r0, r2
	eors	r0, r3
	mov	r1, r0
	eors	r1, r6
	str	r1, [sp, #240]                  @ 4-byte Spill
	ldr	r1, [sp, #108]                  @ 4-byte Reload
	mov	r4, r1
	ldr	r2, [sp, #172]                  @ 4-byte Reload
	ands	r4, r2
	ldr	r2, [sp, #128]                  @ 4-byte Reload
	ldr	r3, [sp, #160]                  @ 4-byte Reload
	eors	r2, r3
	mov	r3, r2
	str	r2, [sp, #148]                  @ 4-byte Spill
	mov	r2, r1
	ldr	r6, [sp, #232]                  @ 4-byte Reload
	eors	r2, r6
	str	r2, [sp, #52]                   @ 4-byte Spill
	ands	r2, r3
	eors	r2, r5
	eors	r2, r4
	eors	r2, r7
	ldr	r7, [sp, #236]                  @ 4-byte Reload
	ands	r7, r2
	ldr	r1, [sp, #208]                  @ 4-byte Reload
	ldr	r5, [sp, #192]                  @ 4-byte Reload
	eors	r1, r5
	str	r1, [sp, #60]                   @ 4-byte Spill
	mov	r5, r1
	ands	r5, r6
	ldr	r3, [sp, #160]                  @ 4-byte Reload
	eors	r5, r3
	ldr	r1, [sp, #200]                  @ 4-byte Reload
	eors	r5, r1
	eors	r5, r4
	ldr	r1, [sp, #228]                  @ 4-byte Reload
	eors	r5, r1
	mov	r6, r7
	eors	r6, r5
	ldr	r1, [sp, #240]                  @ 4-byte Reload
	ands	r6, r1
	mov	r4, r6
	eors	r4, r0
	eors	r6, r7
	ands	r6, r0
	ldr	r1, [sp, #236]                  @ 4-byte Reload
	eors	r1, r6
	str	r1, [sp, #236]                  @ 4-byte Spill
	eors	r1, r4
	str	r4, [sp, #40]                   @ 4-byte Spill
	str	r1, [sp, #184]                  @ 4-byte Spill
	eors	r2, r5
	eors	r7, r0
	eors	r6, r7
	ands	r7, r2
	eors	r7, r5
	ands	r6, r7
	eors	r6, r2
	mov	r3, r6
	eors	r3, r1
	str	r3, [sp, #116]                  @ 4-byte Spill
	mov	r5, r7
	str	r7, [sp, #176]                  @ 4-byte Spill
	eors	r5, r4
	eors	r3, r5
	ldr	r2, [sp, #152]                  @ 4-byte Reload
	ands	r2, r3
	ldr	r0, [sp, #208]                  @ 4-byte Reload
	ands	r0, r6
	mov	r4, r6
	eors	r4, r7
	str	r4, [sp, #144]                  @ 4-byte Spill
	ldr	r1, [sp, #168]                  @ 4-byte Reload
	ands	r1, r4
	str	r1, [sp, #168]                  @ 4-byte Spill
	eors	r0, r1
	str	r0, [sp, #208]                  @ 4-byte Spill
	mov	r1, r2
	eors	r1, r0
	str	r1, [sp, #152]                  @ 4-byte Spill
	ldr	r0, [sp, #180]                  @ 4-byte Reload
	ands	r0, r5
	eors	r0, r1
	mov	r1, r0
	str	r0, [sp, #180]                  @ 4-byte Spill
	ldr	r7, [sp, #136]                  @ 4-byte Reload
	lsls	r2, r7, #1
	str	r2, [sp, #68]                   @ 4-byte Spill
	ldr	r4, .Lgcm_v6m_CPI4_15
	ldrb	r0, [r4, r2]
	str	r0, [sp, #140]                  @ 4-byte Spill
	lsrs	r2, r0, #1
	movs	r0, #64
	str	r0, [sp, #240]                  @ 4-byte Spill
	ands	r2, r0
	ldr	r4, [sp, #164]                  @ 4-byte Reload
	lsls	r0, r4, #8
	str	r0, [sp, #228]                  @ 4-byte Spill
	muls	r2, r0, r2
	eors	r2, r1
	ldr	r0, [sp, #204]                  @ 4-byte Reload
	mov	r4, r3
	ands	r4, r0
	ldr	r0, [sp, #188]                  @ 4-byte Reload
	ands	r5, r0
	str	r5, [sp, #48]                   @ 4-byte Spill
	eors	r4, r5
	str	r4, [sp, #44]                   @ 4-byte Spill
	ldr	r0, [sp, #184]                  @ 4-byte Reload
	ldr	r1, [sp, #148]                  @ 4-byte Reload
	ands	r1, r0
	eors	r1, r4
	str	r1, [sp, #148]                  @ 4-byte Spill
	ldr	r0, [sp, #172]                  @ 4-byte Reload
	ldr	r3, [sp, #236]                  @ 4-byte Reload
	ands	r0, r3
	eors	r0, r1
	str	r0, [sp, #172]                  @ 4-byte Spill
	eors	r2, r0
	movs	r1, #14
	rors	r2, r1
	str	r1, [sp, #188]                  @ 4-byte Spill
	ldr	r4, .Lgcm_v6m_CPI4_16
	ands	r2, r4
	ldr	r4, [sp, #132]                  @ 4-byte Reload
	eors	r2, r4
	lsls	r0, r2, #2
	ldr	r4, .Lgcm_v6m_CPI4_17
	ands	r0, r4
	eors	r0, r2
	str	r0, [sp, #132]                  @ 4-byte Spill
	lsls	r0, r0, #4
	ldr	r2, .Lgcm_v6m_CPI4_18
	ands	r0, r2
	str	r0, [sp, #64]                   @ 4-byte Spill
	ldr	r2, [sp, #216]                  @ 4-byte Reload
	lsrs	r2, r2, #4
	ldr	r4, .Lgcm_v6m_CPI4_19
	ands	r2, r4
	orrs	r2, r0
	movs	r4, #96
	muls	r4, r7, r4
	ldr	r5, [sp, #220]                  @ 4-byte Reload
	adds	r0, r5, r4
	str	r0, [sp, #204]                  @ 4-byte Spill
	str	r2, [r0, #60]
	ldr	r3, [sp, #200]                  @ 4-byte Reload
	ldr	r0, [sp, #116]                  @ 4-byte Reload
	ands	r3, r0
	ldr	r5, [sp, #40]                   @ 4-byte Reload
	mov	r2, r5
	ldr	r0, [sp, #232]                  @ 4-byte Reload
	ands	r2, r0
	ldr	r0, [sp, #236]                  @ 4-byte Reload
	ldr	r4, [sp, #108]                  @ 4-byte Reload
	ands	r0, r4
	str	r0, [sp, #236]                  @ 4-byte Spill
	eors	r2, r0
	eors	r3, r2
	ldr	r0, [sp, #112]                  @ 4-byte Reload
	ldr	r4, [sp, #144]                  @ 4-byte Reload
	ands	r4, r0
	str	r4, [sp, #144]                  @ 4-byte Spill
	eors	r3, r4
	ldr	r0, [sp, #152]                  @ 4-byte Reload
	eors	r3, r0
	str	r3, [sp, #200]                  @ 4-byte Spill
	ldr	r0, [sp, #156]                  @ 4-byte Reload
	ldr	r4, [sp, #176]                  @ 4-byte Reload
	ands	r0, r4
	eors	r0, r3
	str	r0, [sp, #156]                  @ 4-byte Spill
	ldr	r3, [sp, #60]                   @ 4-byte Reload
	ands	r5, r3
	ldr	r3, [sp, #140]                  @ 4-byte Reload
	lsls	r4, r3, #4
	ldr	r7, [sp, #240]                  @ 4-byte Reload
	ands	r4, r7
	ldr	r7, [sp, #228]                  @ 4-byte Reload
	muls	r4, r7, r4
	eors	r4, r5
	ldr	r5, [sp, #148]                  @ 4-byte Reload
	eors	r4, r5
	eors	r4, r0
	rors	r4, r1
	ldr	r0, .Lgcm_v6m_CPI4_16
	ands	r4, r0
	ldr	r1, [sp, #88]                   @ 4-byte Reload
	eors	r4, r1
	lsls	r0, r4, #2
	ldr	r1, .Lgcm_v6m_CPI4_17
	ands	r0, r1
	eors	r0, r4
	str	r0, [sp, #152]                  @ 4-byte Spill
	lsls	r0, r0, #4
	ldr	r1, .Lgcm_v6m_CPI4_18
	ands	r0, r1
	str	r0, [sp, #60]                   @ 4-byte Spill
	ldr	r1, [sp, #212]                  @ 4-byte Reload
	lsrs	r1, r1, #4
	ldr	r4, .Lgcm_v6m_CPI4_19
	ands	r1, r4
	orrs	r1, r0
	ldr	r5, [sp, #204]                  @ 4-byte Reload
	str	r1, [r5, #40]
	ldr	r0, [sp, #56]                   @ 4-byte Reload
	ldr	r1, [sp, #176]                  @ 4-byte Reload
	ands	r1, r0
	eors	r1, r2
	ldr	r0, [sp, #168]                  @ 4-byte Reload
	eors	r1, r0
	str	r1, [sp, #176]                  @ 4-byte Spill
	ldr	r0, [sp, #128]                  @ 4-byte Reload
	ands	r6, r0
	eors	r6, r1
	ldr	r0, [sp, #44]                   @ 4-byte Reload
	eors	r6, r0
	lsls	r0, r3, #5
	mov	r2, r3
	ldr	r1, [sp, #240]                  @ 4-byte Reload
	ands	r0, r1
	mov	r3, r7
	muls	r0, r7, r0
	eors	r0, r6
	ldr	r1, [sp, #200]                  @ 4-byte Reload
	eors	r0, r1
	ldr	r4, [sp, #188]                  @ 4-byte Reload
	rors	r0, r4
	ldr	r1, .Lgcm_v6m_CPI4_16
	bics	r1, r0
	ldr	r0, [sp, #96]                   @ 4-byte Reload
	eors	r1, r0
	lsls	r0, r1, #2
	ldr	r7, .Lgcm_v6m_CPI4_17
	ands	r0, r7
	eors	r0, r1
	str	r0, [sp, #148]                  @ 4-byte Spill
	lsls	r1, r0, #4
	ldr	r0, .Lgcm_v6m_CPI4_18
	ands	r1, r0
	str	r1, [sp, #56]                   @ 4-byte Spill
	ldr	r0, [sp, #224]                  @ 4-byte Reload
	lsrs	r0, r0, #4
	ldr	r7, .Lgcm_v6m_CPI4_19
	ands	r0, r7
	orrs	r0, r1
	str	r0, [r5, #36]
	lsls	r0, r2, #31
	lsrs	r0, r0, #25
	muls	r0, r3, r0
	eors	r0, r6
	ldr	r1, [sp, #144]                  @ 4-byte Reload
	eors	r0, r1
	rors	r0, r4
	mov	r6, r4
	ldr	r1, .Lgcm_v6m_CPI4_16
	bics	r1, r0
	ldr	r0, [sp, #80]                   @ 4-byte Reload
	eors	r1, r0
	lsls	r0, r1, #2
	ldr	r4, .Lgcm_v6m_CPI4_17
	ands	r0, r4
	eors	r0, r1
	str	r0, [sp, #144]                  @ 4-byte Spill
	lsls	r1, r0, #4
	ldr	r0, .Lgcm_v6m_CPI4_18
	ands	r1, r0
	str	r1, [sp, #80]                   @ 4-byte Spill
	ldr	r0, [sp, #232]                  @ 4-byte Reload
	lsrs	r0, r0, #4
	ldr	r4, .Lgcm_v6m_CPI4_19
	ands	r0, r4
	orrs	r0, r1
	str	r0, [r5, #32]
	mov	r0, r2
	ldr	r7, [sp, #240]                  @ 4-byte Reload
	ands	r0, r7
	muls	r0, r3, r0
	ldr	r2, [sp, #180]                  @ 4-byte Reload
	eors	r0, r2
	ldr	r3, [sp, #184]                  @ 4-byte Reload
	ldr	r1, [sp, #52]                   @ 4-byte Reload
	ands	r3, r1
	ldr	r1, [sp, #236]                  @ 4-byte Reload
	eors	r3, r1
	ldr	r1, [sp, #208]                  @ 4-byte Reload
	eors	r3, r1
	ldr	r1, [sp, #172]                  @ 4-byte Reload
	eors	r3, r1
	str	r3, [sp, #184]                  @ 4-byte Spill
	eors	r0, r3
	rors	r0, r6
	ldr	r1, .Lgcm_v6m_CPI4_16
	bics	r1, r0
	ldr	r0, [sp, #84]                   @ 4-byte Reload
	eors	r1, r0
	lsls	r0, r1, #2
	ldr	r3, .Lgcm_v6m_CPI4_17
	ands	r0, r3
	eors	r0, r1
	str	r0, [sp, #128]                  @ 4-byte Spill
	lsls	r1, r0, #4
	ldr	r0, .Lgcm_v6m_CPI4_18
	ands	r1, r0
	str	r1, [sp, #84]                   @ 4-byte Spill
	ldr	r0, [sp, #196]                  @ 4-byte Reload
	lsrs	r0, r0, #4
	ldr	r3, .Lgcm_v6m_CPI4_19
	ands	r0, r3
	orrs	r0, r1
	str	r0, [r5, #56]
	ldr	r0, [sp, #160]                  @ 4-byte Reload
	ldr	r1, [sp, #116]                  @ 4-byte Reload
	ands	r1, r0
	ldr	r3, [sp, #140]                  @ 4-byte Reload
	lsls	r0, r3, #1
	ands	r0, r7
	ldr	r4, [sp, #228]                  @ 4-byte Reload
	muls	r0, r4, r0
	eors	r0, r1
	eors	r0, r2
	ldr	r1, [sp, #48]                   @ 4-byte Reload
	eors	r0, r1
	ldr	r1, [sp, #156]                  @ 4-byte Reload
	eors	r0, r1
	mov	r2, r6
	rors	r0, r6
	ldr	r1, .Lgcm_v6m_CPI4_16
	bics	r1, r0
	ldr	r0, [sp, #92]                   @ 4-byte Reload
	eors	r1, r0
	lsls	r0, r1, #2
	ldr	r6, .Lgcm_v6m_CPI4_17
	ands	r0, r6
	eors	r0, r1
	str	r0, [sp, #156]                  @ 4-byte Spill
	lsls	r1, r0, #4
	ldr	r0, .Lgcm_v6m_CPI4_18
	ands	r1, r0
	str	r1, [sp, #52]                   @ 4-byte Spill
	ldr	r0, [sp, #124]                  @ 4-byte Reload
	lsrs	r0, r0, #4
	ldr	r6, .Lgcm_v6m_CPI4_19
	ands	r0, r6
	orrs	r0, r1
	str	r0, [r5, #52]
	mov	r6, r5
	lsls	r0, r3, #2
	mov	r1, r7
	ands	r0, r7
	muls	r0, r4, r0
	ldr	r5, [sp, #184]                  @ 4-byte Reload
	eors	r0, r5
	mov	r3, r2
	rors	r0, r2
	ldr	r2, .Lgcm_v6m_CPI4_16
	ands	r0, r2
	ldr	r2, [sp, #104]                  @ 4-byte Reload
	eors	r0, r2
	lsls	r2, r0, #2
	ldr	r7, .Lgcm_v6m_CPI4_17
	ands	r2, r7
	eors	r2, r0
	str	r2, [sp, #104]                  @ 4-byte Spill
	lsls	r2, r2, #4
	ldr	r0, .Lgcm_v6m_CPI4_18
	ands	r2, r0
	str	r2, [sp, #48]                   @ 4-byte Spill
	ldr	r0, [sp, #192]                  @ 4-byte Reload
	lsrs	r0, r0, #4
	ldr	r7, .Lgcm_v6m_CPI4_19
	ands	r0, r7
	orrs	r0, r2
	str	r0, [r6, #48]
	ldr	r0, [sp, #140]                  @ 4-byte Reload
	lsls	r0, r0, #3
	ands	r0, r1
	muls	r0, r4, r0
	ldr	r1, [sp, #176]                  @ 4-byte Reload
	eors	r0, r1
	eors	r0, r5
	rors	r0, r3
	ldr	r1, .Lgcm_v6m_CPI4_16
	ands	r0, r1
	ldr	r2, [sp, #100]                  @ 4-byte Reload
	eors	r0, r2
	lsls	r3, r0, #2
	ldr	r2, .Lgcm_v6m_CPI4_17
	ands	r3, r2
	eors	r3, r0
	str	r3, [sp, #116]                  @ 4-byte Spill
	lsls	r4, r3, #4
	ldr	r3, .Lgcm_v6m_CPI4_18
	ands	r4, r3
	str	r4, [sp, #44]                   @ 4-byte Spill
	ldr	r0, [sp, #120]                  @ 4-byte Reload
	lsrs	r0, r0, #4
	ldr	r5, .Lgcm_v6m_CPI4_19
	ands	r0, r5
	orrs	r0, r4
	str	r0, [r6, #44]
	ldr	r0, [sp, #132]                  @ 4-byte Reload
	lsrs	r0, r0, #2
	ands	r0, r1
	mov	r5, r1
	ldr	r1, [sp, #216]                  @ 4-byte Reload
	eors	r0, r1
	lsls	r1, r0, #2
	ands	r1, r2
	eors	r1, r0
	lsls	r0, r1, #4
	ands	r0, r3
	eors	r0, r1
	str	r0, [sp, #176]                  @ 4-byte Spill
	str	r0, [r6, #92]
	ldr	r0, [sp, #152]                  @ 4-byte Reload
	lsrs	r0, r0, #2
	ands	r0, r5
	ldr	r1, [sp, #212]                  @ 4-byte Reload
	eors	r0, r1
	lsls	r1, r0, #2
	ands	r1, r2
	eors	r1, r0
	lsls	r0, r1, #4
	ands	r0, r3
	eors	r0, r1
	str	r0, [sp, #180]                  @ 4-byte Spill
	str	r0, [r6, #72]
	ldr	r0, [sp, #148]                  @ 4-byte Reload
	lsrs	r0, r0, #2
	ands	r0, r5
	ldr	r1, [sp, #224]                  @ 4-byte Reload
	eors	r0, r1
	lsls	r1, r0, #2
	ands	r1, r2
	eors	r1, r0
	lsls	r0, r1, #4
	ands	r0, r3
	eors	r0, r1
	str	r0, [sp, #108]                  @ 4-byte Spill
	str	r0, [r6, #68]
	ldr	r0, [sp, #144]                  @ 4-byte Reload
	lsrs	r0, r0, #2
	ands	r0, r5
	ldr	r1, [sp, #232]                  @ 4-byte Reload
	eors	r0, r1
	lsls	r1, r0, #2
	ands	r1, r2
	eors	r1, r0
	lsls	r0, r1, #4
	ands	r0, r3
	eors	r0, r1
	str	r0, [sp, #208]                  @ 4-byte Spill
	str	r0, [r6, #64]
	ldr	r0, [sp, #128]                  @ 4-byte Reload
	lsrs	r0, r0, #2
	ands	r0, r5
	mov	r4, r5
	ldr	r1, [sp, #196]                  @ 4-byte Reload
	eors	r0, r1
	lsls	r1, r0, #2
	ands	r1, r2
	eors	r1, r0
	lsls	r7, r1, #4
	ands	r7, r3
	eors	r7, r1
	str	r7, [r6, #88]
	mov	r5, r6
	str	r7, [sp, #112]                  @ 4-byte Spill
	ldr	r0, [sp, #156]                  @ 4-byte Reload
	lsrs	r0, r0, #2
	mov	r3, r4
	ands	r0, r4
	ldr	r1, [sp, #124]                  @ 4-byte Reload
	eors	r0, r1
	lsls	r1, r0, #2
	ands	r1, r2
	mov	r4, r2
	eors	r1, r0
	lsls	r0, r1, #4
	ldr	r6, .Lgcm_v6m_CPI4_18
	ands	r0, r6
	eors	r0, r1
	str	r0, [r5, #84]
	mov	r2, r0
	str	r0, [sp, #36]                   @ 4-byte Spill
	ldr	r0, [sp, #104]                  @ 4-byte Reload
	lsrs	r0, r0, #2
	ands	r0, r3
	ldr	r1, [sp, #192]                  @ 4-byte Reload
	eors	r0, r1
	lsls	r1, r0, #2
	ands	r1, r4
	eors	r1, r0
	lsls	r0, r1, #4
	ands	r0, r6
	mov	r3, r6
	eors	r0, r1
	str	r0, [r5, #80]
	mov	r6, r0
	str	r0, [sp, #140]                  @ 4-byte Spill
	ldr	r0, [sp, #116]                  @ 4-byte Reload
	lsrs	r0, r0, #2
	ldr	r1, .Lgcm_v6m_CPI4_16
	ands	r0, r1
	ldr	r1, [sp, #120]                  @ 4-byte Reload
	eors	r0, r1
	lsls	r1, r0, #2
	ands	r1, r4
	eors	r1, r0
	lsls	r4, r1, #4
	ands	r4, r3
	eors	r4, r1
	str	r4, [r5, #76]
	str	r4, [sp, #40]                   @ 4-byte Spill
	eors	r7, r2
	str	r7, [sp, #236]                  @ 4-byte Spill
	ldr	r0, [sp, #208]                  @ 4-byte Reload
	eors	r7, r0
	str	r7, [sp, #224]                  @ 4-byte Spill
	mov	r3, r7
	ldr	r5, [sp, #108]                  @ 4-byte Reload
	eors	r3, r5
	str	r3, [sp, #120]                  @ 4-byte Spill
	ands	r3, r7
	ldr	r0, [sp, #176]                  @ 4-byte Reload
	eors	r5, r0
	mov	r2, r6
	mov	r7, r6
	ldr	r6, [sp, #180]                  @ 4-byte Reload
	eors	r2, r6
	str	r2, [sp, #96]                   @ 4-byte Spill
	mov	r1, r5
	eors	r1, r2
	mov	r2, r1
	str	r1, [sp, #192]                  @ 4-byte Spill
	eors	r2, r4
	mov	r4, r2
	ldr	r1, [sp, #112]                  @ 4-byte Reload
	eors	r4, r1
	str	r4, [sp, #216]                  @ 4-byte Spill
	eors	r7, r0
	str	r7, [sp, #92]                   @ 4-byte Spill
	mov	r0, r4
	eors	r0, r7
	str	r0, [sp, #200]                  @ 4-byte Spill
	mov	r1, r0
	ldr	r7, [sp, #236]                  @ 4-byte Reload
	eors	r1, r7
	str	r1, [sp, #184]                  @ 4-byte Spill
	mov	r0, r3
	eors	r0, r1
	mov	r3, r1
	str	r5, [sp, #24]                   @ 4-byte Spill
	ands	r3, r5
	eors	r0, r3
	eors	r0, r5
	mov	r4, r0
	eors	r2, r6
	str	r2, [sp, #88]                   @ 4-byte Spill
	mov	r0, r7
	eors	r0, r2
	str	r0, [sp, #236]                  @ 4-byte Spill
	ldr	r2, [sp, #200]                  @ 4-byte Reload
	mov	r7, r2
	eors	r7, r0
	str	r7, [sp, #168]                  @ 4-byte Spill
	ldr	r0, [sp, #96]                   @ 4-byte Reload
	ands	r7, r0
	mov	r5, r2
	ldr	r0, [sp, #92]                   @ 4-byte Reload
	ands	r5, r0
	eors	r7, r5
	mov	r6, r4
	eors	r6, r7
	str	r6, [sp, #232]                  @ 4-byte Spill
	ldr	r4, [sp, #224]                  @ 4-byte Reload
	ldr	r0, [sp, #176]                  @ 4-byte Reload
	eors	r4, r0
	str	r4, [sp, #172]                  @ 4-byte Spill
	ldr	r1, [sp, #208]                  @ 4-byte Reload
	eors	r2, r1
	str	r2, [sp, #28]                   @ 4-byte Spill
	ands	r2, r4
	ldr	r4, [sp, #184]                  @ 4-byte Reload
	eors	r2, r4
	eors	r2, r3
	eors	r2, r0
	ldr	r3, [sp, #180]                  @ 4-byte Reload
	eors	r0, r3
	ldr	r4, [sp, #236]                  @ 4-byte Reload
	ands	r4, r0
	b	.Lgcm_v6m_BB4_16
	.p2align	2
@ %bb.11:
.Lgcm_v6m_CPI4_15:
	.long	.Lgcm_v6m_static.0
	.p2align	2
@ %bb.12:
.Lgcm_v6m_CPI4_16:
	.long	50529027                        @ 0x3030303
	.p2align	2
@ %bb.13:
.Lgcm_v6m_CPI4_17:
	.long	4244438268                      @ 0xfcfcfcfc
	.p2align	2
@ %bb.14:
.Lgcm_v6m_CPI4_18:
	.long	4042322160                      @ 0xf0f0f0f0
	.p2align	2
@ %bb.15:
.Lgcm_v6m_CPI4_19:
	.long	252645135                       @ 0xf0f0f0f
	.p2align	1
.Lgcm_v6m_BB4_16:                               @ %join.5.i164.i
                                        @   in Loop: Header=BB4_10 Depth=1
	str	r0, [sp, #124]                  @ 4-byte Spill
	eors	r4, r5
	eors	r2, r4
	mov	r1, r2
	eors	r1, r6
	str	r1, [sp, #212]                  @ 4-byte Spill
	ldr	r5, [sp, #88]                   @ 4-byte Reload
	mov	r1, r5
	ldr	r3, [sp, #192]                  @ 4-byte Reload
	ands	r1, r3
	str	r1, [sp, #196]                  @ 4-byte Spill
	ldr	r3, [sp, #120]                  @ 4-byte Reload
	eors	r3, r0
	mov	r0, r3
	str	r3, [sp, #160]                  @ 4-byte Spill
	mov	r3, r5
	ldr	r6, [sp, #208]                  @ 4-byte Reload
	eors	r3, r6
	str	r3, [sp, #32]                   @ 4-byte Spill
	ands	r3, r0
	ldr	r0, [sp, #216]                  @ 4-byte Reload
	eors	r3, r0
	eors	r3, r1
	eors	r3, r7
	ldr	r5, [sp, #232]                  @ 4-byte Reload
	ands	r5, r3
	ldr	r1, [sp, #224]                  @ 4-byte Reload
	ldr	r0, [sp, #140]                  @ 4-byte Reload
	eors	r1, r0
	str	r1, [sp, #20]                   @ 4-byte Spill
	mov	r0, r1
	ands	r0, r6
	ldr	r6, [sp, #124]                  @ 4-byte Reload
	eors	r0, r6
	ldr	r1, [sp, #236]                  @ 4-byte Reload
	eors	r0, r1
	ldr	r1, [sp, #196]                  @ 4-byte Reload
	eors	r0, r1
	eors	r0, r4
	mov	r7, r5
	eors	r7, r0
	ldr	r1, [sp, #212]                  @ 4-byte Reload
	ands	r7, r1
	mov	r1, r7
	eors	r1, r2
	eors	r7, r5
	ands	r7, r2
	ldr	r4, [sp, #232]                  @ 4-byte Reload
	eors	r4, r7
	str	r4, [sp, #232]                  @ 4-byte Spill
	eors	r4, r1
	str	r1, [sp, #16]                   @ 4-byte Spill
	str	r4, [sp, #216]                  @ 4-byte Spill
	eors	r3, r0
	eors	r5, r2
	eors	r7, r5
	ands	r5, r3
	eors	r5, r0
	ands	r7, r5
	eors	r7, r3
	mov	r2, r7
	eors	r2, r4
	str	r2, [sp, #100]                  @ 4-byte Spill
	mov	r0, r5
	str	r5, [sp, #196]                  @ 4-byte Spill
	eors	r0, r1
	eors	r2, r0
	mov	r6, r0
	ldr	r3, [sp, #168]                  @ 4-byte Reload
	ands	r3, r2
	ldr	r0, [sp, #224]                  @ 4-byte Reload
	ands	r0, r7
	mov	r4, r7
	eors	r4, r5
	ldr	r1, [sp, #184]                  @ 4-byte Reload
	ands	r1, r4
	str	r1, [sp, #184]                  @ 4-byte Spill
	eors	r0, r1
	str	r0, [sp, #224]                  @ 4-byte Spill
	mov	r1, r3
	eors	r1, r0
	str	r1, [sp, #168]                  @ 4-byte Spill
	ldr	r0, [sp, #200]                  @ 4-byte Reload
	ands	r0, r6
	eors	r0, r1
	mov	r1, r0
	str	r0, [sp, #200]                  @ 4-byte Spill
	ldr	r0, .Lgcm_v6m_CPI4_20
	ldr	r3, [sp, #68]                   @ 4-byte Reload
	adds	r0, r0, r3
	ldrb	r0, [r0, #1]
	str	r0, [sp, #212]                  @ 4-byte Spill
	lsrs	r3, r0, #1
	ldr	r0, [sp, #240]                  @ 4-byte Reload
	ands	r3, r0
	ldr	r0, [sp, #228]                  @ 4-byte Reload
	muls	r3, r0, r3
	eors	r3, r1
	ldr	r0, [sp, #96]                   @ 4-byte Reload
	ands	r2, r0
	ldr	r0, [sp, #92]                   @ 4-byte Reload
	ands	r6, r0
	str	r6, [sp, #92]                   @ 4-byte Spill
	eors	r2, r6
	str	r2, [sp, #96]                   @ 4-byte Spill
	ldr	r0, [sp, #216]                  @ 4-byte Reload
	ldr	r1, [sp, #160]                  @ 4-byte Reload
	ands	r1, r0
	eors	r1, r2
	str	r1, [sp, #160]                  @ 4-byte Spill
	ldr	r0, [sp, #192]                  @ 4-byte Reload
	ldr	r6, [sp, #232]                  @ 4-byte Reload
	ands	r0, r6
	eors	r0, r1
	str	r0, [sp, #192]                  @ 4-byte Spill
	eors	r3, r0
	ldr	r0, [sp, #188]                  @ 4-byte Reload
	rors	r3, r0
	ldr	r0, .Lgcm_v6m_CPI4_21
	ands	r3, r0
	ldr	r0, [sp, #64]                   @ 4-byte Reload
	orrs	r3, r0
	ldr	r0, [sp, #132]                  @ 4-byte Reload
	eors	r3, r0
	lsls	r0, r3, #2
	ldr	r1, .Lgcm_v6m_CPI4_22
	ands	r0, r1
	eors	r0, r3
	str	r0, [sp, #68]                   @ 4-byte Spill
	lsls	r3, r0, #4
	ldr	r1, .Lgcm_v6m_CPI4_23
	ands	r3, r1
	eors	r3, r0
	str	r3, [sp, #132]                  @ 4-byte Spill
	ldr	r0, [sp, #204]                  @ 4-byte Reload
	str	r3, [r0, #124]
	ldr	r0, [sp, #100]                  @ 4-byte Reload
	ldr	r5, [sp, #236]                  @ 4-byte Reload
	ands	r5, r0
	ldr	r2, [sp, #16]                   @ 4-byte Reload
	mov	r3, r2
	ldr	r0, [sp, #208]                  @ 4-byte Reload
	ands	r3, r0
	mov	r0, r6
	ldr	r1, [sp, #88]                   @ 4-byte Reload
	ands	r0, r1
	str	r0, [sp, #232]                  @ 4-byte Spill
	eors	r3, r0
	eors	r5, r3
	ldr	r0, [sp, #24]                   @ 4-byte Reload
	ands	r4, r0
	str	r4, [sp, #64]                   @ 4-byte Spill
	eors	r5, r4
	ldr	r0, [sp, #168]                  @ 4-byte Reload
	eors	r5, r0
	str	r5, [sp, #236]                  @ 4-byte Spill
	ldr	r0, [sp, #172]                  @ 4-byte Reload
	ldr	r1, [sp, #196]                  @ 4-byte Reload
	ands	r0, r1
	eors	r0, r5
	mov	r1, r0
	str	r0, [sp, #172]                  @ 4-byte Spill
	ldr	r0, [sp, #20]                   @ 4-byte Reload
	mov	r4, r2
	ands	r4, r0
	ldr	r0, [sp, #212]                  @ 4-byte Reload
	lsls	r0, r0, #4
	ldr	r2, [sp, #240]                  @ 4-byte Reload
	ands	r0, r2
	ldr	r6, [sp, #228]                  @ 4-byte Reload
	muls	r0, r6, r0
	eors	r0, r4
	ldr	r4, [sp, #160]                  @ 4-byte Reload
	eors	r0, r4
	eors	r0, r1
	ldr	r5, [sp, #188]                  @ 4-byte Reload
	rors	r0, r5
	ldr	r4, .Lgcm_v6m_CPI4_21
	ands	r0, r4
	ldr	r4, [sp, #60]                   @ 4-byte Reload
	orrs	r0, r4
	ldr	r4, [sp, #152]                  @ 4-byte Reload
	eors	r0, r4
	lsls	r4, r0, #2
	ldr	r1, .Lgcm_v6m_CPI4_22
	ands	r4, r1
	eors	r4, r0
	lsls	r0, r4, #4
	mov	r1, r4
	str	r4, [sp, #168]                  @ 4-byte Spill
	ldr	r4, .Lgcm_v6m_CPI4_23
	ands	r0, r4
	eors	r0, r1
	str	r0, [sp, #88]                   @ 4-byte Spill
	ldr	r1, [sp, #204]                  @ 4-byte Reload
	str	r0, [r1, #104]
	ldr	r0, [sp, #196]                  @ 4-byte Reload
	ldr	r1, [sp, #28]                   @ 4-byte Reload
	ands	r0, r1
	eors	r0, r3
	ldr	r1, [sp, #184]                  @ 4-byte Reload
	eors	r0, r1
	str	r0, [sp, #196]                  @ 4-byte Spill
	ldr	r1, [sp, #120]                  @ 4-byte Reload
	ands	r7, r1
	eors	r7, r0
	ldr	r0, [sp, #96]                   @ 4-byte Reload
	eors	r7, r0
	ldr	r0, [sp, #212]                  @ 4-byte Reload
	lsls	r0, r0, #5
	ands	r0, r2
	muls	r0, r6, r0
	eors	r0, r7
	ldr	r1, [sp, #236]                  @ 4-byte Reload
	eors	r0, r1
	mov	r4, r5
	rors	r0, r5
	ldr	r2, .Lgcm_v6m_CPI4_21
	bics	r2, r0
	ldr	r0, [sp, #56]                   @ 4-byte Reload
	orrs	r2, r0
	ldr	r0, [sp, #148]                  @ 4-byte Reload
	eors	r2, r0
	lsls	r3, r2, #2
	ldr	r0, .Lgcm_v6m_CPI4_22
	ands	r3, r0
	eors	r3, r2
	str	r3, [sp, #184]                  @ 4-byte Spill
	lsls	r0, r3, #4
	ldr	r1, .Lgcm_v6m_CPI4_23
	ands	r0, r1
	eors	r0, r3
	ldr	r5, [sp, #204]                  @ 4-byte Reload
	str	r0, [sp, #96]                   @ 4-byte Spill
	str	r0, [r5, #100]
	ldr	r3, [sp, #212]                  @ 4-byte Reload
	lsls	r0, r3, #31
	lsrs	r0, r0, #25
	mov	r2, r6
	muls	r0, r6, r0
	eors	r0, r7
	ldr	r1, [sp, #64]                   @ 4-byte Reload
	eors	r0, r1
	rors	r0, r4
	mov	r7, r4
	ldr	r1, .Lgcm_v6m_CPI4_21
	bics	r1, r0
	ldr	r0, [sp, #80]                   @ 4-byte Reload
	orrs	r1, r0
	ldr	r0, [sp, #144]                  @ 4-byte Reload
	eors	r1, r0
	lsls	r4, r1, #2
	ldr	r0, .Lgcm_v6m_CPI4_22
	ands	r4, r0
	eors	r4, r1
	str	r4, [sp, #236]                  @ 4-byte Spill
	lsls	r0, r4, #4
	ldr	r1, .Lgcm_v6m_CPI4_23
	ands	r0, r1
	eors	r0, r4
	str	r0, [sp, #80]                   @ 4-byte Spill
	str	r0, [r5, #96]
	mov	r6, r5
	mov	r5, r3
	mov	r1, r3
	ldr	r0, [sp, #240]                  @ 4-byte Reload
	ands	r1, r0
	muls	r1, r2, r1
	ldr	r3, [sp, #200]                  @ 4-byte Reload
	eors	r1, r3
	ldr	r2, [sp, #216]                  @ 4-byte Reload
	ldr	r4, [sp, #32]                   @ 4-byte Reload
	ands	r2, r4
	ldr	r4, [sp, #232]                  @ 4-byte Reload
	eors	r2, r4
	ldr	r4, [sp, #224]                  @ 4-byte Reload
	eors	r2, r4
	ldr	r4, [sp, #192]                  @ 4-byte Reload
	eors	r2, r4
	str	r2, [sp, #216]                  @ 4-byte Spill
	eors	r1, r2
	rors	r1, r7
	ldr	r2, .Lgcm_v6m_CPI4_21
	bics	r2, r1
	ldr	r1, [sp, #84]                   @ 4-byte Reload
	orrs	r2, r1
	ldr	r1, [sp, #128]                  @ 4-byte Reload
	eors	r2, r1
	lsls	r4, r2, #2
	ldr	r1, .Lgcm_v6m_CPI4_22
	ands	r4, r1
	eors	r4, r2
	lsls	r1, r4, #4
	ldr	r2, .Lgcm_v6m_CPI4_23
	ands	r1, r2
	eors	r1, r4
	str	r1, [sp, #84]                   @ 4-byte Spill
	str	r1, [r6, #120]
	ldr	r1, [sp, #124]                  @ 4-byte Reload
	ldr	r2, [sp, #100]                  @ 4-byte Reload
	ands	r2, r1
	lsls	r1, r5, #1
	ands	r1, r0
	ldr	r6, [sp, #228]                  @ 4-byte Reload
	muls	r1, r6, r1
	eors	r1, r2
	eors	r1, r3
	ldr	r2, [sp, #92]                   @ 4-byte Reload
	eors	r1, r2
	ldr	r0, [sp, #172]                  @ 4-byte Reload
	eors	r1, r0
	rors	r1, r7
	ldr	r2, .Lgcm_v6m_CPI4_21
	bics	r2, r1
	ldr	r1, [sp, #52]                   @ 4-byte Reload
	orrs	r2, r1
	ldr	r1, [sp, #156]                  @ 4-byte Reload
	eors	r2, r1
	lsls	r5, r2, #2
	ldr	r0, .Lgcm_v6m_CPI4_22
	ands	r5, r0
	eors	r5, r2
	lsls	r1, r5, #4
	ldr	r0, .Lgcm_v6m_CPI4_23
	ands	r1, r0
	eors	r1, r5
	str	r1, [sp, #92]                   @ 4-byte Spill
	ldr	r3, [sp, #204]                  @ 4-byte Reload
	str	r1, [r3, #116]
	ldr	r0, [sp, #212]                  @ 4-byte Reload
	lsls	r1, r0, #2
	ldr	r0, [sp, #240]                  @ 4-byte Reload
	ands	r1, r0
	muls	r1, r6, r1
	ldr	r2, [sp, #216]                  @ 4-byte Reload
	eors	r1, r2
	rors	r1, r7
	ldr	r7, .Lgcm_v6m_CPI4_21
	ands	r1, r7
	ldr	r2, [sp, #48]                   @ 4-byte Reload
	orrs	r1, r2
	ldr	r2, [sp, #104]                  @ 4-byte Reload
	eors	r1, r2
	lsls	r2, r1, #2
	ldr	r6, .Lgcm_v6m_CPI4_22
	ands	r2, r6
	eors	r2, r1
	lsls	r1, r2, #4
	ldr	r6, .Lgcm_v6m_CPI4_23
	ands	r1, r6
	eors	r1, r2
	str	r1, [sp, #104]                  @ 4-byte Spill
	str	r1, [r3, #112]
	ldr	r1, [sp, #212]                  @ 4-byte Reload
	lsls	r6, r1, #3
	ands	r6, r0
	ldr	r0, [sp, #228]                  @ 4-byte Reload
	muls	r6, r0, r6
	ldr	r0, [sp, #196]                  @ 4-byte Reload
	eors	r6, r0
	ldr	r0, [sp, #216]                  @ 4-byte Reload
	eors	r6, r0
	ldr	r0, [sp, #188]                  @ 4-byte Reload
	rors	r6, r0
	ands	r6, r7
	ldr	r0, [sp, #44]                   @ 4-byte Reload
	orrs	r6, r0
	ldr	r0, [sp, #116]                  @ 4-byte Reload
	eors	r6, r0
	lsls	r1, r6, #2
	ldr	r0, .Lgcm_v6m_CPI4_22
	ands	r1, r0
	eors	r1, r6
	lsls	r6, r1, #4
	ldr	r7, .Lgcm_v6m_CPI4_23
	ands	r6, r7
	eors	r6, r1
	str	r6, [sp, #100]                  @ 4-byte Spill
	str	r6, [r3, #108]
	ldr	r3, [sp, #184]                  @ 4-byte Reload
	lsrs	r3, r3, #2
	ldr	r6, .Lgcm_v6m_CPI4_21
	ands	r3, r6
	ldr	r6, [sp, #108]                  @ 4-byte Reload
	eors	r3, r6
	lsls	r6, r3, #2
	ands	r6, r0
	eors	r6, r3
	lsls	r0, r6, #4
	ands	r0, r7
	eors	r0, r6
	str	r0, [sp, #224]                  @ 4-byte Spill
	lsrs	r3, r4, #2
	ldr	r6, .Lgcm_v6m_CPI4_21
	ands	r3, r6
	ldr	r0, [sp, #112]                  @ 4-byte Reload
	eors	r3, r0
	lsls	r4, r3, #2
	ldr	r0, .Lgcm_v6m_CPI4_22
	ands	r4, r0
	eors	r4, r3
	lsls	r0, r4, #4
	ands	r0, r7
	eors	r0, r4
	str	r0, [sp, #196]                  @ 4-byte Spill
	lsrs	r3, r5, #2
	ands	r3, r6
	mov	r5, r6
	ldr	r0, [sp, #36]                   @ 4-byte Reload
	eors	r3, r0
	lsls	r4, r3, #2
	ldr	r0, .Lgcm_v6m_CPI4_22
	ands	r4, r0
	eors	r4, r3
	lsls	r6, r4, #4
	ands	r6, r7
	eors	r6, r4
	ldr	r3, [sp, #68]                   @ 4-byte Reload
	lsrs	r3, r3, #2
	ands	r3, r5
	ldr	r4, [sp, #176]                  @ 4-byte Reload
	eors	r3, r4
	lsls	r4, r3, #2
	ands	r4, r0
	eors	r4, r3
	lsls	r0, r4, #4
	ands	r0, r7
	eors	r0, r4
	str	r0, [sp, #216]                  @ 4-byte Spill
	ldr	r0, [sp, #168]                  @ 4-byte Reload
	lsrs	r3, r0, #2
	ands	r3, r5
	ldr	r0, [sp, #180]                  @ 4-byte Reload
	eors	r3, r0
	lsls	r4, r3, #2
	ldr	r0, .Lgcm_v6m_CPI4_22
	ands	r4, r0
	eors	r4, r3
	lsls	r0, r4, #4
	ands	r0, r7
	eors	r0, r4
	str	r0, [sp, #212]                  @ 4-byte Spill
	ldr	r0, [sp, #236]                  @ 4-byte Reload
	lsrs	r0, r0, #2
	ands	r0, r5
	mov	r7, r5
	ldr	r3, [sp, #208]                  @ 4-byte Reload
	eors	r0, r3
	lsls	r3, r0, #2
	ldr	r5, .Lgcm_v6m_CPI4_22
	ands	r3, r5
	eors	r3, r0
	lsls	r0, r3, #4
	ldr	r4, .Lgcm_v6m_CPI4_23
	ands	r0, r4
	eors	r0, r3
	str	r0, [sp, #232]                  @ 4-byte Spill
	ldr	r3, [sp, #76]                   @ 4-byte Reload
	lsrs	r0, r2, #2
	ands	r0, r7
	ldr	r2, [sp, #140]                  @ 4-byte Reload
	eors	r0, r2
	lsls	r2, r0, #2
	ands	r2, r5
	mov	r7, r5
	eors	r2, r0
	lsls	r5, r2, #4
	ands	r5, r4
	eors	r5, r2
	lsrs	r0, r1, #2
	ldr	r1, .Lgcm_v6m_CPI4_21
	ands	r0, r1
	ldr	r1, [sp, #40]                   @ 4-byte Reload
	eors	r0, r1
	lsls	r1, r0, #2
	ands	r1, r7
	eors	r1, r0
	lsls	r7, r1, #4
	ands	r7, r4
	eors	r7, r1
	ldr	r1, [sp, #136]                  @ 4-byte Reload
	adds	r0, r1, #1
	ldr	r2, [sp, #12]                   @ 4-byte Reload
	adcs	r3, r2
	subs	r1, r1, #3
	ldr	r1, [sp, #72]                   @ 4-byte Reload
	sbcs	r1, r2
	str	r0, [sp, #136]                  @ 4-byte Spill
	mov	r0, r3
	bhs	.Lgcm_v6m_BB4_17
	bl	.Lgcm_v6m_BB4_10
.Lgcm_v6m_BB4_17:                               @ %join.5.i164.i
	bl	.Lgcm_v6m_BB4_33
	.p2align	2
@ %bb.18:
.Lgcm_v6m_CPI4_20:
	.long	.Lgcm_v6m_static.0
	.p2align	2
@ %bb.19:
.Lgcm_v6m_CPI4_21:
	.long	50529027                        @ 0x3030303
	.p2align	2
@ %bb.20:
.Lgcm_v6m_CPI4_22:
	.long	4244438268                      @ 0xfcfcfcfc
	.p2align	2
@ %bb.21:
.Lgcm_v6m_CPI4_23:
	.long	4042322160                      @ 0xf0f0f0f0
	.p2align	1
.Lgcm_v6m_BB4_22:                               @ %else.5.i
	lsls	r0, r0, #7
	adds	r0, r4, r0
	str	r0, [sp, #80]                   @ 4-byte Spill
	movs	r0, #7
	lsls	r0, r0, #6
	adds	r0, r4, r0
	str	r0, [sp, #84]                   @ 4-byte Spill
	add	r0, sp, #244
	mov	r7, r1
	bl	gcm_v6m.aes_planes.soft.word.word32.U32Word.in_every_slot
	ldr	r0, [sp, #244]
	str	r0, [sp, #240]                  @ 4-byte Spill
	ldr	r0, [sp, #248]
	str	r0, [sp, #228]                  @ 4-byte Spill
	ldr	r0, [sp, #252]
	str	r0, [sp, #212]                  @ 4-byte Spill
	ldr	r0, [sp, #256]
	str	r0, [sp, #208]                  @ 4-byte Spill
	ldr	r0, [sp, #260]
	str	r0, [sp, #204]                  @ 4-byte Spill
	ldr	r0, [sp, #264]
	str	r0, [sp, #200]                  @ 4-byte Spill
	ldr	r0, [sp, #268]
	str	r0, [sp, #196]                  @ 4-byte Spill
	ldr	r0, [sp, #272]
	str	r0, [sp, #188]                  @ 4-byte Spill
	adds	r7, #16
	add	r0, sp, #244
	mov	r1, r7
	bl	gcm_v6m.aes_planes.soft.word.word32.U32Word.in_every_slot
	ldr	r1, [sp, #244]
	ldr	r5, [sp, #248]
	ldr	r0, [sp, #252]
	str	r0, [sp, #236]                  @ 4-byte Spill
	ldr	r2, [sp, #256]
	ldr	r3, [sp, #260]
	ldr	r7, [sp, #264]
	ldr	r0, [sp, #268]
	ldr	r6, [sp, #272]
	str	r1, [sp, #232]                  @ 4-byte Spill
	str	r1, [r4, #32]
	str	r5, [sp, #216]                  @ 4-byte Spill
	str	r5, [r4, #36]
	ldr	r1, [sp, #236]                  @ 4-byte Reload
	str	r1, [r4, #40]
	str	r2, [r4, #44]
	str	r3, [sp, #224]                  @ 4-byte Spill
	str	r3, [r4, #48]
	str	r7, [r4, #52]
	str	r0, [r4, #56]
	str	r6, [sp, #192]                  @ 4-byte Spill
	str	r6, [r4, #60]
	ldr	r1, [sp, #240]                  @ 4-byte Reload
	str	r1, [r4]
	ldr	r1, [sp, #228]                  @ 4-byte Reload
	str	r1, [r4, #4]
	ldr	r1, [sp, #212]                  @ 4-byte Reload
	str	r1, [r4, #8]
	ldr	r1, [sp, #208]                  @ 4-byte Reload
	str	r1, [r4, #12]
	ldr	r1, [sp, #204]                  @ 4-byte Reload
	str	r1, [r4, #16]
	ldr	r1, [sp, #200]                  @ 4-byte Reload
	str	r1, [r4, #20]
	ldr	r1, [sp, #196]                  @ 4-byte Reload
	str	r1, [r4, #24]
	ldr	r1, [sp, #188]                  @ 4-byte Reload
	str	r1, [r4, #28]
	movs	r1, #0
	str	r1, [sp, #168]                  @ 4-byte Spill
	str	r1, [sp, #88]                   @ 4-byte Spill
	mov	r3, r1
.Lgcm_v6m_BB4_23:                               @ %join.5.i348.i
                                        @ =>This Inner Loop Header: Depth=1
	str	r1, [sp, #132]                  @ 4-byte Spill
	str	r3, [sp, #136]                  @ 4-byte Spill
	ldr	r4, [sp, #224]                  @ 4-byte Reload
	ldr	r5, [sp, #236]                  @ 4-byte Reload
	eors	r4, r5
	str	r4, [sp, #156]                  @ 4-byte Spill
	str	r5, [sp, #236]                  @ 4-byte Spill
	ldr	r6, [sp, #192]                  @ 4-byte Reload
	mov	r3, r6
	str	r6, [sp, #192]                  @ 4-byte Spill
	ldr	r1, [sp, #216]                  @ 4-byte Reload
	eors	r3, r1
	str	r3, [sp, #152]                  @ 4-byte Spill
	mov	r1, r3
	eors	r1, r4
	str	r1, [sp, #200]                  @ 4-byte Spill
	eors	r2, r1
	mov	r1, r2
	eors	r1, r5
	str	r1, [sp, #148]                  @ 4-byte Spill
	eors	r7, r0
	mov	r3, r1
	eors	r3, r7
	str	r3, [sp, #212]                  @ 4-byte Spill
	eors	r2, r0
	str	r2, [sp, #188]                  @ 4-byte Spill
	ldr	r1, [sp, #224]                  @ 4-byte Reload
	eors	r6, r1
	mov	r4, r2
	eors	r4, r6
	str	r4, [sp, #208]                  @ 4-byte Spill
	str	r6, [sp, #140]                  @ 4-byte Spill
	mov	r0, r4
	eors	r0, r3
	str	r0, [sp, #176]                  @ 4-byte Spill
	ldr	r1, [sp, #156]                  @ 4-byte Reload
	ands	r0, r1
	mov	r1, r4
	ands	r1, r6
	eors	r0, r1
	mov	r6, r0
	str	r0, [sp, #204]                  @ 4-byte Spill
	mov	r5, r4
	eors	r5, r7
	ldr	r0, [sp, #232]                  @ 4-byte Reload
	eors	r7, r0
	ldr	r4, [sp, #216]                  @ 4-byte Reload
	eors	r4, r7
	str	r4, [sp, #216]                  @ 4-byte Spill
	ands	r4, r7
	eors	r4, r5
	mov	r3, r5
	str	r5, [sp, #196]                  @ 4-byte Spill
	ldr	r0, [sp, #152]                  @ 4-byte Reload
	ands	r3, r0
	eors	r4, r3
	eors	r4, r0
	eors	r4, r6
	str	r4, [sp, #240]                  @ 4-byte Spill
	ldr	r4, [sp, #236]                  @ 4-byte Reload
	ldr	r2, [sp, #192]                  @ 4-byte Reload
	eors	r4, r2
	ldr	r6, [sp, #212]                  @ 4-byte Reload
	ands	r6, r4
	eors	r6, r1
	ldr	r1, [sp, #208]                  @ 4-byte Reload
	ldr	r0, [sp, #232]                  @ 4-byte Reload
	eors	r1, r0
	str	r1, [sp, #120]                  @ 4-byte Spill
	mov	r0, r7
	eors	r0, r2
	str	r0, [sp, #180]                  @ 4-byte Spill
	ands	r1, r0
	eors	r1, r5
	eors	r1, r3
	eors	r1, r2
	eors	r1, r6
	mov	r5, r4
	str	r4, [sp, #236]                  @ 4-byte Spill
	mov	r2, r1
	ldr	r0, [sp, #240]                  @ 4-byte Reload
	eors	r2, r0
	str	r2, [sp, #192]                  @ 4-byte Spill
	ldr	r0, [sp, #148]                  @ 4-byte Reload
	mov	r4, r0
	ldr	r3, [sp, #200]                  @ 4-byte Reload
	ands	r4, r3
	ldr	r3, [sp, #216]                  @ 4-byte Reload
	eors	r3, r5
	str	r3, [sp, #228]                  @ 4-byte Spill
	mov	r5, r0
	ldr	r3, [sp, #232]                  @ 4-byte Reload
	eors	r5, r3
	str	r5, [sp, #128]                  @ 4-byte Spill
	ldr	r0, [sp, #228]                  @ 4-byte Reload
	ands	r5, r0
	ldr	r0, [sp, #188]                  @ 4-byte Reload
	eors	r5, r0
	eors	r5, r4
	ldr	r0, [sp, #204]                  @ 4-byte Reload
	eors	r5, r0
	mov	r2, r7
	str	r7, [sp, #184]                  @ 4-byte Spill
	ldr	r7, [sp, #240]                  @ 4-byte Reload
	ands	r7, r5
	ldr	r0, [sp, #224]                  @ 4-byte Reload
	eors	r0, r2
	str	r0, [sp, #224]                  @ 4-byte Spill
	ands	r0, r3
	ldr	r2, [sp, #236]                  @ 4-byte Reload
	eors	r0, r2
	ldr	r2, [sp, #212]                  @ 4-byte Reload
	eors	r0, r2
	eors	r0, r4
	eors	r0, r6
	mov	r2, r7
	eors	r2, r0
	ldr	r3, [sp, #192]                  @ 4-byte Reload
	ands	r2, r3
	mov	r6, r2
	eors	r6, r1
	eors	r2, r7
	ands	r2, r1
	ldr	r3, [sp, #240]                  @ 4-byte Reload
	eors	r3, r2
	str	r3, [sp, #240]                  @ 4-byte Spill
	mov	r4, r3
	eors	r4, r6
	mov	r3, r6
	str	r6, [sp, #104]                  @ 4-byte Spill
	str	r4, [sp, #204]                  @ 4-byte Spill
	eors	r5, r0
	eors	r7, r1
	eors	r2, r7
	ands	r7, r5
	eors	r7, r0
	ands	r2, r7
	eors	r2, r5
	mov	r6, r2
	eors	r6, r4
	str	r6, [sp, #160]                  @ 4-byte Spill
	mov	r0, r7
	str	r7, [sp, #192]                  @ 4-byte Spill
	eors	r0, r3
	eors	r6, r0
	mov	r5, r0
	ldr	r3, [sp, #176]                  @ 4-byte Reload
	ands	r3, r6
	ldr	r0, [sp, #184]                  @ 4-byte Reload
	ands	r0, r2
	mov	r4, r2
	eors	r4, r7
	str	r4, [sp, #172]                  @ 4-byte Spill
	ldr	r1, [sp, #196]                  @ 4-byte Reload
	ands	r1, r4
	str	r1, [sp, #196]                  @ 4-byte Spill
	eors	r0, r1
	str	r0, [sp, #184]                  @ 4-byte Spill
	eors	r3, r0
	str	r3, [sp, #176]                  @ 4-byte Spill
	ldr	r4, [sp, #208]                  @ 4-byte Reload
	ands	r4, r5
	eors	r4, r3
	str	r4, [sp, #208]                  @ 4-byte Spill
	ldr	r1, .Lgcm_v6m_CPI4_24
	ldr	r7, [sp, #168]                  @ 4-byte Reload
	ldrb	r0, [r1, r7]
	str	r0, [sp, #188]                  @ 4-byte Spill
	lsrs	r1, r0, #1
	movs	r0, #64
	str	r0, [sp, #144]                  @ 4-byte Spill
	ands	r1, r0
	ldr	r3, [sp, #164]                  @ 4-byte Reload
	lsls	r0, r3, #8
	str	r0, [sp, #100]                  @ 4-byte Spill
	muls	r1, r0, r1
	eors	r1, r4
	ldr	r0, [sp, #156]                  @ 4-byte Reload
	ands	r6, r0
	ldr	r0, [sp, #140]                  @ 4-byte Reload
	ands	r5, r0
	str	r5, [sp, #124]                  @ 4-byte Spill
	eors	r6, r5
	str	r6, [sp, #108]                  @ 4-byte Spill
	ldr	r0, [sp, #204]                  @ 4-byte Reload
	ldr	r4, [sp, #228]                  @ 4-byte Reload
	ands	r4, r0
	eors	r4, r6
	str	r4, [sp, #228]                  @ 4-byte Spill
	ldr	r0, [sp, #200]                  @ 4-byte Reload
	ldr	r3, [sp, #240]                  @ 4-byte Reload
	ands	r0, r3
	eors	r0, r4
	str	r0, [sp, #200]                  @ 4-byte Spill
	eors	r1, r0
	movs	r0, #14
	str	r0, [sp, #140]                  @ 4-byte Spill
	rors	r1, r0
	ldr	r3, .Lgcm_v6m_CPI4_25
	ands	r1, r3
	lsls	r0, r7, #6
	str	r0, [sp, #112]                  @ 4-byte Spill
	ldr	r3, [sp, #220]                  @ 4-byte Reload
	adds	r4, r3, r0
	ldr	r3, [r4, #28]
	eors	r3, r1
	lsls	r1, r3, #2
	ldr	r5, .Lgcm_v6m_CPI4_26
	ands	r1, r5
	eors	r1, r3
	lsls	r0, r1, #4
	ldr	r3, .Lgcm_v6m_CPI4_27
	ands	r0, r3
	eors	r0, r1
	str	r0, [sp, #156]                  @ 4-byte Spill
	str	r0, [r4, #92]
	ldr	r5, [sp, #212]                  @ 4-byte Reload
	ldr	r0, [sp, #160]                  @ 4-byte Reload
	ands	r5, r0
	ldr	r0, [sp, #232]                  @ 4-byte Reload
	ldr	r6, [sp, #104]                  @ 4-byte Reload
	ands	r0, r6
	ldr	r1, [sp, #240]                  @ 4-byte Reload
	ldr	r3, [sp, #148]                  @ 4-byte Reload
	ands	r1, r3
	str	r1, [sp, #240]                  @ 4-byte Spill
	eors	r0, r1
	str	r0, [sp, #232]                  @ 4-byte Spill
	eors	r5, r0
	ldr	r1, [sp, #152]                  @ 4-byte Reload
	ldr	r0, [sp, #172]                  @ 4-byte Reload
	ands	r0, r1
	str	r0, [sp, #172]                  @ 4-byte Spill
	eors	r5, r0
	ldr	r0, [sp, #176]                  @ 4-byte Reload
	eors	r5, r0
	str	r5, [sp, #212]                  @ 4-byte Spill
	ldr	r1, [sp, #180]                  @ 4-byte Reload
	ldr	r0, [sp, #192]                  @ 4-byte Reload
	ands	r1, r0
	eors	r1, r5
	mov	r3, r1
	str	r1, [sp, #180]                  @ 4-byte Spill
	ldr	r1, [sp, #224]                  @ 4-byte Reload
	ands	r6, r1
	ldr	r1, [sp, #188]                  @ 4-byte Reload
	lsls	r1, r1, #4
	ldr	r7, [sp, #144]                  @ 4-byte Reload
	ands	r1, r7
	ldr	r5, [sp, #100]                  @ 4-byte Reload
	muls	r1, r5, r1
	eors	r1, r6
	ldr	r0, [sp, #228]                  @ 4-byte Reload
	eors	r1, r0
	eors	r1, r3
	ldr	r6, [sp, #140]                  @ 4-byte Reload
	rors	r1, r6
	ldr	r3, .Lgcm_v6m_CPI4_25
	ands	r1, r3
	ldr	r3, [r4, #8]
	eors	r3, r1
	lsls	r1, r3, #2
	ldr	r0, .Lgcm_v6m_CPI4_26
	ands	r1, r0
	eors	r1, r3
	lsls	r3, r1, #4
	ldr	r0, .Lgcm_v6m_CPI4_27
	ands	r3, r0
	eors	r3, r1
	str	r3, [sp, #228]                  @ 4-byte Spill
	str	r3, [r4, #72]
	ldr	r1, [sp, #120]                  @ 4-byte Reload
	ldr	r3, [sp, #192]                  @ 4-byte Reload
	ands	r3, r1
	ldr	r0, [sp, #232]                  @ 4-byte Reload
	eors	r3, r0
	ldr	r0, [sp, #196]                  @ 4-byte Reload
	eors	r3, r0
	str	r3, [sp, #192]                  @ 4-byte Spill
	ldr	r0, [sp, #216]                  @ 4-byte Reload
	ands	r2, r0
	eors	r2, r3
	ldr	r0, [sp, #108]                  @ 4-byte Reload
	eors	r2, r0
	ldr	r3, [sp, #188]                  @ 4-byte Reload
	lsls	r0, r3, #5
	ands	r0, r7
	muls	r0, r5, r0
	eors	r0, r2
	ldr	r1, [sp, #212]                  @ 4-byte Reload
	eors	r0, r1
	rors	r0, r6
	ldr	r1, .Lgcm_v6m_CPI4_25
	bics	r1, r0
	ldr	r0, [r4, #4]
	eors	r0, r1
	lsls	r1, r0, #2
	ldr	r7, .Lgcm_v6m_CPI4_26
	ands	r1, r7
	eors	r1, r0
	lsls	r0, r1, #4
	ldr	r7, .Lgcm_v6m_CPI4_27
	ands	r0, r7
	eors	r0, r1
	str	r0, [sp, #232]                  @ 4-byte Spill
	str	r0, [r4, #68]
	lsls	r0, r3, #31
	lsrs	r0, r0, #25
	muls	r0, r5, r0
	eors	r0, r2
	ldr	r1, [sp, #172]                  @ 4-byte Reload
	eors	r0, r1
	rors	r0, r6
	ldr	r1, .Lgcm_v6m_CPI4_25
	bics	r1, r0
	ldr	r0, [sp, #112]                  @ 4-byte Reload
	ldr	r2, [sp, #220]                  @ 4-byte Reload
	ldr	r0, [r2, r0]
	eors	r0, r1
	lsls	r1, r0, #2
	ldr	r2, .Lgcm_v6m_CPI4_26
	ands	r1, r2
	eors	r1, r0
	lsls	r0, r1, #4
	mov	r2, r7
	ands	r0, r7
	eors	r0, r1
	str	r0, [sp, #196]                  @ 4-byte Spill
	str	r0, [r4, #64]
	mov	r0, r3
	ldr	r7, [sp, #144]                  @ 4-byte Reload
	ands	r0, r7
	muls	r0, r5, r0
	ldr	r1, [sp, #208]                  @ 4-byte Reload
	eors	r0, r1
	ldr	r1, [sp, #204]                  @ 4-byte Reload
	ldr	r3, [sp, #128]                  @ 4-byte Reload
	ands	r1, r3
	ldr	r3, [sp, #240]                  @ 4-byte Reload
	eors	r1, r3
	ldr	r3, [sp, #184]                  @ 4-byte Reload
	eors	r1, r3
	ldr	r3, [sp, #200]                  @ 4-byte Reload
	eors	r1, r3
	str	r1, [sp, #204]                  @ 4-byte Spill
	eors	r0, r1
	rors	r0, r6
	ldr	r1, .Lgcm_v6m_CPI4_25
	bics	r1, r0
	ldr	r0, [r4, #24]
	eors	r0, r1
	lsls	r1, r0, #2
	ldr	r3, .Lgcm_v6m_CPI4_26
	ands	r1, r3
	eors	r1, r0
	lsls	r0, r1, #4
	ands	r0, r2
	eors	r0, r1
	str	r0, [sp, #176]                  @ 4-byte Spill
	str	r0, [r4, #88]
	mov	r2, r4
	ldr	r0, [sp, #236]                  @ 4-byte Reload
	ldr	r1, [sp, #160]                  @ 4-byte Reload
	ands	r1, r0
	ldr	r3, [sp, #188]                  @ 4-byte Reload
	lsls	r0, r3, #1
	mov	r4, r7
	ands	r0, r7
	muls	r0, r5, r0
	eors	r0, r1
	ldr	r1, [sp, #208]                  @ 4-byte Reload
	eors	r0, r1
	ldr	r1, [sp, #124]                  @ 4-byte Reload
	eors	r0, r1
	ldr	r1, [sp, #180]                  @ 4-byte Reload
	eors	r0, r1
	mov	r7, r6
	rors	r0, r6
	ldr	r1, .Lgcm_v6m_CPI4_25
	bics	r1, r0
	ldr	r0, [r2, #20]
	eors	r0, r1
	lsls	r1, r0, #2
	ldr	r6, .Lgcm_v6m_CPI4_26
	ands	r1, r6
	eors	r1, r0
	lsls	r0, r1, #4
	ldr	r6, .Lgcm_v6m_CPI4_27
	ands	r0, r6
	eors	r0, r1
	str	r0, [sp, #240]                  @ 4-byte Spill
	str	r0, [r2, #84]
	lsls	r0, r3, #2
	ands	r0, r4
	muls	r0, r5, r0
	ldr	r3, [sp, #204]                  @ 4-byte Reload
	eors	r0, r3
	rors	r0, r7
	ldr	r1, .Lgcm_v6m_CPI4_25
	ands	r0, r1
	ldr	r1, [r2, #16]
	eors	r1, r0
	lsls	r0, r1, #2
	ldr	r6, .Lgcm_v6m_CPI4_26
	ands	r0, r6
	eors	r0, r1
	lsls	r1, r0, #4
	ldr	r6, .Lgcm_v6m_CPI4_27
	ands	r1, r6
	eors	r1, r0
	str	r1, [sp, #216]                  @ 4-byte Spill
	str	r1, [r2, #80]
	str	r2, [sp, #116]                  @ 4-byte Spill
	ldr	r0, [sp, #188]                  @ 4-byte Reload
	lsls	r0, r0, #3
	ands	r0, r4
	muls	r0, r5, r0
	ldr	r1, [sp, #192]                  @ 4-byte Reload
	eors	r0, r1
	eors	r0, r3
	rors	r0, r7
	ldr	r1, .Lgcm_v6m_CPI4_25
	ands	r0, r1
	ldr	r1, [r2, #12]
	eors	r1, r0
	lsls	r0, r1, #2
	ldr	r3, .Lgcm_v6m_CPI4_26
	ands	r0, r3
	eors	r0, r1
	lsls	r5, r0, #4
	ldr	r3, .Lgcm_v6m_CPI4_27
	ands	r5, r3
	eors	r5, r0
	str	r5, [r2, #76]
	ldr	r0, [sp, #240]                  @ 4-byte Reload
	ldr	r3, [sp, #176]                  @ 4-byte Reload
	eors	r0, r3
	str	r0, [sp, #240]                  @ 4-byte Spill
	mov	r1, r0
	ldr	r0, [sp, #196]                  @ 4-byte Reload
	eors	r1, r0
	str	r1, [sp, #236]                  @ 4-byte Spill
	mov	r6, r1
	ldr	r0, [sp, #232]                  @ 4-byte Reload
	eors	r6, r0
	str	r6, [sp, #160]                  @ 4-byte Spill
	ands	r6, r1
	ldr	r7, [sp, #156]                  @ 4-byte Reload
	eors	r0, r7
	str	r0, [sp, #232]                  @ 4-byte Spill
	ldr	r4, [sp, #216]                  @ 4-byte Reload
	mov	r2, r4
	ldr	r1, [sp, #228]                  @ 4-byte Reload
	eors	r2, r1
	mov	r1, r2
	str	r2, [sp, #192]                  @ 4-byte Spill
	mov	r2, r0
	eors	r2, r1
	str	r2, [sp, #224]                  @ 4-byte Spill
	eors	r5, r2
	eors	r3, r5
	str	r3, [sp, #176]                  @ 4-byte Spill
	mov	r1, r4
	eors	r1, r7
	mov	r0, r3
	eors	r0, r1
	mov	r7, r1
	str	r1, [sp, #144]                  @ 4-byte Spill
	mov	r4, r0
	mov	r1, r0
	ldr	r2, [sp, #240]                  @ 4-byte Reload
	eors	r4, r2
	str	r4, [sp, #204]                  @ 4-byte Spill
	eors	r6, r4
	ldr	r3, [sp, #232]                  @ 4-byte Reload
	ands	r4, r3
	eors	r6, r4
	eors	r6, r3
	ldr	r0, [sp, #228]                  @ 4-byte Reload
	eors	r5, r0
	str	r5, [sp, #152]                  @ 4-byte Spill
	eors	r2, r5
	str	r2, [sp, #240]                  @ 4-byte Spill
	mov	r5, r1
	str	r1, [sp, #212]                  @ 4-byte Spill
	mov	r3, r1
	eors	r3, r2
	str	r3, [sp, #184]                  @ 4-byte Spill
	ldr	r0, [sp, #192]                  @ 4-byte Reload
	ands	r3, r0
	ands	r1, r7
	eors	r3, r1
	eors	r6, r3
	str	r6, [sp, #200]                  @ 4-byte Spill
	ldr	r0, [sp, #236]                  @ 4-byte Reload
	ldr	r7, [sp, #156]                  @ 4-byte Reload
	eors	r0, r7
	str	r0, [sp, #188]                  @ 4-byte Spill
	mov	r2, r5
	ldr	r5, [sp, #196]                  @ 4-byte Reload
	eors	r2, r5
	str	r2, [sp, #148]                  @ 4-byte Spill
	mov	r5, r2
	ands	r5, r0
	ldr	r0, [sp, #204]                  @ 4-byte Reload
	eors	r5, r0
	eors	r5, r4
	eors	r5, r7
	ldr	r0, [sp, #228]                  @ 4-byte Reload
	eors	r0, r7
	ldr	r7, [sp, #240]                  @ 4-byte Reload
	ands	r7, r0
	str	r0, [sp, #228]                  @ 4-byte Spill
	eors	r7, r1
	eors	r5, r7
	mov	r1, r5
	eors	r1, r6
	str	r1, [sp, #208]                  @ 4-byte Spill
	ldr	r6, [sp, #152]                  @ 4-byte Reload
	mov	r4, r6
	ldr	r1, [sp, #224]                  @ 4-byte Reload
	ands	r4, r1
	ldr	r2, [sp, #160]                  @ 4-byte Reload
	eors	r2, r0
	str	r2, [sp, #172]                  @ 4-byte Spill
	mov	r0, r6
	ldr	r1, [sp, #196]                  @ 4-byte Reload
	eors	r0, r1
	str	r0, [sp, #120]                  @ 4-byte Spill
	ands	r0, r2
	ldr	r2, [sp, #176]                  @ 4-byte Reload
	eors	r0, r2
	eors	r0, r4
	eors	r0, r3
	ldr	r6, [sp, #200]                  @ 4-byte Reload
	ands	r6, r0
	ldr	r3, [sp, #216]                  @ 4-byte Reload
	ldr	r2, [sp, #236]                  @ 4-byte Reload
	eors	r3, r2
	str	r3, [sp, #216]                  @ 4-byte Spill
	ands	r3, r1
	ldr	r2, [sp, #228]                  @ 4-byte Reload
	eors	r3, r2
	ldr	r2, [sp, #240]                  @ 4-byte Reload
	eors	r3, r2
	eors	r3, r4
	eors	r3, r7
	mov	r7, r6
	eors	r7, r3
	ldr	r1, [sp, #208]                  @ 4-byte Reload
	ands	r7, r1
	mov	r1, r7
	eors	r1, r5
	eors	r7, r6
	ands	r7, r5
	ldr	r2, [sp, #200]                  @ 4-byte Reload
	eors	r2, r7
	str	r2, [sp, #200]                  @ 4-byte Spill
	eors	r2, r1
	str	r2, [sp, #208]                  @ 4-byte Spill
	str	r1, [sp, #100]                  @ 4-byte Spill
	eors	r0, r3
	eors	r6, r5
	eors	r7, r6
	ands	r6, r0
	eors	r6, r3
	ands	r7, r6
	eors	r7, r0
	mov	r0, r7
	eors	r0, r2
	str	r0, [sp, #176]                  @ 4-byte Spill
	mov	r3, r6
	eors	r3, r1
	mov	r1, r0
	eors	r1, r3
	ldr	r5, [sp, #184]                  @ 4-byte Reload
	ands	r5, r1
	ldr	r2, [sp, #236]                  @ 4-byte Reload
	ands	r2, r7
	mov	r4, r7
	eors	r4, r6
	str	r4, [sp, #180]                  @ 4-byte Spill
	ldr	r0, [sp, #204]                  @ 4-byte Reload
	ands	r0, r4
	str	r0, [sp, #204]                  @ 4-byte Spill
	eors	r2, r0
	str	r2, [sp, #236]                  @ 4-byte Spill
	eors	r5, r2
	str	r5, [sp, #184]                  @ 4-byte Spill
	ldr	r0, [sp, #212]                  @ 4-byte Reload
	ands	r0, r3
	eors	r0, r5
	mov	r2, r0
	str	r0, [sp, #212]                  @ 4-byte Spill
	ldr	r0, [sp, #192]                  @ 4-byte Reload
	ands	r1, r0
	ldr	r0, [sp, #144]                  @ 4-byte Reload
	ands	r3, r0
	str	r3, [sp, #128]                  @ 4-byte Spill
	eors	r1, r3
	str	r1, [sp, #112]                  @ 4-byte Spill
	ldr	r0, [sp, #172]                  @ 4-byte Reload
	ldr	r3, [sp, #208]                  @ 4-byte Reload
	ands	r0, r3
	eors	r0, r1
	str	r0, [sp, #172]                  @ 4-byte Spill
	ldr	r1, [sp, #224]                  @ 4-byte Reload
	ldr	r4, [sp, #200]                  @ 4-byte Reload
	ands	r1, r4
	eors	r1, r0
	str	r1, [sp, #224]                  @ 4-byte Spill
	mov	r0, r1
	eors	r0, r2
	lsrs	r3, r0, #6
	ldr	r0, .Lgcm_v6m_CPI4_25
	ands	r3, r0
	ldr	r5, [sp, #116]                  @ 4-byte Reload
	ldr	r1, [r5, #36]
	str	r1, [sp, #104]                  @ 4-byte Spill
	ldr	r1, [r5, #40]
	str	r1, [sp, #96]                   @ 4-byte Spill
	ldr	r2, [r5, #44]
	str	r2, [sp, #144]                  @ 4-byte Spill
	ldr	r1, [r5, #48]
	str	r1, [sp, #92]                   @ 4-byte Spill
	ldr	r2, [r5, #52]
	str	r2, [sp, #124]                  @ 4-byte Spill
	ldr	r2, [r5, #56]
	str	r2, [sp, #156]                  @ 4-byte Spill
	ldr	r0, [r5, #60]
	eors	r0, r3
	lsls	r3, r0, #2
	ldr	r2, .Lgcm_v6m_CPI4_26
	ands	r3, r2
	eors	r3, r0
	lsls	r0, r3, #4
	ldr	r2, .Lgcm_v6m_CPI4_27
	ands	r0, r2
	eors	r0, r3
	ldr	r1, [r5, #32]
	str	r1, [sp, #108]                  @ 4-byte Spill
	str	r0, [sp, #192]                  @ 4-byte Spill
	str	r0, [r5, #124]
	ldr	r0, [sp, #208]                  @ 4-byte Reload
	ldr	r1, [sp, #120]                  @ 4-byte Reload
	ands	r0, r1
	ldr	r1, [sp, #152]                  @ 4-byte Reload
	ands	r4, r1
	eors	r0, r4
	ldr	r1, [sp, #236]                  @ 4-byte Reload
	eors	r0, r1
	ldr	r1, [sp, #224]                  @ 4-byte Reload
	eors	r0, r1
	str	r0, [sp, #208]                  @ 4-byte Spill
	lsrs	r0, r0, #6
	ldr	r3, .Lgcm_v6m_CPI4_25
	ands	r0, r3
	ldr	r1, [sp, #92]                   @ 4-byte Reload
	eors	r0, r1
	lsls	r3, r0, #2
	ldr	r1, .Lgcm_v6m_CPI4_26
	ands	r3, r1
	eors	r3, r0
	lsls	r0, r3, #4
	ldr	r1, .Lgcm_v6m_CPI4_27
	ands	r0, r1
	eors	r0, r3
	str	r0, [sp, #224]                  @ 4-byte Spill
	b	.Lgcm_v6m_BB4_28
	.p2align	2
@ %bb.24:
.Lgcm_v6m_CPI4_24:
	.long	.Lgcm_v6m_static.0
	.p2align	2
@ %bb.25:
.Lgcm_v6m_CPI4_25:
	.long	50529027                        @ 0x3030303
	.p2align	2
@ %bb.26:
.Lgcm_v6m_CPI4_26:
	.long	4244438268                      @ 0xfcfcfcfc
	.p2align	2
@ %bb.27:
.Lgcm_v6m_CPI4_27:
	.long	4042322160                      @ 0xf0f0f0f0
	.p2align	1
.Lgcm_v6m_BB4_28:                               @ %join.5.i348.i
                                        @   in Loop: Header=BB4_23 Depth=1
	str	r0, [r5, #112]
	ldr	r2, [sp, #240]                  @ 4-byte Reload
	ldr	r0, [sp, #176]                  @ 4-byte Reload
	ands	r2, r0
	ldr	r3, [sp, #196]                  @ 4-byte Reload
	ldr	r1, [sp, #100]                  @ 4-byte Reload
	ands	r3, r1
	eors	r3, r4
	eors	r2, r3
	ldr	r0, [sp, #232]                  @ 4-byte Reload
	ldr	r4, [sp, #180]                  @ 4-byte Reload
	ands	r4, r0
	str	r4, [sp, #180]                  @ 4-byte Spill
	eors	r2, r4
	ldr	r0, [sp, #184]                  @ 4-byte Reload
	eors	r2, r0
	ldr	r0, [sp, #188]                  @ 4-byte Reload
	ands	r0, r6
	eors	r0, r2
	str	r0, [sp, #188]                  @ 4-byte Spill
	ldr	r4, [sp, #216]                  @ 4-byte Reload
	ands	r1, r4
	ldr	r4, [sp, #172]                  @ 4-byte Reload
	eors	r1, r4
	eors	r1, r0
	lsrs	r0, r1, #6
	ldr	r1, .Lgcm_v6m_CPI4_28
	ands	r0, r1
	ldr	r1, [sp, #96]                   @ 4-byte Reload
	eors	r0, r1
	lsls	r1, r0, #2
	ldr	r4, .Lgcm_v6m_CPI4_29
	ands	r1, r4
	eors	r1, r0
	lsls	r0, r1, #4
	ldr	r4, .Lgcm_v6m_CPI4_30
	ands	r0, r4
	eors	r0, r1
	mov	r4, r5
	str	r0, [sp, #236]                  @ 4-byte Spill
	str	r0, [r5, #104]
	ldr	r0, [sp, #148]                  @ 4-byte Reload
	ands	r6, r0
	eors	r6, r3
	ldr	r0, [sp, #204]                  @ 4-byte Reload
	eors	r6, r0
	ldr	r0, [sp, #160]                  @ 4-byte Reload
	ands	r7, r0
	eors	r7, r6
	ldr	r0, [sp, #112]                  @ 4-byte Reload
	eors	r7, r0
	eors	r2, r7
	mvns	r0, r2
	lsrs	r0, r0, #6
	ldr	r5, .Lgcm_v6m_CPI4_28
	ands	r0, r5
	ldr	r1, [sp, #104]                  @ 4-byte Reload
	eors	r0, r1
	lsls	r1, r0, #2
	ldr	r2, .Lgcm_v6m_CPI4_29
	ands	r1, r2
	eors	r1, r0
	lsls	r0, r1, #4
	ldr	r2, .Lgcm_v6m_CPI4_30
	ands	r0, r2
	eors	r0, r1
	str	r0, [sp, #216]                  @ 4-byte Spill
	str	r0, [r4, #100]
	mov	r3, r4
	ldr	r0, [sp, #180]                  @ 4-byte Reload
	eors	r7, r0
	mvns	r0, r7
	lsrs	r0, r0, #6
	ands	r0, r5
	mov	r4, r5
	ldr	r1, [sp, #108]                  @ 4-byte Reload
	eors	r0, r1
	lsls	r1, r0, #2
	ldr	r7, .Lgcm_v6m_CPI4_29
	ands	r1, r7
	eors	r1, r0
	lsls	r0, r1, #4
	ands	r0, r2
	eors	r0, r1
	str	r0, [sp, #232]                  @ 4-byte Spill
	str	r0, [r3, #96]
	ldr	r0, [sp, #228]                  @ 4-byte Reload
	ldr	r1, [sp, #176]                  @ 4-byte Reload
	ands	r1, r0
	ldr	r0, [sp, #128]                  @ 4-byte Reload
	eors	r1, r0
	ldr	r0, [sp, #212]                  @ 4-byte Reload
	eors	r1, r0
	ldr	r0, [sp, #188]                  @ 4-byte Reload
	eors	r1, r0
	mvns	r0, r1
	ldr	r5, [sp, #136]                  @ 4-byte Reload
	lsrs	r0, r0, #6
	ands	r0, r4
	ldr	r1, [sp, #124]                  @ 4-byte Reload
	eors	r0, r1
	lsls	r1, r0, #2
	ands	r1, r7
	mov	r2, r7
	eors	r1, r0
	lsls	r7, r1, #4
	ldr	r0, .Lgcm_v6m_CPI4_30
	ands	r7, r0
	eors	r7, r1
	str	r7, [r3, #116]
	ldr	r4, [sp, #208]                  @ 4-byte Reload
	eors	r6, r4
	lsrs	r0, r6, #6
	ldr	r6, .Lgcm_v6m_CPI4_28
	ands	r0, r6
	ldr	r1, [sp, #144]                  @ 4-byte Reload
	eors	r0, r1
	lsls	r1, r0, #2
	ands	r1, r2
	eors	r1, r0
	lsls	r2, r1, #4
	ldr	r0, .Lgcm_v6m_CPI4_30
	ands	r2, r0
	eors	r2, r1
	str	r2, [r3, #108]
	ldr	r0, [sp, #212]                  @ 4-byte Reload
	mov	r1, r4
	eors	r1, r0
	mvns	r0, r1
	lsrs	r0, r0, #6
	ands	r0, r6
	ldr	r1, [sp, #156]                  @ 4-byte Reload
	eors	r0, r1
	lsls	r1, r0, #2
	ldr	r4, .Lgcm_v6m_CPI4_29
	ands	r1, r4
	eors	r1, r0
	lsls	r0, r1, #4
	ldr	r4, .Lgcm_v6m_CPI4_30
	ands	r0, r4
	eors	r0, r1
	str	r0, [r3, #120]
	ldr	r3, [sp, #168]                  @ 4-byte Reload
	adds	r1, r3, #1
	ldr	r4, [sp, #88]                   @ 4-byte Reload
	adcs	r5, r4
	subs	r3, r3, #5
	ldr	r3, [sp, #132]                  @ 4-byte Reload
	sbcs	r3, r4
	str	r1, [sp, #168]                  @ 4-byte Spill
	mov	r3, r5
	mov	r1, r5
	bhs	.Lgcm_v6m_BB4_32
	b	.Lgcm_v6m_BB4_23
	.p2align	2
@ %bb.29:
.Lgcm_v6m_CPI4_28:
	.long	50529027                        @ 0x3030303
	.p2align	2
@ %bb.30:
.Lgcm_v6m_CPI4_29:
	.long	4244438268                      @ 0xfcfcfcfc
	.p2align	2
@ %bb.31:
.Lgcm_v6m_CPI4_30:
	.long	4042322160                      @ 0xf0f0f0f0
	.p2align	1
.Lgcm_v6m_BB4_32:                               @ %after.1.i.i
	ldr	r3, [sp, #224]                  @ 4-byte Reload
	ldr	r4, [sp, #236]                  @ 4-byte Reload
	eors	r3, r4
	str	r3, [sp, #160]                  @ 4-byte Spill
	ldr	r1, [sp, #192]                  @ 4-byte Reload
	mov	r6, r1
	mov	r5, r1
	ldr	r1, [sp, #216]                  @ 4-byte Reload
	eors	r6, r1
	str	r6, [sp, #152]                  @ 4-byte Spill
	mov	r1, r6
	eors	r1, r3
	str	r1, [sp, #172]                  @ 4-byte Spill
	eors	r2, r1
	mov	r1, r2
	eors	r1, r4
	str	r1, [sp, #212]                  @ 4-byte Spill
	eors	r7, r0
	mov	r3, r1
	eors	r3, r7
	mov	r1, r3
	str	r3, [sp, #228]                  @ 4-byte Spill
	eors	r2, r0
	mov	r0, r5
	ldr	r3, [sp, #224]                  @ 4-byte Reload
	eors	r0, r3
	str	r0, [sp, #188]                  @ 4-byte Spill
	mov	r3, r2
	eors	r3, r0
	str	r3, [sp, #168]                  @ 4-byte Spill
	mov	r5, r3
	eors	r5, r1
	str	r5, [sp, #180]                  @ 4-byte Spill
	ldr	r6, [sp, #160]                  @ 4-byte Reload
	ands	r5, r6
	mov	r6, r3
	ands	r6, r0
	eors	r5, r6
	str	r5, [sp, #204]                  @ 4-byte Spill
	mov	r0, r3
	eors	r0, r7
	ldr	r1, [sp, #232]                  @ 4-byte Reload
	eors	r7, r1
	ldr	r3, [sp, #216]                  @ 4-byte Reload
	eors	r3, r7
	str	r3, [sp, #216]                  @ 4-byte Spill
	str	r7, [sp, #184]                  @ 4-byte Spill
	ands	r3, r7
	str	r0, [sp, #208]                  @ 4-byte Spill
	eors	r3, r0
	mov	r1, r0
	ldr	r0, [sp, #152]                  @ 4-byte Reload
	ands	r1, r0
	eors	r3, r1
	eors	r3, r0
	eors	r3, r5
	str	r3, [sp, #240]                  @ 4-byte Spill
	ldr	r0, [sp, #192]                  @ 4-byte Reload
	eors	r4, r0
	str	r4, [sp, #236]                  @ 4-byte Spill
	ldr	r5, [sp, #228]                  @ 4-byte Reload
	ands	r5, r4
	eors	r5, r6
	ldr	r6, [sp, #168]                  @ 4-byte Reload
	ldr	r7, [sp, #232]                  @ 4-byte Reload
	eors	r6, r7
	str	r6, [sp, #196]                  @ 4-byte Spill
	ldr	r7, [sp, #184]                  @ 4-byte Reload
	eors	r7, r0
	mov	r4, r0
	str	r7, [sp, #144]                  @ 4-byte Spill
	ands	r6, r7
	ldr	r0, [sp, #208]                  @ 4-byte Reload
	eors	r6, r0
	eors	r6, r1
	eors	r6, r4
	eors	r6, r5
	mov	r0, r6
	eors	r0, r3
	str	r0, [sp, #200]                  @ 4-byte Spill
	ldr	r0, [sp, #212]                  @ 4-byte Reload
	mov	r3, r0
	ldr	r4, [sp, #172]                  @ 4-byte Reload
	ands	r3, r4
	ldr	r7, [sp, #216]                  @ 4-byte Reload
	ldr	r1, [sp, #236]                  @ 4-byte Reload
	eors	r7, r1
	str	r7, [sp, #192]                  @ 4-byte Spill
	mov	r4, r0
	ldr	r1, [sp, #232]                  @ 4-byte Reload
	eors	r4, r1
	str	r4, [sp, #148]                  @ 4-byte Spill
	ands	r4, r7
	eors	r4, r2
	eors	r4, r3
	ldr	r0, [sp, #204]                  @ 4-byte Reload
	eors	r4, r0
	ldr	r7, [sp, #240]                  @ 4-byte Reload
	ands	r7, r4
	ldr	r0, [sp, #224]                  @ 4-byte Reload
	ldr	r2, [sp, #184]                  @ 4-byte Reload
	eors	r0, r2
	str	r0, [sp, #224]                  @ 4-byte Spill
	ands	r0, r1
	ldr	r1, [sp, #236]                  @ 4-byte Reload
	eors	r0, r1
	ldr	r2, [sp, #228]                  @ 4-byte Reload
	eors	r0, r2
	eors	r0, r3
	eors	r0, r5
	mov	r5, r7
	eors	r5, r0
	ldr	r1, [sp, #200]                  @ 4-byte Reload
	ands	r5, r1
	mov	r1, r5
	eors	r1, r6
	eors	r5, r7
	ands	r5, r6
	ldr	r2, [sp, #240]                  @ 4-byte Reload
	eors	r2, r5
	str	r2, [sp, #240]                  @ 4-byte Spill
	mov	r3, r2
	eors	r3, r1
	str	r3, [sp, #156]                  @ 4-byte Spill
	eors	r4, r0
	eors	r7, r6
	eors	r5, r7
	ands	r7, r4
	eors	r7, r0
	ands	r5, r7
	eors	r5, r4
	mov	r6, r5
	eors	r6, r3
	str	r7, [sp, #200]                  @ 4-byte Spill
	mov	r2, r7
	mov	r3, r1
	str	r1, [sp, #136]                  @ 4-byte Spill
	eors	r2, r1
	str	r2, [sp, #204]                  @ 4-byte Spill
	mov	r0, r6
	eors	r0, r2
	str	r0, [sp, #176]                  @ 4-byte Spill
	ldr	r1, [sp, #180]                  @ 4-byte Reload
	ands	r1, r0
	ldr	r0, [sp, #184]                  @ 4-byte Reload
	ands	r0, r5
	mov	r2, r5
	eors	r2, r7
	ldr	r4, [sp, #208]                  @ 4-byte Reload
	ands	r4, r2
	str	r4, [sp, #208]                  @ 4-byte Spill
	eors	r0, r4
	str	r0, [sp, #184]                  @ 4-byte Spill
	eors	r1, r0
	mov	r7, r1
	str	r1, [sp, #180]                  @ 4-byte Spill
	ldr	r1, [sp, #228]                  @ 4-byte Reload
	ands	r1, r6
	ldr	r4, [sp, #232]                  @ 4-byte Reload
	ands	r4, r3
	ldr	r0, [sp, #212]                  @ 4-byte Reload
	ldr	r3, [sp, #240]                  @ 4-byte Reload
	ands	r0, r3
	str	r0, [sp, #212]                  @ 4-byte Spill
	eors	r4, r0
	mov	r3, r1
	eors	r3, r4
	ldr	r0, [sp, #152]                  @ 4-byte Reload
	ands	r2, r0
	eors	r3, r2
	eors	r3, r7
	str	r3, [sp, #228]                  @ 4-byte Spill
	ldr	r0, [sp, #160]                  @ 4-byte Reload
	ldr	r1, [sp, #176]                  @ 4-byte Reload
	ands	r1, r0
	ldr	r0, [sp, #188]                  @ 4-byte Reload
	ldr	r7, [sp, #204]                  @ 4-byte Reload
	ands	r0, r7
	str	r0, [sp, #188]                  @ 4-byte Spill
	eors	r1, r0
	mov	r7, r1
	str	r1, [sp, #176]                  @ 4-byte Spill
	ldr	r0, [sp, #196]                  @ 4-byte Reload
	ldr	r1, [sp, #200]                  @ 4-byte Reload
	ands	r0, r1
	eors	r0, r4
	ldr	r1, [sp, #208]                  @ 4-byte Reload
	eors	r0, r1
	str	r0, [sp, #196]                  @ 4-byte Spill
	ldr	r1, [sp, #216]                  @ 4-byte Reload
	ands	r5, r1
	eors	r5, r0
	eors	r5, r7
	mov	r4, r5
	eors	r4, r3
	ldr	r0, [sp, #140]                  @ 4-byte Reload
	rors	r4, r0
	ldr	r0, .Lgcm_v6m_CPI4_31
	bics	r0, r4
	ldr	r7, [sp, #80]                   @ 4-byte Reload
	ldr	r4, [r7, #4]
	eors	r4, r0
	lsls	r0, r4, #2
	ldr	r1, .Lgcm_v6m_CPI4_32
	ands	r0, r1
	eors	r0, r4
	lsls	r4, r0, #4
	ldr	r1, .Lgcm_v6m_CPI4_33
	ands	r4, r1
	eors	r4, r0
	ldr	r3, [sp, #84]                   @ 4-byte Reload
	str	r4, [r3, #4]
	eors	r5, r2
	ldr	r4, [sp, #140]                  @ 4-byte Reload
	rors	r5, r4
	ldr	r0, .Lgcm_v6m_CPI4_31
	bics	r0, r5
	ldr	r2, [r7]
	eors	r2, r0
	lsls	r0, r2, #2
	ldr	r5, .Lgcm_v6m_CPI4_32
	ands	r0, r5
	eors	r0, r2
	lsls	r2, r0, #4
	ands	r2, r1
	eors	r2, r0
	str	r2, [r3]
	mov	r2, r3
	ldr	r5, [sp, #204]                  @ 4-byte Reload
	ldr	r0, [sp, #168]                  @ 4-byte Reload
	ands	r5, r0
	ldr	r0, [sp, #180]                  @ 4-byte Reload
	eors	r5, r0
	ldr	r3, [sp, #192]                  @ 4-byte Reload
	ldr	r0, [sp, #156]                  @ 4-byte Reload
	ands	r3, r0
	ldr	r0, [sp, #176]                  @ 4-byte Reload
	eors	r3, r0
	str	r3, [sp, #192]                  @ 4-byte Spill
	ldr	r1, [sp, #240]                  @ 4-byte Reload
	ldr	r0, [sp, #172]                  @ 4-byte Reload
	ands	r1, r0
	eors	r1, r3
	str	r1, [sp, #240]                  @ 4-byte Spill
	mov	r0, r1
	eors	r0, r5
	str	r5, [sp, #204]                  @ 4-byte Spill
	mov	r3, r4
	rors	r0, r4
	ldr	r1, .Lgcm_v6m_CPI4_31
	ands	r0, r1
	mov	r4, r7
	ldr	r1, [r7, #28]
	eors	r1, r0
	lsls	r0, r1, #2
	ldr	r7, .Lgcm_v6m_CPI4_32
	ands	r0, r7
	eors	r0, r1
	lsls	r1, r0, #4
	ldr	r7, .Lgcm_v6m_CPI4_33
	ands	r1, r7
	eors	r1, r0
	str	r1, [r2, #28]
	ldr	r0, [sp, #144]                  @ 4-byte Reload
	ldr	r7, [sp, #200]                  @ 4-byte Reload
	ands	r7, r0
	ldr	r0, [sp, #228]                  @ 4-byte Reload
	eors	r7, r0
	str	r7, [sp, #200]                  @ 4-byte Spill
	ldr	r0, [sp, #236]                  @ 4-byte Reload
	ands	r6, r0
	ldr	r0, [sp, #188]                  @ 4-byte Reload
	eors	r6, r0
	eors	r6, r5
	eors	r6, r7
	rors	r6, r3
	mov	r7, r3
	ldr	r0, .Lgcm_v6m_CPI4_0
	bics	r0, r6
	ldr	r1, [r4, #20]
	mov	r6, r4
	eors	r1, r0
	lsls	r0, r1, #2
	ldr	r4, .Lgcm_v6m_CPI4_3
	ands	r0, r4
	eors	r0, r1
	lsls	r1, r0, #4
	ldr	r5, .Lgcm_v6m_CPI4_2
	ands	r1, r5
	eors	r1, r0
	str	r1, [r2, #20]
	mov	r3, r2
	ldr	r1, [sp, #156]                  @ 4-byte Reload
	ldr	r0, [sp, #148]                  @ 4-byte Reload
	ands	r1, r0
	ldr	r0, [sp, #212]                  @ 4-byte Reload
	eors	r1, r0
	ldr	r0, [sp, #184]                  @ 4-byte Reload
	eors	r1, r0
	ldr	r0, [sp, #240]                  @ 4-byte Reload
	eors	r1, r0
	mov	r0, r1
	mov	r2, r1
	mov	r5, r7
	rors	r0, r7
	ldr	r1, .Lgcm_v6m_CPI4_0
	ands	r0, r1
	ldr	r1, [r6, #16]
	eors	r1, r0
	lsls	r0, r1, #2
	ands	r0, r4
	eors	r0, r1
	lsls	r1, r0, #4
	ldr	r4, .Lgcm_v6m_CPI4_2
	ands	r1, r4
	eors	r1, r0
	str	r1, [r3, #16]
	mov	r7, r3
	ldr	r0, [sp, #224]                  @ 4-byte Reload
	ldr	r1, [sp, #136]                  @ 4-byte Reload
	ands	r1, r0
	ldr	r0, [sp, #192]                  @ 4-byte Reload
	eors	r1, r0
	ldr	r0, [sp, #200]                  @ 4-byte Reload
	eors	r1, r0
	rors	r1, r5
	mov	r3, r5
	ldr	r4, .Lgcm_v6m_CPI4_0
	ands	r1, r4
	ldr	r0, [r6, #8]
	eors	r0, r1
	lsls	r1, r0, #2
	ldr	r5, .Lgcm_v6m_CPI4_3
	ands	r1, r5
	eors	r1, r0
	lsls	r0, r1, #4
	ldr	r5, .Lgcm_v6m_CPI4_2
	ands	r0, r5
	eors	r0, r1
	str	r0, [r7, #8]
	ldr	r0, [sp, #196]                  @ 4-byte Reload
	eors	r0, r2
	rors	r0, r3
	ands	r0, r4
	mov	r1, r0
	ldr	r0, [r6, #12]
	eors	r0, r1
	lsls	r1, r0, #2
	ldr	r5, .Lgcm_v6m_CPI4_3
	ands	r1, r5
	eors	r1, r0
	lsls	r0, r1, #4
	ldr	r5, .Lgcm_v6m_CPI4_2
	ands	r0, r5
	eors	r0, r1
	str	r0, [r7, #12]
	ldr	r0, [sp, #204]                  @ 4-byte Reload
	eors	r2, r0
	ldr	r0, .Lgcm_v6m_CPI4_5
	eors	r0, r2
	rors	r0, r3
	ands	r0, r4
	ldr	r1, [r6, #24]
	eors	r1, r0
	lsls	r0, r1, #2
	ldr	r2, .Lgcm_v6m_CPI4_3
	ands	r0, r2
	eors	r0, r1
	lsls	r1, r0, #4
	ldr	r2, .Lgcm_v6m_CPI4_2
	ands	r1, r2
	eors	r1, r0
	str	r1, [r7, #24]
.Lgcm_v6m_BB4_33:                               @ %"aes_planes::expansion::expand::<#389ec886eeff95cb>.exit"
	ldr	r0, [sp, #4]                    @ 4-byte Reload
	lsrs	r0, r0, #2
	ldr	r2, [sp, #8]                    @ 4-byte Reload
	lsls	r1, r2, #30
	adds	r0, r0, r1
	lsrs	r1, r2, #2
	movs	r2, #0
	adds	r0, r0, #6
	str	r0, [sp, #200]                  @ 4-byte Spill
	adcs	r1, r2
	str	r1, [sp, #204]                  @ 4-byte Spill
	movs	r3, #1
	ldr	r5, [sp, #220]                  @ 4-byte Reload
	mov	r4, r5
	str	r3, [sp, #196]                  @ 4-byte Spill
	str	r2, [sp, #188]                  @ 4-byte Spill
	mov	r1, r2
	b	.Lgcm_v6m_BB4_35
.Lgcm_v6m_BB4_34:                               @ %join.8.i
                                        @   in Loop: Header=BB4_35 Depth=1
	mvns	r5, r6
	mvns	r2, r0
	ldr	r0, [sp, #224]                  @ 4-byte Reload
	mvns	r0, r0
	ldr	r6, [sp, #228]                  @ 4-byte Reload
	mvns	r6, r6
	str	r6, [r4, #32]
	str	r0, [r4, #36]
	ldr	r0, [sp, #240]                  @ 4-byte Reload
	str	r0, [r4, #40]
	ldr	r0, [sp, #236]                  @ 4-byte Reload
	str	r0, [r4, #44]
	ldr	r0, [sp, #232]                  @ 4-byte Reload
	mov	r6, r4
	adds	r6, #48
	stm	r6!, {r0, r2, r5, r7}
	movs	r0, #0
	adds	r3, r3, #1
	adcs	r1, r0
	adds	r4, #32
	ldr	r0, [sp, #216]                  @ 4-byte Reload
	cmp	r0, #0
	ldr	r5, [sp, #220]                  @ 4-byte Reload
	bne	.Lgcm_v6m_BB4_35
	b	.Lgcm_v6m_BB4_48
.Lgcm_v6m_BB4_35:                               @ %join.5.i
                                        @ =>This Inner Loop Header: Depth=1
	lsls	r0, r3, #5
	adds	r7, r5, r0
	ldr	r2, [sp, #200]                  @ 4-byte Reload
	subs	r2, r3, r2
	mov	r2, r1
	ldr	r6, [sp, #204]                  @ 4-byte Reload
	sbcs	r2, r6
	ldr	r2, [sp, #196]                  @ 4-byte Reload
	blo	.Lgcm_v6m_BB4_37
@ %bb.36:                               @ %join.5.i
                                        @   in Loop: Header=BB4_35 Depth=1
	ldr	r2, [sp, #188]                  @ 4-byte Reload
.Lgcm_v6m_BB4_37:                               @ %join.5.i
                                        @   in Loop: Header=BB4_35 Depth=1
	str	r2, [sp, #216]                  @ 4-byte Spill
	ldr	r0, [r5, r0]
	str	r0, [sp, #228]                  @ 4-byte Spill
	ldr	r0, [r7, #4]
	str	r0, [sp, #224]                  @ 4-byte Spill
	ldr	r2, [r7, #8]
	str	r2, [sp, #240]                  @ 4-byte Spill
	ldr	r0, [r7, #12]
	str	r0, [sp, #236]                  @ 4-byte Spill
	ldr	r0, [r7, #16]
	str	r0, [sp, #232]                  @ 4-byte Spill
	ldr	r0, [r7, #20]
	ldr	r6, [r7, #24]
	ldr	r7, [r7, #28]
	bhs	.Lgcm_v6m_BB4_34
@ %bb.38:                               @ %ok.10.i
                                        @   in Loop: Header=BB4_35 Depth=1
	str	r7, [sp, #212]                  @ 4-byte Spill
	mov	r7, r3
	ldr	r5, [sp, #164]                  @ 4-byte Reload
	ands	r7, r5
	lsls	r7, r7, #2
	adr	r5, .Lgcm_v6m_JTI4_0
	ldr	r5, [r5, r7]
	ldr	r7, [sp, #212]                  @ 4-byte Reload
	mov	pc, r5
@ %bb.39:
	.p2align	2
.Lgcm_v6m_JTI4_0:
	.long	.Lgcm_v6m_BB4_44+1
	.long	.Lgcm_v6m_BB4_45+1
	.long	.Lgcm_v6m_BB4_43+1
	.long	.Lgcm_v6m_BB4_46+1
	.p2align	2
@ %bb.40:
.Lgcm_v6m_CPI4_31:
	.long	50529027                        @ 0x3030303
	.p2align	2
@ %bb.41:
.Lgcm_v6m_CPI4_32:
	.long	4244438268                      @ 0xfcfcfcfc
	.p2align	2
@ %bb.42:
.Lgcm_v6m_CPI4_33:
	.long	4042322160                      @ 0xf0f0f0f0
	.p2align	1
.Lgcm_v6m_BB4_43:                               @ %then.4.i
                                        @   in Loop: Header=BB4_35 Depth=1
	lsrs	r5, r7, #4
	eors	r5, r7
	ldr	r7, .Lgcm_v6m_CPI4_8
	ands	r5, r7
	movs	r7, #17
	muls	r5, r7, r5
	ldr	r2, [sp, #212]                  @ 4-byte Reload
	eors	r2, r5
	str	r2, [sp, #212]                  @ 4-byte Spill
	lsrs	r5, r6, #4
	eors	r5, r6
	str	r6, [sp, #208]                  @ 4-byte Spill
	ldr	r2, .Lgcm_v6m_CPI4_8
	ldr	r6, [sp, #208]                  @ 4-byte Reload
	ands	r5, r2
	muls	r5, r7, r5
	eors	r6, r5
	lsrs	r5, r0, #4
	eors	r5, r0
	ands	r5, r2
	muls	r5, r7, r5
	eors	r0, r5
	str	r0, [sp, #208]                  @ 4-byte Spill
	ldr	r0, [sp, #232]                  @ 4-byte Reload
	lsrs	r5, r0, #4
	eors	r5, r0
	ands	r5, r2
	muls	r5, r7, r5
	eors	r0, r5
	str	r0, [sp, #232]                  @ 4-byte Spill
	ldr	r0, [sp, #236]                  @ 4-byte Reload
	lsrs	r5, r0, #4
	eors	r5, r0
	ands	r5, r2
	muls	r5, r7, r5
	eors	r0, r5
	str	r0, [sp, #236]                  @ 4-byte Spill
	ldr	r0, [sp, #240]                  @ 4-byte Reload
	lsrs	r5, r0, #4
	eors	r5, r0
	ands	r5, r2
	muls	r5, r7, r5
	eors	r0, r5
	str	r0, [sp, #240]                  @ 4-byte Spill
	ldr	r0, [sp, #224]                  @ 4-byte Reload
	lsrs	r5, r0, #4
	eors	r5, r0
	ands	r5, r2
	muls	r5, r7, r5
	eors	r0, r5
	str	r0, [sp, #224]                  @ 4-byte Spill
	ldr	r0, [sp, #228]                  @ 4-byte Reload
	lsrs	r5, r0, #4
	eors	r5, r0
	ands	r5, r2
	muls	r5, r7, r5
	ldr	r7, [sp, #212]                  @ 4-byte Reload
	eors	r0, r5
	str	r0, [sp, #228]                  @ 4-byte Spill
	ldr	r0, [sp, #208]                  @ 4-byte Reload
	b	.Lgcm_v6m_BB4_34
.Lgcm_v6m_BB4_44:                               @ %ok.10.i
                                        @   in Loop: Header=BB4_35 Depth=1
	b	.Lgcm_v6m_BB4_34
.Lgcm_v6m_BB4_45:                               @ %then.1.i
                                        @   in Loop: Header=BB4_35 Depth=1
	str	r0, [sp, #208]                  @ 4-byte Spill
	mov	r0, r7
	lsrs	r7, r7, #4
	eors	r7, r0
	ldr	r5, .Lgcm_v6m_CPI4_6
	ands	r7, r5
	movs	r2, #17
	muls	r7, r2, r7
	eors	r7, r0
	lsrs	r0, r7, #2
	eors	r0, r7
	ldr	r5, .Lgcm_v6m_CPI4_9
	ands	r0, r5
	movs	r5, #5
	muls	r0, r5, r0
	eors	r0, r7
	str	r0, [sp, #212]                  @ 4-byte Spill
	lsrs	r7, r6, #4
	eors	r7, r6
	ldr	r0, .Lgcm_v6m_CPI4_6
	ands	r7, r0
	str	r2, [sp, #184]                  @ 4-byte Spill
	muls	r7, r2, r7
	eors	r7, r6
	lsrs	r6, r7, #2
	eors	r6, r7
	ldr	r2, .Lgcm_v6m_CPI4_9
	ands	r6, r2
	str	r5, [sp, #192]                  @ 4-byte Spill
	muls	r6, r5, r6
	eors	r6, r7
	ldr	r2, [sp, #208]                  @ 4-byte Reload
	lsrs	r7, r2, #4
	eors	r7, r2
	ands	r7, r0
	ldr	r0, [sp, #184]                  @ 4-byte Reload
	muls	r7, r0, r7
	eors	r7, r2
	lsrs	r0, r7, #2
	eors	r0, r7
	ldr	r2, .Lgcm_v6m_CPI4_9
	ands	r0, r2
	muls	r0, r5, r0
	eors	r0, r7
	str	r0, [sp, #208]                  @ 4-byte Spill
	ldr	r0, [sp, #232]                  @ 4-byte Reload
	lsrs	r7, r0, #4
	eors	r7, r0
	ldr	r2, .Lgcm_v6m_CPI4_6
	ands	r7, r2
	ldr	r5, [sp, #184]                  @ 4-byte Reload
	muls	r7, r5, r7
	eors	r7, r0
	lsrs	r0, r7, #2
	eors	r0, r7
	ldr	r2, .Lgcm_v6m_CPI4_9
	ands	r0, r2
	ldr	r2, [sp, #192]                  @ 4-byte Reload
	muls	r0, r2, r0
	eors	r0, r7
	str	r0, [sp, #232]                  @ 4-byte Spill
	ldr	r0, [sp, #236]                  @ 4-byte Reload
	lsrs	r7, r0, #4
	eors	r7, r0
	ldr	r2, .Lgcm_v6m_CPI4_6
	ands	r7, r2
	muls	r7, r5, r7
	mov	r2, r5
	eors	r7, r0
	lsrs	r0, r7, #2
	eors	r0, r7
	ldr	r5, .Lgcm_v6m_CPI4_9
	ands	r0, r5
	ldr	r5, [sp, #192]                  @ 4-byte Reload
	muls	r0, r5, r0
	eors	r0, r7
	str	r0, [sp, #236]                  @ 4-byte Spill
	ldr	r0, [sp, #240]                  @ 4-byte Reload
	lsrs	r7, r0, #4
	eors	r7, r0
	ldr	r5, .Lgcm_v6m_CPI4_6
	ands	r7, r5
	muls	r7, r2, r7
	eors	r7, r0
	lsrs	r0, r7, #2
	eors	r0, r7
	ldr	r5, .Lgcm_v6m_CPI4_9
	ands	r0, r5
	ldr	r5, [sp, #192]                  @ 4-byte Reload
	muls	r0, r5, r0
	eors	r0, r7
	str	r0, [sp, #240]                  @ 4-byte Spill
	ldr	r0, [sp, #224]                  @ 4-byte Reload
	lsrs	r7, r0, #4
	eors	r7, r0
	ldr	r5, .Lgcm_v6m_CPI4_6
	ands	r7, r5
	muls	r7, r2, r7
	eors	r7, r0
	lsrs	r0, r7, #2
	eors	r0, r7
	ldr	r2, .Lgcm_v6m_CPI4_9
	ands	r0, r2
	ldr	r2, [sp, #192]                  @ 4-byte Reload
	muls	r0, r2, r0
	eors	r0, r7
	str	r0, [sp, #224]                  @ 4-byte Spill
	ldr	r0, [sp, #228]                  @ 4-byte Reload
	lsrs	r7, r0, #4
	eors	r7, r0
	ldr	r2, .Lgcm_v6m_CPI4_6
	b	.Lgcm_v6m_BB4_47
.Lgcm_v6m_BB4_46:                               @ %then.7.i
                                        @   in Loop: Header=BB4_35 Depth=1
	str	r0, [sp, #208]                  @ 4-byte Spill
	mov	r0, r7
	lsrs	r7, r7, #4
	eors	r7, r0
	ldr	r5, .Lgcm_v6m_CPI4_7
	ands	r7, r5
	movs	r2, #17
	muls	r7, r2, r7
	eors	r7, r0
	lsrs	r0, r7, #2
	eors	r0, r7
	ldr	r5, .Lgcm_v6m_CPI4_9
	ands	r0, r5
	movs	r5, #5
	muls	r0, r5, r0
	eors	r0, r7
	str	r0, [sp, #212]                  @ 4-byte Spill
	lsrs	r7, r6, #4
	eors	r7, r6
	ldr	r0, .Lgcm_v6m_CPI4_7
	ands	r7, r0
	str	r2, [sp, #184]                  @ 4-byte Spill
	muls	r7, r2, r7
	eors	r7, r6
	lsrs	r6, r7, #2
	eors	r6, r7
	ldr	r2, .Lgcm_v6m_CPI4_9
	ands	r6, r2
	str	r5, [sp, #192]                  @ 4-byte Spill
	muls	r6, r5, r6
	eors	r6, r7
	ldr	r2, [sp, #208]                  @ 4-byte Reload
	lsrs	r7, r2, #4
	eors	r7, r2
	ands	r7, r0
	ldr	r0, [sp, #184]                  @ 4-byte Reload
	muls	r7, r0, r7
	eors	r7, r2
	lsrs	r0, r7, #2
	eors	r0, r7
	ldr	r2, .Lgcm_v6m_CPI4_9
	ands	r0, r2
	muls	r0, r5, r0
	eors	r0, r7
	str	r0, [sp, #208]                  @ 4-byte Spill
	ldr	r0, [sp, #232]                  @ 4-byte Reload
	lsrs	r7, r0, #4
	eors	r7, r0
	ldr	r2, .Lgcm_v6m_CPI4_7
	ands	r7, r2
	ldr	r5, [sp, #184]                  @ 4-byte Reload
	muls	r7, r5, r7
	eors	r7, r0
	lsrs	r0, r7, #2
	eors	r0, r7
	ldr	r2, .Lgcm_v6m_CPI4_9
	ands	r0, r2
	ldr	r2, [sp, #192]                  @ 4-byte Reload
	muls	r0, r2, r0
	eors	r0, r7
	str	r0, [sp, #232]                  @ 4-byte Spill
	ldr	r0, [sp, #236]                  @ 4-byte Reload
	lsrs	r7, r0, #4
	eors	r7, r0
	ldr	r2, .Lgcm_v6m_CPI4_7
	ands	r7, r2
	muls	r7, r5, r7
	mov	r2, r5
	eors	r7, r0
	lsrs	r0, r7, #2
	eors	r0, r7
	ldr	r5, .Lgcm_v6m_CPI4_9
	ands	r0, r5
	ldr	r5, [sp, #192]                  @ 4-byte Reload
	muls	r0, r5, r0
	eors	r0, r7
	str	r0, [sp, #236]                  @ 4-byte Spill
	ldr	r0, [sp, #240]                  @ 4-byte Reload
	lsrs	r7, r0, #4
	eors	r7, r0
	ldr	r5, .Lgcm_v6m_CPI4_7
	ands	r7, r5
	muls	r7, r2, r7
	eors	r7, r0
	lsrs	r0, r7, #2
	eors	r0, r7
	ldr	r5, .Lgcm_v6m_CPI4_9
	ands	r0, r5
	ldr	r5, [sp, #192]                  @ 4-byte Reload
	muls	r0, r5, r0
	eors	r0, r7
	str	r0, [sp, #240]                  @ 4-byte Spill
	ldr	r0, [sp, #224]                  @ 4-byte Reload
	lsrs	r7, r0, #4
	eors	r7, r0
	ldr	r5, .Lgcm_v6m_CPI4_7
	ands	r7, r5
	muls	r7, r2, r7
	eors	r7, r0
	lsrs	r0, r7, #2
	eors	r0, r7
	ldr	r2, .Lgcm_v6m_CPI4_9
	ands	r0, r2
	ldr	r2, [sp, #192]                  @ 4-byte Reload
	muls	r0, r2, r0
	eors	r0, r7
	str	r0, [sp, #224]                  @ 4-byte Spill
	ldr	r0, [sp, #228]                  @ 4-byte Reload
	lsrs	r7, r0, #4
	eors	r7, r0
	ldr	r2, .Lgcm_v6m_CPI4_7
.Lgcm_v6m_BB4_47:                               @ %join.8.i
                                        @   in Loop: Header=BB4_35 Depth=1
	ands	r7, r2
	ldr	r2, [sp, #184]                  @ 4-byte Reload
	muls	r7, r2, r7
	eors	r7, r0
	lsrs	r0, r7, #2
	eors	r0, r7
	ldr	r2, .Lgcm_v6m_CPI4_9
	ands	r0, r2
	ldr	r2, [sp, #192]                  @ 4-byte Reload
	muls	r0, r2, r0
	eors	r0, r7
	str	r0, [sp, #228]                  @ 4-byte Spill
	ldr	r0, [sp, #208]                  @ 4-byte Reload
	ldr	r7, [sp, #212]                  @ 4-byte Reload
	b	.Lgcm_v6m_BB4_34
.Lgcm_v6m_BB4_48:                               @ %"aes_soft::soft::key_layout::store::<#dfb00681c6d298fe>.exit"
	add	sp, #276
	pop	{r4, r5, r6, r7, pc}
	.p2align	2
@ %bb.49:
.Lgcm_v6m_CPI4_0:
	.long	50529027                        @ 0x3030303
.Lgcm_v6m_CPI4_2:
	.long	4042322160                      @ 0xf0f0f0f0
.Lgcm_v6m_CPI4_3:
	.long	4244438268                      @ 0xfcfcfcfc
.Lgcm_v6m_CPI4_5:
	.long	4294902015                      @ 0xffff00ff
.Lgcm_v6m_CPI4_6:
	.long	51317760                        @ 0x30f0c00
.Lgcm_v6m_CPI4_7:
	.long	202310400                       @ 0xc0f0300
.Lgcm_v6m_CPI4_8:
	.long	251662080                       @ 0xf000f00
.Lgcm_v6m_CPI4_9:
	.long	855651072                       @ 0x33003300
.Lgcm_v6m_func_end4:
	.size	gcm_v6m.aes_narrow.word_room.expand_words, .Lgcm_v6m_func_end4-gcm_v6m.aes_narrow.word_room.expand_words
	.cantunwind
	.fnend
                                        @ -- End function
	.section	.text.gcm_v6m.aes_planes.soft.word.word32.U32Word.in_every_slot,"ax",%progbits
	.p2align	2                               @ -- Begin function aes_planes::soft::word::word32::U32Word::in_every_slot
	.type	gcm_v6m.aes_planes.soft.word.word32.U32Word.in_every_slot,%function
	.code	16
	.thumb_func
gcm_v6m.aes_planes.soft.word.word32.U32Word.in_every_slot: @ @gcm_v6m.aes_planes.soft.word.word32.U32Word.in_every_slot
	.fnstart
@ %bb.0:                                @ %start
	.save	{r4, r5, r6, r7, lr}
	push	{r4, r5, r6, r7, lr}
	.pad	#40
	sub	sp, #40
	mov	r2, r0
	ldrb	r0, [r1, #12]
	ldrb	r3, [r1, #13]
	lsls	r3, r3, #8
	adds	r0, r3, r0
	ldrb	r3, [r1, #14]
	lsls	r3, r3, #16
	adds	r0, r0, r3
	ldrb	r3, [r1, #15]
	lsls	r3, r3, #24
	adds	r3, r0, r3
	str	r3, [sp, #28]                   @ 4-byte Spill
	lsrs	r6, r3, #1
	eors	r6, r3
	ldr	r5, .Lgcm_v6m_CPI5_0
	ands	r6, r5
	str	r6, [sp, #24]                   @ 4-byte Spill
	eors	r6, r3
	ldrb	r3, [r1, #8]
	ldrb	r4, [r1, #9]
	lsls	r4, r4, #8
	adds	r3, r4, r3
	ldrb	r4, [r1, #10]
	lsls	r4, r4, #16
	adds	r3, r3, r4
	ldrb	r4, [r1, #11]
	lsls	r4, r4, #24
	adds	r0, r3, r4
	str	r0, [sp, #20]                   @ 4-byte Spill
	lsrs	r7, r0, #1
	eors	r7, r0
	ands	r7, r5
	mov	r3, r7
	eors	r3, r0
	str	r3, [sp, #36]                   @ 4-byte Spill
	lsrs	r0, r3, #2
	eors	r0, r6
	ldr	r3, .Lgcm_v6m_CPI5_1
	ands	r0, r3
	str	r0, [sp, #32]                   @ 4-byte Spill
	eors	r6, r0
	ldrb	r3, [r1, #4]
	ldrb	r4, [r1, #5]
	lsls	r4, r4, #8
	adds	r3, r4, r3
	ldrb	r4, [r1, #6]
	lsls	r4, r4, #16
	adds	r3, r3, r4
	ldrb	r4, [r1, #7]
	lsls	r4, r4, #24
	adds	r3, r3, r4
	str	r3, [sp, #4]                    @ 4-byte Spill
	lsrs	r0, r3, #1
	eors	r0, r3
	ands	r0, r5
	mov	r5, r0
	eors	r5, r3
	ldrb	r3, [r1]
	ldrb	r4, [r1, #1]
	lsls	r4, r4, #8
	adds	r3, r4, r3
	ldrb	r4, [r1, #2]
	lsls	r4, r4, #16
	adds	r3, r3, r4
	ldrb	r1, [r1, #3]
	lsls	r1, r1, #24
	adds	r3, r3, r1
	str	r3, [sp]                        @ 4-byte Spill
	lsrs	r4, r3, #1
	eors	r4, r3
	ldr	r1, .Lgcm_v6m_CPI5_0
	ands	r4, r1
	mov	r1, r4
	eors	r1, r3
	str	r1, [sp, #12]                   @ 4-byte Spill
	lsrs	r3, r1, #2
	eors	r3, r5
	ldr	r1, .Lgcm_v6m_CPI5_1
	ands	r3, r1
	eors	r5, r3
	str	r5, [sp, #16]                   @ 4-byte Spill
	lsrs	r5, r5, #4
	eors	r5, r6
	ldr	r1, .Lgcm_v6m_CPI5_2
	ands	r5, r1
	str	r5, [sp, #8]                    @ 4-byte Spill
	eors	r6, r5
	strb	r6, [r2, #28]
	lsrs	r1, r6, #24
	strb	r1, [r2, #31]
	lsrs	r1, r6, #16
	strb	r1, [r2, #30]
	lsrs	r1, r6, #8
	strb	r1, [r2, #29]
	ldr	r1, [sp, #24]                   @ 4-byte Reload
	lsls	r1, r1, #1
	ldr	r5, [sp, #28]                   @ 4-byte Reload
	eors	r1, r5
	lsls	r6, r7, #1
	ldr	r5, [sp, #20]                   @ 4-byte Reload
	eors	r6, r5
	str	r6, [sp, #24]                   @ 4-byte Spill
	lsrs	r7, r6, #2
	eors	r7, r1
	ldr	r5, .Lgcm_v6m_CPI5_1
	ands	r7, r5
	eors	r1, r7
	lsls	r0, r0, #1
	ldr	r6, [sp, #4]                    @ 4-byte Reload
	eors	r0, r6
	lsls	r4, r4, #1
	ldr	r6, [sp]                        @ 4-byte Reload
	eors	r4, r6
	str	r4, [sp, #4]                    @ 4-byte Spill
	lsrs	r4, r4, #2
	eors	r4, r0
	ands	r4, r5
	eors	r0, r4
	str	r0, [sp, #28]                   @ 4-byte Spill
	lsrs	r0, r0, #4
	eors	r0, r1
	ldr	r6, .Lgcm_v6m_CPI5_2
	ands	r0, r6
	str	r0, [sp, #20]                   @ 4-byte Spill
	eors	r1, r0
	strb	r1, [r2, #24]
	ldr	r0, [sp, #32]                   @ 4-byte Reload
	lsls	r0, r0, #2
	ldr	r5, [sp, #36]                   @ 4-byte Reload
	eors	r0, r5
	lsls	r5, r3, #2
	ldr	r3, [sp, #12]                   @ 4-byte Reload
	eors	r5, r3
	str	r5, [sp, #36]                   @ 4-byte Spill
	lsrs	r5, r5, #4
	eors	r5, r0
	ands	r5, r6
	eors	r0, r5
	strb	r0, [r2, #20]
	ldr	r3, [sp, #8]                    @ 4-byte Reload
	lsls	r3, r3, #4
	ldr	r6, [sp, #16]                   @ 4-byte Reload
	eors	r3, r6
	strb	r3, [r2, #12]
	lsrs	r6, r1, #24
	strb	r6, [r2, #27]
	lsrs	r6, r1, #16
	strb	r6, [r2, #26]
	lsrs	r1, r1, #8
	strb	r1, [r2, #25]
	lsrs	r1, r0, #24
	strb	r1, [r2, #23]
	lsrs	r1, r0, #16
	strb	r1, [r2, #22]
	lsrs	r0, r0, #8
	strb	r0, [r2, #21]
	lsls	r7, r7, #2
	ldr	r0, [sp, #24]                   @ 4-byte Reload
	eors	r7, r0
	lsls	r0, r4, #2
	ldr	r1, [sp, #4]                    @ 4-byte Reload
	eors	r0, r1
	lsrs	r4, r0, #4
	eors	r4, r7
	ldr	r1, .Lgcm_v6m_CPI5_2
	ands	r4, r1
	eors	r7, r4
	strb	r7, [r2, #16]
	lsrs	r1, r3, #24
	strb	r1, [r2, #15]
	lsrs	r1, r3, #16
	strb	r1, [r2, #14]
	lsrs	r1, r3, #8
	strb	r1, [r2, #13]
	ldr	r1, [sp, #20]                   @ 4-byte Reload
	lsls	r3, r1, #4
	ldr	r1, [sp, #28]                   @ 4-byte Reload
	eors	r3, r1
	strb	r3, [r2, #8]
	lsls	r1, r5, #4
	ldr	r5, [sp, #36]                   @ 4-byte Reload
	eors	r1, r5
	strb	r1, [r2, #4]
	lsrs	r5, r7, #24
	strb	r5, [r2, #19]
	lsrs	r5, r7, #16
	strb	r5, [r2, #18]
	lsrs	r5, r7, #8
	strb	r5, [r2, #17]
	lsrs	r5, r3, #24
	strb	r5, [r2, #11]
	lsrs	r5, r3, #16
	strb	r5, [r2, #10]
	lsrs	r3, r3, #8
	strb	r3, [r2, #9]
	lsrs	r3, r1, #24
	strb	r3, [r2, #7]
	lsrs	r3, r1, #16
	strb	r3, [r2, #6]
	lsrs	r1, r1, #8
	strb	r1, [r2, #5]
	lsls	r1, r4, #4
	eors	r1, r0
	strb	r1, [r2]
	lsrs	r0, r1, #24
	strb	r0, [r2, #3]
	lsrs	r0, r1, #16
	strb	r0, [r2, #2]
	lsrs	r0, r1, #8
	strb	r0, [r2, #1]
	add	sp, #40
	pop	{r4, r5, r6, r7, pc}
	.p2align	2
@ %bb.1:
.Lgcm_v6m_CPI5_0:
	.long	1431655765                      @ 0x55555555
.Lgcm_v6m_CPI5_1:
	.long	858993459                       @ 0x33333333
.Lgcm_v6m_CPI5_2:
	.long	252645135                       @ 0xf0f0f0f
.Lgcm_v6m_func_end5:
	.size	gcm_v6m.aes_planes.soft.word.word32.U32Word.in_every_slot, .Lgcm_v6m_func_end5-gcm_v6m.aes_planes.soft.word.word32.U32Word.in_every_slot
	.cantunwind
	.fnend
                                        @ -- End function
	.section	.text.gcm_v6m.aes_cipher.zeroize.stack.wipe_stack.768,"ax",%progbits
	.p2align	1                               @ -- Begin function aes_cipher::zeroize::stack::wipe_stack::<=768>
	.type	gcm_v6m.aes_cipher.zeroize.stack.wipe_stack.768,%function
	.code	16
	.thumb_func
gcm_v6m.aes_cipher.zeroize.stack.wipe_stack.768: @ @gcm_v6m.aes_cipher.zeroize.stack.wipe_stack.768
	.fnstart
@ %bb.0:                                @ %start
	.save	{r4, lr}
	push	{r4, lr}
	.pad	#508
	sub	sp, #508
	.pad	#268
	sub	sp, #268
	movs	r0, #3
	lsls	r2, r0, #8
	add	r0, sp, #8
	movs	r4, #0
	mov	r1, r4
	bl	memset
	str	r4, [sp, #4]
	str	r4, [sp]
	@APP
	@NO_APP
	ldr	r1, [sp, #4]
	lsls	r2, r1, #24
	ldr	r0, [sp]
	lsrs	r3, r0, #8
	adds	r2, r3, r2
	@APP
	@NO_APP
	lsrs	r1, r1, #8
	subs	r2, r2, #3
	sbcs	r1, r4
	bhs	.Lgcm_v6m_BB6_2
@ %bb.1:                                @ %then.1
	add	r1, sp, #8
	ldrb	r0, [r1, r0]
	@APP
	@NO_APP
	ldr	r1, [sp, #4]
	ldr	r1, [sp]
	str	r4, [sp, #4]
	str	r0, [sp]
	@APP
	@NO_APP
.Lgcm_v6m_BB6_2:                                @ %common.ret
	add	sp, #508
	add	sp, #268
	pop	{r4, pc}
.Lgcm_v6m_func_end6:
	.size	gcm_v6m.aes_cipher.zeroize.stack.wipe_stack.768, .Lgcm_v6m_func_end6-gcm_v6m.aes_cipher.zeroize.stack.wipe_stack.768
	.cantunwind
	.fnend
                                        @ -- End function
	.section	.text.gcm_v6m.gcm.mode.BorrowedGcm.put_pre_counter,"ax",%progbits
	.p2align	1                               @ -- Begin function gcm::mode::BorrowedGcm::put_pre_counter::<#c01aad2b5fbc92b1>
	.type	gcm_v6m.gcm.mode.BorrowedGcm.put_pre_counter,%function
	.code	16
	.thumb_func
gcm_v6m.gcm.mode.BorrowedGcm.put_pre_counter: @ @gcm_v6m.gcm.mode.BorrowedGcm.put_pre_counter
	.fnstart
@ %bb.0:                                @ %start
	.save	{r4, r5, r6, r7, lr}
	push	{r4, r5, r6, r7, lr}
	.pad	#124
	sub	sp, #124
	movs	r4, #12
	eors	r4, r2
	orrs	r4, r3
	ldr	r4, [sp, #144]
	bne	.Lgcm_v6m_BB7_2
@ %bb.1:                                @ %then.1
	add	r0, sp, #108
	movs	r2, #0
	strb	r2, [r0, #14]
	strh	r2, [r0, #12]
	ldrb	r2, [r1]
	ldrb	r3, [r1, #1]
	lsls	r3, r3, #8
	adds	r2, r3, r2
	ldrb	r3, [r1, #2]
	lsls	r3, r3, #16
	ldrb	r5, [r1, #3]
	lsls	r5, r5, #24
	adds	r3, r5, r3
	adds	r2, r3, r2
	str	r2, [sp, #108]
	ldrb	r2, [r1, #4]
	ldrb	r3, [r1, #5]
	lsls	r3, r3, #8
	adds	r2, r3, r2
	ldrb	r3, [r1, #6]
	lsls	r3, r3, #16
	ldrb	r5, [r1, #7]
	lsls	r5, r5, #24
	adds	r3, r5, r3
	adds	r2, r3, r2
	str	r2, [sp, #112]
	ldrb	r2, [r1, #8]
	ldrb	r3, [r1, #9]
	lsls	r3, r3, #8
	adds	r2, r3, r2
	ldrb	r3, [r1, #10]
	lsls	r3, r3, #16
	ldrb	r1, [r1, #11]
	lsls	r1, r1, #24
	adds	r1, r1, r3
	adds	r1, r1, r2
	str	r1, [sp, #116]
	add	r1, sp, #92
	mov	r2, r1
	ldm	r0!, {r3, r5, r6}
	stm	r2!, {r3, r5, r6}
	ldrh	r3, [r0]
	strh	r3, [r2]
	ldrb	r0, [r0, #2]
	strb	r0, [r2, #2]
	movs	r2, #15
	mov	r0, r4
	bl	memcpy
	movs	r0, #1
	strb	r0, [r4, #15]
	add	sp, #124
	pop	{r4, r5, r6, r7, pc}
.Lgcm_v6m_BB7_2:                                @ %else.2
	str	r0, [sp, #88]                   @ 4-byte Spill
	ldr	r5, [r0, #16]
	ldrb	r0, [r5, #3]
	str	r0, [sp, #84]                   @ 4-byte Spill
	ldrb	r0, [r5, #2]
	str	r0, [sp, #80]                   @ 4-byte Spill
	ldrb	r0, [r5, #1]
	str	r0, [sp, #76]                   @ 4-byte Spill
	ldrb	r0, [r5]
	str	r0, [sp, #72]                   @ 4-byte Spill
	ldrb	r0, [r5, #7]
	str	r0, [sp, #68]                   @ 4-byte Spill
	ldrb	r0, [r5, #6]
	str	r0, [sp, #64]                   @ 4-byte Spill
	ldrb	r0, [r5, #4]
	str	r0, [sp, #60]                   @ 4-byte Spill
	ldrb	r0, [r5, #5]
	str	r0, [sp, #56]                   @ 4-byte Spill
	ldrb	r0, [r5, #11]
	str	r0, [sp, #52]                   @ 4-byte Spill
	ldrb	r0, [r5, #10]
	str	r0, [sp, #48]                   @ 4-byte Spill
	ldrb	r0, [r5, #9]
	str	r0, [sp, #44]                   @ 4-byte Spill
	ldrb	r0, [r5, #8]
	str	r0, [sp, #40]                   @ 4-byte Spill
	ldrb	r0, [r5, #15]
	str	r0, [sp, #36]                   @ 4-byte Spill
	ldrb	r7, [r5, #14]
	ldrb	r6, [r5, #12]
	ldrb	r0, [r5, #13]
	str	r2, [sp, #24]
	str	r3, [sp, #28]
	movs	r5, #0
	str	r5, [sp]
	str	r5, [sp, #4]
	str	r5, [sp, #8]
	str	r5, [sp, #12]
	str	r1, [sp, #16]
	lsls	r0, r0, #16
	lsls	r1, r6, #24
	adds	r0, r1, r0
	lsls	r1, r7, #8
	adds	r0, r0, r1
	ldr	r1, [sp, #36]                   @ 4-byte Reload
	adds	r0, r0, r1
	str	r0, [sp, #36]                   @ 4-byte Spill
	ldr	r0, [sp, #40]                   @ 4-byte Reload
	lsls	r0, r0, #24
	ldr	r1, [sp, #44]                   @ 4-byte Reload
	lsls	r1, r1, #16
	adds	r0, r1, r0
	ldr	r1, [sp, #48]                   @ 4-byte Reload
	lsls	r1, r1, #8
	adds	r0, r0, r1
	ldr	r1, [sp, #52]                   @ 4-byte Reload
	adds	r1, r0, r1
	ldr	r0, [sp, #56]                   @ 4-byte Reload
	lsls	r0, r0, #16
	ldr	r6, [sp, #60]                   @ 4-byte Reload
	lsls	r6, r6, #24
	adds	r0, r6, r0
	ldr	r6, [sp, #64]                   @ 4-byte Reload
	lsls	r6, r6, #8
	adds	r0, r0, r6
	ldr	r6, [sp, #68]                   @ 4-byte Reload
	adds	r6, r0, r6
	ldr	r0, [sp, #72]                   @ 4-byte Reload
	lsls	r0, r0, #24
	ldr	r7, [sp, #76]                   @ 4-byte Reload
	lsls	r7, r7, #16
	adds	r0, r7, r0
	ldr	r7, [sp, #80]                   @ 4-byte Reload
	lsls	r7, r7, #8
	adds	r0, r0, r7
	ldr	r7, [sp, #84]                   @ 4-byte Reload
	adds	r7, r0, r7
	ldr	r0, [sp, #36]                   @ 4-byte Reload
	str	r2, [sp, #80]                   @ 4-byte Spill
	mov	r2, r6
	str	r3, [sp, #84]                   @ 4-byte Spill
	mov	r3, r7
	bl	gcm_v6m.gcm.single_blocks.hash_singly.1
	mov	r6, r0
	ldr	r0, [sp, #88]                   @ 4-byte Reload
	ldr	r0, [r0, #16]
	add	r7, sp, #0
	stm	r7!, {r2, r3, r5}
	str	r5, [sp, #12]
	ldr	r2, [sp, #80]                   @ 4-byte Reload
	str	r2, [sp, #16]
	ldr	r2, [sp, #84]                   @ 4-byte Reload
	str	r2, [sp, #20]
	mov	r2, r6
	mov	r3, r1
	bl	gcm_v6m.gcm.tags.hash_lengths
	strb	r1, [r4, #11]
	strb	r2, [r4, #7]
	strb	r3, [r4, #3]
	lsrs	r5, r0, #8
	strb	r5, [r4, #14]
	lsrs	r5, r0, #16
	strb	r5, [r4, #13]
	lsrs	r5, r0, #24
	strb	r5, [r4, #12]
	lsrs	r5, r1, #8
	strb	r5, [r4, #10]
	lsrs	r5, r1, #16
	strb	r5, [r4, #9]
	lsrs	r1, r1, #24
	strb	r1, [r4, #8]
	lsrs	r1, r2, #8
	strb	r1, [r4, #6]
	lsrs	r1, r2, #16
	strb	r1, [r4, #5]
	lsrs	r1, r2, #24
	strb	r1, [r4, #4]
	lsrs	r1, r3, #8
	strb	r1, [r4, #2]
	lsrs	r1, r3, #16
	strb	r1, [r4, #1]
	lsrs	r1, r3, #24
	strb	r1, [r4]
	strb	r0, [r4, #15]
	add	sp, #124
	pop	{r4, r5, r6, r7, pc}
.Lgcm_v6m_func_end7:
	.size	gcm_v6m.gcm.mode.BorrowedGcm.put_pre_counter, .Lgcm_v6m_func_end7-gcm_v6m.gcm.mode.BorrowedGcm.put_pre_counter
	.cantunwind
	.fnend
                                        @ -- End function
	.section	.text.gcm_v6m.gcm.single_blocks.hash_singly.1,"ax",%progbits
	.p2align	1                               @ -- Begin function gcm::single_blocks::hash_singly::<#165deadc48559e33>
	.type	gcm_v6m.gcm.single_blocks.hash_singly.1,%function
	.code	16
	.thumb_func
gcm_v6m.gcm.single_blocks.hash_singly.1: @ @gcm_v6m.gcm.single_blocks.hash_singly.1
	.fnstart
@ %bb.0:                                @ %start
	.save	{r4, r5, r6, r7, lr}
	push	{r4, r5, r6, r7, lr}
	.pad	#132
	sub	sp, #132
	add	r4, sp, #40
	stm	r4!, {r0, r1, r2, r3}           @ 16-byte Folded Spill
	ldr	r0, [sp, #180]
	lsls	r1, r0, #28
	ldr	r2, [sp, #176]
	str	r2, [sp, #20]                   @ 4-byte Spill
	lsrs	r2, r2, #4
	adds	r5, r2, r1
	lsrs	r2, r0, #4
	mov	r0, r5
	mov	r1, r2
	orrs	r0, r2
	ldr	r3, [sp, #164]
	ldr	r2, [sp, #160]
	ldr	r0, [sp, #156]
	ldr	r6, [sp, #152]
	ldr	r4, [sp, #168]
	str	r4, [sp, #36]                   @ 4-byte Spill
	str	r0, [sp, #112]                  @ 4-byte Spill
	beq	.Lgcm_v6m_BB8_3
@ %bb.1:                                @ %join.5.i.preheader
	movs	r4, #0
	mov	r7, r4
	str	r4, [sp, #24]                   @ 4-byte Spill
	str	r4, [sp, #100]                  @ 4-byte Spill
	mov	r0, r6
	str	r5, [sp, #32]                   @ 4-byte Spill
	str	r1, [sp, #28]                   @ 4-byte Spill
.Lgcm_v6m_BB8_2:                                @ %join.5.i
                                        @ =>This Inner Loop Header: Depth=1
	str	r3, [sp, #108]                  @ 4-byte Spill
	str	r2, [sp, #104]                  @ 4-byte Spill
	lsls	r4, r7, #4
	ldr	r2, [sp, #36]                   @ 4-byte Reload
	adds	r6, r2, r4
	ldrb	r5, [r6, #3]
	str	r5, [sp, #96]                   @ 4-byte Spill
	ldrb	r1, [r6, #2]
	str	r1, [sp, #92]                   @ 4-byte Spill
	ldrb	r1, [r6, #1]
	str	r1, [sp, #88]                   @ 4-byte Spill
	ldrb	r1, [r2, r4]
	str	r1, [sp, #84]                   @ 4-byte Spill
	ldrb	r1, [r6, #6]
	str	r1, [sp, #80]                   @ 4-byte Spill
	ldrb	r1, [r6, #5]
	str	r1, [sp, #76]                   @ 4-byte Spill
	ldrb	r1, [r6, #7]
	str	r1, [sp, #72]                   @ 4-byte Spill
	ldrb	r1, [r6, #4]
	str	r1, [sp, #68]                   @ 4-byte Spill
	ldrb	r1, [r6, #11]
	str	r1, [sp, #64]                   @ 4-byte Spill
	ldrb	r1, [r6, #10]
	str	r1, [sp, #60]                   @ 4-byte Spill
	mov	r4, r0
	ldrb	r0, [r6, #8]
	str	r0, [sp, #56]                   @ 4-byte Spill
	ldrb	r3, [r6, #9]
	ldrb	r2, [r6, #14]
	ldrb	r1, [r6, #13]
	ldrb	r0, [r6, #15]
	ldrb	r6, [r6, #12]
	ldr	r5, [sp, #40]                   @ 4-byte Reload
	str	r5, [sp]
	ldr	r5, [sp, #44]                   @ 4-byte Reload
	str	r5, [sp, #4]
	ldr	r5, [sp, #48]                   @ 4-byte Reload
	str	r5, [sp, #8]
	ldr	r5, [sp, #52]                   @ 4-byte Reload
	str	r5, [sp, #12]
	lsls	r6, r6, #24
	adds	r0, r0, r6
	lsls	r1, r1, #16
	adds	r0, r0, r1
	lsls	r1, r2, #8
	adds	r0, r0, r1
	eors	r0, r4
	lsls	r1, r3, #16
	ldr	r2, [sp, #56]                   @ 4-byte Reload
	lsls	r2, r2, #24
	adds	r1, r2, r1
	ldr	r2, [sp, #60]                   @ 4-byte Reload
	lsls	r2, r2, #8
	adds	r1, r1, r2
	ldr	r2, [sp, #64]                   @ 4-byte Reload
	adds	r1, r1, r2
	ldr	r2, [sp, #112]                  @ 4-byte Reload
	eors	r1, r2
	ldr	r2, [sp, #68]                   @ 4-byte Reload
	lsls	r2, r2, #24
	ldr	r3, [sp, #72]                   @ 4-byte Reload
	adds	r2, r3, r2
	ldr	r3, [sp, #76]                   @ 4-byte Reload
	lsls	r3, r3, #16
	adds	r2, r2, r3
	ldr	r3, [sp, #80]                   @ 4-byte Reload
	lsls	r3, r3, #8
	adds	r4, r2, r3
	ldr	r2, [sp, #104]                  @ 4-byte Reload
	eors	r4, r2
	ldr	r2, [sp, #84]                   @ 4-byte Reload
	lsls	r2, r2, #24
	ldr	r3, [sp, #88]                   @ 4-byte Reload
	lsls	r3, r3, #16
	adds	r2, r2, r3
	ldr	r3, [sp, #92]                   @ 4-byte Reload
	lsls	r3, r3, #8
	adds	r2, r2, r3
	ldr	r3, [sp, #96]                   @ 4-byte Reload
	adds	r5, r2, r3
	ldr	r2, [sp, #108]                  @ 4-byte Reload
	eors	r5, r2
	mov	r2, r4
	mov	r3, r5
	ldr	r5, [sp, #32]                   @ 4-byte Reload
	bl	gcm_v6m.gcm.bitwise.product_bitwise
	str	r1, [sp, #112]                  @ 4-byte Spill
	adds	r7, r7, #1
	ldr	r4, [sp, #24]                   @ 4-byte Reload
	ldr	r6, [sp, #100]                  @ 4-byte Reload
	adcs	r6, r4
	subs	r4, r7, r5
	str	r6, [sp, #100]                  @ 4-byte Spill
	mov	r4, r6
	ldr	r6, [sp, #28]                   @ 4-byte Reload
	sbcs	r4, r6
	blo	.Lgcm_v6m_BB8_2
	b	.Lgcm_v6m_BB8_4
.Lgcm_v6m_BB8_3:
	mov	r0, r6
.Lgcm_v6m_BB8_4:                                @ %"gcm::single_blocks::hash_whole::<#165deadc48559e33>.exit"
	mov	r7, r0
	ldr	r1, [sp, #112]                  @ 4-byte Reload
	movs	r5, #15
	ldr	r4, [sp, #20]                   @ 4-byte Reload
	mov	r6, r4
	ands	r6, r5
	beq	.Lgcm_v6m_BB8_6
@ %bb.5:                                @ %join.3
	str	r2, [sp, #104]                  @ 4-byte Spill
	str	r3, [sp, #108]                  @ 4-byte Spill
	movs	r3, #0
	str	r3, [sp, #128]
	str	r3, [sp, #124]
	str	r3, [sp, #120]
	str	r3, [sp, #116]
	bics	r4, r5
	ldr	r0, [sp, #36]                   @ 4-byte Reload
	adds	r1, r0, r4
	add	r0, sp, #116
	subs	r0, r0, r1
	mov	r4, r3
	sbcs	r4, r3
	subs	r0, r0, r6
	sbcs	r4, r3
	add	r0, sp, #116
	mov	r2, r6
	bl	memcpy
	ldr	r4, [sp, #52]                   @ 4-byte Reload
	ldr	r5, [sp, #48]                   @ 4-byte Reload
	ldr	r6, [sp, #40]                   @ 4-byte Reload
	ldr	r3, [sp, #116]
	ldr	r2, [sp, #120]
	ldr	r1, [sp, #124]
	ldr	r0, [sp, #128]
	str	r6, [sp]
	ldr	r6, [sp, #44]                   @ 4-byte Reload
	str	r6, [sp, #4]
	str	r5, [sp, #8]
	str	r4, [sp, #12]
	rev	r0, r0
	eors	r0, r7
	rev	r1, r1
	ldr	r4, [sp, #112]                  @ 4-byte Reload
	eors	r1, r4
	rev	r2, r2
	ldr	r4, [sp, #104]                  @ 4-byte Reload
	eors	r2, r4
	rev	r3, r3
	ldr	r4, [sp, #108]                  @ 4-byte Reload
	eors	r3, r4
	bl	gcm_v6m.gcm.bitwise.product_bitwise
	add	sp, #132
	pop	{r4, r5, r6, r7, pc}
.Lgcm_v6m_BB8_6:
	mov	r0, r7
	add	sp, #132
	pop	{r4, r5, r6, r7, pc}
.Lgcm_v6m_func_end8:
	.size	gcm_v6m.gcm.single_blocks.hash_singly.1, .Lgcm_v6m_func_end8-gcm_v6m.gcm.single_blocks.hash_singly.1
	.cantunwind
	.fnend
                                        @ -- End function
	.section	.text.gcm_v6m.gcm.bitwise.product_bitwise,"ax",%progbits
	.p2align	1                               @ -- Begin function gcm::bitwise::product_bitwise
	.type	gcm_v6m.gcm.bitwise.product_bitwise,%function
	.code	16
	.thumb_func
gcm_v6m.gcm.bitwise.product_bitwise:        @ @gcm_v6m.gcm.bitwise.product_bitwise
	.fnstart
@ %bb.0:                                @ %start
	.save	{r4, r5, r6, r7, lr}
	push	{r4, r5, r6, r7, lr}
	.pad	#92
	sub	sp, #92
	str	r3, [sp, #60]                   @ 4-byte Spill
	str	r2, [sp, #48]                   @ 4-byte Spill
	str	r1, [sp, #44]                   @ 4-byte Spill
	str	r0, [sp, #52]                   @ 4-byte Spill
	movs	r0, #225
	lsls	r0, r0, #24
	str	r0, [sp, #64]                   @ 4-byte Spill
	movs	r3, #0
	ldr	r0, [sp, #124]
	str	r0, [sp, #84]                   @ 4-byte Spill
	ldr	r0, [sp, #120]
	str	r0, [sp, #80]                   @ 4-byte Spill
	ldr	r1, [sp, #116]
	ldr	r0, [sp, #112]
	str	r0, [sp, #88]                   @ 4-byte Spill
	movs	r0, #128
	str	r3, [sp, #36]                   @ 4-byte Spill
	mov	r4, r3
	str	r3, [sp, #32]                   @ 4-byte Spill
	str	r3, [sp, #40]                   @ 4-byte Spill
.Lgcm_v6m_BB9_1:                                @ %join.5
                                        @ =>This Inner Loop Header: Depth=1
	str	r0, [sp, #28]                   @ 4-byte Spill
	ldr	r6, [sp, #80]                   @ 4-byte Reload
	lsrs	r5, r6, #1
	str	r6, [sp, #80]                   @ 4-byte Spill
	str	r5, [sp, #24]                   @ 4-byte Spill
	ldr	r0, [sp, #84]                   @ 4-byte Reload
	lsls	r0, r0, #31
	adds	r5, r5, r0
	str	r5, [sp, #68]                   @ 4-byte Spill
	ldr	r7, [sp, #60]                   @ 4-byte Reload
	lsls	r0, r7, #1
	asrs	r3, r0, #31
	str	r3, [sp, #76]                   @ 4-byte Spill
	ands	r3, r5
	asrs	r0, r7, #31
	str	r0, [sp, #72]                   @ 4-byte Spill
	ands	r0, r6
	eors	r0, r4
	eors	r0, r3
	movs	r3, #1
	ldr	r2, [sp, #88]                   @ 4-byte Reload
	ands	r3, r2
	rsbs	r3, r3, #0
	ldr	r5, [sp, #64]                   @ 4-byte Reload
	ands	r3, r5
	ldr	r2, [sp, #84]                   @ 4-byte Reload
	lsrs	r2, r2, #1
	eors	r2, r3
	lsls	r3, r2, #31
	str	r2, [sp, #20]                   @ 4-byte Spill
	ldr	r4, [sp, #68]                   @ 4-byte Reload
	lsrs	r4, r4, #1
	str	r4, [sp, #8]                    @ 4-byte Spill
	adds	r4, r4, r3
	lsls	r3, r7, #2
	asrs	r6, r3, #31
	str	r6, [sp, #68]                   @ 4-byte Spill
	ands	r6, r4
	eors	r6, r0
	ldr	r3, [sp, #88]                   @ 4-byte Reload
	lsls	r0, r3, #30
	asrs	r0, r0, #31
	ands	r0, r5
	lsrs	r5, r2, #1
	eors	r5, r0
	str	r5, [sp, #56]                   @ 4-byte Spill
	lsls	r0, r5, #31
	lsrs	r2, r4, #1
	str	r2, [sp, #4]                    @ 4-byte Spill
	adds	r2, r2, r0
	str	r2, [sp, #12]                   @ 4-byte Spill
	lsls	r0, r7, #3
	asrs	r5, r0, #31
	mov	r4, r5
	ands	r4, r2
	eors	r4, r6
	lsrs	r0, r1, #1
	ldr	r2, [sp, #80]                   @ 4-byte Reload
	lsls	r6, r2, #31
	adds	r2, r0, r6
	str	r2, [sp, #80]                   @ 4-byte Spill
	lsrs	r2, r2, #1
	str	r2, [sp]                        @ 4-byte Spill
	lsls	r2, r2, #31
	lsrs	r6, r3, #1
	lsls	r7, r1, #31
	adds	r7, r6, r7
	lsrs	r6, r7, #1
	lsls	r0, r0, #31
	adds	r6, r6, r0
	lsrs	r0, r6, #1
	adds	r2, r0, r2
	str	r2, [sp, #16]                   @ 4-byte Spill
	mov	r0, r5
	ands	r0, r2
	ldr	r2, [sp, #76]                   @ 4-byte Reload
	ands	r7, r2
	ldr	r2, [sp, #72]                   @ 4-byte Reload
	ands	r2, r3
	ldr	r3, [sp, #32]                   @ 4-byte Reload
	eors	r2, r3
	eors	r2, r7
	ldr	r3, [sp, #68]                   @ 4-byte Reload
	ands	r6, r3
	eors	r6, r2
	eors	r6, r0
	ldr	r0, [sp, #4]                    @ 4-byte Reload
	lsls	r3, r0, #31
	ldr	r0, [sp, #8]                    @ 4-byte Reload
	lsls	r7, r0, #31
	ldr	r0, [sp, #24]                   @ 4-byte Reload
	lsls	r0, r0, #31
	ldr	r2, [sp]                        @ 4-byte Reload
	adds	r0, r2, r0
	lsrs	r2, r0, #1
	str	r2, [sp, #32]                   @ 4-byte Spill
	adds	r7, r2, r7
	lsrs	r2, r7, #1
	adds	r2, r2, r3
	str	r2, [sp, #24]                   @ 4-byte Spill
	ldr	r2, [sp, #76]                   @ 4-byte Reload
	ldr	r3, [sp, #80]                   @ 4-byte Reload
	ands	r3, r2
	ldr	r2, [sp, #72]                   @ 4-byte Reload
	ands	r1, r2
	ldr	r2, [sp, #36]                   @ 4-byte Reload
	eors	r1, r2
	eors	r1, r3
	ldr	r2, [sp, #68]                   @ 4-byte Reload
	ands	r0, r2
	eors	r0, r1
	ands	r7, r5
	eors	r7, r0
	ldr	r0, [sp, #12]                   @ 4-byte Reload
	lsrs	r0, r0, #1
	ldr	r1, [sp, #56]                   @ 4-byte Reload
	lsrs	r2, r1, #1
	ldr	r1, [sp, #88]                   @ 4-byte Reload
	lsls	r1, r1, #29
	asrs	r1, r1, #31
	ldr	r3, [sp, #64]                   @ 4-byte Reload
	ands	r1, r3
	eors	r1, r2
	lsls	r2, r1, #31
	adds	r0, r0, r2
	str	r0, [sp, #80]                   @ 4-byte Spill
	ldr	r0, [sp, #76]                   @ 4-byte Reload
	ldr	r3, [sp, #20]                   @ 4-byte Reload
	ands	r3, r0
	ldr	r2, [sp, #72]                   @ 4-byte Reload
	ldr	r0, [sp, #84]                   @ 4-byte Reload
	ands	r2, r0
	ldr	r0, [sp, #40]                   @ 4-byte Reload
	eors	r2, r0
	eors	r2, r3
	ldr	r0, [sp, #56]                   @ 4-byte Reload
	ldr	r3, [sp, #68]                   @ 4-byte Reload
	ands	r0, r3
	eors	r0, r2
	ands	r5, r1
	eors	r5, r0
	ldr	r0, [sp, #16]                   @ 4-byte Reload
	lsrs	r0, r0, #1
	ldr	r2, [sp, #32]                   @ 4-byte Reload
	lsls	r2, r2, #31
	adds	r0, r0, r2
	str	r0, [sp, #76]                   @ 4-byte Spill
	lsrs	r0, r1, #1
	ldr	r1, [sp, #88]                   @ 4-byte Reload
	lsls	r1, r1, #28
	asrs	r1, r1, #31
	ldr	r2, [sp, #64]                   @ 4-byte Reload
	ands	r1, r2
	eors	r1, r0
	str	r1, [sp, #84]                   @ 4-byte Spill
	ldr	r0, [sp, #52]                   @ 4-byte Reload
	lsrs	r2, r0, #28
	ldr	r3, [sp, #44]                   @ 4-byte Reload
	lsls	r1, r3, #4
	adds	r1, r1, r2
	str	r1, [sp, #72]                   @ 4-byte Spill
	lsrs	r3, r3, #28
	ldr	r2, [sp, #48]                   @ 4-byte Reload
	lsls	r1, r2, #4
	adds	r3, r1, r3
	lsrs	r1, r2, #28
	ldr	r2, [sp, #60]                   @ 4-byte Reload
	lsls	r2, r2, #4
	adds	r1, r2, r1
	str	r1, [sp, #60]                   @ 4-byte Spill
	lsls	r0, r0, #4
	str	r0, [sp, #52]                   @ 4-byte Spill
	ldr	r0, [sp, #28]                   @ 4-byte Reload
	subs	r0, r0, #4
	str	r6, [sp, #32]                   @ 4-byte Spill
	str	r7, [sp, #36]                   @ 4-byte Spill
	str	r5, [sp, #40]                   @ 4-byte Spill
	ldr	r1, [sp, #76]                   @ 4-byte Reload
	str	r1, [sp, #88]                   @ 4-byte Spill
	ldr	r1, [sp, #24]                   @ 4-byte Reload
	ldr	r2, [sp, #72]                   @ 4-byte Reload
	str	r2, [sp, #44]                   @ 4-byte Spill
	str	r3, [sp, #48]                   @ 4-byte Spill
	beq	.Lgcm_v6m_BB9_2
	b	.Lgcm_v6m_BB9_1
.Lgcm_v6m_BB9_2:                                @ %after.1
	mov	r0, r6
	mov	r1, r7
	mov	r2, r4
	mov	r3, r5
	add	sp, #92
	pop	{r4, r5, r6, r7, pc}
.Lgcm_v6m_func_end9:
	.size	gcm_v6m.gcm.bitwise.product_bitwise, .Lgcm_v6m_func_end9-gcm_v6m.gcm.bitwise.product_bitwise
	.cantunwind
	.fnend
                                        @ -- End function
	.section	.text.gcm_v6m.gcm.tags.hash_lengths,"ax",%progbits
	.p2align	1                               @ -- Begin function gcm::tags::hash_lengths::<#d9ba0fa9ccec4268>
	.type	gcm_v6m.gcm.tags.hash_lengths,%function
	.code	16
	.thumb_func
gcm_v6m.gcm.tags.hash_lengths: @ @gcm_v6m.gcm.tags.hash_lengths
	.fnstart
@ %bb.0:                                @ %start
	.save	{r4, r5, r6, r7, lr}
	push	{r4, r5, r6, r7, lr}
	.pad	#44
	sub	sp, #44
	str	r3, [sp, #40]                   @ 4-byte Spill
	str	r2, [sp, #36]                   @ 4-byte Spill
	ldrb	r1, [r0]
	lsls	r1, r1, #24
	ldrb	r2, [r0, #1]
	lsls	r2, r2, #16
	adds	r1, r2, r1
	ldrb	r2, [r0, #2]
	lsls	r2, r2, #8
	adds	r1, r1, r2
	ldrb	r2, [r0, #3]
	adds	r5, r1, r2
	ldrb	r1, [r0, #15]
	str	r1, [sp, #32]                   @ 4-byte Spill
	ldrb	r1, [r0, #14]
	str	r1, [sp, #28]                   @ 4-byte Spill
	ldrb	r1, [r0, #12]
	str	r1, [sp, #24]                   @ 4-byte Spill
	ldrb	r1, [r0, #13]
	str	r1, [sp, #20]                   @ 4-byte Spill
	ldrb	r1, [r0, #11]
	str	r1, [sp, #16]                   @ 4-byte Spill
	ldrb	r7, [r0, #10]
	ldrb	r6, [r0, #9]
	ldrb	r4, [r0, #8]
	ldrb	r3, [r0, #7]
	ldrb	r2, [r0, #6]
	ldrb	r1, [r0, #4]
	ldrb	r0, [r0, #5]
	str	r5, [sp, #12]
	lsls	r0, r0, #16
	lsls	r1, r1, #24
	adds	r0, r1, r0
	lsls	r1, r2, #8
	adds	r0, r0, r1
	adds	r0, r0, r3
	str	r0, [sp, #8]
	lsls	r0, r4, #24
	lsls	r1, r6, #16
	adds	r0, r1, r0
	lsls	r1, r7, #8
	adds	r0, r0, r1
	ldr	r1, [sp, #16]                   @ 4-byte Reload
	adds	r0, r0, r1
	str	r0, [sp, #4]
	ldr	r0, [sp, #20]                   @ 4-byte Reload
	lsls	r0, r0, #16
	ldr	r1, [sp, #24]                   @ 4-byte Reload
	lsls	r1, r1, #24
	adds	r0, r1, r0
	ldr	r1, [sp, #28]                   @ 4-byte Reload
	lsls	r1, r1, #8
	adds	r0, r0, r1
	ldr	r1, [sp, #32]                   @ 4-byte Reload
	adds	r0, r0, r1
	str	r0, [sp]
	ldr	r1, [sp, #80]
	lsls	r0, r1, #3
	ldr	r2, [sp, #36]                   @ 4-byte Reload
	eors	r0, r2
	ldr	r3, [sp, #72]
	lsls	r4, r3, #3
	ldr	r2, [sp, #64]
	eors	r2, r4
	lsrs	r1, r1, #29
	ldr	r4, [sp, #84]
	lsls	r4, r4, #3
	adds	r1, r4, r1
	ldr	r4, [sp, #40]                   @ 4-byte Reload
	eors	r1, r4
	lsrs	r3, r3, #29
	ldr	r4, [sp, #76]
	lsls	r4, r4, #3
	adds	r4, r4, r3
	ldr	r3, [sp, #68]
	eors	r3, r4
	bl	gcm_v6m.gcm.bitwise.product_bitwise
	add	sp, #44
	pop	{r4, r5, r6, r7, pc}
.Lgcm_v6m_func_end10:
	.size	gcm_v6m.gcm.tags.hash_lengths, .Lgcm_v6m_func_end10-gcm_v6m.gcm.tags.hash_lengths
	.cantunwind
	.fnend
                                        @ -- End function
	.section	.text.gcm_v6m.aes_cipher.zeroize.stack.wipe_stack.512,"ax",%progbits
	.p2align	1                               @ -- Begin function aes_cipher::zeroize::stack::wipe_stack::<=512>
	.type	gcm_v6m.aes_cipher.zeroize.stack.wipe_stack.512,%function
	.code	16
	.thumb_func
gcm_v6m.aes_cipher.zeroize.stack.wipe_stack.512: @ @gcm_v6m.aes_cipher.zeroize.stack.wipe_stack.512
	.fnstart
@ %bb.0:                                @ %start
	.save	{r4, lr}
	push	{r4, lr}
	.pad	#508
	sub	sp, #508
	.pad	#12
	sub	sp, #12
	movs	r0, #1
	lsls	r2, r0, #9
	add	r0, sp, #8
	movs	r4, #0
	mov	r1, r4
	bl	memset
	str	r4, [sp, #4]
	str	r4, [sp]
	@APP
	@NO_APP
	ldr	r0, [sp]
	lsrs	r1, r0, #9
	ldr	r2, [sp, #4]
	orrs	r2, r1
	@APP
	@NO_APP
	bne	.Lgcm_v6m_BB11_2
@ %bb.1:                                @ %then.1
	add	r1, sp, #8
	ldrb	r0, [r1, r0]
	@APP
	@NO_APP
	ldr	r1, [sp, #4]
	ldr	r1, [sp]
	str	r4, [sp, #4]
	str	r0, [sp]
	@APP
	@NO_APP
.Lgcm_v6m_BB11_2:                               @ %common.ret
	add	sp, #508
	add	sp, #12
	pop	{r4, pc}
.Lgcm_v6m_func_end11:
	.size	gcm_v6m.aes_cipher.zeroize.stack.wipe_stack.512, .Lgcm_v6m_func_end11-gcm_v6m.aes_cipher.zeroize.stack.wipe_stack.512
	.cantunwind
	.fnend
                                        @ -- End function
	.section	.text.gcm_v6m.gcm.mode.BorrowedGcm.put_tag_so_far,"ax",%progbits
	.p2align	2                               @ -- Begin function gcm::mode::BorrowedGcm::put_tag_so_far::<#c01aad2b5fbc92b1>
	.type	gcm_v6m.gcm.mode.BorrowedGcm.put_tag_so_far,%function
	.code	16
	.thumb_func
gcm_v6m.gcm.mode.BorrowedGcm.put_tag_so_far: @ @gcm_v6m.gcm.mode.BorrowedGcm.put_tag_so_far
	.fnstart
@ %bb.0:                                @ %start
	.save	{r4, r5, r6, r7, lr}
	push	{r4, r5, r6, r7, lr}
	.pad	#76
	sub	sp, #76
	mov	r4, r2
	mov	r5, r1
	mov	r6, r0
	adds	r1, #32
	movs	r2, #16
	mov	r0, r4
	bl	memmove
	ldrb	r0, [r6, #15]
	str	r0, [sp, #68]                   @ 4-byte Spill
	ldrb	r0, [r6, #14]
	str	r0, [sp, #64]                   @ 4-byte Spill
	ldrb	r0, [r6, #12]
	str	r0, [sp, #60]                   @ 4-byte Spill
	ldrb	r0, [r6, #13]
	str	r0, [sp, #56]                   @ 4-byte Spill
	ldrb	r0, [r6, #11]
	str	r0, [sp, #52]                   @ 4-byte Spill
	ldrb	r0, [r6, #10]
	str	r0, [sp, #48]                   @ 4-byte Spill
	ldrb	r0, [r6, #8]
	str	r0, [sp, #44]                   @ 4-byte Spill
	ldrb	r0, [r6, #9]
	str	r0, [sp, #40]                   @ 4-byte Spill
	ldrb	r0, [r6, #3]
	str	r0, [sp, #36]                   @ 4-byte Spill
	ldrb	r3, [r6, #2]
	ldrb	r2, [r6]
	ldrb	r1, [r6, #1]
	movs	r0, #0
	movs	r7, #1
	str	r7, [sp, #8]
	str	r0, [sp, #72]                   @ 4-byte Spill
	str	r0, [sp, #12]
	str	r4, [sp]
	lsls	r0, r1, #8
	adds	r0, r0, r2
	lsls	r1, r3, #16
	ldr	r2, [sp, #36]                   @ 4-byte Reload
	lsls	r2, r2, #24
	adds	r1, r2, r1
	adds	r0, r1, r0
	ldr	r1, [sp, #40]                   @ 4-byte Reload
	lsls	r1, r1, #8
	ldr	r2, [sp, #44]                   @ 4-byte Reload
	adds	r1, r1, r2
	ldr	r2, [sp, #48]                   @ 4-byte Reload
	lsls	r2, r2, #16
	ldr	r3, [sp, #52]                   @ 4-byte Reload
	lsls	r3, r3, #24
	adds	r2, r3, r2
	adds	r2, r2, r1
	ldr	r1, [sp, #56]                   @ 4-byte Reload
	lsls	r1, r1, #8
	ldr	r3, [sp, #60]                   @ 4-byte Reload
	adds	r1, r1, r3
	ldr	r3, [sp, #64]                   @ 4-byte Reload
	lsls	r3, r3, #16
	ldr	r7, [sp, #68]                   @ 4-byte Reload
	lsls	r7, r7, #24
	adds	r3, r7, r3
	adds	r3, r3, r1
	bl	gcm_v6m.aes_narrow.blocks.process_all_batches
	bl	gcm_v6m.aes_cipher.zeroize.stack.wipe_stack.1024
	ldr	r0, [r6, #16]
	mov	r1, r5
	bl	gcm_v6m.gcm.mode.BorrowedGcm.hash_so_far
	str	r0, [sp, #68]                   @ 4-byte Spill
	str	r1, [sp, #64]                   @ 4-byte Spill
	ldr	r0, [r6, #16]
	str	r0, [sp, #60]                   @ 4-byte Spill
	ldm	r5!, {r0, r7}
	ldr	r1, [r5]
	ldr	r5, [r5, #4]
	str	r2, [sp]
	str	r3, [sp, #4]
	movs	r2, #31
	mvns	r2, r2
	movs	r3, #15
	mov	r6, r1
	adds	r6, #32
	mov	r6, r5
	sbcs	r6, r3
	blo	.Lgcm_v6m_BB12_2
@ %bb.1:                                @ %start
	mov	r5, r3
.Lgcm_v6m_BB12_2:                               @ %start
	str	r5, [sp, #20]
	blo	.Lgcm_v6m_BB12_4
@ %bb.3:                                @ %start
	mov	r1, r2
.Lgcm_v6m_BB12_4:                               @ %start
	str	r1, [sp, #16]
	ldr	r1, [sp, #72]                   @ 4-byte Reload
	mvns	r2, r1
	lsrs	r1, r7, #29
	cmp	r1, #0
	beq	.Lgcm_v6m_BB12_6
@ %bb.5:                                @ %start
	ldr	r7, .Lgcm_v6m_CPI12_0
.Lgcm_v6m_BB12_6:                               @ %start
	str	r7, [sp, #12]
	beq	.Lgcm_v6m_BB12_8
@ %bb.7:                                @ %start
	mov	r0, r2
.Lgcm_v6m_BB12_8:                               @ %start
	str	r0, [sp, #8]
	ldr	r0, [sp, #60]                   @ 4-byte Reload
	ldr	r2, [sp, #68]                   @ 4-byte Reload
	ldr	r3, [sp, #64]                   @ 4-byte Reload
	bl	gcm_v6m.gcm.tags.hash_lengths
	mov	r5, r0
	mov	r6, r1
	str	r2, [sp, #56]                   @ 4-byte Spill
	str	r3, [sp, #68]                   @ 4-byte Spill
	lsrs	r0, r3, #24
	ldrb	r1, [r4]
	eors	r1, r0
	strb	r1, [r4]
	ldrb	r0, [r4, #15]
	eors	r0, r5
	ldrb	r1, [r4, #1]
	str	r1, [sp, #72]                   @ 4-byte Spill
	ldrb	r1, [r4, #2]
	str	r1, [sp, #64]                   @ 4-byte Spill
	ldrb	r1, [r4, #3]
	str	r1, [sp, #60]                   @ 4-byte Spill
	ldrb	r1, [r4, #4]
	str	r1, [sp, #52]                   @ 4-byte Spill
	ldrb	r1, [r4, #5]
	str	r1, [sp, #48]                   @ 4-byte Spill
	ldrb	r1, [r4, #6]
	str	r1, [sp, #44]                   @ 4-byte Spill
	ldrb	r3, [r4, #7]
	ldrb	r1, [r4, #8]
	str	r1, [sp, #40]                   @ 4-byte Spill
	ldrb	r1, [r4, #9]
	str	r1, [sp, #36]                   @ 4-byte Spill
	ldrb	r1, [r4, #10]
	str	r1, [sp, #32]                   @ 4-byte Spill
	ldrb	r1, [r4, #11]
	ldrb	r2, [r4, #12]
	str	r2, [sp, #28]                   @ 4-byte Spill
	ldrb	r7, [r4, #13]
	ldrb	r2, [r4, #14]
	strb	r0, [r4, #15]
	lsrs	r0, r5, #8
	eors	r0, r2
	strb	r0, [r4, #14]
	lsrs	r0, r5, #16
	eors	r0, r7
	strb	r0, [r4, #13]
	lsrs	r0, r5, #24
	ldr	r2, [sp, #28]                   @ 4-byte Reload
	eors	r0, r2
	strb	r0, [r4, #12]
	eors	r1, r6
	strb	r1, [r4, #11]
	lsrs	r0, r6, #8
	ldr	r1, [sp, #32]                   @ 4-byte Reload
	eors	r0, r1
	strb	r0, [r4, #10]
	lsrs	r0, r6, #16
	ldr	r1, [sp, #36]                   @ 4-byte Reload
	eors	r0, r1
	strb	r0, [r4, #9]
	lsrs	r0, r6, #24
	ldr	r1, [sp, #40]                   @ 4-byte Reload
	eors	r0, r1
	strb	r0, [r4, #8]
	ldr	r1, [sp, #56]                   @ 4-byte Reload
	eors	r3, r1
	strb	r3, [r4, #7]
	lsrs	r0, r1, #8
	ldr	r2, [sp, #44]                   @ 4-byte Reload
	eors	r0, r2
	strb	r0, [r4, #6]
	lsrs	r0, r1, #16
	ldr	r2, [sp, #48]                   @ 4-byte Reload
	eors	r0, r2
	strb	r0, [r4, #5]
	lsrs	r0, r1, #24
	ldr	r1, [sp, #52]                   @ 4-byte Reload
	eors	r0, r1
	strb	r0, [r4, #4]
	ldr	r1, [sp, #68]                   @ 4-byte Reload
	ldr	r0, [sp, #60]                   @ 4-byte Reload
	eors	r0, r1
	strb	r0, [r4, #3]
	lsrs	r0, r1, #8
	ldr	r2, [sp, #64]                   @ 4-byte Reload
	eors	r0, r2
	strb	r0, [r4, #2]
	lsrs	r0, r1, #16
	ldr	r1, [sp, #72]                   @ 4-byte Reload
	eors	r0, r1
	strb	r0, [r4, #1]
	add	sp, #76
	pop	{r4, r5, r6, r7, pc}
	.p2align	2
@ %bb.9:
.Lgcm_v6m_CPI12_0:
	.long	536870911                       @ 0x1fffffff
.Lgcm_v6m_func_end12:
	.size	gcm_v6m.gcm.mode.BorrowedGcm.put_tag_so_far, .Lgcm_v6m_func_end12-gcm_v6m.gcm.mode.BorrowedGcm.put_tag_so_far
	.cantunwind
	.fnend
                                        @ -- End function
	.section	.text.gcm_v6m.aes_narrow.blocks.process_all_batches,"ax",%progbits
	.p2align	1                               @ -- Begin function aes_narrow::blocks::process_all_batches::<#f6c900d3ac1e47b9>
	.type	gcm_v6m.aes_narrow.blocks.process_all_batches,%function
	.code	16
	.thumb_func
gcm_v6m.aes_narrow.blocks.process_all_batches: @ @gcm_v6m.aes_narrow.blocks.process_all_batches
	.fnstart
@ %bb.0:                                @ %start
	.save	{r4, r5, r6, r7, lr}
	push	{r4, r5, r6, r7, lr}
	.pad	#44
	sub	sp, #44
	add	r1, sp, #32
	stm	r1!, {r0, r2, r3}               @ 12-byte Folded Spill
	movs	r1, #0
	ldr	r2, [sp, #76]
	ldr	r5, [sp, #72]
	ldr	r0, [sp, #64]
	str	r0, [sp, #20]                   @ 4-byte Spill
	mov	r7, r1
	mov	r6, r1
	str	r1, [sp, #28]                   @ 4-byte Spill
	str	r2, [sp, #24]                   @ 4-byte Spill
	b	.Lgcm_v6m_BB13_2
.Lgcm_v6m_BB13_1:                               @ %join.5
                                        @   in Loop: Header=BB13_2 Depth=1
	str	r4, [sp, #8]
	add	r3, sp, #32
	ldm	r3, {r0, r2, r3}                @ 12-byte Folded Reload
	bl	gcm_v6m.aes_soft.soft.blocks.filled_up.process_filled_up
	adds	r7, r4, r7
	ldr	r1, [sp, #28]                   @ 4-byte Reload
	adcs	r6, r1
	subs	r0, r7, r5
	mov	r0, r6
	ldr	r2, [sp, #24]                   @ 4-byte Reload
	sbcs	r0, r2
	bhs	.Lgcm_v6m_BB13_6
.Lgcm_v6m_BB13_2:                               @ %join.5
                                        @ =>This Inner Loop Header: Depth=1
	str	r1, [sp, #12]
	lsls	r0, r7, #4
	ldr	r1, [sp, #20]                   @ 4-byte Reload
	adds	r0, r1, r0
	str	r0, [sp]
	subs	r4, r5, r7
	mov	r1, r2
	sbcs	r1, r6
	movs	r0, #2
	cmp	r4, #2
	blo	.Lgcm_v6m_BB13_4
@ %bb.3:                                @ %join.5
                                        @   in Loop: Header=BB13_2 Depth=1
	mov	r4, r0
.Lgcm_v6m_BB13_4:                               @ %join.5
                                        @   in Loop: Header=BB13_2 Depth=1
	cmp	r1, #0
	beq	.Lgcm_v6m_BB13_1
@ %bb.5:                                @ %join.5
                                        @   in Loop: Header=BB13_2 Depth=1
	mov	r4, r0
	b	.Lgcm_v6m_BB13_1
.Lgcm_v6m_BB13_6:                               @ %after.1
	add	sp, #44
	pop	{r4, r5, r6, r7, pc}
.Lgcm_v6m_func_end13:
	.size	gcm_v6m.aes_narrow.blocks.process_all_batches, .Lgcm_v6m_func_end13-gcm_v6m.aes_narrow.blocks.process_all_batches
	.cantunwind
	.fnend
                                        @ -- End function
	.section	.text.gcm_v6m.aes_soft.soft.blocks.filled_up.process_filled_up,"ax",%progbits
	.p2align	1                               @ -- Begin function aes_soft::soft::blocks::filled_up::process_filled_up::<#f6c900d3ac1e47b9>
	.type	gcm_v6m.aes_soft.soft.blocks.filled_up.process_filled_up,%function
	.code	16
	.thumb_func
gcm_v6m.aes_soft.soft.blocks.filled_up.process_filled_up: @ @gcm_v6m.aes_soft.soft.blocks.filled_up.process_filled_up
	.fnstart
@ %bb.0:                                @ %start
	.save	{r4, r5, r6, r7, lr}
	push	{r4, r5, r6, r7, lr}
	.pad	#156
	sub	sp, #156
	str	r3, [sp, #8]                    @ 4-byte Spill
	str	r2, [sp, #24]                   @ 4-byte Spill
	str	r0, [sp, #20]                   @ 4-byte Spill
	movs	r6, #0
	str	r6, [sp, #120]
	str	r6, [sp, #116]
	str	r6, [sp, #112]
	str	r6, [sp, #108]
	str	r6, [sp, #104]
	str	r6, [sp, #100]
	str	r6, [sp, #96]
	str	r6, [sp, #92]
	str	r6, [sp, #60]
	str	r6, [sp, #64]
	str	r6, [sp, #68]
	str	r6, [sp, #72]
	str	r6, [sp, #76]
	str	r6, [sp, #80]
	str	r6, [sp, #84]
	str	r6, [sp, #88]
	str	r6, [sp, #28]
	str	r6, [sp, #32]
	str	r6, [sp, #36]
	str	r6, [sp, #40]
	str	r6, [sp, #44]
	str	r6, [sp, #48]
	str	r6, [sp, #52]
	str	r6, [sp, #56]
	ldr	r4, [sp, #176]
	ldrb	r0, [r4, #12]
	ldrb	r1, [r4, #13]
	lsls	r1, r1, #8
	adds	r0, r1, r0
	ldrb	r1, [r4, #14]
	lsls	r1, r1, #16
	ldrb	r2, [r4, #15]
	lsls	r2, r2, #24
	adds	r1, r2, r1
	adds	r0, r1, r0
	str	r0, [sp, #136]
	ldrb	r0, [r4, #8]
	ldrb	r1, [r4, #9]
	lsls	r1, r1, #8
	adds	r0, r1, r0
	ldrb	r1, [r4, #10]
	lsls	r1, r1, #16
	ldrb	r2, [r4, #11]
	lsls	r2, r2, #24
	adds	r1, r2, r1
	adds	r0, r1, r0
	str	r0, [sp, #132]
	ldrb	r0, [r4, #4]
	ldrb	r1, [r4, #5]
	lsls	r1, r1, #8
	adds	r0, r1, r0
	ldrb	r1, [r4, #6]
	lsls	r1, r1, #16
	ldrb	r2, [r4, #7]
	lsls	r2, r2, #24
	adds	r1, r2, r1
	adds	r0, r1, r0
	str	r0, [sp, #128]
	ldrb	r0, [r4]
	ldrb	r1, [r4, #1]
	lsls	r1, r1, #8
	adds	r0, r1, r0
	ldrb	r1, [r4, #2]
	lsls	r1, r1, #16
	ldrb	r2, [r4, #3]
	lsls	r2, r2, #24
	adds	r1, r2, r1
	adds	r0, r1, r0
	str	r0, [sp, #124]
	add	r0, sp, #124
	adds	r0, #16
	movs	r2, #16
	mov	r1, r4
	bl	memcpy
	ldr	r5, [sp, #188]
	ldr	r7, [sp, #184]
	mov	r1, r7
	orrs	r1, r5
	rsbs	r0, r1, #0
	adcs	r0, r1
	str	r0, [sp, #12]                   @ 4-byte Spill
	ldr	r3, [sp, #8]                    @ 4-byte Reload
	lsls	r0, r3, #29
	ldr	r2, [sp, #24]                   @ 4-byte Reload
	lsrs	r2, r2, #3
	adds	r0, r2, r0
	lsrs	r3, r3, #3
	subs	r0, r0, #1
	str	r0, [sp, #24]                   @ 4-byte Spill
	sbcs	r3, r6
	cmp	r1, #0
	str	r5, [sp, #4]                    @ 4-byte Spill
	str	r7, [sp, #16]                   @ 4-byte Spill
	beq	.Lgcm_v6m_BB14_2
@ %bb.1:                                @ %join.8.i
	ldrb	r0, [r4, #12]
	ldrb	r1, [r4, #13]
	lsls	r1, r1, #8
	adds	r0, r1, r0
	ldrb	r1, [r4, #14]
	lsls	r1, r1, #16
	ldrb	r2, [r4, #15]
	lsls	r2, r2, #24
	adds	r1, r2, r1
	adds	r0, r1, r0
	str	r0, [sp, #136]
	ldrb	r0, [r4, #8]
	ldrb	r1, [r4, #9]
	lsls	r1, r1, #8
	adds	r0, r1, r0
	ldrb	r1, [r4, #10]
	lsls	r1, r1, #16
	ldrb	r2, [r4, #11]
	lsls	r2, r2, #24
	adds	r1, r2, r1
	adds	r0, r1, r0
	str	r0, [sp, #132]
	ldrb	r0, [r4, #4]
	ldrb	r1, [r4, #5]
	lsls	r1, r1, #8
	adds	r0, r1, r0
	ldrb	r1, [r4, #6]
	lsls	r1, r1, #16
	ldrb	r2, [r4, #7]
	lsls	r2, r2, #24
	adds	r1, r2, r1
	adds	r0, r1, r0
	str	r0, [sp, #128]
	ldrb	r0, [r4]
	ldrb	r1, [r4, #1]
	lsls	r1, r1, #8
	adds	r0, r1, r0
	ldrb	r1, [r4, #2]
	lsls	r1, r1, #16
	ldrb	r2, [r4, #3]
	lsls	r2, r2, #24
	adds	r1, r2, r1
	adds	r0, r1, r0
	str	r0, [sp, #124]
	movs	r0, #1
	eors	r0, r7
	orrs	r0, r5
	bne	.Lgcm_v6m_BB14_3
.Lgcm_v6m_BB14_2:                               @ %then.6.i
	add	r0, sp, #124
	add	r1, sp, #60
	ldm	r0!, {r2, r5, r6, r7}
	stm	r1!, {r2, r5, r6, r7}
	ldm	r0!, {r2, r5, r6, r7}
	stm	r1!, {r2, r5, r6, r7}
	b	.Lgcm_v6m_BB14_4
.Lgcm_v6m_BB14_3:                               @ %join.8.i.1
	add	r5, sp, #124
	mov	r0, r5
	adds	r0, #16
	mov	r1, r4
	adds	r1, #16
	movs	r2, #16
	mov	r6, r3
	bl	memcpy
	mov	r3, r6
	add	r0, sp, #60
	ldm	r5!, {r1, r2, r6, r7}
	stm	r0!, {r1, r2, r6, r7}
	ldm	r5!, {r1, r2, r6, r7}
	stm	r0!, {r1, r2, r6, r7}
.Lgcm_v6m_BB14_4:                               @ %"aes_soft::soft::blocks::filled_up::filled_up::<#ee324ebdabaa1892>.exit"
	add	r0, sp, #60
	str	r0, [sp]
	add	r6, sp, #28
	mov	r0, r6
	ldr	r1, [sp, #20]                   @ 4-byte Reload
	ldr	r2, [sp, #24]                   @ 4-byte Reload
	bl	gcm_v6m.aes_soft.soft.ciphers.planes.process_outlined
	add	r0, sp, #92
	ldm	r6!, {r1, r2, r3, r5}
	stm	r0!, {r1, r2, r3, r5}
	ldm	r6!, {r1, r2, r3, r5}
	stm	r0!, {r1, r2, r3, r5}
	ldr	r0, [sp, #12]                   @ 4-byte Reload
	cmp	r0, #0
	ldr	r5, [sp, #16]                   @ 4-byte Reload
	bne	.Lgcm_v6m_BB14_7
@ %bb.5:                                @ %join.8.i22
	add	r1, sp, #92
	movs	r2, #16
	mov	r0, r4
	bl	memcpy
	movs	r0, #1
	eors	r5, r0
	ldr	r0, [sp, #4]                    @ 4-byte Reload
	orrs	r5, r0
	beq	.Lgcm_v6m_BB14_7
@ %bb.6:                                @ %join.8.i22.1
	adds	r4, #16
	add	r1, sp, #92
	adds	r1, #16
	movs	r2, #16
	mov	r0, r4
	bl	memcpy
.Lgcm_v6m_BB14_7:                               @ %"aes_soft::soft::blocks::filled_up::copy_first::<#ee324ebdabaa1892>.exit"
	add	sp, #156
	pop	{r4, r5, r6, r7, pc}
.Lgcm_v6m_func_end14:
	.size	gcm_v6m.aes_soft.soft.blocks.filled_up.process_filled_up, .Lgcm_v6m_func_end14-gcm_v6m.aes_soft.soft.blocks.filled_up.process_filled_up
	.cantunwind
	.fnend
                                        @ -- End function
	.section	.text.gcm_v6m.aes_soft.soft.ciphers.planes.process_outlined,"ax",%progbits
	.p2align	2                               @ -- Begin function aes_soft::soft::ciphers::planes::process_outlined::<#dc651273b304e77a>
	.type	gcm_v6m.aes_soft.soft.ciphers.planes.process_outlined,%function
	.code	16
	.thumb_func
gcm_v6m.aes_soft.soft.ciphers.planes.process_outlined: @ @gcm_v6m.aes_soft.soft.ciphers.planes.process_outlined
	.fnstart
@ %bb.0:                                @ %start
	.save	{r4, r5, r6, r7, lr}
	push	{r4, r5, r6, r7, lr}
	.pad	#156
	sub	sp, #156
	str	r3, [sp, #12]                   @ 4-byte Spill
	str	r2, [sp, #16]                   @ 4-byte Spill
	str	r1, [sp, #32]                   @ 4-byte Spill
	str	r0, [sp, #4]                    @ 4-byte Spill
	ldr	r6, [sp, #176]
	ldrb	r0, [r6, #28]
	ldrb	r1, [r6, #29]
	lsls	r1, r1, #8
	adds	r0, r1, r0
	ldrb	r1, [r6, #30]
	lsls	r1, r1, #16
	adds	r0, r0, r1
	ldrb	r1, [r6, #31]
	lsls	r1, r1, #24
	adds	r2, r0, r1
	ldrb	r0, [r6, #12]
	ldrb	r1, [r6, #13]
	lsls	r1, r1, #8
	adds	r0, r1, r0
	ldrb	r1, [r6, #14]
	lsls	r1, r1, #16
	adds	r0, r0, r1
	ldrb	r1, [r6, #15]
	lsls	r1, r1, #24
	adds	r0, r0, r1
	str	r0, [sp, #144]                  @ 4-byte Spill
	lsrs	r0, r0, #1
	eors	r0, r2
	ldr	r5, .Lgcm_v6m_CPI15_9
	ands	r0, r5
	str	r0, [sp, #136]                  @ 4-byte Spill
	eors	r2, r0
	ldrb	r1, [r6, #24]
	ldrb	r3, [r6, #25]
	lsls	r3, r3, #8
	adds	r1, r3, r1
	ldrb	r3, [r6, #26]
	lsls	r3, r3, #16
	adds	r1, r1, r3
	ldrb	r3, [r6, #27]
	lsls	r3, r3, #24
	adds	r0, r1, r3
	ldrb	r1, [r6, #8]
	ldrb	r3, [r6, #9]
	lsls	r3, r3, #8
	adds	r1, r3, r1
	ldrb	r3, [r6, #10]
	lsls	r3, r3, #16
	adds	r1, r1, r3
	ldrb	r3, [r6, #11]
	lsls	r3, r3, #24
	adds	r1, r1, r3
	str	r1, [sp, #132]                  @ 4-byte Spill
	lsrs	r3, r1, #1
	eors	r3, r0
	ands	r3, r5
	eors	r0, r3
	str	r0, [sp, #148]                  @ 4-byte Spill
	lsrs	r0, r0, #2
	eors	r0, r2
	ldr	r1, .Lgcm_v6m_CPI15_10
	ands	r0, r1
	str	r0, [sp, #140]                  @ 4-byte Spill
	eors	r2, r0
	ldrb	r1, [r6, #20]
	ldrb	r4, [r6, #21]
	lsls	r4, r4, #8
	adds	r1, r4, r1
	ldrb	r4, [r6, #22]
	lsls	r4, r4, #16
	adds	r1, r1, r4
	ldrb	r4, [r6, #23]
	lsls	r4, r4, #24
	adds	r0, r1, r4
	ldrb	r1, [r6, #4]
	ldrb	r4, [r6, #5]
	lsls	r4, r4, #8
	adds	r1, r4, r1
	ldrb	r4, [r6, #6]
	lsls	r4, r4, #16
	adds	r1, r1, r4
	ldrb	r4, [r6, #7]
	lsls	r4, r4, #24
	adds	r1, r1, r4
	str	r1, [sp, #120]                  @ 4-byte Spill
	lsrs	r4, r1, #1
	eors	r4, r0
	ands	r4, r5
	eors	r0, r4
	ldrb	r1, [r6, #16]
	ldrb	r5, [r6, #17]
	lsls	r5, r5, #8
	adds	r1, r5, r1
	ldrb	r5, [r6, #18]
	lsls	r5, r5, #16
	adds	r1, r1, r5
	ldrb	r5, [r6, #19]
	lsls	r5, r5, #24
	adds	r1, r1, r5
	str	r1, [sp, #152]                  @ 4-byte Spill
	ldrb	r1, [r6]
	ldrb	r5, [r6, #1]
	lsls	r5, r5, #8
	adds	r1, r5, r1
	ldrb	r5, [r6, #2]
	lsls	r5, r5, #16
	adds	r1, r1, r5
	ldrb	r5, [r6, #3]
	lsls	r5, r5, #24
	adds	r1, r1, r5
	str	r1, [sp, #112]                  @ 4-byte Spill
	lsrs	r7, r1, #1
	ldr	r1, [sp, #152]                  @ 4-byte Reload
	eors	r7, r1
	ldr	r5, .Lgcm_v6m_CPI15_9
	ands	r7, r5
	eors	r1, r7
	str	r1, [sp, #152]                  @ 4-byte Spill
	lsrs	r6, r1, #2
	eors	r6, r0
	ldr	r5, .Lgcm_v6m_CPI15_10
	ands	r6, r5
	eors	r0, r6
	str	r0, [sp, #124]                  @ 4-byte Spill
	lsrs	r0, r0, #4
	eors	r0, r2
	ldr	r1, .Lgcm_v6m_CPI15_11
	ands	r0, r1
	str	r0, [sp, #116]                  @ 4-byte Spill
	ldr	r1, [sp, #32]                   @ 4-byte Reload
	ldr	r1, [r1, #28]
	eors	r1, r2
	eors	r1, r0
	str	r1, [sp, #128]                  @ 4-byte Spill
	ldr	r0, [sp, #136]                  @ 4-byte Reload
	lsls	r1, r0, #1
	ldr	r0, [sp, #144]                  @ 4-byte Reload
	eors	r1, r0
	lsls	r2, r3, #1
	ldr	r0, [sp, #132]                  @ 4-byte Reload
	eors	r2, r0
	str	r2, [sp, #136]                  @ 4-byte Spill
	lsrs	r2, r2, #2
	eors	r2, r1
	ands	r2, r5
	eors	r1, r2
	lsls	r3, r4, #1
	ldr	r0, [sp, #120]                  @ 4-byte Reload
	eors	r3, r0
	lsls	r7, r7, #1
	ldr	r0, [sp, #112]                  @ 4-byte Reload
	eors	r7, r0
	lsrs	r0, r7, #2
	eors	r0, r3
	ands	r0, r5
	eors	r3, r0
	str	r3, [sp, #144]                  @ 4-byte Spill
	lsrs	r5, r3, #4
	eors	r5, r1
	ldr	r3, .Lgcm_v6m_CPI15_11
	ands	r5, r3
	ldr	r3, [sp, #32]                   @ 4-byte Reload
	ldr	r4, [r3, #24]
	eors	r4, r1
	eors	r4, r5
	str	r4, [sp, #80]                   @ 4-byte Spill
	ldr	r1, [sp, #140]                  @ 4-byte Reload
	lsls	r1, r1, #2
	ldr	r4, [sp, #148]                  @ 4-byte Reload
	eors	r1, r4
	lsls	r6, r6, #2
	ldr	r4, [sp, #152]                  @ 4-byte Reload
	eors	r6, r4
	str	r6, [sp, #152]                  @ 4-byte Spill
	lsrs	r6, r6, #4
	eors	r6, r1
	ldr	r4, .Lgcm_v6m_CPI15_11
	ands	r6, r4
	ldr	r4, [r3, #20]
	eors	r4, r1
	eors	r4, r6
	str	r4, [sp, #120]                  @ 4-byte Spill
	lsls	r1, r2, #2
	ldr	r2, [sp, #136]                  @ 4-byte Reload
	eors	r1, r2
	lsls	r0, r0, #2
	eors	r0, r7
	lsrs	r2, r0, #4
	eors	r2, r1
	ldr	r4, .Lgcm_v6m_CPI15_11
	ands	r2, r4
	ldr	r4, [r3, #16]
	eors	r4, r1
	eors	r4, r2
	str	r4, [sp, #56]                   @ 4-byte Spill
	ldr	r1, [sp, #116]                  @ 4-byte Reload
	lsls	r1, r1, #4
	mov	r4, r3
	ldr	r7, [r3, #12]
	eors	r7, r1
	ldr	r1, [sp, #124]                  @ 4-byte Reload
	eors	r7, r1
	lsls	r1, r5, #4
	ldr	r3, [r3, #8]
	eors	r3, r1
	ldr	r1, [sp, #144]                  @ 4-byte Reload
	eors	r3, r1
	str	r3, [sp, #148]                  @ 4-byte Spill
	lsls	r1, r6, #4
	ldr	r3, [r4, #4]
	eors	r3, r1
	ldr	r1, [sp, #152]                  @ 4-byte Reload
	eors	r3, r1
	str	r3, [sp, #116]                  @ 4-byte Spill
	lsls	r1, r2, #4
	ldr	r2, [r4]
	eors	r2, r1
	eors	r2, r0
	str	r2, [sp, #132]                  @ 4-byte Spill
	movs	r0, #0
	ldr	r1, [sp, #16]                   @ 4-byte Reload
	subs	r3, r1, #2
	ldr	r5, [sp, #12]                   @ 4-byte Reload
	str	r0, [sp, #28]                   @ 4-byte Spill
	sbcs	r5, r0
	lsls	r0, r5, #30
	lsrs	r1, r3, #2
	adds	r1, r1, r0
	str	r5, [sp]                        @ 4-byte Spill
	lsrs	r5, r5, #2
	mov	r0, r1
	orrs	r0, r5
	str	r3, [sp, #8]                    @ 4-byte Spill
	bne	.Lgcm_v6m_BB15_4
	bl	.Lgcm_v6m_BB15_21
	.p2align	2
@ %bb.1:
.Lgcm_v6m_CPI15_9:
	.long	1431655765                      @ 0x55555555
	.p2align	2
@ %bb.2:
.Lgcm_v6m_CPI15_10:
	.long	858993459                       @ 0x33333333
	.p2align	2
@ %bb.3:
.Lgcm_v6m_CPI15_11:
	.long	252645135                       @ 0xf0f0f0f
	.p2align	1
.Lgcm_v6m_BB15_4:                               @ %join.7.i.preheader
	mov	r2, r5
	ldr	r3, [sp, #28]                   @ 4-byte Reload
	str	r3, [sp, #60]                   @ 4-byte Spill
	ldr	r5, [sp, #56]                   @ 4-byte Reload
	str	r1, [sp, #24]                   @ 4-byte Spill
	str	r2, [sp, #20]                   @ 4-byte Spill
.Lgcm_v6m_BB15_5:                               @ %join.7.i
                                        @ =>This Inner Loop Header: Depth=1
	str	r3, [sp, #48]                   @ 4-byte Spill
	ldr	r2, [sp, #148]                  @ 4-byte Reload
	mov	r1, r2
	eors	r1, r5
	str	r1, [sp, #64]                   @ 4-byte Spill
	ldr	r3, [sp, #116]                  @ 4-byte Reload
	ldr	r6, [sp, #128]                  @ 4-byte Reload
	eors	r3, r6
	str	r3, [sp, #152]                  @ 4-byte Spill
	str	r6, [sp, #128]                  @ 4-byte Spill
	mov	r0, r3
	eors	r0, r1
	str	r0, [sp, #68]                   @ 4-byte Spill
	eors	r7, r0
	mov	r3, r7
	eors	r3, r2
	str	r3, [sp, #140]                  @ 4-byte Spill
	ldr	r1, [sp, #120]                  @ 4-byte Reload
	ldr	r0, [sp, #80]                   @ 4-byte Reload
	eors	r1, r0
	mov	r4, r3
	eors	r4, r1
	str	r4, [sp, #144]                  @ 4-byte Spill
	eors	r7, r0
	mov	r3, r5
	eors	r3, r6
	str	r3, [sp, #104]                  @ 4-byte Spill
	mov	r6, r7
	eors	r6, r3
	mov	r0, r6
	eors	r0, r4
	mov	r4, r0
	str	r0, [sp, #84]                   @ 4-byte Spill
	ldr	r0, [sp, #64]                   @ 4-byte Reload
	ands	r4, r0
	mov	r0, r6
	ands	r0, r3
	eors	r4, r0
	str	r4, [sp, #112]                  @ 4-byte Spill
	ldr	r2, [sp, #132]                  @ 4-byte Reload
	eors	r2, r1
	str	r2, [sp, #124]                  @ 4-byte Spill
	ldr	r3, [sp, #116]                  @ 4-byte Reload
	eors	r3, r2
	str	r3, [sp, #116]                  @ 4-byte Spill
	ands	r3, r2
	mov	r2, r1
	eors	r2, r6
	mov	r1, r6
	str	r6, [sp, #108]                  @ 4-byte Spill
	eors	r3, r2
	str	r2, [sp, #120]                  @ 4-byte Spill
	ldr	r4, [sp, #152]                  @ 4-byte Reload
	ands	r2, r4
	eors	r3, r2
	eors	r3, r4
	ldr	r4, [sp, #112]                  @ 4-byte Reload
	eors	r3, r4
	str	r3, [sp, #136]                  @ 4-byte Spill
	ldr	r4, [sp, #148]                  @ 4-byte Reload
	ldr	r6, [sp, #128]                  @ 4-byte Reload
	eors	r4, r6
	str	r4, [sp, #148]                  @ 4-byte Spill
	ldr	r3, [sp, #144]                  @ 4-byte Reload
	ands	r3, r4
	eors	r3, r0
	mov	r4, r1
	ldr	r0, [sp, #132]                  @ 4-byte Reload
	eors	r4, r0
	str	r4, [sp, #52]                   @ 4-byte Spill
	ldr	r0, [sp, #124]                  @ 4-byte Reload
	eors	r0, r6
	str	r0, [sp, #96]                   @ 4-byte Spill
	ands	r4, r0
	ldr	r0, [sp, #120]                  @ 4-byte Reload
	eors	r4, r0
	eors	r4, r2
	eors	r4, r6
	eors	r4, r3
	mov	r1, r4
	ldr	r0, [sp, #136]                  @ 4-byte Reload
	eors	r1, r0
	str	r1, [sp, #128]                  @ 4-byte Spill
	ldr	r0, [sp, #140]                  @ 4-byte Reload
	mov	r1, r0
	ldr	r2, [sp, #68]                   @ 4-byte Reload
	ands	r1, r2
	ldr	r6, [sp, #116]                  @ 4-byte Reload
	ldr	r2, [sp, #148]                  @ 4-byte Reload
	eors	r6, r2
	str	r6, [sp, #44]                   @ 4-byte Spill
	mov	r2, r0
	ldr	r0, [sp, #132]                  @ 4-byte Reload
	eors	r2, r0
	mov	r0, r2
	str	r2, [sp, #92]                   @ 4-byte Spill
	mov	r2, r5
	mov	r5, r0
	ands	r5, r6
	eors	r5, r7
	eors	r5, r1
	ldr	r0, [sp, #112]                  @ 4-byte Reload
	eors	r5, r0
	ldr	r6, [sp, #136]                  @ 4-byte Reload
	ands	r6, r5
	ldr	r0, [sp, #124]                  @ 4-byte Reload
	eors	r2, r0
	str	r2, [sp, #56]                   @ 4-byte Spill
	mov	r0, r2
	ldr	r2, [sp, #132]                  @ 4-byte Reload
	ands	r0, r2
	ldr	r2, [sp, #148]                  @ 4-byte Reload
	eors	r0, r2
	ldr	r2, [sp, #144]                  @ 4-byte Reload
	eors	r0, r2
	eors	r0, r1
	eors	r0, r3
	mov	r7, r6
	eors	r7, r0
	ldr	r1, [sp, #128]                  @ 4-byte Reload
	ands	r7, r1
	mov	r1, r7
	eors	r1, r4
	eors	r7, r6
	ands	r7, r4
	ldr	r2, [sp, #136]                  @ 4-byte Reload
	eors	r2, r7
	str	r2, [sp, #136]                  @ 4-byte Spill
	eors	r2, r1
	mov	r3, r2
	str	r2, [sp, #88]                   @ 4-byte Spill
	eors	r5, r0
	eors	r6, r4
	mov	r2, r6
	eors	r7, r6
	ands	r2, r5
	eors	r2, r0
	ands	r7, r2
	eors	r7, r5
	mov	r6, r7
	eors	r6, r3
	mov	r3, r2
	str	r2, [sp, #112]                  @ 4-byte Spill
	str	r1, [sp, #100]                  @ 4-byte Spill
	eors	r2, r1
	str	r2, [sp, #72]                   @ 4-byte Spill
	mov	r0, r6
	eors	r0, r2
	str	r0, [sp, #76]                   @ 4-byte Spill
	ldr	r5, [sp, #84]                   @ 4-byte Reload
	ands	r5, r0
	ldr	r0, [sp, #124]                  @ 4-byte Reload
	ands	r0, r7
	mov	r2, r7
	eors	r2, r3
	ldr	r3, [sp, #120]                  @ 4-byte Reload
	ands	r3, r2
	str	r3, [sp, #120]                  @ 4-byte Spill
	mov	r4, r2
	eors	r0, r3
	str	r0, [sp, #124]                  @ 4-byte Spill
	eors	r5, r0
	ldr	r3, [sp, #144]                  @ 4-byte Reload
	ands	r3, r6
	ldr	r0, [sp, #132]                  @ 4-byte Reload
	ands	r0, r1
	ldr	r2, [sp, #140]                  @ 4-byte Reload
	ldr	r1, [sp, #136]                  @ 4-byte Reload
	ands	r2, r1
	eors	r0, r2
	str	r0, [sp, #132]                  @ 4-byte Spill
	eors	r3, r0
	ldr	r0, [sp, #152]                  @ 4-byte Reload
	ands	r4, r0
	str	r4, [sp, #84]                   @ 4-byte Spill
	eors	r3, r4
	eors	r3, r5
	str	r3, [sp, #144]                  @ 4-byte Spill
	ldr	r1, [sp, #96]                   @ 4-byte Reload
	ldr	r0, [sp, #112]                  @ 4-byte Reload
	ands	r1, r0
	eors	r1, r3
	mov	r3, r1
	str	r1, [sp, #96]                   @ 4-byte Spill
	ldr	r1, [sp, #108]                  @ 4-byte Reload
	ldr	r4, [sp, #72]                   @ 4-byte Reload
	ands	r1, r4
	eors	r1, r5
	str	r1, [sp, #108]                  @ 4-byte Spill
	ldr	r0, [sp, #148]                  @ 4-byte Reload
	ands	r6, r0
	ldr	r0, [sp, #104]                  @ 4-byte Reload
	ands	r4, r0
	str	r4, [sp, #72]                   @ 4-byte Spill
	eors	r6, r4
	eors	r6, r1
	eors	r6, r3
	movs	r0, #2
	str	r0, [sp, #104]                  @ 4-byte Spill
	mov	r3, r6
	rors	r3, r0
	ldr	r1, .Lgcm_v6m_CPI15_12
	ands	r3, r1
	movs	r0, #10
	str	r0, [sp, #80]                   @ 4-byte Spill
	mov	r4, r6
	rors	r4, r0
	ldr	r1, .Lgcm_v6m_CPI15_13
	ands	r4, r1
	orrs	r4, r3
	eors	r6, r4
	movs	r0, #12
	str	r0, [sp, #148]                  @ 4-byte Spill
	mov	r3, r6
	rors	r3, r0
	ldr	r1, .Lgcm_v6m_CPI15_14
	ands	r3, r1
	movs	r0, #20
	str	r0, [sp, #128]                  @ 4-byte Spill
	mov	r1, r6
	rors	r1, r0
	ldr	r5, .Lgcm_v6m_CPI15_15
	ands	r1, r5
	orrs	r1, r3
	ldr	r3, [sp, #60]                   @ 4-byte Reload
	lsls	r3, r3, #7
	ldr	r5, [sp, #32]                   @ 4-byte Reload
	adds	r3, r5, r3
	str	r3, [sp, #152]                  @ 4-byte Spill
	ldr	r5, [r3, #52]
	eors	r5, r1
	eors	r5, r4
	str	r5, [sp, #140]                  @ 4-byte Spill
	ldr	r0, [sp, #92]                   @ 4-byte Reload
	ldr	r3, [sp, #88]                   @ 4-byte Reload
	ands	r0, r3
	eors	r0, r2
	ldr	r1, [sp, #124]                  @ 4-byte Reload
	eors	r0, r1
	ldr	r1, [sp, #64]                   @ 4-byte Reload
	ldr	r2, [sp, #76]                   @ 4-byte Reload
	ands	r2, r1
	ldr	r1, [sp, #72]                   @ 4-byte Reload
	eors	r2, r1
	str	r2, [sp, #76]                   @ 4-byte Spill
	ldr	r1, [sp, #44]                   @ 4-byte Reload
	ands	r3, r1
	eors	r3, r2
	str	r3, [sp, #88]                   @ 4-byte Spill
	ldr	r1, [sp, #136]                  @ 4-byte Reload
	ldr	r4, [sp, #68]                   @ 4-byte Reload
	ands	r1, r4
	eors	r1, r3
	str	r1, [sp, #136]                  @ 4-byte Spill
	eors	r0, r1
	str	r0, [sp, #92]                   @ 4-byte Spill
	mov	r2, r0
	ldr	r3, [sp, #104]                  @ 4-byte Reload
	rors	r2, r3
	ldr	r4, .Lgcm_v6m_CPI15_12
	ands	r2, r4
	mov	r1, r0
	ldr	r5, [sp, #80]                   @ 4-byte Reload
	rors	r1, r5
	ldr	r4, .Lgcm_v6m_CPI15_13
	ands	r1, r4
	orrs	r1, r2
	str	r1, [sp, #72]                   @ 4-byte Spill
	eors	r1, r0
	str	r1, [sp, #64]                   @ 4-byte Spill
	ldr	r2, [sp, #140]                  @ 4-byte Reload
	eors	r2, r1
	str	r2, [sp, #140]                  @ 4-byte Spill
	mov	r2, r0
	ldr	r0, [sp, #108]                  @ 4-byte Reload
	eors	r2, r0
	mov	r1, r2
	rors	r1, r3
	ldr	r0, .Lgcm_v6m_CPI15_12
	ands	r1, r0
	mov	r4, r2
	mov	r0, r5
	rors	r4, r5
	ldr	r3, .Lgcm_v6m_CPI15_13
	ands	r4, r3
	orrs	r4, r1
	eors	r2, r4
	str	r2, [sp, #44]                   @ 4-byte Spill
	mov	r1, r2
	ldr	r3, [sp, #148]                  @ 4-byte Reload
	rors	r1, r3
	ldr	r5, .Lgcm_v6m_CPI15_14
	ands	r1, r5
	mov	r3, r2
	ldr	r2, [sp, #128]                  @ 4-byte Reload
	rors	r3, r2
	ldr	r2, .Lgcm_v6m_CPI15_15
	ands	r3, r2
	orrs	r3, r1
	ldr	r1, [sp, #152]                  @ 4-byte Reload
	ldr	r1, [r1, #56]
	eors	r1, r3
	eors	r1, r4
	eors	r1, r6
	str	r1, [sp, #124]                  @ 4-byte Spill
	ldr	r2, [sp, #140]                  @ 4-byte Reload
	eors	r2, r1
	str	r2, [sp, #140]                  @ 4-byte Spill
	ldr	r1, [sp, #52]                   @ 4-byte Reload
	ldr	r2, [sp, #112]                  @ 4-byte Reload
	ands	r2, r1
	ldr	r1, [sp, #132]                  @ 4-byte Reload
	eors	r2, r1
	ldr	r1, [sp, #120]                  @ 4-byte Reload
	eors	r2, r1
	str	r2, [sp, #112]                  @ 4-byte Spill
	ldr	r1, [sp, #116]                  @ 4-byte Reload
	ands	r7, r1
	eors	r7, r2
	ldr	r1, [sp, #76]                   @ 4-byte Reload
	eors	r7, r1
	ldr	r2, [sp, #84]                   @ 4-byte Reload
	eors	r2, r7
	mov	r1, r2
	ldr	r6, [sp, #104]                  @ 4-byte Reload
	rors	r1, r6
	ldr	r3, .Lgcm_v6m_CPI15_12
	ands	r1, r3
	mov	r3, r2
	rors	r3, r0
	ldr	r4, .Lgcm_v6m_CPI15_13
	ands	r3, r4
	orrs	r3, r1
	eors	r2, r3
	str	r2, [sp, #84]                   @ 4-byte Spill
	mov	r1, r2
	ldr	r4, [sp, #148]                  @ 4-byte Reload
	rors	r1, r4
	ands	r1, r5
	ldr	r4, [sp, #128]                  @ 4-byte Reload
	rors	r2, r4
	ldr	r4, .Lgcm_v6m_CPI15_15
	ands	r2, r4
	orrs	r2, r1
	ldr	r1, [sp, #152]                  @ 4-byte Reload
	ldr	r5, [r1, #32]
	eors	r5, r2
	eors	r5, r3
	ldr	r2, [sp, #136]                  @ 4-byte Reload
	ldr	r1, [sp, #108]                  @ 4-byte Reload
	eors	r2, r1
	mov	r1, r2
	mov	r3, r6
	rors	r1, r6
	ldr	r4, .Lgcm_v6m_CPI15_12
	ands	r1, r4
	mov	r4, r2
	rors	r4, r0
	ldr	r6, .Lgcm_v6m_CPI15_13
	ands	r4, r6
	orrs	r4, r1
	eors	r2, r4
	str	r2, [sp, #136]                  @ 4-byte Spill
	eors	r5, r2
	str	r5, [sp, #116]                  @ 4-byte Spill
	ldr	r6, [sp, #140]                  @ 4-byte Reload
	eors	r6, r5
	ldr	r1, [sp, #144]                  @ 4-byte Reload
	eors	r7, r1
	mov	r1, r7
	rors	r1, r3
	ldr	r2, .Lgcm_v6m_CPI15_12
	ands	r1, r2
	mov	r3, r7
	rors	r3, r0
	ldr	r0, .Lgcm_v6m_CPI15_13
	ands	r3, r0
	orrs	r3, r1
	eors	r7, r3
	mov	r1, r7
	ldr	r0, [sp, #148]                  @ 4-byte Reload
	rors	r1, r0
	ldr	r0, .Lgcm_v6m_CPI15_14
	ands	r1, r0
	mov	r2, r7
	ldr	r0, [sp, #128]                  @ 4-byte Reload
	rors	r2, r0
	ldr	r5, .Lgcm_v6m_CPI15_15
	ands	r2, r5
	orrs	r2, r1
	ldr	r1, [sp, #152]                  @ 4-byte Reload
	ldr	r5, [r1, #36]
	eors	r5, r2
	eors	r5, r3
	ldr	r0, [sp, #84]                   @ 4-byte Reload
	eors	r5, r0
	ldr	r2, [sp, #136]                  @ 4-byte Reload
	eors	r5, r2
	mov	r0, r6
	str	r6, [sp, #120]                  @ 4-byte Spill
	mov	r1, r6
	eors	r1, r5
	mov	r6, r5
	str	r1, [sp, #68]                   @ 4-byte Spill
	ands	r1, r0
	str	r1, [sp, #144]                  @ 4-byte Spill
	mov	r1, r2
	ldr	r3, [sp, #148]                  @ 4-byte Reload
	rors	r1, r3
	ldr	r0, .Lgcm_v6m_CPI15_14
	ands	r1, r0
	ldr	r5, [sp, #128]                  @ 4-byte Reload
	rors	r2, r5
	ldr	r0, .Lgcm_v6m_CPI15_15
	ands	r2, r0
	orrs	r2, r1
	ldr	r0, [sp, #152]                  @ 4-byte Reload
	ldr	r0, [r0, #60]
	eors	r0, r2
	eors	r0, r4
	ldr	r1, [sp, #44]                   @ 4-byte Reload
	eors	r0, r1
	str	r0, [sp, #108]                  @ 4-byte Spill
	eors	r6, r0
	str	r6, [sp, #76]                   @ 4-byte Spill
	ldr	r4, [sp, #100]                  @ 4-byte Reload
	ldr	r0, [sp, #56]                   @ 4-byte Reload
	ands	r4, r0
	ldr	r0, [sp, #88]                   @ 4-byte Reload
	eors	r4, r0
	ldr	r0, [sp, #96]                   @ 4-byte Reload
	eors	r4, r0
	mov	r1, r4
	ldr	r0, [sp, #104]                  @ 4-byte Reload
	rors	r1, r0
	ldr	r0, .Lgcm_v6m_CPI15_12
	ands	r1, r0
	mov	r0, r4
	ldr	r2, [sp, #80]                   @ 4-byte Reload
	rors	r0, r2
	ldr	r2, .Lgcm_v6m_CPI15_13
	ands	r0, r2
	orrs	r0, r1
	eors	r4, r0
	str	r4, [sp, #100]                  @ 4-byte Spill
	mov	r1, r4
	rors	r1, r3
	ldr	r2, .Lgcm_v6m_CPI15_14
	ands	r1, r2
	mov	r2, r4
	mov	r4, r5
	rors	r2, r5
	ldr	r5, .Lgcm_v6m_CPI15_15
	ands	r2, r5
	orrs	r2, r1
	ldr	r1, [sp, #152]                  @ 4-byte Reload
	ldr	r6, [r1, #40]
	eors	r6, r2
	eors	r6, r0
	eors	r6, r7
	str	r6, [sp, #132]                  @ 4-byte Spill
	ldr	r2, [sp, #64]                   @ 4-byte Reload
	mov	r0, r2
	rors	r0, r3
	mov	r6, r3
	ldr	r3, .Lgcm_v6m_CPI15_14
	ands	r0, r3
	rors	r2, r4
	ands	r2, r5
	orrs	r2, r0
	mov	r3, r2
	mov	r2, r1
	ldr	r4, [r1, #48]
	eors	r4, r3
	ldr	r1, [sp, #72]                   @ 4-byte Reload
	eors	r4, r1
	ldr	r1, [sp, #136]                  @ 4-byte Reload
	eors	r4, r1
	ldr	r7, [sp, #112]                  @ 4-byte Reload
	ldr	r0, [sp, #92]                   @ 4-byte Reload
	eors	r7, r0
	mov	r0, r7
	ldr	r3, [sp, #104]                  @ 4-byte Reload
	rors	r0, r3
	ldr	r3, .Lgcm_v6m_CPI15_12
	ands	r0, r3
	mov	r3, r7
	ldr	r5, [sp, #80]                   @ 4-byte Reload
	rors	r3, r5
	ldr	r5, .Lgcm_v6m_CPI15_13
	ands	r3, r5
	orrs	r3, r0
	eors	r7, r3
	eors	r4, r7
	mov	r5, r4
	str	r4, [sp, #96]                   @ 4-byte Spill
	ldr	r0, [sp, #132]                  @ 4-byte Reload
	eors	r5, r0
	str	r5, [sp, #64]                   @ 4-byte Spill
	ldr	r0, [sp, #76]                   @ 4-byte Reload
	eors	r0, r5
	mov	r1, r0
	str	r0, [sp, #56]                   @ 4-byte Spill
	mov	r0, r7
	rors	r0, r6
	ldr	r5, .Lgcm_v6m_CPI15_14
	ands	r0, r5
	ldr	r5, [sp, #128]                  @ 4-byte Reload
	rors	r7, r5
	ldr	r5, .Lgcm_v6m_CPI15_15
	ands	r7, r5
	orrs	r7, r0
	ldr	r0, [r2, #44]
	eors	r0, r7
	ldr	r2, [sp, #100]                  @ 4-byte Reload
	eors	r0, r2
	ldr	r2, [sp, #136]                  @ 4-byte Reload
	eors	r0, r2
	eors	r0, r3
	eors	r0, r1
	ldr	r1, [sp, #124]                  @ 4-byte Reload
	eors	r1, r0
	str	r1, [sp, #124]                  @ 4-byte Spill
	mov	r6, r0
	ldr	r7, [sp, #108]                  @ 4-byte Reload
	eors	r4, r7
	mov	r0, r1
	eors	r0, r4
	str	r4, [sp, #40]                   @ 4-byte Spill
	mov	r2, r0
	mov	r3, r0
	ldr	r0, [sp, #140]                  @ 4-byte Reload
	eors	r2, r0
	str	r2, [sp, #136]                  @ 4-byte Spill
	ldr	r5, [sp, #144]                  @ 4-byte Reload
	eors	r5, r2
	ldr	r1, [sp, #76]                   @ 4-byte Reload
	ands	r2, r1
	eors	r5, r2
	eors	r5, r1
	ldr	r1, [sp, #132]                  @ 4-byte Reload
	eors	r6, r1
	str	r6, [sp, #112]                  @ 4-byte Spill
	eors	r0, r6
	str	r0, [sp, #140]                  @ 4-byte Spill
	str	r3, [sp, #100]                  @ 4-byte Spill
	mov	r6, r3
	eors	r6, r0
	str	r6, [sp, #36]                   @ 4-byte Spill
	ldr	r0, [sp, #64]                   @ 4-byte Reload
	ands	r6, r0
	mov	r0, r3
	ands	r0, r4
	eors	r6, r0
	eors	r5, r6
	str	r5, [sp, #144]                  @ 4-byte Spill
	ldr	r5, [sp, #120]                  @ 4-byte Reload
	mov	r4, r7
	eors	r5, r7
	str	r5, [sp, #92]                   @ 4-byte Spill
	mov	r1, r3
	ldr	r7, [sp, #116]                  @ 4-byte Reload
	eors	r1, r7
	str	r1, [sp, #52]                   @ 4-byte Spill
	ands	r1, r5
	ldr	r3, [sp, #136]                  @ 4-byte Reload
	eors	r1, r3
	eors	r1, r2
	eors	r1, r4
	ldr	r2, [sp, #132]                  @ 4-byte Reload
	eors	r2, r4
	ldr	r5, [sp, #140]                  @ 4-byte Reload
	ands	r5, r2
	str	r2, [sp, #132]                  @ 4-byte Spill
	eors	r5, r0
	eors	r1, r5
	mov	r3, r1
	ldr	r0, [sp, #144]                  @ 4-byte Reload
	eors	r3, r0
	str	r3, [sp, #108]                  @ 4-byte Spill
	ldr	r3, [sp, #112]                  @ 4-byte Reload
	mov	r4, r3
	ldr	r0, [sp, #56]                   @ 4-byte Reload
	ands	r4, r0
	ldr	r0, [sp, #68]                   @ 4-byte Reload
	eors	r0, r2
	str	r0, [sp, #44]                   @ 4-byte Spill
	mov	r2, r3
	eors	r2, r7
	str	r2, [sp, #84]                   @ 4-byte Spill
	ands	r2, r0
	ldr	r0, [sp, #124]                  @ 4-byte Reload
	eors	r2, r0
	eors	r2, r4
	eors	r2, r6
	ldr	r6, [sp, #144]                  @ 4-byte Reload
	mov	r7, r6
	ands	r7, r2
	ldr	r3, [sp, #96]                   @ 4-byte Reload
	ldr	r0, [sp, #120]                  @ 4-byte Reload
	eors	r3, r0
	str	r3, [sp, #96]                   @ 4-byte Spill
	ldr	r0, [sp, #116]                  @ 4-byte Reload
	ands	r3, r0
	ldr	r0, [sp, #132]                  @ 4-byte Reload
	eors	r3, r0
	ldr	r0, [sp, #140]                  @ 4-byte Reload
	eors	r3, r0
	eors	r3, r4
	eors	r3, r5
	mov	r5, r7
	eors	r5, r3
	ldr	r0, [sp, #108]                  @ 4-byte Reload
	ands	r5, r0
	mov	r0, r5
	eors	r0, r1
	eors	r5, r7
	ands	r5, r1
	eors	r6, r5
	str	r6, [sp, #144]                  @ 4-byte Spill
	eors	r6, r0
	str	r6, [sp, #80]                   @ 4-byte Spill
	eors	r2, r3
	eors	r7, r1
	eors	r5, r7
	ands	r7, r2
	eors	r7, r3
	ands	r5, r7
	str	r7, [sp, #104]                  @ 4-byte Spill
	eors	r5, r2
	mov	r3, r5
	eors	r3, r6
	mov	r1, r7
	str	r0, [sp, #108]                  @ 4-byte Spill
	eors	r1, r0
	str	r1, [sp, #88]                   @ 4-byte Spill
	mov	r0, r3
	eors	r0, r1
	str	r0, [sp, #72]                   @ 4-byte Spill
	ldr	r2, [sp, #36]                   @ 4-byte Reload
	ands	r2, r0
	ldr	r0, [sp, #120]                  @ 4-byte Reload
	ands	r0, r5
	mov	r1, r5
	eors	r1, r7
	ldr	r4, [sp, #136]                  @ 4-byte Reload
	ands	r4, r1
	str	r4, [sp, #136]                  @ 4-byte Spill
	eors	r0, r4
	str	r0, [sp, #120]                  @ 4-byte Spill
	mov	r4, r2
	eors	r4, r0
	ldr	r0, [sp, #140]                  @ 4-byte Reload
	ands	r0, r3
	ldr	r6, [sp, #116]                  @ 4-byte Reload
	ldr	r2, [sp, #108]                  @ 4-byte Reload
	ands	r6, r2
	ldr	r2, [sp, #112]                  @ 4-byte Reload
	ldr	r7, [sp, #144]                  @ 4-byte Reload
	ands	r2, r7
	eors	r6, r2
	str	r6, [sp, #116]                  @ 4-byte Spill
	mov	r7, r2
	eors	r0, r6
	ldr	r2, [sp, #76]                   @ 4-byte Reload
	ands	r1, r2
	str	r1, [sp, #76]                   @ 4-byte Spill
	eors	r0, r1
	eors	r0, r4
	mov	r1, r4
	str	r0, [sp, #140]                  @ 4-byte Spill
	ldr	r4, [sp, #92]                   @ 4-byte Reload
	ldr	r2, [sp, #104]                  @ 4-byte Reload
	ands	r4, r2
	eors	r4, r0
	str	r4, [sp, #92]                   @ 4-byte Spill
	ldr	r0, [sp, #100]                  @ 4-byte Reload
	ldr	r2, [sp, #88]                   @ 4-byte Reload
	ands	r0, r2
	eors	r0, r1
	mov	r1, r0
	str	r0, [sp, #100]                  @ 4-byte Spill
	ldr	r0, [sp, #132]                  @ 4-byte Reload
	ands	r3, r0
	ldr	r0, [sp, #40]                   @ 4-byte Reload
	ands	r2, r0
	str	r2, [sp, #88]                   @ 4-byte Spill
	eors	r3, r2
	eors	r3, r1
	eors	r3, r4
	movs	r1, #4
	str	r1, [sp, #112]                  @ 4-byte Spill
	mov	r0, r3
	rors	r0, r1
	ldr	r2, .Lgcm_v6m_CPI15_14
	ands	r0, r2
	mov	r6, r3
	ldr	r2, [sp, #148]                  @ 4-byte Reload
	rors	r6, r2
	ldr	r4, .Lgcm_v6m_CPI15_15
	ands	r6, r4
	orrs	r6, r0
	eors	r3, r6
	movs	r1, #16
	str	r1, [sp, #124]                  @ 4-byte Spill
	b	.Lgcm_v6m_BB15_10
	.p2align	2
@ %bb.6:
.Lgcm_v6m_CPI15_12:
	.long	3233857728                      @ 0xc0c0c0c0
	.p2align	2
@ %bb.7:
.Lgcm_v6m_CPI15_13:
	.long	1061109567                      @ 0x3f3f3f3f
	.p2align	2
@ %bb.8:
.Lgcm_v6m_CPI15_14:
	.long	4042322160                      @ 0xf0f0f0f0
	.p2align	2
@ %bb.9:
.Lgcm_v6m_CPI15_15:
	.long	252645135                       @ 0xf0f0f0f
	.p2align	1
.Lgcm_v6m_BB15_10:                              @ %join.7.i
                                        @   in Loop: Header=BB15_5 Depth=1
	mov	r0, r3
	rors	r0, r1
	ldr	r1, [sp, #152]                  @ 4-byte Reload
	ldr	r1, [r1, #84]
	eors	r1, r0
	eors	r1, r6
	str	r1, [sp, #132]                  @ 4-byte Spill
	ldr	r4, [sp, #84]                   @ 4-byte Reload
	ldr	r6, [sp, #80]                   @ 4-byte Reload
	ands	r4, r6
	eors	r4, r7
	ldr	r0, [sp, #120]                  @ 4-byte Reload
	eors	r4, r0
	ldr	r0, [sp, #64]                   @ 4-byte Reload
	ldr	r7, [sp, #72]                   @ 4-byte Reload
	ands	r7, r0
	mov	r1, r7
	ldr	r0, [sp, #88]                   @ 4-byte Reload
	eors	r1, r0
	str	r1, [sp, #72]                   @ 4-byte Spill
	ldr	r0, [sp, #44]                   @ 4-byte Reload
	ands	r6, r0
	eors	r6, r1
	str	r6, [sp, #80]                   @ 4-byte Spill
	ldr	r0, [sp, #144]                  @ 4-byte Reload
	ldr	r1, [sp, #56]                   @ 4-byte Reload
	ands	r0, r1
	eors	r0, r6
	str	r0, [sp, #144]                  @ 4-byte Spill
	eors	r4, r0
	str	r4, [sp, #84]                   @ 4-byte Spill
	mov	r1, r4
	ldr	r0, [sp, #112]                  @ 4-byte Reload
	rors	r1, r0
	ldr	r6, .Lgcm_v6m_CPI15_16
	ands	r1, r6
	mov	r0, r4
	mov	r7, r2
	rors	r0, r2
	ldr	r2, .Lgcm_v6m_CPI15_17
	ands	r0, r2
	orrs	r0, r1
	str	r0, [sp, #64]                   @ 4-byte Spill
	eors	r0, r4
	str	r0, [sp, #44]                   @ 4-byte Spill
	ldr	r1, [sp, #132]                  @ 4-byte Reload
	eors	r1, r0
	mov	r2, r4
	ldr	r0, [sp, #100]                  @ 4-byte Reload
	eors	r2, r0
	mov	r4, r2
	ldr	r0, [sp, #112]                  @ 4-byte Reload
	rors	r4, r0
	ands	r4, r6
	mov	r6, r2
	rors	r6, r7
	ldr	r0, .Lgcm_v6m_CPI15_17
	ands	r6, r0
	orrs	r6, r4
	eors	r2, r6
	str	r2, [sp, #40]                   @ 4-byte Spill
	mov	r4, r2
	ldr	r7, [sp, #124]                  @ 4-byte Reload
	rors	r4, r7
	ldr	r0, [sp, #152]                  @ 4-byte Reload
	ldr	r0, [r0, #88]
	eors	r0, r4
	eors	r0, r6
	eors	r0, r3
	str	r0, [sp, #88]                   @ 4-byte Spill
	eors	r1, r0
	str	r1, [sp, #132]                  @ 4-byte Spill
	ldr	r1, [sp, #104]                  @ 4-byte Reload
	ldr	r0, [sp, #52]                   @ 4-byte Reload
	ands	r1, r0
	ldr	r0, [sp, #116]                  @ 4-byte Reload
	eors	r1, r0
	ldr	r0, [sp, #136]                  @ 4-byte Reload
	eors	r1, r0
	str	r1, [sp, #104]                  @ 4-byte Spill
	ldr	r0, [sp, #68]                   @ 4-byte Reload
	ands	r5, r0
	eors	r5, r1
	ldr	r0, [sp, #72]                   @ 4-byte Reload
	eors	r5, r0
	ldr	r0, [sp, #76]                   @ 4-byte Reload
	eors	r0, r5
	mov	r3, r0
	ldr	r2, [sp, #112]                  @ 4-byte Reload
	rors	r3, r2
	ldr	r1, .Lgcm_v6m_CPI15_16
	ands	r3, r1
	mov	r4, r0
	ldr	r6, [sp, #148]                  @ 4-byte Reload
	rors	r4, r6
	ldr	r1, .Lgcm_v6m_CPI15_17
	ands	r4, r1
	orrs	r4, r3
	eors	r0, r4
	str	r0, [sp, #76]                   @ 4-byte Spill
	mov	r3, r0
	rors	r3, r7
	ldr	r0, [sp, #152]                  @ 4-byte Reload
	ldr	r0, [r0, #64]
	eors	r0, r3
	eors	r0, r4
	ldr	r3, [sp, #144]                  @ 4-byte Reload
	ldr	r1, [sp, #100]                  @ 4-byte Reload
	eors	r3, r1
	mov	r4, r3
	mov	r1, r3
	rors	r4, r2
	ldr	r2, .Lgcm_v6m_CPI15_16
	ands	r4, r2
	rors	r3, r6
	mov	r7, r6
	ldr	r2, .Lgcm_v6m_CPI15_17
	ands	r3, r2
	orrs	r3, r4
	eors	r1, r3
	str	r1, [sp, #144]                  @ 4-byte Spill
	eors	r0, r1
	str	r0, [sp, #120]                  @ 4-byte Spill
	ldr	r2, [sp, #132]                  @ 4-byte Reload
	eors	r2, r0
	ldr	r0, [sp, #140]                  @ 4-byte Reload
	eors	r5, r0
	mov	r4, r5
	ldr	r0, [sp, #112]                  @ 4-byte Reload
	rors	r4, r0
	ldr	r0, .Lgcm_v6m_CPI15_16
	ands	r4, r0
	mov	r6, r5
	rors	r6, r7
	ldr	r0, .Lgcm_v6m_CPI15_17
	ands	r6, r0
	orrs	r6, r4
	eors	r5, r6
	mov	r4, r5
	ldr	r0, [sp, #124]                  @ 4-byte Reload
	rors	r4, r0
	ldr	r7, [sp, #152]                  @ 4-byte Reload
	ldr	r1, [r7, #68]
	eors	r1, r4
	eors	r1, r6
	ldr	r0, [sp, #76]                   @ 4-byte Reload
	eors	r1, r0
	ldr	r6, [sp, #144]                  @ 4-byte Reload
	eors	r1, r6
	mov	r4, r2
	str	r2, [sp, #116]                  @ 4-byte Spill
	eors	r2, r1
	mov	r0, r1
	str	r2, [sp, #56]                   @ 4-byte Spill
	ands	r2, r4
	str	r2, [sp, #136]                  @ 4-byte Spill
	mov	r2, r6
	ldr	r4, [sp, #124]                  @ 4-byte Reload
	rors	r2, r4
	ldr	r6, [r7, #92]
	eors	r6, r2
	eors	r6, r3
	ldr	r1, [sp, #40]                   @ 4-byte Reload
	eors	r6, r1
	eors	r0, r6
	str	r0, [sp, #68]                   @ 4-byte Spill
	ldr	r3, [sp, #108]                  @ 4-byte Reload
	ldr	r1, [sp, #96]                   @ 4-byte Reload
	ands	r3, r1
	ldr	r1, [sp, #80]                   @ 4-byte Reload
	eors	r3, r1
	ldr	r1, [sp, #92]                   @ 4-byte Reload
	eors	r3, r1
	mov	r1, r3
	ldr	r7, [sp, #112]                  @ 4-byte Reload
	rors	r1, r7
	ldr	r0, .Lgcm_v6m_CPI15_16
	ands	r1, r0
	mov	r2, r3
	ldr	r0, [sp, #148]                  @ 4-byte Reload
	rors	r2, r0
	ldr	r0, .Lgcm_v6m_CPI15_17
	ands	r2, r0
	orrs	r2, r1
	eors	r3, r2
	str	r3, [sp, #108]                  @ 4-byte Spill
	mov	r1, r3
	rors	r1, r4
	ldr	r3, [sp, #152]                  @ 4-byte Reload
	ldr	r0, [r3, #72]
	eors	r0, r1
	eors	r0, r2
	eors	r0, r5
	str	r0, [sp, #140]                  @ 4-byte Spill
	ldr	r1, [sp, #44]                   @ 4-byte Reload
	rors	r1, r4
	ldr	r4, [r3, #80]
	mov	r2, r3
	eors	r4, r1
	ldr	r1, [sp, #64]                   @ 4-byte Reload
	eors	r4, r1
	ldr	r1, [sp, #144]                  @ 4-byte Reload
	eors	r4, r1
	ldr	r0, [sp, #84]                   @ 4-byte Reload
	ldr	r5, [sp, #104]                  @ 4-byte Reload
	eors	r5, r0
	mov	r1, r5
	rors	r1, r7
	ldr	r0, .Lgcm_v6m_CPI15_16
	ands	r1, r0
	mov	r0, r5
	ldr	r3, [sp, #148]                  @ 4-byte Reload
	rors	r0, r3
	ldr	r3, .Lgcm_v6m_CPI15_17
	ands	r0, r3
	orrs	r0, r1
	eors	r5, r0
	eors	r4, r5
	mov	r7, r5
	mov	r3, r4
	str	r4, [sp, #92]                   @ 4-byte Spill
	ldr	r1, [sp, #140]                  @ 4-byte Reload
	eors	r3, r1
	str	r3, [sp, #52]                   @ 4-byte Spill
	ldr	r5, [sp, #68]                   @ 4-byte Reload
	mov	r1, r5
	eors	r1, r3
	str	r1, [sp, #80]                   @ 4-byte Spill
	ldr	r3, [sp, #124]                  @ 4-byte Reload
	rors	r7, r3
	ldr	r3, [r2, #76]
	eors	r3, r7
	ldr	r2, [sp, #108]                  @ 4-byte Reload
	eors	r3, r2
	ldr	r2, [sp, #144]                  @ 4-byte Reload
	eors	r3, r2
	eors	r3, r0
	eors	r3, r1
	str	r3, [sp, #144]                  @ 4-byte Spill
	ldr	r0, [sp, #88]                   @ 4-byte Reload
	eors	r0, r3
	str	r0, [sp, #88]                   @ 4-byte Spill
	eors	r4, r6
	eors	r0, r4
	str	r0, [sp, #112]                  @ 4-byte Spill
	mov	r7, r4
	str	r4, [sp, #104]                  @ 4-byte Spill
	mov	r3, r0
	ldr	r1, [sp, #132]                  @ 4-byte Reload
	eors	r3, r1
	str	r3, [sp, #96]                   @ 4-byte Spill
	ldr	r2, [sp, #136]                  @ 4-byte Reload
	eors	r2, r3
	mov	r0, r3
	ands	r0, r5
	eors	r2, r0
	eors	r2, r5
	ldr	r4, [sp, #144]                  @ 4-byte Reload
	ldr	r5, [sp, #140]                  @ 4-byte Reload
	eors	r4, r5
	str	r4, [sp, #144]                  @ 4-byte Spill
	eors	r1, r4
	str	r1, [sp, #132]                  @ 4-byte Spill
	ldr	r3, [sp, #112]                  @ 4-byte Reload
	mov	r4, r3
	eors	r4, r1
	str	r4, [sp, #108]                  @ 4-byte Spill
	ldr	r1, [sp, #52]                   @ 4-byte Reload
	ands	r4, r1
	mov	r1, r3
	ands	r1, r7
	eors	r4, r1
	eors	r2, r4
	str	r2, [sp, #136]                  @ 4-byte Spill
	ldr	r7, [sp, #116]                  @ 4-byte Reload
	eors	r7, r6
	str	r7, [sp, #84]                   @ 4-byte Spill
	mov	r2, r3
	ldr	r3, [sp, #120]                  @ 4-byte Reload
	eors	r2, r3
	str	r2, [sp, #44]                   @ 4-byte Spill
	ands	r2, r7
	ldr	r3, [sp, #96]                   @ 4-byte Reload
	eors	r2, r3
	eors	r2, r0
	eors	r2, r6
	mov	r0, r5
	eors	r0, r6
	ldr	r7, [sp, #132]                  @ 4-byte Reload
	ands	r7, r0
	mov	r6, r0
	str	r0, [sp, #140]                  @ 4-byte Spill
	eors	r7, r1
	eors	r2, r7
	mov	r0, r2
	ldr	r5, [sp, #136]                  @ 4-byte Reload
	eors	r0, r5
	str	r0, [sp, #100]                  @ 4-byte Spill
	ldr	r1, [sp, #144]                  @ 4-byte Reload
	mov	r3, r1
	ldr	r0, [sp, #80]                   @ 4-byte Reload
	ands	r3, r0
	ldr	r0, [sp, #56]                   @ 4-byte Reload
	eors	r0, r6
	str	r0, [sp, #40]                   @ 4-byte Spill
	mov	r6, r1
	ldr	r1, [sp, #120]                  @ 4-byte Reload
	eors	r6, r1
	str	r6, [sp, #76]                   @ 4-byte Spill
	ands	r6, r0
	ldr	r0, [sp, #88]                   @ 4-byte Reload
	eors	r6, r0
	eors	r6, r3
	eors	r6, r4
	mov	r1, r5
	ands	r1, r6
	ldr	r0, [sp, #92]                   @ 4-byte Reload
	ldr	r4, [sp, #116]                  @ 4-byte Reload
	eors	r0, r4
	str	r0, [sp, #92]                   @ 4-byte Spill
	ldr	r4, [sp, #120]                  @ 4-byte Reload
	ands	r0, r4
	ldr	r4, [sp, #140]                  @ 4-byte Reload
	eors	r0, r4
	ldr	r4, [sp, #132]                  @ 4-byte Reload
	eors	r0, r4
	eors	r0, r3
	eors	r0, r7
	mov	r4, r1
	eors	r4, r0
	ldr	r3, [sp, #100]                  @ 4-byte Reload
	ands	r4, r3
	mov	r3, r4
	eors	r3, r2
	eors	r4, r1
	ands	r4, r2
	eors	r5, r4
	str	r5, [sp, #136]                  @ 4-byte Spill
	eors	r5, r3
	str	r5, [sp, #72]                   @ 4-byte Spill
	eors	r6, r0
	eors	r1, r2
	eors	r4, r1
	ands	r1, r6
	eors	r1, r0
	ands	r4, r1
	eors	r4, r6
	mov	r7, r4
	eors	r7, r5
	mov	r0, r1
	str	r1, [sp, #100]                  @ 4-byte Spill
	mov	r2, r1
	mov	r5, r3
	str	r3, [sp, #88]                   @ 4-byte Spill
	eors	r2, r3
	mov	r3, r7
	eors	r3, r2
	str	r3, [sp, #64]                   @ 4-byte Spill
	ldr	r1, [sp, #108]                  @ 4-byte Reload
	ands	r1, r3
	ldr	r3, [sp, #116]                  @ 4-byte Reload
	ands	r3, r4
	mov	r6, r4
	eors	r6, r0
	ldr	r0, [sp, #96]                   @ 4-byte Reload
	ands	r0, r6
	str	r0, [sp, #96]                   @ 4-byte Spill
	eors	r3, r0
	str	r3, [sp, #116]                  @ 4-byte Spill
	eors	r1, r3
	str	r1, [sp, #108]                  @ 4-byte Spill
	ldr	r0, [sp, #132]                  @ 4-byte Reload
	ands	r0, r7
	ldr	r1, [sp, #120]                  @ 4-byte Reload
	ands	r1, r5
	ldr	r3, [sp, #144]                  @ 4-byte Reload
	ldr	r5, [sp, #136]                  @ 4-byte Reload
	ands	r3, r5
	str	r3, [sp, #144]                  @ 4-byte Spill
	eors	r1, r3
	str	r1, [sp, #120]                  @ 4-byte Spill
	eors	r0, r1
	ldr	r1, [sp, #68]                   @ 4-byte Reload
	ands	r6, r1
	str	r6, [sp, #68]                   @ 4-byte Spill
	eors	r0, r6
	ldr	r5, [sp, #108]                  @ 4-byte Reload
	eors	r0, r5
	str	r0, [sp, #132]                  @ 4-byte Spill
	ldr	r1, [sp, #84]                   @ 4-byte Reload
	ldr	r3, [sp, #100]                  @ 4-byte Reload
	ands	r1, r3
	eors	r1, r0
	str	r1, [sp, #84]                   @ 4-byte Spill
	ldr	r0, [sp, #112]                  @ 4-byte Reload
	ands	r0, r2
	eors	r0, r5
	str	r0, [sp, #112]                  @ 4-byte Spill
	ldr	r3, [sp, #140]                  @ 4-byte Reload
	ands	r7, r3
	ldr	r3, [sp, #104]                  @ 4-byte Reload
	ands	r2, r3
	eors	r7, r2
	eors	r7, r0
	eors	r7, r1
	movs	r0, #6
	str	r0, [sp, #108]                  @ 4-byte Spill
	mov	r1, r7
	rors	r1, r0
	ldr	r0, .Lgcm_v6m_CPI15_18
	ands	r1, r0
	movs	r3, #14
	str	r3, [sp, #104]                  @ 4-byte Spill
	mov	r0, r7
	rors	r0, r3
	ldr	r5, .Lgcm_v6m_CPI15_19
	ands	r0, r5
	orrs	r0, r1
	eors	r7, r0
	mov	r1, r7
	ldr	r5, [sp, #148]                  @ 4-byte Reload
	rors	r1, r5
	ldr	r5, .Lgcm_v6m_CPI15_16
	ands	r1, r5
	mov	r5, r7
	ldr	r6, [sp, #128]                  @ 4-byte Reload
	rors	r5, r6
	ldr	r6, .Lgcm_v6m_CPI15_17
	ands	r5, r6
	orrs	r5, r1
	ldr	r1, [sp, #152]                  @ 4-byte Reload
	ldr	r1, [r1, #116]
	eors	r1, r5
	eors	r1, r0
	str	r1, [sp, #140]                  @ 4-byte Spill
	ldr	r0, [sp, #76]                   @ 4-byte Reload
	ldr	r5, [sp, #72]                   @ 4-byte Reload
	ands	r0, r5
	ldr	r1, [sp, #144]                  @ 4-byte Reload
	eors	r0, r1
	ldr	r1, [sp, #116]                  @ 4-byte Reload
	eors	r0, r1
	ldr	r1, [sp, #52]                   @ 4-byte Reload
	ldr	r6, [sp, #64]                   @ 4-byte Reload
	ands	r6, r1
	eors	r6, r2
	str	r6, [sp, #64]                   @ 4-byte Spill
	ldr	r1, [sp, #40]                   @ 4-byte Reload
	ands	r5, r1
	eors	r5, r6
	str	r5, [sp, #72]                   @ 4-byte Spill
	ldr	r1, [sp, #136]                  @ 4-byte Reload
	ldr	r2, [sp, #80]                   @ 4-byte Reload
	ands	r1, r2
	eors	r1, r5
	str	r1, [sp, #136]                  @ 4-byte Spill
	eors	r0, r1
	str	r0, [sp, #76]                   @ 4-byte Spill
	mov	r2, r0
	ldr	r6, [sp, #108]                  @ 4-byte Reload
	rors	r2, r6
	ldr	r1, .Lgcm_v6m_CPI15_18
	ands	r2, r1
	mov	r1, r0
	ldr	r5, [sp, #104]                  @ 4-byte Reload
	rors	r1, r5
	ldr	r3, .Lgcm_v6m_CPI15_19
	ands	r1, r3
	orrs	r1, r2
	str	r1, [sp, #52]                   @ 4-byte Spill
	eors	r1, r0
	str	r1, [sp, #40]                   @ 4-byte Spill
	ldr	r2, [sp, #140]                  @ 4-byte Reload
	eors	r2, r1
	str	r2, [sp, #140]                  @ 4-byte Spill
	mov	r2, r0
	ldr	r0, [sp, #112]                  @ 4-byte Reload
	eors	r2, r0
	mov	r3, r2
	rors	r3, r6
	ldr	r0, .Lgcm_v6m_CPI15_18
	ands	r3, r0
	mov	r0, r2
	rors	r0, r5
	ldr	r1, .Lgcm_v6m_CPI15_19
	ands	r0, r1
	orrs	r0, r3
	eors	r2, r0
	str	r2, [sp, #36]                   @ 4-byte Spill
	mov	r3, r2
	ldr	r6, [sp, #148]                  @ 4-byte Reload
	rors	r3, r6
	ldr	r1, .Lgcm_v6m_CPI15_16
	ands	r3, r1
	mov	r5, r2
	ldr	r2, [sp, #128]                  @ 4-byte Reload
	rors	r5, r2
	ldr	r1, .Lgcm_v6m_CPI15_17
	ands	r5, r1
	orrs	r5, r3
	ldr	r1, [sp, #152]                  @ 4-byte Reload
	ldr	r3, [r1, #120]
	eors	r3, r5
	eors	r3, r0
	eors	r3, r7
	str	r3, [sp, #80]                   @ 4-byte Spill
	ldr	r0, [sp, #140]                  @ 4-byte Reload
	eors	r0, r3
	str	r0, [sp, #140]                  @ 4-byte Spill
	ldr	r1, [sp, #100]                  @ 4-byte Reload
	ldr	r0, [sp, #44]                   @ 4-byte Reload
	ands	r1, r0
	ldr	r0, [sp, #120]                  @ 4-byte Reload
	eors	r1, r0
	ldr	r0, [sp, #96]                   @ 4-byte Reload
	eors	r1, r0
	str	r1, [sp, #100]                  @ 4-byte Spill
	ldr	r0, [sp, #56]                   @ 4-byte Reload
	ands	r4, r0
	eors	r4, r1
	ldr	r0, [sp, #64]                   @ 4-byte Reload
	eors	r4, r0
	ldr	r5, [sp, #68]                   @ 4-byte Reload
	eors	r5, r4
	mov	r3, r5
	ldr	r0, [sp, #108]                  @ 4-byte Reload
	rors	r3, r0
	ldr	r0, .Lgcm_v6m_CPI15_18
	ands	r3, r0
	mov	r0, r5
	ldr	r1, [sp, #104]                  @ 4-byte Reload
	rors	r0, r1
	ldr	r1, .Lgcm_v6m_CPI15_19
	ands	r0, r1
	orrs	r0, r3
	eors	r5, r0
	str	r5, [sp, #68]                   @ 4-byte Spill
	mov	r3, r5
	b	.Lgcm_v6m_BB15_15
	.p2align	2
@ %bb.11:
.Lgcm_v6m_CPI15_16:
	.long	4042322160                      @ 0xf0f0f0f0
	.p2align	2
@ %bb.12:
.Lgcm_v6m_CPI15_17:
	.long	252645135                       @ 0xf0f0f0f
	.p2align	2
@ %bb.13:
.Lgcm_v6m_CPI15_18:
	.long	4244438268                      @ 0xfcfcfcfc
	.p2align	2
@ %bb.14:
.Lgcm_v6m_CPI15_19:
	.long	50529027                        @ 0x3030303
	.p2align	1
.Lgcm_v6m_BB15_15:                              @ %join.7.i
                                        @   in Loop: Header=BB15_5 Depth=1
	rors	r3, r6
	ldr	r1, .Lgcm_v6m_CPI15_20
	ands	r3, r1
	rors	r5, r2
	ldr	r1, .Lgcm_v6m_CPI15_21
	ands	r5, r1
	orrs	r5, r3
	ldr	r1, [sp, #152]                  @ 4-byte Reload
	ldr	r2, [r1, #96]
	eors	r2, r5
	eors	r2, r0
	ldr	r3, [sp, #136]                  @ 4-byte Reload
	ldr	r0, [sp, #112]                  @ 4-byte Reload
	eors	r3, r0
	mov	r0, r3
	ldr	r1, [sp, #108]                  @ 4-byte Reload
	rors	r0, r1
	ldr	r5, .Lgcm_v6m_CPI15_22
	ands	r0, r5
	mov	r5, r3
	ldr	r6, [sp, #104]                  @ 4-byte Reload
	rors	r5, r6
	ldr	r7, .Lgcm_v6m_CPI15_23
	ands	r5, r7
	orrs	r5, r0
	eors	r3, r5
	str	r3, [sp, #136]                  @ 4-byte Spill
	eors	r2, r3
	str	r2, [sp, #116]                  @ 4-byte Spill
	ldr	r7, [sp, #140]                  @ 4-byte Reload
	eors	r7, r2
	str	r7, [sp, #120]                  @ 4-byte Spill
	ldr	r0, [sp, #132]                  @ 4-byte Reload
	eors	r4, r0
	mov	r3, r4
	rors	r3, r1
	ldr	r0, .Lgcm_v6m_CPI15_22
	ands	r3, r0
	mov	r0, r4
	rors	r0, r6
	ldr	r1, .Lgcm_v6m_CPI15_23
	ands	r0, r1
	orrs	r0, r3
	eors	r4, r0
	mov	r3, r4
	ldr	r1, [sp, #148]                  @ 4-byte Reload
	rors	r3, r1
	ldr	r1, .Lgcm_v6m_CPI15_20
	ands	r3, r1
	mov	r7, r4
	ldr	r2, [sp, #128]                  @ 4-byte Reload
	rors	r7, r2
	ldr	r1, .Lgcm_v6m_CPI15_21
	ands	r7, r1
	orrs	r7, r3
	ldr	r1, [sp, #152]                  @ 4-byte Reload
	ldr	r3, [r1, #100]
	eors	r3, r7
	eors	r3, r0
	ldr	r0, [sp, #68]                   @ 4-byte Reload
	eors	r3, r0
	ldr	r7, [sp, #136]                  @ 4-byte Reload
	eors	r3, r7
	str	r3, [sp, #112]                  @ 4-byte Spill
	ldr	r6, [sp, #120]                  @ 4-byte Reload
	mov	r0, r6
	eors	r0, r3
	str	r0, [sp, #64]                   @ 4-byte Spill
	ands	r0, r6
	str	r0, [sp, #144]                  @ 4-byte Spill
	mov	r0, r7
	ldr	r3, [sp, #148]                  @ 4-byte Reload
	rors	r0, r3
	ldr	r3, .Lgcm_v6m_CPI15_20
	ands	r0, r3
	mov	r3, r7
	mov	r7, r2
	rors	r3, r2
	ldr	r2, .Lgcm_v6m_CPI15_21
	ands	r3, r2
	orrs	r3, r0
	ldr	r1, [r1, #124]
	eors	r1, r3
	eors	r1, r5
	ldr	r0, [sp, #36]                   @ 4-byte Reload
	eors	r1, r0
	str	r1, [sp, #68]                   @ 4-byte Spill
	ldr	r0, [sp, #112]                  @ 4-byte Reload
	eors	r0, r1
	str	r0, [sp, #112]                  @ 4-byte Spill
	ldr	r1, [sp, #88]                   @ 4-byte Reload
	ldr	r2, [sp, #92]                   @ 4-byte Reload
	ands	r1, r2
	ldr	r0, [sp, #72]                   @ 4-byte Reload
	eors	r1, r0
	ldr	r0, [sp, #84]                   @ 4-byte Reload
	eors	r1, r0
	mov	r3, r1
	ldr	r0, [sp, #108]                  @ 4-byte Reload
	rors	r3, r0
	ldr	r0, .Lgcm_v6m_CPI15_22
	ands	r3, r0
	mov	r2, r1
	ldr	r0, [sp, #104]                  @ 4-byte Reload
	rors	r2, r0
	ldr	r0, .Lgcm_v6m_CPI15_23
	ands	r2, r0
	orrs	r2, r3
	eors	r1, r2
	mov	r3, r1
	mov	r5, r1
	str	r1, [sp, #88]                   @ 4-byte Spill
	ldr	r1, [sp, #148]                  @ 4-byte Reload
	rors	r3, r1
	ldr	r6, .Lgcm_v6m_CPI15_20
	ands	r3, r6
	rors	r5, r7
	ldr	r0, .Lgcm_v6m_CPI15_21
	ands	r5, r0
	orrs	r5, r3
	ldr	r3, [sp, #152]                  @ 4-byte Reload
	ldr	r0, [r3, #104]
	eors	r0, r5
	eors	r0, r2
	eors	r0, r4
	str	r0, [sp, #132]                  @ 4-byte Spill
	ldr	r0, [sp, #40]                   @ 4-byte Reload
	mov	r2, r0
	rors	r2, r1
	ands	r2, r6
	rors	r0, r7
	ldr	r1, .Lgcm_v6m_CPI15_21
	ands	r0, r1
	orrs	r0, r2
	ldr	r5, [r3, #112]
	eors	r5, r0
	ldr	r0, [sp, #52]                   @ 4-byte Reload
	eors	r5, r0
	ldr	r0, [sp, #136]                  @ 4-byte Reload
	eors	r5, r0
	ldr	r3, [sp, #100]                  @ 4-byte Reload
	ldr	r0, [sp, #76]                   @ 4-byte Reload
	eors	r3, r0
	mov	r2, r3
	ldr	r0, [sp, #108]                  @ 4-byte Reload
	rors	r2, r0
	ldr	r0, .Lgcm_v6m_CPI15_22
	ands	r2, r0
	mov	r1, r3
	ldr	r0, [sp, #104]                  @ 4-byte Reload
	rors	r1, r0
	ldr	r0, .Lgcm_v6m_CPI15_23
	ands	r1, r0
	orrs	r1, r2
	eors	r3, r1
	eors	r5, r3
	mov	r0, r5
	str	r5, [sp, #100]                  @ 4-byte Spill
	ldr	r2, [sp, #132]                  @ 4-byte Reload
	eors	r0, r2
	str	r0, [sp, #76]                   @ 4-byte Spill
	ldr	r4, [sp, #112]                  @ 4-byte Reload
	mov	r2, r4
	eors	r2, r0
	mov	r0, r2
	str	r2, [sp, #72]                   @ 4-byte Spill
	mov	r2, r3
	ldr	r7, [sp, #148]                  @ 4-byte Reload
	rors	r2, r7
	ldr	r7, .Lgcm_v6m_CPI15_20
	ands	r2, r7
	ldr	r7, [sp, #128]                  @ 4-byte Reload
	rors	r3, r7
	ldr	r7, .Lgcm_v6m_CPI15_21
	ands	r3, r7
	orrs	r3, r2
	ldr	r2, [sp, #152]                  @ 4-byte Reload
	ldr	r7, [r2, #108]
	eors	r7, r3
	ldr	r2, [sp, #88]                   @ 4-byte Reload
	eors	r7, r2
	ldr	r2, [sp, #136]                  @ 4-byte Reload
	eors	r7, r2
	eors	r7, r1
	eors	r7, r0
	ldr	r1, [sp, #80]                   @ 4-byte Reload
	eors	r1, r7
	str	r1, [sp, #80]                   @ 4-byte Spill
	ldr	r2, [sp, #68]                   @ 4-byte Reload
	eors	r5, r2
	mov	r2, r1
	eors	r2, r5
	str	r5, [sp, #84]                   @ 4-byte Spill
	mov	r3, r2
	mov	r6, r2
	ldr	r1, [sp, #140]                  @ 4-byte Reload
	eors	r3, r1
	str	r3, [sp, #128]                  @ 4-byte Spill
	ldr	r0, [sp, #144]                  @ 4-byte Reload
	eors	r0, r3
	ands	r3, r4
	eors	r0, r3
	eors	r0, r4
	str	r0, [sp, #144]                  @ 4-byte Spill
	ldr	r0, [sp, #132]                  @ 4-byte Reload
	eors	r7, r0
	eors	r1, r7
	str	r1, [sp, #140]                  @ 4-byte Spill
	eors	r6, r1
	str	r6, [sp, #52]                   @ 4-byte Spill
	ldr	r0, [sp, #76]                   @ 4-byte Reload
	ands	r6, r0
	mov	r4, r2
	str	r2, [sp, #96]                   @ 4-byte Spill
	ands	r4, r5
	eors	r6, r4
	ldr	r1, [sp, #144]                  @ 4-byte Reload
	eors	r1, r6
	str	r1, [sp, #144]                  @ 4-byte Spill
	ldr	r5, [sp, #120]                  @ 4-byte Reload
	ldr	r0, [sp, #68]                   @ 4-byte Reload
	eors	r5, r0
	str	r5, [sp, #148]                  @ 4-byte Spill
	ldr	r0, [sp, #116]                  @ 4-byte Reload
	eors	r2, r0
	str	r2, [sp, #56]                   @ 4-byte Spill
	ands	r2, r5
	ldr	r5, [sp, #128]                  @ 4-byte Reload
	eors	r2, r5
	eors	r2, r3
	ldr	r0, [sp, #68]                   @ 4-byte Reload
	eors	r2, r0
	ldr	r3, [sp, #132]                  @ 4-byte Reload
	eors	r3, r0
	str	r3, [sp, #132]                  @ 4-byte Spill
	ldr	r5, [sp, #140]                  @ 4-byte Reload
	ands	r5, r3
	eors	r5, r4
	eors	r2, r5
	mov	r3, r2
	eors	r3, r1
	str	r3, [sp, #136]                  @ 4-byte Spill
	mov	r0, r7
	ldr	r3, [sp, #72]                   @ 4-byte Reload
	ands	r0, r3
	mov	r1, r0
	str	r0, [sp, #104]                  @ 4-byte Spill
	ldr	r3, [sp, #64]                   @ 4-byte Reload
	ldr	r0, [sp, #132]                  @ 4-byte Reload
	eors	r3, r0
	str	r3, [sp, #68]                   @ 4-byte Spill
	mov	r4, r7
	ldr	r0, [sp, #116]                  @ 4-byte Reload
	eors	r4, r0
	str	r4, [sp, #108]                  @ 4-byte Spill
	mov	r0, r4
	ands	r0, r3
	ldr	r3, [sp, #80]                   @ 4-byte Reload
	eors	r0, r3
	eors	r0, r1
	eors	r0, r6
	ldr	r4, [sp, #144]                  @ 4-byte Reload
	ands	r4, r0
	ldr	r1, [sp, #100]                  @ 4-byte Reload
	ldr	r3, [sp, #120]                  @ 4-byte Reload
	eors	r1, r3
	str	r1, [sp, #100]                  @ 4-byte Spill
	mov	r3, r1
	ldr	r1, [sp, #116]                  @ 4-byte Reload
	ands	r3, r1
	ldr	r1, [sp, #132]                  @ 4-byte Reload
	eors	r3, r1
	ldr	r1, [sp, #140]                  @ 4-byte Reload
	eors	r3, r1
	ldr	r1, [sp, #104]                  @ 4-byte Reload
	eors	r3, r1
	eors	r3, r5
	mov	r5, r4
	eors	r5, r3
	ldr	r1, [sp, #136]                  @ 4-byte Reload
	ands	r5, r1
	mov	r6, r5
	eors	r6, r2
	eors	r5, r4
	ands	r5, r2
	ldr	r1, [sp, #144]                  @ 4-byte Reload
	eors	r1, r5
	str	r1, [sp, #144]                  @ 4-byte Spill
	eors	r1, r6
	str	r1, [sp, #92]                   @ 4-byte Spill
	str	r6, [sp, #136]                  @ 4-byte Spill
	eors	r0, r3
	eors	r4, r2
	mov	r2, r4
	eors	r5, r4
	ands	r2, r0
	eors	r2, r3
	ands	r5, r2
	eors	r5, r0
	mov	r4, r5
	eors	r4, r1
	mov	r0, r2
	mov	r1, r2
	str	r2, [sp, #104]                  @ 4-byte Spill
	eors	r0, r6
	str	r0, [sp, #80]                   @ 4-byte Spill
	mov	r2, r4
	eors	r2, r0
	str	r2, [sp, #88]                   @ 4-byte Spill
	ldr	r0, [sp, #52]                   @ 4-byte Reload
	ands	r0, r2
	ldr	r3, [sp, #120]                  @ 4-byte Reload
	ands	r3, r5
	mov	r2, r5
	eors	r2, r1
	ldr	r1, [sp, #128]                  @ 4-byte Reload
	ands	r1, r2
	str	r1, [sp, #128]                  @ 4-byte Spill
	eors	r3, r1
	str	r3, [sp, #120]                  @ 4-byte Spill
	eors	r0, r3
	mov	r3, r0
	ldr	r0, [sp, #140]                  @ 4-byte Reload
	ands	r0, r4
	ldr	r6, [sp, #116]                  @ 4-byte Reload
	ldr	r1, [sp, #136]                  @ 4-byte Reload
	ands	r6, r1
	ldr	r1, [sp, #144]                  @ 4-byte Reload
	ands	r7, r1
	eors	r6, r7
	str	r6, [sp, #116]                  @ 4-byte Spill
	eors	r0, r6
	ldr	r1, [sp, #112]                  @ 4-byte Reload
	ands	r2, r1
	str	r2, [sp, #112]                  @ 4-byte Spill
	eors	r0, r2
	mov	r6, r3
	eors	r0, r3
	str	r0, [sp, #140]                  @ 4-byte Spill
	ldr	r1, [sp, #148]                  @ 4-byte Reload
	ldr	r2, [sp, #104]                  @ 4-byte Reload
	ands	r1, r2
	eors	r1, r0
	str	r1, [sp, #148]                  @ 4-byte Spill
	ldr	r1, [sp, #96]                   @ 4-byte Reload
	ldr	r3, [sp, #80]                   @ 4-byte Reload
	ands	r1, r3
	eors	r1, r6
	mov	r2, r1
	str	r1, [sp, #96]                   @ 4-byte Spill
	ldr	r0, [sp, #132]                  @ 4-byte Reload
	ands	r4, r0
	ldr	r1, [sp, #84]                   @ 4-byte Reload
	ands	r3, r1
	eors	r4, r3
	eors	r4, r2
	ldr	r1, [sp, #148]                  @ 4-byte Reload
	eors	r4, r1
	movs	r0, #8
	str	r0, [sp, #84]                   @ 4-byte Spill
	mov	r1, r4
	rors	r1, r0
	str	r1, [sp, #52]                   @ 4-byte Spill
	eors	r4, r1
	ldr	r1, [sp, #108]                  @ 4-byte Reload
	ldr	r6, [sp, #92]                   @ 4-byte Reload
	ands	r1, r6
	eors	r1, r7
	ldr	r0, [sp, #120]                  @ 4-byte Reload
	eors	r1, r0
	mov	r7, r1
	ldr	r1, [sp, #76]                   @ 4-byte Reload
	ldr	r2, [sp, #88]                   @ 4-byte Reload
	ands	r2, r1
	eors	r2, r3
	str	r2, [sp, #88]                   @ 4-byte Spill
	ldr	r0, [sp, #68]                   @ 4-byte Reload
	ands	r6, r0
	eors	r6, r2
	str	r6, [sp, #92]                   @ 4-byte Spill
	ldr	r0, [sp, #144]                  @ 4-byte Reload
	ldr	r1, [sp, #72]                   @ 4-byte Reload
	ands	r0, r1
	eors	r0, r6
	str	r0, [sp, #144]                  @ 4-byte Spill
	mov	r6, r7
	eors	r6, r0
	str	r6, [sp, #108]                  @ 4-byte Spill
	ldr	r2, [sp, #96]                   @ 4-byte Reload
	eors	r6, r2
	mov	r7, r6
	ldr	r0, [sp, #84]                   @ 4-byte Reload
	rors	r7, r0
	eors	r6, r7
	str	r6, [sp, #120]                  @ 4-byte Spill
	ldr	r3, [sp, #124]                  @ 4-byte Reload
	rors	r6, r3
	movs	r3, #152
	ldr	r1, [sp, #152]                  @ 4-byte Reload
	ldr	r1, [r1, r3]
	eors	r1, r6
	eors	r1, r7
	eors	r1, r4
	str	r1, [sp, #80]                   @ 4-byte Spill
	ldr	r3, [sp, #144]                  @ 4-byte Reload
	eors	r3, r2
	mov	r1, r3
	mov	r6, r0
	rors	r1, r0
	str	r1, [sp, #96]                   @ 4-byte Spill
	eors	r3, r1
	str	r3, [sp, #144]                  @ 4-byte Spill
	ldr	r1, [sp, #104]                  @ 4-byte Reload
	ldr	r3, [sp, #56]                   @ 4-byte Reload
	ands	r1, r3
	ldr	r3, [sp, #116]                  @ 4-byte Reload
	eors	r1, r3
	ldr	r3, [sp, #128]                  @ 4-byte Reload
	eors	r1, r3
	str	r1, [sp, #104]                  @ 4-byte Spill
	ldr	r3, [sp, #64]                   @ 4-byte Reload
	ands	r5, r3
	eors	r5, r1
	ldr	r0, [sp, #88]                   @ 4-byte Reload
	eors	r5, r0
	ldr	r3, [sp, #112]                  @ 4-byte Reload
	eors	r3, r5
	mov	r2, r3
	rors	r2, r6
	eors	r3, r2
	str	r3, [sp, #112]                  @ 4-byte Spill
	ldr	r7, [sp, #124]                  @ 4-byte Reload
	rors	r3, r7
	movs	r6, #128
	ldr	r0, [sp, #152]                  @ 4-byte Reload
	ldr	r6, [r0, r6]
	eors	r6, r3
	eors	r6, r2
	ldr	r2, [sp, #144]                  @ 4-byte Reload
	eors	r6, r2
	str	r6, [sp, #132]                  @ 4-byte Spill
	rors	r2, r7
	movs	r3, #156
	ldr	r1, [r0, r3]
	mov	r3, r0
	eors	r1, r2
	ldr	r0, [sp, #96]                   @ 4-byte Reload
	eors	r1, r0
	ldr	r0, [sp, #120]                  @ 4-byte Reload
	eors	r1, r0
	str	r1, [sp, #128]                  @ 4-byte Spill
	rors	r4, r7
	mov	r6, r7
	movs	r2, #148
	ldr	r3, [r3, r2]
	eors	r3, r4
	ldr	r0, [sp, #52]                   @ 4-byte Reload
	eors	r3, r0
	ldr	r4, [sp, #108]                  @ 4-byte Reload
	mov	r2, r4
	ldr	r0, [sp, #84]                   @ 4-byte Reload
	rors	r2, r0
	str	r2, [sp, #96]                   @ 4-byte Spill
	eors	r2, r4
	eors	r3, r2
	str	r3, [sp, #120]                  @ 4-byte Spill
	ldr	r3, [sp, #140]                  @ 4-byte Reload
	eors	r5, r3
	mov	r7, r5
	rors	r7, r0
	eors	r5, r7
	ldr	r1, [sp, #136]                  @ 4-byte Reload
	ldr	r3, [sp, #100]                  @ 4-byte Reload
	ands	r1, r3
	ldr	r3, [sp, #92]                   @ 4-byte Reload
	eors	r1, r3
	ldr	r3, [sp, #148]                  @ 4-byte Reload
	eors	r1, r3
	mov	r3, r1
	rors	r3, r0
	eors	r1, r3
	str	r1, [sp, #136]                  @ 4-byte Spill
	mov	r4, r1
	mov	r1, r6
	rors	r4, r6
	movs	r6, #136
	ldr	r0, [sp, #152]                  @ 4-byte Reload
	ldr	r6, [r0, r6]
	eors	r6, r4
	eors	r6, r3
	eors	r6, r5
	str	r6, [sp, #148]                  @ 4-byte Spill
	rors	r5, r1
	movs	r3, #132
	ldr	r1, [r0, r3]
	eors	r1, r5
	eors	r1, r7
	ldr	r3, [sp, #112]                  @ 4-byte Reload
	eors	r1, r3
	ldr	r4, [sp, #144]                  @ 4-byte Reload
	eors	r1, r4
	str	r1, [sp, #116]                  @ 4-byte Spill
	ldr	r7, [sp, #124]                  @ 4-byte Reload
	rors	r2, r7
	movs	r3, #144
	b	.Lgcm_v6m_BB15_20
	.p2align	2
@ %bb.16:
.Lgcm_v6m_CPI15_20:
	.long	4042322160                      @ 0xf0f0f0f0
	.p2align	2
@ %bb.17:
.Lgcm_v6m_CPI15_21:
	.long	252645135                       @ 0xf0f0f0f
	.p2align	2
@ %bb.18:
.Lgcm_v6m_CPI15_22:
	.long	4244438268                      @ 0xfcfcfcfc
	.p2align	2
@ %bb.19:
.Lgcm_v6m_CPI15_23:
	.long	50529027                        @ 0x3030303
	.p2align	1
.Lgcm_v6m_BB15_20:                              @ %join.7.i
                                        @   in Loop: Header=BB15_5 Depth=1
	ldr	r5, [r0, r3]
	mov	r6, r0
	ldr	r3, [sp, #48]                   @ 4-byte Reload
	eors	r5, r2
	ldr	r0, [sp, #96]                   @ 4-byte Reload
	eors	r5, r0
	eors	r5, r4
	ldr	r1, [sp, #104]                  @ 4-byte Reload
	ldr	r0, [sp, #108]                  @ 4-byte Reload
	eors	r1, r0
	mov	r0, r1
	ldr	r2, [sp, #84]                   @ 4-byte Reload
	rors	r0, r2
	eors	r1, r0
	eors	r5, r1
	rors	r1, r7
	movs	r2, #140
	ldr	r7, [r6, r2]
	eors	r7, r1
	ldr	r1, [sp, #24]                   @ 4-byte Reload
	ldr	r2, [sp, #136]                  @ 4-byte Reload
	eors	r7, r2
	eors	r7, r4
	eors	r7, r0
	ldr	r2, [sp, #60]                   @ 4-byte Reload
	adds	r2, r2, #1
	ldr	r0, [sp, #28]                   @ 4-byte Reload
	adcs	r3, r0
	str	r2, [sp, #60]                   @ 4-byte Spill
	subs	r0, r2, r1
	mov	r0, r3
	ldr	r4, [sp, #20]                   @ 4-byte Reload
	sbcs	r0, r4
	bhs	.Lgcm_v6m_BB15_22
	bl	.Lgcm_v6m_BB15_5
.Lgcm_v6m_BB15_21:
	ldr	r5, [sp, #56]                   @ 4-byte Reload
.Lgcm_v6m_BB15_22:                              @ %after.3.i
	str	r5, [sp, #56]                   @ 4-byte Spill
	mov	r2, r5
	ldr	r3, [sp, #148]                  @ 4-byte Reload
	eors	r2, r3
	str	r2, [sp, #140]                  @ 4-byte Spill
	ldr	r0, [sp, #128]                  @ 4-byte Reload
	ldr	r6, [sp, #116]                  @ 4-byte Reload
	eors	r0, r6
	str	r0, [sp, #72]                   @ 4-byte Spill
	mov	r1, r0
	eors	r1, r2
	str	r1, [sp, #144]                  @ 4-byte Spill
	eors	r7, r1
	mov	r1, r7
	eors	r1, r3
	str	r1, [sp, #100]                  @ 4-byte Spill
	ldr	r3, [sp, #120]                  @ 4-byte Reload
	ldr	r0, [sp, #80]                   @ 4-byte Reload
	eors	r3, r0
	eors	r1, r3
	str	r1, [sp, #136]                  @ 4-byte Spill
	eors	r7, r0
	ldr	r4, [sp, #128]                  @ 4-byte Reload
	eors	r4, r5
	mov	r2, r7
	eors	r2, r4
	str	r2, [sp, #104]                  @ 4-byte Spill
	str	r4, [sp, #84]                   @ 4-byte Spill
	mov	r0, r2
	eors	r0, r1
	str	r0, [sp, #76]                   @ 4-byte Spill
	mov	r1, r0
	ldr	r0, [sp, #140]                  @ 4-byte Reload
	ands	r1, r0
	mov	r0, r1
	mov	r1, r2
	ands	r1, r4
	eors	r0, r1
	str	r0, [sp, #108]                  @ 4-byte Spill
	eors	r2, r3
	ldr	r5, [sp, #132]                  @ 4-byte Reload
	eors	r3, r5
	str	r5, [sp, #132]                  @ 4-byte Spill
	eors	r6, r3
	str	r6, [sp, #116]                  @ 4-byte Spill
	mov	r4, r6
	ands	r4, r3
	mov	r6, r3
	str	r3, [sp, #120]                  @ 4-byte Spill
	str	r2, [sp, #124]                  @ 4-byte Spill
	eors	r4, r2
	ldr	r0, [sp, #72]                   @ 4-byte Reload
	ands	r2, r0
	eors	r4, r2
	eors	r4, r0
	ldr	r0, [sp, #108]                  @ 4-byte Reload
	eors	r4, r0
	str	r4, [sp, #152]                  @ 4-byte Spill
	ldr	r4, [sp, #148]                  @ 4-byte Reload
	ldr	r0, [sp, #128]                  @ 4-byte Reload
	eors	r4, r0
	str	r4, [sp, #148]                  @ 4-byte Spill
	ldr	r3, [sp, #136]                  @ 4-byte Reload
	ands	r3, r4
	eors	r3, r1
	ldr	r4, [sp, #104]                  @ 4-byte Reload
	eors	r4, r5
	str	r4, [sp, #48]                   @ 4-byte Spill
	eors	r6, r0
	str	r6, [sp, #96]                   @ 4-byte Spill
	ands	r4, r6
	ldr	r1, [sp, #124]                  @ 4-byte Reload
	eors	r4, r1
	eors	r4, r2
	eors	r4, r0
	eors	r4, r3
	mov	r0, r4
	ldr	r1, [sp, #152]                  @ 4-byte Reload
	eors	r0, r1
	str	r0, [sp, #128]                  @ 4-byte Spill
	ldr	r2, [sp, #100]                  @ 4-byte Reload
	mov	r6, r2
	ldr	r1, [sp, #144]                  @ 4-byte Reload
	ands	r6, r1
	ldr	r0, [sp, #116]                  @ 4-byte Reload
	ldr	r1, [sp, #148]                  @ 4-byte Reload
	eors	r0, r1
	mov	r1, r0
	str	r0, [sp, #80]                   @ 4-byte Spill
	ldr	r0, [sp, #132]                  @ 4-byte Reload
	eors	r2, r0
	mov	r0, r2
	str	r2, [sp, #112]                  @ 4-byte Spill
	ands	r0, r1
	eors	r0, r7
	eors	r0, r6
	ldr	r1, [sp, #108]                  @ 4-byte Reload
	eors	r0, r1
	ldr	r2, [sp, #152]                  @ 4-byte Reload
	mov	r5, r2
	ands	r5, r0
	ldr	r7, [sp, #56]                   @ 4-byte Reload
	ldr	r1, [sp, #120]                  @ 4-byte Reload
	eors	r7, r1
	str	r7, [sp, #56]                   @ 4-byte Spill
	ldr	r1, [sp, #132]                  @ 4-byte Reload
	ands	r7, r1
	ldr	r1, [sp, #148]                  @ 4-byte Reload
	eors	r7, r1
	ldr	r1, [sp, #136]                  @ 4-byte Reload
	eors	r7, r1
	eors	r7, r6
	eors	r7, r3
	mov	r3, r5
	eors	r3, r7
	ldr	r1, [sp, #128]                  @ 4-byte Reload
	ands	r3, r1
	mov	r1, r3
	eors	r1, r4
	eors	r3, r5
	ands	r3, r4
	eors	r2, r3
	str	r2, [sp, #152]                  @ 4-byte Spill
	eors	r2, r1
	str	r1, [sp, #128]                  @ 4-byte Spill
	eors	r0, r7
	eors	r5, r4
	eors	r3, r5
	ands	r5, r0
	eors	r5, r7
	ands	r3, r5
	eors	r3, r0
	mov	r4, r3
	eors	r4, r2
	str	r4, [sp, #92]                   @ 4-byte Spill
	mov	r6, r5
	str	r5, [sp, #108]                  @ 4-byte Spill
	eors	r6, r1
	eors	r4, r6
	ldr	r1, [sp, #76]                   @ 4-byte Reload
	ands	r1, r4
	ldr	r7, [sp, #120]                  @ 4-byte Reload
	ands	r7, r3
	mov	r0, r3
	eors	r0, r5
	mov	r5, r0
	str	r0, [sp, #88]                   @ 4-byte Spill
	ldr	r0, [sp, #124]                  @ 4-byte Reload
	ands	r0, r5
	str	r0, [sp, #124]                  @ 4-byte Spill
	eors	r7, r0
	str	r7, [sp, #120]                  @ 4-byte Spill
	eors	r1, r7
	str	r1, [sp, #76]                   @ 4-byte Spill
	ldr	r5, [sp, #104]                  @ 4-byte Reload
	ands	r5, r6
	eors	r5, r1
	ldr	r0, [sp, #112]                  @ 4-byte Reload
	ands	r0, r2
	ldr	r1, [sp, #100]                  @ 4-byte Reload
	ldr	r7, [sp, #152]                  @ 4-byte Reload
	ands	r1, r7
	str	r1, [sp, #100]                  @ 4-byte Spill
	eors	r0, r1
	ldr	r1, [sp, #120]                  @ 4-byte Reload
	eors	r0, r1
	mov	r1, r0
	ldr	r0, [sp, #140]                  @ 4-byte Reload
	ands	r4, r0
	ldr	r0, [sp, #84]                   @ 4-byte Reload
	ands	r6, r0
	str	r6, [sp, #120]                  @ 4-byte Spill
	eors	r4, r6
	str	r4, [sp, #36]                   @ 4-byte Spill
	ldr	r0, [sp, #80]                   @ 4-byte Reload
	ands	r2, r0
	eors	r2, r4
	str	r2, [sp, #40]                   @ 4-byte Spill
	ldr	r0, [sp, #144]                  @ 4-byte Reload
	ands	r7, r0
	eors	r7, r2
	str	r7, [sp, #152]                  @ 4-byte Spill
	eors	r1, r7
	str	r1, [sp, #112]                  @ 4-byte Spill
	eors	r1, r5
	str	r5, [sp, #104]                  @ 4-byte Spill
	movs	r7, #2
	mov	r2, r1
	rors	r2, r7
	ldr	r0, .Lgcm_v6m_CPI15_24
	ands	r2, r0
	movs	r4, #10
	mov	r6, r1
	rors	r6, r4
	str	r4, [sp, #80]                   @ 4-byte Spill
	ldr	r0, .Lgcm_v6m_CPI15_25
	ands	r6, r0
	orrs	r6, r2
	str	r6, [sp, #44]                   @ 4-byte Spill
	eors	r1, r6
	str	r1, [sp, #68]                   @ 4-byte Spill
	ldr	r0, [sp, #152]                  @ 4-byte Reload
	eors	r0, r5
	mov	r6, r0
	rors	r6, r7
	ldr	r1, .Lgcm_v6m_CPI15_24
	ands	r6, r1
	mov	r2, r0
	rors	r2, r4
	ldr	r1, .Lgcm_v6m_CPI15_25
	ands	r2, r1
	orrs	r2, r6
	eors	r0, r2
	movs	r4, #12
	str	r4, [sp, #144]                  @ 4-byte Spill
	mov	r6, r0
	mov	r1, r0
	str	r0, [sp, #152]                  @ 4-byte Spill
	rors	r6, r4
	ldr	r0, .Lgcm_v6m_CPI15_26
	ands	r6, r0
	movs	r4, #20
	str	r4, [sp, #140]                  @ 4-byte Spill
	mov	r0, r1
	rors	r0, r4
	ldr	r1, .Lgcm_v6m_CPI15_27
	ands	r0, r1
	orrs	r0, r6
	movs	r6, #3
	ldr	r1, [sp, #8]                    @ 4-byte Reload
	bics	r1, r6
	str	r1, [sp, #52]                   @ 4-byte Spill
	lsls	r6, r1, #5
	ldr	r1, [sp, #32]                   @ 4-byte Reload
	adds	r1, r1, r6
	str	r1, [sp, #84]                   @ 4-byte Spill
	ldr	r1, [r1, #60]
	eors	r1, r0
	eors	r1, r2
	ldr	r0, [sp, #68]                   @ 4-byte Reload
	eors	r1, r0
	str	r1, [sp, #60]                   @ 4-byte Spill
	ldr	r0, [sp, #136]                  @ 4-byte Reload
	ldr	r6, [sp, #92]                   @ 4-byte Reload
	ands	r0, r6
	ldr	r1, [sp, #132]                  @ 4-byte Reload
	ldr	r2, [sp, #128]                  @ 4-byte Reload
	ands	r1, r2
	ldr	r2, [sp, #100]                  @ 4-byte Reload
	eors	r1, r2
	str	r1, [sp, #132]                  @ 4-byte Spill
	eors	r0, r1
	ldr	r2, [sp, #88]                   @ 4-byte Reload
	ldr	r1, [sp, #72]                   @ 4-byte Reload
	ands	r2, r1
	str	r2, [sp, #88]                   @ 4-byte Spill
	eors	r0, r2
	ldr	r1, [sp, #76]                   @ 4-byte Reload
	eors	r0, r1
	str	r0, [sp, #136]                  @ 4-byte Spill
	ldr	r1, [sp, #96]                   @ 4-byte Reload
	ldr	r2, [sp, #108]                  @ 4-byte Reload
	ands	r1, r2
	eors	r1, r0
	str	r1, [sp, #96]                   @ 4-byte Spill
	ldr	r0, [sp, #148]                  @ 4-byte Reload
	ands	r6, r0
	ldr	r0, [sp, #120]                  @ 4-byte Reload
	eors	r6, r0
	ldr	r0, [sp, #104]                  @ 4-byte Reload
	eors	r6, r0
	eors	r6, r1
	mov	r2, r6
	rors	r2, r7
	mov	r5, r7
	ldr	r7, .Lgcm_v6m_CPI15_24
	ands	r2, r7
	mov	r0, r6
	ldr	r4, [sp, #80]                   @ 4-byte Reload
	rors	r0, r4
	ldr	r1, .Lgcm_v6m_CPI15_25
	ands	r0, r1
	orrs	r0, r2
	eors	r6, r0
	str	r6, [sp, #92]                   @ 4-byte Spill
	mov	r2, r6
	ldr	r1, [sp, #144]                  @ 4-byte Reload
	rors	r2, r1
	ldr	r1, .Lgcm_v6m_CPI15_26
	ands	r2, r1
	ldr	r1, [sp, #140]                  @ 4-byte Reload
	rors	r6, r1
	ldr	r1, .Lgcm_v6m_CPI15_27
	ands	r6, r1
	orrs	r6, r2
	ldr	r1, [sp, #84]                   @ 4-byte Reload
	ldr	r1, [r1, #52]
	eors	r1, r6
	eors	r1, r0
	ldr	r2, [sp, #112]                  @ 4-byte Reload
	mov	r0, r2
	mov	r6, r5
	rors	r0, r5
	ands	r0, r7
	mov	r7, r2
	rors	r7, r4
	ldr	r5, .Lgcm_v6m_CPI15_25
	ands	r7, r5
	orrs	r7, r0
	str	r7, [sp, #148]                  @ 4-byte Spill
	eors	r7, r2
	eors	r1, r7
	str	r1, [sp, #120]                  @ 4-byte Spill
	ldr	r1, [sp, #108]                  @ 4-byte Reload
	ldr	r0, [sp, #48]                   @ 4-byte Reload
	ands	r1, r0
	ldr	r0, [sp, #132]                  @ 4-byte Reload
	eors	r1, r0
	ldr	r0, [sp, #124]                  @ 4-byte Reload
	eors	r1, r0
	str	r1, [sp, #108]                  @ 4-byte Spill
	ldr	r0, [sp, #116]                  @ 4-byte Reload
	ands	r3, r0
	eors	r3, r1
	ldr	r0, [sp, #36]                   @ 4-byte Reload
	eors	r3, r0
	ldr	r2, [sp, #136]                  @ 4-byte Reload
	eors	r2, r3
	mov	r0, r2
	mov	r1, r6
	str	r6, [sp, #64]                   @ 4-byte Spill
	rors	r0, r6
	ldr	r5, .Lgcm_v6m_CPI15_24
	ands	r0, r5
	mov	r6, r2
	rors	r6, r4
	ldr	r5, .Lgcm_v6m_CPI15_25
	ands	r6, r5
	orrs	r6, r0
	eors	r2, r6
	str	r2, [sp, #136]                  @ 4-byte Spill
	ldr	r2, [sp, #128]                  @ 4-byte Reload
	ldr	r0, [sp, #56]                   @ 4-byte Reload
	ands	r2, r0
	ldr	r0, [sp, #40]                   @ 4-byte Reload
	eors	r2, r0
	ldr	r0, [sp, #96]                   @ 4-byte Reload
	eors	r2, r0
	mov	r0, r2
	rors	r0, r1
	ldr	r1, .Lgcm_v6m_CPI15_24
	ands	r0, r1
	mov	r1, r2
	rors	r1, r4
	ands	r1, r5
	orrs	r1, r0
	mov	r0, r2
	eors	r0, r1
	mov	r2, r0
	mov	r5, r0
	str	r0, [sp, #128]                  @ 4-byte Spill
	ldr	r4, [sp, #144]                  @ 4-byte Reload
	rors	r2, r4
	ldr	r0, .Lgcm_v6m_CPI15_26
	ands	r2, r0
	mov	r0, r5
	ldr	r5, [sp, #140]                  @ 4-byte Reload
	rors	r0, r5
	ldr	r5, .Lgcm_v6m_CPI15_27
	ands	r0, r5
	orrs	r0, r2
	ldr	r5, [sp, #84]                   @ 4-byte Reload
	ldr	r2, [r5, #40]
	eors	r2, r0
	eors	r2, r1
	ldr	r1, [sp, #136]                  @ 4-byte Reload
	eors	r2, r1
	str	r2, [sp, #132]                  @ 4-byte Spill
	mov	r0, r1
	rors	r0, r4
	ldr	r2, .Lgcm_v6m_CPI15_26
	ands	r0, r2
	ldr	r4, [sp, #140]                  @ 4-byte Reload
	rors	r1, r4
	ldr	r2, .Lgcm_v6m_CPI15_27
	ands	r1, r2
	orrs	r1, r0
	ldr	r2, [r5, #36]
	eors	r2, r1
	eors	r2, r6
	ldr	r0, [sp, #88]                   @ 4-byte Reload
	eors	r3, r0
	mov	r0, r3
	ldr	r1, [sp, #64]                   @ 4-byte Reload
	rors	r0, r1
	ldr	r1, .Lgcm_v6m_CPI15_24
	ands	r0, r1
	mov	r1, r3
	ldr	r5, [sp, #80]                   @ 4-byte Reload
	rors	r1, r5
	ldr	r5, .Lgcm_v6m_CPI15_25
	ands	r1, r5
	orrs	r1, r0
	eors	r3, r1
	eors	r2, r3
	ldr	r0, [sp, #152]                  @ 4-byte Reload
	eors	r2, r0
	str	r2, [sp, #124]                  @ 4-byte Spill
	ldr	r5, [sp, #68]                   @ 4-byte Reload
	mov	r0, r5
	ldr	r6, [sp, #144]                  @ 4-byte Reload
	rors	r0, r6
	ldr	r2, .Lgcm_v6m_CPI15_26
	ands	r0, r2
	rors	r5, r4
	ldr	r2, .Lgcm_v6m_CPI15_27
	ands	r5, r2
	orrs	r5, r0
	ldr	r4, [sp, #84]                   @ 4-byte Reload
	ldr	r2, [r4, #56]
	eors	r2, r5
	ldr	r0, [sp, #44]                   @ 4-byte Reload
	eors	r2, r0
	ldr	r0, [sp, #92]                   @ 4-byte Reload
	eors	r2, r0
	str	r2, [sp, #136]                  @ 4-byte Spill
	mov	r0, r3
	mov	r2, r6
	rors	r0, r6
	ldr	r5, .Lgcm_v6m_CPI15_26
	ands	r0, r5
	ldr	r6, [sp, #140]                  @ 4-byte Reload
	rors	r3, r6
	ldr	r5, .Lgcm_v6m_CPI15_27
	ands	r3, r5
	orrs	r3, r0
	ldr	r0, [r4, #32]
	eors	r0, r3
	eors	r0, r1
	ldr	r3, [sp, #152]                  @ 4-byte Reload
	eors	r0, r3
	str	r0, [sp, #116]                  @ 4-byte Spill
	mov	r0, r7
	rors	r0, r2
	ldr	r1, .Lgcm_v6m_CPI15_26
	ands	r0, r1
	rors	r7, r6
	ldr	r1, .Lgcm_v6m_CPI15_27
	ands	r7, r1
	orrs	r7, r0
	ldr	r5, [r4, #48]
	mov	r6, r4
	eors	r5, r7
	ldr	r0, [sp, #148]                  @ 4-byte Reload
	eors	r5, r0
	eors	r5, r3
	ldr	r2, [sp, #108]                  @ 4-byte Reload
	ldr	r0, [sp, #112]                  @ 4-byte Reload
	eors	r2, r0
	mov	r0, r2
	ldr	r1, [sp, #64]                   @ 4-byte Reload
	rors	r0, r1
	ldr	r1, .Lgcm_v6m_CPI15_24
	ands	r0, r1
	mov	r1, r2
	ldr	r4, [sp, #80]                   @ 4-byte Reload
	rors	r1, r4
	ldr	r4, .Lgcm_v6m_CPI15_25
	ands	r1, r4
	orrs	r1, r0
	eors	r2, r1
	eors	r5, r2
	mov	r0, r2
	ldr	r4, [sp, #144]                  @ 4-byte Reload
	rors	r0, r4
	ldr	r4, .Lgcm_v6m_CPI15_26
	ands	r0, r4
	ldr	r4, [sp, #140]                  @ 4-byte Reload
	rors	r2, r4
	ldr	r4, .Lgcm_v6m_CPI15_27
	ands	r2, r4
	orrs	r2, r0
	ldr	r0, [r6, #44]
	eors	r0, r2
	ldr	r2, [sp, #128]                  @ 4-byte Reload
	eors	r0, r2
	eors	r0, r3
	eors	r0, r1
	ldr	r1, [sp, #52]                   @ 4-byte Reload
	adds	r1, r1, #2
	ldr	r2, [sp, #16]                   @ 4-byte Reload
	subs	r1, r1, r2
	ldr	r1, [sp, #12]                   @ 4-byte Reload
	ldr	r3, [sp]                        @ 4-byte Reload
	sbcs	r3, r1
	blo	.Lgcm_v6m_BB15_27
	b	.Lgcm_v6m_BB15_35
	.p2align	2
@ %bb.23:
.Lgcm_v6m_CPI15_24:
	.long	3233857728                      @ 0xc0c0c0c0
	.p2align	2
@ %bb.24:
.Lgcm_v6m_CPI15_25:
	.long	1061109567                      @ 0x3f3f3f3f
	.p2align	2
@ %bb.25:
.Lgcm_v6m_CPI15_26:
	.long	4042322160                      @ 0xf0f0f0f0
	.p2align	2
@ %bb.26:
.Lgcm_v6m_CPI15_27:
	.long	252645135                       @ 0xf0f0f0f
	.p2align	1
.Lgcm_v6m_BB15_27:                              @ %then.11.i
	mov	r4, r5
	ldr	r6, [sp, #132]                  @ 4-byte Reload
	eors	r4, r6
	str	r4, [sp, #64]                   @ 4-byte Spill
	ldr	r1, [sp, #124]                  @ 4-byte Reload
	ldr	r7, [sp, #60]                   @ 4-byte Reload
	eors	r1, r7
	str	r1, [sp, #88]                   @ 4-byte Spill
	mov	r3, r1
	eors	r3, r4
	str	r3, [sp, #68]                   @ 4-byte Spill
	eors	r0, r3
	mov	r2, r0
	eors	r2, r6
	str	r2, [sp, #104]                  @ 4-byte Spill
	ldr	r1, [sp, #120]                  @ 4-byte Reload
	ldr	r6, [sp, #136]                  @ 4-byte Reload
	eors	r1, r6
	eors	r2, r1
	str	r2, [sp, #152]                  @ 4-byte Spill
	eors	r0, r6
	mov	r3, r5
	eors	r3, r7
	mov	r6, r0
	eors	r6, r3
	str	r6, [sp, #128]                  @ 4-byte Spill
	str	r3, [sp, #80]                   @ 4-byte Spill
	mov	r4, r6
	eors	r4, r2
	str	r4, [sp, #76]                   @ 4-byte Spill
	ldr	r2, [sp, #64]                   @ 4-byte Reload
	ands	r4, r2
	mov	r2, r4
	mov	r4, r6
	ands	r4, r3
	eors	r2, r4
	str	r2, [sp, #136]                  @ 4-byte Spill
	mov	r2, r6
	eors	r2, r1
	ldr	r3, [sp, #116]                  @ 4-byte Reload
	eors	r1, r3
	ldr	r6, [sp, #124]                  @ 4-byte Reload
	eors	r6, r1
	str	r6, [sp, #124]                  @ 4-byte Spill
	ands	r6, r1
	mov	r3, r1
	str	r1, [sp, #120]                  @ 4-byte Spill
	str	r2, [sp, #108]                  @ 4-byte Spill
	eors	r6, r2
	mov	r1, r2
	ldr	r2, [sp, #88]                   @ 4-byte Reload
	ands	r1, r2
	eors	r6, r1
	eors	r6, r2
	ldr	r2, [sp, #136]                  @ 4-byte Reload
	eors	r6, r2
	str	r6, [sp, #148]                  @ 4-byte Spill
	ldr	r6, [sp, #132]                  @ 4-byte Reload
	eors	r6, r7
	str	r6, [sp, #132]                  @ 4-byte Spill
	ldr	r2, [sp, #152]                  @ 4-byte Reload
	ands	r2, r6
	eors	r2, r4
	mov	r4, r2
	str	r2, [sp, #84]                   @ 4-byte Spill
	ldr	r6, [sp, #128]                  @ 4-byte Reload
	ldr	r2, [sp, #116]                  @ 4-byte Reload
	eors	r6, r2
	str	r6, [sp, #52]                   @ 4-byte Spill
	eors	r3, r7
	str	r3, [sp, #96]                   @ 4-byte Spill
	str	r5, [sp, #100]                  @ 4-byte Spill
	mov	r5, r6
	ands	r5, r3
	ldr	r2, [sp, #108]                  @ 4-byte Reload
	eors	r5, r2
	eors	r5, r1
	eors	r5, r7
	eors	r5, r4
	mov	r1, r5
	ldr	r3, [sp, #148]                  @ 4-byte Reload
	eors	r1, r3
	str	r1, [sp, #112]                  @ 4-byte Spill
	ldr	r1, [sp, #104]                  @ 4-byte Reload
	mov	r2, r1
	ldr	r6, [sp, #68]                   @ 4-byte Reload
	ands	r2, r6
	ldr	r4, [sp, #124]                  @ 4-byte Reload
	ldr	r6, [sp, #132]                  @ 4-byte Reload
	eors	r4, r6
	str	r4, [sp, #48]                   @ 4-byte Spill
	mov	r6, r1
	ldr	r1, [sp, #116]                  @ 4-byte Reload
	eors	r6, r1
	str	r6, [sp, #92]                   @ 4-byte Spill
	mov	r7, r6
	ands	r7, r4
	eors	r7, r0
	eors	r7, r2
	ldr	r0, [sp, #136]                  @ 4-byte Reload
	eors	r7, r0
	mov	r4, r3
	ands	r4, r7
	ldr	r0, [sp, #100]                  @ 4-byte Reload
	ldr	r6, [sp, #120]                  @ 4-byte Reload
	eors	r0, r6
	str	r0, [sp, #100]                  @ 4-byte Spill
	ands	r0, r1
	ldr	r1, [sp, #132]                  @ 4-byte Reload
	eors	r0, r1
	ldr	r6, [sp, #152]                  @ 4-byte Reload
	eors	r0, r6
	eors	r0, r2
	ldr	r1, [sp, #84]                   @ 4-byte Reload
	eors	r0, r1
	mov	r6, r4
	eors	r6, r0
	ldr	r1, [sp, #112]                  @ 4-byte Reload
	ands	r6, r1
	mov	r1, r6
	eors	r1, r5
	eors	r6, r4
	ands	r6, r5
	eors	r3, r6
	str	r3, [sp, #148]                  @ 4-byte Spill
	eors	r3, r1
	str	r3, [sp, #84]                   @ 4-byte Spill
	eors	r7, r0
	mov	r2, r4
	eors	r2, r5
	eors	r6, r2
	ands	r2, r7
	eors	r2, r0
	ands	r6, r2
	eors	r6, r7
	mov	r4, r6
	eors	r4, r3
	mov	r0, r2
	str	r2, [sp, #112]                  @ 4-byte Spill
	str	r1, [sp, #56]                   @ 4-byte Spill
	eors	r2, r1
	str	r2, [sp, #136]                  @ 4-byte Spill
	mov	r3, r4
	eors	r3, r2
	str	r3, [sp, #72]                   @ 4-byte Spill
	ldr	r2, [sp, #76]                   @ 4-byte Reload
	ands	r2, r3
	ldr	r3, [sp, #120]                  @ 4-byte Reload
	ands	r3, r6
	mov	r5, r6
	eors	r5, r0
	ldr	r0, [sp, #108]                  @ 4-byte Reload
	ands	r0, r5
	str	r0, [sp, #108]                  @ 4-byte Spill
	eors	r3, r0
	str	r3, [sp, #120]                  @ 4-byte Spill
	eors	r2, r3
	ldr	r0, [sp, #152]                  @ 4-byte Reload
	ands	r0, r4
	ldr	r3, [sp, #116]                  @ 4-byte Reload
	ands	r3, r1
	ldr	r1, [sp, #104]                  @ 4-byte Reload
	ldr	r7, [sp, #148]                  @ 4-byte Reload
	ands	r1, r7
	str	r1, [sp, #104]                  @ 4-byte Spill
	eors	r3, r1
	str	r3, [sp, #116]                  @ 4-byte Spill
	eors	r0, r3
	ldr	r1, [sp, #88]                   @ 4-byte Reload
	ands	r5, r1
	str	r5, [sp, #88]                   @ 4-byte Spill
	eors	r0, r5
	eors	r0, r2
	str	r0, [sp, #152]                  @ 4-byte Spill
	ldr	r1, [sp, #96]                   @ 4-byte Reload
	ldr	r3, [sp, #112]                  @ 4-byte Reload
	ands	r1, r3
	eors	r1, r0
	str	r1, [sp, #96]                   @ 4-byte Spill
	ldr	r0, [sp, #128]                  @ 4-byte Reload
	ldr	r7, [sp, #136]                  @ 4-byte Reload
	ands	r0, r7
	eors	r0, r2
	mov	r2, r0
	str	r0, [sp, #128]                  @ 4-byte Spill
	ldr	r0, [sp, #132]                  @ 4-byte Reload
	ands	r4, r0
	ldr	r0, [sp, #80]                   @ 4-byte Reload
	ands	r7, r0
	eors	r4, r7
	eors	r4, r2
	eors	r4, r1
	movs	r0, #4
	str	r0, [sp, #76]                   @ 4-byte Spill
	mov	r5, r4
	rors	r5, r0
	ldr	r0, .Lgcm_v6m_CPI15_28
	ands	r5, r0
	mov	r3, r4
	ldr	r0, [sp, #144]                  @ 4-byte Reload
	rors	r3, r0
	ldr	r0, .Lgcm_v6m_CPI15_29
	ands	r3, r0
	orrs	r3, r5
	eors	r4, r3
	movs	r0, #16
	str	r0, [sp, #60]                   @ 4-byte Spill
	mov	r5, r4
	rors	r5, r0
	ldr	r1, [sp, #8]                    @ 4-byte Reload
	lsls	r0, r1, #5
	str	r0, [sp, #132]                  @ 4-byte Spill
	ldr	r1, [sp, #32]                   @ 4-byte Reload
	adds	r0, r1, r0
	str	r0, [sp, #80]                   @ 4-byte Spill
	ldr	r0, [r0, #20]
	eors	r0, r5
	eors	r0, r3
	str	r0, [sp, #136]                  @ 4-byte Spill
	ldr	r0, [sp, #92]                   @ 4-byte Reload
	ldr	r3, [sp, #84]                   @ 4-byte Reload
	ands	r0, r3
	ldr	r1, [sp, #104]                  @ 4-byte Reload
	eors	r0, r1
	ldr	r1, [sp, #120]                  @ 4-byte Reload
	eors	r0, r1
	ldr	r1, [sp, #64]                   @ 4-byte Reload
	ldr	r2, [sp, #72]                   @ 4-byte Reload
	ands	r2, r1
	eors	r2, r7
	str	r2, [sp, #72]                   @ 4-byte Spill
	ldr	r1, [sp, #48]                   @ 4-byte Reload
	ands	r3, r1
	eors	r3, r2
	str	r3, [sp, #84]                   @ 4-byte Spill
	ldr	r1, [sp, #148]                  @ 4-byte Reload
	ldr	r5, [sp, #68]                   @ 4-byte Reload
	ands	r1, r5
	eors	r1, r3
	str	r1, [sp, #148]                  @ 4-byte Spill
	eors	r0, r1
	str	r0, [sp, #92]                   @ 4-byte Spill
	mov	r3, r0
	ldr	r7, [sp, #76]                   @ 4-byte Reload
	rors	r3, r7
	ldr	r5, .Lgcm_v6m_CPI15_28
	ands	r3, r5
	mov	r2, r0
	ldr	r1, [sp, #144]                  @ 4-byte Reload
	rors	r2, r1
	ldr	r1, .Lgcm_v6m_CPI15_29
	ands	r2, r1
	orrs	r2, r3
	str	r2, [sp, #104]                  @ 4-byte Spill
	eors	r2, r0
	str	r2, [sp, #68]                   @ 4-byte Spill
	ldr	r1, [sp, #136]                  @ 4-byte Reload
	eors	r1, r2
	mov	r2, r0
	ldr	r0, [sp, #128]                  @ 4-byte Reload
	eors	r2, r0
	mov	r0, r2
	mov	r3, r2
	rors	r3, r7
	mov	r2, r7
	ands	r3, r5
	mov	r5, r0
	ldr	r7, [sp, #144]                  @ 4-byte Reload
	rors	r5, r7
	ldr	r7, .Lgcm_v6m_CPI15_29
	ands	r5, r7
	orrs	r5, r3
	eors	r0, r5
	str	r0, [sp, #48]                   @ 4-byte Spill
	mov	r3, r0
	ldr	r7, [sp, #60]                   @ 4-byte Reload
	rors	r3, r7
	ldr	r0, [sp, #80]                   @ 4-byte Reload
	ldr	r0, [r0, #24]
	eors	r0, r3
	eors	r0, r5
	eors	r0, r4
	str	r0, [sp, #120]                  @ 4-byte Spill
	eors	r1, r0
	str	r1, [sp, #136]                  @ 4-byte Spill
	ldr	r0, [sp, #52]                   @ 4-byte Reload
	ldr	r1, [sp, #112]                  @ 4-byte Reload
	ands	r1, r0
	ldr	r0, [sp, #116]                  @ 4-byte Reload
	eors	r1, r0
	ldr	r0, [sp, #108]                  @ 4-byte Reload
	eors	r1, r0
	str	r1, [sp, #112]                  @ 4-byte Spill
	ldr	r0, [sp, #124]                  @ 4-byte Reload
	ands	r6, r0
	eors	r6, r1
	ldr	r0, [sp, #72]                   @ 4-byte Reload
	eors	r6, r0
	ldr	r0, [sp, #88]                   @ 4-byte Reload
	eors	r0, r6
	mov	r1, r0
	mov	r4, r2
	rors	r1, r2
	ldr	r2, .Lgcm_v6m_CPI15_28
	ands	r1, r2
	mov	r2, r0
	ldr	r3, [sp, #144]                  @ 4-byte Reload
	rors	r2, r3
	ldr	r5, .Lgcm_v6m_CPI15_29
	ands	r2, r5
	orrs	r2, r1
	eors	r0, r2
	str	r0, [sp, #88]                   @ 4-byte Spill
	mov	r1, r0
	rors	r1, r7
	ldr	r5, [sp, #32]                   @ 4-byte Reload
	ldr	r0, [sp, #132]                  @ 4-byte Reload
	ldr	r0, [r5, r0]
	eors	r0, r1
	eors	r0, r2
	ldr	r7, [sp, #148]                  @ 4-byte Reload
	ldr	r1, [sp, #128]                  @ 4-byte Reload
	eors	r7, r1
	mov	r1, r7
	rors	r1, r4
	ldr	r2, .Lgcm_v6m_CPI15_28
	ands	r1, r2
	mov	r5, r7
	rors	r5, r3
	ldr	r2, .Lgcm_v6m_CPI15_29
	ands	r5, r2
	orrs	r5, r1
	eors	r7, r5
	str	r7, [sp, #148]                  @ 4-byte Spill
	eors	r0, r7
	str	r0, [sp, #132]                  @ 4-byte Spill
	ldr	r7, [sp, #136]                  @ 4-byte Reload
	eors	r7, r0
	ldr	r0, [sp, #152]                  @ 4-byte Reload
	eors	r6, r0
	mov	r1, r6
	rors	r1, r4
	ldr	r0, .Lgcm_v6m_CPI15_28
	ands	r1, r0
	mov	r2, r6
	rors	r2, r3
	ldr	r0, .Lgcm_v6m_CPI15_29
	ands	r2, r0
	orrs	r2, r1
	eors	r6, r2
	mov	r0, r6
	ldr	r4, [sp, #60]                   @ 4-byte Reload
	rors	r0, r4
	ldr	r3, [sp, #80]                   @ 4-byte Reload
	ldr	r1, [r3, #4]
	eors	r1, r0
	eors	r1, r2
	ldr	r0, [sp, #88]                   @ 4-byte Reload
	eors	r1, r0
	ldr	r2, [sp, #148]                  @ 4-byte Reload
	eors	r1, r2
	str	r7, [sp, #108]                  @ 4-byte Spill
	mov	r0, r7
	eors	r0, r1
	str	r0, [sp, #64]                   @ 4-byte Spill
	ands	r0, r7
	str	r0, [sp, #152]                  @ 4-byte Spill
	mov	r0, r2
	rors	r0, r4
	ldr	r2, [r3, #28]
	mov	r7, r3
	eors	r2, r0
	eors	r2, r5
	ldr	r0, [sp, #48]                   @ 4-byte Reload
	eors	r2, r0
	str	r2, [sp, #116]                  @ 4-byte Spill
	eors	r1, r2
	str	r1, [sp, #88]                   @ 4-byte Spill
	ldr	r5, [sp, #56]                   @ 4-byte Reload
	ldr	r0, [sp, #100]                  @ 4-byte Reload
	ands	r5, r0
	ldr	r0, [sp, #84]                   @ 4-byte Reload
	eors	r5, r0
	ldr	r0, [sp, #96]                   @ 4-byte Reload
	eors	r5, r0
	mov	r0, r5
	ldr	r1, [sp, #76]                   @ 4-byte Reload
	rors	r0, r1
	ldr	r1, .Lgcm_v6m_CPI15_28
	ands	r0, r1
	mov	r2, r5
	ldr	r3, [sp, #144]                  @ 4-byte Reload
	rors	r2, r3
	ldr	r1, .Lgcm_v6m_CPI15_29
	ands	r2, r1
	orrs	r2, r0
	eors	r5, r2
	mov	r0, r5
	rors	r0, r4
	mov	r1, r4
	mov	r4, r7
	ldr	r7, [r7, #8]
	eors	r7, r0
	eors	r7, r2
	eors	r7, r6
	ldr	r2, [sp, #68]                   @ 4-byte Reload
	rors	r2, r1
	ldr	r0, [r4, #16]
	eors	r0, r2
	ldr	r2, [sp, #104]                  @ 4-byte Reload
	eors	r0, r2
	ldr	r2, [sp, #148]                  @ 4-byte Reload
	eors	r0, r2
	mov	r4, r0
	ldr	r0, [sp, #92]                   @ 4-byte Reload
	ldr	r6, [sp, #112]                  @ 4-byte Reload
	eors	r6, r0
	mov	r2, r6
	ldr	r0, [sp, #76]                   @ 4-byte Reload
	rors	r2, r0
	ldr	r0, .Lgcm_v6m_CPI15_28
	ands	r2, r0
	mov	r0, r6
	rors	r0, r3
	ldr	r3, .Lgcm_v6m_CPI15_29
	ands	r0, r3
	orrs	r0, r2
	eors	r6, r0
	eors	r4, r6
	mov	r3, r4
	str	r4, [sp, #96]                   @ 4-byte Spill
	eors	r3, r7
	str	r3, [sp, #104]                  @ 4-byte Spill
	ldr	r2, [sp, #88]                   @ 4-byte Reload
	eors	r2, r3
	str	r2, [sp, #112]                  @ 4-byte Spill
	rors	r6, r1
	ldr	r1, [sp, #80]                   @ 4-byte Reload
	ldr	r3, [r1, #12]
	eors	r3, r6
	eors	r3, r5
	ldr	r5, [sp, #148]                  @ 4-byte Reload
	eors	r3, r5
	eors	r3, r0
	eors	r3, r2
	ldr	r0, [sp, #120]                  @ 4-byte Reload
	eors	r0, r3
	str	r0, [sp, #120]                  @ 4-byte Spill
	mov	r6, r3
	ldr	r1, [sp, #116]                  @ 4-byte Reload
	mov	r3, r1
	eors	r3, r4
	eors	r0, r3
	str	r0, [sp, #148]                  @ 4-byte Spill
	mov	r5, r3
	str	r3, [sp, #92]                   @ 4-byte Spill
	mov	r3, r0
	ldr	r2, [sp, #136]                  @ 4-byte Reload
	eors	r3, r2
	str	r3, [sp, #128]                  @ 4-byte Spill
	ldr	r4, [sp, #152]                  @ 4-byte Reload
	eors	r4, r3
	mov	r0, r3
	ldr	r3, [sp, #88]                   @ 4-byte Reload
	ands	r0, r3
	eors	r4, r0
	eors	r4, r3
	mov	r3, r4
	eors	r6, r7
	str	r6, [sp, #124]                  @ 4-byte Spill
	eors	r2, r6
	str	r2, [sp, #136]                  @ 4-byte Spill
	ldr	r6, [sp, #148]                  @ 4-byte Reload
	mov	r4, r6
	eors	r4, r2
	str	r4, [sp, #68]                   @ 4-byte Spill
	ldr	r2, [sp, #104]                  @ 4-byte Reload
	ands	r4, r2
	mov	r2, r6
	ands	r2, r5
	eors	r4, r2
	eors	r3, r4
	str	r3, [sp, #152]                  @ 4-byte Spill
	ldr	r3, [sp, #108]                  @ 4-byte Reload
	eors	r3, r1
	str	r3, [sp, #84]                   @ 4-byte Spill
	mov	r5, r6
	ldr	r6, [sp, #132]                  @ 4-byte Reload
	eors	r5, r6
	str	r5, [sp, #56]                   @ 4-byte Spill
	ands	r5, r3
	ldr	r3, [sp, #128]                  @ 4-byte Reload
	eors	r5, r3
	eors	r5, r0
	eors	r5, r1
	eors	r7, r1
	ldr	r6, [sp, #136]                  @ 4-byte Reload
	ands	r6, r7
	mov	r1, r7
	str	r7, [sp, #60]                   @ 4-byte Spill
	eors	r6, r2
	eors	r5, r6
	mov	r2, r5
	ldr	r0, [sp, #152]                  @ 4-byte Reload
	eors	r2, r0
	str	r2, [sp, #100]                  @ 4-byte Spill
	ldr	r2, [sp, #124]                  @ 4-byte Reload
	mov	r7, r2
	ldr	r0, [sp, #112]                  @ 4-byte Reload
	ands	r7, r0
	ldr	r0, [sp, #64]                   @ 4-byte Reload
	eors	r0, r1
	str	r0, [sp, #72]                   @ 4-byte Spill
	mov	r1, r2
	ldr	r3, [sp, #132]                  @ 4-byte Reload
	eors	r1, r3
	str	r1, [sp, #116]                  @ 4-byte Spill
	ands	r1, r0
	ldr	r0, [sp, #120]                  @ 4-byte Reload
	eors	r1, r0
	eors	r1, r7
	eors	r1, r4
	ldr	r4, [sp, #152]                  @ 4-byte Reload
	ands	r4, r1
	ldr	r0, [sp, #96]                   @ 4-byte Reload
	ldr	r2, [sp, #108]                  @ 4-byte Reload
	eors	r0, r2
	str	r0, [sp, #96]                   @ 4-byte Spill
	ands	r0, r3
	ldr	r2, [sp, #60]                   @ 4-byte Reload
	eors	r0, r2
	ldr	r2, [sp, #136]                  @ 4-byte Reload
	eors	r0, r2
	eors	r0, r7
	eors	r0, r6
	mov	r7, r4
	eors	r7, r0
	ldr	r2, [sp, #100]                  @ 4-byte Reload
	ands	r7, r2
	mov	r2, r7
	eors	r2, r5
	eors	r7, r4
	ands	r7, r5
	ldr	r3, [sp, #152]                  @ 4-byte Reload
	eors	r3, r7
	str	r3, [sp, #152]                  @ 4-byte Spill
	eors	r3, r2
	str	r2, [sp, #120]                  @ 4-byte Spill
	eors	r1, r0
	eors	r4, r5
	mov	r5, r4
	eors	r7, r4
	ands	r5, r1
	eors	r5, r0
	ands	r7, r5
	eors	r7, r1
	mov	r1, r7
	eors	r1, r3
	str	r1, [sp, #80]                   @ 4-byte Spill
	mov	r4, r5
	mov	r0, r5
	str	r5, [sp, #100]                  @ 4-byte Spill
	eors	r4, r2
	mov	r5, r1
	eors	r5, r4
	ldr	r2, [sp, #68]                   @ 4-byte Reload
	ands	r2, r5
	ldr	r1, [sp, #108]                  @ 4-byte Reload
	ands	r1, r7
	mov	r6, r7
	eors	r6, r0
	str	r6, [sp, #76]                   @ 4-byte Spill
	ldr	r0, [sp, #128]                  @ 4-byte Reload
	ands	r0, r6
	str	r0, [sp, #128]                  @ 4-byte Spill
	eors	r1, r0
	eors	r2, r1
	str	r2, [sp, #68]                   @ 4-byte Spill
	mov	r6, r1
	ldr	r0, [sp, #148]                  @ 4-byte Reload
	ands	r0, r4
	eors	r0, r2
	str	r0, [sp, #148]                  @ 4-byte Spill
	ldr	r0, [sp, #116]                  @ 4-byte Reload
	ands	r0, r3
	ldr	r2, [sp, #124]                  @ 4-byte Reload
	ldr	r1, [sp, #152]                  @ 4-byte Reload
	ands	r2, r1
	str	r2, [sp, #124]                  @ 4-byte Spill
	eors	r0, r2
	eors	r0, r6
	mov	r2, r0
	ldr	r0, [sp, #104]                  @ 4-byte Reload
	ands	r5, r0
	ldr	r0, [sp, #92]                   @ 4-byte Reload
	ands	r4, r0
	str	r4, [sp, #36]                   @ 4-byte Spill
	eors	r5, r4
	str	r5, [sp, #40]                   @ 4-byte Spill
	ldr	r0, [sp, #72]                   @ 4-byte Reload
	ands	r3, r0
	eors	r3, r5
	str	r3, [sp, #44]                   @ 4-byte Spill
	ldr	r0, [sp, #112]                  @ 4-byte Reload
	ands	r1, r0
	eors	r1, r3
	mov	r3, r2
	eors	r3, r1
	str	r3, [sp, #116]                  @ 4-byte Spill
	mov	r5, r1
	ldr	r6, [sp, #148]                  @ 4-byte Reload
	eors	r3, r6
	movs	r4, #6
	mov	r2, r3
	rors	r2, r4
	ldr	r1, .Lgcm_v6m_CPI15_30
	ands	r2, r1
	movs	r1, #14
	str	r1, [sp, #104]                  @ 4-byte Spill
	mov	r0, r3
	rors	r0, r1
	ldr	r1, .Lgcm_v6m_CPI15_31
	ands	r0, r1
	orrs	r0, r2
	str	r0, [sp, #52]                   @ 4-byte Spill
	eors	r3, r0
	mov	r2, r3
	str	r3, [sp, #48]                   @ 4-byte Spill
	mov	r0, r5
	eors	r0, r6
	mov	r5, r0
	rors	r5, r4
	ldr	r1, .Lgcm_v6m_CPI15_30
	ands	r5, r1
	mov	r1, r0
	ldr	r3, [sp, #104]                  @ 4-byte Reload
	rors	r1, r3
	ldr	r3, .Lgcm_v6m_CPI15_31
	ands	r1, r3
	orrs	r1, r5
	eors	r0, r1
	mov	r5, r0
	str	r0, [sp, #152]                  @ 4-byte Spill
	ldr	r3, [sp, #144]                  @ 4-byte Reload
	rors	r5, r3
	ldr	r3, .Lgcm_v6m_CPI15_28
	ands	r5, r3
	ldr	r3, [sp, #140]                  @ 4-byte Reload
	rors	r0, r3
	ldr	r3, .Lgcm_v6m_CPI15_29
	ands	r0, r3
	orrs	r0, r5
	ldr	r5, [sp, #16]                   @ 4-byte Reload
	lsls	r5, r5, #5
	str	r5, [sp, #92]                   @ 4-byte Spill
	ldr	r6, [sp, #32]                   @ 4-byte Reload
	adds	r3, r6, r5
	str	r3, [sp, #112]                  @ 4-byte Spill
	subs	r5, r3, #4
	ldr	r5, [r5]
	eors	r5, r0
	eors	r5, r1
	eors	r5, r2
	str	r5, [sp, #108]                  @ 4-byte Spill
	ldr	r0, [sp, #136]                  @ 4-byte Reload
	ldr	r3, [sp, #80]                   @ 4-byte Reload
	ands	r0, r3
	ldr	r1, [sp, #132]                  @ 4-byte Reload
	ldr	r2, [sp, #120]                  @ 4-byte Reload
	ands	r1, r2
	ldr	r2, [sp, #124]                  @ 4-byte Reload
	eors	r1, r2
	str	r1, [sp, #132]                  @ 4-byte Spill
	eors	r0, r1
	ldr	r1, [sp, #76]                   @ 4-byte Reload
	ldr	r2, [sp, #88]                   @ 4-byte Reload
	ands	r1, r2
	str	r1, [sp, #76]                   @ 4-byte Spill
	eors	r0, r1
	ldr	r1, [sp, #68]                   @ 4-byte Reload
	eors	r0, r1
	str	r0, [sp, #136]                  @ 4-byte Spill
	ldr	r1, [sp, #84]                   @ 4-byte Reload
	ldr	r2, [sp, #100]                  @ 4-byte Reload
	ands	r1, r2
	eors	r1, r0
	str	r1, [sp, #84]                   @ 4-byte Spill
	ldr	r0, [sp, #60]                   @ 4-byte Reload
	ands	r3, r0
	ldr	r0, [sp, #36]                   @ 4-byte Reload
	eors	r3, r0
	ldr	r0, [sp, #148]                  @ 4-byte Reload
	eors	r3, r0
	eors	r3, r1
	mov	r1, r3
	mov	r6, r3
	str	r4, [sp, #72]                   @ 4-byte Spill
	rors	r1, r4
	ldr	r0, .Lgcm_v6m_CPI15_30
	ands	r1, r0
	mov	r0, r3
	ldr	r5, [sp, #104]                  @ 4-byte Reload
	b	.Lgcm_v6m_BB15_30
	.p2align	2
@ %bb.28:
.Lgcm_v6m_CPI15_28:
	.long	4042322160                      @ 0xf0f0f0f0
	.p2align	2
@ %bb.29:
.Lgcm_v6m_CPI15_29:
	.long	252645135                       @ 0xf0f0f0f
	.p2align	1
.Lgcm_v6m_BB15_30:                              @ %then.11.i
	rors	r0, r5
	ldr	r2, .Lgcm_v6m_CPI15_31
	ands	r0, r2
	orrs	r0, r1
	eors	r6, r0
	str	r6, [sp, #80]                   @ 4-byte Spill
	mov	r1, r6
	ldr	r2, [sp, #144]                  @ 4-byte Reload
	rors	r1, r2
	ldr	r2, .Lgcm_v6m_CPI15_32
	ands	r1, r2
	mov	r3, r6
	ldr	r2, [sp, #140]                  @ 4-byte Reload
	rors	r3, r2
	ldr	r2, .Lgcm_v6m_CPI15_33
	ands	r3, r2
	orrs	r3, r1
	ldr	r1, [sp, #112]                  @ 4-byte Reload
	subs	r1, #12
	ldr	r6, [r1]
	eors	r6, r3
	eors	r6, r0
	ldr	r0, [sp, #116]                  @ 4-byte Reload
	mov	r1, r0
	rors	r1, r4
	ldr	r2, .Lgcm_v6m_CPI15_30
	ands	r1, r2
	mov	r3, r0
	rors	r3, r5
	mov	r2, r5
	ldr	r4, .Lgcm_v6m_CPI15_31
	ands	r3, r4
	orrs	r3, r1
	str	r3, [sp, #88]                   @ 4-byte Spill
	eors	r3, r0
	str	r3, [sp, #68]                   @ 4-byte Spill
	eors	r6, r3
	str	r6, [sp, #148]                  @ 4-byte Spill
	ldr	r0, [sp, #56]                   @ 4-byte Reload
	ldr	r1, [sp, #100]                  @ 4-byte Reload
	ands	r1, r0
	ldr	r0, [sp, #132]                  @ 4-byte Reload
	eors	r1, r0
	ldr	r0, [sp, #128]                  @ 4-byte Reload
	eors	r1, r0
	str	r1, [sp, #100]                  @ 4-byte Spill
	ldr	r0, [sp, #64]                   @ 4-byte Reload
	ands	r7, r0
	eors	r7, r1
	ldr	r0, [sp, #40]                   @ 4-byte Reload
	eors	r7, r0
	ldr	r4, [sp, #136]                  @ 4-byte Reload
	eors	r4, r7
	mov	r3, r4
	ldr	r5, [sp, #72]                   @ 4-byte Reload
	rors	r3, r5
	ldr	r0, .Lgcm_v6m_CPI15_30
	ands	r3, r0
	mov	r1, r4
	rors	r1, r2
	ldr	r0, .Lgcm_v6m_CPI15_31
	ands	r1, r0
	orrs	r1, r3
	eors	r4, r1
	ldr	r0, [sp, #120]                  @ 4-byte Reload
	ldr	r3, [sp, #96]                   @ 4-byte Reload
	ands	r0, r3
	ldr	r3, [sp, #44]                   @ 4-byte Reload
	eors	r0, r3
	ldr	r3, [sp, #84]                   @ 4-byte Reload
	eors	r0, r3
	mov	r6, r0
	rors	r6, r5
	ldr	r3, .Lgcm_v6m_CPI15_30
	ands	r6, r3
	mov	r3, r0
	rors	r3, r2
	ldr	r2, .Lgcm_v6m_CPI15_31
	ands	r3, r2
	orrs	r3, r6
	eors	r0, r3
	mov	r6, r0
	str	r0, [sp, #120]                  @ 4-byte Spill
	ldr	r5, [sp, #144]                  @ 4-byte Reload
	rors	r6, r5
	ldr	r2, .Lgcm_v6m_CPI15_32
	ands	r6, r2
	ldr	r2, [sp, #140]                  @ 4-byte Reload
	rors	r0, r2
	ldr	r2, .Lgcm_v6m_CPI15_33
	ands	r0, r2
	orrs	r0, r6
	ldr	r2, [sp, #112]                  @ 4-byte Reload
	mov	r6, r2
	subs	r6, #24
	ldr	r6, [r6]
	eors	r6, r0
	eors	r6, r3
	mov	r3, r4
	eors	r6, r4
	str	r6, [sp, #132]                  @ 4-byte Spill
	mov	r0, r4
	mov	r6, r5
	rors	r0, r5
	ldr	r4, .Lgcm_v6m_CPI15_32
	ands	r0, r4
	ldr	r5, [sp, #140]                  @ 4-byte Reload
	rors	r3, r5
	ldr	r4, .Lgcm_v6m_CPI15_33
	ands	r3, r4
	orrs	r3, r0
	subs	r2, #28
	ldr	r0, [r2]
	eors	r0, r3
	eors	r0, r1
	ldr	r1, [sp, #76]                   @ 4-byte Reload
	eors	r7, r1
	mov	r1, r7
	ldr	r2, [sp, #72]                   @ 4-byte Reload
	rors	r1, r2
	ldr	r2, .Lgcm_v6m_CPI15_30
	ands	r1, r2
	mov	r3, r7
	ldr	r2, [sp, #104]                  @ 4-byte Reload
	rors	r3, r2
	ldr	r2, .Lgcm_v6m_CPI15_31
	ands	r3, r2
	orrs	r3, r1
	eors	r7, r3
	eors	r0, r7
	ldr	r1, [sp, #152]                  @ 4-byte Reload
	eors	r0, r1
	str	r0, [sp, #124]                  @ 4-byte Spill
	ldr	r1, [sp, #48]                   @ 4-byte Reload
	mov	r0, r1
	rors	r0, r6
	ldr	r2, .Lgcm_v6m_CPI15_32
	ands	r0, r2
	rors	r1, r5
	mov	r4, r5
	ldr	r2, .Lgcm_v6m_CPI15_33
	ands	r1, r2
	orrs	r1, r0
	mov	r5, r1
	ldr	r2, [sp, #112]                  @ 4-byte Reload
	mov	r0, r2
	subs	r0, #8
	ldr	r1, [r0]
	eors	r1, r5
	ldr	r0, [sp, #52]                   @ 4-byte Reload
	eors	r1, r0
	ldr	r0, [sp, #80]                   @ 4-byte Reload
	eors	r1, r0
	str	r1, [sp, #96]                   @ 4-byte Spill
	mov	r0, r7
	mov	r5, r6
	rors	r0, r6
	ldr	r1, .Lgcm_v6m_CPI15_32
	ands	r0, r1
	rors	r7, r4
	mov	r1, r4
	ldr	r6, .Lgcm_v6m_CPI15_33
	ands	r7, r6
	orrs	r7, r0
	mov	r0, r2
	mov	r4, r2
	subs	r0, #32
	ldr	r0, [r0]
	eors	r0, r7
	eors	r0, r3
	ldr	r3, [sp, #152]                  @ 4-byte Reload
	eors	r0, r3
	str	r0, [sp, #128]                  @ 4-byte Spill
	ldr	r2, [sp, #68]                   @ 4-byte Reload
	mov	r0, r2
	mov	r7, r5
	rors	r0, r5
	ldr	r5, .Lgcm_v6m_CPI15_32
	ands	r0, r5
	rors	r2, r1
	mov	r5, r1
	ands	r2, r6
	orrs	r2, r0
	mov	r0, r4
	subs	r0, #16
	ldr	r6, [r0]
	eors	r6, r2
	ldr	r0, [sp, #88]                   @ 4-byte Reload
	eors	r6, r0
	eors	r6, r3
	ldr	r0, [sp, #116]                  @ 4-byte Reload
	ldr	r4, [sp, #100]                  @ 4-byte Reload
	eors	r4, r0
	mov	r2, r4
	ldr	r0, [sp, #72]                   @ 4-byte Reload
	rors	r2, r0
	ldr	r0, .Lgcm_v6m_CPI15_30
	ands	r2, r0
	mov	r0, r4
	ldr	r1, [sp, #104]                  @ 4-byte Reload
	rors	r0, r1
	ldr	r1, .Lgcm_v6m_CPI15_31
	ands	r0, r1
	orrs	r0, r2
	eors	r4, r0
	eors	r6, r4
	str	r6, [sp, #136]                  @ 4-byte Spill
	mov	r2, r4
	rors	r2, r7
	ldr	r1, .Lgcm_v6m_CPI15_32
	ands	r2, r1
	rors	r4, r5
	ldr	r1, .Lgcm_v6m_CPI15_33
	ands	r4, r1
	orrs	r4, r2
	ldr	r2, [sp, #112]                  @ 4-byte Reload
	subs	r2, #20
	ldr	r5, [r2]
	eors	r5, r4
	ldr	r2, [sp, #120]                  @ 4-byte Reload
	eors	r5, r2
	eors	r5, r3
	eors	r5, r0
	b	.Lgcm_v6m_BB15_36
	.p2align	2
@ %bb.31:
.Lgcm_v6m_CPI15_30:
	.long	4244438268                      @ 0xfcfcfcfc
	.p2align	2
@ %bb.32:
.Lgcm_v6m_CPI15_31:
	.long	50529027                        @ 0x3030303
	.p2align	2
@ %bb.33:
.Lgcm_v6m_CPI15_32:
	.long	4042322160                      @ 0xf0f0f0f0
	.p2align	2
@ %bb.34:
.Lgcm_v6m_CPI15_33:
	.long	252645135                       @ 0xf0f0f0f
	.p2align	1
.Lgcm_v6m_BB15_35:                              @ %else.12.i
	ldr	r7, [sp, #60]                   @ 4-byte Reload
	lsrs	r1, r7, #4
	eors	r1, r7
	ldr	r3, .Lgcm_v6m_CPI15_8
	ands	r1, r3
	movs	r4, #17
	muls	r1, r4, r1
	eors	r1, r7
	str	r1, [sp, #108]                  @ 4-byte Spill
	ldr	r6, [sp, #136]                  @ 4-byte Reload
	lsrs	r1, r6, #4
	eors	r1, r6
	ands	r1, r3
	muls	r1, r4, r1
	eors	r1, r6
	str	r1, [sp, #96]                   @ 4-byte Spill
	ldr	r6, [sp, #120]                  @ 4-byte Reload
	mov	r7, r5
	lsrs	r5, r6, #4
	eors	r5, r6
	ands	r5, r3
	muls	r5, r4, r5
	eors	r5, r6
	str	r5, [sp, #148]                  @ 4-byte Spill
	lsrs	r5, r7, #4
	eors	r5, r7
	ands	r5, r3
	muls	r5, r4, r5
	eors	r5, r7
	str	r5, [sp, #136]                  @ 4-byte Spill
	lsrs	r5, r0, #4
	eors	r5, r0
	ands	r5, r3
	muls	r5, r4, r5
	eors	r5, r0
	ldr	r6, [sp, #132]                  @ 4-byte Reload
	lsrs	r0, r6, #4
	eors	r0, r6
	ands	r0, r3
	muls	r0, r4, r0
	eors	r0, r6
	str	r0, [sp, #132]                  @ 4-byte Spill
	ldr	r0, [sp, #124]                  @ 4-byte Reload
	lsrs	r6, r0, #4
	eors	r6, r0
	ands	r6, r3
	muls	r6, r4, r6
	eors	r6, r0
	str	r6, [sp, #124]                  @ 4-byte Spill
	ldr	r0, [sp, #116]                  @ 4-byte Reload
	lsrs	r6, r0, #4
	eors	r6, r0
	ands	r6, r3
	muls	r6, r4, r6
	eors	r6, r0
	str	r6, [sp, #128]                  @ 4-byte Spill
	lsls	r0, r2, #5
	str	r0, [sp, #92]                   @ 4-byte Spill
.Lgcm_v6m_BB15_36:                              @ %"aes_soft::soft::ciphers::planes::EncryptPlaneCipher::process_planes::<#49ec3a76f5e72ccf>.exit"
	ldr	r4, [sp, #136]                  @ 4-byte Reload
	ldr	r1, [sp, #132]                  @ 4-byte Reload
	eors	r4, r1
	ldr	r7, [sp, #108]                  @ 4-byte Reload
	mov	r3, r7
	str	r7, [sp, #108]                  @ 4-byte Spill
	ldr	r0, [sp, #124]                  @ 4-byte Reload
	eors	r3, r0
	str	r3, [sp, #80]                   @ 4-byte Spill
	eors	r3, r4
	str	r4, [sp, #72]                   @ 4-byte Spill
	str	r3, [sp, #88]                   @ 4-byte Spill
	eors	r5, r3
	mov	r2, r5
	eors	r2, r1
	str	r2, [sp, #112]                  @ 4-byte Spill
	ldr	r1, [sp, #148]                  @ 4-byte Reload
	ldr	r0, [sp, #96]                   @ 4-byte Reload
	eors	r1, r0
	eors	r2, r1
	str	r2, [sp, #144]                  @ 4-byte Spill
	eors	r5, r0
	str	r5, [sp, #100]                  @ 4-byte Spill
	mov	r3, r7
	ldr	r0, [sp, #136]                  @ 4-byte Reload
	eors	r3, r0
	str	r3, [sp, #68]                   @ 4-byte Spill
	eors	r5, r3
	str	r5, [sp, #140]                  @ 4-byte Spill
	mov	r0, r5
	eors	r0, r2
	str	r0, [sp, #104]                  @ 4-byte Spill
	ands	r0, r4
	mov	r7, r5
	ands	r7, r3
	eors	r0, r7
	str	r0, [sp, #96]                   @ 4-byte Spill
	mov	r3, r5
	mov	r5, r1
	eors	r3, r1
	ldr	r1, [sp, #128]                  @ 4-byte Reload
	eors	r5, r1
	str	r1, [sp, #128]                  @ 4-byte Spill
	ldr	r6, [sp, #124]                  @ 4-byte Reload
	eors	r6, r5
	str	r6, [sp, #124]                  @ 4-byte Spill
	ands	r6, r5
	str	r5, [sp, #148]                  @ 4-byte Spill
	str	r3, [sp, #116]                  @ 4-byte Spill
	eors	r6, r3
	ldr	r2, [sp, #80]                   @ 4-byte Reload
	ands	r3, r2
	eors	r6, r3
	eors	r6, r2
	eors	r6, r0
	str	r6, [sp, #152]                  @ 4-byte Spill
	ldr	r2, [sp, #132]                  @ 4-byte Reload
	ldr	r0, [sp, #108]                  @ 4-byte Reload
	eors	r2, r0
	ldr	r4, [sp, #144]                  @ 4-byte Reload
	ands	r4, r2
	mov	r6, r2
	str	r2, [sp, #132]                  @ 4-byte Spill
	eors	r4, r7
	ldr	r2, [sp, #140]                  @ 4-byte Reload
	eors	r2, r1
	str	r2, [sp, #76]                   @ 4-byte Spill
	eors	r5, r0
	str	r5, [sp, #120]                  @ 4-byte Spill
	ands	r2, r5
	ldr	r1, [sp, #116]                  @ 4-byte Reload
	eors	r2, r1
	eors	r2, r3
	eors	r2, r0
	eors	r2, r4
	mov	r1, r2
	ldr	r0, [sp, #152]                  @ 4-byte Reload
	eors	r1, r0
	str	r1, [sp, #108]                  @ 4-byte Spill
	ldr	r7, [sp, #112]                  @ 4-byte Reload
	mov	r3, r7
	ldr	r1, [sp, #88]                   @ 4-byte Reload
	ands	r3, r1
	ldr	r1, [sp, #124]                  @ 4-byte Reload
	eors	r1, r6
	str	r1, [sp, #64]                   @ 4-byte Spill
	ldr	r5, [sp, #128]                  @ 4-byte Reload
	eors	r7, r5
	str	r7, [sp, #60]                   @ 4-byte Spill
	ands	r7, r1
	ldr	r1, [sp, #100]                  @ 4-byte Reload
	eors	r7, r1
	eors	r7, r3
	ldr	r1, [sp, #96]                   @ 4-byte Reload
	eors	r7, r1
	mov	r6, r0
	ands	r6, r7
	ldr	r0, [sp, #136]                  @ 4-byte Reload
	ldr	r1, [sp, #148]                  @ 4-byte Reload
	eors	r0, r1
	str	r0, [sp, #136]                  @ 4-byte Spill
	ands	r0, r5
	ldr	r1, [sp, #132]                  @ 4-byte Reload
	eors	r0, r1
	ldr	r1, [sp, #144]                  @ 4-byte Reload
	eors	r0, r1
	eors	r0, r3
	eors	r0, r4
	mov	r3, r6
	eors	r3, r0
	ldr	r1, [sp, #108]                  @ 4-byte Reload
	ands	r3, r1
	mov	r1, r3
	eors	r1, r2
	eors	r3, r6
	ands	r3, r2
	ldr	r4, [sp, #152]                  @ 4-byte Reload
	eors	r4, r3
	str	r4, [sp, #152]                  @ 4-byte Spill
	eors	r4, r1
	str	r4, [sp, #108]                  @ 4-byte Spill
	str	r1, [sp, #84]                   @ 4-byte Spill
	eors	r7, r0
	eors	r6, r2
	eors	r3, r6
	ands	r6, r7
	eors	r6, r0
	ands	r3, r6
	eors	r3, r7
	mov	r7, r3
	eors	r7, r4
	mov	r2, r6
	eors	r2, r1
	str	r2, [sp, #96]                   @ 4-byte Spill
	mov	r0, r7
	eors	r0, r2
	str	r0, [sp, #100]                  @ 4-byte Spill
	ldr	r2, [sp, #104]                  @ 4-byte Reload
	ands	r2, r0
	ldr	r1, [sp, #148]                  @ 4-byte Reload
	ands	r1, r3
	mov	r5, r3
	eors	r5, r6
	ldr	r0, [sp, #116]                  @ 4-byte Reload
	ands	r0, r5
	str	r0, [sp, #116]                  @ 4-byte Spill
	eors	r1, r0
	str	r1, [sp, #148]                  @ 4-byte Spill
	eors	r2, r1
	str	r2, [sp, #104]                  @ 4-byte Spill
	ldr	r4, [sp, #144]                  @ 4-byte Reload
	ands	r4, r7
	ldr	r2, [sp, #128]                  @ 4-byte Reload
	ldr	r0, [sp, #84]                   @ 4-byte Reload
	ands	r2, r0
	ldr	r1, [sp, #112]                  @ 4-byte Reload
	ldr	r0, [sp, #152]                  @ 4-byte Reload
	ands	r1, r0
	str	r1, [sp, #112]                  @ 4-byte Spill
	eors	r2, r1
	str	r2, [sp, #128]                  @ 4-byte Spill
	eors	r4, r2
	ldr	r0, [sp, #80]                   @ 4-byte Reload
	ands	r5, r0
	str	r5, [sp, #80]                   @ 4-byte Spill
	eors	r4, r5
	ldr	r1, [sp, #104]                  @ 4-byte Reload
	eors	r4, r1
	str	r4, [sp, #144]                  @ 4-byte Spill
	ldr	r0, [sp, #120]                  @ 4-byte Reload
	ands	r0, r6
	eors	r0, r4
	str	r0, [sp, #120]                  @ 4-byte Spill
	ldr	r2, [sp, #140]                  @ 4-byte Reload
	ldr	r5, [sp, #96]                   @ 4-byte Reload
	ands	r2, r5
	eors	r2, r1
	str	r2, [sp, #140]                  @ 4-byte Spill
	ldr	r0, [sp, #132]                  @ 4-byte Reload
	ands	r7, r0
	ldr	r0, [sp, #92]                   @ 4-byte Reload
	ldr	r1, [sp, #32]                   @ 4-byte Reload
	adds	r0, r1, r0
	str	r0, [sp, #56]                   @ 4-byte Spill
	ldr	r0, [r0, #20]
	eors	r0, r7
	ldr	r4, [sp, #68]                   @ 4-byte Reload
	ands	r5, r4
	str	r5, [sp, #96]                   @ 4-byte Spill
	eors	r0, r5
	eors	r0, r2
	ldr	r1, [sp, #120]                  @ 4-byte Reload
	eors	r0, r1
	str	r0, [sp, #132]                  @ 4-byte Spill
	ldr	r5, [sp, #60]                   @ 4-byte Reload
	ldr	r7, [sp, #108]                  @ 4-byte Reload
	ands	r5, r7
	ldr	r0, [sp, #112]                  @ 4-byte Reload
	eors	r5, r0
	ldr	r0, [sp, #148]                  @ 4-byte Reload
	eors	r5, r0
	ldr	r1, [sp, #72]                   @ 4-byte Reload
	ldr	r0, [sp, #100]                  @ 4-byte Reload
	ands	r0, r1
	ldr	r1, [sp, #96]                   @ 4-byte Reload
	eors	r0, r1
	str	r0, [sp, #100]                  @ 4-byte Spill
	ldr	r1, [sp, #64]                   @ 4-byte Reload
	ands	r7, r1
	eors	r7, r0
	str	r7, [sp, #108]                  @ 4-byte Spill
	ldr	r0, [sp, #88]                   @ 4-byte Reload
	ldr	r1, [sp, #152]                  @ 4-byte Reload
	ands	r1, r0
	eors	r1, r7
	str	r1, [sp, #152]                  @ 4-byte Spill
	eors	r5, r1
	ldr	r2, [sp, #56]                   @ 4-byte Reload
	ldr	r0, [r2, #16]
	eors	r0, r5
	str	r0, [sp, #148]                  @ 4-byte Spill
	lsrs	r1, r0, #1
	ldr	r0, [sp, #132]                  @ 4-byte Reload
	eors	r1, r0
	ldr	r7, .Lgcm_v6m_CPI15_0
	ands	r1, r7
	str	r1, [sp, #112]                  @ 4-byte Spill
	eors	r0, r1
	str	r0, [sp, #132]                  @ 4-byte Spill
	lsrs	r4, r0, #2
	mov	r7, r2
	ldr	r0, [r2, #24]
	ldr	r2, [sp, #140]                  @ 4-byte Reload
	eors	r0, r2
	eors	r0, r5
	str	r0, [sp, #104]                  @ 4-byte Spill
	lsrs	r1, r0, #1
	ldr	r0, [r7, #28]
	eors	r0, r2
	ldr	r2, [sp, #152]                  @ 4-byte Reload
	eors	r0, r2
	eors	r1, r0
	ldr	r2, .Lgcm_v6m_CPI15_0
	ands	r1, r2
	str	r1, [sp, #152]                  @ 4-byte Spill
	eors	r0, r1
	eors	r4, r0
	ldr	r2, .Lgcm_v6m_CPI15_1
	ands	r4, r2
	str	r4, [sp, #96]                   @ 4-byte Spill
	eors	r0, r4
	ldr	r2, [sp, #76]                   @ 4-byte Reload
	ands	r6, r2
	ldr	r1, [sp, #128]                  @ 4-byte Reload
	eors	r6, r1
	ldr	r1, [sp, #116]                  @ 4-byte Reload
	eors	r6, r1
	ldr	r2, [sp, #124]                  @ 4-byte Reload
	ands	r3, r2
	eors	r3, r6
	ldr	r1, [sp, #100]                  @ 4-byte Reload
	eors	r3, r1
	ldr	r4, [r7, #4]
	ldr	r1, [sp, #144]                  @ 4-byte Reload
	eors	r4, r1
	eors	r4, r3
	ldr	r1, [sp, #92]                   @ 4-byte Reload
	ldr	r2, [sp, #32]                   @ 4-byte Reload
	ldr	r2, [r2, r1]
	ldr	r1, [sp, #80]                   @ 4-byte Reload
	eors	r2, r1
	eors	r2, r3
	str	r2, [sp, #144]                  @ 4-byte Spill
	lsrs	r1, r2, #1
	eors	r1, r4
	ldr	r2, .Lgcm_v6m_CPI15_0
	ands	r1, r2
	str	r1, [sp, #140]                  @ 4-byte Spill
	eors	r4, r1
	lsrs	r1, r4, #2
	str	r1, [sp, #124]                  @ 4-byte Spill
	ldr	r2, [r7, #12]
	eors	r2, r6
	eors	r2, r5
	ldr	r1, [sp, #136]                  @ 4-byte Reload
	ldr	r3, [sp, #84]                   @ 4-byte Reload
	ands	r3, r1
	ldr	r6, [r7, #8]
	eors	r6, r3
	ldr	r1, [sp, #108]                  @ 4-byte Reload
	eors	r6, r1
	ldr	r1, [sp, #120]                  @ 4-byte Reload
	eors	r6, r1
	lsrs	r1, r6, #1
	eors	r1, r2
	ldr	r3, .Lgcm_v6m_CPI15_0
	ands	r1, r3
	str	r1, [sp, #128]                  @ 4-byte Spill
	eors	r2, r1
	ldr	r5, [sp, #124]                  @ 4-byte Reload
	eors	r5, r2
	ldr	r1, .Lgcm_v6m_CPI15_1
	ands	r5, r1
	eors	r2, r5
	lsrs	r3, r2, #4
	eors	r3, r0
	ldr	r1, .Lgcm_v6m_CPI15_2
	ands	r3, r1
	eors	r0, r3
	ldr	r1, [sp, #4]                    @ 4-byte Reload
	strb	r0, [r1, #28]
	lsrs	r7, r0, #24
	strb	r7, [r1, #31]
	lsrs	r7, r0, #16
	strb	r7, [r1, #30]
	lsrs	r0, r0, #8
	strb	r0, [r1, #29]
	ldr	r0, [sp, #96]                   @ 4-byte Reload
	lsls	r7, r0, #2
	ldr	r0, [sp, #132]                  @ 4-byte Reload
	eors	r7, r0
	lsls	r0, r5, #2
	eors	r0, r4
	str	r0, [sp, #136]                  @ 4-byte Spill
	lsrs	r0, r0, #4
	eors	r0, r7
	ldr	r4, .Lgcm_v6m_CPI15_2
	ands	r0, r4
	str	r0, [sp, #132]                  @ 4-byte Spill
	eors	r7, r0
	strb	r7, [r1, #24]
	lsls	r3, r3, #4
	eors	r3, r2
	strb	r3, [r1, #20]
	ldr	r0, [sp, #152]                  @ 4-byte Reload
	lsls	r5, r0, #1
	ldr	r2, [sp, #104]                  @ 4-byte Reload
	eors	r5, r2
	ldr	r2, [sp, #112]                  @ 4-byte Reload
	lsls	r0, r2, #1
	ldr	r2, [sp, #148]                  @ 4-byte Reload
	eors	r0, r2
	str	r0, [sp, #152]                  @ 4-byte Spill
	lsrs	r0, r0, #2
	eors	r0, r5
	ldr	r4, .Lgcm_v6m_CPI15_1
	ands	r0, r4
	str	r0, [sp, #124]                  @ 4-byte Spill
	eors	r5, r0
	ldr	r0, [sp, #128]                  @ 4-byte Reload
	lsls	r0, r0, #1
	eors	r0, r6
	ldr	r2, [sp, #140]                  @ 4-byte Reload
	lsls	r6, r2, #1
	ldr	r2, [sp, #144]                  @ 4-byte Reload
	eors	r6, r2
	str	r6, [sp, #144]                  @ 4-byte Spill
	lsrs	r2, r6, #2
	eors	r2, r0
	ands	r2, r4
	eors	r0, r2
	str	r0, [sp, #148]                  @ 4-byte Spill
	lsrs	r0, r0, #4
	eors	r0, r5
	ldr	r4, .Lgcm_v6m_CPI15_2
	ands	r0, r4
	str	r0, [sp, #140]                  @ 4-byte Spill
	eors	r5, r0
	strb	r5, [r1, #12]
	lsrs	r4, r7, #24
	strb	r4, [r1, #27]
	lsrs	r4, r7, #16
	strb	r4, [r1, #26]
	lsrs	r4, r7, #8
	strb	r4, [r1, #25]
	lsrs	r4, r3, #24
	strb	r4, [r1, #23]
	lsrs	r4, r3, #16
	strb	r4, [r1, #22]
	lsrs	r3, r3, #8
	strb	r3, [r1, #21]
	ldr	r0, [sp, #132]                  @ 4-byte Reload
	lsls	r3, r0, #4
	ldr	r4, [sp, #136]                  @ 4-byte Reload
	eors	r3, r4
	strb	r3, [r1, #16]
	lsrs	r4, r5, #24
	strb	r4, [r1, #15]
	lsrs	r4, r5, #16
	strb	r4, [r1, #14]
	lsrs	r0, r5, #8
	strb	r0, [r1, #13]
	ldr	r0, [sp, #124]                  @ 4-byte Reload
	lsls	r6, r0, #2
	ldr	r0, [sp, #152]                  @ 4-byte Reload
	eors	r6, r0
	lsls	r0, r2, #2
	ldr	r2, [sp, #144]                  @ 4-byte Reload
	eors	r0, r2
	lsrs	r7, r0, #4
	eors	r7, r6
	ldr	r2, .Lgcm_v6m_CPI15_2
	ands	r7, r2
	eors	r6, r7
	strb	r6, [r1, #8]
	ldr	r2, [sp, #140]                  @ 4-byte Reload
	lsls	r4, r2, #4
	ldr	r2, [sp, #148]                  @ 4-byte Reload
	eors	r4, r2
	strb	r4, [r1, #4]
	lsrs	r2, r3, #24
	strb	r2, [r1, #19]
	lsrs	r2, r3, #16
	strb	r2, [r1, #18]
	lsrs	r2, r3, #8
	strb	r2, [r1, #17]
	lsrs	r2, r6, #24
	strb	r2, [r1, #11]
	lsrs	r2, r6, #16
	strb	r2, [r1, #10]
	lsrs	r2, r6, #8
	strb	r2, [r1, #9]
	lsrs	r2, r4, #24
	strb	r2, [r1, #7]
	lsrs	r2, r4, #16
	strb	r2, [r1, #6]
	lsrs	r2, r4, #8
	strb	r2, [r1, #5]
	lsls	r2, r7, #4
	eors	r2, r0
	strb	r2, [r1]
	lsrs	r0, r2, #24
	strb	r0, [r1, #3]
	lsrs	r0, r2, #16
	strb	r0, [r1, #2]
	lsrs	r0, r2, #8
	strb	r0, [r1, #1]
	add	sp, #156
	pop	{r4, r5, r6, r7, pc}
	.p2align	2
@ %bb.37:
.Lgcm_v6m_CPI15_0:
	.long	1431655765                      @ 0x55555555
.Lgcm_v6m_CPI15_1:
	.long	858993459                       @ 0x33333333
.Lgcm_v6m_CPI15_2:
	.long	252645135                       @ 0xf0f0f0f
.Lgcm_v6m_CPI15_8:
	.long	251662080                       @ 0xf000f00
.Lgcm_v6m_func_end15:
	.size	gcm_v6m.aes_soft.soft.ciphers.planes.process_outlined, .Lgcm_v6m_func_end15-gcm_v6m.aes_soft.soft.ciphers.planes.process_outlined
	.cantunwind
	.fnend
                                        @ -- End function
	.section	.text.gcm_v6m.aes_cipher.zeroize.stack.wipe_stack.1024,"ax",%progbits
	.p2align	1                               @ -- Begin function aes_cipher::zeroize::stack::wipe_stack::<=1024>
	.type	gcm_v6m.aes_cipher.zeroize.stack.wipe_stack.1024,%function
	.code	16
	.thumb_func
gcm_v6m.aes_cipher.zeroize.stack.wipe_stack.1024: @ @gcm_v6m.aes_cipher.zeroize.stack.wipe_stack.1024
	.fnstart
@ %bb.0:                                @ %start
	.save	{r4, r5, r6, lr}
	push	{r4, r5, r6, lr}
	.pad	#508
	sub	sp, #508
	.pad	#508
	sub	sp, #508
	.pad	#16
	sub	sp, #16
	movs	r0, #1
	lsls	r2, r0, #10
	add	r0, sp, #8
	movs	r4, #0
	mov	r1, r4
	bl	memset
	str	r4, [sp, #4]
	str	r4, [sp]
	@APP
	@NO_APP
	ldr	r0, [sp]
	lsrs	r1, r0, #10
	ldr	r2, [sp, #4]
	orrs	r2, r1
	@APP
	@NO_APP
	bne	.Lgcm_v6m_BB16_2
@ %bb.1:                                @ %then.1
	add	r1, sp, #8
	ldrb	r0, [r1, r0]
	@APP
	@NO_APP
	ldr	r1, [sp, #4]
	ldr	r1, [sp]
	str	r4, [sp, #4]
	str	r0, [sp]
	@APP
	@NO_APP
.Lgcm_v6m_BB16_2:                               @ %common.ret
	add	sp, #508
	add	sp, #508
	add	sp, #16
	pop	{r4, r5, r6, pc}
.Lgcm_v6m_func_end16:
	.size	gcm_v6m.aes_cipher.zeroize.stack.wipe_stack.1024, .Lgcm_v6m_func_end16-gcm_v6m.aes_cipher.zeroize.stack.wipe_stack.1024
	.cantunwind
	.fnend
                                        @ -- End function
	.section	.text.gcm_v6m.gcm.mode.BorrowedGcm.hash_so_far,"ax",%progbits
	.p2align	1                               @ -- Begin function gcm::mode::BorrowedGcm::hash_so_far::<#c01aad2b5fbc92b1>
	.type	gcm_v6m.gcm.mode.BorrowedGcm.hash_so_far,%function
	.code	16
	.thumb_func
gcm_v6m.gcm.mode.BorrowedGcm.hash_so_far: @ @gcm_v6m.gcm.mode.BorrowedGcm.hash_so_far
	.fnstart
@ %bb.0:                                @ %start
	.save	{r4, r5, r6, r7, lr}
	push	{r4, r5, r6, r7, lr}
	.pad	#100
	sub	sp, #100
	ldr	r3, [r1, #24]
	ldr	r2, [r1, #28]
	movs	r7, #0
	subs	r5, r3, #1
	sbcs	r2, r7
	mov	r3, r1
	adds	r3, #8
	lsls	r4, r5, #24
	mov	r4, r1
	beq	.Lgcm_v6m_BB17_2
@ %bb.1:                                @ %start
	mov	r4, r3
.Lgcm_v6m_BB17_2:                               @ %start
	subs	r5, r5, #4
	sbcs	r2, r7
	blo	.Lgcm_v6m_BB17_4
@ %bb.3:                                @ %start
	mov	r4, r3
.Lgcm_v6m_BB17_4:                               @ %start
	ldr	r2, [r4]
	str	r2, [sp, #40]                   @ 4-byte Spill
	ldrb	r2, [r0, #3]
	str	r2, [sp, #96]                   @ 4-byte Spill
	ldrb	r2, [r0, #2]
	str	r2, [sp, #92]                   @ 4-byte Spill
	ldrb	r2, [r0, #1]
	str	r2, [sp, #88]                   @ 4-byte Spill
	ldrb	r2, [r0]
	str	r2, [sp, #84]                   @ 4-byte Spill
	ldrb	r2, [r0, #7]
	str	r2, [sp, #80]                   @ 4-byte Spill
	ldrb	r2, [r0, #6]
	str	r2, [sp, #76]                   @ 4-byte Spill
	ldrb	r2, [r0, #4]
	str	r2, [sp, #72]                   @ 4-byte Spill
	ldrb	r2, [r0, #5]
	str	r2, [sp, #68]                   @ 4-byte Spill
	ldrb	r2, [r0, #11]
	str	r2, [sp, #64]                   @ 4-byte Spill
	ldrb	r2, [r0, #10]
	str	r2, [sp, #60]                   @ 4-byte Spill
	ldrb	r2, [r0, #9]
	str	r2, [sp, #56]                   @ 4-byte Spill
	ldrb	r2, [r0, #8]
	str	r2, [sp, #52]                   @ 4-byte Spill
	ldrb	r2, [r0, #15]
	str	r2, [sp, #48]                   @ 4-byte Spill
	ldrb	r2, [r0, #14]
	str	r2, [sp, #44]                   @ 4-byte Spill
	ldrb	r2, [r0, #12]
	str	r2, [sp, #36]                   @ 4-byte Spill
	ldrb	r0, [r0, #13]
	str	r0, [sp, #32]                   @ 4-byte Spill
	mov	r4, r1
	adds	r4, #48
	ldm	r4, {r0, r2, r3, r4}
	movs	r6, #15
	ldr	r5, [sp, #40]                   @ 4-byte Reload
	ands	r6, r5
	str	r6, [sp, #24]
	str	r7, [sp, #28]
	adds	r1, #64
	rev	r0, r0
	rev	r2, r2
	rev	r3, r3
	rev	r4, r4
	str	r4, [sp]
	str	r3, [sp, #4]
	str	r2, [sp, #8]
	str	r0, [sp, #12]
	str	r1, [sp, #16]
	ldr	r0, [sp, #32]                   @ 4-byte Reload
	lsls	r0, r0, #16
	ldr	r1, [sp, #36]                   @ 4-byte Reload
	lsls	r1, r1, #24
	adds	r0, r1, r0
	ldr	r1, [sp, #44]                   @ 4-byte Reload
	lsls	r1, r1, #8
	adds	r0, r0, r1
	ldr	r1, [sp, #48]                   @ 4-byte Reload
	adds	r0, r0, r1
	ldr	r1, [sp, #52]                   @ 4-byte Reload
	lsls	r1, r1, #24
	ldr	r2, [sp, #56]                   @ 4-byte Reload
	lsls	r2, r2, #16
	adds	r1, r2, r1
	ldr	r2, [sp, #60]                   @ 4-byte Reload
	lsls	r2, r2, #8
	adds	r1, r1, r2
	ldr	r2, [sp, #64]                   @ 4-byte Reload
	adds	r1, r1, r2
	ldr	r2, [sp, #68]                   @ 4-byte Reload
	lsls	r2, r2, #16
	ldr	r3, [sp, #72]                   @ 4-byte Reload
	lsls	r3, r3, #24
	adds	r2, r3, r2
	ldr	r3, [sp, #76]                   @ 4-byte Reload
	lsls	r3, r3, #8
	adds	r2, r2, r3
	ldr	r3, [sp, #80]                   @ 4-byte Reload
	adds	r2, r2, r3
	ldr	r3, [sp, #84]                   @ 4-byte Reload
	lsls	r3, r3, #24
	ldr	r4, [sp, #88]                   @ 4-byte Reload
	lsls	r4, r4, #16
	adds	r3, r4, r3
	ldr	r4, [sp, #92]                   @ 4-byte Reload
	lsls	r4, r4, #8
	adds	r3, r3, r4
	ldr	r4, [sp, #96]                   @ 4-byte Reload
	adds	r3, r3, r4
	bl	gcm_v6m.gcm.single_blocks.hash_singly.1
	add	sp, #100
	pop	{r4, r5, r6, r7, pc}
.Lgcm_v6m_func_end17:
	.size	gcm_v6m.gcm.mode.BorrowedGcm.hash_so_far, .Lgcm_v6m_func_end17-gcm_v6m.gcm.mode.BorrowedGcm.hash_so_far
	.cantunwind
	.fnend
                                        @ -- End function
	.section	.text.gcm_v6m.gcm.mode.put_subkey,"ax",%progbits
	.p2align	1                               @ -- Begin function gcm::mode::put_subkey::<#107cc7d9d0728059>
	.type	gcm_v6m.gcm.mode.put_subkey,%function
	.code	16
	.thumb_func
gcm_v6m.gcm.mode.put_subkey: @ @gcm_v6m.gcm.mode.put_subkey
	.fnstart
@ %bb.0:                                @ %start
	.save	{r4, lr}
	push	{r4, lr}
	.pad	#32
	sub	sp, #32
	movs	r1, #0
	str	r1, [sp, #28]
	str	r1, [sp, #24]
	str	r1, [sp, #20]
	str	r1, [sp, #16]
	movs	r4, #1
	str	r4, [sp, #8]
	str	r1, [sp, #12]
	add	r4, sp, #16
	str	r4, [sp]
	bl	gcm_v6m.aes_narrow.blocks.process_all_batches
	bl	gcm_v6m.aes_cipher.zeroize.stack.wipe_stack.1024
	ldrb	r1, [r4, #11]
	ldr	r0, [sp, #40]
	strb	r1, [r0, #11]
	ldrb	r1, [r4, #10]
	strb	r1, [r0, #10]
	ldrb	r1, [r4, #9]
	strb	r1, [r0, #9]
	ldr	r1, [sp, #24]
	strb	r1, [r0, #8]
	ldrb	r1, [r4, #3]
	strb	r1, [r0, #3]
	ldrb	r1, [r4, #2]
	strb	r1, [r0, #2]
	ldrb	r1, [r4, #1]
	strb	r1, [r0, #1]
	ldr	r1, [sp, #16]
	strb	r1, [r0]
	ldr	r1, [sp, #28]
	rev	r1, r1
	strb	r1, [r0, #15]
	ldr	r2, [sp, #20]
	rev	r2, r2
	strb	r2, [r0, #7]
	lsrs	r3, r1, #8
	strb	r3, [r0, #14]
	lsrs	r3, r1, #16
	strb	r3, [r0, #13]
	lsrs	r1, r1, #24
	strb	r1, [r0, #12]
	lsrs	r1, r2, #8
	strb	r1, [r0, #6]
	lsrs	r1, r2, #16
	strb	r1, [r0, #5]
	lsrs	r1, r2, #24
	strb	r1, [r0, #4]
	mov	r0, r4
	bl	gcm_v6m.aes_cipher.zeroize.elements.zeroize_elements.3
	add	sp, #32
	pop	{r4, pc}
.Lgcm_v6m_func_end18:
	.size	gcm_v6m.gcm.mode.put_subkey, .Lgcm_v6m_func_end18-gcm_v6m.gcm.mode.put_subkey
	.cantunwind
	.fnend
                                        @ -- End function
	.section	.text.gcm_v6m.gcm.mode.BorrowedGcm.compare,"ax",%progbits
	.p2align	1                               @ -- Begin function gcm::mode::BorrowedGcm::compare::<#c01aad2b5fbc92b1>
	.type	gcm_v6m.gcm.mode.BorrowedGcm.compare,%function
	.code	16
	.thumb_func
gcm_v6m.gcm.mode.BorrowedGcm.compare: @ @gcm_v6m.gcm.mode.BorrowedGcm.compare
	.fnstart
@ %bb.0:                                @ %start
	.save	{r4, r5, r6, r7, lr}
	push	{r4, r5, r6, r7, lr}
	.pad	#68
	sub	sp, #68
	mov	r4, r2
	orrs	r4, r3
	beq	.Lgcm_v6m_BB19_2
@ %bb.1:                                @ %else.7
	ldr	r4, [sp, #116]
	str	r4, [sp, #40]                   @ 4-byte Spill
	ldr	r4, [sp, #112]
	str	r4, [sp, #28]                   @ 4-byte Spill
	ldr	r4, [sp, #100]
	str	r4, [sp, #44]                   @ 4-byte Spill
	ldr	r4, [sp, #96]
	str	r4, [sp, #36]                   @ 4-byte Spill
	ldr	r5, [sp, #124]
	ldr	r4, [sp, #120]
	str	r4, [sp, #48]                   @ 4-byte Spill
	ldr	r6, [sp, #104]
	ldr	r4, [sp, #88]
	str	r4, [sp, #32]                   @ 4-byte Spill
	str	r5, [sp]
	mov	r4, r0
	bl	gcm_v6m.gcm.mode.BorrowedGcm.put_pre_counter
	add	r7, sp, #52
	ldr	r0, [sp, #28]                   @ 4-byte Reload
	str	r0, [sp, #16]
	ldr	r0, [sp, #40]                   @ 4-byte Reload
	str	r0, [sp, #20]
	str	r7, [sp, #24]
	ldr	r0, [sp, #36]                   @ 4-byte Reload
	str	r0, [sp]
	ldr	r0, [sp, #44]                   @ 4-byte Reload
	str	r0, [sp, #4]
	str	r6, [sp, #8]
	mov	r0, r4
	mov	r1, r5
	ldr	r2, [sp, #32]                   @ 4-byte Reload
	bl	gcm_v6m.gcm.mode.BorrowedGcm.put_tag
	ldr	r0, [sp, #48]                   @ 4-byte Reload
	mov	r1, r7
	bl	gcm_v6m.aes_cipher.blocks.difference
	mov	r4, r0
	mov	r0, r7
	bl	gcm_v6m.aes_cipher.zeroize.elements.zeroize_elements.3
	mov	r0, r4
	subs	r1, r4, #1
	sbcs	r0, r1
	add	sp, #68
	pop	{r4, r5, r6, r7, pc}
.Lgcm_v6m_BB19_2:
	movs	r0, #1
	add	sp, #68
	pop	{r4, r5, r6, r7, pc}
.Lgcm_v6m_func_end19:
	.size	gcm_v6m.gcm.mode.BorrowedGcm.compare, .Lgcm_v6m_func_end19-gcm_v6m.gcm.mode.BorrowedGcm.compare
	.cantunwind
	.fnend
                                        @ -- End function
	.section	.text.gcm_v6m.gcm.mode.BorrowedGcm.put_tag,"ax",%progbits
	.p2align	1                               @ -- Begin function gcm::mode::BorrowedGcm::put_tag::<#c01aad2b5fbc92b1>
	.type	gcm_v6m.gcm.mode.BorrowedGcm.put_tag,%function
	.code	16
	.thumb_func
gcm_v6m.gcm.mode.BorrowedGcm.put_tag: @ @gcm_v6m.gcm.mode.BorrowedGcm.put_tag
	.fnstart
@ %bb.0:                                @ %start
	.save	{r4, r5, r6, r7, lr}
	push	{r4, r5, r6, r7, lr}
	.pad	#100
	sub	sp, #100
	str	r2, [sp, #92]                   @ 4-byte Spill
	mov	r5, r0
	ldr	r4, [sp, #144]
	movs	r2, #16
	mov	r0, r4
	bl	memmove
	ldrb	r0, [r5, #15]
	str	r0, [sp, #96]                   @ 4-byte Spill
	ldrb	r0, [r5, #14]
	str	r0, [sp, #88]                   @ 4-byte Spill
	ldrb	r0, [r5, #12]
	str	r0, [sp, #84]                   @ 4-byte Spill
	ldrb	r0, [r5, #13]
	str	r0, [sp, #80]                   @ 4-byte Spill
	ldrb	r0, [r5, #11]
	str	r0, [sp, #76]                   @ 4-byte Spill
	ldrb	r0, [r5, #10]
	str	r0, [sp, #72]                   @ 4-byte Spill
	ldrb	r0, [r5, #8]
	str	r0, [sp, #68]                   @ 4-byte Spill
	ldrb	r0, [r5, #9]
	str	r0, [sp, #64]                   @ 4-byte Spill
	ldrb	r3, [r5, #3]
	ldrb	r2, [r5, #2]
	ldrb	r1, [r5]
	ldrb	r0, [r5, #1]
	movs	r7, #0
	movs	r6, #1
	str	r6, [sp, #8]
	str	r7, [sp, #12]
	str	r4, [sp]
	lsls	r0, r0, #8
	adds	r0, r0, r1
	lsls	r1, r2, #16
	lsls	r2, r3, #24
	adds	r1, r2, r1
	adds	r0, r1, r0
	ldr	r1, [sp, #64]                   @ 4-byte Reload
	lsls	r1, r1, #8
	ldr	r2, [sp, #68]                   @ 4-byte Reload
	adds	r1, r1, r2
	ldr	r2, [sp, #72]                   @ 4-byte Reload
	lsls	r2, r2, #16
	ldr	r3, [sp, #76]                   @ 4-byte Reload
	lsls	r3, r3, #24
	adds	r2, r3, r2
	adds	r2, r2, r1
	ldr	r1, [sp, #80]                   @ 4-byte Reload
	lsls	r1, r1, #8
	ldr	r3, [sp, #84]                   @ 4-byte Reload
	adds	r1, r1, r3
	ldr	r3, [sp, #88]                   @ 4-byte Reload
	lsls	r3, r3, #16
	ldr	r6, [sp, #96]                   @ 4-byte Reload
	lsls	r6, r6, #24
	adds	r3, r6, r3
	adds	r3, r3, r1
	bl	gcm_v6m.aes_narrow.blocks.process_all_batches
	bl	gcm_v6m.aes_cipher.zeroize.stack.wipe_stack.1024
	ldr	r0, [r5, #16]
	ldrb	r1, [r0, #3]
	str	r1, [sp, #88]                   @ 4-byte Spill
	ldrb	r1, [r0, #2]
	str	r1, [sp, #84]                   @ 4-byte Spill
	ldrb	r1, [r0, #1]
	str	r1, [sp, #80]                   @ 4-byte Spill
	ldrb	r1, [r0]
	str	r1, [sp, #76]                   @ 4-byte Spill
	ldrb	r1, [r0, #7]
	str	r1, [sp, #72]                   @ 4-byte Spill
	ldrb	r1, [r0, #6]
	str	r1, [sp, #68]                   @ 4-byte Spill
	ldrb	r1, [r0, #4]
	str	r1, [sp, #64]                   @ 4-byte Spill
	ldrb	r1, [r0, #5]
	str	r1, [sp, #60]                   @ 4-byte Spill
	ldrb	r1, [r0, #11]
	str	r1, [sp, #56]                   @ 4-byte Spill
	ldrb	r1, [r0, #10]
	str	r1, [sp, #52]                   @ 4-byte Spill
	ldrb	r1, [r0, #9]
	str	r1, [sp, #48]                   @ 4-byte Spill
	ldrb	r1, [r0, #8]
	str	r1, [sp, #44]                   @ 4-byte Spill
	ldrb	r3, [r0, #15]
	ldrb	r2, [r0, #14]
	ldrb	r1, [r0, #12]
	ldrb	r0, [r0, #13]
	ldr	r6, [sp, #124]
	str	r6, [sp, #28]
	ldr	r6, [sp, #120]
	str	r6, [sp, #96]                   @ 4-byte Spill
	str	r6, [sp, #24]
	str	r7, [sp]
	str	r7, [sp, #4]
	str	r7, [sp, #8]
	str	r7, [sp, #12]
	ldr	r6, [sp, #92]                   @ 4-byte Reload
	str	r6, [sp, #16]
	lsls	r0, r0, #16
	lsls	r1, r1, #24
	adds	r0, r1, r0
	lsls	r1, r2, #8
	adds	r0, r0, r1
	adds	r0, r0, r3
	ldr	r1, [sp, #44]                   @ 4-byte Reload
	lsls	r1, r1, #24
	ldr	r2, [sp, #48]                   @ 4-byte Reload
	lsls	r2, r2, #16
	adds	r1, r2, r1
	ldr	r2, [sp, #52]                   @ 4-byte Reload
	lsls	r2, r2, #8
	adds	r1, r1, r2
	ldr	r2, [sp, #56]                   @ 4-byte Reload
	adds	r1, r1, r2
	ldr	r2, [sp, #60]                   @ 4-byte Reload
	lsls	r2, r2, #16
	ldr	r3, [sp, #64]                   @ 4-byte Reload
	lsls	r3, r3, #24
	adds	r2, r3, r2
	ldr	r3, [sp, #68]                   @ 4-byte Reload
	lsls	r3, r3, #8
	adds	r2, r2, r3
	ldr	r3, [sp, #72]                   @ 4-byte Reload
	adds	r2, r2, r3
	ldr	r3, [sp, #76]                   @ 4-byte Reload
	lsls	r3, r3, #24
	ldr	r6, [sp, #80]                   @ 4-byte Reload
	lsls	r6, r6, #16
	adds	r3, r6, r3
	ldr	r6, [sp, #84]                   @ 4-byte Reload
	lsls	r6, r6, #8
	adds	r3, r3, r6
	ldr	r6, [sp, #88]                   @ 4-byte Reload
	adds	r3, r3, r6
	bl	gcm_v6m.gcm.single_blocks.hash_singly.1
	str	r0, [sp, #52]                   @ 4-byte Spill
	str	r1, [sp, #48]                   @ 4-byte Spill
	str	r2, [sp, #44]                   @ 4-byte Spill
	str	r3, [sp, #40]                   @ 4-byte Spill
	ldr	r0, [r5, #16]
	ldrb	r1, [r0, #3]
	str	r1, [sp, #92]                   @ 4-byte Spill
	ldrb	r1, [r0, #2]
	str	r1, [sp, #88]                   @ 4-byte Spill
	ldrb	r1, [r0, #1]
	str	r1, [sp, #80]                   @ 4-byte Spill
	ldrb	r1, [r0]
	str	r1, [sp, #76]                   @ 4-byte Spill
	ldrb	r1, [r0, #7]
	str	r1, [sp, #72]                   @ 4-byte Spill
	ldrb	r1, [r0, #6]
	str	r1, [sp, #68]                   @ 4-byte Spill
	ldrb	r1, [r0, #4]
	str	r1, [sp, #64]                   @ 4-byte Spill
	ldrb	r1, [r0, #5]
	str	r1, [sp, #60]                   @ 4-byte Spill
	ldrb	r1, [r0, #11]
	str	r1, [sp, #56]                   @ 4-byte Spill
	ldrb	r1, [r0, #10]
	str	r1, [sp, #36]                   @ 4-byte Spill
	ldrb	r1, [r0, #9]
	str	r1, [sp, #32]                   @ 4-byte Spill
	ldrb	r5, [r0, #8]
	ldrb	r3, [r0, #15]
	ldrb	r2, [r0, #14]
	ldrb	r1, [r0, #12]
	ldrb	r0, [r0, #13]
	ldr	r7, [sp, #140]
	str	r7, [sp, #28]
	ldr	r7, [sp, #136]
	str	r7, [sp, #84]                   @ 4-byte Spill
	str	r7, [sp, #24]
	ldr	r7, [sp, #128]
	ldr	r6, [sp, #52]                   @ 4-byte Reload
	str	r6, [sp]
	ldr	r6, [sp, #48]                   @ 4-byte Reload
	str	r6, [sp, #4]
	ldr	r6, [sp, #44]                   @ 4-byte Reload
	str	r6, [sp, #8]
	ldr	r6, [sp, #40]                   @ 4-byte Reload
	str	r6, [sp, #12]
	str	r7, [sp, #16]
	lsls	r0, r0, #16
	lsls	r1, r1, #24
	adds	r0, r1, r0
	lsls	r1, r2, #8
	adds	r0, r0, r1
	adds	r2, r0, r3
	str	r2, [sp, #52]                   @ 4-byte Spill
	lsls	r0, r5, #24
	ldr	r1, [sp, #32]                   @ 4-byte Reload
	lsls	r1, r1, #16
	adds	r0, r1, r0
	ldr	r1, [sp, #36]                   @ 4-byte Reload
	lsls	r1, r1, #8
	adds	r0, r0, r1
	ldr	r1, [sp, #56]                   @ 4-byte Reload
	adds	r3, r0, r1
	str	r3, [sp, #56]                   @ 4-byte Spill
	ldr	r0, [sp, #60]                   @ 4-byte Reload
	lsls	r0, r0, #16
	ldr	r1, [sp, #64]                   @ 4-byte Reload
	lsls	r1, r1, #24
	adds	r0, r1, r0
	ldr	r1, [sp, #68]                   @ 4-byte Reload
	lsls	r1, r1, #8
	adds	r0, r0, r1
	ldr	r1, [sp, #72]                   @ 4-byte Reload
	adds	r7, r0, r1
	ldr	r0, [sp, #76]                   @ 4-byte Reload
	lsls	r0, r0, #24
	ldr	r1, [sp, #80]                   @ 4-byte Reload
	lsls	r1, r1, #16
	adds	r0, r1, r0
	ldr	r1, [sp, #88]                   @ 4-byte Reload
	lsls	r1, r1, #8
	adds	r0, r0, r1
	ldr	r1, [sp, #92]                   @ 4-byte Reload
	adds	r5, r0, r1
	mov	r0, r2
	mov	r1, r3
	mov	r2, r7
	mov	r3, r5
	bl	gcm_v6m.gcm.single_blocks.hash_singly.1
	ldr	r6, [sp, #52]                   @ 4-byte Reload
	str	r6, [sp]
	ldr	r6, [sp, #56]                   @ 4-byte Reload
	str	r6, [sp, #4]
	str	r7, [sp, #8]
	str	r5, [sp, #12]
	ldr	r6, [sp, #84]                   @ 4-byte Reload
	lsls	r5, r6, #3
	eors	r0, r5
	lsrs	r5, r6, #29
	eors	r1, r5
	ldr	r6, [sp, #96]                   @ 4-byte Reload
	lsls	r5, r6, #3
	eors	r2, r5
	lsrs	r5, r6, #29
	eors	r3, r5
	bl	gcm_v6m.gcm.bitwise.product_bitwise
	mov	r5, r0
	mov	r6, r1
	str	r2, [sp, #80]                   @ 4-byte Spill
	str	r3, [sp, #92]                   @ 4-byte Spill
	lsrs	r0, r3, #24
	ldrb	r1, [r4]
	eors	r1, r0
	strb	r1, [r4]
	ldrb	r0, [r4, #15]
	eors	r0, r5
	ldrb	r1, [r4, #1]
	str	r1, [sp, #96]                   @ 4-byte Spill
	ldrb	r1, [r4, #2]
	str	r1, [sp, #88]                   @ 4-byte Spill
	ldrb	r1, [r4, #3]
	str	r1, [sp, #84]                   @ 4-byte Spill
	ldrb	r1, [r4, #4]
	str	r1, [sp, #76]                   @ 4-byte Spill
	ldrb	r1, [r4, #5]
	str	r1, [sp, #72]                   @ 4-byte Spill
	ldrb	r1, [r4, #6]
	str	r1, [sp, #68]                   @ 4-byte Spill
	ldrb	r3, [r4, #7]
	ldrb	r1, [r4, #8]
	str	r1, [sp, #64]                   @ 4-byte Spill
	ldrb	r1, [r4, #9]
	str	r1, [sp, #60]                   @ 4-byte Spill
	ldrb	r1, [r4, #10]
	str	r1, [sp, #56]                   @ 4-byte Spill
	ldrb	r1, [r4, #11]
	ldrb	r2, [r4, #12]
	str	r2, [sp, #52]                   @ 4-byte Spill
	ldrb	r7, [r4, #13]
	ldrb	r2, [r4, #14]
	strb	r0, [r4, #15]
	lsrs	r0, r5, #8
	eors	r0, r2
	strb	r0, [r4, #14]
	lsrs	r0, r5, #16
	eors	r0, r7
	strb	r0, [r4, #13]
	lsrs	r0, r5, #24
	ldr	r2, [sp, #52]                   @ 4-byte Reload
	eors	r0, r2
	strb	r0, [r4, #12]
	eors	r1, r6
	strb	r1, [r4, #11]
	lsrs	r0, r6, #8
	ldr	r1, [sp, #56]                   @ 4-byte Reload
	eors	r0, r1
	strb	r0, [r4, #10]
	lsrs	r0, r6, #16
	ldr	r1, [sp, #60]                   @ 4-byte Reload
	eors	r0, r1
	strb	r0, [r4, #9]
	lsrs	r0, r6, #24
	ldr	r1, [sp, #64]                   @ 4-byte Reload
	eors	r0, r1
	strb	r0, [r4, #8]
	ldr	r1, [sp, #80]                   @ 4-byte Reload
	eors	r3, r1
	strb	r3, [r4, #7]
	lsrs	r0, r1, #8
	ldr	r2, [sp, #68]                   @ 4-byte Reload
	eors	r0, r2
	strb	r0, [r4, #6]
	lsrs	r0, r1, #16
	ldr	r2, [sp, #72]                   @ 4-byte Reload
	eors	r0, r2
	strb	r0, [r4, #5]
	lsrs	r0, r1, #24
	ldr	r1, [sp, #76]                   @ 4-byte Reload
	eors	r0, r1
	strb	r0, [r4, #4]
	ldr	r1, [sp, #92]                   @ 4-byte Reload
	ldr	r0, [sp, #84]                   @ 4-byte Reload
	eors	r0, r1
	strb	r0, [r4, #3]
	lsrs	r0, r1, #8
	ldr	r2, [sp, #88]                   @ 4-byte Reload
	eors	r0, r2
	strb	r0, [r4, #2]
	lsrs	r0, r1, #16
	ldr	r1, [sp, #96]                   @ 4-byte Reload
	eors	r0, r1
	strb	r0, [r4, #1]
	add	sp, #100
	pop	{r4, r5, r6, r7, pc}
.Lgcm_v6m_func_end20:
	.size	gcm_v6m.gcm.mode.BorrowedGcm.put_tag, .Lgcm_v6m_func_end20-gcm_v6m.gcm.mode.BorrowedGcm.put_tag
	.cantunwind
	.fnend
                                        @ -- End function
	.section	.text.gcm_v6m.aes_cipher.blocks.difference,"ax",%progbits
	.p2align	1                               @ -- Begin function aes_cipher::blocks::difference
	.type	gcm_v6m.aes_cipher.blocks.difference,%function
	.code	16
	.thumb_func
gcm_v6m.aes_cipher.blocks.difference:       @ @gcm_v6m.aes_cipher.blocks.difference
	.fnstart
@ %bb.0:                                @ %start
	.save	{r4, lr}
	push	{r4, lr}
	ldrb	r2, [r0]
	ldrb	r3, [r1]
	eors	r3, r2
	ldrb	r2, [r0, #1]
	ldrb	r4, [r1, #1]
	eors	r4, r2
	orrs	r4, r3
	ldrb	r2, [r0, #2]
	ldrb	r3, [r1, #2]
	eors	r3, r2
	orrs	r3, r4
	ldrb	r2, [r0, #3]
	ldrb	r4, [r1, #3]
	eors	r4, r2
	orrs	r4, r3
	ldrb	r2, [r0, #4]
	ldrb	r3, [r1, #4]
	eors	r3, r2
	orrs	r3, r4
	ldrb	r2, [r0, #5]
	ldrb	r4, [r1, #5]
	eors	r4, r2
	orrs	r4, r3
	ldrb	r2, [r0, #6]
	ldrb	r3, [r1, #6]
	eors	r3, r2
	orrs	r3, r4
	ldrb	r2, [r0, #7]
	ldrb	r4, [r1, #7]
	eors	r4, r2
	orrs	r4, r3
	ldrb	r2, [r0, #8]
	ldrb	r3, [r1, #8]
	eors	r3, r2
	orrs	r3, r4
	ldrb	r2, [r0, #9]
	ldrb	r4, [r1, #9]
	eors	r4, r2
	orrs	r4, r3
	ldrb	r2, [r0, #10]
	ldrb	r3, [r1, #10]
	eors	r3, r2
	orrs	r3, r4
	ldrb	r2, [r0, #11]
	ldrb	r4, [r1, #11]
	eors	r4, r2
	orrs	r4, r3
	ldrb	r2, [r0, #12]
	ldrb	r3, [r1, #12]
	eors	r3, r2
	orrs	r3, r4
	ldrb	r2, [r0, #13]
	ldrb	r4, [r1, #13]
	eors	r4, r2
	orrs	r4, r3
	ldrb	r2, [r0, #14]
	ldrb	r3, [r1, #14]
	eors	r3, r2
	orrs	r3, r4
	ldrb	r2, [r0, #15]
	ldrb	r0, [r1, #15]
	eors	r0, r2
	orrs	r0, r3
	pop	{r4, pc}
.Lgcm_v6m_func_end21:
	.size	gcm_v6m.aes_cipher.blocks.difference, .Lgcm_v6m_func_end21-gcm_v6m.aes_cipher.blocks.difference
	.cantunwind
	.fnend
                                        @ -- End function
	.section	.text.gcm_v6m.gcm.gctr.add_gctr,"ax",%progbits
	.p2align	1                               @ -- Begin function gcm::gctr::add_gctr::<#099a9bc28799ce6c>
	.type	gcm_v6m.gcm.gctr.add_gctr,%function
	.code	16
	.thumb_func
gcm_v6m.gcm.gctr.add_gctr: @ @gcm_v6m.gcm.gctr.add_gctr
	.fnstart
@ %bb.0:                                @ %start
	.save	{r4, r5, r6, r7, lr}
	push	{r4, r5, r6, r7, lr}
	.pad	#220
	sub	sp, #220
	ldr	r5, [sp, #252]
	ldr	r6, [sp, #248]
	mov	r4, r6
	orrs	r4, r5
	bne	.Lgcm_v6m_BB22_1
	b	.Lgcm_v6m_BB22_24
.Lgcm_v6m_BB22_1:                               @ %then.1
	str	r3, [sp, #144]                  @ 4-byte Spill
	ldr	r3, [sp, #240]
	str	r3, [sp, #148]                  @ 4-byte Spill
	ldrb	r4, [r1, #12]
	str	r5, [sp, #28]                   @ 4-byte Spill
	ldrb	r5, [r1, #13]
	lsls	r5, r5, #8
	adds	r4, r5, r4
	ldrb	r5, [r1, #14]
	lsls	r5, r5, #16
	str	r6, [sp, #32]                   @ 4-byte Spill
	ldrb	r6, [r1, #15]
	lsls	r6, r6, #24
	adds	r5, r6, r5
	adds	r4, r5, r4
	str	r4, [sp, #164]
	ldrb	r4, [r1, #8]
	ldrb	r5, [r1, #9]
	lsls	r5, r5, #8
	adds	r4, r5, r4
	ldrb	r5, [r1, #10]
	lsls	r5, r5, #16
	ldrb	r6, [r1, #11]
	lsls	r6, r6, #24
	adds	r5, r6, r5
	adds	r4, r5, r4
	str	r4, [sp, #160]
	ldrb	r4, [r1, #4]
	ldrb	r5, [r1, #5]
	lsls	r5, r5, #8
	adds	r4, r5, r4
	ldrb	r5, [r1, #6]
	lsls	r5, r5, #16
	ldrb	r6, [r1, #7]
	lsls	r6, r6, #24
	adds	r5, r6, r5
	ldr	r6, [sp, #32]                   @ 4-byte Reload
	adds	r4, r5, r4
	str	r4, [sp, #156]
	ldrb	r4, [r1]
	ldrb	r5, [r1, #1]
	lsls	r5, r5, #8
	adds	r4, r5, r4
	ldrb	r5, [r1, #2]
	lsls	r5, r5, #16
	ldrb	r1, [r1, #3]
	lsls	r1, r1, #24
	adds	r1, r1, r5
	ldr	r5, [sp, #28]                   @ 4-byte Reload
	adds	r1, r1, r4
	str	r1, [sp, #152]
	movs	r3, #0
	str	r3, [sp, #172]
	str	r3, [sp, #168]
	movs	r4, #15
	mov	r7, r2
	ands	r7, r4
	movs	r1, #16
	subs	r1, r1, r7
	subs	r1, r1, r6
	str	r3, [sp, #132]                  @ 4-byte Spill
	sbcs	r3, r5
	bhs	.Lgcm_v6m_BB22_3
@ %bb.2:                                @ %else.2.i
	str	r6, [sp, #192]
	str	r2, [sp, #176]
	movs	r1, #0
	str	r1, [sp, #188]
	ldr	r1, [sp, #148]                  @ 4-byte Reload
	str	r1, [sp, #184]
	add	r1, sp, #152
	str	r1, [sp, #168]
	str	r5, [sp, #196]
	ldr	r1, [sp, #144]                  @ 4-byte Reload
	str	r1, [sp, #180]
	ldrb	r1, [r0, #15]
	str	r1, [sp, #148]                  @ 4-byte Spill
	ldrb	r1, [r0, #14]
	str	r1, [sp, #144]                  @ 4-byte Spill
	ldrb	r1, [r0, #12]
	str	r1, [sp, #140]                  @ 4-byte Spill
	ldrb	r1, [r0, #13]
	str	r1, [sp, #136]                  @ 4-byte Spill
	ldrb	r1, [r0, #11]
	str	r1, [sp, #132]                  @ 4-byte Spill
	ldrb	r6, [r0, #10]
	ldrb	r7, [r0, #8]
	ldrb	r4, [r0, #9]
	ldrb	r3, [r0, #3]
	ldrb	r2, [r0, #2]
	ldrb	r1, [r0]
	ldrb	r0, [r0, #1]
	add	r5, sp, #168
	str	r5, [sp]
	lsls	r0, r0, #8
	adds	r0, r0, r1
	lsls	r1, r2, #16
	lsls	r2, r3, #24
	adds	r1, r2, r1
	adds	r0, r1, r0
	lsls	r1, r4, #8
	adds	r1, r1, r7
	lsls	r2, r6, #16
	ldr	r3, [sp, #132]                  @ 4-byte Reload
	lsls	r3, r3, #24
	adds	r2, r3, r2
	adds	r2, r2, r1
	ldr	r1, [sp, #136]                  @ 4-byte Reload
	lsls	r1, r1, #8
	ldr	r3, [sp, #140]                  @ 4-byte Reload
	adds	r1, r1, r3
	ldr	r3, [sp, #144]                  @ 4-byte Reload
	lsls	r3, r3, #16
	ldr	r4, [sp, #148]                  @ 4-byte Reload
	lsls	r4, r4, #24
	adds	r3, r4, r3
	adds	r3, r3, r1
	bl	gcm_v6m.aes_narrow.borrowed_words.call_to_encrypt.1
	bl	gcm_v6m.aes_cipher.zeroize.stack.wipe_stack.2032
	add	sp, #220
	pop	{r4, r5, r6, r7, pc}
.Lgcm_v6m_BB22_3:                               @ %then.1.i
	str	r4, [sp, #20]                   @ 4-byte Spill
	ldrb	r1, [r0, #15]
	str	r1, [sp, #140]                  @ 4-byte Spill
	ldrb	r1, [r0, #14]
	str	r1, [sp, #136]                  @ 4-byte Spill
	ldrb	r1, [r0, #12]
	str	r1, [sp, #128]                  @ 4-byte Spill
	ldrb	r1, [r0, #13]
	str	r1, [sp, #124]                  @ 4-byte Spill
	ldrb	r1, [r0, #11]
	str	r1, [sp, #120]                  @ 4-byte Spill
	ldrb	r1, [r0, #10]
	str	r1, [sp, #116]                  @ 4-byte Spill
	ldrb	r1, [r0, #8]
	str	r1, [sp, #112]                  @ 4-byte Spill
	ldrb	r1, [r0, #9]
	str	r1, [sp, #108]                  @ 4-byte Spill
	ldrb	r1, [r0, #3]
	str	r1, [sp, #104]                  @ 4-byte Spill
	ldrb	r1, [r0, #2]
	str	r1, [sp, #100]                  @ 4-byte Spill
	ldrb	r5, [r0]
	ldrb	r4, [r0, #1]
	add	r1, sp, #152
	ldrb	r3, [r1, #11]
	add	r0, sp, #204
	strb	r3, [r0, #11]
	ldrb	r3, [r1, #10]
	strb	r3, [r0, #10]
	ldrb	r3, [r1, #9]
	strb	r3, [r0, #9]
	ldr	r3, [sp, #160]
	strb	r3, [r0, #8]
	ldr	r3, [sp, #156]
	rev	r3, r3
	strb	r3, [r0, #7]
	lsrs	r6, r3, #8
	strb	r6, [r0, #6]
	lsrs	r6, r3, #16
	strb	r6, [r0, #5]
	lsrs	r3, r3, #24
	strb	r3, [r0, #4]
	ldrb	r3, [r1, #3]
	strb	r3, [r0, #3]
	ldrb	r3, [r1, #2]
	strb	r3, [r0, #2]
	ldrb	r1, [r1, #1]
	strb	r1, [r0, #1]
	ldr	r1, [sp, #152]
	strb	r1, [r0]
	lsrs	r1, r2, #4
	ldr	r2, [sp, #144]                  @ 4-byte Reload
	lsls	r2, r2, #28
	adds	r1, r1, r2
	ldr	r2, [sp, #164]
	rev	r2, r2
	adds	r1, r2, r1
	strb	r1, [r0, #15]
	lsrs	r2, r1, #8
	strb	r2, [r0, #14]
	lsrs	r2, r1, #16
	strb	r2, [r0, #13]
	lsrs	r1, r1, #24
	strb	r1, [r0, #12]
	movs	r1, #1
	str	r1, [sp, #16]                   @ 4-byte Spill
	str	r1, [sp, #8]
	ldr	r6, [sp, #132]                  @ 4-byte Reload
	str	r6, [sp, #12]
	str	r0, [sp]
	lsls	r0, r4, #8
	adds	r0, r0, r5
	ldr	r1, [sp, #100]                  @ 4-byte Reload
	lsls	r1, r1, #16
	ldr	r2, [sp, #104]                  @ 4-byte Reload
	lsls	r2, r2, #24
	adds	r1, r2, r1
	adds	r0, r1, r0
	ldr	r1, [sp, #108]                  @ 4-byte Reload
	lsls	r1, r1, #8
	ldr	r2, [sp, #112]                  @ 4-byte Reload
	adds	r1, r1, r2
	ldr	r2, [sp, #116]                  @ 4-byte Reload
	lsls	r2, r2, #16
	ldr	r3, [sp, #120]                  @ 4-byte Reload
	lsls	r3, r3, #24
	adds	r2, r3, r2
	adds	r2, r2, r1
	ldr	r1, [sp, #124]                  @ 4-byte Reload
	lsls	r1, r1, #8
	ldr	r3, [sp, #128]                  @ 4-byte Reload
	adds	r1, r1, r3
	ldr	r3, [sp, #136]                  @ 4-byte Reload
	lsls	r3, r3, #16
	ldr	r4, [sp, #140]                  @ 4-byte Reload
	lsls	r4, r4, #24
	adds	r3, r4, r3
	adds	r3, r3, r1
	bl	gcm_v6m.aes_narrow.blocks.process_all_batches
	bl	gcm_v6m.aes_cipher.zeroize.stack.wipe_stack.1024
	str	r7, [sp, #24]                   @ 4-byte Spill
	cmp	r7, #0
	beq	.Lgcm_v6m_BB22_11
@ %bb.4:                                @ %join.8.i72.i.i.preheader
	movs	r0, #3
	ldr	r6, [sp, #32]                   @ 4-byte Reload
	mov	r5, r6
	str	r0, [sp, #144]                  @ 4-byte Spill
	ands	r5, r0
	movs	r3, #0
	subs	r1, r6, #4
	ldr	r7, [sp, #28]                   @ 4-byte Reload
	mov	r1, r7
	sbcs	r1, r3
	str	r5, [sp, #128]                  @ 4-byte Spill
	blo	.Lgcm_v6m_BB22_8
@ %bb.5:                                @ %join.8.i72.i.i.preheader.new
	ldr	r0, [sp, #144]                  @ 4-byte Reload
	bics	r6, r0
	str	r6, [sp, #140]                  @ 4-byte Spill
	movs	r5, #0
	mov	r3, r5
	str	r5, [sp, #136]                  @ 4-byte Spill
	ldr	r1, [sp, #148]                  @ 4-byte Reload
	ldr	r4, [sp, #24]                   @ 4-byte Reload
.Lgcm_v6m_BB22_6:                               @ %join.8.i72.i.i
                                        @ =>This Inner Loop Header: Depth=1
	ldrb	r7, [r1, r3]
	adds	r2, r3, r4
	add	r6, sp, #204
	ldrb	r2, [r6, r2]
	eors	r2, r7
	strb	r2, [r1, r3]
	mov	r2, r3
	ldr	r0, [sp, #16]                   @ 4-byte Reload
	orrs	r2, r0
	ldrb	r7, [r1, r2]
	adds	r0, r2, r4
	ldrb	r0, [r6, r0]
	eors	r0, r7
	strb	r0, [r1, r2]
	movs	r0, #2
	orrs	r0, r3
	ldrb	r2, [r1, r0]
	adds	r7, r0, r4
	ldrb	r7, [r6, r7]
	eors	r7, r2
	strb	r7, [r1, r0]
	mov	r0, r3
	ldr	r2, [sp, #144]                  @ 4-byte Reload
	orrs	r0, r2
	ldrb	r2, [r1, r0]
	adds	r7, r0, r4
	ldrb	r6, [r6, r7]
	eors	r6, r2
	strb	r6, [r1, r0]
	adds	r3, r3, #4
	ldr	r0, [sp, #136]                  @ 4-byte Reload
	adcs	r5, r0
	mov	r0, r3
	ldr	r2, [sp, #140]                  @ 4-byte Reload
	eors	r0, r2
	orrs	r0, r5
	bne	.Lgcm_v6m_BB22_6
@ %bb.7:                                @ %join.3.i.i.i.loopexit.unr-lcssa
	ldr	r5, [sp, #128]                  @ 4-byte Reload
	cmp	r5, #0
	ldr	r6, [sp, #32]                   @ 4-byte Reload
	mov	r1, r6
	ldr	r7, [sp, #28]                   @ 4-byte Reload
	mov	r0, r7
	beq	.Lgcm_v6m_BB22_12
.Lgcm_v6m_BB22_8:                               @ %join.8.i72.i.i.epil.preheader
	ldr	r4, [sp, #148]                  @ 4-byte Reload
	ldrb	r0, [r4, r3]
	ldr	r1, [sp, #24]                   @ 4-byte Reload
	adds	r1, r3, r1
	add	r2, sp, #204
	ldrb	r1, [r2, r1]
	eors	r1, r0
	strb	r1, [r4, r3]
	cmp	r5, #1
	mov	r1, r6
	mov	r0, r7
	beq	.Lgcm_v6m_BB22_12
@ %bb.9:                                @ %join.8.i72.i.i.epil.1
	adds	r0, r3, #1
	ldr	r5, [sp, #148]                  @ 4-byte Reload
	ldrb	r1, [r5, r0]
	ldr	r2, [sp, #24]                   @ 4-byte Reload
	adds	r2, r0, r2
	add	r4, sp, #204
	ldrb	r2, [r4, r2]
	eors	r2, r1
	strb	r2, [r5, r0]
	ldr	r7, [sp, #28]                   @ 4-byte Reload
	ldr	r0, [sp, #128]                  @ 4-byte Reload
	cmp	r0, #2
	mov	r1, r6
	mov	r0, r7
	beq	.Lgcm_v6m_BB22_12
@ %bb.10:                               @ %join.8.i72.i.i.epil.2
	adds	r0, r3, #2
	ldr	r4, [sp, #148]                  @ 4-byte Reload
	ldrb	r1, [r4, r0]
	ldr	r2, [sp, #24]                   @ 4-byte Reload
	adds	r2, r0, r2
	add	r3, sp, #204
	ldrb	r2, [r3, r2]
	eors	r2, r1
	strb	r2, [r4, r0]
	mov	r1, r6
	mov	r0, r7
	b	.Lgcm_v6m_BB22_12
.Lgcm_v6m_BB22_11:
	mov	r0, r6
	mov	r1, r6
	ldr	r7, [sp, #28]                   @ 4-byte Reload
	ldr	r6, [sp, #32]                   @ 4-byte Reload
.Lgcm_v6m_BB22_12:                              @ %join.3.i.i.i
	mov	r4, r1
	subs	r2, r6, r1
	mov	r6, r7
	str	r0, [sp, #144]                  @ 4-byte Spill
	sbcs	r6, r0
	mov	r0, r2
	subs	r0, #16
	mov	r0, r6
	ldr	r1, [sp, #132]                  @ 4-byte Reload
	sbcs	r0, r1
	bhs	.Lgcm_v6m_BB22_13
	b	.Lgcm_v6m_BB22_15
.Lgcm_v6m_BB22_13:                              @ %join.8.i.i.i.preheader
	ldr	r3, [sp, #148]                  @ 4-byte Reload
	ldr	r5, [sp, #20]                   @ 4-byte Reload
	ldr	r1, [sp, #24]                   @ 4-byte Reload
.Lgcm_v6m_BB22_14:                              @ %join.8.i.i.i
                                        @ =>This Inner Loop Header: Depth=1
	ldrb	r0, [r3, r4]
	adds	r1, r4, r1
	bics	r1, r5
	add	r3, sp, #204
	ldrb	r2, [r3, r1]
	eors	r2, r0
	str	r2, [sp, #72]                   @ 4-byte Spill
	ldr	r0, [sp, #148]                  @ 4-byte Reload
	adds	r2, r0, r4
	ldrb	r0, [r2, #1]
	str	r0, [sp, #140]                  @ 4-byte Spill
	adds	r5, r3, r1
	ldrb	r0, [r5, #1]
	str	r0, [sp, #136]                  @ 4-byte Spill
	ldrb	r0, [r2, #2]
	str	r0, [sp, #132]                  @ 4-byte Spill
	ldrb	r0, [r5, #2]
	str	r0, [sp, #128]                  @ 4-byte Spill
	ldrb	r0, [r2, #3]
	str	r0, [sp, #124]                  @ 4-byte Spill
	ldrb	r0, [r5, #3]
	str	r0, [sp, #120]                  @ 4-byte Spill
	ldrb	r0, [r2, #4]
	str	r0, [sp, #116]                  @ 4-byte Spill
	ldrb	r0, [r5, #4]
	str	r0, [sp, #112]                  @ 4-byte Spill
	ldrb	r0, [r2, #5]
	str	r0, [sp, #108]                  @ 4-byte Spill
	ldrb	r0, [r5, #5]
	str	r0, [sp, #104]                  @ 4-byte Spill
	ldrb	r0, [r2, #6]
	str	r0, [sp, #100]                  @ 4-byte Spill
	ldrb	r0, [r5, #6]
	str	r0, [sp, #96]                   @ 4-byte Spill
	ldrb	r0, [r2, #7]
	str	r0, [sp, #92]                   @ 4-byte Spill
	ldrb	r0, [r5, #7]
	str	r0, [sp, #88]                   @ 4-byte Spill
	ldrb	r0, [r2, #8]
	str	r0, [sp, #84]                   @ 4-byte Spill
	ldrb	r0, [r5, #8]
	str	r0, [sp, #80]                   @ 4-byte Spill
	ldrb	r0, [r2, #9]
	str	r0, [sp, #76]                   @ 4-byte Spill
	ldrb	r0, [r5, #9]
	str	r0, [sp, #68]                   @ 4-byte Spill
	ldrb	r0, [r2, #10]
	str	r0, [sp, #64]                   @ 4-byte Spill
	ldrb	r0, [r5, #10]
	str	r0, [sp, #60]                   @ 4-byte Spill
	ldrb	r0, [r2, #11]
	str	r0, [sp, #56]                   @ 4-byte Spill
	ldrb	r0, [r5, #11]
	str	r0, [sp, #52]                   @ 4-byte Spill
	ldrb	r0, [r2, #12]
	str	r0, [sp, #48]                   @ 4-byte Spill
	ldrb	r3, [r5, #12]
	ldrb	r0, [r2, #13]
	str	r0, [sp, #44]                   @ 4-byte Spill
	ldrb	r1, [r5, #13]
	ldrb	r0, [r2, #14]
	str	r0, [sp, #40]                   @ 4-byte Spill
	ldrb	r0, [r5, #14]
	ldrb	r6, [r2, #15]
	str	r6, [sp, #36]                   @ 4-byte Spill
	ldrb	r5, [r5, #15]
	ldr	r7, [sp, #148]                  @ 4-byte Reload
	ldr	r6, [sp, #72]                   @ 4-byte Reload
	strb	r6, [r7, r4]
	ldr	r6, [sp, #36]                   @ 4-byte Reload
	eors	r5, r6
	strb	r5, [r2, #15]
	ldr	r6, [sp, #28]                   @ 4-byte Reload
	ldr	r5, [sp, #40]                   @ 4-byte Reload
	eors	r0, r5
	strb	r0, [r2, #14]
	ldr	r0, [sp, #44]                   @ 4-byte Reload
	eors	r1, r0
	strb	r1, [r2, #13]
	ldr	r0, [sp, #48]                   @ 4-byte Reload
	eors	r3, r0
	strb	r3, [r2, #12]
	ldr	r3, [sp, #148]                  @ 4-byte Reload
	ldr	r0, [sp, #56]                   @ 4-byte Reload
	ldr	r1, [sp, #52]                   @ 4-byte Reload
	eors	r1, r0
	strb	r1, [r2, #11]
	ldr	r5, [sp, #20]                   @ 4-byte Reload
	ldr	r0, [sp, #64]                   @ 4-byte Reload
	ldr	r1, [sp, #60]                   @ 4-byte Reload
	eors	r1, r0
	strb	r1, [r2, #10]
	ldr	r0, [sp, #76]                   @ 4-byte Reload
	ldr	r1, [sp, #68]                   @ 4-byte Reload
	eors	r1, r0
	strb	r1, [r2, #9]
	ldr	r0, [sp, #84]                   @ 4-byte Reload
	ldr	r1, [sp, #80]                   @ 4-byte Reload
	eors	r1, r0
	strb	r1, [r2, #8]
	ldr	r0, [sp, #92]                   @ 4-byte Reload
	ldr	r1, [sp, #88]                   @ 4-byte Reload
	eors	r1, r0
	strb	r1, [r2, #7]
	ldr	r0, [sp, #100]                  @ 4-byte Reload
	ldr	r1, [sp, #96]                   @ 4-byte Reload
	eors	r1, r0
	strb	r1, [r2, #6]
	ldr	r0, [sp, #108]                  @ 4-byte Reload
	ldr	r1, [sp, #104]                  @ 4-byte Reload
	eors	r1, r0
	strb	r1, [r2, #5]
	ldr	r0, [sp, #116]                  @ 4-byte Reload
	ldr	r1, [sp, #112]                  @ 4-byte Reload
	eors	r1, r0
	strb	r1, [r2, #4]
	ldr	r0, [sp, #124]                  @ 4-byte Reload
	ldr	r1, [sp, #120]                  @ 4-byte Reload
	eors	r1, r0
	strb	r1, [r2, #3]
	ldr	r0, [sp, #132]                  @ 4-byte Reload
	ldr	r1, [sp, #128]                  @ 4-byte Reload
	eors	r1, r0
	strb	r1, [r2, #2]
	ldr	r0, [sp, #140]                  @ 4-byte Reload
	ldr	r1, [sp, #136]                  @ 4-byte Reload
	eors	r1, r0
	strb	r1, [r2, #1]
	movs	r0, #0
	adds	r4, #16
	ldr	r1, [sp, #144]                  @ 4-byte Reload
	adcs	r1, r0
	ldr	r2, [sp, #32]                   @ 4-byte Reload
	subs	r2, r2, r4
	mov	r7, r6
	str	r1, [sp, #144]                  @ 4-byte Spill
	sbcs	r6, r1
	subs	r1, r5, r2
	ldr	r1, [sp, #24]                   @ 4-byte Reload
	sbcs	r0, r6
	bhs	.Lgcm_v6m_BB22_16
	b	.Lgcm_v6m_BB22_14
.Lgcm_v6m_BB22_15:
	ldr	r3, [sp, #148]                  @ 4-byte Reload
	ldr	r5, [sp, #20]                   @ 4-byte Reload
.Lgcm_v6m_BB22_16:                              @ %after.4.i.i.i
	str	r4, [sp, #148]                  @ 4-byte Spill
	ldr	r0, [sp, #32]                   @ 4-byte Reload
	subs	r0, r4, r0
	ldr	r0, [sp, #144]                  @ 4-byte Reload
	sbcs	r0, r7
	bhs	.Lgcm_v6m_BB22_24
@ %bb.17:                               @ %then.9.i.i.i
	add	r0, sp, #204
	mov	r1, r2
	orrs	r1, r6
	beq	.Lgcm_v6m_BB22_24
@ %bb.18:                               @ %join.8.i15.i.i.preheader
	ldr	r1, [sp, #148]                  @ 4-byte Reload
	adds	r3, r3, r1
	ldr	r4, [sp, #24]                   @ 4-byte Reload
	adds	r1, r1, r4
	bics	r1, r5
	adds	r0, r0, r1
	movs	r1, #3
	mov	r5, r2
	ands	r5, r1
	movs	r4, #0
	subs	r7, r2, #4
	sbcs	r6, r4
	blo	.Lgcm_v6m_BB22_22
@ %bb.19:                               @ %join.8.i15.i.i.preheader.new
	str	r5, [sp, #140]                  @ 4-byte Spill
	movs	r4, #12
	ands	r2, r4
	movs	r7, #0
	mov	r4, r7
	str	r7, [sp, #148]                  @ 4-byte Spill
	str	r1, [sp, #144]                  @ 4-byte Spill
.Lgcm_v6m_BB22_20:                              @ %join.8.i15.i.i
                                        @ =>This Inner Loop Header: Depth=1
	ldrb	r1, [r0, r4]
	ldrb	r5, [r3, r4]
	eors	r5, r1
	strb	r5, [r3, r4]
	mov	r1, r4
	ldr	r5, [sp, #16]                   @ 4-byte Reload
	orrs	r1, r5
	ldrb	r5, [r0, r1]
	ldrb	r6, [r3, r1]
	eors	r6, r5
	strb	r6, [r3, r1]
	movs	r1, #2
	orrs	r1, r4
	ldrb	r5, [r0, r1]
	ldrb	r6, [r3, r1]
	eors	r6, r5
	strb	r6, [r3, r1]
	mov	r1, r4
	ldr	r5, [sp, #144]                  @ 4-byte Reload
	orrs	r1, r5
	ldrb	r5, [r0, r1]
	ldrb	r6, [r3, r1]
	eors	r6, r5
	strb	r6, [r3, r1]
	adds	r4, r4, #4
	ldr	r1, [sp, #148]                  @ 4-byte Reload
	adcs	r7, r1
	mov	r1, r4
	eors	r1, r2
	orrs	r1, r7
	bne	.Lgcm_v6m_BB22_20
@ %bb.21:                               @ %"aes_ctr::add_in_batches::add_to_one::<#9f2532018b56b7e7>.exit.i.loopexit.unr-lcssa"
	ldr	r5, [sp, #140]                  @ 4-byte Reload
	cmp	r5, #0
	beq	.Lgcm_v6m_BB22_24
.Lgcm_v6m_BB22_22:                              @ %join.8.i15.i.i.epil.preheader
	ldrb	r1, [r0, r4]
	ldrb	r2, [r3, r4]
	eors	r2, r1
	strb	r2, [r3, r4]
	cmp	r5, #1
	beq	.Lgcm_v6m_BB22_24
@ %bb.23:                               @ %join.8.i15.i.i.epil.1
	adds	r1, r4, #1
	ldrb	r2, [r0, r1]
	mov	r6, r5
	ldrb	r5, [r3, r1]
	eors	r5, r2
	strb	r5, [r3, r1]
	cmp	r6, #2
	bne	.Lgcm_v6m_BB22_25
.Lgcm_v6m_BB22_24:                              @ %join.3
	add	sp, #220
	pop	{r4, r5, r6, r7, pc}
.Lgcm_v6m_BB22_25:                              @ %join.8.i15.i.i.epil.2
	adds	r1, r4, #2
	ldrb	r0, [r0, r1]
	ldrb	r2, [r3, r1]
	eors	r2, r0
	strb	r2, [r3, r1]
	add	sp, #220
	pop	{r4, r5, r6, r7, pc}
.Lgcm_v6m_func_end22:
	.size	gcm_v6m.gcm.gctr.add_gctr, .Lgcm_v6m_func_end22-gcm_v6m.gcm.gctr.add_gctr
	.cantunwind
	.fnend
                                        @ -- End function
	.section	.text.gcm_v6m.aes_narrow.borrowed_words.call_to_encrypt.1,"ax",%progbits
	.p2align	1                               @ -- Begin function aes_narrow::borrowed_words::call_to_encrypt::<#1305835a18aa05db>
	.type	gcm_v6m.aes_narrow.borrowed_words.call_to_encrypt.1,%function
	.code	16
	.thumb_func
gcm_v6m.aes_narrow.borrowed_words.call_to_encrypt.1: @ @gcm_v6m.aes_narrow.borrowed_words.call_to_encrypt.1
	.fnstart
@ %bb.0:                                @ %start
	.save	{r4, r5, r6, r7, lr}
	push	{r4, r5, r6, r7, lr}
	.pad	#468
	sub	sp, #468
	str	r3, [sp, #48]                   @ 4-byte Spill
	str	r3, [sp, #204]
	str	r2, [sp, #44]                   @ 4-byte Spill
	str	r2, [sp, #200]
	movs	r5, #0
	str	r5, [sp, #196]
	str	r0, [sp, #40]                   @ 4-byte Spill
	str	r0, [sp, #192]
	ldr	r0, [sp, #488]
	ldr	r4, [r0, #24]
	ldr	r6, [r0, #28]
	ldr	r7, [r0, #8]
	ldr	r3, [r0, #12]
	ldr	r2, [r0, #16]
	ldr	r1, [r0]
	lsls	r0, r7, #28
	str	r3, [sp, #52]                   @ 4-byte Spill
	str	r2, [sp, #180]                  @ 4-byte Spill
	str	r1, [sp, #172]                  @ 4-byte Spill
	beq	.Lgcm_v6m_BB23_2
@ %bb.1:                                @ %then.1.i.i
	movs	r0, #0
	str	r0, [sp]
	str	r0, [sp, #4]
	str	r2, [sp, #8]
	str	r4, [sp, #16]
	str	r6, [sp, #20]
	add	r0, sp, #192
	mov	r2, r7
	bl	gcm_v6m.aes_ctr.add_in_batches.add_next.1
	b	.Lgcm_v6m_BB23_3
.Lgcm_v6m_BB23_2:
	mov	r0, r5
	mov	r1, r5
.Lgcm_v6m_BB23_3:                               @ %join.3.i.i
	str	r0, [sp, #188]                  @ 4-byte Spill
	subs	r0, r4, r0
	mov	r2, r6
	sbcs	r2, r1
	subs	r0, #32
	sbcs	r2, r5
	str	r7, [sp, #168]                  @ 4-byte Spill
	str	r1, [sp, #184]                  @ 4-byte Spill
	bhs	.Lgcm_v6m_BB23_4
	b	.Lgcm_v6m_BB23_6
.Lgcm_v6m_BB23_4:                               @ %join.11.lr.ph.i.i
	add	r0, sp, #212
	adds	r0, #32
	str	r0, [sp, #28]                   @ 4-byte Spill
	str	r4, [sp, #36]                   @ 4-byte Spill
	str	r6, [sp, #32]                   @ 4-byte Spill
.Lgcm_v6m_BB23_5:                               @ %join.11.i.i
                                        @ =>This Inner Loop Header: Depth=1
	movs	r1, #0
	str	r1, [sp, #176]                  @ 4-byte Spill
	movs	r2, #224
	ldr	r0, [sp, #28]                   @ 4-byte Reload
	bl	memset
	ldr	r5, [sp, #172]                  @ 4-byte Reload
	ldrb	r0, [r5, #3]
	add	r4, sp, #212
	strb	r0, [r4, #3]
	ldrb	r1, [r5, #7]
	strb	r1, [r4, #7]
	ldrb	r2, [r5, #11]
	strb	r2, [r4, #11]
	strb	r0, [r4, #19]
	strb	r1, [r4, #23]
	strb	r2, [r4, #27]
	ldrb	r0, [r5]
	lsls	r0, r0, #24
	str	r0, [sp, #164]                  @ 4-byte Spill
	lsrs	r0, r0, #24
	str	r0, [sp, #156]                  @ 4-byte Spill
	strb	r0, [r4]
	ldrb	r1, [r5, #2]
	lsls	r1, r1, #8
	lsrs	r3, r1, #8
	strb	r3, [r4, #2]
	ldrb	r1, [r5, #4]
	lsls	r0, r1, #24
	str	r0, [sp, #160]                  @ 4-byte Spill
	lsrs	r6, r0, #24
	strb	r6, [r4, #4]
	ldrb	r2, [r5, #6]
	lsls	r2, r2, #8
	lsrs	r7, r2, #8
	strb	r7, [r4, #6]
	ldrb	r2, [r5, #8]
	lsls	r0, r2, #24
	str	r0, [sp, #152]                  @ 4-byte Spill
	lsrs	r0, r0, #24
	strb	r0, [r4, #8]
	ldrb	r1, [r5, #10]
	lsls	r1, r1, #8
	lsrs	r1, r1, #8
	strb	r1, [r4, #10]
	ldr	r2, [sp, #156]                  @ 4-byte Reload
	strb	r2, [r4, #16]
	strb	r3, [r4, #18]
	strb	r6, [r4, #20]
	strb	r7, [r4, #22]
	strb	r0, [r4, #24]
	strb	r1, [r4, #26]
	ldrb	r0, [r5, #1]
	lsls	r0, r0, #16
	ldr	r1, [sp, #164]                  @ 4-byte Reload
	adds	r0, r0, r1
	lsrs	r0, r0, #16
	strb	r0, [r4, #1]
	ldrb	r1, [r5, #5]
	lsls	r1, r1, #16
	ldr	r3, [sp, #160]                  @ 4-byte Reload
	adds	r1, r3, r1
	lsrs	r1, r1, #16
	strb	r1, [r4, #5]
	ldrb	r3, [r5, #9]
	lsls	r3, r3, #16
	ldr	r2, [sp, #152]                  @ 4-byte Reload
	adds	r2, r3, r2
	lsrs	r2, r2, #16
	strb	r2, [r4, #9]
	strb	r0, [r4, #17]
	strb	r1, [r4, #21]
	strb	r2, [r4, #25]
	ldr	r0, [sp, #168]                  @ 4-byte Reload
	ldr	r6, [sp, #188]                  @ 4-byte Reload
	adds	r0, r6, r0
	ldr	r1, [sp, #184]                  @ 4-byte Reload
	ldr	r2, [sp, #52]                   @ 4-byte Reload
	adcs	r1, r2
	lsrs	r0, r0, #4
	lsls	r1, r1, #28
	adds	r0, r0, r1
	ldrb	r1, [r5, #13]
	lsls	r1, r1, #16
	ldrb	r2, [r5, #12]
	lsls	r2, r2, #24
	adds	r1, r2, r1
	ldrb	r2, [r5, #14]
	lsls	r2, r2, #8
	adds	r1, r1, r2
	ldrb	r2, [r5, #15]
	adds	r1, r1, r2
	adds	r0, r1, r0
	strb	r0, [r4, #15]
	adds	r1, r0, #1
	strb	r1, [r4, #31]
	lsrs	r2, r0, #8
	strb	r2, [r4, #14]
	lsrs	r2, r0, #16
	strb	r2, [r4, #13]
	lsrs	r0, r0, #24
	strb	r0, [r4, #12]
	lsrs	r0, r1, #8
	strb	r0, [r4, #30]
	lsrs	r0, r1, #16
	strb	r0, [r4, #29]
	lsrs	r0, r1, #24
	strb	r0, [r4, #28]
	movs	r0, #2
	str	r0, [sp, #8]
	ldr	r0, [sp, #176]                  @ 4-byte Reload
	str	r0, [sp, #12]
	str	r4, [sp]
	add	r3, sp, #40
	ldm	r3, {r0, r2, r3}                @ 12-byte Folded Reload
	bl	gcm_v6m.aes_soft.soft.blocks.filled_up.process_filled_up
	ldr	r2, [sp, #180]                  @ 4-byte Reload
	str	r6, [sp, #188]                  @ 4-byte Spill
	adds	r0, r2, r6
	ldrb	r1, [r0, #1]
	str	r1, [sp, #164]                  @ 4-byte Spill
	ldrb	r1, [r0, #2]
	str	r1, [sp, #160]                  @ 4-byte Spill
	ldrb	r1, [r0, #3]
	str	r1, [sp, #156]                  @ 4-byte Spill
	ldrb	r1, [r0, #4]
	str	r1, [sp, #152]                  @ 4-byte Spill
	ldrb	r1, [r0, #5]
	str	r1, [sp, #148]                  @ 4-byte Spill
	ldrb	r1, [r0, #6]
	str	r1, [sp, #140]                  @ 4-byte Spill
	ldrb	r1, [r0, #7]
	str	r1, [sp, #132]                  @ 4-byte Spill
	ldrb	r1, [r0, #8]
	str	r1, [sp, #124]                  @ 4-byte Spill
	ldrb	r1, [r0, #9]
	str	r1, [sp, #120]                  @ 4-byte Spill
	ldrb	r1, [r0, #10]
	str	r1, [sp, #112]                  @ 4-byte Spill
	ldrb	r1, [r0, #11]
	str	r1, [sp, #104]                  @ 4-byte Spill
	ldrb	r1, [r0, #12]
	str	r1, [sp, #92]                   @ 4-byte Spill
	ldrb	r1, [r0, #13]
	str	r1, [sp, #88]                   @ 4-byte Spill
	ldrb	r1, [r0, #14]
	str	r1, [sp, #80]                   @ 4-byte Spill
	ldrb	r1, [r0, #15]
	str	r1, [sp, #68]                   @ 4-byte Spill
	ldrb	r1, [r2, r6]
	ldr	r2, [sp, #212]
	eors	r2, r1
	str	r2, [sp, #60]                   @ 4-byte Spill
	ldrb	r1, [r4, #1]
	str	r1, [sp, #144]                  @ 4-byte Spill
	ldrb	r1, [r4, #2]
	str	r1, [sp, #136]                  @ 4-byte Spill
	ldrb	r1, [r4, #3]
	str	r1, [sp, #128]                  @ 4-byte Spill
	ldrb	r1, [r4, #5]
	str	r1, [sp, #116]                  @ 4-byte Spill
	ldrb	r1, [r4, #6]
	str	r1, [sp, #108]                  @ 4-byte Spill
	ldrb	r1, [r4, #7]
	str	r1, [sp, #96]                   @ 4-byte Spill
	ldrb	r1, [r4, #9]
	str	r1, [sp, #84]                   @ 4-byte Spill
	ldrb	r1, [r4, #10]
	str	r1, [sp, #76]                   @ 4-byte Spill
	ldrb	r1, [r4, #11]
	str	r1, [sp, #64]                   @ 4-byte Spill
	ldrb	r1, [r4, #13]
	str	r1, [sp, #56]                   @ 4-byte Spill
	ldrb	r2, [r4, #14]
	ldrb	r1, [r4, #15]
	ldr	r3, [sp, #216]
	str	r3, [sp, #100]                  @ 4-byte Spill
	ldr	r3, [sp, #220]
	str	r3, [sp, #72]                   @ 4-byte Spill
	ldr	r3, [sp, #224]
	ldr	r7, [sp, #188]                  @ 4-byte Reload
	ldr	r6, [sp, #180]                  @ 4-byte Reload
	ldr	r5, [sp, #60]                   @ 4-byte Reload
	strb	r5, [r6, r7]
	ldr	r6, [sp, #68]                   @ 4-byte Reload
	eors	r1, r6
	strb	r1, [r0, #15]
	ldr	r1, [sp, #80]                   @ 4-byte Reload
	eors	r2, r1
	strb	r2, [r0, #14]
	ldr	r1, [sp, #88]                   @ 4-byte Reload
	ldr	r2, [sp, #56]                   @ 4-byte Reload
	eors	r2, r1
	strb	r2, [r0, #13]
	ldr	r1, [sp, #92]                   @ 4-byte Reload
	eors	r3, r1
	strb	r3, [r0, #12]
	ldr	r1, [sp, #104]                  @ 4-byte Reload
	ldr	r2, [sp, #64]                   @ 4-byte Reload
	eors	r2, r1
	strb	r2, [r0, #11]
	ldr	r1, [sp, #112]                  @ 4-byte Reload
	ldr	r2, [sp, #76]                   @ 4-byte Reload
	eors	r2, r1
	strb	r2, [r0, #10]
	ldr	r1, [sp, #120]                  @ 4-byte Reload
	ldr	r2, [sp, #84]                   @ 4-byte Reload
	eors	r2, r1
	strb	r2, [r0, #9]
	ldr	r1, [sp, #124]                  @ 4-byte Reload
	ldr	r2, [sp, #72]                   @ 4-byte Reload
	eors	r2, r1
	strb	r2, [r0, #8]
	ldr	r1, [sp, #132]                  @ 4-byte Reload
	ldr	r2, [sp, #96]                   @ 4-byte Reload
	eors	r2, r1
	strb	r2, [r0, #7]
	ldr	r1, [sp, #140]                  @ 4-byte Reload
	ldr	r2, [sp, #108]                  @ 4-byte Reload
	eors	r2, r1
	strb	r2, [r0, #6]
	ldr	r1, [sp, #148]                  @ 4-byte Reload
	ldr	r2, [sp, #116]                  @ 4-byte Reload
	eors	r2, r1
	strb	r2, [r0, #5]
	ldr	r1, [sp, #152]                  @ 4-byte Reload
	ldr	r2, [sp, #100]                  @ 4-byte Reload
	eors	r2, r1
	strb	r2, [r0, #4]
	ldr	r1, [sp, #156]                  @ 4-byte Reload
	ldr	r2, [sp, #128]                  @ 4-byte Reload
	eors	r2, r1
	strb	r2, [r0, #3]
	ldr	r1, [sp, #160]                  @ 4-byte Reload
	ldr	r2, [sp, #136]                  @ 4-byte Reload
	eors	r2, r1
	strb	r2, [r0, #2]
	ldr	r1, [sp, #164]                  @ 4-byte Reload
	ldr	r2, [sp, #144]                  @ 4-byte Reload
	eors	r2, r1
	strb	r2, [r0, #1]
	ldrb	r1, [r0, #16]
	str	r1, [sp, #164]                  @ 4-byte Spill
	ldrb	r1, [r0, #17]
	str	r1, [sp, #160]                  @ 4-byte Spill
	ldrb	r1, [r0, #18]
	str	r1, [sp, #156]                  @ 4-byte Spill
	ldrb	r1, [r0, #19]
	str	r1, [sp, #152]                  @ 4-byte Spill
	ldrb	r1, [r0, #20]
	str	r1, [sp, #148]                  @ 4-byte Spill
	ldrb	r1, [r0, #21]
	str	r1, [sp, #144]                  @ 4-byte Spill
	ldrb	r1, [r0, #22]
	str	r1, [sp, #136]                  @ 4-byte Spill
	ldrb	r1, [r0, #23]
	str	r1, [sp, #128]                  @ 4-byte Spill
	ldrb	r1, [r0, #24]
	str	r1, [sp, #116]                  @ 4-byte Spill
	ldrb	r1, [r0, #25]
	str	r1, [sp, #112]                  @ 4-byte Spill
	ldrb	r1, [r0, #26]
	str	r1, [sp, #104]                  @ 4-byte Spill
	ldrb	r1, [r0, #27]
	str	r1, [sp, #92]                   @ 4-byte Spill
	ldrb	r1, [r0, #28]
	str	r1, [sp, #84]                   @ 4-byte Spill
	ldrb	r1, [r0, #29]
	str	r1, [sp, #80]                   @ 4-byte Spill
	ldrb	r1, [r0, #30]
	str	r1, [sp, #72]                   @ 4-byte Spill
	ldrb	r1, [r0, #31]
	ldrb	r5, [r4, #31]
	eors	r5, r1
	ldrb	r1, [r4, #17]
	str	r1, [sp, #140]                  @ 4-byte Spill
	ldrb	r1, [r4, #18]
	str	r1, [sp, #132]                  @ 4-byte Spill
	ldrb	r1, [r4, #19]
	str	r1, [sp, #124]                  @ 4-byte Spill
	ldrb	r1, [r4, #21]
	str	r1, [sp, #108]                  @ 4-byte Spill
	ldrb	r1, [r4, #22]
	str	r1, [sp, #100]                  @ 4-byte Spill
	ldrb	r1, [r4, #23]
	str	r1, [sp, #88]                   @ 4-byte Spill
	ldrb	r1, [r4, #25]
	str	r1, [sp, #76]                   @ 4-byte Spill
	ldrb	r7, [r4, #26]
	ldrb	r6, [r4, #27]
	ldrb	r3, [r4, #29]
	ldrb	r1, [r4, #30]
	ldr	r2, [sp, #228]
	str	r2, [sp, #120]                  @ 4-byte Spill
	ldr	r2, [sp, #232]
	str	r2, [sp, #96]                   @ 4-byte Spill
	ldr	r4, [sp, #236]
	ldr	r2, [sp, #240]
	strb	r5, [r0, #31]
	ldr	r5, [sp, #72]                   @ 4-byte Reload
	eors	r1, r5
	strb	r1, [r0, #30]
	ldr	r1, [sp, #80]                   @ 4-byte Reload
	eors	r3, r1
	strb	r3, [r0, #29]
	ldr	r1, [sp, #84]                   @ 4-byte Reload
	eors	r2, r1
	strb	r2, [r0, #28]
	ldr	r1, [sp, #92]                   @ 4-byte Reload
	eors	r6, r1
	strb	r6, [r0, #27]
	ldr	r6, [sp, #32]                   @ 4-byte Reload
	ldr	r1, [sp, #104]                  @ 4-byte Reload
	eors	r7, r1
	strb	r7, [r0, #26]
	ldr	r1, [sp, #112]                  @ 4-byte Reload
	ldr	r2, [sp, #76]                   @ 4-byte Reload
	eors	r2, r1
	strb	r2, [r0, #25]
	ldr	r1, [sp, #116]                  @ 4-byte Reload
	eors	r4, r1
	strb	r4, [r0, #24]
	ldr	r1, [sp, #128]                  @ 4-byte Reload
	ldr	r2, [sp, #88]                   @ 4-byte Reload
	eors	r2, r1
	strb	r2, [r0, #23]
	ldr	r1, [sp, #136]                  @ 4-byte Reload
	ldr	r2, [sp, #100]                  @ 4-byte Reload
	eors	r2, r1
	strb	r2, [r0, #22]
	ldr	r1, [sp, #144]                  @ 4-byte Reload
	ldr	r2, [sp, #108]                  @ 4-byte Reload
	eors	r2, r1
	strb	r2, [r0, #21]
	ldr	r1, [sp, #148]                  @ 4-byte Reload
	ldr	r2, [sp, #96]                   @ 4-byte Reload
	eors	r2, r1
	strb	r2, [r0, #20]
	ldr	r1, [sp, #152]                  @ 4-byte Reload
	ldr	r2, [sp, #124]                  @ 4-byte Reload
	eors	r2, r1
	strb	r2, [r0, #19]
	ldr	r1, [sp, #156]                  @ 4-byte Reload
	ldr	r2, [sp, #132]                  @ 4-byte Reload
	eors	r2, r1
	strb	r2, [r0, #18]
	ldr	r1, [sp, #160]                  @ 4-byte Reload
	ldr	r2, [sp, #140]                  @ 4-byte Reload
	eors	r2, r1
	strb	r2, [r0, #17]
	ldr	r1, [sp, #164]                  @ 4-byte Reload
	ldr	r2, [sp, #120]                  @ 4-byte Reload
	eors	r2, r1
	strb	r2, [r0, #16]
	ldr	r0, [sp, #188]                  @ 4-byte Reload
	adds	r0, #32
	ldr	r3, [sp, #176]                  @ 4-byte Reload
	ldr	r2, [sp, #184]                  @ 4-byte Reload
	adcs	r2, r3
	str	r0, [sp, #188]                  @ 4-byte Spill
	ldr	r1, [sp, #36]                   @ 4-byte Reload
	mov	r4, r1
	subs	r0, r1, r0
	mov	r1, r6
	str	r2, [sp, #184]                  @ 4-byte Spill
	sbcs	r1, r2
	movs	r2, #31
	subs	r0, r2, r0
	sbcs	r3, r1
	bhs	.Lgcm_v6m_BB23_6
	b	.Lgcm_v6m_BB23_5
.Lgcm_v6m_BB23_6:                               @ %loop.13.preheader.i.i
	ldr	r1, [sp, #188]                  @ 4-byte Reload
	subs	r0, r1, r4
	ldr	r2, [sp, #184]                  @ 4-byte Reload
	mov	r0, r2
	sbcs	r0, r6
	ldr	r7, [sp, #52]                   @ 4-byte Reload
	mov	r0, r1
	mov	r1, r2
	bhs	.Lgcm_v6m_BB23_8
.Lgcm_v6m_BB23_7:                               @ %join.16.i.i
                                        @ =>This Inner Loop Header: Depth=1
	str	r4, [sp, #16]
	str	r6, [sp, #20]
	str	r0, [sp]
	str	r1, [sp, #4]
	ldr	r0, [sp, #180]                  @ 4-byte Reload
	str	r0, [sp, #8]
	add	r0, sp, #192
	ldr	r1, [sp, #172]                  @ 4-byte Reload
	ldr	r2, [sp, #168]                  @ 4-byte Reload
	mov	r3, r7
	bl	gcm_v6m.aes_ctr.add_in_batches.add_next.1
	subs	r2, r0, r4
	mov	r2, r1
	sbcs	r2, r6
	blo	.Lgcm_v6m_BB23_7
.Lgcm_v6m_BB23_8:                               @ %"aes_ctr::add_in_batches::AddStreamBlockCipherEncClosure::call::<#5af79e2f176a0632>.exit"
	add	sp, #468
	pop	{r4, r5, r6, r7, pc}
.Lgcm_v6m_func_end23:
	.size	gcm_v6m.aes_narrow.borrowed_words.call_to_encrypt.1, .Lgcm_v6m_func_end23-gcm_v6m.aes_narrow.borrowed_words.call_to_encrypt.1
	.cantunwind
	.fnend
                                        @ -- End function
	.section	.text.gcm_v6m.aes_ctr.add_in_batches.add_next.1,"ax",%progbits
	.p2align	1                               @ -- Begin function aes_ctr::add_in_batches::add_next::<#8f445e75de4b0592>
	.type	gcm_v6m.aes_ctr.add_in_batches.add_next.1,%function
	.code	16
	.thumb_func
gcm_v6m.aes_ctr.add_in_batches.add_next.1: @ @gcm_v6m.aes_ctr.add_in_batches.add_next.1
	.fnstart
@ %bb.0:                                @ %start
	.save	{r4, r5, r6, r7, lr}
	push	{r4, r5, r6, r7, lr}
	.pad	#420
	sub	sp, #420
	str	r3, [sp, #152]                  @ 4-byte Spill
	str	r2, [sp, #148]                  @ 4-byte Spill
	mov	r4, r1
	str	r0, [sp, #160]                  @ 4-byte Spill
	add	r7, sp, #164
	mov	r0, r7
	adds	r0, #32
	movs	r1, #0
	str	r1, [sp, #156]                  @ 4-byte Spill
	movs	r2, #224
	bl	memset
	ldrb	r0, [r4, #11]
	strb	r0, [r7, #27]
	ldrb	r1, [r4, #7]
	strb	r1, [r7, #23]
	ldrb	r2, [r4, #3]
	strb	r2, [r7, #19]
	strb	r0, [r7, #11]
	strb	r1, [r7, #7]
	strb	r2, [r7, #3]
	ldrb	r0, [r4, #10]
	lsls	r0, r0, #8
	lsrs	r0, r0, #8
	str	r0, [sp, #140]                  @ 4-byte Spill
	strb	r0, [r7, #26]
	ldrb	r0, [r4, #8]
	lsls	r0, r0, #24
	str	r0, [sp, #144]                  @ 4-byte Spill
	lsrs	r0, r0, #24
	str	r0, [sp, #132]                  @ 4-byte Spill
	strb	r0, [r7, #24]
	ldrb	r1, [r4, #6]
	lsls	r1, r1, #8
	lsrs	r2, r1, #8
	strb	r2, [r7, #22]
	ldrb	r1, [r4, #4]
	lsls	r0, r1, #24
	str	r0, [sp, #136]                  @ 4-byte Spill
	lsrs	r5, r0, #24
	strb	r5, [r7, #20]
	ldrb	r3, [r4, #2]
	lsls	r3, r3, #8
	lsrs	r6, r3, #8
	strb	r6, [r7, #18]
	ldrb	r3, [r4]
	lsls	r3, r3, #24
	lsrs	r0, r3, #24
	strb	r0, [r7, #16]
	ldr	r1, [sp, #140]                  @ 4-byte Reload
	strb	r1, [r7, #10]
	ldr	r1, [sp, #132]                  @ 4-byte Reload
	strb	r1, [r7, #8]
	strb	r2, [r7, #6]
	strb	r5, [r7, #4]
	strb	r6, [r7, #2]
	strb	r0, [r7]
	ldrb	r0, [r4, #9]
	lsls	r0, r0, #16
	ldr	r2, [sp, #144]                  @ 4-byte Reload
	adds	r0, r0, r2
	lsrs	r0, r0, #16
	strb	r0, [r7, #25]
	ldrb	r2, [r4, #5]
	lsls	r2, r2, #16
	ldr	r1, [sp, #136]                  @ 4-byte Reload
	adds	r1, r1, r2
	lsrs	r1, r1, #16
	strb	r1, [r7, #21]
	ldrb	r2, [r4, #1]
	lsls	r2, r2, #16
	adds	r2, r2, r3
	lsrs	r2, r2, #16
	strb	r2, [r7, #17]
	strb	r0, [r7, #9]
	strb	r1, [r7, #5]
	strb	r2, [r7, #1]
	ldr	r5, [sp, #444]
	ldr	r3, [sp, #440]
	ldr	r0, [sp, #148]                  @ 4-byte Reload
	adds	r6, r3, r0
	ldr	r1, [sp, #152]                  @ 4-byte Reload
	adcs	r1, r5
	lsrs	r0, r6, #4
	lsls	r1, r1, #28
	adds	r0, r0, r1
	ldrb	r1, [r4, #13]
	lsls	r1, r1, #16
	ldrb	r2, [r4, #12]
	lsls	r2, r2, #24
	adds	r1, r2, r1
	ldrb	r2, [r4, #14]
	lsls	r2, r2, #8
	adds	r1, r1, r2
	ldrb	r2, [r4, #15]
	adds	r1, r1, r2
	adds	r0, r1, r0
	strb	r0, [r7, #15]
	lsrs	r1, r0, #24
	strb	r1, [r7, #12]
	lsrs	r1, r0, #16
	strb	r1, [r7, #13]
	lsrs	r1, r0, #8
	strb	r1, [r7, #14]
	adds	r0, r0, #1
	strb	r0, [r7, #31]
	lsrs	r1, r0, #24
	strb	r1, [r7, #28]
	lsrs	r1, r0, #16
	strb	r1, [r7, #29]
	lsrs	r0, r0, #8
	strb	r0, [r7, #30]
	mov	r1, r3
	ldr	r3, [sp, #460]
	ldr	r0, [sp, #456]
	str	r0, [sp, #148]                  @ 4-byte Spill
	str	r1, [sp, #24]                   @ 4-byte Spill
	subs	r7, r0, r1
	str	r3, [sp, #152]                  @ 4-byte Spill
	mov	r4, r5
	sbcs	r3, r5
	ldr	r5, [sp, #156]                  @ 4-byte Reload
	movs	r0, #15
	str	r0, [sp, #28]                   @ 4-byte Spill
	ands	r6, r0
	movs	r0, #32
	str	r6, [sp, #36]                   @ 4-byte Spill
	subs	r1, r0, r6
	movs	r0, #1
	subs	r2, r7, r1
	mov	r2, r3
	sbcs	r2, r5
	bhs	.Lgcm_v6m_BB24_6
@ %bb.1:                                @ %start
	bhs	.Lgcm_v6m_BB24_7
.Lgcm_v6m_BB24_2:                               @ %start
	cmp	r0, #0
	mov	r6, r4
	bne	.Lgcm_v6m_BB24_4
.Lgcm_v6m_BB24_3:                               @ %start
	mov	r3, r0
.Lgcm_v6m_BB24_4:                               @ %start
	str	r3, [sp, #32]                   @ 4-byte Spill
	ldr	r4, [sp, #160]                  @ 4-byte Reload
	ldrb	r0, [r4, #12]
	ldrb	r1, [r4, #13]
	lsls	r1, r1, #8
	adds	r0, r1, r0
	ldrb	r1, [r4, #14]
	lsls	r1, r1, #16
	ldrb	r2, [r4, #15]
	lsls	r2, r2, #24
	adds	r1, r2, r1
	adds	r3, r1, r0
	ldrb	r0, [r4, #8]
	ldrb	r1, [r4, #9]
	lsls	r1, r1, #8
	adds	r0, r1, r0
	ldrb	r1, [r4, #10]
	lsls	r1, r1, #16
	ldrb	r2, [r4, #11]
	lsls	r2, r2, #24
	adds	r1, r2, r1
	adds	r2, r1, r0
	ldrb	r0, [r4]
	ldrb	r1, [r4, #1]
	lsls	r1, r1, #8
	adds	r0, r1, r0
	ldrb	r1, [r4, #2]
	lsls	r1, r1, #16
	ldrb	r4, [r4, #3]
	lsls	r4, r4, #24
	adds	r1, r4, r1
	adds	r0, r1, r0
	str	r7, [sp, #40]                   @ 4-byte Spill
	ldr	r1, [sp, #36]                   @ 4-byte Reload
	adds	r1, r1, r7
	adds	r1, #15
	movs	r5, #112
	ands	r5, r1
	ldr	r4, [sp, #448]
	movs	r1, #0
	cmp	r5, #16
	bne	.Lgcm_v6m_BB24_8
@ %bb.5:                                @ %then.1.i.i.i
	movs	r5, #1
	b	.Lgcm_v6m_BB24_9
.Lgcm_v6m_BB24_6:                               @ %start
	mov	r7, r1
	blo	.Lgcm_v6m_BB24_2
.Lgcm_v6m_BB24_7:                               @ %start
	mov	r0, r5
	cmp	r0, #0
	mov	r6, r4
	beq	.Lgcm_v6m_BB24_3
	b	.Lgcm_v6m_BB24_4
.Lgcm_v6m_BB24_8:                               @ %else.2.i.i.i
	movs	r5, #2
.Lgcm_v6m_BB24_9:                               @ %"aes_ctr::keystream::fill_by_backend::<#8f445e75de4b0592>.exit"
	str	r5, [sp, #8]
	str	r1, [sp, #12]
	add	r1, sp, #164
	str	r1, [sp]
	bl	gcm_v6m.aes_soft.soft.blocks.filled_up.process_filled_up
	ldr	r0, [sp, #24]                   @ 4-byte Reload
	adds	r0, r4, r0
	str	r0, [sp, #160]                  @ 4-byte Spill
	movs	r0, #0
	ldr	r2, [sp, #36]                   @ 4-byte Reload
	cmp	r2, #0
	ldr	r3, [sp, #32]                   @ 4-byte Reload
	ldr	r5, [sp, #40]                   @ 4-byte Reload
	str	r6, [sp, #20]                   @ 4-byte Spill
	str	r0, [sp, #140]                  @ 4-byte Spill
	beq	.Lgcm_v6m_BB24_16
@ %bb.10:                               @ %then.1.i
	movs	r0, #16
	subs	r2, r0, r2
	movs	r0, #1
	movs	r1, #0
	subs	r4, r5, r2
	mov	r4, r3
	sbcs	r4, r1
	mov	r4, r5
	bhs	.Lgcm_v6m_BB24_17
@ %bb.11:                               @ %then.1.i
	bhs	.Lgcm_v6m_BB24_18
.Lgcm_v6m_BB24_12:                              @ %then.1.i
	cmp	r0, #0
	mov	r1, r3
	ldr	r2, [sp, #36]                   @ 4-byte Reload
	bne	.Lgcm_v6m_BB24_14
.Lgcm_v6m_BB24_13:                              @ %then.1.i
	mov	r1, r0
.Lgcm_v6m_BB24_14:                              @ %then.1.i
	ldr	r7, [sp, #148]                  @ 4-byte Reload
	ldr	r0, [sp, #24]                   @ 4-byte Reload
	eors	r7, r0
	ldr	r0, [sp, #152]                  @ 4-byte Reload
	eors	r0, r6
	orrs	r0, r7
	bne	.Lgcm_v6m_BB24_19
@ %bb.15:
	ldr	r7, [sp, #28]                   @ 4-byte Reload
	b	.Lgcm_v6m_BB24_29
.Lgcm_v6m_BB24_16:
	mov	r4, r0
	mov	r1, r0
	ldr	r7, [sp, #28]                   @ 4-byte Reload
	b	.Lgcm_v6m_BB24_29
.Lgcm_v6m_BB24_17:                              @ %then.1.i
	mov	r4, r2
	blo	.Lgcm_v6m_BB24_12
.Lgcm_v6m_BB24_18:                              @ %then.1.i
	mov	r0, r1
	cmp	r0, #0
	mov	r1, r3
	ldr	r2, [sp, #36]                   @ 4-byte Reload
	beq	.Lgcm_v6m_BB24_13
	b	.Lgcm_v6m_BB24_14
.Lgcm_v6m_BB24_19:                              @ %join.8.i85.preheader
	movs	r0, #3
	mov	r6, r4
	str	r0, [sp, #148]                  @ 4-byte Spill
	ands	r6, r0
	movs	r5, #0
	subs	r0, r4, #4
	str	r1, [sp, #152]                  @ 4-byte Spill
	mov	r0, r1
	sbcs	r0, r5
	ldr	r7, [sp, #160]                  @ 4-byte Reload
	str	r4, [sp, #156]                  @ 4-byte Spill
	str	r6, [sp, #136]                  @ 4-byte Spill
	blo	.Lgcm_v6m_BB24_23
@ %bb.20:                               @ %join.8.i85.preheader.new
	movs	r0, #28
	ands	r0, r4
	str	r0, [sp, #144]                  @ 4-byte Spill
	movs	r0, #0
	mov	r5, r0
	mov	r1, r0
.Lgcm_v6m_BB24_21:                              @ %join.8.i85
                                        @ =>This Inner Loop Header: Depth=1
	ldr	r3, [sp, #160]                  @ 4-byte Reload
	ldrb	r7, [r3, r5]
	adds	r3, r5, r2
	add	r6, sp, #164
	ldrb	r3, [r6, r3]
	eors	r3, r7
	ldr	r4, [sp, #160]                  @ 4-byte Reload
	strb	r3, [r4, r5]
	movs	r3, #1
	orrs	r3, r5
	ldr	r4, [sp, #160]                  @ 4-byte Reload
	ldrb	r7, [r4, r3]
	adds	r4, r3, r2
	ldrb	r4, [r6, r4]
	eors	r4, r7
	ldr	r7, [sp, #160]                  @ 4-byte Reload
	strb	r4, [r7, r3]
	movs	r3, #2
	orrs	r3, r5
	ldr	r4, [sp, #160]                  @ 4-byte Reload
	ldrb	r4, [r4, r3]
	adds	r7, r3, r2
	ldrb	r7, [r6, r7]
	eors	r7, r4
	ldr	r4, [sp, #160]                  @ 4-byte Reload
	strb	r7, [r4, r3]
	mov	r3, r5
	ldr	r4, [sp, #148]                  @ 4-byte Reload
	orrs	r3, r4
	ldr	r4, [sp, #160]                  @ 4-byte Reload
	ldrb	r4, [r4, r3]
	adds	r7, r3, r2
	ldrb	r6, [r6, r7]
	ldr	r7, [sp, #160]                  @ 4-byte Reload
	eors	r6, r4
	strb	r6, [r7, r3]
	adds	r5, r5, #4
	adcs	r1, r0
	mov	r3, r5
	ldr	r4, [sp, #144]                  @ 4-byte Reload
	eors	r3, r4
	orrs	r3, r1
	bne	.Lgcm_v6m_BB24_21
@ %bb.22:                               @ %join.3.i.loopexit.unr-lcssa
	ldr	r6, [sp, #136]                  @ 4-byte Reload
	cmp	r6, #0
	ldr	r3, [sp, #32]                   @ 4-byte Reload
	ldr	r4, [sp, #156]                  @ 4-byte Reload
	bne	.Lgcm_v6m_BB24_23
	b	.Lgcm_v6m_BB24_41
.Lgcm_v6m_BB24_23:                              @ %join.8.i85.epil.preheader
	ldrb	r0, [r7, r5]
	adds	r1, r5, r2
	mov	r4, r2
	add	r2, sp, #164
	ldrb	r1, [r2, r1]
	eors	r1, r0
	strb	r1, [r7, r5]
	cmp	r6, #1
	mov	r1, r7
	ldr	r7, [sp, #28]                   @ 4-byte Reload
	beq	.Lgcm_v6m_BB24_27
@ %bb.24:                               @ %join.8.i85.epil.1
	adds	r0, r5, #1
	ldrb	r6, [r1, r0]
	adds	r2, r0, r4
	add	r3, sp, #164
	ldrb	r2, [r3, r2]
	eors	r2, r6
	strb	r2, [r1, r0]
	ldr	r0, [sp, #136]                  @ 4-byte Reload
	cmp	r0, #2
	beq	.Lgcm_v6m_BB24_26
@ %bb.25:                               @ %join.8.i85.epil.2
	adds	r0, r5, #2
	ldrb	r5, [r1, r0]
	adds	r2, r0, r4
	add	r3, sp, #164
	ldrb	r2, [r3, r2]
	eors	r2, r5
	strb	r2, [r1, r0]
.Lgcm_v6m_BB24_26:                              @ %join.3.i
	ldr	r3, [sp, #32]                   @ 4-byte Reload
.Lgcm_v6m_BB24_27:                              @ %join.3.i
	ldr	r5, [sp, #40]                   @ 4-byte Reload
	mov	r2, r4
	ldr	r4, [sp, #156]                  @ 4-byte Reload
.Lgcm_v6m_BB24_28:                              @ %join.3.i
	ldr	r1, [sp, #152]                  @ 4-byte Reload
.Lgcm_v6m_BB24_29:                              @ %join.3.i
	subs	r5, r5, r4
	mov	r6, r3
	str	r1, [sp, #152]                  @ 4-byte Spill
	sbcs	r6, r1
	mov	r0, r5
	subs	r0, #16
	mov	r0, r6
	ldr	r1, [sp, #140]                  @ 4-byte Reload
	sbcs	r0, r1
	bhs	.Lgcm_v6m_BB24_30
	b	.Lgcm_v6m_BB24_31
.Lgcm_v6m_BB24_30:                              @ %join.8.i
                                        @ =>This Inner Loop Header: Depth=1
	str	r4, [sp, #156]                  @ 4-byte Spill
	ldr	r5, [sp, #160]                  @ 4-byte Reload
	ldrb	r0, [r5, r4]
	adds	r1, r4, r2
	bics	r1, r7
	add	r2, sp, #164
	ldrb	r3, [r2, r1]
	eors	r3, r0
	str	r3, [sp, #80]                   @ 4-byte Spill
	adds	r3, r5, r4
	ldrb	r0, [r3, #1]
	str	r0, [sp, #148]                  @ 4-byte Spill
	adds	r0, r2, r1
	ldrb	r1, [r0, #1]
	str	r1, [sp, #144]                  @ 4-byte Spill
	ldrb	r1, [r3, #2]
	str	r1, [sp, #140]                  @ 4-byte Spill
	ldrb	r1, [r0, #2]
	str	r1, [sp, #136]                  @ 4-byte Spill
	ldrb	r1, [r3, #3]
	str	r1, [sp, #132]                  @ 4-byte Spill
	ldrb	r1, [r0, #3]
	str	r1, [sp, #128]                  @ 4-byte Spill
	ldrb	r1, [r3, #4]
	str	r1, [sp, #124]                  @ 4-byte Spill
	ldrb	r1, [r0, #4]
	str	r1, [sp, #120]                  @ 4-byte Spill
	ldrb	r1, [r3, #5]
	str	r1, [sp, #116]                  @ 4-byte Spill
	ldrb	r1, [r0, #5]
	str	r1, [sp, #112]                  @ 4-byte Spill
	ldrb	r1, [r3, #6]
	str	r1, [sp, #108]                  @ 4-byte Spill
	ldrb	r1, [r0, #6]
	str	r1, [sp, #104]                  @ 4-byte Spill
	ldrb	r1, [r3, #7]
	str	r1, [sp, #100]                  @ 4-byte Spill
	ldrb	r1, [r0, #7]
	str	r1, [sp, #96]                   @ 4-byte Spill
	ldrb	r1, [r3, #8]
	str	r1, [sp, #92]                   @ 4-byte Spill
	ldrb	r1, [r0, #8]
	str	r1, [sp, #88]                   @ 4-byte Spill
	ldrb	r1, [r3, #9]
	str	r1, [sp, #84]                   @ 4-byte Spill
	ldrb	r1, [r0, #9]
	str	r1, [sp, #76]                   @ 4-byte Spill
	ldrb	r1, [r3, #10]
	str	r1, [sp, #72]                   @ 4-byte Spill
	ldrb	r1, [r0, #10]
	str	r1, [sp, #68]                   @ 4-byte Spill
	ldrb	r1, [r3, #11]
	str	r1, [sp, #64]                   @ 4-byte Spill
	ldrb	r1, [r0, #11]
	str	r1, [sp, #60]                   @ 4-byte Spill
	ldrb	r1, [r3, #12]
	str	r1, [sp, #56]                   @ 4-byte Spill
	ldrb	r4, [r0, #12]
	ldrb	r1, [r3, #13]
	str	r1, [sp, #52]                   @ 4-byte Spill
	ldrb	r2, [r0, #13]
	ldrb	r1, [r3, #14]
	str	r1, [sp, #48]                   @ 4-byte Spill
	ldrb	r1, [r0, #14]
	ldrb	r5, [r3, #15]
	str	r5, [sp, #44]                   @ 4-byte Spill
	ldrb	r0, [r0, #15]
	ldr	r7, [sp, #156]                  @ 4-byte Reload
	ldr	r6, [sp, #80]                   @ 4-byte Reload
	ldr	r5, [sp, #160]                  @ 4-byte Reload
	strb	r6, [r5, r7]
	ldr	r5, [sp, #44]                   @ 4-byte Reload
	eors	r0, r5
	ldr	r7, [sp, #28]                   @ 4-byte Reload
	strb	r0, [r3, #15]
	ldr	r0, [sp, #48]                   @ 4-byte Reload
	eors	r1, r0
	strb	r1, [r3, #14]
	ldr	r0, [sp, #52]                   @ 4-byte Reload
	eors	r2, r0
	strb	r2, [r3, #13]
	ldr	r2, [sp, #36]                   @ 4-byte Reload
	ldr	r0, [sp, #56]                   @ 4-byte Reload
	eors	r4, r0
	strb	r4, [r3, #12]
	ldr	r4, [sp, #156]                  @ 4-byte Reload
	ldr	r0, [sp, #64]                   @ 4-byte Reload
	ldr	r1, [sp, #60]                   @ 4-byte Reload
	eors	r1, r0
	strb	r1, [r3, #11]
	ldr	r0, [sp, #72]                   @ 4-byte Reload
	ldr	r1, [sp, #68]                   @ 4-byte Reload
	eors	r1, r0
	strb	r1, [r3, #10]
	ldr	r0, [sp, #84]                   @ 4-byte Reload
	ldr	r1, [sp, #76]                   @ 4-byte Reload
	eors	r1, r0
	strb	r1, [r3, #9]
	ldr	r0, [sp, #92]                   @ 4-byte Reload
	ldr	r1, [sp, #88]                   @ 4-byte Reload
	eors	r1, r0
	strb	r1, [r3, #8]
	ldr	r0, [sp, #100]                  @ 4-byte Reload
	ldr	r1, [sp, #96]                   @ 4-byte Reload
	eors	r1, r0
	strb	r1, [r3, #7]
	ldr	r0, [sp, #108]                  @ 4-byte Reload
	ldr	r1, [sp, #104]                  @ 4-byte Reload
	eors	r1, r0
	strb	r1, [r3, #6]
	ldr	r0, [sp, #116]                  @ 4-byte Reload
	ldr	r1, [sp, #112]                  @ 4-byte Reload
	eors	r1, r0
	strb	r1, [r3, #5]
	ldr	r0, [sp, #124]                  @ 4-byte Reload
	ldr	r1, [sp, #120]                  @ 4-byte Reload
	eors	r1, r0
	strb	r1, [r3, #4]
	ldr	r0, [sp, #132]                  @ 4-byte Reload
	ldr	r1, [sp, #128]                  @ 4-byte Reload
	eors	r1, r0
	strb	r1, [r3, #3]
	ldr	r0, [sp, #140]                  @ 4-byte Reload
	ldr	r1, [sp, #136]                  @ 4-byte Reload
	eors	r1, r0
	strb	r1, [r3, #2]
	ldr	r0, [sp, #148]                  @ 4-byte Reload
	ldr	r1, [sp, #144]                  @ 4-byte Reload
	eors	r1, r0
	strb	r1, [r3, #1]
	ldr	r3, [sp, #32]                   @ 4-byte Reload
	movs	r0, #0
	adds	r4, #16
	ldr	r1, [sp, #152]                  @ 4-byte Reload
	adcs	r1, r0
	ldr	r5, [sp, #40]                   @ 4-byte Reload
	subs	r5, r5, r4
	mov	r6, r3
	str	r1, [sp, #152]                  @ 4-byte Spill
	sbcs	r6, r1
	subs	r1, r7, r5
	sbcs	r0, r6
	bhs	.Lgcm_v6m_BB24_31
	b	.Lgcm_v6m_BB24_30
.Lgcm_v6m_BB24_31:                              @ %after.4.i
	ldr	r0, [sp, #40]                   @ 4-byte Reload
	subs	r0, r4, r0
	ldr	r0, [sp, #152]                  @ 4-byte Reload
	sbcs	r0, r3
	bhs	.Lgcm_v6m_BB24_40
@ %bb.32:                               @ %then.9.i
	add	r1, sp, #164
	mov	r0, r5
	orrs	r0, r6
	beq	.Lgcm_v6m_BB24_40
@ %bb.33:                               @ %join.8.i28.preheader
	ldr	r0, [sp, #160]                  @ 4-byte Reload
	adds	r0, r0, r4
	adds	r2, r4, r2
	bics	r2, r7
	adds	r1, r1, r2
	movs	r4, #3
	mov	r2, r5
	ands	r2, r4
	movs	r3, #0
	subs	r7, r5, #4
	sbcs	r6, r3
	mov	r6, r2
	blo	.Lgcm_v6m_BB24_37
@ %bb.34:                               @ %join.8.i28.preheader.new
	str	r6, [sp, #152]                  @ 4-byte Spill
	movs	r3, #12
	ands	r5, r3
	movs	r7, #0
	mov	r3, r7
	str	r7, [sp, #160]                  @ 4-byte Spill
	str	r4, [sp, #156]                  @ 4-byte Spill
.Lgcm_v6m_BB24_35:                              @ %join.8.i28
                                        @ =>This Inner Loop Header: Depth=1
	ldrb	r2, [r1, r3]
	ldrb	r4, [r0, r3]
	eors	r4, r2
	strb	r4, [r0, r3]
	movs	r2, #1
	orrs	r2, r3
	ldrb	r4, [r1, r2]
	ldrb	r6, [r0, r2]
	eors	r6, r4
	strb	r6, [r0, r2]
	movs	r2, #2
	orrs	r2, r3
	ldrb	r4, [r1, r2]
	ldrb	r6, [r0, r2]
	eors	r6, r4
	strb	r6, [r0, r2]
	mov	r2, r3
	ldr	r4, [sp, #156]                  @ 4-byte Reload
	orrs	r2, r4
	ldrb	r4, [r1, r2]
	ldrb	r6, [r0, r2]
	eors	r6, r4
	strb	r6, [r0, r2]
	adds	r3, r3, #4
	ldr	r2, [sp, #160]                  @ 4-byte Reload
	adcs	r7, r2
	mov	r2, r3
	eors	r2, r5
	orrs	r2, r7
	bne	.Lgcm_v6m_BB24_35
@ %bb.36:                               @ %"aes_ctr::add_blocks::add_blocks.exit.loopexit.unr-lcssa"
	ldr	r6, [sp, #152]                  @ 4-byte Reload
	cmp	r6, #0
	beq	.Lgcm_v6m_BB24_40
.Lgcm_v6m_BB24_37:                              @ %join.8.i28.epil.preheader
	ldrb	r2, [r1, r3]
	ldrb	r4, [r0, r3]
	eors	r4, r2
	strb	r4, [r0, r3]
	cmp	r6, #1
	beq	.Lgcm_v6m_BB24_40
@ %bb.38:                               @ %join.8.i28.epil.1
	adds	r2, r3, #1
	ldrb	r4, [r1, r2]
	ldrb	r5, [r0, r2]
	eors	r5, r4
	strb	r5, [r0, r2]
	cmp	r6, #2
	beq	.Lgcm_v6m_BB24_40
@ %bb.39:                               @ %join.8.i28.epil.2
	adds	r2, r3, #2
	ldrb	r1, [r1, r2]
	ldrb	r3, [r0, r2]
	eors	r3, r1
	strb	r3, [r0, r2]
.Lgcm_v6m_BB24_40:                              @ %"aes_ctr::add_blocks::add_blocks.exit"
	ldr	r0, [sp, #24]                   @ 4-byte Reload
	ldr	r1, [sp, #40]                   @ 4-byte Reload
	adds	r0, r1, r0
	ldr	r1, [sp, #20]                   @ 4-byte Reload
	ldr	r2, [sp, #32]                   @ 4-byte Reload
	adcs	r2, r1
	mov	r1, r2
	add	sp, #420
	pop	{r4, r5, r6, r7, pc}
.Lgcm_v6m_BB24_41:
	ldr	r5, [sp, #40]                   @ 4-byte Reload
	ldr	r7, [sp, #28]                   @ 4-byte Reload
	b	.Lgcm_v6m_BB24_28
.Lgcm_v6m_func_end24:
	.size	gcm_v6m.aes_ctr.add_in_batches.add_next.1, .Lgcm_v6m_func_end24-gcm_v6m.aes_ctr.add_in_batches.add_next.1
	.cantunwind
	.fnend
                                        @ -- End function
	.section	.text.gcm_v6m.aes_cipher.zeroize.stack.wipe_stack.2032,"ax",%progbits
	.p2align	2                               @ -- Begin function aes_cipher::zeroize::stack::wipe_stack::<=2032>
	.type	gcm_v6m.aes_cipher.zeroize.stack.wipe_stack.2032,%function
	.code	16
	.thumb_func
gcm_v6m.aes_cipher.zeroize.stack.wipe_stack.2032: @ @gcm_v6m.aes_cipher.zeroize.stack.wipe_stack.2032
	.fnstart
@ %bb.0:                                @ %start
	.save	{r4, r5, r6, lr}
	push	{r4, r5, r6, lr}
	ldr	r6, .Lgcm_v6m_CPI25_0
	.pad	#2040
	add	sp, r6
	movs	r0, #127
	lsls	r2, r0, #4
	add	r0, sp, #8
	movs	r4, #0
	mov	r1, r4
	bl	memset
	str	r4, [sp, #4]
	str	r4, [sp]
	@APP
	@NO_APP
	ldr	r1, [sp, #4]
	lsls	r2, r1, #28
	ldr	r0, [sp]
	lsrs	r3, r0, #4
	adds	r2, r3, r2
	@APP
	@NO_APP
	lsrs	r1, r1, #4
	subs	r2, #127
	sbcs	r1, r4
	bhs	.Lgcm_v6m_BB25_2
@ %bb.1:                                @ %then.1
	add	r1, sp, #8
	ldrb	r0, [r1, r0]
	@APP
	@NO_APP
	ldr	r1, [sp, #4]
	ldr	r1, [sp]
	str	r4, [sp, #4]
	str	r0, [sp]
	@APP
	@NO_APP
.Lgcm_v6m_BB25_2:                               @ %common.ret
	ldr	r6, .Lgcm_v6m_CPI25_1
	add	sp, r6
	pop	{r4, r5, r6, pc}
	.p2align	2
@ %bb.3:
.Lgcm_v6m_CPI25_0:
	.long	4294965256                      @ 0xfffff808
.Lgcm_v6m_CPI25_1:
	.long	2040                            @ 0x7f8
.Lgcm_v6m_func_end25:
	.size	gcm_v6m.aes_cipher.zeroize.stack.wipe_stack.2032, .Lgcm_v6m_func_end25-gcm_v6m.aes_cipher.zeroize.stack.wipe_stack.2032
	.cantunwind
	.fnend
                                        @ -- End function
	.section	.text.gcm_v6m.aes_cipher.zeroize.stack.wipe_stack.1536,"ax",%progbits
	.p2align	2                               @ -- Begin function aes_cipher::zeroize::stack::wipe_stack::<=1536>
	.type	gcm_v6m.aes_cipher.zeroize.stack.wipe_stack.1536,%function
	.code	16
	.thumb_func
gcm_v6m.aes_cipher.zeroize.stack.wipe_stack.1536: @ @gcm_v6m.aes_cipher.zeroize.stack.wipe_stack.1536
	.fnstart
@ %bb.0:                                @ %start
	.save	{r4, r5, r6, lr}
	push	{r4, r5, r6, lr}
	ldr	r6, .Lgcm_v6m_CPI26_0
	.pad	#1544
	add	sp, r6
	movs	r0, #3
	lsls	r2, r0, #9
	add	r0, sp, #8
	movs	r4, #0
	mov	r1, r4
	bl	memset
	str	r4, [sp, #4]
	str	r4, [sp]
	@APP
	@NO_APP
	ldr	r1, [sp, #4]
	lsls	r2, r1, #23
	ldr	r0, [sp]
	lsrs	r3, r0, #9
	adds	r2, r3, r2
	@APP
	@NO_APP
	lsrs	r1, r1, #9
	subs	r2, r2, #3
	sbcs	r1, r4
	bhs	.Lgcm_v6m_BB26_2
@ %bb.1:                                @ %then.1
	add	r1, sp, #8
	ldrb	r0, [r1, r0]
	@APP
	@NO_APP
	ldr	r1, [sp, #4]
	ldr	r1, [sp]
	str	r4, [sp, #4]
	str	r0, [sp]
	@APP
	@NO_APP
.Lgcm_v6m_BB26_2:                               @ %common.ret
	ldr	r6, .Lgcm_v6m_CPI26_1
	add	sp, r6
	pop	{r4, r5, r6, pc}
	.p2align	2
@ %bb.3:
.Lgcm_v6m_CPI26_0:
	.long	4294965752                      @ 0xfffff9f8
.Lgcm_v6m_CPI26_1:
	.long	1544                            @ 0x608
.Lgcm_v6m_func_end26:
	.size	gcm_v6m.aes_cipher.zeroize.stack.wipe_stack.1536, .Lgcm_v6m_func_end26-gcm_v6m.aes_cipher.zeroize.stack.wipe_stack.1536
	.cantunwind
	.fnend
                                        @ -- End function
	.section	.text.gcm_v6m.gcm_c.whole.fotsgure_gcm_seal,"ax",%progbits
	.p2align	2                               @ -- Begin function gcm_c::whole::fotsgure_gcm_seal
	.type	gcm_v6m.gcm_c.whole.fotsgure_gcm_seal,%function
	.code	16
	.thumb_func
gcm_v6m.gcm_c.whole.fotsgure_gcm_seal:      @ @gcm_v6m.gcm_c.whole.fotsgure_gcm_seal
	.fnstart
@ %bb.0:                                @ %start
	.save	{r4, r5, r6, r7, lr}
	push	{r4, r5, r6, r7, lr}
	.pad	#124
	sub	sp, #124
	mov	r4, r2
	orrs	r4, r3
	beq	.Lgcm_v6m_BB27_5
@ %bb.1:                                @ %after.11.i
	ldr	r5, [r0]
	mov	r6, r5
	subs	r6, #16
	movs	r4, #2
	cmp	r6, #16
	bhi	.Lgcm_v6m_BB27_4
@ %bb.2:                                @ %after.11.i
	movs	r7, #1
	lsls	r7, r6
	ldr	r6, .Lgcm_v6m_CPI27_0
	tst	r7, r6
	beq	.Lgcm_v6m_BB27_4
@ %bb.3:                                @ %join.3
	ldr	r4, [sp, #172]
	str	r4, [sp, #36]                   @ 4-byte Spill
	ldr	r4, [sp, #168]
	str	r4, [sp, #60]                   @ 4-byte Spill
	ldr	r4, [sp, #156]
	str	r4, [sp, #48]                   @ 4-byte Spill
	ldr	r4, [sp, #152]
	str	r4, [sp, #40]                   @ 4-byte Spill
	ldr	r4, [sp, #176]
	str	r4, [sp, #52]                   @ 4-byte Spill
	ldr	r4, [sp, #160]
	str	r4, [sp, #56]                   @ 4-byte Spill
	ldr	r4, [sp, #144]
	str	r4, [sp, #44]                   @ 4-byte Spill
	movs	r4, #0
	str	r4, [sp, #100]
	str	r4, [sp, #84]
	adds	r6, r0, #4
	str	r6, [sp, #80]
	movs	r6, #121
	lsls	r6, r6, #2
	adds	r0, r0, r6
	lsrs	r6, r5, #31
	lsls	r5, r5, #1
	adds	r5, #56
	str	r5, [sp, #88]
	str	r0, [sp, #96]
	adcs	r6, r4
	str	r6, [sp, #92]
	add	r7, sp, #108
	str	r7, [sp]
	add	r5, sp, #80
	mov	r0, r5
	bl	gcm_v6m.gcm.mode.BorrowedGcm.put_pre_counter
	ldr	r0, [sp, #60]                   @ 4-byte Reload
	str	r0, [sp, #8]
	ldr	r6, [sp, #36]                   @ 4-byte Reload
	str	r6, [sp, #12]
	ldr	r0, [sp, #56]                   @ 4-byte Reload
	str	r0, [sp]
	movs	r2, #16
	str	r2, [sp, #32]                   @ 4-byte Spill
	mov	r0, r5
	mov	r1, r7
	mov	r3, r4
	bl	gcm_v6m.gcm.gctr.add_gctr
	add	r1, sp, #64
	ldr	r0, [sp, #60]                   @ 4-byte Reload
	str	r0, [sp, #16]
	str	r6, [sp, #20]
	str	r1, [sp, #24]
	mov	r6, r1
	ldr	r0, [sp, #40]                   @ 4-byte Reload
	str	r0, [sp]
	ldr	r0, [sp, #48]                   @ 4-byte Reload
	str	r0, [sp, #4]
	ldr	r0, [sp, #56]                   @ 4-byte Reload
	str	r0, [sp, #8]
	mov	r0, r5
	mov	r1, r7
	ldr	r2, [sp, #44]                   @ 4-byte Reload
	bl	gcm_v6m.gcm.mode.BorrowedGcm.put_tag
	mov	r0, r7
	bl	gcm_v6m.aes_cipher.zeroize.elements.zeroize_elements.3
	bl	gcm_v6m.aes_cipher.zeroize.stack.wipe_stack.1536
	ldr	r0, [sp, #52]                   @ 4-byte Reload
	mov	r1, r6
	ldr	r2, [sp, #32]                   @ 4-byte Reload
	bl	memcpy
.Lgcm_v6m_BB27_4:                               @ %common.ret
	mov	r0, r4
	add	sp, #124
	pop	{r4, r5, r6, r7, pc}
.Lgcm_v6m_BB27_5:
	movs	r4, #3
	mov	r0, r4
	add	sp, #124
	pop	{r4, r5, r6, r7, pc}
	.p2align	2
@ %bb.6:
.Lgcm_v6m_CPI27_0:
	.long	65793                           @ 0x10101
.Lgcm_v6m_func_end27:
	.size	gcm_v6m.gcm_c.whole.fotsgure_gcm_seal, .Lgcm_v6m_func_end27-gcm_v6m.gcm_c.whole.fotsgure_gcm_seal
	.cantunwind
	.fnend
                                        @ -- End function
	.section	.text.gcm_v6m.gcm_c.whole_to.copy,"ax",%progbits
	.p2align	1                               @ -- Begin function gcm_c::whole_to::copy
	.type	gcm_v6m.gcm_c.whole_to.copy,%function
	.code	16
	.thumb_func
gcm_v6m.gcm_c.whole_to.copy:                @ @gcm_v6m.gcm_c.whole_to.copy
	.fnstart
@ %bb.0:                                @ %start
	.save	{r4, r5, r6, r7, lr}
	push	{r4, r5, r6, r7, lr}
	.pad	#12
	sub	sp, #12
	mov	r1, r0
	movs	r4, #0
	ldr	r0, [sp, #32]
	subs	r5, r0, r1
	mov	r6, r4
	sbcs	r6, r4
	subs	r5, r5, r2
	sbcs	r6, r3
	bhs	.Lgcm_v6m_BB28_9
@ %bb.1:                                @ %join.7.i.i.i.i.i.i.preheader
	movs	r6, #3
	mov	r5, r2
	str	r6, [sp, #8]                    @ 4-byte Spill
	ands	r5, r6
	subs	r7, r2, #4
	sbcs	r3, r4
	blo	.Lgcm_v6m_BB28_5
@ %bb.2:                                @ %join.7.i.i.i.i.i.i.preheader.new
	str	r5, [sp, #4]                    @ 4-byte Spill
	ldr	r3, [sp, #8]                    @ 4-byte Reload
	bics	r2, r3
	movs	r3, #0
	mov	r4, r3
	mov	r7, r3
.Lgcm_v6m_BB28_3:                               @ %join.7.i.i.i.i.i.i
                                        @ =>This Inner Loop Header: Depth=1
	ldrb	r5, [r1, r4]
	strb	r5, [r0, r4]
	movs	r5, #1
	orrs	r5, r4
	ldrb	r6, [r1, r5]
	strb	r6, [r0, r5]
	movs	r5, #2
	orrs	r5, r4
	ldrb	r6, [r1, r5]
	strb	r6, [r0, r5]
	mov	r5, r4
	ldr	r6, [sp, #8]                    @ 4-byte Reload
	orrs	r5, r6
	ldrb	r6, [r1, r5]
	strb	r6, [r0, r5]
	adds	r4, r4, #4
	adcs	r7, r3
	mov	r5, r4
	eors	r5, r2
	orrs	r5, r7
	bne	.Lgcm_v6m_BB28_3
@ %bb.4:                                @ %"core::slice::edits::slice+T::copy_from_slice::<i8,20'core::clone::U8Clone{}>.exit.loopexit.unr-lcssa"
	ldr	r5, [sp, #4]                    @ 4-byte Reload
	cmp	r5, #0
	beq	.Lgcm_v6m_BB28_8
.Lgcm_v6m_BB28_5:                               @ %join.7.i.i.i.i.i.i.epil.preheader
	ldrb	r2, [r1, r4]
	strb	r2, [r0, r4]
	cmp	r5, #1
	beq	.Lgcm_v6m_BB28_8
@ %bb.6:                                @ %join.7.i.i.i.i.i.i.epil.1
	adds	r2, r4, #1
	ldrb	r3, [r1, r2]
	strb	r3, [r0, r2]
	cmp	r5, #2
	beq	.Lgcm_v6m_BB28_8
@ %bb.7:                                @ %join.7.i.i.i.i.i.i.epil.2
	adds	r2, r4, #2
	ldrb	r1, [r1, r2]
	strb	r1, [r0, r2]
.Lgcm_v6m_BB28_8:                               @ %"core::slice::edits::slice+T::copy_from_slice::<i8,20'core::clone::U8Clone{}>.exit"
	add	sp, #12
	pop	{r4, r5, r6, r7, pc}
.Lgcm_v6m_BB28_9:                               @ %apart.2.i.i.i.i.i.i
	bl	memmove
	add	sp, #12
	pop	{r4, r5, r6, r7, pc}
.Lgcm_v6m_func_end28:
	.size	gcm_v6m.gcm_c.whole_to.copy, .Lgcm_v6m_func_end28-gcm_v6m.gcm_c.whole_to.copy
	.cantunwind
	.fnend
                                        @ -- End function
	.section	.text.gcm_v6m.gcm_siv.course.open_in,"ax",%progbits
	.p2align	1                               @ -- Begin function gcm_siv::course::open_in::<#a4ece9b7a9859b66>
	.type	gcm_v6m.gcm_siv.course.open_in,%function
	.code	16
	.thumb_func
gcm_v6m.gcm_siv.course.open_in: @ @gcm_v6m.gcm_siv.course.open_in
	.fnstart
@ %bb.0:                                @ %start
	.save	{r4, r5, r6, r7, lr}
	push	{r4, r5, r6, r7, lr}
	.pad	#508
	sub	sp, #508
	.pad	#40
	sub	sp, #40
	add	r1, sp, #32
	stm	r1!, {r0, r2, r3}               @ 12-byte Folded Spill
	add	r7, sp, #48
	adds	r0, r7, #4
	str	r0, [sp, #44]                   @ 4-byte Spill
	movs	r1, #15
	lsls	r2, r1, #5
	movs	r5, #0
	mov	r1, r5
	bl	memset
	str	r5, [sp, #48]
	add	r6, sp, #532
	str	r6, [sp, #8]
	str	r7, [sp, #4]
	ldr	r4, [sp, #568]
	str	r4, [sp]
	add	r3, sp, #32
	ldm	r3, {r0, r2, r3}                @ 12-byte Folded Reload
	bl	gcm_v6m.gcm_siv.keys.derive_and_prepare
	ldr	r0, [sp, #600]
	str	r0, [sp, #24]
	ldr	r0, [sp, #596]
	str	r0, [sp, #20]
	ldr	r0, [sp, #592]
	str	r0, [sp, #16]
	ldr	r0, [sp, #584]
	str	r0, [sp, #8]
	ldr	r0, [sp, #580]
	str	r0, [sp, #4]
	ldr	r0, [sp, #576]
	str	r0, [sp]
	ldr	r3, [sp, #572]
	mov	r0, r7
	mov	r1, r6
	mov	r2, r4
	bl	gcm_v6m.gcm_siv.message.open
	mov	r4, r0
	str	r5, [sp, #48]
	ldr	r0, [sp, #44]                   @ 4-byte Reload
	bl	gcm_v6m.aes_cipher.zeroize.elements.zeroize_elements.1
	mov	r0, r6
	bl	gcm_v6m.aes_cipher.zeroize.elements.zeroize_elements.2
	bl	gcm_v6m.aes_cipher.zeroize.stack.wipe_stack.2816
	mov	r0, r4
	add	sp, #508
	add	sp, #40
	pop	{r4, r5, r6, r7, pc}
.Lgcm_v6m_func_end29:
	.size	gcm_v6m.gcm_siv.course.open_in, .Lgcm_v6m_func_end29-gcm_v6m.gcm_siv.course.open_in
	.cantunwind
	.fnend
                                        @ -- End function
	.section	.text.gcm_v6m.gcm_siv.keys.derive_and_prepare,"ax",%progbits
	.p2align	1                               @ -- Begin function gcm_siv::keys::derive_and_prepare::<#a4ece9b7a9859b66>
	.type	gcm_v6m.gcm_siv.keys.derive_and_prepare,%function
	.code	16
	.thumb_func
gcm_v6m.gcm_siv.keys.derive_and_prepare: @ @gcm_v6m.gcm_siv.keys.derive_and_prepare
	.fnstart
@ %bb.0:                                @ %start
	.save	{r4, r5, r6, r7, lr}
	push	{r4, r5, r6, r7, lr}
	.pad	#164
	sub	sp, #164
	str	r3, [sp, #60]                   @ 4-byte Spill
	str	r2, [sp, #64]                   @ 4-byte Spill
	mov	r6, r0
	add	r4, sp, #68
	adds	r0, r4, #4
	ldr	r7, [sp, #184]
	movs	r5, #12
	mov	r1, r7
	mov	r2, r5
	bl	memcpy
	mov	r0, r4
	adds	r0, #20
	mov	r1, r7
	mov	r2, r5
	bl	memcpy
	mov	r0, r4
	adds	r0, #36
	mov	r1, r7
	mov	r2, r5
	bl	memcpy
	mov	r0, r4
	adds	r0, #52
	mov	r1, r7
	mov	r2, r5
	bl	memcpy
	mov	r0, r4
	adds	r0, #68
	mov	r1, r7
	mov	r2, r5
	bl	memcpy
	mov	r0, r4
	adds	r0, #84
	mov	r1, r7
	mov	r2, r5
	bl	memcpy
	movs	r0, #5
	str	r0, [sp, #148]
	movs	r0, #4
	str	r0, [sp, #132]
	movs	r0, #3
	str	r0, [sp, #116]
	movs	r0, #2
	str	r0, [sp, #100]
	movs	r3, #0
	str	r3, [sp, #56]                   @ 4-byte Spill
	str	r3, [sp, #68]
	ldr	r2, [sp, #60]                   @ 4-byte Reload
	lsls	r0, r2, #29
	ldr	r1, [sp, #64]                   @ 4-byte Reload
	lsrs	r1, r1, #3
	adds	r1, r1, r0
	lsrs	r0, r2, #3
	adds	r1, r1, #2
	str	r1, [sp, #24]                   @ 4-byte Spill
	adcs	r0, r3
	movs	r1, #1
	str	r1, [sp, #52]                   @ 4-byte Spill
	str	r1, [sp, #84]
	ldrb	r1, [r6, #15]
	str	r1, [sp, #48]                   @ 4-byte Spill
	ldrb	r1, [r6, #14]
	str	r1, [sp, #44]                   @ 4-byte Spill
	ldrb	r1, [r6, #12]
	str	r1, [sp, #40]                   @ 4-byte Spill
	ldrb	r1, [r6, #13]
	str	r1, [sp, #36]                   @ 4-byte Spill
	ldrb	r1, [r6, #11]
	str	r1, [sp, #32]                   @ 4-byte Spill
	ldrb	r1, [r6, #10]
	str	r1, [sp, #28]                   @ 4-byte Spill
	ldrb	r1, [r6, #8]
	str	r1, [sp, #20]                   @ 4-byte Spill
	ldrb	r5, [r6, #9]
	ldrb	r3, [r6, #3]
	ldrb	r2, [r6, #2]
	ldrb	r1, [r6]
	ldrb	r6, [r6, #1]
	ldr	r7, [sp, #24]                   @ 4-byte Reload
	str	r7, [sp, #8]
	str	r0, [sp, #12]
	str	r4, [sp]
	lsls	r0, r6, #8
	adds	r0, r0, r1
	lsls	r1, r2, #16
	lsls	r2, r3, #24
	adds	r1, r2, r1
	adds	r0, r1, r0
	lsls	r1, r5, #8
	ldr	r2, [sp, #20]                   @ 4-byte Reload
	adds	r1, r1, r2
	ldr	r2, [sp, #28]                   @ 4-byte Reload
	lsls	r2, r2, #16
	ldr	r3, [sp, #32]                   @ 4-byte Reload
	lsls	r3, r3, #24
	adds	r2, r3, r2
	adds	r2, r2, r1
	ldr	r1, [sp, #36]                   @ 4-byte Reload
	lsls	r1, r1, #8
	ldr	r3, [sp, #40]                   @ 4-byte Reload
	adds	r1, r1, r3
	ldr	r3, [sp, #44]                   @ 4-byte Reload
	lsls	r3, r3, #16
	ldr	r5, [sp, #48]                   @ 4-byte Reload
	lsls	r5, r5, #24
	adds	r3, r5, r3
	adds	r3, r3, r1
	bl	gcm_v6m.aes_narrow.blocks.process_all_batches
	bl	gcm_v6m.aes_cipher.zeroize.stack.wipe_stack.1024
	ldr	r0, [sp, #88]
	lsrs	r2, r0, #17
	ldr	r1, [sp, #192]
	strb	r2, [r1, #1]
	lsrs	r2, r0, #9
	strb	r2, [r1, #2]
	lsrs	r2, r0, #1
	str	r2, [sp, #48]                   @ 4-byte Spill
	strb	r2, [r1, #3]
	ldr	r2, [sp, #84]
	lsrs	r5, r2, #17
	strb	r5, [r1, #5]
	lsrs	r5, r2, #9
	strb	r5, [r1, #6]
	lsrs	r5, r2, #1
	strb	r5, [r1, #7]
	ldr	r6, [sp, #68]
	lsrs	r7, r6, #17
	strb	r7, [r1, #13]
	lsrs	r7, r6, #9
	strb	r7, [r1, #14]
	lsrs	r7, r6, #1
	strb	r7, [r1, #15]
	lsls	r3, r0, #31
	adds	r3, r5, r3
	lsrs	r3, r3, #24
	strb	r3, [r1, #4]
	ldrb	r3, [r4, #4]
	lsls	r5, r3, #31
	adds	r5, r7, r5
	lsrs	r5, r5, #24
	strb	r5, [r1, #12]
	ldrb	r5, [r4, #5]
	lsls	r5, r5, #8
	adds	r3, r3, r5
	ldrb	r5, [r4, #6]
	lsls	r5, r5, #16
	adds	r3, r3, r5
	lsrs	r5, r3, #9
	strb	r5, [r1, #10]
	ldr	r5, [sp, #52]                   @ 4-byte Reload
	ands	r6, r5
	rsbs	r5, r6, #0
	movs	r6, #225
	lsls	r6, r6, #24
	ands	r6, r5
	ldr	r5, [sp, #48]                   @ 4-byte Reload
	eors	r6, r5
	lsrs	r5, r6, #24
	strb	r5, [r1]
	ldrb	r5, [r4, #7]
	lsls	r5, r5, #24
	adds	r3, r3, r5
	lsrs	r5, r3, #17
	strb	r5, [r1, #9]
	lsrs	r3, r3, #1
	strb	r3, [r1, #11]
	lsls	r5, r2, #31
	adds	r3, r3, r5
	lsrs	r3, r3, #24
	strb	r3, [r1, #8]
	str	r0, [sp, #80]
	str	r2, [sp, #76]
	ldr	r0, [sp, #100]
	ldr	r1, [sp, #132]
	str	r1, [sp, #100]
	ldr	r1, [sp, #104]
	ldr	r2, [sp, #136]
	str	r2, [sp, #104]
	ldr	r2, [sp, #120]
	str	r2, [sp, #96]
	ldr	r2, [sp, #116]
	add	r3, sp, #84
	stm	r3!, {r0, r1, r2}
	ldr	r0, [sp, #152]
	str	r0, [sp, #112]
	ldr	r0, [sp, #148]
	str	r0, [sp, #108]
	ldr	r7, [sp, #188]
	adds	r6, r7, #4
	movs	r0, #15
	lsls	r2, r0, #5
	mov	r0, r6
	ldr	r1, [sp, #56]                   @ 4-byte Reload
	bl	memset
	movs	r5, #16
	ldr	r0, [sp, #64]                   @ 4-byte Reload
	eors	r0, r5
	ldr	r1, [sp, #60]                   @ 4-byte Reload
	orrs	r0, r1
	adds	r4, #16
	cmp	r0, #0
	beq	.Lgcm_v6m_BB30_2
@ %bb.1:                                @ %else.2.i
	movs	r5, #32
.Lgcm_v6m_BB30_2:                               @ %"gcm_siv::keys::set_encryption_key::<#a556ffa628b2ee02>.exit"
	movs	r3, #0
	mov	r0, r6
	mov	r1, r4
	mov	r2, r5
	bl	gcm_v6m.aes_narrow.word_room.expand_words
	bl	gcm_v6m.aes_cipher.zeroize.stack.wipe_stack.768
	str	r5, [r7]
	add	r0, sp, #68
	movs	r2, #6
	movs	r3, #0
	bl	gcm_v6m.aes_cipher.zeroize.elements.zeroize_elements.4
	add	sp, #164
	pop	{r4, r5, r6, r7, pc}
.Lgcm_v6m_func_end30:
	.size	gcm_v6m.gcm_siv.keys.derive_and_prepare, .Lgcm_v6m_func_end30-gcm_v6m.gcm_siv.keys.derive_and_prepare
	.cantunwind
	.fnend
                                        @ -- End function
	.section	.text.gcm_v6m.aes_cipher.zeroize.elements.zeroize_elements.4,"ax",%progbits
	.p2align	1                               @ -- Begin function aes_cipher::zeroize::elements::zeroize_elements::<#82a118249f09cfc6>
	.type	gcm_v6m.aes_cipher.zeroize.elements.zeroize_elements.4,%function
	.code	16
	.thumb_func
gcm_v6m.aes_cipher.zeroize.elements.zeroize_elements.4: @ @gcm_v6m.aes_cipher.zeroize.elements.zeroize_elements.4
	.fnstart
@ %bb.0:                                @ %start
	.save	{r4, r5, r6, r7, lr}
	push	{r4, r5, r6, r7, lr}
	.pad	#28
	sub	sp, #28
	mov	r5, r3
	mov	r6, r2
	mov	r4, r0
	movs	r7, #0
	str	r7, [sp, #20]
	str	r7, [sp, #16]
	@APP
	@NO_APP
	movs	r2, #1
	ldr	r0, [sp, #20]
	ldr	r1, [sp, #16]
	str	r1, [sp, #12]                   @ 4-byte Spill
	subs	r1, r1, r6
	sbcs	r0, r3
	blo	.Lgcm_v6m_BB31_2
@ %bb.1:                                @ %start
	mov	r2, r7
.Lgcm_v6m_BB31_2:                               @ %start
	str	r2, [sp, #8]                    @ 4-byte Spill
	@APP
	@NO_APP
	mov	r0, r7
	bhs	.Lgcm_v6m_BB31_4
@ %bb.3:                                @ %then.1.i8
	ldr	r0, [sp, #12]                   @ 4-byte Reload
	lsls	r0, r0, #4
	ldrb	r0, [r4, r0]
.Lgcm_v6m_BB31_4:                               @ %join.6.i
	str	r0, [sp, #4]                    @ 4-byte Spill
	movs	r2, #16
	mov	r0, r4
	mov	r1, r7
	bl	memset
	subs	r0, r6, #2
	mov	r0, r5
	sbcs	r0, r7
	blo	.Lgcm_v6m_BB31_10
@ %bb.5:                                @ %join.6.i.1
	mov	r0, r4
	adds	r0, #16
	movs	r7, #0
	movs	r2, #16
	mov	r1, r7
	bl	memset
	movs	r0, #2
	eors	r0, r6
	orrs	r0, r5
	beq	.Lgcm_v6m_BB31_10
@ %bb.6:                                @ %join.6.i.2
	mov	r0, r4
	adds	r0, #32
	movs	r2, #16
	mov	r1, r7
	bl	memset
	subs	r0, r6, #4
	mov	r0, r5
	sbcs	r0, r7
	blo	.Lgcm_v6m_BB31_10
@ %bb.7:                                @ %join.6.i.3
	mov	r0, r4
	adds	r0, #48
	movs	r7, #0
	movs	r2, #16
	mov	r1, r7
	bl	memset
	movs	r0, #4
	eors	r0, r6
	orrs	r0, r5
	beq	.Lgcm_v6m_BB31_10
@ %bb.8:                                @ %join.6.i.4
	mov	r0, r4
	adds	r0, #64
	movs	r2, #16
	mov	r1, r7
	bl	memset
	subs	r0, r6, #6
	sbcs	r5, r7
	blo	.Lgcm_v6m_BB31_10
@ %bb.9:                                @ %join.6.i.5
	mov	r0, r4
	adds	r0, #80
	movs	r1, #0
	movs	r2, #16
	bl	memset
.Lgcm_v6m_BB31_10:                              @ %"aes_cipher::zeroize::overwrite::<#8c2be25e1e7027ab>.exit"
	movs	r0, #0
	ldr	r1, [sp, #8]                    @ 4-byte Reload
	cmp	r1, #0
	mov	r1, r0
	beq	.Lgcm_v6m_BB31_12
@ %bb.11:                               @ %then.1.i
	ldr	r1, [sp, #12]                   @ 4-byte Reload
	lsls	r1, r1, #4
	ldrb	r1, [r4, r1]
	ldr	r2, [sp, #4]                    @ 4-byte Reload
	ands	r1, r2
.Lgcm_v6m_BB31_12:                              @ %"aes_cipher::zeroize::observe::<#aefc49fcc22ee515>.exit"
	@APP
	@NO_APP
	ldr	r2, [sp, #20]
	ldr	r2, [sp, #16]
	str	r0, [sp, #20]
	str	r1, [sp, #16]
	@APP
	@NO_APP
	add	sp, #28
	pop	{r4, r5, r6, r7, pc}
.Lgcm_v6m_func_end31:
	.size	gcm_v6m.aes_cipher.zeroize.elements.zeroize_elements.4, .Lgcm_v6m_func_end31-gcm_v6m.aes_cipher.zeroize.elements.zeroize_elements.4
	.cantunwind
	.fnend
                                        @ -- End function
	.section	.text.gcm_v6m.gcm_siv.message.open,"ax",%progbits
	.p2align	1                               @ -- Begin function gcm_siv::message::open::<#bc93ff5f0cc4cd41>
	.type	gcm_v6m.gcm_siv.message.open,%function
	.code	16
	.thumb_func
gcm_v6m.gcm_siv.message.open: @ @gcm_v6m.gcm_siv.message.open
	.fnstart
@ %bb.0:                                @ %start
	.save	{r4, r5, r6, r7, lr}
	push	{r4, r5, r6, r7, lr}
	.pad	#68
	sub	sp, #68
	add	r4, sp, #36
	stm	r4!, {r1, r2, r3}               @ 12-byte Folded Spill
	str	r0, [sp, #48]                   @ 4-byte Spill
	ldr	r6, [sp, #108]
	str	r6, [sp, #4]
	ldr	r7, [sp, #104]
	str	r7, [sp]
	ldr	r4, [sp, #112]
	ldr	r5, [sp, #96]
	mov	r1, r4
	mov	r2, r5
	bl	gcm_v6m.gcm_siv.message.process_text
	add	r0, sp, #52
	str	r7, [sp, #28]                   @ 4-byte Spill
	str	r7, [sp, #16]
	str	r6, [sp, #32]                   @ 4-byte Spill
	str	r6, [sp, #20]
	mov	r6, r5
	mov	r5, r4
	str	r0, [sp, #24]
	mov	r4, r0
	str	r6, [sp, #8]
	ldr	r0, [sp, #92]
	str	r0, [sp, #4]
	ldr	r0, [sp, #88]
	str	r0, [sp]
	ldr	r0, [sp, #48]                   @ 4-byte Reload
	add	r3, sp, #36
	ldm	r3, {r1, r2, r3}                @ 12-byte Folded Reload
	bl	gcm_v6m.gcm_siv.message.put_tag
	mov	r0, r5
	mov	r1, r4
	bl	gcm_v6m.aes_cipher.blocks.difference
	mov	r7, r0
	movs	r2, #1
	movs	r3, #0
	mov	r0, r4
	bl	gcm_v6m.aes_cipher.zeroize.elements.zeroize_elements.4
	cmp	r7, #0
	beq	.Lgcm_v6m_BB32_2
@ %bb.1:                                @ %join.3
	ldr	r0, [sp, #28]                   @ 4-byte Reload
	str	r0, [sp]
	ldr	r0, [sp, #32]                   @ 4-byte Reload
	str	r0, [sp, #4]
	ldr	r0, [sp, #48]                   @ 4-byte Reload
	mov	r1, r5
	mov	r2, r6
	bl	gcm_v6m.gcm_siv.message.process_text
.Lgcm_v6m_BB32_2:                               @ %common.ret
	rsbs	r0, r7, #0
	adcs	r0, r7
	add	sp, #68
	pop	{r4, r5, r6, r7, pc}
.Lgcm_v6m_func_end32:
	.size	gcm_v6m.gcm_siv.message.open, .Lgcm_v6m_func_end32-gcm_v6m.gcm_siv.message.open
	.cantunwind
	.fnend
                                        @ -- End function
	.section	.text.gcm_v6m.gcm_siv.message.put_tag,"ax",%progbits
	.p2align	1                               @ -- Begin function gcm_siv::message::put_tag::<#bc93ff5f0cc4cd41>
	.type	gcm_v6m.gcm_siv.message.put_tag,%function
	.code	16
	.thumb_func
gcm_v6m.gcm_siv.message.put_tag: @ @gcm_v6m.gcm_siv.message.put_tag
	.fnstart
@ %bb.0:                                @ %start
	.save	{r4, r5, r6, r7, lr}
	push	{r4, r5, r6, r7, lr}
	.setfp	r7, sp, #12
	add	r7, sp, #12
	.pad	#108
	sub	sp, #108
	mov	r4, sp
	lsrs	r4, r4, #4
	lsls	r4, r4, #4
	mov	sp, r4
	mov	r6, r2
	str	r0, [sp, #76]                   @ 4-byte Spill
	ldrb	r0, [r1]
	lsls	r0, r0, #24
	ldrb	r2, [r1, #1]
	lsls	r2, r2, #16
	adds	r0, r2, r0
	ldrb	r2, [r1, #2]
	lsls	r2, r2, #8
	adds	r0, r0, r2
	ldrb	r2, [r1, #3]
	adds	r0, r0, r2
	str	r0, [sp, #68]                   @ 4-byte Spill
	str	r0, [sp, #92]
	ldrb	r0, [r1, #5]
	lsls	r0, r0, #16
	ldrb	r2, [r1, #4]
	lsls	r2, r2, #24
	adds	r0, r2, r0
	ldrb	r2, [r1, #6]
	lsls	r2, r2, #8
	adds	r0, r0, r2
	ldrb	r2, [r1, #7]
	adds	r0, r0, r2
	str	r0, [sp, #64]                   @ 4-byte Spill
	str	r0, [sp, #88]
	ldrb	r0, [r1, #8]
	lsls	r0, r0, #24
	ldrb	r2, [r1, #9]
	lsls	r2, r2, #16
	adds	r0, r2, r0
	ldrb	r2, [r1, #10]
	lsls	r2, r2, #8
	adds	r0, r0, r2
	ldrb	r2, [r1, #11]
	adds	r0, r0, r2
	str	r0, [sp, #60]                   @ 4-byte Spill
	str	r0, [sp, #84]
	ldrb	r0, [r1, #13]
	lsls	r0, r0, #16
	ldrb	r2, [r1, #12]
	lsls	r2, r2, #24
	adds	r0, r2, r0
	ldrb	r2, [r1, #14]
	lsls	r2, r2, #8
	adds	r0, r0, r2
	ldrb	r1, [r1, #15]
	adds	r0, r0, r1
	str	r0, [sp, #56]                   @ 4-byte Spill
	str	r0, [sp, #80]
	ldr	r0, [r7, #12]
	str	r0, [sp, #20]
	ldr	r0, [r7, #8]
	str	r0, [sp, #52]                   @ 4-byte Spill
	str	r0, [sp, #16]
	movs	r2, #0
	str	r2, [sp, #72]                   @ 4-byte Spill
	str	r2, [sp]
	str	r2, [sp, #4]
	str	r3, [sp, #8]
	add	r5, sp, #80
	mov	r0, r5
	mov	r3, r2
	bl	gcm_v6m.gcm.single_blocks.hash_singly.2
	mov	r4, r0
	ldr	r0, [r7, #28]
	str	r0, [sp, #20]
	ldr	r0, [r7, #24]
	str	r0, [sp, #48]                   @ 4-byte Spill
	str	r0, [sp, #16]
	ldr	r0, [r7, #16]
	str	r2, [sp]
	str	r3, [sp, #4]
	str	r0, [sp, #8]
	mov	r0, r5
	mov	r2, r4
	mov	r3, r1
	bl	gcm_v6m.gcm.single_blocks.hash_singly.2
	mov	r4, r0
	ldr	r0, [sp, #56]                   @ 4-byte Reload
	str	r0, [sp]
	ldr	r5, [sp, #60]                   @ 4-byte Reload
	str	r5, [sp, #4]
	ldr	r5, [sp, #64]                   @ 4-byte Reload
	str	r5, [sp, #8]
	ldr	r5, [sp, #68]                   @ 4-byte Reload
	str	r5, [sp, #12]
	ldr	r0, [sp, #52]                   @ 4-byte Reload
	lsls	r5, r0, #3
	eors	r4, r5
	str	r4, [sp, #68]                   @ 4-byte Spill
	lsrs	r5, r0, #29
	eors	r1, r5
	ldr	r0, [sp, #48]                   @ 4-byte Reload
	lsls	r5, r0, #3
	eors	r2, r5
	lsrs	r4, r0, #29
	eors	r3, r4
	ldr	r0, [sp, #68]                   @ 4-byte Reload
	bl	gcm_v6m.gcm.bitwise.product_bitwise
	str	r0, [sp, #60]                   @ 4-byte Spill
	lsls	r0, r3, #1
	lsrs	r0, r0, #25
	str	r0, [sp, #28]                   @ 4-byte Spill
	ldrb	r0, [r6]
	str	r0, [sp, #68]                   @ 4-byte Spill
	ldrb	r0, [r6, #1]
	str	r0, [sp, #64]                   @ 4-byte Spill
	ldrb	r0, [r6, #2]
	str	r0, [sp, #56]                   @ 4-byte Spill
	ldrb	r0, [r6, #3]
	str	r0, [sp, #52]                   @ 4-byte Spill
	ldrb	r4, [r6, #4]
	ldrb	r0, [r6, #5]
	str	r0, [sp, #48]                   @ 4-byte Spill
	ldrb	r0, [r6, #6]
	str	r0, [sp, #44]                   @ 4-byte Spill
	ldrb	r0, [r6, #7]
	str	r0, [sp, #40]                   @ 4-byte Spill
	ldrb	r0, [r6, #8]
	ldrb	r5, [r6, #9]
	str	r5, [sp, #36]                   @ 4-byte Spill
	ldrb	r5, [r6, #10]
	str	r5, [sp, #32]                   @ 4-byte Spill
	ldrb	r5, [r6, #11]
	str	r5, [sp, #24]                   @ 4-byte Spill
	ldr	r6, [r7, #32]
	ldr	r5, [sp, #28]                   @ 4-byte Reload
	strb	r5, [r6, #15]
	lsrs	r5, r3, #16
	strb	r5, [r6, #14]
	lsrs	r5, r3, #8
	strb	r5, [r6, #13]
	strb	r3, [r6, #12]
	lsrs	r3, r2, #24
	ldr	r5, [sp, #24]                   @ 4-byte Reload
	eors	r3, r5
	strb	r3, [r6, #11]
	lsrs	r3, r2, #16
	ldr	r5, [sp, #32]                   @ 4-byte Reload
	eors	r3, r5
	strb	r3, [r6, #10]
	lsrs	r3, r2, #8
	ldr	r5, [sp, #36]                   @ 4-byte Reload
	eors	r3, r5
	strb	r3, [r6, #9]
	eors	r0, r2
	strb	r0, [r6, #8]
	lsrs	r0, r1, #24
	ldr	r2, [sp, #40]                   @ 4-byte Reload
	eors	r0, r2
	strb	r0, [r6, #7]
	lsrs	r0, r1, #16
	ldr	r2, [sp, #44]                   @ 4-byte Reload
	eors	r0, r2
	strb	r0, [r6, #6]
	lsrs	r0, r1, #8
	ldr	r2, [sp, #48]                   @ 4-byte Reload
	eors	r0, r2
	strb	r0, [r6, #5]
	eors	r4, r1
	strb	r4, [r6, #4]
	ldr	r1, [sp, #60]                   @ 4-byte Reload
	lsrs	r0, r1, #24
	ldr	r2, [sp, #52]                   @ 4-byte Reload
	eors	r0, r2
	strb	r0, [r6, #3]
	lsrs	r0, r1, #16
	ldr	r2, [sp, #56]                   @ 4-byte Reload
	eors	r0, r2
	strb	r0, [r6, #2]
	lsrs	r0, r1, #8
	ldr	r2, [sp, #64]                   @ 4-byte Reload
	eors	r0, r2
	strb	r0, [r6, #1]
	ldr	r0, [sp, #68]                   @ 4-byte Reload
	eors	r0, r1
	strb	r0, [r6]
	ldr	r0, [sp, #76]                   @ 4-byte Reload
	ldm	r0!, {r2}
	movs	r1, #1
	str	r1, [sp, #8]
	ldr	r1, [sp, #72]                   @ 4-byte Reload
	str	r1, [sp, #12]
	str	r6, [sp]
	lsrs	r3, r2, #31
	lsls	r2, r2, #1
	adds	r2, #56
	adcs	r3, r1
	bl	gcm_v6m.aes_narrow.blocks.process_all_batches
	bl	gcm_v6m.aes_cipher.zeroize.stack.wipe_stack.1024
	subs	r6, r7, #7
	subs	r6, #5
	mov	sp, r6
	pop	{r4, r5, r6, r7, pc}
.Lgcm_v6m_func_end33:
	.size	gcm_v6m.gcm_siv.message.put_tag, .Lgcm_v6m_func_end33-gcm_v6m.gcm_siv.message.put_tag
	.cantunwind
	.fnend
                                        @ -- End function
	.section	.text.gcm_v6m.gcm.single_blocks.hash_singly.2,"ax",%progbits
	.p2align	1                               @ -- Begin function gcm::single_blocks::hash_singly::<#4042f4b97f1aa5e1>
	.type	gcm_v6m.gcm.single_blocks.hash_singly.2,%function
	.code	16
	.thumb_func
gcm_v6m.gcm.single_blocks.hash_singly.2: @ @gcm_v6m.gcm.single_blocks.hash_singly.2
	.fnstart
@ %bb.0:                                @ %start
	.save	{r4, r5, r6, r7, lr}
	push	{r4, r5, r6, r7, lr}
	.pad	#132
	sub	sp, #132
	mov	r1, r3
	str	r2, [sp, #92]                   @ 4-byte Spill
	ldr	r3, [sp, #172]
	lsls	r4, r3, #28
	ldr	r2, [sp, #168]
	str	r2, [sp, #20]                   @ 4-byte Spill
	lsrs	r2, r2, #4
	adds	r7, r2, r4
	lsrs	r4, r3, #4
	mov	r2, r7
	orrs	r2, r4
	ldr	r3, [sp, #156]
	ldr	r2, [sp, #152]
	ldr	r5, [sp, #160]
	str	r5, [sp, #112]                  @ 4-byte Spill
	str	r0, [sp, #16]                   @ 4-byte Spill
	beq	.Lgcm_v6m_BB34_3
@ %bb.1:                                @ %join.5.i.lr.ph
	ldr	r5, [r0]
	str	r5, [sp, #44]                   @ 4-byte Spill
	ldr	r5, [r0, #4]
	str	r5, [sp, #40]                   @ 4-byte Spill
	ldr	r5, [r0, #8]
	str	r5, [sp, #36]                   @ 4-byte Spill
	ldr	r0, [r0, #12]
	str	r0, [sp, #32]                   @ 4-byte Spill
	movs	r0, #0
	str	r4, [sp, #24]                   @ 4-byte Spill
	mov	r4, r0
	str	r0, [sp, #28]                   @ 4-byte Spill
	str	r0, [sp, #96]                   @ 4-byte Spill
	ldr	r6, [sp, #92]                   @ 4-byte Reload
	str	r7, [sp, #48]                   @ 4-byte Spill
.Lgcm_v6m_BB34_2:                               @ %join.5.i
                                        @ =>This Inner Loop Header: Depth=1
	add	r0, sp, #100
	stm	r0!, {r1, r2, r3}               @ 12-byte Folded Spill
	lsls	r5, r4, #4
	ldr	r0, [sp, #112]                  @ 4-byte Reload
	adds	r0, r0, r5
	ldrb	r7, [r0, #15]
	str	r7, [sp, #92]                   @ 4-byte Spill
	ldrb	r7, [r0, #14]
	str	r7, [sp, #88]                   @ 4-byte Spill
	ldrb	r7, [r0, #12]
	str	r7, [sp, #84]                   @ 4-byte Spill
	ldrb	r7, [r0, #13]
	str	r7, [sp, #80]                   @ 4-byte Spill
	ldrb	r3, [r0, #11]
	str	r3, [sp, #76]                   @ 4-byte Spill
	ldrb	r3, [r0, #10]
	str	r3, [sp, #72]                   @ 4-byte Spill
	ldrb	r2, [r0, #8]
	str	r2, [sp, #68]                   @ 4-byte Spill
	ldrb	r2, [r0, #9]
	str	r2, [sp, #64]                   @ 4-byte Spill
	ldrb	r1, [r0, #7]
	str	r1, [sp, #60]                   @ 4-byte Spill
	ldrb	r1, [r0, #6]
	str	r1, [sp, #56]                   @ 4-byte Spill
	ldrb	r1, [r0, #4]
	str	r1, [sp, #52]                   @ 4-byte Spill
	ldrb	r3, [r0, #5]
	ldrb	r2, [r0, #3]
	ldrb	r1, [r0, #2]
	ldr	r7, [sp, #112]                  @ 4-byte Reload
	ldrb	r5, [r7, r5]
	ldrb	r0, [r0, #1]
	ldr	r7, [sp, #44]                   @ 4-byte Reload
	str	r7, [sp]
	ldr	r7, [sp, #40]                   @ 4-byte Reload
	str	r7, [sp, #4]
	ldr	r7, [sp, #36]                   @ 4-byte Reload
	str	r7, [sp, #8]
	ldr	r7, [sp, #32]                   @ 4-byte Reload
	str	r7, [sp, #12]
	lsls	r0, r0, #8
	adds	r0, r0, r5
	lsls	r1, r1, #16
	lsls	r2, r2, #24
	adds	r1, r2, r1
	adds	r5, r1, r0
	eors	r5, r6
	lsls	r0, r3, #8
	ldr	r1, [sp, #52]                   @ 4-byte Reload
	adds	r0, r0, r1
	ldr	r1, [sp, #56]                   @ 4-byte Reload
	lsls	r1, r1, #16
	ldr	r2, [sp, #60]                   @ 4-byte Reload
	lsls	r2, r2, #24
	adds	r1, r2, r1
	adds	r6, r1, r0
	ldr	r0, [sp, #100]                  @ 4-byte Reload
	eors	r6, r0
	ldr	r0, [sp, #64]                   @ 4-byte Reload
	lsls	r0, r0, #8
	ldr	r1, [sp, #68]                   @ 4-byte Reload
	adds	r0, r0, r1
	ldr	r1, [sp, #72]                   @ 4-byte Reload
	lsls	r1, r1, #16
	ldr	r2, [sp, #76]                   @ 4-byte Reload
	lsls	r2, r2, #24
	adds	r1, r2, r1
	adds	r7, r1, r0
	ldr	r0, [sp, #104]                  @ 4-byte Reload
	eors	r7, r0
	ldr	r0, [sp, #80]                   @ 4-byte Reload
	lsls	r0, r0, #8
	ldr	r1, [sp, #84]                   @ 4-byte Reload
	adds	r0, r0, r1
	ldr	r1, [sp, #88]                   @ 4-byte Reload
	lsls	r1, r1, #16
	ldr	r2, [sp, #92]                   @ 4-byte Reload
	lsls	r2, r2, #24
	adds	r1, r2, r1
	adds	r3, r1, r0
	ldr	r0, [sp, #108]                  @ 4-byte Reload
	eors	r3, r0
	mov	r0, r5
	mov	r1, r6
	mov	r2, r7
	ldr	r7, [sp, #48]                   @ 4-byte Reload
	bl	gcm_v6m.gcm.bitwise.product_bitwise
	mov	r6, r0
	adds	r4, r4, #1
	ldr	r0, [sp, #28]                   @ 4-byte Reload
	ldr	r5, [sp, #96]                   @ 4-byte Reload
	adcs	r5, r0
	subs	r0, r4, r7
	str	r5, [sp, #96]                   @ 4-byte Spill
	mov	r0, r5
	ldr	r5, [sp, #24]                   @ 4-byte Reload
	sbcs	r0, r5
	blo	.Lgcm_v6m_BB34_2
	b	.Lgcm_v6m_BB34_4
.Lgcm_v6m_BB34_3:
	ldr	r6, [sp, #92]                   @ 4-byte Reload
.Lgcm_v6m_BB34_4:                               @ %"gcm::single_blocks::hash_whole::<#4042f4b97f1aa5e1>.exit"
	movs	r0, #15
	ldr	r4, [sp, #20]                   @ 4-byte Reload
	mov	r5, r4
	ands	r5, r0
	beq	.Lgcm_v6m_BB34_6
@ %bb.5:                                @ %join.3
	str	r6, [sp, #92]                   @ 4-byte Spill
	add	r6, sp, #100
	stm	r6!, {r1, r2, r3}               @ 12-byte Folded Spill
	movs	r2, #0
	str	r2, [sp, #128]
	str	r2, [sp, #124]
	str	r2, [sp, #120]
	str	r2, [sp, #116]
	bics	r4, r0
	ldr	r0, [sp, #112]                  @ 4-byte Reload
	adds	r1, r0, r4
	add	r0, sp, #116
	subs	r0, r0, r1
	mov	r3, r2
	sbcs	r3, r2
	subs	r0, r0, r5
	sbcs	r3, r2
	add	r0, sp, #116
	mov	r2, r5
	bl	memcpy
	add	r3, sp, #116
	ldm	r3, {r0, r1, r2, r3}
	ldr	r4, [sp, #16]                   @ 4-byte Reload
	ldm	r4!, {r5, r6, r7}
	ldr	r4, [r4]
	str	r5, [sp]
	str	r6, [sp, #4]
	str	r7, [sp, #8]
	str	r4, [sp, #12]
	ldr	r4, [sp, #92]                   @ 4-byte Reload
	eors	r0, r4
	ldr	r4, [sp, #100]                  @ 4-byte Reload
	eors	r1, r4
	ldr	r4, [sp, #104]                  @ 4-byte Reload
	eors	r2, r4
	ldr	r4, [sp, #108]                  @ 4-byte Reload
	eors	r3, r4
	bl	gcm_v6m.gcm.bitwise.product_bitwise
	add	sp, #132
	pop	{r4, r5, r6, r7, pc}
.Lgcm_v6m_BB34_6:
	mov	r0, r6
	add	sp, #132
	pop	{r4, r5, r6, r7, pc}
.Lgcm_v6m_func_end34:
	.size	gcm_v6m.gcm.single_blocks.hash_singly.2, .Lgcm_v6m_func_end34-gcm_v6m.gcm.single_blocks.hash_singly.2
	.cantunwind
	.fnend
                                        @ -- End function
	.section	.text.gcm_v6m.gcm_siv.message.process_text,"ax",%progbits
	.p2align	1                               @ -- Begin function gcm_siv::message::process_text::<#a556ffa628b2ee02>
	.type	gcm_v6m.gcm_siv.message.process_text,%function
	.code	16
	.thumb_func
gcm_v6m.gcm_siv.message.process_text: @ @gcm_v6m.gcm_siv.message.process_text
	.fnstart
@ %bb.0:                                @ %start
	.save	{r4, r5, r6, r7, lr}
	push	{r4, r5, r6, r7, lr}
	.pad	#188
	sub	sp, #188
	mov	r4, r2
	ldm	r0!, {r2}
	str	r2, [sp, #112]                  @ 4-byte Spill
	str	r0, [sp, #116]                  @ 4-byte Spill
	ldrb	r5, [r1, #15]
	add	r6, sp, #120
	movs	r2, #15
	mov	r0, r6
	str	r1, [sp, #108]                  @ 4-byte Spill
	bl	memcpy
	movs	r0, #127
	mvns	r7, r0
	orrs	r7, r5
	strb	r7, [r6, #15]
	movs	r5, #0
	str	r5, [sp, #140]
	str	r5, [sp, #136]
	ldr	r1, [sp, #112]                  @ 4-byte Reload
	lsrs	r0, r1, #31
	lsls	r6, r1, #1
	adds	r6, #56
	adcs	r0, r5
	str	r0, [sp, #112]                  @ 4-byte Spill
	ldr	r1, [sp, #212]
	ldr	r3, [sp, #208]
	movs	r0, #16
	subs	r0, r0, r3
	mov	r0, r5
	sbcs	r0, r1
	bhs	.Lgcm_v6m_BB35_1
	b	.Lgcm_v6m_BB35_4
.Lgcm_v6m_BB35_1:                               @ %then.1.i.i
	str	r1, [sp, #96]                   @ 4-byte Spill
	ldr	r0, [sp, #120]
	str	r0, [sp, #104]                  @ 4-byte Spill
	add	r0, sp, #172
	str	r0, [sp, #100]                  @ 4-byte Spill
	adds	r0, r0, #4
	ldr	r1, [sp, #108]                  @ 4-byte Reload
	adds	r1, r1, #4
	movs	r2, #11
	str	r3, [sp, #108]                  @ 4-byte Spill
	bl	memcpy
	ldr	r0, [sp, #100]                  @ 4-byte Reload
	strb	r7, [r0, #15]
	ldr	r1, [sp, #104]                  @ 4-byte Reload
	str	r1, [sp, #172]
	movs	r7, #1
	str	r7, [sp, #8]
	str	r5, [sp, #12]
	str	r0, [sp]
	ldr	r0, [sp, #116]                  @ 4-byte Reload
	mov	r2, r6
	ldr	r3, [sp, #112]                  @ 4-byte Reload
	bl	gcm_v6m.aes_narrow.blocks.process_all_batches
	bl	gcm_v6m.aes_cipher.zeroize.stack.wipe_stack.1024
	ldr	r3, [sp, #108]                  @ 4-byte Reload
	lsls	r0, r3, #27
	bne	.Lgcm_v6m_BB35_2
	b	.Lgcm_v6m_BB35_5
.Lgcm_v6m_BB35_2:                               @ %then.1.i.i
	cmp	r3, #16
	beq	.Lgcm_v6m_BB35_3
	b	.Lgcm_v6m_BB35_6
.Lgcm_v6m_BB35_3:                               @ %after.4.i.thread.i.i.i
	ldrb	r0, [r4, #15]
	add	r2, sp, #172
	ldrb	r1, [r2, #15]
	eors	r1, r0
	str	r1, [sp, #44]                   @ 4-byte Spill
	ldrb	r0, [r4]
	str	r0, [sp, #116]                  @ 4-byte Spill
	ldrb	r0, [r4, #1]
	str	r0, [sp, #112]                  @ 4-byte Spill
	ldrb	r0, [r2, #1]
	str	r0, [sp, #108]                  @ 4-byte Spill
	ldrb	r0, [r4, #2]
	str	r0, [sp, #104]                  @ 4-byte Spill
	ldrb	r0, [r2, #2]
	str	r0, [sp, #100]                  @ 4-byte Spill
	ldrb	r0, [r4, #3]
	str	r0, [sp, #96]                   @ 4-byte Spill
	ldrb	r0, [r2, #3]
	str	r0, [sp, #92]                   @ 4-byte Spill
	ldrb	r0, [r4, #4]
	str	r0, [sp, #88]                   @ 4-byte Spill
	ldrb	r0, [r4, #5]
	str	r0, [sp, #84]                   @ 4-byte Spill
	ldrb	r0, [r2, #5]
	str	r0, [sp, #80]                   @ 4-byte Spill
	ldrb	r0, [r4, #6]
	str	r0, [sp, #72]                   @ 4-byte Spill
	ldrb	r0, [r2, #6]
	str	r0, [sp, #68]                   @ 4-byte Spill
	ldrb	r0, [r4, #7]
	str	r0, [sp, #64]                   @ 4-byte Spill
	ldrb	r0, [r2, #7]
	str	r0, [sp, #60]                   @ 4-byte Spill
	ldrb	r0, [r4, #8]
	str	r0, [sp, #56]                   @ 4-byte Spill
	ldrb	r0, [r4, #9]
	str	r0, [sp, #48]                   @ 4-byte Spill
	ldrb	r0, [r2, #9]
	str	r0, [sp, #40]                   @ 4-byte Spill
	ldrb	r0, [r4, #10]
	str	r0, [sp, #36]                   @ 4-byte Spill
	ldrb	r6, [r2, #10]
	ldrb	r0, [r4, #11]
	str	r0, [sp, #32]                   @ 4-byte Spill
	ldrb	r5, [r2, #11]
	ldrb	r0, [r4, #12]
	str	r0, [sp, #28]                   @ 4-byte Spill
	ldrb	r0, [r4, #13]
	str	r0, [sp, #24]                   @ 4-byte Spill
	ldrb	r3, [r2, #13]
	ldrb	r0, [r4, #14]
	str	r0, [sp, #20]                   @ 4-byte Spill
	ldrb	r0, [r2, #14]
	ldr	r1, [sp, #172]
	str	r1, [sp, #76]                   @ 4-byte Spill
	ldr	r1, [sp, #176]
	str	r1, [sp, #52]                   @ 4-byte Spill
	ldr	r2, [sp, #180]
	ldr	r1, [sp, #184]
	ldr	r7, [sp, #44]                   @ 4-byte Reload
	strb	r7, [r4, #15]
	ldr	r7, [sp, #20]                   @ 4-byte Reload
	eors	r0, r7
	strb	r0, [r4, #14]
	ldr	r0, [sp, #24]                   @ 4-byte Reload
	eors	r3, r0
	strb	r3, [r4, #13]
	ldr	r0, [sp, #28]                   @ 4-byte Reload
	eors	r1, r0
	strb	r1, [r4, #12]
	ldr	r0, [sp, #32]                   @ 4-byte Reload
	eors	r5, r0
	strb	r5, [r4, #11]
	ldr	r0, [sp, #36]                   @ 4-byte Reload
	eors	r6, r0
	strb	r6, [r4, #10]
	ldr	r0, [sp, #48]                   @ 4-byte Reload
	ldr	r1, [sp, #40]                   @ 4-byte Reload
	eors	r1, r0
	strb	r1, [r4, #9]
	ldr	r0, [sp, #56]                   @ 4-byte Reload
	eors	r2, r0
	strb	r2, [r4, #8]
	ldr	r0, [sp, #64]                   @ 4-byte Reload
	ldr	r1, [sp, #60]                   @ 4-byte Reload
	eors	r1, r0
	strb	r1, [r4, #7]
	ldr	r0, [sp, #72]                   @ 4-byte Reload
	ldr	r1, [sp, #68]                   @ 4-byte Reload
	eors	r1, r0
	strb	r1, [r4, #6]
	ldr	r0, [sp, #84]                   @ 4-byte Reload
	ldr	r1, [sp, #80]                   @ 4-byte Reload
	eors	r1, r0
	strb	r1, [r4, #5]
	ldr	r0, [sp, #88]                   @ 4-byte Reload
	ldr	r1, [sp, #52]                   @ 4-byte Reload
	eors	r1, r0
	strb	r1, [r4, #4]
	ldr	r0, [sp, #96]                   @ 4-byte Reload
	ldr	r1, [sp, #92]                   @ 4-byte Reload
	eors	r1, r0
	strb	r1, [r4, #3]
	ldr	r0, [sp, #104]                  @ 4-byte Reload
	ldr	r1, [sp, #100]                  @ 4-byte Reload
	eors	r1, r0
	strb	r1, [r4, #2]
	ldr	r0, [sp, #112]                  @ 4-byte Reload
	ldr	r1, [sp, #108]                  @ 4-byte Reload
	eors	r1, r0
	strb	r1, [r4, #1]
	ldr	r0, [sp, #116]                  @ 4-byte Reload
	ldr	r1, [sp, #76]                   @ 4-byte Reload
	eors	r1, r0
	strb	r1, [r4]
	add	sp, #188
	pop	{r4, r5, r6, r7, pc}
.Lgcm_v6m_BB35_4:                               @ %else.2.i.i
	str	r3, [sp, #160]
	str	r5, [sp, #148]
	str	r5, [sp, #144]
	str	r5, [sp, #156]
	str	r4, [sp, #152]
	add	r0, sp, #120
	str	r0, [sp, #136]
	str	r1, [sp, #164]
	add	r0, sp, #136
	str	r0, [sp]
	ldr	r0, [sp, #116]                  @ 4-byte Reload
	mov	r2, r6
	ldr	r3, [sp, #112]                  @ 4-byte Reload
	bl	gcm_v6m.aes_narrow.borrowed_words.call_to_encrypt.2
	bl	gcm_v6m.aes_cipher.zeroize.stack.wipe_stack.2032
.Lgcm_v6m_BB35_5:                               @ %"gcm_siv::counters::add_keystream::<#099a9bc28799ce6c>.exit"
	add	sp, #188
	pop	{r4, r5, r6, r7, pc}
.Lgcm_v6m_BB35_6:                               @ %join.8.i10.i.i.i.preheader
	cmp	r3, #1
	mov	r1, r3
	bls	.Lgcm_v6m_BB35_17
@ %bb.7:                                @ %join.8.i10.i.i.i.preheader
	ldr	r2, [sp, #96]                   @ 4-byte Reload
	cmp	r2, #0
	mov	r0, r3
	beq	.Lgcm_v6m_BB35_18
.Lgcm_v6m_BB35_8:                               @ %join.8.i10.i.i.i.preheader
	beq	.Lgcm_v6m_BB35_10
.Lgcm_v6m_BB35_9:                               @ %join.8.i10.i.i.i.preheader
	mov	r1, r0
.Lgcm_v6m_BB35_10:                              @ %join.8.i10.i.i.i.preheader
	movs	r0, #3
	mov	r6, r1
	ands	r6, r0
	subs	r3, r3, #4
	sbcs	r2, r5
	blo	.Lgcm_v6m_BB35_14
@ %bb.11:                               @ %join.8.i10.i.i.i.preheader.new
	str	r6, [sp, #108]                  @ 4-byte Spill
	movs	r3, #28
	ands	r1, r3
	movs	r6, #0
	mov	r5, r6
	str	r6, [sp, #116]                  @ 4-byte Spill
	str	r0, [sp, #112]                  @ 4-byte Spill
.Lgcm_v6m_BB35_12:                              @ %join.8.i10.i.i.i
                                        @ =>This Inner Loop Header: Depth=1
	add	r7, sp, #172
	ldrb	r0, [r7, r5]
	mov	r3, r1
	ldrb	r1, [r4, r5]
	eors	r1, r0
	strb	r1, [r4, r5]
	movs	r0, #1
	orrs	r0, r5
	ldrb	r1, [r7, r0]
	ldrb	r2, [r4, r0]
	eors	r2, r1
	strb	r2, [r4, r0]
	movs	r0, #2
	orrs	r0, r5
	ldrb	r1, [r7, r0]
	ldrb	r2, [r4, r0]
	eors	r2, r1
	strb	r2, [r4, r0]
	mov	r0, r5
	ldr	r1, [sp, #112]                  @ 4-byte Reload
	orrs	r0, r1
	ldrb	r1, [r7, r0]
	ldrb	r2, [r4, r0]
	eors	r2, r1
	mov	r1, r3
	strb	r2, [r4, r0]
	adds	r5, r5, #4
	ldr	r0, [sp, #116]                  @ 4-byte Reload
	adcs	r6, r0
	mov	r0, r5
	eors	r0, r3
	orrs	r0, r6
	bne	.Lgcm_v6m_BB35_12
@ %bb.13:                               @ %"aes_ctr::add_in_batches::add_to_one::<#3853cb094ce32add>.exit.i.i.loopexit.unr-lcssa"
	ldr	r6, [sp, #108]                  @ 4-byte Reload
	cmp	r6, #0
	beq	.Lgcm_v6m_BB35_5
.Lgcm_v6m_BB35_14:                              @ %join.8.i10.i.i.i.epil.preheader
	add	r0, sp, #172
	ldrb	r0, [r0, r5]
	ldrb	r1, [r4, r5]
	eors	r1, r0
	strb	r1, [r4, r5]
	cmp	r6, #1
	beq	.Lgcm_v6m_BB35_5
@ %bb.15:                               @ %join.8.i10.i.i.i.epil.1
	adds	r0, r5, #1
	add	r1, sp, #172
	ldrb	r1, [r1, r0]
	ldrb	r2, [r4, r0]
	eors	r2, r1
	strb	r2, [r4, r0]
	cmp	r6, #2
	beq	.Lgcm_v6m_BB35_5
@ %bb.16:                               @ %join.8.i10.i.i.i.epil.2
	adds	r0, r5, #2
	add	r1, sp, #172
	ldrb	r1, [r1, r0]
	ldrb	r2, [r4, r0]
	eors	r2, r1
	strb	r2, [r4, r0]
	add	sp, #188
	pop	{r4, r5, r6, r7, pc}
.Lgcm_v6m_BB35_17:                              @ %join.8.i10.i.i.i.preheader
	mov	r1, r7
	ldr	r2, [sp, #96]                   @ 4-byte Reload
	cmp	r2, #0
	mov	r0, r3
	bne	.Lgcm_v6m_BB35_8
.Lgcm_v6m_BB35_18:                              @ %join.8.i10.i.i.i.preheader
	mov	r0, r7
	bne	.Lgcm_v6m_BB35_9
	b	.Lgcm_v6m_BB35_10
.Lgcm_v6m_func_end35:
	.size	gcm_v6m.gcm_siv.message.process_text, .Lgcm_v6m_func_end35-gcm_v6m.gcm_siv.message.process_text
	.cantunwind
	.fnend
                                        @ -- End function
	.section	.text.gcm_v6m.aes_narrow.borrowed_words.call_to_encrypt.2,"ax",%progbits
	.p2align	1                               @ -- Begin function aes_narrow::borrowed_words::call_to_encrypt::<#d0e731d912aff965>
	.type	gcm_v6m.aes_narrow.borrowed_words.call_to_encrypt.2,%function
	.code	16
	.thumb_func
gcm_v6m.aes_narrow.borrowed_words.call_to_encrypt.2: @ @gcm_v6m.aes_narrow.borrowed_words.call_to_encrypt.2
	.fnstart
@ %bb.0:                                @ %start
	.save	{r4, r5, r6, r7, lr}
	push	{r4, r5, r6, r7, lr}
	.pad	#476
	sub	sp, #476
	str	r3, [sp, #56]                   @ 4-byte Spill
	str	r3, [sp, #212]
	str	r2, [sp, #52]                   @ 4-byte Spill
	str	r2, [sp, #208]
	movs	r4, #0
	str	r4, [sp, #204]
	str	r0, [sp, #48]                   @ 4-byte Spill
	str	r0, [sp, #200]
	ldr	r0, [sp, #496]
	ldr	r5, [r0, #24]
	ldr	r6, [r0, #28]
	ldr	r7, [r0, #8]
	ldr	r3, [r0, #12]
	ldr	r2, [r0, #16]
	ldr	r1, [r0]
	str	r7, [sp, #184]                  @ 4-byte Spill
	lsls	r0, r7, #28
	str	r3, [sp, #60]                   @ 4-byte Spill
	str	r2, [sp, #192]                  @ 4-byte Spill
	str	r1, [sp, #180]                  @ 4-byte Spill
	beq	.Lgcm_v6m_BB36_2
@ %bb.1:                                @ %then.1.i.i
	movs	r0, #0
	str	r0, [sp]
	str	r0, [sp, #4]
	str	r2, [sp, #8]
	str	r5, [sp, #16]
	str	r6, [sp, #20]
	add	r0, sp, #200
	ldr	r2, [sp, #184]                  @ 4-byte Reload
	bl	gcm_v6m.aes_ctr.add_in_batches.add_next.2
	b	.Lgcm_v6m_BB36_3
.Lgcm_v6m_BB36_2:
	mov	r0, r4
	mov	r1, r4
.Lgcm_v6m_BB36_3:                               @ %join.3.i.i
	str	r0, [sp, #196]                  @ 4-byte Spill
	subs	r0, r5, r0
	mov	r2, r6
	mov	r7, r1
	sbcs	r2, r1
	subs	r0, #32
	sbcs	r2, r4
	bhs	.Lgcm_v6m_BB36_4
	b	.Lgcm_v6m_BB36_6
.Lgcm_v6m_BB36_4:                               @ %join.11.lr.ph.i.i
	add	r1, sp, #220
	mov	r0, r1
	adds	r0, #32
	str	r0, [sp, #32]                   @ 4-byte Spill
	ldr	r0, [sp, #180]                  @ 4-byte Reload
	adds	r0, r0, #4
	str	r0, [sp, #28]                   @ 4-byte Spill
	adds	r0, r1, #4
	str	r0, [sp, #24]                   @ 4-byte Spill
	adds	r1, #20
	str	r1, [sp, #36]                   @ 4-byte Spill
	ldr	r4, [sp, #196]                  @ 4-byte Reload
	str	r5, [sp, #44]                   @ 4-byte Spill
	str	r6, [sp, #40]                   @ 4-byte Spill
.Lgcm_v6m_BB36_5:                               @ %join.11.i.i
                                        @ =>This Inner Loop Header: Depth=1
	movs	r1, #0
	str	r1, [sp, #188]                  @ 4-byte Spill
	movs	r2, #224
	ldr	r0, [sp, #32]                   @ 4-byte Reload
	bl	memset
	ldr	r0, [sp, #184]                  @ 4-byte Reload
	str	r4, [sp, #196]                  @ 4-byte Spill
	adds	r0, r4, r0
	str	r7, [sp, #176]                  @ 4-byte Spill
	ldr	r2, [sp, #60]                   @ 4-byte Reload
	adcs	r7, r2
	lsrs	r0, r0, #4
	lsls	r1, r7, #28
	adds	r0, r0, r1
	ldr	r3, [sp, #180]                  @ 4-byte Reload
	ldrb	r1, [r3]
	ldrb	r2, [r3, #1]
	lsls	r2, r2, #8
	adds	r1, r2, r1
	ldrb	r2, [r3, #2]
	lsls	r2, r2, #16
	ldrb	r3, [r3, #3]
	lsls	r3, r3, #24
	adds	r2, r3, r2
	adds	r1, r2, r1
	adds	r4, r1, r0
	str	r4, [sp, #220]
	movs	r6, #12
	ldr	r0, [sp, #24]                   @ 4-byte Reload
	ldr	r5, [sp, #28]                   @ 4-byte Reload
	mov	r1, r5
	mov	r2, r6
	bl	memcpy
	adds	r0, r4, #1
	str	r0, [sp, #236]
	ldr	r0, [sp, #36]                   @ 4-byte Reload
	mov	r1, r5
	mov	r2, r6
	bl	memcpy
	movs	r0, #2
	str	r0, [sp, #8]
	ldr	r0, [sp, #188]                  @ 4-byte Reload
	str	r0, [sp, #12]
	add	r6, sp, #220
	str	r6, [sp]
	add	r3, sp, #48
	ldm	r3, {r0, r2, r3}                @ 12-byte Folded Reload
	bl	gcm_v6m.aes_soft.soft.blocks.filled_up.process_filled_up
	ldr	r3, [sp, #192]                  @ 4-byte Reload
	ldr	r1, [sp, #196]                  @ 4-byte Reload
	adds	r0, r3, r1
	ldrb	r2, [r0, #1]
	str	r2, [sp, #172]                  @ 4-byte Spill
	ldrb	r2, [r0, #2]
	str	r2, [sp, #168]                  @ 4-byte Spill
	ldrb	r2, [r0, #3]
	str	r2, [sp, #164]                  @ 4-byte Spill
	ldrb	r2, [r0, #4]
	str	r2, [sp, #160]                  @ 4-byte Spill
	ldrb	r2, [r0, #5]
	str	r2, [sp, #156]                  @ 4-byte Spill
	ldrb	r2, [r0, #6]
	str	r2, [sp, #148]                  @ 4-byte Spill
	ldrb	r2, [r0, #7]
	str	r2, [sp, #140]                  @ 4-byte Spill
	ldrb	r2, [r0, #8]
	str	r2, [sp, #132]                  @ 4-byte Spill
	ldrb	r2, [r0, #9]
	str	r2, [sp, #128]                  @ 4-byte Spill
	ldrb	r2, [r0, #10]
	str	r2, [sp, #120]                  @ 4-byte Spill
	ldrb	r2, [r0, #11]
	str	r2, [sp, #112]                  @ 4-byte Spill
	ldrb	r2, [r0, #12]
	str	r2, [sp, #100]                  @ 4-byte Spill
	ldrb	r2, [r0, #13]
	str	r2, [sp, #96]                   @ 4-byte Spill
	ldrb	r2, [r0, #14]
	str	r2, [sp, #88]                   @ 4-byte Spill
	ldrb	r2, [r0, #15]
	str	r2, [sp, #76]                   @ 4-byte Spill
	ldrb	r1, [r3, r1]
	ldr	r2, [sp, #220]
	eors	r2, r1
	str	r2, [sp, #68]                   @ 4-byte Spill
	ldrb	r1, [r6, #1]
	str	r1, [sp, #152]                  @ 4-byte Spill
	ldrb	r1, [r6, #2]
	str	r1, [sp, #144]                  @ 4-byte Spill
	ldrb	r1, [r6, #3]
	str	r1, [sp, #136]                  @ 4-byte Spill
	ldrb	r1, [r6, #5]
	str	r1, [sp, #124]                  @ 4-byte Spill
	ldrb	r1, [r6, #6]
	str	r1, [sp, #116]                  @ 4-byte Spill
	ldrb	r1, [r6, #7]
	str	r1, [sp, #104]                  @ 4-byte Spill
	ldrb	r1, [r6, #9]
	str	r1, [sp, #92]                   @ 4-byte Spill
	ldrb	r1, [r6, #10]
	str	r1, [sp, #84]                   @ 4-byte Spill
	ldrb	r1, [r6, #11]
	str	r1, [sp, #72]                   @ 4-byte Spill
	ldrb	r1, [r6, #13]
	str	r1, [sp, #64]                   @ 4-byte Spill
	ldrb	r2, [r6, #14]
	ldrb	r1, [r6, #15]
	ldr	r3, [sp, #224]
	str	r3, [sp, #108]                  @ 4-byte Spill
	ldr	r3, [sp, #228]
	str	r3, [sp, #80]                   @ 4-byte Spill
	ldr	r3, [sp, #232]
	ldr	r7, [sp, #196]                  @ 4-byte Reload
	ldr	r5, [sp, #192]                  @ 4-byte Reload
	ldr	r4, [sp, #68]                   @ 4-byte Reload
	strb	r4, [r5, r7]
	ldr	r5, [sp, #76]                   @ 4-byte Reload
	eors	r1, r5
	strb	r1, [r0, #15]
	ldr	r1, [sp, #88]                   @ 4-byte Reload
	eors	r2, r1
	strb	r2, [r0, #14]
	ldr	r1, [sp, #96]                   @ 4-byte Reload
	ldr	r2, [sp, #64]                   @ 4-byte Reload
	eors	r2, r1
	strb	r2, [r0, #13]
	ldr	r1, [sp, #100]                  @ 4-byte Reload
	eors	r3, r1
	strb	r3, [r0, #12]
	ldr	r1, [sp, #112]                  @ 4-byte Reload
	ldr	r2, [sp, #72]                   @ 4-byte Reload
	eors	r2, r1
	strb	r2, [r0, #11]
	ldr	r1, [sp, #120]                  @ 4-byte Reload
	ldr	r2, [sp, #84]                   @ 4-byte Reload
	eors	r2, r1
	strb	r2, [r0, #10]
	ldr	r1, [sp, #128]                  @ 4-byte Reload
	ldr	r2, [sp, #92]                   @ 4-byte Reload
	eors	r2, r1
	strb	r2, [r0, #9]
	ldr	r1, [sp, #132]                  @ 4-byte Reload
	ldr	r2, [sp, #80]                   @ 4-byte Reload
	eors	r2, r1
	strb	r2, [r0, #8]
	ldr	r1, [sp, #140]                  @ 4-byte Reload
	ldr	r2, [sp, #104]                  @ 4-byte Reload
	eors	r2, r1
	strb	r2, [r0, #7]
	ldr	r1, [sp, #148]                  @ 4-byte Reload
	ldr	r2, [sp, #116]                  @ 4-byte Reload
	eors	r2, r1
	strb	r2, [r0, #6]
	ldr	r1, [sp, #156]                  @ 4-byte Reload
	ldr	r2, [sp, #124]                  @ 4-byte Reload
	eors	r2, r1
	strb	r2, [r0, #5]
	ldr	r1, [sp, #160]                  @ 4-byte Reload
	ldr	r2, [sp, #108]                  @ 4-byte Reload
	eors	r2, r1
	strb	r2, [r0, #4]
	ldr	r1, [sp, #164]                  @ 4-byte Reload
	ldr	r2, [sp, #136]                  @ 4-byte Reload
	eors	r2, r1
	strb	r2, [r0, #3]
	ldr	r1, [sp, #168]                  @ 4-byte Reload
	ldr	r2, [sp, #144]                  @ 4-byte Reload
	eors	r2, r1
	strb	r2, [r0, #2]
	ldr	r1, [sp, #172]                  @ 4-byte Reload
	ldr	r2, [sp, #152]                  @ 4-byte Reload
	eors	r2, r1
	strb	r2, [r0, #1]
	ldrb	r1, [r0, #16]
	str	r1, [sp, #172]                  @ 4-byte Spill
	ldrb	r1, [r0, #17]
	str	r1, [sp, #168]                  @ 4-byte Spill
	ldrb	r1, [r0, #18]
	str	r1, [sp, #164]                  @ 4-byte Spill
	ldrb	r1, [r0, #19]
	str	r1, [sp, #160]                  @ 4-byte Spill
	ldrb	r1, [r0, #20]
	str	r1, [sp, #156]                  @ 4-byte Spill
	ldrb	r1, [r0, #21]
	str	r1, [sp, #152]                  @ 4-byte Spill
	ldrb	r1, [r0, #22]
	str	r1, [sp, #144]                  @ 4-byte Spill
	ldrb	r1, [r0, #23]
	str	r1, [sp, #136]                  @ 4-byte Spill
	ldrb	r1, [r0, #24]
	str	r1, [sp, #124]                  @ 4-byte Spill
	ldrb	r1, [r0, #25]
	str	r1, [sp, #120]                  @ 4-byte Spill
	ldrb	r1, [r0, #26]
	str	r1, [sp, #112]                  @ 4-byte Spill
	ldrb	r1, [r0, #27]
	str	r1, [sp, #100]                  @ 4-byte Spill
	ldrb	r1, [r0, #28]
	str	r1, [sp, #92]                   @ 4-byte Spill
	ldrb	r1, [r0, #29]
	str	r1, [sp, #88]                   @ 4-byte Spill
	ldrb	r1, [r0, #30]
	str	r1, [sp, #80]                   @ 4-byte Spill
	ldrb	r1, [r0, #31]
	ldrb	r4, [r6, #31]
	eors	r4, r1
	ldrb	r1, [r6, #17]
	str	r1, [sp, #148]                  @ 4-byte Spill
	ldrb	r1, [r6, #18]
	str	r1, [sp, #140]                  @ 4-byte Spill
	ldrb	r1, [r6, #19]
	str	r1, [sp, #132]                  @ 4-byte Spill
	ldrb	r1, [r6, #21]
	str	r1, [sp, #116]                  @ 4-byte Spill
	ldrb	r1, [r6, #22]
	str	r1, [sp, #108]                  @ 4-byte Spill
	ldrb	r1, [r6, #23]
	str	r1, [sp, #96]                   @ 4-byte Spill
	ldrb	r1, [r6, #25]
	str	r1, [sp, #84]                   @ 4-byte Spill
	ldrb	r7, [r6, #26]
	ldrb	r5, [r6, #27]
	ldrb	r3, [r6, #29]
	ldrb	r1, [r6, #30]
	ldr	r2, [sp, #236]
	str	r2, [sp, #128]                  @ 4-byte Spill
	ldr	r2, [sp, #240]
	str	r2, [sp, #104]                  @ 4-byte Spill
	ldr	r6, [sp, #244]
	ldr	r2, [sp, #248]
	strb	r4, [r0, #31]
	ldr	r4, [sp, #80]                   @ 4-byte Reload
	eors	r1, r4
	strb	r1, [r0, #30]
	ldr	r1, [sp, #88]                   @ 4-byte Reload
	eors	r3, r1
	strb	r3, [r0, #29]
	ldr	r1, [sp, #92]                   @ 4-byte Reload
	eors	r2, r1
	strb	r2, [r0, #28]
	ldr	r1, [sp, #100]                  @ 4-byte Reload
	eors	r5, r1
	strb	r5, [r0, #27]
	ldr	r1, [sp, #44]                   @ 4-byte Reload
	ldr	r2, [sp, #112]                  @ 4-byte Reload
	eors	r7, r2
	strb	r7, [r0, #26]
	ldr	r2, [sp, #120]                  @ 4-byte Reload
	ldr	r3, [sp, #84]                   @ 4-byte Reload
	eors	r3, r2
	strb	r3, [r0, #25]
	ldr	r2, [sp, #124]                  @ 4-byte Reload
	eors	r6, r2
	strb	r6, [r0, #24]
	ldr	r6, [sp, #40]                   @ 4-byte Reload
	ldr	r2, [sp, #136]                  @ 4-byte Reload
	ldr	r3, [sp, #96]                   @ 4-byte Reload
	eors	r3, r2
	strb	r3, [r0, #23]
	ldr	r2, [sp, #144]                  @ 4-byte Reload
	ldr	r3, [sp, #108]                  @ 4-byte Reload
	eors	r3, r2
	strb	r3, [r0, #22]
	ldr	r2, [sp, #152]                  @ 4-byte Reload
	ldr	r3, [sp, #116]                  @ 4-byte Reload
	eors	r3, r2
	strb	r3, [r0, #21]
	ldr	r2, [sp, #156]                  @ 4-byte Reload
	ldr	r3, [sp, #104]                  @ 4-byte Reload
	eors	r3, r2
	strb	r3, [r0, #20]
	ldr	r2, [sp, #160]                  @ 4-byte Reload
	ldr	r3, [sp, #132]                  @ 4-byte Reload
	eors	r3, r2
	strb	r3, [r0, #19]
	ldr	r2, [sp, #164]                  @ 4-byte Reload
	ldr	r3, [sp, #140]                  @ 4-byte Reload
	eors	r3, r2
	strb	r3, [r0, #18]
	ldr	r2, [sp, #168]                  @ 4-byte Reload
	ldr	r3, [sp, #148]                  @ 4-byte Reload
	eors	r3, r2
	strb	r3, [r0, #17]
	ldr	r2, [sp, #172]                  @ 4-byte Reload
	ldr	r3, [sp, #128]                  @ 4-byte Reload
	eors	r3, r2
	strb	r3, [r0, #16]
	ldr	r0, [sp, #196]                  @ 4-byte Reload
	adds	r0, #32
	ldr	r3, [sp, #188]                  @ 4-byte Reload
	ldr	r2, [sp, #176]                  @ 4-byte Reload
	adcs	r2, r3
	mov	r5, r1
	mov	r4, r0
	subs	r0, r1, r0
	mov	r1, r6
	mov	r7, r2
	sbcs	r1, r2
	movs	r2, #31
	subs	r0, r2, r0
	sbcs	r3, r1
	bhs	.Lgcm_v6m_BB36_7
	b	.Lgcm_v6m_BB36_5
.Lgcm_v6m_BB36_6:
	ldr	r4, [sp, #196]                  @ 4-byte Reload
.Lgcm_v6m_BB36_7:                               @ %loop.13.preheader.i.i
	subs	r0, r4, r5
	mov	r0, r7
	sbcs	r0, r6
	mov	r0, r4
	mov	r1, r7
	ldr	r4, [sp, #60]                   @ 4-byte Reload
	bhs	.Lgcm_v6m_BB36_9
.Lgcm_v6m_BB36_8:                               @ %join.16.i.i
                                        @ =>This Inner Loop Header: Depth=1
	str	r5, [sp, #16]
	str	r6, [sp, #20]
	str	r0, [sp]
	str	r1, [sp, #4]
	ldr	r0, [sp, #192]                  @ 4-byte Reload
	str	r0, [sp, #8]
	add	r0, sp, #200
	ldr	r1, [sp, #180]                  @ 4-byte Reload
	ldr	r2, [sp, #184]                  @ 4-byte Reload
	mov	r3, r4
	bl	gcm_v6m.aes_ctr.add_in_batches.add_next.2
	subs	r2, r0, r5
	mov	r2, r1
	sbcs	r2, r6
	blo	.Lgcm_v6m_BB36_8
.Lgcm_v6m_BB36_9:                               @ %"aes_ctr::add_in_batches::AddStreamBlockCipherEncClosure::call::<#dc401293e4f3bac2>.exit"
	add	sp, #476
	pop	{r4, r5, r6, r7, pc}
.Lgcm_v6m_func_end36:
	.size	gcm_v6m.aes_narrow.borrowed_words.call_to_encrypt.2, .Lgcm_v6m_func_end36-gcm_v6m.aes_narrow.borrowed_words.call_to_encrypt.2
	.cantunwind
	.fnend
                                        @ -- End function
	.section	.text.gcm_v6m.aes_ctr.add_in_batches.add_next.2,"ax",%progbits
	.p2align	1                               @ -- Begin function aes_ctr::add_in_batches::add_next::<#9f5b6b63b811461e>
	.type	gcm_v6m.aes_ctr.add_in_batches.add_next.2,%function
	.code	16
	.thumb_func
gcm_v6m.aes_ctr.add_in_batches.add_next.2: @ @gcm_v6m.aes_ctr.add_in_batches.add_next.2
	.fnstart
@ %bb.0:                                @ %start
	.save	{r4, r5, r6, r7, lr}
	push	{r4, r5, r6, r7, lr}
	.pad	#420
	sub	sp, #420
	mov	r7, r3
	mov	r4, r2
	mov	r5, r1
	mov	r6, r0
	add	r0, sp, #164
	str	r0, [sp, #160]                  @ 4-byte Spill
	adds	r0, #32
	movs	r1, #0
	str	r1, [sp, #156]                  @ 4-byte Spill
	movs	r2, #224
	bl	memset
	ldr	r0, [sp, #444]
	str	r0, [sp, #24]                   @ 4-byte Spill
	ldr	r1, [sp, #440]
	str	r1, [sp, #20]                   @ 4-byte Spill
	adds	r4, r1, r4
	adcs	r7, r0
	lsrs	r0, r4, #4
	lsls	r1, r7, #28
	adds	r0, r0, r1
	ldrb	r1, [r5]
	ldrb	r2, [r5, #1]
	lsls	r2, r2, #8
	adds	r1, r2, r1
	ldrb	r2, [r5, #2]
	lsls	r2, r2, #16
	ldrb	r3, [r5, #3]
	lsls	r3, r3, #24
	adds	r2, r3, r2
	adds	r1, r2, r1
	adds	r7, r1, r0
	str	r7, [sp, #164]
	ldr	r0, [sp, #160]                  @ 4-byte Reload
	adds	r0, r0, #4
	adds	r1, r5, #4
	str	r1, [sp, #152]                  @ 4-byte Spill
	movs	r5, #12
	mov	r2, r5
	bl	memcpy
	adds	r0, r7, #1
	str	r0, [sp, #180]
	ldr	r0, [sp, #160]                  @ 4-byte Reload
	adds	r0, #20
	ldr	r1, [sp, #152]                  @ 4-byte Reload
	ldr	r7, [sp, #20]                   @ 4-byte Reload
	str	r5, [sp, #16]                   @ 4-byte Spill
	mov	r2, r5
	bl	memcpy
	ldr	r3, [sp, #460]
	ldr	r0, [sp, #456]
	str	r0, [sp, #148]                  @ 4-byte Spill
	subs	r5, r0, r7
	str	r3, [sp, #152]                  @ 4-byte Spill
	ldr	r0, [sp, #24]                   @ 4-byte Reload
	sbcs	r3, r0
	movs	r0, #15
	str	r0, [sp, #28]                   @ 4-byte Spill
	ands	r4, r0
	movs	r0, #32
	str	r4, [sp, #32]                   @ 4-byte Spill
	subs	r1, r0, r4
	ldr	r4, [sp, #156]                  @ 4-byte Reload
	movs	r0, #1
	subs	r2, r5, r1
	mov	r2, r3
	sbcs	r2, r4
	bhs	.Lgcm_v6m_BB37_6
@ %bb.1:                                @ %start
	bhs	.Lgcm_v6m_BB37_7
.Lgcm_v6m_BB37_2:                               @ %start
	cmp	r0, #0
	bne	.Lgcm_v6m_BB37_4
.Lgcm_v6m_BB37_3:                               @ %start
	mov	r3, r0
.Lgcm_v6m_BB37_4:                               @ %start
	str	r3, [sp, #36]                   @ 4-byte Spill
	ldrb	r0, [r6, #12]
	ldrb	r1, [r6, #13]
	lsls	r1, r1, #8
	adds	r0, r1, r0
	ldrb	r1, [r6, #14]
	lsls	r1, r1, #16
	ldrb	r2, [r6, #15]
	lsls	r2, r2, #24
	adds	r1, r2, r1
	adds	r3, r1, r0
	ldrb	r0, [r6, #8]
	ldrb	r1, [r6, #9]
	lsls	r1, r1, #8
	adds	r0, r1, r0
	ldrb	r1, [r6, #10]
	lsls	r1, r1, #16
	ldrb	r2, [r6, #11]
	lsls	r2, r2, #24
	adds	r1, r2, r1
	adds	r2, r1, r0
	ldrb	r0, [r6]
	ldrb	r1, [r6, #1]
	lsls	r1, r1, #8
	adds	r0, r1, r0
	ldrb	r1, [r6, #2]
	lsls	r1, r1, #16
	ldrb	r4, [r6, #3]
	lsls	r4, r4, #24
	adds	r1, r4, r1
	adds	r0, r1, r0
	str	r5, [sp, #40]                   @ 4-byte Spill
	ldr	r6, [sp, #32]                   @ 4-byte Reload
	adds	r1, r6, r5
	adds	r1, #15
	movs	r5, #112
	ands	r5, r1
	ldr	r4, [sp, #448]
	movs	r1, #0
	cmp	r5, #16
	bne	.Lgcm_v6m_BB37_8
@ %bb.5:                                @ %then.1.i.i.i
	movs	r5, #1
	b	.Lgcm_v6m_BB37_9
.Lgcm_v6m_BB37_6:                               @ %start
	mov	r5, r1
	blo	.Lgcm_v6m_BB37_2
.Lgcm_v6m_BB37_7:                               @ %start
	mov	r0, r4
	cmp	r0, #0
	beq	.Lgcm_v6m_BB37_3
	b	.Lgcm_v6m_BB37_4
.Lgcm_v6m_BB37_8:                               @ %else.2.i.i.i
	movs	r5, #2
.Lgcm_v6m_BB37_9:                               @ %"aes_ctr::keystream::fill_by_backend::<#9f5b6b63b811461e>.exit"
	str	r5, [sp, #8]
	str	r1, [sp, #12]
	add	r1, sp, #164
	str	r1, [sp]
	bl	gcm_v6m.aes_soft.soft.blocks.filled_up.process_filled_up
	adds	r0, r4, r7
	str	r0, [sp, #160]                  @ 4-byte Spill
	movs	r1, #0
	cmp	r6, #0
	ldr	r3, [sp, #36]                   @ 4-byte Reload
	ldr	r5, [sp, #40]                   @ 4-byte Reload
	beq	.Lgcm_v6m_BB37_16
@ %bb.10:                               @ %then.1.i
	str	r1, [sp, #140]                  @ 4-byte Spill
	movs	r0, #16
	subs	r2, r0, r6
	movs	r0, #1
	movs	r1, #0
	subs	r4, r5, r2
	mov	r4, r3
	sbcs	r4, r1
	mov	r4, r5
	bhs	.Lgcm_v6m_BB37_17
@ %bb.11:                               @ %then.1.i
	bhs	.Lgcm_v6m_BB37_18
.Lgcm_v6m_BB37_12:                              @ %then.1.i
	cmp	r0, #0
	mov	r2, r3
	bne	.Lgcm_v6m_BB37_14
.Lgcm_v6m_BB37_13:                              @ %then.1.i
	mov	r2, r0
.Lgcm_v6m_BB37_14:                              @ %then.1.i
	ldr	r6, [sp, #148]                  @ 4-byte Reload
	eors	r6, r7
	ldr	r0, [sp, #24]                   @ 4-byte Reload
	ldr	r1, [sp, #152]                  @ 4-byte Reload
	eors	r1, r0
	orrs	r1, r6
	bne	.Lgcm_v6m_BB37_19
@ %bb.15:
	ldr	r7, [sp, #28]                   @ 4-byte Reload
	ldr	r1, [sp, #140]                  @ 4-byte Reload
	b	.Lgcm_v6m_BB37_29
.Lgcm_v6m_BB37_16:
	mov	r4, r1
	mov	r2, r1
	ldr	r7, [sp, #28]                   @ 4-byte Reload
	b	.Lgcm_v6m_BB37_29
.Lgcm_v6m_BB37_17:                              @ %then.1.i
	mov	r4, r2
	blo	.Lgcm_v6m_BB37_12
.Lgcm_v6m_BB37_18:                              @ %then.1.i
	mov	r0, r1
	cmp	r0, #0
	mov	r2, r3
	beq	.Lgcm_v6m_BB37_13
	b	.Lgcm_v6m_BB37_14
.Lgcm_v6m_BB37_19:                              @ %join.8.i85.preheader
	movs	r1, #3
	mov	r5, r4
	ands	r5, r1
	movs	r6, #0
	subs	r0, r4, #4
	str	r2, [sp, #152]                  @ 4-byte Spill
	mov	r0, r2
	sbcs	r0, r6
	ldr	r7, [sp, #160]                  @ 4-byte Reload
	str	r4, [sp, #156]                  @ 4-byte Spill
	blo	.Lgcm_v6m_BB37_23
@ %bb.20:                               @ %join.8.i85.preheader.new
	str	r5, [sp, #136]                  @ 4-byte Spill
	movs	r0, #28
	ands	r0, r4
	str	r0, [sp, #148]                  @ 4-byte Spill
	movs	r2, #0
	mov	r6, r2
	str	r1, [sp, #144]                  @ 4-byte Spill
	mov	r1, r2
	ldr	r0, [sp, #32]                   @ 4-byte Reload
.Lgcm_v6m_BB37_21:                              @ %join.8.i85
                                        @ =>This Inner Loop Header: Depth=1
	ldr	r3, [sp, #160]                  @ 4-byte Reload
	ldrb	r7, [r3, r6]
	adds	r3, r6, r0
	add	r5, sp, #164
	ldrb	r3, [r5, r3]
	eors	r3, r7
	ldr	r4, [sp, #160]                  @ 4-byte Reload
	strb	r3, [r4, r6]
	movs	r3, #1
	orrs	r3, r6
	ldr	r4, [sp, #160]                  @ 4-byte Reload
	ldrb	r7, [r4, r3]
	adds	r4, r3, r0
	ldrb	r4, [r5, r4]
	eors	r4, r7
	ldr	r7, [sp, #160]                  @ 4-byte Reload
	strb	r4, [r7, r3]
	movs	r3, #2
	orrs	r3, r6
	ldr	r4, [sp, #160]                  @ 4-byte Reload
	ldrb	r4, [r4, r3]
	adds	r7, r3, r0
	ldrb	r7, [r5, r7]
	eors	r7, r4
	ldr	r4, [sp, #160]                  @ 4-byte Reload
	strb	r7, [r4, r3]
	mov	r3, r6
	ldr	r4, [sp, #144]                  @ 4-byte Reload
	orrs	r3, r4
	ldr	r4, [sp, #160]                  @ 4-byte Reload
	ldrb	r4, [r4, r3]
	adds	r7, r3, r0
	ldrb	r5, [r5, r7]
	ldr	r7, [sp, #160]                  @ 4-byte Reload
	eors	r5, r4
	strb	r5, [r7, r3]
	adds	r6, r6, #4
	adcs	r1, r2
	mov	r3, r6
	ldr	r4, [sp, #148]                  @ 4-byte Reload
	eors	r3, r4
	orrs	r3, r1
	bne	.Lgcm_v6m_BB37_21
@ %bb.22:                               @ %join.3.i.loopexit.unr-lcssa
	ldr	r5, [sp, #136]                  @ 4-byte Reload
	cmp	r5, #0
	ldr	r3, [sp, #36]                   @ 4-byte Reload
	ldr	r4, [sp, #156]                  @ 4-byte Reload
	bne	.Lgcm_v6m_BB37_23
	b	.Lgcm_v6m_BB37_41
.Lgcm_v6m_BB37_23:                              @ %join.8.i85.epil.preheader
	ldrb	r0, [r7, r6]
	ldr	r4, [sp, #32]                   @ 4-byte Reload
	adds	r1, r6, r4
	add	r2, sp, #164
	ldrb	r1, [r2, r1]
	eors	r1, r0
	strb	r1, [r7, r6]
	cmp	r5, #1
	mov	r1, r7
	ldr	r7, [sp, #28]                   @ 4-byte Reload
	beq	.Lgcm_v6m_BB37_27
@ %bb.24:                               @ %join.8.i85.epil.1
	adds	r0, r6, #1
	ldrb	r2, [r1, r0]
	str	r2, [sp, #148]                  @ 4-byte Spill
	adds	r2, r0, r4
	add	r3, sp, #164
	ldrb	r2, [r3, r2]
	ldr	r3, [sp, #148]                  @ 4-byte Reload
	eors	r2, r3
	strb	r2, [r1, r0]
	cmp	r5, #2
	beq	.Lgcm_v6m_BB37_26
@ %bb.25:                               @ %join.8.i85.epil.2
	adds	r0, r6, #2
	ldrb	r6, [r1, r0]
	adds	r2, r0, r4
	add	r3, sp, #164
	ldrb	r2, [r3, r2]
	eors	r2, r6
	strb	r2, [r1, r0]
.Lgcm_v6m_BB37_26:                              @ %join.3.i
	ldr	r3, [sp, #36]                   @ 4-byte Reload
.Lgcm_v6m_BB37_27:                              @ %join.3.i
	ldr	r4, [sp, #156]                  @ 4-byte Reload
.Lgcm_v6m_BB37_28:                              @ %join.3.i
	ldr	r2, [sp, #152]                  @ 4-byte Reload
	ldr	r1, [sp, #140]                  @ 4-byte Reload
	ldr	r5, [sp, #40]                   @ 4-byte Reload
.Lgcm_v6m_BB37_29:                              @ %join.3.i
	subs	r6, r5, r4
	mov	r5, r3
	sbcs	r5, r2
	mov	r0, r6
	subs	r0, #16
	mov	r0, r5
	sbcs	r0, r1
	bhs	.Lgcm_v6m_BB37_30
	b	.Lgcm_v6m_BB37_31
.Lgcm_v6m_BB37_30:                              @ %join.8.i
                                        @ =>This Inner Loop Header: Depth=1
	str	r2, [sp, #152]                  @ 4-byte Spill
	str	r4, [sp, #156]                  @ 4-byte Spill
	ldr	r5, [sp, #160]                  @ 4-byte Reload
	ldrb	r0, [r5, r4]
	ldr	r1, [sp, #32]                   @ 4-byte Reload
	adds	r1, r4, r1
	bics	r1, r7
	add	r2, sp, #164
	ldrb	r3, [r2, r1]
	eors	r3, r0
	str	r3, [sp, #80]                   @ 4-byte Spill
	adds	r3, r5, r4
	ldrb	r0, [r3, #1]
	str	r0, [sp, #148]                  @ 4-byte Spill
	adds	r0, r2, r1
	ldrb	r1, [r0, #1]
	str	r1, [sp, #144]                  @ 4-byte Spill
	ldrb	r1, [r3, #2]
	str	r1, [sp, #140]                  @ 4-byte Spill
	ldrb	r1, [r0, #2]
	str	r1, [sp, #136]                  @ 4-byte Spill
	ldrb	r1, [r3, #3]
	str	r1, [sp, #132]                  @ 4-byte Spill
	ldrb	r1, [r0, #3]
	str	r1, [sp, #128]                  @ 4-byte Spill
	ldrb	r1, [r3, #4]
	str	r1, [sp, #124]                  @ 4-byte Spill
	ldrb	r1, [r0, #4]
	str	r1, [sp, #120]                  @ 4-byte Spill
	ldrb	r1, [r3, #5]
	str	r1, [sp, #116]                  @ 4-byte Spill
	ldrb	r1, [r0, #5]
	str	r1, [sp, #112]                  @ 4-byte Spill
	ldrb	r1, [r3, #6]
	str	r1, [sp, #108]                  @ 4-byte Spill
	ldrb	r1, [r0, #6]
	str	r1, [sp, #104]                  @ 4-byte Spill
	ldrb	r1, [r3, #7]
	str	r1, [sp, #100]                  @ 4-byte Spill
	ldrb	r1, [r0, #7]
	str	r1, [sp, #96]                   @ 4-byte Spill
	ldrb	r1, [r3, #8]
	str	r1, [sp, #92]                   @ 4-byte Spill
	ldrb	r1, [r0, #8]
	str	r1, [sp, #88]                   @ 4-byte Spill
	ldrb	r1, [r3, #9]
	str	r1, [sp, #84]                   @ 4-byte Spill
	ldrb	r1, [r0, #9]
	str	r1, [sp, #76]                   @ 4-byte Spill
	ldrb	r1, [r3, #10]
	str	r1, [sp, #72]                   @ 4-byte Spill
	ldrb	r1, [r0, #10]
	str	r1, [sp, #68]                   @ 4-byte Spill
	ldrb	r1, [r3, #11]
	str	r1, [sp, #64]                   @ 4-byte Spill
	ldrb	r1, [r0, #11]
	str	r1, [sp, #60]                   @ 4-byte Spill
	ldrb	r1, [r3, #12]
	str	r1, [sp, #56]                   @ 4-byte Spill
	ldrb	r4, [r0, #12]
	ldrb	r1, [r3, #13]
	str	r1, [sp, #52]                   @ 4-byte Spill
	ldrb	r2, [r0, #13]
	ldrb	r1, [r3, #14]
	str	r1, [sp, #48]                   @ 4-byte Spill
	ldrb	r1, [r0, #14]
	ldrb	r5, [r3, #15]
	str	r5, [sp, #44]                   @ 4-byte Spill
	ldrb	r0, [r0, #15]
	ldr	r7, [sp, #156]                  @ 4-byte Reload
	ldr	r6, [sp, #80]                   @ 4-byte Reload
	ldr	r5, [sp, #160]                  @ 4-byte Reload
	strb	r6, [r5, r7]
	ldr	r5, [sp, #44]                   @ 4-byte Reload
	eors	r0, r5
	ldr	r7, [sp, #28]                   @ 4-byte Reload
	strb	r0, [r3, #15]
	ldr	r0, [sp, #48]                   @ 4-byte Reload
	eors	r1, r0
	strb	r1, [r3, #14]
	ldr	r0, [sp, #52]                   @ 4-byte Reload
	eors	r2, r0
	strb	r2, [r3, #13]
	ldr	r2, [sp, #152]                  @ 4-byte Reload
	ldr	r0, [sp, #56]                   @ 4-byte Reload
	eors	r4, r0
	strb	r4, [r3, #12]
	ldr	r4, [sp, #156]                  @ 4-byte Reload
	ldr	r0, [sp, #64]                   @ 4-byte Reload
	ldr	r1, [sp, #60]                   @ 4-byte Reload
	eors	r1, r0
	strb	r1, [r3, #11]
	ldr	r0, [sp, #72]                   @ 4-byte Reload
	ldr	r1, [sp, #68]                   @ 4-byte Reload
	eors	r1, r0
	strb	r1, [r3, #10]
	ldr	r0, [sp, #84]                   @ 4-byte Reload
	ldr	r1, [sp, #76]                   @ 4-byte Reload
	eors	r1, r0
	strb	r1, [r3, #9]
	ldr	r0, [sp, #92]                   @ 4-byte Reload
	ldr	r1, [sp, #88]                   @ 4-byte Reload
	eors	r1, r0
	strb	r1, [r3, #8]
	ldr	r0, [sp, #100]                  @ 4-byte Reload
	ldr	r1, [sp, #96]                   @ 4-byte Reload
	eors	r1, r0
	strb	r1, [r3, #7]
	ldr	r0, [sp, #108]                  @ 4-byte Reload
	ldr	r1, [sp, #104]                  @ 4-byte Reload
	eors	r1, r0
	strb	r1, [r3, #6]
	ldr	r0, [sp, #116]                  @ 4-byte Reload
	ldr	r1, [sp, #112]                  @ 4-byte Reload
	eors	r1, r0
	strb	r1, [r3, #5]
	ldr	r0, [sp, #124]                  @ 4-byte Reload
	ldr	r1, [sp, #120]                  @ 4-byte Reload
	eors	r1, r0
	strb	r1, [r3, #4]
	ldr	r0, [sp, #132]                  @ 4-byte Reload
	ldr	r1, [sp, #128]                  @ 4-byte Reload
	eors	r1, r0
	strb	r1, [r3, #3]
	ldr	r0, [sp, #140]                  @ 4-byte Reload
	ldr	r1, [sp, #136]                  @ 4-byte Reload
	eors	r1, r0
	strb	r1, [r3, #2]
	ldr	r0, [sp, #148]                  @ 4-byte Reload
	ldr	r1, [sp, #144]                  @ 4-byte Reload
	eors	r1, r0
	strb	r1, [r3, #1]
	ldr	r3, [sp, #36]                   @ 4-byte Reload
	movs	r0, #0
	adds	r4, #16
	adcs	r2, r0
	ldr	r1, [sp, #40]                   @ 4-byte Reload
	subs	r6, r1, r4
	mov	r5, r3
	sbcs	r5, r2
	subs	r1, r7, r6
	sbcs	r0, r5
	bhs	.Lgcm_v6m_BB37_31
	b	.Lgcm_v6m_BB37_30
.Lgcm_v6m_BB37_31:                              @ %after.4.i
	ldr	r0, [sp, #40]                   @ 4-byte Reload
	subs	r0, r4, r0
	sbcs	r2, r3
	bhs	.Lgcm_v6m_BB37_40
@ %bb.32:                               @ %then.9.i
	add	r1, sp, #164
	mov	r0, r6
	orrs	r0, r5
	beq	.Lgcm_v6m_BB37_40
@ %bb.33:                               @ %join.8.i28.preheader
	ldr	r0, [sp, #160]                  @ 4-byte Reload
	adds	r0, r0, r4
	ldr	r2, [sp, #32]                   @ 4-byte Reload
	adds	r2, r4, r2
	bics	r2, r7
	adds	r1, r1, r2
	movs	r4, #3
	mov	r2, r6
	ands	r2, r4
	movs	r3, #0
	subs	r7, r6, #4
	mov	r7, r2
	sbcs	r5, r3
	blo	.Lgcm_v6m_BB37_37
@ %bb.34:                               @ %join.8.i28.preheader.new
	str	r7, [sp, #152]                  @ 4-byte Spill
	ldr	r2, [sp, #16]                   @ 4-byte Reload
	ands	r6, r2
	movs	r7, #0
	mov	r3, r7
	str	r7, [sp, #160]                  @ 4-byte Spill
	str	r4, [sp, #156]                  @ 4-byte Spill
.Lgcm_v6m_BB37_35:                              @ %join.8.i28
                                        @ =>This Inner Loop Header: Depth=1
	ldrb	r2, [r1, r3]
	ldrb	r4, [r0, r3]
	eors	r4, r2
	strb	r4, [r0, r3]
	movs	r2, #1
	orrs	r2, r3
	ldrb	r4, [r1, r2]
	ldrb	r5, [r0, r2]
	eors	r5, r4
	strb	r5, [r0, r2]
	movs	r2, #2
	orrs	r2, r3
	ldrb	r4, [r1, r2]
	ldrb	r5, [r0, r2]
	eors	r5, r4
	strb	r5, [r0, r2]
	mov	r2, r3
	ldr	r4, [sp, #156]                  @ 4-byte Reload
	orrs	r2, r4
	ldrb	r4, [r1, r2]
	ldrb	r5, [r0, r2]
	eors	r5, r4
	strb	r5, [r0, r2]
	adds	r3, r3, #4
	ldr	r2, [sp, #160]                  @ 4-byte Reload
	adcs	r7, r2
	mov	r2, r3
	eors	r2, r6
	orrs	r2, r7
	bne	.Lgcm_v6m_BB37_35
@ %bb.36:                               @ %"aes_ctr::add_blocks::add_blocks.exit.loopexit.unr-lcssa"
	ldr	r7, [sp, #152]                  @ 4-byte Reload
	cmp	r7, #0
	beq	.Lgcm_v6m_BB37_40
.Lgcm_v6m_BB37_37:                              @ %join.8.i28.epil.preheader
	ldrb	r2, [r1, r3]
	ldrb	r4, [r0, r3]
	eors	r4, r2
	strb	r4, [r0, r3]
	cmp	r7, #1
	beq	.Lgcm_v6m_BB37_40
@ %bb.38:                               @ %join.8.i28.epil.1
	adds	r2, r3, #1
	ldrb	r4, [r1, r2]
	ldrb	r5, [r0, r2]
	eors	r5, r4
	strb	r5, [r0, r2]
	cmp	r7, #2
	beq	.Lgcm_v6m_BB37_40
@ %bb.39:                               @ %join.8.i28.epil.2
	adds	r2, r3, #2
	ldrb	r1, [r1, r2]
	ldrb	r3, [r0, r2]
	eors	r3, r1
	strb	r3, [r0, r2]
.Lgcm_v6m_BB37_40:                              @ %"aes_ctr::add_blocks::add_blocks.exit"
	ldr	r0, [sp, #20]                   @ 4-byte Reload
	ldr	r1, [sp, #40]                   @ 4-byte Reload
	adds	r0, r1, r0
	ldr	r1, [sp, #24]                   @ 4-byte Reload
	ldr	r2, [sp, #36]                   @ 4-byte Reload
	adcs	r2, r1
	mov	r1, r2
	add	sp, #420
	pop	{r4, r5, r6, r7, pc}
.Lgcm_v6m_BB37_41:
	ldr	r7, [sp, #28]                   @ 4-byte Reload
	b	.Lgcm_v6m_BB37_28
.Lgcm_v6m_func_end37:
	.size	gcm_v6m.aes_ctr.add_in_batches.add_next.2, .Lgcm_v6m_func_end37-gcm_v6m.aes_ctr.add_in_batches.add_next.2
	.cantunwind
	.fnend
                                        @ -- End function
	.section	.text.gcm_v6m.aes_cipher.zeroize.stack.wipe_stack.2816,"ax",%progbits
	.p2align	2                               @ -- Begin function aes_cipher::zeroize::stack::wipe_stack::<=2816>
	.type	gcm_v6m.aes_cipher.zeroize.stack.wipe_stack.2816,%function
	.code	16
	.thumb_func
gcm_v6m.aes_cipher.zeroize.stack.wipe_stack.2816: @ @gcm_v6m.aes_cipher.zeroize.stack.wipe_stack.2816
	.fnstart
@ %bb.0:                                @ %start
	.save	{r4, r5, r6, lr}
	push	{r4, r5, r6, lr}
	ldr	r6, .Lgcm_v6m_CPI38_0
	.pad	#2824
	add	sp, r6
	movs	r0, #11
	lsls	r2, r0, #8
	add	r0, sp, #8
	movs	r4, #0
	mov	r1, r4
	bl	memset
	str	r4, [sp, #4]
	str	r4, [sp]
	@APP
	@NO_APP
	ldr	r1, [sp, #4]
	lsls	r2, r1, #24
	ldr	r0, [sp]
	lsrs	r3, r0, #8
	adds	r2, r3, r2
	@APP
	@NO_APP
	lsrs	r1, r1, #8
	subs	r2, #11
	sbcs	r1, r4
	bhs	.Lgcm_v6m_BB38_2
@ %bb.1:                                @ %then.1
	add	r1, sp, #8
	ldrb	r0, [r1, r0]
	@APP
	@NO_APP
	ldr	r1, [sp, #4]
	ldr	r1, [sp]
	str	r4, [sp, #4]
	str	r0, [sp]
	@APP
	@NO_APP
.Lgcm_v6m_BB38_2:                               @ %common.ret
	ldr	r6, .Lgcm_v6m_CPI38_1
	add	sp, r6
	pop	{r4, r5, r6, pc}
	.p2align	2
@ %bb.3:
.Lgcm_v6m_CPI38_0:
	.long	4294964472                      @ 0xfffff4f8
.Lgcm_v6m_CPI38_1:
	.long	2824                            @ 0xb08
.Lgcm_v6m_func_end38:
	.size	gcm_v6m.aes_cipher.zeroize.stack.wipe_stack.2816, .Lgcm_v6m_func_end38-gcm_v6m.aes_cipher.zeroize.stack.wipe_stack.2816
	.cantunwind
	.fnend
                                        @ -- End function
	.section	.text.gcm_v6m.gcm_siv.course.seal_in,"ax",%progbits
	.p2align	1                               @ -- Begin function gcm_siv::course::seal_in::<#a4ece9b7a9859b66>
	.type	gcm_v6m.gcm_siv.course.seal_in,%function
	.code	16
	.thumb_func
gcm_v6m.gcm_siv.course.seal_in: @ @gcm_v6m.gcm_siv.course.seal_in
	.fnstart
@ %bb.0:                                @ %start
	.save	{r4, r5, r6, r7, lr}
	push	{r4, r5, r6, r7, lr}
	.pad	#508
	sub	sp, #508
	.pad	#64
	sub	sp, #64
	str	r3, [sp, #44]                   @ 4-byte Spill
	str	r2, [sp, #36]                   @ 4-byte Spill
	mov	r5, r1
	str	r0, [sp, #52]                   @ 4-byte Spill
	add	r7, sp, #72
	adds	r0, r7, #4
	str	r0, [sp, #48]                   @ 4-byte Spill
	movs	r1, #15
	lsls	r2, r1, #5
	movs	r6, #0
	mov	r1, r6
	bl	memset
	str	r6, [sp, #72]
	add	r4, sp, #556
	str	r4, [sp, #8]
	str	r7, [sp, #4]
	ldr	r0, [sp, #592]
	str	r0, [sp, #40]                   @ 4-byte Spill
	str	r0, [sp]
	mov	r0, r5
	ldr	r2, [sp, #36]                   @ 4-byte Reload
	ldr	r3, [sp, #44]                   @ 4-byte Reload
	bl	gcm_v6m.gcm_siv.keys.derive_and_prepare
	ldr	r0, [sp, #620]
	str	r0, [sp, #28]
	ldr	r0, [sp, #616]
	str	r0, [sp, #24]
	ldr	r0, [sp, #608]
	str	r0, [sp, #16]
	ldr	r0, [sp, #604]
	str	r0, [sp, #12]
	ldr	r0, [sp, #600]
	str	r0, [sp, #8]
	ldr	r0, [sp, #596]
	str	r0, [sp]
	add	r5, sp, #56
	mov	r0, r5
	mov	r1, r7
	mov	r2, r4
	ldr	r3, [sp, #40]                   @ 4-byte Reload
	bl	gcm_v6m.gcm_siv.message.seal
	str	r6, [sp, #72]
	ldr	r0, [sp, #48]                   @ 4-byte Reload
	bl	gcm_v6m.aes_cipher.zeroize.elements.zeroize_elements.1
	mov	r0, r4
	bl	gcm_v6m.aes_cipher.zeroize.elements.zeroize_elements.2
	bl	gcm_v6m.aes_cipher.zeroize.stack.wipe_stack.2816
	movs	r2, #16
	ldr	r0, [sp, #52]                   @ 4-byte Reload
	mov	r1, r5
	bl	memcpy
	add	sp, #508
	add	sp, #64
	pop	{r4, r5, r6, r7, pc}
.Lgcm_v6m_func_end39:
	.size	gcm_v6m.gcm_siv.course.seal_in, .Lgcm_v6m_func_end39-gcm_v6m.gcm_siv.course.seal_in
	.cantunwind
	.fnend
                                        @ -- End function
	.section	.text.gcm_v6m.gcm_siv.message.seal,"ax",%progbits
	.p2align	1                               @ -- Begin function gcm_siv::message::seal::<#bc93ff5f0cc4cd41>
	.type	gcm_v6m.gcm_siv.message.seal,%function
	.code	16
	.thumb_func
gcm_v6m.gcm_siv.message.seal: @ @gcm_v6m.gcm_siv.message.seal
	.fnstart
@ %bb.0:                                @ %start
	.save	{r4, r5, r6, r7, lr}
	push	{r4, r5, r6, r7, lr}
	.pad	#60
	sub	sp, #60
	str	r3, [sp, #36]                   @ 4-byte Spill
	str	r1, [sp, #32]                   @ 4-byte Spill
	str	r0, [sp, #40]                   @ 4-byte Spill
	add	r5, sp, #44
	str	r5, [sp, #24]
	ldr	r4, [sp, #108]
	str	r4, [sp, #20]
	ldr	r6, [sp, #104]
	str	r6, [sp, #16]
	ldr	r7, [sp, #96]
	str	r7, [sp, #8]
	ldr	r0, [sp, #92]
	str	r0, [sp, #4]
	ldr	r0, [sp, #88]
	str	r0, [sp]
	ldr	r3, [sp, #80]
	mov	r0, r1
	mov	r1, r2
	ldr	r2, [sp, #36]                   @ 4-byte Reload
	bl	gcm_v6m.gcm_siv.message.put_tag
	str	r6, [sp]
	str	r4, [sp, #4]
	ldr	r0, [sp, #32]                   @ 4-byte Reload
	mov	r1, r5
	mov	r2, r7
	bl	gcm_v6m.gcm_siv.message.process_text
	movs	r2, #16
	ldr	r0, [sp, #40]                   @ 4-byte Reload
	mov	r1, r5
	bl	memcpy
	add	sp, #60
	pop	{r4, r5, r6, r7, pc}
.Lgcm_v6m_func_end40:
	.size	gcm_v6m.gcm_siv.message.seal, .Lgcm_v6m_func_end40-gcm_v6m.gcm_siv.message.seal
	.cantunwind
	.fnend
                                        @ -- End function
	.section	.text.gcm_v6m.gcm.hash_room.hash_piece,"ax",%progbits
	.p2align	1                               @ -- Begin function gcm::hash_room::hash_piece::<#d9ba0fa9ccec4268>
	.type	gcm_v6m.gcm.hash_room.hash_piece,%function
	.code	16
	.thumb_func
gcm_v6m.gcm.hash_room.hash_piece: @ @gcm_v6m.gcm.hash_room.hash_piece
	.fnstart
@ %bb.0:                                @ %start
	.save	{r4, r5, r6, r7, lr}
	push	{r4, r5, r6, r7, lr}
	.pad	#164
	sub	sp, #164
	mov	r6, r1
	str	r0, [sp, #152]                  @ 4-byte Spill
	ldr	r1, [sp, #188]
	movs	r7, #0
	ldr	r3, [sp, #184]
	movs	r0, #16
	str	r3, [sp, #148]                  @ 4-byte Spill
	subs	r0, r0, r3
	mov	r5, r7
	str	r1, [sp, #140]                  @ 4-byte Spill
	sbcs	r5, r1
	ldr	r4, [sp, #204]
	ldr	r3, [sp, #200]
	ldr	r1, [sp, #192]
	str	r0, [sp, #156]                  @ 4-byte Spill
	subs	r0, r3, r0
	mov	r0, r4
	sbcs	r0, r5
	str	r7, [sp, #160]                  @ 4-byte Spill
	bhs	.Lgcm_v6m_BB41_10
@ %bb.1:                                @ %then.1
	ldr	r0, [sp, #148]                  @ 4-byte Reload
	adds	r0, r2, r0
	subs	r2, r0, r1
	ldr	r6, [sp, #160]                  @ 4-byte Reload
	mov	r5, r6
	sbcs	r5, r6
	subs	r2, r2, r3
	sbcs	r5, r4
	blo	.Lgcm_v6m_BB41_2
	b	.Lgcm_v6m_BB41_18
.Lgcm_v6m_BB41_2:                               @ %join.7.i.i.i.i.i.i.preheader
	mov	r2, r6
	movs	r5, #3
	mov	r7, r3
	ands	r7, r5
	subs	r6, r3, #4
	sbcs	r4, r2
	mov	r4, r2
	blo	.Lgcm_v6m_BB41_6
@ %bb.3:                                @ %join.7.i.i.i.i.i.i.preheader.new
	str	r7, [sp, #156]                  @ 4-byte Spill
	movs	r4, #15
	mvns	r4, r4
	adds	r4, #12
	ands	r3, r4
	mov	r4, r2
	mov	r6, r2
.Lgcm_v6m_BB41_4:                               @ %join.7.i.i.i.i.i.i
                                        @ =>This Inner Loop Header: Depth=1
	ldrb	r7, [r1, r4]
	strb	r7, [r0, r4]
	movs	r7, #1
	orrs	r7, r4
	ldrb	r2, [r1, r7]
	strb	r2, [r0, r7]
	movs	r2, #2
	orrs	r2, r4
	ldrb	r7, [r1, r2]
	strb	r7, [r0, r2]
	mov	r2, r4
	orrs	r2, r5
	ldrb	r7, [r1, r2]
	strb	r7, [r0, r2]
	adds	r4, r4, #4
	ldr	r2, [sp, #160]                  @ 4-byte Reload
	adcs	r6, r2
	mov	r2, r4
	eors	r2, r3
	orrs	r2, r6
	bne	.Lgcm_v6m_BB41_4
@ %bb.5:                                @ %common.ret.loopexit.unr-lcssa
	ldr	r7, [sp, #156]                  @ 4-byte Reload
	cmp	r7, #0
	beq	.Lgcm_v6m_BB41_9
.Lgcm_v6m_BB41_6:                               @ %join.7.i.i.i.i.i.i.epil.preheader
	ldrb	r3, [r1, r4]
	strb	r3, [r0, r4]
	cmp	r7, #1
	beq	.Lgcm_v6m_BB41_9
@ %bb.7:                                @ %join.7.i.i.i.i.i.i.epil.1
	adds	r3, r4, #1
	ldrb	r5, [r1, r3]
	strb	r5, [r0, r3]
	cmp	r7, #2
	beq	.Lgcm_v6m_BB41_9
@ %bb.8:                                @ %join.7.i.i.i.i.i.i.epil.2
	adds	r2, r4, #2
	ldrb	r1, [r1, r2]
	strb	r1, [r0, r2]
.Lgcm_v6m_BB41_9:                               @ %common.ret
	add	sp, #164
	pop	{r4, r5, r6, r7, pc}
.Lgcm_v6m_BB41_10:                              @ %join.3
	ldr	r7, [sp, #156]                  @ 4-byte Reload
	subs	r0, r3, r7
	str	r0, [sp, #132]                  @ 4-byte Spill
	sbcs	r4, r5
	adds	r0, r1, r7
	str	r0, [sp, #144]                  @ 4-byte Spill
	ldrb	r0, [r6]
	lsls	r0, r0, #24
	ldrb	r3, [r6, #1]
	lsls	r3, r3, #16
	adds	r0, r3, r0
	ldrb	r3, [r6, #2]
	lsls	r3, r3, #8
	adds	r0, r0, r3
	ldrb	r3, [r6, #3]
	adds	r0, r0, r3
	str	r0, [sp, #128]                  @ 4-byte Spill
	ldrb	r0, [r6, #5]
	lsls	r0, r0, #16
	ldrb	r3, [r6, #4]
	lsls	r3, r3, #24
	adds	r0, r3, r0
	ldrb	r3, [r6, #6]
	lsls	r3, r3, #8
	adds	r0, r0, r3
	ldrb	r3, [r6, #7]
	adds	r0, r0, r3
	str	r0, [sp, #124]                  @ 4-byte Spill
	ldrb	r0, [r6, #8]
	lsls	r0, r0, #24
	ldrb	r3, [r6, #9]
	lsls	r3, r3, #16
	adds	r0, r3, r0
	ldrb	r3, [r6, #10]
	lsls	r3, r3, #8
	adds	r0, r0, r3
	ldrb	r3, [r6, #11]
	adds	r0, r0, r3
	str	r0, [sp, #120]                  @ 4-byte Spill
	ldrb	r0, [r6, #13]
	lsls	r0, r0, #16
	ldrb	r3, [r6, #12]
	lsls	r3, r3, #24
	adds	r0, r3, r0
	ldrb	r3, [r6, #14]
	lsls	r3, r3, #8
	adds	r0, r0, r3
	ldrb	r3, [r6, #15]
	adds	r0, r0, r3
	str	r0, [sp, #116]                  @ 4-byte Spill
	ldr	r7, [sp, #148]                  @ 4-byte Reload
	str	r2, [sp, #84]                   @ 4-byte Spill
	adds	r0, r2, r7
	subs	r3, r0, r1
	ldr	r4, [sp, #160]                  @ 4-byte Reload
	sbcs	r4, r4
	ldr	r2, [sp, #156]                  @ 4-byte Reload
	subs	r3, r3, r2
	sbcs	r4, r5
	str	r6, [sp, #136]                  @ 4-byte Spill
	bhs	.Lgcm_v6m_BB41_19
@ %bb.11:                               @ %join.7.i.i.i.i.i.i38.preheader
	movs	r2, #3
	ldr	r4, [sp, #156]                  @ 4-byte Reload
	mov	r6, r2
	ands	r4, r2
	movs	r3, #15
	eors	r7, r3
	subs	r3, r7, #3
	ldr	r5, [sp, #160]                  @ 4-byte Reload
	ldr	r2, [sp, #140]                  @ 4-byte Reload
	sbcs	r2, r5
	blo	.Lgcm_v6m_BB41_15
@ %bb.12:                               @ %join.7.i.i.i.i.i.i38.preheader.new
	str	r4, [sp, #148]                  @ 4-byte Spill
	movs	r3, #28
	ldr	r2, [sp, #156]                  @ 4-byte Reload
	ands	r2, r3
	str	r2, [sp, #156]                  @ 4-byte Spill
	movs	r4, #0
	mov	r5, r4
	mov	r3, r4
.Lgcm_v6m_BB41_13:                              @ %join.7.i.i.i.i.i.i38
                                        @ =>This Inner Loop Header: Depth=1
	ldrb	r7, [r1, r5]
	strb	r7, [r0, r5]
	movs	r7, #1
	orrs	r7, r5
	ldrb	r2, [r1, r7]
	strb	r2, [r0, r7]
	movs	r2, #2
	orrs	r2, r5
	ldrb	r7, [r1, r2]
	strb	r7, [r0, r2]
	mov	r2, r5
	orrs	r2, r6
	ldrb	r7, [r1, r2]
	strb	r7, [r0, r2]
	adds	r5, r5, #4
	adcs	r3, r4
	mov	r2, r5
	ldr	r7, [sp, #156]                  @ 4-byte Reload
	eors	r2, r7
	orrs	r2, r3
	bne	.Lgcm_v6m_BB41_13
@ %bb.14:                               @ %"core::slice::edits::slice+T::copy_from_slice::<i8,20'core::clone::U8Clone{}>.exit45.loopexit.unr-lcssa"
	ldr	r4, [sp, #148]                  @ 4-byte Reload
	cmp	r4, #0
	beq	.Lgcm_v6m_BB41_20
.Lgcm_v6m_BB41_15:                              @ %join.7.i.i.i.i.i.i38.epil.preheader
	ldrb	r2, [r1, r5]
	strb	r2, [r0, r5]
	cmp	r4, #1
	beq	.Lgcm_v6m_BB41_20
@ %bb.16:                               @ %join.7.i.i.i.i.i.i38.epil.1
	adds	r2, r5, #1
	ldrb	r3, [r1, r2]
	strb	r3, [r0, r2]
	cmp	r4, #2
	beq	.Lgcm_v6m_BB41_20
@ %bb.17:                               @ %join.7.i.i.i.i.i.i38.epil.2
	adds	r2, r5, #2
	ldrb	r1, [r1, r2]
	strb	r1, [r0, r2]
	b	.Lgcm_v6m_BB41_20
.Lgcm_v6m_BB41_18:                              @ %apart.2.i.i.i.i.i.i
	mov	r2, r3
	bl	memmove
	add	sp, #164
	pop	{r4, r5, r6, r7, pc}
.Lgcm_v6m_BB41_19:                              @ %apart.2.i.i.i.i.i.i36
	ldr	r2, [sp, #156]                  @ 4-byte Reload
	bl	memmove
.Lgcm_v6m_BB41_20:                              @ %"core::slice::edits::slice+T::copy_from_slice::<i8,20'core::clone::U8Clone{}>.exit45"
	ldr	r0, [sp, #152]                  @ 4-byte Reload
	ldr	r0, [r0]
	ldrb	r1, [r0]
	lsls	r1, r1, #24
	ldrb	r2, [r0, #1]
	lsls	r2, r2, #16
	adds	r1, r2, r1
	ldrb	r2, [r0, #2]
	lsls	r2, r2, #8
	adds	r1, r1, r2
	ldrb	r2, [r0, #3]
	adds	r1, r1, r2
	str	r1, [sp, #52]                   @ 4-byte Spill
	ldr	r6, [sp, #84]                   @ 4-byte Reload
	ldrb	r1, [r6, #3]
	str	r1, [sp, #156]                  @ 4-byte Spill
	ldrb	r1, [r6, #2]
	str	r1, [sp, #148]                  @ 4-byte Spill
	ldrb	r1, [r6, #1]
	str	r1, [sp, #140]                  @ 4-byte Spill
	ldrb	r1, [r6]
	str	r1, [sp, #112]                  @ 4-byte Spill
	ldrb	r1, [r6, #7]
	str	r1, [sp, #108]                  @ 4-byte Spill
	ldrb	r1, [r6, #6]
	str	r1, [sp, #104]                  @ 4-byte Spill
	ldrb	r1, [r6, #4]
	str	r1, [sp, #100]                  @ 4-byte Spill
	ldrb	r1, [r6, #5]
	str	r1, [sp, #96]                   @ 4-byte Spill
	ldrb	r1, [r6, #11]
	str	r1, [sp, #92]                   @ 4-byte Spill
	ldrb	r1, [r6, #10]
	str	r1, [sp, #88]                   @ 4-byte Spill
	ldrb	r1, [r6, #9]
	str	r1, [sp, #80]                   @ 4-byte Spill
	ldrb	r1, [r6, #8]
	str	r1, [sp, #76]                   @ 4-byte Spill
	ldrb	r1, [r6, #15]
	str	r1, [sp, #72]                   @ 4-byte Spill
	ldrb	r1, [r6, #14]
	str	r1, [sp, #68]                   @ 4-byte Spill
	ldrb	r1, [r6, #12]
	str	r1, [sp, #64]                   @ 4-byte Spill
	ldrb	r1, [r6, #13]
	str	r1, [sp, #60]                   @ 4-byte Spill
	ldrb	r1, [r0, #15]
	str	r1, [sp, #56]                   @ 4-byte Spill
	ldrb	r1, [r0, #14]
	str	r1, [sp, #48]                   @ 4-byte Spill
	ldrb	r1, [r0, #12]
	str	r1, [sp, #44]                   @ 4-byte Spill
	ldrb	r1, [r0, #13]
	str	r1, [sp, #40]                   @ 4-byte Spill
	ldrb	r1, [r0, #11]
	str	r1, [sp, #36]                   @ 4-byte Spill
	ldrb	r1, [r0, #10]
	str	r1, [sp, #32]                   @ 4-byte Spill
	ldrb	r5, [r0, #9]
	ldrb	r4, [r0, #8]
	ldrb	r3, [r0, #7]
	ldrb	r2, [r0, #6]
	ldrb	r1, [r0, #4]
	ldrb	r0, [r0, #5]
	ldr	r7, [sp, #52]                   @ 4-byte Reload
	str	r7, [sp, #12]
	lsls	r0, r0, #16
	lsls	r1, r1, #24
	adds	r0, r1, r0
	lsls	r1, r2, #8
	adds	r0, r0, r1
	adds	r0, r0, r3
	str	r0, [sp, #8]
	lsls	r0, r4, #24
	lsls	r1, r5, #16
	adds	r0, r1, r0
	ldr	r1, [sp, #32]                   @ 4-byte Reload
	lsls	r1, r1, #8
	adds	r0, r0, r1
	ldr	r1, [sp, #36]                   @ 4-byte Reload
	adds	r0, r0, r1
	str	r0, [sp, #4]
	ldr	r0, [sp, #40]                   @ 4-byte Reload
	lsls	r0, r0, #16
	ldr	r1, [sp, #44]                   @ 4-byte Reload
	lsls	r1, r1, #24
	adds	r0, r1, r0
	ldr	r1, [sp, #48]                   @ 4-byte Reload
	lsls	r1, r1, #8
	adds	r0, r0, r1
	ldr	r1, [sp, #56]                   @ 4-byte Reload
	adds	r0, r0, r1
	str	r0, [sp]
	ldr	r0, [sp, #60]                   @ 4-byte Reload
	lsls	r0, r0, #16
	ldr	r1, [sp, #64]                   @ 4-byte Reload
	lsls	r1, r1, #24
	adds	r0, r1, r0
	ldr	r1, [sp, #68]                   @ 4-byte Reload
	lsls	r1, r1, #8
	adds	r0, r0, r1
	ldr	r1, [sp, #72]                   @ 4-byte Reload
	adds	r0, r0, r1
	ldr	r1, [sp, #116]                  @ 4-byte Reload
	eors	r0, r1
	ldr	r1, [sp, #76]                   @ 4-byte Reload
	lsls	r1, r1, #24
	ldr	r2, [sp, #80]                   @ 4-byte Reload
	lsls	r2, r2, #16
	adds	r1, r2, r1
	ldr	r2, [sp, #88]                   @ 4-byte Reload
	lsls	r2, r2, #8
	adds	r1, r1, r2
	ldr	r2, [sp, #92]                   @ 4-byte Reload
	adds	r1, r1, r2
	ldr	r2, [sp, #120]                  @ 4-byte Reload
	eors	r1, r2
	ldr	r2, [sp, #96]                   @ 4-byte Reload
	lsls	r2, r2, #16
	ldr	r3, [sp, #100]                  @ 4-byte Reload
	lsls	r3, r3, #24
	adds	r2, r3, r2
	ldr	r3, [sp, #104]                  @ 4-byte Reload
	lsls	r3, r3, #8
	adds	r2, r2, r3
	ldr	r3, [sp, #108]                  @ 4-byte Reload
	adds	r2, r2, r3
	ldr	r3, [sp, #124]                  @ 4-byte Reload
	eors	r2, r3
	ldr	r3, [sp, #112]                  @ 4-byte Reload
	lsls	r3, r3, #24
	ldr	r4, [sp, #140]                  @ 4-byte Reload
	lsls	r4, r4, #16
	adds	r3, r4, r3
	ldr	r4, [sp, #148]                  @ 4-byte Reload
	lsls	r4, r4, #8
	adds	r3, r3, r4
	ldr	r4, [sp, #156]                  @ 4-byte Reload
	adds	r3, r3, r4
	ldr	r4, [sp, #128]                  @ 4-byte Reload
	eors	r3, r4
	bl	gcm_v6m.gcm.bitwise.product_bitwise
	str	r0, [sp, #148]                  @ 4-byte Spill
	str	r1, [sp, #140]                  @ 4-byte Spill
	str	r2, [sp, #128]                  @ 4-byte Spill
	str	r3, [sp, #124]                  @ 4-byte Spill
	movs	r2, #15
	ldr	r7, [sp, #132]                  @ 4-byte Reload
	mov	r1, r7
	bics	r1, r2
	ldr	r0, [sp, #144]                  @ 4-byte Reload
	str	r1, [sp, #120]                  @ 4-byte Spill
	adds	r1, r0, r1
	subs	r0, r6, r1
	ldr	r4, [sp, #160]                  @ 4-byte Reload
	mov	r3, r4
	sbcs	r3, r4
	ands	r2, r7
	subs	r0, r0, r2
	sbcs	r3, r4
	bhs	.Lgcm_v6m_BB41_23
@ %bb.21:                               @ %join.7.i.i.i.i.i.i217.preheader
	movs	r5, #3
	mov	r4, r7
	ands	r4, r5
	cmp	r2, #4
	bhs	.Lgcm_v6m_BB41_24
@ %bb.22:
	movs	r2, #0
	b	.Lgcm_v6m_BB41_27
.Lgcm_v6m_BB41_23:                              @ %apart.2.i.i.i.i.i.i215
	mov	r0, r6
	bl	memmove
	b	.Lgcm_v6m_BB41_30
.Lgcm_v6m_BB41_24:                              @ %join.7.i.i.i.i.i.i217.preheader.new
	str	r4, [sp, #116]                  @ 4-byte Spill
	movs	r2, #12
	ands	r7, r2
	movs	r4, #0
	mov	r2, r4
	str	r4, [sp, #156]                  @ 4-byte Spill
.Lgcm_v6m_BB41_25:                              @ %join.7.i.i.i.i.i.i217
                                        @ =>This Inner Loop Header: Depth=1
	mov	r3, r7
	ldrb	r7, [r1, r2]
	strb	r7, [r6, r2]
	movs	r7, #1
	orrs	r7, r2
	ldrb	r0, [r1, r7]
	strb	r0, [r6, r7]
	movs	r0, #2
	orrs	r0, r2
	ldrb	r7, [r1, r0]
	strb	r7, [r6, r0]
	mov	r0, r2
	orrs	r0, r5
	ldrb	r7, [r1, r0]
	strb	r7, [r6, r0]
	mov	r7, r3
	adds	r2, r2, #4
	ldr	r0, [sp, #156]                  @ 4-byte Reload
	adcs	r4, r0
	mov	r0, r2
	eors	r0, r3
	orrs	r0, r4
	bne	.Lgcm_v6m_BB41_25
@ %bb.26:                               @ %"core::slice::edits::slice+T::copy_from_slice::<i8,20'core::clone::U8Clone{}>.exit224.loopexit.unr-lcssa"
	ldr	r4, [sp, #116]                  @ 4-byte Reload
	cmp	r4, #0
	beq	.Lgcm_v6m_BB41_30
.Lgcm_v6m_BB41_27:                              @ %join.7.i.i.i.i.i.i217.epil.preheader
	ldrb	r0, [r1, r2]
	strb	r0, [r6, r2]
	cmp	r4, #1
	beq	.Lgcm_v6m_BB41_30
@ %bb.28:                               @ %join.7.i.i.i.i.i.i217.epil.1
	adds	r0, r2, #1
	ldrb	r3, [r1, r0]
	strb	r3, [r6, r0]
	cmp	r4, #2
	beq	.Lgcm_v6m_BB41_30
@ %bb.29:                               @ %join.7.i.i.i.i.i.i217.epil.2
	adds	r0, r2, #2
	ldrb	r1, [r1, r0]
	strb	r1, [r6, r0]
.Lgcm_v6m_BB41_30:                              @ %"core::slice::edits::slice+T::copy_from_slice::<i8,20'core::clone::U8Clone{}>.exit224"
	ldr	r0, [sp, #152]                  @ 4-byte Reload
	ldr	r0, [r0]
	ldrb	r1, [r0, #3]
	str	r1, [sp, #156]                  @ 4-byte Spill
	ldrb	r1, [r0, #2]
	str	r1, [sp, #152]                  @ 4-byte Spill
	ldrb	r1, [r0, #1]
	str	r1, [sp, #132]                  @ 4-byte Spill
	ldrb	r1, [r0]
	str	r1, [sp, #116]                  @ 4-byte Spill
	ldrb	r1, [r0, #7]
	str	r1, [sp, #112]                  @ 4-byte Spill
	ldrb	r1, [r0, #6]
	str	r1, [sp, #108]                  @ 4-byte Spill
	ldrb	r1, [r0, #4]
	str	r1, [sp, #104]                  @ 4-byte Spill
	ldrb	r1, [r0, #5]
	str	r1, [sp, #100]                  @ 4-byte Spill
	ldrb	r1, [r0, #11]
	str	r1, [sp, #96]                   @ 4-byte Spill
	ldrb	r6, [r0, #10]
	ldrb	r5, [r0, #9]
	ldrb	r4, [r0, #8]
	ldrb	r3, [r0, #15]
	ldrb	r2, [r0, #14]
	ldrb	r1, [r0, #12]
	ldrb	r0, [r0, #13]
	ldr	r7, [sp, #120]                  @ 4-byte Reload
	str	r7, [sp, #24]
	ldr	r7, [sp, #160]                  @ 4-byte Reload
	str	r7, [sp, #28]
	ldr	r7, [sp, #148]                  @ 4-byte Reload
	str	r7, [sp]
	ldr	r7, [sp, #140]                  @ 4-byte Reload
	str	r7, [sp, #4]
	ldr	r7, [sp, #128]                  @ 4-byte Reload
	str	r7, [sp, #8]
	ldr	r7, [sp, #124]                  @ 4-byte Reload
	str	r7, [sp, #12]
	ldr	r7, [sp, #144]                  @ 4-byte Reload
	str	r7, [sp, #16]
	lsls	r0, r0, #16
	lsls	r1, r1, #24
	adds	r0, r1, r0
	lsls	r1, r2, #8
	adds	r0, r0, r1
	adds	r0, r0, r3
	lsls	r1, r4, #24
	lsls	r2, r5, #16
	adds	r1, r2, r1
	lsls	r2, r6, #8
	adds	r1, r1, r2
	ldr	r2, [sp, #96]                   @ 4-byte Reload
	adds	r1, r1, r2
	ldr	r2, [sp, #100]                  @ 4-byte Reload
	lsls	r2, r2, #16
	ldr	r3, [sp, #104]                  @ 4-byte Reload
	lsls	r3, r3, #24
	adds	r2, r3, r2
	ldr	r3, [sp, #108]                  @ 4-byte Reload
	lsls	r3, r3, #8
	adds	r2, r2, r3
	ldr	r3, [sp, #112]                  @ 4-byte Reload
	adds	r2, r2, r3
	ldr	r3, [sp, #116]                  @ 4-byte Reload
	lsls	r3, r3, #24
	ldr	r4, [sp, #132]                  @ 4-byte Reload
	lsls	r4, r4, #16
	adds	r3, r4, r3
	ldr	r4, [sp, #152]                  @ 4-byte Reload
	lsls	r4, r4, #8
	adds	r3, r3, r4
	ldr	r4, [sp, #156]                  @ 4-byte Reload
	adds	r3, r3, r4
	bl	gcm_v6m.gcm.single_blocks.hash_singly.1
	ldr	r5, [sp, #136]                  @ 4-byte Reload
	strb	r0, [r5, #15]
	strb	r1, [r5, #11]
	strb	r2, [r5, #7]
	strb	r3, [r5, #3]
	lsrs	r4, r0, #8
	strb	r4, [r5, #14]
	lsrs	r4, r0, #16
	strb	r4, [r5, #13]
	lsrs	r0, r0, #24
	strb	r0, [r5, #12]
	lsrs	r0, r1, #8
	strb	r0, [r5, #10]
	lsrs	r0, r1, #16
	strb	r0, [r5, #9]
	lsrs	r0, r1, #24
	strb	r0, [r5, #8]
	lsrs	r0, r2, #8
	strb	r0, [r5, #6]
	lsrs	r0, r2, #16
	strb	r0, [r5, #5]
	lsrs	r0, r2, #24
	strb	r0, [r5, #4]
	lsrs	r0, r3, #8
	strb	r0, [r5, #2]
	lsrs	r0, r3, #16
	strb	r0, [r5, #1]
	lsrs	r0, r3, #24
	strb	r0, [r5]
	add	sp, #164
	pop	{r4, r5, r6, r7, pc}
.Lgcm_v6m_func_end41:
	.size	gcm_v6m.gcm.hash_room.hash_piece, .Lgcm_v6m_func_end41-gcm_v6m.gcm.hash_room.hash_piece
	.cantunwind
	.fnend
                                        @ -- End function
	.section	.text.gcm_v6m.gcm.mode.BorrowedGcm.enter_phase,"ax",%progbits
	.p2align	1                               @ -- Begin function gcm::mode::BorrowedGcm::enter_phase::<#c01aad2b5fbc92b1>
	.type	gcm_v6m.gcm.mode.BorrowedGcm.enter_phase,%function
	.code	16
	.thumb_func
gcm_v6m.gcm.mode.BorrowedGcm.enter_phase: @ @gcm_v6m.gcm.mode.BorrowedGcm.enter_phase
	.fnstart
@ %bb.0:                                @ %start
	.save	{r4, r5, r6, r7, lr}
	push	{r4, r5, r6, r7, lr}
	.pad	#20
	sub	sp, #20
	str	r2, [sp, #16]                   @ 4-byte Spill
	mov	r3, r1
	mov	r7, r0
	ldr	r0, [r1, #24]
	ldr	r2, [r1, #28]
	movs	r1, #0
	subs	r0, r0, #1
	sbcs	r2, r1
	movs	r4, #1
	subs	r5, r0, #4
	sbcs	r2, r1
	mov	r2, r4
	bhs	.Lgcm_v6m_BB42_3
@ %bb.1:                                @ %start
	cmp	r2, #0
	bne	.Lgcm_v6m_BB42_4
.Lgcm_v6m_BB42_2:                               @ %start
	uxtb	r6, r2
	cmp	r6, #1
	bne	.Lgcm_v6m_BB42_5
	b	.Lgcm_v6m_BB42_7
.Lgcm_v6m_BB42_3:                               @ %start
	mov	r2, r1
	cmp	r2, #0
	beq	.Lgcm_v6m_BB42_2
.Lgcm_v6m_BB42_4:
	adds	r2, r0, #1
	uxtb	r6, r2
	cmp	r6, #1
	beq	.Lgcm_v6m_BB42_7
.Lgcm_v6m_BB42_5:                               @ %start
	ldr	r0, [sp, #16]                   @ 4-byte Reload
	uxtb	r0, r0
	cmp	r6, r0
	beq	.Lgcm_v6m_BB42_7
.Lgcm_v6m_BB42_6:                               @ %return.4
	mov	r0, r4
	add	sp, #20
	pop	{r4, r5, r6, r7, pc}
.Lgcm_v6m_BB42_7:                               @ %join.3
	str	r7, [sp, #8]                    @ 4-byte Spill
	mov	r5, r3
	adds	r5, #48
	ldr	r2, [sp, #44]
	ldr	r0, [sp, #40]
	ldr	r7, [r3, #8]
	ldr	r4, [r3, #12]
	movs	r1, #0
	adds	r0, r0, r7
	adcs	r4, r2
	mov	r2, r1
	adcs	r2, r1
	mvns	r7, r1
	cmp	r2, #0
	str	r7, [sp, #12]                   @ 4-byte Spill
	bne	.Lgcm_v6m_BB42_9
@ %bb.8:                                @ %join.3
	str	r4, [sp, #12]                   @ 4-byte Spill
.Lgcm_v6m_BB42_9:                               @ %join.3
	bne	.Lgcm_v6m_BB42_11
@ %bb.10:                               @ %join.3
	mov	r7, r0
.Lgcm_v6m_BB42_11:                              @ %join.3
	movs	r0, #31
	mvns	r0, r0
	movs	r4, #15
	str	r0, [sp, #4]                    @ 4-byte Spill
	subs	r2, r0, r7
	mov	r2, r4
	ldr	r0, [sp, #12]                   @ 4-byte Reload
	sbcs	r2, r0
	bhs	.Lgcm_v6m_BB42_13
@ %bb.12:
	movs	r1, #1
.Lgcm_v6m_BB42_13:                              @ %join.3
	cmp	r6, #1
	bne	.Lgcm_v6m_BB42_18
@ %bb.14:                               @ %join.3
	ldr	r0, [sp, #4]                    @ 4-byte Reload
	subs	r0, r0, r7
	ldr	r0, [sp, #12]                   @ 4-byte Reload
	sbcs	r4, r0
	mov	r4, r1
	ldr	r0, [sp, #8]                    @ 4-byte Reload
	blo	.Lgcm_v6m_BB42_6
@ %bb.15:                               @ %then.8
	ldr	r0, [r0, #16]
	mov	r4, r3
	mov	r1, r3
	bl	gcm_v6m.gcm.mode.BorrowedGcm.hash_so_far
	strb	r0, [r5, #15]
	strb	r1, [r5, #11]
	strb	r2, [r5, #7]
	strb	r3, [r5, #3]
	lsrs	r6, r0, #8
	strb	r6, [r5, #14]
	lsrs	r6, r0, #16
	strb	r6, [r5, #13]
	lsrs	r0, r0, #24
	strb	r0, [r5, #12]
	lsrs	r0, r1, #8
	strb	r0, [r5, #10]
	lsrs	r0, r1, #16
	strb	r0, [r5, #9]
	lsrs	r0, r1, #24
	strb	r0, [r5, #8]
	lsrs	r0, r2, #8
	strb	r0, [r5, #6]
	lsrs	r0, r2, #16
	strb	r0, [r5, #5]
	lsrs	r0, r2, #24
	strb	r0, [r5, #4]
	lsrs	r0, r3, #8
	strb	r0, [r5, #2]
	lsrs	r0, r3, #16
	strb	r0, [r5, #1]
	lsrs	r0, r3, #24
	strb	r0, [r5]
	movs	r1, #0
	str	r1, [r4, #28]
	ldr	r0, [sp, #16]                   @ 4-byte Reload
	uxtb	r0, r0
	cmp	r0, #3
	beq	.Lgcm_v6m_BB42_17
@ %bb.16:
	movs	r0, #2
.Lgcm_v6m_BB42_17:                              @ %then.8
	str	r0, [r4, #24]
.Lgcm_v6m_BB42_18:                              @ %return.4
	mov	r4, r1
	mov	r0, r4
	add	sp, #20
	pop	{r4, r5, r6, r7, pc}
.Lgcm_v6m_func_end42:
	.size	gcm_v6m.gcm.mode.BorrowedGcm.enter_phase, .Lgcm_v6m_func_end42-gcm_v6m.gcm.mode.BorrowedGcm.enter_phase
	.cantunwind
	.fnend
                                        @ -- End function
	.section	.text.gcm_v6m.gcm.mode.BorrowedGcm.is_tag_so_far,"ax",%progbits
	.p2align	1                               @ -- Begin function gcm::mode::BorrowedGcm::is_tag_so_far::<#c01aad2b5fbc92b1>
	.type	gcm_v6m.gcm.mode.BorrowedGcm.is_tag_so_far,%function
	.code	16
	.thumb_func
gcm_v6m.gcm.mode.BorrowedGcm.is_tag_so_far: @ @gcm_v6m.gcm.mode.BorrowedGcm.is_tag_so_far
	.fnstart
@ %bb.0:                                @ %start
	.save	{r4, r5, r7, lr}
	push	{r4, r5, r7, lr}
	.pad	#16
	sub	sp, #16
	mov	r4, r2
	mov	r5, sp
	mov	r2, r5
	bl	gcm_v6m.gcm.mode.BorrowedGcm.put_tag_so_far
	mov	r0, r4
	mov	r1, r5
	bl	gcm_v6m.aes_cipher.blocks.difference
	mov	r4, r0
	mov	r0, r5
	bl	gcm_v6m.aes_cipher.zeroize.elements.zeroize_elements.3
	rsbs	r0, r4, #0
	adcs	r0, r4
	add	sp, #16
	pop	{r4, r5, r7, pc}
.Lgcm_v6m_func_end43:
	.size	gcm_v6m.gcm.mode.BorrowedGcm.is_tag_so_far, .Lgcm_v6m_func_end43-gcm_v6m.gcm.mode.BorrowedGcm.is_tag_so_far
	.cantunwind
	.fnend
                                        @ -- End function
	.section	.text.gcm_v6m.gcm.mode.BorrowedGcm.is_short_tag_so_far,"ax",%progbits
	.p2align	1                               @ -- Begin function gcm::mode::BorrowedGcm::is_short_tag_so_far::<#c01aad2b5fbc92b1>
	.type	gcm_v6m.gcm.mode.BorrowedGcm.is_short_tag_so_far,%function
	.code	16
	.thumb_func
gcm_v6m.gcm.mode.BorrowedGcm.is_short_tag_so_far: @ @gcm_v6m.gcm.mode.BorrowedGcm.is_short_tag_so_far
	.fnstart
@ %bb.0:                                @ %start
	.save	{r4, r5, r6, lr}
	push	{r4, r5, r6, lr}
	.pad	#32
	sub	sp, #32
	mov	r5, r2
	add	r4, sp, #16
	mov	r2, r4
	bl	gcm_v6m.gcm.mode.BorrowedGcm.put_tag_so_far
	ldr	r0, [sp, #28]
	str	r0, [sp, #12]
	ldr	r0, [sp, #24]
	str	r0, [sp, #8]
	ldr	r0, [sp, #20]
	str	r0, [sp, #4]
	ldr	r0, [sp, #16]
	str	r0, [sp]
	mov	r6, sp
	ldr	r2, [sp, #48]
	mov	r0, r6
	mov	r1, r5
	bl	memcpy
	mov	r0, r6
	mov	r1, r4
	bl	gcm_v6m.aes_cipher.blocks.difference
	mov	r5, r0
	mov	r0, r4
	bl	gcm_v6m.aes_cipher.zeroize.elements.zeroize_elements.3
	mov	r0, r6
	bl	gcm_v6m.aes_cipher.zeroize.elements.zeroize_elements.3
	rsbs	r0, r5, #0
	adcs	r0, r5
	add	sp, #32
	pop	{r4, r5, r6, pc}
.Lgcm_v6m_func_end44:
	.size	gcm_v6m.gcm.mode.BorrowedGcm.is_short_tag_so_far, .Lgcm_v6m_func_end44-gcm_v6m.gcm.mode.BorrowedGcm.is_short_tag_so_far
	.cantunwind
	.fnend
                                        @ -- End function
	.section	.text.gcm_v6m.fotsgure_gcm_version,"ax",%progbits
	export_gcm_v6m	fotsgure_gcm_version
	.p2align	1
	.type	gcm_v6m.fotsgure_gcm_version,%function
	.code	16
	.thumb_func
gcm_v6m.fotsgure_gcm_version:                   @ @gcm_v6m.fotsgure_gcm_version
	.fnstart
@ %bb.0:
	movs	r0, #25
	lsls	r0, r0, #4
	b	.Lgcm_v6m_return_15449
.Lgcm_v6m_return_15449:
	movs	r1, #0
	movs	r2, #0
	movs	r3, #0
	mov	r12, r1
	bx	lr
.Lgcm_v6m_func_end45:
	.size	gcm_v6m.fotsgure_gcm_version, .Lgcm_v6m_func_end45-gcm_v6m.fotsgure_gcm_version
	.cantunwind
	.fnend
                                        @ -- End function
	.section	.text.gcm_v6m.fotsgure_gcm_set_key,"ax",%progbits
	export_gcm_v6m	fotsgure_gcm_set_key
	.p2align	1
	.type	gcm_v6m.fotsgure_gcm_set_key,%function
	.code	16
	.thumb_func
gcm_v6m.fotsgure_gcm_set_key:                   @ @gcm_v6m.fotsgure_gcm_set_key
	.fnstart
@ %bb.0:
	.save	{r4, r5, r6, r7, lr}
	push	{r4, r5, r6, r7, lr}
	.pad	#12
	sub	sp, #12
	mov	r5, r2
	cmp	r2, #32
	beq	.Lgcm_v6m_BB46_3
@ %bb.1:
	movs	r2, #8
	mov	r3, r5
	bics	r3, r2
	cmp	r3, #16
	beq	.Lgcm_v6m_BB46_3
@ %bb.2:                                @ %then.1.i.i
	movs	r1, #125
	lsls	r2, r1, #2
	movs	r1, #0
	bl	memset
	movs	r4, #1
	mov	r0, r4
	add	sp, #12
	b	.Lgcm_v6m_return_15491
.Lgcm_v6m_BB46_3:                               @ %join.3.i.i
	str	r0, [sp, #8]                    @ 4-byte Spill
	adds	r6, r0, #4
	movs	r0, #15
	lsls	r2, r0, #5
	movs	r4, #0
	mov	r0, r6
	mov	r7, r1
	mov	r1, r4
	bl	memset
	cmp	r7, #0
	bne	.Lgcm_v6m_BB46_5
@ %bb.4:
	movs	r0, #1
	lsls	r0, r0, #12
	adds	r7, r7, r0
.Lgcm_v6m_BB46_5:                               @ %join.3.i.i
	mov	r0, r6
	mov	r1, r7
	mov	r2, r5
	mov	r3, r4
	bl	gcm_v6m.aes_narrow.word_room.expand_words
	bl	gcm_v6m.aes_cipher.zeroize.stack.wipe_stack.768
	ldr	r0, [sp, #8]                    @ 4-byte Reload
	str	r5, [r0]
	movs	r1, #121
	lsls	r1, r1, #2
	adds	r0, r0, r1
	str	r0, [sp]
	lsrs	r3, r5, #31
	lsls	r2, r5, #1
	adds	r2, #56
	adcs	r3, r4
	mov	r0, r6
	bl	gcm_v6m.gcm.mode.put_subkey
	bl	gcm_v6m.aes_cipher.zeroize.stack.wipe_stack.512
	mov	r0, r4
	add	sp, #12
	b	.Lgcm_v6m_return_15491
.Lgcm_v6m_return_15491:
	movs	r1, #0
	movs	r2, #0
	movs	r3, #0
	mov	r12, r1
	mov	lr, r1
	pop	{r4, r5, r6, r7, pc}
.Lgcm_v6m_func_end46:
	.size	gcm_v6m.fotsgure_gcm_set_key, .Lgcm_v6m_func_end46-gcm_v6m.fotsgure_gcm_set_key
	.cantunwind
	.fnend
                                        @ -- End function
	.section	.text.gcm_v6m.fotsgure_gcm_set_key_of,"ax",%progbits
	export_gcm_v6m	fotsgure_gcm_set_key_of
	.p2align	1
	.type	gcm_v6m.fotsgure_gcm_set_key_of,%function
	.code	16
	.thumb_func
gcm_v6m.fotsgure_gcm_set_key_of:                @ @gcm_v6m.fotsgure_gcm_set_key_of
	.fnstart
@ %bb.0:
	.save	{r4, r5, r6, lr}
	push	{r4, r5, r6, lr}
	.pad	#8
	sub	sp, #8
	mov	r4, r0
	ldr	r6, [r1]
	cmp	r6, #32
	beq	.Lgcm_v6m_BB47_3
@ %bb.1:
	movs	r0, #8
	mov	r2, r6
	bics	r2, r0
	cmp	r2, #16
	beq	.Lgcm_v6m_BB47_3
@ %bb.2:                                @ %then.1.i.i
	movs	r0, #125
	lsls	r2, r0, #2
	movs	r1, #0
	mov	r0, r4
	bl	memset
	adds	r0, r4, #4
	bl	gcm_v6m.aes_cipher.zeroize.elements.zeroize_elements.1
	movs	r0, #121
	lsls	r0, r0, #2
	adds	r0, r4, r0
	bl	gcm_v6m.aes_cipher.zeroize.elements.zeroize_elements.2
	movs	r4, #2
	mov	r0, r4
	add	sp, #8
	b	.Lgcm_v6m_return_15581
.Lgcm_v6m_BB47_3:                               @ %join.3.i.i
	mov	r5, r4
	stm	r5!, {r6}
	adds	r1, r1, #4
	movs	r0, #15
	lsls	r2, r0, #5
	mov	r0, r5
	bl	memmove
	movs	r0, #121
	lsls	r0, r0, #2
	adds	r0, r4, r0
	str	r0, [sp]
	lsrs	r3, r6, #31
	lsls	r2, r6, #1
	movs	r4, #0
	adds	r2, #56
	adcs	r3, r4
	mov	r0, r5
	bl	gcm_v6m.gcm.mode.put_subkey
	bl	gcm_v6m.aes_cipher.zeroize.stack.wipe_stack.512
	mov	r0, r4
	add	sp, #8
	b	.Lgcm_v6m_return_15581
.Lgcm_v6m_return_15581:
	movs	r1, #0
	movs	r2, #0
	movs	r3, #0
	mov	r12, r1
	mov	lr, r1
	pop	{r4, r5, r6, pc}
.Lgcm_v6m_func_end47:
	.size	gcm_v6m.fotsgure_gcm_set_key_of, .Lgcm_v6m_func_end47-gcm_v6m.fotsgure_gcm_set_key_of
	.cantunwind
	.fnend
                                        @ -- End function
	.section	.text.gcm_v6m.fotsgure_gcm_key_length,"ax",%progbits
	export_gcm_v6m	fotsgure_gcm_key_length
	.p2align	1
	.type	gcm_v6m.fotsgure_gcm_key_length,%function
	.code	16
	.thumb_func
gcm_v6m.fotsgure_gcm_key_length:                @ @gcm_v6m.fotsgure_gcm_key_length
	.fnstart
@ %bb.0:
	ldr	r0, [r0]
	movs	r1, #8
	mov	r2, r0
	bics	r2, r1
	cmp	r2, #16
	mov	r1, r0
	bne	.Lgcm_v6m_BB48_3
@ %bb.1:
	cmp	r0, #32
	bne	.Lgcm_v6m_BB48_4
.Lgcm_v6m_BB48_2:
	b	.Lgcm_v6m_return_15637
.Lgcm_v6m_BB48_3:
	movs	r1, #0
	cmp	r0, #32
	beq	.Lgcm_v6m_BB48_2
.Lgcm_v6m_BB48_4:
	mov	r0, r1
	b	.Lgcm_v6m_return_15637
.Lgcm_v6m_return_15637:
	movs	r1, #0
	movs	r2, #0
	movs	r3, #0
	mov	r12, r1
	bx	lr
.Lgcm_v6m_func_end48:
	.size	gcm_v6m.fotsgure_gcm_key_length, .Lgcm_v6m_func_end48-gcm_v6m.fotsgure_gcm_key_length
	.cantunwind
	.fnend
                                        @ -- End function
	.section	.text.gcm_v6m.fotsgure_gcm_wipe,"ax",%progbits
	export_gcm_v6m	fotsgure_gcm_wipe
	.p2align	1
	.type	gcm_v6m.fotsgure_gcm_wipe,%function
	.code	16
	.thumb_func
gcm_v6m.fotsgure_gcm_wipe:                      @ @gcm_v6m.fotsgure_gcm_wipe
	.fnstart
@ %bb.0:
	.save	{r4, lr}
	push	{r4, lr}
	mov	r4, r0
	movs	r0, #125
	lsls	r2, r0, #2
	movs	r1, #0
	mov	r0, r4
	bl	memset
	adds	r0, r4, #4
	bl	gcm_v6m.aes_cipher.zeroize.elements.zeroize_elements.1
	movs	r0, #121
	lsls	r0, r0, #2
	adds	r0, r4, r0
	bl	gcm_v6m.aes_cipher.zeroize.elements.zeroize_elements.2
	b	.Lgcm_v6m_return_15679
.Lgcm_v6m_return_15679:
	movs	r1, #0
	movs	r2, #0
	movs	r3, #0
	mov	r12, r1
	mov	lr, r1
	pop	{r4, pc}
.Lgcm_v6m_func_end49:
	.size	gcm_v6m.fotsgure_gcm_wipe, .Lgcm_v6m_func_end49-gcm_v6m.fotsgure_gcm_wipe
	.cantunwind
	.fnend
                                        @ -- End function
	.section	.text.gcm_v6m.fotsgure_gcm_seal,"ax",%progbits
	export_gcm_v6m	fotsgure_gcm_seal
	.p2align	1
	.type	gcm_v6m.fotsgure_gcm_seal,%function
	.code	16
	.thumb_func
gcm_v6m.fotsgure_gcm_seal:                      @ @gcm_v6m.fotsgure_gcm_seal
	.fnstart
@ %bb.0:
	.save	{r4, r5, r6, lr}
	push	{r4, r5, r6, lr}
	.pad	#40
	sub	sp, #40
	mov	r4, r3
	ldr	r3, [sp, #68]
	str	r3, [sp, #32]
	movs	r3, #0
	str	r3, [sp, #28]
	ldr	r5, [sp, #64]
	str	r5, [sp, #24]
	str	r3, [sp, #12]
	ldr	r5, [sp, #56]
	str	r5, [sp, #8]
	movs	r5, #1
	lsls	r5, r5, #12
	ldr	r6, [sp, #60]
	cmp	r6, #0
	beq	.Lgcm_v6m_BB50_4
@ %bb.1:
	str	r6, [sp, #16]
	cmp	r4, #0
	beq	.Lgcm_v6m_BB50_5
.Lgcm_v6m_BB50_2:
	str	r4, [sp]
	cmp	r1, #0
	beq	.Lgcm_v6m_BB50_6
.Lgcm_v6m_BB50_3:
	bl	gcm_v6m.gcm_c.whole.fotsgure_gcm_seal
	add	sp, #40
	b	.Lgcm_v6m_return_15731
.Lgcm_v6m_BB50_4:
	adds	r6, r6, r5
	str	r6, [sp, #16]
	cmp	r4, #0
	bne	.Lgcm_v6m_BB50_2
.Lgcm_v6m_BB50_5:
	adds	r4, r4, r5
	str	r4, [sp]
	cmp	r1, #0
	bne	.Lgcm_v6m_BB50_3
.Lgcm_v6m_BB50_6:
	adds	r1, r1, r5
	bl	gcm_v6m.gcm_c.whole.fotsgure_gcm_seal
	add	sp, #40
	b	.Lgcm_v6m_return_15731
.Lgcm_v6m_return_15731:
	movs	r1, #0
	movs	r2, #0
	movs	r3, #0
	mov	r12, r1
	mov	lr, r1
	pop	{r4, r5, r6, pc}
.Lgcm_v6m_func_end50:
	.size	gcm_v6m.fotsgure_gcm_seal, .Lgcm_v6m_func_end50-gcm_v6m.fotsgure_gcm_seal
	.cantunwind
	.fnend
                                        @ -- End function
	.section	.text.gcm_v6m.fotsgure_gcm_seal_to,"ax",%progbits
	export_gcm_v6m	fotsgure_gcm_seal_to
	.p2align	2
	.type	gcm_v6m.fotsgure_gcm_seal_to,%function
	.code	16
	.thumb_func
gcm_v6m.fotsgure_gcm_seal_to:                   @ @gcm_v6m.fotsgure_gcm_seal_to
	.fnstart
@ %bb.0:
	.save	{r4, r5, r6, r7, lr}
	push	{r4, r5, r6, r7, lr}
	.pad	#60
	sub	sp, #60
	str	r2, [sp, #56]                   @ 4-byte Spill
	str	r0, [sp, #52]                   @ 4-byte Spill
	movs	r2, #1
	lsls	r5, r2, #12
	ldr	r7, [sp, #92]
	cmp	r7, #0
	beq	.Lgcm_v6m_BB51_10
@ %bb.1:
	ldr	r4, [sp, #84]
	cmp	r4, #0
	beq	.Lgcm_v6m_BB51_11
.Lgcm_v6m_BB51_2:
	cmp	r3, #0
	beq	.Lgcm_v6m_BB51_12
.Lgcm_v6m_BB51_3:
	cmp	r1, #0
	beq	.Lgcm_v6m_BB51_13
.Lgcm_v6m_BB51_4:
	ldr	r5, [sp, #88]
	ldr	r0, [sp, #96]
	cmp	r5, r0
	bne	.Lgcm_v6m_BB51_14
.Lgcm_v6m_BB51_5:                               @ %join.3.i.i
	ldr	r0, [sp, #56]                   @ 4-byte Reload
	cmp	r0, #0
	beq	.Lgcm_v6m_BB51_15
@ %bb.6:                                @ %after.11.i.i.i
	ldr	r0, [sp, #52]                   @ 4-byte Reload
	ldr	r0, [r0]
	subs	r0, #16
	movs	r6, #2
	cmp	r0, #16
	bhi	.Lgcm_v6m_BB51_9
@ %bb.7:                                @ %after.11.i.i.i
	lsls	r2, r0
	ldr	r0, .Lgcm_v6m_CPI51_0
	tst	r2, r0
	beq	.Lgcm_v6m_BB51_9
@ %bb.8:                                @ %join.6.i.i
	ldr	r0, [sp, #100]
	str	r0, [sp, #44]                   @ 4-byte Spill
	ldr	r0, [sp, #80]
	str	r0, [sp, #48]                   @ 4-byte Spill
	str	r7, [sp]
	movs	r6, #0
	mov	r0, r4
	mov	r2, r5
	mov	r4, r3
	mov	r3, r6
	str	r1, [sp, #40]                   @ 4-byte Spill
	bl	gcm_v6m.gcm_c.whole_to.copy
	str	r5, [sp, #24]
	str	r6, [sp, #28]
	ldr	r0, [sp, #44]                   @ 4-byte Reload
	str	r0, [sp, #32]
	ldr	r0, [sp, #48]                   @ 4-byte Reload
	add	r1, sp, #8
	stm	r1!, {r0, r6, r7}
	str	r4, [sp]
	ldr	r0, [sp, #52]                   @ 4-byte Reload
	ldr	r1, [sp, #40]                   @ 4-byte Reload
	ldr	r2, [sp, #56]                   @ 4-byte Reload
	mov	r3, r6
	bl	gcm_v6m.gcm_c.whole.fotsgure_gcm_seal
	mov	r6, r0
.Lgcm_v6m_BB51_9:                               @ %wide_fotsgure_gcm_seal_to.exit
	mov	r0, r6
	add	sp, #60
	b	.Lgcm_v6m_return_15840
.Lgcm_v6m_BB51_10:
	adds	r7, r7, r5
	ldr	r4, [sp, #84]
	cmp	r4, #0
	bne	.Lgcm_v6m_BB51_2
.Lgcm_v6m_BB51_11:
	adds	r4, r4, r5
	cmp	r3, #0
	bne	.Lgcm_v6m_BB51_3
.Lgcm_v6m_BB51_12:
	adds	r3, r3, r5
	cmp	r1, #0
	bne	.Lgcm_v6m_BB51_4
.Lgcm_v6m_BB51_13:
	adds	r1, r1, r5
	ldr	r5, [sp, #88]
	ldr	r0, [sp, #96]
	cmp	r5, r0
	beq	.Lgcm_v6m_BB51_5
.Lgcm_v6m_BB51_14:
	movs	r6, #10
	mov	r0, r6
	add	sp, #60
	b	.Lgcm_v6m_return_15840
.Lgcm_v6m_BB51_15:
	movs	r6, #3
	mov	r0, r6
	add	sp, #60
	b	.Lgcm_v6m_return_15840
	.p2align	2
@ %bb.16:
.Lgcm_v6m_CPI51_0:
	.long	65793                           @ 0x10101
.Lgcm_v6m_return_15840:
	movs	r1, #0
	movs	r2, #0
	movs	r3, #0
	mov	r12, r1
	mov	lr, r1
	pop	{r4, r5, r6, r7, pc}
.Lgcm_v6m_func_end51:
	.size	gcm_v6m.fotsgure_gcm_seal_to, .Lgcm_v6m_func_end51-gcm_v6m.fotsgure_gcm_seal_to
	.cantunwind
	.fnend
                                        @ -- End function
	.section	.text.gcm_v6m.fotsgure_gcm_seal_next,"ax",%progbits
	export_gcm_v6m	fotsgure_gcm_seal_next
	.p2align	1
	.type	gcm_v6m.fotsgure_gcm_seal_next,%function
	.code	16
	.thumb_func
gcm_v6m.fotsgure_gcm_seal_next:                 @ @gcm_v6m.fotsgure_gcm_seal_next
	.fnstart
@ %bb.0:
	.save	{r4, r5, r6, r7, lr}
	push	{r4, r5, r6, r7, lr}
	.pad	#44
	sub	sp, #44
	ldrb	r4, [r1, #8]
	ldrb	r5, [r1, #9]
	lsls	r5, r5, #8
	adds	r4, r5, r4
	ldrb	r5, [r1, #10]
	lsls	r5, r5, #16
	ldrb	r6, [r1, #11]
	lsls	r6, r6, #24
	adds	r5, r6, r5
	adds	r4, r5, r4
	ldrb	r5, [r1, #4]
	ldrb	r6, [r1, #5]
	lsls	r6, r6, #8
	adds	r5, r6, r5
	ldrb	r6, [r1, #6]
	lsls	r6, r6, #16
	ldrb	r7, [r1, #7]
	lsls	r7, r7, #24
	adds	r6, r7, r6
	adds	r5, r6, r5
	ands	r5, r4
	adds	r4, r5, #1
	bne	.Lgcm_v6m_BB52_3
@ %bb.1:
	ldrb	r4, [r1]
	ldrb	r5, [r1, #1]
	lsls	r5, r5, #8
	adds	r4, r5, r4
	ldrb	r5, [r1, #2]
	lsls	r5, r5, #16
	ldrb	r6, [r1, #3]
	lsls	r6, r6, #24
	adds	r5, r6, r5
	adds	r4, r5, r4
	adds	r4, r4, #1
	bne	.Lgcm_v6m_BB52_3
@ %bb.2:
	movs	r0, #7
	add	sp, #44
	b	.Lgcm_v6m_return_15938
.Lgcm_v6m_BB52_3:                               @ %join.3.i.i
	str	r2, [sp, #36]                   @ 4-byte Spill
	mov	r2, r0
	movs	r5, #0
	ldr	r0, [sp, #76]
	add	r7, sp, #64
	ldm	r7, {r4, r6, r7}
	str	r7, [sp, #24]
	str	r5, [sp, #28]
	str	r0, [sp, #32]
	str	r4, [sp, #8]
	str	r5, [sp, #40]                   @ 4-byte Spill
	str	r5, [sp, #12]
	movs	r4, #1
	lsls	r7, r4, #12
	cmp	r6, #0
	bne	.Lgcm_v6m_BB52_5
@ %bb.4:
	adds	r6, r6, r7
.Lgcm_v6m_BB52_5:                               @ %join.3.i.i
	str	r6, [sp, #16]
	cmp	r3, #0
	ldr	r4, [sp, #40]                   @ 4-byte Reload
	mov	r0, r2
	beq	.Lgcm_v6m_BB52_7
@ %bb.6:                                @ %join.3.i.i
	ldr	r5, [sp, #36]                   @ 4-byte Reload
	b	.Lgcm_v6m_BB52_8
.Lgcm_v6m_BB52_7:
	ldr	r5, [sp, #36]                   @ 4-byte Reload
	adds	r3, r3, r7
.Lgcm_v6m_BB52_8:                               @ %join.3.i.i
	str	r3, [sp]
	movs	r2, #12
	mov	r7, r1
	mov	r3, r4
	bl	gcm_v6m.gcm_c.whole.fotsgure_gcm_seal
	cmp	r0, #0
	beq	.Lgcm_v6m_BB52_10
@ %bb.9:                                @ %wide_fotsgure_gcm_seal_next.exit
	add	sp, #44
	b	.Lgcm_v6m_return_15938
.Lgcm_v6m_BB52_10:                              @ %then.4.i.i
	mvns	r6, r4
	mov	r1, r7
	ldrb	r0, [r7, #8]
	ldrb	r2, [r7, #9]
	lsls	r2, r2, #8
	adds	r0, r2, r0
	ldrb	r2, [r7, #10]
	lsls	r2, r2, #16
	ldrb	r3, [r7, #11]
	lsls	r3, r3, #24
	adds	r2, r3, r2
	adds	r0, r2, r0
	mov	r3, r0
	eors	r3, r6
	ldrb	r2, [r7, #4]
	ldrb	r4, [r7, #5]
	lsls	r4, r4, #8
	adds	r2, r4, r2
	ldrb	r4, [r7, #6]
	lsls	r4, r4, #16
	ldrb	r7, [r7, #7]
	lsls	r7, r7, #24
	adds	r4, r7, r4
	adds	r2, r4, r2
	eors	r6, r2
	orrs	r6, r3
	ldrb	r3, [r1]
	ldrb	r4, [r1, #1]
	lsls	r4, r4, #8
	adds	r3, r4, r3
	ldrb	r4, [r1, #2]
	lsls	r4, r4, #16
	ldrb	r7, [r1, #3]
	lsls	r7, r7, #24
	adds	r4, r7, r4
	adds	r3, r4, r3
	rev	r7, r3
	cmp	r6, #0
	beq	.Lgcm_v6m_BB52_12
@ %bb.11:                               @ %"gcm::counter::nonce_after.exit.thread.i.i.i"
	str	r7, [sp, #36]                   @ 4-byte Spill
	rev	r4, r2
	rev	r6, r0
	adds	r7, r6, #1
	ldr	r6, [sp, #40]                   @ 4-byte Reload
	adcs	r4, r6
	rev	r6, r4
	rev	r7, r7
	b	.Lgcm_v6m_BB52_14
.Lgcm_v6m_BB52_12:                              @ %"gcm::counter::nonce_after.exit.i.i.i"
	adds	r4, r3, #1
	beq	.Lgcm_v6m_BB52_15
@ %bb.13:
	adds	r7, r7, #1
	str	r7, [sp, #36]                   @ 4-byte Spill
	movs	r7, #0
	mov	r6, r7
.Lgcm_v6m_BB52_14:                              @ %arm.1.i.i.i
	strb	r6, [r1, #4]
	strb	r7, [r1, #8]
	lsrs	r4, r6, #24
	strb	r4, [r1, #7]
	lsrs	r4, r6, #16
	strb	r4, [r1, #6]
	lsrs	r4, r6, #8
	strb	r4, [r1, #5]
	ldr	r4, [sp, #36]                   @ 4-byte Reload
	rev	r4, r4
	strb	r4, [r1]
	lsrs	r6, r7, #24
	strb	r6, [r1, #11]
	lsrs	r6, r7, #16
	strb	r6, [r1, #10]
	lsrs	r6, r7, #8
	strb	r6, [r1, #9]
	lsrs	r6, r4, #24
	strb	r6, [r1, #3]
	lsrs	r6, r4, #16
	strb	r6, [r1, #2]
	lsrs	r4, r4, #8
	strb	r4, [r1, #1]
.Lgcm_v6m_BB52_15:                              @ %"gcm::counter::Counter::take.exit.i.i"
	strb	r2, [r5, #4]
	strb	r3, [r5]
	strb	r0, [r5, #8]
	lsrs	r1, r2, #24
	strb	r1, [r5, #7]
	lsrs	r1, r2, #16
	strb	r1, [r5, #6]
	lsrs	r1, r2, #8
	strb	r1, [r5, #5]
	lsrs	r1, r3, #24
	strb	r1, [r5, #3]
	lsrs	r1, r3, #16
	strb	r1, [r5, #2]
	lsrs	r1, r3, #8
	strb	r1, [r5, #1]
	lsrs	r1, r0, #24
	strb	r1, [r5, #11]
	lsrs	r1, r0, #16
	strb	r1, [r5, #10]
	lsrs	r0, r0, #8
	strb	r0, [r5, #9]
	ldr	r0, [sp, #40]                   @ 4-byte Reload
	add	sp, #44
	b	.Lgcm_v6m_return_15938
.Lgcm_v6m_return_15938:
	movs	r1, #0
	movs	r2, #0
	movs	r3, #0
	mov	r12, r1
	mov	lr, r1
	pop	{r4, r5, r6, r7, pc}
.Lgcm_v6m_func_end52:
	.size	gcm_v6m.fotsgure_gcm_seal_next, .Lgcm_v6m_func_end52-gcm_v6m.fotsgure_gcm_seal_next
	.cantunwind
	.fnend
                                        @ -- End function
	.section	.text.gcm_v6m.fotsgure_gcm_open,"ax",%progbits
	export_gcm_v6m	fotsgure_gcm_open
	.p2align	2
	.type	gcm_v6m.fotsgure_gcm_open,%function
	.code	16
	.thumb_func
gcm_v6m.fotsgure_gcm_open:                      @ @gcm_v6m.fotsgure_gcm_open
	.fnstart
@ %bb.0:
	.save	{r4, r5, r6, r7, lr}
	push	{r4, r5, r6, r7, lr}
	.pad	#116
	sub	sp, #116
	movs	r7, #1
	lsls	r4, r7, #12
	ldr	r6, [sp, #148]
	cmp	r6, #0
	beq	.Lgcm_v6m_BB53_10
@ %bb.1:
	ldr	r5, [sp, #140]
	cmp	r5, #0
	beq	.Lgcm_v6m_BB53_11
.Lgcm_v6m_BB53_2:
	cmp	r3, #0
	beq	.Lgcm_v6m_BB53_12
.Lgcm_v6m_BB53_3:
	cmp	r1, #0
	beq	.Lgcm_v6m_BB53_13
.Lgcm_v6m_BB53_4:
	ldr	r4, [sp, #152]
	cmp	r4, #16
	bne	.Lgcm_v6m_BB53_14
.Lgcm_v6m_BB53_5:                               @ %join.3.i.i
	cmp	r2, #0
	beq	.Lgcm_v6m_BB53_16
@ %bb.6:                                @ %after.11.i.i.i
	str	r5, [sp, #48]                   @ 4-byte Spill
	str	r2, [sp, #52]                   @ 4-byte Spill
	ldr	r2, [r0]
	mov	r5, r2
	subs	r5, #16
	movs	r4, #2
	cmp	r5, #16
	bhi	.Lgcm_v6m_BB53_15
@ %bb.7:                                @ %after.11.i.i.i
	lsls	r7, r5
	ldr	r5, .Lgcm_v6m_CPI53_0
	tst	r7, r5
	beq	.Lgcm_v6m_BB53_15
@ %bb.8:                                @ %join.6.i.i
	ldr	r7, [sp, #144]
	ldr	r4, [sp, #136]
	str	r4, [sp, #44]                   @ 4-byte Spill
	movs	r4, #0
	str	r4, [sp, #76]
	str	r4, [sp, #60]
	adds	r5, r0, #4
	str	r5, [sp, #56]
	movs	r5, #121
	lsls	r5, r5, #2
	adds	r0, r0, r5
	lsrs	r5, r2, #31
	lsls	r2, r2, #1
	adds	r2, #56
	str	r2, [sp, #64]
	str	r0, [sp, #72]
	adcs	r5, r4
	str	r5, [sp, #68]
	ldrb	r0, [r6, #12]
	ldrb	r2, [r6, #13]
	lsls	r2, r2, #8
	adds	r0, r2, r0
	ldrb	r2, [r6, #14]
	lsls	r2, r2, #16
	ldrb	r5, [r6, #15]
	lsls	r5, r5, #24
	adds	r2, r5, r2
	adds	r0, r2, r0
	str	r0, [sp, #96]
	ldrb	r0, [r6, #8]
	ldrb	r2, [r6, #9]
	lsls	r2, r2, #8
	adds	r0, r2, r0
	ldrb	r2, [r6, #10]
	lsls	r2, r2, #16
	ldrb	r5, [r6, #11]
	lsls	r5, r5, #24
	adds	r2, r5, r2
	adds	r0, r2, r0
	str	r0, [sp, #92]
	ldrb	r0, [r6, #4]
	ldrb	r2, [r6, #5]
	lsls	r2, r2, #8
	adds	r0, r2, r0
	ldrb	r2, [r6, #6]
	lsls	r2, r2, #16
	ldrb	r5, [r6, #7]
	lsls	r5, r5, #24
	adds	r2, r5, r2
	adds	r0, r2, r0
	str	r0, [sp, #88]
	ldrb	r0, [r6]
	ldrb	r2, [r6, #1]
	lsls	r2, r2, #8
	adds	r0, r2, r0
	ldrb	r2, [r6, #2]
	lsls	r2, r2, #16
	ldrb	r5, [r6, #3]
	lsls	r5, r5, #24
	adds	r2, r5, r2
	adds	r0, r2, r0
	str	r0, [sp, #84]
	str	r4, [sp, #112]
	str	r4, [sp, #108]
	str	r4, [sp, #104]
	str	r4, [sp, #100]
	add	r0, sp, #100
	str	r0, [sp, #36]
	add	r0, sp, #84
	str	r0, [sp, #32]
	str	r4, [sp, #28]
	str	r7, [sp, #24]
	ldr	r0, [sp, #44]                   @ 4-byte Reload
	str	r0, [sp, #8]
	str	r4, [sp, #12]
	ldr	r5, [sp, #48]                   @ 4-byte Reload
	str	r5, [sp, #16]
	str	r3, [sp]
	add	r0, sp, #56
	ldr	r2, [sp, #52]                   @ 4-byte Reload
	mov	r3, r4
	bl	gcm_v6m.gcm.mode.BorrowedGcm.compare
	uxtb	r0, r0
	cmp	r0, #0
	beq	.Lgcm_v6m_BB53_17
@ %bb.9:
	movs	r4, #6
	b	.Lgcm_v6m_BB53_18
.Lgcm_v6m_BB53_10:
	adds	r6, r6, r4
	ldr	r5, [sp, #140]
	cmp	r5, #0
	bne	.Lgcm_v6m_BB53_2
.Lgcm_v6m_BB53_11:
	adds	r5, r5, r4
	cmp	r3, #0
	bne	.Lgcm_v6m_BB53_3
.Lgcm_v6m_BB53_12:
	adds	r3, r3, r4
	cmp	r1, #0
	bne	.Lgcm_v6m_BB53_4
.Lgcm_v6m_BB53_13:
	adds	r1, r1, r4
	ldr	r4, [sp, #152]
	cmp	r4, #16
	beq	.Lgcm_v6m_BB53_5
.Lgcm_v6m_BB53_14:
	movs	r4, #4
.Lgcm_v6m_BB53_15:                              @ %wide_fotsgure_gcm_open.exit
	mov	r0, r4
	add	sp, #116
	b	.Lgcm_v6m_return_16261
.Lgcm_v6m_BB53_16:
	movs	r4, #3
	mov	r0, r4
	add	sp, #116
	b	.Lgcm_v6m_return_16261
.Lgcm_v6m_BB53_17:                              @ %then.1.i.i.i
	str	r7, [sp, #8]
	str	r4, [sp, #12]
	str	r5, [sp]
	add	r0, sp, #56
	add	r1, sp, #100
	movs	r2, #16
	mov	r3, r4
	bl	gcm_v6m.gcm.gctr.add_gctr
.Lgcm_v6m_BB53_18:                              @ %"gcm::mode::BorrowedGcm::decrypt::<#c01aad2b5fbc92b1>.exit.i.i"
	add	r0, sp, #100
	bl	gcm_v6m.aes_cipher.zeroize.elements.zeroize_elements.3
	bl	gcm_v6m.aes_cipher.zeroize.stack.wipe_stack.1536
	mov	r0, r4
	add	sp, #116
	b	.Lgcm_v6m_return_16261
	.p2align	2
@ %bb.19:
.Lgcm_v6m_CPI53_0:
	.long	65793                           @ 0x10101
.Lgcm_v6m_return_16261:
	movs	r1, #0
	movs	r2, #0
	movs	r3, #0
	mov	r12, r1
	mov	lr, r1
	pop	{r4, r5, r6, r7, pc}
.Lgcm_v6m_func_end53:
	.size	gcm_v6m.fotsgure_gcm_open, .Lgcm_v6m_func_end53-gcm_v6m.fotsgure_gcm_open
	.cantunwind
	.fnend
                                        @ -- End function
	.section	.text.gcm_v6m.fotsgure_gcm_open_to,"ax",%progbits
	export_gcm_v6m	fotsgure_gcm_open_to
	.p2align	2
	.type	gcm_v6m.fotsgure_gcm_open_to,%function
	.code	16
	.thumb_func
gcm_v6m.fotsgure_gcm_open_to:                   @ @gcm_v6m.fotsgure_gcm_open_to
	.fnstart
@ %bb.0:
	.save	{r4, r5, r6, r7, lr}
	push	{r4, r5, r6, r7, lr}
	.pad	#132
	sub	sp, #132
	str	r2, [sp, #64]                   @ 4-byte Spill
	movs	r2, #1
	lsls	r7, r2, #12
	ldr	r6, [sp, #172]
	cmp	r6, #0
	str	r2, [sp, #60]                   @ 4-byte Spill
	bne	.Lgcm_v6m_BB54_1
	b	.Lgcm_v6m_BB54_16
.Lgcm_v6m_BB54_1:
	ldr	r4, [sp, #164]
	cmp	r4, #0
	bne	.Lgcm_v6m_BB54_2
	b	.Lgcm_v6m_BB54_17
.Lgcm_v6m_BB54_2:
	ldr	r5, [sp, #156]
	cmp	r5, #0
	bne	.Lgcm_v6m_BB54_3
	b	.Lgcm_v6m_BB54_18
.Lgcm_v6m_BB54_3:
	cmp	r3, #0
	bne	.Lgcm_v6m_BB54_4
	b	.Lgcm_v6m_BB54_19
.Lgcm_v6m_BB54_4:
	cmp	r1, #0
	bne	.Lgcm_v6m_BB54_5
	b	.Lgcm_v6m_BB54_20
.Lgcm_v6m_BB54_5:
	ldr	r7, [sp, #160]
	ldr	r2, [sp, #168]
	cmp	r7, r2
	beq	.Lgcm_v6m_BB54_6
	b	.Lgcm_v6m_BB54_21
.Lgcm_v6m_BB54_6:                               @ %join.3.i.i
	ldr	r2, [sp, #176]
	cmp	r2, #16
	beq	.Lgcm_v6m_BB54_7
	b	.Lgcm_v6m_BB54_23
.Lgcm_v6m_BB54_7:                               @ %join.6.i.i
	ldr	r2, [sp, #64]                   @ 4-byte Reload
	cmp	r2, #0
	bne	.Lgcm_v6m_BB54_8
	b	.Lgcm_v6m_BB54_24
.Lgcm_v6m_BB54_8:                               @ %after.11.i.i.i
	str	r7, [sp, #48]                   @ 4-byte Spill
	ldr	r2, [r0]
	str	r2, [sp, #52]                   @ 4-byte Spill
	subs	r2, #16
	movs	r7, #2
	cmp	r2, #16
	bls	.Lgcm_v6m_BB54_9
	b	.Lgcm_v6m_BB54_22
.Lgcm_v6m_BB54_9:                               @ %after.11.i.i.i
	str	r4, [sp, #68]                   @ 4-byte Spill
	ldr	r4, [sp, #60]                   @ 4-byte Reload
	lsls	r4, r2
	ldr	r2, .Lgcm_v6m_CPI54_0
	tst	r4, r2
	bne	.Lgcm_v6m_BB54_10
	b	.Lgcm_v6m_BB54_22
.Lgcm_v6m_BB54_10:                              @ %join.9.i.i
	ldr	r2, [sp, #152]
	str	r2, [sp, #44]                   @ 4-byte Spill
	movs	r7, #0
	str	r7, [sp, #92]
	str	r7, [sp, #76]
	adds	r2, r0, #4
	str	r2, [sp, #72]
	movs	r2, #121
	lsls	r2, r2, #2
	adds	r0, r0, r2
	ldr	r4, [sp, #52]                   @ 4-byte Reload
	lsrs	r2, r4, #31
	lsls	r4, r4, #1
	adds	r4, #56
	str	r4, [sp, #80]
	str	r0, [sp, #88]
	adcs	r2, r7
	str	r2, [sp, #84]
	ldrb	r0, [r6, #12]
	ldrb	r2, [r6, #13]
	lsls	r2, r2, #8
	adds	r0, r2, r0
	ldrb	r2, [r6, #14]
	lsls	r2, r2, #16
	ldrb	r4, [r6, #15]
	lsls	r4, r4, #24
	adds	r2, r4, r2
	adds	r0, r2, r0
	str	r0, [sp, #112]
	ldrb	r0, [r6, #8]
	ldrb	r2, [r6, #9]
	lsls	r2, r2, #8
	adds	r0, r2, r0
	ldrb	r2, [r6, #10]
	lsls	r2, r2, #16
	ldrb	r4, [r6, #11]
	lsls	r4, r4, #24
	adds	r2, r4, r2
	adds	r0, r2, r0
	str	r0, [sp, #108]
	ldrb	r0, [r6, #4]
	ldrb	r2, [r6, #5]
	lsls	r2, r2, #8
	adds	r0, r2, r0
	ldrb	r2, [r6, #6]
	lsls	r2, r2, #16
	ldrb	r4, [r6, #7]
	lsls	r4, r4, #24
	adds	r2, r4, r2
	adds	r0, r2, r0
	str	r0, [sp, #104]
	ldrb	r0, [r6]
	ldrb	r2, [r6, #1]
	lsls	r2, r2, #8
	adds	r0, r2, r0
	ldrb	r2, [r6, #2]
	lsls	r2, r2, #16
	ldrb	r4, [r6, #3]
	lsls	r4, r4, #24
	adds	r2, r4, r2
	adds	r0, r2, r0
	str	r0, [sp, #100]
	str	r7, [sp, #128]
	str	r7, [sp, #124]
	str	r7, [sp, #120]
	str	r7, [sp, #116]
	add	r0, sp, #116
	str	r0, [sp, #36]
	add	r0, sp, #100
	str	r0, [sp, #32]
	str	r7, [sp, #28]
	ldr	r6, [sp, #48]                   @ 4-byte Reload
	str	r6, [sp, #24]
	ldr	r0, [sp, #44]                   @ 4-byte Reload
	str	r0, [sp, #8]
	str	r7, [sp, #12]
	str	r5, [sp, #16]
	str	r3, [sp]
	add	r0, sp, #72
	ldr	r2, [sp, #64]                   @ 4-byte Reload
	str	r7, [sp, #56]                   @ 4-byte Spill
	mov	r3, r7
	bl	gcm_v6m.gcm.mode.BorrowedGcm.compare
	uxtb	r0, r0
	cmp	r0, #0
	beq	.Lgcm_v6m_BB54_25
@ %bb.11:                               @ %else.2.i.i.i
	movs	r7, #6
	cmp	r6, #0
	ldr	r4, [sp, #68]                   @ 4-byte Reload
	beq	.Lgcm_v6m_BB54_15
@ %bb.12:                               @ %loop.5.preheader.i.i.i.i
	subs	r5, r6, #1
	ldr	r0, [sp, #56]                   @ 4-byte Reload
	mov	r1, r0
	sbcs	r1, r0
	orrs	r1, r5
	beq	.Lgcm_v6m_BB54_14
@ %bb.13:                               @ %join.8.preheader.i.i.i.i
	movs	r1, #0
	mov	r0, r4
	mov	r2, r5
	bl	memset
	ldr	r0, [sp, #56]                   @ 4-byte Reload
.Lgcm_v6m_BB54_14:                              @ %after.4.i.i.i.i
	strb	r0, [r4, r5]
.Lgcm_v6m_BB54_15:                              @ %"gcm::mode::BorrowedGcm::decrypt_to::<#c01aad2b5fbc92b1>.exit.i.i"
	str	r7, [sp, #56]                   @ 4-byte Spill
	b	.Lgcm_v6m_BB54_36
.Lgcm_v6m_BB54_16:
	adds	r6, r6, r7
	ldr	r4, [sp, #164]
	cmp	r4, #0
	beq	.Lgcm_v6m_BB54_17
	b	.Lgcm_v6m_BB54_2
.Lgcm_v6m_BB54_17:
	adds	r4, r4, r7
	ldr	r5, [sp, #156]
	cmp	r5, #0
	beq	.Lgcm_v6m_BB54_18
	b	.Lgcm_v6m_BB54_3
.Lgcm_v6m_BB54_18:
	adds	r5, r5, r7
	cmp	r3, #0
	beq	.Lgcm_v6m_BB54_19
	b	.Lgcm_v6m_BB54_4
.Lgcm_v6m_BB54_19:
	adds	r3, r3, r7
	cmp	r1, #0
	beq	.Lgcm_v6m_BB54_20
	b	.Lgcm_v6m_BB54_5
.Lgcm_v6m_BB54_20:
	adds	r1, r1, r7
	ldr	r7, [sp, #160]
	ldr	r2, [sp, #168]
	cmp	r7, r2
	bne	.Lgcm_v6m_BB54_21
	b	.Lgcm_v6m_BB54_6
.Lgcm_v6m_BB54_21:
	movs	r7, #10
.Lgcm_v6m_BB54_22:                              @ %wide_fotsgure_gcm_open_to.exit
	mov	r0, r7
	add	sp, #132
	b	.Lgcm_v6m_return_16515
.Lgcm_v6m_BB54_23:
	movs	r7, #4
	mov	r0, r7
	add	sp, #132
	b	.Lgcm_v6m_return_16515
.Lgcm_v6m_BB54_24:
	movs	r7, #3
	mov	r0, r7
	add	sp, #132
	b	.Lgcm_v6m_return_16515
.Lgcm_v6m_BB54_25:                              @ %then.1.i.i.i
	ldr	r4, [sp, #68]                   @ 4-byte Reload
	subs	r0, r4, r5
	ldr	r3, [sp, #56]                   @ 4-byte Reload
	mov	r1, r3
	sbcs	r1, r3
	subs	r0, r0, r6
	sbcs	r1, r3
	bhs	.Lgcm_v6m_BB54_28
@ %bb.26:                               @ %join.7.i.i.i.i.i.i.i.i.i.preheader
	movs	r0, #3
	mov	r7, r6
	str	r0, [sp, #64]                   @ 4-byte Spill
	ands	r7, r0
	cmp	r6, #4
	bhs	.Lgcm_v6m_BB54_29
@ %bb.27:
	movs	r1, #0
	b	.Lgcm_v6m_BB54_32
.Lgcm_v6m_BB54_28:                              @ %apart.2.i.i.i.i.i.i.i.i.i
	mov	r0, r4
	mov	r1, r5
	mov	r2, r6
	bl	memmove
	ldr	r3, [sp, #56]                   @ 4-byte Reload
	b	.Lgcm_v6m_BB54_35
.Lgcm_v6m_BB54_29:                              @ %join.7.i.i.i.i.i.i.i.i.i.preheader.new
	str	r7, [sp, #44]                   @ 4-byte Spill
	ldr	r0, [sp, #64]                   @ 4-byte Reload
	bics	r6, r0
	str	r6, [sp, #52]                   @ 4-byte Spill
	movs	r0, #0
	mov	r1, r0
	mov	r7, r0
	ldr	r6, [sp, #60]                   @ 4-byte Reload
.Lgcm_v6m_BB54_30:                              @ %join.7.i.i.i.i.i.i.i.i.i
                                        @ =>This Inner Loop Header: Depth=1
	ldrb	r4, [r5, r1]
	ldr	r3, [sp, #68]                   @ 4-byte Reload
	strb	r4, [r3, r1]
	mov	r4, r1
	orrs	r4, r6
	ldrb	r3, [r5, r4]
	ldr	r2, [sp, #68]                   @ 4-byte Reload
	strb	r3, [r2, r4]
	movs	r3, #2
	orrs	r3, r1
	ldrb	r4, [r5, r3]
	ldr	r2, [sp, #68]                   @ 4-byte Reload
	strb	r4, [r2, r3]
	mov	r3, r1
	ldr	r2, [sp, #64]                   @ 4-byte Reload
	orrs	r3, r2
	ldrb	r4, [r5, r3]
	ldr	r2, [sp, #68]                   @ 4-byte Reload
	strb	r4, [r2, r3]
	ldr	r4, [sp, #68]                   @ 4-byte Reload
	adds	r1, r1, #4
	adcs	r7, r0
	mov	r3, r1
	ldr	r2, [sp, #52]                   @ 4-byte Reload
	eors	r3, r2
	orrs	r3, r7
	bne	.Lgcm_v6m_BB54_30
@ %bb.31:                               @ %"core::slice::edits::slice+T::copy_from_slice::<i8,20'core::clone::U8Clone{}>.exit.i.i.i.loopexit.unr-lcssa"
	ldr	r7, [sp, #44]                   @ 4-byte Reload
	cmp	r7, #0
	ldr	r6, [sp, #48]                   @ 4-byte Reload
	ldr	r3, [sp, #56]                   @ 4-byte Reload
	beq	.Lgcm_v6m_BB54_35
.Lgcm_v6m_BB54_32:                              @ %join.7.i.i.i.i.i.i.i.i.i.epil.preheader
	ldrb	r0, [r5, r1]
	strb	r0, [r4, r1]
	cmp	r7, #1
	beq	.Lgcm_v6m_BB54_35
@ %bb.33:                               @ %join.7.i.i.i.i.i.i.i.i.i.epil.1
	adds	r0, r1, #1
	ldrb	r2, [r5, r0]
	strb	r2, [r4, r0]
	cmp	r7, #2
	beq	.Lgcm_v6m_BB54_35
@ %bb.34:                               @ %join.7.i.i.i.i.i.i.i.i.i.epil.2
	adds	r0, r1, #2
	ldrb	r1, [r5, r0]
	strb	r1, [r4, r0]
.Lgcm_v6m_BB54_35:                              @ %"core::slice::edits::slice+T::copy_from_slice::<i8,20'core::clone::U8Clone{}>.exit.i.i.i"
	str	r6, [sp, #8]
	str	r3, [sp, #12]
	str	r4, [sp]
	add	r0, sp, #72
	add	r1, sp, #116
	movs	r2, #16
	bl	gcm_v6m.gcm.gctr.add_gctr
.Lgcm_v6m_BB54_36:                              @ %"gcm::mode::BorrowedGcm::decrypt_to::<#c01aad2b5fbc92b1>.exit.i.i"
	add	r0, sp, #116
	bl	gcm_v6m.aes_cipher.zeroize.elements.zeroize_elements.3
	bl	gcm_v6m.aes_cipher.zeroize.stack.wipe_stack.1536
	ldr	r7, [sp, #56]                   @ 4-byte Reload
	mov	r0, r7
	add	sp, #132
	b	.Lgcm_v6m_return_16515
	.p2align	2
@ %bb.37:
.Lgcm_v6m_CPI54_0:
	.long	65793                           @ 0x10101
.Lgcm_v6m_return_16515:
	movs	r1, #0
	movs	r2, #0
	movs	r3, #0
	mov	r12, r1
	mov	lr, r1
	pop	{r4, r5, r6, r7, pc}
.Lgcm_v6m_func_end54:
	.size	gcm_v6m.fotsgure_gcm_open_to, .Lgcm_v6m_func_end54-gcm_v6m.fotsgure_gcm_open_to
	.cantunwind
	.fnend
                                        @ -- End function
	.section	.text.gcm_v6m.fotsgure_gcm_begin,"ax",%progbits
	export_gcm_v6m	fotsgure_gcm_begin
	.p2align	2
	.type	gcm_v6m.fotsgure_gcm_begin,%function
	.code	16
	.thumb_func
gcm_v6m.fotsgure_gcm_begin:                     @ @gcm_v6m.fotsgure_gcm_begin
	.fnstart
@ %bb.0:
	.save	{r4, r5, r6, r7, lr}
	push	{r4, r5, r6, r7, lr}
	.pad	#36
	sub	sp, #36
	movs	r6, #1
	cmp	r2, #0
	bne	.Lgcm_v6m_BB55_2
@ %bb.1:
	lsls	r4, r6, #12
	adds	r2, r2, r4
.Lgcm_v6m_BB55_2:
	cmp	r3, #0
	beq	.Lgcm_v6m_BB55_8
@ %bb.3:                                @ %after.1.i.i
	ldr	r5, [r0]
	mov	r7, r5
	subs	r7, #16
	movs	r4, #2
	cmp	r7, #16
	bhi	.Lgcm_v6m_BB55_7
@ %bb.4:                                @ %after.1.i.i
	str	r6, [sp, #4]                    @ 4-byte Spill
	lsls	r6, r7
	ldr	r7, .Lgcm_v6m_CPI55_0
	tst	r6, r7
	beq	.Lgcm_v6m_BB55_7
@ %bb.5:                                @ %join.13.i.i
	movs	r4, #0
	str	r4, [sp, #28]
	str	r4, [sp, #12]
	adds	r6, r0, #4
	str	r6, [sp, #8]
	movs	r6, #121
	lsls	r6, r6, #2
	adds	r0, r0, r6
	lsrs	r6, r5, #31
	lsls	r5, r5, #1
	adds	r5, #56
	str	r5, [sp, #16]
	str	r0, [sp, #24]
	adcs	r6, r4
	str	r6, [sp, #20]
	mov	r0, r1
	adds	r0, #32
	str	r0, [sp]
	add	r0, sp, #8
	mov	r5, r1
	mov	r1, r2
	mov	r2, r3
	mov	r7, r3
	mov	r3, r4
	bl	gcm_v6m.gcm.mode.BorrowedGcm.put_pre_counter
	str	r4, [r5]
	str	r4, [r5, #4]
	str	r4, [r5, #8]
	str	r4, [r5, #12]
	str	r4, [r5, #16]
	str	r4, [r5, #20]
	ldr	r0, [sp, #4]                    @ 4-byte Reload
	str	r0, [r5, #24]
	str	r4, [r5, #28]
	adds	r5, #48
	movs	r2, #32
	mov	r0, r5
	mov	r1, r4
	bl	memset
	cmp	r7, #12
	beq	.Lgcm_v6m_BB55_7
@ %bb.6:                                @ %then.1.i.i.i.i
	bl	gcm_v6m.aes_cipher.zeroize.stack.wipe_stack.512
.Lgcm_v6m_BB55_7:                               @ %wide_fotsgure_gcm_begin.exit
	mov	r0, r4
	add	sp, #36
	b	.Lgcm_v6m_return_16725
.Lgcm_v6m_BB55_8:
	movs	r4, #3
	mov	r0, r4
	add	sp, #36
	b	.Lgcm_v6m_return_16725
	.p2align	2
@ %bb.9:
.Lgcm_v6m_CPI55_0:
	.long	65793                           @ 0x10101
.Lgcm_v6m_return_16725:
	movs	r1, #0
	movs	r2, #0
	movs	r3, #0
	mov	r12, r1
	mov	lr, r1
	pop	{r4, r5, r6, r7, pc}
.Lgcm_v6m_func_end55:
	.size	gcm_v6m.fotsgure_gcm_begin, .Lgcm_v6m_func_end55-gcm_v6m.fotsgure_gcm_begin
	.cantunwind
	.fnend
                                        @ -- End function
	.section	.text.gcm_v6m.fotsgure_gcm_begin_next,"ax",%progbits
	export_gcm_v6m	fotsgure_gcm_begin_next
	.p2align	2
	.type	gcm_v6m.fotsgure_gcm_begin_next,%function
	.code	16
	.thumb_func
gcm_v6m.fotsgure_gcm_begin_next:                @ @gcm_v6m.fotsgure_gcm_begin_next
	.fnstart
@ %bb.0:
	.save	{r4, r5, r6, r7, lr}
	push	{r4, r5, r6, r7, lr}
	.pad	#76
	sub	sp, #76
	mov	r6, r3
	str	r1, [sp, #20]                   @ 4-byte Spill
	ldrb	r1, [r2, #8]
	ldrb	r3, [r2, #9]
	lsls	r3, r3, #8
	adds	r1, r3, r1
	ldrb	r3, [r2, #10]
	lsls	r3, r3, #16
	ldrb	r4, [r2, #11]
	lsls	r4, r4, #24
	adds	r3, r4, r3
	adds	r5, r3, r1
	ldrb	r1, [r2, #4]
	ldrb	r3, [r2, #5]
	lsls	r3, r3, #8
	adds	r1, r3, r1
	ldrb	r3, [r2, #6]
	lsls	r3, r3, #16
	ldrb	r4, [r2, #7]
	lsls	r4, r4, #24
	adds	r3, r4, r3
	adds	r1, r3, r1
	str	r1, [sp, #24]                   @ 4-byte Spill
	str	r5, [sp, #16]                   @ 4-byte Spill
	ands	r1, r5
	adds	r1, r1, #1
	rsbs	r4, r1, #0
	adcs	r4, r1
	ldrb	r3, [r2]
	ldrb	r5, [r2, #1]
	lsls	r5, r5, #8
	adds	r3, r5, r3
	ldrb	r5, [r2, #2]
	lsls	r5, r5, #16
	ldrb	r7, [r2, #3]
	lsls	r7, r7, #24
	adds	r5, r7, r5
	adds	r7, r5, r3
	cmp	r1, #0
	bne	.Lgcm_v6m_BB56_4
@ %bb.1:
	adds	r1, r7, #1
	bne	.Lgcm_v6m_BB56_4
@ %bb.2:
	movs	r5, #7
.Lgcm_v6m_BB56_3:                               @ %wide_fotsgure_gcm_begin_next.exit
	mov	r0, r5
	add	sp, #76
	b	.Lgcm_v6m_return_16808
.Lgcm_v6m_BB56_4:                               @ %join.3.i.i
	ldr	r1, [r0]
	mov	r3, r1
	subs	r3, #16
	movs	r5, #2
	cmp	r3, #16
	bhi	.Lgcm_v6m_BB56_3
@ %bb.5:                                @ %join.3.i.i
	str	r6, [sp, #12]                   @ 4-byte Spill
	movs	r6, #1
	str	r6, [sp, #8]                    @ 4-byte Spill
	lsls	r6, r3
	ldr	r3, .Lgcm_v6m_CPI56_0
	tst	r6, r3
	beq	.Lgcm_v6m_BB56_3
@ %bb.6:                                @ %join.6.i.i
	movs	r5, #0
	str	r5, [sp, #60]
	str	r5, [sp, #44]
	adds	r3, r0, #4
	str	r3, [sp, #40]
	movs	r3, #121
	lsls	r3, r3, #2
	adds	r0, r0, r3
	lsrs	r3, r1, #31
	lsls	r1, r1, #1
	adds	r1, #56
	str	r1, [sp, #48]
	str	r0, [sp, #56]
	adcs	r3, r5
	str	r3, [sp, #52]
	rev	r0, r7
	cmp	r4, #0
	bne	.Lgcm_v6m_BB56_8
@ %bb.7:                                @ %"gcm::counter::nonce_after.exit.thread.i.i.i.i"
	ldr	r1, [sp, #24]                   @ 4-byte Reload
	rev	r1, r1
	ldr	r6, [sp, #16]                   @ 4-byte Reload
	rev	r3, r6
	adds	r4, r3, #1
	adcs	r1, r5
	rev	r3, r1
	rev	r4, r4
	b	.Lgcm_v6m_BB56_10
.Lgcm_v6m_BB56_8:                               @ %"gcm::counter::nonce_after.exit.i.i.i.i"
	adds	r1, r7, #1
	ldr	r6, [sp, #16]                   @ 4-byte Reload
	beq	.Lgcm_v6m_BB56_11
@ %bb.9:
	adds	r0, r0, #1
	movs	r4, #0
	mov	r3, r4
.Lgcm_v6m_BB56_10:                              @ %arm.1.i.i.i.i
	strb	r3, [r2, #4]
	strb	r4, [r2, #8]
	lsrs	r1, r3, #24
	strb	r1, [r2, #7]
	lsrs	r1, r3, #16
	strb	r1, [r2, #6]
	lsrs	r1, r3, #8
	strb	r1, [r2, #5]
	rev	r0, r0
	strb	r0, [r2]
	lsrs	r1, r4, #24
	strb	r1, [r2, #11]
	lsrs	r1, r4, #16
	strb	r1, [r2, #10]
	lsrs	r1, r4, #8
	strb	r1, [r2, #9]
	lsrs	r1, r0, #24
	strb	r1, [r2, #3]
	lsrs	r1, r0, #16
	strb	r1, [r2, #2]
	lsrs	r0, r0, #8
	strb	r0, [r2, #1]
.Lgcm_v6m_BB56_11:                              @ %"gcm::mode::BorrowedGcm::begin_next::<#c01aad2b5fbc92b1>.exit.i.i"
	ldr	r0, [sp, #24]                   @ 4-byte Reload
	str	r0, [sp, #68]
	str	r7, [sp, #64]
	str	r6, [sp, #72]
	ldr	r7, [sp, #20]                   @ 4-byte Reload
	mov	r0, r7
	adds	r0, #32
	str	r0, [sp]
	add	r0, sp, #40
	add	r1, sp, #64
	movs	r6, #12
	mov	r2, r6
	mov	r3, r5
	bl	gcm_v6m.gcm.mode.BorrowedGcm.put_pre_counter
	str	r5, [r7]
	str	r5, [r7, #4]
	str	r5, [r7, #8]
	str	r5, [r7, #12]
	str	r5, [r7, #16]
	str	r5, [r7, #20]
	ldr	r0, [sp, #8]                    @ 4-byte Reload
	str	r0, [r7, #24]
	str	r5, [r7, #28]
	adds	r7, #48
	movs	r2, #32
	mov	r0, r7
	mov	r1, r5
	bl	memset
	ldr	r0, [sp, #64]
	str	r0, [sp, #28]
	ldr	r0, [sp, #68]
	str	r0, [sp, #32]
	ldr	r0, [sp, #72]
	str	r0, [sp, #36]
	add	r1, sp, #28
	ldr	r0, [sp, #12]                   @ 4-byte Reload
	mov	r2, r6
	bl	memcpy
	mov	r0, r5
	add	sp, #76
	b	.Lgcm_v6m_return_16808
	.p2align	2
@ %bb.12:
.Lgcm_v6m_CPI56_0:
	.long	65793                           @ 0x10101
.Lgcm_v6m_return_16808:
	movs	r1, #0
	movs	r2, #0
	movs	r3, #0
	mov	r12, r1
	mov	lr, r1
	pop	{r4, r5, r6, r7, pc}
.Lgcm_v6m_func_end56:
	.size	gcm_v6m.fotsgure_gcm_begin_next, .Lgcm_v6m_func_end56-gcm_v6m.fotsgure_gcm_begin_next
	.cantunwind
	.fnend
                                        @ -- End function
	.section	.text.gcm_v6m.fotsgure_gcm_additional,"ax",%progbits
	export_gcm_v6m	fotsgure_gcm_additional
	.p2align	2
	.type	gcm_v6m.fotsgure_gcm_additional,%function
	.code	16
	.thumb_func
gcm_v6m.fotsgure_gcm_additional:                @ @gcm_v6m.fotsgure_gcm_additional
	.fnstart
@ %bb.0:
	.save	{r4, r5, r6, r7, lr}
	push	{r4, r5, r6, r7, lr}
	.pad	#60
	sub	sp, #60
	str	r3, [sp, #28]                   @ 4-byte Spill
	movs	r5, #1
	cmp	r2, #0
	bne	.Lgcm_v6m_BB57_2
@ %bb.1:
	lsls	r4, r5, #12
	adds	r2, r2, r4
.Lgcm_v6m_BB57_2:
	ldr	r6, [r0]
	mov	r7, r6
	subs	r7, #16
	movs	r3, #2
	cmp	r7, #16
	bhi	.Lgcm_v6m_BB57_10
@ %bb.3:
	lsls	r5, r7
	ldr	r7, .Lgcm_v6m_CPI57_0
	tst	r5, r7
	beq	.Lgcm_v6m_BB57_10
@ %bb.4:                                @ %join.3.i.i
	movs	r5, #0
	str	r5, [sp, #52]
	str	r5, [sp, #36]
	adds	r4, r0, #4
	str	r4, [sp, #32]
	movs	r4, #121
	lsls	r4, r4, #2
	adds	r0, r0, r4
	lsrs	r4, r6, #31
	lsls	r6, r6, #1
	adds	r6, #56
	str	r6, [sp, #40]
	str	r0, [sp, #48]
	adcs	r4, r5
	str	r4, [sp, #44]
	ldr	r0, [r1, #24]
	ldr	r7, [r1, #28]
	subs	r6, r0, #1
	sbcs	r7, r5
	add	r0, sp, #32
	movs	r3, #8
	movs	r4, #3
	subs	r4, r4, r6
	mov	r4, r5
	sbcs	r4, r7
	blo	.Lgcm_v6m_BB57_10
@ %bb.5:                                @ %join.3.i.i
	lsls	r4, r6, #24
	bne	.Lgcm_v6m_BB57_10
@ %bb.6:                                @ %join.3.i.i.i
	ldm	r1!, {r4, r6}
	ldr	r3, [sp, #28]                   @ 4-byte Reload
	subs	r1, #8
	adds	r3, r3, r4
	adcs	r6, r5
	mov	r3, r5
	adcs	r3, r5
	beq	.Lgcm_v6m_BB57_8
@ %bb.7:
	mvns	r6, r5
.Lgcm_v6m_BB57_8:                               @ %join.3.i.i.i
	lsrs	r3, r6, #29
	beq	.Lgcm_v6m_BB57_11
@ %bb.9:
	movs	r3, #5
.Lgcm_v6m_BB57_10:                              @ %wide_fotsgure_gcm_additional.exit
	mov	r0, r3
	add	sp, #60
	b	.Lgcm_v6m_return_17023
.Lgcm_v6m_BB57_11:                              @ %arm.4.i.i
	adds	r0, #16
	ldr	r3, [sp, #28]                   @ 4-byte Reload
	str	r3, [sp, #16]
	str	r5, [sp, #20]
	movs	r6, #15
	ands	r4, r6
	str	r4, [sp]
	str	r5, [sp, #4]
	str	r2, [sp, #8]
	mov	r4, r1
	adds	r4, #48
	mov	r2, r1
	adds	r2, #64
	mov	r6, r1
	mov	r1, r4
	mov	r4, r3
	bl	gcm_v6m.gcm.hash_room.hash_piece
	bl	gcm_v6m.aes_cipher.zeroize.stack.wipe_stack.512
	ldr	r0, [r6]
	adds	r0, r0, r4
	str	r0, [r6]
	ldr	r0, [r6, #4]
	adcs	r0, r5
	str	r0, [r6, #4]
	mov	r3, r5
	mov	r0, r3
	add	sp, #60
	b	.Lgcm_v6m_return_17023
	.p2align	2
@ %bb.12:
.Lgcm_v6m_CPI57_0:
	.long	65793                           @ 0x10101
.Lgcm_v6m_return_17023:
	movs	r1, #0
	movs	r2, #0
	movs	r3, #0
	mov	r12, r1
	mov	lr, r1
	pop	{r4, r5, r6, r7, pc}
.Lgcm_v6m_func_end57:
	.size	gcm_v6m.fotsgure_gcm_additional, .Lgcm_v6m_func_end57-gcm_v6m.fotsgure_gcm_additional
	.cantunwind
	.fnend
                                        @ -- End function
	.section	.text.gcm_v6m.fotsgure_gcm_encrypt,"ax",%progbits
	export_gcm_v6m	fotsgure_gcm_encrypt
	.p2align	2
	.type	gcm_v6m.fotsgure_gcm_encrypt,%function
	.code	16
	.thumb_func
gcm_v6m.fotsgure_gcm_encrypt:                   @ @gcm_v6m.fotsgure_gcm_encrypt
	.fnstart
@ %bb.0:
	.save	{r4, r5, r6, r7, lr}
	push	{r4, r5, r6, r7, lr}
	.pad	#60
	sub	sp, #60
	mov	r7, r2
	mov	r5, r1
	movs	r2, #1
	cmp	r7, #0
	bne	.Lgcm_v6m_BB58_2
@ %bb.1:
	lsls	r1, r2, #12
	adds	r7, r7, r1
.Lgcm_v6m_BB58_2:
	ldr	r1, [r0]
	mov	r6, r1
	subs	r6, #16
	movs	r4, #2
	cmp	r6, #16
	bhi	.Lgcm_v6m_BB58_7
@ %bb.3:
	lsls	r2, r6
	ldr	r6, .Lgcm_v6m_CPI58_0
	tst	r2, r6
	beq	.Lgcm_v6m_BB58_7
@ %bb.4:                                @ %join.3.i.i
	movs	r4, #0
	str	r4, [sp, #52]
	str	r4, [sp, #36]
	adds	r2, r0, #4
	str	r2, [sp, #32]
	movs	r2, #121
	lsls	r2, r2, #2
	adds	r0, r0, r2
	lsrs	r2, r1, #31
	lsls	r1, r1, #1
	adds	r1, #56
	str	r1, [sp, #40]
	str	r0, [sp, #48]
	adcs	r2, r4
	str	r2, [sp, #44]
	str	r3, [sp]
	str	r4, [sp, #4]
	str	r3, [sp, #28]                   @ 4-byte Spill
	add	r6, sp, #32
	movs	r2, #2
	mov	r0, r6
	mov	r1, r5
	bl	gcm_v6m.gcm.mode.BorrowedGcm.enter_phase
	lsls	r0, r0, #24
	beq	.Lgcm_v6m_BB58_8
@ %bb.5:                                @ %arm.2.i.i.i
	lsls	r0, r1, #31
	bne	.Lgcm_v6m_BB58_9
@ %bb.6:                                @ %arm.2.i.i.i
	movs	r4, #8
.Lgcm_v6m_BB58_7:                               @ %wide_fotsgure_gcm_encrypt.exit
	mov	r0, r4
	add	sp, #60
	b	.Lgcm_v6m_return_17136
.Lgcm_v6m_BB58_8:                               @ %arm.1.i.i.i
	adds	r6, #16
	ldr	r2, [r5, #8]
	ldr	r3, [r5, #12]
	ldr	r0, [sp, #28]                   @ 4-byte Reload
	str	r0, [sp, #8]
	str	r4, [sp, #12]
	str	r7, [sp]
	adds	r2, #16
	adcs	r3, r4
	mov	r1, r5
	adds	r1, #32
	add	r0, sp, #32
	bl	gcm_v6m.gcm.gctr.add_gctr
	ldr	r0, [r5, #8]
	ldr	r1, [sp, #28]                   @ 4-byte Reload
	str	r1, [sp, #16]
	str	r4, [sp, #20]
	movs	r1, #15
	ands	r1, r0
	add	r0, sp, #0
	stm	r0!, {r1, r4, r7}
	mov	r1, r5
	adds	r1, #48
	mov	r2, r5
	adds	r2, #64
	mov	r0, r6
	bl	gcm_v6m.gcm.hash_room.hash_piece
	ldr	r0, [r5, #8]
	ldr	r1, [sp, #28]                   @ 4-byte Reload
	adds	r0, r0, r1
	str	r0, [r5, #8]
	ldr	r0, [r5, #12]
	adcs	r0, r4
	str	r0, [r5, #12]
	bl	gcm_v6m.aes_cipher.zeroize.stack.wipe_stack.1536
	mov	r0, r4
	add	sp, #60
	b	.Lgcm_v6m_return_17136
.Lgcm_v6m_BB58_9:
	movs	r4, #5
	mov	r0, r4
	add	sp, #60
	b	.Lgcm_v6m_return_17136
	.p2align	2
@ %bb.10:
.Lgcm_v6m_CPI58_0:
	.long	65793                           @ 0x10101
.Lgcm_v6m_return_17136:
	movs	r1, #0
	movs	r2, #0
	movs	r3, #0
	mov	r12, r1
	mov	lr, r1
	pop	{r4, r5, r6, r7, pc}
.Lgcm_v6m_func_end58:
	.size	gcm_v6m.fotsgure_gcm_encrypt, .Lgcm_v6m_func_end58-gcm_v6m.fotsgure_gcm_encrypt
	.cantunwind
	.fnend
                                        @ -- End function
	.section	.text.gcm_v6m.fotsgure_gcm_finish,"ax",%progbits
	export_gcm_v6m	fotsgure_gcm_finish
	.p2align	2
	.type	gcm_v6m.fotsgure_gcm_finish,%function
	.code	16
	.thumb_func
gcm_v6m.fotsgure_gcm_finish:                    @ @gcm_v6m.fotsgure_gcm_finish
	.fnstart
@ %bb.0:
	.save	{r4, r5, r6, r7, lr}
	push	{r4, r5, r6, r7, lr}
	.pad	#44
	sub	sp, #44
	ldr	r3, [r0]
	mov	r6, r3
	subs	r6, #16
	movs	r4, #2
	cmp	r6, #16
	bhi	.Lgcm_v6m_BB59_4
@ %bb.1:
	mov	r5, r2
	movs	r2, #1
	mov	r7, r2
	lsls	r7, r6
	ldr	r6, .Lgcm_v6m_CPI59_0
	tst	r7, r6
	beq	.Lgcm_v6m_BB59_4
@ %bb.2:                                @ %join.3.i.i
	movs	r4, #0
	str	r4, [sp, #36]
	str	r4, [sp, #20]
	adds	r6, r0, #4
	str	r6, [sp, #16]
	movs	r6, #121
	lsls	r6, r6, #2
	adds	r0, r0, r6
	lsrs	r6, r3, #31
	lsls	r3, r3, #1
	adds	r3, #56
	str	r3, [sp, #24]
	str	r0, [sp, #32]
	adcs	r6, r4
	str	r6, [sp, #28]
	ldr	r0, [r1, #24]
	ldr	r3, [r1, #28]
	subs	r0, r0, #1
	sbcs	r3, r4
	subs	r0, r2, r0
	mov	r0, r4
	sbcs	r0, r3
	blo	.Lgcm_v6m_BB59_5
@ %bb.3:                                @ %arm.4.i.i
	add	r0, sp, #16
	mov	r6, sp
	mov	r7, r1
	mov	r2, r6
	bl	gcm_v6m.gcm.mode.BorrowedGcm.put_tag_so_far
	bl	gcm_v6m.aes_cipher.zeroize.stack.wipe_stack.512
	mov	r0, r7
	bl	gcm_v6m.gcm.message_state.MessageZeroize.zeroize
	movs	r2, #16
	mov	r0, r5
	mov	r1, r6
	bl	memcpy
.Lgcm_v6m_BB59_4:                               @ %wide_fotsgure_gcm_finish.exit
	mov	r0, r4
	add	sp, #44
	b	.Lgcm_v6m_return_17264
.Lgcm_v6m_BB59_5:
	movs	r4, #8
	mov	r0, r4
	add	sp, #44
	b	.Lgcm_v6m_return_17264
	.p2align	2
@ %bb.6:
.Lgcm_v6m_CPI59_0:
	.long	65793                           @ 0x10101
.Lgcm_v6m_return_17264:
	movs	r1, #0
	movs	r2, #0
	movs	r3, #0
	mov	r12, r1
	mov	lr, r1
	pop	{r4, r5, r6, r7, pc}
.Lgcm_v6m_func_end59:
	.size	gcm_v6m.fotsgure_gcm_finish, .Lgcm_v6m_func_end59-gcm_v6m.fotsgure_gcm_finish
	.cantunwind
	.fnend
                                        @ -- End function
	.section	.text.gcm_v6m.fotsgure_gcm_verify,"ax",%progbits
	export_gcm_v6m	fotsgure_gcm_verify
	.p2align	2
	.type	gcm_v6m.fotsgure_gcm_verify,%function
	.code	16
	.thumb_func
gcm_v6m.fotsgure_gcm_verify:                    @ @gcm_v6m.fotsgure_gcm_verify
	.fnstart
@ %bb.0:
	.save	{r4, r5, r6, r7, lr}
	push	{r4, r5, r6, r7, lr}
	.pad	#60
	sub	sp, #60
	mov	r7, r2
	mov	r5, r1
	movs	r2, #1
	cmp	r7, #0
	bne	.Lgcm_v6m_BB60_2
@ %bb.1:
	lsls	r1, r2, #12
	adds	r7, r7, r1
.Lgcm_v6m_BB60_2:
	ldr	r1, [r0]
	mov	r6, r1
	subs	r6, #16
	movs	r4, #2
	cmp	r6, #16
	bhi	.Lgcm_v6m_BB60_7
@ %bb.3:
	lsls	r2, r6
	ldr	r6, .Lgcm_v6m_CPI60_0
	tst	r2, r6
	beq	.Lgcm_v6m_BB60_7
@ %bb.4:                                @ %join.3.i.i
	movs	r4, #0
	str	r4, [sp, #52]
	str	r4, [sp, #36]
	adds	r2, r0, #4
	str	r2, [sp, #32]
	movs	r2, #121
	lsls	r2, r2, #2
	adds	r0, r0, r2
	lsrs	r2, r1, #31
	lsls	r1, r1, #1
	adds	r1, #56
	str	r1, [sp, #40]
	str	r0, [sp, #48]
	adcs	r2, r4
	str	r2, [sp, #44]
	str	r3, [sp]
	str	r4, [sp, #4]
	str	r3, [sp, #28]                   @ 4-byte Spill
	add	r6, sp, #32
	movs	r2, #3
	mov	r0, r6
	mov	r1, r5
	bl	gcm_v6m.gcm.mode.BorrowedGcm.enter_phase
	lsls	r0, r0, #24
	beq	.Lgcm_v6m_BB60_8
@ %bb.5:                                @ %arm.2.i.i.i
	lsls	r0, r1, #31
	bne	.Lgcm_v6m_BB60_9
@ %bb.6:                                @ %arm.2.i.i.i
	movs	r4, #8
.Lgcm_v6m_BB60_7:                               @ %wide_fotsgure_gcm_verify.exit
	mov	r0, r4
	add	sp, #60
	b	.Lgcm_v6m_return_17353
.Lgcm_v6m_BB60_8:                               @ %arm.1.i.i.i
	adds	r6, #16
	ldr	r0, [r5, #8]
	ldr	r1, [sp, #28]                   @ 4-byte Reload
	str	r1, [sp, #16]
	str	r4, [sp, #20]
	movs	r1, #15
	ands	r1, r0
	add	r0, sp, #0
	stm	r0!, {r1, r4, r7}
	mov	r1, r5
	adds	r1, #48
	mov	r2, r5
	adds	r2, #64
	mov	r0, r6
	bl	gcm_v6m.gcm.hash_room.hash_piece
	ldr	r0, [r5, #8]
	ldr	r1, [sp, #28]                   @ 4-byte Reload
	adds	r0, r0, r1
	str	r0, [r5, #8]
	ldr	r0, [r5, #12]
	adcs	r0, r4
	str	r0, [r5, #12]
	bl	gcm_v6m.aes_cipher.zeroize.stack.wipe_stack.512
	mov	r0, r4
	add	sp, #60
	b	.Lgcm_v6m_return_17353
.Lgcm_v6m_BB60_9:
	movs	r4, #5
	mov	r0, r4
	add	sp, #60
	b	.Lgcm_v6m_return_17353
	.p2align	2
@ %bb.10:
.Lgcm_v6m_CPI60_0:
	.long	65793                           @ 0x10101
.Lgcm_v6m_return_17353:
	movs	r1, #0
	movs	r2, #0
	movs	r3, #0
	mov	r12, r1
	mov	lr, r1
	pop	{r4, r5, r6, r7, pc}
.Lgcm_v6m_func_end60:
	.size	gcm_v6m.fotsgure_gcm_verify, .Lgcm_v6m_func_end60-gcm_v6m.fotsgure_gcm_verify
	.cantunwind
	.fnend
                                        @ -- End function
	.section	.text.gcm_v6m.fotsgure_gcm_accept,"ax",%progbits
	export_gcm_v6m	fotsgure_gcm_accept
	.p2align	2
	.type	gcm_v6m.fotsgure_gcm_accept,%function
	.code	16
	.thumb_func
gcm_v6m.fotsgure_gcm_accept:                    @ @gcm_v6m.fotsgure_gcm_accept
	.fnstart
@ %bb.0:
	.save	{r4, r5, r6, r7, lr}
	push	{r4, r5, r6, r7, lr}
	.pad	#44
	sub	sp, #44
	movs	r4, #1
	cmp	r2, #0
	bne	.Lgcm_v6m_BB61_2
@ %bb.1:
	lsls	r5, r4, #12
	adds	r2, r2, r5
.Lgcm_v6m_BB61_2:
	cmp	r3, #16
	bne	.Lgcm_v6m_BB61_13
@ %bb.3:                                @ %join.3.i.i
	ldr	r5, [r0]
	mov	r6, r5
	subs	r6, #16
	movs	r3, #2
	cmp	r6, #16
	bhi	.Lgcm_v6m_BB61_12
@ %bb.4:                                @ %join.3.i.i
	mov	r7, r4
	lsls	r7, r6
	ldr	r6, .Lgcm_v6m_CPI61_0
	tst	r7, r6
	beq	.Lgcm_v6m_BB61_12
@ %bb.5:                                @ %join.6.i.i
	movs	r3, #0
	str	r3, [sp, #36]
	str	r3, [sp, #20]
	adds	r6, r0, #4
	str	r6, [sp, #16]
	movs	r6, #121
	lsls	r6, r6, #2
	adds	r0, r0, r6
	lsrs	r6, r5, #31
	lsls	r5, r5, #1
	adds	r5, #56
	str	r5, [sp, #24]
	str	r0, [sp, #32]
	adcs	r6, r3
	str	r6, [sp, #28]
	ldrb	r0, [r2]
	ldrb	r5, [r2, #1]
	lsls	r5, r5, #8
	adds	r0, r5, r0
	ldrb	r5, [r2, #2]
	lsls	r5, r5, #16
	ldrb	r6, [r2, #3]
	lsls	r6, r6, #24
	adds	r5, r6, r5
	adds	r0, r5, r0
	str	r0, [sp]
	ldrb	r0, [r2, #4]
	ldrb	r5, [r2, #5]
	lsls	r5, r5, #8
	adds	r0, r5, r0
	ldrb	r5, [r2, #6]
	lsls	r5, r5, #16
	ldrb	r6, [r2, #7]
	lsls	r6, r6, #24
	adds	r5, r6, r5
	adds	r0, r5, r0
	str	r0, [sp, #4]
	ldrb	r0, [r2, #8]
	ldrb	r5, [r2, #9]
	lsls	r5, r5, #8
	adds	r0, r5, r0
	ldrb	r5, [r2, #10]
	lsls	r5, r5, #16
	ldrb	r6, [r2, #11]
	lsls	r6, r6, #24
	adds	r5, r6, r5
	adds	r0, r5, r0
	str	r0, [sp, #8]
	ldrb	r0, [r2, #12]
	ldrb	r5, [r2, #13]
	lsls	r5, r5, #8
	adds	r0, r5, r0
	ldrb	r5, [r2, #14]
	lsls	r5, r5, #16
	ldrb	r2, [r2, #15]
	lsls	r2, r2, #24
	adds	r2, r2, r5
	adds	r0, r2, r0
	str	r0, [sp, #12]
	ldr	r0, [r1, #24]
	ldr	r2, [r1, #28]
	subs	r0, r0, #1
	sbcs	r2, r3
	subs	r5, r0, #4
	sbcs	r2, r3
	blo	.Lgcm_v6m_BB61_7
@ %bb.6:                                @ %join.6.i.i
	mov	r4, r3
.Lgcm_v6m_BB61_7:                               @ %join.6.i.i
	cmp	r4, #0
	beq	.Lgcm_v6m_BB61_9
@ %bb.8:
	adds	r4, r0, #1
.Lgcm_v6m_BB61_9:                               @ %join.6.i.i
	movs	r0, #2
	orrs	r0, r4
	uxtb	r0, r0
	cmp	r0, #3
	bne	.Lgcm_v6m_BB61_14
@ %bb.10:                               @ %join.3.i.i.i
	add	r0, sp, #16
	mov	r2, sp
	mov	r5, r1
	bl	gcm_v6m.gcm.mode.BorrowedGcm.is_tag_so_far
	mov	r4, r0
	bl	gcm_v6m.aes_cipher.zeroize.stack.wipe_stack.1536
	cmp	r4, #0
	beq	.Lgcm_v6m_BB61_15
@ %bb.11:                               @ %arm.7.i.i
	movs	r3, #0
	movs	r0, #4
	str	r3, [r5, #16]
	str	r3, [r5, #20]
	str	r0, [r5, #24]
	str	r3, [r5, #28]
.Lgcm_v6m_BB61_12:                              @ %wide_fotsgure_gcm_accept.exit
	mov	r0, r3
	add	sp, #44
	b	.Lgcm_v6m_return_17536
.Lgcm_v6m_BB61_13:
	movs	r3, #4
	mov	r0, r3
	add	sp, #44
	b	.Lgcm_v6m_return_17536
.Lgcm_v6m_BB61_14:
	movs	r3, #8
	mov	r0, r3
	add	sp, #44
	b	.Lgcm_v6m_return_17536
.Lgcm_v6m_BB61_15:
	movs	r3, #6
	mov	r0, r3
	add	sp, #44
	b	.Lgcm_v6m_return_17536
	.p2align	2
@ %bb.16:
.Lgcm_v6m_CPI61_0:
	.long	65793                           @ 0x10101
.Lgcm_v6m_return_17536:
	movs	r1, #0
	movs	r2, #0
	movs	r3, #0
	mov	r12, r1
	mov	lr, r1
	pop	{r4, r5, r6, r7, pc}
.Lgcm_v6m_func_end61:
	.size	gcm_v6m.fotsgure_gcm_accept, .Lgcm_v6m_func_end61-gcm_v6m.fotsgure_gcm_accept
	.cantunwind
	.fnend
                                        @ -- End function
	.section	.text.gcm_v6m.fotsgure_gcm_accept_short,"ax",%progbits
	export_gcm_v6m	fotsgure_gcm_accept_short
	.p2align	2
	.type	gcm_v6m.fotsgure_gcm_accept_short,%function
	.code	16
	.thumb_func
gcm_v6m.fotsgure_gcm_accept_short:              @ @gcm_v6m.fotsgure_gcm_accept_short
	.fnstart
@ %bb.0:
	.save	{r4, r5, r6, r7, lr}
	push	{r4, r5, r6, r7, lr}
	.pad	#44
	sub	sp, #44
	str	r1, [sp, #12]                   @ 4-byte Spill
	movs	r4, #3
	mov	r5, r2
	bics	r5, r4
	subs	r5, #12
	rsbs	r6, r5, #0
	adcs	r6, r5
	subs	r5, r2, #4
	movs	r4, #4
	bics	r5, r4
	rsbs	r7, r5, #0
	adcs	r7, r5
	movs	r1, #1
	cmp	r3, #0
	bne	.Lgcm_v6m_BB62_2
@ %bb.1:
	lsls	r5, r1, #12
	adds	r3, r3, r5
.Lgcm_v6m_BB62_2:
	ldr	r5, [sp, #64]
	cmp	r5, r2
	bne	.Lgcm_v6m_BB62_13
@ %bb.3:
	orrs	r7, r6
	beq	.Lgcm_v6m_BB62_13
@ %bb.4:                                @ %join.3.i.i
	ldr	r6, [r0]
	mov	r7, r6
	subs	r7, #16
	movs	r4, #2
	cmp	r7, #16
	bhi	.Lgcm_v6m_BB62_13
@ %bb.5:                                @ %join.3.i.i
	mov	r5, r1
	lsls	r5, r7
	ldr	r7, .Lgcm_v6m_CPI62_0
	tst	r5, r7
	beq	.Lgcm_v6m_BB62_13
@ %bb.6:                                @ %join.6.i.i
	movs	r4, #0
	str	r4, [sp, #36]
	str	r4, [sp, #20]
	adds	r5, r0, #4
	str	r5, [sp, #16]
	movs	r5, #121
	lsls	r5, r5, #2
	adds	r0, r0, r5
	lsrs	r5, r6, #31
	lsls	r6, r6, #1
	adds	r6, #56
	str	r6, [sp, #24]
	str	r0, [sp, #32]
	adcs	r5, r4
	str	r5, [sp, #28]
	ldr	r7, [sp, #12]                   @ 4-byte Reload
	ldr	r0, [r7, #24]
	ldr	r5, [r7, #28]
	subs	r0, r0, #1
	sbcs	r5, r4
	subs	r6, r0, #4
	sbcs	r5, r4
	blo	.Lgcm_v6m_BB62_8
@ %bb.7:                                @ %join.6.i.i
	mov	r1, r4
.Lgcm_v6m_BB62_8:                               @ %join.6.i.i
	cmp	r1, #0
	beq	.Lgcm_v6m_BB62_10
@ %bb.9:
	adds	r1, r0, #1
.Lgcm_v6m_BB62_10:                              @ %join.6.i.i
	movs	r0, #2
	orrs	r0, r1
	uxtb	r0, r0
	cmp	r0, #3
	bne	.Lgcm_v6m_BB62_14
@ %bb.11:                               @ %join.7.i.i.i
	movs	r0, #0
	str	r2, [sp]
	mov	r5, r0
	str	r0, [sp, #4]
	add	r0, sp, #16
	mov	r6, r7
	mov	r1, r7
	mov	r2, r3
	bl	gcm_v6m.gcm.mode.BorrowedGcm.is_short_tag_so_far
	mov	r4, r0
	bl	gcm_v6m.aes_cipher.zeroize.stack.wipe_stack.1536
	cmp	r4, #0
	beq	.Lgcm_v6m_BB62_15
@ %bb.12:                               @ %arm.7.i.i
	movs	r0, #4
	mov	r4, r5
	str	r5, [r6, #16]
	str	r5, [r6, #20]
	str	r0, [r6, #24]
	str	r5, [r6, #28]
.Lgcm_v6m_BB62_13:                              @ %wide_fotsgure_gcm_accept_short.exit
	mov	r0, r4
	add	sp, #44
	b	.Lgcm_v6m_return_17680
.Lgcm_v6m_BB62_14:
	movs	r4, #8
	mov	r0, r4
	add	sp, #44
	b	.Lgcm_v6m_return_17680
.Lgcm_v6m_BB62_15:
	movs	r4, #6
	mov	r0, r4
	add	sp, #44
	b	.Lgcm_v6m_return_17680
	.p2align	2
@ %bb.16:
.Lgcm_v6m_CPI62_0:
	.long	65793                           @ 0x10101
.Lgcm_v6m_return_17680:
	movs	r1, #0
	movs	r2, #0
	movs	r3, #0
	mov	r12, r1
	mov	lr, r1
	pop	{r4, r5, r6, r7, pc}
.Lgcm_v6m_func_end62:
	.size	gcm_v6m.fotsgure_gcm_accept_short, .Lgcm_v6m_func_end62-gcm_v6m.fotsgure_gcm_accept_short
	.cantunwind
	.fnend
                                        @ -- End function
	.section	.text.gcm_v6m.fotsgure_gcm_decrypt,"ax",%progbits
	export_gcm_v6m	fotsgure_gcm_decrypt
	.p2align	2
	.type	gcm_v6m.fotsgure_gcm_decrypt,%function
	.code	16
	.thumb_func
gcm_v6m.fotsgure_gcm_decrypt:                   @ @gcm_v6m.fotsgure_gcm_decrypt
	.fnstart
@ %bb.0:
	.save	{r4, r5, r6, r7, lr}
	push	{r4, r5, r6, r7, lr}
	.pad	#60
	sub	sp, #60
	str	r3, [sp, #28]                   @ 4-byte Spill
	movs	r6, #1
	cmp	r2, #0
	bne	.Lgcm_v6m_BB63_2
@ %bb.1:
	lsls	r3, r6, #12
	adds	r2, r2, r3
.Lgcm_v6m_BB63_2:
	ldr	r5, [r0]
	mov	r3, r5
	subs	r3, #16
	movs	r4, #2
	cmp	r3, #16
	bhi	.Lgcm_v6m_BB63_14
@ %bb.3:
	lsls	r6, r3
	ldr	r3, .Lgcm_v6m_CPI63_0
	tst	r6, r3
	beq	.Lgcm_v6m_BB63_14
@ %bb.4:                                @ %join.3.i.i
	movs	r6, #0
	str	r6, [sp, #52]
	str	r6, [sp, #36]
	adds	r3, r0, #4
	str	r3, [sp, #32]
	movs	r3, #121
	lsls	r3, r3, #2
	adds	r0, r0, r3
	lsrs	r3, r5, #31
	lsls	r4, r5, #1
	adds	r4, #56
	str	r4, [sp, #40]
	str	r0, [sp, #48]
	adcs	r3, r6
	str	r3, [sp, #44]
	ldr	r0, [r1, #24]
	ldr	r3, [r1, #28]
	subs	r0, r0, #1
	sbcs	r3, r6
	movs	r4, #8
	movs	r5, #3
	subs	r5, r5, r0
	mov	r5, r6
	sbcs	r5, r3
	blo	.Lgcm_v6m_BB63_14
@ %bb.5:                                @ %join.3.i.i
	uxtb	r0, r0
	cmp	r0, #3
	bne	.Lgcm_v6m_BB63_14
@ %bb.6:                                @ %join.3.i.i.i
	movs	r0, #31
	mvns	r4, r0
	ldr	r7, [r1, #8]
	ldr	r0, [r1, #12]
	movs	r3, #15
	mov	r5, r7
	adds	r5, #32
	mov	r5, r0
	sbcs	r5, r3
	blo	.Lgcm_v6m_BB63_8
@ %bb.7:                                @ %join.3.i.i.i
	mov	r0, r3
.Lgcm_v6m_BB63_8:                               @ %join.3.i.i.i
	blo	.Lgcm_v6m_BB63_10
@ %bb.9:                                @ %join.3.i.i.i
	mov	r7, r4
.Lgcm_v6m_BB63_10:                              @ %join.3.i.i.i
	ldr	r4, [r1, #16]
	ldr	r5, [r1, #20]
	ldr	r3, [sp, #28]                   @ 4-byte Reload
	str	r4, [sp, #24]                   @ 4-byte Spill
	adds	r3, r3, r4
	str	r3, [sp, #16]                   @ 4-byte Spill
	str	r5, [sp, #20]                   @ 4-byte Spill
	adcs	r5, r6
	mov	r4, r6
	adcs	r4, r6
	mvns	r3, r6
	cmp	r4, #0
	mov	r4, r3
	beq	.Lgcm_v6m_BB63_15
@ %bb.11:                               @ %join.3.i.i.i
	beq	.Lgcm_v6m_BB63_16
.Lgcm_v6m_BB63_12:                              @ %join.3.i.i.i
	subs	r3, r7, r3
	sbcs	r0, r4
	bhs	.Lgcm_v6m_BB63_17
.Lgcm_v6m_BB63_13:
	movs	r4, #5
.Lgcm_v6m_BB63_14:                              @ %wide_fotsgure_gcm_decrypt.exit
	mov	r0, r4
	add	sp, #60
	b	.Lgcm_v6m_return_17812
.Lgcm_v6m_BB63_15:                              @ %join.3.i.i.i
	mov	r4, r5
	bne	.Lgcm_v6m_BB63_12
.Lgcm_v6m_BB63_16:                              @ %join.3.i.i.i
	ldr	r3, [sp, #16]                   @ 4-byte Reload
	subs	r3, r7, r3
	sbcs	r0, r4
	blo	.Lgcm_v6m_BB63_13
.Lgcm_v6m_BB63_17:                              @ %arm.4.i.i
	ldr	r7, [sp, #28]                   @ 4-byte Reload
	str	r7, [sp, #8]
	str	r6, [sp, #12]
	str	r2, [sp]
	ldr	r2, [sp, #24]                   @ 4-byte Reload
	adds	r2, #16
	ldr	r3, [sp, #20]                   @ 4-byte Reload
	adcs	r3, r6
	mov	r5, r1
	adds	r5, #32
	add	r0, sp, #32
	mov	r4, r1
	mov	r1, r5
	bl	gcm_v6m.gcm.gctr.add_gctr
	ldr	r0, [r4, #16]
	adds	r0, r0, r7
	str	r0, [r4, #16]
	ldr	r0, [r4, #20]
	adcs	r0, r6
	str	r0, [r4, #20]
	bl	gcm_v6m.aes_cipher.zeroize.stack.wipe_stack.1536
	mov	r4, r6
	mov	r0, r4
	add	sp, #60
	b	.Lgcm_v6m_return_17812
	.p2align	2
@ %bb.18:
.Lgcm_v6m_CPI63_0:
	.long	65793                           @ 0x10101
.Lgcm_v6m_return_17812:
	movs	r1, #0
	movs	r2, #0
	movs	r3, #0
	mov	r12, r1
	mov	lr, r1
	pop	{r4, r5, r6, r7, pc}
.Lgcm_v6m_func_end63:
	.size	gcm_v6m.fotsgure_gcm_decrypt, .Lgcm_v6m_func_end63-gcm_v6m.fotsgure_gcm_decrypt
	.cantunwind
	.fnend
                                        @ -- End function
	.section	.text.gcm_v6m.fotsgure_gcm_decrypt_unverified,"ax",%progbits
	export_gcm_v6m	fotsgure_gcm_decrypt_unverified
	.p2align	2
	.type	gcm_v6m.fotsgure_gcm_decrypt_unverified,%function
	.code	16
	.thumb_func
gcm_v6m.fotsgure_gcm_decrypt_unverified:        @ @gcm_v6m.fotsgure_gcm_decrypt_unverified
	.fnstart
@ %bb.0:
	.save	{r4, r5, r6, r7, lr}
	push	{r4, r5, r6, r7, lr}
	.pad	#68
	sub	sp, #68
	mov	r6, r2
	mov	r5, r1
	movs	r2, #1
	cmp	r6, #0
	bne	.Lgcm_v6m_BB64_2
@ %bb.1:
	lsls	r1, r2, #12
	adds	r6, r6, r1
.Lgcm_v6m_BB64_2:
	ldr	r1, [r0]
	mov	r7, r1
	subs	r7, #16
	movs	r4, #2
	cmp	r7, #16
	bhi	.Lgcm_v6m_BB64_7
@ %bb.3:
	lsls	r2, r7
	ldr	r7, .Lgcm_v6m_CPI64_0
	tst	r2, r7
	beq	.Lgcm_v6m_BB64_7
@ %bb.4:                                @ %join.3.i.i
	movs	r4, #0
	str	r4, [sp, #60]
	str	r4, [sp, #44]
	adds	r2, r0, #4
	str	r2, [sp, #40]
	movs	r2, #121
	lsls	r2, r2, #2
	adds	r0, r0, r2
	lsrs	r2, r1, #31
	lsls	r1, r1, #1
	adds	r1, #56
	str	r1, [sp, #48]
	str	r0, [sp, #56]
	adcs	r2, r4
	str	r2, [sp, #52]
	str	r3, [sp]
	str	r4, [sp, #4]
	str	r3, [sp, #36]                   @ 4-byte Spill
	add	r7, sp, #40
	movs	r2, #3
	mov	r0, r7
	mov	r1, r5
	bl	gcm_v6m.gcm.mode.BorrowedGcm.enter_phase
	lsls	r0, r0, #24
	beq	.Lgcm_v6m_BB64_8
@ %bb.5:                                @ %arm.2.i.i.i
	lsls	r0, r1, #31
	bne	.Lgcm_v6m_BB64_9
@ %bb.6:                                @ %arm.2.i.i.i
	movs	r4, #8
.Lgcm_v6m_BB64_7:                               @ %wide_fotsgure_gcm_decrypt_unverified.exit
	mov	r0, r4
	add	sp, #68
	b	.Lgcm_v6m_return_17930
.Lgcm_v6m_BB64_8:                               @ %arm.1.i.i.i
	adds	r7, #16
	ldr	r1, [r5, #8]
	str	r1, [sp, #28]                   @ 4-byte Spill
	ldr	r0, [r5, #12]
	str	r0, [sp, #32]                   @ 4-byte Spill
	ldr	r0, [sp, #36]                   @ 4-byte Reload
	str	r0, [sp, #16]
	str	r4, [sp, #20]
	movs	r0, #15
	ands	r0, r1
	add	r1, sp, #0
	stm	r1!, {r0, r4, r6}
	mov	r1, r5
	adds	r1, #48
	mov	r2, r5
	adds	r2, #64
	mov	r0, r7
	bl	gcm_v6m.gcm.hash_room.hash_piece
	ldr	r0, [r5, #8]
	ldr	r1, [sp, #36]                   @ 4-byte Reload
	adds	r0, r0, r1
	str	r0, [r5, #8]
	ldr	r0, [r5, #12]
	adcs	r0, r4
	str	r0, [r5, #12]
	str	r1, [sp, #8]
	str	r4, [sp, #12]
	str	r6, [sp]
	ldr	r2, [sp, #28]                   @ 4-byte Reload
	adds	r2, #16
	ldr	r3, [sp, #32]                   @ 4-byte Reload
	adcs	r3, r4
	adds	r5, #32
	add	r0, sp, #40
	mov	r1, r5
	bl	gcm_v6m.gcm.gctr.add_gctr
	bl	gcm_v6m.aes_cipher.zeroize.stack.wipe_stack.1536
	mov	r0, r4
	add	sp, #68
	b	.Lgcm_v6m_return_17930
.Lgcm_v6m_BB64_9:
	movs	r4, #5
	mov	r0, r4
	add	sp, #68
	b	.Lgcm_v6m_return_17930
	.p2align	2
@ %bb.10:
.Lgcm_v6m_CPI64_0:
	.long	65793                           @ 0x10101
.Lgcm_v6m_return_17930:
	movs	r1, #0
	movs	r2, #0
	movs	r3, #0
	mov	r12, r1
	mov	lr, r1
	pop	{r4, r5, r6, r7, pc}
.Lgcm_v6m_func_end64:
	.size	gcm_v6m.fotsgure_gcm_decrypt_unverified, .Lgcm_v6m_func_end64-gcm_v6m.fotsgure_gcm_decrypt_unverified
	.cantunwind
	.fnend
                                        @ -- End function
	.section	.text.gcm_v6m.fotsgure_gcm_finish_unverified,"ax",%progbits
	export_gcm_v6m	fotsgure_gcm_finish_unverified
	.p2align	2
	.type	gcm_v6m.fotsgure_gcm_finish_unverified,%function
	.code	16
	.thumb_func
gcm_v6m.fotsgure_gcm_finish_unverified:         @ @gcm_v6m.fotsgure_gcm_finish_unverified
	.fnstart
@ %bb.0:
	.save	{r4, r5, r6, r7, lr}
	push	{r4, r5, r6, r7, lr}
	.pad	#28
	sub	sp, #28
	ldr	r5, [r0]
	mov	r6, r5
	subs	r6, #16
	movs	r3, #2
	cmp	r6, #16
	bhi	.Lgcm_v6m_BB65_8
@ %bb.1:
	movs	r4, #1
	mov	r7, r4
	lsls	r7, r6
	ldr	r6, .Lgcm_v6m_CPI65_0
	tst	r7, r6
	beq	.Lgcm_v6m_BB65_8
@ %bb.2:                                @ %join.3.i.i
	movs	r3, #0
	str	r3, [sp, #20]
	str	r3, [sp, #4]
	adds	r6, r0, #4
	str	r6, [sp]
	movs	r6, #121
	lsls	r6, r6, #2
	adds	r0, r0, r6
	lsrs	r6, r5, #31
	lsls	r5, r5, #1
	adds	r5, #56
	str	r5, [sp, #8]
	str	r0, [sp, #16]
	adcs	r6, r3
	str	r6, [sp, #12]
	ldr	r0, [r1, #24]
	ldr	r5, [r1, #28]
	subs	r0, r0, #1
	sbcs	r5, r3
	subs	r6, r0, #4
	sbcs	r5, r3
	blo	.Lgcm_v6m_BB65_4
@ %bb.3:                                @ %join.3.i.i
	mov	r4, r3
.Lgcm_v6m_BB65_4:                               @ %join.3.i.i
	cmp	r4, #0
	beq	.Lgcm_v6m_BB65_6
@ %bb.5:
	adds	r4, r0, #1
.Lgcm_v6m_BB65_6:                               @ %join.3.i.i
	movs	r0, #2
	orrs	r0, r4
	uxtb	r0, r0
	cmp	r0, #3
	bne	.Lgcm_v6m_BB65_9
@ %bb.7:                                @ %arm.4.i.i
	mov	r0, sp
	mov	r4, r1
	bl	gcm_v6m.gcm.mode.BorrowedGcm.put_tag_so_far
	bl	gcm_v6m.aes_cipher.zeroize.stack.wipe_stack.512
	mov	r0, r4
	bl	gcm_v6m.gcm.message_state.MessageZeroize.zeroize
	movs	r3, #0
.Lgcm_v6m_BB65_8:                               @ %wide_fotsgure_gcm_finish_unverified.exit
	mov	r0, r3
	add	sp, #28
	b	.Lgcm_v6m_return_18066
.Lgcm_v6m_BB65_9:
	movs	r3, #8
	mov	r0, r3
	add	sp, #28
	b	.Lgcm_v6m_return_18066
	.p2align	2
@ %bb.10:
.Lgcm_v6m_CPI65_0:
	.long	65793                           @ 0x10101
.Lgcm_v6m_return_18066:
	movs	r1, #0
	movs	r2, #0
	movs	r3, #0
	mov	r12, r1
	mov	lr, r1
	pop	{r4, r5, r6, r7, pc}
.Lgcm_v6m_func_end65:
	.size	gcm_v6m.fotsgure_gcm_finish_unverified, .Lgcm_v6m_func_end65-gcm_v6m.fotsgure_gcm_finish_unverified
	.cantunwind
	.fnend
                                        @ -- End function
	.section	.text.gcm_v6m.fotsgure_gcm_wipe_message,"ax",%progbits
	export_gcm_v6m	fotsgure_gcm_wipe_message
	.p2align	1
	.type	gcm_v6m.fotsgure_gcm_wipe_message,%function
	.code	16
	.thumb_func
gcm_v6m.fotsgure_gcm_wipe_message:              @ @gcm_v6m.fotsgure_gcm_wipe_message
	.fnstart
@ %bb.0:
	.save	{r4, lr}
	push	{r4, lr}
	mov	r4, r0
	movs	r1, #0
	movs	r2, #80
	bl	memset
	mov	r0, r4
	bl	gcm_v6m.gcm.message_state.MessageZeroize.zeroize
	b	.Lgcm_v6m_return_18105
.Lgcm_v6m_return_18105:
	movs	r1, #0
	movs	r2, #0
	movs	r3, #0
	mov	r12, r1
	mov	lr, r1
	pop	{r4, pc}
.Lgcm_v6m_func_end66:
	.size	gcm_v6m.fotsgure_gcm_wipe_message, .Lgcm_v6m_func_end66-gcm_v6m.fotsgure_gcm_wipe_message
	.cantunwind
	.fnend
                                        @ -- End function
	.section	.text.gcm_v6m.fotsgure_gcm_siv_set_key,"ax",%progbits
	export_gcm_v6m	fotsgure_gcm_siv_set_key
	.p2align	1
	.type	gcm_v6m.fotsgure_gcm_siv_set_key,%function
	.code	16
	.thumb_func
gcm_v6m.fotsgure_gcm_siv_set_key:               @ @gcm_v6m.fotsgure_gcm_siv_set_key
	.fnstart
@ %bb.0:
	.save	{r4, r5, r6, r7, lr}
	push	{r4, r5, r6, r7, lr}
	.pad	#4
	sub	sp, #4
	mov	r5, r2
	mov	r7, r1
	cmp	r2, #16
	beq	.Lgcm_v6m_BB67_2
@ %bb.1:
	cmp	r5, #32
	bne	.Lgcm_v6m_BB67_5
.Lgcm_v6m_BB67_2:                               @ %join.3.i.i
	str	r0, [sp]                        @ 4-byte Spill
	adds	r4, r0, #4
	movs	r0, #15
	lsls	r2, r0, #5
	movs	r6, #0
	mov	r0, r4
	mov	r1, r6
	bl	memset
	cmp	r7, #0
	bne	.Lgcm_v6m_BB67_4
@ %bb.3:
	movs	r0, #1
	lsls	r0, r0, #12
	adds	r7, r7, r0
.Lgcm_v6m_BB67_4:                               @ %join.3.i.i
	mov	r0, r4
	mov	r1, r7
	mov	r2, r5
	mov	r3, r6
	bl	gcm_v6m.aes_narrow.word_room.expand_words
	bl	gcm_v6m.aes_cipher.zeroize.stack.wipe_stack.768
	ldr	r0, [sp]                        @ 4-byte Reload
	str	r5, [r0]
	mov	r0, r6
	add	sp, #4
	b	.Lgcm_v6m_return_18164
.Lgcm_v6m_BB67_5:                               @ %then.1.i.i
	movs	r1, #121
	lsls	r2, r1, #2
	movs	r1, #0
	bl	memset
	movs	r6, #1
	mov	r0, r6
	add	sp, #4
	b	.Lgcm_v6m_return_18164
.Lgcm_v6m_return_18164:
	movs	r1, #0
	movs	r2, #0
	movs	r3, #0
	mov	r12, r1
	mov	lr, r1
	pop	{r4, r5, r6, r7, pc}
.Lgcm_v6m_func_end67:
	.size	gcm_v6m.fotsgure_gcm_siv_set_key, .Lgcm_v6m_func_end67-gcm_v6m.fotsgure_gcm_siv_set_key
	.cantunwind
	.fnend
                                        @ -- End function
	.section	.text.gcm_v6m.fotsgure_gcm_siv_seal,"ax",%progbits
	export_gcm_v6m	fotsgure_gcm_siv_seal
	.p2align	1
	.type	gcm_v6m.fotsgure_gcm_siv_seal,%function
	.code	16
	.thumb_func
gcm_v6m.fotsgure_gcm_siv_seal:                  @ @gcm_v6m.fotsgure_gcm_siv_seal
	.fnstart
@ %bb.0:
	.save	{r4, r5, r6, r7, lr}
	push	{r4, r5, r6, r7, lr}
	.pad	#76
	sub	sp, #76
	mov	r5, r2
	ldr	r2, [r0]
	cmp	r2, #32
	beq	.Lgcm_v6m_BB68_2
@ %bb.1:
	cmp	r2, #16
	bne	.Lgcm_v6m_BB68_7
.Lgcm_v6m_BB68_2:                               @ %join.3.i.i
	str	r1, [sp, #36]                   @ 4-byte Spill
	ldr	r1, [sp, #100]
	ldr	r7, [sp, #96]
	movs	r4, #0
	str	r4, [sp, #44]
	adds	r0, r0, #4
	str	r0, [sp, #40]
	lsrs	r0, r2, #31
	lsls	r6, r2, #1
	adds	r6, #56
	str	r6, [sp, #48]
	adcs	r0, r4
	str	r0, [sp, #52]
	str	r1, [sp, #24]
	str	r4, [sp, #28]
	movs	r0, #1
	lsls	r0, r0, #12
	cmp	r7, #0
	bne	.Lgcm_v6m_BB68_4
@ %bb.3:
	adds	r7, r7, r0
.Lgcm_v6m_BB68_4:                               @ %join.3.i.i
	ldr	r6, [sp, #104]
	add	r1, sp, #8
	stm	r1!, {r3, r4, r7}
	cmp	r5, #0
	bne	.Lgcm_v6m_BB68_6
@ %bb.5:
	adds	r5, r5, r0
.Lgcm_v6m_BB68_6:                               @ %join.3.i.i
	ldr	r0, [sp, #36]                   @ 4-byte Reload
	str	r0, [sp]
	str	r5, [sp, #4]
	add	r5, sp, #60
	add	r1, sp, #40
	mov	r0, r5
	mov	r3, r4
	bl	gcm_v6m.gcm_siv.course.seal_in
	movs	r2, #16
	mov	r0, r6
	mov	r1, r5
	bl	memcpy
	mov	r0, r4
	add	sp, #76
	b	.Lgcm_v6m_return_18251
.Lgcm_v6m_BB68_7:
	movs	r4, #2
	mov	r0, r4
	add	sp, #76
	b	.Lgcm_v6m_return_18251
.Lgcm_v6m_return_18251:
	movs	r1, #0
	movs	r2, #0
	movs	r3, #0
	mov	r12, r1
	mov	lr, r1
	pop	{r4, r5, r6, r7, pc}
.Lgcm_v6m_func_end68:
	.size	gcm_v6m.fotsgure_gcm_siv_seal, .Lgcm_v6m_func_end68-gcm_v6m.fotsgure_gcm_siv_seal
	.cantunwind
	.fnend
                                        @ -- End function
	.section	.text.gcm_v6m.fotsgure_gcm_siv_seal_to,"ax",%progbits
	export_gcm_v6m	fotsgure_gcm_siv_seal_to
	.p2align	1
	.type	gcm_v6m.fotsgure_gcm_siv_seal_to,%function
	.code	16
	.thumb_func
gcm_v6m.fotsgure_gcm_siv_seal_to:               @ @gcm_v6m.fotsgure_gcm_siv_seal_to
	.fnstart
@ %bb.0:
	.save	{r4, r5, r6, r7, lr}
	push	{r4, r5, r6, r7, lr}
	.pad	#108
	sub	sp, #108
	str	r3, [sp, #52]                   @ 4-byte Spill
	str	r2, [sp, #68]                   @ 4-byte Spill
	str	r1, [sp, #48]                   @ 4-byte Spill
	str	r0, [sp, #56]                   @ 4-byte Spill
	movs	r2, #1
	lsls	r0, r2, #12
	ldr	r4, [sp, #136]
	cmp	r4, #0
	beq	.Lgcm_v6m_BB69_9
@ %bb.1:
	ldr	r7, [sp, #128]
	cmp	r7, #0
	beq	.Lgcm_v6m_BB69_10
.Lgcm_v6m_BB69_2:
	ldr	r1, [sp, #68]                   @ 4-byte Reload
	cmp	r1, #0
	beq	.Lgcm_v6m_BB69_11
.Lgcm_v6m_BB69_3:
	ldr	r6, [sp, #132]
	ldr	r0, [sp, #140]
	cmp	r6, r0
	bne	.Lgcm_v6m_BB69_12
.Lgcm_v6m_BB69_4:                               @ %join.3.i.i
	ldr	r0, [sp, #56]                   @ 4-byte Reload
	ldr	r0, [r0]
	cmp	r0, #32
	beq	.Lgcm_v6m_BB69_6
@ %bb.5:                                @ %join.3.i.i
	cmp	r0, #16
	beq	.Lgcm_v6m_BB69_6
	b	.Lgcm_v6m_BB69_23
.Lgcm_v6m_BB69_6:                               @ %join.6.i.i
	movs	r5, #0
	subs	r0, r4, r7
	mov	r1, r5
	sbcs	r1, r5
	subs	r0, r0, r6
	sbcs	r1, r5
	bhs	.Lgcm_v6m_BB69_13
@ %bb.7:                                @ %join.7.i.i.i.i.i.i.i.i.preheader
	movs	r0, #3
	mov	r1, r6
	str	r0, [sp, #64]                   @ 4-byte Spill
	ands	r1, r0
	cmp	r6, #4
	bhs	.Lgcm_v6m_BB69_14
@ %bb.8:
	movs	r3, #0
	b	.Lgcm_v6m_BB69_17
.Lgcm_v6m_BB69_9:
	adds	r4, r4, r0
	ldr	r7, [sp, #128]
	cmp	r7, #0
	bne	.Lgcm_v6m_BB69_2
.Lgcm_v6m_BB69_10:
	adds	r7, r7, r0
	ldr	r1, [sp, #68]                   @ 4-byte Reload
	cmp	r1, #0
	bne	.Lgcm_v6m_BB69_3
.Lgcm_v6m_BB69_11:
	ldr	r1, [sp, #68]                   @ 4-byte Reload
	adds	r1, r1, r0
	str	r1, [sp, #68]                   @ 4-byte Spill
	ldr	r6, [sp, #132]
	ldr	r0, [sp, #140]
	cmp	r6, r0
	beq	.Lgcm_v6m_BB69_4
.Lgcm_v6m_BB69_12:
	movs	r5, #10
	mov	r0, r5
	add	sp, #108
	b	.Lgcm_v6m_return_18353
.Lgcm_v6m_BB69_13:                              @ %apart.2.i.i.i.i.i.i.i.i
	mov	r0, r4
	mov	r1, r7
	mov	r2, r6
	bl	memmove
	b	.Lgcm_v6m_BB69_20
.Lgcm_v6m_BB69_14:                              @ %join.7.i.i.i.i.i.i.i.i.preheader.new
	str	r1, [sp, #36]                   @ 4-byte Spill
	str	r5, [sp, #44]                   @ 4-byte Spill
	str	r6, [sp, #40]                   @ 4-byte Spill
	ldr	r0, [sp, #64]                   @ 4-byte Reload
	bics	r6, r0
	str	r6, [sp, #60]                   @ 4-byte Spill
	movs	r0, #0
	mov	r3, r0
	mov	r6, r0
	mov	r5, r2
.Lgcm_v6m_BB69_15:                              @ %join.7.i.i.i.i.i.i.i.i
                                        @ =>This Inner Loop Header: Depth=1
	ldrb	r2, [r7, r3]
	strb	r2, [r4, r3]
	mov	r2, r3
	orrs	r2, r5
	ldrb	r1, [r7, r2]
	strb	r1, [r4, r2]
	movs	r1, #2
	orrs	r1, r3
	ldrb	r2, [r7, r1]
	strb	r2, [r4, r1]
	mov	r1, r3
	ldr	r2, [sp, #64]                   @ 4-byte Reload
	orrs	r1, r2
	ldrb	r2, [r7, r1]
	strb	r2, [r4, r1]
	adds	r3, r3, #4
	adcs	r6, r0
	mov	r1, r3
	ldr	r2, [sp, #60]                   @ 4-byte Reload
	eors	r1, r2
	orrs	r1, r6
	bne	.Lgcm_v6m_BB69_15
@ %bb.16:                               @ %"core::slice::edits::slice+T::copy_from_slice::<i8,20'core::clone::U8Clone{}>.exit.i.i.loopexit.unr-lcssa"
	ldr	r1, [sp, #36]                   @ 4-byte Reload
	cmp	r1, #0
	ldr	r5, [sp, #44]                   @ 4-byte Reload
	ldr	r6, [sp, #40]                   @ 4-byte Reload
	beq	.Lgcm_v6m_BB69_20
.Lgcm_v6m_BB69_17:                              @ %join.7.i.i.i.i.i.i.i.i.epil.preheader
	ldrb	r0, [r7, r3]
	strb	r0, [r4, r3]
	cmp	r1, #1
	beq	.Lgcm_v6m_BB69_20
@ %bb.18:                               @ %join.7.i.i.i.i.i.i.i.i.epil.1
	adds	r0, r3, #1
	mov	r2, r1
	ldrb	r1, [r7, r0]
	strb	r1, [r4, r0]
	cmp	r2, #2
	beq	.Lgcm_v6m_BB69_20
@ %bb.19:                               @ %join.7.i.i.i.i.i.i.i.i.epil.2
	adds	r0, r3, #2
	ldrb	r1, [r7, r0]
	strb	r1, [r4, r0]
.Lgcm_v6m_BB69_20:                              @ %"core::slice::edits::slice+T::copy_from_slice::<i8,20'core::clone::U8Clone{}>.exit.i.i"
	ldr	r0, [sp, #56]                   @ 4-byte Reload
	ldr	r7, [r0]
	cmp	r7, #32
	beq	.Lgcm_v6m_BB69_22
@ %bb.21:                               @ %"core::slice::edits::slice+T::copy_from_slice::<i8,20'core::clone::U8Clone{}>.exit.i.i"
	cmp	r7, #16
	bne	.Lgcm_v6m_BB69_23
.Lgcm_v6m_BB69_22:                              @ %join.3.i.i.i
	ldr	r0, [sp, #144]
	str	r0, [sp, #64]                   @ 4-byte Spill
	str	r5, [sp, #76]
	ldr	r0, [sp, #56]                   @ 4-byte Reload
	adds	r0, r0, #4
	str	r0, [sp, #72]
	lsrs	r0, r7, #31
	lsls	r1, r7, #1
	adds	r1, #56
	str	r1, [sp, #80]
	adcs	r0, r5
	str	r0, [sp, #84]
	str	r6, [sp, #24]
	str	r5, [sp, #28]
	ldr	r0, [sp, #48]                   @ 4-byte Reload
	str	r0, [sp]
	ldr	r0, [sp, #68]                   @ 4-byte Reload
	str	r0, [sp, #4]
	ldr	r0, [sp, #52]                   @ 4-byte Reload
	str	r0, [sp, #8]
	str	r5, [sp, #12]
	str	r4, [sp, #16]
	add	r4, sp, #92
	add	r1, sp, #72
	mov	r0, r4
	mov	r2, r7
	mov	r3, r5
	bl	gcm_v6m.gcm_siv.course.seal_in
	movs	r2, #16
	ldr	r0, [sp, #64]                   @ 4-byte Reload
	mov	r1, r4
	bl	memcpy
	mov	r0, r5
	add	sp, #108
	b	.Lgcm_v6m_return_18353
.Lgcm_v6m_BB69_23:
	movs	r5, #2
	mov	r0, r5
	add	sp, #108
	b	.Lgcm_v6m_return_18353
.Lgcm_v6m_return_18353:
	movs	r1, #0
	movs	r2, #0
	movs	r3, #0
	mov	r12, r1
	mov	lr, r1
	pop	{r4, r5, r6, r7, pc}
.Lgcm_v6m_func_end69:
	.size	gcm_v6m.fotsgure_gcm_siv_seal_to, .Lgcm_v6m_func_end69-gcm_v6m.fotsgure_gcm_siv_seal_to
	.cantunwind
	.fnend
                                        @ -- End function
	.section	.text.gcm_v6m.fotsgure_gcm_siv_open,"ax",%progbits
	export_gcm_v6m	fotsgure_gcm_siv_open
	.p2align	1
	.type	gcm_v6m.fotsgure_gcm_siv_open,%function
	.code	16
	.thumb_func
gcm_v6m.fotsgure_gcm_siv_open:                  @ @gcm_v6m.fotsgure_gcm_siv_open
	.fnstart
@ %bb.0:
	.save	{r4, r5, r6, r7, lr}
	push	{r4, r5, r6, r7, lr}
	.pad	#68
	sub	sp, #68
	mov	r5, r2
	ldr	r2, [r0]
	cmp	r2, #32
	beq	.Lgcm_v6m_BB70_2
@ %bb.1:
	cmp	r2, #16
	bne	.Lgcm_v6m_BB70_9
.Lgcm_v6m_BB70_2:                               @ %join.3.i.i
	str	r3, [sp, #40]                   @ 4-byte Spill
	str	r1, [sp, #44]                   @ 4-byte Spill
	ldr	r3, [sp, #96]
	ldr	r1, [sp, #92]
	ldr	r6, [sp, #88]
	movs	r4, #0
	str	r4, [sp, #52]
	adds	r0, r0, #4
	str	r0, [sp, #48]
	lsrs	r0, r2, #31
	lsls	r7, r2, #1
	adds	r7, #56
	str	r7, [sp, #56]
	adcs	r0, r4
	str	r0, [sp, #60]
	str	r1, [sp, #24]
	str	r4, [sp, #28]
	str	r3, [sp, #32]
	movs	r0, #1
	lsls	r0, r0, #12
	cmp	r6, #0
	bne	.Lgcm_v6m_BB70_4
@ %bb.3:
	adds	r6, r6, r0
.Lgcm_v6m_BB70_4:                               @ %join.3.i.i
	ldr	r1, [sp, #40]                   @ 4-byte Reload
	add	r3, sp, #8
	stm	r3!, {r1, r4, r6}
	cmp	r5, #0
	bne	.Lgcm_v6m_BB70_6
@ %bb.5:
	adds	r5, r5, r0
.Lgcm_v6m_BB70_6:                               @ %join.3.i.i
	ldr	r0, [sp, #44]                   @ 4-byte Reload
	str	r0, [sp]
	str	r5, [sp, #4]
	add	r0, sp, #48
	mov	r3, r4
	bl	gcm_v6m.gcm_siv.course.open_in
	cmp	r0, #0
	bne	.Lgcm_v6m_BB70_8
@ %bb.7:                                @ %join.3.i.i
	movs	r4, #6
.Lgcm_v6m_BB70_8:                               @ %wide_fotsgure_gcm_siv_open.exit
	mov	r0, r4
	add	sp, #68
	b	.Lgcm_v6m_return_18545
.Lgcm_v6m_BB70_9:
	movs	r4, #2
	mov	r0, r4
	add	sp, #68
	b	.Lgcm_v6m_return_18545
.Lgcm_v6m_return_18545:
	movs	r1, #0
	movs	r2, #0
	movs	r3, #0
	mov	r12, r1
	mov	lr, r1
	pop	{r4, r5, r6, r7, pc}
.Lgcm_v6m_func_end70:
	.size	gcm_v6m.fotsgure_gcm_siv_open, .Lgcm_v6m_func_end70-gcm_v6m.fotsgure_gcm_siv_open
	.cantunwind
	.fnend
                                        @ -- End function
	.section	.text.gcm_v6m.fotsgure_gcm_siv_open_to,"ax",%progbits
	export_gcm_v6m	fotsgure_gcm_siv_open_to
	.p2align	1
	.type	gcm_v6m.fotsgure_gcm_siv_open_to,%function
	.code	16
	.thumb_func
gcm_v6m.fotsgure_gcm_siv_open_to:               @ @gcm_v6m.fotsgure_gcm_siv_open_to
	.fnstart
@ %bb.0:
	.save	{r4, r5, r6, r7, lr}
	push	{r4, r5, r6, r7, lr}
	.pad	#92
	sub	sp, #92
	str	r3, [sp, #52]                   @ 4-byte Spill
	str	r2, [sp, #68]                   @ 4-byte Spill
	str	r1, [sp, #48]                   @ 4-byte Spill
	str	r0, [sp, #56]                   @ 4-byte Spill
	movs	r2, #1
	lsls	r0, r2, #12
	ldr	r4, [sp, #120]
	cmp	r4, #0
	beq	.Lgcm_v6m_BB71_9
@ %bb.1:
	ldr	r7, [sp, #112]
	cmp	r7, #0
	beq	.Lgcm_v6m_BB71_10
.Lgcm_v6m_BB71_2:
	ldr	r1, [sp, #68]                   @ 4-byte Reload
	cmp	r1, #0
	beq	.Lgcm_v6m_BB71_11
.Lgcm_v6m_BB71_3:
	ldr	r6, [sp, #116]
	ldr	r0, [sp, #124]
	cmp	r6, r0
	bne	.Lgcm_v6m_BB71_12
.Lgcm_v6m_BB71_4:                               @ %join.3.i.i
	ldr	r0, [sp, #56]                   @ 4-byte Reload
	ldr	r0, [r0]
	cmp	r0, #32
	beq	.Lgcm_v6m_BB71_6
@ %bb.5:                                @ %join.3.i.i
	cmp	r0, #16
	bne	.Lgcm_v6m_BB71_14
.Lgcm_v6m_BB71_6:                               @ %join.6.i.i
	movs	r5, #0
	subs	r0, r4, r7
	mov	r1, r5
	sbcs	r1, r5
	subs	r0, r0, r6
	sbcs	r1, r5
	bhs	.Lgcm_v6m_BB71_13
@ %bb.7:                                @ %join.7.i.i.i.i.i.i.i.i.preheader
	movs	r0, #3
	mov	r1, r6
	str	r0, [sp, #64]                   @ 4-byte Spill
	ands	r1, r0
	cmp	r6, #4
	bhs	.Lgcm_v6m_BB71_15
@ %bb.8:
	movs	r3, #0
	b	.Lgcm_v6m_BB71_18
.Lgcm_v6m_BB71_9:
	adds	r4, r4, r0
	ldr	r7, [sp, #112]
	cmp	r7, #0
	bne	.Lgcm_v6m_BB71_2
.Lgcm_v6m_BB71_10:
	adds	r7, r7, r0
	ldr	r1, [sp, #68]                   @ 4-byte Reload
	cmp	r1, #0
	bne	.Lgcm_v6m_BB71_3
.Lgcm_v6m_BB71_11:
	ldr	r1, [sp, #68]                   @ 4-byte Reload
	adds	r1, r1, r0
	str	r1, [sp, #68]                   @ 4-byte Spill
	ldr	r6, [sp, #116]
	ldr	r0, [sp, #124]
	cmp	r6, r0
	beq	.Lgcm_v6m_BB71_4
.Lgcm_v6m_BB71_12:
	movs	r0, #10
	add	sp, #92
	b	.Lgcm_v6m_return_18645
.Lgcm_v6m_BB71_13:                              @ %apart.2.i.i.i.i.i.i.i.i
	mov	r0, r4
	mov	r1, r7
	mov	r2, r6
	bl	memmove
	b	.Lgcm_v6m_BB71_21
.Lgcm_v6m_BB71_14:
	movs	r0, #2
	add	sp, #92
	b	.Lgcm_v6m_return_18645
.Lgcm_v6m_BB71_15:                              @ %join.7.i.i.i.i.i.i.i.i.preheader.new
	str	r1, [sp, #36]                   @ 4-byte Spill
	str	r5, [sp, #44]                   @ 4-byte Spill
	str	r6, [sp, #40]                   @ 4-byte Spill
	ldr	r0, [sp, #64]                   @ 4-byte Reload
	bics	r6, r0
	str	r6, [sp, #60]                   @ 4-byte Spill
	movs	r0, #0
	mov	r3, r0
	mov	r5, r0
	mov	r6, r2
.Lgcm_v6m_BB71_16:                              @ %join.7.i.i.i.i.i.i.i.i
                                        @ =>This Inner Loop Header: Depth=1
	ldrb	r2, [r7, r3]
	strb	r2, [r4, r3]
	mov	r2, r3
	orrs	r2, r6
	ldrb	r1, [r7, r2]
	strb	r1, [r4, r2]
	movs	r1, #2
	orrs	r1, r3
	ldrb	r2, [r7, r1]
	strb	r2, [r4, r1]
	mov	r1, r3
	ldr	r2, [sp, #64]                   @ 4-byte Reload
	orrs	r1, r2
	ldrb	r2, [r7, r1]
	strb	r2, [r4, r1]
	adds	r3, r3, #4
	adcs	r5, r0
	mov	r1, r3
	ldr	r2, [sp, #60]                   @ 4-byte Reload
	eors	r1, r2
	orrs	r1, r5
	bne	.Lgcm_v6m_BB71_16
@ %bb.17:                               @ %"core::slice::edits::slice+T::copy_from_slice::<i8,20'core::clone::U8Clone{}>.exit.i.i.loopexit.unr-lcssa"
	ldr	r1, [sp, #36]                   @ 4-byte Reload
	cmp	r1, #0
	ldr	r5, [sp, #44]                   @ 4-byte Reload
	ldr	r6, [sp, #40]                   @ 4-byte Reload
	beq	.Lgcm_v6m_BB71_21
.Lgcm_v6m_BB71_18:                              @ %join.7.i.i.i.i.i.i.i.i.epil.preheader
	ldrb	r0, [r7, r3]
	strb	r0, [r4, r3]
	cmp	r1, #1
	beq	.Lgcm_v6m_BB71_21
@ %bb.19:                               @ %join.7.i.i.i.i.i.i.i.i.epil.1
	adds	r0, r3, #1
	mov	r2, r1
	ldrb	r1, [r7, r0]
	strb	r1, [r4, r0]
	cmp	r2, #2
	beq	.Lgcm_v6m_BB71_21
@ %bb.20:                               @ %join.7.i.i.i.i.i.i.i.i.epil.2
	adds	r0, r3, #2
	ldrb	r1, [r7, r0]
	strb	r1, [r4, r0]
.Lgcm_v6m_BB71_21:                              @ %"core::slice::edits::slice+T::copy_from_slice::<i8,20'core::clone::U8Clone{}>.exit.i.i"
	ldr	r0, [sp, #56]                   @ 4-byte Reload
	ldr	r7, [r0]
	cmp	r7, #32
	beq	.Lgcm_v6m_BB71_23
@ %bb.22:                               @ %"core::slice::edits::slice+T::copy_from_slice::<i8,20'core::clone::U8Clone{}>.exit.i.i"
	cmp	r7, #16
	bne	.Lgcm_v6m_BB71_27
.Lgcm_v6m_BB71_23:                              @ %join.3.i.i.i
	ldr	r1, [sp, #128]
	str	r5, [sp, #76]
	ldr	r0, [sp, #56]                   @ 4-byte Reload
	adds	r0, r0, #4
	str	r0, [sp, #72]
	lsrs	r0, r7, #31
	lsls	r2, r7, #1
	adds	r2, #56
	str	r2, [sp, #80]
	adcs	r0, r5
	str	r0, [sp, #84]
	str	r6, [sp, #24]
	str	r5, [sp, #28]
	str	r1, [sp, #32]
	ldr	r0, [sp, #48]                   @ 4-byte Reload
	str	r0, [sp]
	ldr	r0, [sp, #68]                   @ 4-byte Reload
	str	r0, [sp, #4]
	ldr	r0, [sp, #52]                   @ 4-byte Reload
	str	r0, [sp, #8]
	str	r5, [sp, #12]
	str	r4, [sp, #16]
	add	r0, sp, #72
	mov	r2, r7
	mov	r3, r5
	bl	gcm_v6m.gcm_siv.course.open_in
	cmp	r0, #0
	beq	.Lgcm_v6m_BB71_25
@ %bb.24:                               @ %"gcm_c::siv::fotsgure_gcm_siv_open.exit.i.i"
	mov	r0, r5
	add	sp, #92
	b	.Lgcm_v6m_return_18645
.Lgcm_v6m_BB71_25:
	movs	r0, #6
	cmp	r6, #0
	bne	.Lgcm_v6m_BB71_28
.Lgcm_v6m_BB71_26:                              @ %wide_fotsgure_gcm_siv_open_to.exit
	add	sp, #92
	b	.Lgcm_v6m_return_18645
.Lgcm_v6m_BB71_27:
	movs	r0, #2
	cmp	r6, #0
	beq	.Lgcm_v6m_BB71_26
.Lgcm_v6m_BB71_28:                              @ %loop.5.preheader.i.i.i
	subs	r6, r6, #1
	mov	r1, r5
	sbcs	r1, r5
	orrs	r1, r6
	beq	.Lgcm_v6m_BB71_30
@ %bb.29:                               @ %join.8.preheader.i.i.i
	movs	r1, #0
	mov	r7, r5
	mov	r5, r0
	mov	r0, r4
	mov	r2, r6
	bl	memset
	mov	r0, r5
	mov	r5, r7
.Lgcm_v6m_BB71_30:                              @ %after.4.i.i.i
	strb	r5, [r4, r6]
	add	sp, #92
	b	.Lgcm_v6m_return_18645
.Lgcm_v6m_return_18645:
	movs	r1, #0
	movs	r2, #0
	movs	r3, #0
	mov	r12, r1
	mov	lr, r1
	pop	{r4, r5, r6, r7, pc}
.Lgcm_v6m_func_end71:
	.size	gcm_v6m.fotsgure_gcm_siv_open_to, .Lgcm_v6m_func_end71-gcm_v6m.fotsgure_gcm_siv_open_to
	.cantunwind
	.fnend
                                        @ -- End function
	.section	.text.gcm_v6m.fotsgure_gcm_siv_wipe,"ax",%progbits
	export_gcm_v6m	fotsgure_gcm_siv_wipe
	.p2align	1
	.type	gcm_v6m.fotsgure_gcm_siv_wipe,%function
	.code	16
	.thumb_func
gcm_v6m.fotsgure_gcm_siv_wipe:                  @ @gcm_v6m.fotsgure_gcm_siv_wipe
	.fnstart
@ %bb.0:
	.save	{r4, lr}
	push	{r4, lr}
	mov	r4, r0
	movs	r0, #121
	lsls	r2, r0, #2
	movs	r1, #0
	mov	r0, r4
	bl	memset
	adds	r0, r4, #4
	bl	gcm_v6m.aes_cipher.zeroize.elements.zeroize_elements.1
	b	.Lgcm_v6m_return_18815
.Lgcm_v6m_return_18815:
	movs	r1, #0
	movs	r2, #0
	movs	r3, #0
	mov	r12, r1
	mov	lr, r1
	pop	{r4, pc}
.Lgcm_v6m_func_end72:
	.size	gcm_v6m.fotsgure_gcm_siv_wipe, .Lgcm_v6m_func_end72-gcm_v6m.fotsgure_gcm_siv_wipe
	.cantunwind
	.fnend
                                        @ -- End function
	.type	.Lgcm_v6m_static.0,%object              @ @static.0
	.section	.rodata..Lgcm_v6m_static.0,"a",%progbits
.Lgcm_v6m_static.0:
	.ascii	"\001\002\004\b\020 @\200\0336"
	.size	.Lgcm_v6m_static.0, 10

	.ident	"rattle logic=dac8208d650f15bf3e2dc313a14fa4c783a3acf887bdfab66e1714b038d9e11b"
	.section	".note.GNU-stack","",%progbits

	.section	.note.fotsgure,"",%note
	.p2align	2, 0x0
	.long	9, 118, 1
	.asciz	"Fotsgure"
	.p2align	2, 0x0
	.asciz	"fotsgure_gcm 0.4.0, thumb/gcm_v6m.s, sources SHA-256 7839658995c36f00d13f13ab6f42fa9360d959953d441bf3a57996a9c2aa56dc"
	.p2align	2, 0x0
