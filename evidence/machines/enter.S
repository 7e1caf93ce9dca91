/* int enter(void *top, int (*call)(void), void *registers): makes a call on a stack of its own, between the marks that the plugin of qemu
 * knows (hints that do nothing), and stores what is then in the registers. Before it they hold zeros, or what is the same in every run. */
#ifdef __riscv
#if __riscv_xlen == 64
#define SAVE sd
#define LOAD ld
#define WIDE 8
#else
#define SAVE sw
#define LOAD lw
#define WIDE 4
#endif
	.macro	each, what, from, them:vararg
	.set	at, 0
	.irp	it, \them
	\what	\it, at(\from)
	.set	at, at + WIDE
	.endr
	.endm
	.globl	enter
enter:
	addi	sp, sp, -16 * WIDE
	each	SAVE, sp, ra, s0, s1, s2, s3, s4, s5, s6, s7, s8, s9, s10, s11
	mv	s0, sp
	mv	s1, a2
	mv	s2, a1
	mv	sp, a0
	.irp	it, t0, t1, t2, t3, t4, t5, t6, a0, a1, a2, a3, a4, a5, a6, a7, s3, s4, s5, s6, s7, s8, s9, s10, s11
	li	\it, 0
	.endr
#ifdef __riscv_vector
	vsetvli	t0, zero, e8, m8, ta, ma
	.irp	it, 0, 8, 16, 24
	vmv.v.i	v\it, 0
	.endr
#endif
	addi	zero, zero, 112
	jalr	s2
	addi	zero, zero, 113
	each	SAVE, s1, a0, a1, a2, a3, a4, a5, a6, a7, t0, t1, t2, t3, t4, t5, t6, s3, s4, s5, s6, s7, s8, s9, s10, s11
#ifdef __riscv_vector
	addi	s1, s1, 32 * WIDE
	vsetvli	t0, zero, e8, m8, ta, ma
	.irp	it, 0, 8, 16, 24
	vse8.v	v\it, (s1)
	add	s1, s1, t0
	.endr
#endif
	mv	sp, s0
	each	LOAD, sp, ra, s0, s1, s2, s3, s4, s5, s6, s7, s8, s9, s10, s11
	addi	sp, sp, 16 * WIDE
	ret
#else
	.syntax	unified
	.arm
	.fpu	neon
	.globl	enter
	.type	enter, %function
enter:
	push	{r4-r11, lr}
	vpush	{d8-d15}
	mov	r4, sp
	mov	r5, r2
	mov	r6, r1
	mov	sp, r0
	.irp	it, r0, r1, r2, r3, r7, r8, r9, r10, r11, r12
	mov	\it, #0
	.endr
	.irp	it, q0, q1, q2, q3, q4, q5, q6, q7, q8, q9, q10, q11, q12, q13, q14, q15
	vmov.i32	\it, #0
	.endr
	.inst	0xe320f000 + 112
	blx	r6
	.inst	0xe320f000 + 113
	stm	r5, {r0-r12, lr}
	add	r5, r5, #64
	vstm	r5!, {d0-d15}
	vstm	r5!, {d16-d31}
	mov	sp, r4
	vpop	{d8-d15}
	pop	{r4-r11, pc}
#endif
	.section	.note.GNU-stack,"",%progbits
