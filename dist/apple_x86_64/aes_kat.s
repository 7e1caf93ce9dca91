# Made by tools/dist from the proved crate aes_kat_main; BUILD says from what. Don't edit it.
	.section	__TEXT,__const
	.p2align	4, 0x0                          # -- Begin function aes_kat::runs::append_reply_line::<#0e4b5268c400607d>
l_CPI0_0:
	.zero	16,1
l_CPI0_1:
	.zero	16,65
l_CPI0_2:
	.zero	16,70
l_CPI0_3:
	.zero	16,159
l_CPI0_4:
	.zero	16,5
l_CPI0_5:
	.zero	16,208
l_CPI0_6:
	.zero	16,9
l_CPI0_7:
	.zero	2
	.short	65535                           # 0xffff
	.short	65535                           # 0xffff
	.short	65535                           # 0xffff
	.short	65535                           # 0xffff
	.short	65535                           # 0xffff
	.short	65535                           # 0xffff
	.short	65535                           # 0xffff
l_CPI0_8:
	.byte	64                              # 0x40
	.byte	64                              # 0x40
	.byte	64                              # 0x40
	.byte	64                              # 0x40
	.byte	64                              # 0x40
	.byte	64                              # 0x40
	.byte	64                              # 0x40
	.byte	64                              # 0x40
	.zero	1
	.zero	1
	.zero	1
	.zero	1
	.zero	1
	.zero	1
	.zero	1
	.zero	1
l_CPI0_9:
	.byte	71                              # 0x47
	.byte	71                              # 0x47
	.byte	71                              # 0x47
	.byte	71                              # 0x47
	.byte	71                              # 0x47
	.byte	71                              # 0x47
	.byte	71                              # 0x47
	.byte	71                              # 0x47
	.zero	1
	.zero	1
	.zero	1
	.zero	1
	.zero	1
	.zero	1
	.zero	1
	.zero	1
l_CPI0_10:
	.byte	159                             # 0x9f
	.byte	159                             # 0x9f
	.byte	159                             # 0x9f
	.byte	159                             # 0x9f
	.byte	159                             # 0x9f
	.byte	159                             # 0x9f
	.byte	159                             # 0x9f
	.byte	159                             # 0x9f
	.zero	1
	.zero	1
	.zero	1
	.zero	1
	.zero	1
	.zero	1
	.zero	1
	.zero	1
l_CPI0_11:
	.byte	6                               # 0x6
	.byte	6                               # 0x6
	.byte	6                               # 0x6
	.byte	6                               # 0x6
	.byte	6                               # 0x6
	.byte	6                               # 0x6
	.byte	6                               # 0x6
	.byte	6                               # 0x6
	.zero	1
	.zero	1
	.zero	1
	.zero	1
	.zero	1
	.zero	1
	.zero	1
	.zero	1
l_CPI0_12:
	.byte	208                             # 0xd0
	.byte	208                             # 0xd0
	.byte	208                             # 0xd0
	.byte	208                             # 0xd0
	.byte	208                             # 0xd0
	.byte	208                             # 0xd0
	.byte	208                             # 0xd0
	.byte	208                             # 0xd0
	.zero	1
	.zero	1
	.zero	1
	.zero	1
	.zero	1
	.zero	1
	.zero	1
	.zero	1
l_CPI0_13:
	.byte	10                              # 0xa
	.byte	10                              # 0xa
	.byte	10                              # 0xa
	.byte	10                              # 0xa
	.byte	10                              # 0xa
	.byte	10                              # 0xa
	.byte	10                              # 0xa
	.byte	10                              # 0xa
	.zero	1
	.zero	1
	.zero	1
	.zero	1
	.zero	1
	.zero	1
	.zero	1
	.zero	1
l_CPI0_14:
	.short	65535                           # 0xffff
	.short	0                               # 0x0
	.short	65535                           # 0xffff
	.short	0                               # 0x0
	.short	65535                           # 0xffff
	.short	0                               # 0x0
	.short	65535                           # 0xffff
	.short	0                               # 0x0
l_CPI0_15:
	.zero	16,2
l_CPI0_16:
	.zero	16,32
l_CPI0_17:
	.zero	16,64
l_CPI0_18:
	.short	4896                            # 0x1320
	.short	4896                            # 0x1320
	.zero	2
	.zero	2
	.zero	2
	.zero	2
	.zero	2
	.zero	2
l_CPI0_19:
	.short	5                               # 0x5
	.short	5                               # 0x5
	.zero	2
	.zero	2
	.zero	2
	.zero	2
	.zero	2
	.zero	2
l_CPI0_20:
	.short	20560                           # 0x5050
	.short	20560                           # 0x5050
	.zero	2
	.zero	2
	.zero	2
	.zero	2
	.zero	2
	.zero	2
l_CPI0_21:
	.short	3                               # 0x3
	.short	3                               # 0x3
	.zero	2
	.zero	2
	.zero	2
	.zero	2
	.zero	2
	.zero	2
l_CPI0_22:
	.byte	255                             # 0xff
	.byte	0                               # 0x0
	.byte	255                             # 0xff
	.byte	255                             # 0xff
	.byte	255                             # 0xff
	.byte	255                             # 0xff
	.byte	255                             # 0xff
	.byte	255                             # 0xff
	.byte	255                             # 0xff
	.byte	255                             # 0xff
	.byte	255                             # 0xff
	.byte	255                             # 0xff
	.byte	255                             # 0xff
	.byte	255                             # 0xff
	.byte	255                             # 0xff
	.byte	255                             # 0xff
l_CPI0_23:
	.short	0                               # 0x0
	.short	65535                           # 0xffff
	.short	65535                           # 0xffff
	.short	65535                           # 0xffff
	.short	65535                           # 0xffff
	.short	65535                           # 0xffff
	.short	65535                           # 0xffff
	.short	65535                           # 0xffff
l_CPI0_24:
	.byte	1                               # 0x1
	.byte	2                               # 0x2
	.byte	4                               # 0x4
	.byte	8                               # 0x8
	.byte	16                              # 0x10
	.byte	32                              # 0x20
	.byte	64                              # 0x40
	.byte	128                             # 0x80
	.byte	1                               # 0x1
	.byte	2                               # 0x2
	.byte	4                               # 0x4
	.byte	8                               # 0x8
	.byte	16                              # 0x10
	.byte	32                              # 0x20
	.byte	64                              # 0x40
	.byte	128                             # 0x80
	.section	__TEXT,__text,regular,pure_instructions
	.p2align	4
"aes_kat::runs::append_reply_line::<#0e4b5268c400607d>": # @"aes_kat::runs::append_reply_line::<#0e4b5268c400607d>"
# %bb.0:                                # %start
	pushq	%rbp
	pushq	%r15
	pushq	%r14
	pushq	%r13
	pushq	%r12
	pushq	%rbx
	subq	$3072, %rsp                     # imm = 0xC00
	movq	$0, (%rsp)
	subq	$3072, %rsp                     # imm = 0xC00
	movq	$0, (%rsp)
	subq	$312, %rsp                      # imm = 0x138
	movq	%rdx, 48(%rsp)                  # 8-byte Spill
	movq	%rsi, %rbx
	movq	%rdi, %rbp
	leaq	4408(%rsp), %rdi
	movl	$2048, %edx                     # imm = 0x800
	xorl	%esi, %esi
	callq	_memset
	testq	%rbx, %rbx
	je	LBB0_5
# %bb.1:                                # %join.6.i.i.i.i.i.preheader
	xorl	%eax, %eax
	.p2align	4
LBB0_2:                                # %join.6.i.i.i.i.i
                                        # =>This Inner Loop Header: Depth=1
	cmpb	$32, (%rbp,%rax)
	je	LBB0_6
# %bb.3:                                # %after.7.i.i.i.i.i
                                        #   in Loop: Header=BB0_2 Depth=1
	incq	%rax
	cmpq	%rax, %rbx
	jne	LBB0_2
# %bb.4:
	movq	$0, 40(%rsp)                    # 8-byte Folded Spill
	xorl	%r9d, %r9d
	xorl	%r14d, %r14d
	jmp	LBB0_7
LBB0_5:
	movq	$0, 40(%rsp)                    # 8-byte Folded Spill
	xorl	%r9d, %r9d
	xorl	%r14d, %r14d
	xorl	%ebx, %ebx
	jmp	LBB0_7
LBB0_6:                                # %arm.1.i.i.i.i
	leaq	(%rax,%rbp), %r9
	incq	%r9
	movq	%rax, %r14
	notq	%r14
	addq	%rbx, %r14
	movb	$1, %cl
	movq	%rcx, 40(%rsp)                  # 8-byte Spill
	movq	%rax, %rbx
LBB0_7:                                # %"aes_kat::command_names::Command::name.exit.i.i.i.i"
	leaq	l_static.13(%rip), %r13
	movl	$13, %r12d
	leaq	-3(%rbx), %r15
	cmpq	$5, %r15
	ja	LBB0_86
# %bb.8:                                # %"aes_kat::command_names::Command::name.exit.i.i.i.i"
	leaq	l_JTI0_0(%rip), %rax
	movslq	(%rax,%r15,4), %rcx
	addq	%rax, %rcx
	jmpq	*%rcx
LBB0_9:                                # %join.5.i.i.i.i.i.i.preheader
	xorl	%eax, %eax
	.p2align	4
LBB0_10:                               # %join.5.i.i.i.i.i.i
                                        # =>This Inner Loop Header: Depth=1
	leaq	l_static.3(%rip), %rcx
	movzbl	(%rax,%rcx), %ecx
	cmpb	(%rbp,%rax), %cl
	jne	LBB0_13
# %bb.11:                               # %join.8.i.i.i.i.i.i
                                        #   in Loop: Header=BB0_10 Depth=1
	incq	%rax
	cmpq	%rax, %rbx
	jne	LBB0_10
	jmp	LBB0_12
LBB0_13:                               # %"core::slice::scan::any_by_one::<#953750c03e87c3e2>.exit.i.i.i.i"
	cmpq	%rbx, %rax
	jae	LBB0_12
# %bb.14:                               # %"aes_kat::command_names::Command::name.exit.i.i.i.i.1"
	cmpq	$5, %r15
	ja	LBB0_86
# %bb.15:                               # %"aes_kat::command_names::Command::name.exit.i.i.i.i.1"
	leaq	l_JTI0_1(%rip), %rax
	movslq	(%rax,%r15,4), %rcx
	addq	%rax, %rcx
	jmpq	*%rcx
LBB0_16:                               # %join.5.i.i.i.i.i.i.1.preheader
	xorl	%eax, %eax
LBB0_17:                               # %join.5.i.i.i.i.i.i.1
                                        # =>This Inner Loop Header: Depth=1
	leaq	l_static.4(%rip), %rcx
	movzbl	(%rax,%rcx), %ecx
	cmpb	(%rbp,%rax), %cl
	jne	LBB0_20
# %bb.18:                               # %join.8.i.i.i.i.i.i.1
                                        #   in Loop: Header=BB0_17 Depth=1
	incq	%rax
	movb	$1, %cl
	cmpq	%rax, %rbx
	jne	LBB0_17
	jmp	LBB0_44
LBB0_12:
	xorl	%ecx, %ecx
	jmp	LBB0_44
LBB0_20:                               # %"core::slice::scan::any_by_one::<#953750c03e87c3e2>.exit.i.i.i.i.1"
	movb	$1, %cl
	cmpq	%rbx, %rax
	jae	LBB0_44
# %bb.21:                               # %"aes_kat::command_names::Command::name.exit.i.i.i.i.2"
	cmpq	$5, %r15
	ja	LBB0_86
# %bb.22:                               # %"aes_kat::command_names::Command::name.exit.i.i.i.i.2"
	leaq	l_JTI0_2(%rip), %rax
	movslq	(%rax,%r15,4), %rcx
	addq	%rax, %rcx
	jmpq	*%rcx
LBB0_23:                               # %join.5.i.preheader.i.i.i.i.2
	cmpl	$1853190002, (%rbp)             # imm = 0x6E756F72
	jne	LBB0_25
# %bb.24:                               # %"core::cmp::slices::slices_equal::<i8,31'core::cmp::numbers::U8PartialEq{}>.exit.i.i.i.i.2"
	leaq	l_static.5(%rip), %rdi
	movq	%rbx, %rsi
	movq	%rbp, %rdx
	movq	%r14, %r13
	movq	%r9, %r14
	callq	"core::cmp::slices::groups_equal::<i8,31'core::cmp::numbers::U8PartialEq{}>"
	movq	%r14, %r9
	movq	%r13, %r14
	leaq	l_static.13(%rip), %r13
	movb	$2, %cl
	testb	%al, %al
	jne	LBB0_44
LBB0_25:                               # %"aes_kat::command_names::Command::name.exit.i.i.i.i.3"
	cmpq	$5, %r15
	ja	LBB0_86
# %bb.26:                               # %"aes_kat::command_names::Command::name.exit.i.i.i.i.3"
	leaq	l_JTI0_3(%rip), %rax
	movslq	(%rax,%r15,4), %rcx
	addq	%rax, %rcx
	jmpq	*%rcx
LBB0_27:                               # %join.5.i.preheader.i.i.i.i.3
	cmpl	$1920364137, (%rbp)             # imm = 0x72766E69
	jne	LBB0_29
# %bb.28:                               # %"core::cmp::slices::slices_equal::<i8,31'core::cmp::numbers::U8PartialEq{}>.exit.i.i.i.i.3"
	leaq	l_static.6(%rip), %rdi
	movq	%rbx, %rsi
	movq	%rbp, %rdx
	movq	%r14, %r15
	movq	%r9, %r14
	callq	"core::cmp::slices::groups_equal::<i8,31'core::cmp::numbers::U8PartialEq{}>"
	movq	%r14, %r9
	movq	%r15, %r14
	movb	$3, %cl
	testb	%al, %al
	jne	LBB0_44
LBB0_29:                               # %"aes_kat::command_names::Command::name.exit.i.i.i.i.4"
	cmpq	$6, %rbx
	je	LBB0_39
# %bb.30:                               # %"aes_kat::command_names::Command::name.exit.i.i.i.i.4"
	cmpq	$5, %rbx
	je	LBB0_42
# %bb.31:                               # %"aes_kat::command_names::Command::name.exit.i.i.i.i.4"
	cmpq	$3, %rbx
	jne	LBB0_86
LBB0_32:                               # %join.5.i.i.i.i.i.i.preheader.4
	xorl	%eax, %eax
	.p2align	4
LBB0_33:                               # %join.5.i.i.i.i.i.i.4
                                        # =>This Inner Loop Header: Depth=1
	leaq	l_static.7(%rip), %rcx
	movzbl	(%rax,%rcx), %ecx
	cmpb	(%rbp,%rax), %cl
	jne	LBB0_36
# %bb.34:                               # %join.8.i.i.i.i.i.i.4
                                        #   in Loop: Header=BB0_33 Depth=1
	incq	%rax
	cmpq	%rax, %rbx
	jne	LBB0_33
# %bb.35:
	movb	$4, %cl
	jmp	LBB0_44
LBB0_36:                               # %"core::slice::scan::any_by_one::<#953750c03e87c3e2>.exit.i.i.i.i.4"
	movb	$4, %cl
	cmpq	%rbx, %rax
	jae	LBB0_44
# %bb.37:                               # %"aes_kat::command_names::Command::name.exit.i.i.i.i.5"
	cmpq	$5, %rbx
	je	LBB0_42
# %bb.38:                               # %"aes_kat::command_names::Command::name.exit.i.i.i.i.5"
	cmpq	$6, %rbx
	jne	LBB0_86
LBB0_39:                               # %join.5.i.preheader.i.i.i.i.5
	cmpl	$1836478057, (%rbp)             # imm = 0x6D766E69
	jne	LBB0_41
# %bb.40:                               # %"core::cmp::slices::slices_equal::<i8,31'core::cmp::numbers::U8PartialEq{}>.exit.i.i.i.i.5"
	leaq	l_static.8(%rip), %rdi
	movq	%rbx, %rsi
	movq	%rbp, %rdx
	movq	%r14, %r15
	movq	%r9, %r14
	callq	"core::cmp::slices::groups_equal::<i8,31'core::cmp::numbers::U8PartialEq{}>"
	movq	%r14, %r9
	movq	%r15, %r14
	movb	$5, %cl
	testb	%al, %al
	jne	LBB0_44
LBB0_41:                               # %"aes_kat::command_names::Command::name.exit.i.i.i.i.6"
	cmpq	$5, %rbx
	jne	LBB0_86
LBB0_42:                               # %join.5.i.preheader.i.i.i.i.6
	cmpl	$1701340019, (%rbp)             # imm = 0x65686373
	jne	LBB0_86
# %bb.43:                               # %"core::cmp::slices::slices_equal::<i8,31'core::cmp::numbers::U8PartialEq{}>.exit.i.i.i.i.6"
	leaq	l_static.9(%rip), %rdi
	movq	%rbx, %rsi
	movq	%rbp, %rdx
	movq	%r9, %rbx
	callq	"core::cmp::slices::groups_equal::<i8,31'core::cmp::numbers::U8PartialEq{}>"
	movq	%rbx, %r9
	movb	$6, %cl
	testb	%al, %al
	je	LBB0_86
LBB0_44:                               # %"aes_kat::command_names::Command::named.exit.i.i.i"
	cmpb	$0, 40(%rsp)                    # 1-byte Folded Reload
	je	LBB0_86
# %bb.45:                               # %arm.7.i.i.i
	testq	%r14, %r14
	je	LBB0_49
# %bb.46:                               # %join.6.i.i39.i.i.i.preheader
	movq	%r14, %rdx
	negq	%rdx
	movl	$1, %eax
	.p2align	4
LBB0_47:                               # %join.6.i.i39.i.i.i
                                        # =>This Inner Loop Header: Depth=1
	cmpb	$32, -1(%r9,%rax)
	je	LBB0_54
# %bb.48:                               # %after.7.i.i44.i.i.i
                                        #   in Loop: Header=BB0_47 Depth=1
	leaq	(%rdx,%rax), %rsi
	incq	%rsi
	incq	%rax
	cmpq	$1, %rsi
	jne	LBB0_47
LBB0_49:                               # %arm.11.i.i.i
	movl	%ecx, %eax
	andb	$6, %al
	cmpb	$2, %al
	je	LBB0_86
# %bb.50:
	leaq	l_static.2(%rip), %r12
	xorl	%ebp, %ebp
	testb	$1, %r14b
	jne	LBB0_60
LBB0_51:                               # %then.1.i.i.i
	testq	%r14, %r14
	je	LBB0_71
# %bb.52:                               # %iter.check
	cmpq	$8, %r14
	jae	LBB0_61
# %bb.53:
	movb	$1, %dl
	xorl	%eax, %eax
	jmp	LBB0_118
LBB0_54:                               # %arm.10.i.i.i
	movq	%r14, %rbp
	subq	%rax, %rbp
	je	LBB0_58
# %bb.55:                               # %join.6.i.i61.i.i.i.preheader
	movq	%rax, %rdx
	.p2align	4
LBB0_56:                               # %join.6.i.i61.i.i.i
                                        # =>This Inner Loop Header: Depth=1
	cmpb	$32, (%r9,%rdx)
	je	LBB0_86
# %bb.57:                               # %after.7.i.i66.i.i.i
                                        #   in Loop: Header=BB0_56 Depth=1
	incq	%rdx
	cmpq	%rdx, %r14
	jne	LBB0_56
LBB0_58:                               # %else.19.i.i.i
	leal	-7(%rcx), %edx
	cmpb	$-4, %dl
	ja	LBB0_86
# %bb.59:
	leaq	(%r9,%rax), %r12
	decq	%rax
	movq	%rax, %r14
	testb	$1, %r14b
	je	LBB0_51
LBB0_60:
	movl	%r14d, %edx
	xorb	$1, %dl
	jmp	LBB0_70
LBB0_61:                               # %vector.main.loop.iter.check
	cmpq	$32, %r14
	jae	LBB0_63
# %bb.62:
	movb	$1, %dl
	xorl	%eax, %eax
	jmp	LBB0_67
LBB0_63:                               # %vector.ph
	movq	%r14, %rax
	andq	$-32, %rax
	movdqa	l_CPI0_0(%rip), %xmm0           # xmm0 = [1,1,1,1,1,1,1,1,1,1,1,1,1,1,1,1]
	xorl	%edx, %edx
	movdqa	%xmm0, %xmm1
	.p2align	4
LBB0_64:                               # %vector.body
                                        # =>This Inner Loop Header: Depth=1
	movdqu	(%r9,%rdx), %xmm3
	movdqu	16(%r9,%rdx), %xmm2
	movdqa	l_CPI0_1(%rip), %xmm4           # xmm4 = [65,65,65,65,65,65,65,65,65,65,65,65,65,65,65,65]
	movdqa	%xmm3, %xmm6
	pmaxub	%xmm4, %xmm6
	pcmpeqb	%xmm3, %xmm6
	pmaxub	%xmm2, %xmm4
	pcmpeqb	%xmm2, %xmm4
	movdqa	l_CPI0_2(%rip), %xmm7           # xmm7 = [70,70,70,70,70,70,70,70,70,70,70,70,70,70,70,70]
	movdqa	%xmm3, %xmm8
	pminub	%xmm7, %xmm8
	pcmpeqb	%xmm3, %xmm8
	pminub	%xmm2, %xmm7
	pcmpeqb	%xmm2, %xmm7
	movdqa	l_CPI0_3(%rip), %xmm9           # xmm9 = [159,159,159,159,159,159,159,159,159,159,159,159,159,159,159,159]
	movdqa	%xmm3, %xmm10
	paddb	%xmm9, %xmm10
	paddb	%xmm2, %xmm9
	movdqa	l_CPI0_4(%rip), %xmm5           # xmm5 = [5,5,5,5,5,5,5,5,5,5,5,5,5,5,5,5]
	movdqa	%xmm10, %xmm11
	pminub	%xmm5, %xmm11
	pcmpeqb	%xmm10, %xmm11
	por	%xmm8, %xmm11
	pand	%xmm6, %xmm11
	pminub	%xmm9, %xmm5
	pcmpeqb	%xmm9, %xmm5
	por	%xmm7, %xmm5
	pand	%xmm4, %xmm5
	movdqa	l_CPI0_5(%rip), %xmm4           # xmm4 = [208,208,208,208,208,208,208,208,208,208,208,208,208,208,208,208]
	paddb	%xmm4, %xmm3
	movdqa	l_CPI0_6(%rip), %xmm6           # xmm6 = [9,9,9,9,9,9,9,9,9,9,9,9,9,9,9,9]
	movdqa	%xmm3, %xmm7
	pminub	%xmm6, %xmm7
	pcmpeqb	%xmm3, %xmm7
	por	%xmm11, %xmm7
	pand	%xmm7, %xmm1
	paddb	%xmm4, %xmm2
	pminub	%xmm2, %xmm6
	pcmpeqb	%xmm2, %xmm6
	por	%xmm5, %xmm6
	pand	%xmm6, %xmm0
	addq	$32, %rdx
	cmpq	%rdx, %rax
	jne	LBB0_64
# %bb.65:                               # %middle.block
	pand	%xmm1, %xmm0
	psllw	$7, %xmm0
	pmovmskb	%xmm0, %edx
	cmpl	$65535, %edx                    # imm = 0xFFFF
	sete	%dl
	cmpq	%rax, %r14
	je	LBB0_70
# %bb.66:                               # %vec.epilog.iter.check
	testb	$24, %r14b
	je	LBB0_118
LBB0_67:                               # %vec.epilog.ph
	movq	%rax, %rsi
	movq	%r14, %rax
	andq	$-8, %rax
	movzbl	%dl, %edx
	movdqa	l_CPI0_7(%rip), %xmm0           # xmm0 = [u,65535,65535,65535,65535,65535,65535,65535]
	pinsrw	$0, %edx, %xmm0
	.p2align	4
LBB0_68:                               # %vec.epilog.vector.body
                                        # =>This Inner Loop Header: Depth=1
	movq	(%r9,%rsi), %xmm2               # xmm2 = mem[0],zero
	movdqa	l_CPI0_8(%rip), %xmm1           # xmm1 = [64,64,64,64,64,64,64,64,u,u,u,u,u,u,u,u]
	pminub	%xmm2, %xmm1
	pcmpeqb	%xmm2, %xmm1
	movdqa	l_CPI0_9(%rip), %xmm3           # xmm3 = [71,71,71,71,71,71,71,71,u,u,u,u,u,u,u,u]
	pmaxub	%xmm2, %xmm3
	pcmpeqb	%xmm2, %xmm3
	pcmpeqd	%xmm4, %xmm4
	pxor	%xmm4, %xmm3
	movdqa	l_CPI0_10(%rip), %xmm5          # xmm5 = [159,159,159,159,159,159,159,159,u,u,u,u,u,u,u,u]
	paddb	%xmm2, %xmm5
	movdqa	l_CPI0_11(%rip), %xmm6          # xmm6 = [6,6,6,6,6,6,6,6,u,u,u,u,u,u,u,u]
	pmaxub	%xmm5, %xmm6
	pcmpeqb	%xmm5, %xmm6
	pxor	%xmm4, %xmm6
	por	%xmm3, %xmm6
	pandn	%xmm6, %xmm1
	paddb	l_CPI0_12(%rip), %xmm2
	movdqa	l_CPI0_13(%rip), %xmm3          # xmm3 = [10,10,10,10,10,10,10,10,u,u,u,u,u,u,u,u]
	pmaxub	%xmm2, %xmm3
	pcmpeqb	%xmm2, %xmm3
	pxor	%xmm4, %xmm3
	por	%xmm1, %xmm3
	punpcklbw	%xmm3, %xmm1            # xmm1 = xmm1[0],xmm3[0],xmm1[1],xmm3[1],xmm1[2],xmm3[2],xmm1[3],xmm3[3],xmm1[4],xmm3[4],xmm1[5],xmm3[5],xmm1[6],xmm3[6],xmm1[7],xmm3[7]
	psraw	$8, %xmm1
	pand	%xmm1, %xmm0
	addq	$8, %rsi
	cmpq	%rsi, %rax
	jne	LBB0_68
# %bb.69:                               # %vec.epilog.middle.block
	psllw	$7, %xmm0
	pmovmskb	%xmm0, %edx
	notl	%edx
	testl	$21845, %edx                    # imm = 0x5555
	sete	%dl
	jmp	LBB0_117
LBB0_118:                              # %join.5.i.i2.i.i
	movzbl	(%r9,%rax), %edi
	cmpb	$48, %dil
	jb	LBB0_122
# %bb.119:                              # %join.6.i.i.i3.i.i
	movb	$1, %sil
	cmpb	$58, %dil
	jb	LBB0_123
# %bb.120:                              # %join.9.i.i.i.i.i
	cmpb	$65, %dil
	jb	LBB0_122
# %bb.121:                              # %join.12.i.i.i.i.i
	cmpb	$71, %dil
	setb	%r8b
	addb	$-97, %dil
	cmpb	$6, %dil
	setb	%dil
	orb	%r8b, %dil
	jne	LBB0_123
LBB0_122:                              # %after.2.i.i.i.i.i
	xorl	%esi, %esi
LBB0_123:                              # %"aes_kat::operands::is_digit.exit.i.i.i.i"
	andb	%sil, %dl
	incq	%rax
LBB0_117:                              # %vec.epilog.middle.block
	cmpq	%rax, %r14
	jne	LBB0_118
LBB0_70:                               # %"aes_kat::operands::is_hex.exit.i.i"
	testb	$1, %dl
	je	LBB0_85
LBB0_71:                               # %else.8.i.i
	testb	$1, %bpl
	jne	LBB0_75
# %bb.72:                               # %then.1.i10.i.i
	testq	%rbp, %rbp
	je	LBB0_125
# %bb.73:                               # %iter.check86
	cmpq	$8, %rbp
	jae	LBB0_76
# %bb.74:
	movb	$1, %dl
	xorl	%eax, %eax
	jmp	LBB0_319
LBB0_75:
	movl	%ebp, %edx
	xorb	$1, %dl
	jmp	LBB0_124
LBB0_76:                               # %vector.main.loop.iter.check88
	cmpq	$32, %rbp
	jae	LBB0_78
# %bb.77:
	movb	$1, %dl
	xorl	%eax, %eax
	jmp	LBB0_82
LBB0_78:                               # %vector.ph89
	movq	%rbp, %rax
	andq	$-32, %rax
	movdqa	l_CPI0_0(%rip), %xmm0           # xmm0 = [1,1,1,1,1,1,1,1,1,1,1,1,1,1,1,1]
	xorl	%edx, %edx
	movdqa	%xmm0, %xmm1
LBB0_79:                               # %vector.body92
                                        # =>This Inner Loop Header: Depth=1
	movdqu	(%r12,%rdx), %xmm3
	movdqu	16(%r12,%rdx), %xmm2
	movdqa	l_CPI0_1(%rip), %xmm4           # xmm4 = [65,65,65,65,65,65,65,65,65,65,65,65,65,65,65,65]
	movdqa	%xmm3, %xmm6
	pmaxub	%xmm4, %xmm6
	pcmpeqb	%xmm3, %xmm6
	pmaxub	%xmm2, %xmm4
	pcmpeqb	%xmm2, %xmm4
	movdqa	l_CPI0_2(%rip), %xmm7           # xmm7 = [70,70,70,70,70,70,70,70,70,70,70,70,70,70,70,70]
	movdqa	%xmm3, %xmm8
	pminub	%xmm7, %xmm8
	pcmpeqb	%xmm3, %xmm8
	pminub	%xmm2, %xmm7
	pcmpeqb	%xmm2, %xmm7
	movdqa	l_CPI0_3(%rip), %xmm9           # xmm9 = [159,159,159,159,159,159,159,159,159,159,159,159,159,159,159,159]
	movdqa	%xmm3, %xmm10
	paddb	%xmm9, %xmm10
	paddb	%xmm2, %xmm9
	movdqa	l_CPI0_4(%rip), %xmm5           # xmm5 = [5,5,5,5,5,5,5,5,5,5,5,5,5,5,5,5]
	movdqa	%xmm10, %xmm11
	pminub	%xmm5, %xmm11
	pcmpeqb	%xmm10, %xmm11
	por	%xmm8, %xmm11
	pand	%xmm6, %xmm11
	pminub	%xmm9, %xmm5
	pcmpeqb	%xmm9, %xmm5
	por	%xmm7, %xmm5
	pand	%xmm4, %xmm5
	movdqa	l_CPI0_5(%rip), %xmm4           # xmm4 = [208,208,208,208,208,208,208,208,208,208,208,208,208,208,208,208]
	paddb	%xmm4, %xmm3
	movdqa	l_CPI0_6(%rip), %xmm6           # xmm6 = [9,9,9,9,9,9,9,9,9,9,9,9,9,9,9,9]
	movdqa	%xmm3, %xmm7
	pminub	%xmm6, %xmm7
	pcmpeqb	%xmm3, %xmm7
	por	%xmm11, %xmm7
	pand	%xmm7, %xmm1
	paddb	%xmm4, %xmm2
	pminub	%xmm2, %xmm6
	pcmpeqb	%xmm2, %xmm6
	por	%xmm5, %xmm6
	pand	%xmm6, %xmm0
	addq	$32, %rdx
	cmpq	%rdx, %rax
	jne	LBB0_79
# %bb.80:                               # %middle.block101
	pand	%xmm1, %xmm0
	psllw	$7, %xmm0
	pmovmskb	%xmm0, %edx
	cmpl	$65535, %edx                    # imm = 0xFFFF
	sete	%dl
	cmpq	%rax, %rbp
	je	LBB0_124
# %bb.81:                               # %vec.epilog.iter.check107
	testb	$24, %bpl
	je	LBB0_319
LBB0_82:                               # %vec.epilog.ph109
	movq	%rax, %rsi
	movq	%rbp, %rax
	andq	$-8, %rax
	movzbl	%dl, %edx
	movdqa	l_CPI0_7(%rip), %xmm0           # xmm0 = [u,65535,65535,65535,65535,65535,65535,65535]
	pinsrw	$0, %edx, %xmm0
	.p2align	4
LBB0_83:                               # %vec.epilog.vector.body112
                                        # =>This Inner Loop Header: Depth=1
	movq	(%r12,%rsi), %xmm2              # xmm2 = mem[0],zero
	movdqa	l_CPI0_8(%rip), %xmm1           # xmm1 = [64,64,64,64,64,64,64,64,u,u,u,u,u,u,u,u]
	pminub	%xmm2, %xmm1
	pcmpeqb	%xmm2, %xmm1
	movdqa	l_CPI0_9(%rip), %xmm3           # xmm3 = [71,71,71,71,71,71,71,71,u,u,u,u,u,u,u,u]
	pmaxub	%xmm2, %xmm3
	pcmpeqb	%xmm2, %xmm3
	pcmpeqd	%xmm4, %xmm4
	pxor	%xmm4, %xmm3
	movdqa	l_CPI0_10(%rip), %xmm5          # xmm5 = [159,159,159,159,159,159,159,159,u,u,u,u,u,u,u,u]
	paddb	%xmm2, %xmm5
	movdqa	l_CPI0_11(%rip), %xmm6          # xmm6 = [6,6,6,6,6,6,6,6,u,u,u,u,u,u,u,u]
	pmaxub	%xmm5, %xmm6
	pcmpeqb	%xmm5, %xmm6
	pxor	%xmm4, %xmm6
	por	%xmm3, %xmm6
	pandn	%xmm6, %xmm1
	paddb	l_CPI0_12(%rip), %xmm2
	movdqa	l_CPI0_13(%rip), %xmm3          # xmm3 = [10,10,10,10,10,10,10,10,u,u,u,u,u,u,u,u]
	pmaxub	%xmm2, %xmm3
	pcmpeqb	%xmm2, %xmm3
	pxor	%xmm4, %xmm3
	por	%xmm1, %xmm3
	punpcklbw	%xmm3, %xmm1            # xmm1 = xmm1[0],xmm3[0],xmm1[1],xmm3[1],xmm1[2],xmm3[2],xmm1[3],xmm3[3],xmm1[4],xmm3[4],xmm1[5],xmm3[5],xmm1[6],xmm3[6],xmm1[7],xmm3[7]
	psraw	$8, %xmm1
	pand	%xmm1, %xmm0
	addq	$8, %rsi
	cmpq	%rsi, %rax
	jne	LBB0_83
# %bb.84:                               # %vec.epilog.middle.block118
	psllw	$7, %xmm0
	pmovmskb	%xmm0, %edx
	notl	%edx
	testl	$21845, %edx                    # imm = 0x5555
	sete	%dl
	jmp	LBB0_318
LBB0_319:                              # %join.5.i.i12.i.i
	movzbl	(%r12,%rax), %edi
	cmpb	$48, %dil
	jb	LBB0_323
# %bb.320:                              # %join.6.i.i.i18.i.i
	movb	$1, %sil
	cmpb	$58, %dil
	jb	LBB0_324
# %bb.321:                              # %join.9.i.i.i20.i.i
	cmpb	$65, %dil
	jb	LBB0_323
# %bb.322:                              # %join.12.i.i.i22.i.i
	cmpb	$71, %dil
	setb	%r8b
	addb	$-97, %dil
	cmpb	$6, %dil
	setb	%dil
	orb	%r8b, %dil
	jne	LBB0_324
LBB0_323:                              # %after.2.i.i.i26.i.i
	xorl	%esi, %esi
LBB0_324:                              # %"aes_kat::operands::is_digit.exit.i.i27.i.i"
	andb	%sil, %dl
	incq	%rax
LBB0_318:                              # %vec.epilog.middle.block118
	cmpq	%rax, %rbp
	jne	LBB0_319
LBB0_124:                              # %"aes_kat::operands::is_hex.exit32.i.i"
	testb	$1, %dl
	je	LBB0_85
LBB0_125:                              # %after.5.i.i
	pxor	%xmm0, %xmm0
	movdqa	%xmm0, 576(%rsp)
	movdqa	%xmm0, 560(%rsp)
	movdqa	%xmm0, 544(%rsp)
	movdqa	%xmm0, 80(%rsp)
	movdqa	%xmm0, 528(%rsp)
	movq	$0, 120(%rsp)
	movq	$0, 127(%rsp)
	movq	$0, 512(%rsp)
	movq	$0, 519(%rsp)
	movq	$0, 496(%rsp)
	movq	$0, 503(%rsp)
	movzbl	%cl, %eax
	leaq	l_JTI0_4(%rip), %rcx
	movslq	(%rcx,%rax,4), %rax
	addq	%rcx, %rax
	jmpq	*%rax
LBB0_126:                              # %arm.1.i43.i.i
	movdqa	%xmm0, 608(%rsp)
	movdqa	%xmm0, 624(%rsp)
	movw	$0, 640(%rsp)
	movdqa	%xmm0, 3200(%rsp)
	leaq	608(%rsp), %rdi
	movq	%r9, %rsi
	movq	%r14, %rdx
	callq	"aes_kat::operands::key_operand"
	movzbl	609(%rsp), %ebx
	movb	$1, %r13b
	cmpb	$0, 608(%rsp)
	jne	LBB0_198
# %bb.127:                              # %arm.1.i.i45.i.i
	movb	%bl, 240(%rsp)
	movdqu	610(%rsp), %xmm0
	movdqu	626(%rsp), %xmm1
	movdqu	%xmm0, 241(%rsp)
	movdqu	%xmm1, 257(%rsp)
	leaq	3376(%rsp), %r15
	movl	$1024, %edx                     # imm = 0x400
	movq	%r15, %rdi
	xorl	%esi, %esi
	callq	_memset
	leaq	3200(%rsp), %rdi
	movq	%r12, %rsi
	movq	%rbp, %rdx
	movq	%r15, %rcx
	callq	"aes_kat::operands::blocks_operand"
	cmpb	$0, 3200(%rsp)
	jne	LBB0_197
# %bb.128:                              # %arm.7.i.i.i.i
	movzbl	%bl, %eax
	leaq	241(%rsp), %rsi
	movq	3208(%rsp), %r13
	movq	%r13, %r14
	andq	$-8, %r14
	cmpl	$2, %eax
	movq	48(%rsp), %rbp                  # 8-byte Reload
	pxor	%xmm0, %xmm0
	je	LBB0_286
# %bb.129:                              # %arm.7.i.i.i.i
	cmpl	$1, %eax
	jne	LBB0_296
# %bb.130:                              # %arm.2.i.i.i50.i.i
	movdqu	%xmm0, 1312(%rsp)
	movdqu	%xmm0, 1296(%rsp)
	movdqu	%xmm0, 1280(%rsp)
	movdqu	%xmm0, 1264(%rsp)
	movdqu	%xmm0, 1248(%rsp)
	movdqu	%xmm0, 1232(%rsp)
	movdqu	%xmm0, 1216(%rsp)
	movdqu	%xmm0, 1200(%rsp)
	movdqu	%xmm0, 1184(%rsp)
	movdqu	%xmm0, 1168(%rsp)
	movdqu	%xmm0, 1152(%rsp)
	movdqu	%xmm0, 1136(%rsp)
	movdqu	%xmm0, 1120(%rsp)
	movdqu	%xmm0, 1104(%rsp)
	leaq	1088(%rsp), %rbx
	movq	%rbx, %rdi
	callq	"aes::fixsliced::FixslicedCountsLayers::expand_counted::<#123648e35348170c>"
	leaq	848(%rsp), %rdi
	movl	$240, %edx
	movq	%rbx, %rsi
	callq	_memcpy
	leaq	1088(%rsp), %rdi
	movl	$1920, %edx                     # imm = 0x780
	xorl	%esi, %esi
	callq	_memset
	testq	%r14, %r14
	je	LBB0_134
# %bb.131:                              # %join.5.i.i.i7.i.i.i.i.i.preheader
	xorl	%eax, %eax
LBB0_132:                              # %join.5.i.i.i7.i.i.i.i.i
                                        # =>This Inner Loop Header: Depth=1
	movzwl	848(%rsp,%rax), %ecx
	movd	%ecx, %xmm0
	movdqa	%xmm0, %xmm1
	punpcklbw	%xmm0, %xmm1            # xmm1 = xmm1[0],xmm0[0],xmm1[1],xmm0[1],xmm1[2],xmm0[2],xmm1[3],xmm0[3],xmm1[4],xmm0[4],xmm1[5],xmm0[5],xmm1[6],xmm0[6],xmm1[7],xmm0[7]
	pshuflw	$0, %xmm1, %xmm1                # xmm1 = xmm1[0,0,0,0,4,5,6,7]
	psrld	$8, %xmm0
	punpcklbw	%xmm0, %xmm0            # xmm0 = xmm0[0,0,1,1,2,2,3,3,4,4,5,5,6,6,7,7]
	pshuflw	$0, %xmm0, %xmm0                # xmm0 = xmm0[0,0,0,0,4,5,6,7]
	punpcklqdq	%xmm0, %xmm1            # xmm1 = xmm1[0],xmm0[0]
	movdqa	l_CPI0_24(%rip), %xmm0          # xmm0 = [1,2,4,8,16,32,64,128,1,2,4,8,16,32,64,128]
	pand	%xmm0, %xmm1
	pcmpeqb	%xmm0, %xmm1
	movdqa	%xmm1, 1088(%rsp,%rax,8)
	addq	$2, %rax
	cmpq	$208, %rax
	jne	LBB0_132
# %bb.133:                              # %"aes_soft::soft::full::widening::store_widened::<#ac91400744c51dd4>.exit.i.i29.i.i.i.i.i"
	leaq	1088(%rsp), %rbx
	leaq	3376(%rsp), %rdx
	movl	$104, %esi
	movq	%rbx, %rdi
	movq	%r14, %rcx
	callq	"aes_soft::soft::blocks::slices::process_batches_outlined::<#6c9505ca656cc68d>"
	movq	%rbx, %rdi
	callq	"aes_cipher::zeroize::elements::zeroize_elements::<#c76276a60742133e>"
LBB0_134:                              # %"aes_kat::keys::encrypt_sized::<#123648e35348170c>.exit.i.i.i.i.i"
	movl	%r13d, %ecx
	andl	$7, %ecx
	shlq	$4, %r14
	leaq	(%rsp,%r14), %rdx
	addq	$3376, %rdx                     # imm = 0xD30
	leaq	848(%rsp), %rbx
	movl	$104, %esi
	jmp	LBB0_301
LBB0_85:
	leaq	l_static.14(%rip), %r13
	movl	$9, %r12d
LBB0_86:                               # %"aes_kat::faults::Fault::message.exit.i"
	leaq	4408(%rsp), %rdi
	movq	%r13, %rsi
	movq	%r12, %rdx
	callq	_memcpy
	movb	$1, %bl
	movq	48(%rsp), %rbp                  # 8-byte Reload
LBB0_87:                               # %"aes_kat::replies::reply.exit"
	movq	8(%rbp), %rax
	movq	16(%rbp), %r14
	movq	%r14, %rcx
	subq	%rax, %rcx
	cmpq	%rcx, %r12
	ja	LBB0_112
LBB0_88:                               # %join.3.i
	leaq	(%rax,%r12), %r15
	movq	(%rbp), %r13
	leaq	(%rax,%r13), %rdi
	movq	%rdi, %rcx
	leaq	4408(%rsp), %rdx
	subq	%rdx, %rcx
	cmpq	%r12, %rcx
	jae	LBB0_91
# %bb.89:                               # %iter.check126
	cmpq	$4, %r12
	jb	LBB0_90
# %bb.92:                               # %vector.memcheck
	cmpq	$32, %rcx
	jae	LBB0_94
LBB0_90:
	xorl	%ecx, %ecx
LBB0_103:                              # %join.7.i.i.i.preheader
	movq	%r12, %rsi
	movq	%rcx, %rdx
	andq	$3, %rsi
	je	LBB0_106
# %bb.104:                              # %join.7.i.i.i.prol.preheader
	movq	%rcx, %rdx
	.p2align	4
LBB0_105:                              # %join.7.i.i.i.prol
                                        # =>This Inner Loop Header: Depth=1
	movzbl	4408(%rsp,%rdx), %r8d
	movb	%r8b, (%rdi,%rdx)
	incq	%rdx
	decq	%rsi
	jne	LBB0_105
LBB0_106:                              # %join.7.i.i.i.prol.loopexit
	subq	%r12, %rcx
	cmpq	$-4, %rcx
	ja	LBB0_109
# %bb.107:                              # %join.7.i.i.i.preheader210
	addq	%r13, %rax
	addq	$3, %rax
	.p2align	4
LBB0_108:                              # %join.7.i.i.i
                                        # =>This Inner Loop Header: Depth=1
	movzbl	4408(%rsp,%rdx), %ecx
	movb	%cl, -3(%rax,%rdx)
	movzbl	4409(%rsp,%rdx), %ecx
	movb	%cl, -2(%rax,%rdx)
	movzbl	4410(%rsp,%rdx), %ecx
	movb	%cl, -1(%rax,%rdx)
	movzbl	4411(%rsp,%rdx), %ecx
	movb	%cl, (%rax,%rdx)
	addq	$4, %rdx
	cmpq	%rdx, %r12
	jne	LBB0_108
	jmp	LBB0_109
LBB0_91:                               # %apart.2.i.i.i
	leaq	4408(%rsp), %rsi
	movq	%r12, %rdx
	callq	_memmove
LBB0_109:                              # %arm.1
	movq	%r13, (%rbp)
	movq	%r15, 8(%rbp)
	movq	%r14, 16(%rbp)
	cmpq	%r15, %r14
	je	LBB0_114
LBB0_110:                              # %join.3.i9
	movb	$10, (%r13,%r15)
	incq	%r15
	movq	%r13, (%rbp)
	movq	%r15, 8(%rbp)
	movq	%r14, 16(%rbp)
	xorl	%eax, %eax
LBB0_111:                              # %return.5
                                        # kill: def $al killed $al killed $eax
	movl	%ebx, %edx
	addq	$6456, %rsp                     # imm = 0x1938
	popq	%rbx
	popq	%r12
	popq	%r13
	popq	%r14
	popq	%r15
	popq	%rbp
	retq
LBB0_94:                               # %vector.main.loop.iter.check128
	cmpq	$32, %r12
	jae	LBB0_96
# %bb.95:
	xorl	%ecx, %ecx
	jmp	LBB0_100
LBB0_96:                               # %vector.ph129
	movq	%r12, %rcx
	andq	$-32, %rcx
	leaq	(%rax,%r13), %rdx
	addq	$16, %rdx
	xorl	%esi, %esi
	.p2align	4
LBB0_97:                               # %vector.body132
                                        # =>This Inner Loop Header: Depth=1
	movdqu	4408(%rsp,%rsi), %xmm0
	movdqu	4424(%rsp,%rsi), %xmm1
	movdqu	%xmm0, -16(%rdx,%rsi)
	movdqu	%xmm1, (%rdx,%rsi)
	addq	$32, %rsi
	cmpq	%rsi, %rcx
	jne	LBB0_97
# %bb.98:                               # %middle.block137
	cmpq	%rcx, %r12
	je	LBB0_109
# %bb.99:                               # %vec.epilog.iter.check141
	testb	$28, %r12b
	je	LBB0_103
LBB0_100:                              # %vec.epilog.ph143
	movq	%rcx, %rdx
	movq	%r12, %rcx
	andq	$-4, %rcx
	.p2align	4
LBB0_101:                              # %vec.epilog.vector.body146
                                        # =>This Inner Loop Header: Depth=1
	movl	4408(%rsp,%rdx), %esi
	movl	%esi, (%rdi,%rdx)
	addq	$4, %rdx
	cmpq	%rdx, %rcx
	jne	LBB0_101
# %bb.102:                              # %vec.epilog.middle.block150
	cmpq	%rcx, %r12
	je	LBB0_109
	jmp	LBB0_103
LBB0_112:                              # %"std_alloc::vec::Vec::grow::<#b2ae9ec5f5f36c9c>.exit.i"
	movq	%rbp, %rdi
	movq	%r12, %rsi
	callq	"std_alloc::vec::Vec::grow_amortized::<#b2ae9ec5f5f36c9c>"
	testb	%al, %al
	je	LBB0_116
# %bb.113:                              # %"std_alloc::vec::Vec::grow::<#b2ae9ec5f5f36c9c>.exit.join.3_crit_edge.i"
	movq	8(%rbp), %rax
	movq	16(%rbp), %r14
	jmp	LBB0_88
LBB0_114:                              # %"std_alloc::vec::Vec::grow::<#b2ae9ec5f5f36c9c>.exit.i28"
	movl	$1, %esi
	movq	%rbp, %rdi
	callq	"std_alloc::vec::Vec::grow_amortized::<#b2ae9ec5f5f36c9c>"
	testb	%al, %al
	je	LBB0_116
# %bb.115:                              # %"std_alloc::vec::Vec::grow::<#b2ae9ec5f5f36c9c>.exit.join.3_crit_edge.i30"
	movq	(%rbp), %r13
	movq	8(%rbp), %r15
	movq	16(%rbp), %r14
	jmp	LBB0_110
LBB0_116:
	movb	$1, %al
	xorl	%ebx, %ebx
	jmp	LBB0_111
LBB0_135:                              # %arm.5.i.i.i
	movq	%r14, %rax
	andq	$-2, %rax
	cmpq	$32, %rax
	jne	LBB0_262
# %bb.136:                              # %join.3.i299.i.i.i
	movdqa	%xmm0, 1088(%rsp)
	cmpq	$32, %r14
	jne	LBB0_317
# %bb.137:                              # %join.11.i.i.i.i302.i.i.i.preheader
	xorl	%eax, %eax
	jmp	LBB0_140
LBB0_138:                              # %then.6.i29.i.i.i.i.i347.i.i.i
                                        #   in Loop: Header=BB0_140 Depth=1
	addb	$-48, %dl
LBB0_139:                              # %arm.12.i.i.i.i333.i.i.i
                                        #   in Loop: Header=BB0_140 Depth=1
	shlb	$4, %cl
	addb	%dl, %cl
	movb	%cl, 1088(%rsp,%rax)
	incq	%rax
	cmpq	$16, %rax
	je	LBB0_221
LBB0_140:                              # %join.11.i.i.i.i302.i.i.i
                                        # =>This Inner Loop Header: Depth=1
	movzbl	(%r9,%rax,2), %ecx
	cmpb	$48, %cl
	jb	LBB0_317
# %bb.141:                              # %join.5.i.i.i.i.i.i310.i.i.i
                                        #   in Loop: Header=BB0_140 Depth=1
	movzbl	1(%r9,%rax,2), %edx
	cmpb	$57, %cl
	ja	LBB0_143
# %bb.142:                              # %then.6.i.i.i.i.i.i351.i.i.i
                                        #   in Loop: Header=BB0_140 Depth=1
	addb	$-48, %cl
	jmp	LBB0_148
LBB0_143:                              # %join.8.i.i.i.i.i.i312.i.i.i
                                        #   in Loop: Header=BB0_140 Depth=1
	cmpb	$65, %cl
	jb	LBB0_317
# %bb.144:                              # %join.11.i.i.i.i.i.i314.i.i.i
                                        #   in Loop: Header=BB0_140 Depth=1
	cmpb	$70, %cl
	ja	LBB0_146
# %bb.145:                              # %then.12.i.i.i.i.i.i349.i.i.i
                                        #   in Loop: Header=BB0_140 Depth=1
	addb	$-55, %cl
	jmp	LBB0_148
LBB0_146:                              # %join.14.i.i.i.i.i.i316.i.i.i
                                        #   in Loop: Header=BB0_140 Depth=1
	leal	-97(%rcx), %esi
	cmpb	$5, %sil
	ja	LBB0_317
# %bb.147:                              # %then.18.i.i.i.i.i.i318.i.i.i
                                        #   in Loop: Header=BB0_140 Depth=1
	addb	$-87, %cl
LBB0_148:                              # %arm.1.i.i.i.i.i320.i.i.i
                                        #   in Loop: Header=BB0_140 Depth=1
	cmpb	$48, %dl
	jb	LBB0_317
# %bb.149:                              # %join.5.i7.i.i.i.i.i323.i.i.i
                                        #   in Loop: Header=BB0_140 Depth=1
	cmpb	$57, %dl
	jbe	LBB0_138
# %bb.150:                              # %join.8.i9.i.i.i.i.i325.i.i.i
                                        #   in Loop: Header=BB0_140 Depth=1
	cmpb	$65, %dl
	jb	LBB0_317
# %bb.151:                              # %join.11.i11.i.i.i.i.i327.i.i.i
                                        #   in Loop: Header=BB0_140 Depth=1
	cmpb	$70, %dl
	ja	LBB0_153
# %bb.152:                              # %then.12.i27.i.i.i.i.i345.i.i.i
                                        #   in Loop: Header=BB0_140 Depth=1
	addb	$-55, %dl
	jmp	LBB0_139
LBB0_153:                              # %join.14.i13.i.i.i.i.i329.i.i.i
                                        #   in Loop: Header=BB0_140 Depth=1
	leal	-97(%rdx), %esi
	cmpb	$5, %sil
	ja	LBB0_317
# %bb.154:                              # %then.18.i25.i.i.i.i.i331.i.i.i
                                        #   in Loop: Header=BB0_140 Depth=1
	addb	$-87, %dl
	jmp	LBB0_139
LBB0_155:                              # %arm.3.i.i.i
	movq	%r14, %rax
	andq	$-2, %rax
	cmpq	$32, %rax
	jne	LBB0_262
# %bb.156:                              # %join.3.i.i.i.i
	movdqa	%xmm0, 1088(%rsp)
	cmpq	$32, %r14
	jne	LBB0_317
# %bb.157:                              # %join.11.i.i.i.i.i.i.i.preheader
	xorl	%eax, %eax
	jmp	LBB0_160
LBB0_158:                              # %then.6.i29.i.i.i.i.i.i.i.i
                                        #   in Loop: Header=BB0_160 Depth=1
	addb	$-48, %dl
LBB0_159:                              # %arm.12.i.i.i.i.i.i.i
                                        #   in Loop: Header=BB0_160 Depth=1
	shlb	$4, %cl
	addb	%dl, %cl
	movb	%cl, 1088(%rsp,%rax)
	incq	%rax
	cmpq	$16, %rax
	je	LBB0_222
LBB0_160:                              # %join.11.i.i.i.i.i.i.i
                                        # =>This Inner Loop Header: Depth=1
	movzbl	(%r9,%rax,2), %ecx
	cmpb	$48, %cl
	jb	LBB0_317
# %bb.161:                              # %join.5.i.i.i.i.i.i58.i.i.i
                                        #   in Loop: Header=BB0_160 Depth=1
	movzbl	1(%r9,%rax,2), %edx
	cmpb	$57, %cl
	ja	LBB0_163
# %bb.162:                              # %then.6.i.i.i.i.i.i.i.i.i
                                        #   in Loop: Header=BB0_160 Depth=1
	addb	$-48, %cl
	jmp	LBB0_168
LBB0_163:                              # %join.8.i.i.i.i.i.i.i.i.i
                                        #   in Loop: Header=BB0_160 Depth=1
	cmpb	$65, %cl
	jb	LBB0_317
# %bb.164:                              # %join.11.i.i.i.i.i.i.i.i.i
                                        #   in Loop: Header=BB0_160 Depth=1
	cmpb	$70, %cl
	ja	LBB0_166
# %bb.165:                              # %then.12.i.i.i.i.i.i.i.i.i
                                        #   in Loop: Header=BB0_160 Depth=1
	addb	$-55, %cl
	jmp	LBB0_168
LBB0_166:                              # %join.14.i.i.i.i.i.i.i.i.i
                                        #   in Loop: Header=BB0_160 Depth=1
	leal	-97(%rcx), %esi
	cmpb	$5, %sil
	ja	LBB0_317
# %bb.167:                              # %then.18.i.i.i.i.i.i.i.i.i
                                        #   in Loop: Header=BB0_160 Depth=1
	addb	$-87, %cl
LBB0_168:                              # %arm.1.i.i.i.i.i.i.i.i
                                        #   in Loop: Header=BB0_160 Depth=1
	cmpb	$48, %dl
	jb	LBB0_317
# %bb.169:                              # %join.5.i7.i.i.i.i.i.i.i.i
                                        #   in Loop: Header=BB0_160 Depth=1
	cmpb	$57, %dl
	jbe	LBB0_158
# %bb.170:                              # %join.8.i9.i.i.i.i.i.i.i.i
                                        #   in Loop: Header=BB0_160 Depth=1
	cmpb	$65, %dl
	jb	LBB0_317
# %bb.171:                              # %join.11.i11.i.i.i.i.i.i.i.i
                                        #   in Loop: Header=BB0_160 Depth=1
	cmpb	$70, %dl
	ja	LBB0_173
# %bb.172:                              # %then.12.i27.i.i.i.i.i.i.i.i
                                        #   in Loop: Header=BB0_160 Depth=1
	addb	$-55, %dl
	jmp	LBB0_159
LBB0_173:                              # %join.14.i13.i.i.i.i.i.i.i.i
                                        #   in Loop: Header=BB0_160 Depth=1
	leal	-97(%rdx), %esi
	cmpb	$5, %sil
	ja	LBB0_317
# %bb.174:                              # %then.18.i25.i.i.i.i.i.i.i.i
                                        #   in Loop: Header=BB0_160 Depth=1
	addb	$-87, %dl
	jmp	LBB0_159
LBB0_175:                              # %arm.4.i.i.i
	movq	%r14, %rax
	andq	$-2, %rax
	cmpq	$32, %rax
	jne	LBB0_262
# %bb.176:                              # %join.3.i145.i.i.i
	movdqa	%xmm0, 1088(%rsp)
	cmpq	$32, %r14
	jne	LBB0_317
# %bb.177:                              # %join.11.i.i.i.i148.i.i.i.preheader
	xorl	%eax, %eax
	jmp	LBB0_180
LBB0_178:                              # %then.6.i29.i.i.i.i.i193.i.i.i
                                        #   in Loop: Header=BB0_180 Depth=1
	addb	$-48, %dl
LBB0_179:                              # %arm.12.i.i.i.i179.i.i.i
                                        #   in Loop: Header=BB0_180 Depth=1
	shlb	$4, %cl
	addb	%dl, %cl
	movb	%cl, 1088(%rsp,%rax)
	incq	%rax
	cmpq	$16, %rax
	je	LBB0_242
LBB0_180:                              # %join.11.i.i.i.i148.i.i.i
                                        # =>This Inner Loop Header: Depth=1
	movzbl	(%r9,%rax,2), %ecx
	cmpb	$48, %cl
	jb	LBB0_317
# %bb.181:                              # %join.5.i.i.i.i.i.i156.i.i.i
                                        #   in Loop: Header=BB0_180 Depth=1
	movzbl	1(%r9,%rax,2), %edx
	cmpb	$57, %cl
	ja	LBB0_183
# %bb.182:                              # %then.6.i.i.i.i.i.i197.i.i.i
                                        #   in Loop: Header=BB0_180 Depth=1
	addb	$-48, %cl
	jmp	LBB0_188
LBB0_183:                              # %join.8.i.i.i.i.i.i158.i.i.i
                                        #   in Loop: Header=BB0_180 Depth=1
	cmpb	$65, %cl
	jb	LBB0_317
# %bb.184:                              # %join.11.i.i.i.i.i.i160.i.i.i
                                        #   in Loop: Header=BB0_180 Depth=1
	cmpb	$70, %cl
	ja	LBB0_186
# %bb.185:                              # %then.12.i.i.i.i.i.i195.i.i.i
                                        #   in Loop: Header=BB0_180 Depth=1
	addb	$-55, %cl
	jmp	LBB0_188
LBB0_186:                              # %join.14.i.i.i.i.i.i162.i.i.i
                                        #   in Loop: Header=BB0_180 Depth=1
	leal	-97(%rcx), %esi
	cmpb	$5, %sil
	ja	LBB0_317
# %bb.187:                              # %then.18.i.i.i.i.i.i164.i.i.i
                                        #   in Loop: Header=BB0_180 Depth=1
	addb	$-87, %cl
LBB0_188:                              # %arm.1.i.i.i.i.i166.i.i.i
                                        #   in Loop: Header=BB0_180 Depth=1
	cmpb	$48, %dl
	jb	LBB0_317
# %bb.189:                              # %join.5.i7.i.i.i.i.i169.i.i.i
                                        #   in Loop: Header=BB0_180 Depth=1
	cmpb	$57, %dl
	jbe	LBB0_178
# %bb.190:                              # %join.8.i9.i.i.i.i.i171.i.i.i
                                        #   in Loop: Header=BB0_180 Depth=1
	cmpb	$65, %dl
	jb	LBB0_317
# %bb.191:                              # %join.11.i11.i.i.i.i.i173.i.i.i
                                        #   in Loop: Header=BB0_180 Depth=1
	cmpb	$70, %dl
	ja	LBB0_193
# %bb.192:                              # %then.12.i27.i.i.i.i.i191.i.i.i
                                        #   in Loop: Header=BB0_180 Depth=1
	addb	$-55, %dl
	jmp	LBB0_179
LBB0_193:                              # %join.14.i13.i.i.i.i.i175.i.i.i
                                        #   in Loop: Header=BB0_180 Depth=1
	leal	-97(%rdx), %esi
	cmpb	$5, %sil
	ja	LBB0_317
# %bb.194:                              # %then.18.i25.i.i.i.i.i177.i.i.i
                                        #   in Loop: Header=BB0_180 Depth=1
	addb	$-87, %dl
	jmp	LBB0_179
LBB0_195:                              # %arm.2.i.i.i
	movdqa	%xmm0, 608(%rsp)
	movdqa	%xmm0, 624(%rsp)
	movw	$0, 640(%rsp)
	movdqa	%xmm0, 3200(%rsp)
	leaq	608(%rsp), %rdi
	movq	%r9, %rsi
	movq	%r14, %rdx
	callq	"aes_kat::operands::key_operand"
	movzbl	609(%rsp), %ebx
	movb	$1, %r13b
	cmpb	$0, 608(%rsp)
	jne	LBB0_198
# %bb.196:                              # %arm.1.i22.i.i.i
	movb	%bl, 240(%rsp)
	movdqu	610(%rsp), %xmm0
	movdqu	626(%rsp), %xmm1
	movdqu	%xmm0, 241(%rsp)
	movdqu	%xmm1, 257(%rsp)
	leaq	3376(%rsp), %r15
	movl	$1024, %edx                     # imm = 0x400
	movq	%r15, %rdi
	xorl	%esi, %esi
	callq	_memset
	leaq	3200(%rsp), %rdi
	movq	%r12, %rsi
	movq	%rbp, %rdx
	movq	%r15, %rcx
	callq	"aes_kat::operands::blocks_operand"
	cmpb	$0, 3200(%rsp)
	je	LBB0_271
LBB0_197:                              # %arm.8.i.i.i.i
	movzbl	3201(%rsp), %ebx
LBB0_198:                              # %"aes_kat::replies::answer_enc.exit.i.i.i"
	xorl	%r12d, %r12d
	movq	48(%rsp), %rbp                  # 8-byte Reload
	jmp	LBB0_314
LBB0_199:                              # %arm.6.i.i.i
	movq	%r14, %rax
	andq	$-2, %rax
	cmpq	$32, %rax
	jne	LBB0_262
# %bb.200:                              # %join.3.i446.i.i.i
	movdqa	%xmm0, 1088(%rsp)
	cmpq	$32, %r14
	movq	48(%rsp), %rbp                  # 8-byte Reload
	jne	LBB0_317
# %bb.201:                              # %join.11.i.i.i.i449.i.i.i.preheader
	xorl	%eax, %eax
	jmp	LBB0_204
LBB0_202:                              # %then.6.i29.i.i.i.i.i494.i.i.i
                                        #   in Loop: Header=BB0_204 Depth=1
	addb	$-48, %dl
LBB0_203:                              # %arm.12.i.i.i.i480.i.i.i
                                        #   in Loop: Header=BB0_204 Depth=1
	shlb	$4, %cl
	addb	%dl, %cl
	movb	%cl, 1088(%rsp,%rax)
	incq	%rax
	cmpq	$16, %rax
	je	LBB0_263
LBB0_204:                              # %join.11.i.i.i.i449.i.i.i
                                        # =>This Inner Loop Header: Depth=1
	movzbl	(%r9,%rax,2), %ecx
	cmpb	$48, %cl
	jb	LBB0_317
# %bb.205:                              # %join.5.i.i.i.i.i.i457.i.i.i
                                        #   in Loop: Header=BB0_204 Depth=1
	movzbl	1(%r9,%rax,2), %edx
	cmpb	$57, %cl
	ja	LBB0_207
# %bb.206:                              # %then.6.i.i.i.i.i.i498.i.i.i
                                        #   in Loop: Header=BB0_204 Depth=1
	addb	$-48, %cl
	jmp	LBB0_212
LBB0_207:                              # %join.8.i.i.i.i.i.i459.i.i.i
                                        #   in Loop: Header=BB0_204 Depth=1
	cmpb	$65, %cl
	jb	LBB0_317
# %bb.208:                              # %join.11.i.i.i.i.i.i461.i.i.i
                                        #   in Loop: Header=BB0_204 Depth=1
	cmpb	$70, %cl
	ja	LBB0_210
# %bb.209:                              # %then.12.i.i.i.i.i.i496.i.i.i
                                        #   in Loop: Header=BB0_204 Depth=1
	addb	$-55, %cl
	jmp	LBB0_212
LBB0_210:                              # %join.14.i.i.i.i.i.i463.i.i.i
                                        #   in Loop: Header=BB0_204 Depth=1
	leal	-97(%rcx), %esi
	cmpb	$5, %sil
	ja	LBB0_317
# %bb.211:                              # %then.18.i.i.i.i.i.i465.i.i.i
                                        #   in Loop: Header=BB0_204 Depth=1
	addb	$-87, %cl
LBB0_212:                              # %arm.1.i.i.i.i.i467.i.i.i
                                        #   in Loop: Header=BB0_204 Depth=1
	cmpb	$48, %dl
	jb	LBB0_317
# %bb.213:                              # %join.5.i7.i.i.i.i.i470.i.i.i
                                        #   in Loop: Header=BB0_204 Depth=1
	cmpb	$57, %dl
	jbe	LBB0_202
# %bb.214:                              # %join.8.i9.i.i.i.i.i472.i.i.i
                                        #   in Loop: Header=BB0_204 Depth=1
	cmpb	$65, %dl
	jb	LBB0_317
# %bb.215:                              # %join.11.i11.i.i.i.i.i474.i.i.i
                                        #   in Loop: Header=BB0_204 Depth=1
	cmpb	$70, %dl
	ja	LBB0_217
# %bb.216:                              # %then.12.i27.i.i.i.i.i492.i.i.i
                                        #   in Loop: Header=BB0_204 Depth=1
	addb	$-55, %dl
	jmp	LBB0_203
LBB0_217:                              # %join.14.i13.i.i.i.i.i476.i.i.i
                                        #   in Loop: Header=BB0_204 Depth=1
	leal	-97(%rdx), %esi
	cmpb	$5, %sil
	ja	LBB0_317
# %bb.218:                              # %then.18.i25.i.i.i.i.i478.i.i.i
                                        #   in Loop: Header=BB0_204 Depth=1
	addb	$-87, %dl
	jmp	LBB0_203
LBB0_219:                              # %arm.7.i35.i.i
	movdqa	%xmm0, 448(%rsp)
	movdqa	%xmm0, 464(%rsp)
	movw	$0, 480(%rsp)
	movdqa	%xmm0, 3200(%rsp)
	movdqa	%xmm0, 3216(%rsp)
	movdqa	%xmm0, 3232(%rsp)
	movdqa	%xmm0, 3248(%rsp)
	movdqa	%xmm0, 3264(%rsp)
	movdqa	%xmm0, 3280(%rsp)
	movdqa	%xmm0, 3296(%rsp)
	movdqa	%xmm0, 3312(%rsp)
	movdqa	%xmm0, 3328(%rsp)
	movdqa	%xmm0, 3344(%rsp)
	movdqa	%xmm0, 3360(%rsp)
	movdqa	%xmm0, 3024(%rsp)
	movdqa	%xmm0, 3040(%rsp)
	movdqa	%xmm0, 3056(%rsp)
	movdqa	%xmm0, 3072(%rsp)
	movdqa	%xmm0, 3088(%rsp)
	movdqa	%xmm0, 3104(%rsp)
	movdqa	%xmm0, 3120(%rsp)
	movdqa	%xmm0, 3136(%rsp)
	movdqa	%xmm0, 3152(%rsp)
	movdqa	%xmm0, 3168(%rsp)
	movdqa	%xmm0, 3184(%rsp)
	movdqa	%xmm0, 432(%rsp)
	movdqa	%xmm0, 416(%rsp)
	movdqa	%xmm0, 400(%rsp)
	movdqa	%xmm0, 384(%rsp)
	movdqa	%xmm0, 368(%rsp)
	movdqa	%xmm0, 352(%rsp)
	movdqa	%xmm0, 336(%rsp)
	movdqa	%xmm0, 320(%rsp)
	movdqa	%xmm0, 304(%rsp)
	movdqa	%xmm0, 288(%rsp)
	movdqa	%xmm0, 272(%rsp)
	movdqa	%xmm0, 256(%rsp)
	movdqa	%xmm0, 240(%rsp)
	movdqa	%xmm0, 848(%rsp)
	movdqa	%xmm0, 864(%rsp)
	movdqa	%xmm0, 880(%rsp)
	movdqa	%xmm0, 896(%rsp)
	movdqa	%xmm0, 912(%rsp)
	movdqa	%xmm0, 928(%rsp)
	movdqa	%xmm0, 944(%rsp)
	movdqa	%xmm0, 960(%rsp)
	movdqa	%xmm0, 976(%rsp)
	movdqa	%xmm0, 992(%rsp)
	movdqa	%xmm0, 1008(%rsp)
	movdqa	%xmm0, 1024(%rsp)
	movdqa	%xmm0, 1040(%rsp)
	movdqa	%xmm0, 1056(%rsp)
	movdqa	%xmm0, 1072(%rsp)
	movdqa	%xmm0, 832(%rsp)
	movdqa	%xmm0, 816(%rsp)
	movdqa	%xmm0, 800(%rsp)
	movdqa	%xmm0, 784(%rsp)
	movdqa	%xmm0, 768(%rsp)
	movdqa	%xmm0, 752(%rsp)
	movdqa	%xmm0, 736(%rsp)
	movdqa	%xmm0, 720(%rsp)
	movdqa	%xmm0, 704(%rsp)
	movdqa	%xmm0, 688(%rsp)
	movdqa	%xmm0, 672(%rsp)
	movdqa	%xmm0, 656(%rsp)
	movdqa	%xmm0, 640(%rsp)
	movdqa	%xmm0, 624(%rsp)
	movdqa	%xmm0, 608(%rsp)
	leaq	448(%rsp), %rdi
	movq	%r9, %rsi
	movq	%r14, %rdx
	callq	"aes_kat::operands::key_operand"
	movzbl	449(%rsp), %ebx
	cmpb	$0, 448(%rsp)
	je	LBB0_264
# %bb.220:
	movb	$1, %r13b
	xorl	%r12d, %r12d
	movq	48(%rsp), %rbp                  # 8-byte Reload
	jmp	LBB0_314
LBB0_221:                              # %arm.22.i.i.i
	movzbl	1088(%rsp), %eax
	movq	1089(%rsp), %rcx
	movq	1096(%rsp), %rdx
	movq	%rcx, 512(%rsp)
	movq	%rdx, 519(%rsp)
	movq	512(%rsp), %rcx
	movq	519(%rsp), %rdx
	movq	%rcx, 81(%rsp)
	movq	%rdx, 88(%rsp)
	movzwl	82(%rsp), %edx
	movd	%edx, %xmm0
	movd	84(%rsp), %xmm1                 # xmm1 = mem[0],zero,zero,zero
	movq	88(%rsp), %xmm2                 # xmm2 = mem[0],zero
	shll	$8, %ecx
	orl	%eax, %ecx
	movd	%ecx, %xmm3
	punpcklwd	%xmm0, %xmm3            # xmm3 = xmm3[0],xmm0[0],xmm3[1],xmm0[1],xmm3[2],xmm0[2],xmm3[3],xmm0[3]
	punpckldq	%xmm1, %xmm3            # xmm3 = xmm3[0],xmm1[0],xmm3[1],xmm1[1]
	pxor	%xmm0, %xmm0
	punpcklbw	%xmm0, %xmm2            # xmm2 = xmm2[0],xmm0[0],xmm2[1],xmm0[1],xmm2[2],xmm0[2],xmm2[3],xmm0[3],xmm2[4],xmm0[4],xmm2[5],xmm0[5],xmm2[6],xmm0[6],xmm2[7],xmm0[7]
	pshufd	$215, %xmm2, %xmm1              # xmm1 = xmm2[3,1,1,3]
	pshuflw	$36, %xmm1, %xmm1               # xmm1 = xmm1[0,1,2,0,4,5,6,7]
	pshufhw	$212, %xmm1, %xmm1              # xmm1 = xmm1[0,1,2,3,4,5,5,7]
	pshufd	$40, %xmm2, %xmm2               # xmm2 = xmm2[0,2,2,0]
	pshuflw	$132, %xmm2, %xmm2              # xmm2 = xmm2[0,1,0,2,4,5,6,7]
	pshufhw	$116, %xmm2, %xmm2              # xmm2 = xmm2[0,1,2,3,4,5,7,5]
	packuswb	%xmm1, %xmm2
	movdqa	l_CPI0_14(%rip), %xmm1          # xmm1 = [65535,0,65535,0,65535,0,65535,0]
	punpcklbw	%xmm0, %xmm3            # xmm3 = xmm3[0],xmm0[0],xmm3[1],xmm0[1],xmm3[2],xmm0[2],xmm3[3],xmm0[3],xmm3[4],xmm0[4],xmm3[5],xmm0[5],xmm3[6],xmm0[6],xmm3[7],xmm0[7]
	pshufd	$215, %xmm3, %xmm4              # xmm4 = xmm3[3,1,1,3]
	pshuflw	$226, %xmm4, %xmm4              # xmm4 = xmm4[2,0,2,3,4,5,6,7]
	pshufhw	$237, %xmm4, %xmm4              # xmm4 = xmm4[0,1,2,3,5,7,6,7]
	pshufd	$40, %xmm3, %xmm3               # xmm3 = xmm3[0,2,2,0]
	pshuflw	$232, %xmm3, %xmm3              # xmm3 = xmm3[0,2,2,3,4,5,6,7]
	pshufhw	$231, %xmm3, %xmm3              # xmm3 = xmm3[0,1,2,3,7,5,6,7]
	packuswb	%xmm4, %xmm3
	pand	%xmm1, %xmm3
	pandn	%xmm2, %xmm1
	por	%xmm3, %xmm1
	movdqa	%xmm1, %xmm2
	psllw	$7, %xmm2
	pmovmskb	%xmm2, %ebx
	movdqa	%xmm1, %xmm2
	psllw	$6, %xmm2
	pmovmskb	%xmm2, %eax
	movdqa	%xmm1, %xmm2
	psllw	$5, %xmm2
	pmovmskb	%xmm2, %edi
	movdqa	%xmm1, %xmm2
	psllw	$4, %xmm2
	pmovmskb	%xmm2, %ebp
	movdqa	%xmm1, %xmm2
	psllw	$3, %xmm2
	pmovmskb	%xmm2, %ecx
	movdqa	%xmm1, %xmm2
	psllw	$2, %xmm2
	movl	%ecx, %r9d
	rolw	$12, %r9w
	pmovmskb	%xmm2, %esi
	movl	%ebx, %r8d
	rolw	$12, %r8w
	pmovmskb	%xmm1, %edx
	movl	%ebp, %r10d
	rolw	$12, %r10w
	movl	%edx, %r11d
	rolw	$12, %r11w
	xorl	%r8d, %ebx
	xorl	%r9d, %ecx
	xorl	%r10d, %ebp
	xorl	%r11d, %edx
	xorl	%edx, %r9d
	xorl	%ebp, %r9d
                                        # kill: def $bp killed $bp killed $ebp def $ebp
	rolw	$8, %bp
	movl	%ecx, %r14d
	rolw	$8, %r14w
	xorl	%r14d, %r9d
	movl	%edx, %r14d
	xorl	%edx, %ebp
	xorl	%edx, %r8d
	xorl	%ebx, %edx
                                        # kill: def $bx killed $bx killed $ebx def $ebx
	rolw	$8, %bx
	xorl	%ebx, %r8d
	movl	%esi, %ebx
	rolw	$12, %bx
	xorl	%ebx, %esi
	xorl	%ebx, %ecx
	movl	%esi, %ebx
	rolw	$8, %bx
	xorl	%ebx, %ecx
	movl	%eax, %ebx
	rolw	$12, %bx
	paddb	%xmm1, %xmm1
	xorl	%ebx, %eax
	xorl	%ebx, %edx
	movl	%eax, %ebx
	rolw	$8, %bx
	xorl	%ebx, %edx
	pmovmskb	%xmm1, %ebx
	movd	%ebp, %xmm2
	movl	%ebx, %ebp
	rolw	$12, %bp
	rolw	$8, %r14w
	pinsrw	$1, %r14d, %xmm2
	movl	%edi, %r14d
	rolw	$12, %r14w
	xorl	%ebp, %ebx
	xorl	%r14d, %edi
	movd	%edi, %xmm1
	pinsrw	$1, %ebx, %xmm1
	xorl	%ebp, %esi
                                        # kill: def $bx killed $bx killed $ebx def $ebx
	rolw	$8, %bx
	xorl	%ebx, %esi
	movd	%r10d, %xmm3
	pinsrw	$1, %r11d, %xmm3
	xorl	%r14d, %eax
                                        # kill: def $di killed $di killed $edi def $edi
	rolw	$8, %di
	xorl	%edi, %eax
	movzwl	%r9w, %edi
	shll	$16, %ecx
	orl	%edi, %ecx
	movzwl	%r8w, %edi
	shll	$16, %edx
	orl	%edi, %edx
	pxor	%xmm3, %xmm1
	pxor	%xmm2, %xmm1
	movzwl	%si, %esi
	movzwl	%ax, %eax
	shlq	$32, %rsi
	orq	%rcx, %rsi
	shlq	$32, %rax
	orq	%rdx, %rax
	pshufd	$0, %xmm1, %xmm1                # xmm1 = xmm1[0,0,0,0]
	pshufhw	$85, %xmm1, %xmm1               # xmm1 = xmm1[0,1,2,3,5,5,5,5]
	psllq	$48, %xmm1
	movq	%rax, %xmm2
	movq	%rsi, %xmm3
	punpcklqdq	%xmm3, %xmm2            # xmm2 = xmm2[0],xmm3[0]
	por	%xmm1, %xmm2
	movdqa	%xmm2, %xmm3
	punpckhbw	%xmm0, %xmm3            # xmm3 = xmm3[8],xmm0[8],xmm3[9],xmm0[9],xmm3[10],xmm0[10],xmm3[11],xmm0[11],xmm3[12],xmm0[12],xmm3[13],xmm0[13],xmm3[14],xmm0[14],xmm3[15],xmm0[15]
	pslld	$16, %xmm3
	psrld	$16, %xmm3
	movdqa	%xmm2, %xmm1
	punpcklbw	%xmm0, %xmm1            # xmm1 = xmm1[0],xmm0[0],xmm1[1],xmm0[1],xmm1[2],xmm0[2],xmm1[3],xmm0[3],xmm1[4],xmm0[4],xmm1[5],xmm0[5],xmm1[6],xmm0[6],xmm1[7],xmm0[7]
	pslld	$16, %xmm1
	psrld	$16, %xmm1
	packssdw	%xmm3, %xmm1
	psrlw	$8, %xmm2
	packuswb	%xmm2, %xmm1
	movdqa	%xmm1, %xmm2
	psllw	$5, %xmm2
	pmovmskb	%xmm2, %eax
	movdqa	%xmm1, %xmm4
	movdqa	%xmm1, %xmm3
	movdqa	%xmm1, %xmm2
	movdqa	%xmm1, %xmm5
	psllw	$7, %xmm5
	pmovmskb	%xmm5, %ecx
	movdqa	%xmm1, %xmm5
	pmovmskb	%xmm1, %edx
	psllw	$6, %xmm1
	pmovmskb	%xmm1, %esi
	psllw	$4, %xmm4
	shll	$16, %esi
	orl	%ecx, %esi
	pmovmskb	%xmm4, %ecx
	psllw	$3, %xmm3
	shlq	$32, %rax
	orq	%rsi, %rax
	pmovmskb	%xmm3, %esi
	psllw	$2, %xmm2
	paddb	%xmm5, %xmm5
	shlq	$48, %rcx
	orq	%rax, %rcx
	shll	$16, %edx
	pmovmskb	%xmm5, %eax
	orl	%edx, %eax
	pmovmskb	%xmm2, %edx
	shll	$16, %edx
	orl	%esi, %edx
	shlq	$32, %rax
	orq	%rdx, %rax
	movq	%rax, %xmm1
	movq	%rcx, %xmm2
	movdqa	%xmm2, %xmm3
	punpcklqdq	%xmm1, %xmm3            # xmm3 = xmm3[0],xmm1[0]
	movdqa	%xmm3, 592(%rsp)
	movzbl	592(%rsp), %eax
	movzbl	599(%rsp), %ecx
	movzbl	607(%rsp), %edx
	movb	%al, 80(%rsp)
	movb	%sil, 81(%rsp)
	punpcklbw	%xmm0, %xmm1            # xmm1 = xmm1[0],xmm0[0],xmm1[1],xmm0[1],xmm1[2],xmm0[2],xmm1[3],xmm0[3],xmm1[4],xmm0[4],xmm1[5],xmm0[5],xmm1[6],xmm0[6],xmm1[7],xmm0[7]
	punpcklbw	%xmm0, %xmm2            # xmm2 = xmm2[0],xmm0[0],xmm2[1],xmm0[1],xmm2[2],xmm0[2],xmm2[3],xmm0[3],xmm2[4],xmm0[4],xmm2[5],xmm0[5],xmm2[6],xmm0[6],xmm2[7],xmm0[7]
	movdqa	%xmm2, %xmm0
	punpckhwd	%xmm1, %xmm2            # xmm2 = xmm2[4],xmm1[4],xmm2[5],xmm1[5],xmm2[6],xmm1[6],xmm2[7],xmm1[7]
	psrldq	$2, %xmm1                       # xmm1 = xmm1[2,3,4,5,6,7,8,9,10,11,12,13,14,15],zero,zero
	psrldq	$2, %xmm0                       # xmm0 = xmm0[2,3,4,5,6,7,8,9,10,11,12,13,14,15],zero,zero
	punpcklwd	%xmm1, %xmm0            # xmm0 = xmm0[0],xmm1[0],xmm0[1],xmm1[1],xmm0[2],xmm1[2],xmm0[3],xmm1[3]
	packuswb	%xmm0, %xmm0
	movq	%xmm0, 82(%rsp)
	pshufd	$233, %xmm2, %xmm0              # xmm0 = xmm2[1,2,2,3]
	packuswb	%xmm0, %xmm0
	movd	%xmm0, 90(%rsp)
	movb	%cl, 94(%rsp)
	movb	%dl, 95(%rsp)
	leaq	80(%rsp), %rdi
	jmp	LBB0_270
LBB0_222:                              # %arm.10.i42.i.i
	movzbl	1088(%rsp), %eax
	movq	1089(%rsp), %rcx
	movq	%rcx, 120(%rsp)
	movq	1096(%rsp), %rcx
	movq	%rcx, 127(%rsp)
	movb	%al, 576(%rsp)
	movq	120(%rsp), %rax
	movq	127(%rsp), %rcx
	movq	%rax, 577(%rsp)
	movq	%rcx, 584(%rsp)
	movq	%rbp, %rax
	andq	$-2, %rax
	cmpq	$32, %rax
	jne	LBB0_262
# %bb.223:                              # %join.3.i72.i.i.i
	pxor	%xmm0, %xmm0
	movdqa	%xmm0, 1088(%rsp)
	cmpq	$32, %rbp
	movq	48(%rsp), %rbp                  # 8-byte Reload
	jne	LBB0_317
# %bb.224:                              # %join.11.i.i.i.i75.i.i.i.preheader
	xorl	%eax, %eax
	jmp	LBB0_227
LBB0_225:                              # %then.6.i29.i.i.i.i.i120.i.i.i
                                        #   in Loop: Header=BB0_227 Depth=1
	addb	$-48, %dl
LBB0_226:                              # %arm.12.i.i.i.i106.i.i.i
                                        #   in Loop: Header=BB0_227 Depth=1
	shlb	$4, %cl
	addb	%dl, %cl
	movb	%cl, 1088(%rsp,%rax)
	incq	%rax
	cmpq	$16, %rax
	je	LBB0_267
LBB0_227:                              # %join.11.i.i.i.i75.i.i.i
                                        # =>This Inner Loop Header: Depth=1
	movzbl	(%r12,%rax,2), %ecx
	cmpb	$48, %cl
	jb	LBB0_317
# %bb.228:                              # %join.5.i.i.i.i.i.i83.i.i.i
                                        #   in Loop: Header=BB0_227 Depth=1
	movzbl	1(%r12,%rax,2), %edx
	cmpb	$57, %cl
	ja	LBB0_230
# %bb.229:                              # %then.6.i.i.i.i.i.i124.i.i.i
                                        #   in Loop: Header=BB0_227 Depth=1
	addb	$-48, %cl
	jmp	LBB0_235
LBB0_230:                              # %join.8.i.i.i.i.i.i85.i.i.i
                                        #   in Loop: Header=BB0_227 Depth=1
	cmpb	$65, %cl
	jb	LBB0_317
# %bb.231:                              # %join.11.i.i.i.i.i.i87.i.i.i
                                        #   in Loop: Header=BB0_227 Depth=1
	cmpb	$70, %cl
	ja	LBB0_233
# %bb.232:                              # %then.12.i.i.i.i.i.i122.i.i.i
                                        #   in Loop: Header=BB0_227 Depth=1
	addb	$-55, %cl
	jmp	LBB0_235
LBB0_233:                              # %join.14.i.i.i.i.i.i89.i.i.i
                                        #   in Loop: Header=BB0_227 Depth=1
	leal	-97(%rcx), %esi
	cmpb	$5, %sil
	ja	LBB0_317
# %bb.234:                              # %then.18.i.i.i.i.i.i91.i.i.i
                                        #   in Loop: Header=BB0_227 Depth=1
	addb	$-87, %cl
LBB0_235:                              # %arm.1.i.i.i.i.i93.i.i.i
                                        #   in Loop: Header=BB0_227 Depth=1
	cmpb	$48, %dl
	jb	LBB0_317
# %bb.236:                              # %join.5.i7.i.i.i.i.i96.i.i.i
                                        #   in Loop: Header=BB0_227 Depth=1
	cmpb	$57, %dl
	jbe	LBB0_225
# %bb.237:                              # %join.8.i9.i.i.i.i.i98.i.i.i
                                        #   in Loop: Header=BB0_227 Depth=1
	cmpb	$65, %dl
	jb	LBB0_317
# %bb.238:                              # %join.11.i11.i.i.i.i.i100.i.i.i
                                        #   in Loop: Header=BB0_227 Depth=1
	cmpb	$70, %dl
	ja	LBB0_240
# %bb.239:                              # %then.12.i27.i.i.i.i.i118.i.i.i
                                        #   in Loop: Header=BB0_227 Depth=1
	addb	$-55, %dl
	jmp	LBB0_226
LBB0_240:                              # %join.14.i13.i.i.i.i.i102.i.i.i
                                        #   in Loop: Header=BB0_227 Depth=1
	leal	-97(%rdx), %esi
	cmpb	$5, %sil
	ja	LBB0_317
# %bb.241:                              # %then.18.i25.i.i.i.i.i104.i.i.i
                                        #   in Loop: Header=BB0_227 Depth=1
	addb	$-87, %dl
	jmp	LBB0_226
LBB0_242:                              # %arm.16.i.i.i
	movdqa	1088(%rsp), %xmm1
	movzbl	1088(%rsp), %eax
	movb	%al, 544(%rsp)
	movdqa	%xmm1, 3008(%rsp)
	movzwl	3009(%rsp), %eax
	movw	%ax, 545(%rsp)
	movq	%rbp, %rax
	andq	$-2, %rax
	cmpq	$32, %rax
	jne	LBB0_262
# %bb.243:                              # %join.3.i216.i.i.i
	pxor	%xmm0, %xmm0
	movdqa	%xmm0, 1088(%rsp)
	cmpq	$32, %rbp
	jne	LBB0_317
# %bb.244:                              # %join.11.i.i.i.i219.i.i.i.preheader
	xorl	%eax, %eax
	jmp	LBB0_247
LBB0_245:                              # %then.6.i29.i.i.i.i.i264.i.i.i
                                        #   in Loop: Header=BB0_247 Depth=1
	addb	$-48, %dl
LBB0_246:                              # %arm.12.i.i.i.i250.i.i.i
                                        #   in Loop: Header=BB0_247 Depth=1
	shlb	$4, %cl
	addb	%dl, %cl
	movb	%cl, 1088(%rsp,%rax)
	incq	%rax
	cmpq	$16, %rax
	je	LBB0_269
LBB0_247:                              # %join.11.i.i.i.i219.i.i.i
                                        # =>This Inner Loop Header: Depth=1
	movzbl	(%r12,%rax,2), %ecx
	cmpb	$48, %cl
	jb	LBB0_317
# %bb.248:                              # %join.5.i.i.i.i.i.i227.i.i.i
                                        #   in Loop: Header=BB0_247 Depth=1
	movzbl	1(%r12,%rax,2), %edx
	cmpb	$57, %cl
	ja	LBB0_250
# %bb.249:                              # %then.6.i.i.i.i.i.i268.i.i.i
                                        #   in Loop: Header=BB0_247 Depth=1
	addb	$-48, %cl
	jmp	LBB0_255
LBB0_250:                              # %join.8.i.i.i.i.i.i229.i.i.i
                                        #   in Loop: Header=BB0_247 Depth=1
	cmpb	$65, %cl
	jb	LBB0_317
# %bb.251:                              # %join.11.i.i.i.i.i.i231.i.i.i
                                        #   in Loop: Header=BB0_247 Depth=1
	cmpb	$70, %cl
	ja	LBB0_253
# %bb.252:                              # %then.12.i.i.i.i.i.i266.i.i.i
                                        #   in Loop: Header=BB0_247 Depth=1
	addb	$-55, %cl
	jmp	LBB0_255
LBB0_253:                              # %join.14.i.i.i.i.i.i233.i.i.i
                                        #   in Loop: Header=BB0_247 Depth=1
	leal	-97(%rcx), %esi
	cmpb	$5, %sil
	ja	LBB0_317
# %bb.254:                              # %then.18.i.i.i.i.i.i235.i.i.i
                                        #   in Loop: Header=BB0_247 Depth=1
	addb	$-87, %cl
LBB0_255:                              # %arm.1.i.i.i.i.i237.i.i.i
                                        #   in Loop: Header=BB0_247 Depth=1
	cmpb	$48, %dl
	jb	LBB0_317
# %bb.256:                              # %join.5.i7.i.i.i.i.i240.i.i.i
                                        #   in Loop: Header=BB0_247 Depth=1
	cmpb	$57, %dl
	jbe	LBB0_245
# %bb.257:                              # %join.8.i9.i.i.i.i.i242.i.i.i
                                        #   in Loop: Header=BB0_247 Depth=1
	cmpb	$65, %dl
	jb	LBB0_317
# %bb.258:                              # %join.11.i11.i.i.i.i.i244.i.i.i
                                        #   in Loop: Header=BB0_247 Depth=1
	cmpb	$70, %dl
	ja	LBB0_260
# %bb.259:                              # %then.12.i27.i.i.i.i.i262.i.i.i
                                        #   in Loop: Header=BB0_247 Depth=1
	addb	$-55, %dl
	jmp	LBB0_246
LBB0_260:                              # %join.14.i13.i.i.i.i.i246.i.i.i
                                        #   in Loop: Header=BB0_247 Depth=1
	leal	-97(%rdx), %esi
	cmpb	$5, %sil
	ja	LBB0_317
# %bb.261:                              # %then.18.i25.i.i.i.i.i248.i.i.i
                                        #   in Loop: Header=BB0_247 Depth=1
	addb	$-87, %dl
	jmp	LBB0_246
LBB0_262:                              # %arm.2.thread.i
	leaq	l_static.16(%rip), %r13
	movl	$11, %r12d
	jmp	LBB0_86
LBB0_263:                              # %arm.25.i.i.i
	movzbl	1088(%rsp), %eax
	movq	1089(%rsp), %rcx
	movq	%rcx, 496(%rsp)
	movq	1096(%rsp), %rcx
	movq	%rcx, 503(%rsp)
	movb	%al, 528(%rsp)
	movq	496(%rsp), %rax
	movq	503(%rsp), %rcx
	movq	%rax, 529(%rsp)
	movq	%rcx, 536(%rsp)
	leaq	528(%rsp), %rbx
	movq	%rbx, %rdi
	callq	"aes::hazmat::inv_mix_columns"
	jmp	LBB0_268
LBB0_264:                              # %arm.1.i519.i.i.i
	movzbl	%bl, %eax
	movl	450(%rsp), %r13d
	movl	454(%rsp), %r12d
	movl	458(%rsp), %ecx
	movl	462(%rsp), %edx
	movl	466(%rsp), %ebx
	movl	470(%rsp), %r8d
	cmpl	$2, %eax
	je	LBB0_278
# %bb.265:                              # %arm.1.i519.i.i.i
	cmpl	$1, %eax
	jne	LBB0_281
# %bb.266:                              # %arm.6.i.i.i.i
	movl	%ecx, 1088(%rsp)
	movl	%edx, 1092(%rsp)
	movl	%ebx, 1096(%rsp)
	movl	%r8d, 1100(%rsp)
	leaq	l_static.12(%rip), %rsi
	leaq	1088(%rsp), %rbp
	movq	%rbp, %rdi
	movl	%r8d, 40(%rsp)                  # 4-byte Spill
	movl	%ecx, %r15d
	movl	%ecx, 8(%rsp)                   # 4-byte Spill
	movl	%edx, %r14d
	callq	"aes::hazmat::cipher_round"
	movq	%rbp, %rdi
	callq	"aes::hazmat::inv_mix_columns"
	movzbl	1097(%rsp), %eax
	movzbl	1094(%rsp), %esi
	movzbl	1091(%rsp), %ecx
	movl	1100(%rsp), %edx
	xorl	$1, %eax
	shll	$24, %edx
	orl	%eax, %edx
	shll	$16, %ecx
	shll	$8, %esi
	orl	%edx, %esi
	orl	%ecx, %esi
	xorl	%r13d, %esi
	movl	%esi, %eax
	movl	%r12d, %ecx
	movl	%r12d, 112(%rsp)                # 4-byte Spill
	movl	%esi, %r12d
	movl	%esi, 224(%rsp)                 # 4-byte Spill
	xorl	%ecx, %eax
	movl	%eax, 236(%rsp)                 # 4-byte Spill
	movl	%eax, %ecx
	xorl	%r15d, %ecx
	movl	%ecx, %eax
	xorl	%r14d, %eax
	movl	%eax, 232(%rsp)                 # 4-byte Spill
	movl	%r14d, %r15d
	movl	%r14d, (%rsp)                   # 4-byte Spill
	movl	%eax, %edx
	xorl	%ebx, %edx
	movl	%edx, 4(%rsp)                   # 4-byte Spill
	movl	%edx, %esi
	xorl	40(%rsp), %esi                  # 4-byte Folded Reload
	movl	%esi, 228(%rsp)                 # 4-byte Spill
	movl	%ecx, 1088(%rsp)
	movl	%ecx, %ebp
	movl	%eax, 1092(%rsp)
	movl	%edx, 1096(%rsp)
	movl	%esi, 1100(%rsp)
	leaq	1088(%rsp), %r14
	movq	%r14, %rdi
	leaq	l_static.12(%rip), %rsi
	callq	"aes::hazmat::cipher_round"
	movq	%r14, %rdi
	callq	"aes::hazmat::inv_mix_columns"
	movzbl	1097(%rsp), %eax
	movzbl	1094(%rsp), %esi
	movzbl	1091(%rsp), %ecx
	movl	1100(%rsp), %edx
	xorl	$2, %eax
	shll	$24, %edx
	orl	%eax, %edx
	shll	$16, %ecx
	shll	$8, %esi
	orl	%edx, %esi
	orl	%ecx, %esi
	movl	%esi, %eax
	xorl	%r12d, %eax
	movl	%eax, 76(%rsp)                  # 4-byte Spill
	xorl	112(%rsp), %esi                 # 4-byte Folded Reload
	movl	%esi, 64(%rsp)                  # 4-byte Spill
	movl	%esi, %eax
	movl	%ebp, 196(%rsp)                 # 4-byte Spill
	xorl	%ebp, %eax
	movl	%eax, 216(%rsp)                 # 4-byte Spill
	movl	%esi, %ecx
	xorl	%r15d, %ecx
	movl	%ecx, %edx
	movl	4(%rsp), %r14d                  # 4-byte Reload
	xorl	%r14d, %edx
	movl	%edx, 220(%rsp)                 # 4-byte Spill
	movl	%ecx, %esi
	xorl	40(%rsp), %esi                  # 4-byte Folded Reload
	movl	%esi, 36(%rsp)                  # 4-byte Spill
	movl	%eax, 1088(%rsp)
	movl	%ecx, 1092(%rsp)
	movl	%ecx, %r15d
	movl	%ecx, 200(%rsp)                 # 4-byte Spill
	movl	%edx, 1096(%rsp)
	movl	%esi, 1100(%rsp)
	leaq	1088(%rsp), %r12
	movq	%r12, %rdi
	leaq	l_static.12(%rip), %rsi
	callq	"aes::hazmat::cipher_round"
	movq	%r12, %rdi
	callq	"aes::hazmat::inv_mix_columns"
	movzbl	1097(%rsp), %eax
	movzbl	1094(%rsp), %esi
	movzbl	1091(%rsp), %ecx
	movl	1100(%rsp), %edx
	xorl	$4, %eax
	shll	$24, %edx
	orl	%eax, %edx
	shll	$16, %ecx
	shll	$8, %esi
	orl	%edx, %esi
	orl	%ecx, %esi
	xorl	76(%rsp), %esi                  # 4-byte Folded Reload
	movl	%esi, 72(%rsp)                  # 4-byte Spill
	movl	%esi, %eax
	movl	64(%rsp), %r12d                 # 4-byte Reload
	xorl	%r12d, %eax
	movl	%eax, 212(%rsp)                 # 4-byte Spill
	movl	%esi, %eax
	xorl	%ebp, %eax
	movl	%eax, 116(%rsp)                 # 4-byte Spill
	movl	%eax, %ecx
	xorl	%r15d, %ecx
	movl	%ecx, 208(%rsp)                 # 4-byte Spill
	movl	%eax, %edx
	xorl	%r14d, %edx
	movl	%edx, %esi
	movl	36(%rsp), %r15d                 # 4-byte Reload
	xorl	%r15d, %esi
	movl	%esi, 204(%rsp)                 # 4-byte Spill
	movl	%eax, 1088(%rsp)
	movl	%ecx, 1092(%rsp)
	movl	%edx, 1096(%rsp)
	movl	%edx, %r14d
	movl	%edx, 184(%rsp)                 # 4-byte Spill
	movl	%esi, 1100(%rsp)
	leaq	1088(%rsp), %rbp
	movq	%rbp, %rdi
	leaq	l_static.12(%rip), %rsi
	callq	"aes::hazmat::cipher_round"
	movq	%rbp, %rdi
	callq	"aes::hazmat::inv_mix_columns"
	movzbl	1097(%rsp), %eax
	movzbl	1094(%rsp), %esi
	movzbl	1091(%rsp), %ecx
	movl	1100(%rsp), %edx
	xorl	$8, %eax
	shll	$24, %edx
	orl	%eax, %edx
	shll	$16, %ecx
	shll	$8, %esi
	orl	%edx, %esi
	orl	%ecx, %esi
	movl	%esi, %eax
	xorl	72(%rsp), %eax                  # 4-byte Folded Reload
	movl	%eax, 68(%rsp)                  # 4-byte Spill
	movl	%esi, %eax
	xorl	%r12d, %eax
	movl	%eax, 32(%rsp)                  # 4-byte Spill
	movl	%eax, %ecx
	movl	116(%rsp), %ebp                 # 4-byte Reload
	xorl	%ebp, %ecx
	movl	%ecx, 188(%rsp)                 # 4-byte Spill
	xorl	(%rsp), %esi                    # 4-byte Folded Reload
	movl	%esi, 100(%rsp)                 # 4-byte Spill
	movl	%esi, %eax
	xorl	%r14d, %eax
	movl	%eax, 192(%rsp)                 # 4-byte Spill
	movl	%esi, %r12d
	xorl	%r15d, %r12d
	movl	%ecx, 1088(%rsp)
	movl	%esi, 1092(%rsp)
	movl	%eax, 1096(%rsp)
	movl	%r12d, 1100(%rsp)
	movl	%r12d, 168(%rsp)                # 4-byte Spill
	leaq	1088(%rsp), %r14
	movq	%r14, %rdi
	leaq	l_static.12(%rip), %rsi
	callq	"aes::hazmat::cipher_round"
	movq	%r14, %rdi
	callq	"aes::hazmat::inv_mix_columns"
	movzbl	1097(%rsp), %eax
	movzbl	1094(%rsp), %r14d
	movzbl	1091(%rsp), %ecx
	movl	1100(%rsp), %edx
	xorl	$16, %eax
	shll	$24, %edx
	orl	%eax, %edx
	shll	$16, %ecx
	shll	$8, %r14d
	orl	%edx, %r14d
	orl	%ecx, %r14d
	xorl	68(%rsp), %r14d                 # 4-byte Folded Reload
	movl	%r14d, %eax
	xorl	32(%rsp), %eax                  # 4-byte Folded Reload
	movl	%eax, 180(%rsp)                 # 4-byte Spill
	movl	%r14d, %eax
	xorl	%ebp, %eax
	movl	%eax, 28(%rsp)                  # 4-byte Spill
	movl	%eax, %ecx
	movl	100(%rsp), %r15d                # 4-byte Reload
	xorl	%r15d, %ecx
	movl	%ecx, 176(%rsp)                 # 4-byte Spill
	movl	%r14d, %edx
	xorl	4(%rsp), %edx                   # 4-byte Folded Reload
	movl	%edx, 60(%rsp)                  # 4-byte Spill
	movl	%edx, %esi
	xorl	%r12d, %esi
	movl	%esi, 172(%rsp)                 # 4-byte Spill
	movl	%eax, 1088(%rsp)
	movl	%ecx, 1092(%rsp)
	movl	%edx, 1096(%rsp)
	movl	%esi, 1100(%rsp)
	leaq	1088(%rsp), %r12
	movq	%r12, %rdi
	leaq	l_static.12(%rip), %rsi
	callq	"aes::hazmat::cipher_round"
	movq	%r12, %rdi
	callq	"aes::hazmat::inv_mix_columns"
	movzbl	1097(%rsp), %eax
	movzbl	1094(%rsp), %ebp
	movzbl	1091(%rsp), %ecx
	movl	1100(%rsp), %edx
	xorl	$32, %eax
	shll	$24, %edx
	orl	%eax, %edx
	shll	$16, %ecx
	shll	$8, %ebp
	orl	%edx, %ebp
	orl	%ecx, %ebp
	movl	%ebp, %eax
	xorl	%r14d, %eax
	movl	%eax, %r12d
	movl	%eax, 140(%rsp)                 # 4-byte Spill
	xorl	32(%rsp), %ebp                  # 4-byte Folded Reload
	movl	%ebp, %ecx
	xorl	28(%rsp), %ecx                  # 4-byte Folded Reload
	movl	%ecx, 160(%rsp)                 # 4-byte Spill
	movl	%ebp, %esi
	xorl	%r15d, %esi
	movl	%esi, 104(%rsp)                 # 4-byte Spill
	movl	%esi, %eax
	xorl	60(%rsp), %eax                  # 4-byte Folded Reload
	movl	%eax, 164(%rsp)                 # 4-byte Spill
	movl	%ebp, %edx
	xorl	36(%rsp), %edx                  # 4-byte Folded Reload
	movl	%edx, 108(%rsp)                 # 4-byte Spill
	movl	%ecx, 1088(%rsp)
	movl	%esi, 1092(%rsp)
	movl	%eax, 1096(%rsp)
	movl	%edx, 1100(%rsp)
	leaq	1088(%rsp), %r15
	movq	%r15, %rdi
	leaq	l_static.12(%rip), %rsi
	callq	"aes::hazmat::cipher_round"
	movq	%r15, %rdi
	callq	"aes::hazmat::inv_mix_columns"
	movzbl	1097(%rsp), %eax
	movzbl	1094(%rsp), %r15d
	movzbl	1091(%rsp), %ecx
	movl	1100(%rsp), %edx
	xorl	$64, %eax
	shll	$24, %edx
	orl	%eax, %edx
	shll	$16, %ecx
	shll	$8, %r15d
	orl	%edx, %r15d
	orl	%ecx, %r15d
	xorl	%r12d, %r15d
	movl	%r15d, %eax
	xorl	%ebp, %eax
	movl	%eax, 156(%rsp)                 # 4-byte Spill
	movl	%r15d, %r12d
	xorl	28(%rsp), %r12d                 # 4-byte Folded Reload
	movl	%r12d, %eax
	xorl	104(%rsp), %eax                 # 4-byte Folded Reload
	movl	%eax, 152(%rsp)                 # 4-byte Spill
	movl	%r12d, %ecx
	xorl	60(%rsp), %ecx                  # 4-byte Folded Reload
	movl	%ecx, 148(%rsp)                 # 4-byte Spill
	movl	%ecx, %edx
	xorl	108(%rsp), %edx                 # 4-byte Folded Reload
	movl	%edx, 144(%rsp)                 # 4-byte Spill
	movl	%r12d, 1088(%rsp)
	movl	%eax, 1092(%rsp)
	movl	%ecx, 1096(%rsp)
	movl	%edx, 1100(%rsp)
	leaq	1088(%rsp), %rdi
	leaq	l_static.12(%rip), %rsi
	callq	"aes::hazmat::cipher_round"
	leaq	1088(%rsp), %rdi
	callq	"aes::hazmat::inv_mix_columns"
	movzbl	1097(%rsp), %eax
	xorl	$128, %eax
	movl	1100(%rsp), %ecx
	shll	$24, %ecx
	orl	%eax, %ecx
	movzbl	1094(%rsp), %eax
	shll	$8, %eax
	orl	%ecx, %eax
	movzbl	1091(%rsp), %ecx
	shll	$16, %ecx
	orl	%ecx, %eax
	movl	%r13d, 240(%rsp)
	movl	112(%rsp), %ecx                 # 4-byte Reload
	movl	%ecx, 244(%rsp)
	movl	8(%rsp), %ecx                   # 4-byte Reload
	movl	%ecx, 248(%rsp)
	movl	(%rsp), %ecx                    # 4-byte Reload
	movl	%ecx, 252(%rsp)
	movl	%ebx, 256(%rsp)
	movl	40(%rsp), %ecx                  # 4-byte Reload
	movl	%ecx, 260(%rsp)
	movl	224(%rsp), %ecx                 # 4-byte Reload
	movl	%ecx, 264(%rsp)
	movl	236(%rsp), %ecx                 # 4-byte Reload
	movl	%ecx, 268(%rsp)
	movl	196(%rsp), %ecx                 # 4-byte Reload
	movl	%ecx, 272(%rsp)
	movl	232(%rsp), %ecx                 # 4-byte Reload
	movl	%ecx, 276(%rsp)
	movl	4(%rsp), %ecx                   # 4-byte Reload
	movl	%ecx, 280(%rsp)
	movl	228(%rsp), %ecx                 # 4-byte Reload
	movl	%ecx, 284(%rsp)
	movl	76(%rsp), %ecx                  # 4-byte Reload
	movl	%ecx, 288(%rsp)
	movl	64(%rsp), %ecx                  # 4-byte Reload
	movl	%ecx, 292(%rsp)
	movl	216(%rsp), %ecx                 # 4-byte Reload
	movl	%ecx, 296(%rsp)
	movl	200(%rsp), %ecx                 # 4-byte Reload
	movl	%ecx, 300(%rsp)
	movl	220(%rsp), %ecx                 # 4-byte Reload
	movl	%ecx, 304(%rsp)
	movl	36(%rsp), %ecx                  # 4-byte Reload
	movl	%ecx, 308(%rsp)
	movl	72(%rsp), %ecx                  # 4-byte Reload
	movl	%ecx, 312(%rsp)
	movl	212(%rsp), %ecx                 # 4-byte Reload
	movl	%ecx, 316(%rsp)
	movl	116(%rsp), %ecx                 # 4-byte Reload
	movl	%ecx, 320(%rsp)
	movl	208(%rsp), %ecx                 # 4-byte Reload
	movl	%ecx, 324(%rsp)
	movl	184(%rsp), %ecx                 # 4-byte Reload
	movl	%ecx, 328(%rsp)
	movl	204(%rsp), %ecx                 # 4-byte Reload
	movl	%ecx, 332(%rsp)
	movl	68(%rsp), %ecx                  # 4-byte Reload
	movl	%ecx, 336(%rsp)
	movl	32(%rsp), %ecx                  # 4-byte Reload
	movl	%ecx, 340(%rsp)
	movl	188(%rsp), %ecx                 # 4-byte Reload
	movl	%ecx, 344(%rsp)
	movl	100(%rsp), %esi                 # 4-byte Reload
	movl	%esi, 348(%rsp)
	movl	192(%rsp), %ecx                 # 4-byte Reload
	movl	%ecx, 352(%rsp)
	movl	168(%rsp), %ecx                 # 4-byte Reload
	movl	%ecx, 356(%rsp)
	movl	%r14d, 360(%rsp)
	movl	180(%rsp), %ecx                 # 4-byte Reload
	movl	%ecx, 364(%rsp)
	movl	28(%rsp), %ecx                  # 4-byte Reload
	movl	%ecx, 368(%rsp)
	movl	176(%rsp), %ecx                 # 4-byte Reload
	movl	%ecx, 372(%rsp)
	movl	60(%rsp), %ecx                  # 4-byte Reload
	movl	%ecx, 376(%rsp)
	movl	172(%rsp), %ecx                 # 4-byte Reload
	movl	%ecx, 380(%rsp)
	movl	140(%rsp), %ecx                 # 4-byte Reload
	movl	%ecx, 384(%rsp)
	movl	%eax, %ecx
	xorl	%ebp, %ecx
	movl	%ebp, 388(%rsp)
	movl	160(%rsp), %edx                 # 4-byte Reload
	movl	%edx, 392(%rsp)
	movl	104(%rsp), %edx                 # 4-byte Reload
	movl	%edx, 396(%rsp)
	movl	%eax, %edx
	xorl	%r15d, %edx
	movl	164(%rsp), %edi                 # 4-byte Reload
	movl	%edi, 400(%rsp)
	movl	108(%rsp), %edi                 # 4-byte Reload
	movl	%edi, 404(%rsp)
	movl	%r15d, 408(%rsp)
	movl	156(%rsp), %edi                 # 4-byte Reload
	movl	%edi, 412(%rsp)
	movl	%r12d, 416(%rsp)
	movl	152(%rsp), %edi                 # 4-byte Reload
	movl	%edi, 420(%rsp)
	movl	148(%rsp), %edi                 # 4-byte Reload
	movl	%edi, 424(%rsp)
	movl	144(%rsp), %edi                 # 4-byte Reload
	movl	%edi, 428(%rsp)
	movl	%edx, 432(%rsp)
	movl	%ecx, 436(%rsp)
	xorl	%r12d, %ecx
	xorl	%esi, %eax
	leaq	256(%rsp), %r15
	leaq	272(%rsp), %rbx
	leaq	288(%rsp), %rbp
	leaq	304(%rsp), %r12
	movl	%ecx, 440(%rsp)
	movl	%eax, 444(%rsp)
	xorl	%r13d, %r13d
	leaq	240(%rsp), %rdi
	leaq	4408(%rsp), %r14
	xorl	%esi, %esi
	movq	%r14, %rdx
	callq	"aes_kat::digits::write_block"
	movb	$32, 4408(%rsp,%rax)
	leaq	1(%rax), %rsi
	movq	%r15, %rdi
	movq	%r14, %rdx
	callq	"aes_kat::digits::write_block"
	movb	$32, 4408(%rsp,%rax)
	leaq	1(%rax), %rsi
	movq	%rbx, %rdi
	movq	%r14, %rdx
	callq	"aes_kat::digits::write_block"
	movb	$32, 4408(%rsp,%rax)
	leaq	1(%rax), %rsi
	movq	%rbp, %rdi
	movq	%r14, %rdx
	callq	"aes_kat::digits::write_block"
	movb	$32, 4408(%rsp,%rax)
	leaq	1(%rax), %rsi
	movq	%r12, %rdi
	movq	%r14, %rdx
	callq	"aes_kat::digits::write_block"
	movb	$32, 4408(%rsp,%rax)
	leaq	1(%rax), %rsi
	leaq	320(%rsp), %rdi
	movq	%r14, %rdx
	callq	"aes_kat::digits::write_block"
	movb	$32, 4408(%rsp,%rax)
	leaq	1(%rax), %rsi
	leaq	336(%rsp), %rdi
	movq	%r14, %rdx
	callq	"aes_kat::digits::write_block"
	movb	$32, 4408(%rsp,%rax)
	leaq	1(%rax), %rsi
	leaq	352(%rsp), %rdi
	movq	%r14, %rdx
	callq	"aes_kat::digits::write_block"
	movb	$32, 4408(%rsp,%rax)
	leaq	1(%rax), %rsi
	leaq	368(%rsp), %rdi
	movq	%r14, %rdx
	callq	"aes_kat::digits::write_block"
	movb	$32, 4408(%rsp,%rax)
	leaq	1(%rax), %rsi
	leaq	384(%rsp), %rdi
	movq	%r14, %rdx
	callq	"aes_kat::digits::write_block"
	movb	$32, 4408(%rsp,%rax)
	leaq	1(%rax), %rsi
	leaq	400(%rsp), %rdi
	movq	%r14, %rdx
	callq	"aes_kat::digits::write_block"
	movb	$32, 4408(%rsp,%rax)
	leaq	1(%rax), %rsi
	leaq	416(%rsp), %rdi
	movq	%r14, %rdx
	callq	"aes_kat::digits::write_block"
	movb	$32, 4408(%rsp,%rax)
	leaq	1(%rax), %rsi
	leaq	432(%rsp), %rdi
	movq	%r14, %rdx
	jmp	LBB0_285
LBB0_267:                              # %arm.13.i.i.i
	movzbl	1088(%rsp), %eax
	movq	1089(%rsp), %rcx
	movq	%rcx, 120(%rsp)
	movq	1096(%rsp), %rcx
	movq	%rcx, 127(%rsp)
	movb	%al, 560(%rsp)
	movq	120(%rsp), %rax
	movq	127(%rsp), %rcx
	movq	%rax, 561(%rsp)
	movq	%rcx, 568(%rsp)
	leaq	576(%rsp), %rbx
	leaq	560(%rsp), %rsi
	movq	%rbx, %rdi
	callq	"aes::hazmat::cipher_round"
LBB0_268:                              # %"aes_kat::replies::answer.exit.thread24.i"
	leaq	4408(%rsp), %rdx
	movq	%rbx, %rdi
	xorl	%esi, %esi
	callq	"aes_kat::digits::write_block"
	movq	%rax, %r12
	xorl	%ebx, %ebx
	jmp	LBB0_87
LBB0_269:                              # %arm.19.i.i.i
	pxor	%xmm0, %xmm0
	movdqa	%xmm1, %xmm2
	punpckhbw	%xmm0, %xmm2            # xmm2 = xmm2[8],xmm0[8],xmm2[9],xmm0[9],xmm2[10],xmm0[10],xmm2[11],xmm0[11],xmm2[12],xmm0[12],xmm2[13],xmm0[13],xmm2[14],xmm0[14],xmm2[15],xmm0[15]
	pshufd	$231, %xmm2, %xmm3              # xmm3 = xmm2[3,1,2,3]
	pshuflw	$114, %xmm3, %xmm3              # xmm3 = xmm3[2,0,3,1,4,5,6,7]
	punpcklbw	%xmm0, %xmm1            # xmm1 = xmm1[0],xmm0[0],xmm1[1],xmm0[1],xmm1[2],xmm0[2],xmm1[3],xmm0[3],xmm1[4],xmm0[4],xmm1[5],xmm0[5],xmm1[6],xmm0[6],xmm1[7],xmm0[7]
	pshufd	$231, %xmm1, %xmm4              # xmm4 = xmm1[3,1,2,3]
	pshuflw	$114, %xmm4, %xmm4              # xmm4 = xmm4[2,0,3,1,4,5,6,7]
	punpckldq	%xmm3, %xmm4            # xmm4 = xmm4[0],xmm3[0],xmm4[1],xmm3[1]
	pshufd	$232, %xmm2, %xmm2              # xmm2 = xmm2[0,2,2,3]
	pshuflw	$216, %xmm2, %xmm3              # xmm3 = xmm2[0,2,1,3,4,5,6,7]
	pshufd	$232, %xmm1, %xmm1              # xmm1 = xmm1[0,2,2,3]
	pshuflw	$216, %xmm1, %xmm2              # xmm2 = xmm1[0,2,1,3,4,5,6,7]
	punpckldq	%xmm3, %xmm2            # xmm2 = xmm2[0],xmm3[0],xmm2[1],xmm3[1]
	packuswb	%xmm4, %xmm2
	movdqa	l_CPI0_15(%rip), %xmm3          # xmm3 = [2,2,2,2,2,2,2,2,2,2,2,2,2,2,2,2]
	pand	%xmm2, %xmm3
	movdqa	%xmm2, %xmm1
	psllw	$5, %xmm1
	movdqa	%xmm2, %xmm5
	psllw	$3, %xmm5
	movdqa	l_CPI0_16(%rip), %xmm6          # xmm6 = [32,32,32,32,32,32,32,32,32,32,32,32,32,32,32,32]
	pand	%xmm2, %xmm6
	movdqa	%xmm2, %xmm4
	psllw	$7, %xmm4
	pmovmskb	%xmm4, %edi
	movdqa	%xmm2, %xmm7
	psllw	$4, %xmm7
	pmovmskb	%xmm7, %eax
	movdqa	%xmm2, %xmm4
	psllw	$6, %xmm4
	pmovmskb	%xmm4, %r11d
	pcmpeqb	%xmm0, %xmm6
	movdqa	%xmm2, %xmm4
	paddw	%xmm4, %xmm4
	pmovmskb	%xmm4, %edx
	movdqa	%xmm6, %xmm4
	movdqa	%xmm5, %xmm8
	pxor	%xmm7, %xmm6
	pxor	%xmm5, %xmm7
	pxor	%xmm2, %xmm5
	pmovmskb	%xmm5, %ecx
	movl	%ecx, 4(%rsp)                   # 4-byte Spill
	movdqa	l_CPI0_17(%rip), %xmm9          # xmm9 = [64,64,64,64,64,64,64,64,64,64,64,64,64,64,64,64]
	pand	%xmm2, %xmm9
	pmovmskb	%xmm2, %r14d
	notl	%edi
	xorl	%edi, %r11d
	pcmpeqb	%xmm0, %xmm3
	pcmpeqb	%xmm0, %xmm9
	pxor	%xmm9, %xmm8
	pmovmskb	%xmm8, %ebx
	movdqa	%xmm2, %xmm5
	xorl	%ecx, %edx
	xorl	$65535, %r11d                   # imm = 0xFFFF
	pxor	%xmm9, %xmm2
	pmovmskb	%xmm6, %esi
	pxor	%xmm3, %xmm9
	pmovmskb	%xmm9, %r10d
	xorl	%r10d, %esi
	movl	%esi, %r8d
	movl	%esi, 28(%rsp)                  # 4-byte Spill
	xorl	$65535, %edx                    # imm = 0xFFFF
	movl	%edx, 36(%rsp)                  # 4-byte Spill
	movl	%edx, %ecx
	xorl	%eax, %ecx
	movl	%ecx, %r15d
	movl	%ecx, 76(%rsp)                  # 4-byte Spill
	pmovmskb	%xmm7, %ecx
	movl	%ecx, %esi
	movl	%ecx, %edx
	xorl	%r11d, %esi
	movl	%esi, %ecx
	movl	%esi, 8(%rsp)                   # 4-byte Spill
	pxor	%xmm1, %xmm3
	orl	%r8d, %ecx
	movl	%edx, %r12d
	xorl	%edi, %r12d
	movl	%r12d, 72(%rsp)                 # 4-byte Spill
	andl	%ebx, %r12d
	xorl	%ecx, %r12d
	pmovmskb	%xmm3, %r9d
	xorl	%eax, %edi
	movl	%r9d, %ebp
	xorl	%edx, %ebp
	movl	%edx, %esi
	movl	%edx, 40(%rsp)                  # 4-byte Spill
	movl	%r15d, %ecx
	andl	%ebp, %ecx
	pmovmskb	%xmm2, %eax
	movl	%eax, %r15d
	xorl	%edi, %r15d
	movl	%r15d, %edx
	andl	%eax, %edx
	movl	%eax, %r13d
	movl	%eax, 60(%rsp)                  # 4-byte Spill
	movl	%ebp, %eax
	xorl	%r15d, %eax
	andl	%esi, %eax
	xorl	%eax, %ecx
	xorl	%edx, %eax
	xorl	%r11d, %r13d
	movl	%r13d, 68(%rsp)                 # 4-byte Spill
	pxor	%xmm1, %xmm4
	pmovmskb	%xmm4, %edx
	xorl	%edx, %r14d
	movl	%r14d, 64(%rsp)                 # 4-byte Spill
	movl	%ebx, 32(%rsp)                  # 4-byte Spill
	xorl	%ebx, %r11d
	xorl	%edi, %r10d
	movl	%r10d, %r8d
	movl	%r11d, %esi
	andl	%r14d, %esi
	xorl	%edi, %esi
	movl	%edx, %edi
	xorl	%ebx, %edi
	movl	%edi, (%rsp)                    # 4-byte Spill
	movl	%r13d, %edx
	andl	%edi, %edx
	movl	36(%rsp), %r13d                 # 4-byte Reload
	andl	4(%rsp), %r13d                  # 4-byte Folded Reload
	xorl	%edx, %esi
	xorl	%r9d, %r13d
	xorl	%r15d, %r13d
	xorl	%edx, %r13d
	xorl	%ecx, %r12d
	xorl	%ecx, %r13d
	psllw	$2, %xmm5
	pmovmskb	%xmm5, %edi
	xorl	$65535, %edi                    # imm = 0xFFFF
	movl	8(%rsp), %edx                   # 4-byte Reload
	movl	%edx, %ecx
	andl	28(%rsp), %ecx                  # 4-byte Folded Reload
	movl	%r11d, %r10d
	xorl	%edi, %r10d
	xorl	%edi, %ecx
	movl	%r10d, %edi
	andl	%r8d, %edi
	xorl	%edi, %ecx
	xorl	%eax, %esi
	xorl	40(%rsp), %ecx                  # 4-byte Folded Reload
	xorl	%eax, %ecx
	movl	%r13d, %edi
	andl	%r12d, %edi
	movl	%edi, %r14d
	xorl	%esi, %r14d
	movl	%ecx, %ebx
	xorl	%r12d, %ebx
	movl	%edi, %eax
	xorl	%ecx, %eax
	andl	%ebx, %r14d
	xorl	%ecx, %r14d
	andl	%r13d, %ecx
	xorl	%esi, %r13d
	andl	%r13d, %ecx
	andl	%r13d, %eax
	xorl	%edi, %r13d
	xorl	%ecx, %r13d
	xorl	%esi, %eax
	movl	%r13d, %ecx
	xorl	%eax, %ecx
	andl	%ecx, %edx
	movl	%edx, 8(%rsp)                   # 4-byte Spill
	andl	28(%rsp), %ecx                  # 4-byte Folded Reload
	andl	%eax, %r8d
	movl	%r8d, 28(%rsp)                  # 4-byte Spill
	movl	%eax, %r8d
	andl	%r10d, %eax
	andl	%r12d, %esi
	andl	%ebx, %esi
	xorl	%edi, %ebx
	xorl	%esi, %ebx
	xorl	%r14d, %r8d
	andl	%r13d, 32(%rsp)                 # 4-byte Folded Spill
	movl	64(%rsp), %r12d                 # 4-byte Reload
	andl	%r14d, %r12d
	andl	%r14d, %r11d
	movl	72(%rsp), %r10d                 # 4-byte Reload
	andl	%r13d, %r10d
	xorl	%ebx, %r13d
	movl	4(%rsp), %edi                   # 4-byte Reload
	andl	%ebx, %edi
	xorl	%ebx, %r14d
	andl	36(%rsp), %ebx                  # 4-byte Folded Reload
	movl	(%rsp), %edx                    # 4-byte Reload
	andl	%r14d, %edx
	andl	68(%rsp), %r14d                 # 4-byte Folded Reload
	movl	40(%rsp), %esi                  # 4-byte Reload
	andl	%r8d, %esi
	xorl	%r15d, %r9d
	andl	%r8d, %r9d
	xorl	%r13d, %r8d
	andl	%r8d, %ebp
	xorl	%r10d, %ebp
	xorl	%r10d, %ebx
	andl	76(%rsp), %r8d                  # 4-byte Folded Reload
	movl	%ecx, %r10d
	xorl	%eax, %r10d
	movl	%r10d, 4(%rsp)                  # 4-byte Spill
	xorl	%edx, %eax
	xorl	%r12d, %edx
	movl	%edx, (%rsp)                    # 4-byte Spill
	xorl	%r12d, %edi
	movl	%r9d, %r12d
	xorl	28(%rsp), %r9d                  # 4-byte Folded Reload
	andl	%r13d, %r15d
	andl	60(%rsp), %r13d                 # 4-byte Folded Reload
	movl	%r8d, %edx
	xorl	%ecx, %r8d
	xorl	%r13d, %r14d
	xorl	%eax, %r13d
	xorl	%ebx, %eax
	xorl	%ecx, %ebx
	xorl	%r9d, %ebx
	movl	32(%rsp), %ecx                  # 4-byte Reload
	xorl	%ecx, %r12d
	movl	8(%rsp), %r9d                   # 4-byte Reload
	xorl	%r9d, %r12d
	xorl	%r12d, %ebp
	xorl	%r11d, %esi
	movl	%esi, 40(%rsp)                  # 4-byte Spill
	xorl	%r15d, %edx
	xorl	%edx, %r12d
	xorl	%edi, %r11d
	xorl	%r11d, %r9d
	xorl	%edx, %r9d
	xorl	%ebp, %r8d
	xorl	%r11d, %r13d
	xorl	%ebp, %r13d
	xorl	%ecx, %edi
	xorl	%r15d, %edi
	movl	%r8d, %ecx
	shrl	$2, %ecx
	xorl	%r8d, %ecx
	andl	$4896, %ecx                     # imm = 0x1320
	leal	(%rcx,%rcx,4), %ecx
	xorl	%r8d, %ecx
	movl	%r13d, %edx
	shrl	$2, %edx
	xorl	%r13d, %edx
	andl	$4896, %edx                     # imm = 0x1320
	leal	(%rdx,%rdx,4), %edx
	xorl	%r13d, %edx
	movl	%ecx, %esi
	shrl	%esi
	xorl	%ecx, %esi
	andl	$20560, %esi                    # imm = 0x5050
	leal	(%rsi,%rsi,2), %r8d
	xorl	%ecx, %r8d
	movl	%edx, %ecx
	shrl	%ecx
	xorl	%edx, %ecx
	andl	$20560, %ecx                    # imm = 0x5050
	leal	(%rcx,%rcx,2), %ebp
	movl	%r8d, %r13d
	rolw	$12, %r13w
	xorl	%edx, %ebp
	movl	%ebp, %r10d
	rolw	$12, %r10w
	xorl	%r14d, %edi
	movd	%eax, %xmm1
	pinsrw	$1, (%rsp), %xmm1               # 4-byte Folded Reload
	xorl	%r8d, %r13d
	movd	%r12d, %xmm2
	pshuflw	$0, %xmm2, %xmm4                # xmm4 = xmm2[0,0,0,0,4,5,6,7]
	pxor	%xmm1, %xmm4
	movdqa	%xmm4, %xmm1
	psrlw	$2, %xmm1
	pxor	%xmm4, %xmm1
	movdqa	l_CPI0_18(%rip), %xmm2          # xmm2 = [4896,4896,u,u,u,u,u,u]
	pand	%xmm2, %xmm1
	movdqa	l_CPI0_19(%rip), %xmm3          # xmm3 = [5,5,u,u,u,u,u,u]
	pmullw	%xmm3, %xmm1
	pxor	%xmm4, %xmm1
	movdqa	%xmm1, %xmm6
	psrlw	$1, %xmm6
	pxor	%xmm1, %xmm6
	movdqa	l_CPI0_20(%rip), %xmm4          # xmm4 = [20560,20560,u,u,u,u,u,u]
	pand	%xmm4, %xmm6
	movdqa	l_CPI0_21(%rip), %xmm5          # xmm5 = [3,3,u,u,u,u,u,u]
	pmullw	%xmm5, %xmm6
	pxor	%xmm1, %xmm6
	movd	%xmm6, %ecx
	movl	%ecx, %r11d
	rolw	$12, %r11w
	xorl	%ebp, %r10d
	pextrw	$1, %xmm6, %edx
	movl	%edx, %eax
	movl	%edx, %esi
	rolw	$12, %ax
	xorl	%ecx, %r11d
	movd	%r9d, %xmm1
	pinsrw	$1, 4(%rsp), %xmm1              # 4-byte Folded Reload
	movd	%ebx, %xmm7
	movdqa	%xmm7, %xmm8
	pinsrw	$1, %r12d, %xmm8
	pxor	%xmm1, %xmm8
	movdqa	%xmm8, %xmm1
	psrlw	$2, %xmm1
	pxor	%xmm8, %xmm1
	pand	%xmm2, %xmm1
	pmullw	%xmm3, %xmm1
	pxor	%xmm8, %xmm1
	movdqa	%xmm1, %xmm8
	psrlw	$1, %xmm8
	pxor	%xmm1, %xmm8
	pand	%xmm4, %xmm8
	pmullw	%xmm5, %xmm8
	pxor	%xmm1, %xmm8
	movd	%r13d, %xmm1
	pinsrw	$1, %eax, %xmm1
	movd	%xmm8, %eax
	movl	%eax, %edx
	rolw	$12, %dx
	pextrw	$1, %xmm8, %r15d
	pxor	%xmm6, %xmm1
	movl	%r15d, %ecx
	rolw	$12, %cx
	movdqa	%xmm1, %xmm6
	psrld	$16, %xmm6
	pinsrw	$1, %ecx, %xmm6
	xorl	%r10d, %esi
	pxor	%xmm8, %xmm6
	pextrw	$1, %xmm6, %ebx
	xorl	%eax, %edx
	xorl	%r11d, %ebp
	xorl	%ebx, %ebp
	movd	%edi, %xmm8
	pinsrw	$1, 40(%rsp), %xmm8             # 4-byte Folded Reload
	pinsrw	$1, %r14d, %xmm7
	xorl	%ebx, %esi
	movl	%esi, 40(%rsp)                  # 4-byte Spill
	pxor	%xmm8, %xmm7
	movdqa	%xmm7, %xmm8
	psrlw	$2, %xmm8
	pxor	%xmm7, %xmm8
	pand	%xmm2, %xmm8
	pmullw	%xmm3, %xmm8
	pxor	%xmm7, %xmm8
	movdqa	%xmm8, %xmm2
	psrlw	$1, %xmm2
	pxor	%xmm8, %xmm2
	pand	%xmm4, %xmm2
	pmullw	%xmm5, %xmm2
	pxor	%xmm8, %xmm2
	pextrw	$1, %xmm2, %r14d
	movl	%r14d, %ecx
	rolw	$12, %cx
	movd	%xmm2, %edi
	movl	%edi, %r9d
	rolw	$12, %r9w
	xorl	%edi, %r9d
	movd	%edx, %xmm3
	pinsrw	$1, %ecx, %xmm3
	pxor	%xmm2, %xmm3
	pextrw	$1, %xmm3, %ecx
	xorl	%ecx, %r8d
	xorl	%ebx, %r14d
	xorl	%ebx, %r8d
	xorl	%r9d, %r15d
	movd	%xmm3, %r12d
	xorl	%r15d, %r11d
	xorl	%r15d, %edx
	movd	%xmm6, %eax
	movl	%eax, (%rsp)                    # 4-byte Spill
	xorl	%eax, %ebx
	movl	%ebx, %edi
	xorl	%r15d, %ebx
	xorl	%r12d, %r15d
	xorl	%r15d, %r13d
	movd	%xmm1, %esi
	pextrw	$1, %xmm1, %eax
	xorl	%esi, %eax
	xorl	%r15d, %eax
	xorl	%r12d, %ecx
	xorl	%r14d, %r11d
	movl	%ecx, %r15d
	rolw	$8, %r15w
	xorl	%r14d, %r15d
	xorl	%ecx, %r15d
	xorl	%r12d, %r10d
	movl	%r13d, %ecx
	rolw	$8, %cx
	xorl	%r8d, %r10d
	xorl	%r8d, %ecx
	xorl	%r13d, %ecx
	movl	%r11d, %r8d
	xorl	%esi, %r11d
	xorl	%ebp, %edx
	rolw	$8, %r8w
	xorl	%r8d, %r11d
	movl	%r10d, %esi
	xorl	%ebp, %r10d
	movl	40(%rsp), %ebp                  # 4-byte Reload
	xorl	%ebp, %r9d
	rolw	$8, %si
	xorl	%esi, %r10d
	movl	%eax, %r8d
	rolw	$8, %r8w
	xorl	%ebp, %r8d
	xorl	%eax, %r8d
	movl	%edx, %eax
	xorl	(%rsp), %edx                    # 4-byte Folded Reload
	rolw	$8, %ax
	xorl	%eax, %edx
	movl	%r9d, %eax
	rolw	$8, %ax
	xorl	%r12d, %r9d
	xorl	%eax, %r9d
	rolw	$8, %di
	xorl	%edi, %ebx
	movzwl	%r15w, %eax
	shll	$16, %ecx
	orl	%eax, %ecx
	movzwl	%r11w, %eax
	shlq	$32, %rax
	orq	%rcx, %rax
	shlq	$48, %r10
	orq	%rax, %r10
	movzwl	%r8w, %eax
	shll	$16, %edx
	orl	%eax, %edx
	movzwl	%r9w, %eax
	shlq	$32, %rax
	orq	%rdx, %rax
	shlq	$48, %rbx
	orq	%rax, %rbx
	movq	%rbx, %xmm1
	movq	%r10, %xmm2
	punpcklqdq	%xmm1, %xmm2            # xmm2 = xmm2[0],xmm1[0]
	movdqa	%xmm2, %xmm3
	punpckhbw	%xmm0, %xmm3            # xmm3 = xmm3[8],xmm0[8],xmm3[9],xmm0[9],xmm3[10],xmm0[10],xmm3[11],xmm0[11],xmm3[12],xmm0[12],xmm3[13],xmm0[13],xmm3[14],xmm0[14],xmm3[15],xmm0[15]
	pslld	$16, %xmm3
	psrld	$16, %xmm3
	movdqa	%xmm2, %xmm1
	punpcklbw	%xmm0, %xmm1            # xmm1 = xmm1[0],xmm0[0],xmm1[1],xmm0[1],xmm1[2],xmm0[2],xmm1[3],xmm0[3],xmm1[4],xmm0[4],xmm1[5],xmm0[5],xmm1[6],xmm0[6],xmm1[7],xmm0[7]
	pslld	$16, %xmm1
	psrld	$16, %xmm1
	packssdw	%xmm3, %xmm1
	psrlw	$8, %xmm2
	packuswb	%xmm2, %xmm1
	movdqa	%xmm1, %xmm5
	movdqa	%xmm1, %xmm4
	movdqa	%xmm1, %xmm3
	movdqa	%xmm1, %xmm0
	movdqa	%xmm1, %xmm2
	movdqa	%xmm1, %xmm6
	pmovmskb	%xmm1, %eax
	psllw	$6, %xmm1
	psllw	$5, %xmm5
	pmovmskb	%xmm5, %ecx
	psllw	$4, %xmm4
	psllw	$7, %xmm6
	pmovmskb	%xmm6, %edx
	pmovmskb	%xmm1, %esi
	shll	$16, %esi
	orl	%edx, %esi
	pmovmskb	%xmm4, %edx
	psllw	$3, %xmm3
	shlq	$32, %rcx
	orq	%rsi, %rcx
	pmovmskb	%xmm3, %esi
	psllw	$2, %xmm0
	paddb	%xmm2, %xmm2
	shlq	$48, %rdx
	orq	%rcx, %rdx
	shll	$16, %eax
	pmovmskb	%xmm2, %ecx
	orl	%eax, %ecx
	pmovmskb	%xmm0, %eax
	shll	$16, %eax
	orl	%esi, %eax
	shlq	$32, %rcx
	orq	%rax, %rcx
	movq	%rcx, %xmm0
	movq	%rdx, %xmm1
	movd	%esi, %xmm2
	movdqa	l_CPI0_22(%rip), %xmm3          # xmm3 = [255,0,255,255,255,255,255,255,255,255,255,255,255,255,255,255]
	pand	%xmm1, %xmm3
	psllw	$8, %xmm2
	por	%xmm3, %xmm2
	punpcklbw	%xmm0, %xmm1            # xmm1 = xmm1[0],xmm0[0],xmm1[1],xmm0[1],xmm1[2],xmm0[2],xmm1[3],xmm0[3],xmm1[4],xmm0[4],xmm1[5],xmm0[5],xmm1[6],xmm0[6],xmm1[7],xmm0[7]
	movdqa	l_CPI0_23(%rip), %xmm0          # xmm0 = [0,65535,65535,65535,65535,65535,65535,65535]
	pand	%xmm0, %xmm1
	pandn	%xmm2, %xmm0
	por	%xmm1, %xmm0
	pxor	1088(%rsp), %xmm0
	movdqa	%xmm0, 544(%rsp)
	leaq	544(%rsp), %rdi
LBB0_270:                              # %"aes_kat::replies::answer.exit.thread24.i"
	leaq	4408(%rsp), %rdx
	xorl	%esi, %esi
	callq	"aes_kat::digits::write_block"
	movq	%rax, %r12
	movq	48(%rsp), %rbp                  # 8-byte Reload
	xorl	%ebx, %ebx
	jmp	LBB0_87
LBB0_271:                              # %arm.7.i33.i.i.i
	movzbl	%bl, %eax
	leaq	241(%rsp), %rsi
	movq	3208(%rsp), %r13
	movq	%r13, %r14
	andq	$-8, %r14
	cmpl	$2, %eax
	movq	48(%rsp), %rbp                  # 8-byte Reload
	pxor	%xmm0, %xmm0
	je	LBB0_291
# %bb.272:                              # %arm.7.i33.i.i.i
	cmpl	$1, %eax
	jne	LBB0_304
# %bb.273:                              # %arm.2.i.i50.i.i.i
	movdqu	%xmm0, 1312(%rsp)
	movdqu	%xmm0, 1296(%rsp)
	movdqu	%xmm0, 1280(%rsp)
	movdqu	%xmm0, 1264(%rsp)
	movdqu	%xmm0, 1248(%rsp)
	movdqu	%xmm0, 1232(%rsp)
	movdqu	%xmm0, 1216(%rsp)
	movdqu	%xmm0, 1200(%rsp)
	movdqu	%xmm0, 1184(%rsp)
	movdqu	%xmm0, 1168(%rsp)
	movdqu	%xmm0, 1152(%rsp)
	movdqu	%xmm0, 1136(%rsp)
	movdqu	%xmm0, 1120(%rsp)
	movdqu	%xmm0, 1104(%rsp)
	leaq	1088(%rsp), %rbx
	movq	%rbx, %rdi
	callq	"aes::fixsliced::FixslicedCountsLayers::expand_counted::<#123648e35348170c>"
	leaq	848(%rsp), %rdi
	movl	$240, %edx
	movq	%rbx, %rsi
	callq	_memcpy
	leaq	1088(%rsp), %rdi
	movl	$1920, %edx                     # imm = 0x780
	xorl	%esi, %esi
	callq	_memset
	testq	%r14, %r14
	je	LBB0_277
# %bb.274:                              # %join.5.i.i.i.i7.i.i.i.i.i.preheader
	xorl	%eax, %eax
LBB0_275:                              # %join.5.i.i.i.i7.i.i.i.i.i
                                        # =>This Inner Loop Header: Depth=1
	movzwl	848(%rsp,%rax), %ecx
	movd	%ecx, %xmm0
	movdqa	%xmm0, %xmm1
	punpcklbw	%xmm0, %xmm1            # xmm1 = xmm1[0],xmm0[0],xmm1[1],xmm0[1],xmm1[2],xmm0[2],xmm1[3],xmm0[3],xmm1[4],xmm0[4],xmm1[5],xmm0[5],xmm1[6],xmm0[6],xmm1[7],xmm0[7]
	pshuflw	$0, %xmm1, %xmm1                # xmm1 = xmm1[0,0,0,0,4,5,6,7]
	psrld	$8, %xmm0
	punpcklbw	%xmm0, %xmm0            # xmm0 = xmm0[0,0,1,1,2,2,3,3,4,4,5,5,6,6,7,7]
	pshuflw	$0, %xmm0, %xmm0                # xmm0 = xmm0[0,0,0,0,4,5,6,7]
	punpcklqdq	%xmm0, %xmm1            # xmm1 = xmm1[0],xmm0[0]
	movdqa	l_CPI0_24(%rip), %xmm0          # xmm0 = [1,2,4,8,16,32,64,128,1,2,4,8,16,32,64,128]
	pand	%xmm0, %xmm1
	pcmpeqb	%xmm0, %xmm1
	movdqa	%xmm1, 1088(%rsp,%rax,8)
	addq	$2, %rax
	cmpq	$208, %rax
	jne	LBB0_275
# %bb.276:                              # %"aes_soft::soft::full::widening::store_widened::<#ac91400744c51dd4>.exit.i.i.i38.i.i.i.i.i"
	leaq	1088(%rsp), %rbx
	leaq	3376(%rsp), %rdx
	movl	$104, %esi
	movq	%rbx, %rdi
	movq	%r14, %rcx
	callq	"aes_soft::soft::blocks::slices::process_batches_outlined::<#7a29a06501f6c419>"
	movq	%rbx, %rdi
	callq	"aes_cipher::zeroize::elements::zeroize_elements::<#c76276a60742133e>"
LBB0_277:                              # %"aes_kat::keys::decrypt_sized::<#123648e35348170c>.exit.i.i.i.i.i"
	movl	%r13d, %ecx
	andl	$7, %ecx
	shlq	$4, %r14
	leaq	(%rsp,%r14), %rdx
	addq	$3376, %rdx                     # imm = 0xD30
	leaq	848(%rsp), %rbx
	movl	$104, %esi
	jmp	LBB0_309
LBB0_278:                              # %arm.7.i521.i.i.i
	movl	474(%rsp), %esi
	movl	478(%rsp), %eax
	pxor	%xmm0, %xmm0
	movdqa	%xmm0, 3600(%rsp)
	movdqa	%xmm0, 3584(%rsp)
	movdqa	%xmm0, 3568(%rsp)
	movdqa	%xmm0, 3552(%rsp)
	movdqa	%xmm0, 3536(%rsp)
	movdqa	%xmm0, 3520(%rsp)
	movdqa	%xmm0, 3504(%rsp)
	movdqa	%xmm0, 3488(%rsp)
	movdqa	%xmm0, 3472(%rsp)
	movdqa	%xmm0, 3456(%rsp)
	movdqa	%xmm0, 3440(%rsp)
	movdqa	%xmm0, 3424(%rsp)
	movdqa	%xmm0, 3408(%rsp)
	movdqa	%xmm0, 3392(%rsp)
	movdqa	%xmm0, 3376(%rsp)
	movdqu	%xmm0, 1312(%rsp)
	movdqu	%xmm0, 1296(%rsp)
	movdqu	%xmm0, 1280(%rsp)
	movdqu	%xmm0, 1264(%rsp)
	movdqu	%xmm0, 1248(%rsp)
	movdqu	%xmm0, 1232(%rsp)
	movdqu	%xmm0, 1216(%rsp)
	movdqu	%xmm0, 1200(%rsp)
	movdqu	%xmm0, 1184(%rsp)
	movdqu	%xmm0, 1168(%rsp)
	movdqu	%xmm0, 1152(%rsp)
	movdqu	%xmm0, 1136(%rsp)
	movdqu	%xmm0, 1120(%rsp)
	movl	%r13d, 1088(%rsp)
	movl	%r12d, 1092(%rsp)
	movl	%ecx, 1096(%rsp)
	movl	%edx, 1100(%rsp)
	movl	%ebx, 1104(%rsp)
	movl	%r8d, 1108(%rsp)
	movl	%esi, 1112(%rsp)
	movl	%eax, 1116(%rsp)
	leaq	1148(%rsp), %r15
	movl	%r12d, %edi
	xorl	%r12d, %r12d
	movl	%ecx, %r14d
LBB0_279:                              # %join.5.i.i.i46.i.i.i.i
                                        # =>This Inner Loop Header: Depth=1
	movl	%esi, 36(%rsp)                  # 4-byte Spill
	movl	%eax, 4(%rsp)                   # 4-byte Spill
	movl	%r8d, 40(%rsp)                  # 4-byte Spill
	movl	%edi, 8(%rsp)                   # 4-byte Spill
	movl	%edx, (%rsp)                    # 4-byte Spill
	movl	%ebx, %ecx
	movl	%ebx, 32(%rsp)                  # 4-byte Spill
	leaq	l_static.10(%rip), %rbx
	movl	%ecx, 12(%rsp)
	movl	%r8d, 16(%rsp)
	movl	%esi, 20(%rsp)
	movl	%eax, 24(%rsp)
	leaq	l_static.12(%rip), %rsi
	leaq	12(%rsp), %rbp
	movq	%rbp, %rdi
	callq	"aes::hazmat::cipher_round"
	movq	%rbp, %rdi
	callq	"aes::hazmat::inv_mix_columns"
	movzbl	21(%rsp), %eax
	movzbl	18(%rsp), %ecx
	movzbl	15(%rsp), %edx
	movl	24(%rsp), %esi
	xorb	(%r12,%rbx), %al
	shll	$24, %esi
	shll	$16, %edx
	shll	$8, %ecx
	movzbl	%al, %eax
	orl	%esi, %eax
	orl	%ecx, %eax
	orl	%edx, %eax
	xorl	%eax, %r13d
	movl	%r13d, %ebx
	xorl	8(%rsp), %ebx                   # 4-byte Folded Reload
	xorl	%ebx, %r14d
	movl	%r14d, %ebp
	xorl	(%rsp), %ebp                    # 4-byte Folded Reload
	movl	%r13d, -28(%r15)
	movl	%ebx, -24(%r15)
	movl	%r14d, -20(%r15)
	movl	%ebp, -16(%r15)
	movl	%r13d, 12(%rsp)
	movl	%ebx, 16(%rsp)
	movl	%r14d, 20(%rsp)
	movl	%ebp, 24(%rsp)
	leaq	12(%rsp), %rdi
	leaq	l_static.12(%rip), %rsi
	callq	"aes::hazmat::cipher_round"
	leaq	12(%rsp), %rdi
	callq	"aes::hazmat::inv_mix_columns"
	movl	%ebx, %edi
	movl	36(%rsp), %esi                  # 4-byte Reload
	movl	40(%rsp), %r8d                  # 4-byte Reload
	movzbl	24(%rsp), %eax
	movzbl	21(%rsp), %ebx
	movzbl	18(%rsp), %ecx
	movzbl	15(%rsp), %edx
	shll	$24, %edx
	shll	$16, %ecx
	shll	$8, %ebx
	orl	%eax, %ebx
	movl	4(%rsp), %eax                   # 4-byte Reload
	orl	%ecx, %ebx
	orl	%edx, %ebx
	movl	%ebp, %edx
	xorl	32(%rsp), %ebx                  # 4-byte Folded Reload
	xorl	%ebx, %r8d
	xorl	%r8d, %esi
	xorl	%esi, %eax
	movl	%ebx, -12(%r15)
	movl	%r8d, -8(%r15)
	movl	%esi, -4(%r15)
	movl	%eax, (%r15)
	incq	%r12
	addq	$32, %r15
	cmpq	$6, %r12
	jne	LBB0_279
# %bb.280:                              # %"aes::expansion::expand_256.exit.i.i.i.i"
	movl	%ebx, 12(%rsp)
	movl	%r8d, 16(%rsp)
	movl	%esi, 20(%rsp)
	movl	%eax, 24(%rsp)
	leaq	l_static.12(%rip), %rsi
	leaq	12(%rsp), %rbx
	movq	%rbx, %rdi
	callq	"aes::hazmat::cipher_round"
	movq	%rbx, %rdi
	callq	"aes::hazmat::inv_mix_columns"
	movzbl	21(%rsp), %eax
	movzbl	18(%rsp), %ecx
	movzbl	15(%rsp), %edx
	movl	24(%rsp), %esi
	xorl	$64, %eax
	shll	$24, %esi
	orl	%eax, %esi
	shll	$16, %edx
	shll	$8, %ecx
	orl	%esi, %ecx
	orl	%edx, %ecx
	xorl	%ecx, %r13d
	xorl	8(%rsp), %ecx                   # 4-byte Folded Reload
	xorl	%ecx, %r14d
	movl	(%rsp), %eax                    # 4-byte Reload
	xorl	%ecx, %eax
	movl	%r13d, 1312(%rsp)
	movl	%ecx, 1316(%rsp)
	movl	%r14d, 1320(%rsp)
	movl	%eax, 1324(%rsp)
	leaq	3376(%rsp), %rbx
	leaq	1088(%rsp), %rsi
	movl	$240, %edx
	movq	%rbx, %rdi
	callq	_memcpy
	leaq	848(%rsp), %r14
	movl	$240, %edx
	movq	%r14, %rdi
	movq	%rbx, %rsi
	callq	_memcpy
	leaq	608(%rsp), %rdi
	movl	$240, %edx
	movq	%r14, %rsi
	callq	_memcpy
	xorl	%r13d, %r13d
	leaq	4408(%rsp), %rbx
	movq	%r14, %rdi
	xorl	%esi, %esi
	movq	%rbx, %rdx
	callq	"aes_kat::digits::write_block"
	movb	$32, 4408(%rsp,%rax)
	leaq	1(%rax), %rsi
	leaq	624(%rsp), %rdi
	movq	%rbx, %rdx
	callq	"aes_kat::digits::write_block"
	movb	$32, 4408(%rsp,%rax)
	leaq	1(%rax), %rsi
	leaq	640(%rsp), %rdi
	movq	%rbx, %rdx
	callq	"aes_kat::digits::write_block"
	movb	$32, 4408(%rsp,%rax)
	leaq	1(%rax), %rsi
	leaq	656(%rsp), %rdi
	movq	%rbx, %rdx
	callq	"aes_kat::digits::write_block"
	movb	$32, 4408(%rsp,%rax)
	leaq	1(%rax), %rsi
	leaq	672(%rsp), %rdi
	movq	%rbx, %rdx
	callq	"aes_kat::digits::write_block"
	movb	$32, 4408(%rsp,%rax)
	leaq	1(%rax), %rsi
	leaq	688(%rsp), %rdi
	movq	%rbx, %rdx
	callq	"aes_kat::digits::write_block"
	movb	$32, 4408(%rsp,%rax)
	leaq	1(%rax), %rsi
	leaq	704(%rsp), %rdi
	movq	%rbx, %rdx
	callq	"aes_kat::digits::write_block"
	movb	$32, 4408(%rsp,%rax)
	leaq	1(%rax), %rsi
	leaq	720(%rsp), %rdi
	movq	%rbx, %rdx
	callq	"aes_kat::digits::write_block"
	movb	$32, 4408(%rsp,%rax)
	leaq	1(%rax), %rsi
	leaq	736(%rsp), %rdi
	movq	%rbx, %rdx
	callq	"aes_kat::digits::write_block"
	movb	$32, 4408(%rsp,%rax)
	leaq	1(%rax), %rsi
	leaq	752(%rsp), %rdi
	movq	%rbx, %rdx
	callq	"aes_kat::digits::write_block"
	movb	$32, 4408(%rsp,%rax)
	leaq	1(%rax), %rsi
	leaq	768(%rsp), %rdi
	movq	%rbx, %rdx
	callq	"aes_kat::digits::write_block"
	movb	$32, 4408(%rsp,%rax)
	leaq	1(%rax), %rsi
	leaq	784(%rsp), %rdi
	movq	%rbx, %rdx
	callq	"aes_kat::digits::write_block"
	movb	$32, 4408(%rsp,%rax)
	leaq	1(%rax), %rsi
	leaq	800(%rsp), %rdi
	movq	%rbx, %rdx
	callq	"aes_kat::digits::write_block"
	movb	$32, 4408(%rsp,%rax)
	leaq	1(%rax), %rsi
	leaq	816(%rsp), %rdi
	movq	%rbx, %rdx
	callq	"aes_kat::digits::write_block"
	movb	$32, 4408(%rsp,%rax)
	leaq	1(%rax), %rsi
	leaq	832(%rsp), %rdi
	jmp	LBB0_284
LBB0_281:                              # %arm.5.i.i.i.i
	pxor	%xmm0, %xmm0
	movdqa	%xmm0, 3536(%rsp)
	movdqa	%xmm0, 3520(%rsp)
	movdqa	%xmm0, 3504(%rsp)
	movdqa	%xmm0, 3488(%rsp)
	movdqa	%xmm0, 3472(%rsp)
	movdqa	%xmm0, 3456(%rsp)
	movdqa	%xmm0, 3440(%rsp)
	movdqa	%xmm0, 3424(%rsp)
	movdqa	%xmm0, 3408(%rsp)
	movdqa	%xmm0, 3392(%rsp)
	movdqa	%xmm0, 3376(%rsp)
	movdqu	%xmm0, 1248(%rsp)
	movdqu	%xmm0, 1232(%rsp)
	movdqu	%xmm0, 1216(%rsp)
	movdqu	%xmm0, 1200(%rsp)
	movdqu	%xmm0, 1184(%rsp)
	movdqu	%xmm0, 1168(%rsp)
	movdqu	%xmm0, 1152(%rsp)
	movdqu	%xmm0, 1136(%rsp)
	movdqu	%xmm0, 1120(%rsp)
	movdqu	%xmm0, 1104(%rsp)
	movl	%r13d, 1088(%rsp)
	movl	%r12d, 1092(%rsp)
	movl	%ecx, 1096(%rsp)
	movl	%edx, 1100(%rsp)
	leaq	1116(%rsp), %r14
	xorl	%r15d, %r15d
LBB0_282:                              # %join.5.i.i.i.i36.i.i
                                        # =>This Inner Loop Header: Depth=1
	movl	%edx, (%rsp)                    # 4-byte Spill
	movl	%ecx, 8(%rsp)                   # 4-byte Spill
	movl	%r13d, %ebp
	leaq	l_static.10(%rip), %r13
	movl	%ebp, 12(%rsp)
	movl	%r12d, 16(%rsp)
	movl	%ecx, 20(%rsp)
	movl	%edx, 24(%rsp)
	leaq	l_static.12(%rip), %rsi
	leaq	12(%rsp), %rbx
	movq	%rbx, %rdi
	callq	"aes::hazmat::cipher_round"
	movq	%rbx, %rdi
	callq	"aes::hazmat::inv_mix_columns"
	movzbl	21(%rsp), %eax
	movzbl	18(%rsp), %ecx
	movzbl	15(%rsp), %edx
	movl	24(%rsp), %esi
	xorb	(%r15,%r13), %al
	shll	$24, %esi
	shll	$16, %edx
	shll	$8, %ecx
	movzbl	%al, %r13d
	orl	%esi, %r13d
	orl	%ecx, %r13d
	movl	8(%rsp), %ecx                   # 4-byte Reload
	orl	%edx, %r13d
	movl	(%rsp), %edx                    # 4-byte Reload
	xorl	%ebp, %r13d
	xorl	%r13d, %r12d
	xorl	%r12d, %ecx
	xorl	%ecx, %edx
	incq	%r15
	movl	%r13d, -12(%r14)
	movl	%r12d, -8(%r14)
	movl	%ecx, -4(%r14)
	movl	%edx, (%r14)
	addq	$16, %r14
	cmpq	$10, %r15
	jne	LBB0_282
# %bb.283:                              # %"aes::expansion::expand_128.exit.i.i.i.i"
	leaq	3376(%rsp), %rbx
	leaq	1088(%rsp), %rsi
	movl	$176, %edx
	movq	%rbx, %rdi
	callq	_memcpy
	leaq	3200(%rsp), %r14
	movl	$176, %edx
	movq	%r14, %rdi
	movq	%rbx, %rsi
	callq	_memcpy
	leaq	3024(%rsp), %rdi
	movl	$176, %edx
	movq	%r14, %rsi
	callq	_memcpy
	xorl	%r13d, %r13d
	leaq	4408(%rsp), %rbx
	movq	%r14, %rdi
	xorl	%esi, %esi
	movq	%rbx, %rdx
	callq	"aes_kat::digits::write_block"
	movb	$32, 4408(%rsp,%rax)
	leaq	1(%rax), %rsi
	leaq	3040(%rsp), %rdi
	movq	%rbx, %rdx
	callq	"aes_kat::digits::write_block"
	movb	$32, 4408(%rsp,%rax)
	leaq	1(%rax), %rsi
	leaq	3056(%rsp), %rdi
	movq	%rbx, %rdx
	callq	"aes_kat::digits::write_block"
	movb	$32, 4408(%rsp,%rax)
	leaq	1(%rax), %rsi
	leaq	3072(%rsp), %rdi
	movq	%rbx, %rdx
	callq	"aes_kat::digits::write_block"
	movb	$32, 4408(%rsp,%rax)
	leaq	1(%rax), %rsi
	leaq	3088(%rsp), %rdi
	movq	%rbx, %rdx
	callq	"aes_kat::digits::write_block"
	movb	$32, 4408(%rsp,%rax)
	leaq	1(%rax), %rsi
	leaq	3104(%rsp), %rdi
	movq	%rbx, %rdx
	callq	"aes_kat::digits::write_block"
	movb	$32, 4408(%rsp,%rax)
	leaq	1(%rax), %rsi
	leaq	3120(%rsp), %rdi
	movq	%rbx, %rdx
	callq	"aes_kat::digits::write_block"
	movb	$32, 4408(%rsp,%rax)
	leaq	1(%rax), %rsi
	leaq	3136(%rsp), %rdi
	movq	%rbx, %rdx
	callq	"aes_kat::digits::write_block"
	movb	$32, 4408(%rsp,%rax)
	leaq	1(%rax), %rsi
	leaq	3152(%rsp), %rdi
	movq	%rbx, %rdx
	callq	"aes_kat::digits::write_block"
	movb	$32, 4408(%rsp,%rax)
	leaq	1(%rax), %rsi
	leaq	3168(%rsp), %rdi
	movq	%rbx, %rdx
	callq	"aes_kat::digits::write_block"
	movb	$32, 4408(%rsp,%rax)
	leaq	1(%rax), %rsi
	leaq	3184(%rsp), %rdi
LBB0_284:                              # %"aes_kat::replies::answer_sched.exit.i.i.i"
	movq	%rbx, %rdx
LBB0_285:                              # %"aes_kat::replies::answer_sched.exit.i.i.i"
	callq	"aes_kat::digits::write_block"
	movq	%rax, %r12
	movb	$32, 4408(%rsp,%rax)
	xorl	%ebx, %ebx
	movq	48(%rsp), %rbp                  # 8-byte Reload
	jmp	LBB0_314
LBB0_286:                              # %arm.3.i.i.i46.i.i
	movdqu	%xmm0, 1312(%rsp)
	movdqu	%xmm0, 1296(%rsp)
	movdqu	%xmm0, 1280(%rsp)
	movdqu	%xmm0, 1264(%rsp)
	movdqu	%xmm0, 1248(%rsp)
	movdqu	%xmm0, 1232(%rsp)
	movdqu	%xmm0, 1216(%rsp)
	movdqu	%xmm0, 1200(%rsp)
	movdqu	%xmm0, 1184(%rsp)
	movdqu	%xmm0, 1168(%rsp)
	movdqu	%xmm0, 1152(%rsp)
	movdqu	%xmm0, 1136(%rsp)
	movdqu	%xmm0, 1120(%rsp)
	movdqu	%xmm0, 1104(%rsp)
	leaq	1088(%rsp), %rbx
	movq	%rbx, %rdi
	callq	"aes::fixsliced::FixslicedCountsLayers::expand_counted::<#7eef6ffa698b135b>"
	leaq	848(%rsp), %rdi
	movl	$240, %edx
	movq	%rbx, %rsi
	callq	_memcpy
	leaq	1088(%rsp), %rdi
	movl	$1920, %edx                     # imm = 0x780
	xorl	%esi, %esi
	callq	_memset
	testq	%r14, %r14
	je	LBB0_290
# %bb.287:                              # %join.5.i.i.i39.i.i.i.i.i.preheader
	xorl	%eax, %eax
LBB0_288:                              # %join.5.i.i.i39.i.i.i.i.i
                                        # =>This Inner Loop Header: Depth=1
	movzwl	848(%rsp,%rax), %ecx
	movd	%ecx, %xmm0
	movdqa	%xmm0, %xmm1
	punpcklbw	%xmm0, %xmm1            # xmm1 = xmm1[0],xmm0[0],xmm1[1],xmm0[1],xmm1[2],xmm0[2],xmm1[3],xmm0[3],xmm1[4],xmm0[4],xmm1[5],xmm0[5],xmm1[6],xmm0[6],xmm1[7],xmm0[7]
	pshuflw	$0, %xmm1, %xmm1                # xmm1 = xmm1[0,0,0,0,4,5,6,7]
	psrld	$8, %xmm0
	punpcklbw	%xmm0, %xmm0            # xmm0 = xmm0[0,0,1,1,2,2,3,3,4,4,5,5,6,6,7,7]
	pshuflw	$0, %xmm0, %xmm0                # xmm0 = xmm0[0,0,0,0,4,5,6,7]
	punpcklqdq	%xmm0, %xmm1            # xmm1 = xmm1[0],xmm0[0]
	movdqa	l_CPI0_24(%rip), %xmm0          # xmm0 = [1,2,4,8,16,32,64,128,1,2,4,8,16,32,64,128]
	pand	%xmm0, %xmm1
	pcmpeqb	%xmm0, %xmm1
	movdqa	%xmm1, 1088(%rsp,%rax,8)
	addq	$2, %rax
	cmpq	$240, %rax
	jne	LBB0_288
# %bb.289:                              # %"aes_soft::soft::full::widening::store_widened::<#ac91400744c51dd4>.exit.i.i70.i.i.i.i.i"
	leaq	1088(%rsp), %rbx
	leaq	3376(%rsp), %rdx
	movl	$120, %esi
	movq	%rbx, %rdi
	movq	%r14, %rcx
	callq	"aes_soft::soft::blocks::slices::process_batches_outlined::<#6c9505ca656cc68d>"
	movq	%rbx, %rdi
	callq	"aes_cipher::zeroize::elements::zeroize_elements::<#c76276a60742133e>"
LBB0_290:                              # %"aes_kat::keys::encrypt_sized::<#7eef6ffa698b135b>.exit.i.i.i.i.i"
	movl	%r13d, %ecx
	andl	$7, %ecx
	shlq	$4, %r14
	leaq	(%rsp,%r14), %rdx
	addq	$3376, %rdx                     # imm = 0xD30
	leaq	848(%rsp), %rbx
	movl	$120, %esi
	jmp	LBB0_301
LBB0_291:                              # %arm.3.i.i36.i.i.i
	movdqu	%xmm0, 1312(%rsp)
	movdqu	%xmm0, 1296(%rsp)
	movdqu	%xmm0, 1280(%rsp)
	movdqu	%xmm0, 1264(%rsp)
	movdqu	%xmm0, 1248(%rsp)
	movdqu	%xmm0, 1232(%rsp)
	movdqu	%xmm0, 1216(%rsp)
	movdqu	%xmm0, 1200(%rsp)
	movdqu	%xmm0, 1184(%rsp)
	movdqu	%xmm0, 1168(%rsp)
	movdqu	%xmm0, 1152(%rsp)
	movdqu	%xmm0, 1136(%rsp)
	movdqu	%xmm0, 1120(%rsp)
	movdqu	%xmm0, 1104(%rsp)
	leaq	1088(%rsp), %rbx
	movq	%rbx, %rdi
	callq	"aes::fixsliced::FixslicedCountsLayers::expand_counted::<#7eef6ffa698b135b>"
	leaq	848(%rsp), %rdi
	movl	$240, %edx
	movq	%rbx, %rsi
	callq	_memcpy
	leaq	1088(%rsp), %rdi
	movl	$1920, %edx                     # imm = 0x780
	xorl	%esi, %esi
	callq	_memset
	testq	%r14, %r14
	je	LBB0_295
# %bb.292:                              # %join.5.i.i.i.i48.i.i.i.i.i.preheader
	xorl	%eax, %eax
LBB0_293:                              # %join.5.i.i.i.i48.i.i.i.i.i
                                        # =>This Inner Loop Header: Depth=1
	movzwl	848(%rsp,%rax), %ecx
	movd	%ecx, %xmm0
	movdqa	%xmm0, %xmm1
	punpcklbw	%xmm0, %xmm1            # xmm1 = xmm1[0],xmm0[0],xmm1[1],xmm0[1],xmm1[2],xmm0[2],xmm1[3],xmm0[3],xmm1[4],xmm0[4],xmm1[5],xmm0[5],xmm1[6],xmm0[6],xmm1[7],xmm0[7]
	pshuflw	$0, %xmm1, %xmm1                # xmm1 = xmm1[0,0,0,0,4,5,6,7]
	psrld	$8, %xmm0
	punpcklbw	%xmm0, %xmm0            # xmm0 = xmm0[0,0,1,1,2,2,3,3,4,4,5,5,6,6,7,7]
	pshuflw	$0, %xmm0, %xmm0                # xmm0 = xmm0[0,0,0,0,4,5,6,7]
	punpcklqdq	%xmm0, %xmm1            # xmm1 = xmm1[0],xmm0[0]
	movdqa	l_CPI0_24(%rip), %xmm0          # xmm0 = [1,2,4,8,16,32,64,128,1,2,4,8,16,32,64,128]
	pand	%xmm0, %xmm1
	pcmpeqb	%xmm0, %xmm1
	movdqa	%xmm1, 1088(%rsp,%rax,8)
	addq	$2, %rax
	cmpq	$240, %rax
	jne	LBB0_293
# %bb.294:                              # %"aes_soft::soft::full::widening::store_widened::<#ac91400744c51dd4>.exit.i.i.i79.i.i.i.i.i"
	leaq	1088(%rsp), %rbx
	leaq	3376(%rsp), %rdx
	movl	$120, %esi
	movq	%rbx, %rdi
	movq	%r14, %rcx
	callq	"aes_soft::soft::blocks::slices::process_batches_outlined::<#7a29a06501f6c419>"
	movq	%rbx, %rdi
	callq	"aes_cipher::zeroize::elements::zeroize_elements::<#c76276a60742133e>"
LBB0_295:                              # %"aes_kat::keys::decrypt_sized::<#7eef6ffa698b135b>.exit.i.i.i.i.i"
	movl	%r13d, %ecx
	andl	$7, %ecx
	shlq	$4, %r14
	leaq	(%rsp,%r14), %rdx
	addq	$3376, %rdx                     # imm = 0xD30
	leaq	848(%rsp), %rbx
	movl	$120, %esi
	jmp	LBB0_309
LBB0_296:                              # %arm.1.i6.i.i.i.i
	movdqu	%xmm0, 1312(%rsp)
	movdqu	%xmm0, 1296(%rsp)
	movdqu	%xmm0, 1280(%rsp)
	movdqu	%xmm0, 1264(%rsp)
	movdqu	%xmm0, 1248(%rsp)
	movdqu	%xmm0, 1232(%rsp)
	movdqu	%xmm0, 1216(%rsp)
	movdqu	%xmm0, 1200(%rsp)
	movdqu	%xmm0, 1184(%rsp)
	movdqu	%xmm0, 1168(%rsp)
	movdqu	%xmm0, 1152(%rsp)
	movdqu	%xmm0, 1136(%rsp)
	movdqu	%xmm0, 1120(%rsp)
	movdqu	%xmm0, 1104(%rsp)
	leaq	1088(%rsp), %rbx
	movq	%rbx, %rdi
	callq	"aes::fixsliced::FixslicedCountsLayers::expand_counted::<#952d88c9917220e5>"
	leaq	848(%rsp), %rdi
	movl	$240, %edx
	movq	%rbx, %rsi
	callq	_memcpy
	leaq	1088(%rsp), %rdi
	movl	$1920, %edx                     # imm = 0x780
	xorl	%esi, %esi
	callq	_memset
	testq	%r14, %r14
	je	LBB0_300
# %bb.297:                              # %join.5.i.i.i.i.i.i.i.i.preheader
	xorl	%eax, %eax
LBB0_298:                              # %join.5.i.i.i.i.i.i.i.i
                                        # =>This Inner Loop Header: Depth=1
	movzwl	848(%rsp,%rax), %ecx
	movd	%ecx, %xmm0
	movdqa	%xmm0, %xmm1
	punpcklbw	%xmm0, %xmm1            # xmm1 = xmm1[0],xmm0[0],xmm1[1],xmm0[1],xmm1[2],xmm0[2],xmm1[3],xmm0[3],xmm1[4],xmm0[4],xmm1[5],xmm0[5],xmm1[6],xmm0[6],xmm1[7],xmm0[7]
	pshuflw	$0, %xmm1, %xmm1                # xmm1 = xmm1[0,0,0,0,4,5,6,7]
	psrld	$8, %xmm0
	punpcklbw	%xmm0, %xmm0            # xmm0 = xmm0[0,0,1,1,2,2,3,3,4,4,5,5,6,6,7,7]
	pshuflw	$0, %xmm0, %xmm0                # xmm0 = xmm0[0,0,0,0,4,5,6,7]
	punpcklqdq	%xmm0, %xmm1            # xmm1 = xmm1[0],xmm0[0]
	movdqa	l_CPI0_24(%rip), %xmm0          # xmm0 = [1,2,4,8,16,32,64,128,1,2,4,8,16,32,64,128]
	pand	%xmm0, %xmm1
	pcmpeqb	%xmm0, %xmm1
	movdqa	%xmm1, 1088(%rsp,%rax,8)
	addq	$2, %rax
	cmpq	$176, %rax
	jne	LBB0_298
# %bb.299:                              # %"aes_soft::soft::full::widening::store_widened::<#ac91400744c51dd4>.exit.i.i.i.i.i.i.i"
	leaq	1088(%rsp), %rbx
	leaq	3376(%rsp), %rdx
	movl	$88, %esi
	movq	%rbx, %rdi
	movq	%r14, %rcx
	callq	"aes_soft::soft::blocks::slices::process_batches_outlined::<#6c9505ca656cc68d>"
	movq	%rbx, %rdi
	callq	"aes_cipher::zeroize::elements::zeroize_elements::<#c76276a60742133e>"
LBB0_300:                              # %"aes_kat::keys::encrypt_sized::<#952d88c9917220e5>.exit.i.i.i.i.i"
	movl	%r13d, %ecx
	andl	$7, %ecx
	shlq	$4, %r14
	leaq	(%rsp,%r14), %rdx
	addq	$3376, %rdx                     # imm = 0xD30
	leaq	848(%rsp), %rbx
	movl	$88, %esi
LBB0_301:                              # %"aes_kat::keys::Key::encrypt.exit.i.i.i.i"
	movq	%rbx, %rdi
	callq	"aes_soft::soft::blocks::slices::process_batches_outlined::<#c44f11ce38a8a6aa>"
	callq	"aes_cipher::zeroize::stack::wipe_stack::<=1024>"
	leaq	1088(%rsp), %r14
	movl	$240, %edx
	movq	%r14, %rdi
	movq	%rbx, %rsi
	callq	_memcpy
	movq	%r14, %rdi
	callq	"aes_cipher::zeroize::elements::zeroize_elements::<#1271021761a49af4>"
	testq	%r13, %r13
	je	LBB0_313
# %bb.302:                              # %join.6.i.i.i47.i.i.preheader
	xorl	%r12d, %r12d
LBB0_303:                              # %join.6.i.i.i47.i.i
                                        # =>This Inner Loop Header: Depth=1
	leaq	4408(%rsp), %rdx
	movq	%r15, %rdi
	movq	%r12, %rsi
	callq	"aes_kat::digits::write_block"
	movq	%rax, %r12
	addq	$16, %r15
	decq	%r13
	jne	LBB0_303
	jmp	LBB0_312
LBB0_304:                              # %arm.1.i6.i51.i.i.i
	movdqu	%xmm0, 1312(%rsp)
	movdqu	%xmm0, 1296(%rsp)
	movdqu	%xmm0, 1280(%rsp)
	movdqu	%xmm0, 1264(%rsp)
	movdqu	%xmm0, 1248(%rsp)
	movdqu	%xmm0, 1232(%rsp)
	movdqu	%xmm0, 1216(%rsp)
	movdqu	%xmm0, 1200(%rsp)
	movdqu	%xmm0, 1184(%rsp)
	movdqu	%xmm0, 1168(%rsp)
	movdqu	%xmm0, 1152(%rsp)
	movdqu	%xmm0, 1136(%rsp)
	movdqu	%xmm0, 1120(%rsp)
	movdqu	%xmm0, 1104(%rsp)
	leaq	1088(%rsp), %rbx
	movq	%rbx, %rdi
	callq	"aes::fixsliced::FixslicedCountsLayers::expand_counted::<#952d88c9917220e5>"
	leaq	848(%rsp), %rdi
	movl	$240, %edx
	movq	%rbx, %rsi
	callq	_memcpy
	leaq	1088(%rsp), %rdi
	movl	$1920, %edx                     # imm = 0x780
	xorl	%esi, %esi
	callq	_memset
	testq	%r14, %r14
	je	LBB0_308
# %bb.305:                              # %join.5.i.i.i.i.i.i.i.i.i.preheader
	xorl	%eax, %eax
LBB0_306:                              # %join.5.i.i.i.i.i.i.i.i.i
                                        # =>This Inner Loop Header: Depth=1
	movzwl	848(%rsp,%rax), %ecx
	movd	%ecx, %xmm0
	movdqa	%xmm0, %xmm1
	punpcklbw	%xmm0, %xmm1            # xmm1 = xmm1[0],xmm0[0],xmm1[1],xmm0[1],xmm1[2],xmm0[2],xmm1[3],xmm0[3],xmm1[4],xmm0[4],xmm1[5],xmm0[5],xmm1[6],xmm0[6],xmm1[7],xmm0[7]
	pshuflw	$0, %xmm1, %xmm1                # xmm1 = xmm1[0,0,0,0,4,5,6,7]
	psrld	$8, %xmm0
	punpcklbw	%xmm0, %xmm0            # xmm0 = xmm0[0,0,1,1,2,2,3,3,4,4,5,5,6,6,7,7]
	pshuflw	$0, %xmm0, %xmm0                # xmm0 = xmm0[0,0,0,0,4,5,6,7]
	punpcklqdq	%xmm0, %xmm1            # xmm1 = xmm1[0],xmm0[0]
	movdqa	l_CPI0_24(%rip), %xmm0          # xmm0 = [1,2,4,8,16,32,64,128,1,2,4,8,16,32,64,128]
	pand	%xmm0, %xmm1
	pcmpeqb	%xmm0, %xmm1
	movdqa	%xmm1, 1088(%rsp,%rax,8)
	addq	$2, %rax
	cmpq	$176, %rax
	jne	LBB0_306
# %bb.307:                              # %"aes_soft::soft::full::widening::store_widened::<#ac91400744c51dd4>.exit.i.i.i.i.i.i.i.i"
	leaq	1088(%rsp), %rbx
	leaq	3376(%rsp), %rdx
	movl	$88, %esi
	movq	%rbx, %rdi
	movq	%r14, %rcx
	callq	"aes_soft::soft::blocks::slices::process_batches_outlined::<#7a29a06501f6c419>"
	movq	%rbx, %rdi
	callq	"aes_cipher::zeroize::elements::zeroize_elements::<#c76276a60742133e>"
LBB0_308:                              # %"aes_kat::keys::decrypt_sized::<#952d88c9917220e5>.exit.i.i.i.i.i"
	movl	%r13d, %ecx
	andl	$7, %ecx
	shlq	$4, %r14
	leaq	(%rsp,%r14), %rdx
	addq	$3376, %rdx                     # imm = 0xD30
	leaq	848(%rsp), %rbx
	movl	$88, %esi
LBB0_309:                              # %"aes_kat::keys::Key::decrypt.exit.i.i.i.i"
	movq	%rbx, %rdi
	callq	"aes_soft::soft::blocks::slices::process_batches_outlined::<#271f1d06ba461252>"
	callq	"aes_cipher::zeroize::stack::wipe_stack::<=1024>"
	leaq	1088(%rsp), %r14
	movl	$240, %edx
	movq	%r14, %rdi
	movq	%rbx, %rsi
	callq	_memcpy
	movq	%r14, %rdi
	callq	"aes_cipher::zeroize::elements::zeroize_elements::<#1271021761a49af4>"
	testq	%r13, %r13
	je	LBB0_313
# %bb.310:                              # %join.6.i.i38.i.i.i.preheader
	xorl	%r12d, %r12d
LBB0_311:                              # %join.6.i.i38.i.i.i
                                        # =>This Inner Loop Header: Depth=1
	leaq	4408(%rsp), %rdx
	movq	%r15, %rdi
	movq	%r12, %rsi
	callq	"aes_kat::digits::write_block"
	movq	%rax, %r12
	addq	$16, %r15
	decq	%r13
	jne	LBB0_311
LBB0_312:
	xorl	%r13d, %r13d
	xorl	%ebx, %ebx
	jmp	LBB0_314
LBB0_313:
	xorl	%r13d, %r13d
	xorl	%ebx, %ebx
	xorl	%r12d, %r12d
LBB0_314:                              # %"aes_kat::replies::answer.exit.i"
	testb	%r13b, %r13b
	je	LBB0_316
# %bb.315:                              # %switch.lookup
	leaq	"l_switch.table.aes_kat::runs::append_reply_line::<#0e4b5268c400607d>"(%rip), %rax
	movzbl	%bl, %ecx
	movq	(%rax,%rcx,8), %r12
	leaq	"l_switch.table.aes_kat::runs::append_reply_line::<#0e4b5268c400607d>.104.rel"(%rip), %rax
	movslq	(%rax,%rcx,4), %r13
	addq	%rax, %r13
	jmp	LBB0_86
LBB0_316:
	xorl	%ebx, %ebx
	jmp	LBB0_87
LBB0_317:                              # %arm.2.i.i.i.i.i.i
	ud2
	.section	__TEXT,__const
	.p2align	2, 0x0
l_JTI0_0:
	.long	LBB0_9-l_JTI0_0
	.long	LBB0_86-l_JTI0_0
	.long	LBB0_23-l_JTI0_0
	.long	LBB0_39-l_JTI0_0
	.long	LBB0_86-l_JTI0_0
	.long	LBB0_27-l_JTI0_0
l_JTI0_1:
	.long	LBB0_16-l_JTI0_1
	.long	LBB0_86-l_JTI0_1
	.long	LBB0_23-l_JTI0_1
	.long	LBB0_39-l_JTI0_1
	.long	LBB0_86-l_JTI0_1
	.long	LBB0_27-l_JTI0_1
l_JTI0_2:
	.long	LBB0_32-l_JTI0_2
	.long	LBB0_86-l_JTI0_2
	.long	LBB0_23-l_JTI0_2
	.long	LBB0_39-l_JTI0_2
	.long	LBB0_86-l_JTI0_2
	.long	LBB0_27-l_JTI0_2
l_JTI0_3:
	.long	LBB0_32-l_JTI0_3
	.long	LBB0_86-l_JTI0_3
	.long	LBB0_42-l_JTI0_3
	.long	LBB0_39-l_JTI0_3
	.long	LBB0_86-l_JTI0_3
	.long	LBB0_27-l_JTI0_3
l_JTI0_4:
	.long	LBB0_126-l_JTI0_4
	.long	LBB0_195-l_JTI0_4
	.long	LBB0_155-l_JTI0_4
	.long	LBB0_175-l_JTI0_4
	.long	LBB0_135-l_JTI0_4
	.long	LBB0_199-l_JTI0_4
	.long	LBB0_219-l_JTI0_4
                                        # -- End function
	.section	__TEXT,__text,regular,pure_instructions
	.p2align	4                               # -- Begin function core::cmp::slices::groups_equal::<i8,31'core::cmp::numbers::U8PartialEq{}>
"core::cmp::slices::groups_equal::<i8,31'core::cmp::numbers::U8PartialEq{}>": # @"core::cmp::slices::groups_equal::<i8,31'core::cmp::numbers::U8PartialEq{}>"
# %bb.0:                                # %start
	cmpq	$8, %rsi
	ja	LBB1_2
# %bb.1:                                # %join.5.i.i.preheader
	movd	-4(%rdi,%rsi), %xmm0            # xmm0 = mem[0],zero,zero,zero
	movd	(%rdi), %xmm1                   # xmm1 = mem[0],zero,zero,zero
	punpckldq	%xmm0, %xmm1            # xmm1 = xmm1[0],xmm0[0],xmm1[1],xmm0[1]
	movd	-4(%rdx,%rsi), %xmm0            # xmm0 = mem[0],zero,zero,zero
	movd	(%rdx), %xmm2                   # xmm2 = mem[0],zero,zero,zero
	punpckldq	%xmm0, %xmm2            # xmm2 = xmm2[0],xmm0[0],xmm2[1],xmm0[1]
	movq	%xmm1, %rax
	movq	%xmm2, %rcx
	cmpq	%rcx, %rax
	jmp	LBB1_17
LBB1_2:                                # %join.12.i
	cmpq	$32, %rsi
	ja	LBB1_4
# %bb.3:                                # %then.13.i
	leaq	-8(%rsi), %rax
	cmpq	$8, %rax
	movl	$8, %ecx
	cmovbq	%rax, %rcx
	cmpq	$16, %rax
	movl	$16, %r8d
	cmovbq	%rax, %r8
	movq	(%rdi,%rcx), %xmm0              # xmm0 = mem[0],zero
	movq	(%rdi), %xmm1                   # xmm1 = mem[0],zero
	punpcklqdq	%xmm0, %xmm1            # xmm1 = xmm1[0],xmm0[0]
	movq	(%rdi,%r8), %xmm0               # xmm0 = mem[0],zero
	movq	-8(%rdi,%rsi), %xmm2            # xmm2 = mem[0],zero
	punpcklqdq	%xmm2, %xmm0            # xmm0 = xmm0[0],xmm2[0]
	movq	(%rdx,%rcx), %xmm2              # xmm2 = mem[0],zero
	movq	(%rdx), %xmm3                   # xmm3 = mem[0],zero
	punpcklqdq	%xmm2, %xmm3            # xmm3 = xmm3[0],xmm2[0]
	pcmpeqb	%xmm1, %xmm3
	movq	(%rdx,%r8), %xmm1               # xmm1 = mem[0],zero
	movq	-8(%rdx,%rsi), %xmm2            # xmm2 = mem[0],zero
	punpcklqdq	%xmm2, %xmm1            # xmm1 = xmm1[0],xmm2[0]
	pcmpeqb	%xmm0, %xmm1
	pand	%xmm3, %xmm1
	pmovmskb	%xmm1, %eax
	jmp	LBB1_16
LBB1_4:                                # %join.15.i
	cmpq	$65, %rsi
	jae	LBB1_5
# %bb.12:                               # %join.5.i.i14.preheader
	movdqu	(%rdi), %xmm0
	movdqu	16(%rdi), %xmm1
	movdqu	(%rdx), %xmm2
	pcmpeqb	%xmm0, %xmm2
	movdqu	16(%rdx), %xmm0
	pcmpeqb	%xmm1, %xmm0
	movdqu	-32(%rdi,%rsi), %xmm1
	movdqu	-16(%rdi,%rsi), %xmm3
	movdqu	-32(%rdx,%rsi), %xmm4
	pcmpeqb	%xmm1, %xmm4
	pand	%xmm2, %xmm4
	movdqu	-16(%rdx,%rsi), %xmm1
	pcmpeqb	%xmm3, %xmm1
	pand	%xmm0, %xmm1
	pand	%xmm4, %xmm1
	pmovmskb	%xmm1, %eax
	jmp	LBB1_16
LBB1_5:                                # %vector.ph.preheader
	xorl	%eax, %eax
	movq	%rsi, %rcx
	.p2align	4
LBB1_6:                                # %vector.ph
                                        # =>This Inner Loop Header: Depth=1
	movdqu	(%rdi,%rax), %xmm0
	movdqu	16(%rdi,%rax), %xmm1
	movdqu	32(%rdi,%rax), %xmm2
	movdqu	48(%rdi,%rax), %xmm3
	movdqu	(%rdx,%rax), %xmm4
	pcmpeqb	%xmm0, %xmm4
	movdqu	16(%rdx,%rax), %xmm0
	pcmpeqb	%xmm1, %xmm0
	movdqu	32(%rdx,%rax), %xmm1
	pcmpeqb	%xmm2, %xmm1
	pand	%xmm4, %xmm1
	movdqu	48(%rdx,%rax), %xmm2
	pcmpeqb	%xmm3, %xmm2
	pand	%xmm0, %xmm2
	pand	%xmm1, %xmm2
	pmovmskb	%xmm2, %r8d
	cmpl	$65535, %r8d                    # imm = 0xFFFF
	jne	LBB1_8
# %bb.7:                                # %join.5.i
                                        #   in Loop: Header=BB1_6 Depth=1
	addq	$64, %rax
	addq	$-64, %rcx
	cmpq	$63, %rcx
	ja	LBB1_6
LBB1_8:                                # %"core::slice::scan::skip_groups::<#953750c03e87c3e2>.exit"
	cmpq	$32, %rcx
	jb	LBB1_15
# %bb.9:                                # %join.5.i.preheader.i55.preheader
	movq	%rsi, %rcx
	subq	%rax, %rcx
	.p2align	4
LBB1_10:                               # %join.5.i.preheader.i55
                                        # =>This Inner Loop Header: Depth=1
	movdqu	(%rdi,%rax), %xmm0
	movdqu	16(%rdi,%rax), %xmm1
	movdqu	(%rdx,%rax), %xmm2
	pcmpeqb	%xmm0, %xmm2
	movdqu	16(%rdx,%rax), %xmm0
	pcmpeqb	%xmm1, %xmm0
	pand	%xmm2, %xmm0
	pmovmskb	%xmm0, %r8d
	xorl	$65535, %r8d                    # imm = 0xFFFF
	jne	LBB1_14
# %bb.11:                               # %join.5.i70
                                        #   in Loop: Header=BB1_10 Depth=1
	addq	$32, %rax
	addq	$-32, %rcx
	cmpq	$32, %rcx
	jae	LBB1_10
	jmp	LBB1_15
LBB1_14:                               # %"core::slice::scan::skip_groups::<#953750c03e87c3e2>.exit75"
	movb	$1, %al
	cmpq	$31, %rcx
	ja	LBB1_18
LBB1_15:                               # %join.21.i
	movdqu	-32(%rdi,%rsi), %xmm0
	movdqu	-16(%rdi,%rsi), %xmm1
	movdqu	-32(%rdx,%rsi), %xmm2
	pcmpeqb	%xmm0, %xmm2
	movdqu	-16(%rdx,%rsi), %xmm0
	pcmpeqb	%xmm1, %xmm0
	pand	%xmm2, %xmm0
	pmovmskb	%xmm0, %eax
LBB1_16:                               # %"core::slice::scan::any_by_groups::<#953750c03e87c3e2>.exit"
	xorl	$65535, %eax                    # imm = 0xFFFF
LBB1_17:                               # %"core::slice::scan::any_by_groups::<#953750c03e87c3e2>.exit"
	setne	%al
LBB1_18:                               # %"core::slice::scan::any_by_groups::<#953750c03e87c3e2>.exit"
	xorb	$1, %al
	retq
                                        # -- End function
	.section	__TEXT,__text,regular,pure_instructions
	.p2align	4                               # -- Begin function aes_kat::operands::key_operand
"aes_kat::operands::key_operand":       # @"aes_kat::operands::key_operand"
# %bb.0:                                # %start
	subq	$88, %rsp
	xorps	%xmm0, %xmm0
	movaps	%xmm0, -96(%rsp)
	movq	$0, -80(%rsp)
	movq	$0, -48(%rsp)
	movb	$2, %al
	cmpq	$64, %rdx
	je	LBB2_42
# %bb.1:                                # %start
	cmpq	$48, %rdx
	je	LBB2_23
# %bb.2:                                # %start
	cmpq	$32, %rdx
	jne	LBB2_3
# %bb.4:                                # %arm.1
	movaps	%xmm0, -128(%rsp)
	xorl	%eax, %eax
	jmp	LBB2_5
	.p2align	4
LBB2_15:                               # %then.6.i29.i.i.i.i
                                        #   in Loop: Header=BB2_5 Depth=1
	addb	$-48, %dl
LBB2_21:                               # %arm.12.i.i.i
                                        #   in Loop: Header=BB2_5 Depth=1
	shlb	$4, %cl
	addb	%dl, %cl
	movb	%cl, -128(%rsp,%rax)
	incq	%rax
	cmpq	$16, %rax
	je	LBB2_22
LBB2_5:                                # %join.11.i.i.i
                                        # =>This Inner Loop Header: Depth=1
	movzbl	(%rsi,%rax,2), %ecx
	cmpb	$48, %cl
	jb	LBB2_63
# %bb.6:                                # %join.5.i.i.i.i.i
                                        #   in Loop: Header=BB2_5 Depth=1
	movzbl	1(%rsi,%rax,2), %edx
	cmpb	$57, %cl
	ja	LBB2_8
# %bb.7:                                # %then.6.i.i.i.i.i
                                        #   in Loop: Header=BB2_5 Depth=1
	addb	$-48, %cl
	jmp	LBB2_13
	.p2align	4
LBB2_8:                                # %join.8.i.i.i.i.i
                                        #   in Loop: Header=BB2_5 Depth=1
	cmpb	$65, %cl
	jb	LBB2_63
# %bb.9:                                # %join.11.i.i.i.i.i
                                        #   in Loop: Header=BB2_5 Depth=1
	cmpb	$70, %cl
	ja	LBB2_11
# %bb.10:                               # %then.12.i.i.i.i.i
                                        #   in Loop: Header=BB2_5 Depth=1
	addb	$-55, %cl
	jmp	LBB2_13
	.p2align	4
LBB2_11:                               # %join.14.i.i.i.i.i
                                        #   in Loop: Header=BB2_5 Depth=1
	leal	-97(%rcx), %r8d
	cmpb	$5, %r8b
	ja	LBB2_63
# %bb.12:                               # %then.18.i.i.i.i.i
                                        #   in Loop: Header=BB2_5 Depth=1
	addb	$-87, %cl
LBB2_13:                               # %arm.1.i.i.i.i
                                        #   in Loop: Header=BB2_5 Depth=1
	cmpb	$48, %dl
	jb	LBB2_63
# %bb.14:                               # %join.5.i7.i.i.i.i
                                        #   in Loop: Header=BB2_5 Depth=1
	cmpb	$57, %dl
	jbe	LBB2_15
# %bb.16:                               # %join.8.i9.i.i.i.i
                                        #   in Loop: Header=BB2_5 Depth=1
	cmpb	$65, %dl
	jb	LBB2_63
# %bb.17:                               # %join.11.i11.i.i.i.i
                                        #   in Loop: Header=BB2_5 Depth=1
	cmpb	$70, %dl
	ja	LBB2_19
# %bb.18:                               # %then.12.i27.i.i.i.i
                                        #   in Loop: Header=BB2_5 Depth=1
	addb	$-55, %dl
	jmp	LBB2_21
	.p2align	4
LBB2_19:                               # %join.14.i13.i.i.i.i
                                        #   in Loop: Header=BB2_5 Depth=1
	leal	-97(%rdx), %r8d
	cmpb	$5, %r8b
	ja	LBB2_63
# %bb.20:                               # %then.18.i25.i.i.i.i
                                        #   in Loop: Header=BB2_5 Depth=1
	addb	$-87, %dl
	jmp	LBB2_21
LBB2_23:                               # %arm.2
	movaps	%xmm0, -128(%rsp)
	movq	$0, -112(%rsp)
	xorl	%eax, %eax
	jmp	LBB2_24
	.p2align	4
LBB2_34:                               # %then.6.i29.i.i.i.i46
                                        #   in Loop: Header=BB2_24 Depth=1
	addb	$-48, %dl
LBB2_40:                               # %arm.12.i.i.i37
                                        #   in Loop: Header=BB2_24 Depth=1
	shlb	$4, %cl
	addb	%dl, %cl
	movb	%cl, -128(%rsp,%rax)
	incq	%rax
	cmpq	$24, %rax
	je	LBB2_41
LBB2_24:                               # %join.11.i.i.i5
                                        # =>This Inner Loop Header: Depth=1
	movzbl	(%rsi,%rax,2), %ecx
	cmpb	$48, %cl
	jb	LBB2_63
# %bb.25:                               # %join.5.i.i.i.i.i13
                                        #   in Loop: Header=BB2_24 Depth=1
	movzbl	1(%rsi,%rax,2), %edx
	cmpb	$57, %cl
	ja	LBB2_27
# %bb.26:                               # %then.6.i.i.i.i.i50
                                        #   in Loop: Header=BB2_24 Depth=1
	addb	$-48, %cl
	jmp	LBB2_32
	.p2align	4
LBB2_27:                               # %join.8.i.i.i.i.i15
                                        #   in Loop: Header=BB2_24 Depth=1
	cmpb	$65, %cl
	jb	LBB2_63
# %bb.28:                               # %join.11.i.i.i.i.i17
                                        #   in Loop: Header=BB2_24 Depth=1
	cmpb	$70, %cl
	ja	LBB2_30
# %bb.29:                               # %then.12.i.i.i.i.i48
                                        #   in Loop: Header=BB2_24 Depth=1
	addb	$-55, %cl
	jmp	LBB2_32
	.p2align	4
LBB2_30:                               # %join.14.i.i.i.i.i19
                                        #   in Loop: Header=BB2_24 Depth=1
	leal	-97(%rcx), %r8d
	cmpb	$5, %r8b
	ja	LBB2_63
# %bb.31:                               # %then.18.i.i.i.i.i22
                                        #   in Loop: Header=BB2_24 Depth=1
	addb	$-87, %cl
LBB2_32:                               # %arm.1.i.i.i.i24
                                        #   in Loop: Header=BB2_24 Depth=1
	cmpb	$48, %dl
	jb	LBB2_63
# %bb.33:                               # %join.5.i7.i.i.i.i27
                                        #   in Loop: Header=BB2_24 Depth=1
	cmpb	$57, %dl
	jbe	LBB2_34
# %bb.35:                               # %join.8.i9.i.i.i.i29
                                        #   in Loop: Header=BB2_24 Depth=1
	cmpb	$65, %dl
	jb	LBB2_63
# %bb.36:                               # %join.11.i11.i.i.i.i31
                                        #   in Loop: Header=BB2_24 Depth=1
	cmpb	$70, %dl
	ja	LBB2_38
# %bb.37:                               # %then.12.i27.i.i.i.i44
                                        #   in Loop: Header=BB2_24 Depth=1
	addb	$-55, %dl
	jmp	LBB2_40
	.p2align	4
LBB2_38:                               # %join.14.i13.i.i.i.i33
                                        #   in Loop: Header=BB2_24 Depth=1
	leal	-97(%rdx), %r8d
	cmpb	$5, %r8b
	ja	LBB2_63
# %bb.39:                               # %then.18.i25.i.i.i.i35
                                        #   in Loop: Header=BB2_24 Depth=1
	addb	$-87, %dl
	jmp	LBB2_40
LBB2_42:                               # %arm.3
	movaps	%xmm0, -112(%rsp)
	movaps	%xmm0, -128(%rsp)
	xorl	%ecx, %ecx
	jmp	LBB2_43
	.p2align	4
LBB2_53:                               # %then.6.i29.i.i.i.i94
                                        #   in Loop: Header=BB2_43 Depth=1
	addb	$-48, %r8b
LBB2_59:                               # %arm.12.i.i.i85
                                        #   in Loop: Header=BB2_43 Depth=1
	shlb	$4, %dl
	addb	%r8b, %dl
	movb	%dl, -128(%rsp,%rcx)
	incq	%rcx
	cmpq	$32, %rcx
	je	LBB2_60
LBB2_43:                               # %join.11.i.i.i53
                                        # =>This Inner Loop Header: Depth=1
	movzbl	(%rsi,%rcx,2), %edx
	cmpb	$48, %dl
	jb	LBB2_63
# %bb.44:                               # %join.5.i.i.i.i.i61
                                        #   in Loop: Header=BB2_43 Depth=1
	movzbl	1(%rsi,%rcx,2), %r8d
	cmpb	$57, %dl
	ja	LBB2_46
# %bb.45:                               # %then.6.i.i.i.i.i98
                                        #   in Loop: Header=BB2_43 Depth=1
	addb	$-48, %dl
	jmp	LBB2_51
	.p2align	4
LBB2_46:                               # %join.8.i.i.i.i.i63
                                        #   in Loop: Header=BB2_43 Depth=1
	cmpb	$65, %dl
	jb	LBB2_63
# %bb.47:                               # %join.11.i.i.i.i.i65
                                        #   in Loop: Header=BB2_43 Depth=1
	cmpb	$70, %dl
	ja	LBB2_49
# %bb.48:                               # %then.12.i.i.i.i.i96
                                        #   in Loop: Header=BB2_43 Depth=1
	addb	$-55, %dl
	jmp	LBB2_51
	.p2align	4
LBB2_49:                               # %join.14.i.i.i.i.i67
                                        #   in Loop: Header=BB2_43 Depth=1
	leal	-97(%rdx), %r9d
	cmpb	$5, %r9b
	ja	LBB2_63
# %bb.50:                               # %then.18.i.i.i.i.i70
                                        #   in Loop: Header=BB2_43 Depth=1
	addb	$-87, %dl
LBB2_51:                               # %arm.1.i.i.i.i72
                                        #   in Loop: Header=BB2_43 Depth=1
	cmpb	$48, %r8b
	jb	LBB2_63
# %bb.52:                               # %join.5.i7.i.i.i.i75
                                        #   in Loop: Header=BB2_43 Depth=1
	cmpb	$57, %r8b
	jbe	LBB2_53
# %bb.54:                               # %join.8.i9.i.i.i.i77
                                        #   in Loop: Header=BB2_43 Depth=1
	cmpb	$65, %r8b
	jb	LBB2_63
# %bb.55:                               # %join.11.i11.i.i.i.i79
                                        #   in Loop: Header=BB2_43 Depth=1
	cmpb	$70, %r8b
	ja	LBB2_57
# %bb.56:                               # %then.12.i27.i.i.i.i92
                                        #   in Loop: Header=BB2_43 Depth=1
	addb	$-55, %r8b
	jmp	LBB2_59
	.p2align	4
LBB2_57:                               # %join.14.i13.i.i.i.i81
                                        #   in Loop: Header=BB2_43 Depth=1
	leal	-97(%r8), %r9d
	cmpb	$5, %r9b
	ja	LBB2_63
# %bb.58:                               # %then.18.i25.i.i.i.i83
                                        #   in Loop: Header=BB2_43 Depth=1
	addb	$-87, %r8b
	jmp	LBB2_59
LBB2_3:
	movb	$1, %dl
	xorl	%ecx, %ecx
	jmp	LBB2_62
LBB2_41:                               # %"aes_kat::operands::bytes_of::<=24>.exit"
	movq	-112(%rsp), %rax
	movq	%rax, 48(%rsp)
	movaps	-128(%rsp), %xmm0
	movaps	%xmm0, 32(%rsp)
	movaps	%xmm0, (%rsp)
	movq	%rax, 16(%rsp)
	movaps	%xmm0, -96(%rsp)
	movq	%rax, -80(%rsp)
	movb	$1, %al
	xorl	%ecx, %ecx
	jmp	LBB2_61
LBB2_60:                               # %"aes_kat::operands::bytes_of::<=32>.exit"
	movq	-112(%rsp), %rdx
	movq	%rdx, -16(%rsp)
	movaps	-128(%rsp), %xmm0
	movaps	%xmm0, -32(%rsp)
	movq	-104(%rsp), %rcx
	movaps	%xmm0, -96(%rsp)
	movq	%rdx, -80(%rsp)
LBB2_61:                               # %join.5
	xorl	%edx, %edx
	jmp	LBB2_62
LBB2_22:                               # %"aes_kat::operands::bytes_of::<=16>.exit"
	movaps	-128(%rsp), %xmm0
	movaps	%xmm0, 64(%rsp)
	movaps	%xmm0, -64(%rsp)
	movaps	%xmm0, -96(%rsp)
	movq	-48(%rsp), %rax
	movq	%rax, -80(%rsp)
	xorl	%ecx, %ecx
	xorl	%edx, %edx
	xorl	%eax, %eax
LBB2_62:                               # %join.5
	movb	%dl, (%rdi)
	movb	%al, 1(%rdi)
	movaps	-96(%rsp), %xmm0
	movups	%xmm0, 2(%rdi)
	movq	-80(%rsp), %rax
	movq	%rax, 18(%rdi)
	movq	%rcx, 26(%rdi)
	addq	$88, %rsp
	retq
LBB2_63:                               # %arm.2.i.i
	ud2
                                        # -- End function
	.section	__TEXT,__text,regular,pure_instructions
	.p2align	4                               # -- Begin function aes_kat::operands::blocks_operand
"aes_kat::operands::blocks_operand":    # @"aes_kat::operands::blocks_operand"
# %bb.0:                                # %start
	pushq	%rbp
	pushq	%r15
	pushq	%r14
	pushq	%r13
	pushq	%r12
	pushq	%rbx
	subq	$1032, %rsp                     # imm = 0x408
	movq	%rcx, %r14
	movq	%rdx, %r15
	movq	%rsi, %r12
	movq	%rdi, %rbx
	testb	$30, %r15b
	setne	%al
	cmpq	$2050, %rdx                     # imm = 0x802
	setae	%bpl
	orb	%al, %bpl
	leaq	8(%rsp), %r13
	movl	$1024, %edx                     # imm = 0x400
	movq	%r13, %rdi
	xorl	%esi, %esi
	callq	_memset
	testb	%bpl, %bpl
	je	LBB3_2
# %bb.1:                                # %join.5
	movw	$769, (%rbx)                    # imm = 0x301
	movq	$0, 8(%rbx)
	jmp	LBB3_33
LBB3_2:                                # %after.1
	testb	$1, %r15b
	jne	LBB3_34
# %bb.3:                                # %loop.8.preheader.i.i
	movq	%r15, %rdx
	shrq	%rdx
	je	LBB3_22
# %bb.4:                                # %join.11.i.i.preheader
	xorl	%eax, %eax
	jmp	LBB3_5
	.p2align	4
LBB3_15:                               # %then.6.i29.i.i.i
                                        #   in Loop: Header=BB3_5 Depth=1
	addb	$-48, %sil
LBB3_21:                               # %arm.12.i.i
                                        #   in Loop: Header=BB3_5 Depth=1
	shlb	$4, %cl
	addb	%sil, %cl
	movb	%cl, 8(%rsp,%rax)
	incq	%rax
	cmpq	%rax, %rdx
	je	LBB3_22
LBB3_5:                                # %join.11.i.i
                                        # =>This Inner Loop Header: Depth=1
	movzbl	(%r12,%rax,2), %ecx
	cmpb	$48, %cl
	jb	LBB3_34
# %bb.6:                                # %join.5.i.i.i.i
                                        #   in Loop: Header=BB3_5 Depth=1
	movzbl	1(%r12,%rax,2), %esi
	cmpb	$57, %cl
	ja	LBB3_8
# %bb.7:                                # %then.6.i.i.i.i
                                        #   in Loop: Header=BB3_5 Depth=1
	addb	$-48, %cl
	jmp	LBB3_13
	.p2align	4
LBB3_8:                                # %join.8.i.i.i.i
                                        #   in Loop: Header=BB3_5 Depth=1
	cmpb	$65, %cl
	jb	LBB3_34
# %bb.9:                                # %join.11.i.i.i.i
                                        #   in Loop: Header=BB3_5 Depth=1
	cmpb	$70, %cl
	ja	LBB3_11
# %bb.10:                               # %then.12.i.i.i.i
                                        #   in Loop: Header=BB3_5 Depth=1
	addb	$-55, %cl
	jmp	LBB3_13
	.p2align	4
LBB3_11:                               # %join.14.i.i.i.i
                                        #   in Loop: Header=BB3_5 Depth=1
	leal	-97(%rcx), %edi
	cmpb	$5, %dil
	ja	LBB3_34
# %bb.12:                               # %then.18.i.i.i.i
                                        #   in Loop: Header=BB3_5 Depth=1
	addb	$-87, %cl
LBB3_13:                               # %arm.1.i.i.i
                                        #   in Loop: Header=BB3_5 Depth=1
	cmpb	$48, %sil
	jb	LBB3_34
# %bb.14:                               # %join.5.i7.i.i.i
                                        #   in Loop: Header=BB3_5 Depth=1
	cmpb	$57, %sil
	jbe	LBB3_15
# %bb.16:                               # %join.8.i9.i.i.i
                                        #   in Loop: Header=BB3_5 Depth=1
	cmpb	$65, %sil
	jb	LBB3_34
# %bb.17:                               # %join.11.i11.i.i.i
                                        #   in Loop: Header=BB3_5 Depth=1
	cmpb	$70, %sil
	ja	LBB3_19
# %bb.18:                               # %then.12.i27.i.i.i
                                        #   in Loop: Header=BB3_5 Depth=1
	addb	$-55, %sil
	jmp	LBB3_21
	.p2align	4
LBB3_19:                               # %join.14.i13.i.i.i
                                        #   in Loop: Header=BB3_5 Depth=1
	leal	-97(%rsi), %edi
	cmpb	$5, %dil
	ja	LBB3_34
# %bb.20:                               # %then.18.i25.i.i.i
                                        #   in Loop: Header=BB3_5 Depth=1
	addb	$-87, %sil
	jmp	LBB3_21
LBB3_22:                               # %"core::result::Result::unwrap::<(),24'hex::error::FromHexError>.exit"
	movq	%r15, %r12
	shrq	$5, %r12
	movq	%r14, %rax
	subq	%r13, %rax
	cmpq	%rdx, %rax
	jae	LBB3_26
# %bb.23:                               # %loop.4.preheader.i.i.i.i.i.i
	testq	%r15, %r15
	je	LBB3_32
# %bb.24:                               # %join.7.i.i.i.i.i.i.preheader
	movl	%r12d, %eax
	andl	$3, %eax
	cmpq	$128, %r15
	jae	LBB3_27
# %bb.25:
	xorl	%ecx, %ecx
	jmp	LBB3_30
LBB3_26:                               # %apart.2.i.i.i.i.i.i
	leaq	8(%rsp), %rsi
	movq	%r14, %rdi
	callq	_memcpy
	jmp	LBB3_32
LBB3_27:                               # %join.7.i.i.i.i.i.i.preheader.new
	movl	%r12d, %edx
	andl	$124, %edx
	movl	$48, %esi
	xorl	%ecx, %ecx
	.p2align	4
LBB3_28:                               # %join.7.i.i.i.i.i.i
                                        # =>This Inner Loop Header: Depth=1
	movups	-40(%rsp,%rsi), %xmm0
	movups	%xmm0, -48(%r14,%rsi)
	movups	-24(%rsp,%rsi), %xmm0
	movups	%xmm0, -32(%r14,%rsi)
	movups	-8(%rsp,%rsi), %xmm0
	movups	%xmm0, -16(%r14,%rsi)
	movups	8(%rsp,%rsi), %xmm0
	movups	%xmm0, (%r14,%rsi)
	addq	$4, %rcx
	addq	$64, %rsi
	cmpq	%rcx, %rdx
	jne	LBB3_28
# %bb.29:                               # %"core::slice::edits::slice+T::copy_from_slice::<#151fd5924816ff66>.exit.loopexit.unr-lcssa"
	testq	%rax, %rax
	je	LBB3_32
LBB3_30:                               # %join.7.i.i.i.i.i.i.epil.preheader
	shlq	$4, %rcx
	leaq	(%rsp,%rcx), %rdx
	addq	$8, %rdx
	addq	%rcx, %r14
	shll	$4, %eax
	xorl	%ecx, %ecx
	.p2align	4
LBB3_31:                               # %join.7.i.i.i.i.i.i.epil
                                        # =>This Inner Loop Header: Depth=1
	movups	(%rdx,%rcx), %xmm0
	movups	%xmm0, (%r14,%rcx)
	addq	$16, %rcx
	cmpq	%rcx, %rax
	jne	LBB3_31
LBB3_32:                               # %"core::slice::edits::slice+T::copy_from_slice::<#151fd5924816ff66>.exit"
	movw	$0, (%rbx)
	movq	%r12, 8(%rbx)
LBB3_33:                               # %common.ret
	addq	$1032, %rsp                     # imm = 0x408
	popq	%rbx
	popq	%r12
	popq	%r13
	popq	%r14
	popq	%r15
	popq	%rbp
	retq
LBB3_34:                               # %arm.2.i
	ud2
                                        # -- End function
	.section	__TEXT,__const
	.p2align	4, 0x0                          # -- Begin function aes::fixsliced::FixslicedCountsLayers::expand_counted::<#952d88c9917220e5>
l_CPI4_0:
	.short	4896                            # 0x1320
	.short	4896                            # 0x1320
	.short	4896                            # 0x1320
	.short	4896                            # 0x1320
	.short	4896                            # 0x1320
	.short	4896                            # 0x1320
	.short	4896                            # 0x1320
	.short	4896                            # 0x1320
l_CPI4_1:
	.zero	16,80
l_CPI4_2:
	.short	65535                           # 0xffff
	.short	65535                           # 0xffff
	.short	0                               # 0x0
	.short	0                               # 0x0
	.short	0                               # 0x0
	.short	65535                           # 0xffff
	.short	65535                           # 0xffff
	.short	0                               # 0x0
l_CPI4_3:
	.zero	16,48
l_CPI4_4:
	.short	8976                            # 0x2310
	.short	8976                            # 0x2310
	.short	8976                            # 0x2310
	.short	8976                            # 0x2310
	.short	8976                            # 0x2310
	.short	8976                            # 0x2310
	.short	8976                            # 0x2310
	.short	8976                            # 0x2310
	.section	__TEXT,__text,regular,pure_instructions
	.p2align	4
"aes::fixsliced::FixslicedCountsLayers::expand_counted::<#952d88c9917220e5>": # @"aes::fixsliced::FixslicedCountsLayers::expand_counted::<#952d88c9917220e5>"
# %bb.0:                                # %start
	pushq	%rbx
	movq	%rdi, %rbx
	movl	$16, %edx
	callq	"aes_planes::expansion::expand::<#9aefd798925f8490>"
	movdqu	16(%rbx), %xmm0
	movdqu	32(%rbx), %xmm4
	movdqu	48(%rbx), %xmm6
	movdqu	64(%rbx), %xmm5
	movdqa	%xmm0, %xmm2
	psrlw	$2, %xmm2
	pxor	%xmm0, %xmm2
	movdqa	l_CPI4_0(%rip), %xmm1           # xmm1 = [4896,4896,4896,4896,4896,4896,4896,4896]
	pand	%xmm1, %xmm2
	movdqa	%xmm2, %xmm3
	psllw	$2, %xmm3
	por	%xmm2, %xmm3
	pxor	%xmm0, %xmm3
	movdqa	%xmm3, %xmm0
	psrlw	$1, %xmm0
	pxor	%xmm3, %xmm0
	movdqa	l_CPI4_1(%rip), %xmm2           # xmm2 = [20560,20560,20560,20560,20560,20560,20560,20560]
	pand	%xmm2, %xmm0
	movdqa	%xmm0, %xmm7
	paddw	%xmm7, %xmm7
	por	%xmm0, %xmm7
	movdqa	l_CPI4_2(%rip), %xmm0           # xmm0 = [65535,65535,0,0,0,65535,65535,0]
	pxor	%xmm0, %xmm3
	pxor	%xmm7, %xmm3
	movdqu	%xmm3, 16(%rbx)
	movdqa	%xmm4, %xmm7
	psrlw	$2, %xmm7
	pxor	%xmm4, %xmm7
	movdqa	l_CPI4_3(%rip), %xmm3           # xmm3 = [12336,12336,12336,12336,12336,12336,12336,12336]
	pand	%xmm3, %xmm7
	movdqa	%xmm7, %xmm8
	psllw	$2, %xmm8
	por	%xmm7, %xmm8
	pxor	%xmm0, %xmm4
	pxor	%xmm8, %xmm4
	movdqu	%xmm4, 32(%rbx)
	movdqa	%xmm6, %xmm7
	psrlw	$2, %xmm7
	pxor	%xmm6, %xmm7
	movdqa	l_CPI4_4(%rip), %xmm4           # xmm4 = [8976,8976,8976,8976,8976,8976,8976,8976]
	pand	%xmm4, %xmm7
	movdqa	%xmm7, %xmm8
	psllw	$2, %xmm8
	por	%xmm7, %xmm8
	pxor	%xmm6, %xmm8
	movdqa	%xmm8, %xmm6
	psrlw	$1, %xmm6
	pxor	%xmm8, %xmm6
	pand	%xmm2, %xmm6
	movdqa	%xmm6, %xmm7
	paddw	%xmm7, %xmm7
	por	%xmm6, %xmm7
	pxor	%xmm0, %xmm8
	pxor	%xmm7, %xmm8
	movdqu	%xmm8, 48(%rbx)
	pxor	%xmm0, %xmm5
	movdqu	%xmm5, 64(%rbx)
	movdqu	80(%rbx), %xmm5
	movdqa	%xmm5, %xmm6
	psrlw	$2, %xmm6
	pxor	%xmm5, %xmm6
	pand	%xmm1, %xmm6
	movdqa	%xmm6, %xmm7
	psllw	$2, %xmm7
	por	%xmm6, %xmm7
	pxor	%xmm5, %xmm7
	movdqa	%xmm7, %xmm5
	psrlw	$1, %xmm5
	pxor	%xmm7, %xmm5
	pand	%xmm2, %xmm5
	movdqa	%xmm5, %xmm6
	paddw	%xmm6, %xmm6
	por	%xmm5, %xmm6
	pxor	%xmm0, %xmm7
	pxor	%xmm6, %xmm7
	movdqu	%xmm7, 80(%rbx)
	movdqu	96(%rbx), %xmm5
	movdqa	%xmm5, %xmm6
	psrlw	$2, %xmm6
	pxor	%xmm5, %xmm6
	pand	%xmm3, %xmm6
	movdqa	%xmm6, %xmm3
	psllw	$2, %xmm3
	por	%xmm6, %xmm3
	pxor	%xmm0, %xmm5
	pxor	%xmm3, %xmm5
	movdqu	%xmm5, 96(%rbx)
	movdqu	112(%rbx), %xmm3
	movdqa	%xmm3, %xmm5
	psrlw	$2, %xmm5
	pxor	%xmm3, %xmm5
	pand	%xmm4, %xmm5
	movdqa	%xmm5, %xmm4
	psllw	$2, %xmm4
	por	%xmm5, %xmm4
	pxor	%xmm3, %xmm4
	movdqa	%xmm4, %xmm3
	psrlw	$1, %xmm3
	pxor	%xmm4, %xmm3
	pand	%xmm2, %xmm3
	movdqa	%xmm3, %xmm5
	paddw	%xmm5, %xmm5
	por	%xmm3, %xmm5
	pxor	%xmm0, %xmm4
	pxor	%xmm5, %xmm4
	movdqu	%xmm4, 112(%rbx)
	movdqu	128(%rbx), %xmm3
	pxor	%xmm0, %xmm3
	movdqu	%xmm3, 128(%rbx)
	movdqu	144(%rbx), %xmm3
	movdqa	%xmm3, %xmm4
	psrlw	$2, %xmm4
	pxor	%xmm3, %xmm4
	pand	%xmm1, %xmm4
	movdqa	%xmm4, %xmm1
	psllw	$2, %xmm1
	por	%xmm4, %xmm1
	pxor	%xmm3, %xmm1
	movdqa	%xmm1, %xmm3
	psrlw	$1, %xmm3
	pxor	%xmm1, %xmm3
	pand	%xmm2, %xmm3
	movdqa	%xmm3, %xmm2
	paddw	%xmm2, %xmm2
	por	%xmm3, %xmm2
	pxor	%xmm0, %xmm1
	pxor	%xmm2, %xmm1
	movdqu	%xmm1, 144(%rbx)
	movdqu	160(%rbx), %xmm1
	pxor	%xmm0, %xmm1
	movdqu	%xmm1, 160(%rbx)
	popq	%rbx
	retq
                                        # -- End function
	.section	__TEXT,__const
	.p2align	4, 0x0                          # -- Begin function aes_planes::expansion::expand::<#9aefd798925f8490>
l_CPI5_0:
	.short	65535                           # 0xffff
	.short	0                               # 0x0
	.short	65535                           # 0xffff
	.short	0                               # 0x0
	.short	65535                           # 0xffff
	.short	0                               # 0x0
	.short	65535                           # 0xffff
	.short	0                               # 0x0
l_CPI5_1:
	.zero	16,2
l_CPI5_2:
	.zero	16,4
l_CPI5_3:
	.zero	16,8
l_CPI5_4:
	.zero	16,16
l_CPI5_5:
	.zero	16,32
l_CPI5_6:
	.zero	16,64
l_CPI5_7:
	.zero	16,17
l_CPI5_8:
	.zero	16,238
l_CPI5_9:
	.zero	16,204
l_CPI5_10:
	.short	65535                           # 0xffff
	.zero	2
	.zero	2
	.zero	2
	.zero	2
	.zero	2
	.zero	2
	.zero	2
l_CPI5_11:
	.short	4369                            # 0x1111
	.short	4369                            # 0x1111
	.zero	2
	.zero	2
	.zero	2
	.zero	2
	.zero	2
	.zero	2
l_CPI5_12:
	.short	61166                           # 0xeeee
	.short	61166                           # 0xeeee
	.zero	2
	.zero	2
	.zero	2
	.zero	2
	.zero	2
	.zero	2
l_CPI5_13:
	.short	52428                           # 0xcccc
	.short	52428                           # 0xcccc
	.zero	2
	.zero	2
	.zero	2
	.zero	2
	.zero	2
	.zero	2
	.section	__TEXT,__text,regular,pure_instructions
	.p2align	4
"aes_planes::expansion::expand::<#9aefd798925f8490>": # @"aes_planes::expansion::expand::<#9aefd798925f8490>"
# %bb.0:                                # %start
	pushq	%rbp
	pushq	%r15
	pushq	%r14
	pushq	%r13
	pushq	%r12
	pushq	%rbx
	movq	(%rsi), %xmm0                   # xmm0 = mem[0],zero
	movq	8(%rsi), %xmm2                  # xmm2 = mem[0],zero
	pxor	%xmm1, %xmm1
	punpcklbw	%xmm1, %xmm2            # xmm2 = xmm2[0],xmm1[0],xmm2[1],xmm1[1],xmm2[2],xmm1[2],xmm2[3],xmm1[3],xmm2[4],xmm1[4],xmm2[5],xmm1[5],xmm2[6],xmm1[6],xmm2[7],xmm1[7]
	pshufd	$215, %xmm2, %xmm3              # xmm3 = xmm2[3,1,1,3]
	pshuflw	$36, %xmm3, %xmm4               # xmm4 = xmm3[0,1,2,0,4,5,6,7]
	pshufhw	$212, %xmm4, %xmm5              # xmm5 = xmm4[0,1,2,3,4,5,5,7]
	pshufd	$40, %xmm2, %xmm4               # xmm4 = xmm2[0,2,2,0]
	pshuflw	$132, %xmm4, %xmm2              # xmm2 = xmm4[0,1,0,2,4,5,6,7]
	pshufhw	$116, %xmm2, %xmm6              # xmm6 = xmm2[0,1,2,3,4,5,7,5]
	packuswb	%xmm5, %xmm6
	movdqa	l_CPI5_0(%rip), %xmm2           # xmm2 = [65535,0,65535,0,65535,0,65535,0]
	movdqa	%xmm2, %xmm5
	pandn	%xmm6, %xmm5
	punpcklbw	%xmm1, %xmm0            # xmm0 = xmm0[0],xmm1[0],xmm0[1],xmm1[1],xmm0[2],xmm1[2],xmm0[3],xmm1[3],xmm0[4],xmm1[4],xmm0[5],xmm1[5],xmm0[6],xmm1[6],xmm0[7],xmm1[7]
	pshufd	$215, %xmm0, %xmm6              # xmm6 = xmm0[3,1,1,3]
	pshuflw	$226, %xmm6, %xmm6              # xmm6 = xmm6[2,0,2,3,4,5,6,7]
	pshufhw	$237, %xmm6, %xmm6              # xmm6 = xmm6[0,1,2,3,5,7,6,7]
	pshufd	$40, %xmm0, %xmm0               # xmm0 = xmm0[0,2,2,0]
	pshuflw	$232, %xmm0, %xmm0              # xmm0 = xmm0[0,2,2,3,4,5,6,7]
	pshufhw	$231, %xmm0, %xmm0              # xmm0 = xmm0[0,1,2,3,7,5,6,7]
	packuswb	%xmm6, %xmm0
	pand	%xmm2, %xmm0
	por	%xmm5, %xmm0
	movdqa	l_CPI5_1(%rip), %xmm11          # xmm11 = [2,2,2,2,2,2,2,2,2,2,2,2,2,2,2,2]
	pand	%xmm0, %xmm11
	movdqa	l_CPI5_2(%rip), %xmm10          # xmm10 = [4,4,4,4,4,4,4,4,4,4,4,4,4,4,4,4]
	pand	%xmm0, %xmm10
	movdqa	l_CPI5_3(%rip), %xmm9           # xmm9 = [8,8,8,8,8,8,8,8,8,8,8,8,8,8,8,8]
	pand	%xmm0, %xmm9
	movdqa	l_CPI5_4(%rip), %xmm8           # xmm8 = [16,16,16,16,16,16,16,16,16,16,16,16,16,16,16,16]
	pand	%xmm0, %xmm8
	movdqa	l_CPI5_5(%rip), %xmm7           # xmm7 = [32,32,32,32,32,32,32,32,32,32,32,32,32,32,32,32]
	pand	%xmm0, %xmm7
	movdqa	l_CPI5_6(%rip), %xmm5           # xmm5 = [64,64,64,64,64,64,64,64,64,64,64,64,64,64,64,64]
	pand	%xmm0, %xmm5
	cmpq	$24, %rdx
	je	LBB5_4
# %bb.1:                                # %start
	cmpq	$16, %rdx
	jne	LBB5_6
# %bb.2:                                # %then.1
	movdqa	%xmm0, %xmm2
	psllw	$7, %xmm2
	pmovmskb	%xmm2, %r12d
	movw	%r12w, (%rdi)
	pcmpgtb	%xmm1, %xmm11
	pmovmskb	%xmm11, %r9d
	movw	%r9w, 2(%rdi)
	pcmpgtb	%xmm1, %xmm10
	pmovmskb	%xmm10, %r8d
	movw	%r8w, 4(%rdi)
	pcmpgtb	%xmm1, %xmm9
	pmovmskb	%xmm9, %r14d
	movw	%r14w, 6(%rdi)
	pcmpgtb	%xmm1, %xmm8
	pmovmskb	%xmm8, %edx
	movw	%dx, 8(%rdi)
	pcmpgtb	%xmm1, %xmm7
	pmovmskb	%xmm7, %esi
	movw	%si, 10(%rdi)
	pcmpgtb	%xmm1, %xmm5
	pmovmskb	%xmm5, %ecx
	movw	%cx, 12(%rdi)
	pmovmskb	%xmm0, %ebp
	movw	%bp, 14(%rdi)
	addq	$16, %rdi
	movq	$0, -32(%rsp)                   # 8-byte Folded Spill
	.p2align	4
LBB5_3:                                # %join.5.i
                                        # =>This Inner Loop Header: Depth=1
	movq	%rdi, -16(%rsp)                 # 8-byte Spill
	xorl	%ecx, %esi
	movl	%ebp, %edi
	xorl	%edx, %ebp
	movl	%esi, %r15d
	xorl	%r12d, %r15d
	movl	%r15d, %eax
	xorl	%edx, %eax
	movl	%eax, -80(%rsp)                 # 4-byte Spill
	andl	%r12d, %eax
	movl	%edi, %r11d
	movl	%edi, %r10d
	movl	%edi, -68(%rsp)                 # 4-byte Spill
	xorl	%r9d, %r11d
	movl	%r11d, -76(%rsp)                # 4-byte Spill
	xorl	%r8d, %edx
	movl	%r11d, %edi
	xorl	%edx, %edi
	xorl	%edi, %r14d
	movl	%edi, -44(%rsp)                 # 4-byte Spill
	movl	%r9d, %r13d
	movl	%r14d, %r9d
	xorl	%r8d, %r9d
	xorl	%ecx, %r14d
	xorl	%r10d, %r8d
	movl	%r9d, %ecx
	andl	%edi, %ecx
	movl	%r9d, %r11d
	xorl	%esi, %r11d
	xorl	%r8d, %eax
	xorl	%r11d, %eax
	xorl	%ecx, %eax
	xorl	%r14d, %ecx
	movl	%ebp, -64(%rsp)                 # 4-byte Spill
	xorl	%ebp, %r14d
	movl	%r14d, %edi
	andl	%ebp, %edi
	movl	%r14d, %ebp
	movl	%r11d, %ebx
	movl	%r11d, -52(%rsp)                # 4-byte Spill
	xorl	%r11d, %ebp
	movl	%ebp, -56(%rsp)                 # 4-byte Spill
	movl	%ebp, %r11d
	andl	%edx, %r11d
	movl	%r8d, %ebp
	movl	%ebx, %r8d
	movl	%ebp, -48(%rsp)                 # 4-byte Spill
	andl	%ebp, %r8d
	xorl	%edi, %r11d
	xorl	%edi, %r8d
	movl	%r13d, %r10d
	xorl	%r15d, %r10d
	movl	%r10d, -72(%rsp)                # 4-byte Spill
	movl	%r9d, %edi
	xorl	%r12d, %edi
	movl	%edi, -84(%rsp)                 # 4-byte Spill
	movl	%r10d, %r13d
	xorl	%ebp, %r13d
	movl	%r13d, -60(%rsp)                # 4-byte Spill
	andl	%r13d, %edi
	xorl	%edi, %ecx
	xorl	%r14d, %esi
	movl	%r10d, %edi
	andl	%r15d, %edi
	movl	%esi, %ebp
	movl	-76(%rsp), %r10d                # 4-byte Reload
	andl	%r10d, %ebp
	xorl	%r11d, %ecx
	xorl	%esi, %edi
	xorl	%ebp, %edi
	xorl	%r10d, %edi
	xorl	%r11d, %edi
	movl	%r15d, %r11d
	movl	-68(%rsp), %r10d                # 4-byte Reload
	xorl	%r10d, %r11d
	movl	%r11d, -40(%rsp)                # 4-byte Spill
	xorl	%r10d, %ebp
	movl	%r14d, %r10d
	xorl	%r12d, %r10d
	movl	%r10d, -68(%rsp)                # 4-byte Spill
	andl	%r11d, %r10d
	xorl	%esi, %r10d
	xorl	%r10d, %ebp
	xorl	%r8d, %eax
	xorl	%r8d, %ebp
	movl	%edi, %r13d
	andl	%ecx, %r13d
	movl	%r13d, %r8d
	xorl	%eax, %r8d
	movl	%edi, %r11d
	xorl	%ebp, %r11d
	andl	%r8d, %r11d
	xorl	%eax, %ecx
	movl	%r11d, %r8d
	xorl	%r13d, %r11d
	xorl	%ebp, %r13d
	movl	%r13d, %r10d
	andl	%ecx, %r10d
	xorl	%eax, %r10d
	xorl	%ebp, %r8d
	andl	%ebp, %r11d
	xorl	%r11d, %r13d
	andl	%r10d, %r13d
	xorl	%ecx, %r13d
	xorl	%edi, %r11d
	andl	%r8d, -80(%rsp)                 # 4-byte Folded Spill
	movl	%r11d, %ebp
	xorl	%r8d, %ebp
	movl	%r10d, %ebx
	xorl	%r8d, %ebx
	andl	%r12d, %r8d
	movl	%r13d, %eax
	xorl	%ebp, %eax
	andl	%ebx, %r14d
	movl	%r14d, -24(%rsp)                # 4-byte Spill
	movl	%eax, %r14d
	movl	%eax, %edi
	xorl	%ebx, %r14d
	andl	-64(%rsp), %ebx                 # 4-byte Folded Reload
	movl	%r13d, %r12d
	xorl	%r10d, %r12d
	andl	%r12d, %esi
	andl	-76(%rsp), %r12d                # 4-byte Folded Reload
	andl	%r13d, %r15d
	andl	-72(%rsp), %r13d                # 4-byte Folded Reload
	movl	-84(%rsp), %eax                 # 4-byte Reload
	andl	%ebp, %eax
	andl	-60(%rsp), %ebp                 # 4-byte Folded Reload
	andl	%r14d, %edx
	andl	-56(%rsp), %r14d                # 4-byte Folded Reload
	movl	-40(%rsp), %ecx                 # 4-byte Reload
	andl	%r10d, %ecx
	andl	-68(%rsp), %r10d                # 4-byte Folded Reload
	andl	%r11d, %r9d
	andl	-44(%rsp), %r11d                # 4-byte Folded Reload
	xorl	%r9d, %eax
	xorl	%r8d, %r9d
	xorl	%esi, %r15d
	xorl	%r9d, %r10d
	xorl	%esi, %r10d
	xorl	%ebx, %edx
	xorl	%edx, %ebp
	xorl	%r10d, %r13d
	xorl	%edx, %r13d
	xorl	%r15d, %r14d
	xorl	%r15d, %eax
	movl	%eax, -84(%rsp)                 # 4-byte Spill
	movl	-52(%rsp), %eax                 # 4-byte Reload
	movl	%edi, %edx
	andl	%edi, %eax
	xorl	%eax, %r9d
	leaq	l_static.10(%rip), %rax
	movq	-32(%rsp), %rdi                 # 8-byte Reload
	movzbl	(%rdi,%rax), %esi
	xorl	%r12d, %r9d
	xorl	%r14d, %r9d
	xorl	%r9d, %ecx
	movl	%ecx, -40(%rsp)                 # 4-byte Spill
	xorl	-24(%rsp), %r14d                # 4-byte Folded Reload
	andl	-48(%rsp), %edx                 # 4-byte Folded Reload
	movl	%edx, %ecx
	movl	%esi, %eax
	shlb	$7, %al
	movzbl	%al, %edx
	movl	%esi, %eax
	andl	$4, %eax
	shll	$5, %eax
	xorl	-80(%rsp), %eax                 # 4-byte Folded Reload
	movl	%esi, %r8d
	andl	$2, %r8d
	shll	$6, %r8d
	xorl	%r12d, %edx
	movq	-16(%rsp), %rdi                 # 8-byte Reload
	movl	%esi, %r15d
	xorl	%r9d, %r8d
	movl	%esi, %r9d
	andl	$32, %r9d
	shll	$2, %r9d
	xorl	%ebx, %r9d
	movl	%esi, %ebx
	xorl	%ecx, %r9d
	movl	%esi, %ecx
	andl	$64, %ecx
	addl	%ecx, %ecx
	andl	$-128, %esi
	xorl	%r14d, %r9d
	xorl	%r14d, %ecx
	xorl	%r14d, %esi
	xorl	%r13d, %edx
	xorl	%r13d, %r8d
	xorl	%ebp, %r11d
	xorl	%ebp, %eax
	andl	$8, %r15d
	shll	$4, %r15d
	xorl	%r10d, %r15d
	movl	-84(%rsp), %r10d                # 4-byte Reload
	xorl	%r11d, %r10d
	xorl	%esi, %r11d
	andl	$16, %ebx
	shll	$3, %ebx
	xorl	%r10d, %ecx
	xorl	%r10d, %ebx
	xorl	%r10d, %r15d
	movl	-40(%rsp), %esi                 # 4-byte Reload
	xorl	%esi, %r9d
	xorl	%esi, %eax
	notl	%ecx
	notl	%r9d
	notl	%r8d
	notl	%edx
	rolw	$9, %r11w
	rolw	$9, %cx
	rolw	$9, %r9w
	rolw	$9, %bx
	rolw	$9, %r15w
	rolw	$9, %ax
	rolw	$9, %r8w
	rolw	$9, %dx
	movdqu	-16(%rdi), %xmm0
	movd	%eax, %xmm1
	movd	%r15d, %xmm2
	punpcklwd	%xmm2, %xmm1            # xmm1 = xmm1[0],xmm2[0],xmm1[1],xmm2[1],xmm1[2],xmm2[2],xmm1[3],xmm2[3]
	movd	%r8d, %xmm2
	movd	%edx, %xmm3
	punpcklwd	%xmm2, %xmm3            # xmm3 = xmm3[0],xmm2[0],xmm3[1],xmm2[1],xmm3[2],xmm2[2],xmm3[3],xmm2[3]
	punpckldq	%xmm1, %xmm3            # xmm3 = xmm3[0],xmm1[0],xmm3[1],xmm1[1]
	movd	%r9d, %xmm1
	movd	%ebx, %xmm2
	punpcklwd	%xmm1, %xmm2            # xmm2 = xmm2[0],xmm1[0],xmm2[1],xmm1[1],xmm2[2],xmm1[2],xmm2[3],xmm1[3]
	movd	%ecx, %xmm1
	movd	%r11d, %xmm4
	punpcklwd	%xmm4, %xmm1            # xmm1 = xmm1[0],xmm4[0],xmm1[1],xmm4[1],xmm1[2],xmm4[2],xmm1[3],xmm4[3]
	punpckldq	%xmm1, %xmm2            # xmm2 = xmm2[0],xmm1[0],xmm2[1],xmm1[1]
	punpcklqdq	%xmm2, %xmm3            # xmm3 = xmm3[0],xmm2[0]
	pand	l_CPI5_7(%rip), %xmm3
	pxor	%xmm0, %xmm3
	movdqa	%xmm3, %xmm0
	paddw	%xmm0, %xmm0
	pand	l_CPI5_8(%rip), %xmm0
	pxor	%xmm3, %xmm0
	movdqa	%xmm0, %xmm1
	psllw	$2, %xmm1
	pand	l_CPI5_9(%rip), %xmm1
	pxor	%xmm0, %xmm1
	movdqu	%xmm1, (%rdi)
	movq	-32(%rsp), %r10                 # 8-byte Reload
	incq	%r10
	movd	%xmm1, %r12d
	pextrw	$1, %xmm1, %r9d
	pextrw	$2, %xmm1, %r8d
	pextrw	$3, %xmm1, %r14d
	pextrw	$4, %xmm1, %edx
	pextrw	$5, %xmm1, %esi
	pextrw	$6, %xmm1, %ecx
	pextrw	$7, %xmm1, %ebp
	addq	$16, %rdi
	movq	%r10, -32(%rsp)                 # 8-byte Spill
	cmpq	$10, %r10
	jne	LBB5_3
	jmp	LBB5_9
LBB5_4:                                # %then.4
	movq	16(%rsi), %xmm6                 # xmm6 = mem[0],zero
	movdqa	%xmm0, %xmm12
	psllw	$7, %xmm12
	pmovmskb	%xmm12, %eax
	movw	%ax, (%rdi)
	pcmpgtb	%xmm1, %xmm11
	pmovmskb	%xmm11, %ecx
	movw	%cx, 2(%rdi)
	pcmpgtb	%xmm1, %xmm10
	pmovmskb	%xmm10, %edx
	movw	%dx, 4(%rdi)
	pcmpgtb	%xmm1, %xmm9
	pmovmskb	%xmm9, %esi
	movw	%si, 6(%rdi)
	pcmpgtb	%xmm1, %xmm8
	pmovmskb	%xmm8, %r9d
	movw	%r9w, 8(%rdi)
	pcmpgtb	%xmm1, %xmm7
	pmovmskb	%xmm7, %r8d
	movw	%r8w, 10(%rdi)
	movd	%r8d, %xmm8
	pcmpgtb	%xmm1, %xmm5
	movd	%r9d, %xmm7
	pmovmskb	%xmm5, %r8d
	movw	%r8w, 12(%rdi)
	movd	%r8d, %xmm5
	pmovmskb	%xmm0, %r8d
	movw	%r8w, 14(%rdi)
	movd	%r8d, %xmm0
	movd	%esi, %xmm10
	movd	%edx, %xmm9
	movd	%ecx, %xmm11
	pshuflw	$226, %xmm3, %xmm3              # xmm3 = xmm3[2,0,2,3,4,5,6,7]
	pshufhw	$237, %xmm3, %xmm3              # xmm3 = xmm3[0,1,2,3,5,7,6,7]
	pshuflw	$232, %xmm4, %xmm4              # xmm4 = xmm4[0,2,2,3,4,5,6,7]
	pshufhw	$231, %xmm4, %xmm4              # xmm4 = xmm4[0,1,2,3,7,5,6,7]
	packuswb	%xmm3, %xmm4
	pand	%xmm2, %xmm4
	punpcklbw	%xmm1, %xmm6            # xmm6 = xmm6[0],xmm1[0],xmm6[1],xmm1[1],xmm6[2],xmm1[2],xmm6[3],xmm1[3],xmm6[4],xmm1[4],xmm6[5],xmm1[5],xmm6[6],xmm1[6],xmm6[7],xmm1[7]
	pshufd	$215, %xmm6, %xmm1              # xmm1 = xmm6[3,1,1,3]
	pshuflw	$36, %xmm1, %xmm1               # xmm1 = xmm1[0,1,2,0,4,5,6,7]
	pshufhw	$212, %xmm1, %xmm1              # xmm1 = xmm1[0,1,2,3,4,5,5,7]
	pshufd	$40, %xmm6, %xmm3               # xmm3 = xmm6[0,2,2,0]
	pshuflw	$132, %xmm3, %xmm3              # xmm3 = xmm3[0,1,0,2,4,5,6,7]
	pshufhw	$116, %xmm3, %xmm3              # xmm3 = xmm3[0,1,2,3,4,5,7,5]
	packuswb	%xmm1, %xmm3
	pandn	%xmm3, %xmm2
	por	%xmm4, %xmm2
	movdqa	%xmm2, %xmm3
	psllw	$7, %xmm3
	movdqa	%xmm2, %xmm4
	psllw	$6, %xmm4
	movdqa	%xmm2, %xmm6
	psllw	$5, %xmm6
	movdqa	%xmm2, %xmm12
	psllw	$4, %xmm12
	movdqa	%xmm2, %xmm13
	psllw	$3, %xmm13
	movdqa	%xmm2, %xmm14
	psllw	$2, %xmm14
	movd	%eax, %xmm1
	pmovmskb	%xmm2, %eax
	paddb	%xmm2, %xmm2
	movd	%eax, %xmm15
	pmovmskb	%xmm2, %eax
	movd	%eax, %xmm2
	pmovmskb	%xmm14, %eax
	movd	%eax, %xmm14
	pmovmskb	%xmm13, %eax
	movd	%eax, %xmm13
	pmovmskb	%xmm12, %eax
	movd	%eax, %xmm12
	pmovmskb	%xmm6, %eax
	movd	%eax, %xmm6
	pmovmskb	%xmm4, %eax
	movd	%eax, %xmm4
	pmovmskb	%xmm3, %eax
	punpcklwd	%xmm8, %xmm7            # xmm7 = xmm7[0],xmm8[0],xmm7[1],xmm8[1],xmm7[2],xmm8[2],xmm7[3],xmm8[3]
	punpcklwd	%xmm0, %xmm5            # xmm5 = xmm5[0],xmm0[0],xmm5[1],xmm0[1],xmm5[2],xmm0[2],xmm5[3],xmm0[3]
	punpckldq	%xmm5, %xmm7            # xmm7 = xmm7[0],xmm5[0],xmm7[1],xmm5[1]
	punpcklwd	%xmm10, %xmm9           # xmm9 = xmm9[0],xmm10[0],xmm9[1],xmm10[1],xmm9[2],xmm10[2],xmm9[3],xmm10[3]
	punpcklwd	%xmm11, %xmm1           # xmm1 = xmm1[0],xmm11[0],xmm1[1],xmm11[1],xmm1[2],xmm11[2],xmm1[3],xmm11[3]
	punpckldq	%xmm9, %xmm1            # xmm1 = xmm1[0],xmm9[0],xmm1[1],xmm9[1]
	punpcklqdq	%xmm7, %xmm1            # xmm1 = xmm1[0],xmm7[0]
	punpcklwd	%xmm15, %xmm2           # xmm2 = xmm2[0],xmm15[0],xmm2[1],xmm15[1],xmm2[2],xmm15[2],xmm2[3],xmm15[3]
	punpcklwd	%xmm14, %xmm13          # xmm13 = xmm13[0],xmm14[0],xmm13[1],xmm14[1],xmm13[2],xmm14[2],xmm13[3],xmm14[3]
	punpckldq	%xmm2, %xmm13           # xmm13 = xmm13[0],xmm2[0],xmm13[1],xmm2[1]
	punpcklwd	%xmm12, %xmm6           # xmm6 = xmm6[0],xmm12[0],xmm6[1],xmm12[1],xmm6[2],xmm12[2],xmm6[3],xmm12[3]
	movd	%eax, %xmm0
	punpcklwd	%xmm4, %xmm0            # xmm0 = xmm0[0],xmm4[0],xmm0[1],xmm4[1],xmm0[2],xmm4[2],xmm0[3],xmm4[3]
	punpckldq	%xmm6, %xmm0            # xmm0 = xmm0[0],xmm6[0],xmm0[1],xmm6[1]
	punpcklqdq	%xmm13, %xmm0           # xmm0 = xmm0[0],xmm13[0]
	addq	$48, %rdi
	movq	$0, -32(%rsp)                   # 8-byte Folded Spill
	.p2align	4
LBB5_5:                                # %join.5.i165
                                        # =>This Inner Loop Header: Depth=1
	movq	%rdi, -16(%rsp)                 # 8-byte Spill
	pextrw	$5, %xmm0, %ebx
	pextrw	$6, %xmm0, %esi
	xorl	%esi, %ebx
	pextrw	$4, %xmm0, %edx
	pextrw	$7, %xmm0, %eax
	movl	%eax, %r11d
	xorl	%edx, %r11d
	movd	%xmm0, %r12d
	movl	%ebx, %ebp
	xorl	%r12d, %ebp
	movl	%ebp, %ecx
	xorl	%edx, %ecx
	movl	%ecx, -40(%rsp)                 # 4-byte Spill
	andl	%r12d, %ecx
	pextrw	$1, %xmm0, %r15d
	movl	%eax, %r9d
	movl	%eax, -72(%rsp)                 # 4-byte Spill
	xorl	%r15d, %r9d
	movl	%r9d, -80(%rsp)                 # 4-byte Spill
	pextrw	$2, %xmm0, %edi
	xorl	%edi, %edx
	xorl	%edx, %r9d
	pextrw	$3, %xmm0, %r8d
	xorl	%r9d, %r8d
	movl	%r9d, -76(%rsp)                 # 4-byte Spill
	movl	%r8d, %r13d
	xorl	%edi, %r13d
	xorl	%esi, %r8d
	xorl	%eax, %edi
	movl	%edi, %r10d
	movl	%r13d, %edi
	andl	%r9d, %edi
	movl	%r13d, %esi
	xorl	%ebx, %esi
	movl	%esi, -48(%rsp)                 # 4-byte Spill
	xorl	%r10d, %ecx
	xorl	%esi, %ecx
	xorl	%edi, %ecx
	xorl	%r8d, %edi
	movl	%r11d, -60(%rsp)                # 4-byte Spill
	xorl	%r11d, %r8d
	movl	%r8d, %r9d
	andl	%r11d, %r9d
	movl	%r8d, %r11d
	xorl	%esi, %r11d
	movl	%r11d, -52(%rsp)                # 4-byte Spill
	andl	%edx, %r11d
	movl	%r10d, -44(%rsp)                # 4-byte Spill
	andl	%r10d, %esi
	xorl	%r9d, %r11d
	xorl	%r9d, %esi
	movl	%r15d, %eax
	xorl	%ebp, %eax
	movl	%r13d, %r14d
	xorl	%r12d, %r14d
	movl	%eax, -64(%rsp)                 # 4-byte Spill
	movl	%eax, %r15d
	xorl	%r10d, %r15d
	movl	%r15d, -56(%rsp)                # 4-byte Spill
	movl	%r14d, %r9d
	andl	%r15d, %r9d
	xorl	%r9d, %edi
	xorl	%r8d, %ebx
	movl	%eax, %r9d
	andl	%ebp, %r9d
	movl	%ebx, %r10d
	movl	-80(%rsp), %eax                 # 4-byte Reload
	andl	%eax, %r10d
	xorl	%r11d, %edi
	xorl	%ebx, %r9d
	xorl	%r10d, %r9d
	xorl	%eax, %r9d
	xorl	%r11d, %r9d
	movl	%ebp, %r11d
	movl	-72(%rsp), %eax                 # 4-byte Reload
	xorl	%eax, %r11d
	movl	%r11d, -84(%rsp)                # 4-byte Spill
	xorl	%eax, %r10d
	movl	%r8d, %eax
	xorl	%r12d, %eax
	movl	%eax, -72(%rsp)                 # 4-byte Spill
	andl	%r11d, %eax
	xorl	%ebx, %eax
	xorl	%eax, %r10d
	xorl	%esi, %ecx
	xorl	%esi, %r10d
	movl	%r9d, %r15d
	andl	%edi, %r15d
	movl	%r15d, %eax
	xorl	%ecx, %eax
	movl	%r9d, %esi
	xorl	%r10d, %esi
	andl	%eax, %esi
	xorl	%ecx, %edi
	movl	%esi, %r11d
	xorl	%r15d, %esi
	xorl	%r10d, %r15d
	movl	%r15d, %eax
	andl	%edi, %eax
	xorl	%ecx, %eax
	xorl	%r10d, %r11d
	andl	%r10d, %esi
	xorl	%esi, %r15d
	andl	%eax, %r15d
	xorl	%edi, %r15d
	xorl	%r9d, %esi
	andl	%r11d, -40(%rsp)                # 4-byte Folded Spill
	movl	%esi, %edi
	xorl	%r11d, %edi
	movl	%eax, %r10d
	xorl	%r11d, %r10d
	andl	%r12d, %r11d
	movl	%r15d, %r12d
	xorl	%edi, %r12d
	movl	%r12d, -68(%rsp)                # 4-byte Spill
	andl	%r10d, %r8d
	xorl	%r10d, %r12d
	andl	-60(%rsp), %r10d                # 4-byte Folded Reload
	movl	%r15d, %r9d
	xorl	%eax, %r9d
	andl	%r9d, %ebx
	andl	-80(%rsp), %r9d                 # 4-byte Folded Reload
	andl	%r15d, %ebp
	andl	-64(%rsp), %r15d                # 4-byte Folded Reload
	andl	%edi, %r14d
	andl	-56(%rsp), %edi                 # 4-byte Folded Reload
	andl	%r12d, %edx
	andl	-52(%rsp), %r12d                # 4-byte Folded Reload
	movl	-84(%rsp), %ecx                 # 4-byte Reload
	andl	%eax, %ecx
	andl	-72(%rsp), %eax                 # 4-byte Folded Reload
	andl	%esi, %r13d
	andl	-76(%rsp), %esi                 # 4-byte Folded Reload
	xorl	%r13d, %r14d
	xorl	%r11d, %r13d
	xorl	%ebx, %ebp
	xorl	%r13d, %eax
	xorl	%ebx, %eax
	xorl	%r10d, %edx
	xorl	%edx, %edi
	xorl	%eax, %r15d
	xorl	%edx, %r15d
	xorl	%ebp, %r12d
	xorl	%ebp, %r14d
	movl	-48(%rsp), %edx                 # 4-byte Reload
	movl	-68(%rsp), %ebx                 # 4-byte Reload
	andl	%ebx, %edx
	xorl	%edx, %r13d
	leaq	l_static.10(%rip), %r11
	xorl	%r9d, %r13d
	xorl	%r12d, %r13d
	xorl	%r8d, %r12d
	movq	-32(%rsp), %rdx                 # 8-byte Reload
	movzbl	(%r11,%rdx,2), %edx
	xorl	%edi, %esi
	xorl	%r13d, %ecx
	movl	%ecx, -84(%rsp)                 # 4-byte Spill
	xorl	%esi, %r14d
	andl	-44(%rsp), %ebx                 # 4-byte Folded Reload
	movl	%ebx, %ecx
	movl	%edx, %r8d
	andl	$4, %r8d
	shll	$5, %r8d
	xorl	-40(%rsp), %r8d                 # 4-byte Folded Reload
	movl	%edx, %r11d
	shlb	$7, %r11b
	movzbl	%r11b, %ebx
	xorl	%r9d, %ebx
	movl	%edx, %ebp
	andl	$2, %ebp
	shll	$6, %ebp
	xorl	%r13d, %ebp
	movl	%edx, %r9d
	andl	$8, %r9d
	shll	$4, %r9d
	xorl	%r15d, %ebx
	xorl	%r15d, %ebp
	movl	%edx, %r11d
	andl	$16, %r11d
	shll	$3, %r11d
	xorl	%edi, %r8d
	movl	%edx, %edi
	andl	$32, %edi
	shll	$2, %edi
	xorl	%eax, %r9d
	movl	%edx, %eax
	andl	$64, %eax
	addl	%eax, %eax
	andl	$-128, %edx
	xorl	%r10d, %edi
	xorl	%ecx, %edi
	xorl	%r12d, %edi
	movl	-84(%rsp), %r10d                # 4-byte Reload
	xorl	%r10d, %edi
	xorl	%r12d, %eax
	xorl	%r14d, %eax
	xorl	%r12d, %edx
	xorl	%esi, %edx
	notl	%eax
	notl	%edi
	xorl	%r14d, %r11d
	xorl	%r14d, %r9d
	xorl	%r10d, %r8d
	notl	%ebp
	notl	%ebx
	rolw	$9, %dx
	rolw	$9, %ax
	rolw	$9, %di
	rolw	$9, %r11w
	rolw	$9, %r9w
	rolw	$9, %r8w
	rolw	$9, %bp
	rolw	$9, %bx
	movd	%r8d, %xmm2
	movd	%r9d, %xmm3
	punpcklwd	%xmm3, %xmm2            # xmm2 = xmm2[0],xmm3[0],xmm2[1],xmm3[1],xmm2[2],xmm3[2],xmm2[3],xmm3[3]
	movd	%ebp, %xmm3
	movd	%ebx, %xmm4
	punpcklwd	%xmm3, %xmm4            # xmm4 = xmm4[0],xmm3[0],xmm4[1],xmm3[1],xmm4[2],xmm3[2],xmm4[3],xmm3[3]
	punpckldq	%xmm2, %xmm4            # xmm4 = xmm4[0],xmm2[0],xmm4[1],xmm2[1]
	movd	%edi, %xmm2
	movd	%r11d, %xmm3
	punpcklwd	%xmm2, %xmm3            # xmm3 = xmm3[0],xmm2[0],xmm3[1],xmm2[1],xmm3[2],xmm2[2],xmm3[3],xmm2[3]
	movd	%eax, %xmm2
	movd	%edx, %xmm5
	punpcklwd	%xmm5, %xmm2            # xmm2 = xmm2[0],xmm5[0],xmm2[1],xmm5[1],xmm2[2],xmm5[2],xmm2[3],xmm5[3]
	punpckldq	%xmm2, %xmm3            # xmm3 = xmm3[0],xmm2[0],xmm3[1],xmm2[1]
	punpcklqdq	%xmm3, %xmm4            # xmm4 = xmm4[0],xmm3[0]
	movdqa	l_CPI5_7(%rip), %xmm2           # xmm2 = [4369,4369,4369,4369,4369,4369,4369,4369]
	pand	%xmm2, %xmm4
	pxor	%xmm1, %xmm4
	movdqa	%xmm4, %xmm1
	paddw	%xmm1, %xmm1
	movdqa	l_CPI5_8(%rip), %xmm3           # xmm3 = [61166,61166,61166,61166,61166,61166,61166,61166]
	pand	%xmm3, %xmm1
	pxor	%xmm4, %xmm1
	movdqa	l_CPI5_9(%rip), %xmm4           # xmm4 = [52428,52428,52428,52428,52428,52428,52428,52428]
	movdqa	%xmm1, %xmm5
	psrlw	$1, %xmm5
	pand	%xmm2, %xmm5
	pxor	%xmm0, %xmm5
	movdqa	%xmm5, %xmm6
	paddw	%xmm6, %xmm6
	pand	%xmm3, %xmm6
	pxor	%xmm5, %xmm6
	movdqa	%xmm6, %xmm5
	psllw	$2, %xmm5
	pand	%xmm4, %xmm5
	pxor	%xmm6, %xmm5
	pextrw	$5, %xmm5, %r15d
	pextrw	$6, %xmm5, %eax
	xorl	%eax, %r15d
	pextrw	$4, %xmm5, %esi
	pextrw	$7, %xmm5, %ecx
	movl	%ecx, %r9d
	xorl	%esi, %r9d
	movd	%xmm5, %ebx
	movl	%r15d, %edi
	xorl	%ebx, %edi
	movl	%edi, %edx
	movl	%edi, %r10d
	pextrw	$1, %xmm5, %r12d
	xorl	%esi, %edx
	movl	%edx, %r11d
	movl	%edx, -84(%rsp)                 # 4-byte Spill
	movl	%ecx, %edi
	pextrw	$2, %xmm5, %edx
	xorl	%r12d, %edi
	movl	%edi, -76(%rsp)                 # 4-byte Spill
	xorl	%edx, %esi
	xorl	%esi, %edi
	movl	%esi, %r8d
	movl	%esi, -60(%rsp)                 # 4-byte Spill
	pextrw	$3, %xmm5, %r14d
	xorl	%edi, %r14d
	movl	%edi, %esi
	movl	%edi, -44(%rsp)                 # 4-byte Spill
	movl	%r14d, %r13d
	xorl	%eax, %r14d
	movl	%r11d, %eax
	andl	%ebx, %eax
	xorl	%edx, %r13d
	xorl	%ecx, %edx
	movl	%edx, %edi
	movl	%r13d, %edx
	andl	%esi, %edx
	movl	%r13d, %esi
	xorl	%r15d, %esi
	movl	%esi, %ebp
	movl	%esi, -52(%rsp)                 # 4-byte Spill
	xorl	%edi, %eax
	xorl	%esi, %eax
	xorl	%edx, %eax
	xorl	%r14d, %edx
	movl	%r9d, -72(%rsp)                 # 4-byte Spill
	xorl	%r9d, %r14d
	movl	%r14d, %esi
	andl	%r9d, %esi
	movl	%r14d, %r9d
	movl	%r14d, %r11d
	xorl	%ebp, %r9d
	movl	%r9d, -56(%rsp)                 # 4-byte Spill
	andl	%r8d, %r9d
	movl	%ebp, %r8d
	movl	%edi, -48(%rsp)                 # 4-byte Spill
	andl	%edi, %r8d
	xorl	%esi, %r9d
	xorl	%esi, %r8d
	xorl	%r10d, %r12d
	movl	%r12d, -68(%rsp)                # 4-byte Spill
	movl	%r13d, %r14d
	xorl	%ebx, %r14d
	movl	%r12d, %ebp
	xorl	%edi, %ebp
	movl	%ebp, -64(%rsp)                 # 4-byte Spill
	movl	%r14d, %esi
	andl	%ebp, %esi
	xorl	%esi, %edx
	movl	%r11d, -80(%rsp)                # 4-byte Spill
	xorl	%r11d, %r15d
	movl	%r12d, %esi
	andl	%r10d, %esi
	movl	%r10d, %ebp
	movl	%r10d, -20(%rsp)                # 4-byte Spill
	movl	%r15d, %edi
	movl	-76(%rsp), %r10d                # 4-byte Reload
	andl	%r10d, %edi
	xorl	%r9d, %edx
	xorl	%r15d, %esi
	xorl	%edi, %esi
	xorl	%r10d, %esi
	xorl	%r9d, %esi
	movl	%ebp, %r9d
	xorl	%ecx, %r9d
	movl	%r9d, -40(%rsp)                 # 4-byte Spill
	xorl	%ecx, %edi
	movl	%r11d, %ecx
	xorl	%ebx, %ecx
	movl	%ecx, -24(%rsp)                 # 4-byte Spill
	andl	%r9d, %ecx
	xorl	%r15d, %ecx
	xorl	%ecx, %edi
	xorl	%r8d, %eax
	xorl	%r8d, %edi
	movl	%esi, %ecx
	andl	%edx, %ecx
	movl	%ecx, %r9d
	xorl	%eax, %r9d
	movl	%esi, %r8d
	xorl	%edi, %r8d
	andl	%r9d, %r8d
	movq	-32(%rsp), %r9                  # 8-byte Reload
	leaq	l_static.10(%rip), %r10
	movzbl	1(%r10,%r9,2), %ebp
	movl	%ebp, %r10d
	andl	$4, %r10d
	shll	$5, %r10d
	movl	%r8d, %r11d
	xorl	%edi, %r11d
	movl	-84(%rsp), %r9d                 # 4-byte Reload
	andl	%r11d, %r9d
	xorl	%r10d, %r9d
	movl	%r9d, -84(%rsp)                 # 4-byte Spill
	xorl	%eax, %edx
	xorl	%ecx, %r8d
	xorl	%edi, %ecx
	movl	%ecx, %r12d
	andl	%edx, %r12d
	xorl	%eax, %r12d
	andl	%edi, %r8d
	xorl	%r8d, %ecx
	andl	%r12d, %ecx
	xorl	%edx, %ecx
	xorl	%esi, %r8d
	movl	%r8d, %esi
	xorl	%r11d, %esi
	movl	%r12d, %edx
	xorl	%r11d, %edx
	andl	%ebx, %r11d
	movl	%ecx, %r10d
	xorl	%esi, %r10d
	andl	%edx, -80(%rsp)                 # 4-byte Folded Spill
	movl	%r10d, %eax
	xorl	%edx, %eax
	andl	-72(%rsp), %edx                 # 4-byte Folded Reload
	movl	%ecx, %ebx
	xorl	%r12d, %ebx
	andl	%ebx, %r15d
	andl	-76(%rsp), %ebx                 # 4-byte Folded Reload
	movl	-20(%rsp), %edi                 # 4-byte Reload
	andl	%ecx, %edi
	andl	-68(%rsp), %ecx                 # 4-byte Folded Reload
	andl	%esi, %r14d
	andl	-64(%rsp), %esi                 # 4-byte Folded Reload
	movl	-60(%rsp), %r9d                 # 4-byte Reload
	andl	%eax, %r9d
	andl	-56(%rsp), %eax                 # 4-byte Folded Reload
	andl	%r12d, -40(%rsp)                # 4-byte Folded Spill
	andl	-24(%rsp), %r12d                # 4-byte Folded Reload
	andl	%r8d, %r13d
	andl	-44(%rsp), %r8d                 # 4-byte Folded Reload
	xorl	%r13d, %r14d
	xorl	%r11d, %r13d
	xorl	%r15d, %edi
	xorl	%r13d, %r12d
	xorl	%r15d, %r12d
	xorl	%edx, %r9d
	xorl	%r9d, %esi
	xorl	%r12d, %ecx
	xorl	%r9d, %ecx
	xorl	%edi, %eax
	xorl	%edi, %r14d
	movl	-52(%rsp), %edi                 # 4-byte Reload
	andl	%r10d, %edi
	xorl	%edi, %r13d
	xorl	%ebx, %r13d
	xorl	%eax, %r13d
	xorl	-80(%rsp), %eax                 # 4-byte Folded Reload
	movl	%ebp, %r9d
	shlb	$7, %r9b
	movzbl	%r9b, %r9d
	andl	-48(%rsp), %r10d                # 4-byte Folded Reload
	movl	%ebp, %r11d
	andl	$2, %r11d
	shll	$6, %r11d
	xorl	%r9d, %ebx
	movl	%ebp, %r9d
	movl	-40(%rsp), %edi                 # 4-byte Reload
	xorl	%r13d, %edi
	xorl	%r11d, %r13d
	movl	%ebp, %r11d
	andl	$32, %r11d
	shll	$2, %r11d
	xorl	%r11d, %edx
	movl	%ebp, %r11d
	xorl	%r10d, %edx
	movl	%ebp, %r10d
	andl	$64, %r10d
	addl	%r10d, %r10d
	andl	$-128, %ebp
	xorl	%eax, %edx
	xorl	%eax, %r10d
	xorl	%ebp, %eax
	xorl	%ecx, %ebx
	xorl	%ecx, %r13d
	xorl	%esi, %r8d
	xorl	-84(%rsp), %esi                 # 4-byte Folded Reload
	andl	$8, %r9d
	shll	$4, %r9d
	xorl	%r9d, %r12d
	xorl	%r8d, %r14d
	xorl	%eax, %r8d
	andl	$16, %r11d
	shll	$3, %r11d
	xorl	%r14d, %r10d
	xorl	%r14d, %r11d
	xorl	%r14d, %r12d
	xorl	%edi, %edx
	xorl	%edi, %esi
	rolw	$9, %si
	movd	%esi, %xmm7
	rolw	$9, %r12w
	movd	%r12d, %xmm8
	movq	-16(%rsp), %rdi                 # 8-byte Reload
	notl	%r13d
	rolw	$9, %r13w
	movd	%r13d, %xmm9
	notl	%ebx
	rolw	$9, %bx
	movd	%ebx, %xmm6
	notl	%edx
	rolw	$9, %dx
	movd	%edx, %xmm10
	notl	%r10d
	rolw	$9, %r10w
	rolw	$9, %r11w
	movd	%r11d, %xmm11
	movd	%r10d, %xmm12
	rolw	$9, %r8w
	movd	%r8d, %xmm13
	psrlw	$2, %xmm0
	movdqa	%xmm4, %xmm14
	pandn	%xmm0, %xmm14
	movdqa	%xmm1, %xmm0
	psllw	$2, %xmm0
	pand	%xmm4, %xmm0
	por	%xmm0, %xmm14
	movdqu	%xmm14, -32(%rdi)
	punpcklwd	%xmm8, %xmm7            # xmm7 = xmm7[0],xmm8[0],xmm7[1],xmm8[1],xmm7[2],xmm8[2],xmm7[3],xmm8[3]
	punpcklwd	%xmm9, %xmm6            # xmm6 = xmm6[0],xmm9[0],xmm6[1],xmm9[1],xmm6[2],xmm9[2],xmm6[3],xmm9[3]
	punpckldq	%xmm7, %xmm6            # xmm6 = xmm6[0],xmm7[0],xmm6[1],xmm7[1]
	punpcklwd	%xmm10, %xmm11          # xmm11 = xmm11[0],xmm10[0],xmm11[1],xmm10[1],xmm11[2],xmm10[2],xmm11[3],xmm10[3]
	movdqu	%xmm5, -16(%rdi)
	punpcklwd	%xmm13, %xmm12          # xmm12 = xmm12[0],xmm13[0],xmm12[1],xmm13[1],xmm12[2],xmm13[2],xmm12[3],xmm13[3]
	punpckldq	%xmm12, %xmm11          # xmm11 = xmm11[0],xmm12[0],xmm11[1],xmm12[1]
	punpcklqdq	%xmm11, %xmm6           # xmm6 = xmm6[0],xmm11[0]
	pand	%xmm2, %xmm6
	por	%xmm0, %xmm6
	pxor	%xmm1, %xmm6
	movdqa	%xmm6, %xmm0
	paddw	%xmm0, %xmm0
	pand	%xmm3, %xmm0
	pxor	%xmm6, %xmm0
	movdqa	%xmm0, %xmm1
	psllw	$2, %xmm1
	pand	%xmm4, %xmm1
	pxor	%xmm0, %xmm1
	psrlw	$1, %xmm0
	pand	%xmm2, %xmm0
	pxor	%xmm5, %xmm0
	movdqa	%xmm0, %xmm2
	paddw	%xmm2, %xmm2
	pand	%xmm3, %xmm2
	pxor	%xmm0, %xmm2
	movdqa	%xmm2, %xmm0
	psllw	$2, %xmm0
	pand	%xmm4, %xmm0
	pxor	%xmm2, %xmm0
	movdqu	%xmm1, (%rdi)
	movq	-32(%rsp), %rax                 # 8-byte Reload
	incq	%rax
	addq	$48, %rdi
	movq	%rax, -32(%rsp)                 # 8-byte Spill
	cmpq	$4, %rax
	jne	LBB5_5
	jmp	LBB5_9
LBB5_6:                                # %else.5
	pmovmskb	%xmm0, %eax
	pcmpgtb	%xmm1, %xmm5
	pmovmskb	%xmm5, %ecx
	pcmpgtb	%xmm1, %xmm7
	pmovmskb	%xmm7, %edx
	pcmpgtb	%xmm1, %xmm8
	pmovmskb	%xmm8, %ebx
	pcmpgtb	%xmm1, %xmm9
	pmovmskb	%xmm9, %r8d
	pcmpgtb	%xmm1, %xmm10
	pmovmskb	%xmm10, %r9d
	pcmpgtb	%xmm1, %xmm11
	pmovmskb	%xmm11, %r10d
	psllw	$7, %xmm0
	pmovmskb	%xmm0, %r11d
	movdqu	16(%rsi), %xmm0
	movdqa	%xmm0, %xmm2
	punpckhbw	%xmm1, %xmm2            # xmm2 = xmm2[8],xmm1[8],xmm2[9],xmm1[9],xmm2[10],xmm1[10],xmm2[11],xmm1[11],xmm2[12],xmm1[12],xmm2[13],xmm1[13],xmm2[14],xmm1[14],xmm2[15],xmm1[15]
	pshufd	$231, %xmm2, %xmm3              # xmm3 = xmm2[3,1,2,3]
	pshuflw	$114, %xmm3, %xmm3              # xmm3 = xmm3[2,0,3,1,4,5,6,7]
	punpcklbw	%xmm1, %xmm0            # xmm0 = xmm0[0],xmm1[0],xmm0[1],xmm1[1],xmm0[2],xmm1[2],xmm0[3],xmm1[3],xmm0[4],xmm1[4],xmm0[5],xmm1[5],xmm0[6],xmm1[6],xmm0[7],xmm1[7]
	pshufd	$231, %xmm0, %xmm1              # xmm1 = xmm0[3,1,2,3]
	pshuflw	$114, %xmm1, %xmm1              # xmm1 = xmm1[2,0,3,1,4,5,6,7]
	punpckldq	%xmm3, %xmm1            # xmm1 = xmm1[0],xmm3[0],xmm1[1],xmm3[1]
	pshufd	$232, %xmm2, %xmm2              # xmm2 = xmm2[0,2,2,3]
	pshuflw	$216, %xmm2, %xmm2              # xmm2 = xmm2[0,2,1,3,4,5,6,7]
	pshufd	$232, %xmm0, %xmm0              # xmm0 = xmm0[0,2,2,3]
	pshuflw	$216, %xmm0, %xmm0              # xmm0 = xmm0[0,2,1,3,4,5,6,7]
	punpckldq	%xmm2, %xmm0            # xmm0 = xmm0[0],xmm2[0],xmm0[1],xmm2[1]
	packuswb	%xmm1, %xmm0
	movw	%r11w, (%rdi)
	movw	%r10w, 2(%rdi)
	movw	%r9w, 4(%rdi)
	movw	%r8w, 6(%rdi)
	movw	%bx, 8(%rdi)
	movw	%dx, 10(%rdi)
	movw	%cx, 12(%rdi)
	movw	%ax, 14(%rdi)
	movdqa	%xmm0, %xmm1
	psllw	$7, %xmm1
	pmovmskb	%xmm1, %ebp
	movw	%bp, 16(%rdi)
	movdqa	%xmm0, %xmm1
	psllw	$6, %xmm1
	pmovmskb	%xmm1, %eax
	movl	%eax, %r11d
	movw	%ax, 18(%rdi)
	movdqa	%xmm0, %xmm1
	psllw	$5, %xmm1
	pmovmskb	%xmm1, %esi
	movw	%si, 20(%rdi)
	movdqa	%xmm0, %xmm1
	psllw	$4, %xmm1
	pmovmskb	%xmm1, %r14d
	movw	%r14w, 22(%rdi)
	movdqa	%xmm0, %xmm1
	psllw	$3, %xmm1
	pmovmskb	%xmm1, %r13d
	movw	%r13w, 24(%rdi)
	movdqa	%xmm0, %xmm1
	psllw	$2, %xmm1
	pmovmskb	%xmm1, %r10d
	movw	%r10w, 26(%rdi)
	pmovmskb	%xmm0, %r15d
	paddb	%xmm0, %xmm0
	pmovmskb	%xmm0, %r9d
	movw	%r9w, 28(%rdi)
	movw	%r15w, 30(%rdi)
	movq	%rdi, -16(%rsp)                 # 8-byte Spill
	leaq	62(%rdi), %rax
	movq	%rax, -40(%rsp)                 # 8-byte Spill
	movq	$0, -32(%rsp)                   # 8-byte Folded Spill
	.p2align	4
LBB5_7:                                # %join.5.i350
                                        # =>This Inner Loop Header: Depth=1
	xorl	%r9d, %r10d
	movl	%r15d, %r12d
	xorl	%r13d, %r12d
	movl	%r10d, %ecx
	xorl	%ebp, %ecx
	movl	%ecx, %eax
	movl	%ecx, %edi
	movl	%ecx, -4(%rsp)                  # 4-byte Spill
	movl	%r15d, %edx
	xorl	%r11d, %edx
	movl	%edx, -76(%rsp)                 # 4-byte Spill
	xorl	%r13d, %eax
	movl	%eax, -80(%rsp)                 # 4-byte Spill
	xorl	%esi, %r13d
	xorl	%r13d, %edx
	movl	%eax, %ecx
	xorl	%edx, %r14d
	movl	%edx, %eax
	movl	%edx, -44(%rsp)                 # 4-byte Spill
	movl	%ebp, %ebx
	movl	%r14d, %ebp
	xorl	%esi, %ebp
	andl	%ebx, %ecx
	xorl	%r9d, %r14d
	xorl	%r15d, %esi
	movl	%ebp, %edx
	andl	%eax, %edx
	movl	%ebp, %eax
	xorl	%r10d, %eax
	xorl	%esi, %ecx
	xorl	%eax, %ecx
	xorl	%edx, %ecx
	xorl	%r14d, %edx
	movl	%r14d, %r8d
	movl	%r12d, -64(%rsp)                # 4-byte Spill
	xorl	%r12d, %r8d
	movl	%esi, %r14d
	movl	%r8d, %esi
	andl	%r12d, %esi
	movl	%r8d, %r9d
	movl	%eax, -52(%rsp)                 # 4-byte Spill
	xorl	%eax, %r9d
	movl	%r9d, -56(%rsp)                 # 4-byte Spill
	movl	%r14d, -48(%rsp)                # 4-byte Spill
	andl	%r14d, %eax
	andl	%r13d, %r9d
	xorl	%esi, %r9d
	xorl	%esi, %eax
	xorl	%edi, %r11d
	movl	%ebp, %edi
	movl	%ebx, -24(%rsp)                 # 4-byte Spill
	xorl	%ebx, %edi
	movl	%edi, -20(%rsp)                 # 4-byte Spill
	movl	%r15d, %r12d
	movl	%r11d, %r15d
	movl	%r11d, -72(%rsp)                # 4-byte Spill
	xorl	%r14d, %r11d
	movl	%r11d, -60(%rsp)                # 4-byte Spill
	andl	%r11d, %edi
	xorl	%edi, %edx
	xorl	%r8d, %r10d
	movl	-4(%rsp), %edi                  # 4-byte Reload
	andl	%edi, %r15d
	movl	%r10d, %r14d
	movl	-76(%rsp), %r11d                # 4-byte Reload
	andl	%r11d, %r14d
	xorl	%r9d, %edx
	xorl	%r10d, %r15d
	xorl	%r14d, %r15d
	xorl	%r11d, %r15d
	xorl	%r9d, %r15d
	movl	%edi, %r11d
	xorl	%r12d, %r11d
	movl	%r11d, -84(%rsp)                # 4-byte Spill
	xorl	%r12d, %r14d
	movl	%r8d, %r9d
	xorl	%ebx, %r9d
	movl	%r9d, -68(%rsp)                 # 4-byte Spill
	andl	%r11d, %r9d
	xorl	%r10d, %r9d
	xorl	%r9d, %r14d
	xorl	%eax, %ecx
	xorl	%eax, %r14d
	movl	%r15d, %ebx
	andl	%edx, %ebx
	movl	%ebx, %eax
	xorl	%ecx, %eax
	movl	%r15d, %r11d
	xorl	%r14d, %r11d
	andl	%eax, %r11d
	xorl	%ecx, %edx
	movl	%r11d, %r9d
	xorl	%ebx, %r11d
	xorl	%r14d, %ebx
	movl	%ebx, %eax
	andl	%edx, %eax
	xorl	%ecx, %eax
	xorl	%r14d, %r9d
	andl	%r14d, %r11d
	xorl	%r11d, %ebx
	andl	%eax, %ebx
	xorl	%edx, %ebx
	xorl	%r15d, %r11d
	andl	%r9d, -80(%rsp)                 # 4-byte Folded Spill
	movl	%r11d, %edx
	xorl	%r9d, %edx
	movl	%eax, %r15d
	xorl	%r9d, %r15d
	andl	-24(%rsp), %r9d                 # 4-byte Folded Reload
	andl	%r15d, %r8d
	movl	%ebx, %r14d
	xorl	%edx, %r14d
	movl	%r14d, %esi
	xorl	%r15d, %esi
	andl	-64(%rsp), %r15d                # 4-byte Folded Reload
	movl	%ebx, %ecx
	xorl	%eax, %ecx
	andl	%ecx, %r10d
	andl	-76(%rsp), %ecx                 # 4-byte Folded Reload
	andl	%ebx, %edi
	andl	-72(%rsp), %ebx                 # 4-byte Folded Reload
	movl	-20(%rsp), %r12d                # 4-byte Reload
	andl	%edx, %r12d
	andl	-60(%rsp), %edx                 # 4-byte Folded Reload
	andl	%esi, %r13d
	andl	-56(%rsp), %esi                 # 4-byte Folded Reload
	andl	%eax, -84(%rsp)                 # 4-byte Folded Spill
	andl	-68(%rsp), %eax                 # 4-byte Folded Reload
	andl	%r11d, %ebp
	andl	-44(%rsp), %r11d                # 4-byte Folded Reload
	xorl	%ebp, %r12d
	xorl	%r9d, %ebp
	xorl	%r10d, %edi
	xorl	%ebp, %eax
	xorl	%r10d, %eax
	xorl	%edi, %r12d
	xorl	%edi, %esi
	xorl	%r15d, %r13d
	xorl	%r13d, %edx
	xorl	%eax, %ebx
	xorl	%r13d, %ebx
	movl	-52(%rsp), %edi                 # 4-byte Reload
	andl	%r14d, %edi
	xorl	%edi, %ebp
	leaq	l_static.10(%rip), %rdi
	movq	-32(%rsp), %r9                  # 8-byte Reload
	movzbl	(%r9,%rdi), %r10d
	xorl	%ecx, %ebp
	xorl	%esi, %ebp
	andl	-48(%rsp), %r14d                # 4-byte Folded Reload
	xorl	%r8d, %esi
	movl	%r10d, %edi
	shlb	$7, %dil
	movl	%r10d, %r8d
	andl	$4, %r8d
	shll	$5, %r8d
	xorl	-80(%rsp), %r8d                 # 4-byte Folded Reload
	movl	%r10d, %r9d
	movzbl	%dil, %edi
	xorl	%ecx, %edi
	movl	%r10d, %ecx
	andl	$32, %ecx
	andl	$2, %r9d
	shll	$2, %ecx
	xorl	%r15d, %ecx
	movl	%r10d, %r15d
	shll	$6, %r9d
	andl	$8, %r15d
	shll	$4, %r15d
	xorl	%r14d, %ecx
	movl	-84(%rsp), %r13d                # 4-byte Reload
	xorl	%ebp, %r13d
	movl	%r10d, %r14d
	andl	$16, %r14d
	shll	$3, %r14d
	xorl	%ebp, %r9d
	movl	%r10d, %ebp
	andl	$64, %ebp
	andl	$-128, %r10d
	addl	%ebp, %ebp
	xorl	%esi, %ecx
	xorl	%esi, %ebp
	xorl	%edx, %r11d
	xorl	%esi, %r10d
	xorl	%r11d, %r12d
	xorl	%ebx, %edi
	xorl	%edx, %r8d
	xorl	%ebx, %r9d
	xorl	%eax, %r15d
	xorl	%r13d, %ecx
	xorl	%r12d, %ebp
	xorl	%r10d, %r11d
	notl	%ecx
	xorl	%r12d, %r14d
	xorl	%r13d, %r8d
	xorl	%r12d, %r15d
	notl	%r9d
	rolw	$9, %r11w
	notl	%ebp
	rolw	$9, %cx
	rolw	$9, %r14w
	rolw	$9, %r8w
	rolw	$9, %r15w
	rolw	$9, %r9w
	rolw	$9, %bp
	notl	%edi
	rolw	$9, %di
	movd	%r8d, %xmm1
	movd	%r15d, %xmm2
	movd	%r9d, %xmm3
	movd	%edi, %xmm0
	punpcklwd	%xmm2, %xmm1            # xmm1 = xmm1[0],xmm2[0],xmm1[1],xmm2[1],xmm1[2],xmm2[2],xmm1[3],xmm2[3]
	punpcklwd	%xmm3, %xmm0            # xmm0 = xmm0[0],xmm3[0],xmm0[1],xmm3[1],xmm0[2],xmm3[2],xmm0[3],xmm3[3]
	movd	%ecx, %xmm2
	movd	%r14d, %xmm3
	punpcklwd	%xmm2, %xmm3            # xmm3 = xmm3[0],xmm2[0],xmm3[1],xmm2[1],xmm3[2],xmm2[2],xmm3[3],xmm2[3]
	movd	%ebp, %xmm2
	movd	%r11d, %xmm4
	punpcklwd	%xmm4, %xmm2            # xmm2 = xmm2[0],xmm4[0],xmm2[1],xmm4[1],xmm2[2],xmm4[2],xmm2[3],xmm4[3]
	punpckldq	%xmm1, %xmm0            # xmm0 = xmm0[0],xmm1[0],xmm0[1],xmm1[1]
	punpckldq	%xmm2, %xmm3            # xmm3 = xmm3[0],xmm2[0],xmm3[1],xmm2[1]
	punpcklqdq	%xmm3, %xmm0            # xmm0 = xmm0[0],xmm3[0]
	pand	l_CPI5_7(%rip), %xmm0
	movq	-40(%rsp), %rax                 # 8-byte Reload
	movdqu	-62(%rax), %xmm1
	pxor	%xmm1, %xmm0
	movdqa	%xmm0, %xmm1
	paddw	%xmm1, %xmm1
	pand	l_CPI5_8(%rip), %xmm1
	pxor	%xmm0, %xmm1
	movdqa	%xmm1, %xmm0
	psllw	$2, %xmm0
	pand	l_CPI5_9(%rip), %xmm0
	pxor	%xmm1, %xmm0
	pextrw	$5, %xmm0, %r15d
	pextrw	$6, %xmm0, %edx
	pextrw	$4, %xmm0, %ecx
	xorl	%edx, %r15d
	pextrw	$7, %xmm0, %ebx
	movl	%ebx, %edi
	xorl	%ecx, %edi
	movd	%xmm0, %r11d
	movl	%r15d, %esi
	xorl	%r11d, %esi
	movl	%r11d, -20(%rsp)                # 4-byte Spill
	movl	%esi, %eax
	movl	%esi, %ebp
	pextrw	$1, %xmm0, %r12d
	movl	%ebx, %r8d
	xorl	%ecx, %eax
	movl	%eax, -80(%rsp)                 # 4-byte Spill
	xorl	%r12d, %r8d
	movl	%r8d, -76(%rsp)                 # 4-byte Spill
	pextrw	$2, %xmm0, %esi
	xorl	%esi, %ecx
	movl	%r8d, %r9d
	xorl	%ecx, %r9d
	movl	%ecx, -64(%rsp)                 # 4-byte Spill
	andl	%r11d, %eax
	pextrw	$3, %xmm0, %r14d
	xorl	%r9d, %r14d
	movl	%r9d, %r11d
	movl	%r9d, -44(%rsp)                 # 4-byte Spill
	movl	%r14d, %r8d
	xorl	%esi, %r8d
	xorl	%edx, %r14d
	xorl	%ebx, %esi
	movl	%r8d, %r9d
	andl	%r11d, %r9d
	xorl	%esi, %eax
	movl	%r8d, %r13d
	xorl	%r15d, %r13d
	movl	%r13d, -52(%rsp)                # 4-byte Spill
	xorl	%r13d, %eax
	xorl	%r9d, %eax
	xorl	%r14d, %r9d
	movl	%edi, -60(%rsp)                 # 4-byte Spill
	xorl	%edi, %r14d
	movl	%r14d, %edx
	andl	%edi, %edx
	movl	%r14d, %r11d
	xorl	%r13d, %r11d
	movl	%r11d, -56(%rsp)                # 4-byte Spill
	andl	%ecx, %r11d
	movl	%r13d, %edi
	movl	%esi, -48(%rsp)                 # 4-byte Spill
	andl	%esi, %edi
	xorl	%edx, %r11d
	xorl	%edx, %edi
	xorl	%ebp, %r12d
	movl	%r12d, %r10d
	movl	%r12d, %r13d
	movl	%r12d, -68(%rsp)                # 4-byte Spill
	xorl	%esi, %r10d
	movl	%r10d, -72(%rsp)                # 4-byte Spill
	movl	%r8d, %edx
	movl	-20(%rsp), %ecx                 # 4-byte Reload
	xorl	%ecx, %edx
	movl	%edx, -84(%rsp)                 # 4-byte Spill
	andl	%r10d, %edx
	xorl	%edx, %r9d
	movl	%ebp, -24(%rsp)                 # 4-byte Spill
	movl	%ebp, %r12d
	xorl	%ebx, %r12d
	movl	%r13d, %edx
	andl	%ebp, %edx
	xorl	%r14d, %r15d
	movl	%r15d, %esi
	movl	-76(%rsp), %r10d                # 4-byte Reload
	andl	%r10d, %esi
	xorl	%r15d, %edx
	xorl	%esi, %edx
	xorl	%ebx, %esi
	xorl	%r11d, %r9d
	xorl	%r10d, %edx
	xorl	%r11d, %edx
	movl	%r14d, %r13d
	xorl	%ecx, %r13d
	movl	%ecx, %r10d
	movl	%r13d, %ecx
	andl	%r12d, %ecx
	xorl	%r15d, %ecx
	xorl	%ecx, %esi
	xorl	%edi, %eax
	xorl	%edi, %esi
	movl	%edx, %r11d
	andl	%r9d, %r11d
	movl	%r11d, %ecx
	xorl	%eax, %ecx
	movl	%edx, %ebp
	xorl	%esi, %ebp
	andl	%ecx, %ebp
	movl	%ebp, %ebx
	xorl	%esi, %ebx
	xorl	%r11d, %ebp
	xorl	%esi, %r11d
	andl	%esi, %ebp
	xorl	%eax, %r9d
	movl	%r11d, %ecx
	andl	%r9d, %ecx
	xorl	%eax, %ecx
	xorl	%ebp, %r11d
	xorl	%edx, %ebp
	andl	%ecx, %r11d
	xorl	%r9d, %r11d
	andl	%ebx, -80(%rsp)                 # 4-byte Folded Spill
	movl	%ebp, %esi
	xorl	%ebx, %esi
	movl	%ecx, %edi
	xorl	%ebx, %edi
	andl	%r10d, %ebx
	movl	-24(%rsp), %r10d                # 4-byte Reload
	andl	%r11d, %r10d
	movl	%r11d, %eax
	movl	%r11d, %r9d
	andl	-68(%rsp), %r11d                # 4-byte Folded Reload
	movl	-84(%rsp), %edx                 # 4-byte Reload
	andl	%esi, %edx
	xorl	%esi, %eax
	andl	-72(%rsp), %esi                 # 4-byte Folded Reload
	xorl	%ecx, %r9d
	andl	%ecx, %r12d
	andl	%r13d, %ecx
	andl	%ebp, %r8d
	andl	-44(%rsp), %ebp                 # 4-byte Folded Reload
	andl	%r9d, %r15d
	andl	-76(%rsp), %r9d                 # 4-byte Folded Reload
	andl	%edi, %r14d
	movl	%eax, %r13d
	xorl	%edi, %r13d
	andl	-60(%rsp), %edi                 # 4-byte Folded Reload
	xorl	%r8d, %edx
	movl	%edx, -84(%rsp)                 # 4-byte Spill
	xorl	%ebx, %r8d
	movl	-64(%rsp), %edx                 # 4-byte Reload
	andl	%r13d, %edx
	andl	-56(%rsp), %r13d                # 4-byte Folded Reload
	xorl	%r15d, %r10d
	xorl	%r8d, %ecx
	xorl	%r15d, %ecx
	xorl	%edi, %edx
	xorl	%edx, %esi
	xorl	%ecx, %r11d
	xorl	%edx, %r11d
	movl	-52(%rsp), %edx                 # 4-byte Reload
	andl	%eax, %edx
	xorl	%edx, %r8d
	andl	-48(%rsp), %eax                 # 4-byte Folded Reload
	xorl	%edi, %eax
	xorl	%r10d, %r13d
	movl	-84(%rsp), %edx                 # 4-byte Reload
	xorl	%r10d, %edx
	xorl	%r9d, %r8d
	xorl	%r13d, %r8d
	xorl	%r14d, %r13d
	xorl	%esi, %ebp
	xorl	-80(%rsp), %esi                 # 4-byte Folded Reload
	xorl	%r8d, %r12d
	xorl	%r11d, %r8d
	movd	%r8d, %xmm1
	pinsrw	$1, %esi, %xmm1
	movq	-40(%rsp), %r8                  # 8-byte Reload
	movdqu	%xmm0, -30(%r8)
	movd	-44(%r8), %xmm3                 # xmm3 = mem[0],zero,zero,zero
	movl	%edx, %esi
	xorl	%ebp, %esi
	xorl	%r13d, %eax
	xorl	%r13d, %ebp
	movdqa	l_CPI5_10(%rip), %xmm0          # xmm0 = [65535,u,u,u,u,u,u,u]
	pinsrw	$1, %r12d, %xmm0
	xorl	%esi, %ecx
	xorl	%r12d, %eax
	pxor	%xmm1, %xmm0
	notl	%eax
	psrlw	$3, %xmm0
	movdqa	l_CPI5_11(%rip), %xmm2          # xmm2 = [4369,4369,u,u,u,u,u,u]
	pand	%xmm2, %xmm0
	pxor	%xmm3, %xmm0
	movdqa	%xmm0, %xmm4
	paddw	%xmm4, %xmm4
	movdqa	l_CPI5_12(%rip), %xmm1          # xmm1 = [61166,61166,u,u,u,u,u,u]
	shrl	$3, %ecx
	pand	%xmm1, %xmm4
	andl	$4369, %ecx                     # imm = 0x1111
	xorw	-40(%r8), %cx
	pxor	%xmm0, %xmm4
	movdqa	l_CPI5_13(%rip), %xmm3          # xmm3 = [52428,52428,u,u,u,u,u,u]
	leal	(%rcx,%rcx), %edx
	shrl	$3, %eax
	andl	$-4370, %edx                    # imm = 0xEEEE
	andl	$4369, %eax                     # imm = 0x1111
	xorw	-36(%r8), %ax
	movdqa	%xmm4, %xmm0
	xorl	%ecx, %edx
	leal	(%rax,%rax), %ecx
	andl	$-4370, %ecx                    # imm = 0xEEEE
	xorl	%eax, %ecx
	xorl	%r9d, %r11d
	xorl	%esi, %r13d
	movd	%r13d, %xmm5
	psllw	$2, %xmm0
	pinsrw	$1, %r11d, %xmm5
	pcmpeqd	%xmm6, %xmm6
	leal	(,%rdx,4), %r14d
	pxor	%xmm5, %xmm6
	psrlw	$3, %xmm6
	movzwl	-34(%r8), %eax
	leal	(,%rcx,4), %r10d
	movd	%eax, %xmm7
	pinsrw	$1, -46(%r8), %xmm7
	pand	%xmm3, %xmm0
	pand	%xmm2, %xmm6
	pxor	%xmm6, %xmm7
	movdqa	%xmm7, %xmm5
	andl	$52428, %r14d                   # imm = 0xCCCC
	paddw	%xmm5, %xmm5
	pand	%xmm1, %xmm5
	pxor	%xmm7, %xmm5
	andl	$52428, %r10d                   # imm = 0xCCCC
	movd	%ebp, %xmm6
	pinsrw	$1, %esi, %xmm6
	pxor	%xmm4, %xmm0
	psrlw	$3, %xmm6
	pand	%xmm2, %xmm6
	movzwl	-32(%r8), %eax
	xorl	%edx, %r14d
	movd	%eax, %xmm2
	pinsrw	$1, -38(%r8), %xmm2
	xorl	%ecx, %r10d
	pxor	%xmm6, %xmm2
	movdqa	%xmm2, %xmm4
	paddw	%xmm4, %xmm4
	movd	%xmm0, %r11d
	pand	%xmm1, %xmm4
	movdqa	%xmm5, %xmm1
	pextrw	$1, %xmm0, %esi
	psllw	$2, %xmm1
	pand	%xmm3, %xmm1
	pxor	%xmm2, %xmm4
	pxor	%xmm5, %xmm1
	movdqa	%xmm4, %xmm2
	psllw	$2, %xmm2
	pand	%xmm3, %xmm2
	movd	%xmm1, %r9d
	pxor	%xmm4, %xmm2
	movd	%xmm2, %r15d
	pextrw	$1, %xmm1, %ebp
	pextrw	$1, %xmm2, %r13d
	movq	%r8, %rax
	movw	%bp, -14(%r8)
	movd	%xmm0, -12(%r8)
	movw	%r14w, -8(%r8)
	movw	%r13w, -6(%r8)
	movw	%r10w, -4(%r8)
	movw	%r9w, -2(%r8)
	movw	%r15w, (%r8)
	movq	-32(%rsp), %rcx                 # 8-byte Reload
	incq	%rcx
	addq	$32, %rax
	movq	%rax, -40(%rsp)                 # 8-byte Spill
	movq	%rcx, -32(%rsp)                 # 8-byte Spill
	cmpq	$6, %rcx
	jne	LBB5_7
# %bb.8:                                # %after.1.i
	xorl	%r10d, %r9d
	movl	%r15d, %r8d
	xorl	%r13d, %r8d
	pxor	%xmm0, %xmm2
	pextrw	$1, %xmm2, %eax
	movd	%xmm2, %ecx
	movl	%ecx, -84(%rsp)                 # 4-byte Spill
	xorl	%eax, %ecx
	movl	%eax, -48(%rsp)                 # 4-byte Spill
	movl	%r15d, %r10d
	xorl	%esi, %r10d
	xorl	%ecx, %r14d
	movl	%ecx, -40(%rsp)                 # 4-byte Spill
	xorl	%r14d, %esi
	movd	%r14d, %xmm0
	pinsrw	$1, %esi, %xmm0
	pxor	%xmm1, %xmm0
	movl	%r13d, %edi
	movl	%esi, %r14d
	andl	%ecx, %esi
	movl	%r14d, %ecx
	xorl	%r9d, %ecx
	movl	%ecx, %ebx
	movl	%ecx, -76(%rsp)                 # 4-byte Spill
	movl	%ecx, %edx
	xorl	%esi, %edx
	movd	%xmm0, %r12d
	xorl	%r12d, %esi
	movl	%r8d, %ecx
	movl	%r8d, -56(%rsp)                 # 4-byte Spill
	xorl	%r8d, %r12d
	movl	%r12d, %r8d
	andl	%ecx, %r8d
	movl	%r12d, %ecx
	xorl	%ebx, %ecx
	movl	%ecx, -44(%rsp)                 # 4-byte Spill
	andl	%eax, %ecx
	movl	%ebx, %eax
	movl	%r10d, -80(%rsp)                # 4-byte Spill
	andl	%r10d, %eax
	xorl	%r8d, %ecx
	xorl	%r8d, %eax
	movl	%r9d, %r13d
	xorl	%ebp, %r13d
	movl	%edi, %r8d
	xorl	%r13d, %r8d
	movl	%r8d, -32(%rsp)                 # 4-byte Spill
	andl	%ebp, %r8d
	xorl	%r10d, %r8d
	xorl	%r8d, %edx
	xorl	%r13d, %r11d
	movl	%r11d, %ebx
	xorl	%r10d, %ebx
	movl	%ebx, -52(%rsp)                 # 4-byte Spill
	pextrw	$1, %xmm0, %r8d
	movl	%r8d, -60(%rsp)                 # 4-byte Spill
	andl	%ebx, %r8d
	xorl	%r8d, %esi
	xorl	%r12d, %r9d
	movl	%r12d, %edi
	movl	%r11d, %r8d
	andl	%r13d, %r8d
	movl	%ebp, %ebx
	movl	%r9d, %ebp
	movl	-84(%rsp), %r10d                # 4-byte Reload
	andl	%r10d, %ebp
	xorl	%ecx, %esi
	xorl	%r9d, %r8d
	xorl	%ebp, %r8d
	xorl	%r10d, %r8d
	xorl	%ecx, %r8d
	movl	%r13d, %r12d
	xorl	%r15d, %r12d
	xorl	%r15d, %ebp
	movl	%edi, %ecx
	movl	%edi, %r10d
	xorl	%ebx, %ecx
	movl	%ecx, -64(%rsp)                 # 4-byte Spill
	andl	%r12d, %ecx
	xorl	%r9d, %ecx
	xorl	%ecx, %ebp
	xorl	%eax, %edx
	xorl	%eax, %ebp
	movl	%r11d, %r15d
	movl	%r8d, %r11d
	andl	%esi, %r11d
	movl	%r11d, %ecx
	xorl	%edx, %ecx
	movl	%r8d, %eax
	xorl	%ebp, %eax
	andl	%ecx, %eax
	xorl	%edx, %esi
	movl	%eax, %edi
	xorl	%r11d, %eax
	xorl	%ebp, %r11d
	movl	%r11d, %ecx
	andl	%esi, %ecx
	xorl	%edx, %ecx
	xorl	%ebp, %edi
	andl	%ebp, %eax
	xorl	%eax, %r11d
	andl	%ecx, %r11d
	xorl	%esi, %r11d
	xorl	%r8d, %eax
	andl	%edi, -32(%rsp)                 # 4-byte Folded Spill
	movl	%eax, %esi
	xorl	%edi, %esi
	movl	%ecx, %ebp
	xorl	%edi, %ebp
	andl	%ebx, %edi
	movl	%r11d, %ebx
	xorl	%esi, %ebx
	andl	%ebp, %r10d
	movl	%r10d, -72(%rsp)                # 4-byte Spill
	movl	%ebx, %r8d
	xorl	%ebp, %r8d
	andl	-56(%rsp), %ebp                 # 4-byte Folded Reload
	movl	%r11d, %edx
	xorl	%ecx, %edx
	andl	%edx, %r9d
	andl	-84(%rsp), %edx                 # 4-byte Folded Reload
	andl	%r11d, %r13d
	andl	%r15d, %r11d
	movl	-60(%rsp), %r15d                # 4-byte Reload
	andl	%esi, %r15d
	andl	-52(%rsp), %esi                 # 4-byte Folded Reload
	movl	-48(%rsp), %r10d                # 4-byte Reload
	andl	%r8d, %r10d
	andl	-44(%rsp), %r8d                 # 4-byte Folded Reload
	andl	%ecx, %r12d
	andl	-64(%rsp), %ecx                 # 4-byte Folded Reload
	andl	%eax, %r14d
	andl	-40(%rsp), %eax                 # 4-byte Folded Reload
	xorl	%r14d, %r15d
	xorl	%edi, %r14d
	xorl	%r9d, %r13d
	xorl	%r14d, %ecx
	xorl	%r9d, %ecx
	xorl	%ebp, %r10d
	xorl	%r10d, %esi
	xorl	%ecx, %r11d
	xorl	%r10d, %r11d
	xorl	%r13d, %r8d
	xorl	%r13d, %r15d
	movl	-76(%rsp), %r10d                # 4-byte Reload
	andl	%ebx, %r10d
	xorl	%r10d, %r14d
	xorl	%edx, %r14d
	xorl	%r8d, %r14d
	xorl	-72(%rsp), %r8d                 # 4-byte Folded Reload
	xorl	%r14d, %r12d
	xorl	%r11d, %r14d
	xorl	%edx, %r11d
	xorl	%esi, %eax
	xorl	-32(%rsp), %esi                 # 4-byte Folded Reload
	andl	-80(%rsp), %ebx                 # 4-byte Folded Reload
	xorl	%ebp, %ebx
	movl	%r15d, %edi
	xorl	%eax, %edi
	movl	%edi, %edx
	xorl	%ecx, %edx
	xorl	%r8d, %ebx
	xorl	%r12d, %ebx
	xorl	%r12d, %esi
	movl	%edi, %ecx
	xorl	%r8d, %ecx
	xorl	%eax, %r8d
	rolw	$9, %si
	movd	%esi, %xmm1
	rolw	$9, %dx
	movd	%edx, %xmm2
	notl	%r14d
	rolw	$9, %r14w
	movd	%r14d, %xmm3
	notl	%r11d
	rolw	$9, %r11w
	movd	%r11d, %xmm0
	notl	%ebx
	rolw	$9, %bx
	movd	%ebx, %xmm4
	xorl	$34824, %ecx                    # imm = 0x8808
	rolw	$9, %cx
	rolw	$9, %di
	movd	%edi, %xmm5
	movd	%ecx, %xmm6
	rolw	$9, %r8w
	movd	%r8d, %xmm7
	punpcklwd	%xmm2, %xmm1            # xmm1 = xmm1[0],xmm2[0],xmm1[1],xmm2[1],xmm1[2],xmm2[2],xmm1[3],xmm2[3]
	punpcklwd	%xmm3, %xmm0            # xmm0 = xmm0[0],xmm3[0],xmm0[1],xmm3[1],xmm0[2],xmm3[2],xmm0[3],xmm3[3]
	punpckldq	%xmm1, %xmm0            # xmm0 = xmm0[0],xmm1[0],xmm0[1],xmm1[1]
	punpcklwd	%xmm4, %xmm5            # xmm5 = xmm5[0],xmm4[0],xmm5[1],xmm4[1],xmm5[2],xmm4[2],xmm5[3],xmm4[3]
	movq	-16(%rsp), %rax                 # 8-byte Reload
	movdqu	192(%rax), %xmm1
	punpcklwd	%xmm7, %xmm6            # xmm6 = xmm6[0],xmm7[0],xmm6[1],xmm7[1],xmm6[2],xmm7[2],xmm6[3],xmm7[3]
	punpckldq	%xmm6, %xmm5            # xmm5 = xmm5[0],xmm6[0],xmm5[1],xmm6[1]
	punpcklqdq	%xmm5, %xmm0            # xmm0 = xmm0[0],xmm5[0]
	pand	l_CPI5_7(%rip), %xmm0
	pxor	%xmm1, %xmm0
	movdqa	%xmm0, %xmm1
	paddw	%xmm1, %xmm1
	pand	l_CPI5_8(%rip), %xmm1
	pxor	%xmm0, %xmm1
	movdqa	%xmm1, %xmm0
	psllw	$2, %xmm0
	pand	l_CPI5_9(%rip), %xmm0
	pxor	%xmm1, %xmm0
	movdqu	%xmm0, 224(%rax)
LBB5_9:                                # %join.3
	popq	%rbx
	popq	%r12
	popq	%r13
	popq	%r14
	popq	%r15
	popq	%rbp
	retq
                                        # -- End function
	.section	__TEXT,__const
	.p2align	4, 0x0                          # -- Begin function aes_soft::soft::blocks::slices::process_batches_outlined::<#6c9505ca656cc68d>
l_CPI6_0:
	.zero	16,85
l_CPI6_1:
	.zero	16,51
l_CPI6_2:
	.zero	16,15
l_CPI6_3:
	.short	0                               # 0x0
	.short	0                               # 0x0
	.short	65535                           # 0xffff
	.short	0                               # 0x0
	.short	0                               # 0x0
	.short	0                               # 0x0
	.short	65535                           # 0xffff
	.short	0                               # 0x0
	.section	__TEXT,__text,regular,pure_instructions
	.p2align	4
"aes_soft::soft::blocks::slices::process_batches_outlined::<#6c9505ca656cc68d>": # @"aes_soft::soft::blocks::slices::process_batches_outlined::<#6c9505ca656cc68d>"
# %bb.0:                                # %start
	pushq	%rbp
	pushq	%r15
	pushq	%r14
	pushq	%r13
	pushq	%r12
	pushq	%rbx
	subq	$584, %rsp                      # imm = 0x248
	movq	%rcx, 560(%rsp)                 # 8-byte Spill
	movq	%rdi, %r12
	shrq	$3, %rsi
	leaq	-1(%rsi), %rax
	addq	$-3, %rsi
	movl	%esi, %ecx
	andl	$12, %ecx
	movl	%ecx, %edi
	shll	$7, %edi
	movq	%rdi, 528(%rsp)                 # 8-byte Spill
	orq	$2, %rcx
	movq	%rcx, 536(%rsp)                 # 8-byte Spill
	movq	%rax, 544(%rsp)                 # 8-byte Spill
	shlq	$7, %rax
	shlq	$7, %rsi
	movq	%rsi, 512(%rsp)                 # 8-byte Spill
	andq	$-512, %rsi                     # imm = 0xFE00
	xorl	%ecx, %ecx
	movq	%rdx, 552(%rsp)                 # 8-byte Spill
	movq	%rax, 504(%rsp)                 # 8-byte Spill
	movq	%rsi, 520(%rsp)                 # 8-byte Spill
	jmp	LBB6_1
	.p2align	4
LBB6_5:                                # %else.12.i
                                        #   in Loop: Header=BB6_1 Depth=1
	movdqa	%xmm0, %xmm10
	psrld	$16, %xmm10
	pxor	%xmm0, %xmm10
	movdqa	l_CPI6_3(%rip), %xmm1           # xmm1 = [0,0,65535,0,0,0,65535,0]
	pand	%xmm1, %xmm10
	pxor	%xmm10, %xmm0
	pslldq	$2, %xmm10                      # xmm10 = zero,zero,xmm10[0,1,2,3,4,5,6,7,8,9,10,11,12,13]
	pxor	%xmm0, %xmm10
	movdqa	%xmm3, %xmm2
	psrld	$16, %xmm2
	pxor	%xmm3, %xmm2
	pand	%xmm1, %xmm2
	pxor	%xmm2, %xmm3
	pslldq	$2, %xmm2                       # xmm2 = zero,zero,xmm2[0,1,2,3,4,5,6,7,8,9,10,11,12,13]
	pxor	%xmm3, %xmm2
	movdqa	%xmm12, %xmm9
	psrld	$16, %xmm9
	pxor	%xmm12, %xmm9
	pand	%xmm1, %xmm9
	pxor	%xmm9, %xmm12
	pslldq	$2, %xmm9                       # xmm9 = zero,zero,xmm9[0,1,2,3,4,5,6,7,8,9,10,11,12,13]
	pxor	%xmm12, %xmm9
	movdqa	%xmm4, %xmm12
	psrld	$16, %xmm12
	pxor	%xmm4, %xmm12
	pand	%xmm1, %xmm12
	pxor	%xmm12, %xmm4
	pslldq	$2, %xmm12                      # xmm12 = zero,zero,xmm12[0,1,2,3,4,5,6,7,8,9,10,11,12,13]
	pxor	%xmm4, %xmm12
	movdqa	%xmm11, %xmm0
	psrld	$16, %xmm0
	pxor	%xmm11, %xmm0
	pand	%xmm1, %xmm0
	pxor	%xmm0, %xmm11
	pslldq	$2, %xmm0                       # xmm0 = zero,zero,xmm0[0,1,2,3,4,5,6,7,8,9,10,11,12,13]
	pxor	%xmm11, %xmm0
	movdqa	%xmm5, %xmm4
	psrld	$16, %xmm4
	pxor	%xmm5, %xmm4
	pand	%xmm1, %xmm4
	pxor	%xmm4, %xmm5
	pslldq	$2, %xmm4                       # xmm4 = zero,zero,xmm4[0,1,2,3,4,5,6,7,8,9,10,11,12,13]
	pxor	%xmm5, %xmm4
	movdqa	%xmm6, %xmm8
	psrld	$16, %xmm8
	pxor	%xmm6, %xmm8
	pand	%xmm1, %xmm8
	pxor	%xmm8, %xmm6
	pslldq	$2, %xmm8                       # xmm8 = zero,zero,xmm8[0,1,2,3,4,5,6,7,8,9,10,11,12,13]
	pxor	%xmm6, %xmm8
	movdqa	%xmm14, %xmm5
	psrld	$16, %xmm5
	pxor	%xmm14, %xmm5
	pand	%xmm1, %xmm5
	pxor	%xmm5, %xmm14
	pslldq	$2, %xmm5                       # xmm5 = zero,zero,xmm5[0,1,2,3,4,5,6,7,8,9,10,11,12,13]
	pxor	%xmm14, %xmm5
	movq	504(%rsp), %rax                 # 8-byte Reload
LBB6_6:                                # %"aes_soft::soft::ciphers::planes::EncryptPlaneCipher::process_planes::<#dadbdb3fdaf0a1b1>.exit"
                                        #   in Loop: Header=BB6_1 Depth=1
	movdqa	%xmm10, (%rsp)                  # 16-byte Spill
	pxor	%xmm8, %xmm4
	movdqa	%xmm4, 64(%rsp)                 # 16-byte Spill
	movdqa	%xmm0, %xmm6
	movdqa	%xmm10, %xmm7
	pxor	%xmm4, %xmm7
	movdqa	%xmm7, %xmm1
	pxor	%xmm0, %xmm1
	movdqa	%xmm1, 112(%rsp)                # 16-byte Spill
	movdqa	%xmm7, %xmm10
	pxor	%xmm2, %xmm10
	pxor	%xmm5, %xmm2
	pxor	%xmm9, %xmm0
	movdqa	%xmm2, %xmm3
	pxor	%xmm0, %xmm3
	pxor	%xmm3, %xmm12
	movdqa	%xmm3, %xmm11
	movdqa	%xmm3, 160(%rsp)                # 16-byte Spill
	movdqa	%xmm12, %xmm3
	pxor	%xmm8, %xmm12
	movdqa	%xmm6, %xmm8
	pxor	%xmm5, %xmm8
	movdqa	%xmm8, 144(%rsp)                # 16-byte Spill
	pxor	%xmm9, %xmm3
	pxor	%xmm5, %xmm9
	movdqa	%xmm12, %xmm14
	pxor	%xmm8, %xmm14
	movdqa	%xmm0, %xmm13
	movdqa	%xmm0, 48(%rsp)                 # 16-byte Spill
	movdqa	%xmm14, %xmm0
	pand	%xmm8, %xmm0
	movdqa	%xmm3, %xmm6
	pxor	%xmm4, %xmm6
	movdqa	%xmm14, %xmm8
	pxor	%xmm6, %xmm8
	movdqa	%xmm8, 96(%rsp)                 # 16-byte Spill
	movdqa	%xmm6, %xmm15
	movdqa	%xmm8, %xmm6
	pand	%xmm13, %xmm6
	movdqa	%xmm2, %xmm13
	movdqa	%xmm15, %xmm2
	movdqa	%xmm15, 16(%rsp)                # 16-byte Spill
	pand	%xmm9, %xmm2
	pxor	%xmm0, %xmm6
	pxor	%xmm0, %xmm2
	movdqa	%xmm9, %xmm4
	movdqa	%xmm9, 32(%rsp)                 # 16-byte Spill
	movdqa	%xmm1, %xmm9
	movdqa	(%rsp), %xmm8                   # 16-byte Reload
	pand	%xmm8, %xmm9
	movdqa	%xmm3, %xmm0
	pand	%xmm11, %xmm0
	pxor	%xmm4, %xmm9
	movdqa	%xmm15, %xmm1
	pxor	%xmm0, %xmm1
	pxor	%xmm9, %xmm1
	pxor	%xmm12, %xmm0
	movdqa	%xmm3, %xmm9
	pxor	%xmm8, %xmm9
	movdqa	%xmm10, 80(%rsp)                # 16-byte Spill
	movdqa	%xmm10, %xmm8
	pxor	%xmm4, %xmm8
	movdqa	%xmm8, 128(%rsp)                # 16-byte Spill
	movdqa	%xmm9, %xmm11
	pand	%xmm8, %xmm11
	pxor	%xmm11, %xmm0
	movdqa	64(%rsp), %xmm8                 # 16-byte Reload
	pxor	%xmm14, %xmm8
	movdqa	%xmm10, %xmm12
	pand	%xmm7, %xmm12
	movdqa	%xmm8, %xmm15
	pand	%xmm13, %xmm15
	pxor	%xmm6, %xmm0
	pxor	%xmm8, %xmm12
	pxor	%xmm15, %xmm12
	pxor	%xmm13, %xmm12
	movdqa	%xmm13, %xmm4
	pxor	%xmm6, %xmm12
	movdqa	%xmm7, %xmm13
	pxor	%xmm5, %xmm13
	pxor	%xmm5, %xmm15
	movdqa	%xmm14, %xmm5
	movdqa	(%rsp), %xmm10                  # 16-byte Reload
	pxor	%xmm10, %xmm5
	movdqa	%xmm5, 64(%rsp)                 # 16-byte Spill
	pand	%xmm13, %xmm5
	pxor	%xmm8, %xmm5
	pxor	%xmm5, %xmm15
	pxor	%xmm2, %xmm1
	pxor	%xmm2, %xmm15
	movdqa	%xmm12, %xmm5
	pand	%xmm0, %xmm5
	movdqa	%xmm5, %xmm6
	pxor	%xmm1, %xmm6
	movdqa	%xmm15, %xmm2
	pxor	%xmm12, %xmm2
	pand	%xmm6, %xmm2
	pxor	%xmm1, %xmm0
	movdqa	%xmm2, %xmm11
	pxor	%xmm5, %xmm2
	pxor	%xmm15, %xmm5
	movdqa	%xmm5, %xmm6
	pand	%xmm0, %xmm6
	pxor	%xmm1, %xmm6
	pxor	%xmm15, %xmm11
	pand	%xmm15, %xmm2
	pxor	%xmm2, %xmm5
	pand	%xmm6, %xmm5
	pxor	%xmm0, %xmm5
	pxor	%xmm12, %xmm2
	movdqa	112(%rsp), %xmm15               # 16-byte Reload
	pand	%xmm11, %xmm15
	movdqa	%xmm2, %xmm12
	pxor	%xmm11, %xmm12
	movdqa	%xmm6, %xmm1
	pxor	%xmm11, %xmm1
	pand	%xmm10, %xmm11
	movdqa	%xmm5, %xmm0
	pxor	%xmm12, %xmm0
	pand	%xmm1, %xmm14
	movdqa	%xmm14, (%rsp)                  # 16-byte Spill
	movdqa	%xmm0, %xmm10
	pxor	%xmm1, %xmm10
	pand	144(%rsp), %xmm1                # 16-byte Folded Reload
	movdqa	%xmm5, %xmm14
	pxor	%xmm6, %xmm14
	pand	%xmm14, %xmm8
	pand	%xmm4, %xmm14
	pand	%xmm5, %xmm7
	pand	80(%rsp), %xmm5                 # 16-byte Folded Reload
	pand	%xmm12, %xmm9
	pand	128(%rsp), %xmm12               # 16-byte Folded Reload
	movdqa	48(%rsp), %xmm4                 # 16-byte Reload
	pand	%xmm10, %xmm4
	pand	96(%rsp), %xmm10                # 16-byte Folded Reload
	pand	%xmm6, %xmm13
	pand	64(%rsp), %xmm6                 # 16-byte Folded Reload
	pand	%xmm2, %xmm3
	pand	160(%rsp), %xmm2                # 16-byte Folded Reload
	pxor	%xmm3, %xmm9
	pxor	%xmm11, %xmm3
	pxor	%xmm8, %xmm7
	pxor	%xmm3, %xmm6
	pxor	%xmm8, %xmm6
	pxor	%xmm1, %xmm4
	pxor	%xmm4, %xmm12
	pxor	%xmm6, %xmm5
	pxor	%xmm4, %xmm5
	pxor	%xmm7, %xmm10
	pxor	%xmm7, %xmm9
	movdqa	16(%rsp), %xmm4                 # 16-byte Reload
	pand	%xmm0, %xmm4
	pxor	%xmm4, %xmm3
	pxor	%xmm14, %xmm3
	pxor	%xmm10, %xmm3
	pxor	(%rsp), %xmm10                  # 16-byte Folded Reload
	pand	32(%rsp), %xmm0                 # 16-byte Folded Reload
	pxor	%xmm3, %xmm13
	pxor	(%r12,%rax), %xmm14
	pxor	%xmm5, %xmm14
	pxor	16(%r12,%rax), %xmm3
	pxor	%xmm5, %xmm3
	pxor	%xmm12, %xmm2
	movdqa	%xmm15, %xmm8
	pxor	32(%r12,%rax), %xmm8
	pxor	%xmm12, %xmm8
	pxor	%xmm2, %xmm9
	pxor	%xmm13, %xmm8
	pxor	48(%r12,%rax), %xmm6
	pxor	%xmm9, %xmm6
	pxor	%xmm10, %xmm1
	pxor	%xmm13, %xmm1
	movdqa	64(%r12,%rax), %xmm4
	pxor	%xmm9, %xmm4
	pxor	80(%r12,%rax), %xmm0
	pxor	%xmm0, %xmm1
	movdqa	96(%r12,%rax), %xmm7
	pxor	%xmm10, %xmm7
	pxor	%xmm9, %xmm7
	pxor	112(%r12,%rax), %xmm10
	pxor	%xmm2, %xmm10
	movdqa	%xmm14, %xmm2
	psrlw	$1, %xmm2
	pxor	%xmm3, %xmm2
	movdqa	l_CPI6_0(%rip), %xmm9           # xmm9 = [85,85,85,85,85,85,85,85,85,85,85,85,85,85,85,85]
	pand	%xmm9, %xmm2
	pxor	%xmm2, %xmm3
	paddb	%xmm2, %xmm2
	pxor	%xmm14, %xmm2
	movdqa	%xmm8, %xmm5
	psrlw	$1, %xmm5
	pxor	%xmm6, %xmm5
	pand	%xmm9, %xmm5
	pxor	%xmm5, %xmm6
	paddb	%xmm5, %xmm5
	pxor	%xmm8, %xmm5
	movdqa	%xmm4, %xmm8
	psrlw	$1, %xmm8
	pxor	%xmm1, %xmm8
	pand	%xmm9, %xmm8
	pxor	%xmm8, %xmm1
	paddb	%xmm8, %xmm8
	pxor	%xmm4, %xmm8
	movdqa	%xmm7, %xmm0
	psrlw	$1, %xmm0
	pxor	%xmm10, %xmm0
	pand	%xmm9, %xmm0
	pxor	%xmm0, %xmm10
	paddb	%xmm0, %xmm0
	pxor	%xmm7, %xmm0
	movdqa	%xmm2, %xmm4
	psrlw	$2, %xmm4
	pxor	%xmm5, %xmm4
	movdqa	l_CPI6_1(%rip), %xmm9           # xmm9 = [51,51,51,51,51,51,51,51,51,51,51,51,51,51,51,51]
	pand	%xmm9, %xmm4
	pxor	%xmm4, %xmm5
	psllw	$2, %xmm4
	pxor	%xmm2, %xmm4
	movdqa	%xmm8, %xmm2
	psrlw	$2, %xmm2
	pxor	%xmm0, %xmm2
	pand	%xmm9, %xmm2
	pxor	%xmm2, %xmm0
	psllw	$2, %xmm2
	pxor	%xmm8, %xmm2
	movdqa	%xmm3, %xmm7
	psrlw	$2, %xmm7
	pxor	%xmm6, %xmm7
	pand	%xmm9, %xmm7
	pxor	%xmm7, %xmm6
	psllw	$2, %xmm7
	pxor	%xmm3, %xmm7
	movdqa	%xmm1, %xmm3
	psrlw	$2, %xmm3
	pxor	%xmm10, %xmm3
	pand	%xmm9, %xmm3
	pxor	%xmm3, %xmm10
	psllw	$2, %xmm3
	pxor	%xmm1, %xmm3
	movdqa	%xmm4, %xmm9
	psrlw	$4, %xmm9
	pxor	%xmm2, %xmm9
	movdqa	l_CPI6_2(%rip), %xmm1           # xmm1 = [15,15,15,15,15,15,15,15,15,15,15,15,15,15,15,15]
	pand	%xmm1, %xmm9
	pxor	%xmm9, %xmm2
	psllw	$4, %xmm9
	pxor	%xmm4, %xmm9
	movdqa	%xmm7, %xmm8
	psrlw	$4, %xmm8
	pxor	%xmm3, %xmm8
	pand	%xmm1, %xmm8
	pxor	%xmm8, %xmm3
	psllw	$4, %xmm8
	pxor	%xmm7, %xmm8
	movdqa	%xmm5, %xmm7
	psrlw	$4, %xmm7
	pxor	%xmm0, %xmm7
	pand	%xmm1, %xmm7
	pxor	%xmm7, %xmm0
	psllw	$4, %xmm7
	pxor	%xmm5, %xmm7
	movdqa	%xmm6, %xmm4
	psrlw	$4, %xmm4
	pxor	%xmm10, %xmm4
	pand	%xmm1, %xmm4
	pxor	%xmm4, %xmm10
	psllw	$4, %xmm4
	pxor	%xmm6, %xmm4
	pxor	%xmm1, %xmm1
	movdqa	%xmm9, %xmm5
	punpckhbw	%xmm1, %xmm5            # xmm5 = xmm5[8],xmm1[8],xmm5[9],xmm1[9],xmm5[10],xmm1[10],xmm5[11],xmm1[11],xmm5[12],xmm1[12],xmm5[13],xmm1[13],xmm5[14],xmm1[14],xmm5[15],xmm1[15]
	pshufd	$231, %xmm5, %xmm6              # xmm6 = xmm5[3,1,2,3]
	pshuflw	$114, %xmm6, %xmm6              # xmm6 = xmm6[2,0,3,1,4,5,6,7]
	punpcklbw	%xmm1, %xmm9            # xmm9 = xmm9[0],xmm1[0],xmm9[1],xmm1[1],xmm9[2],xmm1[2],xmm9[3],xmm1[3],xmm9[4],xmm1[4],xmm9[5],xmm1[5],xmm9[6],xmm1[6],xmm9[7],xmm1[7]
	pshufd	$231, %xmm9, %xmm11             # xmm11 = xmm9[3,1,2,3]
	pshuflw	$114, %xmm11, %xmm11            # xmm11 = xmm11[2,0,3,1,4,5,6,7]
	punpckldq	%xmm6, %xmm11           # xmm11 = xmm11[0],xmm6[0],xmm11[1],xmm6[1]
	pshufd	$232, %xmm5, %xmm5              # xmm5 = xmm5[0,2,2,3]
	pshuflw	$216, %xmm5, %xmm5              # xmm5 = xmm5[0,2,1,3,4,5,6,7]
	pshufd	$232, %xmm9, %xmm6              # xmm6 = xmm9[0,2,2,3]
	pshuflw	$216, %xmm6, %xmm6              # xmm6 = xmm6[0,2,1,3,4,5,6,7]
	punpckldq	%xmm5, %xmm6            # xmm6 = xmm6[0],xmm5[0],xmm6[1],xmm5[1]
	packuswb	%xmm11, %xmm6
	movq	552(%rsp), %rdx                 # 8-byte Reload
	movq	568(%rsp), %rcx                 # 8-byte Reload
	movdqu	%xmm6, (%rdx,%rcx)
	movdqa	%xmm8, %xmm5
	punpckhbw	%xmm1, %xmm5            # xmm5 = xmm5[8],xmm1[8],xmm5[9],xmm1[9],xmm5[10],xmm1[10],xmm5[11],xmm1[11],xmm5[12],xmm1[12],xmm5[13],xmm1[13],xmm5[14],xmm1[14],xmm5[15],xmm1[15]
	pshufd	$231, %xmm5, %xmm6              # xmm6 = xmm5[3,1,2,3]
	pshuflw	$114, %xmm6, %xmm6              # xmm6 = xmm6[2,0,3,1,4,5,6,7]
	punpcklbw	%xmm1, %xmm8            # xmm8 = xmm8[0],xmm1[0],xmm8[1],xmm1[1],xmm8[2],xmm1[2],xmm8[3],xmm1[3],xmm8[4],xmm1[4],xmm8[5],xmm1[5],xmm8[6],xmm1[6],xmm8[7],xmm1[7]
	pshufd	$231, %xmm8, %xmm9              # xmm9 = xmm8[3,1,2,3]
	pshuflw	$114, %xmm9, %xmm9              # xmm9 = xmm9[2,0,3,1,4,5,6,7]
	punpckldq	%xmm6, %xmm9            # xmm9 = xmm9[0],xmm6[0],xmm9[1],xmm6[1]
	pshufd	$232, %xmm5, %xmm5              # xmm5 = xmm5[0,2,2,3]
	pshuflw	$216, %xmm5, %xmm5              # xmm5 = xmm5[0,2,1,3,4,5,6,7]
	pshufd	$232, %xmm8, %xmm6              # xmm6 = xmm8[0,2,2,3]
	pshuflw	$216, %xmm6, %xmm6              # xmm6 = xmm6[0,2,1,3,4,5,6,7]
	punpckldq	%xmm5, %xmm6            # xmm6 = xmm6[0],xmm5[0],xmm6[1],xmm5[1]
	packuswb	%xmm9, %xmm6
	movdqu	%xmm6, 16(%rdx,%rcx)
	movdqa	%xmm7, %xmm5
	punpckhbw	%xmm1, %xmm5            # xmm5 = xmm5[8],xmm1[8],xmm5[9],xmm1[9],xmm5[10],xmm1[10],xmm5[11],xmm1[11],xmm5[12],xmm1[12],xmm5[13],xmm1[13],xmm5[14],xmm1[14],xmm5[15],xmm1[15]
	pshufd	$231, %xmm5, %xmm6              # xmm6 = xmm5[3,1,2,3]
	pshuflw	$114, %xmm6, %xmm6              # xmm6 = xmm6[2,0,3,1,4,5,6,7]
	punpcklbw	%xmm1, %xmm7            # xmm7 = xmm7[0],xmm1[0],xmm7[1],xmm1[1],xmm7[2],xmm1[2],xmm7[3],xmm1[3],xmm7[4],xmm1[4],xmm7[5],xmm1[5],xmm7[6],xmm1[6],xmm7[7],xmm1[7]
	pshufd	$231, %xmm7, %xmm8              # xmm8 = xmm7[3,1,2,3]
	pshuflw	$114, %xmm8, %xmm8              # xmm8 = xmm8[2,0,3,1,4,5,6,7]
	punpckldq	%xmm6, %xmm8            # xmm8 = xmm8[0],xmm6[0],xmm8[1],xmm6[1]
	pshufd	$232, %xmm5, %xmm5              # xmm5 = xmm5[0,2,2,3]
	pshuflw	$216, %xmm5, %xmm5              # xmm5 = xmm5[0,2,1,3,4,5,6,7]
	pshufd	$232, %xmm7, %xmm6              # xmm6 = xmm7[0,2,2,3]
	pshuflw	$216, %xmm6, %xmm6              # xmm6 = xmm6[0,2,1,3,4,5,6,7]
	punpckldq	%xmm5, %xmm6            # xmm6 = xmm6[0],xmm5[0],xmm6[1],xmm5[1]
	packuswb	%xmm8, %xmm6
	movdqu	%xmm6, 32(%rdx,%rcx)
	movdqa	%xmm4, %xmm5
	punpckhbw	%xmm1, %xmm5            # xmm5 = xmm5[8],xmm1[8],xmm5[9],xmm1[9],xmm5[10],xmm1[10],xmm5[11],xmm1[11],xmm5[12],xmm1[12],xmm5[13],xmm1[13],xmm5[14],xmm1[14],xmm5[15],xmm1[15]
	pshufd	$231, %xmm5, %xmm6              # xmm6 = xmm5[3,1,2,3]
	pshuflw	$114, %xmm6, %xmm6              # xmm6 = xmm6[2,0,3,1,4,5,6,7]
	punpcklbw	%xmm1, %xmm4            # xmm4 = xmm4[0],xmm1[0],xmm4[1],xmm1[1],xmm4[2],xmm1[2],xmm4[3],xmm1[3],xmm4[4],xmm1[4],xmm4[5],xmm1[5],xmm4[6],xmm1[6],xmm4[7],xmm1[7]
	pshufd	$231, %xmm4, %xmm7              # xmm7 = xmm4[3,1,2,3]
	pshuflw	$114, %xmm7, %xmm7              # xmm7 = xmm7[2,0,3,1,4,5,6,7]
	punpckldq	%xmm6, %xmm7            # xmm7 = xmm7[0],xmm6[0],xmm7[1],xmm6[1]
	pshufd	$232, %xmm5, %xmm5              # xmm5 = xmm5[0,2,2,3]
	pshuflw	$216, %xmm5, %xmm5              # xmm5 = xmm5[0,2,1,3,4,5,6,7]
	pshufd	$232, %xmm4, %xmm4              # xmm4 = xmm4[0,2,2,3]
	pshuflw	$216, %xmm4, %xmm4              # xmm4 = xmm4[0,2,1,3,4,5,6,7]
	punpckldq	%xmm5, %xmm4            # xmm4 = xmm4[0],xmm5[0],xmm4[1],xmm5[1]
	packuswb	%xmm7, %xmm4
	movdqu	%xmm4, 48(%rdx,%rcx)
	movdqa	%xmm2, %xmm4
	punpckhbw	%xmm1, %xmm4            # xmm4 = xmm4[8],xmm1[8],xmm4[9],xmm1[9],xmm4[10],xmm1[10],xmm4[11],xmm1[11],xmm4[12],xmm1[12],xmm4[13],xmm1[13],xmm4[14],xmm1[14],xmm4[15],xmm1[15]
	pshufd	$231, %xmm4, %xmm5              # xmm5 = xmm4[3,1,2,3]
	pshuflw	$114, %xmm5, %xmm5              # xmm5 = xmm5[2,0,3,1,4,5,6,7]
	punpcklbw	%xmm1, %xmm2            # xmm2 = xmm2[0],xmm1[0],xmm2[1],xmm1[1],xmm2[2],xmm1[2],xmm2[3],xmm1[3],xmm2[4],xmm1[4],xmm2[5],xmm1[5],xmm2[6],xmm1[6],xmm2[7],xmm1[7]
	pshufd	$231, %xmm2, %xmm6              # xmm6 = xmm2[3,1,2,3]
	pshuflw	$114, %xmm6, %xmm6              # xmm6 = xmm6[2,0,3,1,4,5,6,7]
	punpckldq	%xmm5, %xmm6            # xmm6 = xmm6[0],xmm5[0],xmm6[1],xmm5[1]
	pshufd	$232, %xmm4, %xmm4              # xmm4 = xmm4[0,2,2,3]
	pshuflw	$216, %xmm4, %xmm4              # xmm4 = xmm4[0,2,1,3,4,5,6,7]
	pshufd	$232, %xmm2, %xmm2              # xmm2 = xmm2[0,2,2,3]
	pshuflw	$216, %xmm2, %xmm2              # xmm2 = xmm2[0,2,1,3,4,5,6,7]
	punpckldq	%xmm4, %xmm2            # xmm2 = xmm2[0],xmm4[0],xmm2[1],xmm4[1]
	packuswb	%xmm6, %xmm2
	movdqu	%xmm2, 64(%rdx,%rcx)
	movdqa	%xmm3, %xmm2
	punpckhbw	%xmm1, %xmm2            # xmm2 = xmm2[8],xmm1[8],xmm2[9],xmm1[9],xmm2[10],xmm1[10],xmm2[11],xmm1[11],xmm2[12],xmm1[12],xmm2[13],xmm1[13],xmm2[14],xmm1[14],xmm2[15],xmm1[15]
	pshufd	$231, %xmm2, %xmm4              # xmm4 = xmm2[3,1,2,3]
	pshuflw	$114, %xmm4, %xmm4              # xmm4 = xmm4[2,0,3,1,4,5,6,7]
	punpcklbw	%xmm1, %xmm3            # xmm3 = xmm3[0],xmm1[0],xmm3[1],xmm1[1],xmm3[2],xmm1[2],xmm3[3],xmm1[3],xmm3[4],xmm1[4],xmm3[5],xmm1[5],xmm3[6],xmm1[6],xmm3[7],xmm1[7]
	pshufd	$231, %xmm3, %xmm5              # xmm5 = xmm3[3,1,2,3]
	pshuflw	$114, %xmm5, %xmm5              # xmm5 = xmm5[2,0,3,1,4,5,6,7]
	punpckldq	%xmm4, %xmm5            # xmm5 = xmm5[0],xmm4[0],xmm5[1],xmm4[1]
	pshufd	$232, %xmm2, %xmm2              # xmm2 = xmm2[0,2,2,3]
	pshuflw	$216, %xmm2, %xmm2              # xmm2 = xmm2[0,2,1,3,4,5,6,7]
	pshufd	$232, %xmm3, %xmm3              # xmm3 = xmm3[0,2,2,3]
	pshuflw	$216, %xmm3, %xmm3              # xmm3 = xmm3[0,2,1,3,4,5,6,7]
	punpckldq	%xmm2, %xmm3            # xmm3 = xmm3[0],xmm2[0],xmm3[1],xmm2[1]
	packuswb	%xmm5, %xmm3
	movdqu	%xmm3, 80(%rdx,%rcx)
	movdqa	%xmm0, %xmm2
	punpckhbw	%xmm1, %xmm2            # xmm2 = xmm2[8],xmm1[8],xmm2[9],xmm1[9],xmm2[10],xmm1[10],xmm2[11],xmm1[11],xmm2[12],xmm1[12],xmm2[13],xmm1[13],xmm2[14],xmm1[14],xmm2[15],xmm1[15]
	pshufd	$231, %xmm2, %xmm3              # xmm3 = xmm2[3,1,2,3]
	pshuflw	$114, %xmm3, %xmm3              # xmm3 = xmm3[2,0,3,1,4,5,6,7]
	punpcklbw	%xmm1, %xmm0            # xmm0 = xmm0[0],xmm1[0],xmm0[1],xmm1[1],xmm0[2],xmm1[2],xmm0[3],xmm1[3],xmm0[4],xmm1[4],xmm0[5],xmm1[5],xmm0[6],xmm1[6],xmm0[7],xmm1[7]
	pshufd	$231, %xmm0, %xmm4              # xmm4 = xmm0[3,1,2,3]
	pshuflw	$114, %xmm4, %xmm4              # xmm4 = xmm4[2,0,3,1,4,5,6,7]
	punpckldq	%xmm3, %xmm4            # xmm4 = xmm4[0],xmm3[0],xmm4[1],xmm3[1]
	pshufd	$232, %xmm2, %xmm2              # xmm2 = xmm2[0,2,2,3]
	pshuflw	$216, %xmm2, %xmm2              # xmm2 = xmm2[0,2,1,3,4,5,6,7]
	pshufd	$232, %xmm0, %xmm0              # xmm0 = xmm0[0,2,2,3]
	pshuflw	$216, %xmm0, %xmm0              # xmm0 = xmm0[0,2,1,3,4,5,6,7]
	punpckldq	%xmm2, %xmm0            # xmm0 = xmm0[0],xmm2[0],xmm0[1],xmm2[1]
	packuswb	%xmm4, %xmm0
	movdqu	%xmm0, 96(%rdx,%rcx)
	movdqa	%xmm10, %xmm0
	punpckhbw	%xmm1, %xmm0            # xmm0 = xmm0[8],xmm1[8],xmm0[9],xmm1[9],xmm0[10],xmm1[10],xmm0[11],xmm1[11],xmm0[12],xmm1[12],xmm0[13],xmm1[13],xmm0[14],xmm1[14],xmm0[15],xmm1[15]
	pshufd	$231, %xmm0, %xmm2              # xmm2 = xmm0[3,1,2,3]
	pshuflw	$114, %xmm2, %xmm2              # xmm2 = xmm2[2,0,3,1,4,5,6,7]
	punpcklbw	%xmm1, %xmm10           # xmm10 = xmm10[0],xmm1[0],xmm10[1],xmm1[1],xmm10[2],xmm1[2],xmm10[3],xmm1[3],xmm10[4],xmm1[4],xmm10[5],xmm1[5],xmm10[6],xmm1[6],xmm10[7],xmm1[7]
	pshufd	$231, %xmm10, %xmm1             # xmm1 = xmm10[3,1,2,3]
	pshuflw	$114, %xmm1, %xmm1              # xmm1 = xmm1[2,0,3,1,4,5,6,7]
	punpckldq	%xmm2, %xmm1            # xmm1 = xmm1[0],xmm2[0],xmm1[1],xmm2[1]
	pshufd	$232, %xmm0, %xmm0              # xmm0 = xmm0[0,2,2,3]
	pshuflw	$216, %xmm0, %xmm0              # xmm0 = xmm0[0,2,1,3,4,5,6,7]
	pshufd	$232, %xmm10, %xmm2             # xmm2 = xmm10[0,2,2,3]
	pshuflw	$216, %xmm2, %xmm2              # xmm2 = xmm2[0,2,1,3,4,5,6,7]
	punpckldq	%xmm0, %xmm2            # xmm2 = xmm2[0],xmm0[0],xmm2[1],xmm0[1]
	packuswb	%xmm1, %xmm2
	movdqu	%xmm2, 112(%rdx,%rcx)
	movq	576(%rsp), %rcx                 # 8-byte Reload
	addq	$8, %rcx
	cmpq	560(%rsp), %rcx                 # 8-byte Folded Reload
	movq	520(%rsp), %rsi                 # 8-byte Reload
	jae	LBB6_7
LBB6_1:                                # %join.5.i
                                        # =>This Loop Header: Depth=1
                                        #     Child Loop BB6_2 Depth 2
	movq	%rcx, 576(%rsp)                 # 8-byte Spill
	shlq	$4, %rcx
	movdqu	(%rdx,%rcx), %xmm2
	movdqu	16(%rdx,%rcx), %xmm0
	movdqu	32(%rdx,%rcx), %xmm6
	movdqu	48(%rdx,%rcx), %xmm1
	movdqu	64(%rdx,%rcx), %xmm7
	movdqu	80(%rdx,%rcx), %xmm5
	movdqu	96(%rdx,%rcx), %xmm4
	movq	%rcx, 568(%rsp)                 # 8-byte Spill
	movdqu	112(%rdx,%rcx), %xmm3
	pxor	%xmm11, %xmm11
	movdqa	%xmm2, %xmm8
	punpckhbw	%xmm11, %xmm8           # xmm8 = xmm8[8],xmm11[8],xmm8[9],xmm11[9],xmm8[10],xmm11[10],xmm8[11],xmm11[11],xmm8[12],xmm11[12],xmm8[13],xmm11[13],xmm8[14],xmm11[14],xmm8[15],xmm11[15]
	pshufd	$231, %xmm8, %xmm9              # xmm9 = xmm8[3,1,2,3]
	pshuflw	$114, %xmm9, %xmm9              # xmm9 = xmm9[2,0,3,1,4,5,6,7]
	punpcklbw	%xmm11, %xmm2           # xmm2 = xmm2[0],xmm11[0],xmm2[1],xmm11[1],xmm2[2],xmm11[2],xmm2[3],xmm11[3],xmm2[4],xmm11[4],xmm2[5],xmm11[5],xmm2[6],xmm11[6],xmm2[7],xmm11[7]
	pshufd	$231, %xmm2, %xmm10             # xmm10 = xmm2[3,1,2,3]
	pshuflw	$114, %xmm10, %xmm10            # xmm10 = xmm10[2,0,3,1,4,5,6,7]
	punpckldq	%xmm9, %xmm10           # xmm10 = xmm10[0],xmm9[0],xmm10[1],xmm9[1]
	pshufd	$232, %xmm8, %xmm8              # xmm8 = xmm8[0,2,2,3]
	pshuflw	$216, %xmm8, %xmm8              # xmm8 = xmm8[0,2,1,3,4,5,6,7]
	pshufd	$232, %xmm2, %xmm2              # xmm2 = xmm2[0,2,2,3]
	pshuflw	$216, %xmm2, %xmm2              # xmm2 = xmm2[0,2,1,3,4,5,6,7]
	punpckldq	%xmm8, %xmm2            # xmm2 = xmm2[0],xmm8[0],xmm2[1],xmm8[1]
	packuswb	%xmm10, %xmm2
	movdqa	%xmm0, %xmm8
	punpckhbw	%xmm11, %xmm8           # xmm8 = xmm8[8],xmm11[8],xmm8[9],xmm11[9],xmm8[10],xmm11[10],xmm8[11],xmm11[11],xmm8[12],xmm11[12],xmm8[13],xmm11[13],xmm8[14],xmm11[14],xmm8[15],xmm11[15]
	pshufd	$231, %xmm8, %xmm9              # xmm9 = xmm8[3,1,2,3]
	pshuflw	$114, %xmm9, %xmm9              # xmm9 = xmm9[2,0,3,1,4,5,6,7]
	punpcklbw	%xmm11, %xmm0           # xmm0 = xmm0[0],xmm11[0],xmm0[1],xmm11[1],xmm0[2],xmm11[2],xmm0[3],xmm11[3],xmm0[4],xmm11[4],xmm0[5],xmm11[5],xmm0[6],xmm11[6],xmm0[7],xmm11[7]
	pshufd	$231, %xmm0, %xmm10             # xmm10 = xmm0[3,1,2,3]
	pshuflw	$114, %xmm10, %xmm10            # xmm10 = xmm10[2,0,3,1,4,5,6,7]
	punpckldq	%xmm9, %xmm10           # xmm10 = xmm10[0],xmm9[0],xmm10[1],xmm9[1]
	pshufd	$232, %xmm8, %xmm8              # xmm8 = xmm8[0,2,2,3]
	pshuflw	$216, %xmm8, %xmm8              # xmm8 = xmm8[0,2,1,3,4,5,6,7]
	pshufd	$232, %xmm0, %xmm0              # xmm0 = xmm0[0,2,2,3]
	pshuflw	$216, %xmm0, %xmm0              # xmm0 = xmm0[0,2,1,3,4,5,6,7]
	punpckldq	%xmm8, %xmm0            # xmm0 = xmm0[0],xmm8[0],xmm0[1],xmm8[1]
	packuswb	%xmm10, %xmm0
	movdqa	%xmm6, %xmm8
	punpckhbw	%xmm11, %xmm8           # xmm8 = xmm8[8],xmm11[8],xmm8[9],xmm11[9],xmm8[10],xmm11[10],xmm8[11],xmm11[11],xmm8[12],xmm11[12],xmm8[13],xmm11[13],xmm8[14],xmm11[14],xmm8[15],xmm11[15]
	pshufd	$231, %xmm8, %xmm9              # xmm9 = xmm8[3,1,2,3]
	pshuflw	$114, %xmm9, %xmm9              # xmm9 = xmm9[2,0,3,1,4,5,6,7]
	punpcklbw	%xmm11, %xmm6           # xmm6 = xmm6[0],xmm11[0],xmm6[1],xmm11[1],xmm6[2],xmm11[2],xmm6[3],xmm11[3],xmm6[4],xmm11[4],xmm6[5],xmm11[5],xmm6[6],xmm11[6],xmm6[7],xmm11[7]
	pshufd	$231, %xmm6, %xmm10             # xmm10 = xmm6[3,1,2,3]
	pshuflw	$114, %xmm10, %xmm10            # xmm10 = xmm10[2,0,3,1,4,5,6,7]
	punpckldq	%xmm9, %xmm10           # xmm10 = xmm10[0],xmm9[0],xmm10[1],xmm9[1]
	pshufd	$232, %xmm8, %xmm8              # xmm8 = xmm8[0,2,2,3]
	pshuflw	$216, %xmm8, %xmm8              # xmm8 = xmm8[0,2,1,3,4,5,6,7]
	pshufd	$232, %xmm6, %xmm6              # xmm6 = xmm6[0,2,2,3]
	pshuflw	$216, %xmm6, %xmm6              # xmm6 = xmm6[0,2,1,3,4,5,6,7]
	punpckldq	%xmm8, %xmm6            # xmm6 = xmm6[0],xmm8[0],xmm6[1],xmm8[1]
	packuswb	%xmm10, %xmm6
	movdqa	%xmm1, %xmm8
	punpckhbw	%xmm11, %xmm8           # xmm8 = xmm8[8],xmm11[8],xmm8[9],xmm11[9],xmm8[10],xmm11[10],xmm8[11],xmm11[11],xmm8[12],xmm11[12],xmm8[13],xmm11[13],xmm8[14],xmm11[14],xmm8[15],xmm11[15]
	pshufd	$231, %xmm8, %xmm9              # xmm9 = xmm8[3,1,2,3]
	pshuflw	$114, %xmm9, %xmm9              # xmm9 = xmm9[2,0,3,1,4,5,6,7]
	punpcklbw	%xmm11, %xmm1           # xmm1 = xmm1[0],xmm11[0],xmm1[1],xmm11[1],xmm1[2],xmm11[2],xmm1[3],xmm11[3],xmm1[4],xmm11[4],xmm1[5],xmm11[5],xmm1[6],xmm11[6],xmm1[7],xmm11[7]
	pshufd	$231, %xmm1, %xmm10             # xmm10 = xmm1[3,1,2,3]
	pshuflw	$114, %xmm10, %xmm10            # xmm10 = xmm10[2,0,3,1,4,5,6,7]
	punpckldq	%xmm9, %xmm10           # xmm10 = xmm10[0],xmm9[0],xmm10[1],xmm9[1]
	pshufd	$232, %xmm8, %xmm8              # xmm8 = xmm8[0,2,2,3]
	pshuflw	$216, %xmm8, %xmm8              # xmm8 = xmm8[0,2,1,3,4,5,6,7]
	pshufd	$232, %xmm1, %xmm1              # xmm1 = xmm1[0,2,2,3]
	pshuflw	$216, %xmm1, %xmm1              # xmm1 = xmm1[0,2,1,3,4,5,6,7]
	punpckldq	%xmm8, %xmm1            # xmm1 = xmm1[0],xmm8[0],xmm1[1],xmm8[1]
	packuswb	%xmm10, %xmm1
	movdqa	%xmm7, %xmm8
	punpckhbw	%xmm11, %xmm8           # xmm8 = xmm8[8],xmm11[8],xmm8[9],xmm11[9],xmm8[10],xmm11[10],xmm8[11],xmm11[11],xmm8[12],xmm11[12],xmm8[13],xmm11[13],xmm8[14],xmm11[14],xmm8[15],xmm11[15]
	pshufd	$231, %xmm8, %xmm9              # xmm9 = xmm8[3,1,2,3]
	pshuflw	$114, %xmm9, %xmm9              # xmm9 = xmm9[2,0,3,1,4,5,6,7]
	punpcklbw	%xmm11, %xmm7           # xmm7 = xmm7[0],xmm11[0],xmm7[1],xmm11[1],xmm7[2],xmm11[2],xmm7[3],xmm11[3],xmm7[4],xmm11[4],xmm7[5],xmm11[5],xmm7[6],xmm11[6],xmm7[7],xmm11[7]
	pshufd	$231, %xmm7, %xmm10             # xmm10 = xmm7[3,1,2,3]
	pshuflw	$114, %xmm10, %xmm10            # xmm10 = xmm10[2,0,3,1,4,5,6,7]
	punpckldq	%xmm9, %xmm10           # xmm10 = xmm10[0],xmm9[0],xmm10[1],xmm9[1]
	pshufd	$232, %xmm8, %xmm8              # xmm8 = xmm8[0,2,2,3]
	pshuflw	$216, %xmm8, %xmm9              # xmm9 = xmm8[0,2,1,3,4,5,6,7]
	pshufd	$232, %xmm7, %xmm7              # xmm7 = xmm7[0,2,2,3]
	pshuflw	$216, %xmm7, %xmm8              # xmm8 = xmm7[0,2,1,3,4,5,6,7]
	punpckldq	%xmm9, %xmm8            # xmm8 = xmm8[0],xmm9[0],xmm8[1],xmm9[1]
	packuswb	%xmm10, %xmm8
	movdqa	%xmm5, %xmm7
	punpckhbw	%xmm11, %xmm7           # xmm7 = xmm7[8],xmm11[8],xmm7[9],xmm11[9],xmm7[10],xmm11[10],xmm7[11],xmm11[11],xmm7[12],xmm11[12],xmm7[13],xmm11[13],xmm7[14],xmm11[14],xmm7[15],xmm11[15]
	pshufd	$231, %xmm7, %xmm9              # xmm9 = xmm7[3,1,2,3]
	pshuflw	$114, %xmm9, %xmm9              # xmm9 = xmm9[2,0,3,1,4,5,6,7]
	punpcklbw	%xmm11, %xmm5           # xmm5 = xmm5[0],xmm11[0],xmm5[1],xmm11[1],xmm5[2],xmm11[2],xmm5[3],xmm11[3],xmm5[4],xmm11[4],xmm5[5],xmm11[5],xmm5[6],xmm11[6],xmm5[7],xmm11[7]
	pshufd	$231, %xmm5, %xmm10             # xmm10 = xmm5[3,1,2,3]
	pshuflw	$114, %xmm10, %xmm10            # xmm10 = xmm10[2,0,3,1,4,5,6,7]
	punpckldq	%xmm9, %xmm10           # xmm10 = xmm10[0],xmm9[0],xmm10[1],xmm9[1]
	pshufd	$232, %xmm7, %xmm7              # xmm7 = xmm7[0,2,2,3]
	pshuflw	$216, %xmm7, %xmm7              # xmm7 = xmm7[0,2,1,3,4,5,6,7]
	pshufd	$232, %xmm5, %xmm5              # xmm5 = xmm5[0,2,2,3]
	pshuflw	$216, %xmm5, %xmm5              # xmm5 = xmm5[0,2,1,3,4,5,6,7]
	punpckldq	%xmm7, %xmm5            # xmm5 = xmm5[0],xmm7[0],xmm5[1],xmm7[1]
	packuswb	%xmm10, %xmm5
	movdqa	%xmm4, %xmm7
	punpckhbw	%xmm11, %xmm7           # xmm7 = xmm7[8],xmm11[8],xmm7[9],xmm11[9],xmm7[10],xmm11[10],xmm7[11],xmm11[11],xmm7[12],xmm11[12],xmm7[13],xmm11[13],xmm7[14],xmm11[14],xmm7[15],xmm11[15]
	pshufd	$231, %xmm7, %xmm9              # xmm9 = xmm7[3,1,2,3]
	pshuflw	$114, %xmm9, %xmm9              # xmm9 = xmm9[2,0,3,1,4,5,6,7]
	punpcklbw	%xmm11, %xmm4           # xmm4 = xmm4[0],xmm11[0],xmm4[1],xmm11[1],xmm4[2],xmm11[2],xmm4[3],xmm11[3],xmm4[4],xmm11[4],xmm4[5],xmm11[5],xmm4[6],xmm11[6],xmm4[7],xmm11[7]
	pshufd	$231, %xmm4, %xmm10             # xmm10 = xmm4[3,1,2,3]
	pshuflw	$114, %xmm10, %xmm10            # xmm10 = xmm10[2,0,3,1,4,5,6,7]
	punpckldq	%xmm9, %xmm10           # xmm10 = xmm10[0],xmm9[0],xmm10[1],xmm9[1]
	pshufd	$232, %xmm7, %xmm7              # xmm7 = xmm7[0,2,2,3]
	pshuflw	$216, %xmm7, %xmm7              # xmm7 = xmm7[0,2,1,3,4,5,6,7]
	pshufd	$232, %xmm4, %xmm4              # xmm4 = xmm4[0,2,2,3]
	pshuflw	$216, %xmm4, %xmm9              # xmm9 = xmm4[0,2,1,3,4,5,6,7]
	punpckldq	%xmm7, %xmm9            # xmm9 = xmm9[0],xmm7[0],xmm9[1],xmm7[1]
	packuswb	%xmm10, %xmm9
	movdqa	%xmm3, %xmm4
	punpckhbw	%xmm11, %xmm4           # xmm4 = xmm4[8],xmm11[8],xmm4[9],xmm11[9],xmm4[10],xmm11[10],xmm4[11],xmm11[11],xmm4[12],xmm11[12],xmm4[13],xmm11[13],xmm4[14],xmm11[14],xmm4[15],xmm11[15]
	pshufd	$231, %xmm4, %xmm7              # xmm7 = xmm4[3,1,2,3]
	pshuflw	$114, %xmm7, %xmm7              # xmm7 = xmm7[2,0,3,1,4,5,6,7]
	punpcklbw	%xmm11, %xmm3           # xmm3 = xmm3[0],xmm11[0],xmm3[1],xmm11[1],xmm3[2],xmm11[2],xmm3[3],xmm11[3],xmm3[4],xmm11[4],xmm3[5],xmm11[5],xmm3[6],xmm11[6],xmm3[7],xmm11[7]
	pshufd	$231, %xmm3, %xmm10             # xmm10 = xmm3[3,1,2,3]
	pshuflw	$114, %xmm10, %xmm10            # xmm10 = xmm10[2,0,3,1,4,5,6,7]
	punpckldq	%xmm7, %xmm10           # xmm10 = xmm10[0],xmm7[0],xmm10[1],xmm7[1]
	pshufd	$232, %xmm4, %xmm4              # xmm4 = xmm4[0,2,2,3]
	pshuflw	$216, %xmm4, %xmm4              # xmm4 = xmm4[0,2,1,3,4,5,6,7]
	pshufd	$232, %xmm3, %xmm3              # xmm3 = xmm3[0,2,2,3]
	pshuflw	$216, %xmm3, %xmm13             # xmm13 = xmm3[0,2,1,3,4,5,6,7]
	punpckldq	%xmm4, %xmm13           # xmm13 = xmm13[0],xmm4[0],xmm13[1],xmm4[1]
	packuswb	%xmm10, %xmm13
	movdqa	%xmm2, %xmm3
	psrlw	$1, %xmm3
	pxor	%xmm0, %xmm3
	movdqa	l_CPI6_0(%rip), %xmm11          # xmm11 = [85,85,85,85,85,85,85,85,85,85,85,85,85,85,85,85]
	pand	%xmm11, %xmm3
	pxor	%xmm3, %xmm0
	paddb	%xmm3, %xmm3
	pxor	%xmm2, %xmm3
	movdqa	%xmm6, %xmm4
	psrlw	$1, %xmm4
	pxor	%xmm1, %xmm4
	pand	%xmm11, %xmm4
	pxor	%xmm4, %xmm1
	paddb	%xmm4, %xmm4
	pxor	%xmm6, %xmm4
	movdqa	%xmm8, %xmm2
	psrlw	$1, %xmm2
	pxor	%xmm5, %xmm2
	pand	%xmm11, %xmm2
	pxor	%xmm2, %xmm5
	paddb	%xmm2, %xmm2
	pxor	%xmm8, %xmm2
	movdqa	%xmm9, %xmm10
	psrlw	$1, %xmm10
	pxor	%xmm13, %xmm10
	pand	%xmm11, %xmm10
	pxor	%xmm10, %xmm13
	paddb	%xmm10, %xmm10
	pxor	%xmm9, %xmm10
	movdqa	%xmm3, %xmm6
	psrlw	$2, %xmm6
	pxor	%xmm4, %xmm6
	movdqa	l_CPI6_1(%rip), %xmm9           # xmm9 = [51,51,51,51,51,51,51,51,51,51,51,51,51,51,51,51]
	pand	%xmm9, %xmm6
	pxor	%xmm6, %xmm4
	psllw	$2, %xmm6
	pxor	%xmm3, %xmm6
	movdqa	%xmm2, %xmm3
	psrlw	$2, %xmm3
	pxor	%xmm10, %xmm3
	pand	%xmm9, %xmm3
	pxor	%xmm3, %xmm10
	psllw	$2, %xmm3
	pxor	%xmm2, %xmm3
	movdqa	%xmm0, %xmm8
	psrlw	$2, %xmm8
	pxor	%xmm1, %xmm8
	pand	%xmm9, %xmm8
	pxor	%xmm8, %xmm1
	psllw	$2, %xmm8
	pxor	%xmm0, %xmm8
	movdqa	%xmm5, %xmm2
	psrlw	$2, %xmm2
	pxor	%xmm13, %xmm2
	pand	%xmm9, %xmm2
	pxor	%xmm2, %xmm13
	psllw	$2, %xmm2
	pxor	%xmm5, %xmm2
	movdqa	l_CPI6_2(%rip), %xmm0           # xmm0 = [15,15,15,15,15,15,15,15,15,15,15,15,15,15,15,15]
	movdqa	%xmm1, %xmm9
	psrlw	$4, %xmm9
	pxor	%xmm13, %xmm9
	pand	%xmm0, %xmm9
	pxor	112(%r12), %xmm13
	pxor	%xmm9, %xmm13
	psllw	$4, %xmm9
	pxor	48(%r12), %xmm9
	pxor	%xmm1, %xmm9
	movdqa	%xmm4, %xmm12
	psrlw	$4, %xmm12
	pxor	%xmm10, %xmm12
	pand	%xmm0, %xmm12
	pxor	96(%r12), %xmm10
	pxor	%xmm12, %xmm10
	psllw	$4, %xmm12
	pxor	32(%r12), %xmm12
	pxor	%xmm4, %xmm12
	movdqa	%xmm8, %xmm5
	psrlw	$4, %xmm5
	pxor	%xmm2, %xmm5
	pxor	80(%r12), %xmm2
	pand	%xmm0, %xmm5
	pxor	%xmm5, %xmm2
	psllw	$4, %xmm5
	pxor	16(%r12), %xmm5
	pxor	%xmm8, %xmm5
	movdqa	%xmm6, %xmm1
	psrlw	$4, %xmm1
	pxor	%xmm3, %xmm1
	pxor	64(%r12), %xmm3
	pand	%xmm0, %xmm1
	pxor	%xmm1, %xmm3
	movdqa	%xmm1, %xmm7
	psllw	$4, %xmm7
	pxor	(%r12), %xmm7
	pxor	%xmm6, %xmm7
	xorl	%eax, %eax
	.p2align	4
LBB6_2:                                # %join.7.i
                                        #   Parent Loop BB6_1 Depth=1
                                        # =>  This Inner Loop Header: Depth=2
	pxor	%xmm10, %xmm2
	movdqa	%xmm13, %xmm6
	pxor	%xmm3, %xmm6
	movdqa	%xmm2, %xmm15
	pxor	%xmm7, %xmm15
	movdqa	%xmm15, %xmm11
	pxor	%xmm3, %xmm11
	movdqa	%xmm11, 32(%rsp)                # 16-byte Spill
	pand	%xmm7, %xmm11
	movdqa	%xmm13, %xmm1
	pxor	%xmm5, %xmm1
	pxor	%xmm12, %xmm3
	movdqa	%xmm1, %xmm0
	movdqa	%xmm1, %xmm14
	pxor	%xmm3, %xmm0
	pxor	%xmm0, %xmm9
	movdqa	%xmm0, 96(%rsp)                 # 16-byte Spill
	movdqa	%xmm9, %xmm1
	pxor	%xmm12, %xmm1
	pxor	%xmm10, %xmm9
	pxor	%xmm13, %xmm12
	movdqa	%xmm1, %xmm4
	pand	%xmm0, %xmm4
	movdqa	%xmm1, %xmm8
	movdqa	%xmm1, %xmm10
	movdqa	%xmm1, 48(%rsp)                 # 16-byte Spill
	pxor	%xmm2, %xmm8
	pxor	%xmm12, %xmm11
	pxor	%xmm8, %xmm11
	pxor	%xmm4, %xmm11
	pxor	%xmm9, %xmm4
	movdqa	%xmm6, 80(%rsp)                 # 16-byte Spill
	pxor	%xmm6, %xmm9
	movdqa	%xmm9, %xmm1
	pand	%xmm6, %xmm1
	movdqa	%xmm9, %xmm6
	movdqa	%xmm8, %xmm0
	movdqa	%xmm8, 160(%rsp)                # 16-byte Spill
	pxor	%xmm8, %xmm6
	movdqa	%xmm6, 144(%rsp)                # 16-byte Spill
	movdqa	%xmm7, %xmm8
	movdqa	%xmm6, %xmm7
	pand	%xmm3, %xmm7
	pand	%xmm12, %xmm0
	pxor	%xmm1, %xmm7
	pxor	%xmm1, %xmm0
	pxor	%xmm15, %xmm5
	movdqa	%xmm10, %xmm1
	pxor	%xmm8, %xmm1
	movdqa	%xmm8, %xmm10
	movdqa	%xmm1, (%rsp)                   # 16-byte Spill
	movdqa	%xmm5, %xmm6
	pxor	%xmm12, %xmm6
	movdqa	%xmm6, 128(%rsp)                # 16-byte Spill
	pand	%xmm6, %xmm1
	pxor	%xmm1, %xmm4
	movdqa	%xmm9, %xmm8
	movdqa	%xmm9, 16(%rsp)                 # 16-byte Spill
	pxor	%xmm9, %xmm2
	movdqa	%xmm5, %xmm1
	pand	%xmm15, %xmm1
	movdqa	%xmm2, %xmm9
	movdqa	%xmm14, 112(%rsp)               # 16-byte Spill
	pand	%xmm14, %xmm9
	pxor	%xmm7, %xmm4
	pxor	%xmm2, %xmm1
	pxor	%xmm9, %xmm1
	pxor	%xmm14, %xmm1
	pxor	%xmm7, %xmm1
	movdqa	%xmm15, %xmm14
	pxor	%xmm13, %xmm14
	pxor	%xmm13, %xmm9
	movdqa	%xmm8, %xmm6
	pxor	%xmm10, %xmm6
	movdqa	%xmm10, %xmm13
	movdqa	%xmm6, 64(%rsp)                 # 16-byte Spill
	pand	%xmm14, %xmm6
	pxor	%xmm2, %xmm6
	pxor	%xmm6, %xmm9
	pxor	%xmm0, %xmm11
	pxor	%xmm0, %xmm9
	movdqa	%xmm1, %xmm6
	pand	%xmm4, %xmm6
	movdqa	%xmm6, %xmm7
	pxor	%xmm11, %xmm7
	movdqa	%xmm9, %xmm0
	pxor	%xmm1, %xmm0
	pand	%xmm7, %xmm0
	pxor	%xmm11, %xmm4
	movdqa	%xmm0, %xmm10
	pxor	%xmm6, %xmm0
	pxor	%xmm9, %xmm6
	movdqa	%xmm6, %xmm8
	pand	%xmm4, %xmm8
	pxor	%xmm11, %xmm8
	pxor	%xmm9, %xmm10
	pand	%xmm9, %xmm0
	pxor	%xmm0, %xmm6
	pand	%xmm8, %xmm6
	pxor	%xmm4, %xmm6
	pxor	%xmm1, %xmm0
	movdqa	32(%rsp), %xmm1                 # 16-byte Reload
	pand	%xmm10, %xmm1
	movdqa	%xmm1, 32(%rsp)                 # 16-byte Spill
	movdqa	%xmm0, %xmm4
	pxor	%xmm10, %xmm4
	movdqa	%xmm8, %xmm1
	pxor	%xmm10, %xmm1
	pand	%xmm13, %xmm10
	movdqa	%xmm6, %xmm11
	pxor	%xmm4, %xmm11
	movdqa	16(%rsp), %xmm7                 # 16-byte Reload
	pand	%xmm1, %xmm7
	movdqa	%xmm7, 16(%rsp)                 # 16-byte Spill
	movdqa	%xmm11, %xmm13
	pxor	%xmm1, %xmm13
	pand	80(%rsp), %xmm1                 # 16-byte Folded Reload
	movdqa	%xmm6, %xmm7
	pxor	%xmm8, %xmm7
	pand	%xmm7, %xmm2
	pand	112(%rsp), %xmm7                # 16-byte Folded Reload
	pand	%xmm6, %xmm15
	pand	%xmm5, %xmm6
	movdqa	(%rsp), %xmm9                   # 16-byte Reload
	pand	%xmm4, %xmm9
	pand	128(%rsp), %xmm4                # 16-byte Folded Reload
	pand	%xmm13, %xmm3
	pand	144(%rsp), %xmm13               # 16-byte Folded Reload
	pand	%xmm8, %xmm14
	pand	64(%rsp), %xmm8                 # 16-byte Folded Reload
	movdqa	48(%rsp), %xmm5                 # 16-byte Reload
	pand	%xmm0, %xmm5
	pand	96(%rsp), %xmm0                 # 16-byte Folded Reload
	pxor	%xmm5, %xmm9
	pxor	%xmm10, %xmm5
	pxor	%xmm2, %xmm15
	pxor	%xmm5, %xmm8
	pxor	%xmm2, %xmm8
	pxor	%xmm1, %xmm3
	pxor	%xmm3, %xmm4
	pxor	%xmm8, %xmm6
	pxor	%xmm3, %xmm6
	movdqa	160(%rsp), %xmm3                # 16-byte Reload
	pand	%xmm11, %xmm3
	pxor	%xmm15, %xmm13
	pxor	%xmm4, %xmm0
	movdqa	%xmm9, %xmm2
	pxor	%xmm15, %xmm2
	pxor	%xmm3, %xmm5
	pxor	%xmm7, %xmm5
	pxor	%xmm13, %xmm5
	pxor	%xmm5, %xmm14
	pxor	%xmm0, %xmm2
	movdqa	%xmm2, (%rsp)                   # 16-byte Spill
	pxor	%xmm6, %xmm5
	movdqa	%xmm5, %xmm9
	pxor	16(%rsp), %xmm13                # 16-byte Folded Reload
	movdqa	%xmm2, %xmm15
	pxor	%xmm13, %xmm15
	pxor	%xmm7, %xmm6
	pxor	32(%rsp), %xmm4                 # 16-byte Folded Reload
	pxor	%xmm2, %xmm8
	pand	%xmm12, %xmm11
	pxor	%xmm14, %xmm4
	pxor	%xmm13, %xmm0
	pxor	%xmm1, %xmm11
	pxor	%xmm13, %xmm11
	pxor	%xmm14, %xmm11
	movdqa	%xmm6, %xmm1
	pxor	%xmm5, %xmm5
	punpcklbw	%xmm5, %xmm1            # xmm1 = xmm1[0],xmm5[0],xmm1[1],xmm5[1],xmm1[2],xmm5[2],xmm1[3],xmm5[3],xmm1[4],xmm5[4],xmm1[5],xmm5[5],xmm1[6],xmm5[6],xmm1[7],xmm5[7]
	pshuflw	$57, %xmm1, %xmm2               # xmm2 = xmm1[1,2,3,0,4,5,6,7]
	movdqa	%xmm6, %xmm3
	punpckhbw	%xmm5, %xmm3            # xmm3 = xmm3[8],xmm5[8],xmm3[9],xmm5[9],xmm3[10],xmm5[10],xmm3[11],xmm5[11],xmm3[12],xmm5[12],xmm3[13],xmm5[13],xmm3[14],xmm5[14],xmm3[15],xmm5[15]
	pshufhw	$57, %xmm3, %xmm7               # xmm7 = xmm3[0,1,2,3,5,6,7,4]
	pshufd	$238, %xmm7, %xmm7              # xmm7 = xmm7[2,3,2,3]
	punpcklqdq	%xmm2, %xmm7            # xmm7 = xmm7[0],xmm2[0]
	pshuflw	$57, %xmm3, %xmm2               # xmm2 = xmm3[1,2,3,0,4,5,6,7]
	pshufhw	$57, %xmm1, %xmm1               # xmm1 = xmm1[0,1,2,3,5,6,7,4]
	pshufd	$238, %xmm1, %xmm1              # xmm1 = xmm1[2,3,2,3]
	punpcklqdq	%xmm2, %xmm1            # xmm1 = xmm1[0],xmm2[0]
	packuswb	%xmm7, %xmm1
	movdqa	%xmm1, %xmm14
	movdqa	%xmm9, %xmm3
	movdqa	%xmm9, 48(%rsp)                 # 16-byte Spill
	movdqa	%xmm9, %xmm1
	punpcklbw	%xmm5, %xmm1            # xmm1 = xmm1[0],xmm5[0],xmm1[1],xmm5[1],xmm1[2],xmm5[2],xmm1[3],xmm5[3],xmm1[4],xmm5[4],xmm1[5],xmm5[5],xmm1[6],xmm5[6],xmm1[7],xmm5[7]
	pshuflw	$57, %xmm1, %xmm2               # xmm2 = xmm1[1,2,3,0,4,5,6,7]
	punpckhbw	%xmm5, %xmm3            # xmm3 = xmm3[8],xmm5[8],xmm3[9],xmm5[9],xmm3[10],xmm5[10],xmm3[11],xmm5[11],xmm3[12],xmm5[12],xmm3[13],xmm5[13],xmm3[14],xmm5[14],xmm3[15],xmm5[15]
	pshufhw	$57, %xmm3, %xmm7               # xmm7 = xmm3[0,1,2,3,5,6,7,4]
	pshufd	$238, %xmm7, %xmm7              # xmm7 = xmm7[2,3,2,3]
	punpcklqdq	%xmm2, %xmm7            # xmm7 = xmm7[0],xmm2[0]
	pshuflw	$57, %xmm3, %xmm2               # xmm2 = xmm3[1,2,3,0,4,5,6,7]
	pshufhw	$57, %xmm1, %xmm1               # xmm1 = xmm1[0,1,2,3,5,6,7,4]
	pshufd	$238, %xmm1, %xmm1              # xmm1 = xmm1[2,3,2,3]
	punpcklqdq	%xmm2, %xmm1            # xmm1 = xmm1[0],xmm2[0]
	packuswb	%xmm7, %xmm1
	movdqa	%xmm4, %xmm2
	punpcklbw	%xmm5, %xmm2            # xmm2 = xmm2[0],xmm5[0],xmm2[1],xmm5[1],xmm2[2],xmm5[2],xmm2[3],xmm5[3],xmm2[4],xmm5[4],xmm2[5],xmm5[5],xmm2[6],xmm5[6],xmm2[7],xmm5[7]
	pshuflw	$57, %xmm2, %xmm3               # xmm3 = xmm2[1,2,3,0,4,5,6,7]
	movdqa	%xmm4, %xmm7
	punpckhbw	%xmm5, %xmm7            # xmm7 = xmm7[8],xmm5[8],xmm7[9],xmm5[9],xmm7[10],xmm5[10],xmm7[11],xmm5[11],xmm7[12],xmm5[12],xmm7[13],xmm5[13],xmm7[14],xmm5[14],xmm7[15],xmm5[15]
	pshufhw	$57, %xmm7, %xmm9               # xmm9 = xmm7[0,1,2,3,5,6,7,4]
	pshufd	$238, %xmm9, %xmm9              # xmm9 = xmm9[2,3,2,3]
	punpcklqdq	%xmm3, %xmm9            # xmm9 = xmm9[0],xmm3[0]
	pshuflw	$57, %xmm7, %xmm3               # xmm3 = xmm7[1,2,3,0,4,5,6,7]
	pshufhw	$57, %xmm2, %xmm2               # xmm2 = xmm2[0,1,2,3,5,6,7,4]
	pshufd	$238, %xmm2, %xmm2              # xmm2 = xmm2[2,3,2,3]
	punpcklqdq	%xmm3, %xmm2            # xmm2 = xmm2[0],xmm3[0]
	packuswb	%xmm9, %xmm2
	movdqa	%xmm8, %xmm3
	punpcklbw	%xmm5, %xmm3            # xmm3 = xmm3[0],xmm5[0],xmm3[1],xmm5[1],xmm3[2],xmm5[2],xmm3[3],xmm5[3],xmm3[4],xmm5[4],xmm3[5],xmm5[5],xmm3[6],xmm5[6],xmm3[7],xmm5[7]
	pshuflw	$57, %xmm3, %xmm7               # xmm7 = xmm3[1,2,3,0,4,5,6,7]
	movdqa	%xmm8, %xmm9
	punpckhbw	%xmm5, %xmm9            # xmm9 = xmm9[8],xmm5[8],xmm9[9],xmm5[9],xmm9[10],xmm5[10],xmm9[11],xmm5[11],xmm9[12],xmm5[12],xmm9[13],xmm5[13],xmm9[14],xmm5[14],xmm9[15],xmm5[15]
	pshufhw	$57, %xmm9, %xmm10              # xmm10 = xmm9[0,1,2,3,5,6,7,4]
	pshufd	$238, %xmm10, %xmm10            # xmm10 = xmm10[2,3,2,3]
	punpcklqdq	%xmm7, %xmm10           # xmm10 = xmm10[0],xmm7[0]
	pshuflw	$57, %xmm9, %xmm7               # xmm7 = xmm9[1,2,3,0,4,5,6,7]
	pshufhw	$57, %xmm3, %xmm3               # xmm3 = xmm3[0,1,2,3,5,6,7,4]
	pshufd	$238, %xmm3, %xmm3              # xmm3 = xmm3[2,3,2,3]
	punpcklqdq	%xmm7, %xmm3            # xmm3 = xmm3[0],xmm7[0]
	packuswb	%xmm10, %xmm3
	movdqa	%xmm3, 32(%rsp)                 # 16-byte Spill
	movdqa	(%rsp), %xmm10                  # 16-byte Reload
	movdqa	%xmm10, %xmm7
	punpcklbw	%xmm5, %xmm7            # xmm7 = xmm7[0],xmm5[0],xmm7[1],xmm5[1],xmm7[2],xmm5[2],xmm7[3],xmm5[3],xmm7[4],xmm5[4],xmm7[5],xmm5[5],xmm7[6],xmm5[6],xmm7[7],xmm5[7]
	pshuflw	$57, %xmm7, %xmm9               # xmm9 = xmm7[1,2,3,0,4,5,6,7]
	punpckhbw	%xmm5, %xmm10           # xmm10 = xmm10[8],xmm5[8],xmm10[9],xmm5[9],xmm10[10],xmm5[10],xmm10[11],xmm5[11],xmm10[12],xmm5[12],xmm10[13],xmm5[13],xmm10[14],xmm5[14],xmm10[15],xmm5[15]
	pshufhw	$57, %xmm10, %xmm12             # xmm12 = xmm10[0,1,2,3,5,6,7,4]
	pshufd	$238, %xmm12, %xmm12            # xmm12 = xmm12[2,3,2,3]
	punpcklqdq	%xmm9, %xmm12           # xmm12 = xmm12[0],xmm9[0]
	pshuflw	$57, %xmm10, %xmm9              # xmm9 = xmm10[1,2,3,0,4,5,6,7]
	pshufhw	$57, %xmm7, %xmm7               # xmm7 = xmm7[0,1,2,3,5,6,7,4]
	pshufd	$238, %xmm7, %xmm7              # xmm7 = xmm7[2,3,2,3]
	punpcklqdq	%xmm9, %xmm7            # xmm7 = xmm7[0],xmm9[0]
	packuswb	%xmm12, %xmm7
	movdqa	%xmm11, %xmm9
	punpcklbw	%xmm5, %xmm9            # xmm9 = xmm9[0],xmm5[0],xmm9[1],xmm5[1],xmm9[2],xmm5[2],xmm9[3],xmm5[3],xmm9[4],xmm5[4],xmm9[5],xmm5[5],xmm9[6],xmm5[6],xmm9[7],xmm5[7]
	movdqa	%xmm11, %xmm10
	punpckhbw	%xmm5, %xmm10           # xmm10 = xmm10[8],xmm5[8],xmm10[9],xmm5[9],xmm10[10],xmm5[10],xmm10[11],xmm5[11],xmm10[12],xmm5[12],xmm10[13],xmm5[13],xmm10[14],xmm5[14],xmm10[15],xmm5[15]
	pshufhw	$57, %xmm10, %xmm12             # xmm12 = xmm10[0,1,2,3,5,6,7,4]
	pshufd	$238, %xmm12, %xmm13            # xmm13 = xmm12[2,3,2,3]
	pshuflw	$57, %xmm9, %xmm12              # xmm12 = xmm9[1,2,3,0,4,5,6,7]
	punpcklqdq	%xmm12, %xmm13          # xmm13 = xmm13[0],xmm12[0]
	pshuflw	$57, %xmm10, %xmm10             # xmm10 = xmm10[1,2,3,0,4,5,6,7]
	pshufhw	$57, %xmm9, %xmm9               # xmm9 = xmm9[0,1,2,3,5,6,7,4]
	pshufd	$238, %xmm9, %xmm12             # xmm12 = xmm9[2,3,2,3]
	punpcklqdq	%xmm10, %xmm12          # xmm12 = xmm12[0],xmm10[0]
	packuswb	%xmm13, %xmm12
	movdqa	%xmm15, %xmm10
	movdqa	%xmm15, 16(%rsp)                # 16-byte Spill
	movdqa	%xmm15, %xmm9
	punpcklbw	%xmm5, %xmm9            # xmm9 = xmm9[0],xmm5[0],xmm9[1],xmm5[1],xmm9[2],xmm5[2],xmm9[3],xmm5[3],xmm9[4],xmm5[4],xmm9[5],xmm5[5],xmm9[6],xmm5[6],xmm9[7],xmm5[7]
	punpckhbw	%xmm5, %xmm10           # xmm10 = xmm10[8],xmm5[8],xmm10[9],xmm5[9],xmm10[10],xmm5[10],xmm10[11],xmm5[11],xmm10[12],xmm5[12],xmm10[13],xmm5[13],xmm10[14],xmm5[14],xmm10[15],xmm5[15]
	pshufhw	$57, %xmm10, %xmm13             # xmm13 = xmm10[0,1,2,3,5,6,7,4]
	pshufd	$238, %xmm13, %xmm15            # xmm15 = xmm13[2,3,2,3]
	pshuflw	$57, %xmm9, %xmm13              # xmm13 = xmm9[1,2,3,0,4,5,6,7]
	punpcklqdq	%xmm13, %xmm15          # xmm15 = xmm15[0],xmm13[0]
	pshuflw	$57, %xmm10, %xmm10             # xmm10 = xmm10[1,2,3,0,4,5,6,7]
	pshufhw	$57, %xmm9, %xmm9               # xmm9 = xmm9[0,1,2,3,5,6,7,4]
	pshufd	$238, %xmm9, %xmm13             # xmm13 = xmm9[2,3,2,3]
	punpcklqdq	%xmm10, %xmm13          # xmm13 = xmm13[0],xmm10[0]
	packuswb	%xmm15, %xmm13
	movdqa	%xmm0, %xmm9
	punpcklbw	%xmm5, %xmm9            # xmm9 = xmm9[0],xmm5[0],xmm9[1],xmm5[1],xmm9[2],xmm5[2],xmm9[3],xmm5[3],xmm9[4],xmm5[4],xmm9[5],xmm5[5],xmm9[6],xmm5[6],xmm9[7],xmm5[7]
	movdqa	%xmm0, %xmm10
	punpckhbw	%xmm5, %xmm10           # xmm10 = xmm10[8],xmm5[8],xmm10[9],xmm5[9],xmm10[10],xmm5[10],xmm10[11],xmm5[11],xmm10[12],xmm5[12],xmm10[13],xmm5[13],xmm10[14],xmm5[14],xmm10[15],xmm5[15]
	pshufhw	$57, %xmm10, %xmm15             # xmm15 = xmm10[0,1,2,3,5,6,7,4]
	pshufd	$238, %xmm15, %xmm15            # xmm15 = xmm15[2,3,2,3]
	pshuflw	$57, %xmm9, %xmm3               # xmm3 = xmm9[1,2,3,0,4,5,6,7]
	punpcklqdq	%xmm3, %xmm15           # xmm15 = xmm15[0],xmm3[0]
	pshuflw	$57, %xmm10, %xmm3              # xmm3 = xmm10[1,2,3,0,4,5,6,7]
	pshufhw	$57, %xmm9, %xmm9               # xmm9 = xmm9[0,1,2,3,5,6,7,4]
	pshufd	$238, %xmm9, %xmm10             # xmm10 = xmm9[2,3,2,3]
	punpcklqdq	%xmm3, %xmm10           # xmm10 = xmm10[0],xmm3[0]
	packuswb	%xmm15, %xmm10
	pxor	%xmm14, %xmm6
	pxor	%xmm10, %xmm0
	pshufd	$78, %xmm6, %xmm3               # xmm3 = xmm6[2,3,0,1]
	pshuflw	$177, %xmm3, %xmm3              # xmm3 = xmm3[1,0,3,2,4,5,6,7]
	pshufhw	$177, %xmm3, %xmm3              # xmm3 = xmm3[0,1,2,3,5,4,7,6]
	pxor	128(%r12,%rax), %xmm3
	pxor	%xmm0, %xmm14
	pxor	%xmm3, %xmm14
	movdqa	48(%rsp), %xmm3                 # 16-byte Reload
	pxor	%xmm1, %xmm3
	pxor	%xmm2, %xmm4
	pxor	32(%rsp), %xmm8                 # 16-byte Folded Reload
	movdqa	(%rsp), %xmm15                  # 16-byte Reload
	pxor	%xmm7, %xmm15
	pxor	%xmm12, %xmm11
	pxor	%xmm1, %xmm6
	pshufd	$78, %xmm3, %xmm1               # xmm1 = xmm3[2,3,0,1]
	movdqa	%xmm3, %xmm9
	pshuflw	$177, %xmm1, %xmm1              # xmm1 = xmm1[1,0,3,2,4,5,6,7]
	pshufhw	$177, %xmm1, %xmm1              # xmm1 = xmm1[0,1,2,3,5,4,7,6]
	pxor	144(%r12,%rax), %xmm1
	movdqa	16(%rsp), %xmm5                 # 16-byte Reload
	pxor	%xmm13, %xmm5
	pxor	%xmm0, %xmm6
	pxor	%xmm1, %xmm6
	pshufd	$78, %xmm4, %xmm1               # xmm1 = xmm4[2,3,0,1]
	pshuflw	$177, %xmm1, %xmm1              # xmm1 = xmm1[1,0,3,2,4,5,6,7]
	pshufhw	$177, %xmm1, %xmm3              # xmm3 = xmm1[0,1,2,3,5,4,7,6]
	pxor	%xmm2, %xmm9
	pshufd	$78, %xmm8, %xmm1               # xmm1 = xmm8[2,3,0,1]
	pshuflw	$177, %xmm1, %xmm1              # xmm1 = xmm1[1,0,3,2,4,5,6,7]
	pshufhw	$177, %xmm1, %xmm1              # xmm1 = xmm1[0,1,2,3,5,4,7,6]
	pxor	160(%r12,%rax), %xmm3
	pxor	%xmm3, %xmm9
	pshufd	$78, %xmm15, %xmm2              # xmm2 = xmm15[2,3,0,1]
	pshuflw	$177, %xmm2, %xmm2              # xmm2 = xmm2[1,0,3,2,4,5,6,7]
	pshufhw	$177, %xmm2, %xmm2              # xmm2 = xmm2[0,1,2,3,5,4,7,6]
	pxor	%xmm0, %xmm7
	pxor	%xmm8, %xmm7
	pshufd	$78, %xmm11, %xmm3              # xmm3 = xmm11[2,3,0,1]
	pshuflw	$177, %xmm3, %xmm3              # xmm3 = xmm3[1,0,3,2,4,5,6,7]
	pshufhw	$177, %xmm3, %xmm3              # xmm3 = xmm3[0,1,2,3,5,4,7,6]
	pxor	192(%r12,%rax), %xmm2
	pxor	%xmm2, %xmm7
	pshufd	$78, %xmm5, %xmm2               # xmm2 = xmm5[2,3,0,1]
	pshuflw	$177, %xmm2, %xmm2              # xmm2 = xmm2[1,0,3,2,4,5,6,7]
	pshufhw	$177, %xmm2, %xmm2              # xmm2 = xmm2[0,1,2,3,5,4,7,6]
	pxor	%xmm13, %xmm11
	pshufd	$78, %xmm0, %xmm8               # xmm8 = xmm0[2,3,0,1]
	pshuflw	$177, %xmm8, %xmm8              # xmm8 = xmm8[1,0,3,2,4,5,6,7]
	pxor	224(%r12,%rax), %xmm2
	pshufhw	$177, %xmm8, %xmm8              # xmm8 = xmm8[0,1,2,3,5,4,7,6]
	pxor	%xmm2, %xmm11
	pxor	240(%r12,%rax), %xmm8
	pxor	%xmm10, %xmm5
	pxor	%xmm8, %xmm5
	pxor	208(%r12,%rax), %xmm3
	movdqa	%xmm15, %xmm8
	pxor	%xmm12, %xmm8
	pxor	%xmm3, %xmm8
	pxor	%xmm11, %xmm8
	movdqa	%xmm7, %xmm3
	pxor	%xmm5, %xmm3
	movdqa	%xmm8, %xmm12
	pxor	%xmm14, %xmm12
	movdqa	%xmm12, %xmm15
	pxor	%xmm7, %xmm15
	movdqa	%xmm15, (%rsp)                  # 16-byte Spill
	movdqa	%xmm5, %xmm10
	pxor	%xmm6, %xmm10
	movdqa	%xmm10, 16(%rsp)                # 16-byte Spill
	pxor	%xmm9, %xmm7
	movdqa	%xmm7, %xmm2
	movdqa	%xmm7, 64(%rsp)                 # 16-byte Spill
	pxor	%xmm10, %xmm2
	pxor	176(%r12,%rax), %xmm1
	pxor	32(%rsp), %xmm4                 # 16-byte Folded Reload
	pxor	%xmm0, %xmm4
	pxor	%xmm1, %xmm4
	pxor	%xmm2, %xmm4
	movdqa	%xmm2, 96(%rsp)                 # 16-byte Spill
	movdqa	%xmm4, %xmm13
	pxor	%xmm9, %xmm13
	pxor	%xmm11, %xmm4
	pxor	%xmm5, %xmm9
	movdqa	%xmm13, %xmm11
	pand	%xmm2, %xmm11
	movdqa	%xmm13, %xmm0
	pxor	%xmm8, %xmm0
	movdqa	%xmm0, %xmm1
	movdqa	%xmm0, 32(%rsp)                 # 16-byte Spill
	pxor	%xmm11, %xmm0
	pxor	%xmm4, %xmm11
	movdqa	%xmm3, 128(%rsp)                # 16-byte Spill
	pxor	%xmm3, %xmm4
	movdqa	%xmm4, %xmm2
	pand	%xmm3, %xmm2
	movdqa	%xmm4, %xmm10
	movdqa	%xmm4, %xmm3
	pxor	%xmm1, %xmm10
	movdqa	%xmm10, 160(%rsp)               # 16-byte Spill
	movdqa	%xmm10, %xmm4
	pand	%xmm7, %xmm4
	movdqa	%xmm9, 48(%rsp)                 # 16-byte Spill
	pand	%xmm9, %xmm1
	pxor	%xmm2, %xmm4
	pxor	%xmm2, %xmm1
	movdqa	%xmm14, %xmm7
	pand	%xmm14, %xmm15
	pxor	%xmm9, %xmm15
	pxor	%xmm15, %xmm0
	pxor	%xmm12, %xmm6
	movdqa	%xmm13, %xmm10
	pxor	%xmm14, %xmm10
	movdqa	%xmm6, %xmm14
	pxor	%xmm9, %xmm14
	movdqa	%xmm14, 144(%rsp)               # 16-byte Spill
	movdqa	%xmm10, %xmm2
	pand	%xmm14, %xmm2
	pxor	%xmm2, %xmm11
	pxor	%xmm3, %xmm8
	movdqa	%xmm3, %xmm14
	movdqa	%xmm6, %xmm2
	pand	%xmm12, %xmm2
	movdqa	%xmm8, %xmm3
	movdqa	16(%rsp), %xmm9                 # 16-byte Reload
	pand	%xmm9, %xmm3
	pxor	%xmm4, %xmm11
	pxor	%xmm8, %xmm2
	pxor	%xmm3, %xmm2
	pxor	%xmm9, %xmm2
	pxor	%xmm4, %xmm2
	movdqa	%xmm12, %xmm4
	pxor	%xmm5, %xmm4
	pxor	%xmm5, %xmm3
	movdqa	%xmm14, %xmm5
	pxor	%xmm7, %xmm5
	movdqa	%xmm5, 80(%rsp)                 # 16-byte Spill
	pand	%xmm4, %xmm5
	pxor	%xmm8, %xmm5
	pxor	%xmm5, %xmm3
	pxor	%xmm1, %xmm0
	pxor	%xmm1, %xmm3
	movdqa	%xmm2, %xmm5
	pand	%xmm11, %xmm5
	movdqa	%xmm5, %xmm1
	pxor	%xmm0, %xmm1
	movdqa	%xmm3, %xmm9
	pxor	%xmm2, %xmm9
	pand	%xmm1, %xmm9
	pxor	%xmm0, %xmm11
	movdqa	%xmm9, %xmm1
	pxor	%xmm5, %xmm9
	pxor	%xmm3, %xmm5
	movdqa	%xmm5, %xmm15
	pand	%xmm11, %xmm15
	pxor	%xmm0, %xmm15
	pxor	%xmm3, %xmm1
	pand	%xmm3, %xmm9
	pxor	%xmm9, %xmm5
	pand	%xmm15, %xmm5
	pxor	%xmm11, %xmm5
	pxor	%xmm2, %xmm9
	movdqa	(%rsp), %xmm0                   # 16-byte Reload
	pand	%xmm1, %xmm0
	movdqa	%xmm0, (%rsp)                   # 16-byte Spill
	movdqa	%xmm9, %xmm11
	pxor	%xmm1, %xmm11
	movdqa	%xmm15, %xmm3
	pxor	%xmm1, %xmm3
	pand	%xmm7, %xmm1
	movdqa	%xmm5, %xmm0
	pxor	%xmm11, %xmm0
	pand	%xmm3, %xmm14
	movdqa	%xmm14, %xmm7
	movdqa	%xmm0, %xmm14
	pxor	%xmm3, %xmm14
	pand	128(%rsp), %xmm3                # 16-byte Folded Reload
	movdqa	%xmm5, %xmm2
	pxor	%xmm15, %xmm2
	pand	%xmm2, %xmm8
	pand	16(%rsp), %xmm2                 # 16-byte Folded Reload
	pand	%xmm5, %xmm12
	pand	%xmm6, %xmm5
	pand	%xmm11, %xmm10
	pand	144(%rsp), %xmm11               # 16-byte Folded Reload
	movdqa	64(%rsp), %xmm6                 # 16-byte Reload
	pand	%xmm14, %xmm6
	pand	160(%rsp), %xmm14               # 16-byte Folded Reload
	pand	%xmm15, %xmm4
	pand	80(%rsp), %xmm15                # 16-byte Folded Reload
	pand	%xmm9, %xmm13
	pand	96(%rsp), %xmm9                 # 16-byte Folded Reload
	pxor	%xmm13, %xmm10
	pxor	%xmm1, %xmm13
	pxor	%xmm8, %xmm12
	pxor	%xmm13, %xmm15
	pxor	%xmm8, %xmm15
	movdqa	%xmm6, %xmm1
	pxor	%xmm3, %xmm1
	pxor	%xmm1, %xmm11
	pxor	%xmm15, %xmm5
	pxor	%xmm1, %xmm5
	movdqa	32(%rsp), %xmm1                 # 16-byte Reload
	pand	%xmm0, %xmm1
	pxor	%xmm12, %xmm14
	pxor	%xmm11, %xmm9
	pxor	%xmm12, %xmm10
	pxor	%xmm1, %xmm13
	pxor	%xmm2, %xmm13
	pxor	%xmm14, %xmm13
	pxor	%xmm13, %xmm4
	pxor	%xmm9, %xmm10
	pxor	%xmm5, %xmm13
	pxor	%xmm7, %xmm14
	movdqa	%xmm10, %xmm12
	pxor	%xmm14, %xmm12
	pxor	%xmm2, %xmm5
	pxor	(%rsp), %xmm11                  # 16-byte Folded Reload
	pxor	%xmm10, %xmm15
	pand	48(%rsp), %xmm0                 # 16-byte Folded Reload
	pxor	%xmm4, %xmm11
	pxor	%xmm14, %xmm9
	pxor	%xmm3, %xmm0
	pxor	%xmm14, %xmm0
	pxor	%xmm4, %xmm0
	pshufd	$198, %xmm5, %xmm1              # xmm1 = xmm5[2,1,0,3]
	pshuflw	$27, %xmm1, %xmm1               # xmm1 = xmm1[3,2,1,0,4,5,6,7]
	pshufhw	$27, %xmm1, %xmm8               # xmm8 = xmm1[0,1,2,3,7,6,5,4]
	pshufd	$198, %xmm13, %xmm1             # xmm1 = xmm13[2,1,0,3]
	pshuflw	$27, %xmm1, %xmm1               # xmm1 = xmm1[3,2,1,0,4,5,6,7]
	pshufhw	$27, %xmm1, %xmm7               # xmm7 = xmm1[0,1,2,3,7,6,5,4]
	pshufd	$198, %xmm11, %xmm1             # xmm1 = xmm11[2,1,0,3]
	pshuflw	$27, %xmm1, %xmm1               # xmm1 = xmm1[3,2,1,0,4,5,6,7]
	pshufhw	$27, %xmm1, %xmm14              # xmm14 = xmm1[0,1,2,3,7,6,5,4]
	pshufd	$198, %xmm15, %xmm1             # xmm1 = xmm15[2,1,0,3]
	pshuflw	$27, %xmm1, %xmm1               # xmm1 = xmm1[3,2,1,0,4,5,6,7]
	pshufhw	$27, %xmm1, %xmm6               # xmm6 = xmm1[0,1,2,3,7,6,5,4]
	movdqa	%xmm6, 48(%rsp)                 # 16-byte Spill
	pshufd	$198, %xmm10, %xmm2             # xmm2 = xmm10[2,1,0,3]
	pshuflw	$27, %xmm2, %xmm2               # xmm2 = xmm2[3,2,1,0,4,5,6,7]
	pshufhw	$27, %xmm2, %xmm4               # xmm4 = xmm2[0,1,2,3,7,6,5,4]
	pshufd	$198, %xmm0, %xmm2              # xmm2 = xmm0[2,1,0,3]
	pshuflw	$27, %xmm2, %xmm2               # xmm2 = xmm2[3,2,1,0,4,5,6,7]
	pshufhw	$27, %xmm2, %xmm2               # xmm2 = xmm2[0,1,2,3,7,6,5,4]
	pshufd	$198, %xmm9, %xmm3              # xmm3 = xmm9[2,1,0,3]
	pshuflw	$27, %xmm3, %xmm3               # xmm3 = xmm3[3,2,1,0,4,5,6,7]
	pshufhw	$27, %xmm3, %xmm3               # xmm3 = xmm3[0,1,2,3,7,6,5,4]
	movdqa	%xmm8, %xmm1
	pxor	%xmm8, %xmm5
	pxor	%xmm3, %xmm9
	pshufd	$78, %xmm5, %xmm8               # xmm8 = xmm5[2,3,0,1]
	pxor	256(%r12,%rax), %xmm8
	pxor	%xmm9, %xmm1
	pxor	%xmm8, %xmm1
	movdqa	%xmm1, 16(%rsp)                 # 16-byte Spill
	pshufd	$198, %xmm12, %xmm8             # xmm8 = xmm12[2,1,0,3]
	pshuflw	$27, %xmm8, %xmm8               # xmm8 = xmm8[3,2,1,0,4,5,6,7]
	pshufhw	$27, %xmm8, %xmm8               # xmm8 = xmm8[0,1,2,3,7,6,5,4]
	pxor	%xmm7, %xmm13
	movdqa	%xmm14, %xmm1
	pxor	%xmm14, %xmm11
	pxor	%xmm6, %xmm15
	pxor	%xmm4, %xmm10
	pxor	%xmm2, %xmm0
	pxor	%xmm8, %xmm12
	pxor	%xmm7, %xmm5
	pshufd	$78, %xmm13, %xmm7              # xmm7 = xmm13[2,3,0,1]
	pxor	272(%r12,%rax), %xmm7
	pxor	%xmm9, %xmm5
	pxor	%xmm7, %xmm5
	pshufd	$78, %xmm11, %xmm14             # xmm14 = xmm11[2,3,0,1]
	pxor	288(%r12,%rax), %xmm14
	pxor	%xmm1, %xmm13
	pshufd	$78, %xmm15, %xmm7              # xmm7 = xmm15[2,3,0,1]
	pxor	%xmm14, %xmm13
	pshufd	$78, %xmm10, %xmm6              # xmm6 = xmm10[2,3,0,1]
	pxor	%xmm9, %xmm4
	pxor	%xmm15, %xmm4
	pshufd	$78, %xmm0, %xmm14              # xmm14 = xmm0[2,3,0,1]
	pxor	320(%r12,%rax), %xmm6
	pxor	%xmm6, %xmm4
	pshufd	$78, %xmm12, %xmm6              # xmm6 = xmm12[2,3,0,1]
	pxor	%xmm8, %xmm0
	pshufd	$78, %xmm9, %xmm8               # xmm8 = xmm9[2,3,0,1]
	pxor	352(%r12,%rax), %xmm6
	pxor	368(%r12,%rax), %xmm8
	pxor	%xmm6, %xmm0
	pxor	%xmm3, %xmm12
	pxor	336(%r12,%rax), %xmm14
	pxor	%xmm8, %xmm12
	pxor	%xmm2, %xmm10
	pxor	%xmm14, %xmm10
	pxor	%xmm0, %xmm10
	movdqa	%xmm4, %xmm3
	pxor	%xmm12, %xmm3
	movdqa	%xmm10, %xmm6
	pxor	16(%rsp), %xmm6                 # 16-byte Folded Reload
	movdqa	%xmm6, %xmm2
	pxor	%xmm4, %xmm2
	movdqa	%xmm2, %xmm14
	movdqa	%xmm2, (%rsp)                   # 16-byte Spill
	movdqa	%xmm6, %xmm15
	pxor	%xmm5, %xmm15
	pxor	%xmm12, %xmm5
	pxor	%xmm13, %xmm4
	movdqa	%xmm4, %xmm2
	pxor	%xmm5, %xmm2
	pxor	304(%r12,%rax), %xmm7
	pxor	48(%rsp), %xmm9                 # 16-byte Folded Reload
	pxor	%xmm11, %xmm9
	pxor	%xmm7, %xmm9
	pxor	%xmm2, %xmm9
	movdqa	%xmm2, 96(%rsp)                 # 16-byte Spill
	movdqa	%xmm9, %xmm8
	pxor	%xmm13, %xmm8
	pxor	%xmm0, %xmm9
	pxor	%xmm12, %xmm13
	movdqa	%xmm8, %xmm11
	pand	%xmm2, %xmm11
	movdqa	%xmm8, %xmm0
	movdqa	%xmm8, 48(%rsp)                 # 16-byte Spill
	pxor	%xmm10, %xmm0
	movdqa	%xmm0, %xmm2
	pxor	%xmm11, %xmm2
	pxor	%xmm9, %xmm11
	movdqa	%xmm3, 80(%rsp)                 # 16-byte Spill
	pxor	%xmm3, %xmm9
	movdqa	%xmm9, %xmm1
	pand	%xmm3, %xmm1
	movdqa	%xmm9, %xmm3
	movdqa	%xmm0, 160(%rsp)                # 16-byte Spill
	pxor	%xmm0, %xmm3
	movdqa	%xmm3, 144(%rsp)                # 16-byte Spill
	pand	%xmm4, %xmm3
	pand	%xmm13, %xmm0
	pxor	%xmm1, %xmm3
	pxor	%xmm1, %xmm0
	movdqa	%xmm14, %xmm1
	movdqa	16(%rsp), %xmm7                 # 16-byte Reload
	pand	%xmm7, %xmm1
	pxor	%xmm13, %xmm1
	pxor	%xmm1, %xmm2
	movdqa	%xmm8, %xmm14
	pxor	%xmm7, %xmm14
	movdqa	%xmm7, %xmm8
	movdqa	%xmm15, 64(%rsp)                # 16-byte Spill
	movdqa	%xmm15, %xmm7
	pxor	%xmm13, %xmm7
	movdqa	%xmm7, 128(%rsp)                # 16-byte Spill
	movdqa	%xmm14, %xmm1
	pand	%xmm7, %xmm1
	pxor	%xmm1, %xmm11
	movdqa	%xmm9, %xmm1
	movdqa	%xmm9, 32(%rsp)                 # 16-byte Spill
	pxor	%xmm9, %xmm10
	movdqa	%xmm15, %xmm7
	pand	%xmm6, %xmm7
	movdqa	%xmm10, %xmm9
	pand	%xmm5, %xmm9
	pxor	%xmm3, %xmm11
	pxor	%xmm10, %xmm7
	pxor	%xmm9, %xmm7
	pxor	%xmm5, %xmm7
	pxor	%xmm3, %xmm7
	movdqa	%xmm6, %xmm15
	pxor	%xmm12, %xmm15
	pxor	%xmm12, %xmm9
	pxor	%xmm8, %xmm1
	movdqa	%xmm1, 112(%rsp)                # 16-byte Spill
	pand	%xmm15, %xmm1
	pxor	%xmm10, %xmm1
	pxor	%xmm1, %xmm9
	pxor	%xmm0, %xmm2
	pxor	%xmm0, %xmm9
	movdqa	%xmm7, %xmm8
	pand	%xmm11, %xmm8
	movdqa	%xmm8, %xmm0
	pxor	%xmm2, %xmm0
	movdqa	%xmm9, %xmm3
	pxor	%xmm7, %xmm3
	pand	%xmm0, %xmm3
	pxor	%xmm2, %xmm11
	movdqa	%xmm3, %xmm0
	pxor	%xmm8, %xmm3
	pxor	%xmm9, %xmm8
	movdqa	%xmm8, %xmm1
	pand	%xmm11, %xmm1
	pxor	%xmm2, %xmm1
	pxor	%xmm9, %xmm0
	pand	%xmm9, %xmm3
	pxor	%xmm3, %xmm8
	pand	%xmm1, %xmm8
	pxor	%xmm11, %xmm8
	pxor	%xmm7, %xmm3
	movdqa	(%rsp), %xmm2                   # 16-byte Reload
	pand	%xmm0, %xmm2
	movdqa	%xmm2, (%rsp)                   # 16-byte Spill
	movdqa	%xmm3, %xmm9
	pxor	%xmm0, %xmm9
	movdqa	%xmm1, %xmm12
	pxor	%xmm0, %xmm12
	pand	16(%rsp), %xmm0                 # 16-byte Folded Reload
	movdqa	%xmm8, %xmm2
	pxor	%xmm9, %xmm2
	movdqa	32(%rsp), %xmm7                 # 16-byte Reload
	pand	%xmm12, %xmm7
	movdqa	%xmm7, 32(%rsp)                 # 16-byte Spill
	movdqa	%xmm2, %xmm11
	pxor	%xmm12, %xmm11
	pand	80(%rsp), %xmm12                # 16-byte Folded Reload
	movdqa	%xmm8, %xmm7
	pxor	%xmm1, %xmm7
	pand	%xmm7, %xmm10
	pand	%xmm5, %xmm7
	pand	%xmm8, %xmm6
	pand	64(%rsp), %xmm8                 # 16-byte Folded Reload
	pand	%xmm9, %xmm14
	pand	128(%rsp), %xmm9                # 16-byte Folded Reload
	pand	%xmm11, %xmm4
	pand	144(%rsp), %xmm11               # 16-byte Folded Reload
	pand	%xmm1, %xmm15
	pand	112(%rsp), %xmm1                # 16-byte Folded Reload
	movdqa	48(%rsp), %xmm5                 # 16-byte Reload
	pand	%xmm3, %xmm5
	pand	96(%rsp), %xmm3                 # 16-byte Folded Reload
	pxor	%xmm5, %xmm14
	pxor	%xmm0, %xmm5
	pxor	%xmm10, %xmm6
	pxor	%xmm5, %xmm1
	pxor	%xmm10, %xmm1
	pxor	%xmm12, %xmm4
	pxor	%xmm4, %xmm9
	pxor	%xmm1, %xmm8
	pxor	%xmm4, %xmm8
	movdqa	160(%rsp), %xmm0                # 16-byte Reload
	pand	%xmm2, %xmm0
	pxor	%xmm6, %xmm11
	pxor	%xmm9, %xmm3
	pxor	%xmm6, %xmm14
	pxor	%xmm0, %xmm5
	pxor	%xmm7, %xmm5
	pxor	%xmm11, %xmm5
	pxor	%xmm5, %xmm15
	pxor	%xmm3, %xmm14
	pxor	%xmm8, %xmm5
	movdqa	%xmm5, 48(%rsp)                 # 16-byte Spill
	pxor	32(%rsp), %xmm11                # 16-byte Folded Reload
	movdqa	%xmm14, %xmm5
	pxor	%xmm11, %xmm5
	pxor	%xmm7, %xmm8
	pxor	(%rsp), %xmm9                   # 16-byte Folded Reload
	pxor	%xmm14, %xmm1
	pand	%xmm13, %xmm2
	pxor	%xmm15, %xmm9
	pxor	%xmm11, %xmm3
	pxor	%xmm12, %xmm2
	pxor	%xmm11, %xmm2
	pxor	%xmm15, %xmm2
	movdqa	%xmm8, %xmm0
	pxor	%xmm7, %xmm7
	punpcklbw	%xmm7, %xmm0            # xmm0 = xmm0[0],xmm7[0],xmm0[1],xmm7[1],xmm0[2],xmm7[2],xmm0[3],xmm7[3],xmm0[4],xmm7[4],xmm0[5],xmm7[5],xmm0[6],xmm7[6],xmm0[7],xmm7[7]
	pshuflw	$147, %xmm0, %xmm4              # xmm4 = xmm0[3,0,1,2,4,5,6,7]
	movdqa	%xmm8, %xmm6
	punpckhbw	%xmm7, %xmm6            # xmm6 = xmm6[8],xmm7[8],xmm6[9],xmm7[9],xmm6[10],xmm7[10],xmm6[11],xmm7[11],xmm6[12],xmm7[12],xmm6[13],xmm7[13],xmm6[14],xmm7[14],xmm6[15],xmm7[15]
	pxor	%xmm10, %xmm10
	pshufhw	$147, %xmm6, %xmm7              # xmm7 = xmm6[0,1,2,3,7,4,5,6]
	pshufd	$238, %xmm7, %xmm7              # xmm7 = xmm7[2,3,2,3]
	punpcklqdq	%xmm4, %xmm7            # xmm7 = xmm7[0],xmm4[0]
	pshuflw	$147, %xmm6, %xmm4              # xmm4 = xmm6[3,0,1,2,4,5,6,7]
	pshufhw	$147, %xmm0, %xmm0              # xmm0 = xmm0[0,1,2,3,7,4,5,6]
	pshufd	$238, %xmm0, %xmm0              # xmm0 = xmm0[2,3,2,3]
	punpcklqdq	%xmm4, %xmm0            # xmm0 = xmm0[0],xmm4[0]
	packuswb	%xmm7, %xmm0
	movdqa	%xmm0, 16(%rsp)                 # 16-byte Spill
	movdqa	48(%rsp), %xmm6                 # 16-byte Reload
	movdqa	%xmm6, %xmm0
	punpcklbw	%xmm10, %xmm0           # xmm0 = xmm0[0],xmm10[0],xmm0[1],xmm10[1],xmm0[2],xmm10[2],xmm0[3],xmm10[3],xmm0[4],xmm10[4],xmm0[5],xmm10[5],xmm0[6],xmm10[6],xmm0[7],xmm10[7]
	pshuflw	$147, %xmm0, %xmm4              # xmm4 = xmm0[3,0,1,2,4,5,6,7]
	punpckhbw	%xmm10, %xmm6           # xmm6 = xmm6[8],xmm10[8],xmm6[9],xmm10[9],xmm6[10],xmm10[10],xmm6[11],xmm10[11],xmm6[12],xmm10[12],xmm6[13],xmm10[13],xmm6[14],xmm10[14],xmm6[15],xmm10[15]
	pshufhw	$147, %xmm6, %xmm7              # xmm7 = xmm6[0,1,2,3,7,4,5,6]
	pshufd	$238, %xmm7, %xmm11             # xmm11 = xmm7[2,3,2,3]
	punpcklqdq	%xmm4, %xmm11           # xmm11 = xmm11[0],xmm4[0]
	pshuflw	$147, %xmm6, %xmm4              # xmm4 = xmm6[3,0,1,2,4,5,6,7]
	pshufhw	$147, %xmm0, %xmm0              # xmm0 = xmm0[0,1,2,3,7,4,5,6]
	pshufd	$238, %xmm0, %xmm7              # xmm7 = xmm0[2,3,2,3]
	punpcklqdq	%xmm4, %xmm7            # xmm7 = xmm7[0],xmm4[0]
	packuswb	%xmm11, %xmm7
	movdqa	%xmm9, %xmm0
	punpcklbw	%xmm10, %xmm0           # xmm0 = xmm0[0],xmm10[0],xmm0[1],xmm10[1],xmm0[2],xmm10[2],xmm0[3],xmm10[3],xmm0[4],xmm10[4],xmm0[5],xmm10[5],xmm0[6],xmm10[6],xmm0[7],xmm10[7]
	pshuflw	$147, %xmm0, %xmm4              # xmm4 = xmm0[3,0,1,2,4,5,6,7]
	movdqa	%xmm9, %xmm6
	punpckhbw	%xmm10, %xmm6           # xmm6 = xmm6[8],xmm10[8],xmm6[9],xmm10[9],xmm6[10],xmm10[10],xmm6[11],xmm10[11],xmm6[12],xmm10[12],xmm6[13],xmm10[13],xmm6[14],xmm10[14],xmm6[15],xmm10[15]
	pshufhw	$147, %xmm6, %xmm11             # xmm11 = xmm6[0,1,2,3,7,4,5,6]
	pshufd	$238, %xmm11, %xmm11            # xmm11 = xmm11[2,3,2,3]
	punpcklqdq	%xmm4, %xmm11           # xmm11 = xmm11[0],xmm4[0]
	pshuflw	$147, %xmm6, %xmm4              # xmm4 = xmm6[3,0,1,2,4,5,6,7]
	pshufhw	$147, %xmm0, %xmm0              # xmm0 = xmm0[0,1,2,3,7,4,5,6]
	pshufd	$238, %xmm0, %xmm0              # xmm0 = xmm0[2,3,2,3]
	punpcklqdq	%xmm4, %xmm0            # xmm0 = xmm0[0],xmm4[0]
	packuswb	%xmm11, %xmm0
	movdqa	%xmm1, %xmm4
	punpcklbw	%xmm10, %xmm4           # xmm4 = xmm4[0],xmm10[0],xmm4[1],xmm10[1],xmm4[2],xmm10[2],xmm4[3],xmm10[3],xmm4[4],xmm10[4],xmm4[5],xmm10[5],xmm4[6],xmm10[6],xmm4[7],xmm10[7]
	pshuflw	$147, %xmm4, %xmm6              # xmm6 = xmm4[3,0,1,2,4,5,6,7]
	movdqa	%xmm1, %xmm11
	punpckhbw	%xmm10, %xmm11          # xmm11 = xmm11[8],xmm10[8],xmm11[9],xmm10[9],xmm11[10],xmm10[10],xmm11[11],xmm10[11],xmm11[12],xmm10[12],xmm11[13],xmm10[13],xmm11[14],xmm10[14],xmm11[15],xmm10[15]
	pshufhw	$147, %xmm11, %xmm12            # xmm12 = xmm11[0,1,2,3,7,4,5,6]
	pshufd	$238, %xmm12, %xmm13            # xmm13 = xmm12[2,3,2,3]
	punpcklqdq	%xmm6, %xmm13           # xmm13 = xmm13[0],xmm6[0]
	pshuflw	$147, %xmm11, %xmm6             # xmm6 = xmm11[3,0,1,2,4,5,6,7]
	pshufhw	$147, %xmm4, %xmm4              # xmm4 = xmm4[0,1,2,3,7,4,5,6]
	pshufd	$238, %xmm4, %xmm4              # xmm4 = xmm4[2,3,2,3]
	punpcklqdq	%xmm6, %xmm4            # xmm4 = xmm4[0],xmm6[0]
	packuswb	%xmm13, %xmm4
	movdqa	%xmm4, 32(%rsp)                 # 16-byte Spill
	movdqa	%xmm14, %xmm4
	punpcklbw	%xmm10, %xmm4           # xmm4 = xmm4[0],xmm10[0],xmm4[1],xmm10[1],xmm4[2],xmm10[2],xmm4[3],xmm10[3],xmm4[4],xmm10[4],xmm4[5],xmm10[5],xmm4[6],xmm10[6],xmm4[7],xmm10[7]
	pshuflw	$147, %xmm4, %xmm6              # xmm6 = xmm4[3,0,1,2,4,5,6,7]
	movdqa	%xmm14, %xmm11
	punpckhbw	%xmm10, %xmm11          # xmm11 = xmm11[8],xmm10[8],xmm11[9],xmm10[9],xmm11[10],xmm10[10],xmm11[11],xmm10[11],xmm11[12],xmm10[12],xmm11[13],xmm10[13],xmm11[14],xmm10[14],xmm11[15],xmm10[15]
	pshufhw	$147, %xmm11, %xmm13            # xmm13 = xmm11[0,1,2,3,7,4,5,6]
	pshufd	$238, %xmm13, %xmm13            # xmm13 = xmm13[2,3,2,3]
	punpcklqdq	%xmm6, %xmm13           # xmm13 = xmm13[0],xmm6[0]
	pshuflw	$147, %xmm11, %xmm6             # xmm6 = xmm11[3,0,1,2,4,5,6,7]
	pshufhw	$147, %xmm4, %xmm4              # xmm4 = xmm4[0,1,2,3,7,4,5,6]
	pshufd	$238, %xmm4, %xmm11             # xmm11 = xmm4[2,3,2,3]
	punpcklqdq	%xmm6, %xmm11           # xmm11 = xmm11[0],xmm6[0]
	packuswb	%xmm13, %xmm11
	movdqa	%xmm2, %xmm4
	punpcklbw	%xmm10, %xmm4           # xmm4 = xmm4[0],xmm10[0],xmm4[1],xmm10[1],xmm4[2],xmm10[2],xmm4[3],xmm10[3],xmm4[4],xmm10[4],xmm4[5],xmm10[5],xmm4[6],xmm10[6],xmm4[7],xmm10[7]
	movdqa	%xmm2, %xmm6
	punpckhbw	%xmm10, %xmm6           # xmm6 = xmm6[8],xmm10[8],xmm6[9],xmm10[9],xmm6[10],xmm10[10],xmm6[11],xmm10[11],xmm6[12],xmm10[12],xmm6[13],xmm10[13],xmm6[14],xmm10[14],xmm6[15],xmm10[15]
	pshufhw	$147, %xmm6, %xmm13             # xmm13 = xmm6[0,1,2,3,7,4,5,6]
	pshufd	$238, %xmm13, %xmm13            # xmm13 = xmm13[2,3,2,3]
	pshuflw	$147, %xmm4, %xmm15             # xmm15 = xmm4[3,0,1,2,4,5,6,7]
	punpcklqdq	%xmm15, %xmm13          # xmm13 = xmm13[0],xmm15[0]
	pshuflw	$147, %xmm6, %xmm6              # xmm6 = xmm6[3,0,1,2,4,5,6,7]
	pshufhw	$147, %xmm4, %xmm4              # xmm4 = xmm4[0,1,2,3,7,4,5,6]
	pshufd	$238, %xmm4, %xmm4              # xmm4 = xmm4[2,3,2,3]
	punpcklqdq	%xmm6, %xmm4            # xmm4 = xmm4[0],xmm6[0]
	packuswb	%xmm13, %xmm4
	movdqa	%xmm5, %xmm6
	punpcklbw	%xmm10, %xmm6           # xmm6 = xmm6[0],xmm10[0],xmm6[1],xmm10[1],xmm6[2],xmm10[2],xmm6[3],xmm10[3],xmm6[4],xmm10[4],xmm6[5],xmm10[5],xmm6[6],xmm10[6],xmm6[7],xmm10[7]
	movdqa	%xmm5, %xmm13
	punpckhbw	%xmm10, %xmm13          # xmm13 = xmm13[8],xmm10[8],xmm13[9],xmm10[9],xmm13[10],xmm10[10],xmm13[11],xmm10[11],xmm13[12],xmm10[12],xmm13[13],xmm10[13],xmm13[14],xmm10[14],xmm13[15],xmm10[15]
	pshufhw	$147, %xmm13, %xmm15            # xmm15 = xmm13[0,1,2,3,7,4,5,6]
	pshufd	$238, %xmm15, %xmm15            # xmm15 = xmm15[2,3,2,3]
	pshuflw	$147, %xmm6, %xmm12             # xmm12 = xmm6[3,0,1,2,4,5,6,7]
	punpcklqdq	%xmm12, %xmm15          # xmm15 = xmm15[0],xmm12[0]
	pshuflw	$147, %xmm13, %xmm12            # xmm12 = xmm13[3,0,1,2,4,5,6,7]
	pshufhw	$147, %xmm6, %xmm6              # xmm6 = xmm6[0,1,2,3,7,4,5,6]
	pshufd	$238, %xmm6, %xmm13             # xmm13 = xmm6[2,3,2,3]
	punpcklqdq	%xmm12, %xmm13          # xmm13 = xmm13[0],xmm12[0]
	packuswb	%xmm15, %xmm13
	movdqa	%xmm3, %xmm6
	punpcklbw	%xmm10, %xmm6           # xmm6 = xmm6[0],xmm10[0],xmm6[1],xmm10[1],xmm6[2],xmm10[2],xmm6[3],xmm10[3],xmm6[4],xmm10[4],xmm6[5],xmm10[5],xmm6[6],xmm10[6],xmm6[7],xmm10[7]
	movdqa	%xmm3, %xmm12
	punpckhbw	%xmm10, %xmm12          # xmm12 = xmm12[8],xmm10[8],xmm12[9],xmm10[9],xmm12[10],xmm10[10],xmm12[11],xmm10[11],xmm12[12],xmm10[12],xmm12[13],xmm10[13],xmm12[14],xmm10[14],xmm12[15],xmm10[15]
	pshufhw	$147, %xmm12, %xmm15            # xmm15 = xmm12[0,1,2,3,7,4,5,6]
	pshufd	$238, %xmm15, %xmm15            # xmm15 = xmm15[2,3,2,3]
	pshuflw	$147, %xmm6, %xmm10             # xmm10 = xmm6[3,0,1,2,4,5,6,7]
	punpcklqdq	%xmm10, %xmm15          # xmm15 = xmm15[0],xmm10[0]
	pshuflw	$147, %xmm12, %xmm10            # xmm10 = xmm12[3,0,1,2,4,5,6,7]
	pshufhw	$147, %xmm6, %xmm6              # xmm6 = xmm6[0,1,2,3,7,4,5,6]
	pshufd	$238, %xmm6, %xmm6              # xmm6 = xmm6[2,3,2,3]
	punpcklqdq	%xmm10, %xmm6           # xmm6 = xmm6[0],xmm10[0]
	packuswb	%xmm15, %xmm6
	movdqa	16(%rsp), %xmm15                # 16-byte Reload
	pxor	%xmm15, %xmm8
	pshufd	$78, %xmm8, %xmm10              # xmm10 = xmm8[2,3,0,1]
	pshuflw	$177, %xmm10, %xmm10            # xmm10 = xmm10[1,0,3,2,4,5,6,7]
	pshufhw	$177, %xmm10, %xmm10            # xmm10 = xmm10[0,1,2,3,5,4,7,6]
	pxor	384(%r12,%rax), %xmm10
	pxor	%xmm6, %xmm3
	pxor	%xmm3, %xmm15
	pxor	%xmm10, %xmm15
	movdqa	%xmm15, 16(%rsp)                # 16-byte Spill
	movdqa	48(%rsp), %xmm10                # 16-byte Reload
	pxor	%xmm7, %xmm10
	pxor	%xmm0, %xmm9
	pxor	32(%rsp), %xmm1                 # 16-byte Folded Reload
	pxor	%xmm11, %xmm14
	pxor	%xmm4, %xmm2
	pxor	%xmm13, %xmm5
	pxor	%xmm7, %xmm8
	pshufd	$78, %xmm10, %xmm7              # xmm7 = xmm10[2,3,0,1]
	movdqa	%xmm10, %xmm12
	pshuflw	$177, %xmm7, %xmm7              # xmm7 = xmm7[1,0,3,2,4,5,6,7]
	pshufhw	$177, %xmm7, %xmm7              # xmm7 = xmm7[0,1,2,3,5,4,7,6]
	pxor	400(%r12,%rax), %xmm7
	pxor	%xmm3, %xmm8
	pxor	%xmm7, %xmm8
	pshufd	$78, %xmm9, %xmm7               # xmm7 = xmm9[2,3,0,1]
	pshuflw	$177, %xmm7, %xmm7              # xmm7 = xmm7[1,0,3,2,4,5,6,7]
	pshufhw	$177, %xmm7, %xmm7              # xmm7 = xmm7[0,1,2,3,5,4,7,6]
	pxor	%xmm0, %xmm12
	pshufd	$78, %xmm1, %xmm0               # xmm0 = xmm1[2,3,0,1]
	pshuflw	$177, %xmm0, %xmm0              # xmm0 = xmm0[1,0,3,2,4,5,6,7]
	pshufhw	$177, %xmm0, %xmm0              # xmm0 = xmm0[0,1,2,3,5,4,7,6]
	pxor	416(%r12,%rax), %xmm7
	pxor	%xmm7, %xmm12
	pshufd	$78, %xmm14, %xmm7              # xmm7 = xmm14[2,3,0,1]
	pshuflw	$177, %xmm7, %xmm7              # xmm7 = xmm7[1,0,3,2,4,5,6,7]
	pshufhw	$177, %xmm7, %xmm7              # xmm7 = xmm7[0,1,2,3,5,4,7,6]
	pxor	%xmm3, %xmm11
	pxor	%xmm1, %xmm11
	pshufd	$78, %xmm2, %xmm1               # xmm1 = xmm2[2,3,0,1]
	pshuflw	$177, %xmm1, %xmm1              # xmm1 = xmm1[1,0,3,2,4,5,6,7]
	pxor	448(%r12,%rax), %xmm7
	pshufhw	$177, %xmm1, %xmm1              # xmm1 = xmm1[0,1,2,3,5,4,7,6]
	pxor	%xmm7, %xmm11
	pshufd	$78, %xmm5, %xmm7               # xmm7 = xmm5[2,3,0,1]
	pshuflw	$177, %xmm7, %xmm7              # xmm7 = xmm7[1,0,3,2,4,5,6,7]
	pshufhw	$177, %xmm7, %xmm7              # xmm7 = xmm7[0,1,2,3,5,4,7,6]
	pxor	%xmm13, %xmm2
	pshufd	$78, %xmm3, %xmm10              # xmm10 = xmm3[2,3,0,1]
	pshuflw	$177, %xmm10, %xmm10            # xmm10 = xmm10[1,0,3,2,4,5,6,7]
	pshufhw	$177, %xmm10, %xmm10            # xmm10 = xmm10[0,1,2,3,5,4,7,6]
	pxor	480(%r12,%rax), %xmm7
	pxor	%xmm7, %xmm2
	pxor	496(%r12,%rax), %xmm10
	pxor	%xmm6, %xmm5
	pxor	%xmm10, %xmm5
	pxor	464(%r12,%rax), %xmm1
	pxor	%xmm4, %xmm14
	pxor	%xmm1, %xmm14
	pxor	%xmm2, %xmm14
	movdqa	%xmm11, %xmm4
	pxor	%xmm5, %xmm4
	movdqa	%xmm14, %xmm6
	pxor	%xmm15, %xmm6
	movdqa	%xmm6, %xmm13
	pxor	%xmm11, %xmm13
	movdqa	%xmm13, (%rsp)                  # 16-byte Spill
	movdqa	%xmm6, %xmm1
	movdqa	%xmm6, %xmm7
	pxor	%xmm8, %xmm1
	movdqa	%xmm1, 96(%rsp)                 # 16-byte Spill
	pxor	%xmm5, %xmm8
	movdqa	%xmm5, %xmm10
	movdqa	%xmm5, 112(%rsp)                # 16-byte Spill
	movdqa	%xmm12, %xmm1
	pxor	%xmm12, %xmm11
	movdqa	%xmm11, %xmm6
	pxor	%xmm8, %xmm6
	pxor	432(%r12,%rax), %xmm0
	pxor	32(%rsp), %xmm3                 # 16-byte Folded Reload
	pxor	%xmm9, %xmm3
	pxor	%xmm0, %xmm3
	pxor	%xmm6, %xmm3
	movdqa	%xmm6, %xmm0
	movdqa	%xmm6, 160(%rsp)                # 16-byte Spill
	movdqa	%xmm3, %xmm5
	pxor	%xmm12, %xmm5
	pxor	%xmm2, %xmm3
	pxor	%xmm10, %xmm1
	movdqa	%xmm1, %xmm6
	movdqa	%xmm5, %xmm9
	pand	%xmm0, %xmm9
	movdqa	%xmm5, %xmm0
	pxor	%xmm14, %xmm0
	movdqa	%xmm0, 144(%rsp)                # 16-byte Spill
	movdqa	%xmm0, %xmm1
	pxor	%xmm9, %xmm1
	pxor	%xmm3, %xmm9
	movdqa	%xmm4, 64(%rsp)                 # 16-byte Spill
	pxor	%xmm4, %xmm3
	movdqa	%xmm3, %xmm2
	pand	%xmm4, %xmm2
	movdqa	%xmm3, %xmm4
	movdqa	%xmm3, %xmm15
	pxor	%xmm0, %xmm4
	movdqa	%xmm4, 128(%rsp)                # 16-byte Spill
	movdqa	%xmm4, %xmm3
	pand	%xmm11, %xmm3
	movdqa	%xmm6, 48(%rsp)                 # 16-byte Spill
	pand	%xmm6, %xmm0
	pxor	%xmm2, %xmm3
	pxor	%xmm2, %xmm0
	movdqa	16(%rsp), %xmm10                # 16-byte Reload
	pand	%xmm10, %xmm13
	pxor	%xmm6, %xmm13
	pxor	%xmm13, %xmm1
	movdqa	%xmm5, %xmm2
	pxor	%xmm10, %xmm2
	movdqa	96(%rsp), %xmm12                # 16-byte Reload
	movdqa	%xmm12, %xmm13
	pxor	%xmm6, %xmm13
	movdqa	%xmm13, 80(%rsp)                # 16-byte Spill
	movdqa	%xmm2, %xmm4
	pand	%xmm13, %xmm4
	pxor	%xmm4, %xmm9
	movdqa	%xmm15, %xmm4
	movdqa	%xmm15, 32(%rsp)                # 16-byte Spill
	pxor	%xmm15, %xmm14
	movdqa	%xmm12, %xmm6
	movdqa	%xmm5, %xmm12
	movdqa	%xmm7, %xmm13
	pand	%xmm7, %xmm6
	movdqa	%xmm14, %xmm15
	pand	%xmm8, %xmm15
	pxor	%xmm3, %xmm9
	pxor	%xmm14, %xmm6
	pxor	%xmm15, %xmm6
	pxor	%xmm8, %xmm6
	pxor	%xmm3, %xmm6
	movdqa	112(%rsp), %xmm3                # 16-byte Reload
	pxor	%xmm3, %xmm7
	pxor	%xmm3, %xmm15
	movdqa	%xmm4, %xmm3
	pxor	%xmm10, %xmm3
	movdqa	%xmm3, 112(%rsp)                # 16-byte Spill
	pand	%xmm7, %xmm3
	pxor	%xmm14, %xmm3
	pxor	%xmm3, %xmm15
	pxor	%xmm0, %xmm1
	pxor	%xmm0, %xmm15
	movdqa	%xmm6, %xmm5
	pand	%xmm9, %xmm5
	movdqa	%xmm5, %xmm0
	pxor	%xmm1, %xmm0
	movdqa	%xmm15, %xmm3
	pxor	%xmm6, %xmm3
	pand	%xmm0, %xmm3
	pxor	%xmm1, %xmm9
	movdqa	%xmm3, %xmm4
	pxor	%xmm5, %xmm3
	pxor	%xmm15, %xmm5
	movdqa	%xmm5, %xmm0
	pand	%xmm9, %xmm0
	pxor	%xmm1, %xmm0
	pxor	%xmm15, %xmm4
	pand	%xmm15, %xmm3
	pxor	%xmm3, %xmm5
	pand	%xmm0, %xmm5
	pxor	%xmm9, %xmm5
	pxor	%xmm6, %xmm3
	movdqa	(%rsp), %xmm1                   # 16-byte Reload
	pand	%xmm4, %xmm1
	movdqa	%xmm1, (%rsp)                   # 16-byte Spill
	movdqa	%xmm3, %xmm9
	pxor	%xmm4, %xmm9
	movdqa	%xmm0, %xmm15
	pxor	%xmm4, %xmm15
	pand	%xmm10, %xmm4
	movdqa	%xmm5, %xmm10
	pxor	%xmm9, %xmm10
	movdqa	32(%rsp), %xmm1                 # 16-byte Reload
	pand	%xmm15, %xmm1
	movdqa	%xmm1, 32(%rsp)                 # 16-byte Spill
	movdqa	%xmm10, %xmm1
	pxor	%xmm15, %xmm1
	pand	64(%rsp), %xmm15                # 16-byte Folded Reload
	movdqa	%xmm5, %xmm6
	pxor	%xmm0, %xmm6
	pand	%xmm6, %xmm14
	pand	%xmm8, %xmm6
	pand	%xmm5, %xmm13
	pand	96(%rsp), %xmm5                 # 16-byte Folded Reload
	pand	%xmm9, %xmm2
	pand	80(%rsp), %xmm9                 # 16-byte Folded Reload
	pand	%xmm1, %xmm11
	pand	128(%rsp), %xmm1                # 16-byte Folded Reload
	pand	%xmm0, %xmm7
	pand	112(%rsp), %xmm0                # 16-byte Folded Reload
	pand	%xmm3, %xmm12
	pand	160(%rsp), %xmm3                # 16-byte Folded Reload
	pxor	%xmm12, %xmm2
	pxor	%xmm4, %xmm12
	pxor	%xmm14, %xmm13
	pxor	%xmm12, %xmm0
	pxor	%xmm14, %xmm0
	pxor	%xmm15, %xmm11
	pxor	%xmm11, %xmm9
	pxor	%xmm0, %xmm5
	pxor	%xmm11, %xmm5
	pxor	%xmm13, %xmm1
	pxor	%xmm13, %xmm2
	movdqa	144(%rsp), %xmm4                # 16-byte Reload
	pand	%xmm10, %xmm4
	pxor	%xmm4, %xmm12
	pxor	%xmm6, %xmm12
	pxor	%xmm1, %xmm12
	pxor	32(%rsp), %xmm1                 # 16-byte Folded Reload
	pxor	%xmm12, %xmm7
	pxor	%xmm5, %xmm12
	pxor	%xmm6, %xmm5
	pxor	%xmm9, %xmm3
	pxor	%xmm3, %xmm2
	pxor	(%rsp), %xmm9                   # 16-byte Folded Reload
	movdqa	%xmm2, %xmm13
	pxor	%xmm1, %xmm13
	pxor	%xmm2, %xmm0
	pand	48(%rsp), %xmm10                # 16-byte Folded Reload
	pxor	%xmm7, %xmm9
	pxor	%xmm1, %xmm3
	pxor	%xmm15, %xmm10
	pxor	%xmm1, %xmm10
	pxor	%xmm7, %xmm10
	pshufd	$57, %xmm5, %xmm7               # xmm7 = xmm5[1,2,3,0]
	pshufd	$57, %xmm12, %xmm4              # xmm4 = xmm12[1,2,3,0]
	pshufd	$57, %xmm3, %xmm1               # xmm1 = xmm3[1,2,3,0]
	pxor	%xmm7, %xmm5
	pxor	%xmm1, %xmm3
	pshufd	$78, %xmm5, %xmm6               # xmm6 = xmm5[2,3,0,1]
	pxor	512(%r12,%rax), %xmm6
	pxor	%xmm3, %xmm7
	pxor	%xmm6, %xmm7
	pshufd	$57, %xmm9, %xmm6               # xmm6 = xmm9[1,2,3,0]
	pxor	%xmm4, %xmm12
	pxor	%xmm4, %xmm5
	pshufd	$78, %xmm12, %xmm4              # xmm4 = xmm12[2,3,0,1]
	pxor	528(%r12,%rax), %xmm4
	pxor	%xmm3, %xmm5
	pxor	%xmm4, %xmm5
	pshufd	$57, %xmm0, %xmm4               # xmm4 = xmm0[1,2,3,0]
	pxor	%xmm6, %xmm9
	pxor	%xmm6, %xmm12
	pshufd	$78, %xmm9, %xmm6               # xmm6 = xmm9[2,3,0,1]
	pxor	544(%r12,%rax), %xmm6
	pxor	%xmm6, %xmm12
	pshufd	$57, %xmm2, %xmm6               # xmm6 = xmm2[1,2,3,0]
	pxor	%xmm4, %xmm0
	pxor	%xmm6, %xmm2
	pxor	%xmm3, %xmm9
	pxor	%xmm4, %xmm9
	pshufd	$78, %xmm0, %xmm4               # xmm4 = xmm0[2,3,0,1]
	pxor	560(%r12,%rax), %xmm4
	pxor	%xmm4, %xmm9
	pshufd	$78, %xmm3, %xmm4               # xmm4 = xmm3[2,3,0,1]
	pxor	%xmm6, %xmm3
	pshufd	$57, %xmm10, %xmm6              # xmm6 = xmm10[1,2,3,0]
	pxor	%xmm0, %xmm3
	pshufd	$78, %xmm2, %xmm0               # xmm0 = xmm2[2,3,0,1]
	pxor	576(%r12,%rax), %xmm0
	pxor	%xmm0, %xmm3
	pshufd	$57, %xmm13, %xmm0              # xmm0 = xmm13[1,2,3,0]
	pxor	%xmm6, %xmm10
	pxor	%xmm0, %xmm13
	pxor	%xmm6, %xmm2
	pshufd	$78, %xmm10, %xmm6              # xmm6 = xmm10[2,3,0,1]
	pxor	592(%r12,%rax), %xmm6
	pxor	%xmm6, %xmm2
	pshufd	$78, %xmm13, %xmm6              # xmm6 = xmm13[2,3,0,1]
	pxor	608(%r12,%rax), %xmm6
	pxor	%xmm0, %xmm10
	pxor	%xmm6, %xmm10
	pxor	624(%r12,%rax), %xmm4
	pxor	%xmm1, %xmm13
	pxor	%xmm4, %xmm13
	addq	$512, %rax                      # imm = 0x200
	cmpq	%rax, %rsi
	jne	LBB6_2
# %bb.3:                                # %after.3.i
                                        #   in Loop: Header=BB6_1 Depth=1
	pxor	%xmm10, %xmm2
	movdqa	%xmm3, %xmm1
	pxor	%xmm13, %xmm1
	movdqa	%xmm2, %xmm15
	pxor	%xmm7, %xmm15
	movdqa	%xmm15, %xmm0
	pxor	%xmm3, %xmm0
	movdqa	%xmm0, 48(%rsp)                 # 16-byte Spill
	movdqa	%xmm15, %xmm0
	pxor	%xmm5, %xmm0
	movdqa	%xmm0, 96(%rsp)                 # 16-byte Spill
	pxor	%xmm13, %xmm5
	pxor	%xmm12, %xmm3
	movdqa	%xmm3, %xmm11
	pxor	%xmm5, %xmm11
	pxor	%xmm11, %xmm9
	movdqa	%xmm11, 128(%rsp)               # 16-byte Spill
	movdqa	%xmm9, %xmm6
	pxor	%xmm12, %xmm6
	pxor	%xmm10, %xmm9
	pxor	%xmm13, %xmm12
	movdqa	%xmm9, %xmm14
	movdqa	%xmm1, 80(%rsp)                 # 16-byte Spill
	pxor	%xmm1, %xmm14
	movdqa	%xmm14, %xmm0
	movdqa	%xmm14, (%rsp)                  # 16-byte Spill
	pand	%xmm1, %xmm0
	movdqa	%xmm6, %xmm1
	pxor	%xmm2, %xmm1
	pxor	%xmm1, %xmm14
	movdqa	%xmm14, 144(%rsp)               # 16-byte Spill
	pand	%xmm3, %xmm14
	movdqa	%xmm1, %xmm8
	movdqa	%xmm1, 160(%rsp)                # 16-byte Spill
	pand	%xmm12, %xmm8
	pxor	%xmm0, %xmm14
	pxor	%xmm0, %xmm8
	movdqa	48(%rsp), %xmm0                 # 16-byte Reload
	pand	%xmm7, %xmm0
	movdqa	%xmm6, %xmm4
	movdqa	%xmm6, 32(%rsp)                 # 16-byte Spill
	pand	%xmm11, %xmm4
	pxor	%xmm12, %xmm0
	movdqa	%xmm1, %xmm10
	pxor	%xmm4, %xmm10
	pxor	%xmm0, %xmm10
	pxor	%xmm9, %xmm4
	movdqa	%xmm6, %xmm0
	pxor	%xmm7, %xmm0
	movdqa	%xmm0, 16(%rsp)                 # 16-byte Spill
	movdqa	96(%rsp), %xmm1                 # 16-byte Reload
	movdqa	%xmm1, %xmm6
	pxor	%xmm12, %xmm6
	movdqa	%xmm6, 64(%rsp)                 # 16-byte Spill
	pand	%xmm6, %xmm0
	pxor	%xmm0, %xmm4
	movdqa	(%rsp), %xmm6                   # 16-byte Reload
	pxor	%xmm6, %xmm2
	pand	%xmm15, %xmm1
	movdqa	%xmm2, %xmm0
	pand	%xmm5, %xmm0
	pxor	%xmm14, %xmm4
	pxor	%xmm2, %xmm1
	pxor	%xmm0, %xmm1
	pxor	%xmm5, %xmm1
	pxor	%xmm14, %xmm1
	movdqa	%xmm15, %xmm14
	pxor	%xmm13, %xmm14
	pxor	%xmm13, %xmm0
	pxor	%xmm7, %xmm6
	movdqa	%xmm6, 112(%rsp)                # 16-byte Spill
	movdqa	%xmm7, %xmm11
	movdqa	%xmm6, %xmm7
	pand	%xmm14, %xmm7
	pxor	%xmm2, %xmm7
	pxor	%xmm7, %xmm0
	pxor	%xmm8, %xmm10
	pxor	%xmm8, %xmm0
	movdqa	%xmm1, %xmm7
	pand	%xmm4, %xmm7
	movdqa	%xmm7, %xmm6
	pxor	%xmm10, %xmm6
	movdqa	%xmm0, %xmm8
	pxor	%xmm1, %xmm8
	pand	%xmm6, %xmm8
	pxor	%xmm10, %xmm4
	movdqa	%xmm8, %xmm9
	pxor	%xmm7, %xmm8
	pxor	%xmm0, %xmm7
	movdqa	%xmm7, %xmm6
	pand	%xmm4, %xmm6
	pxor	%xmm10, %xmm6
	pxor	%xmm0, %xmm9
	pand	%xmm0, %xmm8
	pxor	%xmm8, %xmm7
	pand	%xmm6, %xmm7
	pxor	%xmm4, %xmm7
	movdqa	%xmm7, %xmm10
	pxor	%xmm1, %xmm8
	movdqa	48(%rsp), %xmm0                 # 16-byte Reload
	pand	%xmm9, %xmm0
	movdqa	%xmm0, 48(%rsp)                 # 16-byte Spill
	movdqa	%xmm8, %xmm4
	pxor	%xmm9, %xmm4
	movdqa	%xmm6, %xmm7
	pxor	%xmm9, %xmm7
	pand	%xmm11, %xmm9
	movdqa	%xmm10, %xmm11
	pxor	%xmm4, %xmm11
	movdqa	(%rsp), %xmm0                   # 16-byte Reload
	pand	%xmm7, %xmm0
	movdqa	%xmm0, (%rsp)                   # 16-byte Spill
	movdqa	%xmm11, %xmm13
	pxor	%xmm7, %xmm13
	pand	80(%rsp), %xmm7                 # 16-byte Folded Reload
	movdqa	%xmm10, %xmm0
	pxor	%xmm6, %xmm0
	pand	%xmm0, %xmm2
	pand	%xmm5, %xmm0
	pand	%xmm10, %xmm15
	pand	96(%rsp), %xmm10                # 16-byte Folded Reload
	movdqa	16(%rsp), %xmm5                 # 16-byte Reload
	pand	%xmm4, %xmm5
	pand	64(%rsp), %xmm4                 # 16-byte Folded Reload
	pand	%xmm13, %xmm3
	pand	144(%rsp), %xmm13               # 16-byte Folded Reload
	pand	%xmm6, %xmm14
	pand	112(%rsp), %xmm6                # 16-byte Folded Reload
	movdqa	32(%rsp), %xmm1                 # 16-byte Reload
	pand	%xmm8, %xmm1
	pand	128(%rsp), %xmm8                # 16-byte Folded Reload
	pxor	%xmm1, %xmm5
	pxor	%xmm9, %xmm1
	pxor	%xmm2, %xmm15
	pxor	%xmm1, %xmm6
	pxor	%xmm2, %xmm6
	pxor	%xmm7, %xmm3
	pxor	%xmm3, %xmm4
	pxor	%xmm6, %xmm10
	pxor	%xmm3, %xmm10
	pxor	%xmm15, %xmm13
	pxor	%xmm15, %xmm5
	movdqa	160(%rsp), %xmm2                # 16-byte Reload
	pand	%xmm11, %xmm2
	pxor	%xmm2, %xmm1
	pxor	%xmm0, %xmm1
	pxor	%xmm13, %xmm1
	pxor	(%rsp), %xmm13                  # 16-byte Folded Reload
	pxor	%xmm1, %xmm14
	pxor	%xmm10, %xmm1
	pxor	%xmm0, %xmm10
	pxor	%xmm4, %xmm8
	pxor	48(%rsp), %xmm4                 # 16-byte Folded Reload
	pand	%xmm12, %xmm11
	movdqa	%xmm5, %xmm0
	pxor	%xmm8, %xmm0
	pxor	%xmm7, %xmm11
	movdqa	%xmm0, %xmm2
	pxor	%xmm13, %xmm2
	pxor	%xmm13, %xmm8
	pxor	%xmm13, %xmm11
	pxor	%xmm0, %xmm6
	movdqa	%xmm0, %xmm3
	pxor	%xmm14, %xmm4
	pxor	%xmm14, %xmm11
	movdqa	%xmm10, 224(%rsp)               # 16-byte Spill
	pshufd	$238, %xmm10, %xmm0             # xmm0 = xmm10[2,3,2,3]
	movq	%xmm0, %rsi
	movdqa	%xmm1, 32(%rsp)                 # 16-byte Spill
	pshufd	$238, %xmm1, %xmm0              # xmm0 = xmm1[2,3,2,3]
	movq	%xmm0, %rbx
	pshufd	$238, %xmm4, %xmm0              # xmm0 = xmm4[2,3,2,3]
	movdqa	%xmm4, 320(%rsp)                # 16-byte Spill
	movq	%xmm0, 144(%rsp)                # 8-byte Folded Spill
	pshufd	$238, %xmm6, %xmm0              # xmm0 = xmm6[2,3,2,3]
	movdqa	%xmm6, 336(%rsp)                # 16-byte Spill
	movq	%xmm0, 80(%rsp)                 # 8-byte Folded Spill
	movdqa	%xmm3, 16(%rsp)                 # 16-byte Spill
	pshufd	$238, %xmm3, %xmm0              # xmm0 = xmm3[2,3,2,3]
	movq	%xmm0, %rbp
	movdqa	%xmm11, 352(%rsp)               # 16-byte Spill
	pshufd	$238, %xmm11, %xmm0             # xmm0 = xmm11[2,3,2,3]
	movq	%xmm0, 192(%rsp)                # 8-byte Folded Spill
	movdqa	%xmm2, 368(%rsp)                # 16-byte Spill
	pshufd	$238, %xmm2, %xmm0              # xmm0 = xmm2[2,3,2,3]
	movq	%xmm0, 288(%rsp)                # 8-byte Folded Spill
	movdqa	%xmm8, 272(%rsp)                # 16-byte Spill
	pshufd	$238, %xmm8, %xmm0              # xmm0 = xmm8[2,3,2,3]
	movq	%xmm0, 304(%rsp)                # 8-byte Folded Spill
	movq	%xmm10, %rdi
	movq	%xmm1, %r15
	movq	%xmm4, %r13
	movq	%xmm6, %r14
	movq	%xmm3, 112(%rsp)                # 8-byte Folded Spill
	movq	%xmm11, 216(%rsp)               # 8-byte Folded Spill
	movq	%xmm2, 200(%rsp)                # 8-byte Folded Spill
	movq	%xmm8, 184(%rsp)                # 8-byte Folded Spill
	movl	$1, %edx
	movl	$1, %ecx
	callq	"aes_planes::soft::word::word128::U128Word::rotate_rows_and_columns"
	movq	%rax, 48(%rsp)                  # 8-byte Spill
	movq	%rdx, (%rsp)                    # 8-byte Spill
	movq	%r15, %rdi
	movq	%rbx, %rsi
	movl	$1, %edx
	movl	$1, %ecx
	callq	"aes_planes::soft::word::word128::U128Word::rotate_rows_and_columns"
	movq	%rax, 96(%rsp)                  # 8-byte Spill
	movq	%rdx, 160(%rsp)                 # 8-byte Spill
	movq	%r13, %rdi
	movq	144(%rsp), %rsi                 # 8-byte Reload
	movl	$1, %edx
	movl	$1, %ecx
	callq	"aes_planes::soft::word::word128::U128Word::rotate_rows_and_columns"
	movq	%rax, 144(%rsp)                 # 8-byte Spill
	movq	%rdx, 128(%rsp)                 # 8-byte Spill
	movq	%r14, %rdi
	movq	80(%rsp), %rsi                  # 8-byte Reload
	movl	$1, %edx
	movl	$1, %ecx
	callq	"aes_planes::soft::word::word128::U128Word::rotate_rows_and_columns"
	movq	%rax, 80(%rsp)                  # 8-byte Spill
	movq	%rdx, 64(%rsp)                  # 8-byte Spill
	movq	112(%rsp), %rdi                 # 8-byte Reload
	movq	%rbp, %rsi
	movl	$1, %edx
	movl	$1, %ecx
	callq	"aes_planes::soft::word::word128::U128Word::rotate_rows_and_columns"
	movq	%rax, 112(%rsp)                 # 8-byte Spill
	movq	%rdx, %rbp
	movq	%rdx, 208(%rsp)                 # 8-byte Spill
	movq	216(%rsp), %rdi                 # 8-byte Reload
	movq	192(%rsp), %rsi                 # 8-byte Reload
	movl	$1, %edx
	movl	$1, %ecx
	callq	"aes_planes::soft::word::word128::U128Word::rotate_rows_and_columns"
	movq	%rax, %r13
	movq	%rax, 216(%rsp)                 # 8-byte Spill
	movq	%rdx, %rbx
	movq	%rdx, 192(%rsp)                 # 8-byte Spill
	movq	200(%rsp), %rdi                 # 8-byte Reload
	movq	288(%rsp), %rsi                 # 8-byte Reload
	movl	$1, %edx
	movl	$1, %ecx
	callq	"aes_planes::soft::word::word128::U128Word::rotate_rows_and_columns"
	movq	%rax, %r15
	movq	%rax, 264(%rsp)                 # 8-byte Spill
	movq	%rdx, %r14
	movq	%rdx, 200(%rsp)                 # 8-byte Spill
	movq	184(%rsp), %rdi                 # 8-byte Reload
	movq	304(%rsp), %rsi                 # 8-byte Reload
	movl	$1, %edx
	movl	$1, %ecx
	callq	"aes_planes::soft::word::word128::U128Word::rotate_rows_and_columns"
	movq	%rax, 384(%rsp)                 # 8-byte Spill
	movq	%rdx, 184(%rsp)                 # 8-byte Spill
	movq	(%rsp), %xmm0                   # 8-byte Folded Reload
                                        # xmm0 = mem[0],zero
	movq	48(%rsp), %xmm1                 # 8-byte Folded Reload
                                        # xmm1 = mem[0],zero
	punpcklqdq	%xmm0, %xmm1            # xmm1 = xmm1[0],xmm0[0]
	movdqa	%xmm1, %xmm5
	movq	160(%rsp), %xmm0                # 8-byte Folded Reload
                                        # xmm0 = mem[0],zero
	movq	96(%rsp), %xmm1                 # 8-byte Folded Reload
                                        # xmm1 = mem[0],zero
	punpcklqdq	%xmm0, %xmm1            # xmm1 = xmm1[0],xmm0[0]
	movdqa	%xmm1, %xmm6
	movq	128(%rsp), %xmm0                # 8-byte Folded Reload
                                        # xmm0 = mem[0],zero
	movq	144(%rsp), %xmm1                # 8-byte Folded Reload
                                        # xmm1 = mem[0],zero
	punpcklqdq	%xmm0, %xmm1            # xmm1 = xmm1[0],xmm0[0]
	movdqa	%xmm1, %xmm7
	movq	64(%rsp), %xmm0                 # 8-byte Folded Reload
                                        # xmm0 = mem[0],zero
	movq	80(%rsp), %xmm1                 # 8-byte Folded Reload
                                        # xmm1 = mem[0],zero
	punpcklqdq	%xmm0, %xmm1            # xmm1 = xmm1[0],xmm0[0]
	movdqa	%xmm1, %xmm4
	movq	%rbp, %xmm0
	movq	112(%rsp), %xmm1                # 8-byte Folded Reload
                                        # xmm1 = mem[0],zero
	punpcklqdq	%xmm0, %xmm1            # xmm1 = xmm1[0],xmm0[0]
	movdqa	%xmm1, %xmm2
	movq	%rbx, %xmm0
	movq	%r13, %xmm1
	punpcklqdq	%xmm0, %xmm1            # xmm1 = xmm1[0],xmm0[0]
	movdqa	%xmm1, %xmm3
	movq	%r14, %xmm0
	movq	%r15, %xmm1
	punpcklqdq	%xmm0, %xmm1            # xmm1 = xmm1[0],xmm0[0]
	movq	%rdx, %xmm0
	movq	%rax, %xmm8
	punpcklqdq	%xmm0, %xmm8            # xmm8 = xmm8[0],xmm0[0]
	pxor	224(%rsp), %xmm5                # 16-byte Folded Reload
	pxor	32(%rsp), %xmm6                 # 16-byte Folded Reload
	pxor	320(%rsp), %xmm7                # 16-byte Folded Reload
	pxor	336(%rsp), %xmm4                # 16-byte Folded Reload
	pxor	16(%rsp), %xmm2                 # 16-byte Folded Reload
	pxor	352(%rsp), %xmm3                # 16-byte Folded Reload
	pxor	368(%rsp), %xmm1                # 16-byte Folded Reload
	pxor	272(%rsp), %xmm8                # 16-byte Folded Reload
	movdqa	%xmm8, 32(%rsp)                 # 16-byte Spill
	pshufd	$238, %xmm6, %xmm0              # xmm0 = xmm6[2,3,2,3]
	movdqa	%xmm6, 304(%rsp)                # 16-byte Spill
	movq	%xmm0, %rbx
	pshufd	$238, %xmm2, %xmm0              # xmm0 = xmm2[2,3,2,3]
	movdqa	%xmm2, 336(%rsp)                # 16-byte Spill
	movq	%xmm0, 256(%rsp)                # 8-byte Folded Spill
	pshufd	$238, %xmm3, %xmm0              # xmm0 = xmm3[2,3,2,3]
	movdqa	%xmm3, 352(%rsp)                # 16-byte Spill
	movq	%xmm0, 464(%rsp)                # 8-byte Folded Spill
	movdqa	%xmm1, 16(%rsp)                 # 16-byte Spill
	pshufd	$238, %xmm1, %xmm0              # xmm0 = xmm1[2,3,2,3]
	movq	%xmm0, 368(%rsp)                # 8-byte Folded Spill
	pshufd	$238, %xmm8, %xmm0              # xmm0 = xmm8[2,3,2,3]
	movq	%xmm0, 272(%rsp)                # 8-byte Folded Spill
	movdqa	%xmm5, 224(%rsp)                # 16-byte Spill
	pshufd	$238, %xmm5, %xmm0              # xmm0 = xmm5[2,3,2,3]
	movq	%xmm0, %rsi
	movdqa	%xmm7, 288(%rsp)                # 16-byte Spill
	pshufd	$238, %xmm7, %xmm0              # xmm0 = xmm7[2,3,2,3]
	movq	%xmm0, %rbp
	movdqa	%xmm4, 320(%rsp)                # 16-byte Spill
	pshufd	$238, %xmm4, %xmm0              # xmm0 = xmm4[2,3,2,3]
	movq	%xmm0, 480(%rsp)                # 8-byte Folded Spill
	movq	%xmm6, %r14
	movq	%xmm2, 248(%rsp)                # 8-byte Folded Spill
	movq	%xmm3, 400(%rsp)                # 8-byte Folded Spill
	movq	%xmm1, 416(%rsp)                # 8-byte Folded Spill
	movq	%xmm8, 456(%rsp)                # 8-byte Folded Spill
	movq	%xmm5, %rdi
	movq	%xmm7, %r15
	movq	%xmm4, %r13
	movl	$2, %edx
	movl	$2, %ecx
	callq	"aes_planes::soft::word::word128::U128Word::rotate_rows_and_columns"
	movq	%rax, 440(%rsp)                 # 8-byte Spill
	movq	%rdx, 448(%rsp)                 # 8-byte Spill
	movq	%r14, %rdi
	movq	%rbx, %rsi
	movl	$2, %edx
	movl	$2, %ecx
	callq	"aes_planes::soft::word::word128::U128Word::rotate_rows_and_columns"
	movq	%rax, 472(%rsp)                 # 8-byte Spill
	movq	%rdx, 424(%rsp)                 # 8-byte Spill
	movq	%r15, %rdi
	movq	%rbp, %rsi
	movl	$2, %edx
	movl	$2, %ecx
	callq	"aes_planes::soft::word::word128::U128Word::rotate_rows_and_columns"
	movq	%rax, %rbx
	movq	%rdx, 408(%rsp)                 # 8-byte Spill
	movq	%r13, %rdi
	movq	480(%rsp), %rsi                 # 8-byte Reload
	movl	$2, %edx
	movl	$2, %ecx
	callq	"aes_planes::soft::word::word128::U128Word::rotate_rows_and_columns"
	movq	%rax, 432(%rsp)                 # 8-byte Spill
	movq	%rdx, 480(%rsp)                 # 8-byte Spill
	movq	248(%rsp), %rdi                 # 8-byte Reload
	movq	256(%rsp), %rsi                 # 8-byte Reload
	movl	$2, %edx
	movl	$2, %ecx
	callq	"aes_planes::soft::word::word128::U128Word::rotate_rows_and_columns"
	movq	%rax, 248(%rsp)                 # 8-byte Spill
	movq	%rdx, 256(%rsp)                 # 8-byte Spill
	movq	400(%rsp), %rdi                 # 8-byte Reload
	movq	464(%rsp), %rsi                 # 8-byte Reload
	movl	$2, %edx
	movl	$2, %ecx
	callq	"aes_planes::soft::word::word128::U128Word::rotate_rows_and_columns"
	movq	%rax, %r14
	movq	%rdx, %r15
	movq	416(%rsp), %rdi                 # 8-byte Reload
	movq	368(%rsp), %rsi                 # 8-byte Reload
	movl	$2, %edx
	movl	$2, %ecx
	callq	"aes_planes::soft::word::word128::U128Word::rotate_rows_and_columns"
	movq	%rax, %r13
	movq	%rdx, %rbp
	movq	456(%rsp), %rdi                 # 8-byte Reload
	movq	272(%rsp), %rsi                 # 8-byte Reload
	movl	$2, %edx
	movl	$2, %ecx
	callq	"aes_planes::soft::word::word128::U128Word::rotate_rows_and_columns"
	movq	%rax, %r8
	movq	440(%rsp), %r11                 # 8-byte Reload
	xorq	48(%rsp), %r11                  # 8-byte Folded Reload
	movq	448(%rsp), %rax                 # 8-byte Reload
	xorq	(%rsp), %rax                    # 8-byte Folded Reload
	xorq	144(%rsp), %rbx                 # 8-byte Folded Reload
	movq	%rbx, 48(%rsp)                  # 8-byte Spill
	movq	408(%rsp), %rcx                 # 8-byte Reload
	xorq	128(%rsp), %rcx                 # 8-byte Folded Reload
	xorq	216(%rsp), %r14                 # 8-byte Folded Reload
	movq	%r14, (%rsp)                    # 8-byte Spill
	xorq	192(%rsp), %r15                 # 8-byte Folded Reload
	xorq	264(%rsp), %r13                 # 8-byte Folded Reload
	xorq	200(%rsp), %rbp                 # 8-byte Folded Reload
	xorq	384(%rsp), %r8                  # 8-byte Folded Reload
	xorq	184(%rsp), %rdx                 # 8-byte Folded Reload
	movq	472(%rsp), %rsi                 # 8-byte Reload
	xorq	96(%rsp), %rsi                  # 8-byte Folded Reload
	movq	424(%rsp), %r9                  # 8-byte Reload
	xorq	160(%rsp), %r9                  # 8-byte Folded Reload
	movq	432(%rsp), %rdi                 # 8-byte Reload
	xorq	80(%rsp), %rdi                  # 8-byte Folded Reload
	movq	480(%rsp), %r10                 # 8-byte Reload
	xorq	64(%rsp), %r10                  # 8-byte Folded Reload
	movq	248(%rsp), %r14                 # 8-byte Reload
	xorq	112(%rsp), %r14                 # 8-byte Folded Reload
	movq	256(%rsp), %rbx                 # 8-byte Reload
	xorq	208(%rsp), %rbx                 # 8-byte Folded Reload
	movq	%rax, %xmm3
	movq	%r11, %xmm0
	movq	%rcx, %xmm4
	movq	48(%rsp), %xmm12                # 8-byte Folded Reload
                                        # xmm12 = mem[0],zero
	movq	%r15, %xmm2
	movq	(%rsp), %xmm5                   # 8-byte Folded Reload
                                        # xmm5 = mem[0],zero
	movq	%rbp, %xmm7
	movq	%r13, %xmm6
	movq	%rdx, %xmm1
	movq	%r8, %xmm14
	movq	%r9, %xmm8
	punpcklqdq	%xmm3, %xmm0            # xmm0 = xmm0[0],xmm3[0]
	movq	%rsi, %xmm3
	punpcklqdq	%xmm4, %xmm12           # xmm12 = xmm12[0],xmm4[0]
	movq	%r10, %xmm4
	punpcklqdq	%xmm2, %xmm5            # xmm5 = xmm5[0],xmm2[0]
	movq	%rdi, %xmm2
	punpcklqdq	%xmm7, %xmm6            # xmm6 = xmm6[0],xmm7[0]
	movq	%rbx, %xmm7
	punpcklqdq	%xmm1, %xmm14           # xmm14 = xmm14[0],xmm1[0]
	movq	%r14, %xmm1
	punpcklqdq	%xmm8, %xmm3            # xmm3 = xmm3[0],xmm8[0]
	movq	528(%rsp), %rax                 # 8-byte Reload
	pxor	144(%r12,%rax), %xmm3
	movdqa	224(%rsp), %xmm8                # 16-byte Reload
	movdqa	32(%rsp), %xmm11                # 16-byte Reload
	pxor	%xmm11, %xmm8
	pxor	%xmm3, %xmm8
	movdqa	%xmm8, %xmm3
	pxor	160(%r12,%rax), %xmm12
	pxor	304(%rsp), %xmm12               # 16-byte Folded Reload
	punpcklqdq	%xmm4, %xmm2            # xmm2 = xmm2[0],xmm4[0]
	movdqa	288(%rsp), %xmm4                # 16-byte Reload
	pxor	128(%r12,%rax), %xmm0
	pxor	%xmm11, %xmm0
	pxor	176(%r12,%rax), %xmm2
	pxor	%xmm11, %xmm4
	pxor	%xmm2, %xmm4
	punpcklqdq	%xmm7, %xmm1            # xmm1 = xmm1[0],xmm7[0]
	pxor	192(%r12,%rax), %xmm1
	pxor	320(%rsp), %xmm11               # 16-byte Folded Reload
	pxor	%xmm1, %xmm11
	pxor	208(%r12,%rax), %xmm5
	pxor	336(%rsp), %xmm5                # 16-byte Folded Reload
	pxor	224(%r12,%rax), %xmm6
	pxor	352(%rsp), %xmm6                # 16-byte Folded Reload
	pxor	240(%r12,%rax), %xmm14
	pxor	16(%rsp), %xmm14                # 16-byte Folded Reload
	movq	536(%rsp), %rax                 # 8-byte Reload
	cmpq	544(%rsp), %rax                 # 8-byte Folded Reload
	jae	LBB6_5
# %bb.4:                                # %then.11.i
                                        #   in Loop: Header=BB6_1 Depth=1
	pxor	%xmm6, %xmm5
	movdqa	%xmm14, %xmm9
	pxor	%xmm11, %xmm9
	movdqa	%xmm5, %xmm10
	pxor	%xmm0, %xmm10
	movdqa	%xmm10, %xmm1
	pxor	%xmm11, %xmm1
	movdqa	%xmm1, 16(%rsp)                 # 16-byte Spill
	movdqa	%xmm14, %xmm2
	pxor	%xmm3, %xmm2
	movdqa	%xmm2, 96(%rsp)                 # 16-byte Spill
	pxor	%xmm12, %xmm11
	movdqa	%xmm11, 32(%rsp)                # 16-byte Spill
	pxor	%xmm11, %xmm2
	pxor	%xmm2, %xmm4
	movdqa	%xmm2, %xmm8
	movdqa	%xmm2, 80(%rsp)                 # 16-byte Spill
	movdqa	%xmm4, %xmm2
	pxor	%xmm12, %xmm2
	movdqa	%xmm12, %xmm13
	movdqa	%xmm2, %xmm12
	pxor	%xmm6, %xmm4
	pxor	%xmm14, %xmm13
	movdqa	%xmm4, %xmm6
	movdqa	%xmm9, 64(%rsp)                 # 16-byte Spill
	pxor	%xmm9, %xmm6
	movdqa	%xmm6, %xmm2
	pand	%xmm9, %xmm2
	movdqa	%xmm12, %xmm7
	pxor	%xmm5, %xmm7
	movdqa	%xmm6, %xmm9
	pxor	%xmm7, %xmm9
	movdqa	%xmm9, 128(%rsp)                # 16-byte Spill
	pand	%xmm11, %xmm9
	movdqa	%xmm7, %xmm15
	movdqa	%xmm7, 160(%rsp)                # 16-byte Spill
	pand	%xmm13, %xmm15
	pxor	%xmm2, %xmm9
	pxor	%xmm2, %xmm15
	movdqa	%xmm3, %xmm11
	movdqa	%xmm1, %xmm3
	pand	%xmm0, %xmm3
	movdqa	%xmm12, 48(%rsp)                # 16-byte Spill
	movdqa	%xmm12, %xmm2
	pand	%xmm8, %xmm2
	movdqa	%xmm13, 144(%rsp)               # 16-byte Spill
	pxor	%xmm13, %xmm3
	movdqa	%xmm7, %xmm8
	pxor	%xmm2, %xmm8
	pxor	%xmm3, %xmm8
	pxor	%xmm4, %xmm2
	movdqa	%xmm11, %xmm7
	pxor	%xmm10, %xmm7
	movdqa	%xmm12, %xmm11
	pxor	%xmm0, %xmm11
	movdqa	%xmm7, %xmm1
	movdqa	%xmm7, 224(%rsp)                # 16-byte Spill
	pxor	%xmm13, %xmm1
	movdqa	%xmm1, 112(%rsp)                # 16-byte Spill
	movdqa	%xmm11, %xmm3
	pand	%xmm1, %xmm3
	pxor	%xmm3, %xmm2
	movdqa	%xmm6, (%rsp)                   # 16-byte Spill
	pxor	%xmm6, %xmm5
	pand	%xmm10, %xmm7
	movdqa	%xmm5, %xmm3
	movdqa	96(%rsp), %xmm1                 # 16-byte Reload
	pand	%xmm1, %xmm3
	pxor	%xmm9, %xmm2
	pxor	%xmm5, %xmm7
	pxor	%xmm3, %xmm7
	pxor	%xmm1, %xmm7
	pxor	%xmm9, %xmm7
	movdqa	%xmm10, %xmm9
	pxor	%xmm14, %xmm9
	pxor	%xmm14, %xmm3
	movdqa	%xmm6, %xmm14
	pxor	%xmm0, %xmm14
	movdqa	%xmm14, %xmm4
	pand	%xmm9, %xmm4
	pxor	%xmm5, %xmm4
	pxor	%xmm4, %xmm3
	pxor	%xmm15, %xmm8
	pxor	%xmm15, %xmm3
	movdqa	%xmm7, %xmm4
	pand	%xmm2, %xmm4
	movdqa	%xmm4, %xmm1
	pxor	%xmm8, %xmm1
	movdqa	%xmm3, %xmm15
	pxor	%xmm7, %xmm15
	pand	%xmm1, %xmm15
	pxor	%xmm8, %xmm2
	movdqa	%xmm15, %xmm13
	pxor	%xmm4, %xmm15
	pxor	%xmm3, %xmm4
	movdqa	%xmm4, %xmm12
	pand	%xmm2, %xmm12
	pxor	%xmm8, %xmm12
	pxor	%xmm3, %xmm13
	pand	%xmm3, %xmm15
	pxor	%xmm15, %xmm4
	pand	%xmm12, %xmm4
	pxor	%xmm2, %xmm4
	pxor	%xmm7, %xmm15
	movdqa	16(%rsp), %xmm2                 # 16-byte Reload
	pand	%xmm13, %xmm2
	movdqa	%xmm2, 16(%rsp)                 # 16-byte Spill
	movdqa	%xmm15, %xmm7
	pxor	%xmm13, %xmm7
	movdqa	%xmm12, %xmm6
	pxor	%xmm13, %xmm6
	pand	%xmm0, %xmm13
	movdqa	%xmm4, %xmm8
	pxor	%xmm7, %xmm8
	movdqa	(%rsp), %xmm0                   # 16-byte Reload
	pand	%xmm6, %xmm0
	movdqa	%xmm0, (%rsp)                   # 16-byte Spill
	movdqa	%xmm8, %xmm0
	pxor	%xmm6, %xmm0
	pand	64(%rsp), %xmm6                 # 16-byte Folded Reload
	movdqa	%xmm4, %xmm2
	pxor	%xmm12, %xmm2
	pand	%xmm2, %xmm5
	pand	96(%rsp), %xmm2                 # 16-byte Folded Reload
	pand	%xmm4, %xmm10
	pand	224(%rsp), %xmm4                # 16-byte Folded Reload
	pand	%xmm7, %xmm11
	pand	112(%rsp), %xmm7                # 16-byte Folded Reload
	movdqa	32(%rsp), %xmm1                 # 16-byte Reload
	pand	%xmm0, %xmm1
	pand	128(%rsp), %xmm0                # 16-byte Folded Reload
	pand	%xmm12, %xmm9
	pand	%xmm14, %xmm12
	movdqa	48(%rsp), %xmm3                 # 16-byte Reload
	pand	%xmm15, %xmm3
	pand	80(%rsp), %xmm15                # 16-byte Folded Reload
	pxor	%xmm3, %xmm11
	pxor	%xmm13, %xmm3
	pxor	%xmm5, %xmm10
	pxor	%xmm3, %xmm12
	pxor	%xmm5, %xmm12
	pxor	%xmm6, %xmm1
	pxor	%xmm1, %xmm7
	pxor	%xmm12, %xmm4
	pxor	%xmm1, %xmm4
	pxor	%xmm10, %xmm0
	pxor	%xmm10, %xmm11
	movdqa	160(%rsp), %xmm1                # 16-byte Reload
	pand	%xmm8, %xmm1
	pxor	%xmm1, %xmm3
	pxor	%xmm2, %xmm3
	pxor	%xmm0, %xmm3
	pxor	(%rsp), %xmm0                   # 16-byte Folded Reload
	pxor	%xmm3, %xmm9
	pxor	%xmm4, %xmm3
	pxor	%xmm2, %xmm4
	pxor	%xmm7, %xmm15
	pxor	16(%rsp), %xmm7                 # 16-byte Folded Reload
	pand	144(%rsp), %xmm8                # 16-byte Folded Reload
	pxor	%xmm15, %xmm11
	pxor	%xmm6, %xmm8
	movdqa	%xmm11, %xmm1
	pxor	%xmm0, %xmm1
	pxor	%xmm0, %xmm15
	pxor	%xmm0, %xmm8
	pxor	%xmm11, %xmm12
	pxor	%xmm9, %xmm7
	pxor	%xmm9, %xmm8
	movdqa	%xmm4, (%rsp)                   # 16-byte Spill
	pshufd	$238, %xmm4, %xmm0              # xmm0 = xmm4[2,3,2,3]
	movq	%xmm0, %rsi
	movdqa	%xmm3, 48(%rsp)                 # 16-byte Spill
	pshufd	$238, %xmm3, %xmm0              # xmm0 = xmm3[2,3,2,3]
	movq	%xmm0, %rbp
	pshufd	$238, %xmm7, %xmm0              # xmm0 = xmm7[2,3,2,3]
	movdqa	%xmm7, 16(%rsp)                 # 16-byte Spill
	movq	%xmm0, 192(%rsp)                # 8-byte Folded Spill
	pshufd	$238, %xmm12, %xmm0             # xmm0 = xmm12[2,3,2,3]
	movdqa	%xmm12, 144(%rsp)               # 16-byte Spill
	movq	%xmm0, 184(%rsp)                # 8-byte Folded Spill
	movdqa	%xmm11, 32(%rsp)                # 16-byte Spill
	pshufd	$238, %xmm11, %xmm0             # xmm0 = xmm11[2,3,2,3]
	movq	%xmm0, 208(%rsp)                # 8-byte Folded Spill
	movdqa	%xmm8, 96(%rsp)                 # 16-byte Spill
	pshufd	$238, %xmm8, %xmm0              # xmm0 = xmm8[2,3,2,3]
	movq	%xmm0, 336(%rsp)                # 8-byte Folded Spill
	movdqa	%xmm1, 160(%rsp)                # 16-byte Spill
	pshufd	$238, %xmm1, %xmm0              # xmm0 = xmm1[2,3,2,3]
	movq	%xmm0, 64(%rsp)                 # 8-byte Folded Spill
	movdqa	%xmm15, 128(%rsp)               # 16-byte Spill
	pshufd	$238, %xmm15, %xmm0             # xmm0 = xmm15[2,3,2,3]
	movq	%xmm0, 80(%rsp)                 # 8-byte Folded Spill
	movq	%xmm4, %rdi
	movq	%xmm3, %r13
	movq	%xmm7, %rbx
	movq	%xmm12, %r15
	movq	%xmm11, %r14
	movq	%xmm8, 216(%rsp)                # 8-byte Folded Spill
	movq	%xmm1, 288(%rsp)                # 8-byte Folded Spill
	movq	%xmm15, 224(%rsp)               # 8-byte Folded Spill
	movl	$1, %edx
	movl	$2, %ecx
	callq	"aes_planes::soft::word::word128::U128Word::rotate_rows_and_columns"
	movq	%rax, 112(%rsp)                 # 8-byte Spill
	movq	%rdx, 352(%rsp)                 # 8-byte Spill
	movq	%r13, %rdi
	movq	%rbp, %rsi
	movl	$1, %edx
	movl	$2, %ecx
	callq	"aes_planes::soft::word::word128::U128Word::rotate_rows_and_columns"
	movq	%rax, 320(%rsp)                 # 8-byte Spill
	movq	%rdx, 304(%rsp)                 # 8-byte Spill
	movq	%rbx, %rdi
	movq	192(%rsp), %rsi                 # 8-byte Reload
	movl	$1, %edx
	movl	$2, %ecx
	callq	"aes_planes::soft::word::word128::U128Word::rotate_rows_and_columns"
	movq	%rax, 192(%rsp)                 # 8-byte Spill
	movq	%rdx, 200(%rsp)                 # 8-byte Spill
	movq	%r15, %rdi
	movq	184(%rsp), %rsi                 # 8-byte Reload
	movl	$1, %edx
	movl	$2, %ecx
	callq	"aes_planes::soft::word::word128::U128Word::rotate_rows_and_columns"
	movq	%rax, 184(%rsp)                 # 8-byte Spill
	movq	%rdx, 264(%rsp)                 # 8-byte Spill
	movq	%r14, %rdi
	movq	208(%rsp), %rsi                 # 8-byte Reload
	movl	$1, %edx
	movl	$2, %ecx
	callq	"aes_planes::soft::word::word128::U128Word::rotate_rows_and_columns"
	movq	%rax, 208(%rsp)                 # 8-byte Spill
	movq	%rdx, %r14
	movq	216(%rsp), %rdi                 # 8-byte Reload
	movq	336(%rsp), %rsi                 # 8-byte Reload
	movl	$1, %edx
	movl	$2, %ecx
	callq	"aes_planes::soft::word::word128::U128Word::rotate_rows_and_columns"
	movq	%rax, %r13
	movq	%rdx, %r15
	movq	288(%rsp), %rdi                 # 8-byte Reload
	movq	64(%rsp), %rsi                  # 8-byte Reload
	movl	$1, %edx
	movl	$2, %ecx
	callq	"aes_planes::soft::word::word128::U128Word::rotate_rows_and_columns"
	movq	%rax, %rbx
	movq	%rdx, %rbp
	movq	224(%rsp), %rdi                 # 8-byte Reload
	movq	80(%rsp), %rsi                  # 8-byte Reload
	movl	$1, %edx
	movl	$2, %ecx
	callq	"aes_planes::soft::word::word128::U128Word::rotate_rows_and_columns"
	movq	352(%rsp), %xmm0                # 8-byte Folded Reload
                                        # xmm0 = mem[0],zero
	movq	112(%rsp), %xmm1                # 8-byte Folded Reload
                                        # xmm1 = mem[0],zero
	punpcklqdq	%xmm0, %xmm1            # xmm1 = xmm1[0],xmm0[0]
	movdqa	%xmm1, %xmm3
	movq	304(%rsp), %xmm0                # 8-byte Folded Reload
                                        # xmm0 = mem[0],zero
	movq	320(%rsp), %xmm7                # 8-byte Folded Reload
                                        # xmm7 = mem[0],zero
	punpcklqdq	%xmm0, %xmm7            # xmm7 = xmm7[0],xmm0[0]
	movq	200(%rsp), %xmm0                # 8-byte Folded Reload
                                        # xmm0 = mem[0],zero
	movq	192(%rsp), %xmm6                # 8-byte Folded Reload
                                        # xmm6 = mem[0],zero
	punpcklqdq	%xmm0, %xmm6            # xmm6 = xmm6[0],xmm0[0]
	movq	264(%rsp), %xmm1                # 8-byte Folded Reload
                                        # xmm1 = mem[0],zero
	movq	184(%rsp), %xmm0                # 8-byte Folded Reload
                                        # xmm0 = mem[0],zero
	punpcklqdq	%xmm1, %xmm0            # xmm0 = xmm0[0],xmm1[0]
	movdqa	%xmm0, 64(%rsp)                 # 16-byte Spill
	movq	%r14, %xmm1
	movq	208(%rsp), %xmm5                # 8-byte Folded Reload
                                        # xmm5 = mem[0],zero
	punpcklqdq	%xmm1, %xmm5            # xmm5 = xmm5[0],xmm1[0]
	movq	%r15, %xmm2
	movq	%r13, %xmm11
	punpcklqdq	%xmm2, %xmm11           # xmm11 = xmm11[0],xmm2[0]
	movq	%rbp, %xmm2
	movq	%rbx, %xmm4
	punpcklqdq	%xmm2, %xmm4            # xmm4 = xmm4[0],xmm2[0]
	movq	%rdx, %xmm8
	movq	%rax, %xmm2
	punpcklqdq	%xmm8, %xmm2            # xmm2 = xmm2[0],xmm8[0]
	movdqa	(%rsp), %xmm1                   # 16-byte Reload
	pxor	%xmm3, %xmm1
	movdqa	128(%rsp), %xmm14               # 16-byte Reload
	pxor	%xmm2, %xmm14
	pshufd	$78, %xmm1, %xmm8               # xmm8 = xmm1[2,3,0,1]
	movq	512(%rsp), %rax                 # 8-byte Reload
	pxor	(%r12,%rax), %xmm8
	pxor	%xmm14, %xmm3
	pxor	%xmm8, %xmm3
	movdqa	%xmm3, 112(%rsp)                # 16-byte Spill
	movdqa	48(%rsp), %xmm8                 # 16-byte Reload
	pxor	%xmm7, %xmm8
	movdqa	16(%rsp), %xmm10                # 16-byte Reload
	pxor	%xmm6, %xmm10
	movdqa	%xmm10, 16(%rsp)                # 16-byte Spill
	movdqa	144(%rsp), %xmm12               # 16-byte Reload
	pxor	%xmm0, %xmm12
	movdqa	32(%rsp), %xmm9                 # 16-byte Reload
	pxor	%xmm5, %xmm9
	movdqa	96(%rsp), %xmm13                # 16-byte Reload
	pxor	%xmm11, %xmm13
	movdqa	160(%rsp), %xmm3                # 16-byte Reload
	pxor	%xmm4, %xmm3
	movdqa	%xmm1, %xmm0
	pxor	%xmm7, %xmm0
	pshufd	$78, %xmm8, %xmm7               # xmm7 = xmm8[2,3,0,1]
	pxor	16(%r12,%rax), %xmm7
	pxor	%xmm14, %xmm0
	pxor	%xmm7, %xmm0
	movdqa	%xmm0, (%rsp)                   # 16-byte Spill
	pshufd	$78, %xmm10, %xmm7              # xmm7 = xmm10[2,3,0,1]
	movdqa	%xmm8, %xmm1
	pxor	%xmm6, %xmm1
	pshufd	$78, %xmm12, %xmm8              # xmm8 = xmm12[2,3,0,1]
	pxor	32(%r12,%rax), %xmm7
	pxor	%xmm7, %xmm1
	movdqa	%xmm1, %xmm10
	pshufd	$78, %xmm9, %xmm6               # xmm6 = xmm9[2,3,0,1]
	movdqa	%xmm9, %xmm7
	pxor	64(%r12,%rax), %xmm6
	movdqa	%xmm12, %xmm9
	pxor	%xmm5, %xmm9
	pshufd	$78, %xmm13, %xmm5              # xmm5 = xmm13[2,3,0,1]
	pxor	%xmm14, %xmm9
	pxor	%xmm6, %xmm9
	pshufd	$78, %xmm3, %xmm6               # xmm6 = xmm3[2,3,0,1]
	pxor	%xmm4, %xmm13
	pshufd	$78, %xmm14, %xmm4              # xmm4 = xmm14[2,3,0,1]
	pxor	96(%r12,%rax), %xmm6
	pxor	%xmm6, %xmm13
	pxor	112(%r12,%rax), %xmm4
	pxor	%xmm2, %xmm3
	pxor	%xmm4, %xmm3
	pxor	80(%r12,%rax), %xmm5
	movdqa	%xmm7, %xmm4
	pxor	%xmm11, %xmm4
	pxor	%xmm5, %xmm4
	pxor	%xmm13, %xmm4
	movdqa	%xmm3, %xmm12
	pxor	%xmm9, %xmm12
	movdqa	%xmm4, %xmm5
	movdqa	112(%rsp), %xmm15               # 16-byte Reload
	pxor	%xmm15, %xmm5
	movdqa	%xmm5, %xmm7
	pxor	%xmm9, %xmm7
	movdqa	%xmm7, 32(%rsp)                 # 16-byte Spill
	movdqa	%xmm3, %xmm2
	pxor	%xmm0, %xmm2
	movdqa	%xmm2, 96(%rsp)                 # 16-byte Spill
	pxor	%xmm1, %xmm9
	pxor	%xmm9, %xmm2
	pxor	48(%r12,%rax), %xmm8
	movdqa	16(%rsp), %xmm6                 # 16-byte Reload
	pxor	64(%rsp), %xmm6                 # 16-byte Folded Reload
	pxor	%xmm14, %xmm6
	pxor	%xmm8, %xmm6
	pxor	%xmm2, %xmm6
	movdqa	%xmm2, %xmm14
	movdqa	%xmm2, 128(%rsp)                # 16-byte Spill
	movdqa	%xmm6, %xmm1
	pxor	%xmm10, %xmm1
	pxor	%xmm13, %xmm6
	pxor	%xmm3, %xmm10
	movdqa	%xmm10, %xmm2
	movdqa	%xmm10, 48(%rsp)                # 16-byte Spill
	movdqa	%xmm6, %xmm10
	movdqa	%xmm12, 80(%rsp)                # 16-byte Spill
	pxor	%xmm12, %xmm10
	movdqa	%xmm10, %xmm0
	pand	%xmm12, %xmm0
	movdqa	%xmm1, %xmm8
	movdqa	%xmm1, 16(%rsp)                 # 16-byte Spill
	pxor	%xmm4, %xmm8
	movdqa	%xmm10, %xmm12
	pxor	%xmm8, %xmm12
	movdqa	%xmm12, 144(%rsp)               # 16-byte Spill
	movdqa	%xmm8, %xmm11
	movdqa	%xmm12, %xmm8
	pand	%xmm9, %xmm8
	movdqa	%xmm11, %xmm13
	movdqa	%xmm11, %xmm12
	movdqa	%xmm11, 160(%rsp)               # 16-byte Spill
	pand	%xmm2, %xmm13
	pxor	%xmm0, %xmm8
	pxor	%xmm0, %xmm13
	movdqa	%xmm7, %xmm0
	movdqa	%xmm15, %xmm7
	pand	%xmm15, %xmm0
	movdqa	%xmm1, %xmm11
	pand	%xmm14, %xmm11
	pxor	%xmm2, %xmm0
	movdqa	%xmm12, %xmm14
	pxor	%xmm11, %xmm14
	pxor	%xmm0, %xmm14
	pxor	%xmm6, %xmm11
	movdqa	(%rsp), %xmm15                  # 16-byte Reload
	pxor	%xmm5, %xmm15
	movdqa	%xmm1, %xmm6
	pxor	%xmm7, %xmm6
	movdqa	%xmm15, (%rsp)                  # 16-byte Spill
	movdqa	%xmm15, %xmm1
	pxor	%xmm2, %xmm1
	movdqa	%xmm1, 64(%rsp)                 # 16-byte Spill
	movdqa	%xmm6, %xmm0
	pand	%xmm1, %xmm0
	pxor	%xmm0, %xmm11
	pxor	%xmm10, %xmm4
	movdqa	%xmm15, %xmm2
	pand	%xmm5, %xmm2
	movdqa	%xmm4, %xmm1
	movdqa	96(%rsp), %xmm0                 # 16-byte Reload
	pand	%xmm0, %xmm1
	pxor	%xmm8, %xmm11
	pxor	%xmm4, %xmm2
	pxor	%xmm1, %xmm2
	pxor	%xmm0, %xmm2
	pxor	%xmm8, %xmm2
	movdqa	%xmm5, %xmm8
	pxor	%xmm3, %xmm8
	pxor	%xmm3, %xmm1
	movdqa	%xmm10, %xmm3
	pxor	%xmm7, %xmm3
	movdqa	%xmm3, %xmm12
	pand	%xmm8, %xmm12
	pxor	%xmm4, %xmm12
	pxor	%xmm12, %xmm1
	pxor	%xmm13, %xmm14
	pxor	%xmm13, %xmm1
	movdqa	%xmm2, %xmm15
	pand	%xmm11, %xmm15
	movdqa	%xmm15, %xmm12
	pxor	%xmm14, %xmm12
	movdqa	%xmm1, %xmm13
	pxor	%xmm2, %xmm13
	pand	%xmm12, %xmm13
	pxor	%xmm14, %xmm11
	movdqa	%xmm13, %xmm12
	pxor	%xmm15, %xmm13
	pxor	%xmm1, %xmm15
	movdqa	%xmm15, %xmm0
	pand	%xmm11, %xmm0
	pxor	%xmm14, %xmm0
	pxor	%xmm1, %xmm12
	pand	%xmm1, %xmm13
	pxor	%xmm13, %xmm15
	pand	%xmm0, %xmm15
	movdqa	%xmm0, %xmm1
	pxor	%xmm11, %xmm15
	pxor	%xmm2, %xmm13
	movdqa	32(%rsp), %xmm0                 # 16-byte Reload
	pand	%xmm12, %xmm0
	movdqa	%xmm0, 32(%rsp)                 # 16-byte Spill
	movdqa	%xmm13, %xmm2
	pxor	%xmm12, %xmm2
	movdqa	%xmm1, %xmm11
	pxor	%xmm12, %xmm11
	pand	%xmm7, %xmm12
	movdqa	%xmm15, %xmm14
	pxor	%xmm2, %xmm14
	pand	%xmm11, %xmm10
	movdqa	%xmm14, %xmm0
	pxor	%xmm11, %xmm0
	pand	80(%rsp), %xmm11                # 16-byte Folded Reload
	movdqa	%xmm15, %xmm7
	pxor	%xmm1, %xmm7
	pand	%xmm7, %xmm4
	pand	96(%rsp), %xmm7                 # 16-byte Folded Reload
	pand	%xmm15, %xmm5
	pand	(%rsp), %xmm15                  # 16-byte Folded Reload
	pand	%xmm2, %xmm6
	pand	64(%rsp), %xmm2                 # 16-byte Folded Reload
	pand	%xmm0, %xmm9
	pand	144(%rsp), %xmm0                # 16-byte Folded Reload
	pand	%xmm1, %xmm8
	pand	%xmm3, %xmm1
	movdqa	16(%rsp), %xmm3                 # 16-byte Reload
	pand	%xmm13, %xmm3
	pand	128(%rsp), %xmm13               # 16-byte Folded Reload
	pxor	%xmm3, %xmm6
	pxor	%xmm12, %xmm3
	pxor	%xmm4, %xmm5
	pxor	%xmm3, %xmm1
	pxor	%xmm4, %xmm1
	pxor	%xmm11, %xmm9
	pxor	%xmm9, %xmm2
	pxor	%xmm1, %xmm15
	pxor	%xmm9, %xmm15
	pxor	%xmm5, %xmm0
	pxor	%xmm5, %xmm6
	movdqa	160(%rsp), %xmm4                # 16-byte Reload
	pand	%xmm14, %xmm4
	pxor	%xmm4, %xmm3
	pxor	%xmm7, %xmm3
	pxor	%xmm0, %xmm3
	pxor	%xmm10, %xmm0
	pxor	%xmm3, %xmm8
	pxor	%xmm15, %xmm3
	pxor	%xmm7, %xmm15
	pxor	%xmm2, %xmm13
	pxor	32(%rsp), %xmm2                 # 16-byte Folded Reload
	pand	48(%rsp), %xmm14                # 16-byte Folded Reload
	pxor	%xmm13, %xmm6
	pxor	%xmm11, %xmm14
	movdqa	%xmm6, %xmm4
	pxor	%xmm0, %xmm4
	pxor	%xmm0, %xmm13
	pxor	%xmm0, %xmm14
	pxor	%xmm6, %xmm1
	pxor	%xmm8, %xmm2
	pxor	%xmm8, %xmm14
	movdqa	%xmm15, 304(%rsp)               # 16-byte Spill
	pshufd	$238, %xmm15, %xmm0             # xmm0 = xmm15[2,3,2,3]
	movq	%xmm0, %rsi
	movdqa	%xmm3, 16(%rsp)                 # 16-byte Spill
	pshufd	$238, %xmm3, %xmm0              # xmm0 = xmm3[2,3,2,3]
	movq	%xmm0, %rbx
	pshufd	$238, %xmm2, %xmm0              # xmm0 = xmm2[2,3,2,3]
	movdqa	%xmm2, 272(%rsp)                # 16-byte Spill
	movq	%xmm0, 128(%rsp)                # 8-byte Folded Spill
	pshufd	$238, %xmm1, %xmm0              # xmm0 = xmm1[2,3,2,3]
	movdqa	%xmm1, 320(%rsp)                # 16-byte Spill
	movq	%xmm0, 80(%rsp)                 # 8-byte Folded Spill
	movdqa	%xmm6, 336(%rsp)                # 16-byte Spill
	pshufd	$238, %xmm6, %xmm0              # xmm0 = xmm6[2,3,2,3]
	movq	%xmm0, 160(%rsp)                # 8-byte Folded Spill
	movdqa	%xmm14, 352(%rsp)               # 16-byte Spill
	pshufd	$238, %xmm14, %xmm0             # xmm0 = xmm14[2,3,2,3]
	movq	%xmm0, %rbp
	movdqa	%xmm4, 384(%rsp)                # 16-byte Spill
	pshufd	$238, %xmm4, %xmm0              # xmm0 = xmm4[2,3,2,3]
	movq	%xmm0, 208(%rsp)                # 8-byte Folded Spill
	movdqa	%xmm13, 48(%rsp)                # 16-byte Spill
	pshufd	$238, %xmm13, %xmm0             # xmm0 = xmm13[2,3,2,3]
	movq	%xmm0, 288(%rsp)                # 8-byte Folded Spill
	movq	%xmm15, %rdi
	movq	%xmm3, %r15
	movq	%xmm2, %r13
	movq	%xmm1, %r14
	movq	%xmm6, 224(%rsp)                # 8-byte Folded Spill
	movq	%xmm14, 184(%rsp)               # 8-byte Folded Spill
	movq	%xmm4, 200(%rsp)                # 8-byte Folded Spill
	movq	%xmm13, 192(%rsp)               # 8-byte Folded Spill
	movl	$1, %edx
	movl	$3, %ecx
	callq	"aes_planes::soft::word::word128::U128Word::rotate_rows_and_columns"
	movq	%rax, 96(%rsp)                  # 8-byte Spill
	movq	%rdx, 32(%rsp)                  # 8-byte Spill
	movq	%r15, %rdi
	movq	%rbx, %rsi
	movl	$1, %edx
	movl	$3, %ecx
	callq	"aes_planes::soft::word::word128::U128Word::rotate_rows_and_columns"
	movq	%rax, (%rsp)                    # 8-byte Spill
	movq	%rdx, 144(%rsp)                 # 8-byte Spill
	movq	%r13, %rdi
	movq	128(%rsp), %rsi                 # 8-byte Reload
	movl	$1, %edx
	movl	$3, %ecx
	callq	"aes_planes::soft::word::word128::U128Word::rotate_rows_and_columns"
	movq	%rax, 128(%rsp)                 # 8-byte Spill
	movq	%rdx, 112(%rsp)                 # 8-byte Spill
	movq	%r14, %rdi
	movq	80(%rsp), %rsi                  # 8-byte Reload
	movl	$1, %edx
	movl	$3, %ecx
	callq	"aes_planes::soft::word::word128::U128Word::rotate_rows_and_columns"
	movq	%rax, 64(%rsp)                  # 8-byte Spill
	movq	%rdx, 80(%rsp)                  # 8-byte Spill
	movq	224(%rsp), %rdi                 # 8-byte Reload
	movq	160(%rsp), %rsi                 # 8-byte Reload
	movl	$1, %edx
	movl	$3, %ecx
	callq	"aes_planes::soft::word::word128::U128Word::rotate_rows_and_columns"
	movq	%rax, 160(%rsp)                 # 8-byte Spill
	movq	%rdx, %rbx
	movq	%rdx, 224(%rsp)                 # 8-byte Spill
	movq	184(%rsp), %rdi                 # 8-byte Reload
	movq	%rbp, %rsi
	movl	$1, %edx
	movl	$3, %ecx
	callq	"aes_planes::soft::word::word128::U128Word::rotate_rows_and_columns"
	movq	%rax, %r13
	movq	%rax, 264(%rsp)                 # 8-byte Spill
	movq	%rdx, %rbp
	movq	%rdx, 216(%rsp)                 # 8-byte Spill
	movq	200(%rsp), %rdi                 # 8-byte Reload
	movq	208(%rsp), %rsi                 # 8-byte Reload
	movl	$1, %edx
	movl	$3, %ecx
	callq	"aes_planes::soft::word::word128::U128Word::rotate_rows_and_columns"
	movq	%rax, %r14
	movq	%rax, 184(%rsp)                 # 8-byte Spill
	movq	%rdx, %r15
	movq	%rdx, 200(%rsp)                 # 8-byte Spill
	movq	192(%rsp), %rdi                 # 8-byte Reload
	movq	288(%rsp), %rsi                 # 8-byte Reload
	movl	$1, %edx
	movl	$3, %ecx
	callq	"aes_planes::soft::word::word128::U128Word::rotate_rows_and_columns"
	movq	%rax, 192(%rsp)                 # 8-byte Spill
	movq	%rdx, 208(%rsp)                 # 8-byte Spill
	movq	32(%rsp), %xmm0                 # 8-byte Folded Reload
                                        # xmm0 = mem[0],zero
	movq	96(%rsp), %xmm1                 # 8-byte Folded Reload
                                        # xmm1 = mem[0],zero
	punpcklqdq	%xmm0, %xmm1            # xmm1 = xmm1[0],xmm0[0]
	movdqa	%xmm1, %xmm5
	movq	144(%rsp), %xmm0                # 8-byte Folded Reload
                                        # xmm0 = mem[0],zero
	movq	(%rsp), %xmm1                   # 8-byte Folded Reload
                                        # xmm1 = mem[0],zero
	punpcklqdq	%xmm0, %xmm1            # xmm1 = xmm1[0],xmm0[0]
	movdqa	%xmm1, %xmm6
	movq	112(%rsp), %xmm0                # 8-byte Folded Reload
                                        # xmm0 = mem[0],zero
	movq	128(%rsp), %xmm1                # 8-byte Folded Reload
                                        # xmm1 = mem[0],zero
	punpcklqdq	%xmm0, %xmm1            # xmm1 = xmm1[0],xmm0[0]
	movdqa	%xmm1, %xmm8
	movq	80(%rsp), %xmm0                 # 8-byte Folded Reload
                                        # xmm0 = mem[0],zero
	movq	64(%rsp), %xmm4                 # 8-byte Folded Reload
                                        # xmm4 = mem[0],zero
	punpcklqdq	%xmm0, %xmm4            # xmm4 = xmm4[0],xmm0[0]
	movq	%rbx, %xmm0
	movq	160(%rsp), %xmm1                # 8-byte Folded Reload
                                        # xmm1 = mem[0],zero
	punpcklqdq	%xmm0, %xmm1            # xmm1 = xmm1[0],xmm0[0]
	movdqa	%xmm1, %xmm2
	movq	%rbp, %xmm0
	movq	%r13, %xmm1
	punpcklqdq	%xmm0, %xmm1            # xmm1 = xmm1[0],xmm0[0]
	movdqa	%xmm1, %xmm3
	movq	%r15, %xmm0
	movq	%r14, %xmm1
	punpcklqdq	%xmm0, %xmm1            # xmm1 = xmm1[0],xmm0[0]
	movq	%rdx, %xmm0
	movq	%rax, %xmm7
	punpcklqdq	%xmm0, %xmm7            # xmm7 = xmm7[0],xmm0[0]
	pxor	304(%rsp), %xmm5                # 16-byte Folded Reload
	pxor	16(%rsp), %xmm6                 # 16-byte Folded Reload
	pxor	272(%rsp), %xmm8                # 16-byte Folded Reload
	movdqa	%xmm8, 480(%rsp)                # 16-byte Spill
	pxor	320(%rsp), %xmm4                # 16-byte Folded Reload
	pxor	336(%rsp), %xmm2                # 16-byte Folded Reload
	pxor	352(%rsp), %xmm3                # 16-byte Folded Reload
	pxor	384(%rsp), %xmm1                # 16-byte Folded Reload
	pxor	48(%rsp), %xmm7                 # 16-byte Folded Reload
	movdqa	%xmm7, 48(%rsp)                 # 16-byte Spill
	pshufd	$238, %xmm6, %xmm0              # xmm0 = xmm6[2,3,2,3]
	movdqa	%xmm6, 304(%rsp)                # 16-byte Spill
	movq	%xmm0, 368(%rsp)                # 8-byte Folded Spill
	pshufd	$238, %xmm2, %xmm0              # xmm0 = xmm2[2,3,2,3]
	movdqa	%xmm2, 336(%rsp)                # 16-byte Spill
	movq	%xmm0, 384(%rsp)                # 8-byte Folded Spill
	pshufd	$238, %xmm3, %xmm0              # xmm0 = xmm3[2,3,2,3]
	movdqa	%xmm3, 352(%rsp)                # 16-byte Spill
	movq	%xmm0, 256(%rsp)                # 8-byte Folded Spill
	movdqa	%xmm1, 16(%rsp)                 # 16-byte Spill
	pshufd	$238, %xmm1, %xmm0              # xmm0 = xmm1[2,3,2,3]
	movq	%xmm0, 440(%rsp)                # 8-byte Folded Spill
	pshufd	$238, %xmm7, %xmm0              # xmm0 = xmm7[2,3,2,3]
	movq	%xmm0, 448(%rsp)                # 8-byte Folded Spill
	movdqa	%xmm5, 288(%rsp)                # 16-byte Spill
	pshufd	$238, %xmm5, %xmm0              # xmm0 = xmm5[2,3,2,3]
	movq	%xmm0, %rsi
	pshufd	$238, %xmm8, %xmm0              # xmm0 = xmm8[2,3,2,3]
	movq	%xmm0, %r15
	movdqa	%xmm4, 320(%rsp)                # 16-byte Spill
	pshufd	$238, %xmm4, %xmm0              # xmm0 = xmm4[2,3,2,3]
	movq	%xmm0, %r14
	movq	%xmm6, %r13
	movq	%xmm2, 272(%rsp)                # 8-byte Folded Spill
	movq	%xmm3, 400(%rsp)                # 8-byte Folded Spill
	movq	%xmm1, 248(%rsp)                # 8-byte Folded Spill
	movq	%xmm7, 432(%rsp)                # 8-byte Folded Spill
	movq	%xmm5, %rdi
	movq	%xmm8, %rbp
	movq	%xmm4, %rbx
	movl	$2, %edx
	movl	$2, %ecx
	callq	"aes_planes::soft::word::word128::U128Word::rotate_rows_and_columns"
	movq	%rax, 416(%rsp)                 # 8-byte Spill
	movq	%rdx, 424(%rsp)                 # 8-byte Spill
	movq	%r13, %rdi
	movq	368(%rsp), %rsi                 # 8-byte Reload
	movl	$2, %edx
	movl	$2, %ecx
	callq	"aes_planes::soft::word::word128::U128Word::rotate_rows_and_columns"
	movq	%rax, 456(%rsp)                 # 8-byte Spill
	movq	%rdx, 464(%rsp)                 # 8-byte Spill
	movq	%rbp, %rdi
	movq	%r15, %rsi
	movl	$2, %edx
	movl	$2, %ecx
	callq	"aes_planes::soft::word::word128::U128Word::rotate_rows_and_columns"
	movq	%rax, 408(%rsp)                 # 8-byte Spill
	movq	%rdx, %r13
	movq	%rbx, %rdi
	movq	%r14, %rsi
	movl	$2, %edx
	movl	$2, %ecx
	callq	"aes_planes::soft::word::word128::U128Word::rotate_rows_and_columns"
	movq	%rax, 472(%rsp)                 # 8-byte Spill
	movq	%rdx, 368(%rsp)                 # 8-byte Spill
	movq	272(%rsp), %rdi                 # 8-byte Reload
	movq	384(%rsp), %rsi                 # 8-byte Reload
	movl	$2, %edx
	movl	$2, %ecx
	callq	"aes_planes::soft::word::word128::U128Word::rotate_rows_and_columns"
	movq	%rax, 272(%rsp)                 # 8-byte Spill
	movq	%rdx, 384(%rsp)                 # 8-byte Spill
	movq	400(%rsp), %rdi                 # 8-byte Reload
	movq	256(%rsp), %rsi                 # 8-byte Reload
	movl	$2, %edx
	movl	$2, %ecx
	callq	"aes_planes::soft::word::word128::U128Word::rotate_rows_and_columns"
	movq	%rax, %rbx
	movq	%rdx, %r14
	movq	248(%rsp), %rdi                 # 8-byte Reload
	movq	440(%rsp), %rsi                 # 8-byte Reload
	movl	$2, %edx
	movl	$2, %ecx
	callq	"aes_planes::soft::word::word128::U128Word::rotate_rows_and_columns"
	movq	%rax, %rbp
	movq	%rdx, %r15
	movq	432(%rsp), %rdi                 # 8-byte Reload
	movq	448(%rsp), %rsi                 # 8-byte Reload
	movl	$2, %edx
	movl	$2, %ecx
	callq	"aes_planes::soft::word::word128::U128Word::rotate_rows_and_columns"
	movdqa	480(%rsp), %xmm12               # 16-byte Reload
	movq	416(%rsp), %rcx                 # 8-byte Reload
	xorq	96(%rsp), %rcx                  # 8-byte Folded Reload
	movq	424(%rsp), %rsi                 # 8-byte Reload
	xorq	32(%rsp), %rsi                  # 8-byte Folded Reload
	movq	%rsi, %xmm6
	movq	%rcx, %xmm10
	movq	408(%rsp), %rcx                 # 8-byte Reload
	xorq	128(%rsp), %rcx                 # 8-byte Folded Reload
	xorq	112(%rsp), %r13                 # 8-byte Folded Reload
	movq	%r13, %xmm0
	movq	%rcx, %xmm9
	xorq	264(%rsp), %rbx                 # 8-byte Folded Reload
	xorq	216(%rsp), %r14                 # 8-byte Folded Reload
	movq	%r14, %xmm3
	movq	%rbx, %xmm4
	xorq	184(%rsp), %rbp                 # 8-byte Folded Reload
	xorq	200(%rsp), %r15                 # 8-byte Folded Reload
	movq	%r15, %xmm1
	movq	%rbp, %xmm8
	xorq	192(%rsp), %rax                 # 8-byte Folded Reload
	xorq	208(%rsp), %rdx                 # 8-byte Folded Reload
	movq	%rdx, %xmm2
	movq	%rax, %xmm5
	movq	456(%rsp), %rax                 # 8-byte Reload
	xorq	(%rsp), %rax                    # 8-byte Folded Reload
	movq	464(%rsp), %rcx                 # 8-byte Reload
	xorq	144(%rsp), %rcx                 # 8-byte Folded Reload
	movq	%rcx, %xmm7
	punpcklqdq	%xmm6, %xmm10           # xmm10 = xmm10[0],xmm6[0]
	movq	%rax, %xmm6
	movq	472(%rsp), %rax                 # 8-byte Reload
	xorq	64(%rsp), %rax                  # 8-byte Folded Reload
	movq	368(%rsp), %rcx                 # 8-byte Reload
	xorq	80(%rsp), %rcx                  # 8-byte Folded Reload
	punpcklqdq	%xmm0, %xmm9            # xmm9 = xmm9[0],xmm0[0]
	movq	%rcx, %xmm0
	punpcklqdq	%xmm3, %xmm4            # xmm4 = xmm4[0],xmm3[0]
	movq	%rax, %xmm3
	movq	272(%rsp), %rax                 # 8-byte Reload
	xorq	160(%rsp), %rax                 # 8-byte Folded Reload
	movq	384(%rsp), %rcx                 # 8-byte Reload
	xorq	224(%rsp), %rcx                 # 8-byte Folded Reload
	punpcklqdq	%xmm1, %xmm8            # xmm8 = xmm8[0],xmm1[0]
	movq	%rcx, %xmm1
	punpcklqdq	%xmm7, %xmm6            # xmm6 = xmm6[0],xmm7[0]
	movq	%rax, %xmm7
	movq	504(%rsp), %rax                 # 8-byte Reload
	pxor	-112(%r12,%rax), %xmm6
	punpcklqdq	%xmm2, %xmm5            # xmm5 = xmm5[0],xmm2[0]
	movdqa	288(%rsp), %xmm2                # 16-byte Reload
	movdqa	48(%rsp), %xmm11                # 16-byte Reload
	pxor	%xmm11, %xmm2
	pxor	-96(%r12,%rax), %xmm9
	pxor	%xmm6, %xmm2
	pxor	304(%rsp), %xmm9                # 16-byte Folded Reload
	pxor	-128(%r12,%rax), %xmm10
	punpcklqdq	%xmm0, %xmm3            # xmm3 = xmm3[0],xmm0[0]
	movdqa	%xmm11, %xmm0
	pxor	%xmm11, %xmm10
	pxor	-80(%r12,%rax), %xmm3
	pxor	%xmm11, %xmm12
	punpcklqdq	%xmm1, %xmm7            # xmm7 = xmm7[0],xmm1[0]
	pxor	-64(%r12,%rax), %xmm7
	pxor	%xmm3, %xmm12
	pxor	320(%rsp), %xmm0                # 16-byte Folded Reload
	pxor	-48(%r12,%rax), %xmm4
	pxor	%xmm7, %xmm0
	pxor	336(%rsp), %xmm4                # 16-byte Folded Reload
	pxor	-32(%r12,%rax), %xmm8
	pxor	352(%rsp), %xmm8                # 16-byte Folded Reload
	pxor	-16(%r12,%rax), %xmm5
	pxor	16(%rsp), %xmm5                 # 16-byte Folded Reload
	jmp	LBB6_6
LBB6_7:                                # %"aes_soft::soft::blocks::slices::process_batches_under::<#6c9505ca656cc68d>.exit"
	addq	$584, %rsp                      # imm = 0x248
	popq	%rbx
	popq	%r12
	popq	%r13
	popq	%r14
	popq	%r15
	popq	%rbp
	retq
                                        # -- End function
	.section	__TEXT,__const
	.p2align	4, 0x0                          # -- Begin function aes_planes::soft::word::word128::U128Word::rotate_rows_and_columns
l_CPI7_0:
	.byte	0                               # 0x0
	.byte	1                               # 0x1
	.byte	2                               # 0x2
	.byte	3                               # 0x3
	.byte	4                               # 0x4
	.byte	5                               # 0x5
	.byte	6                               # 0x6
	.byte	7                               # 0x7
	.byte	8                               # 0x8
	.byte	9                               # 0x9
	.byte	10                              # 0xa
	.byte	11                              # 0xb
	.byte	12                              # 0xc
	.byte	13                              # 0xd
	.byte	14                              # 0xe
	.byte	15                              # 0xf
l_CPI7_1:
	.zero	16,15
l_CPI7_2:
	.byte	1                               # 0x1
	.byte	2                               # 0x2
	.byte	4                               # 0x4
	.byte	8                               # 0x8
	.byte	16                              # 0x10
	.byte	32                              # 0x20
	.byte	64                              # 0x40
	.byte	128                             # 0x80
	.byte	1                               # 0x1
	.byte	2                               # 0x2
	.byte	4                               # 0x4
	.byte	8                               # 0x8
	.byte	16                              # 0x10
	.byte	32                              # 0x20
	.byte	64                              # 0x40
	.byte	128                             # 0x80
l_CPI7_3:
	.zero	16,252
	.section	__TEXT,__text,regular,pure_instructions
	.p2align	4
"aes_planes::soft::word::word128::U128Word::rotate_rows_and_columns": # @"aes_planes::soft::word::word128::U128Word::rotate_rows_and_columns"
# %bb.0:                                # %start
                                        # kill: def $ecx killed $ecx def $rcx
                                        # kill: def $edx killed $edx def $rdx
	testl	%ecx, %ecx
	je	LBB7_1
# %bb.2:                                # %join.3.i
	leal	(%rcx,%rdx,4), %eax
	movq	%rdi, -72(%rsp)
	movq	%rsi, -64(%rsp)
	movd	%eax, %xmm0
	punpcklbw	%xmm0, %xmm0            # xmm0 = xmm0[0,0,1,1,2,2,3,3,4,4,5,5,6,6,7,7]
	pshuflw	$0, %xmm0, %xmm0                # xmm0 = xmm0[0,0,0,0,4,5,6,7]
	pshufd	$68, %xmm0, %xmm0               # xmm0 = xmm0[0,1,0,1]
	paddb	l_CPI7_0(%rip), %xmm0
	movdqa	l_CPI7_1(%rip), %xmm2           # xmm2 = [15,15,15,15,15,15,15,15,15,15,15,15,15,15,15,15]
	pand	%xmm2, %xmm0
	movdqa	%xmm0, -40(%rsp)
	movzbl	-25(%rsp), %eax
	movzbl	-72(%rsp,%rax), %eax
	movd	%eax, %xmm0
	movzbl	-26(%rsp), %eax
	movzbl	-72(%rsp,%rax), %eax
	movd	%eax, %xmm3
	movzbl	-27(%rsp), %eax
	movzbl	-72(%rsp,%rax), %eax
	movd	%eax, %xmm9
	movzbl	-28(%rsp), %eax
	movzbl	-72(%rsp,%rax), %eax
	movd	%eax, %xmm4
	movzbl	-29(%rsp), %eax
	movzbl	-72(%rsp,%rax), %eax
	movd	%eax, %xmm5
	movzbl	-30(%rsp), %eax
	movzbl	-72(%rsp,%rax), %eax
	movd	%eax, %xmm7
	movzbl	-31(%rsp), %eax
	movzbl	-72(%rsp,%rax), %eax
	movd	%eax, %xmm8
	movzbl	-32(%rsp), %eax
	movzbl	-72(%rsp,%rax), %eax
	movd	%eax, %xmm6
	movzbl	-33(%rsp), %eax
	movzbl	-72(%rsp,%rax), %eax
	movd	%eax, %xmm10
	movzbl	-34(%rsp), %eax
	movzbl	-72(%rsp,%rax), %eax
	movd	%eax, %xmm11
	movzbl	-35(%rsp), %eax
	movzbl	-72(%rsp,%rax), %eax
	movd	%eax, %xmm13
	movzbl	-36(%rsp), %eax
	movzbl	-72(%rsp,%rax), %eax
	movd	%eax, %xmm12
	movzbl	-37(%rsp), %eax
	movzbl	-72(%rsp,%rax), %eax
	movd	%eax, %xmm14
	movzbl	-38(%rsp), %eax
	movzbl	-72(%rsp,%rax), %eax
	movd	%eax, %xmm15
	movzbl	-39(%rsp), %eax
	punpcklbw	%xmm0, %xmm3            # xmm3 = xmm3[0],xmm0[0],xmm3[1],xmm0[1],xmm3[2],xmm0[2],xmm3[3],xmm0[3],xmm3[4],xmm0[4],xmm3[5],xmm0[5],xmm3[6],xmm0[6],xmm3[7],xmm0[7]
	movzbl	-72(%rsp,%rax), %eax
	movd	%eax, %xmm1
	movzbl	-40(%rsp), %eax
	punpcklbw	%xmm9, %xmm4            # xmm4 = xmm4[0],xmm9[0],xmm4[1],xmm9[1],xmm4[2],xmm9[2],xmm4[3],xmm9[3],xmm4[4],xmm9[4],xmm4[5],xmm9[5],xmm4[6],xmm9[6],xmm4[7],xmm9[7]
	movzbl	-72(%rsp,%rax), %eax
	movd	%eax, %xmm0
	movq	%rsi, -64(%rsp)
	movq	%rdi, -72(%rsp)
	punpcklwd	%xmm3, %xmm4            # xmm4 = xmm4[0],xmm3[0],xmm4[1],xmm3[1],xmm4[2],xmm3[2],xmm4[3],xmm3[3]
	punpcklbw	%xmm5, %xmm7            # xmm7 = xmm7[0],xmm5[0],xmm7[1],xmm5[1],xmm7[2],xmm5[2],xmm7[3],xmm5[3],xmm7[4],xmm5[4],xmm7[5],xmm5[5],xmm7[6],xmm5[6],xmm7[7],xmm5[7]
	punpcklbw	%xmm8, %xmm6            # xmm6 = xmm6[0],xmm8[0],xmm6[1],xmm8[1],xmm6[2],xmm8[2],xmm6[3],xmm8[3],xmm6[4],xmm8[4],xmm6[5],xmm8[5],xmm6[6],xmm8[6],xmm6[7],xmm8[7]
	punpcklwd	%xmm7, %xmm6            # xmm6 = xmm6[0],xmm7[0],xmm6[1],xmm7[1],xmm6[2],xmm7[2],xmm6[3],xmm7[3]
	punpckldq	%xmm4, %xmm6            # xmm6 = xmm6[0],xmm4[0],xmm6[1],xmm4[1]
	punpcklbw	%xmm10, %xmm11          # xmm11 = xmm11[0],xmm10[0],xmm11[1],xmm10[1],xmm11[2],xmm10[2],xmm11[3],xmm10[3],xmm11[4],xmm10[4],xmm11[5],xmm10[5],xmm11[6],xmm10[6],xmm11[7],xmm10[7]
	punpcklbw	%xmm13, %xmm12          # xmm12 = xmm12[0],xmm13[0],xmm12[1],xmm13[1],xmm12[2],xmm13[2],xmm12[3],xmm13[3],xmm12[4],xmm13[4],xmm12[5],xmm13[5],xmm12[6],xmm13[6],xmm12[7],xmm13[7]
	punpcklwd	%xmm11, %xmm12          # xmm12 = xmm12[0],xmm11[0],xmm12[1],xmm11[1],xmm12[2],xmm11[2],xmm12[3],xmm11[3]
	punpcklbw	%xmm14, %xmm15          # xmm15 = xmm15[0],xmm14[0],xmm15[1],xmm14[1],xmm15[2],xmm14[2],xmm15[3],xmm14[3],xmm15[4],xmm14[4],xmm15[5],xmm14[5],xmm15[6],xmm14[6],xmm15[7],xmm14[7]
	punpcklbw	%xmm1, %xmm0            # xmm0 = xmm0[0],xmm1[0],xmm0[1],xmm1[1],xmm0[2],xmm1[2],xmm0[3],xmm1[3],xmm0[4],xmm1[4],xmm0[5],xmm1[5],xmm0[6],xmm1[6],xmm0[7],xmm1[7]
	punpcklwd	%xmm15, %xmm0           # xmm0 = xmm0[0],xmm15[0],xmm0[1],xmm15[1],xmm0[2],xmm15[2],xmm0[3],xmm15[3]
	punpckldq	%xmm12, %xmm0           # xmm0 = xmm0[0],xmm12[0],xmm0[1],xmm12[1]
	punpcklqdq	%xmm6, %xmm0            # xmm0 = xmm0[0],xmm6[0]
	shll	$5, %edx
	addl	$2016, %edx                     # imm = 0x7E0
	shrl	$3, %edx
	orl	%ecx, %edx
	movd	%edx, %xmm1
	punpcklbw	%xmm1, %xmm1            # xmm1 = xmm1[0,0,1,1,2,2,3,3,4,4,5,5,6,6,7,7]
	pshuflw	$0, %xmm1, %xmm1                # xmm1 = xmm1[0,0,0,0,4,5,6,7]
	pshufd	$68, %xmm1, %xmm1               # xmm1 = xmm1[0,1,0,1]
	paddb	l_CPI7_0(%rip), %xmm1
	pand	%xmm2, %xmm1
	movdqa	%xmm1, -24(%rsp)
	movzbl	-9(%rsp), %eax
	movzbl	-72(%rsp,%rax), %eax
	movd	%eax, %xmm7
	movzbl	-10(%rsp), %eax
	movzbl	-72(%rsp,%rax), %eax
	movd	%eax, %xmm1
	movzbl	-11(%rsp), %eax
	movzbl	-72(%rsp,%rax), %eax
	movd	%eax, %xmm3
	movzbl	-12(%rsp), %eax
	movzbl	-72(%rsp,%rax), %eax
	movd	%eax, %xmm2
	movzbl	-13(%rsp), %eax
	movzbl	-72(%rsp,%rax), %eax
	movd	%eax, %xmm4
	movzbl	-14(%rsp), %eax
	movzbl	-72(%rsp,%rax), %eax
	movd	%eax, %xmm6
	movzbl	-15(%rsp), %eax
	movzbl	-72(%rsp,%rax), %eax
	movd	%eax, %xmm8
	movzbl	-16(%rsp), %eax
	movzbl	-72(%rsp,%rax), %eax
	movd	%eax, %xmm5
	movzbl	-17(%rsp), %eax
	movzbl	-72(%rsp,%rax), %eax
	movd	%eax, %xmm9
	movzbl	-18(%rsp), %eax
	movzbl	-72(%rsp,%rax), %eax
	movd	%eax, %xmm10
	movzbl	-19(%rsp), %eax
	movzbl	-72(%rsp,%rax), %eax
	movd	%eax, %xmm12
	movzbl	-20(%rsp), %eax
	movzbl	-72(%rsp,%rax), %eax
	movd	%eax, %xmm11
	movzbl	-21(%rsp), %eax
	movzbl	-72(%rsp,%rax), %eax
	movd	%eax, %xmm13
	movzbl	-22(%rsp), %eax
	movzbl	-72(%rsp,%rax), %eax
	movd	%eax, %xmm14
	movzbl	-23(%rsp), %eax
	movzbl	-72(%rsp,%rax), %eax
	movd	%eax, %xmm15
	movzbl	-24(%rsp), %eax
	punpcklbw	%xmm7, %xmm1            # xmm1 = xmm1[0],xmm7[0],xmm1[1],xmm7[1],xmm1[2],xmm7[2],xmm1[3],xmm7[3],xmm1[4],xmm7[4],xmm1[5],xmm7[5],xmm1[6],xmm7[6],xmm1[7],xmm7[7]
	movzbl	-72(%rsp,%rax), %eax
	movd	%eax, %xmm7
	movb	$15, %al
                                        # kill: def $cl killed $cl killed $rcx
	shrb	%cl, %al
	movzbl	%al, %eax
	movl	%eax, %ecx
	shll	$4, %ecx
	addl	%eax, %ecx
	punpcklbw	%xmm3, %xmm2            # xmm2 = xmm2[0],xmm3[0],xmm2[1],xmm3[1],xmm2[2],xmm3[2],xmm2[3],xmm3[3],xmm2[4],xmm3[4],xmm2[5],xmm3[5],xmm2[6],xmm3[6],xmm2[7],xmm3[7]
	movd	%ecx, %xmm3
	punpcklwd	%xmm1, %xmm2            # xmm2 = xmm2[0],xmm1[0],xmm2[1],xmm1[1],xmm2[2],xmm1[2],xmm2[3],xmm1[3]
	punpcklbw	%xmm4, %xmm6            # xmm6 = xmm6[0],xmm4[0],xmm6[1],xmm4[1],xmm6[2],xmm4[2],xmm6[3],xmm4[3],xmm6[4],xmm4[4],xmm6[5],xmm4[5],xmm6[6],xmm4[6],xmm6[7],xmm4[7]
	punpcklbw	%xmm8, %xmm5            # xmm5 = xmm5[0],xmm8[0],xmm5[1],xmm8[1],xmm5[2],xmm8[2],xmm5[3],xmm8[3],xmm5[4],xmm8[4],xmm5[5],xmm8[5],xmm5[6],xmm8[6],xmm5[7],xmm8[7]
	punpcklwd	%xmm6, %xmm5            # xmm5 = xmm5[0],xmm6[0],xmm5[1],xmm6[1],xmm5[2],xmm6[2],xmm5[3],xmm6[3]
	punpckldq	%xmm2, %xmm5            # xmm5 = xmm5[0],xmm2[0],xmm5[1],xmm2[1]
	punpcklbw	%xmm9, %xmm10           # xmm10 = xmm10[0],xmm9[0],xmm10[1],xmm9[1],xmm10[2],xmm9[2],xmm10[3],xmm9[3],xmm10[4],xmm9[4],xmm10[5],xmm9[5],xmm10[6],xmm9[6],xmm10[7],xmm9[7]
	punpcklbw	%xmm12, %xmm11          # xmm11 = xmm11[0],xmm12[0],xmm11[1],xmm12[1],xmm11[2],xmm12[2],xmm11[3],xmm12[3],xmm11[4],xmm12[4],xmm11[5],xmm12[5],xmm11[6],xmm12[6],xmm11[7],xmm12[7]
	punpcklwd	%xmm10, %xmm11          # xmm11 = xmm11[0],xmm10[0],xmm11[1],xmm10[1],xmm11[2],xmm10[2],xmm11[3],xmm10[3]
	punpcklbw	%xmm13, %xmm14          # xmm14 = xmm14[0],xmm13[0],xmm14[1],xmm13[1],xmm14[2],xmm13[2],xmm14[3],xmm13[3],xmm14[4],xmm13[4],xmm14[5],xmm13[5],xmm14[6],xmm13[6],xmm14[7],xmm13[7]
	punpcklbw	%xmm15, %xmm7           # xmm7 = xmm7[0],xmm15[0],xmm7[1],xmm15[1],xmm7[2],xmm15[2],xmm7[3],xmm15[3],xmm7[4],xmm15[4],xmm7[5],xmm15[5],xmm7[6],xmm15[6],xmm7[7],xmm15[7]
	punpcklwd	%xmm14, %xmm7           # xmm7 = xmm7[0],xmm14[0],xmm7[1],xmm14[1],xmm7[2],xmm14[2],xmm7[3],xmm14[3]
	punpckldq	%xmm11, %xmm7           # xmm7 = xmm7[0],xmm11[0],xmm7[1],xmm11[1]
	punpcklqdq	%xmm5, %xmm7            # xmm7 = xmm7[0],xmm5[0]
	punpcklbw	%xmm3, %xmm3            # xmm3 = xmm3[0,0,1,1,2,2,3,3,4,4,5,5,6,6,7,7]
	pshuflw	$0, %xmm3, %xmm1                # xmm1 = xmm3[0,0,0,0,4,5,6,7]
	pshufd	$68, %xmm1, %xmm1               # xmm1 = xmm1[0,1,0,1]
	pand	l_CPI7_2(%rip), %xmm1
	pxor	%xmm11, %xmm11
	pcmpeqb	%xmm1, %xmm11
	pand	%xmm11, %xmm7
	pandn	%xmm0, %xmm11
	por	%xmm7, %xmm11
	movq	%xmm11, %rax
	pshufd	$238, %xmm11, %xmm0             # xmm0 = xmm11[2,3,2,3]
	movq	%xmm0, %rdx
	retq
LBB7_1:                                # %then.1.i
	movq	%rdi, -72(%rsp)
	movq	%rsi, -64(%rsp)
	movd	%edx, %xmm0
	punpcklbw	%xmm0, %xmm0            # xmm0 = xmm0[0,0,1,1,2,2,3,3,4,4,5,5,6,6,7,7]
	pshuflw	$0, %xmm0, %xmm0                # xmm0 = xmm0[0,0,0,0,4,5,6,7]
	pshufd	$68, %xmm0, %xmm0               # xmm0 = xmm0[0,1,0,1]
	psllw	$2, %xmm0
	pand	l_CPI7_3(%rip), %xmm0
	paddb	l_CPI7_0(%rip), %xmm0
	pand	l_CPI7_1(%rip), %xmm0
	movdqa	%xmm0, -56(%rsp)
	movzbl	-41(%rsp), %eax
	movzbl	-72(%rsp,%rax), %eax
	movd	%eax, %xmm0
	movzbl	-42(%rsp), %eax
	movzbl	-72(%rsp,%rax), %eax
	movd	%eax, %xmm1
	movzbl	-43(%rsp), %eax
	movzbl	-72(%rsp,%rax), %eax
	movd	%eax, %xmm3
	movzbl	-44(%rsp), %eax
	movzbl	-72(%rsp,%rax), %eax
	movd	%eax, %xmm2
	movzbl	-45(%rsp), %eax
	movzbl	-72(%rsp,%rax), %eax
	movd	%eax, %xmm5
	movzbl	-46(%rsp), %eax
	movzbl	-72(%rsp,%rax), %eax
	movd	%eax, %xmm6
	movzbl	-47(%rsp), %eax
	movzbl	-72(%rsp,%rax), %eax
	movd	%eax, %xmm7
	movzbl	-48(%rsp), %eax
	movzbl	-72(%rsp,%rax), %eax
	movd	%eax, %xmm4
	movzbl	-49(%rsp), %eax
	movzbl	-72(%rsp,%rax), %eax
	movd	%eax, %xmm8
	movzbl	-50(%rsp), %eax
	movzbl	-72(%rsp,%rax), %eax
	movd	%eax, %xmm9
	movzbl	-51(%rsp), %eax
	movzbl	-72(%rsp,%rax), %eax
	movd	%eax, %xmm12
	movzbl	-52(%rsp), %eax
	movzbl	-72(%rsp,%rax), %eax
	movd	%eax, %xmm10
	movzbl	-53(%rsp), %eax
	movzbl	-72(%rsp,%rax), %eax
	movd	%eax, %xmm13
	movzbl	-54(%rsp), %eax
	movzbl	-72(%rsp,%rax), %eax
	movd	%eax, %xmm14
	movzbl	-55(%rsp), %eax
	movzbl	-72(%rsp,%rax), %eax
	movd	%eax, %xmm15
	movzbl	-56(%rsp), %eax
	movzbl	-72(%rsp,%rax), %eax
	movd	%eax, %xmm11
	punpcklbw	%xmm0, %xmm1            # xmm1 = xmm1[0],xmm0[0],xmm1[1],xmm0[1],xmm1[2],xmm0[2],xmm1[3],xmm0[3],xmm1[4],xmm0[4],xmm1[5],xmm0[5],xmm1[6],xmm0[6],xmm1[7],xmm0[7]
	punpcklbw	%xmm3, %xmm2            # xmm2 = xmm2[0],xmm3[0],xmm2[1],xmm3[1],xmm2[2],xmm3[2],xmm2[3],xmm3[3],xmm2[4],xmm3[4],xmm2[5],xmm3[5],xmm2[6],xmm3[6],xmm2[7],xmm3[7]
	punpcklwd	%xmm1, %xmm2            # xmm2 = xmm2[0],xmm1[0],xmm2[1],xmm1[1],xmm2[2],xmm1[2],xmm2[3],xmm1[3]
	punpcklbw	%xmm5, %xmm6            # xmm6 = xmm6[0],xmm5[0],xmm6[1],xmm5[1],xmm6[2],xmm5[2],xmm6[3],xmm5[3],xmm6[4],xmm5[4],xmm6[5],xmm5[5],xmm6[6],xmm5[6],xmm6[7],xmm5[7]
	punpcklbw	%xmm7, %xmm4            # xmm4 = xmm4[0],xmm7[0],xmm4[1],xmm7[1],xmm4[2],xmm7[2],xmm4[3],xmm7[3],xmm4[4],xmm7[4],xmm4[5],xmm7[5],xmm4[6],xmm7[6],xmm4[7],xmm7[7]
	punpcklwd	%xmm6, %xmm4            # xmm4 = xmm4[0],xmm6[0],xmm4[1],xmm6[1],xmm4[2],xmm6[2],xmm4[3],xmm6[3]
	punpckldq	%xmm2, %xmm4            # xmm4 = xmm4[0],xmm2[0],xmm4[1],xmm2[1]
	punpcklbw	%xmm8, %xmm9            # xmm9 = xmm9[0],xmm8[0],xmm9[1],xmm8[1],xmm9[2],xmm8[2],xmm9[3],xmm8[3],xmm9[4],xmm8[4],xmm9[5],xmm8[5],xmm9[6],xmm8[6],xmm9[7],xmm8[7]
	punpcklbw	%xmm12, %xmm10          # xmm10 = xmm10[0],xmm12[0],xmm10[1],xmm12[1],xmm10[2],xmm12[2],xmm10[3],xmm12[3],xmm10[4],xmm12[4],xmm10[5],xmm12[5],xmm10[6],xmm12[6],xmm10[7],xmm12[7]
	punpcklwd	%xmm9, %xmm10           # xmm10 = xmm10[0],xmm9[0],xmm10[1],xmm9[1],xmm10[2],xmm9[2],xmm10[3],xmm9[3]
	punpcklbw	%xmm13, %xmm14          # xmm14 = xmm14[0],xmm13[0],xmm14[1],xmm13[1],xmm14[2],xmm13[2],xmm14[3],xmm13[3],xmm14[4],xmm13[4],xmm14[5],xmm13[5],xmm14[6],xmm13[6],xmm14[7],xmm13[7]
	punpcklbw	%xmm15, %xmm11          # xmm11 = xmm11[0],xmm15[0],xmm11[1],xmm15[1],xmm11[2],xmm15[2],xmm11[3],xmm15[3],xmm11[4],xmm15[4],xmm11[5],xmm15[5],xmm11[6],xmm15[6],xmm11[7],xmm15[7]
	punpcklwd	%xmm14, %xmm11          # xmm11 = xmm11[0],xmm14[0],xmm11[1],xmm14[1],xmm11[2],xmm14[2],xmm11[3],xmm14[3]
	punpckldq	%xmm10, %xmm11          # xmm11 = xmm11[0],xmm10[0],xmm11[1],xmm10[1]
	punpcklqdq	%xmm4, %xmm11           # xmm11 = xmm11[0],xmm4[0]
	movq	%xmm11, %rax
	pshufd	$238, %xmm11, %xmm0             # xmm0 = xmm11[2,3,2,3]
	movq	%xmm0, %rdx
	retq
                                        # -- End function
	.section	__TEXT,__text,regular,pure_instructions
	.p2align	4                               # -- Begin function aes_cipher::zeroize::elements::zeroize_elements::<#c76276a60742133e>
"aes_cipher::zeroize::elements::zeroize_elements::<#c76276a60742133e>": # @"aes_cipher::zeroize::elements::zeroize_elements::<#c76276a60742133e>"
# %bb.0:                                # %start
	pushq	%rbp
	pushq	%r14
	pushq	%rbx
	subq	$16, %rsp
	movq	$0, 8(%rsp)
	#APP
	#NO_APP
	movq	8(%rsp), %r14
	#APP
	#NO_APP
	cmpq	$120, %r14
	jae	LBB8_1
# %bb.2:                                # %then.1.i
	shlq	$4, %r14
	movzbl	(%rdi,%r14), %ebp
	movl	$1920, %edx                     # imm = 0x780
	movq	%rdi, %rbx
	xorl	%esi, %esi
	callq	_memset
	movzbl	(%rbx,%r14), %ebx
	andl	%ebp, %ebx
	jmp	LBB8_3
LBB8_1:                                # %"aes_cipher::zeroize::observe::<#9e34c64723791769>.exit11"
	xorl	%ebx, %ebx
	movl	$1920, %edx                     # imm = 0x780
	xorl	%esi, %esi
	callq	_memset
LBB8_3:                                # %"aes_cipher::zeroize::observe::<#9e34c64723791769>.exit"
	#APP
	#NO_APP
	xchgq	%rbx, 8(%rsp)
	#APP
	#NO_APP
	addq	$16, %rsp
	popq	%rbx
	popq	%r14
	popq	%rbp
	retq
                                        # -- End function
	.section	__TEXT,__text,regular,pure_instructions
	.p2align	4                               # -- Begin function aes_soft::soft::blocks::slices::process_batches_outlined::<#c44f11ce38a8a6aa>
"aes_soft::soft::blocks::slices::process_batches_outlined::<#c44f11ce38a8a6aa>": # @"aes_soft::soft::blocks::slices::process_batches_outlined::<#c44f11ce38a8a6aa>"
# %bb.0:                                # %start
	testq	%rcx, %rcx
	je	LBB9_4
# %bb.1:                                # %join.5.i.lr.ph
	pushq	%r15
	pushq	%r14
	pushq	%r12
	pushq	%rbx
	subq	$24, %rsp
	movq	%rcx, %rbx
	movq	%rdx, %r14
	movq	%rsi, %r15
	movq	%rdi, %r12
	shrq	$3, %r15
	decq	%r15
	.p2align	4
LBB9_2:                                # %join.5.i
                                        # =>This Inner Loop Header: Depth=1
	xorps	%xmm0, %xmm0
	movaps	%xmm0, (%rsp)
	movq	%rsp, %rdi
	movq	%r12, %rsi
	movq	%r15, %rdx
	movq	%r14, %rcx
	callq	"aes_soft::soft::ciphers::planes::process_outlined::<#1ace7dc93dd230c5>"
	movaps	(%rsp), %xmm0
	movups	%xmm0, (%r14)
	addq	$16, %r14
	decq	%rbx
	jne	LBB9_2
# %bb.3:
	addq	$24, %rsp
	popq	%rbx
	popq	%r12
	popq	%r14
	popq	%r15
LBB9_4:                                # %"aes_soft::soft::blocks::slices::process_batches_under::<#c44f11ce38a8a6aa>.exit"
	retq
                                        # -- End function
	.section	__TEXT,__const
	.p2align	4, 0x0                          # -- Begin function aes_soft::soft::ciphers::planes::process_outlined::<#1ace7dc93dd230c5>
l_CPI10_0:
	.zero	16,48
	.section	__TEXT,__text,regular,pure_instructions
	.p2align	4
"aes_soft::soft::ciphers::planes::process_outlined::<#1ace7dc93dd230c5>": # @"aes_soft::soft::ciphers::planes::process_outlined::<#1ace7dc93dd230c5>"
# %bb.0:                                # %start
	pushq	%rbp
	pushq	%r15
	pushq	%r14
	pushq	%r13
	pushq	%r12
	pushq	%rbx
	subq	$24, %rsp
	movq	%rdi, 8(%rsp)                   # 8-byte Spill
	movdqu	(%rcx), %xmm0
	pxor	%xmm1, %xmm1
	movdqa	%xmm0, %xmm2
	punpckhbw	%xmm1, %xmm2            # xmm2 = xmm2[8],xmm1[8],xmm2[9],xmm1[9],xmm2[10],xmm1[10],xmm2[11],xmm1[11],xmm2[12],xmm1[12],xmm2[13],xmm1[13],xmm2[14],xmm1[14],xmm2[15],xmm1[15]
	pshufd	$231, %xmm2, %xmm3              # xmm3 = xmm2[3,1,2,3]
	pshuflw	$114, %xmm3, %xmm3              # xmm3 = xmm3[2,0,3,1,4,5,6,7]
	punpcklbw	%xmm1, %xmm0            # xmm0 = xmm0[0],xmm1[0],xmm0[1],xmm1[1],xmm0[2],xmm1[2],xmm0[3],xmm1[3],xmm0[4],xmm1[4],xmm0[5],xmm1[5],xmm0[6],xmm1[6],xmm0[7],xmm1[7]
	pshufd	$231, %xmm0, %xmm1              # xmm1 = xmm0[3,1,2,3]
	pshuflw	$114, %xmm1, %xmm1              # xmm1 = xmm1[2,0,3,1,4,5,6,7]
	punpckldq	%xmm3, %xmm1            # xmm1 = xmm1[0],xmm3[0],xmm1[1],xmm3[1]
	pshufd	$232, %xmm2, %xmm2              # xmm2 = xmm2[0,2,2,3]
	pshuflw	$216, %xmm2, %xmm2              # xmm2 = xmm2[0,2,1,3,4,5,6,7]
	pshufd	$232, %xmm0, %xmm0              # xmm0 = xmm0[0,2,2,3]
	pshuflw	$216, %xmm0, %xmm0              # xmm0 = xmm0[0,2,1,3,4,5,6,7]
	punpckldq	%xmm2, %xmm0            # xmm0 = xmm0[0],xmm2[0],xmm0[1],xmm2[1]
	packuswb	%xmm1, %xmm0
	movdqa	%xmm0, %xmm1
	psllw	$7, %xmm1
	pmovmskb	%xmm1, %r15d
	movdqa	%xmm0, %xmm1
	psllw	$6, %xmm1
	pmovmskb	%xmm1, %r13d
	movdqa	%xmm0, %xmm1
	psllw	$5, %xmm1
	pmovmskb	%xmm1, %r11d
	movdqa	%xmm0, %xmm1
	psllw	$4, %xmm1
	pmovmskb	%xmm1, %ebp
	movdqa	%xmm0, %xmm1
	psllw	$3, %xmm1
	pmovmskb	%xmm1, %ecx
	movdqa	%xmm0, %xmm1
	psllw	$2, %xmm1
	pmovmskb	%xmm1, %ebx
	pmovmskb	%xmm0, %r12d
	paddb	%xmm0, %xmm0
	pmovmskb	%xmm0, %r14d
	xorw	14(%rsi), %r12w
	xorw	12(%rsi), %r14w
	xorw	10(%rsi), %bx
	xorw	8(%rsi), %cx
	xorw	6(%rsi), %bp
	xorw	4(%rsi), %r11w
	xorw	2(%rsi), %r13w
	movq	%rdx, -48(%rsp)                 # 8-byte Spill
	leaq	-2(%rdx), %rax
	movq	%rsi, -56(%rsp)                 # 8-byte Spill
	xorw	(%rsi), %r15w
	movq	%rax, (%rsp)                    # 8-byte Spill
	shlq	$4, %rax
	movq	%rax, -8(%rsp)                  # 8-byte Spill
	andq	$-64, %rax
	movq	%rax, 16(%rsp)                  # 8-byte Spill
	movq	$0, -80(%rsp)                   # 8-byte Folded Spill
	.p2align	4
LBB10_1:                               # %join.7.i
                                        # =>This Inner Loop Header: Depth=1
	xorl	%r14d, %ebx
	movl	%ecx, %r10d
	xorl	%r12d, %r10d
	movl	%r15d, %r9d
	xorl	%ebx, %r9d
	movl	%r9d, -116(%rsp)                # 4-byte Spill
	movl	%r9d, %r8d
	xorl	%ecx, %r8d
	movl	%r8d, -128(%rsp)                # 4-byte Spill
	andl	%r15d, %r8d
	xorl	%r13d, %r9d
	xorl	%r12d, %r13d
	xorl	%r11d, %ecx
	movl	%r13d, %eax
	xorl	%ecx, %eax
	xorl	%eax, %ebp
	movl	%eax, -112(%rsp)                # 4-byte Spill
	movl	%ebp, %edx
	xorl	%r11d, %edx
	xorl	%r14d, %ebp
	xorl	%r12d, %r11d
	movl	%r11d, -60(%rsp)                # 4-byte Spill
	movl	%edx, %edi
	andl	%eax, %edi
	movl	%edx, %esi
	movl	%edx, %r14d
	movl	%edx, -120(%rsp)                # 4-byte Spill
	xorl	%ebx, %esi
	xorl	%r11d, %r8d
	xorl	%esi, %r8d
	xorl	%edi, %r8d
	xorl	%ebp, %edi
	movl	%r10d, -92(%rsp)                # 4-byte Spill
	xorl	%r10d, %ebp
	movl	%ebp, %edx
	andl	%r10d, %edx
	movl	%ebp, %r10d
	movl	%esi, %eax
	movl	%esi, -104(%rsp)                # 4-byte Spill
	xorl	%esi, %r10d
	movl	%r10d, -100(%rsp)               # 4-byte Spill
	andl	%ecx, %r10d
	andl	%r11d, %eax
	xorl	%edx, %r10d
	xorl	%edx, %eax
	movl	%r14d, %edx
	xorl	%r15d, %edx
	movl	%edx, -108(%rsp)                # 4-byte Spill
	movl	%r9d, -88(%rsp)                 # 4-byte Spill
	movl	%r9d, %r14d
	xorl	%r11d, %r14d
	movl	%r14d, -96(%rsp)                # 4-byte Spill
	andl	%r14d, %edx
	xorl	%edx, %edi
	xorl	%ebp, %ebx
	movl	%ebp, %r14d
	movl	%r9d, %ebp
	movl	-116(%rsp), %esi                # 4-byte Reload
	andl	%esi, %ebp
	movl	%ebx, %r9d
	andl	%r13d, %r9d
	xorl	%r10d, %edi
	xorl	%ebx, %ebp
	xorl	%r9d, %ebp
	xorl	%r13d, %ebp
	xorl	%r10d, %ebp
	xorl	%r12d, %esi
	movl	%esi, -68(%rsp)                 # 4-byte Spill
	xorl	%r12d, %r9d
	movl	%r14d, %edx
	movl	%r14d, %r12d
	xorl	%r15d, %edx
	movl	%edx, -84(%rsp)                 # 4-byte Spill
	andl	%esi, %edx
	xorl	%ebx, %edx
	xorl	%edx, %r9d
	xorl	%eax, %r8d
	xorl	%eax, %r9d
	movl	%r15d, %r14d
	movl	%ebp, %r15d
	andl	%edi, %r15d
	movl	%r15d, %eax
	xorl	%r8d, %eax
	movl	%r9d, %r10d
	xorl	%ebp, %r10d
	andl	%eax, %r10d
	xorl	%r8d, %edi
	movl	%r10d, %eax
	xorl	%r15d, %r10d
	xorl	%r9d, %r15d
	movl	%r15d, %esi
	andl	%edi, %esi
	xorl	%r8d, %esi
	xorl	%r9d, %eax
	andl	%r9d, %r10d
	xorl	%r10d, %r15d
	andl	%esi, %r15d
	xorl	%edi, %r15d
	xorl	%ebp, %r10d
	movl	%r10d, -124(%rsp)               # 4-byte Spill
	andl	%eax, -128(%rsp)                # 4-byte Folded Spill
	movl	%r10d, %edx
	xorl	%eax, %edx
	movl	%esi, %ebp
	xorl	%eax, %ebp
	andl	%r14d, %eax
	movl	%r15d, %r9d
	xorl	%edx, %r9d
	andl	%ebp, %r12d
	movl	%r12d, -64(%rsp)                # 4-byte Spill
	movl	%r9d, %edi
	xorl	%ebp, %edi
	andl	-92(%rsp), %ebp                 # 4-byte Folded Reload
	movl	%r15d, %r12d
	xorl	%esi, %r12d
	andl	%r12d, %ebx
	andl	%r13d, %r12d
	movl	-116(%rsp), %r10d               # 4-byte Reload
	andl	%r15d, %r10d
	andl	-88(%rsp), %r15d                # 4-byte Folded Reload
	movl	-108(%rsp), %r8d                # 4-byte Reload
	andl	%edx, %r8d
	andl	-96(%rsp), %edx                 # 4-byte Folded Reload
	andl	%edi, %ecx
	andl	-100(%rsp), %edi                # 4-byte Folded Reload
	movl	-68(%rsp), %r13d                # 4-byte Reload
	andl	%esi, %r13d
	andl	-84(%rsp), %esi                 # 4-byte Folded Reload
	movl	-120(%rsp), %r14d               # 4-byte Reload
	movl	-124(%rsp), %r11d               # 4-byte Reload
	andl	%r11d, %r14d
	andl	-112(%rsp), %r11d               # 4-byte Folded Reload
	xorl	%r14d, %r8d
	xorl	%eax, %r14d
	movl	%r10d, %eax
	xorl	%ebx, %eax
	xorl	%r14d, %esi
	xorl	%ebx, %esi
	xorl	%ebp, %ecx
	xorl	%ecx, %edx
	xorl	%esi, %r15d
	movl	%esi, %r10d
	xorl	%ecx, %r15d
	xorl	%eax, %edi
	movl	%r8d, %esi
	xorl	%eax, %esi
	movl	-104(%rsp), %eax                # 4-byte Reload
	andl	%r9d, %eax
	xorl	%edx, %r11d
	xorl	%eax, %r14d
	xorl	%r12d, %r14d
	xorl	%edi, %r14d
	movl	%r13d, %eax
	xorl	%r14d, %eax
	xorl	%r11d, %esi
	movl	%r11d, %r8d
	xorl	%r15d, %r14d
	xorl	-64(%rsp), %edi                 # 4-byte Folded Reload
	movl	%esi, %ebx
	xorl	%edi, %ebx
	xorl	%r12d, %r15d
	xorl	-128(%rsp), %edx                # 4-byte Folded Reload
	xorl	%esi, %r10d
	andl	-60(%rsp), %r9d                 # 4-byte Folded Reload
	xorl	%eax, %edx
	xorl	%edi, %r8d
	xorl	%ebp, %r9d
	xorl	%edi, %r9d
	xorl	%eax, %r9d
	movl	%r15d, %ebp
	movl	%ebp, %eax
	rolw	$11, %ax
	movl	%ebp, %ecx
	rorw	%cx
	andl	$30583, %eax                    # imm = 0x7777
	andl	$-30584, %ecx                   # imm = 0x8888
	orl	%eax, %ecx
	movl	%ecx, %r15d
	movl	%r14d, %eax
	rolw	$11, %ax
	movl	%r14d, %r13d
	movl	%r14d, %r11d
	rorw	%r13w
	andl	$30583, %eax                    # imm = 0x7777
	andl	$-30584, %r13d                  # imm = 0x8888
	movl	%edx, -124(%rsp)                # 4-byte Spill
	movl	%edx, %ecx
	rolw	$11, %cx
	orl	%eax, %r13d
	movl	%edx, %r14d
	rorw	%r14w
	andl	$30583, %ecx                    # imm = 0x7777
	movl	%r10d, %eax
	rolw	$11, %ax
	andl	$-30584, %r14d                  # imm = 0x8888
	movl	%r10d, %edi
	movl	%r10d, %edx
	rorw	%di
	orl	%ecx, %r14d
	movl	%r14d, -104(%rsp)               # 4-byte Spill
	andl	$30583, %eax                    # imm = 0x7777
	andl	$-30584, %edi                   # imm = 0x8888
	orl	%eax, %edi
	movl	%edi, -112(%rsp)                # 4-byte Spill
	movl	%esi, %eax
	rolw	$11, %ax
	movl	%esi, %ecx
	movl	%esi, %r14d
	rorw	%cx
	andl	$30583, %eax                    # imm = 0x7777
	andl	$-30584, %ecx                   # imm = 0x8888
	orl	%eax, %ecx
	movl	%ecx, %r12d
	movl	%r9d, %eax
	movl	%r9d, -96(%rsp)                 # 4-byte Spill
	movl	%eax, %ecx
	rolw	$11, %cx
                                        # kill: def $ax killed $ax killed $eax def $eax
	rorw	%ax
	andl	$30583, %ecx                    # imm = 0x7777
	andl	$-30584, %eax                   # imm = 0x8888
	movl	%ebx, %esi
	movl	%esi, %edi
	rolw	$11, %di
	orl	%ecx, %eax
	movl	%eax, -100(%rsp)                # 4-byte Spill
	movl	%esi, %eax
	rorw	%ax
	andl	$30583, %edi                    # imm = 0x7777
	movl	%r8d, %ecx
	rolw	$11, %cx
	andl	$-30584, %eax                   # imm = 0x8888
	movl	%r8d, %r9d
	movl	%r8d, %r10d
	rorw	%r9w
	orl	%edi, %eax
	movl	%eax, -88(%rsp)                 # 4-byte Spill
	andl	$30583, %ecx                    # imm = 0x7777
	andl	$-30584, %r9d                   # imm = 0x8888
	orl	%ecx, %r9d
	movl	%r9d, -84(%rsp)                 # 4-byte Spill
	xorl	%r15d, %ebp
	movl	%ebp, %edi
	rolw	$6, %di
	movl	%r11d, %ebx
	xorl	%r13d, %ebx
	movl	%ebx, -120(%rsp)                # 4-byte Spill
	movl	%ebp, %eax
	rolw	$10, %ax
	andl	$13107, %edi                    # imm = 0x3333
	movl	%ebx, %r11d
	rolw	$6, %r11w
	andl	$52428, %eax                    # imm = 0xCCCC
                                        # kill: def $bx killed $bx killed $ebx def $ebx
	rolw	$10, %bx
	orl	%edi, %eax
	movl	%eax, -92(%rsp)                 # 4-byte Spill
	andl	$13107, %r11d                   # imm = 0x3333
	andl	$52428, %ebx                    # imm = 0xCCCC
	orl	%r11d, %ebx
	xorl	%r13d, %ebp
	movl	-124(%rsp), %r8d                # 4-byte Reload
	xorl	-104(%rsp), %r8d                # 4-byte Folded Reload
	movl	%r14d, %ecx
	xorl	%r12d, %ecx
	movl	%r10d, %eax
	xorl	%r9d, %eax
	xorl	%eax, %r15d
	movl	%r15d, -128(%rsp)               # 4-byte Spill
	xorl	%eax, %ebp
	movl	%ebp, -116(%rsp)                # 4-byte Spill
	xorl	%eax, %r12d
	movl	%r12d, %r14d
	movl	%eax, %r11d
	movl	%eax, %r10d
	xorl	%r8d, %eax
	movl	%eax, -124(%rsp)                # 4-byte Spill
	movl	%r8d, %r13d
                                        # kill: def $r8w killed $r8w killed $r8d def $r8d
	rolw	$6, %r8w
	rolw	$10, %r13w
	andl	$13107, %r8d                    # imm = 0x3333
	andl	$52428, %r13d                   # imm = 0xCCCC
	orl	%r8d, %r13d
	movl	%edx, %eax
	xorl	-112(%rsp), %eax                # 4-byte Folded Reload
	xorl	%eax, %r14d
	movl	%eax, %edi
	movl	%eax, %edx
	rolw	$6, %di
                                        # kill: def $dx killed $dx killed $edx def $edx
	rolw	$10, %dx
	andl	$13107, %edi                    # imm = 0x3333
	andl	$52428, %edx                    # imm = 0xCCCC
	movl	%ecx, %r8d
	movl	%ecx, -108(%rsp)                # 4-byte Spill
	movl	%r8d, %eax
	rolw	$6, %ax
	orl	%edi, %edx
                                        # kill: def $r8w killed $r8w killed $r8d def $r8d
	rolw	$10, %r8w
	andl	$13107, %eax                    # imm = 0x3333
	andl	$52428, %r8d                    # imm = 0xCCCC
	orl	%eax, %r8d
	movl	-96(%rsp), %r9d                 # 4-byte Reload
	xorl	-100(%rsp), %r9d                # 4-byte Folded Reload
	movl	-88(%rsp), %r12d                # 4-byte Reload
	xorl	%r12d, %esi
	movl	%r9d, %eax
	rolw	$6, %ax
	movl	%r9d, %edi
	rolw	$10, %di
	andl	$13107, %eax                    # imm = 0x3333
	andl	$52428, %edi                    # imm = 0xCCCC
	movl	%esi, %ecx
	rolw	$6, %cx
	orl	%eax, %edi
	movl	%esi, %eax
	rolw	$10, %ax
	andl	$13107, %ecx                    # imm = 0x3333
	andl	$52428, %eax                    # imm = 0xCCCC
	rolw	$6, %r11w
	orl	%ecx, %eax
	rolw	$10, %r10w
	andl	$13107, %r11d                   # imm = 0x3333
	andl	$52428, %r10d                   # imm = 0xCCCC
	orl	%r11d, %r10d
	movq	-56(%rsp), %r11                 # 8-byte Reload
	movq	-80(%rsp), %rcx                 # 8-byte Reload
	movl	-92(%rsp), %r15d                # 4-byte Reload
	xorw	16(%r11,%rcx), %r15w
	movl	-128(%rsp), %ebp                # 4-byte Reload
	xorl	%r15d, %ebp
	movl	%ebp, -128(%rsp)                # 4-byte Spill
	xorw	18(%r11,%rcx), %bx
	movl	-116(%rsp), %r15d               # 4-byte Reload
	xorl	%ebx, %r15d
	movl	-120(%rsp), %ebx                # 4-byte Reload
	xorl	-104(%rsp), %ebx                # 4-byte Folded Reload
	xorw	20(%r11,%rcx), %r13w
	xorl	%r13d, %ebx
	xorw	24(%r11,%rcx), %r8w
	xorl	%r8d, %r14d
	xorl	%r12d, %r9d
	xorw	28(%r11,%rcx), %ax
	xorw	30(%r11,%rcx), %r10w
	xorl	%eax, %r9d
	movl	%esi, %r13d
	xorl	-84(%rsp), %r13d                # 4-byte Folded Reload
	xorw	26(%r11,%rcx), %di
	movq	%rcx, -80(%rsp)                 # 8-byte Spill
	xorl	%r10d, %r13d
	movl	-108(%rsp), %eax                # 4-byte Reload
	xorl	-100(%rsp), %eax                # 4-byte Folded Reload
	xorl	%edi, %eax
	xorl	%r9d, %eax
	movl	%r14d, %r8d
	xorl	%r13d, %r8d
	movl	%eax, %esi
	movl	%eax, %r12d
	xorl	%ebp, %esi
	movl	%esi, -36(%rsp)                 # 4-byte Spill
	movl	%esi, %ebp
	xorl	%r14d, %ebp
	movl	%ebp, -104(%rsp)                # 4-byte Spill
	movl	%r15d, %eax
	xorl	%r13d, %eax
	movl	%eax, -100(%rsp)                # 4-byte Spill
	xorl	%ebx, %r14d
	xorw	22(%r11,%rcx), %dx
	xorl	%r14d, %eax
	movl	%r14d, -84(%rsp)                # 4-byte Spill
	movl	-124(%rsp), %r10d               # 4-byte Reload
	xorl	-112(%rsp), %r10d               # 4-byte Folded Reload
	xorl	%edx, %r10d
	xorl	%eax, %r10d
	movl	%eax, -96(%rsp)                 # 4-byte Spill
	movl	%r10d, %esi
	xorl	%ebx, %esi
	xorl	%r9d, %r10d
	xorl	%r13d, %ebx
	movl	%esi, %edx
	andl	%eax, %edx
	movl	%esi, %eax
	movl	%esi, -124(%rsp)                # 4-byte Spill
	xorl	%r12d, %eax
	movl	%eax, %r9d
	movl	%eax, -88(%rsp)                 # 4-byte Spill
	movl	%eax, %edi
	xorl	%edx, %edi
	xorl	%r10d, %edx
	movl	%r8d, %eax
	movl	%r8d, -64(%rsp)                 # 4-byte Spill
	xorl	%r8d, %r10d
	movl	%r10d, %r8d
	andl	%eax, %r8d
	movl	%r10d, %ecx
	xorl	%r9d, %ecx
	movl	%ecx, -92(%rsp)                 # 4-byte Spill
	andl	%r14d, %ecx
	movl	%r9d, %eax
	movl	%ebx, -120(%rsp)                # 4-byte Spill
	andl	%ebx, %eax
	xorl	%r8d, %ecx
	xorl	%r8d, %eax
	movl	%ebp, %r8d
	movl	-128(%rsp), %ebp                # 4-byte Reload
	andl	%ebp, %r8d
	xorl	%ebx, %r8d
	xorl	%r8d, %edi
	movl	-36(%rsp), %r14d                # 4-byte Reload
	xorl	%r14d, %r15d
	movl	%r15d, -116(%rsp)               # 4-byte Spill
	xorl	%ebp, %esi
	movl	%r15d, %r11d
	xorl	%ebx, %r11d
	movl	%r11d, -68(%rsp)                # 4-byte Spill
	movl	%esi, %r8d
	andl	%r11d, %r8d
	xorl	%r8d, %edx
	movl	%r10d, -112(%rsp)               # 4-byte Spill
	xorl	%r10d, %r12d
	movl	%r15d, %r8d
	andl	%r14d, %r8d
	movl	%r12d, %ebx
	movl	-100(%rsp), %r9d                # 4-byte Reload
	andl	%r9d, %ebx
	xorl	%ecx, %edx
	xorl	%r12d, %r8d
	movl	%r12d, %r11d
	movl	%r12d, -108(%rsp)               # 4-byte Spill
	xorl	%ebx, %r8d
	xorl	%r9d, %r8d
	xorl	%ecx, %r8d
	movl	%r14d, %r12d
	xorl	%r13d, %r12d
	xorl	%r13d, %ebx
	xorl	%ebp, %r10d
	movl	%r10d, -60(%rsp)                # 4-byte Spill
	andl	%r12d, %r10d
	xorl	%r11d, %r10d
	xorl	%r10d, %ebx
	xorl	%eax, %edi
	xorl	%eax, %ebx
	movl	%r8d, %r11d
	andl	%edx, %r11d
	movl	%r11d, %r9d
	xorl	%edi, %r9d
	movl	%ebx, %r15d
	xorl	%r8d, %r15d
	andl	%r9d, %r15d
	xorl	%edi, %edx
	movl	%r15d, %r10d
	xorl	%r11d, %r15d
	xorl	%ebx, %r11d
	movl	%r11d, %r9d
	andl	%edx, %r9d
	xorl	%edi, %r9d
	xorl	%ebx, %r10d
	andl	%ebx, %r15d
	xorl	%r15d, %r11d
	andl	%r9d, %r11d
	xorl	%edx, %r11d
	xorl	%r8d, %r15d
	andl	%r10d, -104(%rsp)               # 4-byte Folded Spill
	movl	%r15d, %edx
	xorl	%r10d, %edx
	movl	%r9d, %r13d
	xorl	%r10d, %r13d
	andl	%ebp, %r10d
	movl	%r11d, %edi
	xorl	%edx, %edi
	andl	%r13d, -112(%rsp)               # 4-byte Folded Spill
	movl	%edi, %r8d
	xorl	%r13d, %r8d
	andl	-64(%rsp), %r13d                # 4-byte Folded Reload
	movl	%r11d, %ebp
	xorl	%r9d, %ebp
	movl	-108(%rsp), %ecx                # 4-byte Reload
	andl	%ebp, %ecx
	andl	-100(%rsp), %ebp                # 4-byte Folded Reload
	andl	%r11d, %r14d
	andl	-116(%rsp), %r11d               # 4-byte Folded Reload
	andl	%edx, %esi
	andl	-68(%rsp), %edx                 # 4-byte Folded Reload
	movl	-84(%rsp), %eax                 # 4-byte Reload
	andl	%r8d, %eax
	andl	-92(%rsp), %r8d                 # 4-byte Folded Reload
	andl	%r9d, %r12d
	andl	-60(%rsp), %r9d                 # 4-byte Folded Reload
	movl	-124(%rsp), %ebx                # 4-byte Reload
	andl	%r15d, %ebx
	andl	-96(%rsp), %r15d                # 4-byte Folded Reload
	xorl	%ebx, %esi
	xorl	%r10d, %ebx
	xorl	%ecx, %r14d
	xorl	%ebx, %r9d
	xorl	%ecx, %r9d
	xorl	%r13d, %eax
	xorl	%eax, %edx
	xorl	%r9d, %r11d
	xorl	%eax, %r11d
	xorl	%r14d, %r8d
	xorl	%r14d, %esi
	movl	-88(%rsp), %eax                 # 4-byte Reload
	andl	%edi, %eax
	xorl	%edx, %r15d
	xorl	%eax, %ebx
	xorl	%ebp, %ebx
	xorl	%r8d, %ebx
	xorl	%ebx, %r12d
	xorl	%r15d, %esi
	xorl	%r11d, %ebx
	movl	%ebx, %r10d
	xorl	-112(%rsp), %r8d                # 4-byte Folded Reload
	movl	%esi, %ecx
	xorl	%r8d, %ecx
	xorl	%ebp, %r11d
	xorl	-104(%rsp), %edx                # 4-byte Folded Reload
	xorl	%esi, %r9d
	movl	%esi, %ebx
	andl	-120(%rsp), %edi                # 4-byte Folded Reload
	xorl	%r12d, %edx
	xorl	%r8d, %r15d
	xorl	%r13d, %edi
	xorl	%r8d, %edi
	xorl	%r12d, %edi
	movl	%r11d, %esi
	rolw	$10, %si
	movl	%r11d, %eax
	rolw	$14, %ax
	andl	$13107, %esi                    # imm = 0x3333
	andl	$-13108, %eax                   # imm = 0xCCCC
	movl	%r10d, %r13d
	movl	%r10d, -124(%rsp)               # 4-byte Spill
	movl	%r13d, %r8d
	rolw	$10, %r8w
	orl	%esi, %eax
	movl	%eax, %r14d
                                        # kill: def $r13w killed $r13w killed $r13d def $r13d
	rolw	$14, %r13w
	andl	$13107, %r8d                    # imm = 0x3333
	movl	%edx, %r10d
	rolw	$10, %r10w
	andl	$-13108, %r13d                  # imm = 0xCCCC
	movl	%edx, %esi
	rolw	$14, %si
	orl	%r8d, %r13d
	andl	$13107, %r10d                   # imm = 0x3333
	andl	$-13108, %esi                   # imm = 0xCCCC
	orl	%r10d, %esi
	movl	%r9d, %r8d
	rolw	$10, %r8w
	movl	%r9d, %eax
	rolw	$14, %ax
	andl	$13107, %r8d                    # imm = 0x3333
	andl	$-13108, %eax                   # imm = 0xCCCC
	orl	%r8d, %eax
	movl	%eax, -120(%rsp)                # 4-byte Spill
	movl	%ebx, %ebp
	movl	%ebx, -128(%rsp)                # 4-byte Spill
	movl	%ebp, %r8d
	rolw	$10, %r8w
                                        # kill: def $bp killed $bp killed $ebp def $ebp
	rolw	$14, %bp
	andl	$13107, %r8d                    # imm = 0x3333
	andl	$-13108, %ebp                   # imm = 0xCCCC
	movl	%edi, %r10d
	rolw	$10, %r10w
	orl	%r8d, %ebp
	movl	%edi, %r8d
	rolw	$14, %r8w
	andl	$13107, %r10d                   # imm = 0x3333
	movl	%ecx, %r12d
	movl	%ecx, -116(%rsp)                # 4-byte Spill
	movl	%r12d, %ebx
	rolw	$10, %bx
	andl	$-13108, %r8d                   # imm = 0xCCCC
                                        # kill: def $r12w killed $r12w killed $r12d def $r12d
	rolw	$14, %r12w
	orl	%r10d, %r8d
	movl	%r8d, -108(%rsp)                # 4-byte Spill
	andl	$13107, %ebx                    # imm = 0x3333
	andl	$-13108, %r12d                  # imm = 0xCCCC
	orl	%ebx, %r12d
	movl	%r15d, %r10d
	rolw	$10, %r10w
	movl	%r15d, %r8d
	rolw	$14, %r8w
	andl	$13107, %r10d                   # imm = 0x3333
	andl	$-13108, %r8d                   # imm = 0xCCCC
	orl	%r10d, %r8d
	xorl	%r14d, %r11d
	xorl	%r8d, %r15d
	movl	%r11d, %r10d
	rolw	$8, %r10w
	movq	-80(%rsp), %rcx                 # 8-byte Reload
	movq	-56(%rsp), %rax                 # 8-byte Reload
	xorw	32(%rax,%rcx), %r10w
	xorl	%r15d, %r14d
	xorl	%r10d, %r14d
	movl	%r14d, -104(%rsp)               # 4-byte Spill
	movl	-124(%rsp), %ebx                # 4-byte Reload
	xorl	%r13d, %ebx
	movl	%ebx, %r10d
	movl	%ebx, %r14d
	rolw	$8, %r10w
	xorw	34(%rax,%rcx), %r10w
	movq	%rax, %rbx
	xorl	%r13d, %r11d
	xorl	%r15d, %r11d
	xorl	%r10d, %r11d
	xorl	%esi, %edx
	xorl	-120(%rsp), %r9d                # 4-byte Folded Reload
	movl	-128(%rsp), %eax                # 4-byte Reload
	xorl	%ebp, %eax
	xorl	-108(%rsp), %edi                # 4-byte Folded Reload
	xorl	%esi, %r14d
	movl	%r15d, %esi
	xorl	%r15d, %ebp
	xorl	%edx, %r15d
                                        # kill: def $dx killed $dx killed $edx def $edx
	rolw	$8, %dx
	xorl	%r9d, %ebp
                                        # kill: def $r9w killed $r9w killed $r9d def $r9d
	rolw	$8, %r9w
	movq	%rcx, %r13
	xorw	36(%rbx,%rcx), %dx
	xorl	%edx, %r14d
	movl	%r14d, -124(%rsp)               # 4-byte Spill
	movl	%eax, %edx
	movl	%eax, %r14d
	rolw	$8, %dx
	movl	-116(%rsp), %eax                # 4-byte Reload
	xorl	%r12d, %eax
	xorw	40(%rbx,%rcx), %dx
	xorl	%edx, %ebp
	movl	%edi, %edx
	rolw	$8, %dx
	movl	%eax, %r10d
	rolw	$8, %r10w
	rolw	$8, %si
	xorl	%r12d, %edi
	xorw	44(%rbx,%rcx), %r10w
	xorl	%r10d, %edi
	xorw	46(%rbx,%rcx), %si
	xorl	%r8d, %eax
	xorl	%esi, %eax
	xorw	42(%rbx,%rcx), %dx
	movq	%rbx, %r8
	xorl	-108(%rsp), %r14d               # 4-byte Folded Reload
	xorl	%edx, %r14d
	xorl	%edi, %r14d
	movl	%ebp, %r12d
	xorl	%eax, %r12d
	movl	%r14d, %edx
	movl	%r14d, -128(%rsp)               # 4-byte Spill
	xorl	-104(%rsp), %edx                # 4-byte Folded Reload
	movl	%edx, %ecx
	xorl	%ebp, %ecx
	movl	%ecx, -112(%rsp)                # 4-byte Spill
	movl	%r11d, %esi
	xorl	%eax, %esi
	movl	%esi, -100(%rsp)                # 4-byte Spill
	movl	%eax, %r10d
	movl	%eax, -116(%rsp)                # 4-byte Spill
	movl	-124(%rsp), %ebx                # 4-byte Reload
	xorl	%ebx, %ebp
	movl	%esi, %eax
	xorl	%ebp, %eax
	xorw	38(%r8,%r13), %r9w
	xorl	-120(%rsp), %r15d               # 4-byte Folded Reload
	xorl	%r9d, %r15d
	xorl	%eax, %r15d
	movl	%eax, -96(%rsp)                 # 4-byte Spill
	movl	%r15d, %esi
	xorl	%ebx, %esi
	movl	%esi, %r8d
	xorl	%edi, %r15d
	xorl	%r10d, %ebx
	andl	%eax, %esi
	movl	%r8d, %eax
	movl	%r8d, %r9d
	movl	%r8d, -108(%rsp)                # 4-byte Spill
	xorl	%r14d, %eax
	movl	%eax, -88(%rsp)                 # 4-byte Spill
	movl	%eax, %r10d
	xorl	%esi, %r10d
	xorl	%r15d, %esi
	movl	%r12d, -68(%rsp)                # 4-byte Spill
	xorl	%r12d, %r15d
	movl	%r15d, %r8d
	andl	%r12d, %r8d
	movl	%r15d, %edi
	xorl	%eax, %edi
	movl	%edi, -92(%rsp)                 # 4-byte Spill
	andl	%ebp, %edi
	movl	%ebx, %r14d
	movl	%ebx, -124(%rsp)                # 4-byte Spill
	andl	%ebx, %eax
	xorl	%r8d, %edi
	xorl	%r8d, %eax
	movl	%ecx, %r8d
	movl	-104(%rsp), %r13d               # 4-byte Reload
	andl	%r13d, %r8d
	xorl	%ebx, %r8d
	xorl	%r8d, %r10d
	movl	%edx, %ebx
	xorl	%edx, %r11d
	movl	%r9d, %r8d
	xorl	%r13d, %r8d
	movl	%r8d, -120(%rsp)                # 4-byte Spill
	movl	%r11d, %edx
	xorl	%r14d, %edx
	movl	%edx, -84(%rsp)                 # 4-byte Spill
	andl	%edx, %r8d
	xorl	%r8d, %esi
	movl	-128(%rsp), %r8d                # 4-byte Reload
	xorl	%r15d, %r8d
	movl	%r11d, %r12d
	andl	%ebx, %r12d
	movl	%ebx, -60(%rsp)                 # 4-byte Spill
	movl	%r8d, %r9d
	movl	-100(%rsp), %ecx                # 4-byte Reload
	andl	%ecx, %r9d
	xorl	%edi, %esi
	xorl	%r8d, %r12d
	xorl	%r9d, %r12d
	xorl	%ecx, %r12d
	xorl	%edi, %r12d
	movl	%ebx, %ecx
	movl	-116(%rsp), %edi                # 4-byte Reload
	xorl	%edi, %ecx
	movl	%ecx, -64(%rsp)                 # 4-byte Spill
	xorl	%edi, %r9d
	movl	%r15d, %edi
	movl	%r15d, %r14d
	xorl	%r13d, %edi
	movl	%edi, -116(%rsp)                # 4-byte Spill
	andl	%ecx, %edi
	xorl	%r8d, %edi
	movl	%r8d, %ecx
	xorl	%edi, %r9d
	xorl	%eax, %r10d
	xorl	%eax, %r9d
	movl	%r12d, %edx
	andl	%esi, %edx
	movl	%edx, %eax
	xorl	%r10d, %eax
	movl	%r9d, %r15d
	xorl	%r12d, %r15d
	andl	%eax, %r15d
	xorl	%r10d, %esi
	movl	%r15d, %eax
	xorl	%edx, %r15d
	xorl	%r9d, %edx
	movl	%edx, %ebx
	andl	%esi, %ebx
	xorl	%r10d, %ebx
	xorl	%r9d, %eax
	andl	%r9d, %r15d
	xorl	%r15d, %edx
	andl	%ebx, %edx
	xorl	%esi, %edx
	movl	%edx, %r10d
	xorl	%r12d, %r15d
	andl	%eax, -112(%rsp)                # 4-byte Folded Spill
	movl	%r15d, %r8d
	xorl	%eax, %r8d
	movl	%ebx, %r9d
	xorl	%eax, %r9d
	andl	%r13d, %eax
	movl	%edx, %edi
	xorl	%r8d, %edi
	andl	%r9d, %r14d
	movl	%r14d, -104(%rsp)               # 4-byte Spill
	movl	%edi, %r14d
	xorl	%r9d, %r14d
	andl	-68(%rsp), %r9d                 # 4-byte Folded Reload
	movl	%edx, %r12d
	xorl	%ebx, %r12d
	andl	%r12d, %ecx
	movl	%ecx, -128(%rsp)                # 4-byte Spill
	andl	-100(%rsp), %r12d               # 4-byte Folded Reload
	movl	-60(%rsp), %edx                 # 4-byte Reload
	andl	%r10d, %edx
	andl	%r11d, %r10d
	movl	-120(%rsp), %r13d               # 4-byte Reload
	andl	%r8d, %r13d
	andl	-84(%rsp), %r8d                 # 4-byte Folded Reload
	andl	%r14d, %ebp
	andl	-92(%rsp), %r14d                # 4-byte Folded Reload
	movl	-64(%rsp), %esi                 # 4-byte Reload
	andl	%ebx, %esi
	andl	-116(%rsp), %ebx                # 4-byte Folded Reload
	movl	-108(%rsp), %ecx                # 4-byte Reload
	andl	%r15d, %ecx
	andl	-96(%rsp), %r15d                # 4-byte Folded Reload
	xorl	%ecx, %r13d
	xorl	%eax, %ecx
	movl	-128(%rsp), %r11d               # 4-byte Reload
	xorl	%r11d, %edx
	xorl	%ecx, %ebx
	xorl	%r11d, %ebx
	xorl	%r9d, %ebp
	xorl	%ebp, %r8d
	xorl	%ebx, %r10d
	xorl	%ebp, %r10d
	movl	%r10d, %ebp
	xorl	%edx, %r14d
	movl	%edx, %eax
	movl	%r13d, %edx
	xorl	%eax, %edx
	movl	-88(%rsp), %eax                 # 4-byte Reload
	andl	%edi, %eax
	xorl	%r8d, %r15d
	xorl	%eax, %ecx
	xorl	%r12d, %ecx
	xorl	%r14d, %ecx
	movl	%esi, %eax
	xorl	%ecx, %eax
	xorl	%r15d, %edx
	xorl	%r10d, %ecx
	movl	%ecx, %r13d
	xorl	-104(%rsp), %r14d               # 4-byte Folded Reload
	movl	%edx, -120(%rsp)                # 4-byte Spill
	movl	%edx, %esi
	xorl	%r14d, %esi
	xorl	%r12d, %ebp
	xorl	-112(%rsp), %r8d                # 4-byte Folded Reload
	xorl	%edx, %ebx
	andl	-124(%rsp), %edi                # 4-byte Folded Reload
	xorl	%eax, %r8d
	movl	%eax, %edx
	xorl	%r14d, %r15d
	xorl	%r9d, %edi
	xorl	%r14d, %edi
	movl	%ebp, %eax
	rolw	$9, %ax
	xorl	%edx, %edi
	movl	%ebp, %r9d
	rolw	$13, %r9w
	andl	$4369, %eax                     # imm = 0x1111
	rolw	$9, %cx
	andl	$-4370, %r9d                    # imm = 0xEEEE
	movl	%r13d, %edx
	rolw	$13, %dx
	orl	%eax, %r9d
	movl	%r9d, %r12d
	andl	$4369, %ecx                     # imm = 0x1111
	andl	$-4370, %edx                    # imm = 0xEEEE
	orl	%ecx, %edx
	movl	%r8d, %eax
	rolw	$9, %ax
	movl	%r8d, %ecx
	rolw	$13, %cx
	andl	$4369, %eax                     # imm = 0x1111
	andl	$-4370, %ecx                    # imm = 0xEEEE
	orl	%eax, %ecx
	movl	%ecx, -100(%rsp)                # 4-byte Spill
	movl	%ebx, %eax
	rolw	$9, %ax
	movl	%ebx, %r11d
	rolw	$13, %r11w
	andl	$4369, %eax                     # imm = 0x1111
	andl	$-4370, %r11d                   # imm = 0xEEEE
	movl	-120(%rsp), %r14d               # 4-byte Reload
	movl	%r14d, %ecx
	rolw	$9, %cx
	orl	%eax, %r11d
	movl	%r11d, -104(%rsp)               # 4-byte Spill
                                        # kill: def $r14w killed $r14w killed $r14d def $r14d
	rolw	$13, %r14w
	andl	$4369, %ecx                     # imm = 0x1111
	movl	%edi, -128(%rsp)                # 4-byte Spill
	movl	%edi, %eax
	rolw	$9, %ax
	andl	$-4370, %r14d                   # imm = 0xEEEE
                                        # kill: def $di killed $di killed $edi def $edi
	rolw	$13, %di
	orl	%ecx, %r14d
	andl	$4369, %eax                     # imm = 0x1111
	andl	$-4370, %edi                    # imm = 0xEEEE
	orl	%eax, %edi
	movl	%edi, %r10d
	movl	%edi, -92(%rsp)                 # 4-byte Spill
	movl	%esi, -116(%rsp)                # 4-byte Spill
	movl	%esi, %eax
	rolw	$9, %ax
                                        # kill: def $si killed $si killed $esi def $esi
	rolw	$13, %si
	andl	$4369, %eax                     # imm = 0x1111
	andl	$-4370, %esi                    # imm = 0xEEEE
	orl	%eax, %esi
	movl	%esi, -96(%rsp)                 # 4-byte Spill
	movl	%r15d, %r9d
	rolw	$9, %r9w
	movl	%r15d, %eax
	rolw	$13, %ax
	andl	$4369, %r9d                     # imm = 0x1111
	xorl	%r12d, %ebp
	movl	%ebp, %r11d
	rolw	$6, %r11w
	andl	$-4370, %eax                    # imm = 0xEEEE
	movl	%ebp, %ecx
	rolw	$10, %cx
	orl	%r9d, %eax
	movl	%eax, -88(%rsp)                 # 4-byte Spill
	andl	$13107, %r11d                   # imm = 0x3333
	andl	$52428, %ecx                    # imm = 0xCCCC
	orl	%r11d, %ecx
	xorl	%edx, %r13d
	movl	%r13d, -108(%rsp)               # 4-byte Spill
	movl	%r13d, %r9d
	rolw	$6, %r9w
	movl	%r13d, %r11d
	rolw	$10, %r11w
	andl	$13107, %r9d                    # imm = 0x3333
	andl	$52428, %r11d                   # imm = 0xCCCC
	orl	%r9d, %r11d
	xorl	%edx, %ebp
	xorl	-100(%rsp), %r8d                # 4-byte Folded Reload
	movl	-120(%rsp), %edx                # 4-byte Reload
	xorl	%r14d, %edx
	xorl	%eax, %r15d
	xorl	%r15d, %r12d
	movl	%r12d, -112(%rsp)               # 4-byte Spill
	xorl	%r15d, %ebp
	movl	%ebp, -124(%rsp)                # 4-byte Spill
	xorl	%r15d, %r14d
	movl	%r15d, %r9d
	movl	%r15d, %edi
	xorl	%r8d, %r15d
	movl	%r8d, %r12d
                                        # kill: def $r8w killed $r8w killed $r8d def $r8d
	rolw	$6, %r8w
	xorl	-104(%rsp), %ebx                # 4-byte Folded Reload
	rolw	$10, %r12w
	andl	$13107, %r8d                    # imm = 0x3333
	andl	$52428, %r12d                   # imm = 0xCCCC
	xorl	%ebx, %r14d
	movl	%ebx, %esi
                                        # kill: def $bx killed $bx killed $ebx def $ebx
	rolw	$6, %bx
	rolw	$10, %si
	orl	%r8d, %r12d
	andl	$13107, %ebx                    # imm = 0x3333
	andl	$52428, %esi                    # imm = 0xCCCC
	orl	%ebx, %esi
	movl	-128(%rsp), %eax                # 4-byte Reload
	xorl	%r10d, %eax
	movl	%eax, -128(%rsp)                # 4-byte Spill
	movl	%edx, %r13d
	movl	%edx, -120(%rsp)                # 4-byte Spill
	movl	%r13d, %ebx
	rolw	$6, %bx
                                        # kill: def $r13w killed $r13w killed $r13d def $r13d
	rolw	$10, %r13w
	andl	$13107, %ebx                    # imm = 0x3333
	andl	$52428, %r13d                   # imm = 0xCCCC
	movl	%eax, %r10d
	rolw	$6, %r10w
	orl	%ebx, %r13d
	movl	%eax, %ebx
	rolw	$10, %bx
	andl	$13107, %r10d                   # imm = 0x3333
	andl	$52428, %ebx                    # imm = 0xCCCC
	orl	%r10d, %ebx
	movl	-116(%rsp), %ebp                # 4-byte Reload
	movl	-96(%rsp), %eax                 # 4-byte Reload
	xorl	%eax, %ebp
	movl	%ebp, -116(%rsp)                # 4-byte Spill
	movl	%ebp, %r10d
	rolw	$6, %r10w
                                        # kill: def $bp killed $bp killed $ebp def $ebp
	rolw	$10, %bp
	andl	$13107, %r10d                   # imm = 0x3333
	andl	$52428, %ebp                    # imm = 0xCCCC
	rolw	$6, %r9w
	rolw	$10, %di
	orl	%r10d, %ebp
	andl	$13107, %r9d                    # imm = 0x3333
	andl	$52428, %edi                    # imm = 0xCCCC
	orl	%r9d, %edi
	movq	-80(%rsp), %r9                  # 8-byte Reload
	movq	-56(%rsp), %r10                 # 8-byte Reload
	xorw	48(%r10,%r9), %cx
	xorw	50(%r10,%r9), %r11w
	movl	-112(%rsp), %edx                # 4-byte Reload
	xorl	%ecx, %edx
	movl	%edx, -112(%rsp)                # 4-byte Spill
	movl	-124(%rsp), %r8d                # 4-byte Reload
	xorl	%r11d, %r8d
	movl	%r8d, -124(%rsp)                # 4-byte Spill
	xorw	52(%r10,%r9), %r12w
	movl	-108(%rsp), %ecx                # 4-byte Reload
	xorl	-100(%rsp), %ecx                # 4-byte Folded Reload
	xorl	%r12d, %ecx
	movl	%ecx, %r12d
	xorw	56(%r10,%r9), %r13w
	xorl	%r13d, %r14d
	movl	-128(%rsp), %r11d               # 4-byte Reload
	xorl	%eax, %r11d
	xorw	60(%r10,%r9), %bp
	xorl	%ebp, %r11d
	xorw	62(%r10,%r9), %di
	movl	-116(%rsp), %ecx                # 4-byte Reload
	xorl	-88(%rsp), %ecx                 # 4-byte Folded Reload
	xorl	%edi, %ecx
	xorw	58(%r10,%r9), %bx
	movq	%r10, %r13
	movq	%r9, %rbp
	movl	-120(%rsp), %edi                # 4-byte Reload
	xorl	-92(%rsp), %edi                 # 4-byte Folded Reload
	xorl	%ebx, %edi
	xorl	%r11d, %edi
	movl	%r11d, %r10d
	movl	%r14d, %ebx
	xorl	%ecx, %ebx
	movl	%edi, %r9d
	movl	%edi, -120(%rsp)                # 4-byte Spill
	xorl	%edx, %r9d
	movl	%r9d, -100(%rsp)                # 4-byte Spill
	movl	%r9d, %eax
	xorl	%r14d, %eax
	movl	%eax, -128(%rsp)                # 4-byte Spill
	movl	%r8d, %eax
	xorl	%ecx, %eax
	movl	%eax, -116(%rsp)                # 4-byte Spill
	movl	%ecx, %r9d
	xorl	%r12d, %r14d
	xorl	%r14d, %eax
	movl	%r14d, -92(%rsp)                # 4-byte Spill
	xorw	54(%r13,%rbp), %si
	xorl	-104(%rsp), %r15d               # 4-byte Folded Reload
	xorl	%esi, %r15d
	xorl	%eax, %r15d
	movl	%eax, -96(%rsp)                 # 4-byte Spill
	movl	%r15d, %r11d
	xorl	%r12d, %r11d
	xorl	%r10d, %r15d
	xorl	%ecx, %r12d
	movl	%r11d, %edx
	andl	%eax, %edx
	movl	%r11d, %eax
	xorl	%edi, %eax
	movl	%eax, -104(%rsp)                # 4-byte Spill
	movl	%eax, %ebp
	xorl	%edx, %ebp
	xorl	%r15d, %edx
	movl	%ebx, -68(%rsp)                 # 4-byte Spill
	xorl	%ebx, %r15d
	movl	%r15d, %edi
	andl	%ebx, %edi
	movl	%r15d, %ecx
	movl	%r15d, %r10d
	xorl	%eax, %ecx
	movl	%ecx, -88(%rsp)                 # 4-byte Spill
	andl	%r14d, %ecx
	movl	%r12d, %esi
	movl	%r12d, -108(%rsp)               # 4-byte Spill
	andl	%r12d, %eax
	xorl	%edi, %ecx
	xorl	%edi, %eax
	movl	-128(%rsp), %r12d               # 4-byte Reload
	movl	%r12d, %edi
	movl	-112(%rsp), %r14d               # 4-byte Reload
	andl	%r14d, %edi
	xorl	%esi, %edi
	xorl	%edi, %ebp
	movl	-100(%rsp), %r8d                # 4-byte Reload
	movl	-124(%rsp), %r15d               # 4-byte Reload
	xorl	%r8d, %r15d
	movl	%r15d, -124(%rsp)               # 4-byte Spill
	movl	%r11d, %ebx
	xorl	%r14d, %ebx
	movl	%r15d, %r13d
	xorl	%esi, %r13d
	movl	%r13d, -84(%rsp)                # 4-byte Spill
	movl	%ebx, %edi
	andl	%r13d, %edi
	xorl	%edi, %edx
	movl	-120(%rsp), %r13d               # 4-byte Reload
	xorl	%r10d, %r13d
	movl	%r10d, %esi
	movl	%r15d, %edi
	andl	%r8d, %edi
	movl	%r8d, %r15d
	movl	%r13d, %r10d
	movl	-116(%rsp), %r8d                # 4-byte Reload
	andl	%r8d, %r10d
	xorl	%ecx, %edx
	xorl	%r13d, %edi
	xorl	%r10d, %edi
	xorl	%r8d, %edi
	xorl	%ecx, %edi
	movl	%r15d, %r8d
	xorl	%r9d, %r8d
	movl	%r8d, -64(%rsp)                 # 4-byte Spill
	xorl	%r9d, %r10d
	movl	%esi, %ecx
	xorl	%r14d, %ecx
	movl	%ecx, -120(%rsp)                # 4-byte Spill
	andl	%r8d, %ecx
	xorl	%r13d, %ecx
	movl	%r13d, %r8d
	xorl	%ecx, %r10d
	xorl	%eax, %ebp
	xorl	%eax, %r10d
	movl	%edi, %r13d
	andl	%edx, %r13d
	movl	%r13d, %eax
	xorl	%ebp, %eax
	movl	%r10d, %ecx
	xorl	%edi, %ecx
	andl	%eax, %ecx
	xorl	%ebp, %edx
	movl	%ecx, %r9d
	xorl	%r13d, %ecx
	xorl	%r10d, %r13d
	movl	%r13d, %eax
	andl	%edx, %eax
	xorl	%ebp, %eax
	xorl	%r10d, %r9d
	andl	%r10d, %ecx
	xorl	%ecx, %r13d
	andl	%eax, %r13d
	xorl	%edx, %r13d
	xorl	%edi, %ecx
	andl	%r9d, %r12d
	movl	%r12d, -128(%rsp)               # 4-byte Spill
	movl	%ecx, %ebp
	xorl	%r9d, %ebp
	movl	%eax, %edi
	xorl	%r9d, %edi
	andl	%r14d, %r9d
	movl	%r13d, %r14d
	xorl	%ebp, %r14d
	andl	%edi, %esi
	movl	%esi, -112(%rsp)                # 4-byte Spill
	movl	%r14d, %r10d
	xorl	%edi, %r10d
	andl	-68(%rsp), %edi                 # 4-byte Folded Reload
	movl	%r13d, %edx
	xorl	%eax, %edx
	andl	%edx, %r8d
	andl	-116(%rsp), %edx                # 4-byte Folded Reload
	movl	-100(%rsp), %esi                # 4-byte Reload
	andl	%r13d, %esi
	andl	-124(%rsp), %r13d               # 4-byte Folded Reload
	andl	%ebp, %ebx
	andl	-84(%rsp), %ebp                 # 4-byte Folded Reload
	movl	-92(%rsp), %r15d                # 4-byte Reload
	andl	%r10d, %r15d
	andl	-88(%rsp), %r10d                # 4-byte Folded Reload
	movl	-64(%rsp), %r12d                # 4-byte Reload
	andl	%eax, %r12d
	andl	-120(%rsp), %eax                # 4-byte Folded Reload
	andl	%ecx, %r11d
	andl	-96(%rsp), %ecx                 # 4-byte Folded Reload
	xorl	%r11d, %ebx
	xorl	%r9d, %r11d
	xorl	%r8d, %esi
	xorl	%r11d, %eax
	xorl	%r8d, %eax
	movl	%r15d, %r9d
	xorl	%edi, %r9d
	xorl	%r9d, %ebp
	xorl	%eax, %r13d
	xorl	%r9d, %r13d
	xorl	%esi, %r10d
	xorl	%esi, %ebx
	movl	-104(%rsp), %esi                # 4-byte Reload
	andl	%r14d, %esi
	xorl	%esi, %r11d
	xorl	%edx, %r11d
	xorl	%r10d, %r11d
	xorl	-112(%rsp), %r10d               # 4-byte Folded Reload
	xorl	%ebp, %ecx
	movl	%r12d, %esi
	xorl	%r11d, %esi
	xorl	%ecx, %ebx
	xorl	%r13d, %r11d
	xorl	%edx, %r13d
	movl	%ebx, %r12d
	xorl	%r10d, %r12d
	xorl	-128(%rsp), %ebp                # 4-byte Folded Reload
	xorl	%ebx, %eax
	andl	-108(%rsp), %r14d               # 4-byte Folded Reload
	xorl	%esi, %ebp
	xorl	%r10d, %ecx
	xorl	%edi, %r14d
	movl	%r13d, %r15d
	rolw	$12, %r15w
	xorl	%r10d, %r14d
	movl	%r11d, %r9d
	rolw	$12, %r9w
	xorl	%esi, %r14d
	movl	%ebp, %r8d
	rolw	$12, %r8w
	movl	%ecx, %edi
	rolw	$12, %di
	xorl	%r15d, %r13d
	xorl	%edi, %ecx
	movl	%r13d, %r10d
	rolw	$8, %r10w
	movq	-56(%rsp), %rdx                 # 8-byte Reload
	movq	-80(%rsp), %rsi                 # 8-byte Reload
	xorw	64(%rdx,%rsi), %r10w
	xorl	%ecx, %r15d
	xorl	%r10d, %r15d
	movl	%eax, %r10d
	rolw	$12, %r10w
	xorl	%r9d, %r11d
	xorl	%r9d, %r13d
	movl	%r11d, %r9d
	rolw	$8, %r9w
	xorl	%r8d, %ebp
	xorw	66(%rdx,%rsi), %r9w
	xorl	%ecx, %r13d
	xorl	%r9d, %r13d
	movl	%ebp, %r9d
	rolw	$8, %r9w
	xorl	%r8d, %r11d
	xorw	68(%rdx,%rsi), %r9w
	xorl	%r9d, %r11d
	movl	%ebx, %r9d
	rolw	$12, %r9w
	xorl	%r10d, %eax
	xorl	%r9d, %ebx
	xorl	%ecx, %ebp
	xorl	%r10d, %ebp
	movl	%ecx, %r8d
	xorl	%r9d, %ecx
	movl	%r14d, %r9d
	rolw	$12, %r9w
	xorl	%eax, %ecx
                                        # kill: def $ax killed $ax killed $eax def $eax
	rolw	$8, %ax
	xorw	70(%rdx,%rsi), %ax
	xorl	%eax, %ebp
	movl	%ebx, %eax
	rolw	$8, %ax
	xorw	72(%rdx,%rsi), %ax
	xorl	%eax, %ecx
	movl	%r12d, %eax
	rolw	$12, %ax
	xorl	%r9d, %r14d
	xorl	%eax, %r12d
	xorl	%r9d, %ebx
	movl	%r14d, %r9d
	rolw	$8, %r9w
	xorw	74(%rdx,%rsi), %r9w
	xorl	%r9d, %ebx
	movl	%r12d, %r9d
	rolw	$8, %r9w
	xorl	%eax, %r14d
	movq	%rsi, %rax
	xorw	76(%rdx,%rsi), %r9w
	xorl	%r9d, %r14d
	rolw	$8, %r8w
	xorw	78(%rdx,%rsi), %r8w
	xorl	%edi, %r12d
	xorl	%r8d, %r12d
	addq	$64, %rax
	movq	%rax, -80(%rsp)                 # 8-byte Spill
	cmpq	%rax, 16(%rsp)                  # 8-byte Folded Reload
	jne	LBB10_1
# %bb.2:                                # %after.3.i
	xorl	%r14d, %ebx
	movl	%ecx, %r9d
	xorl	%r12d, %r9d
	movl	%ebx, %edi
	xorl	%r15d, %edi
	movl	%edi, %eax
	xorl	%ecx, %eax
	movl	%eax, %r10d
	movl	%eax, -128(%rsp)                # 4-byte Spill
	movl	%edi, %eax
	xorl	%r13d, %eax
	movl	%eax, -112(%rsp)                # 4-byte Spill
	xorl	%r12d, %r13d
	xorl	%r11d, %ecx
	movl	%r13d, %eax
	xorl	%ecx, %eax
	movl	%eax, -116(%rsp)                # 4-byte Spill
	xorl	%eax, %ebp
	movl	%ebp, %r8d
	xorl	%r11d, %r8d
	xorl	%r14d, %ebp
	xorl	%r12d, %r11d
	movl	%ebp, %esi
	movl	%r9d, -96(%rsp)                 # 4-byte Spill
	xorl	%r9d, %esi
	movl	%esi, %eax
	movl	%esi, -80(%rsp)                 # 4-byte Spill
	andl	%r9d, %eax
	movl	%r8d, %edx
	xorl	%ebx, %edx
	xorl	%edx, %esi
	movl	%esi, -100(%rsp)                # 4-byte Spill
	movl	%edx, %r14d
	andl	%ecx, %esi
	movl	%edx, %r9d
	movl	%edx, -104(%rsp)                # 4-byte Spill
	andl	%r11d, %r9d
	xorl	%eax, %esi
	xorl	%eax, %r9d
	movl	%r10d, %eax
	andl	%r15d, %eax
	movl	%r8d, %edx
	movl	%r8d, -88(%rsp)                 # 4-byte Spill
	movl	%r8d, %r10d
	andl	-116(%rsp), %r10d               # 4-byte Folded Reload
	xorl	%r11d, %eax
	movl	%r14d, %r8d
	xorl	%r10d, %r8d
	xorl	%eax, %r8d
	xorl	%ebp, %r10d
	movl	%edx, %r14d
	xorl	%r15d, %r14d
	movl	%r14d, -108(%rsp)               # 4-byte Spill
	movl	-112(%rsp), %ebp                # 4-byte Reload
	movl	%ebp, %edx
	xorl	%r11d, %edx
	movl	%edx, -92(%rsp)                 # 4-byte Spill
	movl	%r14d, %eax
	andl	%edx, %eax
	xorl	%eax, %r10d
	movl	-80(%rsp), %r14d                # 4-byte Reload
	xorl	%r14d, %ebx
	movl	%r15d, %edx
	movl	%r15d, -120(%rsp)               # 4-byte Spill
	movl	%ebp, %r15d
	andl	%edi, %r15d
	movl	%ebx, %eax
	andl	%r13d, %eax
	xorl	%esi, %r10d
	xorl	%ebx, %r15d
	xorl	%eax, %r15d
	xorl	%r13d, %r15d
	xorl	%esi, %r15d
	movl	%edi, %ebp
	xorl	%r12d, %ebp
	movl	%ebp, -84(%rsp)                 # 4-byte Spill
	xorl	%r12d, %eax
	movl	%r14d, %esi
	xorl	%edx, %esi
	movl	%esi, %edx
	andl	%ebp, %edx
	xorl	%ebx, %edx
	xorl	%edx, %eax
	xorl	%r9d, %r8d
	xorl	%r9d, %eax
	movl	%r15d, %r12d
	andl	%r10d, %r12d
	movl	%r12d, %r9d
	xorl	%r8d, %r9d
	movl	%eax, %r14d
	xorl	%r15d, %r14d
	andl	%r9d, %r14d
	xorl	%r8d, %r10d
	movl	%r14d, %r9d
	xorl	%r12d, %r14d
	xorl	%eax, %r12d
	movl	%r12d, %ebp
	andl	%r10d, %ebp
	xorl	%r8d, %ebp
	xorl	%eax, %r9d
	andl	%eax, %r14d
	xorl	%r14d, %r12d
	andl	%ebp, %r12d
	xorl	%r10d, %r12d
	xorl	%r15d, %r14d
	movl	%r14d, -124(%rsp)               # 4-byte Spill
	andl	%r9d, -128(%rsp)                # 4-byte Folded Spill
	xorl	%r9d, %r14d
	movl	%ebp, %r15d
	xorl	%r9d, %r15d
	andl	-120(%rsp), %r9d                # 4-byte Folded Reload
	movl	%r12d, %eax
	xorl	%r14d, %eax
	movl	%eax, -120(%rsp)                # 4-byte Spill
	andl	%r15d, -80(%rsp)                # 4-byte Folded Spill
	xorl	%r15d, %eax
	andl	-96(%rsp), %r15d                # 4-byte Folded Reload
	movl	%r12d, %r8d
	xorl	%ebp, %r8d
	andl	%r8d, %ebx
	andl	%r13d, %r8d
	andl	%r12d, %edi
	andl	-112(%rsp), %r12d               # 4-byte Folded Reload
	movl	-108(%rsp), %r10d               # 4-byte Reload
	andl	%r14d, %r10d
	andl	-92(%rsp), %r14d                # 4-byte Folded Reload
	andl	%eax, %ecx
	andl	-100(%rsp), %eax                # 4-byte Folded Reload
	movl	-84(%rsp), %edx                 # 4-byte Reload
	andl	%ebp, %edx
	andl	%esi, %ebp
	movl	-124(%rsp), %r13d               # 4-byte Reload
	movl	-88(%rsp), %esi                 # 4-byte Reload
	andl	%r13d, %esi
	andl	-116(%rsp), %r13d               # 4-byte Folded Reload
	xorl	%esi, %r10d
	xorl	%r9d, %esi
	xorl	%ebx, %edi
	xorl	%esi, %ebp
	xorl	%ebx, %ebp
	xorl	%r15d, %ecx
	xorl	%ecx, %r14d
	xorl	%ebp, %r12d
	xorl	%ecx, %r12d
	xorl	%edi, %eax
	xorl	%edi, %r10d
	movl	-104(%rsp), %edi                # 4-byte Reload
	movl	-120(%rsp), %r9d                # 4-byte Reload
	andl	%r9d, %edi
	xorl	%edi, %esi
	xorl	%r14d, %r13d
	xorl	%r8d, %esi
	xorl	%eax, %esi
	movl	%edx, %edi
	xorl	%esi, %edi
	xorl	%r13d, %r10d
	movl	%r10d, -108(%rsp)               # 4-byte Spill
	xorl	%r12d, %esi
	xorl	-80(%rsp), %eax                 # 4-byte Folded Reload
	movl	%r10d, %ebx
	xorl	%eax, %ebx
	xorl	%r8d, %r12d
	xorl	-128(%rsp), %r14d               # 4-byte Folded Reload
	xorl	%r10d, %ebp
	movl	%r9d, %edx
	andl	%r11d, %edx
	xorl	%edi, %r14d
	xorl	%eax, %r13d
	xorl	%r15d, %edx
	xorl	%eax, %edx
	xorl	%edi, %edx
	movl	%r12d, %eax
	rolw	$11, %ax
	movl	%r12d, %edi
	rorw	%di
	andl	$30583, %eax                    # imm = 0x7777
	andl	$-30584, %edi                   # imm = 0x8888
	movl	%esi, %ecx
	rolw	$11, %cx
	orl	%eax, %edi
	movl	%edi, -116(%rsp)                # 4-byte Spill
	movl	%esi, %r8d
	rorw	%r8w
	andl	$30583, %ecx                    # imm = 0x7777
	movl	%r14d, %eax
	rolw	$11, %ax
	andl	$-30584, %r8d                   # imm = 0x8888
	movl	%r14d, %r9d
	rorw	%r9w
	orl	%ecx, %r8d
	movl	%r8d, %r10d
	movl	%r8d, -92(%rsp)                 # 4-byte Spill
	andl	$30583, %eax                    # imm = 0x7777
	andl	$-30584, %r9d                   # imm = 0x8888
	orl	%eax, %r9d
	movl	%r9d, -100(%rsp)                # 4-byte Spill
	movl	%ebp, -84(%rsp)                 # 4-byte Spill
	movl	%ebp, %eax
	rolw	$11, %ax
                                        # kill: def $bp killed $bp killed $ebp def $ebp
	rorw	%bp
	andl	$30583, %eax                    # imm = 0x7777
	andl	$-30584, %ebp                   # imm = 0x8888
	orl	%eax, %ebp
	movl	%ebp, -80(%rsp)                 # 4-byte Spill
	movl	-108(%rsp), %r8d                # 4-byte Reload
	movl	%r8d, %eax
	rolw	$11, %ax
	movl	%r8d, %r11d
	rorw	%r11w
	andl	$30583, %eax                    # imm = 0x7777
	andl	$-30584, %r11d                  # imm = 0x8888
	movl	%edx, -120(%rsp)                # 4-byte Spill
	movl	%edx, %ecx
	rolw	$11, %cx
	orl	%eax, %r11d
	movl	%r11d, -104(%rsp)               # 4-byte Spill
	movl	%edx, %r11d
	rorw	%r11w
	andl	$30583, %ecx                    # imm = 0x7777
	movl	%ebx, %edx
	movl	%ebx, -112(%rsp)                # 4-byte Spill
	movl	%edx, %eax
	rolw	$11, %ax
	andl	$-30584, %r11d                  # imm = 0x8888
                                        # kill: def $dx killed $dx killed $edx def $edx
	rorw	%dx
	orl	%ecx, %r11d
	movl	%r11d, -128(%rsp)               # 4-byte Spill
	andl	$30583, %eax                    # imm = 0x7777
	andl	$-30584, %edx                   # imm = 0x8888
	orl	%eax, %edx
	movl	%edx, %ebx
	movl	%edx, -68(%rsp)                 # 4-byte Spill
	movl	%r13d, -124(%rsp)               # 4-byte Spill
	movl	%r13d, %eax
	rolw	$11, %ax
	movl	%r13d, %ecx
	rorw	%cx
	andl	$30583, %eax                    # imm = 0x7777
	andl	$-30584, %ecx                   # imm = 0x8888
	movl	%ecx, %edx
	xorl	%edi, %r12d
	movl	%r12d, %ecx
	rolw	$6, %cx
	orl	%eax, %edx
	movl	%edx, -96(%rsp)                 # 4-byte Spill
	movl	%r12d, %eax
	rolw	$10, %ax
	andl	$13107, %ecx                    # imm = 0x3333
	andl	$52428, %eax                    # imm = 0xCCCC
	orl	%ecx, %eax
	movl	%eax, -88(%rsp)                 # 4-byte Spill
	movl	%r14d, %r15d
	xorl	%r9d, %r15d
	movl	%r15d, %edi
	rolw	$6, %di
	movl	%r15d, %edx
	rolw	$10, %dx
	andl	$13107, %edi                    # imm = 0x3333
	andl	$52428, %edx                    # imm = 0xCCCC
	xorl	%r10d, %esi
	movd	%esi, %xmm0
	movl	%esi, %ebp
	movl	%esi, %eax
	rolw	$6, %ax
	rolw	$10, %bp
	orl	%edi, %edx
	andl	$13107, %eax                    # imm = 0x3333
	andl	$52428, %ebp                    # imm = 0xCCCC
	orl	%eax, %ebp
	movl	-84(%rsp), %r13d                # 4-byte Reload
	xorl	-80(%rsp), %r13d                # 4-byte Folded Reload
	movd	%r13d, %xmm1
	movl	%r13d, %r14d
                                        # kill: def $r13w killed $r13w killed $r13d def $r13d
	rolw	$6, %r13w
	rolw	$10, %r14w
	andl	$13107, %r13d                   # imm = 0x3333
	andl	$52428, %r14d                   # imm = 0xCCCC
	orl	%r13d, %r14d
	movl	-104(%rsp), %r11d               # 4-byte Reload
	xorl	%r11d, %r8d
	movd	%r8d, %xmm2
	movl	%r8d, %eax
	rolw	$6, %ax
	movl	%r8d, %r13d
	rolw	$10, %r13w
	andl	$13107, %eax                    # imm = 0x3333
	andl	$52428, %r13d                   # imm = 0xCCCC
	orl	%eax, %r13d
	movl	-120(%rsp), %ecx                # 4-byte Reload
	xorl	-128(%rsp), %ecx                # 4-byte Folded Reload
	movd	%ecx, %xmm3
	movl	%ecx, %esi
                                        # kill: def $cx killed $cx killed $ecx def $ecx
	rolw	$6, %cx
	movl	-112(%rsp), %eax                # 4-byte Reload
	xorl	%ebx, %eax
	rolw	$10, %si
	andl	$13107, %ecx                    # imm = 0x3333
	andl	$52428, %esi                    # imm = 0xCCCC
	movd	%eax, %xmm5
	movl	%eax, %ebx
                                        # kill: def $ax killed $ax killed $eax def $eax
	rolw	$6, %ax
	rolw	$10, %bx
	orl	%ecx, %esi
	andl	$13107, %eax                    # imm = 0x3333
	andl	$52428, %ebx                    # imm = 0xCCCC
	orl	%eax, %ebx
	movl	-124(%rsp), %ecx                # 4-byte Reload
	movl	-96(%rsp), %r9d                 # 4-byte Reload
	xorl	%r9d, %ecx
	movl	%r15d, %r10d
	xorl	%ecx, %r10d
	xorl	%ecx, %r11d
	movd	%ecx, %xmm6
	movl	%ecx, %eax
                                        # kill: def $cx killed $cx killed $ecx def $ecx
	rolw	$6, %cx
	rolw	$10, %ax
	andl	$13107, %ecx                    # imm = 0x3333
	andl	$52428, %eax                    # imm = 0xCCCC
	orl	%ecx, %eax
	movq	(%rsp), %r8                     # 8-byte Reload
	andl	$12, %r8d
	movl	%r8d, %ecx
	shll	$4, %ecx
	movq	-56(%rsp), %rdi                 # 8-byte Reload
	movl	-88(%rsp), %r15d                # 4-byte Reload
	xorw	16(%rdi,%rcx), %r15w
	xorl	-116(%rsp), %r15d               # 4-byte Folded Reload
	xorl	-92(%rsp), %r12d                # 4-byte Folded Reload
	xorw	20(%rdi,%rcx), %dx
	xorw	18(%rdi,%rcx), %bp
	xorl	%ebp, %r12d
	xorl	-100(%rsp), %edx                # 4-byte Folded Reload
	xorw	22(%rdi,%rcx), %r14w
	xorl	%r14d, %r10d
	xorw	24(%rdi,%rcx), %r13w
	xorl	%r13d, %r11d
	xorw	26(%rdi,%rcx), %si
	xorw	28(%rdi,%rcx), %bx
	xorl	-128(%rsp), %esi                # 4-byte Folded Reload
	xorl	-68(%rsp), %ebx                 # 4-byte Folded Reload
	xorw	30(%rdi,%rcx), %ax
	xorl	%r9d, %eax
	movd	%r15d, %xmm7
	movd	%eax, %xmm8
	movd	%edx, %xmm9
	movd	%r11d, %xmm10
	movd	%ebx, %xmm11
	movd	%esi, %xmm12
	movd	%r10d, %xmm13
	movd	%r12d, %xmm14
	movd	-80(%rsp), %xmm4                # 4-byte Folded Reload
                                        # xmm4 = mem[0],zero,zero,zero
	punpcklwd	%xmm8, %xmm7            # xmm7 = xmm7[0],xmm8[0],xmm7[1],xmm8[1],xmm7[2],xmm8[2],xmm7[3],xmm8[3]
	punpcklwd	%xmm10, %xmm9           # xmm9 = xmm9[0],xmm10[0],xmm9[1],xmm10[1],xmm9[2],xmm10[2],xmm9[3],xmm10[3]
	punpckldq	%xmm7, %xmm9            # xmm9 = xmm9[0],xmm7[0],xmm9[1],xmm7[1]
	movdqa	%xmm6, %xmm7
	punpcklwd	%xmm11, %xmm7           # xmm7 = xmm7[0],xmm11[0],xmm7[1],xmm11[1],xmm7[2],xmm11[2],xmm7[3],xmm11[3]
	punpcklwd	%xmm12, %xmm13          # xmm13 = xmm13[0],xmm12[0],xmm13[1],xmm12[1],xmm13[2],xmm12[2],xmm13[3],xmm12[3]
	punpckldq	%xmm7, %xmm13           # xmm13 = xmm13[0],xmm7[0],xmm13[1],xmm7[1]
	punpcklqdq	%xmm9, %xmm13           # xmm13 = xmm13[0],xmm9[0]
	punpcklwd	%xmm5, %xmm6            # xmm6 = xmm6[0],xmm5[0],xmm6[1],xmm5[1],xmm6[2],xmm5[2],xmm6[3],xmm5[3]
	punpcklwd	%xmm1, %xmm0            # xmm0 = xmm0[0],xmm1[0],xmm0[1],xmm1[1],xmm0[2],xmm1[2],xmm0[3],xmm1[3]
	punpckldq	%xmm6, %xmm0            # xmm0 = xmm0[0],xmm6[0],xmm0[1],xmm6[1]
	punpcklwd	%xmm3, %xmm14           # xmm14 = xmm14[0],xmm3[0],xmm14[1],xmm3[1],xmm14[2],xmm3[2],xmm14[3],xmm3[3]
	punpcklwd	%xmm2, %xmm4            # xmm4 = xmm4[0],xmm2[0],xmm4[1],xmm2[1],xmm4[2],xmm2[2],xmm4[3],xmm2[3]
	punpckldq	%xmm14, %xmm4           # xmm4 = xmm4[0],xmm14[0],xmm4[1],xmm14[1]
	punpcklqdq	%xmm0, %xmm4            # xmm4 = xmm4[0],xmm0[0]
	pxor	%xmm13, %xmm4
	orq	$2, %r8
	movq	-48(%rsp), %rax                 # 8-byte Reload
	cmpq	%rax, %r8
	jae	LBB10_4
# %bb.3:                                # %then.11.i
	pextrw	$1, %xmm4, %edi
	pextrw	$3, %xmm4, %eax
	pextrw	$5, %xmm4, %ebp
	pextrw	$7, %xmm4, %ebx
	xorl	%eax, %edi
	movl	%ebx, %r8d
	pextrw	$6, %xmm4, %r11d
	xorl	%ebp, %r8d
	movl	%edi, %r12d
	xorl	%r11d, %r12d
	movl	%r12d, %ecx
	xorl	%ebp, %ecx
	movl	%ecx, %esi
	movl	%ecx, -120(%rsp)                # 4-byte Spill
	pextrw	$2, %xmm4, %r15d
	movl	%ebx, %ecx
	xorl	%r15d, %ecx
	movl	%ecx, -124(%rsp)                # 4-byte Spill
	pextrw	$4, %xmm4, %r9d
	xorl	%r9d, %ebp
	xorl	%ebp, %ecx
	movl	%ebp, -104(%rsp)                # 4-byte Spill
	movd	%xmm4, %r13d
	xorl	%ecx, %r13d
	movl	%ecx, -108(%rsp)                # 4-byte Spill
	movl	%r13d, %r10d
	xorl	%eax, %r13d
	andl	%r11d, %esi
	xorl	%r9d, %r10d
	xorl	%ebx, %r9d
	movl	%r10d, %eax
	andl	%ecx, %eax
	movl	%r10d, %ecx
	xorl	%edi, %ecx
	movl	%ecx, -116(%rsp)                # 4-byte Spill
	xorl	%r9d, %esi
	xorl	%ecx, %esi
	xorl	%eax, %esi
	xorl	%r13d, %eax
	movl	%r8d, -96(%rsp)                 # 4-byte Spill
	xorl	%r8d, %r13d
	movl	%r13d, %edx
	andl	%r8d, %edx
	movl	%r13d, %r8d
	xorl	%ecx, %r8d
	movl	%r8d, -112(%rsp)                # 4-byte Spill
	andl	%ebp, %r8d
	movl	%r9d, %r14d
	movl	%r9d, -128(%rsp)                # 4-byte Spill
	andl	%r9d, %ecx
	xorl	%edx, %r8d
	xorl	%edx, %ecx
	xorl	%r12d, %r15d
	movl	%r10d, %r9d
	xorl	%r11d, %r9d
	movl	%r9d, -80(%rsp)                 # 4-byte Spill
	movl	%r15d, -88(%rsp)                # 4-byte Spill
	movl	%r15d, %ebp
	xorl	%r14d, %ebp
	movl	%ebp, -100(%rsp)                # 4-byte Spill
	movl	%r9d, %edx
	andl	%ebp, %edx
	xorl	%edx, %eax
	xorl	%r13d, %edi
	movl	%r15d, %r9d
	andl	%r12d, %r9d
	movl	%edi, %r14d
	movl	-124(%rsp), %edx                # 4-byte Reload
	andl	%edx, %r14d
	xorl	%r8d, %eax
	xorl	%edi, %r9d
	xorl	%r14d, %r9d
	xorl	%edx, %r9d
	xorl	%r8d, %r9d
	movl	%r12d, %r8d
	xorl	%ebx, %r8d
	xorl	%ebx, %r14d
	movl	%r13d, %edx
	movl	%r13d, %ebp
	xorl	%r11d, %edx
	movl	%edx, -92(%rsp)                 # 4-byte Spill
	andl	%r8d, %edx
	xorl	%edi, %edx
	xorl	%edx, %r14d
	xorl	%ecx, %esi
	xorl	%ecx, %r14d
	movl	%r9d, %r13d
	andl	%eax, %r13d
	movl	%r13d, %ecx
	xorl	%esi, %ecx
	movl	%r14d, %r15d
	xorl	%r9d, %r15d
	andl	%ecx, %r15d
	xorl	%esi, %eax
	movl	%r15d, %edx
	xorl	%r13d, %r15d
	xorl	%r14d, %r13d
	movl	%r13d, %ebx
	andl	%eax, %ebx
	xorl	%esi, %ebx
	xorl	%r14d, %edx
	andl	%r14d, %r15d
	xorl	%r15d, %r13d
	andl	%ebx, %r13d
	xorl	%eax, %r13d
	xorl	%r9d, %r15d
	andl	%edx, -120(%rsp)                # 4-byte Folded Spill
	movl	%r15d, %r14d
	xorl	%edx, %r14d
	movl	%ebx, %eax
	xorl	%edx, %eax
	andl	%r11d, %edx
	movl	%r13d, %esi
	xorl	%r14d, %esi
	andl	%eax, %ebp
	movl	%ebp, -84(%rsp)                 # 4-byte Spill
	movl	%esi, %r11d
	xorl	%eax, %r11d
	andl	-96(%rsp), %eax                 # 4-byte Folded Reload
	movl	%r13d, %r9d
	xorl	%ebx, %r9d
	andl	%r9d, %edi
	andl	-124(%rsp), %r9d                # 4-byte Folded Reload
	andl	%r13d, %r12d
	andl	-88(%rsp), %r13d                # 4-byte Folded Reload
	movl	-80(%rsp), %ebp                 # 4-byte Reload
	andl	%r14d, %ebp
	andl	-100(%rsp), %r14d               # 4-byte Folded Reload
	movl	-104(%rsp), %ecx                # 4-byte Reload
	andl	%r11d, %ecx
	andl	-112(%rsp), %r11d               # 4-byte Folded Reload
	andl	%ebx, %r8d
	andl	-92(%rsp), %ebx                 # 4-byte Folded Reload
	andl	%r15d, %r10d
	andl	-108(%rsp), %r15d               # 4-byte Folded Reload
	xorl	%r10d, %ebp
	xorl	%edx, %r10d
	xorl	%edi, %r12d
	xorl	%r10d, %ebx
	xorl	%edi, %ebx
	xorl	%eax, %ecx
	xorl	%ecx, %r14d
	xorl	%ebx, %r13d
	xorl	%ecx, %r13d
	xorl	%r12d, %r11d
	xorl	%r12d, %ebp
	movl	-116(%rsp), %ecx                # 4-byte Reload
	andl	%esi, %ecx
	xorl	%ecx, %r10d
	xorl	%r14d, %r15d
	xorl	%r9d, %r10d
	xorl	%r11d, %r10d
	xorl	%r10d, %r8d
	xorl	%r15d, %ebp
	xorl	%r13d, %r10d
	xorl	-84(%rsp), %r11d                # 4-byte Folded Reload
	movl	%ebp, %edi
	xorl	%r11d, %edi
	xorl	%r9d, %r13d
	xorl	-120(%rsp), %r14d               # 4-byte Folded Reload
	xorl	%ebp, %ebx
	andl	-128(%rsp), %esi                # 4-byte Folded Reload
	xorl	%r8d, %r14d
	xorl	%r11d, %r15d
	xorl	%eax, %esi
	xorl	%r11d, %esi
	xorl	%r8d, %esi
	movl	%r13d, %eax
	rolw	$10, %ax
	movl	%r13d, %ecx
	rolw	$14, %cx
	andl	$13107, %eax                    # imm = 0x3333
	andl	$-13108, %ecx                   # imm = 0xCCCC
	orl	%eax, %ecx
	movl	%ecx, -128(%rsp)                # 4-byte Spill
	movl	%r10d, %eax
	rolw	$10, %ax
	movl	%r10d, %r12d
	rolw	$14, %r12w
	andl	$13107, %eax                    # imm = 0x3333
	andl	$-13108, %r12d                  # imm = 0xCCCC
	movl	%r14d, %ecx
	rolw	$10, %cx
	orl	%eax, %r12d
	movl	%r14d, %edx
	rolw	$14, %dx
	andl	$13107, %ecx                    # imm = 0x3333
	movl	%ebx, %eax
	rolw	$10, %ax
	andl	$-13108, %edx                   # imm = 0xCCCC
	movl	%ebx, %r8d
	rolw	$14, %r8w
	orl	%ecx, %edx
	movl	%edx, -108(%rsp)                # 4-byte Spill
	andl	$13107, %eax                    # imm = 0x3333
	andl	$-13108, %r8d                   # imm = 0xCCCC
	orl	%eax, %r8d
	movl	%r8d, -120(%rsp)                # 4-byte Spill
	movl	%ebp, %r8d
	movl	%r8d, %eax
	rolw	$10, %ax
	movl	%r8d, %ecx
	rolw	$14, %cx
	andl	$13107, %eax                    # imm = 0x3333
	andl	$-13108, %ecx                   # imm = 0xCCCC
	orl	%eax, %ecx
	movl	%ecx, %edx
	movl	%esi, %ecx
	rolw	$10, %cx
	movl	%esi, %eax
	rolw	$14, %ax
	andl	$13107, %ecx                    # imm = 0x3333
	andl	$-13108, %eax                   # imm = 0xCCCC
	movl	%edi, -124(%rsp)                # 4-byte Spill
	movl	%edi, %r11d
	rolw	$10, %r11w
	orl	%ecx, %eax
	movl	%eax, -80(%rsp)                 # 4-byte Spill
	movl	%edi, %ecx
	rolw	$14, %cx
	andl	$13107, %r11d                   # imm = 0x3333
	movl	%r15d, %edi
	rolw	$10, %di
	andl	$-13108, %ecx                   # imm = 0xCCCC
	movl	%r15d, %r9d
	rolw	$14, %r9w
	orl	%r11d, %ecx
	andl	$13107, %edi                    # imm = 0x3333
	andl	$-13108, %r9d                   # imm = 0xCCCC
	orl	%edi, %r9d
	movl	-128(%rsp), %ebp                # 4-byte Reload
	xorl	%ebp, %r13d
	movl	%r13d, %edi
	rolw	$8, %di
	xorl	%r9d, %r15d
	movq	-8(%rsp), %rax                  # 8-byte Reload
	movq	-56(%rsp), %r11                 # 8-byte Reload
	xorw	(%r11,%rax), %di
	xorl	%r15d, %ebp
	xorl	%edi, %ebp
	movl	%ebp, -128(%rsp)                # 4-byte Spill
	xorl	%r12d, %r10d
	xorl	%r12d, %r13d
	movl	%r10d, %edi
	rolw	$8, %di
	xorw	2(%r11,%rax), %di
	movq	%r11, %r12
	xorl	%r15d, %r13d
	xorl	%edi, %r13d
	movl	-108(%rsp), %edi                # 4-byte Reload
	xorl	%edi, %r14d
	xorl	%edx, %r8d
	xorl	%r15d, %edx
	movl	%r15d, %r11d
	xorl	%r14d, %r15d
                                        # kill: def $r14w killed $r14w killed $r14d def $r14d
	rolw	$8, %r14w
	xorw	4(%r12,%rax), %r14w
	xorl	%edi, %r10d
	xorl	%r14d, %r10d
	movl	%r10d, -108(%rsp)               # 4-byte Spill
	movl	-120(%rsp), %ebp                # 4-byte Reload
	xorl	%ebp, %ebx
	movl	%r8d, %edi
	rolw	$8, %di
	movq	%r12, %r14
	xorw	8(%r12,%rax), %di
	xorl	%ebx, %edx
	xorl	%edi, %edx
	movl	-80(%rsp), %r12d                # 4-byte Reload
	xorl	%r12d, %esi
	movl	-124(%rsp), %r10d               # 4-byte Reload
	xorl	%ecx, %r10d
                                        # kill: def $bx killed $bx killed $ebx def $ebx
	rolw	$8, %bx
	movl	%esi, %edi
	xorl	%ecx, %esi
	rolw	$8, %di
	movl	%r10d, %ecx
	rolw	$8, %cx
	rolw	$8, %r11w
	xorw	12(%r14,%rax), %cx
	xorw	14(%r14,%rax), %r11w
	xorl	%ecx, %esi
	xorl	%r9d, %r10d
	xorw	10(%r14,%rax), %di
	xorl	%r11d, %r10d
	xorl	%r12d, %r8d
	xorl	%edi, %r8d
	xorl	%esi, %r8d
	movl	%r10d, %r9d
	xorl	%edx, %r9d
	movl	%r8d, %edi
	movl	%r8d, -80(%rsp)                 # 4-byte Spill
	movl	-128(%rsp), %r12d               # 4-byte Reload
	xorl	%r12d, %edi
	movl	%edi, -104(%rsp)                # 4-byte Spill
	movl	%edi, %ecx
	xorl	%edx, %ecx
	movl	%ecx, %edi
	movl	%ecx, -116(%rsp)                # 4-byte Spill
	movl	%r10d, %ecx
	movl	%r10d, -124(%rsp)               # 4-byte Spill
	xorl	%r13d, %ecx
	movl	%ecx, -112(%rsp)                # 4-byte Spill
	movl	-108(%rsp), %r11d               # 4-byte Reload
	xorl	%r11d, %edx
	xorw	6(%r14,%rax), %bx
	movl	%ecx, %eax
	xorl	%edx, %eax
	movl	%edx, -68(%rsp)                 # 4-byte Spill
	xorl	%ebp, %r15d
	xorl	%ebx, %r15d
	xorl	%eax, %r15d
	movl	%eax, -100(%rsp)                # 4-byte Spill
	movl	%r15d, %ecx
	movl	%r11d, %ebp
	xorl	%r11d, %ecx
	movl	%ecx, %r11d
	xorl	%esi, %r15d
	xorl	%r10d, %ebp
	movl	%ecx, %ebx
	andl	%eax, %ebx
	movl	%ecx, %eax
	movl	%ecx, -120(%rsp)                # 4-byte Spill
	xorl	%r8d, %eax
	movl	%eax, -96(%rsp)                 # 4-byte Spill
	movl	%eax, %r14d
	xorl	%ebx, %r14d
	xorl	%r15d, %ebx
	movl	%r9d, -84(%rsp)                 # 4-byte Spill
	xorl	%r9d, %r15d
	movl	%r15d, %esi
	andl	%r9d, %esi
	movl	%r15d, %ecx
	xorl	%eax, %ecx
	movl	%ecx, -88(%rsp)                 # 4-byte Spill
	andl	%edx, %ecx
	movl	%ebp, -108(%rsp)                # 4-byte Spill
	andl	%ebp, %eax
	xorl	%esi, %ecx
	xorl	%esi, %eax
	movl	%edi, %esi
	andl	%r12d, %esi
	xorl	%ebp, %esi
	xorl	%esi, %r14d
	movl	-104(%rsp), %r8d                # 4-byte Reload
	xorl	%r8d, %r13d
	movl	%r11d, %r9d
	xorl	%r12d, %r9d
	movl	%r12d, %r10d
	movl	%r13d, %r11d
	xorl	%ebp, %r11d
	movl	%r11d, -92(%rsp)                # 4-byte Spill
	movl	%r9d, %esi
	andl	%r11d, %esi
	xorl	%esi, %ebx
	movl	-80(%rsp), %r12d                # 4-byte Reload
	movl	%r15d, %ebp
	xorl	%r15d, %r12d
	movl	%r13d, %edi
	andl	%r8d, %edi
	movl	%r12d, %r15d
	movl	-112(%rsp), %edx                # 4-byte Reload
	andl	%edx, %r15d
	xorl	%ecx, %ebx
	xorl	%r12d, %edi
	xorl	%r15d, %edi
	xorl	%edx, %edi
	xorl	%ecx, %edi
	movl	%r8d, %edx
	movl	-124(%rsp), %ecx                # 4-byte Reload
	xorl	%ecx, %edx
	movl	%edx, -80(%rsp)                 # 4-byte Spill
	xorl	%ecx, %r15d
	movl	%ebp, %ecx
	xorl	%r10d, %ecx
	movl	%ecx, -124(%rsp)                # 4-byte Spill
	andl	%edx, %ecx
	xorl	%r12d, %ecx
	movl	%r12d, %edx
	xorl	%ecx, %r15d
	xorl	%eax, %r14d
	xorl	%eax, %r15d
	movl	%edi, %r12d
	andl	%ebx, %r12d
	movl	%r12d, %esi
	xorl	%r14d, %esi
	movl	%r15d, %r8d
	xorl	%edi, %r8d
	andl	%esi, %r8d
	xorl	%r14d, %ebx
	movl	%r8d, %r11d
	xorl	%r12d, %r8d
	xorl	%r15d, %r12d
	movl	%r12d, %esi
	andl	%ebx, %esi
	xorl	%r14d, %esi
	xorl	%r15d, %r11d
	andl	%r15d, %r8d
	xorl	%r8d, %r12d
	andl	%esi, %r12d
	xorl	%ebx, %r12d
	xorl	%edi, %r8d
	andl	%r11d, -116(%rsp)               # 4-byte Folded Spill
	movl	%r8d, %ebx
	xorl	%r11d, %ebx
	movl	%esi, %r14d
	xorl	%r11d, %r14d
	andl	%r10d, %r11d
	movl	%r12d, %r15d
	xorl	%ebx, %r15d
	andl	%r14d, %ebp
	movl	%ebp, -128(%rsp)                # 4-byte Spill
	movl	%r15d, %ebp
	xorl	%r14d, %ebp
	andl	-84(%rsp), %r14d                # 4-byte Folded Reload
	movl	%r12d, %r10d
	xorl	%esi, %r10d
	andl	%r10d, %edx
	andl	-112(%rsp), %r10d               # 4-byte Folded Reload
	movl	-104(%rsp), %ecx                # 4-byte Reload
	andl	%r12d, %ecx
	andl	%r13d, %r12d
	andl	%ebx, %r9d
	andl	-92(%rsp), %ebx                 # 4-byte Folded Reload
	movl	-68(%rsp), %r13d                # 4-byte Reload
	andl	%ebp, %r13d
	andl	-88(%rsp), %ebp                 # 4-byte Folded Reload
	movl	-80(%rsp), %edi                 # 4-byte Reload
	andl	%esi, %edi
	andl	-124(%rsp), %esi                # 4-byte Folded Reload
	movl	-120(%rsp), %eax                # 4-byte Reload
	andl	%r8d, %eax
	andl	-100(%rsp), %r8d                # 4-byte Folded Reload
	xorl	%eax, %r9d
	xorl	%r11d, %eax
	xorl	%edx, %ecx
	xorl	%eax, %esi
	xorl	%edx, %esi
	movl	%r13d, %edx
	xorl	%r14d, %edx
	xorl	%edx, %ebx
	xorl	%esi, %r12d
	xorl	%edx, %r12d
	xorl	%ecx, %ebp
	xorl	%ecx, %r9d
	movl	-96(%rsp), %ecx                 # 4-byte Reload
	andl	%r15d, %ecx
	xorl	%ebx, %r8d
	xorl	%ecx, %eax
	xorl	%r10d, %eax
	xorl	%ebp, %eax
	movl	%edi, %edx
	xorl	%eax, %edx
	xorl	%r8d, %r9d
	xorl	%r12d, %eax
	movl	%eax, %r11d
	xorl	-128(%rsp), %ebp                # 4-byte Folded Reload
	movl	%r9d, %ecx
	xorl	%ebp, %ecx
	xorl	%r10d, %r12d
	xorl	-116(%rsp), %ebx                # 4-byte Folded Reload
	xorl	%r9d, %esi
	andl	-108(%rsp), %r15d               # 4-byte Folded Reload
	xorl	%edx, %ebx
	xorl	%ebp, %r8d
	xorl	%r14d, %r15d
	xorl	%ebp, %r15d
	xorl	%edx, %r15d
	movl	%r12d, %edx
	rolw	$9, %dx
	movl	%r12d, %eax
	rolw	$13, %ax
	andl	$4369, %edx                     # imm = 0x1111
	andl	$-4370, %eax                    # imm = 0xEEEE
	movl	%r11d, -120(%rsp)               # 4-byte Spill
	movl	%r11d, %edi
	rolw	$9, %di
	orl	%edx, %eax
	movl	%eax, %r10d
	movl	%eax, -112(%rsp)                # 4-byte Spill
                                        # kill: def $r11w killed $r11w killed $r11d def $r11d
	rolw	$13, %r11w
	andl	$4369, %edi                     # imm = 0x1111
	movl	%ebx, %edx
	rolw	$9, %dx
	andl	$-4370, %r11d                   # imm = 0xEEEE
	movl	%ebx, %eax
	rolw	$13, %ax
	orl	%edi, %r11d
	andl	$4369, %edx                     # imm = 0x1111
	andl	$-4370, %eax                    # imm = 0xEEEE
	orl	%edx, %eax
	movl	%eax, %r14d
	movl	%eax, -104(%rsp)                # 4-byte Spill
	movl	%esi, %edx
	rolw	$9, %dx
	movl	%esi, %eax
	rolw	$13, %ax
	andl	$4369, %edx                     # imm = 0x1111
	andl	$-4370, %eax                    # imm = 0xEEEE
	orl	%edx, %eax
	movl	%eax, -108(%rsp)                # 4-byte Spill
	movl	%r9d, -80(%rsp)                 # 4-byte Spill
	movl	%r9d, %edx
	rolw	$9, %dx
                                        # kill: def $r9w killed $r9w killed $r9d def $r9d
	rolw	$13, %r9w
	andl	$4369, %edx                     # imm = 0x1111
	andl	$-4370, %r9d                    # imm = 0xEEEE
	movl	%r15d, %edi
	rolw	$9, %di
	orl	%edx, %r9d
	movl	%r15d, %ebp
	rolw	$13, %bp
	andl	$4369, %edi                     # imm = 0x1111
	movl	%ecx, -124(%rsp)                # 4-byte Spill
	movl	%ecx, %edx
	rolw	$9, %dx
	andl	$-4370, %ebp                    # imm = 0xEEEE
                                        # kill: def $cx killed $cx killed $ecx def $ecx
	rolw	$13, %cx
	orl	%edi, %ebp
	movl	%ebp, -116(%rsp)                # 4-byte Spill
	andl	$4369, %edx                     # imm = 0x1111
	andl	$-4370, %ecx                    # imm = 0xEEEE
	orl	%edx, %ecx
	movl	%ecx, -128(%rsp)                # 4-byte Spill
	movl	%r8d, %edx
	rolw	$9, %dx
	movl	%r8d, %eax
	rolw	$13, %ax
	andl	$4369, %edx                     # imm = 0x1111
	andl	$-4370, %eax                    # imm = 0xEEEE
	xorl	%r10d, %r12d
	movl	%r12d, %edi
	rolw	$6, %di
	orl	%edx, %eax
	movl	%eax, %ecx
	movl	%eax, -100(%rsp)                # 4-byte Spill
	movl	%r12d, %ebp
	rolw	$10, %bp
	andl	$13107, %edi                    # imm = 0x3333
	andl	$52428, %ebp                    # imm = 0xCCCC
	orl	%edi, %ebp
	xorl	%r14d, %ebx
	movl	%ebx, %r10d
	rolw	$6, %r10w
	movl	%ebx, %r14d
	rolw	$10, %r14w
	andl	$13107, %r10d                   # imm = 0x3333
	andl	$52428, %r14d                   # imm = 0xCCCC
	movl	-120(%rsp), %edx                # 4-byte Reload
	xorl	%r11d, %edx
	movl	%edx, -120(%rsp)                # 4-byte Spill
	movl	%edx, %edi
	rolw	$6, %di
	orl	%r10d, %r14d
                                        # kill: def $dx killed $dx killed $edx def $edx
	rolw	$10, %dx
	andl	$13107, %edi                    # imm = 0x3333
	andl	$52428, %edx                    # imm = 0xCCCC
	orl	%edi, %edx
	xorl	%r11d, %r12d
	movl	-80(%rsp), %eax                 # 4-byte Reload
	xorl	%r9d, %eax
	movl	%eax, -80(%rsp)                 # 4-byte Spill
	movl	%r8d, %r11d
	xorl	%ecx, %r11d
	xorl	%r11d, -112(%rsp)               # 4-byte Folded Spill
	xorl	%r11d, %r12d
	xorl	%r11d, %ebx
	movl	%ebx, -96(%rsp)                 # 4-byte Spill
	movl	%r11d, %r10d
	movl	%r11d, %r8d
	xorl	%r9d, %r11d
	xorl	-108(%rsp), %esi                # 4-byte Folded Reload
	xorl	%esi, %r11d
	movl	%esi, %r9d
	movl	%esi, %edi
	rolw	$6, %di
	rolw	$10, %r9w
	andl	$13107, %edi                    # imm = 0x3333
	movl	%eax, %r13d
	rolw	$6, %r13w
	andl	$52428, %r9d                    # imm = 0xCCCC
	movl	%eax, %esi
	rolw	$10, %si
	orl	%edi, %r9d
	andl	$13107, %r13d                   # imm = 0x3333
	andl	$52428, %esi                    # imm = 0xCCCC
	orl	%r13d, %esi
	movl	%r15d, %ebx
	xorl	-116(%rsp), %ebx                # 4-byte Folded Reload
	movl	%ebx, %r15d
	rolw	$6, %r15w
	movl	-124(%rsp), %r13d               # 4-byte Reload
	xorl	-128(%rsp), %r13d               # 4-byte Folded Reload
	movl	%ebx, %edi
	rolw	$10, %di
	andl	$13107, %r15d                   # imm = 0x3333
	movl	%r13d, %eax
	movl	%r13d, -124(%rsp)               # 4-byte Spill
	rolw	$6, %ax
	andl	$52428, %edi                    # imm = 0xCCCC
                                        # kill: def $r13w killed $r13w killed $r13d def $r13d
	rolw	$10, %r13w
	orl	%r15d, %edi
	andl	$13107, %eax                    # imm = 0x3333
	andl	$52428, %r13d                   # imm = 0xCCCC
	orl	%eax, %r13d
	rolw	$6, %r10w
	rolw	$10, %r8w
	andl	$13107, %r10d                   # imm = 0x3333
	andl	$52428, %r8d                    # imm = 0xCCCC
	orl	%r10d, %r8d
	movq	-48(%rsp), %rax                 # 8-byte Reload
	shlq	$4, %rax
	movq	-56(%rsp), %r10                 # 8-byte Reload
	xorw	-16(%r10,%rax), %bp
	xorw	-14(%r10,%rax), %dx
	movl	-112(%rsp), %r15d               # 4-byte Reload
	xorl	%ebp, %r15d
	xorl	%edx, %r12d
	xorw	-12(%r10,%rax), %r14w
	movl	-120(%rsp), %ebp                # 4-byte Reload
	xorl	-104(%rsp), %ebp                # 4-byte Folded Reload
	xorl	%r14d, %ebp
	xorw	-10(%r10,%rax), %r9w
	movl	-96(%rsp), %ecx                 # 4-byte Reload
	xorl	-108(%rsp), %ecx                # 4-byte Folded Reload
	xorl	%r9d, %ecx
	xorw	-8(%r10,%rax), %si
	xorl	%esi, %r11d
	movl	-80(%rsp), %edx                 # 4-byte Reload
	xorl	-116(%rsp), %edx                # 4-byte Folded Reload
	xorw	-6(%r10,%rax), %di
	xorl	%edi, %edx
	xorl	-128(%rsp), %ebx                # 4-byte Folded Reload
	xorw	-4(%r10,%rax), %r13w
	xorl	%r13d, %ebx
	movl	-124(%rsp), %esi                # 4-byte Reload
	xorl	-100(%rsp), %esi                # 4-byte Folded Reload
	movq	%rax, -48(%rsp)                 # 8-byte Spill
	xorw	-2(%r10,%rax), %r8w
	xorl	%r8d, %esi
	movd	%esi, %xmm1
	movd	%r15d, %xmm2
	movd	%ebp, %xmm3
	movd	%r11d, %xmm4
	movd	%r12d, %xmm5
	movd	%ebx, %xmm6
	movd	%edx, %xmm7
	movd	%ecx, %xmm0
	punpcklwd	%xmm1, %xmm2            # xmm2 = xmm2[0],xmm1[0],xmm2[1],xmm1[1],xmm2[2],xmm1[2],xmm2[3],xmm1[3]
	punpcklwd	%xmm4, %xmm3            # xmm3 = xmm3[0],xmm4[0],xmm3[1],xmm4[1],xmm3[2],xmm4[2],xmm3[3],xmm4[3]
	punpckldq	%xmm2, %xmm3            # xmm3 = xmm3[0],xmm2[0],xmm3[1],xmm2[1]
	punpcklwd	%xmm6, %xmm5            # xmm5 = xmm5[0],xmm6[0],xmm5[1],xmm6[1],xmm5[2],xmm6[2],xmm5[3],xmm6[3]
	punpcklwd	%xmm7, %xmm0            # xmm0 = xmm0[0],xmm7[0],xmm0[1],xmm7[1],xmm0[2],xmm7[2],xmm0[3],xmm7[3]
	punpckldq	%xmm5, %xmm0            # xmm0 = xmm0[0],xmm5[0],xmm0[1],xmm5[1]
	punpcklqdq	%xmm3, %xmm0            # xmm0 = xmm0[0],xmm3[0]
	jmp	LBB10_5
LBB10_4:                               # %else.12.i
	movdqa	%xmm4, %xmm1
	psrlw	$2, %xmm1
	pxor	%xmm4, %xmm1
	pand	l_CPI10_0(%rip), %xmm1
	movdqa	%xmm1, %xmm0
	psllw	$2, %xmm0
	por	%xmm1, %xmm0
	pxor	%xmm4, %xmm0
	shlq	$4, %rax
	movq	%rax, -48(%rsp)                 # 8-byte Spill
LBB10_5:                               # %"aes_soft::soft::ciphers::planes::EncryptPlaneCipher::process_planes::<#e38f99acfded9ac6>.exit"
	pextrw	$1, %xmm0, %ebp
	pextrw	$3, %xmm0, %eax
	pextrw	$5, %xmm0, %edi
	pextrw	$7, %xmm0, %ecx
	xorl	%eax, %ebp
	movl	%ecx, %r14d
	pextrw	$6, %xmm0, %r13d
	xorl	%edi, %r14d
	movl	%ebp, %r15d
	xorl	%r13d, %r15d
	movl	%r15d, %edx
	xorl	%edi, %edx
	movl	%edx, -120(%rsp)                # 4-byte Spill
	pextrw	$2, %xmm0, %r10d
	movl	%ecx, %esi
	xorl	%r10d, %esi
	movl	%esi, -124(%rsp)                # 4-byte Spill
	pextrw	$4, %xmm0, %r8d
	xorl	%r8d, %edi
	xorl	%edi, %esi
	movl	%edi, %r11d
	movl	%edi, -84(%rsp)                 # 4-byte Spill
	movd	%xmm0, %ebx
	xorl	%esi, %ebx
	movl	%esi, %edi
	movl	%esi, -108(%rsp)                # 4-byte Spill
	movl	%ebx, %r12d
	xorl	%eax, %ebx
	movl	%edx, %eax
	andl	%r13d, %eax
	xorl	%r8d, %r12d
	xorl	%ecx, %r8d
	movl	%r12d, %esi
	andl	%edi, %esi
	movl	%r12d, %edx
	xorl	%ebp, %edx
	movl	%edx, -128(%rsp)                # 4-byte Spill
	xorl	%r8d, %eax
	xorl	%edx, %eax
	xorl	%esi, %eax
	xorl	%ebx, %esi
	movl	%r14d, -104(%rsp)               # 4-byte Spill
	xorl	%r14d, %ebx
	movl	%ebx, %edi
	andl	%r14d, %edi
	movl	%ebx, %r14d
	xorl	%edx, %r14d
	movl	%r14d, -116(%rsp)               # 4-byte Spill
	andl	%r11d, %r14d
	movl	%r8d, -80(%rsp)                 # 4-byte Spill
	andl	%r8d, %edx
	xorl	%edi, %r14d
	xorl	%edi, %edx
	xorl	%r15d, %r10d
	movl	%r12d, %r9d
	xorl	%r13d, %r9d
	movl	%r13d, %r11d
	movl	%r10d, %r13d
	movl	%r10d, -100(%rsp)               # 4-byte Spill
	xorl	%r8d, %r13d
	movl	%r13d, -112(%rsp)               # 4-byte Spill
	movl	%r9d, %edi
	andl	%r13d, %edi
	xorl	%edi, %esi
	movl	%ebx, %r13d
	xorl	%ebx, %ebp
	movl	%r10d, %r8d
	andl	%r15d, %r8d
	movl	%ebp, %r10d
	movl	-124(%rsp), %edi                # 4-byte Reload
	andl	%edi, %r10d
	xorl	%r14d, %esi
	xorl	%ebp, %r8d
	xorl	%r10d, %r8d
	xorl	%edi, %r8d
	xorl	%r14d, %r8d
	movl	%r15d, %edi
	xorl	%ecx, %edi
	movl	%edi, -92(%rsp)                 # 4-byte Spill
	xorl	%ecx, %r10d
	movl	%ebx, %ecx
	xorl	%r11d, %ecx
	movl	%ecx, -96(%rsp)                 # 4-byte Spill
	andl	%edi, %ecx
	xorl	%ebp, %ecx
	xorl	%ecx, %r10d
	xorl	%edx, %eax
	xorl	%edx, %r10d
	movl	%r8d, %ecx
	andl	%esi, %ecx
	movl	%ecx, %edx
	xorl	%eax, %edx
	movl	%r10d, %r14d
	xorl	%r8d, %r14d
	andl	%edx, %r14d
	xorl	%eax, %esi
	movl	%r14d, %edx
	xorl	%ecx, %r14d
	xorl	%r10d, %ecx
	movl	%ecx, %edi
	andl	%esi, %edi
	xorl	%eax, %edi
	xorl	%r10d, %edx
	andl	%r10d, %r14d
	xorl	%r14d, %ecx
	andl	%edi, %ecx
	xorl	%esi, %ecx
	xorl	%r8d, %r14d
	andl	%edx, -120(%rsp)                # 4-byte Folded Spill
	movl	%r14d, %eax
	xorl	%edx, %eax
	movl	%edi, %ebx
	xorl	%edx, %ebx
	andl	%r11d, %edx
	movl	%ecx, %r8d
	xorl	%eax, %r8d
	andl	%ebx, %r13d
	movl	%r13d, -88(%rsp)                # 4-byte Spill
	movl	%r8d, %r13d
	xorl	%ebx, %r13d
	andl	-104(%rsp), %ebx                # 4-byte Folded Reload
	movl	%ecx, %esi
	xorl	%edi, %esi
	andl	%esi, %ebp
	andl	-124(%rsp), %esi                # 4-byte Folded Reload
	andl	%ecx, %r15d
	andl	-100(%rsp), %ecx                # 4-byte Folded Reload
	andl	%eax, %r9d
	andl	-112(%rsp), %eax                # 4-byte Folded Reload
	movl	-84(%rsp), %r11d                # 4-byte Reload
	andl	%r13d, %r11d
	andl	-116(%rsp), %r13d               # 4-byte Folded Reload
	movl	-92(%rsp), %r10d                # 4-byte Reload
	andl	%edi, %r10d
	andl	-96(%rsp), %edi                 # 4-byte Folded Reload
	andl	%r14d, %r12d
	andl	-108(%rsp), %r14d               # 4-byte Folded Reload
	xorl	%r12d, %r9d
	xorl	%edx, %r12d
	xorl	%ebp, %r15d
	xorl	%r12d, %edi
	xorl	%ebp, %edi
	movl	%edi, %edx
	xorl	%ecx, %edi
	movl	%r11d, %ecx
	xorl	%ebx, %ecx
	xorl	%ecx, %eax
	xorl	%ecx, %edi
	xorl	%r15d, %r13d
	xorl	%r15d, %r9d
	movl	-128(%rsp), %ecx                # 4-byte Reload
	andl	%r8d, %ecx
	xorl	%ecx, %r12d
	xorl	%esi, %r12d
	xorl	%r13d, %r12d
	movq	-48(%rsp), %r15                 # 8-byte Reload
	movq	-56(%rsp), %rbp                 # 8-byte Reload
	movzwl	2(%rbp,%r15), %ecx
	xorw	%r12w, %cx
	xorl	%r10d, %r12d
	xorl	-88(%rsp), %r13d                # 4-byte Folded Reload
	andl	-80(%rsp), %r8d                 # 4-byte Folded Reload
	movzwl	(%rbp,%r15), %r11d
	xorw	%si, %r11w
	xorl	%edi, %r11d
	xorl	%edi, %ecx
	xorl	%eax, %r14d
	movl	-120(%rsp), %r10d               # 4-byte Reload
	xorw	4(%rbp,%r15), %r10w
	xorl	%eax, %r10d
	movzwl	6(%rbp,%r15), %eax
	xorw	%dx, %ax
	movl	%r13d, %edx
	xorl	%ebx, %r13d
	xorl	%r14d, %r9d
	xorl	%r12d, %r10d
	xorl	%r9d, %eax
	xorl	%r12d, %r13d
	movzwl	8(%rbp,%r15), %edi
	xorw	%r9w, %di
	xorw	10(%rbp,%r15), %r8w
	xorl	%r8d, %r13d
	movzwl	12(%rbp,%r15), %esi
	movl	%edx, %r8d
	xorw	%dx, %si
	xorl	%r9d, %esi
	movzwl	14(%rbp,%r15), %edx
	xorw	%r8w, %dx
	xorl	%r14d, %edx
	movzwl	%r11w, %r8d
	shll	$16, %ecx
	orl	%r8d, %ecx
	movzwl	%r10w, %r8d
	shlq	$32, %r8
	orq	%rcx, %r8
	shlq	$48, %rax
	orq	%r8, %rax
	movzwl	%di, %ecx
	shll	$16, %r13d
	orq	%rcx, %r13
	movzwl	%si, %ecx
	shlq	$32, %rcx
	orq	%r13, %rcx
	shlq	$48, %rdx
	orq	%rcx, %rdx
	movq	%rdx, %xmm0
	movq	%rax, %xmm2
	punpcklqdq	%xmm0, %xmm2            # xmm2 = xmm2[0],xmm0[0]
	pxor	%xmm0, %xmm0
	movdqa	%xmm2, %xmm3
	punpckhbw	%xmm0, %xmm3            # xmm3 = xmm3[8],xmm0[8],xmm3[9],xmm0[9],xmm3[10],xmm0[10],xmm3[11],xmm0[11],xmm3[12],xmm0[12],xmm3[13],xmm0[13],xmm3[14],xmm0[14],xmm3[15],xmm0[15]
	pslld	$16, %xmm3
	psrld	$16, %xmm3
	movdqa	%xmm2, %xmm1
	punpcklbw	%xmm0, %xmm1            # xmm1 = xmm1[0],xmm0[0],xmm1[1],xmm0[1],xmm1[2],xmm0[2],xmm1[3],xmm0[3],xmm1[4],xmm0[4],xmm1[5],xmm0[5],xmm1[6],xmm0[6],xmm1[7],xmm0[7]
	pslld	$16, %xmm1
	psrld	$16, %xmm1
	packssdw	%xmm3, %xmm1
	psrlw	$8, %xmm2
	packuswb	%xmm2, %xmm1
	movdqa	%xmm1, %xmm2
	psllw	$5, %xmm2
	pmovmskb	%xmm2, %eax
	movdqa	%xmm1, %xmm4
	movdqa	%xmm1, %xmm3
	movdqa	%xmm1, %xmm2
	movdqa	%xmm1, %xmm5
	psllw	$7, %xmm5
	pmovmskb	%xmm5, %ecx
	movdqa	%xmm1, %xmm5
	pmovmskb	%xmm1, %edx
	psllw	$6, %xmm1
	pmovmskb	%xmm1, %esi
	psllw	$4, %xmm4
	shll	$16, %esi
	orl	%ecx, %esi
	pmovmskb	%xmm4, %ecx
	psllw	$3, %xmm3
	shlq	$32, %rax
	orq	%rsi, %rax
	pmovmskb	%xmm3, %esi
	psllw	$2, %xmm2
	paddb	%xmm5, %xmm5
	shlq	$48, %rcx
	orq	%rax, %rcx
	shll	$16, %edx
	pmovmskb	%xmm5, %eax
	orl	%edx, %eax
	pmovmskb	%xmm2, %edx
	shll	$16, %edx
	orl	%esi, %edx
	shlq	$32, %rax
	orq	%rdx, %rax
	movq	%rax, %xmm1
	movq	%rcx, %xmm2
	movdqa	%xmm2, %xmm3
	punpcklqdq	%xmm1, %xmm3            # xmm3 = xmm3[0],xmm1[0]
	movdqa	%xmm3, -32(%rsp)
	movzbl	-32(%rsp), %eax
	movzbl	-25(%rsp), %ecx
	movzbl	-17(%rsp), %edx
	movq	8(%rsp), %rdi                   # 8-byte Reload
	movb	%al, (%rdi)
	movb	%sil, 1(%rdi)
	punpcklbw	%xmm0, %xmm1            # xmm1 = xmm1[0],xmm0[0],xmm1[1],xmm0[1],xmm1[2],xmm0[2],xmm1[3],xmm0[3],xmm1[4],xmm0[4],xmm1[5],xmm0[5],xmm1[6],xmm0[6],xmm1[7],xmm0[7]
	punpcklbw	%xmm0, %xmm2            # xmm2 = xmm2[0],xmm0[0],xmm2[1],xmm0[1],xmm2[2],xmm0[2],xmm2[3],xmm0[3],xmm2[4],xmm0[4],xmm2[5],xmm0[5],xmm2[6],xmm0[6],xmm2[7],xmm0[7]
	movdqa	%xmm2, %xmm0
	punpckhwd	%xmm1, %xmm2            # xmm2 = xmm2[4],xmm1[4],xmm2[5],xmm1[5],xmm2[6],xmm1[6],xmm2[7],xmm1[7]
	psrldq	$2, %xmm1                       # xmm1 = xmm1[2,3,4,5,6,7,8,9,10,11,12,13,14,15],zero,zero
	psrldq	$2, %xmm0                       # xmm0 = xmm0[2,3,4,5,6,7,8,9,10,11,12,13,14,15],zero,zero
	punpcklwd	%xmm1, %xmm0            # xmm0 = xmm0[0],xmm1[0],xmm0[1],xmm1[1],xmm0[2],xmm1[2],xmm0[3],xmm1[3]
	packuswb	%xmm0, %xmm0
	movq	%xmm0, 2(%rdi)
	pshufd	$233, %xmm2, %xmm0              # xmm0 = xmm2[1,2,2,3]
	packuswb	%xmm0, %xmm0
	movd	%xmm0, 10(%rdi)
	movb	%cl, 14(%rdi)
	movb	%dl, 15(%rdi)
	addq	$24, %rsp
	popq	%rbx
	popq	%r12
	popq	%r13
	popq	%r14
	popq	%r15
	popq	%rbp
	retq
                                        # -- End function
	.section	__TEXT,__text,regular,pure_instructions
	.p2align	4                               # -- Begin function aes_cipher::zeroize::stack::wipe_stack::<=1024>
"aes_cipher::zeroize::stack::wipe_stack::<=1024>": # @"aes_cipher::zeroize::stack::wipe_stack::<=1024>"
# %bb.0:                                # %start
	subq	$1032, %rsp                     # imm = 0x408
	leaq	8(%rsp), %rdi
	movl	$1024, %edx                     # imm = 0x400
	xorl	%esi, %esi
	callq	_memset
	movq	$0, (%rsp)
	#APP
	#NO_APP
	movq	(%rsp), %rax
	#APP
	#NO_APP
	cmpq	$1024, %rax                     # imm = 0x400
	jae	LBB11_2
# %bb.1:                                # %then.1
	movzbl	8(%rsp,%rax), %eax
	#APP
	#NO_APP
	xchgq	%rax, (%rsp)
	#APP
	#NO_APP
LBB11_2:                               # %common.ret
	addq	$1032, %rsp                     # imm = 0x408
	retq
                                        # -- End function
	.section	__TEXT,__text,regular,pure_instructions
	.p2align	4                               # -- Begin function aes_cipher::zeroize::elements::zeroize_elements::<#1271021761a49af4>
"aes_cipher::zeroize::elements::zeroize_elements::<#1271021761a49af4>": # @"aes_cipher::zeroize::elements::zeroize_elements::<#1271021761a49af4>"
# %bb.0:                                # %start
	movq	$0, -8(%rsp)
	#APP
	#NO_APP
	movq	-8(%rsp), %rax
	#APP
	#NO_APP
	cmpq	$120, %rax
	jae	LBB12_1
# %bb.2:                                # %then.1.i
	movzbl	(%rdi,%rax,2), %ecx
	xorps	%xmm0, %xmm0
	movups	%xmm0, 224(%rdi)
	movups	%xmm0, 208(%rdi)
	movups	%xmm0, 192(%rdi)
	movups	%xmm0, 176(%rdi)
	movups	%xmm0, 160(%rdi)
	movups	%xmm0, 144(%rdi)
	movups	%xmm0, 128(%rdi)
	movups	%xmm0, 112(%rdi)
	movups	%xmm0, 96(%rdi)
	movups	%xmm0, 80(%rdi)
	movups	%xmm0, 64(%rdi)
	movups	%xmm0, 48(%rdi)
	movups	%xmm0, 32(%rdi)
	movups	%xmm0, 16(%rdi)
	movups	%xmm0, (%rdi)
	movzbl	(%rdi,%rax,2), %eax
	andl	%ecx, %eax
	#APP
	#NO_APP
	xchgq	%rax, -8(%rsp)
	#APP
	#NO_APP
	retq
LBB12_1:                               # %"aes_cipher::zeroize::observe::<#046cd638fa353182>.exit11"
	xorps	%xmm0, %xmm0
	movups	%xmm0, 224(%rdi)
	movups	%xmm0, 208(%rdi)
	movups	%xmm0, 192(%rdi)
	movups	%xmm0, 176(%rdi)
	movups	%xmm0, 160(%rdi)
	movups	%xmm0, 144(%rdi)
	movups	%xmm0, 128(%rdi)
	movups	%xmm0, 112(%rdi)
	movups	%xmm0, 96(%rdi)
	movups	%xmm0, 80(%rdi)
	movups	%xmm0, 64(%rdi)
	movups	%xmm0, 48(%rdi)
	movups	%xmm0, 32(%rdi)
	movups	%xmm0, 16(%rdi)
	movups	%xmm0, (%rdi)
	xorl	%eax, %eax
	#APP
	#NO_APP
	xchgq	%rax, -8(%rsp)
	#APP
	#NO_APP
	retq
                                        # -- End function
	.section	__TEXT,__const
	.p2align	4, 0x0                          # -- Begin function aes::fixsliced::FixslicedCountsLayers::expand_counted::<#123648e35348170c>
l_CPI13_0:
	.short	8976                            # 0x2310
	.short	8976                            # 0x2310
	.short	8976                            # 0x2310
	.short	8976                            # 0x2310
	.short	8976                            # 0x2310
	.short	8976                            # 0x2310
	.short	8976                            # 0x2310
	.short	8976                            # 0x2310
l_CPI13_1:
	.zero	16,80
l_CPI13_2:
	.zero	16,48
l_CPI13_3:
	.short	4896                            # 0x1320
	.short	4896                            # 0x1320
	.short	4896                            # 0x1320
	.short	4896                            # 0x1320
	.short	4896                            # 0x1320
	.short	4896                            # 0x1320
	.short	4896                            # 0x1320
	.short	4896                            # 0x1320
l_CPI13_4:
	.short	65535                           # 0xffff
	.short	65535                           # 0xffff
	.short	0                               # 0x0
	.short	0                               # 0x0
	.short	0                               # 0x0
	.short	65535                           # 0xffff
	.short	65535                           # 0xffff
	.short	0                               # 0x0
	.section	__TEXT,__text,regular,pure_instructions
	.p2align	4
"aes::fixsliced::FixslicedCountsLayers::expand_counted::<#123648e35348170c>": # @"aes::fixsliced::FixslicedCountsLayers::expand_counted::<#123648e35348170c>"
# %bb.0:                                # %start
	pushq	%rbx
	movq	%rdi, %rbx
	movl	$24, %edx
	callq	"aes_planes::expansion::expand::<#9aefd798925f8490>"
	movl	$1, %eax
	movl	$16, %ecx
	jmp	LBB13_1
LBB13_4:                               # %then.4.i.i
                                        #   in Loop: Header=BB13_1 Depth=1
	movdqa	%xmm0, %xmm1
	psrlw	$2, %xmm1
	pxor	%xmm0, %xmm1
	pand	l_CPI13_2(%rip), %xmm1
	movdqa	%xmm1, %xmm2
	psllw	$2, %xmm2
	por	%xmm1, %xmm2
LBB13_7:                               # %join.8.i.i
                                        #   in Loop: Header=BB13_1 Depth=1
	pxor	%xmm2, %xmm0
LBB13_8:                               # %join.8.i.i
                                        #   in Loop: Header=BB13_1 Depth=1
	pxor	l_CPI13_4(%rip), %xmm0
	movdqu	%xmm0, (%rbx,%rcx)
	incq	%rax
	addq	$16, %rcx
	cmpq	$208, %rcx
	je	LBB13_9
LBB13_1:                               # %join.5.i.i
                                        # =>This Inner Loop Header: Depth=1
	movdqu	(%rbx,%rcx), %xmm0
	cmpq	$192, %rcx
	je	LBB13_8
# %bb.2:                                # %ok.10.i.i
                                        #   in Loop: Header=BB13_1 Depth=1
	movl	%eax, %edx
	andl	$3, %edx
	leaq	l_JTI13_0(%rip), %rsi
	movslq	(%rsi,%rdx,4), %rdx
	addq	%rsi, %rdx
	jmpq	*%rdx
LBB13_3:                               # %then.1.i.i
                                        #   in Loop: Header=BB13_1 Depth=1
	movdqa	%xmm0, %xmm1
	psrlw	$2, %xmm1
	pxor	%xmm0, %xmm1
	pand	l_CPI13_3(%rip), %xmm1
	jmp	LBB13_6
LBB13_5:                               # %then.7.i.i
                                        #   in Loop: Header=BB13_1 Depth=1
	movdqa	%xmm0, %xmm1
	psrlw	$2, %xmm1
	pxor	%xmm0, %xmm1
	pand	l_CPI13_0(%rip), %xmm1
LBB13_6:                               # %join.8.i.i
                                        #   in Loop: Header=BB13_1 Depth=1
	movdqa	%xmm1, %xmm2
	psllw	$2, %xmm2
	por	%xmm1, %xmm2
	pxor	%xmm0, %xmm2
	movdqa	%xmm2, %xmm1
	psrlw	$1, %xmm1
	pxor	%xmm2, %xmm1
	pand	l_CPI13_1(%rip), %xmm1
	movdqa	%xmm1, %xmm0
	paddw	%xmm0, %xmm0
	por	%xmm1, %xmm0
	jmp	LBB13_7
LBB13_9:                               # %"aes_soft::soft::plane_room::expand_in_room::<#123648e35348170c>.exit"
	popq	%rbx
	retq
	.section	__TEXT,__const
	.p2align	2, 0x0
l_JTI13_0:
	.long	LBB13_8-l_JTI13_0
	.long	LBB13_3-l_JTI13_0
	.long	LBB13_4-l_JTI13_0
	.long	LBB13_5-l_JTI13_0
                                        # -- End function
	.section	__TEXT,__const
	.p2align	4, 0x0                          # -- Begin function aes::fixsliced::FixslicedCountsLayers::expand_counted::<#7eef6ffa698b135b>
l_CPI14_0:
	.short	8976                            # 0x2310
	.short	8976                            # 0x2310
	.short	8976                            # 0x2310
	.short	8976                            # 0x2310
	.short	8976                            # 0x2310
	.short	8976                            # 0x2310
	.short	8976                            # 0x2310
	.short	8976                            # 0x2310
l_CPI14_1:
	.zero	16,80
l_CPI14_2:
	.zero	16,48
l_CPI14_3:
	.short	4896                            # 0x1320
	.short	4896                            # 0x1320
	.short	4896                            # 0x1320
	.short	4896                            # 0x1320
	.short	4896                            # 0x1320
	.short	4896                            # 0x1320
	.short	4896                            # 0x1320
	.short	4896                            # 0x1320
l_CPI14_4:
	.short	65535                           # 0xffff
	.short	65535                           # 0xffff
	.short	0                               # 0x0
	.short	0                               # 0x0
	.short	0                               # 0x0
	.short	65535                           # 0xffff
	.short	65535                           # 0xffff
	.short	0                               # 0x0
	.section	__TEXT,__text,regular,pure_instructions
	.p2align	4
"aes::fixsliced::FixslicedCountsLayers::expand_counted::<#7eef6ffa698b135b>": # @"aes::fixsliced::FixslicedCountsLayers::expand_counted::<#7eef6ffa698b135b>"
# %bb.0:                                # %start
	pushq	%rbx
	movq	%rdi, %rbx
	movl	$32, %edx
	callq	"aes_planes::expansion::expand::<#9aefd798925f8490>"
	movl	$1, %eax
	movl	$16, %ecx
	jmp	LBB14_1
LBB14_4:                               # %then.4.i.i
                                        #   in Loop: Header=BB14_1 Depth=1
	movdqa	%xmm0, %xmm1
	psrlw	$2, %xmm1
	pxor	%xmm0, %xmm1
	pand	l_CPI14_2(%rip), %xmm1
	movdqa	%xmm1, %xmm2
	psllw	$2, %xmm2
	por	%xmm1, %xmm2
LBB14_7:                               # %join.8.i.i
                                        #   in Loop: Header=BB14_1 Depth=1
	pxor	%xmm2, %xmm0
LBB14_8:                               # %join.8.i.i
                                        #   in Loop: Header=BB14_1 Depth=1
	pxor	l_CPI14_4(%rip), %xmm0
	movdqu	%xmm0, (%rbx,%rcx)
	incq	%rax
	addq	$16, %rcx
	cmpq	$240, %rcx
	je	LBB14_9
LBB14_1:                               # %join.5.i.i
                                        # =>This Inner Loop Header: Depth=1
	movdqu	(%rbx,%rcx), %xmm0
	cmpq	$224, %rcx
	je	LBB14_8
# %bb.2:                                # %ok.10.i.i
                                        #   in Loop: Header=BB14_1 Depth=1
	movl	%eax, %edx
	andl	$3, %edx
	leaq	l_JTI14_0(%rip), %rsi
	movslq	(%rsi,%rdx,4), %rdx
	addq	%rsi, %rdx
	jmpq	*%rdx
LBB14_3:                               # %then.1.i.i
                                        #   in Loop: Header=BB14_1 Depth=1
	movdqa	%xmm0, %xmm1
	psrlw	$2, %xmm1
	pxor	%xmm0, %xmm1
	pand	l_CPI14_3(%rip), %xmm1
	jmp	LBB14_6
LBB14_5:                               # %then.7.i.i
                                        #   in Loop: Header=BB14_1 Depth=1
	movdqa	%xmm0, %xmm1
	psrlw	$2, %xmm1
	pxor	%xmm0, %xmm1
	pand	l_CPI14_0(%rip), %xmm1
LBB14_6:                               # %join.8.i.i
                                        #   in Loop: Header=BB14_1 Depth=1
	movdqa	%xmm1, %xmm2
	psllw	$2, %xmm2
	por	%xmm1, %xmm2
	pxor	%xmm0, %xmm2
	movdqa	%xmm2, %xmm1
	psrlw	$1, %xmm1
	pxor	%xmm2, %xmm1
	pand	l_CPI14_1(%rip), %xmm1
	movdqa	%xmm1, %xmm0
	paddw	%xmm0, %xmm0
	por	%xmm1, %xmm0
	jmp	LBB14_7
LBB14_9:                               # %"aes_soft::soft::plane_room::expand_in_room::<#7eef6ffa698b135b>.exit"
	popq	%rbx
	retq
	.section	__TEXT,__const
	.p2align	2, 0x0
l_JTI14_0:
	.long	LBB14_8-l_JTI14_0
	.long	LBB14_3-l_JTI14_0
	.long	LBB14_4-l_JTI14_0
	.long	LBB14_5-l_JTI14_0
                                        # -- End function
	.section	__TEXT,__const
	.p2align	4, 0x0                          # -- Begin function aes_soft::soft::blocks::slices::process_batches_outlined::<#7a29a06501f6c419>
l_CPI15_0:
	.zero	16,85
l_CPI15_1:
	.zero	16,51
l_CPI15_2:
	.zero	16,15
l_CPI15_3:
	.short	0                               # 0x0
	.short	0                               # 0x0
	.short	65535                           # 0xffff
	.short	0                               # 0x0
	.short	0                               # 0x0
	.short	0                               # 0x0
	.short	65535                           # 0xffff
	.short	0                               # 0x0
	.section	__TEXT,__text,regular,pure_instructions
	.p2align	4
"aes_soft::soft::blocks::slices::process_batches_outlined::<#7a29a06501f6c419>": # @"aes_soft::soft::blocks::slices::process_batches_outlined::<#7a29a06501f6c419>"
# %bb.0:                                # %start
	pushq	%rbp
	pushq	%r15
	pushq	%r14
	pushq	%r13
	pushq	%r12
	pushq	%rbx
	subq	$520, %rsp                      # imm = 0x208
	movq	%rcx, 504(%rsp)                 # 8-byte Spill
	movq	%rdx, %r14
	movq	%rdi, %r12
	shrq	$3, %rsi
	leaq	-1(%rsi), %r15
	addq	$-3, %rsi
	movl	%esi, %r13d
	andl	$12, %r13d
	movq	%r15, %rbp
	shlq	$7, %rbp
	leaq	2(%r13), %rax
	movq	%rax, 496(%rsp)                 # 8-byte Spill
	shll	$7, %r13d
	shlq	$7, %rsi
	movq	%rsi, 440(%rsp)                 # 8-byte Spill
	andq	$-512, %rsi                     # imm = 0xFE00
	movq	%rsi, 488(%rsp)                 # 8-byte Spill
	xorl	%eax, %eax
	movq	%rdx, 448(%rsp)                 # 8-byte Spill
	movq	%r15, 432(%rsp)                 # 8-byte Spill
	movq	%r13, 424(%rsp)                 # 8-byte Spill
	movq	%rbp, 416(%rsp)                 # 8-byte Spill
	.p2align	4
LBB15_1:                               # %join.5.i
                                        # =>This Loop Header: Depth=1
                                        #     Child Loop BB15_5 Depth 2
	movq	%rax, %rcx
	shlq	$4, %rcx
	movdqu	(%r14,%rcx), %xmm0
	movdqu	16(%r14,%rcx), %xmm1
	movdqu	32(%r14,%rcx), %xmm7
	movdqu	48(%r14,%rcx), %xmm8
	movdqu	64(%r14,%rcx), %xmm4
	movdqu	80(%r14,%rcx), %xmm2
	movdqu	96(%r14,%rcx), %xmm6
	movq	%rcx, 512(%rsp)                 # 8-byte Spill
	movdqu	112(%r14,%rcx), %xmm3
	pxor	%xmm5, %xmm5
	movdqa	%xmm0, %xmm9
	punpckhbw	%xmm5, %xmm9            # xmm9 = xmm9[8],xmm5[8],xmm9[9],xmm5[9],xmm9[10],xmm5[10],xmm9[11],xmm5[11],xmm9[12],xmm5[12],xmm9[13],xmm5[13],xmm9[14],xmm5[14],xmm9[15],xmm5[15]
	pshufd	$231, %xmm9, %xmm10             # xmm10 = xmm9[3,1,2,3]
	pshuflw	$114, %xmm10, %xmm10            # xmm10 = xmm10[2,0,3,1,4,5,6,7]
	punpcklbw	%xmm5, %xmm0            # xmm0 = xmm0[0],xmm5[0],xmm0[1],xmm5[1],xmm0[2],xmm5[2],xmm0[3],xmm5[3],xmm0[4],xmm5[4],xmm0[5],xmm5[5],xmm0[6],xmm5[6],xmm0[7],xmm5[7]
	pshufd	$231, %xmm0, %xmm11             # xmm11 = xmm0[3,1,2,3]
	pshuflw	$114, %xmm11, %xmm11            # xmm11 = xmm11[2,0,3,1,4,5,6,7]
	punpckldq	%xmm10, %xmm11          # xmm11 = xmm11[0],xmm10[0],xmm11[1],xmm10[1]
	pshufd	$232, %xmm9, %xmm9              # xmm9 = xmm9[0,2,2,3]
	pshuflw	$216, %xmm9, %xmm9              # xmm9 = xmm9[0,2,1,3,4,5,6,7]
	pshufd	$232, %xmm0, %xmm0              # xmm0 = xmm0[0,2,2,3]
	pshuflw	$216, %xmm0, %xmm0              # xmm0 = xmm0[0,2,1,3,4,5,6,7]
	punpckldq	%xmm9, %xmm0            # xmm0 = xmm0[0],xmm9[0],xmm0[1],xmm9[1]
	packuswb	%xmm11, %xmm0
	movdqa	%xmm1, %xmm9
	punpckhbw	%xmm5, %xmm9            # xmm9 = xmm9[8],xmm5[8],xmm9[9],xmm5[9],xmm9[10],xmm5[10],xmm9[11],xmm5[11],xmm9[12],xmm5[12],xmm9[13],xmm5[13],xmm9[14],xmm5[14],xmm9[15],xmm5[15]
	pshufd	$231, %xmm9, %xmm10             # xmm10 = xmm9[3,1,2,3]
	pshuflw	$114, %xmm10, %xmm10            # xmm10 = xmm10[2,0,3,1,4,5,6,7]
	punpcklbw	%xmm5, %xmm1            # xmm1 = xmm1[0],xmm5[0],xmm1[1],xmm5[1],xmm1[2],xmm5[2],xmm1[3],xmm5[3],xmm1[4],xmm5[4],xmm1[5],xmm5[5],xmm1[6],xmm5[6],xmm1[7],xmm5[7]
	pshufd	$231, %xmm1, %xmm11             # xmm11 = xmm1[3,1,2,3]
	pshuflw	$114, %xmm11, %xmm11            # xmm11 = xmm11[2,0,3,1,4,5,6,7]
	punpckldq	%xmm10, %xmm11          # xmm11 = xmm11[0],xmm10[0],xmm11[1],xmm10[1]
	pshufd	$232, %xmm9, %xmm9              # xmm9 = xmm9[0,2,2,3]
	pshuflw	$216, %xmm9, %xmm9              # xmm9 = xmm9[0,2,1,3,4,5,6,7]
	pshufd	$232, %xmm1, %xmm1              # xmm1 = xmm1[0,2,2,3]
	pshuflw	$216, %xmm1, %xmm1              # xmm1 = xmm1[0,2,1,3,4,5,6,7]
	punpckldq	%xmm9, %xmm1            # xmm1 = xmm1[0],xmm9[0],xmm1[1],xmm9[1]
	packuswb	%xmm11, %xmm1
	movdqa	%xmm7, %xmm9
	punpckhbw	%xmm5, %xmm9            # xmm9 = xmm9[8],xmm5[8],xmm9[9],xmm5[9],xmm9[10],xmm5[10],xmm9[11],xmm5[11],xmm9[12],xmm5[12],xmm9[13],xmm5[13],xmm9[14],xmm5[14],xmm9[15],xmm5[15]
	pshufd	$231, %xmm9, %xmm10             # xmm10 = xmm9[3,1,2,3]
	pshuflw	$114, %xmm10, %xmm10            # xmm10 = xmm10[2,0,3,1,4,5,6,7]
	punpcklbw	%xmm5, %xmm7            # xmm7 = xmm7[0],xmm5[0],xmm7[1],xmm5[1],xmm7[2],xmm5[2],xmm7[3],xmm5[3],xmm7[4],xmm5[4],xmm7[5],xmm5[5],xmm7[6],xmm5[6],xmm7[7],xmm5[7]
	pshufd	$231, %xmm7, %xmm11             # xmm11 = xmm7[3,1,2,3]
	pshuflw	$114, %xmm11, %xmm11            # xmm11 = xmm11[2,0,3,1,4,5,6,7]
	punpckldq	%xmm10, %xmm11          # xmm11 = xmm11[0],xmm10[0],xmm11[1],xmm10[1]
	pshufd	$232, %xmm9, %xmm9              # xmm9 = xmm9[0,2,2,3]
	pshuflw	$216, %xmm9, %xmm9              # xmm9 = xmm9[0,2,1,3,4,5,6,7]
	pshufd	$232, %xmm7, %xmm7              # xmm7 = xmm7[0,2,2,3]
	pshuflw	$216, %xmm7, %xmm7              # xmm7 = xmm7[0,2,1,3,4,5,6,7]
	punpckldq	%xmm9, %xmm7            # xmm7 = xmm7[0],xmm9[0],xmm7[1],xmm9[1]
	packuswb	%xmm11, %xmm7
	movdqa	%xmm8, %xmm9
	punpckhbw	%xmm5, %xmm9            # xmm9 = xmm9[8],xmm5[8],xmm9[9],xmm5[9],xmm9[10],xmm5[10],xmm9[11],xmm5[11],xmm9[12],xmm5[12],xmm9[13],xmm5[13],xmm9[14],xmm5[14],xmm9[15],xmm5[15]
	pshufd	$231, %xmm9, %xmm10             # xmm10 = xmm9[3,1,2,3]
	pshuflw	$114, %xmm10, %xmm10            # xmm10 = xmm10[2,0,3,1,4,5,6,7]
	punpcklbw	%xmm5, %xmm8            # xmm8 = xmm8[0],xmm5[0],xmm8[1],xmm5[1],xmm8[2],xmm5[2],xmm8[3],xmm5[3],xmm8[4],xmm5[4],xmm8[5],xmm5[5],xmm8[6],xmm5[6],xmm8[7],xmm5[7]
	pshufd	$231, %xmm8, %xmm11             # xmm11 = xmm8[3,1,2,3]
	pshuflw	$114, %xmm11, %xmm11            # xmm11 = xmm11[2,0,3,1,4,5,6,7]
	punpckldq	%xmm10, %xmm11          # xmm11 = xmm11[0],xmm10[0],xmm11[1],xmm10[1]
	pshufd	$232, %xmm9, %xmm9              # xmm9 = xmm9[0,2,2,3]
	pshuflw	$216, %xmm9, %xmm9              # xmm9 = xmm9[0,2,1,3,4,5,6,7]
	pshufd	$232, %xmm8, %xmm8              # xmm8 = xmm8[0,2,2,3]
	pshuflw	$216, %xmm8, %xmm10             # xmm10 = xmm8[0,2,1,3,4,5,6,7]
	punpckldq	%xmm9, %xmm10           # xmm10 = xmm10[0],xmm9[0],xmm10[1],xmm9[1]
	packuswb	%xmm11, %xmm10
	movdqa	%xmm4, %xmm8
	punpckhbw	%xmm5, %xmm8            # xmm8 = xmm8[8],xmm5[8],xmm8[9],xmm5[9],xmm8[10],xmm5[10],xmm8[11],xmm5[11],xmm8[12],xmm5[12],xmm8[13],xmm5[13],xmm8[14],xmm5[14],xmm8[15],xmm5[15]
	pshufd	$231, %xmm8, %xmm9              # xmm9 = xmm8[3,1,2,3]
	pshuflw	$114, %xmm9, %xmm9              # xmm9 = xmm9[2,0,3,1,4,5,6,7]
	punpcklbw	%xmm5, %xmm4            # xmm4 = xmm4[0],xmm5[0],xmm4[1],xmm5[1],xmm4[2],xmm5[2],xmm4[3],xmm5[3],xmm4[4],xmm5[4],xmm4[5],xmm5[5],xmm4[6],xmm5[6],xmm4[7],xmm5[7]
	pshufd	$231, %xmm4, %xmm11             # xmm11 = xmm4[3,1,2,3]
	pshuflw	$114, %xmm11, %xmm11            # xmm11 = xmm11[2,0,3,1,4,5,6,7]
	punpckldq	%xmm9, %xmm11           # xmm11 = xmm11[0],xmm9[0],xmm11[1],xmm9[1]
	pshufd	$232, %xmm8, %xmm8              # xmm8 = xmm8[0,2,2,3]
	pshuflw	$216, %xmm8, %xmm8              # xmm8 = xmm8[0,2,1,3,4,5,6,7]
	pshufd	$232, %xmm4, %xmm4              # xmm4 = xmm4[0,2,2,3]
	pshuflw	$216, %xmm4, %xmm9              # xmm9 = xmm4[0,2,1,3,4,5,6,7]
	punpckldq	%xmm8, %xmm9            # xmm9 = xmm9[0],xmm8[0],xmm9[1],xmm8[1]
	packuswb	%xmm11, %xmm9
	movdqa	%xmm2, %xmm4
	punpckhbw	%xmm5, %xmm4            # xmm4 = xmm4[8],xmm5[8],xmm4[9],xmm5[9],xmm4[10],xmm5[10],xmm4[11],xmm5[11],xmm4[12],xmm5[12],xmm4[13],xmm5[13],xmm4[14],xmm5[14],xmm4[15],xmm5[15]
	pshufd	$231, %xmm4, %xmm8              # xmm8 = xmm4[3,1,2,3]
	pshuflw	$114, %xmm8, %xmm8              # xmm8 = xmm8[2,0,3,1,4,5,6,7]
	punpcklbw	%xmm5, %xmm2            # xmm2 = xmm2[0],xmm5[0],xmm2[1],xmm5[1],xmm2[2],xmm5[2],xmm2[3],xmm5[3],xmm2[4],xmm5[4],xmm2[5],xmm5[5],xmm2[6],xmm5[6],xmm2[7],xmm5[7]
	pshufd	$231, %xmm2, %xmm11             # xmm11 = xmm2[3,1,2,3]
	pshuflw	$114, %xmm11, %xmm11            # xmm11 = xmm11[2,0,3,1,4,5,6,7]
	punpckldq	%xmm8, %xmm11           # xmm11 = xmm11[0],xmm8[0],xmm11[1],xmm8[1]
	pshufd	$232, %xmm4, %xmm4              # xmm4 = xmm4[0,2,2,3]
	pshuflw	$216, %xmm4, %xmm8              # xmm8 = xmm4[0,2,1,3,4,5,6,7]
	pshufd	$232, %xmm2, %xmm2              # xmm2 = xmm2[0,2,2,3]
	pshuflw	$216, %xmm2, %xmm4              # xmm4 = xmm2[0,2,1,3,4,5,6,7]
	punpckldq	%xmm8, %xmm4            # xmm4 = xmm4[0],xmm8[0],xmm4[1],xmm8[1]
	packuswb	%xmm11, %xmm4
	movdqa	%xmm6, %xmm2
	punpckhbw	%xmm5, %xmm2            # xmm2 = xmm2[8],xmm5[8],xmm2[9],xmm5[9],xmm2[10],xmm5[10],xmm2[11],xmm5[11],xmm2[12],xmm5[12],xmm2[13],xmm5[13],xmm2[14],xmm5[14],xmm2[15],xmm5[15]
	pshufd	$231, %xmm2, %xmm8              # xmm8 = xmm2[3,1,2,3]
	pshuflw	$114, %xmm8, %xmm8              # xmm8 = xmm8[2,0,3,1,4,5,6,7]
	punpcklbw	%xmm5, %xmm6            # xmm6 = xmm6[0],xmm5[0],xmm6[1],xmm5[1],xmm6[2],xmm5[2],xmm6[3],xmm5[3],xmm6[4],xmm5[4],xmm6[5],xmm5[5],xmm6[6],xmm5[6],xmm6[7],xmm5[7]
	pshufd	$231, %xmm6, %xmm11             # xmm11 = xmm6[3,1,2,3]
	pshuflw	$114, %xmm11, %xmm11            # xmm11 = xmm11[2,0,3,1,4,5,6,7]
	punpckldq	%xmm8, %xmm11           # xmm11 = xmm11[0],xmm8[0],xmm11[1],xmm8[1]
	pshufd	$232, %xmm2, %xmm2              # xmm2 = xmm2[0,2,2,3]
	pshuflw	$216, %xmm2, %xmm8              # xmm8 = xmm2[0,2,1,3,4,5,6,7]
	pshufd	$232, %xmm6, %xmm2              # xmm2 = xmm6[0,2,2,3]
	pshuflw	$216, %xmm2, %xmm2              # xmm2 = xmm2[0,2,1,3,4,5,6,7]
	punpckldq	%xmm8, %xmm2            # xmm2 = xmm2[0],xmm8[0],xmm2[1],xmm8[1]
	packuswb	%xmm11, %xmm2
	movdqa	%xmm3, %xmm6
	punpckhbw	%xmm5, %xmm6            # xmm6 = xmm6[8],xmm5[8],xmm6[9],xmm5[9],xmm6[10],xmm5[10],xmm6[11],xmm5[11],xmm6[12],xmm5[12],xmm6[13],xmm5[13],xmm6[14],xmm5[14],xmm6[15],xmm5[15]
	pshufd	$231, %xmm6, %xmm8              # xmm8 = xmm6[3,1,2,3]
	pshuflw	$114, %xmm8, %xmm8              # xmm8 = xmm8[2,0,3,1,4,5,6,7]
	punpcklbw	%xmm5, %xmm3            # xmm3 = xmm3[0],xmm5[0],xmm3[1],xmm5[1],xmm3[2],xmm5[2],xmm3[3],xmm5[3],xmm3[4],xmm5[4],xmm3[5],xmm5[5],xmm3[6],xmm5[6],xmm3[7],xmm5[7]
	pshufd	$231, %xmm3, %xmm5              # xmm5 = xmm3[3,1,2,3]
	pshuflw	$114, %xmm5, %xmm5              # xmm5 = xmm5[2,0,3,1,4,5,6,7]
	punpckldq	%xmm8, %xmm5            # xmm5 = xmm5[0],xmm8[0],xmm5[1],xmm8[1]
	pshufd	$232, %xmm6, %xmm6              # xmm6 = xmm6[0,2,2,3]
	pshuflw	$216, %xmm6, %xmm6              # xmm6 = xmm6[0,2,1,3,4,5,6,7]
	pshufd	$232, %xmm3, %xmm3              # xmm3 = xmm3[0,2,2,3]
	pshuflw	$216, %xmm3, %xmm11             # xmm11 = xmm3[0,2,1,3,4,5,6,7]
	punpckldq	%xmm6, %xmm11           # xmm11 = xmm11[0],xmm6[0],xmm11[1],xmm6[1]
	packuswb	%xmm5, %xmm11
	movdqa	%xmm0, %xmm6
	psrlw	$1, %xmm6
	pxor	%xmm1, %xmm6
	movdqa	l_CPI15_0(%rip), %xmm5          # xmm5 = [85,85,85,85,85,85,85,85,85,85,85,85,85,85,85,85]
	pand	%xmm5, %xmm6
	pxor	%xmm6, %xmm1
	paddb	%xmm6, %xmm6
	pxor	%xmm0, %xmm6
	movdqa	%xmm7, %xmm3
	psrlw	$1, %xmm3
	pxor	%xmm10, %xmm3
	pand	%xmm5, %xmm3
	pxor	%xmm3, %xmm10
	paddb	%xmm3, %xmm3
	pxor	%xmm7, %xmm3
	movdqa	%xmm9, %xmm0
	psrlw	$1, %xmm0
	pxor	%xmm4, %xmm0
	pand	%xmm5, %xmm0
	pxor	%xmm0, %xmm4
	paddb	%xmm0, %xmm0
	pxor	%xmm9, %xmm0
	movdqa	%xmm2, %xmm8
	psrlw	$1, %xmm8
	pxor	%xmm11, %xmm8
	pand	%xmm5, %xmm8
	pxor	%xmm8, %xmm11
	paddb	%xmm8, %xmm8
	pxor	%xmm2, %xmm8
	movdqa	%xmm6, %xmm5
	psrlw	$2, %xmm5
	pxor	%xmm3, %xmm5
	movdqa	l_CPI15_1(%rip), %xmm2          # xmm2 = [51,51,51,51,51,51,51,51,51,51,51,51,51,51,51,51]
	pand	%xmm2, %xmm5
	pxor	%xmm5, %xmm3
	psllw	$2, %xmm5
	pxor	%xmm6, %xmm5
	movdqa	%xmm0, %xmm12
	psrlw	$2, %xmm12
	pxor	%xmm8, %xmm12
	pand	%xmm2, %xmm12
	pxor	%xmm12, %xmm8
	psllw	$2, %xmm12
	pxor	%xmm0, %xmm12
	movdqa	%xmm1, %xmm6
	psrlw	$2, %xmm6
	pxor	%xmm10, %xmm6
	pand	%xmm2, %xmm6
	pxor	%xmm6, %xmm10
	psllw	$2, %xmm6
	pxor	%xmm1, %xmm6
	movdqa	%xmm4, %xmm9
	psrlw	$2, %xmm9
	pxor	%xmm11, %xmm9
	pand	%xmm2, %xmm9
	pxor	%xmm9, %xmm11
	psllw	$2, %xmm9
	pxor	%xmm4, %xmm9
	movdqa	%xmm5, %xmm7
	psrlw	$4, %xmm7
	movdqa	l_CPI15_2(%rip), %xmm0          # xmm0 = [15,15,15,15,15,15,15,15,15,15,15,15,15,15,15,15]
	pxor	%xmm12, %xmm7
	pand	%xmm0, %xmm7
	pxor	64(%r12,%rbp), %xmm12
	pxor	%xmm7, %xmm12
	psllw	$4, %xmm7
	movdqa	%xmm6, %xmm4
	psrlw	$4, %xmm4
	pxor	%xmm9, %xmm4
	pand	%xmm0, %xmm4
	pxor	80(%r12,%rbp), %xmm9
	pxor	%xmm4, %xmm9
	psllw	$4, %xmm4
	movdqa	%xmm3, %xmm2
	psrlw	$4, %xmm2
	pxor	%xmm8, %xmm2
	pxor	96(%r12,%rbp), %xmm8
	pand	%xmm0, %xmm2
	pxor	%xmm2, %xmm8
	psllw	$4, %xmm2
	movdqa	%xmm10, %xmm1
	psrlw	$4, %xmm1
	pxor	%xmm11, %xmm1
	pand	%xmm0, %xmm1
	pxor	112(%r12,%rbp), %xmm11
	pxor	%xmm1, %xmm11
	psllw	$4, %xmm1
	pxor	(%r12,%rbp), %xmm7
	pxor	%xmm5, %xmm7
	pxor	16(%r12,%rbp), %xmm4
	pxor	32(%r12,%rbp), %xmm2
	pxor	%xmm6, %xmm4
	pxor	%xmm3, %xmm2
	pxor	48(%r12,%rbp), %xmm1
	pxor	%xmm10, %xmm1
	movdqa	%xmm9, %xmm0
	pxor	%xmm2, %xmm0
	movdqa	%xmm0, (%rsp)                   # 16-byte Spill
	movdqa	%xmm8, %xmm0
	pxor	%xmm4, %xmm0
	pxor	%xmm4, %xmm2
	movdqa	%xmm2, %xmm10
	movdqa	%xmm2, 48(%rsp)                 # 16-byte Spill
	pxor	%xmm7, %xmm4
	movdqa	%xmm11, %xmm5
	movdqa	%xmm8, %xmm2
	pxor	%xmm12, %xmm2
	movdqa	%xmm2, %xmm15
	movdqa	%xmm2, 32(%rsp)                 # 16-byte Spill
	movdqa	%xmm9, %xmm2
	pxor	%xmm1, %xmm2
	pxor	%xmm0, %xmm2
	movdqa	%xmm2, 160(%rsp)                # 16-byte Spill
	movdqa	%xmm0, %xmm13
	movdqa	%xmm11, %xmm14
	pxor	%xmm12, %xmm11
	pxor	%xmm1, %xmm12
	movdqa	%xmm12, %xmm3
	pxor	%xmm4, %xmm3
	movdqa	%xmm3, 16(%rsp)                 # 16-byte Spill
	movdqa	%xmm2, %xmm0
	por	%xmm3, %xmm0
	movdqa	%xmm12, %xmm2
	pxor	%xmm7, %xmm2
	movdqa	%xmm2, 144(%rsp)                # 16-byte Spill
	pand	%xmm2, %xmm15
	pxor	%xmm0, %xmm15
	pxor	%xmm8, %xmm5
	pxor	%xmm11, %xmm8
	movdqa	%xmm8, %xmm3
	pxor	%xmm1, %xmm3
	movdqa	%xmm3, 128(%rsp)                # 16-byte Spill
	pxor	%xmm7, %xmm1
	movdqa	%xmm12, %xmm2
	pxor	%xmm10, %xmm2
	pand	%xmm2, %xmm3
	movdqa	%xmm2, 64(%rsp)                 # 16-byte Spill
	movdqa	%xmm5, %xmm6
	pxor	%xmm1, %xmm6
	movdqa	%xmm6, %xmm10
	pand	%xmm5, %xmm10
	movdqa	%xmm5, 112(%rsp)                # 16-byte Spill
	movdqa	%xmm6, %xmm0
	movdqa	%xmm6, 96(%rsp)                 # 16-byte Spill
	pxor	%xmm2, %xmm0
	pand	%xmm12, %xmm0
	pxor	%xmm0, %xmm3
	pxor	%xmm10, %xmm0
	pxor	%xmm4, %xmm5
	movdqa	%xmm5, 176(%rsp)                # 16-byte Spill
	movdqa	(%rsp), %xmm7                   # 16-byte Reload
	pxor	%xmm7, %xmm14
	movdqa	%xmm14, 224(%rsp)               # 16-byte Spill
	movdqa	32(%rsp), %xmm2                 # 16-byte Reload
	pxor	%xmm2, %xmm4
	pxor	%xmm1, %xmm13
	movdqa	%xmm13, 80(%rsp)                # 16-byte Spill
	movdqa	%xmm4, %xmm10
	pand	%xmm14, %xmm10
	pxor	%xmm1, %xmm10
	movdqa	%xmm7, %xmm1
	pxor	%xmm2, %xmm1
	movdqa	%xmm1, (%rsp)                   # 16-byte Spill
	pand	%xmm1, %xmm5
	movdqa	%xmm8, %xmm1
	pand	%xmm11, %xmm1
	pxor	%xmm5, %xmm10
	pxor	48(%rsp), %xmm1                 # 16-byte Folded Reload
	pxor	%xmm6, %xmm1
	pxor	%xmm5, %xmm1
	pxor	%xmm3, %xmm15
	pxor	%xmm3, %xmm1
	movdqa	160(%rsp), %xmm5                # 16-byte Reload
	movdqa	%xmm5, %xmm13
	movdqa	16(%rsp), %xmm3                 # 16-byte Reload
	pand	%xmm3, %xmm13
	movdqa	%xmm4, %xmm6
	movdqa	%xmm4, %xmm7
	pxor	%xmm9, %xmm6
	movdqa	%xmm6, %xmm14
	movdqa	80(%rsp), %xmm4                 # 16-byte Reload
	pand	%xmm4, %xmm14
	pxor	%xmm12, %xmm13
	pxor	%xmm14, %xmm13
	pxor	%xmm9, %xmm13
	pxor	%xmm0, %xmm10
	pxor	%xmm0, %xmm13
	movdqa	%xmm1, %xmm2
	pand	%xmm15, %xmm2
	movdqa	%xmm1, %xmm0
	pxor	%xmm10, %xmm0
	pand	%xmm13, %xmm1
	pand	%xmm0, %xmm1
	movdqa	%xmm2, %xmm14
	pxor	%xmm13, %xmm14
	pand	%xmm0, %xmm14
	pxor	%xmm2, %xmm0
	pxor	%xmm1, %xmm0
	movdqa	%xmm2, %xmm9
	pxor	%xmm10, %xmm9
	movdqa	%xmm13, %xmm1
	pxor	%xmm15, %xmm1
	pand	%xmm1, %xmm9
	pxor	%xmm13, %xmm9
	pxor	%xmm10, %xmm14
	movdqa	%xmm14, %xmm13
	pxor	%xmm0, %xmm13
	pand	%xmm13, %xmm3
	movdqa	%xmm3, 16(%rsp)                 # 16-byte Spill
	pand	%xmm5, %xmm13
	pand	%xmm14, %xmm4
	movdqa	%xmm4, 80(%rsp)                 # 16-byte Spill
	movdqa	%xmm14, %xmm5
	pand	%xmm6, %xmm14
	movdqa	(%rsp), %xmm4                   # 16-byte Reload
	pand	%xmm15, %xmm10
	pandn	%xmm1, %xmm10
	pxor	%xmm2, %xmm10
	pxor	%xmm9, %xmm5
	movdqa	32(%rsp), %xmm3                 # 16-byte Reload
	pand	%xmm0, %xmm3
	movdqa	%xmm3, 32(%rsp)                 # 16-byte Spill
	movdqa	224(%rsp), %xmm15               # 16-byte Reload
	pand	%xmm9, %xmm15
	pand	%xmm9, %xmm7
	movdqa	%xmm7, 224(%rsp)                # 16-byte Spill
	movdqa	144(%rsp), %xmm1                # 16-byte Reload
	pand	%xmm0, %xmm1
	pxor	%xmm10, %xmm0
	pand	%xmm10, %xmm11
	pxor	%xmm10, %xmm9
	pand	%xmm8, %xmm10
	movdqa	%xmm5, %xmm8
	pand	%xmm9, %xmm4
	pand	176(%rsp), %xmm9                # 16-byte Folded Reload
	pand	%xmm5, %xmm12
	movdqa	48(%rsp), %xmm2                 # 16-byte Reload
	movdqa	96(%rsp), %xmm5                 # 16-byte Reload
	pxor	%xmm5, %xmm2
	pand	%xmm8, %xmm2
	movdqa	%xmm2, 48(%rsp)                 # 16-byte Spill
	pxor	%xmm0, %xmm8
	movdqa	64(%rsp), %xmm7                 # 16-byte Reload
	pand	%xmm8, %xmm7
	pxor	%xmm1, %xmm7
	pxor	%xmm1, %xmm10
	pand	128(%rsp), %xmm8                # 16-byte Folded Reload
	pand	%xmm0, %xmm5
	movdqa	%xmm5, 96(%rsp)                 # 16-byte Spill
	pand	112(%rsp), %xmm0                # 16-byte Folded Reload
	movdqa	16(%rsp), %xmm6                 # 16-byte Reload
	movdqa	%xmm6, %xmm5
	pxor	%xmm3, %xmm5
	movdqa	80(%rsp), %xmm3                 # 16-byte Reload
	pxor	%xmm13, %xmm3
	movdqa	%xmm8, %xmm1
	pxor	%xmm13, %xmm8
	pxor	%xmm14, %xmm13
	movdqa	48(%rsp), %xmm2                 # 16-byte Reload
	pxor	%xmm2, %xmm5
	pxor	%xmm4, %xmm14
	pxor	%xmm5, %xmm7
	movdqa	%xmm7, 64(%rsp)                 # 16-byte Spill
	pxor	%xmm15, %xmm4
	movdqa	96(%rsp), %xmm7                 # 16-byte Reload
	pxor	%xmm7, %xmm1
	pxor	%xmm1, %xmm5
	pxor	%xmm0, %xmm9
	pxor	%xmm14, %xmm0
	pxor	%xmm10, %xmm14
	pxor	%xmm5, %xmm14
	pxor	%xmm5, %xmm4
	movdqa	%xmm4, (%rsp)                   # 16-byte Spill
	pxor	%xmm13, %xmm5
	pxor	%xmm15, %xmm11
	pxor	%xmm2, %xmm10
	pxor	%xmm3, %xmm10
	movdqa	224(%rsp), %xmm3                # 16-byte Reload
	pxor	%xmm3, %xmm12
	pxor	%xmm11, %xmm3
	pxor	%xmm3, %xmm6
	pxor	%xmm1, %xmm6
	pxor	%xmm3, %xmm0
	movdqa	%xmm0, %xmm3
	movdqa	64(%rsp), %xmm0                 # 16-byte Reload
	pxor	%xmm0, %xmm8
	pxor	%xmm0, %xmm3
	pxor	32(%rsp), %xmm11                # 16-byte Folded Reload
	pxor	%xmm7, %xmm11
	pxor	%xmm9, %xmm12
	pxor	%xmm9, %xmm11
	pxor	%xmm10, %xmm6
	pxor	%xmm10, %xmm11
	cmpq	%r15, 496(%rsp)                 # 8-byte Folded Reload
	jae	LBB15_3
# %bb.2:                                # %then.3.i
                                        #   in Loop: Header=BB15_1 Depth=1
	pxor	-128(%r12,%rbp), %xmm12
	movdqa	%xmm12, 32(%rsp)                # 16-byte Spill
	pxor	-112(%r12,%rbp), %xmm8
	movdqa	%xmm8, 128(%rsp)                # 16-byte Spill
	pxor	-96(%r12,%rbp), %xmm14
	movdqa	%xmm14, 80(%rsp)                # 16-byte Spill
	pxor	-80(%r12,%rbp), %xmm3
	movdqa	%xmm3, 112(%rsp)                # 16-byte Spill
	movdqa	(%rsp), %xmm1                   # 16-byte Reload
	pxor	-64(%r12,%rbp), %xmm1
	movdqa	%xmm1, (%rsp)                   # 16-byte Spill
	pxor	-48(%r12,%rbp), %xmm6
	movdqa	%xmm6, 16(%rsp)                 # 16-byte Spill
	pxor	-32(%r12,%rbp), %xmm11
	movdqa	%xmm11, 64(%rsp)                # 16-byte Spill
	pxor	-16(%r12,%rbp), %xmm5
	movdqa	%xmm5, 96(%rsp)                 # 16-byte Spill
	movq	%xmm12, %rdi
	pshufd	$238, %xmm12, %xmm0             # xmm0 = xmm12[2,3,2,3]
	movq	%xmm0, %rsi
	movq	%xmm8, %rbx
	pshufd	$238, %xmm8, %xmm0              # xmm0 = xmm8[2,3,2,3]
	movq	%xmm0, %r14
	movq	%xmm14, %r13
	pshufd	$238, %xmm14, %xmm0             # xmm0 = xmm14[2,3,2,3]
	movq	%xmm0, %r15
	movq	%xmm3, 200(%rsp)                # 8-byte Folded Spill
	pshufd	$238, %xmm3, %xmm0              # xmm0 = xmm3[2,3,2,3]
	movq	%xmm0, %rbp
	movq	%xmm1, 248(%rsp)                # 8-byte Folded Spill
	pshufd	$238, %xmm1, %xmm0              # xmm0 = xmm1[2,3,2,3]
	movq	%xmm0, 408(%rsp)                # 8-byte Folded Spill
	movq	%xmm6, 272(%rsp)                # 8-byte Folded Spill
	pshufd	$238, %xmm6, %xmm0              # xmm0 = xmm6[2,3,2,3]
	movq	%xmm0, 352(%rsp)                # 8-byte Folded Spill
	movq	%xmm11, 208(%rsp)               # 8-byte Folded Spill
	pshufd	$238, %xmm11, %xmm0             # xmm0 = xmm11[2,3,2,3]
	movq	%xmm0, 320(%rsp)                # 8-byte Folded Spill
	movq	%xmm5, 48(%rsp)                 # 8-byte Folded Spill
	pshufd	$238, %xmm5, %xmm0              # xmm0 = xmm5[2,3,2,3]
	movq	%xmm0, 144(%rsp)                # 8-byte Folded Spill
	movl	$1, %edx
	movl	$3, %ecx
	movq	%rax, 224(%rsp)                 # 8-byte Spill
	callq	"aes_planes::soft::word::word128::U128Word::rotate_rows_and_columns"
	movq	%rax, 176(%rsp)                 # 8-byte Spill
	movq	%rdx, 160(%rsp)                 # 8-byte Spill
	movq	%rbx, %rdi
	movq	%r14, %rsi
	movl	$1, %edx
	movl	$3, %ecx
	callq	"aes_planes::soft::word::word128::U128Word::rotate_rows_and_columns"
	movq	%rax, 256(%rsp)                 # 8-byte Spill
	movq	%rdx, 304(%rsp)                 # 8-byte Spill
	movq	%r13, %rdi
	movq	%r15, %rsi
	movl	$1, %edx
	movl	$3, %ecx
	callq	"aes_planes::soft::word::word128::U128Word::rotate_rows_and_columns"
	movq	%rax, 368(%rsp)                 # 8-byte Spill
	movq	%rdx, 336(%rsp)                 # 8-byte Spill
	movq	200(%rsp), %rdi                 # 8-byte Reload
	movq	%rbp, %rsi
	movl	$1, %edx
	movl	$3, %ecx
	callq	"aes_planes::soft::word::word128::U128Word::rotate_rows_and_columns"
	movq	%rax, 200(%rsp)                 # 8-byte Spill
	movq	%rdx, 296(%rsp)                 # 8-byte Spill
	movq	248(%rsp), %rdi                 # 8-byte Reload
	movq	408(%rsp), %rsi                 # 8-byte Reload
	movl	$1, %edx
	movl	$3, %ecx
	callq	"aes_planes::soft::word::word128::U128Word::rotate_rows_and_columns"
	movq	%rax, 248(%rsp)                 # 8-byte Spill
	movq	%rdx, %r15
	movq	272(%rsp), %rdi                 # 8-byte Reload
	movq	352(%rsp), %rsi                 # 8-byte Reload
	movl	$1, %edx
	movl	$3, %ecx
	callq	"aes_planes::soft::word::word128::U128Word::rotate_rows_and_columns"
	movq	%rax, %r13
	movq	%rdx, %rbp
	movq	208(%rsp), %rdi                 # 8-byte Reload
	movq	320(%rsp), %rsi                 # 8-byte Reload
	movl	$1, %edx
	movl	$3, %ecx
	callq	"aes_planes::soft::word::word128::U128Word::rotate_rows_and_columns"
	movq	%rax, %r14
	movq	%rdx, %rbx
	movq	48(%rsp), %rdi                  # 8-byte Reload
	movq	144(%rsp), %rsi                 # 8-byte Reload
	movl	$1, %edx
	movl	$3, %ecx
	callq	"aes_planes::soft::word::word128::U128Word::rotate_rows_and_columns"
	movq	160(%rsp), %xmm0                # 8-byte Folded Reload
                                        # xmm0 = mem[0],zero
	movq	176(%rsp), %xmm1                # 8-byte Folded Reload
                                        # xmm1 = mem[0],zero
	punpcklqdq	%xmm0, %xmm1            # xmm1 = xmm1[0],xmm0[0]
	movdqa	%xmm1, %xmm13
	movq	304(%rsp), %xmm0                # 8-byte Folded Reload
                                        # xmm0 = mem[0],zero
	movq	256(%rsp), %xmm1                # 8-byte Folded Reload
                                        # xmm1 = mem[0],zero
	punpcklqdq	%xmm0, %xmm1            # xmm1 = xmm1[0],xmm0[0]
	movdqa	%xmm1, %xmm14
	movq	336(%rsp), %xmm0                # 8-byte Folded Reload
                                        # xmm0 = mem[0],zero
	movq	368(%rsp), %xmm8                # 8-byte Folded Reload
                                        # xmm8 = mem[0],zero
	punpcklqdq	%xmm0, %xmm8            # xmm8 = xmm8[0],xmm0[0]
	movq	296(%rsp), %xmm0                # 8-byte Folded Reload
                                        # xmm0 = mem[0],zero
	movq	200(%rsp), %xmm12               # 8-byte Folded Reload
                                        # xmm12 = mem[0],zero
	punpcklqdq	%xmm0, %xmm12           # xmm12 = xmm12[0],xmm0[0]
	movq	%r15, %xmm0
	movq	248(%rsp), %xmm10               # 8-byte Folded Reload
                                        # xmm10 = mem[0],zero
	punpcklqdq	%xmm0, %xmm10           # xmm10 = xmm10[0],xmm0[0]
	movq	%rbp, %xmm0
	movq	%r13, %xmm11
	punpcklqdq	%xmm0, %xmm11           # xmm11 = xmm11[0],xmm0[0]
	movq	%rbx, %xmm0
	movq	%r14, %xmm1
	punpcklqdq	%xmm0, %xmm1            # xmm1 = xmm1[0],xmm0[0]
	movdqa	%xmm1, %xmm15
	movq	%rdx, %xmm0
	movq	%rax, %xmm9
	punpcklqdq	%xmm0, %xmm9            # xmm9 = xmm9[0],xmm0[0]
	movdqa	32(%rsp), %xmm7                 # 16-byte Reload
	pxor	%xmm7, %xmm13
	movdqa	128(%rsp), %xmm6                # 16-byte Reload
	pxor	%xmm6, %xmm14
	movdqa	80(%rsp), %xmm5                 # 16-byte Reload
	pxor	%xmm5, %xmm8
	movdqa	112(%rsp), %xmm4                # 16-byte Reload
	pxor	%xmm4, %xmm12
	movdqa	(%rsp), %xmm3                   # 16-byte Reload
	pxor	%xmm3, %xmm10
	movdqa	16(%rsp), %xmm0                 # 16-byte Reload
	pxor	%xmm0, %xmm11
	movdqa	64(%rsp), %xmm2                 # 16-byte Reload
	pxor	%xmm2, %xmm15
	movdqa	96(%rsp), %xmm1                 # 16-byte Reload
	pxor	%xmm1, %xmm9
	pxor	%xmm9, %xmm7
	movdqa	%xmm7, 32(%rsp)                 # 16-byte Spill
	pxor	%xmm13, %xmm6
	pxor	%xmm9, %xmm6
	movdqa	%xmm6, %xmm7
	movdqa	%xmm6, 128(%rsp)                # 16-byte Spill
	pxor	%xmm14, %xmm5
	movdqa	%xmm5, %xmm6
	movdqa	%xmm5, 80(%rsp)                 # 16-byte Spill
	pxor	%xmm8, %xmm4
	pxor	%xmm9, %xmm4
	movdqa	%xmm4, %xmm5
	movdqa	%xmm4, 112(%rsp)                # 16-byte Spill
	pxor	%xmm12, %xmm3
	pxor	%xmm9, %xmm3
	movdqa	%xmm3, %xmm4
	movdqa	%xmm3, (%rsp)                   # 16-byte Spill
	pxor	%xmm10, %xmm0
	movdqa	%xmm0, %xmm3
	movdqa	%xmm0, 16(%rsp)                 # 16-byte Spill
	pxor	%xmm11, %xmm2
	movdqa	%xmm2, 64(%rsp)                 # 16-byte Spill
	pxor	%xmm15, %xmm1
	movdqa	%xmm1, %xmm0
	pxor	%xmm2, %xmm0
	pxor	%xmm2, %xmm13
	pxor	%xmm0, %xmm14
	pxor	%xmm1, %xmm8
	movdqa	%xmm1, 96(%rsp)                 # 16-byte Spill
	pxor	32(%rsp), %xmm8                 # 16-byte Folded Reload
	pxor	%xmm2, %xmm12
	pxor	%xmm7, %xmm12
	pxor	%xmm6, %xmm10
	pxor	%xmm0, %xmm10
	pxor	%xmm1, %xmm11
	pxor	%xmm5, %xmm11
	movdqa	%xmm11, 176(%rsp)               # 16-byte Spill
	pxor	%xmm4, %xmm15
	movdqa	%xmm15, 144(%rsp)               # 16-byte Spill
	pxor	%xmm3, %xmm9
	movdqa	%xmm9, 48(%rsp)                 # 16-byte Spill
	movdqa	%xmm13, 304(%rsp)               # 16-byte Spill
	pshufd	$238, %xmm13, %xmm0             # xmm0 = xmm13[2,3,2,3]
	movq	%xmm0, %rsi
	movdqa	%xmm14, 320(%rsp)               # 16-byte Spill
	pshufd	$238, %xmm14, %xmm0             # xmm0 = xmm14[2,3,2,3]
	movq	%xmm0, %rbp
	movdqa	%xmm8, 256(%rsp)                # 16-byte Spill
	pshufd	$238, %xmm8, %xmm0              # xmm0 = xmm8[2,3,2,3]
	movq	%xmm0, 392(%rsp)                # 8-byte Folded Spill
	movdqa	%xmm12, 208(%rsp)               # 16-byte Spill
	pshufd	$238, %xmm12, %xmm0             # xmm0 = xmm12[2,3,2,3]
	movq	%xmm0, 384(%rsp)                # 8-byte Folded Spill
	movdqa	%xmm10, 160(%rsp)               # 16-byte Spill
	pshufd	$238, %xmm10, %xmm0             # xmm0 = xmm10[2,3,2,3]
	movq	%xmm0, 400(%rsp)                # 8-byte Folded Spill
	pshufd	$238, %xmm11, %xmm0             # xmm0 = xmm11[2,3,2,3]
	movq	%xmm0, 248(%rsp)                # 8-byte Folded Spill
	pshufd	$238, %xmm15, %xmm0             # xmm0 = xmm15[2,3,2,3]
	movq	%xmm0, 272(%rsp)                # 8-byte Folded Spill
	pshufd	$238, %xmm9, %xmm0              # xmm0 = xmm9[2,3,2,3]
	movq	%xmm0, 368(%rsp)                # 8-byte Folded Spill
	movq	%xmm13, %rdi
	movq	%xmm14, %r15
	movq	%xmm8, %r14
	movq	%xmm12, %rbx
	movq	%xmm10, %r13
	movq	%xmm11, 464(%rsp)               # 8-byte Folded Spill
	movq	%xmm15, 480(%rsp)               # 8-byte Folded Spill
	movq	%xmm9, 336(%rsp)                # 8-byte Folded Spill
	movl	$2, %edx
	movl	$2, %ecx
	callq	"aes_planes::soft::word::word128::U128Word::rotate_rows_and_columns"
	movq	%rax, 352(%rsp)                 # 8-byte Spill
	movq	%rdx, 200(%rsp)                 # 8-byte Spill
	movq	%r15, %rdi
	movq	%rbp, %rsi
	movl	$2, %edx
	movl	$2, %ecx
	callq	"aes_planes::soft::word::word128::U128Word::rotate_rows_and_columns"
	movq	%rax, 296(%rsp)                 # 8-byte Spill
	movq	%rdx, 408(%rsp)                 # 8-byte Spill
	movq	%r14, %rdi
	movq	392(%rsp), %rsi                 # 8-byte Reload
	movl	$2, %edx
	movl	$2, %ecx
	callq	"aes_planes::soft::word::word128::U128Word::rotate_rows_and_columns"
	movq	%rax, 392(%rsp)                 # 8-byte Spill
	movq	%rdx, 472(%rsp)                 # 8-byte Spill
	movq	%rbx, %rdi
	movq	384(%rsp), %rsi                 # 8-byte Reload
	movl	$2, %edx
	movl	$2, %ecx
	callq	"aes_planes::soft::word::word128::U128Word::rotate_rows_and_columns"
	movq	%rax, 384(%rsp)                 # 8-byte Spill
	movq	%rdx, 456(%rsp)                 # 8-byte Spill
	movq	%r13, %rdi
	movq	400(%rsp), %rsi                 # 8-byte Reload
	movl	$2, %edx
	movl	$2, %ecx
	callq	"aes_planes::soft::word::word128::U128Word::rotate_rows_and_columns"
	movq	%rax, 400(%rsp)                 # 8-byte Spill
	movq	%rdx, %rbp
	movq	464(%rsp), %rdi                 # 8-byte Reload
	movq	248(%rsp), %rsi                 # 8-byte Reload
	movl	$2, %edx
	movl	$2, %ecx
	callq	"aes_planes::soft::word::word128::U128Word::rotate_rows_and_columns"
	movq	%rax, %r15
	movq	%rdx, %rbx
	movq	480(%rsp), %rdi                 # 8-byte Reload
	movq	272(%rsp), %rsi                 # 8-byte Reload
	movl	$2, %edx
	movl	$2, %ecx
	callq	"aes_planes::soft::word::word128::U128Word::rotate_rows_and_columns"
	movq	%rax, %r14
	movq	%rdx, %r13
	movq	336(%rsp), %rdi                 # 8-byte Reload
	movq	368(%rsp), %rsi                 # 8-byte Reload
	movl	$2, %edx
	movl	$2, %ecx
	callq	"aes_planes::soft::word::word128::U128Word::rotate_rows_and_columns"
	movq	200(%rsp), %xmm1                # 8-byte Folded Reload
                                        # xmm1 = mem[0],zero
	movq	352(%rsp), %xmm0                # 8-byte Folded Reload
                                        # xmm0 = mem[0],zero
	punpcklqdq	%xmm1, %xmm0            # xmm0 = xmm0[0],xmm1[0]
	movq	408(%rsp), %xmm2                # 8-byte Folded Reload
                                        # xmm2 = mem[0],zero
	movq	296(%rsp), %xmm1                # 8-byte Folded Reload
                                        # xmm1 = mem[0],zero
	punpcklqdq	%xmm2, %xmm1            # xmm1 = xmm1[0],xmm2[0]
	movq	472(%rsp), %xmm3                # 8-byte Folded Reload
                                        # xmm3 = mem[0],zero
	movq	392(%rsp), %xmm2                # 8-byte Folded Reload
                                        # xmm2 = mem[0],zero
	punpcklqdq	%xmm3, %xmm2            # xmm2 = xmm2[0],xmm3[0]
	movq	456(%rsp), %xmm4                # 8-byte Folded Reload
                                        # xmm4 = mem[0],zero
	movq	384(%rsp), %xmm3                # 8-byte Folded Reload
                                        # xmm3 = mem[0],zero
	punpcklqdq	%xmm4, %xmm3            # xmm3 = xmm3[0],xmm4[0]
	movq	%rbp, %xmm5
	movq	400(%rsp), %xmm4                # 8-byte Folded Reload
                                        # xmm4 = mem[0],zero
	punpcklqdq	%xmm5, %xmm4            # xmm4 = xmm4[0],xmm5[0]
	movq	%rbx, %xmm6
	movq	%r15, %xmm5
	punpcklqdq	%xmm6, %xmm5            # xmm5 = xmm5[0],xmm6[0]
	movq	%r13, %xmm7
	movq	%r14, %xmm6
	punpcklqdq	%xmm7, %xmm6            # xmm6 = xmm6[0],xmm7[0]
	movq	%rdx, %xmm8
	movq	%rax, %xmm7
	punpcklqdq	%xmm8, %xmm7            # xmm7 = xmm7[0],xmm8[0]
	movdqa	304(%rsp), %xmm13               # 16-byte Reload
	pxor	32(%rsp), %xmm13                # 16-byte Folded Reload
	pxor	%xmm0, %xmm13
	movdqa	320(%rsp), %xmm0                # 16-byte Reload
	pxor	128(%rsp), %xmm0                # 16-byte Folded Reload
	pxor	%xmm1, %xmm0
	movdqa	%xmm0, %xmm1
	movdqa	256(%rsp), %xmm11               # 16-byte Reload
	pxor	80(%rsp), %xmm11                # 16-byte Folded Reload
	pxor	%xmm2, %xmm11
	movdqa	208(%rsp), %xmm12               # 16-byte Reload
	pxor	112(%rsp), %xmm12               # 16-byte Folded Reload
	pxor	%xmm3, %xmm12
	movdqa	160(%rsp), %xmm8                # 16-byte Reload
	pxor	(%rsp), %xmm8                   # 16-byte Folded Reload
	pxor	%xmm4, %xmm8
	movdqa	176(%rsp), %xmm9                # 16-byte Reload
	pxor	16(%rsp), %xmm9                 # 16-byte Folded Reload
	pxor	%xmm5, %xmm9
	movdqa	%xmm9, 176(%rsp)                # 16-byte Spill
	movdqa	144(%rsp), %xmm2                # 16-byte Reload
	pxor	64(%rsp), %xmm2                 # 16-byte Folded Reload
	pxor	%xmm6, %xmm2
	movdqa	48(%rsp), %xmm10                # 16-byte Reload
	pxor	96(%rsp), %xmm10                # 16-byte Folded Reload
	pxor	%xmm7, %xmm10
	movdqa	%xmm0, %xmm7
	pxor	%xmm13, %xmm7
	movdqa	%xmm10, %xmm5
	movdqa	%xmm9, %xmm0
	pxor	%xmm11, %xmm0
	movdqa	%xmm0, %xmm14
	movdqa	%xmm2, %xmm15
	pxor	%xmm8, %xmm15
	movdqa	%xmm15, 64(%rsp)                # 16-byte Spill
	movdqa	%xmm9, %xmm0
	pxor	%xmm12, %xmm0
	movdqa	%xmm2, %xmm4
	pxor	%xmm1, %xmm4
	movdqa	%xmm4, 96(%rsp)                 # 16-byte Spill
	pxor	%xmm4, %xmm0
	movdqa	%xmm0, %xmm6
	movdqa	%xmm0, 256(%rsp)                # 16-byte Spill
	movdqa	%xmm10, 16(%rsp)                # 16-byte Spill
	pxor	%xmm8, %xmm10
	movdqa	%xmm10, 48(%rsp)                # 16-byte Spill
	pxor	%xmm12, %xmm8
	movdqa	%xmm8, %xmm0
	pxor	%xmm7, %xmm0
	movdqa	%xmm0, %xmm4
	movdqa	%xmm0, 32(%rsp)                 # 16-byte Spill
	pxor	%xmm1, %xmm11
	movdqa	%xmm6, %xmm0
	por	%xmm4, %xmm0
	movdqa	%xmm8, %xmm1
	pxor	%xmm13, %xmm1
	movdqa	%xmm1, 128(%rsp)                # 16-byte Spill
	pand	%xmm1, %xmm15
	pxor	%xmm0, %xmm15
	movdqa	%xmm2, %xmm9
	pxor	%xmm2, %xmm5
	pxor	%xmm10, %xmm9
	movdqa	%xmm9, %xmm1
	movdqa	%xmm9, 144(%rsp)                # 16-byte Spill
	pxor	%xmm12, %xmm1
	movdqa	%xmm1, 80(%rsp)                 # 16-byte Spill
	pxor	%xmm13, %xmm12
	movdqa	%xmm8, %xmm6
	pxor	%xmm11, %xmm6
	pand	%xmm6, %xmm1
	movdqa	%xmm5, %xmm10
	pxor	%xmm12, %xmm10
	movdqa	%xmm10, %xmm2
	pand	%xmm5, %xmm2
	movdqa	%xmm5, 112(%rsp)                # 16-byte Spill
	movdqa	%xmm10, %xmm0
	movdqa	%xmm10, 160(%rsp)               # 16-byte Spill
	pxor	%xmm6, %xmm0
	pand	%xmm8, %xmm0
	pxor	%xmm0, %xmm1
	pxor	%xmm2, %xmm0
	movdqa	%xmm7, %xmm2
	pxor	%xmm7, %xmm5
	movdqa	%xmm5, %xmm4
	movdqa	%xmm5, 208(%rsp)                # 16-byte Spill
	movdqa	16(%rsp), %xmm13                # 16-byte Reload
	pxor	%xmm14, %xmm13
	movdqa	%xmm13, 16(%rsp)                # 16-byte Spill
	movdqa	64(%rsp), %xmm3                 # 16-byte Reload
	pxor	%xmm3, %xmm2
	movdqa	96(%rsp), %xmm5                 # 16-byte Reload
	pxor	%xmm12, %xmm5
	movdqa	%xmm5, 96(%rsp)                 # 16-byte Spill
	movdqa	%xmm2, %xmm7
	movdqa	%xmm2, %xmm5
	pand	%xmm13, %xmm7
	pxor	%xmm12, %xmm7
	pxor	%xmm3, %xmm14
	movdqa	%xmm14, (%rsp)                  # 16-byte Spill
	pand	%xmm14, %xmm4
	movdqa	%xmm9, %xmm12
	pand	48(%rsp), %xmm12                # 16-byte Folded Reload
	pxor	%xmm4, %xmm7
	pxor	%xmm10, %xmm11
	pxor	%xmm11, %xmm12
	movdqa	%xmm11, %xmm10
	pxor	%xmm4, %xmm12
	pxor	%xmm1, %xmm15
	pxor	%xmm1, %xmm12
	movdqa	256(%rsp), %xmm11               # 16-byte Reload
	movdqa	%xmm11, %xmm14
	movdqa	32(%rsp), %xmm2                 # 16-byte Reload
	pand	%xmm2, %xmm14
	movdqa	%xmm5, %xmm3
	movdqa	%xmm5, %xmm4
	movdqa	176(%rsp), %xmm9                # 16-byte Reload
	pxor	%xmm9, %xmm3
	movdqa	%xmm3, %xmm1
	movdqa	96(%rsp), %xmm5                 # 16-byte Reload
	pand	%xmm5, %xmm1
	pxor	%xmm8, %xmm14
	pxor	%xmm1, %xmm14
	pxor	%xmm9, %xmm14
	pxor	%xmm0, %xmm7
	pxor	%xmm0, %xmm14
	movdqa	%xmm12, %xmm0
	pand	%xmm15, %xmm0
	movdqa	%xmm12, %xmm13
	pxor	%xmm7, %xmm13
	pand	%xmm14, %xmm12
	pand	%xmm13, %xmm12
	movdqa	%xmm0, %xmm9
	pxor	%xmm14, %xmm9
	pand	%xmm13, %xmm9
	pxor	%xmm0, %xmm13
	pxor	%xmm12, %xmm13
	movdqa	%xmm0, %xmm12
	pxor	%xmm7, %xmm12
	movdqa	%xmm14, %xmm1
	pxor	%xmm15, %xmm1
	pand	%xmm1, %xmm12
	pxor	%xmm14, %xmm12
	pxor	%xmm7, %xmm9
	movdqa	%xmm9, %xmm14
	pxor	%xmm13, %xmm14
	pand	%xmm14, %xmm2
	movdqa	%xmm2, 32(%rsp)                 # 16-byte Spill
	pand	%xmm11, %xmm14
	pand	%xmm9, %xmm5
	movdqa	%xmm9, %xmm11
	pand	%xmm3, %xmm9
	pand	%xmm15, %xmm7
	pandn	%xmm1, %xmm7
	pxor	%xmm0, %xmm7
	pxor	%xmm12, %xmm11
	movdqa	64(%rsp), %xmm3                 # 16-byte Reload
	pand	%xmm13, %xmm3
	movdqa	%xmm3, 64(%rsp)                 # 16-byte Spill
	movdqa	16(%rsp), %xmm15                # 16-byte Reload
	pand	%xmm12, %xmm15
	pand	%xmm12, %xmm4
	movdqa	%xmm4, 16(%rsp)                 # 16-byte Spill
	movdqa	128(%rsp), %xmm0                # 16-byte Reload
	pand	%xmm13, %xmm0
	pxor	%xmm7, %xmm13
	movdqa	48(%rsp), %xmm4                 # 16-byte Reload
	pand	%xmm7, %xmm4
	pxor	%xmm7, %xmm12
	pand	144(%rsp), %xmm7                # 16-byte Folded Reload
	movdqa	(%rsp), %xmm2                   # 16-byte Reload
	pand	%xmm12, %xmm2
	movdqa	%xmm2, (%rsp)                   # 16-byte Spill
	pand	208(%rsp), %xmm12               # 16-byte Folded Reload
	pand	%xmm11, %xmm8
	pand	%xmm11, %xmm10
	pxor	%xmm13, %xmm11
	pand	%xmm11, %xmm6
	pxor	%xmm0, %xmm6
	pxor	%xmm0, %xmm7
	pand	80(%rsp), %xmm11                # 16-byte Folded Reload
	movdqa	32(%rsp), %xmm0                 # 16-byte Reload
	pxor	%xmm3, %xmm0
	movdqa	%xmm5, %xmm3
	pxor	%xmm14, %xmm3
	pxor	%xmm10, %xmm0
	movdqa	%xmm0, %xmm2
	pxor	%xmm7, %xmm10
	pxor	%xmm3, %xmm10
	movdqa	160(%rsp), %xmm3                # 16-byte Reload
	pand	%xmm13, %xmm3
	pand	112(%rsp), %xmm13               # 16-byte Folded Reload
	pxor	%xmm15, %xmm4
	movdqa	%xmm4, 48(%rsp)                 # 16-byte Spill
	movdqa	16(%rsp), %xmm0                 # 16-byte Reload
	pxor	%xmm0, %xmm4
	pxor	%xmm13, %xmm12
	movq	440(%rsp), %rax                 # 8-byte Reload
	pxor	(%r12,%rax), %xmm8
	pxor	%xmm12, %xmm0
	pxor	%xmm8, %xmm0
	movdqa	%xmm0, 16(%rsp)                 # 16-byte Spill
	pxor	%xmm2, %xmm6
	movdqa	16(%r12,%rax), %xmm1
	pxor	%xmm14, %xmm1
	movdqa	%xmm11, %xmm0
	pxor	%xmm6, %xmm11
	pxor	%xmm1, %xmm11
	movdqa	(%rsp), %xmm5                   # 16-byte Reload
	movdqa	%xmm5, %xmm8
	pxor	%xmm9, %xmm8
	pxor	%xmm3, %xmm0
	pxor	32(%r12,%rax), %xmm7
	pxor	%xmm0, %xmm2
	movdqa	%xmm8, %xmm1
	pxor	%xmm2, %xmm1
	pxor	%xmm7, %xmm1
	movdqa	%xmm1, %xmm7
	pxor	%xmm4, %xmm8
	pxor	%xmm6, %xmm8
	pxor	48(%r12,%rax), %xmm13
	pxor	%xmm13, %xmm8
	pxor	64(%r12,%rax), %xmm15
	pxor	%xmm2, %xmm5
	pxor	%xmm15, %xmm5
	pxor	%xmm0, %xmm4
	movdqa	32(%rsp), %xmm0                 # 16-byte Reload
	pxor	80(%r12,%rax), %xmm0
	pxor	%xmm10, %xmm4
	pxor	%xmm0, %xmm4
	movdqa	48(%rsp), %xmm0                 # 16-byte Reload
	pxor	%xmm3, %xmm0
	pxor	%xmm12, %xmm0
	pxor	%xmm10, %xmm0
	movdqa	64(%rsp), %xmm1                 # 16-byte Reload
	pxor	96(%r12,%rax), %xmm1
	pxor	%xmm1, %xmm0
	movdqa	%xmm0, %xmm1
	pxor	%xmm14, %xmm2
	pxor	112(%r12,%rax), %xmm9
	pxor	%xmm9, %xmm2
	movdqa	%xmm2, 64(%rsp)                 # 16-byte Spill
	movdqa	16(%rsp), %xmm3                 # 16-byte Reload
	pshufd	$238, %xmm3, %xmm0              # xmm0 = xmm3[2,3,2,3]
	movq	%xmm0, %rsi
	movdqa	%xmm11, 112(%rsp)               # 16-byte Spill
	pshufd	$238, %xmm11, %xmm0             # xmm0 = xmm11[2,3,2,3]
	movq	%xmm0, %rbp
	movdqa	%xmm7, 96(%rsp)                 # 16-byte Spill
	pshufd	$238, %xmm7, %xmm0              # xmm0 = xmm7[2,3,2,3]
	movq	%xmm0, 352(%rsp)                # 8-byte Folded Spill
	movdqa	%xmm8, 80(%rsp)                 # 16-byte Spill
	pshufd	$238, %xmm8, %xmm0              # xmm0 = xmm8[2,3,2,3]
	movq	%xmm0, 200(%rsp)                # 8-byte Folded Spill
	movdqa	%xmm5, (%rsp)                   # 16-byte Spill
	pshufd	$238, %xmm5, %xmm0              # xmm0 = xmm5[2,3,2,3]
	movq	%xmm0, 272(%rsp)                # 8-byte Folded Spill
	movdqa	%xmm4, 32(%rsp)                 # 16-byte Spill
	pshufd	$238, %xmm4, %xmm0              # xmm0 = xmm4[2,3,2,3]
	movq	%xmm0, 256(%rsp)                # 8-byte Folded Spill
	movdqa	%xmm1, 48(%rsp)                 # 16-byte Spill
	pshufd	$238, %xmm1, %xmm0              # xmm0 = xmm1[2,3,2,3]
	movq	%xmm0, 144(%rsp)                # 8-byte Folded Spill
	pshufd	$238, %xmm2, %xmm0              # xmm0 = xmm2[2,3,2,3]
	movq	%xmm0, 128(%rsp)                # 8-byte Folded Spill
	movq	%xmm3, %rdi
	movq	%xmm11, %r15
	movq	%xmm7, %r14
	movq	%xmm8, %rbx
	movq	%xmm5, %r13
	movq	%xmm4, 248(%rsp)                # 8-byte Folded Spill
	movq	%xmm1, 368(%rsp)                # 8-byte Folded Spill
	movq	%xmm2, 160(%rsp)                # 8-byte Folded Spill
	movl	$1, %edx
	movl	$2, %ecx
	callq	"aes_planes::soft::word::word128::U128Word::rotate_rows_and_columns"
	movq	%rax, 176(%rsp)                 # 8-byte Spill
	movq	%rdx, 208(%rsp)                 # 8-byte Spill
	movq	%r15, %rdi
	movq	%rbp, %rsi
	movl	$1, %edx
	movl	$2, %ecx
	callq	"aes_planes::soft::word::word128::U128Word::rotate_rows_and_columns"
	movq	%rax, 320(%rsp)                 # 8-byte Spill
	movq	%rdx, 304(%rsp)                 # 8-byte Spill
	movq	%r14, %rdi
	movq	352(%rsp), %rsi                 # 8-byte Reload
	movl	$1, %edx
	movl	$2, %ecx
	callq	"aes_planes::soft::word::word128::U128Word::rotate_rows_and_columns"
	movq	%rax, 352(%rsp)                 # 8-byte Spill
	movq	%rdx, 336(%rsp)                 # 8-byte Spill
	movq	%rbx, %rdi
	movq	200(%rsp), %rsi                 # 8-byte Reload
	movl	$1, %edx
	movl	$2, %ecx
	callq	"aes_planes::soft::word::word128::U128Word::rotate_rows_and_columns"
	movq	%rax, 200(%rsp)                 # 8-byte Spill
	movq	%rdx, 296(%rsp)                 # 8-byte Spill
	movq	%r13, %rdi
	movq	272(%rsp), %rsi                 # 8-byte Reload
	movl	$1, %edx
	movl	$2, %ecx
	callq	"aes_planes::soft::word::word128::U128Word::rotate_rows_and_columns"
	movq	%rax, 272(%rsp)                 # 8-byte Spill
	movq	%rdx, %rbp
	movq	248(%rsp), %rdi                 # 8-byte Reload
	movq	256(%rsp), %rsi                 # 8-byte Reload
	movl	$1, %edx
	movl	$2, %ecx
	callq	"aes_planes::soft::word::word128::U128Word::rotate_rows_and_columns"
	movq	%rax, %r15
	movq	%rdx, %rbx
	movq	368(%rsp), %rdi                 # 8-byte Reload
	movq	144(%rsp), %rsi                 # 8-byte Reload
	movl	$1, %edx
	movl	$2, %ecx
	callq	"aes_planes::soft::word::word128::U128Word::rotate_rows_and_columns"
	movq	%rax, %r14
	movq	%rdx, %r13
	movq	160(%rsp), %rdi                 # 8-byte Reload
	movq	128(%rsp), %rsi                 # 8-byte Reload
	movl	$1, %edx
	movl	$2, %ecx
	callq	"aes_planes::soft::word::word128::U128Word::rotate_rows_and_columns"
	movq	208(%rsp), %xmm0                # 8-byte Folded Reload
                                        # xmm0 = mem[0],zero
	movq	176(%rsp), %xmm8                # 8-byte Folded Reload
                                        # xmm8 = mem[0],zero
	movq	304(%rsp), %xmm2                # 8-byte Folded Reload
                                        # xmm2 = mem[0],zero
	movq	320(%rsp), %xmm6                # 8-byte Folded Reload
                                        # xmm6 = mem[0],zero
	movq	336(%rsp), %xmm4                # 8-byte Folded Reload
                                        # xmm4 = mem[0],zero
	movq	352(%rsp), %xmm13               # 8-byte Folded Reload
                                        # xmm13 = mem[0],zero
	movq	296(%rsp), %xmm1                # 8-byte Folded Reload
                                        # xmm1 = mem[0],zero
	movq	200(%rsp), %xmm5                # 8-byte Folded Reload
                                        # xmm5 = mem[0],zero
	punpcklqdq	%xmm0, %xmm8            # xmm8 = xmm8[0],xmm0[0]
	movq	%rbp, %xmm0
	movq	416(%rsp), %rbp                 # 8-byte Reload
	punpcklqdq	%xmm2, %xmm6            # xmm6 = xmm6[0],xmm2[0]
	movq	272(%rsp), %xmm10               # 8-byte Folded Reload
                                        # xmm10 = mem[0],zero
	punpcklqdq	%xmm4, %xmm13           # xmm13 = xmm13[0],xmm4[0]
	movq	%rbx, %xmm2
	punpcklqdq	%xmm1, %xmm5            # xmm5 = xmm5[0],xmm1[0]
	movq	%r15, %xmm7
	movq	432(%rsp), %r15                 # 8-byte Reload
	punpcklqdq	%xmm0, %xmm10           # xmm10 = xmm10[0],xmm0[0]
	movq	%r13, %xmm0
	movq	424(%rsp), %r13                 # 8-byte Reload
	punpcklqdq	%xmm2, %xmm7            # xmm7 = xmm7[0],xmm2[0]
	movq	%r14, %xmm9
	movq	448(%rsp), %r14                 # 8-byte Reload
	punpcklqdq	%xmm0, %xmm9            # xmm9 = xmm9[0],xmm0[0]
	movq	%rdx, %xmm0
	movq	%rax, %xmm3
	movq	224(%rsp), %rax                 # 8-byte Reload
	punpcklqdq	%xmm0, %xmm3            # xmm3 = xmm3[0],xmm0[0]
	movdqa	112(%rsp), %xmm4                # 16-byte Reload
	pxor	%xmm4, %xmm6
	movdqa	96(%rsp), %xmm12                # 16-byte Reload
	pxor	%xmm12, %xmm13
	movdqa	(%rsp), %xmm1                   # 16-byte Reload
	pxor	%xmm1, %xmm10
	movdqa	32(%rsp), %xmm0                 # 16-byte Reload
	pxor	%xmm0, %xmm7
	movdqa	48(%rsp), %xmm15                # 16-byte Reload
	pxor	%xmm15, %xmm9
	movdqa	64(%rsp), %xmm2                 # 16-byte Reload
	pxor	%xmm2, %xmm3
	pxor	%xmm6, %xmm12
	movdqa	%xmm12, 96(%rsp)                # 16-byte Spill
	pxor	%xmm10, %xmm0
	movdqa	%xmm0, 32(%rsp)                 # 16-byte Spill
	pxor	%xmm7, %xmm15
	pxor	%xmm9, %xmm2
	movdqa	%xmm2, %xmm0
	movdqa	%xmm2, %xmm14
	pxor	%xmm15, %xmm0
	pxor	%xmm0, %xmm6
	pxor	%xmm12, %xmm10
	pxor	%xmm0, %xmm10
	movdqa	16(%rsp), %xmm0                 # 16-byte Reload
	pxor	%xmm0, %xmm8
	movdqa	80(%rsp), %xmm11                # 16-byte Reload
	pxor	%xmm11, %xmm5
	pxor	%xmm3, %xmm0
	pxor	%xmm3, %xmm4
	pxor	%xmm8, %xmm4
	pxor	%xmm3, %xmm11
	pxor	%xmm13, %xmm11
	pxor	%xmm15, %xmm8
	pxor	%xmm0, %xmm13
	movdqa	%xmm0, %xmm2
	pshufd	$78, %xmm8, %xmm0               # xmm0 = xmm8[2,3,0,1]
	pxor	%xmm2, %xmm8
	movdqa	%xmm1, %xmm12
	pxor	%xmm3, %xmm12
	pxor	%xmm5, %xmm12
	pxor	%xmm14, %xmm13
	pxor	%xmm4, %xmm5
	pxor	%xmm15, %xmm5
	pxor	%xmm14, %xmm7
	pxor	%xmm11, %xmm7
	pxor	%xmm12, %xmm9
	movdqa	32(%rsp), %xmm1                 # 16-byte Reload
	pxor	%xmm1, %xmm3
	pxor	%xmm0, %xmm8
	pshufd	$78, %xmm6, %xmm0               # xmm0 = xmm6[2,3,0,1]
	pxor	%xmm4, %xmm6
	pshufd	$78, %xmm13, %xmm2              # xmm2 = xmm13[2,3,0,1]
	pxor	%xmm0, %xmm6
	pshufd	$78, %xmm5, %xmm0               # xmm0 = xmm5[2,3,0,1]
	pxor	96(%rsp), %xmm13                # 16-byte Folded Reload
	pshufd	$78, %xmm10, %xmm4              # xmm4 = xmm10[2,3,0,1]
	pxor	%xmm2, %xmm13
	pshufd	$78, %xmm7, %xmm2               # xmm2 = xmm7[2,3,0,1]
	pxor	%xmm11, %xmm5
	pshufd	$78, %xmm9, %xmm11              # xmm11 = xmm9[2,3,0,1]
	pxor	%xmm0, %xmm5
	pshufd	$78, %xmm3, %xmm0               # xmm0 = xmm3[2,3,0,1]
	pxor	%xmm12, %xmm10
	pxor	%xmm4, %xmm10
	pxor	%xmm1, %xmm7
	pxor	%xmm2, %xmm7
	pxor	%xmm15, %xmm9
	pxor	%xmm11, %xmm9
	pxor	%xmm14, %xmm3
	pxor	%xmm0, %xmm3
	movdqa	%xmm7, %xmm14
	pxor	%xmm13, %xmm14
	movdqa	%xmm6, %xmm2
	pxor	%xmm6, %xmm13
	pxor	%xmm8, %xmm6
	movdqa	%xmm9, %xmm15
	pxor	%xmm3, %xmm15
	movdqa	%xmm10, %xmm4
	pxor	%xmm9, %xmm4
	movdqa	%xmm7, %xmm1
	pxor	%xmm5, %xmm1
	pxor	%xmm9, %xmm2
	pxor	%xmm2, %xmm1
	movdqa	%xmm1, %xmm11
	movdqa	%xmm1, 208(%rsp)                # 16-byte Spill
	movdqa	%xmm2, %xmm12
	movdqa	%xmm4, %xmm1
	movdqa	%xmm4, 48(%rsp)                 # 16-byte Spill
	pxor	%xmm14, %xmm1
	movdqa	%xmm1, 32(%rsp)                 # 16-byte Spill
	pxor	%xmm3, %xmm14
	movdqa	%xmm14, 144(%rsp)               # 16-byte Spill
	pxor	%xmm10, %xmm3
	pxor	%xmm5, %xmm10
	movdqa	%xmm10, %xmm0
	pxor	%xmm6, %xmm0
	movdqa	%xmm0, 96(%rsp)                 # 16-byte Spill
	por	%xmm11, %xmm0
	movdqa	%xmm10, %xmm11
	pxor	%xmm8, %xmm11
	movdqa	%xmm11, 128(%rsp)               # 16-byte Spill
	pand	%xmm4, %xmm11
	pxor	%xmm0, %xmm11
	pxor	%xmm3, %xmm9
	movdqa	%xmm9, %xmm2
	pxor	%xmm5, %xmm2
	movdqa	%xmm2, 80(%rsp)                 # 16-byte Spill
	pxor	%xmm8, %xmm5
	movdqa	%xmm10, %xmm0
	pxor	%xmm13, %xmm0
	pand	%xmm0, %xmm2
	movdqa	%xmm0, 16(%rsp)                 # 16-byte Spill
	movdqa	%xmm6, %xmm1
	pxor	%xmm4, %xmm6
	pxor	%xmm5, %xmm12
	movdqa	%xmm12, (%rsp)                  # 16-byte Spill
	movdqa	%xmm6, %xmm8
	movdqa	%xmm6, 112(%rsp)                # 16-byte Spill
	pand	%xmm14, %xmm8
	pxor	%xmm5, %xmm8
	pxor	%xmm15, %xmm5
	movdqa	%xmm5, %xmm4
	pand	%xmm15, %xmm4
	movdqa	%xmm15, 64(%rsp)                # 16-byte Spill
	pxor	%xmm5, %xmm0
	pand	%xmm10, %xmm0
	pxor	%xmm0, %xmm2
	pxor	%xmm4, %xmm0
	pxor	%xmm15, %xmm1
	movdqa	%xmm1, 176(%rsp)                # 16-byte Spill
	movdqa	32(%rsp), %xmm4                 # 16-byte Reload
	pand	%xmm1, %xmm4
	movdqa	%xmm9, %xmm12
	pand	%xmm3, %xmm12
	pxor	%xmm4, %xmm8
	pxor	%xmm5, %xmm13
	pxor	%xmm13, %xmm12
	pxor	%xmm4, %xmm12
	pxor	%xmm2, %xmm11
	pxor	%xmm2, %xmm12
	movdqa	96(%rsp), %xmm15                # 16-byte Reload
	movdqa	%xmm15, %xmm2
	movdqa	208(%rsp), %xmm14               # 16-byte Reload
	pand	%xmm14, %xmm2
	movdqa	%xmm6, %xmm4
	pxor	%xmm7, %xmm4
	movdqa	%xmm4, 160(%rsp)                # 16-byte Spill
	pxor	%xmm7, %xmm2
	pand	(%rsp), %xmm4                   # 16-byte Folded Reload
	pxor	%xmm4, %xmm2
	pxor	%xmm0, %xmm8
	pxor	%xmm10, %xmm2
	pxor	%xmm0, %xmm2
	movdqa	%xmm12, %xmm0
	pand	%xmm11, %xmm0
	movdqa	%xmm0, %xmm7
	pxor	%xmm8, %xmm7
	movdqa	%xmm2, %xmm4
	pxor	%xmm11, %xmm4
	movdqa	%xmm0, %xmm1
	pxor	%xmm2, %xmm1
	pand	%xmm4, %xmm7
	pxor	%xmm2, %xmm7
	pand	%xmm12, %xmm2
	pxor	%xmm8, %xmm12
	pand	%xmm12, %xmm2
	pand	%xmm12, %xmm1
	pxor	%xmm0, %xmm12
	pxor	%xmm2, %xmm12
	pxor	%xmm8, %xmm1
	movdqa	%xmm12, %xmm6
	pxor	%xmm1, %xmm6
	pand	%xmm6, %xmm15
	movdqa	%xmm15, 96(%rsp)                # 16-byte Spill
	pand	%xmm14, %xmm6
	movdqa	(%rsp), %xmm14                  # 16-byte Reload
	pand	%xmm1, %xmm14
	movdqa	%xmm14, (%rsp)                  # 16-byte Spill
	movdqa	%xmm1, %xmm15
	pand	160(%rsp), %xmm1                # 16-byte Folded Reload
	pand	%xmm11, %xmm8
	pandn	%xmm4, %xmm8
	pxor	%xmm0, %xmm8
	pxor	%xmm7, %xmm15
	movdqa	48(%rsp), %xmm4                 # 16-byte Reload
	pand	%xmm12, %xmm4
	movdqa	%xmm4, 48(%rsp)                 # 16-byte Spill
	movdqa	144(%rsp), %xmm11               # 16-byte Reload
	pand	%xmm7, %xmm11
	movdqa	112(%rsp), %xmm0                # 16-byte Reload
	pand	%xmm7, %xmm0
	movdqa	%xmm0, 112(%rsp)                # 16-byte Spill
	movdqa	128(%rsp), %xmm14               # 16-byte Reload
	pand	%xmm12, %xmm14
	pxor	%xmm8, %xmm12
	pand	%xmm8, %xmm3
	pxor	%xmm8, %xmm7
	pand	%xmm9, %xmm8
	movdqa	32(%rsp), %xmm9                 # 16-byte Reload
	pand	%xmm7, %xmm9
	pand	176(%rsp), %xmm7                # 16-byte Folded Reload
	pand	%xmm15, %xmm10
	pand	%xmm15, %xmm13
	movdqa	%xmm13, 128(%rsp)               # 16-byte Spill
	pxor	%xmm12, %xmm15
	movdqa	16(%rsp), %xmm0                 # 16-byte Reload
	pand	%xmm15, %xmm0
	pxor	%xmm14, %xmm0
	movdqa	%xmm0, 16(%rsp)                 # 16-byte Spill
	pxor	%xmm14, %xmm8
	pand	80(%rsp), %xmm15                # 16-byte Folded Reload
	pand	%xmm12, %xmm5
	pand	64(%rsp), %xmm12                # 16-byte Folded Reload
	movdqa	%xmm6, %xmm0
	pxor	%xmm1, %xmm0
	pxor	%xmm4, %xmm13
	movdqa	96(%rsp), %xmm14                # 16-byte Reload
	pxor	%xmm14, %xmm13
	movdqa	%xmm9, %xmm4
	pxor	%xmm9, %xmm1
	movdqa	16(%rsp), %xmm2                 # 16-byte Reload
	pxor	%xmm13, %xmm2
	movdqa	%xmm11, %xmm9
	pxor	%xmm11, %xmm4
	movdqa	%xmm4, %xmm11
	movdqa	%xmm15, %xmm4
	pxor	%xmm5, %xmm4
	pxor	%xmm4, %xmm13
	pxor	%xmm12, %xmm7
	pxor	%xmm1, %xmm12
	pxor	%xmm8, %xmm1
	pxor	%xmm13, %xmm1
	movdqa	%xmm1, 64(%rsp)                 # 16-byte Spill
	pxor	%xmm13, %xmm11
	movdqa	%xmm11, 32(%rsp)                # 16-byte Spill
	pxor	%xmm0, %xmm13
	movdqa	%xmm13, 80(%rsp)                # 16-byte Spill
	pxor	%xmm9, %xmm3
	movdqa	128(%rsp), %xmm0                # 16-byte Reload
	pxor	(%rsp), %xmm0                   # 16-byte Folded Reload
	pxor	%xmm6, %xmm15
	pxor	%xmm6, %xmm8
	pxor	%xmm0, %xmm8
	movdqa	112(%rsp), %xmm1                # 16-byte Reload
	pxor	%xmm1, %xmm10
	pxor	%xmm3, %xmm1
	movdqa	%xmm14, %xmm0
	pxor	%xmm1, %xmm0
	pxor	%xmm4, %xmm0
	pxor	%xmm1, %xmm12
	pxor	%xmm2, %xmm15
	pxor	%xmm2, %xmm12
	movdqa	%xmm12, 144(%rsp)               # 16-byte Spill
	pxor	48(%rsp), %xmm3                 # 16-byte Folded Reload
	pxor	%xmm5, %xmm3
	pxor	%xmm7, %xmm10
	movdqa	%xmm10, 16(%rsp)                # 16-byte Spill
	pxor	%xmm7, %xmm3
	pxor	%xmm8, %xmm0
	movdqa	%xmm0, 96(%rsp)                 # 16-byte Spill
	pxor	%xmm8, %xmm3
	movdqa	%xmm3, 48(%rsp)                 # 16-byte Spill
	jmp	LBB15_4
	.p2align	4
LBB15_3:                               # %else.4.i
                                        #   in Loop: Header=BB15_1 Depth=1
	movdqa	%xmm12, %xmm1
	psrld	$16, %xmm1
	pxor	%xmm12, %xmm1
	movdqa	l_CPI15_3(%rip), %xmm0          # xmm0 = [0,0,65535,0,0,0,65535,0]
	pand	%xmm0, %xmm1
	pxor	%xmm1, %xmm12
	pslldq	$2, %xmm1                       # xmm1 = zero,zero,xmm1[0,1,2,3,4,5,6,7,8,9,10,11,12,13]
	pxor	%xmm12, %xmm1
	movdqa	%xmm1, 16(%rsp)                 # 16-byte Spill
	movdqa	%xmm8, %xmm15
	psrld	$16, %xmm15
	pxor	%xmm8, %xmm15
	pand	%xmm0, %xmm15
	pxor	%xmm15, %xmm8
	pslldq	$2, %xmm15                      # xmm15 = zero,zero,xmm15[0,1,2,3,4,5,6,7,8,9,10,11,12,13]
	pxor	%xmm8, %xmm15
	movdqa	%xmm14, %xmm1
	psrld	$16, %xmm1
	pxor	%xmm14, %xmm1
	pand	%xmm0, %xmm1
	pxor	%xmm1, %xmm14
	pslldq	$2, %xmm1                       # xmm1 = zero,zero,xmm1[0,1,2,3,4,5,6,7,8,9,10,11,12,13]
	pxor	%xmm14, %xmm1
	movdqa	%xmm1, 64(%rsp)                 # 16-byte Spill
	movdqa	%xmm3, %xmm1
	psrld	$16, %xmm1
	pxor	%xmm3, %xmm1
	pand	%xmm0, %xmm1
	pxor	%xmm1, %xmm3
	pslldq	$2, %xmm1                       # xmm1 = zero,zero,xmm1[0,1,2,3,4,5,6,7,8,9,10,11,12,13]
	pxor	%xmm3, %xmm1
	movdqa	%xmm1, 144(%rsp)                # 16-byte Spill
	movdqa	(%rsp), %xmm3                   # 16-byte Reload
	movdqa	%xmm3, %xmm1
	psrld	$16, %xmm1
	pxor	%xmm3, %xmm1
	pand	%xmm0, %xmm1
	pxor	%xmm1, %xmm3
	pslldq	$2, %xmm1                       # xmm1 = zero,zero,xmm1[0,1,2,3,4,5,6,7,8,9,10,11,12,13]
	pxor	%xmm3, %xmm1
	movdqa	%xmm1, 32(%rsp)                 # 16-byte Spill
	movdqa	%xmm6, %xmm1
	psrld	$16, %xmm1
	pxor	%xmm6, %xmm1
	pand	%xmm0, %xmm1
	pxor	%xmm1, %xmm6
	pslldq	$2, %xmm1                       # xmm1 = zero,zero,xmm1[0,1,2,3,4,5,6,7,8,9,10,11,12,13]
	pxor	%xmm6, %xmm1
	movdqa	%xmm1, 96(%rsp)                 # 16-byte Spill
	movdqa	%xmm11, %xmm1
	psrld	$16, %xmm1
	pxor	%xmm11, %xmm1
	pand	%xmm0, %xmm1
	pxor	%xmm1, %xmm11
	pslldq	$2, %xmm1                       # xmm1 = zero,zero,xmm1[0,1,2,3,4,5,6,7,8,9,10,11,12,13]
	pxor	%xmm11, %xmm1
	movdqa	%xmm1, 48(%rsp)                 # 16-byte Spill
	movdqa	%xmm5, %xmm1
	psrld	$16, %xmm1
	pxor	%xmm5, %xmm1
	pand	%xmm0, %xmm1
	pxor	%xmm1, %xmm5
	pslldq	$2, %xmm1                       # xmm1 = zero,zero,xmm1[0,1,2,3,4,5,6,7,8,9,10,11,12,13]
	pxor	%xmm5, %xmm1
	movdqa	%xmm1, 80(%rsp)                 # 16-byte Spill
LBB15_4:                               # %join.10.preheader.i
                                        #   in Loop: Header=BB15_1 Depth=1
	pxor	144(%r12,%r13), %xmm15
	movdqa	%xmm15, (%rsp)                  # 16-byte Spill
	addq	$8, %rax
	movq	%rax, %rbx
	movq	%xmm15, %rdi
	pshufd	$238, %xmm15, %xmm0             # xmm0 = xmm15[2,3,2,3]
	movq	%xmm0, %rsi
	movl	$1, %edx
	movl	$1, %ecx
	callq	"aes_planes::soft::word::word128::U128Word::rotate_rows_and_columns"
	movq	%rdx, %xmm0
	movq	%rax, %xmm1
	punpcklqdq	%xmm0, %xmm1            # xmm1 = xmm1[0],xmm0[0]
	movdqa	64(%rsp), %xmm2                 # 16-byte Reload
	pxor	160(%r12,%r13), %xmm2
	movdqa	%xmm2, 64(%rsp)                 # 16-byte Spill
	pxor	(%rsp), %xmm1                   # 16-byte Folded Reload
	movdqa	%xmm1, 112(%rsp)                # 16-byte Spill
	movdqa	%xmm1, %xmm0
	movdqa	48(%rsp), %xmm1                 # 16-byte Reload
	pxor	224(%r12,%r13), %xmm1
	movdqa	%xmm1, 48(%rsp)                 # 16-byte Spill
	pxor	%xmm2, %xmm0
	movdqa	%xmm0, 160(%rsp)                # 16-byte Spill
	movq	%xmm1, %rdi
	pshufd	$238, %xmm1, %xmm0              # xmm0 = xmm1[2,3,2,3]
	movq	%xmm0, %rsi
	movl	$1, %edx
	movl	$1, %ecx
	callq	"aes_planes::soft::word::word128::U128Word::rotate_rows_and_columns"
	movq	%rdx, %xmm0
	movq	%rax, %xmm1
	punpcklqdq	%xmm0, %xmm1            # xmm1 = xmm1[0],xmm0[0]
	pxor	48(%rsp), %xmm1                 # 16-byte Folded Reload
	movdqa	%xmm1, 304(%rsp)                # 16-byte Spill
	movdqa	80(%rsp), %xmm2                 # 16-byte Reload
	pxor	240(%r12,%r13), %xmm2
	movdqa	%xmm2, 80(%rsp)                 # 16-byte Spill
	movdqa	%xmm1, %xmm0
	pxor	%xmm2, %xmm0
	movdqa	%xmm0, 176(%rsp)                # 16-byte Spill
	movdqa	64(%rsp), %xmm0                 # 16-byte Reload
	movq	%xmm0, %rdi
	pshufd	$238, %xmm0, %xmm0              # xmm0 = xmm0[2,3,2,3]
	movq	%xmm0, %rsi
	movl	$1, %edx
	movl	$1, %ecx
	callq	"aes_planes::soft::word::word128::U128Word::rotate_rows_and_columns"
	movq	%rdx, %xmm0
	movq	%rax, %xmm1
	punpcklqdq	%xmm0, %xmm1            # xmm1 = xmm1[0],xmm0[0]
	pxor	64(%rsp), %xmm1                 # 16-byte Folded Reload
	movdqa	%xmm1, 320(%rsp)                # 16-byte Spill
	pxor	176(%rsp), %xmm1                # 16-byte Folded Reload
	movdqa	%xmm1, 64(%rsp)                 # 16-byte Spill
	movdqa	80(%rsp), %xmm0                 # 16-byte Reload
	movq	%xmm0, %rdi
	pshufd	$238, %xmm0, %xmm0              # xmm0 = xmm0[2,3,2,3]
	movq	%xmm0, %rsi
	movl	$1, %edx
	movl	$1, %ecx
	callq	"aes_planes::soft::word::word128::U128Word::rotate_rows_and_columns"
	movq	%rdx, %xmm0
	movq	%rax, %xmm1
	punpcklqdq	%xmm0, %xmm1            # xmm1 = xmm1[0],xmm0[0]
	pxor	80(%rsp), %xmm1                 # 16-byte Folded Reload
	movdqa	%xmm1, 80(%rsp)                 # 16-byte Spill
	movdqa	16(%rsp), %xmm2                 # 16-byte Reload
	pxor	128(%r12,%r13), %xmm2
	movdqa	%xmm2, 16(%rsp)                 # 16-byte Spill
	movdqa	%xmm1, %xmm0
	pxor	%xmm2, %xmm0
	movdqa	%xmm0, 208(%rsp)                # 16-byte Spill
	movdqa	64(%rsp), %xmm1                 # 16-byte Reload
	pxor	%xmm0, %xmm1
	movdqa	%xmm1, 64(%rsp)                 # 16-byte Spill
	movq	%xmm1, %rdi
	pshufd	$238, %xmm1, %xmm0              # xmm0 = xmm1[2,3,2,3]
	movq	%xmm0, %rsi
	movl	$2, %edx
	movl	$2, %ecx
	callq	"aes_planes::soft::word::word128::U128Word::rotate_rows_and_columns"
	movq	%rdx, %xmm0
	movq	%rax, %xmm1
	punpcklqdq	%xmm0, %xmm1            # xmm1 = xmm1[0],xmm0[0]
	movdqa	64(%rsp), %xmm0                 # 16-byte Reload
	pxor	160(%rsp), %xmm0                # 16-byte Folded Reload
	pxor	%xmm1, %xmm0
	movdqa	%xmm0, 64(%rsp)                 # 16-byte Spill
	movdqa	16(%rsp), %xmm0                 # 16-byte Reload
	movq	%xmm0, %rdi
	pshufd	$238, %xmm0, %xmm0              # xmm0 = xmm0[2,3,2,3]
	movq	%xmm0, %rsi
	movl	$1, %edx
	movl	$1, %ecx
	callq	"aes_planes::soft::word::word128::U128Word::rotate_rows_and_columns"
	movq	%rdx, %xmm0
	movq	%rax, %xmm1
	punpcklqdq	%xmm0, %xmm1            # xmm1 = xmm1[0],xmm0[0]
	pxor	16(%rsp), %xmm1                 # 16-byte Folded Reload
	movdqa	%xmm1, 272(%rsp)                # 16-byte Spill
	movdqa	(%rsp), %xmm0                   # 16-byte Reload
	pxor	%xmm1, %xmm0
	movdqa	96(%rsp), %xmm1                 # 16-byte Reload
	pxor	208(%r12,%r13), %xmm1
	movdqa	%xmm1, 96(%rsp)                 # 16-byte Spill
	pxor	80(%rsp), %xmm0                 # 16-byte Folded Reload
	movdqa	%xmm0, (%rsp)                   # 16-byte Spill
	movq	%xmm1, %rdi
	pshufd	$238, %xmm1, %xmm0              # xmm0 = xmm1[2,3,2,3]
	movq	%xmm0, %rsi
	movl	$1, %edx
	movl	$1, %ecx
	callq	"aes_planes::soft::word::word128::U128Word::rotate_rows_and_columns"
	movq	%rdx, %xmm0
	movq	%rax, %xmm1
	punpcklqdq	%xmm0, %xmm1            # xmm1 = xmm1[0],xmm0[0]
	pxor	96(%rsp), %xmm1                 # 16-byte Folded Reload
	movdqa	%xmm1, 224(%rsp)                # 16-byte Spill
	movdqa	48(%rsp), %xmm0                 # 16-byte Reload
	pxor	%xmm1, %xmm0
	movdqa	%xmm0, 48(%rsp)                 # 16-byte Spill
	pxor	176(%rsp), %xmm0                # 16-byte Folded Reload
	movdqa	%xmm0, 256(%rsp)                # 16-byte Spill
	movdqa	112(%rsp), %xmm1                # 16-byte Reload
	pxor	%xmm0, %xmm1
	movdqa	%xmm1, 112(%rsp)                # 16-byte Spill
	movq	%xmm1, %rdi
	pshufd	$238, %xmm1, %xmm0              # xmm0 = xmm1[2,3,2,3]
	movq	%xmm0, %rsi
	movl	$2, %edx
	movl	$2, %ecx
	callq	"aes_planes::soft::word::word128::U128Word::rotate_rows_and_columns"
	movq	%rdx, %xmm0
	movq	%rax, %xmm1
	punpcklqdq	%xmm0, %xmm1            # xmm1 = xmm1[0],xmm0[0]
	movdqa	112(%rsp), %xmm0                # 16-byte Reload
	pxor	(%rsp), %xmm0                   # 16-byte Folded Reload
	pxor	%xmm1, %xmm0
	movdqa	%xmm0, 112(%rsp)                # 16-byte Spill
	movdqa	32(%rsp), %xmm1                 # 16-byte Reload
	pxor	192(%r12,%r13), %xmm1
	movdqa	%xmm1, 32(%rsp)                 # 16-byte Spill
	pxor	64(%rsp), %xmm0                 # 16-byte Folded Reload
	movdqa	%xmm0, 368(%rsp)                # 16-byte Spill
	movq	%xmm1, %rdi
	pshufd	$238, %xmm1, %xmm0              # xmm0 = xmm1[2,3,2,3]
	movq	%xmm0, %rsi
	movl	$1, %edx
	movl	$1, %ecx
	callq	"aes_planes::soft::word::word128::U128Word::rotate_rows_and_columns"
	movq	%rdx, %xmm0
	movq	%rax, %xmm2
	punpcklqdq	%xmm0, %xmm2            # xmm2 = xmm2[0],xmm0[0]
	pxor	32(%rsp), %xmm2                 # 16-byte Folded Reload
	movdqa	%xmm2, 16(%rsp)                 # 16-byte Spill
	movdqa	96(%rsp), %xmm1                 # 16-byte Reload
	pxor	%xmm2, %xmm1
	movdqa	%xmm1, 96(%rsp)                 # 16-byte Spill
	movdqa	%xmm1, %xmm0
	pxor	80(%rsp), %xmm0                 # 16-byte Folded Reload
	movdqa	%xmm0, 128(%rsp)                # 16-byte Spill
	movq	%xmm0, %rdi
	pshufd	$238, %xmm0, %xmm0              # xmm0 = xmm0[2,3,2,3]
	movq	%xmm0, %rsi
	movl	$2, %edx
	movl	$2, %ecx
	callq	"aes_planes::soft::word::word128::U128Word::rotate_rows_and_columns"
	movq	%rdx, %xmm0
	movq	%rax, %xmm1
	punpcklqdq	%xmm0, %xmm1            # xmm1 = xmm1[0],xmm0[0]
	movdqa	128(%rsp), %xmm0                # 16-byte Reload
	pxor	176(%rsp), %xmm0                # 16-byte Folded Reload
	movdqa	144(%rsp), %xmm2                # 16-byte Reload
	pxor	176(%r12,%r13), %xmm2
	movdqa	%xmm2, 144(%rsp)                # 16-byte Spill
	pxor	%xmm1, %xmm0
	movdqa	%xmm0, 128(%rsp)                # 16-byte Spill
	movq	%xmm2, %rdi
	pshufd	$238, %xmm2, %xmm0              # xmm0 = xmm2[2,3,2,3]
	movq	%xmm0, %rsi
	movl	$1, %edx
	movl	$1, %ecx
	callq	"aes_planes::soft::word::word128::U128Word::rotate_rows_and_columns"
	movq	%rdx, %xmm0
	movq	%rax, %xmm1
	punpcklqdq	%xmm0, %xmm1            # xmm1 = xmm1[0],xmm0[0]
	pxor	144(%rsp), %xmm1                # 16-byte Folded Reload
	movdqa	%xmm1, 336(%rsp)                # 16-byte Spill
	movdqa	32(%rsp), %xmm0                 # 16-byte Reload
	pxor	80(%rsp), %xmm0                 # 16-byte Folded Reload
	pxor	%xmm1, %xmm0
	movdqa	%xmm0, 32(%rsp)                 # 16-byte Spill
	movdqa	16(%rsp), %xmm0                 # 16-byte Reload
	pxor	160(%rsp), %xmm0                # 16-byte Folded Reload
	pxor	256(%rsp), %xmm0                # 16-byte Folded Reload
	movdqa	%xmm0, 16(%rsp)                 # 16-byte Spill
	movq	%xmm0, %rdi
	pshufd	$238, %xmm0, %xmm0              # xmm0 = xmm0[2,3,2,3]
	movq	%xmm0, %rsi
	movl	$2, %edx
	movl	$2, %ecx
	callq	"aes_planes::soft::word::word128::U128Word::rotate_rows_and_columns"
	movq	%rdx, %xmm0
	movq	%rax, %xmm1
	punpcklqdq	%xmm0, %xmm1            # xmm1 = xmm1[0],xmm0[0]
	movdqa	16(%rsp), %xmm0                 # 16-byte Reload
	movdqa	32(%rsp), %xmm2                 # 16-byte Reload
	pxor	%xmm2, %xmm0
	pxor	%xmm1, %xmm0
	movdqa	%xmm0, 16(%rsp)                 # 16-byte Spill
	pxor	128(%rsp), %xmm0                # 16-byte Folded Reload
	movdqa	%xmm0, 256(%rsp)                # 16-byte Spill
	pxor	304(%rsp), %xmm2                # 16-byte Folded Reload
	movdqa	%xmm2, 32(%rsp)                 # 16-byte Spill
	movq	%xmm2, %rdi
	pshufd	$238, %xmm2, %xmm0              # xmm0 = xmm2[2,3,2,3]
	movq	%xmm0, %rsi
	movl	$2, %edx
	movl	$2, %ecx
	callq	"aes_planes::soft::word::word128::U128Word::rotate_rows_and_columns"
	movq	%rdx, %xmm0
	movq	%rax, %xmm1
	punpcklqdq	%xmm0, %xmm1            # xmm1 = xmm1[0],xmm0[0]
	movdqa	32(%rsp), %xmm0                 # 16-byte Reload
	movdqa	48(%rsp), %xmm3                 # 16-byte Reload
	pxor	%xmm3, %xmm0
	pxor	%xmm1, %xmm0
	movdqa	%xmm0, 32(%rsp)                 # 16-byte Spill
	movdqa	256(%rsp), %xmm1                # 16-byte Reload
	movdqa	%xmm1, %xmm2
	pxor	%xmm0, %xmm2
	movdqa	%xmm2, 304(%rsp)                # 16-byte Spill
	pand	%xmm1, %xmm2
	movdqa	%xmm2, 352(%rsp)                # 16-byte Spill
	pxor	128(%rsp), %xmm0                # 16-byte Folded Reload
	movdqa	%xmm0, 160(%rsp)                # 16-byte Spill
	movaps	80(%rsp), %xmm0                 # 16-byte Reload
	xorps	320(%rsp), %xmm0                # 16-byte Folded Reload
	xorps	144(%rsp), %xmm0                # 16-byte Folded Reload
	movaps	%xmm0, 80(%rsp)                 # 16-byte Spill
	movdqa	(%rsp), %xmm0                   # 16-byte Reload
	pxor	%xmm3, %xmm0
	pxor	336(%rsp), %xmm0                # 16-byte Folded Reload
	movdqa	%xmm0, (%rsp)                   # 16-byte Spill
	movq	%xmm0, %rdi
	pshufd	$238, %xmm0, %xmm0              # xmm0 = xmm0[2,3,2,3]
	movq	%xmm0, %rsi
	movl	$2, %edx
	movl	$2, %ecx
	callq	"aes_planes::soft::word::word128::U128Word::rotate_rows_and_columns"
	movq	%rdx, %xmm0
	movq	%rax, %xmm1
	punpcklqdq	%xmm0, %xmm1            # xmm1 = xmm1[0],xmm0[0]
	movdqa	(%rsp), %xmm0                   # 16-byte Reload
	pxor	80(%rsp), %xmm0                 # 16-byte Folded Reload
	pxor	%xmm1, %xmm0
	movdqa	%xmm0, (%rsp)                   # 16-byte Spill
	movdqa	48(%rsp), %xmm0                 # 16-byte Reload
	pxor	272(%rsp), %xmm0                # 16-byte Folded Reload
	movdqa	%xmm0, 48(%rsp)                 # 16-byte Spill
	movq	%xmm0, %rdi
	pshufd	$238, %xmm0, %xmm0              # xmm0 = xmm0[2,3,2,3]
	movq	%xmm0, %rsi
	movl	$2, %edx
	movl	$2, %ecx
	callq	"aes_planes::soft::word::word128::U128Word::rotate_rows_and_columns"
	movq	%rdx, %xmm0
	movq	%rax, %xmm1
	punpcklqdq	%xmm0, %xmm1            # xmm1 = xmm1[0],xmm0[0]
	movdqa	48(%rsp), %xmm0                 # 16-byte Reload
	pxor	208(%rsp), %xmm0                # 16-byte Folded Reload
	pxor	%xmm1, %xmm0
	movdqa	%xmm0, 48(%rsp)                 # 16-byte Spill
	movdqa	%xmm0, %xmm1
	pxor	(%rsp), %xmm1                   # 16-byte Folded Reload
	movdqa	%xmm1, 272(%rsp)                # 16-byte Spill
	movdqa	%xmm1, %xmm2
	movdqa	160(%rsp), %xmm1                # 16-byte Reload
	pxor	%xmm1, %xmm2
	movdqa	%xmm2, 144(%rsp)                # 16-byte Spill
	pxor	112(%rsp), %xmm0                # 16-byte Folded Reload
	movdqa	%xmm0, 336(%rsp)                # 16-byte Spill
	pxor	%xmm1, %xmm0
	movdqa	%xmm0, 320(%rsp)                # 16-byte Spill
	movaps	32(%rsp), %xmm0                 # 16-byte Reload
	xorps	16(%rsp), %xmm0                 # 16-byte Folded Reload
	movaps	%xmm0, 208(%rsp)                # 16-byte Spill
	movdqa	224(%rsp), %xmm0                # 16-byte Reload
	pxor	176(%rsp), %xmm0                # 16-byte Folded Reload
	pxor	80(%rsp), %xmm0                 # 16-byte Folded Reload
	movdqa	%xmm0, 224(%rsp)                # 16-byte Spill
	movq	%xmm0, %rdi
	pshufd	$238, %xmm0, %xmm0              # xmm0 = xmm0[2,3,2,3]
	movq	%xmm0, %rsi
	movl	$2, %edx
	movl	$2, %ecx
	callq	"aes_planes::soft::word::word128::U128Word::rotate_rows_and_columns"
	movq	%rdx, %xmm0
	movq	%rax, %xmm1
	punpcklqdq	%xmm0, %xmm1            # xmm1 = xmm1[0],xmm0[0]
	movdqa	224(%rsp), %xmm12               # 16-byte Reload
	pxor	96(%rsp), %xmm12                # 16-byte Folded Reload
	pxor	%xmm1, %xmm12
	movdqa	(%rsp), %xmm0                   # 16-byte Reload
	movdqa	16(%rsp), %xmm3                 # 16-byte Reload
	pxor	%xmm0, %xmm3
	movdqa	32(%rsp), %xmm11                # 16-byte Reload
	pxor	112(%rsp), %xmm11               # 16-byte Folded Reload
	movdqa	304(%rsp), %xmm1                # 16-byte Reload
	pxor	%xmm0, %xmm1
	movdqa	%xmm1, %xmm5
	movdqa	%xmm1, 32(%rsp)                 # 16-byte Spill
	pxor	%xmm12, %xmm0
	pxor	%xmm11, %xmm0
	movdqa	%xmm0, (%rsp)                   # 16-byte Spill
	movdqa	336(%rsp), %xmm10               # 16-byte Reload
	movdqa	%xmm10, %xmm13
	pxor	%xmm3, %xmm13
	movdqa	%xmm0, %xmm1
	por	%xmm13, %xmm1
	movdqa	%xmm13, 80(%rsp)                # 16-byte Spill
	movdqa	48(%rsp), %xmm6                 # 16-byte Reload
	pxor	%xmm3, %xmm6
	movdqa	%xmm6, 48(%rsp)                 # 16-byte Spill
	movdqa	%xmm3, %xmm0
	movdqa	208(%rsp), %xmm14               # 16-byte Reload
	pand	%xmm14, %xmm6
	pxor	%xmm1, %xmm6
	movdqa	64(%rsp), %xmm15                # 16-byte Reload
	pxor	%xmm12, %xmm15
	movdqa	%xmm15, %xmm9
	movdqa	%xmm15, %xmm3
	pxor	%xmm14, %xmm3
	movdqa	%xmm3, 96(%rsp)                 # 16-byte Spill
	pand	320(%rsp), %xmm3                # 16-byte Folded Reload
	movdqa	%xmm0, %xmm7
	movdqa	368(%rsp), %xmm15               # 16-byte Reload
	pxor	%xmm15, %xmm7
	movdqa	144(%rsp), %xmm8                # 16-byte Reload
	movdqa	%xmm8, %xmm4
	pxor	%xmm7, %xmm4
	pand	%xmm0, %xmm4
	movdqa	%xmm0, 16(%rsp)                 # 16-byte Spill
	movdqa	%xmm5, %xmm1
	pand	%xmm7, %xmm1
	pxor	%xmm4, %xmm1
	pxor	%xmm8, %xmm15
	movdqa	352(%rsp), %xmm5                # 16-byte Reload
	pxor	%xmm15, %xmm5
	pxor	%xmm3, %xmm5
	pxor	%xmm1, %xmm5
	movdqa	%xmm5, %xmm2
	pxor	%xmm1, %xmm6
	movdqa	%xmm9, %xmm1
	pxor	128(%rsp), %xmm1                # 16-byte Folded Reload
	movdqa	%xmm1, 64(%rsp)                 # 16-byte Spill
	pxor	%xmm14, %xmm10
	pand	%xmm10, %xmm1
	movdqa	272(%rsp), %xmm9                # 16-byte Reload
	pxor	%xmm9, %xmm1
	pxor	%xmm3, %xmm1
	movdqa	%xmm8, %xmm5
	pand	160(%rsp), %xmm5                # 16-byte Folded Reload
	pxor	%xmm4, %xmm5
	movdqa	%xmm11, %xmm8
	pxor	%xmm9, %xmm8
	movdqa	(%rsp), %xmm3                   # 16-byte Reload
	pand	%xmm13, %xmm3
	movdqa	%xmm10, %xmm4
	pxor	%xmm12, %xmm4
	movdqa	%xmm4, 112(%rsp)                # 16-byte Spill
	pand	%xmm8, %xmm4
	pxor	%xmm0, %xmm3
	pxor	%xmm4, %xmm3
	pxor	%xmm12, %xmm3
	pxor	%xmm5, %xmm1
	pxor	%xmm5, %xmm3
	movdqa	%xmm2, %xmm0
	pand	%xmm6, %xmm0
	movdqa	%xmm0, %xmm9
	pxor	%xmm1, %xmm9
	movdqa	%xmm3, %xmm4
	pxor	%xmm6, %xmm4
	pand	%xmm4, %xmm9
	pand	%xmm1, %xmm6
	pandn	%xmm4, %xmm6
	pxor	%xmm3, %xmm9
	pxor	%xmm0, %xmm6
	movdqa	%xmm3, %xmm4
	pand	%xmm2, %xmm4
	pxor	%xmm1, %xmm2
	pand	%xmm2, %xmm4
	pxor	%xmm0, %xmm3
	pxor	%xmm2, %xmm0
	pxor	%xmm4, %xmm0
	pand	%xmm2, %xmm3
	pxor	%xmm1, %xmm3
	pand	%xmm0, %xmm14
	movdqa	%xmm14, %xmm4
	movdqa	%xmm14, 208(%rsp)               # 16-byte Spill
	movdqa	%xmm0, %xmm14
	movdqa	%xmm0, %xmm12
	pand	48(%rsp), %xmm0                 # 16-byte Folded Reload
	movdqa	256(%rsp), %xmm2                # 16-byte Reload
	pand	%xmm6, %xmm2
	pxor	%xmm6, %xmm14
	movdqa	%xmm9, %xmm5
	pxor	%xmm6, %xmm5
	pand	304(%rsp), %xmm6                # 16-byte Folded Reload
	pxor	%xmm3, %xmm12
	movdqa	(%rsp), %xmm13                  # 16-byte Reload
	pand	%xmm12, %xmm13
	movdqa	%xmm13, (%rsp)                  # 16-byte Spill
	pand	%xmm3, %xmm8
	pxor	%xmm0, %xmm6
	movdqa	%xmm3, %xmm11
	pxor	%xmm9, %xmm11
	pand	%xmm11, %xmm15
	pxor	%xmm15, %xmm8
	pxor	%xmm6, %xmm13
	pxor	%xmm8, %xmm13
	movdqa	64(%rsp), %xmm1                 # 16-byte Reload
	pand	%xmm9, %xmm1
	movdqa	%xmm1, 64(%rsp)                 # 16-byte Spill
	pand	%xmm10, %xmm9
	pxor	%xmm1, %xmm2
	movdqa	%xmm2, %xmm1
	movdqa	%xmm2, %xmm10
	pxor	%xmm4, %xmm1
	movdqa	144(%rsp), %xmm2                # 16-byte Reload
	pand	%xmm14, %xmm2
	movdqa	%xmm2, 144(%rsp)                # 16-byte Spill
	pxor	%xmm2, %xmm1
	movdqa	320(%rsp), %xmm4                # 16-byte Reload
	pand	%xmm5, %xmm4
	movdqa	160(%rsp), %xmm8                # 16-byte Reload
	pand	%xmm14, %xmm8
	pxor	%xmm8, %xmm4
	pxor	%xmm4, %xmm1
	movdqa	16(%rsp), %xmm2                 # 16-byte Reload
	pand	%xmm11, %xmm2
	pxor	%xmm9, %xmm2
	pxor	%xmm4, %xmm2
	pand	96(%rsp), %xmm5                 # 16-byte Folded Reload
	pand	112(%rsp), %xmm3                # 16-byte Folded Reload
	pxor	%xmm10, %xmm9
	pxor	%xmm14, %xmm11
	movdqa	%xmm2, %xmm14
	pand	%xmm11, %xmm7
	pxor	%xmm0, %xmm7
	pand	80(%rsp), %xmm12                # 16-byte Folded Reload
	pxor	208(%rsp), %xmm15               # 16-byte Folded Reload
	movdqa	%xmm5, %xmm10
	pxor	%xmm3, %xmm10
	pxor	%xmm10, %xmm8
	pxor	%xmm9, %xmm8
	pxor	%xmm12, %xmm15
	pxor	%xmm15, %xmm7
	pxor	%xmm7, %xmm8
	movdqa	%xmm8, %xmm2
	pand	32(%rsp), %xmm11                # 16-byte Folded Reload
	movdqa	%xmm11, %xmm8
	movdqa	(%rsp), %xmm0                   # 16-byte Reload
	pxor	%xmm0, %xmm8
	pxor	%xmm7, %xmm8
	pxor	%xmm9, %xmm12
	movdqa	%xmm2, %xmm9
	pxor	144(%rsp), %xmm11               # 16-byte Folded Reload
	pxor	%xmm13, %xmm1
	pxor	%xmm11, %xmm12
	pxor	%xmm13, %xmm12
	pxor	%xmm0, %xmm3
	pxor	%xmm15, %xmm11
	pxor	64(%rsp), %xmm5                 # 16-byte Folded Reload
	pxor	%xmm6, %xmm10
	pxor	%xmm11, %xmm3
	pxor	%xmm11, %xmm5
	pxor	%xmm11, %xmm10
	movq	488(%rsp), %rax                 # 8-byte Reload
	.p2align	4
LBB15_5:                               # %join.10.i
                                        #   Parent Loop BB15_1 Depth=1
                                        # =>  This Inner Loop Header: Depth=2
	pxor	(%r12,%rax), %xmm14
	pxor	16(%r12,%rax), %xmm8
	pxor	32(%r12,%rax), %xmm10
	pxor	48(%r12,%rax), %xmm9
	pxor	64(%r12,%rax), %xmm5
	pxor	80(%r12,%rax), %xmm12
	pxor	96(%r12,%rax), %xmm1
	pxor	112(%r12,%rax), %xmm3
	pshufd	$57, %xmm14, %xmm11             # xmm11 = xmm14[1,2,3,0]
	pshufd	$57, %xmm8, %xmm0               # xmm0 = xmm8[1,2,3,0]
	pshufd	$57, %xmm10, %xmm6              # xmm6 = xmm10[1,2,3,0]
	movdqa	%xmm12, %xmm2
	pshufd	$57, %xmm9, %xmm12              # xmm12 = xmm9[1,2,3,0]
	pshufd	$57, %xmm5, %xmm15              # xmm15 = xmm5[1,2,3,0]
	pshufd	$57, %xmm2, %xmm7               # xmm7 = xmm2[1,2,3,0]
	movdqa	%xmm2, %xmm4
	pshufd	$57, %xmm1, %xmm13              # xmm13 = xmm1[1,2,3,0]
	pshufd	$57, %xmm3, %xmm2               # xmm2 = xmm3[1,2,3,0]
	pxor	%xmm14, %xmm11
	pxor	%xmm8, %xmm0
	pxor	%xmm10, %xmm6
	pxor	%xmm9, %xmm12
	pxor	%xmm5, %xmm15
	pxor	%xmm4, %xmm7
	pxor	%xmm1, %xmm13
	pxor	%xmm3, %xmm2
	pxor	%xmm2, %xmm14
	pxor	%xmm11, %xmm8
	pxor	%xmm2, %xmm8
	pxor	%xmm0, %xmm10
	pxor	%xmm6, %xmm9
	pxor	%xmm2, %xmm9
	pxor	%xmm12, %xmm5
	pxor	%xmm2, %xmm5
	pxor	%xmm15, %xmm4
	movdqa	%xmm4, 16(%rsp)                 # 16-byte Spill
	pxor	%xmm7, %xmm1
	pxor	%xmm13, %xmm3
	pxor	%xmm3, %xmm6
	pxor	%xmm3, %xmm7
	pxor	%xmm4, %xmm2
	pshufd	$78, %xmm2, %xmm4               # xmm4 = xmm2[2,3,0,1]
	movdqa	%xmm4, (%rsp)                   # 16-byte Spill
	pxor	%xmm3, %xmm2
	pxor	%xmm1, %xmm3
	pxor	%xmm3, %xmm0
	pxor	%xmm10, %xmm15
	pxor	%xmm3, %xmm15
	pxor	%xmm1, %xmm11
	pxor	%xmm14, %xmm6
	pshufd	$78, %xmm11, %xmm3              # xmm3 = xmm11[2,3,0,1]
	pxor	%xmm14, %xmm11
	pxor	%xmm1, %xmm12
	pxor	%xmm8, %xmm12
	pxor	%xmm9, %xmm7
	pxor	%xmm5, %xmm13
	pxor	%xmm3, %xmm11
	pshufd	$78, %xmm0, %xmm3               # xmm3 = xmm0[2,3,0,1]
	pxor	%xmm8, %xmm0
	pshufd	$78, %xmm6, %xmm8               # xmm8 = xmm6[2,3,0,1]
	pxor	%xmm3, %xmm0
	pshufd	$78, %xmm12, %xmm3              # xmm3 = xmm12[2,3,0,1]
	pxor	%xmm10, %xmm6
	pshufd	$78, %xmm15, %xmm10             # xmm10 = xmm15[2,3,0,1]
	pxor	%xmm8, %xmm6
	pshufd	$78, %xmm7, %xmm8               # xmm8 = xmm7[2,3,0,1]
	pxor	%xmm9, %xmm12
	pshufd	$78, %xmm13, %xmm14             # xmm14 = xmm13[2,3,0,1]
	pxor	%xmm3, %xmm12
	pxor	%xmm5, %xmm15
	pxor	%xmm10, %xmm15
	pxor	16(%rsp), %xmm7                 # 16-byte Folded Reload
	pxor	%xmm8, %xmm7
	pxor	%xmm1, %xmm13
	pxor	%xmm14, %xmm13
	pxor	(%rsp), %xmm2                   # 16-byte Folded Reload
	movdqa	%xmm7, %xmm1
	pxor	%xmm6, %xmm1
	movdqa	%xmm1, %xmm3
	movdqa	%xmm13, %xmm1
	pxor	%xmm0, %xmm1
	movdqa	%xmm1, %xmm4
	pxor	%xmm0, %xmm6
	movdqa	%xmm0, %xmm1
	pxor	%xmm11, %xmm1
	movdqa	%xmm13, %xmm9
	pxor	%xmm2, %xmm9
	movdqa	%xmm15, %xmm5
	pxor	%xmm13, %xmm5
	movdqa	%xmm7, %xmm0
	pxor	%xmm12, %xmm0
	pxor	%xmm4, %xmm0
	movdqa	%xmm0, %xmm8
	movdqa	%xmm0, 112(%rsp)                # 16-byte Spill
	movdqa	%xmm5, %xmm0
	pxor	%xmm3, %xmm0
	movdqa	%xmm0, (%rsp)                   # 16-byte Spill
	pxor	%xmm2, %xmm3
	movdqa	%xmm3, 32(%rsp)                 # 16-byte Spill
	pxor	%xmm15, %xmm2
	movdqa	%xmm2, 48(%rsp)                 # 16-byte Spill
	pxor	%xmm12, %xmm15
	movdqa	%xmm15, %xmm0
	pxor	%xmm1, %xmm0
	movdqa	%xmm0, 16(%rsp)                 # 16-byte Spill
	por	%xmm8, %xmm0
	movdqa	%xmm15, %xmm10
	pxor	%xmm11, %xmm10
	movdqa	%xmm10, 224(%rsp)               # 16-byte Spill
	movdqa	%xmm5, 80(%rsp)                 # 16-byte Spill
	pand	%xmm5, %xmm10
	pxor	%xmm0, %xmm10
	pxor	%xmm2, %xmm13
	movdqa	%xmm13, 128(%rsp)               # 16-byte Spill
	pxor	%xmm12, %xmm13
	movdqa	%xmm13, 176(%rsp)               # 16-byte Spill
	pxor	%xmm11, %xmm12
	movdqa	%xmm9, %xmm8
	movdqa	%xmm1, %xmm0
	pxor	%xmm1, %xmm8
	movdqa	%xmm8, 160(%rsp)                # 16-byte Spill
	movdqa	%xmm15, %xmm3
	pxor	%xmm6, %xmm3
	movdqa	%xmm13, %xmm1
	pand	%xmm3, %xmm1
	movdqa	%xmm3, %xmm14
	movdqa	%xmm3, 96(%rsp)                 # 16-byte Spill
	pxor	%xmm5, %xmm0
	pxor	%xmm12, %xmm4
	movdqa	%xmm4, %xmm11
	movdqa	%xmm0, %xmm13
	movdqa	%xmm0, %xmm4
	pand	32(%rsp), %xmm13                # 16-byte Folded Reload
	pxor	%xmm12, %xmm13
	movdqa	%xmm9, 144(%rsp)                # 16-byte Spill
	pxor	%xmm9, %xmm12
	movdqa	%xmm12, %xmm3
	pand	%xmm9, %xmm3
	movdqa	%xmm14, %xmm0
	pxor	%xmm12, %xmm0
	movdqa	%xmm12, 64(%rsp)                # 16-byte Spill
	pand	%xmm15, %xmm0
	pxor	%xmm0, %xmm1
	pxor	%xmm3, %xmm0
	movdqa	(%rsp), %xmm3                   # 16-byte Reload
	pand	%xmm8, %xmm3
	movdqa	128(%rsp), %xmm14               # 16-byte Reload
	pand	48(%rsp), %xmm14                # 16-byte Folded Reload
	pxor	%xmm3, %xmm13
	pxor	%xmm12, %xmm6
	pxor	%xmm6, %xmm14
	movdqa	%xmm6, %xmm12
	pxor	%xmm3, %xmm14
	pxor	%xmm1, %xmm10
	pxor	%xmm1, %xmm14
	movdqa	16(%rsp), %xmm9                 # 16-byte Reload
	movdqa	%xmm9, %xmm5
	movdqa	112(%rsp), %xmm6                # 16-byte Reload
	pand	%xmm6, %xmm5
	movdqa	%xmm4, %xmm8
	pxor	%xmm7, %xmm8
	pxor	%xmm7, %xmm5
	movdqa	%xmm8, %xmm1
	pand	%xmm11, %xmm1
	pxor	%xmm1, %xmm5
	pxor	%xmm0, %xmm13
	pxor	%xmm15, %xmm5
	pxor	%xmm0, %xmm5
	movdqa	%xmm14, %xmm2
	pand	%xmm10, %xmm2
	movdqa	%xmm2, %xmm0
	pxor	%xmm13, %xmm0
	movdqa	%xmm5, %xmm1
	pxor	%xmm10, %xmm1
	movdqa	%xmm2, %xmm3
	pxor	%xmm5, %xmm3
	pand	%xmm1, %xmm0
	pxor	%xmm5, %xmm0
	pand	%xmm14, %xmm5
	pxor	%xmm13, %xmm14
	pand	%xmm14, %xmm5
	pand	%xmm14, %xmm3
	pxor	%xmm2, %xmm14
	pxor	%xmm5, %xmm14
	pxor	%xmm13, %xmm3
	movdqa	%xmm14, %xmm5
	pxor	%xmm3, %xmm5
	pand	%xmm5, %xmm9
	movdqa	%xmm9, 16(%rsp)                 # 16-byte Spill
	pand	%xmm6, %xmm5
	pand	%xmm3, %xmm11
	movdqa	%xmm3, %xmm9
	pand	%xmm8, %xmm3
	pand	%xmm10, %xmm13
	pandn	%xmm1, %xmm13
	pxor	%xmm2, %xmm13
	pxor	%xmm0, %xmm9
	movdqa	80(%rsp), %xmm6                 # 16-byte Reload
	pand	%xmm14, %xmm6
	movdqa	%xmm6, 80(%rsp)                 # 16-byte Spill
	movdqa	32(%rsp), %xmm1                 # 16-byte Reload
	pand	%xmm0, %xmm1
	movdqa	%xmm1, 32(%rsp)                 # 16-byte Spill
	pand	%xmm0, %xmm4
	movdqa	%xmm4, 112(%rsp)                # 16-byte Spill
	movdqa	224(%rsp), %xmm4                # 16-byte Reload
	pand	%xmm14, %xmm4
	pxor	%xmm13, %xmm14
	movdqa	48(%rsp), %xmm8                 # 16-byte Reload
	pand	%xmm13, %xmm8
	pxor	%xmm13, %xmm0
	pand	128(%rsp), %xmm13               # 16-byte Folded Reload
	movdqa	(%rsp), %xmm1                   # 16-byte Reload
	pand	%xmm0, %xmm1
	pand	160(%rsp), %xmm0                # 16-byte Folded Reload
	pand	%xmm9, %xmm15
	pand	%xmm9, %xmm12
	pxor	%xmm14, %xmm9
	movdqa	96(%rsp), %xmm2                 # 16-byte Reload
	pand	%xmm9, %xmm2
	pxor	%xmm4, %xmm2
	pxor	%xmm4, %xmm13
	pand	176(%rsp), %xmm9                # 16-byte Folded Reload
	movdqa	%xmm12, %xmm10
	pxor	%xmm11, %xmm12
	pxor	%xmm6, %xmm10
	pxor	16(%rsp), %xmm10                # 16-byte Folded Reload
	movdqa	64(%rsp), %xmm6                 # 16-byte Reload
	pand	%xmm14, %xmm6
	movdqa	%xmm6, 64(%rsp)                 # 16-byte Spill
	movdqa	%xmm1, %xmm4
	pxor	%xmm3, %xmm4
	pxor	%xmm10, %xmm2
	movdqa	%xmm2, 96(%rsp)                 # 16-byte Spill
	movdqa	%xmm9, %xmm7
	pxor	%xmm6, %xmm7
	pxor	%xmm7, %xmm10
	movdqa	-112(%r12,%rax), %xmm6
	pxor	%xmm5, %xmm6
	movdqa	%xmm4, %xmm11
	pxor	%xmm10, %xmm11
	pxor	%xmm10, %xmm1
	movdqa	%xmm1, %xmm2
	pxor	%xmm5, %xmm10
	pxor	%xmm13, %xmm5
	pxor	%xmm12, %xmm5
	pand	144(%rsp), %xmm14               # 16-byte Folded Reload
	movdqa	32(%rsp), %xmm1                 # 16-byte Reload
	pxor	%xmm1, %xmm8
	movdqa	%xmm8, 48(%rsp)                 # 16-byte Spill
	movdqa	%xmm8, %xmm12
	movdqa	112(%rsp), %xmm8                # 16-byte Reload
	pxor	%xmm8, %xmm12
	pxor	%xmm14, %xmm0
	pxor	-128(%r12,%rax), %xmm15
	pxor	%xmm0, %xmm8
	pxor	%xmm15, %xmm8
	movdqa	96(%rsp), %xmm15                # 16-byte Reload
	pxor	%xmm15, %xmm9
	pxor	%xmm6, %xmm9
	pxor	-96(%r12,%rax), %xmm13
	pxor	%xmm13, %xmm11
	pxor	%xmm12, %xmm4
	pxor	%xmm15, %xmm4
	pxor	-80(%r12,%rax), %xmm14
	pxor	%xmm14, %xmm4
	movdqa	%xmm4, %xmm13
	pxor	-64(%r12,%rax), %xmm1
	movdqa	16(%rsp), %xmm4                 # 16-byte Reload
	pxor	-48(%r12,%rax), %xmm4
	pxor	%xmm1, %xmm2
	movdqa	%xmm2, %xmm14
	pxor	%xmm7, %xmm12
	pxor	%xmm5, %xmm12
	pxor	%xmm4, %xmm12
	movdqa	%xmm12, 16(%rsp)                # 16-byte Spill
	movdqa	80(%rsp), %xmm1                 # 16-byte Reload
	pxor	-32(%r12,%rax), %xmm1
	movdqa	48(%rsp), %xmm6                 # 16-byte Reload
	pxor	64(%rsp), %xmm6                 # 16-byte Folded Reload
	pxor	%xmm0, %xmm6
	pxor	%xmm5, %xmm6
	pxor	%xmm1, %xmm6
	pxor	-16(%r12,%rax), %xmm3
	pxor	%xmm3, %xmm10
	pxor	%xmm4, %xmm4
	movdqa	%xmm8, %xmm2
	movdqa	%xmm8, 112(%rsp)                # 16-byte Spill
	movdqa	%xmm8, %xmm0
	punpcklbw	%xmm4, %xmm0            # xmm0 = xmm0[0],xmm4[0],xmm0[1],xmm4[1],xmm0[2],xmm4[2],xmm0[3],xmm4[3],xmm0[4],xmm4[4],xmm0[5],xmm4[5],xmm0[6],xmm4[6],xmm0[7],xmm4[7]
	pshuflw	$147, %xmm0, %xmm1              # xmm1 = xmm0[3,0,1,2,4,5,6,7]
	punpckhbw	%xmm4, %xmm2            # xmm2 = xmm2[8],xmm4[8],xmm2[9],xmm4[9],xmm2[10],xmm4[10],xmm2[11],xmm4[11],xmm2[12],xmm4[12],xmm2[13],xmm4[13],xmm2[14],xmm4[14],xmm2[15],xmm4[15]
	pshufhw	$147, %xmm2, %xmm3              # xmm3 = xmm2[0,1,2,3,7,4,5,6]
	pshufd	$238, %xmm3, %xmm3              # xmm3 = xmm3[2,3,2,3]
	punpcklqdq	%xmm1, %xmm3            # xmm3 = xmm3[0],xmm1[0]
	pshuflw	$147, %xmm2, %xmm2              # xmm2 = xmm2[3,0,1,2,4,5,6,7]
	pshufhw	$147, %xmm0, %xmm0              # xmm0 = xmm0[0,1,2,3,7,4,5,6]
	pshufd	$238, %xmm0, %xmm7              # xmm7 = xmm0[2,3,2,3]
	punpcklqdq	%xmm2, %xmm7            # xmm7 = xmm7[0],xmm2[0]
	packuswb	%xmm3, %xmm7
	movdqa	%xmm9, %xmm0
	punpcklbw	%xmm4, %xmm0            # xmm0 = xmm0[0],xmm4[0],xmm0[1],xmm4[1],xmm0[2],xmm4[2],xmm0[3],xmm4[3],xmm0[4],xmm4[4],xmm0[5],xmm4[5],xmm0[6],xmm4[6],xmm0[7],xmm4[7]
	pshuflw	$147, %xmm0, %xmm2              # xmm2 = xmm0[3,0,1,2,4,5,6,7]
	movdqa	%xmm9, %xmm3
	punpckhbw	%xmm4, %xmm3            # xmm3 = xmm3[8],xmm4[8],xmm3[9],xmm4[9],xmm3[10],xmm4[10],xmm3[11],xmm4[11],xmm3[12],xmm4[12],xmm3[13],xmm4[13],xmm3[14],xmm4[14],xmm3[15],xmm4[15]
	pshufhw	$147, %xmm3, %xmm5              # xmm5 = xmm3[0,1,2,3,7,4,5,6]
	pshufd	$238, %xmm5, %xmm5              # xmm5 = xmm5[2,3,2,3]
	punpcklqdq	%xmm2, %xmm5            # xmm5 = xmm5[0],xmm2[0]
	pshuflw	$147, %xmm3, %xmm2              # xmm2 = xmm3[3,0,1,2,4,5,6,7]
	pshufhw	$147, %xmm0, %xmm0              # xmm0 = xmm0[0,1,2,3,7,4,5,6]
	pshufd	$238, %xmm0, %xmm8              # xmm8 = xmm0[2,3,2,3]
	punpcklqdq	%xmm2, %xmm8            # xmm8 = xmm8[0],xmm2[0]
	packuswb	%xmm5, %xmm8
	movdqa	%xmm11, 128(%rsp)               # 16-byte Spill
	movdqa	%xmm11, %xmm0
	punpcklbw	%xmm4, %xmm0            # xmm0 = xmm0[0],xmm4[0],xmm0[1],xmm4[1],xmm0[2],xmm4[2],xmm0[3],xmm4[3],xmm0[4],xmm4[4],xmm0[5],xmm4[5],xmm0[6],xmm4[6],xmm0[7],xmm4[7]
	pshuflw	$147, %xmm0, %xmm2              # xmm2 = xmm0[3,0,1,2,4,5,6,7]
	punpckhbw	%xmm4, %xmm11           # xmm11 = xmm11[8],xmm4[8],xmm11[9],xmm4[9],xmm11[10],xmm4[10],xmm11[11],xmm4[11],xmm11[12],xmm4[12],xmm11[13],xmm4[13],xmm11[14],xmm4[14],xmm11[15],xmm4[15]
	pshufhw	$147, %xmm11, %xmm5             # xmm5 = xmm11[0,1,2,3,7,4,5,6]
	pshufd	$238, %xmm5, %xmm5              # xmm5 = xmm5[2,3,2,3]
	punpcklqdq	%xmm2, %xmm5            # xmm5 = xmm5[0],xmm2[0]
	pshuflw	$147, %xmm11, %xmm2             # xmm2 = xmm11[3,0,1,2,4,5,6,7]
	pshufhw	$147, %xmm0, %xmm0              # xmm0 = xmm0[0,1,2,3,7,4,5,6]
	pshufd	$238, %xmm0, %xmm11             # xmm11 = xmm0[2,3,2,3]
	punpcklqdq	%xmm2, %xmm11           # xmm11 = xmm11[0],xmm2[0]
	packuswb	%xmm5, %xmm11
	movdqa	%xmm13, %xmm3
	movdqa	%xmm13, 96(%rsp)                # 16-byte Spill
	movdqa	%xmm13, %xmm0
	punpcklbw	%xmm4, %xmm0            # xmm0 = xmm0[0],xmm4[0],xmm0[1],xmm4[1],xmm0[2],xmm4[2],xmm0[3],xmm4[3],xmm0[4],xmm4[4],xmm0[5],xmm4[5],xmm0[6],xmm4[6],xmm0[7],xmm4[7]
	pshuflw	$147, %xmm0, %xmm2              # xmm2 = xmm0[3,0,1,2,4,5,6,7]
	punpckhbw	%xmm4, %xmm3            # xmm3 = xmm3[8],xmm4[8],xmm3[9],xmm4[9],xmm3[10],xmm4[10],xmm3[11],xmm4[11],xmm3[12],xmm4[12],xmm3[13],xmm4[13],xmm3[14],xmm4[14],xmm3[15],xmm4[15]
	pshufhw	$147, %xmm3, %xmm5              # xmm5 = xmm3[0,1,2,3,7,4,5,6]
	pshufd	$238, %xmm5, %xmm5              # xmm5 = xmm5[2,3,2,3]
	punpcklqdq	%xmm2, %xmm5            # xmm5 = xmm5[0],xmm2[0]
	pshuflw	$147, %xmm3, %xmm2              # xmm2 = xmm3[3,0,1,2,4,5,6,7]
	pshufhw	$147, %xmm0, %xmm0              # xmm0 = xmm0[0,1,2,3,7,4,5,6]
	pshufd	$238, %xmm0, %xmm13             # xmm13 = xmm0[2,3,2,3]
	punpcklqdq	%xmm2, %xmm13           # xmm13 = xmm13[0],xmm2[0]
	packuswb	%xmm5, %xmm13
	movdqa	%xmm14, (%rsp)                  # 16-byte Spill
	movdqa	%xmm14, %xmm0
	punpcklbw	%xmm4, %xmm0            # xmm0 = xmm0[0],xmm4[0],xmm0[1],xmm4[1],xmm0[2],xmm4[2],xmm0[3],xmm4[3],xmm0[4],xmm4[4],xmm0[5],xmm4[5],xmm0[6],xmm4[6],xmm0[7],xmm4[7]
	punpckhbw	%xmm4, %xmm14           # xmm14 = xmm14[8],xmm4[8],xmm14[9],xmm4[9],xmm14[10],xmm4[10],xmm14[11],xmm4[11],xmm14[12],xmm4[12],xmm14[13],xmm4[13],xmm14[14],xmm4[14],xmm14[15],xmm4[15]
	pshufhw	$147, %xmm14, %xmm3             # xmm3 = xmm14[0,1,2,3,7,4,5,6]
	pshufd	$238, %xmm3, %xmm3              # xmm3 = xmm3[2,3,2,3]
	pshuflw	$147, %xmm0, %xmm5              # xmm5 = xmm0[3,0,1,2,4,5,6,7]
	punpcklqdq	%xmm5, %xmm3            # xmm3 = xmm3[0],xmm5[0]
	pshuflw	$147, %xmm14, %xmm2             # xmm2 = xmm14[3,0,1,2,4,5,6,7]
	pshufhw	$147, %xmm0, %xmm0              # xmm0 = xmm0[0,1,2,3,7,4,5,6]
	pshufd	$238, %xmm0, %xmm1              # xmm1 = xmm0[2,3,2,3]
	punpcklqdq	%xmm2, %xmm1            # xmm1 = xmm1[0],xmm2[0]
	packuswb	%xmm3, %xmm1
	movdqa	16(%rsp), %xmm2                 # 16-byte Reload
	movdqa	%xmm2, %xmm0
	punpcklbw	%xmm4, %xmm0            # xmm0 = xmm0[0],xmm4[0],xmm0[1],xmm4[1],xmm0[2],xmm4[2],xmm0[3],xmm4[3],xmm0[4],xmm4[4],xmm0[5],xmm4[5],xmm0[6],xmm4[6],xmm0[7],xmm4[7]
	punpckhbw	%xmm4, %xmm2            # xmm2 = xmm2[8],xmm4[8],xmm2[9],xmm4[9],xmm2[10],xmm4[10],xmm2[11],xmm4[11],xmm2[12],xmm4[12],xmm2[13],xmm4[13],xmm2[14],xmm4[14],xmm2[15],xmm4[15]
	pshufhw	$147, %xmm2, %xmm3              # xmm3 = xmm2[0,1,2,3,7,4,5,6]
	pshufd	$238, %xmm3, %xmm3              # xmm3 = xmm3[2,3,2,3]
	pshuflw	$147, %xmm0, %xmm5              # xmm5 = xmm0[3,0,1,2,4,5,6,7]
	punpcklqdq	%xmm5, %xmm3            # xmm3 = xmm3[0],xmm5[0]
	pshuflw	$147, %xmm2, %xmm2              # xmm2 = xmm2[3,0,1,2,4,5,6,7]
	pshufhw	$147, %xmm0, %xmm0              # xmm0 = xmm0[0,1,2,3,7,4,5,6]
	pshufd	$238, %xmm0, %xmm14             # xmm14 = xmm0[2,3,2,3]
	punpcklqdq	%xmm2, %xmm14           # xmm14 = xmm14[0],xmm2[0]
	packuswb	%xmm3, %xmm14
	movdqa	%xmm6, %xmm0
	punpcklbw	%xmm4, %xmm0            # xmm0 = xmm0[0],xmm4[0],xmm0[1],xmm4[1],xmm0[2],xmm4[2],xmm0[3],xmm4[3],xmm0[4],xmm4[4],xmm0[5],xmm4[5],xmm0[6],xmm4[6],xmm0[7],xmm4[7]
	movdqa	%xmm6, %xmm2
	punpckhbw	%xmm4, %xmm2            # xmm2 = xmm2[8],xmm4[8],xmm2[9],xmm4[9],xmm2[10],xmm4[10],xmm2[11],xmm4[11],xmm2[12],xmm4[12],xmm2[13],xmm4[13],xmm2[14],xmm4[14],xmm2[15],xmm4[15]
	pshufhw	$147, %xmm2, %xmm3              # xmm3 = xmm2[0,1,2,3,7,4,5,6]
	pshufd	$238, %xmm3, %xmm3              # xmm3 = xmm3[2,3,2,3]
	pshuflw	$147, %xmm0, %xmm5              # xmm5 = xmm0[3,0,1,2,4,5,6,7]
	punpcklqdq	%xmm5, %xmm3            # xmm3 = xmm3[0],xmm5[0]
	pshuflw	$147, %xmm2, %xmm2              # xmm2 = xmm2[3,0,1,2,4,5,6,7]
	pshufhw	$147, %xmm0, %xmm0              # xmm0 = xmm0[0,1,2,3,7,4,5,6]
	pshufd	$238, %xmm0, %xmm15             # xmm15 = xmm0[2,3,2,3]
	punpcklqdq	%xmm2, %xmm15           # xmm15 = xmm15[0],xmm2[0]
	packuswb	%xmm3, %xmm15
	movdqa	%xmm10, %xmm0
	punpcklbw	%xmm4, %xmm0            # xmm0 = xmm0[0],xmm4[0],xmm0[1],xmm4[1],xmm0[2],xmm4[2],xmm0[3],xmm4[3],xmm0[4],xmm4[4],xmm0[5],xmm4[5],xmm0[6],xmm4[6],xmm0[7],xmm4[7]
	movdqa	%xmm10, %xmm2
	punpckhbw	%xmm4, %xmm2            # xmm2 = xmm2[8],xmm4[8],xmm2[9],xmm4[9],xmm2[10],xmm4[10],xmm2[11],xmm4[11],xmm2[12],xmm4[12],xmm2[13],xmm4[13],xmm2[14],xmm4[14],xmm2[15],xmm4[15]
	pshufhw	$147, %xmm2, %xmm3              # xmm3 = xmm2[0,1,2,3,7,4,5,6]
	pshufd	$238, %xmm3, %xmm3              # xmm3 = xmm3[2,3,2,3]
	pshuflw	$147, %xmm0, %xmm5              # xmm5 = xmm0[3,0,1,2,4,5,6,7]
	punpcklqdq	%xmm5, %xmm3            # xmm3 = xmm3[0],xmm5[0]
	pshuflw	$147, %xmm2, %xmm2              # xmm2 = xmm2[3,0,1,2,4,5,6,7]
	pshufhw	$147, %xmm0, %xmm0              # xmm0 = xmm0[0,1,2,3,7,4,5,6]
	pshufd	$238, %xmm0, %xmm12             # xmm12 = xmm0[2,3,2,3]
	punpcklqdq	%xmm2, %xmm12           # xmm12 = xmm12[0],xmm2[0]
	packuswb	%xmm3, %xmm12
	movdqa	112(%rsp), %xmm3                # 16-byte Reload
	pxor	%xmm3, %xmm7
	pxor	%xmm9, %xmm8
	movdqa	128(%rsp), %xmm4                # 16-byte Reload
	pxor	%xmm4, %xmm11
	movdqa	96(%rsp), %xmm0                 # 16-byte Reload
	pxor	%xmm0, %xmm13
	movdqa	(%rsp), %xmm2                   # 16-byte Reload
	pxor	%xmm2, %xmm1
	movdqa	16(%rsp), %xmm5                 # 16-byte Reload
	pxor	%xmm5, %xmm14
	pxor	%xmm6, %xmm15
	pxor	%xmm10, %xmm12
	pxor	%xmm12, %xmm3
	pxor	%xmm12, %xmm9
	pxor	%xmm8, %xmm4
	pxor	%xmm12, %xmm0
	pxor	%xmm11, %xmm0
	pxor	%xmm12, %xmm2
	movdqa	%xmm2, (%rsp)                   # 16-byte Spill
	pxor	%xmm1, %xmm5
	pxor	%xmm14, %xmm6
	pxor	%xmm15, %xmm10
	pxor	%xmm3, %xmm11
	pxor	%xmm10, %xmm11
	pxor	%xmm10, %xmm14
	pxor	%xmm5, %xmm12
	pshufd	$78, %xmm12, %xmm2              # xmm2 = xmm12[2,3,0,1]
	movdqa	%xmm2, 16(%rsp)                 # 16-byte Spill
	pxor	%xmm10, %xmm12
	pxor	%xmm6, %xmm10
	pxor	%xmm10, %xmm8
	pxor	%xmm4, %xmm1
	pxor	%xmm10, %xmm1
	pxor	%xmm7, %xmm9
	pxor	%xmm6, %xmm7
	pshufd	$78, %xmm7, %xmm2               # xmm2 = xmm7[2,3,0,1]
	pxor	%xmm3, %xmm7
	pshuflw	$177, %xmm2, %xmm2              # xmm2 = xmm2[1,0,3,2,4,5,6,7]
	pshufhw	$177, %xmm2, %xmm2              # xmm2 = xmm2[0,1,2,3,5,4,7,6]
	pxor	%xmm2, %xmm7
	movdqa	%xmm7, %xmm10
	movdqa	(%rsp), %xmm3                   # 16-byte Reload
	pxor	%xmm13, %xmm3
	pxor	%xmm9, %xmm13
	pshufd	$78, %xmm8, %xmm2               # xmm2 = xmm8[2,3,0,1]
	pxor	%xmm9, %xmm8
	pxor	%xmm6, %xmm13
	pxor	%xmm0, %xmm14
	pxor	%xmm3, %xmm15
	movdqa	%xmm3, %xmm9
	pshuflw	$177, %xmm2, %xmm2              # xmm2 = xmm2[1,0,3,2,4,5,6,7]
	pshufhw	$177, %xmm2, %xmm2              # xmm2 = xmm2[0,1,2,3,5,4,7,6]
	pxor	%xmm2, %xmm8
	pshufd	$78, %xmm11, %xmm2              # xmm2 = xmm11[2,3,0,1]
	pshuflw	$177, %xmm2, %xmm2              # xmm2 = xmm2[1,0,3,2,4,5,6,7]
	pshufhw	$177, %xmm2, %xmm2              # xmm2 = xmm2[0,1,2,3,5,4,7,6]
	pxor	%xmm4, %xmm11
	pshufd	$78, %xmm13, %xmm3              # xmm3 = xmm13[2,3,0,1]
	pshuflw	$177, %xmm3, %xmm3              # xmm3 = xmm3[1,0,3,2,4,5,6,7]
	pshufhw	$177, %xmm3, %xmm3              # xmm3 = xmm3[0,1,2,3,5,4,7,6]
	pxor	%xmm2, %xmm11
	pshufd	$78, %xmm1, %xmm2               # xmm2 = xmm1[2,3,0,1]
	pshuflw	$177, %xmm2, %xmm2              # xmm2 = xmm2[1,0,3,2,4,5,6,7]
	pshufhw	$177, %xmm2, %xmm2              # xmm2 = xmm2[0,1,2,3,5,4,7,6]
	pxor	%xmm0, %xmm13
	pshufd	$78, %xmm14, %xmm4              # xmm4 = xmm14[2,3,0,1]
	pshuflw	$177, %xmm4, %xmm4              # xmm4 = xmm4[1,0,3,2,4,5,6,7]
	pshufhw	$177, %xmm4, %xmm4              # xmm4 = xmm4[0,1,2,3,5,4,7,6]
	pxor	%xmm3, %xmm13
	pshufd	$78, %xmm15, %xmm3              # xmm3 = xmm15[2,3,0,1]
	pshuflw	$177, %xmm3, %xmm3              # xmm3 = xmm3[1,0,3,2,4,5,6,7]
	pshufhw	$177, %xmm3, %xmm3              # xmm3 = xmm3[0,1,2,3,5,4,7,6]
	pshuflw	$177, 16(%rsp), %xmm0           # 16-byte Folded Reload
                                        # xmm0 = mem[1,0,3,2,4,5,6,7]
	pshufhw	$177, %xmm0, %xmm0              # xmm0 = xmm0[0,1,2,3,5,4,7,6]
	pxor	%xmm9, %xmm1
	pxor	%xmm2, %xmm1
	pxor	%xmm5, %xmm14
	pxor	%xmm4, %xmm14
	pxor	%xmm6, %xmm15
	pxor	%xmm3, %xmm15
	pxor	%xmm0, %xmm12
	movdqa	%xmm14, %xmm0
	pxor	%xmm11, %xmm0
	movdqa	%xmm0, %xmm2
	movdqa	%xmm8, %xmm0
	pxor	%xmm8, %xmm11
	movdqa	%xmm11, %xmm7
	movdqa	%xmm11, 16(%rsp)                # 16-byte Spill
	pxor	%xmm10, %xmm8
	movdqa	%xmm15, %xmm9
	pxor	%xmm12, %xmm9
	movdqa	%xmm1, %xmm3
	pxor	%xmm15, %xmm3
	movdqa	%xmm14, %xmm4
	pxor	%xmm13, %xmm4
	pxor	%xmm15, %xmm0
	movdqa	%xmm0, 112(%rsp)                # 16-byte Spill
	pxor	%xmm0, %xmm4
	movdqa	%xmm4, 128(%rsp)                # 16-byte Spill
	movdqa	%xmm3, %xmm0
	movdqa	%xmm2, %xmm11
	pxor	%xmm2, %xmm0
	movdqa	%xmm0, 48(%rsp)                 # 16-byte Spill
	pxor	%xmm12, %xmm11
	movdqa	%xmm11, 208(%rsp)               # 16-byte Spill
	pxor	%xmm1, %xmm12
	pxor	%xmm13, %xmm1
	movdqa	%xmm1, %xmm0
	movdqa	%xmm1, %xmm5
	pxor	%xmm8, %xmm0
	movdqa	%xmm0, 80(%rsp)                 # 16-byte Spill
	por	%xmm4, %xmm0
	movdqa	%xmm1, %xmm6
	pxor	%xmm10, %xmm6
	movdqa	%xmm10, %xmm1
	movdqa	%xmm6, 224(%rsp)                # 16-byte Spill
	pand	%xmm3, %xmm6
	movdqa	%xmm3, %xmm10
	movdqa	%xmm3, 96(%rsp)                 # 16-byte Spill
	pxor	%xmm0, %xmm6
	pxor	%xmm12, %xmm15
	movdqa	%xmm15, %xmm0
	pxor	%xmm13, %xmm0
	movdqa	%xmm0, 176(%rsp)                # 16-byte Spill
	pxor	%xmm1, %xmm13
	movdqa	%xmm5, %xmm2
	pxor	%xmm7, %xmm2
	movdqa	%xmm0, %xmm1
	pand	%xmm2, %xmm1
	movdqa	%xmm2, %xmm0
	movdqa	%xmm2, 32(%rsp)                 # 16-byte Spill
	movdqa	%xmm9, %xmm7
	pxor	%xmm13, %xmm7
	movdqa	%xmm7, %xmm2
	pand	%xmm9, %xmm2
	movdqa	%xmm9, 144(%rsp)                # 16-byte Spill
	pxor	%xmm7, %xmm0
	movdqa	%xmm7, 64(%rsp)                 # 16-byte Spill
	pand	%xmm5, %xmm0
	pxor	%xmm0, %xmm1
	pxor	%xmm2, %xmm0
	movdqa	%xmm8, %xmm2
	movdqa	%xmm8, %xmm3
	pxor	%xmm10, %xmm2
	movdqa	112(%rsp), %xmm4                # 16-byte Reload
	pxor	%xmm13, %xmm4
	movdqa	%xmm2, %xmm8
	movdqa	%xmm2, %xmm10
	movdqa	%xmm2, (%rsp)                   # 16-byte Spill
	pand	%xmm11, %xmm8
	pxor	%xmm13, %xmm8
	pxor	%xmm9, %xmm3
	movdqa	%xmm3, 160(%rsp)                # 16-byte Spill
	movdqa	48(%rsp), %xmm2                 # 16-byte Reload
	pand	%xmm3, %xmm2
	movdqa	%xmm15, %xmm13
	pand	%xmm12, %xmm13
	pxor	%xmm2, %xmm8
	movdqa	16(%rsp), %xmm3                 # 16-byte Reload
	pxor	%xmm7, %xmm3
	movdqa	%xmm3, 16(%rsp)                 # 16-byte Spill
	pxor	%xmm3, %xmm13
	pxor	%xmm2, %xmm13
	pxor	%xmm1, %xmm6
	pxor	%xmm1, %xmm13
	movdqa	80(%rsp), %xmm7                 # 16-byte Reload
	movdqa	%xmm7, %xmm9
	pand	128(%rsp), %xmm9                # 16-byte Folded Reload
	movdqa	%xmm10, %xmm11
	pxor	%xmm14, %xmm11
	pxor	%xmm14, %xmm9
	movdqa	%xmm11, %xmm1
	pand	%xmm4, %xmm1
	pxor	%xmm1, %xmm9
	pxor	%xmm0, %xmm8
	pxor	%xmm5, %xmm9
	pxor	%xmm0, %xmm9
	movdqa	%xmm13, %xmm0
	pand	%xmm6, %xmm0
	movdqa	%xmm0, %xmm14
	pxor	%xmm8, %xmm14
	movdqa	%xmm9, %xmm1
	pxor	%xmm6, %xmm1
	movdqa	%xmm0, %xmm2
	pxor	%xmm9, %xmm2
	pand	%xmm1, %xmm14
	pxor	%xmm9, %xmm14
	pand	%xmm13, %xmm9
	pxor	%xmm8, %xmm13
	pand	%xmm13, %xmm9
	pand	%xmm13, %xmm2
	pxor	%xmm0, %xmm13
	pxor	%xmm9, %xmm13
	pxor	%xmm8, %xmm2
	movdqa	%xmm13, %xmm9
	pxor	%xmm2, %xmm9
	pand	%xmm9, %xmm7
	movdqa	%xmm7, 80(%rsp)                 # 16-byte Spill
	pand	128(%rsp), %xmm9                # 16-byte Folded Reload
	pand	%xmm2, %xmm4
	movdqa	%xmm4, 112(%rsp)                # 16-byte Spill
	movdqa	%xmm2, %xmm10
	pand	%xmm11, %xmm2
	pand	%xmm6, %xmm8
	pandn	%xmm1, %xmm8
	pxor	%xmm0, %xmm8
	pxor	%xmm14, %xmm10
	movdqa	96(%rsp), %xmm1                 # 16-byte Reload
	pand	%xmm13, %xmm1
	movdqa	%xmm1, 96(%rsp)                 # 16-byte Spill
	movdqa	208(%rsp), %xmm11               # 16-byte Reload
	pand	%xmm14, %xmm11
	movdqa	(%rsp), %xmm0                   # 16-byte Reload
	pand	%xmm14, %xmm0
	movdqa	%xmm0, (%rsp)                   # 16-byte Spill
	movdqa	224(%rsp), %xmm4                # 16-byte Reload
	pand	%xmm13, %xmm4
	pxor	%xmm8, %xmm13
	pand	%xmm8, %xmm12
	pxor	%xmm8, %xmm14
	pand	%xmm15, %xmm8
	movdqa	48(%rsp), %xmm6                 # 16-byte Reload
	pand	%xmm14, %xmm6
	pand	160(%rsp), %xmm14               # 16-byte Folded Reload
	pand	%xmm10, %xmm5
	movdqa	16(%rsp), %xmm3                 # 16-byte Reload
	pand	%xmm10, %xmm3
	pxor	%xmm13, %xmm10
	movdqa	32(%rsp), %xmm15                # 16-byte Reload
	pand	%xmm10, %xmm15
	pxor	%xmm4, %xmm15
	pxor	%xmm4, %xmm8
	pand	176(%rsp), %xmm10               # 16-byte Folded Reload
	movdqa	%xmm3, %xmm4
	pxor	112(%rsp), %xmm3                # 16-byte Folded Reload
	movdqa	%xmm3, 16(%rsp)                 # 16-byte Spill
	pxor	%xmm1, %xmm4
	pxor	%xmm7, %xmm4
	movdqa	64(%rsp), %xmm1                 # 16-byte Reload
	pand	%xmm13, %xmm1
	movdqa	%xmm1, 64(%rsp)                 # 16-byte Spill
	movdqa	%xmm6, %xmm3
	pxor	%xmm2, %xmm3
	pxor	%xmm4, %xmm15
	movdqa	%xmm15, 32(%rsp)                # 16-byte Spill
	movdqa	%xmm10, %xmm15
	pxor	%xmm1, %xmm15
	pxor	%xmm15, %xmm4
	movdqa	-240(%r12,%rax), %xmm7
	pxor	%xmm9, %xmm7
	movdqa	%xmm3, %xmm0
	pxor	%xmm4, %xmm0
	movdqa	%xmm0, 112(%rsp)                # 16-byte Spill
	pxor	%xmm4, %xmm6
	movdqa	%xmm6, 48(%rsp)                 # 16-byte Spill
	pxor	%xmm9, %xmm4
	pxor	%xmm8, %xmm9
	pxor	16(%rsp), %xmm9                 # 16-byte Folded Reload
	pand	144(%rsp), %xmm13               # 16-byte Folded Reload
	movdqa	%xmm11, %xmm0
	pxor	%xmm11, %xmm12
	movdqa	%xmm12, %xmm1
	movdqa	(%rsp), %xmm11                  # 16-byte Reload
	pxor	%xmm11, %xmm1
	pxor	-256(%r12,%rax), %xmm5
	pxor	%xmm13, %xmm14
	pxor	%xmm14, %xmm11
	pxor	%xmm5, %xmm11
	movdqa	%xmm11, (%rsp)                  # 16-byte Spill
	movdqa	32(%rsp), %xmm6                 # 16-byte Reload
	pxor	%xmm6, %xmm10
	pxor	%xmm7, %xmm10
	pxor	-224(%r12,%rax), %xmm8
	movdqa	112(%rsp), %xmm7                # 16-byte Reload
	pxor	%xmm8, %xmm7
	pxor	%xmm1, %xmm3
	pxor	%xmm6, %xmm3
	pxor	-208(%r12,%rax), %xmm13
	pxor	%xmm13, %xmm3
	pxor	-192(%r12,%rax), %xmm0
	movdqa	48(%rsp), %xmm13                # 16-byte Reload
	pxor	%xmm0, %xmm13
	movdqa	80(%rsp), %xmm0                 # 16-byte Reload
	pxor	-176(%r12,%rax), %xmm0
	pxor	%xmm15, %xmm1
	pxor	%xmm9, %xmm1
	pxor	%xmm0, %xmm1
	movdqa	96(%rsp), %xmm0                 # 16-byte Reload
	pxor	-160(%r12,%rax), %xmm0
	pxor	64(%rsp), %xmm12                # 16-byte Folded Reload
	pxor	%xmm14, %xmm12
	pxor	%xmm9, %xmm12
	pxor	-144(%r12,%rax), %xmm2
	pxor	%xmm0, %xmm12
	pxor	%xmm2, %xmm4
	pshufd	$198, %xmm11, %xmm0             # xmm0 = xmm11[2,1,0,3]
	pshuflw	$27, %xmm0, %xmm0               # xmm0 = xmm0[3,2,1,0,4,5,6,7]
	pshufhw	$27, %xmm0, %xmm15              # xmm15 = xmm0[0,1,2,3,7,6,5,4]
	pshufd	$198, %xmm10, %xmm0             # xmm0 = xmm10[2,1,0,3]
	pshuflw	$27, %xmm0, %xmm0               # xmm0 = xmm0[3,2,1,0,4,5,6,7]
	pshufhw	$27, %xmm0, %xmm0               # xmm0 = xmm0[0,1,2,3,7,6,5,4]
	pshufd	$198, %xmm7, %xmm2              # xmm2 = xmm7[2,1,0,3]
	movdqa	%xmm7, %xmm9
	pshuflw	$27, %xmm2, %xmm2               # xmm2 = xmm2[3,2,1,0,4,5,6,7]
	pshufhw	$27, %xmm2, %xmm8               # xmm8 = xmm2[0,1,2,3,7,6,5,4]
	pshufd	$198, %xmm3, %xmm2              # xmm2 = xmm3[2,1,0,3]
	pshuflw	$27, %xmm2, %xmm2               # xmm2 = xmm2[3,2,1,0,4,5,6,7]
	pshufhw	$27, %xmm2, %xmm14              # xmm14 = xmm2[0,1,2,3,7,6,5,4]
	pshufd	$198, %xmm13, %xmm2             # xmm2 = xmm13[2,1,0,3]
	pshuflw	$27, %xmm2, %xmm2               # xmm2 = xmm2[3,2,1,0,4,5,6,7]
	pshufhw	$27, %xmm2, %xmm6               # xmm6 = xmm2[0,1,2,3,7,6,5,4]
	pshufd	$198, %xmm1, %xmm2              # xmm2 = xmm1[2,1,0,3]
	pshuflw	$27, %xmm2, %xmm2               # xmm2 = xmm2[3,2,1,0,4,5,6,7]
	pshufhw	$27, %xmm2, %xmm11              # xmm11 = xmm2[0,1,2,3,7,6,5,4]
	pshufd	$198, %xmm12, %xmm2             # xmm2 = xmm12[2,1,0,3]
	pshuflw	$27, %xmm2, %xmm2               # xmm2 = xmm2[3,2,1,0,4,5,6,7]
	pshufhw	$27, %xmm2, %xmm7               # xmm7 = xmm2[0,1,2,3,7,6,5,4]
	pshufd	$198, %xmm4, %xmm2              # xmm2 = xmm4[2,1,0,3]
	pshuflw	$27, %xmm2, %xmm2               # xmm2 = xmm2[3,2,1,0,4,5,6,7]
	pshufhw	$27, %xmm2, %xmm5               # xmm5 = xmm2[0,1,2,3,7,6,5,4]
	movdqa	(%rsp), %xmm2                   # 16-byte Reload
	pxor	%xmm2, %xmm15
	pxor	%xmm10, %xmm0
	pxor	%xmm9, %xmm8
	pxor	%xmm3, %xmm14
	movdqa	%xmm14, 112(%rsp)               # 16-byte Spill
	pxor	%xmm13, %xmm6
	pxor	%xmm1, %xmm11
	pxor	%xmm12, %xmm7
	pxor	%xmm4, %xmm5
	pxor	%xmm5, %xmm2
	pxor	%xmm5, %xmm10
	pxor	%xmm0, %xmm9
	pxor	%xmm5, %xmm3
	pxor	%xmm8, %xmm3
	pxor	%xmm5, %xmm13
	pxor	%xmm6, %xmm1
	pxor	%xmm11, %xmm12
	pxor	%xmm7, %xmm4
	pxor	%xmm2, %xmm8
	pxor	%xmm4, %xmm8
	pxor	%xmm4, %xmm11
	pxor	%xmm1, %xmm5
	pshufd	$78, %xmm5, %xmm14              # xmm14 = xmm5[2,3,0,1]
	movdqa	%xmm14, (%rsp)                  # 16-byte Spill
	pxor	%xmm4, %xmm5
	pxor	%xmm12, %xmm4
	pxor	%xmm4, %xmm0
	pxor	%xmm9, %xmm6
	pxor	%xmm4, %xmm6
	pxor	%xmm15, %xmm10
	pxor	%xmm12, %xmm15
	pshufd	$78, %xmm15, %xmm4              # xmm4 = xmm15[2,3,0,1]
	pxor	%xmm2, %xmm15
	pxor	%xmm4, %xmm15
	movdqa	112(%rsp), %xmm2                # 16-byte Reload
	pxor	%xmm2, %xmm13
	pxor	%xmm10, %xmm2
	pshufd	$78, %xmm0, %xmm4               # xmm4 = xmm0[2,3,0,1]
	pxor	%xmm10, %xmm0
	pxor	%xmm12, %xmm2
	pxor	%xmm3, %xmm11
	pxor	%xmm13, %xmm7
	pxor	%xmm4, %xmm0
	movdqa	%xmm8, %xmm14
	pshufd	$78, %xmm8, %xmm4               # xmm4 = xmm8[2,3,0,1]
	pxor	%xmm9, %xmm14
	pshufd	$78, %xmm2, %xmm9               # xmm9 = xmm2[2,3,0,1]
	pxor	%xmm4, %xmm14
	pshufd	$78, %xmm6, %xmm4               # xmm4 = xmm6[2,3,0,1]
	pxor	%xmm3, %xmm2
	pshufd	$78, %xmm11, %xmm3              # xmm3 = xmm11[2,3,0,1]
	pxor	%xmm9, %xmm2
	movdqa	%xmm2, %xmm8
	pshufd	$78, %xmm7, %xmm9               # xmm9 = xmm7[2,3,0,1]
	pxor	%xmm13, %xmm6
	pxor	%xmm4, %xmm6
	pxor	%xmm1, %xmm11
	pxor	%xmm3, %xmm11
	pxor	%xmm12, %xmm7
	pxor	%xmm9, %xmm7
	pxor	(%rsp), %xmm5                   # 16-byte Folded Reload
	movdqa	%xmm11, %xmm12
	pxor	%xmm14, %xmm12
	movdqa	%xmm0, %xmm2
	pxor	%xmm0, %xmm14
	movdqa	%xmm0, %xmm4
	pxor	%xmm15, %xmm4
	movdqa	%xmm7, %xmm9
	pxor	%xmm5, %xmm9
	movdqa	%xmm6, %xmm3
	pxor	%xmm7, %xmm3
	movdqa	%xmm11, %xmm13
	pxor	%xmm8, %xmm13
	pxor	%xmm7, %xmm2
	movdqa	%xmm2, 112(%rsp)                # 16-byte Spill
	pxor	%xmm2, %xmm13
	movdqa	%xmm3, %xmm0
	movdqa	%xmm3, 96(%rsp)                 # 16-byte Spill
	pxor	%xmm12, %xmm0
	movdqa	%xmm0, 16(%rsp)                 # 16-byte Spill
	pxor	%xmm5, %xmm12
	movdqa	%xmm12, 32(%rsp)                # 16-byte Spill
	pxor	%xmm6, %xmm5
	movdqa	%xmm5, 160(%rsp)                # 16-byte Spill
	pxor	%xmm8, %xmm6
	movdqa	%xmm6, %xmm0
	pxor	%xmm4, %xmm0
	movdqa	%xmm0, 48(%rsp)                 # 16-byte Spill
	por	%xmm13, %xmm0
	movdqa	%xmm6, %xmm10
	pxor	%xmm15, %xmm10
	movdqa	%xmm10, 176(%rsp)               # 16-byte Spill
	pand	%xmm3, %xmm10
	pxor	%xmm0, %xmm10
	pxor	%xmm5, %xmm7
	movdqa	%xmm7, %xmm1
	movdqa	%xmm7, 224(%rsp)                # 16-byte Spill
	movdqa	%xmm8, %xmm5
	pxor	%xmm8, %xmm1
	movdqa	%xmm1, 144(%rsp)                # 16-byte Spill
	pxor	%xmm15, %xmm5
	movdqa	%xmm6, %xmm2
	movdqa	%xmm6, %xmm15
	pxor	%xmm14, %xmm2
	pand	%xmm2, %xmm1
	movdqa	%xmm2, 64(%rsp)                 # 16-byte Spill
	movdqa	%xmm4, %xmm6
	movdqa	%xmm4, 80(%rsp)                 # 16-byte Spill
	pxor	%xmm3, %xmm6
	movdqa	112(%rsp), %xmm8                # 16-byte Reload
	pxor	%xmm5, %xmm8
	movdqa	%xmm6, %xmm4
	movdqa	%xmm6, (%rsp)                   # 16-byte Spill
	pand	%xmm12, %xmm4
	pxor	%xmm5, %xmm4
	pxor	%xmm9, %xmm5
	movdqa	%xmm5, %xmm3
	pand	%xmm9, %xmm3
	movdqa	%xmm9, 128(%rsp)                # 16-byte Spill
	movdqa	%xmm2, %xmm0
	pxor	%xmm5, %xmm0
	movdqa	%xmm5, 112(%rsp)                # 16-byte Spill
	pand	%xmm15, %xmm0
	movdqa	%xmm15, %xmm12
	pxor	%xmm0, %xmm1
	pxor	%xmm3, %xmm0
	movdqa	80(%rsp), %xmm2                 # 16-byte Reload
	pxor	%xmm9, %xmm2
	movdqa	%xmm2, 80(%rsp)                 # 16-byte Spill
	movdqa	16(%rsp), %xmm3                 # 16-byte Reload
	pand	%xmm2, %xmm3
	movdqa	%xmm7, %xmm9
	movdqa	160(%rsp), %xmm7                # 16-byte Reload
	pand	%xmm7, %xmm9
	pxor	%xmm3, %xmm4
	movdqa	%xmm14, %xmm15
	pxor	%xmm5, %xmm15
	pxor	%xmm15, %xmm9
	pxor	%xmm3, %xmm9
	pxor	%xmm1, %xmm10
	pxor	%xmm1, %xmm9
	movdqa	48(%rsp), %xmm2                 # 16-byte Reload
	movdqa	%xmm2, %xmm3
	pand	%xmm13, %xmm3
	movdqa	%xmm6, %xmm5
	pxor	%xmm11, %xmm5
	pxor	%xmm11, %xmm3
	movdqa	%xmm5, %xmm1
	pand	%xmm8, %xmm1
	movdqa	%xmm8, %xmm11
	pxor	%xmm1, %xmm3
	pxor	%xmm0, %xmm4
	pxor	%xmm12, %xmm3
	movdqa	%xmm12, %xmm6
	pxor	%xmm0, %xmm3
	movdqa	%xmm9, %xmm12
	pand	%xmm10, %xmm12
	movdqa	%xmm12, %xmm0
	pxor	%xmm4, %xmm0
	movdqa	%xmm3, %xmm1
	pxor	%xmm10, %xmm1
	movdqa	%xmm12, %xmm8
	pxor	%xmm3, %xmm8
	pand	%xmm1, %xmm0
	pxor	%xmm3, %xmm0
	pand	%xmm9, %xmm3
	pxor	%xmm4, %xmm9
	pand	%xmm9, %xmm3
	pand	%xmm9, %xmm8
	pxor	%xmm12, %xmm9
	pxor	%xmm3, %xmm9
	pxor	%xmm4, %xmm8
	movdqa	%xmm9, %xmm3
	pxor	%xmm8, %xmm3
	pand	%xmm3, %xmm2
	movdqa	%xmm2, 48(%rsp)                 # 16-byte Spill
	pand	%xmm13, %xmm3
	movdqa	%xmm11, %xmm13
	pand	%xmm8, %xmm13
	movdqa	%xmm8, %xmm2
	pand	%xmm5, %xmm8
	pand	%xmm10, %xmm4
	pandn	%xmm1, %xmm4
	pxor	%xmm12, %xmm4
	pxor	%xmm0, %xmm2
	movdqa	96(%rsp), %xmm1                 # 16-byte Reload
	pand	%xmm9, %xmm1
	movdqa	%xmm1, 96(%rsp)                 # 16-byte Spill
	movdqa	32(%rsp), %xmm5                 # 16-byte Reload
	pand	%xmm0, %xmm5
	movdqa	%xmm5, 32(%rsp)                 # 16-byte Spill
	movdqa	(%rsp), %xmm5                   # 16-byte Reload
	pand	%xmm0, %xmm5
	movdqa	%xmm5, (%rsp)                   # 16-byte Spill
	movdqa	176(%rsp), %xmm10               # 16-byte Reload
	pand	%xmm9, %xmm10
	pxor	%xmm4, %xmm9
	pand	%xmm4, %xmm7
	pxor	%xmm4, %xmm0
	pand	224(%rsp), %xmm4                # 16-byte Folded Reload
	movdqa	16(%rsp), %xmm14                # 16-byte Reload
	pand	%xmm0, %xmm14
	pand	80(%rsp), %xmm0                 # 16-byte Folded Reload
	pand	%xmm2, %xmm6
	movdqa	%xmm6, 80(%rsp)                 # 16-byte Spill
	pand	%xmm2, %xmm15
	pxor	%xmm9, %xmm2
	movdqa	64(%rsp), %xmm5                 # 16-byte Reload
	pand	%xmm2, %xmm5
	pxor	%xmm10, %xmm5
	pxor	%xmm10, %xmm4
	pand	144(%rsp), %xmm2                # 16-byte Folded Reload
	movdqa	%xmm15, %xmm10
	pxor	%xmm13, %xmm15
	pxor	%xmm1, %xmm10
	pxor	48(%rsp), %xmm10                # 16-byte Folded Reload
	movdqa	112(%rsp), %xmm11               # 16-byte Reload
	pand	%xmm9, %xmm11
	movdqa	%xmm14, %xmm12
	movdqa	%xmm14, %xmm1
	pxor	%xmm8, %xmm12
	pxor	%xmm10, %xmm5
	movdqa	%xmm5, 64(%rsp)                 # 16-byte Spill
	movdqa	%xmm2, %xmm5
	pxor	%xmm11, %xmm5
	movdqa	%xmm5, 112(%rsp)                # 16-byte Spill
	pxor	%xmm5, %xmm10
	movdqa	-368(%r12,%rax), %xmm14
	pxor	%xmm3, %xmm14
	movdqa	%xmm12, %xmm13
	pxor	%xmm10, %xmm13
	pxor	%xmm10, %xmm1
	movdqa	%xmm1, 16(%rsp)                 # 16-byte Spill
	pxor	%xmm3, %xmm10
	movdqa	%xmm3, %xmm5
	pxor	%xmm4, %xmm5
	pxor	%xmm15, %xmm5
	pand	128(%rsp), %xmm9                # 16-byte Folded Reload
	movdqa	32(%rsp), %xmm1                 # 16-byte Reload
	pxor	%xmm1, %xmm7
	movdqa	%xmm7, %xmm3
	movdqa	%xmm7, %xmm15
	movdqa	(%rsp), %xmm7                   # 16-byte Reload
	pxor	%xmm7, %xmm3
	pxor	%xmm9, %xmm0
	movdqa	80(%rsp), %xmm6                 # 16-byte Reload
	pxor	-384(%r12,%rax), %xmm6
	pxor	%xmm0, %xmm7
	pxor	%xmm6, %xmm7
	movdqa	64(%rsp), %xmm6                 # 16-byte Reload
	pxor	%xmm6, %xmm2
	pxor	%xmm14, %xmm2
	pxor	-352(%r12,%rax), %xmm4
	pxor	%xmm4, %xmm13
	pxor	%xmm3, %xmm12
	pxor	%xmm6, %xmm12
	pxor	-336(%r12,%rax), %xmm9
	pxor	%xmm9, %xmm12
	pxor	-320(%r12,%rax), %xmm1
	movdqa	48(%rsp), %xmm4                 # 16-byte Reload
	pxor	-304(%r12,%rax), %xmm4
	movdqa	16(%rsp), %xmm14                # 16-byte Reload
	pxor	%xmm1, %xmm14
	pxor	112(%rsp), %xmm3                # 16-byte Folded Reload
	pxor	%xmm5, %xmm3
	pxor	%xmm4, %xmm3
	movdqa	%xmm3, %xmm9
	movdqa	96(%rsp), %xmm1                 # 16-byte Reload
	pxor	-288(%r12,%rax), %xmm1
	pxor	%xmm11, %xmm15
	pxor	%xmm0, %xmm15
	pxor	%xmm5, %xmm15
	pxor	%xmm1, %xmm15
	pxor	-272(%r12,%rax), %xmm8
	pxor	%xmm8, %xmm10
	movdqa	%xmm7, %xmm4
	movdqa	%xmm7, (%rsp)                   # 16-byte Spill
	movdqa	%xmm7, %xmm0
	pxor	%xmm5, %xmm5
	punpcklbw	%xmm5, %xmm0            # xmm0 = xmm0[0],xmm5[0],xmm0[1],xmm5[1],xmm0[2],xmm5[2],xmm0[3],xmm5[3],xmm0[4],xmm5[4],xmm0[5],xmm5[5],xmm0[6],xmm5[6],xmm0[7],xmm5[7]
	pshuflw	$57, %xmm0, %xmm1               # xmm1 = xmm0[1,2,3,0,4,5,6,7]
	punpckhbw	%xmm5, %xmm4            # xmm4 = xmm4[8],xmm5[8],xmm4[9],xmm5[9],xmm4[10],xmm5[10],xmm4[11],xmm5[11],xmm4[12],xmm5[12],xmm4[13],xmm5[13],xmm4[14],xmm5[14],xmm4[15],xmm5[15]
	pxor	%xmm8, %xmm8
	pshufhw	$57, %xmm4, %xmm5               # xmm5 = xmm4[0,1,2,3,5,6,7,4]
	pshufd	$238, %xmm5, %xmm5              # xmm5 = xmm5[2,3,2,3]
	punpcklqdq	%xmm1, %xmm5            # xmm5 = xmm5[0],xmm1[0]
	pshuflw	$57, %xmm4, %xmm1               # xmm1 = xmm4[1,2,3,0,4,5,6,7]
	pshufhw	$57, %xmm0, %xmm0               # xmm0 = xmm0[0,1,2,3,5,6,7,4]
	pshufd	$238, %xmm0, %xmm11             # xmm11 = xmm0[2,3,2,3]
	punpcklqdq	%xmm1, %xmm11           # xmm11 = xmm11[0],xmm1[0]
	packuswb	%xmm5, %xmm11
	movdqa	%xmm2, %xmm0
	punpcklbw	%xmm8, %xmm0            # xmm0 = xmm0[0],xmm8[0],xmm0[1],xmm8[1],xmm0[2],xmm8[2],xmm0[3],xmm8[3],xmm0[4],xmm8[4],xmm0[5],xmm8[5],xmm0[6],xmm8[6],xmm0[7],xmm8[7]
	pshuflw	$57, %xmm0, %xmm1               # xmm1 = xmm0[1,2,3,0,4,5,6,7]
	movdqa	%xmm2, %xmm4
	punpckhbw	%xmm8, %xmm4            # xmm4 = xmm4[8],xmm8[8],xmm4[9],xmm8[9],xmm4[10],xmm8[10],xmm4[11],xmm8[11],xmm4[12],xmm8[12],xmm4[13],xmm8[13],xmm4[14],xmm8[14],xmm4[15],xmm8[15]
	pshufhw	$57, %xmm4, %xmm5               # xmm5 = xmm4[0,1,2,3,5,6,7,4]
	pshufd	$238, %xmm5, %xmm6              # xmm6 = xmm5[2,3,2,3]
	punpcklqdq	%xmm1, %xmm6            # xmm6 = xmm6[0],xmm1[0]
	pshuflw	$57, %xmm4, %xmm1               # xmm1 = xmm4[1,2,3,0,4,5,6,7]
	pshufhw	$57, %xmm0, %xmm0               # xmm0 = xmm0[0,1,2,3,5,6,7,4]
	pshufd	$238, %xmm0, %xmm5              # xmm5 = xmm0[2,3,2,3]
	punpcklqdq	%xmm1, %xmm5            # xmm5 = xmm5[0],xmm1[0]
	packuswb	%xmm6, %xmm5
	movdqa	%xmm13, 80(%rsp)                # 16-byte Spill
	movdqa	%xmm13, %xmm0
	punpcklbw	%xmm8, %xmm0            # xmm0 = xmm0[0],xmm8[0],xmm0[1],xmm8[1],xmm0[2],xmm8[2],xmm0[3],xmm8[3],xmm0[4],xmm8[4],xmm0[5],xmm8[5],xmm0[6],xmm8[6],xmm0[7],xmm8[7]
	pshuflw	$57, %xmm0, %xmm1               # xmm1 = xmm0[1,2,3,0,4,5,6,7]
	punpckhbw	%xmm8, %xmm13           # xmm13 = xmm13[8],xmm8[8],xmm13[9],xmm8[9],xmm13[10],xmm8[10],xmm13[11],xmm8[11],xmm13[12],xmm8[12],xmm13[13],xmm8[13],xmm13[14],xmm8[14],xmm13[15],xmm8[15]
	pshufhw	$57, %xmm13, %xmm6              # xmm6 = xmm13[0,1,2,3,5,6,7,4]
	pshufd	$238, %xmm6, %xmm6              # xmm6 = xmm6[2,3,2,3]
	punpcklqdq	%xmm1, %xmm6            # xmm6 = xmm6[0],xmm1[0]
	pshuflw	$57, %xmm13, %xmm1              # xmm1 = xmm13[1,2,3,0,4,5,6,7]
	pshufhw	$57, %xmm0, %xmm0               # xmm0 = xmm0[0,1,2,3,5,6,7,4]
	pshufd	$238, %xmm0, %xmm3              # xmm3 = xmm0[2,3,2,3]
	punpcklqdq	%xmm1, %xmm3            # xmm3 = xmm3[0],xmm1[0]
	packuswb	%xmm6, %xmm3
	movdqa	%xmm12, %xmm4
	movdqa	%xmm12, 64(%rsp)                # 16-byte Spill
	movdqa	%xmm12, %xmm0
	punpcklbw	%xmm8, %xmm0            # xmm0 = xmm0[0],xmm8[0],xmm0[1],xmm8[1],xmm0[2],xmm8[2],xmm0[3],xmm8[3],xmm0[4],xmm8[4],xmm0[5],xmm8[5],xmm0[6],xmm8[6],xmm0[7],xmm8[7]
	pshuflw	$57, %xmm0, %xmm1               # xmm1 = xmm0[1,2,3,0,4,5,6,7]
	punpckhbw	%xmm8, %xmm4            # xmm4 = xmm4[8],xmm8[8],xmm4[9],xmm8[9],xmm4[10],xmm8[10],xmm4[11],xmm8[11],xmm4[12],xmm8[12],xmm4[13],xmm8[13],xmm4[14],xmm8[14],xmm4[15],xmm8[15]
	pshufhw	$57, %xmm4, %xmm6               # xmm6 = xmm4[0,1,2,3,5,6,7,4]
	pshufd	$238, %xmm6, %xmm6              # xmm6 = xmm6[2,3,2,3]
	punpcklqdq	%xmm1, %xmm6            # xmm6 = xmm6[0],xmm1[0]
	pshuflw	$57, %xmm4, %xmm1               # xmm1 = xmm4[1,2,3,0,4,5,6,7]
	pshufhw	$57, %xmm0, %xmm0               # xmm0 = xmm0[0,1,2,3,5,6,7,4]
	pshufd	$238, %xmm0, %xmm13             # xmm13 = xmm0[2,3,2,3]
	punpcklqdq	%xmm1, %xmm13           # xmm13 = xmm13[0],xmm1[0]
	packuswb	%xmm6, %xmm13
	movdqa	%xmm14, %xmm0
	punpcklbw	%xmm8, %xmm0            # xmm0 = xmm0[0],xmm8[0],xmm0[1],xmm8[1],xmm0[2],xmm8[2],xmm0[3],xmm8[3],xmm0[4],xmm8[4],xmm0[5],xmm8[5],xmm0[6],xmm8[6],xmm0[7],xmm8[7]
	movdqa	%xmm14, %xmm1
	movdqa	%xmm14, %xmm7
	punpckhbw	%xmm8, %xmm1            # xmm1 = xmm1[8],xmm8[8],xmm1[9],xmm8[9],xmm1[10],xmm8[10],xmm1[11],xmm8[11],xmm1[12],xmm8[12],xmm1[13],xmm8[13],xmm1[14],xmm8[14],xmm1[15],xmm8[15]
	pshufhw	$57, %xmm1, %xmm4               # xmm4 = xmm1[0,1,2,3,5,6,7,4]
	pshufd	$238, %xmm4, %xmm4              # xmm4 = xmm4[2,3,2,3]
	pshuflw	$57, %xmm0, %xmm6               # xmm6 = xmm0[1,2,3,0,4,5,6,7]
	punpcklqdq	%xmm6, %xmm4            # xmm4 = xmm4[0],xmm6[0]
	pshuflw	$57, %xmm1, %xmm1               # xmm1 = xmm1[1,2,3,0,4,5,6,7]
	pshufhw	$57, %xmm0, %xmm0               # xmm0 = xmm0[0,1,2,3,5,6,7,4]
	pshufd	$238, %xmm0, %xmm12             # xmm12 = xmm0[2,3,2,3]
	punpcklqdq	%xmm1, %xmm12           # xmm12 = xmm12[0],xmm1[0]
	packuswb	%xmm4, %xmm12
	movdqa	%xmm9, %xmm1
	movdqa	%xmm9, 16(%rsp)                 # 16-byte Spill
	movdqa	%xmm9, %xmm0
	punpcklbw	%xmm8, %xmm0            # xmm0 = xmm0[0],xmm8[0],xmm0[1],xmm8[1],xmm0[2],xmm8[2],xmm0[3],xmm8[3],xmm0[4],xmm8[4],xmm0[5],xmm8[5],xmm0[6],xmm8[6],xmm0[7],xmm8[7]
	punpckhbw	%xmm8, %xmm1            # xmm1 = xmm1[8],xmm8[8],xmm1[9],xmm8[9],xmm1[10],xmm8[10],xmm1[11],xmm8[11],xmm1[12],xmm8[12],xmm1[13],xmm8[13],xmm1[14],xmm8[14],xmm1[15],xmm8[15]
	pshufhw	$57, %xmm1, %xmm4               # xmm4 = xmm1[0,1,2,3,5,6,7,4]
	pshufd	$238, %xmm4, %xmm4              # xmm4 = xmm4[2,3,2,3]
	pshuflw	$57, %xmm0, %xmm6               # xmm6 = xmm0[1,2,3,0,4,5,6,7]
	punpcklqdq	%xmm6, %xmm4            # xmm4 = xmm4[0],xmm6[0]
	pshuflw	$57, %xmm1, %xmm1               # xmm1 = xmm1[1,2,3,0,4,5,6,7]
	pshufhw	$57, %xmm0, %xmm0               # xmm0 = xmm0[0,1,2,3,5,6,7,4]
	pshufd	$238, %xmm0, %xmm14             # xmm14 = xmm0[2,3,2,3]
	punpcklqdq	%xmm1, %xmm14           # xmm14 = xmm14[0],xmm1[0]
	packuswb	%xmm4, %xmm14
	movdqa	%xmm15, %xmm0
	punpcklbw	%xmm8, %xmm0            # xmm0 = xmm0[0],xmm8[0],xmm0[1],xmm8[1],xmm0[2],xmm8[2],xmm0[3],xmm8[3],xmm0[4],xmm8[4],xmm0[5],xmm8[5],xmm0[6],xmm8[6],xmm0[7],xmm8[7]
	movdqa	%xmm15, %xmm1
	punpckhbw	%xmm8, %xmm1            # xmm1 = xmm1[8],xmm8[8],xmm1[9],xmm8[9],xmm1[10],xmm8[10],xmm1[11],xmm8[11],xmm1[12],xmm8[12],xmm1[13],xmm8[13],xmm1[14],xmm8[14],xmm1[15],xmm8[15]
	pshufhw	$57, %xmm1, %xmm4               # xmm4 = xmm1[0,1,2,3,5,6,7,4]
	pshufd	$238, %xmm4, %xmm4              # xmm4 = xmm4[2,3,2,3]
	pshuflw	$57, %xmm0, %xmm6               # xmm6 = xmm0[1,2,3,0,4,5,6,7]
	punpcklqdq	%xmm6, %xmm4            # xmm4 = xmm4[0],xmm6[0]
	pshuflw	$57, %xmm1, %xmm1               # xmm1 = xmm1[1,2,3,0,4,5,6,7]
	pshufhw	$57, %xmm0, %xmm0               # xmm0 = xmm0[0,1,2,3,5,6,7,4]
	pshufd	$238, %xmm0, %xmm9              # xmm9 = xmm0[2,3,2,3]
	punpcklqdq	%xmm1, %xmm9            # xmm9 = xmm9[0],xmm1[0]
	packuswb	%xmm4, %xmm9
	movdqa	%xmm10, %xmm0
	punpcklbw	%xmm8, %xmm0            # xmm0 = xmm0[0],xmm8[0],xmm0[1],xmm8[1],xmm0[2],xmm8[2],xmm0[3],xmm8[3],xmm0[4],xmm8[4],xmm0[5],xmm8[5],xmm0[6],xmm8[6],xmm0[7],xmm8[7]
	movdqa	%xmm10, %xmm1
	punpckhbw	%xmm8, %xmm1            # xmm1 = xmm1[8],xmm8[8],xmm1[9],xmm8[9],xmm1[10],xmm8[10],xmm1[11],xmm8[11],xmm1[12],xmm8[12],xmm1[13],xmm8[13],xmm1[14],xmm8[14],xmm1[15],xmm8[15]
	pshufhw	$57, %xmm1, %xmm4               # xmm4 = xmm1[0,1,2,3,5,6,7,4]
	pshufd	$238, %xmm4, %xmm4              # xmm4 = xmm4[2,3,2,3]
	pshuflw	$57, %xmm0, %xmm6               # xmm6 = xmm0[1,2,3,0,4,5,6,7]
	punpcklqdq	%xmm6, %xmm4            # xmm4 = xmm4[0],xmm6[0]
	pshuflw	$57, %xmm1, %xmm6               # xmm6 = xmm1[1,2,3,0,4,5,6,7]
	pshufhw	$57, %xmm0, %xmm0               # xmm0 = xmm0[0,1,2,3,5,6,7,4]
	pshufd	$238, %xmm0, %xmm1              # xmm1 = xmm0[2,3,2,3]
	punpcklqdq	%xmm6, %xmm1            # xmm1 = xmm1[0],xmm6[0]
	packuswb	%xmm4, %xmm1
	movdqa	(%rsp), %xmm6                   # 16-byte Reload
	pxor	%xmm6, %xmm11
	pxor	%xmm2, %xmm5
	movdqa	80(%rsp), %xmm8                 # 16-byte Reload
	pxor	%xmm8, %xmm3
	movdqa	64(%rsp), %xmm0                 # 16-byte Reload
	pxor	%xmm0, %xmm13
	pxor	%xmm7, %xmm12
	movdqa	16(%rsp), %xmm4                 # 16-byte Reload
	pxor	%xmm4, %xmm14
	pxor	%xmm15, %xmm9
	pxor	%xmm10, %xmm1
	pxor	%xmm1, %xmm6
	pxor	%xmm1, %xmm2
	pxor	%xmm5, %xmm8
	pxor	%xmm1, %xmm0
	pxor	%xmm3, %xmm0
	pxor	%xmm1, %xmm7
	pxor	%xmm12, %xmm4
	movdqa	%xmm4, 16(%rsp)                 # 16-byte Spill
	pxor	%xmm14, %xmm15
	pxor	%xmm9, %xmm10
	pxor	%xmm6, %xmm3
	pxor	%xmm10, %xmm3
	pxor	%xmm10, %xmm14
	pxor	%xmm4, %xmm1
	pshufd	$78, %xmm1, %xmm4               # xmm4 = xmm1[2,3,0,1]
	movdqa	%xmm4, (%rsp)                   # 16-byte Spill
	pxor	%xmm10, %xmm1
	pxor	%xmm15, %xmm10
	pxor	%xmm10, %xmm5
	pxor	%xmm8, %xmm12
	pxor	%xmm10, %xmm12
	pxor	%xmm11, %xmm2
	pxor	%xmm15, %xmm11
	pshufd	$78, %xmm11, %xmm4              # xmm4 = xmm11[2,3,0,1]
	pxor	%xmm6, %xmm11
	pshuflw	$177, %xmm4, %xmm4              # xmm4 = xmm4[1,0,3,2,4,5,6,7]
	pshufhw	$177, %xmm4, %xmm4              # xmm4 = xmm4[0,1,2,3,5,4,7,6]
	pxor	%xmm4, %xmm11
	pxor	%xmm13, %xmm7
	pxor	%xmm2, %xmm13
	pshufd	$78, %xmm5, %xmm4               # xmm4 = xmm5[2,3,0,1]
	pxor	%xmm2, %xmm5
	pxor	%xmm15, %xmm13
	pxor	%xmm0, %xmm14
	pxor	%xmm7, %xmm9
	pshuflw	$177, %xmm4, %xmm2              # xmm2 = xmm4[1,0,3,2,4,5,6,7]
	pshufhw	$177, %xmm2, %xmm2              # xmm2 = xmm2[0,1,2,3,5,4,7,6]
	pxor	%xmm2, %xmm5
	pshufd	$78, %xmm3, %xmm2               # xmm2 = xmm3[2,3,0,1]
	pshuflw	$177, %xmm2, %xmm2              # xmm2 = xmm2[1,0,3,2,4,5,6,7]
	pshufhw	$177, %xmm2, %xmm2              # xmm2 = xmm2[0,1,2,3,5,4,7,6]
	pxor	%xmm8, %xmm3
	pshufd	$78, %xmm13, %xmm4              # xmm4 = xmm13[2,3,0,1]
	pshuflw	$177, %xmm4, %xmm4              # xmm4 = xmm4[1,0,3,2,4,5,6,7]
	pshufhw	$177, %xmm4, %xmm4              # xmm4 = xmm4[0,1,2,3,5,4,7,6]
	pxor	%xmm2, %xmm3
	pshufd	$78, %xmm12, %xmm2              # xmm2 = xmm12[2,3,0,1]
	pshuflw	$177, %xmm2, %xmm2              # xmm2 = xmm2[1,0,3,2,4,5,6,7]
	pshufhw	$177, %xmm2, %xmm2              # xmm2 = xmm2[0,1,2,3,5,4,7,6]
	pxor	%xmm0, %xmm13
	pshufd	$78, %xmm14, %xmm6              # xmm6 = xmm14[2,3,0,1]
	pshuflw	$177, %xmm6, %xmm6              # xmm6 = xmm6[1,0,3,2,4,5,6,7]
	pshufhw	$177, %xmm6, %xmm6              # xmm6 = xmm6[0,1,2,3,5,4,7,6]
	pxor	%xmm4, %xmm13
	pshufd	$78, %xmm9, %xmm4               # xmm4 = xmm9[2,3,0,1]
	pshuflw	$177, %xmm4, %xmm4              # xmm4 = xmm4[1,0,3,2,4,5,6,7]
	pshufhw	$177, %xmm4, %xmm4              # xmm4 = xmm4[0,1,2,3,5,4,7,6]
	pshuflw	$177, (%rsp), %xmm0             # 16-byte Folded Reload
                                        # xmm0 = mem[1,0,3,2,4,5,6,7]
	pshufhw	$177, %xmm0, %xmm0              # xmm0 = xmm0[0,1,2,3,5,4,7,6]
	pxor	%xmm7, %xmm12
	pxor	%xmm2, %xmm12
	pxor	16(%rsp), %xmm14                # 16-byte Folded Reload
	pxor	%xmm6, %xmm14
	pxor	%xmm15, %xmm9
	pxor	%xmm4, %xmm9
	pxor	%xmm0, %xmm1
	movdqa	%xmm14, %xmm0
	pxor	%xmm3, %xmm0
	movdqa	%xmm5, %xmm8
	pxor	%xmm5, %xmm3
	movdqa	%xmm3, (%rsp)                   # 16-byte Spill
	movdqa	%xmm5, %xmm7
	pxor	%xmm11, %xmm7
	movdqa	%xmm9, %xmm6
	pxor	%xmm1, %xmm6
	movdqa	%xmm12, %xmm3
	pxor	%xmm9, %xmm3
	movdqa	%xmm14, %xmm4
	pxor	%xmm13, %xmm4
	pxor	%xmm9, %xmm8
	pxor	%xmm8, %xmm4
	movdqa	%xmm4, %xmm10
	movdqa	%xmm4, 160(%rsp)                # 16-byte Spill
	movdqa	%xmm3, %xmm5
	pxor	%xmm0, %xmm5
	pxor	%xmm1, %xmm0
	movdqa	%xmm0, 96(%rsp)                 # 16-byte Spill
	movdqa	%xmm12, %xmm0
	pxor	%xmm12, %xmm1
	pxor	%xmm13, %xmm0
	movdqa	%xmm0, %xmm12
	movdqa	%xmm0, %xmm4
	pxor	%xmm7, %xmm12
	movdqa	%xmm12, %xmm0
	por	%xmm10, %xmm0
	movdqa	%xmm4, %xmm10
	pxor	%xmm11, %xmm10
	movdqa	%xmm10, 144(%rsp)               # 16-byte Spill
	pand	%xmm3, %xmm10
	movdqa	%xmm3, %xmm15
	movdqa	%xmm3, 64(%rsp)                 # 16-byte Spill
	pxor	%xmm0, %xmm10
	pxor	%xmm1, %xmm9
	movdqa	%xmm9, 80(%rsp)                 # 16-byte Spill
	pxor	%xmm13, %xmm9
	movdqa	%xmm9, 128(%rsp)                # 16-byte Spill
	pxor	%xmm11, %xmm13
	movdqa	%xmm4, %xmm0
	pxor	(%rsp), %xmm0                   # 16-byte Folded Reload
	movdqa	%xmm9, %xmm2
	pand	%xmm0, %xmm2
	movdqa	%xmm0, 176(%rsp)                # 16-byte Spill
	movdqa	%xmm6, %xmm9
	pxor	%xmm13, %xmm6
	movdqa	%xmm6, %xmm3
	pand	%xmm9, %xmm3
	movdqa	%xmm9, %xmm11
	movdqa	%xmm9, 112(%rsp)                # 16-byte Spill
	pxor	%xmm6, %xmm0
	movdqa	%xmm6, 32(%rsp)                 # 16-byte Spill
	movdqa	%xmm4, 16(%rsp)                 # 16-byte Spill
	pand	%xmm4, %xmm0
	pxor	%xmm0, %xmm2
	pxor	%xmm3, %xmm0
	movdqa	%xmm7, %xmm3
	pxor	%xmm15, %xmm7
	pxor	%xmm13, %xmm8
	movdqa	%xmm8, %xmm9
	movdqa	%xmm7, %xmm15
	movdqa	%xmm7, %xmm8
	movdqa	%xmm7, 48(%rsp)                 # 16-byte Spill
	pand	96(%rsp), %xmm15                # 16-byte Folded Reload
	pxor	%xmm13, %xmm15
	movdqa	%xmm3, %xmm7
	pxor	%xmm11, %xmm7
	movdqa	%xmm7, 224(%rsp)                # 16-byte Spill
	movdqa	%xmm5, %xmm3
	pand	%xmm7, %xmm3
	movdqa	80(%rsp), %xmm7                 # 16-byte Reload
	pand	%xmm1, %xmm7
	pxor	%xmm3, %xmm15
	movdqa	(%rsp), %xmm11                  # 16-byte Reload
	pxor	%xmm6, %xmm11
	movdqa	%xmm11, (%rsp)                  # 16-byte Spill
	pxor	%xmm11, %xmm7
	pxor	%xmm3, %xmm7
	pxor	%xmm2, %xmm10
	pxor	%xmm2, %xmm7
	movdqa	%xmm12, %xmm2
	movdqa	160(%rsp), %xmm6                # 16-byte Reload
	pand	%xmm6, %xmm2
	movdqa	%xmm8, %xmm11
	pxor	%xmm14, %xmm11
	pxor	%xmm14, %xmm2
	movdqa	%xmm11, %xmm3
	pand	%xmm9, %xmm3
	pxor	%xmm3, %xmm2
	pxor	%xmm0, %xmm15
	pxor	%xmm4, %xmm2
	pxor	%xmm0, %xmm2
	movdqa	%xmm7, %xmm0
	pand	%xmm10, %xmm0
	movdqa	%xmm0, %xmm13
	pxor	%xmm15, %xmm13
	movdqa	%xmm2, %xmm3
	pxor	%xmm10, %xmm3
	movdqa	%xmm0, %xmm14
	pxor	%xmm2, %xmm14
	pand	%xmm3, %xmm13
	pxor	%xmm2, %xmm13
	pand	%xmm7, %xmm2
	pxor	%xmm15, %xmm7
	pand	%xmm7, %xmm2
	pand	%xmm7, %xmm14
	pxor	%xmm0, %xmm7
	pxor	%xmm2, %xmm7
	pxor	%xmm15, %xmm14
	movdqa	%xmm7, %xmm4
	pxor	%xmm14, %xmm4
	pand	%xmm4, %xmm12
	pand	%xmm6, %xmm4
	pand	%xmm14, %xmm9
	movdqa	%xmm9, 160(%rsp)                # 16-byte Spill
	movdqa	%xmm14, %xmm8
	pand	%xmm11, %xmm14
	pand	%xmm10, %xmm15
	pandn	%xmm3, %xmm15
	pxor	%xmm0, %xmm15
	pxor	%xmm13, %xmm8
	movdqa	64(%rsp), %xmm9                 # 16-byte Reload
	pand	%xmm7, %xmm9
	movdqa	%xmm9, 64(%rsp)                 # 16-byte Spill
	movdqa	96(%rsp), %xmm11                # 16-byte Reload
	pand	%xmm13, %xmm11
	movdqa	48(%rsp), %xmm0                 # 16-byte Reload
	pand	%xmm13, %xmm0
	movdqa	%xmm0, 48(%rsp)                 # 16-byte Spill
	movdqa	144(%rsp), %xmm0                # 16-byte Reload
	pand	%xmm7, %xmm0
	pxor	%xmm15, %xmm7
	pand	%xmm15, %xmm1
	pxor	%xmm15, %xmm13
	pand	80(%rsp), %xmm15                # 16-byte Folded Reload
	pand	%xmm13, %xmm5
	pand	224(%rsp), %xmm13               # 16-byte Folded Reload
	movdqa	16(%rsp), %xmm2                 # 16-byte Reload
	pand	%xmm8, %xmm2
	movdqa	%xmm2, 16(%rsp)                 # 16-byte Spill
	movdqa	(%rsp), %xmm2                   # 16-byte Reload
	pand	%xmm8, %xmm2
	pxor	%xmm7, %xmm8
	movdqa	176(%rsp), %xmm6                # 16-byte Reload
	pand	%xmm8, %xmm6
	pxor	%xmm0, %xmm6
	pxor	%xmm0, %xmm15
	pand	128(%rsp), %xmm8                # 16-byte Folded Reload
	movdqa	32(%rsp), %xmm10                # 16-byte Reload
	pand	%xmm7, %xmm10
	movdqa	%xmm10, 32(%rsp)                # 16-byte Spill
	pand	112(%rsp), %xmm7                # 16-byte Folded Reload
	movdqa	%xmm4, %xmm0
	pxor	%xmm14, %xmm0
	movdqa	%xmm2, %xmm3
	pxor	%xmm9, %xmm3
	pxor	%xmm12, %xmm3
	pxor	%xmm5, %xmm14
	pxor	%xmm3, %xmm6
	movdqa	%xmm11, %xmm9
	pxor	%xmm11, %xmm5
	movdqa	%xmm8, %xmm11
	pxor	%xmm10, %xmm11
	pxor	%xmm11, %xmm3
	pxor	%xmm7, %xmm13
	pxor	%xmm14, %xmm7
	movdqa	%xmm14, %xmm10
	movdqa	16(%rsp), %xmm14                # 16-byte Reload
	pxor	%xmm15, %xmm10
	pxor	%xmm3, %xmm10
	pxor	%xmm3, %xmm5
	pxor	%xmm0, %xmm3
	pxor	%xmm9, %xmm1
	pxor	160(%rsp), %xmm2                # 16-byte Folded Reload
	pxor	%xmm4, %xmm8
	pxor	%xmm4, %xmm15
	pxor	%xmm2, %xmm15
	movdqa	%xmm7, %xmm9
	movdqa	48(%rsp), %xmm0                 # 16-byte Reload
	pxor	%xmm0, %xmm14
	pxor	%xmm1, %xmm0
	pxor	%xmm0, %xmm12
	pxor	%xmm11, %xmm12
	pxor	%xmm0, %xmm9
	pxor	%xmm6, %xmm8
	pxor	%xmm6, %xmm9
	pxor	64(%rsp), %xmm1                 # 16-byte Folded Reload
	pxor	32(%rsp), %xmm1                 # 16-byte Folded Reload
	pxor	%xmm13, %xmm14
	pxor	%xmm13, %xmm1
	pxor	%xmm15, %xmm12
	pxor	%xmm15, %xmm1
	addq	$-512, %rax                     # imm = 0xFE00
	jne	LBB15_5
# %bb.6:                                # %"aes_soft::soft::ciphers::planes::DecryptPlaneCipher::process_planes::<#dadbdb3fdaf0a1b1>.exit"
                                        #   in Loop: Header=BB15_1 Depth=1
	pxor	(%r12), %xmm14
	pxor	16(%r12), %xmm8
	pxor	32(%r12), %xmm10
	pxor	48(%r12), %xmm9
	pxor	64(%r12), %xmm5
	pxor	80(%r12), %xmm12
	pxor	96(%r12), %xmm1
	pxor	112(%r12), %xmm3
	movdqa	%xmm14, %xmm2
	psrlw	$1, %xmm2
	pxor	%xmm8, %xmm2
	movdqa	%xmm9, %xmm11
	movdqa	l_CPI15_0(%rip), %xmm9          # xmm9 = [85,85,85,85,85,85,85,85,85,85,85,85,85,85,85,85]
	pand	%xmm9, %xmm2
	pxor	%xmm2, %xmm8
	paddb	%xmm2, %xmm2
	pxor	%xmm14, %xmm2
	movdqa	%xmm10, %xmm6
	psrlw	$1, %xmm6
	pxor	%xmm11, %xmm6
	pand	%xmm9, %xmm6
	pxor	%xmm6, %xmm11
	paddb	%xmm6, %xmm6
	pxor	%xmm10, %xmm6
	movdqa	%xmm5, %xmm7
	psrlw	$1, %xmm7
	pxor	%xmm12, %xmm7
	pand	%xmm9, %xmm7
	pxor	%xmm7, %xmm12
	paddb	%xmm7, %xmm7
	pxor	%xmm5, %xmm7
	movdqa	%xmm1, %xmm0
	psrlw	$1, %xmm0
	pxor	%xmm3, %xmm0
	pand	%xmm9, %xmm0
	pxor	%xmm0, %xmm3
	paddb	%xmm0, %xmm0
	pxor	%xmm1, %xmm0
	movdqa	%xmm2, %xmm5
	psrlw	$2, %xmm5
	pxor	%xmm6, %xmm5
	movdqa	l_CPI15_1(%rip), %xmm10         # xmm10 = [51,51,51,51,51,51,51,51,51,51,51,51,51,51,51,51]
	pand	%xmm10, %xmm5
	pxor	%xmm5, %xmm6
	psllw	$2, %xmm5
	pxor	%xmm2, %xmm5
	movdqa	%xmm7, %xmm1
	psrlw	$2, %xmm1
	pxor	%xmm0, %xmm1
	pand	%xmm10, %xmm1
	pxor	%xmm1, %xmm0
	psllw	$2, %xmm1
	pxor	%xmm7, %xmm1
	movdqa	%xmm8, %xmm9
	psrlw	$2, %xmm9
	pxor	%xmm11, %xmm9
	pand	%xmm10, %xmm9
	pxor	%xmm9, %xmm11
	psllw	$2, %xmm9
	pxor	%xmm8, %xmm9
	movdqa	%xmm12, %xmm2
	psrlw	$2, %xmm2
	pxor	%xmm3, %xmm2
	pand	%xmm10, %xmm2
	pxor	%xmm2, %xmm3
	psllw	$2, %xmm2
	pxor	%xmm12, %xmm2
	movdqa	%xmm5, %xmm8
	psrlw	$4, %xmm8
	pxor	%xmm1, %xmm8
	movdqa	l_CPI15_2(%rip), %xmm10         # xmm10 = [15,15,15,15,15,15,15,15,15,15,15,15,15,15,15,15]
	pand	%xmm10, %xmm8
	pxor	%xmm8, %xmm1
	psllw	$4, %xmm8
	pxor	%xmm5, %xmm8
	movdqa	%xmm9, %xmm7
	psrlw	$4, %xmm7
	pxor	%xmm2, %xmm7
	pand	%xmm10, %xmm7
	pxor	%xmm7, %xmm2
	psllw	$4, %xmm7
	pxor	%xmm9, %xmm7
	movdqa	%xmm6, %xmm5
	psrlw	$4, %xmm5
	pxor	%xmm0, %xmm5
	pand	%xmm10, %xmm5
	pxor	%xmm5, %xmm0
	psllw	$4, %xmm5
	pxor	%xmm6, %xmm5
	movdqa	%xmm11, %xmm4
	psrlw	$4, %xmm4
	pxor	%xmm3, %xmm4
	pand	%xmm10, %xmm4
	pxor	%xmm4, %xmm3
	psllw	$4, %xmm4
	pxor	%xmm11, %xmm4
	movdqa	%xmm8, %xmm6
	pxor	%xmm11, %xmm11
	punpckhbw	%xmm11, %xmm6           # xmm6 = xmm6[8],xmm11[8],xmm6[9],xmm11[9],xmm6[10],xmm11[10],xmm6[11],xmm11[11],xmm6[12],xmm11[12],xmm6[13],xmm11[13],xmm6[14],xmm11[14],xmm6[15],xmm11[15]
	pshufd	$231, %xmm6, %xmm9              # xmm9 = xmm6[3,1,2,3]
	pshuflw	$114, %xmm9, %xmm9              # xmm9 = xmm9[2,0,3,1,4,5,6,7]
	punpcklbw	%xmm11, %xmm8           # xmm8 = xmm8[0],xmm11[0],xmm8[1],xmm11[1],xmm8[2],xmm11[2],xmm8[3],xmm11[3],xmm8[4],xmm11[4],xmm8[5],xmm11[5],xmm8[6],xmm11[6],xmm8[7],xmm11[7]
	pshufd	$231, %xmm8, %xmm10             # xmm10 = xmm8[3,1,2,3]
	pshuflw	$114, %xmm10, %xmm10            # xmm10 = xmm10[2,0,3,1,4,5,6,7]
	punpckldq	%xmm9, %xmm10           # xmm10 = xmm10[0],xmm9[0],xmm10[1],xmm9[1]
	pshufd	$232, %xmm6, %xmm6              # xmm6 = xmm6[0,2,2,3]
	pshuflw	$216, %xmm6, %xmm6              # xmm6 = xmm6[0,2,1,3,4,5,6,7]
	pshufd	$232, %xmm8, %xmm8              # xmm8 = xmm8[0,2,2,3]
	pshuflw	$216, %xmm8, %xmm8              # xmm8 = xmm8[0,2,1,3,4,5,6,7]
	punpckldq	%xmm6, %xmm8            # xmm8 = xmm8[0],xmm6[0],xmm8[1],xmm6[1]
	packuswb	%xmm10, %xmm8
	movq	512(%rsp), %rax                 # 8-byte Reload
	movdqu	%xmm8, (%r14,%rax)
	movdqa	%xmm7, %xmm6
	punpckhbw	%xmm11, %xmm6           # xmm6 = xmm6[8],xmm11[8],xmm6[9],xmm11[9],xmm6[10],xmm11[10],xmm6[11],xmm11[11],xmm6[12],xmm11[12],xmm6[13],xmm11[13],xmm6[14],xmm11[14],xmm6[15],xmm11[15]
	pshufd	$231, %xmm6, %xmm8              # xmm8 = xmm6[3,1,2,3]
	pshuflw	$114, %xmm8, %xmm8              # xmm8 = xmm8[2,0,3,1,4,5,6,7]
	punpcklbw	%xmm11, %xmm7           # xmm7 = xmm7[0],xmm11[0],xmm7[1],xmm11[1],xmm7[2],xmm11[2],xmm7[3],xmm11[3],xmm7[4],xmm11[4],xmm7[5],xmm11[5],xmm7[6],xmm11[6],xmm7[7],xmm11[7]
	pshufd	$231, %xmm7, %xmm9              # xmm9 = xmm7[3,1,2,3]
	pshuflw	$114, %xmm9, %xmm9              # xmm9 = xmm9[2,0,3,1,4,5,6,7]
	punpckldq	%xmm8, %xmm9            # xmm9 = xmm9[0],xmm8[0],xmm9[1],xmm8[1]
	pshufd	$232, %xmm6, %xmm6              # xmm6 = xmm6[0,2,2,3]
	pshuflw	$216, %xmm6, %xmm6              # xmm6 = xmm6[0,2,1,3,4,5,6,7]
	pshufd	$232, %xmm7, %xmm7              # xmm7 = xmm7[0,2,2,3]
	pshuflw	$216, %xmm7, %xmm7              # xmm7 = xmm7[0,2,1,3,4,5,6,7]
	punpckldq	%xmm6, %xmm7            # xmm7 = xmm7[0],xmm6[0],xmm7[1],xmm6[1]
	packuswb	%xmm9, %xmm7
	movdqu	%xmm7, 16(%r14,%rax)
	movdqa	%xmm5, %xmm6
	punpckhbw	%xmm11, %xmm6           # xmm6 = xmm6[8],xmm11[8],xmm6[9],xmm11[9],xmm6[10],xmm11[10],xmm6[11],xmm11[11],xmm6[12],xmm11[12],xmm6[13],xmm11[13],xmm6[14],xmm11[14],xmm6[15],xmm11[15]
	pshufd	$231, %xmm6, %xmm7              # xmm7 = xmm6[3,1,2,3]
	pshuflw	$114, %xmm7, %xmm7              # xmm7 = xmm7[2,0,3,1,4,5,6,7]
	punpcklbw	%xmm11, %xmm5           # xmm5 = xmm5[0],xmm11[0],xmm5[1],xmm11[1],xmm5[2],xmm11[2],xmm5[3],xmm11[3],xmm5[4],xmm11[4],xmm5[5],xmm11[5],xmm5[6],xmm11[6],xmm5[7],xmm11[7]
	pshufd	$231, %xmm5, %xmm8              # xmm8 = xmm5[3,1,2,3]
	pshuflw	$114, %xmm8, %xmm8              # xmm8 = xmm8[2,0,3,1,4,5,6,7]
	punpckldq	%xmm7, %xmm8            # xmm8 = xmm8[0],xmm7[0],xmm8[1],xmm7[1]
	pshufd	$232, %xmm6, %xmm6              # xmm6 = xmm6[0,2,2,3]
	pshuflw	$216, %xmm6, %xmm6              # xmm6 = xmm6[0,2,1,3,4,5,6,7]
	pshufd	$232, %xmm5, %xmm5              # xmm5 = xmm5[0,2,2,3]
	pshuflw	$216, %xmm5, %xmm5              # xmm5 = xmm5[0,2,1,3,4,5,6,7]
	punpckldq	%xmm6, %xmm5            # xmm5 = xmm5[0],xmm6[0],xmm5[1],xmm6[1]
	packuswb	%xmm8, %xmm5
	movdqu	%xmm5, 32(%r14,%rax)
	movdqa	%xmm4, %xmm5
	punpckhbw	%xmm11, %xmm5           # xmm5 = xmm5[8],xmm11[8],xmm5[9],xmm11[9],xmm5[10],xmm11[10],xmm5[11],xmm11[11],xmm5[12],xmm11[12],xmm5[13],xmm11[13],xmm5[14],xmm11[14],xmm5[15],xmm11[15]
	pshufd	$231, %xmm5, %xmm6              # xmm6 = xmm5[3,1,2,3]
	pshuflw	$114, %xmm6, %xmm6              # xmm6 = xmm6[2,0,3,1,4,5,6,7]
	punpcklbw	%xmm11, %xmm4           # xmm4 = xmm4[0],xmm11[0],xmm4[1],xmm11[1],xmm4[2],xmm11[2],xmm4[3],xmm11[3],xmm4[4],xmm11[4],xmm4[5],xmm11[5],xmm4[6],xmm11[6],xmm4[7],xmm11[7]
	pshufd	$231, %xmm4, %xmm7              # xmm7 = xmm4[3,1,2,3]
	pshuflw	$114, %xmm7, %xmm7              # xmm7 = xmm7[2,0,3,1,4,5,6,7]
	punpckldq	%xmm6, %xmm7            # xmm7 = xmm7[0],xmm6[0],xmm7[1],xmm6[1]
	pshufd	$232, %xmm5, %xmm5              # xmm5 = xmm5[0,2,2,3]
	pshuflw	$216, %xmm5, %xmm5              # xmm5 = xmm5[0,2,1,3,4,5,6,7]
	pshufd	$232, %xmm4, %xmm4              # xmm4 = xmm4[0,2,2,3]
	pshuflw	$216, %xmm4, %xmm4              # xmm4 = xmm4[0,2,1,3,4,5,6,7]
	punpckldq	%xmm5, %xmm4            # xmm4 = xmm4[0],xmm5[0],xmm4[1],xmm5[1]
	packuswb	%xmm7, %xmm4
	movdqu	%xmm4, 48(%r14,%rax)
	movdqa	%xmm1, %xmm4
	punpckhbw	%xmm11, %xmm4           # xmm4 = xmm4[8],xmm11[8],xmm4[9],xmm11[9],xmm4[10],xmm11[10],xmm4[11],xmm11[11],xmm4[12],xmm11[12],xmm4[13],xmm11[13],xmm4[14],xmm11[14],xmm4[15],xmm11[15]
	pshufd	$231, %xmm4, %xmm5              # xmm5 = xmm4[3,1,2,3]
	pshuflw	$114, %xmm5, %xmm5              # xmm5 = xmm5[2,0,3,1,4,5,6,7]
	punpcklbw	%xmm11, %xmm1           # xmm1 = xmm1[0],xmm11[0],xmm1[1],xmm11[1],xmm1[2],xmm11[2],xmm1[3],xmm11[3],xmm1[4],xmm11[4],xmm1[5],xmm11[5],xmm1[6],xmm11[6],xmm1[7],xmm11[7]
	pshufd	$231, %xmm1, %xmm6              # xmm6 = xmm1[3,1,2,3]
	pshuflw	$114, %xmm6, %xmm6              # xmm6 = xmm6[2,0,3,1,4,5,6,7]
	punpckldq	%xmm5, %xmm6            # xmm6 = xmm6[0],xmm5[0],xmm6[1],xmm5[1]
	pshufd	$232, %xmm4, %xmm4              # xmm4 = xmm4[0,2,2,3]
	pshuflw	$216, %xmm4, %xmm4              # xmm4 = xmm4[0,2,1,3,4,5,6,7]
	pshufd	$232, %xmm1, %xmm1              # xmm1 = xmm1[0,2,2,3]
	pshuflw	$216, %xmm1, %xmm1              # xmm1 = xmm1[0,2,1,3,4,5,6,7]
	punpckldq	%xmm4, %xmm1            # xmm1 = xmm1[0],xmm4[0],xmm1[1],xmm4[1]
	packuswb	%xmm6, %xmm1
	movdqu	%xmm1, 64(%r14,%rax)
	movdqa	%xmm2, %xmm1
	punpckhbw	%xmm11, %xmm1           # xmm1 = xmm1[8],xmm11[8],xmm1[9],xmm11[9],xmm1[10],xmm11[10],xmm1[11],xmm11[11],xmm1[12],xmm11[12],xmm1[13],xmm11[13],xmm1[14],xmm11[14],xmm1[15],xmm11[15]
	pshufd	$231, %xmm1, %xmm4              # xmm4 = xmm1[3,1,2,3]
	pshuflw	$114, %xmm4, %xmm4              # xmm4 = xmm4[2,0,3,1,4,5,6,7]
	punpcklbw	%xmm11, %xmm2           # xmm2 = xmm2[0],xmm11[0],xmm2[1],xmm11[1],xmm2[2],xmm11[2],xmm2[3],xmm11[3],xmm2[4],xmm11[4],xmm2[5],xmm11[5],xmm2[6],xmm11[6],xmm2[7],xmm11[7]
	pshufd	$231, %xmm2, %xmm5              # xmm5 = xmm2[3,1,2,3]
	pshuflw	$114, %xmm5, %xmm5              # xmm5 = xmm5[2,0,3,1,4,5,6,7]
	punpckldq	%xmm4, %xmm5            # xmm5 = xmm5[0],xmm4[0],xmm5[1],xmm4[1]
	pshufd	$232, %xmm1, %xmm1              # xmm1 = xmm1[0,2,2,3]
	pshuflw	$216, %xmm1, %xmm1              # xmm1 = xmm1[0,2,1,3,4,5,6,7]
	pshufd	$232, %xmm2, %xmm2              # xmm2 = xmm2[0,2,2,3]
	pshuflw	$216, %xmm2, %xmm2              # xmm2 = xmm2[0,2,1,3,4,5,6,7]
	punpckldq	%xmm1, %xmm2            # xmm2 = xmm2[0],xmm1[0],xmm2[1],xmm1[1]
	packuswb	%xmm5, %xmm2
	movdqu	%xmm2, 80(%r14,%rax)
	movdqa	%xmm0, %xmm1
	punpckhbw	%xmm11, %xmm1           # xmm1 = xmm1[8],xmm11[8],xmm1[9],xmm11[9],xmm1[10],xmm11[10],xmm1[11],xmm11[11],xmm1[12],xmm11[12],xmm1[13],xmm11[13],xmm1[14],xmm11[14],xmm1[15],xmm11[15]
	pshufd	$231, %xmm1, %xmm2              # xmm2 = xmm1[3,1,2,3]
	pshuflw	$114, %xmm2, %xmm2              # xmm2 = xmm2[2,0,3,1,4,5,6,7]
	punpcklbw	%xmm11, %xmm0           # xmm0 = xmm0[0],xmm11[0],xmm0[1],xmm11[1],xmm0[2],xmm11[2],xmm0[3],xmm11[3],xmm0[4],xmm11[4],xmm0[5],xmm11[5],xmm0[6],xmm11[6],xmm0[7],xmm11[7]
	pshufd	$231, %xmm0, %xmm4              # xmm4 = xmm0[3,1,2,3]
	pshuflw	$114, %xmm4, %xmm4              # xmm4 = xmm4[2,0,3,1,4,5,6,7]
	punpckldq	%xmm2, %xmm4            # xmm4 = xmm4[0],xmm2[0],xmm4[1],xmm2[1]
	pshufd	$232, %xmm1, %xmm1              # xmm1 = xmm1[0,2,2,3]
	pshuflw	$216, %xmm1, %xmm1              # xmm1 = xmm1[0,2,1,3,4,5,6,7]
	pshufd	$232, %xmm0, %xmm0              # xmm0 = xmm0[0,2,2,3]
	pshuflw	$216, %xmm0, %xmm0              # xmm0 = xmm0[0,2,1,3,4,5,6,7]
	punpckldq	%xmm1, %xmm0            # xmm0 = xmm0[0],xmm1[0],xmm0[1],xmm1[1]
	packuswb	%xmm4, %xmm0
	movdqu	%xmm0, 96(%r14,%rax)
	movdqa	%xmm3, %xmm0
	punpckhbw	%xmm11, %xmm0           # xmm0 = xmm0[8],xmm11[8],xmm0[9],xmm11[9],xmm0[10],xmm11[10],xmm0[11],xmm11[11],xmm0[12],xmm11[12],xmm0[13],xmm11[13],xmm0[14],xmm11[14],xmm0[15],xmm11[15]
	pshufd	$231, %xmm0, %xmm1              # xmm1 = xmm0[3,1,2,3]
	pshuflw	$114, %xmm1, %xmm1              # xmm1 = xmm1[2,0,3,1,4,5,6,7]
	punpcklbw	%xmm11, %xmm3           # xmm3 = xmm3[0],xmm11[0],xmm3[1],xmm11[1],xmm3[2],xmm11[2],xmm3[3],xmm11[3],xmm3[4],xmm11[4],xmm3[5],xmm11[5],xmm3[6],xmm11[6],xmm3[7],xmm11[7]
	pshufd	$231, %xmm3, %xmm2              # xmm2 = xmm3[3,1,2,3]
	pshuflw	$114, %xmm2, %xmm2              # xmm2 = xmm2[2,0,3,1,4,5,6,7]
	punpckldq	%xmm1, %xmm2            # xmm2 = xmm2[0],xmm1[0],xmm2[1],xmm1[1]
	pshufd	$232, %xmm0, %xmm0              # xmm0 = xmm0[0,2,2,3]
	pshuflw	$216, %xmm0, %xmm0              # xmm0 = xmm0[0,2,1,3,4,5,6,7]
	pshufd	$232, %xmm3, %xmm1              # xmm1 = xmm3[0,2,2,3]
	pshuflw	$216, %xmm1, %xmm1              # xmm1 = xmm1[0,2,1,3,4,5,6,7]
	punpckldq	%xmm0, %xmm1            # xmm1 = xmm1[0],xmm0[0],xmm1[1],xmm0[1]
	packuswb	%xmm2, %xmm1
	movdqu	%xmm1, 112(%r14,%rax)
	movq	%rbx, %rax
	cmpq	504(%rsp), %rbx                 # 8-byte Folded Reload
	jb	LBB15_1
# %bb.7:                                # %"aes_soft::soft::blocks::slices::process_batches_under::<#7a29a06501f6c419>.exit"
	addq	$520, %rsp                      # imm = 0x208
	popq	%rbx
	popq	%r12
	popq	%r13
	popq	%r14
	popq	%r15
	popq	%rbp
	retq
                                        # -- End function
	.section	__TEXT,__text,regular,pure_instructions
	.p2align	4                               # -- Begin function aes_soft::soft::blocks::slices::process_batches_outlined::<#271f1d06ba461252>
"aes_soft::soft::blocks::slices::process_batches_outlined::<#271f1d06ba461252>": # @"aes_soft::soft::blocks::slices::process_batches_outlined::<#271f1d06ba461252>"
# %bb.0:                                # %start
	testq	%rcx, %rcx
	je	LBB16_4
# %bb.1:                                # %join.5.i.lr.ph
	pushq	%r15
	pushq	%r14
	pushq	%r12
	pushq	%rbx
	subq	$24, %rsp
	movq	%rcx, %rbx
	movq	%rdx, %r14
	movq	%rsi, %r15
	movq	%rdi, %r12
	shrq	$3, %r15
	decq	%r15
	.p2align	4
LBB16_2:                               # %join.5.i
                                        # =>This Inner Loop Header: Depth=1
	xorps	%xmm0, %xmm0
	movaps	%xmm0, (%rsp)
	movq	%rsp, %rdi
	movq	%r12, %rsi
	movq	%r15, %rdx
	movq	%r14, %rcx
	callq	"aes_soft::soft::ciphers::planes::process_outlined::<#5fb0373690586519>"
	movaps	(%rsp), %xmm0
	movups	%xmm0, (%r14)
	addq	$16, %r14
	decq	%rbx
	jne	LBB16_2
# %bb.3:
	addq	$24, %rsp
	popq	%rbx
	popq	%r12
	popq	%r14
	popq	%r15
LBB16_4:                               # %"aes_soft::soft::blocks::slices::process_batches_under::<#271f1d06ba461252>.exit"
	retq
                                        # -- End function
	.section	__TEXT,__const
	.p2align	4, 0x0                          # -- Begin function aes_soft::soft::ciphers::planes::process_outlined::<#5fb0373690586519>
l_CPI17_0:
	.zero	16,48
	.section	__TEXT,__text,regular,pure_instructions
	.p2align	4
"aes_soft::soft::ciphers::planes::process_outlined::<#5fb0373690586519>": # @"aes_soft::soft::ciphers::planes::process_outlined::<#5fb0373690586519>"
# %bb.0:                                # %start
	pushq	%rbp
	pushq	%r15
	pushq	%r14
	pushq	%r13
	pushq	%r12
	pushq	%rbx
	pushq	%rax
	movq	%rdx, -72(%rsp)                 # 8-byte Spill
	movq	%rdi, (%rsp)                    # 8-byte Spill
	movdqu	(%rcx), %xmm0
	pxor	%xmm1, %xmm1
	movdqa	%xmm0, %xmm2
	punpckhbw	%xmm1, %xmm2            # xmm2 = xmm2[8],xmm1[8],xmm2[9],xmm1[9],xmm2[10],xmm1[10],xmm2[11],xmm1[11],xmm2[12],xmm1[12],xmm2[13],xmm1[13],xmm2[14],xmm1[14],xmm2[15],xmm1[15]
	pshufd	$231, %xmm2, %xmm3              # xmm3 = xmm2[3,1,2,3]
	pshuflw	$114, %xmm3, %xmm3              # xmm3 = xmm3[2,0,3,1,4,5,6,7]
	punpcklbw	%xmm1, %xmm0            # xmm0 = xmm0[0],xmm1[0],xmm0[1],xmm1[1],xmm0[2],xmm1[2],xmm0[3],xmm1[3],xmm0[4],xmm1[4],xmm0[5],xmm1[5],xmm0[6],xmm1[6],xmm0[7],xmm1[7]
	pshufd	$231, %xmm0, %xmm1              # xmm1 = xmm0[3,1,2,3]
	pshuflw	$114, %xmm1, %xmm1              # xmm1 = xmm1[2,0,3,1,4,5,6,7]
	punpckldq	%xmm3, %xmm1            # xmm1 = xmm1[0],xmm3[0],xmm1[1],xmm3[1]
	pshufd	$232, %xmm2, %xmm2              # xmm2 = xmm2[0,2,2,3]
	pshuflw	$216, %xmm2, %xmm2              # xmm2 = xmm2[0,2,1,3,4,5,6,7]
	pshufd	$232, %xmm0, %xmm0              # xmm0 = xmm0[0,2,2,3]
	pshuflw	$216, %xmm0, %xmm0              # xmm0 = xmm0[0,2,1,3,4,5,6,7]
	punpckldq	%xmm2, %xmm0            # xmm0 = xmm0[0],xmm2[0],xmm0[1],xmm2[1]
	packuswb	%xmm1, %xmm0
	movdqa	%xmm0, %xmm1
	psllw	$7, %xmm1
	pmovmskb	%xmm1, %eax
	movdqa	%xmm0, %xmm1
	psllw	$6, %xmm1
	pmovmskb	%xmm1, %ebx
	movdqa	%xmm0, %xmm1
	psllw	$5, %xmm1
	pmovmskb	%xmm1, %r8d
	movdqa	%xmm0, %xmm1
	psllw	$4, %xmm1
	pmovmskb	%xmm1, %r15d
	movdqa	%xmm0, %xmm1
	psllw	$3, %xmm1
	pmovmskb	%xmm1, %edi
	movdqa	%xmm0, %xmm1
	psllw	$2, %xmm1
	pmovmskb	%xmm1, %r11d
	pmovmskb	%xmm0, %r14d
	paddb	%xmm0, %xmm0
	pmovmskb	%xmm0, %ebp
	movq	%rdx, %rcx
	shlq	$4, %rcx
	xorw	(%rsi,%rcx), %ax
	xorw	2(%rsi,%rcx), %bx
	xorw	4(%rsi,%rcx), %r8w
	xorw	6(%rsi,%rcx), %r15w
	xorw	8(%rsi,%rcx), %di
	xorw	10(%rsi,%rcx), %r11w
	xorw	12(%rsi,%rcx), %bp
	movq	%rsi, -48(%rsp)                 # 8-byte Spill
	movq	%rcx, -32(%rsp)                 # 8-byte Spill
	xorw	14(%rsi,%rcx), %r14w
	movl	%r11d, %esi
	movl	%r11d, -40(%rsp)                # 4-byte Spill
	xorl	%r8d, %esi
	movl	%ebp, %ecx
	xorl	%ebx, %ecx
	movl	%ecx, -116(%rsp)                # 4-byte Spill
	xorl	%ebx, %r8d
	movl	%r8d, %r9d
	movl	%r8d, -64(%rsp)                 # 4-byte Spill
	xorl	%eax, %ebx
	movl	%ebp, %r12d
	xorl	%edi, %r12d
	xorl	%r15d, %r11d
	xorl	%ecx, %r11d
	movl	%r14d, %r13d
	movl	%r14d, %r8d
	xorl	%edi, %r14d
	xorl	%r15d, %edi
	movl	%edi, %edx
	xorl	%ebx, %edx
	movl	%edx, -88(%rsp)                 # 4-byte Spill
	movl	%r11d, %ecx
	orl	%edx, %ecx
	movl	%edi, %edx
	xorl	%eax, %edx
	movl	%edx, -96(%rsp)                 # 4-byte Spill
	movl	%r12d, %r10d
	andl	%edx, %r10d
	xorl	%ecx, %r10d
	xorl	%ebp, %r13d
	xorl	%r14d, %ebp
	movl	%ebp, -108(%rsp)                # 4-byte Spill
	movl	%ebp, %ecx
	xorl	%r15d, %ecx
	movl	%ecx, -56(%rsp)                 # 4-byte Spill
	xorl	%eax, %r15d
	movl	%edi, %eax
	movl	%edi, -124(%rsp)                # 4-byte Spill
	xorl	%r9d, %eax
	andl	%eax, %ecx
	movl	%eax, %ebp
	movl	%eax, -128(%rsp)                # 4-byte Spill
	movl	%r13d, %eax
	xorl	%r15d, %r13d
	movl	%r13d, %edx
	andl	%eax, %edx
	movl	%eax, %r9d
	movl	%eax, -100(%rsp)                # 4-byte Spill
	movl	%r13d, %eax
	xorl	%ebp, %eax
	andl	%edi, %eax
	xorl	%eax, %ecx
	xorl	%edx, %eax
	xorl	%ebx, %r9d
	movl	%r9d, %edi
	movl	%r9d, -104(%rsp)                # 4-byte Spill
	movl	%r8d, %edx
	xorl	%esi, %edx
	movl	%edx, -92(%rsp)                 # 4-byte Spill
	movl	%r12d, -76(%rsp)                # 4-byte Spill
	xorl	%r12d, %ebx
	movl	-116(%rsp), %r8d                # 4-byte Reload
	xorl	%r15d, %r8d
	movl	%ebx, %ebp
	movl	%ebx, -112(%rsp)                # 4-byte Spill
	andl	%edx, %ebp
	xorl	%r15d, %ebp
	xorl	%r12d, %esi
	movl	%esi, -120(%rsp)                # 4-byte Spill
	andl	%esi, %edi
	movl	-108(%rsp), %edx                # 4-byte Reload
	andl	%r14d, %edx
	xorl	%edi, %ebp
	movl	-64(%rsp), %esi                 # 4-byte Reload
	xorl	%r13d, %esi
	movl	%esi, -64(%rsp)                 # 4-byte Spill
	xorl	%esi, %edx
	xorl	%edi, %edx
	xorl	%ecx, %r10d
	xorl	%ecx, %edx
	movl	%r11d, %edi
	movl	-88(%rsp), %r9d                 # 4-byte Reload
	andl	%r9d, %edi
	movl	%ebx, %r12d
	movl	-40(%rsp), %esi                 # 4-byte Reload
	xorl	%esi, %r12d
	movl	%r12d, %ecx
	andl	%r8d, %ecx
	movl	%r8d, %ebx
	xorl	-124(%rsp), %edi                # 4-byte Folded Reload
	xorl	%ecx, %edi
	xorl	%esi, %edi
	xorl	%eax, %ebp
	xorl	%eax, %edi
	movl	%edx, %ecx
	andl	%r10d, %ecx
	movl	%edx, %r15d
	xorl	%ebp, %r15d
	andl	%edi, %edx
	andl	%r15d, %edx
	movl	%ecx, %esi
	xorl	%edi, %esi
	andl	%r15d, %esi
	xorl	%ecx, %r15d
	xorl	%edx, %r15d
	movl	%ecx, %eax
	xorl	%ebp, %eax
	movl	%edi, %r8d
	xorl	%r10d, %r8d
	andl	%r8d, %eax
	xorl	%edi, %eax
	xorl	%ebp, %esi
	movl	%esi, %edx
	xorl	%r15d, %edx
	andl	%edx, %r9d
	movl	%r9d, -88(%rsp)                 # 4-byte Spill
	andl	%r11d, %edx
	andl	%esi, %ebx
	movl	%ebx, -116(%rsp)                # 4-byte Spill
	movl	%esi, %edi
	andl	%r12d, %esi
	andl	%r10d, %ebp
	notl	%ebp
	andl	%r8d, %ebp
	xorl	%ecx, %ebp
	xorl	%eax, %edi
	movl	-76(%rsp), %ebx                 # 4-byte Reload
	andl	%r15d, %ebx
	movl	-92(%rsp), %r10d                # 4-byte Reload
	andl	%eax, %r10d
	andl	%eax, -112(%rsp)                # 4-byte Folded Spill
	movl	-96(%rsp), %ecx                 # 4-byte Reload
	andl	%r15d, %ecx
	xorl	%ebp, %r15d
	andl	%ebp, %r14d
	xorl	%ebp, %eax
	andl	-108(%rsp), %ebp                # 4-byte Folded Reload
	movl	-120(%rsp), %r9d                # 4-byte Reload
	andl	%eax, %r9d
	andl	-104(%rsp), %eax                # 4-byte Folded Reload
	andl	%edi, -124(%rsp)                # 4-byte Folded Spill
	andl	%edi, -64(%rsp)                 # 4-byte Folded Spill
	xorl	%r15d, %edi
	movl	-128(%rsp), %r8d                # 4-byte Reload
	andl	%edi, %r8d
	xorl	%ecx, %r8d
	movl	%r8d, -128(%rsp)                # 4-byte Spill
	xorl	%ecx, %ebp
	andl	-56(%rsp), %edi                 # 4-byte Folded Reload
	andl	%r15d, %r13d
	andl	-100(%rsp), %r15d               # 4-byte Folded Reload
	movl	-88(%rsp), %r12d                # 4-byte Reload
	movl	%r12d, %r8d
	movl	%ebx, %ecx
	xorl	%ebx, %r8d
	xorl	%r10d, %r14d
	movl	%r14d, %ebx
	xorl	%ecx, %r14d
	movl	%edi, %r11d
	xorl	%r13d, %r11d
	xorl	%r13d, %r14d
	movl	%r9d, %ecx
	xorl	%r10d, %r9d
	movl	%r9d, -120(%rsp)                # 4-byte Spill
	movl	-116(%rsp), %r13d               # 4-byte Reload
	xorl	%edx, %r13d
	xorl	%esi, %ecx
	xorl	%edx, %edi
	xorl	%edx, %esi
	movl	-64(%rsp), %r9d                 # 4-byte Reload
	xorl	%r9d, %r8d
	xorl	%ebp, %r9d
	xorl	%r13d, %r9d
	movl	-112(%rsp), %edx                # 4-byte Reload
	xorl	%edx, %ebx
	xorl	%ebx, %r12d
	xorl	%ecx, %ebp
	xorl	%r15d, %ecx
	xorl	%ebx, %ecx
	xorl	%r11d, %r12d
	xorl	%r8d, %r11d
	movl	-128(%rsp), %r10d               # 4-byte Reload
	xorl	%r8d, %r10d
	xorl	-124(%rsp), %edx                # 4-byte Folded Reload
	movl	%edx, %r8d
	xorl	%eax, %r15d
	movd	%r10d, %xmm2
	movd	%r11d, %xmm0
	xorl	%r15d, %r14d
	movd	%r15d, %xmm1
	movd	%edi, %xmm4
	movd	%r14d, %xmm5
	movd	-120(%rsp), %xmm6               # 4-byte Folded Reload
                                        # xmm6 = mem[0],zero,zero,zero
	movd	%r9d, %xmm3
	movd	%r12d, %xmm7
	punpcklwd	%xmm4, %xmm1            # xmm1 = xmm1[0],xmm4[0],xmm1[1],xmm4[1],xmm1[2],xmm4[2],xmm1[3],xmm4[3]
	movdqa	%xmm0, %xmm4
	punpcklwd	%xmm2, %xmm4            # xmm4 = xmm4[0],xmm2[0],xmm4[1],xmm2[1],xmm4[2],xmm2[2],xmm4[3],xmm2[3]
	punpckldq	%xmm4, %xmm1            # xmm1 = xmm1[0],xmm4[0],xmm1[1],xmm4[1]
	punpcklwd	%xmm3, %xmm6            # xmm6 = xmm6[0],xmm3[0],xmm6[1],xmm3[1],xmm6[2],xmm3[2],xmm6[3],xmm3[3]
	punpckldq	%xmm5, %xmm6            # xmm6 = xmm6[0],xmm5[0],xmm6[1],xmm5[1]
	punpcklqdq	%xmm6, %xmm1            # xmm1 = xmm1[0],xmm6[0]
	movd	%esi, %xmm4
	movq	-72(%rsp), %rsi                 # 8-byte Reload
	leaq	-2(%rsi), %rdx
	punpcklwd	%xmm7, %xmm0            # xmm0 = xmm0[0],xmm7[0],xmm0[1],xmm7[1],xmm0[2],xmm7[2],xmm0[3],xmm7[3]
	movd	%ebp, %xmm5
	movq	%rdx, %rax
	shrq	$2, %rax
	movq	%rax, -64(%rsp)                 # 8-byte Spill
	punpcklwd	%xmm4, %xmm3            # xmm3 = xmm3[0],xmm4[0],xmm3[1],xmm4[1],xmm3[2],xmm4[2],xmm3[3],xmm4[3]
	movd	%ecx, %xmm4
	movl	%edx, %eax
	andl	$12, %eax
	pshufd	$39, %xmm1, %xmm1               # xmm1 = xmm1[3,1,2,0]
	pshuflw	$232, %xmm1, %xmm1              # xmm1 = xmm1[0,2,2,3,4,5,6,7]
	pshufd	$39, %xmm1, %xmm6               # xmm6 = xmm1[3,1,2,0]
	punpckldq	%xmm3, %xmm0            # xmm0 = xmm0[0],xmm3[0],xmm0[1],xmm3[1]
	punpcklwd	%xmm4, %xmm5            # xmm5 = xmm5[0],xmm4[0],xmm5[1],xmm4[1],xmm5[2],xmm4[2],xmm5[3],xmm4[3]
	movd	%r8d, %xmm1
	punpcklwd	%xmm2, %xmm1            # xmm1 = xmm1[0],xmm2[0],xmm1[1],xmm2[1],xmm1[2],xmm2[2],xmm1[3],xmm2[3]
	punpckldq	%xmm5, %xmm1            # xmm1 = xmm1[0],xmm5[0],xmm1[1],xmm5[1]
	punpcklqdq	%xmm0, %xmm1            # xmm1 = xmm1[0],xmm0[0]
	pxor	%xmm6, %xmm1
	movq	%rax, -88(%rsp)                 # 8-byte Spill
	addq	$2, %rax
	cmpq	%rsi, %rax
	jae	LBB17_2
# %bb.1:                                # %then.3.i
	movd	%xmm1, %r12d
	movq	-48(%rsp), %rax                 # 8-byte Reload
	movq	-32(%rsp), %rcx                 # 8-byte Reload
	xorw	-16(%rax,%rcx), %r12w
	movl	%r12d, %esi
	movl	%esi, -120(%rsp)                # 4-byte Spill
	pextrw	$1, %xmm1, %esi
	xorw	-14(%rax,%rcx), %si
	pextrw	$2, %xmm1, %r8d
	movq	%rdx, -56(%rsp)                 # 8-byte Spill
	movl	%esi, %edx
	movl	%edx, -128(%rsp)                # 4-byte Spill
	xorw	-12(%rax,%rcx), %r8w
	movl	%r8d, %edx
	movl	%edx, -124(%rsp)                # 4-byte Spill
	pextrw	$3, %xmm1, %r13d
	xorw	-10(%rax,%rcx), %r13w
	pextrw	$4, %xmm1, %edx
	xorw	-8(%rax,%rcx), %dx
	pextrw	$5, %xmm1, %r11d
	xorw	-6(%rax,%rcx), %r11w
	pextrw	$6, %xmm1, %r15d
	xorw	-4(%rax,%rcx), %r15w
	pextrw	$7, %xmm1, %edi
	xorw	-2(%rax,%rcx), %di
	movl	%r13d, %r9d
	movl	%r12d, %eax
	rolw	$9, %ax
	rolw	$13, %r12w
	andl	$4369, %eax                     # imm = 0x1111
	andl	$-4370, %r12d                   # imm = 0xEEEE
	orl	%eax, %r12d
	movl	%esi, %eax
	rolw	$9, %ax
	rolw	$13, %si
	andl	$4369, %eax                     # imm = 0x1111
	andl	$-4370, %esi                    # imm = 0xEEEE
	orl	%eax, %esi
	movl	%r8d, %ecx
	movl	%ecx, %eax
	rolw	$9, %ax
	rolw	$13, %cx
	andl	$4369, %eax                     # imm = 0x1111
	andl	$-4370, %ecx                    # imm = 0xEEEE
	orl	%eax, %ecx
	movl	%ecx, %r8d
	movl	%r13d, %eax
	rolw	$9, %ax
	rolw	$13, %r13w
	andl	$4369, %eax                     # imm = 0x1111
	andl	$-4370, %r13d                   # imm = 0xEEEE
	orl	%eax, %r13d
	movl	%edx, %eax
	movl	%eax, %ecx
	rolw	$9, %cx
	rolw	$13, %ax
	andl	$4369, %ecx                     # imm = 0x1111
	andl	$-4370, %eax                    # imm = 0xEEEE
	movl	%r11d, %r10d
	rolw	$9, %r10w
	orl	%ecx, %eax
	movl	%eax, %ebp
	movl	%r11d, %ecx
	rolw	$13, %cx
	andl	$4369, %r10d                    # imm = 0x1111
	movl	%r15d, %r14d
	rolw	$9, %r14w
	andl	$-4370, %ecx                    # imm = 0xEEEE
	movl	%r15d, %eax
	rolw	$13, %r15w
	orl	%r10d, %ecx
	andl	$4369, %r14d                    # imm = 0x1111
	andl	$-4370, %r15d                   # imm = 0xEEEE
	orl	%r14d, %r15d
	movl	%edi, %r10d
	rolw	$9, %r10w
	movl	%edi, %ebx
	rolw	$13, %di
	andl	$4369, %r10d                    # imm = 0x1111
	andl	$-4370, %edi                    # imm = 0xEEEE
	orl	%r10d, %edi
	movl	%edi, %r10d
	movl	-120(%rsp), %r14d               # 4-byte Reload
	xorl	%r14d, %r12d
	xorl	%ebx, %r10d
	movl	%r10d, %edi
	xorl	%r14d, %edi
	movl	%edi, -120(%rsp)                # 4-byte Spill
	movl	-128(%rsp), %r14d               # 4-byte Reload
	xorl	%r14d, %esi
	movl	%r12d, %edi
	xorl	%r14d, %edi
	movl	%r8d, %r14d
	xorl	-124(%rsp), %r14d               # 4-byte Folded Reload
	xorl	%r9d, %r13d
	movl	%r14d, %r8d
	xorl	%r9d, %r8d
	xorl	%edx, %ebp
	movl	%ebp, -128(%rsp)                # 4-byte Spill
	movl	%r13d, %r9d
	xorl	%edx, %r9d
	xorl	%r11d, %ecx
	movl	%ebp, %edx
	xorl	%r11d, %edx
	movl	%edx, %r11d
	movl	%edx, -100(%rsp)                # 4-byte Spill
	xorl	%eax, %r15d
	movl	%ecx, %edx
	xorl	%eax, %edx
	movl	%r15d, %eax
	xorl	%ebx, %eax
	xorl	%r10d, %edi
	movl	%edi, %ebx
	movl	%edi, -40(%rsp)                 # 4-byte Spill
	xorl	%r10d, %r8d
	movl	%r8d, -72(%rsp)                 # 4-byte Spill
	xorl	%r10d, %r9d
	movl	%r9d, -116(%rsp)                # 4-byte Spill
	xorl	%eax, %r14d
	xorl	%eax, %ecx
	xorl	%r11d, %r10d
	movl	%r10d, %edi
	movl	%edi, -96(%rsp)                 # 4-byte Spill
	movl	%r10d, %ebp
	xorl	%eax, %r10d
	movl	%r10d, -112(%rsp)               # 4-byte Spill
	xorl	%edx, %eax
	movl	%eax, %r9d
	xorl	%esi, %r9d
	xorl	-124(%rsp), %esi                # 4-byte Folded Reload
	movl	%esi, -104(%rsp)                # 4-byte Spill
	movl	-128(%rsp), %r10d               # 4-byte Reload
	xorl	%esi, %r10d
	xorl	%eax, %r10d
	xorl	%edx, %r12d
	movl	%r12d, -92(%rsp)                # 4-byte Spill
	movl	%edx, %esi
	movl	%edx, -76(%rsp)                 # 4-byte Spill
	movl	%r12d, %eax
	rolw	$6, %ax
                                        # kill: def $r12w killed $r12w killed $r12d def $r12d
	rolw	$10, %r12w
	andl	$13107, %eax                    # imm = 0x3333
	andl	$-13108, %r12d                  # imm = 0xCCCC
	orl	%eax, %r12d
	movl	%r9d, %edx
	rolw	$6, %dx
	movl	%r9d, %edi
	rolw	$10, %di
	andl	$13107, %edx                    # imm = 0x3333
	andl	$-13108, %edi                   # imm = 0xCCCC
	orl	%edx, %edi
	xorl	-120(%rsp), %r14d               # 4-byte Folded Reload
	movl	%r14d, -124(%rsp)               # 4-byte Spill
	xorl	%esi, %r13d
	xorl	%ebx, %r13d
	movl	%r14d, %edx
	rolw	$6, %dx
                                        # kill: def $r14w killed $r14w killed $r14d def $r14d
	rolw	$10, %r14w
	andl	$13107, %edx                    # imm = 0x3333
	andl	$-13108, %r14d                  # imm = 0xCCCC
	movl	%r13d, %esi
	rolw	$6, %si
	orl	%edx, %r14d
	movl	%r13d, %edx
	rolw	$10, %dx
	andl	$13107, %esi                    # imm = 0x3333
	movl	%r10d, -128(%rsp)               # 4-byte Spill
	movl	%r10d, %r8d
	rolw	$6, %r8w
	andl	$-13108, %edx                   # imm = 0xCCCC
                                        # kill: def $r10w killed $r10w killed $r10d def $r10d
	rolw	$10, %r10w
	orl	%esi, %edx
	andl	$13107, %r8d                    # imm = 0x3333
	andl	$-13108, %r10d                  # imm = 0xCCCC
	orl	%r8d, %r10d
	movl	-72(%rsp), %ebx                 # 4-byte Reload
	xorl	%ebx, %ecx
	movl	%ecx, -108(%rsp)                # 4-byte Spill
	movl	%ecx, %esi
	rolw	$6, %si
	movl	-116(%rsp), %r11d               # 4-byte Reload
	xorl	%r11d, %r15d
	movl	%ecx, %r8d
	rolw	$10, %r8w
	andl	$13107, %esi                    # imm = 0x3333
	movl	%r15d, %eax
	rolw	$6, %ax
	andl	$-13108, %r8d                   # imm = 0xCCCC
	movl	%r15d, %ecx
	rolw	$10, %cx
	orl	%esi, %r8d
	andl	$13107, %eax                    # imm = 0x3333
	andl	$-13108, %ecx                   # imm = 0xCCCC
	orl	%eax, %ecx
	movl	-96(%rsp), %eax                 # 4-byte Reload
	rolw	$6, %ax
	rolw	$10, %bp
	andl	$13107, %eax                    # imm = 0x3333
	andl	$-13108, %ebp                   # imm = 0xCCCC
	orl	%eax, %ebp
	movl	-92(%rsp), %eax                 # 4-byte Reload
	xorl	-120(%rsp), %eax                # 4-byte Folded Reload
	xorl	%r12d, %eax
	movl	%eax, %r12d
	xorl	-40(%rsp), %r9d                 # 4-byte Folded Reload
	xorl	%edi, %r9d
	movl	-124(%rsp), %eax                # 4-byte Reload
	xorl	-104(%rsp), %eax                # 4-byte Folded Reload
	xorl	%r14d, %eax
	movl	%eax, %r14d
	xorl	%ebx, %r13d
	xorl	%edx, %r13d
	movl	-128(%rsp), %edx                # 4-byte Reload
	xorl	%r11d, %edx
	xorl	%r10d, %edx
	movl	%edx, %esi
	movl	-108(%rsp), %eax                # 4-byte Reload
	xorl	-100(%rsp), %eax                # 4-byte Folded Reload
	xorl	%r8d, %eax
	xorl	-76(%rsp), %r15d                # 4-byte Folded Reload
	xorl	%ecx, %r15d
	movl	-112(%rsp), %edi                # 4-byte Reload
	xorl	%ebp, %edi
	movl	%eax, %ecx
	movl	%eax, %r10d
	movl	%eax, -108(%rsp)                # 4-byte Spill
	xorl	%r14d, %ecx
	movl	%r15d, %eax
	xorl	%r9d, %eax
	xorl	%r9d, %r14d
	movl	%r14d, -124(%rsp)               # 4-byte Spill
	movl	%r9d, %edx
	xorl	%r12d, %edx
	movl	%r15d, %r8d
	xorl	%edi, %r8d
	movl	%esi, %ebp
	movl	%esi, %r9d
	xorl	%r15d, %r9d
	movl	%r10d, %esi
	xorl	%r13d, %esi
	xorl	%eax, %esi
	movl	%esi, %r11d
	movl	%esi, -100(%rsp)                # 4-byte Spill
	movl	%eax, %r10d
	movl	%r9d, %eax
	movl	%r9d, %esi
	xorl	%ecx, %eax
	movl	%eax, -120(%rsp)                # 4-byte Spill
	xorl	%edi, %ecx
	movl	%ecx, %r14d
	movl	%ecx, -32(%rsp)                 # 4-byte Spill
	xorl	%ebp, %edi
	movl	%edi, -112(%rsp)                # 4-byte Spill
	xorl	%r13d, %ebp
	movl	%ebp, %eax
	xorl	%edx, %eax
	movl	%eax, -128(%rsp)                # 4-byte Spill
	orl	%r11d, %eax
	movl	%ebp, %r9d
	xorl	%r12d, %r9d
	movl	%r9d, -92(%rsp)                 # 4-byte Spill
	movl	%esi, -40(%rsp)                 # 4-byte Spill
	andl	%esi, %r9d
	xorl	%eax, %r9d
	movl	%r15d, %r11d
	xorl	%edi, %r11d
	movl	%r11d, -20(%rsp)                # 4-byte Spill
	movl	%r11d, %ecx
	xorl	%r13d, %ecx
	movl	%ecx, -96(%rsp)                 # 4-byte Spill
	xorl	%r12d, %r13d
	movl	%r8d, %edi
	xorl	%edx, %edi
	movl	%edi, -36(%rsp)                 # 4-byte Spill
	movl	%ebp, %eax
	movl	-124(%rsp), %r12d               # 4-byte Reload
	xorl	%r12d, %eax
	andl	%eax, %ecx
	movl	%eax, -116(%rsp)                # 4-byte Spill
	xorl	%esi, %edx
	xorl	%r13d, %r10d
	movl	%edx, %r15d
	movl	%edx, %esi
	andl	%r14d, %r15d
	xorl	%r13d, %r15d
	movl	%r8d, -104(%rsp)                # 4-byte Spill
	xorl	%r8d, %r13d
	movl	%r13d, %edx
	andl	%r8d, %edx
	xorl	%r13d, %eax
	movl	%r13d, -72(%rsp)                # 4-byte Spill
	andl	%ebp, %eax
	xorl	%eax, %ecx
	xorl	%edx, %eax
	movl	-120(%rsp), %edx                # 4-byte Reload
	andl	%edi, %edx
	movl	%r11d, %ebx
	movl	-112(%rsp), %r8d                # 4-byte Reload
	andl	%r8d, %ebx
	xorl	%edx, %r15d
	movl	%r12d, %edi
	xorl	%r13d, %edi
	movl	%edi, -124(%rsp)                # 4-byte Spill
	xorl	%edi, %ebx
	xorl	%edx, %ebx
	xorl	%ecx, %r9d
	xorl	%ecx, %ebx
	movl	-128(%rsp), %edx                # 4-byte Reload
	movl	%edx, %r13d
	movl	-100(%rsp), %r11d               # 4-byte Reload
	andl	%r11d, %r13d
	movl	%esi, %edi
	movl	-108(%rsp), %ecx                # 4-byte Reload
	xorl	%ecx, %edi
	xorl	%ecx, %r13d
	movl	%edi, %ecx
	andl	%r10d, %ecx
	xorl	%ecx, %r13d
	xorl	%eax, %r15d
	xorl	%ebp, %r13d
	xorl	%eax, %r13d
	movl	%ebx, %r12d
	andl	%r9d, %r12d
	movl	%r12d, %eax
	xorl	%r15d, %eax
	movl	%r13d, %ecx
	xorl	%r9d, %ecx
	movl	%r12d, %r14d
	xorl	%r13d, %r14d
	andl	%ecx, %eax
	xorl	%r13d, %eax
	andl	%ebx, %r13d
	xorl	%r15d, %ebx
	andl	%ebx, %r13d
	andl	%ebx, %r14d
	xorl	%r12d, %ebx
	xorl	%r13d, %ebx
	xorl	%r15d, %r14d
	movl	%ebx, %r13d
	xorl	%r14d, %r13d
	andl	%r13d, %edx
	movl	%edx, -128(%rsp)                # 4-byte Spill
	andl	%r11d, %r13d
	movl	%r13d, -76(%rsp)                # 4-byte Spill
	andl	%r14d, %r10d
	movl	%r10d, -100(%rsp)               # 4-byte Spill
	movl	%r14d, %edx
	andl	%edi, %r14d
	andl	%r9d, %r15d
	andl	%ecx, %r15d
	xorl	%r12d, %ecx
	xorl	%r15d, %ecx
	xorl	%eax, %edx
	movl	-40(%rsp), %r12d                # 4-byte Reload
	andl	%ebx, %r12d
	movl	-32(%rsp), %r13d                # 4-byte Reload
	andl	%eax, %r13d
	andl	%eax, %esi
	movl	%esi, -108(%rsp)                # 4-byte Spill
	movl	-92(%rsp), %esi                 # 4-byte Reload
	andl	%ebx, %esi
	xorl	%ecx, %ebx
	andl	%ecx, %r8d
	xorl	%ecx, %eax
	andl	-20(%rsp), %ecx                 # 4-byte Folded Reload
	movl	%ecx, %r11d
	andl	%eax, -120(%rsp)                # 4-byte Folded Spill
	andl	-36(%rsp), %eax                 # 4-byte Folded Reload
	movl	%edx, %edi
	andl	%edx, %ebp
	movl	-124(%rsp), %r10d               # 4-byte Reload
	andl	%edx, %r10d
	xorl	%ebx, %edi
	movl	-116(%rsp), %edx                # 4-byte Reload
	andl	%edi, %edx
	xorl	%esi, %edx
	movl	%edx, -116(%rsp)                # 4-byte Spill
	xorl	%esi, %r11d
	movl	%r11d, %edx
	andl	-96(%rsp), %edi                 # 4-byte Folded Reload
	andl	%ebx, -72(%rsp)                 # 4-byte Folded Spill
	andl	-104(%rsp), %ebx                # 4-byte Folded Reload
	movq	-56(%rsp), %r11                 # 8-byte Reload
	shlq	$4, %r11
	movq	-48(%rsp), %r15                 # 8-byte Reload
	movzwl	6(%r15,%r11), %ecx
	xorw	%bx, %cx
	movl	%ecx, -124(%rsp)                # 4-byte Spill
	movl	%ebx, %r9d
	xorl	%eax, %r9d
	movl	%r9d, -56(%rsp)                 # 4-byte Spill
	movl	%r10d, %esi
	movl	%r10d, %ebx
	movl	%r12d, %ecx
	xorl	%r12d, %ebx
	movl	-128(%rsp), %eax                # 4-byte Reload
	xorl	%eax, %ebx
	xorl	%edx, %esi
	movl	%edx, %r10d
	movl	%esi, %r12d
	xorl	%esi, %eax
	movl	%eax, -128(%rsp)                # 4-byte Spill
	xorl	%ecx, %r12d
	xorl	%r13d, %r8d
	xorl	%r8d, %r12d
	movl	%r8d, %eax
	movl	-108(%rsp), %edx                # 4-byte Reload
	xorl	%edx, %eax
	xorw	(%r15,%r11), %bp
	xorl	%r9d, %edx
	xorl	%ebp, %edx
	movl	%edx, -108(%rsp)                # 4-byte Spill
	movl	-116(%rsp), %edx                # 4-byte Reload
	xorl	%ebx, %edx
	movzwl	2(%r15,%r11), %esi
	movl	-76(%rsp), %r9d                 # 4-byte Reload
	xorw	%r9w, %si
	movl	%edi, %ecx
	xorl	%edx, %ecx
	xorl	%esi, %ecx
	movl	%ecx, -116(%rsp)                # 4-byte Spill
	movzwl	4(%r15,%r11), %r8d
	xorw	%bx, %r8w
	movl	%r14d, %esi
	movl	-120(%rsp), %ebp                # 4-byte Reload
	xorl	%ebp, %r14d
	movl	-72(%rsp), %ecx                 # 4-byte Reload
	xorl	%ecx, %edi
	xorl	%edi, %r10d
	xorl	%r14d, %r10d
	xorl	%r8d, %r10d
	movl	%r10d, -112(%rsp)               # 4-byte Spill
	xorl	%eax, %r14d
	xorl	%edx, %r14d
	xorl	-124(%rsp), %r14d               # 4-byte Folded Reload
	movl	%r14d, -124(%rsp)               # 4-byte Spill
	movq	%r11, %r8
	movq	%r15, %r11
	movzwl	8(%r15,%r8), %edx
	xorw	%r13w, %dx
	xorl	%edi, %ebx
	xorl	%ebx, %ebp
	xorl	%edx, %ebp
	movl	%ebp, %r15d
	movl	-128(%rsp), %r10d               # 4-byte Reload
	xorl	%eax, %r10d
	movl	-100(%rsp), %ebp                # 4-byte Reload
	xorl	%r9d, %ebp
	xorl	%edi, %r10d
	movq	%r11, %rdi
	movzwl	10(%r11,%r8), %eax
	xorw	%bp, %ax
	xorw	12(%r11,%r8), %bp
	xorl	%eax, %r10d
	movl	%r10d, %r11d
	movl	%r12d, %r13d
	xorl	%ecx, %r13d
	xorl	-56(%rsp), %r13d                # 4-byte Folded Reload
	xorl	%ebp, %r13d
	movzwl	14(%rdi,%r8), %eax
	xorw	%si, %ax
	xorl	%r9d, %ebx
	xorl	%eax, %ebx
	movl	-108(%rsp), %ecx                # 4-byte Reload
	movl	%ecx, %edx
	rolw	$10, %dx
	movl	%ecx, %r12d
	movl	%ecx, %esi
	rolw	$14, %r12w
	andl	$13107, %edx                    # imm = 0x3333
	andl	$-13108, %r12d                  # imm = 0xCCCC
	orl	%edx, %r12d
	movl	-116(%rsp), %eax                # 4-byte Reload
	movl	%eax, %edx
	rolw	$10, %dx
	movl	%eax, %r8d
	rolw	$14, %r8w
	andl	$13107, %edx                    # imm = 0x3333
	andl	$-13108, %r8d                   # imm = 0xCCCC
	movl	-112(%rsp), %r14d               # 4-byte Reload
	movl	%r14d, %edi
	rolw	$10, %di
	orl	%edx, %r8d
                                        # kill: def $r14w killed $r14w killed $r14d def $r14d
	rolw	$14, %r14w
	andl	$13107, %edi                    # imm = 0x3333
	movl	-124(%rsp), %ecx                # 4-byte Reload
	movl	%ecx, %edx
	rolw	$10, %dx
	andl	$-13108, %r14d                  # imm = 0xCCCC
	movl	%ecx, %ebp
	rolw	$14, %bp
	orl	%edi, %r14d
	andl	$13107, %edx                    # imm = 0x3333
	andl	$-13108, %ebp                   # imm = 0xCCCC
	orl	%edx, %ebp
	movl	%r15d, %edi
	movl	%r15d, -120(%rsp)               # 4-byte Spill
	movl	%edi, %edx
	rolw	$10, %dx
                                        # kill: def $di killed $di killed $edi def $edi
	rolw	$14, %di
	andl	$13107, %edx                    # imm = 0x3333
	andl	$-13108, %edi                   # imm = 0xCCCC
	orl	%edx, %edi
	movl	%r10d, -128(%rsp)               # 4-byte Spill
	movl	%r11d, %edx
	rolw	$10, %dx
                                        # kill: def $r11w killed $r11w killed $r11d def $r11d
	rolw	$14, %r11w
	andl	$13107, %edx                    # imm = 0x3333
	andl	$-13108, %r11d                  # imm = 0xCCCC
	movl	%r13d, %r15d
	rolw	$10, %r15w
	orl	%edx, %r11d
	movl	%r13d, %r10d
	rolw	$14, %r10w
	andl	$13107, %r15d                   # imm = 0x3333
	movl	%ebx, %edx
	rolw	$10, %dx
	andl	$-13108, %r10d                  # imm = 0xCCCC
	movl	%ebx, %r9d
	rolw	$14, %r9w
	orl	%r15d, %r10d
	andl	$13107, %edx                    # imm = 0x3333
	andl	$-13108, %r9d                   # imm = 0xCCCC
	orl	%edx, %r9d
	movl	%esi, %edx
	xorl	%esi, %r12d
	xorl	%eax, %r8d
	movl	-112(%rsp), %r15d               # 4-byte Reload
	xorl	%r15d, %r14d
	xorl	%ecx, %ebp
	movl	-120(%rsp), %ecx                # 4-byte Reload
	xorl	%ecx, %edi
	movl	-128(%rsp), %esi                # 4-byte Reload
	xorl	%esi, %r11d
	xorl	%r13d, %r10d
	xorl	%ebx, %r9d
	xorl	%r9d, %edx
	xorl	%r9d, %eax
	movl	%eax, -116(%rsp)                # 4-byte Spill
	xorl	%r8d, %r15d
	movl	-124(%rsp), %eax                # 4-byte Reload
	xorl	%r9d, %eax
	xorl	%r14d, %eax
	movl	%eax, -124(%rsp)                # 4-byte Spill
	xorl	%r9d, %ecx
	movl	%ecx, -120(%rsp)                # 4-byte Spill
	xorl	%edi, %esi
	movl	%esi, -128(%rsp)                # 4-byte Spill
	xorl	%r11d, %r13d
	movl	%r13d, %eax
	xorl	%r10d, %ebx
	xorl	%edx, %r14d
	movl	%edx, %r13d
	xorl	%ebx, %r14d
	xorl	%ebx, %r11d
	xorl	%esi, %r9d
	movl	%r9d, %ecx
	movl	%ecx, -108(%rsp)                # 4-byte Spill
	xorl	%ebx, %r9d
	xorl	%eax, %ebx
	xorl	%ebx, %r8d
	movl	%r15d, %esi
	xorl	%r15d, %edi
	xorl	%ebx, %edi
	movl	-116(%rsp), %ecx                # 4-byte Reload
	xorl	%r12d, %ecx
	xorl	%eax, %r12d
	movl	%eax, %r15d
	movl	%r12d, %edx
	xorl	%r13d, %r12d
	rolw	$8, %dx
	xorl	%edx, %r12d
	movl	-120(%rsp), %ebx                # 4-byte Reload
	xorl	%ebp, %ebx
	xorl	%ecx, %ebp
	movl	%r8d, %edx
	xorl	%ecx, %r8d
	xorl	%eax, %ebp
	movl	-124(%rsp), %eax                # 4-byte Reload
	xorl	%eax, %r11d
	xorl	%ebx, %r10d
	movl	%ebx, %r13d
	rolw	$8, %dx
	xorl	%edx, %r8d
	movl	%r14d, %edx
	rolw	$8, %dx
	xorl	%esi, %r14d
	movl	%ebp, %ecx
	rolw	$8, %cx
	xorl	%edx, %r14d
	movl	%edi, %edx
	rolw	$8, %dx
	xorl	%eax, %ebp
	movl	%r11d, %ebx
	rolw	$8, %bx
	xorl	%ecx, %ebp
	movl	%r10d, %ecx
	rolw	$8, %cx
	movl	-108(%rsp), %eax                # 4-byte Reload
	rolw	$8, %ax
	xorl	%r13d, %edi
	xorl	%edx, %edi
	xorl	-128(%rsp), %r11d               # 4-byte Folded Reload
	xorl	%ebx, %r11d
	xorl	%r15d, %r10d
	xorl	%ecx, %r10d
	xorl	%eax, %r9d
	movl	%r11d, %edx
	xorl	%r14d, %edx
	movl	%r8d, %ecx
	xorl	%r8d, %r14d
	movl	%r14d, -56(%rsp)                # 4-byte Spill
	movl	%r8d, %ebx
	xorl	%r12d, %ebx
	movl	%r10d, %r13d
	xorl	%r9d, %r13d
	movl	%edi, %esi
	xorl	%r10d, %esi
	movl	%r11d, %r14d
	xorl	%ebp, %r14d
	xorl	%r10d, %ecx
	xorl	%ecx, %r14d
	movl	%r14d, -112(%rsp)               # 4-byte Spill
	movl	%ecx, %r8d
	movl	%esi, %eax
	xorl	%edx, %eax
	movl	%eax, -108(%rsp)                # 4-byte Spill
	xorl	%r9d, %edx
	movl	%edx, -116(%rsp)                # 4-byte Spill
	xorl	%edi, %r9d
	xorl	%ebp, %edi
	movl	%edi, %ecx
	xorl	%ebx, %ecx
	movl	%ecx, -128(%rsp)                # 4-byte Spill
	orl	%r14d, %ecx
	movl	%edi, %r14d
	xorl	%r12d, %r14d
	movl	%r14d, -104(%rsp)               # 4-byte Spill
	movl	%esi, -92(%rsp)                 # 4-byte Spill
	andl	%esi, %r14d
	xorl	%ecx, %r14d
	xorl	%r9d, %r10d
	movl	%r9d, -76(%rsp)                 # 4-byte Spill
	movl	%r10d, %ecx
	xorl	%ebp, %ecx
	movl	%ecx, -100(%rsp)                # 4-byte Spill
	xorl	%r12d, %ebp
	movl	%edi, %eax
	xorl	-56(%rsp), %eax                 # 4-byte Folded Reload
	andl	%eax, %ecx
	movl	%eax, -120(%rsp)                # 4-byte Spill
	movl	%ebx, -124(%rsp)                # 4-byte Spill
	xorl	%esi, %ebx
	movl	%ebx, -72(%rsp)                 # 4-byte Spill
	xorl	%ebp, %r8d
	movl	%r8d, -40(%rsp)                 # 4-byte Spill
	andl	%edx, %ebx
	xorl	%ebp, %ebx
	xorl	%r13d, %ebp
	movl	%ebp, %edx
	andl	%r13d, %edx
	movl	%r13d, -96(%rsp)                # 4-byte Spill
	xorl	%ebp, %eax
	andl	%edi, %eax
	xorl	%eax, %ecx
	xorl	%edx, %eax
	movl	-124(%rsp), %esi                # 4-byte Reload
	xorl	%r13d, %esi
	movl	%esi, -124(%rsp)                # 4-byte Spill
	movl	-108(%rsp), %edx                # 4-byte Reload
	andl	%esi, %edx
	movl	%r10d, %r15d
	andl	%r9d, %r15d
	xorl	%edx, %ebx
	movl	-56(%rsp), %r8d                 # 4-byte Reload
	xorl	%ebp, %r8d
	xorl	%r8d, %r15d
	xorl	%edx, %r15d
	xorl	%ecx, %r14d
	xorl	%ecx, %r15d
	movl	-128(%rsp), %esi                # 4-byte Reload
	andl	-112(%rsp), %esi                # 4-byte Folded Reload
	movl	-72(%rsp), %ecx                 # 4-byte Reload
	xorl	%r11d, %ecx
	movl	%ecx, -56(%rsp)                 # 4-byte Spill
	xorl	%r11d, %esi
	movl	-40(%rsp), %r12d                # 4-byte Reload
	andl	%r12d, %ecx
	xorl	%ecx, %esi
	xorl	%eax, %ebx
	xorl	%edi, %esi
	xorl	%eax, %esi
	movl	%r15d, %ecx
	andl	%r14d, %ecx
	movl	%ecx, %r11d
	xorl	%ebx, %r11d
	movl	%esi, %r13d
	xorl	%r14d, %r13d
	movl	%ecx, %r9d
	xorl	%esi, %r9d
	andl	%r13d, %r11d
	xorl	%esi, %r11d
	andl	%r15d, %esi
	xorl	%ebx, %r15d
	andl	%r15d, %esi
	andl	%r15d, %r9d
	xorl	%ecx, %r15d
	xorl	%esi, %r15d
	xorl	%ebx, %r9d
	andl	%r14d, %ebx
	andl	%r13d, %ebx
	xorl	%ecx, %r13d
	xorl	%ebx, %r13d
	movl	-92(%rsp), %eax                 # 4-byte Reload
	andl	%r15d, %eax
	movl	-104(%rsp), %esi                # 4-byte Reload
	andl	%r15d, %esi
	movl	%r15d, %ecx
	xorl	%r13d, %r15d
	movl	-76(%rsp), %edx                 # 4-byte Reload
	andl	%r13d, %edx
	movl	%r13d, %r14d
	andl	%r10d, %r13d
	andl	%r9d, %r12d
	movl	%r9d, %ebx
	xorl	%r11d, %ebx
	andl	%ebx, %r8d
	movl	%r8d, -92(%rsp)                 # 4-byte Spill
	xorl	%r12d, %r8d
	movl	%r15d, %r10d
	xorl	%ebx, %r10d
	andl	%edi, %ebx
	movl	%ebx, -104(%rsp)                # 4-byte Spill
	xorl	%r11d, %r14d
	andl	%r11d, -116(%rsp)               # 4-byte Folded Spill
	andl	-72(%rsp), %r11d                # 4-byte Folded Reload
	xorl	%r9d, %ecx
	andl	%ecx, -128(%rsp)                # 4-byte Folded Spill
	andl	-112(%rsp), %ecx                # 4-byte Folded Reload
	andl	-56(%rsp), %r9d                 # 4-byte Folded Reload
	movl	-108(%rsp), %r12d               # 4-byte Reload
	andl	%r14d, %r12d
	andl	-124(%rsp), %r14d               # 4-byte Folded Reload
	movl	-120(%rsp), %ebx                # 4-byte Reload
	andl	%r10d, %ebx
	xorl	%esi, %ebx
	movl	%ebx, -120(%rsp)                # 4-byte Spill
	xorl	%esi, %r13d
	andl	-100(%rsp), %r10d               # 4-byte Folded Reload
	andl	%r15d, %ebp
	andl	-96(%rsp), %r15d                # 4-byte Folded Reload
	movl	%r12d, %ebx
	xorl	%r9d, %ebx
	movl	%r10d, %edi
	xorl	%ecx, %r10d
	xorl	%ecx, %r9d
	movl	%ecx, %esi
	xorl	%r13d, %esi
	xorl	%r8d, %esi
	movl	-116(%rsp), %ecx                # 4-byte Reload
	movl	%edx, %r8d
	xorl	%ecx, %r8d
	xorl	%ecx, %r12d
	movl	%eax, %edx
	movl	-92(%rsp), %eax                 # 4-byte Reload
	xorl	%edx, %eax
	movl	%r8d, %ecx
	xorl	%edx, %r8d
	xorl	%ebp, %edi
	xorl	%ebp, %r8d
	movl	-128(%rsp), %ebp                # 4-byte Reload
	xorl	%ebp, %eax
	xorl	%r11d, %ecx
	xorl	%ecx, %ebp
	xorl	%r15d, %r14d
	xorl	%ebx, %r15d
	xorl	%ecx, %r15d
	xorl	%ebx, %r13d
	xorl	%edi, %ebp
	xorl	%eax, %edi
	movl	-120(%rsp), %ecx                # 4-byte Reload
	xorl	%eax, %ecx
	xorl	-104(%rsp), %r11d               # 4-byte Folded Reload
	xorl	%edi, %r13d
	xorl	%edi, %r12d
	xorl	%r9d, %edi
	movl	%ecx, %eax
	xorl	%ecx, %r10d
	xorl	%r15d, %eax
	xorl	%r14d, %r8d
	xorl	%r14d, %r11d
	xorl	%esi, %ebp
	xorl	%esi, %r8d
	movd	%edi, %xmm1
	movd	%r8d, %xmm2
	movd	%ebp, %xmm3
	movd	%r12d, %xmm4
	movd	%eax, %xmm5
	movd	%r13d, %xmm6
	movd	%r10d, %xmm7
	movd	%r11d, %xmm0
	punpcklwd	%xmm1, %xmm2            # xmm2 = xmm2[0],xmm1[0],xmm2[1],xmm1[1],xmm2[2],xmm1[2],xmm2[3],xmm1[3]
	punpcklwd	%xmm3, %xmm4            # xmm4 = xmm4[0],xmm3[0],xmm4[1],xmm3[1],xmm4[2],xmm3[2],xmm4[3],xmm3[3]
	punpckldq	%xmm2, %xmm4            # xmm4 = xmm4[0],xmm2[0],xmm4[1],xmm2[1]
	punpcklwd	%xmm5, %xmm6            # xmm6 = xmm6[0],xmm5[0],xmm6[1],xmm5[1],xmm6[2],xmm5[2],xmm6[3],xmm5[3]
	punpcklwd	%xmm7, %xmm0            # xmm0 = xmm0[0],xmm7[0],xmm0[1],xmm7[1],xmm0[2],xmm7[2],xmm0[3],xmm7[3]
	punpckldq	%xmm6, %xmm0            # xmm0 = xmm0[0],xmm6[0],xmm0[1],xmm6[1]
	punpcklqdq	%xmm4, %xmm0            # xmm0 = xmm0[0],xmm4[0]
	jmp	LBB17_3
LBB17_2:                               # %else.4.i
	movdqa	%xmm1, %xmm2
	psrlw	$2, %xmm2
	pxor	%xmm1, %xmm2
	pand	l_CPI17_0(%rip), %xmm2
	movdqa	%xmm2, %xmm0
	psllw	$2, %xmm0
	por	%xmm2, %xmm0
	pxor	%xmm1, %xmm0
LBB17_3:                               # %join.10.preheader.i
	movq	-88(%rsp), %rdi                 # 8-byte Reload
	shll	$4, %edi
	pextrw	$1, %xmm0, %r10d
	movq	-48(%rsp), %rdx                 # 8-byte Reload
	xorw	18(%rdx,%rdi), %r10w
	movl	%r10d, %eax
	rolw	$11, %ax
	andl	$30583, %eax                    # imm = 0x7777
	movl	%r10d, %r11d
	rorw	%r11w
	andl	$-30584, %r11d                  # imm = 0x8888
	orl	%eax, %r11d
	pextrw	$2, %xmm0, %r9d
	xorl	%r10d, %r11d
	movq	%rdx, %rax
	xorw	20(%rdx,%rdi), %r9w
	movl	%r9d, %edx
	pextrw	$6, %xmm0, %r8d
	xorw	28(%rax,%rdi), %r8w
	movq	%rax, %rbx
	movl	%r11d, %r14d
	movl	%r8d, %esi
	rolw	$11, %si
	movl	%r8d, %eax
	movl	%eax, -128(%rsp)                # 4-byte Spill
	andl	$30583, %esi                    # imm = 0x7777
	rorw	%r8w
	andl	$-30584, %r8d                   # imm = 0x8888
	orl	%esi, %r8d
	pextrw	$7, %xmm0, %r12d
	xorl	%eax, %r8d
	xorw	30(%rbx,%rdi), %r12w
	movq	%rbx, %r13
	movl	%r12d, %esi
	movl	%r8d, %eax
	movl	%r9d, %ebx
	rolw	$11, %bx
	xorl	%esi, %eax
	andl	$30583, %ebx                    # imm = 0x7777
	rorw	%r9w
	andl	$-30584, %r9d                   # imm = 0x8888
	orl	%ebx, %r9d
	xorl	%edx, %r9d
	movl	%eax, %ecx
	movl	%eax, -124(%rsp)                # 4-byte Spill
	xorl	%r9d, %ecx
	movl	%r12d, %ebx
	rolw	$11, %bx
	andl	$30583, %ebx                    # imm = 0x7777
	rorw	%r12w
	andl	$-30584, %r12d                  # imm = 0x8888
	orl	%ebx, %r12d
	movd	%xmm0, %ebx
	xorw	16(%r13,%rdi), %bx
	xorl	%esi, %r12d
	movl	%ebx, %esi
	movl	%r12d, %ebp
	xorl	%esi, %ebp
	movl	%ebp, -88(%rsp)                 # 4-byte Spill
	xorl	%ebp, %ecx
	movl	%ecx, %ebp
	rolw	$6, %bp
	xorl	%edx, %r14d
	movl	%r14d, -108(%rsp)               # 4-byte Spill
	movl	%ecx, %edx
	rolw	$10, %dx
	andl	$13107, %ebp                    # imm = 0x3333
	andl	$-13108, %edx                   # imm = 0xCCCC
	orl	%ebp, %edx
	xorl	%r14d, %ecx
	xorl	%edx, %ecx
	movl	%ecx, -120(%rsp)                # 4-byte Spill
	movl	%ebx, %edx
	rolw	$11, %dx
	andl	$30583, %edx                    # imm = 0x7777
	rorw	%bx
	andl	$-30584, %ebx                   # imm = 0x8888
	orl	%edx, %ebx
	xorl	%esi, %ebx
	pextrw	$5, %xmm0, %r15d
	xorw	26(%r13,%rdi), %r15w
	movl	%r15d, %r14d
	movl	%r15d, %edx
	rolw	$11, %dx
	rorw	%r15w
	andl	$30583, %edx                    # imm = 0x7777
	andl	$-30584, %r15d                  # imm = 0x8888
	orl	%edx, %r15d
	xorl	%r14d, %r15d
	movl	%r15d, %esi
	xorl	-128(%rsp), %esi                # 4-byte Folded Reload
	movl	%esi, -128(%rsp)                # 4-byte Spill
	xorl	%eax, %esi
	xorl	%esi, %r11d
	movl	%r11d, %eax
	rolw	$6, %ax
	andl	$13107, %eax                    # imm = 0x3333
	movl	%r11d, %edx
	rolw	$10, %dx
	andl	$-13108, %edx                   # imm = 0xCCCC
	orl	%eax, %edx
	xorl	%ebx, %r10d
	xorl	%r12d, %r10d
	pextrw	$3, %xmm0, %ecx
	movq	%r13, %rax
	xorw	22(%r13,%rdi), %cx
	xorl	%r10d, %r11d
	movl	%ecx, %r13d
	rolw	$11, %r13w
	xorl	%edx, %r11d
	movl	%ecx, %edx
	rorw	%cx
	andl	$30583, %r13d                   # imm = 0x7777
	andl	$-30584, %ecx                   # imm = 0x8888
	pextrw	$4, %xmm0, %ebp
	orl	%r13d, %ecx
	xorw	24(%rax,%rdi), %bp
	movl	%ebp, %r13d
	rolw	$11, %r13w
	andl	$30583, %r13d                   # imm = 0x7777
	movl	%ebp, %eax
	movl	%eax, -116(%rsp)                # 4-byte Spill
	rorw	%bp
	andl	$-30584, %ebp                   # imm = 0x8888
	orl	%r13d, %ebp
	xorl	%eax, %ebp
	movl	-108(%rsp), %edi                # 4-byte Reload
	xorl	%ebp, %edi
	xorl	%r14d, %ebp
	xorl	%edx, %ecx
	xorl	%edx, %r9d
	xorl	%r12d, %r9d
	movl	-124(%rsp), %r13d               # 4-byte Reload
	xorl	%r13d, %r15d
	xorl	%r9d, %r15d
	movl	%r15d, %eax
	movl	%r15d, %r14d
	xorl	%ebp, %r15d
	xorl	%r12d, %ebp
	xorl	-116(%rsp), %r12d               # 4-byte Folded Reload
	xorl	%esi, %edi
	movl	%edi, %edx
	rolw	$6, %dx
	andl	$13107, %edx                    # imm = 0x3333
	movl	%edi, %esi
	rolw	$10, %si
	andl	$-13108, %esi                   # imm = 0xCCCC
	orl	%edx, %esi
	xorl	%ecx, %r12d
	xorl	%r12d, %edi
	xorl	%esi, %edi
	movl	%ebp, %edx
	rolw	$6, %dx
	andl	$13107, %edx                    # imm = 0x3333
	movl	%ebp, %esi
	rolw	$10, %si
	andl	$-13108, %esi                   # imm = 0xCCCC
	orl	%edx, %esi
	xorl	%r13d, %ebp
	xorl	%esi, %ebp
	xorl	%r8d, %r12d
	movl	%r12d, %edx
	rolw	$6, %dx
	andl	$13107, %edx                    # imm = 0x3333
	movl	%r12d, %esi
	rolw	$10, %si
	andl	$-13108, %esi                   # imm = 0xCCCC
	orl	%edx, %esi
	movl	-128(%rsp), %r8d                # 4-byte Reload
	xorl	%r8d, %r12d
	xorl	%esi, %r12d
	movl	%ecx, %esi
	xorl	%r8d, %esi
	xorl	%r10d, %esi
	movl	%esi, %ecx
	rolw	$6, %cx
	andl	$13107, %ecx                    # imm = 0x3333
	movl	%esi, %edx
	rolw	$10, %dx
	andl	$-13108, %edx                   # imm = 0xCCCC
	orl	%ecx, %edx
	movl	%edi, %ecx
	xorl	%ebp, %ecx
	movl	%ecx, -124(%rsp)                # 4-byte Spill
	xorl	%r9d, %esi
	xorl	%r12d, %ecx
	movl	%ecx, %r13d
	xorl	%edx, %esi
	xorl	%ebx, %r8d
	movl	%r8d, %ecx
	rolw	$6, %cx
	andl	$13107, %ecx                    # imm = 0x3333
	movl	%r8d, %edx
	rolw	$10, %dx
	andl	$-13108, %edx                   # imm = 0xCCCC
	orl	%ecx, %edx
	xorl	-88(%rsp), %r8d                 # 4-byte Folded Reload
	xorl	%edx, %r8d
	movl	%esi, %r10d
	xorl	%r8d, %r10d
	movl	%r10d, -32(%rsp)                # 4-byte Spill
	rolw	$6, %ax
	andl	$13107, %eax                    # imm = 0x3333
	rolw	$10, %r14w
	andl	$-13108, %r14d                  # imm = 0xCCCC
	orl	%eax, %r14d
	xorl	%r14d, %r15d
	movl	%edi, %eax
	xorl	%r12d, %eax
	movl	%eax, %edx
	movl	%r11d, %eax
	xorl	%r8d, %eax
	movl	%eax, %r14d
	movl	%esi, %eax
	xorl	%esi, %edi
	movl	%r13d, %esi
	movl	%r13d, -116(%rsp)               # 4-byte Spill
	movl	%r13d, %ecx
	xorl	%eax, %ecx
	movl	%ecx, -56(%rsp)                 # 4-byte Spill
	movl	%eax, %r9d
	xorl	%edi, %r8d
	movl	%r8d, -128(%rsp)                # 4-byte Spill
	movl	%r8d, %eax
	andl	%edx, %eax
	movl	%edx, %ecx
	movl	%edx, -112(%rsp)                # 4-byte Spill
	movl	%edi, %ebx
	xorl	%r14d, %ebx
	movl	%ebx, -72(%rsp)                 # 4-byte Spill
	xorl	%r15d, %r9d
	movl	%r12d, %r8d
	xorl	%r11d, %r12d
	xorl	%r12d, %r9d
	movl	%r9d, -104(%rsp)                # 4-byte Spill
	orl	%r9d, %ebx
	xorl	%eax, %ebx
	movl	%r11d, %r9d
	movl	-120(%rsp), %r13d               # 4-byte Reload
	xorl	%r13d, %r9d
	movl	%esi, %edx
	andl	-124(%rsp), %edx                # 4-byte Folded Reload
	xorl	%ebp, %r8d
	movl	%r8d, %eax
	xorl	%r10d, %eax
	movl	%eax, %esi
	xorl	%r15d, %r13d
	movl	%ecx, %eax
	xorl	%r13d, %eax
	movl	%eax, -76(%rsp)                 # 4-byte Spill
	movl	%r8d, %ecx
	movl	%r14d, %r11d
	xorl	%r14d, %ecx
	movl	%ecx, -100(%rsp)                # 4-byte Spill
	andl	%ecx, %eax
	movl	%edi, -108(%rsp)                # 4-byte Spill
	movl	%edi, %r14d
	xorl	%r9d, %r14d
	movl	%r14d, -96(%rsp)                # 4-byte Spill
	movl	%r14d, %r10d
	movl	%esi, %ecx
	xorl	%esi, %r10d
	andl	%edi, %r10d
	movl	-56(%rsp), %esi                 # 4-byte Reload
	andl	%r14d, %esi
	xorl	%r10d, %esi
	xorl	%ecx, %r9d
	movl	%r9d, -88(%rsp)                 # 4-byte Spill
	movl	%ecx, -40(%rsp)                 # 4-byte Spill
	xorl	%r9d, %edx
	xorl	%eax, %edx
	xorl	%esi, %edx
	xorl	%esi, %ebx
	xorl	%ebp, %r13d
	movl	%r13d, -120(%rsp)               # 4-byte Spill
	movl	-112(%rsp), %edi                # 4-byte Reload
	xorl	%edi, %r11d
	movl	%r11d, %ebp
	movl	%r11d, %r9d
	movl	%r11d, -92(%rsp)                # 4-byte Spill
	andl	%r13d, %ebp
	movl	-32(%rsp), %esi                 # 4-byte Reload
	xorl	%esi, %ebp
	xorl	%eax, %ebp
	movl	%ecx, %r11d
	andl	%r8d, %r11d
	xorl	%r10d, %r11d
	xorl	%esi, %r12d
	movl	-72(%rsp), %eax                 # 4-byte Reload
	andl	-104(%rsp), %eax                # 4-byte Folded Reload
	xorl	%r15d, %r9d
	xorl	%r15d, %eax
	movl	%r9d, %ecx
	andl	%r12d, %ecx
	xorl	%ecx, %eax
	xorl	%r11d, %ebp
	movl	-108(%rsp), %r13d               # 4-byte Reload
	xorl	%r13d, %eax
	xorl	%r11d, %eax
	movl	%edx, %esi
	andl	%ebx, %esi
	movl	%ebp, %r11d
	andl	%ebx, %r11d
	xorl	%eax, %ebx
	andl	%ebx, %r11d
	movl	%esi, %r14d
	xorl	%ebx, %r14d
	xorl	%r11d, %r14d
	movl	%eax, %r15d
	andl	%edx, %r15d
	xorl	%ebp, %edx
	movl	%esi, %r10d
	xorl	%eax, %r10d
	andl	%edx, %r10d
	xorl	%ebp, %r10d
	xorl	%esi, %ebp
	andl	%edx, %r15d
	xorl	%edx, %esi
	xorl	%r15d, %esi
	andl	%ebx, %ebp
	xorl	%eax, %ebp
	movl	-116(%rsp), %ecx                # 4-byte Reload
	andl	%r14d, %ecx
	movl	-128(%rsp), %edx                # 4-byte Reload
	andl	%esi, %edx
	movl	%edx, -128(%rsp)                # 4-byte Spill
	andl	%esi, %edi
	movl	%edi, -112(%rsp)                # 4-byte Spill
	andl	%r14d, -124(%rsp)               # 4-byte Folded Spill
	movl	%esi, %ebx
	xorl	%r14d, %esi
	xorl	%ebp, %r14d
	andl	%r14d, -100(%rsp)               # 4-byte Folded Spill
	andl	-76(%rsp), %r14d                # 4-byte Folded Reload
	xorl	%r10d, %ebx
	andl	%r10d, %r12d
	movl	%r10d, %eax
	andl	%r9d, %r10d
	movl	%r13d, %edi
	xorl	%ebp, %eax
	movl	-40(%rsp), %r11d                # 4-byte Reload
	andl	%esi, %r11d
	andl	%esi, %r8d
	xorl	%eax, %esi
	andl	%esi, -96(%rsp)                 # 4-byte Folded Spill
	andl	-56(%rsp), %esi                 # 4-byte Folded Reload
	xorl	%edx, %ecx
	movl	%ecx, -116(%rsp)                # 4-byte Spill
	movl	-104(%rsp), %edx                # 4-byte Reload
	andl	%ebx, %edx
	movl	-88(%rsp), %r9d                 # 4-byte Reload
	andl	%eax, %r9d
	movl	%r9d, -88(%rsp)                 # 4-byte Spill
	xorl	%r9d, %r12d
	movl	%r14d, %r9d
	xorl	%r10d, %r9d
	movl	%esi, %r15d
	xorl	%edx, %r15d
	xorl	%edx, %r10d
	xorl	%ecx, %edx
	xorl	%r12d, %edx
	andl	%eax, %edi
	movl	-120(%rsp), %r13d               # 4-byte Reload
	andl	%ebp, %r13d
	andl	-92(%rsp), %ebp                 # 4-byte Folded Reload
	movl	-124(%rsp), %r12d               # 4-byte Reload
	xorl	%r13d, %r12d
	movl	-100(%rsp), %ecx                # 4-byte Reload
	xorl	%r8d, %ecx
	xorl	%ebp, %edi
	xorl	%r12d, %ebp
	movl	-112(%rsp), %eax                # 4-byte Reload
	xorl	%eax, %r12d
	xorl	%r11d, %r12d
	xorl	%ecx, %r12d
	xorl	%ecx, %edi
	movl	-96(%rsp), %ecx                 # 4-byte Reload
	xorl	-128(%rsp), %ecx                # 4-byte Folded Reload
	andl	-72(%rsp), %ebx                 # 4-byte Folded Reload
	xorl	-88(%rsp), %eax                 # 4-byte Folded Reload
	xorl	%r9d, %r8d
	xorl	%ebp, %r8d
	xorl	%ebx, %eax
	xorl	%eax, %ecx
	xorl	%ecx, %r8d
	xorl	%ecx, %r15d
	xorl	%r11d, %esi
	xorl	%ebp, %ebx
	xorl	%edx, %r12d
	xorl	%esi, %ebx
	xorl	%edx, %ebx
	xorl	%eax, %esi
	xorl	%r13d, %r14d
	xorl	-116(%rsp), %r9d                # 4-byte Folded Reload
	xorl	%esi, %r10d
	xorl	%esi, %r14d
	movl	%r14d, -124(%rsp)               # 4-byte Spill
	xorl	%esi, %r9d
	movq	-64(%rsp), %rax                 # 8-byte Reload
	shlq	$6, %rax
	.p2align	4
LBB17_4:                               # %join.10.i
                                        # =>This Inner Loop Header: Depth=1
	movq	%rax, -64(%rsp)                 # 8-byte Spill
	movq	-48(%rsp), %r14                 # 8-byte Reload
	xorw	(%r14,%rax), %di
	movl	%edi, %esi
	xorw	2(%r14,%rax), %r15w
	movl	%r15d, %ebp
	xorw	4(%r14,%rax), %r9w
	movl	%r9d, %r13d
	movl	%r13d, -128(%rsp)               # 4-byte Spill
	xorw	6(%r14,%rax), %r8w
	movl	-124(%rsp), %r11d               # 4-byte Reload
	xorw	8(%r14,%rax), %r11w
	movl	%r8d, %edx
	movl	%r11d, %ecx
	xorw	10(%r14,%rax), %bx
	xorw	14(%r14,%rax), %r10w
	rolw	$12, %di
	rolw	$12, %r15w
	rolw	$12, %r9w
	rolw	$12, %r8w
	rolw	$12, %r11w
	movl	%r10d, %eax
	movl	%eax, -124(%rsp)                # 4-byte Spill
	rolw	$12, %r10w
	xorl	%esi, %edi
	xorl	%ebp, %r15d
	xorl	%r13d, %r9d
	xorl	%edx, %r8d
	xorl	%ecx, %r11d
	xorl	%eax, %r10d
	movl	%r10d, %eax
	xorl	%esi, %eax
	movl	%edi, %esi
	xorl	%ebp, %esi
	movl	%r9d, %ebp
	xorl	%edx, %ebp
	movl	%edi, %r13d
	movl	%r8d, %edi
	xorl	%ecx, %edi
	movl	%ebx, %ecx
	movq	-64(%rsp), %rdx                 # 8-byte Reload
	xorw	12(%r14,%rdx), %r12w
	rolw	$12, %bx
	xorl	%ecx, %ebx
	movl	%r11d, %edx
	xorl	%ecx, %edx
	movl	%edx, -120(%rsp)                # 4-byte Spill
	movl	%r12d, %ecx
	rolw	$12, %r12w
	xorl	%ecx, %r12d
	movl	%ebx, %r14d
	xorl	%ecx, %r14d
	movl	%r12d, %ecx
	xorl	-124(%rsp), %ecx                # 4-byte Folded Reload
	xorl	%r10d, %esi
	xorl	%r10d, %ebp
	xorl	%r10d, %edi
	xorl	%ecx, %r9d
	xorl	%ecx, %ebx
	xorl	%edx, %r10d
	movl	%r10d, %edx
	movl	%edx, -124(%rsp)                # 4-byte Spill
	xorl	%ecx, %r10d
	xorl	%r14d, %ecx
	movl	%ecx, %edx
	xorl	%r15d, %edx
	xorl	-128(%rsp), %r15d               # 4-byte Folded Reload
	xorl	%r15d, %r11d
	xorl	%ecx, %r11d
	xorl	%r14d, %r13d
	xorl	%eax, %r9d
	movl	%r13d, %ecx
	xorl	%eax, %r13d
	rolw	$8, %cx
	xorl	%ecx, %r13d
	xorl	%r14d, %r8d
	xorl	%esi, %r8d
	movl	%edx, %ecx
	xorl	%esi, %edx
	xorl	%ebp, %ebx
	xorl	%edi, %r12d
	rolw	$8, %cx
	xorl	%ecx, %edx
	movl	%r9d, %ecx
	rolw	$8, %cx
	xorl	%r15d, %r9d
	movl	%r8d, %r15d
	rolw	$8, %r15w
	xorl	%ecx, %r9d
	movl	%r11d, %ecx
	rolw	$8, %cx
	xorl	%ebp, %r8d
	movl	%ebx, %esi
	rolw	$8, %si
	movl	%r12d, %eax
	rolw	$8, %ax
	movl	-124(%rsp), %ebp                # 4-byte Reload
	rolw	$8, %bp
	xorl	%r15d, %r8d
	xorl	%edi, %r11d
	xorl	%ecx, %r11d
	xorl	-120(%rsp), %ebx                # 4-byte Folded Reload
	xorl	%esi, %ebx
	xorl	%r14d, %r12d
	xorl	%eax, %r12d
	xorl	%ebp, %r10d
	movl	%ebx, %eax
	xorl	%r9d, %eax
	movl	%r12d, %ecx
	xorl	%edx, %ecx
	xorl	%edx, %r9d
	movl	%edx, %ebp
	xorl	%r13d, %ebp
	movl	%r12d, %r14d
	xorl	%r10d, %r14d
	movl	%r11d, %esi
	xorl	%r12d, %esi
	movl	%ebx, %edi
	xorl	%r8d, %edi
	movl	%ecx, %edx
	xorl	%ecx, %edi
	movl	%edi, %r15d
	movl	%edi, -104(%rsp)                # 4-byte Spill
	movl	%esi, %ecx
	movl	%esi, %edi
	xorl	%eax, %ecx
	movl	%ecx, -128(%rsp)                # 4-byte Spill
	xorl	%r10d, %eax
	movl	%eax, %esi
	movl	%eax, -116(%rsp)                # 4-byte Spill
	xorl	%r11d, %r10d
	xorl	%r8d, %r11d
	movl	%r11d, %ecx
	xorl	%ebp, %ecx
	movl	%ecx, -120(%rsp)                # 4-byte Spill
	orl	%r15d, %ecx
	movl	%r11d, %r15d
	xorl	%r13d, %r15d
	movl	%r15d, -96(%rsp)                # 4-byte Spill
	movl	%edi, %eax
	movl	%edi, -112(%rsp)                # 4-byte Spill
	andl	%edi, %r15d
	xorl	%ecx, %r15d
	xorl	%r10d, %r12d
	movl	%r12d, %edi
	xorl	%r8d, %edi
	movl	%edi, -56(%rsp)                 # 4-byte Spill
	xorl	%r13d, %r8d
	movl	%r14d, %ecx
	xorl	%ebp, %ecx
	movl	%ecx, -72(%rsp)                 # 4-byte Spill
	movl	%r11d, %ecx
	xorl	%r9d, %ecx
	andl	%ecx, %edi
	movl	%ecx, %r13d
	movl	%ecx, -88(%rsp)                 # 4-byte Spill
	xorl	%eax, %ebp
	movl	%ebp, -124(%rsp)                # 4-byte Spill
	xorl	%r8d, %edx
	movl	%edx, %eax
	movl	%edx, -108(%rsp)                # 4-byte Spill
	movl	%ebp, %ecx
	andl	%esi, %ecx
	xorl	%r8d, %ecx
	movl	%r14d, -100(%rsp)               # 4-byte Spill
	xorl	%r14d, %r8d
	movl	%r8d, %edx
	andl	%r14d, %edx
	movl	%r13d, %esi
	xorl	%r8d, %esi
	andl	%r11d, %esi
	xorl	%esi, %edi
	xorl	%edx, %esi
	movl	-128(%rsp), %ebp                # 4-byte Reload
	andl	-72(%rsp), %ebp                 # 4-byte Folded Reload
	movl	%r12d, %edx
	andl	%r10d, %edx
	xorl	%ebp, %ecx
	xorl	%r8d, %r9d
	xorl	%r9d, %edx
	xorl	%ebp, %edx
	xorl	%edi, %r15d
	xorl	%edi, %edx
	movl	-120(%rsp), %ebp                # 4-byte Reload
	movl	-104(%rsp), %r14d               # 4-byte Reload
	andl	%r14d, %ebp
	movl	-124(%rsp), %r13d               # 4-byte Reload
	xorl	%ebx, %r13d
	xorl	%ebx, %ebp
	movl	%r13d, %edi
	andl	%eax, %edi
	xorl	%edi, %ebp
	xorl	%esi, %ecx
	xorl	%r11d, %ebp
	xorl	%esi, %ebp
	movl	%edx, %eax
	andl	%r15d, %eax
	movl	%eax, %esi
	xorl	%ecx, %esi
	movl	%ebp, %edi
	xorl	%r15d, %edi
	movl	%eax, %ebx
	xorl	%ebp, %ebx
	andl	%edi, %esi
	xorl	%ebp, %esi
	andl	%edx, %ebp
	xorl	%ecx, %edx
	andl	%edx, %ebp
	andl	%edx, %ebx
	xorl	%eax, %edx
	xorl	%ebp, %edx
	xorl	%ecx, %ebx
	movl	%edx, %ebp
	xorl	%ebx, %ebp
	andl	%ebp, -120(%rsp)                # 4-byte Folded Spill
	andl	%r14d, %ebp
	movl	%ebp, -104(%rsp)                # 4-byte Spill
	andl	%ebx, -108(%rsp)                # 4-byte Folded Spill
	movl	%ebx, %ebp
	andl	%r13d, %ebx
	andl	%r15d, %ecx
	andl	%edi, %ecx
	xorl	%eax, %edi
	xorl	%ecx, %edi
	xorl	%esi, %ebp
	andl	%edx, -112(%rsp)                # 4-byte Folded Spill
	andl	%esi, -116(%rsp)                # 4-byte Folded Spill
	movl	-124(%rsp), %r14d               # 4-byte Reload
	andl	%esi, %r14d
	movl	-96(%rsp), %eax                 # 4-byte Reload
	andl	%edx, %eax
	xorl	%edi, %edx
	andl	%edi, %r10d
	xorl	%edi, %esi
	andl	%r12d, %edi
	movl	%edi, %r15d
	andl	%esi, -128(%rsp)                # 4-byte Folded Spill
	andl	-72(%rsp), %esi                 # 4-byte Folded Reload
	andl	%ebp, %r11d
	movl	%r11d, -124(%rsp)               # 4-byte Spill
	andl	%ebp, %r9d
	xorl	%edx, %ebp
	movl	-88(%rsp), %ecx                 # 4-byte Reload
	andl	%ebp, %ecx
	xorl	%eax, %ecx
	movl	%ecx, -88(%rsp)                 # 4-byte Spill
	xorl	%eax, %r15d
	andl	-56(%rsp), %ebp                 # 4-byte Folded Reload
	andl	%edx, %r8d
	andl	-100(%rsp), %edx                # 4-byte Folded Reload
	movq	-48(%rsp), %rax                 # 8-byte Reload
	movq	-64(%rsp), %rcx                 # 8-byte Reload
	movzwl	-10(%rax,%rcx), %eax
	xorw	%dx, %ax
	movl	%eax, -56(%rsp)                 # 4-byte Spill
	movl	%edx, %r12d
	xorl	%esi, %r12d
	movl	%r9d, %r13d
	movl	-112(%rsp), %esi                # 4-byte Reload
	xorl	%esi, %r13d
	movl	-120(%rsp), %edx                # 4-byte Reload
	xorl	%edx, %r13d
	xorl	%r15d, %r9d
	xorl	%r9d, %edx
	movl	%edx, -120(%rsp)                # 4-byte Spill
	xorl	%esi, %r9d
	movl	-116(%rsp), %edx                # 4-byte Reload
	xorl	%edx, %r10d
	xorl	%r10d, %r9d
	movl	%r10d, %r11d
	movq	-48(%rsp), %rsi                 # 8-byte Reload
	movq	-64(%rsp), %rdi                 # 8-byte Reload
	movl	-124(%rsp), %r10d               # 4-byte Reload
	xorw	-16(%rsi,%rdi), %r10w
	movl	%r14d, %eax
	xorl	%r14d, %r11d
	xorl	%r12d, %eax
	xorl	%r10d, %eax
	movl	%eax, -124(%rsp)                # 4-byte Spill
	movl	-88(%rsp), %ecx                 # 4-byte Reload
	xorl	%r13d, %ecx
	movq	-48(%rsp), %rsi                 # 8-byte Reload
	movq	-64(%rsp), %rdi                 # 8-byte Reload
	movzwl	-14(%rsi,%rdi), %esi
	movl	-104(%rsp), %eax                # 4-byte Reload
	xorw	%ax, %si
	movl	%ebp, %r10d
	xorl	%ecx, %ebp
	xorl	%esi, %ebp
	movl	%ebp, -72(%rsp)                 # 4-byte Spill
	movq	-48(%rsp), %rdi                 # 8-byte Reload
	movq	-64(%rsp), %r14                 # 8-byte Reload
	movzwl	-12(%rdi,%r14), %ebp
	xorw	%r13w, %bp
	movl	%ebx, %esi
	movl	-128(%rsp), %r14d               # 4-byte Reload
	xorl	%r14d, %ebx
	xorl	%r8d, %r10d
	xorl	%r10d, %r15d
	xorl	%ebx, %r15d
	xorl	%ebp, %r15d
	xorl	%r11d, %ebx
	xorl	%ecx, %ebx
	xorl	-56(%rsp), %ebx                 # 4-byte Folded Reload
	movq	-48(%rsp), %rcx                 # 8-byte Reload
	movq	-64(%rsp), %rdi                 # 8-byte Reload
	movzwl	-8(%rcx,%rdi), %ecx
	xorw	%dx, %cx
	xorl	%r10d, %r13d
	movl	%r14d, %edx
	xorl	%r13d, %edx
	xorl	%ecx, %edx
	movl	%edx, -128(%rsp)                # 4-byte Spill
	movl	-108(%rsp), %r14d               # 4-byte Reload
	xorl	%eax, %r14d
	movl	-120(%rsp), %ebp                # 4-byte Reload
	xorl	%r11d, %ebp
	movq	-48(%rsp), %rcx                 # 8-byte Reload
	movq	-64(%rsp), %rdi                 # 8-byte Reload
	movzwl	-6(%rcx,%rdi), %ecx
	xorw	%r14w, %cx
	xorl	%r10d, %ebp
	xorl	%ecx, %ebp
	movq	-48(%rsp), %rcx                 # 8-byte Reload
	movq	-64(%rsp), %rdi                 # 8-byte Reload
	xorw	-4(%rcx,%rdi), %r14w
	xorl	%r8d, %r9d
	xorl	%r12d, %r9d
	xorl	%r14d, %r9d
	movq	-48(%rsp), %rcx                 # 8-byte Reload
	movq	-64(%rsp), %rdx                 # 8-byte Reload
	movzwl	-2(%rcx,%rdx), %ecx
	xorw	%si, %cx
	movl	%r13d, %r8d
	xorl	%eax, %r8d
	xorl	%ecx, %r8d
	movl	-124(%rsp), %eax                # 4-byte Reload
	movl	%eax, %ecx
	rolw	$9, %cx
                                        # kill: def $ax killed $ax killed $eax def $eax
	rolw	$13, %ax
	andl	$4369, %ecx                     # imm = 0x1111
	andl	$-4370, %eax                    # imm = 0xEEEE
	movl	-72(%rsp), %r13d                # 4-byte Reload
	movl	%r13d, %edx
	rolw	$9, %dx
	orl	%ecx, %eax
	movl	%eax, -88(%rsp)                 # 4-byte Spill
	movl	%r13d, %r10d
	rolw	$13, %r10w
	andl	$4369, %edx                     # imm = 0x1111
	movl	%r15d, %ecx
	rolw	$9, %cx
	andl	$-4370, %r10d                   # imm = 0xEEEE
	movl	%r15d, %esi
	rolw	$13, %si
	orl	%edx, %r10d
	andl	$4369, %ecx                     # imm = 0x1111
	andl	$-4370, %esi                    # imm = 0xEEEE
	orl	%ecx, %esi
	movl	%esi, %edx
	movl	%ebx, %ecx
	rolw	$9, %cx
	movl	%ebx, %eax
	movl	%ebx, %r11d
	rolw	$13, %ax
	andl	$4369, %ecx                     # imm = 0x1111
	andl	$-4370, %eax                    # imm = 0xEEEE
	orl	%ecx, %eax
	movl	%eax, %ebx
	movl	-128(%rsp), %r12d               # 4-byte Reload
	movl	%r12d, %ecx
	rolw	$9, %cx
                                        # kill: def $r12w killed $r12w killed $r12d def $r12d
	rolw	$13, %r12w
	andl	$4369, %ecx                     # imm = 0x1111
	andl	$-4370, %r12d                   # imm = 0xEEEE
	movl	%ebp, %esi
	rolw	$9, %si
	orl	%ecx, %r12d
	movl	%ebp, %eax
	rolw	$13, %ax
	andl	$4369, %esi                     # imm = 0x1111
	movl	%r9d, %ecx
	rolw	$9, %cx
	andl	$-4370, %eax                    # imm = 0xEEEE
	movl	%r9d, %edi
	rolw	$13, %di
	orl	%esi, %eax
	andl	$4369, %ecx                     # imm = 0x1111
	andl	$-4370, %edi                    # imm = 0xEEEE
	orl	%ecx, %edi
	movl	%edi, %r14d
	movl	%r8d, %edi
	movl	%edi, %ecx
	rolw	$9, %cx
	movl	%edi, %esi
	rolw	$13, %si
	andl	$4369, %ecx                     # imm = 0x1111
	andl	$-4370, %esi                    # imm = 0xEEEE
	orl	%ecx, %esi
	movl	-124(%rsp), %r8d                # 4-byte Reload
	xorl	%r8d, -88(%rsp)                 # 4-byte Folded Spill
	xorl	%r13d, %r10d
	xorl	%r15d, %edx
	xorl	%r11d, %ebx
	movl	-128(%rsp), %ecx                # 4-byte Reload
	xorl	%ecx, %r12d
	xorl	%ebp, %eax
	xorl	%r9d, %r14d
	xorl	%edi, %esi
	xorl	%esi, %r8d
	movl	%r8d, -124(%rsp)                # 4-byte Spill
	xorl	%esi, %r13d
	xorl	%r10d, %r15d
	movl	%r15d, -96(%rsp)                # 4-byte Spill
	xorl	%esi, %r11d
	xorl	%edx, %r11d
	movl	%r11d, -56(%rsp)                # 4-byte Spill
	xorl	%esi, %ecx
	movl	%ecx, %r11d
	xorl	%r12d, %ebp
	movl	%ebp, -120(%rsp)                # 4-byte Spill
	xorl	%eax, %r9d
	xorl	%r14d, %edi
	movl	%r14d, %ecx
	xorl	%r8d, %edx
	xorl	%edi, %edx
	xorl	%edi, %eax
	movl	%eax, -116(%rsp)                # 4-byte Spill
	xorl	%ebp, %esi
	movl	%esi, %eax
	movl	%eax, -100(%rsp)                # 4-byte Spill
	movl	%esi, %r14d
	xorl	%edi, %esi
	movl	%esi, -112(%rsp)                # 4-byte Spill
	xorl	%r9d, %edi
	xorl	%edi, %r10d
	xorl	%r15d, %r12d
	xorl	%edi, %r12d
	movl	-88(%rsp), %edi                 # 4-byte Reload
	xorl	%edi, %r13d
	movl	%r13d, -72(%rsp)                # 4-byte Spill
	xorl	%r9d, %edi
	movl	%edi, -88(%rsp)                 # 4-byte Spill
	movl	%edi, %esi
	rolw	$6, %si
                                        # kill: def $di killed $di killed $edi def $edi
	rolw	$10, %di
	andl	$13107, %esi                    # imm = 0x3333
	andl	$-13108, %edi                   # imm = 0xCCCC
	orl	%esi, %edi
	movl	%r10d, -104(%rsp)               # 4-byte Spill
	movl	%r10d, %r8d
	rolw	$6, %r8w
	movl	%r10d, %esi
	rolw	$10, %si
	andl	$13107, %r8d                    # imm = 0x3333
	andl	$-13108, %esi                   # imm = 0xCCCC
	orl	%r8d, %esi
	movl	%ebx, %r10d
	xorl	%ebx, %r11d
	movl	%r11d, -128(%rsp)               # 4-byte Spill
	xorl	%r13d, %r10d
	xorl	%r9d, %r10d
	movl	%edx, -108(%rsp)                # 4-byte Spill
	movl	%edx, %r8d
	rolw	$6, %r8w
	movl	%edx, %ebp
	rolw	$10, %bp
	andl	$13107, %r8d                    # imm = 0x3333
	andl	$-13108, %ebp                   # imm = 0xCCCC
	movl	%r10d, %edx
	rolw	$6, %dx
	orl	%r8d, %ebp
	movl	%r10d, %r15d
	rolw	$10, %r15w
	andl	$13107, %edx                    # imm = 0x3333
	movl	%r12d, %r13d
	rolw	$6, %r13w
	andl	$-13108, %r15d                  # imm = 0xCCCC
	movl	%r12d, %r8d
	rolw	$10, %r8w
	orl	%edx, %r15d
	andl	$13107, %r13d                   # imm = 0x3333
	andl	$-13108, %r8d                   # imm = 0xCCCC
	orl	%r13d, %r8d
	movl	-116(%rsp), %r13d               # 4-byte Reload
	movl	-56(%rsp), %ebx                 # 4-byte Reload
	xorl	%ebx, %r13d
	movl	%r13d, -116(%rsp)               # 4-byte Spill
	movl	%r13d, %edx
	rolw	$6, %dx
	xorl	%r11d, %ecx
                                        # kill: def $r13w killed $r13w killed $r13d def $r13d
	rolw	$10, %r13w
	andl	$13107, %edx                    # imm = 0x3333
	movl	%ecx, %eax
	rolw	$6, %ax
	andl	$-13108, %r13d                  # imm = 0xCCCC
	movl	%ecx, %r11d
	rolw	$10, %r11w
	orl	%edx, %r13d
	andl	$13107, %eax                    # imm = 0x3333
	andl	$-13108, %r11d                  # imm = 0xCCCC
	orl	%eax, %r11d
	movl	-100(%rsp), %eax                # 4-byte Reload
	rolw	$6, %ax
	rolw	$10, %r14w
	andl	$13107, %eax                    # imm = 0x3333
	andl	$-13108, %r14d                  # imm = 0xCCCC
	orl	%eax, %r14d
	movl	-88(%rsp), %eax                 # 4-byte Reload
	xorl	-124(%rsp), %eax                # 4-byte Folded Reload
	xorl	%edi, %eax
	movl	%eax, -88(%rsp)                 # 4-byte Spill
	movl	-104(%rsp), %eax                # 4-byte Reload
	xorl	-72(%rsp), %eax                 # 4-byte Folded Reload
	xorl	%esi, %eax
	movl	%eax, %esi
	movl	-108(%rsp), %eax                # 4-byte Reload
	xorl	-96(%rsp), %eax                 # 4-byte Folded Reload
	xorl	%ebp, %eax
	movl	%eax, %ebp
	xorl	%ebx, %r10d
	xorl	%r15d, %r10d
	xorl	-128(%rsp), %r12d               # 4-byte Folded Reload
	xorl	%r8d, %r12d
	movl	-116(%rsp), %eax                # 4-byte Reload
	xorl	-120(%rsp), %eax                # 4-byte Folded Reload
	xorl	%r13d, %eax
	xorl	%r9d, %ecx
	xorl	%r11d, %ecx
	movl	%ecx, %edx
	movl	-112(%rsp), %r8d                # 4-byte Reload
	xorl	%r14d, %r8d
	movl	%eax, %r15d
	movl	%eax, %r13d
	movl	%eax, -116(%rsp)                # 4-byte Spill
	xorl	%ebp, %r15d
	movl	%esi, %ecx
	xorl	%esi, %ebp
	movl	%ebp, -108(%rsp)                # 4-byte Spill
	movl	%esi, %r14d
	movl	-88(%rsp), %r9d                 # 4-byte Reload
	xorl	%r9d, %r14d
	movl	%edx, %ebp
	movl	%edx, %edi
	xorl	%r8d, %edi
	movl	%r12d, %esi
	xorl	%edx, %esi
	xorl	%r10d, %r13d
	xorl	%edx, %ecx
	xorl	%ecx, %r13d
	movl	%r13d, -92(%rsp)                # 4-byte Spill
	movl	%ecx, %edx
	movl	%esi, %ecx
	xorl	%r15d, %ecx
	movl	%ecx, -120(%rsp)                # 4-byte Spill
	movl	%r8d, %ebx
	xorl	%r8d, %r15d
	movl	%r15d, -32(%rsp)                # 4-byte Spill
	xorl	%r12d, %ebx
	xorl	%r10d, %r12d
	movl	%r12d, %eax
	xorl	%r14d, %eax
	movl	%eax, -128(%rsp)                # 4-byte Spill
	orl	%r13d, %eax
	movl	%r12d, %r8d
	movl	%r9d, %r11d
	xorl	%r9d, %r12d
	movl	%r12d, -104(%rsp)               # 4-byte Spill
	movl	%esi, %ecx
	movl	%esi, -40(%rsp)                 # 4-byte Spill
	andl	%esi, %r12d
	xorl	%eax, %r12d
	xorl	%ebx, %ebp
	movl	%ebx, %r9d
	movl	%ebx, -112(%rsp)                # 4-byte Spill
	movl	%ebp, -36(%rsp)                 # 4-byte Spill
	movl	%ebp, %esi
	xorl	%r10d, %esi
	movl	%esi, -100(%rsp)                # 4-byte Spill
	xorl	%r11d, %r10d
	movl	%r8d, %ebx
	movl	%r8d, -72(%rsp)                 # 4-byte Spill
	movl	%r8d, %eax
	movl	-108(%rsp), %r13d               # 4-byte Reload
	xorl	%r13d, %eax
	andl	%eax, %esi
	movl	%eax, -76(%rsp)                 # 4-byte Spill
	movl	%r14d, %r8d
	xorl	%ecx, %r14d
	xorl	%r10d, %edx
	movl	%edx, -88(%rsp)                 # 4-byte Spill
	movl	%r14d, %r11d
	movl	%r14d, -124(%rsp)               # 4-byte Spill
	andl	%r15d, %r11d
	xorl	%r10d, %r11d
	xorl	%edi, %r10d
	movl	%r10d, %edx
	andl	%edi, %edx
	movl	%edi, -96(%rsp)                 # 4-byte Spill
	xorl	%r10d, %eax
	movl	%r10d, -56(%rsp)                # 4-byte Spill
	andl	%ebx, %eax
	xorl	%eax, %esi
	xorl	%edx, %eax
	xorl	%edi, %r8d
	movl	-120(%rsp), %edx                # 4-byte Reload
	andl	%r8d, %edx
	movl	%ebp, %edi
	andl	%r9d, %edi
	xorl	%edx, %r11d
	xorl	%r10d, %r13d
	xorl	%r13d, %edi
	movl	%r13d, %ebx
	xorl	%edx, %edi
	xorl	%esi, %r12d
	xorl	%esi, %edi
	movl	-128(%rsp), %ecx                # 4-byte Reload
	movl	%ecx, %r15d
	movl	-92(%rsp), %r13d                # 4-byte Reload
	andl	%r13d, %r15d
	movl	%r14d, %ebp
	movl	-116(%rsp), %edx                # 4-byte Reload
	xorl	%edx, %ebp
	xorl	%edx, %r15d
	movl	%ebp, %edx
	movl	-88(%rsp), %r10d                # 4-byte Reload
	andl	%r10d, %edx
	xorl	%edx, %r15d
	xorl	%eax, %r11d
	movl	-72(%rsp), %edx                 # 4-byte Reload
	xorl	%edx, %r15d
	xorl	%eax, %r15d
	movl	%edi, %r14d
	andl	%r12d, %r14d
	movl	%r14d, %eax
	xorl	%r11d, %eax
	movl	%r15d, %esi
	xorl	%r12d, %esi
	movl	%r14d, %r9d
	xorl	%r15d, %r9d
	andl	%esi, %eax
	xorl	%r15d, %eax
	andl	%edi, %r15d
	xorl	%r11d, %edi
	andl	%edi, %r15d
	andl	%edi, %r9d
	xorl	%r14d, %edi
	xorl	%r15d, %edi
	xorl	%r11d, %r9d
	movl	%edi, %r15d
	xorl	%r9d, %r15d
	andl	%r15d, %ecx
	movl	%ecx, -128(%rsp)                # 4-byte Spill
	andl	%r13d, %r15d
	movl	%r15d, -92(%rsp)                # 4-byte Spill
	andl	%r9d, %r10d
	movl	%r10d, -88(%rsp)                # 4-byte Spill
	movl	%r9d, %r15d
	andl	%ebp, %r9d
	andl	%r12d, %r11d
	andl	%esi, %r11d
	xorl	%r14d, %esi
	xorl	%r11d, %esi
	xorl	%eax, %r15d
	movl	-40(%rsp), %r13d                # 4-byte Reload
	andl	%edi, %r13d
	movl	-32(%rsp), %r10d                # 4-byte Reload
	andl	%eax, %r10d
	movl	-124(%rsp), %r14d               # 4-byte Reload
	andl	%eax, %r14d
	movl	-104(%rsp), %ecx                # 4-byte Reload
	andl	%edi, %ecx
	xorl	%esi, %edi
	movl	-112(%rsp), %ebp                # 4-byte Reload
	andl	%esi, %ebp
	xorl	%esi, %eax
	andl	-36(%rsp), %esi                 # 4-byte Folded Reload
	andl	%eax, -120(%rsp)                # 4-byte Folded Spill
	andl	%r8d, %eax
	movl	%r15d, %r12d
	andl	%r15d, %edx
	movl	%edx, -72(%rsp)                 # 4-byte Spill
	andl	%r15d, %ebx
	xorl	%edi, %r12d
	movl	-76(%rsp), %r15d                # 4-byte Reload
	andl	%r12d, %r15d
	xorl	%ecx, %r15d
	xorl	%ecx, %esi
	movl	%esi, %r8d
	movl	%esi, -116(%rsp)                # 4-byte Spill
	andl	-100(%rsp), %r12d               # 4-byte Folded Reload
	andl	%edi, -56(%rsp)                 # 4-byte Folded Spill
	andl	-96(%rsp), %edi                 # 4-byte Folded Reload
	movq	-48(%rsp), %rcx                 # 8-byte Reload
	movq	-64(%rsp), %rdx                 # 8-byte Reload
	movzwl	-26(%rcx,%rdx), %r11d
	xorw	%di, %r11w
	xorl	%eax, %edi
	movl	%ebx, %esi
	xorl	%r13d, %esi
	movl	-128(%rsp), %ecx                # 4-byte Reload
	xorl	%ecx, %esi
	xorl	%r8d, %ebx
	xorl	%ebx, %ecx
	movl	%ecx, -128(%rsp)                # 4-byte Spill
	xorl	%r13d, %ebx
	movl	%ebp, %eax
	xorl	%r10d, %eax
	movl	%r10d, %r13d
	xorl	%eax, %ebx
	movl	%r14d, %ebp
	xorl	%r14d, %eax
	movq	-48(%rsp), %rdx                 # 8-byte Reload
	movq	-64(%rsp), %r10                 # 8-byte Reload
	movl	-72(%rsp), %r14d                # 4-byte Reload
	xorw	-32(%rdx,%r10), %r14w
	movl	%ebp, %ecx
	xorl	%edi, %ecx
	xorl	%r14d, %ecx
	movl	%ecx, -124(%rsp)                # 4-byte Spill
	xorl	%esi, %r15d
	movq	-48(%rsp), %rdx                 # 8-byte Reload
	movq	-64(%rsp), %r10                 # 8-byte Reload
	movzwl	-30(%rdx,%r10), %edx
	movl	-92(%rsp), %ecx                 # 4-byte Reload
	xorw	%cx, %dx
	movl	%r12d, %r10d
	xorl	%r15d, %r12d
	movl	%r15d, %r8d
	xorl	%edx, %r12d
	movq	-48(%rsp), %r14                 # 8-byte Reload
	movq	-64(%rsp), %r15                 # 8-byte Reload
	movzwl	-28(%r14,%r15), %ebp
	xorw	%si, %bp
	movw	%r9w, -112(%rsp)                # 2-byte Spill
	movl	-120(%rsp), %r14d               # 4-byte Reload
	xorl	%r14d, %r9d
	movl	-56(%rsp), %r15d                # 4-byte Reload
	xorl	%r15d, %r10d
	movl	-116(%rsp), %edx                # 4-byte Reload
	xorl	%r10d, %edx
	xorl	%r9d, %edx
	xorl	%ebp, %edx
	movl	%edx, -116(%rsp)                # 4-byte Spill
	xorl	%eax, %r9d
	xorl	%r8d, %r9d
	xorl	%r11d, %r9d
	movq	-48(%rsp), %r8                  # 8-byte Reload
	movq	-64(%rsp), %r11                 # 8-byte Reload
	movzwl	-24(%r8,%r11), %r8d
	xorw	%r13w, %r8w
	xorl	%r10d, %esi
	movl	%r14d, %r11d
	xorl	%esi, %r11d
	xorl	%r8d, %r11d
	movl	%r11d, %r14d
	movl	-88(%rsp), %r11d                # 4-byte Reload
	xorl	%ecx, %r11d
	movl	-128(%rsp), %r13d               # 4-byte Reload
	xorl	%eax, %r13d
	movq	-48(%rsp), %rax                 # 8-byte Reload
	movq	-64(%rsp), %r8                  # 8-byte Reload
	movzwl	-22(%rax,%r8), %eax
	xorw	%r11w, %ax
	xorl	%r10d, %r13d
	xorl	%eax, %r13d
	movq	-48(%rsp), %rax                 # 8-byte Reload
	movq	-64(%rsp), %r8                  # 8-byte Reload
	xorw	-20(%rax,%r8), %r11w
	xorl	%r15d, %ebx
	xorl	%edi, %ebx
	xorl	%r11d, %ebx
	movl	%ebx, %r15d
	movq	-48(%rsp), %rax                 # 8-byte Reload
	movq	-64(%rsp), %rdi                 # 8-byte Reload
	movzwl	-18(%rax,%rdi), %eax
	xorw	-112(%rsp), %ax                 # 2-byte Folded Reload
	movl	-124(%rsp), %ebx                # 4-byte Reload
	movl	%ebx, %edx
	rolw	$10, %dx
	xorl	%ecx, %esi
                                        # kill: def $bx killed $bx killed $ebx def $ebx
	rolw	$14, %bx
	xorl	%eax, %esi
	andl	$13107, %edx                    # imm = 0x3333
	andl	$-13108, %ebx                   # imm = 0xCCCC
	orl	%edx, %ebx
	movl	%r12d, %eax
	rolw	$10, %ax
	movl	%r12d, %r10d
	rolw	$14, %r10w
	andl	$13107, %eax                    # imm = 0x3333
	andl	$-13108, %r10d                  # imm = 0xCCCC
	orl	%eax, %r10d
	movl	-116(%rsp), %edx                # 4-byte Reload
	movl	%edx, %eax
	rolw	$10, %ax
	movl	%edx, %r11d
	movl	%edx, %ecx
	rolw	$14, %r11w
	andl	$13107, %eax                    # imm = 0x3333
	andl	$-13108, %r11d                  # imm = 0xCCCC
	movl	%r9d, %edx
	rolw	$10, %dx
	orl	%eax, %r11d
	movl	%r9d, %edi
	rolw	$14, %di
	andl	$13107, %edx                    # imm = 0x3333
	movl	%r14d, %r8d
	movl	%r14d, -120(%rsp)               # 4-byte Spill
	movl	%r8d, %eax
	rolw	$10, %ax
	andl	$-13108, %edi                   # imm = 0xCCCC
                                        # kill: def $r8w killed $r8w killed $r8d def $r8d
	rolw	$14, %r8w
	orl	%edx, %edi
	andl	$13107, %eax                    # imm = 0x3333
	andl	$-13108, %r8d                   # imm = 0xCCCC
	orl	%eax, %r8d
	movl	%r13d, %edx
	movl	%edx, %eax
	rolw	$10, %ax
	movl	%r13d, -128(%rsp)               # 4-byte Spill
	rolw	$14, %r13w
	andl	$13107, %eax                    # imm = 0x3333
	andl	$-13108, %r13d                  # imm = 0xCCCC
	orl	%eax, %r13d
	movl	%r15d, -108(%rsp)               # 4-byte Spill
	movl	%r15d, %eax
	rolw	$10, %ax
	movl	%r15d, %r14d
	rolw	$14, %r14w
	andl	$13107, %eax                    # imm = 0x3333
	andl	$-13108, %r14d                  # imm = 0xCCCC
	movl	%esi, %r15d
	rolw	$10, %r15w
	orl	%eax, %r14d
	movl	%esi, %ebp
	rolw	$14, %bp
	andl	$13107, %r15d                   # imm = 0x3333
	andl	$-13108, %ebp                   # imm = 0xCCCC
	orl	%r15d, %ebp
	movl	-124(%rsp), %r15d               # 4-byte Reload
	xorl	%r15d, %ebx
	xorl	%r12d, %r10d
	movl	%ecx, %eax
	xorl	%ecx, %r11d
	xorl	%r9d, %edi
	movl	-120(%rsp), %ecx                # 4-byte Reload
	xorl	%ecx, %r8d
	xorl	%edx, %r13d
	movl	-108(%rsp), %edx                # 4-byte Reload
	xorl	%edx, %r14d
	xorl	%esi, %ebp
	xorl	%ebp, %r15d
	xorl	%ebp, %r12d
	movl	%r12d, -124(%rsp)               # 4-byte Spill
	xorl	%r10d, %eax
	movl	%eax, %r12d
	xorl	%ebp, %r9d
	xorl	%r11d, %r9d
	xorl	%ebp, %ecx
	movl	%ecx, -120(%rsp)                # 4-byte Spill
	movl	-128(%rsp), %eax                # 4-byte Reload
	xorl	%r8d, %eax
	movl	%eax, -128(%rsp)                # 4-byte Spill
	xorl	%r13d, %edx
	xorl	%r14d, %esi
	xorl	%r15d, %r11d
	xorl	%esi, %r11d
	xorl	%esi, %r13d
	xorl	%eax, %ebp
	movl	%ebp, %eax
	movl	%eax, -88(%rsp)                 # 4-byte Spill
	xorl	%esi, %ebp
	movl	%esi, %ecx
	xorl	%edx, %ecx
	xorl	%ecx, %r10d
	movl	%r12d, %eax
	xorl	%r12d, %r8d
	xorl	%ecx, %r8d
	movl	-124(%rsp), %r12d               # 4-byte Reload
	xorl	%ebx, %r12d
	xorl	%edx, %ebx
	movl	%ebx, %ecx
	rolw	$8, %cx
	xorl	%r15d, %ebx
	xorl	%ecx, %ebx
	movl	-120(%rsp), %r15d               # 4-byte Reload
	xorl	%edi, %r15d
	xorl	%r12d, %edi
	movl	%r10d, %ecx
	xorl	%r12d, %r10d
	xorl	%edx, %edi
	xorl	%r9d, %r13d
	xorl	%r15d, %r14d
	movl	%r15d, %r12d
	rolw	$8, %cx
	xorl	%ecx, %r10d
	movl	%r11d, %ecx
	rolw	$8, %cx
	xorl	%eax, %r11d
	movl	%edi, %esi
	rolw	$8, %si
	xorl	%ecx, %r11d
	movl	%r8d, %ecx
	rolw	$8, %cx
	xorl	%r9d, %edi
	movl	%r13d, %r9d
	rolw	$8, %r9w
	movl	%r14d, %r15d
	rolw	$8, %r15w
	movl	-88(%rsp), %eax                 # 4-byte Reload
	rolw	$8, %ax
	xorl	%esi, %edi
	xorl	%r12d, %r8d
	xorl	%ecx, %r8d
	xorl	-128(%rsp), %r13d               # 4-byte Folded Reload
	xorl	%r9d, %r13d
	xorl	%edx, %r14d
	xorl	%r15d, %r14d
	xorl	%eax, %ebp
	movl	%r13d, %r15d
	xorl	%r11d, %r15d
	movl	%r10d, %ecx
	xorl	%r10d, %r11d
	movl	%r11d, -120(%rsp)               # 4-byte Spill
	movl	%r10d, %esi
	xorl	%ebx, %esi
	movl	%r14d, %r12d
	xorl	%ebp, %r14d
	movl	%r8d, %r10d
	xorl	%r12d, %r10d
	movl	%r13d, %r9d
	xorl	%edi, %r9d
	xorl	%r12d, %ecx
	xorl	%ecx, %r9d
	movl	%r9d, %edx
	movl	%r9d, -100(%rsp)                # 4-byte Spill
	movl	%r10d, %r9d
	xorl	%r15d, %r9d
	movl	%r9d, -128(%rsp)                # 4-byte Spill
	xorl	%ebp, %r15d
	movl	%r15d, -92(%rsp)                # 4-byte Spill
	xorl	%r8d, %ebp
	xorl	%edi, %r8d
	movl	%r8d, %eax
	xorl	%esi, %eax
	movl	%eax, -124(%rsp)                # 4-byte Spill
	orl	%edx, %eax
	movl	%r8d, %r11d
	xorl	%ebx, %r11d
	movl	%r11d, -56(%rsp)                # 4-byte Spill
	andl	%r10d, %r11d
	movl	%r10d, -104(%rsp)               # 4-byte Spill
	xorl	%eax, %r11d
	xorl	%ebp, %r12d
	movl	%r12d, %r9d
	movl	%r12d, -76(%rsp)                # 4-byte Spill
	xorl	%edi, %r9d
	movl	%r9d, -112(%rsp)                # 4-byte Spill
	xorl	%ebx, %edi
	movl	%r8d, %edx
	movl	%r8d, %ebx
	xorl	-120(%rsp), %edx                # 4-byte Folded Reload
	andl	%edx, %r9d
	movl	%edx, -96(%rsp)                 # 4-byte Spill
	movl	%esi, -116(%rsp)                # 4-byte Spill
	xorl	%r10d, %esi
	xorl	%edi, %ecx
	movl	%ecx, -88(%rsp)                 # 4-byte Spill
	movl	%esi, %eax
	andl	%r15d, %eax
	xorl	%edi, %eax
	xorl	%r14d, %edi
	movl	%edi, %r8d
	andl	%r14d, %r8d
	movl	%r14d, -72(%rsp)                # 4-byte Spill
	movl	%edx, %ecx
	xorl	%edi, %ecx
	movl	%edi, -108(%rsp)                # 4-byte Spill
	andl	%ebx, %ecx
	movl	%ebx, %r10d
	xorl	%ecx, %r9d
	xorl	%r8d, %ecx
	movl	-116(%rsp), %edx                # 4-byte Reload
	xorl	%r14d, %edx
	movl	%edx, -116(%rsp)                # 4-byte Spill
	movl	-128(%rsp), %ebx                # 4-byte Reload
	andl	%edx, %ebx
	movl	%r12d, %r8d
	andl	%ebp, %r8d
	xorl	%ebx, %eax
	movl	-120(%rsp), %edx                # 4-byte Reload
	xorl	%edi, %edx
	movl	%edx, -120(%rsp)                # 4-byte Spill
	xorl	%edx, %r8d
	xorl	%ebx, %r8d
	xorl	%r9d, %r11d
	xorl	%r9d, %r8d
	movl	-124(%rsp), %ebx                # 4-byte Reload
	movl	-100(%rsp), %edx                # 4-byte Reload
	andl	%edx, %ebx
	movl	%esi, %r9d
	movl	%esi, %r12d
	xorl	%r13d, %r9d
	xorl	%r13d, %ebx
	movl	%r9d, %r15d
	movl	-88(%rsp), %esi                 # 4-byte Reload
	andl	%esi, %r15d
	xorl	%r15d, %ebx
	xorl	%ecx, %eax
	xorl	%r10d, %ebx
	movl	%r10d, %r14d
	xorl	%ecx, %ebx
	movl	%r8d, %r15d
	andl	%r11d, %r15d
	movl	%r15d, %ecx
	xorl	%eax, %ecx
	movl	%ebx, %r13d
	xorl	%r11d, %r13d
	movl	%r15d, %edi
	xorl	%ebx, %edi
	andl	%r13d, %ecx
	xorl	%ebx, %ecx
	andl	%r8d, %ebx
	xorl	%eax, %r8d
	andl	%r8d, %ebx
	andl	%r8d, %edi
	xorl	%r15d, %r8d
	xorl	%ebx, %r8d
	xorl	%eax, %edi
	movl	%r8d, %r10d
	xorl	%edi, %r10d
	andl	%r10d, -124(%rsp)               # 4-byte Folded Spill
	andl	%edx, %r10d
	movl	%r10d, -100(%rsp)               # 4-byte Spill
	andl	%edi, %esi
	movl	%esi, -88(%rsp)                 # 4-byte Spill
	movl	%edi, %esi
	andl	%r9d, %edi
	andl	%r11d, %eax
	andl	%r13d, %eax
	xorl	%r15d, %r13d
	xorl	%eax, %r13d
	xorl	%ecx, %esi
	movl	-104(%rsp), %edx                # 4-byte Reload
	andl	%r8d, %edx
	movl	-92(%rsp), %r15d                # 4-byte Reload
	andl	%ecx, %r15d
	andl	%ecx, %r12d
	movl	-56(%rsp), %ebx                 # 4-byte Reload
	andl	%r8d, %ebx
	xorl	%r13d, %r8d
	andl	%r13d, %ebp
	xorl	%r13d, %ecx
	andl	-76(%rsp), %r13d                # 4-byte Folded Reload
	andl	%ecx, -128(%rsp)                # 4-byte Folded Spill
	andl	-116(%rsp), %ecx                # 4-byte Folded Reload
	andl	%esi, %r14d
	movl	%r14d, -116(%rsp)               # 4-byte Spill
	movl	-120(%rsp), %r11d               # 4-byte Reload
	andl	%esi, %r11d
	xorl	%r8d, %esi
	movl	-96(%rsp), %eax                 # 4-byte Reload
	andl	%esi, %eax
	movl	%esi, %r9d
	movl	%ebx, %esi
	xorl	%ebx, %eax
	movl	%eax, %ebx
	xorl	%esi, %r13d
	andl	-112(%rsp), %r9d                # 4-byte Folded Reload
	andl	%r8d, -108(%rsp)                # 4-byte Folded Spill
	andl	-72(%rsp), %r8d                 # 4-byte Folded Reload
	movq	-48(%rsp), %rax                 # 8-byte Reload
	movq	-64(%rsp), %rsi                 # 8-byte Reload
	movzwl	-42(%rax,%rsi), %eax
	xorw	%r8w, %ax
	movl	%eax, -120(%rsp)                # 4-byte Spill
	movl	%r8d, %r14d
	xorl	%ecx, %r14d
	movl	%r11d, %r8d
	xorl	%edx, %r11d
	movl	-124(%rsp), %eax                # 4-byte Reload
	xorl	%eax, %r11d
	xorl	%r13d, %r8d
	xorl	%r8d, %eax
	movl	%eax, -124(%rsp)                # 4-byte Spill
	xorl	%edx, %r8d
	xorl	%r15d, %ebp
	xorl	%ebp, %r8d
	movl	%ebp, %edx
	movq	-48(%rsp), %rcx                 # 8-byte Reload
	movq	-64(%rsp), %rsi                 # 8-byte Reload
	movl	-116(%rsp), %eax                # 4-byte Reload
	xorw	-48(%rcx,%rsi), %ax
	xorl	%r12d, %edx
	xorl	%r14d, %r12d
	xorl	%eax, %r12d
	xorl	%r11d, %ebx
	movq	-48(%rsp), %rcx                 # 8-byte Reload
	movq	-64(%rsp), %rsi                 # 8-byte Reload
	movzwl	-46(%rcx,%rsi), %ecx
	movl	-100(%rsp), %ebp                # 4-byte Reload
	xorw	%bp, %cx
	movl	%r9d, %esi
	xorl	%ebx, %r9d
	xorl	%ecx, %r9d
	movl	%r9d, -104(%rsp)                # 4-byte Spill
	movq	-48(%rsp), %r9                  # 8-byte Reload
	movq	-64(%rsp), %r10                 # 8-byte Reload
	movzwl	-44(%r9,%r10), %r9d
	xorw	%r11w, %r9w
	movl	%edi, %ecx
	movl	-128(%rsp), %r10d               # 4-byte Reload
	xorl	%r10d, %edi
	movl	-108(%rsp), %eax                # 4-byte Reload
	xorl	%eax, %esi
	xorl	%esi, %r13d
	xorl	%edi, %r13d
	xorl	%r9d, %r13d
	movl	%r13d, -112(%rsp)               # 4-byte Spill
	xorl	%edx, %edi
	xorl	%ebx, %edi
	xorl	-120(%rsp), %edi                # 4-byte Folded Reload
	movl	%edi, -56(%rsp)                 # 4-byte Spill
	movq	-48(%rsp), %rdi                 # 8-byte Reload
	movq	-64(%rsp), %r9                  # 8-byte Reload
	movzwl	-40(%rdi,%r9), %edi
	xorw	%r15w, %di
	xorl	%esi, %r11d
	movl	%r10d, %r9d
	xorl	%r11d, %r9d
	movl	%r11d, %r13d
	xorl	%edi, %r9d
	movl	%r9d, -128(%rsp)                # 4-byte Spill
	movl	-88(%rsp), %r10d                # 4-byte Reload
	xorl	%ebp, %r10d
	movl	-124(%rsp), %r9d                # 4-byte Reload
	xorl	%edx, %r9d
	movq	-48(%rsp), %rdx                 # 8-byte Reload
	movq	-64(%rsp), %rdi                 # 8-byte Reload
	movzwl	-38(%rdx,%rdi), %edx
	xorw	%r10w, %dx
	xorl	%esi, %r9d
	xorl	%edx, %r9d
	movq	-48(%rsp), %rdx                 # 8-byte Reload
	movq	-64(%rsp), %rsi                 # 8-byte Reload
	xorw	-36(%rdx,%rsi), %r10w
	xorl	%eax, %r8d
	xorl	%r14d, %r8d
	xorl	%r10d, %r8d
	movl	%r8d, %r11d
	movq	-48(%rsp), %rax                 # 8-byte Reload
	movq	-64(%rsp), %rdx                 # 8-byte Reload
	movzwl	-34(%rax,%rdx), %eax
	xorw	%cx, %ax
	movl	%r13d, %r14d
	xorl	%ebp, %r14d
	xorl	%eax, %r14d
	movl	%r12d, -72(%rsp)                # 4-byte Spill
	movl	%r12d, %eax
	rolw	$11, %ax
                                        # kill: def $r12w killed $r12w killed $r12d def $r12d
	rorw	%r12w
	andl	$30583, %eax                    # imm = 0x7777
	andl	$-30584, %r12d                  # imm = 0x8888
	movl	-104(%rsp), %ebp                # 4-byte Reload
	movl	%ebp, %edx
	rolw	$11, %dx
	orl	%eax, %r12d
	movl	%r12d, %ebx
	movl	%ebp, %r15d
	rorw	%r15w
	andl	$30583, %edx                    # imm = 0x7777
	movl	-112(%rsp), %r10d               # 4-byte Reload
	movl	%r10d, %eax
	rolw	$11, %ax
	andl	$-30584, %r15d                  # imm = 0x8888
                                        # kill: def $r10w killed $r10w killed $r10d def $r10d
	rorw	%r10w
	orl	%edx, %r15d
	andl	$30583, %eax                    # imm = 0x7777
	andl	$-30584, %r10d                  # imm = 0x8888
	orl	%eax, %r10d
	movl	-56(%rsp), %ecx                 # 4-byte Reload
	movl	%ecx, %eax
	rolw	$11, %ax
	movl	%ecx, %r8d
	rorw	%r8w
	andl	$30583, %eax                    # imm = 0x7777
	andl	$-30584, %r8d                   # imm = 0x8888
	orl	%eax, %r8d
	movl	-128(%rsp), %r13d               # 4-byte Reload
	movl	%r13d, %eax
	rolw	$11, %ax
                                        # kill: def $r13w killed $r13w killed $r13d def $r13d
	rorw	%r13w
	andl	$30583, %eax                    # imm = 0x7777
	andl	$-30584, %r13d                  # imm = 0x8888
	movl	%r9d, %edx
	rolw	$11, %dx
	orl	%eax, %r13d
	movl	%r9d, %r12d
	rorw	%r12w
	andl	$30583, %edx                    # imm = 0x7777
	movl	%r11d, -120(%rsp)               # 4-byte Spill
	movl	%r11d, %eax
	rolw	$11, %ax
	andl	$-30584, %r12d                  # imm = 0x8888
                                        # kill: def $r11w killed $r11w killed $r11d def $r11d
	rorw	%r11w
	orl	%edx, %r12d
	movl	%r12d, %esi
	andl	$30583, %eax                    # imm = 0x7777
	andl	$-30584, %r11d                  # imm = 0x8888
	orl	%eax, %r11d
	movl	%r14d, %edx
	rolw	$11, %dx
	movl	%r14d, %r12d
	rorw	%r12w
	andl	$30583, %edx                    # imm = 0x7777
	andl	$-30584, %r12d                  # imm = 0x8888
	orl	%edx, %r12d
	movl	-72(%rsp), %edi                 # 4-byte Reload
	xorl	%edi, %ebx
	movl	%ebx, -88(%rsp)                 # 4-byte Spill
	movl	%r15d, %eax
	xorl	%ebp, %eax
	movl	-112(%rsp), %r15d               # 4-byte Reload
	xorl	%r15d, %r10d
	xorl	%ecx, %r8d
	movl	%r8d, -100(%rsp)                # 4-byte Spill
	movl	-128(%rsp), %r8d                # 4-byte Reload
	xorl	%r8d, %r13d
	xorl	%r9d, %esi
	movl	-120(%rsp), %edx                # 4-byte Reload
	xorl	%edx, %r11d
	xorl	%r14d, %r12d
	xorl	%r12d, %edi
	movl	%edi, -72(%rsp)                 # 4-byte Spill
	xorl	%r12d, %ebp
	xorl	%eax, %r15d
	movl	%r15d, -112(%rsp)               # 4-byte Spill
	xorl	%r12d, %ecx
	xorl	%r10d, %ecx
	movl	%ecx, -56(%rsp)                 # 4-byte Spill
	xorl	%r12d, %r8d
	movl	%r8d, -128(%rsp)                # 4-byte Spill
	xorl	%r13d, %r9d
	movl	%r9d, -124(%rsp)                # 4-byte Spill
	xorl	%esi, %edx
	movl	%esi, %ebx
	xorl	%r11d, %r14d
	movl	%r11d, %esi
	xorl	%edi, %r10d
	xorl	%r14d, %r10d
	movl	%r10d, %edi
	xorl	%r14d, %ebx
	movl	%ebx, %r10d
	xorl	%r9d, %r12d
	movl	%r12d, %ecx
	movl	%ecx, -92(%rsp)                 # 4-byte Spill
	movl	%r12d, %r11d
	xorl	%r14d, %r12d
	xorl	%edx, %r14d
	xorl	%r14d, %eax
	movl	%eax, -76(%rsp)                 # 4-byte Spill
	xorl	%r15d, %r13d
	xorl	%r14d, %r13d
	movl	%r13d, %r15d
	movl	-88(%rsp), %r13d                # 4-byte Reload
	xorl	%r13d, %ebp
	movl	%ebp, -104(%rsp)                # 4-byte Spill
	xorl	%edx, %r13d
	movl	%edx, %r14d
	movl	%edx, -120(%rsp)                # 4-byte Spill
	movl	%r13d, %r9d
	movl	%r13d, %r8d
	movl	%r13d, -88(%rsp)                # 4-byte Spill
	rolw	$6, %r9w
                                        # kill: def $r8w killed $r8w killed $r8d def $r8d
	rolw	$10, %r8w
	andl	$13107, %r9d                    # imm = 0x3333
	andl	$-13108, %r8d                   # imm = 0xCCCC
	orl	%r9d, %r8d
	movl	%eax, %ebx
	rolw	$6, %bx
	movl	%eax, %r9d
	rolw	$10, %r9w
	andl	$13107, %ebx                    # imm = 0x3333
	andl	$-13108, %r9d                   # imm = 0xCCCC
	orl	%ebx, %r9d
	movl	-100(%rsp), %r13d               # 4-byte Reload
	movl	-128(%rsp), %edx                # 4-byte Reload
	xorl	%r13d, %edx
	xorl	%ebp, %r13d
	xorl	%r14d, %r13d
	movl	%edi, %ebx
	movl	%edi, -116(%rsp)                # 4-byte Spill
	movl	%ebx, %ebp
	rolw	$6, %bp
                                        # kill: def $bx killed $bx killed $ebx def $ebx
	rolw	$10, %bx
	andl	$13107, %ebp                    # imm = 0x3333
	andl	$-13108, %ebx                   # imm = 0xCCCC
	movl	%r13d, %r14d
	rolw	$6, %r14w
	orl	%ebp, %ebx
	movl	%r13d, %ebp
	rolw	$10, %bp
	andl	$13107, %r14d                   # imm = 0x3333
	movl	%r15d, -108(%rsp)               # 4-byte Spill
	movl	%r15d, %edi
	rolw	$6, %di
	andl	$-13108, %ebp                   # imm = 0xCCCC
                                        # kill: def $r15w killed $r15w killed $r15d def $r15d
	rolw	$10, %r15w
	orl	%r14d, %ebp
	andl	$13107, %edi                    # imm = 0x3333
	andl	$-13108, %r15d                  # imm = 0xCCCC
	orl	%edi, %r15d
	movl	%r10d, %r14d
	movl	-56(%rsp), %r10d                # 4-byte Reload
	xorl	%r10d, %r14d
	movl	%r14d, -96(%rsp)                # 4-byte Spill
	movl	%r14d, %edi
	rolw	$6, %di
	xorl	%edx, %esi
                                        # kill: def $r14w killed $r14w killed $r14d def $r14d
	rolw	$10, %r14w
	andl	$13107, %edi                    # imm = 0x3333
	movl	%esi, %eax
	rolw	$6, %ax
	andl	$-13108, %r14d                  # imm = 0xCCCC
	movl	%esi, %ecx
	rolw	$10, %cx
	orl	%edi, %r14d
	andl	$13107, %eax                    # imm = 0x3333
	andl	$-13108, %ecx                   # imm = 0xCCCC
	orl	%eax, %ecx
	movl	-92(%rsp), %eax                 # 4-byte Reload
	rolw	$6, %ax
	rolw	$10, %r11w
	andl	$13107, %eax                    # imm = 0x3333
	andl	$-13108, %r11d                  # imm = 0xCCCC
	orl	%eax, %r11d
	movl	-88(%rsp), %eax                 # 4-byte Reload
	xorl	-72(%rsp), %eax                 # 4-byte Folded Reload
	xorl	%r8d, %eax
	movl	%eax, -88(%rsp)                 # 4-byte Spill
	movl	-76(%rsp), %edi                 # 4-byte Reload
	xorl	-104(%rsp), %edi                # 4-byte Folded Reload
	xorl	%r9d, %edi
	movl	-116(%rsp), %eax                # 4-byte Reload
	xorl	-112(%rsp), %eax                # 4-byte Folded Reload
	xorl	%ebx, %eax
	movl	%eax, %r8d
	xorl	%r10d, %r13d
	xorl	%ebp, %r13d
	movl	-108(%rsp), %r9d                # 4-byte Reload
	xorl	%edx, %r9d
	xorl	%r15d, %r9d
	movl	-96(%rsp), %eax                 # 4-byte Reload
	xorl	-124(%rsp), %eax                # 4-byte Folded Reload
	xorl	%r14d, %eax
	movl	%eax, %edx
	movl	%esi, %r15d
	xorl	-120(%rsp), %r15d               # 4-byte Folded Reload
	xorl	%ecx, %r15d
	xorl	%r11d, %r12d
	movl	%eax, -96(%rsp)                 # 4-byte Spill
	xorl	%r8d, %eax
	movl	%edi, %ecx
	xorl	%edi, %r8d
	movl	%r8d, -116(%rsp)                # 4-byte Spill
	movl	%edi, %r14d
	movl	-88(%rsp), %ebx                 # 4-byte Reload
	xorl	%ebx, %r14d
	movl	%r15d, %edi
	xorl	%r12d, %edi
	movl	%r9d, %esi
	movl	%r9d, %r8d
	xorl	%r15d, %r8d
	movl	%edx, %r9d
	xorl	%r13d, %r9d
	xorl	%r15d, %ecx
	xorl	%ecx, %r9d
	movl	%r9d, -36(%rsp)                 # 4-byte Spill
	movl	%r8d, %edx
	movl	%r8d, -120(%rsp)                # 4-byte Spill
	xorl	%eax, %edx
	movl	%edx, -124(%rsp)                # 4-byte Spill
	xorl	%r12d, %eax
	movl	%eax, %ebp
	movl	%eax, -40(%rsp)                 # 4-byte Spill
	xorl	%esi, %r12d
	xorl	%r13d, %esi
	movl	%esi, %eax
	xorl	%r14d, %eax
	movq	%rax, -72(%rsp)                 # 8-byte Spill
                                        # kill: def $eax killed $eax killed $rax
	orl	%r9d, %eax
	movl	%esi, %r11d
	movl	%esi, %r9d
	xorl	%ebx, %r11d
	movl	%r11d, -76(%rsp)                # 4-byte Spill
	andl	%r8d, %r11d
	xorl	%eax, %r11d
	xorl	%r12d, %r15d
	movl	%r15d, %edx
	movl	%r15d, -32(%rsp)                # 4-byte Spill
	movl	%r13d, %esi
	xorl	%r13d, %edx
	movl	%edx, -92(%rsp)                 # 4-byte Spill
	xorl	%ebx, %esi
	movl	%r9d, %eax
	movl	-116(%rsp), %ebx                # 4-byte Reload
	xorl	%ebx, %eax
	andl	%eax, %edx
	movl	%eax, %r10d
	movl	%eax, -128(%rsp)                # 4-byte Spill
	movl	%r14d, -88(%rsp)                # 4-byte Spill
	xorl	%r8d, %r14d
	xorl	%esi, %ecx
	movl	%ecx, -112(%rsp)                # 4-byte Spill
	movl	%r14d, %r13d
	movl	%r14d, -56(%rsp)                # 4-byte Spill
	andl	%ebp, %r13d
	xorl	%esi, %r13d
	xorl	%edi, %esi
	movl	%esi, %eax
	andl	%edi, %eax
	movl	%edi, -104(%rsp)                # 4-byte Spill
	movl	%r10d, %ecx
	xorl	%esi, %ecx
	movl	%esi, -100(%rsp)                # 4-byte Spill
	movl	%r9d, -108(%rsp)                # 4-byte Spill
	andl	%r9d, %ecx
	xorl	%ecx, %edx
	xorl	%eax, %ecx
	movl	-88(%rsp), %r8d                 # 4-byte Reload
	xorl	%edi, %r8d
	movl	%r8d, -88(%rsp)                 # 4-byte Spill
	movl	-124(%rsp), %eax                # 4-byte Reload
	andl	%r8d, %eax
	movl	%r15d, %r8d
	andl	%r12d, %r8d
	xorl	%eax, %r13d
	movl	%ebx, %edi
	xorl	%esi, %edi
	movl	%edi, -116(%rsp)                # 4-byte Spill
	xorl	%edi, %r8d
	xorl	%eax, %r8d
	xorl	%edx, %r11d
	xorl	%edx, %r8d
	movq	-72(%rsp), %r10                 # 8-byte Reload
	movl	%r10d, %ebp
	movl	-36(%rsp), %r15d                # 4-byte Reload
	andl	%r15d, %ebp
	movl	%r14d, %ebx
	movl	-96(%rsp), %eax                 # 4-byte Reload
	xorl	%eax, %ebx
	xorl	%eax, %ebp
	movl	%ebx, %eax
	movl	-112(%rsp), %edi                # 4-byte Reload
	andl	%edi, %eax
	xorl	%eax, %ebp
	xorl	%ecx, %r13d
	xorl	%r9d, %ebp
	xorl	%ecx, %ebp
	movl	%r8d, %edx
	andl	%r11d, %edx
	movl	%edx, %esi
	xorl	%r13d, %esi
	movl	%ebp, %ecx
	xorl	%r11d, %ecx
	movl	%edx, %r9d
	xorl	%ebp, %r9d
	andl	%ecx, %esi
	xorl	%ebp, %esi
	andl	%r8d, %ebp
	xorl	%r13d, %r8d
	andl	%r8d, %ebp
	andl	%r8d, %r9d
	xorl	%edx, %r8d
	xorl	%ebp, %r8d
	xorl	%r13d, %r9d
	movl	%r8d, %r14d
	xorl	%r9d, %r14d
	andl	%r14d, %r10d
	movq	%r10, -72(%rsp)                 # 8-byte Spill
	andl	%r15d, %r14d
	andl	%r9d, %edi
	movl	%edi, -112(%rsp)                # 4-byte Spill
	movl	%r9d, %r15d
	andl	%ebx, %r9d
	andl	%r11d, %r13d
	andl	%ecx, %r13d
	xorl	%edx, %ecx
	xorl	%r13d, %ecx
	xorl	%esi, %r15d
	movl	-120(%rsp), %edx                # 4-byte Reload
	andl	%r8d, %edx
	movl	%edx, -120(%rsp)                # 4-byte Spill
	movl	-40(%rsp), %edi                 # 4-byte Reload
	andl	%esi, %edi
	andl	%esi, -56(%rsp)                 # 4-byte Folded Spill
	movl	-76(%rsp), %eax                 # 4-byte Reload
	andl	%r8d, %eax
	xorl	%ecx, %r8d
	andl	%ecx, %r12d
	xorl	%ecx, %esi
	andl	-32(%rsp), %ecx                 # 4-byte Folded Reload
	movl	-124(%rsp), %ebx                # 4-byte Reload
	andl	%esi, %ebx
	andl	-88(%rsp), %esi                 # 4-byte Folded Reload
	andl	%r15d, -108(%rsp)               # 4-byte Folded Spill
	movl	-116(%rsp), %r11d               # 4-byte Reload
	andl	%r15d, %r11d
	xorl	%r8d, %r15d
	movl	-128(%rsp), %r10d               # 4-byte Reload
	andl	%r15d, %r10d
	xorl	%eax, %r10d
	movl	%r10d, -128(%rsp)               # 4-byte Spill
	xorl	%eax, %ecx
	andl	-92(%rsp), %r15d                # 4-byte Folded Reload
	movl	-100(%rsp), %ebp                # 4-byte Reload
	andl	%r8d, %ebp
	andl	-104(%rsp), %r8d                # 4-byte Folded Reload
	movl	%r14d, %eax
	xorl	%r9d, %eax
	movl	%r11d, %r10d
	xorl	%edx, %r10d
	movq	-72(%rsp), %r13                 # 8-byte Reload
	xorl	%r13d, %r10d
	movl	%ebx, %edx
	xorl	%ebx, %r9d
	xorl	%r10d, -128(%rsp)               # 4-byte Folded Spill
	xorl	%edi, %edx
	movl	%r15d, %ebx
	xorl	%ebp, %ebx
	xorl	%ebx, %r10d
	xorl	%r8d, %esi
	xorl	%r9d, %r8d
	xorl	%ecx, %r9d
	xorl	%r10d, %r9d
	xorl	%r10d, %edx
	movl	%edx, -124(%rsp)                # 4-byte Spill
	xorl	%eax, %r10d
	movq	-64(%rsp), %rax                 # 8-byte Reload
	xorl	%edi, %r12d
	xorl	-112(%rsp), %r11d               # 4-byte Folded Reload
	xorl	%r14d, %r15d
	xorl	%r14d, %ecx
	movl	-108(%rsp), %edi                # 4-byte Reload
	xorl	%r11d, %ecx
	movl	-56(%rsp), %r14d                # 4-byte Reload
	xorl	%r14d, %edi
	xorl	%r12d, %r14d
	xorl	%r14d, %r13d
	xorl	%ebx, %r13d
	movq	%r13, %rbx
	xorl	%r14d, %r8d
	movl	-128(%rsp), %edx                # 4-byte Reload
	xorl	%edx, %r15d
	xorl	%edx, %r8d
	xorl	-120(%rsp), %r12d               # 4-byte Folded Reload
	xorl	%ebp, %r12d
	xorl	%esi, %edi
	xorl	%esi, %r12d
	xorl	%ecx, %ebx
	xorl	%ecx, %r12d
	addq	$-64, %rax
	jne	LBB17_4
# %bb.5:                                # %"aes_soft::soft::ciphers::planes::DecryptPlaneCipher::process_planes::<#e38f99acfded9ac6>.exit"
	movq	-48(%rsp), %rax                 # 8-byte Reload
	xorw	(%rax), %di
	xorw	2(%rax), %r15w
	xorw	4(%rax), %r9w
	xorw	6(%rax), %r8w
	movl	-124(%rsp), %edx                # 4-byte Reload
	xorw	8(%rax), %dx
	xorw	10(%rax), %bx
	xorw	12(%rax), %r12w
	xorw	14(%rax), %r10w
	movzwl	%di, %eax
	shll	$16, %r15d
	orq	%rax, %r15
	movzwl	%r9w, %eax
	shlq	$32, %rax
	orq	%r15, %rax
	movzwl	%r8w, %ecx
	shlq	$48, %rcx
	orq	%rax, %rcx
	movzwl	%dx, %eax
	shll	$16, %ebx
	orq	%rax, %rbx
	movzwl	%r12w, %eax
	shlq	$32, %rax
	orq	%rbx, %rax
	movzwl	%r10w, %edx
	shlq	$48, %rdx
	orq	%rax, %rdx
	movq	%rdx, %xmm0
	movq	%rcx, %xmm2
	punpcklqdq	%xmm0, %xmm2            # xmm2 = xmm2[0],xmm0[0]
	pxor	%xmm0, %xmm0
	movdqa	%xmm2, %xmm3
	punpckhbw	%xmm0, %xmm3            # xmm3 = xmm3[8],xmm0[8],xmm3[9],xmm0[9],xmm3[10],xmm0[10],xmm3[11],xmm0[11],xmm3[12],xmm0[12],xmm3[13],xmm0[13],xmm3[14],xmm0[14],xmm3[15],xmm0[15]
	pslld	$16, %xmm3
	psrld	$16, %xmm3
	movdqa	%xmm2, %xmm1
	punpcklbw	%xmm0, %xmm1            # xmm1 = xmm1[0],xmm0[0],xmm1[1],xmm0[1],xmm1[2],xmm0[2],xmm1[3],xmm0[3],xmm1[4],xmm0[4],xmm1[5],xmm0[5],xmm1[6],xmm0[6],xmm1[7],xmm0[7]
	pslld	$16, %xmm1
	psrld	$16, %xmm1
	packssdw	%xmm3, %xmm1
	psrlw	$8, %xmm2
	packuswb	%xmm2, %xmm1
	movdqa	%xmm1, %xmm2
	psllw	$5, %xmm2
	pmovmskb	%xmm2, %edx
	movdqa	%xmm1, %xmm2
	psllw	$4, %xmm2
	pmovmskb	%xmm2, %ecx
	movdqa	%xmm1, %xmm2
	psllw	$3, %xmm2
	pmovmskb	%xmm2, %eax
	movdqa	%xmm1, %xmm3
	movdqa	%xmm1, %xmm2
	movdqa	%xmm1, %xmm4
	pmovmskb	%xmm1, %esi
	psllw	$6, %xmm1
	psllw	$2, %xmm3
	pmovmskb	%xmm3, %edi
	paddb	%xmm2, %xmm2
	psllw	$7, %xmm4
	pmovmskb	%xmm4, %r8d
	pmovmskb	%xmm1, %r9d
	shll	$16, %r9d
	orl	%r8d, %r9d
	shlq	$32, %rdx
	orq	%r9, %rdx
	shlq	$48, %rcx
	orq	%rdx, %rcx
	shll	$16, %edi
	orl	%eax, %edi
	shll	$16, %esi
	pmovmskb	%xmm2, %edx
	orl	%esi, %edx
	shlq	$32, %rdx
	orq	%rdi, %rdx
	movq	%rdx, %xmm1
	movq	%rcx, %xmm2
	movdqa	%xmm2, %xmm3
	punpcklqdq	%xmm1, %xmm3            # xmm3 = xmm3[0],xmm1[0]
	movdqa	%xmm3, -16(%rsp)
	movzbl	-16(%rsp), %ecx
	movzbl	-9(%rsp), %edx
	movzbl	-1(%rsp), %esi
	movq	(%rsp), %rdi                    # 8-byte Reload
	movb	%cl, (%rdi)
	movb	%al, 1(%rdi)
	punpcklbw	%xmm0, %xmm1            # xmm1 = xmm1[0],xmm0[0],xmm1[1],xmm0[1],xmm1[2],xmm0[2],xmm1[3],xmm0[3],xmm1[4],xmm0[4],xmm1[5],xmm0[5],xmm1[6],xmm0[6],xmm1[7],xmm0[7]
	punpcklbw	%xmm0, %xmm2            # xmm2 = xmm2[0],xmm0[0],xmm2[1],xmm0[1],xmm2[2],xmm0[2],xmm2[3],xmm0[3],xmm2[4],xmm0[4],xmm2[5],xmm0[5],xmm2[6],xmm0[6],xmm2[7],xmm0[7]
	movdqa	%xmm2, %xmm0
	punpckhwd	%xmm1, %xmm2            # xmm2 = xmm2[4],xmm1[4],xmm2[5],xmm1[5],xmm2[6],xmm1[6],xmm2[7],xmm1[7]
	psrldq	$2, %xmm1                       # xmm1 = xmm1[2,3,4,5,6,7,8,9,10,11,12,13,14,15],zero,zero
	psrldq	$2, %xmm0                       # xmm0 = xmm0[2,3,4,5,6,7,8,9,10,11,12,13,14,15],zero,zero
	punpcklwd	%xmm1, %xmm0            # xmm0 = xmm0[0],xmm1[0],xmm0[1],xmm1[1],xmm0[2],xmm1[2],xmm0[3],xmm1[3]
	packuswb	%xmm0, %xmm0
	movq	%xmm0, 2(%rdi)
	pshufd	$233, %xmm2, %xmm0              # xmm0 = xmm2[1,2,2,3]
	packuswb	%xmm0, %xmm0
	movd	%xmm0, 10(%rdi)
	movb	%dl, 14(%rdi)
	movb	%sil, 15(%rdi)
	addq	$8, %rsp
	popq	%rbx
	popq	%r12
	popq	%r13
	popq	%r14
	popq	%r15
	popq	%rbp
	retq
                                        # -- End function
	.section	__TEXT,__const
	.p2align	4, 0x0                          # -- Begin function aes::hazmat::cipher_round
l_CPI18_0:
	.byte	255                             # 0xff
	.byte	0                               # 0x0
	.byte	255                             # 0xff
	.byte	255                             # 0xff
	.byte	255                             # 0xff
	.byte	255                             # 0xff
	.byte	255                             # 0xff
	.byte	255                             # 0xff
	.byte	255                             # 0xff
	.byte	255                             # 0xff
	.byte	255                             # 0xff
	.byte	255                             # 0xff
	.byte	255                             # 0xff
	.byte	255                             # 0xff
	.byte	255                             # 0xff
	.byte	255                             # 0xff
l_CPI18_1:
	.short	0                               # 0x0
	.short	65535                           # 0xffff
	.short	65535                           # 0xffff
	.short	65535                           # 0xffff
	.short	65535                           # 0xffff
	.short	65535                           # 0xffff
	.short	65535                           # 0xffff
	.short	65535                           # 0xffff
	.section	__TEXT,__text,regular,pure_instructions
	.p2align	4
"aes::hazmat::cipher_round":            # @"aes::hazmat::cipher_round"
# %bb.0:                                # %start
	pushq	%rbp
	pushq	%r15
	pushq	%r14
	pushq	%r13
	pushq	%r12
	pushq	%rbx
	movq	%rsi, -16(%rsp)                 # 8-byte Spill
	movq	%rdi, -8(%rsp)                  # 8-byte Spill
	movdqu	(%rdi), %xmm6
	pxor	%xmm0, %xmm0
	movdqa	%xmm6, %xmm1
	punpckhbw	%xmm0, %xmm1            # xmm1 = xmm1[8],xmm0[8],xmm1[9],xmm0[9],xmm1[10],xmm0[10],xmm1[11],xmm0[11],xmm1[12],xmm0[12],xmm1[13],xmm0[13],xmm1[14],xmm0[14],xmm1[15],xmm0[15]
	pshufd	$231, %xmm1, %xmm2              # xmm2 = xmm1[3,1,2,3]
	pshuflw	$114, %xmm2, %xmm2              # xmm2 = xmm2[2,0,3,1,4,5,6,7]
	movdqa	%xmm6, %xmm3
	punpcklbw	%xmm0, %xmm3            # xmm3 = xmm3[0],xmm0[0],xmm3[1],xmm0[1],xmm3[2],xmm0[2],xmm3[3],xmm0[3],xmm3[4],xmm0[4],xmm3[5],xmm0[5],xmm3[6],xmm0[6],xmm3[7],xmm0[7]
	pshufd	$231, %xmm3, %xmm4              # xmm4 = xmm3[3,1,2,3]
	pshuflw	$114, %xmm4, %xmm4              # xmm4 = xmm4[2,0,3,1,4,5,6,7]
	punpckldq	%xmm2, %xmm4            # xmm4 = xmm4[0],xmm2[0],xmm4[1],xmm2[1]
	pshufd	$232, %xmm1, %xmm1              # xmm1 = xmm1[0,2,2,3]
	pshuflw	$216, %xmm1, %xmm2              # xmm2 = xmm1[0,2,1,3,4,5,6,7]
	pshufd	$232, %xmm3, %xmm1              # xmm1 = xmm3[0,2,2,3]
	pshuflw	$216, %xmm1, %xmm1              # xmm1 = xmm1[0,2,1,3,4,5,6,7]
	punpckldq	%xmm2, %xmm1            # xmm1 = xmm1[0],xmm2[0],xmm1[1],xmm2[1]
	packuswb	%xmm4, %xmm1
	movdqa	%xmm1, %xmm2
	psllw	$2, %xmm2
	pxor	%xmm8, %xmm8
	pcmpgtb	%xmm2, %xmm8
	movdqa	%xmm1, %xmm4
	psllw	$6, %xmm4
	pmovmskb	%xmm4, %r10d
	movdqa	%xmm1, %xmm3
	psllw	$5, %xmm3
	pmovmskb	%xmm3, %r14d
	movdqa	%xmm1, %xmm5
	paddb	%xmm6, %xmm6
	movdqa	%xmm6, %xmm7
	punpckhbw	%xmm0, %xmm7            # xmm7 = xmm7[8],xmm0[8],xmm7[9],xmm0[9],xmm7[10],xmm0[10],xmm7[11],xmm0[11],xmm7[12],xmm0[12],xmm7[13],xmm0[13],xmm7[14],xmm0[14],xmm7[15],xmm0[15]
	pshufd	$231, %xmm7, %xmm2              # xmm2 = xmm7[3,1,2,3]
	pshuflw	$114, %xmm2, %xmm2              # xmm2 = xmm2[2,0,3,1,4,5,6,7]
	punpcklbw	%xmm0, %xmm6            # xmm6 = xmm6[0],xmm0[0],xmm6[1],xmm0[1],xmm6[2],xmm0[2],xmm6[3],xmm0[3],xmm6[4],xmm0[4],xmm6[5],xmm0[5],xmm6[6],xmm0[6],xmm6[7],xmm0[7]
	pshufd	$231, %xmm6, %xmm9              # xmm9 = xmm6[3,1,2,3]
	pshuflw	$114, %xmm9, %xmm9              # xmm9 = xmm9[2,0,3,1,4,5,6,7]
	punpckldq	%xmm2, %xmm9            # xmm9 = xmm9[0],xmm2[0],xmm9[1],xmm2[1]
	movdqa	%xmm1, %xmm2
	pshufd	$232, %xmm7, %xmm7              # xmm7 = xmm7[0,2,2,3]
	pshuflw	$216, %xmm7, %xmm7              # xmm7 = xmm7[0,2,1,3,4,5,6,7]
	pshufd	$232, %xmm6, %xmm6              # xmm6 = xmm6[0,2,2,3]
	pshuflw	$216, %xmm6, %xmm6              # xmm6 = xmm6[0,2,1,3,4,5,6,7]
	punpckldq	%xmm7, %xmm6            # xmm6 = xmm6[0],xmm7[0],xmm6[1],xmm7[1]
	packuswb	%xmm9, %xmm6
	pxor	%xmm7, %xmm7
	pcmpgtb	%xmm6, %xmm7
	pxor	%xmm8, %xmm7
	pmovmskb	%xmm7, %ebp
	movdqa	%xmm3, %xmm8
	pxor	%xmm1, %xmm7
	pxor	%xmm1, %xmm4
	pxor	%xmm1, %xmm3
	movdqa	%xmm1, %xmm9
	psllw	$7, %xmm9
	pmovmskb	%xmm9, %r13d
	psllw	$4, %xmm5
	pmovmskb	%xmm5, %r15d
	psllw	$3, %xmm2
	pmovmskb	%xmm2, %esi
	pmovmskb	%xmm6, %ecx
	pxor	%xmm2, %xmm8
	psllw	$7, %xmm7
	pmovmskb	%xmm7, %ebx
	xorl	%ebx, %esi
	movl	%esi, -60(%rsp)                 # 4-byte Spill
	movl	%esi, %eax
	andl	%r13d, %eax
	pmovmskb	%xmm4, %edx
	pmovmskb	%xmm8, %r11d
	movl	%edx, %edi
	xorl	%r11d, %edi
	movl	%r11d, -36(%rsp)                # 4-byte Spill
	xorl	%edi, %r15d
	movl	%edi, %r8d
	movl	%edi, -28(%rsp)                 # 4-byte Spill
	xorl	%r15d, %r14d
	xorl	%ecx, %r15d
	pmovmskb	%xmm3, %r12d
	movl	%r12d, -20(%rsp)                # 4-byte Spill
	movl	%r14d, %ecx
	xorl	%ebp, %ecx
	movl	%ecx, -24(%rsp)                 # 4-byte Spill
	movl	%r12d, %edi
	xorl	%ecx, %edi
	xorl	%eax, %edi
	pxor	%xmm1, %xmm2
	movl	%r14d, %esi
	andl	%r8d, %esi
	xorl	%esi, %edi
	xorl	%r15d, %esi
	pmovmskb	%xmm2, %eax
	movl	%eax, -64(%rsp)                 # 4-byte Spill
	xorl	%eax, %r15d
	movl	%r15d, %r8d
	andl	%eax, %r8d
	movl	%r15d, %r9d
	xorl	%ecx, %r9d
	movl	%r9d, -32(%rsp)                 # 4-byte Spill
	andl	%r11d, %r9d
	andl	%r12d, %ecx
	xorl	%r8d, %r9d
	xorl	%r8d, %ecx
	movl	%ebx, %r11d
	xorl	%ebx, %r10d
	movl	%r14d, %ebx
	movl	%r13d, %eax
	xorl	%r13d, %ebx
	movl	%r10d, %r13d
	movl	%r10d, -44(%rsp)                # 4-byte Spill
	xorl	%r12d, %r13d
	movl	%r13d, -40(%rsp)                # 4-byte Spill
	movl	%ebx, %r8d
	andl	%r13d, %r8d
	xorl	%r8d, %esi
	movl	%ebp, %r8d
	xorl	%r15d, %r8d
	movl	%r10d, %r13d
	andl	%r11d, %r13d
	movl	%r11d, %r12d
	movl	%r8d, %r10d
	movl	%edx, -52(%rsp)                 # 4-byte Spill
	andl	%edx, %r10d
	xorl	%r9d, %esi
	xorl	%r8d, %r13d
	movl	%r8d, %r11d
	movl	%r8d, -56(%rsp)                 # 4-byte Spill
	xorl	%r10d, %r13d
	xorl	%edx, %r13d
	xorl	%r9d, %r13d
	pmovmskb	%xmm1, %r8d
	movl	%r12d, %ebp
	movl	%r12d, %r9d
	xorl	%r8d, %ebp
	xorl	%r8d, %r10d
	movl	%r15d, %r8d
	xorl	%eax, %r8d
	movl	%r8d, -48(%rsp)                 # 4-byte Spill
	andl	%ebp, %r8d
	xorl	%r11d, %r8d
	xorl	%r8d, %r10d
	xorl	%ecx, %edi
	xorl	%ecx, %r10d
	movl	%r13d, %r12d
	andl	%esi, %r12d
	movl	%r12d, %ecx
	xorl	%edi, %ecx
	movl	%r10d, %r8d
	xorl	%r13d, %r8d
	andl	%ecx, %r8d
	xorl	%edi, %esi
	movl	%r8d, %r11d
	xorl	%r12d, %r8d
	xorl	%r10d, %r12d
	movl	%r12d, %ecx
	andl	%esi, %ecx
	xorl	%edi, %ecx
	xorl	%r10d, %r11d
	andl	%r10d, %r8d
	xorl	%r8d, %r12d
	andl	%ecx, %r12d
	xorl	%esi, %r12d
	xorl	%r13d, %r8d
	andl	%r11d, -60(%rsp)                # 4-byte Folded Spill
	movl	%r8d, %esi
	xorl	%r11d, %esi
	movl	%ecx, %edi
	xorl	%r11d, %edi
	andl	%eax, %r11d
	movl	%r12d, %edx
	xorl	%esi, %edx
	andl	%edi, %r15d
	movl	%edx, %r13d
	xorl	%edi, %r13d
	andl	-64(%rsp), %edi                 # 4-byte Folded Reload
	movl	%r12d, %eax
	xorl	%ecx, %eax
	movl	-56(%rsp), %r10d                # 4-byte Reload
	andl	%eax, %r10d
	andl	-52(%rsp), %eax                 # 4-byte Folded Reload
	andl	%r12d, %r9d
	movl	%r9d, -64(%rsp)                 # 4-byte Spill
	andl	-44(%rsp), %r12d                # 4-byte Folded Reload
	andl	%esi, %ebx
	andl	-40(%rsp), %esi                 # 4-byte Folded Reload
	movl	-36(%rsp), %r9d                 # 4-byte Reload
	andl	%r13d, %r9d
	andl	-32(%rsp), %r13d                # 4-byte Folded Reload
	andl	%ecx, %ebp
	andl	-48(%rsp), %ecx                 # 4-byte Folded Reload
	andl	%r8d, %r14d
	andl	-28(%rsp), %r8d                 # 4-byte Folded Reload
	xorl	%r14d, %ebx
	xorl	%r11d, %r14d
	movl	-64(%rsp), %r11d                # 4-byte Reload
	xorl	%r10d, %r11d
	xorl	%r14d, %ecx
	xorl	%r10d, %ecx
	xorl	%edi, %r9d
	xorl	%r9d, %esi
	xorl	%ecx, %r12d
	xorl	%r9d, %r12d
	xorl	%r11d, %r13d
	xorl	%r11d, %ebx
	movl	-24(%rsp), %r9d                 # 4-byte Reload
	andl	%edx, %r9d
	xorl	%r9d, %r14d
	xorl	%eax, %r14d
	xorl	%r13d, %r14d
	xorl	%r15d, %r13d
	xorl	%esi, %r8d
	xorl	-60(%rsp), %esi                 # 4-byte Folded Reload
	xorl	%r14d, %ebp
	xorl	%r8d, %ebx
	xorl	%ebx, %ecx
	andl	-20(%rsp), %edx                 # 4-byte Folded Reload
	xorl	%ebp, %esi
	xorl	%r13d, %r8d
	xorl	%r12d, %eax
	notl	%eax
	xorl	%r12d, %r14d
	notl	%r14d
	xorl	%edi, %edx
	xorl	%r13d, %edx
	xorl	%ebp, %edx
	notl	%edx
	xorl	%ebx, %r13d
	notl	%r13d
	movl	%eax, %r9d
	shrl	$2, %r9d
	xorl	%eax, %r9d
	andl	$8976, %r9d                     # imm = 0x2310
	xorl	%r9d, %eax
	shll	$2, %r9d
	xorl	%eax, %r9d
	movl	%r14d, %eax
	shrl	$2, %eax
	xorl	%r14d, %eax
	andl	$8976, %eax                     # imm = 0x2310
	xorl	%eax, %r14d
	shll	$2, %eax
	xorl	%r14d, %eax
	movl	%esi, %edi
	shrl	$2, %edi
	xorl	%esi, %edi
	andl	$8976, %edi                     # imm = 0x2310
	leal	(%rdi,%rdi,4), %r10d
	xorl	%esi, %r10d
	movl	%ecx, %esi
	shrl	$2, %esi
	xorl	%ecx, %esi
	andl	$8976, %esi                     # imm = 0x2310
	leal	(%rsi,%rsi,4), %r14d
	xorl	%ecx, %r14d
	movl	%ebx, %ecx
	shrl	$2, %ecx
	xorl	%ebx, %ecx
	andl	$8976, %ecx                     # imm = 0x2310
	leal	(%rcx,%rcx,4), %r15d
	xorl	%ebx, %r15d
	movl	%edx, %esi
	shrl	$2, %esi
	xorl	%edx, %esi
	andl	$8976, %esi                     # imm = 0x2310
	xorl	%esi, %edx
	shll	$2, %esi
	xorl	%edx, %esi
	movl	%r13d, %r11d
	shrl	$2, %r11d
	xorl	%r13d, %r11d
	andl	$8976, %r11d                    # imm = 0x2310
	xorl	%r11d, %r13d
	shll	$2, %r11d
	xorl	%r13d, %r11d
	movl	%r8d, %ecx
	shrl	$2, %ecx
	xorl	%r8d, %ecx
	andl	$8976, %ecx                     # imm = 0x2310
	leal	(%rcx,%rcx,4), %ebp
	xorl	%r8d, %ebp
	movl	%r9d, %ecx
	shrl	%ecx
	xorl	%r9d, %ecx
	andl	$20560, %ecx                    # imm = 0x5050
	leal	(%rcx,%rcx,2), %edi
	xorl	%r9d, %edi
	movl	%eax, %ecx
	shrl	%ecx
	xorl	%eax, %ecx
	andl	$20560, %ecx                    # imm = 0x5050
	leal	(%rcx,%rcx,2), %ecx
	xorl	%eax, %ecx
	movl	%r10d, %eax
	shrl	%eax
	xorl	%r10d, %eax
	andl	$20560, %eax                    # imm = 0x5050
	leal	(%rax,%rax,2), %eax
	xorl	%r10d, %eax
	movl	%r14d, %edx
	shrl	%edx
	xorl	%r14d, %edx
	andl	$20560, %edx                    # imm = 0x5050
	leal	(%rdx,%rdx,2), %r9d
	xorl	%r14d, %r9d
	movl	%r15d, %edx
	shrl	%edx
	xorl	%r15d, %edx
	andl	$20560, %edx                    # imm = 0x5050
	leal	(%rdx,%rdx,2), %edx
	xorl	%r15d, %edx
	movl	%esi, %r8d
	shrl	%r8d
	xorl	%esi, %r8d
	andl	$20560, %r8d                    # imm = 0x5050
	leal	(%r8,%r8,2), %r8d
	xorl	%esi, %r8d
	movl	%r11d, %esi
	shrl	%esi
	xorl	%r11d, %esi
	andl	$20560, %esi                    # imm = 0x5050
	leal	(%rsi,%rsi,2), %r10d
	xorl	%r11d, %r10d
	movl	%ebp, %esi
	shrl	%esi
	xorl	%ebp, %esi
	andl	$20560, %esi                    # imm = 0x5050
	leal	(%rsi,%rsi,2), %esi
	movl	%edi, %ebx
	rolw	$12, %bx
	xorl	%ebp, %esi
	movl	%ecx, %r11d
	rolw	$12, %r11w
	movl	%eax, %r14d
	rolw	$12, %r14w
	movl	%esi, %ebp
	rolw	$12, %bp
	xorl	%ebx, %edi
	xorl	%r11d, %ecx
	xorl	%ebp, %esi
	xorl	%esi, %r11d
	xorl	%edi, %r11d
                                        # kill: def $di killed $di killed $edi def $edi
	rolw	$8, %di
	xorl	%esi, %ebx
	xorl	%edi, %ebx
	movl	%ecx, %edi
	rolw	$8, %di
	xorl	%edi, %r11d
	movl	%r9d, %edi
	rolw	$12, %di
	xorl	%r14d, %eax
	xorl	%r14d, %ecx
	movl	%eax, %r14d
	rolw	$8, %r14w
	xorl	%r14d, %ecx
	movl	%edx, %r14d
	rolw	$12, %r14w
	xorl	%edi, %r9d
	xorl	%r14d, %edx
	xorl	%esi, %eax
	xorl	%edi, %eax
	movl	%esi, %edi
	xorl	%r14d, %esi
	xorl	%r9d, %esi
                                        # kill: def $r9w killed $r9w killed $r9d def $r9d
	rolw	$8, %r9w
	xorl	%r9d, %eax
	movl	%edx, %r9d
	rolw	$8, %r9w
	xorl	%r9d, %esi
	movl	%r8d, %r9d
	rolw	$12, %r9w
	xorl	%r9d, %r8d
	xorl	%r9d, %edx
	movl	%r8d, %r9d
	rolw	$8, %r9w
	xorl	%r9d, %edx
	movl	%r10d, %r9d
	rolw	$12, %r9w
	xorl	%r9d, %r10d
	xorl	%r9d, %r8d
	rolw	$8, %di
	xorl	%ebp, %edi
	xorl	%r10d, %edi
                                        # kill: def $r10w killed $r10w killed $r10d def $r10d
	rolw	$8, %r10w
	xorl	%r10d, %r8d
	movzwl	%bx, %r9d
	shll	$16, %r11d
	orl	%r9d, %r11d
	movzwl	%cx, %ecx
	shlq	$32, %rcx
	orq	%r11, %rcx
	shlq	$48, %rax
	orq	%rcx, %rax
	movzwl	%si, %ecx
	shll	$16, %edx
	orl	%ecx, %edx
	movzwl	%r8w, %ecx
	shlq	$32, %rcx
	orq	%rdx, %rcx
	shlq	$48, %rdi
	orq	%rcx, %rdi
	movq	%rax, %xmm2
	movq	%rdi, %xmm1
	punpcklqdq	%xmm1, %xmm2            # xmm2 = xmm2[0],xmm1[0]
	movdqa	%xmm2, %xmm3
	punpckhbw	%xmm0, %xmm3            # xmm3 = xmm3[8],xmm0[8],xmm3[9],xmm0[9],xmm3[10],xmm0[10],xmm3[11],xmm0[11],xmm3[12],xmm0[12],xmm3[13],xmm0[13],xmm3[14],xmm0[14],xmm3[15],xmm0[15]
	pslld	$16, %xmm3
	psrld	$16, %xmm3
	movdqa	%xmm2, %xmm1
	punpcklbw	%xmm0, %xmm1            # xmm1 = xmm1[0],xmm0[0],xmm1[1],xmm0[1],xmm1[2],xmm0[2],xmm1[3],xmm0[3],xmm1[4],xmm0[4],xmm1[5],xmm0[5],xmm1[6],xmm0[6],xmm1[7],xmm0[7]
	pslld	$16, %xmm1
	psrld	$16, %xmm1
	packssdw	%xmm3, %xmm1
	psrlw	$8, %xmm2
	packuswb	%xmm2, %xmm1
	movdqa	%xmm1, %xmm5
	movdqa	%xmm1, %xmm4
	movdqa	%xmm1, %xmm3
	movdqa	%xmm1, %xmm0
	movdqa	%xmm1, %xmm2
	movdqa	%xmm1, %xmm6
	pmovmskb	%xmm1, %eax
	psllw	$6, %xmm1
	psllw	$5, %xmm5
	pmovmskb	%xmm5, %ecx
	psllw	$4, %xmm4
	psllw	$7, %xmm6
	pmovmskb	%xmm6, %edx
	pmovmskb	%xmm1, %esi
	shll	$16, %esi
	orl	%edx, %esi
	pmovmskb	%xmm4, %edx
	psllw	$3, %xmm3
	shlq	$32, %rcx
	orq	%rsi, %rcx
	pmovmskb	%xmm3, %esi
	psllw	$2, %xmm0
	paddb	%xmm2, %xmm2
	shlq	$48, %rdx
	orq	%rcx, %rdx
	shll	$16, %eax
	pmovmskb	%xmm2, %ecx
	orl	%eax, %ecx
	pmovmskb	%xmm0, %eax
	shll	$16, %eax
	orl	%esi, %eax
	shlq	$32, %rcx
	orq	%rax, %rcx
	movq	%rcx, %xmm0
	movq	%rdx, %xmm1
	movd	%esi, %xmm2
	movq	-16(%rsp), %rax                 # 8-byte Reload
	movdqu	(%rax), %xmm3
	movdqa	l_CPI18_0(%rip), %xmm4          # xmm4 = [255,0,255,255,255,255,255,255,255,255,255,255,255,255,255,255]
	pand	%xmm1, %xmm4
	psllw	$8, %xmm2
	por	%xmm4, %xmm2
	punpcklbw	%xmm0, %xmm1            # xmm1 = xmm1[0],xmm0[0],xmm1[1],xmm0[1],xmm1[2],xmm0[2],xmm1[3],xmm0[3],xmm1[4],xmm0[4],xmm1[5],xmm0[5],xmm1[6],xmm0[6],xmm1[7],xmm0[7]
	movdqa	l_CPI18_1(%rip), %xmm0          # xmm0 = [0,65535,65535,65535,65535,65535,65535,65535]
	pand	%xmm0, %xmm1
	pandn	%xmm2, %xmm0
	por	%xmm1, %xmm0
	pxor	%xmm0, %xmm3
	movq	-8(%rsp), %rax                  # 8-byte Reload
	movdqu	%xmm3, (%rax)
	popq	%rbx
	popq	%r12
	popq	%r13
	popq	%r14
	popq	%r15
	popq	%rbp
	retq
                                        # -- End function
	.section	__TEXT,__text,regular,pure_instructions
	.p2align	4                               # -- Begin function aes::hazmat::inv_mix_columns
"aes::hazmat::inv_mix_columns":         # @"aes::hazmat::inv_mix_columns"
# %bb.0:                                # %start
	pushq	%rbp
	pushq	%r15
	pushq	%r14
	pushq	%r13
	pushq	%r12
	pushq	%rbx
	movq	%rdi, -8(%rsp)                  # 8-byte Spill
	movdqu	(%rdi), %xmm1
	pxor	%xmm0, %xmm0
	movdqa	%xmm1, %xmm2
	punpckhbw	%xmm0, %xmm2            # xmm2 = xmm2[8],xmm0[8],xmm2[9],xmm0[9],xmm2[10],xmm0[10],xmm2[11],xmm0[11],xmm2[12],xmm0[12],xmm2[13],xmm0[13],xmm2[14],xmm0[14],xmm2[15],xmm0[15]
	pshufd	$231, %xmm2, %xmm3              # xmm3 = xmm2[3,1,2,3]
	pshuflw	$114, %xmm3, %xmm3              # xmm3 = xmm3[2,0,3,1,4,5,6,7]
	punpcklbw	%xmm0, %xmm1            # xmm1 = xmm1[0],xmm0[0],xmm1[1],xmm0[1],xmm1[2],xmm0[2],xmm1[3],xmm0[3],xmm1[4],xmm0[4],xmm1[5],xmm0[5],xmm1[6],xmm0[6],xmm1[7],xmm0[7]
	pshufd	$231, %xmm1, %xmm4              # xmm4 = xmm1[3,1,2,3]
	pshuflw	$114, %xmm4, %xmm4              # xmm4 = xmm4[2,0,3,1,4,5,6,7]
	punpckldq	%xmm3, %xmm4            # xmm4 = xmm4[0],xmm3[0],xmm4[1],xmm3[1]
	pshufd	$232, %xmm2, %xmm2              # xmm2 = xmm2[0,2,2,3]
	pshuflw	$216, %xmm2, %xmm2              # xmm2 = xmm2[0,2,1,3,4,5,6,7]
	pshufd	$232, %xmm1, %xmm1              # xmm1 = xmm1[0,2,2,3]
	pshuflw	$216, %xmm1, %xmm1              # xmm1 = xmm1[0,2,1,3,4,5,6,7]
	punpckldq	%xmm2, %xmm1            # xmm1 = xmm1[0],xmm2[0],xmm1[1],xmm2[1]
	packuswb	%xmm4, %xmm1
	movdqa	%xmm1, %xmm2
	psllw	$7, %xmm2
	pmovmskb	%xmm2, %r15d
	movdqa	%xmm1, %xmm2
	psllw	$6, %xmm2
	pmovmskb	%xmm2, %edx
	movl	%edx, -40(%rsp)                 # 4-byte Spill
	movdqa	%xmm1, %xmm2
	psllw	$5, %xmm2
	pmovmskb	%xmm2, %eax
	movdqa	%xmm1, %xmm2
	psllw	$4, %xmm2
	pmovmskb	%xmm2, %r14d
	movdqa	%xmm1, %xmm2
	psllw	$3, %xmm2
	pmovmskb	%xmm2, %r12d
	movdqa	%xmm1, %xmm2
	movl	%r15d, %r13d
	movl	%r15d, -28(%rsp)                # 4-byte Spill
	rolw	$12, %r13w
	psllw	$2, %xmm2
	movl	%edx, %esi
	rolw	$12, %si
	pmovmskb	%xmm2, %edx
	movl	%eax, %r11d
	movl	%eax, %ebx
	rolw	$12, %r11w
	pmovmskb	%xmm1, %r9d
	movl	%r14d, %eax
	movl	%r14d, -36(%rsp)                # 4-byte Spill
	rolw	$12, %ax
	paddb	%xmm1, %xmm1
	movl	%r12d, %ebp
	rolw	$12, %bp
	pmovmskb	%xmm1, %r8d
	movl	%edx, %ecx
	movl	%edx, %edi
	rolw	$12, %cx
	movl	%r8d, %edx
	rolw	$12, %dx
	movl	%edx, %r10d
	movl	%r9d, %edx
	rolw	$12, %dx
	xorl	%r15d, %r13d
	movl	-40(%rsp), %r15d                # 4-byte Reload
	xorl	%r15d, %esi
	xorl	%ebx, %r11d
	xorl	%r14d, %eax
	xorl	%r12d, %ebp
	xorl	%edi, %ecx
	xorl	%r8d, %r10d
	xorl	%r9d, %edx
	xorl	%edx, %r15d
	xorl	%r13d, %r15d
	movl	%r15d, -40(%rsp)                # 4-byte Spill
	xorl	%esi, %ebx
	movl	%ebx, %r14d
	xorl	%edx, %r12d
	xorl	%eax, %r12d
	xorl	%ebp, %edi
	movl	%edi, -32(%rsp)                 # 4-byte Spill
	xorl	%ecx, %r8d
	movl	%r10d, %ebx
	xorl	%r10d, %r9d
	xorl	%r8d, %r13d
	xorl	%r15d, %eax
	xorl	%r8d, %eax
	xorl	%r12d, %ebx
	movl	%ebx, %r15d
	xorl	%r8d, %ebx
	xorl	%r9d, %r8d
	xorl	%r8d, %esi
	xorl	%r14d, %ebp
	xorl	%r8d, %ebp
	movl	-28(%rsp), %edi                 # 4-byte Reload
	xorl	%edx, %edi
	movl	-36(%rsp), %r10d                # 4-byte Reload
	xorl	%edx, %r10d
	xorl	%r11d, %r10d
	xorl	%edi, %r11d
	movl	%edi, %r8d
	movl	%r13d, %edi
	rolw	$8, %di
	xorl	%r8d, %r13d
	xorl	%edi, %r13d
	movl	%esi, %edi
	xorl	-40(%rsp), %esi                 # 4-byte Folded Reload
	rolw	$8, %di
	xorl	%edi, %esi
	xorl	%r9d, %r11d
	movl	%r11d, %edi
	xorl	%r14d, %r11d
	xorl	%r9d, %ecx
	xorl	%r10d, %ecx
	rolw	$8, %di
	xorl	%edi, %r11d
	movl	%eax, %edi
	xorl	%r10d, %eax
	rolw	$8, %di
	xorl	%edi, %eax
	movl	%ebp, %edi
	xorl	%r12d, %ebp
	rolw	$8, %di
	movl	-32(%rsp), %r8d                 # 4-byte Reload
	xorl	%r8d, %edx
	xorl	%edi, %ebp
	movl	%ecx, %edi
	xorl	%r8d, %ecx
	rolw	$8, %di
	rolw	$8, %r15w
	xorl	%edi, %ecx
	xorl	%r15d, %ebx
	movl	%edx, %edi
	xorl	%r9d, %edx
	rolw	$8, %di
	xorl	%edi, %edx
	movzwl	%r13w, %edi
	shll	$16, %esi
	orl	%edi, %esi
	movzwl	%r11w, %edi
	shlq	$32, %rdi
	orq	%rsi, %rdi
	shlq	$48, %rax
	orq	%rdi, %rax
	movzwl	%bp, %esi
	shll	$16, %ecx
	orl	%esi, %ecx
	movzwl	%bx, %esi
	shlq	$32, %rsi
	orq	%rcx, %rsi
	shlq	$48, %rdx
	orq	%rsi, %rdx
	movq	%rdx, %xmm1
	movq	%rax, %xmm2
	punpcklqdq	%xmm1, %xmm2            # xmm2 = xmm2[0],xmm1[0]
	movdqa	%xmm2, %xmm3
	punpckhbw	%xmm0, %xmm3            # xmm3 = xmm3[8],xmm0[8],xmm3[9],xmm0[9],xmm3[10],xmm0[10],xmm3[11],xmm0[11],xmm3[12],xmm0[12],xmm3[13],xmm0[13],xmm3[14],xmm0[14],xmm3[15],xmm0[15]
	pslld	$16, %xmm3
	psrld	$16, %xmm3
	movdqa	%xmm2, %xmm1
	punpcklbw	%xmm0, %xmm1            # xmm1 = xmm1[0],xmm0[0],xmm1[1],xmm0[1],xmm1[2],xmm0[2],xmm1[3],xmm0[3],xmm1[4],xmm0[4],xmm1[5],xmm0[5],xmm1[6],xmm0[6],xmm1[7],xmm0[7]
	pslld	$16, %xmm1
	psrld	$16, %xmm1
	packssdw	%xmm3, %xmm1
	psrlw	$8, %xmm2
	packuswb	%xmm2, %xmm1
	movdqa	%xmm1, %xmm2
	psllw	$5, %xmm2
	pmovmskb	%xmm2, %eax
	movdqa	%xmm1, %xmm4
	movdqa	%xmm1, %xmm3
	movdqa	%xmm1, %xmm2
	movdqa	%xmm1, %xmm5
	psllw	$7, %xmm5
	pmovmskb	%xmm5, %ecx
	movdqa	%xmm1, %xmm5
	pmovmskb	%xmm1, %edx
	psllw	$6, %xmm1
	pmovmskb	%xmm1, %esi
	psllw	$4, %xmm4
	shll	$16, %esi
	orl	%ecx, %esi
	pmovmskb	%xmm4, %ecx
	psllw	$3, %xmm3
	shlq	$32, %rax
	orq	%rsi, %rax
	pmovmskb	%xmm3, %esi
	psllw	$2, %xmm2
	paddb	%xmm5, %xmm5
	shlq	$48, %rcx
	orq	%rax, %rcx
	shll	$16, %edx
	pmovmskb	%xmm5, %eax
	orl	%edx, %eax
	pmovmskb	%xmm2, %edx
	shll	$16, %edx
	orl	%esi, %edx
	shlq	$32, %rax
	orq	%rdx, %rax
	movq	%rax, %xmm1
	movq	%rcx, %xmm2
	movdqa	%xmm2, %xmm3
	punpcklqdq	%xmm1, %xmm3            # xmm3 = xmm3[0],xmm1[0]
	movdqa	%xmm3, -24(%rsp)
	movzbl	-24(%rsp), %eax
	movzbl	-17(%rsp), %ecx
	movzbl	-9(%rsp), %edx
	movq	-8(%rsp), %rdi                  # 8-byte Reload
	movb	%al, (%rdi)
	movb	%sil, 1(%rdi)
	punpcklbw	%xmm0, %xmm1            # xmm1 = xmm1[0],xmm0[0],xmm1[1],xmm0[1],xmm1[2],xmm0[2],xmm1[3],xmm0[3],xmm1[4],xmm0[4],xmm1[5],xmm0[5],xmm1[6],xmm0[6],xmm1[7],xmm0[7]
	punpcklbw	%xmm0, %xmm2            # xmm2 = xmm2[0],xmm0[0],xmm2[1],xmm0[1],xmm2[2],xmm0[2],xmm2[3],xmm0[3],xmm2[4],xmm0[4],xmm2[5],xmm0[5],xmm2[6],xmm0[6],xmm2[7],xmm0[7]
	movdqa	%xmm2, %xmm0
	punpckhwd	%xmm1, %xmm2            # xmm2 = xmm2[4],xmm1[4],xmm2[5],xmm1[5],xmm2[6],xmm1[6],xmm2[7],xmm1[7]
	psrldq	$2, %xmm1                       # xmm1 = xmm1[2,3,4,5,6,7,8,9,10,11,12,13,14,15],zero,zero
	psrldq	$2, %xmm0                       # xmm0 = xmm0[2,3,4,5,6,7,8,9,10,11,12,13,14,15],zero,zero
	punpcklwd	%xmm1, %xmm0            # xmm0 = xmm0[0],xmm1[0],xmm0[1],xmm1[1],xmm0[2],xmm1[2],xmm0[3],xmm1[3]
	packuswb	%xmm0, %xmm0
	movq	%xmm0, 2(%rdi)
	pshufd	$233, %xmm2, %xmm0              # xmm0 = xmm2[1,2,2,3]
	packuswb	%xmm0, %xmm0
	movd	%xmm0, 10(%rdi)
	movb	%cl, 14(%rdi)
	movb	%dl, 15(%rdi)
	popq	%rbx
	popq	%r12
	popq	%r13
	popq	%r14
	popq	%r15
	popq	%rbp
	retq
                                        # -- End function
	.section	__TEXT,__text,regular,pure_instructions
	.p2align	4                               # -- Begin function aes_kat::digits::write_block
"aes_kat::digits::write_block":         # @"aes_kat::digits::write_block"
# %bb.0:                                # %"core::result::Result::unwrap::<(),24'hex::error::FromHexError>.exit"
	leaq	32(%rsi), %rax
	movzbl	(%rdi), %r8d
	movl	%r8d, %r9d
	shrl	$4, %r9d
	leaq	l_static.11(%rip), %rcx
	movzbl	(%r9,%rcx), %r9d
	movb	%r9b, (%rdx,%rsi)
	andl	$15, %r8d
	movzbl	(%r8,%rcx), %r8d
	movb	%r8b, 1(%rdx,%rsi)
	movzbl	1(%rdi), %r8d
	movl	%r8d, %r9d
	shrl	$4, %r9d
	movzbl	(%r9,%rcx), %r9d
	movb	%r9b, 2(%rdx,%rsi)
	andl	$15, %r8d
	movzbl	(%r8,%rcx), %r8d
	movb	%r8b, 3(%rdx,%rsi)
	movzbl	2(%rdi), %r8d
	movl	%r8d, %r9d
	shrl	$4, %r9d
	movzbl	(%r9,%rcx), %r9d
	movb	%r9b, 4(%rdx,%rsi)
	andl	$15, %r8d
	movzbl	(%r8,%rcx), %r8d
	movb	%r8b, 5(%rdx,%rsi)
	movzbl	3(%rdi), %r8d
	movl	%r8d, %r9d
	shrl	$4, %r9d
	movzbl	(%r9,%rcx), %r9d
	movb	%r9b, 6(%rdx,%rsi)
	andl	$15, %r8d
	movzbl	(%r8,%rcx), %r8d
	movb	%r8b, 7(%rdx,%rsi)
	movzbl	4(%rdi), %r8d
	movl	%r8d, %r9d
	shrl	$4, %r9d
	movzbl	(%r9,%rcx), %r9d
	movb	%r9b, 8(%rdx,%rsi)
	andl	$15, %r8d
	movzbl	(%r8,%rcx), %r8d
	movb	%r8b, 9(%rdx,%rsi)
	movzbl	5(%rdi), %r8d
	movl	%r8d, %r9d
	shrl	$4, %r9d
	movzbl	(%r9,%rcx), %r9d
	movb	%r9b, 10(%rdx,%rsi)
	andl	$15, %r8d
	movzbl	(%r8,%rcx), %r8d
	movb	%r8b, 11(%rdx,%rsi)
	movzbl	6(%rdi), %r8d
	movl	%r8d, %r9d
	shrl	$4, %r9d
	movzbl	(%r9,%rcx), %r9d
	movb	%r9b, 12(%rdx,%rsi)
	andl	$15, %r8d
	movzbl	(%r8,%rcx), %r8d
	movb	%r8b, 13(%rdx,%rsi)
	movzbl	7(%rdi), %r8d
	movl	%r8d, %r9d
	shrl	$4, %r9d
	movzbl	(%r9,%rcx), %r9d
	movb	%r9b, 14(%rdx,%rsi)
	andl	$15, %r8d
	movzbl	(%r8,%rcx), %r8d
	movb	%r8b, 15(%rdx,%rsi)
	movzbl	8(%rdi), %r8d
	movl	%r8d, %r9d
	shrl	$4, %r9d
	movzbl	(%r9,%rcx), %r9d
	movb	%r9b, 16(%rdx,%rsi)
	andl	$15, %r8d
	movzbl	(%r8,%rcx), %r8d
	movb	%r8b, 17(%rdx,%rsi)
	movzbl	9(%rdi), %r8d
	movl	%r8d, %r9d
	shrl	$4, %r9d
	movzbl	(%r9,%rcx), %r9d
	movb	%r9b, 18(%rdx,%rsi)
	andl	$15, %r8d
	movzbl	(%r8,%rcx), %r8d
	movb	%r8b, 19(%rdx,%rsi)
	movzbl	10(%rdi), %r8d
	movl	%r8d, %r9d
	shrl	$4, %r9d
	movzbl	(%r9,%rcx), %r9d
	movb	%r9b, 20(%rdx,%rsi)
	andl	$15, %r8d
	movzbl	(%r8,%rcx), %r8d
	movb	%r8b, 21(%rdx,%rsi)
	movzbl	11(%rdi), %r8d
	movl	%r8d, %r9d
	shrl	$4, %r9d
	movzbl	(%r9,%rcx), %r9d
	movb	%r9b, 22(%rdx,%rsi)
	andl	$15, %r8d
	movzbl	(%r8,%rcx), %r8d
	movb	%r8b, 23(%rdx,%rsi)
	movzbl	12(%rdi), %r8d
	movl	%r8d, %r9d
	shrl	$4, %r9d
	movzbl	(%r9,%rcx), %r9d
	movb	%r9b, 24(%rdx,%rsi)
	andl	$15, %r8d
	movzbl	(%r8,%rcx), %r8d
	movb	%r8b, 25(%rdx,%rsi)
	movzbl	13(%rdi), %r8d
	movl	%r8d, %r9d
	shrl	$4, %r9d
	movzbl	(%r9,%rcx), %r9d
	movb	%r9b, 26(%rdx,%rsi)
	andl	$15, %r8d
	movzbl	(%r8,%rcx), %r8d
	movb	%r8b, 27(%rdx,%rsi)
	movzbl	14(%rdi), %r8d
	movl	%r8d, %r9d
	shrl	$4, %r9d
	movzbl	(%r9,%rcx), %r9d
	movb	%r9b, 28(%rdx,%rsi)
	andl	$15, %r8d
	movzbl	(%r8,%rcx), %r8d
	movb	%r8b, 29(%rdx,%rsi)
	movzbl	15(%rdi), %edi
	movl	%edi, %r8d
	shrl	$4, %r8d
	movzbl	(%r8,%rcx), %r8d
	movb	%r8b, 30(%rdx,%rsi)
	andl	$15, %edi
	movzbl	(%rdi,%rcx), %ecx
	movb	%cl, 31(%rdx,%rsi)
	retq
                                        # -- End function
	.section	__TEXT,__text,regular,pure_instructions
	.p2align	4                               # -- Begin function std_alloc::vec::Vec::grow_amortized::<#b2ae9ec5f5f36c9c>
"std_alloc::vec::Vec::grow_amortized::<#b2ae9ec5f5f36c9c>": # @"std_alloc::vec::Vec::grow_amortized::<#b2ae9ec5f5f36c9c>"
# %bb.0:                                # %start
	movq	%rsi, %rax
	movq	8(%rdi), %rsi
	addq	%rsi, %rax
	jae	LBB21_2
# %bb.1:
	xorl	%eax, %eax
                                        # kill: def $al killed $al killed $eax
	retq
LBB21_2:                               # %join.3
	pushq	%r14
	pushq	%rbx
	pushq	%rax
	cmpq	$9, %rax
	movl	$8, %ebx
	cmovaeq	%rax, %rbx
	movq	16(%rdi), %rcx
	movq	%rcx, %rdx
	shrq	$62, %rdx
	leaq	(%rcx,%rcx), %rax
	cmpq	%rax, %rbx
	cmovaq	%rbx, %rax
	testq	%rdx, %rdx
	cmoveq	%rax, %rbx
	testq	%rbx, %rbx
	js	LBB21_6
# %bb.3:                                # %join.3.i
	testq	%rcx, %rcx
	je	LBB21_8
# %bb.4:                                # %then.1.i.i
	movq	%rdi, %r14
	movq	(%rdi), %rdi
	movl	$1, %ecx
	movq	%rbx, %rdx
	callq	_rattle_realloc
	testb	$1, %al
	je	LBB21_6
LBB21_9:                               # %arm.5.i
	movq	%rdx, (%r14)
	movq	%rbx, 16(%r14)
	movb	$1, %al
	addq	$8, %rsp
	popq	%rbx
	popq	%r14
                                        # kill: def $al killed $al killed $eax
	retq
LBB21_8:                               # %"std_alloc::vec::resize::<#b2ae9ec5f5f36c9c>.exit.i"
	movq	%rdi, %r14
	movl	$1, %esi
	movq	%rax, %rdi
	callq	_rattle_alloc
	testb	$1, %al
	jne	LBB21_9
LBB21_6:
	xorl	%eax, %eax
	addq	$8, %rsp
	popq	%rbx
	popq	%r14
                                        # kill: def $al killed $al killed $eax
	retq
                                        # -- End function
	.section	__TEXT,__const
	.p2align	4, 0x0                          # -- Begin function std_io::io::buffer::Buffer::flush
l_CPI22_0:
	.zero	16,46
l_CPI22_1:
	.quad	8458358670138239095             # 0x756220656c6f6877
	.quad	3327647951695996518             # 0x2e2e2e2e72656666
l_CPI22_2:
	.quad	8367798494427701606             # 0x742064656c696166
	.quad	2334399978102268015             # 0x206574697277206f
	.section	__TEXT,__text,regular,pure_instructions
	.p2align	4
"std_io::io::buffer::Buffer::flush":    # @"std_io::io::buffer::Buffer::flush"
# %bb.0:                                # %start
	pushq	%rbp
	pushq	%r15
	pushq	%r14
	pushq	%r13
	pushq	%r12
	pushq	%rbx
	subq	$72, %rsp
	movq	1032(%rdi), %r12
	movq	$0, 1032(%rdi)
	cmpq	$1025, %r12                     # imm = 0x401
	jae	LBB22_1
# %bb.3:                                # %join.3
	leaq	4(%rdi), %rax
	movq	%rax, 64(%rsp)                  # 8-byte Spill
	movq	%rdi, 8(%rsp)                   # 8-byte Spill
	movl	(%rdi), %r14d
	movq	$-64, %r13
	xorl	%ebx, %ebx
	jmp	LBB22_4
	.p2align	4
LBB22_6:                               # %then.10.i
                                        #   in Loop: Header=BB22_4 Depth=1
	callq	_rattle_errno
                                        # kill: def $eax killed $eax def $rax
	cmpl	$4, %eax
	jne	LBB22_7
# %bb.51:                               # %join.12.i
                                        #   in Loop: Header=BB22_4 Depth=1
	incq	%r13
	cmpq	%r13, %r12
	je	LBB22_52
LBB22_4:                               # %arm.3.i
                                        # =>This Inner Loop Header: Depth=1
	movb	$1, %bpl
	movq	%r12, %r15
	subq	%rbx, %r15
	jbe	LBB22_2
# %bb.5:                                # %join.9.i
                                        #   in Loop: Header=BB22_4 Depth=1
	movq	64(%rsp), %rax                  # 8-byte Reload
	leaq	(%rax,%rbx), %rsi
	movl	%r14d, %edi
	movq	%r15, %rdx
	callq	_write
	testq	%rax, %rax
	js	LBB22_6
# %bb.48:                               # %else.11.i
                                        #   in Loop: Header=BB22_4 Depth=1
	je	LBB22_49
# %bb.50:                               # %else.17.i
                                        #   in Loop: Header=BB22_4 Depth=1
	cmpq	%r15, %rax
	cmovbq	%rax, %r15
	addq	%r15, %rbx
	incq	%r13
	cmpq	%r13, %r12
	jne	LBB22_4
LBB22_52:                              # %after.1.i
	cmpq	%rbx, %r12
	jbe	LBB22_2
# %bb.53:                               # %"std_io::io::write_to.exit"
	xorps	%xmm0, %xmm0
	movaps	%xmm0, 48(%rsp)
	movaps	%xmm0, 32(%rsp)
	movaps	%xmm0, 16(%rsp)
	movb	$35, %cl
	movl	$4, %eax
	xorl	%edx, %edx
	xorl	%esi, %esi
	xorps	%xmm1, %xmm1
	jmp	LBB22_54
LBB22_49:                              # %then.16.i
	movaps	l_CPI22_0(%rip), %xmm0          # xmm0 = [46,46,46,46,46,46,46,46,46,46,46,46,46,46,46,46]
	movaps	%xmm0, 48(%rsp)
	movaps	%xmm0, 32(%rsp)
	movaps	%xmm0, 16(%rsp)
	movaps	l_CPI22_1(%rip), %xmm1          # xmm1 = [8458358670138239095,3327647951695996518]
	movaps	l_CPI22_2(%rip), %xmm0          # xmm0 = [8367798494427701606,2334399978102268015]
	movb	$2, %sil
	movb	$23, %cl
	movb	$28, %dl
	xorl	%eax, %eax
LBB22_54:                              # %arm.5
	movq	8(%rsp), %rdi                   # 8-byte Reload
	jmp	LBB22_55
LBB22_7:                               # %then.13.i
	movb	$41, %cl
	testl	%eax, %eax
	js	LBB22_8
# %bb.9:                                # %else.2.i.i
	leal	-1(%rax), %edx
	cmpl	$121, %edx
	movq	8(%rsp), %rdi                   # 8-byte Reload
	ja	LBB22_47
# %bb.10:                               # %else.2.i.i
	leaq	l_JTI22_0(%rip), %rsi
	movslq	(%rsi,%rdx,4), %rdx
	addq	%rsi, %rdx
	jmpq	*%rdx
LBB22_11:
	movb	$1, %cl
	jmp	LBB22_47
LBB22_8:
	movq	8(%rsp), %rdi                   # 8-byte Reload
LBB22_47:                              # %"std_io::io::error::Error::from_raw_os_error.exit"
	xorps	%xmm0, %xmm0
	movaps	%xmm0, 48(%rsp)
	movaps	%xmm0, 32(%rsp)
	movaps	%xmm0, 16(%rsp)
	xorl	%edx, %edx
	xorl	%esi, %esi
	xorps	%xmm1, %xmm1
LBB22_55:                              # %arm.5
	movq	$1, 1040(%rdi)
	movb	%sil, 1048(%rdi)
	movb	%cl, 1049(%rdi)
	movb	%dl, 1050(%rdi)
	movb	$0, 1051(%rdi)
	movl	%eax, 1052(%rdi)
	movups	%xmm0, 1056(%rdi)
	movups	%xmm1, 1072(%rdi)
	movaps	16(%rsp), %xmm0
	movaps	32(%rsp), %xmm1
	movaps	48(%rsp), %xmm2
	movups	%xmm0, 1088(%rdi)
	movups	%xmm1, 1104(%rdi)
	movups	%xmm2, 1120(%rdi)
LBB22_1:
	xorl	%ebp, %ebp
LBB22_2:                               # %common.ret
	movl	%ebp, %eax
	addq	$72, %rsp
	popq	%rbx
	popq	%r12
	popq	%r13
	popq	%r14
	popq	%r15
	popq	%rbp
	retq
LBB22_31:                              # %arm.23.i.i.i
	movb	$36, %cl
	jmp	LBB22_47
LBB22_45:                              # %arm.38.i.i.i
	movb	$19, %cl
	jmp	LBB22_47
LBB22_28:                              # %arm.20.i.i.i
	movb	$11, %cl
	jmp	LBB22_47
LBB22_34:                              # %arm.27.i.i.i
	movb	$8, %cl
	jmp	LBB22_47
LBB22_23:                              # %arm.15.i.i.i
	movb	$27, %cl
	jmp	LBB22_47
LBB22_32:                              # %arm.24.i.i.i
	movb	$16, %cl
	jmp	LBB22_47
LBB22_42:                              # %arm.35.i.i.i
	movb	$2, %cl
	jmp	LBB22_47
LBB22_20:                              # %arm.12.i.i.i
	movb	$15, %cl
	jmp	LBB22_47
LBB22_37:                              # %arm.30.i.i.i
	movb	$5, %cl
	jmp	LBB22_47
LBB22_38:                              # %arm.31.i.i.i
	movb	$6, %cl
	jmp	LBB22_47
LBB22_40:                              # %arm.33.i.i.i
	movb	$7, %cl
	jmp	LBB22_47
LBB22_22:                              # %arm.14.i.i.i
	movb	$29, %cl
	jmp	LBB22_47
LBB22_29:                              # %arm.21.i.i.i
	movb	$30, %cl
	jmp	LBB22_47
LBB22_12:                              # %arm.2.i.i.i
	xorl	%ecx, %ecx
	jmp	LBB22_47
LBB22_15:                              # %arm.6.i.i.i
	movb	$38, %cl
	jmp	LBB22_47
LBB22_21:                              # %arm.13.i.i.i
	movb	$20, %cl
	jmp	LBB22_47
LBB22_33:                              # %arm.25.i.i.i
	movb	$18, %cl
	jmp	LBB22_47
LBB22_16:                              # %arm.8.i.i.i
	movb	$28, %cl
	jmp	LBB22_47
LBB22_17:                              # %arm.9.i.i.i
	movb	$12, %cl
	jmp	LBB22_47
LBB22_39:                              # %arm.32.i.i.i
	movb	$3, %cl
	jmp	LBB22_47
LBB22_24:                              # %arm.16.i.i.i
	movb	$24, %cl
	jmp	LBB22_47
LBB22_46:                              # %arm.39.i.i.i
	movb	$26, %cl
	jmp	LBB22_47
LBB22_25:                              # %arm.17.i.i.i
	movb	$25, %cl
	jmp	LBB22_47
LBB22_13:                              # %arm.4.i.i.i
	movb	$34, %cl
	jmp	LBB22_47
LBB22_14:                              # %arm.5.i.i.i
	movb	$13, %cl
	jmp	LBB22_47
LBB22_19:                              # %arm.11.i.i.i
	movb	$14, %cl
	jmp	LBB22_47
LBB22_18:                              # %arm.10.i.i.i
	movb	$31, %cl
	jmp	LBB22_47
LBB22_27:                              # %arm.19.i.i.i
	movb	$32, %cl
	jmp	LBB22_47
LBB22_43:                              # %arm.36.i.i.i
	movb	$4, %cl
	jmp	LBB22_47
LBB22_26:                              # %arm.18.i.i.i
	movb	$17, %cl
	jmp	LBB22_47
LBB22_30:                              # %arm.22.i.i.i
	movb	$33, %cl
	jmp	LBB22_47
LBB22_36:                              # %arm.29.i.i.i
	movb	$10, %cl
	jmp	LBB22_47
LBB22_35:                              # %arm.28.i.i.i
	movb	$9, %cl
	jmp	LBB22_47
LBB22_44:                              # %arm.37.i.i.i
	movb	$39, %cl
	jmp	LBB22_47
LBB22_41:                              # %arm.34.i.i.i
	movb	$22, %cl
	jmp	LBB22_47
	.section	__TEXT,__const
	.p2align	2, 0x0
l_JTI22_0:
	.long	LBB22_11-l_JTI22_0
	.long	LBB22_12-l_JTI22_0
	.long	LBB22_47-l_JTI22_0
	.long	LBB22_47-l_JTI22_0
	.long	LBB22_47-l_JTI22_0
	.long	LBB22_47-l_JTI22_0
	.long	LBB22_13-l_JTI22_0
	.long	LBB22_47-l_JTI22_0
	.long	LBB22_47-l_JTI22_0
	.long	LBB22_47-l_JTI22_0
	.long	LBB22_14-l_JTI22_0
	.long	LBB22_15-l_JTI22_0
	.long	LBB22_11-l_JTI22_0
	.long	LBB22_47-l_JTI22_0
	.long	LBB22_47-l_JTI22_0
	.long	LBB22_16-l_JTI22_0
	.long	LBB22_17-l_JTI22_0
	.long	LBB22_18-l_JTI22_0
	.long	LBB22_47-l_JTI22_0
	.long	LBB22_19-l_JTI22_0
	.long	LBB22_20-l_JTI22_0
	.long	LBB22_21-l_JTI22_0
	.long	LBB22_47-l_JTI22_0
	.long	LBB22_47-l_JTI22_0
	.long	LBB22_47-l_JTI22_0
	.long	LBB22_22-l_JTI22_0
	.long	LBB22_23-l_JTI22_0
	.long	LBB22_24-l_JTI22_0
	.long	LBB22_25-l_JTI22_0
	.long	LBB22_26-l_JTI22_0
	.long	LBB22_27-l_JTI22_0
	.long	LBB22_28-l_JTI22_0
	.long	LBB22_47-l_JTI22_0
	.long	LBB22_47-l_JTI22_0
	.long	LBB22_29-l_JTI22_0
	.long	LBB22_30-l_JTI22_0
	.long	LBB22_47-l_JTI22_0
	.long	LBB22_31-l_JTI22_0
	.long	LBB22_32-l_JTI22_0
	.long	LBB22_33-l_JTI22_0
	.long	LBB22_47-l_JTI22_0
	.long	LBB22_47-l_JTI22_0
	.long	LBB22_47-l_JTI22_0
	.long	LBB22_47-l_JTI22_0
	.long	LBB22_47-l_JTI22_0
	.long	LBB22_47-l_JTI22_0
	.long	LBB22_47-l_JTI22_0
	.long	LBB22_47-l_JTI22_0
	.long	LBB22_47-l_JTI22_0
	.long	LBB22_47-l_JTI22_0
	.long	LBB22_47-l_JTI22_0
	.long	LBB22_47-l_JTI22_0
	.long	LBB22_47-l_JTI22_0
	.long	LBB22_47-l_JTI22_0
	.long	LBB22_47-l_JTI22_0
	.long	LBB22_47-l_JTI22_0
	.long	LBB22_47-l_JTI22_0
	.long	LBB22_47-l_JTI22_0
	.long	LBB22_47-l_JTI22_0
	.long	LBB22_47-l_JTI22_0
	.long	LBB22_47-l_JTI22_0
	.long	LBB22_47-l_JTI22_0
	.long	LBB22_47-l_JTI22_0
	.long	LBB22_47-l_JTI22_0
	.long	LBB22_47-l_JTI22_0
	.long	LBB22_47-l_JTI22_0
	.long	LBB22_47-l_JTI22_0
	.long	LBB22_47-l_JTI22_0
	.long	LBB22_47-l_JTI22_0
	.long	LBB22_47-l_JTI22_0
	.long	LBB22_47-l_JTI22_0
	.long	LBB22_47-l_JTI22_0
	.long	LBB22_47-l_JTI22_0
	.long	LBB22_47-l_JTI22_0
	.long	LBB22_47-l_JTI22_0
	.long	LBB22_47-l_JTI22_0
	.long	LBB22_47-l_JTI22_0
	.long	LBB22_47-l_JTI22_0
	.long	LBB22_47-l_JTI22_0
	.long	LBB22_47-l_JTI22_0
	.long	LBB22_47-l_JTI22_0
	.long	LBB22_47-l_JTI22_0
	.long	LBB22_47-l_JTI22_0
	.long	LBB22_47-l_JTI22_0
	.long	LBB22_47-l_JTI22_0
	.long	LBB22_47-l_JTI22_0
	.long	LBB22_47-l_JTI22_0
	.long	LBB22_47-l_JTI22_0
	.long	LBB22_47-l_JTI22_0
	.long	LBB22_47-l_JTI22_0
	.long	LBB22_47-l_JTI22_0
	.long	LBB22_47-l_JTI22_0
	.long	LBB22_47-l_JTI22_0
	.long	LBB22_47-l_JTI22_0
	.long	LBB22_31-l_JTI22_0
	.long	LBB22_47-l_JTI22_0
	.long	LBB22_47-l_JTI22_0
	.long	LBB22_34-l_JTI22_0
	.long	LBB22_35-l_JTI22_0
	.long	LBB22_36-l_JTI22_0
	.long	LBB22_37-l_JTI22_0
	.long	LBB22_47-l_JTI22_0
	.long	LBB22_38-l_JTI22_0
	.long	LBB22_39-l_JTI22_0
	.long	LBB22_47-l_JTI22_0
	.long	LBB22_47-l_JTI22_0
	.long	LBB22_40-l_JTI22_0
	.long	LBB22_47-l_JTI22_0
	.long	LBB22_47-l_JTI22_0
	.long	LBB22_41-l_JTI22_0
	.long	LBB22_42-l_JTI22_0
	.long	LBB22_47-l_JTI22_0
	.long	LBB22_43-l_JTI22_0
	.long	LBB22_47-l_JTI22_0
	.long	LBB22_44-l_JTI22_0
	.long	LBB22_45-l_JTI22_0
	.long	LBB22_47-l_JTI22_0
	.long	LBB22_47-l_JTI22_0
	.long	LBB22_47-l_JTI22_0
	.long	LBB22_47-l_JTI22_0
	.long	LBB22_47-l_JTI22_0
	.long	LBB22_46-l_JTI22_0
                                        # -- End function
	.section	__TEXT,__const
	.p2align	4, 0x0                          # -- Begin function main
l_CPI23_0:
	.byte	97                              # 0x61
	.byte	101                             # 0x65
	.byte	115                             # 0x73
	.byte	45                              # 0x2d
	.byte	107                             # 0x6b
	.byte	97                              # 0x61
	.byte	116                             # 0x74
	.byte	58                              # 0x3a
	.byte	32                              # 0x20
	.byte	102                             # 0x66
	.byte	97                              # 0x61
	.byte	105                             # 0x69
	.byte	108                             # 0x6c
	.byte	101                             # 0x65
	.byte	100                             # 0x64
	.byte	10                              # 0xa
	.section	__TEXT,__text,regular,pure_instructions
	.globl	_main
	.p2align	4
_main:                                   # @main
# %bb.0:                                # %start
	pushq	%rbp
	pushq	%r15
	pushq	%r14
	pushq	%r13
	pushq	%r12
	pushq	%rbx
	subq	$1224, %rsp                     # imm = 0x4C8
	movl	$1, %esi
	movl	$13, %edi
	callq	_signal
	movl	$65536, %edi                    # imm = 0x10000
	movl	$1, %esi
	callq	_rattle_alloc
	testb	$1, %al
	je	LBB23_90
# %bb.1:                                # %arm.1.i.i.i.i.i
	movq	%rdx, %r15
	movl	$65536, %edx                    # imm = 0x10000
	movq	%r15, %rdi
	xorl	%esi, %esi
	callq	_memset
	leaq	15(%rsp), %r14
	movq	%r14, 88(%rsp)
	xorps	%xmm0, %xmm0
	movups	%xmm0, 96(%rsp)
	movq	%r14, 112(%rsp)
	movq	%r14, 24(%rsp)
	movups	%xmm0, 32(%rsp)
	movq	%r14, 48(%rsp)
	movl	$65536, %edx                    # imm = 0x10000
	xorl	%edi, %edi
	movq	%r15, %rsi
	callq	_read
	testq	%rax, %rax
	js	LBB23_74
# %bb.2:                                # %arm.11.i.i.i.preheader.i.i
	movq	%r15, 16(%rsp)                  # 8-byte Spill
	je	LBB23_75
# %bb.3:                                # %join.16.i.i.i.i.i.preheader
	xorl	%ebx, %ebx
	xorl	%r12d, %r12d
LBB23_4:                               # %join.16.i.i.i.i.i
                                        # =>This Loop Header: Depth=1
                                        #     Child Loop BB23_5 Depth 2
                                        #       Child Loop BB23_6 Depth 3
                                        #       Child Loop BB23_18 Depth 3
                                        #       Child Loop BB23_22 Depth 3
                                        #       Child Loop BB23_26 Depth 3
                                        #       Child Loop BB23_29 Depth 3
                                        #     Child Loop BB23_45 Depth 2
                                        #     Child Loop BB23_49 Depth 2
                                        #     Child Loop BB23_53 Depth 2
                                        #     Child Loop BB23_56 Depth 2
                                        #     Child Loop BB23_63 Depth 2
	movq	%r12, 80(%rsp)                  # 8-byte Spill
	movq	%rbx, 72(%rsp)                  # 8-byte Spill
	cmpq	$65536, %rax                    # imm = 0x10000
	movl	$65536, %r12d                   # imm = 0x10000
	cmovbq	%rax, %r12
	movq	$0, 32(%rsp)
	xorl	%ebp, %ebp
	movq	%r15, %rax
LBB23_5:                               # %join.6.i.preheader.i.i.i.i.i.i.i
                                        #   Parent Loop BB23_4 Depth=1
                                        # =>  This Loop Header: Depth=2
                                        #       Child Loop BB23_6 Depth 3
                                        #       Child Loop BB23_18 Depth 3
                                        #       Child Loop BB23_22 Depth 3
                                        #       Child Loop BB23_26 Depth 3
                                        #       Child Loop BB23_29 Depth 3
	movq	%rax, %r15
	xorl	%ebx, %ebx
	xorl	%r13d, %r13d
	.p2align	4
LBB23_6:                               # %join.6.i.i.i.i.i.i.i.i
                                        #   Parent Loop BB23_4 Depth=1
                                        #     Parent Loop BB23_5 Depth=2
                                        # =>    This Inner Loop Header: Depth=3
	cmpb	$10, (%r15,%r13)
	je	LBB23_8
# %bb.7:                                # %after.7.i.i.i.i.i.i.i.i
                                        #   in Loop: Header=BB23_6 Depth=3
	incq	%r13
	incb	%bl
	cmpq	%r13, %r12
	jne	LBB23_6
	jmp	LBB23_36
	.p2align	4
LBB23_8:                               # %arm.3.i.i.i.i.i.i.i
                                        #   in Loop: Header=BB23_5 Depth=2
	movl	%ebp, 60(%rsp)                  # 4-byte Spill
	movq	96(%rsp), %rbp
	movq	104(%rsp), %rax
	movq	%rax, 64(%rsp)                  # 8-byte Spill
	subq	%rbp, %rax
	cmpq	%rax, %r13
	ja	LBB23_34
LBB23_9:                               # %join.3.i.i2.i.i.i.i.i.i
                                        #   in Loop: Header=BB23_5 Depth=2
	leaq	(%r14,%rbp), %rdi
	movq	%rdi, %rax
	subq	%r15, %rax
	cmpq	%r13, %rax
	jae	LBB23_12
# %bb.10:                               # %iter.check115
                                        #   in Loop: Header=BB23_5 Depth=2
	cmpq	$4, %r13
	jb	LBB23_11
# %bb.13:                               # %vector.memcheck110
                                        #   in Loop: Header=BB23_5 Depth=2
	cmpq	$32, %rax
	jae	LBB23_15
LBB23_11:                              #   in Loop: Header=BB23_5 Depth=2
	xorl	%eax, %eax
LBB23_24:                              # %join.7.i.i.i.i.i.i.i.i.i.i.preheader
                                        #   in Loop: Header=BB23_5 Depth=2
	movq	%rax, %rcx
	testb	$3, %r13b
	je	LBB23_27
# %bb.25:                               # %join.7.i.i.i.i.i.i.i.i.i.i.prol.preheader
                                        #   in Loop: Header=BB23_5 Depth=2
	movzbl	%bl, %edx
	andl	$3, %edx
	movq	%rax, %rcx
	.p2align	4
LBB23_26:                              # %join.7.i.i.i.i.i.i.i.i.i.i.prol
                                        #   Parent Loop BB23_4 Depth=1
                                        #     Parent Loop BB23_5 Depth=2
                                        # =>    This Inner Loop Header: Depth=3
	movzbl	(%r15,%rcx), %esi
	movb	%sil, (%rdi,%rcx)
	incq	%rcx
	decq	%rdx
	jne	LBB23_26
LBB23_27:                              # %join.7.i.i.i.i.i.i.i.i.i.i.prol.loopexit
                                        #   in Loop: Header=BB23_5 Depth=2
	subq	%r13, %rax
	cmpq	$-4, %rax
	ja	LBB23_30
# %bb.28:                               # %join.7.i.i.i.i.i.i.i.i.i.i.preheader200
                                        #   in Loop: Header=BB23_5 Depth=2
	leaq	(%r14,%rbp), %rax
	addq	$3, %rax
	.p2align	4
LBB23_29:                              # %join.7.i.i.i.i.i.i.i.i.i.i
                                        #   Parent Loop BB23_4 Depth=1
                                        #     Parent Loop BB23_5 Depth=2
                                        # =>    This Inner Loop Header: Depth=3
	movzbl	(%r15,%rcx), %edx
	movb	%dl, -3(%rax,%rcx)
	movzbl	1(%r15,%rcx), %edx
	movb	%dl, -2(%rax,%rcx)
	movzbl	2(%r15,%rcx), %edx
	movb	%dl, -1(%rax,%rcx)
	movzbl	3(%r15,%rcx), %edx
	movb	%dl, (%rax,%rcx)
	addq	$4, %rcx
	cmpq	%rcx, %r13
	jne	LBB23_29
	jmp	LBB23_30
LBB23_12:                              # %apart.2.i.i.i.i.i.i.i.i.i.i
                                        #   in Loop: Header=BB23_5 Depth=2
	movq	%r15, %rsi
	movq	%r13, %rdx
	callq	_memmove
LBB23_30:                              # %arm.7.i.i.i.i.i.i.i
                                        #   in Loop: Header=BB23_5 Depth=2
	addq	%r13, %rbp
	movq	%rbp, 96(%rsp)
	movq	64(%rsp), %rbx                  # 8-byte Reload
	movq	%rbx, 104(%rsp)
	leaq	24(%rsp), %rdx
	movq	%r14, %rdi
	movq	%rbp, %rsi
	callq	"aes_kat::runs::append_reply_line::<#0e4b5268c400607d>"
	testb	%al, %al
	jne	LBB23_83
# %bb.31:                               # %arm.11.i.i.i.i.i.i.i
                                        #   in Loop: Header=BB23_5 Depth=2
	testq	%rbp, %rbp
	je	LBB23_33
# %bb.32:                               # %join.3.i.i.i.i.i.i.i.i.i
                                        #   in Loop: Header=BB23_5 Depth=2
	movq	$0, 96(%rsp)
LBB23_33:                              # %"std_alloc::vec::Vec::clear::<#3b0deb8d82301eeb>.exit.i.i.i.i.i.i.i"
                                        #   in Loop: Header=BB23_5 Depth=2
	leaq	(%r15,%r13), %rax
	incq	%rax
	movq	%r13, %rcx
	notq	%rcx
	addq	%r12, %rcx
	decq	%r12
	movl	60(%rsp), %ebp                  # 4-byte Reload
	orb	%dl, %bpl
	cmpq	%r13, %r12
	movq	%rcx, %r12
	jne	LBB23_5
	jmp	LBB23_59
LBB23_15:                              # %vector.main.loop.iter.check117
                                        #   in Loop: Header=BB23_5 Depth=2
	cmpq	$32, %r13
	jae	LBB23_17
# %bb.16:                               #   in Loop: Header=BB23_5 Depth=2
	xorl	%eax, %eax
	jmp	LBB23_21
LBB23_17:                              # %vector.ph118
                                        #   in Loop: Header=BB23_5 Depth=2
	movq	%r13, %rax
	andq	$-32, %rax
	leaq	(%r14,%rbp), %rcx
	addq	$16, %rcx
	xorl	%edx, %edx
	.p2align	4
LBB23_18:                              # %vector.body121
                                        #   Parent Loop BB23_4 Depth=1
                                        #     Parent Loop BB23_5 Depth=2
                                        # =>    This Inner Loop Header: Depth=3
	movups	(%r15,%rdx), %xmm0
	movups	16(%r15,%rdx), %xmm1
	movups	%xmm0, -16(%rcx,%rdx)
	movups	%xmm1, (%rcx,%rdx)
	addq	$32, %rdx
	cmpq	%rdx, %rax
	jne	LBB23_18
# %bb.19:                               # %middle.block126
                                        #   in Loop: Header=BB23_5 Depth=2
	cmpq	%rax, %r13
	je	LBB23_30
# %bb.20:                               # %vec.epilog.iter.check130
                                        #   in Loop: Header=BB23_5 Depth=2
	testb	$28, %r13b
	je	LBB23_24
LBB23_21:                              # %vec.epilog.ph132
                                        #   in Loop: Header=BB23_5 Depth=2
	movq	%rax, %rcx
	movq	%r13, %rax
	andq	$-4, %rax
	.p2align	4
LBB23_22:                              # %vec.epilog.vector.body135
                                        #   Parent Loop BB23_4 Depth=1
                                        #     Parent Loop BB23_5 Depth=2
                                        # =>    This Inner Loop Header: Depth=3
	movl	(%r15,%rcx), %edx
	movl	%edx, (%rdi,%rcx)
	addq	$4, %rcx
	cmpq	%rcx, %rax
	jne	LBB23_22
# %bb.23:                               # %vec.epilog.middle.block139
                                        #   in Loop: Header=BB23_5 Depth=2
	cmpq	%rax, %r13
	je	LBB23_30
	jmp	LBB23_24
LBB23_34:                              # %"std_alloc::vec::Vec::grow::<#b2ae9ec5f5f36c9c>.exit.i.i.i.i.i.i.i.i"
                                        #   in Loop: Header=BB23_5 Depth=2
	leaq	88(%rsp), %rdi
	movq	%r13, %rsi
	callq	"std_alloc::vec::Vec::grow_amortized::<#b2ae9ec5f5f36c9c>"
	testb	%al, %al
	je	LBB23_83
# %bb.35:                               # %"std_alloc::vec::Vec::grow::<#b2ae9ec5f5f36c9c>.exit.join.3_crit_edge.i.i.i.i.i.i.i.i"
                                        #   in Loop: Header=BB23_5 Depth=2
	movq	88(%rsp), %r14
	movq	96(%rsp), %rbp
	movq	104(%rsp), %rax
	movq	%rax, 64(%rsp)                  # 8-byte Spill
	jmp	LBB23_9
	.p2align	4
LBB23_36:                              # %after.1.i.i.i.i.i.i.i
                                        #   in Loop: Header=BB23_4 Depth=1
	movq	96(%rsp), %rax
	movq	104(%rsp), %rbx
	movq	%rbx, %rcx
	subq	%rax, %rcx
	cmpq	%rcx, %r12
	ja	LBB23_57
LBB23_37:                              # %join.3.i12.i.i.i.i.i.i.i
                                        #   in Loop: Header=BB23_4 Depth=1
	leaq	(%rax,%r12), %r13
	xorps	%xmm0, %xmm0
	leaq	96(%rsp), %rcx
	movups	%xmm0, (%rcx)
	leaq	(%r14,%rax), %rdi
	movq	%rdi, %rcx
	subq	%r15, %rcx
	cmpq	%r12, %rcx
	jae	LBB23_60
# %bb.38:                               # %iter.check
                                        #   in Loop: Header=BB23_4 Depth=1
	cmpq	$4, %r12
	jb	LBB23_39
# %bb.40:                               # %vector.memcheck
                                        #   in Loop: Header=BB23_4 Depth=1
	leaq	(%r14,%rax), %rcx
	subq	%r15, %rcx
	cmpq	$32, %rcx
	jae	LBB23_42
LBB23_39:                              #   in Loop: Header=BB23_4 Depth=1
	xorl	%ecx, %ecx
LBB23_51:                              # %join.7.i.i.i25.i.i.i.i.i.i.i.preheader
                                        #   in Loop: Header=BB23_4 Depth=1
	movq	%r12, %rsi
	movq	%rcx, %rdx
	andq	$3, %rsi
	je	LBB23_54
# %bb.52:                               # %join.7.i.i.i25.i.i.i.i.i.i.i.prol.preheader
                                        #   in Loop: Header=BB23_4 Depth=1
	movq	%rcx, %rdx
	.p2align	4
LBB23_53:                              # %join.7.i.i.i25.i.i.i.i.i.i.i.prol
                                        #   Parent Loop BB23_4 Depth=1
                                        # =>  This Inner Loop Header: Depth=2
	movzbl	(%r15,%rdx), %r8d
	movb	%r8b, (%rdi,%rdx)
	incq	%rdx
	decq	%rsi
	jne	LBB23_53
LBB23_54:                              # %join.7.i.i.i25.i.i.i.i.i.i.i.prol.loopexit
                                        #   in Loop: Header=BB23_4 Depth=1
	subq	%r12, %rcx
	cmpq	$-4, %rcx
	ja	LBB23_61
# %bb.55:                               # %join.7.i.i.i25.i.i.i.i.i.i.i.preheader201
                                        #   in Loop: Header=BB23_4 Depth=1
	addq	%r14, %rax
	addq	$3, %rax
	.p2align	4
LBB23_56:                              # %join.7.i.i.i25.i.i.i.i.i.i.i
                                        #   Parent Loop BB23_4 Depth=1
                                        # =>  This Inner Loop Header: Depth=2
	movzbl	(%r15,%rdx), %ecx
	movb	%cl, -3(%rax,%rdx)
	movzbl	1(%r15,%rdx), %ecx
	movb	%cl, -2(%rax,%rdx)
	movzbl	2(%r15,%rdx), %ecx
	movb	%cl, -1(%rax,%rdx)
	movzbl	3(%r15,%rdx), %ecx
	movb	%cl, (%rax,%rdx)
	addq	$4, %rdx
	cmpq	%rdx, %r12
	jne	LBB23_56
	jmp	LBB23_61
LBB23_42:                              # %vector.main.loop.iter.check
                                        #   in Loop: Header=BB23_4 Depth=1
	cmpq	$32, %r12
	jae	LBB23_44
# %bb.43:                               #   in Loop: Header=BB23_4 Depth=1
	xorl	%ecx, %ecx
	jmp	LBB23_48
LBB23_44:                              # %vector.ph
                                        #   in Loop: Header=BB23_4 Depth=1
	movq	%r12, %rcx
	andq	$-32, %rcx
	leaq	(%r14,%rax), %rdx
	addq	$16, %rdx
	xorl	%esi, %esi
	.p2align	4
LBB23_45:                              # %vector.body
                                        #   Parent Loop BB23_4 Depth=1
                                        # =>  This Inner Loop Header: Depth=2
	movups	(%r15,%rsi), %xmm0
	movups	16(%r15,%rsi), %xmm1
	movups	%xmm0, -16(%rdx,%rsi)
	movups	%xmm1, (%rdx,%rsi)
	addq	$32, %rsi
	cmpq	%rsi, %rcx
	jne	LBB23_45
# %bb.46:                               # %middle.block
                                        #   in Loop: Header=BB23_4 Depth=1
	cmpq	%rcx, %r12
	je	LBB23_61
# %bb.47:                               # %vec.epilog.iter.check
                                        #   in Loop: Header=BB23_4 Depth=1
	testb	$28, %r12b
	je	LBB23_51
LBB23_48:                              # %vec.epilog.ph
                                        #   in Loop: Header=BB23_4 Depth=1
	movq	%rcx, %rdx
	movq	%r12, %rcx
	andq	$-4, %rcx
	.p2align	4
LBB23_49:                              # %vec.epilog.vector.body
                                        #   Parent Loop BB23_4 Depth=1
                                        # =>  This Inner Loop Header: Depth=2
	movl	(%r15,%rdx), %esi
	movl	%esi, (%rdi,%rdx)
	addq	$4, %rdx
	cmpq	%rdx, %rcx
	jne	LBB23_49
# %bb.50:                               # %vec.epilog.middle.block
                                        #   in Loop: Header=BB23_4 Depth=1
	cmpq	%rcx, %r12
	je	LBB23_61
	jmp	LBB23_51
LBB23_57:                              # %"std_alloc::vec::Vec::grow::<#b2ae9ec5f5f36c9c>.exit.i32.i.i.i.i.i.i.i"
                                        #   in Loop: Header=BB23_4 Depth=1
	leaq	88(%rsp), %rdi
	movq	%r12, %rsi
	callq	"std_alloc::vec::Vec::grow_amortized::<#b2ae9ec5f5f36c9c>"
	testb	%al, %al
	je	LBB23_83
# %bb.58:                               # %"std_alloc::vec::Vec::grow::<#b2ae9ec5f5f36c9c>.exit.join.3_crit_edge.i34.i.i.i.i.i.i.i"
                                        #   in Loop: Header=BB23_4 Depth=1
	movq	88(%rsp), %r14
	movq	96(%rsp), %rax
	movq	104(%rsp), %rbx
	jmp	LBB23_37
LBB23_59:                              # %join.3.i12.thread.i.i.i.i.i.i.i
                                        #   in Loop: Header=BB23_4 Depth=1
	xorps	%xmm0, %xmm0
	leaq	96(%rsp), %rax
	movups	%xmm0, (%rax)
	addq	%r13, %r15
	incq	%r15
	xorl	%r13d, %r13d
	movq	%r14, %rdi
	xorl	%r12d, %r12d
LBB23_60:                              # %apart.2.i.i.i22.i.i.i.i.i.i.i
                                        #   in Loop: Header=BB23_4 Depth=1
	movq	%r15, %rsi
	movq	%r12, %rdx
	callq	_memmove
LBB23_61:                              # %arm.1.i68.i.i.i.i.i
                                        #   in Loop: Header=BB23_4 Depth=1
	movq	%r14, 88(%rsp)
	movq	%r13, 96(%rsp)
	movq	%rbx, 104(%rsp)
	movq	32(%rsp), %r15
	testq	%r15, %r15
	je	LBB23_66
# %bb.62:                               # %join.5.i.preheader.i70.i.i.i.i.i
                                        #   in Loop: Header=BB23_4 Depth=1
	movq	24(%rsp), %r12
	.p2align	4
LBB23_63:                              # %join.5.i.i71.i.i.i.i.i
                                        #   Parent Loop BB23_4 Depth=1
                                        # =>  This Inner Loop Header: Depth=2
	movl	$1, %edi
	movq	%r12, %rsi
	movq	%r15, %rdx
	callq	_write
	testq	%rax, %rax
	js	LBB23_82
# %bb.64:                               # %"std::io::stdio::StdoutWrite::write.exit.i.i76.i.i.i.i.i"
                                        #   in Loop: Header=BB23_63 Depth=2
	je	LBB23_83
# %bb.65:                               # %join.13.i.i78.i.i.i.i.i
                                        #   in Loop: Header=BB23_63 Depth=2
	cmpq	%r15, %rax
	cmovaeq	%r15, %rax
	addq	%rax, %r12
	subq	%rax, %r15
	jne	LBB23_63
LBB23_66:                              # %arm.20.i.i.i.i.i
                                        #   in Loop: Header=BB23_4 Depth=1
	movq	80(%rsp), %r12                  # 8-byte Reload
	incq	%r12
	cmpq	$-1, %r12
	je	LBB23_92
# %bb.67:                               # %join.10.i.i.i.i.i
                                        #   in Loop: Header=BB23_4 Depth=1
	movl	$65536, %edx                    # imm = 0x10000
	xorl	%edi, %edi
	movq	16(%rsp), %r15                  # 8-byte Reload
	movq	%r15, %rsi
	callq	_read
	testq	%rax, %rax
	js	LBB23_96
# %bb.68:                               # %arm.11.i.i.i.i.i
                                        #   in Loop: Header=BB23_4 Depth=1
	movq	72(%rsp), %rbx                  # 8-byte Reload
	orb	%bpl, %bl
	testq	%rax, %rax
	jne	LBB23_4
# %bb.69:                               # %then.14.i.i.i.i.i
	movq	$0, 32(%rsp)
	testq	%r13, %r13
	je	LBB23_76
# %bb.70:                               # %"aes_kat::runs::answer_rest::<#0e4b5268c400607d>.exit.i.i.i.i.i.i"
	leaq	24(%rsp), %rdx
	movq	%r14, %rdi
	movq	%r13, %rsi
	callq	"aes_kat::runs::append_reply_line::<#0e4b5268c400607d>"
	testb	%al, %al
	je	LBB23_102
LBB23_71:                              # %arm.18.i.i.i.i.i
	cmpq	$0, 40(%rsp)
	movq	16(%rsp), %rbx                  # 8-byte Reload
	je	LBB23_73
# %bb.72:                               # %then.1.i.i.i49.i.i.i.i.i
	movq	24(%rsp), %rdi
	callq	_rattle_dealloc
LBB23_73:                              # %"std_alloc::vec::Vec::drop::<#d3b6d5c5bad96b2d>.exit51.i.i.i.i.i"
	cmpq	$0, 104(%rsp)
	jne	LBB23_95
	jmp	LBB23_88
LBB23_74:                              # %"std_alloc::vec::Vec::drop::<#d3b6d5c5bad96b2d>.exit.i.i.thread.i.i.i"
	callq	_rattle_errno
	movq	%r15, %rdi
	jmp	LBB23_89
LBB23_75:                              # %then.14.i.i.i.thread.i.i
	movq	$0, 32(%rsp)
	leaq	15(%rsp), %r14
	xorl	%ebx, %ebx
LBB23_76:                              # %arm.17.i.i.i.i.i
	xorl	%r15d, %r15d
LBB23_77:                              # %arm.17.i.i.i.i.i
	cmpq	$0, 40(%rsp)
	je	LBB23_79
# %bb.78:                               # %then.1.i.i.i31.i.i.i.i.i
	movq	24(%rsp), %rdi
	callq	_rattle_dealloc
LBB23_79:                              # %"std_alloc::vec::Vec::drop::<#d3b6d5c5bad96b2d>.exit33.i.i.i.i.i"
	orb	%r15b, %bl
	cmpq	$0, 104(%rsp)
	je	LBB23_81
# %bb.80:                               # %then.1.i.i.i37.i.i.i.i.i
	movq	%r14, %rdi
	callq	_rattle_dealloc
LBB23_81:
	movq	16(%rsp), %rdi                  # 8-byte Reload
	callq	_rattle_dealloc
	movzbl	%bl, %eax
	andl	$1, %eax
	jmp	LBB23_91
LBB23_82:                              # %"std::io::stdio::StdoutWrite::write.exit.thread.i.i83.i.i.i.i.i"
	callq	_rattle_errno
LBB23_83:                              # %arm.21.i.i.i.i.i
	cmpq	$0, 40(%rsp)
	movq	16(%rsp), %rbx                  # 8-byte Reload
	je	LBB23_85
# %bb.84:                               # %then.1.i.i.i91.i.i.i.i.i
	movq	24(%rsp), %rdi
	callq	_rattle_dealloc
LBB23_85:                              # %"std_alloc::vec::Vec::drop::<#d3b6d5c5bad96b2d>.exit93.i.i.i.i.i"
	cmpq	$0, 104(%rsp)
	je	LBB23_88
# %bb.86:                               # %then.1.i.i.i97.i.i.i.i.i
	movq	88(%rsp), %rdi
LBB23_87:                              # %"std_alloc::vec::Vec::drop::<#d3b6d5c5bad96b2d>.exit123.i.i.i.i.i"
	callq	_rattle_dealloc
LBB23_88:                              # %"std_alloc::vec::Vec::drop::<#d3b6d5c5bad96b2d>.exit123.i.i.i.i.i"
	movq	%rbx, %rdi
LBB23_89:                              # %then.1.i.i.i
	callq	_rattle_dealloc
LBB23_90:                              # %then.1.i.i.i
	leaq	108(%rsp), %rdi
	movl	$1012, %edx                     # imm = 0x3F4
	xorl	%esi, %esi
	callq	_memset
	movl	$2, 88(%rsp)
	movaps	l_CPI23_0(%rip), %xmm0          # xmm0 = [97,101,115,45,107,97,116,58,32,102,97,105,108,101,100,10]
	movups	%xmm0, 92(%rsp)
	movq	$16, 1120(%rsp)
	xorps	%xmm0, %xmm0
	movups	%xmm0, 1128(%rsp)
	movups	%xmm0, 1144(%rsp)
	movups	%xmm0, 1160(%rsp)
	movups	%xmm0, 1176(%rsp)
	movups	%xmm0, 1192(%rsp)
	movups	%xmm0, 1208(%rsp)
	leaq	88(%rsp), %rdi
	callq	"std_io::io::buffer::Buffer::flush"
	movl	$2, %eax
LBB23_91:                              # %"aes_kat_main::main+start.exit"
	addq	$1224, %rsp                     # imm = 0x4C8
	popq	%rbx
	popq	%r12
	popq	%r13
	popq	%r14
	popq	%r15
	popq	%rbp
	retq
LBB23_92:                              # %after.6.i.i.i.i.i
	movq	%rbx, %r15
	cmpq	$0, 40(%rsp)
	movq	16(%rsp), %rbx                  # 8-byte Reload
	je	LBB23_94
# %bb.93:                               # %then.1.i.i.i109.i.i.i.i.i
	movq	24(%rsp), %rdi
	callq	_rattle_dealloc
LBB23_94:                              # %"std_alloc::vec::Vec::drop::<#d3b6d5c5bad96b2d>.exit111.i.i.i.i.i"
	testq	%r15, %r15
	je	LBB23_88
LBB23_95:                              # %then.1.i.i.i115.i.i.i.i.i
	movq	%r14, %rdi
	jmp	LBB23_87
LBB23_96:                              # %arm.12.i.i.i.i.i
	movq	%rbx, %r12
	movq	40(%rsp), %rbx
	callq	_rattle_errno
	testq	%rbx, %rbx
	je	LBB23_98
# %bb.97:                               # %then.1.i.i.i11.i.i.i.i.i
	movq	24(%rsp), %rdi
	callq	_rattle_dealloc
LBB23_98:                              # %"std_alloc::vec::Vec::drop::<#d3b6d5c5bad96b2d>.exit.i.i.i.i.i"
	testq	%r12, %r12
	je	LBB23_100
# %bb.99:                               # %then.1.i.i.i15.i.i.i.i.i
	movq	%r14, %rdi
	callq	_rattle_dealloc
LBB23_100:                             # %"std_alloc::vec::Vec::drop::<#d3b6d5c5bad96b2d>.exit23.i.i.i.i.i"
	movq	%r15, %rdi
	jmp	LBB23_89
LBB23_102:                             # %arm.1.i27.i.i.i.i.i
	movl	%edx, %r15d
	movq	32(%rsp), %r12
	testq	%r12, %r12
	je	LBB23_77
# %bb.103:                              # %join.5.i.preheader.i.i.i.i.i.i
	movq	24(%rsp), %r13
LBB23_104:                             # %join.5.i.i.i.i.i.i.i
                                        # =>This Inner Loop Header: Depth=1
	movl	$1, %edi
	movq	%r13, %rsi
	movq	%r12, %rdx
	callq	_write
	testq	%rax, %rax
	js	LBB23_107
# %bb.105:                              # %"std::io::stdio::StdoutWrite::write.exit.i.i.i.i.i.i.i"
                                        #   in Loop: Header=BB23_104 Depth=1
	je	LBB23_71
# %bb.106:                              # %join.13.i.i.i.i.i.i.i
                                        #   in Loop: Header=BB23_104 Depth=1
	cmpq	%r12, %rax
	cmovaeq	%r12, %rax
	addq	%rax, %r13
	subq	%rax, %r12
	jne	LBB23_104
	jmp	LBB23_77
LBB23_107:                             # %"std::io::stdio::StdoutWrite::write.exit.thread.i.i.i.i.i.i.i"
	callq	_rattle_errno
	jmp	LBB23_71
                                        # -- End function
	.section	__TEXT,__const
l_static.2:

	.section	__TEXT,__const
l_static.3:
	.ascii	"enc"

	.section	__TEXT,__const
l_static.4:
	.ascii	"dec"

	.section	__TEXT,__const
l_static.5:
	.ascii	"round"

	.section	__TEXT,__const
	.p2align	3
l_static.6:
	.ascii	"invround"

	.section	__TEXT,__const
l_static.7:
	.ascii	"mix"

	.section	__TEXT,__const
l_static.8:
	.ascii	"invmix"

	.section	__TEXT,__const
l_static.9:
	.ascii	"sched"

	.section	__TEXT,__const
l_static.10:
	.ascii	"\001\002\004\b\020 @\200\0336"

	.section	__TEXT,__const
	.p2align	4
l_static.11:
	.ascii	"0123456789abcdef"

l_static.12:
	.zero	16

	.section	__TEXT,__const
l_static.13:
	.ascii	"error command"

	.section	__TEXT,__const
l_static.14:
	.ascii	"error hex"

	.section	__TEXT,__const
l_static.15:
	.ascii	"error key"

	.section	__TEXT,__const
l_static.16:
	.ascii	"error block"

	.section	__TEXT,__const
	.p2align	3, 0x0
"l_switch.table.aes_kat::runs::append_reply_line::<#0e4b5268c400607d>":
	.quad	13                              # 0xd
	.quad	9                               # 0x9
	.quad	9                               # 0x9
	.quad	11                              # 0xb

	.section	__TEXT,__const
	.p2align	2, 0x0
"l_switch.table.aes_kat::runs::append_reply_line::<#0e4b5268c400607d>.104.rel":
	.long	l_static.13-"l_switch.table.aes_kat::runs::append_reply_line::<#0e4b5268c400607d>.104.rel"
	.long	l_static.14-"l_switch.table.aes_kat::runs::append_reply_line::<#0e4b5268c400607d>.104.rel"
	.long	l_static.15-"l_switch.table.aes_kat::runs::append_reply_line::<#0e4b5268c400607d>.104.rel"
	.long	l_static.16-"l_switch.table.aes_kat::runs::append_reply_line::<#0e4b5268c400607d>.104.rel"

.subsections_via_symbols
