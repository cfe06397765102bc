	.def	sctp_show.main.start;
	.scl	3;
	.type	32;
	.endef
	.section	.rdata,"dr"
	.p2align	4, 0x0
.Ldcsctp_CPI0_0:
	.byte	1
	.byte	0
	.byte	3
	.byte	2
	.zero	1
	.zero	1
	.zero	1
	.zero	1
	.zero	1
	.zero	1
	.zero	1
	.zero	1
	.zero	1
	.zero	1
	.zero	1
	.zero	1
.Ldcsctp_CPI0_1:
	.byte	3
	.byte	2
	.byte	1
	.byte	0
	.byte	7
	.byte	6
	.byte	5
	.byte	4
	.zero	1
	.zero	1
	.zero	1
	.zero	1
	.zero	1
	.zero	1
	.zero	1
	.zero	1
.Ldcsctp_CPI0_2:
	.byte	1
	.byte	0
	.byte	3
	.byte	2
	.byte	5
	.byte	4
	.byte	7
	.byte	6
	.byte	9
	.byte	8
	.byte	11
	.byte	10
	.byte	13
	.byte	12
	.byte	15
	.byte	14
.Ldcsctp_CPI0_3:
	.byte	3
	.byte	2
	.byte	1
	.byte	0
	.byte	7
	.byte	6
	.byte	5
	.byte	4
	.byte	11
	.byte	10
	.byte	9
	.byte	8
	.byte	15
	.byte	14
	.byte	13
	.byte	12
	.text
	.p2align	4
sctp_show.main.start:
.seh_proc sctp_show.main.start
	pushq	%r15
	.seh_pushreg %r15
	pushq	%r14
	.seh_pushreg %r14
	pushq	%r13
	.seh_pushreg %r13
	pushq	%r12
	.seh_pushreg %r12
	pushq	%rsi
	.seh_pushreg %rsi
	pushq	%rdi
	.seh_pushreg %rdi
	pushq	%rbp
	.seh_pushreg %rbp
	pushq	%rbx
	.seh_pushreg %rbx
	subq	$376, %rsp
	.seh_stackalloc 376
	movdqa	%xmm6, 352(%rsp)
	.seh_savexmm %xmm6, 352
	.seh_endprologue
	xorl	%ecx, %ecx
	xorl	%edx, %edx
	movl	$1, %r8d
	callq	rattle_lseek
	movl	$200001, %ecx
	movl	$1, %edx
	callq	rattle_alloc
	leaq	.Ldcsctp_static.51(%rip), %r13
	movl	$21, %ebp
	testb	$1, %al
	je	.Ldcsctp_BB0_64
	movq	%rdx, %rbx
	xorl	%edi, %edi
	movl	$200001, %r8d
	movq	%rdx, %rcx
	xorl	%edx, %edx
	callq	memset
	.p2align	4
.Ldcsctp_BB0_2:
	movl	$200001, %esi
	subq	%rdi, %rsi
	leaq	(%rbx,%rdi), %rdx
	xorl	%ecx, %ecx
	movq	%rsi, %r8
	callq	rattle_read
	testq	%rax, %rax
	js	.Ldcsctp_BB0_7
	cmpq	%rsi, %rax
	cmovbq	%rax, %rsi
	testq	%rsi, %rsi
	je	.Ldcsctp_BB0_5
	addq	%rsi, %rdi
	cmpq	$200000, %rdi
	jbe	.Ldcsctp_BB0_2
.Ldcsctp_BB0_5:
	pxor	%xmm0, %xmm0
	movdqa	%xmm0, 256(%rsp)
	movdqa	%xmm0, 272(%rsp)
	movq	$0, 288(%rsp)
	movdqa	%xmm0, 160(%rsp)
	movdqa	%xmm0, 176(%rsp)
	movdqa	%xmm0, 224(%rsp)
	movq	$0, 240(%rsp)
	movdqa	%xmm0, 192(%rsp)
	movq	$0, 208(%rsp)
	cmpq	$200001, %rdi
	movl	$200001, %eax
	cmovbq	%rdi, %rax
	jb	.Ldcsctp_BB0_8
	movq	%rbx, %rcx
	callq	rattle_dealloc
	leaq	.Ldcsctp_static.53(%rip), %r13
	movl	$22, %ebp
	jmp	.Ldcsctp_BB0_64
.Ldcsctp_BB0_7:
	leaq	256(%rsp), %rcx
	callq	std_io.io.error.last_error
	movq	%rbx, %rcx
	callq	rattle_dealloc
	leaq	.Ldcsctp_static.52(%rip), %r13
	movl	$19, %ebp
	jmp	.Ldcsctp_BB0_64
.Ldcsctp_BB0_8:
	testq	%rdi, %rdi
	je	.Ldcsctp_BB0_39
	movq	%rax, %rdx
	negq	%rdx
	xorl	%ecx, %ecx
	.p2align	4
.Ldcsctp_BB0_10:
	movzbl	(%rbx,%rcx), %r8d
	cmpl	$13, %r8d
	je	.Ldcsctp_BB0_15
	cmpl	$32, %r8d
	je	.Ldcsctp_BB0_15
	addb	$-9, %r8b
	cmpb	$2, %r8b
	jb	.Ldcsctp_BB0_15
	incq	%rcx
	movq	%rdx, %r8
	addq	%rcx, %r8
	jne	.Ldcsctp_BB0_10
	movq	%rax, %r14
	jmp	.Ldcsctp_BB0_25
.Ldcsctp_BB0_15:
	leaq	1(%rcx), %rdx
	cmpq	%rax, %rdx
	jae	.Ldcsctp_BB0_22
	movq	%rcx, %r9
	subq	%rax, %r9
	leaq	2(%r9), %r8
	testb	$1, %r9b
	jne	.Ldcsctp_BB0_23
	movzbl	1(%rbx,%rcx), %edx
	cmpl	$13, %edx
	je	.Ldcsctp_BB0_20
	cmpl	$32, %edx
	je	.Ldcsctp_BB0_20
	leal	-9(%rdx), %r9d
	movl	$1, %r14d
	cmpb	$1, %r9b
	ja	.Ldcsctp_BB0_21
.Ldcsctp_BB0_20:
	xorl	%r14d, %r14d
.Ldcsctp_BB0_21:
	movb	%dl, (%rbx,%rcx)
	addq	%rcx, %r14
	addq	$2, %rcx
	movq	%rcx, %rdx
	movq	%r14, %rcx
	jmp	.Ldcsctp_BB0_24
.Ldcsctp_BB0_22:
	movq	%rcx, %r14
	jmp	.Ldcsctp_BB0_25
.Ldcsctp_BB0_23:
.Ldcsctp_BB0_24:
	testq	%r8, %r8
	jne	.Ldcsctp_BB0_32
.Ldcsctp_BB0_25:
	testb	$1, %r14b
	jne	.Ldcsctp_BB0_63
	testq	%r14, %r14
	je	.Ldcsctp_BB0_39
	movq	%r14, %rdi
	shrq	%rdi
	movl	$1, %edx
	movq	%rdi, %rcx
	callq	rattle_alloc
	testb	$1, %al
	je	.Ldcsctp_BB0_41
	movq	%rdx, %rsi
	cmpq	$2, %r14
	jne	.Ldcsctp_BB0_42
	xorl	%r14d, %r14d
	jmp	.Ldcsctp_BB0_43
	.p2align	4
.Ldcsctp_BB0_30:
	xorl	%r9d, %r9d
.Ldcsctp_BB0_31:
	addq	%rcx, %r14
	movb	%r8b, (%rbx,%r14)
	addq	%r9, %r14
	addq	$2, %rdx
	movq	%r14, %rcx
	cmpq	%rdx, %rax
	je	.Ldcsctp_BB0_25
.Ldcsctp_BB0_32:
	movzbl	(%rbx,%rdx), %r8d
	cmpl	$13, %r8d
	je	.Ldcsctp_BB0_35
	cmpl	$32, %r8d
	je	.Ldcsctp_BB0_35
	leal	-9(%r8), %r9d
	movl	$1, %r14d
	cmpb	$1, %r9b
	ja	.Ldcsctp_BB0_36
	.p2align	4
.Ldcsctp_BB0_35:
	xorl	%r14d, %r14d
.Ldcsctp_BB0_36:
	movb	%r8b, (%rbx,%rcx)
	movzbl	1(%rbx,%rdx), %r8d
	cmpl	$13, %r8d
	je	.Ldcsctp_BB0_30
	cmpl	$32, %r8d
	je	.Ldcsctp_BB0_30
	leal	-9(%r8), %r10d
	movl	$1, %r9d
	cmpb	$1, %r10b
	jbe	.Ldcsctp_BB0_30
	jmp	.Ldcsctp_BB0_31
.Ldcsctp_BB0_39:
	movq	%rbx, %rcx
.Ldcsctp_BB0_40:
	callq	rattle_dealloc
	leaq	.Ldcsctp_static.55(%rip), %r13
	movl	$27, %ebp
	jmp	.Ldcsctp_BB0_64
.Ldcsctp_BB0_41:
	movq	%rbx, %rcx
	callq	rattle_dealloc
	jmp	.Ldcsctp_BB0_64
.Ldcsctp_BB0_42:
	leaq	-1(%rdi), %r14
	movq	%rsi, %rcx
	xorl	%edx, %edx
	movq	%r14, %r8
	callq	memset
.Ldcsctp_BB0_43:
	movb	$0, (%rsi,%r14)
	incq	%r14
	cmpq	%r14, %rdi
	jne	.Ldcsctp_BB0_62
	xorl	%eax, %eax
	jmp	.Ldcsctp_BB0_47
.Ldcsctp_BB0_45:
	addb	$-48, %dl
.Ldcsctp_BB0_46:
	shlb	$4, %cl
	addb	%dl, %cl
	movb	%cl, (%rsi,%rax)
	incq	%rax
	cmpq	%rax, %r14
	je	.Ldcsctp_BB0_72
.Ldcsctp_BB0_47:
	movzbl	(%rbx,%rax,2), %ecx
	cmpb	$48, %cl
	jb	.Ldcsctp_BB0_62
	movzbl	1(%rbx,%rax,2), %edx
	cmpb	$57, %cl
	ja	.Ldcsctp_BB0_50
	addb	$-48, %cl
	jmp	.Ldcsctp_BB0_55
.Ldcsctp_BB0_50:
	cmpb	$65, %cl
	jb	.Ldcsctp_BB0_62
	cmpb	$70, %cl
	ja	.Ldcsctp_BB0_53
	addb	$-55, %cl
	jmp	.Ldcsctp_BB0_55
.Ldcsctp_BB0_53:
	leal	-97(%rcx), %r8d
	cmpb	$5, %r8b
	ja	.Ldcsctp_BB0_62
	addb	$-87, %cl
.Ldcsctp_BB0_55:
	cmpb	$48, %dl
	jb	.Ldcsctp_BB0_62
	cmpb	$57, %dl
	jbe	.Ldcsctp_BB0_45
	cmpb	$65, %dl
	jb	.Ldcsctp_BB0_62
	cmpb	$70, %dl
	ja	.Ldcsctp_BB0_60
	addb	$-55, %dl
	jmp	.Ldcsctp_BB0_46
.Ldcsctp_BB0_60:
	leal	-97(%rdx), %r8d
	cmpb	$5, %r8b
	ja	.Ldcsctp_BB0_62
	addb	$-87, %dl
	jmp	.Ldcsctp_BB0_46
.Ldcsctp_BB0_62:
	movq	%rsi, %rcx
	callq	rattle_dealloc
.Ldcsctp_BB0_63:
	movq	%rbx, %rcx
	callq	rattle_dealloc
	leaq	.Ldcsctp_static.54(%rip), %r13
	movl	$23, %ebp
.Ldcsctp_BB0_64:
	xorl	%edi, %edi
	.p2align	4
.Ldcsctp_BB0_65:
	leaq	(%rdi,%r13), %rdx
	movq	%rbp, %rsi
	subq	%rdi, %rsi
	movl	$1, %ecx
	movq	%rsi, %r8
	callq	rattle_write
	testq	%rax, %rax
	js	.Ldcsctp_BB0_69
	cmpq	%rsi, %rax
	cmovbq	%rax, %rsi
	testq	%rsi, %rsi
	je	.Ldcsctp_BB0_70
	addq	%rsi, %rdi
	cmpq	%rbp, %rdi
	jb	.Ldcsctp_BB0_65
	movb	$1, %dil
	jmp	.Ldcsctp_BB0_71
.Ldcsctp_BB0_69:
	leaq	256(%rsp), %rcx
	callq	std_io.io.error.last_error
.Ldcsctp_BB0_70:
	movb	$2, %dil
.Ldcsctp_BB0_71:
	movzbl	%dil, %eax
	movaps	352(%rsp), %xmm6
	addq	$376, %rsp
	popq	%rbx
	popq	%rbp
	popq	%rdi
	popq	%rsi
	popq	%r12
	popq	%r13
	popq	%r14
	popq	%r15
	retq
.Ldcsctp_BB0_72:
	movq	%rbx, %rcx
	callq	rattle_dealloc
	leaq	-65536(%rdi), %rax
	cmpq	$-65520, %rax
	jae	.Ldcsctp_BB0_74
	movq	%rsi, %rcx
	jmp	.Ldcsctp_BB0_40
.Ldcsctp_BB0_74:
	leaq	12(%rsi), %r15
	addq	$-12, %rdi
	xorl	%ebx, %ebx
	xorl	%r10d, %r10d
	movq	%rdi, %r12
	jmp	.Ldcsctp_BB0_77
.Ldcsctp_BB0_75:
	movq	112(%rsp), %r10
	testb	%al, %al
	jne	.Ldcsctp_BB0_108
.Ldcsctp_BB0_76:
	addq	%r14, %r15
	subq	%r14, %r12
	incq	%r10
	addq	$64, %rbx
	testq	%r12, %r12
	je	.Ldcsctp_BB0_104
.Ldcsctp_BB0_77:
	cmpq	$4, %r12
	jb	.Ldcsctp_BB0_103
	movzwl	2(%r15), %eax
	rolw	$8, %ax
	cmpw	$4, %ax
	jb	.Ldcsctp_BB0_103
	movzwl	%ax, %eax
	cmpq	%rax, %r12
	jb	.Ldcsctp_BB0_103
	leaq	-4(%rax), %r8
	leal	3(%rax), %r14d
	andl	$-4, %r14d
	cmpq	%r14, %r12
	cmovbq	%r12, %r14
	movzbl	(%r15), %ecx
	cmpq	$130, %rcx
	ja	.Ldcsctp_BB0_84
	leaq	4(%r15), %rdx
	leaq	.Ldcsctp_JTI0_0(%rip), %r9
	movslq	(%r9,%rcx,4), %rcx
	addq	%r9, %rcx
	jmpq	*%rcx
.Ldcsctp_BB0_82:
	movq	%r10, 112(%rsp)
	pxor	%xmm0, %xmm0
	movdqa	%xmm0, 80(%rsp)
	movq	$0, 96(%rsp)
	movl	$0, 48(%rsp)
	leaq	80(%rsp), %rcx
	jmp	.Ldcsctp_BB0_91
.Ldcsctp_BB0_83:
	testq	%r8, %r8
	je	.Ldcsctp_BB0_76
	jmp	.Ldcsctp_BB0_103
.Ldcsctp_BB0_84:
	cmpl	$192, %ecx
	je	.Ldcsctp_BB0_101
	cmpl	$194, %ecx
	jne	.Ldcsctp_BB0_76
	cmpw	$8, %ax
	jb	.Ldcsctp_BB0_103
	andl	$7, %r8d
.Ldcsctp_BB0_88:
	cmpl	$4, %r8d
	je	.Ldcsctp_BB0_76
	jmp	.Ldcsctp_BB0_103
.Ldcsctp_BB0_89:
	cmpw	$20, %ax
	jb	.Ldcsctp_BB0_103
	movq	%r10, 112(%rsp)
	pxor	%xmm0, %xmm0
	movdqa	%xmm0, 80(%rsp)
	movq	$0, 96(%rsp)
	leaq	20(%r15), %rdx
	addq	$-20, %rax
	movl	$0, 48(%rsp)
	leaq	80(%rsp), %rcx
	movq	%rax, %r8
.Ldcsctp_BB0_91:
	xorl	%r9d, %r9d
	callq	dcsctp_tlv.reader.list_check.a9faab4c914c0483
	jmp	.Ldcsctp_BB0_94
.Ldcsctp_BB0_92:
	testq	%r8, %r8
	je	.Ldcsctp_BB0_103
.Ldcsctp_BB0_93:
	movq	%r10, 112(%rsp)
	pxor	%xmm0, %xmm0
	movdqa	%xmm0, 80(%rsp)
	movq	$0, 96(%rsp)
	movl	$0, 48(%rsp)
	leaq	80(%rsp), %rcx
	xorl	%r9d, %r9d
	callq	dcsctp_tlv.reader.list_check.a6e1d811d2b3aa55
.Ldcsctp_BB0_94:
	movzbl	80(%rsp), %eax
	testb	%al, %al
	je	.Ldcsctp_BB0_75
	movl	96(%rsp), %ecx
	movl	%ecx, 48(%rsp)
	jmp	.Ldcsctp_BB0_75
.Ldcsctp_BB0_96:
	cmpw	$20, %ax
	jae	.Ldcsctp_BB0_76
	jmp	.Ldcsctp_BB0_103
.Ldcsctp_BB0_97:
	testq	%r8, %r8
	jne	.Ldcsctp_BB0_76
	jmp	.Ldcsctp_BB0_103
.Ldcsctp_BB0_98:
	cmpw	$16, %ax
	jae	.Ldcsctp_BB0_76
	jmp	.Ldcsctp_BB0_103
.Ldcsctp_BB0_99:
	cmpw	$16, %ax
	jb	.Ldcsctp_BB0_103
	movl	12(%r15), %eax
	bswapl	%eax
	movzwl	%ax, %ecx
	shrl	$16, %eax
	addl	%eax, %ecx
	leal	12(,%rcx,4), %eax
	cmpl	%eax, %r8d
	je	.Ldcsctp_BB0_76
	jmp	.Ldcsctp_BB0_103
.Ldcsctp_BB0_101:
	cmpw	$8, %ax
	jb	.Ldcsctp_BB0_103
	andl	$3, %eax
	je	.Ldcsctp_BB0_76
.Ldcsctp_BB0_103:
	movq	%rsi, %rcx
	callq	rattle_dealloc
	leaq	.Ldcsctp_static.58(%rip), %r13
	movl	$29, %ebp
	jmp	.Ldcsctp_BB0_64
.Ldcsctp_BB0_104:
	testq	%r10, %r10
	movq	%r10, 112(%rsp)
	je	.Ldcsctp_BB0_109
	movq	%r10, %rax
	shrq	$57, %rax
	jne	.Ldcsctp_BB0_339
	movl	$8, %edx
	movq	%rbx, %rcx
	callq	rattle_alloc
	testb	$1, %al
	je	.Ldcsctp_BB0_339
	movq	%rdx, %r12
	jmp	.Ldcsctp_BB0_110
.Ldcsctp_BB0_108:
	movq	%rsi, %rcx
	callq	rattle_dealloc
	leaq	.Ldcsctp_switch.table.sctp_show.main.start(%rip), %rax
	movzbl	48(%rsp), %ecx
	movq	(%rax,%rcx,8), %rbp
	leaq	.Ldcsctp_switch.table.sctp_show.main.start.391.rel(%rip), %rax
	movslq	(%rax,%rcx,4), %r13
	addq	%rax, %r13
	jmp	.Ldcsctp_BB0_64
.Ldcsctp_BB0_109:
	leaq	40(%rsp), %r12
.Ldcsctp_BB0_110:
	xorl	%ebx, %ebx
	leaq	12(%rsi), %r9
	movq	%r12, 72(%rsp)
	jmp	.Ldcsctp_BB0_116
.Ldcsctp_BB0_111:
	movq	%rbx, %rax
	shlq	$6, %rax
	movw	$14, (%r12,%rax)
.Ldcsctp_BB0_112:
	movl	$0, 4(%r12,%rax)
	leaq	(%r12,%rax), %rcx
	addq	$8, %rcx
	movq	%r11, 64(%rsp)
	leaq	40(%rsp), %r8
	movq	%r8, 8(%r12,%rax)
	pxor	%xmm0, %xmm0
	movdqu	%xmm0, 16(%r12,%rax)
	movdqu	%xmm0, 32(%r12,%rax)
	movdqu	%xmm0, 48(%r12,%rax)
	movq	48(%rsp), %r8
	movq	%r9, %r14
	callq	dcsctp_tlv.parameter.parameters_fill
.Ldcsctp_BB0_113:
	movq	64(%rsp), %r11
.Ldcsctp_BB0_114:
	movq	%r14, %r9
.Ldcsctp_BB0_115:
	addq	%r11, %r9
	subq	%r11, %rdi
	incq	%rbx
	testb	%al, %al
	jne	.Ldcsctp_BB0_319
.Ldcsctp_BB0_116:
	testq	%rdi, %rdi
	je	.Ldcsctp_BB0_290
	movzwl	2(%r9), %eax
	rolw	$8, %ax
	movzwl	%ax, %r8d
	leaq	4(%r9), %rdx
	movl	%r8d, %r11d
	addl	$3, %r11d
	andl	$-4, %r11d
	cmpq	%r11, %rdi
	cmovbq	%rdi, %r11
	leaq	-4(%r8), %rax
	movq	%rax, 48(%rsp)
	movzbl	(%r9), %r14d
	movzbl	1(%r9), %r10d
	cmpq	$130, %r14
	ja	.Ldcsctp_BB0_123
	movzbl	%r10b, %r15d
	leaq	.Ldcsctp_JTI0_1(%rip), %rax
	movslq	(%rax,%r14,4), %rcx
	addq	%rax, %rcx
	jmpq	*%rcx
.Ldcsctp_BB0_119:
	movl	%r15d, 48(%rsp)
	movb	%r10b, 136(%rsp)
	movq	%r11, 64(%rsp)
	movl	4(%r9), %eax
	movl	%eax, 56(%rsp)
	movl	12(%r9), %eax
	movl	%eax, 128(%rsp)
	movq	%r9, %r14
	movd	8(%r9), %xmm6
	movq	%r8, 104(%rsp)
	movq	%r8, %r12
	addq	$-16, %r12
	je	.Ldcsctp_BB0_169
	cmpw	$16, 104(%rsp)
	jb	.Ldcsctp_BB0_318
	movl	$1, %edx
	movq	%r12, %rcx
	callq	rattle_alloc
	testb	$1, %al
	je	.Ldcsctp_BB0_318
	movq	%rdx, %r15
	jmp	.Ldcsctp_BB0_170
.Ldcsctp_BB0_123:
	cmpl	$192, %r14d
	je	.Ldcsctp_BB0_159
	cmpl	$194, %r14d
	jne	.Ldcsctp_BB0_130
	movq	%rdx, %r12
	movq	%r11, 64(%rsp)
	movq	%r9, %r15
	leaq	-8(%r8), %rax
	movq	%rax, %r14
	shrq	$3, %r14
	je	.Ldcsctp_BB0_186
	movabsq	$6148914691236517207, %rcx
	cmpq	%rcx, %rax
	ja	.Ldcsctp_BB0_318
	leaq	(,%r14,4), %rax
	leaq	(%rax,%rax,2), %rcx
	movl	$4, %edx
	callq	rattle_alloc
	testb	$1, %al
	je	.Ldcsctp_BB0_318
	leaq	8(%rdx), %rax
	xorl	%ecx, %ecx
	movq	%r15, %r11
.Ldcsctp_BB0_129:
	movzwl	8(%r11,%rcx,8), %r8d
	rolw	$8, %r8w
	movzbl	11(%r11,%rcx,8), %r9d
	andl	$1, %r9d
	movl	12(%r11,%rcx,8), %r10d
	bswapl	%r10d
	movw	$1, -8(%rax)
	movw	%r9w, -6(%rax)
	movw	%r8w, -4(%rax)
	movl	%r10d, (%rax)
	incq	%rcx
	addq	$12, %rax
	cmpq	%rcx, %r14
	jne	.Ldcsctp_BB0_129
	jmp	.Ldcsctp_BB0_187
.Ldcsctp_BB0_130:
	movq	%rdx, 128(%rsp)
	movb	%r10b, 136(%rsp)
	movq	%r11, 64(%rsp)
	movq	%r9, 56(%rsp)
	leaq	-4(%r8), %rax
	testq	%rax, %rax
	movq	%r8, 104(%rsp)
	je	.Ldcsctp_BB0_164
	cmpw	$4, %r8w
	jb	.Ldcsctp_BB0_318
	movl	$1, %edx
	movq	48(%rsp), %rcx
	callq	rattle_alloc
	testb	$1, %al
	je	.Ldcsctp_BB0_318
	movq	%rdx, %r12
	jmp	.Ldcsctp_BB0_165
.Ldcsctp_BB0_134:
	movq	%rbx, %rax
	shlq	$6, %rax
	movw	$9, (%r12,%rax)
	movl	$0, 4(%r12,%rax)
	leaq	(%r12,%rax), %rcx
	addq	$8, %rcx
	movq	%r11, 64(%rsp)
	leaq	40(%rsp), %r8
	movq	%r8, 8(%r12,%rax)
	pxor	%xmm0, %xmm0
	movdqu	%xmm0, 16(%r12,%rax)
	movdqu	%xmm0, 32(%r12,%rax)
	movdqu	%xmm0, 48(%r12,%rax)
	jmp	.Ldcsctp_BB0_143
.Ldcsctp_BB0_135:
	andb	$1, %r10b
	movq	%rbx, %rax
	shlq	$6, %rax
	movb	$12, (%r12,%rax)
	movb	%r10b, 1(%r12,%rax)
	jmp	.Ldcsctp_BB0_158
.Ldcsctp_BB0_136:
	movq	%rbx, %rax
	shlq	$6, %rax
	movw	$8, (%r12,%rax)
	jmp	.Ldcsctp_BB0_158
.Ldcsctp_BB0_137:
	movl	16(%r9), %eax
	bswapl	%eax
	movq	%r11, %r15
	movq	%rbx, %rdx
	shlq	$6, %rdx
	movd	12(%r9), %xmm0
	pshufb	.Ldcsctp_CPI0_0(%rip), %xmm0
	movq	4(%r9), %xmm1
	pshufb	.Ldcsctp_CPI0_1(%rip), %xmm1
	movw	$1, (%r12,%rdx)
	jmp	.Ldcsctp_BB0_145
.Ldcsctp_BB0_138:
	movl	%r15d, 48(%rsp)
	movq	%r11, 64(%rsp)
	movzwl	8(%r9), %r14d
	xorl	%eax, %eax
	movb	%r10b, 136(%rsp)
	andb	$2, %r10b
	movb	%r10b, 127(%rsp)
	movl	4(%r9), %ecx
	movl	%ecx, 128(%rsp)
	movl	12(%r9), %ecx
	movl	%ecx, 152(%rsp)
	movq	%r9, 56(%rsp)
	movl	16(%r9), %ecx
	bswapl	%ecx
	movl	%ecx, %edx
	cmovel	%eax, %edx
	movl	%edx, 148(%rsp)
	cmovnel	%eax, %ecx
	movl	%ecx, 156(%rsp)
	movq	%r8, 104(%rsp)
	movq	%r8, %r12
	addq	$-20, %r12
	je	.Ldcsctp_BB0_174
	cmpw	$20, 104(%rsp)
	jb	.Ldcsctp_BB0_318
	movl	$1, %edx
	movq	%r12, %rcx
	callq	rattle_alloc
	testb	$1, %al
	je	.Ldcsctp_BB0_318
	movq	%rdx, %r15
	jmp	.Ldcsctp_BB0_175
.Ldcsctp_BB0_142:
	andb	$1, %r10b
	movq	%rbx, %rax
	shlq	$6, %rax
	movw	$6, (%r12,%rax)
	movl	$0, 4(%r12,%rax)
	movb	%r10b, 8(%r12,%rax)
	movl	$0, 9(%r12,%rax)
	movl	$0, 12(%r12,%rax)
	leaq	16(%r12,%rax), %rcx
	movq	%r11, 64(%rsp)
	leaq	40(%rsp), %r8
	movq	%r8, 16(%r12,%rax)
	pxor	%xmm0, %xmm0
	movdqu	%xmm0, 24(%r12,%rax)
	movdqu	%xmm0, 40(%r12,%rax)
	movq	$0, 56(%r12,%rax)
.Ldcsctp_BB0_143:
	movq	48(%rsp), %r8
	movq	%r9, %r14
	callq	dcsctp_cause.error_causes.error_cause_fill
	jmp	.Ldcsctp_BB0_113
.Ldcsctp_BB0_144:
	movl	16(%r9), %eax
	bswapl	%eax
	movq	%r11, %r15
	movq	%rbx, %rdx
	shlq	$6, %rdx
	movd	12(%r9), %xmm0
	pshufb	.Ldcsctp_CPI0_0(%rip), %xmm0
	movq	4(%r9), %xmm1
	pshufb	.Ldcsctp_CPI0_1(%rip), %xmm1
	movw	$2, (%r12,%rdx)
.Ldcsctp_BB0_145:
	movl	$0, 4(%r12,%rdx)
	movq	%xmm1, 8(%r12,%rdx)
	movd	%xmm0, 16(%r12,%rdx)
	movl	%eax, 20(%r12,%rdx)
	leaq	(%r12,%rdx), %rcx
	addq	$24, %rcx
	leaq	40(%rsp), %rax
	movq	%rax, 24(%r12,%rdx)
	pxor	%xmm0, %xmm0
	movdqu	%xmm0, 32(%r12,%rdx)
	movdqu	%xmm0, 48(%r12,%rdx)
	leaq	20(%r9), %rdx
	addq	$-20, %r8
	movq	%r9, %r14
	callq	dcsctp_tlv.parameter.parameters_fill
	movq	%r15, %r11
	jmp	.Ldcsctp_BB0_114
.Ldcsctp_BB0_146:
	movq	%r11, 64(%rsp)
	movl	12(%r9), %r14d
	bswapl	%r14d
	movl	%r14d, %ecx
	shrl	$16, %ecx
	movq	4(%r9), %xmm6
	movq	%r9, 56(%rsp)
	leaq	16(%r9), %rax
	movq	%rax, 136(%rsp)
	leaq	40(%rsp), %r15
	movq	%rcx, 48(%rsp)
	testl	%ecx, %ecx
	je	.Ldcsctp_BB0_179
	movq	48(%rsp), %rax
	leal	(,%rax,4), %ecx
	movl	$2, %edx
	movq	%rcx, 104(%rsp)
	callq	rattle_alloc
	testb	$1, %al
	je	.Ldcsctp_BB0_318
	movq	%rdx, %r12
	cmpl	$524288, %r14d
	jb	.Ldcsctp_BB0_149
	movq	%r12, %rax
	subq	56(%rsp), %rax
	addq	$-16, %rax
	cmpq	$32, %rax
	jae	.Ldcsctp_BB0_205
.Ldcsctp_BB0_149:
	xorl	%eax, %eax
.Ldcsctp_BB0_208:
	movq	%rax, %rcx
	testb	$1, 48(%rsp)
	je	.Ldcsctp_BB0_210
	leal	(,%rax,4), %ecx
	movq	136(%rsp), %rdx
	movl	(%rdx,%rcx), %edx
	bswapl	%edx
	shldl	$16, %edx, %edx
	movl	%edx, (%r12,%rcx)
	movq	%rax, %rcx
	orq	$1, %rcx
.Ldcsctp_BB0_210:
	movq	48(%rsp), %rdx
	decl	%edx
	cmpl	%edx, %eax
	je	.Ldcsctp_BB0_213
	movq	56(%rsp), %rdx
	movq	48(%rsp), %r8
.Ldcsctp_BB0_212:
	movl	16(%rdx,%rcx,4), %eax
	bswapl	%eax
	shldl	$16, %eax, %eax
	movl	%eax, (%r12,%rcx,4)
	movl	20(%rdx,%rcx,4), %eax
	bswapl	%eax
	shldl	$16, %eax, %eax
	movl	%eax, 4(%r12,%rcx,4)
	addq	$2, %rcx
	cmpq	%rcx, %r8
	jne	.Ldcsctp_BB0_212
	jmp	.Ldcsctp_BB0_213
.Ldcsctp_BB0_150:
	movq	%rbx, %rax
	shlq	$6, %rax
	movw	$4, (%r12,%rax)
	jmp	.Ldcsctp_BB0_112
.Ldcsctp_BB0_151:
	movl	(%rdx), %eax
	bswapl	%eax
	movq	%rbx, %rcx
	shlq	$6, %rcx
	movw	$7, (%r12,%rcx)
	movl	%eax, 4(%r12,%rcx)
	pxor	%xmm0, %xmm0
	movdqu	%xmm0, 8(%r12,%rcx)
	movdqu	%xmm0, 24(%r12,%rcx)
	movdqu	%xmm0, 40(%r12,%rcx)
	movq	$0, 56(%r12,%rcx)
	xorl	%eax, %eax
	jmp	.Ldcsctp_BB0_115
.Ldcsctp_BB0_152:
	movq	%rbx, %rax
	shlq	$6, %rax
	movw	$5, (%r12,%rax)
	jmp	.Ldcsctp_BB0_112
.Ldcsctp_BB0_153:
	movq	%rdx, %r14
	movq	%r8, 104(%rsp)
	movq	%r11, 64(%rsp)
	movq	%r9, 56(%rsp)
	cmpq	$0, 48(%rsp)
	je	.Ldcsctp_BB0_180
	cmpw	$4, 104(%rsp)
	jb	.Ldcsctp_BB0_318
	movl	$1, %edx
	movq	48(%rsp), %rcx
	callq	rattle_alloc
	testb	$1, %al
	je	.Ldcsctp_BB0_318
	movq	%rdx, %r12
	jmp	.Ldcsctp_BB0_181
.Ldcsctp_BB0_157:
	movq	%rbx, %rax
	shlq	$6, %rax
	movw	$11, (%r12,%rax)
.Ldcsctp_BB0_158:
	pxor	%xmm0, %xmm0
	movdqu	%xmm0, 4(%r12,%rax)
	movdqu	%xmm0, 20(%r12,%rax)
	movdqu	%xmm0, 36(%r12,%rax)
	movdqu	%xmm0, 48(%r12,%rax)
	xorl	%eax, %eax
	jmp	.Ldcsctp_BB0_115
.Ldcsctp_BB0_159:
	movq	%rdx, %r12
	movq	%r11, 64(%rsp)
	movq	%r9, %r15
	leaq	-8(%r8), %rax
	movq	%rax, %r14
	shrq	$2, %r14
	je	.Ldcsctp_BB0_185
	movabsq	$3074457345618258603, %rcx
	cmpq	%rcx, %rax
	ja	.Ldcsctp_BB0_318
	leaq	(,%r14,4), %rax
	leaq	(%rax,%rax,2), %rcx
	movl	$4, %edx
	callq	rattle_alloc
	testb	$1, %al
	je	.Ldcsctp_BB0_318
	cmpq	$1, %r14
	jne	.Ldcsctp_BB0_192
	xorl	%eax, %eax
	movq	%r15, %r9
	jmp	.Ldcsctp_BB0_195
.Ldcsctp_BB0_164:
	leaq	40(%rsp), %r12
.Ldcsctp_BB0_165:
	movq	%r12, %rax
	movq	128(%rsp), %rdx
	subq	%rdx, %rax
	movq	48(%rsp), %r15
	cmpq	%r15, %rax
	jae	.Ldcsctp_BB0_168
	cmpl	$4, %r15d
	jb	.Ldcsctp_BB0_167
	movq	%r12, %rax
	subq	56(%rsp), %rax
	addq	$-4, %rax
	cmpq	$32, %rax
	jae	.Ldcsctp_BB0_203
.Ldcsctp_BB0_167:
	xorl	%eax, %eax
.Ldcsctp_BB0_243:
	movq	104(%rsp), %rdx
	movq	%rax, %rcx
	andq	$3, %rdx
	movq	128(%rsp), %r9
	je	.Ldcsctp_BB0_246
	movq	%rax, %rcx
.Ldcsctp_BB0_245:
	movzbl	(%r9,%rcx), %r8d
	movb	%r8b, (%r12,%rcx)
	incq	%rcx
	decq	%rdx
	jne	.Ldcsctp_BB0_245
.Ldcsctp_BB0_246:
	negq	%rax
	movq	104(%rsp), %rdx
	addq	%rdx, %rax
	addq	$-5, %rax
	cmpl	$3, %eax
	movq	56(%rsp), %r9
	movq	48(%rsp), %r15
	jb	.Ldcsctp_BB0_248
.Ldcsctp_BB0_247:
	movzbl	4(%r9,%rcx), %eax
	movb	%al, (%r12,%rcx)
	movzbl	5(%r9,%rcx), %eax
	movb	%al, 1(%r12,%rcx)
	movzbl	6(%r9,%rcx), %eax
	movb	%al, 2(%r12,%rcx)
	movzbl	7(%r9,%rcx), %eax
	movb	%al, 3(%r12,%rcx)
	addq	$4, %rcx
	cmpq	%rcx, %r15
	jne	.Ldcsctp_BB0_247
	jmp	.Ldcsctp_BB0_248
.Ldcsctp_BB0_168:
	movq	%r12, %rcx
	movq	%r15, %r8
	callq	memmove
	movq	56(%rsp), %r9
.Ldcsctp_BB0_248:
	movq	%rbx, %rax
	shlq	$6, %rax
	movq	72(%rsp), %rcx
	movw	$17, (%rcx,%rax)
	movl	$0, 4(%rcx,%rax)
	movb	%r14b, 8(%rcx,%rax)
	movzbl	136(%rsp), %edx
	movb	%dl, 9(%rcx,%rax)
	movl	$0, 10(%rcx,%rax)
	movw	$0, 14(%rcx,%rax)
	movq	%r12, 16(%rcx,%rax)
	movq	%rcx, %r12
	movq	%r15, 24(%rcx,%rax)
	movq	%r15, 32(%rcx,%rax)
	pxor	%xmm0, %xmm0
	movdqu	%xmm0, 40(%rcx,%rax)
	movq	$0, 56(%rcx,%rax)
	jmp	.Ldcsctp_BB0_288
.Ldcsctp_BB0_169:
	leaq	40(%rsp), %r15
.Ldcsctp_BB0_170:
	leaq	16(%r14), %rdx
	movq	%r15, %rax
	subq	%rdx, %rax
	cmpq	%r12, %rax
	jae	.Ldcsctp_BB0_173
	cmpq	$4, %r12
	jb	.Ldcsctp_BB0_172
	movq	%r15, %rax
	subq	%r14, %rax
	addq	$-16, %rax
	cmpq	$32, %rax
	jae	.Ldcsctp_BB0_230
.Ldcsctp_BB0_172:
	xorl	%eax, %eax
.Ldcsctp_BB0_256:
	movq	104(%rsp), %r8
	movq	%rax, %rcx
	andq	$3, %r8
	je	.Ldcsctp_BB0_259
	movq	%rax, %rcx
.Ldcsctp_BB0_258:
	movzbl	(%rdx,%rcx), %r9d
	movb	%r9b, (%r15,%rcx)
	incq	%rcx
	decq	%r8
	jne	.Ldcsctp_BB0_258
.Ldcsctp_BB0_259:
	movq	104(%rsp), %rdx
	subq	%rax, %rdx
	addq	$-17, %rdx
	cmpq	$3, %rdx
	movq	%r14, %r9
	jb	.Ldcsctp_BB0_261
.Ldcsctp_BB0_260:
	movzbl	16(%r9,%rcx), %eax
	movb	%al, (%r15,%rcx)
	movzbl	17(%r9,%rcx), %eax
	movb	%al, 1(%r15,%rcx)
	movzbl	18(%r9,%rcx), %eax
	movb	%al, 2(%r15,%rcx)
	movzbl	19(%r9,%rcx), %eax
	movb	%al, 3(%r15,%rcx)
	addq	$4, %rcx
	cmpq	%rcx, %r12
	jne	.Ldcsctp_BB0_260
	jmp	.Ldcsctp_BB0_261
.Ldcsctp_BB0_173:
	movq	%r15, %rcx
	movq	%r12, %r8
	callq	memmove
	movq	%r14, %r9
.Ldcsctp_BB0_261:
	movl	56(%rsp), %eax
	bswapl	%eax
	movl	%eax, 56(%rsp)
	pshufb	.Ldcsctp_CPI0_2(%rip), %xmm6
	movl	128(%rsp), %r14d
	bswapl	%r14d
	movzwl	48(%rsp), %eax
	shrl	$2, %eax
	andl	$1, %eax
	movzbl	136(%rsp), %r11d
	movl	%r11d, %ecx
	shrb	%cl
	andb	$1, %cl
	movl	%r11d, %edx
	andb	$1, %dl
	shrb	$3, %r11b
	andb	$1, %r11b
	movq	%rbx, %r8
	shlq	$6, %r8
	movq	72(%rsp), %r10
	movw	$0, (%r10,%r8)
	movl	$0, 4(%r10,%r8)
	movq	%r15, 8(%r10,%r8)
	movq	%r12, 16(%r10,%r8)
	movq	%r12, 24(%r10,%r8)
	movq	%r10, %r12
	movq	$0, 32(%r10,%r8)
	movl	%r14d, 40(%r10,%r8)
	movw	%ax, 44(%r10,%r8)
	movd	%xmm6, 46(%r10,%r8)
	movb	%cl, 50(%r10,%r8)
	movb	%dl, 51(%r10,%r8)
	movl	$0, 52(%r10,%r8)
	movl	56(%rsp), %eax
	movl	%eax, 56(%r10,%r8)
	movb	%r11b, 60(%r10,%r8)
	movw	$0, 61(%r10,%r8)
	movb	$0, 63(%r10,%r8)
	jmp	.Ldcsctp_BB0_288
.Ldcsctp_BB0_174:
	leaq	40(%rsp), %r15
.Ldcsctp_BB0_175:
	movq	56(%rsp), %rax
	leaq	20(%rax), %rdx
	movq	%r15, %rax
	subq	%rdx, %rax
	cmpq	%r12, %rax
	jae	.Ldcsctp_BB0_178
	cmpq	$4, %r12
	jb	.Ldcsctp_BB0_177
	movq	%r15, %rax
	subq	56(%rsp), %rax
	addq	$-20, %rax
	cmpq	$32, %rax
	jae	.Ldcsctp_BB0_232
.Ldcsctp_BB0_177:
	xorl	%eax, %eax
.Ldcsctp_BB0_269:
	movq	104(%rsp), %r8
	movq	%rax, %rcx
	andq	$3, %r8
	je	.Ldcsctp_BB0_272
	movq	%rax, %rcx
.Ldcsctp_BB0_271:
	movzbl	(%rdx,%rcx), %r9d
	movb	%r9b, (%r15,%rcx)
	incq	%rcx
	decq	%r8
	jne	.Ldcsctp_BB0_271
.Ldcsctp_BB0_272:
	movq	104(%rsp), %rdx
	subq	%rax, %rdx
	addq	$-21, %rdx
	cmpq	$3, %rdx
	movq	56(%rsp), %r9
	jb	.Ldcsctp_BB0_274
.Ldcsctp_BB0_273:
	movzbl	20(%r9,%rcx), %eax
	movb	%al, (%r15,%rcx)
	movzbl	21(%r9,%rcx), %eax
	movb	%al, 1(%r15,%rcx)
	movzbl	22(%r9,%rcx), %eax
	movb	%al, 2(%r15,%rcx)
	movzbl	23(%r9,%rcx), %eax
	movb	%al, 3(%r15,%rcx)
	addq	$4, %rcx
	cmpq	%rcx, %r12
	jne	.Ldcsctp_BB0_273
	jmp	.Ldcsctp_BB0_274
.Ldcsctp_BB0_178:
	movq	%r15, %rcx
	movq	%r12, %r8
	callq	memmove
	movq	56(%rsp), %r9
.Ldcsctp_BB0_274:
	rolw	$8, %r14w
	movw	%r14w, 56(%rsp)
	movl	128(%rsp), %eax
	bswapl	%eax
	movl	%eax, 128(%rsp)
	movl	152(%rsp), %r11d
	bswapl	%r11d
	movzwl	48(%rsp), %eax
	shrl	$2, %eax
	andl	$1, %eax
	movzbl	127(%rsp), %r14d
	shrb	%r14b
	movzbl	136(%rsp), %r10d
	movl	%r10d, %ecx
	andb	$1, %cl
	shrb	$3, %r10b
	andb	$1, %r10b
	movq	%rbx, %rdx
	shlq	$6, %rdx
	movq	72(%rsp), %r8
	movw	$13, (%r8,%rdx)
	movl	$0, 4(%r8,%rdx)
	movq	%r15, 8(%r8,%rdx)
	movq	%r12, 16(%r8,%rdx)
	movq	%r12, 24(%r8,%rdx)
	movq	%r8, %r12
	movl	%r11d, 32(%r8,%rdx)
	movl	156(%rsp), %r8d
	movl	%r8d, 36(%r12,%rdx)
	movl	148(%rsp), %r8d
	movl	%r8d, 40(%r12,%rdx)
	movw	%ax, 44(%r12,%rdx)
	movzwl	56(%rsp), %eax
	movw	%ax, 46(%r12,%rdx)
	movw	$0, 48(%r12,%rdx)
	movb	%r14b, 50(%r12,%rdx)
	movb	%cl, 51(%r12,%rdx)
	movl	$0, 52(%r12,%rdx)
	movl	128(%rsp), %eax
	movl	%eax, 56(%r12,%rdx)
	movb	%r10b, 60(%r12,%rdx)
	movw	$0, 61(%r12,%rdx)
	movb	$0, 63(%r12,%rdx)
	jmp	.Ldcsctp_BB0_288
.Ldcsctp_BB0_179:
	movq	$0, 104(%rsp)
	movq	%r15, %r12
.Ldcsctp_BB0_213:
	movzwl	%r14w, %r14d
	testl	%r14d, %r14d
	je	.Ldcsctp_BB0_217
	leal	(,%r14,4), %ecx
	movl	$4, %edx
	callq	rattle_alloc
	testb	$1, %al
	je	.Ldcsctp_BB0_309
	movq	%rdx, %r15
	cmpl	$8, %r14d
	jb	.Ldcsctp_BB0_216
	movq	56(%rsp), %rax
	movq	104(%rsp), %rcx
	addq	%rcx, %rax
	movq	%r15, %rcx
	subq	%rax, %rcx
	addq	$-16, %rcx
	cmpq	$32, %rcx
	jae	.Ldcsctp_BB0_220
.Ldcsctp_BB0_216:
	xorl	%eax, %eax
.Ldcsctp_BB0_223:
	movq	%r14, %rdx
	movq	%rax, %rcx
	andq	$3, %rdx
	movq	136(%rsp), %r9
	je	.Ldcsctp_BB0_226
	addq	104(%rsp), %r9
	movq	%rax, %rcx
.Ldcsctp_BB0_225:
	movl	(%r9,%rcx,4), %r8d
	bswapl	%r8d
	movl	%r8d, (%r15,%rcx,4)
	incq	%rcx
	decq	%rdx
	jne	.Ldcsctp_BB0_225
.Ldcsctp_BB0_226:
	subl	%r14d, %eax
	cmpl	$-4, %eax
	ja	.Ldcsctp_BB0_229
	movq	56(%rsp), %rax
	movq	104(%rsp), %rdx
	addq	%rdx, %rax
	addq	$28, %rax
.Ldcsctp_BB0_228:
	movl	-12(%rax,%rcx,4), %edx
	bswapl	%edx
	movl	%edx, (%r15,%rcx,4)
	movl	-8(%rax,%rcx,4), %edx
	bswapl	%edx
	movl	%edx, 4(%r15,%rcx,4)
	movl	-4(%rax,%rcx,4), %edx
	bswapl	%edx
	movl	%edx, 8(%r15,%rcx,4)
	movl	(%rax,%rcx,4), %edx
	bswapl	%edx
	movl	%edx, 12(%r15,%rcx,4)
	addq	$4, %rcx
	cmpq	%rcx, %r14
	jne	.Ldcsctp_BB0_228
	jmp	.Ldcsctp_BB0_229
.Ldcsctp_BB0_180:
	leaq	40(%rsp), %r12
.Ldcsctp_BB0_181:
	movq	%r12, %rax
	subq	%r14, %rax
	movq	48(%rsp), %r15
	cmpq	%r15, %rax
	jae	.Ldcsctp_BB0_184
	cmpl	$4, %r15d
	jb	.Ldcsctp_BB0_183
	movq	%r12, %rax
	subq	56(%rsp), %rax
	addq	$-4, %rax
	cmpq	$32, %rax
	jae	.Ldcsctp_BB0_234
.Ldcsctp_BB0_183:
	xorl	%eax, %eax
.Ldcsctp_BB0_282:
	movq	104(%rsp), %rdx
	movq	%rax, %rcx
	andq	$3, %rdx
	je	.Ldcsctp_BB0_285
	movq	%rax, %rcx
.Ldcsctp_BB0_284:
	movzbl	(%r14,%rcx), %r8d
	movb	%r8b, (%r12,%rcx)
	incq	%rcx
	decq	%rdx
	jne	.Ldcsctp_BB0_284
.Ldcsctp_BB0_285:
	negq	%rax
	movq	104(%rsp), %rdx
	addq	%rdx, %rax
	addq	$-5, %rax
	cmpl	$3, %eax
	movq	56(%rsp), %r9
	movq	48(%rsp), %r15
	jb	.Ldcsctp_BB0_287
.Ldcsctp_BB0_286:
	movzbl	4(%r9,%rcx), %eax
	movb	%al, (%r12,%rcx)
	movzbl	5(%r9,%rcx), %eax
	movb	%al, 1(%r12,%rcx)
	movzbl	6(%r9,%rcx), %eax
	movb	%al, 2(%r12,%rcx)
	movzbl	7(%r9,%rcx), %eax
	movb	%al, 3(%r12,%rcx)
	addq	$4, %rcx
	cmpq	%rcx, %r15
	jne	.Ldcsctp_BB0_286
	jmp	.Ldcsctp_BB0_287
.Ldcsctp_BB0_184:
	movq	%r12, %rcx
	movq	%r14, %rdx
	movq	%r15, %r8
	callq	memmove
	movq	56(%rsp), %r9
.Ldcsctp_BB0_287:
	movq	%rbx, %rax
	shlq	$6, %rax
	movq	72(%rsp), %rcx
	movw	$10, (%rcx,%rax)
	movl	$0, 4(%rcx,%rax)
	movq	%r12, 8(%rcx,%rax)
	movq	%rcx, %r12
	movq	%r15, 16(%rcx,%rax)
	movq	%r15, 24(%rcx,%rax)
	pxor	%xmm0, %xmm0
	movdqu	%xmm0, 32(%rcx,%rax)
	movdqu	%xmm0, 48(%rcx,%rax)
	jmp	.Ldcsctp_BB0_288
.Ldcsctp_BB0_217:
	xorl	%r14d, %r14d
.Ldcsctp_BB0_229:
	pshufb	.Ldcsctp_CPI0_3(%rip), %xmm6
	movq	%rbx, %rax
	shlq	$6, %rax
	movq	72(%rsp), %rcx
	movw	$3, (%rcx,%rax)
	movl	$0, 4(%rcx,%rax)
	movq	%xmm6, 8(%rcx,%rax)
	movq	%r12, 16(%rcx,%rax)
	movq	%rcx, %r12
	movq	48(%rsp), %rcx
	movq	%rcx, 24(%r12,%rax)
	movq	%rcx, 32(%r12,%rax)
	movq	%r15, 40(%r12,%rax)
	movq	%r14, 48(%r12,%rax)
	movq	%r14, 56(%r12,%rax)
	xorl	%eax, %eax
	movq	56(%rsp), %r9
	jmp	.Ldcsctp_BB0_289
.Ldcsctp_BB0_185:
	leaq	40(%rsp), %rdx
	movq	%r15, %r9
	jmp	.Ldcsctp_BB0_196
.Ldcsctp_BB0_186:
	leaq	40(%rsp), %rdx
.Ldcsctp_BB0_187:
	movl	(%r12), %eax
	bswapl	%eax
	movq	%rbx, %rcx
	shlq	$6, %rcx
	movq	72(%rsp), %r12
	movw	$16, (%r12,%rcx)
	movl	$0, 4(%r12,%rcx)
	movl	%eax, 8(%r12,%rcx)
	movl	$0, 12(%r12,%rcx)
	movq	%rdx, 16(%r12,%rcx)
	movq	%r14, 24(%r12,%rcx)
	movq	%r14, 32(%r12,%rcx)
	pxor	%xmm0, %xmm0
	movdqu	%xmm0, 40(%r12,%rcx)
	movq	$0, 56(%r12,%rcx)
	xorl	%eax, %eax
	movq	%r15, %r9
	jmp	.Ldcsctp_BB0_289
.Ldcsctp_BB0_192:
	movabsq	$1152921504606846974, %rcx
	andq	%r14, %rcx
	xorl	%eax, %eax
	movq	%rdx, %r8
	movq	%r15, %r9
.Ldcsctp_BB0_193:
	movd	8(%r9,%rax,4), %xmm0
	movdqa	.Ldcsctp_CPI0_2(%rip), %xmm1
	pshufb	%xmm1, %xmm0
	movw	$0, (%r8)
	movd	%xmm0, 2(%r8)
	movl	$0, 8(%r8)
	movd	12(%r9,%rax,4), %xmm0
	pshufb	%xmm1, %xmm0
	movw	$0, 12(%r8)
	movd	%xmm0, 14(%r8)
	movl	$0, 20(%r8)
	addq	$2, %rax
	addq	$24, %r8
	cmpq	%rax, %rcx
	jne	.Ldcsctp_BB0_193
	testb	$1, %r14b
	je	.Ldcsctp_BB0_196
.Ldcsctp_BB0_195:
	movd	8(%r9,%rax,4), %xmm0
	pshufb	.Ldcsctp_CPI0_0(%rip), %xmm0
	leaq	(%rax,%rax,2), %rax
	movw	$0, (%rdx,%rax,4)
	movd	%xmm0, 2(%rdx,%rax,4)
	movl	$0, 8(%rdx,%rax,4)
.Ldcsctp_BB0_196:
	movl	(%r12), %eax
	bswapl	%eax
	movq	%rbx, %rcx
	shlq	$6, %rcx
	movq	72(%rsp), %r12
	movw	$15, (%r12,%rcx)
	movl	$0, 4(%r12,%rcx)
	movl	%eax, 8(%r12,%rcx)
	movl	$0, 12(%r12,%rcx)
	movq	%rdx, 16(%r12,%rcx)
	movq	%r14, 24(%r12,%rcx)
	movq	%r14, 32(%r12,%rcx)
	pxor	%xmm0, %xmm0
	movdqu	%xmm0, 40(%r12,%rcx)
	movq	$0, 56(%r12,%rcx)
.Ldcsctp_BB0_288:
	xorl	%eax, %eax
.Ldcsctp_BB0_289:
	movq	64(%rsp), %r11
	jmp	.Ldcsctp_BB0_115
.Ldcsctp_BB0_203:
	cmpl	$32, 48(%rsp)
	jae	.Ldcsctp_BB0_236
	xorl	%eax, %eax
	movq	48(%rsp), %r15
	jmp	.Ldcsctp_BB0_240
.Ldcsctp_BB0_205:
	movq	48(%rsp), %rax
	andl	$-8, %eax
	movl	%r14d, %ecx
	shrl	$14, %ecx
	andl	$-32, %ecx
	xorl	%edx, %edx
	movq	56(%rsp), %r8
.Ldcsctp_BB0_206:
	movdqu	16(%r8,%rdx), %xmm0
	movdqu	32(%r8,%rdx), %xmm1
	movdqa	.Ldcsctp_CPI0_2(%rip), %xmm2
	pshufb	%xmm2, %xmm0
	pshufb	%xmm2, %xmm1
	movdqu	%xmm0, (%r12,%rdx)
	movdqu	%xmm1, 16(%r12,%rdx)
	addq	$32, %rdx
	cmpq	%rdx, %rcx
	jne	.Ldcsctp_BB0_206
	cmpl	48(%rsp), %eax
	je	.Ldcsctp_BB0_213
	jmp	.Ldcsctp_BB0_208
.Ldcsctp_BB0_220:
	movl	%r14d, %eax
	andl	$-8, %eax
	leal	(,%r14,4), %ecx
	andl	$-32, %ecx
	movq	56(%rsp), %rdx
	movq	104(%rsp), %r8
	addq	%r8, %rdx
	addq	$32, %rdx
	xorl	%r8d, %r8d
.Ldcsctp_BB0_221:
	movdqa	.Ldcsctp_CPI0_3(%rip), %xmm0
	movdqu	-16(%rdx,%r8), %xmm1
	movdqu	(%rdx,%r8), %xmm2
	pshufb	%xmm0, %xmm1
	pshufb	%xmm0, %xmm2
	movdqu	%xmm1, (%r15,%r8)
	movdqu	%xmm2, 16(%r15,%r8)
	addq	$32, %r8
	cmpq	%r8, %rcx
	jne	.Ldcsctp_BB0_221
	cmpl	%r14d, %eax
	je	.Ldcsctp_BB0_229
	jmp	.Ldcsctp_BB0_223
.Ldcsctp_BB0_230:
	cmpq	$32, %r12
	jae	.Ldcsctp_BB0_249
	xorl	%eax, %eax
	jmp	.Ldcsctp_BB0_253
.Ldcsctp_BB0_232:
	cmpq	$32, %r12
	jae	.Ldcsctp_BB0_262
	xorl	%eax, %eax
	jmp	.Ldcsctp_BB0_266
.Ldcsctp_BB0_234:
	cmpl	$32, 48(%rsp)
	jae	.Ldcsctp_BB0_275
	xorl	%eax, %eax
	movq	48(%rsp), %r15
	jmp	.Ldcsctp_BB0_279
.Ldcsctp_BB0_236:
	movq	48(%rsp), %rax
	andq	$-32, %rax
	xorl	%ecx, %ecx
	movq	56(%rsp), %r9
.Ldcsctp_BB0_237:
	movdqu	4(%r9,%rcx), %xmm0
	movdqu	20(%r9,%rcx), %xmm1
	movdqu	%xmm0, (%r12,%rcx)
	movdqu	%xmm1, 16(%r12,%rcx)
	addq	$32, %rcx
	cmpq	%rcx, %rax
	jne	.Ldcsctp_BB0_237
	movq	48(%rsp), %r15
	cmpl	%eax, %r15d
	je	.Ldcsctp_BB0_248
	testb	$28, %r15b
	je	.Ldcsctp_BB0_243
.Ldcsctp_BB0_240:
	movq	%rax, %rcx
	movq	%r15, %rax
	andq	$-4, %rax
	movq	128(%rsp), %r8
.Ldcsctp_BB0_241:
	movl	(%r8,%rcx), %edx
	movl	%edx, (%r12,%rcx)
	addq	$4, %rcx
	cmpq	%rcx, %rax
	jne	.Ldcsctp_BB0_241
	movq	48(%rsp), %r15
	cmpl	%eax, %r15d
	movq	56(%rsp), %r9
	je	.Ldcsctp_BB0_248
	jmp	.Ldcsctp_BB0_243
.Ldcsctp_BB0_249:
	movq	%r12, %rax
	andq	$-32, %rax
	xorl	%ecx, %ecx
	movq	%r14, %r9
.Ldcsctp_BB0_250:
	movdqu	16(%r9,%rcx), %xmm0
	movdqu	32(%r9,%rcx), %xmm1
	movdqu	%xmm0, (%r15,%rcx)
	movdqu	%xmm1, 16(%r15,%rcx)
	addq	$32, %rcx
	cmpq	%rcx, %rax
	jne	.Ldcsctp_BB0_250
	cmpq	%rax, %r12
	je	.Ldcsctp_BB0_261
	testb	$28, %r12b
	je	.Ldcsctp_BB0_256
.Ldcsctp_BB0_253:
	movq	%rax, %rcx
	movq	%r12, %rax
	andq	$-4, %rax
.Ldcsctp_BB0_254:
	movl	(%rdx,%rcx), %r8d
	movl	%r8d, (%r15,%rcx)
	addq	$4, %rcx
	cmpq	%rcx, %rax
	jne	.Ldcsctp_BB0_254
	cmpq	%rax, %r12
	movq	%r14, %r9
	je	.Ldcsctp_BB0_261
	jmp	.Ldcsctp_BB0_256
.Ldcsctp_BB0_262:
	movq	%r12, %rax
	andq	$-32, %rax
	xorl	%ecx, %ecx
	movq	56(%rsp), %r9
.Ldcsctp_BB0_263:
	movdqu	20(%r9,%rcx), %xmm0
	movdqu	36(%r9,%rcx), %xmm1
	movdqu	%xmm0, (%r15,%rcx)
	movdqu	%xmm1, 16(%r15,%rcx)
	addq	$32, %rcx
	cmpq	%rcx, %rax
	jne	.Ldcsctp_BB0_263
	cmpq	%rax, %r12
	je	.Ldcsctp_BB0_274
	testb	$28, %r12b
	je	.Ldcsctp_BB0_269
.Ldcsctp_BB0_266:
	movq	%rax, %rcx
	movq	%r12, %rax
	andq	$-4, %rax
.Ldcsctp_BB0_267:
	movl	(%rdx,%rcx), %r8d
	movl	%r8d, (%r15,%rcx)
	addq	$4, %rcx
	cmpq	%rcx, %rax
	jne	.Ldcsctp_BB0_267
	cmpq	%rax, %r12
	movq	56(%rsp), %r9
	je	.Ldcsctp_BB0_274
	jmp	.Ldcsctp_BB0_269
.Ldcsctp_BB0_275:
	movq	48(%rsp), %rax
	andq	$-32, %rax
	xorl	%ecx, %ecx
	movq	56(%rsp), %r9
.Ldcsctp_BB0_276:
	movdqu	4(%r9,%rcx), %xmm0
	movdqu	20(%r9,%rcx), %xmm1
	movdqu	%xmm0, (%r12,%rcx)
	movdqu	%xmm1, 16(%r12,%rcx)
	addq	$32, %rcx
	cmpq	%rcx, %rax
	jne	.Ldcsctp_BB0_276
	movq	48(%rsp), %r15
	cmpl	%eax, %r15d
	je	.Ldcsctp_BB0_287
	testb	$28, %r15b
	je	.Ldcsctp_BB0_282
.Ldcsctp_BB0_279:
	movq	%rax, %rcx
	movq	%r15, %rax
	andq	$-4, %rax
	movq	%r14, %r8
.Ldcsctp_BB0_280:
	movl	(%r8,%rcx), %edx
	movl	%edx, (%r12,%rcx)
	addq	$4, %rcx
	cmpq	%rcx, %rax
	jne	.Ldcsctp_BB0_280
	movq	48(%rsp), %r15
	cmpl	%eax, %r15d
	movq	56(%rsp), %r9
	je	.Ldcsctp_BB0_287
	jmp	.Ldcsctp_BB0_282
.Ldcsctp_BB0_290:
	movd	(%rsi), %xmm0
	pshufb	.Ldcsctp_CPI0_0(%rip), %xmm0
	movq	4(%rsi), %xmm1
	pshufb	.Ldcsctp_CPI0_1(%rip), %xmm1
	movq	%r12, 256(%rsp)
	movq	%rbx, 264(%rsp)
	movq	112(%rsp), %rax
	movq	%rax, 272(%rsp)
	movd	%xmm0, 280(%rsp)
	movq	%xmm1, 284(%rsp)
	movl	$0, 292(%rsp)
	leaq	160(%rsp), %rcx
	leaq	256(%rsp), %rdx
	callq	sctp_show.text.text_of
	cmpb	$0, 160(%rsp)
	je	.Ldcsctp_BB0_292
	movq	272(%rsp), %rax
	movq	%rax, 240(%rsp)
	movdqa	256(%rsp), %xmm0
	movdqa	%xmm0, 224(%rsp)
	leaq	224(%rsp), %rcx
	callq	std_alloc.vec.Vec.drop.5e412c9b2b6de7d3
	jmp	.Ldcsctp_BB0_339
.Ldcsctp_BB0_292:
	movq	272(%rsp), %rax
	movq	%rax, 208(%rsp)
	movdqa	256(%rsp), %xmm0
	movdqa	%xmm0, 192(%rsp)
	leaq	192(%rsp), %rcx
	callq	std_alloc.vec.Vec.drop.5e412c9b2b6de7d3
	movq	%rsi, %rcx
	callq	rattle_dealloc
	movq	168(%rsp), %rsi
	movq	176(%rsp), %r14
	movq	184(%rsp), %rbx
	testq	%r14, %r14
	je	.Ldcsctp_BB0_298
	xorl	%r15d, %r15d
.Ldcsctp_BB0_294:
	leaq	(%rsi,%r15), %rdx
	movq	%r14, %rdi
	subq	%r15, %rdi
	movl	$1, %ecx
	movq	%rdi, %r8
	callq	rattle_write
	testq	%rax, %rax
	js	.Ldcsctp_BB0_299
	cmpq	%rdi, %rax
	cmovbq	%rax, %rdi
	testq	%rdi, %rdi
	je	.Ldcsctp_BB0_300
	addq	%rdi, %r15
	cmpq	%r14, %r15
	jb	.Ldcsctp_BB0_294
.Ldcsctp_BB0_298:
	xorl	%edi, %edi
	jmp	.Ldcsctp_BB0_301
.Ldcsctp_BB0_299:
	leaq	256(%rsp), %rcx
	callq	std_io.io.error.last_error
.Ldcsctp_BB0_300:
	movb	$2, %dil
.Ldcsctp_BB0_301:
	testq	%rbx, %rbx
	je	.Ldcsctp_BB0_71
	movq	%rsi, %rcx
	callq	rattle_dealloc
	jmp	.Ldcsctp_BB0_71
.Ldcsctp_BB0_309:
	cmpq	$0, 48(%rsp)
	je	.Ldcsctp_BB0_318
	movq	%r12, %rcx
	callq	rattle_dealloc
.Ldcsctp_BB0_318:
	movq	72(%rsp), %r12
.Ldcsctp_BB0_319:
	testq	%rbx, %rbx
	je	.Ldcsctp_BB0_337
	movq	%r12, %r14
	jmp	.Ldcsctp_BB0_324
.Ldcsctp_BB0_321:
	testq	%r8, %r8
	je	.Ldcsctp_BB0_323
.Ldcsctp_BB0_322:
	callq	rattle_dealloc
.Ldcsctp_BB0_323:
	addq	$64, %r14
	decq	%rbx
	je	.Ldcsctp_BB0_337
.Ldcsctp_BB0_324:
	movzbl	(%r14), %r9d
	movq	8(%r14), %rax
	movq	16(%r14), %rcx
	movq	24(%r14), %rdx
	movq	32(%r14), %r8
	movq	40(%r14), %rdi
	leaq	.Ldcsctp_JTI0_2(%rip), %r10
	movslq	(%r10,%r9,4), %r9
	addq	%r10, %r9
	jmpq	*%r9
.Ldcsctp_BB0_325:
	testq	%rdx, %rdx
	je	.Ldcsctp_BB0_323
	movq	%rax, %rcx
	jmp	.Ldcsctp_BB0_322
.Ldcsctp_BB0_327:
	movq	%rax, 80(%rsp)
	movq	%rcx, 88(%rsp)
	movq	%rdx, 96(%rsp)
	jmp	.Ldcsctp_BB0_329
.Ldcsctp_BB0_328:
	movq	%rdx, 80(%rsp)
	movq	%r8, 88(%rsp)
	movq	%rdi, 96(%rsp)
.Ldcsctp_BB0_329:
	leaq	80(%rsp), %rcx
	callq	std_alloc.vec.Vec.drop.765a829dcb308622
	jmp	.Ldcsctp_BB0_323
.Ldcsctp_BB0_330:
	movq	%rax, 80(%rsp)
	movq	%rcx, 88(%rsp)
	movq	%rdx, 96(%rsp)
	jmp	.Ldcsctp_BB0_336
.Ldcsctp_BB0_331:
	movq	56(%r14), %r15
	testq	%r8, %r8
	je	.Ldcsctp_BB0_333
	callq	rattle_dealloc
.Ldcsctp_BB0_333:
	testq	%r15, %r15
	je	.Ldcsctp_BB0_323
	movq	%rdi, %rcx
	jmp	.Ldcsctp_BB0_322
.Ldcsctp_BB0_335:
	movq	%rcx, 80(%rsp)
	movq	%rdx, 88(%rsp)
	movq	%r8, 96(%rsp)
.Ldcsctp_BB0_336:
	leaq	80(%rsp), %rcx
	callq	std_alloc.vec.Vec.drop.694f3e952ffd1e0b
	jmp	.Ldcsctp_BB0_323
.Ldcsctp_BB0_337:
	cmpq	$0, 112(%rsp)
	je	.Ldcsctp_BB0_339
	movq	%r12, %rcx
	callq	rattle_dealloc
.Ldcsctp_BB0_339:
	movq	%rsi, %rcx
	callq	rattle_dealloc
	jmp	.Ldcsctp_BB0_64
	.section	.rdata,"dr"
	.p2align	2, 0x0
.Ldcsctp_JTI0_0:
	.long	.Ldcsctp_BB0_98-.Ldcsctp_JTI0_0
	.long	.Ldcsctp_BB0_89-.Ldcsctp_JTI0_0
	.long	.Ldcsctp_BB0_89-.Ldcsctp_JTI0_0
	.long	.Ldcsctp_BB0_99-.Ldcsctp_JTI0_0
	.long	.Ldcsctp_BB0_82-.Ldcsctp_JTI0_0
	.long	.Ldcsctp_BB0_82-.Ldcsctp_JTI0_0
	.long	.Ldcsctp_BB0_93-.Ldcsctp_JTI0_0
	.long	.Ldcsctp_BB0_88-.Ldcsctp_JTI0_0
	.long	.Ldcsctp_BB0_83-.Ldcsctp_JTI0_0
	.long	.Ldcsctp_BB0_92-.Ldcsctp_JTI0_0
	.long	.Ldcsctp_BB0_97-.Ldcsctp_JTI0_0
	.long	.Ldcsctp_BB0_83-.Ldcsctp_JTI0_0
	.long	.Ldcsctp_BB0_76-.Ldcsctp_JTI0_0
	.long	.Ldcsctp_BB0_76-.Ldcsctp_JTI0_0
	.long	.Ldcsctp_BB0_83-.Ldcsctp_JTI0_0
	.long	.Ldcsctp_BB0_76-.Ldcsctp_JTI0_0
	.long	.Ldcsctp_BB0_76-.Ldcsctp_JTI0_0
	.long	.Ldcsctp_BB0_76-.Ldcsctp_JTI0_0
	.long	.Ldcsctp_BB0_76-.Ldcsctp_JTI0_0
	.long	.Ldcsctp_BB0_76-.Ldcsctp_JTI0_0
	.long	.Ldcsctp_BB0_76-.Ldcsctp_JTI0_0
	.long	.Ldcsctp_BB0_76-.Ldcsctp_JTI0_0
	.long	.Ldcsctp_BB0_76-.Ldcsctp_JTI0_0
	.long	.Ldcsctp_BB0_76-.Ldcsctp_JTI0_0
	.long	.Ldcsctp_BB0_76-.Ldcsctp_JTI0_0
	.long	.Ldcsctp_BB0_76-.Ldcsctp_JTI0_0
	.long	.Ldcsctp_BB0_76-.Ldcsctp_JTI0_0
	.long	.Ldcsctp_BB0_76-.Ldcsctp_JTI0_0
	.long	.Ldcsctp_BB0_76-.Ldcsctp_JTI0_0
	.long	.Ldcsctp_BB0_76-.Ldcsctp_JTI0_0
	.long	.Ldcsctp_BB0_76-.Ldcsctp_JTI0_0
	.long	.Ldcsctp_BB0_76-.Ldcsctp_JTI0_0
	.long	.Ldcsctp_BB0_76-.Ldcsctp_JTI0_0
	.long	.Ldcsctp_BB0_76-.Ldcsctp_JTI0_0
	.long	.Ldcsctp_BB0_76-.Ldcsctp_JTI0_0
	.long	.Ldcsctp_BB0_76-.Ldcsctp_JTI0_0
	.long	.Ldcsctp_BB0_76-.Ldcsctp_JTI0_0
	.long	.Ldcsctp_BB0_76-.Ldcsctp_JTI0_0
	.long	.Ldcsctp_BB0_76-.Ldcsctp_JTI0_0
	.long	.Ldcsctp_BB0_76-.Ldcsctp_JTI0_0
	.long	.Ldcsctp_BB0_76-.Ldcsctp_JTI0_0
	.long	.Ldcsctp_BB0_76-.Ldcsctp_JTI0_0
	.long	.Ldcsctp_BB0_76-.Ldcsctp_JTI0_0
	.long	.Ldcsctp_BB0_76-.Ldcsctp_JTI0_0
	.long	.Ldcsctp_BB0_76-.Ldcsctp_JTI0_0
	.long	.Ldcsctp_BB0_76-.Ldcsctp_JTI0_0
	.long	.Ldcsctp_BB0_76-.Ldcsctp_JTI0_0
	.long	.Ldcsctp_BB0_76-.Ldcsctp_JTI0_0
	.long	.Ldcsctp_BB0_76-.Ldcsctp_JTI0_0
	.long	.Ldcsctp_BB0_76-.Ldcsctp_JTI0_0
	.long	.Ldcsctp_BB0_76-.Ldcsctp_JTI0_0
	.long	.Ldcsctp_BB0_76-.Ldcsctp_JTI0_0
	.long	.Ldcsctp_BB0_76-.Ldcsctp_JTI0_0
	.long	.Ldcsctp_BB0_76-.Ldcsctp_JTI0_0
	.long	.Ldcsctp_BB0_76-.Ldcsctp_JTI0_0
	.long	.Ldcsctp_BB0_76-.Ldcsctp_JTI0_0
	.long	.Ldcsctp_BB0_76-.Ldcsctp_JTI0_0
	.long	.Ldcsctp_BB0_76-.Ldcsctp_JTI0_0
	.long	.Ldcsctp_BB0_76-.Ldcsctp_JTI0_0
	.long	.Ldcsctp_BB0_76-.Ldcsctp_JTI0_0
	.long	.Ldcsctp_BB0_76-.Ldcsctp_JTI0_0
	.long	.Ldcsctp_BB0_76-.Ldcsctp_JTI0_0
	.long	.Ldcsctp_BB0_76-.Ldcsctp_JTI0_0
	.long	.Ldcsctp_BB0_76-.Ldcsctp_JTI0_0
	.long	.Ldcsctp_BB0_96-.Ldcsctp_JTI0_0
	.long	.Ldcsctp_BB0_76-.Ldcsctp_JTI0_0
	.long	.Ldcsctp_BB0_76-.Ldcsctp_JTI0_0
	.long	.Ldcsctp_BB0_76-.Ldcsctp_JTI0_0
	.long	.Ldcsctp_BB0_76-.Ldcsctp_JTI0_0
	.long	.Ldcsctp_BB0_76-.Ldcsctp_JTI0_0
	.long	.Ldcsctp_BB0_76-.Ldcsctp_JTI0_0
	.long	.Ldcsctp_BB0_76-.Ldcsctp_JTI0_0
	.long	.Ldcsctp_BB0_76-.Ldcsctp_JTI0_0
	.long	.Ldcsctp_BB0_76-.Ldcsctp_JTI0_0
	.long	.Ldcsctp_BB0_76-.Ldcsctp_JTI0_0
	.long	.Ldcsctp_BB0_76-.Ldcsctp_JTI0_0
	.long	.Ldcsctp_BB0_76-.Ldcsctp_JTI0_0
	.long	.Ldcsctp_BB0_76-.Ldcsctp_JTI0_0
	.long	.Ldcsctp_BB0_76-.Ldcsctp_JTI0_0
	.long	.Ldcsctp_BB0_76-.Ldcsctp_JTI0_0
	.long	.Ldcsctp_BB0_76-.Ldcsctp_JTI0_0
	.long	.Ldcsctp_BB0_76-.Ldcsctp_JTI0_0
	.long	.Ldcsctp_BB0_76-.Ldcsctp_JTI0_0
	.long	.Ldcsctp_BB0_76-.Ldcsctp_JTI0_0
	.long	.Ldcsctp_BB0_76-.Ldcsctp_JTI0_0
	.long	.Ldcsctp_BB0_76-.Ldcsctp_JTI0_0
	.long	.Ldcsctp_BB0_76-.Ldcsctp_JTI0_0
	.long	.Ldcsctp_BB0_76-.Ldcsctp_JTI0_0
	.long	.Ldcsctp_BB0_76-.Ldcsctp_JTI0_0
	.long	.Ldcsctp_BB0_76-.Ldcsctp_JTI0_0
	.long	.Ldcsctp_BB0_76-.Ldcsctp_JTI0_0
	.long	.Ldcsctp_BB0_76-.Ldcsctp_JTI0_0
	.long	.Ldcsctp_BB0_76-.Ldcsctp_JTI0_0
	.long	.Ldcsctp_BB0_76-.Ldcsctp_JTI0_0
	.long	.Ldcsctp_BB0_76-.Ldcsctp_JTI0_0
	.long	.Ldcsctp_BB0_76-.Ldcsctp_JTI0_0
	.long	.Ldcsctp_BB0_76-.Ldcsctp_JTI0_0
	.long	.Ldcsctp_BB0_76-.Ldcsctp_JTI0_0
	.long	.Ldcsctp_BB0_76-.Ldcsctp_JTI0_0
	.long	.Ldcsctp_BB0_76-.Ldcsctp_JTI0_0
	.long	.Ldcsctp_BB0_76-.Ldcsctp_JTI0_0
	.long	.Ldcsctp_BB0_76-.Ldcsctp_JTI0_0
	.long	.Ldcsctp_BB0_76-.Ldcsctp_JTI0_0
	.long	.Ldcsctp_BB0_76-.Ldcsctp_JTI0_0
	.long	.Ldcsctp_BB0_76-.Ldcsctp_JTI0_0
	.long	.Ldcsctp_BB0_76-.Ldcsctp_JTI0_0
	.long	.Ldcsctp_BB0_76-.Ldcsctp_JTI0_0
	.long	.Ldcsctp_BB0_76-.Ldcsctp_JTI0_0
	.long	.Ldcsctp_BB0_76-.Ldcsctp_JTI0_0
	.long	.Ldcsctp_BB0_76-.Ldcsctp_JTI0_0
	.long	.Ldcsctp_BB0_76-.Ldcsctp_JTI0_0
	.long	.Ldcsctp_BB0_76-.Ldcsctp_JTI0_0
	.long	.Ldcsctp_BB0_76-.Ldcsctp_JTI0_0
	.long	.Ldcsctp_BB0_76-.Ldcsctp_JTI0_0
	.long	.Ldcsctp_BB0_76-.Ldcsctp_JTI0_0
	.long	.Ldcsctp_BB0_76-.Ldcsctp_JTI0_0
	.long	.Ldcsctp_BB0_76-.Ldcsctp_JTI0_0
	.long	.Ldcsctp_BB0_76-.Ldcsctp_JTI0_0
	.long	.Ldcsctp_BB0_76-.Ldcsctp_JTI0_0
	.long	.Ldcsctp_BB0_76-.Ldcsctp_JTI0_0
	.long	.Ldcsctp_BB0_76-.Ldcsctp_JTI0_0
	.long	.Ldcsctp_BB0_76-.Ldcsctp_JTI0_0
	.long	.Ldcsctp_BB0_76-.Ldcsctp_JTI0_0
	.long	.Ldcsctp_BB0_76-.Ldcsctp_JTI0_0
	.long	.Ldcsctp_BB0_76-.Ldcsctp_JTI0_0
	.long	.Ldcsctp_BB0_76-.Ldcsctp_JTI0_0
	.long	.Ldcsctp_BB0_76-.Ldcsctp_JTI0_0
	.long	.Ldcsctp_BB0_76-.Ldcsctp_JTI0_0
	.long	.Ldcsctp_BB0_76-.Ldcsctp_JTI0_0
	.long	.Ldcsctp_BB0_76-.Ldcsctp_JTI0_0
	.long	.Ldcsctp_BB0_82-.Ldcsctp_JTI0_0
.Ldcsctp_JTI0_1:
	.long	.Ldcsctp_BB0_119-.Ldcsctp_JTI0_1
	.long	.Ldcsctp_BB0_137-.Ldcsctp_JTI0_1
	.long	.Ldcsctp_BB0_144-.Ldcsctp_JTI0_1
	.long	.Ldcsctp_BB0_146-.Ldcsctp_JTI0_1
	.long	.Ldcsctp_BB0_150-.Ldcsctp_JTI0_1
	.long	.Ldcsctp_BB0_152-.Ldcsctp_JTI0_1
	.long	.Ldcsctp_BB0_142-.Ldcsctp_JTI0_1
	.long	.Ldcsctp_BB0_151-.Ldcsctp_JTI0_1
	.long	.Ldcsctp_BB0_136-.Ldcsctp_JTI0_1
	.long	.Ldcsctp_BB0_134-.Ldcsctp_JTI0_1
	.long	.Ldcsctp_BB0_153-.Ldcsctp_JTI0_1
	.long	.Ldcsctp_BB0_157-.Ldcsctp_JTI0_1
	.long	.Ldcsctp_BB0_130-.Ldcsctp_JTI0_1
	.long	.Ldcsctp_BB0_130-.Ldcsctp_JTI0_1
	.long	.Ldcsctp_BB0_135-.Ldcsctp_JTI0_1
	.long	.Ldcsctp_BB0_130-.Ldcsctp_JTI0_1
	.long	.Ldcsctp_BB0_130-.Ldcsctp_JTI0_1
	.long	.Ldcsctp_BB0_130-.Ldcsctp_JTI0_1
	.long	.Ldcsctp_BB0_130-.Ldcsctp_JTI0_1
	.long	.Ldcsctp_BB0_130-.Ldcsctp_JTI0_1
	.long	.Ldcsctp_BB0_130-.Ldcsctp_JTI0_1
	.long	.Ldcsctp_BB0_130-.Ldcsctp_JTI0_1
	.long	.Ldcsctp_BB0_130-.Ldcsctp_JTI0_1
	.long	.Ldcsctp_BB0_130-.Ldcsctp_JTI0_1
	.long	.Ldcsctp_BB0_130-.Ldcsctp_JTI0_1
	.long	.Ldcsctp_BB0_130-.Ldcsctp_JTI0_1
	.long	.Ldcsctp_BB0_130-.Ldcsctp_JTI0_1
	.long	.Ldcsctp_BB0_130-.Ldcsctp_JTI0_1
	.long	.Ldcsctp_BB0_130-.Ldcsctp_JTI0_1
	.long	.Ldcsctp_BB0_130-.Ldcsctp_JTI0_1
	.long	.Ldcsctp_BB0_130-.Ldcsctp_JTI0_1
	.long	.Ldcsctp_BB0_130-.Ldcsctp_JTI0_1
	.long	.Ldcsctp_BB0_130-.Ldcsctp_JTI0_1
	.long	.Ldcsctp_BB0_130-.Ldcsctp_JTI0_1
	.long	.Ldcsctp_BB0_130-.Ldcsctp_JTI0_1
	.long	.Ldcsctp_BB0_130-.Ldcsctp_JTI0_1
	.long	.Ldcsctp_BB0_130-.Ldcsctp_JTI0_1
	.long	.Ldcsctp_BB0_130-.Ldcsctp_JTI0_1
	.long	.Ldcsctp_BB0_130-.Ldcsctp_JTI0_1
	.long	.Ldcsctp_BB0_130-.Ldcsctp_JTI0_1
	.long	.Ldcsctp_BB0_130-.Ldcsctp_JTI0_1
	.long	.Ldcsctp_BB0_130-.Ldcsctp_JTI0_1
	.long	.Ldcsctp_BB0_130-.Ldcsctp_JTI0_1
	.long	.Ldcsctp_BB0_130-.Ldcsctp_JTI0_1
	.long	.Ldcsctp_BB0_130-.Ldcsctp_JTI0_1
	.long	.Ldcsctp_BB0_130-.Ldcsctp_JTI0_1
	.long	.Ldcsctp_BB0_130-.Ldcsctp_JTI0_1
	.long	.Ldcsctp_BB0_130-.Ldcsctp_JTI0_1
	.long	.Ldcsctp_BB0_130-.Ldcsctp_JTI0_1
	.long	.Ldcsctp_BB0_130-.Ldcsctp_JTI0_1
	.long	.Ldcsctp_BB0_130-.Ldcsctp_JTI0_1
	.long	.Ldcsctp_BB0_130-.Ldcsctp_JTI0_1
	.long	.Ldcsctp_BB0_130-.Ldcsctp_JTI0_1
	.long	.Ldcsctp_BB0_130-.Ldcsctp_JTI0_1
	.long	.Ldcsctp_BB0_130-.Ldcsctp_JTI0_1
	.long	.Ldcsctp_BB0_130-.Ldcsctp_JTI0_1
	.long	.Ldcsctp_BB0_130-.Ldcsctp_JTI0_1
	.long	.Ldcsctp_BB0_130-.Ldcsctp_JTI0_1
	.long	.Ldcsctp_BB0_130-.Ldcsctp_JTI0_1
	.long	.Ldcsctp_BB0_130-.Ldcsctp_JTI0_1
	.long	.Ldcsctp_BB0_130-.Ldcsctp_JTI0_1
	.long	.Ldcsctp_BB0_130-.Ldcsctp_JTI0_1
	.long	.Ldcsctp_BB0_130-.Ldcsctp_JTI0_1
	.long	.Ldcsctp_BB0_130-.Ldcsctp_JTI0_1
	.long	.Ldcsctp_BB0_138-.Ldcsctp_JTI0_1
	.long	.Ldcsctp_BB0_130-.Ldcsctp_JTI0_1
	.long	.Ldcsctp_BB0_130-.Ldcsctp_JTI0_1
	.long	.Ldcsctp_BB0_130-.Ldcsctp_JTI0_1
	.long	.Ldcsctp_BB0_130-.Ldcsctp_JTI0_1
	.long	.Ldcsctp_BB0_130-.Ldcsctp_JTI0_1
	.long	.Ldcsctp_BB0_130-.Ldcsctp_JTI0_1
	.long	.Ldcsctp_BB0_130-.Ldcsctp_JTI0_1
	.long	.Ldcsctp_BB0_130-.Ldcsctp_JTI0_1
	.long	.Ldcsctp_BB0_130-.Ldcsctp_JTI0_1
	.long	.Ldcsctp_BB0_130-.Ldcsctp_JTI0_1
	.long	.Ldcsctp_BB0_130-.Ldcsctp_JTI0_1
	.long	.Ldcsctp_BB0_130-.Ldcsctp_JTI0_1
	.long	.Ldcsctp_BB0_130-.Ldcsctp_JTI0_1
	.long	.Ldcsctp_BB0_130-.Ldcsctp_JTI0_1
	.long	.Ldcsctp_BB0_130-.Ldcsctp_JTI0_1
	.long	.Ldcsctp_BB0_130-.Ldcsctp_JTI0_1
	.long	.Ldcsctp_BB0_130-.Ldcsctp_JTI0_1
	.long	.Ldcsctp_BB0_130-.Ldcsctp_JTI0_1
	.long	.Ldcsctp_BB0_130-.Ldcsctp_JTI0_1
	.long	.Ldcsctp_BB0_130-.Ldcsctp_JTI0_1
	.long	.Ldcsctp_BB0_130-.Ldcsctp_JTI0_1
	.long	.Ldcsctp_BB0_130-.Ldcsctp_JTI0_1
	.long	.Ldcsctp_BB0_130-.Ldcsctp_JTI0_1
	.long	.Ldcsctp_BB0_130-.Ldcsctp_JTI0_1
	.long	.Ldcsctp_BB0_130-.Ldcsctp_JTI0_1
	.long	.Ldcsctp_BB0_130-.Ldcsctp_JTI0_1
	.long	.Ldcsctp_BB0_130-.Ldcsctp_JTI0_1
	.long	.Ldcsctp_BB0_130-.Ldcsctp_JTI0_1
	.long	.Ldcsctp_BB0_130-.Ldcsctp_JTI0_1
	.long	.Ldcsctp_BB0_130-.Ldcsctp_JTI0_1
	.long	.Ldcsctp_BB0_130-.Ldcsctp_JTI0_1
	.long	.Ldcsctp_BB0_130-.Ldcsctp_JTI0_1
	.long	.Ldcsctp_BB0_130-.Ldcsctp_JTI0_1
	.long	.Ldcsctp_BB0_130-.Ldcsctp_JTI0_1
	.long	.Ldcsctp_BB0_130-.Ldcsctp_JTI0_1
	.long	.Ldcsctp_BB0_130-.Ldcsctp_JTI0_1
	.long	.Ldcsctp_BB0_130-.Ldcsctp_JTI0_1
	.long	.Ldcsctp_BB0_130-.Ldcsctp_JTI0_1
	.long	.Ldcsctp_BB0_130-.Ldcsctp_JTI0_1
	.long	.Ldcsctp_BB0_130-.Ldcsctp_JTI0_1
	.long	.Ldcsctp_BB0_130-.Ldcsctp_JTI0_1
	.long	.Ldcsctp_BB0_130-.Ldcsctp_JTI0_1
	.long	.Ldcsctp_BB0_130-.Ldcsctp_JTI0_1
	.long	.Ldcsctp_BB0_130-.Ldcsctp_JTI0_1
	.long	.Ldcsctp_BB0_130-.Ldcsctp_JTI0_1
	.long	.Ldcsctp_BB0_130-.Ldcsctp_JTI0_1
	.long	.Ldcsctp_BB0_130-.Ldcsctp_JTI0_1
	.long	.Ldcsctp_BB0_130-.Ldcsctp_JTI0_1
	.long	.Ldcsctp_BB0_130-.Ldcsctp_JTI0_1
	.long	.Ldcsctp_BB0_130-.Ldcsctp_JTI0_1
	.long	.Ldcsctp_BB0_130-.Ldcsctp_JTI0_1
	.long	.Ldcsctp_BB0_130-.Ldcsctp_JTI0_1
	.long	.Ldcsctp_BB0_130-.Ldcsctp_JTI0_1
	.long	.Ldcsctp_BB0_130-.Ldcsctp_JTI0_1
	.long	.Ldcsctp_BB0_130-.Ldcsctp_JTI0_1
	.long	.Ldcsctp_BB0_130-.Ldcsctp_JTI0_1
	.long	.Ldcsctp_BB0_130-.Ldcsctp_JTI0_1
	.long	.Ldcsctp_BB0_130-.Ldcsctp_JTI0_1
	.long	.Ldcsctp_BB0_130-.Ldcsctp_JTI0_1
	.long	.Ldcsctp_BB0_130-.Ldcsctp_JTI0_1
	.long	.Ldcsctp_BB0_130-.Ldcsctp_JTI0_1
	.long	.Ldcsctp_BB0_130-.Ldcsctp_JTI0_1
	.long	.Ldcsctp_BB0_130-.Ldcsctp_JTI0_1
	.long	.Ldcsctp_BB0_130-.Ldcsctp_JTI0_1
	.long	.Ldcsctp_BB0_130-.Ldcsctp_JTI0_1
	.long	.Ldcsctp_BB0_111-.Ldcsctp_JTI0_1
.Ldcsctp_JTI0_2:
	.long	.Ldcsctp_BB0_325-.Ldcsctp_JTI0_2
	.long	.Ldcsctp_BB0_328-.Ldcsctp_JTI0_2
	.long	.Ldcsctp_BB0_328-.Ldcsctp_JTI0_2
	.long	.Ldcsctp_BB0_331-.Ldcsctp_JTI0_2
	.long	.Ldcsctp_BB0_327-.Ldcsctp_JTI0_2
	.long	.Ldcsctp_BB0_327-.Ldcsctp_JTI0_2
	.long	.Ldcsctp_BB0_335-.Ldcsctp_JTI0_2
	.long	.Ldcsctp_BB0_323-.Ldcsctp_JTI0_2
	.long	.Ldcsctp_BB0_323-.Ldcsctp_JTI0_2
	.long	.Ldcsctp_BB0_330-.Ldcsctp_JTI0_2
	.long	.Ldcsctp_BB0_325-.Ldcsctp_JTI0_2
	.long	.Ldcsctp_BB0_323-.Ldcsctp_JTI0_2
	.long	.Ldcsctp_BB0_323-.Ldcsctp_JTI0_2
	.long	.Ldcsctp_BB0_325-.Ldcsctp_JTI0_2
	.long	.Ldcsctp_BB0_327-.Ldcsctp_JTI0_2
	.long	.Ldcsctp_BB0_321-.Ldcsctp_JTI0_2
	.long	.Ldcsctp_BB0_321-.Ldcsctp_JTI0_2
	.long	.Ldcsctp_BB0_321-.Ldcsctp_JTI0_2
	.text
	.seh_endproc
	.def	std_io.io.error.last_error;
	.scl	3;
	.type	32;
	.endef
	.p2align	4
std_io.io.error.last_error:
.seh_proc std_io.io.error.last_error
	pushq	%rsi
	.seh_pushreg %rsi
	subq	$32, %rsp
	.seh_stackalloc 32
	.seh_endprologue
	movq	%rcx, %rsi
	callq	rattle_errno
	movl	%eax, %ecx
	movb	$41, %dl
	testl	%eax, %eax
	js	.Ldcsctp_BB1_40
	decl	%eax
	cmpl	$121, %eax
	ja	.Ldcsctp_BB1_40
	leaq	.Ldcsctp_JTI1_0(%rip), %r8
	movslq	(%r8,%rax,4), %rax
	addq	%r8, %rax
	jmpq	*%rax
.Ldcsctp_BB1_3:
	movb	$1, %dl
	jmp	.Ldcsctp_BB1_40
.Ldcsctp_BB1_24:
	movb	$36, %dl
	jmp	.Ldcsctp_BB1_40
.Ldcsctp_BB1_36:
	movb	$4, %dl
	jmp	.Ldcsctp_BB1_40
.Ldcsctp_BB1_33:
	movb	$7, %dl
	jmp	.Ldcsctp_BB1_40
.Ldcsctp_BB1_39:
	movb	$26, %dl
	jmp	.Ldcsctp_BB1_40
.Ldcsctp_BB1_37:
	movb	$39, %dl
	jmp	.Ldcsctp_BB1_40
.Ldcsctp_BB1_28:
	movb	$9, %dl
	jmp	.Ldcsctp_BB1_40
.Ldcsctp_BB1_27:
	movb	$8, %dl
	jmp	.Ldcsctp_BB1_40
.Ldcsctp_BB1_22:
	movb	$30, %dl
	jmp	.Ldcsctp_BB1_40
.Ldcsctp_BB1_18:
	movb	$25, %dl
	jmp	.Ldcsctp_BB1_40
.Ldcsctp_BB1_20:
	movb	$32, %dl
	jmp	.Ldcsctp_BB1_40
.Ldcsctp_BB1_23:
	movb	$33, %dl
	jmp	.Ldcsctp_BB1_40
.Ldcsctp_BB1_34:
	movb	$22, %dl
	jmp	.Ldcsctp_BB1_40
.Ldcsctp_BB1_11:
	movb	$31, %dl
	jmp	.Ldcsctp_BB1_40
.Ldcsctp_BB1_15:
	movb	$29, %dl
	jmp	.Ldcsctp_BB1_40
.Ldcsctp_BB1_26:
	movb	$18, %dl
	jmp	.Ldcsctp_BB1_40
.Ldcsctp_BB1_29:
	movb	$10, %dl
	jmp	.Ldcsctp_BB1_40
.Ldcsctp_BB1_9:
	movb	$28, %dl
	jmp	.Ldcsctp_BB1_40
.Ldcsctp_BB1_12:
	movb	$14, %dl
	jmp	.Ldcsctp_BB1_40
.Ldcsctp_BB1_10:
	movb	$12, %dl
	jmp	.Ldcsctp_BB1_40
.Ldcsctp_BB1_30:
	movb	$5, %dl
	jmp	.Ldcsctp_BB1_40
.Ldcsctp_BB1_32:
	movb	$3, %dl
	jmp	.Ldcsctp_BB1_40
.Ldcsctp_BB1_4:
	xorl	%edx, %edx
	jmp	.Ldcsctp_BB1_40
.Ldcsctp_BB1_7:
	movb	$13, %dl
	jmp	.Ldcsctp_BB1_40
.Ldcsctp_BB1_8:
	movb	$38, %dl
	jmp	.Ldcsctp_BB1_40
.Ldcsctp_BB1_21:
	movb	$11, %dl
	jmp	.Ldcsctp_BB1_40
.Ldcsctp_BB1_5:
	movb	$35, %dl
	jmp	.Ldcsctp_BB1_40
.Ldcsctp_BB1_6:
	movb	$34, %dl
	jmp	.Ldcsctp_BB1_40
.Ldcsctp_BB1_14:
	movb	$20, %dl
	jmp	.Ldcsctp_BB1_40
.Ldcsctp_BB1_13:
	movb	$15, %dl
	jmp	.Ldcsctp_BB1_40
.Ldcsctp_BB1_38:
	movb	$19, %dl
	jmp	.Ldcsctp_BB1_40
.Ldcsctp_BB1_25:
	movb	$16, %dl
	jmp	.Ldcsctp_BB1_40
.Ldcsctp_BB1_31:
	movb	$6, %dl
	jmp	.Ldcsctp_BB1_40
.Ldcsctp_BB1_16:
	movb	$27, %dl
	jmp	.Ldcsctp_BB1_40
.Ldcsctp_BB1_17:
	movb	$24, %dl
	jmp	.Ldcsctp_BB1_40
.Ldcsctp_BB1_35:
	movb	$2, %dl
	jmp	.Ldcsctp_BB1_40
.Ldcsctp_BB1_19:
	movb	$17, %dl
.Ldcsctp_BB1_40:
	movb	$0, (%rsi)
	movb	%dl, 1(%rsi)
	movw	$0, 2(%rsi)
	movl	%ecx, 4(%rsi)
	xorps	%xmm0, %xmm0
	movups	%xmm0, 8(%rsi)
	movups	%xmm0, 24(%rsi)
	movups	%xmm0, 40(%rsi)
	movups	%xmm0, 56(%rsi)
	movups	%xmm0, 72(%rsi)
	addq	$32, %rsp
	popq	%rsi
	retq
	.section	.rdata,"dr"
	.p2align	2, 0x0
.Ldcsctp_JTI1_0:
	.long	.Ldcsctp_BB1_3-.Ldcsctp_JTI1_0
	.long	.Ldcsctp_BB1_4-.Ldcsctp_JTI1_0
	.long	.Ldcsctp_BB1_40-.Ldcsctp_JTI1_0
	.long	.Ldcsctp_BB1_5-.Ldcsctp_JTI1_0
	.long	.Ldcsctp_BB1_40-.Ldcsctp_JTI1_0
	.long	.Ldcsctp_BB1_40-.Ldcsctp_JTI1_0
	.long	.Ldcsctp_BB1_6-.Ldcsctp_JTI1_0
	.long	.Ldcsctp_BB1_40-.Ldcsctp_JTI1_0
	.long	.Ldcsctp_BB1_40-.Ldcsctp_JTI1_0
	.long	.Ldcsctp_BB1_40-.Ldcsctp_JTI1_0
	.long	.Ldcsctp_BB1_7-.Ldcsctp_JTI1_0
	.long	.Ldcsctp_BB1_8-.Ldcsctp_JTI1_0
	.long	.Ldcsctp_BB1_3-.Ldcsctp_JTI1_0
	.long	.Ldcsctp_BB1_40-.Ldcsctp_JTI1_0
	.long	.Ldcsctp_BB1_40-.Ldcsctp_JTI1_0
	.long	.Ldcsctp_BB1_9-.Ldcsctp_JTI1_0
	.long	.Ldcsctp_BB1_10-.Ldcsctp_JTI1_0
	.long	.Ldcsctp_BB1_11-.Ldcsctp_JTI1_0
	.long	.Ldcsctp_BB1_40-.Ldcsctp_JTI1_0
	.long	.Ldcsctp_BB1_12-.Ldcsctp_JTI1_0
	.long	.Ldcsctp_BB1_13-.Ldcsctp_JTI1_0
	.long	.Ldcsctp_BB1_14-.Ldcsctp_JTI1_0
	.long	.Ldcsctp_BB1_40-.Ldcsctp_JTI1_0
	.long	.Ldcsctp_BB1_40-.Ldcsctp_JTI1_0
	.long	.Ldcsctp_BB1_40-.Ldcsctp_JTI1_0
	.long	.Ldcsctp_BB1_15-.Ldcsctp_JTI1_0
	.long	.Ldcsctp_BB1_16-.Ldcsctp_JTI1_0
	.long	.Ldcsctp_BB1_17-.Ldcsctp_JTI1_0
	.long	.Ldcsctp_BB1_18-.Ldcsctp_JTI1_0
	.long	.Ldcsctp_BB1_19-.Ldcsctp_JTI1_0
	.long	.Ldcsctp_BB1_20-.Ldcsctp_JTI1_0
	.long	.Ldcsctp_BB1_21-.Ldcsctp_JTI1_0
	.long	.Ldcsctp_BB1_40-.Ldcsctp_JTI1_0
	.long	.Ldcsctp_BB1_40-.Ldcsctp_JTI1_0
	.long	.Ldcsctp_BB1_22-.Ldcsctp_JTI1_0
	.long	.Ldcsctp_BB1_23-.Ldcsctp_JTI1_0
	.long	.Ldcsctp_BB1_40-.Ldcsctp_JTI1_0
	.long	.Ldcsctp_BB1_24-.Ldcsctp_JTI1_0
	.long	.Ldcsctp_BB1_25-.Ldcsctp_JTI1_0
	.long	.Ldcsctp_BB1_26-.Ldcsctp_JTI1_0
	.long	.Ldcsctp_BB1_40-.Ldcsctp_JTI1_0
	.long	.Ldcsctp_BB1_40-.Ldcsctp_JTI1_0
	.long	.Ldcsctp_BB1_40-.Ldcsctp_JTI1_0
	.long	.Ldcsctp_BB1_40-.Ldcsctp_JTI1_0
	.long	.Ldcsctp_BB1_40-.Ldcsctp_JTI1_0
	.long	.Ldcsctp_BB1_40-.Ldcsctp_JTI1_0
	.long	.Ldcsctp_BB1_40-.Ldcsctp_JTI1_0
	.long	.Ldcsctp_BB1_40-.Ldcsctp_JTI1_0
	.long	.Ldcsctp_BB1_40-.Ldcsctp_JTI1_0
	.long	.Ldcsctp_BB1_40-.Ldcsctp_JTI1_0
	.long	.Ldcsctp_BB1_40-.Ldcsctp_JTI1_0
	.long	.Ldcsctp_BB1_40-.Ldcsctp_JTI1_0
	.long	.Ldcsctp_BB1_40-.Ldcsctp_JTI1_0
	.long	.Ldcsctp_BB1_40-.Ldcsctp_JTI1_0
	.long	.Ldcsctp_BB1_40-.Ldcsctp_JTI1_0
	.long	.Ldcsctp_BB1_40-.Ldcsctp_JTI1_0
	.long	.Ldcsctp_BB1_40-.Ldcsctp_JTI1_0
	.long	.Ldcsctp_BB1_40-.Ldcsctp_JTI1_0
	.long	.Ldcsctp_BB1_40-.Ldcsctp_JTI1_0
	.long	.Ldcsctp_BB1_40-.Ldcsctp_JTI1_0
	.long	.Ldcsctp_BB1_40-.Ldcsctp_JTI1_0
	.long	.Ldcsctp_BB1_40-.Ldcsctp_JTI1_0
	.long	.Ldcsctp_BB1_40-.Ldcsctp_JTI1_0
	.long	.Ldcsctp_BB1_40-.Ldcsctp_JTI1_0
	.long	.Ldcsctp_BB1_40-.Ldcsctp_JTI1_0
	.long	.Ldcsctp_BB1_40-.Ldcsctp_JTI1_0
	.long	.Ldcsctp_BB1_40-.Ldcsctp_JTI1_0
	.long	.Ldcsctp_BB1_40-.Ldcsctp_JTI1_0
	.long	.Ldcsctp_BB1_40-.Ldcsctp_JTI1_0
	.long	.Ldcsctp_BB1_40-.Ldcsctp_JTI1_0
	.long	.Ldcsctp_BB1_40-.Ldcsctp_JTI1_0
	.long	.Ldcsctp_BB1_40-.Ldcsctp_JTI1_0
	.long	.Ldcsctp_BB1_40-.Ldcsctp_JTI1_0
	.long	.Ldcsctp_BB1_40-.Ldcsctp_JTI1_0
	.long	.Ldcsctp_BB1_40-.Ldcsctp_JTI1_0
	.long	.Ldcsctp_BB1_40-.Ldcsctp_JTI1_0
	.long	.Ldcsctp_BB1_40-.Ldcsctp_JTI1_0
	.long	.Ldcsctp_BB1_40-.Ldcsctp_JTI1_0
	.long	.Ldcsctp_BB1_40-.Ldcsctp_JTI1_0
	.long	.Ldcsctp_BB1_40-.Ldcsctp_JTI1_0
	.long	.Ldcsctp_BB1_40-.Ldcsctp_JTI1_0
	.long	.Ldcsctp_BB1_40-.Ldcsctp_JTI1_0
	.long	.Ldcsctp_BB1_40-.Ldcsctp_JTI1_0
	.long	.Ldcsctp_BB1_40-.Ldcsctp_JTI1_0
	.long	.Ldcsctp_BB1_40-.Ldcsctp_JTI1_0
	.long	.Ldcsctp_BB1_40-.Ldcsctp_JTI1_0
	.long	.Ldcsctp_BB1_40-.Ldcsctp_JTI1_0
	.long	.Ldcsctp_BB1_40-.Ldcsctp_JTI1_0
	.long	.Ldcsctp_BB1_40-.Ldcsctp_JTI1_0
	.long	.Ldcsctp_BB1_40-.Ldcsctp_JTI1_0
	.long	.Ldcsctp_BB1_40-.Ldcsctp_JTI1_0
	.long	.Ldcsctp_BB1_40-.Ldcsctp_JTI1_0
	.long	.Ldcsctp_BB1_40-.Ldcsctp_JTI1_0
	.long	.Ldcsctp_BB1_40-.Ldcsctp_JTI1_0
	.long	.Ldcsctp_BB1_24-.Ldcsctp_JTI1_0
	.long	.Ldcsctp_BB1_40-.Ldcsctp_JTI1_0
	.long	.Ldcsctp_BB1_40-.Ldcsctp_JTI1_0
	.long	.Ldcsctp_BB1_27-.Ldcsctp_JTI1_0
	.long	.Ldcsctp_BB1_28-.Ldcsctp_JTI1_0
	.long	.Ldcsctp_BB1_29-.Ldcsctp_JTI1_0
	.long	.Ldcsctp_BB1_30-.Ldcsctp_JTI1_0
	.long	.Ldcsctp_BB1_40-.Ldcsctp_JTI1_0
	.long	.Ldcsctp_BB1_31-.Ldcsctp_JTI1_0
	.long	.Ldcsctp_BB1_32-.Ldcsctp_JTI1_0
	.long	.Ldcsctp_BB1_40-.Ldcsctp_JTI1_0
	.long	.Ldcsctp_BB1_40-.Ldcsctp_JTI1_0
	.long	.Ldcsctp_BB1_33-.Ldcsctp_JTI1_0
	.long	.Ldcsctp_BB1_40-.Ldcsctp_JTI1_0
	.long	.Ldcsctp_BB1_40-.Ldcsctp_JTI1_0
	.long	.Ldcsctp_BB1_34-.Ldcsctp_JTI1_0
	.long	.Ldcsctp_BB1_35-.Ldcsctp_JTI1_0
	.long	.Ldcsctp_BB1_40-.Ldcsctp_JTI1_0
	.long	.Ldcsctp_BB1_36-.Ldcsctp_JTI1_0
	.long	.Ldcsctp_BB1_40-.Ldcsctp_JTI1_0
	.long	.Ldcsctp_BB1_37-.Ldcsctp_JTI1_0
	.long	.Ldcsctp_BB1_38-.Ldcsctp_JTI1_0
	.long	.Ldcsctp_BB1_40-.Ldcsctp_JTI1_0
	.long	.Ldcsctp_BB1_40-.Ldcsctp_JTI1_0
	.long	.Ldcsctp_BB1_40-.Ldcsctp_JTI1_0
	.long	.Ldcsctp_BB1_40-.Ldcsctp_JTI1_0
	.long	.Ldcsctp_BB1_40-.Ldcsctp_JTI1_0
	.long	.Ldcsctp_BB1_39-.Ldcsctp_JTI1_0
	.text
	.seh_endproc
	.def	dcsctp_tlv.reader.list_check.a9faab4c914c0483;
	.scl	3;
	.type	32;
	.endef
	.p2align	4
dcsctp_tlv.reader.list_check.a9faab4c914c0483:
.seh_proc dcsctp_tlv.reader.list_check.a9faab4c914c0483
	pushq	%r14
	.seh_pushreg %r14
	pushq	%rsi
	.seh_pushreg %rsi
	pushq	%rdi
	.seh_pushreg %rdi
	pushq	%rbx
	.seh_pushreg %rbx
	subq	$40, %rsp
	.seh_stackalloc 40
	.seh_endprologue
	testq	%r8, %r8
	je	.Ldcsctp_BB2_1
	movq	%rdx, %rax
	xorl	%r10d, %r10d
	movq	%r8, %rdx
	jmp	.Ldcsctp_BB2_3
	.p2align	4
.Ldcsctp_BB2_27:
	addq	%rsi, %rax
	subq	%rsi, %rdx
	incq	%r10
	testq	%rdx, %rdx
	je	.Ldcsctp_BB2_28
.Ldcsctp_BB2_3:
	cmpq	$4, %rdx
	jb	.Ldcsctp_BB2_30
	movzwl	2(%rax), %r11d
	rolw	$8, %r11w
	cmpw	$4, %r11w
	jb	.Ldcsctp_BB2_30
	movzwl	%r11w, %r11d
	cmpq	%r11, %rdx
	jb	.Ldcsctp_BB2_30
	leal	3(%r11), %esi
	andl	$-4, %esi
	cmpq	%rsi, %rdx
	cmovbq	%rdx, %rsi
	movzwl	(%rax), %ebx
	rolw	$8, %bx
	leaq	-4(%r11), %rdi
	movzwl	%bx, %ebx
	leal	-13(%rbx), %r14d
	cmpl	$5, %r14d
	ja	.Ldcsctp_BB2_7
	leaq	.Ldcsctp_JTI2_0(%rip), %rbx
	movslq	(%rbx,%r14,4), %r14
	addq	%rbx, %r14
	jmpq	*%r14
.Ldcsctp_BB2_18:
	cmpl	$8, %edi
	jmp	.Ldcsctp_BB2_11
	.p2align	4
.Ldcsctp_BB2_7:
	cmpl	$32769, %ebx
	je	.Ldcsctp_BB2_10
	cmpl	$49152, %ebx
	jne	.Ldcsctp_BB2_23
	testq	%rdi, %rdi
	jmp	.Ldcsctp_BB2_11
	.p2align	4
.Ldcsctp_BB2_10:
	cmpl	$4, %edi
.Ldcsctp_BB2_11:
	setne	%bl
	xorl	%edi, %edi
	jmp	.Ldcsctp_BB2_22
.Ldcsctp_BB2_20:
	xorl	%edi, %edi
	cmpw	$8, %r11w
	jae	.Ldcsctp_BB2_21
	jmp	.Ldcsctp_BB2_15
.Ldcsctp_BB2_12:
	cmpq	$20, %r11
	je	.Ldcsctp_BB2_17
	cmpl	$12, %r11d
	jne	.Ldcsctp_BB2_14
.Ldcsctp_BB2_17:
	movl	8(%rax), %edi
	bswapl	%edi
	xorl	%ebx, %ebx
	cmpl	$7, %edi
	setae	%bl
	leaq	(%rbx,%rbx,2), %rdi
	jmp	.Ldcsctp_BB2_22
.Ldcsctp_BB2_19:
	xorl	%edi, %edi
	cmpw	$16, %r11w
	jb	.Ldcsctp_BB2_15
.Ldcsctp_BB2_21:
	movl	%r11d, %ebx
	andb	$1, %bl
.Ldcsctp_BB2_22:
	testb	%bl, %bl
	jne	.Ldcsctp_BB2_15
.Ldcsctp_BB2_23:
	testb	%r9b, %r9b
	je	.Ldcsctp_BB2_27
	.p2align	4
.Ldcsctp_BB2_24:
	cmpq	%r11, %rsi
	je	.Ldcsctp_BB2_27
	cmpb	$0, (%rax,%r11)
	leaq	1(%r11), %r11
	je	.Ldcsctp_BB2_24
	subq	%rdx, %r8
	movq	%rcx, %rsi
	movq	%rax, %rcx
	movq	%r8, %rdi
	callq	dcsctp_tlv.frame.padding_fault
	addq	%rdi, %rax
	movq	$1, (%rsi)
	movq	%rax, 8(%rsi)
	movq	$2, 16(%rsi)
	jmp	.Ldcsctp_BB2_16
.Ldcsctp_BB2_1:
	xorl	%r10d, %r10d
.Ldcsctp_BB2_28:
	movq	$0, (%rcx)
	movq	%r10, 8(%rcx)
	movq	%r10, 16(%rcx)
	jmp	.Ldcsctp_BB2_16
.Ldcsctp_BB2_30:
	subq	%rdx, %r8
	movq	$1, (%rcx)
	movq	%r8, 8(%rcx)
	movq	$0, 16(%rcx)
	jmp	.Ldcsctp_BB2_16
.Ldcsctp_BB2_14:
	xorl	%edi, %edi
.Ldcsctp_BB2_15:
	subq	%rdx, %r8
	movq	$1, (%rcx)
	movq	%r8, 8(%rcx)
	movq	%rdi, 16(%rcx)
.Ldcsctp_BB2_16:
	addq	$40, %rsp
	popq	%rbx
	popq	%rdi
	popq	%rsi
	popq	%r14
	retq
	.section	.rdata,"dr"
	.p2align	2, 0x0
.Ldcsctp_JTI2_0:
	.long	.Ldcsctp_BB2_19-.Ldcsctp_JTI2_0
	.long	.Ldcsctp_BB2_20-.Ldcsctp_JTI2_0
	.long	.Ldcsctp_BB2_10-.Ldcsctp_JTI2_0
	.long	.Ldcsctp_BB2_12-.Ldcsctp_JTI2_0
	.long	.Ldcsctp_BB2_18-.Ldcsctp_JTI2_0
	.long	.Ldcsctp_BB2_18-.Ldcsctp_JTI2_0
	.text
	.seh_endproc
	.def	dcsctp_tlv.reader.list_check.a6e1d811d2b3aa55;
	.scl	3;
	.type	32;
	.endef
	.p2align	4
dcsctp_tlv.reader.list_check.a6e1d811d2b3aa55:
.seh_proc dcsctp_tlv.reader.list_check.a6e1d811d2b3aa55
	pushq	%rsi
	.seh_pushreg %rsi
	pushq	%rdi
	.seh_pushreg %rdi
	subq	$40, %rsp
	.seh_stackalloc 40
	.seh_endprologue
	movq	%rcx, %rsi
	testq	%r8, %r8
	je	.Ldcsctp_BB3_31
	movq	%rdx, %rax
	xorl	%ecx, %ecx
	movq	%r8, %rdx
	testb	%r9b, %r9b
	jne	.Ldcsctp_BB3_3
	jmp	.Ldcsctp_BB3_21
	.p2align	4
.Ldcsctp_BB3_2:
	incq	%rcx
	movq	%rdi, %rax
	movq	%r11, %rdx
	testq	%r11, %r11
	je	.Ldcsctp_BB3_32
.Ldcsctp_BB3_3:
	cmpq	$4, %rdx
	jb	.Ldcsctp_BB3_30
	movzwl	2(%rax), %r9d
	rolw	$8, %r9w
	cmpw	$4, %r9w
	jb	.Ldcsctp_BB3_30
	movzwl	%r9w, %r9d
	cmpq	%r9, %rdx
	jb	.Ldcsctp_BB3_30
	leal	3(%r9), %r10d
	andl	$-4, %r10d
	cmpq	%r10, %rdx
	cmovbq	%rdx, %r10
	movzwl	(%rax), %r11d
	rolw	$8, %r11w
	cmpw	$10, %r11w
	je	.Ldcsctp_BB3_12
	movzwl	%r11w, %r11d
	cmpl	$9, %r11d
	je	.Ldcsctp_BB3_11
	cmpl	$2, %r11d
	jne	.Ldcsctp_BB3_14
	cmpw	$8, %r9w
	jb	.Ldcsctp_BB3_30
	movl	4(%rax), %r11d
	bswapl	%r11d
	leaq	4(,%r11,2), %r11
	jmp	.Ldcsctp_BB3_13
	.p2align	4
.Ldcsctp_BB3_11:
	movl	$4, %r11d
	jmp	.Ldcsctp_BB3_13
	.p2align	4
.Ldcsctp_BB3_12:
	xorl	%r11d, %r11d
.Ldcsctp_BB3_13:
	leaq	-4(%r9), %rdi
	cmpq	%r11, %rdi
	jne	.Ldcsctp_BB3_30
.Ldcsctp_BB3_14:
	leaq	(%rax,%r10), %rdi
	movq	%rdx, %r11
	subq	%r10, %r11
	.p2align	4
.Ldcsctp_BB3_15:
	cmpq	%r9, %r10
	je	.Ldcsctp_BB3_2
	cmpb	$0, (%rax,%r9)
	leaq	1(%r9), %r9
	je	.Ldcsctp_BB3_15
	subq	%rdx, %r8
	movq	%rax, %rcx
	movq	%r8, %rdi
	callq	dcsctp_tlv.frame.padding_fault
	addq	%rdi, %rax
	movq	$1, (%rsi)
	movq	%rax, 8(%rsi)
	movq	$2, 16(%rsi)
	addq	$40, %rsp
	popq	%rdi
	popq	%rsi
	retq
	.p2align	4
.Ldcsctp_BB3_18:
	movl	$4, %r11d
.Ldcsctp_BB3_19:
	addq	$-4, %r9
	cmpq	%r11, %r9
	jne	.Ldcsctp_BB3_30
.Ldcsctp_BB3_20:
	addq	%r10, %rax
	subq	%r10, %rdx
	incq	%rcx
	testq	%rdx, %rdx
	je	.Ldcsctp_BB3_32
.Ldcsctp_BB3_21:
	cmpq	$4, %rdx
	jb	.Ldcsctp_BB3_30
	movzwl	2(%rax), %r9d
	rolw	$8, %r9w
	cmpw	$4, %r9w
	jb	.Ldcsctp_BB3_30
	movzwl	%r9w, %r9d
	cmpq	%r9, %rdx
	jb	.Ldcsctp_BB3_30
	leal	3(%r9), %r10d
	andl	$-4, %r10d
	cmpq	%r10, %rdx
	cmovbq	%rdx, %r10
	movzwl	(%rax), %r11d
	rolw	$8, %r11w
	cmpw	$2, %r11w
	je	.Ldcsctp_BB3_28
	movzwl	%r11w, %r11d
	cmpl	$9, %r11d
	je	.Ldcsctp_BB3_18
	cmpl	$10, %r11d
	jne	.Ldcsctp_BB3_20
	xorl	%r11d, %r11d
	jmp	.Ldcsctp_BB3_19
	.p2align	4
.Ldcsctp_BB3_28:
	cmpw	$8, %r9w
	jb	.Ldcsctp_BB3_30
	movl	4(%rax), %r11d
	bswapl	%r11d
	leaq	4(,%r11,2), %r11
	jmp	.Ldcsctp_BB3_19
.Ldcsctp_BB3_30:
	subq	%rdx, %r8
	movq	$1, (%rsi)
	movq	%r8, 8(%rsi)
	movq	$0, 16(%rsi)
	addq	$40, %rsp
	popq	%rdi
	popq	%rsi
	retq
.Ldcsctp_BB3_31:
	xorl	%ecx, %ecx
.Ldcsctp_BB3_32:
	movq	$0, (%rsi)
	movq	%rcx, 8(%rsi)
	movq	%rcx, 16(%rsi)
	addq	$40, %rsp
	popq	%rdi
	popq	%rsi
	retq
	.seh_endproc
	.def	dcsctp_tlv.frame.padding_fault;
	.scl	3;
	.type	32;
	.endef
	.p2align	4
dcsctp_tlv.frame.padding_fault:
	movzwl	2(%rcx), %eax
	rolw	$8, %ax
	movzwl	%ax, %r8d
	movl	%r8d, %r9d
	addl	$3, %r9d
	andl	$-4, %r9d
	cmpq	%r9, %rdx
	cmovbq	%rdx, %r9
	subq	%r8, %r9
	je	.Ldcsctp_BB4_1
	addq	%r8, %rcx
	xorl	%eax, %eax
	.p2align	4
.Ldcsctp_BB4_3:
	cmpb	$0, (%rcx,%rax)
	jne	.Ldcsctp_BB4_6
	incq	%rax
	cmpq	%rax, %r9
	jne	.Ldcsctp_BB4_3
	movq	%r9, %rax
.Ldcsctp_BB4_6:
	addq	%r8, %rax
	retq
.Ldcsctp_BB4_1:
	xorl	%eax, %eax
	addq	%r8, %rax
	retq
	.def	dcsctp_tlv.parameter.parameters_fill;
	.scl	3;
	.type	32;
	.endef
	.section	.rdata,"dr"
	.p2align	4, 0x0
.Ldcsctp_CPI5_0:
	.byte	1
	.byte	0
	.byte	3
	.byte	2
	.byte	5
	.byte	4
	.byte	7
	.byte	6
	.byte	9
	.byte	8
	.byte	11
	.byte	10
	.byte	13
	.byte	12
	.byte	15
	.byte	14
.Ldcsctp_CPI5_1:
	.byte	1
	.byte	0
	.byte	3
	.byte	2
	.byte	5
	.byte	4
	.byte	7
	.byte	6
	.zero	1
	.zero	1
	.zero	1
	.zero	1
	.zero	1
	.zero	1
	.zero	1
	.zero	1
.Ldcsctp_CPI5_2:
	.byte	3
	.byte	2
	.byte	1
	.byte	0
	.byte	7
	.byte	6
	.byte	5
	.byte	4
	.byte	11
	.byte	10
	.byte	9
	.byte	8
	.byte	15
	.byte	14
	.byte	13
	.byte	12
	.text
	.p2align	4
dcsctp_tlv.parameter.parameters_fill:
.seh_proc dcsctp_tlv.parameter.parameters_fill
	pushq	%r15
	.seh_pushreg %r15
	pushq	%r14
	.seh_pushreg %r14
	pushq	%r13
	.seh_pushreg %r13
	pushq	%r12
	.seh_pushreg %r12
	pushq	%rsi
	.seh_pushreg %rsi
	pushq	%rdi
	.seh_pushreg %rdi
	pushq	%rbp
	.seh_pushreg %rbp
	pushq	%rbx
	.seh_pushreg %rbx
	subq	$72, %rsp
	.seh_stackalloc 72
	movdqa	%xmm6, 48(%rsp)
	.seh_savexmm %xmm6, 48
	.seh_endprologue
	testq	%r8, %r8
	je	.Ldcsctp_BB5_107
	movq	%r8, %rsi
	movq	%rdx, %rdi
	movq	%rcx, %r10
	xorl	%ebx, %ebx
	movq	%r8, %rax
	movq	%rdx, %rcx
	.p2align	4
.Ldcsctp_BB5_2:
	movzwl	2(%rcx), %edx
	rolw	$8, %dx
	movzwl	%dx, %edx
	addl	$3, %edx
	andl	$-4, %edx
	cmpq	%rdx, %rax
	cmovbq	%rax, %rdx
	addq	%rdx, %rcx
	incq	%rbx
	subq	%rdx, %rax
	jne	.Ldcsctp_BB5_2
	movq	8(%r10), %rax
	movq	16(%r10), %rcx
	movq	%rcx, %rdx
	subq	%rax, %rdx
	cmpq	%rdx, %rbx
	movq	%r10, 40(%rsp)
	jbe	.Ldcsctp_BB5_13
	movb	$1, %r8b
	addq	%rax, %rbx
	jb	.Ldcsctp_BB5_108
	movabsq	$192153584101141162, %rdx
	cmpq	%rdx, %rbx
	ja	.Ldcsctp_BB5_108
	testq	%rcx, %rcx
	je	.Ldcsctp_BB5_8
	movq	(%r10), %rcx
	shlq	$4, %rax
	leaq	(%rax,%rax,2), %rdx
	movq	%rbx, %rax
	shlq	$4, %rax
	leaq	(%rax,%rax,2), %r8
	movl	$8, %r9d
	callq	rattle_realloc
	testb	$1, %al
	movb	$1, %r8b
	jne	.Ldcsctp_BB5_9
	jmp	.Ldcsctp_BB5_108
.Ldcsctp_BB5_8:
	movq	%rbx, %rax
	shlq	$4, %rax
	leaq	(%rax,%rax,2), %rcx
	movl	$8, %edx
	callq	rattle_alloc
	testb	$1, %al
	movb	$1, %r8b
	je	.Ldcsctp_BB5_108
.Ldcsctp_BB5_9:
	movq	40(%rsp), %r10
	movq	%rdx, (%r10)
	movq	%rbx, 16(%r10)
	jmp	.Ldcsctp_BB5_13
.Ldcsctp_BB5_10:
	movl	(%r9), %eax
	bswapl	%eax
	movq	(%r10), %rcx
	movq	8(%r10), %rdx
	leaq	(%rdx,%rdx,2), %r8
	shlq	$4, %r8
	movb	$8, (%rcx,%r8)
.Ldcsctp_BB5_11:
	movl	%eax, 4(%rcx,%r8)
	pxor	%xmm0, %xmm0
	movdqu	%xmm0, 8(%rcx,%r8)
	movdqu	%xmm0, 24(%rcx,%r8)
	movq	$0, 40(%rcx,%r8)
	incq	%rdx
	movq	%rdx, 8(%r10)
.Ldcsctp_BB5_12:
	addq	%rbp, %rdi
	subq	%rbp, %rsi
	je	.Ldcsctp_BB5_107
.Ldcsctp_BB5_13:
	movzwl	(%rdi), %ebx
	movzwl	2(%rdi), %eax
	rolw	$8, %ax
	movzwl	%ax, %r13d
	leaq	4(%rdi), %r9
	movl	%r13d, %ebp
	addl	$3, %ebp
	andl	$-4, %ebp
	cmpq	%rbp, %rsi
	cmovbq	%rsi, %rbp
	rolw	$8, %bx
	leaq	-4(%r13), %r15
	movzwl	%bx, %r14d
	leal	-13(%r14), %eax
	cmpl	$5, %eax
	ja	.Ldcsctp_BB5_20
	leaq	.Ldcsctp_JTI5_0(%rip), %rcx
	movslq	(%rcx,%rax,4), %rax
	addq	%rcx, %rax
	jmpq	*%rax
.Ldcsctp_BB5_15:
	movq	4(%rdi), %xmm6
	movl	12(%rdi), %r14d
	leaq	-16(%r13), %r15
	movq	%r15, %rbx
	shrq	%rbx
	je	.Ldcsctp_BB5_43
	movb	$1, %r8b
	cmpw	$16, %r13w
	jb	.Ldcsctp_BB5_108
	movabsq	$9223372036854775792, %rax
	leaq	14(%rax), %rcx
	andq	%r15, %rcx
	movl	$2, %edx
	callq	rattle_alloc
	movb	$1, %r8b
	testb	$1, %al
	je	.Ldcsctp_BB5_108
	cmpl	$8, %r15d
	jae	.Ldcsctp_BB5_45
	xorl	%eax, %eax
	movq	40(%rsp), %r10
	jmp	.Ldcsctp_BB5_64
	.p2align	4
.Ldcsctp_BB5_20:
	cmpl	$32769, %r14d
	je	.Ldcsctp_BB5_10
	cmpl	$49152, %r14d
	jne	.Ldcsctp_BB5_24
	movq	(%r10), %rax
	movq	8(%r10), %rcx
	leaq	(%rcx,%rcx,2), %rdx
	shlq	$4, %rdx
	movb	$10, (%rax,%rdx)
	pxor	%xmm0, %xmm0
	movdqu	%xmm0, 4(%rax,%rdx)
	movdqu	%xmm0, 20(%rax,%rdx)
	movdqu	%xmm0, 32(%rax,%rdx)
	jmp	.Ldcsctp_BB5_70
.Ldcsctp_BB5_23:
	movl	4(%rdi), %eax
	bswapl	%eax
	movzwl	8(%rdi), %ecx
	rolw	$8, %cx
	movq	(%r10), %rdx
	movq	8(%r10), %r8
	leaq	(%r8,%r8,2), %r9
	shlq	$4, %r9
	movb	$6, (%rdx,%r9)
	jmp	.Ldcsctp_BB5_40
.Ldcsctp_BB5_24:
	testq	%r15, %r15
	je	.Ldcsctp_BB5_41
	movb	$1, %r8b
	cmpw	$4, %r13w
	jb	.Ldcsctp_BB5_108
	movl	$1, %edx
	movq	%r15, %rcx
	callq	rattle_alloc
	movb	$1, %r8b
	testb	$1, %al
	je	.Ldcsctp_BB5_108
	movq	%rdx, %r12
	movq	40(%rsp), %r10
	leaq	4(%rdi), %r9
	movq	%r12, %rax
	subq	%r9, %rax
	cmpq	%r15, %rax
	jae	.Ldcsctp_BB5_42
.Ldcsctp_BB5_28:
	cmpl	$4, %r15d
	jb	.Ldcsctp_BB5_29
	movq	%r12, %rax
	subq	%rdi, %rax
	addq	$-4, %rax
	cmpq	$32, %rax
	jae	.Ldcsctp_BB5_55
.Ldcsctp_BB5_29:
	xorl	%eax, %eax
.Ldcsctp_BB5_93:
	movq	%r13, %rdx
	movq	%rax, %rcx
	andq	$3, %rdx
	je	.Ldcsctp_BB5_96
	movq	%rax, %rcx
	.p2align	4
.Ldcsctp_BB5_95:
	movzbl	(%r9,%rcx), %r8d
	movb	%r8b, (%r12,%rcx)
	incq	%rcx
	decq	%rdx
	jne	.Ldcsctp_BB5_95
.Ldcsctp_BB5_96:
	negq	%rax
	addq	%r13, %rax
	addq	$-5, %rax
	cmpl	$3, %eax
	jb	.Ldcsctp_BB5_98
	.p2align	4
.Ldcsctp_BB5_97:
	movzbl	4(%rdi,%rcx), %eax
	movb	%al, (%r12,%rcx)
	movzbl	5(%rdi,%rcx), %eax
	movb	%al, 1(%r12,%rcx)
	movzbl	6(%rdi,%rcx), %eax
	movb	%al, 2(%r12,%rcx)
	movzbl	7(%rdi,%rcx), %eax
	movb	%al, 3(%r12,%rcx)
	addq	$4, %rcx
	cmpq	%rcx, %r15
	jne	.Ldcsctp_BB5_97
	jmp	.Ldcsctp_BB5_98
.Ldcsctp_BB5_30:
	movl	(%r9), %eax
	bswapl	%eax
	movq	(%r10), %rcx
	movq	8(%r10), %rdx
	leaq	(%rdx,%rdx,2), %r8
	shlq	$4, %r8
	movb	$4, (%rcx,%r8)
	jmp	.Ldcsctp_BB5_11
.Ldcsctp_BB5_31:
	pxor	%xmm0, %xmm0
	pxor	%xmm1, %xmm1
	cmpl	$8, %r15d
	je	.Ldcsctp_BB5_33
	movl	12(%rdi), %eax
	movl	16(%rdi), %ecx
	bswapl	%eax
	bswapl	%ecx
	movl	$1, %edx
	movd	%edx, %xmm1
	pinsrd	$1, %eax, %xmm1
	pinsrd	$2, %edx, %xmm1
	pinsrd	$3, %ecx, %xmm1
.Ldcsctp_BB5_33:
	movl	8(%rdi), %eax
	bswapl	%eax
	cmpl	$6, %eax
	movl	$6, %ecx
	cmovbl	%eax, %ecx
	movl	4(%rdi), %eax
	bswapl	%eax
	movq	(%r10), %rdx
	movq	8(%r10), %r8
	leaq	(%r8,%r8,2), %r9
	shlq	$4, %r9
	movb	$5, (%rdx,%r9)
	movl	%eax, 4(%rdx,%r9)
	movb	%cl, 8(%rdx,%r9)
	movw	$0, 9(%rdx,%r9)
	movb	$0, 11(%rdx,%r9)
	movdqu	%xmm1, 12(%rdx,%r9)
	movdqu	%xmm0, 28(%rdx,%r9)
	movl	$0, 44(%rdx,%r9)
	jmp	.Ldcsctp_BB5_85
.Ldcsctp_BB5_34:
	leaq	-8(%r13), %r14
	movq	%r14, %rbx
	shrq	%rbx
	je	.Ldcsctp_BB5_44
	movb	$1, %r8b
	cmpw	$8, %r13w
	jb	.Ldcsctp_BB5_108
	movq	%r9, %r15
	movabsq	$9223372036854775792, %rax
	leaq	14(%rax), %rcx
	andq	%r14, %rcx
	movl	$2, %edx
	callq	rattle_alloc
	movb	$1, %r8b
	testb	$1, %al
	je	.Ldcsctp_BB5_108
	cmpl	$8, %r14d
	jae	.Ldcsctp_BB5_47
	xorl	%eax, %eax
	movq	40(%rsp), %r10
	jmp	.Ldcsctp_BB5_79
.Ldcsctp_BB5_39:
	movl	4(%rdi), %eax
	bswapl	%eax
	movzwl	8(%rdi), %ecx
	rolw	$8, %cx
	movq	(%r10), %rdx
	movq	8(%r10), %r8
	leaq	(%r8,%r8,2), %r9
	shlq	$4, %r9
	movb	$7, (%rdx,%r9)
.Ldcsctp_BB5_40:
	movl	%eax, 4(%rdx,%r9)
	movw	%cx, 8(%rdx,%r9)
	incq	%r8
	pxor	%xmm0, %xmm0
	movdqu	%xmm0, 10(%rdx,%r9)
	movdqu	%xmm0, 26(%rdx,%r9)
	movq	$0, 40(%rdx,%r9)
	movq	%r8, 8(%r10)
	jmp	.Ldcsctp_BB5_12
.Ldcsctp_BB5_41:
	leaq	38(%rsp), %r12
	movq	%r12, %rax
	subq	%r9, %rax
	cmpq	%r15, %rax
	jb	.Ldcsctp_BB5_28
.Ldcsctp_BB5_42:
	movq	%r12, %rcx
	movq	%r9, %rdx
	movq	%r15, %r8
	callq	memmove
	movq	40(%rsp), %r10
.Ldcsctp_BB5_98:
	movq	8(%r10), %rax
	leaq	(%rax,%rax,2), %rcx
	shlq	$4, %rcx
	addq	(%r10), %rcx
	cmpl	$32776, %r14d
	je	.Ldcsctp_BB5_103
	cmpl	$7, %r14d
	je	.Ldcsctp_BB5_102
	cmpl	$1, %r14d
	jne	.Ldcsctp_BB5_105
	movb	$0, (%rcx)
	jmp	.Ldcsctp_BB5_104
.Ldcsctp_BB5_43:
	leaq	38(%rsp), %rdx
	jmp	.Ldcsctp_BB5_69
.Ldcsctp_BB5_44:
	leaq	38(%rsp), %rdx
	jmp	.Ldcsctp_BB5_84
.Ldcsctp_BB5_45:
	movq	%rdx, %rax
	subq	%rdi, %rax
	addq	$-16, %rax
	cmpq	$32, %rax
	movq	40(%rsp), %r10
	jae	.Ldcsctp_BB5_51
	xorl	%eax, %eax
	jmp	.Ldcsctp_BB5_64
.Ldcsctp_BB5_47:
	movq	%rdx, %rax
	subq	%rdi, %rax
	addq	$-8, %rax
	cmpq	$32, %rax
	movq	40(%rsp), %r10
	jae	.Ldcsctp_BB5_53
	xorl	%eax, %eax
	jmp	.Ldcsctp_BB5_79
.Ldcsctp_BB5_102:
	movb	$1, (%rcx)
	jmp	.Ldcsctp_BB5_104
.Ldcsctp_BB5_103:
	movb	$9, (%rcx)
.Ldcsctp_BB5_104:
	movl	$0, 4(%rcx)
	movq	%r12, 8(%rcx)
	movq	%r15, 16(%rcx)
	movq	%r15, 24(%rcx)
	pxor	%xmm0, %xmm0
	movdqu	%xmm0, 32(%rcx)
	jmp	.Ldcsctp_BB5_106
.Ldcsctp_BB5_105:
	movb	$11, (%rcx)
	movl	$0, 4(%rcx)
	movw	%bx, 8(%rcx)
	movl	$0, 10(%rcx)
	movw	$0, 14(%rcx)
	movq	%r12, 16(%rcx)
	movq	%r15, 24(%rcx)
	movq	%r15, 32(%rcx)
	movq	$0, 40(%rcx)
.Ldcsctp_BB5_106:
	incq	%rax
	movq	%rax, 8(%r10)
	jmp	.Ldcsctp_BB5_12
.Ldcsctp_BB5_51:
	cmpl	$32, %r15d
	jae	.Ldcsctp_BB5_57
	xorl	%eax, %eax
	jmp	.Ldcsctp_BB5_61
.Ldcsctp_BB5_53:
	cmpl	$32, %r14d
	jae	.Ldcsctp_BB5_71
	xorl	%eax, %eax
	jmp	.Ldcsctp_BB5_75
.Ldcsctp_BB5_55:
	cmpl	$32, %r15d
	jae	.Ldcsctp_BB5_86
	xorl	%eax, %eax
	jmp	.Ldcsctp_BB5_90
.Ldcsctp_BB5_57:
	movq	%rbx, %rax
	movabsq	$9223372036854775792, %rcx
	andq	%rcx, %rax
	xorl	%ecx, %ecx
	.p2align	4
.Ldcsctp_BB5_58:
	movdqa	.Ldcsctp_CPI5_0(%rip), %xmm0
	movdqu	16(%rdi,%rcx,2), %xmm1
	movdqu	32(%rdi,%rcx,2), %xmm2
	pshufb	%xmm0, %xmm1
	pshufb	%xmm0, %xmm2
	movdqu	%xmm1, (%rdx,%rcx,2)
	movdqu	%xmm2, 16(%rdx,%rcx,2)
	addq	$16, %rcx
	cmpq	%rcx, %rax
	jne	.Ldcsctp_BB5_58
	cmpq	%rax, %rbx
	je	.Ldcsctp_BB5_69
	testb	$24, %r15b
	je	.Ldcsctp_BB5_64
.Ldcsctp_BB5_61:
	movq	%rax, %rcx
	movabsq	$9223372036854775792, %rax
	addq	$12, %rax
	andq	%rbx, %rax
	.p2align	4
.Ldcsctp_BB5_62:
	movq	16(%rdi,%rcx,2), %xmm0
	pshufb	.Ldcsctp_CPI5_1(%rip), %xmm0
	movq	%xmm0, (%rdx,%rcx,2)
	addq	$4, %rcx
	cmpq	%rcx, %rax
	jne	.Ldcsctp_BB5_62
	cmpq	%rax, %rbx
	je	.Ldcsctp_BB5_69
.Ldcsctp_BB5_64:
	movq	%rbx, %r8
	movq	%rax, %rcx
	andq	$3, %r8
	je	.Ldcsctp_BB5_67
	movq	%rax, %rcx
	.p2align	4
.Ldcsctp_BB5_66:
	movzwl	16(%rdi,%rcx,2), %r9d
	rolw	$8, %r9w
	movw	%r9w, (%rdx,%rcx,2)
	incq	%rcx
	decq	%r8
	jne	.Ldcsctp_BB5_66
.Ldcsctp_BB5_67:
	subq	%rbx, %rax
	cmpq	$-4, %rax
	ja	.Ldcsctp_BB5_69
	.p2align	4
.Ldcsctp_BB5_68:
	movzwl	16(%rdi,%rcx,2), %eax
	rolw	$8, %ax
	movw	%ax, (%rdx,%rcx,2)
	movzwl	18(%rdi,%rcx,2), %eax
	rolw	$8, %ax
	movw	%ax, 2(%rdx,%rcx,2)
	movzwl	20(%rdi,%rcx,2), %eax
	rolw	$8, %ax
	movw	%ax, 4(%rdx,%rcx,2)
	movzwl	22(%rdi,%rcx,2), %eax
	rolw	$8, %ax
	movw	%ax, 6(%rdx,%rcx,2)
	addq	$4, %rcx
	cmpq	%rcx, %rbx
	jne	.Ldcsctp_BB5_68
.Ldcsctp_BB5_69:
	pshufb	.Ldcsctp_CPI5_2(%rip), %xmm6
	bswapl	%r14d
	movq	(%r10), %rax
	movq	8(%r10), %rcx
	leaq	(%rcx,%rcx,2), %r8
	shlq	$4, %r8
	movb	$2, (%rax,%r8)
	movl	$0, 4(%rax,%r8)
	movq	%xmm6, 8(%rax,%r8)
	movl	%r14d, 16(%rax,%r8)
	movl	$0, 20(%rax,%r8)
	movq	%rdx, 24(%rax,%r8)
	movq	%rbx, 32(%rax,%r8)
	movq	%rbx, 40(%rax,%r8)
.Ldcsctp_BB5_70:
	incq	%rcx
	movq	%rcx, 8(%r10)
	jmp	.Ldcsctp_BB5_12
.Ldcsctp_BB5_71:
	movq	%rbx, %rax
	movabsq	$9223372036854775792, %rcx
	andq	%rcx, %rax
	xorl	%ecx, %ecx
	.p2align	4
.Ldcsctp_BB5_72:
	movdqa	.Ldcsctp_CPI5_0(%rip), %xmm0
	movdqu	8(%rdi,%rcx,2), %xmm1
	movdqu	24(%rdi,%rcx,2), %xmm2
	pshufb	%xmm0, %xmm1
	pshufb	%xmm0, %xmm2
	movdqu	%xmm1, (%rdx,%rcx,2)
	movdqu	%xmm2, 16(%rdx,%rcx,2)
	addq	$16, %rcx
	cmpq	%rcx, %rax
	jne	.Ldcsctp_BB5_72
	cmpq	%rax, %rbx
	je	.Ldcsctp_BB5_78
	testb	$24, %r14b
	je	.Ldcsctp_BB5_79
.Ldcsctp_BB5_75:
	movq	%rax, %rcx
	movabsq	$9223372036854775792, %rax
	addq	$12, %rax
	andq	%rbx, %rax
	.p2align	4
.Ldcsctp_BB5_76:
	movq	8(%rdi,%rcx,2), %xmm0
	pshufb	.Ldcsctp_CPI5_1(%rip), %xmm0
	movq	%xmm0, (%rdx,%rcx,2)
	addq	$4, %rcx
	cmpq	%rcx, %rax
	jne	.Ldcsctp_BB5_76
	cmpq	%rax, %rbx
	jne	.Ldcsctp_BB5_79
.Ldcsctp_BB5_78:
	movq	%r15, %r9
	jmp	.Ldcsctp_BB5_84
.Ldcsctp_BB5_79:
	movq	%rbx, %r8
	movq	%rax, %rcx
	andq	$3, %r8
	je	.Ldcsctp_BB5_82
	movq	%rax, %rcx
	.p2align	4
.Ldcsctp_BB5_81:
	movzwl	8(%rdi,%rcx,2), %r9d
	rolw	$8, %r9w
	movw	%r9w, (%rdx,%rcx,2)
	incq	%rcx
	decq	%r8
	jne	.Ldcsctp_BB5_81
.Ldcsctp_BB5_82:
	subq	%rbx, %rax
	movq	%r15, %r9
	cmpq	$-4, %rax
	ja	.Ldcsctp_BB5_84
	.p2align	4
.Ldcsctp_BB5_83:
	movzwl	8(%rdi,%rcx,2), %eax
	rolw	$8, %ax
	movw	%ax, (%rdx,%rcx,2)
	movzwl	10(%rdi,%rcx,2), %eax
	rolw	$8, %ax
	movw	%ax, 2(%rdx,%rcx,2)
	movzwl	12(%rdi,%rcx,2), %eax
	rolw	$8, %ax
	movw	%ax, 4(%rdx,%rcx,2)
	movzwl	14(%rdi,%rcx,2), %eax
	rolw	$8, %ax
	movw	%ax, 6(%rdx,%rcx,2)
	addq	$4, %rcx
	cmpq	%rcx, %rbx
	jne	.Ldcsctp_BB5_83
.Ldcsctp_BB5_84:
	movl	(%r9), %eax
	bswapl	%eax
	movq	(%r10), %rcx
	movq	8(%r10), %r8
	leaq	(%r8,%r8,2), %r9
	shlq	$4, %r9
	movb	$3, (%rcx,%r9)
	movl	$0, 4(%rcx,%r9)
	movl	%eax, 8(%rcx,%r9)
	movl	$0, 12(%rcx,%r9)
	movq	%rdx, 16(%rcx,%r9)
	movq	%rbx, 24(%rcx,%r9)
	movq	%rbx, 32(%rcx,%r9)
	movq	$0, 40(%rcx,%r9)
.Ldcsctp_BB5_85:
	incq	%r8
	movq	%r8, 8(%r10)
	jmp	.Ldcsctp_BB5_12
.Ldcsctp_BB5_86:
	movq	%r15, %rax
	andq	$-32, %rax
	xorl	%ecx, %ecx
	.p2align	4
.Ldcsctp_BB5_87:
	movdqu	4(%rdi,%rcx), %xmm0
	movdqu	20(%rdi,%rcx), %xmm1
	movdqu	%xmm0, (%r12,%rcx)
	movdqu	%xmm1, 16(%r12,%rcx)
	addq	$32, %rcx
	cmpq	%rcx, %rax
	jne	.Ldcsctp_BB5_87
	cmpl	%eax, %r15d
	je	.Ldcsctp_BB5_98
	testb	$28, %r15b
	je	.Ldcsctp_BB5_93
.Ldcsctp_BB5_90:
	movq	%rax, %rcx
	movq	%r15, %rax
	andq	$-4, %rax
	.p2align	4
.Ldcsctp_BB5_91:
	movl	(%r9,%rcx), %edx
	movl	%edx, (%r12,%rcx)
	addq	$4, %rcx
	cmpq	%rcx, %rax
	jne	.Ldcsctp_BB5_91
	cmpl	%eax, %r15d
	je	.Ldcsctp_BB5_98
	jmp	.Ldcsctp_BB5_93
.Ldcsctp_BB5_107:
	xorl	%r8d, %r8d
.Ldcsctp_BB5_108:
	movl	%r8d, %eax
	movaps	48(%rsp), %xmm6
	addq	$72, %rsp
	popq	%rbx
	popq	%rbp
	popq	%rdi
	popq	%rsi
	popq	%r12
	popq	%r13
	popq	%r14
	popq	%r15
	retq
	.section	.rdata,"dr"
	.p2align	2, 0x0
.Ldcsctp_JTI5_0:
	.long	.Ldcsctp_BB5_15-.Ldcsctp_JTI5_0
	.long	.Ldcsctp_BB5_34-.Ldcsctp_JTI5_0
	.long	.Ldcsctp_BB5_30-.Ldcsctp_JTI5_0
	.long	.Ldcsctp_BB5_31-.Ldcsctp_JTI5_0
	.long	.Ldcsctp_BB5_23-.Ldcsctp_JTI5_0
	.long	.Ldcsctp_BB5_39-.Ldcsctp_JTI5_0
	.text
	.seh_endproc
	.def	dcsctp_cause.error_causes.error_cause_fill;
	.scl	3;
	.type	32;
	.endef
	.section	.rdata,"dr"
	.p2align	4, 0x0
.Ldcsctp_CPI6_0:
	.byte	1
	.byte	0
	.byte	3
	.byte	2
	.byte	5
	.byte	4
	.byte	7
	.byte	6
	.byte	9
	.byte	8
	.byte	11
	.byte	10
	.byte	13
	.byte	12
	.byte	15
	.byte	14
.Ldcsctp_CPI6_1:
	.byte	1
	.byte	0
	.byte	3
	.byte	2
	.byte	5
	.byte	4
	.byte	7
	.byte	6
	.zero	1
	.zero	1
	.zero	1
	.zero	1
	.zero	1
	.zero	1
	.zero	1
	.zero	1
	.text
	.p2align	4
dcsctp_cause.error_causes.error_cause_fill:
.seh_proc dcsctp_cause.error_causes.error_cause_fill
	pushq	%r15
	.seh_pushreg %r15
	pushq	%r14
	.seh_pushreg %r14
	pushq	%r13
	.seh_pushreg %r13
	pushq	%r12
	.seh_pushreg %r12
	pushq	%rsi
	.seh_pushreg %rsi
	pushq	%rdi
	.seh_pushreg %rdi
	pushq	%rbp
	.seh_pushreg %rbp
	pushq	%rbx
	.seh_pushreg %rbx
	subq	$72, %rsp
	.seh_stackalloc 72
	.seh_endprologue
	testq	%r8, %r8
	je	.Ldcsctp_BB6_116
	movq	%r8, %rbp
	movq	%rdx, %rdi
	movq	%rcx, %r10
	xorl	%esi, %esi
	movq	%r8, %rax
	movq	%rdx, %rcx
	.p2align	4
.Ldcsctp_BB6_2:
	movzwl	2(%rcx), %edx
	rolw	$8, %dx
	movzwl	%dx, %edx
	addl	$3, %edx
	andl	$-4, %edx
	cmpq	%rdx, %rax
	cmovbq	%rax, %rdx
	addq	%rdx, %rcx
	incq	%rsi
	subq	%rdx, %rax
	jne	.Ldcsctp_BB6_2
	movq	8(%r10), %rax
	movq	16(%r10), %rcx
	movq	%rcx, %rdx
	subq	%rax, %rdx
	cmpq	%rdx, %rsi
	movq	%r10, 40(%rsp)
	jbe	.Ldcsctp_BB6_13
	movb	$1, %dl
	movl	%edx, 36(%rsp)
	addq	%rax, %rsi
	jb	.Ldcsctp_BB6_117
	movabsq	$230584300921369395, %rdx
	cmpq	%rdx, %rsi
	ja	.Ldcsctp_BB6_117
	testq	%rcx, %rcx
	je	.Ldcsctp_BB6_8
	movq	(%r10), %rcx
	shlq	$3, %rax
	leaq	(%rax,%rax,4), %rdx
	leaq	(,%rsi,8), %rax
	leaq	(%rax,%rax,4), %r8
	movl	$8, %r9d
	callq	rattle_realloc
	testb	$1, %al
	jne	.Ldcsctp_BB6_9
	jmp	.Ldcsctp_BB6_117
.Ldcsctp_BB6_8:
	leaq	(,%rsi,8), %rax
	leaq	(%rax,%rax,4), %rcx
	movl	$8, %edx
	callq	rattle_alloc
	testb	$1, %al
	je	.Ldcsctp_BB6_117
.Ldcsctp_BB6_9:
	movq	40(%rsp), %r10
	movq	%rdx, (%r10)
	movq	%rsi, 16(%r10)
	jmp	.Ldcsctp_BB6_13
.Ldcsctp_BB6_10:
	movq	(%r10), %rax
	movq	8(%r10), %rcx
	leaq	(%rcx,%rcx,4), %rdx
	movb	$3, (%rax,%rdx,8)
	incq	%rcx
	pxor	%xmm0, %xmm0
	movdqu	%xmm0, 4(%rax,%rdx,8)
	movdqu	%xmm0, 20(%rax,%rdx,8)
	movl	$0, 36(%rax,%rdx,8)
.Ldcsctp_BB6_11:
	movq	%rcx, 8(%r10)
.Ldcsctp_BB6_12:
	addq	%rsi, %rdi
	subq	%rsi, %rbp
	je	.Ldcsctp_BB6_116
.Ldcsctp_BB6_13:
	movzwl	2(%rdi), %eax
	rolw	$8, %ax
	movzwl	(%rdi), %ebx
	movzwl	%ax, %r13d
	movl	%r13d, %esi
	addl	$3, %esi
	andl	$-4, %esi
	cmpq	%rsi, %rbp
	cmovbq	%rbp, %rsi
	leaq	4(%rdi), %rdx
	movl	%ebx, %r12d
	rolw	$8, %r12w
	leaq	-4(%r13), %r14
	movzwl	%r12w, %eax
	addl	$-2, %eax
	cmpl	$11, %eax
	ja	.Ldcsctp_BB6_19
	leaq	.Ldcsctp_JTI6_0(%rip), %rcx
	movslq	(%rcx,%rax,4), %rax
	addq	%rcx, %rax
	jmpq	*%rax
.Ldcsctp_BB6_15:
	movl	4(%rdi), %eax
	testl	%eax, %eax
	movl	%eax, %ebx
	bswapl	%ebx
	je	.Ldcsctp_BB6_44
	leaq	(%rbx,%rbx), %r14
	movl	$2, %edx
	movq	%r14, %rcx
	callq	rattle_alloc
	testb	$1, %al
	je	.Ldcsctp_BB6_118
	cmpl	$4, %ebx
	jae	.Ldcsctp_BB6_49
	xorl	%eax, %eax
	movq	40(%rsp), %r10
	jmp	.Ldcsctp_BB6_93
.Ldcsctp_BB6_19:
	testq	%r14, %r14
	je	.Ldcsctp_BB6_42
	movb	$1, %al
	movl	%eax, 36(%rsp)
	cmpw	$4, %r13w
	jb	.Ldcsctp_BB6_117
	movl	$1, %edx
	movq	%r14, %rcx
	callq	rattle_alloc
	testb	$1, %al
	je	.Ldcsctp_BB6_117
	movq	%rdx, %r15
	leaq	4(%rdi), %rdx
	movq	40(%rsp), %r10
	movq	%r15, %rax
	subq	%rdx, %rax
	cmpq	%r14, %rax
	jae	.Ldcsctp_BB6_43
.Ldcsctp_BB6_23:
	cmpl	$4, %r14d
	jb	.Ldcsctp_BB6_24
	movq	%r15, %rax
	subq	%rdi, %rax
	addq	$-4, %rax
	cmpq	$32, %rax
	jae	.Ldcsctp_BB6_55
.Ldcsctp_BB6_24:
	xorl	%eax, %eax
.Ldcsctp_BB6_107:
	movq	%r13, %r8
	movq	%rax, %rcx
	andq	$3, %r8
	je	.Ldcsctp_BB6_110
	movq	%rax, %rcx
	.p2align	4
.Ldcsctp_BB6_109:
	movzbl	(%rdx,%rcx), %r9d
	movb	%r9b, (%r15,%rcx)
	incq	%rcx
	decq	%r8
	jne	.Ldcsctp_BB6_109
.Ldcsctp_BB6_110:
	negq	%rax
	addq	%r13, %rax
	addq	$-5, %rax
	cmpl	$3, %eax
	jb	.Ldcsctp_BB6_112
	.p2align	4
.Ldcsctp_BB6_111:
	movzbl	4(%rdi,%rcx), %eax
	movb	%al, (%r15,%rcx)
	movzbl	5(%rdi,%rcx), %eax
	movb	%al, 1(%r15,%rcx)
	movzbl	6(%rdi,%rcx), %eax
	movb	%al, 2(%r15,%rcx)
	movzbl	7(%rdi,%rcx), %eax
	movb	%al, 3(%r15,%rcx)
	addq	$4, %rcx
	cmpq	%rcx, %r14
	jne	.Ldcsctp_BB6_111
	jmp	.Ldcsctp_BB6_112
.Ldcsctp_BB6_25:
	movl	(%rdx), %eax
	bswapl	%eax
	movq	(%r10), %rcx
	movq	8(%r10), %rdx
	leaq	(%rdx,%rdx,4), %r8
	movb	$2, (%rcx,%r8,8)
	movl	%eax, 4(%rcx,%r8,8)
	pxor	%xmm0, %xmm0
	movdqu	%xmm0, 8(%rcx,%r8,8)
	movdqu	%xmm0, 24(%rcx,%r8,8)
	incq	%rdx
	movq	%rdx, 8(%r10)
	jmp	.Ldcsctp_BB6_12
.Ldcsctp_BB6_26:
	pxor	%xmm0, %xmm0
	movdqa	%xmm0, 48(%rsp)
	movq	$0, 64(%rsp)
	leaq	48(%rsp), %rcx
	movq	%r14, %r8
	callq	core.str.utf8.from_utf8
	cmpb	$0, 48(%rsp)
	leaq	.Ldcsctp_static.0(%rip), %r15
	cmoveq	56(%rsp), %r15
	movl	$28, %r14d
	cmoveq	64(%rsp), %r14
	testq	%r14, %r14
	je	.Ldcsctp_BB6_45
	movb	$1, %al
	movl	%eax, 36(%rsp)
	js	.Ldcsctp_BB6_117
	movl	$1, %edx
	movq	%r14, %rcx
	callq	rattle_alloc
	testb	$1, %al
	je	.Ldcsctp_BB6_117
	movq	%rdx, %r12
	movq	%r12, %rcx
	subq	%r15, %rcx
	cmpq	%r14, %rcx
	jae	.Ldcsctp_BB6_46
.Ldcsctp_BB6_30:
	xorl	%eax, %eax
	cmpq	$4, %r14
	jb	.Ldcsctp_BB6_57
	cmpq	$32, %rcx
	movq	40(%rsp), %r10
	jb	.Ldcsctp_BB6_66
	cmpq	$32, %r14
	jae	.Ldcsctp_BB6_59
	xorl	%eax, %eax
	jmp	.Ldcsctp_BB6_63
.Ldcsctp_BB6_34:
	pxor	%xmm0, %xmm0
	movdqa	%xmm0, 48(%rsp)
	movq	$0, 64(%rsp)
	leaq	48(%rsp), %rcx
	movq	%r14, %r8
	callq	core.str.utf8.from_utf8
	cmpb	$0, 48(%rsp)
	leaq	.Ldcsctp_static.1(%rip), %r15
	cmoveq	56(%rsp), %r15
	movl	$38, %r14d
	cmoveq	64(%rsp), %r14
	testq	%r14, %r14
	je	.Ldcsctp_BB6_47
	movb	$1, %al
	movl	%eax, 36(%rsp)
	js	.Ldcsctp_BB6_117
	movl	$1, %edx
	movq	%r14, %rcx
	callq	rattle_alloc
	testb	$1, %al
	je	.Ldcsctp_BB6_117
	movq	%rdx, %r12
	movq	%r12, %rcx
	subq	%r15, %rcx
	cmpq	%r14, %rcx
	jae	.Ldcsctp_BB6_48
.Ldcsctp_BB6_38:
	xorl	%eax, %eax
	cmpq	$4, %r14
	jb	.Ldcsctp_BB6_58
	cmpq	$32, %rcx
	movq	40(%rsp), %r10
	jb	.Ldcsctp_BB6_79
	cmpq	$32, %r14
	jae	.Ldcsctp_BB6_72
	xorl	%eax, %eax
	jmp	.Ldcsctp_BB6_76
.Ldcsctp_BB6_42:
	leaq	34(%rsp), %r15
	movq	%r15, %rax
	subq	%rdx, %rax
	cmpq	%r14, %rax
	jb	.Ldcsctp_BB6_23
.Ldcsctp_BB6_43:
	movq	%r15, %rcx
	movq	%r14, %r8
	callq	memmove
	movq	40(%rsp), %r10
.Ldcsctp_BB6_112:
	movzwl	%bx, %edx
	movq	8(%r10), %rax
	leaq	(%rax,%rax,4), %rcx
	shlq	$3, %rcx
	addq	(%r10), %rcx
	cmpl	$1536, %edx
	jne	.Ldcsctp_BB6_114
	movb	$1, (%rcx)
	movl	$0, 4(%rcx)
	movq	%r15, 8(%rcx)
	movq	%r14, 16(%rcx)
	movq	%r14, 24(%rcx)
	movq	$0, 32(%rcx)
	jmp	.Ldcsctp_BB6_115
.Ldcsctp_BB6_114:
	movb	$6, (%rcx)
	movl	$0, 4(%rcx)
	movw	%r12w, 8(%rcx)
	movl	$0, 10(%rcx)
	movw	$0, 14(%rcx)
	movq	%r15, 16(%rcx)
	movq	%r14, 24(%rcx)
	movq	%r14, 32(%rcx)
.Ldcsctp_BB6_115:
	incq	%rax
	movq	%rax, 8(%r10)
	jmp	.Ldcsctp_BB6_12
.Ldcsctp_BB6_44:
	leaq	34(%rsp), %rdx
	jmp	.Ldcsctp_BB6_98
.Ldcsctp_BB6_45:
	leaq	34(%rsp), %r12
	movq	%r12, %rcx
	subq	%r15, %rcx
	cmpq	%r14, %rcx
	jb	.Ldcsctp_BB6_30
.Ldcsctp_BB6_46:
	movq	%r12, %rcx
	movq	%r15, %rdx
	movq	%r14, %r8
	callq	memmove
	movq	40(%rsp), %r10
	jmp	.Ldcsctp_BB6_71
.Ldcsctp_BB6_47:
	leaq	34(%rsp), %r12
	movq	%r12, %rcx
	subq	%r15, %rcx
	cmpq	%r14, %rcx
	jb	.Ldcsctp_BB6_38
.Ldcsctp_BB6_48:
	movq	%r12, %rcx
	movq	%r15, %rdx
	movq	%r14, %r8
	callq	memmove
	movq	40(%rsp), %r10
	jmp	.Ldcsctp_BB6_84
.Ldcsctp_BB6_49:
	movq	%rdx, %rax
	subq	%rdi, %rax
	addq	$-8, %rax
	cmpq	$32, %rax
	movq	40(%rsp), %r10
	jae	.Ldcsctp_BB6_53
	xorl	%eax, %eax
	jmp	.Ldcsctp_BB6_93
.Ldcsctp_BB6_53:
	cmpl	$16, %ebx
	jae	.Ldcsctp_BB6_86
	xorl	%eax, %eax
	jmp	.Ldcsctp_BB6_90
.Ldcsctp_BB6_55:
	cmpl	$32, %r14d
	jae	.Ldcsctp_BB6_100
	xorl	%eax, %eax
	jmp	.Ldcsctp_BB6_104
.Ldcsctp_BB6_57:
	movq	40(%rsp), %r10
	jmp	.Ldcsctp_BB6_66
.Ldcsctp_BB6_58:
	movq	40(%rsp), %r10
	jmp	.Ldcsctp_BB6_79
.Ldcsctp_BB6_59:
	movq	%r14, %rax
	andq	$-32, %rax
	xorl	%ecx, %ecx
	.p2align	4
.Ldcsctp_BB6_60:
	movdqu	(%r15,%rcx), %xmm0
	movdqu	16(%r15,%rcx), %xmm1
	movdqu	%xmm0, (%r12,%rcx)
	movdqu	%xmm1, 16(%r12,%rcx)
	addq	$32, %rcx
	cmpq	%rcx, %rax
	jne	.Ldcsctp_BB6_60
	cmpq	%rax, %r14
	je	.Ldcsctp_BB6_71
	testb	$28, %r14b
	je	.Ldcsctp_BB6_66
.Ldcsctp_BB6_63:
	movq	%rax, %rcx
	movq	%r14, %rax
	andq	$-4, %rax
	.p2align	4
.Ldcsctp_BB6_64:
	movl	(%r15,%rcx), %edx
	movl	%edx, (%r12,%rcx)
	addq	$4, %rcx
	cmpq	%rcx, %rax
	jne	.Ldcsctp_BB6_64
	cmpq	%rax, %r14
	je	.Ldcsctp_BB6_71
.Ldcsctp_BB6_66:
	movq	%r14, %rdx
	movq	%rax, %rcx
	andq	$3, %rdx
	je	.Ldcsctp_BB6_69
	movq	%rax, %rcx
	.p2align	4
.Ldcsctp_BB6_68:
	movzbl	(%r15,%rcx), %r8d
	movb	%r8b, (%r12,%rcx)
	incq	%rcx
	decq	%rdx
	jne	.Ldcsctp_BB6_68
.Ldcsctp_BB6_69:
	subq	%r14, %rax
	cmpq	$-4, %rax
	ja	.Ldcsctp_BB6_71
	.p2align	4
.Ldcsctp_BB6_70:
	movzbl	(%r15,%rcx), %eax
	movb	%al, (%r12,%rcx)
	movzbl	1(%r15,%rcx), %eax
	movb	%al, 1(%r12,%rcx)
	movzbl	2(%r15,%rcx), %eax
	movb	%al, 2(%r12,%rcx)
	movzbl	3(%r15,%rcx), %eax
	movb	%al, 3(%r12,%rcx)
	addq	$4, %rcx
	cmpq	%rcx, %r14
	jne	.Ldcsctp_BB6_70
.Ldcsctp_BB6_71:
	movq	(%r10), %rax
	movq	8(%r10), %rcx
	leaq	(%rcx,%rcx,4), %rdx
	movb	$4, (%rax,%rdx,8)
	jmp	.Ldcsctp_BB6_85
.Ldcsctp_BB6_72:
	movq	%r14, %rax
	andq	$-32, %rax
	xorl	%ecx, %ecx
	.p2align	4
.Ldcsctp_BB6_73:
	movdqu	(%r15,%rcx), %xmm0
	movdqu	16(%r15,%rcx), %xmm1
	movdqu	%xmm0, (%r12,%rcx)
	movdqu	%xmm1, 16(%r12,%rcx)
	addq	$32, %rcx
	cmpq	%rcx, %rax
	jne	.Ldcsctp_BB6_73
	cmpq	%rax, %r14
	je	.Ldcsctp_BB6_84
	testb	$28, %r14b
	je	.Ldcsctp_BB6_79
.Ldcsctp_BB6_76:
	movq	%rax, %rcx
	movq	%r14, %rax
	andq	$-4, %rax
	.p2align	4
.Ldcsctp_BB6_77:
	movl	(%r15,%rcx), %edx
	movl	%edx, (%r12,%rcx)
	addq	$4, %rcx
	cmpq	%rcx, %rax
	jne	.Ldcsctp_BB6_77
	cmpq	%rax, %r14
	je	.Ldcsctp_BB6_84
.Ldcsctp_BB6_79:
	movq	%r14, %rdx
	movq	%rax, %rcx
	andq	$3, %rdx
	je	.Ldcsctp_BB6_82
	movq	%rax, %rcx
	.p2align	4
.Ldcsctp_BB6_81:
	movzbl	(%r15,%rcx), %r8d
	movb	%r8b, (%r12,%rcx)
	incq	%rcx
	decq	%rdx
	jne	.Ldcsctp_BB6_81
.Ldcsctp_BB6_82:
	subq	%r14, %rax
	cmpq	$-4, %rax
	ja	.Ldcsctp_BB6_84
	.p2align	4
.Ldcsctp_BB6_83:
	movzbl	(%r15,%rcx), %eax
	movb	%al, (%r12,%rcx)
	movzbl	1(%r15,%rcx), %eax
	movb	%al, 1(%r12,%rcx)
	movzbl	2(%r15,%rcx), %eax
	movb	%al, 2(%r12,%rcx)
	movzbl	3(%r15,%rcx), %eax
	movb	%al, 3(%r12,%rcx)
	addq	$4, %rcx
	cmpq	%rcx, %r14
	jne	.Ldcsctp_BB6_83
.Ldcsctp_BB6_84:
	movq	(%r10), %rax
	movq	8(%r10), %rcx
	leaq	(%rcx,%rcx,4), %rdx
	movb	$5, (%rax,%rdx,8)
.Ldcsctp_BB6_85:
	movl	$0, 4(%rax,%rdx,8)
	movq	%r12, 8(%rax,%rdx,8)
	movq	%r14, 16(%rax,%rdx,8)
	movq	%r14, 24(%rax,%rdx,8)
	movq	$0, 32(%rax,%rdx,8)
	jmp	.Ldcsctp_BB6_99
.Ldcsctp_BB6_86:
	movl	%ebx, %eax
	andl	$-16, %eax
	andq	$-32, %r14
	xorl	%ecx, %ecx
	.p2align	4
.Ldcsctp_BB6_87:
	movdqa	.Ldcsctp_CPI6_0(%rip), %xmm0
	movdqu	8(%rdi,%rcx), %xmm1
	movdqu	24(%rdi,%rcx), %xmm2
	pshufb	%xmm0, %xmm1
	pshufb	%xmm0, %xmm2
	movdqu	%xmm1, (%rdx,%rcx)
	movdqu	%xmm2, 16(%rdx,%rcx)
	addq	$32, %rcx
	cmpq	%rcx, %r14
	jne	.Ldcsctp_BB6_87
	cmpl	%ebx, %eax
	je	.Ldcsctp_BB6_98
	testb	$12, %bl
	je	.Ldcsctp_BB6_93
.Ldcsctp_BB6_90:
	movq	%rax, %rcx
	movl	%ebx, %eax
	andl	$-4, %eax
	.p2align	4
.Ldcsctp_BB6_91:
	movq	8(%rdi,%rcx,2), %xmm0
	pshufb	.Ldcsctp_CPI6_1(%rip), %xmm0
	movq	%xmm0, (%rdx,%rcx,2)
	addq	$4, %rcx
	cmpq	%rcx, %rax
	jne	.Ldcsctp_BB6_91
	cmpl	%ebx, %eax
	je	.Ldcsctp_BB6_98
.Ldcsctp_BB6_93:
	movq	%rbx, %r8
	movq	%rax, %rcx
	andq	$3, %r8
	je	.Ldcsctp_BB6_96
	movq	%rax, %rcx
	.p2align	4
.Ldcsctp_BB6_95:
	movzwl	8(%rdi,%rcx,2), %r9d
	rolw	$8, %r9w
	movw	%r9w, (%rdx,%rcx,2)
	incq	%rcx
	decq	%r8
	jne	.Ldcsctp_BB6_95
.Ldcsctp_BB6_96:
	subq	%rbx, %rax
	cmpq	$-4, %rax
	ja	.Ldcsctp_BB6_98
	.p2align	4
.Ldcsctp_BB6_97:
	movzwl	8(%rdi,%rcx,2), %eax
	rolw	$8, %ax
	movw	%ax, (%rdx,%rcx,2)
	movzwl	10(%rdi,%rcx,2), %eax
	rolw	$8, %ax
	movw	%ax, 2(%rdx,%rcx,2)
	movzwl	12(%rdi,%rcx,2), %eax
	rolw	$8, %ax
	movw	%ax, 4(%rdx,%rcx,2)
	movzwl	14(%rdi,%rcx,2), %eax
	rolw	$8, %ax
	movw	%ax, 6(%rdx,%rcx,2)
	addq	$4, %rcx
	cmpq	%rcx, %rbx
	jne	.Ldcsctp_BB6_97
.Ldcsctp_BB6_98:
	movq	(%r10), %rax
	movq	8(%r10), %rcx
	leaq	(%rcx,%rcx,4), %r8
	movb	$0, (%rax,%r8,8)
	movl	$0, 4(%rax,%r8,8)
	movq	%rdx, 8(%rax,%r8,8)
	movq	%rbx, 16(%rax,%r8,8)
	movq	%rbx, 24(%rax,%r8,8)
	movq	$0, 32(%rax,%r8,8)
.Ldcsctp_BB6_99:
	incq	%rcx
	jmp	.Ldcsctp_BB6_11
.Ldcsctp_BB6_100:
	movq	%r14, %rax
	andq	$-32, %rax
	xorl	%ecx, %ecx
	.p2align	4
.Ldcsctp_BB6_101:
	movdqu	4(%rdi,%rcx), %xmm0
	movdqu	20(%rdi,%rcx), %xmm1
	movdqu	%xmm0, (%r15,%rcx)
	movdqu	%xmm1, 16(%r15,%rcx)
	addq	$32, %rcx
	cmpq	%rcx, %rax
	jne	.Ldcsctp_BB6_101
	cmpl	%eax, %r14d
	je	.Ldcsctp_BB6_112
	testb	$28, %r14b
	je	.Ldcsctp_BB6_107
.Ldcsctp_BB6_104:
	movq	%rax, %rcx
	movq	%r14, %rax
	andq	$-4, %rax
	.p2align	4
.Ldcsctp_BB6_105:
	movl	(%rdx,%rcx), %r8d
	movl	%r8d, (%r15,%rcx)
	addq	$4, %rcx
	cmpq	%rcx, %rax
	jne	.Ldcsctp_BB6_105
	cmpl	%eax, %r14d
	je	.Ldcsctp_BB6_112
	jmp	.Ldcsctp_BB6_107
.Ldcsctp_BB6_116:
	movl	$0, 36(%rsp)
.Ldcsctp_BB6_117:
	movl	36(%rsp), %eax
	addq	$72, %rsp
	popq	%rbx
	popq	%rbp
	popq	%rdi
	popq	%rsi
	popq	%r12
	popq	%r13
	popq	%r14
	popq	%r15
	retq
.Ldcsctp_BB6_118:
	movb	$1, %al
	movl	%eax, 36(%rsp)
	jmp	.Ldcsctp_BB6_117
	.section	.rdata,"dr"
	.p2align	2, 0x0
.Ldcsctp_JTI6_0:
	.long	.Ldcsctp_BB6_15-.Ldcsctp_JTI6_0
	.long	.Ldcsctp_BB6_19-.Ldcsctp_JTI6_0
	.long	.Ldcsctp_BB6_19-.Ldcsctp_JTI6_0
	.long	.Ldcsctp_BB6_19-.Ldcsctp_JTI6_0
	.long	.Ldcsctp_BB6_19-.Ldcsctp_JTI6_0
	.long	.Ldcsctp_BB6_19-.Ldcsctp_JTI6_0
	.long	.Ldcsctp_BB6_19-.Ldcsctp_JTI6_0
	.long	.Ldcsctp_BB6_25-.Ldcsctp_JTI6_0
	.long	.Ldcsctp_BB6_10-.Ldcsctp_JTI6_0
	.long	.Ldcsctp_BB6_19-.Ldcsctp_JTI6_0
	.long	.Ldcsctp_BB6_26-.Ldcsctp_JTI6_0
	.long	.Ldcsctp_BB6_34-.Ldcsctp_JTI6_0
	.text
	.seh_endproc
	.def	core.str.utf8.from_utf8;
	.scl	3;
	.type	32;
	.endef
	.p2align	4
core.str.utf8.from_utf8:
.seh_proc core.str.utf8.from_utf8
	pushq	%r15
	.seh_pushreg %r15
	pushq	%r14
	.seh_pushreg %r14
	pushq	%rsi
	.seh_pushreg %rsi
	pushq	%rdi
	.seh_pushreg %rdi
	pushq	%rbp
	.seh_pushreg %rbp
	pushq	%rbx
	.seh_pushreg %rbx
	subq	$56, %rsp
	.seh_stackalloc 56
	.seh_endprologue
	movq	%r8, %rbx
	movq	%rdx, %rdi
	movq	%rcx, %rsi
	testq	%r8, %r8
	je	.Ldcsctp_BB7_57
	movabsq	$-9187201950435737472, %r14
	leaq	-8(%rbx), %r15
	xorl	%ecx, %ecx
	jmp	.Ldcsctp_BB7_5
.Ldcsctp_BB7_25:
	movl	$1, %r9d
.Ldcsctp_BB7_3:
	addq	%rcx, %r9
.Ldcsctp_BB7_4:
	movq	%r9, %rcx
	cmpq	%rbx, %r9
	jae	.Ldcsctp_BB7_57
.Ldcsctp_BB7_5:
	movzbl	(%rdi,%rcx), %r8d
	testb	%r8b, %r8b
	sets	%dl
	movq	%rbx, %rax
	subq	%rcx, %rax
	cmpq	$2, %rax
	setb	%r9b
	orb	%dl, %r9b
	jne	.Ldcsctp_BB7_2
	cmpb	$0, 1(%rdi,%rcx)
	js	.Ldcsctp_BB7_25
	movq	%rdi, 40(%rsp)
	movq	%rbx, 48(%rsp)
	cmpq	$7, %rax
	ja	.Ldcsctp_BB7_26
	cmpb	$0, (%rdi,%rcx)
	js	.Ldcsctp_BB7_36
	leaq	1(%rcx), %r9
	cmpq	%rbx, %r9
	je	.Ldcsctp_BB7_57
	cmpb	$0, (%rdi,%r9)
	js	.Ldcsctp_BB7_4
	leaq	2(%rcx), %r9
	cmpq	%rbx, %r9
	je	.Ldcsctp_BB7_57
	cmpb	$0, (%rdi,%r9)
	js	.Ldcsctp_BB7_4
	leaq	3(%rcx), %r9
	cmpq	%rbx, %r9
	je	.Ldcsctp_BB7_57
	cmpb	$0, (%rdi,%r9)
	js	.Ldcsctp_BB7_4
	leaq	4(%rcx), %r9
	cmpq	%rbx, %r9
	je	.Ldcsctp_BB7_57
	cmpb	$0, (%rdi,%r9)
	js	.Ldcsctp_BB7_4
	leaq	5(%rcx), %r9
	cmpq	%rbx, %r9
	je	.Ldcsctp_BB7_57
	cmpb	$0, (%rdi,%r9)
	js	.Ldcsctp_BB7_4
	addq	$6, %rcx
	cmpq	%rbx, %rcx
	je	.Ldcsctp_BB7_57
	cmpb	$0, (%rdi,%rcx)
	movq	%rcx, %r9
	js	.Ldcsctp_BB7_4
	jmp	.Ldcsctp_BB7_57
	.p2align	4
.Ldcsctp_BB7_2:
	movl	$1, %r9d
	testb	%r8b, %r8b
	jns	.Ldcsctp_BB7_3
	movl	$257, %edx
	cmpb	$-62, %r8b
	jb	.Ldcsctp_BB7_66
	cmpb	$-33, %r8b
	ja	.Ldcsctp_BB7_29
	cmpq	$2, %rax
	jb	.Ldcsctp_BB7_58
	movzbl	1(%rdi,%rcx), %r10d
	movl	$2, %r9d
	cmpb	$-65, %r10b
	jle	.Ldcsctp_BB7_3
	jmp	.Ldcsctp_BB7_60
.Ldcsctp_BB7_26:
	movq	(%rdi,%rcx), %rax
	andq	%r14, %rax
	je	.Ldcsctp_BB7_37
	rep		bsfq	%rax, %rax
	shrl	$3, %eax
	addq	%rcx, %rax
	addq	$8, %rcx
	movq	%rax, %r9
	cmpq	%rcx, %rax
	jb	.Ldcsctp_BB7_4
	movq	%rbx, %rcx
	subq	%rax, %rcx
	cmpq	$32, %rcx
	jae	.Ldcsctp_BB7_38
	jmp	.Ldcsctp_BB7_40
.Ldcsctp_BB7_29:
	cmpb	$-17, %r8b
	ja	.Ldcsctp_BB7_48
	cmpq	$3, %rax
	jb	.Ldcsctp_BB7_55
	movzbl	1(%rdi,%rcx), %r10d
	cmpb	$-65, %r10b
	jg	.Ldcsctp_BB7_60
	cmpb	$-65, 2(%rdi,%rcx)
	jg	.Ldcsctp_BB7_60
	movzbl	%r10b, %r9d
	movl	%r8d, %r11d
	shll	$6, %r11d
	addl	%r9d, %r11d
	addl	$-14464, %r11d
	cmpl	$32, %r11d
	jb	.Ldcsctp_BB7_60
	xorl	%r10d, %r10d
	cmpl	$896, %r11d
	setae	%bpl
	movl	$3, %r9d
	cmpl	$864, %r11d
	jb	.Ldcsctp_BB7_3
	movb	%bpl, %r10b
	leaq	(%r10,%r10,2), %r9
	testq	%r9, %r9
	jne	.Ldcsctp_BB7_3
	jmp	.Ldcsctp_BB7_54
.Ldcsctp_BB7_36:
	movq	%rcx, %r9
	jmp	.Ldcsctp_BB7_4
.Ldcsctp_BB7_37:
	addq	$8, %rcx
	movq	%rcx, %rax
	movq	%rbx, %rcx
	subq	%rax, %rcx
	cmpq	$32, %rcx
	jb	.Ldcsctp_BB7_40
	.p2align	4
.Ldcsctp_BB7_38:
	movdqu	(%rdi,%rax), %xmm0
	movdqu	16(%rdi,%rax), %xmm1
	por	%xmm0, %xmm1
	pshufd	$238, %xmm1, %xmm0
	por	%xmm1, %xmm0
	movq	%xmm0, %rcx
	testq	%r14, %rcx
	jne	.Ldcsctp_BB7_40
	addq	$32, %rax
	leaq	40(%rsp), %rcx
	movq	%rax, %rdx
	movq	%rbx, %r8
	callq	core.slice.words.skip_far.52f9edcae2f82f51
	movq	%rbx, %rcx
	subq	%rax, %rcx
	cmpq	$31, %rcx
	ja	.Ldcsctp_BB7_38
.Ldcsctp_BB7_40:
	movq	%rbx, %rcx
	subq	%rax, %rcx
	jmp	.Ldcsctp_BB7_43
	.p2align	4
.Ldcsctp_BB7_41:
	rep		bsfq	%rdx, %r9
	shrl	$3, %r9d
	addq	%rax, %r9
	addq	$8, %rax
	addq	$-8, %rcx
	cmpq	%rax, %r9
	jb	.Ldcsctp_BB7_4
.Ldcsctp_BB7_43:
	cmpq	$9, %rcx
	jb	.Ldcsctp_BB7_46
	movq	(%rdi,%rax), %rdx
	andq	%r14, %rdx
	jne	.Ldcsctp_BB7_41
	leaq	8(%rax), %r9
	addq	$8, %rax
	addq	$-8, %rcx
	cmpq	%rax, %r9
	jae	.Ldcsctp_BB7_43
	jmp	.Ldcsctp_BB7_4
.Ldcsctp_BB7_46:
	movq	(%rdi,%r15), %rax
	andq	%r14, %rax
	je	.Ldcsctp_BB7_57
	rep		bsfq	%rax, %r9
	shrl	$3, %r9d
	addq	%r15, %r9
	jmp	.Ldcsctp_BB7_4
.Ldcsctp_BB7_48:
	cmpq	$4, %rax
	jb	.Ldcsctp_BB7_54
	movzbl	1(%rdi,%rcx), %r9d
	cmpb	$-65, %r9b
	jg	.Ldcsctp_BB7_54
	cmpb	$-65, 2(%rdi,%rcx)
	jg	.Ldcsctp_BB7_54
	cmpb	$-65, 3(%rdi,%rcx)
	jg	.Ldcsctp_BB7_54
	movl	%r8d, %r10d
	shll	$6, %r10d
	leal	(%r10,%r9), %r11d
	addl	$-15488, %r11d
	xorl	%r9d, %r9d
	cmpl	$272, %r11d
	setb	%r10b
	cmpl	$16, %r11d
	jb	.Ldcsctp_BB7_54
	movb	%r10b, %r9b
	shll	$2, %r9d
	testq	%r9, %r9
	jne	.Ldcsctp_BB7_3
.Ldcsctp_BB7_54:
	cmpb	$-12, %r8b
	ja	.Ldcsctp_BB7_66
.Ldcsctp_BB7_55:
	cmpq	$2, %rax
	jb	.Ldcsctp_BB7_58
	movzbl	1(%rdi,%rcx), %r10d
.Ldcsctp_BB7_60:
	cmpl	$240, %r8d
	sete	%r9b
	shlb	$4, %r9b
	orb	$-128, %r9b
	cmpl	$224, %r8d
	movzbl	%r9b, %r9d
	movl	$160, %r11d
	cmovnel	%r9d, %r11d
	cmpl	$244, %r8d
	movl	$143, %r9d
	movl	$191, %ebx
	cmovel	%r9d, %ebx
	cmpl	$237, %r8d
	movl	$159, %r8d
	cmovnel	%ebx, %r8d
	cmpb	%r10b, %r11b
	ja	.Ldcsctp_BB7_66
	cmpb	%r8b, %r10b
	ja	.Ldcsctp_BB7_66
	cmpq	$2, %rax
	jne	.Ldcsctp_BB7_64
.Ldcsctp_BB7_58:
	xorl	%edx, %edx
.Ldcsctp_BB7_66:
	movq	$1, (%rsi)
	movq	%rcx, 8(%rsi)
	movq	%rdx, 16(%rsi)
	jmp	.Ldcsctp_BB7_67
.Ldcsctp_BB7_57:
	movq	$0, (%rsi)
	movq	%rdi, 8(%rsi)
	movq	%rbx, 16(%rsi)
.Ldcsctp_BB7_67:
	addq	$56, %rsp
	popq	%rbx
	popq	%rbp
	popq	%rdi
	popq	%rsi
	popq	%r14
	popq	%r15
	retq
.Ldcsctp_BB7_64:
	movl	$513, %edx
	cmpb	$-65, 2(%rdi,%rcx)
	jg	.Ldcsctp_BB7_66
	xorl	%r8d, %r8d
	cmpq	$4, %rax
	movl	$769, %edx
	cmovbq	%r8, %rdx
	jmp	.Ldcsctp_BB7_66
	.seh_endproc
	.def	core.slice.words.skip_far.52f9edcae2f82f51;
	.scl	3;
	.type	32;
	.endef
	.section	.rdata,"dr"
	.p2align	4, 0x0
.Ldcsctp_CPI8_0:
	.zero	16,128
	.text
	.p2align	4
core.slice.words.skip_far.52f9edcae2f82f51:
	movq	%rdx, %rax
	subq	%rdx, %r8
	cmpq	$64, %r8
	jb	.Ldcsctp_BB8_4
	movq	(%rcx), %rcx
	.p2align	4
.Ldcsctp_BB8_2:
	movdqu	(%rcx,%rax), %xmm0
	movdqu	16(%rcx,%rax), %xmm1
	movdqu	32(%rcx,%rax), %xmm2
	por	%xmm0, %xmm2
	movdqu	48(%rcx,%rax), %xmm0
	por	%xmm1, %xmm0
	por	%xmm2, %xmm0
	ptest	.Ldcsctp_CPI8_0(%rip), %xmm0
	jne	.Ldcsctp_BB8_4
	addq	$64, %rax
	addq	$-64, %r8
	cmpq	$63, %r8
	ja	.Ldcsctp_BB8_2
.Ldcsctp_BB8_4:
	retq
	.def	std_alloc.vec.Vec.drop.765a829dcb308622;
	.scl	3;
	.type	32;
	.endef
	.p2align	4
std_alloc.vec.Vec.drop.765a829dcb308622:
.seh_proc std_alloc.vec.Vec.drop.765a829dcb308622
	pushq	%r14
	.seh_pushreg %r14
	pushq	%rsi
	.seh_pushreg %rsi
	pushq	%rdi
	.seh_pushreg %rdi
	pushq	%rbx
	.seh_pushreg %rbx
	subq	$40, %rsp
	.seh_stackalloc 40
	.seh_endprologue
	movq	(%rcx), %rsi
	movq	8(%rcx), %rbx
	movq	16(%rcx), %rdi
	testq	%rbx, %rbx
	je	.Ldcsctp_BB9_10
	leaq	40(%rsi), %r14
	jmp	.Ldcsctp_BB9_2
	.p2align	4
.Ldcsctp_BB9_8:
	callq	rattle_dealloc
.Ldcsctp_BB9_9:
	addq	$48, %r14
	decq	%rbx
	je	.Ldcsctp_BB9_10
.Ldcsctp_BB9_2:
	movzbl	-40(%r14), %r9d
	movq	-32(%r14), %rcx
	movq	-24(%r14), %rax
	movq	-16(%r14), %rdx
	movq	-8(%r14), %r8
	leaq	.Ldcsctp_JTI9_0(%rip), %r10
	movslq	(%r10,%r9,4), %r9
	addq	%r10, %r9
	jmpq	*%r9
.Ldcsctp_BB9_5:
	testq	%rdx, %rdx
	jne	.Ldcsctp_BB9_8
	jmp	.Ldcsctp_BB9_9
.Ldcsctp_BB9_6:
	testq	%r8, %r8
	je	.Ldcsctp_BB9_9
	movq	%rax, %rcx
	jmp	.Ldcsctp_BB9_8
.Ldcsctp_BB9_3:
	cmpq	$0, (%r14)
	je	.Ldcsctp_BB9_9
	movq	%rdx, %rcx
	jmp	.Ldcsctp_BB9_8
.Ldcsctp_BB9_10:
	testq	%rdi, %rdi
	je	.Ldcsctp_BB9_11
	movq	%rsi, %rcx
	addq	$40, %rsp
	popq	%rbx
	popq	%rdi
	popq	%rsi
	popq	%r14
	jmp	rattle_dealloc
.Ldcsctp_BB9_11:
	addq	$40, %rsp
	popq	%rbx
	popq	%rdi
	popq	%rsi
	popq	%r14
	retq
	.section	.rdata,"dr"
	.p2align	2, 0x0
.Ldcsctp_JTI9_0:
	.long	.Ldcsctp_BB9_5-.Ldcsctp_JTI9_0
	.long	.Ldcsctp_BB9_5-.Ldcsctp_JTI9_0
	.long	.Ldcsctp_BB9_3-.Ldcsctp_JTI9_0
	.long	.Ldcsctp_BB9_6-.Ldcsctp_JTI9_0
	.long	.Ldcsctp_BB9_9-.Ldcsctp_JTI9_0
	.long	.Ldcsctp_BB9_9-.Ldcsctp_JTI9_0
	.long	.Ldcsctp_BB9_9-.Ldcsctp_JTI9_0
	.long	.Ldcsctp_BB9_9-.Ldcsctp_JTI9_0
	.long	.Ldcsctp_BB9_9-.Ldcsctp_JTI9_0
	.long	.Ldcsctp_BB9_5-.Ldcsctp_JTI9_0
	.long	.Ldcsctp_BB9_9-.Ldcsctp_JTI9_0
	.long	.Ldcsctp_BB9_6-.Ldcsctp_JTI9_0
	.text
	.seh_endproc
	.def	std_alloc.vec.Vec.drop.694f3e952ffd1e0b;
	.scl	3;
	.type	32;
	.endef
	.p2align	4
std_alloc.vec.Vec.drop.694f3e952ffd1e0b:
.seh_proc std_alloc.vec.Vec.drop.694f3e952ffd1e0b
	pushq	%r14
	.seh_pushreg %r14
	pushq	%rsi
	.seh_pushreg %rsi
	pushq	%rdi
	.seh_pushreg %rdi
	pushq	%rbx
	.seh_pushreg %rbx
	subq	$40, %rsp
	.seh_stackalloc 40
	.seh_endprologue
	movq	(%rcx), %rsi
	movq	8(%rcx), %rbx
	movq	16(%rcx), %rdi
	testq	%rbx, %rbx
	je	.Ldcsctp_BB10_8
	leaq	32(%rsi), %r14
	jmp	.Ldcsctp_BB10_2
	.p2align	4
.Ldcsctp_BB10_6:
	callq	rattle_dealloc
.Ldcsctp_BB10_7:
	addq	$40, %r14
	decq	%rbx
	je	.Ldcsctp_BB10_8
.Ldcsctp_BB10_2:
	movzbl	-32(%r14), %edx
	movq	-24(%r14), %rcx
	movq	-8(%r14), %rax
	leaq	.Ldcsctp_JTI10_0(%rip), %r8
	movslq	(%r8,%rdx,4), %rdx
	addq	%r8, %rdx
	jmpq	*%rdx
.Ldcsctp_BB10_3:
	testq	%rax, %rax
	jne	.Ldcsctp_BB10_6
	jmp	.Ldcsctp_BB10_7
.Ldcsctp_BB10_4:
	cmpq	$0, (%r14)
	je	.Ldcsctp_BB10_7
	movq	-16(%r14), %rcx
	jmp	.Ldcsctp_BB10_6
.Ldcsctp_BB10_8:
	testq	%rdi, %rdi
	je	.Ldcsctp_BB10_9
	movq	%rsi, %rcx
	addq	$40, %rsp
	popq	%rbx
	popq	%rdi
	popq	%rsi
	popq	%r14
	jmp	rattle_dealloc
.Ldcsctp_BB10_9:
	addq	$40, %rsp
	popq	%rbx
	popq	%rdi
	popq	%rsi
	popq	%r14
	retq
	.section	.rdata,"dr"
	.p2align	2, 0x0
.Ldcsctp_JTI10_0:
	.long	.Ldcsctp_BB10_3-.Ldcsctp_JTI10_0
	.long	.Ldcsctp_BB10_3-.Ldcsctp_JTI10_0
	.long	.Ldcsctp_BB10_7-.Ldcsctp_JTI10_0
	.long	.Ldcsctp_BB10_7-.Ldcsctp_JTI10_0
	.long	.Ldcsctp_BB10_3-.Ldcsctp_JTI10_0
	.long	.Ldcsctp_BB10_3-.Ldcsctp_JTI10_0
	.long	.Ldcsctp_BB10_4-.Ldcsctp_JTI10_0
	.text
	.seh_endproc
	.def	sctp_show.text.text_of;
	.scl	3;
	.type	32;
	.endef
	.section	.rdata,"dr"
	.p2align	4, 0x0
.Ldcsctp_CPI11_0:
	.byte	85
	.byte	110
	.byte	107
	.byte	110
	.byte	111
	.byte	119
	.byte	110
	.byte	32
	.byte	99
	.byte	104
	.byte	117
	.byte	110
	.byte	107
	.byte	44
	.byte	32
	.byte	116
.Ldcsctp_CPI11_1:
	.byte	65
	.byte	66
	.byte	79
	.byte	82
	.byte	84
	.byte	44
	.byte	32
	.byte	116
	.byte	97
	.byte	103
	.byte	95
	.byte	114
	.byte	101
	.byte	102
	.byte	108
	.byte	101
.Ldcsctp_CPI11_2:
	.byte	73
	.byte	78
	.byte	73
	.byte	84
	.byte	45
	.byte	65
	.byte	67
	.byte	75
	.byte	44
	.byte	32
	.byte	105
	.byte	110
	.byte	105
	.byte	116
	.byte	105
	.byte	97
.Ldcsctp_CPI11_3:
	.byte	73
	.byte	78
	.byte	73
	.byte	84
	.byte	44
	.byte	32
	.byte	105
	.byte	110
	.byte	105
	.byte	116
	.byte	105
	.byte	97
	.byte	116
	.byte	101
	.byte	95
	.byte	116
.Ldcsctp_CPI11_4:
	.byte	73
	.byte	45
	.byte	70
	.byte	79
	.byte	82
	.byte	87
	.byte	65
	.byte	82
	.byte	68
	.byte	45
	.byte	84
	.byte	83
	.byte	78
	.byte	44
	.byte	32
	.byte	110
.Ldcsctp_CPI11_5:
	.byte	101
	.byte	119
	.byte	95
	.byte	99
	.byte	117
	.byte	109
	.byte	117
	.byte	108
	.byte	97
	.byte	116
	.byte	105
	.byte	118
	.byte	101
	.byte	95
	.byte	116
	.byte	115
.Ldcsctp_CPI11_6:
	.byte	70
	.byte	79
	.byte	82
	.byte	87
	.byte	65
	.byte	82
	.byte	68
	.byte	45
	.byte	84
	.byte	83
	.byte	78
	.byte	44
	.byte	32
	.byte	110
	.byte	101
	.byte	119
.Ldcsctp_CPI11_7:
	.byte	95
	.byte	99
	.byte	117
	.byte	109
	.byte	117
	.byte	108
	.byte	97
	.byte	116
	.byte	105
	.byte	118
	.byte	101
	.byte	95
	.byte	116
	.byte	115
	.byte	110
	.byte	61
.Ldcsctp_CPI11_8:
	.byte	67
	.byte	79
	.byte	79
	.byte	75
	.byte	73
	.byte	69
	.byte	45
	.byte	69
	.byte	67
	.byte	72
	.byte	79
	.byte	44
	.byte	32
	.byte	99
	.byte	111
	.byte	111
.Ldcsctp_CPI11_9:
	.byte	83
	.byte	65
	.byte	67
	.byte	75
	.byte	44
	.byte	32
	.byte	99
	.byte	117
	.byte	109
	.byte	95
	.byte	97
	.byte	99
	.byte	107
	.byte	95
	.byte	116
	.byte	115
.Ldcsctp_CPI11_10:
	.byte	83
	.byte	72
	.byte	85
	.byte	84
	.byte	68
	.byte	79
	.byte	87
	.byte	78
	.byte	45
	.byte	67
	.byte	79
	.byte	77
	.byte	80
	.byte	76
	.byte	69
	.byte	84
.Ldcsctp_CPI11_11:
	.byte	69
	.byte	44
	.byte	32
	.byte	116
	.byte	97
	.byte	103
	.byte	95
	.byte	114
	.byte	101
	.byte	102
	.byte	108
	.byte	101
	.byte	99
	.byte	116
	.byte	101
	.byte	100
.Ldcsctp_CPI11_12:
	.byte	83
	.byte	72
	.byte	85
	.byte	84
	.byte	68
	.byte	79
	.byte	87
	.byte	78
	.byte	32
	.byte	99
	.byte	117
	.byte	109
	.byte	117
	.byte	108
	.byte	97
	.byte	116
.Ldcsctp_CPI11_13:
	.byte	99
	.byte	97
	.byte	110
	.byte	111
	.byte	110
	.byte	105
	.byte	99
	.byte	97
	.byte	108
	.byte	32
	.byte	116
	.byte	111
	.byte	111
	.byte	32
	.byte	108
	.byte	111
	.text
	.p2align	4
sctp_show.text.text_of:
.seh_proc sctp_show.text.text_of
	pushq	%r15
	.seh_pushreg %r15
	pushq	%r14
	.seh_pushreg %r14
	pushq	%r13
	.seh_pushreg %r13
	pushq	%r12
	.seh_pushreg %r12
	pushq	%rsi
	.seh_pushreg %rsi
	pushq	%rdi
	.seh_pushreg %rdi
	pushq	%rbp
	.seh_pushreg %rbp
	pushq	%rbx
	.seh_pushreg %rbx
	subq	$552, %rsp
	.seh_stackalloc 552
	.seh_endprologue
	movq	%rdx, %rdi
	movq	%rcx, %rsi
	leaq	255(%rsp), %rax
	movq	%rax, 176(%rsp)
	xorps	%xmm0, %xmm0
	movups	%xmm0, 184(%rsp)
	movaps	%xmm0, 496(%rsp)
	movq	$0, 512(%rsp)
	movq	192(%rsp), %rax
	movq	%rax, 48(%rsp)
	movq	176(%rsp), %rax
	movq	%rax, 32(%rsp)
	movq	184(%rsp), %rax
	movq	%rax, 40(%rsp)
	movaps	%xmm0, 528(%rsp)
	movq	$0, 544(%rsp)
	movaps	%xmm0, 80(%rsp)
	movl	$32, 56(%rsp)
	movq	$0, 60(%rsp)
	movl	$0, 68(%rsp)
	movq	$-1, 72(%rsp)
	leaq	24(%rdx), %rax
	leaq	26(%rdx), %rcx
	leaq	28(%rdx), %rdx
	leaq	32(%rdi), %r8
	leaq	.Ldcsctp_static.3(%rip), %r14
	movq	%r14, 256(%rsp)
	movq	$7, 264(%rsp)
	movq	%rax, 272(%rsp)
	leaq	.Ldcsctp_static.4(%rip), %r12
	movq	%r12, 280(%rsp)
	movq	$13, 288(%rsp)
	movq	%rcx, 296(%rsp)
	leaq	.Ldcsctp_static.5(%rip), %r15
	movq	%r15, 304(%rsp)
	movq	$5, 312(%rsp)
	movq	%rdx, 320(%rsp)
	leaq	.Ldcsctp_static.6(%rip), %rbx
	movq	%rbx, 328(%rsp)
	movq	$10, 336(%rsp)
	movq	%r8, 344(%rsp)
	movups	56(%rsp), %xmm0
	movaps	%xmm0, 144(%rsp)
	movq	$-1, 160(%rsp)
	movl	$32, 56(%rsp)
	movl	$0, 68(%rsp)
	movq	$0, 60(%rsp)
	movq	$-1, 72(%rsp)
	movq	40(%rsp), %rax
	movq	48(%rsp), %rcx
	movq	%rcx, %rdx
	subq	%rax, %rdx
	cmpq	$6, %rdx
	jbe	.Ldcsctp_BB11_16
.Ldcsctp_BB11_1:
	leaq	272(%rsp), %rdx
	movq	32(%rsp), %r8
	leaq	(%r8,%rax), %r9
	addq	$7, %rax
	movq	%r9, %r10
	subq	%r14, %r10
	cmpq	$6, %r10
	ja	.Ldcsctp_BB11_3
	movl	$1920298867, (%r9)
	movw	$25955, 4(%r9)
	movb	$61, 6(%r9)
	jmp	.Ldcsctp_BB11_4
.Ldcsctp_BB11_3:
	movl	$1030054770, 3(%r9)
	movl	$1920298867, (%r9)
.Ldcsctp_BB11_4:
	movq	%r8, 32(%rsp)
	movq	%rax, 40(%rsp)
	movq	%rcx, 48(%rsp)
	leaq	32(%rsp), %rcx
	callq	core.fmt.formatter.Formatter.write_piece.9c544998babb2079
	testb	%al, %al
	jne	.Ldcsctp_BB11_424
	leaq	60(%rsp), %r14
	movl	$32, 56(%rsp)
	movl	$0, 8(%r14)
	movq	$0, (%r14)
	movq	$-1, 72(%rsp)
	cmpq	$0, 80(%rsp)
	jne	.Ldcsctp_BB11_411
	movq	40(%rsp), %rax
	movq	48(%rsp), %rcx
	movq	%rcx, %rdx
	subq	%rax, %rdx
	cmpq	$12, %rdx
	jbe	.Ldcsctp_BB11_412
.Ldcsctp_BB11_7:
	movq	32(%rsp), %rdx
	leaq	(%rdx,%rax), %r8
	addq	$13, %rax
	movq	%r8, %r10
	subq	%r12, %r10
	movabsq	$7020664817990329376, %r9
	cmpq	$12, %r10
	ja	.Ldcsctp_BB11_9
	movq	%r9, (%r8)
	movl	$1852795252, 8(%r8)
	movb	$61, 12(%r8)
	jmp	.Ldcsctp_BB11_10
.Ldcsctp_BB11_9:
	movabsq	$4426597982466567785, %r10
	movq	%r10, 5(%r8)
	movq	%r9, (%r8)
.Ldcsctp_BB11_10:
	movq	%rdx, 32(%rsp)
	movq	%rax, 40(%rsp)
	movq	%rcx, 48(%rsp)
.Ldcsctp_BB11_11:
	leaq	296(%rsp), %rdx
	leaq	32(%rsp), %rcx
	callq	core.fmt.formatter.Formatter.write_piece.9c544998babb2079
	testb	%al, %al
	jne	.Ldcsctp_BB11_424
	movl	$32, 56(%rsp)
	movl	$0, 8(%r14)
	movq	$0, (%r14)
	movq	$-1, 72(%rsp)
	cmpq	$0, 80(%rsp)
	jne	.Ldcsctp_BB11_414
	movq	40(%rsp), %rax
	movq	48(%rsp), %rcx
	movq	%rcx, %rdx
	subq	%rax, %rdx
	cmpq	$4, %rdx
	jbe	.Ldcsctp_BB11_415
.Ldcsctp_BB11_14:
	movq	32(%rsp), %rdx
	leaq	(%rdx,%rax), %r8
	addq	$5, %rax
	movq	%r8, %r9
	subq	%r15, %r9
	cmpq	$4, %r9
	ja	.Ldcsctp_BB11_18
	movl	$1734439968, (%r8)
	movb	$61, 4(%r8)
	jmp	.Ldcsctp_BB11_19
.Ldcsctp_BB11_16:
	leaq	32(%rsp), %rcx
	movl	$7, %edx
	callq	std_alloc.vec.Vec.grow_amortized.38fbb921ed00a393
	testb	%al, %al
	je	.Ldcsctp_BB11_424
	movq	40(%rsp), %rax
	movq	48(%rsp), %rcx
	jmp	.Ldcsctp_BB11_1
.Ldcsctp_BB11_18:
	movb	$61, 4(%r8)
	movl	$1734439968, (%r8)
.Ldcsctp_BB11_19:
	movq	%rdx, 32(%rsp)
	movq	%rax, 40(%rsp)
	movq	%rcx, 48(%rsp)
.Ldcsctp_BB11_20:
	leaq	320(%rsp), %rdx
	leaq	32(%rsp), %rcx
	callq	core.fmt.formatter.Formatter.write_piece.7d2ac8fd5c291299
	testb	%al, %al
	jne	.Ldcsctp_BB11_424
	movl	$32, 56(%rsp)
	movl	$0, 8(%r14)
	movq	$0, (%r14)
	movq	$-1, 72(%rsp)
	cmpq	$0, 80(%rsp)
	jne	.Ldcsctp_BB11_418
	movq	40(%rsp), %rax
	movq	48(%rsp), %rcx
	movq	%rcx, %rdx
	subq	%rax, %rdx
	cmpq	$9, %rdx
	jbe	.Ldcsctp_BB11_419
.Ldcsctp_BB11_23:
	movq	32(%rsp), %rdx
	leaq	(%rdx,%rax), %r8
	addq	$10, %rax
	movq	%r8, %r10
	subq	%rbx, %r10
	movabsq	$8463226199406568224, %r9
	cmpq	$9, %r10
	movq	%r9, (%r8)
	movw	$15725, 8(%r8)
	movq	%rdx, 32(%rsp)
	movq	%rax, 40(%rsp)
	movq	%rcx, 48(%rsp)
.Ldcsctp_BB11_24:
	leaq	56(%rsp), %rbp
	leaq	344(%rsp), %rdx
	leaq	32(%rsp), %rcx
	callq	core.fmt.formatter.Formatter.write_piece.7d2ac8fd5c291299
	movaps	144(%rsp), %xmm0
	movups	%xmm0, (%rbp)
	movq	160(%rsp), %rcx
	movq	%rcx, 16(%rbp)
	testb	%al, %al
	jne	.Ldcsctp_BB11_424
	movq	8(%rdi), %r13
	testq	%r13, %r13
	je	.Ldcsctp_BB11_406
	movq	(%rdi), %r11
	xorl	%ebx, %ebx
	movq	%r13, 216(%rsp)
	movq	%r11, 104(%rsp)
	.p2align	4
.Ldcsctp_BB11_27:
	movq	%rbx, %r12
	shlq	$6, %r12
	movq	16(%rbp), %rax
	movq	%rax, 480(%rsp)
	movups	(%rbp), %xmm0
	movaps	%xmm0, 464(%rsp)
	movl	$32, 56(%rsp)
	movl	$0, 8(%r14)
	movq	$0, (%r14)
	movq	$-1, 72(%rsp)
	cmpq	$0, 80(%rsp)
	jne	.Ldcsctp_BB11_34
	movq	40(%rsp), %rax
	movq	48(%rsp), %rcx
	cmpq	%rax, %rcx
	je	.Ldcsctp_BB11_40
.Ldcsctp_BB11_29:
	movq	32(%rsp), %rdx
	movb	$10, (%rdx,%rax)
	incq	%rax
	movq	%rdx, 32(%rsp)
	movq	%rax, 40(%rsp)
	movq	%rcx, 48(%rsp)
	movl	$32, 56(%rsp)
	movl	$0, 8(%r14)
	movq	$0, (%r14)
	movq	$-1, 72(%rsp)
	movzbl	(%r11,%r12), %eax
	leaq	.Ldcsctp_JTI11_0(%rip), %rcx
	movslq	(%rcx,%rax,4), %rax
	addq	%rcx, %rax
	jmpq	*%rax
.Ldcsctp_BB11_30:
	movzbl	44(%r11,%r12), %eax
	leaq	.Ldcsctp_static.24(%rip), %rcx
	leaq	.Ldcsctp_static.25(%rip), %rdx
	testb	$1, %al
	cmovneq	%rcx, %rdx
	movzbl	51(%r11,%r12), %ecx
	leaq	5(%rcx,%rcx,2), %r8
	leaq	.Ldcsctp_static.26(%rip), %r9
	leaq	.Ldcsctp_static.27(%rip), %r10
	movl	%ecx, %r11d
	xorb	$1, %r11b
	testq	%rcx, %rcx
	cmovneq	%r9, %r10
	movzbl	%r11b, %ecx
	movq	104(%rsp), %r11
	leaq	4(%rcx,%rcx), %r15
	leaq	.Ldcsctp_static.28(%rip), %rcx
	movq	%rbp, %r9
	leaq	.Ldcsctp_static.29(%rip), %rbp
	cmovneq	%rcx, %rbp
	cmpb	$0, 50(%r11,%r12)
	cmovneq	%r8, %r15
	cmovneq	%r10, %rbp
	leaq	7(%rax,%rax), %r8
	movl	56(%r11,%r12), %eax
	movl	%eax, 116(%rsp)
	movzwl	46(%r11,%r12), %eax
	movw	%ax, 204(%rsp)
	movzwl	48(%r11,%r12), %eax
	movl	40(%r11,%r12), %ecx
	movw	%ax, 200(%rsp)
	movl	%ecx, 208(%rsp)
	movq	16(%r11,%r12), %rax
	movq	%r8, %r11
	movq	%rax, 120(%rsp)
	leaq	.Ldcsctp_static.17(%rip), %r12
	movq	%r12, 256(%rsp)
	movq	$11, 264(%rsp)
	movq	%rdx, 272(%rsp)
	movq	%r8, 280(%rsp)
	leaq	.Ldcsctp_static.18(%rip), %rax
	movq	%rax, 288(%rsp)
	movq	$2, 296(%rsp)
	movq	%rbp, 304(%rsp)
	movq	%r15, 128(%rsp)
	movq	%r15, 312(%rsp)
	leaq	.Ldcsctp_static.19(%rip), %rax
	movq	%rax, 320(%rsp)
	movq	$6, 328(%rsp)
	leaq	116(%rsp), %rax
	movq	%rax, 336(%rsp)
	leaq	.Ldcsctp_static.20(%rip), %rax
	movq	%rax, 344(%rsp)
	movq	$6, 352(%rsp)
	leaq	204(%rsp), %rax
	movq	%rax, 360(%rsp)
	leaq	.Ldcsctp_static.21(%rip), %rax
	movq	%rax, 368(%rsp)
	movq	$6, 376(%rsp)
	leaq	200(%rsp), %rax
	movq	%rax, 384(%rsp)
	leaq	.Ldcsctp_static.22(%rip), %rax
	movq	%rax, 392(%rsp)
	movq	$7, 400(%rsp)
	leaq	208(%rsp), %rax
	movq	%rax, 408(%rsp)
	leaq	.Ldcsctp_static.23(%rip), %rax
	movq	%rax, 416(%rsp)
	movq	$9, 424(%rsp)
	leaq	120(%rsp), %rax
	movq	%rax, 432(%rsp)
	movl	$32, 56(%rsp)
	movl	$0, 8(%r14)
	movq	$0, (%r14)
	movq	$-1, 72(%rsp)
	movq	16(%r9), %rax
	movq	%rax, 160(%rsp)
	movups	(%r9), %xmm0
	movaps	%xmm0, 144(%rsp)
	movl	$32, 56(%rsp)
	movl	$0, 8(%r14)
	movq	$0, (%r14)
	movq	$-1, 72(%rsp)
	cmpq	$0, 80(%rsp)
	jne	.Ldcsctp_BB11_273
	movq	40(%rsp), %rax
	movq	48(%rsp), %rcx
	movq	%rcx, %r8
	subq	%rax, %r8
	cmpq	$10, %r8
	jbe	.Ldcsctp_BB11_304
.Ldcsctp_BB11_32:
	movq	32(%rsp), %r8
	leaq	(%r8,%rax), %r9
	movq	%r9, %r10
	subq	%r12, %r10
	cmpq	$10, %r10
	ja	.Ldcsctp_BB11_134
	movabsq	$8751655350334406980, %r10
	movq	%r10, (%r9)
	movw	$25968, 8(%r9)
	movb	$61, 10(%r9)
	jmp	.Ldcsctp_BB11_135
.Ldcsctp_BB11_34:
	leaq	.Ldcsctp_static.2(%rip), %rdx
	leaq	32(%rsp), %rcx
	movl	$1, %r8d
	callq	core.fmt.formatter.Formatter.write_indented.69d84fb4438acd8c
	testb	%al, %al
	jne	.Ldcsctp_BB11_424
	movl	$32, 56(%rsp)
	movl	$0, 8(%r14)
	movq	$0, (%r14)
	movq	$-1, 72(%rsp)
	movq	104(%rsp), %r11
	movzbl	(%r11,%r12), %eax
	leaq	.Ldcsctp_JTI11_0(%rip), %rcx
	movslq	(%rcx,%rax,4), %rax
	addq	%rcx, %rax
	jmpq	*%rax
.Ldcsctp_BB11_36:
	movl	8(%r11,%r12), %eax
	movl	20(%r11,%r12), %ecx
	movl	%eax, 136(%rsp)
	movl	%ecx, 116(%rsp)
	leaq	.Ldcsctp_static.38(%rip), %r13
	movq	%r13, 256(%rsp)
	movq	$19, 264(%rsp)
	leaq	136(%rsp), %rax
	movq	%rax, 272(%rsp)
	leaq	.Ldcsctp_static.39(%rip), %r12
	movq	%r12, 280(%rsp)
	movq	$14, 288(%rsp)
	leaq	116(%rsp), %rax
	movq	%rax, 296(%rsp)
	movq	16(%rbp), %rax
	movq	%rax, 160(%rsp)
	movups	(%rbp), %xmm0
	movaps	%xmm0, 144(%rsp)
	movl	$32, 56(%rsp)
	movl	$0, 8(%r14)
	movq	$0, (%r14)
	movq	$-1, 72(%rsp)
	cmpq	$0, 80(%rsp)
	jne	.Ldcsctp_BB11_274
	movq	40(%rsp), %rax
	movq	48(%rsp), %rcx
	movq	%rcx, %rdx
	subq	%rax, %rdx
	cmpq	$18, %rdx
	jbe	.Ldcsctp_BB11_306
.Ldcsctp_BB11_38:
	movq	32(%rsp), %rdx
	xorps	%xmm0, %xmm0
	leaq	40(%rsp), %r8
	movups	%xmm0, (%r8)
	leaq	(%rdx,%rax), %r8
	movq	%r8, %r9
	subq	%r13, %r9
	cmpq	$18, %r9
	ja	.Ldcsctp_BB11_142
	movaps	.Ldcsctp_CPI11_3(%rip), %xmm0
	movups	%xmm0, (%r8)
	movw	$26465, 16(%r8)
	movb	$61, 18(%r8)
	jmp	.Ldcsctp_BB11_143
.Ldcsctp_BB11_40:
	leaq	32(%rsp), %rcx
	movl	$1, %edx
	callq	std_alloc.vec.Vec.grow_amortized.38fbb921ed00a393
	testb	%al, %al
	je	.Ldcsctp_BB11_424
	movq	40(%rsp), %rax
	movq	48(%rsp), %rcx
	movq	104(%rsp), %r11
	jmp	.Ldcsctp_BB11_29
.Ldcsctp_BB11_42:
	movq	%rbp, %rcx
	movl	8(%r11,%r12), %ebp
	movq	16(%rcx), %rax
	movq	%rax, 272(%rsp)
	movups	(%rcx), %xmm0
	movaps	%xmm0, 256(%rsp)
	movl	$32, 56(%rsp)
	movl	$0, 8(%r14)
	movq	$0, (%r14)
	movq	$-1, 72(%rsp)
	cmpq	$0, 80(%rsp)
	jne	.Ldcsctp_BB11_262
	movq	40(%rsp), %rax
	movq	48(%rsp), %rcx
	movq	%rcx, %rdx
	subq	%rax, %rdx
	cmpq	$33, %rdx
	jbe	.Ldcsctp_BB11_284
.Ldcsctp_BB11_44:
	movq	32(%rsp), %rdx
	xorps	%xmm0, %xmm0
	leaq	40(%rsp), %r8
	movups	%xmm0, (%r8)
	leaq	(%rdx,%rax), %r8
	leaq	.Ldcsctp_static.37(%rip), %r9
	movq	%r8, %r10
	subq	%r9, %r10
	cmpq	$33, %r10
	ja	.Ldcsctp_BB11_107
	movaps	.Ldcsctp_CPI11_4(%rip), %xmm0
	movups	%xmm0, (%r8)
	movaps	.Ldcsctp_CPI11_5(%rip), %xmm0
	movups	%xmm0, 16(%r8)
	jmp	.Ldcsctp_BB11_108
.Ldcsctp_BB11_46:
	movq	16(%rbp), %rax
	movq	%rax, 272(%rsp)
	movups	(%rbp), %xmm0
	movaps	%xmm0, 256(%rsp)
	movl	$32, 56(%rsp)
	movl	$0, 8(%r14)
	movq	$0, (%r14)
	movq	$-1, 72(%rsp)
	cmpq	$0, 80(%rsp)
	jne	.Ldcsctp_BB11_263
	movq	40(%rsp), %rax
	movq	48(%rsp), %rcx
	movq	%rcx, %rdx
	subq	%rax, %rdx
	cmpq	$8, %rdx
	jbe	.Ldcsctp_BB11_286
.Ldcsctp_BB11_48:
	movq	32(%rsp), %rdx
	leaq	(%rdx,%rax), %r8
	leaq	.Ldcsctp_static.45(%rip), %r9
	movq	%r8, %r10
	subq	%r9, %r10
	movabsq	$5279993715474908498, %r9
	cmpq	$8, %r10
	movq	%r9, (%r8)
	movb	$71, 8(%r8)
	addq	$9, %rax
	jmp	.Ldcsctp_BB11_165
.Ldcsctp_BB11_49:
	cmpq	$0, 80(%rsp)
	jne	.Ldcsctp_BB11_264
	movq	40(%rsp), %rax
	movq	48(%rsp), %rcx
	movq	%rcx, %rdx
	subq	%rax, %rdx
	cmpq	$9, %rdx
	jbe	.Ldcsctp_BB11_288
.Ldcsctp_BB11_51:
	movq	32(%rsp), %rdx
	leaq	(%rdx,%rax), %r8
	addq	$10, %rax
	leaq	.Ldcsctp_static.13(%rip), %r9
	movq	%r8, %r10
	subq	%r9, %r10
	movabsq	$4696486167515713347, %r9
	cmpq	$9, %r10
	movq	%r9, (%r8)
	movw	$19267, 8(%r8)
	jmp	.Ldcsctp_BB11_103
.Ldcsctp_BB11_52:
	movq	16(%rbp), %rax
	movq	%rax, 272(%rsp)
	movups	(%rbp), %xmm0
	movaps	%xmm0, 256(%rsp)
	movl	$32, 56(%rsp)
	movl	$0, 8(%r14)
	movq	$0, (%r14)
	movq	$-1, 72(%rsp)
	cmpq	$0, 80(%rsp)
	jne	.Ldcsctp_BB11_265
	movq	40(%rsp), %rax
	movq	48(%rsp), %rcx
	movq	%rcx, %rdx
	subq	%rax, %rdx
	cmpq	$12, %rdx
	jbe	.Ldcsctp_BB11_290
.Ldcsctp_BB11_54:
	movq	32(%rsp), %rdx
	leaq	(%rdx,%rax), %r8
	leaq	.Ldcsctp_static.41(%rip), %r9
	movq	%r8, %r10
	subq	%r9, %r10
	cmpq	$12, %r10
	ja	.Ldcsctp_BB11_109
	movabsq	$4703238315783046472, %r9
	movq	%r9, (%r8)
	movl	$1163013460, 8(%r8)
	movb	$81, 12(%r8)
	jmp	.Ldcsctp_BB11_164
.Ldcsctp_BB11_56:
	movzbl	1(%r11,%r12), %eax
	movb	%al, 256(%rsp)
	movl	$32, 56(%rsp)
	movl	$0, 8(%r14)
	movq	$0, (%r14)
	movq	$-1, 72(%rsp)
	cmpq	$0, 80(%rsp)
	jne	.Ldcsctp_BB11_266
	movq	40(%rsp), %rax
	movq	48(%rsp), %rcx
	movq	%rcx, %rdx
	subq	%rax, %rdx
	cmpq	$32, %rdx
	jbe	.Ldcsctp_BB11_292
.Ldcsctp_BB11_58:
	movq	32(%rsp), %rdx
	xorps	%xmm0, %xmm0
	leaq	40(%rsp), %r8
	movups	%xmm0, (%r8)
	leaq	(%rdx,%rax), %r8
	leaq	.Ldcsctp_static.14(%rip), %r9
	movq	%r8, %r10
	subq	%r9, %r10
	cmpq	$32, %r10
	ja	.Ldcsctp_BB11_110
	movaps	.Ldcsctp_CPI11_10(%rip), %xmm0
	movups	%xmm0, (%r8)
	movaps	.Ldcsctp_CPI11_11(%rip), %xmm0
	movups	%xmm0, 16(%r8)
	jmp	.Ldcsctp_BB11_111
.Ldcsctp_BB11_60:
	movq	16(%rbp), %rax
	movq	%rax, 272(%rsp)
	movups	(%rbp), %xmm0
	movaps	%xmm0, 256(%rsp)
	movl	$32, 56(%rsp)
	movl	$0, 8(%r14)
	movq	$0, (%r14)
	movq	$-1, 72(%rsp)
	cmpq	$0, 80(%rsp)
	jne	.Ldcsctp_BB11_267
	movq	40(%rsp), %rax
	movq	48(%rsp), %rcx
	movq	%rcx, %rdx
	subq	%rax, %rdx
	cmpq	$4, %rdx
	jbe	.Ldcsctp_BB11_294
.Ldcsctp_BB11_62:
	movq	32(%rsp), %rdx
	leaq	(%rdx,%rax), %r8
	leaq	.Ldcsctp_static.44(%rip), %r9
	movq	%r8, %r10
	subq	%r9, %r10
	cmpq	$4, %r10
	ja	.Ldcsctp_BB11_114
	movl	$1330795077, (%r8)
	movb	$82, 4(%r8)
	addq	$5, %rax
	jmp	.Ldcsctp_BB11_165
.Ldcsctp_BB11_64:
	movl	8(%r11,%r12), %eax
	movl	20(%r11,%r12), %ecx
	movl	%eax, 136(%rsp)
	movl	%ecx, 116(%rsp)
	leaq	.Ldcsctp_static.40(%rip), %r13
	movq	%r13, 256(%rsp)
	movq	$23, 264(%rsp)
	leaq	136(%rsp), %rax
	movq	%rax, 272(%rsp)
	leaq	.Ldcsctp_static.39(%rip), %r12
	movq	%r12, 280(%rsp)
	movq	$14, 288(%rsp)
	leaq	116(%rsp), %rax
	movq	%rax, 296(%rsp)
	movq	16(%rbp), %rax
	movq	%rax, 160(%rsp)
	movups	(%rbp), %xmm0
	movaps	%xmm0, 144(%rsp)
	movl	$32, 56(%rsp)
	movl	$0, 8(%r14)
	movq	$0, (%r14)
	movq	$-1, 72(%rsp)
	cmpq	$0, 80(%rsp)
	jne	.Ldcsctp_BB11_268
	movq	40(%rsp), %rax
	movq	48(%rsp), %rcx
	movq	%rcx, %rdx
	subq	%rax, %rdx
	cmpq	$22, %rdx
	jbe	.Ldcsctp_BB11_296
.Ldcsctp_BB11_66:
	movq	32(%rsp), %rdx
	xorps	%xmm0, %xmm0
	leaq	40(%rsp), %r8
	movups	%xmm0, (%r8)
	leaq	(%rdx,%rax), %r8
	movq	%r8, %r9
	subq	%r13, %r9
	cmpq	$22, %r9
	ja	.Ldcsctp_BB11_115
	movaps	.Ldcsctp_CPI11_2(%rip), %xmm0
	movups	%xmm0, (%r8)
	movl	$1952408948, 16(%r8)
	movw	$26465, 20(%r8)
	movb	$61, 22(%r8)
	jmp	.Ldcsctp_BB11_116
.Ldcsctp_BB11_68:
	movq	%rbp, %rcx
	movl	8(%r11,%r12), %ebp
	movq	16(%rcx), %rax
	movq	%rax, 272(%rsp)
	movups	(%rcx), %xmm0
	movaps	%xmm0, 256(%rsp)
	movl	$32, 56(%rsp)
	movl	$0, 8(%r14)
	movq	$0, (%r14)
	movq	$-1, 72(%rsp)
	cmpq	$0, 80(%rsp)
	jne	.Ldcsctp_BB11_269
	movq	40(%rsp), %rax
	movq	48(%rsp), %rcx
	movq	%rcx, %rdx
	subq	%rax, %rdx
	cmpq	$31, %rdx
	jbe	.Ldcsctp_BB11_298
.Ldcsctp_BB11_70:
	movq	32(%rsp), %rdx
	xorps	%xmm0, %xmm0
	leaq	40(%rsp), %r8
	movups	%xmm0, (%r8)
	leaq	(%rdx,%rax), %r8
	leaq	.Ldcsctp_static.36(%rip), %r9
	movq	%r8, %r10
	subq	%r9, %r10
	cmpq	$31, %r10
	ja	.Ldcsctp_BB11_122
	movaps	.Ldcsctp_CPI11_6(%rip), %xmm0
	movups	%xmm0, (%r8)
	movaps	.Ldcsctp_CPI11_7(%rip), %xmm0
	movups	%xmm0, 16(%r8)
	jmp	.Ldcsctp_BB11_123
.Ldcsctp_BB11_72:
	movl	8(%r11,%r12), %eax
	movl	12(%r11,%r12), %ecx
	movl	%eax, 136(%rsp)
	movl	%ecx, 116(%rsp)
	leaq	.Ldcsctp_static.30(%rip), %r13
	movq	%r13, 256(%rsp)
	movq	$18, 264(%rsp)
	leaq	136(%rsp), %rax
	movq	%rax, 272(%rsp)
	leaq	.Ldcsctp_static.31(%rip), %r12
	movq	%r12, 280(%rsp)
	movq	$9, 288(%rsp)
	leaq	116(%rsp), %rax
	movq	%rax, 296(%rsp)
	movq	16(%rbp), %rax
	movq	%rax, 160(%rsp)
	movups	(%rbp), %xmm0
	movaps	%xmm0, 144(%rsp)
	movl	$32, 56(%rsp)
	movl	$0, 8(%r14)
	movq	$0, (%r14)
	movq	$-1, 72(%rsp)
	cmpq	$0, 80(%rsp)
	jne	.Ldcsctp_BB11_271
	movq	40(%rsp), %rax
	movq	48(%rsp), %rcx
	movq	%rcx, %rdx
	subq	%rax, %rdx
	cmpq	$17, %rdx
	jbe	.Ldcsctp_BB11_300
.Ldcsctp_BB11_74:
	movq	32(%rsp), %rdx
	xorps	%xmm0, %xmm0
	leaq	40(%rsp), %r8
	movups	%xmm0, (%r8)
	leaq	(%rdx,%rax), %r8
	movq	%r8, %r9
	subq	%r13, %r9
	cmpq	$17, %r9
	ja	.Ldcsctp_BB11_127
	movaps	.Ldcsctp_CPI11_9(%rip), %xmm0
	jmp	.Ldcsctp_BB11_128
.Ldcsctp_BB11_76:
	movl	4(%r11,%r12), %ebp
	cmpq	$0, 80(%rsp)
	jne	.Ldcsctp_BB11_272
	movq	40(%rsp), %rax
	movq	48(%rsp), %rcx
	movq	%rcx, %rdx
	subq	%rax, %rdx
	cmpq	$27, %rdx
	jbe	.Ldcsctp_BB11_302
.Ldcsctp_BB11_78:
	movq	32(%rsp), %rdx
	xorps	%xmm0, %xmm0
	leaq	40(%rsp), %r8
	movups	%xmm0, (%r8)
	leaq	(%rdx,%rax), %r8
	leaq	.Ldcsctp_static.11(%rip), %r9
	movq	%r8, %r10
	subq	%r9, %r10
	cmpq	$27, %r10
	ja	.Ldcsctp_BB11_104
	movaps	.Ldcsctp_CPI11_12(%rip), %xmm0
	movups	%xmm0, (%r8)
	movabsq	$6876560624695211625, %r9
	movq	%r9, 16(%r8)
	movl	$1030447969, 24(%r8)
	jmp	.Ldcsctp_BB11_105
.Ldcsctp_BB11_80:
	movq	%rbp, %rcx
	movzbl	8(%r11,%r12), %ebp
	movq	16(%rcx), %rax
	movq	%rax, 160(%rsp)
	movups	(%rcx), %xmm0
	movaps	%xmm0, 144(%rsp)
	movl	$32, 56(%rsp)
	movl	$0, 8(%r14)
	movq	$0, (%r14)
	movq	$-1, 72(%rsp)
	cmpq	$0, 80(%rsp)
	jne	.Ldcsctp_BB11_275
	movq	40(%rsp), %rax
	movq	48(%rsp), %rcx
	movq	%rcx, %rdx
	subq	%rax, %rdx
	cmpq	$19, %rdx
	jbe	.Ldcsctp_BB11_308
.Ldcsctp_BB11_82:
	movq	32(%rsp), %rdx
	xorps	%xmm0, %xmm0
	leaq	40(%rsp), %r8
	movups	%xmm0, (%r8)
	leaq	(%rdx,%rax), %r8
	leaq	.Ldcsctp_static.46(%rip), %r9
	movq	%r8, %r10
	subq	%r9, %r10
	cmpq	$19, %r10
	ja	.Ldcsctp_BB11_150
	movaps	.Ldcsctp_CPI11_0(%rip), %xmm0
	jmp	.Ldcsctp_BB11_151
.Ldcsctp_BB11_84:
	movq	16(%rbp), %rax
	movq	%rax, 272(%rsp)
	movups	(%rbp), %xmm0
	movaps	%xmm0, 256(%rsp)
	movl	$32, 56(%rsp)
	movl	$0, 8(%r14)
	movq	$0, (%r14)
	movq	$-1, 72(%rsp)
	cmpq	$0, 80(%rsp)
	jne	.Ldcsctp_BB11_276
	movq	40(%rsp), %rax
	movq	48(%rsp), %rcx
	movq	%rcx, %rdx
	subq	%rax, %rdx
	cmpq	$12, %rdx
	jbe	.Ldcsctp_BB11_310
.Ldcsctp_BB11_86:
	movq	32(%rsp), %rdx
	leaq	(%rdx,%rax), %r8
	leaq	.Ldcsctp_static.42(%rip), %r9
	movq	%r8, %r10
	subq	%r9, %r10
	cmpq	$12, %r10
	ja	.Ldcsctp_BB11_162
	movabsq	$4703238315783046472, %r9
	movq	%r9, (%r8)
	movl	$1128344916, 8(%r8)
	movb	$75, 12(%r8)
	jmp	.Ldcsctp_BB11_164
.Ldcsctp_BB11_88:
	movzbl	44(%r11,%r12), %eax
	leaq	.Ldcsctp_static.24(%rip), %rcx
	leaq	.Ldcsctp_static.25(%rip), %r13
	testb	$1, %al
	cmovneq	%rcx, %r13
	movzbl	51(%r11,%r12), %ecx
	leaq	5(%rcx,%rcx,2), %rdx
	leaq	.Ldcsctp_static.26(%rip), %r8
	leaq	.Ldcsctp_static.27(%rip), %r9
	movl	%ecx, %r10d
	xorb	$1, %r10b
	testq	%rcx, %rcx
	cmovneq	%r8, %r9
	movzbl	%r10b, %ecx
	leaq	4(%rcx,%rcx), %r8
	leaq	.Ldcsctp_static.28(%rip), %rcx
	movq	%rbp, %r10
	leaq	.Ldcsctp_static.29(%rip), %rbp
	cmovneq	%rcx, %rbp
	cmpb	$0, 50(%r11,%r12)
	cmovneq	%rdx, %r8
	cmovneq	%r9, %rbp
	leaq	7(%rax,%rax), %rdx
	movl	56(%r11,%r12), %eax
	movl	%eax, 208(%rsp)
	movzwl	46(%r11,%r12), %eax
	movw	%ax, 214(%rsp)
	movl	32(%r11,%r12), %eax
	movl	40(%r11,%r12), %ecx
	movl	%eax, 204(%rsp)
	movl	%ecx, 200(%rsp)
	movq	16(%r11,%r12), %rax
	movq	%rdx, %r11
	movq	%rax, 136(%rsp)
	leaq	.Ldcsctp_static.34(%rip), %r12
	movq	%r12, 256(%rsp)
	movq	$13, 264(%rsp)
	movq	%r13, 272(%rsp)
	movq	%rdx, 280(%rsp)
	leaq	.Ldcsctp_static.18(%rip), %rax
	movq	%rax, 288(%rsp)
	movq	$2, 296(%rsp)
	movq	%rbp, 304(%rsp)
	movq	%r8, 312(%rsp)
	leaq	.Ldcsctp_static.19(%rip), %rax
	movq	%rax, 320(%rsp)
	movq	$6, 328(%rsp)
	leaq	208(%rsp), %rax
	movq	%rax, 336(%rsp)
	leaq	.Ldcsctp_static.35(%rip), %rax
	movq	%rax, 344(%rsp)
	movq	$6, 352(%rsp)
	leaq	214(%rsp), %rax
	movq	%rax, 360(%rsp)
	leaq	.Ldcsctp_static.21(%rip), %rax
	movq	%rax, 368(%rsp)
	movq	$6, 376(%rsp)
	leaq	204(%rsp), %rax
	movq	%rax, 384(%rsp)
	leaq	.Ldcsctp_static.22(%rip), %rax
	movq	%rax, 392(%rsp)
	movq	$7, 400(%rsp)
	leaq	200(%rsp), %rax
	movq	%rax, 408(%rsp)
	leaq	.Ldcsctp_static.23(%rip), %rax
	movq	%rax, 416(%rsp)
	movq	$9, 424(%rsp)
	leaq	136(%rsp), %rax
	movq	%rax, 432(%rsp)
	movq	16(%r10), %rax
	movq	%rax, 240(%rsp)
	movups	(%r10), %xmm0
	movaps	%xmm0, 224(%rsp)
	movl	$32, 56(%rsp)
	movl	$0, 8(%r14)
	movq	$0, (%r14)
	movq	$-1, 72(%rsp)
	movq	16(%r10), %rax
	movq	%rax, 160(%rsp)
	movups	(%r10), %xmm0
	movaps	%xmm0, 144(%rsp)
	movl	$32, 56(%rsp)
	movl	$0, 8(%r14)
	movq	$0, (%r14)
	movq	$-1, 72(%rsp)
	cmpq	$0, 80(%rsp)
	movq	%r8, 128(%rsp)
	jne	.Ldcsctp_BB11_279
	movq	40(%rsp), %rax
	movq	48(%rsp), %rcx
	movq	%rcx, %rdx
	subq	%rax, %rdx
	cmpq	$12, %rdx
	jbe	.Ldcsctp_BB11_312
.Ldcsctp_BB11_90:
	movq	32(%rsp), %rdx
	leaq	(%rdx,%rax), %r10
	movq	%r10, %r9
	subq	%r12, %r9
	cmpq	$12, %r9
	ja	.Ldcsctp_BB11_168
	movabsq	$2318299738317008201, %r9
	movq	%r9, (%r10)
	movl	$1701869940, 8(%r10)
	movb	$61, 12(%r10)
	jmp	.Ldcsctp_BB11_169
.Ldcsctp_BB11_92:
	movzbl	8(%r11,%r12), %eax
	movb	%al, 144(%rsp)
	movq	16(%rbp), %rax
	movq	%rax, 272(%rsp)
	movups	(%rbp), %xmm0
	movaps	%xmm0, 256(%rsp)
	movl	$32, 56(%rsp)
	movl	$0, 8(%r14)
	movq	$0, (%r14)
	movq	$-1, 72(%rsp)
	cmpq	$0, 80(%rsp)
	jne	.Ldcsctp_BB11_280
	movq	40(%rsp), %rax
	movq	48(%rsp), %rcx
	movq	%rcx, %rdx
	subq	%rax, %rdx
	cmpq	$20, %rdx
	jbe	.Ldcsctp_BB11_314
.Ldcsctp_BB11_94:
	movq	32(%rsp), %rdx
	xorps	%xmm0, %xmm0
	leaq	40(%rsp), %r8
	movups	%xmm0, (%r8)
	leaq	(%rdx,%rax), %r8
	leaq	.Ldcsctp_static.43(%rip), %r9
	movq	%r8, %r10
	subq	%r9, %r10
	cmpq	$20, %r10
	ja	.Ldcsctp_BB11_176
	movaps	.Ldcsctp_CPI11_1(%rip), %xmm0
	movups	%xmm0, (%r8)
	movl	$1684370531, 16(%r8)
	movb	$61, 20(%r8)
	jmp	.Ldcsctp_BB11_177
.Ldcsctp_BB11_96:
	movq	16(%r11,%r12), %rax
	movq	%rax, 224(%rsp)
	leaq	.Ldcsctp_static.32(%rip), %r13
	movq	%r13, 256(%rsp)
	movq	$20, 264(%rsp)
	leaq	224(%rsp), %rax
	movq	%rax, 272(%rsp)
	leaq	.Ldcsctp_static.33(%rip), %r12
	movq	%r12, 280(%rsp)
	movq	$6, 288(%rsp)
	movq	16(%rbp), %rax
	movq	%rax, 160(%rsp)
	movups	(%rbp), %xmm0
	movaps	%xmm0, 144(%rsp)
	movl	$32, 56(%rsp)
	movl	$0, 8(%r14)
	movq	$0, (%r14)
	movq	$-1, 72(%rsp)
	cmpq	$0, 80(%rsp)
	jne	.Ldcsctp_BB11_281
	movq	40(%rsp), %rax
	movq	48(%rsp), %rcx
	movq	%rcx, %rdx
	subq	%rax, %rdx
	cmpq	$19, %rdx
	jbe	.Ldcsctp_BB11_316
.Ldcsctp_BB11_98:
	movq	32(%rsp), %rdx
	xorps	%xmm0, %xmm0
	leaq	40(%rsp), %r8
	movups	%xmm0, (%r8)
	leaq	(%rdx,%rax), %r8
	movq	%r8, %r9
	subq	%r13, %r9
	cmpq	$19, %r9
	ja	.Ldcsctp_BB11_181
	movaps	.Ldcsctp_CPI11_8(%rip), %xmm0
	jmp	.Ldcsctp_BB11_182
.Ldcsctp_BB11_100:
	cmpq	$0, 80(%rsp)
	jne	.Ldcsctp_BB11_282
	movq	40(%rsp), %rax
	movq	48(%rsp), %rcx
	movq	%rcx, %rdx
	subq	%rax, %rdx
	cmpq	$11, %rdx
	jbe	.Ldcsctp_BB11_318
.Ldcsctp_BB11_102:
	movq	32(%rsp), %rdx
	leaq	(%rdx,%rax), %r8
	addq	$12, %rax
	leaq	.Ldcsctp_static.12(%rip), %r9
	movq	%r8, %r10
	subq	%r9, %r10
	cmpq	$11, %r10
	movabsq	$5645067812823451731, %r9
	movq	%r9, (%r8)
	movl	$1262698797, 8(%r8)
.Ldcsctp_BB11_103:
	movq	%rdx, 32(%rsp)
	movq	%rax, 40(%rsp)
	movq	%rcx, 48(%rsp)
	movq	480(%rsp), %rax
	movq	%rax, 16(%rbp)
	movaps	464(%rsp), %xmm0
	movups	%xmm0, (%rbp)
	jmp	.Ldcsctp_BB11_405
.Ldcsctp_BB11_104:
	movups	.Ldcsctp_static.11+12(%rip), %xmm0
	movups	%xmm0, 12(%r8)
	movups	.Ldcsctp_static.11(%rip), %xmm0
	movups	%xmm0, (%r8)
.Ldcsctp_BB11_105:
	addq	$28, %rax
	movq	%rdx, 32(%rsp)
	movq	%rax, 40(%rsp)
	movq	%rcx, 48(%rsp)
.Ldcsctp_BB11_106:
	movl	%ebp, 144(%rsp)
	leaq	144(%rsp), %rax
	movq	%rax, 256(%rsp)
	movl	$32, 56(%rsp)
	movl	$0, 8(%r14)
	movq	$0, (%r14)
	movq	$-1, 72(%rsp)
	leaq	32(%rsp), %rcx
	leaq	256(%rsp), %rdx
	callq	core.fmt.formatter.Formatter.write_piece.7d2ac8fd5c291299
	movl	%eax, %r15d
	leaq	56(%rsp), %rbp
	jmp	.Ldcsctp_BB11_403
.Ldcsctp_BB11_107:
	movups	.Ldcsctp_static.37+16(%rip), %xmm0
	movups	%xmm0, 16(%r8)
	movups	.Ldcsctp_static.37(%rip), %xmm0
	movups	%xmm0, (%r8)
.Ldcsctp_BB11_108:
	movw	$15726, 32(%r8)
	addq	$34, %rax
	jmp	.Ldcsctp_BB11_124
.Ldcsctp_BB11_109:
	movabsq	$5856177245105767746, %r9
	jmp	.Ldcsctp_BB11_163
.Ldcsctp_BB11_110:
	movups	.Ldcsctp_static.14+16(%rip), %xmm0
	movups	%xmm0, 16(%r8)
	movups	.Ldcsctp_static.14(%rip), %xmm0
	movups	%xmm0, (%r8)
.Ldcsctp_BB11_111:
	movb	$61, 32(%r8)
	addq	$33, %rax
	movq	%rdx, 32(%rsp)
	movq	%rax, 40(%rsp)
	movq	%rcx, 48(%rsp)
.Ldcsctp_BB11_112:
	leaq	32(%rsp), %rcx
	leaq	256(%rsp), %rdx
	callq	core.fmt.formatter.Formatter.write_piece.b05199c44017c92e
	movl	%eax, %r15d
	jmp	.Ldcsctp_BB11_403
.Ldcsctp_BB11_114:
	movb	$82, 4(%r8)
	movl	$1330795077, (%r8)
	addq	$5, %rax
	jmp	.Ldcsctp_BB11_165
.Ldcsctp_BB11_115:
	movups	.Ldcsctp_static.40(%rip), %xmm0
	movups	%xmm0, (%r8)
	movabsq	$4424612311359386721, %r9
	movq	%r9, 15(%r8)
.Ldcsctp_BB11_116:
	addq	$23, %rax
	movq	%rdx, 32(%rsp)
	movq	%rax, 40(%rsp)
	movq	%rcx, 48(%rsp)
.Ldcsctp_BB11_117:
	leaq	32(%rsp), %rcx
	leaq	272(%rsp), %rdx
	callq	core.fmt.formatter.Formatter.write_piece.7d2ac8fd5c291299
	movb	$1, %r15b
	testb	%al, %al
	jne	.Ldcsctp_BB11_244
	movl	$32, 56(%rsp)
	movl	$0, 8(%r14)
	movq	$0, (%r14)
	movq	$-1, 72(%rsp)
	cmpq	$0, 80(%rsp)
	jne	.Ldcsctp_BB11_361
	movq	40(%rsp), %rax
	movq	48(%rsp), %rcx
	movq	%rcx, %rdx
	subq	%rax, %rdx
	cmpq	$13, %rdx
	jbe	.Ldcsctp_BB11_364
.Ldcsctp_BB11_120:
	movq	32(%rsp), %rdx
	leaq	(%rdx,%rax), %r8
	movq	%r8, %r10
	subq	%r12, %r10
	movabsq	$7019269490406400044, %r9
	cmpq	$13, %r10
	jbe	.Ldcsctp_BB11_149
	movabsq	$4426602427406115177, %r10
	movq	%r10, 6(%r8)
	jmp	.Ldcsctp_BB11_240
.Ldcsctp_BB11_122:
	movups	.Ldcsctp_static.36+16(%rip), %xmm0
	movups	%xmm0, 16(%r8)
	movups	.Ldcsctp_static.36(%rip), %xmm0
	movups	%xmm0, (%r8)
.Ldcsctp_BB11_123:
	addq	$32, %rax
.Ldcsctp_BB11_124:
	movq	%rdx, 32(%rsp)
	movq	%rax, 40(%rsp)
	movq	%rcx, 48(%rsp)
.Ldcsctp_BB11_125:
	movl	%ebp, 224(%rsp)
	leaq	224(%rsp), %rax
	movq	%rax, 144(%rsp)
	movl	$32, 56(%rsp)
	movl	$0, 8(%r14)
	movq	$0, (%r14)
	movq	$-1, 72(%rsp)
	leaq	32(%rsp), %rcx
	leaq	144(%rsp), %rdx
	callq	core.fmt.formatter.Formatter.write_piece.7d2ac8fd5c291299
	movl	%eax, %r15d
.Ldcsctp_BB11_126:
	movq	272(%rsp), %rax
	leaq	56(%rsp), %rbp
	jmp	.Ldcsctp_BB11_180
.Ldcsctp_BB11_127:
	movups	.Ldcsctp_static.30(%rip), %xmm0
.Ldcsctp_BB11_128:
	movups	%xmm0, (%r8)
	movw	$15726, 16(%r8)
	addq	$18, %rax
	movq	%rdx, 32(%rsp)
	movq	%rax, 40(%rsp)
	movq	%rcx, 48(%rsp)
.Ldcsctp_BB11_129:
	movl	136(%rsp), %eax
	movl	%eax, 120(%rsp)
	leaq	120(%rsp), %rax
	movq	%rax, 224(%rsp)
	movl	$32, 56(%rsp)
	movl	$0, 8(%r14)
	movq	$0, (%r14)
	movq	$-1, 72(%rsp)
	leaq	32(%rsp), %rcx
	leaq	224(%rsp), %rdx
	callq	core.fmt.formatter.Formatter.write_piece.7d2ac8fd5c291299
	movb	$1, %r15b
	testb	%al, %al
	jne	.Ldcsctp_BB11_244
	movl	$32, 56(%rsp)
	movl	$0, 8(%r14)
	movq	$0, (%r14)
	movq	$-1, 72(%rsp)
	cmpq	$0, 80(%rsp)
	jne	.Ldcsctp_BB11_362
	movq	40(%rsp), %rax
	movq	48(%rsp), %rcx
	movq	%rcx, %rdx
	subq	%rax, %rdx
	cmpq	$8, %rdx
	jbe	.Ldcsctp_BB11_366
.Ldcsctp_BB11_132:
	movq	32(%rsp), %rdx
	leaq	(%rdx,%rax), %r8
	movq	%r8, %r10
	subq	%r12, %r10
	movabsq	$7236852984341143596, %r9
	cmpq	$8, %r10
	movq	%r9, (%r8)
	movb	$61, 8(%r8)
	addq	$9, %rax
	movq	%rdx, 32(%rsp)
	movq	%rax, 40(%rsp)
	movq	%rcx, 48(%rsp)
.Ldcsctp_BB11_133:
	leaq	32(%rsp), %rcx
	leaq	296(%rsp), %rdx
	jmp	.Ldcsctp_BB11_243
.Ldcsctp_BB11_134:
	movabsq	$8751655350334406980, %r10
	movq	%r10, (%r9)
	movl	$1030058105, 7(%r9)
.Ldcsctp_BB11_135:
	addq	$11, %rax
	movq	%r8, 32(%rsp)
	movq	%rax, 40(%rsp)
	movq	%rcx, 48(%rsp)
.Ldcsctp_BB11_136:
	movl	$32, 56(%rsp)
	movl	$0, 8(%r14)
	movq	$0, (%r14)
	movq	$-1, 72(%rsp)
	cmpq	$0, 80(%rsp)
	jne	.Ldcsctp_BB11_320
	movq	40(%rsp), %r12
	movq	48(%rsp), %r15
	movq	%r15, %rax
	subq	%r12, %rax
	cmpq	%rax, %r11
	ja	.Ldcsctp_BB11_323
.Ldcsctp_BB11_138:
	movq	32(%rsp), %r13
	leaq	(%r12,%r13), %rcx
	movq	%rcx, %rax
	subq	%rdx, %rax
	cmpq	%r11, %rax
	movq	%r11, 456(%rsp)
	jae	.Ldcsctp_BB11_185
	movl	%r11d, %eax
	andl	$3, %eax
	movl	%r11d, %r9d
	andl	$12, %r9d
	leaq	(%r12,%r13), %r10
	addq	$3, %r10
	xorl	%r8d, %r8d
.Ldcsctp_BB11_140:
	movl	(%rdx,%r8), %r11d
	movl	%r11d, -3(%r10,%r8)
	addq	$4, %r8
	cmpq	%r8, %r9
	jne	.Ldcsctp_BB11_140
.Ldcsctp_BB11_141:
	movzbl	(%rdx,%r8), %r9d
	movb	%r9b, (%rcx,%r8)
	incq	%r8
	decq	%rax
	jne	.Ldcsctp_BB11_141
	jmp	.Ldcsctp_BB11_186
.Ldcsctp_BB11_142:
	movups	.Ldcsctp_static.38(%rip), %xmm0
	movups	%xmm0, (%r8)
	movl	$1030185332, 15(%r8)
.Ldcsctp_BB11_143:
	addq	$19, %rax
	movq	%rdx, 32(%rsp)
	movq	%rax, 40(%rsp)
	movq	%rcx, 48(%rsp)
.Ldcsctp_BB11_144:
	leaq	32(%rsp), %rcx
	leaq	272(%rsp), %rdx
	callq	core.fmt.formatter.Formatter.write_piece.7d2ac8fd5c291299
	movb	$1, %r15b
	testb	%al, %al
	jne	.Ldcsctp_BB11_244
	movl	$32, 56(%rsp)
	movl	$0, 8(%r14)
	movq	$0, (%r14)
	movq	$-1, 72(%rsp)
	cmpq	$0, 80(%rsp)
	jne	.Ldcsctp_BB11_361
	movq	40(%rsp), %rax
	movq	48(%rsp), %rcx
	movq	%rcx, %rdx
	subq	%rax, %rdx
	cmpq	$13, %rdx
	jbe	.Ldcsctp_BB11_368
.Ldcsctp_BB11_147:
	movq	32(%rsp), %rdx
	leaq	(%rdx,%rax), %r8
	movq	%r8, %r9
	subq	%r12, %r9
	cmpq	$13, %r9
	ja	.Ldcsctp_BB11_239
	movabsq	$7019269490406400044, %r9
.Ldcsctp_BB11_149:
	movq	%r9, (%r8)
	movl	$1937006444, 8(%r8)
	movw	$15726, 12(%r8)
	jmp	.Ldcsctp_BB11_241
.Ldcsctp_BB11_150:
	movups	.Ldcsctp_static.46(%rip), %xmm0
.Ldcsctp_BB11_151:
	movups	%xmm0, (%r8)
	movl	$1030058105, 16(%r8)
	addq	$20, %rax
	movq	%rdx, 32(%rsp)
	movq	%rax, 40(%rsp)
	movq	%rcx, 48(%rsp)
.Ldcsctp_BB11_152:
	movl	$32, 56(%rsp)
	movl	$0, 8(%r14)
	movq	$0, (%r14)
	movq	$-1, 72(%rsp)
	xorps	%xmm0, %xmm0
	movaps	%xmm0, 256(%rsp)
	movq	$0, 272(%rsp)
	cmpb	$100, %bpl
	jb	.Ldcsctp_BB11_154
	movzbl	%bpl, %eax
	leal	(%rax,%rax,4), %ecx
	leal	(%rax,%rcx,8), %ecx
	shrl	$12, %ecx
	imull	$100, %ecx, %eax
	subb	%al, %bpl
	movzbl	%bpl, %eax
	imull	$205, %eax, %edx
	shrl	$11, %edx
	leal	(%rdx,%rdx), %r8d
	leal	(%r8,%r8,4), %r8d
	subb	%r8b, %al
	orb	$48, %al
	movb	%al, 279(%rsp)
	orb	$48, %dl
	movb	%dl, 278(%rsp)
	movl	$21, %eax
	movl	%ecx, %ebp
	jmp	.Ldcsctp_BB11_156
.Ldcsctp_BB11_154:
	movl	$23, %eax
	cmpb	$10, %bpl
	jb	.Ldcsctp_BB11_156
	movzbl	%bpl, %eax
	imull	$205, %eax, %eax
	shrl	$11, %eax
	leal	(%rax,%rax), %ecx
	leal	(%rcx,%rcx,4), %ecx
	subb	%cl, %bpl
	orb	$48, %bpl
	movb	%bpl, 279(%rsp)
	orb	$48, %al
	movb	%al, 278(%rsp)
	movl	$22, %eax
	jmp	.Ldcsctp_BB11_157
.Ldcsctp_BB11_156:
	orb	$48, %bpl
	movb	%bpl, 256(%rsp,%rax)
.Ldcsctp_BB11_157:
	leaq	(%rsp,%rax), %rdx
	addq	$256, %rdx
	movb	$45, 255(%rsp,%rax)
	movl	$24, %r8d
	subq	%rax, %r8
	cmpq	$0, 80(%rsp)
	jne	.Ldcsctp_BB11_321
	movq	40(%rsp), %r15
	movq	48(%rsp), %r12
	movq	%r12, %rax
	subq	%r15, %rax
	cmpq	%rax, %r8
	ja	.Ldcsctp_BB11_325
.Ldcsctp_BB11_159:
	movq	32(%rsp), %r13
	leaq	(%r15,%r13), %rcx
	addq	%r8, %r15
	callq	memcpy
	movq	%r13, 32(%rsp)
	movq	%r15, 40(%rsp)
	movq	%r12, 48(%rsp)
	xorl	%r15d, %r15d
.Ldcsctp_BB11_160:
	movq	216(%rsp), %r13
	movq	104(%rsp), %r11
.Ldcsctp_BB11_161:
	movq	160(%rsp), %rax
	leaq	56(%rsp), %rbp
	movq	%rax, 16(%rbp)
	movaps	144(%rsp), %xmm0
	jmp	.Ldcsctp_BB11_167
.Ldcsctp_BB11_162:
	movabsq	$5423250039227106626, %r9
.Ldcsctp_BB11_163:
	movq	%r9, 5(%r8)
	movabsq	$4703238315783046472, %r9
	movq	%r9, (%r8)
.Ldcsctp_BB11_164:
	addq	$13, %rax
.Ldcsctp_BB11_165:
	movq	%rdx, 32(%rsp)
	movq	%rax, 40(%rsp)
	movq	%rcx, 48(%rsp)
	xorl	%r15d, %r15d
.Ldcsctp_BB11_166:
	movq	272(%rsp), %rax
	movq	%rax, 16(%rbp)
	movaps	256(%rsp), %xmm0
.Ldcsctp_BB11_167:
	movups	%xmm0, (%rbp)
	jmp	.Ldcsctp_BB11_404
.Ldcsctp_BB11_168:
	movabsq	$4424065875902999617, %r9
	movq	%r9, 5(%r10)
	movabsq	$2318299738317008201, %r9
	movq	%r9, (%r10)
.Ldcsctp_BB11_169:
	addq	$13, %rax
	movq	%rdx, 32(%rsp)
	movq	%rax, 40(%rsp)
	movq	%rcx, 48(%rsp)
.Ldcsctp_BB11_170:
	movl	$32, 56(%rsp)
	movl	$0, 8(%r14)
	movq	$0, (%r14)
	movq	$-1, 72(%rsp)
	cmpq	$0, 80(%rsp)
	jne	.Ldcsctp_BB11_322
	movq	40(%rsp), %r12
	movq	48(%rsp), %rcx
	movq	%rcx, %rax
	subq	%r12, %rax
	cmpq	%rax, %r11
	ja	.Ldcsctp_BB11_327
.Ldcsctp_BB11_172:
	movq	%rcx, 448(%rsp)
	movq	32(%rsp), %r15
	leaq	(%r15,%r12), %rcx
	movq	%rcx, %rax
	subq	%r13, %rax
	cmpq	%r11, %rax
	movq	%r11, 456(%rsp)
	jae	.Ldcsctp_BB11_197
	movl	%r11d, %eax
	andl	$3, %eax
	andl	$12, %r11d
	leaq	(%r15,%r12), %r9
	addq	$3, %r9
	xorl	%edx, %edx
.Ldcsctp_BB11_174:
	movl	(%r13,%rdx), %r10d
	movl	%r10d, -3(%r9,%rdx)
	addq	$4, %rdx
	cmpq	%rdx, %r11
	jne	.Ldcsctp_BB11_174
.Ldcsctp_BB11_175:
	movzbl	(%r13,%rdx), %r9d
	movb	%r9b, (%rcx,%rdx)
	incq	%rdx
	decq	%rax
	jne	.Ldcsctp_BB11_175
	jmp	.Ldcsctp_BB11_198
.Ldcsctp_BB11_176:
	movups	.Ldcsctp_static.43(%rip), %xmm0
	movups	%xmm0, (%r8)
	movabsq	$4423772284542872678, %r9
	movq	%r9, 13(%r8)
.Ldcsctp_BB11_177:
	addq	$21, %rax
	movq	%rdx, 32(%rsp)
	movq	%rax, 40(%rsp)
	movq	%rcx, 48(%rsp)
.Ldcsctp_BB11_178:
	leaq	32(%rsp), %rcx
	leaq	144(%rsp), %rdx
	callq	core.fmt.formatter.Formatter.write_piece.b05199c44017c92e
	movl	%eax, %r15d
.Ldcsctp_BB11_179:
	movq	272(%rsp), %rax
.Ldcsctp_BB11_180:
	movq	%rax, 16(%rbp)
	movaps	256(%rsp), %xmm0
	movups	%xmm0, (%rbp)
	jmp	.Ldcsctp_BB11_403
.Ldcsctp_BB11_181:
	movups	.Ldcsctp_static.32(%rip), %xmm0
.Ldcsctp_BB11_182:
	movups	%xmm0, (%r8)
	movl	$1030056299, 16(%r8)
	addq	$20, %rax
	movq	%rdx, 32(%rsp)
	movq	%rax, 40(%rsp)
	movq	%rcx, 48(%rsp)
.Ldcsctp_BB11_183:
	leaq	32(%rsp), %rcx
	leaq	272(%rsp), %rdx
	callq	core.fmt.formatter.Formatter.write_piece.861f8385eb98801e
	movb	$1, %r15b
	testb	%al, %al
	je	.Ldcsctp_BB11_221
.Ldcsctp_BB11_184:
	movq	104(%rsp), %r11
	jmp	.Ldcsctp_BB11_247
.Ldcsctp_BB11_185:
	movq	%r11, %r8
	callq	memcpy
.Ldcsctp_BB11_186:
	addq	456(%rsp), %r12
	movq	%r13, 32(%rsp)
	movq	%r12, 40(%rsp)
	movq	%r15, 48(%rsp)
	movq	216(%rsp), %r13
.Ldcsctp_BB11_187:
	movl	$32, 56(%rsp)
	movl	$0, 8(%r14)
	movq	$0, (%r14)
	movq	$-1, 72(%rsp)
	cmpq	$0, 80(%rsp)
	jne	.Ldcsctp_BB11_329
	movq	40(%rsp), %rax
	movq	48(%rsp), %rcx
	movq	%rcx, %rdx
	subq	%rax, %rdx
	cmpq	$1, %rdx
	jbe	.Ldcsctp_BB11_331
.Ldcsctp_BB11_189:
	movq	32(%rsp), %rdx
	movw	$14906, (%rdx,%rax)
	addq	$2, %rax
	movq	%rdx, 32(%rsp)
	movq	%rax, 40(%rsp)
	movq	%rcx, 48(%rsp)
.Ldcsctp_BB11_190:
	movl	$32, 56(%rsp)
	movl	$0, 8(%r14)
	movq	$0, (%r14)
	movq	$-1, 72(%rsp)
	cmpq	$0, 80(%rsp)
	jne	.Ldcsctp_BB11_335
	movq	40(%rsp), %r12
	movq	48(%rsp), %r13
	movq	%r13, %rax
	subq	%r12, %rax
	movq	128(%rsp), %r8
	cmpq	%rax, %r8
	ja	.Ldcsctp_BB11_337
.Ldcsctp_BB11_192:
	movq	32(%rsp), %r15
	leaq	(%r15,%r12), %rcx
	movq	%rcx, %rax
	subq	%rbp, %rax
	cmpq	%r8, %rax
	jae	.Ldcsctp_BB11_209
	movl	%r8d, %eax
	andl	$3, %eax
	andl	$12, %r8d
	leaq	(%r15,%r12), %r9
	addq	$3, %r9
	xorl	%edx, %edx
.Ldcsctp_BB11_194:
	movl	(%rbp,%rdx), %r10d
	movl	%r10d, -3(%r9,%rdx)
	addq	$4, %rdx
	cmpq	%rdx, %r8
	jne	.Ldcsctp_BB11_194
	testq	%rax, %rax
	je	.Ldcsctp_BB11_210
.Ldcsctp_BB11_196:
	movzbl	(%rbp,%rdx), %r8d
	movb	%r8b, (%rcx,%rdx)
	incq	%rdx
	decq	%rax
	jne	.Ldcsctp_BB11_196
	jmp	.Ldcsctp_BB11_210
.Ldcsctp_BB11_197:
	movq	%r13, %rdx
	movq	%r11, %r8
	callq	memcpy
	movq	128(%rsp), %r8
.Ldcsctp_BB11_198:
	addq	456(%rsp), %r12
	movq	%r15, 32(%rsp)
	movq	%r12, 40(%rsp)
	movq	448(%rsp), %rax
	movq	%rax, 48(%rsp)
.Ldcsctp_BB11_199:
	movl	$32, 56(%rsp)
	movl	$0, 8(%r14)
	movq	$0, (%r14)
	movq	$-1, 72(%rsp)
	cmpq	$0, 80(%rsp)
	jne	.Ldcsctp_BB11_330
	movq	40(%rsp), %rax
	movq	48(%rsp), %rcx
	movq	%rcx, %rdx
	subq	%rax, %rdx
	cmpq	$1, %rdx
	jbe	.Ldcsctp_BB11_333
.Ldcsctp_BB11_201:
	movq	32(%rsp), %rdx
	movw	$14906, (%rdx,%rax)
	addq	$2, %rax
	movq	%rdx, 32(%rsp)
	movq	%rax, 40(%rsp)
	movq	%rcx, 48(%rsp)
.Ldcsctp_BB11_202:
	movl	$32, 56(%rsp)
	movl	$0, 8(%r14)
	movq	$0, (%r14)
	movq	$-1, 72(%rsp)
	cmpq	$0, 80(%rsp)
	jne	.Ldcsctp_BB11_336
	movq	40(%rsp), %r15
	movq	48(%rsp), %r12
	movq	%r12, %rax
	subq	%r15, %rax
	cmpq	%rax, %r8
	ja	.Ldcsctp_BB11_339
.Ldcsctp_BB11_204:
	movq	32(%rsp), %r13
	leaq	(%r15,%r13), %rcx
	movq	%rcx, %rax
	subq	%rbp, %rax
	cmpq	%r8, %rax
	jae	.Ldcsctp_BB11_215
	movl	%r8d, %eax
	andl	$3, %eax
	movl	%r8d, %r11d
	andl	$12, %r11d
	leaq	(%r15,%r13), %r9
	addq	$3, %r9
	xorl	%edx, %edx
.Ldcsctp_BB11_206:
	movl	(%rbp,%rdx), %r10d
	movl	%r10d, -3(%r9,%rdx)
	addq	$4, %rdx
	cmpq	%rdx, %r11
	jne	.Ldcsctp_BB11_206
	testq	%rax, %rax
	je	.Ldcsctp_BB11_216
.Ldcsctp_BB11_208:
	movzbl	(%rbp,%rdx), %r9d
	movb	%r9b, (%rcx,%rdx)
	incq	%rdx
	decq	%rax
	jne	.Ldcsctp_BB11_208
	jmp	.Ldcsctp_BB11_216
.Ldcsctp_BB11_209:
	movq	%rbp, %rdx
	callq	memcpy
.Ldcsctp_BB11_210:
	addq	128(%rsp), %r12
	movq	%r15, 32(%rsp)
	movq	%r12, 40(%rsp)
	movq	%r13, 48(%rsp)
	movq	216(%rsp), %r13
.Ldcsctp_BB11_211:
	movl	$32, 56(%rsp)
	movl	$0, 8(%r14)
	movq	$0, (%r14)
	movq	$-1, 72(%rsp)
	cmpq	$0, 80(%rsp)
	jne	.Ldcsctp_BB11_341
	movq	40(%rsp), %rax
	movq	48(%rsp), %rcx
	movq	%rcx, %rdx
	subq	%rax, %rdx
	cmpq	$5, %rdx
	jbe	.Ldcsctp_BB11_357
.Ldcsctp_BB11_213:
	movq	32(%rsp), %rdx
	leaq	(%rdx,%rax), %r8
	movq	%r8, %r9
	leaq	.Ldcsctp_static.19(%rip), %r10
	subq	%r10, %r9
	cmpq	$5, %r9
	ja	.Ldcsctp_BB11_225
	movl	$1936990252, (%r8)
	movw	$15726, 4(%r8)
	jmp	.Ldcsctp_BB11_226
.Ldcsctp_BB11_215:
	movq	%rbp, %rdx
	callq	memcpy
	movq	128(%rsp), %r8
.Ldcsctp_BB11_216:
	addq	%r8, %r15
	movq	%r13, 32(%rsp)
	movq	%r15, 40(%rsp)
	movq	%r12, 48(%rsp)
.Ldcsctp_BB11_217:
	movl	$32, 56(%rsp)
	movl	$0, 8(%r14)
	movq	$0, (%r14)
	movq	$-1, 72(%rsp)
	cmpq	$0, 80(%rsp)
	jne	.Ldcsctp_BB11_342
	movq	40(%rsp), %rax
	movq	48(%rsp), %rcx
	movq	%rcx, %rdx
	subq	%rax, %rdx
	cmpq	$5, %rdx
	jbe	.Ldcsctp_BB11_359
.Ldcsctp_BB11_219:
	movq	32(%rsp), %rdx
	leaq	(%rdx,%rax), %r8
	movq	%r8, %r9
	leaq	.Ldcsctp_static.19(%rip), %r10
	subq	%r10, %r9
	cmpq	$5, %r9
	ja	.Ldcsctp_BB11_232
	movl	$1936990252, (%r8)
	movw	$15726, 4(%r8)
	jmp	.Ldcsctp_BB11_233
.Ldcsctp_BB11_221:
	movl	$32, 56(%rsp)
	movl	$0, 8(%r14)
	movq	$0, (%r14)
	movq	$-1, 72(%rsp)
	cmpq	$0, 80(%rsp)
	jne	.Ldcsctp_BB11_363
	movq	40(%rsp), %rax
	movq	48(%rsp), %rcx
	movq	%rcx, %rdx
	subq	%rax, %rdx
	cmpq	$5, %rdx
	jbe	.Ldcsctp_BB11_370
.Ldcsctp_BB11_223:
	movq	32(%rsp), %rdx
	leaq	(%rdx,%rax), %r8
	movq	%r8, %r9
	subq	%r12, %r9
	cmpq	$5, %r9
	ja	.Ldcsctp_BB11_245
	movl	$1954112032, (%r8)
	movw	$29541, 4(%r8)
	jmp	.Ldcsctp_BB11_246
.Ldcsctp_BB11_225:
	movw	$15726, 4(%r8)
	movl	$1936990252, (%r8)
.Ldcsctp_BB11_226:
	addq	$6, %rax
	movq	%rdx, 32(%rsp)
	movq	%rax, 40(%rsp)
	movq	%rcx, 48(%rsp)
.Ldcsctp_BB11_227:
	movl	116(%rsp), %eax
	movl	%eax, 136(%rsp)
	leaq	136(%rsp), %r15
	movq	%r15, 224(%rsp)
	movl	$32, 56(%rsp)
	movl	$0, 8(%r14)
	movq	$0, (%r14)
	movq	$-1, 72(%rsp)
	leaq	32(%rsp), %rcx
	leaq	224(%rsp), %rdx
	callq	core.fmt.formatter.Formatter.write_piece.7d2ac8fd5c291299
	testb	%al, %al
	jne	.Ldcsctp_BB11_396
	movl	$32, 56(%rsp)
	movl	$0, 8(%r14)
	movq	$0, (%r14)
	movq	$-1, 72(%rsp)
	cmpq	$0, 80(%rsp)
	jne	.Ldcsctp_BB11_372
	movq	40(%rsp), %rax
	movq	48(%rsp), %rcx
	movq	%rcx, %rdx
	subq	%rax, %rdx
	cmpq	$5, %rdx
	jbe	.Ldcsctp_BB11_382
.Ldcsctp_BB11_230:
	movq	32(%rsp), %rdx
	leaq	(%rdx,%rax), %r8
	movq	%r8, %r9
	leaq	.Ldcsctp_static.20(%rip), %r10
	subq	%r10, %r9
	cmpq	$5, %r9
	ja	.Ldcsctp_BB11_248
	movl	$1769152556, (%r8)
	movw	$15716, 4(%r8)
	jmp	.Ldcsctp_BB11_249
.Ldcsctp_BB11_232:
	movw	$15726, 4(%r8)
	movl	$1936990252, (%r8)
.Ldcsctp_BB11_233:
	addq	$6, %rax
	movq	%rdx, 32(%rsp)
	movq	%rax, 40(%rsp)
	movq	%rcx, 48(%rsp)
.Ldcsctp_BB11_234:
	movl	208(%rsp), %eax
	movl	%eax, 116(%rsp)
	leaq	116(%rsp), %r15
	movq	%r15, 120(%rsp)
	movl	$32, 56(%rsp)
	movl	$0, 8(%r14)
	movq	$0, (%r14)
	movq	$-1, 72(%rsp)
	leaq	32(%rsp), %rcx
	leaq	120(%rsp), %rdx
	callq	core.fmt.formatter.Formatter.write_piece.7d2ac8fd5c291299
	testb	%al, %al
	jne	.Ldcsctp_BB11_400
	movl	$32, 56(%rsp)
	movl	$0, 8(%r14)
	movq	$0, (%r14)
	movq	$-1, 72(%rsp)
	cmpq	$0, 80(%rsp)
	jne	.Ldcsctp_BB11_373
	movq	40(%rsp), %rax
	movq	48(%rsp), %rcx
	movq	%rcx, %rdx
	subq	%rax, %rdx
	cmpq	$5, %rdx
	jbe	.Ldcsctp_BB11_384
.Ldcsctp_BB11_237:
	movq	32(%rsp), %rdx
	leaq	(%rdx,%rax), %r8
	movq	%r8, %r9
	leaq	.Ldcsctp_static.35(%rip), %r10
	subq	%r10, %r9
	cmpq	$5, %r9
	ja	.Ldcsctp_BB11_255
	movl	$1768759340, (%r8)
	movw	$15716, 4(%r8)
	jmp	.Ldcsctp_BB11_256
.Ldcsctp_BB11_239:
	movabsq	$4426602427406115177, %r9
	movq	%r9, 6(%r8)
	movabsq	$7019269490406400044, %r9
.Ldcsctp_BB11_240:
	movq	%r9, (%r8)
.Ldcsctp_BB11_241:
	addq	$14, %rax
	movq	%rdx, 32(%rsp)
	movq	%rax, 40(%rsp)
	movq	%rcx, 48(%rsp)
.Ldcsctp_BB11_242:
	movl	116(%rsp), %eax
	movl	%eax, 120(%rsp)
	leaq	120(%rsp), %rax
	movq	%rax, 224(%rsp)
	movl	$32, 56(%rsp)
	movl	$0, 8(%r14)
	movq	$0, (%r14)
	movq	$-1, 72(%rsp)
	leaq	32(%rsp), %rcx
	leaq	224(%rsp), %rdx
.Ldcsctp_BB11_243:
	callq	core.fmt.formatter.Formatter.write_piece.7d2ac8fd5c291299
	movl	%eax, %r15d
.Ldcsctp_BB11_244:
	movq	160(%rsp), %rax
	movq	%rax, 16(%rbp)
	movaps	144(%rsp), %xmm0
	jmp	.Ldcsctp_BB11_402
.Ldcsctp_BB11_245:
	movw	$29541, 4(%r8)
	movl	$1954112032, (%r8)
.Ldcsctp_BB11_246:
	movq	104(%rsp), %r11
	addq	$6, %rax
	movq	%rdx, 32(%rsp)
	movq	%rax, 40(%rsp)
	movq	%rcx, 48(%rsp)
	xorl	%r15d, %r15d
.Ldcsctp_BB11_247:
	movq	160(%rsp), %rax
	movq	%rax, 16(%rbp)
	movaps	144(%rsp), %xmm0
	movups	%xmm0, (%rbp)
	movq	216(%rsp), %r13
	jmp	.Ldcsctp_BB11_404
.Ldcsctp_BB11_248:
	movw	$15716, 4(%r8)
	movl	$1769152556, (%r8)
.Ldcsctp_BB11_249:
	addq	$6, %rax
	movq	%rdx, 32(%rsp)
	movq	%rax, 40(%rsp)
	movq	%rcx, 48(%rsp)
.Ldcsctp_BB11_250:
	movzwl	204(%rsp), %eax
	movw	%ax, 136(%rsp)
	movq	%r15, 224(%rsp)
	movl	$32, 56(%rsp)
	movl	$0, 8(%r14)
	movq	$0, (%r14)
	movq	$-1, 72(%rsp)
	leaq	32(%rsp), %rcx
	leaq	224(%rsp), %rdx
	callq	core.fmt.formatter.Formatter.write_piece.9c544998babb2079
	testb	%al, %al
	jne	.Ldcsctp_BB11_396
	movl	$32, 56(%rsp)
	movl	$0, 8(%r14)
	movq	$0, (%r14)
	movq	$-1, 72(%rsp)
	cmpq	$0, 80(%rsp)
	jne	.Ldcsctp_BB11_386
	movq	40(%rsp), %rax
	movq	48(%rsp), %rcx
	movq	%rcx, %rdx
	subq	%rax, %rdx
	cmpq	$5, %rdx
	jbe	.Ldcsctp_BB11_388
.Ldcsctp_BB11_253:
	movq	32(%rsp), %rdx
	leaq	(%rdx,%rax), %r8
	movq	%r8, %r9
	leaq	.Ldcsctp_static.21(%rip), %r10
	subq	%r10, %r9
	cmpq	$5, %r9
	ja	.Ldcsctp_BB11_343
	movl	$1936924716, (%r8)
	movw	$15726, 4(%r8)
	jmp	.Ldcsctp_BB11_344
.Ldcsctp_BB11_255:
	movw	$15716, 4(%r8)
	movl	$1768759340, (%r8)
.Ldcsctp_BB11_256:
	addq	$6, %rax
	movq	%rdx, 32(%rsp)
	movq	%rax, 40(%rsp)
	movq	%rcx, 48(%rsp)
.Ldcsctp_BB11_257:
	movzwl	214(%rsp), %eax
	movw	%ax, 116(%rsp)
	movq	%r15, 120(%rsp)
	movl	$32, 56(%rsp)
	movl	$0, 8(%r14)
	movq	$0, (%r14)
	movq	$-1, 72(%rsp)
	leaq	32(%rsp), %rcx
	leaq	120(%rsp), %rdx
	callq	core.fmt.formatter.Formatter.write_piece.9c544998babb2079
	testb	%al, %al
	jne	.Ldcsctp_BB11_400
	movl	$32, 56(%rsp)
	movl	$0, 8(%r14)
	movq	$0, (%r14)
	movq	$-1, 72(%rsp)
	cmpq	$0, 80(%rsp)
	jne	.Ldcsctp_BB11_387
	movq	40(%rsp), %rax
	movq	48(%rsp), %rcx
	movq	%rcx, %rdx
	subq	%rax, %rdx
	cmpq	$5, %rdx
	jbe	.Ldcsctp_BB11_390
.Ldcsctp_BB11_260:
	movq	32(%rsp), %rdx
	leaq	(%rdx,%rax), %r8
	movq	%r8, %r9
	leaq	.Ldcsctp_static.21(%rip), %r10
	subq	%r10, %r9
	cmpq	$5, %r9
	ja	.Ldcsctp_BB11_350
	movl	$1936924716, (%r8)
	movw	$15726, 4(%r8)
	jmp	.Ldcsctp_BB11_351
.Ldcsctp_BB11_262:
	leaq	.Ldcsctp_static.37(%rip), %rdx
	leaq	32(%rsp), %rcx
	movl	$34, %r8d
	jmp	.Ldcsctp_BB11_270
.Ldcsctp_BB11_263:
	leaq	.Ldcsctp_static.45(%rip), %rdx
	leaq	32(%rsp), %rcx
	movl	$9, %r8d
	jmp	.Ldcsctp_BB11_278
.Ldcsctp_BB11_264:
	leaq	.Ldcsctp_static.13(%rip), %rdx
	leaq	32(%rsp), %rcx
	movl	$10, %r8d
	jmp	.Ldcsctp_BB11_283
.Ldcsctp_BB11_265:
	leaq	.Ldcsctp_static.41(%rip), %rdx
	jmp	.Ldcsctp_BB11_277
.Ldcsctp_BB11_266:
	leaq	.Ldcsctp_static.14(%rip), %rdx
	leaq	32(%rsp), %rcx
	movl	$33, %r8d
	callq	core.fmt.formatter.Formatter.write_indented.69d84fb4438acd8c
	movb	$1, %r15b
	testb	%al, %al
	jne	.Ldcsctp_BB11_403
	jmp	.Ldcsctp_BB11_112
.Ldcsctp_BB11_267:
	leaq	.Ldcsctp_static.44(%rip), %rdx
	leaq	32(%rsp), %rcx
	movl	$5, %r8d
	jmp	.Ldcsctp_BB11_278
.Ldcsctp_BB11_268:
	leaq	.Ldcsctp_static.40(%rip), %rdx
	leaq	32(%rsp), %rcx
	movl	$23, %r8d
	callq	core.fmt.formatter.Formatter.write_indented.69d84fb4438acd8c
	movb	$1, %r15b
	testb	%al, %al
	jne	.Ldcsctp_BB11_244
	jmp	.Ldcsctp_BB11_117
.Ldcsctp_BB11_269:
	leaq	.Ldcsctp_static.36(%rip), %rdx
	leaq	32(%rsp), %rcx
	movl	$32, %r8d
.Ldcsctp_BB11_270:
	callq	core.fmt.formatter.Formatter.write_indented.69d84fb4438acd8c
	movb	$1, %r15b
	testb	%al, %al
	jne	.Ldcsctp_BB11_126
	jmp	.Ldcsctp_BB11_125
.Ldcsctp_BB11_271:
	leaq	.Ldcsctp_static.30(%rip), %rdx
	leaq	32(%rsp), %rcx
	movl	$18, %r8d
	callq	core.fmt.formatter.Formatter.write_indented.69d84fb4438acd8c
	movb	$1, %r15b
	testb	%al, %al
	jne	.Ldcsctp_BB11_244
	jmp	.Ldcsctp_BB11_129
.Ldcsctp_BB11_272:
	leaq	.Ldcsctp_static.11(%rip), %rdx
	leaq	32(%rsp), %rcx
	movl	$28, %r8d
	callq	core.fmt.formatter.Formatter.write_indented.69d84fb4438acd8c
	testb	%al, %al
	je	.Ldcsctp_BB11_106
	jmp	.Ldcsctp_BB11_424
.Ldcsctp_BB11_273:
	leaq	.Ldcsctp_static.17(%rip), %rax
	leaq	32(%rsp), %rcx
	movl	$11, %r8d
	movq	%rdx, %r15
	movq	%rax, %rdx
	movq	%r11, %r12
	callq	core.fmt.formatter.Formatter.write_indented.69d84fb4438acd8c
	movq	%r12, %r11
	movq	%r15, %rdx
	testb	%al, %al
	jne	.Ldcsctp_BB11_396
	jmp	.Ldcsctp_BB11_136
.Ldcsctp_BB11_274:
	leaq	.Ldcsctp_static.38(%rip), %rdx
	leaq	32(%rsp), %rcx
	movl	$19, %r8d
	callq	core.fmt.formatter.Formatter.write_indented.69d84fb4438acd8c
	movb	$1, %r15b
	testb	%al, %al
	jne	.Ldcsctp_BB11_244
	jmp	.Ldcsctp_BB11_144
.Ldcsctp_BB11_275:
	leaq	.Ldcsctp_static.46(%rip), %rdx
	leaq	32(%rsp), %rcx
	movl	$20, %r8d
	callq	core.fmt.formatter.Formatter.write_indented.69d84fb4438acd8c
	movq	104(%rsp), %r11
	movb	$1, %r15b
	testb	%al, %al
	jne	.Ldcsctp_BB11_161
	jmp	.Ldcsctp_BB11_152
.Ldcsctp_BB11_276:
	leaq	.Ldcsctp_static.42(%rip), %rdx
.Ldcsctp_BB11_277:
	leaq	32(%rsp), %rcx
	movl	$13, %r8d
.Ldcsctp_BB11_278:
	callq	core.fmt.formatter.Formatter.write_indented.69d84fb4438acd8c
	movq	104(%rsp), %r11
	movl	%eax, %r15d
	jmp	.Ldcsctp_BB11_166
.Ldcsctp_BB11_279:
	leaq	.Ldcsctp_static.34(%rip), %rdx
	leaq	32(%rsp), %rcx
	movl	$13, %r8d
	movq	%r11, %r15
	callq	core.fmt.formatter.Formatter.write_indented.69d84fb4438acd8c
	movq	%r15, %r11
	movq	128(%rsp), %r8
	testb	%al, %al
	jne	.Ldcsctp_BB11_400
	jmp	.Ldcsctp_BB11_170
.Ldcsctp_BB11_280:
	leaq	.Ldcsctp_static.43(%rip), %rdx
	leaq	32(%rsp), %rcx
	movl	$21, %r8d
	callq	core.fmt.formatter.Formatter.write_indented.69d84fb4438acd8c
	movb	$1, %r15b
	testb	%al, %al
	jne	.Ldcsctp_BB11_179
	jmp	.Ldcsctp_BB11_178
.Ldcsctp_BB11_281:
	leaq	.Ldcsctp_static.32(%rip), %rdx
	leaq	32(%rsp), %rcx
	movl	$20, %r8d
	callq	core.fmt.formatter.Formatter.write_indented.69d84fb4438acd8c
	movq	104(%rsp), %r11
	movb	$1, %r15b
	testb	%al, %al
	jne	.Ldcsctp_BB11_247
	jmp	.Ldcsctp_BB11_183
.Ldcsctp_BB11_282:
	leaq	.Ldcsctp_static.12(%rip), %rdx
	leaq	32(%rsp), %rcx
	movl	$12, %r8d
.Ldcsctp_BB11_283:
	callq	core.fmt.formatter.Formatter.write_indented.69d84fb4438acd8c
	movq	104(%rsp), %r11
	movl	%eax, %r15d
	jmp	.Ldcsctp_BB11_404
.Ldcsctp_BB11_284:
	leaq	32(%rsp), %rcx
	movl	$34, %edx
	callq	std_alloc.vec.Vec.grow_amortized.38fbb921ed00a393
	movb	$1, %r15b
	testb	%al, %al
	je	.Ldcsctp_BB11_126
	movq	40(%rsp), %rax
	movq	48(%rsp), %rcx
	jmp	.Ldcsctp_BB11_44
.Ldcsctp_BB11_286:
	leaq	32(%rsp), %rcx
	movl	$9, %edx
	callq	std_alloc.vec.Vec.grow_amortized.38fbb921ed00a393
	movq	104(%rsp), %r11
	movb	$1, %r15b
	testb	%al, %al
	je	.Ldcsctp_BB11_166
	movq	40(%rsp), %rax
	movq	48(%rsp), %rcx
	jmp	.Ldcsctp_BB11_48
.Ldcsctp_BB11_288:
	leaq	32(%rsp), %rcx
	movl	$10, %edx
	callq	std_alloc.vec.Vec.grow_amortized.38fbb921ed00a393
	testb	%al, %al
	je	.Ldcsctp_BB11_424
	movq	40(%rsp), %rax
	movq	48(%rsp), %rcx
	leaq	56(%rsp), %rbp
	movq	104(%rsp), %r11
	jmp	.Ldcsctp_BB11_51
.Ldcsctp_BB11_290:
	leaq	32(%rsp), %rcx
	movl	$13, %edx
	callq	std_alloc.vec.Vec.grow_amortized.38fbb921ed00a393
	movq	104(%rsp), %r11
	movb	$1, %r15b
	testb	%al, %al
	je	.Ldcsctp_BB11_166
	movq	40(%rsp), %rax
	movq	48(%rsp), %rcx
	jmp	.Ldcsctp_BB11_54
.Ldcsctp_BB11_292:
	leaq	32(%rsp), %rcx
	movl	$33, %edx
	callq	std_alloc.vec.Vec.grow_amortized.38fbb921ed00a393
	movb	$1, %r15b
	testb	%al, %al
	je	.Ldcsctp_BB11_403
	movq	40(%rsp), %rax
	movq	48(%rsp), %rcx
	jmp	.Ldcsctp_BB11_58
.Ldcsctp_BB11_294:
	leaq	32(%rsp), %rcx
	movl	$5, %edx
	callq	std_alloc.vec.Vec.grow_amortized.38fbb921ed00a393
	movq	104(%rsp), %r11
	movb	$1, %r15b
	testb	%al, %al
	je	.Ldcsctp_BB11_166
	movq	40(%rsp), %rax
	movq	48(%rsp), %rcx
	jmp	.Ldcsctp_BB11_62
.Ldcsctp_BB11_296:
	leaq	32(%rsp), %rcx
	movl	$23, %edx
	callq	std_alloc.vec.Vec.grow_amortized.38fbb921ed00a393
	movb	$1, %r15b
	testb	%al, %al
	je	.Ldcsctp_BB11_244
	movq	40(%rsp), %rax
	movq	48(%rsp), %rcx
	jmp	.Ldcsctp_BB11_66
.Ldcsctp_BB11_298:
	leaq	32(%rsp), %rcx
	movl	$32, %edx
	callq	std_alloc.vec.Vec.grow_amortized.38fbb921ed00a393
	movb	$1, %r15b
	testb	%al, %al
	je	.Ldcsctp_BB11_126
	movq	40(%rsp), %rax
	movq	48(%rsp), %rcx
	jmp	.Ldcsctp_BB11_70
.Ldcsctp_BB11_300:
	leaq	32(%rsp), %rcx
	movl	$18, %edx
	callq	std_alloc.vec.Vec.grow_amortized.38fbb921ed00a393
	movb	$1, %r15b
	testb	%al, %al
	je	.Ldcsctp_BB11_244
	movq	40(%rsp), %rax
	movq	48(%rsp), %rcx
	jmp	.Ldcsctp_BB11_74
.Ldcsctp_BB11_302:
	leaq	32(%rsp), %rcx
	movl	$28, %edx
	callq	std_alloc.vec.Vec.grow_amortized.38fbb921ed00a393
	testb	%al, %al
	je	.Ldcsctp_BB11_424
	movq	40(%rsp), %rax
	movq	48(%rsp), %rcx
	jmp	.Ldcsctp_BB11_78
.Ldcsctp_BB11_304:
	leaq	32(%rsp), %rcx
	movq	%rdx, 448(%rsp)
	movl	$11, %edx
	movq	%r11, %r15
	callq	std_alloc.vec.Vec.grow_amortized.38fbb921ed00a393
	movq	448(%rsp), %rdx
	testb	%al, %al
	je	.Ldcsctp_BB11_396
	movq	%r15, %r11
	movq	40(%rsp), %rax
	movq	48(%rsp), %rcx
	jmp	.Ldcsctp_BB11_32
.Ldcsctp_BB11_306:
	leaq	32(%rsp), %rcx
	movl	$19, %edx
	callq	std_alloc.vec.Vec.grow_amortized.38fbb921ed00a393
	movb	$1, %r15b
	testb	%al, %al
	je	.Ldcsctp_BB11_244
	movq	40(%rsp), %rax
	movq	48(%rsp), %rcx
	jmp	.Ldcsctp_BB11_38
.Ldcsctp_BB11_308:
	leaq	32(%rsp), %rcx
	movl	$20, %edx
	callq	std_alloc.vec.Vec.grow_amortized.38fbb921ed00a393
	movq	104(%rsp), %r11
	movb	$1, %r15b
	testb	%al, %al
	je	.Ldcsctp_BB11_161
	movq	40(%rsp), %rax
	movq	48(%rsp), %rcx
	jmp	.Ldcsctp_BB11_82
.Ldcsctp_BB11_310:
	leaq	32(%rsp), %rcx
	movl	$13, %edx
	callq	std_alloc.vec.Vec.grow_amortized.38fbb921ed00a393
	movq	104(%rsp), %r11
	movb	$1, %r15b
	testb	%al, %al
	je	.Ldcsctp_BB11_166
	movq	40(%rsp), %rax
	movq	48(%rsp), %rcx
	jmp	.Ldcsctp_BB11_86
.Ldcsctp_BB11_312:
	leaq	32(%rsp), %rcx
	movl	$13, %edx
	movq	%r11, %r15
	callq	std_alloc.vec.Vec.grow_amortized.38fbb921ed00a393
	movq	128(%rsp), %r8
	testb	%al, %al
	je	.Ldcsctp_BB11_400
	movq	%r15, %r11
	movq	40(%rsp), %rax
	movq	48(%rsp), %rcx
	jmp	.Ldcsctp_BB11_90
.Ldcsctp_BB11_314:
	leaq	32(%rsp), %rcx
	movl	$21, %edx
	callq	std_alloc.vec.Vec.grow_amortized.38fbb921ed00a393
	movb	$1, %r15b
	testb	%al, %al
	je	.Ldcsctp_BB11_179
	movq	40(%rsp), %rax
	movq	48(%rsp), %rcx
	jmp	.Ldcsctp_BB11_94
.Ldcsctp_BB11_316:
	leaq	32(%rsp), %rcx
	movl	$20, %edx
	callq	std_alloc.vec.Vec.grow_amortized.38fbb921ed00a393
	movq	104(%rsp), %r11
	movb	$1, %r15b
	testb	%al, %al
	je	.Ldcsctp_BB11_247
	movq	40(%rsp), %rax
	movq	48(%rsp), %rcx
	jmp	.Ldcsctp_BB11_98
.Ldcsctp_BB11_318:
	leaq	32(%rsp), %rcx
	movl	$12, %edx
	callq	std_alloc.vec.Vec.grow_amortized.38fbb921ed00a393
	testb	%al, %al
	je	.Ldcsctp_BB11_424
	movq	40(%rsp), %rax
	movq	48(%rsp), %rcx
	leaq	56(%rsp), %rbp
	movq	104(%rsp), %r11
	jmp	.Ldcsctp_BB11_102
.Ldcsctp_BB11_320:
	leaq	32(%rsp), %rcx
	movq	%r11, %r8
	callq	core.fmt.formatter.Formatter.write_indented.69d84fb4438acd8c
	testb	%al, %al
	jne	.Ldcsctp_BB11_396
	jmp	.Ldcsctp_BB11_187
.Ldcsctp_BB11_321:
	leaq	32(%rsp), %rcx
	callq	core.fmt.formatter.Formatter.write_indented.69d84fb4438acd8c
	movl	%eax, %r15d
	jmp	.Ldcsctp_BB11_160
.Ldcsctp_BB11_322:
	leaq	32(%rsp), %rcx
	movq	%r13, %rdx
	movq	%r11, %r8
	callq	core.fmt.formatter.Formatter.write_indented.69d84fb4438acd8c
	movq	128(%rsp), %r8
	testb	%al, %al
	jne	.Ldcsctp_BB11_400
	jmp	.Ldcsctp_BB11_199
.Ldcsctp_BB11_323:
	leaq	32(%rsp), %rcx
	movq	%rdx, %r15
	movq	%r11, %rdx
	movq	%r11, %r12
	callq	std_alloc.vec.Vec.grow_amortized.38fbb921ed00a393
	testb	%al, %al
	je	.Ldcsctp_BB11_396
	movq	%r12, %r11
	movq	%r15, %rdx
	movq	40(%rsp), %r12
	movq	48(%rsp), %r15
	jmp	.Ldcsctp_BB11_138
.Ldcsctp_BB11_325:
	movq	%rdx, %r13
	leaq	32(%rsp), %rcx
	movq	%r8, %rbp
	movq	%r8, %rdx
	callq	std_alloc.vec.Vec.grow_amortized.38fbb921ed00a393
	movb	$1, %r15b
	testb	%al, %al
	je	.Ldcsctp_BB11_160
	movq	40(%rsp), %r15
	movq	48(%rsp), %r12
	movq	%r13, %rdx
	movq	%rbp, %r8
	jmp	.Ldcsctp_BB11_159
.Ldcsctp_BB11_327:
	leaq	32(%rsp), %rcx
	movq	%r11, %rdx
	movq	%r11, %r15
	callq	std_alloc.vec.Vec.grow_amortized.38fbb921ed00a393
	movq	128(%rsp), %r8
	testb	%al, %al
	je	.Ldcsctp_BB11_400
	movq	%r15, %r11
	movq	40(%rsp), %r12
	movq	48(%rsp), %rcx
	jmp	.Ldcsctp_BB11_172
.Ldcsctp_BB11_329:
	leaq	.Ldcsctp_static.18(%rip), %rdx
	leaq	32(%rsp), %rcx
	movl	$2, %r8d
	callq	core.fmt.formatter.Formatter.write_indented.69d84fb4438acd8c
	testb	%al, %al
	jne	.Ldcsctp_BB11_396
	jmp	.Ldcsctp_BB11_190
.Ldcsctp_BB11_330:
	leaq	.Ldcsctp_static.18(%rip), %rdx
	leaq	32(%rsp), %rcx
	movl	$2, %r8d
	callq	core.fmt.formatter.Formatter.write_indented.69d84fb4438acd8c
	movq	128(%rsp), %r8
	testb	%al, %al
	jne	.Ldcsctp_BB11_400
	jmp	.Ldcsctp_BB11_202
.Ldcsctp_BB11_331:
	leaq	32(%rsp), %rcx
	movl	$2, %edx
	callq	std_alloc.vec.Vec.grow_amortized.38fbb921ed00a393
	testb	%al, %al
	je	.Ldcsctp_BB11_396
	movq	40(%rsp), %rax
	movq	48(%rsp), %rcx
	jmp	.Ldcsctp_BB11_189
.Ldcsctp_BB11_333:
	leaq	32(%rsp), %rcx
	movl	$2, %edx
	callq	std_alloc.vec.Vec.grow_amortized.38fbb921ed00a393
	movq	128(%rsp), %r8
	testb	%al, %al
	je	.Ldcsctp_BB11_400
	movq	40(%rsp), %rax
	movq	48(%rsp), %rcx
	jmp	.Ldcsctp_BB11_201
.Ldcsctp_BB11_335:
	leaq	32(%rsp), %rcx
	movq	%rbp, %rdx
	movq	128(%rsp), %r8
	callq	core.fmt.formatter.Formatter.write_indented.69d84fb4438acd8c
	testb	%al, %al
	jne	.Ldcsctp_BB11_396
	jmp	.Ldcsctp_BB11_211
.Ldcsctp_BB11_336:
	leaq	32(%rsp), %rcx
	movq	%rbp, %rdx
	callq	core.fmt.formatter.Formatter.write_indented.69d84fb4438acd8c
	testb	%al, %al
	jne	.Ldcsctp_BB11_400
	jmp	.Ldcsctp_BB11_217
.Ldcsctp_BB11_337:
	leaq	32(%rsp), %rcx
	movq	%r8, %rdx
	callq	std_alloc.vec.Vec.grow_amortized.38fbb921ed00a393
	testb	%al, %al
	movq	216(%rsp), %r13
	je	.Ldcsctp_BB11_396
	movq	40(%rsp), %r12
	movq	48(%rsp), %r13
	movq	128(%rsp), %r8
	jmp	.Ldcsctp_BB11_192
.Ldcsctp_BB11_339:
	leaq	32(%rsp), %rcx
	movq	%r8, %rdx
	callq	std_alloc.vec.Vec.grow_amortized.38fbb921ed00a393
	movq	128(%rsp), %r8
	testb	%al, %al
	je	.Ldcsctp_BB11_400
	movq	40(%rsp), %r15
	movq	48(%rsp), %r12
	jmp	.Ldcsctp_BB11_204
.Ldcsctp_BB11_341:
	leaq	.Ldcsctp_static.19(%rip), %rdx
	leaq	32(%rsp), %rcx
	movl	$6, %r8d
	callq	core.fmt.formatter.Formatter.write_indented.69d84fb4438acd8c
	testb	%al, %al
	jne	.Ldcsctp_BB11_396
	jmp	.Ldcsctp_BB11_227
.Ldcsctp_BB11_342:
	leaq	.Ldcsctp_static.19(%rip), %rdx
	leaq	32(%rsp), %rcx
	movl	$6, %r8d
	callq	core.fmt.formatter.Formatter.write_indented.69d84fb4438acd8c
	testb	%al, %al
	jne	.Ldcsctp_BB11_400
	jmp	.Ldcsctp_BB11_234
.Ldcsctp_BB11_343:
	movw	$15726, 4(%r8)
	movl	$1936924716, (%r8)
.Ldcsctp_BB11_344:
	addq	$6, %rax
	movq	%rdx, 32(%rsp)
	movq	%rax, 40(%rsp)
	movq	%rcx, 48(%rsp)
.Ldcsctp_BB11_345:
	movzwl	200(%rsp), %eax
	movw	%ax, 136(%rsp)
	movq	%r15, 224(%rsp)
	movl	$32, 56(%rsp)
	movl	$0, 8(%r14)
	movq	$0, (%r14)
	movq	$-1, 72(%rsp)
	leaq	32(%rsp), %rcx
	leaq	224(%rsp), %rdx
	callq	core.fmt.formatter.Formatter.write_piece.9c544998babb2079
	testb	%al, %al
	jne	.Ldcsctp_BB11_396
	movl	$32, 56(%rsp)
	movl	$0, 8(%r14)
	movq	$0, (%r14)
	movq	$-1, 72(%rsp)
	cmpq	$0, 80(%rsp)
	jne	.Ldcsctp_BB11_392
	movq	40(%rsp), %rax
	movq	48(%rsp), %rcx
	movq	%rcx, %rdx
	subq	%rax, %rdx
	cmpq	$6, %rdx
	jbe	.Ldcsctp_BB11_394
.Ldcsctp_BB11_348:
	movq	32(%rsp), %rdx
	leaq	(%rdx,%rax), %r8
	movq	%r8, %r9
	leaq	.Ldcsctp_static.22(%rip), %r10
	subq	%r10, %r9
	cmpq	$6, %r9
	ja	.Ldcsctp_BB11_374
	movl	$1886396460, (%r8)
	movw	$25705, 4(%r8)
	movb	$61, 6(%r8)
	jmp	.Ldcsctp_BB11_375
.Ldcsctp_BB11_350:
	movw	$15726, 4(%r8)
	movl	$1936924716, (%r8)
.Ldcsctp_BB11_351:
	addq	$6, %rax
	movq	%rdx, 32(%rsp)
	movq	%rax, 40(%rsp)
	movq	%rcx, 48(%rsp)
.Ldcsctp_BB11_352:
	movl	204(%rsp), %eax
	movl	%eax, 116(%rsp)
	movq	%r15, 120(%rsp)
	movl	$32, 56(%rsp)
	movl	$0, 8(%r14)
	movq	$0, (%r14)
	movq	$-1, 72(%rsp)
	leaq	32(%rsp), %rcx
	leaq	120(%rsp), %rdx
	callq	core.fmt.formatter.Formatter.write_piece.7d2ac8fd5c291299
	testb	%al, %al
	jne	.Ldcsctp_BB11_400
	movl	$32, 56(%rsp)
	movl	$0, 8(%r14)
	movq	$0, (%r14)
	movq	$-1, 72(%rsp)
	cmpq	$0, 80(%rsp)
	jne	.Ldcsctp_BB11_393
	movq	40(%rsp), %rax
	movq	48(%rsp), %rcx
	movq	%rcx, %rdx
	subq	%rax, %rdx
	cmpq	$6, %rdx
	jbe	.Ldcsctp_BB11_398
.Ldcsctp_BB11_355:
	movq	32(%rsp), %rdx
	leaq	(%rdx,%rax), %r8
	movq	%r8, %r9
	leaq	.Ldcsctp_static.22(%rip), %r10
	subq	%r10, %r9
	cmpq	$6, %r9
	ja	.Ldcsctp_BB11_378
	movl	$1886396460, (%r8)
	movw	$25705, 4(%r8)
	movb	$61, 6(%r8)
	jmp	.Ldcsctp_BB11_379
.Ldcsctp_BB11_357:
	leaq	32(%rsp), %rcx
	movl	$6, %edx
	callq	std_alloc.vec.Vec.grow_amortized.38fbb921ed00a393
	testb	%al, %al
	je	.Ldcsctp_BB11_396
	movq	40(%rsp), %rax
	movq	48(%rsp), %rcx
	jmp	.Ldcsctp_BB11_213
.Ldcsctp_BB11_359:
	leaq	32(%rsp), %rcx
	movl	$6, %edx
	callq	std_alloc.vec.Vec.grow_amortized.38fbb921ed00a393
	testb	%al, %al
	je	.Ldcsctp_BB11_400
	movq	40(%rsp), %rax
	movq	48(%rsp), %rcx
	jmp	.Ldcsctp_BB11_219
.Ldcsctp_BB11_361:
	leaq	.Ldcsctp_static.39(%rip), %rdx
	leaq	32(%rsp), %rcx
	movl	$14, %r8d
	callq	core.fmt.formatter.Formatter.write_indented.69d84fb4438acd8c
	testb	%al, %al
	jne	.Ldcsctp_BB11_244
	jmp	.Ldcsctp_BB11_242
.Ldcsctp_BB11_362:
	leaq	.Ldcsctp_static.31(%rip), %rdx
	leaq	32(%rsp), %rcx
	movl	$9, %r8d
	callq	core.fmt.formatter.Formatter.write_indented.69d84fb4438acd8c
	testb	%al, %al
	jne	.Ldcsctp_BB11_244
	jmp	.Ldcsctp_BB11_133
.Ldcsctp_BB11_363:
	leaq	.Ldcsctp_static.33(%rip), %rdx
	leaq	32(%rsp), %rcx
	movl	$6, %r8d
	callq	core.fmt.formatter.Formatter.write_indented.69d84fb4438acd8c
	movl	%eax, %r15d
	jmp	.Ldcsctp_BB11_184
.Ldcsctp_BB11_364:
	leaq	32(%rsp), %rcx
	movl	$14, %edx
	callq	std_alloc.vec.Vec.grow_amortized.38fbb921ed00a393
	testb	%al, %al
	je	.Ldcsctp_BB11_244
	movq	40(%rsp), %rax
	movq	48(%rsp), %rcx
	jmp	.Ldcsctp_BB11_120
.Ldcsctp_BB11_366:
	leaq	32(%rsp), %rcx
	movl	$9, %edx
	callq	std_alloc.vec.Vec.grow_amortized.38fbb921ed00a393
	testb	%al, %al
	je	.Ldcsctp_BB11_244
	movq	40(%rsp), %rax
	movq	48(%rsp), %rcx
	jmp	.Ldcsctp_BB11_132
.Ldcsctp_BB11_368:
	leaq	32(%rsp), %rcx
	movl	$14, %edx
	callq	std_alloc.vec.Vec.grow_amortized.38fbb921ed00a393
	testb	%al, %al
	je	.Ldcsctp_BB11_244
	movq	40(%rsp), %rax
	movq	48(%rsp), %rcx
	jmp	.Ldcsctp_BB11_147
.Ldcsctp_BB11_370:
	leaq	32(%rsp), %rcx
	movl	$6, %edx
	callq	std_alloc.vec.Vec.grow_amortized.38fbb921ed00a393
	testb	%al, %al
	movq	104(%rsp), %r11
	je	.Ldcsctp_BB11_247
	movq	40(%rsp), %rax
	movq	48(%rsp), %rcx
	jmp	.Ldcsctp_BB11_223
.Ldcsctp_BB11_372:
	leaq	.Ldcsctp_static.20(%rip), %rdx
	leaq	32(%rsp), %rcx
	movl	$6, %r8d
	callq	core.fmt.formatter.Formatter.write_indented.69d84fb4438acd8c
	testb	%al, %al
	jne	.Ldcsctp_BB11_396
	jmp	.Ldcsctp_BB11_250
.Ldcsctp_BB11_373:
	leaq	.Ldcsctp_static.35(%rip), %rdx
	leaq	32(%rsp), %rcx
	movl	$6, %r8d
	callq	core.fmt.formatter.Formatter.write_indented.69d84fb4438acd8c
	testb	%al, %al
	jne	.Ldcsctp_BB11_400
	jmp	.Ldcsctp_BB11_257
.Ldcsctp_BB11_374:
	movl	$1029990768, 3(%r8)
	movl	$1886396460, (%r8)
.Ldcsctp_BB11_375:
	addq	$7, %rax
	movq	%rdx, 32(%rsp)
	movq	%rax, 40(%rsp)
	movq	%rcx, 48(%rsp)
.Ldcsctp_BB11_376:
	movl	208(%rsp), %eax
	movl	%eax, 136(%rsp)
	movq	%r15, 224(%rsp)
	movl	$32, 56(%rsp)
	movl	$0, 8(%r14)
	movq	$0, (%r14)
	movq	$-1, 72(%rsp)
	leaq	32(%rsp), %rcx
	leaq	224(%rsp), %rdx
	callq	core.fmt.formatter.Formatter.write_piece.7d2ac8fd5c291299
	movq	160(%rsp), %rcx
	leaq	56(%rsp), %rbp
	movq	%rcx, 16(%rbp)
	movaps	144(%rsp), %xmm0
	movups	%xmm0, (%rbp)
	movb	$1, %r15b
	testb	%al, %al
	jne	.Ldcsctp_BB11_403
	leaq	32(%rsp), %rcx
	leaq	416(%rsp), %rdx
	callq	core.fmt.formatter.Formatter.write_piece.3798a2e744629105
	movl	%eax, %r15d
	jmp	.Ldcsctp_BB11_403
.Ldcsctp_BB11_378:
	movl	$1029990768, 3(%r8)
	movl	$1886396460, (%r8)
.Ldcsctp_BB11_379:
	addq	$7, %rax
	movq	%rdx, 32(%rsp)
	movq	%rax, 40(%rsp)
	movq	%rcx, 48(%rsp)
.Ldcsctp_BB11_380:
	movl	200(%rsp), %eax
	movl	%eax, 116(%rsp)
	movq	%r15, 120(%rsp)
	movl	$32, 56(%rsp)
	movl	$0, 8(%r14)
	movq	$0, (%r14)
	movq	$-1, 72(%rsp)
	leaq	32(%rsp), %rcx
	leaq	120(%rsp), %rdx
	callq	core.fmt.formatter.Formatter.write_piece.7d2ac8fd5c291299
	movq	160(%rsp), %rcx
	leaq	56(%rsp), %rbp
	movq	%rcx, 16(%rbp)
	movaps	144(%rsp), %xmm0
	movups	%xmm0, (%rbp)
	movb	$1, %r15b
	testb	%al, %al
	jne	.Ldcsctp_BB11_401
	leaq	32(%rsp), %rcx
	leaq	416(%rsp), %rdx
	callq	core.fmt.formatter.Formatter.write_piece.3798a2e744629105
	movl	%eax, %r15d
	jmp	.Ldcsctp_BB11_401
.Ldcsctp_BB11_382:
	leaq	32(%rsp), %rcx
	movl	$6, %edx
	callq	std_alloc.vec.Vec.grow_amortized.38fbb921ed00a393
	testb	%al, %al
	je	.Ldcsctp_BB11_396
	movq	40(%rsp), %rax
	movq	48(%rsp), %rcx
	jmp	.Ldcsctp_BB11_230
.Ldcsctp_BB11_384:
	leaq	32(%rsp), %rcx
	movl	$6, %edx
	callq	std_alloc.vec.Vec.grow_amortized.38fbb921ed00a393
	testb	%al, %al
	je	.Ldcsctp_BB11_400
	movq	40(%rsp), %rax
	movq	48(%rsp), %rcx
	jmp	.Ldcsctp_BB11_237
.Ldcsctp_BB11_386:
	leaq	.Ldcsctp_static.21(%rip), %rdx
	leaq	32(%rsp), %rcx
	movl	$6, %r8d
	callq	core.fmt.formatter.Formatter.write_indented.69d84fb4438acd8c
	testb	%al, %al
	jne	.Ldcsctp_BB11_396
	jmp	.Ldcsctp_BB11_345
.Ldcsctp_BB11_387:
	leaq	.Ldcsctp_static.21(%rip), %rdx
	leaq	32(%rsp), %rcx
	movl	$6, %r8d
	callq	core.fmt.formatter.Formatter.write_indented.69d84fb4438acd8c
	testb	%al, %al
	jne	.Ldcsctp_BB11_400
	jmp	.Ldcsctp_BB11_352
.Ldcsctp_BB11_388:
	leaq	32(%rsp), %rcx
	movl	$6, %edx
	callq	std_alloc.vec.Vec.grow_amortized.38fbb921ed00a393
	testb	%al, %al
	je	.Ldcsctp_BB11_396
	movq	40(%rsp), %rax
	movq	48(%rsp), %rcx
	jmp	.Ldcsctp_BB11_253
.Ldcsctp_BB11_390:
	leaq	32(%rsp), %rcx
	movl	$6, %edx
	callq	std_alloc.vec.Vec.grow_amortized.38fbb921ed00a393
	testb	%al, %al
	je	.Ldcsctp_BB11_400
	movq	40(%rsp), %rax
	movq	48(%rsp), %rcx
	jmp	.Ldcsctp_BB11_260
.Ldcsctp_BB11_392:
	leaq	.Ldcsctp_static.22(%rip), %rdx
	leaq	32(%rsp), %rcx
	movl	$7, %r8d
	callq	core.fmt.formatter.Formatter.write_indented.69d84fb4438acd8c
	testb	%al, %al
	jne	.Ldcsctp_BB11_396
	jmp	.Ldcsctp_BB11_376
.Ldcsctp_BB11_393:
	leaq	.Ldcsctp_static.22(%rip), %rdx
	leaq	32(%rsp), %rcx
	movl	$7, %r8d
	callq	core.fmt.formatter.Formatter.write_indented.69d84fb4438acd8c
	testb	%al, %al
	jne	.Ldcsctp_BB11_400
	jmp	.Ldcsctp_BB11_380
.Ldcsctp_BB11_394:
	leaq	32(%rsp), %rcx
	movl	$7, %edx
	callq	std_alloc.vec.Vec.grow_amortized.38fbb921ed00a393
	testb	%al, %al
	je	.Ldcsctp_BB11_396
	movq	40(%rsp), %rax
	movq	48(%rsp), %rcx
	jmp	.Ldcsctp_BB11_348
.Ldcsctp_BB11_396:
	movb	$1, %r15b
	leaq	56(%rsp), %rbp
	jmp	.Ldcsctp_BB11_403
.Ldcsctp_BB11_398:
	leaq	32(%rsp), %rcx
	movl	$7, %edx
	callq	std_alloc.vec.Vec.grow_amortized.38fbb921ed00a393
	testb	%al, %al
	je	.Ldcsctp_BB11_400
	movq	40(%rsp), %rax
	movq	48(%rsp), %rcx
	jmp	.Ldcsctp_BB11_355
.Ldcsctp_BB11_400:
	movb	$1, %r15b
	leaq	56(%rsp), %rbp
.Ldcsctp_BB11_401:
	movq	240(%rsp), %rax
	movq	%rax, 16(%rbp)
	movaps	224(%rsp), %xmm0
.Ldcsctp_BB11_402:
	movups	%xmm0, (%rbp)
	movq	216(%rsp), %r13
.Ldcsctp_BB11_403:
	movq	104(%rsp), %r11
.Ldcsctp_BB11_404:
	movq	480(%rsp), %rax
	movq	%rax, 16(%rbp)
	movaps	464(%rsp), %xmm0
	movups	%xmm0, (%rbp)
	testb	%r15b, %r15b
	jne	.Ldcsctp_BB11_424
.Ldcsctp_BB11_405:
	incq	%rbx
	cmpq	%r13, %rbx
	jne	.Ldcsctp_BB11_27
.Ldcsctp_BB11_406:
	movl	$32, 56(%rsp)
	movl	$0, 8(%r14)
	movq	$0, (%r14)
	movq	$-1, 72(%rsp)
	cmpq	$0, 80(%rsp)
	jne	.Ldcsctp_BB11_421
	movq	40(%rsp), %rcx
	movq	48(%rsp), %rax
	cmpq	%rcx, %rax
	je	.Ldcsctp_BB11_422
.Ldcsctp_BB11_408:
	movq	32(%rsp), %rdx
	movb	$10, (%rdx,%rcx)
	incq	%rcx
	movq	%rdx, 32(%rsp)
	movq	%rcx, 40(%rsp)
	movq	32(%rsp), %rcx
	movq	40(%rsp), %rdx
	movq	%rax, 192(%rsp)
	movq	%rcx, 176(%rsp)
	movq	%rdx, 184(%rsp)
.Ldcsctp_BB11_409:
	movq	8(%rdi), %rbx
	testq	%rbx, %rbx
	je	.Ldcsctp_BB11_417
	movq	(%rdi), %r14
	movabsq	$4611686018427387903, %r15
	xorl	%r13d, %r13d
	xorl	%r8d, %r8d
	shlq	$6, %r8
	movzbl	(%r14,%r8), %eax
	movl	$8, %edx
	leaq	.Ldcsctp_JTI11_1(%rip), %rbp
	movslq	(%rbp,%rax,4), %rcx
	addq	%rbp, %rcx
	xorl	%r12d, %r12d
	movb	$1, %al
	jmpq	*%rcx
.Ldcsctp_BB11_411:
	leaq	.Ldcsctp_static.4(%rip), %rdx
	leaq	32(%rsp), %rcx
	movl	$13, %r8d
	callq	core.fmt.formatter.Formatter.write_indented.69d84fb4438acd8c
	testb	%al, %al
	jne	.Ldcsctp_BB11_424
	jmp	.Ldcsctp_BB11_11
.Ldcsctp_BB11_412:
	leaq	32(%rsp), %rcx
	movl	$13, %edx
	callq	std_alloc.vec.Vec.grow_amortized.38fbb921ed00a393
	testb	%al, %al
	je	.Ldcsctp_BB11_424
	movq	40(%rsp), %rax
	movq	48(%rsp), %rcx
	jmp	.Ldcsctp_BB11_7
.Ldcsctp_BB11_414:
	leaq	.Ldcsctp_static.5(%rip), %rdx
	leaq	32(%rsp), %rcx
	movl	$5, %r8d
	callq	core.fmt.formatter.Formatter.write_indented.69d84fb4438acd8c
	testb	%al, %al
	jne	.Ldcsctp_BB11_424
	jmp	.Ldcsctp_BB11_20
.Ldcsctp_BB11_415:
	leaq	32(%rsp), %rcx
	movl	$5, %edx
	callq	std_alloc.vec.Vec.grow_amortized.38fbb921ed00a393
	testb	%al, %al
	je	.Ldcsctp_BB11_424
	movq	40(%rsp), %rax
	movq	48(%rsp), %rcx
	jmp	.Ldcsctp_BB11_14
.Ldcsctp_BB11_417:
	movb	$1, %al
	xorl	%r12d, %r12d
	jmp	.Ldcsctp_BB11_461
.Ldcsctp_BB11_418:
	leaq	.Ldcsctp_static.6(%rip), %rdx
	leaq	32(%rsp), %rcx
	movl	$10, %r8d
	callq	core.fmt.formatter.Formatter.write_indented.69d84fb4438acd8c
	testb	%al, %al
	jne	.Ldcsctp_BB11_424
	jmp	.Ldcsctp_BB11_24
.Ldcsctp_BB11_419:
	leaq	32(%rsp), %rcx
	movl	$10, %edx
	callq	std_alloc.vec.Vec.grow_amortized.38fbb921ed00a393
	testb	%al, %al
	je	.Ldcsctp_BB11_424
	movq	40(%rsp), %rax
	movq	48(%rsp), %rcx
	jmp	.Ldcsctp_BB11_23
.Ldcsctp_BB11_421:
	leaq	.Ldcsctp_static.2(%rip), %rdx
	leaq	32(%rsp), %rcx
	movl	$1, %r8d
	callq	core.fmt.formatter.Formatter.write_indented.69d84fb4438acd8c
	movaps	32(%rsp), %xmm0
	movq	48(%rsp), %rcx
	movq	%rcx, 512(%rsp)
	movaps	%xmm0, 176(%rsp)
	movq	%rcx, 192(%rsp)
	testb	%al, %al
	jne	.Ldcsctp_BB11_425
	jmp	.Ldcsctp_BB11_409
.Ldcsctp_BB11_422:
	leaq	32(%rsp), %rcx
	movl	$1, %edx
	callq	std_alloc.vec.Vec.grow_amortized.38fbb921ed00a393
	testb	%al, %al
	je	.Ldcsctp_BB11_424
	movq	40(%rsp), %rcx
	movq	48(%rsp), %rax
	jmp	.Ldcsctp_BB11_408
.Ldcsctp_BB11_424:
	movq	48(%rsp), %rax
	movaps	32(%rsp), %xmm0
	movaps	%xmm0, 176(%rsp)
	movq	%rax, 192(%rsp)
.Ldcsctp_BB11_425:
	cmpq	$0, 192(%rsp)
	je	.Ldcsctp_BB11_427
	movq	176(%rsp), %rcx
	callq	rattle_dealloc
.Ldcsctp_BB11_427:
	movb	$1, (%rsi)
	xorps	%xmm0, %xmm0
	movups	%xmm0, 8(%rsi)
	movq	$0, 24(%rsi)
.Ldcsctp_BB11_428:
	addq	$552, %rsp
	popq	%rbx
	popq	%rbp
	popq	%rdi
	popq	%rsi
	popq	%r12
	popq	%r13
	popq	%r14
	popq	%r15
	retq
.Ldcsctp_BB11_433:
	movq	8(%r14,%r8), %rdx
	movq	16(%r14,%r8), %r8
	xorl	%ecx, %ecx
	callq	dcsctp_tlv.list.listed_encoded_size.cada439fb2c2aae5
	.p2align	4
.Ldcsctp_BB11_429:
	cmpb	$1, %al
	jne	.Ldcsctp_BB11_436
	addq	$3, %r12
	andq	$-4, %r12
	addq	%rdx, %r12
	cmpq	$65536, %r12
	jae	.Ldcsctp_BB11_436
	incq	%r13
	cmpq	%rbx, %r13
	je	.Ldcsctp_BB11_459
	movq	%r13, %r8
	shlq	$6, %r8
	movzbl	(%r14,%r8), %ecx
	movb	$1, %al
	movslq	(%rbp,%rcx,4), %rcx
	addq	%rbp, %rcx
	movl	$8, %edx
	jmpq	*%rcx
.Ldcsctp_BB11_434:
	movl	$4, %edx
	movb	$1, %al
	jmp	.Ldcsctp_BB11_429
.Ldcsctp_BB11_435:
	movq	24(%r14,%r8), %rdx
	movq	32(%r14,%r8), %r8
	movl	$16, %ecx
	callq	dcsctp_tlv.list.listed_encoded_size.cada439fb2c2aae5
	jmp	.Ldcsctp_BB11_429
.Ldcsctp_BB11_436:
	xorl	%r12d, %r12d
	xorl	%eax, %eax
	jmp	.Ldcsctp_BB11_460
.Ldcsctp_BB11_437:
	movq	16(%r14,%r8), %rcx
	leaq	12(%rcx), %rax
	addq	$16, %rcx
	jmp	.Ldcsctp_BB11_449
.Ldcsctp_BB11_438:
	movq	24(%r14,%r8), %rcx
	testq	%rcx, %rcx
	je	.Ldcsctp_BB11_443
	movq	16(%r14,%r8), %rax
	leaq	-1(%rcx), %rdx
	.p2align	4
.Ldcsctp_BB11_440:
	movzbl	(%rax), %r8d
	addq	$-1, %rdx
	setb	%r9b
	cmpb	$1, %r8b
	jne	.Ldcsctp_BB11_442
	addq	$12, %rax
	testb	%r9b, %r9b
	jne	.Ldcsctp_BB11_440
.Ldcsctp_BB11_442:
	xorl	%edx, %edx
	movl	$0, %eax
	cmpb	$1, %r8b
	jne	.Ldcsctp_BB11_429
.Ldcsctp_BB11_443:
	movq	%rcx, %rax
	shrq	$61, %rax
	shlq	$3, %rcx
	xorl	%r8d, %r8d
	negq	%rax
	movl	$0, %eax
	sbbq	%rax, %rax
	orq	%rcx, %rax
	leaq	8(%rax), %rdx
	cmpq	$65528, %rax
	setb	%al
	cmovaeq	%r8, %rdx
	jmp	.Ldcsctp_BB11_429
.Ldcsctp_BB11_444:
	movq	16(%r14,%r8), %rax
	jmp	.Ldcsctp_BB11_448
.Ldcsctp_BB11_445:
	movq	16(%r14,%r8), %rcx
	leaq	16(%rcx), %rax
	addq	$20, %rcx
	jmp	.Ldcsctp_BB11_449
.Ldcsctp_BB11_446:
	movq	48(%r14,%r8), %rax
	addq	24(%r14,%r8), %rax
	movq	$-1, %rcx
	cmovbq	%rcx, %rax
	leaq	(,%rax,4), %r8
	cmpq	%r15, %rax
	cmovaq	%rcx, %r8
	leaq	16(%r8), %rcx
	xorl	%edx, %edx
	cmpq	$65520, %r8
	jmp	.Ldcsctp_BB11_450
.Ldcsctp_BB11_447:
	movq	24(%r14,%r8), %rax
.Ldcsctp_BB11_448:
	leaq	4(%rax), %rcx
.Ldcsctp_BB11_449:
	xorl	%edx, %edx
	cmpq	$65532, %rax
.Ldcsctp_BB11_450:
	setb	%al
	cmovbq	%rcx, %rdx
	jmp	.Ldcsctp_BB11_429
.Ldcsctp_BB11_451:
	movq	16(%r14,%r8), %rcx
	movq	24(%r14,%r8), %rdx
	callq	dcsctp_tlv.list.listed_encoded_size.f123a6a91b68d363
	jmp	.Ldcsctp_BB11_429
.Ldcsctp_BB11_452:
	movq	24(%r14,%r8), %rcx
	testq	%rcx, %rcx
	je	.Ldcsctp_BB11_457
	movq	16(%r14,%r8), %rax
	leaq	-1(%rcx), %rdx
	.p2align	4
.Ldcsctp_BB11_454:
	movzbl	(%rax), %r8d
	subq	$1, %rdx
	setb	%r9b
	testb	$1, %r8b
	jne	.Ldcsctp_BB11_456
	addq	$12, %rax
	testb	%r9b, %r9b
	je	.Ldcsctp_BB11_454
.Ldcsctp_BB11_456:
	xorl	%edx, %edx
	movl	$0, %eax
	testb	$1, %r8b
	jne	.Ldcsctp_BB11_429
.Ldcsctp_BB11_457:
	leaq	(,%rcx,4), %rax
	cmpq	%r15, %rcx
	movq	$-1, %rcx
	cmovbeq	%rax, %rcx
	leaq	8(%rcx), %r8
	xorl	%edx, %edx
	cmpq	$65528, %rcx
	setb	%al
	cmovbq	%r8, %rdx
	jmp	.Ldcsctp_BB11_429
.Ldcsctp_BB11_458:
	movq	8(%r14,%r8), %rcx
	movq	16(%r14,%r8), %rdx
	callq	dcsctp_tlv.list.listed_encoded_size.f123a6a91b68d363
	jmp	.Ldcsctp_BB11_429
.Ldcsctp_BB11_459:
	movb	$1, %al
.Ldcsctp_BB11_460:
	addl	$3, %r12d
	andl	$131068, %r12d
.Ldcsctp_BB11_461:
	testb	%al, %al
	je	.Ldcsctp_BB11_478
	cmpl	$65521, %r12d
	jae	.Ldcsctp_BB11_478
	leaq	12(%r12), %r14
	movl	$1, %edx
	movq	%r14, %rcx
	callq	rattle_alloc
	testb	$1, %al
	je	.Ldcsctp_BB11_425
	movq	%rdx, %rbx
	leaq	11(%r12), %r8
	movq	%rdx, %rcx
	xorl	%edx, %edx
	callq	memset
	movb	$0, 11(%rbx,%r12)
	movzwl	26(%rdi), %eax
	movl	28(%rdi), %ecx
	movzwl	24(%rdi), %edx
	shll	$16, %edx
	orl	%eax, %edx
	bswapl	%edx
	bswapl	%ecx
	movl	%edx, (%rbx)
	movl	%ecx, 4(%rbx)
	movl	$0, 8(%rbx)
	movq	8(%rdi), %r15
	testq	%r15, %r15
	je	.Ldcsctp_BB11_467
	leaq	12(%rbx), %r13
	movq	(%rdi), %rdi
	xorl	%ebp, %ebp
.Ldcsctp_BB11_466:
	addq	$3, %rbp
	andq	$-4, %rbp
	movq	%r13, %rdx
	addq	%rbp, %rdx
	movq	%rdi, %rcx
	callq	dcsctp_wire.packet.chunk.ChunkSerializableTlv.serialize_to
	movzwl	2(%r13,%rbp), %eax
	rolw	$8, %ax
	movzwl	%ax, %eax
	addq	%rax, %rbp
	addq	$64, %rdi
	decq	%r15
	jne	.Ldcsctp_BB11_466
.Ldcsctp_BB11_467:
	leal	(%r14,%r14), %r15d
	movl	$1, %edx
	movq	%r15, %rcx
	callq	rattle_alloc
	testb	$1, %al
	je	.Ldcsctp_BB11_509
	movq	%rdx, %rdi
	leaq	-1(%r15), %r8
	movq	%rdx, %rcx
	xorl	%edx, %edx
	callq	memset
	movb	$0, -1(%rdi,%r15)
	movq	$-12, %rax
.Ldcsctp_BB11_469:
	movzbl	12(%rbx,%rax), %ecx
	movl	%ecx, %edx
	shrl	$4, %edx
	leaq	.Ldcsctp_static.50(%rip), %r8
	movzbl	(%rdx,%r8), %edx
	movb	%dl, 24(%rdi,%rax,2)
	andl	$15, %ecx
	movzbl	(%rcx,%r8), %ecx
	movb	%cl, 25(%rdi,%rax,2)
	movzbl	13(%rbx,%rax), %ecx
	movl	%ecx, %edx
	shrl	$4, %edx
	movzbl	(%rdx,%r8), %edx
	movb	%dl, 26(%rdi,%rax,2)
	andl	$15, %ecx
	movzbl	(%rcx,%r8), %ecx
	movb	%cl, 27(%rdi,%rax,2)
	addq	$2, %rax
	cmpq	%rax, %r12
	jne	.Ldcsctp_BB11_469
	movaps	176(%rsp), %xmm0
	movaps	%xmm0, 256(%rsp)
	movq	192(%rsp), %rbp
	movq	%rbp, 272(%rsp)
	xorps	%xmm0, %xmm0
	movaps	%xmm0, 304(%rsp)
	movl	$32, 280(%rsp)
	movq	$0, 284(%rsp)
	movl	$0, 292(%rsp)
	movq	$-1, 296(%rsp)
	movq	264(%rsp), %rax
	movq	%rbp, %rcx
	subq	%rax, %rcx
	cmpq	$9, %rcx
	jbe	.Ldcsctp_BB11_499
.Ldcsctp_BB11_471:
	leaq	284(%rsp), %r11
	movq	256(%rsp), %rdx
	leaq	(%rdx,%rax), %rcx
	addq	$10, %rax
	leaq	.Ldcsctp_static.48(%rip), %r8
	movq	%rcx, %r9
	subq	%r8, %r9
	cmpq	$9, %r9
	movabsq	$7017568567410188643, %r8
	movq	%r8, (%rcx)
	movw	$15724, 8(%rcx)
	movq	%rax, 264(%rsp)
	movq	%rbp, 272(%rsp)
	movl	$32, 280(%rsp)
	movl	$0, 8(%r11)
	movq	$0, (%r11)
	movq	$-1, 296(%rsp)
	cmpq	$0, 304(%rsp)
	jne	.Ldcsctp_BB11_501
	movq	%rbp, %rcx
	subq	%rax, %rcx
	cmpq	%rcx, %r15
	ja	.Ldcsctp_BB11_502
.Ldcsctp_BB11_473:
	leaq	(%rax,%r15), %r13
	leaq	(%rdx,%rax), %rcx
	movq	%rcx, %r8
	subq	%rdi, %r8
	cmpq	%r15, %r8
	jae	.Ldcsctp_BB11_484
	cmpq	$32, %r8
	jae	.Ldcsctp_BB11_487
	xorl	%r8d, %r8d
.Ldcsctp_BB11_476:
	addq	%rdx, %rax
	addq	$3, %rax
.Ldcsctp_BB11_477:
	movzbl	(%rdi,%r8), %ecx
	movb	%cl, -3(%rax,%r8)
	movzbl	1(%rdi,%r8), %ecx
	movb	%cl, -2(%rax,%r8)
	movzbl	2(%rdi,%r8), %ecx
	movb	%cl, -1(%rax,%r8)
	movzbl	3(%rdi,%r8), %ecx
	movb	%cl, (%rax,%r8)
	addq	$4, %r8
	cmpq	%r8, %r15
	jne	.Ldcsctp_BB11_477
	jmp	.Ldcsctp_BB11_494
.Ldcsctp_BB11_478:
	movq	184(%rsp), %rcx
	movq	192(%rsp), %rax
	movq	%rax, %rdx
	subq	%rcx, %rdx
	cmpq	$18, %rdx
	jbe	.Ldcsctp_BB11_485
.Ldcsctp_BB11_479:
	leaq	184(%rsp), %r8
	leaq	19(%rcx), %rdx
	xorps	%xmm0, %xmm0
	addq	176(%rsp), %rcx
	movups	%xmm0, (%r8)
	leaq	.Ldcsctp_static.47(%rip), %r8
	movq	%rcx, %r9
	subq	%r8, %r9
	cmpq	$18, %r9
	ja	.Ldcsctp_BB11_481
	movaps	.Ldcsctp_CPI11_13(%rip), %xmm0
	movups	%xmm0, (%rcx)
	movw	$26478, 16(%rcx)
	movb	$10, 18(%rcx)
	jmp	.Ldcsctp_BB11_482
.Ldcsctp_BB11_481:
	movups	.Ldcsctp_static.47(%rip), %xmm0
	movups	%xmm0, (%rcx)
	movl	$174550639, 15(%rcx)
.Ldcsctp_BB11_482:
	movq	%rdx, 184(%rsp)
	movq	%rax, 192(%rsp)
.Ldcsctp_BB11_483:
	movb	$0, (%rsi)
	movq	176(%rsp), %rax
	movq	%rax, 8(%rsi)
	movq	184(%rsp), %rax
	movq	%rax, 16(%rsi)
	movq	192(%rsp), %rax
	movq	%rax, 24(%rsi)
	jmp	.Ldcsctp_BB11_428
.Ldcsctp_BB11_484:
	movq	%rdi, %rdx
	movq	%r15, %r8
	movq	%r11, %r14
	callq	memmove
	movq	%r14, %r11
	jmp	.Ldcsctp_BB11_494
.Ldcsctp_BB11_485:
	leaq	176(%rsp), %rcx
	movl	$19, %edx
	callq	std_alloc.vec.Vec.grow_amortized.38fbb921ed00a393
	testb	%al, %al
	je	.Ldcsctp_BB11_425
	movq	184(%rsp), %rcx
	movq	192(%rsp), %rax
	jmp	.Ldcsctp_BB11_479
.Ldcsctp_BB11_487:
	testq	%r12, %r12
	je	.Ldcsctp_BB11_492
	movl	%r15d, %r8d
	andl	$262112, %r8d
	leaq	(%rax,%rdx), %r9
	addq	$16, %r9
	xorl	%r10d, %r10d
.Ldcsctp_BB11_489:
	movups	(%rdi,%r10), %xmm0
	movups	16(%rdi,%r10), %xmm1
	movups	%xmm0, -16(%r9,%r10)
	movups	%xmm1, (%r9,%r10)
	addq	$32, %r10
	cmpq	%r10, %r8
	jne	.Ldcsctp_BB11_489
	cmpl	%r8d, %r15d
	je	.Ldcsctp_BB11_494
	testb	$12, %r14b
	jne	.Ldcsctp_BB11_493
	jmp	.Ldcsctp_BB11_476
.Ldcsctp_BB11_492:
	xorl	%r8d, %r8d
.Ldcsctp_BB11_493:
	movq	(%rdi,%r8), %rax
	movq	%rax, (%rcx,%r8)
	addq	$8, %r8
	cmpq	%r8, %r15
	jne	.Ldcsctp_BB11_493
.Ldcsctp_BB11_494:
	movq	%r13, 264(%rsp)
	movq	%rbp, 272(%rsp)
.Ldcsctp_BB11_495:
	movl	$32, 280(%rsp)
	movl	$0, 8(%r11)
	movq	$0, (%r11)
	movq	$-1, 296(%rsp)
	cmpq	$0, 304(%rsp)
	jne	.Ldcsctp_BB11_504
	movq	264(%rsp), %rcx
	movq	272(%rsp), %rax
	cmpq	%rcx, %rax
	je	.Ldcsctp_BB11_505
.Ldcsctp_BB11_497:
	movq	256(%rsp), %rdx
	movb	$10, (%rdx,%rcx)
	incq	%rcx
	movq	%rcx, 264(%rsp)
	movq	256(%rsp), %rcx
	movq	264(%rsp), %rdx
	movq	%rax, 192(%rsp)
	movq	%rcx, 176(%rsp)
	movq	%rdx, 184(%rsp)
.Ldcsctp_BB11_498:
	movq	%rdi, %rcx
	callq	rattle_dealloc
	movq	%rbx, %rcx
	callq	rattle_dealloc
	jmp	.Ldcsctp_BB11_483
.Ldcsctp_BB11_499:
	leaq	256(%rsp), %rcx
	movl	$10, %edx
	callq	std_alloc.vec.Vec.grow_amortized.38fbb921ed00a393
	testb	%al, %al
	je	.Ldcsctp_BB11_507
	movq	264(%rsp), %rax
	movq	272(%rsp), %rbp
	jmp	.Ldcsctp_BB11_471
.Ldcsctp_BB11_501:
	leaq	256(%rsp), %rcx
	movq	%rdi, %rdx
	movq	%r15, %r8
	movq	%r11, %r14
	callq	core.fmt.formatter.Formatter.write_indented.69d84fb4438acd8c
	movq	%r14, %r11
	testb	%al, %al
	jne	.Ldcsctp_BB11_507
	jmp	.Ldcsctp_BB11_495
.Ldcsctp_BB11_502:
	leaq	256(%rsp), %rcx
	movq	%r15, %rdx
	movq	%r11, %r13
	callq	std_alloc.vec.Vec.grow_amortized.38fbb921ed00a393
	testb	%al, %al
	je	.Ldcsctp_BB11_507
	movq	%r13, %r11
	movq	256(%rsp), %rdx
	movq	264(%rsp), %rax
	movq	272(%rsp), %rbp
	jmp	.Ldcsctp_BB11_473
.Ldcsctp_BB11_504:
	leaq	.Ldcsctp_static.2(%rip), %rdx
	leaq	256(%rsp), %rcx
	movl	$1, %r8d
	callq	core.fmt.formatter.Formatter.write_indented.69d84fb4438acd8c
	movq	272(%rsp), %rcx
	movq	%rcx, 48(%rsp)
	movaps	256(%rsp), %xmm0
	movaps	%xmm0, 176(%rsp)
	movq	%rcx, 192(%rsp)
	testb	%al, %al
	jne	.Ldcsctp_BB11_508
	jmp	.Ldcsctp_BB11_498
.Ldcsctp_BB11_505:
	leaq	256(%rsp), %rcx
	movl	$1, %edx
	callq	std_alloc.vec.Vec.grow_amortized.38fbb921ed00a393
	testb	%al, %al
	je	.Ldcsctp_BB11_507
	movq	264(%rsp), %rcx
	movq	272(%rsp), %rax
	jmp	.Ldcsctp_BB11_497
.Ldcsctp_BB11_507:
	movq	272(%rsp), %rax
	movaps	256(%rsp), %xmm0
	movaps	%xmm0, 176(%rsp)
	movq	%rax, 192(%rsp)
.Ldcsctp_BB11_508:
	movq	%rdi, %rcx
	callq	rattle_dealloc
.Ldcsctp_BB11_509:
	movq	%rbx, %rcx
	callq	rattle_dealloc
	jmp	.Ldcsctp_BB11_425
	.section	.rdata,"dr"
	.p2align	2, 0x0
.Ldcsctp_JTI11_0:
	.long	.Ldcsctp_BB11_30-.Ldcsctp_JTI11_0
	.long	.Ldcsctp_BB11_36-.Ldcsctp_JTI11_0
	.long	.Ldcsctp_BB11_64-.Ldcsctp_JTI11_0
	.long	.Ldcsctp_BB11_72-.Ldcsctp_JTI11_0
	.long	.Ldcsctp_BB11_52-.Ldcsctp_JTI11_0
	.long	.Ldcsctp_BB11_84-.Ldcsctp_JTI11_0
	.long	.Ldcsctp_BB11_92-.Ldcsctp_JTI11_0
	.long	.Ldcsctp_BB11_76-.Ldcsctp_JTI11_0
	.long	.Ldcsctp_BB11_100-.Ldcsctp_JTI11_0
	.long	.Ldcsctp_BB11_60-.Ldcsctp_JTI11_0
	.long	.Ldcsctp_BB11_96-.Ldcsctp_JTI11_0
	.long	.Ldcsctp_BB11_49-.Ldcsctp_JTI11_0
	.long	.Ldcsctp_BB11_56-.Ldcsctp_JTI11_0
	.long	.Ldcsctp_BB11_88-.Ldcsctp_JTI11_0
	.long	.Ldcsctp_BB11_46-.Ldcsctp_JTI11_0
	.long	.Ldcsctp_BB11_68-.Ldcsctp_JTI11_0
	.long	.Ldcsctp_BB11_42-.Ldcsctp_JTI11_0
	.long	.Ldcsctp_BB11_80-.Ldcsctp_JTI11_0
.Ldcsctp_JTI11_1:
	.long	.Ldcsctp_BB11_437-.Ldcsctp_JTI11_1
	.long	.Ldcsctp_BB11_435-.Ldcsctp_JTI11_1
	.long	.Ldcsctp_BB11_435-.Ldcsctp_JTI11_1
	.long	.Ldcsctp_BB11_446-.Ldcsctp_JTI11_1
	.long	.Ldcsctp_BB11_433-.Ldcsctp_JTI11_1
	.long	.Ldcsctp_BB11_433-.Ldcsctp_JTI11_1
	.long	.Ldcsctp_BB11_451-.Ldcsctp_JTI11_1
	.long	.Ldcsctp_BB11_429-.Ldcsctp_JTI11_1
	.long	.Ldcsctp_BB11_434-.Ldcsctp_JTI11_1
	.long	.Ldcsctp_BB11_458-.Ldcsctp_JTI11_1
	.long	.Ldcsctp_BB11_444-.Ldcsctp_JTI11_1
	.long	.Ldcsctp_BB11_434-.Ldcsctp_JTI11_1
	.long	.Ldcsctp_BB11_434-.Ldcsctp_JTI11_1
	.long	.Ldcsctp_BB11_445-.Ldcsctp_JTI11_1
	.long	.Ldcsctp_BB11_433-.Ldcsctp_JTI11_1
	.long	.Ldcsctp_BB11_452-.Ldcsctp_JTI11_1
	.long	.Ldcsctp_BB11_438-.Ldcsctp_JTI11_1
	.long	.Ldcsctp_BB11_447-.Ldcsctp_JTI11_1
	.text
	.seh_endproc
	.def	core.fmt.formatter.Formatter.write_piece.9c544998babb2079;
	.scl	3;
	.type	32;
	.endef
	.p2align	4
core.fmt.formatter.Formatter.write_piece.9c544998babb2079:
.seh_proc core.fmt.formatter.Formatter.write_piece.9c544998babb2079
	pushq	%r15
	.seh_pushreg %r15
	pushq	%r14
	.seh_pushreg %r14
	pushq	%rsi
	.seh_pushreg %rsi
	pushq	%rdi
	.seh_pushreg %rdi
	pushq	%rbx
	.seh_pushreg %rbx
	subq	$64, %rsp
	.seh_stackalloc 64
	.seh_endprologue
	movq	%rcx, %rsi
	movl	$32, 24(%rcx)
	movq	$0, 28(%rcx)
	movl	$0, 36(%rcx)
	movq	$-1, 40(%rcx)
	movq	(%rdx), %rax
	movzwl	(%rax), %edx
	xorps	%xmm0, %xmm0
	movaps	%xmm0, 32(%rsp)
	movq	$0, 48(%rsp)
	movl	$24, %eax
	cmpq	$100, %rdx
	jb	.Ldcsctp_BB12_1
	.p2align	4
.Ldcsctp_BB12_2:
	movl	%edx, %ecx
	imulq	$1374389535, %rcx, %rcx
	shrq	$37, %rcx
	imull	$100, %ecx, %r8d
	movl	%edx, %r9d
	subl	%r8d, %r9d
	imull	$103, %r9d, %r8d
	movzwl	%r8w, %r8d
	shrl	$10, %r8d
	leal	(%r8,%r8), %r10d
	leal	(%r10,%r10,4), %r10d
	subb	%r10b, %r9b
	orb	$48, %r9b
	movb	%r9b, 31(%rsp,%rax)
	orb	$48, %r8b
	movb	%r8b, 30(%rsp,%rax)
	addq	$-2, %rax
	cmpq	$9999, %rdx
	movq	%rcx, %rdx
	ja	.Ldcsctp_BB12_2
	cmpq	$10, %rcx
	jb	.Ldcsctp_BB12_5
.Ldcsctp_BB12_4:
	movzbl	%cl, %edx
	imull	$205, %edx, %edx
	shrl	$11, %edx
	leal	(%rdx,%rdx), %r8d
	leal	(%r8,%r8,4), %r8d
	subb	%r8b, %cl
	orb	$48, %cl
	movb	%cl, 31(%rsp,%rax)
	orb	$48, %dl
	movb	%dl, 30(%rsp,%rax)
	addq	$-2, %rax
	jmp	.Ldcsctp_BB12_6
.Ldcsctp_BB12_1:
	movq	%rdx, %rcx
	cmpq	$10, %rcx
	jae	.Ldcsctp_BB12_4
.Ldcsctp_BB12_5:
	orb	$48, %cl
	movb	%cl, 31(%rsp,%rax)
	decq	%rax
.Ldcsctp_BB12_6:
	leaq	(%rsp,%rax), %rdx
	addq	$32, %rdx
	movb	$45, 31(%rsp,%rax)
	movl	$24, %r8d
	subq	%rax, %r8
	cmpq	$0, 48(%rsi)
	jne	.Ldcsctp_BB12_11
	movq	8(%rsi), %rdi
	movq	16(%rsi), %rbx
	movq	%rbx, %rax
	subq	%rdi, %rax
	cmpq	%rax, %r8
	ja	.Ldcsctp_BB12_8
.Ldcsctp_BB12_10:
	movq	(%rsi), %r14
	leaq	(%r14,%rdi), %rcx
	addq	%r8, %rdi
	callq	memcpy
	movq	%r14, (%rsi)
	movq	%rdi, 8(%rsi)
	movq	%rbx, 16(%rsi)
	xorl	%eax, %eax
.Ldcsctp_BB12_12:
	addq	$64, %rsp
	popq	%rbx
	popq	%rdi
	popq	%rsi
	popq	%r14
	popq	%r15
	retq
.Ldcsctp_BB12_11:
	movq	%rsi, %rcx
	callq	core.fmt.formatter.Formatter.write_indented.69d84fb4438acd8c
	jmp	.Ldcsctp_BB12_12
.Ldcsctp_BB12_8:
	movq	%rdx, %r14
	movq	%rsi, %rcx
	movq	%r8, %r15
	movq	%r8, %rdx
	callq	std_alloc.vec.Vec.grow_amortized.38fbb921ed00a393
	movl	%eax, %ecx
	movb	$1, %al
	testb	%cl, %cl
	je	.Ldcsctp_BB12_12
	movq	8(%rsi), %rdi
	movq	16(%rsi), %rbx
	movq	%r14, %rdx
	movq	%r15, %r8
	jmp	.Ldcsctp_BB12_10
	.seh_endproc
	.def	std_alloc.vec.Vec.grow_amortized.38fbb921ed00a393;
	.scl	3;
	.type	32;
	.endef
	.p2align	4
std_alloc.vec.Vec.grow_amortized.38fbb921ed00a393:
.seh_proc std_alloc.vec.Vec.grow_amortized.38fbb921ed00a393
	pushq	%rsi
	.seh_pushreg %rsi
	pushq	%rdi
	.seh_pushreg %rdi
	subq	$40, %rsp
	.seh_stackalloc 40
	.seh_endprologue
	movq	%rdx, %rax
	movq	8(%rcx), %rdx
	addq	%rdx, %rax
	jb	.Ldcsctp_BB13_6
	cmpq	$9, %rax
	movl	$8, %esi
	cmovaeq	%rax, %rsi
	movq	16(%rcx), %r8
	movq	%r8, %r9
	shrq	$62, %r9
	leaq	(%r8,%r8), %rax
	cmpq	%rax, %rsi
	cmovaq	%rsi, %rax
	testq	%r9, %r9
	cmoveq	%rax, %rsi
	testq	%rsi, %rsi
	js	.Ldcsctp_BB13_6
	testq	%r8, %r8
	je	.Ldcsctp_BB13_5
	movq	%rcx, %rdi
	movq	(%rcx), %rcx
	movl	$1, %r9d
	movq	%rsi, %r8
	callq	rattle_realloc
	testb	$1, %al
	je	.Ldcsctp_BB13_6
.Ldcsctp_BB13_4:
	movq	%rdx, (%rdi)
	movq	%rsi, 16(%rdi)
	movb	$1, %al
	addq	$40, %rsp
	popq	%rdi
	popq	%rsi
	retq
.Ldcsctp_BB13_5:
	movq	%rcx, %rdi
	movl	$1, %edx
	movq	%rax, %rcx
	callq	rattle_alloc
	testb	$1, %al
	jne	.Ldcsctp_BB13_4
.Ldcsctp_BB13_6:
	xorl	%eax, %eax
	addq	$40, %rsp
	popq	%rdi
	popq	%rsi
	retq
	.seh_endproc
	.def	core.fmt.formatter.Formatter.write_indented.69d84fb4438acd8c;
	.scl	3;
	.type	32;
	.endef
	.p2align	4
core.fmt.formatter.Formatter.write_indented.69d84fb4438acd8c:
.seh_proc core.fmt.formatter.Formatter.write_indented.69d84fb4438acd8c
	pushq	%r15
	.seh_pushreg %r15
	pushq	%r14
	.seh_pushreg %r14
	pushq	%r13
	.seh_pushreg %r13
	pushq	%r12
	.seh_pushreg %r12
	pushq	%rsi
	.seh_pushreg %rsi
	pushq	%rdi
	.seh_pushreg %rdi
	pushq	%rbx
	.seh_pushreg %rbx
	subq	$32, %rsp
	.seh_stackalloc 32
	.seh_endprologue
	testq	%r8, %r8
	je	.Ldcsctp_BB14_1
	movq	%r8, %rsi
	movq	%rdx, %rdi
	movq	%rcx, %rbx
	xorl	%ecx, %ecx
	xorl	%r12d, %r12d
	jmp	.Ldcsctp_BB14_3
	.p2align	4
.Ldcsctp_BB14_7:
	addq	%rdi, %r15
	movb	$1, 56(%rbx)
	movq	%rbx, %rcx
	movq	%r15, %rdx
	movq	%r14, %r8
	callq	core.fmt.formatter.Formatter.write_raw.69d84fb4438acd8c
	movq	%r12, %rcx
	testb	%al, %al
	jne	.Ldcsctp_BB14_17
.Ldcsctp_BB14_8:
	cmpq	%rsi, %r12
	je	.Ldcsctp_BB14_9
.Ldcsctp_BB14_3:
	movq	%r12, %rax
	incq	%r12
	cmpb	$10, (%rdi,%rax)
	jne	.Ldcsctp_BB14_8
	xorl	%r15d, %r15d
	movq	%r12, %r14
	subq	%rcx, %r14
	cmovaeq	%rcx, %r15
	cmpq	%rax, %rcx
	movq	%r12, %rcx
	ja	.Ldcsctp_BB14_8
	cmpb	$1, 56(%rbx)
	jne	.Ldcsctp_BB14_7
	movq	48(%rbx), %r13
	testq	%r13, %r13
	je	.Ldcsctp_BB14_7
	.p2align	4
.Ldcsctp_BB14_14:
	leaq	.Ldcsctp_static.7(%rip), %rdx
	movl	$4, %r8d
	movq	%rbx, %rcx
	callq	core.fmt.formatter.Formatter.write_raw.69d84fb4438acd8c
	testb	%al, %al
	jne	.Ldcsctp_BB14_17
	decq	%r13
	jne	.Ldcsctp_BB14_14
	jmp	.Ldcsctp_BB14_7
.Ldcsctp_BB14_1:
	xorl	%eax, %eax
	jmp	.Ldcsctp_BB14_18
.Ldcsctp_BB14_9:
	xorl	%eax, %eax
	cmpq	%rsi, %rcx
	movq	%rcx, %r14
	cmovaq	%rax, %r14
	subq	%rcx, %rsi
	cmovbq	%rax, %rsi
	jbe	.Ldcsctp_BB14_18
	cmpb	$1, 56(%rbx)
	jne	.Ldcsctp_BB14_12
	movq	48(%rbx), %r15
	testq	%r15, %r15
	je	.Ldcsctp_BB14_12
	.p2align	4
.Ldcsctp_BB14_16:
	leaq	.Ldcsctp_static.7(%rip), %rdx
	movl	$4, %r8d
	movq	%rbx, %rcx
	callq	core.fmt.formatter.Formatter.write_raw.69d84fb4438acd8c
	testb	%al, %al
	jne	.Ldcsctp_BB14_17
	decq	%r15
	jne	.Ldcsctp_BB14_16
.Ldcsctp_BB14_12:
	addq	%r14, %rdi
	movb	$0, 56(%rbx)
	movq	%rbx, %rcx
	movq	%rdi, %rdx
	movq	%rsi, %r8
	addq	$32, %rsp
	popq	%rbx
	popq	%rdi
	popq	%rsi
	popq	%r12
	popq	%r13
	popq	%r14
	popq	%r15
	jmp	core.fmt.formatter.Formatter.write_raw.69d84fb4438acd8c
.Ldcsctp_BB14_17:
	movb	$1, %al
.Ldcsctp_BB14_18:
	addq	$32, %rsp
	popq	%rbx
	popq	%rdi
	popq	%rsi
	popq	%r12
	popq	%r13
	popq	%r14
	popq	%r15
	retq
	.seh_endproc
	.def	core.fmt.formatter.Formatter.write_raw.69d84fb4438acd8c;
	.scl	3;
	.type	32;
	.endef
	.p2align	4
core.fmt.formatter.Formatter.write_raw.69d84fb4438acd8c:
.seh_proc core.fmt.formatter.Formatter.write_raw.69d84fb4438acd8c
	pushq	%r14
	.seh_pushreg %r14
	pushq	%rsi
	.seh_pushreg %rsi
	pushq	%rdi
	.seh_pushreg %rdi
	pushq	%rbp
	.seh_pushreg %rbp
	pushq	%rbx
	.seh_pushreg %rbx
	subq	$32, %rsp
	.seh_stackalloc 32
	.seh_endprologue
	testq	%r8, %r8
	je	.Ldcsctp_BB15_18
	xorl	%r9d, %r9d
	jmp	.Ldcsctp_BB15_3
	.p2align	4
.Ldcsctp_BB15_2:
	addq	%rsi, %r9
	cmpq	%r8, %r9
	jae	.Ldcsctp_BB15_18
.Ldcsctp_BB15_3:
	movzbl	(%rdx,%r9), %r10d
	movl	$1, %esi
	testb	%r10b, %r10b
	jns	.Ldcsctp_BB15_2
	leaq	1(%r9), %r11
	movb	$1, %al
	cmpq	%r11, %r8
	jbe	.Ldcsctp_BB15_41
	movzbl	(%rdx,%r11), %r11d
	testb	%r11b, %r11b
	jns	.Ldcsctp_BB15_41
	movzbl	%r11b, %esi
	cmpb	$-64, %r11b
	movl	$192, %r11d
	cmovbl	%esi, %r11d
	cmpb	$-62, %r10b
	jb	.Ldcsctp_BB15_41
	movl	%r11d, %ebx
	andb	$127, %bl
	cmpb	$63, %bl
	ja	.Ldcsctp_BB15_41
	movl	$2, %esi
	cmpb	$-32, %r10b
	jb	.Ldcsctp_BB15_2
	leaq	2(%r9), %rsi
	cmpq	%rsi, %r8
	jbe	.Ldcsctp_BB15_41
	cmpb	$-65, (%rdx,%rsi)
	jg	.Ldcsctp_BB15_41
	andl	$127, %r11d
	cmpb	$-17, %r10b
	ja	.Ldcsctp_BB15_15
	movl	%r10d, %esi
	shll	$12, %esi
	shll	$6, %r11d
	addl	%esi, %r11d
	addl	$-917504, %r11d
	cmpl	$2048, %r11d
	jb	.Ldcsctp_BB15_41
	movl	$3, %esi
	cmpl	$55296, %r11d
	jb	.Ldcsctp_BB15_2
	cmpb	$-18, %r10b
	jae	.Ldcsctp_BB15_2
	jmp	.Ldcsctp_BB15_41
.Ldcsctp_BB15_15:
	leaq	3(%r9), %rsi
	cmpq	%rsi, %r8
	jbe	.Ldcsctp_BB15_41
	cmpb	$-65, (%rdx,%rsi)
	jg	.Ldcsctp_BB15_41
	shll	$18, %r10d
	shll	$12, %r11d
	addl	%r11d, %r10d
	addl	$-62980096, %r10d
	movl	$4, %esi
	cmpl	$1048575, %r10d
	jbe	.Ldcsctp_BB15_2
	jmp	.Ldcsctp_BB15_41
.Ldcsctp_BB15_18:
	movq	8(%rcx), %r9
	movq	16(%rcx), %rsi
	movq	%rsi, %rax
	subq	%r9, %rax
	cmpq	%rax, %r8
	ja	.Ldcsctp_BB15_42
.Ldcsctp_BB15_19:
	leaq	8(%rcx), %rax
	leaq	(%r9,%r8), %rdi
	movq	(%rcx), %rbx
	xorps	%xmm0, %xmm0
	movups	%xmm0, (%rax)
	leaq	(%rbx,%r9), %rax
	movq	%rax, %r10
	subq	%rdx, %r10
	cmpq	%r8, %r10
	jae	.Ldcsctp_BB15_22
	cmpq	$4, %r8
	jb	.Ldcsctp_BB15_21
	cmpq	$32, %r10
	jae	.Ldcsctp_BB15_25
.Ldcsctp_BB15_21:
	xorl	%r10d, %r10d
.Ldcsctp_BB15_34:
	movq	%r8, %r14
	movq	%r10, %r11
	andq	$3, %r14
	je	.Ldcsctp_BB15_37
	movq	%r10, %r11
	.p2align	4
.Ldcsctp_BB15_36:
	movzbl	(%rdx,%r11), %ebp
	movb	%bpl, (%rax,%r11)
	incq	%r11
	decq	%r14
	jne	.Ldcsctp_BB15_36
.Ldcsctp_BB15_37:
	subq	%r8, %r10
	cmpq	$-4, %r10
	ja	.Ldcsctp_BB15_40
	leaq	(%r9,%rbx), %rax
	addq	$3, %rax
	.p2align	4
.Ldcsctp_BB15_39:
	movzbl	(%rdx,%r11), %r9d
	movb	%r9b, -3(%rax,%r11)
	movzbl	1(%rdx,%r11), %r9d
	movb	%r9b, -2(%rax,%r11)
	movzbl	2(%rdx,%r11), %r9d
	movb	%r9b, -1(%rax,%r11)
	movzbl	3(%rdx,%r11), %r9d
	movb	%r9b, (%rax,%r11)
	addq	$4, %r11
	cmpq	%r11, %r8
	jne	.Ldcsctp_BB15_39
	jmp	.Ldcsctp_BB15_40
.Ldcsctp_BB15_22:
	movq	%rcx, %r14
	movq	%rax, %rcx
	callq	memmove
	movq	%r14, %rcx
.Ldcsctp_BB15_40:
	movq	%rbx, (%rcx)
	movq	%rdi, 8(%rcx)
	movq	%rsi, 16(%rcx)
	xorl	%eax, %eax
.Ldcsctp_BB15_41:
	addq	$32, %rsp
	popq	%rbx
	popq	%rbp
	popq	%rdi
	popq	%rsi
	popq	%r14
	retq
.Ldcsctp_BB15_25:
	cmpq	$32, %r8
	jae	.Ldcsctp_BB15_27
	xorl	%r10d, %r10d
	jmp	.Ldcsctp_BB15_31
.Ldcsctp_BB15_27:
	movq	%r8, %r10
	andq	$-32, %r10
	leaq	(%r9,%rbx), %r11
	addq	$16, %r11
	xorl	%r14d, %r14d
	.p2align	4
.Ldcsctp_BB15_28:
	movups	(%rdx,%r14), %xmm0
	movups	16(%rdx,%r14), %xmm1
	movups	%xmm0, -16(%r11,%r14)
	movups	%xmm1, (%r11,%r14)
	addq	$32, %r14
	cmpq	%r14, %r10
	jne	.Ldcsctp_BB15_28
	cmpq	%r10, %r8
	je	.Ldcsctp_BB15_40
	testb	$28, %r8b
	je	.Ldcsctp_BB15_34
.Ldcsctp_BB15_31:
	movq	%r10, %r11
	movq	%r8, %r10
	andq	$-4, %r10
	.p2align	4
.Ldcsctp_BB15_32:
	movl	(%rdx,%r11), %ebp
	movl	%ebp, (%rax,%r11)
	addq	$4, %r11
	cmpq	%r11, %r10
	jne	.Ldcsctp_BB15_32
	cmpq	%r10, %r8
	je	.Ldcsctp_BB15_40
	jmp	.Ldcsctp_BB15_34
.Ldcsctp_BB15_42:
	movq	%rcx, %rsi
	movq	%rdx, %rdi
	movq	%r8, %rdx
	movq	%r8, %rbx
	callq	std_alloc.vec.Vec.grow_amortized.38fbb921ed00a393
	movl	%eax, %r9d
	movb	$1, %al
	testb	%r9b, %r9b
	je	.Ldcsctp_BB15_41
	movq	%rdi, %rdx
	movq	%rbx, %r8
	movq	%rsi, %rcx
	movq	8(%rsi), %r9
	movq	16(%rsi), %rsi
	jmp	.Ldcsctp_BB15_19
	.seh_endproc
	.def	core.fmt.formatter.Formatter.write_piece.7d2ac8fd5c291299;
	.scl	3;
	.type	32;
	.endef
	.p2align	4
core.fmt.formatter.Formatter.write_piece.7d2ac8fd5c291299:
.seh_proc core.fmt.formatter.Formatter.write_piece.7d2ac8fd5c291299
	pushq	%r15
	.seh_pushreg %r15
	pushq	%r14
	.seh_pushreg %r14
	pushq	%rsi
	.seh_pushreg %rsi
	pushq	%rdi
	.seh_pushreg %rdi
	pushq	%rbx
	.seh_pushreg %rbx
	subq	$64, %rsp
	.seh_stackalloc 64
	.seh_endprologue
	movq	%rcx, %rsi
	movl	$32, 24(%rcx)
	movq	$0, 28(%rcx)
	movl	$0, 36(%rcx)
	movq	$-1, 40(%rcx)
	movq	(%rdx), %rax
	movl	(%rax), %edx
	xorps	%xmm0, %xmm0
	movaps	%xmm0, 32(%rsp)
	movq	$0, 48(%rsp)
	movl	$24, %eax
	cmpq	$100, %rdx
	jb	.Ldcsctp_BB16_1
	.p2align	4
.Ldcsctp_BB16_2:
	movl	%edx, %ecx
	imulq	$1374389535, %rcx, %rcx
	shrq	$37, %rcx
	imull	$100, %ecx, %r8d
	movl	%edx, %r9d
	subl	%r8d, %r9d
	imull	$103, %r9d, %r8d
	movzwl	%r8w, %r8d
	shrl	$10, %r8d
	leal	(%r8,%r8), %r10d
	leal	(%r10,%r10,4), %r10d
	subb	%r10b, %r9b
	orb	$48, %r9b
	movb	%r9b, 31(%rsp,%rax)
	orb	$48, %r8b
	movb	%r8b, 30(%rsp,%rax)
	addq	$-2, %rax
	cmpq	$9999, %rdx
	movq	%rcx, %rdx
	ja	.Ldcsctp_BB16_2
	cmpq	$10, %rcx
	jb	.Ldcsctp_BB16_5
.Ldcsctp_BB16_4:
	movzbl	%cl, %edx
	imull	$205, %edx, %edx
	shrl	$11, %edx
	leal	(%rdx,%rdx), %r8d
	leal	(%r8,%r8,4), %r8d
	subb	%r8b, %cl
	orb	$48, %cl
	movb	%cl, 31(%rsp,%rax)
	orb	$48, %dl
	movb	%dl, 30(%rsp,%rax)
	addq	$-2, %rax
	jmp	.Ldcsctp_BB16_6
.Ldcsctp_BB16_1:
	movq	%rdx, %rcx
	cmpq	$10, %rcx
	jae	.Ldcsctp_BB16_4
.Ldcsctp_BB16_5:
	orb	$48, %cl
	movb	%cl, 31(%rsp,%rax)
	decq	%rax
.Ldcsctp_BB16_6:
	leaq	(%rsp,%rax), %rdx
	addq	$32, %rdx
	movb	$45, 31(%rsp,%rax)
	movl	$24, %r8d
	subq	%rax, %r8
	cmpq	$0, 48(%rsi)
	jne	.Ldcsctp_BB16_11
	movq	8(%rsi), %rdi
	movq	16(%rsi), %rbx
	movq	%rbx, %rax
	subq	%rdi, %rax
	cmpq	%rax, %r8
	ja	.Ldcsctp_BB16_8
.Ldcsctp_BB16_10:
	movq	(%rsi), %r14
	leaq	(%r14,%rdi), %rcx
	addq	%r8, %rdi
	callq	memcpy
	movq	%r14, (%rsi)
	movq	%rdi, 8(%rsi)
	movq	%rbx, 16(%rsi)
	xorl	%eax, %eax
.Ldcsctp_BB16_12:
	addq	$64, %rsp
	popq	%rbx
	popq	%rdi
	popq	%rsi
	popq	%r14
	popq	%r15
	retq
.Ldcsctp_BB16_11:
	movq	%rsi, %rcx
	callq	core.fmt.formatter.Formatter.write_indented.69d84fb4438acd8c
	jmp	.Ldcsctp_BB16_12
.Ldcsctp_BB16_8:
	movq	%rdx, %r14
	movq	%rsi, %rcx
	movq	%r8, %r15
	movq	%r8, %rdx
	callq	std_alloc.vec.Vec.grow_amortized.38fbb921ed00a393
	movl	%eax, %ecx
	movb	$1, %al
	testb	%cl, %cl
	je	.Ldcsctp_BB16_12
	movq	8(%rsi), %rdi
	movq	16(%rsi), %rbx
	movq	%r14, %rdx
	movq	%r15, %r8
	jmp	.Ldcsctp_BB16_10
	.seh_endproc
	.def	core.fmt.formatter.Formatter.write_piece.b05199c44017c92e;
	.scl	3;
	.type	32;
	.endef
	.p2align	4
core.fmt.formatter.Formatter.write_piece.b05199c44017c92e:
.seh_proc core.fmt.formatter.Formatter.write_piece.b05199c44017c92e
	pushq	%rsi
	.seh_pushreg %rsi
	subq	$32, %rsp
	.seh_stackalloc 32
	.seh_endprologue
	movl	$32, 24(%rcx)
	movq	$0, 28(%rcx)
	movl	$0, 36(%rcx)
	movq	$-1, 40(%rcx)
	movq	48(%rcx), %rax
	cmpb	$1, (%rdx)
	jne	.Ldcsctp_BB17_4
	testq	%rax, %rax
	jne	.Ldcsctp_BB17_11
	movq	8(%rcx), %rax
	movq	16(%rcx), %rdx
	movq	%rdx, %r8
	subq	%rax, %r8
	cmpq	$3, %r8
	jbe	.Ldcsctp_BB17_14
.Ldcsctp_BB17_3:
	movq	(%rcx), %r8
	movl	$1702195828, (%r8,%rax)
	addq	$4, %rax
	jmp	.Ldcsctp_BB17_9
.Ldcsctp_BB17_4:
	testq	%rax, %rax
	jne	.Ldcsctp_BB17_13
	movq	8(%rcx), %rax
	movq	16(%rcx), %rdx
	movq	%rdx, %r8
	subq	%rax, %r8
	cmpq	$4, %r8
	jbe	.Ldcsctp_BB17_16
.Ldcsctp_BB17_6:
	movq	(%rcx), %r8
	leaq	(%r8,%rax), %r9
	addq	$5, %rax
	leaq	.Ldcsctp_static.16(%rip), %r10
	movq	%r9, %r11
	subq	%r10, %r11
	cmpq	$4, %r11
	ja	.Ldcsctp_BB17_8
	movl	$1936482662, (%r9)
	movb	$101, 4(%r9)
	jmp	.Ldcsctp_BB17_9
.Ldcsctp_BB17_8:
	movb	$101, 4(%r9)
	movl	$1936482662, (%r9)
.Ldcsctp_BB17_9:
	movq	%r8, (%rcx)
	movq	%rax, 8(%rcx)
	movq	%rdx, 16(%rcx)
	xorl	%eax, %eax
.Ldcsctp_BB17_10:
	addq	$32, %rsp
	popq	%rsi
	retq
.Ldcsctp_BB17_11:
	leaq	.Ldcsctp_static.15(%rip), %rdx
	movl	$4, %r8d
	addq	$32, %rsp
	popq	%rsi
	jmp	core.fmt.formatter.Formatter.write_indented.69d84fb4438acd8c
.Ldcsctp_BB17_13:
	leaq	.Ldcsctp_static.16(%rip), %rdx
	movl	$5, %r8d
	addq	$32, %rsp
	popq	%rsi
	jmp	core.fmt.formatter.Formatter.write_indented.69d84fb4438acd8c
.Ldcsctp_BB17_14:
	movl	$4, %edx
	movq	%rcx, %rsi
	callq	std_alloc.vec.Vec.grow_amortized.38fbb921ed00a393
	movl	%eax, %ecx
	movb	$1, %al
	testb	%cl, %cl
	je	.Ldcsctp_BB17_10
	movq	%rsi, %rcx
	movq	8(%rsi), %rax
	movq	16(%rsi), %rdx
	jmp	.Ldcsctp_BB17_3
.Ldcsctp_BB17_16:
	movl	$5, %edx
	movq	%rcx, %rsi
	callq	std_alloc.vec.Vec.grow_amortized.38fbb921ed00a393
	movl	%eax, %ecx
	movb	$1, %al
	testb	%cl, %cl
	je	.Ldcsctp_BB17_10
	movq	%rsi, %rcx
	movq	8(%rsi), %rax
	movq	16(%rsi), %rdx
	jmp	.Ldcsctp_BB17_6
	.seh_endproc
	.def	core.fmt.formatter.Formatter.write_piece.3798a2e744629105;
	.scl	3;
	.type	32;
	.endef
	.p2align	4
core.fmt.formatter.Formatter.write_piece.3798a2e744629105:
.seh_proc core.fmt.formatter.Formatter.write_piece.3798a2e744629105
	pushq	%r15
	.seh_pushreg %r15
	pushq	%r14
	.seh_pushreg %r14
	pushq	%r13
	.seh_pushreg %r13
	pushq	%r12
	.seh_pushreg %r12
	pushq	%rsi
	.seh_pushreg %rsi
	pushq	%rdi
	.seh_pushreg %rdi
	pushq	%rbp
	.seh_pushreg %rbp
	pushq	%rbx
	.seh_pushreg %rbx
	subq	$56, %rsp
	.seh_stackalloc 56
	.seh_endprologue
	leaq	24(%rcx), %rbx
	movl	$32, 24(%rcx)
	movq	$0, 28(%rcx)
	movl	$0, 36(%rcx)
	movq	$-1, 40(%rcx)
	movq	40(%rcx), %rax
	movq	%rax, 48(%rsp)
	movl	24(%rcx), %eax
	movl	%eax, 32(%rsp)
	movq	28(%rcx), %rax
	movq	%rax, 36(%rsp)
	movl	36(%rcx), %eax
	movl	%eax, 44(%rsp)
	movl	$32, 24(%rcx)
	movq	$0, 28(%rcx)
	movl	$0, 36(%rcx)
	movq	$-1, 40(%rcx)
	movq	(%rdx), %rsi
	movq	8(%rdx), %r8
	cmpq	$0, 48(%rcx)
	jne	.Ldcsctp_BB18_10
	movq	8(%rcx), %r9
	movq	16(%rcx), %rdi
	movq	%rdi, %rax
	subq	%r9, %rax
	cmpq	%rax, %r8
	ja	.Ldcsctp_BB18_27
.Ldcsctp_BB18_2:
	leaq	8(%rcx), %rax
	leaq	(%r9,%r8), %r14
	movq	(%rcx), %r15
	xorps	%xmm0, %xmm0
	movups	%xmm0, (%rax)
	leaq	(%r15,%r9), %rax
	movq	%rax, %r10
	subq	%rsi, %r10
	cmpq	%r8, %r10
	jae	.Ldcsctp_BB18_5
	cmpq	$4, %r8
	jb	.Ldcsctp_BB18_4
	cmpq	$32, %r10
	jae	.Ldcsctp_BB18_8
.Ldcsctp_BB18_4:
	xorl	%r10d, %r10d
.Ldcsctp_BB18_18:
	movq	%r8, %r12
	movq	%r10, %r11
	andq	$3, %r12
	je	.Ldcsctp_BB18_21
	movq	%r10, %r11
	.p2align	4
.Ldcsctp_BB18_20:
	movzbl	(%rsi,%r11), %ebp
	movb	%bpl, (%rax,%r11)
	incq	%r11
	decq	%r12
	jne	.Ldcsctp_BB18_20
.Ldcsctp_BB18_21:
	subq	%r8, %r10
	cmpq	$-4, %r10
	ja	.Ldcsctp_BB18_24
	leaq	(%r9,%r15), %rax
	addq	$3, %rax
	.p2align	4
.Ldcsctp_BB18_23:
	movzbl	(%rsi,%r11), %r9d
	movb	%r9b, -3(%rax,%r11)
	movzbl	1(%rsi,%r11), %r9d
	movb	%r9b, -2(%rax,%r11)
	movzbl	2(%rsi,%r11), %r9d
	movb	%r9b, -1(%rax,%r11)
	movzbl	3(%rsi,%r11), %r9d
	movb	%r9b, (%rax,%r11)
	addq	$4, %r11
	cmpq	%r11, %r8
	jne	.Ldcsctp_BB18_23
	jmp	.Ldcsctp_BB18_24
.Ldcsctp_BB18_5:
	movq	%rcx, %r12
	movq	%rax, %rcx
	movq	%rdx, %r13
	movq	%rsi, %rdx
	callq	memmove
	movq	%r12, %rcx
	movq	%r13, %rdx
.Ldcsctp_BB18_24:
	movq	%r15, (%rcx)
	movq	%r14, 8(%rcx)
	movq	%rdi, 16(%rcx)
.Ldcsctp_BB18_25:
	addq	$16, %rdx
	callq	core.fmt.formatter.Formatter.write_piece.861f8385eb98801e
.Ldcsctp_BB18_26:
	movq	48(%rsp), %rcx
	movq	%rcx, 16(%rbx)
	movaps	32(%rsp), %xmm0
	movups	%xmm0, (%rbx)
	addq	$56, %rsp
	popq	%rbx
	popq	%rbp
	popq	%rdi
	popq	%rsi
	popq	%r12
	popq	%r13
	popq	%r14
	popq	%r15
	retq
.Ldcsctp_BB18_8:
	cmpq	$32, %r8
	jae	.Ldcsctp_BB18_11
	xorl	%r10d, %r10d
	jmp	.Ldcsctp_BB18_15
.Ldcsctp_BB18_10:
	movq	%rcx, %rdi
	movq	%rdx, %r14
	movq	%rsi, %rdx
	callq	core.fmt.formatter.Formatter.write_indented.69d84fb4438acd8c
	movq	%rdi, %rcx
	movq	%r14, %rdx
	movl	%eax, %r8d
	movb	$1, %al
	testb	%r8b, %r8b
	jne	.Ldcsctp_BB18_26
	jmp	.Ldcsctp_BB18_25
.Ldcsctp_BB18_11:
	movq	%r8, %r10
	andq	$-32, %r10
	leaq	(%r9,%r15), %r11
	addq	$16, %r11
	xorl	%r12d, %r12d
	.p2align	4
.Ldcsctp_BB18_12:
	movups	(%rsi,%r12), %xmm0
	movups	16(%rsi,%r12), %xmm1
	movups	%xmm0, -16(%r11,%r12)
	movups	%xmm1, (%r11,%r12)
	addq	$32, %r12
	cmpq	%r12, %r10
	jne	.Ldcsctp_BB18_12
	cmpq	%r10, %r8
	je	.Ldcsctp_BB18_24
	testb	$28, %r8b
	je	.Ldcsctp_BB18_18
.Ldcsctp_BB18_15:
	movq	%r10, %r11
	movq	%r8, %r10
	andq	$-4, %r10
	.p2align	4
.Ldcsctp_BB18_16:
	movl	(%rsi,%r11), %ebp
	movl	%ebp, (%rax,%r11)
	addq	$4, %r11
	cmpq	%r11, %r10
	jne	.Ldcsctp_BB18_16
	cmpq	%r10, %r8
	je	.Ldcsctp_BB18_24
	jmp	.Ldcsctp_BB18_18
.Ldcsctp_BB18_27:
	movq	%rcx, %rdi
	movq	%rdx, %r15
	movq	%r8, %r14
	movq	%r8, %rdx
	callq	std_alloc.vec.Vec.grow_amortized.38fbb921ed00a393
	movl	%eax, %r8d
	movb	$1, %al
	testb	%r8b, %r8b
	je	.Ldcsctp_BB18_26
	movq	%rdi, %rcx
	movq	%r15, %rdx
	movq	8(%rdi), %r9
	movq	16(%rdi), %rdi
	movq	%r14, %r8
	jmp	.Ldcsctp_BB18_2
	.seh_endproc
	.def	core.fmt.formatter.Formatter.write_piece.861f8385eb98801e;
	.scl	3;
	.type	32;
	.endef
	.p2align	4
core.fmt.formatter.Formatter.write_piece.861f8385eb98801e:
.seh_proc core.fmt.formatter.Formatter.write_piece.861f8385eb98801e
	pushq	%r15
	.seh_pushreg %r15
	pushq	%r14
	.seh_pushreg %r14
	pushq	%rsi
	.seh_pushreg %rsi
	pushq	%rdi
	.seh_pushreg %rdi
	pushq	%rbx
	.seh_pushreg %rbx
	subq	$64, %rsp
	.seh_stackalloc 64
	.seh_endprologue
	movq	%rcx, %rsi
	movl	$32, 24(%rcx)
	movq	$0, 28(%rcx)
	movl	$0, 36(%rcx)
	movq	$-1, 40(%rcx)
	movq	(%rdx), %rax
	movq	(%rax), %r8
	xorps	%xmm0, %xmm0
	movaps	%xmm0, 32(%rsp)
	movq	$0, 48(%rsp)
	movl	$24, %ecx
	cmpq	$100, %r8
	jb	.Ldcsctp_BB19_1
	.p2align	4
.Ldcsctp_BB19_2:
	movq	%r8, %rax
	shrq	$2, %rax
	movabsq	$2951479051793528259, %rdx
	mulq	%rdx
	shrq	$2, %rdx
	imull	$100, %edx, %eax
	movl	%r8d, %r9d
	subl	%eax, %r9d
	movzbl	%r9b, %eax
	imull	$205, %eax, %r9d
	shrl	$11, %r9d
	leal	(%r9,%r9), %r10d
	leal	(%r10,%r10,4), %r10d
	subb	%r10b, %al
	orb	$48, %al
	movb	%al, 31(%rsp,%rcx)
	orb	$48, %r9b
	movb	%r9b, 30(%rsp,%rcx)
	addq	$-2, %rcx
	cmpq	$9999, %r8
	movq	%rdx, %r8
	ja	.Ldcsctp_BB19_2
	cmpq	$10, %rdx
	jb	.Ldcsctp_BB19_5
.Ldcsctp_BB19_4:
	movzbl	%dl, %eax
	imull	$205, %eax, %eax
	shrl	$11, %eax
	leal	(%rax,%rax), %r8d
	leal	(%r8,%r8,4), %r8d
	subb	%r8b, %dl
	orb	$48, %dl
	movb	%dl, 31(%rsp,%rcx)
	orb	$48, %al
	movb	%al, 30(%rsp,%rcx)
	addq	$-2, %rcx
	jmp	.Ldcsctp_BB19_6
.Ldcsctp_BB19_1:
	movq	%r8, %rdx
	cmpq	$10, %rdx
	jae	.Ldcsctp_BB19_4
.Ldcsctp_BB19_5:
	orb	$48, %dl
	movb	%dl, 31(%rsp,%rcx)
	decq	%rcx
.Ldcsctp_BB19_6:
	leaq	(%rsp,%rcx), %rdx
	addq	$32, %rdx
	movb	$45, 31(%rsp,%rcx)
	movl	$24, %r8d
	subq	%rcx, %r8
	cmpq	$0, 48(%rsi)
	jne	.Ldcsctp_BB19_11
	movq	8(%rsi), %rdi
	movq	16(%rsi), %rbx
	movq	%rbx, %rax
	subq	%rdi, %rax
	cmpq	%rax, %r8
	ja	.Ldcsctp_BB19_8
.Ldcsctp_BB19_10:
	movq	(%rsi), %r14
	leaq	(%r14,%rdi), %rcx
	addq	%r8, %rdi
	callq	memcpy
	movq	%r14, (%rsi)
	movq	%rdi, 8(%rsi)
	movq	%rbx, 16(%rsi)
	xorl	%eax, %eax
.Ldcsctp_BB19_12:
	addq	$64, %rsp
	popq	%rbx
	popq	%rdi
	popq	%rsi
	popq	%r14
	popq	%r15
	retq
.Ldcsctp_BB19_11:
	movq	%rsi, %rcx
	callq	core.fmt.formatter.Formatter.write_indented.69d84fb4438acd8c
	jmp	.Ldcsctp_BB19_12
.Ldcsctp_BB19_8:
	movq	%rdx, %r14
	movq	%rsi, %rcx
	movq	%r8, %r15
	movq	%r8, %rdx
	callq	std_alloc.vec.Vec.grow_amortized.38fbb921ed00a393
	movl	%eax, %ecx
	movb	$1, %al
	testb	%cl, %cl
	je	.Ldcsctp_BB19_12
	movq	8(%rsi), %rdi
	movq	16(%rsi), %rbx
	movq	%r14, %rdx
	movq	%r15, %r8
	jmp	.Ldcsctp_BB19_10
	.seh_endproc
	.def	dcsctp_tlv.list.listed_encoded_size.cada439fb2c2aae5;
	.scl	3;
	.type	32;
	.endef
	.p2align	4
dcsctp_tlv.list.listed_encoded_size.cada439fb2c2aae5:
.seh_proc dcsctp_tlv.list.listed_encoded_size.cada439fb2c2aae5
	pushq	%rsi
	.seh_pushreg %rsi
	pushq	%rdi
	.seh_pushreg %rdi
	.seh_endprologue
	testq	%r8, %r8
	je	.Ldcsctp_BB20_2
	addq	$32, %rdx
	xorl	%r9d, %r9d
	movzbl	-32(%rdx), %r11d
	movl	$8, %r10d
	leaq	.Ldcsctp_JTI20_0(%rip), %rax
	movslq	(%rax,%r11,4), %rsi
	addq	%rax, %rsi
	movb	$1, %r11b
	jmpq	*%rsi
.Ldcsctp_BB20_2:
	xorl	%r9d, %r9d
.Ldcsctp_BB20_3:
	leaq	(%r9,%rcx), %rax
	xorl	%edx, %edx
	cmpq	$65532, %rax
	setb	%al
	leaq	4(%r9,%rcx), %rcx
	cmovbq	%rcx, %rdx
	popq	%rdi
	popq	%rsi
	retq
.Ldcsctp_BB20_9:
	movl	$4, %r10d
	.p2align	4
.Ldcsctp_BB20_4:
	cmpb	$1, %r11b
	jne	.Ldcsctp_BB20_18
	addq	$3, %r9
	andq	$-4, %r9
	addq	%r10, %r9
	cmpq	$65535, %r9
	ja	.Ldcsctp_BB20_18
	decq	%r8
	je	.Ldcsctp_BB20_3
	addq	$48, %rdx
	movzbl	-32(%rdx), %r10d
	movslq	(%rax,%r10,4), %rsi
	addq	%rax, %rsi
	movb	$1, %r11b
	movl	$8, %r10d
	jmpq	*%rsi
.Ldcsctp_BB20_8:
	movq	-16(%rdx), %r11
	jmp	.Ldcsctp_BB20_17
.Ldcsctp_BB20_10:
	movq	(%rdx), %r10
	leaq	(%r10,%r10), %r11
	testq	%r10, %r10
	movq	$-1, %rsi
	cmovnsq	%r11, %rsi
	leaq	16(%rsi), %rdi
	xorl	%r10d, %r10d
	cmpq	$65520, %rsi
	jmp	.Ldcsctp_BB20_12
.Ldcsctp_BB20_11:
	movq	-8(%rdx), %r10
	leaq	(%r10,%r10), %r11
	testq	%r10, %r10
	movq	$-1, %rsi
	cmovnsq	%r11, %rsi
	leaq	8(%rsi), %rdi
	xorl	%r10d, %r10d
	cmpq	$65528, %rsi
.Ldcsctp_BB20_12:
	setb	%r11b
	cmovbq	%rdi, %r10
	jmp	.Ldcsctp_BB20_4
.Ldcsctp_BB20_13:
	cmpb	$1, -20(%rdx)
	jne	.Ldcsctp_BB20_15
	movl	$20, %r10d
	cmpb	$1, -12(%rdx)
	je	.Ldcsctp_BB20_4
.Ldcsctp_BB20_15:
	movl	$12, %r10d
	jmp	.Ldcsctp_BB20_4
.Ldcsctp_BB20_16:
	movq	-8(%rdx), %r11
.Ldcsctp_BB20_17:
	leaq	4(%r11), %rsi
	xorl	%r10d, %r10d
	cmpq	$65532, %r11
	setb	%r11b
	cmovbq	%rsi, %r10
	jmp	.Ldcsctp_BB20_4
.Ldcsctp_BB20_18:
	xorl	%eax, %eax
	xorl	%edx, %edx
	popq	%rdi
	popq	%rsi
	retq
	.section	.rdata,"dr"
	.p2align	2, 0x0
.Ldcsctp_JTI20_0:
	.long	.Ldcsctp_BB20_8-.Ldcsctp_JTI20_0
	.long	.Ldcsctp_BB20_8-.Ldcsctp_JTI20_0
	.long	.Ldcsctp_BB20_10-.Ldcsctp_JTI20_0
	.long	.Ldcsctp_BB20_11-.Ldcsctp_JTI20_0
	.long	.Ldcsctp_BB20_4-.Ldcsctp_JTI20_0
	.long	.Ldcsctp_BB20_13-.Ldcsctp_JTI20_0
	.long	.Ldcsctp_BB20_15-.Ldcsctp_JTI20_0
	.long	.Ldcsctp_BB20_15-.Ldcsctp_JTI20_0
	.long	.Ldcsctp_BB20_4-.Ldcsctp_JTI20_0
	.long	.Ldcsctp_BB20_8-.Ldcsctp_JTI20_0
	.long	.Ldcsctp_BB20_9-.Ldcsctp_JTI20_0
	.long	.Ldcsctp_BB20_16-.Ldcsctp_JTI20_0
	.text
	.seh_endproc
	.def	dcsctp_tlv.list.listed_encoded_size.f123a6a91b68d363;
	.scl	3;
	.type	32;
	.endef
	.p2align	4
dcsctp_tlv.list.listed_encoded_size.f123a6a91b68d363:
.seh_proc dcsctp_tlv.list.listed_encoded_size.f123a6a91b68d363
	pushq	%rsi
	.seh_pushreg %rsi
	.seh_endprologue
	testq	%rdx, %rdx
	je	.Ldcsctp_BB21_2
	addq	$24, %rcx
	xorl	%eax, %eax
	movzbl	-24(%rcx), %r10d
	movl	$8, %r9d
	leaq	.Ldcsctp_JTI21_0(%rip), %r8
	movslq	(%r8,%r10,4), %r11
	addq	%r8, %r11
	movb	$1, %r10b
	jmpq	*%r11
.Ldcsctp_BB21_2:
	xorl	%eax, %eax
.Ldcsctp_BB21_3:
	leaq	4(%rax), %rcx
	xorl	%edx, %edx
	cmpq	$65532, %rax
	setb	%al
	cmovbq	%rcx, %rdx
	popq	%rsi
	retq
.Ldcsctp_BB21_9:
	movq	-8(%rcx), %r9
	leaq	(%r9,%r9), %r10
	testq	%r9, %r9
	movq	$-1, %r11
	cmovnsq	%r10, %r11
	leaq	8(%r11), %rsi
	xorl	%r9d, %r9d
	cmpq	$65528, %r11
	setb	%r10b
	cmovbq	%rsi, %r9
	.p2align	4
.Ldcsctp_BB21_4:
	cmpb	$1, %r10b
	jne	.Ldcsctp_BB21_13
	addq	$3, %rax
	andq	$-4, %rax
	addq	%r9, %rax
	cmpq	$65535, %rax
	ja	.Ldcsctp_BB21_13
	decq	%rdx
	je	.Ldcsctp_BB21_3
	addq	$40, %rcx
	movzbl	-24(%rcx), %r9d
	movslq	(%r8,%r9,4), %r11
	addq	%r8, %r11
	movb	$1, %r10b
	movl	$8, %r9d
	jmpq	*%r11
.Ldcsctp_BB21_8:
	movq	-8(%rcx), %r10
	jmp	.Ldcsctp_BB21_11
.Ldcsctp_BB21_10:
	movq	(%rcx), %r10
.Ldcsctp_BB21_11:
	leaq	4(%r10), %r11
	xorl	%r9d, %r9d
	cmpq	$65532, %r10
	setb	%r10b
	cmovbq	%r11, %r9
	jmp	.Ldcsctp_BB21_4
.Ldcsctp_BB21_12:
	movl	$4, %r9d
	jmp	.Ldcsctp_BB21_4
.Ldcsctp_BB21_13:
	xorl	%eax, %eax
	xorl	%edx, %edx
	popq	%rsi
	retq
	.section	.rdata,"dr"
	.p2align	2, 0x0
.Ldcsctp_JTI21_0:
	.long	.Ldcsctp_BB21_9-.Ldcsctp_JTI21_0
	.long	.Ldcsctp_BB21_8-.Ldcsctp_JTI21_0
	.long	.Ldcsctp_BB21_4-.Ldcsctp_JTI21_0
	.long	.Ldcsctp_BB21_12-.Ldcsctp_JTI21_0
	.long	.Ldcsctp_BB21_8-.Ldcsctp_JTI21_0
	.long	.Ldcsctp_BB21_8-.Ldcsctp_JTI21_0
	.long	.Ldcsctp_BB21_10-.Ldcsctp_JTI21_0
	.text
	.seh_endproc
	.def	dcsctp_wire.packet.chunk.ChunkSerializableTlv.serialize_to;
	.scl	3;
	.type	32;
	.endef
	.section	.rdata,"dr"
	.p2align	4, 0x0
.Ldcsctp_CPI22_0:
	.byte	3
	.byte	2
	.byte	1
	.byte	0
	.byte	7
	.byte	6
	.byte	5
	.byte	4
	.zero	1
	.zero	1
	.zero	1
	.zero	1
	.zero	1
	.zero	1
	.zero	1
	.zero	1
.Ldcsctp_CPI22_1:
	.byte	1
	.byte	0
	.byte	3
	.byte	2
	.zero	1
	.zero	1
	.zero	1
	.zero	1
	.zero	1
	.zero	1
	.zero	1
	.zero	1
	.zero	1
	.zero	1
	.zero	1
	.zero	1
.Ldcsctp_CPI22_2:
	.byte	1
	.byte	0
	.byte	3
	.byte	2
	.byte	5
	.byte	4
	.byte	7
	.byte	6
	.byte	9
	.byte	8
	.byte	11
	.byte	10
	.byte	13
	.byte	12
	.byte	15
	.byte	14
.Ldcsctp_CPI22_3:
	.byte	3
	.byte	2
	.byte	1
	.byte	0
	.byte	7
	.byte	6
	.byte	5
	.byte	4
	.byte	11
	.byte	10
	.byte	9
	.byte	8
	.byte	15
	.byte	14
	.byte	13
	.byte	12
	.text
	.p2align	4
dcsctp_wire.packet.chunk.ChunkSerializableTlv.serialize_to:
.seh_proc dcsctp_wire.packet.chunk.ChunkSerializableTlv.serialize_to
	pushq	%rsi
	.seh_pushreg %rsi
	pushq	%rdi
	.seh_pushreg %rdi
	pushq	%rbx
	.seh_pushreg %rbx
	subq	$64, %rsp
	.seh_stackalloc 64
	.seh_endprologue
	movzbl	(%rcx), %eax
	leaq	.Ldcsctp_JTI22_0(%rip), %r8
	movslq	(%r8,%rax,4), %rax
	addq	%r8, %rax
	jmpq	*%rax
.Ldcsctp_BB22_1:
	movzbl	60(%rcx), %r9d
	movzbl	50(%rcx), %eax
	movzbl	44(%rcx), %r8d
	addb	%al, %al
	shlb	$2, %r8b
	shlb	$3, %r9b
	orb	51(%rcx), %r9b
	orb	%al, %r9b
	addb	%r8b, %r9b
	movl	56(%rcx), %r10d
	movl	40(%rcx), %r11d
	bswapl	%r10d
	bswapl	%r11d
	movq	8(%rcx), %rax
	movq	16(%rcx), %r8
	leal	16(%r8), %esi
	rolw	$8, %si
	movd	46(%rcx), %xmm0
	pshufb	.Ldcsctp_CPI22_1(%rip), %xmm0
	movb	$0, (%rdx)
	movb	%r9b, 1(%rdx)
	movw	%si, 2(%rdx)
	movl	%r10d, 4(%rdx)
	movd	%xmm0, 8(%rdx)
	movl	%r11d, 12(%rdx)
	leaq	16(%rdx), %rcx
	movq	%rcx, %r9
	subq	%rax, %r9
	cmpq	%r8, %r9
	jae	.Ldcsctp_BB22_38
	cmpq	$4, %r8
	jb	.Ldcsctp_BB22_3
	movq	%rdx, %r9
	subq	%rax, %r9
	addq	$16, %r9
	cmpq	$32, %r9
	jae	.Ldcsctp_BB22_56
.Ldcsctp_BB22_3:
	xorl	%r9d, %r9d
.Ldcsctp_BB22_92:
	movq	%r8, %r11
	movq	%r9, %r10
	andq	$3, %r11
	je	.Ldcsctp_BB22_95
	movq	%r9, %r10
	.p2align	4
.Ldcsctp_BB22_94:
	movzbl	(%rax,%r10), %ebx
	movb	%bl, (%rcx,%r10)
	incq	%r10
	decq	%r11
	jne	.Ldcsctp_BB22_94
.Ldcsctp_BB22_95:
	subq	%r8, %r9
	cmpq	$-4, %r9
	ja	.Ldcsctp_BB22_133
	.p2align	4
.Ldcsctp_BB22_96:
	movzbl	(%rax,%r10), %ecx
	movb	%cl, 16(%rdx,%r10)
	movzbl	1(%rax,%r10), %ecx
	movb	%cl, 17(%rdx,%r10)
	movzbl	2(%rax,%r10), %ecx
	movb	%cl, 18(%rdx,%r10)
	movzbl	3(%rax,%r10), %ecx
	movb	%cl, 19(%rdx,%r10)
	addq	$4, %r10
	cmpq	%r10, %r8
	jne	.Ldcsctp_BB22_96
	jmp	.Ldcsctp_BB22_133
.Ldcsctp_BB22_4:
	movl	8(%rcx), %r8d
	movq	16(%rcx), %rax
	movq	24(%rcx), %rcx
	movw	$194, (%rdx)
	leal	8(,%rcx,8), %r9d
	rolw	$8, %r9w
	movw	%r9w, 2(%rdx)
	bswapl	%r8d
	movl	%r8d, 4(%rdx)
	testq	%rcx, %rcx
	je	.Ldcsctp_BB22_133
	addq	$8, %rax
	xorl	%r8d, %r8d
	jmp	.Ldcsctp_BB22_7
	.p2align	4
.Ldcsctp_BB22_6:
	incq	%r8
	addq	$12, %rax
	cmpq	%r8, %rcx
	je	.Ldcsctp_BB22_133
.Ldcsctp_BB22_7:
	cmpb	$0, -8(%rax)
	je	.Ldcsctp_BB22_6
	movzwl	-4(%rax), %r9d
	rolw	$8, %r9w
	movw	%r9w, 8(%rdx,%r8,8)
	movzbl	-6(%rax), %r9d
	andl	$1, %r9d
	shll	$8, %r9d
	movw	%r9w, 10(%rdx,%r8,8)
	movl	(%rax), %r9d
	bswapl	%r9d
	movl	%r9d, 12(%rdx,%r8,8)
	jmp	.Ldcsctp_BB22_6
.Ldcsctp_BB22_9:
	movq	8(%rcx), %r9
	movq	16(%rcx), %rax
	movq	%rdx, 40(%rsp)
	movq	%rax, 32(%rsp)
	leaq	.Ldcsctp_static.8(%rip), %rdx
	movb	$-126, %cl
	jmp	.Ldcsctp_BB22_30
.Ldcsctp_BB22_10:
	movl	$67108875, (%rdx)
	jmp	.Ldcsctp_BB22_133
.Ldcsctp_BB22_11:
	movq	8(%rcx), %r9
	movq	16(%rcx), %rax
	movq	%rdx, 40(%rsp)
	movq	%rax, 32(%rsp)
	leaq	.Ldcsctp_static.8(%rip), %rdx
	movb	$4, %cl
	jmp	.Ldcsctp_BB22_30
.Ldcsctp_BB22_12:
	movzbl	1(%rcx), %eax
	movb	$14, (%rdx)
	movb	%al, 1(%rdx)
	movw	$1024, 2(%rdx)
	jmp	.Ldcsctp_BB22_133
.Ldcsctp_BB22_13:
	movq	8(%rcx), %r8
	movq	16(%rcx), %r9
	movq	%rdx, 32(%rsp)
	movb	$9, %cl
	xorl	%edx, %edx
	callq	dcsctp_tlv.list.put_listed.f123a6a91b68d363
	jmp	.Ldcsctp_BB22_133
.Ldcsctp_BB22_14:
	movl	20(%rcx), %eax
	bswapl	%eax
	movq	8(%rcx), %xmm0
	pshufb	.Ldcsctp_CPI22_0(%rip), %xmm0
	movq	%xmm0, 48(%rsp)
	movd	16(%rcx), %xmm0
	pshufb	.Ldcsctp_CPI22_1(%rip), %xmm0
	movd	%xmm0, 56(%rsp)
	movl	%eax, 60(%rsp)
	movq	24(%rcx), %r9
	movq	32(%rcx), %rax
	movq	%rdx, 40(%rsp)
	movq	%rax, 32(%rsp)
	leaq	48(%rsp), %rdx
	movl	$16, %r8d
	movb	$2, %cl
	callq	dcsctp_tlv.list.put_listed.cada439fb2c2aae5
	jmp	.Ldcsctp_BB22_133
.Ldcsctp_BB22_15:
	movl	8(%rcx), %r8d
	movq	16(%rcx), %rax
	movq	24(%rcx), %rcx
	movw	$192, (%rdx)
	leal	8(,%rcx,4), %r9d
	rolw	$8, %r9w
	movw	%r9w, 2(%rdx)
	bswapl	%r8d
	movl	%r8d, 4(%rdx)
	testq	%rcx, %rcx
	je	.Ldcsctp_BB22_133
	addq	$4, %rax
	xorl	%r8d, %r8d
	jmp	.Ldcsctp_BB22_18
	.p2align	4
.Ldcsctp_BB22_17:
	incq	%r8
	addq	$12, %rax
	cmpq	%r8, %rcx
	je	.Ldcsctp_BB22_133
.Ldcsctp_BB22_18:
	cmpb	$0, -4(%rax)
	jne	.Ldcsctp_BB22_17
	movzwl	-2(%rax), %r9d
	rolw	$8, %r9w
	movw	%r9w, 8(%rdx,%r8,4)
	movzwl	(%rax), %r9d
	rolw	$8, %r9w
	movw	%r9w, 10(%rdx,%r8,4)
	jmp	.Ldcsctp_BB22_17
.Ldcsctp_BB22_20:
	movq	48(%rcx), %rax
	addq	24(%rcx), %rax
	movq	$-1, %r8
	cmovaeq	%rax, %r8
	movq	%r8, %r9
	shrq	$62, %r9
	shlq	$2, %r8
	xorl	%eax, %eax
	negq	%r9
	sbbq	%rax, %rax
	orq	%r8, %rax
	cmpq	$65520, %rax
	jae	.Ldcsctp_BB22_134
	addl	$16, %eax
	rolw	$8, %ax
	movw	$3, (%rdx)
	movw	%ax, 2(%rdx)
	movzwl	24(%rcx), %eax
	movzwl	48(%rcx), %r8d
	rolw	$8, %ax
	rolw	$8, %r8w
	movq	8(%rcx), %xmm0
	pshufb	.Ldcsctp_CPI22_0(%rip), %xmm0
	movq	%xmm0, 4(%rdx)
	movw	%ax, 12(%rdx)
	movw	%r8w, 14(%rdx)
	movq	24(%rcx), %rax
	testq	%rax, %rax
	je	.Ldcsctp_BB22_40
	movq	16(%rcx), %r8
	movl	$16, %r9d
	cmpq	$52, %rax
	jb	.Ldcsctp_BB22_23
	leaq	2(%r8), %r11
	leaq	(%r8,%rax,4), %rsi
	addq	$-2, %rsi
	xorl	%r10d, %r10d
	cmpq	%r11, %rsi
	jb	.Ldcsctp_BB22_67
	leaq	(%r8,%rax,4), %r11
	addq	$-4, %r11
	cmpq	%r8, %r11
	jb	.Ldcsctp_BB22_67
	leaq	16(%rdx), %r11
	leaq	(%rdx,%rax,4), %rsi
	addq	$12, %rsi
	cmpq	%r11, %rsi
	jb	.Ldcsctp_BB22_67
	leaq	18(%rdx), %rsi
	leaq	(%rdx,%rax,4), %rdi
	addq	$14, %rdi
	cmpq	%rsi, %rdi
	jb	.Ldcsctp_BB22_67
	movabsq	$4611686018427387903, %rsi
	leaq	-1(%rax), %rdi
	cmpq	%rsi, %rdi
	ja	.Ldcsctp_BB22_67
	leaq	(%rdx,%rax,4), %r10
	addq	$16, %r10
	leaq	(%r8,%rax,4), %rsi
	cmpq	%rsi, %r11
	setb	%bl
	cmpq	%r10, %r8
	setb	%r10b
	testb	%r10b, %bl
	je	.Ldcsctp_BB22_64
.Ldcsctp_BB22_23:
	xorl	%r10d, %r10d
.Ldcsctp_BB22_67:
	movq	%r10, %r11
	orq	$1, %r11
	testb	$1, %al
	je	.Ldcsctp_BB22_69
	movzwl	(%r8,%r10,4), %esi
	rolw	$8, %si
	movw	%si, (%rdx,%r9)
	movzwl	2(%r8,%r10,4), %r10d
	rolw	$8, %r10w
	movw	%r10w, 2(%rdx,%r9)
	addq	$4, %r9
	movq	%r11, %r10
.Ldcsctp_BB22_69:
	cmpq	%r11, %rax
	je	.Ldcsctp_BB22_72
	addq	%rdx, %r9
	addq	$6, %r9
	leaq	(%r8,%r10,4), %r8
	addq	$6, %r8
	subq	%r10, %rax
	xorl	%r10d, %r10d
	.p2align	4
.Ldcsctp_BB22_71:
	movzwl	-6(%r8,%r10,4), %r11d
	rolw	$8, %r11w
	movw	%r11w, -6(%r9,%r10,4)
	movzwl	-4(%r8,%r10,4), %r11d
	rolw	$8, %r11w
	movw	%r11w, -4(%r9,%r10,4)
	movzwl	-2(%r8,%r10,4), %r11d
	rolw	$8, %r11w
	movw	%r11w, -2(%r9,%r10,4)
	movzwl	(%r8,%r10,4), %r11d
	rolw	$8, %r11w
	movw	%r11w, (%r9,%r10,4)
	addq	$2, %r10
	cmpq	%r10, %rax
	jne	.Ldcsctp_BB22_71
.Ldcsctp_BB22_72:
	movq	24(%rcx), %rax
	leaq	16(,%rax,4), %r10
	movq	48(%rcx), %rax
	testq	%rax, %rax
	jne	.Ldcsctp_BB22_74
	jmp	.Ldcsctp_BB22_133
.Ldcsctp_BB22_24:
	movl	4(%rcx), %eax
	bswapl	%eax
	movl	$134217735, (%rdx)
	movl	%eax, 4(%rdx)
	jmp	.Ldcsctp_BB22_133
.Ldcsctp_BB22_25:
	movl	20(%rcx), %eax
	bswapl	%eax
	movq	8(%rcx), %xmm0
	pshufb	.Ldcsctp_CPI22_0(%rip), %xmm0
	movq	%xmm0, 48(%rsp)
	movd	16(%rcx), %xmm0
	pshufb	.Ldcsctp_CPI22_1(%rip), %xmm0
	movd	%xmm0, 56(%rsp)
	movl	%eax, 60(%rsp)
	movq	24(%rcx), %r9
	movq	32(%rcx), %rax
	movq	%rdx, 40(%rsp)
	movq	%rax, 32(%rsp)
	leaq	48(%rsp), %rdx
	movl	$16, %r8d
	movb	$1, %cl
	callq	dcsctp_tlv.list.put_listed.cada439fb2c2aae5
	jmp	.Ldcsctp_BB22_133
.Ldcsctp_BB22_26:
	movzwl	8(%rcx), %r9d
	movq	16(%rcx), %rax
	movq	24(%rcx), %r8
	movw	%r9w, (%rdx)
	leal	4(%r8), %ecx
	rolw	$8, %cx
	movw	%cx, 2(%rdx)
	leaq	4(%rdx), %rcx
	movq	%rcx, %r9
	subq	%rax, %r9
	cmpq	%r8, %r9
	jae	.Ldcsctp_BB22_38
	cmpq	$4, %r8
	jb	.Ldcsctp_BB22_28
	movq	%rdx, %r9
	subq	%rax, %r9
	addq	$4, %r9
	cmpq	$32, %r9
	jae	.Ldcsctp_BB22_58
.Ldcsctp_BB22_28:
	xorl	%r9d, %r9d
.Ldcsctp_BB22_104:
	movq	%r8, %r11
	movq	%r9, %r10
	andq	$3, %r11
	je	.Ldcsctp_BB22_107
	movq	%r9, %r10
	.p2align	4
.Ldcsctp_BB22_106:
	movzbl	(%rax,%r10), %ebx
	movb	%bl, (%rcx,%r10)
	incq	%r10
	decq	%r11
	jne	.Ldcsctp_BB22_106
.Ldcsctp_BB22_107:
	subq	%r8, %r9
	cmpq	$-4, %r9
	ja	.Ldcsctp_BB22_133
	.p2align	4
.Ldcsctp_BB22_108:
	movzbl	(%rax,%r10), %ecx
	movb	%cl, 4(%rdx,%r10)
	movzbl	1(%rax,%r10), %ecx
	movb	%cl, 5(%rdx,%r10)
	movzbl	2(%rax,%r10), %ecx
	movb	%cl, 6(%rdx,%r10)
	movzbl	3(%rax,%r10), %ecx
	movb	%cl, 7(%rdx,%r10)
	addq	$4, %r10
	cmpq	%r10, %r8
	jne	.Ldcsctp_BB22_108
	jmp	.Ldcsctp_BB22_133
.Ldcsctp_BB22_29:
	movq	8(%rcx), %r9
	movq	16(%rcx), %rax
	movq	%rdx, 40(%rsp)
	movq	%rax, 32(%rsp)
	leaq	.Ldcsctp_static.8(%rip), %rdx
	movb	$5, %cl
.Ldcsctp_BB22_30:
	xorl	%r8d, %r8d
	callq	dcsctp_tlv.list.put_listed.cada439fb2c2aae5
	jmp	.Ldcsctp_BB22_133
.Ldcsctp_BB22_31:
	movzbl	60(%rcx), %r9d
	movzbl	50(%rcx), %eax
	movzbl	44(%rcx), %r8d
	leal	(%rax,%rax), %r10d
	shlb	$2, %r8b
	shlb	$3, %r9b
	orb	51(%rcx), %r9b
	orb	%r10b, %r9b
	addb	%r8b, %r9b
	movl	56(%rcx), %r10d
	movzwl	46(%rcx), %r11d
	movl	32(%rcx), %esi
	movl	36(%rcx,%rax,4), %edi
	rolw	$8, %r11w
	bswapl	%r10d
	bswapl	%esi
	bswapl	%edi
	movq	8(%rcx), %rax
	movq	16(%rcx), %r8
	movb	$64, (%rdx)
	movb	%r9b, 1(%rdx)
	leal	20(%r8), %ecx
	rolw	$8, %cx
	movw	%cx, 2(%rdx)
	movl	%r10d, 4(%rdx)
	movw	%r11w, 8(%rdx)
	movw	$0, 10(%rdx)
	movl	%esi, 12(%rdx)
	movl	%edi, 16(%rdx)
	leaq	20(%rdx), %rcx
	movq	%rcx, %r9
	subq	%rax, %r9
	cmpq	%r8, %r9
	jae	.Ldcsctp_BB22_38
	cmpq	$4, %r8
	jb	.Ldcsctp_BB22_33
	movq	%rdx, %r9
	subq	%rax, %r9
	addq	$20, %r9
	cmpq	$32, %r9
	jae	.Ldcsctp_BB22_60
.Ldcsctp_BB22_33:
	xorl	%r9d, %r9d
.Ldcsctp_BB22_116:
	movq	%r8, %r11
	movq	%r9, %r10
	andq	$3, %r11
	je	.Ldcsctp_BB22_119
	movq	%r9, %r10
	.p2align	4
.Ldcsctp_BB22_118:
	movzbl	(%rax,%r10), %ebx
	movb	%bl, (%rcx,%r10)
	incq	%r10
	decq	%r11
	jne	.Ldcsctp_BB22_118
.Ldcsctp_BB22_119:
	subq	%r8, %r9
	cmpq	$-4, %r9
	ja	.Ldcsctp_BB22_133
	.p2align	4
.Ldcsctp_BB22_120:
	movzbl	(%rax,%r10), %ecx
	movb	%cl, 20(%rdx,%r10)
	movzbl	1(%rax,%r10), %ecx
	movb	%cl, 21(%rdx,%r10)
	movzbl	2(%rax,%r10), %ecx
	movb	%cl, 22(%rdx,%r10)
	movzbl	3(%rax,%r10), %ecx
	movb	%cl, 23(%rdx,%r10)
	addq	$4, %r10
	cmpq	%r10, %r8
	jne	.Ldcsctp_BB22_120
	jmp	.Ldcsctp_BB22_133
.Ldcsctp_BB22_34:
	movzbl	8(%rcx), %eax
	movq	16(%rcx), %r8
	movq	24(%rcx), %r9
	movq	%rdx, 32(%rsp)
	movb	$6, %cl
	movl	%eax, %edx
	callq	dcsctp_tlv.list.put_listed.f123a6a91b68d363
	jmp	.Ldcsctp_BB22_133
.Ldcsctp_BB22_35:
	movq	8(%rcx), %rax
	movq	16(%rcx), %r8
	movw	$10, (%rdx)
	leal	4(%r8), %ecx
	rolw	$8, %cx
	movw	%cx, 2(%rdx)
	leaq	4(%rdx), %rcx
	movq	%rcx, %r9
	subq	%rax, %r9
	cmpq	%r8, %r9
	jae	.Ldcsctp_BB22_38
	cmpq	$4, %r8
	jb	.Ldcsctp_BB22_37
	movq	%rdx, %r9
	subq	%rax, %r9
	addq	$4, %r9
	cmpq	$32, %r9
	jae	.Ldcsctp_BB22_62
.Ldcsctp_BB22_37:
	xorl	%r9d, %r9d
.Ldcsctp_BB22_128:
	movq	%r8, %r11
	movq	%r9, %r10
	andq	$3, %r11
	je	.Ldcsctp_BB22_131
	movq	%r9, %r10
	.p2align	4
.Ldcsctp_BB22_130:
	movzbl	(%rax,%r10), %ebx
	movb	%bl, (%rcx,%r10)
	incq	%r10
	decq	%r11
	jne	.Ldcsctp_BB22_130
.Ldcsctp_BB22_131:
	subq	%r8, %r9
	cmpq	$-4, %r9
	ja	.Ldcsctp_BB22_133
	.p2align	4
.Ldcsctp_BB22_132:
	movzbl	(%rax,%r10), %ecx
	movb	%cl, 4(%rdx,%r10)
	movzbl	1(%rax,%r10), %ecx
	movb	%cl, 5(%rdx,%r10)
	movzbl	2(%rax,%r10), %ecx
	movb	%cl, 6(%rdx,%r10)
	movzbl	3(%rax,%r10), %ecx
	movb	%cl, 7(%rdx,%r10)
	addq	$4, %r10
	cmpq	%r10, %r8
	jne	.Ldcsctp_BB22_132
	jmp	.Ldcsctp_BB22_133
.Ldcsctp_BB22_38:
	movq	%rax, %rdx
	addq	$64, %rsp
	popq	%rbx
	popq	%rdi
	popq	%rsi
	jmp	memmove
.Ldcsctp_BB22_39:
	movl	$67108872, (%rdx)
	jmp	.Ldcsctp_BB22_133
.Ldcsctp_BB22_40:
	movl	$16, %r10d
	movq	48(%rcx), %rax
	testq	%rax, %rax
	je	.Ldcsctp_BB22_133
.Ldcsctp_BB22_74:
	movq	40(%rcx), %rcx
	cmpq	$8, %rax
	jb	.Ldcsctp_BB22_76
	leaq	(%r10,%rdx), %r8
	subq	%rcx, %r8
	cmpq	$32, %r8
	jae	.Ldcsctp_BB22_82
.Ldcsctp_BB22_76:
	xorl	%r8d, %r8d
	movq	%r10, %r9
.Ldcsctp_BB22_77:
	movq	%r8, %r10
	orq	$1, %r10
	testb	$1, %al
	je	.Ldcsctp_BB22_79
	movl	(%rcx,%r8,4), %r8d
	bswapl	%r8d
	movl	%r8d, (%rdx,%r9)
	addq	$4, %r9
	movq	%r10, %r8
.Ldcsctp_BB22_79:
	cmpq	%r10, %rax
	je	.Ldcsctp_BB22_133
	addq	%r9, %rdx
	addq	$4, %rdx
	leaq	(%rcx,%r8,4), %rcx
	addq	$4, %rcx
	subq	%r8, %rax
	xorl	%r8d, %r8d
	.p2align	4
.Ldcsctp_BB22_81:
	movl	-4(%rcx,%r8,4), %r9d
	bswapl	%r9d
	movl	%r9d, -4(%rdx,%r8,4)
	movl	(%rcx,%r8,4), %r9d
	bswapl	%r9d
	movl	%r9d, (%rdx,%r8,4)
	addq	$2, %r8
	cmpq	%r8, %rax
	jne	.Ldcsctp_BB22_81
	jmp	.Ldcsctp_BB22_133
.Ldcsctp_BB22_82:
	movq	%rax, %r8
	andq	$-8, %r8
	leaq	(%r10,%r8,4), %r9
	addq	%rdx, %r10
	addq	$16, %r10
	xorl	%r11d, %r11d
	.p2align	4
.Ldcsctp_BB22_83:
	movdqu	(%rcx,%r11,4), %xmm0
	movdqu	16(%rcx,%r11,4), %xmm1
	movdqa	.Ldcsctp_CPI22_3(%rip), %xmm2
	pshufb	%xmm2, %xmm0
	pshufb	%xmm2, %xmm1
	movdqu	%xmm0, -16(%r10,%r11,4)
	movdqu	%xmm1, (%r10,%r11,4)
	addq	$8, %r11
	cmpq	%r11, %r8
	jne	.Ldcsctp_BB22_83
	cmpq	%r8, %rax
	jne	.Ldcsctp_BB22_77
	jmp	.Ldcsctp_BB22_133
.Ldcsctp_BB22_56:
	cmpq	$32, %r8
	jae	.Ldcsctp_BB22_85
	xorl	%r9d, %r9d
	jmp	.Ldcsctp_BB22_89
.Ldcsctp_BB22_58:
	cmpq	$32, %r8
	jae	.Ldcsctp_BB22_97
	xorl	%r9d, %r9d
	jmp	.Ldcsctp_BB22_101
.Ldcsctp_BB22_60:
	cmpq	$32, %r8
	jae	.Ldcsctp_BB22_109
	xorl	%r9d, %r9d
	jmp	.Ldcsctp_BB22_113
.Ldcsctp_BB22_62:
	cmpq	$32, %r8
	jae	.Ldcsctp_BB22_121
	xorl	%r9d, %r9d
	jmp	.Ldcsctp_BB22_125
.Ldcsctp_BB22_64:
	movabsq	$9223372036854775804, %r10
	andq	%rax, %r10
	leaq	16(,%r10,4), %r9
	xorl	%esi, %esi
.Ldcsctp_BB22_65:
	movdqu	(%r8,%rsi,4), %xmm0
	pshufb	.Ldcsctp_CPI22_2(%rip), %xmm0
	movdqu	%xmm0, (%r11,%rsi,4)
	addq	$4, %rsi
	cmpq	%rsi, %r10
	jne	.Ldcsctp_BB22_65
	cmpq	%r10, %rax
	je	.Ldcsctp_BB22_72
	jmp	.Ldcsctp_BB22_67
.Ldcsctp_BB22_85:
	movq	%r8, %r9
	andq	$-32, %r9
	xorl	%r10d, %r10d
.Ldcsctp_BB22_86:
	movdqu	(%rax,%r10), %xmm0
	movdqu	16(%rax,%r10), %xmm1
	movdqu	%xmm0, 16(%rdx,%r10)
	movdqu	%xmm1, 32(%rdx,%r10)
	addq	$32, %r10
	cmpq	%r10, %r9
	jne	.Ldcsctp_BB22_86
	cmpq	%r9, %r8
	je	.Ldcsctp_BB22_133
	testb	$28, %r8b
	je	.Ldcsctp_BB22_92
.Ldcsctp_BB22_89:
	movq	%r9, %r10
	movq	%r8, %r9
	andq	$-4, %r9
.Ldcsctp_BB22_90:
	movl	(%rax,%r10), %r11d
	movl	%r11d, (%rcx,%r10)
	addq	$4, %r10
	cmpq	%r10, %r9
	jne	.Ldcsctp_BB22_90
	cmpq	%r9, %r8
	je	.Ldcsctp_BB22_133
	jmp	.Ldcsctp_BB22_92
.Ldcsctp_BB22_97:
	movq	%r8, %r9
	andq	$-32, %r9
	xorl	%r10d, %r10d
.Ldcsctp_BB22_98:
	movdqu	(%rax,%r10), %xmm0
	movdqu	16(%rax,%r10), %xmm1
	movdqu	%xmm0, 4(%rdx,%r10)
	movdqu	%xmm1, 20(%rdx,%r10)
	addq	$32, %r10
	cmpq	%r10, %r9
	jne	.Ldcsctp_BB22_98
	cmpq	%r9, %r8
	je	.Ldcsctp_BB22_133
	testb	$28, %r8b
	je	.Ldcsctp_BB22_104
.Ldcsctp_BB22_101:
	movq	%r9, %r10
	movq	%r8, %r9
	andq	$-4, %r9
.Ldcsctp_BB22_102:
	movl	(%rax,%r10), %r11d
	movl	%r11d, (%rcx,%r10)
	addq	$4, %r10
	cmpq	%r10, %r9
	jne	.Ldcsctp_BB22_102
	cmpq	%r9, %r8
	je	.Ldcsctp_BB22_133
	jmp	.Ldcsctp_BB22_104
.Ldcsctp_BB22_109:
	movq	%r8, %r9
	andq	$-32, %r9
	xorl	%r10d, %r10d
.Ldcsctp_BB22_110:
	movdqu	(%rax,%r10), %xmm0
	movdqu	16(%rax,%r10), %xmm1
	movdqu	%xmm0, 20(%rdx,%r10)
	movdqu	%xmm1, 36(%rdx,%r10)
	addq	$32, %r10
	cmpq	%r10, %r9
	jne	.Ldcsctp_BB22_110
	cmpq	%r9, %r8
	je	.Ldcsctp_BB22_133
	testb	$28, %r8b
	je	.Ldcsctp_BB22_116
.Ldcsctp_BB22_113:
	movq	%r9, %r10
	movq	%r8, %r9
	andq	$-4, %r9
.Ldcsctp_BB22_114:
	movl	(%rax,%r10), %r11d
	movl	%r11d, (%rcx,%r10)
	addq	$4, %r10
	cmpq	%r10, %r9
	jne	.Ldcsctp_BB22_114
	cmpq	%r9, %r8
	je	.Ldcsctp_BB22_133
	jmp	.Ldcsctp_BB22_116
.Ldcsctp_BB22_121:
	movq	%r8, %r9
	andq	$-32, %r9
	xorl	%r10d, %r10d
.Ldcsctp_BB22_122:
	movdqu	(%rax,%r10), %xmm0
	movdqu	16(%rax,%r10), %xmm1
	movdqu	%xmm0, 4(%rdx,%r10)
	movdqu	%xmm1, 20(%rdx,%r10)
	addq	$32, %r10
	cmpq	%r10, %r9
	jne	.Ldcsctp_BB22_122
	cmpq	%r9, %r8
	je	.Ldcsctp_BB22_133
	testb	$28, %r8b
	je	.Ldcsctp_BB22_128
.Ldcsctp_BB22_125:
	movq	%r9, %r10
	movq	%r8, %r9
	andq	$-4, %r9
.Ldcsctp_BB22_126:
	movl	(%rax,%r10), %r11d
	movl	%r11d, (%rcx,%r10)
	addq	$4, %r10
	cmpq	%r10, %r9
	jne	.Ldcsctp_BB22_126
	cmpq	%r9, %r8
	jne	.Ldcsctp_BB22_128
.Ldcsctp_BB22_133:
	addq	$64, %rsp
	popq	%rbx
	popq	%rdi
	popq	%rsi
	retq
.Ldcsctp_BB22_134:
	ud2
	.section	.rdata,"dr"
	.p2align	2, 0x0
.Ldcsctp_JTI22_0:
	.long	.Ldcsctp_BB22_1-.Ldcsctp_JTI22_0
	.long	.Ldcsctp_BB22_25-.Ldcsctp_JTI22_0
	.long	.Ldcsctp_BB22_14-.Ldcsctp_JTI22_0
	.long	.Ldcsctp_BB22_20-.Ldcsctp_JTI22_0
	.long	.Ldcsctp_BB22_11-.Ldcsctp_JTI22_0
	.long	.Ldcsctp_BB22_29-.Ldcsctp_JTI22_0
	.long	.Ldcsctp_BB22_34-.Ldcsctp_JTI22_0
	.long	.Ldcsctp_BB22_24-.Ldcsctp_JTI22_0
	.long	.Ldcsctp_BB22_39-.Ldcsctp_JTI22_0
	.long	.Ldcsctp_BB22_13-.Ldcsctp_JTI22_0
	.long	.Ldcsctp_BB22_35-.Ldcsctp_JTI22_0
	.long	.Ldcsctp_BB22_10-.Ldcsctp_JTI22_0
	.long	.Ldcsctp_BB22_12-.Ldcsctp_JTI22_0
	.long	.Ldcsctp_BB22_31-.Ldcsctp_JTI22_0
	.long	.Ldcsctp_BB22_9-.Ldcsctp_JTI22_0
	.long	.Ldcsctp_BB22_15-.Ldcsctp_JTI22_0
	.long	.Ldcsctp_BB22_4-.Ldcsctp_JTI22_0
	.long	.Ldcsctp_BB22_26-.Ldcsctp_JTI22_0
	.text
	.seh_endproc
	.def	dcsctp_tlv.list.put_listed.cada439fb2c2aae5;
	.scl	3;
	.type	32;
	.endef
	.section	.rdata,"dr"
	.p2align	4, 0x0
.Ldcsctp_CPI23_0:
	.byte	1
	.byte	0
	.byte	3
	.byte	2
	.byte	5
	.byte	4
	.byte	7
	.byte	6
	.byte	9
	.byte	8
	.byte	11
	.byte	10
	.byte	13
	.byte	12
	.byte	15
	.byte	14
.Ldcsctp_CPI23_1:
	.byte	1
	.byte	0
	.byte	3
	.byte	2
	.byte	5
	.byte	4
	.byte	7
	.byte	6
	.zero	1
	.zero	1
	.zero	1
	.zero	1
	.zero	1
	.zero	1
	.zero	1
	.zero	1
.Ldcsctp_CPI23_2:
	.byte	3
	.byte	2
	.byte	1
	.byte	0
	.byte	7
	.byte	6
	.byte	5
	.byte	4
	.zero	1
	.zero	1
	.zero	1
	.zero	1
	.zero	1
	.zero	1
	.zero	1
	.zero	1
	.text
	.p2align	4
dcsctp_tlv.list.put_listed.cada439fb2c2aae5:
.seh_proc dcsctp_tlv.list.put_listed.cada439fb2c2aae5
	pushq	%r15
	.seh_pushreg %r15
	pushq	%r14
	.seh_pushreg %r14
	pushq	%r13
	.seh_pushreg %r13
	pushq	%r12
	.seh_pushreg %r12
	pushq	%rsi
	.seh_pushreg %rsi
	pushq	%rdi
	.seh_pushreg %rdi
	pushq	%rbp
	.seh_pushreg %rbp
	pushq	%rbx
	.seh_pushreg %rbx
	subq	$40, %rsp
	.seh_stackalloc 40
	.seh_endprologue
	movq	%r9, %rdi
	movq	%r8, %rsi
	movl	%ecx, %r8d
	movq	152(%rsp), %r14
	movq	144(%rsp), %r15
	leaq	4(%r14), %rcx
	movq	%rcx, %rax
	subq	%rdx, %rax
	cmpq	%rsi, %rax
	movb	%r8b, 39(%rsp)
	jae	.Ldcsctp_BB23_3
	cmpq	$4, %rsi
	jb	.Ldcsctp_BB23_2
	movq	%r14, %rax
	subq	%rdx, %rax
	addq	$4, %rax
	cmpq	$16, %rax
	jae	.Ldcsctp_BB23_6
.Ldcsctp_BB23_2:
	xorl	%eax, %eax
.Ldcsctp_BB23_13:
	movq	%rsi, %r9
	movq	%rax, %r8
	andq	$3, %r9
	je	.Ldcsctp_BB23_16
	movq	%rax, %r8
	.p2align	4
.Ldcsctp_BB23_15:
	movzbl	(%rdx,%r8), %r10d
	movb	%r10b, (%rcx,%r8)
	incq	%r8
	decq	%r9
	jne	.Ldcsctp_BB23_15
.Ldcsctp_BB23_16:
	subq	%rsi, %rax
	cmpq	$-4, %rax
	ja	.Ldcsctp_BB23_18
	.p2align	4
.Ldcsctp_BB23_17:
	movzbl	(%rdx,%r8), %eax
	movb	%al, 4(%r14,%r8)
	movzbl	1(%rdx,%r8), %eax
	movb	%al, 5(%r14,%r8)
	movzbl	2(%rdx,%r8), %eax
	movb	%al, 6(%r14,%r8)
	movzbl	3(%rdx,%r8), %eax
	movb	%al, 7(%r14,%r8)
	addq	$4, %r8
	cmpq	%r8, %rsi
	jne	.Ldcsctp_BB23_17
	jmp	.Ldcsctp_BB23_18
.Ldcsctp_BB23_3:
	movq	%rsi, %r8
	callq	memmove
.Ldcsctp_BB23_18:
	testq	%r15, %r15
	je	.Ldcsctp_BB23_152
	leaq	(%r14,%rsi), %r13
	addq	$4, %r13
	xorl	%r12d, %r12d
	xorl	%ebp, %ebp
	jmp	.Ldcsctp_BB23_22
.Ldcsctp_BB23_20:
	callq	memmove
	.p2align	4
.Ldcsctp_BB23_21:
	movzwl	2(%rbx), %eax
	rolw	$8, %ax
	movzwl	%ax, %eax
	addq	%rax, %r12
	incq	%rbp
	cmpq	%r15, %rbp
	je	.Ldcsctp_BB23_153
.Ldcsctp_BB23_22:
	movq	%rbp, %rax
	shlq	$4, %rax
	leaq	(%rax,%rax,2), %r8
	addq	$3, %r12
	andq	$-4, %r12
	leaq	(%r12,%r13), %rbx
	movzbl	(%rdi,%r8), %eax
	leaq	.Ldcsctp_JTI23_0(%rip), %rcx
	movslq	(%rcx,%rax,4), %rax
	addq	%rcx, %rax
	jmpq	*%rax
.Ldcsctp_BB23_23:
	movq	8(%rdi,%r8), %rdx
	movq	16(%rdi,%r8), %r8
	movw	$256, (%rbx)
	leal	4(%r8), %eax
	rolw	$8, %ax
	movw	%ax, 2(%rbx)
	leaq	4(%rbx), %rcx
	movq	%rcx, %rax
	subq	%rdx, %rax
	cmpq	%r8, %rax
	jae	.Ldcsctp_BB23_20
	cmpq	$4, %r8
	jb	.Ldcsctp_BB23_25
	leaq	(%rsi,%r14), %rax
	addq	$8, %rax
	addq	%r12, %rax
	subq	%rdx, %rax
	cmpq	$32, %rax
	jae	.Ldcsctp_BB23_70
.Ldcsctp_BB23_25:
	xorl	%eax, %eax
.Ldcsctp_BB23_131:
	movq	%r8, %r10
	movq	%rax, %r9
	andq	$3, %r10
	je	.Ldcsctp_BB23_134
	movq	%rax, %r9
	.p2align	4
.Ldcsctp_BB23_133:
	movzbl	(%rdx,%r9), %r11d
	movb	%r11b, (%rcx,%r9)
	incq	%r9
	decq	%r10
	jne	.Ldcsctp_BB23_133
.Ldcsctp_BB23_134:
	subq	%r8, %rax
	cmpq	$-4, %rax
	ja	.Ldcsctp_BB23_21
	leaq	(%rsi,%r14), %rax
	addq	$11, %rax
	addq	%r12, %rax
	.p2align	4
.Ldcsctp_BB23_136:
	movzbl	(%rdx,%r9), %ecx
	movb	%cl, -3(%rax,%r9)
	movzbl	1(%rdx,%r9), %ecx
	movb	%cl, -2(%rax,%r9)
	movzbl	2(%rdx,%r9), %ecx
	movb	%cl, -1(%rax,%r9)
	movzbl	3(%rdx,%r9), %ecx
	movb	%cl, (%rax,%r9)
	addq	$4, %r9
	cmpq	%r9, %r8
	jne	.Ldcsctp_BB23_136
	jmp	.Ldcsctp_BB23_21
.Ldcsctp_BB23_26:
	movzwl	8(%rdi,%r8), %eax
	movq	16(%rdi,%r8), %rdx
	movq	24(%rdi,%r8), %r8
	movb	%ah, (%rbx)
	movb	%al, 1(%rbx)
	leal	4(%r8), %eax
	rolw	$8, %ax
	movw	%ax, 2(%rbx)
	leaq	4(%rbx), %rcx
	movq	%rcx, %rax
	subq	%rdx, %rax
	cmpq	%r8, %rax
	jae	.Ldcsctp_BB23_20
	cmpq	$4, %r8
	jb	.Ldcsctp_BB23_28
	leaq	(%rsi,%r14), %rax
	addq	$8, %rax
	addq	%r12, %rax
	subq	%rdx, %rax
	cmpq	$32, %rax
	jae	.Ldcsctp_BB23_66
.Ldcsctp_BB23_28:
	xorl	%eax, %eax
.Ldcsctp_BB23_105:
	movq	%r8, %r10
	movq	%rax, %r9
	andq	$3, %r10
	je	.Ldcsctp_BB23_108
	movq	%rax, %r9
	.p2align	4
.Ldcsctp_BB23_107:
	movzbl	(%rdx,%r9), %r11d
	movb	%r11b, (%rcx,%r9)
	incq	%r9
	decq	%r10
	jne	.Ldcsctp_BB23_107
.Ldcsctp_BB23_108:
	subq	%r8, %rax
	cmpq	$-4, %rax
	ja	.Ldcsctp_BB23_21
	leaq	(%rsi,%r14), %rax
	addq	$11, %rax
	addq	%r12, %rax
	.p2align	4
.Ldcsctp_BB23_110:
	movzbl	(%rdx,%r9), %ecx
	movb	%cl, -3(%rax,%r9)
	movzbl	1(%rdx,%r9), %ecx
	movb	%cl, -2(%rax,%r9)
	movzbl	2(%rdx,%r9), %ecx
	movb	%cl, -1(%rax,%r9)
	movzbl	3(%rdx,%r9), %ecx
	movb	%cl, (%rax,%r9)
	addq	$4, %r9
	cmpq	%r9, %r8
	jne	.Ldcsctp_BB23_110
	jmp	.Ldcsctp_BB23_21
.Ldcsctp_BB23_29:
	movl	4(%rdi,%r8), %eax
	bswapl	%eax
	movl	$134221568, (%rbx)
	movl	%eax, 4(%rbx)
	jmp	.Ldcsctp_BB23_21
.Ldcsctp_BB23_30:
	movq	8(%rdi,%r8), %rdx
	movq	16(%rdi,%r8), %r8
	movw	$2176, (%rbx)
	leal	4(%r8), %eax
	rolw	$8, %ax
	movw	%ax, 2(%rbx)
	leaq	4(%rbx), %rcx
	movq	%rcx, %rax
	subq	%rdx, %rax
	cmpq	%r8, %rax
	jae	.Ldcsctp_BB23_20
	cmpq	$4, %r8
	jb	.Ldcsctp_BB23_32
	leaq	(%rsi,%r14), %rax
	addq	$8, %rax
	addq	%r12, %rax
	subq	%rdx, %rax
	cmpq	$32, %rax
	jae	.Ldcsctp_BB23_68
.Ldcsctp_BB23_32:
	xorl	%eax, %eax
.Ldcsctp_BB23_118:
	movq	%r8, %r10
	movq	%rax, %r9
	andq	$3, %r10
	je	.Ldcsctp_BB23_121
	movq	%rax, %r9
	.p2align	4
.Ldcsctp_BB23_120:
	movzbl	(%rdx,%r9), %r11d
	movb	%r11b, (%rcx,%r9)
	incq	%r9
	decq	%r10
	jne	.Ldcsctp_BB23_120
.Ldcsctp_BB23_121:
	subq	%r8, %rax
	cmpq	$-4, %rax
	ja	.Ldcsctp_BB23_21
	leaq	(%rsi,%r14), %rax
	addq	$11, %rax
	addq	%r12, %rax
	.p2align	4
.Ldcsctp_BB23_123:
	movzbl	(%rdx,%r9), %ecx
	movb	%cl, -3(%rax,%r9)
	movzbl	1(%rdx,%r9), %ecx
	movb	%cl, -2(%rax,%r9)
	movzbl	2(%rdx,%r9), %ecx
	movb	%cl, -1(%rax,%r9)
	movzbl	3(%rdx,%r9), %ecx
	movb	%cl, (%rax,%r9)
	addq	$4, %r9
	cmpq	%r9, %r8
	jne	.Ldcsctp_BB23_123
	jmp	.Ldcsctp_BB23_21
.Ldcsctp_BB23_33:
	movl	16(%rdi,%r8), %edx
	movq	24(%rdi,%r8), %rcx
	movq	32(%rdi,%r8), %rax
	leal	16(,%rax,2), %r9d
	rolw	$8, %r9w
	movq	8(%rdi,%r8), %xmm0
	movw	$3328, (%rbx)
	movw	%r9w, 2(%rbx)
	pshufb	.Ldcsctp_CPI23_2(%rip), %xmm0
	movq	%xmm0, 4(%rbx)
	bswapl	%edx
	movl	%edx, 12(%rbx)
	testq	%rax, %rax
	je	.Ldcsctp_BB23_21
	movl	$16, %r8d
	cmpq	$4, %rax
	jb	.Ldcsctp_BB23_35
	leaq	(%rsi,%r14), %rdx
	addq	$20, %rdx
	leaq	(%rdx,%r12), %r9
	movq	%r9, %rdx
	subq	%rcx, %rdx
	cmpq	$32, %rdx
	jae	.Ldcsctp_BB23_62
.Ldcsctp_BB23_35:
	xorl	%edx, %edx
	movq	%rdx, %r9
	orq	$1, %r9
	testb	$1, %al
	jne	.Ldcsctp_BB23_82
	jmp	.Ldcsctp_BB23_83
.Ldcsctp_BB23_36:
	movl	8(%rdi,%r8), %edx
	movq	16(%rdi,%r8), %rcx
	movq	24(%rdi,%r8), %rax
	movw	$3584, (%rbx)
	leal	8(,%rax,2), %r8d
	rolw	$8, %r8w
	movw	%r8w, 2(%rbx)
	bswapl	%edx
	movl	%edx, 4(%rbx)
	testq	%rax, %rax
	je	.Ldcsctp_BB23_21
	movl	$8, %r8d
	cmpq	$4, %rax
	jb	.Ldcsctp_BB23_38
	leaq	(%rsi,%r14), %rdx
	addq	$12, %rdx
	leaq	(%rdx,%r12), %r9
	movq	%r9, %rdx
	subq	%rcx, %rdx
	cmpq	$32, %rdx
	jae	.Ldcsctp_BB23_64
.Ldcsctp_BB23_38:
	xorl	%edx, %edx
	movq	%rdx, %r9
	orq	$1, %r9
	testb	$1, %al
	jne	.Ldcsctp_BB23_94
	jmp	.Ldcsctp_BB23_95
.Ldcsctp_BB23_39:
	movl	4(%rdi,%r8), %eax
	movzwl	8(%rdi,%r8), %ecx
	bswapl	%eax
	rolw	$8, %cx
	movzwl	%cx, %ecx
	shlq	$32, %rcx
	orq	%rcx, %rax
	movl	$201331200, (%rbx)
	movq	%rax, 4(%rbx)
	jmp	.Ldcsctp_BB23_21
.Ldcsctp_BB23_40:
	movq	8(%rdi,%r8), %rdx
	movq	16(%rdi,%r8), %r8
	movw	$1792, (%rbx)
	leal	4(%r8), %eax
	rolw	$8, %ax
	movw	%ax, 2(%rbx)
	leaq	4(%rbx), %rcx
	movq	%rcx, %rax
	subq	%rdx, %rax
	cmpq	%r8, %rax
	jae	.Ldcsctp_BB23_20
	cmpq	$4, %r8
	jb	.Ldcsctp_BB23_42
	leaq	(%rsi,%r14), %rax
	addq	$8, %rax
	addq	%r12, %rax
	subq	%rdx, %rax
	cmpq	$32, %rax
	jae	.Ldcsctp_BB23_72
.Ldcsctp_BB23_42:
	xorl	%eax, %eax
.Ldcsctp_BB23_144:
	movq	%r8, %r10
	movq	%rax, %r9
	andq	$3, %r10
	je	.Ldcsctp_BB23_147
	movq	%rax, %r9
	.p2align	4
.Ldcsctp_BB23_146:
	movzbl	(%rdx,%r9), %r11d
	movb	%r11b, (%rcx,%r9)
	incq	%r9
	decq	%r10
	jne	.Ldcsctp_BB23_146
.Ldcsctp_BB23_147:
	subq	%r8, %rax
	cmpq	$-4, %rax
	ja	.Ldcsctp_BB23_21
	leaq	(%rsi,%r14), %rax
	addq	$11, %rax
	addq	%r12, %rax
	.p2align	4
.Ldcsctp_BB23_149:
	movzbl	(%rdx,%r9), %ecx
	movb	%cl, -3(%rax,%r9)
	movzbl	1(%rdx,%r9), %ecx
	movb	%cl, -2(%rax,%r9)
	movzbl	2(%rdx,%r9), %ecx
	movb	%cl, -1(%rax,%r9)
	movzbl	3(%rdx,%r9), %ecx
	movb	%cl, (%rax,%r9)
	addq	$4, %r9
	cmpq	%r9, %r8
	jne	.Ldcsctp_BB23_149
	jmp	.Ldcsctp_BB23_21
.Ldcsctp_BB23_43:
	movl	4(%rdi,%r8), %ecx
	movzbl	8(%rdi,%r8), %eax
	cmpb	$1, 12(%rdi,%r8)
	bswapl	%ecx
	jne	.Ldcsctp_BB23_49
	cmpb	$1, 20(%rdi,%r8)
	jne	.Ldcsctp_BB23_49
	movl	16(%rdi,%r8), %edx
	movl	24(%rdi,%r8), %r8d
	movl	$335548416, (%rbx)
	movl	%ecx, 4(%rbx)
	shll	$24, %eax
	movl	%eax, 8(%rbx)
	bswapl	%edx
	movl	%edx, 12(%rbx)
	bswapl	%r8d
	movl	%r8d, 16(%rbx)
	jmp	.Ldcsctp_BB23_21
.Ldcsctp_BB23_46:
	movl	4(%rdi,%r8), %eax
	movzwl	8(%rdi,%r8), %ecx
	bswapl	%eax
	rolw	$8, %cx
	movzwl	%cx, %ecx
	shlq	$32, %rcx
	orq	%rcx, %rax
	movl	$201330944, (%rbx)
	movq	%rax, 4(%rbx)
	jmp	.Ldcsctp_BB23_21
.Ldcsctp_BB23_47:
	movl	$67109056, (%rbx)
	jmp	.Ldcsctp_BB23_21
.Ldcsctp_BB23_48:
	movl	4(%rdi,%r8), %eax
	bswapl	%eax
	movl	$134218112, (%rbx)
	movl	%eax, 4(%rbx)
	jmp	.Ldcsctp_BB23_21
.Ldcsctp_BB23_49:
	movl	$201330688, (%rbx)
	movl	%ecx, 4(%rbx)
	shll	$24, %eax
	movl	%eax, 8(%rbx)
	jmp	.Ldcsctp_BB23_21
.Ldcsctp_BB23_62:
	cmpq	$16, %rax
	jae	.Ldcsctp_BB23_74
	xorl	%edx, %edx
	jmp	.Ldcsctp_BB23_78
.Ldcsctp_BB23_64:
	cmpq	$16, %rax
	jae	.Ldcsctp_BB23_86
	xorl	%edx, %edx
	jmp	.Ldcsctp_BB23_90
.Ldcsctp_BB23_66:
	cmpq	$32, %r8
	jae	.Ldcsctp_BB23_98
	xorl	%eax, %eax
	jmp	.Ldcsctp_BB23_102
.Ldcsctp_BB23_68:
	cmpq	$32, %r8
	jae	.Ldcsctp_BB23_111
	xorl	%eax, %eax
	jmp	.Ldcsctp_BB23_115
.Ldcsctp_BB23_70:
	cmpq	$32, %r8
	jae	.Ldcsctp_BB23_124
	xorl	%eax, %eax
	jmp	.Ldcsctp_BB23_128
.Ldcsctp_BB23_72:
	cmpq	$32, %r8
	jae	.Ldcsctp_BB23_137
	xorl	%eax, %eax
	jmp	.Ldcsctp_BB23_141
.Ldcsctp_BB23_74:
	movq	%rax, %rdx
	andq	$-16, %rdx
	leaq	(%rsi,%r14), %r8
	addq	$36, %r8
	addq	%r12, %r8
	xorl	%r10d, %r10d
	.p2align	4
.Ldcsctp_BB23_75:
	movdqu	(%rcx,%r10,2), %xmm0
	movdqu	16(%rcx,%r10,2), %xmm1
	movdqa	.Ldcsctp_CPI23_0(%rip), %xmm2
	pshufb	%xmm2, %xmm0
	pshufb	%xmm2, %xmm1
	movdqu	%xmm0, -16(%r8,%r10,2)
	movdqu	%xmm1, (%r8,%r10,2)
	addq	$16, %r10
	cmpq	%r10, %rdx
	jne	.Ldcsctp_BB23_75
	cmpq	%rdx, %rax
	je	.Ldcsctp_BB23_21
	testb	$12, %al
	je	.Ldcsctp_BB23_150
.Ldcsctp_BB23_78:
	movq	%rdx, %r10
	movq	%rax, %rdx
	andq	$-4, %rdx
	leaq	16(,%rdx,2), %r8
	.p2align	4
.Ldcsctp_BB23_79:
	movq	(%rcx,%r10,2), %xmm0
	pshufb	.Ldcsctp_CPI23_1(%rip), %xmm0
	movq	%xmm0, (%r9,%r10,2)
	addq	$4, %r10
	cmpq	%r10, %rdx
	jne	.Ldcsctp_BB23_79
	cmpq	%rdx, %rax
	je	.Ldcsctp_BB23_21
	movq	%rdx, %r9
	orq	$1, %r9
	testb	$1, %al
	je	.Ldcsctp_BB23_83
.Ldcsctp_BB23_82:
	movzwl	(%rcx,%rdx,2), %edx
	rolw	$8, %dx
	movw	%dx, (%rbx,%r8)
	addq	$2, %r8
	movq	%r9, %rdx
.Ldcsctp_BB23_83:
	cmpq	%r9, %rax
	je	.Ldcsctp_BB23_21
	addq	%r12, %r8
	leaq	(%rsi,%r14), %r9
	addq	$6, %r9
	addq	%r9, %r8
	leaq	(%rcx,%rdx,2), %rcx
	addq	$2, %rcx
	subq	%rdx, %rax
	xorl	%edx, %edx
	.p2align	4
.Ldcsctp_BB23_85:
	movzwl	-2(%rcx,%rdx,2), %r9d
	rolw	$8, %r9w
	movw	%r9w, -2(%r8,%rdx,2)
	movzwl	(%rcx,%rdx,2), %r9d
	rolw	$8, %r9w
	movw	%r9w, (%r8,%rdx,2)
	addq	$2, %rdx
	cmpq	%rdx, %rax
	jne	.Ldcsctp_BB23_85
	jmp	.Ldcsctp_BB23_21
.Ldcsctp_BB23_86:
	movq	%rax, %rdx
	andq	$-16, %rdx
	leaq	(%rsi,%r14), %r8
	addq	$28, %r8
	addq	%r12, %r8
	xorl	%r10d, %r10d
	.p2align	4
.Ldcsctp_BB23_87:
	movdqu	(%rcx,%r10,2), %xmm0
	movdqu	16(%rcx,%r10,2), %xmm1
	movdqa	.Ldcsctp_CPI23_0(%rip), %xmm2
	pshufb	%xmm2, %xmm0
	pshufb	%xmm2, %xmm1
	movdqu	%xmm0, -16(%r8,%r10,2)
	movdqu	%xmm1, (%r8,%r10,2)
	addq	$16, %r10
	cmpq	%r10, %rdx
	jne	.Ldcsctp_BB23_87
	cmpq	%rdx, %rax
	je	.Ldcsctp_BB23_21
	testb	$12, %al
	je	.Ldcsctp_BB23_151
.Ldcsctp_BB23_90:
	movq	%rdx, %r10
	movq	%rax, %rdx
	andq	$-4, %rdx
	leaq	8(,%rdx,2), %r8
	.p2align	4
.Ldcsctp_BB23_91:
	movq	(%rcx,%r10,2), %xmm0
	pshufb	.Ldcsctp_CPI23_1(%rip), %xmm0
	movq	%xmm0, (%r9,%r10,2)
	addq	$4, %r10
	cmpq	%r10, %rdx
	jne	.Ldcsctp_BB23_91
	cmpq	%rdx, %rax
	je	.Ldcsctp_BB23_21
	movq	%rdx, %r9
	orq	$1, %r9
	testb	$1, %al
	je	.Ldcsctp_BB23_95
.Ldcsctp_BB23_94:
	movzwl	(%rcx,%rdx,2), %edx
	rolw	$8, %dx
	movw	%dx, (%rbx,%r8)
	addq	$2, %r8
	movq	%r9, %rdx
.Ldcsctp_BB23_95:
	cmpq	%r9, %rax
	je	.Ldcsctp_BB23_21
	addq	%r12, %r8
	leaq	(%rsi,%r14), %r9
	addq	$6, %r9
	addq	%r9, %r8
	leaq	(%rcx,%rdx,2), %rcx
	addq	$2, %rcx
	subq	%rdx, %rax
	xorl	%edx, %edx
	.p2align	4
.Ldcsctp_BB23_97:
	movzwl	-2(%rcx,%rdx,2), %r9d
	rolw	$8, %r9w
	movw	%r9w, -2(%r8,%rdx,2)
	movzwl	(%rcx,%rdx,2), %r9d
	rolw	$8, %r9w
	movw	%r9w, (%r8,%rdx,2)
	addq	$2, %rdx
	cmpq	%rdx, %rax
	jne	.Ldcsctp_BB23_97
	jmp	.Ldcsctp_BB23_21
.Ldcsctp_BB23_98:
	movq	%r8, %rax
	andq	$-32, %rax
	leaq	(%rsi,%r14), %r9
	addq	$24, %r9
	addq	%r12, %r9
	xorl	%r10d, %r10d
	.p2align	4
.Ldcsctp_BB23_99:
	movdqu	(%rdx,%r10), %xmm0
	movdqu	16(%rdx,%r10), %xmm1
	movdqu	%xmm0, -16(%r9,%r10)
	movdqu	%xmm1, (%r9,%r10)
	addq	$32, %r10
	cmpq	%r10, %rax
	jne	.Ldcsctp_BB23_99
	cmpq	%rax, %r8
	je	.Ldcsctp_BB23_21
	testb	$28, %r8b
	je	.Ldcsctp_BB23_105
.Ldcsctp_BB23_102:
	movq	%rax, %r9
	movq	%r8, %rax
	andq	$-4, %rax
	.p2align	4
.Ldcsctp_BB23_103:
	movl	(%rdx,%r9), %r10d
	movl	%r10d, (%rcx,%r9)
	addq	$4, %r9
	cmpq	%r9, %rax
	jne	.Ldcsctp_BB23_103
	cmpq	%rax, %r8
	je	.Ldcsctp_BB23_21
	jmp	.Ldcsctp_BB23_105
.Ldcsctp_BB23_111:
	movq	%r8, %rax
	andq	$-32, %rax
	leaq	(%rsi,%r14), %r9
	addq	$24, %r9
	addq	%r12, %r9
	xorl	%r10d, %r10d
	.p2align	4
.Ldcsctp_BB23_112:
	movdqu	(%rdx,%r10), %xmm0
	movdqu	16(%rdx,%r10), %xmm1
	movdqu	%xmm0, -16(%r9,%r10)
	movdqu	%xmm1, (%r9,%r10)
	addq	$32, %r10
	cmpq	%r10, %rax
	jne	.Ldcsctp_BB23_112
	cmpq	%rax, %r8
	je	.Ldcsctp_BB23_21
	testb	$28, %r8b
	je	.Ldcsctp_BB23_118
.Ldcsctp_BB23_115:
	movq	%rax, %r9
	movq	%r8, %rax
	andq	$-4, %rax
	.p2align	4
.Ldcsctp_BB23_116:
	movl	(%rdx,%r9), %r10d
	movl	%r10d, (%rcx,%r9)
	addq	$4, %r9
	cmpq	%r9, %rax
	jne	.Ldcsctp_BB23_116
	cmpq	%rax, %r8
	je	.Ldcsctp_BB23_21
	jmp	.Ldcsctp_BB23_118
.Ldcsctp_BB23_124:
	movq	%r8, %rax
	andq	$-32, %rax
	leaq	(%rsi,%r14), %r9
	addq	$24, %r9
	addq	%r12, %r9
	xorl	%r10d, %r10d
	.p2align	4
.Ldcsctp_BB23_125:
	movdqu	(%rdx,%r10), %xmm0
	movdqu	16(%rdx,%r10), %xmm1
	movdqu	%xmm0, -16(%r9,%r10)
	movdqu	%xmm1, (%r9,%r10)
	addq	$32, %r10
	cmpq	%r10, %rax
	jne	.Ldcsctp_BB23_125
	cmpq	%rax, %r8
	je	.Ldcsctp_BB23_21
	testb	$28, %r8b
	je	.Ldcsctp_BB23_131
.Ldcsctp_BB23_128:
	movq	%rax, %r9
	movq	%r8, %rax
	andq	$-4, %rax
	.p2align	4
.Ldcsctp_BB23_129:
	movl	(%rdx,%r9), %r10d
	movl	%r10d, (%rcx,%r9)
	addq	$4, %r9
	cmpq	%r9, %rax
	jne	.Ldcsctp_BB23_129
	cmpq	%rax, %r8
	je	.Ldcsctp_BB23_21
	jmp	.Ldcsctp_BB23_131
.Ldcsctp_BB23_137:
	movq	%r8, %rax
	andq	$-32, %rax
	leaq	(%rsi,%r14), %r9
	addq	$24, %r9
	addq	%r12, %r9
	xorl	%r10d, %r10d
	.p2align	4
.Ldcsctp_BB23_138:
	movdqu	(%rdx,%r10), %xmm0
	movdqu	16(%rdx,%r10), %xmm1
	movdqu	%xmm0, -16(%r9,%r10)
	movdqu	%xmm1, (%r9,%r10)
	addq	$32, %r10
	cmpq	%r10, %rax
	jne	.Ldcsctp_BB23_138
	cmpq	%rax, %r8
	je	.Ldcsctp_BB23_21
	testb	$28, %r8b
	je	.Ldcsctp_BB23_144
.Ldcsctp_BB23_141:
	movq	%rax, %r9
	movq	%r8, %rax
	andq	$-4, %rax
	.p2align	4
.Ldcsctp_BB23_142:
	movl	(%rdx,%r9), %r10d
	movl	%r10d, (%rcx,%r9)
	addq	$4, %r9
	cmpq	%r9, %rax
	jne	.Ldcsctp_BB23_142
	cmpq	%rax, %r8
	je	.Ldcsctp_BB23_21
	jmp	.Ldcsctp_BB23_144
.Ldcsctp_BB23_150:
	leaq	16(,%rdx,2), %r8
	movq	%rdx, %r9
	orq	$1, %r9
	testb	$1, %al
	jne	.Ldcsctp_BB23_82
	jmp	.Ldcsctp_BB23_83
.Ldcsctp_BB23_151:
	leaq	8(,%rdx,2), %r8
	movq	%rdx, %r9
	orq	$1, %r9
	testb	$1, %al
	jne	.Ldcsctp_BB23_94
	jmp	.Ldcsctp_BB23_95
.Ldcsctp_BB23_152:
	xorl	%r12d, %r12d
.Ldcsctp_BB23_153:
	movzbl	39(%rsp), %eax
	movb	%al, (%r14)
	movb	$0, 1(%r14)
	leal	(%r12,%rsi), %eax
	addl	$4, %eax
	rolw	$8, %ax
	movw	%ax, 2(%r14)
	addq	$40, %rsp
	popq	%rbx
	popq	%rbp
	popq	%rdi
	popq	%rsi
	popq	%r12
	popq	%r13
	popq	%r14
	popq	%r15
	retq
.Ldcsctp_BB23_6:
	cmpq	$16, %rsi
	jae	.Ldcsctp_BB23_8
	xorl	%eax, %eax
	jmp	.Ldcsctp_BB23_10
.Ldcsctp_BB23_8:
	movl	%esi, %eax
	andl	$16, %eax
	movdqu	(%rdx), %xmm0
	movdqu	%xmm0, (%rcx)
	cmpq	%rax, %rsi
	je	.Ldcsctp_BB23_18
	testb	$12, %sil
	je	.Ldcsctp_BB23_13
.Ldcsctp_BB23_10:
	movq	%rax, %r8
	movl	%esi, %eax
	andl	$28, %eax
	.p2align	4
.Ldcsctp_BB23_11:
	movl	(%rdx,%r8), %r9d
	movl	%r9d, (%rcx,%r8)
	addq	$4, %r8
	cmpq	%r8, %rax
	jne	.Ldcsctp_BB23_11
	cmpq	%rax, %rsi
	je	.Ldcsctp_BB23_18
	jmp	.Ldcsctp_BB23_13
	.section	.rdata,"dr"
	.p2align	2, 0x0
.Ldcsctp_JTI23_0:
	.long	.Ldcsctp_BB23_23-.Ldcsctp_JTI23_0
	.long	.Ldcsctp_BB23_40-.Ldcsctp_JTI23_0
	.long	.Ldcsctp_BB23_33-.Ldcsctp_JTI23_0
	.long	.Ldcsctp_BB23_36-.Ldcsctp_JTI23_0
	.long	.Ldcsctp_BB23_29-.Ldcsctp_JTI23_0
	.long	.Ldcsctp_BB23_43-.Ldcsctp_JTI23_0
	.long	.Ldcsctp_BB23_46-.Ldcsctp_JTI23_0
	.long	.Ldcsctp_BB23_39-.Ldcsctp_JTI23_0
	.long	.Ldcsctp_BB23_48-.Ldcsctp_JTI23_0
	.long	.Ldcsctp_BB23_30-.Ldcsctp_JTI23_0
	.long	.Ldcsctp_BB23_47-.Ldcsctp_JTI23_0
	.long	.Ldcsctp_BB23_26-.Ldcsctp_JTI23_0
	.text
	.seh_endproc
	.def	dcsctp_tlv.list.put_listed.f123a6a91b68d363;
	.scl	3;
	.type	32;
	.endef
	.section	.rdata,"dr"
	.p2align	4, 0x0
.Ldcsctp_CPI24_0:
	.byte	1
	.byte	0
	.byte	3
	.byte	2
	.byte	5
	.byte	4
	.byte	7
	.byte	6
	.byte	9
	.byte	8
	.byte	11
	.byte	10
	.byte	13
	.byte	12
	.byte	15
	.byte	14
.Ldcsctp_CPI24_1:
	.byte	1
	.byte	0
	.byte	3
	.byte	2
	.byte	5
	.byte	4
	.byte	7
	.byte	6
	.zero	1
	.zero	1
	.zero	1
	.zero	1
	.zero	1
	.zero	1
	.zero	1
	.zero	1
	.text
	.p2align	4
dcsctp_tlv.list.put_listed.f123a6a91b68d363:
.seh_proc dcsctp_tlv.list.put_listed.f123a6a91b68d363
	pushq	%r15
	.seh_pushreg %r15
	pushq	%r14
	.seh_pushreg %r14
	pushq	%r13
	.seh_pushreg %r13
	pushq	%r12
	.seh_pushreg %r12
	pushq	%rsi
	.seh_pushreg %rsi
	pushq	%rdi
	.seh_pushreg %rdi
	pushq	%rbp
	.seh_pushreg %rbp
	pushq	%rbx
	.seh_pushreg %rbx
	subq	$40, %rsp
	.seh_stackalloc 40
	.seh_endprologue
	movl	%ecx, %esi
	movq	144(%rsp), %r15
	testq	%r9, %r9
	je	.Ldcsctp_BB24_109
	movq	%r9, %rdi
	movq	%r8, %r14
	movb	%dl, 39(%rsp)
	leaq	4(%r15), %r13
	xorl	%r12d, %r12d
	xorl	%ebp, %ebp
	jmp	.Ldcsctp_BB24_4
	.p2align	4
.Ldcsctp_BB24_2:
	callq	memmove
.Ldcsctp_BB24_3:
	movzwl	%bx, %eax
	addq	%rax, %r12
	incq	%rbp
	cmpq	%rdi, %rbp
	je	.Ldcsctp_BB24_108
.Ldcsctp_BB24_4:
	leaq	(,%rbp,8), %rax
	leaq	(%rax,%rax,4), %rax
	addq	$3, %r12
	andq	$-4, %r12
	leaq	(%r12,%r13), %rcx
	movzbl	(%r14,%rax), %edx
	leaq	.Ldcsctp_JTI24_0(%rip), %r8
	movslq	(%r8,%rdx,4), %rdx
	addq	%r8, %rdx
	jmpq	*%rdx
.Ldcsctp_BB24_5:
	movq	8(%r14,%rax), %rdx
	movq	16(%r14,%rax), %rax
	movw	$512, (%rcx)
	leal	8(,%rax,2), %ebx
	movl	%ebx, %r8d
	rolw	$8, %r8w
	movw	%r8w, 2(%rcx)
	movl	%eax, %r8d
	bswapl	%r8d
	movl	%r8d, 4(%rcx)
	testq	%rax, %rax
	je	.Ldcsctp_BB24_3
	movl	$8, %r9d
	cmpq	$4, %rax
	jb	.Ldcsctp_BB24_7
	leaq	12(%r15), %r8
	leaq	(%r8,%r12), %r10
	movq	%r10, %r8
	subq	%rdx, %r8
	cmpq	$32, %r8
	jae	.Ldcsctp_BB24_32
.Ldcsctp_BB24_7:
	xorl	%r8d, %r8d
	movq	%r8, %r10
	orq	$1, %r10
	testb	$1, %al
	jne	.Ldcsctp_BB24_50
	jmp	.Ldcsctp_BB24_51
.Ldcsctp_BB24_8:
	movq	8(%r14,%rax), %rdx
	movq	16(%r14,%rax), %r8
	movw	$3072, (%rcx)
	leal	4(%r8), %ebx
	movl	%ebx, %eax
	rolw	$8, %ax
	movw	%ax, 2(%rcx)
	addq	$4, %rcx
	movq	%rcx, %rax
	subq	%rdx, %rax
	cmpq	%r8, %rax
	jae	.Ldcsctp_BB24_2
	cmpq	$4, %r8
	jb	.Ldcsctp_BB24_10
	leaq	8(%r15), %rax
	addq	%r12, %rax
	subq	%rdx, %rax
	cmpq	$32, %rax
	jae	.Ldcsctp_BB24_34
.Ldcsctp_BB24_10:
	xorl	%eax, %eax
.Ldcsctp_BB24_62:
	movq	%r8, %r10
	movq	%rax, %r9
	andq	$3, %r10
	je	.Ldcsctp_BB24_65
	movq	%rax, %r9
	.p2align	4
.Ldcsctp_BB24_64:
	movzbl	(%rdx,%r9), %r11d
	movb	%r11b, (%rcx,%r9)
	incq	%r9
	decq	%r10
	jne	.Ldcsctp_BB24_64
.Ldcsctp_BB24_65:
	subq	%r8, %rax
	cmpq	$-4, %rax
	ja	.Ldcsctp_BB24_3
	leaq	11(%r15), %rax
	addq	%r12, %rax
	.p2align	4
.Ldcsctp_BB24_67:
	movzbl	(%rdx,%r9), %ecx
	movb	%cl, -3(%rax,%r9)
	movzbl	1(%rdx,%r9), %ecx
	movb	%cl, -2(%rax,%r9)
	movzbl	2(%rdx,%r9), %ecx
	movb	%cl, -1(%rax,%r9)
	movzbl	3(%rdx,%r9), %ecx
	movb	%cl, (%rax,%r9)
	addq	$4, %r9
	cmpq	%r9, %r8
	jne	.Ldcsctp_BB24_67
	jmp	.Ldcsctp_BB24_3
.Ldcsctp_BB24_11:
	movl	4(%r14,%rax), %eax
	bswapl	%eax
	movl	$134220032, (%rcx)
	movl	%eax, 4(%rcx)
	movw	$8, %bx
	jmp	.Ldcsctp_BB24_3
.Ldcsctp_BB24_12:
	movl	$67111424, (%rcx)
	movw	$4, %bx
	jmp	.Ldcsctp_BB24_3
.Ldcsctp_BB24_13:
	movq	8(%r14,%rax), %rdx
	movq	16(%r14,%rax), %r8
	movw	$1536, (%rcx)
	leal	4(%r8), %ebx
	movl	%ebx, %eax
	rolw	$8, %ax
	movw	%ax, 2(%rcx)
	addq	$4, %rcx
	movq	%rcx, %rax
	subq	%rdx, %rax
	cmpq	%r8, %rax
	jae	.Ldcsctp_BB24_2
	cmpq	$4, %r8
	jb	.Ldcsctp_BB24_15
	leaq	8(%r15), %rax
	addq	%r12, %rax
	subq	%rdx, %rax
	cmpq	$32, %rax
	jae	.Ldcsctp_BB24_36
.Ldcsctp_BB24_15:
	xorl	%eax, %eax
.Ldcsctp_BB24_75:
	movq	%r8, %r10
	movq	%rax, %r9
	andq	$3, %r10
	je	.Ldcsctp_BB24_78
	movq	%rax, %r9
	.p2align	4
.Ldcsctp_BB24_77:
	movzbl	(%rdx,%r9), %r11d
	movb	%r11b, (%rcx,%r9)
	incq	%r9
	decq	%r10
	jne	.Ldcsctp_BB24_77
.Ldcsctp_BB24_78:
	subq	%r8, %rax
	cmpq	$-4, %rax
	ja	.Ldcsctp_BB24_3
	leaq	11(%r15), %rax
	addq	%r12, %rax
	.p2align	4
.Ldcsctp_BB24_80:
	movzbl	(%rdx,%r9), %ecx
	movb	%cl, -3(%rax,%r9)
	movzbl	1(%rdx,%r9), %ecx
	movb	%cl, -2(%rax,%r9)
	movzbl	2(%rdx,%r9), %ecx
	movb	%cl, -1(%rax,%r9)
	movzbl	3(%rdx,%r9), %ecx
	movb	%cl, (%rax,%r9)
	addq	$4, %r9
	cmpq	%r9, %r8
	jne	.Ldcsctp_BB24_80
	jmp	.Ldcsctp_BB24_3
.Ldcsctp_BB24_16:
	movq	8(%r14,%rax), %rdx
	movq	16(%r14,%rax), %r8
	movw	$3328, (%rcx)
	leal	4(%r8), %ebx
	movl	%ebx, %eax
	rolw	$8, %ax
	movw	%ax, 2(%rcx)
	addq	$4, %rcx
	movq	%rcx, %rax
	subq	%rdx, %rax
	cmpq	%r8, %rax
	jae	.Ldcsctp_BB24_2
	cmpq	$4, %r8
	jb	.Ldcsctp_BB24_18
	leaq	8(%r15), %rax
	addq	%r12, %rax
	subq	%rdx, %rax
	cmpq	$32, %rax
	jae	.Ldcsctp_BB24_38
.Ldcsctp_BB24_18:
	xorl	%eax, %eax
.Ldcsctp_BB24_88:
	movq	%r8, %r10
	movq	%rax, %r9
	andq	$3, %r10
	je	.Ldcsctp_BB24_91
	movq	%rax, %r9
	.p2align	4
.Ldcsctp_BB24_90:
	movzbl	(%rdx,%r9), %r11d
	movb	%r11b, (%rcx,%r9)
	incq	%r9
	decq	%r10
	jne	.Ldcsctp_BB24_90
.Ldcsctp_BB24_91:
	subq	%r8, %rax
	cmpq	$-4, %rax
	ja	.Ldcsctp_BB24_3
	leaq	11(%r15), %rax
	addq	%r12, %rax
	.p2align	4
.Ldcsctp_BB24_93:
	movzbl	(%rdx,%r9), %ecx
	movb	%cl, -3(%rax,%r9)
	movzbl	1(%rdx,%r9), %ecx
	movb	%cl, -2(%rax,%r9)
	movzbl	2(%rdx,%r9), %ecx
	movb	%cl, -1(%rax,%r9)
	movzbl	3(%rdx,%r9), %ecx
	movb	%cl, (%rax,%r9)
	addq	$4, %r9
	cmpq	%r9, %r8
	jne	.Ldcsctp_BB24_93
	jmp	.Ldcsctp_BB24_3
.Ldcsctp_BB24_19:
	movzwl	8(%r14,%rax), %ebx
	movq	16(%r14,%rax), %rdx
	movq	24(%r14,%rax), %r8
	movb	%bh, (%rcx)
	movb	%bl, 1(%rcx)
	leal	4(%r8), %ebx
	movl	%ebx, %eax
	rolw	$8, %ax
	movw	%ax, 2(%rcx)
	addq	$4, %rcx
	movq	%rcx, %rax
	subq	%rdx, %rax
	cmpq	%r8, %rax
	jae	.Ldcsctp_BB24_2
	cmpq	$4, %r8
	jb	.Ldcsctp_BB24_21
	leaq	8(%r15), %rax
	addq	%r12, %rax
	subq	%rdx, %rax
	cmpq	$32, %rax
	jae	.Ldcsctp_BB24_40
.Ldcsctp_BB24_21:
	xorl	%eax, %eax
.Ldcsctp_BB24_101:
	movq	%r8, %r10
	movq	%rax, %r9
	andq	$3, %r10
	je	.Ldcsctp_BB24_104
	movq	%rax, %r9
	.p2align	4
.Ldcsctp_BB24_103:
	movzbl	(%rdx,%r9), %r11d
	movb	%r11b, (%rcx,%r9)
	incq	%r9
	decq	%r10
	jne	.Ldcsctp_BB24_103
.Ldcsctp_BB24_104:
	subq	%r8, %rax
	cmpq	$-4, %rax
	ja	.Ldcsctp_BB24_3
	leaq	11(%r15), %rax
	addq	%r12, %rax
	.p2align	4
.Ldcsctp_BB24_106:
	movzbl	(%rdx,%r9), %ecx
	movb	%cl, -3(%rax,%r9)
	movzbl	1(%rdx,%r9), %ecx
	movb	%cl, -2(%rax,%r9)
	movzbl	2(%rdx,%r9), %ecx
	movb	%cl, -1(%rax,%r9)
	movzbl	3(%rdx,%r9), %ecx
	movb	%cl, (%rax,%r9)
	addq	$4, %r9
	cmpq	%r9, %r8
	jne	.Ldcsctp_BB24_106
	jmp	.Ldcsctp_BB24_3
.Ldcsctp_BB24_32:
	cmpq	$16, %rax
	jae	.Ldcsctp_BB24_42
	xorl	%r8d, %r8d
	jmp	.Ldcsctp_BB24_46
.Ldcsctp_BB24_34:
	cmpq	$32, %r8
	jae	.Ldcsctp_BB24_55
	xorl	%eax, %eax
	jmp	.Ldcsctp_BB24_59
.Ldcsctp_BB24_36:
	cmpq	$32, %r8
	jae	.Ldcsctp_BB24_68
	xorl	%eax, %eax
	jmp	.Ldcsctp_BB24_72
.Ldcsctp_BB24_38:
	cmpq	$32, %r8
	jae	.Ldcsctp_BB24_81
	xorl	%eax, %eax
	jmp	.Ldcsctp_BB24_85
.Ldcsctp_BB24_40:
	cmpq	$32, %r8
	jae	.Ldcsctp_BB24_94
	xorl	%eax, %eax
	jmp	.Ldcsctp_BB24_98
.Ldcsctp_BB24_42:
	movq	%rax, %r8
	andq	$-16, %r8
	leaq	28(%r15), %r9
	addq	%r12, %r9
	xorl	%r11d, %r11d
	.p2align	4
.Ldcsctp_BB24_43:
	movdqu	(%rdx,%r11,2), %xmm0
	movdqu	16(%rdx,%r11,2), %xmm1
	movdqa	.Ldcsctp_CPI24_0(%rip), %xmm2
	pshufb	%xmm2, %xmm0
	pshufb	%xmm2, %xmm1
	movdqu	%xmm0, -16(%r9,%r11,2)
	movdqu	%xmm1, (%r9,%r11,2)
	addq	$16, %r11
	cmpq	%r11, %r8
	jne	.Ldcsctp_BB24_43
	cmpq	%r8, %rax
	je	.Ldcsctp_BB24_54
	testb	$12, %al
	je	.Ldcsctp_BB24_107
.Ldcsctp_BB24_46:
	movq	%r8, %r11
	movq	%rax, %r8
	andq	$-4, %r8
	leaq	8(,%r8,2), %r9
	.p2align	4
.Ldcsctp_BB24_47:
	movq	(%rdx,%r11,2), %xmm0
	pshufb	.Ldcsctp_CPI24_1(%rip), %xmm0
	movq	%xmm0, (%r10,%r11,2)
	addq	$4, %r11
	cmpq	%r11, %r8
	jne	.Ldcsctp_BB24_47
	cmpq	%r8, %rax
	je	.Ldcsctp_BB24_54
	movq	%r8, %r10
	orq	$1, %r10
	testb	$1, %al
	je	.Ldcsctp_BB24_51
.Ldcsctp_BB24_50:
	movzwl	(%rdx,%r8,2), %r8d
	rolw	$8, %r8w
	movw	%r8w, (%rcx,%r9)
	addq	$2, %r9
	movq	%r10, %r8
.Ldcsctp_BB24_51:
	cmpq	%r10, %rax
	je	.Ldcsctp_BB24_54
	addq	%r12, %r9
	leaq	6(%r15), %r10
	addq	%r10, %r9
	leaq	(%rdx,%r8,2), %rdx
	addq	$2, %rdx
	subq	%r8, %rax
	xorl	%r8d, %r8d
	.p2align	4
.Ldcsctp_BB24_53:
	movzwl	-2(%rdx,%r8,2), %r10d
	rolw	$8, %r10w
	movw	%r10w, -2(%r9,%r8,2)
	movzwl	(%rdx,%r8,2), %r10d
	rolw	$8, %r10w
	movw	%r10w, (%r9,%r8,2)
	addq	$2, %r8
	cmpq	%r8, %rax
	jne	.Ldcsctp_BB24_53
.Ldcsctp_BB24_54:
	movzwl	2(%rcx), %ebx
	rolw	$8, %bx
	jmp	.Ldcsctp_BB24_3
.Ldcsctp_BB24_55:
	movq	%r8, %rax
	andq	$-32, %rax
	leaq	24(%r15), %r9
	addq	%r12, %r9
	xorl	%r10d, %r10d
	.p2align	4
.Ldcsctp_BB24_56:
	movdqu	(%rdx,%r10), %xmm0
	movdqu	16(%rdx,%r10), %xmm1
	movdqu	%xmm0, -16(%r9,%r10)
	movdqu	%xmm1, (%r9,%r10)
	addq	$32, %r10
	cmpq	%r10, %rax
	jne	.Ldcsctp_BB24_56
	cmpq	%rax, %r8
	je	.Ldcsctp_BB24_3
	testb	$28, %r8b
	je	.Ldcsctp_BB24_62
.Ldcsctp_BB24_59:
	movq	%rax, %r9
	movq	%r8, %rax
	andq	$-4, %rax
	.p2align	4
.Ldcsctp_BB24_60:
	movl	(%rdx,%r9), %r10d
	movl	%r10d, (%rcx,%r9)
	addq	$4, %r9
	cmpq	%r9, %rax
	jne	.Ldcsctp_BB24_60
	cmpq	%rax, %r8
	je	.Ldcsctp_BB24_3
	jmp	.Ldcsctp_BB24_62
.Ldcsctp_BB24_68:
	movq	%r8, %rax
	andq	$-32, %rax
	leaq	24(%r15), %r9
	addq	%r12, %r9
	xorl	%r10d, %r10d
	.p2align	4
.Ldcsctp_BB24_69:
	movdqu	(%rdx,%r10), %xmm0
	movdqu	16(%rdx,%r10), %xmm1
	movdqu	%xmm0, -16(%r9,%r10)
	movdqu	%xmm1, (%r9,%r10)
	addq	$32, %r10
	cmpq	%r10, %rax
	jne	.Ldcsctp_BB24_69
	cmpq	%rax, %r8
	je	.Ldcsctp_BB24_3
	testb	$28, %r8b
	je	.Ldcsctp_BB24_75
.Ldcsctp_BB24_72:
	movq	%rax, %r9
	movq	%r8, %rax
	andq	$-4, %rax
	.p2align	4
.Ldcsctp_BB24_73:
	movl	(%rdx,%r9), %r10d
	movl	%r10d, (%rcx,%r9)
	addq	$4, %r9
	cmpq	%r9, %rax
	jne	.Ldcsctp_BB24_73
	cmpq	%rax, %r8
	je	.Ldcsctp_BB24_3
	jmp	.Ldcsctp_BB24_75
.Ldcsctp_BB24_81:
	movq	%r8, %rax
	andq	$-32, %rax
	leaq	24(%r15), %r9
	addq	%r12, %r9
	xorl	%r10d, %r10d
	.p2align	4
.Ldcsctp_BB24_82:
	movdqu	(%rdx,%r10), %xmm0
	movdqu	16(%rdx,%r10), %xmm1
	movdqu	%xmm0, -16(%r9,%r10)
	movdqu	%xmm1, (%r9,%r10)
	addq	$32, %r10
	cmpq	%r10, %rax
	jne	.Ldcsctp_BB24_82
	cmpq	%rax, %r8
	je	.Ldcsctp_BB24_3
	testb	$28, %r8b
	je	.Ldcsctp_BB24_88
.Ldcsctp_BB24_85:
	movq	%rax, %r9
	movq	%r8, %rax
	andq	$-4, %rax
	.p2align	4
.Ldcsctp_BB24_86:
	movl	(%rdx,%r9), %r10d
	movl	%r10d, (%rcx,%r9)
	addq	$4, %r9
	cmpq	%r9, %rax
	jne	.Ldcsctp_BB24_86
	cmpq	%rax, %r8
	je	.Ldcsctp_BB24_3
	jmp	.Ldcsctp_BB24_88
.Ldcsctp_BB24_94:
	movq	%r8, %rax
	andq	$-32, %rax
	leaq	24(%r15), %r9
	addq	%r12, %r9
	xorl	%r10d, %r10d
	.p2align	4
.Ldcsctp_BB24_95:
	movdqu	(%rdx,%r10), %xmm0
	movdqu	16(%rdx,%r10), %xmm1
	movdqu	%xmm0, -16(%r9,%r10)
	movdqu	%xmm1, (%r9,%r10)
	addq	$32, %r10
	cmpq	%r10, %rax
	jne	.Ldcsctp_BB24_95
	cmpq	%rax, %r8
	je	.Ldcsctp_BB24_3
	testb	$28, %r8b
	je	.Ldcsctp_BB24_101
.Ldcsctp_BB24_98:
	movq	%rax, %r9
	movq	%r8, %rax
	andq	$-4, %rax
	.p2align	4
.Ldcsctp_BB24_99:
	movl	(%rdx,%r9), %r10d
	movl	%r10d, (%rcx,%r9)
	addq	$4, %r9
	cmpq	%r9, %rax
	jne	.Ldcsctp_BB24_99
	cmpq	%rax, %r8
	je	.Ldcsctp_BB24_3
	jmp	.Ldcsctp_BB24_101
.Ldcsctp_BB24_107:
	leaq	8(,%r8,2), %r9
	movq	%r8, %r10
	orq	$1, %r10
	testb	$1, %al
	jne	.Ldcsctp_BB24_50
	jmp	.Ldcsctp_BB24_51
.Ldcsctp_BB24_108:
	addl	$4, %r12d
	rolw	$8, %r12w
	movzbl	39(%rsp), %edx
	jmp	.Ldcsctp_BB24_110
.Ldcsctp_BB24_109:
	movw	$1024, %r12w
.Ldcsctp_BB24_110:
	movb	%sil, (%r15)
	movb	%dl, 1(%r15)
	movw	%r12w, 2(%r15)
	addq	$40, %rsp
	popq	%rbx
	popq	%rbp
	popq	%rdi
	popq	%rsi
	popq	%r12
	popq	%r13
	popq	%r14
	popq	%r15
	retq
	.section	.rdata,"dr"
	.p2align	2, 0x0
.Ldcsctp_JTI24_0:
	.long	.Ldcsctp_BB24_5-.Ldcsctp_JTI24_0
	.long	.Ldcsctp_BB24_13-.Ldcsctp_JTI24_0
	.long	.Ldcsctp_BB24_11-.Ldcsctp_JTI24_0
	.long	.Ldcsctp_BB24_12-.Ldcsctp_JTI24_0
	.long	.Ldcsctp_BB24_8-.Ldcsctp_JTI24_0
	.long	.Ldcsctp_BB24_16-.Ldcsctp_JTI24_0
	.long	.Ldcsctp_BB24_19-.Ldcsctp_JTI24_0
	.text
	.seh_endproc
	.def	std_alloc.vec.Vec.drop.5e412c9b2b6de7d3;
	.scl	3;
	.type	32;
	.endef
	.p2align	4
std_alloc.vec.Vec.drop.5e412c9b2b6de7d3:
.seh_proc std_alloc.vec.Vec.drop.5e412c9b2b6de7d3
	pushq	%r15
	.seh_pushreg %r15
	pushq	%r14
	.seh_pushreg %r14
	pushq	%r12
	.seh_pushreg %r12
	pushq	%rsi
	.seh_pushreg %rsi
	pushq	%rdi
	.seh_pushreg %rdi
	pushq	%rbx
	.seh_pushreg %rbx
	subq	$56, %rsp
	.seh_stackalloc 56
	.seh_endprologue
	movq	(%rcx), %rsi
	movq	8(%rcx), %r14
	movq	16(%rcx), %rbx
	testq	%r14, %r14
	je	.Ldcsctp_BB25_18
	movq	%rsi, %r15
	jmp	.Ldcsctp_BB25_2
.Ldcsctp_BB25_15:
	testq	%r8, %r8
	je	.Ldcsctp_BB25_17
.Ldcsctp_BB25_16:
	callq	rattle_dealloc
.Ldcsctp_BB25_17:
	addq	$64, %r15
	decq	%r14
	je	.Ldcsctp_BB25_18
.Ldcsctp_BB25_2:
	movzbl	(%r15), %r9d
	movq	8(%r15), %rax
	movq	16(%r15), %rcx
	movq	24(%r15), %rdx
	movq	32(%r15), %r8
	movq	40(%r15), %rdi
	leaq	.Ldcsctp_JTI25_0(%rip), %r10
	movslq	(%r10,%r9,4), %r9
	addq	%r10, %r9
	jmpq	*%r9
.Ldcsctp_BB25_3:
	testq	%rdx, %rdx
	je	.Ldcsctp_BB25_17
	movq	%rax, %rcx
	jmp	.Ldcsctp_BB25_16
.Ldcsctp_BB25_14:
	movq	%rax, 32(%rsp)
	movq	%rcx, 40(%rsp)
	movq	%rdx, 48(%rsp)
	jmp	.Ldcsctp_BB25_6
.Ldcsctp_BB25_5:
	movq	%rdx, 32(%rsp)
	movq	%r8, 40(%rsp)
	movq	%rdi, 48(%rsp)
.Ldcsctp_BB25_6:
	leaq	32(%rsp), %rcx
	callq	std_alloc.vec.Vec.drop.765a829dcb308622
	jmp	.Ldcsctp_BB25_17
.Ldcsctp_BB25_13:
	movq	%rax, 32(%rsp)
	movq	%rcx, 40(%rsp)
	movq	%rdx, 48(%rsp)
	jmp	.Ldcsctp_BB25_12
.Ldcsctp_BB25_7:
	movq	56(%r15), %r12
	testq	%r8, %r8
	je	.Ldcsctp_BB25_9
	callq	rattle_dealloc
.Ldcsctp_BB25_9:
	testq	%r12, %r12
	je	.Ldcsctp_BB25_17
	movq	%rdi, %rcx
	jmp	.Ldcsctp_BB25_16
.Ldcsctp_BB25_11:
	movq	%rcx, 32(%rsp)
	movq	%rdx, 40(%rsp)
	movq	%r8, 48(%rsp)
.Ldcsctp_BB25_12:
	leaq	32(%rsp), %rcx
	callq	std_alloc.vec.Vec.drop.694f3e952ffd1e0b
	jmp	.Ldcsctp_BB25_17
.Ldcsctp_BB25_18:
	testq	%rbx, %rbx
	je	.Ldcsctp_BB25_19
	movq	%rsi, %rcx
	addq	$56, %rsp
	popq	%rbx
	popq	%rdi
	popq	%rsi
	popq	%r12
	popq	%r14
	popq	%r15
	jmp	rattle_dealloc
.Ldcsctp_BB25_19:
	addq	$56, %rsp
	popq	%rbx
	popq	%rdi
	popq	%rsi
	popq	%r12
	popq	%r14
	popq	%r15
	retq
	.section	.rdata,"dr"
	.p2align	2, 0x0
.Ldcsctp_JTI25_0:
	.long	.Ldcsctp_BB25_3-.Ldcsctp_JTI25_0
	.long	.Ldcsctp_BB25_5-.Ldcsctp_JTI25_0
	.long	.Ldcsctp_BB25_5-.Ldcsctp_JTI25_0
	.long	.Ldcsctp_BB25_7-.Ldcsctp_JTI25_0
	.long	.Ldcsctp_BB25_14-.Ldcsctp_JTI25_0
	.long	.Ldcsctp_BB25_14-.Ldcsctp_JTI25_0
	.long	.Ldcsctp_BB25_11-.Ldcsctp_JTI25_0
	.long	.Ldcsctp_BB25_17-.Ldcsctp_JTI25_0
	.long	.Ldcsctp_BB25_17-.Ldcsctp_JTI25_0
	.long	.Ldcsctp_BB25_13-.Ldcsctp_JTI25_0
	.long	.Ldcsctp_BB25_3-.Ldcsctp_JTI25_0
	.long	.Ldcsctp_BB25_17-.Ldcsctp_JTI25_0
	.long	.Ldcsctp_BB25_17-.Ldcsctp_JTI25_0
	.long	.Ldcsctp_BB25_3-.Ldcsctp_JTI25_0
	.long	.Ldcsctp_BB25_14-.Ldcsctp_JTI25_0
	.long	.Ldcsctp_BB25_15-.Ldcsctp_JTI25_0
	.long	.Ldcsctp_BB25_15-.Ldcsctp_JTI25_0
	.long	.Ldcsctp_BB25_15-.Ldcsctp_JTI25_0
	.text
	.seh_endproc
	.def	rattle_main;
	.scl	2;
	.type	32;
	.endef
	.section	.rdata,"dr"
	.p2align	4, 0x0
.Ldcsctp_CPI26_0:
	.byte	116
	.byte	104
	.byte	105
	.byte	115
	.byte	32
	.byte	109
	.byte	97
	.byte	99
	.byte	104
	.byte	105
	.byte	110
	.byte	101
	.byte	32
	.byte	108
	.byte	97
	.byte	99
.Ldcsctp_CPI26_1:
	.byte	107
	.byte	115
	.byte	32
	.byte	97
	.byte	32
	.byte	102
	.byte	101
	.byte	97
	.byte	116
	.byte	117
	.byte	114
	.byte	101
	.byte	32
	.byte	111
	.byte	102
	.byte	32
.Ldcsctp_CPI26_2:
	.byte	120
	.byte	56
	.byte	54
	.byte	45
	.byte	54
	.byte	52
	.byte	45
	.byte	118
	.byte	50
	.byte	44
	.byte	32
	.byte	119
	.byte	104
	.byte	105
	.byte	99
	.byte	104
.Ldcsctp_CPI26_3:
	.byte	32
	.byte	116
	.byte	104
	.byte	105
	.byte	115
	.byte	32
	.byte	112
	.byte	114
	.byte	111
	.byte	103
	.byte	114
	.byte	97
	.byte	109
	.byte	32
	.byte	119
	.byte	97
.Ldcsctp_CPI26_4:
	.byte	115
	.byte	32
	.byte	98
	.byte	117
	.byte	105
	.byte	108
	.byte	116
	.byte	32
	.byte	102
	.byte	111
	.byte	114
	.byte	58
	.byte	32
	.byte	114
	.byte	117
	.byte	110
.Ldcsctp_CPI26_5:
	.byte	32
	.byte	105
	.byte	116
	.byte	32
	.byte	111
	.byte	110
	.byte	32
	.byte	97
	.byte	110
	.byte	111
	.byte	116
	.byte	104
	.byte	101
	.byte	114
	.byte	32
	.byte	109
.Ldcsctp_CPI26_6:
	.byte	97
	.byte	99
	.byte	104
	.byte	105
	.byte	110
	.byte	101
	.byte	44
	.byte	32
	.byte	111
	.byte	114
	.byte	32
	.byte	98
	.byte	117
	.byte	105
	.byte	108
	.byte	100
.Ldcsctp_CPI26_7:
	.byte	32
	.byte	105
	.byte	116
	.byte	32
	.byte	119
	.byte	105
	.byte	116
	.byte	104
	.byte	32
	.byte	45
	.byte	45
	.byte	99
	.byte	112
	.byte	117
	.byte	32
	.byte	120
	.text
	.globl	rattle_main
	.p2align	4
rattle_main:
.seh_proc rattle_main
	pushq	%rbp
	.seh_pushreg %rbp
	pushq	%rsi
	.seh_pushreg %rsi
	pushq	%rax
	.seh_stackalloc 8
	movq	%rsp, %rbp
	.seh_setframe %rbp, 0
	.seh_endprologue
	subq	$32, %rsp
	movl	$1, %edx
	movl	$13, %ecx
	callq	rattle_signal
	xorl	%ecx, %ecx
	callq	rattle_cpuid
	addq	$32, %rsp
	movl	24(%rax), %esi
	subq	$32, %rsp
	movl	$2, %ecx
	callq	rattle_cpuid
	addq	$32, %rsp
	notl	%esi
	testl	$9970177, %esi
	jne	.Ldcsctp_BB26_2
	movl	24(%rax), %eax
	andl	$1, %eax
	je	.Ldcsctp_BB26_2
	leaq	8(%rbp), %rsp
	popq	%rsi
	popq	%rbp
	jmp	sctp_show.main.start
.Ldcsctp_BB26_2:
	movl	$144, %eax
	callq	___chkstk_ms
	subq	%rax, %rsp
	movq	%rsp, %rdx
	movaps	.Ldcsctp_CPI26_0(%rip), %xmm0
	movaps	%xmm0, (%rdx)
	movaps	.Ldcsctp_CPI26_1(%rip), %xmm0
	movaps	%xmm0, 16(%rdx)
	movaps	.Ldcsctp_CPI26_2(%rip), %xmm0
	movaps	%xmm0, 32(%rdx)
	movaps	.Ldcsctp_CPI26_3(%rip), %xmm0
	movaps	%xmm0, 48(%rdx)
	movaps	.Ldcsctp_CPI26_4(%rip), %xmm0
	movaps	%xmm0, 64(%rdx)
	movaps	.Ldcsctp_CPI26_5(%rip), %xmm0
	movaps	%xmm0, 80(%rdx)
	movaps	.Ldcsctp_CPI26_6(%rip), %xmm0
	movaps	%xmm0, 96(%rdx)
	movaps	.Ldcsctp_CPI26_7(%rip), %xmm0
	movaps	%xmm0, 112(%rdx)
	movl	$908932664, 128(%rdx)
	movw	$2612, 132(%rdx)
	subq	$32, %rsp
	movl	$134, %r8d
	movl	$2, %ecx
	callq	rattle_write
	addq	$32, %rsp
	movl	$127, %eax
	leaq	8(%rbp), %rsp
	popq	%rsi
	popq	%rbp
	retq
	.seh_endproc
	.section	.rdata,"dr"
.Ldcsctp_static.0:
	.ascii	"Failed to parse abort reason"
.Ldcsctp_static.1:
	.ascii	"Failed to parse additional information"
.Ldcsctp_static.2:
	.byte	10
.Ldcsctp_static.3:
	.ascii	"source="
.Ldcsctp_static.4:
	.ascii	" destination="
.Ldcsctp_static.5:
	.ascii	" tag="
.Ldcsctp_static.6:
	.ascii	" checksum="
.Ldcsctp_static.7:
	.zero	4,32
.Ldcsctp_static.8:
.Ldcsctp_static.11:
	.ascii	"SHUTDOWN cumulative_tsn_ack="
.Ldcsctp_static.12:
	.ascii	"SHUTDOWN-ACK"
.Ldcsctp_static.13:
	.ascii	"COOKIE-ACK"
.Ldcsctp_static.14:
	.ascii	"SHUTDOWN-COMPLETE, tag_reflected="
.Ldcsctp_static.15:
	.ascii	"true"
.Ldcsctp_static.16:
	.ascii	"false"
.Ldcsctp_static.17:
	.ascii	"DATA, type="
.Ldcsctp_static.18:
	.zero	2,58
.Ldcsctp_static.19:
	.ascii	", tsn="
.Ldcsctp_static.20:
	.ascii	", sid="
.Ldcsctp_static.21:
	.ascii	", ssn="
.Ldcsctp_static.22:
	.ascii	", ppid="
.Ldcsctp_static.23:
	.ascii	", length="
.Ldcsctp_static.24:
	.ascii	"unordered"
.Ldcsctp_static.25:
	.ascii	"ordered"
.Ldcsctp_static.26:
	.ascii	"complete"
.Ldcsctp_static.27:
	.ascii	"first"
.Ldcsctp_static.28:
	.ascii	"last"
.Ldcsctp_static.29:
	.ascii	"middle"
.Ldcsctp_static.30:
	.ascii	"SACK, cum_ack_tsn="
.Ldcsctp_static.31:
	.ascii	", a_rwnd="
.Ldcsctp_static.32:
	.ascii	"COOKIE-ECHO, cookie="
.Ldcsctp_static.33:
	.ascii	" bytes"
.Ldcsctp_static.34:
	.ascii	"I-DATA, type="
.Ldcsctp_static.35:
	.ascii	", mid="
.Ldcsctp_static.36:
	.ascii	"FORWARD-TSN, new_cumulative_tsn="
.Ldcsctp_static.37:
	.ascii	"I-FORWARD-TSN, new_cumulative_tsn="
.Ldcsctp_static.38:
	.ascii	"INIT, initiate_tag="
.Ldcsctp_static.39:
	.ascii	", initial_tsn="
.Ldcsctp_static.40:
	.ascii	"INIT-ACK, initiate_tag="
.Ldcsctp_static.41:
	.ascii	"HEARTBEAT-REQ"
.Ldcsctp_static.42:
	.ascii	"HEARTBEAT-ACK"
.Ldcsctp_static.43:
	.ascii	"ABORT, tag_reflected="
.Ldcsctp_static.44:
	.ascii	"ERROR"
.Ldcsctp_static.45:
	.ascii	"RE-CONFIG"
.Ldcsctp_static.46:
	.ascii	"Unknown chunk, type="
.Ldcsctp_static.47:
	.ascii	"canonical too long\n"
.Ldcsctp_static.48:
	.ascii	"canonical="
.Ldcsctp_static.50:
	.ascii	"0123456789abcdef"
.Ldcsctp_static.51:
	.ascii	"error: out of memory\n"
.Ldcsctp_static.52:
	.ascii	"error: read failed\n"
.Ldcsctp_static.53:
	.ascii	"error: input too long\n"
.Ldcsctp_static.54:
	.ascii	"error: not hexadecimal\n"
.Ldcsctp_static.55:
	.ascii	"error: invalid packet size\n"
.Ldcsctp_static.58:
	.ascii	"error: invalid chunk: length\n"
.Ldcsctp_static.59:
	.ascii	"error: invalid chunk: type\n"
.Ldcsctp_static.60:
	.ascii	"error: invalid chunk: padding\n"
.Ldcsctp_static.61:
	.ascii	"error: invalid chunk: value\n"
	.p2align	3, 0x0
.Ldcsctp_switch.table.sctp_show.main.start:
	.quad	29
	.quad	27
	.quad	30
	.quad	28
	.quad	21
	.p2align	2, 0x0
.Ldcsctp_switch.table.sctp_show.main.start.391.rel:
	.long	.Ldcsctp_static.58-.Ldcsctp_switch.table.sctp_show.main.start.391.rel
	.long	.Ldcsctp_static.59-.Ldcsctp_switch.table.sctp_show.main.start.391.rel
	.long	.Ldcsctp_static.60-.Ldcsctp_switch.table.sctp_show.main.start.391.rel
	.long	.Ldcsctp_static.61-.Ldcsctp_switch.table.sctp_show.main.start.391.rel
	.long	.Ldcsctp_static.51-.Ldcsctp_switch.table.sctp_show.main.start.391.rel
	.def	rattle_alloc;
	.scl	3;
	.type	32;
	.endef
	.text
	.p2align	4
rattle_alloc:
.seh_proc rattle_alloc
	subq	$40, %rsp
	.seh_stackalloc 40
	.seh_endprologue
	testq	%rcx, %rcx
	cmoveq	%rdx, %rcx
	callq	malloc
	xorl	%ecx, %ecx
	testq	%rax, %rax
	setne	%cl
	leaq	rattle_none(%rip), %rdx
	cmovneq	%rax, %rdx
	movq	%rcx, %rax
	addq	$40, %rsp
	retq
	.seh_endproc
	.def	rattle_realloc;
	.scl	3;
	.type	32;
	.endef
	.p2align	4
rattle_realloc:
.seh_proc rattle_realloc
	subq	$40, %rsp
	.seh_stackalloc 40
	.seh_endprologue
	movq	%r9, %rdx
	testq	%r8, %r8
	cmovneq	%r8, %rdx
	callq	realloc
	xorl	%ecx, %ecx
	testq	%rax, %rax
	setne	%cl
	leaq	rattle_none(%rip), %rdx
	cmovneq	%rax, %rdx
	movq	%rcx, %rax
	addq	$40, %rsp
	retq
	.seh_endproc
	.def	rattle_dealloc;
	.scl	3;
	.type	32;
	.endef
	.p2align	4
rattle_dealloc:
	jmp	free
	.section	.rdata,"dr"
	.p2align	4, 0x0
rattle_none:
	.zero	16
