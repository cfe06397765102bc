	.section	__TEXT,__text,regular,pure_instructions
	.section	__TEXT,__literal16,16byte_literals
	.p2align	4, 0x0
Ldcsctp_CPI0_0:
	.byte	1
	.byte	0
	.byte	3
	.byte	2
	.space	1
	.space	1
	.space	1
	.space	1
	.space	1
	.space	1
	.space	1
	.space	1
	.space	1
	.space	1
	.space	1
	.space	1
Ldcsctp_CPI0_1:
	.byte	3
	.byte	2
	.byte	1
	.byte	0
	.byte	7
	.byte	6
	.byte	5
	.byte	4
	.space	1
	.space	1
	.space	1
	.space	1
	.space	1
	.space	1
	.space	1
	.space	1
Ldcsctp_CPI0_2:
	.byte	1
	.byte	0
	.byte	3
	.byte	2
	.byte	5
	.byte	4
	.byte	7
	.byte	6
	.byte	9
	.byte	8
	.byte	11
	.byte	10
	.byte	13
	.byte	12
	.byte	15
	.byte	14
Ldcsctp_CPI0_3:
	.byte	3
	.byte	2
	.byte	1
	.byte	0
	.byte	7
	.byte	6
	.byte	5
	.byte	4
	.byte	11
	.byte	10
	.byte	9
	.byte	8
	.byte	15
	.byte	14
	.byte	13
	.byte	12
	.section	__TEXT,__text,regular,pure_instructions
	.p2align	4
_sctp_show.main.start:
	.cfi_startproc
	pushq	%rbp
	.cfi_def_cfa_offset 16
	pushq	%r15
	.cfi_def_cfa_offset 24
	pushq	%r14
	.cfi_def_cfa_offset 32
	pushq	%r13
	.cfi_def_cfa_offset 40
	pushq	%r12
	.cfi_def_cfa_offset 48
	pushq	%rbx
	.cfi_def_cfa_offset 56
	subq	$360, %rsp
	.cfi_def_cfa_offset 416
	.cfi_offset %rbx, -56
	.cfi_offset %r12, -48
	.cfi_offset %r13, -40
	.cfi_offset %r14, -32
	.cfi_offset %r15, -24
	.cfi_offset %rbp, -16
	xorl	%edi, %edi
	xorl	%esi, %esi
	movl	$1, %edx
	callq	_rattle_lseek
	movl	$200001, %edi
	movl	$1, %esi
	callq	_rattle_alloc
	leaq	l_static.51(%rip), %r13
	movl	$21, %ebp
	testb	$1, %al
	je	Ldcsctp_BB0_64
	movq	%rdx, %r15
	movl	$200001, %esi
	movq	%rdx, %rdi
	callq	___bzero
	xorl	%r14d, %r14d
	.p2align	4
Ldcsctp_BB0_2:
	movl	$200001, %ebx
	subq	%r14, %rbx
	leaq	(%r15,%r14), %rsi
	xorl	%edi, %edi
	movq	%rbx, %rdx
	callq	_rattle_read
	testq	%rax, %rax
	js	Ldcsctp_BB0_7
	cmpq	%rbx, %rax
	cmovbq	%rax, %rbx
	testq	%rbx, %rbx
	je	Ldcsctp_BB0_5
	addq	%rbx, %r14
	cmpq	$200000, %r14
	jbe	Ldcsctp_BB0_2
Ldcsctp_BB0_5:
	pxor	%xmm0, %xmm0
	movdqa	%xmm0, 272(%rsp)
	movdqa	%xmm0, 288(%rsp)
	movq	$0, 304(%rsp)
	movdqa	%xmm0, 176(%rsp)
	movdqa	%xmm0, 192(%rsp)
	movdqa	%xmm0, 240(%rsp)
	movq	$0, 256(%rsp)
	movdqa	%xmm0, 208(%rsp)
	movq	$0, 224(%rsp)
	cmpq	$200001, %r14
	movl	$200001, %eax
	cmovbq	%r14, %rax
	jb	Ldcsctp_BB0_8
	movq	%r15, %rdi
	callq	_rattle_dealloc
	leaq	l_static.53(%rip), %r13
	movl	$22, %ebp
	jmp	Ldcsctp_BB0_64
Ldcsctp_BB0_7:
	leaq	272(%rsp), %rdi
	callq	_std_io.io.error.last_error
	movq	%r15, %rdi
	callq	_rattle_dealloc
	leaq	l_static.52(%rip), %r13
	movl	$19, %ebp
	jmp	Ldcsctp_BB0_64
Ldcsctp_BB0_8:
	testq	%r14, %r14
	je	Ldcsctp_BB0_39
	movq	%rax, %rdx
	negq	%rdx
	xorl	%ecx, %ecx
	.p2align	4
Ldcsctp_BB0_10:
	movzbl	(%r15,%rcx), %esi
	cmpl	$13, %esi
	je	Ldcsctp_BB0_15
	cmpl	$32, %esi
	je	Ldcsctp_BB0_15
	addb	$-9, %sil
	cmpb	$2, %sil
	jb	Ldcsctp_BB0_15
	incq	%rcx
	movq	%rdx, %rsi
	addq	%rcx, %rsi
	jne	Ldcsctp_BB0_10
	movq	%rax, %rbx
	jmp	Ldcsctp_BB0_25
Ldcsctp_BB0_15:
	leaq	1(%rcx), %rdx
	cmpq	%rax, %rdx
	jae	Ldcsctp_BB0_22
	movq	%rcx, %rdi
	subq	%rax, %rdi
	leaq	2(%rdi), %rsi
	testb	$1, %dil
	jne	Ldcsctp_BB0_23
	movzbl	1(%r15,%rcx), %edx
	cmpl	$13, %edx
	je	Ldcsctp_BB0_20
	cmpl	$32, %edx
	je	Ldcsctp_BB0_20
	leal	-9(%rdx), %edi
	movl	$1, %ebx
	cmpb	$1, %dil
	ja	Ldcsctp_BB0_21
Ldcsctp_BB0_20:
	xorl	%ebx, %ebx
Ldcsctp_BB0_21:
	movb	%dl, (%r15,%rcx)
	addq	%rcx, %rbx
	addq	$2, %rcx
	movq	%rcx, %rdx
	movq	%rbx, %rcx
	jmp	Ldcsctp_BB0_24
Ldcsctp_BB0_22:
	movq	%rcx, %rbx
	jmp	Ldcsctp_BB0_25
Ldcsctp_BB0_23:
Ldcsctp_BB0_24:
	testq	%rsi, %rsi
	jne	Ldcsctp_BB0_32
Ldcsctp_BB0_25:
	testb	$1, %bl
	jne	Ldcsctp_BB0_63
	testq	%rbx, %rbx
	je	Ldcsctp_BB0_39
	movq	%rbx, %rdi
	shrq	%rdi
	movl	$1, %esi
	movq	%rdi, %r14
	callq	_rattle_alloc
	testb	$1, %al
	je	Ldcsctp_BB0_41
	movq	%rdx, %rdi
	cmpq	$2, %rbx
	jne	Ldcsctp_BB0_42
	xorl	%r12d, %r12d
	movq	%r14, %rbx
	jmp	Ldcsctp_BB0_43
	.p2align	4
Ldcsctp_BB0_30:
	xorl	%edi, %edi
Ldcsctp_BB0_31:
	addq	%rcx, %rbx
	movb	%sil, (%r15,%rbx)
	addq	%rdi, %rbx
	addq	$2, %rdx
	movq	%rbx, %rcx
	cmpq	%rdx, %rax
	je	Ldcsctp_BB0_25
Ldcsctp_BB0_32:
	movzbl	(%r15,%rdx), %esi
	cmpl	$13, %esi
	je	Ldcsctp_BB0_35
	cmpl	$32, %esi
	je	Ldcsctp_BB0_35
	leal	-9(%rsi), %edi
	movl	$1, %ebx
	cmpb	$1, %dil
	ja	Ldcsctp_BB0_36
	.p2align	4
Ldcsctp_BB0_35:
	xorl	%ebx, %ebx
Ldcsctp_BB0_36:
	movb	%sil, (%r15,%rcx)
	movzbl	1(%r15,%rdx), %esi
	cmpl	$13, %esi
	je	Ldcsctp_BB0_30
	cmpl	$32, %esi
	je	Ldcsctp_BB0_30
	leal	-9(%rsi), %r8d
	movl	$1, %edi
	cmpb	$1, %r8b
	jbe	Ldcsctp_BB0_30
	jmp	Ldcsctp_BB0_31
Ldcsctp_BB0_39:
	movq	%r15, %rdi
Ldcsctp_BB0_40:
	callq	_rattle_dealloc
	leaq	l_static.55(%rip), %r13
	movl	$27, %ebp
	jmp	Ldcsctp_BB0_64
Ldcsctp_BB0_41:
	movq	%r15, %rdi
	callq	_rattle_dealloc
	jmp	Ldcsctp_BB0_64
Ldcsctp_BB0_42:
	movq	%r14, %rbx
	leaq	-1(%r14), %r12
	movq	%rdi, %r14
	movq	%r12, %rsi
	callq	___bzero
	movq	%r14, %rdi
Ldcsctp_BB0_43:
	movb	$0, (%rdi,%r12)
	incq	%r12
	cmpq	%r12, %rbx
	jne	Ldcsctp_BB0_62
	xorl	%eax, %eax
	jmp	Ldcsctp_BB0_47
Ldcsctp_BB0_45:
	addb	$-48, %dl
Ldcsctp_BB0_46:
	shlb	$4, %cl
	addb	%dl, %cl
	movb	%cl, (%rdi,%rax)
	incq	%rax
	cmpq	%rax, %r12
	je	Ldcsctp_BB0_72
Ldcsctp_BB0_47:
	movzbl	(%r15,%rax,2), %ecx
	cmpb	$48, %cl
	jb	Ldcsctp_BB0_62
	movzbl	1(%r15,%rax,2), %edx
	cmpb	$57, %cl
	ja	Ldcsctp_BB0_50
	addb	$-48, %cl
	jmp	Ldcsctp_BB0_55
Ldcsctp_BB0_50:
	cmpb	$65, %cl
	jb	Ldcsctp_BB0_62
	cmpb	$70, %cl
	ja	Ldcsctp_BB0_53
	addb	$-55, %cl
	jmp	Ldcsctp_BB0_55
Ldcsctp_BB0_53:
	leal	-97(%rcx), %esi
	cmpb	$5, %sil
	ja	Ldcsctp_BB0_62
	addb	$-87, %cl
Ldcsctp_BB0_55:
	cmpb	$48, %dl
	jb	Ldcsctp_BB0_62
	cmpb	$57, %dl
	jbe	Ldcsctp_BB0_45
	cmpb	$65, %dl
	jb	Ldcsctp_BB0_62
	cmpb	$70, %dl
	ja	Ldcsctp_BB0_60
	addb	$-55, %dl
	jmp	Ldcsctp_BB0_46
Ldcsctp_BB0_60:
	leal	-97(%rdx), %esi
	cmpb	$5, %sil
	ja	Ldcsctp_BB0_62
	addb	$-87, %dl
	jmp	Ldcsctp_BB0_46
Ldcsctp_BB0_62:
	callq	_rattle_dealloc
Ldcsctp_BB0_63:
	movq	%r15, %rdi
	callq	_rattle_dealloc
	leaq	l_static.54(%rip), %r13
	movl	$23, %ebp
Ldcsctp_BB0_64:
	xorl	%r14d, %r14d
	.p2align	4
Ldcsctp_BB0_65:
	leaq	(%r14,%r13), %rsi
	movq	%rbp, %rbx
	subq	%r14, %rbx
	movl	$1, %edi
	movq	%rbx, %rdx
	callq	_rattle_write
	testq	%rax, %rax
	js	Ldcsctp_BB0_69
	cmpq	%rbx, %rax
	cmovbq	%rax, %rbx
	testq	%rbx, %rbx
	je	Ldcsctp_BB0_70
	addq	%rbx, %r14
	cmpq	%rbp, %r14
	jb	Ldcsctp_BB0_65
	movb	$1, %bpl
	jmp	Ldcsctp_BB0_71
Ldcsctp_BB0_69:
	leaq	272(%rsp), %rdi
	callq	_std_io.io.error.last_error
Ldcsctp_BB0_70:
	movb	$2, %bpl
Ldcsctp_BB0_71:
	movzbl	%bpl, %eax
	addq	$360, %rsp
	popq	%rbx
	popq	%r12
	popq	%r13
	popq	%r14
	popq	%r15
	popq	%rbp
	retq
Ldcsctp_BB0_72:
	movq	%rdi, %r14
	movq	%r15, %rdi
	callq	_rattle_dealloc
	leaq	-65536(%rbx), %rax
	cmpq	$-65520, %rax
	jae	Ldcsctp_BB0_74
	movq	%r14, %rdi
	jmp	Ldcsctp_BB0_40
Ldcsctp_BB0_74:
	movq	%r14, 112(%rsp)
	leaq	12(%r14), %r12
	addq	$-12, %rbx
	xorl	%r15d, %r15d
	xorl	%r8d, %r8d
	movq	%r12, 8(%rsp)
	movq	%rbx, 72(%rsp)
	movq	%rbx, %r14
	jmp	Ldcsctp_BB0_77
Ldcsctp_BB0_75:
	movq	80(%rsp), %r8
	testb	%al, %al
	jne	Ldcsctp_BB0_108
Ldcsctp_BB0_76:
	addq	%rbx, %r12
	subq	%rbx, %r14
	incq	%r8
	addq	$64, %r15
	testq	%r14, %r14
	je	Ldcsctp_BB0_104
Ldcsctp_BB0_77:
	cmpq	$4, %r14
	jb	Ldcsctp_BB0_103
	movzwl	2(%r12), %eax
	rolw	$8, %ax
	cmpw	$4, %ax
	jb	Ldcsctp_BB0_103
	movzwl	%ax, %eax
	cmpq	%rax, %r14
	jb	Ldcsctp_BB0_103
	leaq	-4(%rax), %rdx
	leal	3(%rax), %ebx
	andl	$-4, %ebx
	cmpq	%rbx, %r14
	cmovbq	%r14, %rbx
	movzbl	(%r12), %ecx
	cmpq	$130, %rcx
	ja	Ldcsctp_BB0_84
	leaq	4(%r12), %rsi
	leaq	Ldcsctp_JTI0_0(%rip), %rdi
	movslq	(%rdi,%rcx,4), %rcx
	addq	%rdi, %rcx
	jmpq	*%rcx
Ldcsctp_BB0_82:
	movq	%r8, 80(%rsp)
	pxor	%xmm0, %xmm0
	movdqa	%xmm0, 32(%rsp)
	movq	$0, 48(%rsp)
	leaq	32(%rsp), %rdi
	movl	$0, 16(%rsp)
	jmp	Ldcsctp_BB0_91
Ldcsctp_BB0_83:
	testq	%rdx, %rdx
	je	Ldcsctp_BB0_76
	jmp	Ldcsctp_BB0_103
Ldcsctp_BB0_84:
	cmpl	$192, %ecx
	je	Ldcsctp_BB0_101
	cmpl	$194, %ecx
	jne	Ldcsctp_BB0_76
	cmpw	$8, %ax
	jb	Ldcsctp_BB0_103
	andl	$7, %edx
Ldcsctp_BB0_88:
	cmpl	$4, %edx
	je	Ldcsctp_BB0_76
	jmp	Ldcsctp_BB0_103
Ldcsctp_BB0_89:
	cmpw	$20, %ax
	jb	Ldcsctp_BB0_103
	movq	%r8, 80(%rsp)
	pxor	%xmm0, %xmm0
	movdqa	%xmm0, 32(%rsp)
	movq	$0, 48(%rsp)
	leaq	20(%r12), %rsi
	addq	$-20, %rax
	leaq	32(%rsp), %rdi
	movl	$0, 16(%rsp)
	movq	%rax, %rdx
Ldcsctp_BB0_91:
	xorl	%ecx, %ecx
	callq	_dcsctp_tlv.reader.list_check.a9faab4c914c0483
	jmp	Ldcsctp_BB0_94
Ldcsctp_BB0_92:
	testq	%rdx, %rdx
	je	Ldcsctp_BB0_103
Ldcsctp_BB0_93:
	movq	%r8, 80(%rsp)
	pxor	%xmm0, %xmm0
	movdqa	%xmm0, 32(%rsp)
	movq	$0, 48(%rsp)
	leaq	32(%rsp), %rdi
	movl	$0, 16(%rsp)
	xorl	%ecx, %ecx
	callq	_dcsctp_tlv.reader.list_check.a6e1d811d2b3aa55
Ldcsctp_BB0_94:
	movzbl	32(%rsp), %eax
	testb	%al, %al
	je	Ldcsctp_BB0_75
	movl	48(%rsp), %ecx
	movl	%ecx, 16(%rsp)
	jmp	Ldcsctp_BB0_75
Ldcsctp_BB0_96:
	cmpw	$20, %ax
	jae	Ldcsctp_BB0_76
	jmp	Ldcsctp_BB0_103
Ldcsctp_BB0_97:
	testq	%rdx, %rdx
	jne	Ldcsctp_BB0_76
	jmp	Ldcsctp_BB0_103
Ldcsctp_BB0_98:
	cmpw	$16, %ax
	jae	Ldcsctp_BB0_76
	jmp	Ldcsctp_BB0_103
Ldcsctp_BB0_99:
	cmpw	$16, %ax
	jb	Ldcsctp_BB0_103
	movl	12(%r12), %eax
	bswapl	%eax
	movzwl	%ax, %ecx
	shrl	$16, %eax
	addl	%eax, %ecx
	leal	12(,%rcx,4), %eax
	cmpl	%eax, %edx
	je	Ldcsctp_BB0_76
	jmp	Ldcsctp_BB0_103
Ldcsctp_BB0_101:
	cmpw	$8, %ax
	jb	Ldcsctp_BB0_103
	andl	$3, %eax
	je	Ldcsctp_BB0_76
Ldcsctp_BB0_103:
	movq	112(%rsp), %rdi
	callq	_rattle_dealloc
	leaq	l_static.58(%rip), %r13
	movl	$29, %ebp
	jmp	Ldcsctp_BB0_64
Ldcsctp_BB0_104:
	testq	%r8, %r8
	movq	%r8, 80(%rsp)
	je	Ldcsctp_BB0_109
	movq	%r8, %rax
	shrq	$57, %rax
	movq	112(%rsp), %rbx
	jne	Ldcsctp_BB0_338
	movl	$8, %esi
	movq	%r15, %rdi
	callq	_rattle_alloc
	testb	$1, %al
	je	Ldcsctp_BB0_338
	movq	%rdx, %r14
	jmp	Ldcsctp_BB0_110
Ldcsctp_BB0_108:
	movq	112(%rsp), %rdi
	callq	_rattle_dealloc
	leaq	l_switch.table.sctp_show.main.start(%rip), %rax
	movzbl	16(%rsp), %ecx
	movq	(%rax,%rcx,8), %rbp
	leaq	l_switch.table.sctp_show.main.start.391.rel(%rip), %rax
	movslq	(%rax,%rcx,4), %r13
	addq	%rax, %r13
	jmp	Ldcsctp_BB0_64
Ldcsctp_BB0_109:
	movq	%rsp, %r14
Ldcsctp_BB0_110:
	xorl	%r15d, %r15d
	movq	72(%rsp), %rcx
	movq	8(%rsp), %r12
	movq	%r14, 104(%rsp)
	jmp	Ldcsctp_BB0_117
Ldcsctp_BB0_111:
	movq	%r15, %rax
	shlq	$6, %rax
	movw	$14, (%r14,%rax)
Ldcsctp_BB0_112:
	movl	$0, 4(%r14,%rax)
	leaq	(%r14,%rax), %rdi
	addq	$8, %rdi
	movq	%rsp, %rcx
	movq	%rcx, 8(%r14,%rax)
	pxor	%xmm0, %xmm0
	movdqu	%xmm0, 16(%r14,%rax)
	movdqu	%xmm0, 32(%r14,%rax)
	movdqu	%xmm0, 48(%r14,%rax)
	movq	%r9, %rbx
Ldcsctp_BB0_113:
	callq	_dcsctp_tlv.parameter.parameters_fill
Ldcsctp_BB0_114:
	movq	%rbx, %r9
Ldcsctp_BB0_115:
	movq	72(%rsp), %rcx
Ldcsctp_BB0_116:
	addq	%r9, %r12
	subq	%r9, %rcx
	incq	%r15
	testb	%al, %al
	jne	Ldcsctp_BB0_318
Ldcsctp_BB0_117:
	testq	%rcx, %rcx
	je	Ldcsctp_BB0_293
	movzwl	2(%r12), %eax
	rolw	$8, %ax
	movzwl	%ax, %r8d
	leaq	4(%r12), %rsi
	movl	%r8d, %r9d
	addl	$3, %r9d
	andl	$-4, %r9d
	cmpq	%r9, %rcx
	movq	%rcx, 72(%rsp)
	cmovbq	%rcx, %r9
	leaq	-4(%r8), %rdx
	movzbl	(%r12), %ebx
	movzbl	1(%r12), %edi
	cmpq	$130, %rbx
	ja	Ldcsctp_BB0_124
	movzbl	%dil, %r10d
	leaq	Ldcsctp_JTI0_1(%rip), %rax
	movslq	(%rax,%rbx,4), %rcx
	addq	%rax, %rcx
	jmpq	*%rcx
Ldcsctp_BB0_120:
	movl	%r10d, 144(%rsp)
	movb	%dil, 96(%rsp)
	movq	%r9, 16(%rsp)
	movq	%r15, 64(%rsp)
	movl	4(%r12), %eax
	movl	%eax, 8(%rsp)
	movl	12(%r12), %eax
	movl	%eax, 120(%rsp)
	movq	%r12, %rbx
	movd	8(%r12), %xmm0
	movdqa	%xmm0, 128(%rsp)
	movq	%r8, 24(%rsp)
	movq	%r8, %r14
	addq	$-16, %r14
	je	Ldcsctp_BB0_171
	cmpw	$16, 24(%rsp)
	jb	Ldcsctp_BB0_317
	movl	$1, %esi
	movq	%r14, %rdi
	callq	_rattle_alloc
	testb	$1, %al
	je	Ldcsctp_BB0_317
	movq	%rdx, %r15
	jmp	Ldcsctp_BB0_172
Ldcsctp_BB0_124:
	cmpl	$192, %ebx
	je	Ldcsctp_BB0_161
	cmpl	$194, %ebx
	jne	Ldcsctp_BB0_131
	movq	%rsi, %r14
	movq	%r9, 16(%rsp)
	leaq	-8(%r8), %rax
	movq	%rax, %rbx
	shrq	$3, %rbx
	je	Ldcsctp_BB0_188
	movabsq	$6148914691236517207, %rcx
	cmpq	%rcx, %rax
	ja	Ldcsctp_BB0_318
	leaq	(,%rbx,4), %rax
	leaq	(%rax,%rax,2), %rdi
	movl	$4, %esi
	callq	_rattle_alloc
	testb	$1, %al
	je	Ldcsctp_BB0_318
	leaq	8(%rdx), %rax
	xorl	%ecx, %ecx
	movq	%r12, %r9
Ldcsctp_BB0_130:
	movzwl	8(%r9,%rcx,8), %esi
	rolw	$8, %si
	movzbl	11(%r9,%rcx,8), %edi
	andl	$1, %edi
	movl	12(%r9,%rcx,8), %r8d
	bswapl	%r8d
	movw	$1, -8(%rax)
	movw	%di, -6(%rax)
	movw	%si, -4(%rax)
	movl	%r8d, (%rax)
	incq	%rcx
	addq	$12, %rax
	cmpq	%rcx, %rbx
	jne	Ldcsctp_BB0_130
	jmp	Ldcsctp_BB0_189
Ldcsctp_BB0_131:
	movq	%rsi, 144(%rsp)
	movb	%dil, 96(%rsp)
	movq	%r9, 16(%rsp)
	movq	%r15, 64(%rsp)
	movq	%r12, 8(%rsp)
	movq	%rdx, %r14
	testq	%rdx, %rdx
	movq	%r8, 24(%rsp)
	je	Ldcsctp_BB0_166
	cmpw	$4, %r8w
	jb	Ldcsctp_BB0_317
	movl	$1, %esi
	movq	%r14, %rdi
	callq	_rattle_alloc
	testb	$1, %al
	je	Ldcsctp_BB0_317
	movq	%rdx, %r15
	jmp	Ldcsctp_BB0_167
Ldcsctp_BB0_135:
	movq	%r15, %rax
	shlq	$6, %rax
	movw	$9, (%r14,%rax)
	movl	$0, 4(%r14,%rax)
	leaq	(%r14,%rax), %rdi
	addq	$8, %rdi
	movq	%rsp, %rcx
	movq	%rcx, 8(%r14,%rax)
	pxor	%xmm0, %xmm0
	movdqu	%xmm0, 16(%r14,%rax)
	movdqu	%xmm0, 32(%r14,%rax)
	movdqu	%xmm0, 48(%r14,%rax)
	jmp	Ldcsctp_BB0_144
Ldcsctp_BB0_136:
	andb	$1, %dil
	movq	%r15, %rax
	shlq	$6, %rax
	movb	$12, (%r14,%rax)
	movb	%dil, 1(%r14,%rax)
	jmp	Ldcsctp_BB0_159
Ldcsctp_BB0_137:
	movq	%r15, %rax
	shlq	$6, %rax
	movw	$8, (%r14,%rax)
	jmp	Ldcsctp_BB0_159
Ldcsctp_BB0_138:
	movl	16(%r12), %eax
	bswapl	%eax
	movq	%r15, %rcx
	shlq	$6, %rcx
	movd	12(%r12), %xmm0
	pshufb	Ldcsctp_CPI0_0(%rip), %xmm0
	movq	4(%r12), %xmm1
	pshufb	Ldcsctp_CPI0_1(%rip), %xmm1
	movw	$1, (%r14,%rcx)
	jmp	Ldcsctp_BB0_146
Ldcsctp_BB0_139:
	movl	%r10d, 144(%rsp)
	movq	%r9, 16(%rsp)
	movq	%r15, 64(%rsp)
	movzwl	8(%r12), %eax
	movw	%ax, 126(%rsp)
	xorl	%eax, %eax
	movb	%dil, 96(%rsp)
	andb	$2, %dil
	movb	%dil, 95(%rsp)
	movl	4(%r12), %ecx
	movl	%ecx, 120(%rsp)
	movl	12(%r12), %ecx
	movl	%ecx, 172(%rsp)
	movq	%r12, 8(%rsp)
	movl	16(%r12), %edx
	bswapl	%edx
	movl	%edx, %ecx
	cmovel	%eax, %ecx
	movl	%ecx, 168(%rsp)
	cmovnel	%eax, %edx
	movl	%edx, 164(%rsp)
	movq	%r8, 24(%rsp)
	addq	$-20, %r8
	movq	%r8, 128(%rsp)
	je	Ldcsctp_BB0_176
	cmpw	$20, 24(%rsp)
	jb	Ldcsctp_BB0_317
	movl	$1, %esi
	movq	128(%rsp), %rdi
	callq	_rattle_alloc
	testb	$1, %al
	je	Ldcsctp_BB0_317
	movq	%rdx, %r15
	jmp	Ldcsctp_BB0_177
Ldcsctp_BB0_143:
	andb	$1, %dil
	movq	%r15, %rax
	shlq	$6, %rax
	movw	$6, (%r14,%rax)
	movl	$0, 4(%r14,%rax)
	movb	%dil, 8(%r14,%rax)
	movl	$0, 9(%r14,%rax)
	movl	$0, 12(%r14,%rax)
	leaq	16(%r14,%rax), %rdi
	movq	%rsp, %rcx
	movq	%rcx, 16(%r14,%rax)
	pxor	%xmm0, %xmm0
	movdqu	%xmm0, 24(%r14,%rax)
	movdqu	%xmm0, 40(%r14,%rax)
	movq	$0, 56(%r14,%rax)
Ldcsctp_BB0_144:
	movq	%r9, %rbx
	callq	_dcsctp_cause.error_causes.error_cause_fill
	jmp	Ldcsctp_BB0_114
Ldcsctp_BB0_145:
	movl	16(%r12), %eax
	bswapl	%eax
	movq	%r15, %rcx
	shlq	$6, %rcx
	movd	12(%r12), %xmm0
	pshufb	Ldcsctp_CPI0_0(%rip), %xmm0
	movq	4(%r12), %xmm1
	pshufb	Ldcsctp_CPI0_1(%rip), %xmm1
	movw	$2, (%r14,%rcx)
Ldcsctp_BB0_146:
	movl	$0, 4(%r14,%rcx)
	movq	%xmm1, 8(%r14,%rcx)
	movd	%xmm0, 16(%r14,%rcx)
	movl	%eax, 20(%r14,%rcx)
	leaq	(%r14,%rcx), %rdi
	addq	$24, %rdi
	movq	%rsp, %rax
	movq	%rax, 24(%r14,%rcx)
	pxor	%xmm0, %xmm0
	movdqu	%xmm0, 32(%r14,%rcx)
	movdqu	%xmm0, 48(%r14,%rcx)
	leaq	20(%r12), %rsi
	movq	%r9, %rbx
	leaq	-20(%r8), %rdx
	jmp	Ldcsctp_BB0_113
Ldcsctp_BB0_147:
	movq	%r9, 16(%rsp)
	movq	%r15, 64(%rsp)
	movq	%r12, %rcx
	movl	12(%r12), %r12d
	bswapl	%r12d
	movl	%r12d, %r14d
	shrl	$16, %r14d
	movq	4(%rcx), %xmm0
	movdqa	%xmm0, 144(%rsp)
	movq	%rcx, 8(%rsp)
	leaq	16(%rcx), %rbx
	movq	%rsp, %r15
	testl	%r14d, %r14d
	je	Ldcsctp_BB0_181
	leal	(,%r14,4), %edi
	movl	$2, %esi
	movq	%rdi, 96(%rsp)
	callq	_rattle_alloc
	movq	%rdx, 24(%rsp)
	testb	$1, %al
	je	Ldcsctp_BB0_317
	cmpl	$524288, %r12d
	jb	Ldcsctp_BB0_150
	movq	24(%rsp), %rax
	subq	8(%rsp), %rax
	addq	$-16, %rax
	cmpq	$32, %rax
	jae	Ldcsctp_BB0_208
Ldcsctp_BB0_150:
	xorl	%eax, %eax
Ldcsctp_BB0_211:
	movq	%rax, %rcx
	testb	$1, %r14b
	je	Ldcsctp_BB0_213
	leal	(,%rax,4), %ecx
	movl	(%rbx,%rcx), %edx
	bswapl	%edx
	shldl	$16, %edx, %edx
	movq	24(%rsp), %rsi
	movl	%edx, (%rsi,%rcx)
	movq	%rax, %rcx
	orq	$1, %rcx
Ldcsctp_BB0_213:
	leal	-1(%r14), %edx
	cmpl	%edx, %eax
	je	Ldcsctp_BB0_216
	movq	8(%rsp), %rdx
	movq	24(%rsp), %rsi
Ldcsctp_BB0_215:
	movl	16(%rdx,%rcx,4), %eax
	bswapl	%eax
	shldl	$16, %eax, %eax
	movl	%eax, (%rsi,%rcx,4)
	movl	20(%rdx,%rcx,4), %eax
	bswapl	%eax
	shldl	$16, %eax, %eax
	movl	%eax, 4(%rsi,%rcx,4)
	addq	$2, %rcx
	cmpq	%rcx, %r14
	jne	Ldcsctp_BB0_215
	jmp	Ldcsctp_BB0_216
Ldcsctp_BB0_151:
	movq	%r15, %rax
	shlq	$6, %rax
	movw	$4, (%r14,%rax)
	jmp	Ldcsctp_BB0_112
Ldcsctp_BB0_152:
	movl	(%rsi), %eax
	bswapl	%eax
	movq	%r15, %rcx
	shlq	$6, %rcx
	movw	$7, (%r14,%rcx)
	movl	%eax, 4(%r14,%rcx)
	pxor	%xmm0, %xmm0
	movdqu	%xmm0, 8(%r14,%rcx)
	movdqu	%xmm0, 24(%r14,%rcx)
	movdqu	%xmm0, 40(%r14,%rcx)
	movq	$0, 56(%r14,%rcx)
	jmp	Ldcsctp_BB0_160
Ldcsctp_BB0_153:
	movq	%r15, %rax
	shlq	$6, %rax
	movw	$5, (%r14,%rax)
	jmp	Ldcsctp_BB0_112
Ldcsctp_BB0_154:
	movq	%rsi, %rbx
	movq	%r8, 24(%rsp)
	movq	%r9, 16(%rsp)
	movq	%r15, 64(%rsp)
	movq	%r12, 8(%rsp)
	movq	%rdx, %r14
	testq	%rdx, %rdx
	je	Ldcsctp_BB0_182
	cmpw	$4, 24(%rsp)
	jb	Ldcsctp_BB0_317
	movl	$1, %esi
	movq	%r14, %rdi
	callq	_rattle_alloc
	testb	$1, %al
	je	Ldcsctp_BB0_317
	movq	%rdx, %r15
	jmp	Ldcsctp_BB0_183
Ldcsctp_BB0_158:
	movq	%r15, %rax
	shlq	$6, %rax
	movw	$11, (%r14,%rax)
Ldcsctp_BB0_159:
	pxor	%xmm0, %xmm0
	movdqu	%xmm0, 4(%r14,%rax)
	movdqu	%xmm0, 20(%r14,%rax)
	movdqu	%xmm0, 36(%r14,%rax)
	movdqu	%xmm0, 48(%r14,%rax)
Ldcsctp_BB0_160:
	xorl	%eax, %eax
	jmp	Ldcsctp_BB0_115
Ldcsctp_BB0_161:
	movq	%rsi, %r14
	movq	%r9, 16(%rsp)
	leaq	-8(%r8), %rax
	movq	%rax, %rbx
	shrq	$2, %rbx
	je	Ldcsctp_BB0_187
	movabsq	$3074457345618258603, %rcx
	cmpq	%rcx, %rax
	ja	Ldcsctp_BB0_318
	leaq	(,%rbx,4), %rax
	leaq	(%rax,%rax,2), %rdi
	movl	$4, %esi
	callq	_rattle_alloc
	testb	$1, %al
	je	Ldcsctp_BB0_318
	cmpq	$1, %rbx
	jne	Ldcsctp_BB0_194
	xorl	%eax, %eax
	jmp	Ldcsctp_BB0_197
Ldcsctp_BB0_166:
	movq	%rsp, %r15
Ldcsctp_BB0_167:
	movq	%r15, %rax
	movq	144(%rsp), %rsi
	subq	%rsi, %rax
	movq	%r14, %rdx
	cmpq	%r14, %rax
	jae	Ldcsctp_BB0_170
	cmpl	$4, %edx
	jb	Ldcsctp_BB0_169
	movq	%r15, %rax
	subq	8(%rsp), %rax
	addq	$-4, %rax
	cmpq	$32, %rax
	jae	Ldcsctp_BB0_206
Ldcsctp_BB0_169:
	xorl	%eax, %eax
Ldcsctp_BB0_246:
	movq	24(%rsp), %rdx
	movq	%rax, %rcx
	andq	$3, %rdx
	movq	144(%rsp), %rdi
	je	Ldcsctp_BB0_249
	movq	%rax, %rcx
Ldcsctp_BB0_248:
	movzbl	(%rdi,%rcx), %esi
	movb	%sil, (%r15,%rcx)
	incq	%rcx
	decq	%rdx
	jne	Ldcsctp_BB0_248
Ldcsctp_BB0_249:
	negq	%rax
	movq	24(%rsp), %rdx
	addq	%rdx, %rax
	addq	$-5, %rax
	cmpl	$3, %eax
	movq	8(%rsp), %r12
	movq	%r14, %rsi
	jb	Ldcsctp_BB0_251
Ldcsctp_BB0_250:
	movzbl	4(%r12,%rcx), %eax
	movb	%al, (%r15,%rcx)
	movzbl	5(%r12,%rcx), %eax
	movb	%al, 1(%r15,%rcx)
	movzbl	6(%r12,%rcx), %eax
	movb	%al, 2(%r15,%rcx)
	movzbl	7(%r12,%rcx), %eax
	movb	%al, 3(%r15,%rcx)
	addq	$4, %rcx
	cmpq	%rcx, %rsi
	jne	Ldcsctp_BB0_250
	jmp	Ldcsctp_BB0_251
Ldcsctp_BB0_170:
	movq	%r15, %rdi
	callq	_memmove
	movq	%r14, %rsi
	movq	8(%rsp), %r12
Ldcsctp_BB0_251:
	movq	64(%rsp), %rcx
	movq	%rcx, %rax
	shlq	$6, %rax
	movq	104(%rsp), %r14
	movw	$17, (%r14,%rax)
	movl	$0, 4(%r14,%rax)
	movb	%bl, 8(%r14,%rax)
	movzbl	96(%rsp), %edx
	movb	%dl, 9(%r14,%rax)
	movl	$0, 10(%r14,%rax)
	movw	$0, 14(%r14,%rax)
	movq	%r15, 16(%r14,%rax)
	movq	%rcx, %r15
	movq	%rsi, 24(%r14,%rax)
	movq	%rsi, 32(%r14,%rax)
	pxor	%xmm0, %xmm0
	movdqu	%xmm0, 40(%r14,%rax)
	movq	$0, 56(%r14,%rax)
	jmp	Ldcsctp_BB0_291
Ldcsctp_BB0_171:
	movq	%rsp, %r15
Ldcsctp_BB0_172:
	leaq	16(%rbx), %rsi
	movq	%r15, %rax
	subq	%rsi, %rax
	movq	%r14, %rdx
	cmpq	%r14, %rax
	jae	Ldcsctp_BB0_175
	cmpq	$4, %rdx
	jb	Ldcsctp_BB0_174
	movq	%r15, %rax
	subq	%rbx, %rax
	addq	$-16, %rax
	cmpq	$32, %rax
	jae	Ldcsctp_BB0_233
Ldcsctp_BB0_174:
	xorl	%eax, %eax
Ldcsctp_BB0_259:
	movq	24(%rsp), %rdx
	movq	%rax, %rcx
	andq	$3, %rdx
	je	Ldcsctp_BB0_262
	movq	%rax, %rcx
Ldcsctp_BB0_261:
	movzbl	(%rsi,%rcx), %edi
	movb	%dil, (%r15,%rcx)
	incq	%rcx
	decq	%rdx
	jne	Ldcsctp_BB0_261
Ldcsctp_BB0_262:
	movq	24(%rsp), %rdx
	subq	%rax, %rdx
	addq	$-17, %rdx
	cmpq	$3, %rdx
	movq	%rbx, %r12
	movq	%r14, %r11
	jb	Ldcsctp_BB0_264
Ldcsctp_BB0_263:
	movzbl	16(%r12,%rcx), %eax
	movb	%al, (%r15,%rcx)
	movzbl	17(%r12,%rcx), %eax
	movb	%al, 1(%r15,%rcx)
	movzbl	18(%r12,%rcx), %eax
	movb	%al, 2(%r15,%rcx)
	movzbl	19(%r12,%rcx), %eax
	movb	%al, 3(%r15,%rcx)
	addq	$4, %rcx
	cmpq	%rcx, %r11
	jne	Ldcsctp_BB0_263
	jmp	Ldcsctp_BB0_264
Ldcsctp_BB0_175:
	movq	%r15, %rdi
	callq	_memmove
	movq	%r14, %r11
	movq	%rbx, %r12
Ldcsctp_BB0_264:
	movl	8(%rsp), %r10d
	bswapl	%r10d
	movdqa	128(%rsp), %xmm0
	pshufb	Ldcsctp_CPI0_2(%rip), %xmm0
	movl	120(%rsp), %ebx
	bswapl	%ebx
	movzwl	144(%rsp), %eax
	shrl	$2, %eax
	andl	$1, %eax
	movzbl	96(%rsp), %r9d
	movl	%r9d, %ecx
	shrb	%cl
	andb	$1, %cl
	movl	%r9d, %edx
	andb	$1, %dl
	shrb	$3, %r9b
	andb	$1, %r9b
	movq	64(%rsp), %r8
	movq	%r8, %rsi
	shlq	$6, %rsi
	movq	104(%rsp), %r14
	movw	$0, (%r14,%rsi)
	movl	$0, 4(%r14,%rsi)
	movq	%r15, 8(%r14,%rsi)
	movq	%r8, %r15
	movq	%r11, 16(%r14,%rsi)
	movq	%r11, 24(%r14,%rsi)
	movq	$0, 32(%r14,%rsi)
	movl	%ebx, 40(%r14,%rsi)
	movw	%ax, 44(%r14,%rsi)
	movd	%xmm0, 46(%r14,%rsi)
	movb	%cl, 50(%r14,%rsi)
	movb	%dl, 51(%r14,%rsi)
	movl	$0, 52(%r14,%rsi)
	movl	%r10d, 56(%r14,%rsi)
	movb	%r9b, 60(%r14,%rsi)
	movw	$0, 61(%r14,%rsi)
	movb	$0, 63(%r14,%rsi)
	jmp	Ldcsctp_BB0_291
Ldcsctp_BB0_176:
	movq	%rsp, %r15
Ldcsctp_BB0_177:
	movq	8(%rsp), %rax
	leaq	20(%rax), %rsi
	movq	%r15, %rax
	subq	%rsi, %rax
	movq	128(%rsp), %r14
	cmpq	%r14, %rax
	jae	Ldcsctp_BB0_180
	cmpq	$4, %r14
	jb	Ldcsctp_BB0_179
	movq	%r15, %rax
	subq	8(%rsp), %rax
	addq	$-20, %rax
	cmpq	$32, %rax
	jae	Ldcsctp_BB0_235
Ldcsctp_BB0_179:
	xorl	%eax, %eax
Ldcsctp_BB0_272:
	movq	24(%rsp), %rdx
	movq	%rax, %rcx
	andq	$3, %rdx
	je	Ldcsctp_BB0_275
	movq	%rax, %rcx
Ldcsctp_BB0_274:
	movzbl	(%rsi,%rcx), %edi
	movb	%dil, (%r15,%rcx)
	incq	%rcx
	decq	%rdx
	jne	Ldcsctp_BB0_274
Ldcsctp_BB0_275:
	movq	24(%rsp), %rdx
	subq	%rax, %rdx
	addq	$-21, %rdx
	cmpq	$3, %rdx
	movq	8(%rsp), %rdi
	movq	128(%rsp), %r14
	jb	Ldcsctp_BB0_277
Ldcsctp_BB0_276:
	movzbl	20(%rdi,%rcx), %eax
	movb	%al, (%r15,%rcx)
	movzbl	21(%rdi,%rcx), %eax
	movb	%al, 1(%r15,%rcx)
	movzbl	22(%rdi,%rcx), %eax
	movb	%al, 2(%r15,%rcx)
	movzbl	23(%rdi,%rcx), %eax
	movb	%al, 3(%r15,%rcx)
	addq	$4, %rcx
	cmpq	%rcx, %r14
	jne	Ldcsctp_BB0_276
	jmp	Ldcsctp_BB0_277
Ldcsctp_BB0_180:
	movq	%r15, %rdi
	movq	%r14, %rdx
	callq	_memmove
	movq	8(%rsp), %rdi
Ldcsctp_BB0_277:
	movzwl	126(%rsp), %r11d
	rolw	$8, %r11w
	movl	120(%rsp), %r10d
	bswapl	%r10d
	movl	172(%rsp), %r12d
	bswapl	%r12d
	movzwl	144(%rsp), %eax
	shrl	$2, %eax
	andl	$1, %eax
	movzbl	95(%rsp), %ebx
	shrb	%bl
	movzbl	96(%rsp), %r9d
	movl	%r9d, %ecx
	andb	$1, %cl
	shrb	$3, %r9b
	andb	$1, %r9b
	movq	64(%rsp), %r8
	movq	%r8, %rdx
	shlq	$6, %rdx
	movq	104(%rsp), %rsi
	movw	$13, (%rsi,%rdx)
	movl	$0, 4(%rsi,%rdx)
	movq	%r15, 8(%rsi,%rdx)
	movq	%r8, %r15
	movq	%r14, 16(%rsi,%rdx)
	movq	%r14, 24(%rsi,%rdx)
	movl	%r12d, 32(%rsi,%rdx)
	movl	164(%rsp), %r8d
	movl	%r8d, 36(%rsi,%rdx)
	movl	168(%rsp), %r8d
	movl	%r8d, 40(%rsi,%rdx)
	movw	%ax, 44(%rsi,%rdx)
	movw	%r11w, 46(%rsi,%rdx)
	movw	$0, 48(%rsi,%rdx)
	movb	%bl, 50(%rsi,%rdx)
	movq	%rsi, %r14
	movb	%cl, 51(%rsi,%rdx)
	movl	$0, 52(%rsi,%rdx)
	movl	%r10d, 56(%rsi,%rdx)
	movb	%r9b, 60(%rsi,%rdx)
	movw	$0, 61(%rsi,%rdx)
	movb	$0, 63(%rsi,%rdx)
	xorl	%eax, %eax
	movq	72(%rsp), %rcx
	movq	%rdi, %r12
	jmp	Ldcsctp_BB0_292
Ldcsctp_BB0_181:
	movq	$0, 96(%rsp)
	movq	%r15, 24(%rsp)
Ldcsctp_BB0_216:
	movzwl	%r12w, %r12d
	testl	%r12d, %r12d
	je	Ldcsctp_BB0_220
	leal	(,%r12,4), %edi
	movl	$4, %esi
	callq	_rattle_alloc
	testb	$1, %al
	je	Ldcsctp_BB0_312
	movq	%rdx, %r15
	cmpl	$8, %r12d
	jb	Ldcsctp_BB0_219
	movq	8(%rsp), %rax
	movq	96(%rsp), %rcx
	addq	%rcx, %rax
	movq	%r15, %rcx
	subq	%rax, %rcx
	addq	$-16, %rcx
	cmpq	$32, %rcx
	jae	Ldcsctp_BB0_223
Ldcsctp_BB0_219:
	xorl	%eax, %eax
Ldcsctp_BB0_226:
	movq	%r12, %rdx
	movq	%rax, %rcx
	andq	$3, %rdx
	je	Ldcsctp_BB0_229
	addq	96(%rsp), %rbx
	movq	%rax, %rcx
Ldcsctp_BB0_228:
	movl	(%rbx,%rcx,4), %esi
	bswapl	%esi
	movl	%esi, (%r15,%rcx,4)
	incq	%rcx
	decq	%rdx
	jne	Ldcsctp_BB0_228
Ldcsctp_BB0_229:
	subl	%r12d, %eax
	cmpl	$-4, %eax
	ja	Ldcsctp_BB0_232
	movq	8(%rsp), %rax
	movq	96(%rsp), %rdx
	addq	%rdx, %rax
	addq	$28, %rax
Ldcsctp_BB0_231:
	movl	-12(%rax,%rcx,4), %edx
	bswapl	%edx
	movl	%edx, (%r15,%rcx,4)
	movl	-8(%rax,%rcx,4), %edx
	bswapl	%edx
	movl	%edx, 4(%r15,%rcx,4)
	movl	-4(%rax,%rcx,4), %edx
	bswapl	%edx
	movl	%edx, 8(%r15,%rcx,4)
	movl	(%rax,%rcx,4), %edx
	bswapl	%edx
	movl	%edx, 12(%r15,%rcx,4)
	addq	$4, %rcx
	cmpq	%rcx, %r12
	jne	Ldcsctp_BB0_231
	jmp	Ldcsctp_BB0_232
Ldcsctp_BB0_182:
	movq	%rsp, %r15
Ldcsctp_BB0_183:
	movq	%r15, %rax
	subq	%rbx, %rax
	movq	%r14, %rdx
	cmpq	%r14, %rax
	jae	Ldcsctp_BB0_186
	cmpl	$4, %edx
	jb	Ldcsctp_BB0_185
	movq	%r15, %rax
	subq	8(%rsp), %rax
	addq	$-4, %rax
	cmpq	$32, %rax
	jae	Ldcsctp_BB0_237
Ldcsctp_BB0_185:
	xorl	%eax, %eax
Ldcsctp_BB0_285:
	movq	24(%rsp), %rdx
	movq	%rax, %rcx
	andq	$3, %rdx
	je	Ldcsctp_BB0_288
	movq	%rax, %rcx
Ldcsctp_BB0_287:
	movzbl	(%rbx,%rcx), %esi
	movb	%sil, (%r15,%rcx)
	incq	%rcx
	decq	%rdx
	jne	Ldcsctp_BB0_287
Ldcsctp_BB0_288:
	negq	%rax
	movq	24(%rsp), %rdx
	addq	%rdx, %rax
	addq	$-5, %rax
	cmpl	$3, %eax
	movq	8(%rsp), %r12
	movq	%r14, %rdx
	jb	Ldcsctp_BB0_290
Ldcsctp_BB0_289:
	movzbl	4(%r12,%rcx), %eax
	movb	%al, (%r15,%rcx)
	movzbl	5(%r12,%rcx), %eax
	movb	%al, 1(%r15,%rcx)
	movzbl	6(%r12,%rcx), %eax
	movb	%al, 2(%r15,%rcx)
	movzbl	7(%r12,%rcx), %eax
	movb	%al, 3(%r15,%rcx)
	addq	$4, %rcx
	cmpq	%rcx, %rdx
	jne	Ldcsctp_BB0_289
	jmp	Ldcsctp_BB0_290
Ldcsctp_BB0_186:
	movq	%r15, %rdi
	movq	%rbx, %rsi
	callq	_memmove
	movq	%r14, %rdx
	movq	8(%rsp), %r12
Ldcsctp_BB0_290:
	movq	64(%rsp), %rcx
	movq	%rcx, %rax
	shlq	$6, %rax
	movq	104(%rsp), %r14
	movw	$10, (%r14,%rax)
	movl	$0, 4(%r14,%rax)
	movq	%r15, 8(%r14,%rax)
	movq	%rcx, %r15
	movq	%rdx, 16(%r14,%rax)
	movq	%rdx, 24(%r14,%rax)
	pxor	%xmm0, %xmm0
	movdqu	%xmm0, 32(%r14,%rax)
	movdqu	%xmm0, 48(%r14,%rax)
	jmp	Ldcsctp_BB0_291
Ldcsctp_BB0_220:
	xorl	%r12d, %r12d
Ldcsctp_BB0_232:
	movdqa	144(%rsp), %xmm0
	pshufb	Ldcsctp_CPI0_3(%rip), %xmm0
	movq	64(%rsp), %rdx
	movq	%rdx, %rax
	shlq	$6, %rax
	movq	104(%rsp), %rcx
	movw	$3, (%rcx,%rax)
	movl	$0, 4(%rcx,%rax)
	movq	%xmm0, 8(%rcx,%rax)
	movq	24(%rsp), %rsi
	movq	%rsi, 16(%rcx,%rax)
	movq	%r14, 24(%rcx,%rax)
	movq	%r14, 32(%rcx,%rax)
	movq	%rcx, %r14
	movq	%r15, 40(%rcx,%rax)
	movq	%rdx, %r15
	movq	%r12, 48(%rcx,%rax)
	movq	%r12, 56(%rcx,%rax)
	xorl	%eax, %eax
	movq	72(%rsp), %rcx
	movq	8(%rsp), %r12
	jmp	Ldcsctp_BB0_292
Ldcsctp_BB0_187:
	movq	%rsp, %rdx
	jmp	Ldcsctp_BB0_198
Ldcsctp_BB0_188:
	movq	%rsp, %rdx
Ldcsctp_BB0_189:
	movl	(%r14), %eax
	bswapl	%eax
	movq	%r15, %rcx
	shlq	$6, %rcx
	movq	104(%rsp), %r14
	movw	$16, (%r14,%rcx)
	jmp	Ldcsctp_BB0_199
Ldcsctp_BB0_194:
	movabsq	$1152921504606846974, %rcx
	andq	%rbx, %rcx
	xorl	%eax, %eax
	movq	%rdx, %rsi
Ldcsctp_BB0_195:
	movd	8(%r12,%rax,4), %xmm0
	movdqa	Ldcsctp_CPI0_2(%rip), %xmm1
	pshufb	%xmm1, %xmm0
	movw	$0, (%rsi)
	movd	%xmm0, 2(%rsi)
	movl	$0, 8(%rsi)
	movd	12(%r12,%rax,4), %xmm0
	pshufb	%xmm1, %xmm0
	movw	$0, 12(%rsi)
	movd	%xmm0, 14(%rsi)
	movl	$0, 20(%rsi)
	addq	$2, %rax
	addq	$24, %rsi
	cmpq	%rax, %rcx
	jne	Ldcsctp_BB0_195
	testb	$1, %bl
	je	Ldcsctp_BB0_198
Ldcsctp_BB0_197:
	movd	8(%r12,%rax,4), %xmm0
	pshufb	Ldcsctp_CPI0_0(%rip), %xmm0
	leaq	(%rax,%rax,2), %rax
	movw	$0, (%rdx,%rax,4)
	movd	%xmm0, 2(%rdx,%rax,4)
	movl	$0, 8(%rdx,%rax,4)
Ldcsctp_BB0_198:
	movl	(%r14), %eax
	bswapl	%eax
	movq	%r15, %rcx
	shlq	$6, %rcx
	movq	104(%rsp), %r14
	movw	$15, (%r14,%rcx)
Ldcsctp_BB0_199:
	movl	$0, 4(%r14,%rcx)
	movl	%eax, 8(%r14,%rcx)
	movl	$0, 12(%r14,%rcx)
	movq	%rdx, 16(%r14,%rcx)
	movq	%rbx, 24(%r14,%rcx)
	movq	%rbx, 32(%r14,%rcx)
	pxor	%xmm0, %xmm0
	movdqu	%xmm0, 40(%r14,%rcx)
	movq	$0, 56(%r14,%rcx)
Ldcsctp_BB0_291:
	xorl	%eax, %eax
	movq	72(%rsp), %rcx
Ldcsctp_BB0_292:
	movq	16(%rsp), %r9
	jmp	Ldcsctp_BB0_116
Ldcsctp_BB0_206:
	cmpl	$32, %r14d
	jae	Ldcsctp_BB0_239
	xorl	%eax, %eax
	movq	%r14, %rsi
	jmp	Ldcsctp_BB0_243
Ldcsctp_BB0_208:
	movl	%r14d, %eax
	andl	$-8, %eax
	movl	%r12d, %ecx
	shrl	$14, %ecx
	andl	$-32, %ecx
	xorl	%edx, %edx
	movq	8(%rsp), %rsi
	movq	24(%rsp), %rdi
Ldcsctp_BB0_209:
	movdqu	16(%rsi,%rdx), %xmm0
	movdqu	32(%rsi,%rdx), %xmm1
	movdqa	Ldcsctp_CPI0_2(%rip), %xmm2
	pshufb	%xmm2, %xmm0
	pshufb	%xmm2, %xmm1
	movdqu	%xmm0, (%rdi,%rdx)
	movdqu	%xmm1, 16(%rdi,%rdx)
	addq	$32, %rdx
	cmpq	%rdx, %rcx
	jne	Ldcsctp_BB0_209
	cmpl	%r14d, %eax
	je	Ldcsctp_BB0_216
	jmp	Ldcsctp_BB0_211
Ldcsctp_BB0_223:
	movl	%r12d, %eax
	andl	$-8, %eax
	leal	(,%r12,4), %ecx
	andl	$-32, %ecx
	movq	8(%rsp), %rdx
	movq	96(%rsp), %rsi
	addq	%rsi, %rdx
	addq	$32, %rdx
	xorl	%esi, %esi
Ldcsctp_BB0_224:
	movdqa	Ldcsctp_CPI0_3(%rip), %xmm0
	movdqu	-16(%rdx,%rsi), %xmm1
	movdqu	(%rdx,%rsi), %xmm2
	pshufb	%xmm0, %xmm1
	pshufb	%xmm0, %xmm2
	movdqu	%xmm1, (%r15,%rsi)
	movdqu	%xmm2, 16(%r15,%rsi)
	addq	$32, %rsi
	cmpq	%rsi, %rcx
	jne	Ldcsctp_BB0_224
	cmpl	%r12d, %eax
	je	Ldcsctp_BB0_232
	jmp	Ldcsctp_BB0_226
Ldcsctp_BB0_233:
	cmpq	$32, %r14
	jae	Ldcsctp_BB0_252
	xorl	%eax, %eax
	movq	%r14, %r11
	jmp	Ldcsctp_BB0_256
Ldcsctp_BB0_235:
	cmpq	$32, 128(%rsp)
	jae	Ldcsctp_BB0_265
	xorl	%eax, %eax
	movq	128(%rsp), %r14
	jmp	Ldcsctp_BB0_269
Ldcsctp_BB0_237:
	cmpl	$32, %r14d
	jae	Ldcsctp_BB0_278
	xorl	%eax, %eax
	movq	%r14, %rdx
	jmp	Ldcsctp_BB0_282
Ldcsctp_BB0_239:
	movq	%r14, %rax
	andq	$-32, %rax
	xorl	%ecx, %ecx
	movq	8(%rsp), %r12
Ldcsctp_BB0_240:
	movdqu	4(%r12,%rcx), %xmm0
	movdqu	20(%r12,%rcx), %xmm1
	movdqu	%xmm0, (%r15,%rcx)
	movdqu	%xmm1, 16(%r15,%rcx)
	addq	$32, %rcx
	cmpq	%rcx, %rax
	jne	Ldcsctp_BB0_240
	movq	%r14, %rsi
	cmpl	%eax, %esi
	je	Ldcsctp_BB0_251
	testb	$28, %sil
	je	Ldcsctp_BB0_246
Ldcsctp_BB0_243:
	movq	%rax, %rcx
	movq	%rsi, %rax
	andq	$-4, %rax
	movq	144(%rsp), %rsi
Ldcsctp_BB0_244:
	movl	(%rsi,%rcx), %edx
	movl	%edx, (%r15,%rcx)
	addq	$4, %rcx
	cmpq	%rcx, %rax
	jne	Ldcsctp_BB0_244
	movq	%r14, %rsi
	cmpl	%eax, %esi
	movq	8(%rsp), %r12
	je	Ldcsctp_BB0_251
	jmp	Ldcsctp_BB0_246
Ldcsctp_BB0_252:
	movq	%r14, %rax
	andq	$-32, %rax
	xorl	%ecx, %ecx
	movq	%rbx, %r12
Ldcsctp_BB0_253:
	movdqu	16(%r12,%rcx), %xmm0
	movdqu	32(%r12,%rcx), %xmm1
	movdqu	%xmm0, (%r15,%rcx)
	movdqu	%xmm1, 16(%r15,%rcx)
	addq	$32, %rcx
	cmpq	%rcx, %rax
	jne	Ldcsctp_BB0_253
	movq	%r14, %r11
	cmpq	%rax, %r14
	je	Ldcsctp_BB0_264
	testb	$28, %r11b
	je	Ldcsctp_BB0_259
Ldcsctp_BB0_256:
	movq	%rax, %rcx
	movq	%r11, %rax
	andq	$-4, %rax
Ldcsctp_BB0_257:
	movl	(%rsi,%rcx), %edx
	movl	%edx, (%r15,%rcx)
	addq	$4, %rcx
	cmpq	%rcx, %rax
	jne	Ldcsctp_BB0_257
	movq	%r14, %r11
	cmpq	%rax, %r14
	movq	%rbx, %r12
	je	Ldcsctp_BB0_264
	jmp	Ldcsctp_BB0_259
Ldcsctp_BB0_265:
	movq	128(%rsp), %rax
	andq	$-32, %rax
	xorl	%ecx, %ecx
	movq	8(%rsp), %rdi
Ldcsctp_BB0_266:
	movdqu	20(%rdi,%rcx), %xmm0
	movdqu	36(%rdi,%rcx), %xmm1
	movdqu	%xmm0, (%r15,%rcx)
	movdqu	%xmm1, 16(%r15,%rcx)
	addq	$32, %rcx
	cmpq	%rcx, %rax
	jne	Ldcsctp_BB0_266
	movq	128(%rsp), %r14
	cmpq	%rax, %r14
	je	Ldcsctp_BB0_277
	testb	$28, %r14b
	je	Ldcsctp_BB0_272
Ldcsctp_BB0_269:
	movq	%rax, %rcx
	movq	%r14, %rax
	andq	$-4, %rax
Ldcsctp_BB0_270:
	movl	(%rsi,%rcx), %edx
	movl	%edx, (%r15,%rcx)
	addq	$4, %rcx
	cmpq	%rcx, %rax
	jne	Ldcsctp_BB0_270
	movq	128(%rsp), %r14
	cmpq	%rax, %r14
	movq	8(%rsp), %rdi
	je	Ldcsctp_BB0_277
	jmp	Ldcsctp_BB0_272
Ldcsctp_BB0_278:
	movq	%r14, %rax
	andq	$-32, %rax
	xorl	%ecx, %ecx
	movq	8(%rsp), %r12
Ldcsctp_BB0_279:
	movdqu	4(%r12,%rcx), %xmm0
	movdqu	20(%r12,%rcx), %xmm1
	movdqu	%xmm0, (%r15,%rcx)
	movdqu	%xmm1, 16(%r15,%rcx)
	addq	$32, %rcx
	cmpq	%rcx, %rax
	jne	Ldcsctp_BB0_279
	movq	%r14, %rdx
	cmpl	%eax, %edx
	je	Ldcsctp_BB0_290
	testb	$28, %dl
	je	Ldcsctp_BB0_285
Ldcsctp_BB0_282:
	movq	%rax, %rcx
	movq	%rdx, %rax
	andq	$-4, %rax
	movq	%rbx, %rsi
Ldcsctp_BB0_283:
	movl	(%rsi,%rcx), %edx
	movl	%edx, (%r15,%rcx)
	addq	$4, %rcx
	cmpq	%rcx, %rax
	jne	Ldcsctp_BB0_283
	movq	%r14, %rdx
	cmpl	%eax, %edx
	movq	8(%rsp), %r12
	je	Ldcsctp_BB0_290
	jmp	Ldcsctp_BB0_285
Ldcsctp_BB0_293:
	movq	112(%rsp), %rax
	movd	(%rax), %xmm0
	pshufb	Ldcsctp_CPI0_0(%rip), %xmm0
	movq	4(%rax), %xmm1
	pshufb	Ldcsctp_CPI0_1(%rip), %xmm1
	movq	%r14, 272(%rsp)
	movq	%r15, 280(%rsp)
	movq	80(%rsp), %rax
	movq	%rax, 288(%rsp)
	movd	%xmm0, 296(%rsp)
	movq	%xmm1, 300(%rsp)
	movl	$0, 308(%rsp)
	leaq	176(%rsp), %rdi
	leaq	272(%rsp), %rsi
	callq	_sctp_show.text.text_of
	cmpb	$0, 176(%rsp)
	je	Ldcsctp_BB0_295
	movq	288(%rsp), %rax
	movq	%rax, 256(%rsp)
	movdqa	272(%rsp), %xmm0
	movdqa	%xmm0, 240(%rsp)
	leaq	240(%rsp), %rdi
	callq	_std_alloc.vec.Vec.drop.5e412c9b2b6de7d3
	movq	112(%rsp), %rdi
	callq	_rattle_dealloc
	jmp	Ldcsctp_BB0_64
Ldcsctp_BB0_295:
	movq	288(%rsp), %rax
	movq	%rax, 224(%rsp)
	movdqa	272(%rsp), %xmm0
	movdqa	%xmm0, 208(%rsp)
	leaq	208(%rsp), %rdi
	callq	_std_alloc.vec.Vec.drop.5e412c9b2b6de7d3
	movq	112(%rsp), %rdi
	callq	_rattle_dealloc
	movq	184(%rsp), %rbx
	movq	192(%rsp), %r12
	movq	200(%rsp), %r15
	testq	%r12, %r12
	je	Ldcsctp_BB0_301
	xorl	%r13d, %r13d
Ldcsctp_BB0_297:
	leaq	(%rbx,%r13), %rsi
	movq	%r12, %r14
	subq	%r13, %r14
	movl	$1, %edi
	movq	%r14, %rdx
	callq	_rattle_write
	testq	%rax, %rax
	js	Ldcsctp_BB0_302
	cmpq	%r14, %rax
	cmovbq	%rax, %r14
	testq	%r14, %r14
	je	Ldcsctp_BB0_303
	addq	%r14, %r13
	cmpq	%r12, %r13
	jb	Ldcsctp_BB0_297
Ldcsctp_BB0_301:
	xorl	%ebp, %ebp
	jmp	Ldcsctp_BB0_304
Ldcsctp_BB0_302:
	leaq	272(%rsp), %rdi
	callq	_std_io.io.error.last_error
Ldcsctp_BB0_303:
	movb	$2, %bpl
Ldcsctp_BB0_304:
	testq	%r15, %r15
	je	Ldcsctp_BB0_71
	movq	%rbx, %rdi
	callq	_rattle_dealloc
	jmp	Ldcsctp_BB0_71
Ldcsctp_BB0_312:
	testq	%r14, %r14
	je	Ldcsctp_BB0_317
	movq	24(%rsp), %rdi
	callq	_rattle_dealloc
Ldcsctp_BB0_317:
	movq	64(%rsp), %r15
Ldcsctp_BB0_318:
	testq	%r15, %r15
	je	Ldcsctp_BB0_336
	movq	104(%rsp), %rbx
	jmp	Ldcsctp_BB0_323
Ldcsctp_BB0_320:
	testq	%rdx, %rdx
	je	Ldcsctp_BB0_322
Ldcsctp_BB0_321:
	callq	_rattle_dealloc
Ldcsctp_BB0_322:
	addq	$64, %rbx
	decq	%r15
	je	Ldcsctp_BB0_336
Ldcsctp_BB0_323:
	movzbl	(%rbx), %esi
	movq	8(%rbx), %rax
	movq	16(%rbx), %rdi
	movq	24(%rbx), %rcx
	movq	32(%rbx), %rdx
	movq	40(%rbx), %r14
	leaq	Ldcsctp_JTI0_2(%rip), %r8
	movslq	(%r8,%rsi,4), %rsi
	addq	%r8, %rsi
	jmpq	*%rsi
Ldcsctp_BB0_324:
	testq	%rcx, %rcx
	je	Ldcsctp_BB0_322
	movq	%rax, %rdi
	jmp	Ldcsctp_BB0_321
Ldcsctp_BB0_326:
	movq	%rax, 32(%rsp)
	movq	%rdi, 40(%rsp)
	movq	%rcx, 48(%rsp)
	jmp	Ldcsctp_BB0_328
Ldcsctp_BB0_327:
	movq	%rcx, 32(%rsp)
	movq	%rdx, 40(%rsp)
	movq	%r14, 48(%rsp)
Ldcsctp_BB0_328:
	leaq	32(%rsp), %rdi
	callq	_std_alloc.vec.Vec.drop.765a829dcb308622
	jmp	Ldcsctp_BB0_322
Ldcsctp_BB0_329:
	movq	%rax, 32(%rsp)
	movq	%rdi, 40(%rsp)
	movq	%rcx, 48(%rsp)
	jmp	Ldcsctp_BB0_335
Ldcsctp_BB0_330:
	movq	%r15, %r12
	movq	56(%rbx), %r15
	testq	%rdx, %rdx
	je	Ldcsctp_BB0_332
	callq	_rattle_dealloc
Ldcsctp_BB0_332:
	testq	%r15, %r15
	movq	%r12, %r15
	je	Ldcsctp_BB0_322
	movq	%r14, %rdi
	jmp	Ldcsctp_BB0_321
Ldcsctp_BB0_334:
	movq	%rdi, 32(%rsp)
	movq	%rcx, 40(%rsp)
	movq	%rdx, 48(%rsp)
Ldcsctp_BB0_335:
	leaq	32(%rsp), %rdi
	callq	_std_alloc.vec.Vec.drop.694f3e952ffd1e0b
	jmp	Ldcsctp_BB0_322
Ldcsctp_BB0_336:
	cmpq	$0, 80(%rsp)
	movq	112(%rsp), %rbx
	je	Ldcsctp_BB0_338
	movq	104(%rsp), %rdi
	callq	_rattle_dealloc
Ldcsctp_BB0_338:
	movq	%rbx, %rdi
	callq	_rattle_dealloc
	jmp	Ldcsctp_BB0_64
	.cfi_endproc
	.p2align	2
	.data_region jt32
L0_0_set_98 = Ldcsctp_BB0_98-Ldcsctp_JTI0_0
L0_0_set_89 = Ldcsctp_BB0_89-Ldcsctp_JTI0_0
L0_0_set_99 = Ldcsctp_BB0_99-Ldcsctp_JTI0_0
L0_0_set_82 = Ldcsctp_BB0_82-Ldcsctp_JTI0_0
L0_0_set_93 = Ldcsctp_BB0_93-Ldcsctp_JTI0_0
L0_0_set_88 = Ldcsctp_BB0_88-Ldcsctp_JTI0_0
L0_0_set_83 = Ldcsctp_BB0_83-Ldcsctp_JTI0_0
L0_0_set_92 = Ldcsctp_BB0_92-Ldcsctp_JTI0_0
L0_0_set_97 = Ldcsctp_BB0_97-Ldcsctp_JTI0_0
L0_0_set_76 = Ldcsctp_BB0_76-Ldcsctp_JTI0_0
L0_0_set_96 = Ldcsctp_BB0_96-Ldcsctp_JTI0_0
Ldcsctp_JTI0_0:
	.long	L0_0_set_98
	.long	L0_0_set_89
	.long	L0_0_set_89
	.long	L0_0_set_99
	.long	L0_0_set_82
	.long	L0_0_set_82
	.long	L0_0_set_93
	.long	L0_0_set_88
	.long	L0_0_set_83
	.long	L0_0_set_92
	.long	L0_0_set_97
	.long	L0_0_set_83
	.long	L0_0_set_76
	.long	L0_0_set_76
	.long	L0_0_set_83
	.long	L0_0_set_76
	.long	L0_0_set_76
	.long	L0_0_set_76
	.long	L0_0_set_76
	.long	L0_0_set_76
	.long	L0_0_set_76
	.long	L0_0_set_76
	.long	L0_0_set_76
	.long	L0_0_set_76
	.long	L0_0_set_76
	.long	L0_0_set_76
	.long	L0_0_set_76
	.long	L0_0_set_76
	.long	L0_0_set_76
	.long	L0_0_set_76
	.long	L0_0_set_76
	.long	L0_0_set_76
	.long	L0_0_set_76
	.long	L0_0_set_76
	.long	L0_0_set_76
	.long	L0_0_set_76
	.long	L0_0_set_76
	.long	L0_0_set_76
	.long	L0_0_set_76
	.long	L0_0_set_76
	.long	L0_0_set_76
	.long	L0_0_set_76
	.long	L0_0_set_76
	.long	L0_0_set_76
	.long	L0_0_set_76
	.long	L0_0_set_76
	.long	L0_0_set_76
	.long	L0_0_set_76
	.long	L0_0_set_76
	.long	L0_0_set_76
	.long	L0_0_set_76
	.long	L0_0_set_76
	.long	L0_0_set_76
	.long	L0_0_set_76
	.long	L0_0_set_76
	.long	L0_0_set_76
	.long	L0_0_set_76
	.long	L0_0_set_76
	.long	L0_0_set_76
	.long	L0_0_set_76
	.long	L0_0_set_76
	.long	L0_0_set_76
	.long	L0_0_set_76
	.long	L0_0_set_76
	.long	L0_0_set_96
	.long	L0_0_set_76
	.long	L0_0_set_76
	.long	L0_0_set_76
	.long	L0_0_set_76
	.long	L0_0_set_76
	.long	L0_0_set_76
	.long	L0_0_set_76
	.long	L0_0_set_76
	.long	L0_0_set_76
	.long	L0_0_set_76
	.long	L0_0_set_76
	.long	L0_0_set_76
	.long	L0_0_set_76
	.long	L0_0_set_76
	.long	L0_0_set_76
	.long	L0_0_set_76
	.long	L0_0_set_76
	.long	L0_0_set_76
	.long	L0_0_set_76
	.long	L0_0_set_76
	.long	L0_0_set_76
	.long	L0_0_set_76
	.long	L0_0_set_76
	.long	L0_0_set_76
	.long	L0_0_set_76
	.long	L0_0_set_76
	.long	L0_0_set_76
	.long	L0_0_set_76
	.long	L0_0_set_76
	.long	L0_0_set_76
	.long	L0_0_set_76
	.long	L0_0_set_76
	.long	L0_0_set_76
	.long	L0_0_set_76
	.long	L0_0_set_76
	.long	L0_0_set_76
	.long	L0_0_set_76
	.long	L0_0_set_76
	.long	L0_0_set_76
	.long	L0_0_set_76
	.long	L0_0_set_76
	.long	L0_0_set_76
	.long	L0_0_set_76
	.long	L0_0_set_76
	.long	L0_0_set_76
	.long	L0_0_set_76
	.long	L0_0_set_76
	.long	L0_0_set_76
	.long	L0_0_set_76
	.long	L0_0_set_76
	.long	L0_0_set_76
	.long	L0_0_set_76
	.long	L0_0_set_76
	.long	L0_0_set_76
	.long	L0_0_set_76
	.long	L0_0_set_76
	.long	L0_0_set_76
	.long	L0_0_set_76
	.long	L0_0_set_76
	.long	L0_0_set_76
	.long	L0_0_set_76
	.long	L0_0_set_76
	.long	L0_0_set_76
	.long	L0_0_set_76
	.long	L0_0_set_76
	.long	L0_0_set_82
L0_1_set_120 = Ldcsctp_BB0_120-Ldcsctp_JTI0_1
L0_1_set_138 = Ldcsctp_BB0_138-Ldcsctp_JTI0_1
L0_1_set_145 = Ldcsctp_BB0_145-Ldcsctp_JTI0_1
L0_1_set_147 = Ldcsctp_BB0_147-Ldcsctp_JTI0_1
L0_1_set_151 = Ldcsctp_BB0_151-Ldcsctp_JTI0_1
L0_1_set_153 = Ldcsctp_BB0_153-Ldcsctp_JTI0_1
L0_1_set_143 = Ldcsctp_BB0_143-Ldcsctp_JTI0_1
L0_1_set_152 = Ldcsctp_BB0_152-Ldcsctp_JTI0_1
L0_1_set_137 = Ldcsctp_BB0_137-Ldcsctp_JTI0_1
L0_1_set_135 = Ldcsctp_BB0_135-Ldcsctp_JTI0_1
L0_1_set_154 = Ldcsctp_BB0_154-Ldcsctp_JTI0_1
L0_1_set_158 = Ldcsctp_BB0_158-Ldcsctp_JTI0_1
L0_1_set_131 = Ldcsctp_BB0_131-Ldcsctp_JTI0_1
L0_1_set_136 = Ldcsctp_BB0_136-Ldcsctp_JTI0_1
L0_1_set_139 = Ldcsctp_BB0_139-Ldcsctp_JTI0_1
L0_1_set_111 = Ldcsctp_BB0_111-Ldcsctp_JTI0_1
Ldcsctp_JTI0_1:
	.long	L0_1_set_120
	.long	L0_1_set_138
	.long	L0_1_set_145
	.long	L0_1_set_147
	.long	L0_1_set_151
	.long	L0_1_set_153
	.long	L0_1_set_143
	.long	L0_1_set_152
	.long	L0_1_set_137
	.long	L0_1_set_135
	.long	L0_1_set_154
	.long	L0_1_set_158
	.long	L0_1_set_131
	.long	L0_1_set_131
	.long	L0_1_set_136
	.long	L0_1_set_131
	.long	L0_1_set_131
	.long	L0_1_set_131
	.long	L0_1_set_131
	.long	L0_1_set_131
	.long	L0_1_set_131
	.long	L0_1_set_131
	.long	L0_1_set_131
	.long	L0_1_set_131
	.long	L0_1_set_131
	.long	L0_1_set_131
	.long	L0_1_set_131
	.long	L0_1_set_131
	.long	L0_1_set_131
	.long	L0_1_set_131
	.long	L0_1_set_131
	.long	L0_1_set_131
	.long	L0_1_set_131
	.long	L0_1_set_131
	.long	L0_1_set_131
	.long	L0_1_set_131
	.long	L0_1_set_131
	.long	L0_1_set_131
	.long	L0_1_set_131
	.long	L0_1_set_131
	.long	L0_1_set_131
	.long	L0_1_set_131
	.long	L0_1_set_131
	.long	L0_1_set_131
	.long	L0_1_set_131
	.long	L0_1_set_131
	.long	L0_1_set_131
	.long	L0_1_set_131
	.long	L0_1_set_131
	.long	L0_1_set_131
	.long	L0_1_set_131
	.long	L0_1_set_131
	.long	L0_1_set_131
	.long	L0_1_set_131
	.long	L0_1_set_131
	.long	L0_1_set_131
	.long	L0_1_set_131
	.long	L0_1_set_131
	.long	L0_1_set_131
	.long	L0_1_set_131
	.long	L0_1_set_131
	.long	L0_1_set_131
	.long	L0_1_set_131
	.long	L0_1_set_131
	.long	L0_1_set_139
	.long	L0_1_set_131
	.long	L0_1_set_131
	.long	L0_1_set_131
	.long	L0_1_set_131
	.long	L0_1_set_131
	.long	L0_1_set_131
	.long	L0_1_set_131
	.long	L0_1_set_131
	.long	L0_1_set_131
	.long	L0_1_set_131
	.long	L0_1_set_131
	.long	L0_1_set_131
	.long	L0_1_set_131
	.long	L0_1_set_131
	.long	L0_1_set_131
	.long	L0_1_set_131
	.long	L0_1_set_131
	.long	L0_1_set_131
	.long	L0_1_set_131
	.long	L0_1_set_131
	.long	L0_1_set_131
	.long	L0_1_set_131
	.long	L0_1_set_131
	.long	L0_1_set_131
	.long	L0_1_set_131
	.long	L0_1_set_131
	.long	L0_1_set_131
	.long	L0_1_set_131
	.long	L0_1_set_131
	.long	L0_1_set_131
	.long	L0_1_set_131
	.long	L0_1_set_131
	.long	L0_1_set_131
	.long	L0_1_set_131
	.long	L0_1_set_131
	.long	L0_1_set_131
	.long	L0_1_set_131
	.long	L0_1_set_131
	.long	L0_1_set_131
	.long	L0_1_set_131
	.long	L0_1_set_131
	.long	L0_1_set_131
	.long	L0_1_set_131
	.long	L0_1_set_131
	.long	L0_1_set_131
	.long	L0_1_set_131
	.long	L0_1_set_131
	.long	L0_1_set_131
	.long	L0_1_set_131
	.long	L0_1_set_131
	.long	L0_1_set_131
	.long	L0_1_set_131
	.long	L0_1_set_131
	.long	L0_1_set_131
	.long	L0_1_set_131
	.long	L0_1_set_131
	.long	L0_1_set_131
	.long	L0_1_set_131
	.long	L0_1_set_131
	.long	L0_1_set_131
	.long	L0_1_set_131
	.long	L0_1_set_131
	.long	L0_1_set_131
	.long	L0_1_set_131
	.long	L0_1_set_131
	.long	L0_1_set_111
L0_2_set_324 = Ldcsctp_BB0_324-Ldcsctp_JTI0_2
L0_2_set_327 = Ldcsctp_BB0_327-Ldcsctp_JTI0_2
L0_2_set_330 = Ldcsctp_BB0_330-Ldcsctp_JTI0_2
L0_2_set_326 = Ldcsctp_BB0_326-Ldcsctp_JTI0_2
L0_2_set_334 = Ldcsctp_BB0_334-Ldcsctp_JTI0_2
L0_2_set_322 = Ldcsctp_BB0_322-Ldcsctp_JTI0_2
L0_2_set_329 = Ldcsctp_BB0_329-Ldcsctp_JTI0_2
L0_2_set_320 = Ldcsctp_BB0_320-Ldcsctp_JTI0_2
Ldcsctp_JTI0_2:
	.long	L0_2_set_324
	.long	L0_2_set_327
	.long	L0_2_set_327
	.long	L0_2_set_330
	.long	L0_2_set_326
	.long	L0_2_set_326
	.long	L0_2_set_334
	.long	L0_2_set_322
	.long	L0_2_set_322
	.long	L0_2_set_329
	.long	L0_2_set_324
	.long	L0_2_set_322
	.long	L0_2_set_322
	.long	L0_2_set_324
	.long	L0_2_set_326
	.long	L0_2_set_320
	.long	L0_2_set_320
	.long	L0_2_set_320
	.end_data_region
	.p2align	4
_std_io.io.error.last_error:
	.cfi_startproc
	pushq	%rbx
	.cfi_def_cfa_offset 16
	.cfi_offset %rbx, -16
	movq	%rdi, %rbx
	callq	_rattle_errno
	movl	%eax, %ecx
	movb	$41, %dl
	testl	%eax, %eax
	js	Ldcsctp_BB1_40
	decl	%eax
	cmpl	$121, %eax
	ja	Ldcsctp_BB1_40
	leaq	Ldcsctp_JTI1_0(%rip), %rsi
	movslq	(%rsi,%rax,4), %rax
	addq	%rsi, %rax
	jmpq	*%rax
Ldcsctp_BB1_3:
	movb	$1, %dl
	jmp	Ldcsctp_BB1_40
Ldcsctp_BB1_24:
	movb	$36, %dl
	jmp	Ldcsctp_BB1_40
Ldcsctp_BB1_36:
	movb	$4, %dl
	jmp	Ldcsctp_BB1_40
Ldcsctp_BB1_33:
	movb	$7, %dl
	jmp	Ldcsctp_BB1_40
Ldcsctp_BB1_39:
	movb	$26, %dl
	jmp	Ldcsctp_BB1_40
Ldcsctp_BB1_37:
	movb	$39, %dl
	jmp	Ldcsctp_BB1_40
Ldcsctp_BB1_28:
	movb	$9, %dl
	jmp	Ldcsctp_BB1_40
Ldcsctp_BB1_27:
	movb	$8, %dl
	jmp	Ldcsctp_BB1_40
Ldcsctp_BB1_22:
	movb	$30, %dl
	jmp	Ldcsctp_BB1_40
Ldcsctp_BB1_18:
	movb	$25, %dl
	jmp	Ldcsctp_BB1_40
Ldcsctp_BB1_20:
	movb	$32, %dl
	jmp	Ldcsctp_BB1_40
Ldcsctp_BB1_23:
	movb	$33, %dl
	jmp	Ldcsctp_BB1_40
Ldcsctp_BB1_34:
	movb	$22, %dl
	jmp	Ldcsctp_BB1_40
Ldcsctp_BB1_11:
	movb	$31, %dl
	jmp	Ldcsctp_BB1_40
Ldcsctp_BB1_15:
	movb	$29, %dl
	jmp	Ldcsctp_BB1_40
Ldcsctp_BB1_26:
	movb	$18, %dl
	jmp	Ldcsctp_BB1_40
Ldcsctp_BB1_29:
	movb	$10, %dl
	jmp	Ldcsctp_BB1_40
Ldcsctp_BB1_9:
	movb	$28, %dl
	jmp	Ldcsctp_BB1_40
Ldcsctp_BB1_12:
	movb	$14, %dl
	jmp	Ldcsctp_BB1_40
Ldcsctp_BB1_10:
	movb	$12, %dl
	jmp	Ldcsctp_BB1_40
Ldcsctp_BB1_30:
	movb	$5, %dl
	jmp	Ldcsctp_BB1_40
Ldcsctp_BB1_32:
	movb	$3, %dl
	jmp	Ldcsctp_BB1_40
Ldcsctp_BB1_4:
	xorl	%edx, %edx
	jmp	Ldcsctp_BB1_40
Ldcsctp_BB1_7:
	movb	$13, %dl
	jmp	Ldcsctp_BB1_40
Ldcsctp_BB1_8:
	movb	$38, %dl
	jmp	Ldcsctp_BB1_40
Ldcsctp_BB1_21:
	movb	$11, %dl
	jmp	Ldcsctp_BB1_40
Ldcsctp_BB1_5:
	movb	$35, %dl
	jmp	Ldcsctp_BB1_40
Ldcsctp_BB1_6:
	movb	$34, %dl
	jmp	Ldcsctp_BB1_40
Ldcsctp_BB1_14:
	movb	$20, %dl
	jmp	Ldcsctp_BB1_40
Ldcsctp_BB1_13:
	movb	$15, %dl
	jmp	Ldcsctp_BB1_40
Ldcsctp_BB1_38:
	movb	$19, %dl
	jmp	Ldcsctp_BB1_40
Ldcsctp_BB1_25:
	movb	$16, %dl
	jmp	Ldcsctp_BB1_40
Ldcsctp_BB1_31:
	movb	$6, %dl
	jmp	Ldcsctp_BB1_40
Ldcsctp_BB1_16:
	movb	$27, %dl
	jmp	Ldcsctp_BB1_40
Ldcsctp_BB1_17:
	movb	$24, %dl
	jmp	Ldcsctp_BB1_40
Ldcsctp_BB1_35:
	movb	$2, %dl
	jmp	Ldcsctp_BB1_40
Ldcsctp_BB1_19:
	movb	$17, %dl
Ldcsctp_BB1_40:
	movb	$0, (%rbx)
	movb	%dl, 1(%rbx)
	movw	$0, 2(%rbx)
	movl	%ecx, 4(%rbx)
	xorps	%xmm0, %xmm0
	movups	%xmm0, 8(%rbx)
	movups	%xmm0, 24(%rbx)
	movups	%xmm0, 40(%rbx)
	movups	%xmm0, 56(%rbx)
	movups	%xmm0, 72(%rbx)
	popq	%rbx
	retq
	.cfi_endproc
	.p2align	2
	.data_region jt32
L1_0_set_3 = Ldcsctp_BB1_3-Ldcsctp_JTI1_0
L1_0_set_4 = Ldcsctp_BB1_4-Ldcsctp_JTI1_0
L1_0_set_40 = Ldcsctp_BB1_40-Ldcsctp_JTI1_0
L1_0_set_5 = Ldcsctp_BB1_5-Ldcsctp_JTI1_0
L1_0_set_6 = Ldcsctp_BB1_6-Ldcsctp_JTI1_0
L1_0_set_7 = Ldcsctp_BB1_7-Ldcsctp_JTI1_0
L1_0_set_8 = Ldcsctp_BB1_8-Ldcsctp_JTI1_0
L1_0_set_9 = Ldcsctp_BB1_9-Ldcsctp_JTI1_0
L1_0_set_10 = Ldcsctp_BB1_10-Ldcsctp_JTI1_0
L1_0_set_11 = Ldcsctp_BB1_11-Ldcsctp_JTI1_0
L1_0_set_12 = Ldcsctp_BB1_12-Ldcsctp_JTI1_0
L1_0_set_13 = Ldcsctp_BB1_13-Ldcsctp_JTI1_0
L1_0_set_14 = Ldcsctp_BB1_14-Ldcsctp_JTI1_0
L1_0_set_15 = Ldcsctp_BB1_15-Ldcsctp_JTI1_0
L1_0_set_16 = Ldcsctp_BB1_16-Ldcsctp_JTI1_0
L1_0_set_17 = Ldcsctp_BB1_17-Ldcsctp_JTI1_0
L1_0_set_18 = Ldcsctp_BB1_18-Ldcsctp_JTI1_0
L1_0_set_19 = Ldcsctp_BB1_19-Ldcsctp_JTI1_0
L1_0_set_20 = Ldcsctp_BB1_20-Ldcsctp_JTI1_0
L1_0_set_21 = Ldcsctp_BB1_21-Ldcsctp_JTI1_0
L1_0_set_22 = Ldcsctp_BB1_22-Ldcsctp_JTI1_0
L1_0_set_23 = Ldcsctp_BB1_23-Ldcsctp_JTI1_0
L1_0_set_24 = Ldcsctp_BB1_24-Ldcsctp_JTI1_0
L1_0_set_25 = Ldcsctp_BB1_25-Ldcsctp_JTI1_0
L1_0_set_26 = Ldcsctp_BB1_26-Ldcsctp_JTI1_0
L1_0_set_27 = Ldcsctp_BB1_27-Ldcsctp_JTI1_0
L1_0_set_28 = Ldcsctp_BB1_28-Ldcsctp_JTI1_0
L1_0_set_29 = Ldcsctp_BB1_29-Ldcsctp_JTI1_0
L1_0_set_30 = Ldcsctp_BB1_30-Ldcsctp_JTI1_0
L1_0_set_31 = Ldcsctp_BB1_31-Ldcsctp_JTI1_0
L1_0_set_32 = Ldcsctp_BB1_32-Ldcsctp_JTI1_0
L1_0_set_33 = Ldcsctp_BB1_33-Ldcsctp_JTI1_0
L1_0_set_34 = Ldcsctp_BB1_34-Ldcsctp_JTI1_0
L1_0_set_35 = Ldcsctp_BB1_35-Ldcsctp_JTI1_0
L1_0_set_36 = Ldcsctp_BB1_36-Ldcsctp_JTI1_0
L1_0_set_37 = Ldcsctp_BB1_37-Ldcsctp_JTI1_0
L1_0_set_38 = Ldcsctp_BB1_38-Ldcsctp_JTI1_0
L1_0_set_39 = Ldcsctp_BB1_39-Ldcsctp_JTI1_0
Ldcsctp_JTI1_0:
	.long	L1_0_set_3
	.long	L1_0_set_4
	.long	L1_0_set_40
	.long	L1_0_set_5
	.long	L1_0_set_40
	.long	L1_0_set_40
	.long	L1_0_set_6
	.long	L1_0_set_40
	.long	L1_0_set_40
	.long	L1_0_set_40
	.long	L1_0_set_7
	.long	L1_0_set_8
	.long	L1_0_set_3
	.long	L1_0_set_40
	.long	L1_0_set_40
	.long	L1_0_set_9
	.long	L1_0_set_10
	.long	L1_0_set_11
	.long	L1_0_set_40
	.long	L1_0_set_12
	.long	L1_0_set_13
	.long	L1_0_set_14
	.long	L1_0_set_40
	.long	L1_0_set_40
	.long	L1_0_set_40
	.long	L1_0_set_15
	.long	L1_0_set_16
	.long	L1_0_set_17
	.long	L1_0_set_18
	.long	L1_0_set_19
	.long	L1_0_set_20
	.long	L1_0_set_21
	.long	L1_0_set_40
	.long	L1_0_set_40
	.long	L1_0_set_22
	.long	L1_0_set_23
	.long	L1_0_set_40
	.long	L1_0_set_24
	.long	L1_0_set_25
	.long	L1_0_set_26
	.long	L1_0_set_40
	.long	L1_0_set_40
	.long	L1_0_set_40
	.long	L1_0_set_40
	.long	L1_0_set_40
	.long	L1_0_set_40
	.long	L1_0_set_40
	.long	L1_0_set_40
	.long	L1_0_set_40
	.long	L1_0_set_40
	.long	L1_0_set_40
	.long	L1_0_set_40
	.long	L1_0_set_40
	.long	L1_0_set_40
	.long	L1_0_set_40
	.long	L1_0_set_40
	.long	L1_0_set_40
	.long	L1_0_set_40
	.long	L1_0_set_40
	.long	L1_0_set_40
	.long	L1_0_set_40
	.long	L1_0_set_40
	.long	L1_0_set_40
	.long	L1_0_set_40
	.long	L1_0_set_40
	.long	L1_0_set_40
	.long	L1_0_set_40
	.long	L1_0_set_40
	.long	L1_0_set_40
	.long	L1_0_set_40
	.long	L1_0_set_40
	.long	L1_0_set_40
	.long	L1_0_set_40
	.long	L1_0_set_40
	.long	L1_0_set_40
	.long	L1_0_set_40
	.long	L1_0_set_40
	.long	L1_0_set_40
	.long	L1_0_set_40
	.long	L1_0_set_40
	.long	L1_0_set_40
	.long	L1_0_set_40
	.long	L1_0_set_40
	.long	L1_0_set_40
	.long	L1_0_set_40
	.long	L1_0_set_40
	.long	L1_0_set_40
	.long	L1_0_set_40
	.long	L1_0_set_40
	.long	L1_0_set_40
	.long	L1_0_set_40
	.long	L1_0_set_40
	.long	L1_0_set_40
	.long	L1_0_set_40
	.long	L1_0_set_24
	.long	L1_0_set_40
	.long	L1_0_set_40
	.long	L1_0_set_27
	.long	L1_0_set_28
	.long	L1_0_set_29
	.long	L1_0_set_30
	.long	L1_0_set_40
	.long	L1_0_set_31
	.long	L1_0_set_32
	.long	L1_0_set_40
	.long	L1_0_set_40
	.long	L1_0_set_33
	.long	L1_0_set_40
	.long	L1_0_set_40
	.long	L1_0_set_34
	.long	L1_0_set_35
	.long	L1_0_set_40
	.long	L1_0_set_36
	.long	L1_0_set_40
	.long	L1_0_set_37
	.long	L1_0_set_38
	.long	L1_0_set_40
	.long	L1_0_set_40
	.long	L1_0_set_40
	.long	L1_0_set_40
	.long	L1_0_set_40
	.long	L1_0_set_39
	.end_data_region
	.p2align	4
_dcsctp_tlv.reader.list_check.a9faab4c914c0483:
	.cfi_startproc
	pushq	%r14
	.cfi_def_cfa_offset 16
	pushq	%rbx
	.cfi_def_cfa_offset 24
	pushq	%rax
	.cfi_def_cfa_offset 32
	.cfi_offset %rbx, -24
	.cfi_offset %r14, -16
	testq	%rdx, %rdx
	je	Ldcsctp_BB2_1
	movq	%rsi, %rax
	xorl	%r8d, %r8d
	movq	%rdx, %rsi
	jmp	Ldcsctp_BB2_3
	.p2align	4
Ldcsctp_BB2_27:
	addq	%r10, %rax
	subq	%r10, %rsi
	incq	%r8
	testq	%rsi, %rsi
	je	Ldcsctp_BB2_28
Ldcsctp_BB2_3:
	cmpq	$4, %rsi
	jb	Ldcsctp_BB2_30
	movzwl	2(%rax), %r9d
	rolw	$8, %r9w
	cmpw	$4, %r9w
	jb	Ldcsctp_BB2_30
	movzwl	%r9w, %r9d
	cmpq	%r9, %rsi
	jb	Ldcsctp_BB2_30
	leal	3(%r9), %r10d
	andl	$-4, %r10d
	cmpq	%r10, %rsi
	cmovbq	%rsi, %r10
	movzwl	(%rax), %ebx
	rolw	$8, %bx
	leaq	-4(%r9), %r11
	movzwl	%bx, %ebx
	leal	-13(%rbx), %r14d
	cmpl	$5, %r14d
	ja	Ldcsctp_BB2_7
	leaq	Ldcsctp_JTI2_0(%rip), %rbx
	movslq	(%rbx,%r14,4), %r14
	addq	%rbx, %r14
	jmpq	*%r14
Ldcsctp_BB2_18:
	cmpl	$8, %r11d
	jmp	Ldcsctp_BB2_11
	.p2align	4
Ldcsctp_BB2_7:
	cmpl	$32769, %ebx
	je	Ldcsctp_BB2_10
	cmpl	$49152, %ebx
	jne	Ldcsctp_BB2_23
	testq	%r11, %r11
	jmp	Ldcsctp_BB2_11
	.p2align	4
Ldcsctp_BB2_10:
	cmpl	$4, %r11d
Ldcsctp_BB2_11:
	setne	%bl
	xorl	%r11d, %r11d
	jmp	Ldcsctp_BB2_22
Ldcsctp_BB2_20:
	xorl	%r11d, %r11d
	cmpw	$8, %r9w
	jae	Ldcsctp_BB2_21
	jmp	Ldcsctp_BB2_15
Ldcsctp_BB2_12:
	cmpq	$20, %r9
	je	Ldcsctp_BB2_17
	cmpl	$12, %r9d
	jne	Ldcsctp_BB2_14
Ldcsctp_BB2_17:
	movl	8(%rax), %r11d
	bswapl	%r11d
	xorl	%ebx, %ebx
	cmpl	$7, %r11d
	setae	%bl
	leaq	(%rbx,%rbx,2), %r11
	jmp	Ldcsctp_BB2_22
Ldcsctp_BB2_19:
	xorl	%r11d, %r11d
	cmpw	$16, %r9w
	jb	Ldcsctp_BB2_15
Ldcsctp_BB2_21:
	movl	%r9d, %ebx
	andb	$1, %bl
Ldcsctp_BB2_22:
	testb	%bl, %bl
	jne	Ldcsctp_BB2_15
Ldcsctp_BB2_23:
	testb	%cl, %cl
	je	Ldcsctp_BB2_27
	.p2align	4
Ldcsctp_BB2_24:
	cmpq	%r9, %r10
	je	Ldcsctp_BB2_27
	cmpb	$0, (%rax,%r9)
	leaq	1(%r9), %r9
	je	Ldcsctp_BB2_24
	subq	%rsi, %rdx
	movq	%rdi, %rbx
	movq	%rax, %rdi
	movq	%rdx, %r14
	callq	_dcsctp_tlv.frame.padding_fault
	addq	%r14, %rax
	movq	$1, (%rbx)
	movq	%rax, 8(%rbx)
	movq	$2, 16(%rbx)
	addq	$8, %rsp
	popq	%rbx
	popq	%r14
	retq
Ldcsctp_BB2_1:
	xorl	%r8d, %r8d
Ldcsctp_BB2_28:
	movq	$0, (%rdi)
	movq	%r8, 8(%rdi)
	movq	%r8, 16(%rdi)
	addq	$8, %rsp
	popq	%rbx
	popq	%r14
	retq
Ldcsctp_BB2_30:
	subq	%rsi, %rdx
	movq	$1, (%rdi)
	movq	%rdx, 8(%rdi)
	movq	$0, 16(%rdi)
	addq	$8, %rsp
	popq	%rbx
	popq	%r14
	retq
Ldcsctp_BB2_14:
	xorl	%r11d, %r11d
Ldcsctp_BB2_15:
	subq	%rsi, %rdx
	movq	$1, (%rdi)
	movq	%rdx, 8(%rdi)
	movq	%r11, 16(%rdi)
	addq	$8, %rsp
	popq	%rbx
	popq	%r14
	retq
	.cfi_endproc
	.p2align	2
	.data_region jt32
L2_0_set_19 = Ldcsctp_BB2_19-Ldcsctp_JTI2_0
L2_0_set_20 = Ldcsctp_BB2_20-Ldcsctp_JTI2_0
L2_0_set_10 = Ldcsctp_BB2_10-Ldcsctp_JTI2_0
L2_0_set_12 = Ldcsctp_BB2_12-Ldcsctp_JTI2_0
L2_0_set_18 = Ldcsctp_BB2_18-Ldcsctp_JTI2_0
Ldcsctp_JTI2_0:
	.long	L2_0_set_19
	.long	L2_0_set_20
	.long	L2_0_set_10
	.long	L2_0_set_12
	.long	L2_0_set_18
	.long	L2_0_set_18
	.end_data_region
	.p2align	4
_dcsctp_tlv.reader.list_check.a6e1d811d2b3aa55:
	.cfi_startproc
	pushq	%r14
	.cfi_def_cfa_offset 16
	pushq	%rbx
	.cfi_def_cfa_offset 24
	pushq	%rax
	.cfi_def_cfa_offset 32
	.cfi_offset %rbx, -24
	.cfi_offset %r14, -16
	movq	%rdi, %rbx
	testq	%rdx, %rdx
	je	Ldcsctp_BB3_1
	movq	%rsi, %rax
	testb	%cl, %cl
	je	Ldcsctp_BB3_3
	xorl	%ecx, %ecx
	movq	%rdx, %rsi
	jmp	Ldcsctp_BB3_11
	.p2align	4
Ldcsctp_BB3_34:
	incq	%rcx
	movq	%r10, %rax
	movq	%r9, %rsi
	testq	%r9, %r9
	je	Ldcsctp_BB3_35
Ldcsctp_BB3_11:
	cmpq	$4, %rsi
	jb	Ldcsctp_BB3_32
	movzwl	2(%rax), %edi
	rolw	$8, %di
	cmpw	$4, %di
	jb	Ldcsctp_BB3_32
	movzwl	%di, %edi
	cmpq	%rdi, %rsi
	jb	Ldcsctp_BB3_32
	leal	3(%rdi), %r8d
	andl	$-4, %r8d
	cmpq	%r8, %rsi
	cmovbq	%rsi, %r8
	movzwl	(%rax), %r9d
	rolw	$8, %r9w
	cmpw	$10, %r9w
	je	Ldcsctp_BB3_20
	movzwl	%r9w, %r9d
	cmpl	$9, %r9d
	je	Ldcsctp_BB3_16
	cmpl	$2, %r9d
	jne	Ldcsctp_BB3_22
	cmpw	$8, %di
	jb	Ldcsctp_BB3_32
	movl	4(%rax), %r9d
	bswapl	%r9d
	leaq	4(,%r9,2), %r9
	jmp	Ldcsctp_BB3_21
	.p2align	4
Ldcsctp_BB3_16:
	movl	$4, %r9d
	jmp	Ldcsctp_BB3_21
	.p2align	4
Ldcsctp_BB3_20:
	xorl	%r9d, %r9d
Ldcsctp_BB3_21:
	leaq	-4(%rdi), %r10
	cmpq	%r9, %r10
	jne	Ldcsctp_BB3_32
Ldcsctp_BB3_22:
	leaq	(%rax,%r8), %r10
	movq	%rsi, %r9
	subq	%r8, %r9
	.p2align	4
Ldcsctp_BB3_23:
	cmpq	%rdi, %r8
	je	Ldcsctp_BB3_34
	cmpb	$0, (%rax,%rdi)
	leaq	1(%rdi), %rdi
	je	Ldcsctp_BB3_23
	subq	%rsi, %rdx
	movq	%rax, %rdi
	movq	%rdx, %r14
	callq	_dcsctp_tlv.frame.padding_fault
	addq	%r14, %rax
	movq	$1, (%rbx)
	movq	%rax, 8(%rbx)
	movq	$2, 16(%rbx)
	addq	$8, %rsp
	popq	%rbx
	popq	%r14
	retq
Ldcsctp_BB3_1:
	xorl	%ecx, %ecx
Ldcsctp_BB3_35:
	movq	$0, (%rbx)
	movq	%rcx, 8(%rbx)
	movq	%rcx, 16(%rbx)
	addq	$8, %rsp
	popq	%rbx
	popq	%r14
	retq
Ldcsctp_BB3_3:
	xorl	%ecx, %ecx
	movq	%rdx, %rsi
	jmp	Ldcsctp_BB3_4
	.p2align	4
Ldcsctp_BB3_9:
	movl	$4, %r9d
Ldcsctp_BB3_30:
	addq	$-4, %rdi
	cmpq	%r9, %rdi
	jne	Ldcsctp_BB3_32
Ldcsctp_BB3_31:
	addq	%r8, %rax
	subq	%r8, %rsi
	incq	%rcx
	testq	%rsi, %rsi
	je	Ldcsctp_BB3_35
Ldcsctp_BB3_4:
	cmpq	$4, %rsi
	jb	Ldcsctp_BB3_32
	movzwl	2(%rax), %edi
	rolw	$8, %di
	cmpw	$4, %di
	jb	Ldcsctp_BB3_32
	movzwl	%di, %edi
	cmpq	%rdi, %rsi
	jb	Ldcsctp_BB3_32
	leal	3(%rdi), %r8d
	andl	$-4, %r8d
	cmpq	%r8, %rsi
	cmovbq	%rsi, %r8
	movzwl	(%rax), %r9d
	rolw	$8, %r9w
	cmpw	$2, %r9w
	je	Ldcsctp_BB3_28
	movzwl	%r9w, %r9d
	cmpl	$9, %r9d
	je	Ldcsctp_BB3_9
	cmpl	$10, %r9d
	jne	Ldcsctp_BB3_31
	xorl	%r9d, %r9d
	jmp	Ldcsctp_BB3_30
	.p2align	4
Ldcsctp_BB3_28:
	cmpw	$8, %di
	jb	Ldcsctp_BB3_32
	movl	4(%rax), %r9d
	bswapl	%r9d
	leaq	4(,%r9,2), %r9
	jmp	Ldcsctp_BB3_30
Ldcsctp_BB3_32:
	subq	%rsi, %rdx
	movq	$1, (%rbx)
	movq	%rdx, 8(%rbx)
	movq	$0, 16(%rbx)
	addq	$8, %rsp
	popq	%rbx
	popq	%r14
	retq
	.cfi_endproc
	.p2align	4
_dcsctp_tlv.frame.padding_fault:
	.cfi_startproc
	movzwl	2(%rdi), %eax
	rolw	$8, %ax
	movzwl	%ax, %ecx
	movl	%ecx, %edx
	addl	$3, %edx
	andl	$-4, %edx
	cmpq	%rdx, %rsi
	cmovbq	%rsi, %rdx
	subq	%rcx, %rdx
	je	Ldcsctp_BB4_1
	addq	%rcx, %rdi
	xorl	%eax, %eax
	.p2align	4
Ldcsctp_BB4_3:
	cmpb	$0, (%rdi,%rax)
	jne	Ldcsctp_BB4_6
	incq	%rax
	cmpq	%rax, %rdx
	jne	Ldcsctp_BB4_3
	movq	%rdx, %rax
Ldcsctp_BB4_6:
	addq	%rcx, %rax
	retq
Ldcsctp_BB4_1:
	xorl	%eax, %eax
	addq	%rcx, %rax
	retq
	.cfi_endproc
	.section	__TEXT,__literal16,16byte_literals
	.p2align	4, 0x0
Ldcsctp_CPI5_0:
	.byte	1
	.byte	0
	.byte	3
	.byte	2
	.byte	5
	.byte	4
	.byte	7
	.byte	6
	.byte	9
	.byte	8
	.byte	11
	.byte	10
	.byte	13
	.byte	12
	.byte	15
	.byte	14
Ldcsctp_CPI5_1:
	.byte	1
	.byte	0
	.byte	3
	.byte	2
	.byte	5
	.byte	4
	.byte	7
	.byte	6
	.space	1
	.space	1
	.space	1
	.space	1
	.space	1
	.space	1
	.space	1
	.space	1
Ldcsctp_CPI5_2:
	.byte	3
	.byte	2
	.byte	1
	.byte	0
	.byte	7
	.byte	6
	.byte	5
	.byte	4
	.byte	11
	.byte	10
	.byte	9
	.byte	8
	.byte	15
	.byte	14
	.byte	13
	.byte	12
	.section	__TEXT,__text,regular,pure_instructions
	.p2align	4
_dcsctp_tlv.parameter.parameters_fill:
	.cfi_startproc
	testq	%rdx, %rdx
	je	Ldcsctp_BB5_1
	pushq	%rbp
	.cfi_def_cfa_offset 16
	pushq	%r15
	.cfi_def_cfa_offset 24
	pushq	%r14
	.cfi_def_cfa_offset 32
	pushq	%r13
	.cfi_def_cfa_offset 40
	pushq	%r12
	.cfi_def_cfa_offset 48
	pushq	%rbx
	.cfi_def_cfa_offset 56
	subq	$56, %rsp
	.cfi_def_cfa_offset 112
	.cfi_offset %rbx, -56
	.cfi_offset %r12, -48
	.cfi_offset %r13, -40
	.cfi_offset %r14, -32
	.cfi_offset %r15, -24
	.cfi_offset %rbp, -16
	movq	%rdx, %r8
	movq	%rsi, %r14
	xorl	%ebx, %ebx
	movq	%rdx, %rax
	movq	%rsi, %rcx
	.p2align	4
Ldcsctp_BB5_4:
	movzwl	2(%rcx), %edx
	rolw	$8, %dx
	movzwl	%dx, %edx
	addl	$3, %edx
	andl	$-4, %edx
	cmpq	%rdx, %rax
	cmovbq	%rax, %rdx
	addq	%rdx, %rcx
	incq	%rbx
	subq	%rdx, %rax
	jne	Ldcsctp_BB5_4
	movq	8(%rdi), %rax
	movq	16(%rdi), %rcx
	movq	%rcx, %rdx
	subq	%rax, %rdx
	cmpq	%rdx, %rbx
	movq	%rdi, 16(%rsp)
	jbe	Ldcsctp_BB5_13
	movb	$1, %r9b
	addq	%rax, %rbx
	jb	Ldcsctp_BB5_110
	movabsq	$192153584101141162, %rdx
	cmpq	%rdx, %rbx
	ja	Ldcsctp_BB5_110
	movq	%r8, %r15
	testq	%rcx, %rcx
	je	Ldcsctp_BB5_10
	movq	(%rdi), %rdi
	shlq	$4, %rax
	leaq	(%rax,%rax,2), %rsi
	movq	%rbx, %rax
	shlq	$4, %rax
	leaq	(%rax,%rax,2), %rdx
	movl	$8, %ecx
	callq	_rattle_realloc
	testb	$1, %al
	movb	$1, %r9b
	jne	Ldcsctp_BB5_12
	jmp	Ldcsctp_BB5_110
Ldcsctp_BB5_1:
	xorl	%r9d, %r9d
	movl	%r9d, %eax
	retq
Ldcsctp_BB5_10:
	movq	%rbx, %rax
	shlq	$4, %rax
	leaq	(%rax,%rax,2), %rdi
	movl	$8, %esi
	callq	_rattle_alloc
	testb	$1, %al
	movb	$1, %r9b
	je	Ldcsctp_BB5_110
Ldcsctp_BB5_12:
	movq	16(%rsp), %rdi
	movq	%rdx, (%rdi)
	movq	%rbx, 16(%rdi)
	movq	%r15, %r8
	jmp	Ldcsctp_BB5_13
Ldcsctp_BB5_26:
	movl	(%rsi), %eax
	bswapl	%eax
	movq	(%rdi), %rcx
	movq	8(%rdi), %rdx
	leaq	(%rdx,%rdx,2), %rsi
	shlq	$4, %rsi
	movb	$8, (%rcx,%rsi)
Ldcsctp_BB5_19:
	movl	%eax, 4(%rcx,%rsi)
	pxor	%xmm0, %xmm0
	movdqu	%xmm0, 8(%rcx,%rsi)
	movdqu	%xmm0, 24(%rcx,%rsi)
	movq	$0, 40(%rcx,%rsi)
	incq	%rdx
	movq	%rdx, 8(%rdi)
Ldcsctp_BB5_108:
	addq	%r13, %r14
	subq	%r13, %r8
	je	Ldcsctp_BB5_109
Ldcsctp_BB5_13:
	movzwl	(%r14), %r15d
	movzwl	2(%r14), %eax
	rolw	$8, %ax
	movzwl	%ax, %r12d
	leaq	4(%r14), %rsi
	movl	%r12d, %r13d
	addl	$3, %r13d
	andl	$-4, %r13d
	cmpq	%r13, %r8
	cmovbq	%r8, %r13
	rolw	$8, %r15w
	leaq	-4(%r12), %r10
	movzwl	%r15w, %ebx
	leal	-13(%rbx), %eax
	cmpl	$5, %eax
	ja	Ldcsctp_BB5_14
	leaq	Ldcsctp_JTI5_0(%rip), %rcx
	movslq	(%rcx,%rax,4), %rax
	addq	%rcx, %rax
	jmpq	*%rax
Ldcsctp_BB5_27:
	movq	4(%r14), %xmm3
	movl	12(%r14), %ebx
	leaq	-16(%r12), %rbp
	movq	%rbp, %r15
	shrq	%r15
	je	Ldcsctp_BB5_28
	movb	$1, %r9b
	cmpw	$16, %r12w
	jb	Ldcsctp_BB5_110
	movdqa	%xmm3, 32(%rsp)
	movq	%r8, %r12
	movabsq	$9223372036854775792, %rax
	leaq	14(%rax), %rdi
	andq	%rbp, %rdi
	movl	$2, %esi
	callq	_rattle_alloc
	movb	$1, %r9b
	testb	$1, %al
	je	Ldcsctp_BB5_110
	cmpl	$8, %ebp
	jae	Ldcsctp_BB5_33
	xorl	%eax, %eax
	movq	%r12, %r8
	movq	16(%rsp), %rdi
	movdqa	32(%rsp), %xmm3
	jmp	Ldcsctp_BB5_44
	.p2align	4
Ldcsctp_BB5_14:
	cmpl	$32769, %ebx
	je	Ldcsctp_BB5_26
	cmpl	$49152, %ebx
	jne	Ldcsctp_BB5_75
	movq	(%rdi), %rax
	movq	8(%rdi), %rcx
	leaq	(%rcx,%rcx,2), %rdx
	shlq	$4, %rdx
	movb	$10, (%rax,%rdx)
	pxor	%xmm0, %xmm0
	movdqu	%xmm0, 4(%rax,%rdx)
	movdqu	%xmm0, 20(%rax,%rdx)
	movdqu	%xmm0, 32(%rax,%rdx)
	jmp	Ldcsctp_BB5_17
Ldcsctp_BB5_23:
	movl	4(%r14), %eax
	bswapl	%eax
	movzwl	8(%r14), %ecx
	rolw	$8, %cx
	movq	(%rdi), %rdx
	movq	8(%rdi), %rsi
	leaq	(%rsi,%rsi,2), %r9
	shlq	$4, %r9
	movb	$6, (%rdx,%r9)
	jmp	Ldcsctp_BB5_24
Ldcsctp_BB5_75:
	testq	%r10, %r10
	movq	%r8, 24(%rsp)
	je	Ldcsctp_BB5_76
	movb	$1, %r9b
	cmpw	$4, %r12w
	jb	Ldcsctp_BB5_110
	movl	$1, %esi
	movq	%r10, %rdi
	callq	_rattle_alloc
	movb	$1, %r9b
	testb	$1, %al
	je	Ldcsctp_BB5_110
	movq	%rdx, %rbp
	movq	16(%rsp), %rdi
	leaq	4(%r14), %rsi
	leaq	-4(%r12), %r10
	movq	%rbp, %rax
	subq	%rsi, %rax
	cmpq	%r10, %rax
	jae	Ldcsctp_BB5_112
Ldcsctp_BB5_81:
	cmpl	$4, %r10d
	jae	Ldcsctp_BB5_83
	xorl	%eax, %eax
	movq	24(%rsp), %r8
	jmp	Ldcsctp_BB5_94
Ldcsctp_BB5_18:
	movl	(%rsi), %eax
	bswapl	%eax
	movq	(%rdi), %rcx
	movq	8(%rdi), %rdx
	leaq	(%rdx,%rdx,2), %rsi
	shlq	$4, %rsi
	movb	$4, (%rcx,%rsi)
	jmp	Ldcsctp_BB5_19
Ldcsctp_BB5_20:
	pxor	%xmm0, %xmm0
	pxor	%xmm1, %xmm1
	cmpl	$8, %r10d
	je	Ldcsctp_BB5_22
	movl	12(%r14), %eax
	movl	16(%r14), %ecx
	bswapl	%eax
	bswapl	%ecx
	movl	$1, %edx
	movd	%edx, %xmm1
	pinsrd	$1, %eax, %xmm1
	pinsrd	$2, %edx, %xmm1
	pinsrd	$3, %ecx, %xmm1
Ldcsctp_BB5_22:
	movl	8(%r14), %eax
	bswapl	%eax
	cmpl	$6, %eax
	movl	$6, %ecx
	cmovbl	%eax, %ecx
	movl	4(%r14), %eax
	bswapl	%eax
	movq	(%rdi), %rdx
	movq	8(%rdi), %rsi
	leaq	(%rsi,%rsi,2), %r9
	shlq	$4, %r9
	movb	$5, (%rdx,%r9)
	movl	%eax, 4(%rdx,%r9)
	movb	%cl, 8(%rdx,%r9)
	movw	$0, 9(%rdx,%r9)
	movb	$0, 11(%rdx,%r9)
	movdqu	%xmm1, 12(%rdx,%r9)
	movdqu	%xmm0, 28(%rdx,%r9)
	movl	$0, 44(%rdx,%r9)
	jmp	Ldcsctp_BB5_74
Ldcsctp_BB5_50:
	leaq	-8(%r12), %r15
	movq	%r15, %rbx
	shrq	%rbx
	je	Ldcsctp_BB5_51
	movb	$1, %r9b
	cmpw	$8, %r12w
	jb	Ldcsctp_BB5_110
	movq	%rsi, %rbp
	movq	%r8, %r12
	movabsq	$9223372036854775792, %rax
	leaq	14(%rax), %rdi
	andq	%r15, %rdi
	movl	$2, %esi
	callq	_rattle_alloc
	movb	$1, %r9b
	testb	$1, %al
	je	Ldcsctp_BB5_110
	cmpl	$8, %r15d
	jae	Ldcsctp_BB5_61
	xorl	%eax, %eax
	movq	%r12, %r8
	movq	16(%rsp), %rdi
	jmp	Ldcsctp_BB5_56
Ldcsctp_BB5_25:
	movl	4(%r14), %eax
	bswapl	%eax
	movzwl	8(%r14), %ecx
	rolw	$8, %cx
	movq	(%rdi), %rdx
	movq	8(%rdi), %rsi
	leaq	(%rsi,%rsi,2), %r9
	shlq	$4, %r9
	movb	$7, (%rdx,%r9)
Ldcsctp_BB5_24:
	movl	%eax, 4(%rdx,%r9)
	movw	%cx, 8(%rdx,%r9)
	incq	%rsi
	pxor	%xmm0, %xmm0
	movdqu	%xmm0, 10(%rdx,%r9)
	movdqu	%xmm0, 26(%rdx,%r9)
	movq	$0, 40(%rdx,%r9)
	movq	%rsi, 8(%rdi)
	jmp	Ldcsctp_BB5_108
Ldcsctp_BB5_76:
	leaq	14(%rsp), %rbp
	movq	%rbp, %rax
	subq	%rsi, %rax
	cmpq	%r10, %rax
	jb	Ldcsctp_BB5_81
Ldcsctp_BB5_112:
	movq	%rbp, %rdi
	movq	%r10, %rdx
	movq	%r10, %r12
	callq	_memmove
	movq	%r12, %r10
	movq	16(%rsp), %rdi
	movq	24(%rsp), %r8
	jmp	Ldcsctp_BB5_99
Ldcsctp_BB5_28:
	leaq	14(%rsp), %rdx
	jmp	Ldcsctp_BB5_49
Ldcsctp_BB5_51:
	leaq	14(%rsp), %rdx
	jmp	Ldcsctp_BB5_73
Ldcsctp_BB5_33:
	movq	%rdx, %rax
	subq	%r14, %rax
	addq	$-16, %rax
	cmpq	$32, %rax
	movq	%r12, %r8
	movq	16(%rsp), %rdi
	movdqa	32(%rsp), %xmm3
	jae	Ldcsctp_BB5_35
	xorl	%eax, %eax
	jmp	Ldcsctp_BB5_44
Ldcsctp_BB5_61:
	movq	%rdx, %rax
	subq	%r14, %rax
	addq	$-8, %rax
	cmpq	$32, %rax
	movq	%r12, %r8
	movq	16(%rsp), %rdi
	jae	Ldcsctp_BB5_63
	xorl	%eax, %eax
	jmp	Ldcsctp_BB5_56
Ldcsctp_BB5_83:
	movq	%rbp, %rax
	subq	%r14, %rax
	addq	$-4, %rax
	cmpq	$32, %rax
	movq	24(%rsp), %r8
	jae	Ldcsctp_BB5_85
	xorl	%eax, %eax
	jmp	Ldcsctp_BB5_94
Ldcsctp_BB5_35:
	cmpl	$32, %ebp
	jae	Ldcsctp_BB5_37
	xorl	%eax, %eax
	jmp	Ldcsctp_BB5_41
Ldcsctp_BB5_63:
	cmpl	$32, %r15d
	jae	Ldcsctp_BB5_65
	xorl	%eax, %eax
	jmp	Ldcsctp_BB5_69
Ldcsctp_BB5_85:
	cmpl	$32, %r10d
	jae	Ldcsctp_BB5_87
	xorl	%eax, %eax
	jmp	Ldcsctp_BB5_91
Ldcsctp_BB5_37:
	movq	%r15, %rax
	movabsq	$9223372036854775792, %rcx
	andq	%rcx, %rax
	xorl	%ecx, %ecx
	.p2align	4
Ldcsctp_BB5_38:
	movdqa	Ldcsctp_CPI5_0(%rip), %xmm0
	movdqu	16(%r14,%rcx,2), %xmm1
	movdqu	32(%r14,%rcx,2), %xmm2
	pshufb	%xmm0, %xmm1
	pshufb	%xmm0, %xmm2
	movdqu	%xmm1, (%rdx,%rcx,2)
	movdqu	%xmm2, 16(%rdx,%rcx,2)
	addq	$16, %rcx
	cmpq	%rcx, %rax
	jne	Ldcsctp_BB5_38
	cmpq	%rax, %r15
	je	Ldcsctp_BB5_49
	testb	$24, %bpl
	je	Ldcsctp_BB5_44
Ldcsctp_BB5_41:
	movq	%rax, %rcx
	movabsq	$9223372036854775792, %rax
	addq	$12, %rax
	andq	%r15, %rax
	.p2align	4
Ldcsctp_BB5_42:
	movq	16(%r14,%rcx,2), %xmm0
	pshufb	Ldcsctp_CPI5_1(%rip), %xmm0
	movq	%xmm0, (%rdx,%rcx,2)
	addq	$4, %rcx
	cmpq	%rcx, %rax
	jne	Ldcsctp_BB5_42
	cmpq	%rax, %r15
	je	Ldcsctp_BB5_49
Ldcsctp_BB5_44:
	movq	%r15, %rsi
	movq	%rax, %rcx
	andq	$3, %rsi
	je	Ldcsctp_BB5_47
	movq	%rax, %rcx
	.p2align	4
Ldcsctp_BB5_46:
	movzwl	16(%r14,%rcx,2), %r9d
	rolw	$8, %r9w
	movw	%r9w, (%rdx,%rcx,2)
	incq	%rcx
	decq	%rsi
	jne	Ldcsctp_BB5_46
Ldcsctp_BB5_47:
	subq	%r15, %rax
	cmpq	$-4, %rax
	ja	Ldcsctp_BB5_49
	.p2align	4
Ldcsctp_BB5_48:
	movzwl	16(%r14,%rcx,2), %eax
	rolw	$8, %ax
	movw	%ax, (%rdx,%rcx,2)
	movzwl	18(%r14,%rcx,2), %eax
	rolw	$8, %ax
	movw	%ax, 2(%rdx,%rcx,2)
	movzwl	20(%r14,%rcx,2), %eax
	rolw	$8, %ax
	movw	%ax, 4(%rdx,%rcx,2)
	movzwl	22(%r14,%rcx,2), %eax
	rolw	$8, %ax
	movw	%ax, 6(%rdx,%rcx,2)
	addq	$4, %rcx
	cmpq	%rcx, %r15
	jne	Ldcsctp_BB5_48
Ldcsctp_BB5_49:
	pshufb	Ldcsctp_CPI5_2(%rip), %xmm3
	bswapl	%ebx
	movq	(%rdi), %rax
	movq	8(%rdi), %rcx
	leaq	(%rcx,%rcx,2), %rsi
	shlq	$4, %rsi
	movb	$2, (%rax,%rsi)
	movl	$0, 4(%rax,%rsi)
	movq	%xmm3, 8(%rax,%rsi)
	movl	%ebx, 16(%rax,%rsi)
	movl	$0, 20(%rax,%rsi)
	movq	%rdx, 24(%rax,%rsi)
	movq	%r15, 32(%rax,%rsi)
	movq	%r15, 40(%rax,%rsi)
Ldcsctp_BB5_17:
	incq	%rcx
	movq	%rcx, 8(%rdi)
	jmp	Ldcsctp_BB5_108
Ldcsctp_BB5_65:
	movq	%rbx, %rax
	movabsq	$9223372036854775792, %rcx
	andq	%rcx, %rax
	xorl	%ecx, %ecx
	.p2align	4
Ldcsctp_BB5_66:
	movdqa	Ldcsctp_CPI5_0(%rip), %xmm0
	movdqu	8(%r14,%rcx,2), %xmm1
	movdqu	24(%r14,%rcx,2), %xmm2
	pshufb	%xmm0, %xmm1
	pshufb	%xmm0, %xmm2
	movdqu	%xmm1, (%rdx,%rcx,2)
	movdqu	%xmm2, 16(%rdx,%rcx,2)
	addq	$16, %rcx
	cmpq	%rcx, %rax
	jne	Ldcsctp_BB5_66
	cmpq	%rax, %rbx
	je	Ldcsctp_BB5_72
	testb	$24, %r15b
	je	Ldcsctp_BB5_56
Ldcsctp_BB5_69:
	movq	%rax, %rcx
	movabsq	$9223372036854775792, %rax
	addq	$12, %rax
	andq	%rbx, %rax
	.p2align	4
Ldcsctp_BB5_70:
	movq	8(%r14,%rcx,2), %xmm0
	pshufb	Ldcsctp_CPI5_1(%rip), %xmm0
	movq	%xmm0, (%rdx,%rcx,2)
	addq	$4, %rcx
	cmpq	%rcx, %rax
	jne	Ldcsctp_BB5_70
	cmpq	%rax, %rbx
	jne	Ldcsctp_BB5_56
Ldcsctp_BB5_72:
	movq	%rbp, %rsi
	jmp	Ldcsctp_BB5_73
Ldcsctp_BB5_56:
	movq	%rbx, %rsi
	movq	%rax, %rcx
	andq	$3, %rsi
	je	Ldcsctp_BB5_59
	movq	%rax, %rcx
	.p2align	4
Ldcsctp_BB5_58:
	movzwl	8(%r14,%rcx,2), %r9d
	rolw	$8, %r9w
	movw	%r9w, (%rdx,%rcx,2)
	incq	%rcx
	decq	%rsi
	jne	Ldcsctp_BB5_58
Ldcsctp_BB5_59:
	subq	%rbx, %rax
	movq	%rbp, %rsi
	cmpq	$-4, %rax
	ja	Ldcsctp_BB5_73
	.p2align	4
Ldcsctp_BB5_60:
	movzwl	8(%r14,%rcx,2), %eax
	rolw	$8, %ax
	movw	%ax, (%rdx,%rcx,2)
	movzwl	10(%r14,%rcx,2), %eax
	rolw	$8, %ax
	movw	%ax, 2(%rdx,%rcx,2)
	movzwl	12(%r14,%rcx,2), %eax
	rolw	$8, %ax
	movw	%ax, 4(%rdx,%rcx,2)
	movzwl	14(%r14,%rcx,2), %eax
	rolw	$8, %ax
	movw	%ax, 6(%rdx,%rcx,2)
	addq	$4, %rcx
	cmpq	%rcx, %rbx
	jne	Ldcsctp_BB5_60
Ldcsctp_BB5_73:
	movl	(%rsi), %eax
	bswapl	%eax
	movq	(%rdi), %rcx
	movq	8(%rdi), %rsi
	leaq	(%rsi,%rsi,2), %r9
	shlq	$4, %r9
	movb	$3, (%rcx,%r9)
	movl	$0, 4(%rcx,%r9)
	movl	%eax, 8(%rcx,%r9)
	movl	$0, 12(%rcx,%r9)
	movq	%rdx, 16(%rcx,%r9)
	movq	%rbx, 24(%rcx,%r9)
	movq	%rbx, 32(%rcx,%r9)
	movq	$0, 40(%rcx,%r9)
Ldcsctp_BB5_74:
	incq	%rsi
	movq	%rsi, 8(%rdi)
	jmp	Ldcsctp_BB5_108
Ldcsctp_BB5_87:
	movq	%r10, %rax
	andq	$-32, %rax
	xorl	%ecx, %ecx
	.p2align	4
Ldcsctp_BB5_88:
	movdqu	4(%r14,%rcx), %xmm0
	movdqu	20(%r14,%rcx), %xmm1
	movdqu	%xmm0, (%rbp,%rcx)
	movdqu	%xmm1, 16(%rbp,%rcx)
	addq	$32, %rcx
	cmpq	%rcx, %rax
	jne	Ldcsctp_BB5_88
	cmpl	%eax, %r10d
	je	Ldcsctp_BB5_99
	testb	$28, %r10b
	je	Ldcsctp_BB5_94
Ldcsctp_BB5_91:
	movq	%rax, %rcx
	movq	%r10, %rax
	andq	$-4, %rax
	.p2align	4
Ldcsctp_BB5_92:
	movl	(%rsi,%rcx), %edx
	movl	%edx, (%rbp,%rcx)
	addq	$4, %rcx
	cmpq	%rcx, %rax
	jne	Ldcsctp_BB5_92
	cmpl	%eax, %r10d
	je	Ldcsctp_BB5_99
Ldcsctp_BB5_94:
	movq	%r12, %rdx
	movq	%rax, %rcx
	andq	$3, %rdx
	je	Ldcsctp_BB5_97
	movq	%rax, %rcx
	.p2align	4
Ldcsctp_BB5_96:
	movzbl	(%rsi,%rcx), %r9d
	movb	%r9b, (%rbp,%rcx)
	incq	%rcx
	decq	%rdx
	jne	Ldcsctp_BB5_96
Ldcsctp_BB5_97:
	negq	%rax
	addq	%r12, %rax
	addq	$-5, %rax
	cmpl	$3, %eax
	jb	Ldcsctp_BB5_99
	.p2align	4
Ldcsctp_BB5_98:
	movzbl	4(%r14,%rcx), %eax
	movb	%al, (%rbp,%rcx)
	movzbl	5(%r14,%rcx), %eax
	movb	%al, 1(%rbp,%rcx)
	movzbl	6(%r14,%rcx), %eax
	movb	%al, 2(%rbp,%rcx)
	movzbl	7(%r14,%rcx), %eax
	movb	%al, 3(%rbp,%rcx)
	addq	$4, %rcx
	cmpq	%rcx, %r10
	jne	Ldcsctp_BB5_98
Ldcsctp_BB5_99:
	movq	8(%rdi), %rax
	leaq	(%rax,%rax,2), %rcx
	shlq	$4, %rcx
	addq	(%rdi), %rcx
	cmpl	$32776, %ebx
	je	Ldcsctp_BB5_105
	cmpl	$7, %ebx
	je	Ldcsctp_BB5_104
	cmpl	$1, %ebx
	jne	Ldcsctp_BB5_106
	movb	$0, (%rcx)
	jmp	Ldcsctp_BB5_103
Ldcsctp_BB5_104:
	movb	$1, (%rcx)
	jmp	Ldcsctp_BB5_103
Ldcsctp_BB5_105:
	movb	$9, (%rcx)
Ldcsctp_BB5_103:
	movl	$0, 4(%rcx)
	movq	%rbp, 8(%rcx)
	movq	%r10, 16(%rcx)
	movq	%r10, 24(%rcx)
	pxor	%xmm0, %xmm0
	movdqu	%xmm0, 32(%rcx)
	jmp	Ldcsctp_BB5_107
Ldcsctp_BB5_106:
	movb	$11, (%rcx)
	movl	$0, 4(%rcx)
	movw	%r15w, 8(%rcx)
	movl	$0, 10(%rcx)
	movw	$0, 14(%rcx)
	movq	%rbp, 16(%rcx)
	movq	%r10, 24(%rcx)
	movq	%r10, 32(%rcx)
	movq	$0, 40(%rcx)
Ldcsctp_BB5_107:
	incq	%rax
	movq	%rax, 8(%rdi)
	jmp	Ldcsctp_BB5_108
Ldcsctp_BB5_109:
	xorl	%r9d, %r9d
Ldcsctp_BB5_110:
	addq	$56, %rsp
	popq	%rbx
	popq	%r12
	popq	%r13
	popq	%r14
	popq	%r15
	popq	%rbp
	movl	%r9d, %eax
	retq
	.cfi_endproc
	.p2align	2
	.data_region jt32
L5_0_set_27 = Ldcsctp_BB5_27-Ldcsctp_JTI5_0
L5_0_set_50 = Ldcsctp_BB5_50-Ldcsctp_JTI5_0
L5_0_set_18 = Ldcsctp_BB5_18-Ldcsctp_JTI5_0
L5_0_set_20 = Ldcsctp_BB5_20-Ldcsctp_JTI5_0
L5_0_set_23 = Ldcsctp_BB5_23-Ldcsctp_JTI5_0
L5_0_set_25 = Ldcsctp_BB5_25-Ldcsctp_JTI5_0
Ldcsctp_JTI5_0:
	.long	L5_0_set_27
	.long	L5_0_set_50
	.long	L5_0_set_18
	.long	L5_0_set_20
	.long	L5_0_set_23
	.long	L5_0_set_25
	.end_data_region
	.section	__TEXT,__literal16,16byte_literals
	.p2align	4, 0x0
Ldcsctp_CPI6_0:
	.byte	1
	.byte	0
	.byte	3
	.byte	2
	.byte	5
	.byte	4
	.byte	7
	.byte	6
	.byte	9
	.byte	8
	.byte	11
	.byte	10
	.byte	13
	.byte	12
	.byte	15
	.byte	14
Ldcsctp_CPI6_1:
	.byte	1
	.byte	0
	.byte	3
	.byte	2
	.byte	5
	.byte	4
	.byte	7
	.byte	6
	.space	1
	.space	1
	.space	1
	.space	1
	.space	1
	.space	1
	.space	1
	.space	1
	.section	__TEXT,__text,regular,pure_instructions
	.p2align	4
_dcsctp_cause.error_causes.error_cause_fill:
	.cfi_startproc
	pushq	%rbp
	.cfi_def_cfa_offset 16
	pushq	%r15
	.cfi_def_cfa_offset 24
	pushq	%r14
	.cfi_def_cfa_offset 32
	pushq	%r13
	.cfi_def_cfa_offset 40
	pushq	%r12
	.cfi_def_cfa_offset 48
	pushq	%rbx
	.cfi_def_cfa_offset 56
	subq	$72, %rsp
	.cfi_def_cfa_offset 128
	.cfi_offset %rbx, -56
	.cfi_offset %r12, -48
	.cfi_offset %r13, -40
	.cfi_offset %r14, -32
	.cfi_offset %r15, -24
	.cfi_offset %rbp, -16
	testq	%rdx, %rdx
	je	Ldcsctp_BB6_115
	movq	%rdx, %r13
	movq	%rsi, %r14
	xorl	%ebx, %ebx
	movq	%rdx, %rax
	movq	%rsi, %rcx
	.p2align	4
Ldcsctp_BB6_2:
	movzwl	2(%rcx), %edx
	rolw	$8, %dx
	movzwl	%dx, %edx
	addl	$3, %edx
	andl	$-4, %edx
	cmpq	%rdx, %rax
	cmovbq	%rax, %rdx
	addq	%rdx, %rcx
	incq	%rbx
	subq	%rdx, %rax
	jne	Ldcsctp_BB6_2
	movq	8(%rdi), %rax
	movq	16(%rdi), %rcx
	movq	%rcx, %rdx
	subq	%rax, %rdx
	cmpq	%rdx, %rbx
	movq	%rdi, 16(%rsp)
	jbe	Ldcsctp_BB6_13
	movb	$1, %dl
	movl	%edx, 12(%rsp)
	addq	%rax, %rbx
	jb	Ldcsctp_BB6_116
	movabsq	$230584300921369395, %rdx
	cmpq	%rdx, %rbx
	ja	Ldcsctp_BB6_116
	testq	%rcx, %rcx
	je	Ldcsctp_BB6_8
	movq	(%rdi), %rdi
	shlq	$3, %rax
	leaq	(%rax,%rax,4), %rsi
	leaq	(,%rbx,8), %rax
	leaq	(%rax,%rax,4), %rdx
	movl	$8, %ecx
	callq	_rattle_realloc
	testb	$1, %al
	jne	Ldcsctp_BB6_9
	jmp	Ldcsctp_BB6_116
Ldcsctp_BB6_8:
	leaq	(,%rbx,8), %rax
	leaq	(%rax,%rax,4), %rdi
	movl	$8, %esi
	callq	_rattle_alloc
	testb	$1, %al
	je	Ldcsctp_BB6_116
Ldcsctp_BB6_9:
	movq	16(%rsp), %rdi
	movq	%rdx, (%rdi)
	movq	%rbx, 16(%rdi)
	jmp	Ldcsctp_BB6_13
Ldcsctp_BB6_25:
	movl	(%rsi), %eax
	bswapl	%eax
	movq	(%rdi), %rcx
	movq	8(%rdi), %rdx
	leaq	(%rdx,%rdx,4), %rsi
	movb	$2, (%rcx,%rsi,8)
	movl	%eax, 4(%rcx,%rsi,8)
	pxor	%xmm0, %xmm0
	movdqu	%xmm0, 8(%rcx,%rsi,8)
	movdqu	%xmm0, 24(%rcx,%rsi,8)
	incq	%rdx
	movq	%rdx, 8(%rdi)
	.p2align	4
Ldcsctp_BB6_12:
	addq	%r15, %r14
	subq	%r15, %r13
	je	Ldcsctp_BB6_115
Ldcsctp_BB6_13:
	movzwl	2(%r14), %eax
	rolw	$8, %ax
	movzwl	(%r14), %r9d
	movzwl	%ax, %ebx
	movl	%ebx, %r15d
	addl	$3, %r15d
	andl	$-4, %r15d
	cmpq	%r15, %r13
	cmovbq	%r13, %r15
	leaq	4(%r14), %rsi
	movl	%r9d, %ebp
	rolw	$8, %bp
	leaq	-4(%rbx), %r12
	movzwl	%bp, %eax
	addl	$-2, %eax
	cmpl	$11, %eax
	ja	Ldcsctp_BB6_19
	leaq	Ldcsctp_JTI6_0(%rip), %rcx
	movslq	(%rcx,%rax,4), %rax
	addq	%rcx, %rax
	jmpq	*%rax
Ldcsctp_BB6_15:
	movl	4(%r14), %eax
	testl	%eax, %eax
	movl	%eax, %r12d
	bswapl	%r12d
	je	Ldcsctp_BB6_44
	leaq	(%r12,%r12), %rbx
	movl	$2, %esi
	movq	%rbx, %rdi
	callq	_rattle_alloc
	testb	$1, %al
	je	Ldcsctp_BB6_117
	cmpl	$4, %r12d
	jae	Ldcsctp_BB6_49
	xorl	%eax, %eax
	movq	16(%rsp), %rdi
	jmp	Ldcsctp_BB6_93
Ldcsctp_BB6_19:
	testq	%r12, %r12
	movq	%r13, 64(%rsp)
	je	Ldcsctp_BB6_42
	movb	$1, %al
	movl	%eax, 12(%rsp)
	cmpw	$4, %bx
	jb	Ldcsctp_BB6_116
	movw	%r9w, 30(%rsp)
	movl	$1, %esi
	movq	%r12, %rdi
	callq	_rattle_alloc
	testb	$1, %al
	je	Ldcsctp_BB6_116
	movq	%rdx, %r13
	leaq	4(%r14), %rsi
	movq	16(%rsp), %rdi
	movzwl	30(%rsp), %r9d
	movq	%r13, %rax
	subq	%rsi, %rax
	cmpq	%r12, %rax
	jae	Ldcsctp_BB6_43
Ldcsctp_BB6_23:
	cmpl	$4, %r12d
	jb	Ldcsctp_BB6_24
	movq	%r13, %rax
	subq	%r14, %rax
	addq	$-4, %rax
	cmpq	$32, %rax
	jae	Ldcsctp_BB6_55
Ldcsctp_BB6_24:
	xorl	%eax, %eax
Ldcsctp_BB6_106:
	movq	%rbx, %rdx
	movq	%rax, %rcx
	andq	$3, %rdx
	je	Ldcsctp_BB6_109
	movq	%rax, %rcx
	.p2align	4
Ldcsctp_BB6_108:
	movzbl	(%rsi,%rcx), %r8d
	movb	%r8b, (%r13,%rcx)
	incq	%rcx
	decq	%rdx
	jne	Ldcsctp_BB6_108
Ldcsctp_BB6_109:
	negq	%rax
	addq	%rbx, %rax
	addq	$-5, %rax
	cmpl	$3, %eax
	jb	Ldcsctp_BB6_111
	.p2align	4
Ldcsctp_BB6_110:
	movzbl	4(%r14,%rcx), %eax
	movb	%al, (%r13,%rcx)
	movzbl	5(%r14,%rcx), %eax
	movb	%al, 1(%r13,%rcx)
	movzbl	6(%r14,%rcx), %eax
	movb	%al, 2(%r13,%rcx)
	movzbl	7(%r14,%rcx), %eax
	movb	%al, 3(%r13,%rcx)
	addq	$4, %rcx
	cmpq	%rcx, %r12
	jne	Ldcsctp_BB6_110
	jmp	Ldcsctp_BB6_111
Ldcsctp_BB6_10:
	movq	(%rdi), %rax
	movq	8(%rdi), %rcx
	leaq	(%rcx,%rcx,4), %rdx
	movb	$3, (%rax,%rdx,8)
	incq	%rcx
	pxor	%xmm0, %xmm0
	movdqu	%xmm0, 4(%rax,%rdx,8)
	movdqu	%xmm0, 20(%rax,%rdx,8)
	movl	$0, 36(%rax,%rdx,8)
	jmp	Ldcsctp_BB6_11
Ldcsctp_BB6_26:
	movq	%r13, %rbx
	pxor	%xmm0, %xmm0
	movdqa	%xmm0, 32(%rsp)
	movq	$0, 48(%rsp)
	leaq	32(%rsp), %rdi
	movq	%r12, %rdx
	callq	_core.str.utf8.from_utf8
	cmpb	$0, 32(%rsp)
	leaq	l_static.0(%rip), %r13
	cmoveq	40(%rsp), %r13
	movl	$28, %r12d
	cmoveq	48(%rsp), %r12
	testq	%r12, %r12
	je	Ldcsctp_BB6_45
	movb	$1, %al
	movl	%eax, 12(%rsp)
	js	Ldcsctp_BB6_116
	movl	$1, %esi
	movq	%r12, %rdi
	callq	_rattle_alloc
	testb	$1, %al
	je	Ldcsctp_BB6_116
	movq	%rdx, %rbp
	movq	%rbp, %rcx
	subq	%r13, %rcx
	cmpq	%r12, %rcx
	jae	Ldcsctp_BB6_46
Ldcsctp_BB6_30:
	xorl	%eax, %eax
	cmpq	$4, %r12
	jb	Ldcsctp_BB6_57
	cmpq	$32, %rcx
	movq	16(%rsp), %rdi
	jb	Ldcsctp_BB6_66
	cmpq	$32, %r12
	jae	Ldcsctp_BB6_59
	xorl	%eax, %eax
	jmp	Ldcsctp_BB6_63
Ldcsctp_BB6_34:
	movq	%r13, %rbx
	pxor	%xmm0, %xmm0
	movdqa	%xmm0, 32(%rsp)
	movq	$0, 48(%rsp)
	leaq	32(%rsp), %rdi
	movq	%r12, %rdx
	callq	_core.str.utf8.from_utf8
	cmpb	$0, 32(%rsp)
	leaq	l_static.1(%rip), %r13
	cmoveq	40(%rsp), %r13
	movl	$38, %r12d
	cmoveq	48(%rsp), %r12
	testq	%r12, %r12
	je	Ldcsctp_BB6_47
	movb	$1, %al
	movl	%eax, 12(%rsp)
	js	Ldcsctp_BB6_116
	movl	$1, %esi
	movq	%r12, %rdi
	callq	_rattle_alloc
	testb	$1, %al
	je	Ldcsctp_BB6_116
	movq	%rdx, %rbp
	movq	%rbp, %rcx
	subq	%r13, %rcx
	cmpq	%r12, %rcx
	jae	Ldcsctp_BB6_48
Ldcsctp_BB6_38:
	xorl	%eax, %eax
	cmpq	$4, %r12
	jb	Ldcsctp_BB6_58
	cmpq	$32, %rcx
	movq	16(%rsp), %rdi
	jb	Ldcsctp_BB6_79
	cmpq	$32, %r12
	jae	Ldcsctp_BB6_72
	xorl	%eax, %eax
	jmp	Ldcsctp_BB6_76
Ldcsctp_BB6_42:
	leaq	10(%rsp), %r13
	movq	%r13, %rax
	subq	%rsi, %rax
	cmpq	%r12, %rax
	jb	Ldcsctp_BB6_23
Ldcsctp_BB6_43:
	movq	%r13, %rdi
	movq	%r12, %rdx
	movl	%r9d, %ebx
	callq	_memmove
	movl	%ebx, %r9d
	movq	16(%rsp), %rdi
Ldcsctp_BB6_111:
	movzwl	%r9w, %edx
	movq	8(%rdi), %rax
	leaq	(%rax,%rax,4), %rcx
	shlq	$3, %rcx
	addq	(%rdi), %rcx
	cmpl	$1536, %edx
	jne	Ldcsctp_BB6_113
	movb	$1, (%rcx)
	movl	$0, 4(%rcx)
	movq	%r13, 8(%rcx)
	movq	%r12, 16(%rcx)
	movq	%r12, 24(%rcx)
	movq	$0, 32(%rcx)
	jmp	Ldcsctp_BB6_114
Ldcsctp_BB6_113:
	movb	$6, (%rcx)
	movl	$0, 4(%rcx)
	movw	%bp, 8(%rcx)
	movl	$0, 10(%rcx)
	movw	$0, 14(%rcx)
	movq	%r13, 16(%rcx)
	movq	%r12, 24(%rcx)
	movq	%r12, 32(%rcx)
Ldcsctp_BB6_114:
	incq	%rax
	movq	%rax, 8(%rdi)
	movq	64(%rsp), %r13
	jmp	Ldcsctp_BB6_12
Ldcsctp_BB6_44:
	leaq	10(%rsp), %rdx
	jmp	Ldcsctp_BB6_98
Ldcsctp_BB6_45:
	leaq	10(%rsp), %rbp
	movq	%rbp, %rcx
	subq	%r13, %rcx
	cmpq	%r12, %rcx
	jb	Ldcsctp_BB6_30
Ldcsctp_BB6_46:
	movq	%rbp, %rdi
	movq	%r13, %rsi
	movq	%r12, %rdx
	callq	_memmove
	movq	16(%rsp), %rdi
	jmp	Ldcsctp_BB6_71
Ldcsctp_BB6_47:
	leaq	10(%rsp), %rbp
	movq	%rbp, %rcx
	subq	%r13, %rcx
	cmpq	%r12, %rcx
	jb	Ldcsctp_BB6_38
Ldcsctp_BB6_48:
	movq	%rbp, %rdi
	movq	%r13, %rsi
	movq	%r12, %rdx
	callq	_memmove
	movq	16(%rsp), %rdi
	jmp	Ldcsctp_BB6_84
Ldcsctp_BB6_49:
	movq	%rdx, %rax
	subq	%r14, %rax
	addq	$-8, %rax
	cmpq	$32, %rax
	movq	16(%rsp), %rdi
	jae	Ldcsctp_BB6_53
	xorl	%eax, %eax
	jmp	Ldcsctp_BB6_93
Ldcsctp_BB6_53:
	cmpl	$16, %r12d
	jae	Ldcsctp_BB6_86
	xorl	%eax, %eax
	jmp	Ldcsctp_BB6_90
Ldcsctp_BB6_55:
	cmpl	$32, %r12d
	jae	Ldcsctp_BB6_99
	xorl	%eax, %eax
	jmp	Ldcsctp_BB6_103
Ldcsctp_BB6_57:
	movq	16(%rsp), %rdi
	jmp	Ldcsctp_BB6_66
Ldcsctp_BB6_58:
	movq	16(%rsp), %rdi
	jmp	Ldcsctp_BB6_79
Ldcsctp_BB6_59:
	movq	%r12, %rax
	andq	$-32, %rax
	xorl	%ecx, %ecx
	.p2align	4
Ldcsctp_BB6_60:
	movdqu	(%r13,%rcx), %xmm0
	movdqu	16(%r13,%rcx), %xmm1
	movdqu	%xmm0, (%rbp,%rcx)
	movdqu	%xmm1, 16(%rbp,%rcx)
	addq	$32, %rcx
	cmpq	%rcx, %rax
	jne	Ldcsctp_BB6_60
	cmpq	%rax, %r12
	je	Ldcsctp_BB6_71
	testb	$28, %r12b
	je	Ldcsctp_BB6_66
Ldcsctp_BB6_63:
	movq	%rax, %rcx
	movq	%r12, %rax
	andq	$-4, %rax
	.p2align	4
Ldcsctp_BB6_64:
	movl	(%r13,%rcx), %edx
	movl	%edx, (%rbp,%rcx)
	addq	$4, %rcx
	cmpq	%rcx, %rax
	jne	Ldcsctp_BB6_64
	cmpq	%rax, %r12
	je	Ldcsctp_BB6_71
Ldcsctp_BB6_66:
	movq	%r12, %rdx
	movq	%rax, %rcx
	andq	$3, %rdx
	je	Ldcsctp_BB6_69
	movq	%rax, %rcx
	.p2align	4
Ldcsctp_BB6_68:
	movzbl	(%r13,%rcx), %esi
	movb	%sil, (%rbp,%rcx)
	incq	%rcx
	decq	%rdx
	jne	Ldcsctp_BB6_68
Ldcsctp_BB6_69:
	subq	%r12, %rax
	cmpq	$-4, %rax
	ja	Ldcsctp_BB6_71
	.p2align	4
Ldcsctp_BB6_70:
	movzbl	(%r13,%rcx), %eax
	movb	%al, (%rbp,%rcx)
	movzbl	1(%r13,%rcx), %eax
	movb	%al, 1(%rbp,%rcx)
	movzbl	2(%r13,%rcx), %eax
	movb	%al, 2(%rbp,%rcx)
	movzbl	3(%r13,%rcx), %eax
	movb	%al, 3(%rbp,%rcx)
	addq	$4, %rcx
	cmpq	%rcx, %r12
	jne	Ldcsctp_BB6_70
Ldcsctp_BB6_71:
	movq	(%rdi), %rax
	movq	8(%rdi), %rcx
	leaq	(%rcx,%rcx,4), %rdx
	movb	$4, (%rax,%rdx,8)
	jmp	Ldcsctp_BB6_85
Ldcsctp_BB6_72:
	movq	%r12, %rax
	andq	$-32, %rax
	xorl	%ecx, %ecx
	.p2align	4
Ldcsctp_BB6_73:
	movdqu	(%r13,%rcx), %xmm0
	movdqu	16(%r13,%rcx), %xmm1
	movdqu	%xmm0, (%rbp,%rcx)
	movdqu	%xmm1, 16(%rbp,%rcx)
	addq	$32, %rcx
	cmpq	%rcx, %rax
	jne	Ldcsctp_BB6_73
	cmpq	%rax, %r12
	je	Ldcsctp_BB6_84
	testb	$28, %r12b
	je	Ldcsctp_BB6_79
Ldcsctp_BB6_76:
	movq	%rax, %rcx
	movq	%r12, %rax
	andq	$-4, %rax
	.p2align	4
Ldcsctp_BB6_77:
	movl	(%r13,%rcx), %edx
	movl	%edx, (%rbp,%rcx)
	addq	$4, %rcx
	cmpq	%rcx, %rax
	jne	Ldcsctp_BB6_77
	cmpq	%rax, %r12
	je	Ldcsctp_BB6_84
Ldcsctp_BB6_79:
	movq	%r12, %rdx
	movq	%rax, %rcx
	andq	$3, %rdx
	je	Ldcsctp_BB6_82
	movq	%rax, %rcx
	.p2align	4
Ldcsctp_BB6_81:
	movzbl	(%r13,%rcx), %esi
	movb	%sil, (%rbp,%rcx)
	incq	%rcx
	decq	%rdx
	jne	Ldcsctp_BB6_81
Ldcsctp_BB6_82:
	subq	%r12, %rax
	cmpq	$-4, %rax
	ja	Ldcsctp_BB6_84
	.p2align	4
Ldcsctp_BB6_83:
	movzbl	(%r13,%rcx), %eax
	movb	%al, (%rbp,%rcx)
	movzbl	1(%r13,%rcx), %eax
	movb	%al, 1(%rbp,%rcx)
	movzbl	2(%r13,%rcx), %eax
	movb	%al, 2(%rbp,%rcx)
	movzbl	3(%r13,%rcx), %eax
	movb	%al, 3(%rbp,%rcx)
	addq	$4, %rcx
	cmpq	%rcx, %r12
	jne	Ldcsctp_BB6_83
Ldcsctp_BB6_84:
	movq	(%rdi), %rax
	movq	8(%rdi), %rcx
	leaq	(%rcx,%rcx,4), %rdx
	movb	$5, (%rax,%rdx,8)
Ldcsctp_BB6_85:
	movl	$0, 4(%rax,%rdx,8)
	movq	%rbp, 8(%rax,%rdx,8)
	movq	%r12, 16(%rax,%rdx,8)
	movq	%r12, 24(%rax,%rdx,8)
	movq	$0, 32(%rax,%rdx,8)
	incq	%rcx
	movq	%rcx, 8(%rdi)
	movq	%rbx, %r13
	jmp	Ldcsctp_BB6_12
Ldcsctp_BB6_86:
	movl	%r12d, %eax
	andl	$-16, %eax
	andq	$-32, %rbx
	xorl	%ecx, %ecx
	.p2align	4
Ldcsctp_BB6_87:
	movdqa	Ldcsctp_CPI6_0(%rip), %xmm0
	movdqu	8(%r14,%rcx), %xmm1
	movdqu	24(%r14,%rcx), %xmm2
	pshufb	%xmm0, %xmm1
	pshufb	%xmm0, %xmm2
	movdqu	%xmm1, (%rdx,%rcx)
	movdqu	%xmm2, 16(%rdx,%rcx)
	addq	$32, %rcx
	cmpq	%rcx, %rbx
	jne	Ldcsctp_BB6_87
	cmpl	%r12d, %eax
	je	Ldcsctp_BB6_98
	testb	$12, %r12b
	je	Ldcsctp_BB6_93
Ldcsctp_BB6_90:
	movq	%rax, %rcx
	movl	%r12d, %eax
	andl	$-4, %eax
	.p2align	4
Ldcsctp_BB6_91:
	movq	8(%r14,%rcx,2), %xmm0
	pshufb	Ldcsctp_CPI6_1(%rip), %xmm0
	movq	%xmm0, (%rdx,%rcx,2)
	addq	$4, %rcx
	cmpq	%rcx, %rax
	jne	Ldcsctp_BB6_91
	cmpl	%r12d, %eax
	je	Ldcsctp_BB6_98
Ldcsctp_BB6_93:
	movq	%r12, %rsi
	movq	%rax, %rcx
	andq	$3, %rsi
	je	Ldcsctp_BB6_96
	movq	%rax, %rcx
	.p2align	4
Ldcsctp_BB6_95:
	movzwl	8(%r14,%rcx,2), %r8d
	rolw	$8, %r8w
	movw	%r8w, (%rdx,%rcx,2)
	incq	%rcx
	decq	%rsi
	jne	Ldcsctp_BB6_95
Ldcsctp_BB6_96:
	subq	%r12, %rax
	cmpq	$-4, %rax
	ja	Ldcsctp_BB6_98
	.p2align	4
Ldcsctp_BB6_97:
	movzwl	8(%r14,%rcx,2), %eax
	rolw	$8, %ax
	movw	%ax, (%rdx,%rcx,2)
	movzwl	10(%r14,%rcx,2), %eax
	rolw	$8, %ax
	movw	%ax, 2(%rdx,%rcx,2)
	movzwl	12(%r14,%rcx,2), %eax
	rolw	$8, %ax
	movw	%ax, 4(%rdx,%rcx,2)
	movzwl	14(%r14,%rcx,2), %eax
	rolw	$8, %ax
	movw	%ax, 6(%rdx,%rcx,2)
	addq	$4, %rcx
	cmpq	%rcx, %r12
	jne	Ldcsctp_BB6_97
Ldcsctp_BB6_98:
	movq	(%rdi), %rax
	movq	8(%rdi), %rcx
	leaq	(%rcx,%rcx,4), %rsi
	movb	$0, (%rax,%rsi,8)
	movl	$0, 4(%rax,%rsi,8)
	movq	%rdx, 8(%rax,%rsi,8)
	movq	%r12, 16(%rax,%rsi,8)
	movq	%r12, 24(%rax,%rsi,8)
	movq	$0, 32(%rax,%rsi,8)
	incq	%rcx
Ldcsctp_BB6_11:
	movq	%rcx, 8(%rdi)
	jmp	Ldcsctp_BB6_12
Ldcsctp_BB6_99:
	movq	%r12, %rax
	andq	$-32, %rax
	xorl	%ecx, %ecx
	.p2align	4
Ldcsctp_BB6_100:
	movdqu	4(%r14,%rcx), %xmm0
	movdqu	20(%r14,%rcx), %xmm1
	movdqu	%xmm0, (%r13,%rcx)
	movdqu	%xmm1, 16(%r13,%rcx)
	addq	$32, %rcx
	cmpq	%rcx, %rax
	jne	Ldcsctp_BB6_100
	cmpl	%eax, %r12d
	je	Ldcsctp_BB6_111
	testb	$28, %r12b
	je	Ldcsctp_BB6_106
Ldcsctp_BB6_103:
	movq	%rax, %rcx
	movq	%r12, %rax
	andq	$-4, %rax
	.p2align	4
Ldcsctp_BB6_104:
	movl	(%rsi,%rcx), %edx
	movl	%edx, (%r13,%rcx)
	addq	$4, %rcx
	cmpq	%rcx, %rax
	jne	Ldcsctp_BB6_104
	cmpl	%eax, %r12d
	je	Ldcsctp_BB6_111
	jmp	Ldcsctp_BB6_106
Ldcsctp_BB6_115:
	movl	$0, 12(%rsp)
Ldcsctp_BB6_116:
	movl	12(%rsp), %eax
	addq	$72, %rsp
	popq	%rbx
	popq	%r12
	popq	%r13
	popq	%r14
	popq	%r15
	popq	%rbp
	retq
Ldcsctp_BB6_117:
	movb	$1, %al
	movl	%eax, 12(%rsp)
	jmp	Ldcsctp_BB6_116
	.cfi_endproc
	.p2align	2
	.data_region jt32
L6_0_set_15 = Ldcsctp_BB6_15-Ldcsctp_JTI6_0
L6_0_set_19 = Ldcsctp_BB6_19-Ldcsctp_JTI6_0
L6_0_set_25 = Ldcsctp_BB6_25-Ldcsctp_JTI6_0
L6_0_set_10 = Ldcsctp_BB6_10-Ldcsctp_JTI6_0
L6_0_set_26 = Ldcsctp_BB6_26-Ldcsctp_JTI6_0
L6_0_set_34 = Ldcsctp_BB6_34-Ldcsctp_JTI6_0
Ldcsctp_JTI6_0:
	.long	L6_0_set_15
	.long	L6_0_set_19
	.long	L6_0_set_19
	.long	L6_0_set_19
	.long	L6_0_set_19
	.long	L6_0_set_19
	.long	L6_0_set_19
	.long	L6_0_set_25
	.long	L6_0_set_10
	.long	L6_0_set_19
	.long	L6_0_set_26
	.long	L6_0_set_34
	.end_data_region
	.p2align	4
_core.str.utf8.from_utf8:
	.cfi_startproc
	pushq	%r15
	.cfi_def_cfa_offset 16
	pushq	%r14
	.cfi_def_cfa_offset 24
	pushq	%r13
	.cfi_def_cfa_offset 32
	pushq	%r12
	.cfi_def_cfa_offset 40
	pushq	%rbx
	.cfi_def_cfa_offset 48
	subq	$16, %rsp
	.cfi_def_cfa_offset 64
	.cfi_offset %rbx, -48
	.cfi_offset %r12, -40
	.cfi_offset %r13, -32
	.cfi_offset %r14, -24
	.cfi_offset %r15, -16
	movq	%rdx, %r15
	movq	%rsi, %r14
	movq	%rdi, %rbx
	testq	%rdx, %rdx
	je	Ldcsctp_BB7_57
	movabsq	$-9187201950435737472, %r12
	leaq	-8(%r15), %r13
	xorl	%ecx, %ecx
	jmp	Ldcsctp_BB7_5
Ldcsctp_BB7_25:
	movl	$1, %edi
Ldcsctp_BB7_3:
	addq	%rcx, %rdi
Ldcsctp_BB7_4:
	movq	%rdi, %rcx
	cmpq	%r15, %rdi
	jae	Ldcsctp_BB7_57
Ldcsctp_BB7_5:
	movzbl	(%r14,%rcx), %esi
	testb	%sil, %sil
	sets	%dl
	movq	%r15, %rax
	subq	%rcx, %rax
	cmpq	$2, %rax
	setb	%dil
	orb	%dl, %dil
	jne	Ldcsctp_BB7_2
	cmpb	$0, 1(%r14,%rcx)
	js	Ldcsctp_BB7_25
	movq	%r14, (%rsp)
	movq	%r15, 8(%rsp)
	cmpq	$7, %rax
	ja	Ldcsctp_BB7_26
	cmpb	$0, (%r14,%rcx)
	js	Ldcsctp_BB7_36
	leaq	1(%rcx), %rdi
	cmpq	%r15, %rdi
	je	Ldcsctp_BB7_57
	cmpb	$0, (%r14,%rdi)
	js	Ldcsctp_BB7_4
	leaq	2(%rcx), %rdi
	cmpq	%r15, %rdi
	je	Ldcsctp_BB7_57
	cmpb	$0, (%r14,%rdi)
	js	Ldcsctp_BB7_4
	leaq	3(%rcx), %rdi
	cmpq	%r15, %rdi
	je	Ldcsctp_BB7_57
	cmpb	$0, (%r14,%rdi)
	js	Ldcsctp_BB7_4
	leaq	4(%rcx), %rdi
	cmpq	%r15, %rdi
	je	Ldcsctp_BB7_57
	cmpb	$0, (%r14,%rdi)
	js	Ldcsctp_BB7_4
	leaq	5(%rcx), %rdi
	cmpq	%r15, %rdi
	je	Ldcsctp_BB7_57
	cmpb	$0, (%r14,%rdi)
	js	Ldcsctp_BB7_4
	addq	$6, %rcx
	cmpq	%r15, %rcx
	je	Ldcsctp_BB7_57
	cmpb	$0, (%r14,%rcx)
	movq	%rcx, %rdi
	js	Ldcsctp_BB7_4
	jmp	Ldcsctp_BB7_57
	.p2align	4
Ldcsctp_BB7_2:
	movl	$1, %edi
	testb	%sil, %sil
	jns	Ldcsctp_BB7_3
	movl	$257, %edx
	cmpb	$-62, %sil
	jb	Ldcsctp_BB7_66
	cmpb	$-33, %sil
	ja	Ldcsctp_BB7_29
	cmpq	$2, %rax
	jb	Ldcsctp_BB7_58
	movzbl	1(%r14,%rcx), %r8d
	movl	$2, %edi
	cmpb	$-65, %r8b
	jle	Ldcsctp_BB7_3
	jmp	Ldcsctp_BB7_60
Ldcsctp_BB7_26:
	movq	(%r14,%rcx), %rax
	andq	%r12, %rax
	je	Ldcsctp_BB7_37
	rep		bsfq	%rax, %rax
	shrl	$3, %eax
	addq	%rcx, %rax
	addq	$8, %rcx
	movq	%rax, %rdi
	cmpq	%rcx, %rax
	jb	Ldcsctp_BB7_4
	movq	%r15, %rcx
	subq	%rax, %rcx
	cmpq	$32, %rcx
	jae	Ldcsctp_BB7_38
	jmp	Ldcsctp_BB7_40
Ldcsctp_BB7_29:
	cmpb	$-17, %sil
	ja	Ldcsctp_BB7_48
	cmpq	$3, %rax
	jb	Ldcsctp_BB7_55
	movzbl	1(%r14,%rcx), %r8d
	cmpb	$-65, %r8b
	jg	Ldcsctp_BB7_60
	cmpb	$-65, 2(%r14,%rcx)
	jg	Ldcsctp_BB7_60
	movzbl	%r8b, %edi
	movl	%esi, %r9d
	shll	$6, %r9d
	addl	%edi, %r9d
	addl	$-14464, %r9d
	cmpl	$32, %r9d
	jb	Ldcsctp_BB7_60
	xorl	%r8d, %r8d
	cmpl	$896, %r9d
	setae	%r10b
	movl	$3, %edi
	cmpl	$864, %r9d
	jb	Ldcsctp_BB7_3
	movb	%r10b, %r8b
	leaq	(%r8,%r8,2), %rdi
	testq	%rdi, %rdi
	jne	Ldcsctp_BB7_3
	jmp	Ldcsctp_BB7_54
Ldcsctp_BB7_36:
	movq	%rcx, %rdi
	jmp	Ldcsctp_BB7_4
Ldcsctp_BB7_37:
	addq	$8, %rcx
	movq	%rcx, %rax
	movq	%r15, %rcx
	subq	%rax, %rcx
	cmpq	$32, %rcx
	jb	Ldcsctp_BB7_40
	.p2align	4
Ldcsctp_BB7_38:
	movdqu	(%r14,%rax), %xmm0
	movdqu	16(%r14,%rax), %xmm1
	por	%xmm0, %xmm1
	pshufd	$238, %xmm1, %xmm0
	por	%xmm1, %xmm0
	movq	%xmm0, %rcx
	testq	%r12, %rcx
	jne	Ldcsctp_BB7_40
	addq	$32, %rax
	movq	%rsp, %rdi
	movq	%rax, %rsi
	movq	%r15, %rdx
	callq	_core.slice.words.skip_far.52f9edcae2f82f51
	movq	%r15, %rcx
	subq	%rax, %rcx
	cmpq	$31, %rcx
	ja	Ldcsctp_BB7_38
Ldcsctp_BB7_40:
	movq	%r15, %rcx
	subq	%rax, %rcx
	jmp	Ldcsctp_BB7_43
	.p2align	4
Ldcsctp_BB7_41:
	rep		bsfq	%rdx, %rdi
	shrl	$3, %edi
	addq	%rax, %rdi
	addq	$8, %rax
	addq	$-8, %rcx
	cmpq	%rax, %rdi
	jb	Ldcsctp_BB7_4
Ldcsctp_BB7_43:
	cmpq	$9, %rcx
	jb	Ldcsctp_BB7_46
	movq	(%r14,%rax), %rdx
	andq	%r12, %rdx
	jne	Ldcsctp_BB7_41
	leaq	8(%rax), %rdi
	addq	$8, %rax
	addq	$-8, %rcx
	cmpq	%rax, %rdi
	jae	Ldcsctp_BB7_43
	jmp	Ldcsctp_BB7_4
Ldcsctp_BB7_46:
	movq	(%r14,%r13), %rax
	andq	%r12, %rax
	je	Ldcsctp_BB7_57
	rep		bsfq	%rax, %rdi
	shrl	$3, %edi
	addq	%r13, %rdi
	jmp	Ldcsctp_BB7_4
Ldcsctp_BB7_48:
	cmpq	$4, %rax
	jb	Ldcsctp_BB7_54
	movzbl	1(%r14,%rcx), %edi
	cmpb	$-65, %dil
	jg	Ldcsctp_BB7_54
	cmpb	$-65, 2(%r14,%rcx)
	jg	Ldcsctp_BB7_54
	cmpb	$-65, 3(%r14,%rcx)
	jg	Ldcsctp_BB7_54
	movl	%esi, %r8d
	shll	$6, %r8d
	leal	(%r8,%rdi), %r9d
	addl	$-15488, %r9d
	xorl	%edi, %edi
	cmpl	$272, %r9d
	setb	%r8b
	cmpl	$16, %r9d
	jb	Ldcsctp_BB7_54
	movb	%r8b, %dil
	shll	$2, %edi
	testq	%rdi, %rdi
	jne	Ldcsctp_BB7_3
Ldcsctp_BB7_54:
	cmpb	$-12, %sil
	ja	Ldcsctp_BB7_66
Ldcsctp_BB7_55:
	cmpq	$2, %rax
	jb	Ldcsctp_BB7_58
	movzbl	1(%r14,%rcx), %r8d
Ldcsctp_BB7_60:
	cmpl	$240, %esi
	sete	%dil
	shlb	$4, %dil
	orb	$-128, %dil
	cmpl	$224, %esi
	movzbl	%dil, %edi
	movl	$160, %r9d
	cmovnel	%edi, %r9d
	cmpl	$244, %esi
	movl	$143, %edi
	movl	$191, %r10d
	cmovel	%edi, %r10d
	cmpl	$237, %esi
	movl	$159, %esi
	cmovnel	%r10d, %esi
	cmpb	%r8b, %r9b
	ja	Ldcsctp_BB7_66
	cmpb	%sil, %r8b
	ja	Ldcsctp_BB7_66
	cmpq	$2, %rax
	jne	Ldcsctp_BB7_64
Ldcsctp_BB7_58:
	xorl	%edx, %edx
Ldcsctp_BB7_66:
	movq	$1, (%rbx)
	movq	%rcx, 8(%rbx)
	movq	%rdx, 16(%rbx)
	jmp	Ldcsctp_BB7_67
Ldcsctp_BB7_57:
	movq	$0, (%rbx)
	movq	%r14, 8(%rbx)
	movq	%r15, 16(%rbx)
Ldcsctp_BB7_67:
	addq	$16, %rsp
	popq	%rbx
	popq	%r12
	popq	%r13
	popq	%r14
	popq	%r15
	retq
Ldcsctp_BB7_64:
	movl	$513, %edx
	cmpb	$-65, 2(%r14,%rcx)
	jg	Ldcsctp_BB7_66
	xorl	%esi, %esi
	cmpq	$4, %rax
	movl	$769, %edx
	cmovbq	%rsi, %rdx
	jmp	Ldcsctp_BB7_66
	.cfi_endproc
	.section	__TEXT,__literal16,16byte_literals
	.p2align	4, 0x0
Ldcsctp_CPI8_0:
	.space	16,128
	.section	__TEXT,__text,regular,pure_instructions
	.p2align	4
_core.slice.words.skip_far.52f9edcae2f82f51:
	.cfi_startproc
	movq	%rsi, %rax
	subq	%rsi, %rdx
	cmpq	$64, %rdx
	jb	Ldcsctp_BB8_4
	movq	(%rdi), %rcx
	.p2align	4
Ldcsctp_BB8_2:
	movdqu	(%rcx,%rax), %xmm0
	movdqu	16(%rcx,%rax), %xmm1
	movdqu	32(%rcx,%rax), %xmm2
	por	%xmm0, %xmm2
	movdqu	48(%rcx,%rax), %xmm0
	por	%xmm1, %xmm0
	por	%xmm2, %xmm0
	ptest	Ldcsctp_CPI8_0(%rip), %xmm0
	jne	Ldcsctp_BB8_4
	addq	$64, %rax
	addq	$-64, %rdx
	cmpq	$63, %rdx
	ja	Ldcsctp_BB8_2
Ldcsctp_BB8_4:
	retq
	.cfi_endproc
	.p2align	4
_std_alloc.vec.Vec.drop.765a829dcb308622:
	.cfi_startproc
	pushq	%r15
	.cfi_def_cfa_offset 16
	pushq	%r14
	.cfi_def_cfa_offset 24
	pushq	%r12
	.cfi_def_cfa_offset 32
	pushq	%rbx
	.cfi_def_cfa_offset 40
	pushq	%rax
	.cfi_def_cfa_offset 48
	.cfi_offset %rbx, -40
	.cfi_offset %r12, -32
	.cfi_offset %r14, -24
	.cfi_offset %r15, -16
	movq	(%rdi), %rbx
	movq	8(%rdi), %r15
	movq	16(%rdi), %r14
	testq	%r15, %r15
	je	Ldcsctp_BB9_10
	leaq	40(%rbx), %r12
	jmp	Ldcsctp_BB9_2
	.p2align	4
Ldcsctp_BB9_8:
	callq	_rattle_dealloc
Ldcsctp_BB9_9:
	addq	$48, %r12
	decq	%r15
	je	Ldcsctp_BB9_10
Ldcsctp_BB9_2:
	movzbl	-40(%r12), %esi
	movq	-32(%r12), %rdi
	movq	-24(%r12), %rax
	movq	-16(%r12), %rcx
	movq	-8(%r12), %rdx
	leaq	Ldcsctp_JTI9_0(%rip), %r8
	movslq	(%r8,%rsi,4), %rsi
	addq	%r8, %rsi
	jmpq	*%rsi
Ldcsctp_BB9_5:
	testq	%rcx, %rcx
	jne	Ldcsctp_BB9_8
	jmp	Ldcsctp_BB9_9
Ldcsctp_BB9_6:
	testq	%rdx, %rdx
	je	Ldcsctp_BB9_9
	movq	%rax, %rdi
	jmp	Ldcsctp_BB9_8
Ldcsctp_BB9_3:
	cmpq	$0, (%r12)
	je	Ldcsctp_BB9_9
	movq	%rcx, %rdi
	jmp	Ldcsctp_BB9_8
Ldcsctp_BB9_10:
	testq	%r14, %r14
	je	Ldcsctp_BB9_11
	movq	%rbx, %rdi
	addq	$8, %rsp
	popq	%rbx
	popq	%r12
	popq	%r14
	popq	%r15
	jmp	_rattle_dealloc
Ldcsctp_BB9_11:
	addq	$8, %rsp
	popq	%rbx
	popq	%r12
	popq	%r14
	popq	%r15
	retq
	.cfi_endproc
	.p2align	2
	.data_region jt32
L9_0_set_5 = Ldcsctp_BB9_5-Ldcsctp_JTI9_0
L9_0_set_3 = Ldcsctp_BB9_3-Ldcsctp_JTI9_0
L9_0_set_6 = Ldcsctp_BB9_6-Ldcsctp_JTI9_0
L9_0_set_9 = Ldcsctp_BB9_9-Ldcsctp_JTI9_0
Ldcsctp_JTI9_0:
	.long	L9_0_set_5
	.long	L9_0_set_5
	.long	L9_0_set_3
	.long	L9_0_set_6
	.long	L9_0_set_9
	.long	L9_0_set_9
	.long	L9_0_set_9
	.long	L9_0_set_9
	.long	L9_0_set_9
	.long	L9_0_set_5
	.long	L9_0_set_9
	.long	L9_0_set_6
	.end_data_region
	.p2align	4
_std_alloc.vec.Vec.drop.694f3e952ffd1e0b:
	.cfi_startproc
	pushq	%r15
	.cfi_def_cfa_offset 16
	pushq	%r14
	.cfi_def_cfa_offset 24
	pushq	%r12
	.cfi_def_cfa_offset 32
	pushq	%rbx
	.cfi_def_cfa_offset 40
	pushq	%rax
	.cfi_def_cfa_offset 48
	.cfi_offset %rbx, -40
	.cfi_offset %r12, -32
	.cfi_offset %r14, -24
	.cfi_offset %r15, -16
	movq	(%rdi), %rbx
	movq	8(%rdi), %r15
	movq	16(%rdi), %r14
	testq	%r15, %r15
	je	Ldcsctp_BB10_8
	leaq	32(%rbx), %r12
	jmp	Ldcsctp_BB10_2
	.p2align	4
Ldcsctp_BB10_6:
	callq	_rattle_dealloc
Ldcsctp_BB10_7:
	addq	$40, %r12
	decq	%r15
	je	Ldcsctp_BB10_8
Ldcsctp_BB10_2:
	movzbl	-32(%r12), %ecx
	movq	-24(%r12), %rdi
	movq	-8(%r12), %rax
	leaq	Ldcsctp_JTI10_0(%rip), %rdx
	movslq	(%rdx,%rcx,4), %rcx
	addq	%rdx, %rcx
	jmpq	*%rcx
Ldcsctp_BB10_3:
	testq	%rax, %rax
	jne	Ldcsctp_BB10_6
	jmp	Ldcsctp_BB10_7
Ldcsctp_BB10_4:
	cmpq	$0, (%r12)
	je	Ldcsctp_BB10_7
	movq	-16(%r12), %rdi
	jmp	Ldcsctp_BB10_6
Ldcsctp_BB10_8:
	testq	%r14, %r14
	je	Ldcsctp_BB10_9
	movq	%rbx, %rdi
	addq	$8, %rsp
	popq	%rbx
	popq	%r12
	popq	%r14
	popq	%r15
	jmp	_rattle_dealloc
Ldcsctp_BB10_9:
	addq	$8, %rsp
	popq	%rbx
	popq	%r12
	popq	%r14
	popq	%r15
	retq
	.cfi_endproc
	.p2align	2
	.data_region jt32
L10_0_set_3 = Ldcsctp_BB10_3-Ldcsctp_JTI10_0
L10_0_set_7 = Ldcsctp_BB10_7-Ldcsctp_JTI10_0
L10_0_set_4 = Ldcsctp_BB10_4-Ldcsctp_JTI10_0
Ldcsctp_JTI10_0:
	.long	L10_0_set_3
	.long	L10_0_set_3
	.long	L10_0_set_7
	.long	L10_0_set_7
	.long	L10_0_set_3
	.long	L10_0_set_3
	.long	L10_0_set_4
	.end_data_region
	.section	__TEXT,__literal16,16byte_literals
	.p2align	4, 0x0
Ldcsctp_CPI11_0:
	.byte	85
	.byte	110
	.byte	107
	.byte	110
	.byte	111
	.byte	119
	.byte	110
	.byte	32
	.byte	99
	.byte	104
	.byte	117
	.byte	110
	.byte	107
	.byte	44
	.byte	32
	.byte	116
Ldcsctp_CPI11_1:
	.byte	65
	.byte	66
	.byte	79
	.byte	82
	.byte	84
	.byte	44
	.byte	32
	.byte	116
	.byte	97
	.byte	103
	.byte	95
	.byte	114
	.byte	101
	.byte	102
	.byte	108
	.byte	101
Ldcsctp_CPI11_2:
	.byte	73
	.byte	78
	.byte	73
	.byte	84
	.byte	45
	.byte	65
	.byte	67
	.byte	75
	.byte	44
	.byte	32
	.byte	105
	.byte	110
	.byte	105
	.byte	116
	.byte	105
	.byte	97
Ldcsctp_CPI11_3:
	.byte	73
	.byte	78
	.byte	73
	.byte	84
	.byte	44
	.byte	32
	.byte	105
	.byte	110
	.byte	105
	.byte	116
	.byte	105
	.byte	97
	.byte	116
	.byte	101
	.byte	95
	.byte	116
Ldcsctp_CPI11_4:
	.byte	73
	.byte	45
	.byte	70
	.byte	79
	.byte	82
	.byte	87
	.byte	65
	.byte	82
	.byte	68
	.byte	45
	.byte	84
	.byte	83
	.byte	78
	.byte	44
	.byte	32
	.byte	110
Ldcsctp_CPI11_5:
	.byte	101
	.byte	119
	.byte	95
	.byte	99
	.byte	117
	.byte	109
	.byte	117
	.byte	108
	.byte	97
	.byte	116
	.byte	105
	.byte	118
	.byte	101
	.byte	95
	.byte	116
	.byte	115
Ldcsctp_CPI11_6:
	.byte	70
	.byte	79
	.byte	82
	.byte	87
	.byte	65
	.byte	82
	.byte	68
	.byte	45
	.byte	84
	.byte	83
	.byte	78
	.byte	44
	.byte	32
	.byte	110
	.byte	101
	.byte	119
Ldcsctp_CPI11_7:
	.byte	95
	.byte	99
	.byte	117
	.byte	109
	.byte	117
	.byte	108
	.byte	97
	.byte	116
	.byte	105
	.byte	118
	.byte	101
	.byte	95
	.byte	116
	.byte	115
	.byte	110
	.byte	61
Ldcsctp_CPI11_8:
	.byte	67
	.byte	79
	.byte	79
	.byte	75
	.byte	73
	.byte	69
	.byte	45
	.byte	69
	.byte	67
	.byte	72
	.byte	79
	.byte	44
	.byte	32
	.byte	99
	.byte	111
	.byte	111
Ldcsctp_CPI11_9:
	.byte	83
	.byte	65
	.byte	67
	.byte	75
	.byte	44
	.byte	32
	.byte	99
	.byte	117
	.byte	109
	.byte	95
	.byte	97
	.byte	99
	.byte	107
	.byte	95
	.byte	116
	.byte	115
Ldcsctp_CPI11_10:
	.byte	83
	.byte	72
	.byte	85
	.byte	84
	.byte	68
	.byte	79
	.byte	87
	.byte	78
	.byte	45
	.byte	67
	.byte	79
	.byte	77
	.byte	80
	.byte	76
	.byte	69
	.byte	84
Ldcsctp_CPI11_11:
	.byte	69
	.byte	44
	.byte	32
	.byte	116
	.byte	97
	.byte	103
	.byte	95
	.byte	114
	.byte	101
	.byte	102
	.byte	108
	.byte	101
	.byte	99
	.byte	116
	.byte	101
	.byte	100
Ldcsctp_CPI11_12:
	.byte	83
	.byte	72
	.byte	85
	.byte	84
	.byte	68
	.byte	79
	.byte	87
	.byte	78
	.byte	32
	.byte	99
	.byte	117
	.byte	109
	.byte	117
	.byte	108
	.byte	97
	.byte	116
Ldcsctp_CPI11_13:
	.byte	99
	.byte	97
	.byte	110
	.byte	111
	.byte	110
	.byte	105
	.byte	99
	.byte	97
	.byte	108
	.byte	32
	.byte	116
	.byte	111
	.byte	111
	.byte	32
	.byte	108
	.byte	111
	.section	__TEXT,__text,regular,pure_instructions
	.p2align	4
_sctp_show.text.text_of:
	.cfi_startproc
	pushq	%rbp
	.cfi_def_cfa_offset 16
	pushq	%r15
	.cfi_def_cfa_offset 24
	pushq	%r14
	.cfi_def_cfa_offset 32
	pushq	%r13
	.cfi_def_cfa_offset 40
	pushq	%r12
	.cfi_def_cfa_offset 48
	pushq	%rbx
	.cfi_def_cfa_offset 56
	subq	$520, %rsp
	.cfi_def_cfa_offset 576
	.cfi_offset %rbx, -56
	.cfi_offset %r12, -48
	.cfi_offset %r13, -40
	.cfi_offset %r14, -32
	.cfi_offset %r15, -24
	.cfi_offset %rbp, -16
	movq	%rsi, %r14
	movq	%rdi, 424(%rsp)
	leaq	239(%rsp), %rax
	movq	%rax, 144(%rsp)
	xorps	%xmm0, %xmm0
	movups	%xmm0, 152(%rsp)
	movaps	%xmm0, 464(%rsp)
	movq	$0, 480(%rsp)
	movq	160(%rsp), %rax
	movq	%rax, 16(%rsp)
	movq	144(%rsp), %rax
	movq	%rax, (%rsp)
	movq	152(%rsp), %rax
	movq	%rax, 8(%rsp)
	movaps	%xmm0, 496(%rsp)
	movq	$0, 512(%rsp)
	movaps	%xmm0, 48(%rsp)
	movl	$32, 24(%rsp)
	movq	$0, 28(%rsp)
	movl	$0, 36(%rsp)
	movq	$-1, 40(%rsp)
	leaq	24(%rsi), %rax
	leaq	26(%rsi), %rcx
	leaq	28(%rsi), %rdx
	leaq	32(%rsi), %rsi
	leaq	l_static.3(%rip), %r13
	movq	%r13, 240(%rsp)
	movq	$7, 248(%rsp)
	movq	%rax, 256(%rsp)
	leaq	l_static.4(%rip), %r12
	movq	%r12, 264(%rsp)
	movq	$13, 272(%rsp)
	movq	%rcx, 280(%rsp)
	leaq	l_static.5(%rip), %r15
	movq	%r15, 288(%rsp)
	movq	$5, 296(%rsp)
	movq	%rdx, 304(%rsp)
	leaq	l_static.6(%rip), %rbx
	movq	%rbx, 312(%rsp)
	movq	$10, 320(%rsp)
	movq	%rsi, 328(%rsp)
	movups	24(%rsp), %xmm0
	movaps	%xmm0, 112(%rsp)
	movq	$-1, 128(%rsp)
	movl	$32, 24(%rsp)
	movl	$0, 36(%rsp)
	movq	$0, 28(%rsp)
	movq	$-1, 40(%rsp)
	movq	8(%rsp), %rax
	movq	16(%rsp), %rcx
	movq	%rcx, %rdx
	subq	%rax, %rdx
	cmpq	$6, %rdx
	jbe	Ldcsctp_BB11_16
Ldcsctp_BB11_1:
	leaq	256(%rsp), %rsi
	movq	(%rsp), %rdx
	leaq	(%rdx,%rax), %rdi
	addq	$7, %rax
	movq	%rdi, %r8
	subq	%r13, %r8
	cmpq	$6, %r8
	ja	Ldcsctp_BB11_3
	movl	$1920298867, (%rdi)
	movw	$25955, 4(%rdi)
	movb	$61, 6(%rdi)
	jmp	Ldcsctp_BB11_4
Ldcsctp_BB11_3:
	movl	$1030054770, 3(%rdi)
	movl	$1920298867, (%rdi)
Ldcsctp_BB11_4:
	movq	%rdx, (%rsp)
	movq	%rax, 8(%rsp)
	movq	%rcx, 16(%rsp)
	movq	%rsp, %rdi
	callq	_core.fmt.formatter.Formatter.write_piece.9c544998babb2079
	testb	%al, %al
	jne	Ldcsctp_BB11_423
	leaq	28(%rsp), %r13
	movl	$32, 24(%rsp)
	movl	$0, 8(%r13)
	movq	$0, (%r13)
	movq	$-1, 40(%rsp)
	cmpq	$0, 48(%rsp)
	jne	Ldcsctp_BB11_410
	movq	8(%rsp), %rax
	movq	16(%rsp), %rcx
	movq	%rcx, %rdx
	subq	%rax, %rdx
	cmpq	$12, %rdx
	jbe	Ldcsctp_BB11_411
Ldcsctp_BB11_7:
	movq	(%rsp), %rdx
	leaq	(%rdx,%rax), %rsi
	addq	$13, %rax
	movq	%rsi, %r8
	subq	%r12, %r8
	movabsq	$7020664817990329376, %rdi
	cmpq	$12, %r8
	ja	Ldcsctp_BB11_9
	movq	%rdi, (%rsi)
	movl	$1852795252, 8(%rsi)
	movb	$61, 12(%rsi)
	jmp	Ldcsctp_BB11_10
Ldcsctp_BB11_9:
	movabsq	$4426597982466567785, %r8
	movq	%r8, 5(%rsi)
	movq	%rdi, (%rsi)
Ldcsctp_BB11_10:
	movq	%rdx, (%rsp)
	movq	%rax, 8(%rsp)
	movq	%rcx, 16(%rsp)
Ldcsctp_BB11_11:
	leaq	280(%rsp), %rsi
	movq	%rsp, %rdi
	callq	_core.fmt.formatter.Formatter.write_piece.9c544998babb2079
	testb	%al, %al
	jne	Ldcsctp_BB11_423
	movl	$32, 24(%rsp)
	movl	$0, 8(%r13)
	movq	$0, (%r13)
	movq	$-1, 40(%rsp)
	cmpq	$0, 48(%rsp)
	jne	Ldcsctp_BB11_413
	movq	8(%rsp), %rax
	movq	16(%rsp), %rcx
	movq	%rcx, %rdx
	subq	%rax, %rdx
	cmpq	$4, %rdx
	jbe	Ldcsctp_BB11_414
Ldcsctp_BB11_14:
	movq	(%rsp), %rdx
	leaq	(%rdx,%rax), %rsi
	addq	$5, %rax
	movq	%rsi, %rdi
	subq	%r15, %rdi
	cmpq	$4, %rdi
	ja	Ldcsctp_BB11_18
	movl	$1734439968, (%rsi)
	movb	$61, 4(%rsi)
	jmp	Ldcsctp_BB11_19
Ldcsctp_BB11_16:
	movq	%rsp, %rdi
	movl	$7, %esi
	callq	_std_alloc.vec.Vec.grow_amortized.38fbb921ed00a393
	testb	%al, %al
	je	Ldcsctp_BB11_423
	movq	8(%rsp), %rax
	movq	16(%rsp), %rcx
	jmp	Ldcsctp_BB11_1
Ldcsctp_BB11_18:
	movb	$61, 4(%rsi)
	movl	$1734439968, (%rsi)
Ldcsctp_BB11_19:
	movq	%rdx, (%rsp)
	movq	%rax, 8(%rsp)
	movq	%rcx, 16(%rsp)
Ldcsctp_BB11_20:
	leaq	304(%rsp), %rsi
	movq	%rsp, %rdi
	callq	_core.fmt.formatter.Formatter.write_piece.7d2ac8fd5c291299
	testb	%al, %al
	jne	Ldcsctp_BB11_423
	movl	$32, 24(%rsp)
	movl	$0, 8(%r13)
	movq	$0, (%r13)
	movq	$-1, 40(%rsp)
	cmpq	$0, 48(%rsp)
	jne	Ldcsctp_BB11_417
	movq	8(%rsp), %rax
	movq	16(%rsp), %rcx
	movq	%rcx, %rdx
	subq	%rax, %rdx
	cmpq	$9, %rdx
	jbe	Ldcsctp_BB11_418
Ldcsctp_BB11_23:
	movq	(%rsp), %rdx
	leaq	(%rdx,%rax), %rsi
	addq	$10, %rax
	movq	%rsi, %r8
	subq	%rbx, %r8
	movabsq	$8463226199406568224, %rdi
	cmpq	$9, %r8
	movq	%rdi, (%rsi)
	movw	$15725, 8(%rsi)
	movq	%rdx, (%rsp)
	movq	%rax, 8(%rsp)
	movq	%rcx, 16(%rsp)
Ldcsctp_BB11_24:
	leaq	24(%rsp), %r12
	leaq	328(%rsp), %rsi
	movq	%rsp, %rdi
	callq	_core.fmt.formatter.Formatter.write_piece.7d2ac8fd5c291299
	movaps	112(%rsp), %xmm0
	movups	%xmm0, (%r12)
	movq	128(%rsp), %rcx
	movq	%rcx, 16(%r12)
	testb	%al, %al
	jne	Ldcsctp_BB11_423
	movq	8(%r14), %r15
	testq	%r15, %r15
	je	Ldcsctp_BB11_405
	movq	(%r14), %r10
	xorl	%ebp, %ebp
	movq	%r15, 224(%rsp)
	movq	%r10, 72(%rsp)
	.p2align	4
Ldcsctp_BB11_27:
	movq	%rbp, %rbx
	shlq	$6, %rbx
	movq	16(%r12), %rax
	movq	%rax, 448(%rsp)
	movups	(%r12), %xmm0
	movaps	%xmm0, 432(%rsp)
	movl	$32, 24(%rsp)
	movl	$0, 8(%r13)
	movq	$0, (%r13)
	movq	$-1, 40(%rsp)
	cmpq	$0, 48(%rsp)
	jne	Ldcsctp_BB11_34
	movq	8(%rsp), %rax
	movq	16(%rsp), %rcx
	cmpq	%rax, %rcx
	je	Ldcsctp_BB11_40
Ldcsctp_BB11_29:
	movq	(%rsp), %rdx
	movb	$10, (%rdx,%rax)
	incq	%rax
	movq	%rdx, (%rsp)
	movq	%rax, 8(%rsp)
	movq	%rcx, 16(%rsp)
	movl	$32, 24(%rsp)
	movl	$0, 8(%r13)
	movq	$0, (%r13)
	movq	$-1, 40(%rsp)
	movzbl	(%r10,%rbx), %eax
	leaq	Ldcsctp_JTI11_0(%rip), %rcx
	movslq	(%rcx,%rax,4), %rax
	addq	%rcx, %rax
	jmpq	*%rax
Ldcsctp_BB11_30:
	movzbl	44(%r10,%rbx), %eax
	leaq	l_static.24(%rip), %rcx
	leaq	l_static.25(%rip), %rsi
	testb	$1, %al
	cmovneq	%rcx, %rsi
	movzbl	51(%r10,%rbx), %ecx
	leaq	5(%rcx,%rcx,2), %r11
	leaq	L_static.26(%rip), %rdi
	leaq	l_static.27(%rip), %r8
	movl	%ecx, %r9d
	xorb	$1, %r9b
	testq	%rcx, %rcx
	cmovneq	%rdi, %r8
	movzbl	%r9b, %ecx
	leaq	4(%rcx,%rcx), %rdx
	leaq	L_static.28(%rip), %rcx
	leaq	l_static.29(%rip), %r15
	cmovneq	%rcx, %r15
	cmpb	$0, 50(%r10,%rbx)
	cmovneq	%r11, %rdx
	cmovneq	%r8, %r15
	leaq	7(%rax,%rax), %r11
	movl	56(%r10,%rbx), %eax
	movl	%eax, 84(%rsp)
	movzwl	46(%r10,%rbx), %eax
	movw	%ax, 172(%rsp)
	movzwl	48(%r10,%rbx), %eax
	movl	40(%r10,%rbx), %ecx
	movw	%ax, 168(%rsp)
	movl	%ecx, 176(%rsp)
	movq	16(%r10,%rbx), %rax
	movq	%rax, 96(%rsp)
	leaq	l_static.17(%rip), %rbx
	movq	%rbx, 240(%rsp)
	movq	$11, 248(%rsp)
	movq	%rsi, 256(%rsp)
	movq	%r11, 264(%rsp)
	leaq	l_static.18(%rip), %rax
	movq	%rax, 272(%rsp)
	movq	$2, 280(%rsp)
	movq	%r15, 288(%rsp)
	movq	%rdx, 296(%rsp)
	leaq	l_static.19(%rip), %rax
	movq	%rax, 304(%rsp)
	movq	$6, 312(%rsp)
	leaq	84(%rsp), %rax
	movq	%rax, 320(%rsp)
	leaq	l_static.20(%rip), %rax
	movq	%rax, 328(%rsp)
	movq	$6, 336(%rsp)
	leaq	172(%rsp), %rax
	movq	%rax, 344(%rsp)
	leaq	l_static.21(%rip), %rax
	movq	%rax, 352(%rsp)
	movq	$6, 360(%rsp)
	leaq	168(%rsp), %rax
	movq	%rax, 368(%rsp)
	leaq	l_static.22(%rip), %rax
	movq	%rax, 376(%rsp)
	movq	$7, 384(%rsp)
	leaq	176(%rsp), %rax
	movq	%rax, 392(%rsp)
	leaq	l_static.23(%rip), %rax
	movq	%rax, 400(%rsp)
	movq	$9, 408(%rsp)
	leaq	96(%rsp), %rax
	movq	%rax, 416(%rsp)
	movl	$32, 24(%rsp)
	movl	$0, 8(%r13)
	movq	$0, (%r13)
	movq	$-1, 40(%rsp)
	movq	16(%r12), %rax
	movq	%rax, 128(%rsp)
	movups	(%r12), %xmm0
	movaps	%xmm0, 112(%rsp)
	movl	$32, 24(%rsp)
	movl	$0, 8(%r13)
	movq	$0, (%r13)
	movq	$-1, 40(%rsp)
	cmpq	$0, 48(%rsp)
	movq	%rdx, 88(%rsp)
	jne	Ldcsctp_BB11_272
	movq	8(%rsp), %rax
	movq	16(%rsp), %rcx
	movq	%rcx, %rdi
	subq	%rax, %rdi
	cmpq	$10, %rdi
	jbe	Ldcsctp_BB11_303
Ldcsctp_BB11_32:
	movq	(%rsp), %r9
	leaq	(%r9,%rax), %rdi
	movq	%rdi, %r8
	subq	%rbx, %r8
	cmpq	$10, %r8
	ja	Ldcsctp_BB11_133
	movabsq	$8751655350334406980, %r8
	movq	%r8, (%rdi)
	movw	$25968, 8(%rdi)
	movb	$61, 10(%rdi)
	jmp	Ldcsctp_BB11_134
Ldcsctp_BB11_34:
	leaq	l_static.2(%rip), %rsi
	movq	%rsp, %rdi
	movl	$1, %edx
	callq	_core.fmt.formatter.Formatter.write_indented.69d84fb4438acd8c
	testb	%al, %al
	jne	Ldcsctp_BB11_423
	movl	$32, 24(%rsp)
	movl	$0, 8(%r13)
	movq	$0, (%r13)
	movq	$-1, 40(%rsp)
	movq	72(%rsp), %r10
	movzbl	(%r10,%rbx), %eax
	leaq	Ldcsctp_JTI11_0(%rip), %rcx
	movslq	(%rcx,%rax,4), %rax
	addq	%rcx, %rax
	jmpq	*%rax
Ldcsctp_BB11_36:
	movl	8(%r10,%rbx), %eax
	movl	20(%r10,%rbx), %ecx
	movl	%eax, 104(%rsp)
	movl	%ecx, 84(%rsp)
	leaq	l_static.38(%rip), %r15
	movq	%r15, 240(%rsp)
	movq	$19, 248(%rsp)
	leaq	104(%rsp), %rax
	movq	%rax, 256(%rsp)
	leaq	l_static.39(%rip), %rbx
	movq	%rbx, 264(%rsp)
	movq	$14, 272(%rsp)
	leaq	84(%rsp), %rax
	movq	%rax, 280(%rsp)
	movq	16(%r12), %rax
	movq	%rax, 128(%rsp)
	movups	(%r12), %xmm0
	movaps	%xmm0, 112(%rsp)
	movl	$32, 24(%rsp)
	movl	$0, 8(%r13)
	movq	$0, (%r13)
	movq	$-1, 40(%rsp)
	cmpq	$0, 48(%rsp)
	jne	Ldcsctp_BB11_273
	movq	8(%rsp), %rax
	movq	16(%rsp), %rcx
	movq	%rcx, %rdx
	subq	%rax, %rdx
	cmpq	$18, %rdx
	jbe	Ldcsctp_BB11_305
Ldcsctp_BB11_38:
	movq	(%rsp), %rdx
	xorps	%xmm0, %xmm0
	leaq	8(%rsp), %rsi
	movups	%xmm0, (%rsi)
	leaq	(%rdx,%rax), %rsi
	movq	%rsi, %rdi
	subq	%r15, %rdi
	cmpq	$18, %rdi
	ja	Ldcsctp_BB11_141
	movaps	Ldcsctp_CPI11_3(%rip), %xmm0
	movups	%xmm0, (%rsi)
	movw	$26465, 16(%rsi)
	movb	$61, 18(%rsi)
	jmp	Ldcsctp_BB11_142
Ldcsctp_BB11_40:
	movq	%rsp, %rdi
	movl	$1, %esi
	callq	_std_alloc.vec.Vec.grow_amortized.38fbb921ed00a393
	testb	%al, %al
	je	Ldcsctp_BB11_423
	movq	8(%rsp), %rax
	movq	16(%rsp), %rcx
	movq	72(%rsp), %r10
	jmp	Ldcsctp_BB11_29
Ldcsctp_BB11_42:
	movl	8(%r10,%rbx), %ebx
	movq	16(%r12), %rax
	movq	%rax, 256(%rsp)
	movups	(%r12), %xmm0
	movaps	%xmm0, 240(%rsp)
	movl	$32, 24(%rsp)
	movl	$0, 8(%r13)
	movq	$0, (%r13)
	movq	$-1, 40(%rsp)
	cmpq	$0, 48(%rsp)
	jne	Ldcsctp_BB11_261
	movq	8(%rsp), %rax
	movq	16(%rsp), %rcx
	movq	%rcx, %rdx
	subq	%rax, %rdx
	cmpq	$33, %rdx
	jbe	Ldcsctp_BB11_283
Ldcsctp_BB11_44:
	movq	(%rsp), %rdx
	xorps	%xmm0, %xmm0
	leaq	8(%rsp), %rsi
	movups	%xmm0, (%rsi)
	leaq	(%rdx,%rax), %rsi
	leaq	l_static.37(%rip), %rdi
	movq	%rsi, %r8
	subq	%rdi, %r8
	cmpq	$33, %r8
	ja	Ldcsctp_BB11_107
	movaps	Ldcsctp_CPI11_4(%rip), %xmm0
	movups	%xmm0, (%rsi)
	movaps	Ldcsctp_CPI11_5(%rip), %xmm0
	movups	%xmm0, 16(%rsi)
	jmp	Ldcsctp_BB11_108
Ldcsctp_BB11_46:
	movq	16(%r12), %rax
	movq	%rax, 256(%rsp)
	movups	(%r12), %xmm0
	movaps	%xmm0, 240(%rsp)
	movl	$32, 24(%rsp)
	movl	$0, 8(%r13)
	movq	$0, (%r13)
	movq	$-1, 40(%rsp)
	cmpq	$0, 48(%rsp)
	jne	Ldcsctp_BB11_262
	movq	8(%rsp), %rax
	movq	16(%rsp), %rcx
	movq	%rcx, %rdx
	subq	%rax, %rdx
	cmpq	$8, %rdx
	jbe	Ldcsctp_BB11_285
Ldcsctp_BB11_48:
	movq	(%rsp), %rdx
	leaq	(%rdx,%rax), %rsi
	leaq	l_static.45(%rip), %rdi
	movq	%rsi, %r8
	subq	%rdi, %r8
	movabsq	$5279993715474908498, %rdi
	cmpq	$8, %r8
	movq	%rdi, (%rsi)
	movb	$71, 8(%rsi)
	addq	$9, %rax
	jmp	Ldcsctp_BB11_164
Ldcsctp_BB11_49:
	cmpq	$0, 48(%rsp)
	jne	Ldcsctp_BB11_263
	movq	8(%rsp), %rax
	movq	16(%rsp), %rcx
	movq	%rcx, %rdx
	subq	%rax, %rdx
	cmpq	$9, %rdx
	jbe	Ldcsctp_BB11_287
Ldcsctp_BB11_51:
	movq	(%rsp), %rdx
	leaq	(%rdx,%rax), %rsi
	addq	$10, %rax
	leaq	l_static.13(%rip), %rdi
	movq	%rsi, %r8
	subq	%rdi, %r8
	movabsq	$4696486167515713347, %rdi
	cmpq	$9, %r8
	movq	%rdi, (%rsi)
	movw	$19267, 8(%rsi)
	jmp	Ldcsctp_BB11_103
Ldcsctp_BB11_52:
	movq	16(%r12), %rax
	movq	%rax, 256(%rsp)
	movups	(%r12), %xmm0
	movaps	%xmm0, 240(%rsp)
	movl	$32, 24(%rsp)
	movl	$0, 8(%r13)
	movq	$0, (%r13)
	movq	$-1, 40(%rsp)
	cmpq	$0, 48(%rsp)
	jne	Ldcsctp_BB11_264
	movq	8(%rsp), %rax
	movq	16(%rsp), %rcx
	movq	%rcx, %rdx
	subq	%rax, %rdx
	cmpq	$12, %rdx
	jbe	Ldcsctp_BB11_289
Ldcsctp_BB11_54:
	movq	(%rsp), %rdx
	leaq	(%rdx,%rax), %rsi
	leaq	l_static.41(%rip), %rdi
	movq	%rsi, %r8
	subq	%rdi, %r8
	cmpq	$12, %r8
	ja	Ldcsctp_BB11_109
	movabsq	$4703238315783046472, %rdi
	movq	%rdi, (%rsi)
	movl	$1163013460, 8(%rsi)
	movb	$81, 12(%rsi)
	jmp	Ldcsctp_BB11_163
Ldcsctp_BB11_56:
	movzbl	1(%r10,%rbx), %eax
	movb	%al, 240(%rsp)
	movl	$32, 24(%rsp)
	movl	$0, 8(%r13)
	movq	$0, (%r13)
	movq	$-1, 40(%rsp)
	cmpq	$0, 48(%rsp)
	jne	Ldcsctp_BB11_265
	movq	8(%rsp), %rax
	movq	16(%rsp), %rcx
	movq	%rcx, %rdx
	subq	%rax, %rdx
	cmpq	$32, %rdx
	jbe	Ldcsctp_BB11_291
Ldcsctp_BB11_58:
	movq	(%rsp), %rdx
	xorps	%xmm0, %xmm0
	leaq	8(%rsp), %rsi
	movups	%xmm0, (%rsi)
	leaq	(%rdx,%rax), %rsi
	leaq	l_static.14(%rip), %rdi
	movq	%rsi, %r8
	subq	%rdi, %r8
	cmpq	$32, %r8
	ja	Ldcsctp_BB11_110
	movaps	Ldcsctp_CPI11_10(%rip), %xmm0
	movups	%xmm0, (%rsi)
	movaps	Ldcsctp_CPI11_11(%rip), %xmm0
	movups	%xmm0, 16(%rsi)
	jmp	Ldcsctp_BB11_111
Ldcsctp_BB11_60:
	movq	16(%r12), %rax
	movq	%rax, 256(%rsp)
	movups	(%r12), %xmm0
	movaps	%xmm0, 240(%rsp)
	movl	$32, 24(%rsp)
	movl	$0, 8(%r13)
	movq	$0, (%r13)
	movq	$-1, 40(%rsp)
	cmpq	$0, 48(%rsp)
	jne	Ldcsctp_BB11_266
	movq	8(%rsp), %rax
	movq	16(%rsp), %rcx
	movq	%rcx, %rdx
	subq	%rax, %rdx
	cmpq	$4, %rdx
	jbe	Ldcsctp_BB11_293
Ldcsctp_BB11_62:
	movq	(%rsp), %rdx
	leaq	(%rdx,%rax), %rsi
	leaq	l_static.44(%rip), %rdi
	movq	%rsi, %r8
	subq	%rdi, %r8
	cmpq	$4, %r8
	ja	Ldcsctp_BB11_114
	movl	$1330795077, (%rsi)
	movb	$82, 4(%rsi)
	addq	$5, %rax
	jmp	Ldcsctp_BB11_164
Ldcsctp_BB11_64:
	movl	8(%r10,%rbx), %eax
	movl	20(%r10,%rbx), %ecx
	movl	%eax, 104(%rsp)
	movl	%ecx, 84(%rsp)
	leaq	l_static.40(%rip), %r15
	movq	%r15, 240(%rsp)
	movq	$23, 248(%rsp)
	leaq	104(%rsp), %rax
	movq	%rax, 256(%rsp)
	leaq	l_static.39(%rip), %rbx
	movq	%rbx, 264(%rsp)
	movq	$14, 272(%rsp)
	leaq	84(%rsp), %rax
	movq	%rax, 280(%rsp)
	movq	16(%r12), %rax
	movq	%rax, 128(%rsp)
	movups	(%r12), %xmm0
	movaps	%xmm0, 112(%rsp)
	movl	$32, 24(%rsp)
	movl	$0, 8(%r13)
	movq	$0, (%r13)
	movq	$-1, 40(%rsp)
	cmpq	$0, 48(%rsp)
	jne	Ldcsctp_BB11_267
	movq	8(%rsp), %rax
	movq	16(%rsp), %rcx
	movq	%rcx, %rdx
	subq	%rax, %rdx
	cmpq	$22, %rdx
	jbe	Ldcsctp_BB11_295
Ldcsctp_BB11_66:
	movq	(%rsp), %rdx
	xorps	%xmm0, %xmm0
	leaq	8(%rsp), %rsi
	movups	%xmm0, (%rsi)
	leaq	(%rdx,%rax), %rsi
	movq	%rsi, %rdi
	subq	%r15, %rdi
	cmpq	$22, %rdi
	ja	Ldcsctp_BB11_115
	movaps	Ldcsctp_CPI11_2(%rip), %xmm0
	movups	%xmm0, (%rsi)
	movl	$1952408948, 16(%rsi)
	movw	$26465, 20(%rsi)
	movb	$61, 22(%rsi)
	jmp	Ldcsctp_BB11_116
Ldcsctp_BB11_68:
	movl	8(%r10,%rbx), %ebx
	movq	16(%r12), %rax
	movq	%rax, 256(%rsp)
	movups	(%r12), %xmm0
	movaps	%xmm0, 240(%rsp)
	movl	$32, 24(%rsp)
	movl	$0, 8(%r13)
	movq	$0, (%r13)
	movq	$-1, 40(%rsp)
	cmpq	$0, 48(%rsp)
	jne	Ldcsctp_BB11_268
	movq	8(%rsp), %rax
	movq	16(%rsp), %rcx
	movq	%rcx, %rdx
	subq	%rax, %rdx
	cmpq	$31, %rdx
	jbe	Ldcsctp_BB11_297
Ldcsctp_BB11_70:
	movq	(%rsp), %rdx
	xorps	%xmm0, %xmm0
	leaq	8(%rsp), %rsi
	movups	%xmm0, (%rsi)
	leaq	(%rdx,%rax), %rsi
	leaq	l_static.36(%rip), %rdi
	movq	%rsi, %r8
	subq	%rdi, %r8
	cmpq	$31, %r8
	ja	Ldcsctp_BB11_122
	movaps	Ldcsctp_CPI11_6(%rip), %xmm0
	movups	%xmm0, (%rsi)
	movaps	Ldcsctp_CPI11_7(%rip), %xmm0
	movups	%xmm0, 16(%rsi)
	jmp	Ldcsctp_BB11_123
Ldcsctp_BB11_72:
	movl	8(%r10,%rbx), %eax
	movl	12(%r10,%rbx), %ecx
	movl	%eax, 104(%rsp)
	movl	%ecx, 84(%rsp)
	leaq	l_static.30(%rip), %r15
	movq	%r15, 240(%rsp)
	movq	$18, 248(%rsp)
	leaq	104(%rsp), %rax
	movq	%rax, 256(%rsp)
	leaq	l_static.31(%rip), %rbx
	movq	%rbx, 264(%rsp)
	movq	$9, 272(%rsp)
	leaq	84(%rsp), %rax
	movq	%rax, 280(%rsp)
	movq	16(%r12), %rax
	movq	%rax, 128(%rsp)
	movups	(%r12), %xmm0
	movaps	%xmm0, 112(%rsp)
	movl	$32, 24(%rsp)
	movl	$0, 8(%r13)
	movq	$0, (%r13)
	movq	$-1, 40(%rsp)
	cmpq	$0, 48(%rsp)
	jne	Ldcsctp_BB11_270
	movq	8(%rsp), %rax
	movq	16(%rsp), %rcx
	movq	%rcx, %rdx
	subq	%rax, %rdx
	cmpq	$17, %rdx
	jbe	Ldcsctp_BB11_299
Ldcsctp_BB11_74:
	movq	(%rsp), %rdx
	xorps	%xmm0, %xmm0
	leaq	8(%rsp), %rsi
	movups	%xmm0, (%rsi)
	leaq	(%rdx,%rax), %rsi
	movq	%rsi, %rdi
	subq	%r15, %rdi
	cmpq	$17, %rdi
	ja	Ldcsctp_BB11_126
	movaps	Ldcsctp_CPI11_9(%rip), %xmm0
	jmp	Ldcsctp_BB11_127
Ldcsctp_BB11_76:
	movl	4(%r10,%rbx), %ebx
	cmpq	$0, 48(%rsp)
	jne	Ldcsctp_BB11_271
	movq	8(%rsp), %rax
	movq	16(%rsp), %rcx
	movq	%rcx, %rdx
	subq	%rax, %rdx
	cmpq	$27, %rdx
	jbe	Ldcsctp_BB11_301
Ldcsctp_BB11_78:
	movq	(%rsp), %rdx
	xorps	%xmm0, %xmm0
	leaq	8(%rsp), %rsi
	movups	%xmm0, (%rsi)
	leaq	(%rdx,%rax), %rsi
	leaq	l_static.11(%rip), %rdi
	movq	%rsi, %r8
	subq	%rdi, %r8
	cmpq	$27, %r8
	ja	Ldcsctp_BB11_104
	movaps	Ldcsctp_CPI11_12(%rip), %xmm0
	movups	%xmm0, (%rsi)
	movabsq	$6876560624695211625, %rdi
	movq	%rdi, 16(%rsi)
	movl	$1030447969, 24(%rsi)
	jmp	Ldcsctp_BB11_105
Ldcsctp_BB11_80:
	movzbl	8(%r10,%rbx), %ebx
	movq	16(%r12), %rax
	movq	%rax, 128(%rsp)
	movups	(%r12), %xmm0
	movaps	%xmm0, 112(%rsp)
	movl	$32, 24(%rsp)
	movl	$0, 8(%r13)
	movq	$0, (%r13)
	movq	$-1, 40(%rsp)
	cmpq	$0, 48(%rsp)
	jne	Ldcsctp_BB11_274
	movq	8(%rsp), %rax
	movq	16(%rsp), %rcx
	movq	%rcx, %rdx
	subq	%rax, %rdx
	cmpq	$19, %rdx
	jbe	Ldcsctp_BB11_307
Ldcsctp_BB11_82:
	movq	(%rsp), %rdx
	xorps	%xmm0, %xmm0
	leaq	8(%rsp), %rsi
	movups	%xmm0, (%rsi)
	leaq	(%rdx,%rax), %rsi
	leaq	l_static.46(%rip), %rdi
	movq	%rsi, %r8
	subq	%rdi, %r8
	cmpq	$19, %r8
	ja	Ldcsctp_BB11_149
	movaps	Ldcsctp_CPI11_0(%rip), %xmm0
	jmp	Ldcsctp_BB11_150
Ldcsctp_BB11_84:
	movq	16(%r12), %rax
	movq	%rax, 256(%rsp)
	movups	(%r12), %xmm0
	movaps	%xmm0, 240(%rsp)
	movl	$32, 24(%rsp)
	movl	$0, 8(%r13)
	movq	$0, (%r13)
	movq	$-1, 40(%rsp)
	cmpq	$0, 48(%rsp)
	jne	Ldcsctp_BB11_275
	movq	8(%rsp), %rax
	movq	16(%rsp), %rcx
	movq	%rcx, %rdx
	subq	%rax, %rdx
	cmpq	$12, %rdx
	jbe	Ldcsctp_BB11_309
Ldcsctp_BB11_86:
	movq	(%rsp), %rdx
	leaq	(%rdx,%rax), %rsi
	leaq	l_static.42(%rip), %rdi
	movq	%rsi, %r8
	subq	%rdi, %r8
	cmpq	$12, %r8
	ja	Ldcsctp_BB11_161
	movabsq	$4703238315783046472, %rdi
	movq	%rdi, (%rsi)
	movl	$1128344916, 8(%rsi)
	movb	$75, 12(%rsi)
	jmp	Ldcsctp_BB11_163
Ldcsctp_BB11_88:
	movzbl	44(%r10,%rbx), %eax
	leaq	l_static.24(%rip), %rcx
	movq	%r12, %r9
	leaq	l_static.25(%rip), %r12
	testb	$1, %al
	cmovneq	%rcx, %r12
	movzbl	51(%r10,%rbx), %ecx
	leaq	5(%rcx,%rcx,2), %r11
	leaq	L_static.26(%rip), %rsi
	leaq	l_static.27(%rip), %rdi
	movl	%ecx, %r8d
	xorb	$1, %r8b
	testq	%rcx, %rcx
	cmovneq	%rsi, %rdi
	movzbl	%r8b, %ecx
	leaq	4(%rcx,%rcx), %rdx
	leaq	L_static.28(%rip), %rcx
	leaq	l_static.29(%rip), %r15
	cmovneq	%rcx, %r15
	cmpb	$0, 50(%r10,%rbx)
	cmovneq	%r11, %rdx
	cmovneq	%rdi, %r15
	leaq	7(%rax,%rax), %r11
	movl	56(%r10,%rbx), %eax
	movl	%eax, 176(%rsp)
	movzwl	46(%r10,%rbx), %eax
	movw	%ax, 182(%rsp)
	movl	32(%r10,%rbx), %eax
	movl	40(%r10,%rbx), %ecx
	movl	%eax, 172(%rsp)
	movl	%ecx, 168(%rsp)
	movq	16(%r10,%rbx), %rax
	movq	%rax, 104(%rsp)
	leaq	l_static.34(%rip), %rbx
	movq	%rbx, 240(%rsp)
	movq	$13, 248(%rsp)
	movq	%r12, 256(%rsp)
	movq	%r11, 264(%rsp)
	leaq	l_static.18(%rip), %rax
	movq	%rax, 272(%rsp)
	movq	$2, 280(%rsp)
	movq	%r15, 288(%rsp)
	movq	%rdx, 296(%rsp)
	leaq	l_static.19(%rip), %rax
	movq	%rax, 304(%rsp)
	movq	$6, 312(%rsp)
	leaq	176(%rsp), %rax
	movq	%rax, 320(%rsp)
	leaq	l_static.35(%rip), %rax
	movq	%rax, 328(%rsp)
	movq	$6, 336(%rsp)
	leaq	182(%rsp), %rax
	movq	%rax, 344(%rsp)
	leaq	l_static.21(%rip), %rax
	movq	%rax, 352(%rsp)
	movq	$6, 360(%rsp)
	leaq	172(%rsp), %rax
	movq	%rax, 368(%rsp)
	leaq	l_static.22(%rip), %rax
	movq	%rax, 376(%rsp)
	movq	$7, 384(%rsp)
	leaq	168(%rsp), %rax
	movq	%rax, 392(%rsp)
	leaq	l_static.23(%rip), %rax
	movq	%rax, 400(%rsp)
	movq	$9, 408(%rsp)
	leaq	104(%rsp), %rax
	movq	%rax, 416(%rsp)
	movq	16(%r9), %rax
	movq	%rax, 208(%rsp)
	movups	(%r9), %xmm0
	movaps	%xmm0, 192(%rsp)
	movl	$32, 24(%rsp)
	movl	$0, 8(%r13)
	movq	$0, (%r13)
	movq	$-1, 40(%rsp)
	movq	16(%r9), %rax
	movq	%rax, 128(%rsp)
	movups	(%r9), %xmm0
	movaps	%xmm0, 112(%rsp)
	movl	$32, 24(%rsp)
	movl	$0, 8(%r13)
	movq	$0, (%r13)
	movq	$-1, 40(%rsp)
	cmpq	$0, 48(%rsp)
	movq	%rdx, 88(%rsp)
	jne	Ldcsctp_BB11_278
	movq	8(%rsp), %rax
	movq	16(%rsp), %rcx
	movq	%rcx, %rsi
	subq	%rax, %rsi
	cmpq	$12, %rsi
	jbe	Ldcsctp_BB11_311
Ldcsctp_BB11_90:
	movq	(%rsp), %r8
	leaq	(%r8,%rax), %rsi
	movq	%rsi, %rdi
	subq	%rbx, %rdi
	cmpq	$12, %rdi
	ja	Ldcsctp_BB11_167
	movabsq	$2318299738317008201, %rdi
	movq	%rdi, (%rsi)
	movl	$1701869940, 8(%rsi)
	movb	$61, 12(%rsi)
	jmp	Ldcsctp_BB11_168
Ldcsctp_BB11_92:
	movzbl	8(%r10,%rbx), %eax
	movb	%al, 112(%rsp)
	movq	16(%r12), %rax
	movq	%rax, 256(%rsp)
	movups	(%r12), %xmm0
	movaps	%xmm0, 240(%rsp)
	movl	$32, 24(%rsp)
	movl	$0, 8(%r13)
	movq	$0, (%r13)
	movq	$-1, 40(%rsp)
	cmpq	$0, 48(%rsp)
	jne	Ldcsctp_BB11_279
	movq	8(%rsp), %rax
	movq	16(%rsp), %rcx
	movq	%rcx, %rdx
	subq	%rax, %rdx
	cmpq	$20, %rdx
	jbe	Ldcsctp_BB11_313
Ldcsctp_BB11_94:
	movq	(%rsp), %rdx
	xorps	%xmm0, %xmm0
	leaq	8(%rsp), %rsi
	movups	%xmm0, (%rsi)
	leaq	(%rdx,%rax), %rsi
	leaq	l_static.43(%rip), %rdi
	movq	%rsi, %r8
	subq	%rdi, %r8
	cmpq	$20, %r8
	ja	Ldcsctp_BB11_175
	movaps	Ldcsctp_CPI11_1(%rip), %xmm0
	movups	%xmm0, (%rsi)
	movl	$1684370531, 16(%rsi)
	movb	$61, 20(%rsi)
	jmp	Ldcsctp_BB11_176
Ldcsctp_BB11_96:
	movq	16(%r10,%rbx), %rax
	movq	%rax, 192(%rsp)
	leaq	l_static.32(%rip), %r15
	movq	%r15, 240(%rsp)
	movq	$20, 248(%rsp)
	leaq	192(%rsp), %rax
	movq	%rax, 256(%rsp)
	leaq	l_static.33(%rip), %rbx
	movq	%rbx, 264(%rsp)
	movq	$6, 272(%rsp)
	movq	16(%r12), %rax
	movq	%rax, 128(%rsp)
	movups	(%r12), %xmm0
	movaps	%xmm0, 112(%rsp)
	movl	$32, 24(%rsp)
	movl	$0, 8(%r13)
	movq	$0, (%r13)
	movq	$-1, 40(%rsp)
	cmpq	$0, 48(%rsp)
	jne	Ldcsctp_BB11_280
	movq	8(%rsp), %rax
	movq	16(%rsp), %rcx
	movq	%rcx, %rdx
	subq	%rax, %rdx
	cmpq	$19, %rdx
	jbe	Ldcsctp_BB11_315
Ldcsctp_BB11_98:
	movq	(%rsp), %rdx
	xorps	%xmm0, %xmm0
	leaq	8(%rsp), %rsi
	movups	%xmm0, (%rsi)
	leaq	(%rdx,%rax), %rsi
	movq	%rsi, %rdi
	subq	%r15, %rdi
	cmpq	$19, %rdi
	ja	Ldcsctp_BB11_180
	movaps	Ldcsctp_CPI11_8(%rip), %xmm0
	jmp	Ldcsctp_BB11_181
Ldcsctp_BB11_100:
	cmpq	$0, 48(%rsp)
	jne	Ldcsctp_BB11_281
	movq	8(%rsp), %rax
	movq	16(%rsp), %rcx
	movq	%rcx, %rdx
	subq	%rax, %rdx
	cmpq	$11, %rdx
	jbe	Ldcsctp_BB11_317
Ldcsctp_BB11_102:
	movq	(%rsp), %rdx
	leaq	(%rdx,%rax), %rsi
	addq	$12, %rax
	leaq	l_static.12(%rip), %rdi
	movq	%rsi, %r8
	subq	%rdi, %r8
	cmpq	$11, %r8
	movabsq	$5645067812823451731, %rdi
	movq	%rdi, (%rsi)
	movl	$1262698797, 8(%rsi)
Ldcsctp_BB11_103:
	movq	%rdx, (%rsp)
	movq	%rax, 8(%rsp)
	movq	%rcx, 16(%rsp)
	movq	448(%rsp), %rax
	movq	%rax, 16(%r12)
	movaps	432(%rsp), %xmm0
	movups	%xmm0, (%r12)
	jmp	Ldcsctp_BB11_404
Ldcsctp_BB11_104:
	movups	l_static.11+12(%rip), %xmm0
	movups	%xmm0, 12(%rsi)
	movups	l_static.11(%rip), %xmm0
	movups	%xmm0, (%rsi)
Ldcsctp_BB11_105:
	addq	$28, %rax
	movq	%rdx, (%rsp)
	movq	%rax, 8(%rsp)
	movq	%rcx, 16(%rsp)
Ldcsctp_BB11_106:
	movl	%ebx, 112(%rsp)
	leaq	112(%rsp), %rax
	movq	%rax, 240(%rsp)
	movl	$32, 24(%rsp)
	movl	$0, 8(%r13)
	movq	$0, (%r13)
	movq	$-1, 40(%rsp)
	movq	%rsp, %rdi
	leaq	240(%rsp), %rsi
	callq	_core.fmt.formatter.Formatter.write_piece.7d2ac8fd5c291299
	movl	%eax, %r13d
	jmp	Ldcsctp_BB11_402
Ldcsctp_BB11_107:
	movups	l_static.37+16(%rip), %xmm0
	movups	%xmm0, 16(%rsi)
	movups	l_static.37(%rip), %xmm0
	movups	%xmm0, (%rsi)
Ldcsctp_BB11_108:
	movw	$15726, 32(%rsi)
	addq	$34, %rax
	jmp	Ldcsctp_BB11_124
Ldcsctp_BB11_109:
	movabsq	$5856177245105767746, %rdi
	jmp	Ldcsctp_BB11_162
Ldcsctp_BB11_110:
	movups	l_static.14+16(%rip), %xmm0
	movups	%xmm0, 16(%rsi)
	movups	l_static.14(%rip), %xmm0
	movups	%xmm0, (%rsi)
Ldcsctp_BB11_111:
	movb	$61, 32(%rsi)
	addq	$33, %rax
	movq	%rdx, (%rsp)
	movq	%rax, 8(%rsp)
	movq	%rcx, 16(%rsp)
Ldcsctp_BB11_112:
	movq	%rsp, %rdi
	leaq	240(%rsp), %rsi
	callq	_core.fmt.formatter.Formatter.write_piece.b05199c44017c92e
	movl	%eax, %r13d
	jmp	Ldcsctp_BB11_402
Ldcsctp_BB11_114:
	movb	$82, 4(%rsi)
	movl	$1330795077, (%rsi)
	addq	$5, %rax
	jmp	Ldcsctp_BB11_164
Ldcsctp_BB11_115:
	movups	l_static.40(%rip), %xmm0
	movups	%xmm0, (%rsi)
	movabsq	$4424612311359386721, %rdi
	movq	%rdi, 15(%rsi)
Ldcsctp_BB11_116:
	addq	$23, %rax
	movq	%rdx, (%rsp)
	movq	%rax, 8(%rsp)
	movq	%rcx, 16(%rsp)
Ldcsctp_BB11_117:
	movq	%rsp, %rdi
	leaq	256(%rsp), %rsi
	callq	_core.fmt.formatter.Formatter.write_piece.7d2ac8fd5c291299
	movb	$1, %r13b
	testb	%al, %al
	jne	Ldcsctp_BB11_243
	movl	$32, 24(%rsp)
	leaq	28(%rsp), %rax
	movl	$0, 8(%rax)
	movq	$0, (%rax)
	movq	$-1, 40(%rsp)
	cmpq	$0, 48(%rsp)
	jne	Ldcsctp_BB11_360
	movq	8(%rsp), %rax
	movq	16(%rsp), %rcx
	movq	%rcx, %rdx
	subq	%rax, %rdx
	cmpq	$13, %rdx
	jbe	Ldcsctp_BB11_363
Ldcsctp_BB11_120:
	movq	(%rsp), %rdx
	leaq	(%rdx,%rax), %rsi
	movq	%rsi, %r8
	subq	%rbx, %r8
	movabsq	$7019269490406400044, %rdi
	cmpq	$13, %r8
	jbe	Ldcsctp_BB11_148
	movabsq	$4426602427406115177, %r8
	movq	%r8, 6(%rsi)
	jmp	Ldcsctp_BB11_239
Ldcsctp_BB11_122:
	movups	l_static.36+16(%rip), %xmm0
	movups	%xmm0, 16(%rsi)
	movups	l_static.36(%rip), %xmm0
	movups	%xmm0, (%rsi)
Ldcsctp_BB11_123:
	addq	$32, %rax
Ldcsctp_BB11_124:
	movq	%rdx, (%rsp)
	movq	%rax, 8(%rsp)
	movq	%rcx, 16(%rsp)
Ldcsctp_BB11_125:
	movl	%ebx, 192(%rsp)
	leaq	192(%rsp), %rax
	movq	%rax, 112(%rsp)
	movl	$32, 24(%rsp)
	leaq	28(%rsp), %rax
	movl	$0, 8(%rax)
	movq	$0, (%rax)
	movq	$-1, 40(%rsp)
	movq	%rsp, %rdi
	leaq	112(%rsp), %rsi
	callq	_core.fmt.formatter.Formatter.write_piece.7d2ac8fd5c291299
	jmp	Ldcsctp_BB11_178
Ldcsctp_BB11_126:
	movups	l_static.30(%rip), %xmm0
Ldcsctp_BB11_127:
	movups	%xmm0, (%rsi)
	movw	$15726, 16(%rsi)
	addq	$18, %rax
	movq	%rdx, (%rsp)
	movq	%rax, 8(%rsp)
	movq	%rcx, 16(%rsp)
Ldcsctp_BB11_128:
	movl	104(%rsp), %eax
	movl	%eax, 96(%rsp)
	leaq	96(%rsp), %rax
	movq	%rax, 192(%rsp)
	movl	$32, 24(%rsp)
	leaq	28(%rsp), %r15
	movl	$0, 8(%r15)
	movq	$0, (%r15)
	movq	$-1, 40(%rsp)
	movq	%rsp, %rdi
	leaq	192(%rsp), %rsi
	callq	_core.fmt.formatter.Formatter.write_piece.7d2ac8fd5c291299
	movb	$1, %r13b
	testb	%al, %al
	jne	Ldcsctp_BB11_243
	movl	$32, 24(%rsp)
	movl	$0, 8(%r15)
	movq	$0, (%r15)
	movq	$-1, 40(%rsp)
	cmpq	$0, 48(%rsp)
	jne	Ldcsctp_BB11_361
	movq	8(%rsp), %rax
	movq	16(%rsp), %rcx
	movq	%rcx, %rdx
	subq	%rax, %rdx
	cmpq	$8, %rdx
	jbe	Ldcsctp_BB11_365
Ldcsctp_BB11_131:
	movq	(%rsp), %rdx
	leaq	(%rdx,%rax), %rsi
	movq	%rsi, %r8
	subq	%rbx, %r8
	movabsq	$7236852984341143596, %rdi
	cmpq	$8, %r8
	movq	%rdi, (%rsi)
	movb	$61, 8(%rsi)
	addq	$9, %rax
	movq	%rdx, (%rsp)
	movq	%rax, 8(%rsp)
	movq	%rcx, 16(%rsp)
Ldcsctp_BB11_132:
	movq	%rsp, %rdi
	leaq	280(%rsp), %rsi
	jmp	Ldcsctp_BB11_242
Ldcsctp_BB11_133:
	movabsq	$8751655350334406980, %r8
	movq	%r8, (%rdi)
	movl	$1030058105, 7(%rdi)
Ldcsctp_BB11_134:
	addq	$11, %rax
	movq	%r9, (%rsp)
	movq	%rax, 8(%rsp)
	movq	%rcx, 16(%rsp)
Ldcsctp_BB11_135:
	movl	$32, 24(%rsp)
	movl	$0, 8(%r13)
	movq	$0, (%r13)
	movq	$-1, 40(%rsp)
	cmpq	$0, 48(%rsp)
	jne	Ldcsctp_BB11_319
	movq	8(%rsp), %rbx
	movq	16(%rsp), %r13
	movq	%r13, %rax
	subq	%rbx, %rax
	cmpq	%rax, %r11
	ja	Ldcsctp_BB11_322
Ldcsctp_BB11_137:
	movq	(%rsp), %r12
	leaq	(%r12,%rbx), %rdi
	movq	%rdi, %rax
	subq	%rsi, %rax
	cmpq	%r11, %rax
	jae	Ldcsctp_BB11_184
	movl	%r11d, %eax
	andl	$3, %eax
	movl	%r11d, %r10d
	andl	$12, %r10d
	leaq	(%r12,%rbx), %r8
	addq	$3, %r8
	xorl	%ecx, %ecx
Ldcsctp_BB11_139:
	movl	(%rsi,%rcx), %r9d
	movl	%r9d, -3(%r8,%rcx)
	addq	$4, %rcx
	cmpq	%rcx, %r10
	jne	Ldcsctp_BB11_139
Ldcsctp_BB11_140:
	movzbl	(%rsi,%rcx), %r8d
	movb	%r8b, (%rdi,%rcx)
	incq	%rcx
	decq	%rax
	jne	Ldcsctp_BB11_140
	jmp	Ldcsctp_BB11_185
Ldcsctp_BB11_141:
	movups	l_static.38(%rip), %xmm0
	movups	%xmm0, (%rsi)
	movl	$1030185332, 15(%rsi)
Ldcsctp_BB11_142:
	addq	$19, %rax
	movq	%rdx, (%rsp)
	movq	%rax, 8(%rsp)
	movq	%rcx, 16(%rsp)
Ldcsctp_BB11_143:
	movq	%rsp, %rdi
	leaq	256(%rsp), %rsi
	callq	_core.fmt.formatter.Formatter.write_piece.7d2ac8fd5c291299
	movb	$1, %r13b
	testb	%al, %al
	jne	Ldcsctp_BB11_243
	movl	$32, 24(%rsp)
	leaq	28(%rsp), %rax
	movl	$0, 8(%rax)
	movq	$0, (%rax)
	movq	$-1, 40(%rsp)
	cmpq	$0, 48(%rsp)
	jne	Ldcsctp_BB11_360
	movq	8(%rsp), %rax
	movq	16(%rsp), %rcx
	movq	%rcx, %rdx
	subq	%rax, %rdx
	cmpq	$13, %rdx
	jbe	Ldcsctp_BB11_367
Ldcsctp_BB11_146:
	movq	(%rsp), %rdx
	leaq	(%rdx,%rax), %rsi
	movq	%rsi, %rdi
	subq	%rbx, %rdi
	cmpq	$13, %rdi
	ja	Ldcsctp_BB11_238
	movabsq	$7019269490406400044, %rdi
Ldcsctp_BB11_148:
	movq	%rdi, (%rsi)
	movl	$1937006444, 8(%rsi)
	movw	$15726, 12(%rsi)
	jmp	Ldcsctp_BB11_240
Ldcsctp_BB11_149:
	movups	l_static.46(%rip), %xmm0
Ldcsctp_BB11_150:
	movups	%xmm0, (%rsi)
	movl	$1030058105, 16(%rsi)
	addq	$20, %rax
	movq	%rdx, (%rsp)
	movq	%rax, 8(%rsp)
	movq	%rcx, 16(%rsp)
Ldcsctp_BB11_151:
	movl	$32, 24(%rsp)
	leaq	28(%rsp), %rax
	movl	$0, 8(%rax)
	movq	$0, (%rax)
	movq	$-1, 40(%rsp)
	xorps	%xmm0, %xmm0
	movaps	%xmm0, 240(%rsp)
	movq	$0, 256(%rsp)
	cmpb	$100, %bl
	jb	Ldcsctp_BB11_153
	movzbl	%bl, %eax
	leal	(%rax,%rax,4), %ecx
	leal	(%rax,%rcx,8), %ecx
	shrl	$12, %ecx
	imull	$100, %ecx, %eax
	subb	%al, %bl
	movzbl	%bl, %eax
	imull	$205, %eax, %edx
	shrl	$11, %edx
	leal	(%rdx,%rdx), %esi
	leal	(%rsi,%rsi,4), %esi
	subb	%sil, %al
	orb	$48, %al
	movb	%al, 263(%rsp)
	orb	$48, %dl
	movb	%dl, 262(%rsp)
	movl	$21, %eax
	movl	%ecx, %ebx
	jmp	Ldcsctp_BB11_155
Ldcsctp_BB11_153:
	movl	$23, %eax
	cmpb	$10, %bl
	jb	Ldcsctp_BB11_155
	movzbl	%bl, %eax
	imull	$205, %eax, %eax
	shrl	$11, %eax
	leal	(%rax,%rax), %ecx
	leal	(%rcx,%rcx,4), %ecx
	subb	%cl, %bl
	orb	$48, %bl
	movb	%bl, 263(%rsp)
	orb	$48, %al
	movb	%al, 262(%rsp)
	movl	$22, %eax
	jmp	Ldcsctp_BB11_156
Ldcsctp_BB11_155:
	orb	$48, %bl
	movb	%bl, 240(%rsp,%rax)
Ldcsctp_BB11_156:
	leaq	(%rsp,%rax), %rsi
	addq	$240, %rsi
	movb	$45, 239(%rsp,%rax)
	movl	$24, %edx
	subq	%rax, %rdx
	cmpq	$0, 48(%rsp)
	jne	Ldcsctp_BB11_320
	movq	8(%rsp), %rbx
	movq	16(%rsp), %r15
	movq	%r15, %rax
	subq	%rbx, %rax
	cmpq	%rax, %rdx
	ja	Ldcsctp_BB11_324
Ldcsctp_BB11_158:
	movq	(%rsp), %r12
	leaq	(%r12,%rbx), %rdi
	addq	%rdx, %rbx
	callq	_memcpy
	movq	%r12, (%rsp)
	movq	%rbx, 8(%rsp)
	movq	%r15, 16(%rsp)
	xorl	%r13d, %r13d
Ldcsctp_BB11_159:
	leaq	24(%rsp), %r12
	movq	224(%rsp), %r15
	movq	72(%rsp), %r10
Ldcsctp_BB11_160:
	movq	128(%rsp), %rax
	movq	%rax, 16(%r12)
	movaps	112(%rsp), %xmm0
	jmp	Ldcsctp_BB11_166
Ldcsctp_BB11_161:
	movabsq	$5423250039227106626, %rdi
Ldcsctp_BB11_162:
	movq	%rdi, 5(%rsi)
	movabsq	$4703238315783046472, %rdi
	movq	%rdi, (%rsi)
Ldcsctp_BB11_163:
	addq	$13, %rax
Ldcsctp_BB11_164:
	movq	%rdx, (%rsp)
	movq	%rax, 8(%rsp)
	movq	%rcx, 16(%rsp)
	xorl	%r13d, %r13d
Ldcsctp_BB11_165:
	movq	256(%rsp), %rax
	movq	%rax, 16(%r12)
	movaps	240(%rsp), %xmm0
Ldcsctp_BB11_166:
	movups	%xmm0, (%r12)
	jmp	Ldcsctp_BB11_403
Ldcsctp_BB11_167:
	movabsq	$4424065875902999617, %rdi
	movq	%rdi, 5(%rsi)
	movabsq	$2318299738317008201, %rdi
	movq	%rdi, (%rsi)
Ldcsctp_BB11_168:
	addq	$13, %rax
	movq	%r8, (%rsp)
	movq	%rax, 8(%rsp)
	movq	%rcx, 16(%rsp)
Ldcsctp_BB11_169:
	movl	$32, 24(%rsp)
	movl	$0, 8(%r13)
	movq	$0, (%r13)
	movq	$-1, 40(%rsp)
	cmpq	$0, 48(%rsp)
	jne	Ldcsctp_BB11_321
	movq	8(%rsp), %rbx
	movq	16(%rsp), %r10
	movq	%r10, %rax
	subq	%rbx, %rax
	cmpq	%rax, %r11
	ja	Ldcsctp_BB11_326
Ldcsctp_BB11_171:
	movq	(%rsp), %r13
	leaq	(%rbx,%r13), %rdi
	movq	%rdi, %rax
	subq	%r12, %rax
	cmpq	%r11, %rax
	jae	Ldcsctp_BB11_196
	movl	%r11d, %eax
	andl	$3, %eax
	movl	%r11d, %r9d
	andl	$12, %r9d
	leaq	(%rbx,%r13), %rsi
	addq	$3, %rsi
	xorl	%ecx, %ecx
Ldcsctp_BB11_173:
	movl	(%r12,%rcx), %r8d
	movl	%r8d, -3(%rsi,%rcx)
	addq	$4, %rcx
	cmpq	%rcx, %r9
	jne	Ldcsctp_BB11_173
Ldcsctp_BB11_174:
	movzbl	(%r12,%rcx), %esi
	movb	%sil, (%rdi,%rcx)
	incq	%rcx
	decq	%rax
	jne	Ldcsctp_BB11_174
	jmp	Ldcsctp_BB11_197
Ldcsctp_BB11_175:
	movups	l_static.43(%rip), %xmm0
	movups	%xmm0, (%rsi)
	movabsq	$4423772284542872678, %rdi
	movq	%rdi, 13(%rsi)
Ldcsctp_BB11_176:
	addq	$21, %rax
	movq	%rdx, (%rsp)
	movq	%rax, 8(%rsp)
	movq	%rcx, 16(%rsp)
Ldcsctp_BB11_177:
	movq	%rsp, %rdi
	leaq	112(%rsp), %rsi
	callq	_core.fmt.formatter.Formatter.write_piece.b05199c44017c92e
Ldcsctp_BB11_178:
	movl	%eax, %r13d
Ldcsctp_BB11_179:
	movq	256(%rsp), %rax
	movq	%rax, 16(%r12)
	movaps	240(%rsp), %xmm0
	movups	%xmm0, (%r12)
	jmp	Ldcsctp_BB11_402
Ldcsctp_BB11_180:
	movups	l_static.32(%rip), %xmm0
Ldcsctp_BB11_181:
	movups	%xmm0, (%rsi)
	movl	$1030056299, 16(%rsi)
	addq	$20, %rax
	movq	%rdx, (%rsp)
	movq	%rax, 8(%rsp)
	movq	%rcx, 16(%rsp)
Ldcsctp_BB11_182:
	movq	%rsp, %rdi
	leaq	256(%rsp), %rsi
	callq	_core.fmt.formatter.Formatter.write_piece.861f8385eb98801e
	movb	$1, %r13b
	testb	%al, %al
	je	Ldcsctp_BB11_220
Ldcsctp_BB11_183:
	movq	72(%rsp), %r10
	jmp	Ldcsctp_BB11_246
Ldcsctp_BB11_184:
	movq	%r11, %rdx
	movq	%r13, 184(%rsp)
	movq	%r11, %r13
	callq	_memcpy
	movq	%r13, %r11
	movq	184(%rsp), %r13
	movq	88(%rsp), %rdx
Ldcsctp_BB11_185:
	addq	%r11, %rbx
	movq	%r12, (%rsp)
	movq	%rbx, 8(%rsp)
	movq	%r13, 16(%rsp)
	leaq	28(%rsp), %r13
	leaq	24(%rsp), %r12
Ldcsctp_BB11_186:
	movl	$32, 24(%rsp)
	movl	$0, 8(%r13)
	movq	$0, (%r13)
	movq	$-1, 40(%rsp)
	cmpq	$0, 48(%rsp)
	jne	Ldcsctp_BB11_328
	movq	8(%rsp), %rax
	movq	16(%rsp), %rcx
	movq	%rcx, %rsi
	subq	%rax, %rsi
	cmpq	$1, %rsi
	jbe	Ldcsctp_BB11_330
Ldcsctp_BB11_188:
	movq	(%rsp), %rsi
	movw	$14906, (%rsi,%rax)
	addq	$2, %rax
	movq	%rsi, (%rsp)
	movq	%rax, 8(%rsp)
	movq	%rcx, 16(%rsp)
Ldcsctp_BB11_189:
	movl	$32, 24(%rsp)
	movl	$0, 8(%r13)
	movq	$0, (%r13)
	movq	$-1, 40(%rsp)
	cmpq	$0, 48(%rsp)
	jne	Ldcsctp_BB11_334
	movq	8(%rsp), %rbx
	movq	16(%rsp), %r12
	movq	%r12, %rax
	subq	%rbx, %rax
	cmpq	%rax, %rdx
	ja	Ldcsctp_BB11_336
Ldcsctp_BB11_191:
	movq	(%rsp), %r13
	leaq	(%rbx,%r13), %rdi
	movq	%rdi, %rax
	subq	%r15, %rax
	cmpq	%rdx, %rax
	jae	Ldcsctp_BB11_208
	movl	%edx, %eax
	andl	$3, %eax
	movl	%edx, %r9d
	andl	$12, %r9d
	leaq	(%rbx,%r13), %rsi
	addq	$3, %rsi
	xorl	%ecx, %ecx
Ldcsctp_BB11_193:
	movl	(%r15,%rcx), %r8d
	movl	%r8d, -3(%rsi,%rcx)
	addq	$4, %rcx
	cmpq	%rcx, %r9
	jne	Ldcsctp_BB11_193
	testq	%rax, %rax
	je	Ldcsctp_BB11_209
Ldcsctp_BB11_195:
	movzbl	(%r15,%rcx), %esi
	movb	%sil, (%rdi,%rcx)
	incq	%rcx
	decq	%rax
	jne	Ldcsctp_BB11_195
	jmp	Ldcsctp_BB11_209
Ldcsctp_BB11_196:
	movq	%r12, %rsi
	movq	%r11, %rdx
	movq	%r11, %r12
	movq	%r10, 184(%rsp)
	callq	_memcpy
	movq	184(%rsp), %r10
	movq	%r12, %r11
	movq	88(%rsp), %rdx
Ldcsctp_BB11_197:
	addq	%r11, %rbx
	movq	%r13, (%rsp)
	movq	%rbx, 8(%rsp)
	movq	%r10, 16(%rsp)
	leaq	28(%rsp), %r13
Ldcsctp_BB11_198:
	movl	$32, 24(%rsp)
	movl	$0, 8(%r13)
	movq	$0, (%r13)
	movq	$-1, 40(%rsp)
	cmpq	$0, 48(%rsp)
	jne	Ldcsctp_BB11_329
	movq	8(%rsp), %rax
	movq	16(%rsp), %rcx
	movq	%rcx, %rsi
	subq	%rax, %rsi
	cmpq	$1, %rsi
	jbe	Ldcsctp_BB11_332
Ldcsctp_BB11_200:
	movq	(%rsp), %rsi
	movw	$14906, (%rsi,%rax)
	addq	$2, %rax
	movq	%rsi, (%rsp)
	movq	%rax, 8(%rsp)
	movq	%rcx, 16(%rsp)
Ldcsctp_BB11_201:
	movl	$32, 24(%rsp)
	movl	$0, 8(%r13)
	movq	$0, (%r13)
	movq	$-1, 40(%rsp)
	cmpq	$0, 48(%rsp)
	jne	Ldcsctp_BB11_335
	movq	8(%rsp), %rbx
	movq	16(%rsp), %r12
	movq	%r12, %rax
	subq	%rbx, %rax
	cmpq	%rax, %rdx
	ja	Ldcsctp_BB11_338
Ldcsctp_BB11_203:
	movq	(%rsp), %r13
	leaq	(%rbx,%r13), %rdi
	movq	%rdi, %rax
	subq	%r15, %rax
	cmpq	%rdx, %rax
	jae	Ldcsctp_BB11_214
	movl	%edx, %eax
	andl	$3, %eax
	movl	%edx, %r9d
	andl	$12, %r9d
	leaq	(%rbx,%r13), %rsi
	addq	$3, %rsi
	xorl	%ecx, %ecx
Ldcsctp_BB11_205:
	movl	(%r15,%rcx), %r8d
	movl	%r8d, -3(%rsi,%rcx)
	addq	$4, %rcx
	cmpq	%rcx, %r9
	jne	Ldcsctp_BB11_205
	testq	%rax, %rax
	je	Ldcsctp_BB11_215
Ldcsctp_BB11_207:
	movzbl	(%r15,%rcx), %esi
	movb	%sil, (%rdi,%rcx)
	incq	%rcx
	decq	%rax
	jne	Ldcsctp_BB11_207
	jmp	Ldcsctp_BB11_215
Ldcsctp_BB11_208:
	movq	%r15, %rsi
	callq	_memcpy
	movq	88(%rsp), %rdx
Ldcsctp_BB11_209:
	addq	%rdx, %rbx
	movq	%r13, (%rsp)
	movq	%rbx, 8(%rsp)
	movq	%r12, 16(%rsp)
	leaq	28(%rsp), %r13
	leaq	24(%rsp), %r12
Ldcsctp_BB11_210:
	movl	$32, 24(%rsp)
	movl	$0, 8(%r13)
	movq	$0, (%r13)
	movq	$-1, 40(%rsp)
	cmpq	$0, 48(%rsp)
	jne	Ldcsctp_BB11_340
	movq	8(%rsp), %rax
	movq	16(%rsp), %rcx
	movq	%rcx, %rdx
	subq	%rax, %rdx
	cmpq	$5, %rdx
	jbe	Ldcsctp_BB11_356
Ldcsctp_BB11_212:
	movq	(%rsp), %rdx
	leaq	(%rdx,%rax), %rsi
	movq	%rsi, %rdi
	leaq	l_static.19(%rip), %r8
	subq	%r8, %rdi
	cmpq	$5, %rdi
	ja	Ldcsctp_BB11_224
	movl	$1936990252, (%rsi)
	movw	$15726, 4(%rsi)
	jmp	Ldcsctp_BB11_225
Ldcsctp_BB11_214:
	movq	%r15, %rsi
	callq	_memcpy
	movq	88(%rsp), %rdx
Ldcsctp_BB11_215:
	addq	%rdx, %rbx
	movq	%r13, (%rsp)
	movq	%rbx, 8(%rsp)
	movq	%r12, 16(%rsp)
	leaq	28(%rsp), %r13
Ldcsctp_BB11_216:
	movl	$32, 24(%rsp)
	movl	$0, 8(%r13)
	movq	$0, (%r13)
	movq	$-1, 40(%rsp)
	cmpq	$0, 48(%rsp)
	jne	Ldcsctp_BB11_341
	movq	8(%rsp), %rax
	movq	16(%rsp), %rcx
	movq	%rcx, %rdx
	subq	%rax, %rdx
	cmpq	$5, %rdx
	jbe	Ldcsctp_BB11_358
Ldcsctp_BB11_218:
	movq	(%rsp), %rdx
	leaq	(%rdx,%rax), %rsi
	movq	%rsi, %rdi
	leaq	l_static.19(%rip), %r8
	subq	%r8, %rdi
	cmpq	$5, %rdi
	ja	Ldcsctp_BB11_231
	movl	$1936990252, (%rsi)
	movw	$15726, 4(%rsi)
	jmp	Ldcsctp_BB11_232
Ldcsctp_BB11_220:
	movl	$32, 24(%rsp)
	leaq	28(%rsp), %rax
	movl	$0, 8(%rax)
	movq	$0, (%rax)
	movq	$-1, 40(%rsp)
	cmpq	$0, 48(%rsp)
	jne	Ldcsctp_BB11_362
	movq	8(%rsp), %rax
	movq	16(%rsp), %rcx
	movq	%rcx, %rdx
	subq	%rax, %rdx
	cmpq	$5, %rdx
	jbe	Ldcsctp_BB11_369
Ldcsctp_BB11_222:
	movq	(%rsp), %rdx
	leaq	(%rdx,%rax), %rsi
	movq	%rsi, %rdi
	subq	%rbx, %rdi
	cmpq	$5, %rdi
	ja	Ldcsctp_BB11_244
	movl	$1954112032, (%rsi)
	movw	$29541, 4(%rsi)
	jmp	Ldcsctp_BB11_245
Ldcsctp_BB11_224:
	movw	$15726, 4(%rsi)
	movl	$1936990252, (%rsi)
Ldcsctp_BB11_225:
	addq	$6, %rax
	movq	%rdx, (%rsp)
	movq	%rax, 8(%rsp)
	movq	%rcx, 16(%rsp)
Ldcsctp_BB11_226:
	movl	84(%rsp), %eax
	movl	%eax, 104(%rsp)
	leaq	104(%rsp), %rbx
	movq	%rbx, 192(%rsp)
	movl	$32, 24(%rsp)
	movl	$0, 8(%r13)
	movq	$0, (%r13)
	movq	$-1, 40(%rsp)
	movq	%rsp, %rdi
	leaq	192(%rsp), %rsi
	callq	_core.fmt.formatter.Formatter.write_piece.7d2ac8fd5c291299
	testb	%al, %al
	jne	Ldcsctp_BB11_395
	movl	$32, 24(%rsp)
	movl	$0, 8(%r13)
	movq	$0, (%r13)
	movq	$-1, 40(%rsp)
	cmpq	$0, 48(%rsp)
	jne	Ldcsctp_BB11_371
	movq	8(%rsp), %rax
	movq	16(%rsp), %rcx
	movq	%rcx, %rdx
	subq	%rax, %rdx
	cmpq	$5, %rdx
	jbe	Ldcsctp_BB11_381
Ldcsctp_BB11_229:
	movq	(%rsp), %rdx
	leaq	(%rdx,%rax), %rsi
	movq	%rsi, %rdi
	leaq	l_static.20(%rip), %r8
	subq	%r8, %rdi
	cmpq	$5, %rdi
	ja	Ldcsctp_BB11_247
	movl	$1769152556, (%rsi)
	movw	$15716, 4(%rsi)
	jmp	Ldcsctp_BB11_248
Ldcsctp_BB11_231:
	movw	$15726, 4(%rsi)
	movl	$1936990252, (%rsi)
Ldcsctp_BB11_232:
	addq	$6, %rax
	movq	%rdx, (%rsp)
	movq	%rax, 8(%rsp)
	movq	%rcx, 16(%rsp)
Ldcsctp_BB11_233:
	movl	176(%rsp), %eax
	movl	%eax, 84(%rsp)
	leaq	84(%rsp), %rbx
	movq	%rbx, 96(%rsp)
	movl	$32, 24(%rsp)
	movl	$0, 8(%r13)
	movq	$0, (%r13)
	movq	$-1, 40(%rsp)
	movq	%rsp, %rdi
	leaq	96(%rsp), %rsi
	callq	_core.fmt.formatter.Formatter.write_piece.7d2ac8fd5c291299
	testb	%al, %al
	jne	Ldcsctp_BB11_398
	movl	$32, 24(%rsp)
	movl	$0, 8(%r13)
	movq	$0, (%r13)
	movq	$-1, 40(%rsp)
	cmpq	$0, 48(%rsp)
	jne	Ldcsctp_BB11_372
	movq	8(%rsp), %rax
	movq	16(%rsp), %rcx
	movq	%rcx, %rdx
	subq	%rax, %rdx
	cmpq	$5, %rdx
	jbe	Ldcsctp_BB11_383
Ldcsctp_BB11_236:
	movq	(%rsp), %rdx
	leaq	(%rdx,%rax), %rsi
	movq	%rsi, %rdi
	leaq	l_static.35(%rip), %r8
	subq	%r8, %rdi
	cmpq	$5, %rdi
	ja	Ldcsctp_BB11_254
	movl	$1768759340, (%rsi)
	movw	$15716, 4(%rsi)
	jmp	Ldcsctp_BB11_255
Ldcsctp_BB11_238:
	movabsq	$4426602427406115177, %rdi
	movq	%rdi, 6(%rsi)
	movabsq	$7019269490406400044, %rdi
Ldcsctp_BB11_239:
	movq	%rdi, (%rsi)
Ldcsctp_BB11_240:
	addq	$14, %rax
	movq	%rdx, (%rsp)
	movq	%rax, 8(%rsp)
	movq	%rcx, 16(%rsp)
Ldcsctp_BB11_241:
	movl	84(%rsp), %eax
	movl	%eax, 96(%rsp)
	leaq	96(%rsp), %rax
	movq	%rax, 192(%rsp)
	movl	$32, 24(%rsp)
	leaq	28(%rsp), %rax
	movl	$0, 8(%rax)
	movq	$0, (%rax)
	movq	$-1, 40(%rsp)
	movq	%rsp, %rdi
	leaq	192(%rsp), %rsi
Ldcsctp_BB11_242:
	callq	_core.fmt.formatter.Formatter.write_piece.7d2ac8fd5c291299
	movl	%eax, %r13d
Ldcsctp_BB11_243:
	movq	128(%rsp), %rax
	movq	%rax, 16(%r12)
	movaps	112(%rsp), %xmm0
	jmp	Ldcsctp_BB11_400
Ldcsctp_BB11_244:
	movw	$29541, 4(%rsi)
	movl	$1954112032, (%rsi)
Ldcsctp_BB11_245:
	movq	72(%rsp), %r10
	addq	$6, %rax
	movq	%rdx, (%rsp)
	movq	%rax, 8(%rsp)
	movq	%rcx, 16(%rsp)
	xorl	%r13d, %r13d
Ldcsctp_BB11_246:
	movq	128(%rsp), %rax
	movq	%rax, 16(%r12)
	movaps	112(%rsp), %xmm0
	movups	%xmm0, (%r12)
	movq	224(%rsp), %r15
	jmp	Ldcsctp_BB11_403
Ldcsctp_BB11_247:
	movw	$15716, 4(%rsi)
	movl	$1769152556, (%rsi)
Ldcsctp_BB11_248:
	addq	$6, %rax
	movq	%rdx, (%rsp)
	movq	%rax, 8(%rsp)
	movq	%rcx, 16(%rsp)
Ldcsctp_BB11_249:
	movzwl	172(%rsp), %eax
	movw	%ax, 104(%rsp)
	movq	%rbx, 192(%rsp)
	movl	$32, 24(%rsp)
	movl	$0, 8(%r13)
	movq	$0, (%r13)
	movq	$-1, 40(%rsp)
	movq	%rsp, %rdi
	leaq	192(%rsp), %rsi
	callq	_core.fmt.formatter.Formatter.write_piece.9c544998babb2079
	testb	%al, %al
	jne	Ldcsctp_BB11_395
	movl	$32, 24(%rsp)
	movl	$0, 8(%r13)
	movq	$0, (%r13)
	movq	$-1, 40(%rsp)
	cmpq	$0, 48(%rsp)
	jne	Ldcsctp_BB11_385
	movq	8(%rsp), %rax
	movq	16(%rsp), %rcx
	movq	%rcx, %rdx
	subq	%rax, %rdx
	cmpq	$5, %rdx
	jbe	Ldcsctp_BB11_387
Ldcsctp_BB11_252:
	movq	(%rsp), %rdx
	leaq	(%rdx,%rax), %rsi
	movq	%rsi, %rdi
	leaq	l_static.21(%rip), %r8
	subq	%r8, %rdi
	cmpq	$5, %rdi
	ja	Ldcsctp_BB11_342
	movl	$1936924716, (%rsi)
	movw	$15726, 4(%rsi)
	jmp	Ldcsctp_BB11_343
Ldcsctp_BB11_254:
	movw	$15716, 4(%rsi)
	movl	$1768759340, (%rsi)
Ldcsctp_BB11_255:
	addq	$6, %rax
	movq	%rdx, (%rsp)
	movq	%rax, 8(%rsp)
	movq	%rcx, 16(%rsp)
Ldcsctp_BB11_256:
	movzwl	182(%rsp), %eax
	movw	%ax, 84(%rsp)
	movq	%rbx, 96(%rsp)
	movl	$32, 24(%rsp)
	movl	$0, 8(%r13)
	movq	$0, (%r13)
	movq	$-1, 40(%rsp)
	movq	%rsp, %rdi
	leaq	96(%rsp), %rsi
	callq	_core.fmt.formatter.Formatter.write_piece.9c544998babb2079
	testb	%al, %al
	jne	Ldcsctp_BB11_398
	movl	$32, 24(%rsp)
	movl	$0, 8(%r13)
	movq	$0, (%r13)
	movq	$-1, 40(%rsp)
	cmpq	$0, 48(%rsp)
	jne	Ldcsctp_BB11_386
	movq	8(%rsp), %rax
	movq	16(%rsp), %rcx
	movq	%rcx, %rdx
	subq	%rax, %rdx
	cmpq	$5, %rdx
	jbe	Ldcsctp_BB11_389
Ldcsctp_BB11_259:
	movq	(%rsp), %rdx
	leaq	(%rdx,%rax), %rsi
	movq	%rsi, %rdi
	leaq	l_static.21(%rip), %r8
	subq	%r8, %rdi
	cmpq	$5, %rdi
	ja	Ldcsctp_BB11_349
	movl	$1936924716, (%rsi)
	movw	$15726, 4(%rsi)
	jmp	Ldcsctp_BB11_350
Ldcsctp_BB11_261:
	leaq	l_static.37(%rip), %rsi
	movq	%rsp, %rdi
	movl	$34, %edx
	jmp	Ldcsctp_BB11_269
Ldcsctp_BB11_262:
	leaq	l_static.45(%rip), %rsi
	movq	%rsp, %rdi
	movl	$9, %edx
	jmp	Ldcsctp_BB11_277
Ldcsctp_BB11_263:
	leaq	l_static.13(%rip), %rsi
	movq	%rsp, %rdi
	movl	$10, %edx
	jmp	Ldcsctp_BB11_282
Ldcsctp_BB11_264:
	leaq	l_static.41(%rip), %rsi
	jmp	Ldcsctp_BB11_276
Ldcsctp_BB11_265:
	leaq	l_static.14(%rip), %rsi
	movq	%rsp, %rdi
	movl	$33, %edx
	callq	_core.fmt.formatter.Formatter.write_indented.69d84fb4438acd8c
	movb	$1, %r13b
	testb	%al, %al
	jne	Ldcsctp_BB11_402
	jmp	Ldcsctp_BB11_112
Ldcsctp_BB11_266:
	leaq	l_static.44(%rip), %rsi
	movq	%rsp, %rdi
	movl	$5, %edx
	jmp	Ldcsctp_BB11_277
Ldcsctp_BB11_267:
	leaq	l_static.40(%rip), %rsi
	movq	%rsp, %rdi
	movl	$23, %edx
	callq	_core.fmt.formatter.Formatter.write_indented.69d84fb4438acd8c
	movb	$1, %r13b
	testb	%al, %al
	jne	Ldcsctp_BB11_243
	jmp	Ldcsctp_BB11_117
Ldcsctp_BB11_268:
	leaq	l_static.36(%rip), %rsi
	movq	%rsp, %rdi
	movl	$32, %edx
Ldcsctp_BB11_269:
	callq	_core.fmt.formatter.Formatter.write_indented.69d84fb4438acd8c
	movb	$1, %r13b
	testb	%al, %al
	jne	Ldcsctp_BB11_179
	jmp	Ldcsctp_BB11_125
Ldcsctp_BB11_270:
	leaq	l_static.30(%rip), %rsi
	movq	%rsp, %rdi
	movl	$18, %edx
	callq	_core.fmt.formatter.Formatter.write_indented.69d84fb4438acd8c
	movb	$1, %r13b
	testb	%al, %al
	jne	Ldcsctp_BB11_243
	jmp	Ldcsctp_BB11_128
Ldcsctp_BB11_271:
	leaq	l_static.11(%rip), %rsi
	movq	%rsp, %rdi
	movl	$28, %edx
	callq	_core.fmt.formatter.Formatter.write_indented.69d84fb4438acd8c
	testb	%al, %al
	je	Ldcsctp_BB11_106
	jmp	Ldcsctp_BB11_423
Ldcsctp_BB11_272:
	leaq	l_static.17(%rip), %rax
	movq	%rsp, %rdi
	movl	$11, %edx
	movq	%rsi, 184(%rsp)
	movq	%rax, %rsi
	movq	%r11, %rbx
	callq	_core.fmt.formatter.Formatter.write_indented.69d84fb4438acd8c
	movq	%rbx, %r11
	movq	88(%rsp), %rdx
	movq	184(%rsp), %rsi
	testb	%al, %al
	jne	Ldcsctp_BB11_395
	jmp	Ldcsctp_BB11_135
Ldcsctp_BB11_273:
	leaq	l_static.38(%rip), %rsi
	movq	%rsp, %rdi
	movl	$19, %edx
	callq	_core.fmt.formatter.Formatter.write_indented.69d84fb4438acd8c
	movb	$1, %r13b
	testb	%al, %al
	jne	Ldcsctp_BB11_243
	jmp	Ldcsctp_BB11_143
Ldcsctp_BB11_274:
	leaq	l_static.46(%rip), %rsi
	movq	%rsp, %rdi
	movl	$20, %edx
	callq	_core.fmt.formatter.Formatter.write_indented.69d84fb4438acd8c
	movq	72(%rsp), %r10
	movb	$1, %r13b
	testb	%al, %al
	jne	Ldcsctp_BB11_160
	jmp	Ldcsctp_BB11_151
Ldcsctp_BB11_275:
	leaq	l_static.42(%rip), %rsi
Ldcsctp_BB11_276:
	movq	%rsp, %rdi
	movl	$13, %edx
Ldcsctp_BB11_277:
	callq	_core.fmt.formatter.Formatter.write_indented.69d84fb4438acd8c
	movq	72(%rsp), %r10
	movl	%eax, %r13d
	jmp	Ldcsctp_BB11_165
Ldcsctp_BB11_278:
	leaq	l_static.34(%rip), %rsi
	movq	%rsp, %rdi
	movl	$13, %edx
	movq	%r11, %rbx
	callq	_core.fmt.formatter.Formatter.write_indented.69d84fb4438acd8c
	movq	%rbx, %r11
	movq	88(%rsp), %rdx
	testb	%al, %al
	jne	Ldcsctp_BB11_398
	jmp	Ldcsctp_BB11_169
Ldcsctp_BB11_279:
	leaq	l_static.43(%rip), %rsi
	movq	%rsp, %rdi
	movl	$21, %edx
	callq	_core.fmt.formatter.Formatter.write_indented.69d84fb4438acd8c
	movb	$1, %r13b
	testb	%al, %al
	jne	Ldcsctp_BB11_179
	jmp	Ldcsctp_BB11_177
Ldcsctp_BB11_280:
	leaq	l_static.32(%rip), %rsi
	movq	%rsp, %rdi
	movl	$20, %edx
	callq	_core.fmt.formatter.Formatter.write_indented.69d84fb4438acd8c
	movq	72(%rsp), %r10
	movb	$1, %r13b
	testb	%al, %al
	jne	Ldcsctp_BB11_246
	jmp	Ldcsctp_BB11_182
Ldcsctp_BB11_281:
	leaq	l_static.12(%rip), %rsi
	movq	%rsp, %rdi
	movl	$12, %edx
Ldcsctp_BB11_282:
	callq	_core.fmt.formatter.Formatter.write_indented.69d84fb4438acd8c
	movq	72(%rsp), %r10
	movl	%eax, %r13d
	jmp	Ldcsctp_BB11_403
Ldcsctp_BB11_283:
	movq	%rsp, %rdi
	movl	$34, %esi
	callq	_std_alloc.vec.Vec.grow_amortized.38fbb921ed00a393
	movb	$1, %r13b
	testb	%al, %al
	je	Ldcsctp_BB11_179
	movq	8(%rsp), %rax
	movq	16(%rsp), %rcx
	jmp	Ldcsctp_BB11_44
Ldcsctp_BB11_285:
	movq	%rsp, %rdi
	movl	$9, %esi
	callq	_std_alloc.vec.Vec.grow_amortized.38fbb921ed00a393
	movq	72(%rsp), %r10
	movb	$1, %r13b
	testb	%al, %al
	je	Ldcsctp_BB11_165
	movq	8(%rsp), %rax
	movq	16(%rsp), %rcx
	jmp	Ldcsctp_BB11_48
Ldcsctp_BB11_287:
	movq	%rsp, %rdi
	movl	$10, %esi
	callq	_std_alloc.vec.Vec.grow_amortized.38fbb921ed00a393
	testb	%al, %al
	je	Ldcsctp_BB11_423
	movq	8(%rsp), %rax
	movq	16(%rsp), %rcx
	movq	72(%rsp), %r10
	jmp	Ldcsctp_BB11_51
Ldcsctp_BB11_289:
	movq	%rsp, %rdi
	movl	$13, %esi
	callq	_std_alloc.vec.Vec.grow_amortized.38fbb921ed00a393
	movq	72(%rsp), %r10
	movb	$1, %r13b
	testb	%al, %al
	je	Ldcsctp_BB11_165
	movq	8(%rsp), %rax
	movq	16(%rsp), %rcx
	jmp	Ldcsctp_BB11_54
Ldcsctp_BB11_291:
	movq	%rsp, %rdi
	movl	$33, %esi
	callq	_std_alloc.vec.Vec.grow_amortized.38fbb921ed00a393
	movb	$1, %r13b
	testb	%al, %al
	je	Ldcsctp_BB11_402
	movq	8(%rsp), %rax
	movq	16(%rsp), %rcx
	jmp	Ldcsctp_BB11_58
Ldcsctp_BB11_293:
	movq	%rsp, %rdi
	movl	$5, %esi
	callq	_std_alloc.vec.Vec.grow_amortized.38fbb921ed00a393
	movq	72(%rsp), %r10
	movb	$1, %r13b
	testb	%al, %al
	je	Ldcsctp_BB11_165
	movq	8(%rsp), %rax
	movq	16(%rsp), %rcx
	jmp	Ldcsctp_BB11_62
Ldcsctp_BB11_295:
	movq	%rsp, %rdi
	movl	$23, %esi
	callq	_std_alloc.vec.Vec.grow_amortized.38fbb921ed00a393
	movb	$1, %r13b
	testb	%al, %al
	je	Ldcsctp_BB11_243
	movq	8(%rsp), %rax
	movq	16(%rsp), %rcx
	jmp	Ldcsctp_BB11_66
Ldcsctp_BB11_297:
	movq	%rsp, %rdi
	movl	$32, %esi
	callq	_std_alloc.vec.Vec.grow_amortized.38fbb921ed00a393
	movb	$1, %r13b
	testb	%al, %al
	je	Ldcsctp_BB11_179
	movq	8(%rsp), %rax
	movq	16(%rsp), %rcx
	jmp	Ldcsctp_BB11_70
Ldcsctp_BB11_299:
	movq	%rsp, %rdi
	movl	$18, %esi
	callq	_std_alloc.vec.Vec.grow_amortized.38fbb921ed00a393
	movb	$1, %r13b
	testb	%al, %al
	je	Ldcsctp_BB11_243
	movq	8(%rsp), %rax
	movq	16(%rsp), %rcx
	jmp	Ldcsctp_BB11_74
Ldcsctp_BB11_301:
	movq	%rsp, %rdi
	movl	$28, %esi
	callq	_std_alloc.vec.Vec.grow_amortized.38fbb921ed00a393
	testb	%al, %al
	je	Ldcsctp_BB11_423
	movq	8(%rsp), %rax
	movq	16(%rsp), %rcx
	jmp	Ldcsctp_BB11_78
Ldcsctp_BB11_303:
	movq	%rsp, %rdi
	movq	%rsi, 184(%rsp)
	movl	$11, %esi
	movq	%r11, %r12
	callq	_std_alloc.vec.Vec.grow_amortized.38fbb921ed00a393
	movq	%r12, %r11
	movq	88(%rsp), %rdx
	movq	184(%rsp), %rsi
	leaq	24(%rsp), %r12
	testb	%al, %al
	je	Ldcsctp_BB11_395
	movq	8(%rsp), %rax
	movq	16(%rsp), %rcx
	jmp	Ldcsctp_BB11_32
Ldcsctp_BB11_305:
	movq	%rsp, %rdi
	movl	$19, %esi
	callq	_std_alloc.vec.Vec.grow_amortized.38fbb921ed00a393
	movb	$1, %r13b
	testb	%al, %al
	je	Ldcsctp_BB11_243
	movq	8(%rsp), %rax
	movq	16(%rsp), %rcx
	jmp	Ldcsctp_BB11_38
Ldcsctp_BB11_307:
	movq	%rsp, %rdi
	movl	$20, %esi
	callq	_std_alloc.vec.Vec.grow_amortized.38fbb921ed00a393
	movq	72(%rsp), %r10
	movb	$1, %r13b
	testb	%al, %al
	je	Ldcsctp_BB11_160
	movq	8(%rsp), %rax
	movq	16(%rsp), %rcx
	jmp	Ldcsctp_BB11_82
Ldcsctp_BB11_309:
	movq	%rsp, %rdi
	movl	$13, %esi
	callq	_std_alloc.vec.Vec.grow_amortized.38fbb921ed00a393
	movq	72(%rsp), %r10
	movb	$1, %r13b
	testb	%al, %al
	je	Ldcsctp_BB11_165
	movq	8(%rsp), %rax
	movq	16(%rsp), %rcx
	jmp	Ldcsctp_BB11_86
Ldcsctp_BB11_311:
	movq	%rsp, %rdi
	movl	$13, %esi
	movq	%r11, 184(%rsp)
	callq	_std_alloc.vec.Vec.grow_amortized.38fbb921ed00a393
	movq	184(%rsp), %r11
	movq	88(%rsp), %rdx
	testb	%al, %al
	je	Ldcsctp_BB11_398
	movq	8(%rsp), %rax
	movq	16(%rsp), %rcx
	jmp	Ldcsctp_BB11_90
Ldcsctp_BB11_313:
	movq	%rsp, %rdi
	movl	$21, %esi
	callq	_std_alloc.vec.Vec.grow_amortized.38fbb921ed00a393
	movb	$1, %r13b
	testb	%al, %al
	je	Ldcsctp_BB11_179
	movq	8(%rsp), %rax
	movq	16(%rsp), %rcx
	jmp	Ldcsctp_BB11_94
Ldcsctp_BB11_315:
	movq	%rsp, %rdi
	movl	$20, %esi
	callq	_std_alloc.vec.Vec.grow_amortized.38fbb921ed00a393
	movq	72(%rsp), %r10
	movb	$1, %r13b
	testb	%al, %al
	je	Ldcsctp_BB11_246
	movq	8(%rsp), %rax
	movq	16(%rsp), %rcx
	jmp	Ldcsctp_BB11_98
Ldcsctp_BB11_317:
	movq	%rsp, %rdi
	movl	$12, %esi
	callq	_std_alloc.vec.Vec.grow_amortized.38fbb921ed00a393
	testb	%al, %al
	je	Ldcsctp_BB11_423
	movq	8(%rsp), %rax
	movq	16(%rsp), %rcx
	movq	72(%rsp), %r10
	jmp	Ldcsctp_BB11_102
Ldcsctp_BB11_319:
	movq	%rsp, %rdi
	movq	%r11, %rdx
	callq	_core.fmt.formatter.Formatter.write_indented.69d84fb4438acd8c
	movq	88(%rsp), %rdx
	testb	%al, %al
	jne	Ldcsctp_BB11_395
	jmp	Ldcsctp_BB11_186
Ldcsctp_BB11_320:
	movq	%rsp, %rdi
	callq	_core.fmt.formatter.Formatter.write_indented.69d84fb4438acd8c
	movl	%eax, %r13d
	jmp	Ldcsctp_BB11_159
Ldcsctp_BB11_321:
	movq	%rsp, %rdi
	movq	%r12, %rsi
	movq	%r11, %rdx
	callq	_core.fmt.formatter.Formatter.write_indented.69d84fb4438acd8c
	movq	88(%rsp), %rdx
	testb	%al, %al
	jne	Ldcsctp_BB11_398
	jmp	Ldcsctp_BB11_198
Ldcsctp_BB11_322:
	movq	%rsp, %rdi
	movq	%rsi, %rbx
	movq	%r11, %rsi
	movq	%r11, %r13
	callq	_std_alloc.vec.Vec.grow_amortized.38fbb921ed00a393
	movq	88(%rsp), %rdx
	testb	%al, %al
	je	Ldcsctp_BB11_395
	movq	%r13, %r11
	movq	%rbx, %rsi
	movq	8(%rsp), %rbx
	movq	16(%rsp), %r13
	jmp	Ldcsctp_BB11_137
Ldcsctp_BB11_324:
	movq	%rsi, 88(%rsp)
	movq	%rsp, %rdi
	movq	%rdx, %r12
	movq	%rdx, %rsi
	callq	_std_alloc.vec.Vec.grow_amortized.38fbb921ed00a393
	movb	$1, %r13b
	testb	%al, %al
	je	Ldcsctp_BB11_159
	movq	8(%rsp), %rbx
	movq	16(%rsp), %r15
	movq	88(%rsp), %rsi
	movq	%r12, %rdx
	jmp	Ldcsctp_BB11_158
Ldcsctp_BB11_326:
	movq	%rsp, %rdi
	movq	%r11, %rsi
	movq	%r11, %rbx
	callq	_std_alloc.vec.Vec.grow_amortized.38fbb921ed00a393
	movq	88(%rsp), %rdx
	testb	%al, %al
	je	Ldcsctp_BB11_398
	movq	%rbx, %r11
	movq	8(%rsp), %rbx
	movq	16(%rsp), %r10
	jmp	Ldcsctp_BB11_171
Ldcsctp_BB11_328:
	leaq	l_static.18(%rip), %rsi
	movq	%rsp, %rdi
	movl	$2, %edx
	callq	_core.fmt.formatter.Formatter.write_indented.69d84fb4438acd8c
	movq	88(%rsp), %rdx
	testb	%al, %al
	jne	Ldcsctp_BB11_395
	jmp	Ldcsctp_BB11_189
Ldcsctp_BB11_329:
	leaq	l_static.18(%rip), %rsi
	movq	%rsp, %rdi
	movl	$2, %edx
	callq	_core.fmt.formatter.Formatter.write_indented.69d84fb4438acd8c
	movq	88(%rsp), %rdx
	testb	%al, %al
	jne	Ldcsctp_BB11_398
	jmp	Ldcsctp_BB11_201
Ldcsctp_BB11_330:
	movq	%rsp, %rdi
	movl	$2, %esi
	callq	_std_alloc.vec.Vec.grow_amortized.38fbb921ed00a393
	movq	88(%rsp), %rdx
	testb	%al, %al
	je	Ldcsctp_BB11_395
	movq	8(%rsp), %rax
	movq	16(%rsp), %rcx
	jmp	Ldcsctp_BB11_188
Ldcsctp_BB11_332:
	movq	%rsp, %rdi
	movl	$2, %esi
	callq	_std_alloc.vec.Vec.grow_amortized.38fbb921ed00a393
	movq	88(%rsp), %rdx
	testb	%al, %al
	je	Ldcsctp_BB11_398
	movq	8(%rsp), %rax
	movq	16(%rsp), %rcx
	jmp	Ldcsctp_BB11_200
Ldcsctp_BB11_334:
	movq	%rsp, %rdi
	movq	%r15, %rsi
	callq	_core.fmt.formatter.Formatter.write_indented.69d84fb4438acd8c
	testb	%al, %al
	jne	Ldcsctp_BB11_395
	jmp	Ldcsctp_BB11_210
Ldcsctp_BB11_335:
	movq	%rsp, %rdi
	movq	%r15, %rsi
	callq	_core.fmt.formatter.Formatter.write_indented.69d84fb4438acd8c
	testb	%al, %al
	jne	Ldcsctp_BB11_398
	jmp	Ldcsctp_BB11_216
Ldcsctp_BB11_336:
	movq	%rsp, %rdi
	movq	%rdx, %rsi
	callq	_std_alloc.vec.Vec.grow_amortized.38fbb921ed00a393
	movq	88(%rsp), %rdx
	testb	%al, %al
	leaq	24(%rsp), %r12
	je	Ldcsctp_BB11_395
	movq	8(%rsp), %rbx
	movq	16(%rsp), %r12
	jmp	Ldcsctp_BB11_191
Ldcsctp_BB11_338:
	movq	%rsp, %rdi
	movq	%rdx, %rsi
	callq	_std_alloc.vec.Vec.grow_amortized.38fbb921ed00a393
	movq	88(%rsp), %rdx
	testb	%al, %al
	je	Ldcsctp_BB11_398
	movq	8(%rsp), %rbx
	movq	16(%rsp), %r12
	jmp	Ldcsctp_BB11_203
Ldcsctp_BB11_340:
	leaq	l_static.19(%rip), %rsi
	movq	%rsp, %rdi
	movl	$6, %edx
	callq	_core.fmt.formatter.Formatter.write_indented.69d84fb4438acd8c
	testb	%al, %al
	jne	Ldcsctp_BB11_395
	jmp	Ldcsctp_BB11_226
Ldcsctp_BB11_341:
	leaq	l_static.19(%rip), %rsi
	movq	%rsp, %rdi
	movl	$6, %edx
	callq	_core.fmt.formatter.Formatter.write_indented.69d84fb4438acd8c
	testb	%al, %al
	jne	Ldcsctp_BB11_398
	jmp	Ldcsctp_BB11_233
Ldcsctp_BB11_342:
	movw	$15726, 4(%rsi)
	movl	$1936924716, (%rsi)
Ldcsctp_BB11_343:
	addq	$6, %rax
	movq	%rdx, (%rsp)
	movq	%rax, 8(%rsp)
	movq	%rcx, 16(%rsp)
Ldcsctp_BB11_344:
	movzwl	168(%rsp), %eax
	movw	%ax, 104(%rsp)
	movq	%rbx, 192(%rsp)
	movl	$32, 24(%rsp)
	movl	$0, 8(%r13)
	movq	$0, (%r13)
	movq	$-1, 40(%rsp)
	movq	%rsp, %rdi
	leaq	192(%rsp), %rsi
	callq	_core.fmt.formatter.Formatter.write_piece.9c544998babb2079
	testb	%al, %al
	jne	Ldcsctp_BB11_395
	movl	$32, 24(%rsp)
	movl	$0, 8(%r13)
	movq	$0, (%r13)
	movq	$-1, 40(%rsp)
	cmpq	$0, 48(%rsp)
	jne	Ldcsctp_BB11_391
	movq	8(%rsp), %rax
	movq	16(%rsp), %rcx
	movq	%rcx, %rdx
	subq	%rax, %rdx
	cmpq	$6, %rdx
	jbe	Ldcsctp_BB11_393
Ldcsctp_BB11_347:
	movq	(%rsp), %rdx
	leaq	(%rdx,%rax), %rsi
	movq	%rsi, %rdi
	leaq	l_static.22(%rip), %r8
	subq	%r8, %rdi
	cmpq	$6, %rdi
	ja	Ldcsctp_BB11_373
	movl	$1886396460, (%rsi)
	movw	$25705, 4(%rsi)
	movb	$61, 6(%rsi)
	jmp	Ldcsctp_BB11_374
Ldcsctp_BB11_349:
	movw	$15726, 4(%rsi)
	movl	$1936924716, (%rsi)
Ldcsctp_BB11_350:
	addq	$6, %rax
	movq	%rdx, (%rsp)
	movq	%rax, 8(%rsp)
	movq	%rcx, 16(%rsp)
Ldcsctp_BB11_351:
	movl	172(%rsp), %eax
	movl	%eax, 84(%rsp)
	movq	%rbx, 96(%rsp)
	movl	$32, 24(%rsp)
	movl	$0, 8(%r13)
	movq	$0, (%r13)
	movq	$-1, 40(%rsp)
	movq	%rsp, %rdi
	leaq	96(%rsp), %rsi
	callq	_core.fmt.formatter.Formatter.write_piece.7d2ac8fd5c291299
	testb	%al, %al
	jne	Ldcsctp_BB11_398
	movl	$32, 24(%rsp)
	movl	$0, 8(%r13)
	movq	$0, (%r13)
	movq	$-1, 40(%rsp)
	cmpq	$0, 48(%rsp)
	jne	Ldcsctp_BB11_392
	movq	8(%rsp), %rax
	movq	16(%rsp), %rcx
	movq	%rcx, %rdx
	subq	%rax, %rdx
	cmpq	$6, %rdx
	jbe	Ldcsctp_BB11_396
Ldcsctp_BB11_354:
	movq	(%rsp), %rdx
	leaq	(%rdx,%rax), %rsi
	movq	%rsi, %rdi
	leaq	l_static.22(%rip), %r8
	subq	%r8, %rdi
	cmpq	$6, %rdi
	ja	Ldcsctp_BB11_377
	movl	$1886396460, (%rsi)
	movw	$25705, 4(%rsi)
	movb	$61, 6(%rsi)
	jmp	Ldcsctp_BB11_378
Ldcsctp_BB11_356:
	movq	%rsp, %rdi
	movl	$6, %esi
	callq	_std_alloc.vec.Vec.grow_amortized.38fbb921ed00a393
	testb	%al, %al
	je	Ldcsctp_BB11_395
	movq	8(%rsp), %rax
	movq	16(%rsp), %rcx
	jmp	Ldcsctp_BB11_212
Ldcsctp_BB11_358:
	movq	%rsp, %rdi
	movl	$6, %esi
	callq	_std_alloc.vec.Vec.grow_amortized.38fbb921ed00a393
	testb	%al, %al
	je	Ldcsctp_BB11_398
	movq	8(%rsp), %rax
	movq	16(%rsp), %rcx
	jmp	Ldcsctp_BB11_218
Ldcsctp_BB11_360:
	leaq	l_static.39(%rip), %rsi
	movq	%rsp, %rdi
	movl	$14, %edx
	callq	_core.fmt.formatter.Formatter.write_indented.69d84fb4438acd8c
	testb	%al, %al
	jne	Ldcsctp_BB11_243
	jmp	Ldcsctp_BB11_241
Ldcsctp_BB11_361:
	leaq	l_static.31(%rip), %rsi
	movq	%rsp, %rdi
	movl	$9, %edx
	callq	_core.fmt.formatter.Formatter.write_indented.69d84fb4438acd8c
	testb	%al, %al
	jne	Ldcsctp_BB11_243
	jmp	Ldcsctp_BB11_132
Ldcsctp_BB11_362:
	leaq	l_static.33(%rip), %rsi
	movq	%rsp, %rdi
	movl	$6, %edx
	callq	_core.fmt.formatter.Formatter.write_indented.69d84fb4438acd8c
	movl	%eax, %r13d
	jmp	Ldcsctp_BB11_183
Ldcsctp_BB11_363:
	movq	%rsp, %rdi
	movl	$14, %esi
	callq	_std_alloc.vec.Vec.grow_amortized.38fbb921ed00a393
	testb	%al, %al
	je	Ldcsctp_BB11_243
	movq	8(%rsp), %rax
	movq	16(%rsp), %rcx
	jmp	Ldcsctp_BB11_120
Ldcsctp_BB11_365:
	movq	%rsp, %rdi
	movl	$9, %esi
	callq	_std_alloc.vec.Vec.grow_amortized.38fbb921ed00a393
	testb	%al, %al
	je	Ldcsctp_BB11_243
	movq	8(%rsp), %rax
	movq	16(%rsp), %rcx
	jmp	Ldcsctp_BB11_131
Ldcsctp_BB11_367:
	movq	%rsp, %rdi
	movl	$14, %esi
	callq	_std_alloc.vec.Vec.grow_amortized.38fbb921ed00a393
	testb	%al, %al
	je	Ldcsctp_BB11_243
	movq	8(%rsp), %rax
	movq	16(%rsp), %rcx
	jmp	Ldcsctp_BB11_146
Ldcsctp_BB11_369:
	movq	%rsp, %rdi
	movl	$6, %esi
	callq	_std_alloc.vec.Vec.grow_amortized.38fbb921ed00a393
	testb	%al, %al
	movq	72(%rsp), %r10
	je	Ldcsctp_BB11_246
	movq	8(%rsp), %rax
	movq	16(%rsp), %rcx
	jmp	Ldcsctp_BB11_222
Ldcsctp_BB11_371:
	leaq	l_static.20(%rip), %rsi
	movq	%rsp, %rdi
	movl	$6, %edx
	callq	_core.fmt.formatter.Formatter.write_indented.69d84fb4438acd8c
	testb	%al, %al
	jne	Ldcsctp_BB11_395
	jmp	Ldcsctp_BB11_249
Ldcsctp_BB11_372:
	leaq	l_static.35(%rip), %rsi
	movq	%rsp, %rdi
	movl	$6, %edx
	callq	_core.fmt.formatter.Formatter.write_indented.69d84fb4438acd8c
	testb	%al, %al
	jne	Ldcsctp_BB11_398
	jmp	Ldcsctp_BB11_256
Ldcsctp_BB11_373:
	movl	$1029990768, 3(%rsi)
	movl	$1886396460, (%rsi)
Ldcsctp_BB11_374:
	addq	$7, %rax
	movq	%rdx, (%rsp)
	movq	%rax, 8(%rsp)
	movq	%rcx, 16(%rsp)
Ldcsctp_BB11_375:
	movl	176(%rsp), %eax
	movl	%eax, 104(%rsp)
	movq	%rbx, 192(%rsp)
	movl	$32, 24(%rsp)
	movl	$0, 8(%r13)
	movq	$0, (%r13)
	movq	$-1, 40(%rsp)
	movq	%rsp, %rdi
	leaq	192(%rsp), %rsi
	callq	_core.fmt.formatter.Formatter.write_piece.7d2ac8fd5c291299
	movq	128(%rsp), %rcx
	movq	%rcx, 16(%r12)
	movaps	112(%rsp), %xmm0
	movups	%xmm0, (%r12)
	movb	$1, %r13b
	testb	%al, %al
	jne	Ldcsctp_BB11_401
	movq	%rsp, %rdi
	leaq	400(%rsp), %rsi
	callq	_core.fmt.formatter.Formatter.write_piece.3798a2e744629105
	movl	%eax, %r13d
	jmp	Ldcsctp_BB11_401
Ldcsctp_BB11_377:
	movl	$1029990768, 3(%rsi)
	movl	$1886396460, (%rsi)
Ldcsctp_BB11_378:
	addq	$7, %rax
	movq	%rdx, (%rsp)
	movq	%rax, 8(%rsp)
	movq	%rcx, 16(%rsp)
Ldcsctp_BB11_379:
	movl	168(%rsp), %eax
	movl	%eax, 84(%rsp)
	movq	%rbx, 96(%rsp)
	movl	$32, 24(%rsp)
	movl	$0, 8(%r13)
	movq	$0, (%r13)
	movq	$-1, 40(%rsp)
	movq	%rsp, %rdi
	leaq	96(%rsp), %rsi
	callq	_core.fmt.formatter.Formatter.write_piece.7d2ac8fd5c291299
	movq	128(%rsp), %rcx
	leaq	24(%rsp), %r12
	movq	%rcx, 16(%r12)
	movaps	112(%rsp), %xmm0
	movups	%xmm0, (%r12)
	movb	$1, %r13b
	testb	%al, %al
	jne	Ldcsctp_BB11_399
	movq	%rsp, %rdi
	leaq	400(%rsp), %rsi
	callq	_core.fmt.formatter.Formatter.write_piece.3798a2e744629105
	movl	%eax, %r13d
	jmp	Ldcsctp_BB11_399
Ldcsctp_BB11_381:
	movq	%rsp, %rdi
	movl	$6, %esi
	callq	_std_alloc.vec.Vec.grow_amortized.38fbb921ed00a393
	testb	%al, %al
	je	Ldcsctp_BB11_395
	movq	8(%rsp), %rax
	movq	16(%rsp), %rcx
	jmp	Ldcsctp_BB11_229
Ldcsctp_BB11_383:
	movq	%rsp, %rdi
	movl	$6, %esi
	callq	_std_alloc.vec.Vec.grow_amortized.38fbb921ed00a393
	testb	%al, %al
	je	Ldcsctp_BB11_398
	movq	8(%rsp), %rax
	movq	16(%rsp), %rcx
	jmp	Ldcsctp_BB11_236
Ldcsctp_BB11_385:
	leaq	l_static.21(%rip), %rsi
	movq	%rsp, %rdi
	movl	$6, %edx
	callq	_core.fmt.formatter.Formatter.write_indented.69d84fb4438acd8c
	testb	%al, %al
	jne	Ldcsctp_BB11_395
	jmp	Ldcsctp_BB11_344
Ldcsctp_BB11_386:
	leaq	l_static.21(%rip), %rsi
	movq	%rsp, %rdi
	movl	$6, %edx
	callq	_core.fmt.formatter.Formatter.write_indented.69d84fb4438acd8c
	testb	%al, %al
	jne	Ldcsctp_BB11_398
	jmp	Ldcsctp_BB11_351
Ldcsctp_BB11_387:
	movq	%rsp, %rdi
	movl	$6, %esi
	callq	_std_alloc.vec.Vec.grow_amortized.38fbb921ed00a393
	testb	%al, %al
	je	Ldcsctp_BB11_395
	movq	8(%rsp), %rax
	movq	16(%rsp), %rcx
	jmp	Ldcsctp_BB11_252
Ldcsctp_BB11_389:
	movq	%rsp, %rdi
	movl	$6, %esi
	callq	_std_alloc.vec.Vec.grow_amortized.38fbb921ed00a393
	testb	%al, %al
	je	Ldcsctp_BB11_398
	movq	8(%rsp), %rax
	movq	16(%rsp), %rcx
	jmp	Ldcsctp_BB11_259
Ldcsctp_BB11_391:
	leaq	l_static.22(%rip), %rsi
	movq	%rsp, %rdi
	movl	$7, %edx
	callq	_core.fmt.formatter.Formatter.write_indented.69d84fb4438acd8c
	testb	%al, %al
	jne	Ldcsctp_BB11_395
	jmp	Ldcsctp_BB11_375
Ldcsctp_BB11_392:
	leaq	l_static.22(%rip), %rsi
	movq	%rsp, %rdi
	movl	$7, %edx
	callq	_core.fmt.formatter.Formatter.write_indented.69d84fb4438acd8c
	testb	%al, %al
	jne	Ldcsctp_BB11_398
	jmp	Ldcsctp_BB11_379
Ldcsctp_BB11_393:
	movq	%rsp, %rdi
	movl	$7, %esi
	callq	_std_alloc.vec.Vec.grow_amortized.38fbb921ed00a393
	testb	%al, %al
	je	Ldcsctp_BB11_395
	movq	8(%rsp), %rax
	movq	16(%rsp), %rcx
	jmp	Ldcsctp_BB11_347
Ldcsctp_BB11_395:
	movb	$1, %r13b
	jmp	Ldcsctp_BB11_401
Ldcsctp_BB11_396:
	movq	%rsp, %rdi
	movl	$7, %esi
	callq	_std_alloc.vec.Vec.grow_amortized.38fbb921ed00a393
	testb	%al, %al
	je	Ldcsctp_BB11_398
	movq	8(%rsp), %rax
	movq	16(%rsp), %rcx
	jmp	Ldcsctp_BB11_354
Ldcsctp_BB11_398:
	movb	$1, %r13b
	leaq	24(%rsp), %r12
Ldcsctp_BB11_399:
	movq	208(%rsp), %rax
	movq	%rax, 16(%r12)
	movaps	192(%rsp), %xmm0
Ldcsctp_BB11_400:
	movups	%xmm0, (%r12)
Ldcsctp_BB11_401:
	movq	224(%rsp), %r15
Ldcsctp_BB11_402:
	movq	72(%rsp), %r10
Ldcsctp_BB11_403:
	movq	448(%rsp), %rax
	movq	%rax, 16(%r12)
	movaps	432(%rsp), %xmm0
	movups	%xmm0, (%r12)
	testb	%r13b, %r13b
	leaq	28(%rsp), %r13
	jne	Ldcsctp_BB11_423
Ldcsctp_BB11_404:
	incq	%rbp
	cmpq	%r15, %rbp
	jne	Ldcsctp_BB11_27
Ldcsctp_BB11_405:
	movl	$32, 24(%rsp)
	movl	$0, 8(%r13)
	movq	$0, (%r13)
	movq	$-1, 40(%rsp)
	cmpq	$0, 48(%rsp)
	jne	Ldcsctp_BB11_420
	movq	8(%rsp), %rcx
	movq	16(%rsp), %rax
	cmpq	%rcx, %rax
	je	Ldcsctp_BB11_421
Ldcsctp_BB11_407:
	movq	(%rsp), %rdx
	movb	$10, (%rdx,%rcx)
	incq	%rcx
	movq	%rdx, (%rsp)
	movq	%rcx, 8(%rsp)
	movq	(%rsp), %rcx
	movq	8(%rsp), %rdx
	movq	%rax, 160(%rsp)
	movq	%rcx, 144(%rsp)
	movq	%rdx, 152(%rsp)
Ldcsctp_BB11_408:
	movq	8(%r14), %r15
	testq	%r15, %r15
	je	Ldcsctp_BB11_416
	movq	(%r14), %r12
	movabsq	$4611686018427387903, %r8
	xorl	%r13d, %r13d
	xorl	%ecx, %ecx
	shlq	$6, %rcx
	movzbl	(%r12,%rcx), %eax
	movl	$8, %edx
	leaq	Ldcsctp_JTI11_1(%rip), %rbx
	movslq	(%rbx,%rax,4), %rsi
	addq	%rbx, %rsi
	xorl	%ebp, %ebp
	movb	$1, %al
	jmpq	*%rsi
Ldcsctp_BB11_410:
	leaq	l_static.4(%rip), %rsi
	movq	%rsp, %rdi
	movl	$13, %edx
	callq	_core.fmt.formatter.Formatter.write_indented.69d84fb4438acd8c
	testb	%al, %al
	jne	Ldcsctp_BB11_423
	jmp	Ldcsctp_BB11_11
Ldcsctp_BB11_411:
	movq	%rsp, %rdi
	movl	$13, %esi
	callq	_std_alloc.vec.Vec.grow_amortized.38fbb921ed00a393
	testb	%al, %al
	je	Ldcsctp_BB11_423
	movq	8(%rsp), %rax
	movq	16(%rsp), %rcx
	jmp	Ldcsctp_BB11_7
Ldcsctp_BB11_413:
	leaq	l_static.5(%rip), %rsi
	movq	%rsp, %rdi
	movl	$5, %edx
	callq	_core.fmt.formatter.Formatter.write_indented.69d84fb4438acd8c
	testb	%al, %al
	jne	Ldcsctp_BB11_423
	jmp	Ldcsctp_BB11_20
Ldcsctp_BB11_414:
	movq	%rsp, %rdi
	movl	$5, %esi
	callq	_std_alloc.vec.Vec.grow_amortized.38fbb921ed00a393
	testb	%al, %al
	je	Ldcsctp_BB11_423
	movq	8(%rsp), %rax
	movq	16(%rsp), %rcx
	jmp	Ldcsctp_BB11_14
Ldcsctp_BB11_416:
	movb	$1, %al
	xorl	%ebp, %ebp
	jmp	Ldcsctp_BB11_462
Ldcsctp_BB11_417:
	leaq	l_static.6(%rip), %rsi
	movq	%rsp, %rdi
	movl	$10, %edx
	callq	_core.fmt.formatter.Formatter.write_indented.69d84fb4438acd8c
	testb	%al, %al
	jne	Ldcsctp_BB11_423
	jmp	Ldcsctp_BB11_24
Ldcsctp_BB11_418:
	movq	%rsp, %rdi
	movl	$10, %esi
	callq	_std_alloc.vec.Vec.grow_amortized.38fbb921ed00a393
	testb	%al, %al
	je	Ldcsctp_BB11_423
	movq	8(%rsp), %rax
	movq	16(%rsp), %rcx
	jmp	Ldcsctp_BB11_23
Ldcsctp_BB11_420:
	leaq	l_static.2(%rip), %rsi
	movq	%rsp, %rdi
	movl	$1, %edx
	callq	_core.fmt.formatter.Formatter.write_indented.69d84fb4438acd8c
	movaps	(%rsp), %xmm0
	movq	16(%rsp), %rcx
	movq	%rcx, 480(%rsp)
	movaps	%xmm0, 144(%rsp)
	movq	%rcx, 160(%rsp)
	testb	%al, %al
	jne	Ldcsctp_BB11_424
	jmp	Ldcsctp_BB11_408
Ldcsctp_BB11_421:
	movq	%rsp, %rdi
	movl	$1, %esi
	callq	_std_alloc.vec.Vec.grow_amortized.38fbb921ed00a393
	testb	%al, %al
	je	Ldcsctp_BB11_423
	movq	8(%rsp), %rcx
	movq	16(%rsp), %rax
	jmp	Ldcsctp_BB11_407
Ldcsctp_BB11_423:
	movq	16(%rsp), %rax
	movaps	(%rsp), %xmm0
	movaps	%xmm0, 144(%rsp)
	movq	%rax, 160(%rsp)
Ldcsctp_BB11_424:
	cmpq	$0, 160(%rsp)
	je	Ldcsctp_BB11_426
	movq	144(%rsp), %rdi
	callq	_rattle_dealloc
Ldcsctp_BB11_426:
	movq	424(%rsp), %rax
	movb	$1, (%rax)
	xorps	%xmm0, %xmm0
	movups	%xmm0, 8(%rax)
	movq	$0, 24(%rax)
Ldcsctp_BB11_427:
	addq	$520, %rsp
	popq	%rbx
	popq	%r12
	popq	%r13
	popq	%r14
	popq	%r15
	popq	%rbp
	retq
Ldcsctp_BB11_433:
	movl	$4, %edx
	movb	$1, %al
	.p2align	4
Ldcsctp_BB11_428:
	cmpb	$1, %al
	jne	Ldcsctp_BB11_436
	addq	$3, %rbp
	andq	$-4, %rbp
	addq	%rdx, %rbp
	cmpq	$65536, %rbp
	jae	Ldcsctp_BB11_436
	incq	%r13
	cmpq	%r15, %r13
	je	Ldcsctp_BB11_460
	movq	%r13, %rcx
	shlq	$6, %rcx
	movzbl	(%r12,%rcx), %edx
	movb	$1, %al
	movslq	(%rbx,%rdx,4), %rsi
	addq	%rbx, %rsi
	movl	$8, %edx
	jmpq	*%rsi
Ldcsctp_BB11_432:
	movq	8(%r12,%rcx), %rsi
	movq	16(%r12,%rcx), %rdx
	xorl	%edi, %edi
	jmp	Ldcsctp_BB11_435
Ldcsctp_BB11_434:
	movq	24(%r12,%rcx), %rsi
	movq	32(%r12,%rcx), %rdx
	movl	$16, %edi
Ldcsctp_BB11_435:
	callq	_dcsctp_tlv.list.listed_encoded_size.cada439fb2c2aae5
	movabsq	$4611686018427387903, %r8
	jmp	Ldcsctp_BB11_428
Ldcsctp_BB11_436:
	xorl	%ebp, %ebp
	xorl	%eax, %eax
	jmp	Ldcsctp_BB11_461
Ldcsctp_BB11_437:
	movq	16(%r12,%rcx), %rcx
	leaq	12(%rcx), %rax
	addq	$16, %rcx
	jmp	Ldcsctp_BB11_449
Ldcsctp_BB11_438:
	movq	24(%r12,%rcx), %rsi
	testq	%rsi, %rsi
	je	Ldcsctp_BB11_443
	movq	16(%r12,%rcx), %rax
	leaq	-1(%rsi), %rdx
	.p2align	4
Ldcsctp_BB11_440:
	movzbl	(%rax), %ecx
	addq	$-1, %rdx
	setb	%dil
	cmpb	$1, %cl
	jne	Ldcsctp_BB11_442
	addq	$12, %rax
	testb	%dil, %dil
	jne	Ldcsctp_BB11_440
Ldcsctp_BB11_442:
	xorl	%edx, %edx
	movl	$0, %eax
	cmpb	$1, %cl
	jne	Ldcsctp_BB11_428
Ldcsctp_BB11_443:
	movq	%rsi, %rax
	shrq	$61, %rax
	shlq	$3, %rsi
	xorl	%ecx, %ecx
	negq	%rax
	movl	$0, %eax
	sbbq	%rax, %rax
	orq	%rsi, %rax
	leaq	8(%rax), %rdx
	cmpq	$65528, %rax
	setb	%al
	cmovaeq	%rcx, %rdx
	jmp	Ldcsctp_BB11_428
Ldcsctp_BB11_444:
	movq	16(%r12,%rcx), %rax
	jmp	Ldcsctp_BB11_448
Ldcsctp_BB11_445:
	movq	16(%r12,%rcx), %rcx
	leaq	16(%rcx), %rax
	addq	$20, %rcx
	jmp	Ldcsctp_BB11_449
Ldcsctp_BB11_446:
	movq	48(%r12,%rcx), %rax
	addq	24(%r12,%rcx), %rax
	movq	$-1, %rcx
	cmovbq	%rcx, %rax
	leaq	(,%rax,4), %rsi
	cmpq	%r8, %rax
	cmovaq	%rcx, %rsi
	leaq	16(%rsi), %rcx
	xorl	%edx, %edx
	cmpq	$65520, %rsi
	jmp	Ldcsctp_BB11_450
Ldcsctp_BB11_447:
	movq	24(%r12,%rcx), %rax
Ldcsctp_BB11_448:
	leaq	4(%rax), %rcx
Ldcsctp_BB11_449:
	xorl	%edx, %edx
	cmpq	$65532, %rax
Ldcsctp_BB11_450:
	setb	%al
	cmovbq	%rcx, %rdx
	jmp	Ldcsctp_BB11_428
Ldcsctp_BB11_451:
	movq	16(%r12,%rcx), %rdi
	movq	24(%r12,%rcx), %rsi
	jmp	Ldcsctp_BB11_459
Ldcsctp_BB11_452:
	movq	24(%r12,%rcx), %rsi
	testq	%rsi, %rsi
	je	Ldcsctp_BB11_457
	movq	16(%r12,%rcx), %rax
	leaq	-1(%rsi), %rdx
	.p2align	4
Ldcsctp_BB11_454:
	movzbl	(%rax), %ecx
	subq	$1, %rdx
	setb	%dil
	testb	$1, %cl
	jne	Ldcsctp_BB11_456
	addq	$12, %rax
	testb	%dil, %dil
	je	Ldcsctp_BB11_454
Ldcsctp_BB11_456:
	xorl	%edx, %edx
	movl	$0, %eax
	testb	$1, %cl
	jne	Ldcsctp_BB11_428
Ldcsctp_BB11_457:
	leaq	(,%rsi,4), %rax
	cmpq	%r8, %rsi
	movq	$-1, %rcx
	cmovbeq	%rax, %rcx
	leaq	8(%rcx), %rsi
	xorl	%edx, %edx
	cmpq	$65528, %rcx
	setb	%al
	cmovbq	%rsi, %rdx
	jmp	Ldcsctp_BB11_428
Ldcsctp_BB11_458:
	movq	8(%r12,%rcx), %rdi
	movq	16(%r12,%rcx), %rsi
Ldcsctp_BB11_459:
	callq	_dcsctp_tlv.list.listed_encoded_size.f123a6a91b68d363
	movabsq	$4611686018427387903, %r8
	jmp	Ldcsctp_BB11_428
Ldcsctp_BB11_460:
	movb	$1, %al
Ldcsctp_BB11_461:
	addl	$3, %ebp
	andl	$131068, %ebp
Ldcsctp_BB11_462:
	testb	%al, %al
	je	Ldcsctp_BB11_479
	cmpl	$65521, %ebp
	jae	Ldcsctp_BB11_479
	leaq	12(%rbp), %rdi
	movl	$1, %esi
	callq	_rattle_alloc
	testb	$1, %al
	je	Ldcsctp_BB11_424
	movq	%rdx, %r15
	leaq	11(%rbp), %rsi
	movq	%rdx, %rdi
	callq	___bzero
	movb	$0, 11(%r15,%rbp)
	movzwl	26(%r14), %eax
	movl	28(%r14), %ecx
	movzwl	24(%r14), %edx
	shll	$16, %edx
	orl	%eax, %edx
	bswapl	%edx
	bswapl	%ecx
	movl	%edx, (%r15)
	movl	%ecx, 4(%r15)
	movl	$0, 8(%r15)
	movq	8(%r14), %rbx
	testq	%rbx, %rbx
	je	Ldcsctp_BB11_468
	leaq	12(%r15), %r13
	movq	(%r14), %r14
	xorl	%r12d, %r12d
Ldcsctp_BB11_467:
	addq	$3, %r12
	andq	$-4, %r12
	leaq	(%r12,%r13), %rsi
	movq	%r14, %rdi
	callq	_dcsctp_wire.packet.chunk.ChunkSerializableTlv.serialize_to
	movzwl	2(%r13,%r12), %eax
	rolw	$8, %ax
	movzwl	%ax, %eax
	addq	%rax, %r12
	addq	$64, %r14
	decq	%rbx
	jne	Ldcsctp_BB11_467
Ldcsctp_BB11_468:
	leaq	12(%rbp), %r12
	leal	(%r12,%r12), %r13d
	movl	$1, %esi
	movq	%r13, %rdi
	callq	_rattle_alloc
	testb	$1, %al
	je	Ldcsctp_BB11_510
	movq	%rdx, %r14
	leaq	-1(%r13), %rsi
	movq	%rdx, %rdi
	callq	___bzero
	movb	$0, -1(%r14,%r13)
	movq	$-12, %rax
Ldcsctp_BB11_470:
	movzbl	12(%r15,%rax), %ecx
	movl	%ecx, %edx
	shrl	$4, %edx
	leaq	L_static.50(%rip), %rsi
	movzbl	(%rdx,%rsi), %edx
	movb	%dl, 24(%r14,%rax,2)
	andl	$15, %ecx
	movzbl	(%rcx,%rsi), %ecx
	movb	%cl, 25(%r14,%rax,2)
	movzbl	13(%r15,%rax), %ecx
	movl	%ecx, %edx
	shrl	$4, %edx
	movzbl	(%rdx,%rsi), %edx
	movb	%dl, 26(%r14,%rax,2)
	andl	$15, %ecx
	movzbl	(%rcx,%rsi), %ecx
	movb	%cl, 27(%r14,%rax,2)
	addq	$2, %rax
	cmpq	%rax, %rbp
	jne	Ldcsctp_BB11_470
	movaps	144(%rsp), %xmm0
	movaps	%xmm0, 240(%rsp)
	movq	160(%rsp), %rbx
	movq	%rbx, 256(%rsp)
	xorps	%xmm0, %xmm0
	movaps	%xmm0, 288(%rsp)
	movl	$32, 264(%rsp)
	movq	$0, 268(%rsp)
	movl	$0, 276(%rsp)
	movq	$-1, 280(%rsp)
	movq	248(%rsp), %rax
	movq	%rbx, %rcx
	subq	%rax, %rcx
	cmpq	$9, %rcx
	jbe	Ldcsctp_BB11_500
Ldcsctp_BB11_472:
	leaq	268(%rsp), %r9
	movq	240(%rsp), %rcx
	leaq	(%rcx,%rax), %rdx
	addq	$10, %rax
	leaq	l_static.48(%rip), %rsi
	movq	%rdx, %rdi
	subq	%rsi, %rdi
	cmpq	$9, %rdi
	movabsq	$7017568567410188643, %rsi
	movq	%rsi, (%rdx)
	movw	$15724, 8(%rdx)
	movq	%rax, 248(%rsp)
	movq	%rbx, 256(%rsp)
	movl	$32, 264(%rsp)
	movl	$0, 8(%r9)
	movq	$0, (%r9)
	movq	$-1, 280(%rsp)
	cmpq	$0, 288(%rsp)
	jne	Ldcsctp_BB11_502
	movq	%rbx, %rdx
	subq	%rax, %rdx
	cmpq	%rdx, %r13
	ja	Ldcsctp_BB11_503
Ldcsctp_BB11_474:
	leaq	(%rax,%r13), %r10
	leaq	(%rcx,%rax), %rdi
	movq	%rdi, %rdx
	subq	%r14, %rdx
	cmpq	%r13, %rdx
	jae	Ldcsctp_BB11_485
	cmpq	$32, %rdx
	jae	Ldcsctp_BB11_488
	xorl	%edx, %edx
Ldcsctp_BB11_477:
	addq	%rcx, %rax
	addq	$3, %rax
Ldcsctp_BB11_478:
	movzbl	(%r14,%rdx), %ecx
	movb	%cl, -3(%rax,%rdx)
	movzbl	1(%r14,%rdx), %ecx
	movb	%cl, -2(%rax,%rdx)
	movzbl	2(%r14,%rdx), %ecx
	movb	%cl, -1(%rax,%rdx)
	movzbl	3(%r14,%rdx), %ecx
	movb	%cl, (%rax,%rdx)
	addq	$4, %rdx
	cmpq	%rdx, %r13
	jne	Ldcsctp_BB11_478
	jmp	Ldcsctp_BB11_495
Ldcsctp_BB11_479:
	movq	152(%rsp), %rcx
	movq	160(%rsp), %rax
	movq	%rax, %rdx
	subq	%rcx, %rdx
	cmpq	$18, %rdx
	jbe	Ldcsctp_BB11_486
Ldcsctp_BB11_480:
	leaq	152(%rsp), %rsi
	leaq	19(%rcx), %rdx
	xorps	%xmm0, %xmm0
	addq	144(%rsp), %rcx
	movups	%xmm0, (%rsi)
	leaq	l_static.47(%rip), %rsi
	movq	%rcx, %rdi
	subq	%rsi, %rdi
	cmpq	$18, %rdi
	ja	Ldcsctp_BB11_482
	movaps	Ldcsctp_CPI11_13(%rip), %xmm0
	movups	%xmm0, (%rcx)
	movw	$26478, 16(%rcx)
	movb	$10, 18(%rcx)
	jmp	Ldcsctp_BB11_483
Ldcsctp_BB11_482:
	movups	l_static.47(%rip), %xmm0
	movups	%xmm0, (%rcx)
	movl	$174550639, 15(%rcx)
Ldcsctp_BB11_483:
	movq	424(%rsp), %rcx
	movq	%rdx, 152(%rsp)
	movq	%rax, 160(%rsp)
Ldcsctp_BB11_484:
	movb	$0, (%rcx)
	movq	144(%rsp), %rax
	movq	%rax, 8(%rcx)
	movq	152(%rsp), %rax
	movq	%rax, 16(%rcx)
	movq	160(%rsp), %rax
	movq	%rax, 24(%rcx)
	jmp	Ldcsctp_BB11_427
Ldcsctp_BB11_485:
	movq	%r14, %rsi
	movq	%r13, %rdx
	movq	%r9, %r12
	movq	%r10, %r13
	callq	_memmove
	movq	%r13, %r10
	movq	%r12, %r9
	jmp	Ldcsctp_BB11_495
Ldcsctp_BB11_486:
	leaq	144(%rsp), %rdi
	movl	$19, %esi
	callq	_std_alloc.vec.Vec.grow_amortized.38fbb921ed00a393
	testb	%al, %al
	je	Ldcsctp_BB11_424
	movq	152(%rsp), %rcx
	movq	160(%rsp), %rax
	jmp	Ldcsctp_BB11_480
Ldcsctp_BB11_488:
	testq	%rbp, %rbp
	je	Ldcsctp_BB11_493
	movl	%r13d, %edx
	andl	$262112, %edx
	leaq	(%rax,%rcx), %rsi
	addq	$16, %rsi
	xorl	%r8d, %r8d
Ldcsctp_BB11_490:
	movups	(%r14,%r8), %xmm0
	movups	16(%r14,%r8), %xmm1
	movups	%xmm0, -16(%rsi,%r8)
	movups	%xmm1, (%rsi,%r8)
	addq	$32, %r8
	cmpq	%r8, %rdx
	jne	Ldcsctp_BB11_490
	cmpl	%edx, %r13d
	je	Ldcsctp_BB11_495
	testb	$12, %r12b
	jne	Ldcsctp_BB11_494
	jmp	Ldcsctp_BB11_477
Ldcsctp_BB11_493:
	xorl	%edx, %edx
Ldcsctp_BB11_494:
	movq	(%r14,%rdx), %rax
	movq	%rax, (%rdi,%rdx)
	addq	$8, %rdx
	cmpq	%rdx, %r13
	jne	Ldcsctp_BB11_494
Ldcsctp_BB11_495:
	movq	%r10, 248(%rsp)
	movq	%rbx, 256(%rsp)
Ldcsctp_BB11_496:
	movl	$32, 264(%rsp)
	movl	$0, 8(%r9)
	movq	$0, (%r9)
	movq	$-1, 280(%rsp)
	cmpq	$0, 288(%rsp)
	jne	Ldcsctp_BB11_505
	movq	248(%rsp), %rcx
	movq	256(%rsp), %rax
	cmpq	%rcx, %rax
	je	Ldcsctp_BB11_506
Ldcsctp_BB11_498:
	movq	240(%rsp), %rdx
	movb	$10, (%rdx,%rcx)
	incq	%rcx
	movq	%rcx, 248(%rsp)
	movq	240(%rsp), %rcx
	movq	248(%rsp), %rdx
	movq	%rax, 160(%rsp)
	movq	%rcx, 144(%rsp)
	movq	%rdx, 152(%rsp)
Ldcsctp_BB11_499:
	movq	%r14, %rdi
	callq	_rattle_dealloc
	movq	%r15, %rdi
	callq	_rattle_dealloc
	movq	424(%rsp), %rcx
	jmp	Ldcsctp_BB11_484
Ldcsctp_BB11_500:
	leaq	240(%rsp), %rdi
	movl	$10, %esi
	callq	_std_alloc.vec.Vec.grow_amortized.38fbb921ed00a393
	testb	%al, %al
	je	Ldcsctp_BB11_508
	movq	248(%rsp), %rax
	movq	256(%rsp), %rbx
	jmp	Ldcsctp_BB11_472
Ldcsctp_BB11_502:
	leaq	240(%rsp), %rdi
	movq	%r14, %rsi
	movq	%r13, %rdx
	movq	%r9, %rbx
	callq	_core.fmt.formatter.Formatter.write_indented.69d84fb4438acd8c
	movq	%rbx, %r9
	testb	%al, %al
	jne	Ldcsctp_BB11_508
	jmp	Ldcsctp_BB11_496
Ldcsctp_BB11_503:
	leaq	240(%rsp), %rdi
	movq	%r13, %rsi
	movq	%r9, %rbx
	callq	_std_alloc.vec.Vec.grow_amortized.38fbb921ed00a393
	testb	%al, %al
	je	Ldcsctp_BB11_508
	movq	%rbx, %r9
	movq	240(%rsp), %rcx
	movq	248(%rsp), %rax
	movq	256(%rsp), %rbx
	jmp	Ldcsctp_BB11_474
Ldcsctp_BB11_505:
	leaq	l_static.2(%rip), %rsi
	leaq	240(%rsp), %rdi
	movl	$1, %edx
	callq	_core.fmt.formatter.Formatter.write_indented.69d84fb4438acd8c
	movq	256(%rsp), %rcx
	movq	%rcx, 16(%rsp)
	movaps	240(%rsp), %xmm0
	movaps	%xmm0, 144(%rsp)
	movq	%rcx, 160(%rsp)
	testb	%al, %al
	jne	Ldcsctp_BB11_509
	jmp	Ldcsctp_BB11_499
Ldcsctp_BB11_506:
	leaq	240(%rsp), %rdi
	movl	$1, %esi
	callq	_std_alloc.vec.Vec.grow_amortized.38fbb921ed00a393
	testb	%al, %al
	je	Ldcsctp_BB11_508
	movq	248(%rsp), %rcx
	movq	256(%rsp), %rax
	jmp	Ldcsctp_BB11_498
Ldcsctp_BB11_508:
	movq	256(%rsp), %rax
	movaps	240(%rsp), %xmm0
	movaps	%xmm0, 144(%rsp)
	movq	%rax, 160(%rsp)
Ldcsctp_BB11_509:
	movq	%r14, %rdi
	callq	_rattle_dealloc
Ldcsctp_BB11_510:
	movq	%r15, %rdi
	callq	_rattle_dealloc
	jmp	Ldcsctp_BB11_424
	.cfi_endproc
	.p2align	2
	.data_region jt32
L11_0_set_30 = Ldcsctp_BB11_30-Ldcsctp_JTI11_0
L11_0_set_36 = Ldcsctp_BB11_36-Ldcsctp_JTI11_0
L11_0_set_64 = Ldcsctp_BB11_64-Ldcsctp_JTI11_0
L11_0_set_72 = Ldcsctp_BB11_72-Ldcsctp_JTI11_0
L11_0_set_52 = Ldcsctp_BB11_52-Ldcsctp_JTI11_0
L11_0_set_84 = Ldcsctp_BB11_84-Ldcsctp_JTI11_0
L11_0_set_92 = Ldcsctp_BB11_92-Ldcsctp_JTI11_0
L11_0_set_76 = Ldcsctp_BB11_76-Ldcsctp_JTI11_0
L11_0_set_100 = Ldcsctp_BB11_100-Ldcsctp_JTI11_0
L11_0_set_60 = Ldcsctp_BB11_60-Ldcsctp_JTI11_0
L11_0_set_96 = Ldcsctp_BB11_96-Ldcsctp_JTI11_0
L11_0_set_49 = Ldcsctp_BB11_49-Ldcsctp_JTI11_0
L11_0_set_56 = Ldcsctp_BB11_56-Ldcsctp_JTI11_0
L11_0_set_88 = Ldcsctp_BB11_88-Ldcsctp_JTI11_0
L11_0_set_46 = Ldcsctp_BB11_46-Ldcsctp_JTI11_0
L11_0_set_68 = Ldcsctp_BB11_68-Ldcsctp_JTI11_0
L11_0_set_42 = Ldcsctp_BB11_42-Ldcsctp_JTI11_0
L11_0_set_80 = Ldcsctp_BB11_80-Ldcsctp_JTI11_0
Ldcsctp_JTI11_0:
	.long	L11_0_set_30
	.long	L11_0_set_36
	.long	L11_0_set_64
	.long	L11_0_set_72
	.long	L11_0_set_52
	.long	L11_0_set_84
	.long	L11_0_set_92
	.long	L11_0_set_76
	.long	L11_0_set_100
	.long	L11_0_set_60
	.long	L11_0_set_96
	.long	L11_0_set_49
	.long	L11_0_set_56
	.long	L11_0_set_88
	.long	L11_0_set_46
	.long	L11_0_set_68
	.long	L11_0_set_42
	.long	L11_0_set_80
L11_1_set_437 = Ldcsctp_BB11_437-Ldcsctp_JTI11_1
L11_1_set_434 = Ldcsctp_BB11_434-Ldcsctp_JTI11_1
L11_1_set_446 = Ldcsctp_BB11_446-Ldcsctp_JTI11_1
L11_1_set_432 = Ldcsctp_BB11_432-Ldcsctp_JTI11_1
L11_1_set_451 = Ldcsctp_BB11_451-Ldcsctp_JTI11_1
L11_1_set_428 = Ldcsctp_BB11_428-Ldcsctp_JTI11_1
L11_1_set_433 = Ldcsctp_BB11_433-Ldcsctp_JTI11_1
L11_1_set_458 = Ldcsctp_BB11_458-Ldcsctp_JTI11_1
L11_1_set_444 = Ldcsctp_BB11_444-Ldcsctp_JTI11_1
L11_1_set_445 = Ldcsctp_BB11_445-Ldcsctp_JTI11_1
L11_1_set_452 = Ldcsctp_BB11_452-Ldcsctp_JTI11_1
L11_1_set_438 = Ldcsctp_BB11_438-Ldcsctp_JTI11_1
L11_1_set_447 = Ldcsctp_BB11_447-Ldcsctp_JTI11_1
Ldcsctp_JTI11_1:
	.long	L11_1_set_437
	.long	L11_1_set_434
	.long	L11_1_set_434
	.long	L11_1_set_446
	.long	L11_1_set_432
	.long	L11_1_set_432
	.long	L11_1_set_451
	.long	L11_1_set_428
	.long	L11_1_set_433
	.long	L11_1_set_458
	.long	L11_1_set_444
	.long	L11_1_set_433
	.long	L11_1_set_433
	.long	L11_1_set_445
	.long	L11_1_set_432
	.long	L11_1_set_452
	.long	L11_1_set_438
	.long	L11_1_set_447
	.end_data_region
	.p2align	4
_core.fmt.formatter.Formatter.write_piece.9c544998babb2079:
	.cfi_startproc
	pushq	%r15
	.cfi_def_cfa_offset 16
	pushq	%r14
	.cfi_def_cfa_offset 24
	pushq	%r13
	.cfi_def_cfa_offset 32
	pushq	%r12
	.cfi_def_cfa_offset 40
	pushq	%rbx
	.cfi_def_cfa_offset 48
	subq	$32, %rsp
	.cfi_def_cfa_offset 80
	.cfi_offset %rbx, -48
	.cfi_offset %r12, -40
	.cfi_offset %r13, -32
	.cfi_offset %r14, -24
	.cfi_offset %r15, -16
	movq	%rdi, %rbx
	movl	$32, 24(%rdi)
	movq	$0, 28(%rdi)
	movl	$0, 36(%rdi)
	movq	$-1, 40(%rdi)
	movq	(%rsi), %rax
	movzwl	(%rax), %edx
	xorps	%xmm0, %xmm0
	movaps	%xmm0, (%rsp)
	movq	$0, 16(%rsp)
	movl	$24, %eax
	cmpq	$100, %rdx
	jb	Ldcsctp_BB12_1
	.p2align	4
Ldcsctp_BB12_2:
	movl	%edx, %ecx
	imulq	$1374389535, %rcx, %rcx
	shrq	$37, %rcx
	imull	$100, %ecx, %esi
	movl	%edx, %edi
	subl	%esi, %edi
	imull	$103, %edi, %esi
	movzwl	%si, %esi
	shrl	$10, %esi
	leal	(%rsi,%rsi), %r8d
	leal	(%r8,%r8,4), %r8d
	subb	%r8b, %dil
	orb	$48, %dil
	movb	%dil, -1(%rsp,%rax)
	orb	$48, %sil
	movb	%sil, -2(%rsp,%rax)
	addq	$-2, %rax
	cmpq	$9999, %rdx
	movq	%rcx, %rdx
	ja	Ldcsctp_BB12_2
	cmpq	$10, %rcx
	jb	Ldcsctp_BB12_5
Ldcsctp_BB12_4:
	movzbl	%cl, %edx
	imull	$205, %edx, %edx
	shrl	$11, %edx
	leal	(%rdx,%rdx), %esi
	leal	(%rsi,%rsi,4), %esi
	subb	%sil, %cl
	orb	$48, %cl
	movb	%cl, -1(%rsp,%rax)
	orb	$48, %dl
	movb	%dl, -2(%rsp,%rax)
	addq	$-2, %rax
	jmp	Ldcsctp_BB12_6
Ldcsctp_BB12_1:
	movq	%rdx, %rcx
	cmpq	$10, %rcx
	jae	Ldcsctp_BB12_4
Ldcsctp_BB12_5:
	orb	$48, %cl
	movb	%cl, -1(%rsp,%rax)
	decq	%rax
Ldcsctp_BB12_6:
	leaq	(%rsp,%rax), %rsi
	movb	$45, -1(%rsp,%rax)
	movl	$24, %edx
	subq	%rax, %rdx
	cmpq	$0, 48(%rbx)
	jne	Ldcsctp_BB12_11
	movq	8(%rbx), %r14
	movq	16(%rbx), %r15
	movq	%r15, %rax
	subq	%r14, %rax
	cmpq	%rax, %rdx
	ja	Ldcsctp_BB12_8
Ldcsctp_BB12_10:
	movq	(%rbx), %r12
	leaq	(%r12,%r14), %rdi
	addq	%rdx, %r14
	callq	_memcpy
	movq	%r12, (%rbx)
	movq	%r14, 8(%rbx)
	movq	%r15, 16(%rbx)
	xorl	%eax, %eax
Ldcsctp_BB12_12:
	addq	$32, %rsp
	popq	%rbx
	popq	%r12
	popq	%r13
	popq	%r14
	popq	%r15
	retq
Ldcsctp_BB12_11:
	movq	%rbx, %rdi
	callq	_core.fmt.formatter.Formatter.write_indented.69d84fb4438acd8c
	jmp	Ldcsctp_BB12_12
Ldcsctp_BB12_8:
	movq	%rsi, %r12
	movq	%rbx, %rdi
	movq	%rdx, %r13
	movq	%rdx, %rsi
	callq	_std_alloc.vec.Vec.grow_amortized.38fbb921ed00a393
	movl	%eax, %ecx
	movb	$1, %al
	testb	%cl, %cl
	je	Ldcsctp_BB12_12
	movq	8(%rbx), %r14
	movq	16(%rbx), %r15
	movq	%r12, %rsi
	movq	%r13, %rdx
	jmp	Ldcsctp_BB12_10
	.cfi_endproc
	.p2align	4
_std_alloc.vec.Vec.grow_amortized.38fbb921ed00a393:
	.cfi_startproc
	movq	%rsi, %rax
	movq	8(%rdi), %rsi
	addq	%rsi, %rax
	jae	Ldcsctp_BB13_2
	xorl	%eax, %eax
	retq
Ldcsctp_BB13_2:
	pushq	%r14
	.cfi_def_cfa_offset 16
	pushq	%rbx
	.cfi_def_cfa_offset 24
	pushq	%rax
	.cfi_def_cfa_offset 32
	.cfi_offset %rbx, -24
	.cfi_offset %r14, -16
	cmpq	$9, %rax
	movl	$8, %ebx
	cmovaeq	%rax, %rbx
	movq	16(%rdi), %rcx
	movq	%rcx, %rdx
	shrq	$62, %rdx
	leaq	(%rcx,%rcx), %rax
	cmpq	%rax, %rbx
	cmovaq	%rbx, %rax
	testq	%rdx, %rdx
	cmoveq	%rax, %rbx
	testq	%rbx, %rbx
	js	Ldcsctp_BB13_6
	testq	%rcx, %rcx
	je	Ldcsctp_BB13_8
	movq	%rdi, %r14
	movq	(%rdi), %rdi
	movl	$1, %ecx
	movq	%rbx, %rdx
	callq	_rattle_realloc
	testb	$1, %al
	je	Ldcsctp_BB13_6
Ldcsctp_BB13_9:
	movq	%rdx, (%r14)
	movq	%rbx, 16(%r14)
	movb	$1, %al
	addq	$8, %rsp
	popq	%rbx
	popq	%r14
	retq
Ldcsctp_BB13_8:
	movq	%rdi, %r14
	movl	$1, %esi
	movq	%rax, %rdi
	callq	_rattle_alloc
	testb	$1, %al
	jne	Ldcsctp_BB13_9
Ldcsctp_BB13_6:
	xorl	%eax, %eax
	addq	$8, %rsp
	popq	%rbx
	popq	%r14
	retq
	.cfi_endproc
	.p2align	4
_core.fmt.formatter.Formatter.write_indented.69d84fb4438acd8c:
	.cfi_startproc
	pushq	%rbp
	.cfi_def_cfa_offset 16
	pushq	%r15
	.cfi_def_cfa_offset 24
	pushq	%r14
	.cfi_def_cfa_offset 32
	pushq	%r13
	.cfi_def_cfa_offset 40
	pushq	%r12
	.cfi_def_cfa_offset 48
	pushq	%rbx
	.cfi_def_cfa_offset 56
	pushq	%rax
	.cfi_def_cfa_offset 64
	.cfi_offset %rbx, -56
	.cfi_offset %r12, -48
	.cfi_offset %r13, -40
	.cfi_offset %r14, -32
	.cfi_offset %r15, -24
	.cfi_offset %rbp, -16
	testq	%rdx, %rdx
	je	Ldcsctp_BB14_1
	movq	%rsi, %r14
	movq	%rdi, %r15
	xorl	%ecx, %ecx
	xorl	%ebp, %ebp
	movq	%rdx, (%rsp)
	jmp	Ldcsctp_BB14_3
	.p2align	4
Ldcsctp_BB14_7:
	addq	%r14, %r13
	movb	$1, 56(%r15)
	movq	%r15, %rdi
	movq	%r13, %rsi
	movq	%r12, %rdx
	callq	_core.fmt.formatter.Formatter.write_raw.69d84fb4438acd8c
	movq	%rbp, %rcx
	testb	%al, %al
	movq	(%rsp), %rdx
	jne	Ldcsctp_BB14_17
Ldcsctp_BB14_8:
	cmpq	%rdx, %rbp
	je	Ldcsctp_BB14_9
Ldcsctp_BB14_3:
	movq	%rbp, %rax
	incq	%rbp
	cmpb	$10, (%r14,%rax)
	jne	Ldcsctp_BB14_8
	xorl	%r13d, %r13d
	movq	%rbp, %r12
	subq	%rcx, %r12
	cmovaeq	%rcx, %r13
	cmpq	%rax, %rcx
	movq	%rbp, %rcx
	ja	Ldcsctp_BB14_8
	cmpb	$1, 56(%r15)
	jne	Ldcsctp_BB14_7
	movq	48(%r15), %rbx
	testq	%rbx, %rbx
	je	Ldcsctp_BB14_7
	.p2align	4
Ldcsctp_BB14_14:
	leaq	L_static.7(%rip), %rsi
	movl	$4, %edx
	movq	%r15, %rdi
	callq	_core.fmt.formatter.Formatter.write_raw.69d84fb4438acd8c
	testb	%al, %al
	jne	Ldcsctp_BB14_17
	decq	%rbx
	jne	Ldcsctp_BB14_14
	jmp	Ldcsctp_BB14_7
Ldcsctp_BB14_1:
	xorl	%eax, %eax
	jmp	Ldcsctp_BB14_18
Ldcsctp_BB14_9:
	xorl	%eax, %eax
	cmpq	%rdx, %rcx
	movq	%rcx, %r12
	cmovaq	%rax, %r12
	subq	%rcx, %rdx
	cmovbq	%rax, %rdx
	jbe	Ldcsctp_BB14_18
	movq	%rdx, %r13
	cmpb	$1, 56(%r15)
	jne	Ldcsctp_BB14_12
	movq	48(%r15), %rbx
	testq	%rbx, %rbx
	je	Ldcsctp_BB14_12
	.p2align	4
Ldcsctp_BB14_16:
	leaq	L_static.7(%rip), %rsi
	movl	$4, %edx
	movq	%r15, %rdi
	callq	_core.fmt.formatter.Formatter.write_raw.69d84fb4438acd8c
	testb	%al, %al
	jne	Ldcsctp_BB14_17
	decq	%rbx
	jne	Ldcsctp_BB14_16
Ldcsctp_BB14_12:
	addq	%r12, %r14
	movb	$0, 56(%r15)
	movq	%r15, %rdi
	movq	%r14, %rsi
	movq	%r13, %rdx
	addq	$8, %rsp
	popq	%rbx
	popq	%r12
	popq	%r13
	popq	%r14
	popq	%r15
	popq	%rbp
	jmp	_core.fmt.formatter.Formatter.write_raw.69d84fb4438acd8c
Ldcsctp_BB14_17:
	movb	$1, %al
Ldcsctp_BB14_18:
	addq	$8, %rsp
	popq	%rbx
	popq	%r12
	popq	%r13
	popq	%r14
	popq	%r15
	popq	%rbp
	retq
	.cfi_endproc
	.p2align	4
_core.fmt.formatter.Formatter.write_raw.69d84fb4438acd8c:
	.cfi_startproc
	testq	%rdx, %rdx
	je	Ldcsctp_BB15_19
	xorl	%ecx, %ecx
	jmp	Ldcsctp_BB15_3
	.p2align	4
Ldcsctp_BB15_2:
	addq	%r10, %rcx
	cmpq	%rdx, %rcx
	jae	Ldcsctp_BB15_19
Ldcsctp_BB15_3:
	movzbl	(%rsi,%rcx), %r8d
	movl	$1, %r10d
	testb	%r8b, %r8b
	jns	Ldcsctp_BB15_2
	leaq	1(%rcx), %r9
	movb	$1, %al
	cmpq	%r9, %rdx
	jbe	Ldcsctp_BB15_18
	movzbl	(%rsi,%r9), %r9d
	testb	%r9b, %r9b
	jns	Ldcsctp_BB15_18
	movzbl	%r9b, %r10d
	cmpb	$-64, %r9b
	movl	$192, %r9d
	cmovbl	%r10d, %r9d
	cmpb	$-62, %r8b
	jb	Ldcsctp_BB15_18
	movl	%r9d, %r10d
	andb	$127, %r10b
	cmpb	$63, %r10b
	ja	Ldcsctp_BB15_18
	movl	$2, %r10d
	cmpb	$-32, %r8b
	jb	Ldcsctp_BB15_2
	leaq	2(%rcx), %r10
	cmpq	%r10, %rdx
	jbe	Ldcsctp_BB15_18
	cmpb	$-65, (%rsi,%r10)
	jg	Ldcsctp_BB15_18
	andl	$127, %r9d
	cmpb	$-17, %r8b
	ja	Ldcsctp_BB15_15
	movl	%r8d, %r10d
	shll	$12, %r10d
	shll	$6, %r9d
	addl	%r10d, %r9d
	addl	$-917504, %r9d
	cmpl	$2048, %r9d
	jb	Ldcsctp_BB15_18
	movl	$3, %r10d
	cmpl	$55296, %r9d
	jb	Ldcsctp_BB15_2
	cmpb	$-18, %r8b
	jae	Ldcsctp_BB15_2
	jmp	Ldcsctp_BB15_18
Ldcsctp_BB15_15:
	leaq	3(%rcx), %r10
	cmpq	%r10, %rdx
	jbe	Ldcsctp_BB15_18
	cmpb	$-65, (%rsi,%r10)
	jg	Ldcsctp_BB15_18
	shll	$18, %r8d
	shll	$12, %r9d
	addl	%r9d, %r8d
	addl	$-62980096, %r8d
	movl	$4, %r10d
	cmpl	$1048575, %r8d
	jbe	Ldcsctp_BB15_2
Ldcsctp_BB15_18:
	retq
Ldcsctp_BB15_19:
	pushq	%r15
	.cfi_def_cfa_offset 16
	pushq	%r14
	.cfi_def_cfa_offset 24
	pushq	%r12
	.cfi_def_cfa_offset 32
	pushq	%rbx
	.cfi_def_cfa_offset 40
	pushq	%rax
	.cfi_def_cfa_offset 48
	.cfi_offset %rbx, -40
	.cfi_offset %r12, -32
	.cfi_offset %r14, -24
	.cfi_offset %r15, -16
	movq	8(%rdi), %rcx
	movq	16(%rdi), %rbx
	movq	%rbx, %rax
	subq	%rcx, %rax
	cmpq	%rax, %rdx
	ja	Ldcsctp_BB15_43
Ldcsctp_BB15_20:
	leaq	8(%rdi), %rax
	leaq	(%rcx,%rdx), %r14
	movq	(%rdi), %r15
	xorps	%xmm0, %xmm0
	movups	%xmm0, (%rax)
	leaq	(%r15,%rcx), %rax
	movq	%rax, %r8
	subq	%rsi, %r8
	cmpq	%rdx, %r8
	jae	Ldcsctp_BB15_23
	cmpq	$4, %rdx
	jb	Ldcsctp_BB15_22
	cmpq	$32, %r8
	jae	Ldcsctp_BB15_26
Ldcsctp_BB15_22:
	xorl	%r8d, %r8d
Ldcsctp_BB15_35:
	movq	%rdx, %r10
	movq	%r8, %r9
	andq	$3, %r10
	je	Ldcsctp_BB15_38
	movq	%r8, %r9
	.p2align	4
Ldcsctp_BB15_37:
	movzbl	(%rsi,%r9), %r11d
	movb	%r11b, (%rax,%r9)
	incq	%r9
	decq	%r10
	jne	Ldcsctp_BB15_37
Ldcsctp_BB15_38:
	subq	%rdx, %r8
	cmpq	$-4, %r8
	ja	Ldcsctp_BB15_41
	leaq	(%rcx,%r15), %rax
	addq	$3, %rax
	.p2align	4
Ldcsctp_BB15_40:
	movzbl	(%rsi,%r9), %ecx
	movb	%cl, -3(%rax,%r9)
	movzbl	1(%rsi,%r9), %ecx
	movb	%cl, -2(%rax,%r9)
	movzbl	2(%rsi,%r9), %ecx
	movb	%cl, -1(%rax,%r9)
	movzbl	3(%rsi,%r9), %ecx
	movb	%cl, (%rax,%r9)
	addq	$4, %r9
	cmpq	%r9, %rdx
	jne	Ldcsctp_BB15_40
	jmp	Ldcsctp_BB15_41
Ldcsctp_BB15_23:
	movq	%rdi, %r12
	movq	%rax, %rdi
	callq	_memmove
	movq	%r12, %rdi
Ldcsctp_BB15_41:
	movq	%r15, (%rdi)
	movq	%r14, 8(%rdi)
	movq	%rbx, 16(%rdi)
	xorl	%eax, %eax
Ldcsctp_BB15_42:
	addq	$8, %rsp
	popq	%rbx
	popq	%r12
	popq	%r14
	popq	%r15
	retq
Ldcsctp_BB15_26:
	cmpq	$32, %rdx
	jae	Ldcsctp_BB15_28
	xorl	%r8d, %r8d
	jmp	Ldcsctp_BB15_32
Ldcsctp_BB15_28:
	movq	%rdx, %r8
	andq	$-32, %r8
	leaq	(%rcx,%r15), %r9
	addq	$16, %r9
	xorl	%r10d, %r10d
	.p2align	4
Ldcsctp_BB15_29:
	movups	(%rsi,%r10), %xmm0
	movups	16(%rsi,%r10), %xmm1
	movups	%xmm0, -16(%r9,%r10)
	movups	%xmm1, (%r9,%r10)
	addq	$32, %r10
	cmpq	%r10, %r8
	jne	Ldcsctp_BB15_29
	cmpq	%r8, %rdx
	je	Ldcsctp_BB15_41
	testb	$28, %dl
	je	Ldcsctp_BB15_35
Ldcsctp_BB15_32:
	movq	%r8, %r9
	movq	%rdx, %r8
	andq	$-4, %r8
	.p2align	4
Ldcsctp_BB15_33:
	movl	(%rsi,%r9), %r10d
	movl	%r10d, (%rax,%r9)
	addq	$4, %r9
	cmpq	%r9, %r8
	jne	Ldcsctp_BB15_33
	cmpq	%r8, %rdx
	je	Ldcsctp_BB15_41
	jmp	Ldcsctp_BB15_35
Ldcsctp_BB15_43:
	movq	%rdi, %rbx
	movq	%rsi, %r14
	movq	%rdx, %rsi
	movq	%rdx, %r15
	callq	_std_alloc.vec.Vec.grow_amortized.38fbb921ed00a393
	movl	%eax, %ecx
	movb	$1, %al
	testb	%cl, %cl
	je	Ldcsctp_BB15_42
	movq	%r14, %rsi
	movq	%r15, %rdx
	movq	%rbx, %rdi
	movq	8(%rbx), %rcx
	movq	16(%rbx), %rbx
	jmp	Ldcsctp_BB15_20
	.cfi_endproc
	.p2align	4
_core.fmt.formatter.Formatter.write_piece.7d2ac8fd5c291299:
	.cfi_startproc
	pushq	%r15
	.cfi_def_cfa_offset 16
	pushq	%r14
	.cfi_def_cfa_offset 24
	pushq	%r13
	.cfi_def_cfa_offset 32
	pushq	%r12
	.cfi_def_cfa_offset 40
	pushq	%rbx
	.cfi_def_cfa_offset 48
	subq	$32, %rsp
	.cfi_def_cfa_offset 80
	.cfi_offset %rbx, -48
	.cfi_offset %r12, -40
	.cfi_offset %r13, -32
	.cfi_offset %r14, -24
	.cfi_offset %r15, -16
	movq	%rdi, %rbx
	movl	$32, 24(%rdi)
	movq	$0, 28(%rdi)
	movl	$0, 36(%rdi)
	movq	$-1, 40(%rdi)
	movq	(%rsi), %rax
	movl	(%rax), %edx
	xorps	%xmm0, %xmm0
	movaps	%xmm0, (%rsp)
	movq	$0, 16(%rsp)
	movl	$24, %eax
	cmpq	$100, %rdx
	jb	Ldcsctp_BB16_1
	.p2align	4
Ldcsctp_BB16_2:
	movl	%edx, %ecx
	imulq	$1374389535, %rcx, %rcx
	shrq	$37, %rcx
	imull	$100, %ecx, %esi
	movl	%edx, %edi
	subl	%esi, %edi
	imull	$103, %edi, %esi
	movzwl	%si, %esi
	shrl	$10, %esi
	leal	(%rsi,%rsi), %r8d
	leal	(%r8,%r8,4), %r8d
	subb	%r8b, %dil
	orb	$48, %dil
	movb	%dil, -1(%rsp,%rax)
	orb	$48, %sil
	movb	%sil, -2(%rsp,%rax)
	addq	$-2, %rax
	cmpq	$9999, %rdx
	movq	%rcx, %rdx
	ja	Ldcsctp_BB16_2
	cmpq	$10, %rcx
	jb	Ldcsctp_BB16_5
Ldcsctp_BB16_4:
	movzbl	%cl, %edx
	imull	$205, %edx, %edx
	shrl	$11, %edx
	leal	(%rdx,%rdx), %esi
	leal	(%rsi,%rsi,4), %esi
	subb	%sil, %cl
	orb	$48, %cl
	movb	%cl, -1(%rsp,%rax)
	orb	$48, %dl
	movb	%dl, -2(%rsp,%rax)
	addq	$-2, %rax
	jmp	Ldcsctp_BB16_6
Ldcsctp_BB16_1:
	movq	%rdx, %rcx
	cmpq	$10, %rcx
	jae	Ldcsctp_BB16_4
Ldcsctp_BB16_5:
	orb	$48, %cl
	movb	%cl, -1(%rsp,%rax)
	decq	%rax
Ldcsctp_BB16_6:
	leaq	(%rsp,%rax), %rsi
	movb	$45, -1(%rsp,%rax)
	movl	$24, %edx
	subq	%rax, %rdx
	cmpq	$0, 48(%rbx)
	jne	Ldcsctp_BB16_11
	movq	8(%rbx), %r14
	movq	16(%rbx), %r15
	movq	%r15, %rax
	subq	%r14, %rax
	cmpq	%rax, %rdx
	ja	Ldcsctp_BB16_8
Ldcsctp_BB16_10:
	movq	(%rbx), %r12
	leaq	(%r12,%r14), %rdi
	addq	%rdx, %r14
	callq	_memcpy
	movq	%r12, (%rbx)
	movq	%r14, 8(%rbx)
	movq	%r15, 16(%rbx)
	xorl	%eax, %eax
Ldcsctp_BB16_12:
	addq	$32, %rsp
	popq	%rbx
	popq	%r12
	popq	%r13
	popq	%r14
	popq	%r15
	retq
Ldcsctp_BB16_11:
	movq	%rbx, %rdi
	callq	_core.fmt.formatter.Formatter.write_indented.69d84fb4438acd8c
	jmp	Ldcsctp_BB16_12
Ldcsctp_BB16_8:
	movq	%rsi, %r12
	movq	%rbx, %rdi
	movq	%rdx, %r13
	movq	%rdx, %rsi
	callq	_std_alloc.vec.Vec.grow_amortized.38fbb921ed00a393
	movl	%eax, %ecx
	movb	$1, %al
	testb	%cl, %cl
	je	Ldcsctp_BB16_12
	movq	8(%rbx), %r14
	movq	16(%rbx), %r15
	movq	%r12, %rsi
	movq	%r13, %rdx
	jmp	Ldcsctp_BB16_10
	.cfi_endproc
	.p2align	4
_core.fmt.formatter.Formatter.write_piece.b05199c44017c92e:
	.cfi_startproc
	pushq	%rbx
	.cfi_def_cfa_offset 16
	.cfi_offset %rbx, -16
	movl	$32, 24(%rdi)
	movq	$0, 28(%rdi)
	movl	$0, 36(%rdi)
	movq	$-1, 40(%rdi)
	movq	48(%rdi), %rax
	cmpb	$1, (%rsi)
	jne	Ldcsctp_BB17_7
	testq	%rax, %rax
	jne	Ldcsctp_BB17_6
	movq	8(%rdi), %rax
	movq	16(%rdi), %rcx
	movq	%rcx, %rdx
	subq	%rax, %rdx
	cmpq	$3, %rdx
	jbe	Ldcsctp_BB17_3
Ldcsctp_BB17_5:
	movq	(%rdi), %rdx
	movl	$1702195828, (%rdx,%rax)
	addq	$4, %rax
	jmp	Ldcsctp_BB17_14
Ldcsctp_BB17_7:
	testq	%rax, %rax
	jne	Ldcsctp_BB17_16
	movq	8(%rdi), %rax
	movq	16(%rdi), %rcx
	movq	%rcx, %rdx
	subq	%rax, %rdx
	cmpq	$4, %rdx
	jbe	Ldcsctp_BB17_9
Ldcsctp_BB17_11:
	movq	(%rdi), %rdx
	leaq	(%rdx,%rax), %rsi
	addq	$5, %rax
	leaq	l_static.16(%rip), %r8
	movq	%rsi, %r9
	subq	%r8, %r9
	cmpq	$4, %r9
	ja	Ldcsctp_BB17_13
	movl	$1936482662, (%rsi)
	movb	$101, 4(%rsi)
	jmp	Ldcsctp_BB17_14
Ldcsctp_BB17_13:
	movb	$101, 4(%rsi)
	movl	$1936482662, (%rsi)
Ldcsctp_BB17_14:
	movq	%rdx, (%rdi)
	movq	%rax, 8(%rdi)
	movq	%rcx, 16(%rdi)
	xorl	%eax, %eax
Ldcsctp_BB17_15:
	popq	%rbx
	retq
Ldcsctp_BB17_6:
	leaq	L_static.15(%rip), %rsi
	movl	$4, %edx
	popq	%rbx
	jmp	_core.fmt.formatter.Formatter.write_indented.69d84fb4438acd8c
Ldcsctp_BB17_16:
	leaq	l_static.16(%rip), %rsi
	movl	$5, %edx
	popq	%rbx
	jmp	_core.fmt.formatter.Formatter.write_indented.69d84fb4438acd8c
Ldcsctp_BB17_3:
	movl	$4, %esi
	movq	%rdi, %rbx
	callq	_std_alloc.vec.Vec.grow_amortized.38fbb921ed00a393
	movl	%eax, %ecx
	movb	$1, %al
	testb	%cl, %cl
	je	Ldcsctp_BB17_15
	movq	%rbx, %rdi
	movq	8(%rbx), %rax
	movq	16(%rbx), %rcx
	jmp	Ldcsctp_BB17_5
Ldcsctp_BB17_9:
	movl	$5, %esi
	movq	%rdi, %rbx
	callq	_std_alloc.vec.Vec.grow_amortized.38fbb921ed00a393
	movl	%eax, %ecx
	movb	$1, %al
	testb	%cl, %cl
	je	Ldcsctp_BB17_15
	movq	%rbx, %rdi
	movq	8(%rbx), %rax
	movq	16(%rbx), %rcx
	jmp	Ldcsctp_BB17_11
	.cfi_endproc
	.p2align	4
_core.fmt.formatter.Formatter.write_piece.3798a2e744629105:
	.cfi_startproc
	pushq	%rbp
	.cfi_def_cfa_offset 16
	pushq	%r15
	.cfi_def_cfa_offset 24
	pushq	%r14
	.cfi_def_cfa_offset 32
	pushq	%r13
	.cfi_def_cfa_offset 40
	pushq	%r12
	.cfi_def_cfa_offset 48
	pushq	%rbx
	.cfi_def_cfa_offset 56
	subq	$40, %rsp
	.cfi_def_cfa_offset 96
	.cfi_offset %rbx, -56
	.cfi_offset %r12, -48
	.cfi_offset %r13, -40
	.cfi_offset %r14, -32
	.cfi_offset %r15, -24
	.cfi_offset %rbp, -16
	leaq	24(%rdi), %r15
	movl	$32, 24(%rdi)
	movq	$0, 28(%rdi)
	movl	$0, 36(%rdi)
	movq	$-1, 40(%rdi)
	movq	40(%rdi), %rax
	movq	%rax, 16(%rsp)
	movl	24(%rdi), %eax
	movl	%eax, (%rsp)
	movq	28(%rdi), %rax
	movq	%rax, 4(%rsp)
	movl	36(%rdi), %eax
	movl	%eax, 12(%rsp)
	movl	$32, 24(%rdi)
	movq	$0, 28(%rdi)
	movl	$0, 36(%rdi)
	movq	$-1, 40(%rdi)
	movq	(%rsi), %rbx
	movq	8(%rsi), %rdx
	cmpq	$0, 48(%rdi)
	jne	Ldcsctp_BB18_10
	movq	8(%rdi), %rcx
	movq	16(%rdi), %r14
	movq	%r14, %rax
	subq	%rcx, %rax
	cmpq	%rax, %rdx
	ja	Ldcsctp_BB18_27
Ldcsctp_BB18_2:
	leaq	8(%rdi), %rax
	leaq	(%rcx,%rdx), %r12
	movq	(%rdi), %r13
	xorps	%xmm0, %xmm0
	movups	%xmm0, (%rax)
	leaq	(%rcx,%r13), %rax
	movq	%rax, %r8
	subq	%rbx, %r8
	cmpq	%rdx, %r8
	jae	Ldcsctp_BB18_5
	cmpq	$4, %rdx
	jb	Ldcsctp_BB18_4
	cmpq	$32, %r8
	jae	Ldcsctp_BB18_8
Ldcsctp_BB18_4:
	xorl	%r8d, %r8d
Ldcsctp_BB18_18:
	movq	%rdx, %r10
	movq	%r8, %r9
	andq	$3, %r10
	je	Ldcsctp_BB18_21
	movq	%r8, %r9
	.p2align	4
Ldcsctp_BB18_20:
	movzbl	(%rbx,%r9), %r11d
	movb	%r11b, (%rax,%r9)
	incq	%r9
	decq	%r10
	jne	Ldcsctp_BB18_20
Ldcsctp_BB18_21:
	subq	%rdx, %r8
	cmpq	$-4, %r8
	ja	Ldcsctp_BB18_24
	leaq	(%rcx,%r13), %rax
	addq	$3, %rax
	.p2align	4
Ldcsctp_BB18_23:
	movzbl	(%rbx,%r9), %ecx
	movb	%cl, -3(%rax,%r9)
	movzbl	1(%rbx,%r9), %ecx
	movb	%cl, -2(%rax,%r9)
	movzbl	2(%rbx,%r9), %ecx
	movb	%cl, -1(%rax,%r9)
	movzbl	3(%rbx,%r9), %ecx
	movb	%cl, (%rax,%r9)
	addq	$4, %r9
	cmpq	%r9, %rdx
	jne	Ldcsctp_BB18_23
	jmp	Ldcsctp_BB18_24
Ldcsctp_BB18_5:
	movq	%rdi, %rbp
	movq	%rax, %rdi
	movq	%r13, 32(%rsp)
	movq	%r14, %r13
	movq	%r15, %r14
	movq	%r12, %r15
	movq	%rsi, %r12
	movq	%rbx, %rsi
	callq	_memmove
	movq	%rbp, %rdi
	movq	%r12, %rsi
	movq	%r15, %r12
	movq	%r14, %r15
	movq	%r13, %r14
	movq	32(%rsp), %r13
Ldcsctp_BB18_24:
	movq	%r13, (%rdi)
	movq	%r12, 8(%rdi)
	movq	%r14, 16(%rdi)
Ldcsctp_BB18_25:
	addq	$16, %rsi
	callq	_core.fmt.formatter.Formatter.write_piece.861f8385eb98801e
Ldcsctp_BB18_26:
	movq	16(%rsp), %rcx
	movq	%rcx, 16(%r15)
	movaps	(%rsp), %xmm0
	movups	%xmm0, (%r15)
	addq	$40, %rsp
	popq	%rbx
	popq	%r12
	popq	%r13
	popq	%r14
	popq	%r15
	popq	%rbp
	retq
Ldcsctp_BB18_8:
	cmpq	$32, %rdx
	jae	Ldcsctp_BB18_11
	xorl	%r8d, %r8d
	jmp	Ldcsctp_BB18_15
Ldcsctp_BB18_10:
	movq	%rdi, %r14
	movq	%rsi, %r12
	movq	%rbx, %rsi
	callq	_core.fmt.formatter.Formatter.write_indented.69d84fb4438acd8c
	movq	%r14, %rdi
	movq	%r12, %rsi
	movl	%eax, %ecx
	movb	$1, %al
	testb	%cl, %cl
	jne	Ldcsctp_BB18_26
	jmp	Ldcsctp_BB18_25
Ldcsctp_BB18_11:
	movq	%rdx, %r8
	andq	$-32, %r8
	leaq	(%rcx,%r13), %r9
	addq	$16, %r9
	xorl	%r10d, %r10d
	.p2align	4
Ldcsctp_BB18_12:
	movups	(%rbx,%r10), %xmm0
	movups	16(%rbx,%r10), %xmm1
	movups	%xmm0, -16(%r9,%r10)
	movups	%xmm1, (%r9,%r10)
	addq	$32, %r10
	cmpq	%r10, %r8
	jne	Ldcsctp_BB18_12
	cmpq	%r8, %rdx
	je	Ldcsctp_BB18_24
	testb	$28, %dl
	je	Ldcsctp_BB18_18
Ldcsctp_BB18_15:
	movq	%r8, %r9
	movq	%rdx, %r8
	andq	$-4, %r8
	.p2align	4
Ldcsctp_BB18_16:
	movl	(%rbx,%r9), %r10d
	movl	%r10d, (%rax,%r9)
	addq	$4, %r9
	cmpq	%r9, %r8
	jne	Ldcsctp_BB18_16
	cmpq	%r8, %rdx
	je	Ldcsctp_BB18_24
	jmp	Ldcsctp_BB18_18
Ldcsctp_BB18_27:
	movq	%rdi, %r14
	movq	%rsi, %r13
	movq	%rdx, %r12
	movq	%rdx, %rsi
	callq	_std_alloc.vec.Vec.grow_amortized.38fbb921ed00a393
	movl	%eax, %ecx
	movb	$1, %al
	testb	%cl, %cl
	je	Ldcsctp_BB18_26
	movq	%r14, %rdi
	movq	%r13, %rsi
	movq	8(%r14), %rcx
	movq	16(%r14), %r14
	movq	%r12, %rdx
	jmp	Ldcsctp_BB18_2
	.cfi_endproc
	.p2align	4
_core.fmt.formatter.Formatter.write_piece.861f8385eb98801e:
	.cfi_startproc
	pushq	%r15
	.cfi_def_cfa_offset 16
	pushq	%r14
	.cfi_def_cfa_offset 24
	pushq	%r13
	.cfi_def_cfa_offset 32
	pushq	%r12
	.cfi_def_cfa_offset 40
	pushq	%rbx
	.cfi_def_cfa_offset 48
	subq	$32, %rsp
	.cfi_def_cfa_offset 80
	.cfi_offset %rbx, -48
	.cfi_offset %r12, -40
	.cfi_offset %r13, -32
	.cfi_offset %r14, -24
	.cfi_offset %r15, -16
	movq	%rdi, %rbx
	movl	$32, 24(%rdi)
	movq	$0, 28(%rdi)
	movl	$0, 36(%rdi)
	movq	$-1, 40(%rdi)
	movq	(%rsi), %rax
	movq	(%rax), %rsi
	xorps	%xmm0, %xmm0
	movaps	%xmm0, (%rsp)
	movq	$0, 16(%rsp)
	movl	$24, %ecx
	cmpq	$100, %rsi
	jb	Ldcsctp_BB19_1
	.p2align	4
Ldcsctp_BB19_2:
	movq	%rsi, %rax
	shrq	$2, %rax
	movabsq	$2951479051793528259, %rdx
	mulq	%rdx
	shrq	$2, %rdx
	imull	$100, %edx, %eax
	movl	%esi, %edi
	subl	%eax, %edi
	movzbl	%dil, %eax
	imull	$205, %eax, %edi
	shrl	$11, %edi
	leal	(%rdi,%rdi), %r8d
	leal	(%r8,%r8,4), %r8d
	subb	%r8b, %al
	orb	$48, %al
	movb	%al, -1(%rsp,%rcx)
	orb	$48, %dil
	movb	%dil, -2(%rsp,%rcx)
	addq	$-2, %rcx
	cmpq	$9999, %rsi
	movq	%rdx, %rsi
	ja	Ldcsctp_BB19_2
	cmpq	$10, %rdx
	jb	Ldcsctp_BB19_5
Ldcsctp_BB19_4:
	movzbl	%dl, %eax
	imull	$205, %eax, %eax
	shrl	$11, %eax
	leal	(%rax,%rax), %esi
	leal	(%rsi,%rsi,4), %esi
	subb	%sil, %dl
	orb	$48, %dl
	movb	%dl, -1(%rsp,%rcx)
	orb	$48, %al
	movb	%al, -2(%rsp,%rcx)
	addq	$-2, %rcx
	jmp	Ldcsctp_BB19_6
Ldcsctp_BB19_1:
	movq	%rsi, %rdx
	cmpq	$10, %rdx
	jae	Ldcsctp_BB19_4
Ldcsctp_BB19_5:
	orb	$48, %dl
	movb	%dl, -1(%rsp,%rcx)
	decq	%rcx
Ldcsctp_BB19_6:
	leaq	(%rsp,%rcx), %rsi
	movb	$45, -1(%rsp,%rcx)
	movl	$24, %edx
	subq	%rcx, %rdx
	cmpq	$0, 48(%rbx)
	jne	Ldcsctp_BB19_11
	movq	8(%rbx), %r14
	movq	16(%rbx), %r15
	movq	%r15, %rax
	subq	%r14, %rax
	cmpq	%rax, %rdx
	ja	Ldcsctp_BB19_8
Ldcsctp_BB19_10:
	movq	(%rbx), %r12
	leaq	(%r12,%r14), %rdi
	addq	%rdx, %r14
	callq	_memcpy
	movq	%r12, (%rbx)
	movq	%r14, 8(%rbx)
	movq	%r15, 16(%rbx)
	xorl	%eax, %eax
Ldcsctp_BB19_12:
	addq	$32, %rsp
	popq	%rbx
	popq	%r12
	popq	%r13
	popq	%r14
	popq	%r15
	retq
Ldcsctp_BB19_11:
	movq	%rbx, %rdi
	callq	_core.fmt.formatter.Formatter.write_indented.69d84fb4438acd8c
	jmp	Ldcsctp_BB19_12
Ldcsctp_BB19_8:
	movq	%rsi, %r12
	movq	%rbx, %rdi
	movq	%rdx, %r13
	movq	%rdx, %rsi
	callq	_std_alloc.vec.Vec.grow_amortized.38fbb921ed00a393
	movl	%eax, %ecx
	movb	$1, %al
	testb	%cl, %cl
	je	Ldcsctp_BB19_12
	movq	8(%rbx), %r14
	movq	16(%rbx), %r15
	movq	%r12, %rsi
	movq	%r13, %rdx
	jmp	Ldcsctp_BB19_10
	.cfi_endproc
	.p2align	4
_dcsctp_tlv.list.listed_encoded_size.cada439fb2c2aae5:
	.cfi_startproc
	testq	%rdx, %rdx
	je	Ldcsctp_BB20_1
	addq	$32, %rsi
	xorl	%ecx, %ecx
	movzbl	-32(%rsi), %r9d
	movl	$8, %r8d
	leaq	Ldcsctp_JTI20_0(%rip), %rax
	movslq	(%rax,%r9,4), %r10
	addq	%rax, %r10
	movb	$1, %r9b
	jmpq	*%r10
Ldcsctp_BB20_1:
	xorl	%ecx, %ecx
Ldcsctp_BB20_2:
	leaq	(%rcx,%rdi), %rax
	xorl	%edx, %edx
	cmpq	$65532, %rax
	setb	%al
	leaq	4(%rcx,%rdi), %rcx
	cmovbq	%rcx, %rdx
	retq
	.p2align	4
Ldcsctp_BB20_18:
	cmpb	$1, %r9b
	jne	Ldcsctp_BB20_19
	addq	$3, %rcx
	andq	$-4, %rcx
	addq	%r8, %rcx
	cmpq	$65535, %rcx
	ja	Ldcsctp_BB20_19
	decq	%rdx
	je	Ldcsctp_BB20_2
	addq	$48, %rsi
	movzbl	-32(%rsi), %r8d
	movslq	(%rax,%r8,4), %r10
	addq	%rax, %r10
	movb	$1, %r9b
	movl	$8, %r8d
	jmpq	*%r10
Ldcsctp_BB20_15:
	movq	-16(%rsi), %r9
	jmp	Ldcsctp_BB20_17
Ldcsctp_BB20_11:
	movl	$4, %r8d
	jmp	Ldcsctp_BB20_18
Ldcsctp_BB20_12:
	movq	(%rsi), %r8
	leaq	(%r8,%r8), %r9
	testq	%r8, %r8
	movq	$-1, %r10
	cmovnsq	%r9, %r10
	leaq	16(%r10), %r11
	xorl	%r8d, %r8d
	cmpq	$65520, %r10
	jmp	Ldcsctp_BB20_13
Ldcsctp_BB20_14:
	movq	-8(%rsi), %r8
	leaq	(%r8,%r8), %r9
	testq	%r8, %r8
	movq	$-1, %r10
	cmovnsq	%r9, %r10
	leaq	8(%r10), %r11
	xorl	%r8d, %r8d
	cmpq	$65528, %r10
Ldcsctp_BB20_13:
	setb	%r9b
	cmovbq	%r11, %r8
	jmp	Ldcsctp_BB20_18
Ldcsctp_BB20_8:
	cmpb	$1, -20(%rsi)
	jne	Ldcsctp_BB20_10
	movl	$20, %r8d
	cmpb	$1, -12(%rsi)
	je	Ldcsctp_BB20_18
Ldcsctp_BB20_10:
	movl	$12, %r8d
	jmp	Ldcsctp_BB20_18
Ldcsctp_BB20_16:
	movq	-8(%rsi), %r9
Ldcsctp_BB20_17:
	leaq	4(%r9), %r10
	xorl	%r8d, %r8d
	cmpq	$65532, %r9
	setb	%r9b
	cmovbq	%r10, %r8
	jmp	Ldcsctp_BB20_18
Ldcsctp_BB20_19:
	xorl	%eax, %eax
	xorl	%edx, %edx
	retq
	.cfi_endproc
	.p2align	2
	.data_region jt32
L20_0_set_15 = Ldcsctp_BB20_15-Ldcsctp_JTI20_0
L20_0_set_12 = Ldcsctp_BB20_12-Ldcsctp_JTI20_0
L20_0_set_14 = Ldcsctp_BB20_14-Ldcsctp_JTI20_0
L20_0_set_18 = Ldcsctp_BB20_18-Ldcsctp_JTI20_0
L20_0_set_8 = Ldcsctp_BB20_8-Ldcsctp_JTI20_0
L20_0_set_10 = Ldcsctp_BB20_10-Ldcsctp_JTI20_0
L20_0_set_11 = Ldcsctp_BB20_11-Ldcsctp_JTI20_0
L20_0_set_16 = Ldcsctp_BB20_16-Ldcsctp_JTI20_0
Ldcsctp_JTI20_0:
	.long	L20_0_set_15
	.long	L20_0_set_15
	.long	L20_0_set_12
	.long	L20_0_set_14
	.long	L20_0_set_18
	.long	L20_0_set_8
	.long	L20_0_set_10
	.long	L20_0_set_10
	.long	L20_0_set_18
	.long	L20_0_set_15
	.long	L20_0_set_11
	.long	L20_0_set_16
	.end_data_region
	.p2align	4
_dcsctp_tlv.list.listed_encoded_size.f123a6a91b68d363:
	.cfi_startproc
	testq	%rsi, %rsi
	je	Ldcsctp_BB21_1
	addq	$24, %rdi
	xorl	%eax, %eax
	movzbl	-24(%rdi), %r8d
	movl	$8, %edx
	leaq	Ldcsctp_JTI21_0(%rip), %rcx
	movslq	(%rcx,%r8,4), %r9
	addq	%rcx, %r9
	movb	$1, %r8b
	jmpq	*%r9
Ldcsctp_BB21_1:
	xorl	%eax, %eax
Ldcsctp_BB21_2:
	leaq	4(%rax), %rcx
	xorl	%edx, %edx
	cmpq	$65532, %rax
	setb	%al
	cmovbq	%rcx, %rdx
	retq
	.p2align	4
Ldcsctp_BB21_13:
	cmpb	$1, %r8b
	jne	Ldcsctp_BB21_14
	addq	$3, %rax
	andq	$-4, %rax
	addq	%rdx, %rax
	cmpq	$65535, %rax
	ja	Ldcsctp_BB21_14
	decq	%rsi
	je	Ldcsctp_BB21_2
	addq	$40, %rdi
	movzbl	-24(%rdi), %edx
	movslq	(%rcx,%rdx,4), %r9
	addq	%rcx, %r9
	movb	$1, %r8b
	movl	$8, %edx
	jmpq	*%r9
Ldcsctp_BB21_10:
	movq	-8(%rdi), %r8
	jmp	Ldcsctp_BB21_12
Ldcsctp_BB21_9:
	movq	-8(%rdi), %rdx
	leaq	(%rdx,%rdx), %r8
	testq	%rdx, %rdx
	movq	$-1, %r9
	cmovnsq	%r8, %r9
	leaq	8(%r9), %r10
	xorl	%edx, %edx
	cmpq	$65528, %r9
	setb	%r8b
	cmovbq	%r10, %rdx
	jmp	Ldcsctp_BB21_13
Ldcsctp_BB21_11:
	movq	(%rdi), %r8
Ldcsctp_BB21_12:
	leaq	4(%r8), %r9
	xorl	%edx, %edx
	cmpq	$65532, %r8
	setb	%r8b
	cmovbq	%r9, %rdx
	jmp	Ldcsctp_BB21_13
Ldcsctp_BB21_8:
	movl	$4, %edx
	jmp	Ldcsctp_BB21_13
Ldcsctp_BB21_14:
	xorl	%eax, %eax
	xorl	%edx, %edx
	retq
	.cfi_endproc
	.p2align	2
	.data_region jt32
L21_0_set_9 = Ldcsctp_BB21_9-Ldcsctp_JTI21_0
L21_0_set_10 = Ldcsctp_BB21_10-Ldcsctp_JTI21_0
L21_0_set_13 = Ldcsctp_BB21_13-Ldcsctp_JTI21_0
L21_0_set_8 = Ldcsctp_BB21_8-Ldcsctp_JTI21_0
L21_0_set_11 = Ldcsctp_BB21_11-Ldcsctp_JTI21_0
Ldcsctp_JTI21_0:
	.long	L21_0_set_9
	.long	L21_0_set_10
	.long	L21_0_set_13
	.long	L21_0_set_8
	.long	L21_0_set_10
	.long	L21_0_set_10
	.long	L21_0_set_11
	.end_data_region
	.section	__TEXT,__literal16,16byte_literals
	.p2align	4, 0x0
Ldcsctp_CPI22_0:
	.byte	3
	.byte	2
	.byte	1
	.byte	0
	.byte	7
	.byte	6
	.byte	5
	.byte	4
	.space	1
	.space	1
	.space	1
	.space	1
	.space	1
	.space	1
	.space	1
	.space	1
Ldcsctp_CPI22_1:
	.byte	1
	.byte	0
	.byte	3
	.byte	2
	.space	1
	.space	1
	.space	1
	.space	1
	.space	1
	.space	1
	.space	1
	.space	1
	.space	1
	.space	1
	.space	1
	.space	1
Ldcsctp_CPI22_2:
	.byte	1
	.byte	0
	.byte	3
	.byte	2
	.byte	5
	.byte	4
	.byte	7
	.byte	6
	.byte	9
	.byte	8
	.byte	11
	.byte	10
	.byte	13
	.byte	12
	.byte	15
	.byte	14
Ldcsctp_CPI22_3:
	.byte	3
	.byte	2
	.byte	1
	.byte	0
	.byte	7
	.byte	6
	.byte	5
	.byte	4
	.byte	11
	.byte	10
	.byte	9
	.byte	8
	.byte	15
	.byte	14
	.byte	13
	.byte	12
	.section	__TEXT,__text,regular,pure_instructions
	.p2align	4
_dcsctp_wire.packet.chunk.ChunkSerializableTlv.serialize_to:
	.cfi_startproc
	subq	$24, %rsp
	.cfi_def_cfa_offset 32
	movq	%rsi, %r9
	movzbl	(%rdi), %eax
	leaq	Ldcsctp_JTI22_0(%rip), %rcx
	movslq	(%rcx,%rax,4), %rax
	addq	%rcx, %rax
	jmpq	*%rax
Ldcsctp_BB22_1:
	movzbl	60(%rdi), %eax
	movzbl	50(%rdi), %ecx
	movzbl	44(%rdi), %edx
	addb	%cl, %cl
	shlb	$2, %dl
	shlb	$3, %al
	orb	51(%rdi), %al
	orb	%cl, %al
	addb	%dl, %al
	movl	56(%rdi), %ecx
	movl	40(%rdi), %r8d
	bswapl	%ecx
	bswapl	%r8d
	movq	8(%rdi), %rsi
	movq	16(%rdi), %rdx
	leal	16(%rdx), %r10d
	rolw	$8, %r10w
	movd	46(%rdi), %xmm0
	pshufb	Ldcsctp_CPI22_1(%rip), %xmm0
	movb	$0, (%r9)
	movb	%al, 1(%r9)
	movw	%r10w, 2(%r9)
	movl	%ecx, 4(%r9)
	movd	%xmm0, 8(%r9)
	movl	%r8d, 12(%r9)
	leaq	16(%r9), %rdi
	movq	%rdi, %rax
	subq	%rsi, %rax
	cmpq	%rdx, %rax
	jae	Ldcsctp_BB22_39
	cmpq	$4, %rdx
	jb	Ldcsctp_BB22_3
	movq	%r9, %rax
	subq	%rsi, %rax
	addq	$16, %rax
	cmpq	$32, %rax
	jae	Ldcsctp_BB22_56
Ldcsctp_BB22_3:
	xorl	%eax, %eax
Ldcsctp_BB22_92:
	movq	%rdx, %r8
	movq	%rax, %rcx
	andq	$3, %r8
	je	Ldcsctp_BB22_95
	movq	%rax, %rcx
	.p2align	4
Ldcsctp_BB22_94:
	movzbl	(%rsi,%rcx), %r10d
	movb	%r10b, (%rdi,%rcx)
	incq	%rcx
	decq	%r8
	jne	Ldcsctp_BB22_94
Ldcsctp_BB22_95:
	subq	%rdx, %rax
	cmpq	$-4, %rax
	ja	Ldcsctp_BB22_133
	.p2align	4
Ldcsctp_BB22_96:
	movzbl	(%rsi,%rcx), %eax
	movb	%al, 16(%r9,%rcx)
	movzbl	1(%rsi,%rcx), %eax
	movb	%al, 17(%r9,%rcx)
	movzbl	2(%rsi,%rcx), %eax
	movb	%al, 18(%r9,%rcx)
	movzbl	3(%rsi,%rcx), %eax
	movb	%al, 19(%r9,%rcx)
	addq	$4, %rcx
	cmpq	%rcx, %rdx
	jne	Ldcsctp_BB22_96
	jmp	Ldcsctp_BB22_133
Ldcsctp_BB22_4:
	movl	8(%rdi), %edx
	movq	16(%rdi), %rax
	movq	24(%rdi), %rcx
	movw	$194, (%r9)
	leal	8(,%rcx,8), %esi
	rolw	$8, %si
	movw	%si, 2(%r9)
	bswapl	%edx
	movl	%edx, 4(%r9)
	testq	%rcx, %rcx
	je	Ldcsctp_BB22_133
	addq	$8, %rax
	xorl	%edx, %edx
	jmp	Ldcsctp_BB22_7
	.p2align	4
Ldcsctp_BB22_6:
	incq	%rdx
	addq	$12, %rax
	cmpq	%rdx, %rcx
	je	Ldcsctp_BB22_133
Ldcsctp_BB22_7:
	cmpb	$0, -8(%rax)
	je	Ldcsctp_BB22_6
	movzwl	-4(%rax), %esi
	rolw	$8, %si
	movw	%si, 8(%r9,%rdx,8)
	movzbl	-6(%rax), %esi
	andl	$1, %esi
	shll	$8, %esi
	movw	%si, 10(%r9,%rdx,8)
	movl	(%rax), %esi
	bswapl	%esi
	movl	%esi, 12(%r9,%rdx,8)
	jmp	Ldcsctp_BB22_6
Ldcsctp_BB22_9:
	movq	8(%rdi), %rcx
	movq	16(%rdi), %r8
	leaq	l_static.8(%rip), %rsi
	movl	$130, %edi
	xorl	%edx, %edx
	addq	$24, %rsp
	jmp	_dcsctp_tlv.list.put_listed.cada439fb2c2aae5
Ldcsctp_BB22_10:
	movl	$67108875, (%r9)
	addq	$24, %rsp
	retq
Ldcsctp_BB22_11:
	movq	8(%rdi), %rcx
	movq	16(%rdi), %r8
	leaq	l_static.8(%rip), %rsi
	movl	$4, %edi
	xorl	%edx, %edx
	addq	$24, %rsp
	jmp	_dcsctp_tlv.list.put_listed.cada439fb2c2aae5
Ldcsctp_BB22_12:
	movzbl	1(%rdi), %eax
	movb	$14, (%r9)
	movb	%al, 1(%r9)
	movw	$1024, 2(%r9)
	addq	$24, %rsp
	retq
Ldcsctp_BB22_13:
	movq	8(%rdi), %rdx
	movq	16(%rdi), %rcx
	movl	$9, %edi
	xorl	%esi, %esi
	movq	%r9, %r8
	addq	$24, %rsp
	jmp	_dcsctp_tlv.list.put_listed.f123a6a91b68d363
Ldcsctp_BB22_14:
	movl	20(%rdi), %eax
	bswapl	%eax
	movq	8(%rdi), %xmm0
	pshufb	Ldcsctp_CPI22_0(%rip), %xmm0
	movq	%xmm0, 8(%rsp)
	movd	16(%rdi), %xmm0
	pshufb	Ldcsctp_CPI22_1(%rip), %xmm0
	movd	%xmm0, 16(%rsp)
	movl	%eax, 20(%rsp)
	movq	24(%rdi), %rcx
	movq	32(%rdi), %r8
	leaq	8(%rsp), %rsi
	movl	$16, %edx
	movl	$2, %edi
	callq	_dcsctp_tlv.list.put_listed.cada439fb2c2aae5
	addq	$24, %rsp
	retq
Ldcsctp_BB22_15:
	movl	8(%rdi), %edx
	movq	16(%rdi), %rax
	movq	24(%rdi), %rcx
	movw	$192, (%r9)
	leal	8(,%rcx,4), %esi
	rolw	$8, %si
	movw	%si, 2(%r9)
	bswapl	%edx
	movl	%edx, 4(%r9)
	testq	%rcx, %rcx
	je	Ldcsctp_BB22_133
	addq	$4, %rax
	xorl	%edx, %edx
	jmp	Ldcsctp_BB22_18
	.p2align	4
Ldcsctp_BB22_17:
	incq	%rdx
	addq	$12, %rax
	cmpq	%rdx, %rcx
	je	Ldcsctp_BB22_133
Ldcsctp_BB22_18:
	cmpb	$0, -4(%rax)
	jne	Ldcsctp_BB22_17
	movzwl	-2(%rax), %esi
	rolw	$8, %si
	movw	%si, 8(%r9,%rdx,4)
	movzwl	(%rax), %esi
	rolw	$8, %si
	movw	%si, 10(%r9,%rdx,4)
	jmp	Ldcsctp_BB22_17
Ldcsctp_BB22_20:
	movq	48(%rdi), %rax
	addq	24(%rdi), %rax
	movq	$-1, %rcx
	cmovaeq	%rax, %rcx
	movq	%rcx, %rdx
	shrq	$62, %rdx
	shlq	$2, %rcx
	xorl	%eax, %eax
	negq	%rdx
	sbbq	%rax, %rax
	orq	%rcx, %rax
	cmpq	$65520, %rax
	jae	Ldcsctp_BB22_134
	addl	$16, %eax
	rolw	$8, %ax
	movw	$3, (%r9)
	movw	%ax, 2(%r9)
	movzwl	24(%rdi), %eax
	movzwl	48(%rdi), %ecx
	rolw	$8, %ax
	rolw	$8, %cx
	movq	8(%rdi), %xmm0
	pshufb	Ldcsctp_CPI22_0(%rip), %xmm0
	movq	%xmm0, 4(%r9)
	movw	%ax, 12(%r9)
	movw	%cx, 14(%r9)
	movq	24(%rdi), %rax
	testq	%rax, %rax
	je	Ldcsctp_BB22_40
	movq	16(%rdi), %rcx
	movl	$16, %edx
	cmpq	$52, %rax
	jb	Ldcsctp_BB22_23
	leaq	2(%rcx), %r8
	leaq	(%rcx,%rax,4), %r10
	addq	$-2, %r10
	xorl	%esi, %esi
	cmpq	%r8, %r10
	jb	Ldcsctp_BB22_67
	leaq	(%rcx,%rax,4), %r8
	addq	$-4, %r8
	cmpq	%rcx, %r8
	jb	Ldcsctp_BB22_67
	leaq	16(%r9), %r8
	leaq	(%r9,%rax,4), %r10
	addq	$12, %r10
	cmpq	%r8, %r10
	jb	Ldcsctp_BB22_67
	leaq	18(%r9), %r10
	leaq	(%r9,%rax,4), %r11
	addq	$14, %r11
	cmpq	%r10, %r11
	jb	Ldcsctp_BB22_67
	movabsq	$4611686018427387903, %r10
	leaq	-1(%rax), %r11
	cmpq	%r10, %r11
	ja	Ldcsctp_BB22_67
	leaq	(%r9,%rax,4), %rsi
	addq	$16, %rsi
	leaq	(%rcx,%rax,4), %r10
	cmpq	%r10, %r8
	setb	%r10b
	cmpq	%rsi, %rcx
	setb	%sil
	testb	%sil, %r10b
	je	Ldcsctp_BB22_64
Ldcsctp_BB22_23:
	xorl	%esi, %esi
Ldcsctp_BB22_67:
	movq	%rsi, %r8
	orq	$1, %r8
	testb	$1, %al
	je	Ldcsctp_BB22_69
	movzwl	(%rcx,%rsi,4), %r10d
	rolw	$8, %r10w
	movw	%r10w, (%r9,%rdx)
	movzwl	2(%rcx,%rsi,4), %esi
	rolw	$8, %si
	movw	%si, 2(%r9,%rdx)
	addq	$4, %rdx
	movq	%r8, %rsi
Ldcsctp_BB22_69:
	cmpq	%r8, %rax
	je	Ldcsctp_BB22_72
	addq	%r9, %rdx
	addq	$6, %rdx
	leaq	(%rcx,%rsi,4), %rcx
	addq	$6, %rcx
	subq	%rsi, %rax
	xorl	%esi, %esi
	.p2align	4
Ldcsctp_BB22_71:
	movzwl	-6(%rcx,%rsi,4), %r8d
	rolw	$8, %r8w
	movw	%r8w, -6(%rdx,%rsi,4)
	movzwl	-4(%rcx,%rsi,4), %r8d
	rolw	$8, %r8w
	movw	%r8w, -4(%rdx,%rsi,4)
	movzwl	-2(%rcx,%rsi,4), %r8d
	rolw	$8, %r8w
	movw	%r8w, -2(%rdx,%rsi,4)
	movzwl	(%rcx,%rsi,4), %r8d
	rolw	$8, %r8w
	movw	%r8w, (%rdx,%rsi,4)
	addq	$2, %rsi
	cmpq	%rsi, %rax
	jne	Ldcsctp_BB22_71
Ldcsctp_BB22_72:
	movq	24(%rdi), %rax
	leaq	16(,%rax,4), %r8
	movq	48(%rdi), %rax
	testq	%rax, %rax
	jne	Ldcsctp_BB22_74
	jmp	Ldcsctp_BB22_133
Ldcsctp_BB22_24:
	movl	4(%rdi), %eax
	bswapl	%eax
	movl	$134217735, (%r9)
	movl	%eax, 4(%r9)
	addq	$24, %rsp
	retq
Ldcsctp_BB22_25:
	movl	20(%rdi), %eax
	bswapl	%eax
	movq	8(%rdi), %xmm0
	pshufb	Ldcsctp_CPI22_0(%rip), %xmm0
	movq	%xmm0, 8(%rsp)
	movd	16(%rdi), %xmm0
	pshufb	Ldcsctp_CPI22_1(%rip), %xmm0
	movd	%xmm0, 16(%rsp)
	movl	%eax, 20(%rsp)
	movq	24(%rdi), %rcx
	movq	32(%rdi), %r8
	leaq	8(%rsp), %rsi
	movl	$16, %edx
	movl	$1, %edi
	callq	_dcsctp_tlv.list.put_listed.cada439fb2c2aae5
	addq	$24, %rsp
	retq
Ldcsctp_BB22_26:
	movzwl	8(%rdi), %eax
	movq	16(%rdi), %rsi
	movq	24(%rdi), %rdx
	movw	%ax, (%r9)
	leal	4(%rdx), %eax
	rolw	$8, %ax
	movw	%ax, 2(%r9)
	leaq	4(%r9), %rdi
	movq	%rdi, %rax
	subq	%rsi, %rax
	cmpq	%rdx, %rax
	jae	Ldcsctp_BB22_39
	cmpq	$4, %rdx
	jb	Ldcsctp_BB22_28
	movq	%r9, %rax
	subq	%rsi, %rax
	addq	$4, %rax
	cmpq	$32, %rax
	jae	Ldcsctp_BB22_58
Ldcsctp_BB22_28:
	xorl	%eax, %eax
Ldcsctp_BB22_104:
	movq	%rdx, %r8
	movq	%rax, %rcx
	andq	$3, %r8
	je	Ldcsctp_BB22_107
	movq	%rax, %rcx
	.p2align	4
Ldcsctp_BB22_106:
	movzbl	(%rsi,%rcx), %r10d
	movb	%r10b, (%rdi,%rcx)
	incq	%rcx
	decq	%r8
	jne	Ldcsctp_BB22_106
Ldcsctp_BB22_107:
	subq	%rdx, %rax
	cmpq	$-4, %rax
	ja	Ldcsctp_BB22_133
	.p2align	4
Ldcsctp_BB22_108:
	movzbl	(%rsi,%rcx), %eax
	movb	%al, 4(%r9,%rcx)
	movzbl	1(%rsi,%rcx), %eax
	movb	%al, 5(%r9,%rcx)
	movzbl	2(%rsi,%rcx), %eax
	movb	%al, 6(%r9,%rcx)
	movzbl	3(%rsi,%rcx), %eax
	movb	%al, 7(%r9,%rcx)
	addq	$4, %rcx
	cmpq	%rcx, %rdx
	jne	Ldcsctp_BB22_108
	jmp	Ldcsctp_BB22_133
Ldcsctp_BB22_29:
	movq	8(%rdi), %rcx
	movq	16(%rdi), %r8
	leaq	l_static.8(%rip), %rsi
	movl	$5, %edi
	xorl	%edx, %edx
	addq	$24, %rsp
	jmp	_dcsctp_tlv.list.put_listed.cada439fb2c2aae5
Ldcsctp_BB22_30:
	movzbl	60(%rdi), %eax
	movzbl	50(%rdi), %ecx
	movzbl	44(%rdi), %edx
	leal	(%rcx,%rcx), %esi
	shlb	$2, %dl
	shlb	$3, %al
	orb	51(%rdi), %al
	orb	%sil, %al
	addb	%dl, %al
	movl	56(%rdi), %r8d
	movzwl	46(%rdi), %r10d
	movl	32(%rdi), %r11d
	movl	36(%rdi,%rcx,4), %ecx
	rolw	$8, %r10w
	bswapl	%r8d
	bswapl	%r11d
	bswapl	%ecx
	movq	8(%rdi), %rsi
	movq	16(%rdi), %rdx
	movb	$64, (%r9)
	movb	%al, 1(%r9)
	leal	20(%rdx), %eax
	rolw	$8, %ax
	movw	%ax, 2(%r9)
	movl	%r8d, 4(%r9)
	movw	%r10w, 8(%r9)
	movw	$0, 10(%r9)
	movl	%r11d, 12(%r9)
	movl	%ecx, 16(%r9)
	leaq	20(%r9), %rdi
	movq	%rdi, %rax
	subq	%rsi, %rax
	cmpq	%rdx, %rax
	jae	Ldcsctp_BB22_39
	cmpq	$4, %rdx
	jb	Ldcsctp_BB22_32
	movq	%r9, %rax
	subq	%rsi, %rax
	addq	$20, %rax
	cmpq	$32, %rax
	jae	Ldcsctp_BB22_60
Ldcsctp_BB22_32:
	xorl	%eax, %eax
Ldcsctp_BB22_116:
	movq	%rdx, %r8
	movq	%rax, %rcx
	andq	$3, %r8
	je	Ldcsctp_BB22_119
	movq	%rax, %rcx
	.p2align	4
Ldcsctp_BB22_118:
	movzbl	(%rsi,%rcx), %r10d
	movb	%r10b, (%rdi,%rcx)
	incq	%rcx
	decq	%r8
	jne	Ldcsctp_BB22_118
Ldcsctp_BB22_119:
	subq	%rdx, %rax
	cmpq	$-4, %rax
	ja	Ldcsctp_BB22_133
	.p2align	4
Ldcsctp_BB22_120:
	movzbl	(%rsi,%rcx), %eax
	movb	%al, 20(%r9,%rcx)
	movzbl	1(%rsi,%rcx), %eax
	movb	%al, 21(%r9,%rcx)
	movzbl	2(%rsi,%rcx), %eax
	movb	%al, 22(%r9,%rcx)
	movzbl	3(%rsi,%rcx), %eax
	movb	%al, 23(%r9,%rcx)
	addq	$4, %rcx
	cmpq	%rcx, %rdx
	jne	Ldcsctp_BB22_120
	jmp	Ldcsctp_BB22_133
Ldcsctp_BB22_33:
	movq	16(%rdi), %rdx
	movq	24(%rdi), %rcx
	movzbl	8(%rdi), %esi
	movl	$6, %edi
	movq	%r9, %r8
	addq	$24, %rsp
	jmp	_dcsctp_tlv.list.put_listed.f123a6a91b68d363
Ldcsctp_BB22_34:
	movq	8(%rdi), %rsi
	movq	16(%rdi), %rdx
	movw	$10, (%r9)
	leal	4(%rdx), %eax
	rolw	$8, %ax
	movw	%ax, 2(%r9)
	leaq	4(%r9), %rdi
	movq	%rdi, %rax
	subq	%rsi, %rax
	cmpq	%rdx, %rax
	jae	Ldcsctp_BB22_39
	cmpq	$4, %rdx
	jb	Ldcsctp_BB22_36
	movq	%r9, %rax
	subq	%rsi, %rax
	addq	$4, %rax
	cmpq	$32, %rax
	jae	Ldcsctp_BB22_62
Ldcsctp_BB22_36:
	xorl	%eax, %eax
Ldcsctp_BB22_128:
	movq	%rdx, %r8
	movq	%rax, %rcx
	andq	$3, %r8
	je	Ldcsctp_BB22_131
	movq	%rax, %rcx
	.p2align	4
Ldcsctp_BB22_130:
	movzbl	(%rsi,%rcx), %r10d
	movb	%r10b, (%rdi,%rcx)
	incq	%rcx
	decq	%r8
	jne	Ldcsctp_BB22_130
Ldcsctp_BB22_131:
	subq	%rdx, %rax
	cmpq	$-4, %rax
	ja	Ldcsctp_BB22_133
	.p2align	4
Ldcsctp_BB22_132:
	movzbl	(%rsi,%rcx), %eax
	movb	%al, 4(%r9,%rcx)
	movzbl	1(%rsi,%rcx), %eax
	movb	%al, 5(%r9,%rcx)
	movzbl	2(%rsi,%rcx), %eax
	movb	%al, 6(%r9,%rcx)
	movzbl	3(%rsi,%rcx), %eax
	movb	%al, 7(%r9,%rcx)
	addq	$4, %rcx
	cmpq	%rcx, %rdx
	jne	Ldcsctp_BB22_132
	jmp	Ldcsctp_BB22_133
Ldcsctp_BB22_39:
	addq	$24, %rsp
	jmp	_memmove
Ldcsctp_BB22_38:
	movl	$67108872, (%r9)
	addq	$24, %rsp
	retq
Ldcsctp_BB22_40:
	movl	$16, %r8d
	movq	48(%rdi), %rax
	testq	%rax, %rax
	je	Ldcsctp_BB22_133
Ldcsctp_BB22_74:
	movq	40(%rdi), %rcx
	cmpq	$8, %rax
	jb	Ldcsctp_BB22_76
	leaq	(%r8,%r9), %rdx
	subq	%rcx, %rdx
	cmpq	$32, %rdx
	jae	Ldcsctp_BB22_82
Ldcsctp_BB22_76:
	xorl	%edx, %edx
	movq	%r8, %rsi
Ldcsctp_BB22_77:
	movq	%rdx, %rdi
	orq	$1, %rdi
	testb	$1, %al
	je	Ldcsctp_BB22_79
	movl	(%rcx,%rdx,4), %edx
	bswapl	%edx
	movl	%edx, (%r9,%rsi)
	addq	$4, %rsi
	movq	%rdi, %rdx
Ldcsctp_BB22_79:
	cmpq	%rdi, %rax
	je	Ldcsctp_BB22_133
	addq	%r9, %rsi
	addq	$4, %rsi
	leaq	(%rcx,%rdx,4), %rcx
	addq	$4, %rcx
	subq	%rdx, %rax
	xorl	%edx, %edx
	.p2align	4
Ldcsctp_BB22_81:
	movl	-4(%rcx,%rdx,4), %edi
	bswapl	%edi
	movl	%edi, -4(%rsi,%rdx,4)
	movl	(%rcx,%rdx,4), %edi
	bswapl	%edi
	movl	%edi, (%rsi,%rdx,4)
	addq	$2, %rdx
	cmpq	%rdx, %rax
	jne	Ldcsctp_BB22_81
	jmp	Ldcsctp_BB22_133
Ldcsctp_BB22_82:
	movq	%rax, %rdx
	andq	$-8, %rdx
	leaq	(%r8,%rdx,4), %rsi
	leaq	(%r8,%r9), %rdi
	addq	$16, %rdi
	xorl	%r8d, %r8d
	.p2align	4
Ldcsctp_BB22_83:
	movdqu	(%rcx,%r8,4), %xmm0
	movdqu	16(%rcx,%r8,4), %xmm1
	movdqa	Ldcsctp_CPI22_3(%rip), %xmm2
	pshufb	%xmm2, %xmm0
	pshufb	%xmm2, %xmm1
	movdqu	%xmm0, -16(%rdi,%r8,4)
	movdqu	%xmm1, (%rdi,%r8,4)
	addq	$8, %r8
	cmpq	%r8, %rdx
	jne	Ldcsctp_BB22_83
	cmpq	%rdx, %rax
	jne	Ldcsctp_BB22_77
	jmp	Ldcsctp_BB22_133
Ldcsctp_BB22_56:
	cmpq	$32, %rdx
	jae	Ldcsctp_BB22_85
	xorl	%eax, %eax
	jmp	Ldcsctp_BB22_89
Ldcsctp_BB22_58:
	cmpq	$32, %rdx
	jae	Ldcsctp_BB22_97
	xorl	%eax, %eax
	jmp	Ldcsctp_BB22_101
Ldcsctp_BB22_60:
	cmpq	$32, %rdx
	jae	Ldcsctp_BB22_109
	xorl	%eax, %eax
	jmp	Ldcsctp_BB22_113
Ldcsctp_BB22_62:
	cmpq	$32, %rdx
	jae	Ldcsctp_BB22_121
	xorl	%eax, %eax
	jmp	Ldcsctp_BB22_125
Ldcsctp_BB22_64:
	movabsq	$9223372036854775804, %rsi
	andq	%rax, %rsi
	leaq	16(,%rsi,4), %rdx
	xorl	%r10d, %r10d
Ldcsctp_BB22_65:
	movdqu	(%rcx,%r10,4), %xmm0
	pshufb	Ldcsctp_CPI22_2(%rip), %xmm0
	movdqu	%xmm0, (%r8,%r10,4)
	addq	$4, %r10
	cmpq	%r10, %rsi
	jne	Ldcsctp_BB22_65
	cmpq	%rsi, %rax
	je	Ldcsctp_BB22_72
	jmp	Ldcsctp_BB22_67
Ldcsctp_BB22_85:
	movq	%rdx, %rax
	andq	$-32, %rax
	xorl	%ecx, %ecx
Ldcsctp_BB22_86:
	movdqu	(%rsi,%rcx), %xmm0
	movdqu	16(%rsi,%rcx), %xmm1
	movdqu	%xmm0, 16(%r9,%rcx)
	movdqu	%xmm1, 32(%r9,%rcx)
	addq	$32, %rcx
	cmpq	%rcx, %rax
	jne	Ldcsctp_BB22_86
	cmpq	%rax, %rdx
	je	Ldcsctp_BB22_133
	testb	$28, %dl
	je	Ldcsctp_BB22_92
Ldcsctp_BB22_89:
	movq	%rax, %rcx
	movq	%rdx, %rax
	andq	$-4, %rax
Ldcsctp_BB22_90:
	movl	(%rsi,%rcx), %r8d
	movl	%r8d, (%rdi,%rcx)
	addq	$4, %rcx
	cmpq	%rcx, %rax
	jne	Ldcsctp_BB22_90
	cmpq	%rax, %rdx
	je	Ldcsctp_BB22_133
	jmp	Ldcsctp_BB22_92
Ldcsctp_BB22_97:
	movq	%rdx, %rax
	andq	$-32, %rax
	xorl	%ecx, %ecx
Ldcsctp_BB22_98:
	movdqu	(%rsi,%rcx), %xmm0
	movdqu	16(%rsi,%rcx), %xmm1
	movdqu	%xmm0, 4(%r9,%rcx)
	movdqu	%xmm1, 20(%r9,%rcx)
	addq	$32, %rcx
	cmpq	%rcx, %rax
	jne	Ldcsctp_BB22_98
	cmpq	%rax, %rdx
	je	Ldcsctp_BB22_133
	testb	$28, %dl
	je	Ldcsctp_BB22_104
Ldcsctp_BB22_101:
	movq	%rax, %rcx
	movq	%rdx, %rax
	andq	$-4, %rax
Ldcsctp_BB22_102:
	movl	(%rsi,%rcx), %r8d
	movl	%r8d, (%rdi,%rcx)
	addq	$4, %rcx
	cmpq	%rcx, %rax
	jne	Ldcsctp_BB22_102
	cmpq	%rax, %rdx
	je	Ldcsctp_BB22_133
	jmp	Ldcsctp_BB22_104
Ldcsctp_BB22_109:
	movq	%rdx, %rax
	andq	$-32, %rax
	xorl	%ecx, %ecx
Ldcsctp_BB22_110:
	movdqu	(%rsi,%rcx), %xmm0
	movdqu	16(%rsi,%rcx), %xmm1
	movdqu	%xmm0, 20(%r9,%rcx)
	movdqu	%xmm1, 36(%r9,%rcx)
	addq	$32, %rcx
	cmpq	%rcx, %rax
	jne	Ldcsctp_BB22_110
	cmpq	%rax, %rdx
	je	Ldcsctp_BB22_133
	testb	$28, %dl
	je	Ldcsctp_BB22_116
Ldcsctp_BB22_113:
	movq	%rax, %rcx
	movq	%rdx, %rax
	andq	$-4, %rax
Ldcsctp_BB22_114:
	movl	(%rsi,%rcx), %r8d
	movl	%r8d, (%rdi,%rcx)
	addq	$4, %rcx
	cmpq	%rcx, %rax
	jne	Ldcsctp_BB22_114
	cmpq	%rax, %rdx
	je	Ldcsctp_BB22_133
	jmp	Ldcsctp_BB22_116
Ldcsctp_BB22_121:
	movq	%rdx, %rax
	andq	$-32, %rax
	xorl	%ecx, %ecx
Ldcsctp_BB22_122:
	movdqu	(%rsi,%rcx), %xmm0
	movdqu	16(%rsi,%rcx), %xmm1
	movdqu	%xmm0, 4(%r9,%rcx)
	movdqu	%xmm1, 20(%r9,%rcx)
	addq	$32, %rcx
	cmpq	%rcx, %rax
	jne	Ldcsctp_BB22_122
	cmpq	%rax, %rdx
	je	Ldcsctp_BB22_133
	testb	$28, %dl
	je	Ldcsctp_BB22_128
Ldcsctp_BB22_125:
	movq	%rax, %rcx
	movq	%rdx, %rax
	andq	$-4, %rax
Ldcsctp_BB22_126:
	movl	(%rsi,%rcx), %r8d
	movl	%r8d, (%rdi,%rcx)
	addq	$4, %rcx
	cmpq	%rcx, %rax
	jne	Ldcsctp_BB22_126
	cmpq	%rax, %rdx
	jne	Ldcsctp_BB22_128
Ldcsctp_BB22_133:
	addq	$24, %rsp
	retq
Ldcsctp_BB22_134:
	ud2
	.cfi_endproc
	.p2align	2
	.data_region jt32
L22_0_set_1 = Ldcsctp_BB22_1-Ldcsctp_JTI22_0
L22_0_set_25 = Ldcsctp_BB22_25-Ldcsctp_JTI22_0
L22_0_set_14 = Ldcsctp_BB22_14-Ldcsctp_JTI22_0
L22_0_set_20 = Ldcsctp_BB22_20-Ldcsctp_JTI22_0
L22_0_set_11 = Ldcsctp_BB22_11-Ldcsctp_JTI22_0
L22_0_set_29 = Ldcsctp_BB22_29-Ldcsctp_JTI22_0
L22_0_set_33 = Ldcsctp_BB22_33-Ldcsctp_JTI22_0
L22_0_set_24 = Ldcsctp_BB22_24-Ldcsctp_JTI22_0
L22_0_set_38 = Ldcsctp_BB22_38-Ldcsctp_JTI22_0
L22_0_set_13 = Ldcsctp_BB22_13-Ldcsctp_JTI22_0
L22_0_set_34 = Ldcsctp_BB22_34-Ldcsctp_JTI22_0
L22_0_set_10 = Ldcsctp_BB22_10-Ldcsctp_JTI22_0
L22_0_set_12 = Ldcsctp_BB22_12-Ldcsctp_JTI22_0
L22_0_set_30 = Ldcsctp_BB22_30-Ldcsctp_JTI22_0
L22_0_set_9 = Ldcsctp_BB22_9-Ldcsctp_JTI22_0
L22_0_set_15 = Ldcsctp_BB22_15-Ldcsctp_JTI22_0
L22_0_set_4 = Ldcsctp_BB22_4-Ldcsctp_JTI22_0
L22_0_set_26 = Ldcsctp_BB22_26-Ldcsctp_JTI22_0
Ldcsctp_JTI22_0:
	.long	L22_0_set_1
	.long	L22_0_set_25
	.long	L22_0_set_14
	.long	L22_0_set_20
	.long	L22_0_set_11
	.long	L22_0_set_29
	.long	L22_0_set_33
	.long	L22_0_set_24
	.long	L22_0_set_38
	.long	L22_0_set_13
	.long	L22_0_set_34
	.long	L22_0_set_10
	.long	L22_0_set_12
	.long	L22_0_set_30
	.long	L22_0_set_9
	.long	L22_0_set_15
	.long	L22_0_set_4
	.long	L22_0_set_26
	.end_data_region
	.section	__TEXT,__literal16,16byte_literals
	.p2align	4, 0x0
Ldcsctp_CPI23_0:
	.byte	1
	.byte	0
	.byte	3
	.byte	2
	.byte	5
	.byte	4
	.byte	7
	.byte	6
	.byte	9
	.byte	8
	.byte	11
	.byte	10
	.byte	13
	.byte	12
	.byte	15
	.byte	14
Ldcsctp_CPI23_1:
	.byte	1
	.byte	0
	.byte	3
	.byte	2
	.byte	5
	.byte	4
	.byte	7
	.byte	6
	.space	1
	.space	1
	.space	1
	.space	1
	.space	1
	.space	1
	.space	1
	.space	1
Ldcsctp_CPI23_2:
	.byte	3
	.byte	2
	.byte	1
	.byte	0
	.byte	7
	.byte	6
	.byte	5
	.byte	4
	.space	1
	.space	1
	.space	1
	.space	1
	.space	1
	.space	1
	.space	1
	.space	1
	.section	__TEXT,__text,regular,pure_instructions
	.p2align	4
_dcsctp_tlv.list.put_listed.cada439fb2c2aae5:
	.cfi_startproc
	pushq	%rbp
	.cfi_def_cfa_offset 16
	pushq	%r15
	.cfi_def_cfa_offset 24
	pushq	%r14
	.cfi_def_cfa_offset 32
	pushq	%r13
	.cfi_def_cfa_offset 40
	pushq	%r12
	.cfi_def_cfa_offset 48
	pushq	%rbx
	.cfi_def_cfa_offset 56
	subq	$88, %rsp
	.cfi_def_cfa_offset 144
	.cfi_offset %rbx, -56
	.cfi_offset %r12, -48
	.cfi_offset %r13, -40
	.cfi_offset %r14, -32
	.cfi_offset %r15, -24
	.cfi_offset %rbp, -16
	movq	%r9, %r14
	movq	%r8, %r15
	movq	%rcx, %r12
	movq	%rdx, %rbx
	movl	%edi, %ecx
	leaq	4(%r9), %rdi
	movq	%rdi, %rax
	subq	%rsi, %rax
	cmpq	%rdx, %rax
	movl	%ecx, 36(%rsp)
	jae	Ldcsctp_BB23_3
	cmpq	$4, %rbx
	jb	Ldcsctp_BB23_2
	movq	%r14, %rax
	subq	%rsi, %rax
	addq	$4, %rax
	cmpq	$16, %rax
	jae	Ldcsctp_BB23_6
Ldcsctp_BB23_2:
	xorl	%eax, %eax
Ldcsctp_BB23_13:
	movq	%rbx, %rdx
	movq	%rax, %rcx
	andq	$3, %rdx
	je	Ldcsctp_BB23_16
	movq	%rax, %rcx
	.p2align	4
Ldcsctp_BB23_15:
	movzbl	(%rsi,%rcx), %r8d
	movb	%r8b, (%rdi,%rcx)
	incq	%rcx
	decq	%rdx
	jne	Ldcsctp_BB23_15
Ldcsctp_BB23_16:
	subq	%rbx, %rax
	cmpq	$-4, %rax
	ja	Ldcsctp_BB23_18
	.p2align	4
Ldcsctp_BB23_17:
	movzbl	(%rsi,%rcx), %eax
	movb	%al, 4(%r14,%rcx)
	movzbl	1(%rsi,%rcx), %eax
	movb	%al, 5(%r14,%rcx)
	movzbl	2(%rsi,%rcx), %eax
	movb	%al, 6(%r14,%rcx)
	movzbl	3(%rsi,%rcx), %eax
	movb	%al, 7(%r14,%rcx)
	addq	$4, %rcx
	cmpq	%rcx, %rbx
	jne	Ldcsctp_BB23_17
	jmp	Ldcsctp_BB23_18
Ldcsctp_BB23_3:
	movq	%rbx, %rdx
	callq	_memmove
Ldcsctp_BB23_18:
	testq	%r15, %r15
	movq	%rbx, 80(%rsp)
	je	Ldcsctp_BB23_152
	leaq	(%r14,%rbx), %r10
	addq	$4, %r10
	leaq	20(%rbx,%r14), %rax
	movq	%rax, 72(%rsp)
	leaq	12(%rbx,%r14), %rax
	movq	%rax, 64(%rsp)
	leaq	8(%rbx,%r14), %rax
	movq	%rax, 16(%rsp)
	leaq	24(%rbx,%r14), %rax
	movq	%rax, (%rsp)
	leaq	11(%rbx,%r14), %rax
	movq	%rax, 8(%rsp)
	leaq	28(%rbx,%r14), %rax
	movq	%rax, 56(%rsp)
	leaq	6(%rbx,%r14), %rax
	movq	%rax, 40(%rsp)
	leaq	(%rbx,%r14), %rax
	addq	$36, %rax
	movq	%rax, 48(%rsp)
	xorl	%r13d, %r13d
	xorl	%ebp, %ebp
	movq	%r10, 24(%rsp)
	jmp	Ldcsctp_BB23_22
Ldcsctp_BB23_20:
	callq	_memmove
	movq	24(%rsp), %r10
	.p2align	4
Ldcsctp_BB23_21:
	movzwl	2(%rbx), %eax
	rolw	$8, %ax
	movzwl	%ax, %eax
	addq	%rax, %r13
	incq	%rbp
	cmpq	%r15, %rbp
	je	Ldcsctp_BB23_153
Ldcsctp_BB23_22:
	movq	%rbp, %rax
	shlq	$4, %rax
	leaq	(%rax,%rax,2), %rdx
	addq	$3, %r13
	andq	$-4, %r13
	leaq	(%r10,%r13), %rbx
	movzbl	(%r12,%rdx), %eax
	leaq	Ldcsctp_JTI23_0(%rip), %rcx
	movslq	(%rcx,%rax,4), %rax
	addq	%rcx, %rax
	jmpq	*%rax
Ldcsctp_BB23_23:
	movq	8(%r12,%rdx), %rsi
	movq	16(%r12,%rdx), %rdx
	movw	$256, (%rbx)
	leal	4(%rdx), %eax
	rolw	$8, %ax
	movw	%ax, 2(%rbx)
	leaq	4(%rbx), %rdi
	movq	%rdi, %rax
	subq	%rsi, %rax
	cmpq	%rdx, %rax
	jae	Ldcsctp_BB23_20
	cmpq	$4, %rdx
	jb	Ldcsctp_BB23_25
	movq	16(%rsp), %rax
	addq	%r13, %rax
	subq	%rsi, %rax
	cmpq	$32, %rax
	jae	Ldcsctp_BB23_70
Ldcsctp_BB23_25:
	xorl	%eax, %eax
Ldcsctp_BB23_131:
	movq	%rdx, %r8
	movq	%rax, %rcx
	andq	$3, %r8
	je	Ldcsctp_BB23_134
	movq	%rax, %rcx
	.p2align	4
Ldcsctp_BB23_133:
	movzbl	(%rsi,%rcx), %r9d
	movb	%r9b, (%rdi,%rcx)
	incq	%rcx
	decq	%r8
	jne	Ldcsctp_BB23_133
Ldcsctp_BB23_134:
	subq	%rdx, %rax
	cmpq	$-4, %rax
	ja	Ldcsctp_BB23_21
	movq	8(%rsp), %rax
	addq	%r13, %rax
	.p2align	4
Ldcsctp_BB23_136:
	movzbl	(%rsi,%rcx), %edi
	movb	%dil, -3(%rax,%rcx)
	movzbl	1(%rsi,%rcx), %edi
	movb	%dil, -2(%rax,%rcx)
	movzbl	2(%rsi,%rcx), %edi
	movb	%dil, -1(%rax,%rcx)
	movzbl	3(%rsi,%rcx), %edi
	movb	%dil, (%rax,%rcx)
	addq	$4, %rcx
	cmpq	%rcx, %rdx
	jne	Ldcsctp_BB23_136
	jmp	Ldcsctp_BB23_21
Ldcsctp_BB23_26:
	movzwl	8(%r12,%rdx), %eax
	movq	16(%r12,%rdx), %rsi
	movq	24(%r12,%rdx), %rdx
	movb	%ah, (%rbx)
	movb	%al, 1(%rbx)
	leal	4(%rdx), %eax
	rolw	$8, %ax
	movw	%ax, 2(%rbx)
	leaq	4(%rbx), %rdi
	movq	%rdi, %rax
	subq	%rsi, %rax
	cmpq	%rdx, %rax
	jae	Ldcsctp_BB23_20
	cmpq	$4, %rdx
	jb	Ldcsctp_BB23_28
	movq	16(%rsp), %rax
	addq	%r13, %rax
	subq	%rsi, %rax
	cmpq	$32, %rax
	jae	Ldcsctp_BB23_66
Ldcsctp_BB23_28:
	xorl	%eax, %eax
Ldcsctp_BB23_105:
	movq	%rdx, %r8
	movq	%rax, %rcx
	andq	$3, %r8
	je	Ldcsctp_BB23_108
	movq	%rax, %rcx
	.p2align	4
Ldcsctp_BB23_107:
	movzbl	(%rsi,%rcx), %r9d
	movb	%r9b, (%rdi,%rcx)
	incq	%rcx
	decq	%r8
	jne	Ldcsctp_BB23_107
Ldcsctp_BB23_108:
	subq	%rdx, %rax
	cmpq	$-4, %rax
	ja	Ldcsctp_BB23_21
	movq	8(%rsp), %rax
	addq	%r13, %rax
	.p2align	4
Ldcsctp_BB23_110:
	movzbl	(%rsi,%rcx), %edi
	movb	%dil, -3(%rax,%rcx)
	movzbl	1(%rsi,%rcx), %edi
	movb	%dil, -2(%rax,%rcx)
	movzbl	2(%rsi,%rcx), %edi
	movb	%dil, -1(%rax,%rcx)
	movzbl	3(%rsi,%rcx), %edi
	movb	%dil, (%rax,%rcx)
	addq	$4, %rcx
	cmpq	%rcx, %rdx
	jne	Ldcsctp_BB23_110
	jmp	Ldcsctp_BB23_21
Ldcsctp_BB23_29:
	movl	4(%r12,%rdx), %eax
	bswapl	%eax
	movl	$134221568, (%rbx)
	movl	%eax, 4(%rbx)
	jmp	Ldcsctp_BB23_21
Ldcsctp_BB23_30:
	movq	8(%r12,%rdx), %rsi
	movq	16(%r12,%rdx), %rdx
	movw	$2176, (%rbx)
	leal	4(%rdx), %eax
	rolw	$8, %ax
	movw	%ax, 2(%rbx)
	leaq	4(%rbx), %rdi
	movq	%rdi, %rax
	subq	%rsi, %rax
	cmpq	%rdx, %rax
	jae	Ldcsctp_BB23_20
	cmpq	$4, %rdx
	jb	Ldcsctp_BB23_32
	movq	16(%rsp), %rax
	addq	%r13, %rax
	subq	%rsi, %rax
	cmpq	$32, %rax
	jae	Ldcsctp_BB23_68
Ldcsctp_BB23_32:
	xorl	%eax, %eax
Ldcsctp_BB23_118:
	movq	%rdx, %r8
	movq	%rax, %rcx
	andq	$3, %r8
	je	Ldcsctp_BB23_121
	movq	%rax, %rcx
	.p2align	4
Ldcsctp_BB23_120:
	movzbl	(%rsi,%rcx), %r9d
	movb	%r9b, (%rdi,%rcx)
	incq	%rcx
	decq	%r8
	jne	Ldcsctp_BB23_120
Ldcsctp_BB23_121:
	subq	%rdx, %rax
	cmpq	$-4, %rax
	ja	Ldcsctp_BB23_21
	movq	8(%rsp), %rax
	addq	%r13, %rax
	.p2align	4
Ldcsctp_BB23_123:
	movzbl	(%rsi,%rcx), %edi
	movb	%dil, -3(%rax,%rcx)
	movzbl	1(%rsi,%rcx), %edi
	movb	%dil, -2(%rax,%rcx)
	movzbl	2(%rsi,%rcx), %edi
	movb	%dil, -1(%rax,%rcx)
	movzbl	3(%rsi,%rcx), %edi
	movb	%dil, (%rax,%rcx)
	addq	$4, %rcx
	cmpq	%rcx, %rdx
	jne	Ldcsctp_BB23_123
	jmp	Ldcsctp_BB23_21
Ldcsctp_BB23_33:
	movl	16(%r12,%rdx), %esi
	movq	24(%r12,%rdx), %rcx
	movq	32(%r12,%rdx), %rax
	leal	16(,%rax,2), %edi
	rolw	$8, %di
	movq	8(%r12,%rdx), %xmm0
	movw	$3328, (%rbx)
	movw	%di, 2(%rbx)
	pshufb	Ldcsctp_CPI23_2(%rip), %xmm0
	movq	%xmm0, 4(%rbx)
	bswapl	%esi
	movl	%esi, 12(%rbx)
	testq	%rax, %rax
	je	Ldcsctp_BB23_21
	movl	$16, %esi
	cmpq	$4, %rax
	jb	Ldcsctp_BB23_35
	movq	72(%rsp), %rdx
	leaq	(%rdx,%r13), %rdi
	movq	%rdi, %rdx
	subq	%rcx, %rdx
	cmpq	$32, %rdx
	jae	Ldcsctp_BB23_62
Ldcsctp_BB23_35:
	xorl	%edx, %edx
	movq	%rdx, %rdi
	orq	$1, %rdi
	testb	$1, %al
	jne	Ldcsctp_BB23_82
	jmp	Ldcsctp_BB23_83
Ldcsctp_BB23_36:
	movl	8(%r12,%rdx), %esi
	movq	16(%r12,%rdx), %rcx
	movq	24(%r12,%rdx), %rax
	movw	$3584, (%rbx)
	leal	8(,%rax,2), %edx
	rolw	$8, %dx
	movw	%dx, 2(%rbx)
	bswapl	%esi
	movl	%esi, 4(%rbx)
	testq	%rax, %rax
	je	Ldcsctp_BB23_21
	movl	$8, %esi
	cmpq	$4, %rax
	jb	Ldcsctp_BB23_38
	movq	64(%rsp), %rdx
	leaq	(%rdx,%r13), %rdi
	movq	%rdi, %rdx
	subq	%rcx, %rdx
	cmpq	$32, %rdx
	jae	Ldcsctp_BB23_64
Ldcsctp_BB23_38:
	xorl	%edx, %edx
	movq	%rdx, %rdi
	orq	$1, %rdi
	testb	$1, %al
	jne	Ldcsctp_BB23_94
	jmp	Ldcsctp_BB23_95
Ldcsctp_BB23_39:
	movl	4(%r12,%rdx), %eax
	movzwl	8(%r12,%rdx), %ecx
	bswapl	%eax
	rolw	$8, %cx
	movzwl	%cx, %ecx
	shlq	$32, %rcx
	orq	%rcx, %rax
	movl	$201331200, (%rbx)
	movq	%rax, 4(%rbx)
	jmp	Ldcsctp_BB23_21
Ldcsctp_BB23_40:
	movq	8(%r12,%rdx), %rsi
	movq	16(%r12,%rdx), %rdx
	movw	$1792, (%rbx)
	leal	4(%rdx), %eax
	rolw	$8, %ax
	movw	%ax, 2(%rbx)
	leaq	4(%rbx), %rdi
	movq	%rdi, %rax
	subq	%rsi, %rax
	cmpq	%rdx, %rax
	jae	Ldcsctp_BB23_20
	cmpq	$4, %rdx
	jb	Ldcsctp_BB23_42
	movq	16(%rsp), %rax
	addq	%r13, %rax
	subq	%rsi, %rax
	cmpq	$32, %rax
	jae	Ldcsctp_BB23_72
Ldcsctp_BB23_42:
	xorl	%eax, %eax
Ldcsctp_BB23_144:
	movq	%rdx, %r8
	movq	%rax, %rcx
	andq	$3, %r8
	je	Ldcsctp_BB23_147
	movq	%rax, %rcx
	.p2align	4
Ldcsctp_BB23_146:
	movzbl	(%rsi,%rcx), %r9d
	movb	%r9b, (%rdi,%rcx)
	incq	%rcx
	decq	%r8
	jne	Ldcsctp_BB23_146
Ldcsctp_BB23_147:
	subq	%rdx, %rax
	cmpq	$-4, %rax
	ja	Ldcsctp_BB23_21
	movq	8(%rsp), %rax
	addq	%r13, %rax
	.p2align	4
Ldcsctp_BB23_149:
	movzbl	(%rsi,%rcx), %edi
	movb	%dil, -3(%rax,%rcx)
	movzbl	1(%rsi,%rcx), %edi
	movb	%dil, -2(%rax,%rcx)
	movzbl	2(%rsi,%rcx), %edi
	movb	%dil, -1(%rax,%rcx)
	movzbl	3(%rsi,%rcx), %edi
	movb	%dil, (%rax,%rcx)
	addq	$4, %rcx
	cmpq	%rcx, %rdx
	jne	Ldcsctp_BB23_149
	jmp	Ldcsctp_BB23_21
Ldcsctp_BB23_43:
	movl	4(%r12,%rdx), %ecx
	movzbl	8(%r12,%rdx), %eax
	cmpb	$1, 12(%r12,%rdx)
	bswapl	%ecx
	jne	Ldcsctp_BB23_49
	cmpb	$1, 20(%r12,%rdx)
	jne	Ldcsctp_BB23_49
	movl	16(%r12,%rdx), %esi
	movl	24(%r12,%rdx), %edx
	movl	$335548416, (%rbx)
	movl	%ecx, 4(%rbx)
	shll	$24, %eax
	movl	%eax, 8(%rbx)
	bswapl	%esi
	movl	%esi, 12(%rbx)
	bswapl	%edx
	movl	%edx, 16(%rbx)
	jmp	Ldcsctp_BB23_21
Ldcsctp_BB23_46:
	movl	4(%r12,%rdx), %eax
	movzwl	8(%r12,%rdx), %ecx
	bswapl	%eax
	rolw	$8, %cx
	movzwl	%cx, %ecx
	shlq	$32, %rcx
	orq	%rcx, %rax
	movl	$201330944, (%rbx)
	movq	%rax, 4(%rbx)
	jmp	Ldcsctp_BB23_21
Ldcsctp_BB23_47:
	movl	$67109056, (%rbx)
	jmp	Ldcsctp_BB23_21
Ldcsctp_BB23_48:
	movl	4(%r12,%rdx), %eax
	bswapl	%eax
	movl	$134218112, (%rbx)
	movl	%eax, 4(%rbx)
	jmp	Ldcsctp_BB23_21
Ldcsctp_BB23_49:
	movl	$201330688, (%rbx)
	movl	%ecx, 4(%rbx)
	shll	$24, %eax
	movl	%eax, 8(%rbx)
	jmp	Ldcsctp_BB23_21
Ldcsctp_BB23_62:
	cmpq	$16, %rax
	jae	Ldcsctp_BB23_74
	xorl	%edx, %edx
	jmp	Ldcsctp_BB23_78
Ldcsctp_BB23_64:
	cmpq	$16, %rax
	jae	Ldcsctp_BB23_86
	xorl	%edx, %edx
	jmp	Ldcsctp_BB23_90
Ldcsctp_BB23_66:
	cmpq	$32, %rdx
	jae	Ldcsctp_BB23_98
	xorl	%eax, %eax
	jmp	Ldcsctp_BB23_102
Ldcsctp_BB23_68:
	cmpq	$32, %rdx
	jae	Ldcsctp_BB23_111
	xorl	%eax, %eax
	jmp	Ldcsctp_BB23_115
Ldcsctp_BB23_70:
	cmpq	$32, %rdx
	jae	Ldcsctp_BB23_124
	xorl	%eax, %eax
	jmp	Ldcsctp_BB23_128
Ldcsctp_BB23_72:
	cmpq	$32, %rdx
	jae	Ldcsctp_BB23_137
	xorl	%eax, %eax
	jmp	Ldcsctp_BB23_141
Ldcsctp_BB23_74:
	movq	%rax, %rdx
	andq	$-16, %rdx
	movq	48(%rsp), %rsi
	addq	%r13, %rsi
	xorl	%r8d, %r8d
	.p2align	4
Ldcsctp_BB23_75:
	movdqu	(%rcx,%r8,2), %xmm0
	movdqu	16(%rcx,%r8,2), %xmm1
	movdqa	Ldcsctp_CPI23_0(%rip), %xmm2
	pshufb	%xmm2, %xmm0
	pshufb	%xmm2, %xmm1
	movdqu	%xmm0, -16(%rsi,%r8,2)
	movdqu	%xmm1, (%rsi,%r8,2)
	addq	$16, %r8
	cmpq	%r8, %rdx
	jne	Ldcsctp_BB23_75
	cmpq	%rdx, %rax
	je	Ldcsctp_BB23_21
	testb	$12, %al
	je	Ldcsctp_BB23_150
Ldcsctp_BB23_78:
	movq	%rdx, %r8
	movq	%rax, %rdx
	andq	$-4, %rdx
	leaq	16(,%rdx,2), %rsi
	.p2align	4
Ldcsctp_BB23_79:
	movq	(%rcx,%r8,2), %xmm0
	pshufb	Ldcsctp_CPI23_1(%rip), %xmm0
	movq	%xmm0, (%rdi,%r8,2)
	addq	$4, %r8
	cmpq	%r8, %rdx
	jne	Ldcsctp_BB23_79
	cmpq	%rdx, %rax
	je	Ldcsctp_BB23_21
	movq	%rdx, %rdi
	orq	$1, %rdi
	testb	$1, %al
	je	Ldcsctp_BB23_83
Ldcsctp_BB23_82:
	movzwl	(%rcx,%rdx,2), %edx
	rolw	$8, %dx
	movw	%dx, (%rbx,%rsi)
	addq	$2, %rsi
	movq	%rdi, %rdx
Ldcsctp_BB23_83:
	cmpq	%rdi, %rax
	je	Ldcsctp_BB23_21
	addq	%r13, %rsi
	addq	40(%rsp), %rsi
	leaq	(%rcx,%rdx,2), %rcx
	addq	$2, %rcx
	subq	%rdx, %rax
	xorl	%edx, %edx
	.p2align	4
Ldcsctp_BB23_85:
	movzwl	-2(%rcx,%rdx,2), %edi
	rolw	$8, %di
	movw	%di, -2(%rsi,%rdx,2)
	movzwl	(%rcx,%rdx,2), %edi
	rolw	$8, %di
	movw	%di, (%rsi,%rdx,2)
	addq	$2, %rdx
	cmpq	%rdx, %rax
	jne	Ldcsctp_BB23_85
	jmp	Ldcsctp_BB23_21
Ldcsctp_BB23_86:
	movq	%rax, %rdx
	andq	$-16, %rdx
	movq	56(%rsp), %rsi
	addq	%r13, %rsi
	xorl	%r8d, %r8d
	.p2align	4
Ldcsctp_BB23_87:
	movdqu	(%rcx,%r8,2), %xmm0
	movdqu	16(%rcx,%r8,2), %xmm1
	movdqa	Ldcsctp_CPI23_0(%rip), %xmm2
	pshufb	%xmm2, %xmm0
	pshufb	%xmm2, %xmm1
	movdqu	%xmm0, -16(%rsi,%r8,2)
	movdqu	%xmm1, (%rsi,%r8,2)
	addq	$16, %r8
	cmpq	%r8, %rdx
	jne	Ldcsctp_BB23_87
	cmpq	%rdx, %rax
	je	Ldcsctp_BB23_21
	testb	$12, %al
	je	Ldcsctp_BB23_151
Ldcsctp_BB23_90:
	movq	%rdx, %r8
	movq	%rax, %rdx
	andq	$-4, %rdx
	leaq	8(,%rdx,2), %rsi
	.p2align	4
Ldcsctp_BB23_91:
	movq	(%rcx,%r8,2), %xmm0
	pshufb	Ldcsctp_CPI23_1(%rip), %xmm0
	movq	%xmm0, (%rdi,%r8,2)
	addq	$4, %r8
	cmpq	%r8, %rdx
	jne	Ldcsctp_BB23_91
	cmpq	%rdx, %rax
	je	Ldcsctp_BB23_21
	movq	%rdx, %rdi
	orq	$1, %rdi
	testb	$1, %al
	je	Ldcsctp_BB23_95
Ldcsctp_BB23_94:
	movzwl	(%rcx,%rdx,2), %edx
	rolw	$8, %dx
	movw	%dx, (%rbx,%rsi)
	addq	$2, %rsi
	movq	%rdi, %rdx
Ldcsctp_BB23_95:
	cmpq	%rdi, %rax
	je	Ldcsctp_BB23_21
	addq	%r13, %rsi
	addq	40(%rsp), %rsi
	leaq	(%rcx,%rdx,2), %rcx
	addq	$2, %rcx
	subq	%rdx, %rax
	xorl	%edx, %edx
	.p2align	4
Ldcsctp_BB23_97:
	movzwl	-2(%rcx,%rdx,2), %edi
	rolw	$8, %di
	movw	%di, -2(%rsi,%rdx,2)
	movzwl	(%rcx,%rdx,2), %edi
	rolw	$8, %di
	movw	%di, (%rsi,%rdx,2)
	addq	$2, %rdx
	cmpq	%rdx, %rax
	jne	Ldcsctp_BB23_97
	jmp	Ldcsctp_BB23_21
Ldcsctp_BB23_98:
	movq	%rdx, %rax
	andq	$-32, %rax
	movq	(%rsp), %rcx
	addq	%r13, %rcx
	xorl	%r8d, %r8d
	.p2align	4
Ldcsctp_BB23_99:
	movdqu	(%rsi,%r8), %xmm0
	movdqu	16(%rsi,%r8), %xmm1
	movdqu	%xmm0, -16(%rcx,%r8)
	movdqu	%xmm1, (%rcx,%r8)
	addq	$32, %r8
	cmpq	%r8, %rax
	jne	Ldcsctp_BB23_99
	cmpq	%rax, %rdx
	je	Ldcsctp_BB23_21
	testb	$28, %dl
	je	Ldcsctp_BB23_105
Ldcsctp_BB23_102:
	movq	%rax, %rcx
	movq	%rdx, %rax
	andq	$-4, %rax
	.p2align	4
Ldcsctp_BB23_103:
	movl	(%rsi,%rcx), %r8d
	movl	%r8d, (%rdi,%rcx)
	addq	$4, %rcx
	cmpq	%rcx, %rax
	jne	Ldcsctp_BB23_103
	cmpq	%rax, %rdx
	je	Ldcsctp_BB23_21
	jmp	Ldcsctp_BB23_105
Ldcsctp_BB23_111:
	movq	%rdx, %rax
	andq	$-32, %rax
	movq	(%rsp), %rcx
	addq	%r13, %rcx
	xorl	%r8d, %r8d
	.p2align	4
Ldcsctp_BB23_112:
	movdqu	(%rsi,%r8), %xmm0
	movdqu	16(%rsi,%r8), %xmm1
	movdqu	%xmm0, -16(%rcx,%r8)
	movdqu	%xmm1, (%rcx,%r8)
	addq	$32, %r8
	cmpq	%r8, %rax
	jne	Ldcsctp_BB23_112
	cmpq	%rax, %rdx
	je	Ldcsctp_BB23_21
	testb	$28, %dl
	je	Ldcsctp_BB23_118
Ldcsctp_BB23_115:
	movq	%rax, %rcx
	movq	%rdx, %rax
	andq	$-4, %rax
	.p2align	4
Ldcsctp_BB23_116:
	movl	(%rsi,%rcx), %r8d
	movl	%r8d, (%rdi,%rcx)
	addq	$4, %rcx
	cmpq	%rcx, %rax
	jne	Ldcsctp_BB23_116
	cmpq	%rax, %rdx
	je	Ldcsctp_BB23_21
	jmp	Ldcsctp_BB23_118
Ldcsctp_BB23_124:
	movq	%rdx, %rax
	andq	$-32, %rax
	movq	(%rsp), %rcx
	addq	%r13, %rcx
	xorl	%r8d, %r8d
	.p2align	4
Ldcsctp_BB23_125:
	movdqu	(%rsi,%r8), %xmm0
	movdqu	16(%rsi,%r8), %xmm1
	movdqu	%xmm0, -16(%rcx,%r8)
	movdqu	%xmm1, (%rcx,%r8)
	addq	$32, %r8
	cmpq	%r8, %rax
	jne	Ldcsctp_BB23_125
	cmpq	%rax, %rdx
	je	Ldcsctp_BB23_21
	testb	$28, %dl
	je	Ldcsctp_BB23_131
Ldcsctp_BB23_128:
	movq	%rax, %rcx
	movq	%rdx, %rax
	andq	$-4, %rax
	.p2align	4
Ldcsctp_BB23_129:
	movl	(%rsi,%rcx), %r8d
	movl	%r8d, (%rdi,%rcx)
	addq	$4, %rcx
	cmpq	%rcx, %rax
	jne	Ldcsctp_BB23_129
	cmpq	%rax, %rdx
	je	Ldcsctp_BB23_21
	jmp	Ldcsctp_BB23_131
Ldcsctp_BB23_137:
	movq	%rdx, %rax
	andq	$-32, %rax
	movq	(%rsp), %rcx
	addq	%r13, %rcx
	xorl	%r8d, %r8d
	.p2align	4
Ldcsctp_BB23_138:
	movdqu	(%rsi,%r8), %xmm0
	movdqu	16(%rsi,%r8), %xmm1
	movdqu	%xmm0, -16(%rcx,%r8)
	movdqu	%xmm1, (%rcx,%r8)
	addq	$32, %r8
	cmpq	%r8, %rax
	jne	Ldcsctp_BB23_138
	cmpq	%rax, %rdx
	je	Ldcsctp_BB23_21
	testb	$28, %dl
	je	Ldcsctp_BB23_144
Ldcsctp_BB23_141:
	movq	%rax, %rcx
	movq	%rdx, %rax
	andq	$-4, %rax
	.p2align	4
Ldcsctp_BB23_142:
	movl	(%rsi,%rcx), %r8d
	movl	%r8d, (%rdi,%rcx)
	addq	$4, %rcx
	cmpq	%rcx, %rax
	jne	Ldcsctp_BB23_142
	cmpq	%rax, %rdx
	je	Ldcsctp_BB23_21
	jmp	Ldcsctp_BB23_144
Ldcsctp_BB23_150:
	leaq	16(,%rdx,2), %rsi
	movq	%rdx, %rdi
	orq	$1, %rdi
	testb	$1, %al
	jne	Ldcsctp_BB23_82
	jmp	Ldcsctp_BB23_83
Ldcsctp_BB23_151:
	leaq	8(,%rdx,2), %rsi
	movq	%rdx, %rdi
	orq	$1, %rdi
	testb	$1, %al
	jne	Ldcsctp_BB23_94
	jmp	Ldcsctp_BB23_95
Ldcsctp_BB23_152:
	xorl	%r13d, %r13d
Ldcsctp_BB23_153:
	movl	36(%rsp), %eax
	movb	%al, (%r14)
	movb	$0, 1(%r14)
	movq	80(%rsp), %rax
	addl	%r13d, %eax
	addl	$4, %eax
	rolw	$8, %ax
	movw	%ax, 2(%r14)
	addq	$88, %rsp
	popq	%rbx
	popq	%r12
	popq	%r13
	popq	%r14
	popq	%r15
	popq	%rbp
	retq
Ldcsctp_BB23_6:
	cmpq	$16, %rbx
	jae	Ldcsctp_BB23_8
	xorl	%eax, %eax
	jmp	Ldcsctp_BB23_10
Ldcsctp_BB23_8:
	movl	%ebx, %eax
	andl	$16, %eax
	movdqu	(%rsi), %xmm0
	movdqu	%xmm0, (%rdi)
	cmpq	%rax, %rbx
	je	Ldcsctp_BB23_18
	testb	$12, %bl
	je	Ldcsctp_BB23_13
Ldcsctp_BB23_10:
	movq	%rax, %rcx
	movl	%ebx, %eax
	andl	$28, %eax
	.p2align	4
Ldcsctp_BB23_11:
	movl	(%rsi,%rcx), %edx
	movl	%edx, (%rdi,%rcx)
	addq	$4, %rcx
	cmpq	%rcx, %rax
	jne	Ldcsctp_BB23_11
	cmpq	%rax, %rbx
	je	Ldcsctp_BB23_18
	jmp	Ldcsctp_BB23_13
	.cfi_endproc
	.p2align	2
	.data_region jt32
L23_0_set_23 = Ldcsctp_BB23_23-Ldcsctp_JTI23_0
L23_0_set_40 = Ldcsctp_BB23_40-Ldcsctp_JTI23_0
L23_0_set_33 = Ldcsctp_BB23_33-Ldcsctp_JTI23_0
L23_0_set_36 = Ldcsctp_BB23_36-Ldcsctp_JTI23_0
L23_0_set_29 = Ldcsctp_BB23_29-Ldcsctp_JTI23_0
L23_0_set_43 = Ldcsctp_BB23_43-Ldcsctp_JTI23_0
L23_0_set_46 = Ldcsctp_BB23_46-Ldcsctp_JTI23_0
L23_0_set_39 = Ldcsctp_BB23_39-Ldcsctp_JTI23_0
L23_0_set_48 = Ldcsctp_BB23_48-Ldcsctp_JTI23_0
L23_0_set_30 = Ldcsctp_BB23_30-Ldcsctp_JTI23_0
L23_0_set_47 = Ldcsctp_BB23_47-Ldcsctp_JTI23_0
L23_0_set_26 = Ldcsctp_BB23_26-Ldcsctp_JTI23_0
Ldcsctp_JTI23_0:
	.long	L23_0_set_23
	.long	L23_0_set_40
	.long	L23_0_set_33
	.long	L23_0_set_36
	.long	L23_0_set_29
	.long	L23_0_set_43
	.long	L23_0_set_46
	.long	L23_0_set_39
	.long	L23_0_set_48
	.long	L23_0_set_30
	.long	L23_0_set_47
	.long	L23_0_set_26
	.end_data_region
	.section	__TEXT,__literal16,16byte_literals
	.p2align	4, 0x0
Ldcsctp_CPI24_0:
	.byte	1
	.byte	0
	.byte	3
	.byte	2
	.byte	5
	.byte	4
	.byte	7
	.byte	6
	.byte	9
	.byte	8
	.byte	11
	.byte	10
	.byte	13
	.byte	12
	.byte	15
	.byte	14
Ldcsctp_CPI24_1:
	.byte	1
	.byte	0
	.byte	3
	.byte	2
	.byte	5
	.byte	4
	.byte	7
	.byte	6
	.space	1
	.space	1
	.space	1
	.space	1
	.space	1
	.space	1
	.space	1
	.space	1
	.section	__TEXT,__text,regular,pure_instructions
	.p2align	4
_dcsctp_tlv.list.put_listed.f123a6a91b68d363:
	.cfi_startproc
	pushq	%rbp
	.cfi_def_cfa_offset 16
	pushq	%r15
	.cfi_def_cfa_offset 24
	pushq	%r14
	.cfi_def_cfa_offset 32
	pushq	%r13
	.cfi_def_cfa_offset 40
	pushq	%r12
	.cfi_def_cfa_offset 48
	pushq	%rbx
	.cfi_def_cfa_offset 56
	subq	$72, %rsp
	.cfi_def_cfa_offset 128
	.cfi_offset %rbx, -56
	.cfi_offset %r12, -48
	.cfi_offset %r13, -40
	.cfi_offset %r14, -32
	.cfi_offset %r15, -24
	.cfi_offset %rbp, -16
	testq	%rcx, %rcx
	je	Ldcsctp_BB24_109
	movq	%rcx, %r15
	movq	%rdx, %r12
	movl	%edi, 32(%rsp)
	movl	%esi, 36(%rsp)
	leaq	4(%r8), %rbp
	leaq	12(%r8), %rax
	movq	%rax, 64(%rsp)
	leaq	8(%r8), %rax
	movq	%rax, 24(%rsp)
	leaq	24(%r8), %rax
	movq	%rax, 8(%rsp)
	leaq	11(%r8), %rax
	movq	%rax, 16(%rsp)
	leaq	28(%r8), %rax
	movq	%rax, 40(%rsp)
	movq	%r8, 48(%rsp)
	leaq	6(%r8), %rax
	movq	%rax, 56(%rsp)
	xorl	%r13d, %r13d
	xorl	%r14d, %r14d
	jmp	Ldcsctp_BB24_4
	.p2align	4
Ldcsctp_BB24_2:
	callq	_memmove
Ldcsctp_BB24_3:
	movzwl	%bx, %eax
	addq	%rax, %r13
	incq	%r14
	cmpq	%r15, %r14
	je	Ldcsctp_BB24_108
Ldcsctp_BB24_4:
	leaq	(,%r14,8), %rax
	leaq	(%rax,%rax,4), %rax
	addq	$3, %r13
	andq	$-4, %r13
	movq	%rbp, %rdi
	addq	%r13, %rdi
	movzbl	(%r12,%rax), %ecx
	leaq	Ldcsctp_JTI24_0(%rip), %rdx
	movslq	(%rdx,%rcx,4), %rcx
	addq	%rdx, %rcx
	jmpq	*%rcx
Ldcsctp_BB24_5:
	movq	8(%r12,%rax), %rcx
	movq	16(%r12,%rax), %rax
	movw	$512, (%rdi)
	leal	8(,%rax,2), %ebx
	movl	%ebx, %edx
	rolw	$8, %dx
	movw	%dx, 2(%rdi)
	movl	%eax, %edx
	bswapl	%edx
	movl	%edx, 4(%rdi)
	testq	%rax, %rax
	je	Ldcsctp_BB24_3
	movl	$8, %esi
	cmpq	$4, %rax
	jb	Ldcsctp_BB24_7
	movq	64(%rsp), %rdx
	leaq	(%rdx,%r13), %r8
	movq	%r8, %rdx
	subq	%rcx, %rdx
	cmpq	$32, %rdx
	jae	Ldcsctp_BB24_32
Ldcsctp_BB24_7:
	xorl	%edx, %edx
	movq	%rdx, %r8
	orq	$1, %r8
	testb	$1, %al
	jne	Ldcsctp_BB24_50
	jmp	Ldcsctp_BB24_51
Ldcsctp_BB24_8:
	movq	8(%r12,%rax), %rsi
	movq	16(%r12,%rax), %rdx
	movw	$3072, (%rdi)
	leal	4(%rdx), %ebx
	movl	%ebx, %eax
	rolw	$8, %ax
	movw	%ax, 2(%rdi)
	addq	$4, %rdi
	movq	%rdi, %rax
	subq	%rsi, %rax
	cmpq	%rdx, %rax
	jae	Ldcsctp_BB24_2
	cmpq	$4, %rdx
	jb	Ldcsctp_BB24_10
	movq	24(%rsp), %rax
	addq	%r13, %rax
	subq	%rsi, %rax
	cmpq	$32, %rax
	jae	Ldcsctp_BB24_34
Ldcsctp_BB24_10:
	xorl	%eax, %eax
Ldcsctp_BB24_62:
	movq	%rdx, %r8
	movq	%rax, %rcx
	andq	$3, %r8
	je	Ldcsctp_BB24_65
	movq	%rax, %rcx
	.p2align	4
Ldcsctp_BB24_64:
	movzbl	(%rsi,%rcx), %r9d
	movb	%r9b, (%rdi,%rcx)
	incq	%rcx
	decq	%r8
	jne	Ldcsctp_BB24_64
Ldcsctp_BB24_65:
	subq	%rdx, %rax
	cmpq	$-4, %rax
	ja	Ldcsctp_BB24_3
	movq	16(%rsp), %rax
	addq	%r13, %rax
	.p2align	4
Ldcsctp_BB24_67:
	movzbl	(%rsi,%rcx), %edi
	movb	%dil, -3(%rax,%rcx)
	movzbl	1(%rsi,%rcx), %edi
	movb	%dil, -2(%rax,%rcx)
	movzbl	2(%rsi,%rcx), %edi
	movb	%dil, -1(%rax,%rcx)
	movzbl	3(%rsi,%rcx), %edi
	movb	%dil, (%rax,%rcx)
	addq	$4, %rcx
	cmpq	%rcx, %rdx
	jne	Ldcsctp_BB24_67
	jmp	Ldcsctp_BB24_3
Ldcsctp_BB24_11:
	movl	4(%r12,%rax), %eax
	bswapl	%eax
	movl	$134220032, (%rdi)
	movl	%eax, 4(%rdi)
	movw	$8, %bx
	jmp	Ldcsctp_BB24_3
Ldcsctp_BB24_12:
	movl	$67111424, (%rdi)
	movw	$4, %bx
	jmp	Ldcsctp_BB24_3
Ldcsctp_BB24_13:
	movq	8(%r12,%rax), %rsi
	movq	16(%r12,%rax), %rdx
	movw	$1536, (%rdi)
	leal	4(%rdx), %ebx
	movl	%ebx, %eax
	rolw	$8, %ax
	movw	%ax, 2(%rdi)
	addq	$4, %rdi
	movq	%rdi, %rax
	subq	%rsi, %rax
	cmpq	%rdx, %rax
	jae	Ldcsctp_BB24_2
	cmpq	$4, %rdx
	jb	Ldcsctp_BB24_15
	movq	24(%rsp), %rax
	addq	%r13, %rax
	subq	%rsi, %rax
	cmpq	$32, %rax
	jae	Ldcsctp_BB24_36
Ldcsctp_BB24_15:
	xorl	%eax, %eax
Ldcsctp_BB24_75:
	movq	%rdx, %r8
	movq	%rax, %rcx
	andq	$3, %r8
	je	Ldcsctp_BB24_78
	movq	%rax, %rcx
	.p2align	4
Ldcsctp_BB24_77:
	movzbl	(%rsi,%rcx), %r9d
	movb	%r9b, (%rdi,%rcx)
	incq	%rcx
	decq	%r8
	jne	Ldcsctp_BB24_77
Ldcsctp_BB24_78:
	subq	%rdx, %rax
	cmpq	$-4, %rax
	ja	Ldcsctp_BB24_3
	movq	16(%rsp), %rax
	addq	%r13, %rax
	.p2align	4
Ldcsctp_BB24_80:
	movzbl	(%rsi,%rcx), %edi
	movb	%dil, -3(%rax,%rcx)
	movzbl	1(%rsi,%rcx), %edi
	movb	%dil, -2(%rax,%rcx)
	movzbl	2(%rsi,%rcx), %edi
	movb	%dil, -1(%rax,%rcx)
	movzbl	3(%rsi,%rcx), %edi
	movb	%dil, (%rax,%rcx)
	addq	$4, %rcx
	cmpq	%rcx, %rdx
	jne	Ldcsctp_BB24_80
	jmp	Ldcsctp_BB24_3
Ldcsctp_BB24_16:
	movq	8(%r12,%rax), %rsi
	movq	16(%r12,%rax), %rdx
	movw	$3328, (%rdi)
	leal	4(%rdx), %ebx
	movl	%ebx, %eax
	rolw	$8, %ax
	movw	%ax, 2(%rdi)
	addq	$4, %rdi
	movq	%rdi, %rax
	subq	%rsi, %rax
	cmpq	%rdx, %rax
	jae	Ldcsctp_BB24_2
	cmpq	$4, %rdx
	jb	Ldcsctp_BB24_18
	movq	24(%rsp), %rax
	addq	%r13, %rax
	subq	%rsi, %rax
	cmpq	$32, %rax
	jae	Ldcsctp_BB24_38
Ldcsctp_BB24_18:
	xorl	%eax, %eax
Ldcsctp_BB24_88:
	movq	%rdx, %r8
	movq	%rax, %rcx
	andq	$3, %r8
	je	Ldcsctp_BB24_91
	movq	%rax, %rcx
	.p2align	4
Ldcsctp_BB24_90:
	movzbl	(%rsi,%rcx), %r9d
	movb	%r9b, (%rdi,%rcx)
	incq	%rcx
	decq	%r8
	jne	Ldcsctp_BB24_90
Ldcsctp_BB24_91:
	subq	%rdx, %rax
	cmpq	$-4, %rax
	ja	Ldcsctp_BB24_3
	movq	16(%rsp), %rax
	addq	%r13, %rax
	.p2align	4
Ldcsctp_BB24_93:
	movzbl	(%rsi,%rcx), %edi
	movb	%dil, -3(%rax,%rcx)
	movzbl	1(%rsi,%rcx), %edi
	movb	%dil, -2(%rax,%rcx)
	movzbl	2(%rsi,%rcx), %edi
	movb	%dil, -1(%rax,%rcx)
	movzbl	3(%rsi,%rcx), %edi
	movb	%dil, (%rax,%rcx)
	addq	$4, %rcx
	cmpq	%rcx, %rdx
	jne	Ldcsctp_BB24_93
	jmp	Ldcsctp_BB24_3
Ldcsctp_BB24_19:
	movzwl	8(%r12,%rax), %ecx
	movq	16(%r12,%rax), %rsi
	movq	24(%r12,%rax), %rdx
	movb	%ch, (%rdi)
	movb	%cl, 1(%rdi)
	leal	4(%rdx), %ebx
	movl	%ebx, %eax
	rolw	$8, %ax
	movw	%ax, 2(%rdi)
	addq	$4, %rdi
	movq	%rdi, %rax
	subq	%rsi, %rax
	cmpq	%rdx, %rax
	jae	Ldcsctp_BB24_2
	cmpq	$4, %rdx
	jb	Ldcsctp_BB24_21
	movq	24(%rsp), %rax
	addq	%r13, %rax
	subq	%rsi, %rax
	cmpq	$32, %rax
	jae	Ldcsctp_BB24_40
Ldcsctp_BB24_21:
	xorl	%eax, %eax
Ldcsctp_BB24_101:
	movq	%rdx, %r8
	movq	%rax, %rcx
	andq	$3, %r8
	je	Ldcsctp_BB24_104
	movq	%rax, %rcx
	.p2align	4
Ldcsctp_BB24_103:
	movzbl	(%rsi,%rcx), %r9d
	movb	%r9b, (%rdi,%rcx)
	incq	%rcx
	decq	%r8
	jne	Ldcsctp_BB24_103
Ldcsctp_BB24_104:
	subq	%rdx, %rax
	cmpq	$-4, %rax
	ja	Ldcsctp_BB24_3
	movq	16(%rsp), %rax
	addq	%r13, %rax
	.p2align	4
Ldcsctp_BB24_106:
	movzbl	(%rsi,%rcx), %edi
	movb	%dil, -3(%rax,%rcx)
	movzbl	1(%rsi,%rcx), %edi
	movb	%dil, -2(%rax,%rcx)
	movzbl	2(%rsi,%rcx), %edi
	movb	%dil, -1(%rax,%rcx)
	movzbl	3(%rsi,%rcx), %edi
	movb	%dil, (%rax,%rcx)
	addq	$4, %rcx
	cmpq	%rcx, %rdx
	jne	Ldcsctp_BB24_106
	jmp	Ldcsctp_BB24_3
Ldcsctp_BB24_32:
	cmpq	$16, %rax
	jae	Ldcsctp_BB24_42
	xorl	%edx, %edx
	jmp	Ldcsctp_BB24_46
Ldcsctp_BB24_34:
	cmpq	$32, %rdx
	jae	Ldcsctp_BB24_55
	xorl	%eax, %eax
	jmp	Ldcsctp_BB24_59
Ldcsctp_BB24_36:
	cmpq	$32, %rdx
	jae	Ldcsctp_BB24_68
	xorl	%eax, %eax
	jmp	Ldcsctp_BB24_72
Ldcsctp_BB24_38:
	cmpq	$32, %rdx
	jae	Ldcsctp_BB24_81
	xorl	%eax, %eax
	jmp	Ldcsctp_BB24_85
Ldcsctp_BB24_40:
	cmpq	$32, %rdx
	jae	Ldcsctp_BB24_94
	xorl	%eax, %eax
	jmp	Ldcsctp_BB24_98
Ldcsctp_BB24_42:
	movq	%rax, %rdx
	andq	$-16, %rdx
	movq	40(%rsp), %rsi
	addq	%r13, %rsi
	xorl	%r9d, %r9d
	.p2align	4
Ldcsctp_BB24_43:
	movdqu	(%rcx,%r9,2), %xmm0
	movdqu	16(%rcx,%r9,2), %xmm1
	movdqa	Ldcsctp_CPI24_0(%rip), %xmm2
	pshufb	%xmm2, %xmm0
	pshufb	%xmm2, %xmm1
	movdqu	%xmm0, -16(%rsi,%r9,2)
	movdqu	%xmm1, (%rsi,%r9,2)
	addq	$16, %r9
	cmpq	%r9, %rdx
	jne	Ldcsctp_BB24_43
	cmpq	%rdx, %rax
	je	Ldcsctp_BB24_54
	testb	$12, %al
	je	Ldcsctp_BB24_107
Ldcsctp_BB24_46:
	movq	%rdx, %r9
	movq	%rax, %rdx
	andq	$-4, %rdx
	leaq	8(,%rdx,2), %rsi
	.p2align	4
Ldcsctp_BB24_47:
	movq	(%rcx,%r9,2), %xmm0
	pshufb	Ldcsctp_CPI24_1(%rip), %xmm0
	movq	%xmm0, (%r8,%r9,2)
	addq	$4, %r9
	cmpq	%r9, %rdx
	jne	Ldcsctp_BB24_47
	cmpq	%rdx, %rax
	je	Ldcsctp_BB24_54
	movq	%rdx, %r8
	orq	$1, %r8
	testb	$1, %al
	je	Ldcsctp_BB24_51
Ldcsctp_BB24_50:
	movzwl	(%rcx,%rdx,2), %edx
	rolw	$8, %dx
	movw	%dx, (%rdi,%rsi)
	addq	$2, %rsi
	movq	%r8, %rdx
Ldcsctp_BB24_51:
	cmpq	%r8, %rax
	je	Ldcsctp_BB24_54
	addq	%r13, %rsi
	addq	56(%rsp), %rsi
	leaq	(%rcx,%rdx,2), %rcx
	addq	$2, %rcx
	subq	%rdx, %rax
	xorl	%edx, %edx
	.p2align	4
Ldcsctp_BB24_53:
	movzwl	-2(%rcx,%rdx,2), %r8d
	rolw	$8, %r8w
	movw	%r8w, -2(%rsi,%rdx,2)
	movzwl	(%rcx,%rdx,2), %r8d
	rolw	$8, %r8w
	movw	%r8w, (%rsi,%rdx,2)
	addq	$2, %rdx
	cmpq	%rdx, %rax
	jne	Ldcsctp_BB24_53
Ldcsctp_BB24_54:
	movzwl	2(%rdi), %ebx
	rolw	$8, %bx
	jmp	Ldcsctp_BB24_3
Ldcsctp_BB24_55:
	movq	%rdx, %rax
	andq	$-32, %rax
	movq	8(%rsp), %rcx
	addq	%r13, %rcx
	xorl	%r8d, %r8d
	.p2align	4
Ldcsctp_BB24_56:
	movdqu	(%rsi,%r8), %xmm0
	movdqu	16(%rsi,%r8), %xmm1
	movdqu	%xmm0, -16(%rcx,%r8)
	movdqu	%xmm1, (%rcx,%r8)
	addq	$32, %r8
	cmpq	%r8, %rax
	jne	Ldcsctp_BB24_56
	cmpq	%rax, %rdx
	je	Ldcsctp_BB24_3
	testb	$28, %dl
	je	Ldcsctp_BB24_62
Ldcsctp_BB24_59:
	movq	%rax, %rcx
	movq	%rdx, %rax
	andq	$-4, %rax
	.p2align	4
Ldcsctp_BB24_60:
	movl	(%rsi,%rcx), %r8d
	movl	%r8d, (%rdi,%rcx)
	addq	$4, %rcx
	cmpq	%rcx, %rax
	jne	Ldcsctp_BB24_60
	cmpq	%rax, %rdx
	je	Ldcsctp_BB24_3
	jmp	Ldcsctp_BB24_62
Ldcsctp_BB24_68:
	movq	%rdx, %rax
	andq	$-32, %rax
	movq	8(%rsp), %rcx
	addq	%r13, %rcx
	xorl	%r8d, %r8d
	.p2align	4
Ldcsctp_BB24_69:
	movdqu	(%rsi,%r8), %xmm0
	movdqu	16(%rsi,%r8), %xmm1
	movdqu	%xmm0, -16(%rcx,%r8)
	movdqu	%xmm1, (%rcx,%r8)
	addq	$32, %r8
	cmpq	%r8, %rax
	jne	Ldcsctp_BB24_69
	cmpq	%rax, %rdx
	je	Ldcsctp_BB24_3
	testb	$28, %dl
	je	Ldcsctp_BB24_75
Ldcsctp_BB24_72:
	movq	%rax, %rcx
	movq	%rdx, %rax
	andq	$-4, %rax
	.p2align	4
Ldcsctp_BB24_73:
	movl	(%rsi,%rcx), %r8d
	movl	%r8d, (%rdi,%rcx)
	addq	$4, %rcx
	cmpq	%rcx, %rax
	jne	Ldcsctp_BB24_73
	cmpq	%rax, %rdx
	je	Ldcsctp_BB24_3
	jmp	Ldcsctp_BB24_75
Ldcsctp_BB24_81:
	movq	%rdx, %rax
	andq	$-32, %rax
	movq	8(%rsp), %rcx
	addq	%r13, %rcx
	xorl	%r8d, %r8d
	.p2align	4
Ldcsctp_BB24_82:
	movdqu	(%rsi,%r8), %xmm0
	movdqu	16(%rsi,%r8), %xmm1
	movdqu	%xmm0, -16(%rcx,%r8)
	movdqu	%xmm1, (%rcx,%r8)
	addq	$32, %r8
	cmpq	%r8, %rax
	jne	Ldcsctp_BB24_82
	cmpq	%rax, %rdx
	je	Ldcsctp_BB24_3
	testb	$28, %dl
	je	Ldcsctp_BB24_88
Ldcsctp_BB24_85:
	movq	%rax, %rcx
	movq	%rdx, %rax
	andq	$-4, %rax
	.p2align	4
Ldcsctp_BB24_86:
	movl	(%rsi,%rcx), %r8d
	movl	%r8d, (%rdi,%rcx)
	addq	$4, %rcx
	cmpq	%rcx, %rax
	jne	Ldcsctp_BB24_86
	cmpq	%rax, %rdx
	je	Ldcsctp_BB24_3
	jmp	Ldcsctp_BB24_88
Ldcsctp_BB24_94:
	movq	%rdx, %rax
	andq	$-32, %rax
	movq	8(%rsp), %rcx
	addq	%r13, %rcx
	xorl	%r8d, %r8d
	.p2align	4
Ldcsctp_BB24_95:
	movdqu	(%rsi,%r8), %xmm0
	movdqu	16(%rsi,%r8), %xmm1
	movdqu	%xmm0, -16(%rcx,%r8)
	movdqu	%xmm1, (%rcx,%r8)
	addq	$32, %r8
	cmpq	%r8, %rax
	jne	Ldcsctp_BB24_95
	cmpq	%rax, %rdx
	je	Ldcsctp_BB24_3
	testb	$28, %dl
	je	Ldcsctp_BB24_101
Ldcsctp_BB24_98:
	movq	%rax, %rcx
	movq	%rdx, %rax
	andq	$-4, %rax
	.p2align	4
Ldcsctp_BB24_99:
	movl	(%rsi,%rcx), %r8d
	movl	%r8d, (%rdi,%rcx)
	addq	$4, %rcx
	cmpq	%rcx, %rax
	jne	Ldcsctp_BB24_99
	cmpq	%rax, %rdx
	je	Ldcsctp_BB24_3
	jmp	Ldcsctp_BB24_101
Ldcsctp_BB24_107:
	leaq	8(,%rdx,2), %rsi
	movq	%rdx, %r8
	orq	$1, %r8
	testb	$1, %al
	jne	Ldcsctp_BB24_50
	jmp	Ldcsctp_BB24_51
Ldcsctp_BB24_108:
	addl	$4, %r13d
	rolw	$8, %r13w
	movq	48(%rsp), %r8
	movl	36(%rsp), %esi
	movl	32(%rsp), %edi
	jmp	Ldcsctp_BB24_110
Ldcsctp_BB24_109:
	movw	$1024, %r13w
Ldcsctp_BB24_110:
	movb	%dil, (%r8)
	movb	%sil, 1(%r8)
	movw	%r13w, 2(%r8)
	addq	$72, %rsp
	popq	%rbx
	popq	%r12
	popq	%r13
	popq	%r14
	popq	%r15
	popq	%rbp
	retq
	.cfi_endproc
	.p2align	2
	.data_region jt32
L24_0_set_5 = Ldcsctp_BB24_5-Ldcsctp_JTI24_0
L24_0_set_13 = Ldcsctp_BB24_13-Ldcsctp_JTI24_0
L24_0_set_11 = Ldcsctp_BB24_11-Ldcsctp_JTI24_0
L24_0_set_12 = Ldcsctp_BB24_12-Ldcsctp_JTI24_0
L24_0_set_8 = Ldcsctp_BB24_8-Ldcsctp_JTI24_0
L24_0_set_16 = Ldcsctp_BB24_16-Ldcsctp_JTI24_0
L24_0_set_19 = Ldcsctp_BB24_19-Ldcsctp_JTI24_0
Ldcsctp_JTI24_0:
	.long	L24_0_set_5
	.long	L24_0_set_13
	.long	L24_0_set_11
	.long	L24_0_set_12
	.long	L24_0_set_8
	.long	L24_0_set_16
	.long	L24_0_set_19
	.end_data_region
	.p2align	4
_std_alloc.vec.Vec.drop.5e412c9b2b6de7d3:
	.cfi_startproc
	pushq	%rbp
	.cfi_def_cfa_offset 16
	pushq	%r15
	.cfi_def_cfa_offset 24
	pushq	%r14
	.cfi_def_cfa_offset 32
	pushq	%r13
	.cfi_def_cfa_offset 40
	pushq	%r12
	.cfi_def_cfa_offset 48
	pushq	%rbx
	.cfi_def_cfa_offset 56
	subq	$24, %rsp
	.cfi_def_cfa_offset 80
	.cfi_offset %rbx, -56
	.cfi_offset %r12, -48
	.cfi_offset %r13, -40
	.cfi_offset %r14, -32
	.cfi_offset %r15, -24
	.cfi_offset %rbp, -16
	movq	(%rdi), %rbx
	movq	8(%rdi), %r12
	movq	16(%rdi), %r15
	testq	%r12, %r12
	je	Ldcsctp_BB25_18
	movq	%rbx, %r13
	jmp	Ldcsctp_BB25_2
Ldcsctp_BB25_15:
	testq	%rdx, %rdx
	je	Ldcsctp_BB25_17
Ldcsctp_BB25_16:
	callq	_rattle_dealloc
Ldcsctp_BB25_17:
	addq	$64, %r13
	decq	%r12
	je	Ldcsctp_BB25_18
Ldcsctp_BB25_2:
	movzbl	(%r13), %esi
	movq	8(%r13), %rax
	movq	16(%r13), %rdi
	movq	24(%r13), %rcx
	movq	32(%r13), %rdx
	movq	40(%r13), %r14
	leaq	Ldcsctp_JTI25_0(%rip), %r8
	movslq	(%r8,%rsi,4), %rsi
	addq	%r8, %rsi
	jmpq	*%rsi
Ldcsctp_BB25_3:
	testq	%rcx, %rcx
	je	Ldcsctp_BB25_17
	movq	%rax, %rdi
	jmp	Ldcsctp_BB25_16
Ldcsctp_BB25_14:
	movq	%rax, (%rsp)
	movq	%rdi, 8(%rsp)
	movq	%rcx, 16(%rsp)
	jmp	Ldcsctp_BB25_6
Ldcsctp_BB25_5:
	movq	%rcx, (%rsp)
	movq	%rdx, 8(%rsp)
	movq	%r14, 16(%rsp)
Ldcsctp_BB25_6:
	movq	%rsp, %rdi
	callq	_std_alloc.vec.Vec.drop.765a829dcb308622
	jmp	Ldcsctp_BB25_17
Ldcsctp_BB25_13:
	movq	%rax, (%rsp)
	movq	%rdi, 8(%rsp)
	movq	%rcx, 16(%rsp)
	jmp	Ldcsctp_BB25_12
Ldcsctp_BB25_7:
	movq	56(%r13), %rbp
	testq	%rdx, %rdx
	je	Ldcsctp_BB25_9
	callq	_rattle_dealloc
Ldcsctp_BB25_9:
	testq	%rbp, %rbp
	je	Ldcsctp_BB25_17
	movq	%r14, %rdi
	jmp	Ldcsctp_BB25_16
Ldcsctp_BB25_11:
	movq	%rdi, (%rsp)
	movq	%rcx, 8(%rsp)
	movq	%rdx, 16(%rsp)
Ldcsctp_BB25_12:
	movq	%rsp, %rdi
	callq	_std_alloc.vec.Vec.drop.694f3e952ffd1e0b
	jmp	Ldcsctp_BB25_17
Ldcsctp_BB25_18:
	testq	%r15, %r15
	je	Ldcsctp_BB25_19
	movq	%rbx, %rdi
	addq	$24, %rsp
	popq	%rbx
	popq	%r12
	popq	%r13
	popq	%r14
	popq	%r15
	popq	%rbp
	jmp	_rattle_dealloc
Ldcsctp_BB25_19:
	addq	$24, %rsp
	popq	%rbx
	popq	%r12
	popq	%r13
	popq	%r14
	popq	%r15
	popq	%rbp
	retq
	.cfi_endproc
	.p2align	2
	.data_region jt32
L25_0_set_3 = Ldcsctp_BB25_3-Ldcsctp_JTI25_0
L25_0_set_5 = Ldcsctp_BB25_5-Ldcsctp_JTI25_0
L25_0_set_7 = Ldcsctp_BB25_7-Ldcsctp_JTI25_0
L25_0_set_14 = Ldcsctp_BB25_14-Ldcsctp_JTI25_0
L25_0_set_11 = Ldcsctp_BB25_11-Ldcsctp_JTI25_0
L25_0_set_17 = Ldcsctp_BB25_17-Ldcsctp_JTI25_0
L25_0_set_13 = Ldcsctp_BB25_13-Ldcsctp_JTI25_0
L25_0_set_15 = Ldcsctp_BB25_15-Ldcsctp_JTI25_0
Ldcsctp_JTI25_0:
	.long	L25_0_set_3
	.long	L25_0_set_5
	.long	L25_0_set_5
	.long	L25_0_set_7
	.long	L25_0_set_14
	.long	L25_0_set_14
	.long	L25_0_set_11
	.long	L25_0_set_17
	.long	L25_0_set_17
	.long	L25_0_set_13
	.long	L25_0_set_3
	.long	L25_0_set_17
	.long	L25_0_set_17
	.long	L25_0_set_3
	.long	L25_0_set_14
	.long	L25_0_set_15
	.long	L25_0_set_15
	.long	L25_0_set_15
	.end_data_region
	.section	__TEXT,__literal16,16byte_literals
	.p2align	4, 0x0
Ldcsctp_CPI26_0:
	.byte	116
	.byte	104
	.byte	105
	.byte	115
	.byte	32
	.byte	109
	.byte	97
	.byte	99
	.byte	104
	.byte	105
	.byte	110
	.byte	101
	.byte	32
	.byte	108
	.byte	97
	.byte	99
Ldcsctp_CPI26_1:
	.byte	107
	.byte	115
	.byte	32
	.byte	97
	.byte	32
	.byte	102
	.byte	101
	.byte	97
	.byte	116
	.byte	117
	.byte	114
	.byte	101
	.byte	32
	.byte	111
	.byte	102
	.byte	32
Ldcsctp_CPI26_2:
	.byte	120
	.byte	56
	.byte	54
	.byte	45
	.byte	54
	.byte	52
	.byte	45
	.byte	118
	.byte	50
	.byte	44
	.byte	32
	.byte	119
	.byte	104
	.byte	105
	.byte	99
	.byte	104
Ldcsctp_CPI26_3:
	.byte	32
	.byte	116
	.byte	104
	.byte	105
	.byte	115
	.byte	32
	.byte	112
	.byte	114
	.byte	111
	.byte	103
	.byte	114
	.byte	97
	.byte	109
	.byte	32
	.byte	119
	.byte	97
Ldcsctp_CPI26_4:
	.byte	115
	.byte	32
	.byte	98
	.byte	117
	.byte	105
	.byte	108
	.byte	116
	.byte	32
	.byte	102
	.byte	111
	.byte	114
	.byte	58
	.byte	32
	.byte	114
	.byte	117
	.byte	110
Ldcsctp_CPI26_5:
	.byte	32
	.byte	105
	.byte	116
	.byte	32
	.byte	111
	.byte	110
	.byte	32
	.byte	97
	.byte	110
	.byte	111
	.byte	116
	.byte	104
	.byte	101
	.byte	114
	.byte	32
	.byte	109
Ldcsctp_CPI26_6:
	.byte	97
	.byte	99
	.byte	104
	.byte	105
	.byte	110
	.byte	101
	.byte	44
	.byte	32
	.byte	111
	.byte	114
	.byte	32
	.byte	98
	.byte	117
	.byte	105
	.byte	108
	.byte	100
Ldcsctp_CPI26_7:
	.byte	32
	.byte	105
	.byte	116
	.byte	32
	.byte	119
	.byte	105
	.byte	116
	.byte	104
	.byte	32
	.byte	45
	.byte	45
	.byte	99
	.byte	112
	.byte	117
	.byte	32
	.byte	120
	.section	__TEXT,__text,regular,pure_instructions
	.globl	_rattle_main
	.p2align	4
_rattle_main:
	.cfi_startproc
	pushq	%rbp
	.cfi_def_cfa_offset 16
	.cfi_offset %rbp, -16
	movq	%rsp, %rbp
	.cfi_def_cfa_register %rbp
	pushq	%rbx
	pushq	%rax
	.cfi_offset %rbx, -24
	movl	$1, %esi
	movl	$13, %edi
	callq	_rattle_signal
	xorl	%edi, %edi
	callq	_rattle_cpuid
	movl	24(%rax), %ebx
	movl	$2, %edi
	callq	_rattle_cpuid
	notl	%ebx
	testl	$9970177, %ebx
	jne	Ldcsctp_BB26_2
	movl	24(%rax), %eax
	andl	$1, %eax
	je	Ldcsctp_BB26_2
	leaq	-8(%rbp), %rsp
	popq	%rbx
	popq	%rbp
	jmp	_sctp_show.main.start
Ldcsctp_BB26_2:
	movq	%rsp, %rsi
	subq	$144, %rsi
	cmpq	%rsp, %rsi
	jge	Ldcsctp_BB26_5
Ldcsctp_BB26_4:
	xorq	$0, (%rsp)
	subq	$3072, %rsp
	cmpq	%rsp, %rsi
	jl	Ldcsctp_BB26_4
Ldcsctp_BB26_5:
	movq	%rsi, %rsp
	movaps	Ldcsctp_CPI26_0(%rip), %xmm0
	movaps	%xmm0, (%rsi)
	movaps	Ldcsctp_CPI26_1(%rip), %xmm0
	movaps	%xmm0, 16(%rsi)
	movaps	Ldcsctp_CPI26_2(%rip), %xmm0
	movaps	%xmm0, 32(%rsi)
	movaps	Ldcsctp_CPI26_3(%rip), %xmm0
	movaps	%xmm0, 48(%rsi)
	movaps	Ldcsctp_CPI26_4(%rip), %xmm0
	movaps	%xmm0, 64(%rsi)
	movaps	Ldcsctp_CPI26_5(%rip), %xmm0
	movaps	%xmm0, 80(%rsi)
	movaps	Ldcsctp_CPI26_6(%rip), %xmm0
	movaps	%xmm0, 96(%rsi)
	movaps	Ldcsctp_CPI26_7(%rip), %xmm0
	movaps	%xmm0, 112(%rsi)
	movl	$908932664, 128(%rsi)
	movw	$2612, 132(%rsi)
	movl	$134, %edx
	movl	$2, %edi
	callq	_rattle_write
	movl	$127, %eax
	leaq	-8(%rbp), %rsp
	popq	%rbx
	popq	%rbp
	retq
	.cfi_endproc
	.section	__TEXT,__const
l_static.0:
	.ascii	"Failed to parse abort reason"
l_static.1:
	.ascii	"Failed to parse additional information"
l_static.2:
	.byte	10
l_static.3:
	.ascii	"source="
l_static.4:
	.ascii	" destination="
l_static.5:
	.ascii	" tag="
l_static.6:
	.ascii	" checksum="
	.section	__TEXT,__literal4,4byte_literals
L_static.7:
	.space	4,32
	.section	__TEXT,__const
l_static.8:
	.byte	0
l_static.11:
	.ascii	"SHUTDOWN cumulative_tsn_ack="
l_static.12:
	.ascii	"SHUTDOWN-ACK"
l_static.13:
	.ascii	"COOKIE-ACK"
l_static.14:
	.ascii	"SHUTDOWN-COMPLETE, tag_reflected="
	.section	__TEXT,__literal4,4byte_literals
L_static.15:
	.ascii	"true"
	.section	__TEXT,__const
l_static.16:
	.ascii	"false"
l_static.17:
	.ascii	"DATA, type="
l_static.18:
	.space	2,58
l_static.19:
	.ascii	", tsn="
l_static.20:
	.ascii	", sid="
l_static.21:
	.ascii	", ssn="
l_static.22:
	.ascii	", ppid="
l_static.23:
	.ascii	", length="
l_static.24:
	.ascii	"unordered"
l_static.25:
	.ascii	"ordered"
	.section	__TEXT,__literal8,8byte_literals
L_static.26:
	.ascii	"complete"
	.section	__TEXT,__const
l_static.27:
	.ascii	"first"
	.section	__TEXT,__literal4,4byte_literals
L_static.28:
	.ascii	"last"
	.section	__TEXT,__const
l_static.29:
	.ascii	"middle"
l_static.30:
	.ascii	"SACK, cum_ack_tsn="
l_static.31:
	.ascii	", a_rwnd="
l_static.32:
	.ascii	"COOKIE-ECHO, cookie="
l_static.33:
	.ascii	" bytes"
l_static.34:
	.ascii	"I-DATA, type="
l_static.35:
	.ascii	", mid="
l_static.36:
	.ascii	"FORWARD-TSN, new_cumulative_tsn="
l_static.37:
	.ascii	"I-FORWARD-TSN, new_cumulative_tsn="
l_static.38:
	.ascii	"INIT, initiate_tag="
l_static.39:
	.ascii	", initial_tsn="
l_static.40:
	.ascii	"INIT-ACK, initiate_tag="
l_static.41:
	.ascii	"HEARTBEAT-REQ"
l_static.42:
	.ascii	"HEARTBEAT-ACK"
l_static.43:
	.ascii	"ABORT, tag_reflected="
l_static.44:
	.ascii	"ERROR"
l_static.45:
	.ascii	"RE-CONFIG"
l_static.46:
	.ascii	"Unknown chunk, type="
l_static.47:
	.ascii	"canonical too long\n"
l_static.48:
	.ascii	"canonical="
	.section	__TEXT,__literal16,16byte_literals
L_static.50:
	.ascii	"0123456789abcdef"
	.section	__TEXT,__const
l_static.51:
	.ascii	"error: out of memory\n"
l_static.52:
	.ascii	"error: read failed\n"
l_static.53:
	.ascii	"error: input too long\n"
l_static.54:
	.ascii	"error: not hexadecimal\n"
l_static.55:
	.ascii	"error: invalid packet size\n"
l_static.58:
	.ascii	"error: invalid chunk: length\n"
l_static.59:
	.ascii	"error: invalid chunk: type\n"
l_static.60:
	.ascii	"error: invalid chunk: padding\n"
l_static.61:
	.ascii	"error: invalid chunk: value\n"
	.p2align	3, 0x0
l_switch.table.sctp_show.main.start:
	.quad	29
	.quad	27
	.quad	30
	.quad	28
	.quad	21
	.p2align	2, 0x0
l_switch.table.sctp_show.main.start.391.rel:
	.long	l_static.58-l_switch.table.sctp_show.main.start.391.rel
	.long	l_static.59-l_switch.table.sctp_show.main.start.391.rel
	.long	l_static.60-l_switch.table.sctp_show.main.start.391.rel
	.long	l_static.61-l_switch.table.sctp_show.main.start.391.rel
	.long	l_static.51-l_switch.table.sctp_show.main.start.391.rel
.subsections_via_symbols
	.section	__TEXT,__text,regular,pure_instructions
	.p2align	4
_rattle_alloc:
	.cfi_startproc
	pushq	%rax
	.cfi_def_cfa_offset 16
	testq	%rdi, %rdi
	cmoveq	%rsi, %rdi
	callq	_malloc
	xorl	%ecx, %ecx
	testq	%rax, %rax
	setne	%cl
	leaq	_rattle_none(%rip), %rdx
	cmovneq	%rax, %rdx
	movq	%rcx, %rax
	popq	%rcx
	retq
	.cfi_endproc
	.p2align	4
_rattle_realloc:
	.cfi_startproc
	pushq	%rax
	.cfi_def_cfa_offset 16
	testq	%rdx, %rdx
	cmovneq	%rdx, %rcx
	movq	%rcx, %rsi
	callq	_realloc
	xorl	%ecx, %ecx
	testq	%rax, %rax
	setne	%cl
	leaq	_rattle_none(%rip), %rdx
	cmovneq	%rax, %rdx
	movq	%rcx, %rax
	popq	%rcx
	retq
	.cfi_endproc
	.p2align	4
_rattle_dealloc:
	.cfi_startproc
	jmp	_free
	.cfi_endproc
	.section	__TEXT,__const
	.p2align	4, 0x0
_rattle_none:
	.space	16
