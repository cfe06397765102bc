	.section	__TEXT,__text,regular,pure_instructions
	.p2align	2
_std_io.io.error.last_error:
	.cfi_startproc
	stp	x20, x19, [sp, #-32]!
	.cfi_def_cfa_offset 32
	stp	x29, x30, [sp, #16]
	add	x29, sp, #16
	.cfi_def_cfa w29, 16
	.cfi_offset w30, -8
	.cfi_offset w29, -16
	.cfi_offset w19, -24
	.cfi_offset w20, -32
	.cfi_remember_state
	mov	x19, x0
	bl	_rattle_errno
	tbnz	w0, #31, Ldcsctp_BB0_4
	sub	w9, w0, #1
	cmp	w9, #121
	b.hi	Ldcsctp_BB0_4
	mov	w8, #1
Ldcsctp_loh0:
	adrp	x10, Ldcsctp_JTI0_0@PAGE
Ldcsctp_loh1:
	add	x10, x10, Ldcsctp_JTI0_0@PAGEOFF
	adr	x11, Ldcsctp_BB0_3
	ldrb	w12, [x10, x9]
	add	x11, x11, x12, lsl #2
	br	x11
Ldcsctp_BB0_3:
	mov	w8, #36
	b	Ldcsctp_BB0_5
Ldcsctp_BB0_4:
	mov	w8, #41
Ldcsctp_BB0_5:
	strb	wzr, [x19]
	strb	w8, [x19, #1]
	strh	wzr, [x19, #2]
	str	w0, [x19, #4]
	movi	v0.2d, #0000000000000000
	stur	q0, [x19, #8]
	stur	q0, [x19, #24]
	stur	q0, [x19, #40]
	stur	q0, [x19, #56]
	stur	q0, [x19, #72]
	.cfi_def_cfa wsp, 32
	ldp	x29, x30, [sp, #16]
	ldp	x20, x19, [sp], #32
	.cfi_def_cfa_offset 0
	.cfi_restore w30
	.cfi_restore w29
	.cfi_restore w19
	.cfi_restore w20
	ret
Ldcsctp_BB0_6:
	.cfi_restore_state
	mov	w8, #4
	b	Ldcsctp_BB0_5
Ldcsctp_BB0_7:
	mov	w8, #7
	b	Ldcsctp_BB0_5
Ldcsctp_BB0_8:
	mov	w8, #26
	b	Ldcsctp_BB0_5
Ldcsctp_BB0_9:
	mov	w8, #39
	b	Ldcsctp_BB0_5
Ldcsctp_BB0_10:
	mov	w8, #9
	b	Ldcsctp_BB0_5
Ldcsctp_BB0_11:
	mov	w8, #8
	b	Ldcsctp_BB0_5
Ldcsctp_BB0_12:
	mov	w8, #30
	b	Ldcsctp_BB0_5
Ldcsctp_BB0_13:
	mov	w8, #25
	b	Ldcsctp_BB0_5
Ldcsctp_BB0_14:
	mov	w8, #32
	b	Ldcsctp_BB0_5
Ldcsctp_BB0_15:
	mov	w8, #33
	b	Ldcsctp_BB0_5
Ldcsctp_BB0_16:
	mov	w8, #22
	b	Ldcsctp_BB0_5
Ldcsctp_BB0_17:
	mov	w8, #31
	b	Ldcsctp_BB0_5
Ldcsctp_BB0_18:
	mov	w8, #29
	b	Ldcsctp_BB0_5
Ldcsctp_BB0_19:
	mov	w8, #18
	b	Ldcsctp_BB0_5
Ldcsctp_BB0_20:
	mov	w8, #10
	b	Ldcsctp_BB0_5
Ldcsctp_BB0_21:
	mov	w8, #28
	b	Ldcsctp_BB0_5
Ldcsctp_BB0_22:
	mov	w8, #14
	b	Ldcsctp_BB0_5
Ldcsctp_BB0_23:
	mov	w8, #12
	b	Ldcsctp_BB0_5
Ldcsctp_BB0_24:
	mov	w8, #5
	b	Ldcsctp_BB0_5
Ldcsctp_BB0_25:
	mov	w8, #3
	b	Ldcsctp_BB0_5
Ldcsctp_BB0_26:
	mov	w8, #0
	b	Ldcsctp_BB0_5
Ldcsctp_BB0_27:
	mov	w8, #13
	b	Ldcsctp_BB0_5
Ldcsctp_BB0_28:
	mov	w8, #38
	b	Ldcsctp_BB0_5
Ldcsctp_BB0_29:
	mov	w8, #11
	b	Ldcsctp_BB0_5
Ldcsctp_BB0_30:
	mov	w8, #35
	b	Ldcsctp_BB0_5
Ldcsctp_BB0_31:
	mov	w8, #34
	b	Ldcsctp_BB0_5
Ldcsctp_BB0_32:
	mov	w8, #20
	b	Ldcsctp_BB0_5
Ldcsctp_BB0_33:
	mov	w8, #15
	b	Ldcsctp_BB0_5
Ldcsctp_BB0_34:
	mov	w8, #19
	b	Ldcsctp_BB0_5
Ldcsctp_BB0_35:
	mov	w8, #16
	b	Ldcsctp_BB0_5
Ldcsctp_BB0_36:
	mov	w8, #6
	b	Ldcsctp_BB0_5
Ldcsctp_BB0_37:
	mov	w8, #27
	b	Ldcsctp_BB0_5
Ldcsctp_BB0_38:
	mov	w8, #24
	b	Ldcsctp_BB0_5
Ldcsctp_BB0_39:
	mov	w8, #2
	b	Ldcsctp_BB0_5
Ldcsctp_BB0_40:
	mov	w8, #17
	b	Ldcsctp_BB0_5
	.loh AdrpAdd	Ldcsctp_loh0, Ldcsctp_loh1
	.cfi_endproc
	.section	__TEXT,__const
Ldcsctp_JTI0_0:
	.byte	(Ldcsctp_BB0_5-Ldcsctp_BB0_3)>>2
	.byte	(Ldcsctp_BB0_26-Ldcsctp_BB0_3)>>2
	.byte	(Ldcsctp_BB0_4-Ldcsctp_BB0_3)>>2
	.byte	(Ldcsctp_BB0_30-Ldcsctp_BB0_3)>>2
	.byte	(Ldcsctp_BB0_4-Ldcsctp_BB0_3)>>2
	.byte	(Ldcsctp_BB0_4-Ldcsctp_BB0_3)>>2
	.byte	(Ldcsctp_BB0_31-Ldcsctp_BB0_3)>>2
	.byte	(Ldcsctp_BB0_4-Ldcsctp_BB0_3)>>2
	.byte	(Ldcsctp_BB0_4-Ldcsctp_BB0_3)>>2
	.byte	(Ldcsctp_BB0_4-Ldcsctp_BB0_3)>>2
	.byte	(Ldcsctp_BB0_27-Ldcsctp_BB0_3)>>2
	.byte	(Ldcsctp_BB0_28-Ldcsctp_BB0_3)>>2
	.byte	(Ldcsctp_BB0_5-Ldcsctp_BB0_3)>>2
	.byte	(Ldcsctp_BB0_4-Ldcsctp_BB0_3)>>2
	.byte	(Ldcsctp_BB0_4-Ldcsctp_BB0_3)>>2
	.byte	(Ldcsctp_BB0_21-Ldcsctp_BB0_3)>>2
	.byte	(Ldcsctp_BB0_23-Ldcsctp_BB0_3)>>2
	.byte	(Ldcsctp_BB0_17-Ldcsctp_BB0_3)>>2
	.byte	(Ldcsctp_BB0_4-Ldcsctp_BB0_3)>>2
	.byte	(Ldcsctp_BB0_22-Ldcsctp_BB0_3)>>2
	.byte	(Ldcsctp_BB0_33-Ldcsctp_BB0_3)>>2
	.byte	(Ldcsctp_BB0_32-Ldcsctp_BB0_3)>>2
	.byte	(Ldcsctp_BB0_4-Ldcsctp_BB0_3)>>2
	.byte	(Ldcsctp_BB0_4-Ldcsctp_BB0_3)>>2
	.byte	(Ldcsctp_BB0_4-Ldcsctp_BB0_3)>>2
	.byte	(Ldcsctp_BB0_18-Ldcsctp_BB0_3)>>2
	.byte	(Ldcsctp_BB0_37-Ldcsctp_BB0_3)>>2
	.byte	(Ldcsctp_BB0_38-Ldcsctp_BB0_3)>>2
	.byte	(Ldcsctp_BB0_13-Ldcsctp_BB0_3)>>2
	.byte	(Ldcsctp_BB0_40-Ldcsctp_BB0_3)>>2
	.byte	(Ldcsctp_BB0_14-Ldcsctp_BB0_3)>>2
	.byte	(Ldcsctp_BB0_29-Ldcsctp_BB0_3)>>2
	.byte	(Ldcsctp_BB0_4-Ldcsctp_BB0_3)>>2
	.byte	(Ldcsctp_BB0_4-Ldcsctp_BB0_3)>>2
	.byte	(Ldcsctp_BB0_12-Ldcsctp_BB0_3)>>2
	.byte	(Ldcsctp_BB0_15-Ldcsctp_BB0_3)>>2
	.byte	(Ldcsctp_BB0_4-Ldcsctp_BB0_3)>>2
	.byte	(Ldcsctp_BB0_3-Ldcsctp_BB0_3)>>2
	.byte	(Ldcsctp_BB0_35-Ldcsctp_BB0_3)>>2
	.byte	(Ldcsctp_BB0_19-Ldcsctp_BB0_3)>>2
	.byte	(Ldcsctp_BB0_4-Ldcsctp_BB0_3)>>2
	.byte	(Ldcsctp_BB0_4-Ldcsctp_BB0_3)>>2
	.byte	(Ldcsctp_BB0_4-Ldcsctp_BB0_3)>>2
	.byte	(Ldcsctp_BB0_4-Ldcsctp_BB0_3)>>2
	.byte	(Ldcsctp_BB0_4-Ldcsctp_BB0_3)>>2
	.byte	(Ldcsctp_BB0_4-Ldcsctp_BB0_3)>>2
	.byte	(Ldcsctp_BB0_4-Ldcsctp_BB0_3)>>2
	.byte	(Ldcsctp_BB0_4-Ldcsctp_BB0_3)>>2
	.byte	(Ldcsctp_BB0_4-Ldcsctp_BB0_3)>>2
	.byte	(Ldcsctp_BB0_4-Ldcsctp_BB0_3)>>2
	.byte	(Ldcsctp_BB0_4-Ldcsctp_BB0_3)>>2
	.byte	(Ldcsctp_BB0_4-Ldcsctp_BB0_3)>>2
	.byte	(Ldcsctp_BB0_4-Ldcsctp_BB0_3)>>2
	.byte	(Ldcsctp_BB0_4-Ldcsctp_BB0_3)>>2
	.byte	(Ldcsctp_BB0_4-Ldcsctp_BB0_3)>>2
	.byte	(Ldcsctp_BB0_4-Ldcsctp_BB0_3)>>2
	.byte	(Ldcsctp_BB0_4-Ldcsctp_BB0_3)>>2
	.byte	(Ldcsctp_BB0_4-Ldcsctp_BB0_3)>>2
	.byte	(Ldcsctp_BB0_4-Ldcsctp_BB0_3)>>2
	.byte	(Ldcsctp_BB0_4-Ldcsctp_BB0_3)>>2
	.byte	(Ldcsctp_BB0_4-Ldcsctp_BB0_3)>>2
	.byte	(Ldcsctp_BB0_4-Ldcsctp_BB0_3)>>2
	.byte	(Ldcsctp_BB0_4-Ldcsctp_BB0_3)>>2
	.byte	(Ldcsctp_BB0_4-Ldcsctp_BB0_3)>>2
	.byte	(Ldcsctp_BB0_4-Ldcsctp_BB0_3)>>2
	.byte	(Ldcsctp_BB0_4-Ldcsctp_BB0_3)>>2
	.byte	(Ldcsctp_BB0_4-Ldcsctp_BB0_3)>>2
	.byte	(Ldcsctp_BB0_4-Ldcsctp_BB0_3)>>2
	.byte	(Ldcsctp_BB0_4-Ldcsctp_BB0_3)>>2
	.byte	(Ldcsctp_BB0_4-Ldcsctp_BB0_3)>>2
	.byte	(Ldcsctp_BB0_4-Ldcsctp_BB0_3)>>2
	.byte	(Ldcsctp_BB0_4-Ldcsctp_BB0_3)>>2
	.byte	(Ldcsctp_BB0_4-Ldcsctp_BB0_3)>>2
	.byte	(Ldcsctp_BB0_4-Ldcsctp_BB0_3)>>2
	.byte	(Ldcsctp_BB0_4-Ldcsctp_BB0_3)>>2
	.byte	(Ldcsctp_BB0_4-Ldcsctp_BB0_3)>>2
	.byte	(Ldcsctp_BB0_4-Ldcsctp_BB0_3)>>2
	.byte	(Ldcsctp_BB0_4-Ldcsctp_BB0_3)>>2
	.byte	(Ldcsctp_BB0_4-Ldcsctp_BB0_3)>>2
	.byte	(Ldcsctp_BB0_4-Ldcsctp_BB0_3)>>2
	.byte	(Ldcsctp_BB0_4-Ldcsctp_BB0_3)>>2
	.byte	(Ldcsctp_BB0_4-Ldcsctp_BB0_3)>>2
	.byte	(Ldcsctp_BB0_4-Ldcsctp_BB0_3)>>2
	.byte	(Ldcsctp_BB0_4-Ldcsctp_BB0_3)>>2
	.byte	(Ldcsctp_BB0_4-Ldcsctp_BB0_3)>>2
	.byte	(Ldcsctp_BB0_4-Ldcsctp_BB0_3)>>2
	.byte	(Ldcsctp_BB0_4-Ldcsctp_BB0_3)>>2
	.byte	(Ldcsctp_BB0_4-Ldcsctp_BB0_3)>>2
	.byte	(Ldcsctp_BB0_4-Ldcsctp_BB0_3)>>2
	.byte	(Ldcsctp_BB0_4-Ldcsctp_BB0_3)>>2
	.byte	(Ldcsctp_BB0_4-Ldcsctp_BB0_3)>>2
	.byte	(Ldcsctp_BB0_4-Ldcsctp_BB0_3)>>2
	.byte	(Ldcsctp_BB0_4-Ldcsctp_BB0_3)>>2
	.byte	(Ldcsctp_BB0_4-Ldcsctp_BB0_3)>>2
	.byte	(Ldcsctp_BB0_3-Ldcsctp_BB0_3)>>2
	.byte	(Ldcsctp_BB0_4-Ldcsctp_BB0_3)>>2
	.byte	(Ldcsctp_BB0_4-Ldcsctp_BB0_3)>>2
	.byte	(Ldcsctp_BB0_11-Ldcsctp_BB0_3)>>2
	.byte	(Ldcsctp_BB0_10-Ldcsctp_BB0_3)>>2
	.byte	(Ldcsctp_BB0_20-Ldcsctp_BB0_3)>>2
	.byte	(Ldcsctp_BB0_24-Ldcsctp_BB0_3)>>2
	.byte	(Ldcsctp_BB0_4-Ldcsctp_BB0_3)>>2
	.byte	(Ldcsctp_BB0_36-Ldcsctp_BB0_3)>>2
	.byte	(Ldcsctp_BB0_25-Ldcsctp_BB0_3)>>2
	.byte	(Ldcsctp_BB0_4-Ldcsctp_BB0_3)>>2
	.byte	(Ldcsctp_BB0_4-Ldcsctp_BB0_3)>>2
	.byte	(Ldcsctp_BB0_7-Ldcsctp_BB0_3)>>2
	.byte	(Ldcsctp_BB0_4-Ldcsctp_BB0_3)>>2
	.byte	(Ldcsctp_BB0_4-Ldcsctp_BB0_3)>>2
	.byte	(Ldcsctp_BB0_16-Ldcsctp_BB0_3)>>2
	.byte	(Ldcsctp_BB0_39-Ldcsctp_BB0_3)>>2
	.byte	(Ldcsctp_BB0_4-Ldcsctp_BB0_3)>>2
	.byte	(Ldcsctp_BB0_6-Ldcsctp_BB0_3)>>2
	.byte	(Ldcsctp_BB0_4-Ldcsctp_BB0_3)>>2
	.byte	(Ldcsctp_BB0_9-Ldcsctp_BB0_3)>>2
	.byte	(Ldcsctp_BB0_34-Ldcsctp_BB0_3)>>2
	.byte	(Ldcsctp_BB0_4-Ldcsctp_BB0_3)>>2
	.byte	(Ldcsctp_BB0_4-Ldcsctp_BB0_3)>>2
	.byte	(Ldcsctp_BB0_4-Ldcsctp_BB0_3)>>2
	.byte	(Ldcsctp_BB0_4-Ldcsctp_BB0_3)>>2
	.byte	(Ldcsctp_BB0_4-Ldcsctp_BB0_3)>>2
	.byte	(Ldcsctp_BB0_8-Ldcsctp_BB0_3)>>2
	.section	__TEXT,__text,regular,pure_instructions
	.p2align	2
_dcsctp_tlv.reader.list_check.a9faab4c914c0483:
	.cfi_startproc
	stp	x20, x19, [sp, #-32]!
	.cfi_def_cfa_offset 32
	stp	x29, x30, [sp, #16]
	add	x29, sp, #16
	.cfi_def_cfa w29, 16
	.cfi_offset w30, -8
	.cfi_offset w29, -16
	.cfi_offset w19, -24
	.cfi_offset w20, -32
	cbz	x2, Ldcsctp_BB1_30
	mov	x8, x1
	mov	x9, #0
	mov	x1, x2
	b	Ldcsctp_BB1_3
Ldcsctp_BB1_2:
	add	x8, x8, x10
	add	x9, x9, #1
	sub	x1, x1, x10
	cbz	x1, Ldcsctp_BB1_31
Ldcsctp_BB1_3:
	cmp	x1, #4
	b.lo	Ldcsctp_BB1_32
	ldrb	w11, [x8, #2]
	ldrb	w12, [x8, #3]
	orr	x10, x12, x11, lsl #8
	cmp	w10, #4
	ccmp	x1, x10, #0, hs
	b.lo	Ldcsctp_BB1_32
	mov	x15, x12
	bfi	x15, x11, #8, #8
	sub	x14, x15, #4
	add	w10, w15, #3
	and	x10, x10, #0x1fffc
	cmp	x1, x10
	csel	x10, x1, x10, lo
	ldrh	w13, [x8]
	rev16	w13, w13
	cmp	w13, #16
	b.gt	Ldcsctp_BB1_10
	cmp	w13, #14
	b.gt	Ldcsctp_BB1_14
	cmp	w13, #13
	b.eq	Ldcsctp_BB1_23
	cmp	w13, #14
	b.ne	Ldcsctp_BB1_25
	mov	x13, #0
	cmp	x14, #4
	b.hs	Ldcsctp_BB1_24
	b	Ldcsctp_BB1_34
Ldcsctp_BB1_10:
	cmp	w13, #8, lsl #12
	b.gt	Ldcsctp_BB1_19
	cmp	w13, #17
	b.eq	Ldcsctp_BB1_13
	cmp	w13, #18
	b.ne	Ldcsctp_BB1_25
Ldcsctp_BB1_13:
	mov	x13, #0
	cmp	x14, #8
	cset	w14, ne
	cbz	w14, Ldcsctp_BB1_25
	b	Ldcsctp_BB1_34
Ldcsctp_BB1_14:
	cmp	w13, #15
	b.eq	Ldcsctp_BB1_22
	cmp	w13, #16
	b.ne	Ldcsctp_BB1_25
	cmp	x15, #20
	b.eq	Ldcsctp_BB1_18
	cmp	w15, #12
	b.ne	Ldcsctp_BB1_33
Ldcsctp_BB1_18:
	ldr	w13, [x8, #8]
	rev	w13, w13
	cmp	w13, #6
	cset	w14, hi
	mov	w13, #3
	csel	x13, x13, xzr, hi
	cbz	w14, Ldcsctp_BB1_25
	b	Ldcsctp_BB1_34
Ldcsctp_BB1_19:
	mov	w15, #32769
	cmp	w13, w15
	b.eq	Ldcsctp_BB1_22
	cmp	w13, #12, lsl #12
	b.ne	Ldcsctp_BB1_25
	mov	x13, #0
	cmp	x14, #0
	cset	w14, ne
	cbz	w14, Ldcsctp_BB1_25
	b	Ldcsctp_BB1_34
Ldcsctp_BB1_22:
	mov	x13, #0
	cmp	x14, #4
	cset	w14, ne
	cbz	w14, Ldcsctp_BB1_25
	b	Ldcsctp_BB1_34
Ldcsctp_BB1_23:
	mov	x13, #0
	cmp	x14, #12
	b.lo	Ldcsctp_BB1_34
Ldcsctp_BB1_24:
	and	w14, w12, #0x1
	cbnz	w14, Ldcsctp_BB1_34
Ldcsctp_BB1_25:
	cbz	w3, Ldcsctp_BB1_2
	lsl	x11, x11, #8
	add	x11, x11, x12
Ldcsctp_BB1_27:
	cmp	x10, x11
	b.eq	Ldcsctp_BB1_2
	ldrb	w12, [x8, x11]
	add	x11, x11, #1
	cbz	w12, Ldcsctp_BB1_27
	sub	x19, x2, x1
	mov	x20, x0
	mov	x0, x8
	bl	_dcsctp_tlv.frame.padding_fault
	add	x8, x0, x19
	mov	w9, #1
	stp	x9, x8, [x20]
	mov	w8, #2
	str	x8, [x20, #16]
	b	Ldcsctp_BB1_35
Ldcsctp_BB1_30:
	mov	x9, #0
Ldcsctp_BB1_31:
	stp	xzr, x9, [x0]
	str	x9, [x0, #16]
	b	Ldcsctp_BB1_35
Ldcsctp_BB1_32:
	sub	x8, x2, x1
	mov	w9, #1
	stp	x9, x8, [x0]
	str	xzr, [x0, #16]
	b	Ldcsctp_BB1_35
Ldcsctp_BB1_33:
	mov	x13, #0
Ldcsctp_BB1_34:
	sub	x8, x2, x1
	mov	w9, #1
	stp	x9, x8, [x0]
	str	x13, [x0, #16]
Ldcsctp_BB1_35:
	.cfi_def_cfa wsp, 32
	ldp	x29, x30, [sp, #16]
	ldp	x20, x19, [sp], #32
	.cfi_def_cfa_offset 0
	.cfi_restore w30
	.cfi_restore w29
	.cfi_restore w19
	.cfi_restore w20
	ret
	.cfi_endproc
	.p2align	2
_dcsctp_tlv.reader.list_check.a6e1d811d2b3aa55:
	.cfi_startproc
	stp	x20, x19, [sp, #-32]!
	.cfi_def_cfa_offset 32
	stp	x29, x30, [sp, #16]
	add	x29, sp, #16
	.cfi_def_cfa w29, 16
	.cfi_offset w30, -8
	.cfi_offset w29, -16
	.cfi_offset w19, -24
	.cfi_offset w20, -32
	mov	x19, x0
	cbz	x2, Ldcsctp_BB2_29
	mov	x8, x1
	mov	x9, #0
	mov	x1, x2
	tbnz	w3, #0, Ldcsctp_BB2_3
	b	Ldcsctp_BB2_20
Ldcsctp_BB2_2:
	add	x9, x9, #1
	mov	x8, x13
	mov	x1, x12
	cbz	x12, Ldcsctp_BB2_30
Ldcsctp_BB2_3:
	cmp	x1, #4
	b.lo	Ldcsctp_BB2_28
	ldrb	w12, [x8, #2]
	ldrb	w10, [x8, #3]
	orr	w11, w10, w12, lsl #8
	cmp	w11, #4
	ccmp	x1, x11, #0, hs
	b.lo	Ldcsctp_BB2_28
	mov	x11, x10
	bfi	x11, x12, #8, #8
	sub	x13, x11, #4
	add	w11, w11, #3
	and	x11, x11, #0x1fffc
	cmp	x1, x11
	csel	x11, x1, x11, lo
	ldrh	w14, [x8]
	rev16	w14, w14
	cmp	w14, #10
	b.eq	Ldcsctp_BB2_11
	cmp	w14, #9
	b.eq	Ldcsctp_BB2_10
	cmp	w14, #2
	b.ne	Ldcsctp_BB2_13
	cmp	x13, #4
	b.lo	Ldcsctp_BB2_28
	ldr	w14, [x8, #4]
	rev	w14, w14
	ubfiz	x14, x14, #1, #32
	add	x14, x14, #4
	b	Ldcsctp_BB2_12
Ldcsctp_BB2_10:
	mov	w14, #4
	b	Ldcsctp_BB2_12
Ldcsctp_BB2_11:
	mov	x14, #0
Ldcsctp_BB2_12:
	cmp	x13, x14
	b.ne	Ldcsctp_BB2_28
Ldcsctp_BB2_13:
	lsl	x14, x12, #8
	add	x13, x8, x11
	sub	x12, x1, x11
	add	x10, x14, x10
Ldcsctp_BB2_14:
	cmp	x11, x10
	b.eq	Ldcsctp_BB2_2
	ldrb	w14, [x8, x10]
	add	x10, x10, #1
	cbz	w14, Ldcsctp_BB2_14
	sub	x20, x2, x1
	mov	x0, x8
	bl	_dcsctp_tlv.frame.padding_fault
	add	x8, x0, x20
	mov	w9, #1
	stp	x9, x8, [x19]
	mov	w8, #2
	str	x8, [x19, #16]
	b	Ldcsctp_BB2_31
Ldcsctp_BB2_17:
	mov	w12, #4
Ldcsctp_BB2_18:
	cmp	x11, x12
	b.ne	Ldcsctp_BB2_28
Ldcsctp_BB2_19:
	add	x8, x8, x10
	add	x9, x9, #1
	sub	x1, x1, x10
	cbz	x1, Ldcsctp_BB2_30
Ldcsctp_BB2_20:
	cmp	x1, #4
	b.lo	Ldcsctp_BB2_28
	ldrb	w10, [x8, #2]
	ldrb	w11, [x8, #3]
	orr	w12, w11, w10, lsl #8
	cmp	w12, #4
	ccmp	x1, x12, #0, hs
	b.lo	Ldcsctp_BB2_28
	orr	x10, x11, x10, lsl #8
	sub	x11, x10, #4
	add	w10, w10, #3
	and	x10, x10, #0x1fffc
	cmp	x1, x10
	csel	x10, x1, x10, lo
	ldrh	w12, [x8]
	rev16	w12, w12
	cmp	w12, #2
	b.eq	Ldcsctp_BB2_26
	cmp	w12, #9
	b.eq	Ldcsctp_BB2_17
	cmp	w12, #10
	b.ne	Ldcsctp_BB2_19
	mov	x12, #0
	b	Ldcsctp_BB2_18
Ldcsctp_BB2_26:
	cmp	x11, #4
	b.lo	Ldcsctp_BB2_28
	ldr	w12, [x8, #4]
	rev	w12, w12
	ubfiz	x12, x12, #1, #32
	add	x12, x12, #4
	b	Ldcsctp_BB2_18
Ldcsctp_BB2_28:
	sub	x8, x2, x1
	mov	w9, #1
	stp	x9, x8, [x19]
	str	xzr, [x19, #16]
	b	Ldcsctp_BB2_31
Ldcsctp_BB2_29:
	mov	x9, #0
Ldcsctp_BB2_30:
	stp	xzr, x9, [x19]
	str	x9, [x19, #16]
Ldcsctp_BB2_31:
	.cfi_def_cfa wsp, 32
	ldp	x29, x30, [sp, #16]
	ldp	x20, x19, [sp], #32
	.cfi_def_cfa_offset 0
	.cfi_restore w30
	.cfi_restore w29
	.cfi_restore w19
	.cfi_restore w20
	ret
	.cfi_endproc
	.p2align	2
_dcsctp_tlv.frame.padding_fault:
	.cfi_startproc
	ldrh	w8, [x0, #2]
	rev16	w8, w8
	add	w9, w8, #3
	and	x9, x9, #0x1fffc
	cmp	x1, x9
	csel	x9, x1, x9, lo
	subs	x10, x9, x8
	b.eq	Ldcsctp_BB3_6
	mov	x9, #0
	add	x11, x0, x8
Ldcsctp_BB3_2:
	ldrb	w12, [x11, x9]
	cbnz	w12, Ldcsctp_BB3_5
	add	x9, x9, #1
	cmp	x10, x9
	b.ne	Ldcsctp_BB3_2
	mov	x9, x10
Ldcsctp_BB3_5:
	add	x0, x9, x8
	ret
Ldcsctp_BB3_6:
	add	x0, xzr, x8
	ret
	.cfi_endproc
	.p2align	2
_dcsctp_tlv.parameter.parameters_fill:
	.cfi_startproc
	cbz	x2, Ldcsctp_BB4_8
	sub	sp, sp, #128
	.cfi_def_cfa_offset 128
	stp	d9, d8, [sp, #16]
	stp	x28, x27, [sp, #32]
	stp	x26, x25, [sp, #48]
	stp	x24, x23, [sp, #64]
	stp	x22, x21, [sp, #80]
	stp	x20, x19, [sp, #96]
	stp	x29, x30, [sp, #112]
	add	x29, sp, #112
	.cfi_def_cfa w29, 16
	.cfi_offset w30, -8
	.cfi_offset w29, -16
	.cfi_offset w19, -24
	.cfi_offset w20, -32
	.cfi_offset w21, -40
	.cfi_offset w22, -48
	.cfi_offset w23, -56
	.cfi_offset w24, -64
	.cfi_offset w25, -72
	.cfi_offset w26, -80
	.cfi_offset w27, -88
	.cfi_offset w28, -96
	.cfi_offset b8, -104
	.cfi_offset b9, -112
	.cfi_remember_state
	mov	x19, x2
	mov	x20, x1
	mov	x21, x0
	mov	x8, #0
	mov	x9, x2
	mov	x10, x1
Ldcsctp_BB4_2:
	ldrh	w11, [x10, #2]
	rev16	w11, w11
	add	w11, w11, #3
	and	x11, x11, #0x1fffc
	cmp	x9, x11
	csel	x11, x9, x11, lo
	add	x10, x10, x11
	add	x8, x8, #1
	subs	x9, x9, x11
	b.ne	Ldcsctp_BB4_2
	ldp	x9, x10, [x21, #8]
	sub	x11, x10, x9
	cmp	x8, x11
	b.ls	Ldcsctp_BB4_14
	cmn	x9, x8
	b.hs	Ldcsctp_BB4_104
	mov	x11, #-6148914691236517206
	movk	x11, #682, lsl #48
	add	x22, x9, x8
	cmp	x22, x11
	b.hi	Ldcsctp_BB4_104
	add	x8, x22, x22, lsl #1
	cbz	x10, Ldcsctp_BB4_9
	ldr	x0, [x21]
	add	x9, x9, x9, lsl #1
	lsl	x1, x9, #4
	lsl	x2, x8, #4
	mov	w3, #8
	bl	_rattle_realloc
	tbz	w0, #0, Ldcsctp_BB4_104
	b	Ldcsctp_BB4_10
Ldcsctp_BB4_8:
	.cfi_def_cfa wsp, 0
	.cfi_same_value w30
	.cfi_same_value w29
	.cfi_same_value w19
	.cfi_same_value w20
	.cfi_same_value w21
	.cfi_same_value w22
	.cfi_same_value w23
	.cfi_same_value w24
	.cfi_same_value w25
	.cfi_same_value w26
	.cfi_same_value w27
	.cfi_same_value w28
	.cfi_same_value b8
	.cfi_same_value b9
	mov	w0, #0
	ret
Ldcsctp_BB4_9:
	.cfi_restore_state
	lsl	x0, x8, #4
	mov	w1, #8
	bl	_rattle_alloc
	tbz	w0, #0, Ldcsctp_BB4_104
Ldcsctp_BB4_10:
	str	x1, [x21]
	str	x22, [x21, #16]
	b	Ldcsctp_BB4_14
Ldcsctp_BB4_11:
	ldr	w8, [x20, #4]
	rev	w8, w8
	ldrh	w9, [x20, #8]
	rev	w9, w9
	lsr	w9, w9, #16
	ldp	x11, x10, [x21]
	mov	w12, #48
	madd	x11, x10, x12, x11
	mov	w12, #6
Ldcsctp_BB4_12:
	strb	w12, [x11]
	str	w8, [x11, #4]
	strh	w9, [x11, #8]
	add	x8, x10, #1
	movi	v0.2d, #0000000000000000
	stur	q0, [x11, #26]
	str	xzr, [x11, #40]
	stur	q0, [x11, #10]
Ldcsctp_BB4_13:
	str	x8, [x21, #8]
	add	x20, x20, x24
	sub	x19, x19, x24
	cbz	x19, Ldcsctp_BB4_105
Ldcsctp_BB4_14:
	ldrb	w27, [x20, #2]
	ldrb	w28, [x20, #3]
	mov	x8, x28
	bfi	x8, x27, #8, #8
	add	x25, x20, #4
	sub	x22, x8, #4
	add	w9, w8, #3
	and	x9, x9, #0x1fffc
	cmp	x19, x9
	csel	x24, x19, x9, lo
	ldrh	w9, [x20]
	rev16	w26, w9
	cmp	w26, #16
	b.gt	Ldcsctp_BB4_27
	cmp	w26, #14
	b.gt	Ldcsctp_BB4_31
	cmp	w26, #13
	b.eq	Ldcsctp_BB4_39
	cmp	w26, #14
	b.ne	Ldcsctp_BB4_51
	sub	x23, x8, #8
	lsr	x22, x23, #1
	cbz	x22, Ldcsctp_BB4_62
	cmp	x8, #8
	b.lo	Ldcsctp_BB4_104
	and	x0, x23, #0x7ffffffffffffffe
	mov	w1, #2
	bl	_rattle_alloc
	tbz	w0, #0, Ldcsctp_BB4_104
	cmp	x23, #16
	b.lo	Ldcsctp_BB4_24
	and	x8, x23, #0xfffffffffffffffe
	add	x9, x20, x8
	add	x9, x9, #8
	cmp	x9, x1
	b.ls	Ldcsctp_BB4_79
	add	x9, x20, #8
	add	x8, x1, x8
	cmp	x9, x8
	b.hs	Ldcsctp_BB4_79
Ldcsctp_BB4_24:
	mov	x8, #0
Ldcsctp_BB4_25:
	sub	x9, x22, x8
	lsl	x10, x8, #1
	add	x8, x1, x10
	add	x10, x20, x10
	add	x10, x10, #9
Ldcsctp_BB4_26:
	ldurh	w11, [x10, #-1]
	rev	w11, w11
	lsr	w11, w11, #16
	strh	w11, [x8], #2
	add	x10, x10, #2
	subs	x9, x9, #1
	b.ne	Ldcsctp_BB4_26
	b	Ldcsctp_BB4_63
Ldcsctp_BB4_27:
	cmp	w26, #8, lsl #12
	b.gt	Ldcsctp_BB4_36
	cmp	w26, #17
	b.eq	Ldcsctp_BB4_11
	cmp	w26, #18
	b.ne	Ldcsctp_BB4_51
	ldr	w8, [x20, #4]
	rev	w8, w8
	ldrh	w9, [x20, #8]
	rev	w9, w9
	lsr	w9, w9, #16
	ldp	x11, x10, [x21]
	mov	w12, #48
	madd	x11, x10, x12, x11
	mov	w12, #7
	b	Ldcsctp_BB4_12
Ldcsctp_BB4_31:
	cmp	w26, #15
	b.eq	Ldcsctp_BB4_48
	cmp	w26, #16
	b.ne	Ldcsctp_BB4_51
	movi	v0.2d, #0000000000000000
	cmp	x22, #8
	b.eq	Ldcsctp_BB4_35
	ldur	d0, [x20, #12]
	rev32	v0.8b, v0.8b
	zip1	v0.4s, v0.4s, v0.4s
	movi	v1.4s, #1
	trn1	v0.4s, v1.4s, v0.4s
Ldcsctp_BB4_35:
	ldp	w8, w9, [x20, #4]
	rev	w9, w9
	mov	w10, #6
	cmp	w9, #6
	csel	w9, w9, w10, lo
	rev	w8, w8
	ldp	x11, x10, [x21]
	mov	w12, #48
	madd	x11, x10, x12, x11
	mov	w12, #5
	strb	w12, [x11]
	str	w8, [x11, #4]
	strb	w9, [x11, #8]
	sturh	wzr, [x11, #9]
	strb	wzr, [x11, #11]
	stur	q0, [x11, #12]
	stur	xzr, [x11, #36]
	stur	xzr, [x11, #28]
	str	wzr, [x11, #44]
	add	x8, x10, #1
	b	Ldcsctp_BB4_13
Ldcsctp_BB4_36:
	mov	w9, #32769
	cmp	w26, w9
	b.eq	Ldcsctp_BB4_49
	cmp	w26, #12, lsl #12
	b.ne	Ldcsctp_BB4_51
	ldp	x9, x8, [x21]
	mov	w10, #48
	madd	x9, x8, x10, x9
	mov	w10, #10
	strb	w10, [x9]
	movi	v0.2d, #0000000000000000
	stur	q0, [x9, #4]
	stur	q0, [x9, #20]
	str	q0, [x9, #32]
	b	Ldcsctp_BB4_76
Ldcsctp_BB4_39:
	ldur	d8, [x20, #4]
	ldr	w23, [x20, #12]
	sub	x25, x8, #16
	lsr	x22, x25, #1
	cbz	x22, Ldcsctp_BB4_60
	cmp	x8, #16
	b.lo	Ldcsctp_BB4_104
	and	x0, x25, #0x7ffffffffffffffe
	mov	w1, #2
	bl	_rattle_alloc
	tbz	w0, #0, Ldcsctp_BB4_104
	cmp	x25, #16
	b.lo	Ldcsctp_BB4_45
	and	x8, x25, #0xfffffffffffffffe
	add	x9, x20, x8
	add	x9, x9, #16
	cmp	x9, x1
	b.ls	Ldcsctp_BB4_77
	add	x9, x20, #16
	add	x8, x1, x8
	cmp	x9, x8
	b.hs	Ldcsctp_BB4_77
Ldcsctp_BB4_45:
	mov	x8, #0
Ldcsctp_BB4_46:
	sub	x9, x22, x8
	lsl	x10, x8, #1
	add	x8, x1, x10
	add	x10, x20, x10
	add	x10, x10, #17
Ldcsctp_BB4_47:
	ldurh	w11, [x10, #-1]
	rev	w11, w11
	lsr	w11, w11, #16
	strh	w11, [x8], #2
	add	x10, x10, #2
	subs	x9, x9, #1
	b.ne	Ldcsctp_BB4_47
	b	Ldcsctp_BB4_61
Ldcsctp_BB4_48:
	ldr	w8, [x25]
	rev	w8, w8
	ldp	x10, x9, [x21]
	mov	w11, #48
	madd	x10, x9, x11, x10
	mov	w11, #4
	b	Ldcsctp_BB4_50
Ldcsctp_BB4_49:
	ldr	w8, [x25]
	rev	w8, w8
	ldp	x10, x9, [x21]
	mov	w11, #48
	madd	x10, x9, x11, x10
	mov	w11, #8
Ldcsctp_BB4_50:
	strb	w11, [x10]
	str	w8, [x10, #4]
	movi	v0.2d, #0000000000000000
	stur	q0, [x10, #8]
	stur	q0, [x10, #24]
	b	Ldcsctp_BB4_64
Ldcsctp_BB4_51:
	cbz	x22, Ldcsctp_BB4_65
	cmp	x8, #4
	b.lo	Ldcsctp_BB4_104
	mov	x0, x22
	mov	w1, #1
	bl	_rattle_alloc
	tbz	w0, #0, Ldcsctp_BB4_104
	mov	x23, x1
	sub	x8, x1, x25
	cmp	x8, x22
	b.hs	Ldcsctp_BB4_66
Ldcsctp_BB4_55:
	lsl	x8, x27, #8
	add	x8, x8, x28
	sub	x9, x8, #4
	cmp	x9, #8
	b.lo	Ldcsctp_BB4_57
	sub	x10, x23, x20
	sub	x10, x10, #4
	cmp	x10, #64
	b.hs	Ldcsctp_BB4_81
Ldcsctp_BB4_57:
	mov	x10, #0
Ldcsctp_BB4_58:
	sub	x8, x8, x10
	sub	x8, x8, #4
	add	x9, x20, x10
	add	x9, x9, #4
	add	x10, x23, x10
Ldcsctp_BB4_59:
	ldrb	w11, [x9], #1
	strb	w11, [x10], #1
	subs	x8, x8, #1
	b.ne	Ldcsctp_BB4_59
	b	Ldcsctp_BB4_67
Ldcsctp_BB4_60:
	add	x1, sp, #14
Ldcsctp_BB4_61:
	rev32	v0.8b, v8.8b
	rev	w8, w23
	ldp	x10, x9, [x21]
	mov	w11, #48
	madd	x10, x9, x11, x10
	mov	w11, #2
	strb	w11, [x10]
	str	wzr, [x10, #4]
	str	d0, [x10, #8]
	stp	w8, wzr, [x10, #16]
	stp	x1, x22, [x10, #24]
	str	x22, [x10, #40]
	add	x8, x9, #1
	b	Ldcsctp_BB4_13
Ldcsctp_BB4_62:
	add	x1, sp, #14
Ldcsctp_BB4_63:
	ldr	w8, [x25]
	rev	w8, w8
	ldp	x10, x9, [x21]
	mov	w11, #48
	madd	x10, x9, x11, x10
	mov	w11, #3
	strb	w11, [x10]
	stp	wzr, w8, [x10, #4]
	str	wzr, [x10, #12]
	stp	x1, x22, [x10, #16]
	str	x22, [x10, #32]
Ldcsctp_BB4_64:
	str	xzr, [x10, #40]
	add	x8, x9, #1
	b	Ldcsctp_BB4_13
Ldcsctp_BB4_65:
	add	x23, sp, #14
	sub	x8, x23, x25
	cmp	x8, x22
	b.lo	Ldcsctp_BB4_55
Ldcsctp_BB4_66:
	add	x1, x20, #4
	mov	x0, x23
	mov	x2, x22
	bl	_memmove
Ldcsctp_BB4_67:
	ldp	x9, x8, [x21]
	mov	w10, #48
	madd	x9, x8, x10, x9
	mov	w10, #32776
	cmp	w26, w10
	b.eq	Ldcsctp_BB4_72
	cmp	w26, #7
	b.eq	Ldcsctp_BB4_71
	cmp	w26, #1
	b.ne	Ldcsctp_BB4_75
	strb	wzr, [x9]
	b	Ldcsctp_BB4_74
Ldcsctp_BB4_71:
	mov	w10, #1
	b	Ldcsctp_BB4_73
Ldcsctp_BB4_72:
	mov	w10, #9
Ldcsctp_BB4_73:
	strb	w10, [x9]
Ldcsctp_BB4_74:
	str	wzr, [x9, #4]
	stp	x23, x22, [x9, #8]
	stp	xzr, xzr, [x9, #32]
	str	x22, [x9, #24]
	b	Ldcsctp_BB4_76
Ldcsctp_BB4_75:
	mov	w10, #11
	strb	w10, [x9]
	str	wzr, [x9, #4]
	strh	w26, [x9, #8]
	stur	wzr, [x9, #10]
	strh	wzr, [x9, #14]
	stp	x23, x22, [x9, #16]
	stp	x22, xzr, [x9, #32]
Ldcsctp_BB4_76:
	add	x8, x8, #1
	b	Ldcsctp_BB4_13
Ldcsctp_BB4_77:
	cmp	x25, #128
	b.hs	Ldcsctp_BB4_83
	mov	x8, #0
	b	Ldcsctp_BB4_87
Ldcsctp_BB4_79:
	cmp	x23, #128
	b.hs	Ldcsctp_BB4_90
	mov	x8, #0
	b	Ldcsctp_BB4_94
Ldcsctp_BB4_81:
	cmp	x9, #64
	b.hs	Ldcsctp_BB4_97
	mov	x10, #0
	b	Ldcsctp_BB4_101
Ldcsctp_BB4_83:
	and	x8, x22, #0x7fffffffffffffc0
	add	x9, x20, #80
	add	x10, x1, #64
	and	x11, x22, #0x7fffffffffffffc0
Ldcsctp_BB4_84:
	sub	x12, x9, #64
	ld2	{ v0.16b, v1.16b }, [x12]
	sub	x12, x9, #32
	ld2	{ v2.16b, v3.16b }, [x12]
	mov	x12, x9
	ld2	{ v4.16b, v5.16b }, [x12], #32
	ld2	{ v6.16b, v7.16b }, [x12]
	shll2	v16.8h, v0.16b, #8
	shll	v17.8h, v0.8b, #8
	shll2	v18.8h, v2.16b, #8
	shll	v19.8h, v2.8b, #8
	shll2	v20.8h, v4.16b, #8
	shll	v21.8h, v4.8b, #8
	shll2	v22.8h, v6.16b, #8
	shll	v23.8h, v6.8b, #8
	ushll2	v24.8h, v1.16b, #0
	ushll	v0.8h, v1.8b, #0
	ushll2	v1.8h, v3.16b, #0
	ushll	v2.8h, v3.8b, #0
	ushll2	v3.8h, v5.16b, #0
	ushll	v4.8h, v5.8b, #0
	ushll2	v5.8h, v7.16b, #0
	orr	v0.16b, v17.16b, v0.16b
	orr	v16.16b, v16.16b, v24.16b
	stp	q0, q16, [x10, #-64]
	ushll	v0.8h, v7.8b, #0
	orr	v2.16b, v19.16b, v2.16b
	orr	v1.16b, v18.16b, v1.16b
	orr	v4.16b, v21.16b, v4.16b
	orr	v3.16b, v20.16b, v3.16b
	orr	v0.16b, v23.16b, v0.16b
	stp	q2, q1, [x10, #-32]
	stp	q4, q3, [x10]
	orr	v1.16b, v22.16b, v5.16b
	stp	q0, q1, [x10, #32]
	add	x9, x9, #128
	add	x10, x10, #128
	subs	x11, x11, #64
	b.ne	Ldcsctp_BB4_84
	cmp	x22, x8
	b.eq	Ldcsctp_BB4_61
	tst	x25, #0x70
	b.eq	Ldcsctp_BB4_46
Ldcsctp_BB4_87:
	mov	x10, x8
	and	x8, x22, #0x7ffffffffffffff8
	sub	x9, x10, x8
	lsl	x11, x10, #1
	add	x10, x1, x11
	add	x11, x20, x11
	add	x11, x11, #16
Ldcsctp_BB4_88:
	ld2	{ v0.8b, v1.8b }, [x11], #16
	shll	v2.8h, v0.8b, #8
	ushll	v0.8h, v1.8b, #0
	orr	v0.16b, v2.16b, v0.16b
	str	q0, [x10], #16
	adds	x9, x9, #8
	b.ne	Ldcsctp_BB4_88
	cmp	x22, x8
	b.eq	Ldcsctp_BB4_61
	b	Ldcsctp_BB4_46
Ldcsctp_BB4_90:
	and	x8, x22, #0x7fffffffffffffc0
	add	x9, x20, #72
	add	x10, x1, #64
	and	x11, x22, #0x7fffffffffffffc0
Ldcsctp_BB4_91:
	sub	x12, x9, #64
	ld2	{ v0.16b, v1.16b }, [x12]
	sub	x12, x9, #32
	ld2	{ v2.16b, v3.16b }, [x12]
	mov	x12, x9
	ld2	{ v4.16b, v5.16b }, [x12], #32
	ld2	{ v6.16b, v7.16b }, [x12]
	shll2	v16.8h, v0.16b, #8
	shll	v17.8h, v0.8b, #8
	shll2	v18.8h, v2.16b, #8
	shll	v19.8h, v2.8b, #8
	shll2	v20.8h, v4.16b, #8
	shll	v21.8h, v4.8b, #8
	shll2	v22.8h, v6.16b, #8
	shll	v23.8h, v6.8b, #8
	ushll2	v24.8h, v1.16b, #0
	ushll	v0.8h, v1.8b, #0
	ushll2	v1.8h, v3.16b, #0
	ushll	v2.8h, v3.8b, #0
	ushll2	v3.8h, v5.16b, #0
	ushll	v4.8h, v5.8b, #0
	ushll2	v5.8h, v7.16b, #0
	orr	v0.16b, v17.16b, v0.16b
	orr	v16.16b, v16.16b, v24.16b
	stp	q0, q16, [x10, #-64]
	ushll	v0.8h, v7.8b, #0
	orr	v2.16b, v19.16b, v2.16b
	orr	v1.16b, v18.16b, v1.16b
	orr	v4.16b, v21.16b, v4.16b
	orr	v3.16b, v20.16b, v3.16b
	orr	v0.16b, v23.16b, v0.16b
	stp	q2, q1, [x10, #-32]
	stp	q4, q3, [x10]
	orr	v1.16b, v22.16b, v5.16b
	stp	q0, q1, [x10, #32]
	add	x9, x9, #128
	add	x10, x10, #128
	subs	x11, x11, #64
	b.ne	Ldcsctp_BB4_91
	cmp	x22, x8
	b.eq	Ldcsctp_BB4_63
	tst	x23, #0x70
	b.eq	Ldcsctp_BB4_25
Ldcsctp_BB4_94:
	mov	x10, x8
	and	x8, x22, #0x7ffffffffffffff8
	sub	x9, x10, x8
	lsl	x11, x10, #1
	add	x10, x1, x11
	add	x11, x20, x11
	add	x11, x11, #8
Ldcsctp_BB4_95:
	ld2	{ v0.8b, v1.8b }, [x11], #16
	shll	v2.8h, v0.8b, #8
	ushll	v0.8h, v1.8b, #0
	orr	v0.16b, v2.16b, v0.16b
	str	q0, [x10], #16
	adds	x9, x9, #8
	b.ne	Ldcsctp_BB4_95
	cmp	x22, x8
	b.eq	Ldcsctp_BB4_63
	b	Ldcsctp_BB4_25
Ldcsctp_BB4_97:
	and	x11, x9, #0x38
	and	x10, x9, #0xffffffffffffffc0
	add	x12, x23, #32
	add	x13, x20, #36
	and	x14, x9, #0xffffffffffffffc0
Ldcsctp_BB4_98:
	ldp	q0, q1, [x13, #-32]
	ldp	q2, q3, [x13], #64
	stp	q0, q1, [x12, #-32]
	stp	q2, q3, [x12], #64
	subs	x14, x14, #64
	b.ne	Ldcsctp_BB4_98
	cmp	x9, x10
	b.eq	Ldcsctp_BB4_67
	cbz	x11, Ldcsctp_BB4_58
Ldcsctp_BB4_101:
	mov	x13, x10
	and	x10, x9, #0xfffffffffffffff8
	sub	x11, x13, x10
	add	x12, x20, x13
	add	x12, x12, #4
	add	x13, x23, x13
Ldcsctp_BB4_102:
	ldr	d0, [x12], #8
	str	d0, [x13], #8
	adds	x11, x11, #8
	b.ne	Ldcsctp_BB4_102
	cmp	x9, x10
	b.eq	Ldcsctp_BB4_67
	b	Ldcsctp_BB4_58
Ldcsctp_BB4_104:
	mov	w0, #1
	b	Ldcsctp_BB4_106
Ldcsctp_BB4_105:
	mov	w0, #0
Ldcsctp_BB4_106:
	.cfi_def_cfa wsp, 128
	ldp	x29, x30, [sp, #112]
	ldp	x20, x19, [sp, #96]
	ldp	x22, x21, [sp, #80]
	ldp	x24, x23, [sp, #64]
	ldp	x26, x25, [sp, #48]
	ldp	x28, x27, [sp, #32]
	ldp	d9, d8, [sp, #16]
	add	sp, sp, #128
	.cfi_def_cfa_offset 0
	.cfi_restore w30
	.cfi_restore w29
	.cfi_restore w19
	.cfi_restore w20
	.cfi_restore w21
	.cfi_restore w22
	.cfi_restore w23
	.cfi_restore w24
	.cfi_restore w25
	.cfi_restore w26
	.cfi_restore w27
	.cfi_restore w28
	.cfi_restore b8
	.cfi_restore b9
	ret
	.cfi_endproc
	.p2align	2
_dcsctp_cause.error_causes.error_cause_fill:
	.cfi_startproc
	cbz	x2, Ldcsctp_BB5_8
	sub	sp, sp, #128
	.cfi_def_cfa_offset 128
	stp	x28, x27, [sp, #32]
	stp	x26, x25, [sp, #48]
	stp	x24, x23, [sp, #64]
	stp	x22, x21, [sp, #80]
	stp	x20, x19, [sp, #96]
	stp	x29, x30, [sp, #112]
	add	x29, sp, #112
	.cfi_def_cfa w29, 16
	.cfi_offset w30, -8
	.cfi_offset w29, -16
	.cfi_offset w19, -24
	.cfi_offset w20, -32
	.cfi_offset w21, -40
	.cfi_offset w22, -48
	.cfi_offset w23, -56
	.cfi_offset w24, -64
	.cfi_offset w25, -72
	.cfi_offset w26, -80
	.cfi_offset w27, -88
	.cfi_offset w28, -96
	.cfi_remember_state
	mov	x19, x2
	mov	x20, x1
	mov	x21, x0
	mov	x8, #0
	mov	x9, x2
	mov	x10, x1
Ldcsctp_BB5_2:
	ldrh	w11, [x10, #2]
	rev16	w11, w11
	add	w11, w11, #3
	and	x11, x11, #0x1fffc
	cmp	x9, x11
	csel	x11, x9, x11, lo
	add	x10, x10, x11
	add	x8, x8, #1
	subs	x9, x9, x11
	b.ne	Ldcsctp_BB5_2
	ldp	x9, x10, [x21, #8]
	sub	x11, x10, x9
	cmp	x8, x11
	b.ls	Ldcsctp_BB5_16
	cmn	x9, x8
	b.hs	Ldcsctp_BB5_103
	mov	x11, #3689348814741910323
	movk	x11, #819, lsl #48
	add	x22, x9, x8
	cmp	x22, x11
	b.hi	Ldcsctp_BB5_103
	add	x8, x22, x22, lsl #2
	cbz	x10, Ldcsctp_BB5_9
	ldr	x0, [x21]
	add	x9, x9, x9, lsl #2
	lsl	x1, x9, #3
	lsl	x2, x8, #3
	mov	w3, #8
	bl	_rattle_realloc
	tbz	w0, #0, Ldcsctp_BB5_103
	b	Ldcsctp_BB5_10
Ldcsctp_BB5_8:
	.cfi_def_cfa wsp, 0
	.cfi_same_value w30
	.cfi_same_value w29
	.cfi_same_value w19
	.cfi_same_value w20
	.cfi_same_value w21
	.cfi_same_value w22
	.cfi_same_value w23
	.cfi_same_value w24
	.cfi_same_value w25
	.cfi_same_value w26
	.cfi_same_value w27
	.cfi_same_value w28
	mov	w0, #0
	ret
Ldcsctp_BB5_9:
	.cfi_restore_state
	.cfi_remember_state
	lsl	x0, x8, #3
	mov	w1, #8
	bl	_rattle_alloc
	tbz	w0, #0, Ldcsctp_BB5_103
Ldcsctp_BB5_10:
	str	x1, [x21]
	str	x22, [x21, #16]
	b	Ldcsctp_BB5_16
Ldcsctp_BB5_11:
	mov	x0, x23
	mov	x1, x24
	mov	x2, x22
	bl	_memmove
Ldcsctp_BB5_12:
	ldp	x9, x8, [x21]
	mov	w10, #40
	madd	x9, x8, x10, x9
	mov	w10, #4
Ldcsctp_BB5_13:
	strb	w10, [x9]
	str	wzr, [x9, #4]
	stp	x23, x22, [x9, #8]
	stp	x22, xzr, [x9, #24]
Ldcsctp_BB5_14:
	add	x8, x8, #1
Ldcsctp_BB5_15:
	str	x8, [x21, #8]
	add	x20, x20, x25
	sub	x19, x19, x25
	cbz	x19, Ldcsctp_BB5_104
Ldcsctp_BB5_16:
	ldrb	w26, [x20, #2]
	ldrb	w27, [x20, #3]
	mov	x8, x27
	bfi	x8, x26, #8, #8
	add	x28, x20, #4
	sub	x22, x8, #4
	add	w9, w8, #3
	and	x9, x9, #0x1fffc
	cmp	x19, x9
	csel	x25, x19, x9, lo
	ldrh	w9, [x20]
	rev16	w24, w9
	cmp	w24, #9
	b.le	Ldcsctp_BB5_28
	cmp	w24, #10
	b.eq	Ldcsctp_BB5_31
	cmp	w24, #12
	b.eq	Ldcsctp_BB5_32
	cmp	w24, #13
	b.ne	Ldcsctp_BB5_42
	stp	xzr, xzr, [sp]
	str	xzr, [sp, #16]
	mov	x0, sp
	add	x1, x20, #4
	mov	x2, x22
	bl	_core.str.utf8.from_utf8
	ldrb	w8, [sp]
	ldp	x9, x10, [sp, #8]
Ldcsctp_loh2:
	adrp	x11, l_static.1@PAGE
Ldcsctp_loh3:
	add	x11, x11, l_static.1@PAGEOFF
	cmp	w8, #0
	csel	x24, x9, x11, eq
	mov	w8, #38
	csel	x22, x10, x8, eq
	cbz	x22, Ldcsctp_BB5_61
	tbnz	x22, #63, Ldcsctp_BB5_103
	mov	w26, #1
	mov	x0, x22
	mov	w1, #1
	bl	_rattle_alloc
	tbz	w0, #0, Ldcsctp_BB5_106
	mov	x23, x1
	sub	x9, x1, x24
	cmp	x9, x22
	b.hs	Ldcsctp_BB5_62
Ldcsctp_BB5_24:
	mov	x8, #0
	cmp	x22, #8
	b.lo	Ldcsctp_BB5_84
	cmp	x9, #64
	b.lo	Ldcsctp_BB5_84
	cmp	x22, #64
	b.hs	Ldcsctp_BB5_77
	mov	x8, #0
	b	Ldcsctp_BB5_81
Ldcsctp_BB5_28:
	cmp	w24, #2
	b.eq	Ldcsctp_BB5_36
	cmp	w24, #9
	b.ne	Ldcsctp_BB5_42
	ldr	w8, [x28]
	rev	w8, w8
	ldp	x10, x9, [x21]
	mov	w11, #40
	madd	x10, x9, x11, x10
	mov	w11, #2
	strb	w11, [x10]
	str	w8, [x10, #4]
	movi	v0.2d, #0000000000000000
	stur	q0, [x10, #8]
	stur	q0, [x10, #24]
	add	x8, x9, #1
	b	Ldcsctp_BB5_15
Ldcsctp_BB5_31:
	ldp	x9, x8, [x21]
	mov	w10, #40
	madd	x9, x8, x10, x9
	mov	w10, #3
	strb	w10, [x9]
	add	x8, x8, #1
	movi	v0.2d, #0000000000000000
	stur	q0, [x9, #4]
	stur	q0, [x9, #20]
	str	wzr, [x9, #36]
	b	Ldcsctp_BB5_15
Ldcsctp_BB5_32:
	stp	xzr, xzr, [sp]
	str	xzr, [sp, #16]
	mov	x0, sp
	add	x1, x20, #4
	mov	x2, x22
	bl	_core.str.utf8.from_utf8
	ldrb	w8, [sp]
	ldp	x9, x10, [sp, #8]
Ldcsctp_loh4:
	adrp	x11, l_static.0@PAGE
Ldcsctp_loh5:
	add	x11, x11, l_static.0@PAGEOFF
	cmp	w8, #0
	csel	x24, x9, x11, eq
	mov	w8, #28
	csel	x22, x10, x8, eq
	cbz	x22, Ldcsctp_BB5_54
	tbnz	x22, #63, Ldcsctp_BB5_103
	mov	x0, x22
	mov	w1, #1
	bl	_rattle_alloc
	tbz	w0, #0, Ldcsctp_BB5_103
	mov	x23, x1
	sub	x9, x1, x24
	cmp	x9, x22
	b.hs	Ldcsctp_BB5_11
	b	Ldcsctp_BB5_55
Ldcsctp_BB5_36:
	ldr	w8, [x20, #4]
	rev	w23, w8
	cbz	w8, Ldcsctp_BB5_59
	lsl	x22, x23, #1
	mov	x0, x22
	mov	w1, #2
	bl	_rattle_alloc
	tbz	w0, #0, Ldcsctp_BB5_103
	cmp	w23, #8
	b.lo	Ldcsctp_BB5_51
	add	x8, x20, #8
	add	x9, x1, x22
	add	x10, x20, x22
	add	x10, x10, #8
	cmp	x10, x1
	ccmp	x8, x9, #2, hi
	b.lo	Ldcsctp_BB5_51
	cmp	w23, #64
	b.hs	Ldcsctp_BB5_89
	mov	x8, #0
	b	Ldcsctp_BB5_93
Ldcsctp_BB5_42:
	cbz	x22, Ldcsctp_BB5_63
	cmp	x8, #4
	b.lo	Ldcsctp_BB5_103
	mov	x0, x22
	mov	w1, #1
	bl	_rattle_alloc
	tbz	w0, #0, Ldcsctp_BB5_107
	mov	x23, x1
	sub	x8, x1, x28
	cmp	x8, x22
	b.hs	Ldcsctp_BB5_64
Ldcsctp_BB5_46:
	lsl	x8, x26, #8
	add	x8, x8, x27
	sub	x9, x8, #4
	cmp	x9, #8
	b.lo	Ldcsctp_BB5_48
	sub	x10, x23, x20
	sub	x10, x10, #4
	cmp	x10, #64
	b.hs	Ldcsctp_BB5_87
Ldcsctp_BB5_48:
	mov	x10, #0
Ldcsctp_BB5_49:
	sub	x8, x8, x10
	sub	x8, x8, #4
	add	x9, x20, x10
	add	x9, x9, #4
	add	x10, x23, x10
Ldcsctp_BB5_50:
	ldrb	w11, [x9], #1
	strb	w11, [x10], #1
	subs	x8, x8, #1
	b.ne	Ldcsctp_BB5_50
	b	Ldcsctp_BB5_65
Ldcsctp_BB5_51:
	mov	x8, #0
Ldcsctp_BB5_52:
	sub	x9, x23, x8
	lsl	x10, x8, #1
	add	x8, x1, x10
	add	x10, x20, x10
	add	x10, x10, #9
Ldcsctp_BB5_53:
	ldurh	w11, [x10, #-1]
	rev	w11, w11
	lsr	w11, w11, #16
	strh	w11, [x8], #2
	add	x10, x10, #2
	subs	x9, x9, #1
	b.ne	Ldcsctp_BB5_53
	b	Ldcsctp_BB5_60
Ldcsctp_BB5_54:
	add	x23, sp, #30
	sub	x9, x23, x24
	cmp	x9, x22
	b.hs	Ldcsctp_BB5_11
Ldcsctp_BB5_55:
	mov	x8, #0
	cmp	x22, #8
	b.lo	Ldcsctp_BB5_75
	cmp	x9, #64
	b.lo	Ldcsctp_BB5_75
	cmp	x22, #64
	b.hs	Ldcsctp_BB5_68
	mov	x8, #0
	b	Ldcsctp_BB5_72
Ldcsctp_BB5_59:
	add	x1, sp, #30
Ldcsctp_BB5_60:
	ldp	x9, x8, [x21]
	mov	w10, #40
	madd	x9, x8, x10, x9
	strb	wzr, [x9]
	str	wzr, [x9, #4]
	stp	x1, x23, [x9, #8]
	stp	x23, xzr, [x9, #24]
	b	Ldcsctp_BB5_14
Ldcsctp_BB5_61:
	add	x23, sp, #30
	sub	x9, x23, x24
	cmp	x9, x22
	b.lo	Ldcsctp_BB5_24
Ldcsctp_BB5_62:
	mov	x0, x23
	mov	x1, x24
	mov	x2, x22
	bl	_memmove
	b	Ldcsctp_BB5_86
Ldcsctp_BB5_63:
	add	x23, sp, #30
	sub	x8, x23, x28
	cmp	x8, x22
	b.lo	Ldcsctp_BB5_46
Ldcsctp_BB5_64:
	add	x1, x20, #4
	mov	x0, x23
	mov	x2, x22
	bl	_memmove
Ldcsctp_BB5_65:
	ldp	x9, x8, [x21]
	mov	w10, #40
	madd	x9, x8, x10, x9
	cmp	w24, #6
	b.ne	Ldcsctp_BB5_67
	mov	w10, #1
	b	Ldcsctp_BB5_13
Ldcsctp_BB5_67:
	mov	w10, #6
	strb	w10, [x9]
	str	wzr, [x9, #4]
	strh	w24, [x9, #8]
	stur	wzr, [x9, #10]
	strh	wzr, [x9, #14]
	stp	x23, x22, [x9, #16]
	str	x22, [x9, #32]
	b	Ldcsctp_BB5_14
Ldcsctp_BB5_68:
	and	x9, x22, #0x38
	and	x8, x22, #0xffffffffffffffc0
	add	x10, x23, #32
	add	x11, x24, #32
	and	x12, x22, #0xffffffffffffffc0
Ldcsctp_BB5_69:
	ldp	q0, q1, [x11, #-32]
	ldp	q2, q3, [x11], #64
	stp	q0, q1, [x10, #-32]
	stp	q2, q3, [x10], #64
	subs	x12, x12, #64
	b.ne	Ldcsctp_BB5_69
	cmp	x22, x8
	b.eq	Ldcsctp_BB5_12
	cbz	x9, Ldcsctp_BB5_75
Ldcsctp_BB5_72:
	mov	x11, x8
	and	x8, x22, #0xfffffffffffffff8
	sub	x9, x11, x8
	add	x10, x24, x11
	add	x11, x23, x11
Ldcsctp_BB5_73:
	ldr	d0, [x10], #8
	str	d0, [x11], #8
	adds	x9, x9, #8
	b.ne	Ldcsctp_BB5_73
	cmp	x22, x8
	b.eq	Ldcsctp_BB5_12
Ldcsctp_BB5_75:
	sub	x9, x22, x8
	add	x10, x24, x8
	add	x8, x23, x8
Ldcsctp_BB5_76:
	ldrb	w11, [x10], #1
	strb	w11, [x8], #1
	subs	x9, x9, #1
	b.ne	Ldcsctp_BB5_76
	b	Ldcsctp_BB5_12
Ldcsctp_BB5_77:
	and	x9, x22, #0x38
	and	x8, x22, #0xffffffffffffffc0
	add	x10, x23, #32
	add	x11, x24, #32
	and	x12, x22, #0xffffffffffffffc0
Ldcsctp_BB5_78:
	ldp	q0, q1, [x11, #-32]
	ldp	q2, q3, [x11], #64
	stp	q0, q1, [x10, #-32]
	stp	q2, q3, [x10], #64
	subs	x12, x12, #64
	b.ne	Ldcsctp_BB5_78
	cmp	x22, x8
	b.eq	Ldcsctp_BB5_86
	cbz	x9, Ldcsctp_BB5_84
Ldcsctp_BB5_81:
	mov	x11, x8
	and	x8, x22, #0xfffffffffffffff8
	sub	x9, x11, x8
	add	x10, x24, x11
	add	x11, x23, x11
Ldcsctp_BB5_82:
	ldr	d0, [x10], #8
	str	d0, [x11], #8
	adds	x9, x9, #8
	b.ne	Ldcsctp_BB5_82
	cmp	x22, x8
	b.eq	Ldcsctp_BB5_86
Ldcsctp_BB5_84:
	sub	x9, x22, x8
	add	x10, x24, x8
	add	x8, x23, x8
Ldcsctp_BB5_85:
	ldrb	w11, [x10], #1
	strb	w11, [x8], #1
	subs	x9, x9, #1
	b.ne	Ldcsctp_BB5_85
Ldcsctp_BB5_86:
	ldp	x9, x8, [x21]
	mov	w10, #40
	madd	x9, x8, x10, x9
	mov	w10, #5
	b	Ldcsctp_BB5_13
Ldcsctp_BB5_87:
	cmp	x9, #64
	b.hs	Ldcsctp_BB5_96
	mov	x10, #0
	b	Ldcsctp_BB5_100
Ldcsctp_BB5_89:
	and	x9, x23, #0x38
	and	x8, x23, #0xffffffc0
	add	x10, x20, #72
	add	x11, x1, #64
	and	x12, x23, #0xffffffc0
Ldcsctp_BB5_90:
	sub	x13, x10, #64
	ld2	{ v0.16b, v1.16b }, [x13]
	sub	x13, x10, #32
	ld2	{ v2.16b, v3.16b }, [x13]
	mov	x13, x10
	ld2	{ v4.16b, v5.16b }, [x13], #32
	ld2	{ v6.16b, v7.16b }, [x13]
	shll2	v16.8h, v0.16b, #8
	shll	v17.8h, v0.8b, #8
	shll2	v18.8h, v2.16b, #8
	shll	v19.8h, v2.8b, #8
	shll2	v20.8h, v4.16b, #8
	shll	v21.8h, v4.8b, #8
	shll2	v22.8h, v6.16b, #8
	shll	v23.8h, v6.8b, #8
	ushll2	v24.8h, v1.16b, #0
	ushll	v0.8h, v1.8b, #0
	ushll2	v1.8h, v3.16b, #0
	ushll	v2.8h, v3.8b, #0
	ushll2	v3.8h, v5.16b, #0
	ushll	v4.8h, v5.8b, #0
	ushll2	v5.8h, v7.16b, #0
	orr	v0.16b, v17.16b, v0.16b
	orr	v16.16b, v16.16b, v24.16b
	stp	q0, q16, [x11, #-64]
	ushll	v0.8h, v7.8b, #0
	orr	v2.16b, v19.16b, v2.16b
	orr	v1.16b, v18.16b, v1.16b
	orr	v4.16b, v21.16b, v4.16b
	orr	v3.16b, v20.16b, v3.16b
	orr	v0.16b, v23.16b, v0.16b
	stp	q2, q1, [x11, #-32]
	stp	q4, q3, [x11]
	orr	v1.16b, v22.16b, v5.16b
	stp	q0, q1, [x11, #32]
	add	x10, x10, #128
	add	x11, x11, #128
	subs	x12, x12, #64
	b.ne	Ldcsctp_BB5_90
	cmp	x8, x23
	b.eq	Ldcsctp_BB5_60
	cbz	x9, Ldcsctp_BB5_52
Ldcsctp_BB5_93:
	mov	x10, x8
	and	x8, x23, #0xfffffff8
	sub	x9, x10, x8
	lsl	x11, x10, #1
	add	x10, x1, x11
	add	x11, x20, x11
	add	x11, x11, #8
Ldcsctp_BB5_94:
	ld2	{ v0.8b, v1.8b }, [x11], #16
	shll	v2.8h, v0.8b, #8
	ushll	v0.8h, v1.8b, #0
	orr	v0.16b, v2.16b, v0.16b
	str	q0, [x10], #16
	adds	x9, x9, #8
	b.ne	Ldcsctp_BB5_94
	cmp	x8, x23
	b.eq	Ldcsctp_BB5_60
	b	Ldcsctp_BB5_52
Ldcsctp_BB5_96:
	and	x11, x9, #0x38
	and	x10, x9, #0xffffffffffffffc0
	add	x12, x23, #32
	add	x13, x20, #36
	and	x14, x9, #0xffffffffffffffc0
Ldcsctp_BB5_97:
	ldp	q0, q1, [x13, #-32]
	ldp	q2, q3, [x13], #64
	stp	q0, q1, [x12, #-32]
	stp	q2, q3, [x12], #64
	subs	x14, x14, #64
	b.ne	Ldcsctp_BB5_97
	cmp	x9, x10
	b.eq	Ldcsctp_BB5_65
	cbz	x11, Ldcsctp_BB5_49
Ldcsctp_BB5_100:
	mov	x13, x10
	and	x10, x9, #0xfffffffffffffff8
	sub	x11, x13, x10
	add	x12, x20, x13
	add	x12, x12, #4
	add	x13, x23, x13
Ldcsctp_BB5_101:
	ldr	d0, [x12], #8
	str	d0, [x13], #8
	adds	x11, x11, #8
	b.ne	Ldcsctp_BB5_101
	cmp	x9, x10
	b.eq	Ldcsctp_BB5_65
	b	Ldcsctp_BB5_49
Ldcsctp_BB5_103:
	mov	w0, #1
	b	Ldcsctp_BB5_105
Ldcsctp_BB5_104:
	mov	w0, #0
Ldcsctp_BB5_105:
	.cfi_def_cfa wsp, 128
	ldp	x29, x30, [sp, #112]
	ldp	x20, x19, [sp, #96]
	ldp	x22, x21, [sp, #80]
	ldp	x24, x23, [sp, #64]
	ldp	x26, x25, [sp, #48]
	ldp	x28, x27, [sp, #32]
	add	sp, sp, #128
	.cfi_def_cfa_offset 0
	.cfi_restore w30
	.cfi_restore w29
	.cfi_restore w19
	.cfi_restore w20
	.cfi_restore w21
	.cfi_restore w22
	.cfi_restore w23
	.cfi_restore w24
	.cfi_restore w25
	.cfi_restore w26
	.cfi_restore w27
	.cfi_restore w28
	ret
Ldcsctp_BB5_106:
	.cfi_restore_state
	mov	x0, x26
	b	Ldcsctp_BB5_105
Ldcsctp_BB5_107:
	mov	w0, #1
	b	Ldcsctp_BB5_105
	.loh AdrpAdd	Ldcsctp_loh2, Ldcsctp_loh3
	.loh AdrpAdd	Ldcsctp_loh4, Ldcsctp_loh5
	.cfi_endproc
	.p2align	2
_core.str.utf8.from_utf8:
	.cfi_startproc
	sub	sp, sp, #64
	.cfi_def_cfa_offset 64
	stp	x22, x21, [sp, #16]
	stp	x20, x19, [sp, #32]
	stp	x29, x30, [sp, #48]
	add	x29, sp, #48
	.cfi_def_cfa w29, 16
	.cfi_offset w30, -8
	.cfi_offset w29, -16
	.cfi_offset w19, -24
	.cfi_offset w20, -32
	.cfi_offset w21, -40
	.cfi_offset w22, -48
	.cfi_remember_state
	mov	x20, x2
	mov	x21, x1
	mov	x19, x0
	cbz	x2, Ldcsctp_BB6_51
	mov	x9, #0
	sub	x22, x20, #8
	b	Ldcsctp_BB6_6
Ldcsctp_BB6_2:
	and	w11, w11, #0xff
	tbnz	w11, #7, Ldcsctp_BB6_23
Ldcsctp_BB6_3:
	mov	w12, #1
Ldcsctp_BB6_4:
	add	x8, x12, x9
Ldcsctp_BB6_5:
	mov	x9, x8
	cmp	x8, x20
	b.hs	Ldcsctp_BB6_51
Ldcsctp_BB6_6:
	add	x8, x21, x9
	ldrsb	w11, [x8]
	sub	x10, x20, x9
	cmp	x10, #2
	b.lo	Ldcsctp_BB6_2
	tbnz	w11, #31, Ldcsctp_BB6_2
	ldrsb	w11, [x8, #1]
	tbnz	w11, #31, Ldcsctp_BB6_3
	stp	x21, x20, [sp]
	cmp	x10, #7
	b.hi	Ldcsctp_BB6_28
	ldrsb	w8, [x21, x9]
	tbnz	w8, #31, Ldcsctp_BB6_43
	add	x8, x9, #1
	cmp	x8, x20
	b.eq	Ldcsctp_BB6_51
	ldrsb	w10, [x21, x8]
	tbnz	w10, #31, Ldcsctp_BB6_5
	add	x8, x9, #2
	cmp	x8, x20
	b.eq	Ldcsctp_BB6_51
	ldrsb	w10, [x21, x8]
	tbnz	w10, #31, Ldcsctp_BB6_5
	add	x8, x9, #3
	cmp	x8, x20
	b.eq	Ldcsctp_BB6_51
	ldrsb	w10, [x21, x8]
	tbnz	w10, #31, Ldcsctp_BB6_5
	add	x8, x9, #4
	cmp	x8, x20
	b.eq	Ldcsctp_BB6_51
	ldrsb	w10, [x21, x8]
	tbnz	w10, #31, Ldcsctp_BB6_5
	add	x8, x9, #5
	cmp	x8, x20
	b.eq	Ldcsctp_BB6_51
	ldrsb	w10, [x21, x8]
	tbnz	w10, #31, Ldcsctp_BB6_5
	add	x8, x9, #6
	cmp	x8, x20
	b.eq	Ldcsctp_BB6_51
	ldrsb	w9, [x21, x8]
	tbnz	w9, #31, Ldcsctp_BB6_5
	b	Ldcsctp_BB6_51
Ldcsctp_BB6_23:
	cmp	w11, #194
	b.lo	Ldcsctp_BB6_59
	cmp	w11, #223
	b.hi	Ldcsctp_BB6_36
	cmp	x10, #2
	b.lo	Ldcsctp_BB6_58
	ldrsb	w12, [x8, #1]
	cmn	w12, #65
	b.gt	Ldcsctp_BB6_55
	mov	w12, #2
	b	Ldcsctp_BB6_4
Ldcsctp_BB6_28:
	ldr	x8, [x8]
	ands	x8, x8, #0x8080808080808080
	rbit	x8, x8
	clz	x8, x8
	lsr	x8, x8, #3
	mov	w10, #8
	csel	x8, x10, x8, eq
	add	x10, x9, #8
	add	x8, x8, x9
	cmp	x8, x10
	b.lo	Ldcsctp_BB6_5
	sub	x9, x20, x8
	cmp	x9, #32
	b.lo	Ldcsctp_BB6_32
Ldcsctp_BB6_30:
	add	x9, x21, x8
	ldp	q1, q0, [x9]
	orr	v0.16b, v1.16b, v0.16b
	ext	v1.16b, v0.16b, v0.16b, #8
	orr	v0.8b, v0.8b, v1.8b
	fmov	x9, d0
	tst	x9, #0x8080808080808080
	b.ne	Ldcsctp_BB6_32
	mov	x0, sp
	add	x1, x8, #32
	mov	x2, x20
	bl	_core.slice.words.skip_far.52f9edcae2f82f51
	mov	x8, x0
	sub	x9, x20, x0
	cmp	x9, #31
	b.hi	Ldcsctp_BB6_30
Ldcsctp_BB6_32:
	sub	x9, x20, x8
Ldcsctp_BB6_33:
	cmp	x9, #9
	b.lo	Ldcsctp_BB6_50
	ldr	x10, [x21, x8]
	ands	x10, x10, #0x8080808080808080
	rbit	x10, x10
	clz	x10, x10
	lsr	x10, x10, #3
	mov	w11, #8
	csel	x10, x11, x10, eq
	add	x11, x10, x8
	add	x8, x8, #8
	sub	x9, x9, #8
	cmp	x11, x8
	b.hs	Ldcsctp_BB6_33
	add	x8, x10, x8
	sub	x8, x8, #8
	b	Ldcsctp_BB6_5
Ldcsctp_BB6_36:
	cmp	w11, #239
	b.hi	Ldcsctp_BB6_44
	cmp	x10, #3
	b.lo	Ldcsctp_BB6_53
	ldrsb	w12, [x8, #1]
	cmn	w12, #65
	b.gt	Ldcsctp_BB6_55
	ldrsb	w13, [x8, #2]
	cmn	w13, #65
	b.gt	Ldcsctp_BB6_55
	and	w13, w12, #0xff
	add	w13, w13, w11, lsl #6
	mov	w14, #-14464
	add	w13, w13, w14
	cmp	w13, #32
	b.lo	Ldcsctp_BB6_55
	cmp	w13, #896
	mov	w12, #3
	csel	x14, xzr, x12, lo
	cmp	w13, #864
	b.lo	Ldcsctp_BB6_4
	mov	x12, x14
	b	Ldcsctp_BB6_49
Ldcsctp_BB6_43:
	mov	x8, x9
	b	Ldcsctp_BB6_5
Ldcsctp_BB6_44:
	cmp	x10, #4
	b.lo	Ldcsctp_BB6_52
	ldrsb	w12, [x8, #1]
	cmn	w12, #65
	b.gt	Ldcsctp_BB6_52
	ldrsb	w13, [x8, #2]
	cmn	w13, #65
	b.gt	Ldcsctp_BB6_52
	ldrsb	w13, [x8, #3]
	cmn	w13, #65
	b.gt	Ldcsctp_BB6_52
	and	w12, w12, #0xff
	add	w12, w12, w11, lsl #6
	mov	w13, #-15488
	add	w13, w12, w13
	cmp	w13, #272
	mov	w12, #4
	csel	x12, x12, xzr, lo
	cmp	w13, #16
	b.lo	Ldcsctp_BB6_52
Ldcsctp_BB6_49:
	cbnz	x12, Ldcsctp_BB6_4
	b	Ldcsctp_BB6_52
Ldcsctp_BB6_50:
	ldr	x8, [x21, x22]
	ands	x8, x8, #0x8080808080808080
	rbit	x8, x8
	clz	x8, x8
	lsr	x8, x8, #3
	mov	w9, #8
	csel	x8, x9, x8, eq
	add	x8, x8, x22
	b	Ldcsctp_BB6_5
Ldcsctp_BB6_51:
	stp	xzr, x21, [x19]
	str	x20, [x19, #16]
	b	Ldcsctp_BB6_61
Ldcsctp_BB6_52:
	cmp	w11, #244
	b.hi	Ldcsctp_BB6_59
Ldcsctp_BB6_53:
	cmp	x10, #2
	b.lo	Ldcsctp_BB6_58
	ldrb	w12, [x8, #1]
Ldcsctp_BB6_55:
	mov	w13, #-128
	mov	w14, #-112
	cmp	w11, #240
	csel	w13, w14, w13, eq
	mov	w14, #-96
	cmp	w11, #224
	csel	w13, w14, w13, eq
	and	w14, w13, #0xf0
	mov	w13, #-65
	mov	w15, #-113
	cmp	w11, #244
	csel	w13, w15, w13, eq
	mov	w15, #-97
	cmp	w11, #237
	csel	w13, w15, w13, eq
	mov	w11, #257
	cmp	w14, w12, uxtb
	b.hi	Ldcsctp_BB6_60
	and	w12, w12, #0xff
	cmp	w12, w13, uxtb
	b.hi	Ldcsctp_BB6_60
	cmp	x10, #2
	b.ne	Ldcsctp_BB6_62
Ldcsctp_BB6_58:
	mov	x11, #0
	b	Ldcsctp_BB6_60
Ldcsctp_BB6_59:
	mov	w11, #257
Ldcsctp_BB6_60:
	mov	w8, #1
	stp	x8, x9, [x19]
	str	x11, [x19, #16]
Ldcsctp_BB6_61:
	.cfi_def_cfa wsp, 64
	ldp	x29, x30, [sp, #48]
	ldp	x20, x19, [sp, #32]
	ldp	x22, x21, [sp, #16]
	add	sp, sp, #64
	.cfi_def_cfa_offset 0
	.cfi_restore w30
	.cfi_restore w29
	.cfi_restore w19
	.cfi_restore w20
	.cfi_restore w21
	.cfi_restore w22
	ret
Ldcsctp_BB6_62:
	.cfi_restore_state
	ldrsb	w8, [x8, #2]
	cmn	w8, #65
	b.gt	Ldcsctp_BB6_64
	mov	w8, #769
	cmp	x10, #3
	csel	x11, x8, xzr, hi
	b	Ldcsctp_BB6_60
Ldcsctp_BB6_64:
	mov	w11, #513
	b	Ldcsctp_BB6_60
	.cfi_endproc
	.p2align	2
_core.slice.words.skip_far.52f9edcae2f82f51:
	.cfi_startproc
	sub	x8, x2, x1
	cmp	x8, #64
	b.lo	Ldcsctp_BB7_4
	ldr	x9, [x0]
Ldcsctp_BB7_2:
	add	x10, x9, x1
	ldp	q0, q1, [x10, #32]
	ldp	q2, q3, [x10]
	orr	v1.16b, v3.16b, v1.16b
	orr	v0.16b, v2.16b, v0.16b
	orr	v0.16b, v0.16b, v1.16b
	ext	v1.16b, v0.16b, v0.16b, #8
	orr	v0.8b, v0.8b, v1.8b
	fmov	x10, d0
	tst	x10, #0x8080808080808080
	b.ne	Ldcsctp_BB7_4
	add	x1, x1, #64
	sub	x8, x8, #64
	cmp	x8, #63
	b.hi	Ldcsctp_BB7_2
Ldcsctp_BB7_4:
	mov	x0, x1
	ret
	.cfi_endproc
	.p2align	2
_std_alloc.vec.Vec.drop.765a829dcb308622:
	.cfi_startproc
	stp	x22, x21, [sp, #-48]!
	.cfi_def_cfa_offset 48
	stp	x20, x19, [sp, #16]
	stp	x29, x30, [sp, #32]
	add	x29, sp, #32
	.cfi_def_cfa w29, 16
	.cfi_offset w30, -8
	.cfi_offset w29, -16
	.cfi_offset w19, -24
	.cfi_offset w20, -32
	.cfi_offset w21, -40
	.cfi_offset w22, -48
	.cfi_remember_state
	ldp	x19, x21, [x0]
	ldr	x20, [x0, #16]
	cbz	x21, Ldcsctp_BB8_16
	add	x22, x19, #24
	b	Ldcsctp_BB8_6
Ldcsctp_BB8_2:
	cbz	x11, Ldcsctp_BB8_5
Ldcsctp_BB8_3:
	mov	x0, x8
Ldcsctp_BB8_4:
	bl	_rattle_dealloc
Ldcsctp_BB8_5:
	add	x22, x22, #48
	subs	x21, x21, #1
	b.eq	Ldcsctp_BB8_16
Ldcsctp_BB8_6:
	ldurb	w10, [x22, #-24]
	ldp	x0, x8, [x22, #-16]
	ldp	x9, x11, [x22]
	cmp	w10, #3
	b.le	Ldcsctp_BB8_10
	cmp	w10, #9
	b.lt	Ldcsctp_BB8_5
	b.eq	Ldcsctp_BB8_12
	cmp	w10, #10
	ccmp	x11, #0, #4, ne
	b.eq	Ldcsctp_BB8_5
	b	Ldcsctp_BB8_3
Ldcsctp_BB8_10:
	cmp	w10, #1
	b.gt	Ldcsctp_BB8_13
Ldcsctp_BB8_12:
	cbnz	x9, Ldcsctp_BB8_4
	b	Ldcsctp_BB8_5
Ldcsctp_BB8_13:
	cmp	w10, #2
	b.ne	Ldcsctp_BB8_2
	ldr	x8, [x22, #16]
	cbz	x8, Ldcsctp_BB8_5
	mov	x0, x9
	b	Ldcsctp_BB8_4
Ldcsctp_BB8_16:
	cbz	x20, Ldcsctp_BB8_18
	mov	x0, x19
	.cfi_def_cfa wsp, 48
	ldp	x29, x30, [sp, #32]
	ldp	x20, x19, [sp, #16]
	ldp	x22, x21, [sp], #48
	.cfi_def_cfa_offset 0
	.cfi_restore w30
	.cfi_restore w29
	.cfi_restore w19
	.cfi_restore w20
	.cfi_restore w21
	.cfi_restore w22
	b	_rattle_dealloc
Ldcsctp_BB8_18:
	.cfi_restore_state
	.cfi_def_cfa wsp, 48
	ldp	x29, x30, [sp, #32]
	ldp	x20, x19, [sp, #16]
	ldp	x22, x21, [sp], #48
	.cfi_def_cfa_offset 0
	.cfi_restore w30
	.cfi_restore w29
	.cfi_restore w19
	.cfi_restore w20
	.cfi_restore w21
	.cfi_restore w22
	ret
	.cfi_endproc
	.p2align	2
_std_alloc.vec.Vec.drop.694f3e952ffd1e0b:
	.cfi_startproc
	stp	x22, x21, [sp, #-48]!
	.cfi_def_cfa_offset 48
	stp	x20, x19, [sp, #16]
	stp	x29, x30, [sp, #32]
	add	x29, sp, #32
	.cfi_def_cfa w29, 16
	.cfi_offset w30, -8
	.cfi_offset w29, -16
	.cfi_offset w19, -24
	.cfi_offset w20, -32
	.cfi_offset w21, -40
	.cfi_offset w22, -48
	.cfi_remember_state
	ldp	x19, x21, [x0]
	ldr	x20, [x0, #16]
	cbz	x21, Ldcsctp_BB9_12
	add	x22, x19, #16
	b	Ldcsctp_BB9_4
Ldcsctp_BB9_2:
	bl	_rattle_dealloc
Ldcsctp_BB9_3:
	add	x22, x22, #40
	subs	x21, x21, #1
	b.eq	Ldcsctp_BB9_12
Ldcsctp_BB9_4:
	ldurb	w9, [x22, #-16]
	ldur	x0, [x22, #-8]
	ldr	x8, [x22, #8]
	cmp	w9, #3
	b.gt	Ldcsctp_BB9_7
	sub	w10, w9, #2
	cmp	w10, #2
	b.lo	Ldcsctp_BB9_3
	b	Ldcsctp_BB9_9
Ldcsctp_BB9_7:
	cmp	w9, #4
	b.eq	Ldcsctp_BB9_9
	cmp	w9, #5
	b.ne	Ldcsctp_BB9_10
Ldcsctp_BB9_9:
	cbnz	x8, Ldcsctp_BB9_2
	b	Ldcsctp_BB9_3
Ldcsctp_BB9_10:
	ldr	x8, [x22, #16]
	cbz	x8, Ldcsctp_BB9_3
	ldr	x0, [x22]
	b	Ldcsctp_BB9_2
Ldcsctp_BB9_12:
	cbz	x20, Ldcsctp_BB9_14
	mov	x0, x19
	.cfi_def_cfa wsp, 48
	ldp	x29, x30, [sp, #32]
	ldp	x20, x19, [sp, #16]
	ldp	x22, x21, [sp], #48
	.cfi_def_cfa_offset 0
	.cfi_restore w30
	.cfi_restore w29
	.cfi_restore w19
	.cfi_restore w20
	.cfi_restore w21
	.cfi_restore w22
	b	_rattle_dealloc
Ldcsctp_BB9_14:
	.cfi_restore_state
	.cfi_def_cfa wsp, 48
	ldp	x29, x30, [sp, #32]
	ldp	x20, x19, [sp, #16]
	ldp	x22, x21, [sp], #48
	.cfi_def_cfa_offset 0
	.cfi_restore w30
	.cfi_restore w29
	.cfi_restore w19
	.cfi_restore w20
	.cfi_restore w21
	.cfi_restore w22
	ret
	.cfi_endproc
	.section	__TEXT,__literal8,8byte_literals
	.p2align	3, 0x0
ldcsctp_CPI10_0:
	.byte	115
	.byte	111
	.byte	117
	.byte	114
	.space	1
	.space	1
	.space	1
	.space	1
ldcsctp_CPI10_1:
	.byte	32
	.byte	100
	.byte	101
	.byte	115
	.byte	116
	.byte	105
	.byte	110
	.byte	97
ldcsctp_CPI10_2:
	.byte	116
	.byte	105
	.byte	111
	.byte	110
	.space	1
	.space	1
	.space	1
	.space	1
ldcsctp_CPI10_3:
	.byte	32
	.byte	116
	.byte	97
	.byte	103
	.space	1
	.space	1
	.space	1
	.space	1
ldcsctp_CPI10_4:
	.byte	32
	.byte	99
	.byte	104
	.byte	101
	.byte	99
	.byte	107
	.byte	115
	.byte	117
ldcsctp_CPI10_6:
	.byte	121
	.byte	112
	.byte	101
	.byte	61
	.space	1
	.space	1
	.space	1
	.space	1
ldcsctp_CPI10_7:
	.byte	82
	.byte	69
	.byte	45
	.byte	67
	.byte	79
	.byte	78
	.byte	70
	.byte	73
ldcsctp_CPI10_8:
	.byte	69
	.byte	82
	.byte	82
	.byte	79
	.space	1
	.space	1
	.space	1
	.space	1
ldcsctp_CPI10_10:
	.byte	99
	.byte	116
	.byte	101
	.byte	100
	.space	1
	.space	1
	.space	1
	.space	1
ldcsctp_CPI10_11:
	.byte	72
	.byte	69
	.byte	65
	.byte	82
	.byte	84
	.byte	66
	.byte	69
	.byte	65
ldcsctp_CPI10_12:
	.byte	84
	.byte	45
	.byte	65
	.byte	67
	.space	1
	.space	1
	.space	1
	.space	1
ldcsctp_CPI10_13:
	.byte	84
	.byte	45
	.byte	82
	.byte	69
	.space	1
	.space	1
	.space	1
	.space	1
ldcsctp_CPI10_15:
	.byte	116
	.byte	101
	.byte	95
	.byte	116
	.space	1
	.space	1
	.space	1
	.space	1
ldcsctp_CPI10_16:
	.byte	44
	.byte	32
	.byte	105
	.byte	110
	.byte	105
	.byte	116
	.byte	105
	.byte	97
ldcsctp_CPI10_17:
	.byte	108
	.byte	95
	.byte	116
	.byte	115
	.space	1
	.space	1
	.space	1
	.space	1
ldcsctp_CPI10_23:
	.byte	73
	.byte	45
	.byte	68
	.byte	65
	.byte	84
	.byte	65
	.byte	44
	.byte	32
ldcsctp_CPI10_24:
	.byte	116
	.byte	121
	.byte	112
	.byte	101
	.space	1
	.space	1
	.space	1
	.space	1
ldcsctp_CPI10_25:
	.byte	44
	.byte	32
	.byte	116
	.byte	115
	.space	1
	.space	1
	.space	1
	.space	1
ldcsctp_CPI10_26:
	.byte	44
	.byte	32
	.byte	109
	.byte	105
	.space	1
	.space	1
	.space	1
	.space	1
ldcsctp_CPI10_27:
	.byte	44
	.byte	32
	.byte	115
	.byte	115
	.space	1
	.space	1
	.space	1
	.space	1
ldcsctp_CPI10_28:
	.byte	44
	.byte	32
	.byte	112
	.byte	112
	.space	1
	.space	1
	.space	1
	.space	1
ldcsctp_CPI10_30:
	.byte	107
	.byte	105
	.byte	101
	.byte	61
	.space	1
	.space	1
	.space	1
	.space	1
ldcsctp_CPI10_31:
	.byte	32
	.byte	98
	.byte	121
	.byte	116
	.space	1
	.space	1
	.space	1
	.space	1
ldcsctp_CPI10_33:
	.byte	44
	.byte	32
	.byte	97
	.byte	95
	.byte	114
	.byte	119
	.byte	110
	.byte	100
ldcsctp_CPI10_34:
	.byte	68
	.byte	65
	.byte	84
	.byte	65
	.byte	44
	.byte	32
	.byte	116
	.byte	121
ldcsctp_CPI10_35:
	.byte	44
	.byte	32
	.byte	115
	.byte	105
	.space	1
	.space	1
	.space	1
	.space	1
ldcsctp_CPI10_38:
	.byte	67
	.byte	79
	.byte	79
	.byte	75
	.byte	73
	.byte	69
	.byte	45
	.byte	65
ldcsctp_CPI10_39:
	.byte	83
	.byte	72
	.byte	85
	.byte	84
	.byte	68
	.byte	79
	.byte	87
	.byte	78
ldcsctp_CPI10_40:
	.byte	45
	.byte	65
	.byte	67
	.byte	75
	.space	1
	.space	1
	.space	1
	.space	1
ldcsctp_CPI10_42:
	.byte	105
	.byte	118
	.byte	101
	.byte	95
	.byte	116
	.byte	115
	.byte	110
	.byte	95
ldcsctp_CPI10_43:
	.byte	97
	.byte	99
	.byte	107
	.byte	61
	.space	1
	.space	1
	.space	1
	.space	1
ldcsctp_CPI10_45:
	.byte	99
	.byte	97
	.byte	110
	.byte	111
	.byte	110
	.byte	105
	.byte	99
	.byte	97
	.section	__TEXT,__literal16,16byte_literals
	.p2align	4, 0x0
ldcsctp_CPI10_5:
	.byte	85
	.byte	110
	.byte	107
	.byte	110
	.byte	111
	.byte	119
	.byte	110
	.byte	32
	.byte	99
	.byte	104
	.byte	117
	.byte	110
	.byte	107
	.byte	44
	.byte	32
	.byte	116
ldcsctp_CPI10_9:
	.byte	65
	.byte	66
	.byte	79
	.byte	82
	.byte	84
	.byte	44
	.byte	32
	.byte	116
	.byte	97
	.byte	103
	.byte	95
	.byte	114
	.byte	101
	.byte	102
	.byte	108
	.byte	101
ldcsctp_CPI10_14:
	.byte	73
	.byte	78
	.byte	73
	.byte	84
	.byte	45
	.byte	65
	.byte	67
	.byte	75
	.byte	44
	.byte	32
	.byte	105
	.byte	110
	.byte	105
	.byte	116
	.byte	105
	.byte	97
ldcsctp_CPI10_18:
	.byte	73
	.byte	78
	.byte	73
	.byte	84
	.byte	44
	.byte	32
	.byte	105
	.byte	110
	.byte	105
	.byte	116
	.byte	105
	.byte	97
	.byte	116
	.byte	101
	.byte	95
	.byte	116
ldcsctp_CPI10_19:
	.byte	73
	.byte	45
	.byte	70
	.byte	79
	.byte	82
	.byte	87
	.byte	65
	.byte	82
	.byte	68
	.byte	45
	.byte	84
	.byte	83
	.byte	78
	.byte	44
	.byte	32
	.byte	110
ldcsctp_CPI10_20:
	.byte	101
	.byte	119
	.byte	95
	.byte	99
	.byte	117
	.byte	109
	.byte	117
	.byte	108
	.byte	97
	.byte	116
	.byte	105
	.byte	118
	.byte	101
	.byte	95
	.byte	116
	.byte	115
ldcsctp_CPI10_21:
	.byte	70
	.byte	79
	.byte	82
	.byte	87
	.byte	65
	.byte	82
	.byte	68
	.byte	45
	.byte	84
	.byte	83
	.byte	78
	.byte	44
	.byte	32
	.byte	110
	.byte	101
	.byte	119
ldcsctp_CPI10_22:
	.byte	95
	.byte	99
	.byte	117
	.byte	109
	.byte	117
	.byte	108
	.byte	97
	.byte	116
	.byte	105
	.byte	118
	.byte	101
	.byte	95
	.byte	116
	.byte	115
	.byte	110
	.byte	61
ldcsctp_CPI10_29:
	.byte	67
	.byte	79
	.byte	79
	.byte	75
	.byte	73
	.byte	69
	.byte	45
	.byte	69
	.byte	67
	.byte	72
	.byte	79
	.byte	44
	.byte	32
	.byte	99
	.byte	111
	.byte	111
ldcsctp_CPI10_32:
	.byte	83
	.byte	65
	.byte	67
	.byte	75
	.byte	44
	.byte	32
	.byte	99
	.byte	117
	.byte	109
	.byte	95
	.byte	97
	.byte	99
	.byte	107
	.byte	95
	.byte	116
	.byte	115
ldcsctp_CPI10_36:
	.byte	83
	.byte	72
	.byte	85
	.byte	84
	.byte	68
	.byte	79
	.byte	87
	.byte	78
	.byte	45
	.byte	67
	.byte	79
	.byte	77
	.byte	80
	.byte	76
	.byte	69
	.byte	84
ldcsctp_CPI10_37:
	.byte	69
	.byte	44
	.byte	32
	.byte	116
	.byte	97
	.byte	103
	.byte	95
	.byte	114
	.byte	101
	.byte	102
	.byte	108
	.byte	101
	.byte	99
	.byte	116
	.byte	101
	.byte	100
ldcsctp_CPI10_41:
	.byte	83
	.byte	72
	.byte	85
	.byte	84
	.byte	68
	.byte	79
	.byte	87
	.byte	78
	.byte	32
	.byte	99
	.byte	117
	.byte	109
	.byte	117
	.byte	108
	.byte	97
	.byte	116
ldcsctp_CPI10_44:
	.byte	99
	.byte	97
	.byte	110
	.byte	111
	.byte	110
	.byte	105
	.byte	99
	.byte	97
	.byte	108
	.byte	32
	.byte	116
	.byte	111
	.byte	111
	.byte	32
	.byte	108
	.byte	111
	.section	__TEXT,__text,regular,pure_instructions
	.p2align	2
_sctp_show.text.text_of:
	.cfi_startproc
	stp	x28, x27, [sp, #-96]!
	.cfi_def_cfa_offset 96
	stp	x26, x25, [sp, #16]
	stp	x24, x23, [sp, #32]
	stp	x22, x21, [sp, #48]
	stp	x20, x19, [sp, #64]
	stp	x29, x30, [sp, #80]
	add	x29, sp, #80
	.cfi_def_cfa w29, 16
	.cfi_offset w30, -8
	.cfi_offset w29, -16
	.cfi_offset w19, -24
	.cfi_offset w20, -32
	.cfi_offset w21, -40
	.cfi_offset w22, -48
	.cfi_offset w23, -56
	.cfi_offset w24, -64
	.cfi_offset w25, -72
	.cfi_offset w26, -80
	.cfi_offset w27, -88
	.cfi_offset w28, -96
	.cfi_remember_state
	sub	sp, sp, #464
	mov	x20, x1
	mov	x19, x0
	stp	xzr, xzr, [sp, #24]
	sub	x8, x29, #89
	str	x8, [sp, #16]
	stp	xzr, xzr, [sp, #48]
	str	xzr, [sp, #64]
	ldr	q0, [sp, #16]
	str	q0, [sp, #112]
	str	xzr, [sp, #128]
	stp	xzr, xzr, [sp, #80]
	str	xzr, [sp, #96]
	mov	w8, #32
	str	w8, [sp, #136]
	stur	xzr, [sp, #140]
	str	wzr, [sp, #148]
	mov	x9, #-1
	stp	x9, xzr, [sp, #152]
	add	x10, x1, #24
	add	x11, x1, #26
	add	x12, x1, #28
	add	x13, x1, #32
Ldcsctp_loh6:
	adrp	x24, l_static.3@PAGE
Ldcsctp_loh7:
	add	x24, x24, l_static.3@PAGEOFF
	mov	w14, #7
Ldcsctp_loh8:
	adrp	x25, l_static.4@PAGE
Ldcsctp_loh9:
	add	x25, x25, l_static.4@PAGEOFF
	stp	x24, x14, [sp, #224]
	mov	w14, #13
	stp	x14, x11, [sp, #256]
Ldcsctp_loh10:
	adrp	x23, l_static.5@PAGE
Ldcsctp_loh11:
	add	x23, x23, l_static.5@PAGEOFF
	mov	w11, #5
	stp	x23, x11, [sp, #272]
Ldcsctp_loh12:
	adrp	x21, l_static.6@PAGE
Ldcsctp_loh13:
	add	x21, x21, l_static.6@PAGEOFF
	stp	x10, x25, [sp, #240]
	stp	x12, x21, [sp, #288]
	mov	w10, #10
	stp	x10, x13, [sp, #304]
	ldur	q0, [sp, #136]
	stur	q0, [x29, #-128]
	stur	x9, [x29, #-112]
	str	w8, [sp, #136]
	str	wzr, [sp, #148]
	stur	xzr, [sp, #140]
	ldp	x10, x8, [sp, #120]
	sub	x11, x8, x10
	str	xzr, [sp, #168]
	str	x9, [sp, #152]
	cmp	x11, #6
	b.ls	Ldcsctp_BB10_9
Ldcsctp_BB10_1:
	add	x22, sp, #224
	add	x9, x10, #7
	ldr	x11, [sp, #112]
	add	x10, x11, x10
	sub	x12, x10, x24
	cmp	x12, #6
	b.hi	Ldcsctp_BB10_3
Ldcsctp_loh14:
	adrp	x12, ldcsctp_CPI10_0@PAGE
Ldcsctp_loh15:
	ldr	d0, [x12, ldcsctp_CPI10_0@PAGEOFF]
	str	s0, [x10]
	mov	w12, #25955
	strh	w12, [x10, #4]
	mov	w12, #61
	strb	w12, [x10, #6]
	b	Ldcsctp_BB10_4
Ldcsctp_BB10_3:
	mov	w12, #25458
	movk	w12, #15717, lsl #16
	stur	w12, [x10, #3]
	mov	w12, #28531
	movk	w12, #29301, lsl #16
	str	w12, [x10]
Ldcsctp_BB10_4:
	stp	x11, x9, [sp, #112]
	str	x8, [sp, #128]
	add	x0, sp, #112
	add	x1, x22, #16
	bl	_core.fmt.formatter.Formatter.write_piece.9c544998babb2079
	and	w8, w0, #0xff
	tbnz	w8, #0, Ldcsctp_BB10_37
	add	x24, sp, #112
	mov	w8, #32
	str	w8, [sp, #136]
	stur	xzr, [x24, #28]
	stur	wzr, [x24, #36]
	mov	x8, #-1
	str	x8, [sp, #152]
	ldr	x8, [sp, #160]
	cbnz	x8, Ldcsctp_BB10_11
	ldp	x11, x8, [sp, #120]
	sub	x9, x8, x11
	cmp	x9, #12
	b.ls	Ldcsctp_BB10_12
	add	x9, x11, #13
	ldr	x10, [sp, #112]
	add	x11, x10, x11
	sub	x12, x11, x25
	cmp	x12, #12
	b.hi	Ldcsctp_BB10_14
Ldcsctp_BB10_8:
Ldcsctp_loh16:
	adrp	x12, ldcsctp_CPI10_1@PAGE
Ldcsctp_loh17:
	ldr	d0, [x12, ldcsctp_CPI10_1@PAGEOFF]
	str	d0, [x11]
Ldcsctp_loh18:
	adrp	x12, ldcsctp_CPI10_2@PAGE
Ldcsctp_loh19:
	ldr	d0, [x12, ldcsctp_CPI10_2@PAGEOFF]
	str	s0, [x11, #8]
	mov	w12, #61
	strb	w12, [x11, #12]
	b	Ldcsctp_BB10_15
Ldcsctp_BB10_9:
	add	x0, sp, #112
	mov	w1, #7
	bl	_std_alloc.vec.Vec.grow_amortized.38fbb921ed00a393
	cbz	w0, Ldcsctp_BB10_37
	ldp	x10, x8, [sp, #120]
	b	Ldcsctp_BB10_1
Ldcsctp_BB10_11:
Ldcsctp_loh20:
	adrp	x1, l_static.4@PAGE
Ldcsctp_loh21:
	add	x1, x1, l_static.4@PAGEOFF
	add	x0, sp, #112
	mov	w2, #13
	bl	_core.fmt.formatter.Formatter.write_indented.69d84fb4438acd8c
	and	w8, w0, #0xff
	tbnz	w8, #0, Ldcsctp_BB10_37
	b	Ldcsctp_BB10_16
Ldcsctp_BB10_12:
	add	x0, sp, #112
	mov	w1, #13
	bl	_std_alloc.vec.Vec.grow_amortized.38fbb921ed00a393
	cbz	w0, Ldcsctp_BB10_37
	ldp	x11, x8, [sp, #120]
	add	x9, x11, #13
	ldr	x10, [sp, #112]
	add	x11, x10, x11
	sub	x12, x11, x25
	cmp	x12, #12
	b.ls	Ldcsctp_BB10_8
Ldcsctp_BB10_14:
	ldr	x12, [x25]
	str	x12, [x11]
	ldur	x12, [x25, #5]
	stur	x12, [x11, #5]
Ldcsctp_BB10_15:
	stp	x10, x9, [sp, #112]
	str	x8, [sp, #128]
Ldcsctp_BB10_16:
	add	x0, sp, #112
	add	x1, x22, #40
	bl	_core.fmt.formatter.Formatter.write_piece.9c544998babb2079
	and	w8, w0, #0xff
	tbnz	w8, #0, Ldcsctp_BB10_37
	mov	w8, #32
	str	w8, [sp, #136]
	stur	xzr, [x24, #28]
	stur	wzr, [x24, #36]
	mov	x8, #-1
	str	x8, [sp, #152]
	ldr	x8, [sp, #160]
	cbnz	x8, Ldcsctp_BB10_21
	ldp	x11, x8, [sp, #120]
	sub	x9, x8, x11
	cmp	x9, #4
	b.ls	Ldcsctp_BB10_22
	add	x9, x11, #5
	ldr	x10, [sp, #112]
	add	x11, x10, x11
	sub	x12, x11, x23
	cmp	x12, #4
	b.hi	Ldcsctp_BB10_24
Ldcsctp_BB10_20:
Ldcsctp_loh22:
	adrp	x12, ldcsctp_CPI10_3@PAGE
Ldcsctp_loh23:
	ldr	d0, [x12, ldcsctp_CPI10_3@PAGEOFF]
	str	s0, [x11]
	mov	w12, #61
	strb	w12, [x11, #4]
	b	Ldcsctp_BB10_25
Ldcsctp_BB10_21:
Ldcsctp_loh24:
	adrp	x1, l_static.5@PAGE
Ldcsctp_loh25:
	add	x1, x1, l_static.5@PAGEOFF
	add	x0, sp, #112
	mov	w2, #5
	bl	_core.fmt.formatter.Formatter.write_indented.69d84fb4438acd8c
	and	w8, w0, #0xff
	tbnz	w8, #0, Ldcsctp_BB10_37
	b	Ldcsctp_BB10_26
Ldcsctp_BB10_22:
	add	x0, sp, #112
	mov	w1, #5
	bl	_std_alloc.vec.Vec.grow_amortized.38fbb921ed00a393
	cbz	w0, Ldcsctp_BB10_37
	ldp	x11, x8, [sp, #120]
	add	x9, x11, #5
	ldr	x10, [sp, #112]
	add	x11, x10, x11
	sub	x12, x11, x23
	cmp	x12, #4
	b.ls	Ldcsctp_BB10_20
Ldcsctp_BB10_24:
	mov	w12, #61
	strb	w12, [x11, #4]
	mov	w12, #29728
	movk	w12, #26465, lsl #16
	str	w12, [x11]
Ldcsctp_BB10_25:
	stp	x10, x9, [sp, #112]
	str	x8, [sp, #128]
Ldcsctp_BB10_26:
	add	x0, sp, #112
	add	x1, x22, #64
	bl	_core.fmt.formatter.Formatter.write_piece.7d2ac8fd5c291299
	and	w8, w0, #0xff
	tbnz	w8, #0, Ldcsctp_BB10_37
	mov	w8, #32
	str	w8, [sp, #136]
	stur	xzr, [x24, #28]
	stur	wzr, [x24, #36]
	mov	x8, #-1
	str	x8, [sp, #152]
	ldr	x8, [sp, #160]
	cbnz	x8, Ldcsctp_BB10_31
	ldp	x10, x8, [sp, #120]
	sub	x9, x8, x10
	cmp	x9, #9
	b.ls	Ldcsctp_BB10_32
	add	x9, x10, #10
	ldr	x11, [sp, #112]
	add	x10, x11, x10
	sub	x12, x10, x21
	cmp	x12, #9
	b.hi	Ldcsctp_BB10_34
Ldcsctp_BB10_30:
Ldcsctp_loh26:
	adrp	x12, ldcsctp_CPI10_4@PAGE
Ldcsctp_loh27:
	ldr	d0, [x12, ldcsctp_CPI10_4@PAGEOFF]
	str	d0, [x10]
	mov	w12, #15725
	strh	w12, [x10, #8]
	b	Ldcsctp_BB10_35
Ldcsctp_BB10_31:
Ldcsctp_loh28:
	adrp	x1, l_static.6@PAGE
Ldcsctp_loh29:
	add	x1, x1, l_static.6@PAGEOFF
	add	x0, sp, #112
	mov	w2, #10
	bl	_core.fmt.formatter.Formatter.write_indented.69d84fb4438acd8c
	tst	w0, #0xff
	b.ne	Ldcsctp_BB10_37
	b	Ldcsctp_BB10_36
Ldcsctp_BB10_32:
	add	x0, sp, #112
	mov	w1, #10
	bl	_std_alloc.vec.Vec.grow_amortized.38fbb921ed00a393
	cbz	w0, Ldcsctp_BB10_37
	ldp	x10, x8, [sp, #120]
	add	x9, x10, #10
	ldr	x11, [sp, #112]
	add	x10, x11, x10
	sub	x12, x10, x21
	cmp	x12, #9
	b.ls	Ldcsctp_BB10_30
Ldcsctp_BB10_34:
	mov	w12, #15725
	strh	w12, [x10, #8]
	ldr	x12, [x21]
	str	x12, [x10]
Ldcsctp_BB10_35:
	stp	x11, x9, [sp, #112]
	str	x8, [sp, #128]
Ldcsctp_BB10_36:
	add	x0, sp, #112
	add	x1, x22, #88
	bl	_core.fmt.formatter.Formatter.write_piece.7d2ac8fd5c291299
	and	w8, w0, #0xff
	ldur	q0, [x29, #-128]
	stur	q0, [x24, #24]
	ldur	x9, [x29, #-112]
	stur	x9, [x24, #40]
	tbz	w8, #0, Ldcsctp_BB10_42
Ldcsctp_BB10_37:
	ldr	x8, [sp, #128]
	ldr	q0, [sp, #112]
	str	q0, [sp, #16]
	str	x8, [sp, #32]
Ldcsctp_BB10_38:
	ldr	x8, [sp, #32]
	cbz	x8, Ldcsctp_BB10_40
	ldr	x0, [sp, #16]
	bl	_rattle_dealloc
Ldcsctp_BB10_40:
	mov	w8, #1
	strb	w8, [x19]
	stp	xzr, xzr, [x19, #16]
	str	xzr, [x19, #8]
Ldcsctp_BB10_41:
	add	sp, sp, #464
	.cfi_def_cfa wsp, 96
	ldp	x29, x30, [sp, #80]
	ldp	x20, x19, [sp, #64]
	ldp	x22, x21, [sp, #48]
	ldp	x24, x23, [sp, #32]
	ldp	x26, x25, [sp, #16]
	ldp	x28, x27, [sp], #96
	.cfi_def_cfa_offset 0
	.cfi_restore w30
	.cfi_restore w29
	.cfi_restore w19
	.cfi_restore w20
	.cfi_restore w21
	.cfi_restore w22
	.cfi_restore w23
	.cfi_restore w24
	.cfi_restore w25
	.cfi_restore w26
	.cfi_restore w27
	.cfi_restore w28
	ret
Ldcsctp_BB10_42:
	.cfi_restore_state
	ldr	x25, [x20, #8]
	cbz	x25, Ldcsctp_BB10_398
	mov	x26, #0
	orr	x27, x24, #0x8
	ldr	x28, [x20]
	stp	x25, x28, [sp]
	b	Ldcsctp_BB10_51
Ldcsctp_BB10_44:
Ldcsctp_loh30:
	adrp	x12, ldcsctp_CPI10_19@PAGE
Ldcsctp_loh31:
	ldr	q0, [x12, ldcsctp_CPI10_19@PAGEOFF]
Ldcsctp_loh32:
	adrp	x12, ldcsctp_CPI10_20@PAGE
Ldcsctp_loh33:
	ldr	q1, [x12, ldcsctp_CPI10_20@PAGEOFF]
	stp	q0, q1, [x11]
	mov	w12, #15726
	strh	w12, [x11, #32]
Ldcsctp_BB10_45:
	add	x9, x9, #34
Ldcsctp_BB10_46:
	stp	x10, x9, [sp, #112]
	str	x8, [sp, #128]
Ldcsctp_BB10_47:
	stur	w21, [x29, #-128]
	sub	x8, x29, #128
	str	x8, [sp, #224]
	mov	w8, #32
	str	w8, [sp, #136]
	stur	xzr, [x24, #28]
	stur	wzr, [x24, #36]
	mov	x8, #-1
	str	x8, [sp, #152]
	add	x0, sp, #112
	add	x1, sp, #224
Ldcsctp_BB10_48:
	bl	_core.fmt.formatter.Formatter.write_piece.7d2ac8fd5c291299
Ldcsctp_BB10_49:
	and	w8, w0, #0xff
	ldr	q0, [sp, #176]
	stur	q0, [x24, #24]
	ldr	x9, [sp, #192]
	stur	x9, [x24, #40]
	tbnz	w8, #0, Ldcsctp_BB10_37
Ldcsctp_BB10_50:
	add	x26, x26, #1
	cmp	x26, x25
	b.eq	Ldcsctp_BB10_398
Ldcsctp_BB10_51:
	ldur	q0, [x24, #24]
	str	q0, [sp, #176]
	ldur	x8, [x24, #40]
	str	x8, [sp, #192]
	mov	w8, #32
	str	w8, [sp, #136]
	stur	xzr, [x24, #28]
	stur	wzr, [x24, #36]
	mov	x8, #-1
	str	x8, [sp, #152]
	ldr	x8, [sp, #160]
	cbnz	x8, Ldcsctp_BB10_59
	ldp	x9, x8, [sp, #120]
	cmp	x8, x9
	b.eq	Ldcsctp_BB10_60
Ldcsctp_BB10_53:
	add	x10, x9, #1
	ldr	x11, [sp, #112]
	mov	w12, #10
	strb	w12, [x11, x9]
	stp	x11, x10, [sp, #112]
	str	x8, [sp, #128]
Ldcsctp_BB10_54:
	add	x8, x28, x26, lsl #6
	mov	w9, #32
	str	w9, [sp, #136]
	stur	xzr, [x24, #28]
	stur	wzr, [x24, #36]
	mov	x9, #-1
	str	x9, [sp, #152]
	ldrb	w9, [x8]
Ldcsctp_loh34:
	adrp	x10, Ldcsctp_JTI10_0@PAGE
Ldcsctp_loh35:
	add	x10, x10, Ldcsctp_JTI10_0@PAGEOFF
	adr	x11, Ldcsctp_BB10_55
	ldrh	w12, [x10, x9, lsl #1]
	add	x11, x11, x12, lsl #2
	br	x11
Ldcsctp_BB10_55:
	ldrb	w9, [x8, #44]
	cmp	w9, #1
	mov	w10, #7
	mov	w9, #9
	ldrb	w11, [x8, #50]
Ldcsctp_loh36:
	adrp	x12, l_static.25@PAGE
Ldcsctp_loh37:
	add	x12, x12, l_static.25@PAGEOFF
	ldrb	w13, [x8, #51]
Ldcsctp_loh38:
	adrp	x14, l_static.24@PAGE
Ldcsctp_loh39:
	add	x14, x14, l_static.24@PAGEOFF
	ldr	w15, [x8, #56]
	csel	x23, x9, x10, eq
	csel	x1, x14, x12, eq
	str	w15, [sp, #220]
	cmp	w13, #0
	mov	w12, #5
	ldrh	w13, [x8, #46]
	mov	w14, #8
	csel	x12, x14, x12, ne
	strh	w13, [sp, #208]
Ldcsctp_loh40:
	adrp	x13, l_static.27@PAGE
Ldcsctp_loh41:
	add	x13, x13, l_static.27@PAGEOFF
	ldrh	w14, [x8, #48]
Ldcsctp_loh42:
	adrp	x15, l_static.26@PAGE
Ldcsctp_loh43:
	add	x15, x15, l_static.26@PAGEOFF
	ldr	w16, [x8, #40]
	csel	x13, x15, x13, ne
	mov	w15, #6
	strh	w14, [sp, #218]
	mov	w14, #4
	csel	x14, x14, x15, ne
	str	w16, [sp, #212]
Ldcsctp_loh44:
	adrp	x16, l_static.29@PAGE
Ldcsctp_loh45:
	add	x16, x16, l_static.29@PAGEOFF
	ldr	x8, [x8, #16]
Ldcsctp_loh46:
	adrp	x17, l_static.28@PAGE
Ldcsctp_loh47:
	add	x17, x17, l_static.28@PAGEOFF
	str	x8, [sp, #200]
	csel	x8, x17, x16, ne
Ldcsctp_loh48:
	adrp	x27, l_static.17@PAGE
Ldcsctp_loh49:
	add	x27, x27, l_static.17@PAGEOFF
	mov	w16, #11
	stp	x27, x16, [sp, #224]
	cmp	w11, #0
	csel	x21, x12, x14, ne
	csel	x22, x13, x8, ne
	stp	x1, x23, [sp, #240]
Ldcsctp_loh50:
	adrp	x8, l_static.18@PAGE
Ldcsctp_loh51:
	add	x8, x8, l_static.18@PAGEOFF
	mov	w11, #2
	stp	x8, x11, [sp, #256]
	stp	x22, x21, [sp, #272]
Ldcsctp_loh52:
	adrp	x8, l_static.19@PAGE
Ldcsctp_loh53:
	add	x8, x8, l_static.19@PAGEOFF
	stp	x8, x15, [sp, #288]
	add	x8, sp, #220
Ldcsctp_loh54:
	adrp	x11, l_static.20@PAGE
Ldcsctp_loh55:
	add	x11, x11, l_static.20@PAGEOFF
	stp	x8, x11, [sp, #304]
	add	x8, sp, #208
	stp	x15, x8, [sp, #320]
Ldcsctp_loh56:
	adrp	x8, l_static.21@PAGE
Ldcsctp_loh57:
	add	x8, x8, l_static.21@PAGEOFF
	stp	x8, x15, [sp, #336]
	add	x8, sp, #218
Ldcsctp_loh58:
	adrp	x11, l_static.22@PAGE
Ldcsctp_loh59:
	add	x11, x11, l_static.22@PAGEOFF
	stp	x8, x11, [sp, #352]
	add	x8, sp, #212
	stp	x10, x8, [sp, #368]
Ldcsctp_loh60:
	adrp	x8, l_static.23@PAGE
Ldcsctp_loh61:
	add	x8, x8, l_static.23@PAGEOFF
	stp	x8, x9, [sp, #384]
	add	x8, sp, #200
	str	x8, [sp, #400]
	mov	w8, #32
	str	w8, [sp, #136]
	stur	xzr, [x24, #28]
	stur	wzr, [x24, #36]
	mov	x9, #-1
	str	x9, [sp, #152]
	ldur	q0, [x24, #24]
	stur	q0, [x29, #-128]
	ldur	x10, [x24, #40]
	stur	x10, [x29, #-112]
	str	w8, [sp, #136]
	stur	xzr, [x24, #28]
	stur	wzr, [x24, #36]
	str	x9, [sp, #152]
	ldr	x8, [sp, #160]
	cbnz	x8, Ldcsctp_BB10_168
	ldp	x9, x8, [sp, #120]
	sub	x10, x8, x9
	cmp	x10, #10
	b.ls	Ldcsctp_BB10_209
	ldr	x10, [sp, #112]
	add	x11, x10, x9
	sub	x12, x11, x27
	cmp	x12, #10
	b.hi	Ldcsctp_BB10_211
Ldcsctp_BB10_58:
Ldcsctp_loh62:
	adrp	x12, ldcsctp_CPI10_34@PAGE
Ldcsctp_loh63:
	ldr	d0, [x12, ldcsctp_CPI10_34@PAGEOFF]
	str	d0, [x11]
	mov	w12, #25968
	strh	w12, [x11, #8]
	mov	w12, #61
	strb	w12, [x11, #10]
	b	Ldcsctp_BB10_212
Ldcsctp_BB10_59:
Ldcsctp_loh64:
	adrp	x1, l_static.2@PAGE
Ldcsctp_loh65:
	add	x1, x1, l_static.2@PAGEOFF
	add	x0, sp, #112
	mov	w2, #1
	bl	_core.fmt.formatter.Formatter.write_indented.69d84fb4438acd8c
	tst	w0, #0xff
	b.eq	Ldcsctp_BB10_54
	b	Ldcsctp_BB10_37
Ldcsctp_BB10_60:
	add	x0, sp, #112
	mov	w1, #1
	bl	_std_alloc.vec.Vec.grow_amortized.38fbb921ed00a393
	cbz	w0, Ldcsctp_BB10_37
	ldp	x9, x8, [sp, #120]
	b	Ldcsctp_BB10_53
Ldcsctp_BB10_62:
	ldr	w21, [x8, #8]
	ldr	x8, [sp, #160]
	cbnz	x8, Ldcsctp_BB10_157
	ldp	x9, x8, [sp, #120]
	sub	x10, x8, x9
	cmp	x10, #33
	b.ls	Ldcsctp_BB10_180
Ldcsctp_BB10_64:
	ldr	x10, [sp, #112]
	stp	xzr, xzr, [x27]
Ldcsctp_loh66:
	adrp	x12, l_static.37@PAGE
Ldcsctp_loh67:
	add	x12, x12, l_static.37@PAGEOFF
	add	x11, x10, x9
	sub	x13, x11, x12
	cmp	x13, #33
	b.ls	Ldcsctp_BB10_44
	mov	w13, #15726
	strh	w13, [x11, #32]
	ldp	q0, q1, [x12]
	stp	q0, q1, [x11]
	b	Ldcsctp_BB10_45
Ldcsctp_BB10_66:
	ldr	x8, [sp, #160]
	cbnz	x8, Ldcsctp_BB10_158
	ldp	x9, x8, [sp, #120]
	sub	x10, x8, x9
	cmp	x10, #8
	b.ls	Ldcsctp_BB10_182
Ldcsctp_BB10_68:
	ldr	x10, [sp, #112]
Ldcsctp_loh68:
	adrp	x12, l_static.45@PAGE
Ldcsctp_loh69:
	add	x12, x12, l_static.45@PAGEOFF
	add	x11, x10, x9
	sub	x13, x11, x12
	cmp	x13, #8
	b.hi	Ldcsctp_BB10_131
Ldcsctp_loh70:
	adrp	x12, ldcsctp_CPI10_7@PAGE
Ldcsctp_loh71:
	ldr	d0, [x12, ldcsctp_CPI10_7@PAGEOFF]
	str	d0, [x11]
	mov	w12, #71
	strb	w12, [x11, #8]
	add	x9, x9, #9
	b	Ldcsctp_BB10_382
Ldcsctp_BB10_70:
	ldr	x8, [sp, #160]
	cbnz	x8, Ldcsctp_BB10_159
	ldp	x9, x8, [sp, #120]
	sub	x10, x8, x9
	cmp	x10, #9
	b.ls	Ldcsctp_BB10_184
Ldcsctp_BB10_72:
	ldr	x10, [sp, #112]
Ldcsctp_loh72:
	adrp	x12, l_static.13@PAGE
Ldcsctp_loh73:
	add	x12, x12, l_static.13@PAGEOFF
	add	x11, x10, x9
	sub	x13, x11, x12
	cmp	x13, #9
	b.hi	Ldcsctp_BB10_132
Ldcsctp_loh74:
	adrp	x12, ldcsctp_CPI10_38@PAGE
Ldcsctp_loh75:
	ldr	d0, [x12, ldcsctp_CPI10_38@PAGEOFF]
	str	d0, [x11]
	mov	w12, #19267
	strh	w12, [x11, #8]
	add	x9, x9, #10
	b	Ldcsctp_BB10_382
Ldcsctp_BB10_74:
	ldr	x8, [sp, #160]
	cbnz	x8, Ldcsctp_BB10_160
	ldp	x9, x8, [sp, #120]
	sub	x10, x8, x9
	cmp	x10, #12
	b.ls	Ldcsctp_BB10_186
Ldcsctp_BB10_76:
	ldr	x10, [sp, #112]
Ldcsctp_loh76:
	adrp	x12, l_static.41@PAGE
Ldcsctp_loh77:
	add	x12, x12, l_static.41@PAGEOFF
	add	x11, x10, x9
	sub	x13, x11, x12
	cmp	x13, #12
	b.hi	Ldcsctp_BB10_130
Ldcsctp_loh78:
	adrp	x12, ldcsctp_CPI10_11@PAGE
Ldcsctp_loh79:
	ldr	d0, [x12, ldcsctp_CPI10_11@PAGEOFF]
	str	d0, [x11]
Ldcsctp_loh80:
	adrp	x12, ldcsctp_CPI10_13@PAGE
Ldcsctp_loh81:
	ldr	d0, [x12, ldcsctp_CPI10_13@PAGEOFF]
	str	s0, [x11, #8]
	mov	w12, #81
	strb	w12, [x11, #12]
	add	x9, x9, #13
	b	Ldcsctp_BB10_382
Ldcsctp_BB10_78:
	ldrb	w8, [x8, #1]
	strb	w8, [sp, #224]
	mov	w8, #32
	str	w8, [sp, #136]
	stur	xzr, [x24, #28]
	stur	wzr, [x24, #36]
	mov	x8, #-1
	str	x8, [sp, #152]
	ldr	x8, [sp, #160]
	cbnz	x8, Ldcsctp_BB10_161
	ldp	x9, x8, [sp, #120]
	sub	x10, x8, x9
	cmp	x10, #32
	b.ls	Ldcsctp_BB10_188
Ldcsctp_BB10_80:
	ldr	x10, [sp, #112]
	stp	xzr, xzr, [x27]
Ldcsctp_loh82:
	adrp	x12, l_static.14@PAGE
Ldcsctp_loh83:
	add	x12, x12, l_static.14@PAGEOFF
	add	x11, x10, x9
	sub	x13, x11, x12
	cmp	x13, #32
	b.hi	Ldcsctp_BB10_133
Ldcsctp_loh84:
	adrp	x12, ldcsctp_CPI10_36@PAGE
Ldcsctp_loh85:
	ldr	q0, [x12, ldcsctp_CPI10_36@PAGEOFF]
Ldcsctp_loh86:
	adrp	x12, ldcsctp_CPI10_37@PAGE
Ldcsctp_loh87:
	ldr	q1, [x12, ldcsctp_CPI10_37@PAGEOFF]
	stp	q0, q1, [x11]
	mov	w12, #61
	strb	w12, [x11, #32]
	b	Ldcsctp_BB10_134
Ldcsctp_BB10_82:
	ldr	x8, [sp, #160]
	cbnz	x8, Ldcsctp_BB10_162
	ldp	x9, x8, [sp, #120]
	sub	x10, x8, x9
	cmp	x10, #4
	b.ls	Ldcsctp_BB10_190
Ldcsctp_BB10_84:
	ldr	x10, [sp, #112]
Ldcsctp_loh88:
	adrp	x12, l_static.44@PAGE
Ldcsctp_loh89:
	add	x12, x12, l_static.44@PAGEOFF
	add	x11, x10, x9
	sub	x12, x11, x12
	cmp	x12, #4
	b.hi	Ldcsctp_BB10_135
Ldcsctp_loh90:
	adrp	x12, ldcsctp_CPI10_8@PAGE
Ldcsctp_loh91:
	ldr	d0, [x12, ldcsctp_CPI10_8@PAGEOFF]
	str	s0, [x11]
	mov	w12, #82
	strb	w12, [x11, #4]
	add	x9, x9, #5
	b	Ldcsctp_BB10_382
Ldcsctp_BB10_86:
	ldr	w9, [x8, #8]
	ldr	w8, [x8, #20]
	str	w9, [sp, #200]
	stur	w8, [x29, #-96]
Ldcsctp_loh92:
	adrp	x22, l_static.40@PAGE
Ldcsctp_loh93:
	add	x22, x22, l_static.40@PAGEOFF
	mov	w8, #23
	stp	x22, x8, [sp, #224]
	add	x8, sp, #200
Ldcsctp_loh94:
	adrp	x21, l_static.39@PAGE
Ldcsctp_loh95:
	add	x21, x21, l_static.39@PAGEOFF
	stp	x8, x21, [sp, #240]
	mov	w8, #14
	sub	x9, x29, #96
	stp	x8, x9, [sp, #256]
	mov	w8, #32
	str	w8, [sp, #136]
	stur	xzr, [x24, #28]
	stur	wzr, [x24, #36]
	mov	x8, #-1
	str	x8, [sp, #152]
	ldr	x8, [sp, #160]
	cbnz	x8, Ldcsctp_BB10_163
	ldp	x9, x8, [sp, #120]
	sub	x10, x8, x9
	cmp	x10, #22
	b.ls	Ldcsctp_BB10_192
	ldr	x10, [sp, #112]
	stp	xzr, xzr, [x27]
	add	x11, x10, x9
	sub	x12, x11, x22
	cmp	x12, #22
	b.hi	Ldcsctp_BB10_194
Ldcsctp_BB10_89:
Ldcsctp_loh96:
	adrp	x12, ldcsctp_CPI10_14@PAGE
Ldcsctp_loh97:
	ldr	q0, [x12, ldcsctp_CPI10_14@PAGEOFF]
	str	q0, [x11]
Ldcsctp_loh98:
	adrp	x12, ldcsctp_CPI10_15@PAGE
Ldcsctp_loh99:
	ldr	d0, [x12, ldcsctp_CPI10_15@PAGEOFF]
	str	s0, [x11, #16]
	mov	w12, #26465
	strh	w12, [x11, #20]
	mov	w12, #61
	strb	w12, [x11, #22]
	add	x9, x9, #23
	b	Ldcsctp_BB10_223
Ldcsctp_BB10_90:
	ldr	w21, [x8, #8]
	ldr	x8, [sp, #160]
	cbnz	x8, Ldcsctp_BB10_164
	ldp	x9, x8, [sp, #120]
	sub	x10, x8, x9
	cmp	x10, #31
	b.ls	Ldcsctp_BB10_195
Ldcsctp_BB10_92:
	ldr	x10, [sp, #112]
	stp	xzr, xzr, [x27]
Ldcsctp_loh100:
	adrp	x12, l_static.36@PAGE
Ldcsctp_loh101:
	add	x12, x12, l_static.36@PAGEOFF
	add	x11, x10, x9
	sub	x13, x11, x12
	cmp	x13, #31
	b.hi	Ldcsctp_BB10_136
Ldcsctp_loh102:
	adrp	x12, ldcsctp_CPI10_21@PAGE
Ldcsctp_loh103:
	ldr	q0, [x12, ldcsctp_CPI10_21@PAGEOFF]
Ldcsctp_loh104:
	adrp	x12, ldcsctp_CPI10_22@PAGE
Ldcsctp_loh105:
	ldr	q1, [x12, ldcsctp_CPI10_22@PAGEOFF]
	b	Ldcsctp_BB10_137
Ldcsctp_BB10_94:
	ldp	w9, w8, [x8, #8]
	str	w9, [sp, #200]
	stur	w8, [x29, #-96]
Ldcsctp_loh106:
	adrp	x22, l_static.30@PAGE
Ldcsctp_loh107:
	add	x22, x22, l_static.30@PAGEOFF
	mov	w8, #18
	stp	x22, x8, [sp, #224]
	add	x8, sp, #200
Ldcsctp_loh108:
	adrp	x21, l_static.31@PAGE
Ldcsctp_loh109:
	add	x21, x21, l_static.31@PAGEOFF
	stp	x8, x21, [sp, #240]
	mov	w8, #9
	sub	x9, x29, #96
	stp	x8, x9, [sp, #256]
	mov	w8, #32
	str	w8, [sp, #136]
	stur	xzr, [x24, #28]
	stur	wzr, [x24, #36]
	mov	x8, #-1
	str	x8, [sp, #152]
	ldr	x8, [sp, #160]
	cbnz	x8, Ldcsctp_BB10_165
	ldp	x9, x8, [sp, #120]
	sub	x10, x8, x9
	cmp	x10, #17
	b.ls	Ldcsctp_BB10_197
	ldr	x10, [sp, #112]
	stp	xzr, xzr, [x27]
	add	x11, x10, x9
	sub	x12, x11, x22
	cmp	x12, #17
	b.hi	Ldcsctp_BB10_199
Ldcsctp_BB10_97:
Ldcsctp_loh110:
	adrp	x12, ldcsctp_CPI10_32@PAGE
Ldcsctp_loh111:
	ldr	q0, [x12, ldcsctp_CPI10_32@PAGEOFF]
	str	q0, [x11]
	mov	w12, #15726
	strh	w12, [x11, #16]
	b	Ldcsctp_BB10_200
Ldcsctp_BB10_98:
	ldr	w21, [x8, #4]
	ldr	x8, [sp, #160]
	cbnz	x8, Ldcsctp_BB10_166
	ldp	x9, x8, [sp, #120]
	sub	x10, x8, x9
	cmp	x10, #27
	b.ls	Ldcsctp_BB10_207
Ldcsctp_BB10_100:
	ldr	x10, [sp, #112]
	stp	xzr, xzr, [x27]
Ldcsctp_loh112:
	adrp	x12, l_static.11@PAGE
Ldcsctp_loh113:
	add	x12, x12, l_static.11@PAGEOFF
	add	x11, x10, x9
	sub	x13, x11, x12
	cmp	x13, #27
	b.hi	Ldcsctp_BB10_138
Ldcsctp_loh114:
	adrp	x12, ldcsctp_CPI10_41@PAGE
Ldcsctp_loh115:
	ldr	q0, [x12, ldcsctp_CPI10_41@PAGEOFF]
	str	q0, [x11]
Ldcsctp_loh116:
	adrp	x12, ldcsctp_CPI10_42@PAGE
Ldcsctp_loh117:
	ldr	d0, [x12, ldcsctp_CPI10_42@PAGEOFF]
	str	d0, [x11, #16]
Ldcsctp_loh118:
	adrp	x12, ldcsctp_CPI10_43@PAGE
Ldcsctp_loh119:
	ldr	d0, [x12, ldcsctp_CPI10_43@PAGEOFF]
	str	s0, [x11, #24]
	b	Ldcsctp_BB10_139
Ldcsctp_BB10_102:
	ldr	w9, [x8, #8]
	ldr	w8, [x8, #20]
	str	w9, [sp, #200]
	stur	w8, [x29, #-96]
Ldcsctp_loh120:
	adrp	x22, l_static.38@PAGE
Ldcsctp_loh121:
	add	x22, x22, l_static.38@PAGEOFF
	mov	w8, #19
	stp	x22, x8, [sp, #224]
	add	x8, sp, #200
Ldcsctp_loh122:
	adrp	x21, l_static.39@PAGE
Ldcsctp_loh123:
	add	x21, x21, l_static.39@PAGEOFF
	stp	x8, x21, [sp, #240]
	mov	w8, #14
	sub	x9, x29, #96
	stp	x8, x9, [sp, #256]
	mov	w8, #32
	str	w8, [sp, #136]
	stur	xzr, [x24, #28]
	stur	wzr, [x24, #36]
	mov	x8, #-1
	str	x8, [sp, #152]
	ldr	x8, [sp, #160]
	cbnz	x8, Ldcsctp_BB10_169
	ldp	x9, x8, [sp, #120]
	sub	x10, x8, x9
	cmp	x10, #18
	b.ls	Ldcsctp_BB10_219
	ldr	x10, [sp, #112]
	stp	xzr, xzr, [x27]
	add	x11, x10, x9
	sub	x12, x11, x22
	cmp	x12, #18
	b.hi	Ldcsctp_BB10_221
Ldcsctp_BB10_105:
Ldcsctp_loh124:
	adrp	x12, ldcsctp_CPI10_18@PAGE
Ldcsctp_loh125:
	ldr	q0, [x12, ldcsctp_CPI10_18@PAGEOFF]
	str	q0, [x11]
	mov	w12, #26465
	strh	w12, [x11, #16]
	mov	w12, #61
	strb	w12, [x11, #18]
	b	Ldcsctp_BB10_222
Ldcsctp_BB10_106:
	ldrb	w21, [x8, #8]
	ldr	x8, [sp, #160]
	cbnz	x8, Ldcsctp_BB10_171
	ldp	x9, x8, [sp, #120]
	sub	x10, x8, x9
	cmp	x10, #19
	b.ls	Ldcsctp_BB10_235
Ldcsctp_BB10_108:
	ldr	x10, [sp, #112]
	stp	xzr, xzr, [x27]
Ldcsctp_loh126:
	adrp	x12, l_static.46@PAGE
Ldcsctp_loh127:
	add	x12, x12, l_static.46@PAGEOFF
	add	x11, x10, x9
	sub	x13, x11, x12
	cmp	x13, #19
	b.hi	Ldcsctp_BB10_140
Ldcsctp_loh128:
	adrp	x12, ldcsctp_CPI10_5@PAGE
Ldcsctp_loh129:
	ldr	q0, [x12, ldcsctp_CPI10_5@PAGEOFF]
	str	q0, [x11]
Ldcsctp_loh130:
	adrp	x12, ldcsctp_CPI10_6@PAGE
Ldcsctp_loh131:
	ldr	d0, [x12, ldcsctp_CPI10_6@PAGEOFF]
	str	s0, [x11, #16]
	b	Ldcsctp_BB10_141
Ldcsctp_BB10_110:
	ldr	x8, [sp, #160]
	cbnz	x8, Ldcsctp_BB10_172
	ldp	x9, x8, [sp, #120]
	sub	x10, x8, x9
	cmp	x10, #12
	b.ls	Ldcsctp_BB10_237
Ldcsctp_BB10_112:
	ldr	x10, [sp, #112]
Ldcsctp_loh132:
	adrp	x12, l_static.42@PAGE
Ldcsctp_loh133:
	add	x12, x12, l_static.42@PAGEOFF
	add	x11, x10, x9
	sub	x13, x11, x12
	cmp	x13, #12
	b.hi	Ldcsctp_BB10_130
Ldcsctp_loh134:
	adrp	x12, ldcsctp_CPI10_11@PAGE
Ldcsctp_loh135:
	ldr	d0, [x12, ldcsctp_CPI10_11@PAGEOFF]
	str	d0, [x11]
Ldcsctp_loh136:
	adrp	x12, ldcsctp_CPI10_12@PAGE
Ldcsctp_loh137:
	ldr	d0, [x12, ldcsctp_CPI10_12@PAGEOFF]
	str	s0, [x11, #8]
	mov	w12, #75
	strb	w12, [x11, #12]
	add	x9, x9, #13
	b	Ldcsctp_BB10_382
Ldcsctp_BB10_114:
	ldrb	w9, [x8, #44]
	cmp	w9, #1
	mov	w10, #7
	mov	w9, #9
	ldrb	w11, [x8, #50]
Ldcsctp_loh138:
	adrp	x12, l_static.25@PAGE
Ldcsctp_loh139:
	add	x12, x12, l_static.25@PAGEOFF
	ldrb	w13, [x8, #51]
Ldcsctp_loh140:
	adrp	x14, l_static.24@PAGE
Ldcsctp_loh141:
	add	x14, x14, l_static.24@PAGEOFF
	ldr	w15, [x8, #56]
	csel	x23, x9, x10, eq
	csel	x1, x14, x12, eq
	str	w15, [sp, #220]
	cmp	w13, #0
	mov	w12, #5
	ldrh	w13, [x8, #46]
	mov	w14, #8
	csel	x12, x14, x12, ne
	strh	w13, [sp, #218]
Ldcsctp_loh142:
	adrp	x13, l_static.27@PAGE
Ldcsctp_loh143:
	add	x13, x13, l_static.27@PAGEOFF
	ldr	w14, [x8, #32]
Ldcsctp_loh144:
	adrp	x15, l_static.26@PAGE
Ldcsctp_loh145:
	add	x15, x15, l_static.26@PAGEOFF
	ldr	w16, [x8, #40]
	csel	x13, x15, x13, ne
	mov	w15, #6
	stp	w16, w14, [sp, #208]
	mov	w14, #4
	csel	x14, x14, x15, ne
Ldcsctp_loh146:
	adrp	x16, l_static.29@PAGE
Ldcsctp_loh147:
	add	x16, x16, l_static.29@PAGEOFF
	ldr	x8, [x8, #16]
Ldcsctp_loh148:
	adrp	x17, l_static.28@PAGE
Ldcsctp_loh149:
	add	x17, x17, l_static.28@PAGEOFF
	str	x8, [sp, #200]
	csel	x8, x17, x16, ne
Ldcsctp_loh150:
	adrp	x27, l_static.34@PAGE
Ldcsctp_loh151:
	add	x27, x27, l_static.34@PAGEOFF
	mov	w16, #13
	stp	x27, x16, [sp, #224]
	cmp	w11, #0
	csel	x21, x12, x14, ne
	csel	x22, x13, x8, ne
	stp	x1, x23, [sp, #240]
Ldcsctp_loh152:
	adrp	x8, l_static.18@PAGE
Ldcsctp_loh153:
	add	x8, x8, l_static.18@PAGEOFF
	mov	w11, #2
	stp	x8, x11, [sp, #256]
	stp	x22, x21, [sp, #272]
Ldcsctp_loh154:
	adrp	x8, l_static.19@PAGE
Ldcsctp_loh155:
	add	x8, x8, l_static.19@PAGEOFF
	stp	x8, x15, [sp, #288]
	add	x8, sp, #220
Ldcsctp_loh156:
	adrp	x11, l_static.35@PAGE
Ldcsctp_loh157:
	add	x11, x11, l_static.35@PAGEOFF
	stp	x8, x11, [sp, #304]
	add	x8, sp, #218
	stp	x15, x8, [sp, #320]
Ldcsctp_loh158:
	adrp	x8, l_static.21@PAGE
Ldcsctp_loh159:
	add	x8, x8, l_static.21@PAGEOFF
	stp	x8, x15, [sp, #336]
	add	x8, sp, #212
Ldcsctp_loh160:
	adrp	x11, l_static.22@PAGE
Ldcsctp_loh161:
	add	x11, x11, l_static.22@PAGEOFF
	stp	x8, x11, [sp, #352]
	add	x8, sp, #208
	stp	x10, x8, [sp, #368]
Ldcsctp_loh162:
	adrp	x8, l_static.23@PAGE
Ldcsctp_loh163:
	add	x8, x8, l_static.23@PAGEOFF
	stp	x8, x9, [sp, #384]
	add	x8, sp, #200
	str	x8, [sp, #400]
	mov	w8, #32
	str	w8, [sp, #136]
	stur	xzr, [x24, #28]
	stur	wzr, [x24, #36]
	mov	x9, #-1
	str	x9, [sp, #152]
	ldur	q0, [x24, #24]
	stur	q0, [x29, #-128]
	ldur	x10, [x24, #40]
	stur	x10, [x29, #-112]
	str	w8, [sp, #136]
	stur	xzr, [x24, #28]
	stur	wzr, [x24, #36]
	str	x9, [sp, #152]
	ldr	x8, [sp, #160]
	cbnz	x8, Ldcsctp_BB10_174
	ldp	x9, x8, [sp, #120]
	sub	x10, x8, x9
	cmp	x10, #12
	b.ls	Ldcsctp_BB10_239
	ldr	x10, [sp, #112]
	add	x11, x10, x9
	sub	x12, x11, x27
	cmp	x12, #12
	b.hi	Ldcsctp_BB10_241
Ldcsctp_BB10_117:
Ldcsctp_loh164:
	adrp	x12, ldcsctp_CPI10_23@PAGE
Ldcsctp_loh165:
	ldr	d0, [x12, ldcsctp_CPI10_23@PAGEOFF]
	str	d0, [x11]
Ldcsctp_loh166:
	adrp	x12, ldcsctp_CPI10_24@PAGE
Ldcsctp_loh167:
	ldr	d0, [x12, ldcsctp_CPI10_24@PAGEOFF]
	str	s0, [x11, #8]
	mov	w12, #61
	strb	w12, [x11, #12]
	b	Ldcsctp_BB10_242
Ldcsctp_BB10_118:
	ldrb	w8, [x8, #8]
	strb	w8, [sp, #224]
	mov	w8, #32
	str	w8, [sp, #136]
	stur	xzr, [x24, #28]
	stur	wzr, [x24, #36]
	mov	x8, #-1
	str	x8, [sp, #152]
	ldr	x8, [sp, #160]
	cbnz	x8, Ldcsctp_BB10_175
	ldp	x9, x8, [sp, #120]
	sub	x10, x8, x9
	cmp	x10, #20
	b.ls	Ldcsctp_BB10_249
Ldcsctp_BB10_120:
	ldr	x10, [sp, #112]
	stp	xzr, xzr, [x27]
Ldcsctp_loh168:
	adrp	x12, l_static.43@PAGE
Ldcsctp_loh169:
	add	x12, x12, l_static.43@PAGEOFF
	add	x11, x10, x9
	sub	x13, x11, x12
	cmp	x13, #20
	b.hi	Ldcsctp_BB10_146
Ldcsctp_loh170:
	adrp	x12, ldcsctp_CPI10_9@PAGE
Ldcsctp_loh171:
	ldr	q0, [x12, ldcsctp_CPI10_9@PAGEOFF]
	str	q0, [x11]
Ldcsctp_loh172:
	adrp	x12, ldcsctp_CPI10_10@PAGE
Ldcsctp_loh173:
	ldr	d0, [x12, ldcsctp_CPI10_10@PAGEOFF]
	str	s0, [x11, #16]
	mov	w12, #61
	strb	w12, [x11, #20]
	b	Ldcsctp_BB10_147
Ldcsctp_BB10_122:
	ldr	x8, [x8, #16]
Ldcsctp_loh174:
	adrp	x22, l_static.32@PAGE
Ldcsctp_loh175:
	add	x22, x22, l_static.32@PAGEOFF
	stur	x8, [x29, #-128]
	mov	w8, #20
	stp	x22, x8, [sp, #224]
Ldcsctp_loh176:
	adrp	x21, l_static.33@PAGE
Ldcsctp_loh177:
	add	x21, x21, l_static.33@PAGEOFF
	sub	x8, x29, #128
	stp	x8, x21, [sp, #240]
	mov	w8, #6
	str	x8, [sp, #256]
	mov	w8, #32
	str	w8, [sp, #136]
	stur	xzr, [x24, #28]
	stur	wzr, [x24, #36]
	mov	x8, #-1
	str	x8, [sp, #152]
	ldr	x8, [sp, #160]
	cbnz	x8, Ldcsctp_BB10_177
	ldp	x9, x8, [sp, #120]
	sub	x10, x8, x9
	cmp	x10, #19
	b.ls	Ldcsctp_BB10_251
	ldr	x10, [sp, #112]
	stp	xzr, xzr, [x27]
	add	x11, x10, x9
	sub	x12, x11, x22
	cmp	x12, #19
	b.hi	Ldcsctp_BB10_253
Ldcsctp_BB10_125:
Ldcsctp_loh178:
	adrp	x12, ldcsctp_CPI10_29@PAGE
Ldcsctp_loh179:
	ldr	q0, [x12, ldcsctp_CPI10_29@PAGEOFF]
	str	q0, [x11]
Ldcsctp_loh180:
	adrp	x12, ldcsctp_CPI10_30@PAGE
Ldcsctp_loh181:
	ldr	d0, [x12, ldcsctp_CPI10_30@PAGEOFF]
	str	s0, [x11, #16]
	b	Ldcsctp_BB10_254
Ldcsctp_BB10_126:
	ldr	x8, [sp, #160]
	cbnz	x8, Ldcsctp_BB10_178
	ldp	x9, x8, [sp, #120]
	sub	x10, x8, x9
	cmp	x10, #11
	b.ls	Ldcsctp_BB10_261
Ldcsctp_BB10_128:
	ldr	x10, [sp, #112]
Ldcsctp_loh182:
	adrp	x12, l_static.12@PAGE
Ldcsctp_loh183:
	add	x12, x12, l_static.12@PAGEOFF
	add	x11, x10, x9
	sub	x13, x11, x12
	cmp	x13, #11
	b.hi	Ldcsctp_BB10_150
Ldcsctp_loh184:
	adrp	x12, ldcsctp_CPI10_39@PAGE
Ldcsctp_loh185:
	ldr	d0, [x12, ldcsctp_CPI10_39@PAGEOFF]
	str	d0, [x11]
Ldcsctp_loh186:
	adrp	x12, ldcsctp_CPI10_40@PAGE
Ldcsctp_loh187:
	ldr	d0, [x12, ldcsctp_CPI10_40@PAGEOFF]
	str	s0, [x11, #8]
	b	Ldcsctp_BB10_151
Ldcsctp_BB10_130:
	ldr	x13, [x12]
	str	x13, [x11]
	ldur	x12, [x12, #5]
	stur	x12, [x11, #5]
	add	x9, x9, #13
	b	Ldcsctp_BB10_382
Ldcsctp_BB10_131:
	mov	w13, #71
	strb	w13, [x11, #8]
	ldr	x12, [x12]
	str	x12, [x11]
	add	x9, x9, #9
	b	Ldcsctp_BB10_382
Ldcsctp_BB10_132:
	mov	w13, #19267
	strh	w13, [x11, #8]
	ldr	x12, [x12]
	str	x12, [x11]
	add	x9, x9, #10
	b	Ldcsctp_BB10_382
Ldcsctp_BB10_133:
	mov	w13, #61
	strb	w13, [x11, #32]
	ldp	q0, q1, [x12]
	stp	q0, q1, [x11]
Ldcsctp_BB10_134:
	add	x9, x9, #33
	b	Ldcsctp_BB10_148
Ldcsctp_BB10_135:
	mov	w12, #82
	strb	w12, [x11, #4]
	mov	w12, #21061
	movk	w12, #20306, lsl #16
	str	w12, [x11]
	add	x9, x9, #5
	b	Ldcsctp_BB10_382
Ldcsctp_BB10_136:
	ldp	q0, q1, [x12]
Ldcsctp_BB10_137:
	stp	q0, q1, [x11]
	add	x9, x9, #32
	b	Ldcsctp_BB10_46
Ldcsctp_BB10_138:
	ldr	q0, [x12]
	str	q0, [x11]
	ldur	q0, [x12, #12]
	stur	q0, [x11, #12]
Ldcsctp_BB10_139:
	add	x9, x9, #28
	b	Ldcsctp_BB10_46
Ldcsctp_BB10_140:
	mov	w13, #28793
	movk	w13, #15717, lsl #16
	str	w13, [x11, #16]
	ldr	q0, [x12]
	str	q0, [x11]
Ldcsctp_BB10_141:
	add	x9, x9, #20
	stp	x10, x9, [sp, #112]
	str	x8, [sp, #128]
Ldcsctp_BB10_142:
	mov	w8, #32
	str	w8, [sp, #136]
	stur	xzr, [x24, #28]
	stur	wzr, [x24, #36]
	mov	x8, #-1
	str	x8, [sp, #152]
	stp	xzr, xzr, [sp, #224]
	str	xzr, [sp, #240]
	cmp	w21, #100
	b.lo	Ldcsctp_BB10_144
	mov	w8, #41
	mul	w8, w21, w8
	lsr	w9, w8, #12
	mov	w8, #100
	msub	w8, w9, w8, w21
	and	w10, w8, #0xff
	mov	w11, #205
	mul	w10, w10, w11
	lsr	w10, w10, #11
	mov	w11, #10
	msub	w8, w10, w11, w8
	orr	w8, w8, #0x30
	strb	w8, [sp, #247]
	orr	w8, w10, #0x30
	strb	w8, [sp, #246]
	mov	w8, #21
	b	Ldcsctp_BB10_153
Ldcsctp_BB10_144:
	cmp	w21, #10
	b.lo	Ldcsctp_BB10_152
	mov	w8, #205
	mul	w8, w21, w8
	lsr	w8, w8, #11
	mov	w9, #10
	msub	w9, w8, w9, w21
	orr	w9, w9, #0x30
	strb	w9, [sp, #247]
	orr	w8, w8, #0x30
	strb	w8, [sp, #246]
	mov	w8, #22
	b	Ldcsctp_BB10_154
Ldcsctp_BB10_146:
	ldr	q0, [x12]
	str	q0, [x11]
	ldur	x12, [x12, #13]
	stur	x12, [x11, #13]
Ldcsctp_BB10_147:
	add	x9, x9, #21
Ldcsctp_BB10_148:
	stp	x10, x9, [sp, #112]
	str	x8, [sp, #128]
Ldcsctp_BB10_149:
	add	x0, sp, #112
	add	x1, sp, #224
	bl	_core.fmt.formatter.Formatter.write_piece.b05199c44017c92e
	b	Ldcsctp_BB10_49
Ldcsctp_BB10_150:
	mov	w13, #16685
	movk	w13, #19267, lsl #16
	str	w13, [x11, #8]
	ldr	x12, [x12]
	str	x12, [x11]
Ldcsctp_BB10_151:
	add	x9, x9, #12
	b	Ldcsctp_BB10_382
Ldcsctp_BB10_152:
	mov	w8, #23
	mov	x9, x21
Ldcsctp_BB10_153:
	orr	w9, w9, #0x30
	add	x10, sp, #224
	strb	w9, [x10, x8]
Ldcsctp_BB10_154:
	add	x9, sp, #224
	add	x1, x9, x8
	mov	w9, #45
	sturb	w9, [x1, #-1]
	mov	w9, #24
	sub	x2, x9, x8
	ldr	x8, [sp, #160]
	cbnz	x8, Ldcsctp_BB10_179
	ldp	x8, x21, [sp, #120]
	sub	x9, x21, x8
	cmp	x2, x9
	b.hi	Ldcsctp_BB10_277
Ldcsctp_BB10_156:
	add	x22, x8, x2
	ldr	x23, [sp, #112]
	add	x0, x23, x8
	bl	_memcpy
	stp	x23, x22, [sp, #112]
	str	x21, [sp, #128]
	b	Ldcsctp_BB10_383
Ldcsctp_BB10_157:
Ldcsctp_loh188:
	adrp	x1, l_static.37@PAGE
Ldcsctp_loh189:
	add	x1, x1, l_static.37@PAGEOFF
	add	x0, sp, #112
	mov	w2, #34
	b	Ldcsctp_BB10_167
Ldcsctp_BB10_158:
Ldcsctp_loh190:
	adrp	x1, l_static.45@PAGE
Ldcsctp_loh191:
	add	x1, x1, l_static.45@PAGEOFF
	add	x0, sp, #112
	mov	w2, #9
	bl	_core.fmt.formatter.Formatter.write_indented.69d84fb4438acd8c
	b	Ldcsctp_BB10_49
Ldcsctp_BB10_159:
Ldcsctp_loh192:
	adrp	x1, l_static.13@PAGE
Ldcsctp_loh193:
	add	x1, x1, l_static.13@PAGEOFF
	add	x0, sp, #112
	mov	w2, #10
	bl	_core.fmt.formatter.Formatter.write_indented.69d84fb4438acd8c
	b	Ldcsctp_BB10_49
Ldcsctp_BB10_160:
Ldcsctp_loh194:
	adrp	x1, l_static.41@PAGE
Ldcsctp_loh195:
	add	x1, x1, l_static.41@PAGEOFF
	b	Ldcsctp_BB10_173
Ldcsctp_BB10_161:
Ldcsctp_loh196:
	adrp	x1, l_static.14@PAGE
Ldcsctp_loh197:
	add	x1, x1, l_static.14@PAGEOFF
	add	x0, sp, #112
	mov	w2, #33
	b	Ldcsctp_BB10_176
Ldcsctp_BB10_162:
Ldcsctp_loh198:
	adrp	x1, l_static.44@PAGE
Ldcsctp_loh199:
	add	x1, x1, l_static.44@PAGEOFF
	add	x0, sp, #112
	mov	w2, #5
	bl	_core.fmt.formatter.Formatter.write_indented.69d84fb4438acd8c
	b	Ldcsctp_BB10_49
Ldcsctp_BB10_163:
Ldcsctp_loh200:
	adrp	x1, l_static.40@PAGE
Ldcsctp_loh201:
	add	x1, x1, l_static.40@PAGEOFF
	add	x0, sp, #112
	mov	w2, #23
	b	Ldcsctp_BB10_170
Ldcsctp_BB10_164:
Ldcsctp_loh202:
	adrp	x1, l_static.36@PAGE
Ldcsctp_loh203:
	add	x1, x1, l_static.36@PAGEOFF
	add	x0, sp, #112
	mov	w2, #32
	b	Ldcsctp_BB10_167
Ldcsctp_BB10_165:
Ldcsctp_loh204:
	adrp	x1, l_static.30@PAGE
Ldcsctp_loh205:
	add	x1, x1, l_static.30@PAGEOFF
	add	x0, sp, #112
	mov	w2, #18
	bl	_core.fmt.formatter.Formatter.write_indented.69d84fb4438acd8c
	and	w8, w0, #0xff
	tbz	w8, #0, Ldcsctp_BB10_201
	b	Ldcsctp_BB10_37
Ldcsctp_BB10_166:
Ldcsctp_loh206:
	adrp	x1, l_static.11@PAGE
Ldcsctp_loh207:
	add	x1, x1, l_static.11@PAGEOFF
	add	x0, sp, #112
	mov	w2, #28
Ldcsctp_BB10_167:
	bl	_core.fmt.formatter.Formatter.write_indented.69d84fb4438acd8c
	tst	w0, #0xff
	b.eq	Ldcsctp_BB10_47
	b	Ldcsctp_BB10_37
Ldcsctp_BB10_168:
Ldcsctp_loh208:
	adrp	x8, l_static.17@PAGE
Ldcsctp_loh209:
	add	x8, x8, l_static.17@PAGEOFF
	add	x0, sp, #112
	mov	x25, x1
	mov	x1, x8
	mov	w2, #11
	bl	_core.fmt.formatter.Formatter.write_indented.69d84fb4438acd8c
	mov	x1, x25
	and	w8, w0, #0xff
	tbz	w8, #0, Ldcsctp_BB10_213
	b	Ldcsctp_BB10_37
Ldcsctp_BB10_169:
Ldcsctp_loh210:
	adrp	x1, l_static.38@PAGE
Ldcsctp_loh211:
	add	x1, x1, l_static.38@PAGEOFF
	add	x0, sp, #112
	mov	w2, #19
Ldcsctp_BB10_170:
	bl	_core.fmt.formatter.Formatter.write_indented.69d84fb4438acd8c
	and	w8, w0, #0xff
	tbz	w8, #0, Ldcsctp_BB10_224
	b	Ldcsctp_BB10_37
Ldcsctp_BB10_171:
Ldcsctp_loh212:
	adrp	x1, l_static.46@PAGE
Ldcsctp_loh213:
	add	x1, x1, l_static.46@PAGEOFF
	add	x0, sp, #112
	mov	w2, #20
	bl	_core.fmt.formatter.Formatter.write_indented.69d84fb4438acd8c
	and	w8, w0, #0xff
	tbz	w8, #0, Ldcsctp_BB10_142
	b	Ldcsctp_BB10_37
Ldcsctp_BB10_172:
Ldcsctp_loh214:
	adrp	x1, l_static.42@PAGE
Ldcsctp_loh215:
	add	x1, x1, l_static.42@PAGEOFF
Ldcsctp_BB10_173:
	add	x0, sp, #112
	mov	w2, #13
	bl	_core.fmt.formatter.Formatter.write_indented.69d84fb4438acd8c
	b	Ldcsctp_BB10_49
Ldcsctp_BB10_174:
Ldcsctp_loh216:
	adrp	x8, l_static.34@PAGE
Ldcsctp_loh217:
	add	x8, x8, l_static.34@PAGEOFF
	add	x0, sp, #112
	mov	x25, x1
	mov	x1, x8
	mov	w2, #13
	bl	_core.fmt.formatter.Formatter.write_indented.69d84fb4438acd8c
	mov	x1, x25
	and	w8, w0, #0xff
	tbz	w8, #0, Ldcsctp_BB10_243
	b	Ldcsctp_BB10_37
Ldcsctp_BB10_175:
Ldcsctp_loh218:
	adrp	x1, l_static.43@PAGE
Ldcsctp_loh219:
	add	x1, x1, l_static.43@PAGEOFF
	add	x0, sp, #112
	mov	w2, #21
Ldcsctp_BB10_176:
	bl	_core.fmt.formatter.Formatter.write_indented.69d84fb4438acd8c
	tst	w0, #0xff
	b.eq	Ldcsctp_BB10_149
	b	Ldcsctp_BB10_37
Ldcsctp_BB10_177:
Ldcsctp_loh220:
	adrp	x1, l_static.32@PAGE
Ldcsctp_loh221:
	add	x1, x1, l_static.32@PAGEOFF
	add	x0, sp, #112
	mov	w2, #20
	bl	_core.fmt.formatter.Formatter.write_indented.69d84fb4438acd8c
	and	w8, w0, #0xff
	tbz	w8, #0, Ldcsctp_BB10_255
	b	Ldcsctp_BB10_37
Ldcsctp_BB10_178:
Ldcsctp_loh222:
	adrp	x1, l_static.12@PAGE
Ldcsctp_loh223:
	add	x1, x1, l_static.12@PAGEOFF
	add	x0, sp, #112
	mov	w2, #12
	bl	_core.fmt.formatter.Formatter.write_indented.69d84fb4438acd8c
	b	Ldcsctp_BB10_49
Ldcsctp_BB10_179:
	add	x0, sp, #112
	bl	_core.fmt.formatter.Formatter.write_indented.69d84fb4438acd8c
	b	Ldcsctp_BB10_49
Ldcsctp_BB10_180:
	add	x0, sp, #112
	mov	w1, #34
	bl	_std_alloc.vec.Vec.grow_amortized.38fbb921ed00a393
	cbz	w0, Ldcsctp_BB10_37
	ldp	x9, x8, [sp, #120]
	b	Ldcsctp_BB10_64
Ldcsctp_BB10_182:
	add	x0, sp, #112
	mov	w1, #9
	bl	_std_alloc.vec.Vec.grow_amortized.38fbb921ed00a393
	tbz	w0, #0, Ldcsctp_BB10_37
	ldp	x9, x8, [sp, #120]
	b	Ldcsctp_BB10_68
Ldcsctp_BB10_184:
	add	x0, sp, #112
	mov	w1, #10
	bl	_std_alloc.vec.Vec.grow_amortized.38fbb921ed00a393
	tbz	w0, #0, Ldcsctp_BB10_37
	ldp	x9, x8, [sp, #120]
	b	Ldcsctp_BB10_72
Ldcsctp_BB10_186:
	add	x0, sp, #112
	mov	w1, #13
	bl	_std_alloc.vec.Vec.grow_amortized.38fbb921ed00a393
	tbz	w0, #0, Ldcsctp_BB10_37
	ldp	x9, x8, [sp, #120]
	b	Ldcsctp_BB10_76
Ldcsctp_BB10_188:
	add	x0, sp, #112
	mov	w1, #33
	bl	_std_alloc.vec.Vec.grow_amortized.38fbb921ed00a393
	cbz	w0, Ldcsctp_BB10_37
	ldp	x9, x8, [sp, #120]
	b	Ldcsctp_BB10_80
Ldcsctp_BB10_190:
	add	x0, sp, #112
	mov	w1, #5
	bl	_std_alloc.vec.Vec.grow_amortized.38fbb921ed00a393
	tbz	w0, #0, Ldcsctp_BB10_37
	ldp	x9, x8, [sp, #120]
	b	Ldcsctp_BB10_84
Ldcsctp_BB10_192:
	add	x0, sp, #112
	mov	w1, #23
	bl	_std_alloc.vec.Vec.grow_amortized.38fbb921ed00a393
	cbz	w0, Ldcsctp_BB10_37
	ldp	x9, x8, [sp, #120]
	ldr	x10, [sp, #112]
	stp	xzr, xzr, [x27]
	add	x11, x10, x9
	sub	x12, x11, x22
	cmp	x12, #22
	b.ls	Ldcsctp_BB10_89
Ldcsctp_BB10_194:
	ldr	q0, [x22]
	str	q0, [x11]
	ldur	x12, [x22, #15]
	stur	x12, [x11, #15]
	add	x9, x9, #23
	b	Ldcsctp_BB10_223
Ldcsctp_BB10_195:
	add	x0, sp, #112
	mov	w1, #32
	bl	_std_alloc.vec.Vec.grow_amortized.38fbb921ed00a393
	cbz	w0, Ldcsctp_BB10_37
	ldp	x9, x8, [sp, #120]
	b	Ldcsctp_BB10_92
Ldcsctp_BB10_197:
	add	x0, sp, #112
	mov	w1, #18
	bl	_std_alloc.vec.Vec.grow_amortized.38fbb921ed00a393
	cbz	w0, Ldcsctp_BB10_37
	ldp	x9, x8, [sp, #120]
	ldr	x10, [sp, #112]
	stp	xzr, xzr, [x27]
	add	x11, x10, x9
	sub	x12, x11, x22
	cmp	x12, #17
	b.ls	Ldcsctp_BB10_97
Ldcsctp_BB10_199:
	mov	w12, #15726
	strh	w12, [x11, #16]
	ldr	q0, [x22]
	str	q0, [x11]
Ldcsctp_BB10_200:
	add	x9, x9, #18
	stp	x10, x9, [sp, #112]
	str	x8, [sp, #128]
Ldcsctp_BB10_201:
	ldr	w8, [sp, #200]
	stur	w8, [x29, #-104]
	sub	x8, x29, #104
	stur	x8, [x29, #-128]
	mov	w22, #32
	str	w22, [sp, #136]
	stur	xzr, [x24, #28]
	stur	wzr, [x24, #36]
	mov	x23, #-1
	str	x23, [sp, #152]
	add	x0, sp, #112
	sub	x1, x29, #128
	bl	_core.fmt.formatter.Formatter.write_piece.7d2ac8fd5c291299
	and	w8, w0, #0xff
	tbnz	w8, #0, Ldcsctp_BB10_37
	str	w22, [sp, #136]
	stur	xzr, [x24, #28]
	stur	wzr, [x24, #36]
	str	x23, [sp, #152]
	ldr	x8, [sp, #160]
	cbnz	x8, Ldcsctp_BB10_206
	ldp	x9, x8, [sp, #120]
	sub	x10, x8, x9
	cmp	x10, #8
	b.ls	Ldcsctp_BB10_373
	ldr	x10, [sp, #112]
	add	x11, x10, x9
	sub	x12, x11, x21
	cmp	x12, #8
	b.hi	Ldcsctp_BB10_375
Ldcsctp_BB10_205:
Ldcsctp_loh224:
	adrp	x12, ldcsctp_CPI10_33@PAGE
Ldcsctp_loh225:
	ldr	d0, [x12, ldcsctp_CPI10_33@PAGEOFF]
	str	d0, [x11]
	mov	w12, #61
	strb	w12, [x11, #8]
	b	Ldcsctp_BB10_376
Ldcsctp_BB10_206:
Ldcsctp_loh226:
	adrp	x1, l_static.31@PAGE
Ldcsctp_loh227:
	add	x1, x1, l_static.31@PAGEOFF
	add	x0, sp, #112
	mov	w2, #9
	bl	_core.fmt.formatter.Formatter.write_indented.69d84fb4438acd8c
	tst	w0, #0xff
	b.eq	Ldcsctp_BB10_377
	b	Ldcsctp_BB10_37
Ldcsctp_BB10_207:
	add	x0, sp, #112
	mov	w1, #28
	bl	_std_alloc.vec.Vec.grow_amortized.38fbb921ed00a393
	cbz	w0, Ldcsctp_BB10_37
	ldp	x9, x8, [sp, #120]
	b	Ldcsctp_BB10_100
Ldcsctp_BB10_209:
	add	x0, sp, #112
	mov	x25, x1
	mov	w1, #11
	bl	_std_alloc.vec.Vec.grow_amortized.38fbb921ed00a393
	cbz	w0, Ldcsctp_BB10_37
	mov	x1, x25
	ldp	x9, x8, [sp, #120]
	ldr	x10, [sp, #112]
	add	x11, x10, x9
	sub	x12, x11, x27
	cmp	x12, #10
	b.ls	Ldcsctp_BB10_58
Ldcsctp_BB10_211:
	mov	w12, #28793
	movk	w12, #15717, lsl #16
	stur	w12, [x11, #7]
	ldr	x12, [x27]
	str	x12, [x11]
Ldcsctp_BB10_212:
	add	x9, x9, #11
	stp	x10, x9, [sp, #112]
	str	x8, [sp, #128]
Ldcsctp_BB10_213:
	mov	w8, #32
	str	w8, [sp, #136]
	stur	xzr, [x24, #28]
	stur	wzr, [x24, #36]
	mov	x8, #-1
	str	x8, [sp, #152]
	ldr	x8, [sp, #160]
	cbnz	x8, Ldcsctp_BB10_218
	ldp	x28, x27, [sp, #120]
	sub	x8, x27, x28
	cmp	x23, x8
	b.hi	Ldcsctp_BB10_263
	ldr	x25, [sp, #112]
	add	x8, x25, x28
	sub	x9, x8, x1
	cmp	x9, x23
	b.hs	Ldcsctp_BB10_265
Ldcsctp_BB10_216:
	mov	x9, x23
Ldcsctp_BB10_217:
	ldrb	w10, [x1], #1
	strb	w10, [x8], #1
	subs	x9, x9, #1
	b.ne	Ldcsctp_BB10_217
	b	Ldcsctp_BB10_266
Ldcsctp_BB10_218:
	add	x0, sp, #112
	mov	x2, x23
	bl	_core.fmt.formatter.Formatter.write_indented.69d84fb4438acd8c
	and	w8, w0, #0xff
	tbz	w8, #0, Ldcsctp_BB10_267
	b	Ldcsctp_BB10_37
Ldcsctp_BB10_219:
	add	x0, sp, #112
	mov	w1, #19
	bl	_std_alloc.vec.Vec.grow_amortized.38fbb921ed00a393
	cbz	w0, Ldcsctp_BB10_37
	ldp	x9, x8, [sp, #120]
	ldr	x10, [sp, #112]
	stp	xzr, xzr, [x27]
	add	x11, x10, x9
	sub	x12, x11, x22
	cmp	x12, #18
	b.ls	Ldcsctp_BB10_105
Ldcsctp_BB10_221:
	mov	w12, #24948
	movk	w12, #15719, lsl #16
	stur	w12, [x11, #15]
	ldr	q0, [x22]
	str	q0, [x11]
Ldcsctp_BB10_222:
	add	x9, x9, #19
Ldcsctp_BB10_223:
	stp	x10, x9, [sp, #112]
	str	x8, [sp, #128]
Ldcsctp_BB10_224:
	add	x0, sp, #112
	add	x8, sp, #224
	add	x1, x8, #16
	bl	_core.fmt.formatter.Formatter.write_piece.7d2ac8fd5c291299
	and	w8, w0, #0xff
	tbnz	w8, #0, Ldcsctp_BB10_37
	mov	w8, #32
	str	w8, [sp, #136]
	stur	xzr, [x24, #28]
	stur	wzr, [x24, #36]
	mov	x8, #-1
	str	x8, [sp, #152]
	ldr	x8, [sp, #160]
	cbnz	x8, Ldcsctp_BB10_229
	ldp	x9, x8, [sp, #120]
	sub	x10, x8, x9
	cmp	x10, #13
	b.ls	Ldcsctp_BB10_230
	ldr	x10, [sp, #112]
	add	x11, x10, x9
	sub	x12, x11, x21
	cmp	x12, #13
	b.hi	Ldcsctp_BB10_232
Ldcsctp_BB10_228:
Ldcsctp_loh228:
	adrp	x12, ldcsctp_CPI10_16@PAGE
Ldcsctp_loh229:
	ldr	d0, [x12, ldcsctp_CPI10_16@PAGEOFF]
	str	d0, [x11]
Ldcsctp_loh230:
	adrp	x12, ldcsctp_CPI10_17@PAGE
Ldcsctp_loh231:
	ldr	d0, [x12, ldcsctp_CPI10_17@PAGEOFF]
	str	s0, [x11, #8]
	mov	w12, #15726
	strh	w12, [x11, #12]
	b	Ldcsctp_BB10_233
Ldcsctp_BB10_229:
Ldcsctp_loh232:
	adrp	x1, l_static.39@PAGE
Ldcsctp_loh233:
	add	x1, x1, l_static.39@PAGEOFF
	add	x0, sp, #112
	mov	w2, #14
	bl	_core.fmt.formatter.Formatter.write_indented.69d84fb4438acd8c
	tst	w0, #0xff
	b.eq	Ldcsctp_BB10_234
	b	Ldcsctp_BB10_37
Ldcsctp_BB10_230:
	add	x0, sp, #112
	mov	w1, #14
	bl	_std_alloc.vec.Vec.grow_amortized.38fbb921ed00a393
	cbz	w0, Ldcsctp_BB10_37
	ldp	x9, x8, [sp, #120]
	ldr	x10, [sp, #112]
	add	x11, x10, x9
	sub	x12, x11, x21
	cmp	x12, #13
	b.ls	Ldcsctp_BB10_228
Ldcsctp_BB10_232:
	ldr	x12, [x21]
	str	x12, [x11]
	ldur	x12, [x21, #6]
	stur	x12, [x11, #6]
Ldcsctp_BB10_233:
	add	x9, x9, #14
	stp	x10, x9, [sp, #112]
	str	x8, [sp, #128]
Ldcsctp_BB10_234:
	ldur	w8, [x29, #-96]
	stur	w8, [x29, #-104]
	sub	x8, x29, #104
	stur	x8, [x29, #-128]
	mov	w8, #32
	str	w8, [sp, #136]
	stur	xzr, [x24, #28]
	stur	wzr, [x24, #36]
	mov	x8, #-1
	str	x8, [sp, #152]
	add	x0, sp, #112
	sub	x1, x29, #128
	b	Ldcsctp_BB10_48
Ldcsctp_BB10_235:
	add	x0, sp, #112
	mov	w1, #20
	bl	_std_alloc.vec.Vec.grow_amortized.38fbb921ed00a393
	cbz	w0, Ldcsctp_BB10_37
	ldp	x9, x8, [sp, #120]
	b	Ldcsctp_BB10_108
Ldcsctp_BB10_237:
	add	x0, sp, #112
	mov	w1, #13
	bl	_std_alloc.vec.Vec.grow_amortized.38fbb921ed00a393
	tbz	w0, #0, Ldcsctp_BB10_37
	ldp	x9, x8, [sp, #120]
	b	Ldcsctp_BB10_112
Ldcsctp_BB10_239:
	add	x0, sp, #112
	mov	x25, x1
	mov	w1, #13
	bl	_std_alloc.vec.Vec.grow_amortized.38fbb921ed00a393
	cbz	w0, Ldcsctp_BB10_37
	mov	x1, x25
	ldp	x9, x8, [sp, #120]
	ldr	x10, [sp, #112]
	add	x11, x10, x9
	sub	x12, x11, x27
	cmp	x12, #12
	b.ls	Ldcsctp_BB10_117
Ldcsctp_BB10_241:
	ldr	x12, [x27]
	str	x12, [x11]
	ldur	x12, [x27, #5]
	stur	x12, [x11, #5]
Ldcsctp_BB10_242:
	add	x9, x9, #13
	stp	x10, x9, [sp, #112]
	str	x8, [sp, #128]
Ldcsctp_BB10_243:
	mov	w8, #32
	str	w8, [sp, #136]
	stur	xzr, [x24, #28]
	stur	wzr, [x24, #36]
	mov	x8, #-1
	str	x8, [sp, #152]
	ldr	x8, [sp, #160]
	cbnz	x8, Ldcsctp_BB10_248
	ldp	x28, x27, [sp, #120]
	sub	x8, x27, x28
	cmp	x23, x8
	b.hi	Ldcsctp_BB10_279
	ldr	x25, [sp, #112]
	add	x8, x25, x28
	sub	x9, x8, x1
	cmp	x9, x23
	b.hs	Ldcsctp_BB10_281
Ldcsctp_BB10_246:
	mov	x9, x23
Ldcsctp_BB10_247:
	ldrb	w10, [x1], #1
	strb	w10, [x8], #1
	subs	x9, x9, #1
	b.ne	Ldcsctp_BB10_247
	b	Ldcsctp_BB10_282
Ldcsctp_BB10_248:
	add	x0, sp, #112
	mov	x2, x23
	bl	_core.fmt.formatter.Formatter.write_indented.69d84fb4438acd8c
	and	w8, w0, #0xff
	tbz	w8, #0, Ldcsctp_BB10_283
	b	Ldcsctp_BB10_37
Ldcsctp_BB10_249:
	add	x0, sp, #112
	mov	w1, #21
	bl	_std_alloc.vec.Vec.grow_amortized.38fbb921ed00a393
	cbz	w0, Ldcsctp_BB10_37
	ldp	x9, x8, [sp, #120]
	b	Ldcsctp_BB10_120
Ldcsctp_BB10_251:
	add	x0, sp, #112
	mov	w1, #20
	bl	_std_alloc.vec.Vec.grow_amortized.38fbb921ed00a393
	cbz	w0, Ldcsctp_BB10_37
	ldp	x9, x8, [sp, #120]
	ldr	x10, [sp, #112]
	stp	xzr, xzr, [x27]
	add	x11, x10, x9
	sub	x12, x11, x22
	cmp	x12, #19
	b.ls	Ldcsctp_BB10_125
Ldcsctp_BB10_253:
	mov	w12, #26987
	movk	w12, #15717, lsl #16
	str	w12, [x11, #16]
	ldr	q0, [x22]
	str	q0, [x11]
Ldcsctp_BB10_254:
	add	x9, x9, #20
	stp	x10, x9, [sp, #112]
	str	x8, [sp, #128]
Ldcsctp_BB10_255:
	add	x0, sp, #112
	add	x8, sp, #224
	add	x1, x8, #16
	bl	_core.fmt.formatter.Formatter.write_piece.861f8385eb98801e
	and	w8, w0, #0xff
	tbnz	w8, #0, Ldcsctp_BB10_37
	mov	w8, #32
	str	w8, [sp, #136]
	stur	xzr, [x24, #28]
	stur	wzr, [x24, #36]
	mov	x8, #-1
	str	x8, [sp, #152]
	ldr	x8, [sp, #160]
	cbnz	x8, Ldcsctp_BB10_260
	ldp	x9, x8, [sp, #120]
	sub	x10, x8, x9
	cmp	x10, #5
	b.ls	Ldcsctp_BB10_378
	ldr	x10, [sp, #112]
	add	x11, x10, x9
	sub	x12, x11, x21
	cmp	x12, #5
	b.hi	Ldcsctp_BB10_380
Ldcsctp_BB10_259:
Ldcsctp_loh234:
	adrp	x12, ldcsctp_CPI10_31@PAGE
Ldcsctp_loh235:
	ldr	d0, [x12, ldcsctp_CPI10_31@PAGEOFF]
	str	s0, [x11]
	mov	w12, #29541
	strh	w12, [x11, #4]
	b	Ldcsctp_BB10_381
Ldcsctp_BB10_260:
Ldcsctp_loh236:
	adrp	x1, l_static.33@PAGE
Ldcsctp_loh237:
	add	x1, x1, l_static.33@PAGEOFF
	add	x0, sp, #112
	mov	w2, #6
	bl	_core.fmt.formatter.Formatter.write_indented.69d84fb4438acd8c
	b	Ldcsctp_BB10_49
Ldcsctp_BB10_261:
	add	x0, sp, #112
	mov	w1, #12
	bl	_std_alloc.vec.Vec.grow_amortized.38fbb921ed00a393
	tbz	w0, #0, Ldcsctp_BB10_37
	ldp	x9, x8, [sp, #120]
	b	Ldcsctp_BB10_128
Ldcsctp_BB10_263:
	add	x0, sp, #112
	mov	x25, x1
	mov	x1, x23
	bl	_std_alloc.vec.Vec.grow_amortized.38fbb921ed00a393
	cbz	w0, Ldcsctp_BB10_37
	mov	x1, x25
	ldp	x28, x27, [sp, #120]
	ldr	x25, [sp, #112]
	add	x8, x25, x28
	sub	x9, x8, x1
	cmp	x9, x23
	b.lo	Ldcsctp_BB10_216
Ldcsctp_BB10_265:
	add	x0, x25, x28
	mov	x2, x23
	bl	_memcpy
Ldcsctp_BB10_266:
	add	x8, x28, x23
	stp	x25, x8, [sp, #112]
	str	x27, [sp, #128]
	ldr	x28, [sp, #8]
Ldcsctp_BB10_267:
	mov	w8, #32
	str	w8, [sp, #136]
	stur	xzr, [x24, #28]
	stur	wzr, [x24, #36]
	mov	x8, #-1
	str	x8, [sp, #152]
	ldr	x8, [sp, #160]
	cbnz	x8, Ldcsctp_BB10_275
	ldp	x9, x8, [sp, #120]
	sub	x10, x8, x9
	cmp	x10, #1
	b.ls	Ldcsctp_BB10_293
Ldcsctp_BB10_269:
	add	x10, x9, #2
	ldr	x11, [sp, #112]
	mov	w12, #14906
	strh	w12, [x11, x9]
	stp	x11, x10, [sp, #112]
	str	x8, [sp, #128]
Ldcsctp_BB10_270:
	mov	w8, #32
	str	w8, [sp, #136]
	stur	xzr, [x24, #28]
	stur	wzr, [x24, #36]
	mov	x8, #-1
	str	x8, [sp, #152]
	ldr	x8, [sp, #160]
	cbnz	x8, Ldcsctp_BB10_276
	ldp	x27, x23, [sp, #120]
	sub	x8, x23, x27
	cmp	x21, x8
	b.hi	Ldcsctp_BB10_297
	ldr	x25, [sp, #112]
	add	x8, x25, x27
	sub	x9, x8, x22
	cmp	x9, x21
	b.hs	Ldcsctp_BB10_299
Ldcsctp_BB10_273:
	mov	x9, x21
Ldcsctp_BB10_274:
	ldrb	w10, [x22], #1
	strb	w10, [x8], #1
	subs	x9, x9, #1
	b.ne	Ldcsctp_BB10_274
	b	Ldcsctp_BB10_300
Ldcsctp_BB10_275:
Ldcsctp_loh238:
	adrp	x1, l_static.18@PAGE
Ldcsctp_loh239:
	add	x1, x1, l_static.18@PAGEOFF
	add	x0, sp, #112
	mov	w2, #2
	bl	_core.fmt.formatter.Formatter.write_indented.69d84fb4438acd8c
	and	w8, w0, #0xff
	tbz	w8, #0, Ldcsctp_BB10_270
	b	Ldcsctp_BB10_37
Ldcsctp_BB10_276:
	add	x0, sp, #112
	mov	x1, x22
	mov	x2, x21
	bl	_core.fmt.formatter.Formatter.write_indented.69d84fb4438acd8c
	and	w8, w0, #0xff
	tbz	w8, #0, Ldcsctp_BB10_301
	b	Ldcsctp_BB10_37
Ldcsctp_BB10_277:
	mov	x22, x1
	add	x0, sp, #112
	mov	x23, x2
	mov	x1, x2
	bl	_std_alloc.vec.Vec.grow_amortized.38fbb921ed00a393
	tbz	w0, #0, Ldcsctp_BB10_37
	ldp	x8, x21, [sp, #120]
	mov	x1, x22
	mov	x2, x23
	b	Ldcsctp_BB10_156
Ldcsctp_BB10_279:
	add	x0, sp, #112
	mov	x25, x1
	mov	x1, x23
	bl	_std_alloc.vec.Vec.grow_amortized.38fbb921ed00a393
	cbz	w0, Ldcsctp_BB10_37
	mov	x1, x25
	ldp	x28, x27, [sp, #120]
	ldr	x25, [sp, #112]
	add	x8, x25, x28
	sub	x9, x8, x1
	cmp	x9, x23
	b.lo	Ldcsctp_BB10_246
Ldcsctp_BB10_281:
	add	x0, x25, x28
	mov	x2, x23
	bl	_memcpy
Ldcsctp_BB10_282:
	add	x8, x28, x23
	stp	x25, x8, [sp, #112]
	str	x27, [sp, #128]
	ldr	x28, [sp, #8]
Ldcsctp_BB10_283:
	mov	w8, #32
	str	w8, [sp, #136]
	stur	xzr, [x24, #28]
	stur	wzr, [x24, #36]
	mov	x8, #-1
	str	x8, [sp, #152]
	ldr	x8, [sp, #160]
	cbnz	x8, Ldcsctp_BB10_291
	ldp	x9, x8, [sp, #120]
	sub	x10, x8, x9
	cmp	x10, #1
	b.ls	Ldcsctp_BB10_295
Ldcsctp_BB10_285:
	add	x10, x9, #2
	ldr	x11, [sp, #112]
	mov	w12, #14906
	strh	w12, [x11, x9]
	stp	x11, x10, [sp, #112]
	str	x8, [sp, #128]
Ldcsctp_BB10_286:
	mov	w8, #32
	str	w8, [sp, #136]
	stur	xzr, [x24, #28]
	stur	wzr, [x24, #36]
	mov	x8, #-1
	str	x8, [sp, #152]
	ldr	x8, [sp, #160]
	cbnz	x8, Ldcsctp_BB10_292
	ldp	x27, x23, [sp, #120]
	sub	x8, x23, x27
	cmp	x21, x8
	b.hi	Ldcsctp_BB10_331
	ldr	x25, [sp, #112]
	add	x8, x25, x27
	sub	x9, x8, x22
	cmp	x9, x21
	b.hs	Ldcsctp_BB10_333
Ldcsctp_BB10_289:
	mov	x9, x21
Ldcsctp_BB10_290:
	ldrb	w10, [x22], #1
	strb	w10, [x8], #1
	subs	x9, x9, #1
	b.ne	Ldcsctp_BB10_290
	b	Ldcsctp_BB10_334
Ldcsctp_BB10_291:
Ldcsctp_loh240:
	adrp	x1, l_static.18@PAGE
Ldcsctp_loh241:
	add	x1, x1, l_static.18@PAGEOFF
	add	x0, sp, #112
	mov	w2, #2
	bl	_core.fmt.formatter.Formatter.write_indented.69d84fb4438acd8c
	and	w8, w0, #0xff
	tbz	w8, #0, Ldcsctp_BB10_286
	b	Ldcsctp_BB10_37
Ldcsctp_BB10_292:
	add	x0, sp, #112
	mov	x1, x22
	mov	x2, x21
	bl	_core.fmt.formatter.Formatter.write_indented.69d84fb4438acd8c
	and	w8, w0, #0xff
	tbz	w8, #0, Ldcsctp_BB10_335
	b	Ldcsctp_BB10_37
Ldcsctp_BB10_293:
	add	x0, sp, #112
	mov	w1, #2
	bl	_std_alloc.vec.Vec.grow_amortized.38fbb921ed00a393
	cbz	w0, Ldcsctp_BB10_37
	ldp	x9, x8, [sp, #120]
	b	Ldcsctp_BB10_269
Ldcsctp_BB10_295:
	add	x0, sp, #112
	mov	w1, #2
	bl	_std_alloc.vec.Vec.grow_amortized.38fbb921ed00a393
	cbz	w0, Ldcsctp_BB10_37
	ldp	x9, x8, [sp, #120]
	b	Ldcsctp_BB10_285
Ldcsctp_BB10_297:
	add	x0, sp, #112
	mov	x1, x21
	bl	_std_alloc.vec.Vec.grow_amortized.38fbb921ed00a393
	cbz	w0, Ldcsctp_BB10_37
	ldp	x27, x23, [sp, #120]
	ldr	x25, [sp, #112]
	add	x8, x25, x27
	sub	x9, x8, x22
	cmp	x9, x21
	b.lo	Ldcsctp_BB10_273
Ldcsctp_BB10_299:
	add	x0, x25, x27
	mov	x1, x22
	mov	x2, x21
	bl	_memcpy
Ldcsctp_BB10_300:
	add	x8, x27, x21
	stp	x25, x8, [sp, #112]
	str	x23, [sp, #128]
Ldcsctp_BB10_301:
	mov	w8, #32
	str	w8, [sp, #136]
	stur	xzr, [x24, #28]
	stur	wzr, [x24, #36]
	mov	x8, #-1
	str	x8, [sp, #152]
	ldr	x8, [sp, #160]
	cbnz	x8, Ldcsctp_BB10_329
	ldp	x9, x8, [sp, #120]
	sub	x10, x8, x9
	cmp	x10, #5
	b.ls	Ldcsctp_BB10_367
Ldcsctp_BB10_303:
	ldr	x10, [sp, #112]
	add	x11, x10, x9
Ldcsctp_loh242:
	adrp	x12, l_static.19@PAGE
Ldcsctp_loh243:
	add	x12, x12, l_static.19@PAGEOFF
	sub	x12, x11, x12
	cmp	x12, #5
	b.hi	Ldcsctp_BB10_305
Ldcsctp_loh244:
	adrp	x12, ldcsctp_CPI10_25@PAGE
Ldcsctp_loh245:
	ldr	d0, [x12, ldcsctp_CPI10_25@PAGEOFF]
	str	s0, [x11]
	mov	w12, #15726
	strh	w12, [x11, #4]
	b	Ldcsctp_BB10_306
Ldcsctp_BB10_305:
	mov	w12, #15726
	strh	w12, [x11, #4]
	mov	w12, #8236
	movk	w12, #29556, lsl #16
	str	w12, [x11]
Ldcsctp_BB10_306:
	add	x9, x9, #6
	stp	x10, x9, [sp, #112]
	str	x8, [sp, #128]
Ldcsctp_BB10_307:
	ldr	w8, [sp, #220]
	stur	w8, [x29, #-96]
	sub	x8, x29, #96
	stur	x8, [x29, #-104]
	mov	w21, #32
	str	w21, [sp, #136]
	stur	xzr, [x24, #28]
	stur	wzr, [x24, #36]
	mov	x22, #-1
	str	x22, [sp, #152]
	add	x0, sp, #112
	sub	x1, x29, #104
	bl	_core.fmt.formatter.Formatter.write_piece.7d2ac8fd5c291299
	and	w8, w0, #0xff
	tbnz	w8, #0, Ldcsctp_BB10_37
	str	w21, [sp, #136]
	stur	xzr, [x24, #28]
	stur	wzr, [x24, #36]
	str	x22, [sp, #152]
	ldr	x8, [sp, #160]
	cbnz	x8, Ldcsctp_BB10_330
	ldp	x9, x8, [sp, #120]
	sub	x10, x8, x9
	cmp	x10, #5
	b.ls	Ldcsctp_BB10_384
Ldcsctp_BB10_310:
	ldr	x10, [sp, #112]
	add	x11, x10, x9
Ldcsctp_loh246:
	adrp	x12, l_static.20@PAGE
Ldcsctp_loh247:
	add	x12, x12, l_static.20@PAGEOFF
	sub	x12, x11, x12
	cmp	x12, #5
	b.hi	Ldcsctp_BB10_312
Ldcsctp_loh248:
	adrp	x12, ldcsctp_CPI10_35@PAGE
Ldcsctp_loh249:
	ldr	d0, [x12, ldcsctp_CPI10_35@PAGEOFF]
	str	s0, [x11]
	mov	w12, #15716
	strh	w12, [x11, #4]
	b	Ldcsctp_BB10_313
Ldcsctp_BB10_312:
	mov	w12, #15716
	strh	w12, [x11, #4]
	mov	w12, #8236
	movk	w12, #26995, lsl #16
	str	w12, [x11]
Ldcsctp_BB10_313:
	add	x9, x9, #6
	stp	x10, x9, [sp, #112]
	str	x8, [sp, #128]
Ldcsctp_BB10_314:
	ldrh	w8, [sp, #208]
	sturh	w8, [x29, #-96]
	sub	x8, x29, #96
	stur	x8, [x29, #-104]
	str	w21, [sp, #136]
	stur	xzr, [x24, #28]
	stur	wzr, [x24, #36]
	str	x22, [sp, #152]
	add	x0, sp, #112
	sub	x1, x29, #104
	bl	_core.fmt.formatter.Formatter.write_piece.9c544998babb2079
	and	w8, w0, #0xff
	tbnz	w8, #0, Ldcsctp_BB10_37
	str	w21, [sp, #136]
	stur	xzr, [x24, #28]
	stur	wzr, [x24, #36]
	str	x22, [sp, #152]
	ldr	x8, [sp, #160]
	cbnz	x8, Ldcsctp_BB10_371
	ldp	x9, x8, [sp, #120]
	sub	x10, x8, x9
	cmp	x10, #5
	b.ls	Ldcsctp_BB10_390
Ldcsctp_BB10_317:
	ldr	x10, [sp, #112]
	add	x11, x10, x9
Ldcsctp_loh250:
	adrp	x12, l_static.21@PAGE
Ldcsctp_loh251:
	add	x12, x12, l_static.21@PAGEOFF
	sub	x12, x11, x12
	cmp	x12, #5
	b.hi	Ldcsctp_BB10_319
Ldcsctp_loh252:
	adrp	x12, ldcsctp_CPI10_27@PAGE
Ldcsctp_loh253:
	ldr	d0, [x12, ldcsctp_CPI10_27@PAGEOFF]
	str	s0, [x11]
	mov	w12, #15726
	strh	w12, [x11, #4]
	b	Ldcsctp_BB10_320
Ldcsctp_BB10_319:
	mov	w12, #15726
	strh	w12, [x11, #4]
	mov	w12, #8236
	movk	w12, #29555, lsl #16
	str	w12, [x11]
Ldcsctp_BB10_320:
	add	x9, x9, #6
	stp	x10, x9, [sp, #112]
	str	x8, [sp, #128]
Ldcsctp_BB10_321:
	ldrh	w8, [sp, #218]
	sturh	w8, [x29, #-96]
	sub	x8, x29, #96
	stur	x8, [x29, #-104]
	str	w21, [sp, #136]
	stur	xzr, [x24, #28]
	stur	wzr, [x24, #36]
	str	x22, [sp, #152]
	add	x0, sp, #112
	sub	x1, x29, #104
	bl	_core.fmt.formatter.Formatter.write_piece.9c544998babb2079
	and	w8, w0, #0xff
	tbnz	w8, #0, Ldcsctp_BB10_37
	str	w21, [sp, #136]
	stur	xzr, [x24, #28]
	stur	wzr, [x24, #36]
	str	x22, [sp, #152]
	ldr	x8, [sp, #160]
	cbnz	x8, Ldcsctp_BB10_388
	ldp	x9, x8, [sp, #120]
	sub	x10, x8, x9
	cmp	x10, #6
	b.ls	Ldcsctp_BB10_394
Ldcsctp_BB10_324:
	ldr	x10, [sp, #112]
	add	x11, x10, x9
Ldcsctp_loh254:
	adrp	x12, l_static.22@PAGE
Ldcsctp_loh255:
	add	x12, x12, l_static.22@PAGEOFF
	sub	x12, x11, x12
	cmp	x12, #6
	b.hi	Ldcsctp_BB10_326
Ldcsctp_loh256:
	adrp	x12, ldcsctp_CPI10_28@PAGE
Ldcsctp_loh257:
	ldr	d0, [x12, ldcsctp_CPI10_28@PAGEOFF]
	str	s0, [x11]
	mov	w12, #25705
	strh	w12, [x11, #4]
	mov	w12, #61
	strb	w12, [x11, #6]
	b	Ldcsctp_BB10_327
Ldcsctp_BB10_326:
	mov	w12, #26992
	movk	w12, #15716, lsl #16
	stur	w12, [x11, #3]
	mov	w12, #8236
	movk	w12, #28784, lsl #16
	str	w12, [x11]
Ldcsctp_BB10_327:
	add	x9, x9, #7
	stp	x10, x9, [sp, #112]
	str	x8, [sp, #128]
Ldcsctp_BB10_328:
	ldr	w8, [sp, #212]
	b	Ldcsctp_BB10_363
Ldcsctp_BB10_329:
Ldcsctp_loh258:
	adrp	x1, l_static.19@PAGE
Ldcsctp_loh259:
	add	x1, x1, l_static.19@PAGEOFF
	add	x0, sp, #112
	mov	w2, #6
	bl	_core.fmt.formatter.Formatter.write_indented.69d84fb4438acd8c
	and	w8, w0, #0xff
	tbz	w8, #0, Ldcsctp_BB10_307
	b	Ldcsctp_BB10_37
Ldcsctp_BB10_330:
Ldcsctp_loh260:
	adrp	x1, l_static.20@PAGE
Ldcsctp_loh261:
	add	x1, x1, l_static.20@PAGEOFF
	add	x0, sp, #112
	mov	w2, #6
	bl	_core.fmt.formatter.Formatter.write_indented.69d84fb4438acd8c
	and	w8, w0, #0xff
	tbz	w8, #0, Ldcsctp_BB10_314
	b	Ldcsctp_BB10_37
Ldcsctp_BB10_331:
	add	x0, sp, #112
	mov	x1, x21
	bl	_std_alloc.vec.Vec.grow_amortized.38fbb921ed00a393
	cbz	w0, Ldcsctp_BB10_37
	ldp	x27, x23, [sp, #120]
	ldr	x25, [sp, #112]
	add	x8, x25, x27
	sub	x9, x8, x22
	cmp	x9, x21
	b.lo	Ldcsctp_BB10_289
Ldcsctp_BB10_333:
	add	x0, x25, x27
	mov	x1, x22
	mov	x2, x21
	bl	_memcpy
Ldcsctp_BB10_334:
	add	x8, x27, x21
	stp	x25, x8, [sp, #112]
	str	x23, [sp, #128]
Ldcsctp_BB10_335:
	mov	w8, #32
	str	w8, [sp, #136]
	stur	xzr, [x24, #28]
	stur	wzr, [x24, #36]
	mov	x8, #-1
	str	x8, [sp, #152]
	ldr	x8, [sp, #160]
	cbnz	x8, Ldcsctp_BB10_365
	ldp	x9, x8, [sp, #120]
	sub	x10, x8, x9
	cmp	x10, #5
	b.ls	Ldcsctp_BB10_369
Ldcsctp_BB10_337:
	ldr	x10, [sp, #112]
	add	x11, x10, x9
Ldcsctp_loh262:
	adrp	x12, l_static.19@PAGE
Ldcsctp_loh263:
	add	x12, x12, l_static.19@PAGEOFF
	sub	x12, x11, x12
	cmp	x12, #5
	b.hi	Ldcsctp_BB10_339
Ldcsctp_loh264:
	adrp	x12, ldcsctp_CPI10_25@PAGE
Ldcsctp_loh265:
	ldr	d0, [x12, ldcsctp_CPI10_25@PAGEOFF]
	str	s0, [x11]
	mov	w12, #15726
	strh	w12, [x11, #4]
	b	Ldcsctp_BB10_340
Ldcsctp_BB10_339:
	mov	w12, #15726
	strh	w12, [x11, #4]
	mov	w12, #8236
	movk	w12, #29556, lsl #16
	str	w12, [x11]
Ldcsctp_BB10_340:
	add	x9, x9, #6
	stp	x10, x9, [sp, #112]
	str	x8, [sp, #128]
Ldcsctp_BB10_341:
	ldr	w8, [sp, #220]
	stur	w8, [x29, #-96]
	sub	x8, x29, #96
	stur	x8, [x29, #-104]
	mov	w21, #32
	str	w21, [sp, #136]
	stur	xzr, [x24, #28]
	stur	wzr, [x24, #36]
	mov	x22, #-1
	str	x22, [sp, #152]
	add	x0, sp, #112
	sub	x1, x29, #104
	bl	_core.fmt.formatter.Formatter.write_piece.7d2ac8fd5c291299
	and	w8, w0, #0xff
	tbnz	w8, #0, Ldcsctp_BB10_37
	str	w21, [sp, #136]
	stur	xzr, [x24, #28]
	stur	wzr, [x24, #36]
	str	x22, [sp, #152]
	ldr	x8, [sp, #160]
	cbnz	x8, Ldcsctp_BB10_366
	ldp	x9, x8, [sp, #120]
	sub	x10, x8, x9
	cmp	x10, #5
	b.ls	Ldcsctp_BB10_386
Ldcsctp_BB10_344:
	ldr	x10, [sp, #112]
	add	x11, x10, x9
Ldcsctp_loh266:
	adrp	x12, l_static.35@PAGE
Ldcsctp_loh267:
	add	x12, x12, l_static.35@PAGEOFF
	sub	x12, x11, x12
	cmp	x12, #5
	b.hi	Ldcsctp_BB10_346
Ldcsctp_loh268:
	adrp	x12, ldcsctp_CPI10_26@PAGE
Ldcsctp_loh269:
	ldr	d0, [x12, ldcsctp_CPI10_26@PAGEOFF]
	str	s0, [x11]
	mov	w12, #15716
	strh	w12, [x11, #4]
	b	Ldcsctp_BB10_347
Ldcsctp_BB10_346:
	mov	w12, #15716
	strh	w12, [x11, #4]
	mov	w12, #8236
	movk	w12, #26989, lsl #16
	str	w12, [x11]
Ldcsctp_BB10_347:
	add	x9, x9, #6
	stp	x10, x9, [sp, #112]
	str	x8, [sp, #128]
Ldcsctp_BB10_348:
	ldrh	w8, [sp, #218]
	sturh	w8, [x29, #-96]
	sub	x8, x29, #96
	stur	x8, [x29, #-104]
	str	w21, [sp, #136]
	stur	xzr, [x24, #28]
	stur	wzr, [x24, #36]
	str	x22, [sp, #152]
	add	x0, sp, #112
	sub	x1, x29, #104
	bl	_core.fmt.formatter.Formatter.write_piece.9c544998babb2079
	and	w8, w0, #0xff
	tbnz	w8, #0, Ldcsctp_BB10_37
	str	w21, [sp, #136]
	stur	xzr, [x24, #28]
	stur	wzr, [x24, #36]
	str	x22, [sp, #152]
	ldr	x8, [sp, #160]
	cbnz	x8, Ldcsctp_BB10_372
	ldp	x9, x8, [sp, #120]
	sub	x10, x8, x9
	cmp	x10, #5
	b.ls	Ldcsctp_BB10_392
Ldcsctp_BB10_351:
	ldr	x10, [sp, #112]
	add	x11, x10, x9
Ldcsctp_loh270:
	adrp	x12, l_static.21@PAGE
Ldcsctp_loh271:
	add	x12, x12, l_static.21@PAGEOFF
	sub	x12, x11, x12
	cmp	x12, #5
	b.hi	Ldcsctp_BB10_353
Ldcsctp_loh272:
	adrp	x12, ldcsctp_CPI10_27@PAGE
Ldcsctp_loh273:
	ldr	d0, [x12, ldcsctp_CPI10_27@PAGEOFF]
	str	s0, [x11]
	mov	w12, #15726
	strh	w12, [x11, #4]
	b	Ldcsctp_BB10_354
Ldcsctp_BB10_353:
	mov	w12, #15726
	strh	w12, [x11, #4]
	mov	w12, #8236
	movk	w12, #29555, lsl #16
	str	w12, [x11]
Ldcsctp_BB10_354:
	add	x9, x9, #6
	stp	x10, x9, [sp, #112]
	str	x8, [sp, #128]
Ldcsctp_BB10_355:
	ldr	w8, [sp, #212]
	stur	w8, [x29, #-96]
	sub	x8, x29, #96
	stur	x8, [x29, #-104]
	str	w21, [sp, #136]
	stur	xzr, [x24, #28]
	stur	wzr, [x24, #36]
	str	x22, [sp, #152]
	add	x0, sp, #112
	sub	x1, x29, #104
	bl	_core.fmt.formatter.Formatter.write_piece.7d2ac8fd5c291299
	and	w8, w0, #0xff
	tbnz	w8, #0, Ldcsctp_BB10_37
	str	w21, [sp, #136]
	stur	xzr, [x24, #28]
	stur	wzr, [x24, #36]
	str	x22, [sp, #152]
	ldr	x8, [sp, #160]
	cbnz	x8, Ldcsctp_BB10_389
	ldp	x9, x8, [sp, #120]
	sub	x10, x8, x9
	cmp	x10, #6
	b.ls	Ldcsctp_BB10_396
Ldcsctp_BB10_358:
	ldr	x10, [sp, #112]
	add	x11, x10, x9
Ldcsctp_loh274:
	adrp	x12, l_static.22@PAGE
Ldcsctp_loh275:
	add	x12, x12, l_static.22@PAGEOFF
	sub	x12, x11, x12
	cmp	x12, #6
	b.hi	Ldcsctp_BB10_360
Ldcsctp_loh276:
	adrp	x12, ldcsctp_CPI10_28@PAGE
Ldcsctp_loh277:
	ldr	d0, [x12, ldcsctp_CPI10_28@PAGEOFF]
	str	s0, [x11]
	mov	w12, #25705
	strh	w12, [x11, #4]
	mov	w12, #61
	strb	w12, [x11, #6]
	b	Ldcsctp_BB10_361
Ldcsctp_BB10_360:
	mov	w12, #26992
	movk	w12, #15716, lsl #16
	stur	w12, [x11, #3]
	mov	w12, #8236
	movk	w12, #28784, lsl #16
	str	w12, [x11]
Ldcsctp_BB10_361:
	add	x9, x9, #7
	stp	x10, x9, [sp, #112]
	str	x8, [sp, #128]
Ldcsctp_BB10_362:
	ldr	w8, [sp, #208]
Ldcsctp_BB10_363:
	stur	w8, [x29, #-96]
	sub	x8, x29, #96
	stur	x8, [x29, #-104]
	mov	w8, #32
	str	w8, [sp, #136]
	stur	xzr, [x24, #28]
	stur	wzr, [x24, #36]
	mov	x8, #-1
	str	x8, [sp, #152]
	add	x0, sp, #112
	sub	x1, x29, #104
	bl	_core.fmt.formatter.Formatter.write_piece.7d2ac8fd5c291299
	ldur	q0, [x29, #-128]
	stur	q0, [x24, #24]
	ldur	x8, [x29, #-112]
	stur	x8, [x24, #40]
	tst	w0, #0xff
	b.ne	Ldcsctp_BB10_37
	add	x0, sp, #112
	add	x8, sp, #224
	add	x1, x8, #160
	bl	_core.fmt.formatter.Formatter.write_piece.3798a2e744629105
	and	w8, w0, #0xff
	ldr	q0, [sp, #176]
	stur	q0, [x24, #24]
	ldr	x9, [sp, #192]
	stur	x9, [x24, #40]
	ldr	x25, [sp]
	orr	x27, x24, #0x8
	tbz	w8, #0, Ldcsctp_BB10_50
	b	Ldcsctp_BB10_37
Ldcsctp_BB10_365:
Ldcsctp_loh278:
	adrp	x1, l_static.19@PAGE
Ldcsctp_loh279:
	add	x1, x1, l_static.19@PAGEOFF
	add	x0, sp, #112
	mov	w2, #6
	bl	_core.fmt.formatter.Formatter.write_indented.69d84fb4438acd8c
	and	w8, w0, #0xff
	tbz	w8, #0, Ldcsctp_BB10_341
	b	Ldcsctp_BB10_37
Ldcsctp_BB10_366:
Ldcsctp_loh280:
	adrp	x1, l_static.35@PAGE
Ldcsctp_loh281:
	add	x1, x1, l_static.35@PAGEOFF
	add	x0, sp, #112
	mov	w2, #6
	bl	_core.fmt.formatter.Formatter.write_indented.69d84fb4438acd8c
	and	w8, w0, #0xff
	tbz	w8, #0, Ldcsctp_BB10_348
	b	Ldcsctp_BB10_37
Ldcsctp_BB10_367:
	add	x0, sp, #112
	mov	w1, #6
	bl	_std_alloc.vec.Vec.grow_amortized.38fbb921ed00a393
	cbz	w0, Ldcsctp_BB10_37
	ldp	x9, x8, [sp, #120]
	b	Ldcsctp_BB10_303
Ldcsctp_BB10_369:
	add	x0, sp, #112
	mov	w1, #6
	bl	_std_alloc.vec.Vec.grow_amortized.38fbb921ed00a393
	cbz	w0, Ldcsctp_BB10_37
	ldp	x9, x8, [sp, #120]
	b	Ldcsctp_BB10_337
Ldcsctp_BB10_371:
Ldcsctp_loh282:
	adrp	x1, l_static.21@PAGE
Ldcsctp_loh283:
	add	x1, x1, l_static.21@PAGEOFF
	add	x0, sp, #112
	mov	w2, #6
	bl	_core.fmt.formatter.Formatter.write_indented.69d84fb4438acd8c
	and	w8, w0, #0xff
	tbz	w8, #0, Ldcsctp_BB10_321
	b	Ldcsctp_BB10_37
Ldcsctp_BB10_372:
Ldcsctp_loh284:
	adrp	x1, l_static.21@PAGE
Ldcsctp_loh285:
	add	x1, x1, l_static.21@PAGEOFF
	add	x0, sp, #112
	mov	w2, #6
	bl	_core.fmt.formatter.Formatter.write_indented.69d84fb4438acd8c
	and	w8, w0, #0xff
	tbz	w8, #0, Ldcsctp_BB10_355
	b	Ldcsctp_BB10_37
Ldcsctp_BB10_373:
	add	x0, sp, #112
	mov	w1, #9
	bl	_std_alloc.vec.Vec.grow_amortized.38fbb921ed00a393
	cbz	w0, Ldcsctp_BB10_37
	ldp	x9, x8, [sp, #120]
	ldr	x10, [sp, #112]
	add	x11, x10, x9
	sub	x12, x11, x21
	cmp	x12, #8
	b.ls	Ldcsctp_BB10_205
Ldcsctp_BB10_375:
	mov	w12, #61
	strb	w12, [x11, #8]
	ldr	x12, [x21]
	str	x12, [x11]
Ldcsctp_BB10_376:
	add	x9, x9, #9
	stp	x10, x9, [sp, #112]
	str	x8, [sp, #128]
Ldcsctp_BB10_377:
	add	x0, sp, #112
	add	x8, sp, #224
	add	x1, x8, #40
	b	Ldcsctp_BB10_48
Ldcsctp_BB10_378:
	add	x0, sp, #112
	mov	w1, #6
	bl	_std_alloc.vec.Vec.grow_amortized.38fbb921ed00a393
	cbz	w0, Ldcsctp_BB10_37
	ldp	x9, x8, [sp, #120]
	ldr	x10, [sp, #112]
	add	x11, x10, x9
	sub	x12, x11, x21
	cmp	x12, #5
	b.ls	Ldcsctp_BB10_259
Ldcsctp_BB10_380:
	mov	w12, #29541
	strh	w12, [x11, #4]
	mov	w12, #25120
	movk	w12, #29817, lsl #16
	str	w12, [x11]
Ldcsctp_BB10_381:
	add	x9, x9, #6
Ldcsctp_BB10_382:
	stp	x10, x9, [sp, #112]
	str	x8, [sp, #128]
Ldcsctp_BB10_383:
	ldr	q0, [sp, #176]
	stur	q0, [x24, #24]
	ldr	x8, [sp, #192]
	stur	x8, [x24, #40]
	add	x26, x26, #1
	cmp	x26, x25
	b.ne	Ldcsctp_BB10_51
	b	Ldcsctp_BB10_398
Ldcsctp_BB10_384:
	add	x0, sp, #112
	mov	w1, #6
	bl	_std_alloc.vec.Vec.grow_amortized.38fbb921ed00a393
	cbz	w0, Ldcsctp_BB10_37
	ldp	x9, x8, [sp, #120]
	b	Ldcsctp_BB10_310
Ldcsctp_BB10_386:
	add	x0, sp, #112
	mov	w1, #6
	bl	_std_alloc.vec.Vec.grow_amortized.38fbb921ed00a393
	cbz	w0, Ldcsctp_BB10_37
	ldp	x9, x8, [sp, #120]
	b	Ldcsctp_BB10_344
Ldcsctp_BB10_388:
Ldcsctp_loh286:
	adrp	x1, l_static.22@PAGE
Ldcsctp_loh287:
	add	x1, x1, l_static.22@PAGEOFF
	add	x0, sp, #112
	mov	w2, #7
	bl	_core.fmt.formatter.Formatter.write_indented.69d84fb4438acd8c
	tst	w0, #0xff
	b.eq	Ldcsctp_BB10_328
	b	Ldcsctp_BB10_37
Ldcsctp_BB10_389:
Ldcsctp_loh288:
	adrp	x1, l_static.22@PAGE
Ldcsctp_loh289:
	add	x1, x1, l_static.22@PAGEOFF
	add	x0, sp, #112
	mov	w2, #7
	bl	_core.fmt.formatter.Formatter.write_indented.69d84fb4438acd8c
	tst	w0, #0xff
	b.eq	Ldcsctp_BB10_362
	b	Ldcsctp_BB10_37
Ldcsctp_BB10_390:
	add	x0, sp, #112
	mov	w1, #6
	bl	_std_alloc.vec.Vec.grow_amortized.38fbb921ed00a393
	cbz	w0, Ldcsctp_BB10_37
	ldp	x9, x8, [sp, #120]
	b	Ldcsctp_BB10_317
Ldcsctp_BB10_392:
	add	x0, sp, #112
	mov	w1, #6
	bl	_std_alloc.vec.Vec.grow_amortized.38fbb921ed00a393
	cbz	w0, Ldcsctp_BB10_37
	ldp	x9, x8, [sp, #120]
	b	Ldcsctp_BB10_351
Ldcsctp_BB10_394:
	add	x0, sp, #112
	mov	w1, #7
	bl	_std_alloc.vec.Vec.grow_amortized.38fbb921ed00a393
	cbz	w0, Ldcsctp_BB10_37
	ldp	x9, x8, [sp, #120]
	b	Ldcsctp_BB10_324
Ldcsctp_BB10_396:
	add	x0, sp, #112
	mov	w1, #7
	bl	_std_alloc.vec.Vec.grow_amortized.38fbb921ed00a393
	cbz	w0, Ldcsctp_BB10_37
	ldp	x9, x8, [sp, #120]
	b	Ldcsctp_BB10_358
Ldcsctp_BB10_398:
	mov	w8, #32
	str	w8, [sp, #136]
	stur	xzr, [x24, #28]
	stur	wzr, [x24, #36]
	mov	x8, #-1
	str	x8, [sp, #152]
	ldr	x8, [sp, #160]
	cbnz	x8, Ldcsctp_BB10_455
	ldp	x9, x8, [sp, #120]
	cmp	x8, x9
	b.eq	Ldcsctp_BB10_464
Ldcsctp_BB10_400:
	ldr	x10, [sp, #112]
	mov	w11, #10
	strb	w11, [x10, x9]
	add	x9, x9, #1
	stp	x10, x9, [sp, #112]
	ldr	q0, [sp, #112]
	str	x8, [sp, #32]
	str	q0, [sp, #16]
Ldcsctp_BB10_401:
	ldr	x22, [x20, #8]
	cbz	x22, Ldcsctp_BB10_436
	mov	x21, #0
	mov	x23, #0
	ldr	x24, [x20]
Ldcsctp_BB10_403:
	add	x8, x24, x23, lsl #6
	ldrb	w9, [x8]
	mov	w0, #1
	mov	w1, #8
Ldcsctp_loh290:
	adrp	x10, Ldcsctp_JTI10_1@PAGE
Ldcsctp_loh291:
	add	x10, x10, Ldcsctp_JTI10_1@PAGEOFF
	adr	x11, Ldcsctp_BB10_404
	ldrb	w12, [x10, x9]
	add	x11, x11, x12, lsl #2
	br	x11
Ldcsctp_BB10_404:
	ldp	x1, x2, [x8, #8]
	mov	x0, #0
	bl	_dcsctp_tlv.list.listed_encoded_size.cada439fb2c2aae5
	b	Ldcsctp_BB10_430
Ldcsctp_BB10_405:
	mov	w1, #4
	b	Ldcsctp_BB10_430
Ldcsctp_BB10_406:
	ldp	x1, x2, [x8, #24]
	mov	w0, #16
	bl	_dcsctp_tlv.list.listed_encoded_size.cada439fb2c2aae5
	b	Ldcsctp_BB10_430
Ldcsctp_BB10_407:
	ldr	x9, [x8, #24]
	cbz	x9, Ldcsctp_BB10_411
	ldr	x8, [x8, #16]
	sub	x11, x9, #1
Ldcsctp_BB10_409:
	ldrb	w10, [x8], #12
	cmp	w10, #1
	ccmp	x11, #0, #4, eq
	sub	x11, x11, #1
	b.ne	Ldcsctp_BB10_409
	cmp	w10, #1
	b.ne	Ldcsctp_BB10_419
Ldcsctp_BB10_411:
	lsl	x8, x9, #3
	lsr	x9, x9, #61
	b	Ldcsctp_BB10_427
Ldcsctp_BB10_412:
	ldr	x8, [x8, #16]
	add	x9, x8, #16
	mov	w10, #65532
	add	x8, x8, #20
	b	Ldcsctp_BB10_421
Ldcsctp_BB10_413:
	ldr	x9, [x8, #24]
	ldr	x8, [x8, #48]
	adds	x8, x8, x9
	csinv	x8, x8, xzr, lo
	lsl	x9, x8, #2
	lsr	x8, x8, #62
	cmp	x8, #0
	csinv	x8, x9, xzr, eq
	lsr	x9, x8, #4
	add	x8, x8, #16
	cmp	x9, #4095
	csel	x1, x8, xzr, lo
	b	Ldcsctp_BB10_429
Ldcsctp_BB10_414:
	ldp	x0, x1, [x8, #8]
	bl	_dcsctp_tlv.list.listed_encoded_size.f123a6a91b68d363
	b	Ldcsctp_BB10_430
Ldcsctp_BB10_415:
	ldr	x9, [x8, #24]
	cbz	x9, Ldcsctp_BB10_426
	ldr	x8, [x8, #16]
	sub	x11, x9, #1
Ldcsctp_BB10_417:
	ldrb	w10, [x8], #12
	cmp	w10, #1
	ccmp	x11, #0, #4, ne
	sub	x11, x11, #1
	b.ne	Ldcsctp_BB10_417
	cmp	w10, #1
	b.ne	Ldcsctp_BB10_426
Ldcsctp_BB10_419:
	mov	x1, #0
	mov	w0, #0
	b	Ldcsctp_BB10_430
Ldcsctp_BB10_420:
	ldr	x8, [x8, #16]
	add	x9, x8, #12
	mov	w10, #65532
	add	x8, x8, #16
Ldcsctp_BB10_421:
	cmp	x9, x10
	csel	x1, x8, xzr, lo
	b	Ldcsctp_BB10_429
Ldcsctp_BB10_422:
	ldr	x8, [x8, #24]
	b	Ldcsctp_BB10_424
Ldcsctp_BB10_423:
	ldr	x8, [x8, #16]
Ldcsctp_BB10_424:
	mov	w9, #65532
	add	x10, x8, #4
	b	Ldcsctp_BB10_428
Ldcsctp_BB10_425:
	ldp	x0, x1, [x8, #16]
	bl	_dcsctp_tlv.list.listed_encoded_size.f123a6a91b68d363
	b	Ldcsctp_BB10_430
Ldcsctp_BB10_426:
	lsl	x8, x9, #2
	lsr	x9, x9, #62
Ldcsctp_BB10_427:
	cmp	x9, #0
	csinv	x8, x8, xzr, eq
	mov	w9, #65528
	add	x10, x8, #8
Ldcsctp_BB10_428:
	cmp	x8, x9
	csel	x1, x10, xzr, lo
Ldcsctp_BB10_429:
	cset	w0, lo
Ldcsctp_BB10_430:
	and	w8, w0, #0xff
	cmp	w8, #1
	b.ne	Ldcsctp_BB10_434
	add	x8, x21, #3
	and	x8, x8, #0xfffffffffffffffc
	add	x21, x1, x8
	cmp	x21, #16, lsl #12
	b.hs	Ldcsctp_BB10_434
	add	x23, x23, #1
	cmp	x23, x22
	b.ne	Ldcsctp_BB10_403
	mov	w8, #1
	b	Ldcsctp_BB10_435
Ldcsctp_BB10_434:
	mov	x21, #0
	mov	w8, #0
Ldcsctp_BB10_435:
	add	w9, w21, #3
	and	x23, x9, #0x1fffc
	b	Ldcsctp_BB10_437
Ldcsctp_BB10_436:
	mov	x23, #0
	mov	w8, #1
Ldcsctp_BB10_437:
	cbz	w8, Ldcsctp_BB10_449
	mov	w8, #65521
	cmp	x23, x8
	b.hs	Ldcsctp_BB10_449
	add	x24, x23, #12
	add	x0, x23, #12
	mov	w1, #1
	bl	_rattle_alloc
	tbz	w0, #0, Ldcsctp_BB10_38
	mov	x21, x1
	add	x22, x23, #11
	add	x1, x23, #11
	mov	x0, x21
	bl	_bzero
	strb	wzr, [x21, x22]
	ldrh	w8, [x20, #26]
	ldr	w9, [x20, #28]
	ldrh	w10, [x20, #24]
	orr	w8, w8, w10, lsl #16
	rev	w8, w8
	rev	w9, w9
	stp	w8, w9, [x21]
	str	wzr, [x21, #8]
	ldr	x22, [x20, #8]
	cbz	x22, Ldcsctp_BB10_443
	mov	x8, #0
	add	x25, x21, #12
	ldr	x20, [x20]
Ldcsctp_BB10_442:
	add	x8, x8, #3
	and	x26, x8, #0xfffffffffffffffc
	add	x27, x25, x26
	add	x1, x25, x26
	mov	x0, x20
	bl	_dcsctp_wire.packet.chunk.ChunkSerializableTlv.serialize_to
	ldrh	w8, [x27, #2]
	rev16	w8, w8
	add	x8, x8, x26
	add	x20, x20, #64
	subs	x22, x22, #1
	b.ne	Ldcsctp_BB10_442
Ldcsctp_BB10_443:
	lsl	x22, x24, #1
	mov	x0, x22
	mov	w1, #1
	bl	_rattle_alloc
	tbz	w0, #0, Ldcsctp_BB10_492
	mov	x20, x1
	sub	x25, x22, #1
	sub	x1, x22, #1
	mov	x0, x20
	bl	_bzero
	mov	x8, #0
	strb	wzr, [x20, x25]
	add	x9, x23, #12
	add	x10, x20, #1
Ldcsctp_BB10_445:
	ldrb	w11, [x21, x8]
	lsr	x12, x11, #4
Ldcsctp_loh292:
	adrp	x13, l_static.50@PAGE
Ldcsctp_loh293:
	add	x13, x13, l_static.50@PAGEOFF
	ldrb	w12, [x13, x12]
	sturb	w12, [x10, #-1]
	and	x11, x11, #0xf
	ldrb	w11, [x13, x11]
	strb	w11, [x10], #2
	add	x8, x8, #1
	cmp	x9, x8
	b.ne	Ldcsctp_BB10_445
	ldr	q0, [sp, #16]
	str	q0, [sp, #224]
	ldr	x26, [sp, #32]
	str	x26, [sp, #240]
	stp	xzr, xzr, [sp, #272]
	mov	w8, #32
	str	w8, [sp, #248]
	stur	xzr, [sp, #252]
	str	wzr, [sp, #260]
	mov	x8, #-1
	str	x8, [sp, #264]
	ldr	x10, [sp, #232]
	sub	x8, x26, x10
	cmp	x8, #9
	b.ls	Ldcsctp_BB10_476
Ldcsctp_BB10_447:
	add	x25, sp, #224
	add	x8, x10, #10
	ldr	x9, [sp, #224]
Ldcsctp_loh294:
	adrp	x11, l_static.48@PAGE
Ldcsctp_loh295:
	add	x11, x11, l_static.48@PAGEOFF
	add	x10, x9, x10
	sub	x12, x10, x11
	cmp	x12, #9
	b.hi	Ldcsctp_BB10_456
Ldcsctp_loh296:
	adrp	x11, ldcsctp_CPI10_45@PAGE
Ldcsctp_loh297:
	ldr	d0, [x11, ldcsctp_CPI10_45@PAGEOFF]
	str	d0, [x10]
	mov	w11, #15724
	strh	w11, [x10, #8]
	b	Ldcsctp_BB10_457
Ldcsctp_BB10_449:
	ldp	x10, x8, [sp, #24]
	sub	x9, x8, x10
	cmp	x9, #18
	b.ls	Ldcsctp_BB10_466
Ldcsctp_BB10_450:
	add	x11, sp, #16
	add	x9, x10, #19
	ldr	x12, [sp, #16]
	stp	xzr, xzr, [x11, #8]
Ldcsctp_loh298:
	adrp	x11, l_static.47@PAGE
Ldcsctp_loh299:
	add	x11, x11, l_static.47@PAGEOFF
	add	x10, x12, x10
	sub	x12, x10, x11
	cmp	x12, #18
	b.hi	Ldcsctp_BB10_452
Ldcsctp_loh300:
	adrp	x11, ldcsctp_CPI10_44@PAGE
Ldcsctp_loh301:
	ldr	q0, [x11, ldcsctp_CPI10_44@PAGEOFF]
	str	q0, [x10]
	mov	w11, #26478
	strh	w11, [x10, #16]
	mov	w11, #10
	strb	w11, [x10, #18]
	b	Ldcsctp_BB10_453
Ldcsctp_BB10_452:
	mov	w12, #28271
	movk	w12, #2663, lsl #16
	stur	w12, [x10, #15]
	ldr	q0, [x11]
	str	q0, [x10]
Ldcsctp_BB10_453:
	stp	x9, x8, [sp, #24]
Ldcsctp_BB10_454:
	strb	wzr, [x19]
	ldr	q0, [sp, #16]
	stur	q0, [x19, #8]
	ldr	x8, [sp, #32]
	str	x8, [x19, #24]
	b	Ldcsctp_BB10_41
Ldcsctp_BB10_455:
Ldcsctp_loh302:
	adrp	x1, l_static.2@PAGE
Ldcsctp_loh303:
	add	x1, x1, l_static.2@PAGEOFF
	add	x0, sp, #112
	mov	w2, #1
	bl	_core.fmt.formatter.Formatter.write_indented.69d84fb4438acd8c
	ldr	q0, [sp, #112]
	ldr	x8, [sp, #128]
	str	x8, [sp, #64]
	str	q0, [sp, #16]
	str	x8, [sp, #32]
	tst	w0, #0xff
	b.ne	Ldcsctp_BB10_38
	b	Ldcsctp_BB10_401
Ldcsctp_BB10_456:
	mov	w12, #15724
	strh	w12, [x10, #8]
	ldr	x11, [x11]
	str	x11, [x10]
Ldcsctp_BB10_457:
	stp	x8, x26, [sp, #232]
	mov	w10, #32
	str	w10, [sp, #248]
	stur	xzr, [x25, #28]
	stur	wzr, [x25, #36]
	mov	x10, #-1
	str	x10, [sp, #264]
	ldr	x10, [sp, #272]
	cbnz	x10, Ldcsctp_BB10_478
	sub	x10, x26, x8
	cmp	x22, x10
	b.hi	Ldcsctp_BB10_479
	add	x27, x8, x22
	add	x0, x9, x8
	sub	x10, x0, x20
	cmp	x10, x22
	b.hs	Ldcsctp_BB10_481
Ldcsctp_BB10_460:
	add	x10, x8, x9
	sub	x10, x10, x20
	cmp	x10, #64
	b.hs	Ldcsctp_BB10_468
	mov	x10, #0
Ldcsctp_BB10_462:
	sub	x11, x10, x23, lsl #1
	sub	x11, x11, #24
	add	x12, x20, x10
	add	x8, x8, x10
	add	x8, x9, x8
Ldcsctp_BB10_463:
	ldrb	w9, [x12], #1
	strb	w9, [x8], #1
	adds	x11, x11, #1
	b.lo	Ldcsctp_BB10_463
	b	Ldcsctp_BB10_482
Ldcsctp_BB10_464:
	add	x0, sp, #112
	mov	w1, #1
	bl	_std_alloc.vec.Vec.grow_amortized.38fbb921ed00a393
	cbz	w0, Ldcsctp_BB10_37
	ldp	x9, x8, [sp, #120]
	b	Ldcsctp_BB10_400
Ldcsctp_BB10_466:
	add	x0, sp, #16
	mov	w1, #19
	bl	_std_alloc.vec.Vec.grow_amortized.38fbb921ed00a393
	cbz	w0, Ldcsctp_BB10_38
	ldp	x10, x8, [sp, #24]
	b	Ldcsctp_BB10_450
Ldcsctp_BB10_468:
	cmp	x23, #20
	b.hs	Ldcsctp_BB10_470
	mov	x10, #0
	b	Ldcsctp_BB10_474
Ldcsctp_BB10_470:
	and	x10, x22, #0x3ffc0
	add	x11, x8, x9
	add	x11, x11, #32
	add	x12, x20, #32
	and	x13, x22, #0x3ffc0
Ldcsctp_BB10_471:
	ldp	q0, q1, [x12, #-32]
	ldp	q2, q3, [x12], #64
	stp	q0, q1, [x11, #-32]
	stp	q2, q3, [x11], #64
	subs	x13, x13, #64
	b.ne	Ldcsctp_BB10_471
	cmp	x22, x10
	b.eq	Ldcsctp_BB10_482
	tst	x24, #0x1c
	b.eq	Ldcsctp_BB10_462
Ldcsctp_BB10_474:
	sub	x11, x10, x23, lsl #1
	sub	x11, x11, #24
	add	x12, x20, x10
	add	x8, x8, x10
	add	x8, x9, x8
Ldcsctp_BB10_475:
	ldr	d0, [x12], #8
	str	d0, [x8], #8
	adds	x11, x11, #8
	b.ne	Ldcsctp_BB10_475
	b	Ldcsctp_BB10_482
Ldcsctp_BB10_476:
	add	x0, sp, #224
	mov	w1, #10
	bl	_std_alloc.vec.Vec.grow_amortized.38fbb921ed00a393
	cbz	w0, Ldcsctp_BB10_490
	ldp	x10, x26, [sp, #232]
	b	Ldcsctp_BB10_447
Ldcsctp_BB10_478:
	add	x0, sp, #224
	mov	x1, x20
	mov	x2, x22
	bl	_core.fmt.formatter.Formatter.write_indented.69d84fb4438acd8c
	and	w8, w0, #0xff
	tbnz	w8, #0, Ldcsctp_BB10_490
	b	Ldcsctp_BB10_483
Ldcsctp_BB10_479:
	add	x0, sp, #224
	mov	x1, x22
	bl	_std_alloc.vec.Vec.grow_amortized.38fbb921ed00a393
	cbz	w0, Ldcsctp_BB10_490
	ldp	x8, x26, [sp, #232]
	ldr	x9, [sp, #224]
	add	x27, x8, x22
	add	x0, x9, x8
	sub	x10, x0, x20
	cmp	x10, x22
	b.lo	Ldcsctp_BB10_460
Ldcsctp_BB10_481:
	mov	x1, x20
	mov	x2, x22
	bl	_memmove
Ldcsctp_BB10_482:
	stp	x27, x26, [sp, #232]
Ldcsctp_BB10_483:
	mov	w8, #32
	str	w8, [sp, #248]
	stur	xzr, [x25, #28]
	stur	wzr, [x25, #36]
	mov	x8, #-1
	str	x8, [sp, #264]
	ldr	x8, [sp, #272]
	cbnz	x8, Ldcsctp_BB10_487
	ldp	x9, x8, [sp, #232]
	cmp	x8, x9
	b.eq	Ldcsctp_BB10_488
Ldcsctp_BB10_485:
	add	x10, x9, #1
	ldr	x11, [sp, #224]
	mov	w12, #10
	strb	w12, [x11, x9]
	str	x10, [sp, #232]
	ldr	q0, [sp, #224]
	str	x8, [sp, #32]
	str	q0, [sp, #16]
Ldcsctp_BB10_486:
	mov	x0, x20
	bl	_rattle_dealloc
	mov	x0, x21
	bl	_rattle_dealloc
	b	Ldcsctp_BB10_454
Ldcsctp_BB10_487:
Ldcsctp_loh304:
	adrp	x1, l_static.2@PAGE
Ldcsctp_loh305:
	add	x1, x1, l_static.2@PAGEOFF
	add	x0, sp, #224
	mov	w2, #1
	bl	_core.fmt.formatter.Formatter.write_indented.69d84fb4438acd8c
	ldr	x8, [sp, #240]
	str	x8, [sp, #128]
	ldr	q0, [sp, #224]
	str	q0, [sp, #16]
	str	x8, [sp, #32]
	tst	w0, #0xff
	b.ne	Ldcsctp_BB10_491
	b	Ldcsctp_BB10_486
Ldcsctp_BB10_488:
	add	x0, sp, #224
	mov	w1, #1
	bl	_std_alloc.vec.Vec.grow_amortized.38fbb921ed00a393
	cbz	w0, Ldcsctp_BB10_490
	ldp	x9, x8, [sp, #232]
	b	Ldcsctp_BB10_485
Ldcsctp_BB10_490:
	ldr	x8, [sp, #240]
	ldr	q0, [sp, #224]
	str	q0, [sp, #16]
	str	x8, [sp, #32]
Ldcsctp_BB10_491:
	mov	x0, x20
	bl	_rattle_dealloc
Ldcsctp_BB10_492:
	mov	x0, x21
	bl	_rattle_dealloc
	b	Ldcsctp_BB10_38
	.loh AdrpAdd	Ldcsctp_loh12, Ldcsctp_loh13
	.loh AdrpAdd	Ldcsctp_loh10, Ldcsctp_loh11
	.loh AdrpAdd	Ldcsctp_loh8, Ldcsctp_loh9
	.loh AdrpAdd	Ldcsctp_loh6, Ldcsctp_loh7
	.loh AdrpLdr	Ldcsctp_loh14, Ldcsctp_loh15
	.loh AdrpLdr	Ldcsctp_loh18, Ldcsctp_loh19
	.loh AdrpAdrp	Ldcsctp_loh16, Ldcsctp_loh18
	.loh AdrpLdr	Ldcsctp_loh16, Ldcsctp_loh17
	.loh AdrpAdd	Ldcsctp_loh20, Ldcsctp_loh21
	.loh AdrpLdr	Ldcsctp_loh22, Ldcsctp_loh23
	.loh AdrpAdd	Ldcsctp_loh24, Ldcsctp_loh25
	.loh AdrpLdr	Ldcsctp_loh26, Ldcsctp_loh27
	.loh AdrpAdd	Ldcsctp_loh28, Ldcsctp_loh29
	.loh AdrpLdr	Ldcsctp_loh32, Ldcsctp_loh33
	.loh AdrpAdrp	Ldcsctp_loh30, Ldcsctp_loh32
	.loh AdrpLdr	Ldcsctp_loh30, Ldcsctp_loh31
	.loh AdrpAdd	Ldcsctp_loh34, Ldcsctp_loh35
	.loh AdrpAdd	Ldcsctp_loh60, Ldcsctp_loh61
	.loh AdrpAdd	Ldcsctp_loh58, Ldcsctp_loh59
	.loh AdrpAdd	Ldcsctp_loh56, Ldcsctp_loh57
	.loh AdrpAdd	Ldcsctp_loh54, Ldcsctp_loh55
	.loh AdrpAdd	Ldcsctp_loh52, Ldcsctp_loh53
	.loh AdrpAdd	Ldcsctp_loh50, Ldcsctp_loh51
	.loh AdrpAdd	Ldcsctp_loh48, Ldcsctp_loh49
	.loh AdrpAdd	Ldcsctp_loh46, Ldcsctp_loh47
	.loh AdrpAdd	Ldcsctp_loh44, Ldcsctp_loh45
	.loh AdrpAdd	Ldcsctp_loh42, Ldcsctp_loh43
	.loh AdrpAdd	Ldcsctp_loh40, Ldcsctp_loh41
	.loh AdrpAdd	Ldcsctp_loh38, Ldcsctp_loh39
	.loh AdrpAdd	Ldcsctp_loh36, Ldcsctp_loh37
	.loh AdrpLdr	Ldcsctp_loh62, Ldcsctp_loh63
	.loh AdrpAdd	Ldcsctp_loh64, Ldcsctp_loh65
	.loh AdrpAdd	Ldcsctp_loh66, Ldcsctp_loh67
	.loh AdrpAdd	Ldcsctp_loh68, Ldcsctp_loh69
	.loh AdrpLdr	Ldcsctp_loh70, Ldcsctp_loh71
	.loh AdrpAdd	Ldcsctp_loh72, Ldcsctp_loh73
	.loh AdrpLdr	Ldcsctp_loh74, Ldcsctp_loh75
	.loh AdrpAdd	Ldcsctp_loh76, Ldcsctp_loh77
	.loh AdrpLdr	Ldcsctp_loh80, Ldcsctp_loh81
	.loh AdrpAdrp	Ldcsctp_loh78, Ldcsctp_loh80
	.loh AdrpLdr	Ldcsctp_loh78, Ldcsctp_loh79
	.loh AdrpAdd	Ldcsctp_loh82, Ldcsctp_loh83
	.loh AdrpLdr	Ldcsctp_loh86, Ldcsctp_loh87
	.loh AdrpAdrp	Ldcsctp_loh84, Ldcsctp_loh86
	.loh AdrpLdr	Ldcsctp_loh84, Ldcsctp_loh85
	.loh AdrpAdd	Ldcsctp_loh88, Ldcsctp_loh89
	.loh AdrpLdr	Ldcsctp_loh90, Ldcsctp_loh91
	.loh AdrpAdd	Ldcsctp_loh94, Ldcsctp_loh95
	.loh AdrpAdd	Ldcsctp_loh92, Ldcsctp_loh93
	.loh AdrpLdr	Ldcsctp_loh98, Ldcsctp_loh99
	.loh AdrpAdrp	Ldcsctp_loh96, Ldcsctp_loh98
	.loh AdrpLdr	Ldcsctp_loh96, Ldcsctp_loh97
	.loh AdrpAdd	Ldcsctp_loh100, Ldcsctp_loh101
	.loh AdrpLdr	Ldcsctp_loh104, Ldcsctp_loh105
	.loh AdrpAdrp	Ldcsctp_loh102, Ldcsctp_loh104
	.loh AdrpLdr	Ldcsctp_loh102, Ldcsctp_loh103
	.loh AdrpAdd	Ldcsctp_loh108, Ldcsctp_loh109
	.loh AdrpAdd	Ldcsctp_loh106, Ldcsctp_loh107
	.loh AdrpLdr	Ldcsctp_loh110, Ldcsctp_loh111
	.loh AdrpAdd	Ldcsctp_loh112, Ldcsctp_loh113
	.loh AdrpLdr	Ldcsctp_loh118, Ldcsctp_loh119
	.loh AdrpAdrp	Ldcsctp_loh116, Ldcsctp_loh118
	.loh AdrpLdr	Ldcsctp_loh116, Ldcsctp_loh117
	.loh AdrpAdrp	Ldcsctp_loh114, Ldcsctp_loh116
	.loh AdrpLdr	Ldcsctp_loh114, Ldcsctp_loh115
	.loh AdrpAdd	Ldcsctp_loh122, Ldcsctp_loh123
	.loh AdrpAdd	Ldcsctp_loh120, Ldcsctp_loh121
	.loh AdrpLdr	Ldcsctp_loh124, Ldcsctp_loh125
	.loh AdrpAdd	Ldcsctp_loh126, Ldcsctp_loh127
	.loh AdrpLdr	Ldcsctp_loh130, Ldcsctp_loh131
	.loh AdrpAdrp	Ldcsctp_loh128, Ldcsctp_loh130
	.loh AdrpLdr	Ldcsctp_loh128, Ldcsctp_loh129
	.loh AdrpAdd	Ldcsctp_loh132, Ldcsctp_loh133
	.loh AdrpLdr	Ldcsctp_loh136, Ldcsctp_loh137
	.loh AdrpAdrp	Ldcsctp_loh134, Ldcsctp_loh136
	.loh AdrpLdr	Ldcsctp_loh134, Ldcsctp_loh135
	.loh AdrpAdd	Ldcsctp_loh162, Ldcsctp_loh163
	.loh AdrpAdd	Ldcsctp_loh160, Ldcsctp_loh161
	.loh AdrpAdd	Ldcsctp_loh158, Ldcsctp_loh159
	.loh AdrpAdd	Ldcsctp_loh156, Ldcsctp_loh157
	.loh AdrpAdd	Ldcsctp_loh154, Ldcsctp_loh155
	.loh AdrpAdd	Ldcsctp_loh152, Ldcsctp_loh153
	.loh AdrpAdd	Ldcsctp_loh150, Ldcsctp_loh151
	.loh AdrpAdd	Ldcsctp_loh148, Ldcsctp_loh149
	.loh AdrpAdd	Ldcsctp_loh146, Ldcsctp_loh147
	.loh AdrpAdd	Ldcsctp_loh144, Ldcsctp_loh145
	.loh AdrpAdd	Ldcsctp_loh142, Ldcsctp_loh143
	.loh AdrpAdd	Ldcsctp_loh140, Ldcsctp_loh141
	.loh AdrpAdd	Ldcsctp_loh138, Ldcsctp_loh139
	.loh AdrpLdr	Ldcsctp_loh166, Ldcsctp_loh167
	.loh AdrpAdrp	Ldcsctp_loh164, Ldcsctp_loh166
	.loh AdrpLdr	Ldcsctp_loh164, Ldcsctp_loh165
	.loh AdrpAdd	Ldcsctp_loh168, Ldcsctp_loh169
	.loh AdrpLdr	Ldcsctp_loh172, Ldcsctp_loh173
	.loh AdrpAdrp	Ldcsctp_loh170, Ldcsctp_loh172
	.loh AdrpLdr	Ldcsctp_loh170, Ldcsctp_loh171
	.loh AdrpAdd	Ldcsctp_loh176, Ldcsctp_loh177
	.loh AdrpAdd	Ldcsctp_loh174, Ldcsctp_loh175
	.loh AdrpLdr	Ldcsctp_loh180, Ldcsctp_loh181
	.loh AdrpAdrp	Ldcsctp_loh178, Ldcsctp_loh180
	.loh AdrpLdr	Ldcsctp_loh178, Ldcsctp_loh179
	.loh AdrpAdd	Ldcsctp_loh182, Ldcsctp_loh183
	.loh AdrpLdr	Ldcsctp_loh186, Ldcsctp_loh187
	.loh AdrpAdrp	Ldcsctp_loh184, Ldcsctp_loh186
	.loh AdrpLdr	Ldcsctp_loh184, Ldcsctp_loh185
	.loh AdrpAdd	Ldcsctp_loh188, Ldcsctp_loh189
	.loh AdrpAdd	Ldcsctp_loh190, Ldcsctp_loh191
	.loh AdrpAdd	Ldcsctp_loh192, Ldcsctp_loh193
	.loh AdrpAdd	Ldcsctp_loh194, Ldcsctp_loh195
	.loh AdrpAdd	Ldcsctp_loh196, Ldcsctp_loh197
	.loh AdrpAdd	Ldcsctp_loh198, Ldcsctp_loh199
	.loh AdrpAdd	Ldcsctp_loh200, Ldcsctp_loh201
	.loh AdrpAdd	Ldcsctp_loh202, Ldcsctp_loh203
	.loh AdrpAdd	Ldcsctp_loh204, Ldcsctp_loh205
	.loh AdrpAdd	Ldcsctp_loh206, Ldcsctp_loh207
	.loh AdrpAdd	Ldcsctp_loh208, Ldcsctp_loh209
	.loh AdrpAdd	Ldcsctp_loh210, Ldcsctp_loh211
	.loh AdrpAdd	Ldcsctp_loh212, Ldcsctp_loh213
	.loh AdrpAdd	Ldcsctp_loh214, Ldcsctp_loh215
	.loh AdrpAdd	Ldcsctp_loh216, Ldcsctp_loh217
	.loh AdrpAdd	Ldcsctp_loh218, Ldcsctp_loh219
	.loh AdrpAdd	Ldcsctp_loh220, Ldcsctp_loh221
	.loh AdrpAdd	Ldcsctp_loh222, Ldcsctp_loh223
	.loh AdrpLdr	Ldcsctp_loh224, Ldcsctp_loh225
	.loh AdrpAdd	Ldcsctp_loh226, Ldcsctp_loh227
	.loh AdrpLdr	Ldcsctp_loh230, Ldcsctp_loh231
	.loh AdrpAdrp	Ldcsctp_loh228, Ldcsctp_loh230
	.loh AdrpLdr	Ldcsctp_loh228, Ldcsctp_loh229
	.loh AdrpAdd	Ldcsctp_loh232, Ldcsctp_loh233
	.loh AdrpLdr	Ldcsctp_loh234, Ldcsctp_loh235
	.loh AdrpAdd	Ldcsctp_loh236, Ldcsctp_loh237
	.loh AdrpAdd	Ldcsctp_loh238, Ldcsctp_loh239
	.loh AdrpAdd	Ldcsctp_loh240, Ldcsctp_loh241
	.loh AdrpAdd	Ldcsctp_loh242, Ldcsctp_loh243
	.loh AdrpLdr	Ldcsctp_loh244, Ldcsctp_loh245
	.loh AdrpAdd	Ldcsctp_loh246, Ldcsctp_loh247
	.loh AdrpLdr	Ldcsctp_loh248, Ldcsctp_loh249
	.loh AdrpAdd	Ldcsctp_loh250, Ldcsctp_loh251
	.loh AdrpLdr	Ldcsctp_loh252, Ldcsctp_loh253
	.loh AdrpAdd	Ldcsctp_loh254, Ldcsctp_loh255
	.loh AdrpLdr	Ldcsctp_loh256, Ldcsctp_loh257
	.loh AdrpAdd	Ldcsctp_loh258, Ldcsctp_loh259
	.loh AdrpAdd	Ldcsctp_loh260, Ldcsctp_loh261
	.loh AdrpAdd	Ldcsctp_loh262, Ldcsctp_loh263
	.loh AdrpLdr	Ldcsctp_loh264, Ldcsctp_loh265
	.loh AdrpAdd	Ldcsctp_loh266, Ldcsctp_loh267
	.loh AdrpLdr	Ldcsctp_loh268, Ldcsctp_loh269
	.loh AdrpAdd	Ldcsctp_loh270, Ldcsctp_loh271
	.loh AdrpLdr	Ldcsctp_loh272, Ldcsctp_loh273
	.loh AdrpAdd	Ldcsctp_loh274, Ldcsctp_loh275
	.loh AdrpLdr	Ldcsctp_loh276, Ldcsctp_loh277
	.loh AdrpAdd	Ldcsctp_loh278, Ldcsctp_loh279
	.loh AdrpAdd	Ldcsctp_loh280, Ldcsctp_loh281
	.loh AdrpAdd	Ldcsctp_loh282, Ldcsctp_loh283
	.loh AdrpAdd	Ldcsctp_loh284, Ldcsctp_loh285
	.loh AdrpAdd	Ldcsctp_loh286, Ldcsctp_loh287
	.loh AdrpAdd	Ldcsctp_loh288, Ldcsctp_loh289
	.loh AdrpAdd	Ldcsctp_loh290, Ldcsctp_loh291
	.loh AdrpAdd	Ldcsctp_loh292, Ldcsctp_loh293
	.loh AdrpAdd	Ldcsctp_loh294, Ldcsctp_loh295
	.loh AdrpLdr	Ldcsctp_loh296, Ldcsctp_loh297
	.loh AdrpAdd	Ldcsctp_loh298, Ldcsctp_loh299
	.loh AdrpLdr	Ldcsctp_loh300, Ldcsctp_loh301
	.loh AdrpAdd	Ldcsctp_loh302, Ldcsctp_loh303
	.loh AdrpAdd	Ldcsctp_loh304, Ldcsctp_loh305
	.cfi_endproc
	.section	__TEXT,__const
	.p2align	1, 0x0
Ldcsctp_JTI10_0:
	.short	(Ldcsctp_BB10_55-Ldcsctp_BB10_55)>>2
	.short	(Ldcsctp_BB10_102-Ldcsctp_BB10_55)>>2
	.short	(Ldcsctp_BB10_86-Ldcsctp_BB10_55)>>2
	.short	(Ldcsctp_BB10_94-Ldcsctp_BB10_55)>>2
	.short	(Ldcsctp_BB10_74-Ldcsctp_BB10_55)>>2
	.short	(Ldcsctp_BB10_110-Ldcsctp_BB10_55)>>2
	.short	(Ldcsctp_BB10_118-Ldcsctp_BB10_55)>>2
	.short	(Ldcsctp_BB10_98-Ldcsctp_BB10_55)>>2
	.short	(Ldcsctp_BB10_126-Ldcsctp_BB10_55)>>2
	.short	(Ldcsctp_BB10_82-Ldcsctp_BB10_55)>>2
	.short	(Ldcsctp_BB10_122-Ldcsctp_BB10_55)>>2
	.short	(Ldcsctp_BB10_70-Ldcsctp_BB10_55)>>2
	.short	(Ldcsctp_BB10_78-Ldcsctp_BB10_55)>>2
	.short	(Ldcsctp_BB10_114-Ldcsctp_BB10_55)>>2
	.short	(Ldcsctp_BB10_66-Ldcsctp_BB10_55)>>2
	.short	(Ldcsctp_BB10_90-Ldcsctp_BB10_55)>>2
	.short	(Ldcsctp_BB10_62-Ldcsctp_BB10_55)>>2
	.short	(Ldcsctp_BB10_106-Ldcsctp_BB10_55)>>2
Ldcsctp_JTI10_1:
	.byte	(Ldcsctp_BB10_420-Ldcsctp_BB10_404)>>2
	.byte	(Ldcsctp_BB10_406-Ldcsctp_BB10_404)>>2
	.byte	(Ldcsctp_BB10_406-Ldcsctp_BB10_404)>>2
	.byte	(Ldcsctp_BB10_413-Ldcsctp_BB10_404)>>2
	.byte	(Ldcsctp_BB10_404-Ldcsctp_BB10_404)>>2
	.byte	(Ldcsctp_BB10_404-Ldcsctp_BB10_404)>>2
	.byte	(Ldcsctp_BB10_425-Ldcsctp_BB10_404)>>2
	.byte	(Ldcsctp_BB10_430-Ldcsctp_BB10_404)>>2
	.byte	(Ldcsctp_BB10_405-Ldcsctp_BB10_404)>>2
	.byte	(Ldcsctp_BB10_414-Ldcsctp_BB10_404)>>2
	.byte	(Ldcsctp_BB10_423-Ldcsctp_BB10_404)>>2
	.byte	(Ldcsctp_BB10_405-Ldcsctp_BB10_404)>>2
	.byte	(Ldcsctp_BB10_405-Ldcsctp_BB10_404)>>2
	.byte	(Ldcsctp_BB10_412-Ldcsctp_BB10_404)>>2
	.byte	(Ldcsctp_BB10_404-Ldcsctp_BB10_404)>>2
	.byte	(Ldcsctp_BB10_415-Ldcsctp_BB10_404)>>2
	.byte	(Ldcsctp_BB10_407-Ldcsctp_BB10_404)>>2
	.byte	(Ldcsctp_BB10_422-Ldcsctp_BB10_404)>>2
	.section	__TEXT,__text,regular,pure_instructions
	.p2align	2
_core.fmt.formatter.Formatter.write_piece.9c544998babb2079:
	.cfi_startproc
	sub	sp, sp, #80
	.cfi_def_cfa_offset 80
	stp	x22, x21, [sp, #32]
	stp	x20, x19, [sp, #48]
	stp	x29, x30, [sp, #64]
	add	x29, sp, #64
	.cfi_def_cfa w29, 16
	.cfi_offset w30, -8
	.cfi_offset w29, -16
	.cfi_offset w19, -24
	.cfi_offset w20, -32
	.cfi_offset w21, -40
	.cfi_offset w22, -48
	.cfi_remember_state
	mov	x19, x0
	mov	w8, #32
	str	w8, [x0, #24]
	stur	xzr, [x0, #28]
	str	wzr, [x0, #36]
	mov	x8, #-1
	str	x8, [x0, #40]
	ldr	x8, [x1]
	ldrh	w8, [x8]
	stp	xzr, xzr, [sp, #8]
	str	xzr, [sp, #24]
	cmp	x8, #100
	b.lo	Ldcsctp_BB11_5
	mov	x9, #0
Ldcsctp_BB11_2:
	mov	x10, x8
	lsr	x8, x8, #2
	mov	x11, #62915
	movk	x11, #23592, lsl #16
	movk	x11, #49807, lsl #32
	movk	x11, #10485, lsl #48
	umulh	x8, x8, x11
	lsr	x8, x8, #2
	mov	w11, #100
	msub	w11, w8, w11, w10
	and	w12, w11, #0xff
	mov	w13, #205
	mul	w12, w12, w13
	lsr	w12, w12, #11
	mov	w13, #10
	msub	w11, w12, w13, w11
	orr	w11, w11, #0x30
	add	x13, sp, #8
	add	x13, x13, x9
	strb	w11, [x13, #23]
	orr	w11, w12, #0x30
	strb	w11, [x13, #22]
	sub	x9, x9, #2
	lsr	x10, x10, #4
	cmp	x10, #624
	b.hi	Ldcsctp_BB11_2
	add	x9, x9, #24
	cmp	x8, #10
	b.hs	Ldcsctp_BB11_6
Ldcsctp_BB11_4:
	orr	w10, w8, #0x30
	sub	x8, x9, #1
	add	x9, sp, #8
	strb	w10, [x9, x8]
	b	Ldcsctp_BB11_7
Ldcsctp_BB11_5:
	mov	w9, #24
	cmp	x8, #10
	b.lo	Ldcsctp_BB11_4
Ldcsctp_BB11_6:
	and	w10, w8, #0xff
	mov	w11, #205
	mul	w10, w10, w11
	lsr	w10, w10, #11
	mov	w11, #10
	msub	w8, w10, w11, w8
	orr	w8, w8, #0x30
	add	x11, sp, #8
	add	x11, x11, x9
	sturb	w8, [x11, #-1]
	orr	w8, w10, #0x30
	sturb	w8, [x11, #-2]
	sub	x8, x9, #2
Ldcsctp_BB11_7:
	add	x9, sp, #8
	add	x1, x9, x8
	mov	w9, #45
	sturb	w9, [x1, #-1]
	mov	w9, #24
	sub	x2, x9, x8
	ldr	x8, [x19, #48]
	cbnz	x8, Ldcsctp_BB11_11
	ldp	x8, x20, [x19, #8]
	sub	x9, x20, x8
	cmp	x2, x9
	b.hi	Ldcsctp_BB11_12
Ldcsctp_BB11_9:
	add	x21, x8, x2
	ldr	x22, [x19]
	add	x0, x22, x8
	bl	_memcpy
	mov	w0, #0
	stp	x22, x21, [x19]
	str	x20, [x19, #16]
Ldcsctp_BB11_10:
	.cfi_def_cfa wsp, 80
	ldp	x29, x30, [sp, #64]
	ldp	x20, x19, [sp, #48]
	ldp	x22, x21, [sp, #32]
	add	sp, sp, #80
	.cfi_def_cfa_offset 0
	.cfi_restore w30
	.cfi_restore w29
	.cfi_restore w19
	.cfi_restore w20
	.cfi_restore w21
	.cfi_restore w22
	ret
Ldcsctp_BB11_11:
	.cfi_restore_state
	mov	x0, x19
	bl	_core.fmt.formatter.Formatter.write_indented.69d84fb4438acd8c
	and	w0, w0, #0xff
	b	Ldcsctp_BB11_10
Ldcsctp_BB11_12:
	mov	x21, x1
	mov	x0, x19
	mov	x22, x2
	mov	x1, x2
	bl	_std_alloc.vec.Vec.grow_amortized.38fbb921ed00a393
	cbz	w0, Ldcsctp_BB11_14
	ldp	x8, x20, [x19, #8]
	mov	x1, x21
	mov	x2, x22
	b	Ldcsctp_BB11_9
Ldcsctp_BB11_14:
	mov	w0, #1
	b	Ldcsctp_BB11_10
	.cfi_endproc
	.p2align	2
_std_alloc.vec.Vec.grow_amortized.38fbb921ed00a393:
	.cfi_startproc
	mov	x8, x1
	ldr	x1, [x0, #8]
	cmn	x1, x8
	b.lo	Ldcsctp_BB12_2
	mov	w0, #0
	ret
Ldcsctp_BB12_2:
	stp	x20, x19, [sp, #-32]!
	.cfi_def_cfa_offset 32
	stp	x29, x30, [sp, #16]
	add	x29, sp, #16
	.cfi_def_cfa w29, 16
	.cfi_offset w30, -8
	.cfi_offset w29, -16
	.cfi_offset w19, -24
	.cfi_offset w20, -32
	ldr	x9, [x0, #16]
	add	x8, x1, x8
	mov	w10, #8
	cmp	x8, #8
	csel	x10, x8, x10, hi
	lsl	x8, x9, #1
	cmp	x10, x8
	csel	x8, x10, x8, hi
	lsr	x11, x9, #62
	cmp	x11, #0
	csel	x19, x8, x10, eq
	tbnz	x19, #63, Ldcsctp_BB12_7
	cbz	x9, Ldcsctp_BB12_6
	mov	x20, x0
	ldr	x0, [x0]
	mov	x2, x19
	mov	w3, #1
	bl	_rattle_realloc
	tbz	w0, #0, Ldcsctp_BB12_7
Ldcsctp_BB12_5:
	str	x1, [x20]
	str	x19, [x20, #16]
	mov	w0, #1
	b	Ldcsctp_BB12_8
Ldcsctp_BB12_6:
	mov	x20, x0
	mov	x0, x8
	mov	w1, #1
	bl	_rattle_alloc
	tbnz	w0, #0, Ldcsctp_BB12_5
Ldcsctp_BB12_7:
	mov	w0, #0
Ldcsctp_BB12_8:
	.cfi_def_cfa wsp, 32
	ldp	x29, x30, [sp, #16]
	ldp	x20, x19, [sp], #32
	.cfi_def_cfa_offset 0
	.cfi_restore w30
	.cfi_restore w29
	.cfi_restore w19
	.cfi_restore w20
	ret
	.cfi_endproc
	.p2align	2
_core.fmt.formatter.Formatter.write_indented.69d84fb4438acd8c:
	.cfi_startproc
	stp	x26, x25, [sp, #-80]!
	.cfi_def_cfa_offset 80
	stp	x24, x23, [sp, #16]
	stp	x22, x21, [sp, #32]
	stp	x20, x19, [sp, #48]
	stp	x29, x30, [sp, #64]
	add	x29, sp, #64
	.cfi_def_cfa w29, 16
	.cfi_offset w30, -8
	.cfi_offset w29, -16
	.cfi_offset w19, -24
	.cfi_offset w20, -32
	.cfi_offset w21, -40
	.cfi_offset w22, -48
	.cfi_offset w23, -56
	.cfi_offset w24, -64
	.cfi_offset w25, -72
	.cfi_offset w26, -80
	.cfi_remember_state
	cbz	x2, Ldcsctp_BB13_16
	mov	x21, x2
	mov	x20, x1
	mov	x19, x0
	mov	x8, #0
	mov	x24, #0
	b	Ldcsctp_BB13_4
Ldcsctp_BB13_2:
	mov	w23, #1
	strb	w23, [x19, #56]
	add	x1, x20, x25
	mov	x0, x19
	mov	x2, x22
	bl	_core.fmt.formatter.Formatter.write_raw.69d84fb4438acd8c
	and	w9, w0, #0xff
	mov	x8, x24
	tbnz	w9, #0, Ldcsctp_BB13_18
Ldcsctp_BB13_3:
	cmp	x24, x21
	b.eq	Ldcsctp_BB13_10
Ldcsctp_BB13_4:
	mov	x9, x24
	ldrb	w10, [x20, x24]
	add	x24, x24, #1
	cmp	w10, #10
	b.ne	Ldcsctp_BB13_3
	subs	x22, x24, x8
	csel	x25, xzr, x8, lo
	cmp	x8, x9
	mov	x8, x24
	b.hi	Ldcsctp_BB13_3
	ldrb	w8, [x19, #56]
	cmp	w8, #1
	b.ne	Ldcsctp_BB13_2
	ldr	x23, [x19, #48]
	cbz	x23, Ldcsctp_BB13_2
Ldcsctp_BB13_8:
Ldcsctp_loh306:
	adrp	x1, l_static.7@PAGE
Ldcsctp_loh307:
	add	x1, x1, l_static.7@PAGEOFF
	mov	x0, x19
	mov	w2, #4
	bl	_core.fmt.formatter.Formatter.write_raw.69d84fb4438acd8c
	and	w8, w0, #0xff
	tbnz	w8, #0, Ldcsctp_BB13_17
	subs	x23, x23, #1
	b.ne	Ldcsctp_BB13_8
	b	Ldcsctp_BB13_2
Ldcsctp_BB13_10:
	cmp	x8, x21
	csel	x22, xzr, x8, hi
	subs	x8, x21, x8
	csel	x21, xzr, x8, lo
	b.ls	Ldcsctp_BB13_16
	ldrb	w8, [x19, #56]
	cmp	w8, #1
	b.ne	Ldcsctp_BB13_15
	ldr	x23, [x19, #48]
	cbz	x23, Ldcsctp_BB13_15
Ldcsctp_BB13_13:
Ldcsctp_loh308:
	adrp	x1, l_static.7@PAGE
Ldcsctp_loh309:
	add	x1, x1, l_static.7@PAGEOFF
	mov	x0, x19
	mov	w2, #4
	bl	_core.fmt.formatter.Formatter.write_raw.69d84fb4438acd8c
	and	w8, w0, #0xff
	tbnz	w8, #0, Ldcsctp_BB13_17
	subs	x23, x23, #1
	b.ne	Ldcsctp_BB13_13
Ldcsctp_BB13_15:
	strb	wzr, [x19, #56]
	add	x1, x20, x22
	mov	x0, x19
	mov	x2, x21
	.cfi_def_cfa wsp, 80
	ldp	x29, x30, [sp, #64]
	ldp	x20, x19, [sp, #48]
	ldp	x22, x21, [sp, #32]
	ldp	x24, x23, [sp, #16]
	ldp	x26, x25, [sp], #80
	.cfi_def_cfa_offset 0
	.cfi_restore w30
	.cfi_restore w29
	.cfi_restore w19
	.cfi_restore w20
	.cfi_restore w21
	.cfi_restore w22
	.cfi_restore w23
	.cfi_restore w24
	.cfi_restore w25
	.cfi_restore w26
	b	_core.fmt.formatter.Formatter.write_raw.69d84fb4438acd8c
Ldcsctp_BB13_16:
	.cfi_restore_state
	mov	w23, #0
	b	Ldcsctp_BB13_18
Ldcsctp_BB13_17:
	mov	w23, #1
Ldcsctp_BB13_18:
	mov	x0, x23
	.cfi_def_cfa wsp, 80
	ldp	x29, x30, [sp, #64]
	ldp	x20, x19, [sp, #48]
	ldp	x22, x21, [sp, #32]
	ldp	x24, x23, [sp, #16]
	ldp	x26, x25, [sp], #80
	.cfi_def_cfa_offset 0
	.cfi_restore w30
	.cfi_restore w29
	.cfi_restore w19
	.cfi_restore w20
	.cfi_restore w21
	.cfi_restore w22
	.cfi_restore w23
	.cfi_restore w24
	.cfi_restore w25
	.cfi_restore w26
	ret
	.loh AdrpAdd	Ldcsctp_loh306, Ldcsctp_loh307
	.loh AdrpAdd	Ldcsctp_loh308, Ldcsctp_loh309
	.cfi_endproc
	.p2align	2
_core.fmt.formatter.Formatter.write_raw.69d84fb4438acd8c:
	.cfi_startproc
	cbz	x2, Ldcsctp_BB14_21
	mov	x9, #0
	b	Ldcsctp_BB14_4
Ldcsctp_BB14_2:
	mov	w8, #1
Ldcsctp_BB14_3:
	add	x9, x8, x9
	cmp	x9, x2
	b.hs	Ldcsctp_BB14_21
Ldcsctp_BB14_4:
	ldrsb	w8, [x1, x9]
	tbz	w8, #31, Ldcsctp_BB14_2
	add	x10, x9, #1
	cmp	x2, x10
	b.ls	Ldcsctp_BB14_28
	ldrsb	w11, [x1, x10]
	tbz	w11, #31, Ldcsctp_BB14_28
	and	w10, w8, #0xff
	cmn	w11, #64
	mov	w8, #-64
	csel	w11, w11, w8, lo
	mov	w8, #1
	cmp	w10, #194
	b.lo	Ldcsctp_BB14_32
	and	w11, w11, #0x7f
	cmp	w11, #63
	b.hi	Ldcsctp_BB14_32
	cmp	w10, #224
	b.hs	Ldcsctp_BB14_11
	mov	w8, #2
	b	Ldcsctp_BB14_3
Ldcsctp_BB14_11:
	add	x8, x9, #2
	cmp	x2, x8
	b.ls	Ldcsctp_BB14_28
	ldrsb	w8, [x1, x8]
	cmn	w8, #65
	b.gt	Ldcsctp_BB14_28
	cmp	w10, #239
	b.hi	Ldcsctp_BB14_17
	lsl	w8, w10, #12
	add	w8, w8, w11, lsl #6
	sub	w11, w8, #224, lsl #12
	cmp	w11, #2048
	b.lo	Ldcsctp_BB14_28
	mov	w8, #3
	lsr	w11, w11, #11
	cmp	w11, #27
	b.lo	Ldcsctp_BB14_3
	cmp	w10, #238
	b.hs	Ldcsctp_BB14_3
	b	Ldcsctp_BB14_28
Ldcsctp_BB14_17:
	add	x8, x9, #3
	cmp	x2, x8
	b.ls	Ldcsctp_BB14_28
	ldrsb	w8, [x1, x8]
	cmn	w8, #65
	b.gt	Ldcsctp_BB14_28
	lsl	w8, w10, #18
	add	w8, w8, w11, lsl #12
	mov	w10, #-62980096
	add	w8, w8, w10
	lsr	w8, w8, #20
	cbnz	w8, Ldcsctp_BB14_28
	mov	w8, #4
	b	Ldcsctp_BB14_3
Ldcsctp_BB14_21:
	stp	x22, x21, [sp, #-48]!
	.cfi_def_cfa_offset 48
	stp	x20, x19, [sp, #16]
	stp	x29, x30, [sp, #32]
	add	x29, sp, #32
	.cfi_def_cfa w29, 16
	.cfi_offset w30, -8
	.cfi_offset w29, -16
	.cfi_offset w19, -24
	.cfi_offset w20, -32
	.cfi_offset w21, -40
	.cfi_offset w22, -48
	.cfi_remember_state
	mov	x22, x0
	ldp	x9, x19, [x22, #8]!
	sub	x8, x19, x9
	cmp	x2, x8
	b.hi	Ldcsctp_BB14_42
Ldcsctp_BB14_22:
	add	x20, x9, x2
	ldr	x21, [x0]
	stp	xzr, xzr, [x22]
	add	x8, x21, x9
	sub	x10, x8, x1
	cmp	x10, x2
	b.hs	Ldcsctp_BB14_29
	cmp	x2, #8
	b.lo	Ldcsctp_BB14_25
	add	x8, x9, x21
	sub	x8, x8, x1
	cmp	x8, #64
	b.hs	Ldcsctp_BB14_33
Ldcsctp_BB14_25:
	mov	x8, #0
Ldcsctp_BB14_26:
	sub	x10, x2, x8
	add	x11, x1, x8
	add	x8, x8, x9
	add	x8, x21, x8
Ldcsctp_BB14_27:
	ldrb	w9, [x11], #1
	strb	w9, [x8], #1
	subs	x10, x10, #1
	b.ne	Ldcsctp_BB14_27
	b	Ldcsctp_BB14_30
Ldcsctp_BB14_28:
	.cfi_def_cfa wsp, 0
	.cfi_same_value w30
	.cfi_same_value w29
	.cfi_same_value w19
	.cfi_same_value w20
	.cfi_same_value w21
	.cfi_same_value w22
	mov	w0, #1
	ret
Ldcsctp_BB14_29:
	.cfi_restore_state
	.cfi_remember_state
	mov	x22, x0
	mov	x0, x8
	bl	_memmove
	mov	x0, x22
Ldcsctp_BB14_30:
	mov	w8, #0
	stp	x21, x20, [x0]
	str	x19, [x0, #16]
Ldcsctp_BB14_31:
	.cfi_def_cfa wsp, 48
	ldp	x29, x30, [sp, #32]
	ldp	x20, x19, [sp, #16]
	ldp	x22, x21, [sp], #48
	.cfi_def_cfa_offset 0
	.cfi_restore w30
	.cfi_restore w29
	.cfi_restore w19
	.cfi_restore w20
	.cfi_restore w21
	.cfi_restore w22
Ldcsctp_BB14_32:
	mov	x0, x8
	ret
Ldcsctp_BB14_33:
	.cfi_restore_state
	cmp	x2, #64
	b.hs	Ldcsctp_BB14_35
	mov	x8, #0
	b	Ldcsctp_BB14_39
Ldcsctp_BB14_35:
	and	x10, x2, #0x38
	and	x8, x2, #0xffffffffffffffc0
	add	x11, x9, x21
	add	x11, x11, #32
	add	x12, x1, #32
	and	x13, x2, #0xffffffffffffffc0
Ldcsctp_BB14_36:
	ldp	q0, q1, [x12, #-32]
	ldp	q2, q3, [x12], #64
	stp	q0, q1, [x11, #-32]
	stp	q2, q3, [x11], #64
	subs	x13, x13, #64
	b.ne	Ldcsctp_BB14_36
	cmp	x2, x8
	b.eq	Ldcsctp_BB14_30
	cbz	x10, Ldcsctp_BB14_26
Ldcsctp_BB14_39:
	mov	x12, x8
	and	x8, x2, #0xfffffffffffffff8
	sub	x10, x12, x8
	add	x11, x1, x12
	add	x12, x9, x12
	add	x12, x21, x12
Ldcsctp_BB14_40:
	ldr	d0, [x11], #8
	str	d0, [x12], #8
	adds	x10, x10, #8
	b.ne	Ldcsctp_BB14_40
	cmp	x2, x8
	b.eq	Ldcsctp_BB14_30
	b	Ldcsctp_BB14_26
Ldcsctp_BB14_42:
	mov	x20, x1
	mov	x19, x0
	mov	x21, x2
	mov	x1, x2
	bl	_std_alloc.vec.Vec.grow_amortized.38fbb921ed00a393
	cbz	w0, Ldcsctp_BB14_44
	mov	x0, x19
	ldp	x9, x19, [x19, #8]
	mov	x1, x20
	mov	x2, x21
	b	Ldcsctp_BB14_22
Ldcsctp_BB14_44:
	mov	w8, #1
	b	Ldcsctp_BB14_31
	.cfi_endproc
	.p2align	2
_core.fmt.formatter.Formatter.write_piece.7d2ac8fd5c291299:
	.cfi_startproc
	sub	sp, sp, #80
	.cfi_def_cfa_offset 80
	stp	x22, x21, [sp, #32]
	stp	x20, x19, [sp, #48]
	stp	x29, x30, [sp, #64]
	add	x29, sp, #64
	.cfi_def_cfa w29, 16
	.cfi_offset w30, -8
	.cfi_offset w29, -16
	.cfi_offset w19, -24
	.cfi_offset w20, -32
	.cfi_offset w21, -40
	.cfi_offset w22, -48
	.cfi_remember_state
	mov	x19, x0
	mov	w8, #32
	str	w8, [x0, #24]
	stur	xzr, [x0, #28]
	str	wzr, [x0, #36]
	mov	x8, #-1
	str	x8, [x0, #40]
	ldr	x8, [x1]
	ldr	w8, [x8]
	stp	xzr, xzr, [sp, #8]
	str	xzr, [sp, #24]
	cmp	w8, #100
	b.lo	Ldcsctp_BB15_5
	mov	x9, #0
Ldcsctp_BB15_2:
	mov	x10, x8
	lsr	x8, x8, #2
	mov	x11, #62915
	movk	x11, #23592, lsl #16
	movk	x11, #49807, lsl #32
	movk	x11, #10485, lsl #48
	umulh	x8, x8, x11
	lsr	x8, x8, #2
	mov	w11, #100
	msub	w11, w8, w11, w10
	and	w12, w11, #0xff
	mov	w13, #205
	mul	w12, w12, w13
	lsr	w12, w12, #11
	mov	w13, #10
	msub	w11, w12, w13, w11
	orr	w11, w11, #0x30
	add	x13, sp, #8
	add	x13, x13, x9
	strb	w11, [x13, #23]
	orr	w11, w12, #0x30
	strb	w11, [x13, #22]
	sub	x9, x9, #2
	lsr	x10, x10, #4
	cmp	x10, #624
	b.hi	Ldcsctp_BB15_2
	add	x9, x9, #24
	cmp	x8, #10
	b.hs	Ldcsctp_BB15_6
Ldcsctp_BB15_4:
	orr	w10, w8, #0x30
	sub	x8, x9, #1
	add	x9, sp, #8
	strb	w10, [x9, x8]
	b	Ldcsctp_BB15_7
Ldcsctp_BB15_5:
	mov	w9, #24
	cmp	x8, #10
	b.lo	Ldcsctp_BB15_4
Ldcsctp_BB15_6:
	and	w10, w8, #0xff
	mov	w11, #205
	mul	w10, w10, w11
	lsr	w10, w10, #11
	mov	w11, #10
	msub	w8, w10, w11, w8
	orr	w8, w8, #0x30
	add	x11, sp, #8
	add	x11, x11, x9
	sturb	w8, [x11, #-1]
	orr	w8, w10, #0x30
	sturb	w8, [x11, #-2]
	sub	x8, x9, #2
Ldcsctp_BB15_7:
	add	x9, sp, #8
	add	x1, x9, x8
	mov	w9, #45
	sturb	w9, [x1, #-1]
	mov	w9, #24
	sub	x2, x9, x8
	ldr	x8, [x19, #48]
	cbnz	x8, Ldcsctp_BB15_11
	ldp	x8, x20, [x19, #8]
	sub	x9, x20, x8
	cmp	x2, x9
	b.hi	Ldcsctp_BB15_12
Ldcsctp_BB15_9:
	add	x21, x8, x2
	ldr	x22, [x19]
	add	x0, x22, x8
	bl	_memcpy
	mov	w0, #0
	stp	x22, x21, [x19]
	str	x20, [x19, #16]
Ldcsctp_BB15_10:
	.cfi_def_cfa wsp, 80
	ldp	x29, x30, [sp, #64]
	ldp	x20, x19, [sp, #48]
	ldp	x22, x21, [sp, #32]
	add	sp, sp, #80
	.cfi_def_cfa_offset 0
	.cfi_restore w30
	.cfi_restore w29
	.cfi_restore w19
	.cfi_restore w20
	.cfi_restore w21
	.cfi_restore w22
	ret
Ldcsctp_BB15_11:
	.cfi_restore_state
	mov	x0, x19
	bl	_core.fmt.formatter.Formatter.write_indented.69d84fb4438acd8c
	and	w0, w0, #0xff
	b	Ldcsctp_BB15_10
Ldcsctp_BB15_12:
	mov	x21, x1
	mov	x0, x19
	mov	x22, x2
	mov	x1, x2
	bl	_std_alloc.vec.Vec.grow_amortized.38fbb921ed00a393
	cbz	w0, Ldcsctp_BB15_14
	ldp	x8, x20, [x19, #8]
	mov	x1, x21
	mov	x2, x22
	b	Ldcsctp_BB15_9
Ldcsctp_BB15_14:
	mov	w0, #1
	b	Ldcsctp_BB15_10
	.cfi_endproc
	.section	__TEXT,__literal8,8byte_literals
	.p2align	3, 0x0
ldcsctp_CPI16_0:
	.byte	102
	.byte	97
	.byte	108
	.byte	115
	.space	1
	.space	1
	.space	1
	.space	1
	.section	__TEXT,__text,regular,pure_instructions
	.p2align	2
_core.fmt.formatter.Formatter.write_piece.b05199c44017c92e:
	.cfi_startproc
	stp	x20, x19, [sp, #-32]!
	.cfi_def_cfa_offset 32
	stp	x29, x30, [sp, #16]
	add	x29, sp, #16
	.cfi_def_cfa w29, 16
	.cfi_offset w30, -8
	.cfi_offset w29, -16
	.cfi_offset w19, -24
	.cfi_offset w20, -32
	.cfi_remember_state
	mov	w8, #32
	str	w8, [x0, #24]
	stur	xzr, [x0, #28]
	str	wzr, [x0, #36]
	mov	x8, #-1
	str	x8, [x0, #40]
	ldrb	w9, [x1]
	ldr	x8, [x0, #48]
	cmp	w9, #1
	b.ne	Ldcsctp_BB16_4
	cbnz	x8, Ldcsctp_BB16_12
	ldp	x10, x9, [x0, #8]
	sub	x8, x9, x10
	cmp	x8, #3
	b.ls	Ldcsctp_BB16_15
Ldcsctp_BB16_3:
	mov	w8, #0
	ldr	x11, [x0]
	mov	w12, #29300
	movk	w12, #25973, lsl #16
	str	w12, [x11, x10]
	add	x10, x10, #4
	b	Ldcsctp_BB16_10
Ldcsctp_BB16_4:
	cbnz	x8, Ldcsctp_BB16_13
	ldp	x8, x9, [x0, #8]
	sub	x10, x9, x8
	cmp	x10, #4
	b.ls	Ldcsctp_BB16_17
Ldcsctp_BB16_6:
	add	x10, x8, #5
	ldr	x11, [x0]
Ldcsctp_loh310:
	adrp	x12, l_static.16@PAGE
Ldcsctp_loh311:
	add	x12, x12, l_static.16@PAGEOFF
	add	x8, x11, x8
	sub	x12, x8, x12
	cmp	x12, #4
	b.hi	Ldcsctp_BB16_8
Ldcsctp_loh312:
	adrp	x12, ldcsctp_CPI16_0@PAGE
Ldcsctp_loh313:
	ldr	d0, [x12, ldcsctp_CPI16_0@PAGEOFF]
	str	s0, [x8]
	mov	w12, #101
	strb	w12, [x8, #4]
	b	Ldcsctp_BB16_9
Ldcsctp_BB16_8:
	mov	w12, #101
	strb	w12, [x8, #4]
	mov	w12, #24934
	movk	w12, #29548, lsl #16
	str	w12, [x8]
Ldcsctp_BB16_9:
	mov	w8, #0
Ldcsctp_BB16_10:
	stp	x11, x10, [x0]
	str	x9, [x0, #16]
Ldcsctp_BB16_11:
	mov	x0, x8
	.cfi_def_cfa wsp, 32
	ldp	x29, x30, [sp, #16]
	ldp	x20, x19, [sp], #32
	.cfi_def_cfa_offset 0
	.cfi_restore w30
	.cfi_restore w29
	.cfi_restore w19
	.cfi_restore w20
	ret
Ldcsctp_BB16_12:
	.cfi_restore_state
	.cfi_remember_state
Ldcsctp_loh314:
	adrp	x1, l_static.15@PAGE
Ldcsctp_loh315:
	add	x1, x1, l_static.15@PAGEOFF
	mov	w2, #4
	.cfi_def_cfa wsp, 32
	b	Ldcsctp_BB16_14
Ldcsctp_BB16_13:
	.cfi_restore_state
	.cfi_remember_state
Ldcsctp_loh316:
	adrp	x1, l_static.16@PAGE
Ldcsctp_loh317:
	add	x1, x1, l_static.16@PAGEOFF
	mov	w2, #5
	.cfi_def_cfa wsp, 32
Ldcsctp_BB16_14:
	ldp	x29, x30, [sp, #16]
	ldp	x20, x19, [sp], #32
	.cfi_def_cfa_offset 0
	.cfi_restore w30
	.cfi_restore w29
	.cfi_restore w19
	.cfi_restore w20
	b	_core.fmt.formatter.Formatter.write_indented.69d84fb4438acd8c
Ldcsctp_BB16_15:
	.cfi_restore_state
	mov	x19, x0
	mov	w1, #4
	bl	_std_alloc.vec.Vec.grow_amortized.38fbb921ed00a393
	cbz	w0, Ldcsctp_BB16_19
	mov	x0, x19
	ldp	x10, x9, [x19, #8]
	b	Ldcsctp_BB16_3
Ldcsctp_BB16_17:
	mov	x19, x0
	mov	w1, #5
	bl	_std_alloc.vec.Vec.grow_amortized.38fbb921ed00a393
	cbz	w0, Ldcsctp_BB16_19
	mov	x0, x19
	ldp	x8, x9, [x19, #8]
	b	Ldcsctp_BB16_6
Ldcsctp_BB16_19:
	mov	w8, #1
	b	Ldcsctp_BB16_11
	.loh AdrpAdd	Ldcsctp_loh310, Ldcsctp_loh311
	.loh AdrpLdr	Ldcsctp_loh312, Ldcsctp_loh313
	.loh AdrpAdd	Ldcsctp_loh314, Ldcsctp_loh315
	.loh AdrpAdd	Ldcsctp_loh316, Ldcsctp_loh317
	.cfi_endproc
	.p2align	2
_core.fmt.formatter.Formatter.write_piece.3798a2e744629105:
	.cfi_startproc
	sub	sp, sp, #96
	.cfi_def_cfa_offset 96
	stp	x24, x23, [sp, #32]
	stp	x22, x21, [sp, #48]
	stp	x20, x19, [sp, #64]
	stp	x29, x30, [sp, #80]
	add	x29, sp, #80
	.cfi_def_cfa w29, 16
	.cfi_offset w30, -8
	.cfi_offset w29, -16
	.cfi_offset w19, -24
	.cfi_offset w20, -32
	.cfi_offset w21, -40
	.cfi_offset w22, -48
	.cfi_offset w23, -56
	.cfi_offset w24, -64
	.cfi_remember_state
	mov	x19, x1
	mov	w8, #32
	mov	x21, x0
	str	w8, [x21, #24]!
	mov	x9, #-1
	str	x9, [x21, #16]
	ldr	x11, [x21, #24]
	str	x9, [sp, #16]
	stur	xzr, [x21, #4]
	str	wzr, [x21, #12]
	ldr	q0, [x21]
	str	q0, [sp]
	str	w8, [x21]
	stur	xzr, [x21, #4]
	str	wzr, [x21, #12]
	str	x9, [x21, #16]
	ldr	x1, [x1]
	ldr	x2, [x19, #8]
	cbnz	x11, Ldcsctp_BB17_14
	mov	x24, x0
	ldp	x9, x20, [x24, #8]!
	sub	x8, x20, x9
	cmp	x2, x8
	b.hi	Ldcsctp_BB17_22
Ldcsctp_BB17_2:
	add	x22, x9, x2
	ldr	x23, [x0]
	stp	xzr, xzr, [x24]
	add	x8, x23, x9
	sub	x10, x8, x1
	cmp	x10, x2
	b.hs	Ldcsctp_BB17_8
	cmp	x2, #8
	b.lo	Ldcsctp_BB17_5
	add	x8, x9, x23
	sub	x8, x8, x1
	cmp	x8, #64
	b.hs	Ldcsctp_BB17_12
Ldcsctp_BB17_5:
	mov	x8, #0
Ldcsctp_BB17_6:
	sub	x10, x2, x8
	add	x11, x1, x8
	add	x8, x8, x9
	add	x8, x23, x8
Ldcsctp_BB17_7:
	ldrb	w9, [x11], #1
	strb	w9, [x8], #1
	subs	x10, x10, #1
	b.ne	Ldcsctp_BB17_7
	b	Ldcsctp_BB17_9
Ldcsctp_BB17_8:
	mov	x24, x0
	mov	x0, x8
	bl	_memmove
	mov	x0, x24
Ldcsctp_BB17_9:
	stp	x23, x22, [x0]
	str	x20, [x0, #16]
Ldcsctp_BB17_10:
	add	x1, x19, #16
	bl	_core.fmt.formatter.Formatter.write_piece.861f8385eb98801e
	and	w0, w0, #0xff
Ldcsctp_BB17_11:
	ldr	q0, [sp]
	str	q0, [x21]
	ldr	x8, [sp, #16]
	str	x8, [x21, #16]
	.cfi_def_cfa wsp, 96
	ldp	x29, x30, [sp, #80]
	ldp	x20, x19, [sp, #64]
	ldp	x22, x21, [sp, #48]
	ldp	x24, x23, [sp, #32]
	add	sp, sp, #96
	.cfi_def_cfa_offset 0
	.cfi_restore w30
	.cfi_restore w29
	.cfi_restore w19
	.cfi_restore w20
	.cfi_restore w21
	.cfi_restore w22
	.cfi_restore w23
	.cfi_restore w24
	ret
Ldcsctp_BB17_12:
	.cfi_restore_state
	cmp	x2, #64
	b.hs	Ldcsctp_BB17_15
	mov	x8, #0
	b	Ldcsctp_BB17_19
Ldcsctp_BB17_14:
	mov	x20, x0
	bl	_core.fmt.formatter.Formatter.write_indented.69d84fb4438acd8c
	mov	x8, x0
	mov	x0, x20
	and	w8, w8, #0xff
	tbnz	w8, #0, Ldcsctp_BB17_24
	b	Ldcsctp_BB17_10
Ldcsctp_BB17_15:
	and	x10, x2, #0x38
	and	x8, x2, #0xffffffffffffffc0
	add	x11, x9, x23
	add	x11, x11, #32
	add	x12, x1, #32
	and	x13, x2, #0xffffffffffffffc0
Ldcsctp_BB17_16:
	ldp	q0, q1, [x12, #-32]
	ldp	q2, q3, [x12], #64
	stp	q0, q1, [x11, #-32]
	stp	q2, q3, [x11], #64
	subs	x13, x13, #64
	b.ne	Ldcsctp_BB17_16
	cmp	x2, x8
	b.eq	Ldcsctp_BB17_9
	cbz	x10, Ldcsctp_BB17_6
Ldcsctp_BB17_19:
	mov	x12, x8
	and	x8, x2, #0xfffffffffffffff8
	sub	x10, x12, x8
	add	x11, x1, x12
	add	x12, x9, x12
	add	x12, x23, x12
Ldcsctp_BB17_20:
	ldr	d0, [x11], #8
	str	d0, [x12], #8
	adds	x10, x10, #8
	b.ne	Ldcsctp_BB17_20
	cmp	x2, x8
	b.eq	Ldcsctp_BB17_9
	b	Ldcsctp_BB17_6
Ldcsctp_BB17_22:
	mov	x22, x1
	mov	x20, x0
	mov	x23, x2
	mov	x1, x2
	bl	_std_alloc.vec.Vec.grow_amortized.38fbb921ed00a393
	cbz	w0, Ldcsctp_BB17_24
	mov	x0, x20
	ldp	x9, x20, [x20, #8]
	mov	x1, x22
	mov	x2, x23
	b	Ldcsctp_BB17_2
Ldcsctp_BB17_24:
	mov	w0, #1
	b	Ldcsctp_BB17_11
	.cfi_endproc
	.p2align	2
_core.fmt.formatter.Formatter.write_piece.861f8385eb98801e:
	.cfi_startproc
	sub	sp, sp, #80
	.cfi_def_cfa_offset 80
	stp	x22, x21, [sp, #32]
	stp	x20, x19, [sp, #48]
	stp	x29, x30, [sp, #64]
	add	x29, sp, #64
	.cfi_def_cfa w29, 16
	.cfi_offset w30, -8
	.cfi_offset w29, -16
	.cfi_offset w19, -24
	.cfi_offset w20, -32
	.cfi_offset w21, -40
	.cfi_offset w22, -48
	.cfi_remember_state
	mov	x19, x0
	mov	w8, #32
	str	w8, [x0, #24]
	stur	xzr, [x0, #28]
	str	wzr, [x0, #36]
	mov	x8, #-1
	str	x8, [x0, #40]
	ldr	x8, [x1]
	ldr	x8, [x8]
	stp	xzr, xzr, [sp, #8]
	str	xzr, [sp, #24]
	cmp	x8, #100
	b.lo	Ldcsctp_BB18_5
	mov	x9, #0
Ldcsctp_BB18_2:
	mov	x10, x8
	lsr	x8, x8, #2
	mov	x11, #62915
	movk	x11, #23592, lsl #16
	movk	x11, #49807, lsl #32
	movk	x11, #10485, lsl #48
	umulh	x8, x8, x11
	lsr	x8, x8, #2
	mov	w11, #100
	msub	w11, w8, w11, w10
	and	w12, w11, #0xff
	mov	w13, #205
	mul	w12, w12, w13
	lsr	w12, w12, #11
	mov	w13, #10
	msub	w11, w12, w13, w11
	orr	w11, w11, #0x30
	add	x13, sp, #8
	add	x13, x13, x9
	strb	w11, [x13, #23]
	orr	w11, w12, #0x30
	strb	w11, [x13, #22]
	sub	x9, x9, #2
	lsr	x10, x10, #4
	cmp	x10, #624
	b.hi	Ldcsctp_BB18_2
	add	x9, x9, #24
	cmp	x8, #10
	b.hs	Ldcsctp_BB18_6
Ldcsctp_BB18_4:
	orr	w10, w8, #0x30
	sub	x8, x9, #1
	add	x9, sp, #8
	strb	w10, [x9, x8]
	b	Ldcsctp_BB18_7
Ldcsctp_BB18_5:
	mov	w9, #24
	cmp	x8, #10
	b.lo	Ldcsctp_BB18_4
Ldcsctp_BB18_6:
	and	w10, w8, #0xff
	mov	w11, #205
	mul	w10, w10, w11
	lsr	w10, w10, #11
	mov	w11, #10
	msub	w8, w10, w11, w8
	orr	w8, w8, #0x30
	add	x11, sp, #8
	add	x11, x11, x9
	sturb	w8, [x11, #-1]
	orr	w8, w10, #0x30
	sturb	w8, [x11, #-2]
	sub	x8, x9, #2
Ldcsctp_BB18_7:
	add	x9, sp, #8
	add	x1, x9, x8
	mov	w9, #45
	sturb	w9, [x1, #-1]
	mov	w9, #24
	sub	x2, x9, x8
	ldr	x8, [x19, #48]
	cbnz	x8, Ldcsctp_BB18_11
	ldp	x8, x20, [x19, #8]
	sub	x9, x20, x8
	cmp	x2, x9
	b.hi	Ldcsctp_BB18_12
Ldcsctp_BB18_9:
	add	x21, x8, x2
	ldr	x22, [x19]
	add	x0, x22, x8
	bl	_memcpy
	mov	w0, #0
	stp	x22, x21, [x19]
	str	x20, [x19, #16]
Ldcsctp_BB18_10:
	.cfi_def_cfa wsp, 80
	ldp	x29, x30, [sp, #64]
	ldp	x20, x19, [sp, #48]
	ldp	x22, x21, [sp, #32]
	add	sp, sp, #80
	.cfi_def_cfa_offset 0
	.cfi_restore w30
	.cfi_restore w29
	.cfi_restore w19
	.cfi_restore w20
	.cfi_restore w21
	.cfi_restore w22
	ret
Ldcsctp_BB18_11:
	.cfi_restore_state
	mov	x0, x19
	bl	_core.fmt.formatter.Formatter.write_indented.69d84fb4438acd8c
	and	w0, w0, #0xff
	b	Ldcsctp_BB18_10
Ldcsctp_BB18_12:
	mov	x21, x1
	mov	x0, x19
	mov	x22, x2
	mov	x1, x2
	bl	_std_alloc.vec.Vec.grow_amortized.38fbb921ed00a393
	cbz	w0, Ldcsctp_BB18_14
	ldp	x8, x20, [x19, #8]
	mov	x1, x21
	mov	x2, x22
	b	Ldcsctp_BB18_9
Ldcsctp_BB18_14:
	mov	w0, #1
	b	Ldcsctp_BB18_10
	.cfi_endproc
	.p2align	2
_dcsctp_tlv.list.listed_encoded_size.cada439fb2c2aae5:
	.cfi_startproc
	mov	x8, #0
	cbz	x2, Ldcsctp_BB19_19
	add	x9, x1, #16
Ldcsctp_BB19_2:
	ldurb	w12, [x9, #-16]
	mov	w11, #1
	mov	w10, #8
Ldcsctp_loh318:
	adrp	x13, Ldcsctp_JTI19_0@PAGE
Ldcsctp_loh319:
	add	x13, x13, Ldcsctp_JTI19_0@PAGEOFF
	adr	x14, Ldcsctp_BB19_3
	ldrb	w15, [x13, x12]
	add	x14, x14, x15, lsl #2
	br	x14
Ldcsctp_BB19_3:
	ldr	x10, [x9]
	b	Ldcsctp_BB19_6
Ldcsctp_BB19_4:
	ldr	x10, [x9, #8]
	lsl	x11, x10, #1
	cmn	x10, #1
	csinv	x10, x11, xzr, gt
	mov	w11, #65528
	add	x12, x10, #8
	b	Ldcsctp_BB19_7
Ldcsctp_BB19_5:
	ldr	x10, [x9, #8]
Ldcsctp_BB19_6:
	mov	w11, #65532
	add	x12, x10, #4
Ldcsctp_BB19_7:
	cmp	x10, x11
	csel	x10, x12, xzr, lo
Ldcsctp_BB19_8:
	cset	w11, lo
	and	w11, w11, #0xff
	cmp	w11, #1
	b.eq	Ldcsctp_BB19_15
	b	Ldcsctp_BB19_18
Ldcsctp_BB19_9:
	ldr	x10, [x9, #16]
	lsl	x11, x10, #1
	cmn	x10, #1
	csinv	x10, x11, xzr, gt
	lsr	x11, x10, #4
	add	x10, x10, #16
	cmp	x11, #4095
	csel	x10, x10, xzr, lo
	b	Ldcsctp_BB19_8
Ldcsctp_BB19_10:
	ldurb	w10, [x9, #-4]
	cmp	w10, #1
	b.ne	Ldcsctp_BB19_13
	ldrb	w10, [x9, #4]
	cmp	w10, #1
	b.ne	Ldcsctp_BB19_13
	mov	w10, #20
	and	w11, w11, #0xff
	cmp	w11, #1
	b.eq	Ldcsctp_BB19_15
	b	Ldcsctp_BB19_18
Ldcsctp_BB19_13:
	mov	w10, #12
Ldcsctp_BB19_14:
	and	w11, w11, #0xff
	cmp	w11, #1
	b.ne	Ldcsctp_BB19_18
Ldcsctp_BB19_15:
	add	x8, x8, #3
	and	x8, x8, #0xfffffffffffffffc
	add	x8, x10, x8
	lsr	x10, x8, #16
	cbnz	x10, Ldcsctp_BB19_18
	add	x9, x9, #48
	subs	x2, x2, #1
	b.ne	Ldcsctp_BB19_2
	b	Ldcsctp_BB19_19
Ldcsctp_BB19_17:
	mov	w10, #4
	and	w11, w11, #0xff
	cmp	w11, #1
	b.eq	Ldcsctp_BB19_15
Ldcsctp_BB19_18:
	mov	w0, #0
	mov	x1, #0
	ret
Ldcsctp_BB19_19:
	mov	w9, #65532
	add	x8, x8, x0
	cmp	x8, x9
	cset	w0, lo
	add	x8, x8, #4
	csel	x1, x8, xzr, lo
	ret
	.loh AdrpAdd	Ldcsctp_loh318, Ldcsctp_loh319
	.cfi_endproc
	.section	__TEXT,__const
Ldcsctp_JTI19_0:
	.byte	(Ldcsctp_BB19_3-Ldcsctp_BB19_3)>>2
	.byte	(Ldcsctp_BB19_3-Ldcsctp_BB19_3)>>2
	.byte	(Ldcsctp_BB19_9-Ldcsctp_BB19_3)>>2
	.byte	(Ldcsctp_BB19_4-Ldcsctp_BB19_3)>>2
	.byte	(Ldcsctp_BB19_14-Ldcsctp_BB19_3)>>2
	.byte	(Ldcsctp_BB19_10-Ldcsctp_BB19_3)>>2
	.byte	(Ldcsctp_BB19_13-Ldcsctp_BB19_3)>>2
	.byte	(Ldcsctp_BB19_13-Ldcsctp_BB19_3)>>2
	.byte	(Ldcsctp_BB19_14-Ldcsctp_BB19_3)>>2
	.byte	(Ldcsctp_BB19_3-Ldcsctp_BB19_3)>>2
	.byte	(Ldcsctp_BB19_17-Ldcsctp_BB19_3)>>2
	.byte	(Ldcsctp_BB19_5-Ldcsctp_BB19_3)>>2
	.section	__TEXT,__text,regular,pure_instructions
	.p2align	2
_dcsctp_tlv.list.listed_encoded_size.f123a6a91b68d363:
	.cfi_startproc
	mov	x8, #0
	cbz	x1, Ldcsctp_BB20_18
	add	x9, x0, #16
Ldcsctp_BB20_2:
	ldurb	w10, [x9, #-16]
	cmp	w10, #2
	b.le	Ldcsctp_BB20_6
	cmp	w10, #4
	b.gt	Ldcsctp_BB20_9
	cmp	w10, #3
	b.ne	Ldcsctp_BB20_10
	mov	w11, #1
	mov	w10, #4
	b	Ldcsctp_BB20_15
Ldcsctp_BB20_6:
	cbz	w10, Ldcsctp_BB20_11
	cmp	w10, #1
	b.eq	Ldcsctp_BB20_10
	mov	w11, #1
	mov	w10, #8
	b	Ldcsctp_BB20_15
Ldcsctp_BB20_9:
	cmp	w10, #5
	b.ne	Ldcsctp_BB20_12
Ldcsctp_BB20_10:
	ldr	x10, [x9]
	b	Ldcsctp_BB20_13
Ldcsctp_BB20_11:
	ldr	x10, [x9]
	lsl	x11, x10, #1
	cmn	x10, #1
	csinv	x10, x11, xzr, gt
	mov	w11, #65528
	add	x12, x10, #8
	b	Ldcsctp_BB20_14
Ldcsctp_BB20_12:
	ldr	x10, [x9, #8]
Ldcsctp_BB20_13:
	mov	w11, #65532
	add	x12, x10, #4
Ldcsctp_BB20_14:
	cmp	x10, x11
	csel	x10, x12, xzr, lo
	cset	w11, lo
Ldcsctp_BB20_15:
	and	w11, w11, #0xff
	cmp	w11, #1
	b.ne	Ldcsctp_BB20_19
	add	x8, x8, #3
	and	x8, x8, #0xfffffffffffffffc
	add	x8, x10, x8
	lsr	x10, x8, #16
	cbnz	x10, Ldcsctp_BB20_19
	add	x9, x9, #40
	subs	x1, x1, #1
	b.ne	Ldcsctp_BB20_2
Ldcsctp_BB20_18:
	mov	w9, #65532
	add	x10, x8, #4
	cmp	x8, x9
	csel	x1, x10, xzr, lo
	cset	w0, lo
	ret
Ldcsctp_BB20_19:
	mov	w0, #0
	mov	x1, #0
	ret
	.cfi_endproc
	.p2align	2
_dcsctp_wire.packet.chunk.ChunkSerializableTlv.serialize_to:
	.cfi_startproc
	sub	sp, sp, #32
	.cfi_def_cfa_offset 32
	stp	x29, x30, [sp, #16]
	add	x29, sp, #16
	.cfi_def_cfa w29, 16
	.cfi_offset w30, -8
	.cfi_offset w29, -16
	.cfi_remember_state
	ldrb	w8, [x0]
	mov	x5, x1
Ldcsctp_loh320:
	adrp	x9, Ldcsctp_JTI21_0@PAGE
Ldcsctp_loh321:
	add	x9, x9, Ldcsctp_JTI21_0@PAGEOFF
	adr	x10, Ldcsctp_BB21_1
	ldrh	w11, [x9, x8, lsl #1]
	add	x10, x10, x11, lsl #2
	br	x10
Ldcsctp_BB21_1:
	ldrb	w8, [x0, #60]
	ldrb	w9, [x0, #51]
	ldrb	w10, [x0, #50]
	ldrb	w11, [x0, #44]
	mov	w12, #4
	cmp	w11, #1
	csel	w11, w12, wzr, eq
	orr	w8, w9, w8, lsl #3
	orr	w8, w8, w10, lsl #1
	orr	w8, w8, w11
	ldr	w9, [x0, #56]
	ldrh	w10, [x0, #46]
	ldrh	w11, [x0, #48]
	ldr	w12, [x0, #40]
	rev	w9, w9
	rev	w10, w10
	lsr	w10, w10, #16
	rev	w11, w11
	lsr	w11, w11, #16
	rev	w12, w12
	ldp	x1, x2, [x0, #8]
	strb	wzr, [x5]
	strb	w8, [x5, #1]
	add	w8, w2, #16
	rev	w8, w8
	lsr	w8, w8, #16
	strh	w8, [x5, #2]
	str	w9, [x5, #4]
	strh	w10, [x5, #8]
	strh	w11, [x5, #10]
	str	w12, [x5, #12]
	add	x0, x5, #16
	sub	x8, x0, x1
	cmp	x8, x2
	b.hs	Ldcsctp_BB21_59
	cmp	x2, #8
	b.lo	Ldcsctp_BB21_4
	sub	x8, x5, x1
	add	x8, x8, #16
	cmp	x8, #64
	b.hs	Ldcsctp_BB21_121
Ldcsctp_BB21_4:
	mov	x8, #0
Ldcsctp_BB21_5:
	sub	x9, x2, x8
	add	x10, x1, x8
	add	x8, x8, x5
	add	x8, x8, #16
Ldcsctp_BB21_6:
	ldrb	w11, [x10], #1
	strb	w11, [x8], #1
	subs	x9, x9, #1
	b.ne	Ldcsctp_BB21_6
	b	Ldcsctp_BB21_70
Ldcsctp_BB21_7:
	ldr	w9, [x0, #8]
	ldp	x8, x10, [x0, #16]
	mov	w11, #194
	strh	w11, [x5]
	lsl	w11, w10, #3
	add	w11, w11, #8
	rev	w11, w11
	lsr	w11, w11, #16
	strh	w11, [x5, #2]
	rev	w9, w9
	str	w9, [x5, #4]
	cbz	x10, Ldcsctp_BB21_70
	and	x9, x10, #0x7
	cmp	x10, #8
	b.hs	Ldcsctp_BB21_71
	mov	x12, #0
	mov	w10, #8
	b	Ldcsctp_BB21_91
Ldcsctp_BB21_10:
	ldp	x3, x4, [x0, #8]
Ldcsctp_loh322:
	adrp	x1, l_static.8@PAGE
Ldcsctp_loh323:
	add	x1, x1, l_static.8@PAGEOFF
	mov	w0, #130
	b	Ldcsctp_BB21_43
Ldcsctp_BB21_11:
	mov	w8, #11
	movk	w8, #1024, lsl #16
	str	w8, [x5]
	b	Ldcsctp_BB21_70
Ldcsctp_BB21_12:
	ldp	x3, x4, [x0, #8]
Ldcsctp_loh324:
	adrp	x1, l_static.8@PAGE
Ldcsctp_loh325:
	add	x1, x1, l_static.8@PAGEOFF
	mov	w0, #4
	b	Ldcsctp_BB21_43
Ldcsctp_BB21_13:
	ldrb	w8, [x0, #1]
	mov	w9, #14
	strb	w9, [x5]
	strb	w8, [x5, #1]
	mov	w8, #1024
	strh	w8, [x5, #2]
	b	Ldcsctp_BB21_70
Ldcsctp_BB21_14:
	ldp	x2, x3, [x0, #8]
	mov	w0, #9
	mov	w1, #0
	b	Ldcsctp_BB21_51
Ldcsctp_BB21_15:
	ldrh	w8, [x0, #16]
	ldrh	w9, [x0, #18]
	ldr	w10, [x0, #20]
	rev	w8, w8
	lsr	w8, w8, #16
	rev	w9, w9
	lsr	w9, w9, #16
	rev	w10, w10
	ldr	d0, [x0, #8]
	rev32	v0.8b, v0.8b
	str	d0, [sp]
	strh	w8, [sp, #8]
	strh	w9, [sp, #10]
	str	w10, [sp, #12]
	ldp	x3, x4, [x0, #24]
	mov	x1, sp
	mov	w0, #2
	b	Ldcsctp_BB21_35
Ldcsctp_BB21_16:
	ldr	w8, [x0, #8]
	ldp	x9, x10, [x0, #16]
	mov	w11, #192
	strh	w11, [x5]
	lsl	w11, w10, #2
	add	w11, w11, #8
	rev	w11, w11
	lsr	w11, w11, #16
	strh	w11, [x5, #2]
	rev	w8, w8
	str	w8, [x5, #4]
	cbz	x10, Ldcsctp_BB21_70
	and	x8, x10, #0x7
	cmp	x10, #8
	b.hs	Ldcsctp_BB21_95
	mov	x11, #0
	mov	w10, #8
	b	Ldcsctp_BB21_115
Ldcsctp_BB21_19:
	ldr	x8, [x0, #24]
	ldr	x9, [x0, #48]
	adds	x8, x9, x8
	csinv	x8, x8, xzr, lo
	lsl	x9, x8, #2
	lsr	x8, x8, #62
	cmp	x8, #0
	csinv	x8, x9, xzr, eq
	lsr	x9, x8, #4
	cmp	x9, #4095
	b.hs	Ldcsctp_BB21_175
	mov	w9, #3
	strh	w9, [x5]
	add	w8, w8, #16
	rev	w8, w8
	lsr	w8, w8, #16
	strh	w8, [x5, #2]
	ldrh	w8, [x0, #24]
	ldrh	w9, [x0, #48]
	rev	w8, w8
	lsr	w8, w8, #16
	rev	w9, w9
	lsr	w9, w9, #16
	ldr	d0, [x0, #8]
	rev32	v0.8b, v0.8b
	stur	d0, [x5, #4]
	strh	w8, [x5, #12]
	strh	w9, [x5, #14]
	ldr	x8, [x0, #24]
	cbz	x8, Ldcsctp_BB21_64
	ldr	x9, [x0, #16]
	cmp	x8, #4
	b.lo	Ldcsctp_BB21_29
	mov	x10, #0
	sub	x12, x8, #1
	lsl	x13, x12, #2
	add	x14, x9, #2
	mov	w11, #16
	add	x15, x14, x13
	cmp	x15, x14
	b.lo	Ldcsctp_BB21_30
	add	x14, x9, x13
	cmp	x14, x9
	b.lo	Ldcsctp_BB21_30
	add	x14, x5, #16
	add	x15, x14, x13
	cmp	x15, x14
	b.lo	Ldcsctp_BB21_30
	add	x14, x5, #18
	add	x13, x14, x13
	cmp	x13, x14
	b.lo	Ldcsctp_BB21_30
	lsr	x12, x12, #62
	cbnz	x12, Ldcsctp_BB21_30
	add	x10, x5, #16
	lsl	x11, x8, #2
	add	x12, x9, x11
	cmp	x10, x12
	b.hs	Ldcsctp_BB21_129
	add	x10, x10, x11
	cmp	x9, x10
	b.hs	Ldcsctp_BB21_129
Ldcsctp_BB21_29:
	mov	x10, #0
	mov	w11, #16
Ldcsctp_BB21_30:
	add	x11, x11, x5
	add	x11, x11, #2
	sub	x8, x8, x10
	add	x9, x9, x10, lsl #2
	add	x9, x9, #2
Ldcsctp_BB21_31:
	ldurh	w10, [x9, #-2]
	rev	w10, w10
	lsr	w10, w10, #16
	sturh	w10, [x11, #-2]
	ldrh	w10, [x9], #4
	rev	w10, w10
	lsr	w10, w10, #16
	strh	w10, [x11], #4
	subs	x8, x8, #1
	b.ne	Ldcsctp_BB21_31
Ldcsctp_BB21_32:
	ldr	x8, [x0, #24]
	lsl	x8, x8, #2
	add	x11, x8, #16
	ldr	x8, [x0, #48]
	cbnz	x8, Ldcsctp_BB21_65
	b	Ldcsctp_BB21_70
Ldcsctp_BB21_33:
	ldr	w8, [x0, #4]
	rev	w8, w8
	mov	w9, #7
	movk	w9, #2048, lsl #16
	stp	w9, w8, [x5]
	b	Ldcsctp_BB21_70
Ldcsctp_BB21_34:
	ldrh	w8, [x0, #16]
	ldrh	w9, [x0, #18]
	ldr	w10, [x0, #20]
	rev	w8, w8
	lsr	w8, w8, #16
	rev	w9, w9
	lsr	w9, w9, #16
	rev	w10, w10
	ldr	d0, [x0, #8]
	rev32	v0.8b, v0.8b
	str	d0, [sp]
	strh	w8, [sp, #8]
	strh	w9, [sp, #10]
	str	w10, [sp, #12]
	ldp	x3, x4, [x0, #24]
	mov	x1, sp
	mov	w0, #1
Ldcsctp_BB21_35:
	mov	w2, #16
	bl	_dcsctp_tlv.list.put_listed.cada439fb2c2aae5
	b	Ldcsctp_BB21_70
Ldcsctp_BB21_36:
	ldrh	w8, [x0, #8]
	ldp	x1, x2, [x0, #16]
	strh	w8, [x5]
	add	w8, w2, #4
	rev	w8, w8
	lsr	w8, w8, #16
	strh	w8, [x5, #2]
	add	x0, x5, #4
	sub	x8, x0, x1
	cmp	x8, x2
	b.hs	Ldcsctp_BB21_60
	cmp	x2, #8
	b.lo	Ldcsctp_BB21_39
	sub	x8, x5, x1
	add	x8, x8, #4
	cmp	x8, #64
	b.hs	Ldcsctp_BB21_123
Ldcsctp_BB21_39:
	mov	x8, #0
Ldcsctp_BB21_40:
	sub	x9, x2, x8
	add	x10, x1, x8
	add	x8, x8, x5
	add	x8, x8, #4
Ldcsctp_BB21_41:
	ldrb	w11, [x10], #1
	strb	w11, [x8], #1
	subs	x9, x9, #1
	b.ne	Ldcsctp_BB21_41
	b	Ldcsctp_BB21_70
Ldcsctp_BB21_42:
	ldp	x3, x4, [x0, #8]
Ldcsctp_loh326:
	adrp	x1, l_static.8@PAGE
Ldcsctp_loh327:
	add	x1, x1, l_static.8@PAGEOFF
	mov	w0, #5
Ldcsctp_BB21_43:
	mov	x2, #0
	.cfi_def_cfa wsp, 32
	ldp	x29, x30, [sp, #16]
	add	sp, sp, #32
	.cfi_def_cfa_offset 0
	.cfi_restore w30
	.cfi_restore w29
	b	_dcsctp_tlv.list.put_listed.cada439fb2c2aae5
Ldcsctp_BB21_44:
	.cfi_restore_state
	.cfi_remember_state
	ldr	x1, [x0, #8]!
	ldrb	w8, [x0, #52]
	ldrb	w9, [x0, #43]
	ldrb	w10, [x0, #42]
	ldrb	w11, [x0, #36]
	mov	w12, #4
	cmp	w11, #1
	csel	w11, w12, wzr, eq
	orr	w8, w9, w8, lsl #3
	orr	w8, w8, w10, lsl #1
	orr	w8, w8, w11
	ldr	w9, [x0, #48]
	ldrh	w11, [x0, #38]
	ldr	w12, [x0, #24]
	cmp	w10, #0
	mov	w10, #28
	mov	w13, #32
	csel	x10, x13, x10, ne
	ldr	w10, [x0, x10]
	rev	w9, w9
	rev	w11, w11
	lsr	w11, w11, #16
	rev	w12, w12
	rev	w10, w10
	ldr	x2, [x0, #8]
	mov	w13, #64
	strb	w13, [x5]
	strb	w8, [x5, #1]
	add	w8, w2, #20
	rev	w8, w8
	lsr	w8, w8, #16
	strh	w8, [x5, #2]
	str	w9, [x5, #4]
	strh	w11, [x5, #8]
	strh	wzr, [x5, #10]
	stp	w12, w10, [x5, #12]
	add	x0, x5, #20
	sub	x8, x0, x1
	cmp	x8, x2
	b.hs	Ldcsctp_BB21_61
	cmp	x2, #8
	b.lo	Ldcsctp_BB21_47
	sub	x8, x5, x1
	add	x8, x8, #20
	cmp	x8, #64
	b.hs	Ldcsctp_BB21_125
Ldcsctp_BB21_47:
	mov	x8, #0
Ldcsctp_BB21_48:
	sub	x9, x2, x8
	add	x10, x1, x8
	add	x8, x8, x5
	add	x8, x8, #20
Ldcsctp_BB21_49:
	ldrb	w11, [x10], #1
	strb	w11, [x8], #1
	subs	x9, x9, #1
	b.ne	Ldcsctp_BB21_49
	b	Ldcsctp_BB21_70
Ldcsctp_BB21_50:
	ldp	x2, x3, [x0, #16]
	ldrb	w1, [x0, #8]
	mov	w0, #6
Ldcsctp_BB21_51:
	mov	x4, x5
	.cfi_def_cfa wsp, 32
	ldp	x29, x30, [sp, #16]
	add	sp, sp, #32
	.cfi_def_cfa_offset 0
	.cfi_restore w30
	.cfi_restore w29
	b	_dcsctp_tlv.list.put_listed.f123a6a91b68d363
Ldcsctp_BB21_52:
	.cfi_restore_state
	.cfi_remember_state
	ldp	x1, x2, [x0, #8]
	mov	w8, #10
	strh	w8, [x5]
	add	w8, w2, #4
	rev	w8, w8
	lsr	w8, w8, #16
	strh	w8, [x5, #2]
	add	x0, x5, #4
	sub	x8, x0, x1
	cmp	x8, x2
	b.hs	Ldcsctp_BB21_62
	cmp	x2, #8
	b.lo	Ldcsctp_BB21_55
	sub	x8, x5, x1
	add	x8, x8, #4
	cmp	x8, #64
	b.hs	Ldcsctp_BB21_127
Ldcsctp_BB21_55:
	mov	x8, #0
Ldcsctp_BB21_56:
	sub	x9, x2, x8
	add	x10, x1, x8
	add	x8, x8, x5
	add	x8, x8, #4
Ldcsctp_BB21_57:
	ldrb	w11, [x10], #1
	strb	w11, [x8], #1
	subs	x9, x9, #1
	b.ne	Ldcsctp_BB21_57
	b	Ldcsctp_BB21_70
Ldcsctp_BB21_58:
	mov	w8, #8
	movk	w8, #1024, lsl #16
	str	w8, [x5]
	b	Ldcsctp_BB21_70
Ldcsctp_BB21_59:
	.cfi_def_cfa wsp, 32
	b	Ldcsctp_BB21_63
Ldcsctp_BB21_60:
	.cfi_restore_state
	.cfi_remember_state
	.cfi_def_cfa wsp, 32
	b	Ldcsctp_BB21_63
Ldcsctp_BB21_61:
	.cfi_restore_state
	.cfi_remember_state
	.cfi_def_cfa wsp, 32
	b	Ldcsctp_BB21_63
Ldcsctp_BB21_62:
	.cfi_restore_state
	.cfi_remember_state
	.cfi_def_cfa wsp, 32
Ldcsctp_BB21_63:
	ldp	x29, x30, [sp, #16]
	add	sp, sp, #32
	.cfi_def_cfa_offset 0
	.cfi_restore w30
	.cfi_restore w29
	b	_memmove
Ldcsctp_BB21_64:
	.cfi_restore_state
	.cfi_remember_state
	mov	w11, #16
	ldr	x8, [x0, #48]
	cbz	x8, Ldcsctp_BB21_70
Ldcsctp_BB21_65:
	ldr	x9, [x0, #40]
	cmp	x8, #4
	b.lo	Ldcsctp_BB21_67
	add	x10, x11, x5
	sub	x10, x10, x9
	cmp	x10, #64
	b.hs	Ldcsctp_BB21_119
Ldcsctp_BB21_67:
	mov	x10, #0
	mov	x12, x11
Ldcsctp_BB21_68:
	add	x11, x5, x12
	sub	x8, x8, x10
	add	x9, x9, x10, lsl #2
Ldcsctp_BB21_69:
	ldr	w10, [x9], #4
	rev	w10, w10
	str	w10, [x11], #4
	subs	x8, x8, #1
	b.ne	Ldcsctp_BB21_69
Ldcsctp_BB21_70:
	.cfi_def_cfa wsp, 32
	ldp	x29, x30, [sp, #16]
	add	sp, sp, #32
	.cfi_def_cfa_offset 0
	.cfi_restore w30
	.cfi_restore w29
	ret
Ldcsctp_BB21_71:
	.cfi_restore_state
	mov	x11, #0
	add	x12, x5, #34
	and	x10, x10, #0xfffffffffffffff8
	neg	x13, x10
	add	x14, x8, #92
	mov	w10, #8
	b	Ldcsctp_BB21_73
Ldcsctp_BB21_72:
	add	x10, x10, #64
	add	x12, x12, #64
	sub	x11, x11, #8
	add	x14, x14, #96
	cmp	x13, x11
	b.eq	Ldcsctp_BB21_89
Ldcsctp_BB21_73:
	ldurb	w15, [x14, #-92]
	cbz	w15, Ldcsctp_BB21_75
	ldurh	w15, [x14, #-88]
	rev	w15, w15
	lsr	w15, w15, #16
	sturh	w15, [x12, #-26]
	ldurb	w15, [x14, #-90]
	mov	w16, #256
	cmp	w15, #1
	csel	w15, w16, wzr, eq
	sturh	w15, [x12, #-24]
	ldur	w15, [x14, #-84]
	rev	w15, w15
	stur	w15, [x12, #-22]
Ldcsctp_BB21_75:
	ldurb	w15, [x14, #-80]
	cbz	w15, Ldcsctp_BB21_77
	ldurh	w15, [x14, #-76]
	rev	w15, w15
	lsr	w15, w15, #16
	sturh	w15, [x12, #-18]
	ldurb	w15, [x14, #-78]
	mov	w16, #256
	cmp	w15, #1
	csel	w15, w16, wzr, eq
	sturh	w15, [x12, #-16]
	ldur	w15, [x14, #-72]
	rev	w15, w15
	stur	w15, [x12, #-14]
Ldcsctp_BB21_77:
	ldurb	w15, [x14, #-68]
	cbz	w15, Ldcsctp_BB21_79
	ldurh	w15, [x14, #-64]
	rev	w15, w15
	lsr	w15, w15, #16
	sturh	w15, [x12, #-10]
	ldurb	w15, [x14, #-66]
	mov	w16, #256
	cmp	w15, #1
	csel	w15, w16, wzr, eq
	sturh	w15, [x12, #-8]
	ldur	w15, [x14, #-60]
	rev	w15, w15
	stur	w15, [x12, #-6]
Ldcsctp_BB21_79:
	ldurb	w15, [x14, #-56]
	cbz	w15, Ldcsctp_BB21_81
	ldurh	w15, [x14, #-52]
	rev	w15, w15
	lsr	w15, w15, #16
	sturh	w15, [x12, #-2]
	ldurb	w15, [x14, #-54]
	mov	w16, #256
	cmp	w15, #1
	csel	w15, w16, wzr, eq
	strh	w15, [x12]
	ldur	w15, [x14, #-48]
	rev	w15, w15
	stur	w15, [x12, #2]
Ldcsctp_BB21_81:
	ldurb	w15, [x14, #-44]
	cbz	w15, Ldcsctp_BB21_83
	ldurh	w15, [x14, #-40]
	rev	w15, w15
	lsr	w15, w15, #16
	strh	w15, [x12, #6]
	ldurb	w15, [x14, #-42]
	mov	w16, #256
	cmp	w15, #1
	csel	w15, w16, wzr, eq
	strh	w15, [x12, #8]
	ldur	w15, [x14, #-36]
	rev	w15, w15
	stur	w15, [x12, #10]
Ldcsctp_BB21_83:
	ldurb	w15, [x14, #-32]
	cbz	w15, Ldcsctp_BB21_85
	ldurh	w15, [x14, #-28]
	rev	w15, w15
	lsr	w15, w15, #16
	strh	w15, [x12, #14]
	ldurb	w15, [x14, #-30]
	mov	w16, #256
	cmp	w15, #1
	csel	w15, w16, wzr, eq
	strh	w15, [x12, #16]
	ldur	w15, [x14, #-24]
	rev	w15, w15
	stur	w15, [x12, #18]
Ldcsctp_BB21_85:
	ldurb	w15, [x14, #-20]
	cbz	w15, Ldcsctp_BB21_87
	ldurh	w15, [x14, #-16]
	rev	w15, w15
	lsr	w15, w15, #16
	strh	w15, [x12, #22]
	ldurb	w15, [x14, #-18]
	mov	w16, #256
	cmp	w15, #1
	csel	w15, w16, wzr, eq
	strh	w15, [x12, #24]
	ldur	w15, [x14, #-12]
	rev	w15, w15
	stur	w15, [x12, #26]
Ldcsctp_BB21_87:
	ldurb	w15, [x14, #-8]
	cbz	w15, Ldcsctp_BB21_72
	ldurh	w15, [x14, #-4]
	rev	w15, w15
	lsr	w15, w15, #16
	strh	w15, [x12, #30]
	ldurb	w15, [x14, #-6]
	mov	w16, #256
	cmp	w15, #1
	csel	w15, w16, wzr, eq
	strh	w15, [x12, #32]
	ldr	w15, [x14]
	rev	w15, w15
	stur	w15, [x12, #34]
	b	Ldcsctp_BB21_72
Ldcsctp_BB21_89:
	cbz	x9, Ldcsctp_BB21_70
	neg	x12, x11
Ldcsctp_BB21_91:
	mov	x11, #0
	add	x10, x10, x5
	add	x10, x10, #4
	add	x9, x9, x9, lsl #1
	lsl	x9, x9, #2
	mov	w13, #12
	madd	x8, x12, x13, x8
	b	Ldcsctp_BB21_93
Ldcsctp_BB21_92:
	add	x10, x10, #8
	add	x11, x11, #12
	cmp	x9, x11
	b.eq	Ldcsctp_BB21_70
Ldcsctp_BB21_93:
	ldrb	w12, [x8, x11]
	cbz	w12, Ldcsctp_BB21_92
	add	x12, x8, x11
	ldrh	w13, [x12, #4]
	rev	w13, w13
	lsr	w13, w13, #16
	sturh	w13, [x10, #-4]
	ldrb	w13, [x12, #2]
	mov	w14, #256
	cmp	w13, #1
	csel	w13, w14, wzr, eq
	sturh	w13, [x10, #-2]
	ldr	w12, [x12, #8]
	rev	w12, w12
	str	w12, [x10]
	b	Ldcsctp_BB21_92
Ldcsctp_BB21_95:
	mov	x11, #0
	and	x10, x10, #0xfffffffffffffff8
	neg	x12, x10
	add	x14, x9, #48
	add	x13, x5, #20
	mov	w10, #8
	b	Ldcsctp_BB21_98
Ldcsctp_BB21_96:
	ldrh	w16, [x14, #26]
	rev	w16, w16
	lsr	w16, w16, #16
	strh	w16, [x13, #12]
	ldrh	w16, [x14, #28]
	rev	w16, w16
	lsr	w16, w16, #16
	strh	w16, [x13, #14]
	ldrb	w16, [x14, #36]
	cbz	w16, Ldcsctp_BB21_112
Ldcsctp_BB21_97:
	add	x10, x10, #32
	sub	x11, x11, #8
	add	x13, x13, #32
	mov	x14, x15
	cmp	x12, x11
	b.eq	Ldcsctp_BB21_113
Ldcsctp_BB21_98:
	ldurb	w15, [x14, #-48]
	cbz	w15, Ldcsctp_BB21_105
	ldurb	w15, [x14, #-36]
	cbz	w15, Ldcsctp_BB21_106
Ldcsctp_BB21_100:
	ldurb	w15, [x14, #-24]
	cbz	w15, Ldcsctp_BB21_107
Ldcsctp_BB21_101:
	ldurb	w15, [x14, #-12]
	cbz	w15, Ldcsctp_BB21_108
Ldcsctp_BB21_102:
	mov	x15, x14
	ldrb	w16, [x15], #96
	cbz	w16, Ldcsctp_BB21_109
Ldcsctp_BB21_103:
	ldrb	w16, [x14, #12]
	cbz	w16, Ldcsctp_BB21_110
Ldcsctp_BB21_104:
	ldrb	w16, [x14, #24]
	cbnz	w16, Ldcsctp_BB21_111
	b	Ldcsctp_BB21_96
Ldcsctp_BB21_105:
	ldurh	w15, [x14, #-46]
	rev	w15, w15
	lsr	w15, w15, #16
	sturh	w15, [x13, #-12]
	ldurh	w15, [x14, #-44]
	rev	w15, w15
	lsr	w15, w15, #16
	sturh	w15, [x13, #-10]
	ldurb	w15, [x14, #-36]
	cbnz	w15, Ldcsctp_BB21_100
Ldcsctp_BB21_106:
	ldurh	w15, [x14, #-34]
	rev	w15, w15
	lsr	w15, w15, #16
	sturh	w15, [x13, #-8]
	ldurh	w15, [x14, #-32]
	rev	w15, w15
	lsr	w15, w15, #16
	sturh	w15, [x13, #-6]
	ldurb	w15, [x14, #-24]
	cbnz	w15, Ldcsctp_BB21_101
Ldcsctp_BB21_107:
	ldurh	w15, [x14, #-22]
	rev	w15, w15
	lsr	w15, w15, #16
	sturh	w15, [x13, #-4]
	ldurh	w15, [x14, #-20]
	rev	w15, w15
	lsr	w15, w15, #16
	sturh	w15, [x13, #-2]
	ldurb	w15, [x14, #-12]
	cbnz	w15, Ldcsctp_BB21_102
Ldcsctp_BB21_108:
	ldurh	w15, [x14, #-10]
	rev	w15, w15
	lsr	w15, w15, #16
	strh	w15, [x13]
	ldurh	w15, [x14, #-8]
	rev	w15, w15
	lsr	w15, w15, #16
	strh	w15, [x13, #2]
	mov	x15, x14
	ldrb	w16, [x15], #96
	cbnz	w16, Ldcsctp_BB21_103
Ldcsctp_BB21_109:
	ldrh	w16, [x14, #2]
	rev	w16, w16
	lsr	w16, w16, #16
	strh	w16, [x13, #4]
	ldrh	w16, [x14, #4]
	rev	w16, w16
	lsr	w16, w16, #16
	strh	w16, [x13, #6]
	ldrb	w16, [x14, #12]
	cbnz	w16, Ldcsctp_BB21_104
Ldcsctp_BB21_110:
	ldrh	w16, [x14, #14]
	rev	w16, w16
	lsr	w16, w16, #16
	strh	w16, [x13, #8]
	ldrh	w16, [x14, #16]
	rev	w16, w16
	lsr	w16, w16, #16
	strh	w16, [x13, #10]
	ldrb	w16, [x14, #24]
	cbz	w16, Ldcsctp_BB21_96
Ldcsctp_BB21_111:
	ldrb	w16, [x14, #36]
	cbnz	w16, Ldcsctp_BB21_97
Ldcsctp_BB21_112:
	ldrh	w16, [x14, #38]
	rev	w16, w16
	lsr	w16, w16, #16
	strh	w16, [x13, #16]
	ldrh	w14, [x14, #40]
	rev	w14, w14
	lsr	w14, w14, #16
	strh	w14, [x13, #18]
	add	x10, x10, #32
	sub	x11, x11, #8
	add	x13, x13, #32
	mov	x14, x15
	cmp	x12, x11
	b.ne	Ldcsctp_BB21_98
Ldcsctp_BB21_113:
	cbz	x8, Ldcsctp_BB21_70
	neg	x11, x11
Ldcsctp_BB21_115:
	add	x10, x10, x5
	add	x10, x10, #2
	mov	w12, #12
	madd	x9, x11, x12, x9
	add	x9, x9, #4
	b	Ldcsctp_BB21_117
Ldcsctp_BB21_116:
	add	x9, x9, #12
	add	x10, x10, #4
	subs	x8, x8, #1
	b.eq	Ldcsctp_BB21_70
Ldcsctp_BB21_117:
	ldurb	w11, [x9, #-4]
	cbnz	w11, Ldcsctp_BB21_116
	ldurh	w11, [x9, #-2]
	rev	w11, w11
	lsr	w11, w11, #16
	sturh	w11, [x10, #-2]
	ldrh	w11, [x9]
	rev	w11, w11
	lsr	w11, w11, #16
	strh	w11, [x10]
	b	Ldcsctp_BB21_116
Ldcsctp_BB21_119:
	cmp	x8, #16
	b.hs	Ldcsctp_BB21_131
	mov	x10, #0
	b	Ldcsctp_BB21_135
Ldcsctp_BB21_121:
	cmp	x2, #64
	b.hs	Ldcsctp_BB21_138
	mov	x8, #0
	b	Ldcsctp_BB21_142
Ldcsctp_BB21_123:
	cmp	x2, #64
	b.hs	Ldcsctp_BB21_145
	mov	x8, #0
	b	Ldcsctp_BB21_149
Ldcsctp_BB21_125:
	cmp	x2, #64
	b.hs	Ldcsctp_BB21_152
	mov	x8, #0
	b	Ldcsctp_BB21_156
Ldcsctp_BB21_127:
	cmp	x2, #64
	b.hs	Ldcsctp_BB21_159
	mov	x8, #0
	b	Ldcsctp_BB21_163
Ldcsctp_BB21_129:
	cmp	x8, #16
	b.hs	Ldcsctp_BB21_166
	mov	x10, #0
	b	Ldcsctp_BB21_170
Ldcsctp_BB21_131:
	and	x12, x8, #0xc
	and	x10, x8, #0xfffffffffffffff0
	add	x13, x9, #32
	add	x14, x11, x5
	add	x14, x14, #32
	and	x15, x8, #0xfffffffffffffff0
Ldcsctp_BB21_132:
	ldp	q0, q1, [x13, #-32]
	rev32	v0.16b, v0.16b
	rev32	v1.16b, v1.16b
	ldp	q2, q3, [x13], #64
	rev32	v2.16b, v2.16b
	rev32	v3.16b, v3.16b
	stp	q0, q1, [x14, #-32]
	stp	q2, q3, [x14], #64
	subs	x15, x15, #16
	b.ne	Ldcsctp_BB21_132
	cmp	x8, x10
	b.eq	Ldcsctp_BB21_70
	cbz	x12, Ldcsctp_BB21_173
Ldcsctp_BB21_135:
	mov	x13, x10
	and	x10, x8, #0xfffffffffffffffc
	add	x12, x11, x10, lsl #2
	lsl	x14, x13, #2
	add	x11, x5, x11
	add	x11, x11, x14
	sub	x13, x13, x10
	add	x14, x9, x14
Ldcsctp_BB21_136:
	ldr	q0, [x14], #16
	rev32	v0.16b, v0.16b
	str	q0, [x11], #16
	adds	x13, x13, #4
	b.ne	Ldcsctp_BB21_136
	cmp	x8, x10
	b.ne	Ldcsctp_BB21_68
	b	Ldcsctp_BB21_70
Ldcsctp_BB21_138:
	and	x9, x2, #0x38
	and	x8, x2, #0xffffffffffffffc0
	add	x10, x5, #64
	add	x11, x1, #32
	and	x12, x2, #0xffffffffffffffc0
Ldcsctp_BB21_139:
	ldp	q0, q1, [x11, #-32]
	ldp	q2, q3, [x11], #64
	stp	q0, q1, [x10, #-48]
	stp	q2, q3, [x10, #-16]
	add	x10, x10, #64
	subs	x12, x12, #64
	b.ne	Ldcsctp_BB21_139
	cmp	x2, x8
	b.eq	Ldcsctp_BB21_70
	cbz	x9, Ldcsctp_BB21_5
Ldcsctp_BB21_142:
	mov	x11, x8
	and	x8, x2, #0xfffffffffffffff8
	sub	x9, x11, x8
	add	x10, x1, x11
	add	x11, x11, x5
	add	x11, x11, #16
Ldcsctp_BB21_143:
	ldr	d0, [x10], #8
	str	d0, [x11], #8
	adds	x9, x9, #8
	b.ne	Ldcsctp_BB21_143
	cmp	x2, x8
	b.eq	Ldcsctp_BB21_70
	b	Ldcsctp_BB21_5
Ldcsctp_BB21_145:
	and	x9, x2, #0x38
	and	x8, x2, #0xffffffffffffffc0
	add	x10, x5, #36
	add	x11, x1, #32
	and	x12, x2, #0xffffffffffffffc0
Ldcsctp_BB21_146:
	ldp	q0, q1, [x11, #-32]
	ldp	q2, q3, [x11], #64
	stp	q0, q1, [x10, #-32]
	stp	q2, q3, [x10], #64
	subs	x12, x12, #64
	b.ne	Ldcsctp_BB21_146
	cmp	x2, x8
	b.eq	Ldcsctp_BB21_70
	cbz	x9, Ldcsctp_BB21_40
Ldcsctp_BB21_149:
	mov	x11, x8
	and	x8, x2, #0xfffffffffffffff8
	sub	x9, x11, x8
	add	x10, x1, x11
	add	x11, x11, x5
	add	x11, x11, #4
Ldcsctp_BB21_150:
	ldr	d0, [x10], #8
	str	d0, [x11], #8
	adds	x9, x9, #8
	b.ne	Ldcsctp_BB21_150
	cmp	x2, x8
	b.eq	Ldcsctp_BB21_70
	b	Ldcsctp_BB21_40
Ldcsctp_BB21_152:
	and	x9, x2, #0x38
	and	x8, x2, #0xffffffffffffffc0
	add	x10, x5, #68
	add	x11, x1, #32
	and	x12, x2, #0xffffffffffffffc0
Ldcsctp_BB21_153:
	ldp	q0, q1, [x11, #-32]
	ldp	q2, q3, [x11], #64
	stp	q0, q1, [x10, #-48]
	stp	q2, q3, [x10, #-16]
	add	x10, x10, #64
	subs	x12, x12, #64
	b.ne	Ldcsctp_BB21_153
	cmp	x2, x8
	b.eq	Ldcsctp_BB21_70
	cbz	x9, Ldcsctp_BB21_48
Ldcsctp_BB21_156:
	mov	x11, x8
	and	x8, x2, #0xfffffffffffffff8
	sub	x9, x11, x8
	add	x10, x1, x11
	add	x11, x11, x5
	add	x11, x11, #20
Ldcsctp_BB21_157:
	ldr	d0, [x10], #8
	str	d0, [x11], #8
	adds	x9, x9, #8
	b.ne	Ldcsctp_BB21_157
	cmp	x2, x8
	b.eq	Ldcsctp_BB21_70
	b	Ldcsctp_BB21_48
Ldcsctp_BB21_159:
	and	x9, x2, #0x38
	and	x8, x2, #0xffffffffffffffc0
	add	x10, x5, #36
	add	x11, x1, #32
	and	x12, x2, #0xffffffffffffffc0
Ldcsctp_BB21_160:
	ldp	q0, q1, [x11, #-32]
	ldp	q2, q3, [x11], #64
	stp	q0, q1, [x10, #-32]
	stp	q2, q3, [x10], #64
	subs	x12, x12, #64
	b.ne	Ldcsctp_BB21_160
	cmp	x2, x8
	b.eq	Ldcsctp_BB21_70
	cbz	x9, Ldcsctp_BB21_56
Ldcsctp_BB21_163:
	mov	x11, x8
	and	x8, x2, #0xfffffffffffffff8
	sub	x9, x11, x8
	add	x10, x1, x11
	add	x11, x11, x5
	add	x11, x11, #4
Ldcsctp_BB21_164:
	ldr	d0, [x10], #8
	str	d0, [x11], #8
	adds	x9, x9, #8
	b.ne	Ldcsctp_BB21_164
	cmp	x2, x8
	b.eq	Ldcsctp_BB21_70
	b	Ldcsctp_BB21_56
Ldcsctp_BB21_166:
	and	x11, x8, #0xc
	and	x10, x8, #0x7ffffffffffffff0
	add	x12, x9, #32
	add	x13, x5, #48
	and	x14, x8, #0x7ffffffffffffff0
Ldcsctp_BB21_167:
	ldp	q0, q1, [x12, #-32]
	rev16	v0.16b, v0.16b
	rev16	v1.16b, v1.16b
	stp	q0, q1, [x13, #-32]
	ldp	q0, q1, [x12], #64
	rev16	v0.16b, v0.16b
	rev16	v1.16b, v1.16b
	stp	q0, q1, [x13], #64
	subs	x14, x14, #16
	b.ne	Ldcsctp_BB21_167
	cmp	x8, x10
	b.eq	Ldcsctp_BB21_32
	cbz	x11, Ldcsctp_BB21_174
Ldcsctp_BB21_170:
	mov	x13, x10
	and	x10, x8, #0x7ffffffffffffffc
	lsl	x11, x10, #2
	add	x11, x11, #16
	lsl	x14, x13, #2
	add	x12, x14, x5
	add	x12, x12, #16
	sub	x13, x13, x10
	add	x14, x9, x14
Ldcsctp_BB21_171:
	ldr	q0, [x14], #16
	rev16	v0.16b, v0.16b
	str	q0, [x12], #16
	adds	x13, x13, #4
	b.ne	Ldcsctp_BB21_171
	cmp	x8, x10
	b.ne	Ldcsctp_BB21_30
	b	Ldcsctp_BB21_32
Ldcsctp_BB21_173:
	add	x12, x11, x10, lsl #2
	b	Ldcsctp_BB21_68
Ldcsctp_BB21_174:
	lsl	x11, x10, #2
	orr	x11, x11, #0x10
	b	Ldcsctp_BB21_30
Ldcsctp_BB21_175:
	brk	#0x1
	.loh AdrpAdd	Ldcsctp_loh320, Ldcsctp_loh321
	.loh AdrpAdd	Ldcsctp_loh322, Ldcsctp_loh323
	.loh AdrpAdd	Ldcsctp_loh324, Ldcsctp_loh325
	.loh AdrpAdd	Ldcsctp_loh326, Ldcsctp_loh327
	.cfi_endproc
	.section	__TEXT,__const
	.p2align	1, 0x0
Ldcsctp_JTI21_0:
	.short	(Ldcsctp_BB21_1-Ldcsctp_BB21_1)>>2
	.short	(Ldcsctp_BB21_34-Ldcsctp_BB21_1)>>2
	.short	(Ldcsctp_BB21_15-Ldcsctp_BB21_1)>>2
	.short	(Ldcsctp_BB21_19-Ldcsctp_BB21_1)>>2
	.short	(Ldcsctp_BB21_12-Ldcsctp_BB21_1)>>2
	.short	(Ldcsctp_BB21_42-Ldcsctp_BB21_1)>>2
	.short	(Ldcsctp_BB21_50-Ldcsctp_BB21_1)>>2
	.short	(Ldcsctp_BB21_33-Ldcsctp_BB21_1)>>2
	.short	(Ldcsctp_BB21_58-Ldcsctp_BB21_1)>>2
	.short	(Ldcsctp_BB21_14-Ldcsctp_BB21_1)>>2
	.short	(Ldcsctp_BB21_52-Ldcsctp_BB21_1)>>2
	.short	(Ldcsctp_BB21_11-Ldcsctp_BB21_1)>>2
	.short	(Ldcsctp_BB21_13-Ldcsctp_BB21_1)>>2
	.short	(Ldcsctp_BB21_44-Ldcsctp_BB21_1)>>2
	.short	(Ldcsctp_BB21_10-Ldcsctp_BB21_1)>>2
	.short	(Ldcsctp_BB21_16-Ldcsctp_BB21_1)>>2
	.short	(Ldcsctp_BB21_7-Ldcsctp_BB21_1)>>2
	.short	(Ldcsctp_BB21_36-Ldcsctp_BB21_1)>>2
	.section	__TEXT,__text,regular,pure_instructions
	.p2align	2
_dcsctp_tlv.list.put_listed.cada439fb2c2aae5:
	.cfi_startproc
	sub	sp, sp, #144
	.cfi_def_cfa_offset 144
	stp	x28, x27, [sp, #48]
	stp	x26, x25, [sp, #64]
	stp	x24, x23, [sp, #80]
	stp	x22, x21, [sp, #96]
	stp	x20, x19, [sp, #112]
	stp	x29, x30, [sp, #128]
	add	x29, sp, #128
	.cfi_def_cfa w29, 16
	.cfi_offset w30, -8
	.cfi_offset w29, -16
	.cfi_offset w19, -24
	.cfi_offset w20, -32
	.cfi_offset w21, -40
	.cfi_offset w22, -48
	.cfi_offset w23, -56
	.cfi_offset w24, -64
	.cfi_offset w25, -72
	.cfi_offset w26, -80
	.cfi_offset w27, -88
	.cfi_offset w28, -96
	.cfi_remember_state
	mov	x19, x5
	mov	x22, x4
	mov	x23, x3
	mov	x20, x2
	add	x21, x5, #4
	sub	x8, x21, x1
	cmp	x8, x2
	str	w0, [sp, #44]
	b.hs	Ldcsctp_BB22_6
	cmp	x20, #4
	b.lo	Ldcsctp_BB22_3
	sub	x8, x19, x1
	add	x8, x8, #4
	cmp	x8, #16
	b.hs	Ldcsctp_BB22_116
Ldcsctp_BB22_3:
	mov	x8, #0
Ldcsctp_BB22_4:
	sub	x9, x20, x8
	add	x10, x1, x8
	add	x8, x8, x19
	add	x8, x8, #4
Ldcsctp_BB22_5:
	ldrb	w11, [x10], #1
	strb	w11, [x8], #1
	subs	x9, x9, #1
	b.ne	Ldcsctp_BB22_5
	b	Ldcsctp_BB22_7
Ldcsctp_BB22_6:
	add	x0, x19, #4
	mov	x2, x20
	bl	_memmove
Ldcsctp_BB22_7:
	mov	x8, #0
	cbz	x22, Ldcsctp_BB22_115
	mov	x24, #0
	add	x25, x21, x20
	add	x9, x20, x19
	add	x10, x9, #20
	str	x10, [sp, #32]
	add	x10, x9, #12
	str	x10, [sp, #24]
	add	x28, x9, #8
	add	x10, x9, #40
	str	x10, [sp, #16]
	add	x10, x9, #44
	add	x26, x9, #4
	add	x9, x9, #36
	stp	x9, x10, [sp]
	b	Ldcsctp_BB22_11
Ldcsctp_BB22_9:
	add	x0, x21, #4
	bl	_memmove
Ldcsctp_BB22_10:
	ldrh	w8, [x21, #2]
	rev16	w8, w8
	add	x8, x8, x27
	add	x24, x24, #1
	cmp	x24, x22
	b.eq	Ldcsctp_BB22_115
Ldcsctp_BB22_11:
	mov	w9, #48
	madd	x10, x24, x9, x23
	add	x8, x8, #3
	and	x27, x8, #0xfffffffffffffffc
	add	x21, x25, x27
	ldrb	w8, [x10]
Ldcsctp_loh328:
	adrp	x9, Ldcsctp_JTI22_0@PAGE
Ldcsctp_loh329:
	add	x9, x9, Ldcsctp_JTI22_0@PAGEOFF
	adr	x11, Ldcsctp_BB22_12
	ldrb	w12, [x9, x8]
	add	x11, x11, x12, lsl #2
	br	x11
Ldcsctp_BB22_12:
	ldp	x1, x2, [x10, #8]
	mov	w8, #256
	strh	w8, [x21]
	add	w8, w2, #4
	rev	w8, w8
	lsr	w8, w8, #16
	strh	w8, [x21, #2]
	add	x8, x21, #4
	sub	x8, x8, x1
	cmp	x8, x2
	b.hs	Ldcsctp_BB22_9
	cmp	x2, #8
	b.lo	Ldcsctp_BB22_15
	add	x8, x28, x27
	sub	x8, x8, x1
	cmp	x8, #64
	b.hs	Ldcsctp_BB22_67
Ldcsctp_BB22_15:
	mov	x8, #0
Ldcsctp_BB22_16:
	sub	x9, x2, x8
	add	x10, x1, x8
	add	x8, x8, x27
	add	x8, x28, x8
Ldcsctp_BB22_17:
	ldrb	w11, [x10], #1
	strb	w11, [x8], #1
	subs	x9, x9, #1
	b.ne	Ldcsctp_BB22_17
	b	Ldcsctp_BB22_10
Ldcsctp_BB22_18:
	ldrh	w8, [x10, #8]
	ldp	x1, x2, [x10, #16]
	lsr	w9, w8, #8
	strb	w9, [x21]
	strb	w8, [x21, #1]
	add	w8, w2, #4
	rev	w8, w8
	lsr	w8, w8, #16
	strh	w8, [x21, #2]
	add	x8, x21, #4
	sub	x8, x8, x1
	cmp	x8, x2
	b.hs	Ldcsctp_BB22_9
	cmp	x2, #8
	b.lo	Ldcsctp_BB22_21
	add	x8, x28, x27
	sub	x8, x8, x1
	cmp	x8, #64
	b.hs	Ldcsctp_BB22_63
Ldcsctp_BB22_21:
	mov	x8, #0
Ldcsctp_BB22_22:
	sub	x9, x2, x8
	add	x10, x1, x8
	add	x8, x8, x27
	add	x8, x28, x8
Ldcsctp_BB22_23:
	ldrb	w11, [x10], #1
	strb	w11, [x8], #1
	subs	x9, x9, #1
	b.ne	Ldcsctp_BB22_23
	b	Ldcsctp_BB22_10
Ldcsctp_BB22_24:
	ldr	w8, [x10, #4]
	rev	w8, w8
	mov	w9, #3840
	b	Ldcsctp_BB22_57
Ldcsctp_BB22_25:
	ldp	x1, x2, [x10, #8]
	mov	w8, #2176
	strh	w8, [x21]
	add	w8, w2, #4
	rev	w8, w8
	lsr	w8, w8, #16
	strh	w8, [x21, #2]
	add	x8, x21, #4
	sub	x8, x8, x1
	cmp	x8, x2
	b.hs	Ldcsctp_BB22_9
	cmp	x2, #8
	b.lo	Ldcsctp_BB22_28
	add	x8, x28, x27
	sub	x8, x8, x1
	cmp	x8, #64
	b.hs	Ldcsctp_BB22_65
Ldcsctp_BB22_28:
	mov	x8, #0
Ldcsctp_BB22_29:
	sub	x9, x2, x8
	add	x10, x1, x8
	add	x8, x8, x27
	add	x8, x28, x8
Ldcsctp_BB22_30:
	ldrb	w11, [x10], #1
	strb	w11, [x8], #1
	subs	x9, x9, #1
	b.ne	Ldcsctp_BB22_30
	b	Ldcsctp_BB22_10
Ldcsctp_BB22_31:
	ldr	w11, [x10, #16]
	ldp	x8, x9, [x10, #24]
	lsl	w12, w9, #1
	add	w12, w12, #16
	rev	w12, w12
	lsr	w12, w12, #16
	ldr	d0, [x10, #8]
	mov	w10, #3328
	strh	w10, [x21]
	strh	w12, [x21, #2]
	rev32	v0.8b, v0.8b
	stur	d0, [x21, #4]
	rev	w10, w11
	str	w10, [x21, #12]
	cbz	x9, Ldcsctp_BB22_10
	cmp	x9, #4
	b.lo	Ldcsctp_BB22_34
	ldr	x10, [sp, #32]
	add	x10, x10, x27
	sub	x10, x10, x8
	cmp	x10, #64
	b.hs	Ldcsctp_BB22_59
Ldcsctp_BB22_34:
	mov	x10, #0
	mov	w11, #16
Ldcsctp_BB22_35:
	add	x11, x11, x27
	add	x11, x26, x11
	sub	x9, x9, x10
	add	x8, x8, x10, lsl #1
Ldcsctp_BB22_36:
	ldrh	w10, [x8], #2
	rev	w10, w10
	lsr	w10, w10, #16
	strh	w10, [x11], #2
	subs	x9, x9, #1
	b.ne	Ldcsctp_BB22_36
	b	Ldcsctp_BB22_10
Ldcsctp_BB22_37:
	ldr	w11, [x10, #8]
	ldp	x8, x9, [x10, #16]
	mov	w10, #3584
	strh	w10, [x21]
	lsl	w10, w9, #1
	add	w10, w10, #8
	rev	w10, w10
	lsr	w10, w10, #16
	strh	w10, [x21, #2]
	rev	w10, w11
	str	w10, [x21, #4]
	cbz	x9, Ldcsctp_BB22_10
	cmp	x9, #4
	b.lo	Ldcsctp_BB22_40
	ldr	x10, [sp, #24]
	add	x10, x10, x27
	sub	x10, x10, x8
	cmp	x10, #64
	b.hs	Ldcsctp_BB22_61
Ldcsctp_BB22_40:
	mov	x10, #0
	mov	w11, #8
Ldcsctp_BB22_41:
	add	x11, x11, x27
	add	x11, x26, x11
	sub	x9, x9, x10
	add	x8, x8, x10, lsl #1
Ldcsctp_BB22_42:
	ldrh	w10, [x8], #2
	rev	w10, w10
	lsr	w10, w10, #16
	strh	w10, [x11], #2
	subs	x9, x9, #1
	b.ne	Ldcsctp_BB22_42
	b	Ldcsctp_BB22_10
Ldcsctp_BB22_43:
	ldr	w8, [x10, #4]
	ldrh	w9, [x10, #8]
	rev	w8, w8
	rev	w9, w9
	lsr	w9, w9, #16
	orr	x8, x8, x9, lsl #32
	mov	w9, #4608
	b	Ldcsctp_BB22_54
Ldcsctp_BB22_44:
	ldp	x1, x2, [x10, #8]
	mov	w8, #1792
	strh	w8, [x21]
	add	w8, w2, #4
	rev	w8, w8
	lsr	w8, w8, #16
	strh	w8, [x21, #2]
	add	x8, x21, #4
	sub	x8, x8, x1
	cmp	x8, x2
	b.hs	Ldcsctp_BB22_9
	cmp	x2, #8
	b.lo	Ldcsctp_BB22_47
	add	x8, x28, x27
	sub	x8, x8, x1
	cmp	x8, #64
	b.hs	Ldcsctp_BB22_69
Ldcsctp_BB22_47:
	mov	x8, #0
Ldcsctp_BB22_48:
	sub	x9, x2, x8
	add	x10, x1, x8
	add	x8, x8, x27
	add	x8, x28, x8
Ldcsctp_BB22_49:
	ldrb	w11, [x10], #1
	strb	w11, [x8], #1
	subs	x9, x9, #1
	b.ne	Ldcsctp_BB22_49
	b	Ldcsctp_BB22_10
Ldcsctp_BB22_50:
	ldr	w8, [x10, #4]
	ldrb	w11, [x10, #8]
	ldrb	w12, [x10, #12]
	rev	w9, w8
	lsl	w8, w11, #24
	cmp	w12, #1
	b.ne	Ldcsctp_BB22_58
	ldrb	w11, [x10, #20]
	cmp	w11, #1
	b.ne	Ldcsctp_BB22_58
	ldr	w11, [x10, #16]
	ldr	w10, [x10, #24]
	mov	w12, #4096
	movk	w12, #5120, lsl #16
	stp	w12, w9, [x21]
	rev	w9, w11
	stp	w8, w9, [x21, #8]
	rev	w8, w10
	str	w8, [x21, #16]
	b	Ldcsctp_BB22_10
Ldcsctp_BB22_53:
	ldr	w8, [x10, #4]
	ldrh	w9, [x10, #8]
	rev	w8, w8
	rev	w9, w9
	lsr	w9, w9, #16
	orr	x8, x8, x9, lsl #32
	mov	w9, #4352
Ldcsctp_BB22_54:
	movk	w9, #3072, lsl #16
	str	w9, [x21]
	stur	x8, [x21, #4]
	b	Ldcsctp_BB22_10
Ldcsctp_BB22_55:
	mov	w8, #192
	movk	w8, #1024, lsl #16
	str	w8, [x21]
	b	Ldcsctp_BB22_10
Ldcsctp_BB22_56:
	ldr	w8, [x10, #4]
	rev	w8, w8
	mov	w9, #384
Ldcsctp_BB22_57:
	movk	w9, #2048, lsl #16
	stp	w9, w8, [x21]
	b	Ldcsctp_BB22_10
Ldcsctp_BB22_58:
	mov	w10, #4096
	movk	w10, #3072, lsl #16
	stp	w10, w9, [x21]
	str	w8, [x21, #8]
	b	Ldcsctp_BB22_10
Ldcsctp_BB22_59:
	cmp	x9, #32
	b.hs	Ldcsctp_BB22_71
	mov	x10, #0
	b	Ldcsctp_BB22_75
Ldcsctp_BB22_61:
	cmp	x9, #32
	b.hs	Ldcsctp_BB22_78
	mov	x10, #0
	b	Ldcsctp_BB22_82
Ldcsctp_BB22_63:
	cmp	x2, #64
	b.hs	Ldcsctp_BB22_85
	mov	x8, #0
	b	Ldcsctp_BB22_89
Ldcsctp_BB22_65:
	cmp	x2, #64
	b.hs	Ldcsctp_BB22_92
	mov	x8, #0
	b	Ldcsctp_BB22_96
Ldcsctp_BB22_67:
	cmp	x2, #64
	b.hs	Ldcsctp_BB22_99
	mov	x8, #0
	b	Ldcsctp_BB22_103
Ldcsctp_BB22_69:
	cmp	x2, #64
	b.hs	Ldcsctp_BB22_106
	mov	x8, #0
	b	Ldcsctp_BB22_110
Ldcsctp_BB22_71:
	and	x11, x9, #0x1c
	and	x10, x9, #0xffffffffffffffe0
	add	x12, x8, #32
	ldr	x13, [sp]
	add	x13, x13, x27
	and	x14, x9, #0xffffffffffffffe0
Ldcsctp_BB22_72:
	ldp	q0, q1, [x12, #-32]
	rev16	v0.16b, v0.16b
	rev16	v1.16b, v1.16b
	ldp	q2, q3, [x12], #64
	rev16	v2.16b, v2.16b
	rev16	v3.16b, v3.16b
	stp	q0, q1, [x13, #-16]
	stp	q2, q3, [x13, #16]
	add	x13, x13, #64
	subs	x14, x14, #32
	b.ne	Ldcsctp_BB22_72
	cmp	x9, x10
	b.eq	Ldcsctp_BB22_10
	cbz	x11, Ldcsctp_BB22_113
Ldcsctp_BB22_75:
	mov	x13, x10
	and	x10, x9, #0xfffffffffffffffc
	lsl	x11, x10, #1
	add	x11, x11, #16
	lsl	x14, x13, #1
	add	x12, x27, x14
	ldr	x15, [sp, #32]
	add	x12, x15, x12
	sub	x13, x13, x10
	add	x14, x8, x14
Ldcsctp_BB22_76:
	ldr	d0, [x14], #8
	rev16	v0.8b, v0.8b
	str	d0, [x12], #8
	adds	x13, x13, #4
	b.ne	Ldcsctp_BB22_76
	cmp	x9, x10
	b.eq	Ldcsctp_BB22_10
	b	Ldcsctp_BB22_35
Ldcsctp_BB22_78:
	and	x11, x9, #0x1c
	and	x10, x9, #0xffffffffffffffe0
	ldr	x12, [sp, #8]
	add	x12, x12, x27
	add	x13, x8, #32
	and	x14, x9, #0xffffffffffffffe0
Ldcsctp_BB22_79:
	ldp	q0, q1, [x13, #-32]
	rev16	v0.16b, v0.16b
	rev16	v1.16b, v1.16b
	ldp	q2, q3, [x13], #64
	rev16	v2.16b, v2.16b
	rev16	v3.16b, v3.16b
	stp	q0, q1, [x12, #-32]
	stp	q2, q3, [x12], #64
	subs	x14, x14, #32
	b.ne	Ldcsctp_BB22_79
	cmp	x9, x10
	b.eq	Ldcsctp_BB22_10
	cbz	x11, Ldcsctp_BB22_114
Ldcsctp_BB22_82:
	mov	x13, x10
	and	x10, x9, #0xfffffffffffffffc
	lsl	x11, x10, #1
	add	x11, x11, #8
	lsl	x14, x13, #1
	add	x12, x27, x14
	ldr	x15, [sp, #24]
	add	x12, x15, x12
	sub	x13, x13, x10
	add	x14, x8, x14
Ldcsctp_BB22_83:
	ldr	d0, [x14], #8
	rev16	v0.8b, v0.8b
	str	d0, [x12], #8
	adds	x13, x13, #4
	b.ne	Ldcsctp_BB22_83
	cmp	x9, x10
	b.eq	Ldcsctp_BB22_10
	b	Ldcsctp_BB22_41
Ldcsctp_BB22_85:
	and	x9, x2, #0x38
	and	x8, x2, #0xffffffffffffffc0
	ldr	x10, [sp, #16]
	add	x10, x10, x27
	add	x11, x1, #32
	and	x12, x2, #0xffffffffffffffc0
Ldcsctp_BB22_86:
	ldp	q0, q1, [x11, #-32]
	ldp	q2, q3, [x11], #64
	stp	q0, q1, [x10, #-32]
	stp	q2, q3, [x10], #64
	subs	x12, x12, #64
	b.ne	Ldcsctp_BB22_86
	cmp	x2, x8
	b.eq	Ldcsctp_BB22_10
	cbz	x9, Ldcsctp_BB22_22
Ldcsctp_BB22_89:
	mov	x11, x8
	and	x8, x2, #0xfffffffffffffff8
	sub	x9, x11, x8
	add	x10, x1, x11
	add	x11, x11, x27
	add	x11, x28, x11
Ldcsctp_BB22_90:
	ldr	d0, [x10], #8
	str	d0, [x11], #8
	adds	x9, x9, #8
	b.ne	Ldcsctp_BB22_90
	cmp	x2, x8
	b.eq	Ldcsctp_BB22_10
	b	Ldcsctp_BB22_22
Ldcsctp_BB22_92:
	and	x9, x2, #0x38
	and	x8, x2, #0xffffffffffffffc0
	ldr	x10, [sp, #16]
	add	x10, x10, x27
	add	x11, x1, #32
	and	x12, x2, #0xffffffffffffffc0
Ldcsctp_BB22_93:
	ldp	q0, q1, [x11, #-32]
	ldp	q2, q3, [x11], #64
	stp	q0, q1, [x10, #-32]
	stp	q2, q3, [x10], #64
	subs	x12, x12, #64
	b.ne	Ldcsctp_BB22_93
	cmp	x2, x8
	b.eq	Ldcsctp_BB22_10
	cbz	x9, Ldcsctp_BB22_29
Ldcsctp_BB22_96:
	mov	x11, x8
	and	x8, x2, #0xfffffffffffffff8
	sub	x9, x11, x8
	add	x10, x1, x11
	add	x11, x11, x27
	add	x11, x28, x11
Ldcsctp_BB22_97:
	ldr	d0, [x10], #8
	str	d0, [x11], #8
	adds	x9, x9, #8
	b.ne	Ldcsctp_BB22_97
	cmp	x2, x8
	b.eq	Ldcsctp_BB22_10
	b	Ldcsctp_BB22_29
Ldcsctp_BB22_99:
	and	x9, x2, #0x38
	and	x8, x2, #0xffffffffffffffc0
	ldr	x10, [sp, #16]
	add	x10, x10, x27
	add	x11, x1, #32
	and	x12, x2, #0xffffffffffffffc0
Ldcsctp_BB22_100:
	ldp	q0, q1, [x11, #-32]
	ldp	q2, q3, [x11], #64
	stp	q0, q1, [x10, #-32]
	stp	q2, q3, [x10], #64
	subs	x12, x12, #64
	b.ne	Ldcsctp_BB22_100
	cmp	x2, x8
	b.eq	Ldcsctp_BB22_10
	cbz	x9, Ldcsctp_BB22_16
Ldcsctp_BB22_103:
	mov	x11, x8
	and	x8, x2, #0xfffffffffffffff8
	sub	x9, x11, x8
	add	x10, x1, x11
	add	x11, x11, x27
	add	x11, x28, x11
Ldcsctp_BB22_104:
	ldr	d0, [x10], #8
	str	d0, [x11], #8
	adds	x9, x9, #8
	b.ne	Ldcsctp_BB22_104
	cmp	x2, x8
	b.eq	Ldcsctp_BB22_10
	b	Ldcsctp_BB22_16
Ldcsctp_BB22_106:
	and	x9, x2, #0x38
	and	x8, x2, #0xffffffffffffffc0
	ldr	x10, [sp, #16]
	add	x10, x10, x27
	add	x11, x1, #32
	and	x12, x2, #0xffffffffffffffc0
Ldcsctp_BB22_107:
	ldp	q0, q1, [x11, #-32]
	ldp	q2, q3, [x11], #64
	stp	q0, q1, [x10, #-32]
	stp	q2, q3, [x10], #64
	subs	x12, x12, #64
	b.ne	Ldcsctp_BB22_107
	cmp	x2, x8
	b.eq	Ldcsctp_BB22_10
	cbz	x9, Ldcsctp_BB22_48
Ldcsctp_BB22_110:
	mov	x11, x8
	and	x8, x2, #0xfffffffffffffff8
	sub	x9, x11, x8
	add	x10, x1, x11
	add	x11, x11, x27
	add	x11, x28, x11
Ldcsctp_BB22_111:
	ldr	d0, [x10], #8
	str	d0, [x11], #8
	adds	x9, x9, #8
	b.ne	Ldcsctp_BB22_111
	cmp	x2, x8
	b.eq	Ldcsctp_BB22_10
	b	Ldcsctp_BB22_48
Ldcsctp_BB22_113:
	lsl	x11, x10, #1
	orr	x11, x11, #0x10
	b	Ldcsctp_BB22_35
Ldcsctp_BB22_114:
	lsl	x11, x10, #1
	orr	x11, x11, #0x8
	b	Ldcsctp_BB22_41
Ldcsctp_BB22_115:
	add	w8, w8, w20
	ldr	w9, [sp, #44]
	strb	w9, [x19]
	strb	wzr, [x19, #1]
	add	w8, w8, #4
	rev	w8, w8
	lsr	w8, w8, #16
	strh	w8, [x19, #2]
	.cfi_def_cfa wsp, 144
	ldp	x29, x30, [sp, #128]
	ldp	x20, x19, [sp, #112]
	ldp	x22, x21, [sp, #96]
	ldp	x24, x23, [sp, #80]
	ldp	x26, x25, [sp, #64]
	ldp	x28, x27, [sp, #48]
	add	sp, sp, #144
	.cfi_def_cfa_offset 0
	.cfi_restore w30
	.cfi_restore w29
	.cfi_restore w19
	.cfi_restore w20
	.cfi_restore w21
	.cfi_restore w22
	.cfi_restore w23
	.cfi_restore w24
	.cfi_restore w25
	.cfi_restore w26
	.cfi_restore w27
	.cfi_restore w28
	ret
Ldcsctp_BB22_116:
	.cfi_restore_state
	cmp	x20, #16
	b.hs	Ldcsctp_BB22_118
	mov	x8, #0
	b	Ldcsctp_BB22_120
Ldcsctp_BB22_118:
	and	x8, x20, #0x10
	ldr	q0, [x1]
	str	q0, [x21]
	cmp	x20, x8
	b.eq	Ldcsctp_BB22_7
	tst	x20, #0xc
	b.eq	Ldcsctp_BB22_4
Ldcsctp_BB22_120:
	mov	x11, x8
	and	x8, x20, #0x1c
	sub	x9, x11, x8
	add	x10, x1, x11
	add	x11, x11, x19
	add	x11, x11, #4
Ldcsctp_BB22_121:
	ldr	w12, [x10], #4
	str	w12, [x11], #4
	adds	x9, x9, #4
	b.ne	Ldcsctp_BB22_121
	cmp	x20, x8
	b.eq	Ldcsctp_BB22_7
	b	Ldcsctp_BB22_4
	.loh AdrpAdd	Ldcsctp_loh328, Ldcsctp_loh329
	.cfi_endproc
	.section	__TEXT,__const
Ldcsctp_JTI22_0:
	.byte	(Ldcsctp_BB22_12-Ldcsctp_BB22_12)>>2
	.byte	(Ldcsctp_BB22_44-Ldcsctp_BB22_12)>>2
	.byte	(Ldcsctp_BB22_31-Ldcsctp_BB22_12)>>2
	.byte	(Ldcsctp_BB22_37-Ldcsctp_BB22_12)>>2
	.byte	(Ldcsctp_BB22_24-Ldcsctp_BB22_12)>>2
	.byte	(Ldcsctp_BB22_50-Ldcsctp_BB22_12)>>2
	.byte	(Ldcsctp_BB22_53-Ldcsctp_BB22_12)>>2
	.byte	(Ldcsctp_BB22_43-Ldcsctp_BB22_12)>>2
	.byte	(Ldcsctp_BB22_56-Ldcsctp_BB22_12)>>2
	.byte	(Ldcsctp_BB22_25-Ldcsctp_BB22_12)>>2
	.byte	(Ldcsctp_BB22_55-Ldcsctp_BB22_12)>>2
	.byte	(Ldcsctp_BB22_18-Ldcsctp_BB22_12)>>2
	.section	__TEXT,__text,regular,pure_instructions
	.p2align	2
_dcsctp_tlv.list.put_listed.f123a6a91b68d363:
	.cfi_startproc
	sub	sp, sp, #112
	.cfi_def_cfa_offset 112
	stp	x28, x27, [sp, #16]
	stp	x26, x25, [sp, #32]
	stp	x24, x23, [sp, #48]
	stp	x22, x21, [sp, #64]
	stp	x20, x19, [sp, #80]
	stp	x29, x30, [sp, #96]
	add	x29, sp, #96
	.cfi_def_cfa w29, 16
	.cfi_offset w30, -8
	.cfi_offset w29, -16
	.cfi_offset w19, -24
	.cfi_offset w20, -32
	.cfi_offset w21, -40
	.cfi_offset w22, -48
	.cfi_offset w23, -56
	.cfi_offset w24, -64
	.cfi_offset w25, -72
	.cfi_offset w26, -80
	.cfi_offset w27, -88
	.cfi_offset w28, -96
	mov	x19, x4
	mov	x21, x0
	cbz	x3, Ldcsctp_BB23_91
	mov	x22, x3
	mov	x23, x2
	str	w1, [sp, #12]
	mov	x8, #0
	mov	x24, #0
	add	x25, x19, #4
	add	x27, x19, #8
	b	Ldcsctp_BB23_4
Ldcsctp_BB23_2:
	bl	_memmove
Ldcsctp_BB23_3:
	add	x8, x28, x20
	add	x8, x8, x26, lsl #8
	add	x24, x24, #1
	cmp	x24, x22
	b.eq	Ldcsctp_BB23_90
Ldcsctp_BB23_4:
	mov	w9, #40
	madd	x10, x24, x9, x23
	add	x8, x8, #3
	and	x28, x8, #0xfffffffffffffffc
	add	x8, x25, x28
	ldrb	w9, [x10]
	cmp	w9, #2
	b.le	Ldcsctp_BB23_8
	cmp	w9, #4
	b.gt	Ldcsctp_BB23_16
	cmp	w9, #3
	b.ne	Ldcsctp_BB23_31
	mov	x26, #0
	mov	w9, #2560
	movk	w9, #1024, lsl #16
	str	w9, [x8]
	mov	w20, #4
	b	Ldcsctp_BB23_3
Ldcsctp_BB23_8:
	cbz	w9, Ldcsctp_BB23_23
	cmp	w9, #1
	b.ne	Ldcsctp_BB23_30
	ldp	x1, x2, [x10, #8]
	mov	w9, #1536
	strh	w9, [x8]
	add	w9, w2, #4
	rev	w10, w9
	lsr	w11, w10, #16
	strh	w11, [x8, #2]
	add	x0, x8, #4
	rev16	x8, x9
	and	x26, x8, #0xff
	lsr	w20, w10, #24
	sub	x8, x0, x1
	cmp	x8, x2
	b.hs	Ldcsctp_BB23_2
	cmp	x2, #8
	b.lo	Ldcsctp_BB23_13
	add	x8, x27, x28
	sub	x8, x8, x1
	cmp	x8, #64
	b.hs	Ldcsctp_BB23_46
Ldcsctp_BB23_13:
	mov	x8, #0
Ldcsctp_BB23_14:
	sub	x9, x2, x8
	add	x10, x1, x8
	add	x8, x8, x28
	add	x8, x27, x8
Ldcsctp_BB23_15:
	ldrb	w11, [x10], #1
	strb	w11, [x8], #1
	subs	x9, x9, #1
	b.ne	Ldcsctp_BB23_15
	b	Ldcsctp_BB23_3
Ldcsctp_BB23_16:
	cmp	w9, #5
	b.ne	Ldcsctp_BB23_37
	ldp	x1, x2, [x10, #8]
	mov	w9, #3328
	strh	w9, [x8]
	add	w9, w2, #4
	rev	w10, w9
	lsr	w11, w10, #16
	strh	w11, [x8, #2]
	add	x0, x8, #4
	rev16	x8, x9
	and	x26, x8, #0xff
	lsr	w20, w10, #24
	sub	x8, x0, x1
	cmp	x8, x2
	b.hs	Ldcsctp_BB23_2
	cmp	x2, #8
	b.lo	Ldcsctp_BB23_20
	add	x8, x27, x28
	sub	x8, x8, x1
	cmp	x8, #64
	b.hs	Ldcsctp_BB23_48
Ldcsctp_BB23_20:
	mov	x8, #0
Ldcsctp_BB23_21:
	sub	x9, x2, x8
	add	x10, x1, x8
	add	x8, x8, x28
	add	x8, x27, x8
Ldcsctp_BB23_22:
	ldrb	w11, [x10], #1
	strb	w11, [x8], #1
	subs	x9, x9, #1
	b.ne	Ldcsctp_BB23_22
	b	Ldcsctp_BB23_3
Ldcsctp_BB23_23:
	ldp	x9, x10, [x10, #8]
	mov	w11, #512
	strh	w11, [x8]
	lsl	w11, w10, #1
	add	w12, w11, #8
	rev	w11, w12
	lsr	w13, w11, #16
	strh	w13, [x8, #2]
	rev	w13, w10
	str	w13, [x8, #4]
	cbz	x10, Ldcsctp_BB23_43
	cmp	x10, #4
	b.lo	Ldcsctp_BB23_26
	add	x11, x19, #12
	add	x11, x11, x28
	sub	x11, x11, x9
	cmp	x11, #64
	b.hs	Ldcsctp_BB23_44
Ldcsctp_BB23_26:
	mov	x11, #0
	mov	w12, #8
Ldcsctp_BB23_27:
	add	x12, x12, x28
	add	x12, x25, x12
	sub	x10, x10, x11
	add	x9, x9, x11, lsl #1
Ldcsctp_BB23_28:
	ldrh	w11, [x9], #2
	rev	w11, w11
	lsr	w11, w11, #16
	strh	w11, [x12], #2
	subs	x10, x10, #1
	b.ne	Ldcsctp_BB23_28
Ldcsctp_BB23_29:
	ldrb	w26, [x8, #2]
	ldrb	w20, [x8, #3]
	b	Ldcsctp_BB23_3
Ldcsctp_BB23_30:
	mov	x26, #0
	ldr	w9, [x10, #4]
	rev	w9, w9
	mov	w10, #2304
	movk	w10, #2048, lsl #16
	stp	w10, w9, [x8]
	mov	w20, #8
	b	Ldcsctp_BB23_3
Ldcsctp_BB23_31:
	ldp	x1, x2, [x10, #8]
	mov	w9, #3072
	strh	w9, [x8]
	add	w9, w2, #4
	rev	w10, w9
	lsr	w11, w10, #16
	strh	w11, [x8, #2]
	add	x0, x8, #4
	rev16	x8, x9
	and	x26, x8, #0xff
	lsr	w20, w10, #24
	sub	x8, x0, x1
	cmp	x8, x2
	b.hs	Ldcsctp_BB23_2
	cmp	x2, #8
	b.lo	Ldcsctp_BB23_34
	add	x8, x27, x28
	sub	x8, x8, x1
	cmp	x8, #64
	b.hs	Ldcsctp_BB23_50
Ldcsctp_BB23_34:
	mov	x8, #0
Ldcsctp_BB23_35:
	sub	x9, x2, x8
	add	x10, x1, x8
	add	x8, x8, x28
	add	x8, x27, x8
Ldcsctp_BB23_36:
	ldrb	w11, [x10], #1
	strb	w11, [x8], #1
	subs	x9, x9, #1
	b.ne	Ldcsctp_BB23_36
	b	Ldcsctp_BB23_3
Ldcsctp_BB23_37:
	ldrh	w9, [x10, #8]
	ldp	x1, x2, [x10, #16]
	lsr	w10, w9, #8
	strb	w10, [x8]
	strb	w9, [x8, #1]
	add	w9, w2, #4
	rev	w10, w9
	lsr	w11, w10, #16
	strh	w11, [x8, #2]
	add	x0, x8, #4
	rev16	x8, x9
	and	x26, x8, #0xff
	lsr	w20, w10, #24
	sub	x8, x0, x1
	cmp	x8, x2
	b.hs	Ldcsctp_BB23_2
	cmp	x2, #8
	b.lo	Ldcsctp_BB23_40
	add	x8, x27, x28
	sub	x8, x8, x1
	cmp	x8, #64
	b.hs	Ldcsctp_BB23_52
Ldcsctp_BB23_40:
	mov	x8, #0
Ldcsctp_BB23_41:
	sub	x9, x2, x8
	add	x10, x1, x8
	add	x8, x8, x28
	add	x8, x27, x8
Ldcsctp_BB23_42:
	ldrb	w11, [x10], #1
	strb	w11, [x8], #1
	subs	x9, x9, #1
	b.ne	Ldcsctp_BB23_42
	b	Ldcsctp_BB23_3
Ldcsctp_BB23_43:
	rev16	x8, x12
	and	x26, x8, #0xff
	lsr	w20, w11, #24
	b	Ldcsctp_BB23_3
Ldcsctp_BB23_44:
	cmp	x10, #32
	b.hs	Ldcsctp_BB23_54
	mov	x11, #0
	b	Ldcsctp_BB23_58
Ldcsctp_BB23_46:
	cmp	x2, #64
	b.hs	Ldcsctp_BB23_61
	mov	x8, #0
	b	Ldcsctp_BB23_65
Ldcsctp_BB23_48:
	cmp	x2, #64
	b.hs	Ldcsctp_BB23_68
	mov	x8, #0
	b	Ldcsctp_BB23_72
Ldcsctp_BB23_50:
	cmp	x2, #64
	b.hs	Ldcsctp_BB23_75
	mov	x8, #0
	b	Ldcsctp_BB23_79
Ldcsctp_BB23_52:
	cmp	x2, #64
	b.hs	Ldcsctp_BB23_82
	mov	x8, #0
	b	Ldcsctp_BB23_86
Ldcsctp_BB23_54:
	and	x12, x10, #0x1c
	and	x11, x10, #0xffffffffffffffe0
	add	x13, x19, #44
	add	x13, x13, x28
	add	x14, x9, #32
	and	x15, x10, #0xffffffffffffffe0
Ldcsctp_BB23_55:
	ldp	q0, q1, [x14, #-32]
	rev16	v0.16b, v0.16b
	rev16	v1.16b, v1.16b
	ldp	q2, q3, [x14], #64
	rev16	v2.16b, v2.16b
	rev16	v3.16b, v3.16b
	stp	q0, q1, [x13, #-32]
	stp	q2, q3, [x13], #64
	subs	x15, x15, #32
	b.ne	Ldcsctp_BB23_55
	cmp	x10, x11
	b.eq	Ldcsctp_BB23_29
	cbz	x12, Ldcsctp_BB23_89
Ldcsctp_BB23_58:
	mov	x14, x11
	and	x11, x10, #0xfffffffffffffffc
	lsl	x12, x11, #1
	add	x12, x12, #8
	lsl	x15, x14, #1
	add	x13, x28, x15
	add	x16, x19, #12
	add	x13, x16, x13
	sub	x14, x14, x11
	add	x15, x9, x15
Ldcsctp_BB23_59:
	ldr	d0, [x15], #8
	rev16	v0.8b, v0.8b
	str	d0, [x13], #8
	adds	x14, x14, #4
	b.ne	Ldcsctp_BB23_59
	cmp	x10, x11
	b.ne	Ldcsctp_BB23_27
	b	Ldcsctp_BB23_29
Ldcsctp_BB23_61:
	and	x9, x2, #0x38
	and	x8, x2, #0xffffffffffffffc0
	add	x10, x19, #40
	add	x10, x10, x28
	add	x11, x1, #32
	and	x12, x2, #0xffffffffffffffc0
Ldcsctp_BB23_62:
	ldp	q0, q1, [x11, #-32]
	ldp	q2, q3, [x11], #64
	stp	q0, q1, [x10, #-32]
	stp	q2, q3, [x10], #64
	subs	x12, x12, #64
	b.ne	Ldcsctp_BB23_62
	cmp	x2, x8
	b.eq	Ldcsctp_BB23_3
	cbz	x9, Ldcsctp_BB23_14
Ldcsctp_BB23_65:
	mov	x11, x8
	and	x8, x2, #0xfffffffffffffff8
	sub	x9, x11, x8
	add	x10, x1, x11
	add	x11, x11, x28
	add	x11, x27, x11
Ldcsctp_BB23_66:
	ldr	d0, [x10], #8
	str	d0, [x11], #8
	adds	x9, x9, #8
	b.ne	Ldcsctp_BB23_66
	cmp	x2, x8
	b.eq	Ldcsctp_BB23_3
	b	Ldcsctp_BB23_14
Ldcsctp_BB23_68:
	and	x9, x2, #0x38
	and	x8, x2, #0xffffffffffffffc0
	add	x10, x19, #40
	add	x10, x10, x28
	add	x11, x1, #32
	and	x12, x2, #0xffffffffffffffc0
Ldcsctp_BB23_69:
	ldp	q0, q1, [x11, #-32]
	ldp	q2, q3, [x11], #64
	stp	q0, q1, [x10, #-32]
	stp	q2, q3, [x10], #64
	subs	x12, x12, #64
	b.ne	Ldcsctp_BB23_69
	cmp	x2, x8
	b.eq	Ldcsctp_BB23_3
	cbz	x9, Ldcsctp_BB23_21
Ldcsctp_BB23_72:
	mov	x11, x8
	and	x8, x2, #0xfffffffffffffff8
	sub	x9, x11, x8
	add	x10, x1, x11
	add	x11, x11, x28
	add	x11, x27, x11
Ldcsctp_BB23_73:
	ldr	d0, [x10], #8
	str	d0, [x11], #8
	adds	x9, x9, #8
	b.ne	Ldcsctp_BB23_73
	cmp	x2, x8
	b.eq	Ldcsctp_BB23_3
	b	Ldcsctp_BB23_21
Ldcsctp_BB23_75:
	and	x9, x2, #0x38
	and	x8, x2, #0xffffffffffffffc0
	add	x10, x19, #40
	add	x10, x10, x28
	add	x11, x1, #32
	and	x12, x2, #0xffffffffffffffc0
Ldcsctp_BB23_76:
	ldp	q0, q1, [x11, #-32]
	ldp	q2, q3, [x11], #64
	stp	q0, q1, [x10, #-32]
	stp	q2, q3, [x10], #64
	subs	x12, x12, #64
	b.ne	Ldcsctp_BB23_76
	cmp	x2, x8
	b.eq	Ldcsctp_BB23_3
	cbz	x9, Ldcsctp_BB23_35
Ldcsctp_BB23_79:
	mov	x11, x8
	and	x8, x2, #0xfffffffffffffff8
	sub	x9, x11, x8
	add	x10, x1, x11
	add	x11, x11, x28
	add	x11, x27, x11
Ldcsctp_BB23_80:
	ldr	d0, [x10], #8
	str	d0, [x11], #8
	adds	x9, x9, #8
	b.ne	Ldcsctp_BB23_80
	cmp	x2, x8
	b.eq	Ldcsctp_BB23_3
	b	Ldcsctp_BB23_35
Ldcsctp_BB23_82:
	and	x9, x2, #0x38
	and	x8, x2, #0xffffffffffffffc0
	add	x10, x19, #40
	add	x10, x10, x28
	add	x11, x1, #32
	and	x12, x2, #0xffffffffffffffc0
Ldcsctp_BB23_83:
	ldp	q0, q1, [x11, #-32]
	ldp	q2, q3, [x11], #64
	stp	q0, q1, [x10, #-32]
	stp	q2, q3, [x10], #64
	subs	x12, x12, #64
	b.ne	Ldcsctp_BB23_83
	cmp	x2, x8
	b.eq	Ldcsctp_BB23_3
	cbz	x9, Ldcsctp_BB23_41
Ldcsctp_BB23_86:
	mov	x11, x8
	and	x8, x2, #0xfffffffffffffff8
	sub	x9, x11, x8
	add	x10, x1, x11
	add	x11, x11, x28
	add	x11, x27, x11
Ldcsctp_BB23_87:
	ldr	d0, [x10], #8
	str	d0, [x11], #8
	adds	x9, x9, #8
	b.ne	Ldcsctp_BB23_87
	cmp	x2, x8
	b.eq	Ldcsctp_BB23_3
	b	Ldcsctp_BB23_41
Ldcsctp_BB23_89:
	lsl	x12, x11, #1
	orr	x12, x12, #0x8
	b	Ldcsctp_BB23_27
Ldcsctp_BB23_90:
	add	w8, w8, #4
	rev16	w8, w8
	ldr	w1, [sp, #12]
	b	Ldcsctp_BB23_92
Ldcsctp_BB23_91:
	mov	w8, #1024
Ldcsctp_BB23_92:
	strb	w21, [x19]
	strb	w1, [x19, #1]
	strh	w8, [x19, #2]
	.cfi_def_cfa wsp, 112
	ldp	x29, x30, [sp, #96]
	ldp	x20, x19, [sp, #80]
	ldp	x22, x21, [sp, #64]
	ldp	x24, x23, [sp, #48]
	ldp	x26, x25, [sp, #32]
	ldp	x28, x27, [sp, #16]
	add	sp, sp, #112
	.cfi_def_cfa_offset 0
	.cfi_restore w30
	.cfi_restore w29
	.cfi_restore w19
	.cfi_restore w20
	.cfi_restore w21
	.cfi_restore w22
	.cfi_restore w23
	.cfi_restore w24
	.cfi_restore w25
	.cfi_restore w26
	.cfi_restore w27
	.cfi_restore w28
	ret
	.cfi_endproc
	.p2align	2
_std_alloc.vec.Vec.drop.5e412c9b2b6de7d3:
	.cfi_startproc
	sub	sp, sp, #96
	.cfi_def_cfa_offset 96
	stp	x24, x23, [sp, #32]
	stp	x22, x21, [sp, #48]
	stp	x20, x19, [sp, #64]
	stp	x29, x30, [sp, #80]
	add	x29, sp, #80
	.cfi_def_cfa w29, 16
	.cfi_offset w30, -8
	.cfi_offset w29, -16
	.cfi_offset w19, -24
	.cfi_offset w20, -32
	.cfi_offset w21, -40
	.cfi_offset w22, -48
	.cfi_offset w23, -56
	.cfi_offset w24, -64
	.cfi_remember_state
	ldp	x19, x22, [x0]
	ldr	x21, [x0, #16]
	cbz	x22, Ldcsctp_BB24_18
	add	x23, x19, #32
	b	Ldcsctp_BB24_5
Ldcsctp_BB24_2:
	cbz	x10, Ldcsctp_BB24_4
Ldcsctp_BB24_3:
	bl	_rattle_dealloc
Ldcsctp_BB24_4:
	subs	x22, x22, #1
	b.eq	Ldcsctp_BB24_18
Ldcsctp_BB24_5:
	ldurb	w11, [x23, #-32]
	ldp	x8, x0, [x23, #-24]
	ldp	x9, x10, [x23, #-8]
	ldr	x20, [x23, #8]
	ldr	x24, [x23, #24]
	add	x23, x23, #64
Ldcsctp_loh330:
	adrp	x12, Ldcsctp_JTI24_0@PAGE
Ldcsctp_loh331:
	add	x12, x12, Ldcsctp_JTI24_0@PAGEOFF
	adr	x13, Ldcsctp_BB24_2
	ldrb	w14, [x12, x11]
	add	x13, x13, x14, lsl #2
	br	x13
Ldcsctp_BB24_6:
	cbz	x9, Ldcsctp_BB24_4
	mov	x0, x8
	b	Ldcsctp_BB24_3
Ldcsctp_BB24_8:
	stp	x8, x0, [sp, #8]
	str	x9, [sp, #24]
	b	Ldcsctp_BB24_10
Ldcsctp_BB24_9:
	stp	x9, x10, [sp, #8]
	str	x20, [sp, #24]
Ldcsctp_BB24_10:
	add	x0, sp, #8
	bl	_std_alloc.vec.Vec.drop.765a829dcb308622
	b	Ldcsctp_BB24_4
Ldcsctp_BB24_11:
	stp	x0, x9, [sp, #8]
	str	x10, [sp, #24]
	b	Ldcsctp_BB24_13
Ldcsctp_BB24_12:
	stp	x8, x0, [sp, #8]
	str	x9, [sp, #24]
Ldcsctp_BB24_13:
	add	x0, sp, #8
	bl	_std_alloc.vec.Vec.drop.694f3e952ffd1e0b
	b	Ldcsctp_BB24_4
Ldcsctp_BB24_14:
	cbz	x10, Ldcsctp_BB24_16
	bl	_rattle_dealloc
Ldcsctp_BB24_16:
	cbz	x24, Ldcsctp_BB24_4
	mov	x0, x20
	b	Ldcsctp_BB24_3
Ldcsctp_BB24_18:
	cbz	x21, Ldcsctp_BB24_20
	mov	x0, x19
	.cfi_def_cfa wsp, 96
	ldp	x29, x30, [sp, #80]
	ldp	x20, x19, [sp, #64]
	ldp	x22, x21, [sp, #48]
	ldp	x24, x23, [sp, #32]
	add	sp, sp, #96
	.cfi_def_cfa_offset 0
	.cfi_restore w30
	.cfi_restore w29
	.cfi_restore w19
	.cfi_restore w20
	.cfi_restore w21
	.cfi_restore w22
	.cfi_restore w23
	.cfi_restore w24
	b	_rattle_dealloc
Ldcsctp_BB24_20:
	.cfi_restore_state
	.cfi_def_cfa wsp, 96
	ldp	x29, x30, [sp, #80]
	ldp	x20, x19, [sp, #64]
	ldp	x22, x21, [sp, #48]
	ldp	x24, x23, [sp, #32]
	add	sp, sp, #96
	.cfi_def_cfa_offset 0
	.cfi_restore w30
	.cfi_restore w29
	.cfi_restore w19
	.cfi_restore w20
	.cfi_restore w21
	.cfi_restore w22
	.cfi_restore w23
	.cfi_restore w24
	ret
	.loh AdrpAdd	Ldcsctp_loh330, Ldcsctp_loh331
	.cfi_endproc
	.section	__TEXT,__const
Ldcsctp_JTI24_0:
	.byte	(Ldcsctp_BB24_6-Ldcsctp_BB24_2)>>2
	.byte	(Ldcsctp_BB24_9-Ldcsctp_BB24_2)>>2
	.byte	(Ldcsctp_BB24_9-Ldcsctp_BB24_2)>>2
	.byte	(Ldcsctp_BB24_14-Ldcsctp_BB24_2)>>2
	.byte	(Ldcsctp_BB24_8-Ldcsctp_BB24_2)>>2
	.byte	(Ldcsctp_BB24_8-Ldcsctp_BB24_2)>>2
	.byte	(Ldcsctp_BB24_11-Ldcsctp_BB24_2)>>2
	.byte	(Ldcsctp_BB24_4-Ldcsctp_BB24_2)>>2
	.byte	(Ldcsctp_BB24_4-Ldcsctp_BB24_2)>>2
	.byte	(Ldcsctp_BB24_12-Ldcsctp_BB24_2)>>2
	.byte	(Ldcsctp_BB24_6-Ldcsctp_BB24_2)>>2
	.byte	(Ldcsctp_BB24_4-Ldcsctp_BB24_2)>>2
	.byte	(Ldcsctp_BB24_4-Ldcsctp_BB24_2)>>2
	.byte	(Ldcsctp_BB24_6-Ldcsctp_BB24_2)>>2
	.byte	(Ldcsctp_BB24_8-Ldcsctp_BB24_2)>>2
	.byte	(Ldcsctp_BB24_2-Ldcsctp_BB24_2)>>2
	.byte	(Ldcsctp_BB24_2-Ldcsctp_BB24_2)>>2
	.byte	(Ldcsctp_BB24_2-Ldcsctp_BB24_2)>>2
	.section	__TEXT,__literal16,16byte_literals
	.p2align	4, 0x0
ldcsctp_CPI25_0:
	.byte	116
	.byte	104
	.byte	105
	.byte	115
	.byte	32
	.byte	109
	.byte	97
	.byte	99
	.byte	104
	.byte	105
	.byte	110
	.byte	101
	.byte	32
	.byte	108
	.byte	97
	.byte	99
ldcsctp_CPI25_1:
	.byte	107
	.byte	115
	.byte	32
	.byte	97
	.byte	32
	.byte	102
	.byte	101
	.byte	97
	.byte	116
	.byte	117
	.byte	114
	.byte	101
	.byte	32
	.byte	111
	.byte	102
	.byte	32
ldcsctp_CPI25_2:
	.byte	120
	.byte	56
	.byte	54
	.byte	45
	.byte	54
	.byte	52
	.byte	45
	.byte	118
	.byte	50
	.byte	44
	.byte	32
	.byte	119
	.byte	104
	.byte	105
	.byte	99
	.byte	104
ldcsctp_CPI25_3:
	.byte	32
	.byte	116
	.byte	104
	.byte	105
	.byte	115
	.byte	32
	.byte	112
	.byte	114
	.byte	111
	.byte	103
	.byte	114
	.byte	97
	.byte	109
	.byte	32
	.byte	119
	.byte	97
ldcsctp_CPI25_4:
	.byte	115
	.byte	32
	.byte	98
	.byte	117
	.byte	105
	.byte	108
	.byte	116
	.byte	32
	.byte	102
	.byte	111
	.byte	114
	.byte	58
	.byte	32
	.byte	114
	.byte	117
	.byte	110
ldcsctp_CPI25_5:
	.byte	32
	.byte	105
	.byte	116
	.byte	32
	.byte	111
	.byte	110
	.byte	32
	.byte	97
	.byte	110
	.byte	111
	.byte	116
	.byte	104
	.byte	101
	.byte	114
	.byte	32
	.byte	109
ldcsctp_CPI25_6:
	.byte	97
	.byte	99
	.byte	104
	.byte	105
	.byte	110
	.byte	101
	.byte	44
	.byte	32
	.byte	111
	.byte	114
	.byte	32
	.byte	98
	.byte	117
	.byte	105
	.byte	108
	.byte	100
ldcsctp_CPI25_7:
	.byte	32
	.byte	105
	.byte	116
	.byte	32
	.byte	119
	.byte	105
	.byte	116
	.byte	104
	.byte	32
	.byte	45
	.byte	45
	.byte	99
	.byte	112
	.byte	117
	.byte	32
	.byte	120
	.section	__TEXT,__literal8,8byte_literals
	.p2align	3, 0x0
ldcsctp_CPI25_8:
	.byte	56
	.byte	54
	.byte	45
	.byte	54
	.space	1
	.space	1
	.space	1
	.space	1
	.section	__TEXT,__text,regular,pure_instructions
	.globl	_rattle_main
	.p2align	2
_rattle_main:
	.cfi_startproc
	stp	d9, d8, [sp, #-112]!
	.cfi_def_cfa_offset 112
	stp	x28, x27, [sp, #16]
	stp	x26, x25, [sp, #32]
	stp	x24, x23, [sp, #48]
	stp	x22, x21, [sp, #64]
	stp	x20, x19, [sp, #80]
	stp	x29, x30, [sp, #96]
	add	x29, sp, #96
	.cfi_def_cfa w29, 16
	.cfi_offset w30, -8
	.cfi_offset w29, -16
	.cfi_offset w19, -24
	.cfi_offset w20, -32
	.cfi_offset w21, -40
	.cfi_offset w22, -48
	.cfi_offset w23, -56
	.cfi_offset w24, -64
	.cfi_offset w25, -72
	.cfi_offset w26, -80
	.cfi_offset w27, -88
	.cfi_offset w28, -96
	.cfi_offset b8, -104
	.cfi_offset b9, -112
	.cfi_remember_state
	sub	sp, sp, #304
	str	xzr, [sp]
	mov	w0, #13
	mov	w1, #1
	bl	_rattle_signal
	mov	w0, #0
	bl	_rattle_cpuid
	ldr	w8, [x0, #24]
	mov	w9, #8705
	movk	w9, #152, lsl #16
	bic	w19, w9, w8
	mov	w0, #2
	bl	_rattle_cpuid
	ldr	w8, [x0, #24]
	and	w8, w8, #0x1
	cmp	w19, #0
	ccmp	w8, #0, #4, eq
	b.ne	Ldcsctp_BB25_4
	mov	x8, sp
	sub	x1, x8, #144
	sub	sp, sp, #3072
	cmp	sp, x1
	b.le	Ldcsctp_BB25_3
Ldcsctp_BB25_2:
	str	xzr, [sp]
	sub	sp, sp, #3072
	cmp	sp, x1
	b.gt	Ldcsctp_BB25_2
Ldcsctp_BB25_3:
	mov	sp, x1
	ldr	xzr, [sp]
Ldcsctp_loh332:
	adrp	x9, ldcsctp_CPI25_0@PAGE
Ldcsctp_loh333:
	ldr	q0, [x9, ldcsctp_CPI25_0@PAGEOFF]
Ldcsctp_loh334:
	adrp	x9, ldcsctp_CPI25_1@PAGE
Ldcsctp_loh335:
	ldr	q1, [x9, ldcsctp_CPI25_1@PAGEOFF]
	stp	q0, q1, [x8, #-144]
Ldcsctp_loh336:
	adrp	x9, ldcsctp_CPI25_2@PAGE
Ldcsctp_loh337:
	ldr	q0, [x9, ldcsctp_CPI25_2@PAGEOFF]
Ldcsctp_loh338:
	adrp	x9, ldcsctp_CPI25_3@PAGE
Ldcsctp_loh339:
	ldr	q1, [x9, ldcsctp_CPI25_3@PAGEOFF]
	stp	q0, q1, [x8, #-112]
Ldcsctp_loh340:
	adrp	x9, ldcsctp_CPI25_4@PAGE
Ldcsctp_loh341:
	ldr	q0, [x9, ldcsctp_CPI25_4@PAGEOFF]
Ldcsctp_loh342:
	adrp	x9, ldcsctp_CPI25_5@PAGE
Ldcsctp_loh343:
	ldr	q1, [x9, ldcsctp_CPI25_5@PAGEOFF]
	stp	q0, q1, [x8, #-80]
Ldcsctp_loh344:
	adrp	x9, ldcsctp_CPI25_6@PAGE
Ldcsctp_loh345:
	ldr	q0, [x9, ldcsctp_CPI25_6@PAGEOFF]
Ldcsctp_loh346:
	adrp	x9, ldcsctp_CPI25_7@PAGE
Ldcsctp_loh347:
	ldr	q1, [x9, ldcsctp_CPI25_7@PAGEOFF]
	stp	q0, q1, [x8, #-48]
Ldcsctp_loh348:
	adrp	x9, ldcsctp_CPI25_8@PAGE
Ldcsctp_loh349:
	ldr	d0, [x9, ldcsctp_CPI25_8@PAGEOFF]
	stur	s0, [x8, #-16]
	mov	w9, #2612
	sturh	w9, [x8, #-12]
	mov	w0, #2
	mov	w2, #134
	bl	_rattle_write
	mov	w0, #127
	b	Ldcsctp_BB25_43
Ldcsctp_BB25_4:
	mov	w19, #3393
	movk	w19, #3, lsl #16
	mov	w0, #0
	mov	x1, #0
	mov	w2, #1
	bl	_rattle_lseek
	mov	w0, #3393
	movk	w0, #3, lsl #16
	mov	w1, #1
	bl	_rattle_alloc
	tbz	w0, #0, Ldcsctp_BB25_35
	mov	x20, x1
	mov	x0, x1
	mov	w1, #3393
	movk	w1, #3, lsl #16
	bl	_bzero
	mov	x21, #0
Ldcsctp_BB25_6:
	sub	x22, x19, x21
	add	x1, x20, x21
	sub	x2, x19, x21
	mov	w0, #0
	bl	_rattle_read
	tbnz	x0, #63, Ldcsctp_BB25_11
	cmp	x0, x22
	csel	x8, x0, x22, lo
	cbz	x8, Ldcsctp_BB25_9
	add	x21, x8, x21
	cmp	x21, x19
	b.lo	Ldcsctp_BB25_6
Ldcsctp_BB25_9:
	mov	w8, #3393
	movk	w8, #3, lsl #16
	movi	v0.2d, #0000000000000000
	stp	q0, q0, [x29, #-208]
	cmp	x21, x8
	csel	x8, x21, x8, lo
	stur	xzr, [x29, #-176]
	sub	x9, x29, #16
	stur	q0, [x9, #-256]
	stur	q0, [x29, #-256]
	sub	x9, x29, #32
	stur	xzr, [x9, #-256]
	sub	x9, x29, #48
	stur	xzr, [x9, #-256]
	sub	x9, x29, #40
	stur	xzr, [x9, #-256]
	sub	x9, x29, #64
	stur	xzr, [x9, #-256]
	sub	x9, x19, #1
	sub	x10, x29, #80
	stur	xzr, [x10, #-256]
	sub	x10, x29, #72
	stur	xzr, [x10, #-256]
	cmp	x21, x9
	b.ls	Ldcsctp_BB25_12
	mov	x0, x20
	bl	_rattle_dealloc
Ldcsctp_loh350:
	adrp	x19, l_static.53@PAGE
Ldcsctp_loh351:
	add	x19, x19, l_static.53@PAGEOFF
	mov	w20, #22
	b	Ldcsctp_BB25_36
Ldcsctp_BB25_11:
	sub	x0, x29, #208
	bl	_std_io.io.error.last_error
	mov	x0, x20
	bl	_rattle_dealloc
Ldcsctp_loh352:
	adrp	x19, l_static.52@PAGE
Ldcsctp_loh353:
	add	x19, x19, l_static.52@PAGEOFF
	mov	w20, #19
	b	Ldcsctp_BB25_36
Ldcsctp_BB25_12:
	cbz	x21, Ldcsctp_BB25_31
	mov	x22, #0
Ldcsctp_BB25_14:
	ldrb	w9, [x20, x22]
	cmp	w9, #13
	b.eq	Ldcsctp_BB25_19
	cmp	w9, #32
	b.eq	Ldcsctp_BB25_19
	sub	w9, w9, #9
	cmp	w9, #2
	b.lo	Ldcsctp_BB25_19
	add	x22, x22, #1
	cmp	x8, x22
	b.ne	Ldcsctp_BB25_14
	mov	x22, x8
	b	Ldcsctp_BB25_26
Ldcsctp_BB25_19:
	add	x9, x22, #1
	cmp	x9, x8
	b.hs	Ldcsctp_BB25_26
	add	x9, x9, x20
	mvn	x10, x22
	add	x8, x10, x8
	b	Ldcsctp_BB25_22
Ldcsctp_BB25_21:
	mov	x11, #0
	strb	w10, [x20, x22]
	add	x22, x11, x22
	subs	x8, x8, #1
	b.eq	Ldcsctp_BB25_26
Ldcsctp_BB25_22:
	ldrb	w10, [x9], #1
	cmp	w10, #13
	b.eq	Ldcsctp_BB25_21
	cmp	w10, #32
	b.eq	Ldcsctp_BB25_21
	sub	w11, w10, #9
	cmp	w11, #1
	b.ls	Ldcsctp_BB25_21
	mov	w11, #1
	strb	w10, [x20, x22]
	add	x22, x11, x22
	subs	x8, x8, #1
	b.ne	Ldcsctp_BB25_22
Ldcsctp_BB25_26:
	tbnz	w22, #0, Ldcsctp_BB25_63
	cbz	x22, Ldcsctp_BB25_31
	lsr	x21, x22, #1
	mov	x0, x21
	mov	w1, #1
	bl	_rattle_alloc
	tbz	w0, #0, Ldcsctp_BB25_33
	mov	x19, x1
	cmp	x22, #2
	b.ne	Ldcsctp_BB25_44
	mov	x22, #0
	b	Ldcsctp_BB25_45
Ldcsctp_BB25_31:
	mov	x0, x20
Ldcsctp_BB25_32:
	bl	_rattle_dealloc
Ldcsctp_loh354:
	adrp	x19, l_static.55@PAGE
Ldcsctp_loh355:
	add	x19, x19, l_static.55@PAGEOFF
	mov	w20, #27
	b	Ldcsctp_BB25_36
Ldcsctp_BB25_33:
	mov	x0, x20
Ldcsctp_BB25_34:
	bl	_rattle_dealloc
Ldcsctp_BB25_35:
Ldcsctp_loh356:
	adrp	x19, l_static.51@PAGE
Ldcsctp_loh357:
	add	x19, x19, l_static.51@PAGEOFF
	mov	w20, #21
Ldcsctp_BB25_36:
	mov	x21, #0
Ldcsctp_BB25_37:
	sub	x22, x20, x21
	add	x1, x19, x21
	sub	x2, x20, x21
	mov	w0, #1
	bl	_rattle_write
	tbnz	x0, #63, Ldcsctp_BB25_41
	cmp	x0, x22
	csel	x8, x0, x22, lo
	cbz	x8, Ldcsctp_BB25_42
	add	x21, x8, x21
	cmp	x21, x20
	b.lo	Ldcsctp_BB25_37
	mov	w0, #1
	b	Ldcsctp_BB25_43
Ldcsctp_BB25_41:
	sub	x0, x29, #208
	bl	_std_io.io.error.last_error
Ldcsctp_BB25_42:
	mov	w0, #2
Ldcsctp_BB25_43:
	sub	sp, x29, #96
	.cfi_def_cfa wsp, 112
	ldp	x29, x30, [sp, #96]
	ldp	x20, x19, [sp, #80]
	ldp	x22, x21, [sp, #64]
	ldp	x24, x23, [sp, #48]
	ldp	x26, x25, [sp, #32]
	ldp	x28, x27, [sp, #16]
	ldp	d9, d8, [sp], #112
	.cfi_def_cfa_offset 0
	.cfi_restore w30
	.cfi_restore w29
	.cfi_restore w19
	.cfi_restore w20
	.cfi_restore w21
	.cfi_restore w22
	.cfi_restore w23
	.cfi_restore w24
	.cfi_restore w25
	.cfi_restore w26
	.cfi_restore w27
	.cfi_restore w28
	.cfi_restore b8
	.cfi_restore b9
	ret
Ldcsctp_BB25_44:
	.cfi_restore_state
	sub	x22, x21, #1
	sub	x1, x21, #1
	mov	x0, x19
	bl	_bzero
Ldcsctp_BB25_45:
	strb	wzr, [x19, x22]
	add	x8, x22, #1
	cmp	x21, x8
	b.ne	Ldcsctp_BB25_62
	mov	x9, #0
	add	x10, x20, #1
	b	Ldcsctp_BB25_49
Ldcsctp_BB25_47:
	sub	w13, w12, #55
Ldcsctp_BB25_48:
	add	x10, x10, #2
	add	w11, w13, w11, lsl #4
	strb	w11, [x19, x9]
	add	x9, x9, #1
	cmp	x8, x9
	b.eq	Ldcsctp_BB25_64
Ldcsctp_BB25_49:
	ldurb	w13, [x10, #-1]
	subs	w11, w13, #48
	b.lo	Ldcsctp_BB25_62
	ldrb	w12, [x10]
	cmp	w13, #57
	b.ls	Ldcsctp_BB25_56
	cmp	w13, #65
	b.lo	Ldcsctp_BB25_62
	cmp	w13, #70
	b.hi	Ldcsctp_BB25_54
	sub	w11, w13, #55
	b	Ldcsctp_BB25_56
Ldcsctp_BB25_54:
	sub	w11, w13, #97
	cmp	w11, #5
	b.hi	Ldcsctp_BB25_62
	sub	w11, w13, #87
Ldcsctp_BB25_56:
	subs	w13, w12, #48
	b.lo	Ldcsctp_BB25_62
	cmp	w12, #57
	b.ls	Ldcsctp_BB25_48
	cmp	w12, #65
	b.lo	Ldcsctp_BB25_62
	cmp	w12, #70
	b.ls	Ldcsctp_BB25_47
	sub	w13, w12, #97
	cmp	w13, #5
	b.hi	Ldcsctp_BB25_62
	sub	w13, w12, #87
	b	Ldcsctp_BB25_48
Ldcsctp_BB25_62:
	mov	x0, x19
	bl	_rattle_dealloc
Ldcsctp_BB25_63:
	mov	x0, x20
	bl	_rattle_dealloc
Ldcsctp_loh358:
	adrp	x19, l_static.54@PAGE
Ldcsctp_loh359:
	add	x19, x19, l_static.54@PAGEOFF
	mov	w20, #23
	b	Ldcsctp_BB25_36
Ldcsctp_BB25_64:
	mov	x0, x20
	bl	_rattle_dealloc
	sub	x8, x21, #16, lsl #12
	mov	x9, #-65520
	cmp	x8, x9
	b.hs	Ldcsctp_BB25_66
	mov	x0, x19
	b	Ldcsctp_BB25_32
Ldcsctp_BB25_66:
	mov	x20, #0
	mov	x22, #0
	add	x23, x19, #12
	sub	x24, x21, #12
	add	x21, x19, #12
	mov	x25, x24
	b	Ldcsctp_BB25_69
Ldcsctp_BB25_67:
	cbnz	x2, Ldcsctp_BB25_92
Ldcsctp_BB25_68:
	add	x21, x21, x26
	add	x22, x22, #1
	add	x20, x20, #64
	sub	x25, x25, x26
	cbz	x25, Ldcsctp_BB25_93
Ldcsctp_BB25_69:
	cmp	x25, #4
	b.lo	Ldcsctp_BB25_92
	ldrb	w8, [x21, #2]
	ldrb	w9, [x21, #3]
	orr	w10, w9, w8, lsl #8
	cmp	w10, #4
	ccmp	x25, x10, #0, hs
	b.lo	Ldcsctp_BB25_92
	orr	x8, x9, x8, lsl #8
	mov	x1, x21
	ldrb	w10, [x1], #4
	sub	x2, x8, #4
	add	w11, w8, #3
	and	x11, x11, #0x1fffc
	cmp	x25, x11
	csel	x26, x25, x11, lo
	cmp	w10, #130
	b.hi	Ldcsctp_BB25_74
Ldcsctp_loh360:
	adrp	x9, Ldcsctp_JTI25_0@PAGE
Ldcsctp_loh361:
	add	x9, x9, Ldcsctp_JTI25_0@PAGEOFF
	adr	x11, Ldcsctp_BB25_67
	ldrb	w12, [x9, x10]
	add	x11, x11, x12, lsl #2
	br	x11
Ldcsctp_BB25_73:
	stp	xzr, xzr, [x29, #-232]
	stur	xzr, [x29, #-216]
	sub	x0, x29, #232
	b	Ldcsctp_BB25_80
Ldcsctp_BB25_74:
	cmp	w10, #192
	b.eq	Ldcsctp_BB25_90
	cmp	w10, #194
	b.ne	Ldcsctp_BB25_68
	cmp	x2, #4
	b.lo	Ldcsctp_BB25_92
	and	x8, x2, #0x7
	cmp	x8, #4
	b.eq	Ldcsctp_BB25_68
	b	Ldcsctp_BB25_92
Ldcsctp_BB25_78:
	cmp	x2, #16
	b.lo	Ldcsctp_BB25_92
	stp	xzr, xzr, [x29, #-232]
	sub	x2, x8, #20
	stur	xzr, [x29, #-216]
	sub	x0, x29, #232
	add	x1, x21, #20
Ldcsctp_BB25_80:
	mov	w3, #0
	bl	_dcsctp_tlv.reader.list_check.a9faab4c914c0483
	b	Ldcsctp_BB25_88
Ldcsctp_BB25_81:
	cmp	x2, #4
	b.eq	Ldcsctp_BB25_68
	b	Ldcsctp_BB25_92
Ldcsctp_BB25_82:
	cmp	x2, #16
	b.hs	Ldcsctp_BB25_68
	b	Ldcsctp_BB25_92
Ldcsctp_BB25_83:
	cmp	x2, #12
	b.hs	Ldcsctp_BB25_68
	b	Ldcsctp_BB25_92
Ldcsctp_BB25_84:
	cmp	x2, #12
	b.lo	Ldcsctp_BB25_92
	ldr	w8, [x21, #12]
	rev	w8, w8
	lsr	w9, w8, #16
	add	w8, w9, w8, uxth
	lsl	w8, w8, #2
	add	w8, w8, #12
	cmp	x2, x8
	b.eq	Ldcsctp_BB25_68
	b	Ldcsctp_BB25_92
Ldcsctp_BB25_86:
	cbz	x2, Ldcsctp_BB25_92
Ldcsctp_BB25_87:
	stp	xzr, xzr, [x29, #-232]
	stur	xzr, [x29, #-216]
	sub	x0, x29, #232
	mov	w3, #0
	bl	_dcsctp_tlv.reader.list_check.a6e1d811d2b3aa55
Ldcsctp_BB25_88:
	ldurb	w8, [x29, #-232]
	ldurb	w9, [x29, #-216]
	cmp	w8, #0
	csel	w27, wzr, w9, eq
	cbz	w8, Ldcsctp_BB25_68
	b	Ldcsctp_BB25_96
Ldcsctp_BB25_89:
	cbnz	x2, Ldcsctp_BB25_68
	b	Ldcsctp_BB25_92
Ldcsctp_BB25_90:
	tst	x9, #0x3
	b.ne	Ldcsctp_BB25_92
	cmp	x2, #4
	b.hs	Ldcsctp_BB25_68
Ldcsctp_BB25_92:
	mov	x0, x19
	bl	_rattle_dealloc
Ldcsctp_loh362:
	adrp	x19, l_static.58@PAGE
Ldcsctp_loh363:
	add	x19, x19, l_static.58@PAGEOFF
	mov	w20, #29
	b	Ldcsctp_BB25_36
Ldcsctp_BB25_93:
	sub	x8, x29, #104
	stur	x22, [x8, #-256]
	cbz	x22, Ldcsctp_BB25_97
	lsr	x8, x22, #57
	cbnz	x8, Ldcsctp_BB25_298
	mov	x0, x20
	mov	w1, #8
	bl	_rattle_alloc
	sub	x8, x29, #88
	stur	x1, [x8, #-256]
	tbnz	w0, #0, Ldcsctp_BB25_98
	b	Ldcsctp_BB25_298
Ldcsctp_BB25_96:
	mov	x0, x19
	bl	_rattle_dealloc
	ubfiz	x8, x27, #3, #8
Ldcsctp_loh364:
	adrp	x9, l_switch.table.rattle_main@PAGE
Ldcsctp_loh365:
	add	x9, x9, l_switch.table.rattle_main@PAGEOFF
	ldr	x20, [x9, x8]
Ldcsctp_loh366:
	adrp	x9, l_switch.table.rattle_main.391@PAGE
Ldcsctp_loh367:
	add	x9, x9, l_switch.table.rattle_main.391@PAGEOFF
	ldr	x19, [x9, x8]
	b	Ldcsctp_BB25_36
Ldcsctp_BB25_97:
	sub	x8, x29, #112
	sub	x9, x29, #88
	stur	x8, [x9, #-256]
Ldcsctp_BB25_98:
	mov	x25, #0
	sub	x8, x29, #88
	cbz	x24, Ldcsctp_BB25_100
	ldur	x26, [x8, #-256]
	b	Ldcsctp_BB25_108
Ldcsctp_BB25_100:
	ldur	x26, [x8, #-256]
Ldcsctp_BB25_101:
	ldrh	w8, [x19]
	rev	w8, w8
	lsr	w9, w8, #16
	ldrh	w8, [x19, #2]
	rev	w8, w8
	lsr	w10, w8, #16
	ldur	d0, [x19, #4]
	rev32	v0.8b, v0.8b
	stp	x26, x25, [x29, #-208]
	sub	x8, x29, #104
	ldur	x8, [x8, #-256]
	stur	x8, [x29, #-192]
	sturh	w9, [x29, #-184]
	sturh	w10, [x29, #-182]
	stur	d0, [x29, #-180]
	stur	wzr, [x29, #-172]
	sub	x0, x29, #272
	sub	x1, x29, #208
	bl	_sctp_show.text.text_of
	sub	x8, x29, #16
	ldurb	w8, [x8, #-256]
	cbz	w8, Ldcsctp_BB25_265
	ldur	q0, [x29, #-208]
	sub	x8, x29, #48
	stur	q0, [x8, #-256]
	ldur	x8, [x29, #-192]
	sub	x9, x29, #32
	stur	x8, [x9, #-256]
	sub	x0, x29, #304
	bl	_std_alloc.vec.Vec.drop.5e412c9b2b6de7d3
	b	Ldcsctp_BB25_298
Ldcsctp_BB25_103:
	add	x1, x23, #16
	mov	x0, x22
	mov	x2, x21
	bl	_memmove
Ldcsctp_BB25_104:
	sub	x8, x29, #88
	ldur	x26, [x8, #-256]
	add	x8, x26, x25, lsl #6
	strh	wzr, [x8]
	str	wzr, [x8, #4]
	rev	w9, w28
	rev16	w10, w27
	sub	x11, x29, #124
	ldur	w11, [x11, #-256]
	rev16	w11, w11
	sub	x12, x29, #128
	ldur	w12, [x12, #-256]
	rev	w12, w12
	sub	x13, x29, #108
	ldur	w13, [x13, #-256]
	ubfx	w14, w13, #2, #1
	stp	x22, x21, [x8, #8]
	ubfx	w15, w13, #1, #1
	and	w16, w13, #0x1
	stp	x21, xzr, [x8, #24]
	ubfx	w13, w13, #3, #1
	str	w12, [x8, #40]
	strh	w14, [x8, #44]
	strh	w10, [x8, #46]
	strh	w11, [x8, #48]
	strb	w15, [x8, #50]
	strb	w16, [x8, #51]
	stp	wzr, w9, [x8, #52]
	strb	w13, [x8, #60]
Ldcsctp_BB25_105:
	sturh	wzr, [x8, #61]
	add	x25, x25, #1
	strb	wzr, [x8, #63]
Ldcsctp_BB25_106:
	sub	x8, x29, #96
	ldur	x22, [x8, #-256]
Ldcsctp_BB25_107:
	add	x23, x23, x22
	sub	x24, x24, x22
	cbz	x24, Ldcsctp_BB25_101
Ldcsctp_BB25_108:
	ldrb	w10, [x23, #2]
	ldrb	w9, [x23, #3]
	lsl	x20, x10, #8
	mov	x8, x9
	bfi	x8, x10, #8, #8
	add	x27, x23, #4
	sub	x21, x8, #4
	add	w10, w8, #3
	and	x10, x10, #0x1fffc
	cmp	x24, x10
	csel	x22, x24, x10, lo
	ldrb	w28, [x23]
	ldrb	w10, [x23, #1]
	cmp	w28, #130
	b.hi	Ldcsctp_BB25_114
Ldcsctp_loh368:
	adrp	x11, Ldcsctp_JTI25_1@PAGE
Ldcsctp_loh369:
	add	x11, x11, Ldcsctp_JTI25_1@PAGEOFF
	adr	x12, Ldcsctp_BB25_110
	ldrh	w13, [x11, x28, lsl #1]
	add	x12, x12, x13, lsl #2
	br	x12
Ldcsctp_BB25_110:
	sub	x11, x29, #96
	stur	x22, [x11, #-256]
	sub	x11, x29, #120
	stur	x9, [x11, #-256]
	sub	x9, x29, #108
	stur	w10, [x9, #-256]
	ldr	w28, [x23, #4]
	ldrh	w27, [x23, #8]
	ldrh	w9, [x23, #10]
	sub	x10, x29, #124
	stur	w9, [x10, #-256]
	ldr	w9, [x23, #12]
	sub	x10, x29, #128
	stur	w9, [x10, #-256]
	subs	x21, x8, #16
	b.eq	Ldcsctp_BB25_171
	cmp	x8, #16
	b.lo	Ldcsctp_BB25_278
	mov	x0, x21
	mov	w1, #1
	bl	_rattle_alloc
	tbz	w0, #0, Ldcsctp_BB25_278
	mov	x22, x1
	b	Ldcsctp_BB25_172
Ldcsctp_BB25_114:
	cmp	w28, #192
	b.eq	Ldcsctp_BB25_157
	cmp	w28, #194
	b.ne	Ldcsctp_BB25_121
	sub	x8, x8, #8
	lsr	x20, x8, #3
	cbz	x20, Ldcsctp_BB25_208
	mov	x9, #6148914691236517205
	movk	x9, #21847
	cmp	x8, x9
	b.hi	Ldcsctp_BB25_278
	add	x8, x20, x20, lsl #1
	lsl	x0, x8, #2
	mov	w1, #4
	bl	_rattle_alloc
	tbz	w0, #0, Ldcsctp_BB25_278
	add	x8, x1, #4
	add	x9, x23, #12
	mov	x10, x20
Ldcsctp_BB25_120:
	ldurh	w11, [x9, #-4]
	rev	w11, w11
	lsr	w11, w11, #16
	ldurb	w12, [x9, #-1]
	and	w12, w12, #0x1
	ldr	w13, [x9], #8
	rev	w13, w13
	mov	w14, #1
	sturh	w14, [x8, #-4]
	sturh	w12, [x8, #-2]
	strh	w11, [x8]
	str	w13, [x8, #4]
	add	x8, x8, #12
	subs	x10, x10, #1
	b.ne	Ldcsctp_BB25_120
	b	Ldcsctp_BB25_209
Ldcsctp_BB25_121:
	sub	x11, x29, #96
	stur	x22, [x11, #-256]
	mov	x26, x9
	sub	x9, x29, #108
	stur	w10, [x9, #-256]
	cbz	x21, Ldcsctp_BB25_162
	cmp	x8, #4
	b.lo	Ldcsctp_BB25_278
	mov	x0, x21
	mov	w1, #1
	bl	_rattle_alloc
	tbz	w0, #0, Ldcsctp_BB25_278
	mov	x22, x1
	b	Ldcsctp_BB25_163
Ldcsctp_BB25_125:
	add	x0, x26, x25, lsl #6
	mov	w8, #9
	strh	w8, [x0]
	str	wzr, [x0, #4]
	sub	x8, x29, #112
	movi	v0.2d, #0000000000000000
	stp	q0, q0, [x0, #16]
	str	q0, [x0, #48]
	str	x8, [x0, #8]!
	add	x25, x25, #1
	b	Ldcsctp_BB25_135
Ldcsctp_BB25_126:
	and	w8, w10, #0x1
	add	x9, x26, x25, lsl #6
	mov	w10, #12
	strb	w10, [x9]
	strb	w8, [x9, #1]
	add	x25, x25, #1
	movi	v0.2d, #0000000000000000
	stur	q0, [x9, #4]
	stur	q0, [x9, #20]
	stur	q0, [x9, #36]
	str	q0, [x9, #48]
	b	Ldcsctp_BB25_107
Ldcsctp_BB25_127:
	add	x8, x26, x25, lsl #6
	mov	w9, #8
	b	Ldcsctp_BB25_156
Ldcsctp_BB25_128:
	ldrh	w9, [x23, #12]
	rev	w9, w9
	lsr	w9, w9, #16
	ldrh	w10, [x23, #14]
	rev	w10, w10
	lsr	w10, w10, #16
	ldr	w11, [x23, #16]
	rev	w11, w11
	add	x0, x26, x25, lsl #6
	ldur	d0, [x23, #4]
	rev32	v0.8b, v0.8b
	mov	w12, #1
	b	Ldcsctp_BB25_137
Ldcsctp_BB25_129:
	add	x0, x26, x25, lsl #6
	mov	w8, #14
	b	Ldcsctp_BB25_148
Ldcsctp_BB25_130:
	sub	x11, x29, #96
	stur	x22, [x11, #-256]
	sub	x11, x29, #120
	stur	x9, [x11, #-256]
	mov	x28, x10
	ands	w9, w10, #0x2
	sub	x10, x29, #108
	stur	w9, [x10, #-256]
	ldr	w9, [x23, #4]
	sub	x10, x29, #136
	stur	w9, [x10, #-256]
	ldrh	w9, [x23, #8]
	sub	x10, x29, #128
	stur	w9, [x10, #-256]
	ldr	w9, [x23, #12]
	sub	x10, x29, #132
	stur	w9, [x10, #-256]
	ldr	w9, [x23, #16]
	rev	w27, w9
	csel	w9, w27, wzr, eq
	sub	x10, x29, #124
	stur	w9, [x10, #-256]
	subs	x21, x8, #20
	b.eq	Ldcsctp_BB25_178
	cmp	x8, #20
	b.lo	Ldcsctp_BB25_278
	mov	x0, x21
	mov	w1, #1
	bl	_rattle_alloc
	tbz	w0, #0, Ldcsctp_BB25_278
	mov	x22, x1
	b	Ldcsctp_BB25_179
Ldcsctp_BB25_134:
	and	w8, w10, #0x1
	add	x0, x26, x25, lsl #6
	mov	w9, #6
	strh	w9, [x0]
	str	wzr, [x0, #4]
	strb	w8, [x0, #8]
	stur	wzr, [x0, #9]
	str	wzr, [x0, #12]
	sub	x8, x29, #112
	movi	v0.2d, #0000000000000000
	stur	q0, [x0, #24]
	stur	q0, [x0, #40]
	str	xzr, [x0, #56]
	add	x25, x25, #1
	str	x8, [x0, #16]!
Ldcsctp_BB25_135:
	add	x1, x23, #4
	mov	x2, x21
	bl	_dcsctp_cause.error_causes.error_cause_fill
	b	Ldcsctp_BB25_150
Ldcsctp_BB25_136:
	ldrh	w9, [x23, #12]
	rev	w9, w9
	lsr	w9, w9, #16
	ldrh	w10, [x23, #14]
	rev	w10, w10
	lsr	w10, w10, #16
	ldr	w11, [x23, #16]
	rev	w11, w11
	add	x0, x26, x25, lsl #6
	ldur	d0, [x23, #4]
	rev32	v0.8b, v0.8b
	mov	w12, #2
Ldcsctp_BB25_137:
	strh	w12, [x0]
	str	wzr, [x0, #4]
	str	d0, [x0, #8]
	strh	w9, [x0, #16]
	strh	w10, [x0, #18]
	str	w11, [x0, #20]
	sub	x9, x29, #112
	movi	v0.2d, #0000000000000000
	stp	q0, q0, [x0, #32]
	str	x9, [x0, #24]!
	add	x25, x25, #1
	sub	x2, x8, #20
	add	x1, x23, #20
	b	Ldcsctp_BB25_149
Ldcsctp_BB25_138:
	mov	x20, x22
	ldr	w8, [x23, #12]
	rev	w28, w8
	lsr	w27, w28, #16
	ldur	d8, [x23, #4]
	cbz	w27, Ldcsctp_BB25_187
	lsl	x22, x27, #2
	mov	x0, x22
	mov	w1, #2
	bl	_rattle_alloc
	tbz	w0, #0, Ldcsctp_BB25_278
	mov	x21, x1
	cmp	w28, #64, lsl #12
	b.lo	Ldcsctp_BB25_142
	sub	x8, x21, x23
	sub	x8, x8, #16
	cmp	x8, #64
	b.hs	Ldcsctp_BB25_213
Ldcsctp_BB25_142:
	mov	x8, #0
Ldcsctp_BB25_143:
	sub	x9, x27, x8
	lsl	x10, x8, #2
	add	x8, x21, x10
	add	x10, x23, x10
	add	x10, x10, #16
Ldcsctp_BB25_144:
	ldr	w11, [x10], #4
	rev16	w11, w11
	str	w11, [x8], #4
	subs	x9, x9, #1
	b.ne	Ldcsctp_BB25_144
	b	Ldcsctp_BB25_188
Ldcsctp_BB25_145:
	add	x0, x26, x25, lsl #6
	mov	w8, #4
	b	Ldcsctp_BB25_148
Ldcsctp_BB25_146:
	ldr	w8, [x27]
	rev	w8, w8
	add	x9, x26, x25, lsl #6
	mov	w10, #7
	strh	w10, [x9]
	str	w8, [x9, #4]
	movi	v0.2d, #0000000000000000
	stur	q0, [x9, #8]
	stur	q0, [x9, #24]
	stur	q0, [x9, #40]
	str	xzr, [x9, #56]
	add	x25, x25, #1
	b	Ldcsctp_BB25_107
Ldcsctp_BB25_147:
	add	x0, x26, x25, lsl #6
	mov	w8, #5
Ldcsctp_BB25_148:
	strh	w8, [x0]
	str	wzr, [x0, #4]
	sub	x8, x29, #112
	movi	v0.2d, #0000000000000000
	stp	q0, q0, [x0, #16]
	str	q0, [x0, #48]
	str	x8, [x0, #8]!
	add	x25, x25, #1
	add	x1, x23, #4
	mov	x2, x21
Ldcsctp_BB25_149:
	bl	_dcsctp_tlv.parameter.parameters_fill
Ldcsctp_BB25_150:
	and	w8, w0, #0xff
	tbz	w8, #0, Ldcsctp_BB25_107
	b	Ldcsctp_BB25_278
Ldcsctp_BB25_151:
	sub	x10, x29, #96
	stur	x22, [x10, #-256]
	mov	x28, x9
	cbz	x21, Ldcsctp_BB25_195
	cmp	x8, #4
	b.lo	Ldcsctp_BB25_278
	mov	x0, x21
	mov	w1, #1
	bl	_rattle_alloc
	tbz	w0, #0, Ldcsctp_BB25_278
	mov	x22, x1
	b	Ldcsctp_BB25_196
Ldcsctp_BB25_155:
	add	x8, x26, x25, lsl #6
	mov	w9, #11
Ldcsctp_BB25_156:
	strh	w9, [x8]
	movi	v0.2d, #0000000000000000
	stur	q0, [x8, #4]
	add	x25, x25, #1
	stur	q0, [x8, #20]
	stur	q0, [x8, #36]
	str	q0, [x8, #48]
	b	Ldcsctp_BB25_107
Ldcsctp_BB25_157:
	sub	x8, x8, #8
	lsr	x20, x8, #2
	cbz	x20, Ldcsctp_BB25_206
	mov	x9, #-6148914691236517206
	eor	x9, x9, #0x8000000000000001
	cmp	x8, x9
	b.hi	Ldcsctp_BB25_278
	add	x8, x20, x20, lsl #1
	lsl	x0, x8, #2
	mov	w1, #4
	bl	_rattle_alloc
	tbz	w0, #0, Ldcsctp_BB25_278
	add	x8, x1, #4
	add	x9, x23, #11
	mov	x10, x20
Ldcsctp_BB25_161:
	ldurh	w11, [x9, #-3]
	rev	w11, w11
	lsr	w11, w11, #16
	ldurh	w12, [x9, #-1]
	rev	w12, w12
	lsr	w12, w12, #16
	sturh	wzr, [x8, #-4]
	sturh	w11, [x8, #-2]
	strh	w12, [x8]
	str	wzr, [x8, #4]
	add	x8, x8, #12
	add	x9, x9, #4
	subs	x10, x10, #1
	b.ne	Ldcsctp_BB25_161
	b	Ldcsctp_BB25_207
Ldcsctp_BB25_162:
	sub	x22, x29, #112
Ldcsctp_BB25_163:
	sub	x8, x22, x27
	cmp	x8, x21
	b.hs	Ldcsctp_BB25_169
	add	x8, x20, x26
	sub	x9, x8, #4
	cmp	x9, #8
	b.lo	Ldcsctp_BB25_166
	sub	x10, x22, x23
	sub	x10, x10, #4
	cmp	x10, #64
	b.hs	Ldcsctp_BB25_211
Ldcsctp_BB25_166:
	mov	x10, #0
Ldcsctp_BB25_167:
	sub	x8, x8, x10
	sub	x8, x8, #4
	add	x9, x23, x10
	add	x9, x9, #4
	add	x10, x22, x10
Ldcsctp_BB25_168:
	ldrb	w11, [x9], #1
	strb	w11, [x10], #1
	subs	x8, x8, #1
	b.ne	Ldcsctp_BB25_168
	b	Ldcsctp_BB25_170
Ldcsctp_BB25_169:
	add	x1, x23, #4
	mov	x0, x22
	mov	x2, x21
	bl	_memmove
Ldcsctp_BB25_170:
	sub	x8, x29, #88
	ldur	x26, [x8, #-256]
	add	x9, x26, x25, lsl #6
	mov	w8, #17
	strh	w8, [x9]
	str	wzr, [x9, #4]
	strb	w28, [x9, #8]
	sub	x8, x29, #108
	ldur	w8, [x8, #-256]
	strb	w8, [x9, #9]
	stur	wzr, [x9, #10]
	strh	wzr, [x9, #14]
	stp	x22, x21, [x9, #16]
	stp	x21, xzr, [x9, #32]
	add	x25, x25, #1
	stp	xzr, xzr, [x9, #48]
	b	Ldcsctp_BB25_106
Ldcsctp_BB25_171:
	sub	x22, x29, #112
Ldcsctp_BB25_172:
	add	x8, x23, #16
	sub	x8, x22, x8
	cmp	x8, x21
	b.hs	Ldcsctp_BB25_103
	cmp	x21, #8
	b.lo	Ldcsctp_BB25_175
	sub	x8, x22, x23
	sub	x8, x8, #16
	cmp	x8, #64
	b.hs	Ldcsctp_BB25_217
Ldcsctp_BB25_175:
	mov	x8, #0
Ldcsctp_BB25_176:
	sub	x9, x29, #120
	ldur	x9, [x9, #-256]
	add	x9, x20, x9
	sub	x9, x9, x8
	sub	x9, x9, #16
	add	x10, x23, x8
	add	x10, x10, #16
	add	x8, x22, x8
Ldcsctp_BB25_177:
	ldrb	w11, [x10], #1
	strb	w11, [x8], #1
	subs	x9, x9, #1
	b.ne	Ldcsctp_BB25_177
	b	Ldcsctp_BB25_104
Ldcsctp_BB25_178:
	sub	x22, x29, #112
Ldcsctp_BB25_179:
	add	x8, x23, #20
	sub	x8, x22, x8
	cmp	x8, x21
	b.hs	Ldcsctp_BB25_185
	cmp	x21, #8
	b.lo	Ldcsctp_BB25_182
	sub	x8, x22, x23
	sub	x8, x8, #20
	cmp	x8, #64
	b.hs	Ldcsctp_BB25_219
Ldcsctp_BB25_182:
	mov	x8, #0
Ldcsctp_BB25_183:
	sub	x9, x29, #120
	ldur	x9, [x9, #-256]
	add	x9, x20, x9
	sub	x9, x9, x8
	sub	x9, x9, #20
	add	x10, x23, x8
	add	x10, x10, #20
	add	x8, x22, x8
Ldcsctp_BB25_184:
	ldrb	w11, [x10], #1
	strb	w11, [x8], #1
	subs	x9, x9, #1
	b.ne	Ldcsctp_BB25_184
	b	Ldcsctp_BB25_186
Ldcsctp_BB25_185:
	add	x1, x23, #20
	mov	x0, x22
	mov	x2, x21
	bl	_memmove
Ldcsctp_BB25_186:
	sub	x8, x29, #88
	ldur	x26, [x8, #-256]
	add	x8, x26, x25, lsl #6
	mov	w9, #13
	strh	w9, [x8]
	str	wzr, [x8, #4]
	lsl	w9, w28, #30
	sub	x10, x29, #136
	ldur	w10, [x10, #-256]
	rev	w10, w10
	sub	x11, x29, #128
	ldur	w11, [x11, #-256]
	rev16	w11, w11
	sub	x12, x29, #132
	ldur	w12, [x12, #-256]
	rev	w12, w12
	stp	x22, x21, [x8, #8]
	str	x21, [x8, #24]
	and	w9, w27, w9, asr #31
	ubfx	w13, w28, #2, #1
	str	w12, [x8, #32]
	sub	x12, x29, #124
	ldur	w12, [x12, #-256]
	stp	w12, w9, [x8, #36]
	sub	x12, x29, #108
	ldur	w12, [x12, #-256]
	lsr	w12, w12, #1
	and	w14, w28, #0x1
	ubfx	w9, w28, #3, #1
	strh	w13, [x8, #44]
	strh	w11, [x8, #46]
	strh	wzr, [x8, #48]
	strb	w12, [x8, #50]
	strb	w14, [x8, #51]
	stp	wzr, w10, [x8, #52]
	strb	w9, [x8, #60]
	b	Ldcsctp_BB25_105
Ldcsctp_BB25_187:
	mov	x22, #0
	sub	x21, x29, #112
Ldcsctp_BB25_188:
	ands	w28, w28, #0xffff
	b.eq	Ldcsctp_BB25_204
	lsl	x0, x28, #2
	mov	w1, #4
	bl	_rattle_alloc
	tbz	w0, #0, Ldcsctp_BB25_276
	cmp	w28, #4
	b.lo	Ldcsctp_BB25_192
	add	x8, x22, x23
	sub	x8, x1, x8
	sub	x8, x8, #16
	cmp	x8, #64
	b.hs	Ldcsctp_BB25_215
Ldcsctp_BB25_192:
	mov	x8, #0
Ldcsctp_BB25_193:
	sub	x9, x28, x8
	lsl	x10, x8, #2
	add	x8, x1, x10
	add	x11, x23, x22
	add	x10, x11, x10
	add	x10, x10, #16
Ldcsctp_BB25_194:
	ldr	w11, [x10], #4
	rev	w11, w11
	str	w11, [x8], #4
	subs	x9, x9, #1
	b.ne	Ldcsctp_BB25_194
	b	Ldcsctp_BB25_205
Ldcsctp_BB25_195:
	sub	x22, x29, #112
Ldcsctp_BB25_196:
	sub	x8, x22, x27
	cmp	x8, x21
	b.hs	Ldcsctp_BB25_202
	add	x8, x20, x28
	sub	x9, x8, #4
	cmp	x9, #8
	b.lo	Ldcsctp_BB25_199
	sub	x10, x22, x23
	sub	x10, x10, #4
	cmp	x10, #64
	b.hs	Ldcsctp_BB25_221
Ldcsctp_BB25_199:
	mov	x10, #0
Ldcsctp_BB25_200:
	sub	x8, x8, x10
	sub	x8, x8, #4
	add	x9, x23, x10
	add	x9, x9, #4
	add	x10, x22, x10
Ldcsctp_BB25_201:
	ldrb	w11, [x9], #1
	strb	w11, [x10], #1
	subs	x8, x8, #1
	b.ne	Ldcsctp_BB25_201
	b	Ldcsctp_BB25_203
Ldcsctp_BB25_202:
	add	x1, x23, #4
	mov	x0, x22
	mov	x2, x21
	bl	_memmove
Ldcsctp_BB25_203:
	sub	x8, x29, #88
	ldur	x26, [x8, #-256]
	add	x8, x26, x25, lsl #6
	mov	w9, #10
	strh	w9, [x8]
	str	wzr, [x8, #4]
	stp	x22, x21, [x8, #8]
	str	x21, [x8, #24]
	movi	v0.2d, #0000000000000000
	add	x25, x25, #1
	stp	q0, q0, [x8, #32]
	b	Ldcsctp_BB25_106
Ldcsctp_BB25_204:
	mov	x28, #0
	sub	x1, x29, #112
Ldcsctp_BB25_205:
	sub	x8, x29, #88
	ldur	x26, [x8, #-256]
	add	x8, x26, x25, lsl #6
	mov	w9, #3
	strh	w9, [x8]
	str	wzr, [x8, #4]
	rev32	v0.8b, v8.8b
	str	d0, [x8, #8]
	stp	x21, x27, [x8, #16]
	stp	x27, x1, [x8, #32]
	add	x25, x25, #1
	stp	x28, x28, [x8, #48]
	mov	x22, x20
	b	Ldcsctp_BB25_107
Ldcsctp_BB25_206:
	sub	x1, x29, #112
Ldcsctp_BB25_207:
	ldr	w8, [x27]
	sub	x9, x29, #88
	ldur	x26, [x9, #-256]
	add	x9, x26, x25, lsl #6
	mov	w10, #15
	b	Ldcsctp_BB25_210
Ldcsctp_BB25_208:
	sub	x1, x29, #112
Ldcsctp_BB25_209:
	ldr	w8, [x27]
	sub	x9, x29, #88
	ldur	x26, [x9, #-256]
	add	x9, x26, x25, lsl #6
	mov	w10, #16
Ldcsctp_BB25_210:
	strh	w10, [x9]
	rev	w8, w8
	stp	wzr, w8, [x9, #4]
	str	wzr, [x9, #12]
	stp	x1, x20, [x9, #16]
	stp	x20, xzr, [x9, #32]
	stp	xzr, xzr, [x9, #48]
	add	x25, x25, #1
	b	Ldcsctp_BB25_107
Ldcsctp_BB25_211:
	cmp	x9, #64
	b.hs	Ldcsctp_BB25_223
	mov	x10, #0
	b	Ldcsctp_BB25_227
Ldcsctp_BB25_213:
	cmp	w28, #256, lsl #12
	b.hs	Ldcsctp_BB25_230
	mov	x8, #0
	b	Ldcsctp_BB25_234
Ldcsctp_BB25_215:
	cmp	w28, #16
	b.hs	Ldcsctp_BB25_237
	mov	x8, #0
	b	Ldcsctp_BB25_241
Ldcsctp_BB25_217:
	cmp	x21, #64
	b.hs	Ldcsctp_BB25_244
	mov	x8, #0
	b	Ldcsctp_BB25_248
Ldcsctp_BB25_219:
	cmp	x21, #64
	b.hs	Ldcsctp_BB25_251
	mov	x8, #0
	b	Ldcsctp_BB25_255
Ldcsctp_BB25_221:
	cmp	x9, #64
	b.hs	Ldcsctp_BB25_258
	mov	x10, #0
	b	Ldcsctp_BB25_262
Ldcsctp_BB25_223:
	and	x11, x9, #0x38
	and	x10, x9, #0xffffffffffffffc0
	add	x12, x22, #32
	add	x13, x23, #36
	and	x14, x9, #0xffffffffffffffc0
Ldcsctp_BB25_224:
	ldp	q0, q1, [x13, #-32]
	ldp	q2, q3, [x13], #64
	stp	q0, q1, [x12, #-32]
	stp	q2, q3, [x12], #64
	subs	x14, x14, #64
	b.ne	Ldcsctp_BB25_224
	cmp	x9, x10
	b.eq	Ldcsctp_BB25_170
	cbz	x11, Ldcsctp_BB25_167
Ldcsctp_BB25_227:
	mov	x13, x10
	and	x10, x9, #0xfffffffffffffff8
	sub	x11, x13, x10
	add	x12, x23, x13
	add	x12, x12, #4
	add	x13, x22, x13
Ldcsctp_BB25_228:
	ldr	d0, [x12], #8
	str	d0, [x13], #8
	adds	x11, x11, #8
	b.ne	Ldcsctp_BB25_228
	cmp	x9, x10
	b.eq	Ldcsctp_BB25_170
	b	Ldcsctp_BB25_167
Ldcsctp_BB25_230:
	and	x9, x27, #0xc
	and	x8, x27, #0xfff0
	add	x10, x23, #64
	add	x11, x21, #32
	and	x12, x27, #0xfff0
Ldcsctp_BB25_231:
	ldp	q0, q1, [x10, #-48]
	rev32	v0.16b, v0.16b
	rev32	v1.16b, v1.16b
	ldp	q2, q3, [x10, #-16]
	rev32	v2.16b, v2.16b
	rev32	v3.16b, v3.16b
	rev32	v0.8h, v0.8h
	rev32	v1.8h, v1.8h
	rev32	v2.8h, v2.8h
	rev32	v3.8h, v3.8h
	stp	q0, q1, [x11, #-32]
	stp	q2, q3, [x11], #64
	add	x10, x10, #64
	subs	x12, x12, #16
	b.ne	Ldcsctp_BB25_231
	cmp	x8, x27
	b.eq	Ldcsctp_BB25_188
	cbz	x9, Ldcsctp_BB25_143
Ldcsctp_BB25_234:
	mov	x10, x8
	and	x8, x27, #0xfffc
	sub	x9, x10, x8
	lsl	x11, x10, #2
	add	x10, x21, x11
	add	x11, x23, x11
	add	x11, x11, #16
Ldcsctp_BB25_235:
	ldr	q0, [x11], #16
	rev32	v0.16b, v0.16b
	rev32	v0.8h, v0.8h
	str	q0, [x10], #16
	adds	x9, x9, #4
	b.ne	Ldcsctp_BB25_235
	cmp	x8, x27
	b.eq	Ldcsctp_BB25_188
	b	Ldcsctp_BB25_143
Ldcsctp_BB25_237:
	and	x9, x28, #0xc
	and	x8, x28, #0xfff0
	add	x10, x23, x22
	add	x10, x10, #64
	add	x11, x1, #32
	and	x12, x28, #0xfff0
Ldcsctp_BB25_238:
	ldp	q0, q1, [x10, #-48]
	rev32	v0.16b, v0.16b
	rev32	v1.16b, v1.16b
	ldp	q2, q3, [x10, #-16]
	rev32	v2.16b, v2.16b
	rev32	v3.16b, v3.16b
	stp	q0, q1, [x11, #-32]
	stp	q2, q3, [x11], #64
	add	x10, x10, #64
	subs	x12, x12, #16
	b.ne	Ldcsctp_BB25_238
	cmp	x8, x28
	b.eq	Ldcsctp_BB25_205
	cbz	x9, Ldcsctp_BB25_193
Ldcsctp_BB25_241:
	mov	x10, x8
	and	x8, x28, #0xfffc
	sub	x9, x10, x8
	lsl	x11, x10, #2
	add	x10, x1, x11
	add	x12, x23, x22
	add	x11, x12, x11
	add	x11, x11, #16
Ldcsctp_BB25_242:
	ldr	q0, [x11], #16
	rev32	v0.16b, v0.16b
	str	q0, [x10], #16
	adds	x9, x9, #4
	b.ne	Ldcsctp_BB25_242
	cmp	x8, x28
	b.eq	Ldcsctp_BB25_205
	b	Ldcsctp_BB25_193
Ldcsctp_BB25_244:
	and	x9, x21, #0x38
	and	x8, x21, #0xffffffffffffffc0
	add	x10, x22, #32
	add	x11, x23, #32
	and	x12, x21, #0xffffffffffffffc0
Ldcsctp_BB25_245:
	ldp	q0, q1, [x11, #-16]
	ldp	q2, q3, [x11, #16]
	stp	q0, q1, [x10, #-32]
	stp	q2, q3, [x10], #64
	add	x11, x11, #64
	subs	x12, x12, #64
	b.ne	Ldcsctp_BB25_245
	cmp	x21, x8
	b.eq	Ldcsctp_BB25_104
	cbz	x9, Ldcsctp_BB25_176
Ldcsctp_BB25_248:
	sub	x9, x29, #120
	ldur	x11, [x9, #-256]
	and	x9, x11, #0x7
	add	x12, x8, #16
	add	x10, x22, x8
	sub	x8, x21, x9
	add	x13, x12, x9
	sub	x11, x13, x11
	sub	x11, x11, x20
	add	x12, x12, x23
Ldcsctp_BB25_249:
	ldr	d0, [x12], #8
	str	d0, [x10], #8
	adds	x11, x11, #8
	b.ne	Ldcsctp_BB25_249
	cbnz	x9, Ldcsctp_BB25_176
	b	Ldcsctp_BB25_104
Ldcsctp_BB25_251:
	and	x9, x21, #0x38
	and	x8, x21, #0xffffffffffffffc0
	add	x10, x22, #32
	add	x11, x23, #36
	and	x12, x21, #0xffffffffffffffc0
Ldcsctp_BB25_252:
	ldp	q0, q1, [x11, #-16]
	ldp	q2, q3, [x11, #16]
	stp	q0, q1, [x10, #-32]
	stp	q2, q3, [x10], #64
	add	x11, x11, #64
	subs	x12, x12, #64
	b.ne	Ldcsctp_BB25_252
	cmp	x21, x8
	b.eq	Ldcsctp_BB25_186
	cbz	x9, Ldcsctp_BB25_183
Ldcsctp_BB25_255:
	mov	x11, x8
	and	x8, x21, #0xfffffffffffffff8
	sub	x9, x11, x8
	add	x10, x23, x11
	add	x10, x10, #20
	add	x11, x22, x11
Ldcsctp_BB25_256:
	ldr	d0, [x10], #8
	str	d0, [x11], #8
	adds	x9, x9, #8
	b.ne	Ldcsctp_BB25_256
	cmp	x21, x8
	b.eq	Ldcsctp_BB25_186
	b	Ldcsctp_BB25_183
Ldcsctp_BB25_258:
	and	x11, x9, #0x38
	and	x10, x9, #0xffffffffffffffc0
	add	x12, x22, #32
	add	x13, x23, #36
	and	x14, x9, #0xffffffffffffffc0
Ldcsctp_BB25_259:
	ldp	q0, q1, [x13, #-32]
	ldp	q2, q3, [x13], #64
	stp	q0, q1, [x12, #-32]
	stp	q2, q3, [x12], #64
	subs	x14, x14, #64
	b.ne	Ldcsctp_BB25_259
	cmp	x9, x10
	b.eq	Ldcsctp_BB25_203
	cbz	x11, Ldcsctp_BB25_200
Ldcsctp_BB25_262:
	mov	x13, x10
	and	x10, x9, #0xfffffffffffffff8
	sub	x11, x13, x10
	add	x12, x23, x13
	add	x12, x12, #4
	add	x13, x22, x13
Ldcsctp_BB25_263:
	ldr	d0, [x12], #8
	str	d0, [x13], #8
	adds	x11, x11, #8
	b.ne	Ldcsctp_BB25_263
	cmp	x9, x10
	b.eq	Ldcsctp_BB25_203
	b	Ldcsctp_BB25_200
Ldcsctp_BB25_265:
	ldur	q0, [x29, #-208]
	sub	x8, x29, #80
	stur	q0, [x8, #-256]
	ldur	x8, [x29, #-192]
	sub	x9, x29, #64
	stur	x8, [x9, #-256]
	sub	x0, x29, #336
	bl	_std_alloc.vec.Vec.drop.5e412c9b2b6de7d3
	mov	x0, x19
	bl	_rattle_dealloc
	sub	x8, x29, #8
	ldur	x19, [x8, #-256]
	ldp	x21, x20, [x29, #-256]
	cbz	x21, Ldcsctp_BB25_273
	mov	x22, #0
Ldcsctp_BB25_267:
	sub	x23, x21, x22
	add	x1, x19, x22
	sub	x2, x21, x22
	mov	w0, #1
	bl	_rattle_write
	tbnz	x0, #63, Ldcsctp_BB25_271
	cmp	x0, x23
	csel	x8, x0, x23, lo
	cbz	x8, Ldcsctp_BB25_272
	add	x22, x8, x22
	cmp	x22, x21
	b.lo	Ldcsctp_BB25_267
	mov	w21, #0
	b	Ldcsctp_BB25_273
Ldcsctp_BB25_271:
	sub	x0, x29, #208
	bl	_std_io.io.error.last_error
Ldcsctp_BB25_272:
	mov	w21, #2
Ldcsctp_BB25_273:
	cbz	x20, Ldcsctp_BB25_275
	mov	x0, x19
	bl	_rattle_dealloc
Ldcsctp_BB25_275:
	mov	x0, x21
	b	Ldcsctp_BB25_43
Ldcsctp_BB25_276:
	cbz	w27, Ldcsctp_BB25_278
	mov	x0, x21
	bl	_rattle_dealloc
Ldcsctp_BB25_278:
	cbz	x25, Ldcsctp_BB25_296
	sub	x8, x29, #88
	ldur	x8, [x8, #-256]
	add	x20, x8, #32
	b	Ldcsctp_BB25_283
Ldcsctp_BB25_280:
	cbz	x10, Ldcsctp_BB25_282
Ldcsctp_BB25_281:
	bl	_rattle_dealloc
Ldcsctp_BB25_282:
	subs	x25, x25, #1
	b.eq	Ldcsctp_BB25_296
Ldcsctp_BB25_283:
	ldurb	w11, [x20, #-32]
	ldp	x8, x0, [x20, #-24]
	ldp	x9, x10, [x20, #-8]
	ldr	x21, [x20, #8]
	ldr	x22, [x20, #24]
	add	x20, x20, #64
Ldcsctp_loh370:
	adrp	x12, Ldcsctp_JTI25_2@PAGE
Ldcsctp_loh371:
	add	x12, x12, Ldcsctp_JTI25_2@PAGEOFF
	adr	x13, Ldcsctp_BB25_280
	ldrb	w14, [x12, x11]
	add	x13, x13, x14, lsl #2
	br	x13
Ldcsctp_BB25_284:
	cbz	x9, Ldcsctp_BB25_282
	mov	x0, x8
	b	Ldcsctp_BB25_281
Ldcsctp_BB25_286:
	stp	x8, x0, [x29, #-232]
	stur	x9, [x29, #-216]
	b	Ldcsctp_BB25_288
Ldcsctp_BB25_287:
	stp	x9, x10, [x29, #-232]
	stur	x21, [x29, #-216]
Ldcsctp_BB25_288:
	sub	x0, x29, #232
	bl	_std_alloc.vec.Vec.drop.765a829dcb308622
	b	Ldcsctp_BB25_282
Ldcsctp_BB25_289:
	stp	x0, x9, [x29, #-232]
	stur	x10, [x29, #-216]
	b	Ldcsctp_BB25_291
Ldcsctp_BB25_290:
	stp	x8, x0, [x29, #-232]
	stur	x9, [x29, #-216]
Ldcsctp_BB25_291:
	sub	x0, x29, #232
	bl	_std_alloc.vec.Vec.drop.694f3e952ffd1e0b
	b	Ldcsctp_BB25_282
Ldcsctp_BB25_292:
	cbz	x10, Ldcsctp_BB25_294
	bl	_rattle_dealloc
Ldcsctp_BB25_294:
	cbz	x22, Ldcsctp_BB25_282
	mov	x0, x21
	b	Ldcsctp_BB25_281
Ldcsctp_BB25_296:
	sub	x8, x29, #104
	ldur	x8, [x8, #-256]
	cbz	x8, Ldcsctp_BB25_298
	sub	x8, x29, #88
	ldur	x0, [x8, #-256]
	bl	_rattle_dealloc
Ldcsctp_BB25_298:
	mov	x0, x19
	b	Ldcsctp_BB25_34
	.loh AdrpLdr	Ldcsctp_loh348, Ldcsctp_loh349
	.loh AdrpAdrp	Ldcsctp_loh346, Ldcsctp_loh348
	.loh AdrpLdr	Ldcsctp_loh346, Ldcsctp_loh347
	.loh AdrpAdrp	Ldcsctp_loh344, Ldcsctp_loh346
	.loh AdrpLdr	Ldcsctp_loh344, Ldcsctp_loh345
	.loh AdrpAdrp	Ldcsctp_loh342, Ldcsctp_loh344
	.loh AdrpLdr	Ldcsctp_loh342, Ldcsctp_loh343
	.loh AdrpAdrp	Ldcsctp_loh340, Ldcsctp_loh342
	.loh AdrpLdr	Ldcsctp_loh340, Ldcsctp_loh341
	.loh AdrpAdrp	Ldcsctp_loh338, Ldcsctp_loh340
	.loh AdrpLdr	Ldcsctp_loh338, Ldcsctp_loh339
	.loh AdrpAdrp	Ldcsctp_loh336, Ldcsctp_loh338
	.loh AdrpLdr	Ldcsctp_loh336, Ldcsctp_loh337
	.loh AdrpAdrp	Ldcsctp_loh334, Ldcsctp_loh336
	.loh AdrpLdr	Ldcsctp_loh334, Ldcsctp_loh335
	.loh AdrpAdrp	Ldcsctp_loh332, Ldcsctp_loh334
	.loh AdrpLdr	Ldcsctp_loh332, Ldcsctp_loh333
	.loh AdrpAdd	Ldcsctp_loh350, Ldcsctp_loh351
	.loh AdrpAdd	Ldcsctp_loh352, Ldcsctp_loh353
	.loh AdrpAdd	Ldcsctp_loh354, Ldcsctp_loh355
	.loh AdrpAdd	Ldcsctp_loh356, Ldcsctp_loh357
	.loh AdrpAdd	Ldcsctp_loh358, Ldcsctp_loh359
	.loh AdrpAdd	Ldcsctp_loh360, Ldcsctp_loh361
	.loh AdrpAdd	Ldcsctp_loh362, Ldcsctp_loh363
	.loh AdrpAdd	Ldcsctp_loh366, Ldcsctp_loh367
	.loh AdrpAdd	Ldcsctp_loh364, Ldcsctp_loh365
	.loh AdrpAdd	Ldcsctp_loh368, Ldcsctp_loh369
	.loh AdrpAdd	Ldcsctp_loh370, Ldcsctp_loh371
	.cfi_endproc
	.section	__TEXT,__const
Ldcsctp_JTI25_0:
	.byte	(Ldcsctp_BB25_83-Ldcsctp_BB25_67)>>2
	.byte	(Ldcsctp_BB25_78-Ldcsctp_BB25_67)>>2
	.byte	(Ldcsctp_BB25_78-Ldcsctp_BB25_67)>>2
	.byte	(Ldcsctp_BB25_84-Ldcsctp_BB25_67)>>2
	.byte	(Ldcsctp_BB25_73-Ldcsctp_BB25_67)>>2
	.byte	(Ldcsctp_BB25_73-Ldcsctp_BB25_67)>>2
	.byte	(Ldcsctp_BB25_87-Ldcsctp_BB25_67)>>2
	.byte	(Ldcsctp_BB25_81-Ldcsctp_BB25_67)>>2
	.byte	(Ldcsctp_BB25_67-Ldcsctp_BB25_67)>>2
	.byte	(Ldcsctp_BB25_86-Ldcsctp_BB25_67)>>2
	.byte	(Ldcsctp_BB25_89-Ldcsctp_BB25_67)>>2
	.byte	(Ldcsctp_BB25_67-Ldcsctp_BB25_67)>>2
	.byte	(Ldcsctp_BB25_68-Ldcsctp_BB25_67)>>2
	.byte	(Ldcsctp_BB25_68-Ldcsctp_BB25_67)>>2
	.byte	(Ldcsctp_BB25_67-Ldcsctp_BB25_67)>>2
	.byte	(Ldcsctp_BB25_68-Ldcsctp_BB25_67)>>2
	.byte	(Ldcsctp_BB25_68-Ldcsctp_BB25_67)>>2
	.byte	(Ldcsctp_BB25_68-Ldcsctp_BB25_67)>>2
	.byte	(Ldcsctp_BB25_68-Ldcsctp_BB25_67)>>2
	.byte	(Ldcsctp_BB25_68-Ldcsctp_BB25_67)>>2
	.byte	(Ldcsctp_BB25_68-Ldcsctp_BB25_67)>>2
	.byte	(Ldcsctp_BB25_68-Ldcsctp_BB25_67)>>2
	.byte	(Ldcsctp_BB25_68-Ldcsctp_BB25_67)>>2
	.byte	(Ldcsctp_BB25_68-Ldcsctp_BB25_67)>>2
	.byte	(Ldcsctp_BB25_68-Ldcsctp_BB25_67)>>2
	.byte	(Ldcsctp_BB25_68-Ldcsctp_BB25_67)>>2
	.byte	(Ldcsctp_BB25_68-Ldcsctp_BB25_67)>>2
	.byte	(Ldcsctp_BB25_68-Ldcsctp_BB25_67)>>2
	.byte	(Ldcsctp_BB25_68-Ldcsctp_BB25_67)>>2
	.byte	(Ldcsctp_BB25_68-Ldcsctp_BB25_67)>>2
	.byte	(Ldcsctp_BB25_68-Ldcsctp_BB25_67)>>2
	.byte	(Ldcsctp_BB25_68-Ldcsctp_BB25_67)>>2
	.byte	(Ldcsctp_BB25_68-Ldcsctp_BB25_67)>>2
	.byte	(Ldcsctp_BB25_68-Ldcsctp_BB25_67)>>2
	.byte	(Ldcsctp_BB25_68-Ldcsctp_BB25_67)>>2
	.byte	(Ldcsctp_BB25_68-Ldcsctp_BB25_67)>>2
	.byte	(Ldcsctp_BB25_68-Ldcsctp_BB25_67)>>2
	.byte	(Ldcsctp_BB25_68-Ldcsctp_BB25_67)>>2
	.byte	(Ldcsctp_BB25_68-Ldcsctp_BB25_67)>>2
	.byte	(Ldcsctp_BB25_68-Ldcsctp_BB25_67)>>2
	.byte	(Ldcsctp_BB25_68-Ldcsctp_BB25_67)>>2
	.byte	(Ldcsctp_BB25_68-Ldcsctp_BB25_67)>>2
	.byte	(Ldcsctp_BB25_68-Ldcsctp_BB25_67)>>2
	.byte	(Ldcsctp_BB25_68-Ldcsctp_BB25_67)>>2
	.byte	(Ldcsctp_BB25_68-Ldcsctp_BB25_67)>>2
	.byte	(Ldcsctp_BB25_68-Ldcsctp_BB25_67)>>2
	.byte	(Ldcsctp_BB25_68-Ldcsctp_BB25_67)>>2
	.byte	(Ldcsctp_BB25_68-Ldcsctp_BB25_67)>>2
	.byte	(Ldcsctp_BB25_68-Ldcsctp_BB25_67)>>2
	.byte	(Ldcsctp_BB25_68-Ldcsctp_BB25_67)>>2
	.byte	(Ldcsctp_BB25_68-Ldcsctp_BB25_67)>>2
	.byte	(Ldcsctp_BB25_68-Ldcsctp_BB25_67)>>2
	.byte	(Ldcsctp_BB25_68-Ldcsctp_BB25_67)>>2
	.byte	(Ldcsctp_BB25_68-Ldcsctp_BB25_67)>>2
	.byte	(Ldcsctp_BB25_68-Ldcsctp_BB25_67)>>2
	.byte	(Ldcsctp_BB25_68-Ldcsctp_BB25_67)>>2
	.byte	(Ldcsctp_BB25_68-Ldcsctp_BB25_67)>>2
	.byte	(Ldcsctp_BB25_68-Ldcsctp_BB25_67)>>2
	.byte	(Ldcsctp_BB25_68-Ldcsctp_BB25_67)>>2
	.byte	(Ldcsctp_BB25_68-Ldcsctp_BB25_67)>>2
	.byte	(Ldcsctp_BB25_68-Ldcsctp_BB25_67)>>2
	.byte	(Ldcsctp_BB25_68-Ldcsctp_BB25_67)>>2
	.byte	(Ldcsctp_BB25_68-Ldcsctp_BB25_67)>>2
	.byte	(Ldcsctp_BB25_68-Ldcsctp_BB25_67)>>2
	.byte	(Ldcsctp_BB25_82-Ldcsctp_BB25_67)>>2
	.byte	(Ldcsctp_BB25_68-Ldcsctp_BB25_67)>>2
	.byte	(Ldcsctp_BB25_68-Ldcsctp_BB25_67)>>2
	.byte	(Ldcsctp_BB25_68-Ldcsctp_BB25_67)>>2
	.byte	(Ldcsctp_BB25_68-Ldcsctp_BB25_67)>>2
	.byte	(Ldcsctp_BB25_68-Ldcsctp_BB25_67)>>2
	.byte	(Ldcsctp_BB25_68-Ldcsctp_BB25_67)>>2
	.byte	(Ldcsctp_BB25_68-Ldcsctp_BB25_67)>>2
	.byte	(Ldcsctp_BB25_68-Ldcsctp_BB25_67)>>2
	.byte	(Ldcsctp_BB25_68-Ldcsctp_BB25_67)>>2
	.byte	(Ldcsctp_BB25_68-Ldcsctp_BB25_67)>>2
	.byte	(Ldcsctp_BB25_68-Ldcsctp_BB25_67)>>2
	.byte	(Ldcsctp_BB25_68-Ldcsctp_BB25_67)>>2
	.byte	(Ldcsctp_BB25_68-Ldcsctp_BB25_67)>>2
	.byte	(Ldcsctp_BB25_68-Ldcsctp_BB25_67)>>2
	.byte	(Ldcsctp_BB25_68-Ldcsctp_BB25_67)>>2
	.byte	(Ldcsctp_BB25_68-Ldcsctp_BB25_67)>>2
	.byte	(Ldcsctp_BB25_68-Ldcsctp_BB25_67)>>2
	.byte	(Ldcsctp_BB25_68-Ldcsctp_BB25_67)>>2
	.byte	(Ldcsctp_BB25_68-Ldcsctp_BB25_67)>>2
	.byte	(Ldcsctp_BB25_68-Ldcsctp_BB25_67)>>2
	.byte	(Ldcsctp_BB25_68-Ldcsctp_BB25_67)>>2
	.byte	(Ldcsctp_BB25_68-Ldcsctp_BB25_67)>>2
	.byte	(Ldcsctp_BB25_68-Ldcsctp_BB25_67)>>2
	.byte	(Ldcsctp_BB25_68-Ldcsctp_BB25_67)>>2
	.byte	(Ldcsctp_BB25_68-Ldcsctp_BB25_67)>>2
	.byte	(Ldcsctp_BB25_68-Ldcsctp_BB25_67)>>2
	.byte	(Ldcsctp_BB25_68-Ldcsctp_BB25_67)>>2
	.byte	(Ldcsctp_BB25_68-Ldcsctp_BB25_67)>>2
	.byte	(Ldcsctp_BB25_68-Ldcsctp_BB25_67)>>2
	.byte	(Ldcsctp_BB25_68-Ldcsctp_BB25_67)>>2
	.byte	(Ldcsctp_BB25_68-Ldcsctp_BB25_67)>>2
	.byte	(Ldcsctp_BB25_68-Ldcsctp_BB25_67)>>2
	.byte	(Ldcsctp_BB25_68-Ldcsctp_BB25_67)>>2
	.byte	(Ldcsctp_BB25_68-Ldcsctp_BB25_67)>>2
	.byte	(Ldcsctp_BB25_68-Ldcsctp_BB25_67)>>2
	.byte	(Ldcsctp_BB25_68-Ldcsctp_BB25_67)>>2
	.byte	(Ldcsctp_BB25_68-Ldcsctp_BB25_67)>>2
	.byte	(Ldcsctp_BB25_68-Ldcsctp_BB25_67)>>2
	.byte	(Ldcsctp_BB25_68-Ldcsctp_BB25_67)>>2
	.byte	(Ldcsctp_BB25_68-Ldcsctp_BB25_67)>>2
	.byte	(Ldcsctp_BB25_68-Ldcsctp_BB25_67)>>2
	.byte	(Ldcsctp_BB25_68-Ldcsctp_BB25_67)>>2
	.byte	(Ldcsctp_BB25_68-Ldcsctp_BB25_67)>>2
	.byte	(Ldcsctp_BB25_68-Ldcsctp_BB25_67)>>2
	.byte	(Ldcsctp_BB25_68-Ldcsctp_BB25_67)>>2
	.byte	(Ldcsctp_BB25_68-Ldcsctp_BB25_67)>>2
	.byte	(Ldcsctp_BB25_68-Ldcsctp_BB25_67)>>2
	.byte	(Ldcsctp_BB25_68-Ldcsctp_BB25_67)>>2
	.byte	(Ldcsctp_BB25_68-Ldcsctp_BB25_67)>>2
	.byte	(Ldcsctp_BB25_68-Ldcsctp_BB25_67)>>2
	.byte	(Ldcsctp_BB25_68-Ldcsctp_BB25_67)>>2
	.byte	(Ldcsctp_BB25_68-Ldcsctp_BB25_67)>>2
	.byte	(Ldcsctp_BB25_68-Ldcsctp_BB25_67)>>2
	.byte	(Ldcsctp_BB25_68-Ldcsctp_BB25_67)>>2
	.byte	(Ldcsctp_BB25_68-Ldcsctp_BB25_67)>>2
	.byte	(Ldcsctp_BB25_68-Ldcsctp_BB25_67)>>2
	.byte	(Ldcsctp_BB25_68-Ldcsctp_BB25_67)>>2
	.byte	(Ldcsctp_BB25_68-Ldcsctp_BB25_67)>>2
	.byte	(Ldcsctp_BB25_68-Ldcsctp_BB25_67)>>2
	.byte	(Ldcsctp_BB25_68-Ldcsctp_BB25_67)>>2
	.byte	(Ldcsctp_BB25_68-Ldcsctp_BB25_67)>>2
	.byte	(Ldcsctp_BB25_68-Ldcsctp_BB25_67)>>2
	.byte	(Ldcsctp_BB25_68-Ldcsctp_BB25_67)>>2
	.byte	(Ldcsctp_BB25_68-Ldcsctp_BB25_67)>>2
	.byte	(Ldcsctp_BB25_68-Ldcsctp_BB25_67)>>2
	.byte	(Ldcsctp_BB25_73-Ldcsctp_BB25_67)>>2
	.p2align	1, 0x0
Ldcsctp_JTI25_1:
	.short	(Ldcsctp_BB25_110-Ldcsctp_BB25_110)>>2
	.short	(Ldcsctp_BB25_128-Ldcsctp_BB25_110)>>2
	.short	(Ldcsctp_BB25_136-Ldcsctp_BB25_110)>>2
	.short	(Ldcsctp_BB25_138-Ldcsctp_BB25_110)>>2
	.short	(Ldcsctp_BB25_145-Ldcsctp_BB25_110)>>2
	.short	(Ldcsctp_BB25_147-Ldcsctp_BB25_110)>>2
	.short	(Ldcsctp_BB25_134-Ldcsctp_BB25_110)>>2
	.short	(Ldcsctp_BB25_146-Ldcsctp_BB25_110)>>2
	.short	(Ldcsctp_BB25_127-Ldcsctp_BB25_110)>>2
	.short	(Ldcsctp_BB25_125-Ldcsctp_BB25_110)>>2
	.short	(Ldcsctp_BB25_151-Ldcsctp_BB25_110)>>2
	.short	(Ldcsctp_BB25_155-Ldcsctp_BB25_110)>>2
	.short	(Ldcsctp_BB25_121-Ldcsctp_BB25_110)>>2
	.short	(Ldcsctp_BB25_121-Ldcsctp_BB25_110)>>2
	.short	(Ldcsctp_BB25_126-Ldcsctp_BB25_110)>>2
	.short	(Ldcsctp_BB25_121-Ldcsctp_BB25_110)>>2
	.short	(Ldcsctp_BB25_121-Ldcsctp_BB25_110)>>2
	.short	(Ldcsctp_BB25_121-Ldcsctp_BB25_110)>>2
	.short	(Ldcsctp_BB25_121-Ldcsctp_BB25_110)>>2
	.short	(Ldcsctp_BB25_121-Ldcsctp_BB25_110)>>2
	.short	(Ldcsctp_BB25_121-Ldcsctp_BB25_110)>>2
	.short	(Ldcsctp_BB25_121-Ldcsctp_BB25_110)>>2
	.short	(Ldcsctp_BB25_121-Ldcsctp_BB25_110)>>2
	.short	(Ldcsctp_BB25_121-Ldcsctp_BB25_110)>>2
	.short	(Ldcsctp_BB25_121-Ldcsctp_BB25_110)>>2
	.short	(Ldcsctp_BB25_121-Ldcsctp_BB25_110)>>2
	.short	(Ldcsctp_BB25_121-Ldcsctp_BB25_110)>>2
	.short	(Ldcsctp_BB25_121-Ldcsctp_BB25_110)>>2
	.short	(Ldcsctp_BB25_121-Ldcsctp_BB25_110)>>2
	.short	(Ldcsctp_BB25_121-Ldcsctp_BB25_110)>>2
	.short	(Ldcsctp_BB25_121-Ldcsctp_BB25_110)>>2
	.short	(Ldcsctp_BB25_121-Ldcsctp_BB25_110)>>2
	.short	(Ldcsctp_BB25_121-Ldcsctp_BB25_110)>>2
	.short	(Ldcsctp_BB25_121-Ldcsctp_BB25_110)>>2
	.short	(Ldcsctp_BB25_121-Ldcsctp_BB25_110)>>2
	.short	(Ldcsctp_BB25_121-Ldcsctp_BB25_110)>>2
	.short	(Ldcsctp_BB25_121-Ldcsctp_BB25_110)>>2
	.short	(Ldcsctp_BB25_121-Ldcsctp_BB25_110)>>2
	.short	(Ldcsctp_BB25_121-Ldcsctp_BB25_110)>>2
	.short	(Ldcsctp_BB25_121-Ldcsctp_BB25_110)>>2
	.short	(Ldcsctp_BB25_121-Ldcsctp_BB25_110)>>2
	.short	(Ldcsctp_BB25_121-Ldcsctp_BB25_110)>>2
	.short	(Ldcsctp_BB25_121-Ldcsctp_BB25_110)>>2
	.short	(Ldcsctp_BB25_121-Ldcsctp_BB25_110)>>2
	.short	(Ldcsctp_BB25_121-Ldcsctp_BB25_110)>>2
	.short	(Ldcsctp_BB25_121-Ldcsctp_BB25_110)>>2
	.short	(Ldcsctp_BB25_121-Ldcsctp_BB25_110)>>2
	.short	(Ldcsctp_BB25_121-Ldcsctp_BB25_110)>>2
	.short	(Ldcsctp_BB25_121-Ldcsctp_BB25_110)>>2
	.short	(Ldcsctp_BB25_121-Ldcsctp_BB25_110)>>2
	.short	(Ldcsctp_BB25_121-Ldcsctp_BB25_110)>>2
	.short	(Ldcsctp_BB25_121-Ldcsctp_BB25_110)>>2
	.short	(Ldcsctp_BB25_121-Ldcsctp_BB25_110)>>2
	.short	(Ldcsctp_BB25_121-Ldcsctp_BB25_110)>>2
	.short	(Ldcsctp_BB25_121-Ldcsctp_BB25_110)>>2
	.short	(Ldcsctp_BB25_121-Ldcsctp_BB25_110)>>2
	.short	(Ldcsctp_BB25_121-Ldcsctp_BB25_110)>>2
	.short	(Ldcsctp_BB25_121-Ldcsctp_BB25_110)>>2
	.short	(Ldcsctp_BB25_121-Ldcsctp_BB25_110)>>2
	.short	(Ldcsctp_BB25_121-Ldcsctp_BB25_110)>>2
	.short	(Ldcsctp_BB25_121-Ldcsctp_BB25_110)>>2
	.short	(Ldcsctp_BB25_121-Ldcsctp_BB25_110)>>2
	.short	(Ldcsctp_BB25_121-Ldcsctp_BB25_110)>>2
	.short	(Ldcsctp_BB25_121-Ldcsctp_BB25_110)>>2
	.short	(Ldcsctp_BB25_130-Ldcsctp_BB25_110)>>2
	.short	(Ldcsctp_BB25_121-Ldcsctp_BB25_110)>>2
	.short	(Ldcsctp_BB25_121-Ldcsctp_BB25_110)>>2
	.short	(Ldcsctp_BB25_121-Ldcsctp_BB25_110)>>2
	.short	(Ldcsctp_BB25_121-Ldcsctp_BB25_110)>>2
	.short	(Ldcsctp_BB25_121-Ldcsctp_BB25_110)>>2
	.short	(Ldcsctp_BB25_121-Ldcsctp_BB25_110)>>2
	.short	(Ldcsctp_BB25_121-Ldcsctp_BB25_110)>>2
	.short	(Ldcsctp_BB25_121-Ldcsctp_BB25_110)>>2
	.short	(Ldcsctp_BB25_121-Ldcsctp_BB25_110)>>2
	.short	(Ldcsctp_BB25_121-Ldcsctp_BB25_110)>>2
	.short	(Ldcsctp_BB25_121-Ldcsctp_BB25_110)>>2
	.short	(Ldcsctp_BB25_121-Ldcsctp_BB25_110)>>2
	.short	(Ldcsctp_BB25_121-Ldcsctp_BB25_110)>>2
	.short	(Ldcsctp_BB25_121-Ldcsctp_BB25_110)>>2
	.short	(Ldcsctp_BB25_121-Ldcsctp_BB25_110)>>2
	.short	(Ldcsctp_BB25_121-Ldcsctp_BB25_110)>>2
	.short	(Ldcsctp_BB25_121-Ldcsctp_BB25_110)>>2
	.short	(Ldcsctp_BB25_121-Ldcsctp_BB25_110)>>2
	.short	(Ldcsctp_BB25_121-Ldcsctp_BB25_110)>>2
	.short	(Ldcsctp_BB25_121-Ldcsctp_BB25_110)>>2
	.short	(Ldcsctp_BB25_121-Ldcsctp_BB25_110)>>2
	.short	(Ldcsctp_BB25_121-Ldcsctp_BB25_110)>>2
	.short	(Ldcsctp_BB25_121-Ldcsctp_BB25_110)>>2
	.short	(Ldcsctp_BB25_121-Ldcsctp_BB25_110)>>2
	.short	(Ldcsctp_BB25_121-Ldcsctp_BB25_110)>>2
	.short	(Ldcsctp_BB25_121-Ldcsctp_BB25_110)>>2
	.short	(Ldcsctp_BB25_121-Ldcsctp_BB25_110)>>2
	.short	(Ldcsctp_BB25_121-Ldcsctp_BB25_110)>>2
	.short	(Ldcsctp_BB25_121-Ldcsctp_BB25_110)>>2
	.short	(Ldcsctp_BB25_121-Ldcsctp_BB25_110)>>2
	.short	(Ldcsctp_BB25_121-Ldcsctp_BB25_110)>>2
	.short	(Ldcsctp_BB25_121-Ldcsctp_BB25_110)>>2
	.short	(Ldcsctp_BB25_121-Ldcsctp_BB25_110)>>2
	.short	(Ldcsctp_BB25_121-Ldcsctp_BB25_110)>>2
	.short	(Ldcsctp_BB25_121-Ldcsctp_BB25_110)>>2
	.short	(Ldcsctp_BB25_121-Ldcsctp_BB25_110)>>2
	.short	(Ldcsctp_BB25_121-Ldcsctp_BB25_110)>>2
	.short	(Ldcsctp_BB25_121-Ldcsctp_BB25_110)>>2
	.short	(Ldcsctp_BB25_121-Ldcsctp_BB25_110)>>2
	.short	(Ldcsctp_BB25_121-Ldcsctp_BB25_110)>>2
	.short	(Ldcsctp_BB25_121-Ldcsctp_BB25_110)>>2
	.short	(Ldcsctp_BB25_121-Ldcsctp_BB25_110)>>2
	.short	(Ldcsctp_BB25_121-Ldcsctp_BB25_110)>>2
	.short	(Ldcsctp_BB25_121-Ldcsctp_BB25_110)>>2
	.short	(Ldcsctp_BB25_121-Ldcsctp_BB25_110)>>2
	.short	(Ldcsctp_BB25_121-Ldcsctp_BB25_110)>>2
	.short	(Ldcsctp_BB25_121-Ldcsctp_BB25_110)>>2
	.short	(Ldcsctp_BB25_121-Ldcsctp_BB25_110)>>2
	.short	(Ldcsctp_BB25_121-Ldcsctp_BB25_110)>>2
	.short	(Ldcsctp_BB25_121-Ldcsctp_BB25_110)>>2
	.short	(Ldcsctp_BB25_121-Ldcsctp_BB25_110)>>2
	.short	(Ldcsctp_BB25_121-Ldcsctp_BB25_110)>>2
	.short	(Ldcsctp_BB25_121-Ldcsctp_BB25_110)>>2
	.short	(Ldcsctp_BB25_121-Ldcsctp_BB25_110)>>2
	.short	(Ldcsctp_BB25_121-Ldcsctp_BB25_110)>>2
	.short	(Ldcsctp_BB25_121-Ldcsctp_BB25_110)>>2
	.short	(Ldcsctp_BB25_121-Ldcsctp_BB25_110)>>2
	.short	(Ldcsctp_BB25_121-Ldcsctp_BB25_110)>>2
	.short	(Ldcsctp_BB25_121-Ldcsctp_BB25_110)>>2
	.short	(Ldcsctp_BB25_121-Ldcsctp_BB25_110)>>2
	.short	(Ldcsctp_BB25_121-Ldcsctp_BB25_110)>>2
	.short	(Ldcsctp_BB25_121-Ldcsctp_BB25_110)>>2
	.short	(Ldcsctp_BB25_121-Ldcsctp_BB25_110)>>2
	.short	(Ldcsctp_BB25_121-Ldcsctp_BB25_110)>>2
	.short	(Ldcsctp_BB25_121-Ldcsctp_BB25_110)>>2
	.short	(Ldcsctp_BB25_129-Ldcsctp_BB25_110)>>2
Ldcsctp_JTI25_2:
	.byte	(Ldcsctp_BB25_284-Ldcsctp_BB25_280)>>2
	.byte	(Ldcsctp_BB25_287-Ldcsctp_BB25_280)>>2
	.byte	(Ldcsctp_BB25_287-Ldcsctp_BB25_280)>>2
	.byte	(Ldcsctp_BB25_292-Ldcsctp_BB25_280)>>2
	.byte	(Ldcsctp_BB25_286-Ldcsctp_BB25_280)>>2
	.byte	(Ldcsctp_BB25_286-Ldcsctp_BB25_280)>>2
	.byte	(Ldcsctp_BB25_289-Ldcsctp_BB25_280)>>2
	.byte	(Ldcsctp_BB25_282-Ldcsctp_BB25_280)>>2
	.byte	(Ldcsctp_BB25_282-Ldcsctp_BB25_280)>>2
	.byte	(Ldcsctp_BB25_290-Ldcsctp_BB25_280)>>2
	.byte	(Ldcsctp_BB25_284-Ldcsctp_BB25_280)>>2
	.byte	(Ldcsctp_BB25_282-Ldcsctp_BB25_280)>>2
	.byte	(Ldcsctp_BB25_282-Ldcsctp_BB25_280)>>2
	.byte	(Ldcsctp_BB25_284-Ldcsctp_BB25_280)>>2
	.byte	(Ldcsctp_BB25_286-Ldcsctp_BB25_280)>>2
	.byte	(Ldcsctp_BB25_280-Ldcsctp_BB25_280)>>2
	.byte	(Ldcsctp_BB25_280-Ldcsctp_BB25_280)>>2
	.byte	(Ldcsctp_BB25_280-Ldcsctp_BB25_280)>>2
l_static.0:
	.ascii	"Failed to parse abort reason"
l_static.1:
	.ascii	"Failed to parse additional information"
l_static.2:
	.byte	10
l_static.3:
	.ascii	"source="
l_static.4:
	.ascii	" destination="
l_static.5:
	.ascii	" tag="
l_static.6:
	.ascii	" checksum="
	.section	__TEXT,__literal4,4byte_literals
l_static.7:
	.space	4,32
	.section	__TEXT,__const
l_static.8:
	.byte	0
l_static.11:
	.ascii	"SHUTDOWN cumulative_tsn_ack="
l_static.12:
	.ascii	"SHUTDOWN-ACK"
l_static.13:
	.ascii	"COOKIE-ACK"
l_static.14:
	.ascii	"SHUTDOWN-COMPLETE, tag_reflected="
	.section	__TEXT,__literal4,4byte_literals
l_static.15:
	.ascii	"true"
	.section	__TEXT,__const
l_static.16:
	.ascii	"false"
l_static.17:
	.ascii	"DATA, type="
l_static.18:
	.space	2,58
l_static.19:
	.ascii	", tsn="
l_static.20:
	.ascii	", sid="
l_static.21:
	.ascii	", ssn="
l_static.22:
	.ascii	", ppid="
l_static.23:
	.ascii	", length="
l_static.24:
	.ascii	"unordered"
l_static.25:
	.ascii	"ordered"
	.section	__TEXT,__literal8,8byte_literals
l_static.26:
	.ascii	"complete"
	.section	__TEXT,__const
l_static.27:
	.ascii	"first"
	.section	__TEXT,__literal4,4byte_literals
l_static.28:
	.ascii	"last"
	.section	__TEXT,__const
l_static.29:
	.ascii	"middle"
l_static.30:
	.ascii	"SACK, cum_ack_tsn="
l_static.31:
	.ascii	", a_rwnd="
l_static.32:
	.ascii	"COOKIE-ECHO, cookie="
l_static.33:
	.ascii	" bytes"
l_static.34:
	.ascii	"I-DATA, type="
l_static.35:
	.ascii	", mid="
l_static.36:
	.ascii	"FORWARD-TSN, new_cumulative_tsn="
l_static.37:
	.ascii	"I-FORWARD-TSN, new_cumulative_tsn="
l_static.38:
	.ascii	"INIT, initiate_tag="
l_static.39:
	.ascii	", initial_tsn="
l_static.40:
	.ascii	"INIT-ACK, initiate_tag="
l_static.41:
	.ascii	"HEARTBEAT-REQ"
l_static.42:
	.ascii	"HEARTBEAT-ACK"
l_static.43:
	.ascii	"ABORT, tag_reflected="
l_static.44:
	.ascii	"ERROR"
l_static.45:
	.ascii	"RE-CONFIG"
l_static.46:
	.ascii	"Unknown chunk, type="
l_static.47:
	.ascii	"canonical too long\n"
l_static.48:
	.ascii	"canonical="
	.section	__TEXT,__literal16,16byte_literals
l_static.50:
	.ascii	"0123456789abcdef"
	.section	__TEXT,__const
l_static.51:
	.ascii	"error: out of memory\n"
l_static.52:
	.ascii	"error: read failed\n"
l_static.53:
	.ascii	"error: input too long\n"
l_static.54:
	.ascii	"error: not hexadecimal\n"
l_static.55:
	.ascii	"error: invalid packet size\n"
l_static.58:
	.ascii	"error: invalid chunk: length\n"
l_static.59:
	.ascii	"error: invalid chunk: type\n"
l_static.60:
	.ascii	"error: invalid chunk: padding\n"
l_static.61:
	.ascii	"error: invalid chunk: value\n"
	.p2align	3, 0x0
l_switch.table.rattle_main:
	.quad	29
	.quad	27
	.quad	30
	.quad	28
	.quad	21
	.section	__DATA,__const
	.p2align	3, 0x0
l_switch.table.rattle_main.391:
	.quad	l_static.58
	.quad	l_static.59
	.quad	l_static.60
	.quad	l_static.61
	.quad	l_static.51
.subsections_via_symbols
	.section	__TEXT,__text,regular,pure_instructions
	.p2align	2
_rattle_alloc:
	.cfi_startproc
	stp	x29, x30, [sp, #-16]!
	.cfi_def_cfa_offset 16
	mov	x29, sp
	.cfi_def_cfa w29, 16
	.cfi_offset w30, -8
	.cfi_offset w29, -16
	cmp	x0, #0
	csel	x0, x1, x0, eq
	bl	_malloc
Ldcsctp_heap_loh0:
	adrp	x8, _rattle_none@PAGE
Ldcsctp_heap_loh1:
	add	x8, x8, _rattle_none@PAGEOFF
	cmp	x0, #0
	csel	x1, x0, x8, ne
	cset	w0, ne
	.cfi_def_cfa wsp, 16
	ldp	x29, x30, [sp], #16
	.cfi_def_cfa_offset 0
	.cfi_restore w30
	.cfi_restore w29
	ret
	.loh AdrpAdd	Ldcsctp_heap_loh0, Ldcsctp_heap_loh1
	.cfi_endproc
	.p2align	2
_rattle_realloc:
	.cfi_startproc
	stp	x29, x30, [sp, #-16]!
	.cfi_def_cfa_offset 16
	mov	x29, sp
	.cfi_def_cfa w29, 16
	.cfi_offset w30, -8
	.cfi_offset w29, -16
	cmp	x2, #0
	csel	x1, x3, x2, eq
	bl	_realloc
Ldcsctp_heap_loh2:
	adrp	x8, _rattle_none@PAGE
Ldcsctp_heap_loh3:
	add	x8, x8, _rattle_none@PAGEOFF
	cmp	x0, #0
	csel	x1, x0, x8, ne
	cset	w0, ne
	.cfi_def_cfa wsp, 16
	ldp	x29, x30, [sp], #16
	.cfi_def_cfa_offset 0
	.cfi_restore w30
	.cfi_restore w29
	ret
	.loh AdrpAdd	Ldcsctp_heap_loh2, Ldcsctp_heap_loh3
	.cfi_endproc
	.p2align	2
_rattle_dealloc:
	.cfi_startproc
	b	_free
	.cfi_endproc
	.section	__TEXT,__const
	.p2align	4, 0x0
_rattle_none:
	.space	16
