	.ifndef	dcsctp_without_note
	.section	.note.gnu.property,"a",@note
	.p2align	3, 0x0
	.word	4
	.word	16
	.word	5
	.asciz	"GNU"
	.word	3221225472
	.word	4
	.word	3
	.word	0
.Ldcsctp_sec_end0:
	.endif
	.text
	.section	.text.std_io.io.error.last_error,"ax",@progbits
	.p2align	2
	.type	std_io.io.error.last_error,@function
std_io.io.error.last_error:
	.cfi_startproc
	hint	#25
	.cfi_negate_ra_state
	stp	x29, x30, [sp, #-32]!
	.cfi_def_cfa_offset 32
	str	x19, [sp, #16]
	mov	x29, sp
	.cfi_def_cfa w29, 32
	.cfi_offset w19, -16
	.cfi_offset w30, -24
	.cfi_offset w29, -32
	.cfi_remember_state
	mov	x19, x0
	bl	rattle_errno
	tbnz	w0, #31, .Ldcsctp_BB0_4
	sub	w8, w0, #1
	cmp	w8, #121
	b.hi	.Ldcsctp_BB0_4
	adrp	x9, .Ldcsctp_JTI0_0
	add	x9, x9, :lo12:.Ldcsctp_JTI0_0
	adr	x10, .Ldcsctp_BB0_3
	ldrb	w11, [x9, x8]
	add	x10, x10, x11, lsl #2
	mov	w8, #1
	br	x10
.Ldcsctp_BB0_3:
	hint	#36
	mov	w8, #36
	b	.Ldcsctp_BB0_5
.Ldcsctp_BB0_4:
	hint	#36
	mov	w8, #41
.Ldcsctp_BB0_5:
	hint	#36
	movi	v0.2d, #0000000000000000
	strb	wzr, [x19]
	strb	w8, [x19, #1]
	strh	wzr, [x19, #2]
	str	w0, [x19, #4]
	stur	q0, [x19, #8]
	stur	q0, [x19, #24]
	stur	q0, [x19, #40]
	stur	q0, [x19, #56]
	stur	q0, [x19, #72]
	.cfi_def_cfa wsp, 32
	ldr	x19, [sp, #16]
	ldp	x29, x30, [sp], #32
	.cfi_def_cfa_offset 0
	.cfi_restore w19
	.cfi_restore w30
	.cfi_restore w29
	hint	#29
	.cfi_negate_ra_state
	ret
.Ldcsctp_BB0_6:
	.cfi_restore_state
	hint	#36
	mov	w8, #4
	b	.Ldcsctp_BB0_5
.Ldcsctp_BB0_7:
	hint	#36
	mov	w8, #7
	b	.Ldcsctp_BB0_5
.Ldcsctp_BB0_8:
	hint	#36
	mov	w8, #26
	b	.Ldcsctp_BB0_5
.Ldcsctp_BB0_9:
	hint	#36
	mov	w8, #39
	b	.Ldcsctp_BB0_5
.Ldcsctp_BB0_10:
	hint	#36
	mov	w8, #9
	b	.Ldcsctp_BB0_5
.Ldcsctp_BB0_11:
	hint	#36
	mov	w8, #8
	b	.Ldcsctp_BB0_5
.Ldcsctp_BB0_12:
	hint	#36
	mov	w8, #30
	b	.Ldcsctp_BB0_5
.Ldcsctp_BB0_13:
	hint	#36
	mov	w8, #25
	b	.Ldcsctp_BB0_5
.Ldcsctp_BB0_14:
	hint	#36
	mov	w8, #32
	b	.Ldcsctp_BB0_5
.Ldcsctp_BB0_15:
	hint	#36
	mov	w8, #33
	b	.Ldcsctp_BB0_5
.Ldcsctp_BB0_16:
	hint	#36
	mov	w8, #22
	b	.Ldcsctp_BB0_5
.Ldcsctp_BB0_17:
	hint	#36
	mov	w8, #31
	b	.Ldcsctp_BB0_5
.Ldcsctp_BB0_18:
	hint	#36
	mov	w8, #29
	b	.Ldcsctp_BB0_5
.Ldcsctp_BB0_19:
	hint	#36
	mov	w8, #18
	b	.Ldcsctp_BB0_5
.Ldcsctp_BB0_20:
	hint	#36
	mov	w8, #10
	b	.Ldcsctp_BB0_5
.Ldcsctp_BB0_21:
	hint	#36
	mov	w8, #28
	b	.Ldcsctp_BB0_5
.Ldcsctp_BB0_22:
	hint	#36
	mov	w8, #14
	b	.Ldcsctp_BB0_5
.Ldcsctp_BB0_23:
	hint	#36
	mov	w8, #12
	b	.Ldcsctp_BB0_5
.Ldcsctp_BB0_24:
	hint	#36
	mov	w8, #5
	b	.Ldcsctp_BB0_5
.Ldcsctp_BB0_25:
	hint	#36
	mov	w8, #3
	b	.Ldcsctp_BB0_5
.Ldcsctp_BB0_26:
	hint	#36
	mov	w8, wzr
	b	.Ldcsctp_BB0_5
.Ldcsctp_BB0_27:
	hint	#36
	mov	w8, #13
	b	.Ldcsctp_BB0_5
.Ldcsctp_BB0_28:
	hint	#36
	mov	w8, #38
	b	.Ldcsctp_BB0_5
.Ldcsctp_BB0_29:
	hint	#36
	mov	w8, #11
	b	.Ldcsctp_BB0_5
.Ldcsctp_BB0_30:
	hint	#36
	mov	w8, #35
	b	.Ldcsctp_BB0_5
.Ldcsctp_BB0_31:
	hint	#36
	mov	w8, #34
	b	.Ldcsctp_BB0_5
.Ldcsctp_BB0_32:
	hint	#36
	mov	w8, #20
	b	.Ldcsctp_BB0_5
.Ldcsctp_BB0_33:
	hint	#36
	mov	w8, #15
	b	.Ldcsctp_BB0_5
.Ldcsctp_BB0_34:
	hint	#36
	mov	w8, #19
	b	.Ldcsctp_BB0_5
.Ldcsctp_BB0_35:
	hint	#36
	mov	w8, #16
	b	.Ldcsctp_BB0_5
.Ldcsctp_BB0_36:
	hint	#36
	mov	w8, #6
	b	.Ldcsctp_BB0_5
.Ldcsctp_BB0_37:
	hint	#36
	mov	w8, #27
	b	.Ldcsctp_BB0_5
.Ldcsctp_BB0_38:
	hint	#36
	mov	w8, #24
	b	.Ldcsctp_BB0_5
.Ldcsctp_BB0_39:
	hint	#36
	mov	w8, #2
	b	.Ldcsctp_BB0_5
.Ldcsctp_BB0_40:
	hint	#36
	mov	w8, #17
	b	.Ldcsctp_BB0_5
.Ldcsctp_func_end0:
	.size	std_io.io.error.last_error, .Ldcsctp_func_end0-std_io.io.error.last_error
	.cfi_endproc
	.section	.rodata.std_io.io.error.last_error,"a",@progbits
.Ldcsctp_JTI0_0:
	.byte	(.Ldcsctp_BB0_5-.Ldcsctp_BB0_3)>>2
	.byte	(.Ldcsctp_BB0_26-.Ldcsctp_BB0_3)>>2
	.byte	(.Ldcsctp_BB0_4-.Ldcsctp_BB0_3)>>2
	.byte	(.Ldcsctp_BB0_30-.Ldcsctp_BB0_3)>>2
	.byte	(.Ldcsctp_BB0_4-.Ldcsctp_BB0_3)>>2
	.byte	(.Ldcsctp_BB0_4-.Ldcsctp_BB0_3)>>2
	.byte	(.Ldcsctp_BB0_31-.Ldcsctp_BB0_3)>>2
	.byte	(.Ldcsctp_BB0_4-.Ldcsctp_BB0_3)>>2
	.byte	(.Ldcsctp_BB0_4-.Ldcsctp_BB0_3)>>2
	.byte	(.Ldcsctp_BB0_4-.Ldcsctp_BB0_3)>>2
	.byte	(.Ldcsctp_BB0_27-.Ldcsctp_BB0_3)>>2
	.byte	(.Ldcsctp_BB0_28-.Ldcsctp_BB0_3)>>2
	.byte	(.Ldcsctp_BB0_5-.Ldcsctp_BB0_3)>>2
	.byte	(.Ldcsctp_BB0_4-.Ldcsctp_BB0_3)>>2
	.byte	(.Ldcsctp_BB0_4-.Ldcsctp_BB0_3)>>2
	.byte	(.Ldcsctp_BB0_21-.Ldcsctp_BB0_3)>>2
	.byte	(.Ldcsctp_BB0_23-.Ldcsctp_BB0_3)>>2
	.byte	(.Ldcsctp_BB0_17-.Ldcsctp_BB0_3)>>2
	.byte	(.Ldcsctp_BB0_4-.Ldcsctp_BB0_3)>>2
	.byte	(.Ldcsctp_BB0_22-.Ldcsctp_BB0_3)>>2
	.byte	(.Ldcsctp_BB0_33-.Ldcsctp_BB0_3)>>2
	.byte	(.Ldcsctp_BB0_32-.Ldcsctp_BB0_3)>>2
	.byte	(.Ldcsctp_BB0_4-.Ldcsctp_BB0_3)>>2
	.byte	(.Ldcsctp_BB0_4-.Ldcsctp_BB0_3)>>2
	.byte	(.Ldcsctp_BB0_4-.Ldcsctp_BB0_3)>>2
	.byte	(.Ldcsctp_BB0_18-.Ldcsctp_BB0_3)>>2
	.byte	(.Ldcsctp_BB0_37-.Ldcsctp_BB0_3)>>2
	.byte	(.Ldcsctp_BB0_38-.Ldcsctp_BB0_3)>>2
	.byte	(.Ldcsctp_BB0_13-.Ldcsctp_BB0_3)>>2
	.byte	(.Ldcsctp_BB0_40-.Ldcsctp_BB0_3)>>2
	.byte	(.Ldcsctp_BB0_14-.Ldcsctp_BB0_3)>>2
	.byte	(.Ldcsctp_BB0_29-.Ldcsctp_BB0_3)>>2
	.byte	(.Ldcsctp_BB0_4-.Ldcsctp_BB0_3)>>2
	.byte	(.Ldcsctp_BB0_4-.Ldcsctp_BB0_3)>>2
	.byte	(.Ldcsctp_BB0_12-.Ldcsctp_BB0_3)>>2
	.byte	(.Ldcsctp_BB0_15-.Ldcsctp_BB0_3)>>2
	.byte	(.Ldcsctp_BB0_4-.Ldcsctp_BB0_3)>>2
	.byte	(.Ldcsctp_BB0_3-.Ldcsctp_BB0_3)>>2
	.byte	(.Ldcsctp_BB0_35-.Ldcsctp_BB0_3)>>2
	.byte	(.Ldcsctp_BB0_19-.Ldcsctp_BB0_3)>>2
	.byte	(.Ldcsctp_BB0_4-.Ldcsctp_BB0_3)>>2
	.byte	(.Ldcsctp_BB0_4-.Ldcsctp_BB0_3)>>2
	.byte	(.Ldcsctp_BB0_4-.Ldcsctp_BB0_3)>>2
	.byte	(.Ldcsctp_BB0_4-.Ldcsctp_BB0_3)>>2
	.byte	(.Ldcsctp_BB0_4-.Ldcsctp_BB0_3)>>2
	.byte	(.Ldcsctp_BB0_4-.Ldcsctp_BB0_3)>>2
	.byte	(.Ldcsctp_BB0_4-.Ldcsctp_BB0_3)>>2
	.byte	(.Ldcsctp_BB0_4-.Ldcsctp_BB0_3)>>2
	.byte	(.Ldcsctp_BB0_4-.Ldcsctp_BB0_3)>>2
	.byte	(.Ldcsctp_BB0_4-.Ldcsctp_BB0_3)>>2
	.byte	(.Ldcsctp_BB0_4-.Ldcsctp_BB0_3)>>2
	.byte	(.Ldcsctp_BB0_4-.Ldcsctp_BB0_3)>>2
	.byte	(.Ldcsctp_BB0_4-.Ldcsctp_BB0_3)>>2
	.byte	(.Ldcsctp_BB0_4-.Ldcsctp_BB0_3)>>2
	.byte	(.Ldcsctp_BB0_4-.Ldcsctp_BB0_3)>>2
	.byte	(.Ldcsctp_BB0_4-.Ldcsctp_BB0_3)>>2
	.byte	(.Ldcsctp_BB0_4-.Ldcsctp_BB0_3)>>2
	.byte	(.Ldcsctp_BB0_4-.Ldcsctp_BB0_3)>>2
	.byte	(.Ldcsctp_BB0_4-.Ldcsctp_BB0_3)>>2
	.byte	(.Ldcsctp_BB0_4-.Ldcsctp_BB0_3)>>2
	.byte	(.Ldcsctp_BB0_4-.Ldcsctp_BB0_3)>>2
	.byte	(.Ldcsctp_BB0_4-.Ldcsctp_BB0_3)>>2
	.byte	(.Ldcsctp_BB0_4-.Ldcsctp_BB0_3)>>2
	.byte	(.Ldcsctp_BB0_4-.Ldcsctp_BB0_3)>>2
	.byte	(.Ldcsctp_BB0_4-.Ldcsctp_BB0_3)>>2
	.byte	(.Ldcsctp_BB0_4-.Ldcsctp_BB0_3)>>2
	.byte	(.Ldcsctp_BB0_4-.Ldcsctp_BB0_3)>>2
	.byte	(.Ldcsctp_BB0_4-.Ldcsctp_BB0_3)>>2
	.byte	(.Ldcsctp_BB0_4-.Ldcsctp_BB0_3)>>2
	.byte	(.Ldcsctp_BB0_4-.Ldcsctp_BB0_3)>>2
	.byte	(.Ldcsctp_BB0_4-.Ldcsctp_BB0_3)>>2
	.byte	(.Ldcsctp_BB0_4-.Ldcsctp_BB0_3)>>2
	.byte	(.Ldcsctp_BB0_4-.Ldcsctp_BB0_3)>>2
	.byte	(.Ldcsctp_BB0_4-.Ldcsctp_BB0_3)>>2
	.byte	(.Ldcsctp_BB0_4-.Ldcsctp_BB0_3)>>2
	.byte	(.Ldcsctp_BB0_4-.Ldcsctp_BB0_3)>>2
	.byte	(.Ldcsctp_BB0_4-.Ldcsctp_BB0_3)>>2
	.byte	(.Ldcsctp_BB0_4-.Ldcsctp_BB0_3)>>2
	.byte	(.Ldcsctp_BB0_4-.Ldcsctp_BB0_3)>>2
	.byte	(.Ldcsctp_BB0_4-.Ldcsctp_BB0_3)>>2
	.byte	(.Ldcsctp_BB0_4-.Ldcsctp_BB0_3)>>2
	.byte	(.Ldcsctp_BB0_4-.Ldcsctp_BB0_3)>>2
	.byte	(.Ldcsctp_BB0_4-.Ldcsctp_BB0_3)>>2
	.byte	(.Ldcsctp_BB0_4-.Ldcsctp_BB0_3)>>2
	.byte	(.Ldcsctp_BB0_4-.Ldcsctp_BB0_3)>>2
	.byte	(.Ldcsctp_BB0_4-.Ldcsctp_BB0_3)>>2
	.byte	(.Ldcsctp_BB0_4-.Ldcsctp_BB0_3)>>2
	.byte	(.Ldcsctp_BB0_4-.Ldcsctp_BB0_3)>>2
	.byte	(.Ldcsctp_BB0_4-.Ldcsctp_BB0_3)>>2
	.byte	(.Ldcsctp_BB0_4-.Ldcsctp_BB0_3)>>2
	.byte	(.Ldcsctp_BB0_4-.Ldcsctp_BB0_3)>>2
	.byte	(.Ldcsctp_BB0_4-.Ldcsctp_BB0_3)>>2
	.byte	(.Ldcsctp_BB0_4-.Ldcsctp_BB0_3)>>2
	.byte	(.Ldcsctp_BB0_4-.Ldcsctp_BB0_3)>>2
	.byte	(.Ldcsctp_BB0_3-.Ldcsctp_BB0_3)>>2
	.byte	(.Ldcsctp_BB0_4-.Ldcsctp_BB0_3)>>2
	.byte	(.Ldcsctp_BB0_4-.Ldcsctp_BB0_3)>>2
	.byte	(.Ldcsctp_BB0_11-.Ldcsctp_BB0_3)>>2
	.byte	(.Ldcsctp_BB0_10-.Ldcsctp_BB0_3)>>2
	.byte	(.Ldcsctp_BB0_20-.Ldcsctp_BB0_3)>>2
	.byte	(.Ldcsctp_BB0_24-.Ldcsctp_BB0_3)>>2
	.byte	(.Ldcsctp_BB0_4-.Ldcsctp_BB0_3)>>2
	.byte	(.Ldcsctp_BB0_36-.Ldcsctp_BB0_3)>>2
	.byte	(.Ldcsctp_BB0_25-.Ldcsctp_BB0_3)>>2
	.byte	(.Ldcsctp_BB0_4-.Ldcsctp_BB0_3)>>2
	.byte	(.Ldcsctp_BB0_4-.Ldcsctp_BB0_3)>>2
	.byte	(.Ldcsctp_BB0_7-.Ldcsctp_BB0_3)>>2
	.byte	(.Ldcsctp_BB0_4-.Ldcsctp_BB0_3)>>2
	.byte	(.Ldcsctp_BB0_4-.Ldcsctp_BB0_3)>>2
	.byte	(.Ldcsctp_BB0_16-.Ldcsctp_BB0_3)>>2
	.byte	(.Ldcsctp_BB0_39-.Ldcsctp_BB0_3)>>2
	.byte	(.Ldcsctp_BB0_4-.Ldcsctp_BB0_3)>>2
	.byte	(.Ldcsctp_BB0_6-.Ldcsctp_BB0_3)>>2
	.byte	(.Ldcsctp_BB0_4-.Ldcsctp_BB0_3)>>2
	.byte	(.Ldcsctp_BB0_9-.Ldcsctp_BB0_3)>>2
	.byte	(.Ldcsctp_BB0_34-.Ldcsctp_BB0_3)>>2
	.byte	(.Ldcsctp_BB0_4-.Ldcsctp_BB0_3)>>2
	.byte	(.Ldcsctp_BB0_4-.Ldcsctp_BB0_3)>>2
	.byte	(.Ldcsctp_BB0_4-.Ldcsctp_BB0_3)>>2
	.byte	(.Ldcsctp_BB0_4-.Ldcsctp_BB0_3)>>2
	.byte	(.Ldcsctp_BB0_4-.Ldcsctp_BB0_3)>>2
	.byte	(.Ldcsctp_BB0_8-.Ldcsctp_BB0_3)>>2
	.section	.text.dcsctp_tlv.reader.list_check.a9faab4c914c0483,"ax",@progbits
	.p2align	2
	.type	dcsctp_tlv.reader.list_check.a9faab4c914c0483,@function
dcsctp_tlv.reader.list_check.a9faab4c914c0483:
	.cfi_startproc
	hint	#25
	.cfi_negate_ra_state
	stp	x29, x30, [sp, #-32]!
	.cfi_def_cfa_offset 32
	stp	x20, x19, [sp, #16]
	mov	x29, sp
	.cfi_def_cfa w29, 32
	.cfi_offset w19, -8
	.cfi_offset w20, -16
	.cfi_offset w30, -24
	.cfi_offset w29, -32
	.cfi_remember_state
	cbz	x2, .Ldcsctp_BB1_32
	mov	x8, x1
	mov	x9, xzr
	mov	x1, x2
	b	.Ldcsctp_BB1_3
.Ldcsctp_BB1_2:
	sub	x1, x1, x12
	add	x8, x8, x12
	add	x9, x9, #1
	cbz	x1, .Ldcsctp_BB1_33
.Ldcsctp_BB1_3:
	cmp	x1, #4
	b.lo	.Ldcsctp_BB1_34
	ldrb	w10, [x8, #2]
	ldrb	w11, [x8, #3]
	orr	x12, x11, x10, lsl #8
	cmp	w12, #4
	b.lo	.Ldcsctp_BB1_34
	cmp	x1, x12
	b.lo	.Ldcsctp_BB1_34
	mov	x13, x11
	ldrh	w14, [x8]
	bfi	x13, x10, #8, #8
	rev16	w15, w14
	add	w12, w13, #3
	sub	x14, x13, #4
	and	x12, x12, #0x1fffc
	cmp	x1, x12
	csel	x12, x1, x12, lo
	cmp	w15, #16
	b.gt	.Ldcsctp_BB1_11
	cmp	w15, #14
	b.gt	.Ldcsctp_BB1_15
	cmp	w15, #13
	b.eq	.Ldcsctp_BB1_24
	cmp	w15, #14
	b.ne	.Ldcsctp_BB1_27
	cmp	x14, #4
	b	.Ldcsctp_BB1_25
.Ldcsctp_BB1_11:
	cmp	w15, #8, lsl #12
	b.gt	.Ldcsctp_BB1_20
	cmp	w15, #17
	b.eq	.Ldcsctp_BB1_14
	cmp	w15, #18
	b.ne	.Ldcsctp_BB1_27
.Ldcsctp_BB1_14:
	cmp	x14, #8
	mov	x13, xzr
	cset	w14, ne
	cbz	w14, .Ldcsctp_BB1_27
	b	.Ldcsctp_BB1_36
.Ldcsctp_BB1_15:
	cmp	w15, #15
	b.eq	.Ldcsctp_BB1_23
	cmp	w15, #16
	b.ne	.Ldcsctp_BB1_27
	cmp	x13, #20
	b.eq	.Ldcsctp_BB1_19
	cmp	w13, #12
	b.ne	.Ldcsctp_BB1_35
.Ldcsctp_BB1_19:
	ldr	w13, [x8, #8]
	rev	w13, w13
	cmp	w13, #6
	mov	w13, #3
	cset	w14, hi
	csel	x13, x13, xzr, hi
	cbz	w14, .Ldcsctp_BB1_27
	b	.Ldcsctp_BB1_36
.Ldcsctp_BB1_20:
	mov	w13, #32769
	cmp	w15, w13
	b.eq	.Ldcsctp_BB1_23
	cmp	w15, #12, lsl #12
	b.ne	.Ldcsctp_BB1_27
	cmp	x14, #0
	mov	x13, xzr
	cset	w14, ne
	cbz	w14, .Ldcsctp_BB1_27
	b	.Ldcsctp_BB1_36
.Ldcsctp_BB1_23:
	cmp	x14, #4
	mov	x13, xzr
	cset	w14, ne
	cbz	w14, .Ldcsctp_BB1_27
	b	.Ldcsctp_BB1_36
.Ldcsctp_BB1_24:
	cmp	x14, #12
.Ldcsctp_BB1_25:
	mov	x13, xzr
	b.lo	.Ldcsctp_BB1_36
	and	w14, w11, #0x1
	cbnz	w14, .Ldcsctp_BB1_36
.Ldcsctp_BB1_27:
	cbz	w3, .Ldcsctp_BB1_2
	lsl	x10, x10, #8
	add	x10, x10, x11
.Ldcsctp_BB1_29:
	cmp	x12, x10
	b.eq	.Ldcsctp_BB1_2
	ldrb	w11, [x8, x10]
	add	x10, x10, #1
	cbz	w11, .Ldcsctp_BB1_29
	mov	x20, x0
	mov	x0, x8
	sub	x19, x2, x1
	bl	dcsctp_tlv.frame.padding_fault
	mov	w8, #1
	add	x9, x0, x19
	stp	x8, x9, [x20]
	mov	w8, #2
	str	x8, [x20, #16]
	.cfi_def_cfa wsp, 32
	ldp	x20, x19, [sp, #16]
	ldp	x29, x30, [sp], #32
	.cfi_def_cfa_offset 0
	.cfi_restore w19
	.cfi_restore w20
	.cfi_restore w30
	.cfi_restore w29
	hint	#29
	.cfi_negate_ra_state
	ret
.Ldcsctp_BB1_32:
	.cfi_restore_state
	.cfi_remember_state
	mov	x9, xzr
.Ldcsctp_BB1_33:
	stp	xzr, x9, [x0]
	str	x9, [x0, #16]
	.cfi_def_cfa wsp, 32
	ldp	x20, x19, [sp, #16]
	ldp	x29, x30, [sp], #32
	.cfi_def_cfa_offset 0
	.cfi_restore w19
	.cfi_restore w20
	.cfi_restore w30
	.cfi_restore w29
	hint	#29
	.cfi_negate_ra_state
	ret
.Ldcsctp_BB1_34:
	.cfi_restore_state
	.cfi_remember_state
	mov	w8, #1
	sub	x9, x2, x1
	str	xzr, [x0, #16]
	stp	x8, x9, [x0]
	.cfi_def_cfa wsp, 32
	ldp	x20, x19, [sp, #16]
	ldp	x29, x30, [sp], #32
	.cfi_def_cfa_offset 0
	.cfi_restore w19
	.cfi_restore w20
	.cfi_restore w30
	.cfi_restore w29
	hint	#29
	.cfi_negate_ra_state
	ret
.Ldcsctp_BB1_35:
	.cfi_restore_state
	mov	x13, xzr
.Ldcsctp_BB1_36:
	mov	w8, #1
	sub	x9, x2, x1
	str	x13, [x0, #16]
	stp	x8, x9, [x0]
	.cfi_def_cfa wsp, 32
	ldp	x20, x19, [sp, #16]
	ldp	x29, x30, [sp], #32
	.cfi_def_cfa_offset 0
	.cfi_restore w19
	.cfi_restore w20
	.cfi_restore w30
	.cfi_restore w29
	hint	#29
	.cfi_negate_ra_state
	ret
.Ldcsctp_func_end1:
	.size	dcsctp_tlv.reader.list_check.a9faab4c914c0483, .Ldcsctp_func_end1-dcsctp_tlv.reader.list_check.a9faab4c914c0483
	.cfi_endproc
	.section	.text.dcsctp_tlv.reader.list_check.a6e1d811d2b3aa55,"ax",@progbits
	.p2align	2
	.type	dcsctp_tlv.reader.list_check.a6e1d811d2b3aa55,@function
dcsctp_tlv.reader.list_check.a6e1d811d2b3aa55:
	.cfi_startproc
	hint	#25
	.cfi_negate_ra_state
	stp	x29, x30, [sp, #-32]!
	.cfi_def_cfa_offset 32
	stp	x20, x19, [sp, #16]
	mov	x29, sp
	.cfi_def_cfa w29, 32
	.cfi_offset w19, -8
	.cfi_offset w20, -16
	.cfi_offset w30, -24
	.cfi_offset w29, -32
	.cfi_remember_state
	mov	x19, x0
	cbz	x2, .Ldcsctp_BB2_31
	mov	x8, x1
	mov	x9, xzr
	mov	x1, x2
	tbnz	w3, #0, .Ldcsctp_BB2_3
	b	.Ldcsctp_BB2_21
.Ldcsctp_BB2_2:
	add	x9, x9, #1
	mov	x8, x13
	mov	x1, x11
	cbz	x11, .Ldcsctp_BB2_32
.Ldcsctp_BB2_3:
	cmp	x1, #4
	b.lo	.Ldcsctp_BB2_30
	ldrb	w11, [x8, #2]
	ldrb	w10, [x8, #3]
	orr	w12, w10, w11, lsl #8
	cmp	w12, #4
	b.lo	.Ldcsctp_BB2_30
	cmp	x1, x12
	b.lo	.Ldcsctp_BB2_30
	mov	x13, x10
	ldrh	w14, [x8]
	bfi	x13, x11, #8, #8
	rev16	w14, w14
	add	w12, w13, #3
	sub	x13, x13, #4
	and	x12, x12, #0x1fffc
	cmp	x1, x12
	csel	x12, x1, x12, lo
	cmp	w14, #10
	b.eq	.Ldcsctp_BB2_12
	cmp	w14, #9
	b.eq	.Ldcsctp_BB2_11
	cmp	w14, #2
	b.ne	.Ldcsctp_BB2_14
	cmp	x13, #4
	b.lo	.Ldcsctp_BB2_30
	ldr	w14, [x8, #4]
	rev	w14, w14
	ubfiz	x14, x14, #1, #32
	add	x14, x14, #4
	b	.Ldcsctp_BB2_13
.Ldcsctp_BB2_11:
	mov	w14, #4
	b	.Ldcsctp_BB2_13
.Ldcsctp_BB2_12:
	mov	x14, xzr
.Ldcsctp_BB2_13:
	cmp	x13, x14
	b.ne	.Ldcsctp_BB2_30
.Ldcsctp_BB2_14:
	lsl	x14, x11, #8
	add	x13, x8, x12
	sub	x11, x1, x12
	add	x10, x14, x10
.Ldcsctp_BB2_15:
	cmp	x12, x10
	b.eq	.Ldcsctp_BB2_2
	ldrb	w14, [x8, x10]
	add	x10, x10, #1
	cbz	w14, .Ldcsctp_BB2_15
	mov	x0, x8
	sub	x20, x2, x1
	bl	dcsctp_tlv.frame.padding_fault
	mov	w8, #1
	add	x9, x0, x20
	stp	x8, x9, [x19]
	mov	w8, #2
	str	x8, [x19, #16]
	.cfi_def_cfa wsp, 32
	ldp	x20, x19, [sp, #16]
	ldp	x29, x30, [sp], #32
	.cfi_def_cfa_offset 0
	.cfi_restore w19
	.cfi_restore w20
	.cfi_restore w30
	.cfi_restore w29
	hint	#29
	.cfi_negate_ra_state
	ret
.Ldcsctp_BB2_18:
	.cfi_restore_state
	.cfi_remember_state
	mov	w12, #4
.Ldcsctp_BB2_19:
	cmp	x11, x12
	b.ne	.Ldcsctp_BB2_30
.Ldcsctp_BB2_20:
	sub	x1, x1, x10
	add	x8, x8, x10
	add	x9, x9, #1
	cbz	x1, .Ldcsctp_BB2_32
.Ldcsctp_BB2_21:
	cmp	x1, #4
	b.lo	.Ldcsctp_BB2_30
	ldrb	w10, [x8, #2]
	ldrb	w11, [x8, #3]
	orr	w12, w11, w10, lsl #8
	cmp	w12, #4
	b.lo	.Ldcsctp_BB2_30
	cmp	x1, x12
	b.lo	.Ldcsctp_BB2_30
	orr	x11, x11, x10, lsl #8
	ldrh	w12, [x8]
	add	w10, w11, #3
	rev16	w12, w12
	sub	x11, x11, #4
	and	x10, x10, #0x1fffc
	cmp	x1, x10
	csel	x10, x1, x10, lo
	cmp	w12, #2
	b.eq	.Ldcsctp_BB2_28
	cmp	w12, #9
	b.eq	.Ldcsctp_BB2_18
	cmp	w12, #10
	b.ne	.Ldcsctp_BB2_20
	mov	x12, xzr
	b	.Ldcsctp_BB2_19
.Ldcsctp_BB2_28:
	cmp	x11, #4
	b.lo	.Ldcsctp_BB2_30
	ldr	w12, [x8, #4]
	rev	w12, w12
	ubfiz	x12, x12, #1, #32
	add	x12, x12, #4
	b	.Ldcsctp_BB2_19
.Ldcsctp_BB2_30:
	mov	w8, #1
	sub	x9, x2, x1
	str	xzr, [x19, #16]
	stp	x8, x9, [x19]
	.cfi_def_cfa wsp, 32
	ldp	x20, x19, [sp, #16]
	ldp	x29, x30, [sp], #32
	.cfi_def_cfa_offset 0
	.cfi_restore w19
	.cfi_restore w20
	.cfi_restore w30
	.cfi_restore w29
	hint	#29
	.cfi_negate_ra_state
	ret
.Ldcsctp_BB2_31:
	.cfi_restore_state
	mov	x9, xzr
.Ldcsctp_BB2_32:
	stp	xzr, x9, [x19]
	str	x9, [x19, #16]
	.cfi_def_cfa wsp, 32
	ldp	x20, x19, [sp, #16]
	ldp	x29, x30, [sp], #32
	.cfi_def_cfa_offset 0
	.cfi_restore w19
	.cfi_restore w20
	.cfi_restore w30
	.cfi_restore w29
	hint	#29
	.cfi_negate_ra_state
	ret
.Ldcsctp_func_end2:
	.size	dcsctp_tlv.reader.list_check.a6e1d811d2b3aa55, .Ldcsctp_func_end2-dcsctp_tlv.reader.list_check.a6e1d811d2b3aa55
	.cfi_endproc
	.section	.text.unlikely.dcsctp_tlv.frame.padding_fault,"ax",@progbits
	.p2align	2
	.type	dcsctp_tlv.frame.padding_fault,@function
dcsctp_tlv.frame.padding_fault:
	.cfi_startproc
	ldrh	w8, [x0, #2]
	rev16	w8, w8
	add	w9, w8, #3
	and	x9, x9, #0x1fffc
	cmp	x1, x9
	csel	x9, x1, x9, lo
	subs	x10, x9, x8
	b.eq	.Ldcsctp_BB3_6
	mov	x9, xzr
	add	x11, x0, x8
.Ldcsctp_BB3_2:
	ldrb	w12, [x11, x9]
	cbnz	w12, .Ldcsctp_BB3_5
	add	x9, x9, #1
	cmp	x10, x9
	b.ne	.Ldcsctp_BB3_2
	mov	x9, x10
.Ldcsctp_BB3_5:
	add	x0, x9, x8
	ret
.Ldcsctp_BB3_6:
	add	x0, xzr, x8
	ret
.Ldcsctp_func_end3:
	.size	dcsctp_tlv.frame.padding_fault, .Ldcsctp_func_end3-dcsctp_tlv.frame.padding_fault
	.cfi_endproc
	.section	.text.dcsctp_tlv.parameter.parameters_fill,"ax",@progbits
	.p2align	2
	.type	dcsctp_tlv.parameter.parameters_fill,@function
dcsctp_tlv.parameter.parameters_fill:
	.cfi_startproc
	cbz	x2, .Ldcsctp_BB4_8
	hint	#25
	.cfi_negate_ra_state
	str	d8, [sp, #-112]!
	.cfi_def_cfa_offset 112
	stp	x29, x30, [sp, #16]
	stp	x28, x27, [sp, #32]
	stp	x26, x25, [sp, #48]
	stp	x24, x23, [sp, #64]
	stp	x22, x21, [sp, #80]
	stp	x20, x19, [sp, #96]
	add	x29, sp, #16
	.cfi_def_cfa w29, 96
	.cfi_offset w19, -8
	.cfi_offset w20, -16
	.cfi_offset w21, -24
	.cfi_offset w22, -32
	.cfi_offset w23, -40
	.cfi_offset w24, -48
	.cfi_offset w25, -56
	.cfi_offset w26, -64
	.cfi_offset w27, -72
	.cfi_offset w28, -80
	.cfi_offset w30, -88
	.cfi_offset w29, -96
	.cfi_offset b8, -112
	.cfi_remember_state
	mov	x19, x2
	mov	x20, x1
	mov	x21, x0
	mov	x8, xzr
	mov	x9, x2
	mov	x10, x1
.Ldcsctp_BB4_2:
	ldrh	w11, [x10, #2]
	add	x8, x8, #1
	rev16	w11, w11
	add	w11, w11, #3
	and	x11, x11, #0x1fffc
	cmp	x9, x11
	csel	x11, x9, x11, lo
	subs	x9, x9, x11
	add	x10, x10, x11
	b.ne	.Ldcsctp_BB4_2
	ldp	x9, x10, [x21, #8]
	sub	x11, x10, x9
	cmp	x8, x11
	b.ls	.Ldcsctp_BB4_14
	cmn	x9, x8
	b.hs	.Ldcsctp_BB4_104
	add	x22, x9, x8
	mov	x8, #-6148914691236517206
	movk	x8, #682, lsl #48
	cmp	x22, x8
	b.hi	.Ldcsctp_BB4_104
	add	x8, x22, x22, lsl #1
	cbz	x10, .Ldcsctp_BB4_9
	add	x9, x9, x9, lsl #1
	ldr	x0, [x21]
	lsl	x2, x8, #4
	mov	w3, #8
	lsl	x1, x9, #4
	bl	rattle_realloc
	tbz	w0, #0, .Ldcsctp_BB4_104
	b	.Ldcsctp_BB4_10
.Ldcsctp_BB4_8:
	.cfi_def_cfa wsp, 0
	.cfi_negate_ra_state
	.cfi_same_value w19
	.cfi_same_value w20
	.cfi_same_value w21
	.cfi_same_value w22
	.cfi_same_value w23
	.cfi_same_value w24
	.cfi_same_value w25
	.cfi_same_value w26
	.cfi_same_value w27
	.cfi_same_value w28
	.cfi_same_value w30
	.cfi_same_value w29
	.cfi_same_value b8
	mov	w0, wzr
	ret
.Ldcsctp_BB4_9:
	.cfi_restore_state
	lsl	x0, x8, #4
	mov	w1, #8
	bl	rattle_alloc
	tbz	w0, #0, .Ldcsctp_BB4_104
.Ldcsctp_BB4_10:
	str	x1, [x21]
	str	x22, [x21, #16]
	b	.Ldcsctp_BB4_14
.Ldcsctp_BB4_11:
	ldp	x10, x8, [x21]
	mov	w9, #48
	ldr	w11, [x20, #4]
	mov	w12, #6
.Ldcsctp_BB4_12:
	madd	x9, x8, x9, x10
	ldrh	w10, [x20, #8]
	movi	v0.2d, #0000000000000000
	rev	w10, w10
	rev	w11, w11
	lsr	w10, w10, #16
	strb	w12, [x9]
	add	x8, x8, #1
	str	w11, [x9, #4]
	strh	w10, [x9, #8]
	stur	q0, [x9, #26]
	str	xzr, [x9, #40]
	stur	q0, [x9, #10]
.Ldcsctp_BB4_13:
	sub	x19, x19, x24
	add	x20, x20, x24
	str	x8, [x21, #8]
	cbz	x19, .Ldcsctp_BB4_105
.Ldcsctp_BB4_14:
	ldrb	w27, [x20, #3]
	ldrb	w28, [x20, #2]
	add	x25, x20, #4
	ldrh	w10, [x20]
	mov	x8, x27
	bfi	x8, x28, #8, #8
	rev16	w26, w10
	add	w9, w8, #3
	sub	x22, x8, #4
	and	x9, x9, #0x1fffc
	cmp	x19, x9
	csel	x24, x19, x9, lo
	cmp	w26, #16
	b.gt	.Ldcsctp_BB4_27
	cmp	w26, #14
	b.gt	.Ldcsctp_BB4_31
	cmp	w26, #13
	b.eq	.Ldcsctp_BB4_39
	cmp	w26, #14
	b.ne	.Ldcsctp_BB4_51
	sub	x23, x8, #8
	lsr	x22, x23, #1
	cbz	x22, .Ldcsctp_BB4_62
	cmp	x8, #8
	b.lo	.Ldcsctp_BB4_104
	and	x0, x23, #0x7ffffffffffffffe
	mov	w1, #2
	bl	rattle_alloc
	tbz	w0, #0, .Ldcsctp_BB4_104
	cmp	x23, #16
	b.lo	.Ldcsctp_BB4_24
	and	x8, x23, #0xfffffffffffffffe
	add	x9, x20, x8
	add	x9, x9, #8
	cmp	x9, x1
	add	x9, x20, #8
	b.ls	.Ldcsctp_BB4_79
	add	x8, x1, x8
	cmp	x9, x8
	b.hs	.Ldcsctp_BB4_79
.Ldcsctp_BB4_24:
	mov	x8, xzr
.Ldcsctp_BB4_25:
	add	x9, x20, x8, lsl #1
	add	x9, x9, #9
.Ldcsctp_BB4_26:
	ldurh	w10, [x9, #-1]
	add	x9, x9, #2
	rev	w10, w10
	lsr	w10, w10, #16
	strh	w10, [x1, x8, lsl #1]
	add	x8, x8, #1
	cmp	x22, x8
	b.ne	.Ldcsctp_BB4_26
	b	.Ldcsctp_BB4_63
.Ldcsctp_BB4_27:
	cmp	w26, #8, lsl #12
	b.gt	.Ldcsctp_BB4_36
	cmp	w26, #17
	b.eq	.Ldcsctp_BB4_11
	cmp	w26, #18
	b.ne	.Ldcsctp_BB4_51
	ldp	x10, x8, [x21]
	mov	w9, #48
	ldr	w11, [x20, #4]
	mov	w12, #7
	b	.Ldcsctp_BB4_12
.Ldcsctp_BB4_31:
	cmp	w26, #15
	b.eq	.Ldcsctp_BB4_48
	cmp	w26, #16
	b.ne	.Ldcsctp_BB4_51
	movi	v0.2d, #0000000000000000
	cmp	x22, #8
	b.eq	.Ldcsctp_BB4_35
	ldur	d0, [x20, #12]
	movi	v1.4s, #1
	rev32	v0.8b, v0.8b
	zip1	v0.4s, v0.4s, v0.4s
	trn1	v0.4s, v1.4s, v0.4s
.Ldcsctp_BB4_35:
	ldp	x10, x8, [x21]
	mov	w9, #48
	mov	w12, #5
	madd	x9, x8, x9, x10
	ldp	w11, w10, [x20, #4]
	rev	w10, w10
	rev	w11, w11
	strb	w12, [x9]
	mov	w12, #6
	cmp	w10, #6
	csel	w10, w10, w12, lo
	str	w11, [x9, #4]
	strb	w10, [x9, #8]
	sturh	wzr, [x9, #9]
	strb	wzr, [x9, #11]
	stur	q0, [x9, #12]
	stur	xzr, [x9, #36]
	stur	xzr, [x9, #28]
	str	wzr, [x9, #44]
	b	.Ldcsctp_BB4_76
.Ldcsctp_BB4_36:
	mov	w9, #32769
	cmp	w26, w9
	b.eq	.Ldcsctp_BB4_49
	cmp	w26, #12, lsl #12
	b.ne	.Ldcsctp_BB4_51
	ldp	x10, x8, [x21]
	mov	w9, #48
	movi	v0.2d, #0000000000000000
	madd	x9, x8, x9, x10
	mov	w10, #10
	add	x8, x8, #1
	strb	w10, [x9]
	stur	q0, [x9, #4]
	stur	q0, [x9, #20]
	str	q0, [x9, #32]
	b	.Ldcsctp_BB4_13
.Ldcsctp_BB4_39:
	sub	x25, x8, #16
	ldur	d8, [x20, #4]
	ldr	w23, [x20, #12]
	lsr	x22, x25, #1
	cbz	x22, .Ldcsctp_BB4_60
	cmp	x8, #16
	b.lo	.Ldcsctp_BB4_104
	and	x0, x25, #0x7ffffffffffffffe
	mov	w1, #2
	bl	rattle_alloc
	tbz	w0, #0, .Ldcsctp_BB4_104
	cmp	x25, #16
	b.lo	.Ldcsctp_BB4_45
	and	x8, x25, #0xfffffffffffffffe
	add	x9, x20, x8
	add	x9, x9, #16
	cmp	x9, x1
	add	x9, x20, #16
	b.ls	.Ldcsctp_BB4_77
	add	x8, x1, x8
	cmp	x9, x8
	b.hs	.Ldcsctp_BB4_77
.Ldcsctp_BB4_45:
	mov	x8, xzr
.Ldcsctp_BB4_46:
	add	x9, x20, x8, lsl #1
	add	x9, x9, #17
.Ldcsctp_BB4_47:
	ldurh	w10, [x9, #-1]
	add	x9, x9, #2
	rev	w10, w10
	lsr	w10, w10, #16
	strh	w10, [x1, x8, lsl #1]
	add	x8, x8, #1
	cmp	x22, x8
	b.ne	.Ldcsctp_BB4_47
	b	.Ldcsctp_BB4_61
.Ldcsctp_BB4_48:
	ldp	x10, x8, [x21]
	mov	w9, #48
	movi	v0.2d, #0000000000000000
	mov	w11, #4
	b	.Ldcsctp_BB4_50
.Ldcsctp_BB4_49:
	ldp	x10, x8, [x21]
	mov	w9, #48
	movi	v0.2d, #0000000000000000
	mov	w11, #8
.Ldcsctp_BB4_50:
	madd	x9, x8, x9, x10
	ldr	w10, [x25]
	rev	w10, w10
	strb	w11, [x9]
	str	w10, [x9, #4]
	stur	q0, [x9, #8]
	stur	q0, [x9, #24]
	b	.Ldcsctp_BB4_64
.Ldcsctp_BB4_51:
	cbz	x22, .Ldcsctp_BB4_65
	cmp	x8, #4
	b.lo	.Ldcsctp_BB4_104
	mov	x0, x22
	mov	w1, #1
	bl	rattle_alloc
	tbz	w0, #0, .Ldcsctp_BB4_104
	mov	x23, x1
	sub	x8, x1, x25
	cmp	x8, x22
	b.hs	.Ldcsctp_BB4_66
.Ldcsctp_BB4_55:
	lsl	x8, x28, #8
	add	x8, x8, x27
	sub	x9, x8, #4
	cmp	x9, #8
	b.lo	.Ldcsctp_BB4_57
	sub	x10, x23, x20
	sub	x10, x10, #4
	cmp	x10, #32
	b.hs	.Ldcsctp_BB4_81
.Ldcsctp_BB4_57:
	mov	x10, xzr
.Ldcsctp_BB4_58:
	sub	x8, x8, x10
	add	x9, x20, x10
	add	x10, x23, x10
	sub	x8, x8, #4
	add	x9, x9, #4
.Ldcsctp_BB4_59:
	ldrb	w11, [x9], #1
	subs	x8, x8, #1
	strb	w11, [x10], #1
	b.ne	.Ldcsctp_BB4_59
	b	.Ldcsctp_BB4_67
.Ldcsctp_BB4_60:
	sub	x1, x29, #2
.Ldcsctp_BB4_61:
	ldp	x10, x8, [x21]
	mov	w9, #48
	rev32	v0.8b, v8.8b
	madd	x9, x8, x9, x10
	mov	w10, #2
	add	x8, x8, #1
	strb	w10, [x9]
	rev	w10, w23
	str	wzr, [x9, #4]
	str	d0, [x9, #8]
	stp	w10, wzr, [x9, #16]
	stp	x1, x22, [x9, #24]
	str	x22, [x9, #40]
	b	.Ldcsctp_BB4_13
.Ldcsctp_BB4_62:
	sub	x1, x29, #2
.Ldcsctp_BB4_63:
	ldp	x10, x8, [x21]
	mov	w9, #48
	mov	w11, #3
	madd	x9, x8, x9, x10
	ldr	w10, [x25]
	rev	w10, w10
	strb	w11, [x9]
	stp	wzr, w10, [x9, #4]
	str	wzr, [x9, #12]
	stp	x1, x22, [x9, #16]
	str	x22, [x9, #32]
.Ldcsctp_BB4_64:
	add	x8, x8, #1
	str	xzr, [x9, #40]
	b	.Ldcsctp_BB4_13
.Ldcsctp_BB4_65:
	sub	x23, x29, #2
	sub	x8, x23, x25
	cmp	x8, x22
	b.lo	.Ldcsctp_BB4_55
.Ldcsctp_BB4_66:
	add	x1, x20, #4
	mov	x0, x23
	mov	x2, x22
	bl	memmove
.Ldcsctp_BB4_67:
	ldp	x10, x8, [x21]
	mov	w9, #48
	madd	x9, x8, x9, x10
	mov	w10, #32776
	cmp	w26, w10
	b.eq	.Ldcsctp_BB4_72
	cmp	w26, #7
	b.eq	.Ldcsctp_BB4_71
	cmp	w26, #1
	b.ne	.Ldcsctp_BB4_75
	strb	wzr, [x9]
	str	wzr, [x9, #4]
	b	.Ldcsctp_BB4_74
.Ldcsctp_BB4_71:
	mov	w10, #1
	b	.Ldcsctp_BB4_73
.Ldcsctp_BB4_72:
	mov	w10, #9
.Ldcsctp_BB4_73:
	str	wzr, [x9, #4]
	strb	w10, [x9]
.Ldcsctp_BB4_74:
	stp	x23, x22, [x9, #8]
	stp	xzr, xzr, [x9, #32]
	str	x22, [x9, #24]
	b	.Ldcsctp_BB4_76
.Ldcsctp_BB4_75:
	mov	w10, #11
	strb	wzr, [x9, #4]
	strb	w10, [x9]
	strb	wzr, [x9, #7]
	sturh	wzr, [x9, #5]
	strh	w26, [x9, #8]
	stur	wzr, [x9, #10]
	strh	wzr, [x9, #14]
	stp	x23, x22, [x9, #16]
	stp	x22, xzr, [x9, #32]
.Ldcsctp_BB4_76:
	add	x8, x8, #1
	b	.Ldcsctp_BB4_13
.Ldcsctp_BB4_77:
	cmp	x25, #64
	b.hs	.Ldcsctp_BB4_83
	mov	x8, xzr
	b	.Ldcsctp_BB4_87
.Ldcsctp_BB4_79:
	cmp	x23, #64
	b.hs	.Ldcsctp_BB4_90
	mov	x8, xzr
	b	.Ldcsctp_BB4_94
.Ldcsctp_BB4_81:
	cmp	x9, #32
	b.hs	.Ldcsctp_BB4_97
	mov	x10, xzr
	b	.Ldcsctp_BB4_101
.Ldcsctp_BB4_83:
	and	x8, x22, #0x7fffffffffffffe0
	add	x10, x20, #48
	add	x11, x1, #32
	and	x12, x22, #0x7fffffffffffffe0
.Ldcsctp_BB4_84:
	sub	x13, x10, #32
	ld2	{ v2.16b, v3.16b }, [x10]
	subs	x12, x12, #32
	add	x10, x10, #64
	ld2	{ v0.16b, v1.16b }, [x13]
	ushll2	v7.8h, v3.16b, #0
	shll	v16.8h, v2.8b, #8
	shll2	v4.8h, v0.16b, #8
	ushll2	v5.8h, v1.16b, #0
	shll	v6.8h, v0.8b, #8
	ushll	v0.8h, v1.8b, #0
	shll2	v1.8h, v2.16b, #8
	ushll	v2.8h, v3.8b, #0
	orr	v3.16b, v4.16b, v5.16b
	orr	v0.16b, v6.16b, v0.16b
	orr	v1.16b, v1.16b, v7.16b
	orr	v2.16b, v16.16b, v2.16b
	stp	q0, q3, [x11, #-32]
	stp	q2, q1, [x11], #64
	b.ne	.Ldcsctp_BB4_84
	cmp	x22, x8
	b.eq	.Ldcsctp_BB4_61
	tst	x25, #0x30
	b.eq	.Ldcsctp_BB4_46
.Ldcsctp_BB4_87:
	mov	x11, x8
	and	x8, x22, #0x7ffffffffffffff8
	lsl	x10, x11, #1
	sub	x11, x11, x8
.Ldcsctp_BB4_88:
	add	x12, x9, x10
	adds	x11, x11, #8
	ld2	{ v0.8b, v1.8b }, [x12]
	shll	v2.8h, v0.8b, #8
	ushll	v0.8h, v1.8b, #0
	orr	v0.16b, v2.16b, v0.16b
	str	q0, [x1, x10]
	add	x10, x10, #16
	b.ne	.Ldcsctp_BB4_88
	cmp	x22, x8
	b.eq	.Ldcsctp_BB4_61
	b	.Ldcsctp_BB4_46
.Ldcsctp_BB4_90:
	and	x8, x22, #0x7fffffffffffffe0
	add	x10, x20, #40
	add	x11, x1, #32
	and	x12, x22, #0x7fffffffffffffe0
.Ldcsctp_BB4_91:
	sub	x13, x10, #32
	ld2	{ v2.16b, v3.16b }, [x10]
	subs	x12, x12, #32
	add	x10, x10, #64
	ld2	{ v0.16b, v1.16b }, [x13]
	ushll2	v7.8h, v3.16b, #0
	shll	v16.8h, v2.8b, #8
	shll2	v4.8h, v0.16b, #8
	ushll2	v5.8h, v1.16b, #0
	shll	v6.8h, v0.8b, #8
	ushll	v0.8h, v1.8b, #0
	shll2	v1.8h, v2.16b, #8
	ushll	v2.8h, v3.8b, #0
	orr	v3.16b, v4.16b, v5.16b
	orr	v0.16b, v6.16b, v0.16b
	orr	v1.16b, v1.16b, v7.16b
	orr	v2.16b, v16.16b, v2.16b
	stp	q0, q3, [x11, #-32]
	stp	q2, q1, [x11], #64
	b.ne	.Ldcsctp_BB4_91
	cmp	x22, x8
	b.eq	.Ldcsctp_BB4_63
	tst	x23, #0x30
	b.eq	.Ldcsctp_BB4_25
.Ldcsctp_BB4_94:
	mov	x11, x8
	and	x8, x22, #0x7ffffffffffffff8
	lsl	x10, x11, #1
	sub	x11, x11, x8
.Ldcsctp_BB4_95:
	add	x12, x9, x10
	adds	x11, x11, #8
	ld2	{ v0.8b, v1.8b }, [x12]
	shll	v2.8h, v0.8b, #8
	ushll	v0.8h, v1.8b, #0
	orr	v0.16b, v2.16b, v0.16b
	str	q0, [x1, x10]
	add	x10, x10, #16
	b.ne	.Ldcsctp_BB4_95
	cmp	x22, x8
	b.eq	.Ldcsctp_BB4_63
	b	.Ldcsctp_BB4_25
.Ldcsctp_BB4_97:
	and	x11, x9, #0x18
	and	x10, x9, #0xffffffffffffffe0
	add	x12, x20, #20
	add	x13, x23, #16
	and	x14, x9, #0xffffffffffffffe0
.Ldcsctp_BB4_98:
	ldp	q0, q1, [x12, #-16]
	subs	x14, x14, #32
	add	x12, x12, #32
	stp	q0, q1, [x13, #-16]
	add	x13, x13, #32
	b.ne	.Ldcsctp_BB4_98
	cmp	x9, x10
	b.eq	.Ldcsctp_BB4_67
	cbz	x11, .Ldcsctp_BB4_58
.Ldcsctp_BB4_101:
	mov	x13, x10
	and	x10, x9, #0xfffffffffffffff8
	add	x12, x20, x13
	sub	x11, x13, x10
	add	x13, x23, x13
	add	x12, x12, #4
.Ldcsctp_BB4_102:
	ldr	d0, [x12], #8
	adds	x11, x11, #8
	str	d0, [x13], #8
	b.ne	.Ldcsctp_BB4_102
	cmp	x9, x10
	b.eq	.Ldcsctp_BB4_67
	b	.Ldcsctp_BB4_58
.Ldcsctp_BB4_104:
	mov	w0, #1
	b	.Ldcsctp_BB4_106
.Ldcsctp_BB4_105:
	mov	w0, wzr
.Ldcsctp_BB4_106:
	.cfi_def_cfa wsp, 112
	ldp	x20, x19, [sp, #96]
	ldp	x22, x21, [sp, #80]
	ldp	x24, x23, [sp, #64]
	ldp	x26, x25, [sp, #48]
	ldp	x28, x27, [sp, #32]
	ldp	x29, x30, [sp, #16]
	ldr	d8, [sp], #112
	.cfi_def_cfa_offset 0
	.cfi_restore w19
	.cfi_restore w20
	.cfi_restore w21
	.cfi_restore w22
	.cfi_restore w23
	.cfi_restore w24
	.cfi_restore w25
	.cfi_restore w26
	.cfi_restore w27
	.cfi_restore w28
	.cfi_restore w30
	.cfi_restore w29
	.cfi_restore b8
	hint	#29
	.cfi_negate_ra_state
	ret
.Ldcsctp_func_end4:
	.size	dcsctp_tlv.parameter.parameters_fill, .Ldcsctp_func_end4-dcsctp_tlv.parameter.parameters_fill
	.cfi_endproc
	.section	.text.dcsctp_cause.error_causes.error_cause_fill,"ax",@progbits
	.p2align	2
	.type	dcsctp_cause.error_causes.error_cause_fill,@function
dcsctp_cause.error_causes.error_cause_fill:
	.cfi_startproc
	cbz	x2, .Ldcsctp_BB5_8
	hint	#25
	.cfi_negate_ra_state
	sub	sp, sp, #128
	.cfi_def_cfa_offset 128
	stp	x29, x30, [sp, #32]
	stp	x28, x27, [sp, #48]
	stp	x26, x25, [sp, #64]
	stp	x24, x23, [sp, #80]
	stp	x22, x21, [sp, #96]
	stp	x20, x19, [sp, #112]
	add	x29, sp, #32
	.cfi_def_cfa w29, 96
	.cfi_offset w19, -8
	.cfi_offset w20, -16
	.cfi_offset w21, -24
	.cfi_offset w22, -32
	.cfi_offset w23, -40
	.cfi_offset w24, -48
	.cfi_offset w25, -56
	.cfi_offset w26, -64
	.cfi_offset w27, -72
	.cfi_offset w28, -80
	.cfi_offset w30, -88
	.cfi_offset w29, -96
	.cfi_remember_state
	mov	x19, x2
	mov	x20, x1
	mov	x21, x0
	mov	x8, xzr
	mov	x9, x2
	mov	x10, x1
.Ldcsctp_BB5_2:
	ldrh	w11, [x10, #2]
	add	x8, x8, #1
	rev16	w11, w11
	add	w11, w11, #3
	and	x11, x11, #0x1fffc
	cmp	x9, x11
	csel	x11, x9, x11, lo
	subs	x9, x9, x11
	add	x10, x10, x11
	b.ne	.Ldcsctp_BB5_2
	ldp	x9, x10, [x21, #8]
	sub	x11, x10, x9
	cmp	x8, x11
	b.ls	.Ldcsctp_BB5_13
	cmn	x9, x8
	b.hs	.Ldcsctp_BB5_105
	add	x22, x9, x8
	mov	x8, #3689348814741910323
	movk	x8, #819, lsl #48
	cmp	x22, x8
	b.hi	.Ldcsctp_BB5_105
	add	x8, x22, x22, lsl #2
	cbz	x10, .Ldcsctp_BB5_9
	add	x9, x9, x9, lsl #2
	ldr	x0, [x21]
	lsl	x2, x8, #3
	mov	w3, #8
	lsl	x1, x9, #3
	bl	rattle_realloc
	tbz	w0, #0, .Ldcsctp_BB5_105
	b	.Ldcsctp_BB5_10
.Ldcsctp_BB5_8:
	.cfi_def_cfa wsp, 0
	.cfi_negate_ra_state
	.cfi_same_value w19
	.cfi_same_value w20
	.cfi_same_value w21
	.cfi_same_value w22
	.cfi_same_value w23
	.cfi_same_value w24
	.cfi_same_value w25
	.cfi_same_value w26
	.cfi_same_value w27
	.cfi_same_value w28
	.cfi_same_value w30
	.cfi_same_value w29
	mov	w0, wzr
	ret
.Ldcsctp_BB5_9:
	.cfi_restore_state
	.cfi_remember_state
	lsl	x0, x8, #3
	mov	w1, #8
	bl	rattle_alloc
	tbz	w0, #0, .Ldcsctp_BB5_105
.Ldcsctp_BB5_10:
	str	x1, [x21]
	str	x22, [x21, #16]
	b	.Ldcsctp_BB5_13
.Ldcsctp_BB5_11:
	ldp	x10, x8, [x21]
	mov	w9, #40
	movi	v0.2d, #0000000000000000
	madd	x9, x8, x9, x10
	mov	w10, #3
	add	x8, x8, #1
	strb	w10, [x9]
	stur	q0, [x9, #4]
	stur	q0, [x9, #20]
	str	wzr, [x9, #36]
.Ldcsctp_BB5_12:
	sub	x19, x19, x25
	add	x20, x20, x25
	str	x8, [x21, #8]
	cbz	x19, .Ldcsctp_BB5_106
.Ldcsctp_BB5_13:
	ldrb	w26, [x20, #3]
	ldrb	w27, [x20, #2]
	add	x28, x20, #4
	ldrh	w10, [x20]
	mov	x8, x26
	bfi	x8, x27, #8, #8
	rev16	w24, w10
	add	w9, w8, #3
	sub	x22, x8, #4
	and	x9, x9, #0x1fffc
	cmp	x19, x9
	csel	x25, x19, x9, lo
	cmp	w24, #9
	b.le	.Ldcsctp_BB5_25
	cmp	w24, #10
	b.eq	.Ldcsctp_BB5_11
	cmp	w24, #12
	b.eq	.Ldcsctp_BB5_28
	cmp	w24, #13
	b.ne	.Ldcsctp_BB5_44
	mov	x0, sp
	add	x1, x20, #4
	mov	x2, x22
	stp	xzr, xzr, [sp]
	str	xzr, [sp, #16]
	bl	core.str.utf8.from_utf8
	ldrb	w8, [sp]
	ldp	x10, x9, [sp, #8]
	cmp	w8, #0
	mov	w8, #38
	csel	x22, x9, x8, eq
	adrp	x8, .Ldcsctp_static.1
	add	x8, x8, :lo12:.Ldcsctp_static.1
	csel	x24, x10, x8, eq
	cbz	x22, .Ldcsctp_BB5_57
	tbnz	x22, #63, .Ldcsctp_BB5_105
	mov	x0, x22
	mov	w1, #1
	mov	w26, #1
	bl	rattle_alloc
	tbz	w0, #0, .Ldcsctp_BB5_108
	mov	x23, x1
	sub	x9, x1, x24
	cmp	x9, x22
	b.hs	.Ldcsctp_BB5_58
.Ldcsctp_BB5_21:
	cmp	x22, #8
	mov	x8, xzr
	b.lo	.Ldcsctp_BB5_84
	cmp	x9, #32
	b.lo	.Ldcsctp_BB5_84
	cmp	x22, #32
	b.hs	.Ldcsctp_BB5_77
	mov	x8, xzr
	b	.Ldcsctp_BB5_81
.Ldcsctp_BB5_25:
	cmp	w24, #2
	b.eq	.Ldcsctp_BB5_36
	cmp	w24, #9
	b.ne	.Ldcsctp_BB5_44
	ldp	x10, x8, [x21]
	mov	w9, #40
	movi	v0.2d, #0000000000000000
	mov	w11, #2
	madd	x9, x8, x9, x10
	ldr	w10, [x28]
	add	x8, x8, #1
	rev	w10, w10
	strb	w11, [x9]
	str	w10, [x9, #4]
	stur	q0, [x9, #8]
	stur	q0, [x9, #24]
	b	.Ldcsctp_BB5_12
.Ldcsctp_BB5_28:
	mov	x0, sp
	add	x1, x20, #4
	mov	x2, x22
	stp	xzr, xzr, [sp]
	str	xzr, [sp, #16]
	bl	core.str.utf8.from_utf8
	ldrb	w8, [sp]
	ldp	x10, x9, [sp, #8]
	cmp	w8, #0
	mov	w8, #28
	csel	x22, x9, x8, eq
	adrp	x8, .Ldcsctp_static.0
	add	x8, x8, :lo12:.Ldcsctp_static.0
	csel	x24, x10, x8, eq
	cbz	x22, .Ldcsctp_BB5_53
	tbnz	x22, #63, .Ldcsctp_BB5_105
	mov	x0, x22
	mov	w1, #1
	bl	rattle_alloc
	tbz	w0, #0, .Ldcsctp_BB5_105
	mov	x23, x1
	sub	x9, x1, x24
	cmp	x9, x22
	b.hs	.Ldcsctp_BB5_54
.Ldcsctp_BB5_32:
	cmp	x22, #8
	mov	x8, xzr
	b.lo	.Ldcsctp_BB5_74
	cmp	x9, #32
	b.lo	.Ldcsctp_BB5_74
	cmp	x22, #32
	b.hs	.Ldcsctp_BB5_67
	mov	x8, xzr
	b	.Ldcsctp_BB5_71
.Ldcsctp_BB5_36:
	ldr	w8, [x20, #4]
	rev	w23, w8
	cbz	w8, .Ldcsctp_BB5_55
	lsl	x22, x23, #1
	mov	w1, #2
	mov	x0, x22
	bl	rattle_alloc
	tbz	w0, #0, .Ldcsctp_BB5_105
	cmp	w23, #8
	b.lo	.Ldcsctp_BB5_41
	add	x8, x20, x22
	add	x9, x20, #8
	add	x8, x8, #8
	cmp	x8, x1
	b.ls	.Ldcsctp_BB5_65
	add	x8, x1, x22
	cmp	x9, x8
	b.hs	.Ldcsctp_BB5_65
.Ldcsctp_BB5_41:
	mov	x8, xzr
.Ldcsctp_BB5_42:
	add	x9, x20, x8, lsl #1
	add	x9, x9, #9
.Ldcsctp_BB5_43:
	ldurh	w10, [x9, #-1]
	add	x9, x9, #2
	rev	w10, w10
	lsr	w10, w10, #16
	strh	w10, [x1, x8, lsl #1]
	add	x8, x8, #1
	cmp	x23, x8
	b.ne	.Ldcsctp_BB5_43
	b	.Ldcsctp_BB5_56
.Ldcsctp_BB5_44:
	cbz	x22, .Ldcsctp_BB5_59
	cmp	x8, #4
	b.lo	.Ldcsctp_BB5_105
	mov	x0, x22
	mov	w1, #1
	mov	w23, #1
	bl	rattle_alloc
	tbz	w0, #0, .Ldcsctp_BB5_109
	mov	x15, x1
	sub	x8, x1, x28
	cmp	x8, x22
	b.hs	.Ldcsctp_BB5_60
.Ldcsctp_BB5_48:
	lsl	x8, x27, #8
	add	x8, x8, x26
	sub	x9, x8, #4
	cmp	x9, #8
	b.lo	.Ldcsctp_BB5_50
	sub	x10, x15, x20
	sub	x10, x10, #4
	cmp	x10, #32
	b.hs	.Ldcsctp_BB5_89
.Ldcsctp_BB5_50:
	mov	x10, xzr
.Ldcsctp_BB5_51:
	sub	x8, x8, x10
	add	x9, x20, x10
	add	x10, x15, x10
	sub	x8, x8, #4
	add	x9, x9, #4
.Ldcsctp_BB5_52:
	ldrb	w11, [x9], #1
	subs	x8, x8, #1
	strb	w11, [x10], #1
	b.ne	.Ldcsctp_BB5_52
	b	.Ldcsctp_BB5_61
.Ldcsctp_BB5_53:
	sub	x23, x29, #2
	sub	x9, x23, x24
	cmp	x9, x22
	b.lo	.Ldcsctp_BB5_32
.Ldcsctp_BB5_54:
	mov	x0, x23
	mov	x1, x24
	mov	x2, x22
	bl	memmove
	b	.Ldcsctp_BB5_76
.Ldcsctp_BB5_55:
	sub	x1, x29, #2
.Ldcsctp_BB5_56:
	ldp	x10, x8, [x21]
	mov	w9, #40
	madd	x9, x8, x9, x10
	strb	wzr, [x9]
	str	wzr, [x9, #4]
	stp	x1, x23, [x9, #8]
	str	x23, [x9, #24]
	b	.Ldcsctp_BB5_88
.Ldcsctp_BB5_57:
	sub	x23, x29, #2
	sub	x9, x23, x24
	cmp	x9, x22
	b.lo	.Ldcsctp_BB5_21
.Ldcsctp_BB5_58:
	mov	x0, x23
	mov	x1, x24
	mov	x2, x22
	bl	memmove
	b	.Ldcsctp_BB5_86
.Ldcsctp_BB5_59:
	sub	x15, x29, #2
	sub	x8, x15, x28
	cmp	x8, x22
	b.lo	.Ldcsctp_BB5_48
.Ldcsctp_BB5_60:
	add	x1, x20, #4
	mov	x0, x15
	mov	x2, x22
	mov	x23, x15
	bl	memmove
	mov	x15, x23
.Ldcsctp_BB5_61:
	ldp	x10, x8, [x21]
	mov	w9, #40
	cmp	w24, #6
	madd	x9, x8, x9, x10
	b.ne	.Ldcsctp_BB5_63
	mov	w10, #1
	str	wzr, [x9, #4]
	strb	w10, [x9]
	stp	x15, x22, [x9, #8]
	stp	x22, xzr, [x9, #24]
	b	.Ldcsctp_BB5_64
.Ldcsctp_BB5_63:
	mov	w10, #6
	str	wzr, [x9, #4]
	strb	w10, [x9]
	strh	w24, [x9, #8]
	stur	wzr, [x9, #10]
	strh	wzr, [x9, #14]
	stp	x15, x22, [x9, #16]
	str	x22, [x9, #32]
.Ldcsctp_BB5_64:
	add	x8, x8, #1
	b	.Ldcsctp_BB5_12
.Ldcsctp_BB5_65:
	cmp	w23, #32
	b.hs	.Ldcsctp_BB5_91
	mov	x8, xzr
	b	.Ldcsctp_BB5_95
.Ldcsctp_BB5_67:
	and	x9, x22, #0x18
	and	x8, x22, #0xffffffffffffffe0
	add	x10, x24, #16
	add	x11, x23, #16
	and	x12, x22, #0xffffffffffffffe0
.Ldcsctp_BB5_68:
	ldp	q0, q1, [x10, #-16]
	subs	x12, x12, #32
	add	x10, x10, #32
	stp	q0, q1, [x11, #-16]
	add	x11, x11, #32
	b.ne	.Ldcsctp_BB5_68
	cmp	x22, x8
	b.eq	.Ldcsctp_BB5_76
	cbz	x9, .Ldcsctp_BB5_74
.Ldcsctp_BB5_71:
	mov	x11, x8
	and	x8, x22, #0xfffffffffffffff8
	sub	x9, x11, x8
	add	x10, x24, x11
	add	x11, x23, x11
.Ldcsctp_BB5_72:
	ldr	d0, [x10], #8
	adds	x9, x9, #8
	str	d0, [x11], #8
	b.ne	.Ldcsctp_BB5_72
	cmp	x22, x8
	b.eq	.Ldcsctp_BB5_76
.Ldcsctp_BB5_74:
	sub	x9, x22, x8
	add	x10, x24, x8
	add	x8, x23, x8
.Ldcsctp_BB5_75:
	ldrb	w11, [x10], #1
	subs	x9, x9, #1
	strb	w11, [x8], #1
	b.ne	.Ldcsctp_BB5_75
.Ldcsctp_BB5_76:
	ldp	x10, x8, [x21]
	mov	w9, #40
	madd	x9, x8, x9, x10
	mov	w10, #4
	b	.Ldcsctp_BB5_87
.Ldcsctp_BB5_77:
	and	x9, x22, #0x18
	and	x8, x22, #0xffffffffffffffe0
	add	x10, x24, #16
	add	x11, x23, #16
	and	x12, x22, #0xffffffffffffffe0
.Ldcsctp_BB5_78:
	ldp	q0, q1, [x10, #-16]
	subs	x12, x12, #32
	add	x10, x10, #32
	stp	q0, q1, [x11, #-16]
	add	x11, x11, #32
	b.ne	.Ldcsctp_BB5_78
	cmp	x22, x8
	b.eq	.Ldcsctp_BB5_86
	cbz	x9, .Ldcsctp_BB5_84
.Ldcsctp_BB5_81:
	mov	x11, x8
	and	x8, x22, #0xfffffffffffffff8
	sub	x9, x11, x8
	add	x10, x24, x11
	add	x11, x23, x11
.Ldcsctp_BB5_82:
	ldr	d0, [x10], #8
	adds	x9, x9, #8
	str	d0, [x11], #8
	b.ne	.Ldcsctp_BB5_82
	cmp	x22, x8
	b.eq	.Ldcsctp_BB5_86
.Ldcsctp_BB5_84:
	sub	x9, x22, x8
	add	x10, x24, x8
	add	x8, x23, x8
.Ldcsctp_BB5_85:
	ldrb	w11, [x10], #1
	subs	x9, x9, #1
	strb	w11, [x8], #1
	b.ne	.Ldcsctp_BB5_85
.Ldcsctp_BB5_86:
	ldp	x10, x8, [x21]
	mov	w9, #40
	madd	x9, x8, x9, x10
	mov	w10, #5
.Ldcsctp_BB5_87:
	strb	w10, [x9]
	str	wzr, [x9, #4]
	stp	x23, x22, [x9, #8]
	str	x22, [x9, #24]
.Ldcsctp_BB5_88:
	add	x8, x8, #1
	str	xzr, [x9, #32]
	b	.Ldcsctp_BB5_12
.Ldcsctp_BB5_89:
	cmp	x9, #32
	b.hs	.Ldcsctp_BB5_98
	mov	x10, xzr
	b	.Ldcsctp_BB5_102
.Ldcsctp_BB5_91:
	and	x10, x23, #0x18
	and	x8, x23, #0xffffffe0
	add	x11, x20, #40
	add	x12, x1, #32
	and	x13, x23, #0xffffffe0
.Ldcsctp_BB5_92:
	sub	x14, x11, #32
	ld2	{ v2.16b, v3.16b }, [x11]
	subs	x13, x13, #32
	add	x11, x11, #64
	ld2	{ v0.16b, v1.16b }, [x14]
	ushll2	v7.8h, v3.16b, #0
	shll	v16.8h, v2.8b, #8
	shll2	v4.8h, v0.16b, #8
	ushll2	v5.8h, v1.16b, #0
	shll	v6.8h, v0.8b, #8
	ushll	v0.8h, v1.8b, #0
	shll2	v1.8h, v2.16b, #8
	ushll	v2.8h, v3.8b, #0
	orr	v3.16b, v4.16b, v5.16b
	orr	v0.16b, v6.16b, v0.16b
	orr	v1.16b, v1.16b, v7.16b
	orr	v2.16b, v16.16b, v2.16b
	stp	q0, q3, [x12, #-32]
	stp	q2, q1, [x12], #64
	b.ne	.Ldcsctp_BB5_92
	cmp	x8, x23
	b.eq	.Ldcsctp_BB5_56
	cbz	x10, .Ldcsctp_BB5_42
.Ldcsctp_BB5_95:
	mov	x11, x8
	and	x8, x23, #0xfffffff8
	lsl	x10, x11, #1
	sub	x11, x11, x8
.Ldcsctp_BB5_96:
	add	x12, x9, x10
	adds	x11, x11, #8
	ld2	{ v0.8b, v1.8b }, [x12]
	shll	v2.8h, v0.8b, #8
	ushll	v0.8h, v1.8b, #0
	orr	v0.16b, v2.16b, v0.16b
	str	q0, [x1, x10]
	add	x10, x10, #16
	b.ne	.Ldcsctp_BB5_96
	cmp	x8, x23
	b.eq	.Ldcsctp_BB5_56
	b	.Ldcsctp_BB5_42
.Ldcsctp_BB5_98:
	and	x11, x9, #0x18
	and	x10, x9, #0xffffffffffffffe0
	add	x12, x20, #20
	add	x13, x15, #16
	and	x14, x9, #0xffffffffffffffe0
.Ldcsctp_BB5_99:
	ldp	q0, q1, [x12, #-16]
	subs	x14, x14, #32
	add	x12, x12, #32
	stp	q0, q1, [x13, #-16]
	add	x13, x13, #32
	b.ne	.Ldcsctp_BB5_99
	cmp	x9, x10
	b.eq	.Ldcsctp_BB5_61
	cbz	x11, .Ldcsctp_BB5_51
.Ldcsctp_BB5_102:
	mov	x13, x10
	and	x10, x9, #0xfffffffffffffff8
	add	x12, x20, x13
	sub	x11, x13, x10
	add	x13, x15, x13
	add	x12, x12, #4
.Ldcsctp_BB5_103:
	ldr	d0, [x12], #8
	adds	x11, x11, #8
	str	d0, [x13], #8
	b.ne	.Ldcsctp_BB5_103
	cmp	x9, x10
	b.eq	.Ldcsctp_BB5_61
	b	.Ldcsctp_BB5_51
.Ldcsctp_BB5_105:
	mov	w0, #1
	b	.Ldcsctp_BB5_107
.Ldcsctp_BB5_106:
	mov	w0, wzr
.Ldcsctp_BB5_107:
	.cfi_def_cfa wsp, 128
	ldp	x20, x19, [sp, #112]
	ldp	x22, x21, [sp, #96]
	ldp	x24, x23, [sp, #80]
	ldp	x26, x25, [sp, #64]
	ldp	x28, x27, [sp, #48]
	ldp	x29, x30, [sp, #32]
	add	sp, sp, #128
	.cfi_def_cfa_offset 0
	.cfi_restore w19
	.cfi_restore w20
	.cfi_restore w21
	.cfi_restore w22
	.cfi_restore w23
	.cfi_restore w24
	.cfi_restore w25
	.cfi_restore w26
	.cfi_restore w27
	.cfi_restore w28
	.cfi_restore w30
	.cfi_restore w29
	hint	#29
	.cfi_negate_ra_state
	ret
.Ldcsctp_BB5_108:
	.cfi_restore_state
	mov	w0, w26
	b	.Ldcsctp_BB5_107
.Ldcsctp_BB5_109:
	mov	w0, w23
	b	.Ldcsctp_BB5_107
.Ldcsctp_func_end5:
	.size	dcsctp_cause.error_causes.error_cause_fill, .Ldcsctp_func_end5-dcsctp_cause.error_causes.error_cause_fill
	.cfi_endproc
	.section	.text.core.str.utf8.from_utf8,"ax",@progbits
	.p2align	2
	.type	core.str.utf8.from_utf8,@function
core.str.utf8.from_utf8:
	.cfi_startproc
	hint	#25
	.cfi_negate_ra_state
	sub	sp, sp, #64
	.cfi_def_cfa_offset 64
	stp	x29, x30, [sp, #16]
	stp	x22, x21, [sp, #32]
	stp	x20, x19, [sp, #48]
	add	x29, sp, #16
	.cfi_def_cfa w29, 48
	.cfi_offset w19, -8
	.cfi_offset w20, -16
	.cfi_offset w21, -24
	.cfi_offset w22, -32
	.cfi_offset w30, -40
	.cfi_offset w29, -48
	.cfi_remember_state
	mov	x20, x2
	mov	x21, x1
	mov	x19, x0
	cbz	x2, .Ldcsctp_BB6_51
	mov	x9, xzr
	sub	x22, x20, #8
	b	.Ldcsctp_BB6_6
.Ldcsctp_BB6_2:
	and	w11, w11, #0xff
	tbnz	w11, #7, .Ldcsctp_BB6_23
.Ldcsctp_BB6_3:
	mov	w12, #1
.Ldcsctp_BB6_4:
	add	x8, x12, x9
.Ldcsctp_BB6_5:
	cmp	x8, x20
	mov	x9, x8
	b.hs	.Ldcsctp_BB6_51
.Ldcsctp_BB6_6:
	add	x8, x21, x9
	sub	x10, x20, x9
	ldrsb	w11, [x8]
	cmp	x10, #2
	b.lo	.Ldcsctp_BB6_2
	tbnz	w11, #31, .Ldcsctp_BB6_2
	ldrsb	w11, [x8, #1]
	tbnz	w11, #31, .Ldcsctp_BB6_3
	cmp	x10, #7
	stp	x21, x20, [sp]
	b.hi	.Ldcsctp_BB6_28
	ldrsb	w8, [x21, x9]
	tbnz	w8, #31, .Ldcsctp_BB6_43
	add	x8, x9, #1
	cmp	x8, x20
	b.eq	.Ldcsctp_BB6_51
	ldrsb	w10, [x21, x8]
	tbnz	w10, #31, .Ldcsctp_BB6_5
	add	x8, x9, #2
	cmp	x8, x20
	b.eq	.Ldcsctp_BB6_51
	ldrsb	w10, [x21, x8]
	tbnz	w10, #31, .Ldcsctp_BB6_5
	add	x8, x9, #3
	cmp	x8, x20
	b.eq	.Ldcsctp_BB6_51
	ldrsb	w10, [x21, x8]
	tbnz	w10, #31, .Ldcsctp_BB6_5
	add	x8, x9, #4
	cmp	x8, x20
	b.eq	.Ldcsctp_BB6_51
	ldrsb	w10, [x21, x8]
	tbnz	w10, #31, .Ldcsctp_BB6_5
	add	x8, x9, #5
	cmp	x8, x20
	b.eq	.Ldcsctp_BB6_51
	ldrsb	w10, [x21, x8]
	tbnz	w10, #31, .Ldcsctp_BB6_5
	add	x8, x9, #6
	cmp	x8, x20
	b.eq	.Ldcsctp_BB6_51
	ldrsb	w9, [x21, x8]
	tbnz	w9, #31, .Ldcsctp_BB6_5
	b	.Ldcsctp_BB6_51
.Ldcsctp_BB6_23:
	cmp	w11, #194
	b.lo	.Ldcsctp_BB6_59
	cmp	w11, #223
	b.hi	.Ldcsctp_BB6_36
	cmp	x10, #2
	b.lo	.Ldcsctp_BB6_58
	ldrsb	w12, [x8, #1]
	cmn	w12, #65
	b.gt	.Ldcsctp_BB6_55
	mov	w12, #2
	b	.Ldcsctp_BB6_4
.Ldcsctp_BB6_28:
	ldr	x8, [x8]
	mov	w10, #8
	ands	x8, x8, #0x8080808080808080
	rbit	x8, x8
	clz	x8, x8
	lsr	x8, x8, #3
	csel	x8, x10, x8, eq
	add	x8, x8, x9
	add	x9, x9, #8
	cmp	x8, x9
	b.lo	.Ldcsctp_BB6_5
	sub	x9, x20, x8
	cmp	x9, #32
	b.lo	.Ldcsctp_BB6_32
.Ldcsctp_BB6_30:
	add	x9, x21, x8
	ldp	q1, q0, [x9]
	orr	v0.16b, v1.16b, v0.16b
	ext	v1.16b, v0.16b, v0.16b, #8
	orr	v0.8b, v0.8b, v1.8b
	fmov	x9, d0
	tst	x9, #0x8080808080808080
	b.ne	.Ldcsctp_BB6_32
	mov	x0, sp
	add	x1, x8, #32
	mov	x2, x20
	bl	core.slice.words.skip_far.52f9edcae2f82f51
	sub	x9, x20, x0
	mov	x8, x0
	cmp	x9, #31
	b.hi	.Ldcsctp_BB6_30
.Ldcsctp_BB6_32:
	sub	x9, x20, x8
.Ldcsctp_BB6_33:
	cmp	x9, #9
	b.lo	.Ldcsctp_BB6_50
	ldr	x10, [x21, x8]
	mov	w11, #8
	sub	x9, x9, #8
	ands	x10, x10, #0x8080808080808080
	rbit	x10, x10
	clz	x10, x10
	lsr	x10, x10, #3
	csel	x10, x11, x10, eq
	add	x11, x10, x8
	add	x8, x8, #8
	cmp	x11, x8
	b.hs	.Ldcsctp_BB6_33
	add	x8, x10, x8
	sub	x8, x8, #8
	b	.Ldcsctp_BB6_5
.Ldcsctp_BB6_36:
	cmp	w11, #239
	b.hi	.Ldcsctp_BB6_44
	cmp	x10, #3
	b.lo	.Ldcsctp_BB6_53
	ldrsb	w12, [x8, #1]
	cmn	w12, #65
	b.gt	.Ldcsctp_BB6_55
	ldrsb	w13, [x8, #2]
	cmn	w13, #65
	b.gt	.Ldcsctp_BB6_55
	and	w13, w12, #0xff
	mov	w14, #-14464
	add	w13, w13, w11, lsl #6
	add	w13, w13, w14
	cmp	w13, #32
	b.lo	.Ldcsctp_BB6_55
	cmp	w13, #896
	mov	w12, #3
	csel	x14, xzr, x12, lo
	cmp	w13, #864
	b.lo	.Ldcsctp_BB6_4
	mov	x12, x14
	b	.Ldcsctp_BB6_49
.Ldcsctp_BB6_43:
	mov	x8, x9
	b	.Ldcsctp_BB6_5
.Ldcsctp_BB6_44:
	cmp	x10, #4
	b.lo	.Ldcsctp_BB6_52
	ldrsb	w12, [x8, #1]
	cmn	w12, #65
	b.gt	.Ldcsctp_BB6_52
	ldrsb	w13, [x8, #2]
	cmn	w13, #65
	b.gt	.Ldcsctp_BB6_52
	ldrsb	w13, [x8, #3]
	cmn	w13, #65
	b.gt	.Ldcsctp_BB6_52
	and	w12, w12, #0xff
	mov	w13, #-15488
	add	w12, w12, w11, lsl #6
	add	w13, w12, w13
	mov	w12, #4
	cmp	w13, #272
	csel	x12, x12, xzr, lo
	cmp	w13, #16
	b.lo	.Ldcsctp_BB6_52
.Ldcsctp_BB6_49:
	cbnz	x12, .Ldcsctp_BB6_4
	b	.Ldcsctp_BB6_52
.Ldcsctp_BB6_50:
	ldr	x8, [x21, x22]
	mov	w9, #8
	ands	x8, x8, #0x8080808080808080
	rbit	x8, x8
	clz	x8, x8
	lsr	x8, x8, #3
	csel	x8, x9, x8, eq
	add	x8, x8, x22
	b	.Ldcsctp_BB6_5
.Ldcsctp_BB6_51:
	stp	xzr, x21, [x19]
	str	x20, [x19, #16]
	.cfi_def_cfa wsp, 64
	ldp	x20, x19, [sp, #48]
	ldp	x22, x21, [sp, #32]
	ldp	x29, x30, [sp, #16]
	add	sp, sp, #64
	.cfi_def_cfa_offset 0
	.cfi_restore w19
	.cfi_restore w20
	.cfi_restore w21
	.cfi_restore w22
	.cfi_restore w30
	.cfi_restore w29
	hint	#29
	.cfi_negate_ra_state
	ret
.Ldcsctp_BB6_52:
	.cfi_restore_state
	.cfi_remember_state
	cmp	w11, #244
	b.hi	.Ldcsctp_BB6_59
.Ldcsctp_BB6_53:
	cmp	x10, #2
	b.lo	.Ldcsctp_BB6_58
	ldrb	w12, [x8, #1]
.Ldcsctp_BB6_55:
	cmp	w11, #240
	mov	w13, #-128
	mov	w14, #-112
	mov	w15, #-96
	csel	w13, w14, w13, eq
	cmp	w11, #224
	mov	w14, #-65
	csel	w13, w15, w13, eq
	mov	w15, #-113
	cmp	w11, #244
	and	w16, w13, #0xf0
	csel	w13, w15, w14, eq
	cmp	w11, #237
	mov	w11, #-97
	csel	w13, w11, w13, eq
	cmp	w16, w12, uxtb
	mov	w11, #257
	b.hi	.Ldcsctp_BB6_60
	and	w12, w12, #0xff
	cmp	w12, w13, uxtb
	b.hi	.Ldcsctp_BB6_60
	cmp	x10, #2
	b.ne	.Ldcsctp_BB6_61
.Ldcsctp_BB6_58:
	mov	x11, xzr
	b	.Ldcsctp_BB6_60
.Ldcsctp_BB6_59:
	mov	w11, #257
.Ldcsctp_BB6_60:
	mov	w8, #1
	str	x11, [x19, #16]
	stp	x8, x9, [x19]
	.cfi_def_cfa wsp, 64
	ldp	x20, x19, [sp, #48]
	ldp	x22, x21, [sp, #32]
	ldp	x29, x30, [sp, #16]
	add	sp, sp, #64
	.cfi_def_cfa_offset 0
	.cfi_restore w19
	.cfi_restore w20
	.cfi_restore w21
	.cfi_restore w22
	.cfi_restore w30
	.cfi_restore w29
	hint	#29
	.cfi_negate_ra_state
	ret
.Ldcsctp_BB6_61:
	.cfi_restore_state
	ldrsb	w8, [x8, #2]
	cmn	w8, #65
	b.gt	.Ldcsctp_BB6_63
	cmp	x10, #3
	mov	w8, #769
	csel	x11, x8, xzr, hi
	b	.Ldcsctp_BB6_60
.Ldcsctp_BB6_63:
	mov	w11, #513
	b	.Ldcsctp_BB6_60
.Ldcsctp_func_end6:
	.size	core.str.utf8.from_utf8, .Ldcsctp_func_end6-core.str.utf8.from_utf8
	.cfi_endproc
	.section	.text.core.slice.words.skip_far.52f9edcae2f82f51,"ax",@progbits
	.p2align	2
	.type	core.slice.words.skip_far.52f9edcae2f82f51,@function
core.slice.words.skip_far.52f9edcae2f82f51:
	.cfi_startproc
	sub	x8, x2, x1
	cmp	x8, #64
	b.lo	.Ldcsctp_BB7_4
	ldr	x9, [x0]
.Ldcsctp_BB7_2:
	add	x10, x9, x1
	ldp	q0, q1, [x10, #32]
	ldp	q2, q3, [x10]
	orr	v1.16b, v3.16b, v1.16b
	orr	v0.16b, v2.16b, v0.16b
	orr	v0.16b, v0.16b, v1.16b
	ext	v1.16b, v0.16b, v0.16b, #8
	orr	v0.8b, v0.8b, v1.8b
	fmov	x10, d0
	tst	x10, #0x8080808080808080
	b.ne	.Ldcsctp_BB7_4
	sub	x8, x8, #64
	add	x1, x1, #64
	cmp	x8, #63
	b.hi	.Ldcsctp_BB7_2
.Ldcsctp_BB7_4:
	mov	x0, x1
	ret
.Ldcsctp_func_end7:
	.size	core.slice.words.skip_far.52f9edcae2f82f51, .Ldcsctp_func_end7-core.slice.words.skip_far.52f9edcae2f82f51
	.cfi_endproc
	.section	.text.std_alloc.vec.Vec.drop.765a829dcb308622,"ax",@progbits
	.p2align	2
	.type	std_alloc.vec.Vec.drop.765a829dcb308622,@function
std_alloc.vec.Vec.drop.765a829dcb308622:
	.cfi_startproc
	hint	#25
	.cfi_negate_ra_state
	stp	x29, x30, [sp, #-48]!
	.cfi_def_cfa_offset 48
	stp	x22, x21, [sp, #16]
	stp	x20, x19, [sp, #32]
	mov	x29, sp
	.cfi_def_cfa w29, 48
	.cfi_offset w19, -8
	.cfi_offset w20, -16
	.cfi_offset w21, -24
	.cfi_offset w22, -32
	.cfi_offset w30, -40
	.cfi_offset w29, -48
	.cfi_remember_state
	ldp	x19, x20, [x0]
	ldr	x21, [x0, #16]
	cbz	x20, .Ldcsctp_BB8_16
	add	x22, x19, #24
	b	.Ldcsctp_BB8_4
.Ldcsctp_BB8_2:
	bl	rattle_dealloc
.Ldcsctp_BB8_3:
	subs	x20, x20, #1
	add	x22, x22, #48
	b.eq	.Ldcsctp_BB8_16
.Ldcsctp_BB8_4:
	ldurb	w10, [x22, #-24]
	ldp	x0, x8, [x22, #-16]
	ldp	x9, x11, [x22]
	cmp	w10, #3
	b.le	.Ldcsctp_BB8_8
	cmp	w10, #9
	b.lt	.Ldcsctp_BB8_3
	b.eq	.Ldcsctp_BB8_10
	cmp	w10, #10
	b.ne	.Ldcsctp_BB8_14
	b	.Ldcsctp_BB8_3
.Ldcsctp_BB8_8:
	cmp	w10, #1
	b.gt	.Ldcsctp_BB8_11
.Ldcsctp_BB8_10:
	cbnz	x9, .Ldcsctp_BB8_2
	b	.Ldcsctp_BB8_3
.Ldcsctp_BB8_11:
	cmp	w10, #2
	b.ne	.Ldcsctp_BB8_14
	ldr	x8, [x22, #16]
	cbz	x8, .Ldcsctp_BB8_3
	mov	x0, x9
	b	.Ldcsctp_BB8_2
.Ldcsctp_BB8_14:
	cbz	x11, .Ldcsctp_BB8_3
	mov	x0, x8
	b	.Ldcsctp_BB8_2
.Ldcsctp_BB8_16:
	cbz	x21, .Ldcsctp_BB8_18
	mov	x0, x19
	.cfi_def_cfa wsp, 48
	ldp	x20, x19, [sp, #32]
	ldp	x22, x21, [sp, #16]
	ldp	x29, x30, [sp], #48
	.cfi_def_cfa_offset 0
	.cfi_restore w19
	.cfi_restore w20
	.cfi_restore w21
	.cfi_restore w22
	.cfi_restore w30
	.cfi_restore w29
	hint	#29
	.cfi_negate_ra_state
	b	rattle_dealloc
.Ldcsctp_BB8_18:
	.cfi_restore_state
	.cfi_def_cfa wsp, 48
	ldp	x20, x19, [sp, #32]
	ldp	x22, x21, [sp, #16]
	ldp	x29, x30, [sp], #48
	.cfi_def_cfa_offset 0
	.cfi_restore w19
	.cfi_restore w20
	.cfi_restore w21
	.cfi_restore w22
	.cfi_restore w30
	.cfi_restore w29
	hint	#29
	.cfi_negate_ra_state
	ret
.Ldcsctp_func_end8:
	.size	std_alloc.vec.Vec.drop.765a829dcb308622, .Ldcsctp_func_end8-std_alloc.vec.Vec.drop.765a829dcb308622
	.cfi_endproc
	.section	.text.std_alloc.vec.Vec.drop.694f3e952ffd1e0b,"ax",@progbits
	.p2align	2
	.type	std_alloc.vec.Vec.drop.694f3e952ffd1e0b,@function
std_alloc.vec.Vec.drop.694f3e952ffd1e0b:
	.cfi_startproc
	hint	#25
	.cfi_negate_ra_state
	stp	x29, x30, [sp, #-48]!
	.cfi_def_cfa_offset 48
	stp	x22, x21, [sp, #16]
	stp	x20, x19, [sp, #32]
	mov	x29, sp
	.cfi_def_cfa w29, 48
	.cfi_offset w19, -8
	.cfi_offset w20, -16
	.cfi_offset w21, -24
	.cfi_offset w22, -32
	.cfi_offset w30, -40
	.cfi_offset w29, -48
	.cfi_remember_state
	ldp	x19, x20, [x0]
	ldr	x21, [x0, #16]
	cbz	x20, .Ldcsctp_BB9_12
	add	x22, x19, #16
	b	.Ldcsctp_BB9_4
.Ldcsctp_BB9_2:
	bl	rattle_dealloc
.Ldcsctp_BB9_3:
	subs	x20, x20, #1
	add	x22, x22, #40
	b.eq	.Ldcsctp_BB9_12
.Ldcsctp_BB9_4:
	ldurb	w9, [x22, #-16]
	ldur	x0, [x22, #-8]
	ldr	x8, [x22, #8]
	cmp	w9, #3
	b.gt	.Ldcsctp_BB9_7
	sub	w10, w9, #2
	cmp	w10, #2
	b.lo	.Ldcsctp_BB9_3
	b	.Ldcsctp_BB9_9
.Ldcsctp_BB9_7:
	cmp	w9, #4
	b.eq	.Ldcsctp_BB9_9
	cmp	w9, #5
	b.ne	.Ldcsctp_BB9_10
.Ldcsctp_BB9_9:
	cbnz	x8, .Ldcsctp_BB9_2
	b	.Ldcsctp_BB9_3
.Ldcsctp_BB9_10:
	ldr	x8, [x22, #16]
	cbz	x8, .Ldcsctp_BB9_3
	ldr	x0, [x22]
	b	.Ldcsctp_BB9_2
.Ldcsctp_BB9_12:
	cbz	x21, .Ldcsctp_BB9_14
	mov	x0, x19
	.cfi_def_cfa wsp, 48
	ldp	x20, x19, [sp, #32]
	ldp	x22, x21, [sp, #16]
	ldp	x29, x30, [sp], #48
	.cfi_def_cfa_offset 0
	.cfi_restore w19
	.cfi_restore w20
	.cfi_restore w21
	.cfi_restore w22
	.cfi_restore w30
	.cfi_restore w29
	hint	#29
	.cfi_negate_ra_state
	b	rattle_dealloc
.Ldcsctp_BB9_14:
	.cfi_restore_state
	.cfi_def_cfa wsp, 48
	ldp	x20, x19, [sp, #32]
	ldp	x22, x21, [sp, #16]
	ldp	x29, x30, [sp], #48
	.cfi_def_cfa_offset 0
	.cfi_restore w19
	.cfi_restore w20
	.cfi_restore w21
	.cfi_restore w22
	.cfi_restore w30
	.cfi_restore w29
	hint	#29
	.cfi_negate_ra_state
	ret
.Ldcsctp_func_end9:
	.size	std_alloc.vec.Vec.drop.694f3e952ffd1e0b, .Ldcsctp_func_end9-std_alloc.vec.Vec.drop.694f3e952ffd1e0b
	.cfi_endproc
	.section	.rodata.cst8,"aM",@progbits,8
	.p2align	3, 0x0
.Ldcsctp_CPI10_0:
	.byte	115
	.byte	111
	.byte	117
	.byte	114
	.zero	1
	.zero	1
	.zero	1
	.zero	1
.Ldcsctp_CPI10_1:
	.byte	32
	.byte	100
	.byte	101
	.byte	115
	.byte	116
	.byte	105
	.byte	110
	.byte	97
.Ldcsctp_CPI10_2:
	.byte	116
	.byte	105
	.byte	111
	.byte	110
	.zero	1
	.zero	1
	.zero	1
	.zero	1
.Ldcsctp_CPI10_3:
	.byte	32
	.byte	116
	.byte	97
	.byte	103
	.zero	1
	.zero	1
	.zero	1
	.zero	1
.Ldcsctp_CPI10_4:
	.byte	32
	.byte	99
	.byte	104
	.byte	101
	.byte	99
	.byte	107
	.byte	115
	.byte	117
.Ldcsctp_CPI10_6:
	.byte	121
	.byte	112
	.byte	101
	.byte	61
	.zero	1
	.zero	1
	.zero	1
	.zero	1
.Ldcsctp_CPI10_7:
	.byte	82
	.byte	69
	.byte	45
	.byte	67
	.byte	79
	.byte	78
	.byte	70
	.byte	73
.Ldcsctp_CPI10_8:
	.byte	69
	.byte	82
	.byte	82
	.byte	79
	.zero	1
	.zero	1
	.zero	1
	.zero	1
.Ldcsctp_CPI10_10:
	.byte	99
	.byte	116
	.byte	101
	.byte	100
	.zero	1
	.zero	1
	.zero	1
	.zero	1
.Ldcsctp_CPI10_11:
	.byte	72
	.byte	69
	.byte	65
	.byte	82
	.byte	84
	.byte	66
	.byte	69
	.byte	65
.Ldcsctp_CPI10_12:
	.byte	84
	.byte	45
	.byte	65
	.byte	67
	.zero	1
	.zero	1
	.zero	1
	.zero	1
.Ldcsctp_CPI10_13:
	.byte	84
	.byte	45
	.byte	82
	.byte	69
	.zero	1
	.zero	1
	.zero	1
	.zero	1
.Ldcsctp_CPI10_15:
	.byte	116
	.byte	101
	.byte	95
	.byte	116
	.zero	1
	.zero	1
	.zero	1
	.zero	1
.Ldcsctp_CPI10_16:
	.byte	44
	.byte	32
	.byte	105
	.byte	110
	.byte	105
	.byte	116
	.byte	105
	.byte	97
.Ldcsctp_CPI10_17:
	.byte	108
	.byte	95
	.byte	116
	.byte	115
	.zero	1
	.zero	1
	.zero	1
	.zero	1
.Ldcsctp_CPI10_23:
	.byte	73
	.byte	45
	.byte	68
	.byte	65
	.byte	84
	.byte	65
	.byte	44
	.byte	32
.Ldcsctp_CPI10_24:
	.byte	116
	.byte	121
	.byte	112
	.byte	101
	.zero	1
	.zero	1
	.zero	1
	.zero	1
.Ldcsctp_CPI10_25:
	.byte	44
	.byte	32
	.byte	116
	.byte	115
	.zero	1
	.zero	1
	.zero	1
	.zero	1
.Ldcsctp_CPI10_26:
	.byte	44
	.byte	32
	.byte	109
	.byte	105
	.zero	1
	.zero	1
	.zero	1
	.zero	1
.Ldcsctp_CPI10_27:
	.byte	44
	.byte	32
	.byte	115
	.byte	115
	.zero	1
	.zero	1
	.zero	1
	.zero	1
.Ldcsctp_CPI10_28:
	.byte	44
	.byte	32
	.byte	112
	.byte	112
	.zero	1
	.zero	1
	.zero	1
	.zero	1
.Ldcsctp_CPI10_30:
	.byte	107
	.byte	105
	.byte	101
	.byte	61
	.zero	1
	.zero	1
	.zero	1
	.zero	1
.Ldcsctp_CPI10_31:
	.byte	32
	.byte	98
	.byte	121
	.byte	116
	.zero	1
	.zero	1
	.zero	1
	.zero	1
.Ldcsctp_CPI10_33:
	.byte	44
	.byte	32
	.byte	97
	.byte	95
	.byte	114
	.byte	119
	.byte	110
	.byte	100
.Ldcsctp_CPI10_34:
	.byte	68
	.byte	65
	.byte	84
	.byte	65
	.byte	44
	.byte	32
	.byte	116
	.byte	121
.Ldcsctp_CPI10_35:
	.byte	44
	.byte	32
	.byte	115
	.byte	105
	.zero	1
	.zero	1
	.zero	1
	.zero	1
.Ldcsctp_CPI10_38:
	.byte	67
	.byte	79
	.byte	79
	.byte	75
	.byte	73
	.byte	69
	.byte	45
	.byte	65
.Ldcsctp_CPI10_39:
	.byte	83
	.byte	72
	.byte	85
	.byte	84
	.byte	68
	.byte	79
	.byte	87
	.byte	78
.Ldcsctp_CPI10_40:
	.byte	45
	.byte	65
	.byte	67
	.byte	75
	.zero	1
	.zero	1
	.zero	1
	.zero	1
.Ldcsctp_CPI10_42:
	.byte	105
	.byte	118
	.byte	101
	.byte	95
	.byte	116
	.byte	115
	.byte	110
	.byte	95
.Ldcsctp_CPI10_43:
	.byte	97
	.byte	99
	.byte	107
	.byte	61
	.zero	1
	.zero	1
	.zero	1
	.zero	1
.Ldcsctp_CPI10_45:
	.byte	99
	.byte	97
	.byte	110
	.byte	111
	.byte	110
	.byte	105
	.byte	99
	.byte	97
	.section	.rodata.cst16,"aM",@progbits,16
	.p2align	4, 0x0
.Ldcsctp_CPI10_5:
	.byte	85
	.byte	110
	.byte	107
	.byte	110
	.byte	111
	.byte	119
	.byte	110
	.byte	32
	.byte	99
	.byte	104
	.byte	117
	.byte	110
	.byte	107
	.byte	44
	.byte	32
	.byte	116
.Ldcsctp_CPI10_9:
	.byte	65
	.byte	66
	.byte	79
	.byte	82
	.byte	84
	.byte	44
	.byte	32
	.byte	116
	.byte	97
	.byte	103
	.byte	95
	.byte	114
	.byte	101
	.byte	102
	.byte	108
	.byte	101
.Ldcsctp_CPI10_14:
	.byte	73
	.byte	78
	.byte	73
	.byte	84
	.byte	45
	.byte	65
	.byte	67
	.byte	75
	.byte	44
	.byte	32
	.byte	105
	.byte	110
	.byte	105
	.byte	116
	.byte	105
	.byte	97
.Ldcsctp_CPI10_18:
	.byte	73
	.byte	78
	.byte	73
	.byte	84
	.byte	44
	.byte	32
	.byte	105
	.byte	110
	.byte	105
	.byte	116
	.byte	105
	.byte	97
	.byte	116
	.byte	101
	.byte	95
	.byte	116
.Ldcsctp_CPI10_19:
	.byte	73
	.byte	45
	.byte	70
	.byte	79
	.byte	82
	.byte	87
	.byte	65
	.byte	82
	.byte	68
	.byte	45
	.byte	84
	.byte	83
	.byte	78
	.byte	44
	.byte	32
	.byte	110
.Ldcsctp_CPI10_20:
	.byte	101
	.byte	119
	.byte	95
	.byte	99
	.byte	117
	.byte	109
	.byte	117
	.byte	108
	.byte	97
	.byte	116
	.byte	105
	.byte	118
	.byte	101
	.byte	95
	.byte	116
	.byte	115
.Ldcsctp_CPI10_21:
	.byte	70
	.byte	79
	.byte	82
	.byte	87
	.byte	65
	.byte	82
	.byte	68
	.byte	45
	.byte	84
	.byte	83
	.byte	78
	.byte	44
	.byte	32
	.byte	110
	.byte	101
	.byte	119
.Ldcsctp_CPI10_22:
	.byte	95
	.byte	99
	.byte	117
	.byte	109
	.byte	117
	.byte	108
	.byte	97
	.byte	116
	.byte	105
	.byte	118
	.byte	101
	.byte	95
	.byte	116
	.byte	115
	.byte	110
	.byte	61
.Ldcsctp_CPI10_29:
	.byte	67
	.byte	79
	.byte	79
	.byte	75
	.byte	73
	.byte	69
	.byte	45
	.byte	69
	.byte	67
	.byte	72
	.byte	79
	.byte	44
	.byte	32
	.byte	99
	.byte	111
	.byte	111
.Ldcsctp_CPI10_32:
	.byte	83
	.byte	65
	.byte	67
	.byte	75
	.byte	44
	.byte	32
	.byte	99
	.byte	117
	.byte	109
	.byte	95
	.byte	97
	.byte	99
	.byte	107
	.byte	95
	.byte	116
	.byte	115
.Ldcsctp_CPI10_36:
	.byte	83
	.byte	72
	.byte	85
	.byte	84
	.byte	68
	.byte	79
	.byte	87
	.byte	78
	.byte	45
	.byte	67
	.byte	79
	.byte	77
	.byte	80
	.byte	76
	.byte	69
	.byte	84
.Ldcsctp_CPI10_37:
	.byte	69
	.byte	44
	.byte	32
	.byte	116
	.byte	97
	.byte	103
	.byte	95
	.byte	114
	.byte	101
	.byte	102
	.byte	108
	.byte	101
	.byte	99
	.byte	116
	.byte	101
	.byte	100
.Ldcsctp_CPI10_41:
	.byte	83
	.byte	72
	.byte	85
	.byte	84
	.byte	68
	.byte	79
	.byte	87
	.byte	78
	.byte	32
	.byte	99
	.byte	117
	.byte	109
	.byte	117
	.byte	108
	.byte	97
	.byte	116
.Ldcsctp_CPI10_44:
	.byte	99
	.byte	97
	.byte	110
	.byte	111
	.byte	110
	.byte	105
	.byte	99
	.byte	97
	.byte	108
	.byte	32
	.byte	116
	.byte	111
	.byte	111
	.byte	32
	.byte	108
	.byte	111
	.section	.text.sctp_show.text.text_of,"ax",@progbits
	.p2align	2
	.type	sctp_show.text.text_of,@function
sctp_show.text.text_of:
	.cfi_startproc
	hint	#25
	.cfi_negate_ra_state
	stp	x29, x30, [sp, #-96]!
	.cfi_def_cfa_offset 96
	stp	x28, x27, [sp, #16]
	stp	x26, x25, [sp, #32]
	stp	x24, x23, [sp, #48]
	stp	x22, x21, [sp, #64]
	stp	x20, x19, [sp, #80]
	mov	x29, sp
	.cfi_def_cfa w29, 96
	.cfi_offset w19, -8
	.cfi_offset w20, -16
	.cfi_offset w21, -24
	.cfi_offset w22, -32
	.cfi_offset w23, -40
	.cfi_offset w24, -48
	.cfi_offset w25, -56
	.cfi_offset w26, -64
	.cfi_offset w27, -72
	.cfi_offset w28, -80
	.cfi_offset w30, -88
	.cfi_offset w29, -96
	.cfi_remember_state
	sub	sp, sp, #464
	sub	x8, x29, #9
	stp	xzr, xzr, [sp, #24]
	adrp	x22, .Ldcsctp_static.3
	add	x22, x22, :lo12:.Ldcsctp_static.3
	str	x8, [sp, #16]
	mov	w9, #7
	add	x11, x1, #24
	adrp	x25, .Ldcsctp_static.4
	add	x25, x25, :lo12:.Ldcsctp_static.4
	ldr	q0, [sp, #16]
	stp	x22, x9, [sp, #224]
	mov	w9, #13
	stp	x11, x25, [sp, #240]
	add	x11, x1, #26
	mov	w8, #32
	stp	x9, x11, [sp, #256]
	adrp	x23, .Ldcsctp_static.5
	add	x23, x23, :lo12:.Ldcsctp_static.5
	mov	w9, #5
	add	x11, x1, #28
	adrp	x21, .Ldcsctp_static.6
	add	x21, x21, :lo12:.Ldcsctp_static.6
	str	q0, [sp, #112]
	mov	x20, x1
	str	xzr, [sp, #128]
	mov	x19, x0
	mov	x10, #-1
	str	w8, [sp, #136]
	stur	xzr, [sp, #140]
	str	wzr, [sp, #148]
	stp	x23, x9, [sp, #272]
	mov	w9, #10
	ldur	q0, [sp, #136]
	stp	x11, x21, [sp, #288]
	add	x11, x1, #32
	stp	x9, x11, [sp, #304]
	str	w8, [sp, #136]
	ldp	x9, x8, [sp, #120]
	stp	xzr, xzr, [sp, #48]
	str	xzr, [sp, #64]
	sub	x11, x8, x9
	stp	xzr, xzr, [sp, #80]
	cmp	x11, #6
	str	xzr, [sp, #96]
	stp	x10, xzr, [sp, #152]
	stur	q0, [x29, #-48]
	stur	x10, [x29, #-32]
	str	wzr, [sp, #148]
	stur	xzr, [sp, #140]
	str	xzr, [sp, #168]
	str	x10, [sp, #152]
	b.ls	.Ldcsctp_BB10_9
.Ldcsctp_BB10_1:
	ldr	x10, [sp, #112]
	add	x11, x10, x9
	add	x9, x9, #7
	sub	x12, x11, x22
	add	x22, sp, #224
	cmp	x12, #6
	b.hi	.Ldcsctp_BB10_3
	adrp	x12, .Ldcsctp_CPI10_0
	mov	w13, #25955
	ldr	d0, [x12, :lo12:.Ldcsctp_CPI10_0]
	mov	w12, #61
	strh	w13, [x11, #4]
	strb	w12, [x11, #6]
	str	s0, [x11]
	b	.Ldcsctp_BB10_4
.Ldcsctp_BB10_3:
	mov	w12, #25458
	mov	w13, #28531
	movk	w12, #15717, lsl #16
	movk	w13, #29301, lsl #16
	stur	w12, [x11, #3]
	str	w13, [x11]
.Ldcsctp_BB10_4:
	add	x0, sp, #112
	add	x1, x22, #16
	stp	x10, x9, [sp, #112]
	str	x8, [sp, #128]
	bl	core.fmt.formatter.Formatter.write_piece.9c544998babb2079
	and	w8, w0, #0xff
	tbnz	w8, #0, .Ldcsctp_BB10_37
	mov	w8, #32
	add	x24, sp, #112
	mov	x9, #-1
	str	w8, [sp, #136]
	ldr	x8, [sp, #160]
	stur	xzr, [x24, #28]
	stur	wzr, [x24, #36]
	str	x9, [sp, #152]
	cbnz	x8, .Ldcsctp_BB10_11
	ldp	x10, x8, [sp, #120]
	sub	x9, x8, x10
	cmp	x9, #12
	b.ls	.Ldcsctp_BB10_12
	ldr	x9, [sp, #112]
	add	x11, x9, x10
	add	x10, x10, #13
	sub	x12, x11, x25
	cmp	x12, #12
	b.hi	.Ldcsctp_BB10_14
.Ldcsctp_BB10_8:
	adrp	x12, .Ldcsctp_CPI10_1
	adrp	x13, .Ldcsctp_CPI10_2
	ldr	d0, [x12, :lo12:.Ldcsctp_CPI10_1]
	ldr	d1, [x13, :lo12:.Ldcsctp_CPI10_2]
	mov	w12, #61
	strb	w12, [x11, #12]
	str	d0, [x11]
	str	s1, [x11, #8]
	b	.Ldcsctp_BB10_15
.Ldcsctp_BB10_9:
	add	x0, sp, #112
	mov	w1, #7
	bl	std_alloc.vec.Vec.grow_amortized.38fbb921ed00a393
	cbz	w0, .Ldcsctp_BB10_37
	ldp	x9, x8, [sp, #120]
	b	.Ldcsctp_BB10_1
.Ldcsctp_BB10_11:
	adrp	x1, .Ldcsctp_static.4
	add	x1, x1, :lo12:.Ldcsctp_static.4
	add	x0, sp, #112
	mov	w2, #13
	bl	core.fmt.formatter.Formatter.write_indented.69d84fb4438acd8c
	and	w8, w0, #0xff
	tbnz	w8, #0, .Ldcsctp_BB10_37
	b	.Ldcsctp_BB10_16
.Ldcsctp_BB10_12:
	add	x0, sp, #112
	mov	w1, #13
	bl	std_alloc.vec.Vec.grow_amortized.38fbb921ed00a393
	cbz	w0, .Ldcsctp_BB10_37
	ldp	x10, x8, [sp, #120]
	ldr	x9, [sp, #112]
	add	x11, x9, x10
	add	x10, x10, #13
	sub	x12, x11, x25
	cmp	x12, #12
	b.ls	.Ldcsctp_BB10_8
.Ldcsctp_BB10_14:
	ldr	x12, [x25]
	ldur	x13, [x25, #5]
	str	x12, [x11]
	stur	x13, [x11, #5]
.Ldcsctp_BB10_15:
	stp	x9, x10, [sp, #112]
	str	x8, [sp, #128]
.Ldcsctp_BB10_16:
	add	x0, sp, #112
	add	x1, x22, #40
	bl	core.fmt.formatter.Formatter.write_piece.9c544998babb2079
	and	w8, w0, #0xff
	tbnz	w8, #0, .Ldcsctp_BB10_37
	mov	w8, #32
	ldr	x9, [sp, #160]
	stur	xzr, [x24, #28]
	str	w8, [sp, #136]
	mov	x8, #-1
	stur	wzr, [x24, #36]
	str	x8, [sp, #152]
	cbnz	x9, .Ldcsctp_BB10_21
	ldp	x9, x8, [sp, #120]
	sub	x10, x8, x9
	cmp	x10, #4
	b.ls	.Ldcsctp_BB10_22
	ldr	x10, [sp, #112]
	add	x11, x10, x9
	add	x9, x9, #5
	sub	x12, x11, x23
	cmp	x12, #4
	b.hi	.Ldcsctp_BB10_24
.Ldcsctp_BB10_20:
	adrp	x12, .Ldcsctp_CPI10_3
	ldr	d0, [x12, :lo12:.Ldcsctp_CPI10_3]
	mov	w12, #61
	strb	w12, [x11, #4]
	str	s0, [x11]
	b	.Ldcsctp_BB10_25
.Ldcsctp_BB10_21:
	adrp	x1, .Ldcsctp_static.5
	add	x1, x1, :lo12:.Ldcsctp_static.5
	add	x0, sp, #112
	mov	w2, #5
	bl	core.fmt.formatter.Formatter.write_indented.69d84fb4438acd8c
	and	w8, w0, #0xff
	tbnz	w8, #0, .Ldcsctp_BB10_37
	b	.Ldcsctp_BB10_26
.Ldcsctp_BB10_22:
	add	x0, sp, #112
	mov	w1, #5
	bl	std_alloc.vec.Vec.grow_amortized.38fbb921ed00a393
	cbz	w0, .Ldcsctp_BB10_37
	ldp	x9, x8, [sp, #120]
	ldr	x10, [sp, #112]
	add	x11, x10, x9
	add	x9, x9, #5
	sub	x12, x11, x23
	cmp	x12, #4
	b.ls	.Ldcsctp_BB10_20
.Ldcsctp_BB10_24:
	mov	w13, #29728
	mov	w12, #61
	movk	w13, #26465, lsl #16
	strb	w12, [x11, #4]
	str	w13, [x11]
.Ldcsctp_BB10_25:
	stp	x10, x9, [sp, #112]
	str	x8, [sp, #128]
.Ldcsctp_BB10_26:
	add	x0, sp, #112
	add	x1, x22, #64
	bl	core.fmt.formatter.Formatter.write_piece.7d2ac8fd5c291299
	and	w8, w0, #0xff
	tbnz	w8, #0, .Ldcsctp_BB10_37
	mov	w8, #32
	ldr	x9, [sp, #160]
	stur	xzr, [x24, #28]
	str	w8, [sp, #136]
	mov	x8, #-1
	stur	wzr, [x24, #36]
	str	x8, [sp, #152]
	cbnz	x9, .Ldcsctp_BB10_31
	ldp	x9, x8, [sp, #120]
	sub	x10, x8, x9
	cmp	x10, #9
	b.ls	.Ldcsctp_BB10_32
	ldr	x10, [sp, #112]
	add	x11, x10, x9
	add	x9, x9, #10
	sub	x12, x11, x21
	cmp	x12, #9
	b.hi	.Ldcsctp_BB10_34
.Ldcsctp_BB10_30:
	adrp	x12, .Ldcsctp_CPI10_4
	ldr	d0, [x12, :lo12:.Ldcsctp_CPI10_4]
	mov	w12, #15725
	strh	w12, [x11, #8]
	str	d0, [x11]
	b	.Ldcsctp_BB10_35
.Ldcsctp_BB10_31:
	adrp	x1, .Ldcsctp_static.6
	add	x1, x1, :lo12:.Ldcsctp_static.6
	add	x0, sp, #112
	mov	w2, #10
	bl	core.fmt.formatter.Formatter.write_indented.69d84fb4438acd8c
	tst	w0, #0xff
	b.ne	.Ldcsctp_BB10_37
	b	.Ldcsctp_BB10_36
.Ldcsctp_BB10_32:
	add	x0, sp, #112
	mov	w1, #10
	bl	std_alloc.vec.Vec.grow_amortized.38fbb921ed00a393
	cbz	w0, .Ldcsctp_BB10_37
	ldp	x9, x8, [sp, #120]
	ldr	x10, [sp, #112]
	add	x11, x10, x9
	add	x9, x9, #10
	sub	x12, x11, x21
	cmp	x12, #9
	b.ls	.Ldcsctp_BB10_30
.Ldcsctp_BB10_34:
	ldr	x13, [x21]
	mov	w12, #15725
	strh	w12, [x11, #8]
	str	x13, [x11]
.Ldcsctp_BB10_35:
	stp	x10, x9, [sp, #112]
	str	x8, [sp, #128]
.Ldcsctp_BB10_36:
	add	x0, sp, #112
	add	x1, x22, #88
	bl	core.fmt.formatter.Formatter.write_piece.7d2ac8fd5c291299
	ldur	q0, [x29, #-48]
	ldur	x8, [x29, #-32]
	and	w9, w0, #0xff
	stur	q0, [x24, #24]
	stur	x8, [x24, #40]
	tbz	w9, #0, .Ldcsctp_BB10_42
.Ldcsctp_BB10_37:
	ldr	q0, [sp, #112]
	ldr	x8, [sp, #128]
	str	q0, [sp, #16]
	str	x8, [sp, #32]
.Ldcsctp_BB10_38:
	ldr	x8, [sp, #32]
	cbz	x8, .Ldcsctp_BB10_40
	ldr	x0, [sp, #16]
	bl	rattle_dealloc
.Ldcsctp_BB10_40:
	mov	w8, #1
	stp	xzr, xzr, [x19, #16]
	strb	w8, [x19]
	str	xzr, [x19, #8]
.Ldcsctp_BB10_41:
	add	sp, sp, #464
	.cfi_def_cfa wsp, 96
	ldp	x20, x19, [sp, #80]
	ldp	x22, x21, [sp, #64]
	ldp	x24, x23, [sp, #48]
	ldp	x26, x25, [sp, #32]
	ldp	x28, x27, [sp, #16]
	ldp	x29, x30, [sp], #96
	.cfi_def_cfa_offset 0
	.cfi_restore w19
	.cfi_restore w20
	.cfi_restore w21
	.cfi_restore w22
	.cfi_restore w23
	.cfi_restore w24
	.cfi_restore w25
	.cfi_restore w26
	.cfi_restore w27
	.cfi_restore w28
	.cfi_restore w30
	.cfi_restore w29
	hint	#29
	.cfi_negate_ra_state
	ret
.Ldcsctp_BB10_42:
	.cfi_restore_state
	ldr	x25, [x20, #8]
	cbz	x25, .Ldcsctp_BB10_400
	ldr	x27, [x20]
	mov	x26, xzr
	orr	x28, x24, #0x8
	stp	x27, x25, [sp]
	b	.Ldcsctp_BB10_52
.Ldcsctp_BB10_44:
	adrp	x12, .Ldcsctp_CPI10_19
	adrp	x13, .Ldcsctp_CPI10_20
	add	x9, x9, #34
	ldr	q0, [x12, :lo12:.Ldcsctp_CPI10_19]
	ldr	q1, [x13, :lo12:.Ldcsctp_CPI10_20]
	mov	w12, #15726
	strh	w12, [x11, #32]
.Ldcsctp_BB10_45:
	stp	q0, q1, [x11]
.Ldcsctp_BB10_46:
	stp	x10, x9, [sp, #112]
	str	x8, [sp, #128]
.Ldcsctp_BB10_47:
	sub	x8, x29, #48
	mov	w9, #32
	stur	w21, [x29, #-48]
	str	x8, [sp, #224]
	mov	x8, #-1
	add	x0, sp, #112
	str	w9, [sp, #136]
	add	x1, sp, #224
.Ldcsctp_BB10_48:
	stur	xzr, [x24, #28]
	stur	wzr, [x24, #36]
	str	x8, [sp, #152]
.Ldcsctp_BB10_49:
	bl	core.fmt.formatter.Formatter.write_piece.7d2ac8fd5c291299
.Ldcsctp_BB10_50:
	ldr	q0, [sp, #176]
	ldr	x8, [sp, #192]
	and	w9, w0, #0xff
	stur	q0, [x24, #24]
	stur	x8, [x24, #40]
	tbnz	w9, #0, .Ldcsctp_BB10_37
.Ldcsctp_BB10_51:
	add	x26, x26, #1
	cmp	x26, x25
	b.eq	.Ldcsctp_BB10_400
.Ldcsctp_BB10_52:
	mov	w8, #32
	ldur	x9, [x24, #40]
	ldur	q0, [x24, #24]
	str	w8, [sp, #136]
	ldr	x8, [sp, #160]
	str	x9, [sp, #192]
	mov	x9, #-1
	str	q0, [sp, #176]
	stur	xzr, [x24, #28]
	stur	wzr, [x24, #36]
	str	x9, [sp, #152]
	cbnz	x8, .Ldcsctp_BB10_61
	ldp	x9, x8, [sp, #120]
	cmp	x8, x9
	b.eq	.Ldcsctp_BB10_62
.Ldcsctp_BB10_54:
	ldr	x10, [sp, #112]
	mov	w11, #10
	strb	w11, [x10, x9]
	add	x9, x9, #1
	stp	x10, x9, [sp, #112]
	str	x8, [sp, #128]
.Ldcsctp_BB10_55:
	mov	w8, #32
	mov	x9, #-1
	stur	xzr, [x24, #28]
	str	w8, [sp, #136]
	add	x8, x27, x26, lsl #6
	stur	wzr, [x24, #36]
	str	x9, [sp, #152]
	ldrb	w9, [x8]
	cmp	w9, #17
	b.hi	.Ldcsctp_BB10_497
	adrp	x10, .Ldcsctp_JTI10_0
	add	x10, x10, :lo12:.Ldcsctp_JTI10_0
	adr	x11, .Ldcsctp_BB10_57
	ldrh	w12, [x10, x9, lsl #1]
	add	x11, x11, x12, lsl #2
	br	x11
.Ldcsctp_BB10_57:
	hint	#36
	ldrb	w11, [x8, #44]
	ldr	w13, [x8, #56]
	adrp	x12, .Ldcsctp_static.25
	add	x12, x12, :lo12:.Ldcsctp_static.25
	adrp	x14, .Ldcsctp_static.24
	add	x14, x14, :lo12:.Ldcsctp_static.24
	cmp	w11, #1
	ldrb	w11, [x8, #50]
	ldrb	w15, [x8, #51]
	str	w13, [sp, #220]
	csel	x1, x14, x12, eq
	mov	w10, #7
	ldrh	w12, [x8, #46]
	mov	w9, #9
	mov	w13, #5
	csel	x23, x9, x10, eq
	cmp	w15, #0
	mov	w14, #8
	strh	w12, [sp, #208]
	csel	x13, x14, x13, ne
	adrp	x15, .Ldcsctp_static.27
	add	x15, x15, :lo12:.Ldcsctp_static.27
	ldr	w14, [x8, #40]
	ldrh	w16, [x8, #48]
	ldr	x8, [x8, #16]
	adrp	x12, .Ldcsctp_static.26
	add	x12, x12, :lo12:.Ldcsctp_static.26
	str	w14, [sp, #212]
	adrp	x28, .Ldcsctp_static.17
	add	x28, x28, :lo12:.Ldcsctp_static.17
	mov	w14, #11
	csel	x12, x12, x15, ne
	mov	w15, #6
	strh	w16, [sp, #216]
	adrp	x16, .Ldcsctp_static.29
	add	x16, x16, :lo12:.Ldcsctp_static.29
	str	x8, [sp, #200]
	mov	w8, #4
	stp	x28, x14, [sp, #224]
	adrp	x14, .Ldcsctp_static.28
	add	x14, x14, :lo12:.Ldcsctp_static.28
	csel	x8, x8, x15, ne
	csel	x14, x14, x16, ne
	cmp	w11, #0
	adrp	x16, .Ldcsctp_static.18
	add	x16, x16, :lo12:.Ldcsctp_static.18
	mov	w11, #2
	csel	x21, x13, x8, ne
	adrp	x8, .Ldcsctp_static.19
	add	x8, x8, :lo12:.Ldcsctp_static.19
	stp	x16, x11, [sp, #256]
	adrp	x11, .Ldcsctp_static.20
	add	x11, x11, :lo12:.Ldcsctp_static.20
	stp	x8, x15, [sp, #288]
	add	x8, sp, #220
	csel	x22, x12, x14, ne
	stp	x8, x11, [sp, #304]
	add	x8, sp, #208
	adrp	x11, .Ldcsctp_static.22
	add	x11, x11, :lo12:.Ldcsctp_static.22
	stp	x15, x8, [sp, #320]
	adrp	x8, .Ldcsctp_static.21
	add	x8, x8, :lo12:.Ldcsctp_static.21
	stur	xzr, [x24, #28]
	stp	x8, x15, [sp, #336]
	add	x8, sp, #216
	stp	x8, x11, [sp, #352]
	add	x8, sp, #212
	stp	x10, x8, [sp, #368]
	adrp	x8, .Ldcsctp_static.23
	add	x8, x8, :lo12:.Ldcsctp_static.23
	stp	x8, x9, [sp, #384]
	mov	w8, #32
	mov	x9, #-1
	str	w8, [sp, #136]
	add	x10, sp, #200
	stur	wzr, [x24, #36]
	str	x9, [sp, #152]
	ldur	q0, [x24, #24]
	str	x10, [sp, #400]
	ldur	x10, [x24, #40]
	str	w8, [sp, #136]
	ldr	x8, [sp, #160]
	stp	x1, x23, [sp, #240]
	stp	x22, x21, [sp, #272]
	stur	q0, [x29, #-48]
	stur	x10, [x29, #-32]
	stur	xzr, [x24, #28]
	stur	wzr, [x24, #36]
	str	x9, [sp, #152]
	cbnz	x8, .Ldcsctp_BB10_170
	ldp	x9, x8, [sp, #120]
	sub	x10, x8, x9
	cmp	x10, #10
	b.ls	.Ldcsctp_BB10_211
	ldr	x10, [sp, #112]
	add	x11, x10, x9
	sub	x12, x11, x28
	cmp	x12, #10
	b.hi	.Ldcsctp_BB10_213
.Ldcsctp_BB10_60:
	adrp	x12, .Ldcsctp_CPI10_34
	mov	w13, #25968
	ldr	d0, [x12, :lo12:.Ldcsctp_CPI10_34]
	mov	w12, #61
	strh	w13, [x11, #8]
	strb	w12, [x11, #10]
	str	d0, [x11]
	b	.Ldcsctp_BB10_214
.Ldcsctp_BB10_61:
	adrp	x1, .Ldcsctp_static.2
	add	x1, x1, :lo12:.Ldcsctp_static.2
	add	x0, sp, #112
	mov	w2, #1
	bl	core.fmt.formatter.Formatter.write_indented.69d84fb4438acd8c
	tst	w0, #0xff
	b.eq	.Ldcsctp_BB10_55
	b	.Ldcsctp_BB10_37
.Ldcsctp_BB10_62:
	add	x0, sp, #112
	mov	w1, #1
	bl	std_alloc.vec.Vec.grow_amortized.38fbb921ed00a393
	cbz	w0, .Ldcsctp_BB10_37
	ldp	x9, x8, [sp, #120]
	b	.Ldcsctp_BB10_54
.Ldcsctp_BB10_64:
	hint	#36
	ldr	x9, [sp, #160]
	ldr	w21, [x8, #8]
	cbnz	x9, .Ldcsctp_BB10_159
	ldp	x9, x8, [sp, #120]
	sub	x10, x8, x9
	cmp	x10, #33
	b.ls	.Ldcsctp_BB10_182
.Ldcsctp_BB10_66:
	ldr	x10, [sp, #112]
	adrp	x12, .Ldcsctp_static.37
	add	x12, x12, :lo12:.Ldcsctp_static.37
	stp	xzr, xzr, [x28]
	add	x11, x10, x9
	sub	x13, x11, x12
	cmp	x13, #33
	b.ls	.Ldcsctp_BB10_44
	ldp	q0, q1, [x12]
	mov	w13, #15726
	strh	w13, [x11, #32]
	add	x9, x9, #34
	b	.Ldcsctp_BB10_45
.Ldcsctp_BB10_68:
	hint	#36
	ldr	x8, [sp, #160]
	cbnz	x8, .Ldcsctp_BB10_160
	ldp	x9, x8, [sp, #120]
	sub	x10, x8, x9
	cmp	x10, #8
	b.ls	.Ldcsctp_BB10_184
.Ldcsctp_BB10_70:
	ldr	x10, [sp, #112]
	adrp	x12, .Ldcsctp_static.45
	add	x12, x12, :lo12:.Ldcsctp_static.45
	add	x11, x10, x9
	sub	x13, x11, x12
	cmp	x13, #8
	b.hi	.Ldcsctp_BB10_134
	adrp	x12, .Ldcsctp_CPI10_7
	add	x9, x9, #9
	ldr	d0, [x12, :lo12:.Ldcsctp_CPI10_7]
	mov	w12, #71
	strb	w12, [x11, #8]
	str	d0, [x11]
	b	.Ldcsctp_BB10_384
.Ldcsctp_BB10_72:
	hint	#36
	ldr	x8, [sp, #160]
	cbnz	x8, .Ldcsctp_BB10_161
	ldp	x9, x8, [sp, #120]
	sub	x10, x8, x9
	cmp	x10, #9
	b.ls	.Ldcsctp_BB10_186
.Ldcsctp_BB10_74:
	ldr	x10, [sp, #112]
	adrp	x12, .Ldcsctp_static.13
	add	x12, x12, :lo12:.Ldcsctp_static.13
	add	x11, x10, x9
	sub	x13, x11, x12
	cmp	x13, #9
	b.hi	.Ldcsctp_BB10_135
	adrp	x12, .Ldcsctp_CPI10_38
	add	x9, x9, #10
	ldr	d0, [x12, :lo12:.Ldcsctp_CPI10_38]
	mov	w12, #19267
	strh	w12, [x11, #8]
	str	d0, [x11]
	b	.Ldcsctp_BB10_384
.Ldcsctp_BB10_76:
	hint	#36
	ldr	x8, [sp, #160]
	cbnz	x8, .Ldcsctp_BB10_162
	ldp	x9, x8, [sp, #120]
	sub	x10, x8, x9
	cmp	x10, #12
	b.ls	.Ldcsctp_BB10_188
.Ldcsctp_BB10_78:
	ldr	x10, [sp, #112]
	adrp	x12, .Ldcsctp_static.41
	add	x12, x12, :lo12:.Ldcsctp_static.41
	add	x11, x10, x9
	sub	x13, x11, x12
	cmp	x13, #12
	b.hi	.Ldcsctp_BB10_133
	adrp	x12, .Ldcsctp_CPI10_11
	adrp	x13, .Ldcsctp_CPI10_13
	ldr	d0, [x12, :lo12:.Ldcsctp_CPI10_11]
	ldr	d1, [x13, :lo12:.Ldcsctp_CPI10_13]
	mov	w12, #81
	b	.Ldcsctp_BB10_116
.Ldcsctp_BB10_80:
	hint	#36
	ldrb	w8, [x8, #1]
	mov	w9, #32
	stur	xzr, [x24, #28]
	str	w9, [sp, #136]
	ldr	x9, [sp, #160]
	strb	w8, [sp, #224]
	mov	x8, #-1
	stur	wzr, [x24, #36]
	str	x8, [sp, #152]
	cbnz	x9, .Ldcsctp_BB10_163
	ldp	x9, x8, [sp, #120]
	sub	x10, x8, x9
	cmp	x10, #32
	b.ls	.Ldcsctp_BB10_190
.Ldcsctp_BB10_82:
	ldr	x10, [sp, #112]
	adrp	x12, .Ldcsctp_static.14
	add	x12, x12, :lo12:.Ldcsctp_static.14
	stp	xzr, xzr, [x28]
	add	x11, x10, x9
	sub	x13, x11, x12
	cmp	x13, #32
	b.hi	.Ldcsctp_BB10_136
	adrp	x12, .Ldcsctp_CPI10_36
	adrp	x13, .Ldcsctp_CPI10_37
	ldr	q0, [x12, :lo12:.Ldcsctp_CPI10_36]
	ldr	q1, [x13, :lo12:.Ldcsctp_CPI10_37]
	mov	w12, #61
	strb	w12, [x11, #32]
	b	.Ldcsctp_BB10_137
.Ldcsctp_BB10_84:
	hint	#36
	ldr	x8, [sp, #160]
	cbnz	x8, .Ldcsctp_BB10_164
	ldp	x9, x8, [sp, #120]
	sub	x10, x8, x9
	cmp	x10, #4
	b.ls	.Ldcsctp_BB10_192
.Ldcsctp_BB10_86:
	ldr	x10, [sp, #112]
	adrp	x12, .Ldcsctp_static.44
	add	x12, x12, :lo12:.Ldcsctp_static.44
	add	x11, x10, x9
	sub	x12, x11, x12
	cmp	x12, #4
	b.hi	.Ldcsctp_BB10_138
	adrp	x12, .Ldcsctp_CPI10_8
	add	x9, x9, #5
	ldr	d0, [x12, :lo12:.Ldcsctp_CPI10_8]
	mov	w12, #82
	strb	w12, [x11, #4]
	str	s0, [x11]
	b	.Ldcsctp_BB10_384
.Ldcsctp_BB10_88:
	hint	#36
	ldr	w9, [x8, #8]
	ldr	w8, [x8, #20]
	adrp	x22, .Ldcsctp_static.40
	add	x22, x22, :lo12:.Ldcsctp_static.40
	adrp	x21, .Ldcsctp_static.39
	add	x21, x21, :lo12:.Ldcsctp_static.39
	stur	w8, [x29, #-16]
	mov	w8, #23
	stp	x22, x8, [sp, #224]
	add	x8, sp, #200
	str	w9, [sp, #200]
	sub	x9, x29, #16
	stp	x8, x21, [sp, #240]
	mov	w8, #14
	stp	x8, x9, [sp, #256]
	mov	w8, #32
	str	w8, [sp, #136]
	mov	x8, #-1
	str	x8, [sp, #152]
	ldr	x8, [sp, #160]
	stur	xzr, [x24, #28]
	stur	wzr, [x24, #36]
	cbnz	x8, .Ldcsctp_BB10_165
	ldp	x9, x8, [sp, #120]
	sub	x10, x8, x9
	cmp	x10, #22
	b.ls	.Ldcsctp_BB10_194
	ldr	x10, [sp, #112]
	stp	xzr, xzr, [x28]
	add	x11, x10, x9
	sub	x12, x11, x22
	cmp	x12, #22
	b.hi	.Ldcsctp_BB10_196
.Ldcsctp_BB10_91:
	adrp	x12, .Ldcsctp_CPI10_14
	adrp	x13, .Ldcsctp_CPI10_15
	mov	w14, #26465
	ldr	q0, [x12, :lo12:.Ldcsctp_CPI10_14]
	ldr	d1, [x13, :lo12:.Ldcsctp_CPI10_15]
	mov	w12, #61
	strh	w14, [x11, #20]
	add	x9, x9, #23
	str	q0, [x11]
	str	s1, [x11, #16]
	strb	w12, [x11, #22]
	b	.Ldcsctp_BB10_225
.Ldcsctp_BB10_92:
	hint	#36
	ldr	x9, [sp, #160]
	ldr	w21, [x8, #8]
	cbnz	x9, .Ldcsctp_BB10_166
	ldp	x9, x8, [sp, #120]
	sub	x10, x8, x9
	cmp	x10, #31
	b.ls	.Ldcsctp_BB10_197
.Ldcsctp_BB10_94:
	ldr	x10, [sp, #112]
	adrp	x12, .Ldcsctp_static.36
	add	x12, x12, :lo12:.Ldcsctp_static.36
	stp	xzr, xzr, [x28]
	add	x11, x10, x9
	sub	x13, x11, x12
	cmp	x13, #31
	b.hi	.Ldcsctp_BB10_139
	adrp	x12, .Ldcsctp_CPI10_21
	adrp	x13, .Ldcsctp_CPI10_22
	ldr	q0, [x12, :lo12:.Ldcsctp_CPI10_21]
	ldr	q1, [x13, :lo12:.Ldcsctp_CPI10_22]
	b	.Ldcsctp_BB10_140
.Ldcsctp_BB10_96:
	hint	#36
	ldp	w9, w8, [x8, #8]
	adrp	x22, .Ldcsctp_static.30
	add	x22, x22, :lo12:.Ldcsctp_static.30
	adrp	x21, .Ldcsctp_static.31
	add	x21, x21, :lo12:.Ldcsctp_static.31
	stur	xzr, [x24, #28]
	stur	w8, [x29, #-16]
	mov	w8, #18
	stp	x22, x8, [sp, #224]
	add	x8, sp, #200
	str	w9, [sp, #200]
	sub	x9, x29, #16
	stp	x8, x21, [sp, #240]
	mov	w8, #9
	stp	x8, x9, [sp, #256]
	mov	w8, #32
	str	w8, [sp, #136]
	mov	x8, #-1
	str	x8, [sp, #152]
	ldr	x8, [sp, #160]
	stur	wzr, [x24, #36]
	cbnz	x8, .Ldcsctp_BB10_167
	ldp	x9, x8, [sp, #120]
	sub	x10, x8, x9
	cmp	x10, #17
	b.ls	.Ldcsctp_BB10_199
	ldr	x10, [sp, #112]
	stp	xzr, xzr, [x28]
	add	x11, x10, x9
	sub	x12, x11, x22
	cmp	x12, #17
	b.hi	.Ldcsctp_BB10_201
.Ldcsctp_BB10_99:
	adrp	x12, .Ldcsctp_CPI10_32
	ldr	q0, [x12, :lo12:.Ldcsctp_CPI10_32]
	b	.Ldcsctp_BB10_202
.Ldcsctp_BB10_100:
	hint	#36
	ldr	x9, [sp, #160]
	ldr	w21, [x8, #4]
	cbnz	x9, .Ldcsctp_BB10_168
	ldp	x9, x8, [sp, #120]
	sub	x10, x8, x9
	cmp	x10, #27
	b.ls	.Ldcsctp_BB10_209
.Ldcsctp_BB10_102:
	ldr	x10, [sp, #112]
	adrp	x12, .Ldcsctp_static.11
	add	x12, x12, :lo12:.Ldcsctp_static.11
	stp	xzr, xzr, [x28]
	add	x11, x10, x9
	sub	x13, x11, x12
	cmp	x13, #27
	b.hi	.Ldcsctp_BB10_141
	adrp	x12, .Ldcsctp_CPI10_41
	adrp	x13, .Ldcsctp_CPI10_42
	ldr	q0, [x12, :lo12:.Ldcsctp_CPI10_41]
	adrp	x12, .Ldcsctp_CPI10_43
	ldr	d1, [x13, :lo12:.Ldcsctp_CPI10_42]
	ldr	d2, [x12, :lo12:.Ldcsctp_CPI10_43]
	str	q0, [x11]
	str	d1, [x11, #16]
	str	s2, [x11, #24]
	b	.Ldcsctp_BB10_142
.Ldcsctp_BB10_104:
	hint	#36
	ldr	w9, [x8, #8]
	ldr	w8, [x8, #20]
	adrp	x22, .Ldcsctp_static.38
	add	x22, x22, :lo12:.Ldcsctp_static.38
	adrp	x21, .Ldcsctp_static.39
	add	x21, x21, :lo12:.Ldcsctp_static.39
	stur	w8, [x29, #-16]
	mov	w8, #19
	stp	x22, x8, [sp, #224]
	add	x8, sp, #200
	str	w9, [sp, #200]
	sub	x9, x29, #16
	stp	x8, x21, [sp, #240]
	mov	w8, #14
	stp	x8, x9, [sp, #256]
	mov	w8, #32
	str	w8, [sp, #136]
	mov	x8, #-1
	str	x8, [sp, #152]
	ldr	x8, [sp, #160]
	stur	xzr, [x24, #28]
	stur	wzr, [x24, #36]
	cbnz	x8, .Ldcsctp_BB10_171
	ldp	x9, x8, [sp, #120]
	sub	x10, x8, x9
	cmp	x10, #18
	b.ls	.Ldcsctp_BB10_221
	ldr	x10, [sp, #112]
	stp	xzr, xzr, [x28]
	add	x11, x10, x9
	sub	x12, x11, x22
	cmp	x12, #18
	b.hi	.Ldcsctp_BB10_223
.Ldcsctp_BB10_107:
	adrp	x12, .Ldcsctp_CPI10_18
	mov	w13, #26465
	ldr	q0, [x12, :lo12:.Ldcsctp_CPI10_18]
	mov	w12, #61
	strh	w13, [x11, #16]
	strb	w12, [x11, #18]
	b	.Ldcsctp_BB10_224
.Ldcsctp_BB10_108:
	hint	#36
	ldr	x9, [sp, #160]
	ldrb	w21, [x8, #8]
	cbnz	x9, .Ldcsctp_BB10_173
	ldp	x9, x8, [sp, #120]
	sub	x10, x8, x9
	cmp	x10, #19
	b.ls	.Ldcsctp_BB10_237
.Ldcsctp_BB10_110:
	ldr	x10, [sp, #112]
	adrp	x12, .Ldcsctp_static.46
	add	x12, x12, :lo12:.Ldcsctp_static.46
	stp	xzr, xzr, [x28]
	add	x11, x10, x9
	sub	x13, x11, x12
	cmp	x13, #19
	b.hi	.Ldcsctp_BB10_143
	adrp	x12, .Ldcsctp_CPI10_5
	adrp	x13, .Ldcsctp_CPI10_6
	ldr	q0, [x12, :lo12:.Ldcsctp_CPI10_5]
	ldr	d1, [x13, :lo12:.Ldcsctp_CPI10_6]
	str	q0, [x11]
	str	s1, [x11, #16]
	b	.Ldcsctp_BB10_144
.Ldcsctp_BB10_112:
	hint	#36
	ldr	x8, [sp, #160]
	cbnz	x8, .Ldcsctp_BB10_174
	ldp	x9, x8, [sp, #120]
	sub	x10, x8, x9
	cmp	x10, #12
	b.ls	.Ldcsctp_BB10_239
.Ldcsctp_BB10_114:
	ldr	x10, [sp, #112]
	adrp	x12, .Ldcsctp_static.42
	add	x12, x12, :lo12:.Ldcsctp_static.42
	add	x11, x10, x9
	sub	x13, x11, x12
	cmp	x13, #12
	b.hi	.Ldcsctp_BB10_133
	adrp	x12, .Ldcsctp_CPI10_11
	adrp	x13, .Ldcsctp_CPI10_12
	ldr	d0, [x12, :lo12:.Ldcsctp_CPI10_11]
	ldr	d1, [x13, :lo12:.Ldcsctp_CPI10_12]
	mov	w12, #75
.Ldcsctp_BB10_116:
	str	d0, [x11]
	str	s1, [x11, #8]
	add	x9, x9, #13
	strb	w12, [x11, #12]
	b	.Ldcsctp_BB10_384
.Ldcsctp_BB10_117:
	hint	#36
	ldrb	w11, [x8, #44]
	ldr	w13, [x8, #56]
	adrp	x12, .Ldcsctp_static.25
	add	x12, x12, :lo12:.Ldcsctp_static.25
	adrp	x14, .Ldcsctp_static.24
	add	x14, x14, :lo12:.Ldcsctp_static.24
	cmp	w11, #1
	ldrb	w11, [x8, #50]
	ldrb	w15, [x8, #51]
	str	w13, [sp, #220]
	csel	x1, x14, x12, eq
	mov	w10, #7
	ldrh	w12, [x8, #46]
	mov	w9, #9
	mov	w13, #5
	csel	x23, x9, x10, eq
	cmp	w15, #0
	mov	w14, #8
	strh	w12, [sp, #216]
	csel	x13, x14, x13, ne
	adrp	x15, .Ldcsctp_static.27
	add	x15, x15, :lo12:.Ldcsctp_static.27
	ldr	w16, [x8, #32]
	ldr	w14, [x8, #40]
	ldr	x8, [x8, #16]
	adrp	x12, .Ldcsctp_static.26
	add	x12, x12, :lo12:.Ldcsctp_static.26
	stp	w14, w16, [sp, #208]
	adrp	x28, .Ldcsctp_static.34
	add	x28, x28, :lo12:.Ldcsctp_static.34
	mov	w14, #13
	csel	x12, x12, x15, ne
	mov	w15, #6
	adrp	x16, .Ldcsctp_static.29
	add	x16, x16, :lo12:.Ldcsctp_static.29
	str	x8, [sp, #200]
	mov	w8, #4
	stp	x28, x14, [sp, #224]
	adrp	x14, .Ldcsctp_static.28
	add	x14, x14, :lo12:.Ldcsctp_static.28
	csel	x8, x8, x15, ne
	stur	xzr, [x24, #28]
	csel	x14, x14, x16, ne
	cmp	w11, #0
	adrp	x16, .Ldcsctp_static.18
	add	x16, x16, :lo12:.Ldcsctp_static.18
	mov	w11, #2
	csel	x21, x13, x8, ne
	adrp	x8, .Ldcsctp_static.19
	add	x8, x8, :lo12:.Ldcsctp_static.19
	stp	x16, x11, [sp, #256]
	stp	x8, x15, [sp, #288]
	add	x8, sp, #220
	adrp	x11, .Ldcsctp_static.35
	add	x11, x11, :lo12:.Ldcsctp_static.35
	stur	wzr, [x24, #36]
	csel	x22, x12, x14, ne
	stp	x8, x11, [sp, #304]
	add	x8, sp, #216
	adrp	x11, .Ldcsctp_static.22
	add	x11, x11, :lo12:.Ldcsctp_static.22
	stp	x15, x8, [sp, #320]
	adrp	x8, .Ldcsctp_static.21
	add	x8, x8, :lo12:.Ldcsctp_static.21
	stp	x1, x23, [sp, #240]
	stp	x8, x15, [sp, #336]
	add	x8, sp, #212
	stp	x8, x11, [sp, #352]
	add	x8, sp, #208
	stp	x10, x8, [sp, #368]
	adrp	x8, .Ldcsctp_static.23
	add	x8, x8, :lo12:.Ldcsctp_static.23
	stp	x8, x9, [sp, #384]
	mov	w8, #32
	mov	x9, #-1
	str	w8, [sp, #136]
	add	x10, sp, #200
	str	x9, [sp, #152]
	ldur	q0, [x24, #24]
	str	x10, [sp, #400]
	ldur	x10, [x24, #40]
	str	w8, [sp, #136]
	ldr	x8, [sp, #160]
	stp	x22, x21, [sp, #272]
	stur	q0, [x29, #-48]
	stur	x10, [x29, #-32]
	stur	xzr, [x24, #28]
	stur	wzr, [x24, #36]
	str	x9, [sp, #152]
	cbnz	x8, .Ldcsctp_BB10_176
	ldp	x9, x8, [sp, #120]
	sub	x10, x8, x9
	cmp	x10, #12
	b.ls	.Ldcsctp_BB10_241
	ldr	x10, [sp, #112]
	add	x11, x10, x9
	sub	x12, x11, x28
	cmp	x12, #12
	b.hi	.Ldcsctp_BB10_243
.Ldcsctp_BB10_120:
	adrp	x12, .Ldcsctp_CPI10_23
	adrp	x13, .Ldcsctp_CPI10_24
	ldr	d0, [x12, :lo12:.Ldcsctp_CPI10_23]
	ldr	d1, [x13, :lo12:.Ldcsctp_CPI10_24]
	mov	w12, #61
	strb	w12, [x11, #12]
	str	d0, [x11]
	str	s1, [x11, #8]
	b	.Ldcsctp_BB10_244
.Ldcsctp_BB10_121:
	hint	#36
	ldrb	w8, [x8, #8]
	mov	w9, #32
	stur	xzr, [x24, #28]
	str	w9, [sp, #136]
	ldr	x9, [sp, #160]
	strb	w8, [sp, #224]
	mov	x8, #-1
	stur	wzr, [x24, #36]
	str	x8, [sp, #152]
	cbnz	x9, .Ldcsctp_BB10_177
	ldp	x9, x8, [sp, #120]
	sub	x10, x8, x9
	cmp	x10, #20
	b.ls	.Ldcsctp_BB10_251
.Ldcsctp_BB10_123:
	ldr	x10, [sp, #112]
	adrp	x12, .Ldcsctp_static.43
	add	x12, x12, :lo12:.Ldcsctp_static.43
	stp	xzr, xzr, [x28]
	add	x11, x10, x9
	sub	x13, x11, x12
	cmp	x13, #20
	b.hi	.Ldcsctp_BB10_149
	adrp	x12, .Ldcsctp_CPI10_9
	adrp	x13, .Ldcsctp_CPI10_10
	add	x9, x9, #21
	ldr	q0, [x12, :lo12:.Ldcsctp_CPI10_9]
	ldr	d1, [x13, :lo12:.Ldcsctp_CPI10_10]
	mov	w12, #61
	strb	w12, [x11, #20]
	str	q0, [x11]
	str	s1, [x11, #16]
	b	.Ldcsctp_BB10_150
.Ldcsctp_BB10_125:
	hint	#36
	ldr	x8, [x8, #16]
	adrp	x22, .Ldcsctp_static.32
	add	x22, x22, :lo12:.Ldcsctp_static.32
	mov	w9, #20
	adrp	x21, .Ldcsctp_static.33
	add	x21, x21, :lo12:.Ldcsctp_static.33
	stur	x8, [x29, #-48]
	mov	w8, #6
	str	x8, [sp, #256]
	mov	w8, #32
	str	w8, [sp, #136]
	mov	x8, #-1
	str	x8, [sp, #152]
	ldr	x8, [sp, #160]
	stp	x22, x9, [sp, #224]
	sub	x9, x29, #48
	stp	x9, x21, [sp, #240]
	stur	xzr, [x24, #28]
	stur	wzr, [x24, #36]
	cbnz	x8, .Ldcsctp_BB10_179
	ldp	x9, x8, [sp, #120]
	sub	x10, x8, x9
	cmp	x10, #19
	b.ls	.Ldcsctp_BB10_253
	ldr	x10, [sp, #112]
	stp	xzr, xzr, [x28]
	add	x11, x10, x9
	sub	x12, x11, x22
	cmp	x12, #19
	b.hi	.Ldcsctp_BB10_255
.Ldcsctp_BB10_128:
	adrp	x12, .Ldcsctp_CPI10_29
	adrp	x13, .Ldcsctp_CPI10_30
	ldr	q0, [x12, :lo12:.Ldcsctp_CPI10_29]
	ldr	d1, [x13, :lo12:.Ldcsctp_CPI10_30]
	str	q0, [x11]
	str	s1, [x11, #16]
	b	.Ldcsctp_BB10_256
.Ldcsctp_BB10_129:
	hint	#36
	ldr	x8, [sp, #160]
	cbnz	x8, .Ldcsctp_BB10_180
	ldp	x9, x8, [sp, #120]
	sub	x10, x8, x9
	cmp	x10, #11
	b.ls	.Ldcsctp_BB10_263
.Ldcsctp_BB10_131:
	ldr	x10, [sp, #112]
	adrp	x12, .Ldcsctp_static.12
	add	x12, x12, :lo12:.Ldcsctp_static.12
	add	x11, x10, x9
	sub	x13, x11, x12
	cmp	x13, #11
	b.hi	.Ldcsctp_BB10_152
	adrp	x12, .Ldcsctp_CPI10_39
	adrp	x13, .Ldcsctp_CPI10_40
	ldr	d0, [x12, :lo12:.Ldcsctp_CPI10_39]
	ldr	d1, [x13, :lo12:.Ldcsctp_CPI10_40]
	str	d0, [x11]
	str	s1, [x11, #8]
	b	.Ldcsctp_BB10_153
.Ldcsctp_BB10_133:
	ldr	x13, [x12]
	ldur	x12, [x12, #5]
	add	x9, x9, #13
	str	x13, [x11]
	stur	x12, [x11, #5]
	b	.Ldcsctp_BB10_384
.Ldcsctp_BB10_134:
	ldr	x12, [x12]
	mov	w13, #71
	add	x9, x9, #9
	strb	w13, [x11, #8]
	str	x12, [x11]
	b	.Ldcsctp_BB10_384
.Ldcsctp_BB10_135:
	ldr	x12, [x12]
	mov	w13, #19267
	add	x9, x9, #10
	strh	w13, [x11, #8]
	str	x12, [x11]
	b	.Ldcsctp_BB10_384
.Ldcsctp_BB10_136:
	ldp	q0, q1, [x12]
	mov	w13, #61
	strb	w13, [x11, #32]
.Ldcsctp_BB10_137:
	stp	q0, q1, [x11]
	add	x9, x9, #33
	b	.Ldcsctp_BB10_150
.Ldcsctp_BB10_138:
	mov	w13, #21061
	mov	w12, #82
	add	x9, x9, #5
	movk	w13, #20306, lsl #16
	strb	w12, [x11, #4]
	b	.Ldcsctp_BB10_383
.Ldcsctp_BB10_139:
	ldp	q0, q1, [x12]
.Ldcsctp_BB10_140:
	stp	q0, q1, [x11]
	add	x9, x9, #32
	b	.Ldcsctp_BB10_46
.Ldcsctp_BB10_141:
	ldr	q0, [x12]
	ldur	q1, [x12, #12]
	str	q0, [x11]
	stur	q1, [x11, #12]
.Ldcsctp_BB10_142:
	add	x9, x9, #28
	b	.Ldcsctp_BB10_46
.Ldcsctp_BB10_143:
	mov	w13, #28793
	ldr	q0, [x12]
	movk	w13, #15717, lsl #16
	str	w13, [x11, #16]
	str	q0, [x11]
.Ldcsctp_BB10_144:
	add	x9, x9, #20
	str	x8, [sp, #128]
	stp	x10, x9, [sp, #112]
.Ldcsctp_BB10_145:
	mov	w8, #32
	cmp	w21, #100
	stur	xzr, [x24, #28]
	str	w8, [sp, #136]
	mov	x8, #-1
	stur	wzr, [x24, #36]
	str	x8, [sp, #152]
	stp	xzr, xzr, [sp, #224]
	str	xzr, [sp, #240]
	b.lo	.Ldcsctp_BB10_147
	mov	w8, #41
	mov	w10, #205
	mul	w8, w21, w8
	lsr	w9, w8, #12
	mov	w8, #100
	msub	w8, w9, w8, w21
	and	w11, w8, #0xff
	mul	w10, w11, w10
	mov	w11, #10
	lsr	w10, w10, #11
	msub	w8, w10, w11, w8
	orr	w10, w10, #0x30
	strb	w10, [sp, #246]
	orr	w8, w8, #0x30
	strb	w8, [sp, #247]
	mov	w8, #21
	b	.Ldcsctp_BB10_155
.Ldcsctp_BB10_147:
	cmp	w21, #10
	b.lo	.Ldcsctp_BB10_154
	mov	w8, #205
	mov	w9, #10
	mul	w8, w21, w8
	lsr	w8, w8, #11
	msub	w9, w8, w9, w21
	orr	w8, w8, #0x30
	strb	w8, [sp, #246]
	mov	w8, #22
	orr	w9, w9, #0x30
	strb	w9, [sp, #247]
	b	.Ldcsctp_BB10_156
.Ldcsctp_BB10_149:
	ldr	q0, [x12]
	ldur	x12, [x12, #13]
	add	x9, x9, #21
	str	q0, [x11]
	stur	x12, [x11, #13]
.Ldcsctp_BB10_150:
	stp	x10, x9, [sp, #112]
	str	x8, [sp, #128]
.Ldcsctp_BB10_151:
	add	x0, sp, #112
	add	x1, sp, #224
	bl	core.fmt.formatter.Formatter.write_piece.b05199c44017c92e
	b	.Ldcsctp_BB10_50
.Ldcsctp_BB10_152:
	mov	w13, #16685
	ldr	x12, [x12]
	movk	w13, #19267, lsl #16
	str	w13, [x11, #8]
	str	x12, [x11]
.Ldcsctp_BB10_153:
	add	x9, x9, #12
	b	.Ldcsctp_BB10_384
.Ldcsctp_BB10_154:
	mov	w8, #23
	mov	w9, w21
.Ldcsctp_BB10_155:
	add	x10, sp, #224
	orr	w9, w9, #0x30
	strb	w9, [x10, x8]
.Ldcsctp_BB10_156:
	add	x9, sp, #224
	ldr	x10, [sp, #160]
	mov	w11, #24
	add	x1, x9, x8
	mov	w9, #45
	sub	x2, x11, x8
	sturb	w9, [x1, #-1]
	cbnz	x10, .Ldcsctp_BB10_181
	ldp	x8, x21, [sp, #120]
	sub	x9, x21, x8
	cmp	x2, x9
	b.hi	.Ldcsctp_BB10_279
.Ldcsctp_BB10_158:
	ldr	x22, [sp, #112]
	add	x23, x8, x2
	add	x0, x22, x8
	bl	memcpy
	ldr	q0, [sp, #176]
	stp	x22, x23, [sp, #112]
	str	x21, [sp, #128]
	b	.Ldcsctp_BB10_385
.Ldcsctp_BB10_159:
	adrp	x1, .Ldcsctp_static.37
	add	x1, x1, :lo12:.Ldcsctp_static.37
	add	x0, sp, #112
	mov	w2, #34
	b	.Ldcsctp_BB10_169
.Ldcsctp_BB10_160:
	adrp	x1, .Ldcsctp_static.45
	add	x1, x1, :lo12:.Ldcsctp_static.45
	add	x0, sp, #112
	mov	w2, #9
	bl	core.fmt.formatter.Formatter.write_indented.69d84fb4438acd8c
	b	.Ldcsctp_BB10_50
.Ldcsctp_BB10_161:
	adrp	x1, .Ldcsctp_static.13
	add	x1, x1, :lo12:.Ldcsctp_static.13
	add	x0, sp, #112
	mov	w2, #10
	bl	core.fmt.formatter.Formatter.write_indented.69d84fb4438acd8c
	b	.Ldcsctp_BB10_50
.Ldcsctp_BB10_162:
	adrp	x1, .Ldcsctp_static.41
	add	x1, x1, :lo12:.Ldcsctp_static.41
	b	.Ldcsctp_BB10_175
.Ldcsctp_BB10_163:
	adrp	x1, .Ldcsctp_static.14
	add	x1, x1, :lo12:.Ldcsctp_static.14
	add	x0, sp, #112
	mov	w2, #33
	b	.Ldcsctp_BB10_178
.Ldcsctp_BB10_164:
	adrp	x1, .Ldcsctp_static.44
	add	x1, x1, :lo12:.Ldcsctp_static.44
	add	x0, sp, #112
	mov	w2, #5
	bl	core.fmt.formatter.Formatter.write_indented.69d84fb4438acd8c
	b	.Ldcsctp_BB10_50
.Ldcsctp_BB10_165:
	adrp	x1, .Ldcsctp_static.40
	add	x1, x1, :lo12:.Ldcsctp_static.40
	add	x0, sp, #112
	mov	w2, #23
	b	.Ldcsctp_BB10_172
.Ldcsctp_BB10_166:
	adrp	x1, .Ldcsctp_static.36
	add	x1, x1, :lo12:.Ldcsctp_static.36
	add	x0, sp, #112
	mov	w2, #32
	b	.Ldcsctp_BB10_169
.Ldcsctp_BB10_167:
	adrp	x1, .Ldcsctp_static.30
	add	x1, x1, :lo12:.Ldcsctp_static.30
	add	x0, sp, #112
	mov	w2, #18
	bl	core.fmt.formatter.Formatter.write_indented.69d84fb4438acd8c
	and	w8, w0, #0xff
	tbz	w8, #0, .Ldcsctp_BB10_203
	b	.Ldcsctp_BB10_37
.Ldcsctp_BB10_168:
	adrp	x1, .Ldcsctp_static.11
	add	x1, x1, :lo12:.Ldcsctp_static.11
	add	x0, sp, #112
	mov	w2, #28
.Ldcsctp_BB10_169:
	bl	core.fmt.formatter.Formatter.write_indented.69d84fb4438acd8c
	tst	w0, #0xff
	b.eq	.Ldcsctp_BB10_47
	b	.Ldcsctp_BB10_37
.Ldcsctp_BB10_170:
	adrp	x8, .Ldcsctp_static.17
	add	x8, x8, :lo12:.Ldcsctp_static.17
	add	x0, sp, #112
	mov	x25, x1
	mov	x1, x8
	mov	w2, #11
	bl	core.fmt.formatter.Formatter.write_indented.69d84fb4438acd8c
	mov	x1, x25
	and	w8, w0, #0xff
	tbz	w8, #0, .Ldcsctp_BB10_215
	b	.Ldcsctp_BB10_37
.Ldcsctp_BB10_171:
	adrp	x1, .Ldcsctp_static.38
	add	x1, x1, :lo12:.Ldcsctp_static.38
	add	x0, sp, #112
	mov	w2, #19
.Ldcsctp_BB10_172:
	bl	core.fmt.formatter.Formatter.write_indented.69d84fb4438acd8c
	and	w8, w0, #0xff
	tbz	w8, #0, .Ldcsctp_BB10_226
	b	.Ldcsctp_BB10_37
.Ldcsctp_BB10_173:
	adrp	x1, .Ldcsctp_static.46
	add	x1, x1, :lo12:.Ldcsctp_static.46
	add	x0, sp, #112
	mov	w2, #20
	bl	core.fmt.formatter.Formatter.write_indented.69d84fb4438acd8c
	and	w8, w0, #0xff
	tbz	w8, #0, .Ldcsctp_BB10_145
	b	.Ldcsctp_BB10_37
.Ldcsctp_BB10_174:
	adrp	x1, .Ldcsctp_static.42
	add	x1, x1, :lo12:.Ldcsctp_static.42
.Ldcsctp_BB10_175:
	add	x0, sp, #112
	mov	w2, #13
	bl	core.fmt.formatter.Formatter.write_indented.69d84fb4438acd8c
	b	.Ldcsctp_BB10_50
.Ldcsctp_BB10_176:
	adrp	x8, .Ldcsctp_static.34
	add	x8, x8, :lo12:.Ldcsctp_static.34
	add	x0, sp, #112
	mov	x25, x1
	mov	x1, x8
	mov	w2, #13
	bl	core.fmt.formatter.Formatter.write_indented.69d84fb4438acd8c
	mov	x1, x25
	and	w8, w0, #0xff
	tbz	w8, #0, .Ldcsctp_BB10_245
	b	.Ldcsctp_BB10_37
.Ldcsctp_BB10_177:
	adrp	x1, .Ldcsctp_static.43
	add	x1, x1, :lo12:.Ldcsctp_static.43
	add	x0, sp, #112
	mov	w2, #21
.Ldcsctp_BB10_178:
	bl	core.fmt.formatter.Formatter.write_indented.69d84fb4438acd8c
	tst	w0, #0xff
	b.eq	.Ldcsctp_BB10_151
	b	.Ldcsctp_BB10_37
.Ldcsctp_BB10_179:
	adrp	x1, .Ldcsctp_static.32
	add	x1, x1, :lo12:.Ldcsctp_static.32
	add	x0, sp, #112
	mov	w2, #20
	bl	core.fmt.formatter.Formatter.write_indented.69d84fb4438acd8c
	and	w8, w0, #0xff
	tbz	w8, #0, .Ldcsctp_BB10_257
	b	.Ldcsctp_BB10_37
.Ldcsctp_BB10_180:
	adrp	x1, .Ldcsctp_static.12
	add	x1, x1, :lo12:.Ldcsctp_static.12
	add	x0, sp, #112
	mov	w2, #12
	bl	core.fmt.formatter.Formatter.write_indented.69d84fb4438acd8c
	b	.Ldcsctp_BB10_50
.Ldcsctp_BB10_181:
	add	x0, sp, #112
	bl	core.fmt.formatter.Formatter.write_indented.69d84fb4438acd8c
	b	.Ldcsctp_BB10_50
.Ldcsctp_BB10_182:
	add	x0, sp, #112
	mov	w1, #34
	bl	std_alloc.vec.Vec.grow_amortized.38fbb921ed00a393
	cbz	w0, .Ldcsctp_BB10_37
	ldp	x9, x8, [sp, #120]
	b	.Ldcsctp_BB10_66
.Ldcsctp_BB10_184:
	add	x0, sp, #112
	mov	w1, #9
	bl	std_alloc.vec.Vec.grow_amortized.38fbb921ed00a393
	tbz	w0, #0, .Ldcsctp_BB10_37
	ldp	x9, x8, [sp, #120]
	b	.Ldcsctp_BB10_70
.Ldcsctp_BB10_186:
	add	x0, sp, #112
	mov	w1, #10
	bl	std_alloc.vec.Vec.grow_amortized.38fbb921ed00a393
	tbz	w0, #0, .Ldcsctp_BB10_37
	ldp	x9, x8, [sp, #120]
	b	.Ldcsctp_BB10_74
.Ldcsctp_BB10_188:
	add	x0, sp, #112
	mov	w1, #13
	bl	std_alloc.vec.Vec.grow_amortized.38fbb921ed00a393
	tbz	w0, #0, .Ldcsctp_BB10_37
	ldp	x9, x8, [sp, #120]
	b	.Ldcsctp_BB10_78
.Ldcsctp_BB10_190:
	add	x0, sp, #112
	mov	w1, #33
	bl	std_alloc.vec.Vec.grow_amortized.38fbb921ed00a393
	cbz	w0, .Ldcsctp_BB10_37
	ldp	x9, x8, [sp, #120]
	b	.Ldcsctp_BB10_82
.Ldcsctp_BB10_192:
	add	x0, sp, #112
	mov	w1, #5
	bl	std_alloc.vec.Vec.grow_amortized.38fbb921ed00a393
	tbz	w0, #0, .Ldcsctp_BB10_37
	ldp	x9, x8, [sp, #120]
	b	.Ldcsctp_BB10_86
.Ldcsctp_BB10_194:
	add	x0, sp, #112
	mov	w1, #23
	bl	std_alloc.vec.Vec.grow_amortized.38fbb921ed00a393
	cbz	w0, .Ldcsctp_BB10_37
	ldp	x9, x8, [sp, #120]
	ldr	x10, [sp, #112]
	stp	xzr, xzr, [x28]
	add	x11, x10, x9
	sub	x12, x11, x22
	cmp	x12, #22
	b.ls	.Ldcsctp_BB10_91
.Ldcsctp_BB10_196:
	ldr	q0, [x22]
	ldur	x12, [x22, #15]
	add	x9, x9, #23
	str	q0, [x11]
	stur	x12, [x11, #15]
	b	.Ldcsctp_BB10_225
.Ldcsctp_BB10_197:
	add	x0, sp, #112
	mov	w1, #32
	bl	std_alloc.vec.Vec.grow_amortized.38fbb921ed00a393
	cbz	w0, .Ldcsctp_BB10_37
	ldp	x9, x8, [sp, #120]
	b	.Ldcsctp_BB10_94
.Ldcsctp_BB10_199:
	add	x0, sp, #112
	mov	w1, #18
	bl	std_alloc.vec.Vec.grow_amortized.38fbb921ed00a393
	cbz	w0, .Ldcsctp_BB10_37
	ldp	x9, x8, [sp, #120]
	ldr	x10, [sp, #112]
	stp	xzr, xzr, [x28]
	add	x11, x10, x9
	sub	x12, x11, x22
	cmp	x12, #17
	b.ls	.Ldcsctp_BB10_99
.Ldcsctp_BB10_201:
	ldr	q0, [x22]
.Ldcsctp_BB10_202:
	mov	w12, #15726
	strh	w12, [x11, #16]
	str	q0, [x11]
	add	x9, x9, #18
	str	x8, [sp, #128]
	stp	x10, x9, [sp, #112]
.Ldcsctp_BB10_203:
	ldr	w9, [sp, #200]
	sub	x8, x29, #24
	mov	w22, #32
	mov	x23, #-1
	add	x0, sp, #112
	sub	x1, x29, #48
	stur	x8, [x29, #-48]
	str	w22, [sp, #136]
	stur	w9, [x29, #-24]
	stur	xzr, [x24, #28]
	stur	wzr, [x24, #36]
	str	x23, [sp, #152]
	bl	core.fmt.formatter.Formatter.write_piece.7d2ac8fd5c291299
	and	w8, w0, #0xff
	tbnz	w8, #0, .Ldcsctp_BB10_37
	ldr	x8, [sp, #160]
	str	w22, [sp, #136]
	stur	xzr, [x24, #28]
	stur	wzr, [x24, #36]
	str	x23, [sp, #152]
	cbnz	x8, .Ldcsctp_BB10_208
	ldp	x9, x8, [sp, #120]
	sub	x10, x8, x9
	cmp	x10, #8
	b.ls	.Ldcsctp_BB10_375
	ldr	x10, [sp, #112]
	add	x11, x10, x9
	sub	x12, x11, x21
	cmp	x12, #8
	b.hi	.Ldcsctp_BB10_377
.Ldcsctp_BB10_207:
	adrp	x12, .Ldcsctp_CPI10_33
	ldr	d0, [x12, :lo12:.Ldcsctp_CPI10_33]
	mov	w12, #61
	strb	w12, [x11, #8]
	str	d0, [x11]
	b	.Ldcsctp_BB10_378
.Ldcsctp_BB10_208:
	adrp	x1, .Ldcsctp_static.31
	add	x1, x1, :lo12:.Ldcsctp_static.31
	add	x0, sp, #112
	mov	w2, #9
	bl	core.fmt.formatter.Formatter.write_indented.69d84fb4438acd8c
	tst	w0, #0xff
	b.eq	.Ldcsctp_BB10_379
	b	.Ldcsctp_BB10_37
.Ldcsctp_BB10_209:
	add	x0, sp, #112
	mov	w1, #28
	bl	std_alloc.vec.Vec.grow_amortized.38fbb921ed00a393
	cbz	w0, .Ldcsctp_BB10_37
	ldp	x9, x8, [sp, #120]
	b	.Ldcsctp_BB10_102
.Ldcsctp_BB10_211:
	add	x0, sp, #112
	mov	x25, x1
	mov	w1, #11
	bl	std_alloc.vec.Vec.grow_amortized.38fbb921ed00a393
	cbz	w0, .Ldcsctp_BB10_37
	ldp	x9, x8, [sp, #120]
	mov	x1, x25
	ldr	x10, [sp, #112]
	add	x11, x10, x9
	sub	x12, x11, x28
	cmp	x12, #10
	b.ls	.Ldcsctp_BB10_60
.Ldcsctp_BB10_213:
	mov	w12, #28793
	ldr	x13, [x28]
	movk	w12, #15717, lsl #16
	stur	w12, [x11, #7]
	str	x13, [x11]
.Ldcsctp_BB10_214:
	add	x9, x9, #11
	str	x8, [sp, #128]
	stp	x10, x9, [sp, #112]
.Ldcsctp_BB10_215:
	mov	w8, #32
	ldr	x9, [sp, #160]
	stur	xzr, [x24, #28]
	str	w8, [sp, #136]
	mov	x8, #-1
	stur	wzr, [x24, #36]
	str	x8, [sp, #152]
	cbnz	x9, .Ldcsctp_BB10_220
	ldp	x27, x28, [sp, #120]
	sub	x8, x28, x27
	cmp	x23, x8
	b.hi	.Ldcsctp_BB10_265
	ldr	x25, [sp, #112]
	add	x8, x25, x27
	sub	x9, x8, x1
	cmp	x9, x23
	b.hs	.Ldcsctp_BB10_267
.Ldcsctp_BB10_218:
	mov	x9, x23
.Ldcsctp_BB10_219:
	ldrb	w10, [x1], #1
	subs	x9, x9, #1
	strb	w10, [x8], #1
	b.ne	.Ldcsctp_BB10_219
	b	.Ldcsctp_BB10_268
.Ldcsctp_BB10_220:
	add	x0, sp, #112
	mov	x2, x23
	bl	core.fmt.formatter.Formatter.write_indented.69d84fb4438acd8c
	and	w8, w0, #0xff
	tbz	w8, #0, .Ldcsctp_BB10_269
	b	.Ldcsctp_BB10_37
.Ldcsctp_BB10_221:
	add	x0, sp, #112
	mov	w1, #19
	bl	std_alloc.vec.Vec.grow_amortized.38fbb921ed00a393
	cbz	w0, .Ldcsctp_BB10_37
	ldp	x9, x8, [sp, #120]
	ldr	x10, [sp, #112]
	stp	xzr, xzr, [x28]
	add	x11, x10, x9
	sub	x12, x11, x22
	cmp	x12, #18
	b.ls	.Ldcsctp_BB10_107
.Ldcsctp_BB10_223:
	mov	w12, #24948
	ldr	q0, [x22]
	movk	w12, #15719, lsl #16
	stur	w12, [x11, #15]
.Ldcsctp_BB10_224:
	str	q0, [x11]
	add	x9, x9, #19
.Ldcsctp_BB10_225:
	stp	x10, x9, [sp, #112]
	str	x8, [sp, #128]
.Ldcsctp_BB10_226:
	add	x8, sp, #224
	add	x0, sp, #112
	add	x1, x8, #16
	bl	core.fmt.formatter.Formatter.write_piece.7d2ac8fd5c291299
	and	w8, w0, #0xff
	tbnz	w8, #0, .Ldcsctp_BB10_37
	mov	w8, #32
	ldr	x9, [sp, #160]
	stur	xzr, [x24, #28]
	str	w8, [sp, #136]
	mov	x8, #-1
	stur	wzr, [x24, #36]
	str	x8, [sp, #152]
	cbnz	x9, .Ldcsctp_BB10_231
	ldp	x9, x8, [sp, #120]
	sub	x10, x8, x9
	cmp	x10, #13
	b.ls	.Ldcsctp_BB10_232
	ldr	x10, [sp, #112]
	add	x11, x10, x9
	sub	x12, x11, x21
	cmp	x12, #13
	b.hi	.Ldcsctp_BB10_234
.Ldcsctp_BB10_230:
	adrp	x12, .Ldcsctp_CPI10_16
	adrp	x13, .Ldcsctp_CPI10_17
	ldr	d0, [x12, :lo12:.Ldcsctp_CPI10_16]
	ldr	d1, [x13, :lo12:.Ldcsctp_CPI10_17]
	mov	w12, #15726
	strh	w12, [x11, #12]
	str	d0, [x11]
	str	s1, [x11, #8]
	b	.Ldcsctp_BB10_235
.Ldcsctp_BB10_231:
	adrp	x1, .Ldcsctp_static.39
	add	x1, x1, :lo12:.Ldcsctp_static.39
	add	x0, sp, #112
	mov	w2, #14
	bl	core.fmt.formatter.Formatter.write_indented.69d84fb4438acd8c
	tst	w0, #0xff
	b.eq	.Ldcsctp_BB10_236
	b	.Ldcsctp_BB10_37
.Ldcsctp_BB10_232:
	add	x0, sp, #112
	mov	w1, #14
	bl	std_alloc.vec.Vec.grow_amortized.38fbb921ed00a393
	cbz	w0, .Ldcsctp_BB10_37
	ldp	x9, x8, [sp, #120]
	ldr	x10, [sp, #112]
	add	x11, x10, x9
	sub	x12, x11, x21
	cmp	x12, #13
	b.ls	.Ldcsctp_BB10_230
.Ldcsctp_BB10_234:
	ldr	x12, [x21]
	ldur	x13, [x21, #6]
	str	x12, [x11]
	stur	x13, [x11, #6]
.Ldcsctp_BB10_235:
	add	x9, x9, #14
	str	x8, [sp, #128]
	stp	x10, x9, [sp, #112]
.Ldcsctp_BB10_236:
	sub	x8, x29, #24
	ldur	w9, [x29, #-16]
	mov	w10, #32
	stur	x8, [x29, #-48]
	mov	x8, #-1
	add	x0, sp, #112
	str	w10, [sp, #136]
	sub	x1, x29, #48
	stur	w9, [x29, #-24]
	b	.Ldcsctp_BB10_48
.Ldcsctp_BB10_237:
	add	x0, sp, #112
	mov	w1, #20
	bl	std_alloc.vec.Vec.grow_amortized.38fbb921ed00a393
	cbz	w0, .Ldcsctp_BB10_37
	ldp	x9, x8, [sp, #120]
	b	.Ldcsctp_BB10_110
.Ldcsctp_BB10_239:
	add	x0, sp, #112
	mov	w1, #13
	bl	std_alloc.vec.Vec.grow_amortized.38fbb921ed00a393
	tbz	w0, #0, .Ldcsctp_BB10_37
	ldp	x9, x8, [sp, #120]
	b	.Ldcsctp_BB10_114
.Ldcsctp_BB10_241:
	add	x0, sp, #112
	mov	x25, x1
	mov	w1, #13
	bl	std_alloc.vec.Vec.grow_amortized.38fbb921ed00a393
	cbz	w0, .Ldcsctp_BB10_37
	ldp	x9, x8, [sp, #120]
	mov	x1, x25
	ldr	x10, [sp, #112]
	add	x11, x10, x9
	sub	x12, x11, x28
	cmp	x12, #12
	b.ls	.Ldcsctp_BB10_120
.Ldcsctp_BB10_243:
	ldr	x12, [x28]
	ldur	x13, [x28, #5]
	str	x12, [x11]
	stur	x13, [x11, #5]
.Ldcsctp_BB10_244:
	add	x9, x9, #13
	str	x8, [sp, #128]
	stp	x10, x9, [sp, #112]
.Ldcsctp_BB10_245:
	mov	w8, #32
	ldr	x9, [sp, #160]
	stur	xzr, [x24, #28]
	str	w8, [sp, #136]
	mov	x8, #-1
	stur	wzr, [x24, #36]
	str	x8, [sp, #152]
	cbnz	x9, .Ldcsctp_BB10_250
	ldp	x27, x28, [sp, #120]
	sub	x8, x28, x27
	cmp	x23, x8
	b.hi	.Ldcsctp_BB10_281
	ldr	x25, [sp, #112]
	add	x8, x25, x27
	sub	x9, x8, x1
	cmp	x9, x23
	b.hs	.Ldcsctp_BB10_283
.Ldcsctp_BB10_248:
	mov	x9, x23
.Ldcsctp_BB10_249:
	ldrb	w10, [x1], #1
	subs	x9, x9, #1
	strb	w10, [x8], #1
	b.ne	.Ldcsctp_BB10_249
	b	.Ldcsctp_BB10_284
.Ldcsctp_BB10_250:
	add	x0, sp, #112
	mov	x2, x23
	bl	core.fmt.formatter.Formatter.write_indented.69d84fb4438acd8c
	and	w8, w0, #0xff
	tbz	w8, #0, .Ldcsctp_BB10_285
	b	.Ldcsctp_BB10_37
.Ldcsctp_BB10_251:
	add	x0, sp, #112
	mov	w1, #21
	bl	std_alloc.vec.Vec.grow_amortized.38fbb921ed00a393
	cbz	w0, .Ldcsctp_BB10_37
	ldp	x9, x8, [sp, #120]
	b	.Ldcsctp_BB10_123
.Ldcsctp_BB10_253:
	add	x0, sp, #112
	mov	w1, #20
	bl	std_alloc.vec.Vec.grow_amortized.38fbb921ed00a393
	cbz	w0, .Ldcsctp_BB10_37
	ldp	x9, x8, [sp, #120]
	ldr	x10, [sp, #112]
	stp	xzr, xzr, [x28]
	add	x11, x10, x9
	sub	x12, x11, x22
	cmp	x12, #19
	b.ls	.Ldcsctp_BB10_128
.Ldcsctp_BB10_255:
	mov	w12, #26987
	ldr	q0, [x22]
	movk	w12, #15717, lsl #16
	str	w12, [x11, #16]
	str	q0, [x11]
.Ldcsctp_BB10_256:
	add	x9, x9, #20
	str	x8, [sp, #128]
	stp	x10, x9, [sp, #112]
.Ldcsctp_BB10_257:
	add	x8, sp, #224
	add	x0, sp, #112
	add	x1, x8, #16
	bl	core.fmt.formatter.Formatter.write_piece.861f8385eb98801e
	and	w8, w0, #0xff
	tbnz	w8, #0, .Ldcsctp_BB10_37
	mov	w8, #32
	ldr	x9, [sp, #160]
	stur	xzr, [x24, #28]
	str	w8, [sp, #136]
	mov	x8, #-1
	stur	wzr, [x24, #36]
	str	x8, [sp, #152]
	cbnz	x9, .Ldcsctp_BB10_262
	ldp	x9, x8, [sp, #120]
	sub	x10, x8, x9
	cmp	x10, #5
	b.ls	.Ldcsctp_BB10_380
	ldr	x10, [sp, #112]
	add	x11, x10, x9
	sub	x12, x11, x21
	cmp	x12, #5
	b.hi	.Ldcsctp_BB10_382
.Ldcsctp_BB10_261:
	adrp	x12, .Ldcsctp_CPI10_31
	add	x9, x9, #6
	ldr	d0, [x12, :lo12:.Ldcsctp_CPI10_31]
	mov	w12, #29541
	strh	w12, [x11, #4]
	str	s0, [x11]
	b	.Ldcsctp_BB10_384
.Ldcsctp_BB10_262:
	adrp	x1, .Ldcsctp_static.33
	add	x1, x1, :lo12:.Ldcsctp_static.33
	add	x0, sp, #112
	mov	w2, #6
	bl	core.fmt.formatter.Formatter.write_indented.69d84fb4438acd8c
	b	.Ldcsctp_BB10_50
.Ldcsctp_BB10_263:
	add	x0, sp, #112
	mov	w1, #12
	bl	std_alloc.vec.Vec.grow_amortized.38fbb921ed00a393
	tbz	w0, #0, .Ldcsctp_BB10_37
	ldp	x9, x8, [sp, #120]
	b	.Ldcsctp_BB10_131
.Ldcsctp_BB10_265:
	add	x0, sp, #112
	mov	x25, x1
	mov	x1, x23
	bl	std_alloc.vec.Vec.grow_amortized.38fbb921ed00a393
	cbz	w0, .Ldcsctp_BB10_37
	ldp	x27, x28, [sp, #120]
	mov	x1, x25
	ldr	x25, [sp, #112]
	add	x8, x25, x27
	sub	x9, x8, x1
	cmp	x9, x23
	b.lo	.Ldcsctp_BB10_218
.Ldcsctp_BB10_267:
	add	x0, x25, x27
	mov	x2, x23
	bl	memcpy
.Ldcsctp_BB10_268:
	add	x8, x27, x23
	str	x28, [sp, #128]
	stp	x25, x8, [sp, #112]
.Ldcsctp_BB10_269:
	mov	w8, #32
	ldr	x9, [sp, #160]
	stur	xzr, [x24, #28]
	str	w8, [sp, #136]
	mov	x8, #-1
	stur	wzr, [x24, #36]
	str	x8, [sp, #152]
	cbnz	x9, .Ldcsctp_BB10_277
	ldp	x9, x8, [sp, #120]
	sub	x10, x8, x9
	cmp	x10, #1
	b.ls	.Ldcsctp_BB10_295
.Ldcsctp_BB10_271:
	ldr	x10, [sp, #112]
	mov	w11, #14906
	strh	w11, [x10, x9]
	add	x9, x9, #2
	stp	x10, x9, [sp, #112]
	str	x8, [sp, #128]
.Ldcsctp_BB10_272:
	mov	w8, #32
	ldr	x9, [sp, #160]
	stur	xzr, [x24, #28]
	str	w8, [sp, #136]
	mov	x8, #-1
	stur	wzr, [x24, #36]
	str	x8, [sp, #152]
	cbnz	x9, .Ldcsctp_BB10_278
	ldp	x27, x23, [sp, #120]
	sub	x8, x23, x27
	cmp	x21, x8
	b.hi	.Ldcsctp_BB10_299
	ldr	x25, [sp, #112]
	add	x8, x25, x27
	sub	x9, x8, x22
	cmp	x9, x21
	b.hs	.Ldcsctp_BB10_301
.Ldcsctp_BB10_275:
	mov	x9, x21
.Ldcsctp_BB10_276:
	ldrb	w10, [x22], #1
	subs	x9, x9, #1
	strb	w10, [x8], #1
	b.ne	.Ldcsctp_BB10_276
	b	.Ldcsctp_BB10_302
.Ldcsctp_BB10_277:
	adrp	x1, .Ldcsctp_static.18
	add	x1, x1, :lo12:.Ldcsctp_static.18
	add	x0, sp, #112
	mov	w2, #2
	bl	core.fmt.formatter.Formatter.write_indented.69d84fb4438acd8c
	and	w8, w0, #0xff
	tbz	w8, #0, .Ldcsctp_BB10_272
	b	.Ldcsctp_BB10_37
.Ldcsctp_BB10_278:
	add	x0, sp, #112
	mov	x1, x22
	mov	x2, x21
	bl	core.fmt.formatter.Formatter.write_indented.69d84fb4438acd8c
	and	w8, w0, #0xff
	tbz	w8, #0, .Ldcsctp_BB10_303
	b	.Ldcsctp_BB10_37
.Ldcsctp_BB10_279:
	mov	x22, x1
	add	x0, sp, #112
	mov	x1, x2
	mov	x23, x2
	bl	std_alloc.vec.Vec.grow_amortized.38fbb921ed00a393
	tbz	w0, #0, .Ldcsctp_BB10_37
	ldp	x8, x21, [sp, #120]
	mov	x1, x22
	mov	x2, x23
	b	.Ldcsctp_BB10_158
.Ldcsctp_BB10_281:
	add	x0, sp, #112
	mov	x25, x1
	mov	x1, x23
	bl	std_alloc.vec.Vec.grow_amortized.38fbb921ed00a393
	cbz	w0, .Ldcsctp_BB10_37
	ldp	x27, x28, [sp, #120]
	mov	x1, x25
	ldr	x25, [sp, #112]
	add	x8, x25, x27
	sub	x9, x8, x1
	cmp	x9, x23
	b.lo	.Ldcsctp_BB10_248
.Ldcsctp_BB10_283:
	add	x0, x25, x27
	mov	x2, x23
	bl	memcpy
.Ldcsctp_BB10_284:
	add	x8, x27, x23
	str	x28, [sp, #128]
	stp	x25, x8, [sp, #112]
.Ldcsctp_BB10_285:
	mov	w8, #32
	ldr	x9, [sp, #160]
	stur	xzr, [x24, #28]
	str	w8, [sp, #136]
	mov	x8, #-1
	stur	wzr, [x24, #36]
	str	x8, [sp, #152]
	cbnz	x9, .Ldcsctp_BB10_293
	ldp	x9, x8, [sp, #120]
	sub	x10, x8, x9
	cmp	x10, #1
	b.ls	.Ldcsctp_BB10_297
.Ldcsctp_BB10_287:
	ldr	x10, [sp, #112]
	mov	w11, #14906
	strh	w11, [x10, x9]
	add	x9, x9, #2
	stp	x10, x9, [sp, #112]
	str	x8, [sp, #128]
.Ldcsctp_BB10_288:
	mov	w8, #32
	ldr	x9, [sp, #160]
	stur	xzr, [x24, #28]
	str	w8, [sp, #136]
	mov	x8, #-1
	stur	wzr, [x24, #36]
	str	x8, [sp, #152]
	cbnz	x9, .Ldcsctp_BB10_294
	ldp	x27, x23, [sp, #120]
	sub	x8, x23, x27
	cmp	x21, x8
	b.hi	.Ldcsctp_BB10_333
	ldr	x25, [sp, #112]
	add	x8, x25, x27
	sub	x9, x8, x22
	cmp	x9, x21
	b.hs	.Ldcsctp_BB10_335
.Ldcsctp_BB10_291:
	mov	x9, x21
.Ldcsctp_BB10_292:
	ldrb	w10, [x22], #1
	subs	x9, x9, #1
	strb	w10, [x8], #1
	b.ne	.Ldcsctp_BB10_292
	b	.Ldcsctp_BB10_336
.Ldcsctp_BB10_293:
	adrp	x1, .Ldcsctp_static.18
	add	x1, x1, :lo12:.Ldcsctp_static.18
	add	x0, sp, #112
	mov	w2, #2
	bl	core.fmt.formatter.Formatter.write_indented.69d84fb4438acd8c
	and	w8, w0, #0xff
	tbz	w8, #0, .Ldcsctp_BB10_288
	b	.Ldcsctp_BB10_37
.Ldcsctp_BB10_294:
	add	x0, sp, #112
	mov	x1, x22
	mov	x2, x21
	bl	core.fmt.formatter.Formatter.write_indented.69d84fb4438acd8c
	and	w8, w0, #0xff
	tbz	w8, #0, .Ldcsctp_BB10_337
	b	.Ldcsctp_BB10_37
.Ldcsctp_BB10_295:
	add	x0, sp, #112
	mov	w1, #2
	bl	std_alloc.vec.Vec.grow_amortized.38fbb921ed00a393
	cbz	w0, .Ldcsctp_BB10_37
	ldp	x9, x8, [sp, #120]
	b	.Ldcsctp_BB10_271
.Ldcsctp_BB10_297:
	add	x0, sp, #112
	mov	w1, #2
	bl	std_alloc.vec.Vec.grow_amortized.38fbb921ed00a393
	cbz	w0, .Ldcsctp_BB10_37
	ldp	x9, x8, [sp, #120]
	b	.Ldcsctp_BB10_287
.Ldcsctp_BB10_299:
	add	x0, sp, #112
	mov	x1, x21
	bl	std_alloc.vec.Vec.grow_amortized.38fbb921ed00a393
	cbz	w0, .Ldcsctp_BB10_37
	ldp	x27, x23, [sp, #120]
	ldr	x25, [sp, #112]
	add	x8, x25, x27
	sub	x9, x8, x22
	cmp	x9, x21
	b.lo	.Ldcsctp_BB10_275
.Ldcsctp_BB10_301:
	add	x0, x25, x27
	mov	x1, x22
	mov	x2, x21
	bl	memcpy
.Ldcsctp_BB10_302:
	add	x8, x27, x21
	str	x23, [sp, #128]
	stp	x25, x8, [sp, #112]
.Ldcsctp_BB10_303:
	mov	w8, #32
	ldr	x9, [sp, #160]
	stur	xzr, [x24, #28]
	str	w8, [sp, #136]
	mov	x8, #-1
	stur	wzr, [x24, #36]
	str	x8, [sp, #152]
	cbnz	x9, .Ldcsctp_BB10_331
	ldp	x9, x8, [sp, #120]
	sub	x10, x8, x9
	cmp	x10, #5
	b.ls	.Ldcsctp_BB10_369
.Ldcsctp_BB10_305:
	ldr	x10, [sp, #112]
	adrp	x12, .Ldcsctp_static.19
	add	x12, x12, :lo12:.Ldcsctp_static.19
	add	x11, x10, x9
	sub	x12, x11, x12
	cmp	x12, #5
	b.hi	.Ldcsctp_BB10_307
	adrp	x12, .Ldcsctp_CPI10_25
	ldr	d0, [x12, :lo12:.Ldcsctp_CPI10_25]
	mov	w12, #15726
	strh	w12, [x11, #4]
	str	s0, [x11]
	b	.Ldcsctp_BB10_308
.Ldcsctp_BB10_307:
	mov	w13, #8236
	mov	w12, #15726
	movk	w13, #29556, lsl #16
	strh	w12, [x11, #4]
	str	w13, [x11]
.Ldcsctp_BB10_308:
	add	x9, x9, #6
	str	x8, [sp, #128]
	stp	x10, x9, [sp, #112]
.Ldcsctp_BB10_309:
	ldr	w9, [sp, #220]
	sub	x8, x29, #16
	mov	w21, #32
	mov	x22, #-1
	add	x0, sp, #112
	sub	x1, x29, #24
	stur	x8, [x29, #-24]
	str	w21, [sp, #136]
	stur	w9, [x29, #-16]
	stur	xzr, [x24, #28]
	stur	wzr, [x24, #36]
	str	x22, [sp, #152]
	bl	core.fmt.formatter.Formatter.write_piece.7d2ac8fd5c291299
	and	w8, w0, #0xff
	tbnz	w8, #0, .Ldcsctp_BB10_37
	ldr	x8, [sp, #160]
	str	w21, [sp, #136]
	stur	xzr, [x24, #28]
	stur	wzr, [x24, #36]
	str	x22, [sp, #152]
	cbnz	x8, .Ldcsctp_BB10_332
	ldp	x9, x8, [sp, #120]
	sub	x10, x8, x9
	cmp	x10, #5
	b.ls	.Ldcsctp_BB10_386
.Ldcsctp_BB10_312:
	ldr	x10, [sp, #112]
	adrp	x12, .Ldcsctp_static.20
	add	x12, x12, :lo12:.Ldcsctp_static.20
	add	x11, x10, x9
	sub	x12, x11, x12
	cmp	x12, #5
	b.hi	.Ldcsctp_BB10_314
	adrp	x12, .Ldcsctp_CPI10_35
	ldr	d0, [x12, :lo12:.Ldcsctp_CPI10_35]
	mov	w12, #15716
	strh	w12, [x11, #4]
	str	s0, [x11]
	b	.Ldcsctp_BB10_315
.Ldcsctp_BB10_314:
	mov	w13, #8236
	mov	w12, #15716
	movk	w13, #26995, lsl #16
	strh	w12, [x11, #4]
	str	w13, [x11]
.Ldcsctp_BB10_315:
	add	x9, x9, #6
	str	x8, [sp, #128]
	stp	x10, x9, [sp, #112]
.Ldcsctp_BB10_316:
	ldrh	w9, [sp, #208]
	sub	x8, x29, #16
	add	x0, sp, #112
	sub	x1, x29, #24
	stur	x8, [x29, #-24]
	str	w21, [sp, #136]
	sturh	w9, [x29, #-16]
	stur	xzr, [x24, #28]
	stur	wzr, [x24, #36]
	str	x22, [sp, #152]
	bl	core.fmt.formatter.Formatter.write_piece.9c544998babb2079
	and	w8, w0, #0xff
	tbnz	w8, #0, .Ldcsctp_BB10_37
	ldr	x8, [sp, #160]
	str	w21, [sp, #136]
	stur	xzr, [x24, #28]
	stur	wzr, [x24, #36]
	str	x22, [sp, #152]
	cbnz	x8, .Ldcsctp_BB10_373
	ldp	x9, x8, [sp, #120]
	sub	x10, x8, x9
	cmp	x10, #5
	b.ls	.Ldcsctp_BB10_392
.Ldcsctp_BB10_319:
	ldr	x10, [sp, #112]
	adrp	x12, .Ldcsctp_static.21
	add	x12, x12, :lo12:.Ldcsctp_static.21
	add	x11, x10, x9
	sub	x12, x11, x12
	cmp	x12, #5
	b.hi	.Ldcsctp_BB10_321
	adrp	x12, .Ldcsctp_CPI10_27
	ldr	d0, [x12, :lo12:.Ldcsctp_CPI10_27]
	mov	w12, #15726
	strh	w12, [x11, #4]
	str	s0, [x11]
	b	.Ldcsctp_BB10_322
.Ldcsctp_BB10_321:
	mov	w13, #8236
	mov	w12, #15726
	movk	w13, #29555, lsl #16
	strh	w12, [x11, #4]
	str	w13, [x11]
.Ldcsctp_BB10_322:
	add	x9, x9, #6
	str	x8, [sp, #128]
	stp	x10, x9, [sp, #112]
.Ldcsctp_BB10_323:
	ldrh	w9, [sp, #216]
	sub	x8, x29, #16
	add	x0, sp, #112
	sub	x1, x29, #24
	stur	x8, [x29, #-24]
	str	w21, [sp, #136]
	sturh	w9, [x29, #-16]
	stur	xzr, [x24, #28]
	stur	wzr, [x24, #36]
	str	x22, [sp, #152]
	bl	core.fmt.formatter.Formatter.write_piece.9c544998babb2079
	and	w8, w0, #0xff
	tbnz	w8, #0, .Ldcsctp_BB10_37
	ldr	x8, [sp, #160]
	str	w21, [sp, #136]
	stur	xzr, [x24, #28]
	stur	wzr, [x24, #36]
	str	x22, [sp, #152]
	cbnz	x8, .Ldcsctp_BB10_390
	ldp	x9, x8, [sp, #120]
	sub	x10, x8, x9
	cmp	x10, #6
	b.ls	.Ldcsctp_BB10_396
.Ldcsctp_BB10_326:
	ldr	x10, [sp, #112]
	adrp	x12, .Ldcsctp_static.22
	add	x12, x12, :lo12:.Ldcsctp_static.22
	add	x11, x10, x9
	sub	x12, x11, x12
	cmp	x12, #6
	b.hi	.Ldcsctp_BB10_328
	adrp	x12, .Ldcsctp_CPI10_28
	mov	w13, #25705
	ldr	d0, [x12, :lo12:.Ldcsctp_CPI10_28]
	mov	w12, #61
	strh	w13, [x11, #4]
	strb	w12, [x11, #6]
	str	s0, [x11]
	b	.Ldcsctp_BB10_329
.Ldcsctp_BB10_328:
	mov	w12, #26992
	mov	w13, #8236
	movk	w12, #15716, lsl #16
	movk	w13, #28784, lsl #16
	stur	w12, [x11, #3]
	str	w13, [x11]
.Ldcsctp_BB10_329:
	add	x9, x9, #7
	str	x8, [sp, #128]
	stp	x10, x9, [sp, #112]
.Ldcsctp_BB10_330:
	ldr	w9, [sp, #212]
	b	.Ldcsctp_BB10_365
.Ldcsctp_BB10_331:
	adrp	x1, .Ldcsctp_static.19
	add	x1, x1, :lo12:.Ldcsctp_static.19
	add	x0, sp, #112
	mov	w2, #6
	bl	core.fmt.formatter.Formatter.write_indented.69d84fb4438acd8c
	and	w8, w0, #0xff
	tbz	w8, #0, .Ldcsctp_BB10_309
	b	.Ldcsctp_BB10_37
.Ldcsctp_BB10_332:
	adrp	x1, .Ldcsctp_static.20
	add	x1, x1, :lo12:.Ldcsctp_static.20
	add	x0, sp, #112
	mov	w2, #6
	bl	core.fmt.formatter.Formatter.write_indented.69d84fb4438acd8c
	and	w8, w0, #0xff
	tbz	w8, #0, .Ldcsctp_BB10_316
	b	.Ldcsctp_BB10_37
.Ldcsctp_BB10_333:
	add	x0, sp, #112
	mov	x1, x21
	bl	std_alloc.vec.Vec.grow_amortized.38fbb921ed00a393
	cbz	w0, .Ldcsctp_BB10_37
	ldp	x27, x23, [sp, #120]
	ldr	x25, [sp, #112]
	add	x8, x25, x27
	sub	x9, x8, x22
	cmp	x9, x21
	b.lo	.Ldcsctp_BB10_291
.Ldcsctp_BB10_335:
	add	x0, x25, x27
	mov	x1, x22
	mov	x2, x21
	bl	memcpy
.Ldcsctp_BB10_336:
	add	x8, x27, x21
	str	x23, [sp, #128]
	stp	x25, x8, [sp, #112]
.Ldcsctp_BB10_337:
	mov	w8, #32
	ldr	x9, [sp, #160]
	stur	xzr, [x24, #28]
	str	w8, [sp, #136]
	mov	x8, #-1
	stur	wzr, [x24, #36]
	str	x8, [sp, #152]
	cbnz	x9, .Ldcsctp_BB10_367
	ldp	x9, x8, [sp, #120]
	sub	x10, x8, x9
	cmp	x10, #5
	b.ls	.Ldcsctp_BB10_371
.Ldcsctp_BB10_339:
	ldr	x10, [sp, #112]
	adrp	x12, .Ldcsctp_static.19
	add	x12, x12, :lo12:.Ldcsctp_static.19
	add	x11, x10, x9
	sub	x12, x11, x12
	cmp	x12, #5
	b.hi	.Ldcsctp_BB10_341
	adrp	x12, .Ldcsctp_CPI10_25
	ldr	d0, [x12, :lo12:.Ldcsctp_CPI10_25]
	mov	w12, #15726
	strh	w12, [x11, #4]
	str	s0, [x11]
	b	.Ldcsctp_BB10_342
.Ldcsctp_BB10_341:
	mov	w13, #8236
	mov	w12, #15726
	movk	w13, #29556, lsl #16
	strh	w12, [x11, #4]
	str	w13, [x11]
.Ldcsctp_BB10_342:
	add	x9, x9, #6
	str	x8, [sp, #128]
	stp	x10, x9, [sp, #112]
.Ldcsctp_BB10_343:
	ldr	w9, [sp, #220]
	sub	x8, x29, #16
	mov	w21, #32
	mov	x22, #-1
	add	x0, sp, #112
	sub	x1, x29, #24
	stur	x8, [x29, #-24]
	str	w21, [sp, #136]
	stur	w9, [x29, #-16]
	stur	xzr, [x24, #28]
	stur	wzr, [x24, #36]
	str	x22, [sp, #152]
	bl	core.fmt.formatter.Formatter.write_piece.7d2ac8fd5c291299
	and	w8, w0, #0xff
	tbnz	w8, #0, .Ldcsctp_BB10_37
	ldr	x8, [sp, #160]
	str	w21, [sp, #136]
	stur	xzr, [x24, #28]
	stur	wzr, [x24, #36]
	str	x22, [sp, #152]
	cbnz	x8, .Ldcsctp_BB10_368
	ldp	x9, x8, [sp, #120]
	sub	x10, x8, x9
	cmp	x10, #5
	b.ls	.Ldcsctp_BB10_388
.Ldcsctp_BB10_346:
	ldr	x10, [sp, #112]
	adrp	x12, .Ldcsctp_static.35
	add	x12, x12, :lo12:.Ldcsctp_static.35
	add	x11, x10, x9
	sub	x12, x11, x12
	cmp	x12, #5
	b.hi	.Ldcsctp_BB10_348
	adrp	x12, .Ldcsctp_CPI10_26
	ldr	d0, [x12, :lo12:.Ldcsctp_CPI10_26]
	mov	w12, #15716
	strh	w12, [x11, #4]
	str	s0, [x11]
	b	.Ldcsctp_BB10_349
.Ldcsctp_BB10_348:
	mov	w13, #8236
	mov	w12, #15716
	movk	w13, #26989, lsl #16
	strh	w12, [x11, #4]
	str	w13, [x11]
.Ldcsctp_BB10_349:
	add	x9, x9, #6
	str	x8, [sp, #128]
	stp	x10, x9, [sp, #112]
.Ldcsctp_BB10_350:
	ldrh	w9, [sp, #216]
	sub	x8, x29, #16
	add	x0, sp, #112
	sub	x1, x29, #24
	stur	x8, [x29, #-24]
	str	w21, [sp, #136]
	sturh	w9, [x29, #-16]
	stur	xzr, [x24, #28]
	stur	wzr, [x24, #36]
	str	x22, [sp, #152]
	bl	core.fmt.formatter.Formatter.write_piece.9c544998babb2079
	and	w8, w0, #0xff
	tbnz	w8, #0, .Ldcsctp_BB10_37
	ldr	x8, [sp, #160]
	str	w21, [sp, #136]
	stur	xzr, [x24, #28]
	stur	wzr, [x24, #36]
	str	x22, [sp, #152]
	cbnz	x8, .Ldcsctp_BB10_374
	ldp	x9, x8, [sp, #120]
	sub	x10, x8, x9
	cmp	x10, #5
	b.ls	.Ldcsctp_BB10_394
.Ldcsctp_BB10_353:
	ldr	x10, [sp, #112]
	adrp	x12, .Ldcsctp_static.21
	add	x12, x12, :lo12:.Ldcsctp_static.21
	add	x11, x10, x9
	sub	x12, x11, x12
	cmp	x12, #5
	b.hi	.Ldcsctp_BB10_355
	adrp	x12, .Ldcsctp_CPI10_27
	ldr	d0, [x12, :lo12:.Ldcsctp_CPI10_27]
	mov	w12, #15726
	strh	w12, [x11, #4]
	str	s0, [x11]
	b	.Ldcsctp_BB10_356
.Ldcsctp_BB10_355:
	mov	w13, #8236
	mov	w12, #15726
	movk	w13, #29555, lsl #16
	strh	w12, [x11, #4]
	str	w13, [x11]
.Ldcsctp_BB10_356:
	add	x9, x9, #6
	str	x8, [sp, #128]
	stp	x10, x9, [sp, #112]
.Ldcsctp_BB10_357:
	ldr	w9, [sp, #212]
	sub	x8, x29, #16
	add	x0, sp, #112
	sub	x1, x29, #24
	stur	x8, [x29, #-24]
	str	w21, [sp, #136]
	stur	w9, [x29, #-16]
	stur	xzr, [x24, #28]
	stur	wzr, [x24, #36]
	str	x22, [sp, #152]
	bl	core.fmt.formatter.Formatter.write_piece.7d2ac8fd5c291299
	and	w8, w0, #0xff
	tbnz	w8, #0, .Ldcsctp_BB10_37
	ldr	x8, [sp, #160]
	str	w21, [sp, #136]
	stur	xzr, [x24, #28]
	stur	wzr, [x24, #36]
	str	x22, [sp, #152]
	cbnz	x8, .Ldcsctp_BB10_391
	ldp	x9, x8, [sp, #120]
	sub	x10, x8, x9
	cmp	x10, #6
	b.ls	.Ldcsctp_BB10_398
.Ldcsctp_BB10_360:
	ldr	x10, [sp, #112]
	adrp	x12, .Ldcsctp_static.22
	add	x12, x12, :lo12:.Ldcsctp_static.22
	add	x11, x10, x9
	sub	x12, x11, x12
	cmp	x12, #6
	b.hi	.Ldcsctp_BB10_362
	adrp	x12, .Ldcsctp_CPI10_28
	mov	w13, #25705
	ldr	d0, [x12, :lo12:.Ldcsctp_CPI10_28]
	mov	w12, #61
	strh	w13, [x11, #4]
	strb	w12, [x11, #6]
	str	s0, [x11]
	b	.Ldcsctp_BB10_363
.Ldcsctp_BB10_362:
	mov	w12, #26992
	mov	w13, #8236
	movk	w12, #15716, lsl #16
	movk	w13, #28784, lsl #16
	stur	w12, [x11, #3]
	str	w13, [x11]
.Ldcsctp_BB10_363:
	add	x9, x9, #7
	str	x8, [sp, #128]
	stp	x10, x9, [sp, #112]
.Ldcsctp_BB10_364:
	ldr	w9, [sp, #208]
.Ldcsctp_BB10_365:
	sub	x8, x29, #16
	mov	w10, #32
	stur	x8, [x29, #-24]
	mov	x8, #-1
	add	x0, sp, #112
	sub	x1, x29, #24
	str	w10, [sp, #136]
	stur	w9, [x29, #-16]
	stur	xzr, [x24, #28]
	stur	wzr, [x24, #36]
	str	x8, [sp, #152]
	bl	core.fmt.formatter.Formatter.write_piece.7d2ac8fd5c291299
	ldur	q0, [x29, #-48]
	ldur	x8, [x29, #-32]
	tst	w0, #0xff
	stur	q0, [x24, #24]
	stur	x8, [x24, #40]
	b.ne	.Ldcsctp_BB10_37
	add	x8, sp, #224
	add	x0, sp, #112
	add	x1, x8, #160
	bl	core.fmt.formatter.Formatter.write_piece.3798a2e744629105
	ldp	x27, x25, [sp]
	and	w9, w0, #0xff
	ldr	q0, [sp, #176]
	ldr	x8, [sp, #192]
	orr	x28, x24, #0x8
	stur	q0, [x24, #24]
	stur	x8, [x24, #40]
	tbz	w9, #0, .Ldcsctp_BB10_51
	b	.Ldcsctp_BB10_37
.Ldcsctp_BB10_367:
	adrp	x1, .Ldcsctp_static.19
	add	x1, x1, :lo12:.Ldcsctp_static.19
	add	x0, sp, #112
	mov	w2, #6
	bl	core.fmt.formatter.Formatter.write_indented.69d84fb4438acd8c
	and	w8, w0, #0xff
	tbz	w8, #0, .Ldcsctp_BB10_343
	b	.Ldcsctp_BB10_37
.Ldcsctp_BB10_368:
	adrp	x1, .Ldcsctp_static.35
	add	x1, x1, :lo12:.Ldcsctp_static.35
	add	x0, sp, #112
	mov	w2, #6
	bl	core.fmt.formatter.Formatter.write_indented.69d84fb4438acd8c
	and	w8, w0, #0xff
	tbz	w8, #0, .Ldcsctp_BB10_350
	b	.Ldcsctp_BB10_37
.Ldcsctp_BB10_369:
	add	x0, sp, #112
	mov	w1, #6
	bl	std_alloc.vec.Vec.grow_amortized.38fbb921ed00a393
	cbz	w0, .Ldcsctp_BB10_37
	ldp	x9, x8, [sp, #120]
	b	.Ldcsctp_BB10_305
.Ldcsctp_BB10_371:
	add	x0, sp, #112
	mov	w1, #6
	bl	std_alloc.vec.Vec.grow_amortized.38fbb921ed00a393
	cbz	w0, .Ldcsctp_BB10_37
	ldp	x9, x8, [sp, #120]
	b	.Ldcsctp_BB10_339
.Ldcsctp_BB10_373:
	adrp	x1, .Ldcsctp_static.21
	add	x1, x1, :lo12:.Ldcsctp_static.21
	add	x0, sp, #112
	mov	w2, #6
	bl	core.fmt.formatter.Formatter.write_indented.69d84fb4438acd8c
	and	w8, w0, #0xff
	tbz	w8, #0, .Ldcsctp_BB10_323
	b	.Ldcsctp_BB10_37
.Ldcsctp_BB10_374:
	adrp	x1, .Ldcsctp_static.21
	add	x1, x1, :lo12:.Ldcsctp_static.21
	add	x0, sp, #112
	mov	w2, #6
	bl	core.fmt.formatter.Formatter.write_indented.69d84fb4438acd8c
	and	w8, w0, #0xff
	tbz	w8, #0, .Ldcsctp_BB10_357
	b	.Ldcsctp_BB10_37
.Ldcsctp_BB10_375:
	add	x0, sp, #112
	mov	w1, #9
	bl	std_alloc.vec.Vec.grow_amortized.38fbb921ed00a393
	cbz	w0, .Ldcsctp_BB10_37
	ldp	x9, x8, [sp, #120]
	ldr	x10, [sp, #112]
	add	x11, x10, x9
	sub	x12, x11, x21
	cmp	x12, #8
	b.ls	.Ldcsctp_BB10_207
.Ldcsctp_BB10_377:
	ldr	x13, [x21]
	mov	w12, #61
	strb	w12, [x11, #8]
	str	x13, [x11]
.Ldcsctp_BB10_378:
	add	x9, x9, #9
	str	x8, [sp, #128]
	stp	x10, x9, [sp, #112]
.Ldcsctp_BB10_379:
	add	x8, sp, #224
	add	x0, sp, #112
	add	x1, x8, #40
	b	.Ldcsctp_BB10_49
.Ldcsctp_BB10_380:
	add	x0, sp, #112
	mov	w1, #6
	bl	std_alloc.vec.Vec.grow_amortized.38fbb921ed00a393
	cbz	w0, .Ldcsctp_BB10_37
	ldp	x9, x8, [sp, #120]
	ldr	x10, [sp, #112]
	add	x11, x10, x9
	sub	x12, x11, x21
	cmp	x12, #5
	b.ls	.Ldcsctp_BB10_261
.Ldcsctp_BB10_382:
	mov	w13, #25120
	mov	w12, #29541
	add	x9, x9, #6
	movk	w13, #29817, lsl #16
	strh	w12, [x11, #4]
.Ldcsctp_BB10_383:
	str	w13, [x11]
.Ldcsctp_BB10_384:
	ldr	q0, [sp, #176]
	stp	x10, x9, [sp, #112]
	str	x8, [sp, #128]
.Ldcsctp_BB10_385:
	ldr	x8, [sp, #192]
	stur	q0, [x24, #24]
	stur	x8, [x24, #40]
	add	x26, x26, #1
	cmp	x26, x25
	b.ne	.Ldcsctp_BB10_52
	b	.Ldcsctp_BB10_400
.Ldcsctp_BB10_386:
	add	x0, sp, #112
	mov	w1, #6
	bl	std_alloc.vec.Vec.grow_amortized.38fbb921ed00a393
	cbz	w0, .Ldcsctp_BB10_37
	ldp	x9, x8, [sp, #120]
	b	.Ldcsctp_BB10_312
.Ldcsctp_BB10_388:
	add	x0, sp, #112
	mov	w1, #6
	bl	std_alloc.vec.Vec.grow_amortized.38fbb921ed00a393
	cbz	w0, .Ldcsctp_BB10_37
	ldp	x9, x8, [sp, #120]
	b	.Ldcsctp_BB10_346
.Ldcsctp_BB10_390:
	adrp	x1, .Ldcsctp_static.22
	add	x1, x1, :lo12:.Ldcsctp_static.22
	add	x0, sp, #112
	mov	w2, #7
	bl	core.fmt.formatter.Formatter.write_indented.69d84fb4438acd8c
	tst	w0, #0xff
	b.eq	.Ldcsctp_BB10_330
	b	.Ldcsctp_BB10_37
.Ldcsctp_BB10_391:
	adrp	x1, .Ldcsctp_static.22
	add	x1, x1, :lo12:.Ldcsctp_static.22
	add	x0, sp, #112
	mov	w2, #7
	bl	core.fmt.formatter.Formatter.write_indented.69d84fb4438acd8c
	tst	w0, #0xff
	b.eq	.Ldcsctp_BB10_364
	b	.Ldcsctp_BB10_37
.Ldcsctp_BB10_392:
	add	x0, sp, #112
	mov	w1, #6
	bl	std_alloc.vec.Vec.grow_amortized.38fbb921ed00a393
	cbz	w0, .Ldcsctp_BB10_37
	ldp	x9, x8, [sp, #120]
	b	.Ldcsctp_BB10_319
.Ldcsctp_BB10_394:
	add	x0, sp, #112
	mov	w1, #6
	bl	std_alloc.vec.Vec.grow_amortized.38fbb921ed00a393
	cbz	w0, .Ldcsctp_BB10_37
	ldp	x9, x8, [sp, #120]
	b	.Ldcsctp_BB10_353
.Ldcsctp_BB10_396:
	add	x0, sp, #112
	mov	w1, #7
	bl	std_alloc.vec.Vec.grow_amortized.38fbb921ed00a393
	cbz	w0, .Ldcsctp_BB10_37
	ldp	x9, x8, [sp, #120]
	b	.Ldcsctp_BB10_326
.Ldcsctp_BB10_398:
	add	x0, sp, #112
	mov	w1, #7
	bl	std_alloc.vec.Vec.grow_amortized.38fbb921ed00a393
	cbz	w0, .Ldcsctp_BB10_37
	ldp	x9, x8, [sp, #120]
	b	.Ldcsctp_BB10_360
.Ldcsctp_BB10_400:
	mov	w8, #32
	ldr	x9, [sp, #160]
	stur	xzr, [x24, #28]
	str	w8, [sp, #136]
	mov	x8, #-1
	stur	wzr, [x24, #36]
	str	x8, [sp, #152]
	cbnz	x9, .Ldcsctp_BB10_459
	ldp	x9, x8, [sp, #120]
	cmp	x8, x9
	b.eq	.Ldcsctp_BB10_468
.Ldcsctp_BB10_402:
	ldr	x10, [sp, #112]
	mov	w11, #10
	str	x8, [sp, #32]
	strb	w11, [x10, x9]
	add	x9, x9, #1
	stp	x10, x9, [sp, #112]
	ldr	q0, [sp, #112]
	str	q0, [sp, #16]
.Ldcsctp_BB10_403:
	ldr	x22, [x20, #8]
	cbz	x22, .Ldcsctp_BB10_440
	ldr	x23, [x20]
	mov	x21, xzr
	mov	x24, xzr
.Ldcsctp_BB10_405:
	add	x8, x23, x24, lsl #6
	ldrb	w9, [x8]
	cmp	w9, #17
	b.hi	.Ldcsctp_BB10_497
	adrp	x10, .Ldcsctp_JTI10_1
	add	x10, x10, :lo12:.Ldcsctp_JTI10_1
	mov	w0, #1
	adr	x11, .Ldcsctp_BB10_407
	ldrb	w12, [x10, x9]
	add	x11, x11, x12, lsl #2
	mov	w1, #8
	br	x11
.Ldcsctp_BB10_407:
	hint	#36
	ldp	x1, x2, [x8, #8]
	mov	x0, xzr
	bl	dcsctp_tlv.list.listed_encoded_size.cada439fb2c2aae5
	b	.Ldcsctp_BB10_434
.Ldcsctp_BB10_408:
	hint	#36
	mov	w1, #4
	b	.Ldcsctp_BB10_434
.Ldcsctp_BB10_409:
	hint	#36
	ldp	x1, x2, [x8, #24]
	mov	w0, #16
	bl	dcsctp_tlv.list.listed_encoded_size.cada439fb2c2aae5
	b	.Ldcsctp_BB10_434
.Ldcsctp_BB10_410:
	hint	#36
	ldr	x9, [x8, #24]
	cbz	x9, .Ldcsctp_BB10_415
	ldr	x8, [x8, #16]
	sub	x10, x9, #1
.Ldcsctp_BB10_412:
	ldrb	w11, [x8], #12
	cmp	w11, #1
	b.ne	.Ldcsctp_BB10_414
	mov	x12, x10
	sub	x10, x10, #1
	cbnz	x12, .Ldcsctp_BB10_412
.Ldcsctp_BB10_414:
	cmp	w11, #1
	b.ne	.Ldcsctp_BB10_424
.Ldcsctp_BB10_415:
	lsr	x8, x9, #61
	lsl	x9, x9, #3
	b	.Ldcsctp_BB10_432
.Ldcsctp_BB10_416:
	hint	#36
	ldr	x8, [x8, #16]
	mov	w10, #65532
	add	x9, x8, #16
	add	x8, x8, #20
	cmp	x9, x10
	b	.Ldcsctp_BB10_433
.Ldcsctp_BB10_417:
	hint	#36
	ldr	x9, [x8, #24]
	ldr	x8, [x8, #48]
	adds	x8, x8, x9
	csinv	x8, x8, xzr, lo
	lsr	x9, x8, #62
	lsl	x8, x8, #2
	cmp	x9, #0
	csinv	x8, x8, xzr, eq
	lsr	x9, x8, #4
	cmp	x9, #4095
	b	.Ldcsctp_BB10_426
.Ldcsctp_BB10_418:
	hint	#36
	ldp	x0, x1, [x8, #8]
	bl	dcsctp_tlv.list.listed_encoded_size.f123a6a91b68d363
	b	.Ldcsctp_BB10_434
.Ldcsctp_BB10_419:
	hint	#36
	ldr	x9, [x8, #24]
	cbz	x9, .Ldcsctp_BB10_431
	ldr	x8, [x8, #16]
	sub	x10, x9, #1
.Ldcsctp_BB10_421:
	ldrb	w11, [x8], #12
	cmp	w11, #1
	b.eq	.Ldcsctp_BB10_423
	mov	x12, x10
	sub	x10, x10, #1
	cbnz	x12, .Ldcsctp_BB10_421
.Ldcsctp_BB10_423:
	cmp	w11, #1
	b.ne	.Ldcsctp_BB10_431
.Ldcsctp_BB10_424:
	mov	x1, xzr
	mov	w0, wzr
	b	.Ldcsctp_BB10_434
.Ldcsctp_BB10_425:
	hint	#36
	ldr	x8, [x8, #16]
	mov	w10, #65532
	add	x9, x8, #12
	cmp	x9, x10
.Ldcsctp_BB10_426:
	add	x8, x8, #16
	b	.Ldcsctp_BB10_433
.Ldcsctp_BB10_427:
	hint	#36
	ldr	x8, [x8, #24]
	b	.Ldcsctp_BB10_429
.Ldcsctp_BB10_428:
	hint	#36
	ldr	x8, [x8, #16]
.Ldcsctp_BB10_429:
	mov	w9, #65532
	cmp	x8, x9
	add	x8, x8, #4
	b	.Ldcsctp_BB10_433
.Ldcsctp_BB10_430:
	hint	#36
	ldp	x0, x1, [x8, #16]
	bl	dcsctp_tlv.list.listed_encoded_size.f123a6a91b68d363
	b	.Ldcsctp_BB10_434
.Ldcsctp_BB10_431:
	lsr	x8, x9, #62
	lsl	x9, x9, #2
.Ldcsctp_BB10_432:
	cmp	x8, #0
	csinv	x8, x9, xzr, eq
	mov	w9, #65528
	cmp	x8, x9
	add	x8, x8, #8
.Ldcsctp_BB10_433:
	cset	w0, lo
	csel	x1, x8, xzr, lo
.Ldcsctp_BB10_434:
	hint	#36
	and	w8, w0, #0xff
	cmp	w8, #1
	b.ne	.Ldcsctp_BB10_438
	add	x8, x21, #3
	and	x8, x8, #0xfffffffffffffffc
	add	x21, x1, x8
	cmp	x21, #16, lsl #12
	b.hs	.Ldcsctp_BB10_438
	add	x24, x24, #1
	cmp	x24, x22
	b.ne	.Ldcsctp_BB10_405
	mov	w8, #1
	b	.Ldcsctp_BB10_439
.Ldcsctp_BB10_438:
	mov	x21, xzr
	mov	w8, wzr
.Ldcsctp_BB10_439:
	add	w9, w21, #3
	and	x23, x9, #0x1fffc
	b	.Ldcsctp_BB10_441
.Ldcsctp_BB10_440:
	mov	x23, xzr
	mov	w8, #1
.Ldcsctp_BB10_441:
	cbz	w8, .Ldcsctp_BB10_453
	mov	w8, #65521
	cmp	x23, x8
	b.hs	.Ldcsctp_BB10_453
	add	x0, x23, #12
	mov	w1, #1
	add	x24, x23, #12
	bl	rattle_alloc
	tbz	w0, #0, .Ldcsctp_BB10_38
	mov	x21, x1
	add	x2, x23, #11
	mov	x0, x1
	mov	w1, wzr
	add	x22, x23, #11
	bl	memset
	strb	wzr, [x21, x22]
	ldrh	w8, [x20, #26]
	ldrh	w9, [x20, #24]
	orr	w8, w8, w9, lsl #16
	ldr	w9, [x20, #28]
	str	wzr, [x21, #8]
	rev	w8, w8
	rev	w9, w9
	stp	w8, w9, [x21]
	ldr	x22, [x20, #8]
	cbz	x22, .Ldcsctp_BB10_447
	ldr	x20, [x20]
	mov	x8, xzr
	add	x25, x21, #12
.Ldcsctp_BB10_446:
	add	x8, x8, #3
	mov	x0, x20
	and	x26, x8, #0xfffffffffffffffc
	add	x1, x25, x26
	add	x27, x25, x26
	bl	dcsctp_wire.packet.chunk.ChunkSerializableTlv.serialize_to
	ldrh	w8, [x27, #2]
	subs	x22, x22, #1
	add	x20, x20, #64
	rev16	w8, w8
	add	x8, x8, x26
	b.ne	.Ldcsctp_BB10_446
.Ldcsctp_BB10_447:
	lsl	x22, x24, #1
	mov	w1, #1
	mov	x0, x22
	bl	rattle_alloc
	tbz	w0, #0, .Ldcsctp_BB10_496
	mov	x20, x1
	sub	x2, x22, #1
	mov	x0, x1
	mov	w1, wzr
	sub	x25, x22, #1
	bl	memset
	mov	x8, xzr
	add	x9, x23, #12
	add	x10, x20, #1
	strb	wzr, [x20, x25]
.Ldcsctp_BB10_449:
	ldrb	w11, [x21, x8]
	adrp	x13, .Ldcsctp_static.50
	add	x13, x13, :lo12:.Ldcsctp_static.50
	add	x8, x8, #1
	lsr	x12, x11, #4
	and	x11, x11, #0xf
	cmp	x9, x8
	ldrb	w12, [x13, x12]
	sturb	w12, [x10, #-1]
	ldrb	w11, [x13, x11]
	strb	w11, [x10], #2
	b.ne	.Ldcsctp_BB10_449
	ldr	q0, [sp, #16]
	ldr	x25, [sp, #32]
	mov	w8, #32
	str	w8, [sp, #248]
	str	q0, [sp, #224]
	ldr	x9, [sp, #232]
	str	x25, [sp, #240]
	stp	xzr, xzr, [sp, #272]
	sub	x8, x25, x9
	stur	xzr, [sp, #252]
	cmp	x8, #9
	mov	x8, #-1
	str	wzr, [sp, #260]
	str	x8, [sp, #264]
	b.ls	.Ldcsctp_BB10_480
.Ldcsctp_BB10_451:
	ldr	x8, [sp, #224]
	adrp	x11, .Ldcsctp_static.48
	add	x11, x11, :lo12:.Ldcsctp_static.48
	add	x26, sp, #224
	add	x10, x8, x9
	add	x9, x9, #10
	sub	x12, x10, x11
	cmp	x12, #9
	b.hi	.Ldcsctp_BB10_460
	adrp	x11, .Ldcsctp_CPI10_45
	ldr	d0, [x11, :lo12:.Ldcsctp_CPI10_45]
	mov	w11, #15724
	strh	w11, [x10, #8]
	str	d0, [x10]
	b	.Ldcsctp_BB10_461
.Ldcsctp_BB10_453:
	ldp	x9, x8, [sp, #24]
	sub	x10, x8, x9
	cmp	x10, #18
	b.ls	.Ldcsctp_BB10_470
.Ldcsctp_BB10_454:
	ldr	x10, [sp, #16]
	adrp	x11, .Ldcsctp_static.47
	add	x11, x11, :lo12:.Ldcsctp_static.47
	add	x12, sp, #16
	add	x10, x10, x9
	add	x9, x9, #19
	stp	xzr, xzr, [x12, #8]
	sub	x13, x10, x11
	cmp	x13, #18
	b.hi	.Ldcsctp_BB10_456
	adrp	x11, .Ldcsctp_CPI10_44
	mov	w12, #26478
	ldr	q0, [x11, :lo12:.Ldcsctp_CPI10_44]
	mov	w11, #10
	strh	w12, [x10, #16]
	strb	w11, [x10, #18]
	b	.Ldcsctp_BB10_457
.Ldcsctp_BB10_456:
	mov	w12, #28271
	ldr	q0, [x11]
	movk	w12, #2663, lsl #16
	stur	w12, [x10, #15]
.Ldcsctp_BB10_457:
	str	q0, [x10]
	stp	x9, x8, [sp, #24]
.Ldcsctp_BB10_458:
	ldr	q0, [sp, #16]
	ldr	x8, [sp, #32]
	strb	wzr, [x19]
	stur	q0, [x19, #8]
	str	x8, [x19, #24]
	b	.Ldcsctp_BB10_41
.Ldcsctp_BB10_459:
	adrp	x1, .Ldcsctp_static.2
	add	x1, x1, :lo12:.Ldcsctp_static.2
	add	x0, sp, #112
	mov	w2, #1
	bl	core.fmt.formatter.Formatter.write_indented.69d84fb4438acd8c
	ldr	x8, [sp, #128]
	ldr	q0, [sp, #112]
	tst	w0, #0xff
	str	x8, [sp, #64]
	str	q0, [sp, #16]
	str	x8, [sp, #32]
	b.ne	.Ldcsctp_BB10_38
	b	.Ldcsctp_BB10_403
.Ldcsctp_BB10_460:
	ldr	x11, [x11]
	mov	w12, #15724
	strh	w12, [x10, #8]
	str	x11, [x10]
.Ldcsctp_BB10_461:
	mov	w10, #32
	mov	x11, #-1
	stp	x9, x25, [sp, #232]
	str	w10, [sp, #248]
	ldr	x10, [sp, #272]
	stur	xzr, [x26, #28]
	stur	wzr, [x26, #36]
	str	x11, [sp, #264]
	cbnz	x10, .Ldcsctp_BB10_482
	sub	x10, x25, x9
	cmp	x22, x10
	b.hi	.Ldcsctp_BB10_483
	add	x0, x8, x9
	add	x27, x9, x22
	sub	x10, x0, x20
	cmp	x10, x22
	b.hs	.Ldcsctp_BB10_485
.Ldcsctp_BB10_464:
	add	x10, x9, x8
	sub	x10, x10, x20
	cmp	x10, #32
	b.hs	.Ldcsctp_BB10_472
	mov	x10, xzr
.Ldcsctp_BB10_466:
	sub	x11, x10, x23, lsl #1
	add	x12, x9, x10
	add	x10, x20, x10
	add	x8, x8, x12
	sub	x9, x11, #24
.Ldcsctp_BB10_467:
	ldrb	w11, [x10], #1
	adds	x9, x9, #1
	strb	w11, [x8], #1
	b.lo	.Ldcsctp_BB10_467
	b	.Ldcsctp_BB10_486
.Ldcsctp_BB10_468:
	add	x0, sp, #112
	mov	w1, #1
	bl	std_alloc.vec.Vec.grow_amortized.38fbb921ed00a393
	cbz	w0, .Ldcsctp_BB10_37
	ldp	x9, x8, [sp, #120]
	b	.Ldcsctp_BB10_402
.Ldcsctp_BB10_470:
	add	x0, sp, #16
	mov	w1, #19
	bl	std_alloc.vec.Vec.grow_amortized.38fbb921ed00a393
	cbz	w0, .Ldcsctp_BB10_38
	ldp	x9, x8, [sp, #24]
	b	.Ldcsctp_BB10_454
.Ldcsctp_BB10_472:
	cbz	x23, .Ldcsctp_BB10_477
	add	x12, x9, x8
	and	x10, x22, #0x3ffe0
	add	x11, x20, #16
	add	x12, x12, #16
	and	x13, x22, #0x3ffe0
.Ldcsctp_BB10_474:
	ldp	q0, q1, [x11, #-16]
	subs	x13, x13, #32
	add	x11, x11, #32
	stp	q0, q1, [x12, #-16]
	add	x12, x12, #32
	b.ne	.Ldcsctp_BB10_474
	cmp	x22, x10
	b.eq	.Ldcsctp_BB10_486
	tst	x24, #0xc
	b.ne	.Ldcsctp_BB10_478
	b	.Ldcsctp_BB10_466
.Ldcsctp_BB10_477:
	mov	x10, xzr
.Ldcsctp_BB10_478:
	sub	x11, x10, x23, lsl #1
	add	x12, x9, x10
	add	x10, x20, x10
	add	x8, x8, x12
	sub	x9, x11, #24
.Ldcsctp_BB10_479:
	ldr	d0, [x10], #8
	adds	x9, x9, #8
	str	d0, [x8], #8
	b.ne	.Ldcsctp_BB10_479
	b	.Ldcsctp_BB10_486
.Ldcsctp_BB10_480:
	add	x0, sp, #224
	mov	w1, #10
	bl	std_alloc.vec.Vec.grow_amortized.38fbb921ed00a393
	cbz	w0, .Ldcsctp_BB10_494
	ldp	x9, x25, [sp, #232]
	b	.Ldcsctp_BB10_451
.Ldcsctp_BB10_482:
	add	x0, sp, #224
	mov	x1, x20
	mov	x2, x22
	bl	core.fmt.formatter.Formatter.write_indented.69d84fb4438acd8c
	and	w8, w0, #0xff
	tbnz	w8, #0, .Ldcsctp_BB10_494
	b	.Ldcsctp_BB10_487
.Ldcsctp_BB10_483:
	add	x0, sp, #224
	mov	x1, x22
	bl	std_alloc.vec.Vec.grow_amortized.38fbb921ed00a393
	cbz	w0, .Ldcsctp_BB10_494
	ldp	x9, x25, [sp, #232]
	ldr	x8, [sp, #224]
	add	x0, x8, x9
	add	x27, x9, x22
	sub	x10, x0, x20
	cmp	x10, x22
	b.lo	.Ldcsctp_BB10_464
.Ldcsctp_BB10_485:
	mov	x1, x20
	mov	x2, x22
	bl	memmove
.Ldcsctp_BB10_486:
	stp	x27, x25, [sp, #232]
.Ldcsctp_BB10_487:
	mov	w8, #32
	ldr	x9, [sp, #272]
	stur	xzr, [x26, #28]
	str	w8, [sp, #248]
	mov	x8, #-1
	stur	wzr, [x26, #36]
	str	x8, [sp, #264]
	cbnz	x9, .Ldcsctp_BB10_491
	ldp	x9, x8, [sp, #232]
	cmp	x8, x9
	b.eq	.Ldcsctp_BB10_492
.Ldcsctp_BB10_489:
	ldr	x10, [sp, #224]
	add	x11, x9, #1
	mov	w12, #10
	str	x8, [sp, #32]
	strb	w12, [x10, x9]
	str	x11, [sp, #232]
	ldr	q0, [sp, #224]
	str	q0, [sp, #16]
.Ldcsctp_BB10_490:
	mov	x0, x20
	bl	rattle_dealloc
	mov	x0, x21
	bl	rattle_dealloc
	b	.Ldcsctp_BB10_458
.Ldcsctp_BB10_491:
	adrp	x1, .Ldcsctp_static.2
	add	x1, x1, :lo12:.Ldcsctp_static.2
	add	x0, sp, #224
	mov	w2, #1
	bl	core.fmt.formatter.Formatter.write_indented.69d84fb4438acd8c
	ldr	x8, [sp, #240]
	ldr	q0, [sp, #224]
	tst	w0, #0xff
	str	x8, [sp, #128]
	str	q0, [sp, #16]
	str	x8, [sp, #32]
	b.ne	.Ldcsctp_BB10_495
	b	.Ldcsctp_BB10_490
.Ldcsctp_BB10_492:
	add	x0, sp, #224
	mov	w1, #1
	bl	std_alloc.vec.Vec.grow_amortized.38fbb921ed00a393
	cbz	w0, .Ldcsctp_BB10_494
	ldp	x9, x8, [sp, #232]
	b	.Ldcsctp_BB10_489
.Ldcsctp_BB10_494:
	ldr	q0, [sp, #224]
	ldr	x8, [sp, #240]
	str	q0, [sp, #16]
	str	x8, [sp, #32]
.Ldcsctp_BB10_495:
	mov	x0, x20
	bl	rattle_dealloc
.Ldcsctp_BB10_496:
	mov	x0, x21
	bl	rattle_dealloc
	b	.Ldcsctp_BB10_38
.Ldcsctp_BB10_497:
	brk	#0x1
.Ldcsctp_func_end10:
	.size	sctp_show.text.text_of, .Ldcsctp_func_end10-sctp_show.text.text_of
	.cfi_endproc
	.section	.rodata.sctp_show.text.text_of,"a",@progbits
	.p2align	1, 0x0
.Ldcsctp_JTI10_0:
	.hword	(.Ldcsctp_BB10_57-.Ldcsctp_BB10_57)>>2
	.hword	(.Ldcsctp_BB10_104-.Ldcsctp_BB10_57)>>2
	.hword	(.Ldcsctp_BB10_88-.Ldcsctp_BB10_57)>>2
	.hword	(.Ldcsctp_BB10_96-.Ldcsctp_BB10_57)>>2
	.hword	(.Ldcsctp_BB10_76-.Ldcsctp_BB10_57)>>2
	.hword	(.Ldcsctp_BB10_112-.Ldcsctp_BB10_57)>>2
	.hword	(.Ldcsctp_BB10_121-.Ldcsctp_BB10_57)>>2
	.hword	(.Ldcsctp_BB10_100-.Ldcsctp_BB10_57)>>2
	.hword	(.Ldcsctp_BB10_129-.Ldcsctp_BB10_57)>>2
	.hword	(.Ldcsctp_BB10_84-.Ldcsctp_BB10_57)>>2
	.hword	(.Ldcsctp_BB10_125-.Ldcsctp_BB10_57)>>2
	.hword	(.Ldcsctp_BB10_72-.Ldcsctp_BB10_57)>>2
	.hword	(.Ldcsctp_BB10_80-.Ldcsctp_BB10_57)>>2
	.hword	(.Ldcsctp_BB10_117-.Ldcsctp_BB10_57)>>2
	.hword	(.Ldcsctp_BB10_68-.Ldcsctp_BB10_57)>>2
	.hword	(.Ldcsctp_BB10_92-.Ldcsctp_BB10_57)>>2
	.hword	(.Ldcsctp_BB10_64-.Ldcsctp_BB10_57)>>2
	.hword	(.Ldcsctp_BB10_108-.Ldcsctp_BB10_57)>>2
.Ldcsctp_JTI10_1:
	.byte	(.Ldcsctp_BB10_425-.Ldcsctp_BB10_407)>>2
	.byte	(.Ldcsctp_BB10_409-.Ldcsctp_BB10_407)>>2
	.byte	(.Ldcsctp_BB10_409-.Ldcsctp_BB10_407)>>2
	.byte	(.Ldcsctp_BB10_417-.Ldcsctp_BB10_407)>>2
	.byte	(.Ldcsctp_BB10_407-.Ldcsctp_BB10_407)>>2
	.byte	(.Ldcsctp_BB10_407-.Ldcsctp_BB10_407)>>2
	.byte	(.Ldcsctp_BB10_430-.Ldcsctp_BB10_407)>>2
	.byte	(.Ldcsctp_BB10_434-.Ldcsctp_BB10_407)>>2
	.byte	(.Ldcsctp_BB10_408-.Ldcsctp_BB10_407)>>2
	.byte	(.Ldcsctp_BB10_418-.Ldcsctp_BB10_407)>>2
	.byte	(.Ldcsctp_BB10_428-.Ldcsctp_BB10_407)>>2
	.byte	(.Ldcsctp_BB10_408-.Ldcsctp_BB10_407)>>2
	.byte	(.Ldcsctp_BB10_408-.Ldcsctp_BB10_407)>>2
	.byte	(.Ldcsctp_BB10_416-.Ldcsctp_BB10_407)>>2
	.byte	(.Ldcsctp_BB10_407-.Ldcsctp_BB10_407)>>2
	.byte	(.Ldcsctp_BB10_419-.Ldcsctp_BB10_407)>>2
	.byte	(.Ldcsctp_BB10_410-.Ldcsctp_BB10_407)>>2
	.byte	(.Ldcsctp_BB10_427-.Ldcsctp_BB10_407)>>2
	.section	.text.core.fmt.formatter.Formatter.write_piece.9c544998babb2079,"ax",@progbits
	.p2align	2
	.type	core.fmt.formatter.Formatter.write_piece.9c544998babb2079,@function
core.fmt.formatter.Formatter.write_piece.9c544998babb2079:
	.cfi_startproc
	hint	#25
	.cfi_negate_ra_state
	sub	sp, sp, #80
	.cfi_def_cfa_offset 80
	stp	x29, x30, [sp, #32]
	stp	x22, x21, [sp, #48]
	stp	x20, x19, [sp, #64]
	add	x29, sp, #32
	.cfi_def_cfa w29, 48
	.cfi_offset w19, -8
	.cfi_offset w20, -16
	.cfi_offset w21, -24
	.cfi_offset w22, -32
	.cfi_offset w30, -40
	.cfi_offset w29, -48
	.cfi_remember_state
	mov	w8, #32
	stur	xzr, [x0, #28]
	mov	x19, x0
	str	w8, [x0, #24]
	mov	x8, #-1
	str	wzr, [x0, #36]
	str	x8, [x0, #40]
	ldr	x8, [x1]
	stp	xzr, xzr, [sp, #8]
	str	xzr, [sp, #24]
	ldrh	w8, [x8]
	cmp	x8, #100
	b.lo	.Ldcsctp_BB11_5
	mov	x9, xzr
.Ldcsctp_BB11_2:
	mov	x11, #62915
	mov	x10, x8
	lsr	x8, x8, #2
	movk	x11, #23592, lsl #16
	mov	w12, #205
	movk	x11, #49807, lsl #32
	movk	x11, #10485, lsl #48
	umulh	x8, x8, x11
	mov	w11, #100
	lsr	x8, x8, #2
	msub	w11, w8, w11, w10
	lsr	x10, x10, #4
	cmp	x10, #624
	and	w13, w11, #0xff
	mul	w12, w13, w12
	mov	w13, #10
	lsr	w12, w12, #11
	msub	w11, w12, w13, w11
	add	x13, sp, #8
	orr	w10, w12, #0x30
	add	x13, x13, x9
	sub	x9, x9, #2
	strb	w10, [x13, #22]
	orr	w11, w11, #0x30
	strb	w11, [x13, #23]
	b.hi	.Ldcsctp_BB11_2
	add	x9, x9, #24
	cmp	x8, #10
	b.hs	.Ldcsctp_BB11_6
.Ldcsctp_BB11_4:
	sub	x9, x9, #1
	add	x10, sp, #8
	orr	w8, w8, #0x30
	strb	w8, [x10, x9]
	b	.Ldcsctp_BB11_7
.Ldcsctp_BB11_5:
	mov	w9, #24
	cmp	x8, #10
	b.lo	.Ldcsctp_BB11_4
.Ldcsctp_BB11_6:
	and	w10, w8, #0xff
	mov	w11, #205
	mul	w10, w10, w11
	mov	w11, #10
	lsr	w10, w10, #11
	msub	w8, w10, w11, w8
	add	x11, sp, #8
	orr	w10, w10, #0x30
	add	x11, x11, x9
	sub	x9, x9, #2
	sturb	w10, [x11, #-2]
	orr	w8, w8, #0x30
	sturb	w8, [x11, #-1]
.Ldcsctp_BB11_7:
	add	x8, sp, #8
	ldr	x10, [x19, #48]
	mov	w11, #24
	add	x1, x8, x9
	mov	w8, #45
	sub	x2, x11, x9
	sturb	w8, [x1, #-1]
	cbnz	x10, .Ldcsctp_BB11_10
	ldp	x8, x20, [x19, #8]
	sub	x9, x20, x8
	cmp	x2, x9
	b.hi	.Ldcsctp_BB11_11
.Ldcsctp_BB11_9:
	ldr	x21, [x19]
	add	x22, x8, x2
	add	x0, x21, x8
	bl	memcpy
	mov	w0, wzr
	stp	x21, x22, [x19]
	str	x20, [x19, #16]
	.cfi_def_cfa wsp, 80
	ldp	x20, x19, [sp, #64]
	ldp	x22, x21, [sp, #48]
	ldp	x29, x30, [sp, #32]
	add	sp, sp, #80
	.cfi_def_cfa_offset 0
	.cfi_restore w19
	.cfi_restore w20
	.cfi_restore w21
	.cfi_restore w22
	.cfi_restore w30
	.cfi_restore w29
	hint	#29
	.cfi_negate_ra_state
	ret
.Ldcsctp_BB11_10:
	.cfi_restore_state
	.cfi_remember_state
	mov	x0, x19
	bl	core.fmt.formatter.Formatter.write_indented.69d84fb4438acd8c
	and	w0, w0, #0xff
	.cfi_def_cfa wsp, 80
	ldp	x20, x19, [sp, #64]
	ldp	x22, x21, [sp, #48]
	ldp	x29, x30, [sp, #32]
	add	sp, sp, #80
	.cfi_def_cfa_offset 0
	.cfi_restore w19
	.cfi_restore w20
	.cfi_restore w21
	.cfi_restore w22
	.cfi_restore w30
	.cfi_restore w29
	hint	#29
	.cfi_negate_ra_state
	ret
.Ldcsctp_BB11_11:
	.cfi_restore_state
	mov	x21, x1
	mov	x0, x19
	mov	x1, x2
	mov	x22, x2
	bl	std_alloc.vec.Vec.grow_amortized.38fbb921ed00a393
	cbz	w0, .Ldcsctp_BB11_13
	ldp	x8, x20, [x19, #8]
	mov	x1, x21
	mov	x2, x22
	b	.Ldcsctp_BB11_9
.Ldcsctp_BB11_13:
	mov	w0, #1
	.cfi_def_cfa wsp, 80
	ldp	x20, x19, [sp, #64]
	ldp	x22, x21, [sp, #48]
	ldp	x29, x30, [sp, #32]
	add	sp, sp, #80
	.cfi_def_cfa_offset 0
	.cfi_restore w19
	.cfi_restore w20
	.cfi_restore w21
	.cfi_restore w22
	.cfi_restore w30
	.cfi_restore w29
	hint	#29
	.cfi_negate_ra_state
	ret
.Ldcsctp_func_end11:
	.size	core.fmt.formatter.Formatter.write_piece.9c544998babb2079, .Ldcsctp_func_end11-core.fmt.formatter.Formatter.write_piece.9c544998babb2079
	.cfi_endproc
	.section	.text.unlikely.std_alloc.vec.Vec.grow_amortized.38fbb921ed00a393,"ax",@progbits
	.p2align	2
	.type	std_alloc.vec.Vec.grow_amortized.38fbb921ed00a393,@function
std_alloc.vec.Vec.grow_amortized.38fbb921ed00a393:
	.cfi_startproc
	ldr	x8, [x0, #8]
	cmn	x8, x1
	b.lo	.Ldcsctp_BB12_2
	mov	w0, wzr
	ret
.Ldcsctp_BB12_2:
	hint	#25
	.cfi_negate_ra_state
	stp	x29, x30, [sp, #-32]!
	.cfi_def_cfa_offset 32
	stp	x20, x19, [sp, #16]
	mov	x29, sp
	.cfi_def_cfa w29, 32
	.cfi_offset w19, -8
	.cfi_offset w20, -16
	.cfi_offset w30, -24
	.cfi_offset w29, -32
	.cfi_remember_state
	ldr	x10, [x0, #16]
	add	x9, x8, x1
	mov	w11, #8
	cmp	x9, #8
	lsl	x12, x10, #1
	csel	x11, x9, x11, hi
	lsr	x13, x10, #62
	cmp	x11, x12
	csel	x9, x11, x12, hi
	cmp	x13, #0
	csel	x19, x9, x11, eq
	tbnz	x19, #63, .Ldcsctp_BB12_7
	cbz	x10, .Ldcsctp_BB12_6
	mov	x20, x0
	ldr	x0, [x0]
	mov	x1, x8
	mov	x2, x19
	mov	w3, #1
	bl	rattle_realloc
	tbz	w0, #0, .Ldcsctp_BB12_7
.Ldcsctp_BB12_5:
	mov	w0, #1
	str	x1, [x20]
	str	x19, [x20, #16]
	.cfi_def_cfa wsp, 32
	ldp	x20, x19, [sp, #16]
	ldp	x29, x30, [sp], #32
	.cfi_def_cfa_offset 0
	.cfi_restore w19
	.cfi_restore w20
	.cfi_restore w30
	.cfi_restore w29
	hint	#29
	.cfi_negate_ra_state
	ret
.Ldcsctp_BB12_6:
	.cfi_restore_state
	mov	x20, x0
	mov	x0, x9
	mov	w1, #1
	bl	rattle_alloc
	tbnz	w0, #0, .Ldcsctp_BB12_5
.Ldcsctp_BB12_7:
	mov	w0, wzr
	.cfi_def_cfa wsp, 32
	ldp	x20, x19, [sp, #16]
	ldp	x29, x30, [sp], #32
	.cfi_def_cfa_offset 0
	.cfi_restore w19
	.cfi_restore w20
	.cfi_restore w30
	.cfi_restore w29
	hint	#29
	.cfi_negate_ra_state
	ret
.Ldcsctp_func_end12:
	.size	std_alloc.vec.Vec.grow_amortized.38fbb921ed00a393, .Ldcsctp_func_end12-std_alloc.vec.Vec.grow_amortized.38fbb921ed00a393
	.cfi_endproc
	.section	.text.unlikely.core.fmt.formatter.Formatter.write_indented.69d84fb4438acd8c,"ax",@progbits
	.p2align	2
	.type	core.fmt.formatter.Formatter.write_indented.69d84fb4438acd8c,@function
core.fmt.formatter.Formatter.write_indented.69d84fb4438acd8c:
	.cfi_startproc
	hint	#25
	.cfi_negate_ra_state
	stp	x29, x30, [sp, #-80]!
	.cfi_def_cfa_offset 80
	str	x25, [sp, #16]
	stp	x24, x23, [sp, #32]
	stp	x22, x21, [sp, #48]
	stp	x20, x19, [sp, #64]
	mov	x29, sp
	.cfi_def_cfa w29, 80
	.cfi_offset w19, -8
	.cfi_offset w20, -16
	.cfi_offset w21, -24
	.cfi_offset w22, -32
	.cfi_offset w23, -40
	.cfi_offset w24, -48
	.cfi_offset w25, -64
	.cfi_offset w30, -72
	.cfi_offset w29, -80
	.cfi_remember_state
	cbz	x2, .Ldcsctp_BB13_16
	mov	x21, x2
	mov	x20, x1
	mov	x19, x0
	mov	x8, xzr
	mov	x24, xzr
	b	.Ldcsctp_BB13_4
.Ldcsctp_BB13_2:
	mov	w23, #1
	add	x1, x20, x25
	mov	x0, x19
	mov	x2, x22
	strb	w23, [x19, #56]
	bl	core.fmt.formatter.Formatter.write_raw.69d84fb4438acd8c
	and	w9, w0, #0xff
	mov	x8, x24
	tbnz	w9, #0, .Ldcsctp_BB13_18
.Ldcsctp_BB13_3:
	cmp	x24, x21
	b.eq	.Ldcsctp_BB13_10
.Ldcsctp_BB13_4:
	ldrb	w10, [x20, x24]
	mov	x9, x24
	add	x24, x24, #1
	cmp	w10, #10
	b.ne	.Ldcsctp_BB13_3
	subs	x22, x24, x8
	csel	x25, xzr, x8, lo
	cmp	x8, x9
	mov	x8, x24
	b.hi	.Ldcsctp_BB13_3
	ldrb	w8, [x19, #56]
	cmp	w8, #1
	b.ne	.Ldcsctp_BB13_2
	ldr	x23, [x19, #48]
	cbz	x23, .Ldcsctp_BB13_2
.Ldcsctp_BB13_8:
	adrp	x1, .Ldcsctp_static.7
	add	x1, x1, :lo12:.Ldcsctp_static.7
	mov	x0, x19
	mov	w2, #4
	bl	core.fmt.formatter.Formatter.write_raw.69d84fb4438acd8c
	and	w8, w0, #0xff
	tbnz	w8, #0, .Ldcsctp_BB13_17
	subs	x23, x23, #1
	b.ne	.Ldcsctp_BB13_8
	b	.Ldcsctp_BB13_2
.Ldcsctp_BB13_10:
	cmp	x8, x21
	csel	x22, xzr, x8, hi
	subs	x8, x21, x8
	csel	x21, xzr, x8, lo
	b.ls	.Ldcsctp_BB13_16
	ldrb	w8, [x19, #56]
	cmp	w8, #1
	b.ne	.Ldcsctp_BB13_15
	ldr	x23, [x19, #48]
	cbz	x23, .Ldcsctp_BB13_15
.Ldcsctp_BB13_13:
	adrp	x1, .Ldcsctp_static.7
	add	x1, x1, :lo12:.Ldcsctp_static.7
	mov	x0, x19
	mov	w2, #4
	bl	core.fmt.formatter.Formatter.write_raw.69d84fb4438acd8c
	and	w8, w0, #0xff
	tbnz	w8, #0, .Ldcsctp_BB13_17
	subs	x23, x23, #1
	b.ne	.Ldcsctp_BB13_13
.Ldcsctp_BB13_15:
	add	x1, x20, x22
	mov	x0, x19
	mov	x2, x21
	strb	wzr, [x19, #56]
	.cfi_def_cfa wsp, 80
	ldp	x20, x19, [sp, #64]
	ldr	x25, [sp, #16]
	ldp	x22, x21, [sp, #48]
	ldp	x24, x23, [sp, #32]
	ldp	x29, x30, [sp], #80
	.cfi_def_cfa_offset 0
	.cfi_restore w19
	.cfi_restore w20
	.cfi_restore w21
	.cfi_restore w22
	.cfi_restore w23
	.cfi_restore w24
	.cfi_restore w25
	.cfi_restore w30
	.cfi_restore w29
	hint	#29
	.cfi_negate_ra_state
	b	core.fmt.formatter.Formatter.write_raw.69d84fb4438acd8c
.Ldcsctp_BB13_16:
	.cfi_restore_state
	mov	w23, wzr
	b	.Ldcsctp_BB13_18
.Ldcsctp_BB13_17:
	mov	w23, #1
.Ldcsctp_BB13_18:
	mov	w0, w23
	.cfi_def_cfa wsp, 80
	ldp	x20, x19, [sp, #64]
	ldr	x25, [sp, #16]
	ldp	x22, x21, [sp, #48]
	ldp	x24, x23, [sp, #32]
	ldp	x29, x30, [sp], #80
	.cfi_def_cfa_offset 0
	.cfi_restore w19
	.cfi_restore w20
	.cfi_restore w21
	.cfi_restore w22
	.cfi_restore w23
	.cfi_restore w24
	.cfi_restore w25
	.cfi_restore w30
	.cfi_restore w29
	hint	#29
	.cfi_negate_ra_state
	ret
.Ldcsctp_func_end13:
	.size	core.fmt.formatter.Formatter.write_indented.69d84fb4438acd8c, .Ldcsctp_func_end13-core.fmt.formatter.Formatter.write_indented.69d84fb4438acd8c
	.cfi_endproc
	.section	.text.core.fmt.formatter.Formatter.write_raw.69d84fb4438acd8c,"ax",@progbits
	.p2align	2
	.type	core.fmt.formatter.Formatter.write_raw.69d84fb4438acd8c,@function
core.fmt.formatter.Formatter.write_raw.69d84fb4438acd8c:
	.cfi_startproc
	cbz	x2, .Ldcsctp_BB14_21
	mov	x9, xzr
	b	.Ldcsctp_BB14_4
.Ldcsctp_BB14_2:
	mov	w8, #1
.Ldcsctp_BB14_3:
	add	x9, x8, x9
	cmp	x9, x2
	b.hs	.Ldcsctp_BB14_21
.Ldcsctp_BB14_4:
	ldrsb	w8, [x1, x9]
	tbz	w8, #31, .Ldcsctp_BB14_2
	add	x10, x9, #1
	cmp	x2, x10
	b.ls	.Ldcsctp_BB14_28
	ldrsb	w11, [x1, x10]
	tbz	w11, #31, .Ldcsctp_BB14_28
	and	w10, w8, #0xff
	cmn	w11, #64
	mov	w8, #-64
	csel	w11, w11, w8, lo
	cmp	w10, #194
	mov	w8, #1
	b.lo	.Ldcsctp_BB14_32
	and	w11, w11, #0x7f
	cmp	w11, #63
	b.hi	.Ldcsctp_BB14_32
	cmp	w10, #224
	b.hs	.Ldcsctp_BB14_11
	mov	w8, #2
	b	.Ldcsctp_BB14_3
.Ldcsctp_BB14_11:
	add	x8, x9, #2
	cmp	x2, x8
	b.ls	.Ldcsctp_BB14_28
	ldrsb	w8, [x1, x8]
	cmn	w8, #65
	b.gt	.Ldcsctp_BB14_28
	cmp	w10, #239
	b.hi	.Ldcsctp_BB14_17
	lsl	w8, w10, #12
	add	w8, w8, w11, lsl #6
	sub	w8, w8, #224, lsl #12
	cmp	w8, #2048
	b.lo	.Ldcsctp_BB14_28
	lsr	w8, w8, #11
	cmp	w8, #27
	mov	w8, #3
	b.lo	.Ldcsctp_BB14_3
	cmp	w10, #238
	b.hs	.Ldcsctp_BB14_3
	b	.Ldcsctp_BB14_28
.Ldcsctp_BB14_17:
	add	x8, x9, #3
	cmp	x2, x8
	b.ls	.Ldcsctp_BB14_28
	ldrsb	w8, [x1, x8]
	cmn	w8, #65
	b.gt	.Ldcsctp_BB14_28
	lsl	w8, w10, #18
	mov	w10, #-62980096
	add	w8, w8, w11, lsl #12
	add	w8, w8, w10
	lsr	w8, w8, #20
	cbnz	w8, .Ldcsctp_BB14_28
	mov	w8, #4
	b	.Ldcsctp_BB14_3
.Ldcsctp_BB14_21:
	hint	#25
	.cfi_negate_ra_state
	stp	x29, x30, [sp, #-48]!
	.cfi_def_cfa_offset 48
	stp	x22, x21, [sp, #16]
	stp	x20, x19, [sp, #32]
	mov	x29, sp
	.cfi_def_cfa w29, 48
	.cfi_offset w19, -8
	.cfi_offset w20, -16
	.cfi_offset w21, -24
	.cfi_offset w22, -32
	.cfi_offset w30, -40
	.cfi_offset w29, -48
	.cfi_remember_state
	mov	x22, x0
	ldp	x9, x19, [x22, #8]!
	sub	x8, x19, x9
	cmp	x2, x8
	b.hi	.Ldcsctp_BB14_42
.Ldcsctp_BB14_22:
	ldr	x20, [x0]
	add	x21, x9, x2
	stp	xzr, xzr, [x22]
	add	x8, x20, x9
	sub	x10, x8, x1
	cmp	x10, x2
	b.hs	.Ldcsctp_BB14_29
	cmp	x2, #8
	b.lo	.Ldcsctp_BB14_25
	add	x8, x9, x20
	sub	x8, x8, x1
	cmp	x8, #32
	b.hs	.Ldcsctp_BB14_33
.Ldcsctp_BB14_25:
	mov	x8, xzr
.Ldcsctp_BB14_26:
	add	x10, x8, x9
	sub	x9, x2, x8
	add	x8, x1, x8
	add	x10, x20, x10
.Ldcsctp_BB14_27:
	ldrb	w11, [x8], #1
	subs	x9, x9, #1
	strb	w11, [x10], #1
	b.ne	.Ldcsctp_BB14_27
	b	.Ldcsctp_BB14_30
.Ldcsctp_BB14_28:
	.cfi_def_cfa wsp, 0
	.cfi_negate_ra_state
	.cfi_same_value w19
	.cfi_same_value w20
	.cfi_same_value w21
	.cfi_same_value w22
	.cfi_same_value w30
	.cfi_same_value w29
	mov	w0, #1
	ret
.Ldcsctp_BB14_29:
	.cfi_restore_state
	.cfi_remember_state
	mov	x22, x0
	mov	x0, x8
	bl	memmove
	mov	x0, x22
.Ldcsctp_BB14_30:
	mov	w8, wzr
	stp	x20, x21, [x0]
	str	x19, [x0, #16]
.Ldcsctp_BB14_31:
	.cfi_def_cfa wsp, 48
	ldp	x20, x19, [sp, #32]
	ldp	x22, x21, [sp, #16]
	ldp	x29, x30, [sp], #48
	.cfi_def_cfa_offset 0
	.cfi_restore w19
	.cfi_restore w20
	.cfi_restore w21
	.cfi_restore w22
	.cfi_restore w30
	.cfi_restore w29
	hint	#29
	.cfi_negate_ra_state
.Ldcsctp_BB14_32:
	mov	w0, w8
	ret
.Ldcsctp_BB14_33:
	.cfi_restore_state
	cmp	x2, #32
	b.hs	.Ldcsctp_BB14_35
	mov	x8, xzr
	b	.Ldcsctp_BB14_39
.Ldcsctp_BB14_35:
	add	x12, x9, x20
	and	x10, x2, #0x18
	and	x8, x2, #0xffffffffffffffe0
	add	x11, x1, #16
	add	x12, x12, #16
	and	x13, x2, #0xffffffffffffffe0
.Ldcsctp_BB14_36:
	ldp	q0, q1, [x11, #-16]
	subs	x13, x13, #32
	add	x11, x11, #32
	stp	q0, q1, [x12, #-16]
	add	x12, x12, #32
	b.ne	.Ldcsctp_BB14_36
	cmp	x2, x8
	b.eq	.Ldcsctp_BB14_30
	cbz	x10, .Ldcsctp_BB14_26
.Ldcsctp_BB14_39:
	mov	x11, x8
	and	x8, x2, #0xfffffffffffffff8
	add	x12, x9, x11
	sub	x10, x11, x8
	add	x11, x1, x11
	add	x12, x20, x12
.Ldcsctp_BB14_40:
	ldr	d0, [x11], #8
	adds	x10, x10, #8
	str	d0, [x12], #8
	b.ne	.Ldcsctp_BB14_40
	cmp	x2, x8
	b.eq	.Ldcsctp_BB14_30
	b	.Ldcsctp_BB14_26
.Ldcsctp_BB14_42:
	mov	x20, x1
	mov	x1, x2
	mov	x19, x0
	mov	x21, x2
	bl	std_alloc.vec.Vec.grow_amortized.38fbb921ed00a393
	cbz	w0, .Ldcsctp_BB14_44
	mov	x0, x19
	ldp	x9, x19, [x19, #8]
	mov	x2, x21
	mov	x1, x20
	b	.Ldcsctp_BB14_22
.Ldcsctp_BB14_44:
	mov	w8, #1
	b	.Ldcsctp_BB14_31
.Ldcsctp_func_end14:
	.size	core.fmt.formatter.Formatter.write_raw.69d84fb4438acd8c, .Ldcsctp_func_end14-core.fmt.formatter.Formatter.write_raw.69d84fb4438acd8c
	.cfi_endproc
	.section	.text.core.fmt.formatter.Formatter.write_piece.7d2ac8fd5c291299,"ax",@progbits
	.p2align	2
	.type	core.fmt.formatter.Formatter.write_piece.7d2ac8fd5c291299,@function
core.fmt.formatter.Formatter.write_piece.7d2ac8fd5c291299:
	.cfi_startproc
	hint	#25
	.cfi_negate_ra_state
	sub	sp, sp, #80
	.cfi_def_cfa_offset 80
	stp	x29, x30, [sp, #32]
	stp	x22, x21, [sp, #48]
	stp	x20, x19, [sp, #64]
	add	x29, sp, #32
	.cfi_def_cfa w29, 48
	.cfi_offset w19, -8
	.cfi_offset w20, -16
	.cfi_offset w21, -24
	.cfi_offset w22, -32
	.cfi_offset w30, -40
	.cfi_offset w29, -48
	.cfi_remember_state
	mov	w8, #32
	stur	xzr, [x0, #28]
	mov	x19, x0
	str	w8, [x0, #24]
	mov	x8, #-1
	str	wzr, [x0, #36]
	str	x8, [x0, #40]
	ldr	x8, [x1]
	stp	xzr, xzr, [sp, #8]
	str	xzr, [sp, #24]
	ldr	w8, [x8]
	cmp	w8, #100
	b.lo	.Ldcsctp_BB15_5
	mov	x9, xzr
.Ldcsctp_BB15_2:
	mov	x11, #62915
	mov	x10, x8
	lsr	x8, x8, #2
	movk	x11, #23592, lsl #16
	mov	w12, #205
	movk	x11, #49807, lsl #32
	movk	x11, #10485, lsl #48
	umulh	x8, x8, x11
	mov	w11, #100
	lsr	x8, x8, #2
	msub	w11, w8, w11, w10
	lsr	x10, x10, #4
	cmp	x10, #624
	and	w13, w11, #0xff
	mul	w12, w13, w12
	mov	w13, #10
	lsr	w12, w12, #11
	msub	w11, w12, w13, w11
	add	x13, sp, #8
	orr	w10, w12, #0x30
	add	x13, x13, x9
	sub	x9, x9, #2
	strb	w10, [x13, #22]
	orr	w11, w11, #0x30
	strb	w11, [x13, #23]
	b.hi	.Ldcsctp_BB15_2
	add	x9, x9, #24
	cmp	x8, #10
	b.hs	.Ldcsctp_BB15_6
.Ldcsctp_BB15_4:
	sub	x9, x9, #1
	add	x10, sp, #8
	orr	w8, w8, #0x30
	strb	w8, [x10, x9]
	b	.Ldcsctp_BB15_7
.Ldcsctp_BB15_5:
	mov	w9, #24
	cmp	x8, #10
	b.lo	.Ldcsctp_BB15_4
.Ldcsctp_BB15_6:
	and	w10, w8, #0xff
	mov	w11, #205
	mul	w10, w10, w11
	mov	w11, #10
	lsr	w10, w10, #11
	msub	w8, w10, w11, w8
	add	x11, sp, #8
	orr	w10, w10, #0x30
	add	x11, x11, x9
	sub	x9, x9, #2
	sturb	w10, [x11, #-2]
	orr	w8, w8, #0x30
	sturb	w8, [x11, #-1]
.Ldcsctp_BB15_7:
	add	x8, sp, #8
	ldr	x10, [x19, #48]
	mov	w11, #24
	add	x1, x8, x9
	mov	w8, #45
	sub	x2, x11, x9
	sturb	w8, [x1, #-1]
	cbnz	x10, .Ldcsctp_BB15_10
	ldp	x8, x20, [x19, #8]
	sub	x9, x20, x8
	cmp	x2, x9
	b.hi	.Ldcsctp_BB15_11
.Ldcsctp_BB15_9:
	ldr	x21, [x19]
	add	x22, x8, x2
	add	x0, x21, x8
	bl	memcpy
	mov	w0, wzr
	stp	x21, x22, [x19]
	str	x20, [x19, #16]
	.cfi_def_cfa wsp, 80
	ldp	x20, x19, [sp, #64]
	ldp	x22, x21, [sp, #48]
	ldp	x29, x30, [sp, #32]
	add	sp, sp, #80
	.cfi_def_cfa_offset 0
	.cfi_restore w19
	.cfi_restore w20
	.cfi_restore w21
	.cfi_restore w22
	.cfi_restore w30
	.cfi_restore w29
	hint	#29
	.cfi_negate_ra_state
	ret
.Ldcsctp_BB15_10:
	.cfi_restore_state
	.cfi_remember_state
	mov	x0, x19
	bl	core.fmt.formatter.Formatter.write_indented.69d84fb4438acd8c
	and	w0, w0, #0xff
	.cfi_def_cfa wsp, 80
	ldp	x20, x19, [sp, #64]
	ldp	x22, x21, [sp, #48]
	ldp	x29, x30, [sp, #32]
	add	sp, sp, #80
	.cfi_def_cfa_offset 0
	.cfi_restore w19
	.cfi_restore w20
	.cfi_restore w21
	.cfi_restore w22
	.cfi_restore w30
	.cfi_restore w29
	hint	#29
	.cfi_negate_ra_state
	ret
.Ldcsctp_BB15_11:
	.cfi_restore_state
	mov	x21, x1
	mov	x0, x19
	mov	x1, x2
	mov	x22, x2
	bl	std_alloc.vec.Vec.grow_amortized.38fbb921ed00a393
	cbz	w0, .Ldcsctp_BB15_13
	ldp	x8, x20, [x19, #8]
	mov	x1, x21
	mov	x2, x22
	b	.Ldcsctp_BB15_9
.Ldcsctp_BB15_13:
	mov	w0, #1
	.cfi_def_cfa wsp, 80
	ldp	x20, x19, [sp, #64]
	ldp	x22, x21, [sp, #48]
	ldp	x29, x30, [sp, #32]
	add	sp, sp, #80
	.cfi_def_cfa_offset 0
	.cfi_restore w19
	.cfi_restore w20
	.cfi_restore w21
	.cfi_restore w22
	.cfi_restore w30
	.cfi_restore w29
	hint	#29
	.cfi_negate_ra_state
	ret
.Ldcsctp_func_end15:
	.size	core.fmt.formatter.Formatter.write_piece.7d2ac8fd5c291299, .Ldcsctp_func_end15-core.fmt.formatter.Formatter.write_piece.7d2ac8fd5c291299
	.cfi_endproc
	.section	.rodata.cst8,"aM",@progbits,8
	.p2align	3, 0x0
.Ldcsctp_CPI16_0:
	.byte	102
	.byte	97
	.byte	108
	.byte	115
	.zero	1
	.zero	1
	.zero	1
	.zero	1
	.section	.text.core.fmt.formatter.Formatter.write_piece.b05199c44017c92e,"ax",@progbits
	.p2align	2
	.type	core.fmt.formatter.Formatter.write_piece.b05199c44017c92e,@function
core.fmt.formatter.Formatter.write_piece.b05199c44017c92e:
	.cfi_startproc
	hint	#25
	.cfi_negate_ra_state
	stp	x29, x30, [sp, #-32]!
	.cfi_def_cfa_offset 32
	str	x19, [sp, #16]
	mov	x29, sp
	.cfi_def_cfa w29, 32
	.cfi_offset w19, -16
	.cfi_offset w30, -24
	.cfi_offset w29, -32
	.cfi_remember_state
	mov	w8, #32
	stur	xzr, [x0, #28]
	str	w8, [x0, #24]
	mov	x8, #-1
	str	wzr, [x0, #36]
	str	x8, [x0, #40]
	ldr	x8, [x0, #48]
	ldrb	w9, [x1]
	cmp	w9, #1
	b.ne	.Ldcsctp_BB16_4
	cbnz	x8, .Ldcsctp_BB16_10
	ldp	x10, x9, [x0, #8]
	sub	x8, x9, x10
	cmp	x8, #3
	b.ls	.Ldcsctp_BB16_12
.Ldcsctp_BB16_3:
	ldr	x11, [x0]
	mov	w12, #29300
	mov	w8, wzr
	movk	w12, #25973, lsl #16
	str	w12, [x11, x10]
	add	x10, x10, #4
	stp	x11, x10, [x0]
	str	x9, [x0, #16]
	mov	w0, w8
	.cfi_def_cfa wsp, 32
	ldr	x19, [sp, #16]
	ldp	x29, x30, [sp], #32
	.cfi_def_cfa_offset 0
	.cfi_restore w19
	.cfi_restore w30
	.cfi_restore w29
	hint	#29
	.cfi_negate_ra_state
	ret
.Ldcsctp_BB16_4:
	.cfi_restore_state
	.cfi_remember_state
	cbnz	x8, .Ldcsctp_BB16_11
	ldp	x8, x9, [x0, #8]
	sub	x10, x9, x8
	cmp	x10, #4
	b.ls	.Ldcsctp_BB16_14
.Ldcsctp_BB16_6:
	ldr	x10, [x0]
	adrp	x11, .Ldcsctp_static.16
	add	x11, x11, :lo12:.Ldcsctp_static.16
	add	x12, x10, x8
	sub	x11, x12, x11
	cmp	x11, #4
	add	x11, x8, #5
	b.hi	.Ldcsctp_BB16_8
	adrp	x8, .Ldcsctp_CPI16_0
	ldr	d0, [x8, :lo12:.Ldcsctp_CPI16_0]
	mov	w8, #101
	strb	w8, [x12, #4]
	str	s0, [x12]
	b	.Ldcsctp_BB16_9
.Ldcsctp_BB16_8:
	mov	w13, #24934
	mov	w8, #101
	movk	w13, #29548, lsl #16
	strb	w8, [x12, #4]
	str	w13, [x12]
.Ldcsctp_BB16_9:
	mov	w8, wzr
	stp	x10, x11, [x0]
	str	x9, [x0, #16]
	mov	w0, w8
	.cfi_def_cfa wsp, 32
	ldr	x19, [sp, #16]
	ldp	x29, x30, [sp], #32
	.cfi_def_cfa_offset 0
	.cfi_restore w19
	.cfi_restore w30
	.cfi_restore w29
	hint	#29
	.cfi_negate_ra_state
	ret
.Ldcsctp_BB16_10:
	.cfi_restore_state
	.cfi_remember_state
	adrp	x1, .Ldcsctp_static.15
	add	x1, x1, :lo12:.Ldcsctp_static.15
	mov	w2, #4
	.cfi_def_cfa wsp, 32
	ldr	x19, [sp, #16]
	ldp	x29, x30, [sp], #32
	.cfi_def_cfa_offset 0
	.cfi_restore w19
	.cfi_restore w30
	.cfi_restore w29
	hint	#29
	.cfi_negate_ra_state
	b	core.fmt.formatter.Formatter.write_indented.69d84fb4438acd8c
.Ldcsctp_BB16_11:
	.cfi_restore_state
	.cfi_remember_state
	adrp	x1, .Ldcsctp_static.16
	add	x1, x1, :lo12:.Ldcsctp_static.16
	mov	w2, #5
	.cfi_def_cfa wsp, 32
	ldr	x19, [sp, #16]
	ldp	x29, x30, [sp], #32
	.cfi_def_cfa_offset 0
	.cfi_restore w19
	.cfi_restore w30
	.cfi_restore w29
	hint	#29
	.cfi_negate_ra_state
	b	core.fmt.formatter.Formatter.write_indented.69d84fb4438acd8c
.Ldcsctp_BB16_12:
	.cfi_restore_state
	mov	w1, #4
	mov	x19, x0
	bl	std_alloc.vec.Vec.grow_amortized.38fbb921ed00a393
	cbz	w0, .Ldcsctp_BB16_16
	ldp	x10, x9, [x19, #8]
	mov	x0, x19
	b	.Ldcsctp_BB16_3
.Ldcsctp_BB16_14:
	mov	w1, #5
	mov	x19, x0
	bl	std_alloc.vec.Vec.grow_amortized.38fbb921ed00a393
	cbz	w0, .Ldcsctp_BB16_16
	ldp	x8, x9, [x19, #8]
	mov	x0, x19
	b	.Ldcsctp_BB16_6
.Ldcsctp_BB16_16:
	mov	w8, #1
	mov	w0, w8
	.cfi_def_cfa wsp, 32
	ldr	x19, [sp, #16]
	ldp	x29, x30, [sp], #32
	.cfi_def_cfa_offset 0
	.cfi_restore w19
	.cfi_restore w30
	.cfi_restore w29
	hint	#29
	.cfi_negate_ra_state
	ret
.Ldcsctp_func_end16:
	.size	core.fmt.formatter.Formatter.write_piece.b05199c44017c92e, .Ldcsctp_func_end16-core.fmt.formatter.Formatter.write_piece.b05199c44017c92e
	.cfi_endproc
	.section	.text.core.fmt.formatter.Formatter.write_piece.3798a2e744629105,"ax",@progbits
	.p2align	2
	.type	core.fmt.formatter.Formatter.write_piece.3798a2e744629105,@function
core.fmt.formatter.Formatter.write_piece.3798a2e744629105:
	.cfi_startproc
	hint	#25
	.cfi_negate_ra_state
	sub	sp, sp, #96
	.cfi_def_cfa_offset 96
	stp	x29, x30, [sp, #32]
	stp	x24, x23, [sp, #48]
	stp	x22, x21, [sp, #64]
	stp	x20, x19, [sp, #80]
	add	x29, sp, #32
	.cfi_def_cfa w29, 64
	.cfi_offset w19, -8
	.cfi_offset w20, -16
	.cfi_offset w21, -24
	.cfi_offset w22, -32
	.cfi_offset w23, -40
	.cfi_offset w24, -48
	.cfi_offset w30, -56
	.cfi_offset w29, -64
	.cfi_remember_state
	mov	w8, #32
	mov	x21, x0
	mov	x9, #-1
	str	w8, [x21, #24]!
	mov	x19, x1
	stur	xzr, [x21, #4]
	ldr	x10, [x21, #24]
	str	wzr, [x21, #12]
	str	x9, [x21, #16]
	ldr	q0, [x21]
	str	w8, [x21]
	stur	xzr, [x21, #4]
	str	wzr, [x21, #12]
	str	x9, [x21, #16]
	ldr	x1, [x1]
	ldr	x2, [x19, #8]
	str	x9, [sp, #16]
	str	q0, [sp]
	cbnz	x10, .Ldcsctp_BB17_14
	mov	x24, x0
	ldp	x9, x20, [x24, #8]!
	sub	x8, x20, x9
	cmp	x2, x8
	b.hi	.Ldcsctp_BB17_22
.Ldcsctp_BB17_2:
	ldr	x22, [x0]
	add	x23, x9, x2
	stp	xzr, xzr, [x24]
	add	x8, x22, x9
	sub	x10, x8, x1
	cmp	x10, x2
	b.hs	.Ldcsctp_BB17_8
	cmp	x2, #8
	b.lo	.Ldcsctp_BB17_5
	add	x8, x9, x22
	sub	x8, x8, x1
	cmp	x8, #32
	b.hs	.Ldcsctp_BB17_12
.Ldcsctp_BB17_5:
	mov	x8, xzr
.Ldcsctp_BB17_6:
	add	x10, x8, x9
	sub	x9, x2, x8
	add	x8, x1, x8
	add	x10, x22, x10
.Ldcsctp_BB17_7:
	ldrb	w11, [x8], #1
	subs	x9, x9, #1
	strb	w11, [x10], #1
	b.ne	.Ldcsctp_BB17_7
	b	.Ldcsctp_BB17_9
.Ldcsctp_BB17_8:
	mov	x24, x0
	mov	x0, x8
	bl	memmove
	mov	x0, x24
.Ldcsctp_BB17_9:
	stp	x22, x23, [x0]
	str	x20, [x0, #16]
.Ldcsctp_BB17_10:
	add	x1, x19, #16
	bl	core.fmt.formatter.Formatter.write_piece.861f8385eb98801e
	and	w0, w0, #0xff
.Ldcsctp_BB17_11:
	ldr	q0, [sp]
	ldr	x8, [sp, #16]
	str	q0, [x21]
	str	x8, [x21, #16]
	.cfi_def_cfa wsp, 96
	ldp	x20, x19, [sp, #80]
	ldp	x22, x21, [sp, #64]
	ldp	x24, x23, [sp, #48]
	ldp	x29, x30, [sp, #32]
	add	sp, sp, #96
	.cfi_def_cfa_offset 0
	.cfi_restore w19
	.cfi_restore w20
	.cfi_restore w21
	.cfi_restore w22
	.cfi_restore w23
	.cfi_restore w24
	.cfi_restore w30
	.cfi_restore w29
	hint	#29
	.cfi_negate_ra_state
	ret
.Ldcsctp_BB17_12:
	.cfi_restore_state
	cmp	x2, #32
	b.hs	.Ldcsctp_BB17_15
	mov	x8, xzr
	b	.Ldcsctp_BB17_19
.Ldcsctp_BB17_14:
	mov	x20, x0
	bl	core.fmt.formatter.Formatter.write_indented.69d84fb4438acd8c
	mov	w8, w0
	mov	x0, x20
	and	w8, w8, #0xff
	tbnz	w8, #0, .Ldcsctp_BB17_24
	b	.Ldcsctp_BB17_10
.Ldcsctp_BB17_15:
	add	x12, x9, x22
	and	x10, x2, #0x18
	and	x8, x2, #0xffffffffffffffe0
	add	x11, x1, #16
	add	x12, x12, #16
	and	x13, x2, #0xffffffffffffffe0
.Ldcsctp_BB17_16:
	ldp	q0, q1, [x11, #-16]
	subs	x13, x13, #32
	add	x11, x11, #32
	stp	q0, q1, [x12, #-16]
	add	x12, x12, #32
	b.ne	.Ldcsctp_BB17_16
	cmp	x2, x8
	b.eq	.Ldcsctp_BB17_9
	cbz	x10, .Ldcsctp_BB17_6
.Ldcsctp_BB17_19:
	mov	x11, x8
	and	x8, x2, #0xfffffffffffffff8
	add	x12, x9, x11
	sub	x10, x11, x8
	add	x11, x1, x11
	add	x12, x22, x12
.Ldcsctp_BB17_20:
	ldr	d0, [x11], #8
	adds	x10, x10, #8
	str	d0, [x12], #8
	b.ne	.Ldcsctp_BB17_20
	cmp	x2, x8
	b.eq	.Ldcsctp_BB17_9
	b	.Ldcsctp_BB17_6
.Ldcsctp_BB17_22:
	mov	x22, x1
	mov	x1, x2
	mov	x20, x0
	mov	x23, x2
	bl	std_alloc.vec.Vec.grow_amortized.38fbb921ed00a393
	cbz	w0, .Ldcsctp_BB17_24
	mov	x0, x20
	ldp	x9, x20, [x20, #8]
	mov	x1, x22
	mov	x2, x23
	b	.Ldcsctp_BB17_2
.Ldcsctp_BB17_24:
	mov	w0, #1
	b	.Ldcsctp_BB17_11
.Ldcsctp_func_end17:
	.size	core.fmt.formatter.Formatter.write_piece.3798a2e744629105, .Ldcsctp_func_end17-core.fmt.formatter.Formatter.write_piece.3798a2e744629105
	.cfi_endproc
	.section	.text.core.fmt.formatter.Formatter.write_piece.861f8385eb98801e,"ax",@progbits
	.p2align	2
	.type	core.fmt.formatter.Formatter.write_piece.861f8385eb98801e,@function
core.fmt.formatter.Formatter.write_piece.861f8385eb98801e:
	.cfi_startproc
	hint	#25
	.cfi_negate_ra_state
	sub	sp, sp, #80
	.cfi_def_cfa_offset 80
	stp	x29, x30, [sp, #32]
	stp	x22, x21, [sp, #48]
	stp	x20, x19, [sp, #64]
	add	x29, sp, #32
	.cfi_def_cfa w29, 48
	.cfi_offset w19, -8
	.cfi_offset w20, -16
	.cfi_offset w21, -24
	.cfi_offset w22, -32
	.cfi_offset w30, -40
	.cfi_offset w29, -48
	.cfi_remember_state
	mov	w8, #32
	stur	xzr, [x0, #28]
	mov	x19, x0
	str	w8, [x0, #24]
	mov	x8, #-1
	str	wzr, [x0, #36]
	str	x8, [x0, #40]
	ldr	x8, [x1]
	stp	xzr, xzr, [sp, #8]
	str	xzr, [sp, #24]
	ldr	x8, [x8]
	cmp	x8, #100
	b.lo	.Ldcsctp_BB18_5
	mov	x9, xzr
.Ldcsctp_BB18_2:
	mov	x11, #62915
	mov	x10, x8
	lsr	x8, x8, #2
	movk	x11, #23592, lsl #16
	mov	w12, #205
	movk	x11, #49807, lsl #32
	movk	x11, #10485, lsl #48
	umulh	x8, x8, x11
	mov	w11, #100
	lsr	x8, x8, #2
	msub	w11, w8, w11, w10
	lsr	x10, x10, #4
	cmp	x10, #624
	and	w13, w11, #0xff
	mul	w12, w13, w12
	mov	w13, #10
	lsr	w12, w12, #11
	msub	w11, w12, w13, w11
	add	x13, sp, #8
	orr	w10, w12, #0x30
	add	x13, x13, x9
	sub	x9, x9, #2
	strb	w10, [x13, #22]
	orr	w11, w11, #0x30
	strb	w11, [x13, #23]
	b.hi	.Ldcsctp_BB18_2
	add	x9, x9, #24
	cmp	x8, #10
	b.hs	.Ldcsctp_BB18_6
.Ldcsctp_BB18_4:
	sub	x9, x9, #1
	add	x10, sp, #8
	orr	w8, w8, #0x30
	strb	w8, [x10, x9]
	b	.Ldcsctp_BB18_7
.Ldcsctp_BB18_5:
	mov	w9, #24
	cmp	x8, #10
	b.lo	.Ldcsctp_BB18_4
.Ldcsctp_BB18_6:
	and	w10, w8, #0xff
	mov	w11, #205
	mul	w10, w10, w11
	mov	w11, #10
	lsr	w10, w10, #11
	msub	w8, w10, w11, w8
	add	x11, sp, #8
	orr	w10, w10, #0x30
	add	x11, x11, x9
	sub	x9, x9, #2
	sturb	w10, [x11, #-2]
	orr	w8, w8, #0x30
	sturb	w8, [x11, #-1]
.Ldcsctp_BB18_7:
	add	x8, sp, #8
	ldr	x10, [x19, #48]
	mov	w11, #24
	add	x1, x8, x9
	mov	w8, #45
	sub	x2, x11, x9
	sturb	w8, [x1, #-1]
	cbnz	x10, .Ldcsctp_BB18_10
	ldp	x8, x20, [x19, #8]
	sub	x9, x20, x8
	cmp	x2, x9
	b.hi	.Ldcsctp_BB18_11
.Ldcsctp_BB18_9:
	ldr	x21, [x19]
	add	x22, x8, x2
	add	x0, x21, x8
	bl	memcpy
	mov	w0, wzr
	stp	x21, x22, [x19]
	str	x20, [x19, #16]
	.cfi_def_cfa wsp, 80
	ldp	x20, x19, [sp, #64]
	ldp	x22, x21, [sp, #48]
	ldp	x29, x30, [sp, #32]
	add	sp, sp, #80
	.cfi_def_cfa_offset 0
	.cfi_restore w19
	.cfi_restore w20
	.cfi_restore w21
	.cfi_restore w22
	.cfi_restore w30
	.cfi_restore w29
	hint	#29
	.cfi_negate_ra_state
	ret
.Ldcsctp_BB18_10:
	.cfi_restore_state
	.cfi_remember_state
	mov	x0, x19
	bl	core.fmt.formatter.Formatter.write_indented.69d84fb4438acd8c
	and	w0, w0, #0xff
	.cfi_def_cfa wsp, 80
	ldp	x20, x19, [sp, #64]
	ldp	x22, x21, [sp, #48]
	ldp	x29, x30, [sp, #32]
	add	sp, sp, #80
	.cfi_def_cfa_offset 0
	.cfi_restore w19
	.cfi_restore w20
	.cfi_restore w21
	.cfi_restore w22
	.cfi_restore w30
	.cfi_restore w29
	hint	#29
	.cfi_negate_ra_state
	ret
.Ldcsctp_BB18_11:
	.cfi_restore_state
	mov	x21, x1
	mov	x0, x19
	mov	x1, x2
	mov	x22, x2
	bl	std_alloc.vec.Vec.grow_amortized.38fbb921ed00a393
	cbz	w0, .Ldcsctp_BB18_13
	ldp	x8, x20, [x19, #8]
	mov	x1, x21
	mov	x2, x22
	b	.Ldcsctp_BB18_9
.Ldcsctp_BB18_13:
	mov	w0, #1
	.cfi_def_cfa wsp, 80
	ldp	x20, x19, [sp, #64]
	ldp	x22, x21, [sp, #48]
	ldp	x29, x30, [sp, #32]
	add	sp, sp, #80
	.cfi_def_cfa_offset 0
	.cfi_restore w19
	.cfi_restore w20
	.cfi_restore w21
	.cfi_restore w22
	.cfi_restore w30
	.cfi_restore w29
	hint	#29
	.cfi_negate_ra_state
	ret
.Ldcsctp_func_end18:
	.size	core.fmt.formatter.Formatter.write_piece.861f8385eb98801e, .Ldcsctp_func_end18-core.fmt.formatter.Formatter.write_piece.861f8385eb98801e
	.cfi_endproc
	.section	.text.dcsctp_tlv.list.listed_encoded_size.cada439fb2c2aae5,"ax",@progbits
	.p2align	2
	.type	dcsctp_tlv.list.listed_encoded_size.cada439fb2c2aae5,@function
dcsctp_tlv.list.listed_encoded_size.cada439fb2c2aae5:
	.cfi_startproc
	mov	x8, xzr
	cbz	x2, .Ldcsctp_BB19_19
	add	x9, x1, #16
.Ldcsctp_BB19_2:
	ldurb	w10, [x9, #-16]
	cmp	w10, #11
	b.hi	.Ldcsctp_BB19_21
	adrp	x11, .Ldcsctp_JTI19_0
	add	x11, x11, :lo12:.Ldcsctp_JTI19_0
	adr	x12, .Ldcsctp_BB19_4
	ldrb	w13, [x11, x10]
	add	x12, x12, x13, lsl #2
	mov	w10, #1
	mov	w11, #8
	br	x12
.Ldcsctp_BB19_4:
	hint	#36
	ldr	x10, [x9]
	b	.Ldcsctp_BB19_7
.Ldcsctp_BB19_5:
	hint	#36
	ldr	x10, [x9, #8]
	lsl	x11, x10, #1
	cmn	x10, #1
	csinv	x10, x11, xzr, gt
	mov	w11, #65528
	cmp	x10, x11
	add	x11, x10, #8
	b	.Ldcsctp_BB19_8
.Ldcsctp_BB19_6:
	hint	#36
	ldr	x10, [x9, #8]
.Ldcsctp_BB19_7:
	mov	w11, #65532
	cmp	x10, x11
	add	x11, x10, #4
.Ldcsctp_BB19_8:
	cset	w10, lo
	csel	x11, x11, xzr, lo
	b	.Ldcsctp_BB19_16
.Ldcsctp_BB19_9:
	hint	#36
	ldr	x10, [x9, #16]
	lsl	x11, x10, #1
	cmn	x10, #1
	csinv	x10, x11, xzr, gt
	lsr	x11, x10, #4
	cmp	x11, #4095
	add	x11, x10, #16
	b	.Ldcsctp_BB19_8
.Ldcsctp_BB19_10:
	hint	#36
	ldurb	w10, [x9, #-4]
	cmp	w10, #1
	b.ne	.Ldcsctp_BB19_14
	ldrb	w10, [x9, #4]
	cmp	w10, #1
	b.ne	.Ldcsctp_BB19_14
	mov	w11, #20
	b	.Ldcsctp_BB19_16
.Ldcsctp_BB19_13:
	hint	#36
	mov	w11, #4
	b	.Ldcsctp_BB19_16
.Ldcsctp_BB19_14:
	mov	w10, #1
.Ldcsctp_BB19_15:
	hint	#36
	mov	w11, #12
.Ldcsctp_BB19_16:
	hint	#36
	and	w10, w10, #0xff
	cmp	w10, #1
	b.ne	.Ldcsctp_BB19_20
	add	x8, x8, #3
	and	x8, x8, #0xfffffffffffffffc
	add	x8, x11, x8
	lsr	x10, x8, #16
	cbnz	x10, .Ldcsctp_BB19_20
	subs	x2, x2, #1
	add	x9, x9, #48
	b.ne	.Ldcsctp_BB19_2
.Ldcsctp_BB19_19:
	add	x8, x8, x0
	mov	w9, #65532
	cmp	x8, x9
	add	x8, x8, #4
	cset	w0, lo
	csel	x1, x8, xzr, lo
	ret
.Ldcsctp_BB19_20:
	mov	w0, wzr
	mov	x1, xzr
	ret
.Ldcsctp_BB19_21:
	brk	#0x1
.Ldcsctp_func_end19:
	.size	dcsctp_tlv.list.listed_encoded_size.cada439fb2c2aae5, .Ldcsctp_func_end19-dcsctp_tlv.list.listed_encoded_size.cada439fb2c2aae5
	.cfi_endproc
	.section	.rodata.dcsctp_tlv.list.listed_encoded_size.cada439fb2c2aae5,"a",@progbits
.Ldcsctp_JTI19_0:
	.byte	(.Ldcsctp_BB19_4-.Ldcsctp_BB19_4)>>2
	.byte	(.Ldcsctp_BB19_4-.Ldcsctp_BB19_4)>>2
	.byte	(.Ldcsctp_BB19_9-.Ldcsctp_BB19_4)>>2
	.byte	(.Ldcsctp_BB19_5-.Ldcsctp_BB19_4)>>2
	.byte	(.Ldcsctp_BB19_16-.Ldcsctp_BB19_4)>>2
	.byte	(.Ldcsctp_BB19_10-.Ldcsctp_BB19_4)>>2
	.byte	(.Ldcsctp_BB19_15-.Ldcsctp_BB19_4)>>2
	.byte	(.Ldcsctp_BB19_15-.Ldcsctp_BB19_4)>>2
	.byte	(.Ldcsctp_BB19_16-.Ldcsctp_BB19_4)>>2
	.byte	(.Ldcsctp_BB19_4-.Ldcsctp_BB19_4)>>2
	.byte	(.Ldcsctp_BB19_13-.Ldcsctp_BB19_4)>>2
	.byte	(.Ldcsctp_BB19_6-.Ldcsctp_BB19_4)>>2
	.section	.text.dcsctp_tlv.list.listed_encoded_size.f123a6a91b68d363,"ax",@progbits
	.p2align	2
	.type	dcsctp_tlv.list.listed_encoded_size.f123a6a91b68d363,@function
dcsctp_tlv.list.listed_encoded_size.f123a6a91b68d363:
	.cfi_startproc
	mov	x8, xzr
	cbz	x1, .Ldcsctp_BB20_18
	add	x9, x0, #16
.Ldcsctp_BB20_2:
	ldurb	w10, [x9, #-16]
	cmp	w10, #2
	b.le	.Ldcsctp_BB20_6
	cmp	w10, #4
	b.gt	.Ldcsctp_BB20_9
	cmp	w10, #3
	b.ne	.Ldcsctp_BB20_10
	mov	w10, #1
	mov	w11, #4
	b	.Ldcsctp_BB20_15
.Ldcsctp_BB20_6:
	cbz	w10, .Ldcsctp_BB20_11
	cmp	w10, #1
	b.eq	.Ldcsctp_BB20_10
	mov	w10, #1
	mov	w11, #8
	b	.Ldcsctp_BB20_15
.Ldcsctp_BB20_9:
	cmp	w10, #5
	b.ne	.Ldcsctp_BB20_12
.Ldcsctp_BB20_10:
	ldr	x10, [x9]
	b	.Ldcsctp_BB20_13
.Ldcsctp_BB20_11:
	ldr	x10, [x9]
	lsl	x11, x10, #1
	cmn	x10, #1
	csinv	x10, x11, xzr, gt
	mov	w11, #65528
	cmp	x10, x11
	add	x11, x10, #8
	b	.Ldcsctp_BB20_14
.Ldcsctp_BB20_12:
	ldr	x10, [x9, #8]
.Ldcsctp_BB20_13:
	mov	w11, #65532
	cmp	x10, x11
	add	x11, x10, #4
.Ldcsctp_BB20_14:
	cset	w10, lo
	csel	x11, x11, xzr, lo
.Ldcsctp_BB20_15:
	and	w10, w10, #0xff
	cmp	w10, #1
	b.ne	.Ldcsctp_BB20_19
	add	x8, x8, #3
	and	x8, x8, #0xfffffffffffffffc
	add	x8, x11, x8
	lsr	x10, x8, #16
	cbnz	x10, .Ldcsctp_BB20_19
	subs	x1, x1, #1
	add	x9, x9, #40
	b.ne	.Ldcsctp_BB20_2
.Ldcsctp_BB20_18:
	mov	w9, #65532
	cmp	x8, x9
	add	x8, x8, #4
	cset	w0, lo
	csel	x1, x8, xzr, lo
	ret
.Ldcsctp_BB20_19:
	mov	w0, wzr
	mov	x1, xzr
	ret
.Ldcsctp_func_end20:
	.size	dcsctp_tlv.list.listed_encoded_size.f123a6a91b68d363, .Ldcsctp_func_end20-dcsctp_tlv.list.listed_encoded_size.f123a6a91b68d363
	.cfi_endproc
	.section	.text.dcsctp_wire.packet.chunk.ChunkSerializableTlv.serialize_to,"ax",@progbits
	.p2align	2
	.type	dcsctp_wire.packet.chunk.ChunkSerializableTlv.serialize_to,@function
dcsctp_wire.packet.chunk.ChunkSerializableTlv.serialize_to:
	.cfi_startproc
	hint	#25
	.cfi_negate_ra_state
	sub	sp, sp, #32
	.cfi_def_cfa_offset 32
	stp	x29, x30, [sp, #16]
	add	x29, sp, #16
	.cfi_def_cfa w29, 16
	.cfi_offset w30, -8
	.cfi_offset w29, -16
	.cfi_remember_state
	ldrb	w8, [x0]
	cmp	w8, #17
	b.hi	.Ldcsctp_BB21_122
	adrp	x9, .Ldcsctp_JTI21_0
	add	x9, x9, :lo12:.Ldcsctp_JTI21_0
	mov	x5, x1
	adr	x10, .Ldcsctp_BB21_2
	ldrh	w11, [x9, x8, lsl #1]
	add	x10, x10, x11, lsl #2
	br	x10
.Ldcsctp_BB21_2:
	hint	#36
	ldrb	w8, [x0, #60]
	ldrb	w9, [x0, #51]
	ldrb	w10, [x0, #50]
	ldrb	w11, [x0, #44]
	ldr	w12, [x0, #56]
	ldr	w13, [x0, #40]
	orr	w8, w9, w8, lsl #3
	mov	w9, #4
	ldp	x1, x2, [x0, #8]
	cmp	w11, #1
	orr	w8, w8, w10, lsl #1
	ldrh	w10, [x0, #46]
	csel	w9, w9, wzr, eq
	add	w11, w2, #16
	orr	w8, w8, w9
	ldrh	w9, [x0, #48]
	rev	w11, w11
	strb	w8, [x5, #1]
	rev	w10, w10
	lsr	w8, w11, #16
	lsr	w10, w10, #16
	rev	w9, w9
	add	x0, x5, #16
	rev	w11, w12
	strb	wzr, [x5]
	strh	w8, [x5, #2]
	lsr	w8, w9, #16
	sub	x9, x0, x1
	strh	w10, [x5, #8]
	rev	w10, w13
	cmp	x9, x2
	str	w11, [x5, #4]
	strh	w8, [x5, #10]
	str	w10, [x5, #12]
	b.hs	.Ldcsctp_BB21_63
	cmp	x2, #8
	b.lo	.Ldcsctp_BB21_5
	sub	x8, x5, x1
	add	x8, x8, #16
	cmp	x8, #32
	b.hs	.Ldcsctp_BB21_76
.Ldcsctp_BB21_5:
	mov	x8, xzr
.Ldcsctp_BB21_6:
	add	x10, x8, x5
	sub	x9, x2, x8
	add	x8, x1, x8
	add	x10, x10, #16
.Ldcsctp_BB21_7:
	ldrb	w11, [x8], #1
	subs	x9, x9, #1
	strb	w11, [x10], #1
	b.ne	.Ldcsctp_BB21_7
.Ldcsctp_BB21_8:
	.cfi_def_cfa wsp, 32
	ldp	x29, x30, [sp, #16]
	add	sp, sp, #32
	.cfi_def_cfa_offset 0
	.cfi_restore w30
	.cfi_restore w29
	hint	#29
	.cfi_negate_ra_state
	ret
.Ldcsctp_BB21_9:
	.cfi_restore_state
	.cfi_remember_state
	hint	#36
	ldp	x10, x8, [x0, #16]
	mov	w12, #194
	ldr	w11, [x0, #8]
	strh	w12, [x5]
	lsl	w9, w8, #3
	rev	w11, w11
	str	w11, [x5, #4]
	add	w9, w9, #8
	rev	w9, w9
	lsr	w9, w9, #16
	strh	w9, [x5, #2]
	cbz	x8, .Ldcsctp_BB21_8
	add	x9, x5, #12
	add	x10, x10, #4
	b	.Ldcsctp_BB21_12
.Ldcsctp_BB21_11:
	subs	x8, x8, #1
	add	x10, x10, #12
	add	x9, x9, #8
	b.eq	.Ldcsctp_BB21_8
.Ldcsctp_BB21_12:
	ldurb	w11, [x10, #-4]
	cbz	w11, .Ldcsctp_BB21_11
	ldrh	w11, [x10]
	rev	w11, w11
	lsr	w11, w11, #16
	sturh	w11, [x9, #-4]
	ldurb	w11, [x10, #-2]
	cmp	w11, #1
	mov	w11, #256
	csel	w11, w11, wzr, eq
	sturh	w11, [x9, #-2]
	ldr	w11, [x10, #4]
	rev	w11, w11
	str	w11, [x9]
	b	.Ldcsctp_BB21_11
.Ldcsctp_BB21_14:
	hint	#36
	ldp	x3, x4, [x0, #8]
	adrp	x1, .Ldcsctp_static.8
	add	x1, x1, :lo12:.Ldcsctp_static.8
	mov	w0, #130
	mov	x2, xzr
	.cfi_def_cfa wsp, 32
	ldp	x29, x30, [sp, #16]
	add	sp, sp, #32
	.cfi_def_cfa_offset 0
	.cfi_restore w30
	.cfi_restore w29
	hint	#29
	.cfi_negate_ra_state
	b	dcsctp_tlv.list.put_listed.cada439fb2c2aae5
.Ldcsctp_BB21_15:
	.cfi_restore_state
	.cfi_remember_state
	hint	#36
	mov	w8, #11
	movk	w8, #1024, lsl #16
	str	w8, [x5]
	.cfi_def_cfa wsp, 32
	ldp	x29, x30, [sp, #16]
	add	sp, sp, #32
	.cfi_def_cfa_offset 0
	.cfi_restore w30
	.cfi_restore w29
	hint	#29
	.cfi_negate_ra_state
	ret
.Ldcsctp_BB21_16:
	.cfi_restore_state
	.cfi_remember_state
	hint	#36
	ldp	x3, x4, [x0, #8]
	adrp	x1, .Ldcsctp_static.8
	add	x1, x1, :lo12:.Ldcsctp_static.8
	mov	w0, #4
	mov	x2, xzr
	.cfi_def_cfa wsp, 32
	ldp	x29, x30, [sp, #16]
	add	sp, sp, #32
	.cfi_def_cfa_offset 0
	.cfi_restore w30
	.cfi_restore w29
	hint	#29
	.cfi_negate_ra_state
	b	dcsctp_tlv.list.put_listed.cada439fb2c2aae5
.Ldcsctp_BB21_17:
	.cfi_restore_state
	.cfi_remember_state
	hint	#36
	ldrb	w8, [x0, #1]
	mov	w9, #14
	strb	w9, [x5]
	mov	w9, #1024
	strb	w8, [x5, #1]
	strh	w9, [x5, #2]
	.cfi_def_cfa wsp, 32
	ldp	x29, x30, [sp, #16]
	add	sp, sp, #32
	.cfi_def_cfa_offset 0
	.cfi_restore w30
	.cfi_restore w29
	hint	#29
	.cfi_negate_ra_state
	ret
.Ldcsctp_BB21_18:
	.cfi_restore_state
	.cfi_remember_state
	hint	#36
	ldp	x2, x3, [x0, #8]
	mov	w0, #9
	mov	w1, wzr
	mov	x4, x5
	.cfi_def_cfa wsp, 32
	ldp	x29, x30, [sp, #16]
	add	sp, sp, #32
	.cfi_def_cfa_offset 0
	.cfi_restore w30
	.cfi_restore w29
	hint	#29
	.cfi_negate_ra_state
	b	dcsctp_tlv.list.put_listed.f123a6a91b68d363
.Ldcsctp_BB21_19:
	.cfi_restore_state
	.cfi_remember_state
	hint	#36
	ldrh	w8, [x0, #16]
	ldr	d0, [x0, #8]
	mov	x1, sp
	ldrh	w9, [x0, #18]
	ldr	w10, [x0, #20]
	rev	w8, w8
	rev32	v0.8b, v0.8b
	rev	w9, w9
	lsr	w8, w8, #16
	lsr	w9, w9, #16
	ldp	x3, x4, [x0, #24]
	strh	w8, [sp, #8]
	rev	w8, w10
	mov	w0, #2
	b	.Ldcsctp_BB21_41
.Ldcsctp_BB21_20:
	hint	#36
	ldp	x10, x8, [x0, #16]
	mov	w12, #192
	ldr	w11, [x0, #8]
	strh	w12, [x5]
	lsl	w9, w8, #2
	rev	w11, w11
	str	w11, [x5, #4]
	add	w9, w9, #8
	rev	w9, w9
	lsr	w9, w9, #16
	strh	w9, [x5, #2]
	cbz	x8, .Ldcsctp_BB21_8
	add	x9, x5, #10
	add	x10, x10, #4
	b	.Ldcsctp_BB21_23
.Ldcsctp_BB21_22:
	subs	x8, x8, #1
	add	x9, x9, #4
	add	x10, x10, #12
	b.eq	.Ldcsctp_BB21_8
.Ldcsctp_BB21_23:
	ldurb	w11, [x10, #-4]
	cbnz	w11, .Ldcsctp_BB21_22
	ldurh	w11, [x10, #-2]
	rev	w11, w11
	lsr	w11, w11, #16
	sturh	w11, [x9, #-2]
	ldrh	w11, [x10]
	rev	w11, w11
	lsr	w11, w11, #16
	strh	w11, [x9]
	b	.Ldcsctp_BB21_22
.Ldcsctp_BB21_25:
	hint	#36
	ldr	x8, [x0, #24]
	ldr	x9, [x0, #48]
	adds	x8, x9, x8
	csinv	x8, x8, xzr, lo
	lsr	x9, x8, #62
	lsl	x8, x8, #2
	cmp	x9, #0
	csinv	x8, x8, xzr, eq
	lsr	x9, x8, #4
	cmp	x9, #4095
	b.hs	.Ldcsctp_BB21_122
	add	w8, w8, #16
	mov	w9, #3
	rev	w8, w8
	strh	w9, [x5]
	lsr	w8, w8, #16
	strh	w8, [x5, #2]
	ldr	d0, [x0, #8]
	ldrh	w8, [x0, #24]
	ldrh	w9, [x0, #48]
	rev32	v0.8b, v0.8b
	rev	w8, w8
	rev	w9, w9
	lsr	w8, w8, #16
	lsr	w9, w9, #16
	strh	w8, [x5, #12]
	stur	d0, [x5, #4]
	strh	w9, [x5, #14]
	ldr	x8, [x0, #24]
	cbz	x8, .Ldcsctp_BB21_67
	ldr	x9, [x0, #16]
	cmp	x8, #4
	b.lo	.Ldcsctp_BB21_35
	sub	x12, x8, #1
	add	x11, x9, #2
	mov	x10, xzr
	lsl	x13, x12, #2
	add	x14, x11, x13
	cmp	x14, x11
	mov	w11, #16
	b.lo	.Ldcsctp_BB21_36
	add	x14, x9, x13
	cmp	x14, x9
	b.lo	.Ldcsctp_BB21_36
	add	x14, x5, #16
	add	x15, x14, x13
	cmp	x15, x14
	b.lo	.Ldcsctp_BB21_36
	add	x14, x5, #18
	add	x13, x14, x13
	cmp	x13, x14
	b.lo	.Ldcsctp_BB21_36
	lsr	x12, x12, #62
	cbnz	x12, .Ldcsctp_BB21_36
	lsl	x10, x8, #2
	add	x11, x5, #16
	add	x12, x9, x10
	cmp	x11, x12
	b.hs	.Ldcsctp_BB21_84
	add	x10, x11, x10
	cmp	x9, x10
	b.hs	.Ldcsctp_BB21_84
.Ldcsctp_BB21_35:
	mov	x10, xzr
	mov	w11, #16
.Ldcsctp_BB21_36:
	add	x12, x9, x10, lsl #2
	add	x9, x11, x5
	sub	x8, x8, x10
	add	x9, x9, #2
	add	x10, x12, #2
.Ldcsctp_BB21_37:
	ldurh	w11, [x10, #-2]
	subs	x8, x8, #1
	rev	w11, w11
	lsr	w11, w11, #16
	sturh	w11, [x9, #-2]
	ldrh	w11, [x10], #4
	rev	w11, w11
	lsr	w11, w11, #16
	strh	w11, [x9], #4
	b.ne	.Ldcsctp_BB21_37
.Ldcsctp_BB21_38:
	ldr	x8, [x0, #24]
	lsl	x8, x8, #2
	add	x8, x8, #16
	ldr	x9, [x0, #48]
	cbnz	x9, .Ldcsctp_BB21_68
	b	.Ldcsctp_BB21_8
.Ldcsctp_BB21_39:
	hint	#36
	ldr	w8, [x0, #4]
	mov	w9, #7
	movk	w9, #2048, lsl #16
	rev	w8, w8
	stp	w9, w8, [x5]
	.cfi_def_cfa wsp, 32
	ldp	x29, x30, [sp, #16]
	add	sp, sp, #32
	.cfi_def_cfa_offset 0
	.cfi_restore w30
	.cfi_restore w29
	hint	#29
	.cfi_negate_ra_state
	ret
.Ldcsctp_BB21_40:
	.cfi_restore_state
	.cfi_remember_state
	hint	#36
	ldrh	w8, [x0, #16]
	ldr	d0, [x0, #8]
	mov	x1, sp
	ldrh	w9, [x0, #18]
	ldr	w10, [x0, #20]
	rev	w8, w8
	rev32	v0.8b, v0.8b
	rev	w9, w9
	lsr	w8, w8, #16
	ldp	x3, x4, [x0, #24]
	lsr	w9, w9, #16
	strh	w8, [sp, #8]
	rev	w8, w10
	mov	w0, #1
.Ldcsctp_BB21_41:
	strh	w9, [sp, #10]
	str	d0, [sp]
	str	w8, [sp, #12]
	mov	w2, #16
	bl	dcsctp_tlv.list.put_listed.cada439fb2c2aae5
	.cfi_def_cfa wsp, 32
	ldp	x29, x30, [sp, #16]
	add	sp, sp, #32
	.cfi_def_cfa_offset 0
	.cfi_restore w30
	.cfi_restore w29
	hint	#29
	.cfi_negate_ra_state
	ret
.Ldcsctp_BB21_42:
	.cfi_restore_state
	.cfi_remember_state
	hint	#36
	ldp	x1, x2, [x0, #16]
	ldrh	w9, [x0, #8]
	add	x0, x5, #4
	strh	w9, [x5]
	add	w8, w2, #4
	sub	x10, x0, x1
	rev	w8, w8
	cmp	x10, x2
	lsr	w8, w8, #16
	strh	w8, [x5, #2]
	b.hs	.Ldcsctp_BB21_64
	cmp	x2, #8
	b.lo	.Ldcsctp_BB21_45
	sub	x8, x5, x1
	add	x8, x8, #4
	cmp	x8, #32
	b.hs	.Ldcsctp_BB21_78
.Ldcsctp_BB21_45:
	mov	x8, xzr
.Ldcsctp_BB21_46:
	add	x10, x8, x5
	sub	x9, x2, x8
	add	x8, x1, x8
	add	x10, x10, #4
.Ldcsctp_BB21_47:
	ldrb	w11, [x8], #1
	subs	x9, x9, #1
	strb	w11, [x10], #1
	b.ne	.Ldcsctp_BB21_47
	b	.Ldcsctp_BB21_8
.Ldcsctp_BB21_48:
	hint	#36
	ldp	x3, x4, [x0, #8]
	adrp	x1, .Ldcsctp_static.8
	add	x1, x1, :lo12:.Ldcsctp_static.8
	mov	w0, #5
	mov	x2, xzr
	.cfi_def_cfa wsp, 32
	ldp	x29, x30, [sp, #16]
	add	sp, sp, #32
	.cfi_def_cfa_offset 0
	.cfi_restore w30
	.cfi_restore w29
	hint	#29
	.cfi_negate_ra_state
	b	dcsctp_tlv.list.put_listed.cada439fb2c2aae5
.Ldcsctp_BB21_49:
	.cfi_restore_state
	.cfi_remember_state
	hint	#36
	ldr	x1, [x0, #8]!
	ldrb	w9, [x0, #52]
	ldrb	w10, [x0, #43]
	ldrb	w8, [x0, #36]
	mov	w12, #4
	ldrb	w11, [x0, #42]
	ldr	x2, [x0, #8]
	ldr	w14, [x0, #24]
	orr	w9, w10, w9, lsl #3
	cmp	w8, #1
	mov	w8, #28
	csel	w10, w12, wzr, eq
	cmp	w11, #0
	mov	w12, #32
	orr	w9, w9, w11, lsl #1
	add	w13, w2, #20
	csel	x8, x12, x8, ne
	ldrh	w12, [x0, #38]
	rev	w13, w13
	ldr	w11, [x0, #48]
	orr	w9, w9, w10
	mov	w10, #64
	ldr	w8, [x0, x8]
	strb	w10, [x5]
	lsr	w10, w13, #16
	rev	w12, w12
	add	x0, x5, #20
	strb	w9, [x5, #1]
	rev	w9, w11
	lsr	w11, w12, #16
	strh	w10, [x5, #2]
	sub	x10, x0, x1
	str	w9, [x5, #4]
	rev	w9, w14
	rev	w8, w8
	cmp	x10, x2
	strh	w11, [x5, #8]
	strh	wzr, [x5, #10]
	stp	w9, w8, [x5, #12]
	b.hs	.Ldcsctp_BB21_65
	cmp	x2, #8
	b.lo	.Ldcsctp_BB21_52
	sub	x8, x5, x1
	add	x8, x8, #20
	cmp	x8, #32
	b.hs	.Ldcsctp_BB21_80
.Ldcsctp_BB21_52:
	mov	x8, xzr
.Ldcsctp_BB21_53:
	add	x10, x8, x5
	sub	x9, x2, x8
	add	x8, x1, x8
	add	x10, x10, #20
.Ldcsctp_BB21_54:
	ldrb	w11, [x8], #1
	subs	x9, x9, #1
	strb	w11, [x10], #1
	b.ne	.Ldcsctp_BB21_54
	b	.Ldcsctp_BB21_8
.Ldcsctp_BB21_55:
	hint	#36
	ldp	x2, x3, [x0, #16]
	ldrb	w1, [x0, #8]
	mov	w0, #6
	mov	x4, x5
	.cfi_def_cfa wsp, 32
	ldp	x29, x30, [sp, #16]
	add	sp, sp, #32
	.cfi_def_cfa_offset 0
	.cfi_restore w30
	.cfi_restore w29
	hint	#29
	.cfi_negate_ra_state
	b	dcsctp_tlv.list.put_listed.f123a6a91b68d363
.Ldcsctp_BB21_56:
	.cfi_restore_state
	.cfi_remember_state
	hint	#36
	ldp	x1, x2, [x0, #8]
	add	x0, x5, #4
	mov	w9, #10
	strh	w9, [x5]
	add	w8, w2, #4
	sub	x10, x0, x1
	rev	w8, w8
	cmp	x10, x2
	lsr	w8, w8, #16
	strh	w8, [x5, #2]
	b.hs	.Ldcsctp_BB21_66
	cmp	x2, #8
	b.lo	.Ldcsctp_BB21_59
	sub	x8, x5, x1
	add	x8, x8, #4
	cmp	x8, #32
	b.hs	.Ldcsctp_BB21_82
.Ldcsctp_BB21_59:
	mov	x8, xzr
.Ldcsctp_BB21_60:
	add	x10, x8, x5
	sub	x9, x2, x8
	add	x8, x1, x8
	add	x10, x10, #4
.Ldcsctp_BB21_61:
	ldrb	w11, [x8], #1
	subs	x9, x9, #1
	strb	w11, [x10], #1
	b.ne	.Ldcsctp_BB21_61
	b	.Ldcsctp_BB21_8
.Ldcsctp_BB21_62:
	hint	#36
	mov	w8, #8
	movk	w8, #1024, lsl #16
	str	w8, [x5]
	.cfi_def_cfa wsp, 32
	ldp	x29, x30, [sp, #16]
	add	sp, sp, #32
	.cfi_def_cfa_offset 0
	.cfi_restore w30
	.cfi_restore w29
	hint	#29
	.cfi_negate_ra_state
	ret
.Ldcsctp_BB21_63:
	.cfi_restore_state
	.cfi_remember_state
	.cfi_def_cfa wsp, 32
	ldp	x29, x30, [sp, #16]
	add	sp, sp, #32
	.cfi_def_cfa_offset 0
	.cfi_restore w30
	.cfi_restore w29
	hint	#29
	.cfi_negate_ra_state
	b	memmove
.Ldcsctp_BB21_64:
	.cfi_restore_state
	.cfi_remember_state
	.cfi_def_cfa wsp, 32
	ldp	x29, x30, [sp, #16]
	add	sp, sp, #32
	.cfi_def_cfa_offset 0
	.cfi_restore w30
	.cfi_restore w29
	hint	#29
	.cfi_negate_ra_state
	b	memmove
.Ldcsctp_BB21_65:
	.cfi_restore_state
	.cfi_remember_state
	.cfi_def_cfa wsp, 32
	ldp	x29, x30, [sp, #16]
	add	sp, sp, #32
	.cfi_def_cfa_offset 0
	.cfi_restore w30
	.cfi_restore w29
	hint	#29
	.cfi_negate_ra_state
	b	memmove
.Ldcsctp_BB21_66:
	.cfi_restore_state
	.cfi_remember_state
	.cfi_def_cfa wsp, 32
	ldp	x29, x30, [sp, #16]
	add	sp, sp, #32
	.cfi_def_cfa_offset 0
	.cfi_restore w30
	.cfi_restore w29
	hint	#29
	.cfi_negate_ra_state
	b	memmove
.Ldcsctp_BB21_67:
	.cfi_restore_state
	mov	w8, #16
	ldr	x9, [x0, #48]
	cbz	x9, .Ldcsctp_BB21_8
.Ldcsctp_BB21_68:
	ldr	x10, [x0, #40]
	cmp	x9, #8
	b.lo	.Ldcsctp_BB21_70
	add	x12, x8, x5
	sub	x11, x12, x10
	cmp	x11, #32
	b.hs	.Ldcsctp_BB21_73
.Ldcsctp_BB21_70:
	mov	x11, xzr
.Ldcsctp_BB21_71:
	add	x10, x10, x11, lsl #2
	add	x8, x5, x8
	sub	x9, x9, x11
.Ldcsctp_BB21_72:
	ldr	w11, [x10], #4
	subs	x9, x9, #1
	rev	w11, w11
	str	w11, [x8], #4
	b.ne	.Ldcsctp_BB21_72
	b	.Ldcsctp_BB21_8
.Ldcsctp_BB21_73:
	and	x11, x9, #0xfffffffffffffff8
	add	x12, x12, #16
	add	x13, x10, #16
	add	x8, x8, x11, lsl #2
	and	x14, x9, #0xfffffffffffffff8
.Ldcsctp_BB21_74:
	ldp	q0, q1, [x13, #-16]
	subs	x14, x14, #8
	add	x13, x13, #32
	rev32	v0.16b, v0.16b
	rev32	v1.16b, v1.16b
	stp	q0, q1, [x12, #-16]
	add	x12, x12, #32
	b.ne	.Ldcsctp_BB21_74
	cmp	x9, x11
	b.eq	.Ldcsctp_BB21_8
	b	.Ldcsctp_BB21_71
.Ldcsctp_BB21_76:
	cmp	x2, #32
	b.hs	.Ldcsctp_BB21_86
	mov	x8, xzr
	b	.Ldcsctp_BB21_90
.Ldcsctp_BB21_78:
	cmp	x2, #32
	b.hs	.Ldcsctp_BB21_93
	mov	x8, xzr
	b	.Ldcsctp_BB21_97
.Ldcsctp_BB21_80:
	cmp	x2, #32
	b.hs	.Ldcsctp_BB21_100
	mov	x8, xzr
	b	.Ldcsctp_BB21_104
.Ldcsctp_BB21_82:
	cmp	x2, #32
	b.hs	.Ldcsctp_BB21_107
	mov	x8, xzr
	b	.Ldcsctp_BB21_111
.Ldcsctp_BB21_84:
	cmp	x8, #16
	b.hs	.Ldcsctp_BB21_114
	mov	x10, xzr
	b	.Ldcsctp_BB21_118
.Ldcsctp_BB21_86:
	and	x9, x2, #0x18
	and	x8, x2, #0xffffffffffffffe0
	add	x10, x1, #16
	add	x11, x5, #32
	and	x12, x2, #0xffffffffffffffe0
.Ldcsctp_BB21_87:
	ldp	q0, q1, [x10, #-16]
	subs	x12, x12, #32
	add	x10, x10, #32
	stp	q0, q1, [x11, #-16]
	add	x11, x11, #32
	b.ne	.Ldcsctp_BB21_87
	cmp	x2, x8
	b.eq	.Ldcsctp_BB21_8
	cbz	x9, .Ldcsctp_BB21_6
.Ldcsctp_BB21_90:
	mov	x10, x8
	and	x8, x2, #0xfffffffffffffff8
	add	x11, x10, x5
	sub	x9, x10, x8
	add	x10, x1, x10
	add	x11, x11, #16
.Ldcsctp_BB21_91:
	ldr	d0, [x10], #8
	adds	x9, x9, #8
	str	d0, [x11], #8
	b.ne	.Ldcsctp_BB21_91
	cmp	x2, x8
	b.eq	.Ldcsctp_BB21_8
	b	.Ldcsctp_BB21_6
.Ldcsctp_BB21_93:
	and	x9, x2, #0x18
	and	x8, x2, #0xffffffffffffffe0
	add	x10, x1, #16
	add	x11, x5, #20
	and	x12, x2, #0xffffffffffffffe0
.Ldcsctp_BB21_94:
	ldp	q0, q1, [x10, #-16]
	subs	x12, x12, #32
	add	x10, x10, #32
	stp	q0, q1, [x11, #-16]
	add	x11, x11, #32
	b.ne	.Ldcsctp_BB21_94
	cmp	x2, x8
	b.eq	.Ldcsctp_BB21_8
	cbz	x9, .Ldcsctp_BB21_46
.Ldcsctp_BB21_97:
	mov	x10, x8
	and	x8, x2, #0xfffffffffffffff8
	add	x11, x10, x5
	sub	x9, x10, x8
	add	x10, x1, x10
	add	x11, x11, #4
.Ldcsctp_BB21_98:
	ldr	d0, [x10], #8
	adds	x9, x9, #8
	str	d0, [x11], #8
	b.ne	.Ldcsctp_BB21_98
	cmp	x2, x8
	b.eq	.Ldcsctp_BB21_8
	b	.Ldcsctp_BB21_46
.Ldcsctp_BB21_100:
	and	x9, x2, #0x18
	and	x8, x2, #0xffffffffffffffe0
	add	x10, x1, #16
	add	x11, x5, #36
	and	x12, x2, #0xffffffffffffffe0
.Ldcsctp_BB21_101:
	ldp	q0, q1, [x10, #-16]
	subs	x12, x12, #32
	add	x10, x10, #32
	stp	q0, q1, [x11, #-16]
	add	x11, x11, #32
	b.ne	.Ldcsctp_BB21_101
	cmp	x2, x8
	b.eq	.Ldcsctp_BB21_8
	cbz	x9, .Ldcsctp_BB21_53
.Ldcsctp_BB21_104:
	mov	x10, x8
	and	x8, x2, #0xfffffffffffffff8
	add	x11, x10, x5
	sub	x9, x10, x8
	add	x10, x1, x10
	add	x11, x11, #20
.Ldcsctp_BB21_105:
	ldr	d0, [x10], #8
	adds	x9, x9, #8
	str	d0, [x11], #8
	b.ne	.Ldcsctp_BB21_105
	cmp	x2, x8
	b.eq	.Ldcsctp_BB21_8
	b	.Ldcsctp_BB21_53
.Ldcsctp_BB21_107:
	and	x9, x2, #0x18
	and	x8, x2, #0xffffffffffffffe0
	add	x10, x1, #16
	add	x11, x5, #20
	and	x12, x2, #0xffffffffffffffe0
.Ldcsctp_BB21_108:
	ldp	q0, q1, [x10, #-16]
	subs	x12, x12, #32
	add	x10, x10, #32
	stp	q0, q1, [x11, #-16]
	add	x11, x11, #32
	b.ne	.Ldcsctp_BB21_108
	cmp	x2, x8
	b.eq	.Ldcsctp_BB21_8
	cbz	x9, .Ldcsctp_BB21_60
.Ldcsctp_BB21_111:
	mov	x10, x8
	and	x8, x2, #0xfffffffffffffff8
	add	x11, x10, x5
	sub	x9, x10, x8
	add	x10, x1, x10
	add	x11, x11, #4
.Ldcsctp_BB21_112:
	ldr	d0, [x10], #8
	adds	x9, x9, #8
	str	d0, [x11], #8
	b.ne	.Ldcsctp_BB21_112
	cmp	x2, x8
	b.eq	.Ldcsctp_BB21_8
	b	.Ldcsctp_BB21_60
.Ldcsctp_BB21_114:
	and	x11, x8, #0xc
	and	x10, x8, #0x7ffffffffffffff0
	add	x12, x9, #32
	add	x13, x5, #48
	and	x14, x8, #0x7ffffffffffffff0
.Ldcsctp_BB21_115:
	ldp	q1, q0, [x12, #-32]
	subs	x14, x14, #16
	rev16	v0.16b, v0.16b
	rev16	v1.16b, v1.16b
	stp	q1, q0, [x13, #-32]
	ldp	q1, q0, [x12], #64
	rev16	v0.16b, v0.16b
	rev16	v1.16b, v1.16b
	stp	q1, q0, [x13], #64
	b.ne	.Ldcsctp_BB21_115
	cmp	x8, x10
	b.eq	.Ldcsctp_BB21_38
	cbz	x11, .Ldcsctp_BB21_121
.Ldcsctp_BB21_118:
	mov	x13, x10
	and	x10, x8, #0x7ffffffffffffffc
	lsl	x14, x13, #2
	lsl	x11, x10, #2
	sub	x13, x13, x10
	add	x12, x14, x5
	add	x11, x11, #16
	add	x14, x9, x14
	add	x12, x12, #16
.Ldcsctp_BB21_119:
	ldr	q0, [x14], #16
	adds	x13, x13, #4
	rev16	v0.16b, v0.16b
	str	q0, [x12], #16
	b.ne	.Ldcsctp_BB21_119
	cmp	x8, x10
	b.ne	.Ldcsctp_BB21_36
	b	.Ldcsctp_BB21_38
.Ldcsctp_BB21_121:
	lsl	x11, x10, #2
	orr	x11, x11, #0x10
	b	.Ldcsctp_BB21_36
.Ldcsctp_BB21_122:
	brk	#0x1
.Ldcsctp_func_end21:
	.size	dcsctp_wire.packet.chunk.ChunkSerializableTlv.serialize_to, .Ldcsctp_func_end21-dcsctp_wire.packet.chunk.ChunkSerializableTlv.serialize_to
	.cfi_endproc
	.section	.rodata.dcsctp_wire.packet.chunk.ChunkSerializableTlv.serialize_to,"a",@progbits
	.p2align	1, 0x0
.Ldcsctp_JTI21_0:
	.hword	(.Ldcsctp_BB21_2-.Ldcsctp_BB21_2)>>2
	.hword	(.Ldcsctp_BB21_40-.Ldcsctp_BB21_2)>>2
	.hword	(.Ldcsctp_BB21_19-.Ldcsctp_BB21_2)>>2
	.hword	(.Ldcsctp_BB21_25-.Ldcsctp_BB21_2)>>2
	.hword	(.Ldcsctp_BB21_16-.Ldcsctp_BB21_2)>>2
	.hword	(.Ldcsctp_BB21_48-.Ldcsctp_BB21_2)>>2
	.hword	(.Ldcsctp_BB21_55-.Ldcsctp_BB21_2)>>2
	.hword	(.Ldcsctp_BB21_39-.Ldcsctp_BB21_2)>>2
	.hword	(.Ldcsctp_BB21_62-.Ldcsctp_BB21_2)>>2
	.hword	(.Ldcsctp_BB21_18-.Ldcsctp_BB21_2)>>2
	.hword	(.Ldcsctp_BB21_56-.Ldcsctp_BB21_2)>>2
	.hword	(.Ldcsctp_BB21_15-.Ldcsctp_BB21_2)>>2
	.hword	(.Ldcsctp_BB21_17-.Ldcsctp_BB21_2)>>2
	.hword	(.Ldcsctp_BB21_49-.Ldcsctp_BB21_2)>>2
	.hword	(.Ldcsctp_BB21_14-.Ldcsctp_BB21_2)>>2
	.hword	(.Ldcsctp_BB21_20-.Ldcsctp_BB21_2)>>2
	.hword	(.Ldcsctp_BB21_9-.Ldcsctp_BB21_2)>>2
	.hword	(.Ldcsctp_BB21_42-.Ldcsctp_BB21_2)>>2
	.section	.text.dcsctp_tlv.list.put_listed.cada439fb2c2aae5,"ax",@progbits
	.p2align	2
	.type	dcsctp_tlv.list.put_listed.cada439fb2c2aae5,@function
dcsctp_tlv.list.put_listed.cada439fb2c2aae5:
	.cfi_startproc
	hint	#25
	.cfi_negate_ra_state
	sub	sp, sp, #144
	.cfi_def_cfa_offset 144
	stp	x29, x30, [sp, #48]
	stp	x28, x27, [sp, #64]
	stp	x26, x25, [sp, #80]
	stp	x24, x23, [sp, #96]
	stp	x22, x21, [sp, #112]
	stp	x20, x19, [sp, #128]
	add	x29, sp, #48
	.cfi_def_cfa w29, 96
	.cfi_offset w19, -8
	.cfi_offset w20, -16
	.cfi_offset w21, -24
	.cfi_offset w22, -32
	.cfi_offset w23, -40
	.cfi_offset w24, -48
	.cfi_offset w25, -56
	.cfi_offset w26, -64
	.cfi_offset w27, -72
	.cfi_offset w28, -80
	.cfi_offset w30, -88
	.cfi_offset w29, -96
	.cfi_remember_state
	add	x21, x5, #4
	mov	x19, x5
	mov	x22, x4
	sub	x8, x21, x1
	mov	x23, x3
	mov	x20, x2
	cmp	x8, x2
	stur	w0, [x29, #-4]
	b.hs	.Ldcsctp_BB22_6
	cmp	x20, #4
	b.lo	.Ldcsctp_BB22_3
	sub	x8, x19, x1
	add	x8, x8, #4
	cmp	x8, #16
	b.hs	.Ldcsctp_BB22_117
.Ldcsctp_BB22_3:
	mov	x8, xzr
.Ldcsctp_BB22_4:
	add	x10, x8, x19
	sub	x9, x20, x8
	add	x8, x1, x8
	add	x10, x10, #4
.Ldcsctp_BB22_5:
	ldrb	w11, [x8], #1
	subs	x9, x9, #1
	strb	w11, [x10], #1
	b.ne	.Ldcsctp_BB22_5
	b	.Ldcsctp_BB22_7
.Ldcsctp_BB22_6:
	add	x0, x19, #4
	mov	x2, x20
	bl	memmove
.Ldcsctp_BB22_7:
	mov	x8, xzr
	cbz	x22, .Ldcsctp_BB22_116
	add	x9, x20, x19
	mov	x24, xzr
	add	x25, x21, x20
	add	x10, x9, #20
	add	x28, x9, #8
	add	x26, x9, #4
	stur	x10, [x29, #-16]
	add	x10, x9, #12
	str	x10, [sp, #24]
	add	x10, x9, #24
	str	x10, [sp, #16]
	add	x10, x9, #28
	add	x9, x9, #36
	stp	x9, x10, [sp]
	b	.Ldcsctp_BB22_11
.Ldcsctp_BB22_9:
	add	x0, x21, #4
	bl	memmove
.Ldcsctp_BB22_10:
	ldrh	w8, [x21, #2]
	add	x24, x24, #1
	cmp	x24, x22
	rev16	w8, w8
	add	x8, x8, x27
	b.eq	.Ldcsctp_BB22_116
.Ldcsctp_BB22_11:
	mov	w9, #48
	madd	x10, x24, x9, x23
	ldrb	w9, [x10]
	cmp	w9, #11
	b.hi	.Ldcsctp_BB22_124
	add	x8, x8, #3
	and	x27, x8, #0xfffffffffffffffc
	adrp	x8, .Ldcsctp_JTI22_0
	add	x8, x8, :lo12:.Ldcsctp_JTI22_0
	adr	x11, .Ldcsctp_BB22_13
	ldrb	w12, [x8, x9]
	add	x11, x11, x12, lsl #2
	add	x21, x25, x27
	br	x11
.Ldcsctp_BB22_13:
	hint	#36
	ldp	x1, x2, [x10, #8]
	add	x9, x21, #4
	mov	w10, #256
	strh	w10, [x21]
	add	w8, w2, #4
	sub	x9, x9, x1
	rev	w8, w8
	cmp	x9, x2
	lsr	w8, w8, #16
	strh	w8, [x21, #2]
	b.hs	.Ldcsctp_BB22_9
	cmp	x2, #8
	b.lo	.Ldcsctp_BB22_16
	add	x8, x28, x27
	sub	x8, x8, x1
	cmp	x8, #32
	b.hs	.Ldcsctp_BB22_68
.Ldcsctp_BB22_16:
	mov	x8, xzr
.Ldcsctp_BB22_17:
	add	x10, x8, x27
	sub	x9, x2, x8
	add	x8, x1, x8
	add	x10, x28, x10
.Ldcsctp_BB22_18:
	ldrb	w11, [x8], #1
	subs	x9, x9, #1
	strb	w11, [x10], #1
	b.ne	.Ldcsctp_BB22_18
	b	.Ldcsctp_BB22_10
.Ldcsctp_BB22_19:
	hint	#36
	ldp	x1, x2, [x10, #16]
	add	x11, x21, #4
	ldrh	w8, [x10, #8]
	lsr	w9, w8, #8
	add	w10, w2, #4
	strb	w8, [x21, #1]
	rev	w10, w10
	strb	w9, [x21]
	lsr	w9, w10, #16
	sub	x10, x11, x1
	cmp	x10, x2
	strh	w9, [x21, #2]
	b.hs	.Ldcsctp_BB22_9
	cmp	x2, #8
	b.lo	.Ldcsctp_BB22_22
	add	x8, x28, x27
	sub	x8, x8, x1
	cmp	x8, #32
	b.hs	.Ldcsctp_BB22_64
.Ldcsctp_BB22_22:
	mov	x8, xzr
.Ldcsctp_BB22_23:
	add	x10, x8, x27
	sub	x9, x2, x8
	add	x8, x1, x8
	add	x10, x28, x10
.Ldcsctp_BB22_24:
	ldrb	w11, [x8], #1
	subs	x9, x9, #1
	strb	w11, [x10], #1
	b.ne	.Ldcsctp_BB22_24
	b	.Ldcsctp_BB22_10
.Ldcsctp_BB22_25:
	hint	#36
	ldr	w8, [x10, #4]
	mov	w9, #3840
	b	.Ldcsctp_BB22_58
.Ldcsctp_BB22_26:
	hint	#36
	ldp	x1, x2, [x10, #8]
	add	x9, x21, #4
	mov	w10, #2176
	strh	w10, [x21]
	add	w8, w2, #4
	sub	x9, x9, x1
	rev	w8, w8
	cmp	x9, x2
	lsr	w8, w8, #16
	strh	w8, [x21, #2]
	b.hs	.Ldcsctp_BB22_9
	cmp	x2, #8
	b.lo	.Ldcsctp_BB22_29
	add	x8, x28, x27
	sub	x8, x8, x1
	cmp	x8, #32
	b.hs	.Ldcsctp_BB22_66
.Ldcsctp_BB22_29:
	mov	x8, xzr
.Ldcsctp_BB22_30:
	add	x10, x8, x27
	sub	x9, x2, x8
	add	x8, x1, x8
	add	x10, x28, x10
.Ldcsctp_BB22_31:
	ldrb	w11, [x8], #1
	subs	x9, x9, #1
	strb	w11, [x10], #1
	b.ne	.Ldcsctp_BB22_31
	b	.Ldcsctp_BB22_10
.Ldcsctp_BB22_32:
	hint	#36
	ldr	x8, [x10, #32]
	ldr	d0, [x10, #8]
	mov	w12, #3328
	lsl	w9, w8, #1
	rev32	v0.8b, v0.8b
	add	w11, w9, #16
	ldr	x9, [x10, #24]
	ldr	w10, [x10, #16]
	rev	w11, w11
	strh	w12, [x21]
	lsr	w11, w11, #16
	rev	w10, w10
	stur	d0, [x21, #4]
	str	w10, [x21, #12]
	strh	w11, [x21, #2]
	cbz	x8, .Ldcsctp_BB22_10
	cmp	x8, #4
	b.lo	.Ldcsctp_BB22_35
	ldur	x10, [x29, #-16]
	add	x10, x10, x27
	sub	x10, x10, x9
	cmp	x10, #32
	b.hs	.Ldcsctp_BB22_60
.Ldcsctp_BB22_35:
	mov	x10, xzr
	mov	w11, #16
.Ldcsctp_BB22_36:
	add	x11, x11, x27
	add	x9, x9, x10, lsl #1
	sub	x8, x8, x10
	add	x11, x26, x11
.Ldcsctp_BB22_37:
	ldrh	w10, [x9], #2
	subs	x8, x8, #1
	rev	w10, w10
	lsr	w10, w10, #16
	strh	w10, [x11], #2
	b.ne	.Ldcsctp_BB22_37
	b	.Ldcsctp_BB22_10
.Ldcsctp_BB22_38:
	hint	#36
	ldr	x8, [x10, #24]
	ldr	w11, [x10, #8]
	mov	w12, #3584
	lsl	w9, w8, #1
	add	w9, w9, #8
	rev	w9, w9
	lsr	w13, w9, #16
	ldr	x9, [x10, #16]
	rev	w10, w11
	strh	w12, [x21]
	strh	w13, [x21, #2]
	str	w10, [x21, #4]
	cbz	x8, .Ldcsctp_BB22_10
	cmp	x8, #4
	b.lo	.Ldcsctp_BB22_41
	ldr	x10, [sp, #24]
	add	x10, x10, x27
	sub	x10, x10, x9
	cmp	x10, #32
	b.hs	.Ldcsctp_BB22_62
.Ldcsctp_BB22_41:
	mov	x10, xzr
	mov	w11, #8
.Ldcsctp_BB22_42:
	add	x11, x11, x27
	add	x9, x9, x10, lsl #1
	sub	x8, x8, x10
	add	x11, x26, x11
.Ldcsctp_BB22_43:
	ldrh	w10, [x9], #2
	subs	x8, x8, #1
	rev	w10, w10
	lsr	w10, w10, #16
	strh	w10, [x11], #2
	b.ne	.Ldcsctp_BB22_43
	b	.Ldcsctp_BB22_10
.Ldcsctp_BB22_44:
	hint	#36
	ldrh	w8, [x10, #8]
	ldr	w9, [x10, #4]
	rev	w8, w8
	rev	w9, w9
	lsr	w8, w8, #16
	orr	x8, x9, x8, lsl #32
	mov	w9, #4608
	b	.Ldcsctp_BB22_55
.Ldcsctp_BB22_45:
	hint	#36
	ldp	x1, x2, [x10, #8]
	add	x9, x21, #4
	mov	w10, #1792
	strh	w10, [x21]
	add	w8, w2, #4
	sub	x9, x9, x1
	rev	w8, w8
	cmp	x9, x2
	lsr	w8, w8, #16
	strh	w8, [x21, #2]
	b.hs	.Ldcsctp_BB22_9
	cmp	x2, #8
	b.lo	.Ldcsctp_BB22_48
	add	x8, x28, x27
	sub	x8, x8, x1
	cmp	x8, #32
	b.hs	.Ldcsctp_BB22_70
.Ldcsctp_BB22_48:
	mov	x8, xzr
.Ldcsctp_BB22_49:
	add	x10, x8, x27
	sub	x9, x2, x8
	add	x8, x1, x8
	add	x10, x28, x10
.Ldcsctp_BB22_50:
	ldrb	w11, [x8], #1
	subs	x9, x9, #1
	strb	w11, [x10], #1
	b.ne	.Ldcsctp_BB22_50
	b	.Ldcsctp_BB22_10
.Ldcsctp_BB22_51:
	hint	#36
	ldrb	w11, [x10, #12]
	ldr	w9, [x10, #4]
	ldrb	w8, [x10, #8]
	cmp	w11, #1
	b.ne	.Ldcsctp_BB22_59
	ldrb	w11, [x10, #20]
	cmp	w11, #1
	b.ne	.Ldcsctp_BB22_59
	ldr	w11, [x10, #16]
	mov	w12, #4096
	ldr	w10, [x10, #24]
	movk	w12, #5120, lsl #16
	rev	w9, w9
	lsl	w8, w8, #24
	stp	w12, w9, [x21]
	rev	w9, w11
	stp	w8, w9, [x21, #8]
	rev	w8, w10
	str	w8, [x21, #16]
	b	.Ldcsctp_BB22_10
.Ldcsctp_BB22_54:
	hint	#36
	ldrh	w8, [x10, #8]
	ldr	w9, [x10, #4]
	rev	w8, w8
	rev	w9, w9
	lsr	w8, w8, #16
	orr	x8, x9, x8, lsl #32
	mov	w9, #4352
.Ldcsctp_BB22_55:
	movk	w9, #3072, lsl #16
	str	w9, [x21]
	stur	x8, [x21, #4]
	b	.Ldcsctp_BB22_10
.Ldcsctp_BB22_56:
	hint	#36
	mov	w8, #192
	movk	w8, #1024, lsl #16
	str	w8, [x21]
	b	.Ldcsctp_BB22_10
.Ldcsctp_BB22_57:
	hint	#36
	ldr	w8, [x10, #4]
	mov	w9, #384
.Ldcsctp_BB22_58:
	movk	w9, #2048, lsl #16
	rev	w8, w8
	stp	w9, w8, [x21]
	b	.Ldcsctp_BB22_10
.Ldcsctp_BB22_59:
	mov	w10, #4096
	lsl	w8, w8, #24
	rev	w9, w9
	movk	w10, #3072, lsl #16
	stp	w10, w9, [x21]
	str	w8, [x21, #8]
	b	.Ldcsctp_BB22_10
.Ldcsctp_BB22_60:
	cmp	x8, #16
	b.hs	.Ldcsctp_BB22_72
	mov	x10, xzr
	b	.Ldcsctp_BB22_76
.Ldcsctp_BB22_62:
	cmp	x8, #16
	b.hs	.Ldcsctp_BB22_79
	mov	x10, xzr
	b	.Ldcsctp_BB22_83
.Ldcsctp_BB22_64:
	cmp	x2, #32
	b.hs	.Ldcsctp_BB22_86
	mov	x8, xzr
	b	.Ldcsctp_BB22_90
.Ldcsctp_BB22_66:
	cmp	x2, #32
	b.hs	.Ldcsctp_BB22_93
	mov	x8, xzr
	b	.Ldcsctp_BB22_97
.Ldcsctp_BB22_68:
	cmp	x2, #32
	b.hs	.Ldcsctp_BB22_100
	mov	x8, xzr
	b	.Ldcsctp_BB22_104
.Ldcsctp_BB22_70:
	cmp	x2, #32
	b.hs	.Ldcsctp_BB22_107
	mov	x8, xzr
	b	.Ldcsctp_BB22_111
.Ldcsctp_BB22_72:
	ldr	x12, [sp]
	and	x11, x8, #0xc
	and	x10, x8, #0xfffffffffffffff0
	add	x13, x9, #16
	and	x14, x8, #0xfffffffffffffff0
	add	x12, x12, x27
.Ldcsctp_BB22_73:
	ldp	q0, q1, [x13, #-16]
	subs	x14, x14, #16
	add	x13, x13, #32
	rev16	v0.16b, v0.16b
	rev16	v1.16b, v1.16b
	stp	q0, q1, [x12, #-16]
	add	x12, x12, #32
	b.ne	.Ldcsctp_BB22_73
	cmp	x8, x10
	b.eq	.Ldcsctp_BB22_10
	cbz	x11, .Ldcsctp_BB22_114
.Ldcsctp_BB22_76:
	mov	x13, x10
	and	x10, x8, #0xfffffffffffffffc
	ldur	x12, [x29, #-16]
	lsl	x11, x10, #1
	lsl	x14, x13, #1
	sub	x13, x13, x10
	add	x12, x12, x27
	add	x11, x11, #16
	add	x12, x12, x14
	add	x14, x9, x14
.Ldcsctp_BB22_77:
	ldr	d0, [x14], #8
	adds	x13, x13, #4
	rev16	v0.8b, v0.8b
	str	d0, [x12], #8
	b.ne	.Ldcsctp_BB22_77
	cmp	x8, x10
	b.eq	.Ldcsctp_BB22_10
	b	.Ldcsctp_BB22_36
.Ldcsctp_BB22_79:
	ldr	x12, [sp, #8]
	and	x11, x8, #0xc
	and	x10, x8, #0xfffffffffffffff0
	add	x13, x9, #16
	and	x14, x8, #0xfffffffffffffff0
	add	x12, x12, x27
.Ldcsctp_BB22_80:
	ldp	q0, q1, [x13, #-16]
	subs	x14, x14, #16
	add	x13, x13, #32
	rev16	v0.16b, v0.16b
	rev16	v1.16b, v1.16b
	stp	q0, q1, [x12, #-16]
	add	x12, x12, #32
	b.ne	.Ldcsctp_BB22_80
	cmp	x8, x10
	b.eq	.Ldcsctp_BB22_10
	cbz	x11, .Ldcsctp_BB22_115
.Ldcsctp_BB22_83:
	mov	x13, x10
	and	x10, x8, #0xfffffffffffffffc
	ldr	x12, [sp, #24]
	lsl	x11, x10, #1
	lsl	x14, x13, #1
	sub	x13, x13, x10
	add	x12, x12, x27
	add	x11, x11, #8
	add	x12, x12, x14
	add	x14, x9, x14
.Ldcsctp_BB22_84:
	ldr	d0, [x14], #8
	adds	x13, x13, #4
	rev16	v0.8b, v0.8b
	str	d0, [x12], #8
	b.ne	.Ldcsctp_BB22_84
	cmp	x8, x10
	b.eq	.Ldcsctp_BB22_10
	b	.Ldcsctp_BB22_42
.Ldcsctp_BB22_86:
	ldr	x11, [sp, #16]
	and	x9, x2, #0x18
	and	x8, x2, #0xffffffffffffffe0
	add	x10, x1, #16
	and	x12, x2, #0xffffffffffffffe0
	add	x11, x11, x27
.Ldcsctp_BB22_87:
	ldp	q0, q1, [x10, #-16]
	subs	x12, x12, #32
	add	x10, x10, #32
	stp	q0, q1, [x11, #-16]
	add	x11, x11, #32
	b.ne	.Ldcsctp_BB22_87
	cmp	x2, x8
	b.eq	.Ldcsctp_BB22_10
	cbz	x9, .Ldcsctp_BB22_23
.Ldcsctp_BB22_90:
	mov	x10, x8
	and	x8, x2, #0xfffffffffffffff8
	add	x11, x10, x27
	sub	x9, x10, x8
	add	x10, x1, x10
	add	x11, x28, x11
.Ldcsctp_BB22_91:
	ldr	d0, [x10], #8
	adds	x9, x9, #8
	str	d0, [x11], #8
	b.ne	.Ldcsctp_BB22_91
	cmp	x2, x8
	b.eq	.Ldcsctp_BB22_10
	b	.Ldcsctp_BB22_23
.Ldcsctp_BB22_93:
	ldr	x11, [sp, #16]
	and	x9, x2, #0x18
	and	x8, x2, #0xffffffffffffffe0
	add	x10, x1, #16
	and	x12, x2, #0xffffffffffffffe0
	add	x11, x11, x27
.Ldcsctp_BB22_94:
	ldp	q0, q1, [x10, #-16]
	subs	x12, x12, #32
	add	x10, x10, #32
	stp	q0, q1, [x11, #-16]
	add	x11, x11, #32
	b.ne	.Ldcsctp_BB22_94
	cmp	x2, x8
	b.eq	.Ldcsctp_BB22_10
	cbz	x9, .Ldcsctp_BB22_30
.Ldcsctp_BB22_97:
	mov	x10, x8
	and	x8, x2, #0xfffffffffffffff8
	add	x11, x10, x27
	sub	x9, x10, x8
	add	x10, x1, x10
	add	x11, x28, x11
.Ldcsctp_BB22_98:
	ldr	d0, [x10], #8
	adds	x9, x9, #8
	str	d0, [x11], #8
	b.ne	.Ldcsctp_BB22_98
	cmp	x2, x8
	b.eq	.Ldcsctp_BB22_10
	b	.Ldcsctp_BB22_30
.Ldcsctp_BB22_100:
	ldr	x11, [sp, #16]
	and	x9, x2, #0x18
	and	x8, x2, #0xffffffffffffffe0
	add	x10, x1, #16
	and	x12, x2, #0xffffffffffffffe0
	add	x11, x11, x27
.Ldcsctp_BB22_101:
	ldp	q0, q1, [x10, #-16]
	subs	x12, x12, #32
	add	x10, x10, #32
	stp	q0, q1, [x11, #-16]
	add	x11, x11, #32
	b.ne	.Ldcsctp_BB22_101
	cmp	x2, x8
	b.eq	.Ldcsctp_BB22_10
	cbz	x9, .Ldcsctp_BB22_17
.Ldcsctp_BB22_104:
	mov	x10, x8
	and	x8, x2, #0xfffffffffffffff8
	add	x11, x10, x27
	sub	x9, x10, x8
	add	x10, x1, x10
	add	x11, x28, x11
.Ldcsctp_BB22_105:
	ldr	d0, [x10], #8
	adds	x9, x9, #8
	str	d0, [x11], #8
	b.ne	.Ldcsctp_BB22_105
	cmp	x2, x8
	b.eq	.Ldcsctp_BB22_10
	b	.Ldcsctp_BB22_17
.Ldcsctp_BB22_107:
	ldr	x11, [sp, #16]
	and	x9, x2, #0x18
	and	x8, x2, #0xffffffffffffffe0
	add	x10, x1, #16
	and	x12, x2, #0xffffffffffffffe0
	add	x11, x11, x27
.Ldcsctp_BB22_108:
	ldp	q0, q1, [x10, #-16]
	subs	x12, x12, #32
	add	x10, x10, #32
	stp	q0, q1, [x11, #-16]
	add	x11, x11, #32
	b.ne	.Ldcsctp_BB22_108
	cmp	x2, x8
	b.eq	.Ldcsctp_BB22_10
	cbz	x9, .Ldcsctp_BB22_49
.Ldcsctp_BB22_111:
	mov	x10, x8
	and	x8, x2, #0xfffffffffffffff8
	add	x11, x10, x27
	sub	x9, x10, x8
	add	x10, x1, x10
	add	x11, x28, x11
.Ldcsctp_BB22_112:
	ldr	d0, [x10], #8
	adds	x9, x9, #8
	str	d0, [x11], #8
	b.ne	.Ldcsctp_BB22_112
	cmp	x2, x8
	b.eq	.Ldcsctp_BB22_10
	b	.Ldcsctp_BB22_49
.Ldcsctp_BB22_114:
	lsl	x11, x10, #1
	orr	x11, x11, #0x10
	b	.Ldcsctp_BB22_36
.Ldcsctp_BB22_115:
	lsl	x11, x10, #1
	orr	x11, x11, #0x8
	b	.Ldcsctp_BB22_42
.Ldcsctp_BB22_116:
	add	w8, w8, w20
	ldur	w9, [x29, #-4]
	strb	wzr, [x19, #1]
	add	w8, w8, #4
	rev	w8, w8
	strb	w9, [x19]
	lsr	w8, w8, #16
	strh	w8, [x19, #2]
	.cfi_def_cfa wsp, 144
	ldp	x20, x19, [sp, #128]
	ldp	x22, x21, [sp, #112]
	ldp	x24, x23, [sp, #96]
	ldp	x26, x25, [sp, #80]
	ldp	x28, x27, [sp, #64]
	ldp	x29, x30, [sp, #48]
	add	sp, sp, #144
	.cfi_def_cfa_offset 0
	.cfi_restore w19
	.cfi_restore w20
	.cfi_restore w21
	.cfi_restore w22
	.cfi_restore w23
	.cfi_restore w24
	.cfi_restore w25
	.cfi_restore w26
	.cfi_restore w27
	.cfi_restore w28
	.cfi_restore w30
	.cfi_restore w29
	hint	#29
	.cfi_negate_ra_state
	ret
.Ldcsctp_BB22_117:
	.cfi_restore_state
	cmp	x20, #16
	b.hs	.Ldcsctp_BB22_119
	mov	x8, xzr
	b	.Ldcsctp_BB22_121
.Ldcsctp_BB22_119:
	and	x8, x20, #0x10
	ldr	q0, [x1]
	cmp	x20, x8
	str	q0, [x21]
	b.eq	.Ldcsctp_BB22_7
	tst	x20, #0xc
	b.eq	.Ldcsctp_BB22_4
.Ldcsctp_BB22_121:
	mov	x10, x8
	and	x8, x20, #0x1c
	add	x11, x10, x19
	sub	x9, x10, x8
	add	x10, x1, x10
	add	x11, x11, #4
.Ldcsctp_BB22_122:
	ldr	w12, [x10], #4
	adds	x9, x9, #4
	str	w12, [x11], #4
	b.ne	.Ldcsctp_BB22_122
	cmp	x20, x8
	b.eq	.Ldcsctp_BB22_7
	b	.Ldcsctp_BB22_4
.Ldcsctp_BB22_124:
	brk	#0x1
.Ldcsctp_func_end22:
	.size	dcsctp_tlv.list.put_listed.cada439fb2c2aae5, .Ldcsctp_func_end22-dcsctp_tlv.list.put_listed.cada439fb2c2aae5
	.cfi_endproc
	.section	.rodata.dcsctp_tlv.list.put_listed.cada439fb2c2aae5,"a",@progbits
.Ldcsctp_JTI22_0:
	.byte	(.Ldcsctp_BB22_13-.Ldcsctp_BB22_13)>>2
	.byte	(.Ldcsctp_BB22_45-.Ldcsctp_BB22_13)>>2
	.byte	(.Ldcsctp_BB22_32-.Ldcsctp_BB22_13)>>2
	.byte	(.Ldcsctp_BB22_38-.Ldcsctp_BB22_13)>>2
	.byte	(.Ldcsctp_BB22_25-.Ldcsctp_BB22_13)>>2
	.byte	(.Ldcsctp_BB22_51-.Ldcsctp_BB22_13)>>2
	.byte	(.Ldcsctp_BB22_54-.Ldcsctp_BB22_13)>>2
	.byte	(.Ldcsctp_BB22_44-.Ldcsctp_BB22_13)>>2
	.byte	(.Ldcsctp_BB22_57-.Ldcsctp_BB22_13)>>2
	.byte	(.Ldcsctp_BB22_26-.Ldcsctp_BB22_13)>>2
	.byte	(.Ldcsctp_BB22_56-.Ldcsctp_BB22_13)>>2
	.byte	(.Ldcsctp_BB22_19-.Ldcsctp_BB22_13)>>2
	.section	.text.dcsctp_tlv.list.put_listed.f123a6a91b68d363,"ax",@progbits
	.p2align	2
	.type	dcsctp_tlv.list.put_listed.f123a6a91b68d363,@function
dcsctp_tlv.list.put_listed.f123a6a91b68d363:
	.cfi_startproc
	hint	#25
	.cfi_negate_ra_state
	sub	sp, sp, #112
	.cfi_def_cfa_offset 112
	stp	x29, x30, [sp, #16]
	stp	x28, x27, [sp, #32]
	stp	x26, x25, [sp, #48]
	stp	x24, x23, [sp, #64]
	stp	x22, x21, [sp, #80]
	stp	x20, x19, [sp, #96]
	add	x29, sp, #16
	.cfi_def_cfa w29, 96
	.cfi_offset w19, -8
	.cfi_offset w20, -16
	.cfi_offset w21, -24
	.cfi_offset w22, -32
	.cfi_offset w23, -40
	.cfi_offset w24, -48
	.cfi_offset w25, -56
	.cfi_offset w26, -64
	.cfi_offset w27, -72
	.cfi_offset w28, -80
	.cfi_offset w30, -88
	.cfi_offset w29, -96
	mov	x19, x4
	mov	w21, w0
	cbz	x3, .Ldcsctp_BB23_91
	mov	x22, x3
	mov	x23, x2
	mov	x8, xzr
	mov	x24, xzr
	add	x25, x19, #4
	add	x27, x19, #8
	stur	w1, [x29, #-4]
	b	.Ldcsctp_BB23_4
.Ldcsctp_BB23_2:
	bl	memmove
.Ldcsctp_BB23_3:
	add	x8, x28, x20
	add	x24, x24, #1
	add	x8, x8, x26, lsl #8
	cmp	x24, x22
	b.eq	.Ldcsctp_BB23_90
.Ldcsctp_BB23_4:
	mov	w9, #40
	add	x8, x8, #3
	madd	x10, x24, x9, x23
	and	x28, x8, #0xfffffffffffffffc
	add	x8, x25, x28
	ldrb	w9, [x10]
	cmp	w9, #2
	b.le	.Ldcsctp_BB23_8
	cmp	w9, #4
	b.gt	.Ldcsctp_BB23_16
	cmp	w9, #3
	b.ne	.Ldcsctp_BB23_31
	mov	w9, #2560
	mov	x26, xzr
	mov	w20, #4
	movk	w9, #1024, lsl #16
	str	w9, [x8]
	b	.Ldcsctp_BB23_3
.Ldcsctp_BB23_8:
	cbz	w9, .Ldcsctp_BB23_23
	cmp	w9, #1
	b.ne	.Ldcsctp_BB23_30
	ldp	x1, x2, [x10, #8]
	mov	w10, #1536
	add	x0, x8, #4
	strh	w10, [x8]
	add	w9, w2, #4
	sub	x12, x0, x1
	rev	w11, w9
	rev16	x9, x9
	cmp	x12, x2
	lsr	w10, w11, #16
	lsr	w20, w11, #24
	and	x26, x9, #0xff
	strh	w10, [x8, #2]
	b.hs	.Ldcsctp_BB23_2
	cmp	x2, #8
	b.lo	.Ldcsctp_BB23_13
	add	x8, x27, x28
	sub	x8, x8, x1
	cmp	x8, #32
	b.hs	.Ldcsctp_BB23_46
.Ldcsctp_BB23_13:
	mov	x8, xzr
.Ldcsctp_BB23_14:
	add	x10, x8, x28
	sub	x9, x2, x8
	add	x8, x1, x8
	add	x10, x27, x10
.Ldcsctp_BB23_15:
	ldrb	w11, [x8], #1
	subs	x9, x9, #1
	strb	w11, [x10], #1
	b.ne	.Ldcsctp_BB23_15
	b	.Ldcsctp_BB23_3
.Ldcsctp_BB23_16:
	cmp	w9, #5
	b.ne	.Ldcsctp_BB23_37
	ldp	x1, x2, [x10, #8]
	mov	w10, #3328
	add	x0, x8, #4
	strh	w10, [x8]
	add	w9, w2, #4
	sub	x12, x0, x1
	rev	w11, w9
	rev16	x9, x9
	cmp	x12, x2
	lsr	w10, w11, #16
	lsr	w20, w11, #24
	and	x26, x9, #0xff
	strh	w10, [x8, #2]
	b.hs	.Ldcsctp_BB23_2
	cmp	x2, #8
	b.lo	.Ldcsctp_BB23_20
	add	x8, x27, x28
	sub	x8, x8, x1
	cmp	x8, #32
	b.hs	.Ldcsctp_BB23_48
.Ldcsctp_BB23_20:
	mov	x8, xzr
.Ldcsctp_BB23_21:
	add	x10, x8, x28
	sub	x9, x2, x8
	add	x8, x1, x8
	add	x10, x27, x10
.Ldcsctp_BB23_22:
	ldrb	w11, [x8], #1
	subs	x9, x9, #1
	strb	w11, [x10], #1
	b.ne	.Ldcsctp_BB23_22
	b	.Ldcsctp_BB23_3
.Ldcsctp_BB23_23:
	ldp	x10, x9, [x10, #8]
	mov	w13, #512
	strh	w13, [x8]
	lsl	w11, w9, #1
	rev	w13, w9
	str	w13, [x8, #4]
	add	w12, w11, #8
	rev	w11, w12
	lsr	w14, w11, #16
	strh	w14, [x8, #2]
	cbz	x9, .Ldcsctp_BB23_43
	cmp	x9, #4
	b.lo	.Ldcsctp_BB23_26
	add	x11, x19, #12
	add	x11, x11, x28
	sub	x11, x11, x10
	cmp	x11, #32
	b.hs	.Ldcsctp_BB23_44
.Ldcsctp_BB23_26:
	mov	x11, xzr
	mov	w12, #8
.Ldcsctp_BB23_27:
	add	x12, x12, x28
	add	x10, x10, x11, lsl #1
	sub	x9, x9, x11
	add	x12, x25, x12
.Ldcsctp_BB23_28:
	ldrh	w11, [x10], #2
	subs	x9, x9, #1
	rev	w11, w11
	lsr	w11, w11, #16
	strh	w11, [x12], #2
	b.ne	.Ldcsctp_BB23_28
.Ldcsctp_BB23_29:
	ldrb	w26, [x8, #2]
	ldrb	w20, [x8, #3]
	b	.Ldcsctp_BB23_3
.Ldcsctp_BB23_30:
	ldr	w9, [x10, #4]
	mov	w10, #2304
	mov	x26, xzr
	movk	w10, #2048, lsl #16
	mov	w20, #8
	rev	w9, w9
	stp	w10, w9, [x8]
	b	.Ldcsctp_BB23_3
.Ldcsctp_BB23_31:
	ldp	x1, x2, [x10, #8]
	mov	w10, #3072
	add	x0, x8, #4
	strh	w10, [x8]
	add	w9, w2, #4
	sub	x12, x0, x1
	rev	w11, w9
	rev16	x9, x9
	cmp	x12, x2
	lsr	w10, w11, #16
	lsr	w20, w11, #24
	and	x26, x9, #0xff
	strh	w10, [x8, #2]
	b.hs	.Ldcsctp_BB23_2
	cmp	x2, #8
	b.lo	.Ldcsctp_BB23_34
	add	x8, x27, x28
	sub	x8, x8, x1
	cmp	x8, #32
	b.hs	.Ldcsctp_BB23_50
.Ldcsctp_BB23_34:
	mov	x8, xzr
.Ldcsctp_BB23_35:
	add	x10, x8, x28
	sub	x9, x2, x8
	add	x8, x1, x8
	add	x10, x27, x10
.Ldcsctp_BB23_36:
	ldrb	w11, [x8], #1
	subs	x9, x9, #1
	strb	w11, [x10], #1
	b.ne	.Ldcsctp_BB23_36
	b	.Ldcsctp_BB23_3
.Ldcsctp_BB23_37:
	ldp	x1, x2, [x10, #16]
	add	x0, x8, #4
	ldrh	w9, [x10, #8]
	lsr	w11, w9, #8
	add	w10, w2, #4
	strb	w9, [x8, #1]
	rev	w12, w10
	rev16	x10, x10
	strb	w11, [x8]
	lsr	w9, w12, #16
	sub	x11, x0, x1
	lsr	w20, w12, #24
	cmp	x11, x2
	and	x26, x10, #0xff
	strh	w9, [x8, #2]
	b.hs	.Ldcsctp_BB23_2
	cmp	x2, #8
	b.lo	.Ldcsctp_BB23_40
	add	x8, x27, x28
	sub	x8, x8, x1
	cmp	x8, #32
	b.hs	.Ldcsctp_BB23_52
.Ldcsctp_BB23_40:
	mov	x8, xzr
.Ldcsctp_BB23_41:
	add	x10, x8, x28
	sub	x9, x2, x8
	add	x8, x1, x8
	add	x10, x27, x10
.Ldcsctp_BB23_42:
	ldrb	w11, [x8], #1
	subs	x9, x9, #1
	strb	w11, [x10], #1
	b.ne	.Ldcsctp_BB23_42
	b	.Ldcsctp_BB23_3
.Ldcsctp_BB23_43:
	rev16	x8, x12
	lsr	w20, w11, #24
	and	x26, x8, #0xff
	b	.Ldcsctp_BB23_3
.Ldcsctp_BB23_44:
	cmp	x9, #16
	b.hs	.Ldcsctp_BB23_54
	mov	x11, xzr
	b	.Ldcsctp_BB23_58
.Ldcsctp_BB23_46:
	cmp	x2, #32
	b.hs	.Ldcsctp_BB23_61
	mov	x8, xzr
	b	.Ldcsctp_BB23_65
.Ldcsctp_BB23_48:
	cmp	x2, #32
	b.hs	.Ldcsctp_BB23_68
	mov	x8, xzr
	b	.Ldcsctp_BB23_72
.Ldcsctp_BB23_50:
	cmp	x2, #32
	b.hs	.Ldcsctp_BB23_75
	mov	x8, xzr
	b	.Ldcsctp_BB23_79
.Ldcsctp_BB23_52:
	cmp	x2, #32
	b.hs	.Ldcsctp_BB23_82
	mov	x8, xzr
	b	.Ldcsctp_BB23_86
.Ldcsctp_BB23_54:
	add	x13, x19, #28
	and	x12, x9, #0xc
	and	x11, x9, #0xfffffffffffffff0
	add	x13, x13, x28
	add	x14, x10, #16
	and	x15, x9, #0xfffffffffffffff0
.Ldcsctp_BB23_55:
	ldp	q0, q1, [x14, #-16]
	subs	x15, x15, #16
	add	x14, x14, #32
	rev16	v0.16b, v0.16b
	rev16	v1.16b, v1.16b
	stp	q0, q1, [x13, #-16]
	add	x13, x13, #32
	b.ne	.Ldcsctp_BB23_55
	cmp	x9, x11
	b.eq	.Ldcsctp_BB23_29
	cbz	x12, .Ldcsctp_BB23_89
.Ldcsctp_BB23_58:
	mov	x14, x11
	and	x11, x9, #0xfffffffffffffffc
	add	x13, x19, #12
	lsl	x12, x11, #1
	lsl	x15, x14, #1
	add	x13, x13, x28
	sub	x14, x14, x11
	add	x12, x12, #8
	add	x13, x13, x15
	add	x15, x10, x15
.Ldcsctp_BB23_59:
	ldr	d0, [x15], #8
	adds	x14, x14, #4
	rev16	v0.8b, v0.8b
	str	d0, [x13], #8
	b.ne	.Ldcsctp_BB23_59
	cmp	x9, x11
	b.ne	.Ldcsctp_BB23_27
	b	.Ldcsctp_BB23_29
.Ldcsctp_BB23_61:
	add	x11, x19, #24
	and	x9, x2, #0x18
	and	x8, x2, #0xffffffffffffffe0
	add	x10, x1, #16
	add	x11, x11, x28
	and	x12, x2, #0xffffffffffffffe0
.Ldcsctp_BB23_62:
	ldp	q0, q1, [x10, #-16]
	subs	x12, x12, #32
	add	x10, x10, #32
	stp	q0, q1, [x11, #-16]
	add	x11, x11, #32
	b.ne	.Ldcsctp_BB23_62
	cmp	x2, x8
	b.eq	.Ldcsctp_BB23_3
	cbz	x9, .Ldcsctp_BB23_14
.Ldcsctp_BB23_65:
	mov	x10, x8
	and	x8, x2, #0xfffffffffffffff8
	add	x11, x10, x28
	sub	x9, x10, x8
	add	x10, x1, x10
	add	x11, x27, x11
.Ldcsctp_BB23_66:
	ldr	d0, [x10], #8
	adds	x9, x9, #8
	str	d0, [x11], #8
	b.ne	.Ldcsctp_BB23_66
	cmp	x2, x8
	b.eq	.Ldcsctp_BB23_3
	b	.Ldcsctp_BB23_14
.Ldcsctp_BB23_68:
	add	x11, x19, #24
	and	x9, x2, #0x18
	and	x8, x2, #0xffffffffffffffe0
	add	x10, x1, #16
	add	x11, x11, x28
	and	x12, x2, #0xffffffffffffffe0
.Ldcsctp_BB23_69:
	ldp	q0, q1, [x10, #-16]
	subs	x12, x12, #32
	add	x10, x10, #32
	stp	q0, q1, [x11, #-16]
	add	x11, x11, #32
	b.ne	.Ldcsctp_BB23_69
	cmp	x2, x8
	b.eq	.Ldcsctp_BB23_3
	cbz	x9, .Ldcsctp_BB23_21
.Ldcsctp_BB23_72:
	mov	x10, x8
	and	x8, x2, #0xfffffffffffffff8
	add	x11, x10, x28
	sub	x9, x10, x8
	add	x10, x1, x10
	add	x11, x27, x11
.Ldcsctp_BB23_73:
	ldr	d0, [x10], #8
	adds	x9, x9, #8
	str	d0, [x11], #8
	b.ne	.Ldcsctp_BB23_73
	cmp	x2, x8
	b.eq	.Ldcsctp_BB23_3
	b	.Ldcsctp_BB23_21
.Ldcsctp_BB23_75:
	add	x11, x19, #24
	and	x9, x2, #0x18
	and	x8, x2, #0xffffffffffffffe0
	add	x10, x1, #16
	add	x11, x11, x28
	and	x12, x2, #0xffffffffffffffe0
.Ldcsctp_BB23_76:
	ldp	q0, q1, [x10, #-16]
	subs	x12, x12, #32
	add	x10, x10, #32
	stp	q0, q1, [x11, #-16]
	add	x11, x11, #32
	b.ne	.Ldcsctp_BB23_76
	cmp	x2, x8
	b.eq	.Ldcsctp_BB23_3
	cbz	x9, .Ldcsctp_BB23_35
.Ldcsctp_BB23_79:
	mov	x10, x8
	and	x8, x2, #0xfffffffffffffff8
	add	x11, x10, x28
	sub	x9, x10, x8
	add	x10, x1, x10
	add	x11, x27, x11
.Ldcsctp_BB23_80:
	ldr	d0, [x10], #8
	adds	x9, x9, #8
	str	d0, [x11], #8
	b.ne	.Ldcsctp_BB23_80
	cmp	x2, x8
	b.eq	.Ldcsctp_BB23_3
	b	.Ldcsctp_BB23_35
.Ldcsctp_BB23_82:
	add	x11, x19, #24
	and	x9, x2, #0x18
	and	x8, x2, #0xffffffffffffffe0
	add	x10, x1, #16
	add	x11, x11, x28
	and	x12, x2, #0xffffffffffffffe0
.Ldcsctp_BB23_83:
	ldp	q0, q1, [x10, #-16]
	subs	x12, x12, #32
	add	x10, x10, #32
	stp	q0, q1, [x11, #-16]
	add	x11, x11, #32
	b.ne	.Ldcsctp_BB23_83
	cmp	x2, x8
	b.eq	.Ldcsctp_BB23_3
	cbz	x9, .Ldcsctp_BB23_41
.Ldcsctp_BB23_86:
	mov	x10, x8
	and	x8, x2, #0xfffffffffffffff8
	add	x11, x10, x28
	sub	x9, x10, x8
	add	x10, x1, x10
	add	x11, x27, x11
.Ldcsctp_BB23_87:
	ldr	d0, [x10], #8
	adds	x9, x9, #8
	str	d0, [x11], #8
	b.ne	.Ldcsctp_BB23_87
	cmp	x2, x8
	b.eq	.Ldcsctp_BB23_3
	b	.Ldcsctp_BB23_41
.Ldcsctp_BB23_89:
	lsl	x12, x11, #1
	orr	x12, x12, #0x8
	b	.Ldcsctp_BB23_27
.Ldcsctp_BB23_90:
	add	w8, w8, #4
	ldur	w1, [x29, #-4]
	rev16	w8, w8
	b	.Ldcsctp_BB23_92
.Ldcsctp_BB23_91:
	mov	w8, #1024
.Ldcsctp_BB23_92:
	strb	w21, [x19]
	strb	w1, [x19, #1]
	strh	w8, [x19, #2]
	.cfi_def_cfa wsp, 112
	ldp	x20, x19, [sp, #96]
	ldp	x22, x21, [sp, #80]
	ldp	x24, x23, [sp, #64]
	ldp	x26, x25, [sp, #48]
	ldp	x28, x27, [sp, #32]
	ldp	x29, x30, [sp, #16]
	add	sp, sp, #112
	.cfi_def_cfa_offset 0
	.cfi_restore w19
	.cfi_restore w20
	.cfi_restore w21
	.cfi_restore w22
	.cfi_restore w23
	.cfi_restore w24
	.cfi_restore w25
	.cfi_restore w26
	.cfi_restore w27
	.cfi_restore w28
	.cfi_restore w30
	.cfi_restore w29
	hint	#29
	.cfi_negate_ra_state
	ret
.Ldcsctp_func_end23:
	.size	dcsctp_tlv.list.put_listed.f123a6a91b68d363, .Ldcsctp_func_end23-dcsctp_tlv.list.put_listed.f123a6a91b68d363
	.cfi_endproc
	.section	.text.std_alloc.vec.Vec.drop.5e412c9b2b6de7d3,"ax",@progbits
	.p2align	2
	.type	std_alloc.vec.Vec.drop.5e412c9b2b6de7d3,@function
std_alloc.vec.Vec.drop.5e412c9b2b6de7d3:
	.cfi_startproc
	hint	#25
	.cfi_negate_ra_state
	sub	sp, sp, #96
	.cfi_def_cfa_offset 96
	stp	x29, x30, [sp, #32]
	stp	x24, x23, [sp, #48]
	stp	x22, x21, [sp, #64]
	stp	x20, x19, [sp, #80]
	add	x29, sp, #32
	.cfi_def_cfa w29, 64
	.cfi_offset w19, -8
	.cfi_offset w20, -16
	.cfi_offset w21, -24
	.cfi_offset w22, -32
	.cfi_offset w23, -40
	.cfi_offset w24, -48
	.cfi_offset w30, -56
	.cfi_offset w29, -64
	.cfi_remember_state
	ldp	x19, x21, [x0]
	ldr	x22, [x0, #16]
	cbz	x21, .Ldcsctp_BB24_19
	add	x23, x19, #32
	b	.Ldcsctp_BB24_5
.Ldcsctp_BB24_2:
	hint	#36
	cbz	x10, .Ldcsctp_BB24_4
.Ldcsctp_BB24_3:
	bl	rattle_dealloc
.Ldcsctp_BB24_4:
	hint	#36
	subs	x21, x21, #1
	add	x23, x23, #64
	b.eq	.Ldcsctp_BB24_19
.Ldcsctp_BB24_5:
	ldurb	w11, [x23, #-32]
	cmp	w11, #17
	b.hi	.Ldcsctp_BB24_22
	ldp	x8, x0, [x23, #-24]
	adrp	x12, .Ldcsctp_JTI24_0
	add	x12, x12, :lo12:.Ldcsctp_JTI24_0
	ldp	x9, x10, [x23, #-8]
	ldr	x20, [x23, #8]
	adr	x13, .Ldcsctp_BB24_2
	ldrb	w14, [x12, x11]
	add	x13, x13, x14, lsl #2
	br	x13
.Ldcsctp_BB24_7:
	hint	#36
	cbz	x9, .Ldcsctp_BB24_4
	mov	x0, x8
	b	.Ldcsctp_BB24_3
.Ldcsctp_BB24_9:
	hint	#36
	stp	x8, x0, [sp, #8]
	str	x9, [sp, #24]
	b	.Ldcsctp_BB24_11
.Ldcsctp_BB24_10:
	hint	#36
	stp	x9, x10, [sp, #8]
	str	x20, [sp, #24]
.Ldcsctp_BB24_11:
	add	x0, sp, #8
	bl	std_alloc.vec.Vec.drop.765a829dcb308622
	b	.Ldcsctp_BB24_4
.Ldcsctp_BB24_12:
	hint	#36
	stp	x0, x9, [sp, #8]
	str	x10, [sp, #24]
	b	.Ldcsctp_BB24_14
.Ldcsctp_BB24_13:
	hint	#36
	stp	x8, x0, [sp, #8]
	str	x9, [sp, #24]
.Ldcsctp_BB24_14:
	add	x0, sp, #8
	bl	std_alloc.vec.Vec.drop.694f3e952ffd1e0b
	b	.Ldcsctp_BB24_4
.Ldcsctp_BB24_15:
	hint	#36
	ldr	x24, [x23, #24]
	cbz	x10, .Ldcsctp_BB24_17
	bl	rattle_dealloc
.Ldcsctp_BB24_17:
	cbz	x24, .Ldcsctp_BB24_4
	mov	x0, x20
	b	.Ldcsctp_BB24_3
.Ldcsctp_BB24_19:
	cbz	x22, .Ldcsctp_BB24_21
	mov	x0, x19
	.cfi_def_cfa wsp, 96
	ldp	x20, x19, [sp, #80]
	ldp	x22, x21, [sp, #64]
	ldp	x24, x23, [sp, #48]
	ldp	x29, x30, [sp, #32]
	add	sp, sp, #96
	.cfi_def_cfa_offset 0
	.cfi_restore w19
	.cfi_restore w20
	.cfi_restore w21
	.cfi_restore w22
	.cfi_restore w23
	.cfi_restore w24
	.cfi_restore w30
	.cfi_restore w29
	hint	#29
	.cfi_negate_ra_state
	b	rattle_dealloc
.Ldcsctp_BB24_21:
	.cfi_restore_state
	.cfi_remember_state
	.cfi_def_cfa wsp, 96
	ldp	x20, x19, [sp, #80]
	ldp	x22, x21, [sp, #64]
	ldp	x24, x23, [sp, #48]
	ldp	x29, x30, [sp, #32]
	add	sp, sp, #96
	.cfi_def_cfa_offset 0
	.cfi_restore w19
	.cfi_restore w20
	.cfi_restore w21
	.cfi_restore w22
	.cfi_restore w23
	.cfi_restore w24
	.cfi_restore w30
	.cfi_restore w29
	hint	#29
	.cfi_negate_ra_state
	ret
.Ldcsctp_BB24_22:
	.cfi_restore_state
	brk	#0x1
.Ldcsctp_func_end24:
	.size	std_alloc.vec.Vec.drop.5e412c9b2b6de7d3, .Ldcsctp_func_end24-std_alloc.vec.Vec.drop.5e412c9b2b6de7d3
	.cfi_endproc
	.section	.rodata.std_alloc.vec.Vec.drop.5e412c9b2b6de7d3,"a",@progbits
.Ldcsctp_JTI24_0:
	.byte	(.Ldcsctp_BB24_7-.Ldcsctp_BB24_2)>>2
	.byte	(.Ldcsctp_BB24_10-.Ldcsctp_BB24_2)>>2
	.byte	(.Ldcsctp_BB24_10-.Ldcsctp_BB24_2)>>2
	.byte	(.Ldcsctp_BB24_15-.Ldcsctp_BB24_2)>>2
	.byte	(.Ldcsctp_BB24_9-.Ldcsctp_BB24_2)>>2
	.byte	(.Ldcsctp_BB24_9-.Ldcsctp_BB24_2)>>2
	.byte	(.Ldcsctp_BB24_12-.Ldcsctp_BB24_2)>>2
	.byte	(.Ldcsctp_BB24_4-.Ldcsctp_BB24_2)>>2
	.byte	(.Ldcsctp_BB24_4-.Ldcsctp_BB24_2)>>2
	.byte	(.Ldcsctp_BB24_13-.Ldcsctp_BB24_2)>>2
	.byte	(.Ldcsctp_BB24_7-.Ldcsctp_BB24_2)>>2
	.byte	(.Ldcsctp_BB24_4-.Ldcsctp_BB24_2)>>2
	.byte	(.Ldcsctp_BB24_4-.Ldcsctp_BB24_2)>>2
	.byte	(.Ldcsctp_BB24_7-.Ldcsctp_BB24_2)>>2
	.byte	(.Ldcsctp_BB24_9-.Ldcsctp_BB24_2)>>2
	.byte	(.Ldcsctp_BB24_2-.Ldcsctp_BB24_2)>>2
	.byte	(.Ldcsctp_BB24_2-.Ldcsctp_BB24_2)>>2
	.byte	(.Ldcsctp_BB24_2-.Ldcsctp_BB24_2)>>2
	.section	.rodata.cst16,"aM",@progbits,16
	.p2align	4, 0x0
.Ldcsctp_CPI25_0:
	.byte	116
	.byte	104
	.byte	105
	.byte	115
	.byte	32
	.byte	109
	.byte	97
	.byte	99
	.byte	104
	.byte	105
	.byte	110
	.byte	101
	.byte	32
	.byte	108
	.byte	97
	.byte	99
.Ldcsctp_CPI25_1:
	.byte	107
	.byte	115
	.byte	32
	.byte	97
	.byte	32
	.byte	102
	.byte	101
	.byte	97
	.byte	116
	.byte	117
	.byte	114
	.byte	101
	.byte	32
	.byte	111
	.byte	102
	.byte	32
.Ldcsctp_CPI25_2:
	.byte	120
	.byte	56
	.byte	54
	.byte	45
	.byte	54
	.byte	52
	.byte	45
	.byte	118
	.byte	50
	.byte	44
	.byte	32
	.byte	119
	.byte	104
	.byte	105
	.byte	99
	.byte	104
.Ldcsctp_CPI25_3:
	.byte	32
	.byte	116
	.byte	104
	.byte	105
	.byte	115
	.byte	32
	.byte	112
	.byte	114
	.byte	111
	.byte	103
	.byte	114
	.byte	97
	.byte	109
	.byte	32
	.byte	119
	.byte	97
.Ldcsctp_CPI25_4:
	.byte	115
	.byte	32
	.byte	98
	.byte	117
	.byte	105
	.byte	108
	.byte	116
	.byte	32
	.byte	102
	.byte	111
	.byte	114
	.byte	58
	.byte	32
	.byte	114
	.byte	117
	.byte	110
.Ldcsctp_CPI25_5:
	.byte	32
	.byte	105
	.byte	116
	.byte	32
	.byte	111
	.byte	110
	.byte	32
	.byte	97
	.byte	110
	.byte	111
	.byte	116
	.byte	104
	.byte	101
	.byte	114
	.byte	32
	.byte	109
.Ldcsctp_CPI25_6:
	.byte	97
	.byte	99
	.byte	104
	.byte	105
	.byte	110
	.byte	101
	.byte	44
	.byte	32
	.byte	111
	.byte	114
	.byte	32
	.byte	98
	.byte	117
	.byte	105
	.byte	108
	.byte	100
.Ldcsctp_CPI25_7:
	.byte	32
	.byte	105
	.byte	116
	.byte	32
	.byte	119
	.byte	105
	.byte	116
	.byte	104
	.byte	32
	.byte	45
	.byte	45
	.byte	99
	.byte	112
	.byte	117
	.byte	32
	.byte	120
	.section	.rodata.cst8,"aM",@progbits,8
	.p2align	3, 0x0
.Ldcsctp_CPI25_8:
	.byte	56
	.byte	54
	.byte	45
	.byte	54
	.zero	1
	.zero	1
	.zero	1
	.zero	1
	.section	.text.rattle_main,"ax",@progbits
	.globl	rattle_main
	.p2align	2
	.type	rattle_main,@function
rattle_main:
	.cfi_startproc
	hint	#25
	.cfi_negate_ra_state
	str	d8, [sp, #-112]!
	.cfi_def_cfa_offset 112
	stp	x29, x30, [sp, #16]
	stp	x28, x27, [sp, #32]
	stp	x26, x25, [sp, #48]
	stp	x24, x23, [sp, #64]
	stp	x22, x21, [sp, #80]
	stp	x20, x19, [sp, #96]
	add	x29, sp, #16
	.cfi_def_cfa w29, 96
	.cfi_offset w19, -8
	.cfi_offset w20, -16
	.cfi_offset w21, -24
	.cfi_offset w22, -32
	.cfi_offset w23, -40
	.cfi_offset w24, -48
	.cfi_offset w25, -56
	.cfi_offset w26, -64
	.cfi_offset w27, -72
	.cfi_offset w28, -80
	.cfi_offset w30, -88
	.cfi_offset w29, -96
	.cfi_offset b8, -112
	.cfi_remember_state
	sub	sp, sp, #272
	mov	w0, #13
	mov	w1, #1
	str	xzr, [sp]
	bl	rattle_signal
	mov	w0, wzr
	bl	rattle_cpuid
	ldr	w8, [x0, #24]
	mov	w9, #8705
	mov	w0, #2
	movk	w9, #152, lsl #16
	bic	w19, w9, w8
	bl	rattle_cpuid
	cbnz	w19, .Ldcsctp_BB25_9
	ldr	w8, [x0, #24]
	tbz	w8, #0, .Ldcsctp_BB25_9
	mov	w19, #3393
	mov	w0, wzr
	mov	x1, xzr
	mov	w2, #1
	movk	w19, #3, lsl #16
	bl	rattle_lseek
	mov	w0, #3393
	mov	w1, #1
	movk	w0, #3, lsl #16
	bl	rattle_alloc
	tbz	w0, #0, .Ldcsctp_BB25_36
	mov	w2, #3393
	mov	x20, x1
	mov	x0, x1
	mov	w1, wzr
	movk	w2, #3, lsl #16
	bl	memset
	mov	x21, xzr
.Ldcsctp_BB25_4:
	add	x1, x20, x21
	sub	x2, x19, x21
	mov	w0, wzr
	sub	x22, x19, x21
	bl	rattle_read
	tbnz	x0, #63, .Ldcsctp_BB25_12
	cmp	x0, x22
	csel	x8, x0, x22, lo
	cbz	x8, .Ldcsctp_BB25_7
	add	x21, x8, x21
	cmp	x21, x19
	b.lo	.Ldcsctp_BB25_4
.Ldcsctp_BB25_7:
	movi	v0.2d, #0000000000000000
	mov	w8, #3393
	sub	x10, x19, #1
	movk	w8, #3, lsl #16
	stur	xzr, [x29, #-80]
	cmp	x21, x8
	stp	xzr, xzr, [x29, #-208]
	csel	x9, x21, x8, lo
	cmp	x21, x10
	stur	xzr, [x29, #-192]
	stp	q0, q0, [x29, #-176]
	stp	q0, q0, [x29, #-112]
	stp	xzr, xzr, [x29, #-232]
	stur	xzr, [x29, #-240]
	b.ls	.Ldcsctp_BB25_13
	mov	x0, x20
	bl	rattle_dealloc
	adrp	x19, .Ldcsctp_static.53
	add	x19, x19, :lo12:.Ldcsctp_static.53
	mov	w20, #22
	b	.Ldcsctp_BB25_37
.Ldcsctp_BB25_9:
	mov	x8, sp
	sub	x1, x8, #144
	sub	sp, sp, #3072
	cmp	sp, x1
	b.le	.Ldcsctp_BB25_11
.Ldcsctp_BB25_10:
	str	xzr, [sp]
	sub	sp, sp, #3072
	cmp	sp, x1
	b.gt	.Ldcsctp_BB25_10
.Ldcsctp_BB25_11:
	mov	sp, x1
	adrp	x9, .Ldcsctp_CPI25_0
	ldr	xzr, [sp]
	mov	w0, #2
	ldr	q0, [x9, :lo12:.Ldcsctp_CPI25_0]
	adrp	x9, .Ldcsctp_CPI25_1
	mov	w2, #134
	ldr	q1, [x9, :lo12:.Ldcsctp_CPI25_1]
	adrp	x9, .Ldcsctp_CPI25_2
	ldr	q2, [x9, :lo12:.Ldcsctp_CPI25_2]
	adrp	x9, .Ldcsctp_CPI25_3
	stp	q0, q1, [x8, #-144]
	ldr	q0, [x9, :lo12:.Ldcsctp_CPI25_3]
	adrp	x9, .Ldcsctp_CPI25_4
	ldr	q1, [x9, :lo12:.Ldcsctp_CPI25_4]
	adrp	x9, .Ldcsctp_CPI25_5
	stp	q2, q0, [x8, #-112]
	ldr	q0, [x9, :lo12:.Ldcsctp_CPI25_5]
	adrp	x9, .Ldcsctp_CPI25_6
	ldr	q2, [x9, :lo12:.Ldcsctp_CPI25_6]
	adrp	x9, .Ldcsctp_CPI25_7
	stp	q1, q0, [x8, #-80]
	ldr	q0, [x9, :lo12:.Ldcsctp_CPI25_7]
	adrp	x9, .Ldcsctp_CPI25_8
	ldr	d1, [x9, :lo12:.Ldcsctp_CPI25_8]
	mov	w9, #2612
	stp	q2, q0, [x8, #-48]
	stur	s1, [x8, #-16]
	sturh	w9, [x8, #-12]
	bl	rattle_write
	mov	w0, #127
	b	.Ldcsctp_BB25_44
.Ldcsctp_BB25_12:
	sub	x0, x29, #112
	bl	std_io.io.error.last_error
	mov	x0, x20
	bl	rattle_dealloc
	adrp	x19, .Ldcsctp_static.52
	add	x19, x19, :lo12:.Ldcsctp_static.52
	mov	w20, #19
	b	.Ldcsctp_BB25_37
.Ldcsctp_BB25_13:
	cbz	x21, .Ldcsctp_BB25_32
	mov	x22, xzr
.Ldcsctp_BB25_15:
	ldrb	w8, [x20, x22]
	cmp	w8, #13
	b.eq	.Ldcsctp_BB25_20
	cmp	w8, #32
	b.eq	.Ldcsctp_BB25_20
	sub	w8, w8, #9
	cmp	w8, #2
	b.lo	.Ldcsctp_BB25_20
	add	x22, x22, #1
	cmp	x9, x22
	b.ne	.Ldcsctp_BB25_15
	mov	x22, x9
	b	.Ldcsctp_BB25_27
.Ldcsctp_BB25_20:
	add	x8, x22, #1
	cmp	x8, x9
	b.hs	.Ldcsctp_BB25_27
	mvn	x10, x22
	add	x8, x8, x20
	add	x9, x10, x9
	b	.Ldcsctp_BB25_23
.Ldcsctp_BB25_22:
	subs	x9, x9, #1
	strb	w10, [x20, x22]
	add	x22, xzr, x22
	b.eq	.Ldcsctp_BB25_27
.Ldcsctp_BB25_23:
	ldrb	w10, [x8], #1
	cmp	w10, #13
	b.eq	.Ldcsctp_BB25_22
	cmp	w10, #32
	b.eq	.Ldcsctp_BB25_22
	sub	w11, w10, #9
	cmp	w11, #1
	b.ls	.Ldcsctp_BB25_22
	mov	w11, #1
	subs	x9, x9, #1
	strb	w10, [x20, x22]
	add	x22, x11, x22
	b.ne	.Ldcsctp_BB25_23
.Ldcsctp_BB25_27:
	tbnz	w22, #0, .Ldcsctp_BB25_64
	cbz	x22, .Ldcsctp_BB25_32
	lsr	x21, x22, #1
	mov	w1, #1
	mov	x0, x21
	bl	rattle_alloc
	tbz	w0, #0, .Ldcsctp_BB25_34
	mov	x19, x1
	cmp	x22, #2
	b.ne	.Ldcsctp_BB25_45
	mov	x22, xzr
	b	.Ldcsctp_BB25_46
.Ldcsctp_BB25_32:
	mov	x0, x20
.Ldcsctp_BB25_33:
	bl	rattle_dealloc
	adrp	x19, .Ldcsctp_static.55
	add	x19, x19, :lo12:.Ldcsctp_static.55
	mov	w20, #27
	b	.Ldcsctp_BB25_37
.Ldcsctp_BB25_34:
	mov	x0, x20
.Ldcsctp_BB25_35:
	bl	rattle_dealloc
.Ldcsctp_BB25_36:
	adrp	x19, .Ldcsctp_static.51
	add	x19, x19, :lo12:.Ldcsctp_static.51
	mov	w20, #21
.Ldcsctp_BB25_37:
	mov	x21, xzr
.Ldcsctp_BB25_38:
	add	x1, x19, x21
	sub	x2, x20, x21
	mov	w0, #1
	sub	x22, x20, x21
	bl	rattle_write
	tbnz	x0, #63, .Ldcsctp_BB25_42
	cmp	x0, x22
	csel	x8, x0, x22, lo
	cbz	x8, .Ldcsctp_BB25_43
	add	x21, x8, x21
	cmp	x21, x20
	b.lo	.Ldcsctp_BB25_38
	mov	w0, #1
	b	.Ldcsctp_BB25_44
.Ldcsctp_BB25_42:
	sub	x0, x29, #112
	bl	std_io.io.error.last_error
.Ldcsctp_BB25_43:
	mov	w0, #2
.Ldcsctp_BB25_44:
	sub	sp, x29, #16
	.cfi_def_cfa wsp, 112
	ldp	x20, x19, [sp, #96]
	ldp	x22, x21, [sp, #80]
	ldp	x24, x23, [sp, #64]
	ldp	x26, x25, [sp, #48]
	ldp	x28, x27, [sp, #32]
	ldp	x29, x30, [sp, #16]
	ldr	d8, [sp], #112
	.cfi_def_cfa_offset 0
	.cfi_restore w19
	.cfi_restore w20
	.cfi_restore w21
	.cfi_restore w22
	.cfi_restore w23
	.cfi_restore w24
	.cfi_restore w25
	.cfi_restore w26
	.cfi_restore w27
	.cfi_restore w28
	.cfi_restore w30
	.cfi_restore w29
	.cfi_restore b8
	hint	#29
	.cfi_negate_ra_state
	ret
.Ldcsctp_BB25_45:
	.cfi_restore_state
	sub	x2, x21, #1
	mov	x0, x19
	mov	w1, wzr
	sub	x22, x21, #1
	bl	memset
.Ldcsctp_BB25_46:
	add	x8, x22, #1
	strb	wzr, [x19, x22]
	cmp	x21, x8
	b.ne	.Ldcsctp_BB25_63
	mov	x9, xzr
	add	x10, x20, #1
	b	.Ldcsctp_BB25_50
.Ldcsctp_BB25_48:
	sub	w13, w12, #55
.Ldcsctp_BB25_49:
	add	w11, w13, w11, lsl #4
	add	x10, x10, #2
	strb	w11, [x19, x9]
	add	x9, x9, #1
	cmp	x8, x9
	b.eq	.Ldcsctp_BB25_65
.Ldcsctp_BB25_50:
	ldurb	w13, [x10, #-1]
	subs	w11, w13, #48
	b.lo	.Ldcsctp_BB25_63
	ldrb	w12, [x10]
	cmp	w13, #57
	b.ls	.Ldcsctp_BB25_57
	cmp	w13, #65
	b.lo	.Ldcsctp_BB25_63
	cmp	w13, #70
	b.hi	.Ldcsctp_BB25_55
	sub	w11, w13, #55
	b	.Ldcsctp_BB25_57
.Ldcsctp_BB25_55:
	sub	w11, w13, #97
	cmp	w11, #5
	b.hi	.Ldcsctp_BB25_63
	sub	w11, w13, #87
.Ldcsctp_BB25_57:
	subs	w13, w12, #48
	b.lo	.Ldcsctp_BB25_63
	cmp	w12, #57
	b.ls	.Ldcsctp_BB25_49
	cmp	w12, #65
	b.lo	.Ldcsctp_BB25_63
	cmp	w12, #70
	b.ls	.Ldcsctp_BB25_48
	sub	w13, w12, #97
	cmp	w13, #5
	b.hi	.Ldcsctp_BB25_63
	sub	w13, w12, #87
	b	.Ldcsctp_BB25_49
.Ldcsctp_BB25_63:
	mov	x0, x19
	bl	rattle_dealloc
.Ldcsctp_BB25_64:
	mov	x0, x20
	bl	rattle_dealloc
	adrp	x19, .Ldcsctp_static.54
	add	x19, x19, :lo12:.Ldcsctp_static.54
	mov	w20, #23
	b	.Ldcsctp_BB25_37
.Ldcsctp_BB25_65:
	mov	x0, x20
	bl	rattle_dealloc
	sub	x8, x21, #16, lsl #12
	mov	x9, #-65520
	cmp	x8, x9
	b.hs	.Ldcsctp_BB25_67
	mov	x0, x19
	b	.Ldcsctp_BB25_33
.Ldcsctp_BB25_67:
	sub	x23, x21, #12
	mov	x20, xzr
	mov	x22, xzr
	add	x24, x19, #12
	add	x21, x19, #12
	mov	x25, x23
	b	.Ldcsctp_BB25_70
.Ldcsctp_BB25_68:
	hint	#36
	cbnz	x2, .Ldcsctp_BB25_94
.Ldcsctp_BB25_69:
	hint	#36
	sub	x25, x25, x26
	add	x21, x21, x26
	add	x22, x22, #1
	add	x20, x20, #64
	cbz	x25, .Ldcsctp_BB25_95
.Ldcsctp_BB25_70:
	cmp	x25, #4
	b.lo	.Ldcsctp_BB25_94
	ldrb	w8, [x21, #2]
	ldrb	w9, [x21, #3]
	orr	w10, w9, w8, lsl #8
	cmp	w10, #4
	b.lo	.Ldcsctp_BB25_94
	cmp	x25, x10
	b.lo	.Ldcsctp_BB25_94
	orr	x8, x9, x8, lsl #8
	mov	x1, x21
	ldrb	w10, [x1], #4
	add	w11, w8, #3
	sub	x2, x8, #4
	and	x11, x11, #0x1fffc
	cmp	x25, x11
	csel	x26, x25, x11, lo
	cmp	w10, #130
	b.hi	.Ldcsctp_BB25_76
	adrp	x9, .Ldcsctp_JTI25_0
	add	x9, x9, :lo12:.Ldcsctp_JTI25_0
	adr	x11, .Ldcsctp_BB25_68
	ldrb	w12, [x9, x10]
	add	x11, x11, x12, lsl #2
	br	x11
.Ldcsctp_BB25_75:
	hint	#36
	sub	x0, x29, #136
	stp	xzr, xzr, [x29, #-136]
	stur	xzr, [x29, #-120]
	b	.Ldcsctp_BB25_82
.Ldcsctp_BB25_76:
	cmp	w10, #192
	b.eq	.Ldcsctp_BB25_92
	cmp	w10, #194
	b.ne	.Ldcsctp_BB25_69
	cmp	x2, #4
	b.lo	.Ldcsctp_BB25_94
	and	x8, x2, #0x7
	cmp	x8, #4
	b.eq	.Ldcsctp_BB25_69
	b	.Ldcsctp_BB25_94
.Ldcsctp_BB25_80:
	hint	#36
	cmp	x2, #16
	b.lo	.Ldcsctp_BB25_94
	stp	xzr, xzr, [x29, #-136]
	sub	x2, x8, #20
	sub	x0, x29, #136
	stur	xzr, [x29, #-120]
	add	x1, x21, #20
.Ldcsctp_BB25_82:
	mov	w3, wzr
	bl	dcsctp_tlv.reader.list_check.a9faab4c914c0483
	b	.Ldcsctp_BB25_90
.Ldcsctp_BB25_83:
	hint	#36
	cmp	x2, #4
	b.eq	.Ldcsctp_BB25_69
	b	.Ldcsctp_BB25_94
.Ldcsctp_BB25_84:
	hint	#36
	cmp	x2, #16
	b.hs	.Ldcsctp_BB25_69
	b	.Ldcsctp_BB25_94
.Ldcsctp_BB25_85:
	hint	#36
	cmp	x2, #12
	b.hs	.Ldcsctp_BB25_69
	b	.Ldcsctp_BB25_94
.Ldcsctp_BB25_86:
	hint	#36
	cmp	x2, #12
	b.lo	.Ldcsctp_BB25_94
	ldr	w8, [x21, #12]
	rev	w8, w8
	lsr	w9, w8, #16
	add	w8, w9, w8, uxth
	lsl	w8, w8, #2
	add	w8, w8, #12
	cmp	x2, x8
	b.eq	.Ldcsctp_BB25_69
	b	.Ldcsctp_BB25_94
.Ldcsctp_BB25_88:
	hint	#36
	cbz	x2, .Ldcsctp_BB25_94
.Ldcsctp_BB25_89:
	hint	#36
	sub	x0, x29, #136
	mov	w3, wzr
	stp	xzr, xzr, [x29, #-136]
	stur	xzr, [x29, #-120]
	bl	dcsctp_tlv.reader.list_check.a6e1d811d2b3aa55
.Ldcsctp_BB25_90:
	ldurb	w8, [x29, #-136]
	ldurb	w9, [x29, #-120]
	cmp	w8, #0
	csel	w27, wzr, w9, eq
	cbz	w8, .Ldcsctp_BB25_69
	b	.Ldcsctp_BB25_98
.Ldcsctp_BB25_91:
	hint	#36
	cbnz	x2, .Ldcsctp_BB25_69
	b	.Ldcsctp_BB25_94
.Ldcsctp_BB25_92:
	tst	x9, #0x3
	b.ne	.Ldcsctp_BB25_94
	cmp	x2, #4
	b.hs	.Ldcsctp_BB25_69
.Ldcsctp_BB25_94:
	mov	x0, x19
	bl	rattle_dealloc
	adrp	x19, .Ldcsctp_static.58
	add	x19, x19, :lo12:.Ldcsctp_static.58
	mov	w20, #29
	b	.Ldcsctp_BB25_37
.Ldcsctp_BB25_95:
	sub	x8, x29, #8
	stur	x22, [x8, #-256]
	cbz	x22, .Ldcsctp_BB25_99
	lsr	x8, x22, #57
	cbnz	x8, .Ldcsctp_BB25_285
	mov	x0, x20
	mov	w1, #8
	bl	rattle_alloc
	stur	x1, [x29, #-248]
	tbnz	w0, #0, .Ldcsctp_BB25_100
	b	.Ldcsctp_BB25_285
.Ldcsctp_BB25_98:
	mov	x0, x19
	bl	rattle_dealloc
	and	x8, x27, #0xff
	adrp	x9, .Ldcsctp_switch.table.rattle_main.391.rel
	add	x9, x9, :lo12:.Ldcsctp_switch.table.rattle_main.391.rel
	ldrsw	x10, [x9, x8, lsl #2]
	adrp	x11, .Ldcsctp_switch.table.rattle_main
	add	x11, x11, :lo12:.Ldcsctp_switch.table.rattle_main
	ldr	x20, [x11, x8, lsl #3]
	add	x19, x9, x10
	b	.Ldcsctp_BB25_37
.Ldcsctp_BB25_99:
	stur	x8, [x29, #-248]
.Ldcsctp_BB25_100:
	mov	x25, xzr
	cbnz	x23, .Ldcsctp_BB25_106
.Ldcsctp_BB25_101:
	ldrh	w8, [x19]
	ldur	x10, [x29, #-248]
	sub	x0, x29, #176
	ldur	d0, [x19, #4]
	ldrh	w9, [x19, #2]
	sub	x1, x29, #112
	rev	w8, w8
	stp	x10, x25, [x29, #-112]
	lsr	w10, w8, #16
	sub	x8, x29, #8
	rev32	v0.8b, v0.8b
	ldur	x8, [x8, #-256]
	rev	w9, w9
	stur	wzr, [x29, #-76]
	sturh	w10, [x29, #-88]
	stur	x8, [x29, #-96]
	lsr	w8, w9, #16
	stur	d0, [x29, #-84]
	sturh	w8, [x29, #-86]
	bl	sctp_show.text.text_of
	ldurb	w8, [x29, #-176]
	cbz	w8, .Ldcsctp_BB25_251
	ldur	q0, [x29, #-112]
	ldur	x8, [x29, #-96]
	sub	x0, x29, #208
	stur	q0, [x29, #-208]
	stur	x8, [x29, #-192]
	bl	std_alloc.vec.Vec.drop.5e412c9b2b6de7d3
	b	.Ldcsctp_BB25_285
.Ldcsctp_BB25_103:
	hint	#36
	ldur	x8, [x29, #-248]
	movi	v0.2d, #0000000000000000
	add	x0, x8, x25, lsl #6
	mov	w8, #14
.Ldcsctp_BB25_104:
	strh	w8, [x0]
	sub	x8, x29, #8
	add	x25, x25, #1
	str	wzr, [x0, #4]
	add	x1, x24, #4
	mov	x2, x21
	stp	q0, q0, [x0, #16]
	str	q0, [x0, #48]
	str	x8, [x0, #8]!
	bl	dcsctp_tlv.parameter.parameters_fill
	and	w8, w0, #0xff
	tbnz	w8, #0, .Ldcsctp_BB25_264
.Ldcsctp_BB25_105:
	sub	x23, x23, x22
	add	x24, x24, x22
	cbz	x23, .Ldcsctp_BB25_101
.Ldcsctp_BB25_106:
	ldrb	w27, [x24, #3]
	ldrb	w9, [x24, #2]
	add	x20, x24, #4
	ldrb	w28, [x24]
	mov	x8, x27
	lsl	x26, x9, #8
	bfi	x8, x9, #8, #8
	ldrb	w9, [x24, #1]
	add	w10, w8, #3
	sub	x21, x8, #4
	and	x10, x10, #0x1fffc
	cmp	x23, x10
	csel	x22, x23, x10, lo
	cmp	w28, #130
	b.hi	.Ldcsctp_BB25_112
	adrp	x10, .Ldcsctp_JTI25_1
	add	x10, x10, :lo12:.Ldcsctp_JTI25_1
	adr	x11, .Ldcsctp_BB25_103
	ldrh	w12, [x10, x28, lsl #1]
	add	x11, x11, x12, lsl #2
	br	x11
.Ldcsctp_BB25_108:
	hint	#36
	stur	w9, [x29, #-4]
	ldrh	w9, [x24, #8]
	sub	x10, x29, #16
	mov	x28, x26
	ldr	w26, [x24, #4]
	ldr	w20, [x24, #12]
	stur	w9, [x10, #-256]
	ldrh	w9, [x24, #10]
	sub	x10, x29, #12
	subs	x21, x8, #16
	stur	x22, [x29, #-256]
	stur	w9, [x10, #-256]
	b.eq	.Ldcsctp_BB25_166
	cmp	x8, #16
	b.lo	.Ldcsctp_BB25_264
	mov	x0, x21
	mov	w1, #1
	bl	rattle_alloc
	tbz	w0, #0, .Ldcsctp_BB25_264
	mov	x22, x1
	b	.Ldcsctp_BB25_167
.Ldcsctp_BB25_112:
	cmp	w28, #192
	b.eq	.Ldcsctp_BB25_152
	cmp	w28, #194
	b.ne	.Ldcsctp_BB25_119
	sub	x8, x8, #8
	lsr	x21, x8, #3
	cbz	x21, .Ldcsctp_BB25_206
	mov	x9, #6148914691236517205
	movk	x9, #21847
	cmp	x8, x9
	b.hi	.Ldcsctp_BB25_264
	add	x8, x21, x21, lsl #1
	mov	w1, #4
	lsl	x0, x8, #2
	bl	rattle_alloc
	tbz	w0, #0, .Ldcsctp_BB25_264
	add	x8, x1, #4
	add	x9, x24, #12
	mov	x10, x21
.Ldcsctp_BB25_118:
	ldurh	w11, [x9, #-4]
	ldurb	w12, [x9, #-1]
	mov	w14, #1
	ldr	w13, [x9], #8
	sturh	w14, [x8, #-4]
	rev	w11, w11
	and	w12, w12, #0x1
	subs	x10, x10, #1
	lsr	w11, w11, #16
	sturh	w12, [x8, #-2]
	rev	w12, w13
	str	w12, [x8, #4]
	strh	w11, [x8], #12
	b.ne	.Ldcsctp_BB25_118
	b	.Ldcsctp_BB25_207
.Ldcsctp_BB25_119:
	hint	#36
	stur	x22, [x29, #-256]
	stur	w9, [x29, #-4]
	cbz	x21, .Ldcsctp_BB25_157
	cmp	x8, #4
	b.lo	.Ldcsctp_BB25_264
	mov	x0, x21
	mov	w1, #1
	bl	rattle_alloc
	tbz	w0, #0, .Ldcsctp_BB25_264
	mov	x22, x1
	b	.Ldcsctp_BB25_158
.Ldcsctp_BB25_123:
	hint	#36
	ldur	x8, [x29, #-248]
	movi	v0.2d, #0000000000000000
	add	x0, x8, x25, lsl #6
	mov	w8, #9
	add	x25, x25, #1
	strh	w8, [x0]
	sub	x8, x29, #8
	str	wzr, [x0, #4]
	stp	q0, q0, [x0, #16]
	str	q0, [x0, #48]
	str	x8, [x0, #8]!
	b	.Ldcsctp_BB25_132
.Ldcsctp_BB25_124:
	hint	#36
	ldur	x8, [x29, #-248]
	mov	w10, #12
	and	w9, w9, #0x1
	movi	v0.2d, #0000000000000000
	add	x8, x8, x25, lsl #6
	strb	w10, [x8]
	strb	w9, [x8, #1]
	b	.Ldcsctp_BB25_151
.Ldcsctp_BB25_125:
	hint	#36
	movi	v0.2d, #0000000000000000
	ldur	x8, [x29, #-248]
	mov	w9, #8
	b	.Ldcsctp_BB25_150
.Ldcsctp_BB25_126:
	hint	#36
	ldur	x9, [x29, #-248]
	ldur	d0, [x24, #4]
	mov	w12, #1
	ldrh	w10, [x24, #14]
	ldr	w11, [x24, #16]
	add	x0, x9, x25, lsl #6
	ldrh	w9, [x24, #12]
	rev32	v0.8b, v0.8b
	b	.Ldcsctp_BB25_134
.Ldcsctp_BB25_127:
	hint	#36
	sub	x10, x29, #32
	mov	w28, w9
	ands	w9, w9, #0x2
	stur	x26, [x10, #-256]
	ldr	w26, [x24, #4]
	sub	x12, x29, #16
	ldp	w11, w10, [x24, #12]
	stur	w9, [x29, #-4]
	ldrh	w9, [x24, #8]
	stur	x22, [x29, #-256]
	rev	w20, w10
	sub	x10, x29, #12
	stur	w11, [x12, #-256]
	stur	w9, [x10, #-256]
	csel	w9, w20, wzr, eq
	sub	x10, x29, #20
	subs	x21, x8, #20
	stur	w9, [x10, #-256]
	b.eq	.Ldcsctp_BB25_175
	cmp	x8, #20
	b.lo	.Ldcsctp_BB25_264
	mov	x0, x21
	mov	w1, #1
	bl	rattle_alloc
	tbz	w0, #0, .Ldcsctp_BB25_264
	mov	x22, x1
	b	.Ldcsctp_BB25_176
.Ldcsctp_BB25_131:
	hint	#36
	ldur	x8, [x29, #-248]
	movi	v0.2d, #0000000000000000
	add	x0, x8, x25, lsl #6
	mov	w8, #6
	add	x25, x25, #1
	strh	w8, [x0]
	and	w8, w9, #0x1
	strb	w8, [x0, #8]
	sub	x8, x29, #8
	str	wzr, [x0, #4]
	stur	wzr, [x0, #9]
	str	wzr, [x0, #12]
	stur	q0, [x0, #24]
	stur	q0, [x0, #40]
	str	xzr, [x0, #56]
	str	x8, [x0, #16]!
.Ldcsctp_BB25_132:
	add	x1, x24, #4
	mov	x2, x21
	bl	dcsctp_cause.error_causes.error_cause_fill
	and	w8, w0, #0xff
	tbz	w8, #0, .Ldcsctp_BB25_105
	b	.Ldcsctp_BB25_264
.Ldcsctp_BB25_133:
	hint	#36
	ldur	d0, [x24, #4]
	ldur	x9, [x29, #-248]
	mov	w12, #2
	ldrh	w10, [x24, #14]
	ldr	w11, [x24, #16]
	rev32	v0.8b, v0.8b
	add	x0, x9, x25, lsl #6
	ldrh	w9, [x24, #12]
.Ldcsctp_BB25_134:
	str	d0, [x0, #8]
	movi	v0.2d, #0000000000000000
	rev	w9, w9
	rev	w10, w10
	lsr	w9, w9, #16
	rev	w11, w11
	lsr	w10, w10, #16
	add	x25, x25, #1
	sub	x2, x8, #20
	strh	w9, [x0, #16]
	sub	x9, x29, #8
	add	x1, x24, #20
	strh	w12, [x0]
	str	wzr, [x0, #4]
	str	w11, [x0, #20]
	strh	w10, [x0, #18]
	stp	q0, q0, [x0, #32]
	str	x9, [x0, #24]!
	bl	dcsctp_tlv.parameter.parameters_fill
	and	w8, w0, #0xff
	tbz	w8, #0, .Ldcsctp_BB25_105
	b	.Ldcsctp_BB25_264
.Ldcsctp_BB25_135:
	hint	#36
	ldr	w8, [x24, #12]
	ldur	d8, [x24, #4]
	mov	x26, x22
	add	x28, x24, #16
	rev	w27, w8
	lsr	w8, w27, #16
	mov	x20, x8
	cbz	w8, .Ldcsctp_BB25_185
	lsl	x22, x20, #2
	mov	w1, #2
	mov	x0, x22
	bl	rattle_alloc
	tbz	w0, #0, .Ldcsctp_BB25_264
	mov	x21, x1
	cmp	w27, #128, lsl #12
	b.lo	.Ldcsctp_BB25_139
	sub	x8, x21, x24
	sub	x8, x8, #16
	cmp	x8, #32
	b.hs	.Ldcsctp_BB25_211
.Ldcsctp_BB25_139:
	mov	x8, xzr
.Ldcsctp_BB25_140:
	mov	x9, x20
.Ldcsctp_BB25_141:
	ldr	w10, [x28, x8, lsl #2]
	rev16	w10, w10
	str	w10, [x21, x8, lsl #2]
	add	x8, x8, #1
	cmp	x9, x8
	b.ne	.Ldcsctp_BB25_141
	b	.Ldcsctp_BB25_186
.Ldcsctp_BB25_142:
	hint	#36
	ldur	x8, [x29, #-248]
	movi	v0.2d, #0000000000000000
	add	x0, x8, x25, lsl #6
	mov	w8, #4
	b	.Ldcsctp_BB25_104
.Ldcsctp_BB25_143:
	hint	#36
	ldur	x9, [x29, #-248]
	movi	v0.2d, #0000000000000000
	ldr	w8, [x20]
	mov	w10, #7
	add	x9, x9, x25, lsl #6
	rev	w8, w8
	add	x25, x25, #1
	strh	w10, [x9]
	str	w8, [x9, #4]
	stur	q0, [x9, #8]
	stur	q0, [x9, #24]
	stur	q0, [x9, #40]
	str	xzr, [x9, #56]
	b	.Ldcsctp_BB25_105
.Ldcsctp_BB25_144:
	hint	#36
	ldur	x8, [x29, #-248]
	movi	v0.2d, #0000000000000000
	add	x0, x8, x25, lsl #6
	mov	w8, #5
	b	.Ldcsctp_BB25_104
.Ldcsctp_BB25_145:
	hint	#36
	stur	x22, [x29, #-256]
	cbz	x21, .Ldcsctp_BB25_193
	cmp	x8, #4
	b.lo	.Ldcsctp_BB25_264
	mov	x0, x21
	mov	w1, #1
	bl	rattle_alloc
	tbz	w0, #0, .Ldcsctp_BB25_264
	mov	x22, x1
	b	.Ldcsctp_BB25_194
.Ldcsctp_BB25_149:
	hint	#36
	ldur	x8, [x29, #-248]
	movi	v0.2d, #0000000000000000
	mov	w9, #11
.Ldcsctp_BB25_150:
	add	x8, x8, x25, lsl #6
	strh	w9, [x8]
.Ldcsctp_BB25_151:
	stur	q0, [x8, #4]
	add	x25, x25, #1
	stur	q0, [x8, #20]
	stur	q0, [x8, #36]
	str	q0, [x8, #48]
	b	.Ldcsctp_BB25_105
.Ldcsctp_BB25_152:
	sub	x8, x8, #8
	lsr	x21, x8, #2
	cbz	x21, .Ldcsctp_BB25_204
	mov	x9, #-6148914691236517206
	eor	x9, x9, #0x8000000000000001
	cmp	x8, x9
	b.hi	.Ldcsctp_BB25_264
	add	x8, x21, x21, lsl #1
	mov	w1, #4
	lsl	x0, x8, #2
	bl	rattle_alloc
	tbz	w0, #0, .Ldcsctp_BB25_264
	add	x8, x1, #4
	add	x9, x24, #11
	mov	x10, x21
.Ldcsctp_BB25_156:
	ldurh	w11, [x9, #-3]
	ldurh	w12, [x9, #-1]
	subs	x10, x10, #1
	sturh	wzr, [x8, #-4]
	add	x9, x9, #4
	rev	w11, w11
	rev	w12, w12
	str	wzr, [x8, #4]
	lsr	w11, w11, #16
	lsr	w12, w12, #16
	sturh	w11, [x8, #-2]
	strh	w12, [x8], #12
	b.ne	.Ldcsctp_BB25_156
	b	.Ldcsctp_BB25_205
.Ldcsctp_BB25_157:
	sub	x22, x29, #8
.Ldcsctp_BB25_158:
	sub	x8, x22, x20
	cmp	x8, x21
	b.hs	.Ldcsctp_BB25_164
	add	x8, x26, x27
	sub	x9, x8, #4
	cmp	x9, #8
	b.lo	.Ldcsctp_BB25_161
	sub	x10, x22, x24
	sub	x10, x10, #4
	cmp	x10, #32
	b.hs	.Ldcsctp_BB25_209
.Ldcsctp_BB25_161:
	mov	x10, xzr
.Ldcsctp_BB25_162:
	sub	x8, x8, x10
	add	x9, x24, x10
	add	x10, x22, x10
	sub	x8, x8, #4
	add	x9, x9, #4
.Ldcsctp_BB25_163:
	ldrb	w11, [x9], #1
	subs	x8, x8, #1
	strb	w11, [x10], #1
	b.ne	.Ldcsctp_BB25_163
	b	.Ldcsctp_BB25_165
.Ldcsctp_BB25_164:
	add	x1, x24, #4
	mov	x0, x22
	mov	x2, x21
	bl	memmove
.Ldcsctp_BB25_165:
	ldur	x8, [x29, #-248]
	add	x9, x8, x25, lsl #6
	mov	w8, #17
	add	x25, x25, #1
	strh	w8, [x9]
	ldur	w8, [x29, #-4]
	stp	x22, x21, [x9, #16]
	ldur	x22, [x29, #-256]
	str	wzr, [x9, #4]
	strb	w28, [x9, #8]
	strb	w8, [x9, #9]
	stur	wzr, [x9, #10]
	strh	wzr, [x9, #14]
	stp	x21, xzr, [x9, #32]
	stp	xzr, xzr, [x9, #48]
	b	.Ldcsctp_BB25_105
.Ldcsctp_BB25_166:
	sub	x22, x29, #8
.Ldcsctp_BB25_167:
	add	x8, x24, #16
	sub	x8, x22, x8
	cmp	x8, x21
	b.hs	.Ldcsctp_BB25_173
	cmp	x21, #8
	b.lo	.Ldcsctp_BB25_170
	sub	x8, x22, x24
	sub	x8, x8, #16
	cmp	x8, #32
	b.hs	.Ldcsctp_BB25_217
.Ldcsctp_BB25_170:
	mov	x8, xzr
.Ldcsctp_BB25_171:
	add	x9, x28, x27
	add	x10, x24, x8
	sub	x9, x9, x8
	add	x10, x10, #16
	add	x8, x22, x8
	sub	x9, x9, #16
.Ldcsctp_BB25_172:
	ldrb	w11, [x10], #1
	subs	x9, x9, #1
	strb	w11, [x8], #1
	b.ne	.Ldcsctp_BB25_172
	b	.Ldcsctp_BB25_174
.Ldcsctp_BB25_173:
	add	x1, x24, #16
	mov	x0, x22
	mov	x2, x21
	bl	memmove
.Ldcsctp_BB25_174:
	ldur	x8, [x29, #-248]
	ldur	w10, [x29, #-4]
	rev	w9, w20
	add	x8, x8, x25, lsl #6
	ubfx	w11, w10, #2, #1
	ubfx	w12, w10, #1, #1
	str	w9, [x8, #40]
	sub	x9, x29, #16
	ldur	w9, [x9, #-256]
	strh	w11, [x8, #44]
	sub	x11, x29, #12
	ldur	w11, [x11, #-256]
	strh	wzr, [x8]
	rev16	w9, w9
	str	wzr, [x8, #4]
	strh	w9, [x8, #46]
	and	w9, w10, #0x1
	ubfx	w10, w10, #3, #1
	rev16	w11, w11
	strb	w9, [x8, #51]
	rev	w9, w26
	stp	x22, x21, [x8, #8]
	stp	x21, xzr, [x8, #24]
	strh	w11, [x8, #48]
	strb	w12, [x8, #50]
	b	.Ldcsctp_BB25_184
.Ldcsctp_BB25_175:
	sub	x22, x29, #8
.Ldcsctp_BB25_176:
	add	x8, x24, #20
	sub	x8, x22, x8
	cmp	x8, x21
	b.hs	.Ldcsctp_BB25_182
	cmp	x21, #8
	b.lo	.Ldcsctp_BB25_179
	sub	x8, x22, x24
	sub	x8, x8, #20
	cmp	x8, #32
	b.hs	.Ldcsctp_BB25_219
.Ldcsctp_BB25_179:
	mov	x8, xzr
.Ldcsctp_BB25_180:
	sub	x9, x29, #32
	add	x10, x24, x8
	ldur	x9, [x9, #-256]
	add	x10, x10, #20
	add	x9, x9, x27
	sub	x9, x9, x8
	add	x8, x22, x8
	sub	x9, x9, #20
.Ldcsctp_BB25_181:
	ldrb	w11, [x10], #1
	subs	x9, x9, #1
	strb	w11, [x8], #1
	b.ne	.Ldcsctp_BB25_181
	b	.Ldcsctp_BB25_183
.Ldcsctp_BB25_182:
	add	x1, x24, #20
	mov	x0, x22
	mov	x2, x21
	bl	memmove
.Ldcsctp_BB25_183:
	ldur	x8, [x29, #-248]
	mov	w9, #13
	sub	x10, x29, #16
	ldur	w10, [x10, #-256]
	sub	x11, x29, #20
	add	x8, x8, x25, lsl #6
	ldur	w11, [x11, #-256]
	rev	w10, w10
	strh	w9, [x8]
	lsl	w9, w28, #30
	str	w10, [x8, #32]
	ubfx	w10, w28, #2, #1
	and	w9, w20, w9, asr #31
	str	wzr, [x8, #4]
	strh	w10, [x8, #44]
	ldur	w10, [x29, #-4]
	stp	w11, w9, [x8, #36]
	sub	x9, x29, #12
	ldur	w9, [x9, #-256]
	lsr	w10, w10, #1
	stp	x22, x21, [x8, #8]
	str	x21, [x8, #24]
	rev16	w9, w9
	strh	wzr, [x8, #48]
	strh	w9, [x8, #46]
	and	w9, w28, #0x1
	strb	w10, [x8, #50]
	ubfx	w10, w28, #3, #1
	strb	w9, [x8, #51]
	rev	w9, w26
.Ldcsctp_BB25_184:
	ldur	x22, [x29, #-256]
	stp	wzr, w9, [x8, #52]
	add	x25, x25, #1
	strb	w10, [x8, #60]
	sturh	wzr, [x8, #61]
	strb	wzr, [x8, #63]
	b	.Ldcsctp_BB25_105
.Ldcsctp_BB25_185:
	mov	x22, xzr
	sub	x21, x29, #8
.Ldcsctp_BB25_186:
	ands	w27, w27, #0xffff
	b.eq	.Ldcsctp_BB25_202
	lsl	x0, x27, #2
	mov	w1, #4
	bl	rattle_alloc
	tbz	w0, #0, .Ldcsctp_BB25_262
	cmp	w27, #8
	b.lo	.Ldcsctp_BB25_190
	add	x8, x22, x24
	sub	x8, x1, x8
	sub	x8, x8, #16
	cmp	x8, #32
	b.hs	.Ldcsctp_BB25_214
.Ldcsctp_BB25_190:
	mov	x8, xzr
.Ldcsctp_BB25_191:
	add	x9, x28, x22
.Ldcsctp_BB25_192:
	ldr	w10, [x9, x8, lsl #2]
	rev	w10, w10
	str	w10, [x1, x8, lsl #2]
	add	x8, x8, #1
	cmp	x27, x8
	b.ne	.Ldcsctp_BB25_192
	b	.Ldcsctp_BB25_203
.Ldcsctp_BB25_193:
	sub	x22, x29, #8
.Ldcsctp_BB25_194:
	sub	x8, x22, x20
	cmp	x8, x21
	b.hs	.Ldcsctp_BB25_200
	add	x8, x26, x27
	sub	x9, x8, #4
	cmp	x9, #8
	b.lo	.Ldcsctp_BB25_197
	sub	x10, x22, x24
	sub	x10, x10, #4
	cmp	x10, #32
	b.hs	.Ldcsctp_BB25_221
.Ldcsctp_BB25_197:
	mov	x10, xzr
.Ldcsctp_BB25_198:
	sub	x8, x8, x10
	add	x9, x24, x10
	add	x10, x22, x10
	sub	x8, x8, #4
	add	x9, x9, #4
.Ldcsctp_BB25_199:
	ldrb	w11, [x9], #1
	subs	x8, x8, #1
	strb	w11, [x10], #1
	b.ne	.Ldcsctp_BB25_199
	b	.Ldcsctp_BB25_201
.Ldcsctp_BB25_200:
	add	x1, x24, #4
	mov	x0, x22
	mov	x2, x21
	bl	memmove
.Ldcsctp_BB25_201:
	ldur	x8, [x29, #-248]
	movi	v0.2d, #0000000000000000
	mov	w9, #10
	add	x8, x8, x25, lsl #6
	add	x25, x25, #1
	stp	x22, x21, [x8, #8]
	ldur	x22, [x29, #-256]
	strh	w9, [x8]
	str	wzr, [x8, #4]
	str	x21, [x8, #24]
	stp	q0, q0, [x8, #32]
	b	.Ldcsctp_BB25_105
.Ldcsctp_BB25_202:
	mov	x27, xzr
	sub	x1, x29, #8
.Ldcsctp_BB25_203:
	ldur	x8, [x29, #-248]
	rev32	v0.8b, v8.8b
	mov	w9, #3
	mov	x22, x26
	add	x8, x8, x25, lsl #6
	add	x25, x25, #1
	strh	w9, [x8]
	str	wzr, [x8, #4]
	stp	x21, x20, [x8, #16]
	str	d0, [x8, #8]
	stp	x20, x1, [x8, #32]
	stp	x27, x27, [x8, #48]
	b	.Ldcsctp_BB25_105
.Ldcsctp_BB25_204:
	sub	x1, x29, #8
.Ldcsctp_BB25_205:
	ldur	x8, [x29, #-248]
	mov	w9, #15
	b	.Ldcsctp_BB25_208
.Ldcsctp_BB25_206:
	sub	x1, x29, #8
.Ldcsctp_BB25_207:
	ldur	x8, [x29, #-248]
	mov	w9, #16
.Ldcsctp_BB25_208:
	add	x8, x8, x25, lsl #6
	ldr	w10, [x20]
	strh	w9, [x8]
	add	x25, x25, #1
	str	wzr, [x8, #4]
	rev	w9, w10
	stp	x1, x21, [x8, #16]
	stp	w9, wzr, [x8, #8]
	stp	x21, xzr, [x8, #32]
	stp	xzr, xzr, [x8, #48]
	b	.Ldcsctp_BB25_105
.Ldcsctp_BB25_209:
	cmp	x9, #32
	b.hs	.Ldcsctp_BB25_223
	mov	x10, xzr
	b	.Ldcsctp_BB25_227
.Ldcsctp_BB25_211:
	and	x8, x20, #0xfff8
	add	x9, x21, #16
	add	x10, x24, #32
	and	x11, x20, #0xfff8
.Ldcsctp_BB25_212:
	ldp	q0, q1, [x10, #-16]
	subs	x11, x11, #8
	add	x10, x10, #32
	rev32	v0.16b, v0.16b
	rev32	v1.16b, v1.16b
	rev32	v0.8h, v0.8h
	rev32	v1.8h, v1.8h
	stp	q0, q1, [x9, #-16]
	add	x9, x9, #32
	b.ne	.Ldcsctp_BB25_212
	cmp	x8, x20
	b.eq	.Ldcsctp_BB25_186
	b	.Ldcsctp_BB25_140
.Ldcsctp_BB25_214:
	add	x10, x24, x22
	and	x8, x27, #0xfff8
	add	x9, x1, #16
	add	x10, x10, #32
	and	x11, x27, #0xfff8
.Ldcsctp_BB25_215:
	ldp	q0, q1, [x10, #-16]
	subs	x11, x11, #8
	add	x10, x10, #32
	rev32	v0.16b, v0.16b
	rev32	v1.16b, v1.16b
	stp	q0, q1, [x9, #-16]
	add	x9, x9, #32
	b.ne	.Ldcsctp_BB25_215
	cmp	x8, x27
	b.eq	.Ldcsctp_BB25_203
	b	.Ldcsctp_BB25_191
.Ldcsctp_BB25_217:
	cmp	x21, #32
	b.hs	.Ldcsctp_BB25_230
	mov	x8, xzr
	b	.Ldcsctp_BB25_234
.Ldcsctp_BB25_219:
	cmp	x21, #32
	b.hs	.Ldcsctp_BB25_237
	mov	x8, xzr
	b	.Ldcsctp_BB25_241
.Ldcsctp_BB25_221:
	cmp	x9, #32
	b.hs	.Ldcsctp_BB25_244
	mov	x10, xzr
	b	.Ldcsctp_BB25_248
.Ldcsctp_BB25_223:
	and	x11, x9, #0x18
	and	x10, x9, #0xffffffffffffffe0
	add	x12, x24, #20
	add	x13, x22, #16
	and	x14, x9, #0xffffffffffffffe0
.Ldcsctp_BB25_224:
	ldp	q0, q1, [x12, #-16]
	subs	x14, x14, #32
	add	x12, x12, #32
	stp	q0, q1, [x13, #-16]
	add	x13, x13, #32
	b.ne	.Ldcsctp_BB25_224
	cmp	x9, x10
	b.eq	.Ldcsctp_BB25_165
	cbz	x11, .Ldcsctp_BB25_162
.Ldcsctp_BB25_227:
	mov	x13, x10
	and	x10, x9, #0xfffffffffffffff8
	add	x12, x24, x13
	sub	x11, x13, x10
	add	x13, x22, x13
	add	x12, x12, #4
.Ldcsctp_BB25_228:
	ldr	d0, [x12], #8
	adds	x11, x11, #8
	str	d0, [x13], #8
	b.ne	.Ldcsctp_BB25_228
	cmp	x9, x10
	b.eq	.Ldcsctp_BB25_165
	b	.Ldcsctp_BB25_162
.Ldcsctp_BB25_230:
	and	x9, x21, #0x18
	and	x8, x21, #0xffffffffffffffe0
	add	x10, x24, #32
	add	x11, x22, #16
	and	x12, x21, #0xffffffffffffffe0
.Ldcsctp_BB25_231:
	ldp	q0, q1, [x10, #-16]
	subs	x12, x12, #32
	add	x10, x10, #32
	stp	q0, q1, [x11, #-16]
	add	x11, x11, #32
	b.ne	.Ldcsctp_BB25_231
	cmp	x21, x8
	b.eq	.Ldcsctp_BB25_174
	cbz	x9, .Ldcsctp_BB25_171
.Ldcsctp_BB25_234:
	and	x9, x27, #0x7
	add	x12, x8, #16
	add	x10, x22, x8
	add	x11, x12, x9
	sub	x8, x21, x9
	add	x12, x12, x24
	sub	x11, x11, x27
	sub	x11, x11, x28
.Ldcsctp_BB25_235:
	ldr	d0, [x12], #8
	adds	x11, x11, #8
	str	d0, [x10], #8
	b.ne	.Ldcsctp_BB25_235
	cbnz	x9, .Ldcsctp_BB25_171
	b	.Ldcsctp_BB25_174
.Ldcsctp_BB25_237:
	and	x9, x21, #0x18
	and	x8, x21, #0xffffffffffffffe0
	add	x10, x24, #36
	add	x11, x22, #16
	and	x12, x21, #0xffffffffffffffe0
.Ldcsctp_BB25_238:
	ldp	q0, q1, [x10, #-16]
	subs	x12, x12, #32
	add	x10, x10, #32
	stp	q0, q1, [x11, #-16]
	add	x11, x11, #32
	b.ne	.Ldcsctp_BB25_238
	cmp	x21, x8
	b.eq	.Ldcsctp_BB25_183
	cbz	x9, .Ldcsctp_BB25_180
.Ldcsctp_BB25_241:
	mov	x11, x8
	and	x8, x21, #0xfffffffffffffff8
	add	x10, x24, x11
	sub	x9, x11, x8
	add	x11, x22, x11
	add	x10, x10, #20
.Ldcsctp_BB25_242:
	ldr	d0, [x10], #8
	adds	x9, x9, #8
	str	d0, [x11], #8
	b.ne	.Ldcsctp_BB25_242
	cmp	x21, x8
	b.eq	.Ldcsctp_BB25_183
	b	.Ldcsctp_BB25_180
.Ldcsctp_BB25_244:
	and	x11, x9, #0x18
	and	x10, x9, #0xffffffffffffffe0
	add	x12, x24, #20
	add	x13, x22, #16
	and	x14, x9, #0xffffffffffffffe0
.Ldcsctp_BB25_245:
	ldp	q0, q1, [x12, #-16]
	subs	x14, x14, #32
	add	x12, x12, #32
	stp	q0, q1, [x13, #-16]
	add	x13, x13, #32
	b.ne	.Ldcsctp_BB25_245
	cmp	x9, x10
	b.eq	.Ldcsctp_BB25_201
	cbz	x11, .Ldcsctp_BB25_198
.Ldcsctp_BB25_248:
	mov	x13, x10
	and	x10, x9, #0xfffffffffffffff8
	add	x12, x24, x13
	sub	x11, x13, x10
	add	x13, x22, x13
	add	x12, x12, #4
.Ldcsctp_BB25_249:
	ldr	d0, [x12], #8
	adds	x11, x11, #8
	str	d0, [x13], #8
	b.ne	.Ldcsctp_BB25_249
	cmp	x9, x10
	b.eq	.Ldcsctp_BB25_201
	b	.Ldcsctp_BB25_198
.Ldcsctp_BB25_251:
	ldur	q0, [x29, #-112]
	ldur	x8, [x29, #-96]
	sub	x0, x29, #240
	stur	q0, [x29, #-240]
	stur	x8, [x29, #-224]
	bl	std_alloc.vec.Vec.drop.5e412c9b2b6de7d3
	mov	x0, x19
	bl	rattle_dealloc
	ldp	x19, x21, [x29, #-168]
	ldur	x20, [x29, #-152]
	cbz	x21, .Ldcsctp_BB25_259
	mov	x22, xzr
.Ldcsctp_BB25_253:
	add	x1, x19, x22
	sub	x2, x21, x22
	mov	w0, #1
	sub	x23, x21, x22
	bl	rattle_write
	tbnz	x0, #63, .Ldcsctp_BB25_257
	cmp	x0, x23
	csel	x8, x0, x23, lo
	cbz	x8, .Ldcsctp_BB25_258
	add	x22, x8, x22
	cmp	x22, x21
	b.lo	.Ldcsctp_BB25_253
	mov	w21, wzr
	b	.Ldcsctp_BB25_259
.Ldcsctp_BB25_257:
	sub	x0, x29, #112
	bl	std_io.io.error.last_error
.Ldcsctp_BB25_258:
	mov	w21, #2
.Ldcsctp_BB25_259:
	cbz	x20, .Ldcsctp_BB25_261
	mov	x0, x19
	bl	rattle_dealloc
.Ldcsctp_BB25_261:
	mov	w0, w21
	b	.Ldcsctp_BB25_44
.Ldcsctp_BB25_262:
	cbz	w20, .Ldcsctp_BB25_264
	mov	x0, x21
	bl	rattle_dealloc
.Ldcsctp_BB25_264:
	cbz	x25, .Ldcsctp_BB25_283
	ldur	x8, [x29, #-248]
	add	x20, x8, #32
	b	.Ldcsctp_BB25_269
.Ldcsctp_BB25_266:
	hint	#36
	cbz	x10, .Ldcsctp_BB25_268
.Ldcsctp_BB25_267:
	bl	rattle_dealloc
.Ldcsctp_BB25_268:
	hint	#36
	subs	x25, x25, #1
	add	x20, x20, #64
	b.eq	.Ldcsctp_BB25_283
.Ldcsctp_BB25_269:
	ldurb	w11, [x20, #-32]
	cmp	w11, #17
	b.hi	.Ldcsctp_BB25_286
	ldp	x8, x0, [x20, #-24]
	adrp	x12, .Ldcsctp_JTI25_2
	add	x12, x12, :lo12:.Ldcsctp_JTI25_2
	ldp	x9, x10, [x20, #-8]
	ldr	x21, [x20, #8]
	adr	x13, .Ldcsctp_BB25_266
	ldrb	w14, [x12, x11]
	add	x13, x13, x14, lsl #2
	br	x13
.Ldcsctp_BB25_271:
	hint	#36
	cbz	x9, .Ldcsctp_BB25_268
	mov	x0, x8
	b	.Ldcsctp_BB25_267
.Ldcsctp_BB25_273:
	hint	#36
	stp	x8, x0, [x29, #-136]
	stur	x9, [x29, #-120]
	b	.Ldcsctp_BB25_275
.Ldcsctp_BB25_274:
	hint	#36
	stp	x9, x10, [x29, #-136]
	stur	x21, [x29, #-120]
.Ldcsctp_BB25_275:
	sub	x0, x29, #136
	bl	std_alloc.vec.Vec.drop.765a829dcb308622
	b	.Ldcsctp_BB25_268
.Ldcsctp_BB25_276:
	hint	#36
	stp	x0, x9, [x29, #-136]
	stur	x10, [x29, #-120]
	b	.Ldcsctp_BB25_278
.Ldcsctp_BB25_277:
	hint	#36
	stp	x8, x0, [x29, #-136]
	stur	x9, [x29, #-120]
.Ldcsctp_BB25_278:
	sub	x0, x29, #136
	bl	std_alloc.vec.Vec.drop.694f3e952ffd1e0b
	b	.Ldcsctp_BB25_268
.Ldcsctp_BB25_279:
	hint	#36
	ldr	x22, [x20, #24]
	cbz	x10, .Ldcsctp_BB25_281
	bl	rattle_dealloc
.Ldcsctp_BB25_281:
	cbz	x22, .Ldcsctp_BB25_268
	mov	x0, x21
	b	.Ldcsctp_BB25_267
.Ldcsctp_BB25_283:
	sub	x8, x29, #8
	ldur	x8, [x8, #-256]
	cbz	x8, .Ldcsctp_BB25_285
	ldur	x0, [x29, #-248]
	bl	rattle_dealloc
.Ldcsctp_BB25_285:
	mov	x0, x19
	b	.Ldcsctp_BB25_35
.Ldcsctp_BB25_286:
	brk	#0x1
.Ldcsctp_func_end25:
	.size	rattle_main, .Ldcsctp_func_end25-rattle_main
	.cfi_endproc
	.section	.rodata.rattle_main,"a",@progbits
.Ldcsctp_JTI25_0:
	.byte	(.Ldcsctp_BB25_85-.Ldcsctp_BB25_68)>>2
	.byte	(.Ldcsctp_BB25_80-.Ldcsctp_BB25_68)>>2
	.byte	(.Ldcsctp_BB25_80-.Ldcsctp_BB25_68)>>2
	.byte	(.Ldcsctp_BB25_86-.Ldcsctp_BB25_68)>>2
	.byte	(.Ldcsctp_BB25_75-.Ldcsctp_BB25_68)>>2
	.byte	(.Ldcsctp_BB25_75-.Ldcsctp_BB25_68)>>2
	.byte	(.Ldcsctp_BB25_89-.Ldcsctp_BB25_68)>>2
	.byte	(.Ldcsctp_BB25_83-.Ldcsctp_BB25_68)>>2
	.byte	(.Ldcsctp_BB25_68-.Ldcsctp_BB25_68)>>2
	.byte	(.Ldcsctp_BB25_88-.Ldcsctp_BB25_68)>>2
	.byte	(.Ldcsctp_BB25_91-.Ldcsctp_BB25_68)>>2
	.byte	(.Ldcsctp_BB25_68-.Ldcsctp_BB25_68)>>2
	.byte	(.Ldcsctp_BB25_69-.Ldcsctp_BB25_68)>>2
	.byte	(.Ldcsctp_BB25_69-.Ldcsctp_BB25_68)>>2
	.byte	(.Ldcsctp_BB25_68-.Ldcsctp_BB25_68)>>2
	.byte	(.Ldcsctp_BB25_69-.Ldcsctp_BB25_68)>>2
	.byte	(.Ldcsctp_BB25_69-.Ldcsctp_BB25_68)>>2
	.byte	(.Ldcsctp_BB25_69-.Ldcsctp_BB25_68)>>2
	.byte	(.Ldcsctp_BB25_69-.Ldcsctp_BB25_68)>>2
	.byte	(.Ldcsctp_BB25_69-.Ldcsctp_BB25_68)>>2
	.byte	(.Ldcsctp_BB25_69-.Ldcsctp_BB25_68)>>2
	.byte	(.Ldcsctp_BB25_69-.Ldcsctp_BB25_68)>>2
	.byte	(.Ldcsctp_BB25_69-.Ldcsctp_BB25_68)>>2
	.byte	(.Ldcsctp_BB25_69-.Ldcsctp_BB25_68)>>2
	.byte	(.Ldcsctp_BB25_69-.Ldcsctp_BB25_68)>>2
	.byte	(.Ldcsctp_BB25_69-.Ldcsctp_BB25_68)>>2
	.byte	(.Ldcsctp_BB25_69-.Ldcsctp_BB25_68)>>2
	.byte	(.Ldcsctp_BB25_69-.Ldcsctp_BB25_68)>>2
	.byte	(.Ldcsctp_BB25_69-.Ldcsctp_BB25_68)>>2
	.byte	(.Ldcsctp_BB25_69-.Ldcsctp_BB25_68)>>2
	.byte	(.Ldcsctp_BB25_69-.Ldcsctp_BB25_68)>>2
	.byte	(.Ldcsctp_BB25_69-.Ldcsctp_BB25_68)>>2
	.byte	(.Ldcsctp_BB25_69-.Ldcsctp_BB25_68)>>2
	.byte	(.Ldcsctp_BB25_69-.Ldcsctp_BB25_68)>>2
	.byte	(.Ldcsctp_BB25_69-.Ldcsctp_BB25_68)>>2
	.byte	(.Ldcsctp_BB25_69-.Ldcsctp_BB25_68)>>2
	.byte	(.Ldcsctp_BB25_69-.Ldcsctp_BB25_68)>>2
	.byte	(.Ldcsctp_BB25_69-.Ldcsctp_BB25_68)>>2
	.byte	(.Ldcsctp_BB25_69-.Ldcsctp_BB25_68)>>2
	.byte	(.Ldcsctp_BB25_69-.Ldcsctp_BB25_68)>>2
	.byte	(.Ldcsctp_BB25_69-.Ldcsctp_BB25_68)>>2
	.byte	(.Ldcsctp_BB25_69-.Ldcsctp_BB25_68)>>2
	.byte	(.Ldcsctp_BB25_69-.Ldcsctp_BB25_68)>>2
	.byte	(.Ldcsctp_BB25_69-.Ldcsctp_BB25_68)>>2
	.byte	(.Ldcsctp_BB25_69-.Ldcsctp_BB25_68)>>2
	.byte	(.Ldcsctp_BB25_69-.Ldcsctp_BB25_68)>>2
	.byte	(.Ldcsctp_BB25_69-.Ldcsctp_BB25_68)>>2
	.byte	(.Ldcsctp_BB25_69-.Ldcsctp_BB25_68)>>2
	.byte	(.Ldcsctp_BB25_69-.Ldcsctp_BB25_68)>>2
	.byte	(.Ldcsctp_BB25_69-.Ldcsctp_BB25_68)>>2
	.byte	(.Ldcsctp_BB25_69-.Ldcsctp_BB25_68)>>2
	.byte	(.Ldcsctp_BB25_69-.Ldcsctp_BB25_68)>>2
	.byte	(.Ldcsctp_BB25_69-.Ldcsctp_BB25_68)>>2
	.byte	(.Ldcsctp_BB25_69-.Ldcsctp_BB25_68)>>2
	.byte	(.Ldcsctp_BB25_69-.Ldcsctp_BB25_68)>>2
	.byte	(.Ldcsctp_BB25_69-.Ldcsctp_BB25_68)>>2
	.byte	(.Ldcsctp_BB25_69-.Ldcsctp_BB25_68)>>2
	.byte	(.Ldcsctp_BB25_69-.Ldcsctp_BB25_68)>>2
	.byte	(.Ldcsctp_BB25_69-.Ldcsctp_BB25_68)>>2
	.byte	(.Ldcsctp_BB25_69-.Ldcsctp_BB25_68)>>2
	.byte	(.Ldcsctp_BB25_69-.Ldcsctp_BB25_68)>>2
	.byte	(.Ldcsctp_BB25_69-.Ldcsctp_BB25_68)>>2
	.byte	(.Ldcsctp_BB25_69-.Ldcsctp_BB25_68)>>2
	.byte	(.Ldcsctp_BB25_69-.Ldcsctp_BB25_68)>>2
	.byte	(.Ldcsctp_BB25_84-.Ldcsctp_BB25_68)>>2
	.byte	(.Ldcsctp_BB25_69-.Ldcsctp_BB25_68)>>2
	.byte	(.Ldcsctp_BB25_69-.Ldcsctp_BB25_68)>>2
	.byte	(.Ldcsctp_BB25_69-.Ldcsctp_BB25_68)>>2
	.byte	(.Ldcsctp_BB25_69-.Ldcsctp_BB25_68)>>2
	.byte	(.Ldcsctp_BB25_69-.Ldcsctp_BB25_68)>>2
	.byte	(.Ldcsctp_BB25_69-.Ldcsctp_BB25_68)>>2
	.byte	(.Ldcsctp_BB25_69-.Ldcsctp_BB25_68)>>2
	.byte	(.Ldcsctp_BB25_69-.Ldcsctp_BB25_68)>>2
	.byte	(.Ldcsctp_BB25_69-.Ldcsctp_BB25_68)>>2
	.byte	(.Ldcsctp_BB25_69-.Ldcsctp_BB25_68)>>2
	.byte	(.Ldcsctp_BB25_69-.Ldcsctp_BB25_68)>>2
	.byte	(.Ldcsctp_BB25_69-.Ldcsctp_BB25_68)>>2
	.byte	(.Ldcsctp_BB25_69-.Ldcsctp_BB25_68)>>2
	.byte	(.Ldcsctp_BB25_69-.Ldcsctp_BB25_68)>>2
	.byte	(.Ldcsctp_BB25_69-.Ldcsctp_BB25_68)>>2
	.byte	(.Ldcsctp_BB25_69-.Ldcsctp_BB25_68)>>2
	.byte	(.Ldcsctp_BB25_69-.Ldcsctp_BB25_68)>>2
	.byte	(.Ldcsctp_BB25_69-.Ldcsctp_BB25_68)>>2
	.byte	(.Ldcsctp_BB25_69-.Ldcsctp_BB25_68)>>2
	.byte	(.Ldcsctp_BB25_69-.Ldcsctp_BB25_68)>>2
	.byte	(.Ldcsctp_BB25_69-.Ldcsctp_BB25_68)>>2
	.byte	(.Ldcsctp_BB25_69-.Ldcsctp_BB25_68)>>2
	.byte	(.Ldcsctp_BB25_69-.Ldcsctp_BB25_68)>>2
	.byte	(.Ldcsctp_BB25_69-.Ldcsctp_BB25_68)>>2
	.byte	(.Ldcsctp_BB25_69-.Ldcsctp_BB25_68)>>2
	.byte	(.Ldcsctp_BB25_69-.Ldcsctp_BB25_68)>>2
	.byte	(.Ldcsctp_BB25_69-.Ldcsctp_BB25_68)>>2
	.byte	(.Ldcsctp_BB25_69-.Ldcsctp_BB25_68)>>2
	.byte	(.Ldcsctp_BB25_69-.Ldcsctp_BB25_68)>>2
	.byte	(.Ldcsctp_BB25_69-.Ldcsctp_BB25_68)>>2
	.byte	(.Ldcsctp_BB25_69-.Ldcsctp_BB25_68)>>2
	.byte	(.Ldcsctp_BB25_69-.Ldcsctp_BB25_68)>>2
	.byte	(.Ldcsctp_BB25_69-.Ldcsctp_BB25_68)>>2
	.byte	(.Ldcsctp_BB25_69-.Ldcsctp_BB25_68)>>2
	.byte	(.Ldcsctp_BB25_69-.Ldcsctp_BB25_68)>>2
	.byte	(.Ldcsctp_BB25_69-.Ldcsctp_BB25_68)>>2
	.byte	(.Ldcsctp_BB25_69-.Ldcsctp_BB25_68)>>2
	.byte	(.Ldcsctp_BB25_69-.Ldcsctp_BB25_68)>>2
	.byte	(.Ldcsctp_BB25_69-.Ldcsctp_BB25_68)>>2
	.byte	(.Ldcsctp_BB25_69-.Ldcsctp_BB25_68)>>2
	.byte	(.Ldcsctp_BB25_69-.Ldcsctp_BB25_68)>>2
	.byte	(.Ldcsctp_BB25_69-.Ldcsctp_BB25_68)>>2
	.byte	(.Ldcsctp_BB25_69-.Ldcsctp_BB25_68)>>2
	.byte	(.Ldcsctp_BB25_69-.Ldcsctp_BB25_68)>>2
	.byte	(.Ldcsctp_BB25_69-.Ldcsctp_BB25_68)>>2
	.byte	(.Ldcsctp_BB25_69-.Ldcsctp_BB25_68)>>2
	.byte	(.Ldcsctp_BB25_69-.Ldcsctp_BB25_68)>>2
	.byte	(.Ldcsctp_BB25_69-.Ldcsctp_BB25_68)>>2
	.byte	(.Ldcsctp_BB25_69-.Ldcsctp_BB25_68)>>2
	.byte	(.Ldcsctp_BB25_69-.Ldcsctp_BB25_68)>>2
	.byte	(.Ldcsctp_BB25_69-.Ldcsctp_BB25_68)>>2
	.byte	(.Ldcsctp_BB25_69-.Ldcsctp_BB25_68)>>2
	.byte	(.Ldcsctp_BB25_69-.Ldcsctp_BB25_68)>>2
	.byte	(.Ldcsctp_BB25_69-.Ldcsctp_BB25_68)>>2
	.byte	(.Ldcsctp_BB25_69-.Ldcsctp_BB25_68)>>2
	.byte	(.Ldcsctp_BB25_69-.Ldcsctp_BB25_68)>>2
	.byte	(.Ldcsctp_BB25_69-.Ldcsctp_BB25_68)>>2
	.byte	(.Ldcsctp_BB25_69-.Ldcsctp_BB25_68)>>2
	.byte	(.Ldcsctp_BB25_69-.Ldcsctp_BB25_68)>>2
	.byte	(.Ldcsctp_BB25_69-.Ldcsctp_BB25_68)>>2
	.byte	(.Ldcsctp_BB25_69-.Ldcsctp_BB25_68)>>2
	.byte	(.Ldcsctp_BB25_69-.Ldcsctp_BB25_68)>>2
	.byte	(.Ldcsctp_BB25_69-.Ldcsctp_BB25_68)>>2
	.byte	(.Ldcsctp_BB25_69-.Ldcsctp_BB25_68)>>2
	.byte	(.Ldcsctp_BB25_69-.Ldcsctp_BB25_68)>>2
	.byte	(.Ldcsctp_BB25_75-.Ldcsctp_BB25_68)>>2
	.p2align	1, 0x0
.Ldcsctp_JTI25_1:
	.hword	(.Ldcsctp_BB25_108-.Ldcsctp_BB25_103)>>2
	.hword	(.Ldcsctp_BB25_126-.Ldcsctp_BB25_103)>>2
	.hword	(.Ldcsctp_BB25_133-.Ldcsctp_BB25_103)>>2
	.hword	(.Ldcsctp_BB25_135-.Ldcsctp_BB25_103)>>2
	.hword	(.Ldcsctp_BB25_142-.Ldcsctp_BB25_103)>>2
	.hword	(.Ldcsctp_BB25_144-.Ldcsctp_BB25_103)>>2
	.hword	(.Ldcsctp_BB25_131-.Ldcsctp_BB25_103)>>2
	.hword	(.Ldcsctp_BB25_143-.Ldcsctp_BB25_103)>>2
	.hword	(.Ldcsctp_BB25_125-.Ldcsctp_BB25_103)>>2
	.hword	(.Ldcsctp_BB25_123-.Ldcsctp_BB25_103)>>2
	.hword	(.Ldcsctp_BB25_145-.Ldcsctp_BB25_103)>>2
	.hword	(.Ldcsctp_BB25_149-.Ldcsctp_BB25_103)>>2
	.hword	(.Ldcsctp_BB25_119-.Ldcsctp_BB25_103)>>2
	.hword	(.Ldcsctp_BB25_119-.Ldcsctp_BB25_103)>>2
	.hword	(.Ldcsctp_BB25_124-.Ldcsctp_BB25_103)>>2
	.hword	(.Ldcsctp_BB25_119-.Ldcsctp_BB25_103)>>2
	.hword	(.Ldcsctp_BB25_119-.Ldcsctp_BB25_103)>>2
	.hword	(.Ldcsctp_BB25_119-.Ldcsctp_BB25_103)>>2
	.hword	(.Ldcsctp_BB25_119-.Ldcsctp_BB25_103)>>2
	.hword	(.Ldcsctp_BB25_119-.Ldcsctp_BB25_103)>>2
	.hword	(.Ldcsctp_BB25_119-.Ldcsctp_BB25_103)>>2
	.hword	(.Ldcsctp_BB25_119-.Ldcsctp_BB25_103)>>2
	.hword	(.Ldcsctp_BB25_119-.Ldcsctp_BB25_103)>>2
	.hword	(.Ldcsctp_BB25_119-.Ldcsctp_BB25_103)>>2
	.hword	(.Ldcsctp_BB25_119-.Ldcsctp_BB25_103)>>2
	.hword	(.Ldcsctp_BB25_119-.Ldcsctp_BB25_103)>>2
	.hword	(.Ldcsctp_BB25_119-.Ldcsctp_BB25_103)>>2
	.hword	(.Ldcsctp_BB25_119-.Ldcsctp_BB25_103)>>2
	.hword	(.Ldcsctp_BB25_119-.Ldcsctp_BB25_103)>>2
	.hword	(.Ldcsctp_BB25_119-.Ldcsctp_BB25_103)>>2
	.hword	(.Ldcsctp_BB25_119-.Ldcsctp_BB25_103)>>2
	.hword	(.Ldcsctp_BB25_119-.Ldcsctp_BB25_103)>>2
	.hword	(.Ldcsctp_BB25_119-.Ldcsctp_BB25_103)>>2
	.hword	(.Ldcsctp_BB25_119-.Ldcsctp_BB25_103)>>2
	.hword	(.Ldcsctp_BB25_119-.Ldcsctp_BB25_103)>>2
	.hword	(.Ldcsctp_BB25_119-.Ldcsctp_BB25_103)>>2
	.hword	(.Ldcsctp_BB25_119-.Ldcsctp_BB25_103)>>2
	.hword	(.Ldcsctp_BB25_119-.Ldcsctp_BB25_103)>>2
	.hword	(.Ldcsctp_BB25_119-.Ldcsctp_BB25_103)>>2
	.hword	(.Ldcsctp_BB25_119-.Ldcsctp_BB25_103)>>2
	.hword	(.Ldcsctp_BB25_119-.Ldcsctp_BB25_103)>>2
	.hword	(.Ldcsctp_BB25_119-.Ldcsctp_BB25_103)>>2
	.hword	(.Ldcsctp_BB25_119-.Ldcsctp_BB25_103)>>2
	.hword	(.Ldcsctp_BB25_119-.Ldcsctp_BB25_103)>>2
	.hword	(.Ldcsctp_BB25_119-.Ldcsctp_BB25_103)>>2
	.hword	(.Ldcsctp_BB25_119-.Ldcsctp_BB25_103)>>2
	.hword	(.Ldcsctp_BB25_119-.Ldcsctp_BB25_103)>>2
	.hword	(.Ldcsctp_BB25_119-.Ldcsctp_BB25_103)>>2
	.hword	(.Ldcsctp_BB25_119-.Ldcsctp_BB25_103)>>2
	.hword	(.Ldcsctp_BB25_119-.Ldcsctp_BB25_103)>>2
	.hword	(.Ldcsctp_BB25_119-.Ldcsctp_BB25_103)>>2
	.hword	(.Ldcsctp_BB25_119-.Ldcsctp_BB25_103)>>2
	.hword	(.Ldcsctp_BB25_119-.Ldcsctp_BB25_103)>>2
	.hword	(.Ldcsctp_BB25_119-.Ldcsctp_BB25_103)>>2
	.hword	(.Ldcsctp_BB25_119-.Ldcsctp_BB25_103)>>2
	.hword	(.Ldcsctp_BB25_119-.Ldcsctp_BB25_103)>>2
	.hword	(.Ldcsctp_BB25_119-.Ldcsctp_BB25_103)>>2
	.hword	(.Ldcsctp_BB25_119-.Ldcsctp_BB25_103)>>2
	.hword	(.Ldcsctp_BB25_119-.Ldcsctp_BB25_103)>>2
	.hword	(.Ldcsctp_BB25_119-.Ldcsctp_BB25_103)>>2
	.hword	(.Ldcsctp_BB25_119-.Ldcsctp_BB25_103)>>2
	.hword	(.Ldcsctp_BB25_119-.Ldcsctp_BB25_103)>>2
	.hword	(.Ldcsctp_BB25_119-.Ldcsctp_BB25_103)>>2
	.hword	(.Ldcsctp_BB25_119-.Ldcsctp_BB25_103)>>2
	.hword	(.Ldcsctp_BB25_127-.Ldcsctp_BB25_103)>>2
	.hword	(.Ldcsctp_BB25_119-.Ldcsctp_BB25_103)>>2
	.hword	(.Ldcsctp_BB25_119-.Ldcsctp_BB25_103)>>2
	.hword	(.Ldcsctp_BB25_119-.Ldcsctp_BB25_103)>>2
	.hword	(.Ldcsctp_BB25_119-.Ldcsctp_BB25_103)>>2
	.hword	(.Ldcsctp_BB25_119-.Ldcsctp_BB25_103)>>2
	.hword	(.Ldcsctp_BB25_119-.Ldcsctp_BB25_103)>>2
	.hword	(.Ldcsctp_BB25_119-.Ldcsctp_BB25_103)>>2
	.hword	(.Ldcsctp_BB25_119-.Ldcsctp_BB25_103)>>2
	.hword	(.Ldcsctp_BB25_119-.Ldcsctp_BB25_103)>>2
	.hword	(.Ldcsctp_BB25_119-.Ldcsctp_BB25_103)>>2
	.hword	(.Ldcsctp_BB25_119-.Ldcsctp_BB25_103)>>2
	.hword	(.Ldcsctp_BB25_119-.Ldcsctp_BB25_103)>>2
	.hword	(.Ldcsctp_BB25_119-.Ldcsctp_BB25_103)>>2
	.hword	(.Ldcsctp_BB25_119-.Ldcsctp_BB25_103)>>2
	.hword	(.Ldcsctp_BB25_119-.Ldcsctp_BB25_103)>>2
	.hword	(.Ldcsctp_BB25_119-.Ldcsctp_BB25_103)>>2
	.hword	(.Ldcsctp_BB25_119-.Ldcsctp_BB25_103)>>2
	.hword	(.Ldcsctp_BB25_119-.Ldcsctp_BB25_103)>>2
	.hword	(.Ldcsctp_BB25_119-.Ldcsctp_BB25_103)>>2
	.hword	(.Ldcsctp_BB25_119-.Ldcsctp_BB25_103)>>2
	.hword	(.Ldcsctp_BB25_119-.Ldcsctp_BB25_103)>>2
	.hword	(.Ldcsctp_BB25_119-.Ldcsctp_BB25_103)>>2
	.hword	(.Ldcsctp_BB25_119-.Ldcsctp_BB25_103)>>2
	.hword	(.Ldcsctp_BB25_119-.Ldcsctp_BB25_103)>>2
	.hword	(.Ldcsctp_BB25_119-.Ldcsctp_BB25_103)>>2
	.hword	(.Ldcsctp_BB25_119-.Ldcsctp_BB25_103)>>2
	.hword	(.Ldcsctp_BB25_119-.Ldcsctp_BB25_103)>>2
	.hword	(.Ldcsctp_BB25_119-.Ldcsctp_BB25_103)>>2
	.hword	(.Ldcsctp_BB25_119-.Ldcsctp_BB25_103)>>2
	.hword	(.Ldcsctp_BB25_119-.Ldcsctp_BB25_103)>>2
	.hword	(.Ldcsctp_BB25_119-.Ldcsctp_BB25_103)>>2
	.hword	(.Ldcsctp_BB25_119-.Ldcsctp_BB25_103)>>2
	.hword	(.Ldcsctp_BB25_119-.Ldcsctp_BB25_103)>>2
	.hword	(.Ldcsctp_BB25_119-.Ldcsctp_BB25_103)>>2
	.hword	(.Ldcsctp_BB25_119-.Ldcsctp_BB25_103)>>2
	.hword	(.Ldcsctp_BB25_119-.Ldcsctp_BB25_103)>>2
	.hword	(.Ldcsctp_BB25_119-.Ldcsctp_BB25_103)>>2
	.hword	(.Ldcsctp_BB25_119-.Ldcsctp_BB25_103)>>2
	.hword	(.Ldcsctp_BB25_119-.Ldcsctp_BB25_103)>>2
	.hword	(.Ldcsctp_BB25_119-.Ldcsctp_BB25_103)>>2
	.hword	(.Ldcsctp_BB25_119-.Ldcsctp_BB25_103)>>2
	.hword	(.Ldcsctp_BB25_119-.Ldcsctp_BB25_103)>>2
	.hword	(.Ldcsctp_BB25_119-.Ldcsctp_BB25_103)>>2
	.hword	(.Ldcsctp_BB25_119-.Ldcsctp_BB25_103)>>2
	.hword	(.Ldcsctp_BB25_119-.Ldcsctp_BB25_103)>>2
	.hword	(.Ldcsctp_BB25_119-.Ldcsctp_BB25_103)>>2
	.hword	(.Ldcsctp_BB25_119-.Ldcsctp_BB25_103)>>2
	.hword	(.Ldcsctp_BB25_119-.Ldcsctp_BB25_103)>>2
	.hword	(.Ldcsctp_BB25_119-.Ldcsctp_BB25_103)>>2
	.hword	(.Ldcsctp_BB25_119-.Ldcsctp_BB25_103)>>2
	.hword	(.Ldcsctp_BB25_119-.Ldcsctp_BB25_103)>>2
	.hword	(.Ldcsctp_BB25_119-.Ldcsctp_BB25_103)>>2
	.hword	(.Ldcsctp_BB25_119-.Ldcsctp_BB25_103)>>2
	.hword	(.Ldcsctp_BB25_119-.Ldcsctp_BB25_103)>>2
	.hword	(.Ldcsctp_BB25_119-.Ldcsctp_BB25_103)>>2
	.hword	(.Ldcsctp_BB25_119-.Ldcsctp_BB25_103)>>2
	.hword	(.Ldcsctp_BB25_119-.Ldcsctp_BB25_103)>>2
	.hword	(.Ldcsctp_BB25_119-.Ldcsctp_BB25_103)>>2
	.hword	(.Ldcsctp_BB25_119-.Ldcsctp_BB25_103)>>2
	.hword	(.Ldcsctp_BB25_119-.Ldcsctp_BB25_103)>>2
	.hword	(.Ldcsctp_BB25_119-.Ldcsctp_BB25_103)>>2
	.hword	(.Ldcsctp_BB25_119-.Ldcsctp_BB25_103)>>2
	.hword	(.Ldcsctp_BB25_119-.Ldcsctp_BB25_103)>>2
	.hword	(.Ldcsctp_BB25_119-.Ldcsctp_BB25_103)>>2
	.hword	(.Ldcsctp_BB25_119-.Ldcsctp_BB25_103)>>2
	.hword	(.Ldcsctp_BB25_103-.Ldcsctp_BB25_103)>>2
.Ldcsctp_JTI25_2:
	.byte	(.Ldcsctp_BB25_271-.Ldcsctp_BB25_266)>>2
	.byte	(.Ldcsctp_BB25_274-.Ldcsctp_BB25_266)>>2
	.byte	(.Ldcsctp_BB25_274-.Ldcsctp_BB25_266)>>2
	.byte	(.Ldcsctp_BB25_279-.Ldcsctp_BB25_266)>>2
	.byte	(.Ldcsctp_BB25_273-.Ldcsctp_BB25_266)>>2
	.byte	(.Ldcsctp_BB25_273-.Ldcsctp_BB25_266)>>2
	.byte	(.Ldcsctp_BB25_276-.Ldcsctp_BB25_266)>>2
	.byte	(.Ldcsctp_BB25_268-.Ldcsctp_BB25_266)>>2
	.byte	(.Ldcsctp_BB25_268-.Ldcsctp_BB25_266)>>2
	.byte	(.Ldcsctp_BB25_277-.Ldcsctp_BB25_266)>>2
	.byte	(.Ldcsctp_BB25_271-.Ldcsctp_BB25_266)>>2
	.byte	(.Ldcsctp_BB25_268-.Ldcsctp_BB25_266)>>2
	.byte	(.Ldcsctp_BB25_268-.Ldcsctp_BB25_266)>>2
	.byte	(.Ldcsctp_BB25_271-.Ldcsctp_BB25_266)>>2
	.byte	(.Ldcsctp_BB25_273-.Ldcsctp_BB25_266)>>2
	.byte	(.Ldcsctp_BB25_266-.Ldcsctp_BB25_266)>>2
	.byte	(.Ldcsctp_BB25_266-.Ldcsctp_BB25_266)>>2
	.byte	(.Ldcsctp_BB25_266-.Ldcsctp_BB25_266)>>2
	.type	.Ldcsctp_static.0,@object
	.section	.rodata..Lstatic.0,"a",@progbits
.Ldcsctp_static.0:
	.ascii	"Failed to parse abort reason"
	.size	.Ldcsctp_static.0, 28
	.type	.Ldcsctp_static.1,@object
	.section	.rodata..Lstatic.1,"a",@progbits
.Ldcsctp_static.1:
	.ascii	"Failed to parse additional information"
	.size	.Ldcsctp_static.1, 38
	.type	.Ldcsctp_static.2,@object
	.section	.rodata..Lstatic.2,"a",@progbits
.Ldcsctp_static.2:
	.byte	10
	.size	.Ldcsctp_static.2, 1
	.type	.Ldcsctp_static.3,@object
	.section	.rodata..Lstatic.3,"a",@progbits
.Ldcsctp_static.3:
	.ascii	"source="
	.size	.Ldcsctp_static.3, 7
	.type	.Ldcsctp_static.4,@object
	.section	.rodata..Lstatic.4,"a",@progbits
.Ldcsctp_static.4:
	.ascii	" destination="
	.size	.Ldcsctp_static.4, 13
	.type	.Ldcsctp_static.5,@object
	.section	.rodata..Lstatic.5,"a",@progbits
.Ldcsctp_static.5:
	.ascii	" tag="
	.size	.Ldcsctp_static.5, 5
	.type	.Ldcsctp_static.6,@object
	.section	.rodata..Lstatic.6,"a",@progbits
.Ldcsctp_static.6:
	.ascii	" checksum="
	.size	.Ldcsctp_static.6, 10
	.type	.Ldcsctp_static.7,@object
	.section	.rodata.cst4,"aM",@progbits,4
.Ldcsctp_static.7:
	.zero	4,32
	.size	.Ldcsctp_static.7, 4
	.type	.Ldcsctp_static.8,@object
	.section	.rodata..Lstatic.8,"a",@progbits
.Ldcsctp_static.8:
	.size	.Ldcsctp_static.8, 0
	.type	.Ldcsctp_static.11,@object
	.section	.rodata..Lstatic.11,"a",@progbits
.Ldcsctp_static.11:
	.ascii	"SHUTDOWN cumulative_tsn_ack="
	.size	.Ldcsctp_static.11, 28
	.type	.Ldcsctp_static.12,@object
	.section	.rodata..Lstatic.12,"a",@progbits
.Ldcsctp_static.12:
	.ascii	"SHUTDOWN-ACK"
	.size	.Ldcsctp_static.12, 12
	.type	.Ldcsctp_static.13,@object
	.section	.rodata..Lstatic.13,"a",@progbits
.Ldcsctp_static.13:
	.ascii	"COOKIE-ACK"
	.size	.Ldcsctp_static.13, 10
	.type	.Ldcsctp_static.14,@object
	.section	.rodata..Lstatic.14,"a",@progbits
.Ldcsctp_static.14:
	.ascii	"SHUTDOWN-COMPLETE, tag_reflected="
	.size	.Ldcsctp_static.14, 33
	.type	.Ldcsctp_static.15,@object
	.section	.rodata.cst4,"aM",@progbits,4
.Ldcsctp_static.15:
	.ascii	"true"
	.size	.Ldcsctp_static.15, 4
	.type	.Ldcsctp_static.16,@object
	.section	.rodata..Lstatic.16,"a",@progbits
.Ldcsctp_static.16:
	.ascii	"false"
	.size	.Ldcsctp_static.16, 5
	.type	.Ldcsctp_static.17,@object
	.section	.rodata..Lstatic.17,"a",@progbits
.Ldcsctp_static.17:
	.ascii	"DATA, type="
	.size	.Ldcsctp_static.17, 11
	.type	.Ldcsctp_static.18,@object
	.section	.rodata..Lstatic.18,"a",@progbits
.Ldcsctp_static.18:
	.zero	2,58
	.size	.Ldcsctp_static.18, 2
	.type	.Ldcsctp_static.19,@object
	.section	.rodata..Lstatic.19,"a",@progbits
.Ldcsctp_static.19:
	.ascii	", tsn="
	.size	.Ldcsctp_static.19, 6
	.type	.Ldcsctp_static.20,@object
	.section	.rodata..Lstatic.20,"a",@progbits
.Ldcsctp_static.20:
	.ascii	", sid="
	.size	.Ldcsctp_static.20, 6
	.type	.Ldcsctp_static.21,@object
	.section	.rodata..Lstatic.21,"a",@progbits
.Ldcsctp_static.21:
	.ascii	", ssn="
	.size	.Ldcsctp_static.21, 6
	.type	.Ldcsctp_static.22,@object
	.section	.rodata..Lstatic.22,"a",@progbits
.Ldcsctp_static.22:
	.ascii	", ppid="
	.size	.Ldcsctp_static.22, 7
	.type	.Ldcsctp_static.23,@object
	.section	.rodata..Lstatic.23,"a",@progbits
.Ldcsctp_static.23:
	.ascii	", length="
	.size	.Ldcsctp_static.23, 9
	.type	.Ldcsctp_static.24,@object
	.section	.rodata..Lstatic.24,"a",@progbits
.Ldcsctp_static.24:
	.ascii	"unordered"
	.size	.Ldcsctp_static.24, 9
	.type	.Ldcsctp_static.25,@object
	.section	.rodata..Lstatic.25,"a",@progbits
.Ldcsctp_static.25:
	.ascii	"ordered"
	.size	.Ldcsctp_static.25, 7
	.type	.Ldcsctp_static.26,@object
	.section	.rodata.cst8,"aM",@progbits,8
.Ldcsctp_static.26:
	.ascii	"complete"
	.size	.Ldcsctp_static.26, 8
	.type	.Ldcsctp_static.27,@object
	.section	.rodata..Lstatic.27,"a",@progbits
.Ldcsctp_static.27:
	.ascii	"first"
	.size	.Ldcsctp_static.27, 5
	.type	.Ldcsctp_static.28,@object
	.section	.rodata.cst4,"aM",@progbits,4
.Ldcsctp_static.28:
	.ascii	"last"
	.size	.Ldcsctp_static.28, 4
	.type	.Ldcsctp_static.29,@object
	.section	.rodata..Lstatic.29,"a",@progbits
.Ldcsctp_static.29:
	.ascii	"middle"
	.size	.Ldcsctp_static.29, 6
	.type	.Ldcsctp_static.30,@object
	.section	.rodata..Lstatic.30,"a",@progbits
.Ldcsctp_static.30:
	.ascii	"SACK, cum_ack_tsn="
	.size	.Ldcsctp_static.30, 18
	.type	.Ldcsctp_static.31,@object
	.section	.rodata..Lstatic.31,"a",@progbits
.Ldcsctp_static.31:
	.ascii	", a_rwnd="
	.size	.Ldcsctp_static.31, 9
	.type	.Ldcsctp_static.32,@object
	.section	.rodata..Lstatic.32,"a",@progbits
.Ldcsctp_static.32:
	.ascii	"COOKIE-ECHO, cookie="
	.size	.Ldcsctp_static.32, 20
	.type	.Ldcsctp_static.33,@object
	.section	.rodata..Lstatic.33,"a",@progbits
.Ldcsctp_static.33:
	.ascii	" bytes"
	.size	.Ldcsctp_static.33, 6
	.type	.Ldcsctp_static.34,@object
	.section	.rodata..Lstatic.34,"a",@progbits
.Ldcsctp_static.34:
	.ascii	"I-DATA, type="
	.size	.Ldcsctp_static.34, 13
	.type	.Ldcsctp_static.35,@object
	.section	.rodata..Lstatic.35,"a",@progbits
.Ldcsctp_static.35:
	.ascii	", mid="
	.size	.Ldcsctp_static.35, 6
	.type	.Ldcsctp_static.36,@object
	.section	.rodata.cst32,"aM",@progbits,32
.Ldcsctp_static.36:
	.ascii	"FORWARD-TSN, new_cumulative_tsn="
	.size	.Ldcsctp_static.36, 32
	.type	.Ldcsctp_static.37,@object
	.section	.rodata..Lstatic.37,"a",@progbits
.Ldcsctp_static.37:
	.ascii	"I-FORWARD-TSN, new_cumulative_tsn="
	.size	.Ldcsctp_static.37, 34
	.type	.Ldcsctp_static.38,@object
	.section	.rodata..Lstatic.38,"a",@progbits
.Ldcsctp_static.38:
	.ascii	"INIT, initiate_tag="
	.size	.Ldcsctp_static.38, 19
	.type	.Ldcsctp_static.39,@object
	.section	.rodata..Lstatic.39,"a",@progbits
.Ldcsctp_static.39:
	.ascii	", initial_tsn="
	.size	.Ldcsctp_static.39, 14
	.type	.Ldcsctp_static.40,@object
	.section	.rodata..Lstatic.40,"a",@progbits
.Ldcsctp_static.40:
	.ascii	"INIT-ACK, initiate_tag="
	.size	.Ldcsctp_static.40, 23
	.type	.Ldcsctp_static.41,@object
	.section	.rodata..Lstatic.41,"a",@progbits
.Ldcsctp_static.41:
	.ascii	"HEARTBEAT-REQ"
	.size	.Ldcsctp_static.41, 13
	.type	.Ldcsctp_static.42,@object
	.section	.rodata..Lstatic.42,"a",@progbits
.Ldcsctp_static.42:
	.ascii	"HEARTBEAT-ACK"
	.size	.Ldcsctp_static.42, 13
	.type	.Ldcsctp_static.43,@object
	.section	.rodata..Lstatic.43,"a",@progbits
.Ldcsctp_static.43:
	.ascii	"ABORT, tag_reflected="
	.size	.Ldcsctp_static.43, 21
	.type	.Ldcsctp_static.44,@object
	.section	.rodata..Lstatic.44,"a",@progbits
.Ldcsctp_static.44:
	.ascii	"ERROR"
	.size	.Ldcsctp_static.44, 5
	.type	.Ldcsctp_static.45,@object
	.section	.rodata..Lstatic.45,"a",@progbits
.Ldcsctp_static.45:
	.ascii	"RE-CONFIG"
	.size	.Ldcsctp_static.45, 9
	.type	.Ldcsctp_static.46,@object
	.section	.rodata..Lstatic.46,"a",@progbits
.Ldcsctp_static.46:
	.ascii	"Unknown chunk, type="
	.size	.Ldcsctp_static.46, 20
	.type	.Ldcsctp_static.47,@object
	.section	.rodata..Lstatic.47,"a",@progbits
.Ldcsctp_static.47:
	.ascii	"canonical too long\n"
	.size	.Ldcsctp_static.47, 19
	.type	.Ldcsctp_static.48,@object
	.section	.rodata..Lstatic.48,"a",@progbits
.Ldcsctp_static.48:
	.ascii	"canonical="
	.size	.Ldcsctp_static.48, 10
	.type	.Ldcsctp_static.50,@object
	.section	.rodata.cst16,"aM",@progbits,16
.Ldcsctp_static.50:
	.ascii	"0123456789abcdef"
	.size	.Ldcsctp_static.50, 16
	.type	.Ldcsctp_static.51,@object
	.section	.rodata..Lstatic.51,"a",@progbits
.Ldcsctp_static.51:
	.ascii	"error: out of memory\n"
	.size	.Ldcsctp_static.51, 21
	.type	.Ldcsctp_static.52,@object
	.section	.rodata..Lstatic.52,"a",@progbits
.Ldcsctp_static.52:
	.ascii	"error: read failed\n"
	.size	.Ldcsctp_static.52, 19
	.type	.Ldcsctp_static.53,@object
	.section	.rodata..Lstatic.53,"a",@progbits
.Ldcsctp_static.53:
	.ascii	"error: input too long\n"
	.size	.Ldcsctp_static.53, 22
	.type	.Ldcsctp_static.54,@object
	.section	.rodata..Lstatic.54,"a",@progbits
.Ldcsctp_static.54:
	.ascii	"error: not hexadecimal\n"
	.size	.Ldcsctp_static.54, 23
	.type	.Ldcsctp_static.55,@object
	.section	.rodata..Lstatic.55,"a",@progbits
.Ldcsctp_static.55:
	.ascii	"error: invalid packet size\n"
	.size	.Ldcsctp_static.55, 27
	.type	.Ldcsctp_static.58,@object
	.section	.rodata..Lstatic.58,"a",@progbits
.Ldcsctp_static.58:
	.ascii	"error: invalid chunk: length\n"
	.size	.Ldcsctp_static.58, 29
	.type	.Ldcsctp_static.59,@object
	.section	.rodata..Lstatic.59,"a",@progbits
.Ldcsctp_static.59:
	.ascii	"error: invalid chunk: type\n"
	.size	.Ldcsctp_static.59, 27
	.type	.Ldcsctp_static.60,@object
	.section	.rodata..Lstatic.60,"a",@progbits
.Ldcsctp_static.60:
	.ascii	"error: invalid chunk: padding\n"
	.size	.Ldcsctp_static.60, 30
	.type	.Ldcsctp_static.61,@object
	.section	.rodata..Lstatic.61,"a",@progbits
.Ldcsctp_static.61:
	.ascii	"error: invalid chunk: value\n"
	.size	.Ldcsctp_static.61, 28
	.type	.Ldcsctp_switch.table.rattle_main,@object
	.section	.rodata..Lswitch.table.rattle_main,"a",@progbits
	.p2align	3, 0x0
.Ldcsctp_switch.table.rattle_main:
	.xword	29
	.xword	27
	.xword	30
	.xword	28
	.xword	21
	.size	.Ldcsctp_switch.table.rattle_main, 40
	.type	.Ldcsctp_switch.table.rattle_main.391.rel,@object
	.section	.rodata..Lswitch.table.rattle_main.391.rel,"a",@progbits
	.p2align	2, 0x0
.Ldcsctp_switch.table.rattle_main.391.rel:
	.word	.Ldcsctp_static.58-.Ldcsctp_switch.table.rattle_main.391.rel
	.word	.Ldcsctp_static.59-.Ldcsctp_switch.table.rattle_main.391.rel
	.word	.Ldcsctp_static.60-.Ldcsctp_switch.table.rattle_main.391.rel
	.word	.Ldcsctp_static.61-.Ldcsctp_switch.table.rattle_main.391.rel
	.word	.Ldcsctp_static.51-.Ldcsctp_switch.table.rattle_main.391.rel
	.size	.Ldcsctp_switch.table.rattle_main.391.rel, 20
	.ident	"rattle logic=dac8208d650f15bf3e2dc313a14fa4c783a3acf887bdfab66e1714b038d9e11b"
	.section	".note.GNU-stack","",@progbits
	.section	.text.rattle_alloc,"ax",@progbits
	.p2align	2
	.type	rattle_alloc,@function
rattle_alloc:
	.cfi_startproc
	hint	#25
	.cfi_negate_ra_state
	stp	x29, x30, [sp, #-16]!
	.cfi_def_cfa_offset 16
	mov	x29, sp
	.cfi_def_cfa w29, 16
	.cfi_offset w30, -8
	.cfi_offset w29, -16
	cmp	x0, #0
	csel	x0, x1, x0, eq
	bl	malloc
	cmp	x0, #0
	adrp	x9, rattle_none
	add	x9, x9, :lo12:rattle_none
	cset	w8, ne
	csel	x1, x0, x9, ne
	mov	x0, x8
	.cfi_def_cfa wsp, 16
	ldp	x29, x30, [sp], #16
	.cfi_def_cfa_offset 0
	.cfi_restore w30
	.cfi_restore w29
	hint	#29
	.cfi_negate_ra_state
	ret
.Ldcsctp_heap_func_end0:
	.size	rattle_alloc, .Ldcsctp_heap_func_end0-rattle_alloc
	.cfi_endproc
	.section	.text.rattle_realloc,"ax",@progbits
	.p2align	2
	.type	rattle_realloc,@function
rattle_realloc:
	.cfi_startproc
	hint	#25
	.cfi_negate_ra_state
	stp	x29, x30, [sp, #-16]!
	.cfi_def_cfa_offset 16
	mov	x29, sp
	.cfi_def_cfa w29, 16
	.cfi_offset w30, -8
	.cfi_offset w29, -16
	cmp	x2, #0
	csel	x1, x3, x2, eq
	bl	realloc
	cmp	x0, #0
	adrp	x9, rattle_none
	add	x9, x9, :lo12:rattle_none
	cset	w8, ne
	csel	x1, x0, x9, ne
	mov	x0, x8
	.cfi_def_cfa wsp, 16
	ldp	x29, x30, [sp], #16
	.cfi_def_cfa_offset 0
	.cfi_restore w30
	.cfi_restore w29
	hint	#29
	.cfi_negate_ra_state
	ret
.Ldcsctp_heap_func_end1:
	.size	rattle_realloc, .Ldcsctp_heap_func_end1-rattle_realloc
	.cfi_endproc
	.section	.text.rattle_dealloc,"ax",@progbits
	.p2align	2
	.type	rattle_dealloc,@function
rattle_dealloc:
	.cfi_startproc
	hint	#34
	b	free
.Ldcsctp_heap_func_end2:
	.size	rattle_dealloc, .Ldcsctp_heap_func_end2-rattle_dealloc
	.cfi_endproc
	.type	rattle_none,@object
	.section	.rodata.rattle_none,"a",@progbits
	.p2align	4, 0x0
rattle_none:
	.zero	16
	.size	rattle_none, 16
