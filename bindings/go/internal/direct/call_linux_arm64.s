// SPDX-License-Identifier: Apache-2.0

//go:build !android && !msan && !asan && !davgyuti_cgo

#include "funcdata.h"
#include "textflag.h"

// func Call(function, first, second, third unsafe.Pointer) uint32
//
// The frame is C's stack: SP is set to its end, by way of R10, so that the assembler knows that it can't follow it. C leaves R19, and g in
// R28, as they were.
TEXT ·Call(SB), 0, $4096-36
	NO_LOCAL_POINTERS
	MOVD function+0(FP), R9
	MOVD first+8(FP), R0
	MOVD second+16(FP), R1
	MOVD third+24(FP), R2
	MOVD RSP, R19
	ADD  $4096, R19, R10
	MOVD R10, RSP
	BL   (R9)
	MOVD R19, RSP
	MOVW R0, ret+32(FP)
	RET
