// SPDX-License-Identifier: Apache-2.0

//go:build !android && !msan && !asan && !davgyuti_cgo

#include "funcdata.h"
#include "textflag.h"

// func Call(function, first, second, third unsafe.Pointer) uint32
//
// The frame is C's stack: SP is set to its end, a multiple of 16, as C wants it. C leaves BP as it was.
TEXT ·Call(SB), 0, $4096-36
	NO_LOCAL_POINTERS
	MOVQ function+0(FP), AX
	MOVQ first+8(FP), DI
	MOVQ second+16(FP), SI
	MOVQ third+24(FP), DX
	MOVQ SP, BP
	ADDQ $4096, SP
	ANDQ $~15, SP
	CALL AX
	MOVQ BP, SP
	MOVL AX, ret+32(FP)
	RET
