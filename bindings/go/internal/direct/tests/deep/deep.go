// SPDX-License-Identifier: Apache-2.0

// Package deep has C for the tests of package direct.
package deep

// #include <stdint.h>
// #include <string.h>
//
// // Writes 3,000 bytes of its stack, and returns how many bytes below a byte of Go's it began.
// static uint32_t deep(const char *before, const void *second, const void *third)
// {
//     char room[3000];
//     memset(room, 1, sizeof room);
//     __asm__ volatile("" : : "r"(room) : "memory");
//     return second && third ? (uint32_t)((uintptr_t)before - (uintptr_t)(room + sizeof room)) : 0;
// }
//
// static void *place(void) { return (void *)deep; }
import "C"

import (
	"unsafe"

	"davgyuti.example/davgyuti/internal/direct"
)

var place = C.place()

// Below calls C, which writes much of its stack, and returns how many bytes below this function's own C's stack begins.
func Below() uint32 {
	var before byte
	it := unsafe.Pointer(&before)
	return direct.Call(place, it, it, it)
}
