// SPDX-License-Identifier: Apache-2.0

//go:build linux && (amd64 || arm64) && !android && !msan && !asan && !davgyuti_cgo

package direct

import "unsafe"

// IsThere is whether Call can be called.
const IsThere = true

// Call calls a function of C with up to three pointers, and returns what it returns. It has to return soon, to call no Go, and to
// take at most 4,096 bytes of stack.
//
//go:noescape
func Call(function, first, second, third unsafe.Pointer) uint32
