// SPDX-License-Identifier: Apache-2.0

//go:build !linux || !(amd64 || arm64) || android || msan || asan || davgyuti_cgo

package direct

import "unsafe"

// IsThere is whether Call can be called.
const IsThere = false

// Call panics.
func Call(function, first, second, third unsafe.Pointer) uint32 {
	panic("davgyuti: no direct call of C on this system")
}
