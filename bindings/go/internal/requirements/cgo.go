// SPDX-License-Identifier: Apache-2.0

//go:build !cgo

package requirements

var _ = davgyuti_needs_cgo__set_CGO_ENABLED_to_1_and_have_a_C_compiler
