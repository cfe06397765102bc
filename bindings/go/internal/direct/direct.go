// SPDX-License-Identifier: Apache-2.0

// Package direct calls C on the goroutine's own stack, where that is tried: on Linux, on x86-64 and arm64. cgo changes to another stack,
// and tells the scheduler, which takes longer than most of these calls do.
//
// It is for calls that are short, take little stack, call no Go and wait for nothing. The scheduler and the collector of garbage wait for
// them, as they do for a loop of Go in which nothing is called. C's stack is the frame of Call, which has its room before C begins, so
// the goroutine's stack neither ends nor moves while C runs. Signals are handled on stacks of their own: their handlers of Go find no
// function of Go where C runs, and leave it alone; a CPU profile says runtime._ExternalCode. C keeps the registers that have to be kept.
package direct
