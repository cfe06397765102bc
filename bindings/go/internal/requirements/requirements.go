// SPDX-License-Identifier: Apache-2.0

// Package requirements compiles where davgyuti can be built. Elsewhere an identifier that isn't there says what is lacking: before Go's own
// assembler comes to davgyuti's texts, which it doesn't know.
package requirements
