// SPDX-License-Identifier: MIT

//go:build !cgo

package minisign

// This makes a build without cgo fail: the compiler prints the sentence first, because a string is not an int.
const _ int = "minisign needs cgo: set CGO_ENABLED=1, and CC to a C compiler for this system"
