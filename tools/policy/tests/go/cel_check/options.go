//go:build newcel

package main

import (
	"github.com/google/cel-go/ext"
)

// The macros of two variables.
func init() {
	options = append(options, ext.TwoVarComprehensions())
}
