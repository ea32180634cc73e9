//go:build newcel

package main

import (
	"github.com/google/cel-go/cel"
	"github.com/google/cel-go/ext"
)

// The macros of two variables, and the accumulator's name as it was in older versions.
func init() {
	options = append(options, ext.TwoVarComprehensions(), cel.EnableHiddenAccumulatorName(false))
}
