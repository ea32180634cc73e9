// Conditions from the bytes of their checked expression: by the engine to verified code with its bound, by cel-go to a program.
package main

/*
#include <stddef.h>
#include <stdint.h>

uint64_t engine_expression(const char *bytes, size_t length, uint64_t part, uint64_t budget, uint64_t rounds);
*/
import "C"

import (
	"fmt"
	"os"
	"path/filepath"
	"strings"
	"unsafe"

	"github.com/google/cel-go/cel"
	"google.golang.org/protobuf/proto"
	"google.golang.org/protobuf/reflect/protoreflect"
)

const (
	verified = 5
	budget   = 100_000_000
)

// The nodes of the conditions.
var nodeCounts = []int{5, 50, 500, 2000}

// Parts of a condition, each with its number of nodes.
var parts = []struct {
	text  string
	nodes int
}{
	{`(request.method == "M%[1]d" || request.path.startsWith("/service-%[1]d"))`, 7},
	{`request.headers["x-field-%[1]d"] in ["a", "b"]`, 7},
	{`size(request.path) + %[1]d < 100`, 6},
	{`[1, 2].all(x, x < %[1]d)`, 13},
}

// conditionOf joins parts by `&&` to a condition of so many nodes.
func conditionOf(nodes int) string {
	text, left := `request.method == "GET"`, nodes-3
	for number := 0; ; number++ {
		part := parts[number%len(parts)]
		if left < part.nodes+1+4 {
			break
		}
		text += " && " + fmt.Sprintf(part.text, number)
		left -= part.nodes + 1
	}
	if left%2 == 1 {
		text, left = text+" && !connection.mtls", left-3
	}
	return text + strings.Repeat(" && connection.mtls", left/2)
}

func expressionEnv() *cel.Env {
	return must(cel.NewEnv(
		cel.Variable("request.method", cel.StringType), cel.Variable("request.path", cel.StringType),
		cel.Variable("request.headers", cel.MapType(cel.StringType, cel.StringType)),
		cel.Variable("connection.mtls", cel.BoolType)))
}

// nodesOf counts the expressions in a message.
func nodesOf(message protoreflect.Message) (count int) {
	if message.Descriptor().Name() == "Expr" {
		count = 1
	}
	message.Range(func(field protoreflect.FieldDescriptor, value protoreflect.Value) bool {
		switch {
		case field.Message() == nil || field.IsMap():
		case field.IsList():
			for i := range value.List().Len() {
				count += nodesOf(value.List().Get(i).Message())
			}
		default:
			count += nodesOf(value.Message())
		}
		return true
	})
	return count
}

// same makes a new message of a type that has no name here: Debian's cel-go keeps its own copy of the generated package.
func same[T any](*T) *T { return new(T) }

// expressionSubjects are the engine and cel-go on each condition, once with the positions that cel-go writes into its message,
// and once without them. Their bytes are kept beside the other inputs.
func expressionSubjects(inputs string) []*subject {
	env := expressionEnv()
	var all []*subject
	for _, nodes := range nodeCounts {
		ast, issues := env.Compile(conditionOf(nodes))
		if issues.Err() != nil {
			stop(issues.Err().Error())
		}
		message := must(cel.AstToCheckedExpr(ast))
		if found := nodesOf(message.GetExpr().ProtoReflect()); found != nodes {
			stop(fmt.Sprintf("a condition of %d nodes and not of %d", found, nodes))
		}
		plan := func(data []byte) func(int) {
			return func(count int) {
				for range count {
					fresh := same(message)
					if err := proto.Unmarshal(data, fresh); err != nil {
						stop(err.Error())
					}
					must(env.Program(cel.CheckedExprToAst(fresh)))
				}
			}
		}
		for _, end := range []string{"", "_bare"} {
			if end != "" {
				message.SourceInfo = nil
			}
			data := must(proto.MarshalOptions{Deterministic: true}.Marshal(message))
			name := fmt.Sprintf("expression_%d%s", nodes, end)
			if err := os.WriteFile(filepath.Join(inputs, name+".bin"), data, 0o644); err != nil {
				stop(err.Error())
			}
			all = append(all,
				&subject{name: "engine_" + name, evaluate: verifiedByEngine(data)},
				&subject{name: "cel_go_" + name, evaluate: plan(data)})
		}
	}
	return all
}

// verifiedByEngine reads, checks, bounds, compiles and verifies a condition.
func verifiedByEngine(data []byte) func(int) {
	return func(count int) {
		start := (*C.char)(unsafe.Pointer(unsafe.SliceData(data)))
		if got := C.engine_expression(start, C.size_t(len(data)), verified, budget, C.uint64_t(count)); int(got) != count {
			stop("the engine refuses a condition")
		}
	}
}
