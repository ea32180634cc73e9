// cel_check types texts with cel-go. The first line of standard input is a JSON object with "attributes", a map from their
// names to their types. Each further line is an object with "expr" and "spelling": attributes are variables of dotted names
// for "ident", and fields of objects for "select". It is answered with "checked_hex", the google.api.expr.v1alpha1
// CheckedExpr, or with the "stage" that found a fault and its "error".
package main

import (
	"bufio"
	"encoding/hex"
	"encoding/json"
	"os"
	"strings"

	"github.com/google/cel-go/cel"
	"github.com/google/cel-go/common/types"
	"google.golang.org/protobuf/proto"
)

type question struct {
	Attributes map[string]string `json:"attributes"`
	Expr       string            `json:"expr"`
	Spelling   string            `json:"spelling"`
}

type answer struct {
	Checked string `json:"checked_hex,omitempty"`
	Stage   string `json:"stage,omitempty"`
	Error   string `json:"error,omitempty"`
}

var kinds = map[string]*types.Type{
	"bool":                types.BoolType,
	"int":                 types.IntType,
	"uint":                types.UintType,
	"string":              types.StringType,
	"map(string, string)": types.NewMapType(types.StringType, types.StringType),
}

// roots provides the objects whose fields are attributes.
type roots struct {
	types.Provider
	attributes map[string]string
}

func (p roots) FindStructType(name string) (*types.Type, bool) {
	for attribute := range p.attributes {
		if strings.HasPrefix(attribute, name+".") {
			return types.NewTypeTypeWithParam(types.NewObjectType(name)), true
		}
	}
	return p.Provider.FindStructType(name)
}

func (p roots) FindStructFieldType(name, field string) (*types.FieldType, bool) {
	if kind, ok := p.attributes[name+"."+field]; ok {
		return &types.FieldType{Type: kinds[kind]}, true
	}
	return p.Provider.FindStructFieldType(name, field)
}

// options are those of newer versions alone.
var options []cel.EnvOption

func environment(attributes map[string]string, spelling string) *cel.Env {
	known := append([]cel.EnvOption{}, options...)
	seen := map[string]bool{}
	for name, kind := range attributes {
		root := strings.Split(name, ".")[0]
		if spelling == "ident" {
			known = append(known, cel.Variable(name, kinds[kind]))
		} else if !seen[root] {
			seen[root] = true
			known = append(known, cel.Variable(root, cel.ObjectType(root)))
		}
	}
	if spelling != "ident" {
		registry, err := types.NewRegistry()
		if err != nil {
			panic(err)
		}
		known = append(known, cel.CustomTypeProvider(roots{registry, attributes}))
	}
	env, err := cel.NewEnv(known...)
	if err != nil {
		panic(err)
	}
	return env
}

func check(env *cel.Env, text string) answer {
	parsed, issues := env.Parse(text)
	if issues.Err() != nil {
		return answer{Stage: "parse", Error: issues.Err().Error()}
	}
	typed, issues := env.Check(parsed)
	if issues.Err() != nil {
		return answer{Stage: "check", Error: issues.Err().Error()}
	}
	checked, err := cel.AstToCheckedExpr(typed)
	if err != nil {
		panic(err)
	}
	data, err := proto.MarshalOptions{Deterministic: true}.Marshal(checked)
	if err != nil {
		panic(err)
	}
	return answer{Checked: hex.EncodeToString(data)}
}

func main() {
	lines := bufio.NewScanner(os.Stdin)
	lines.Buffer(nil, 1<<24)
	out := json.NewEncoder(os.Stdout)
	environments := map[string]*cel.Env{}
	var attributes map[string]string
	for lines.Scan() {
		var asked question
		if err := json.Unmarshal(lines.Bytes(), &asked); err != nil {
			panic(err)
		}
		if asked.Attributes != nil {
			attributes = asked.Attributes
			continue
		}
		if environments[asked.Spelling] == nil {
			environments[asked.Spelling] = environment(attributes, asked.Spelling)
		}
		if err := out.Encode(check(environments[asked.Spelling], asked.Expr)); err != nil {
			panic(err)
		}
	}
}
