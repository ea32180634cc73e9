// cel_trees parses texts with cel-go. Each line of standard input is a JSON object with "text"; it is printed again with
// "tree", the parsed google.api.expr.v1alpha1.Expr in hexadecimal, or with "fault", cel-go's message.
//
// tests/cel_trees.jsonl was made with cel-go 0.18.2, tests/cel_trees_two.jsonl with cel-go 0.30.0 and the tag newcel.
package main

import (
	"bufio"
	"encoding/hex"
	"encoding/json"
	"os"

	"github.com/google/cel-go/cel"
	"google.golang.org/protobuf/proto"
)

type line struct {
	Text  string `json:"text"`
	Tree  string `json:"tree,omitempty"`
	Fault string `json:"fault,omitempty"`
}

func parse(env *cel.Env, text string) line {
	parsed, issues := env.Parse(text)
	if issues.Err() != nil {
		return line{Text: text, Fault: issues.Err().Error()}
	}
	tree, err := cel.AstToParsedExpr(parsed)
	if err != nil {
		panic(err)
	}
	data, err := proto.MarshalOptions{Deterministic: true}.Marshal(tree.GetExpr())
	if err != nil {
		panic(err)
	}
	return line{Text: text, Tree: hex.EncodeToString(data)}
}

// options are those of newer versions alone.
var options []cel.EnvOption

func main() {
	env, err := cel.NewEnv(options...)
	if err != nil {
		panic(err)
	}
	lines := bufio.NewScanner(os.Stdin)
	lines.Buffer(nil, 1<<24)
	out := json.NewEncoder(os.Stdout)
	out.SetEscapeHTML(false)
	for lines.Scan() {
		var asked line
		if err := json.Unmarshal(lines.Bytes(), &asked); err != nil {
			panic(err)
		}
		if err := out.Encode(parse(env, asked.Text)); err != nil {
			panic(err)
		}
	}
}
