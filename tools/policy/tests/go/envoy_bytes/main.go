// envoy_bytes reads HTTP RBAC filters with Envoy's own messages. Each line of standard input is a JSON object with
// "filter", a filter in the proto3 JSON mapping; it is printed again with "bytes", the message in hexadecimal, or with
// "fault".
//
// tests/envoy.jsonl was made with the messages of go-control-plane, as Debian packages them.
package main

import (
	"bufio"
	"encoding/hex"
	"encoding/json"
	"os"

	rbac "github.com/envoyproxy/go-control-plane/envoy/extensions/filters/http/rbac/v3"
	"google.golang.org/protobuf/encoding/protojson"
	"google.golang.org/protobuf/proto"
)

type line struct {
	Filter json.RawMessage `json:"filter"`
	Bytes  string          `json:"bytes,omitempty"`
	Fault  string          `json:"fault,omitempty"`
}

func read(asked line) line {
	filter := &rbac.RBAC{}
	if err := protojson.Unmarshal(asked.Filter, filter); err != nil {
		return line{Filter: asked.Filter, Fault: err.Error()}
	}
	data, err := proto.MarshalOptions{Deterministic: true}.Marshal(filter)
	if err != nil {
		panic(err)
	}
	return line{Filter: asked.Filter, Bytes: hex.EncodeToString(data)}
}

func main() {
	lines := bufio.NewScanner(os.Stdin)
	lines.Buffer(nil, 1<<24)
	out := json.NewEncoder(os.Stdout)
	out.SetEscapeHTML(false)
	for lines.Scan() {
		var asked line
		if err := json.Unmarshal(lines.Bytes(), &asked); err != nil {
			panic(err)
		}
		if err := out.Encode(read(asked)); err != nil {
			panic(err)
		}
	}
}
