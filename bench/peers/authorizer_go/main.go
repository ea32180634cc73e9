// authorizer_go ADDRESS: an authorizer as one would write it in an afternoon, with Go's net/http and cel-go. It has the 256 policies
// of bench/serving, and answers 200 where one of them matches, and 403 where none does.
//
// grpc-go's RBAC engine is internal to grpc-go, so a program outside of it cannot import it. What matches here are rules written by
// hand, as gRPC's engine tries them: a policy's permission, then its principal, then its condition. The conditions are planned once.
package main

import (
	"fmt"
	"log"
	"net/http"
	"os"
	"strconv"
	"strings"

	"github.com/google/cel-go/cel"
)

const policies = 256

// policy lets a request pass by its path, its method, its user and a condition.
type policy struct {
	prefix, method, user string
	condition            cel.Program
}

// plan compiles a condition on attributes that are variables with dotted names, which is cel-go's fastest way to them.
func plan(text string) cel.Program {
	env, err := cel.NewEnv(
		cel.Variable("request.method", cel.StringType),
		cel.Variable("request.headers", cel.MapType(cel.StringType, cel.StringType)))
	if err != nil {
		log.Fatal(err)
	}
	ast, issues := env.Compile(text)
	if issues.Err() != nil {
		log.Fatal(issues.Err())
	}
	program, err := env.Program(ast)
	if err != nil {
		log.Fatal(err)
	}
	return program
}

// tenants are the policies of bench/serving: bench/tenants.py has the same, without their conditions.
func tenants() []policy {
	made := make([]policy, policies)
	for i := range made {
		made[i] = policy{
			prefix:    fmt.Sprintf("/svc%03d/", i),
			method:    "GET",
			user:      fmt.Sprintf("user%03d", i),
			condition: plan(fmt.Sprintf(`request.method != "DELETE" && request.headers["x-tenant"] == "tenant%03d"`, i)),
		}
	}
	return made
}

// attributes are what a condition can ask for: each header by its name in lower case, its lines joined.
func attributes(r *http.Request) map[string]any {
	headers := make(map[string]string, len(r.Header)+1)
	for name, values := range r.Header {
		headers[strings.ToLower(name)] = strings.Join(values, ",")
	}
	headers[":authority"] = r.Host
	return map[string]any{"request.method": r.Method, "request.headers": headers}
}

func (p *policy) matches(r *http.Request) bool {
	if !strings.HasPrefix(r.URL.Path, p.prefix) || r.Method != p.method || r.Header.Get("X-User") != p.user {
		return false
	}
	value, _, err := p.condition.Eval(attributes(r))
	return err == nil && value.Value() == true
}

// authorizer answers each request by the first policy that matches.
type authorizer struct {
	policies []policy
}

func (a *authorizer) ServeHTTP(w http.ResponseWriter, r *http.Request) {
	w.Header().Set("X-Rbac-Generation", "1")
	for i := range a.policies {
		if a.policies[i].matches(r) {
			w.Header().Set("X-Rbac-Verdict", "allow")
			w.Header().Set("X-Rbac-Match", strconv.Itoa(i))
			w.WriteHeader(http.StatusOK)
			return
		}
	}
	w.Header().Set("X-Rbac-Verdict", "deny")
	w.Header().Set("X-Rbac-Match", "-")
	http.Error(w, "RBAC: access denied", http.StatusForbidden)
}

func main() {
	if len(os.Args) != 2 {
		log.Fatal("usage: authorizer_go ADDRESS")
	}
	log.Fatal(http.ListenAndServe(os.Args[1], &authorizer{tenants()}))
}
