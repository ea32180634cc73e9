// conditions INPUTS ROUNDS MILLISECONDS: runs conditions by the engine and by cel-go in turn within each round, and prints a line
// for each: its name, the least and the median nanoseconds of an evaluation over all rounds. Time is the whole process's on a
// processor, with Go on one alone, so that the work of Go's collector counts where it is done; the least counts, since other
// work on the machine can only add to it. Every answer is checked.
// It measures as well the way from a condition's bytes to what can be run: see expressions.go.
// conditions INPUTS only NUMBER EVALUATIONS: runs one condition by the engine so often, for a profile.
package main

/*
#include <stddef.h>
#include <stdint.h>
#include <time.h>

uint64_t engine_condition(uint64_t number, const char *head, size_t length, uint64_t rounds);

static double now(void) {
  struct timespec time;
  clock_gettime(CLOCK_PROCESS_CPUTIME_ID, &time);
  return time.tv_sec * 1e9 + time.tv_nsec;
}
*/
import "C"

import (
	"fmt"
	"os"
	"path/filepath"
	"runtime"
	"slices"
	"strconv"
	"strings"
	"unsafe"

	"github.com/google/cel-go/cel"
)

// A condition: its name, its text, the file with the head that it judges, and its answer. Their order is the numbers that
// the engine knows them by.
type condition struct {
	name, text, head string
	holds            bool
}

var conditions = []condition{
	{"method", `request.method == "GET"`, "users_60.http", true},
	{"header", `request.headers["x-user"] == "a"`, "users_60.http", true},
	{"chain", chain(), "users_60.http", true},
	{"all", list() + ".all(x, x >= 0)", "users_60.http", true},
	{"exists", `request.headers.exists(k, k == "none")`, "users_60.http", false},
	// The engine runs `request.headers.exists(k, v, v == "none")`. This cel-go has no macros of two variables.
	{"exists_value", `request.headers.exists(k, request.headers[k] == "none")`, "users_60.http", false},
}

// A subject evaluates one condition so often.
type subject struct {
	name        string
	evaluate    func(count int)
	count       int
	fixed       float64
	nanoseconds []float64
}

func chain() string {
	links := make([]string, 10)
	for i := range links {
		links[i] = fmt.Sprintf(`request.method != "M%d"`, i)
	}
	return strings.Join(links, " && ")
}

func list() string {
	items := make([]string, 100)
	for i := range items {
		items[i] = strconv.Itoa(i)
	}
	return "[" + strings.Join(items, ", ") + "]"
}

func must[T any](value T, err error) T {
	if err != nil {
		stop(err.Error())
	}
	return value
}

func stop(why string) {
	fmt.Fprintln(os.Stderr, "conditions:", why)
	os.Exit(1)
}

// attributes are the head's, by the names that the conditions have for them.
func attributes(head string) map[string]any {
	lines := strings.Split(head, "\r\n")
	words := strings.Split(lines[0], " ")
	headers := map[string]string{":method": words[0], ":path": words[1], ":scheme": "http"}
	for _, line := range lines[1:] {
		name, value, found := strings.Cut(line, ":")
		if !found {
			break
		}
		if name = strings.ToLower(name); name == "host" {
			name = ":authority"
		}
		headers[name] = strings.TrimSpace(value)
	}
	return map[string]any{"request.method": words[0], "request.headers": headers}
}

// byEngine evaluates a condition by the engine, from a request that it reads once.
func byEngine(number int, holds bool, head []byte) func(int) {
	return func(count int) {
		text := (*C.char)(unsafe.Pointer(unsafe.SliceData(head)))
		sum := C.engine_condition(C.uint64_t(number), text, C.size_t(len(head)), C.uint64_t(count))
		if holds && int(sum) != count || !holds && sum != 0 {
			stop("a wrong answer of the engine")
		}
	}
}

// byCelGo evaluates a condition by cel-go: a program that was planned once, on attributes that are there. Attributes are
// variables of their own with dotted names, which is cel-go's fastest way to them.
func byCelGo(text string, holds bool, head string) func(int) {
	headers := cel.MapType(cel.StringType, cel.StringType)
	env := must(cel.NewEnv(cel.Variable("request.method", cel.StringType), cel.Variable("request.headers", headers)))
	ast, issues := env.Compile(text)
	if issues.Err() != nil {
		stop(issues.Err().Error())
	}
	program := must(env.Program(ast))
	variables := attributes(head)
	return func(count int) {
		for range count {
			if value, _, err := program.Eval(variables); err != nil || value.Value() != holds {
				stop("a wrong answer of cel-go")
			}
		}
	}
}

func (s *subject) timed(count int) float64 {
	start := C.now()
	s.evaluate(count)
	return float64(C.now() - start)
}

// tune finds what a call costs without evaluations, and how many of them take so many milliseconds.
func (s *subject) tune(milliseconds float64) {
	s.fixed = 1e18
	for range 5 {
		s.fixed = min(s.fixed, s.timed(0))
	}
	for s.count = 4; ; s.count *= 4 {
		if taken := (s.timed(s.count) - s.fixed) / 1e6; taken > milliseconds/8 {
			s.count = max(4, int(float64(s.count)*milliseconds/taken))
			return
		}
	}
}

func subjects(inputs string) []*subject {
	var all []*subject
	for number, c := range conditions {
		head := must(os.ReadFile(filepath.Join(inputs, c.head)))
		all = append(all,
			&subject{name: "engine_condition_" + c.name, evaluate: byEngine(number, c.holds, head)},
			&subject{name: "cel_go_condition_" + c.name, evaluate: byCelGo(c.text, c.holds, string(head))})
	}
	return append(all, expressionSubjects(inputs)...)
}

func main() {
	if len(os.Args) != 4 && len(os.Args) != 5 {
		stop("usage: conditions INPUTS ROUNDS MILLISECONDS | conditions INPUTS only NUMBER EVALUATIONS")
	}
	all := subjects(os.Args[1])
	if len(os.Args) == 5 {
		all[2*must(strconv.Atoi(os.Args[3]))].evaluate(must(strconv.Atoi(os.Args[4])))
		return
	}
	rounds, milliseconds := must(strconv.Atoi(os.Args[2])), must(strconv.ParseFloat(os.Args[3], 64))
	runtime.GOMAXPROCS(1)
	for _, s := range all {
		s.tune(milliseconds)
	}
	for range rounds {
		for _, s := range all {
			s.nanoseconds = append(s.nanoseconds, (s.timed(s.count)-s.fixed)/float64(s.count))
		}
	}
	for _, s := range all {
		slices.Sort(s.nanoseconds)
		fmt.Printf("%s %.2f %.2f\n", s.name, s.nanoseconds[0], s.nanoseconds[len(s.nanoseconds)/2])
	}
}
