package vupresal

import (
	"encoding/hex"
	"errors"
	"net/http"
	"net/http/httptest"
	"net/netip"
	"os"
	"path/filepath"
	"runtime"
	"strings"
	"sync"
	"testing"
	"time"
)

// filterOf admits a filter of the folder examples.
func filterOf(t testing.TB, name string, options Options) *Filter {
	t.Helper()
	filter, err := Admit(example(t, name), options)
	if err != nil {
		t.Fatal(err)
	}
	t.Cleanup(filter.Close)
	return filter
}

func example(t testing.TB, name string) []byte {
	t.Helper()
	folder := os.Getenv("VUPRESAL_EXAMPLES")
	if folder == "" {
		folder = filepath.Join("..", "..")
	}
	message, err := os.ReadFile(filepath.Join(folder, name))
	if err != nil {
		t.Fatal(err)
	}
	return message
}

func get(target string, lines ...Line) *Request {
	return &Request{Method: "GET", Target: target, Lines: append([]Line{{"Host", "h"}}, lines...)}
}

func TestDecisions(t *testing.T) {
	for _, row := range []struct {
		filter, target string
		want           Decision
	}{
		{"condition.bin", "/", Decision{true, true, "readers"}},
		{"condition.bin", "/about", Decision{true, true, "readers"}},
		{"condition.bin", "/admin", Decision{}},
		{"any_any.bin", "/admin", Decision{true, true, "p"}},
		{"deny_any.bin", "/", Decision{false, true, "p"}},
	} {
		got, err := filterOf(t, row.filter, Options{Workers: 1}).Decide(get(row.target), &Facts{Scheme: "http"})
		if err != nil || got != row.want {
			t.Errorf("%s of %s: %v, %v; want %v", row.target, row.filter, got, err, row.want)
		}
	}
}

func TestRequestsWithoutDecision(t *testing.T) {
	filter := filterOf(t, "any_any.bin", Options{Workers: 1})
	many := make([]Line, 70)
	for i := range many {
		many[i] = Line{"x", "v"}
	}
	for _, row := range []struct {
		name    string
		request *Request
		want    Status
	}{
		{"no request", &Request{}, BadRequest},
		{"no host", &Request{Method: "GET", Target: "/"}, BadRequest},
		{"two hosts", get("/", Line{"host", "other"}), BadRequest},
		{"no name", get("/", Line{"", "v"}), BadRequest},
		{"a line end", get("/", Line{"x", "a\nb"}), BadRequest},
		{"no UTF-8", get("/", Line{"x", "\xff"}), BadRequest},
		{"no slash", get("x"), BadRequest},
		{"a long target", get("/" + strings.Repeat("a", 4096)), OutsideLimits},
		{"many lines", get("/", many...), OutsideLimits},
		{"a transfer coding", get("/", Line{"Transfer-Encoding", "chunked"}), TransferCoding},
	} {
		got, err := filter.Decide(row.request, &Facts{})
		if got.Allowed || !errors.Is(err, row.want) {
			t.Errorf("%s: %v, %v; want %v", row.name, got, err, row.want)
		}
	}
	mutual, id := true, uint64(7)
	facts := &Facts{Scheme: "https", Source: netip.MustParseAddrPort("[::ffff:127.0.0.1]:1"), RemoteIP: netip.MustParseAddr("::1"), MutualTLS: &mutual,
		ConnectionID: &id, TLSVersion: "TLSv1.3"}
	if got, err := filter.Decide(get("/"), facts); err != nil || !got.Allowed {
		t.Errorf("facts: %v, %v", got, err)
	}
	if _, err := filter.Decide(get("/"), &Facts{TLSVersion: "\xff"}); !errors.Is(err, BadRequest) {
		t.Errorf("a fact that is no UTF-8: %v", err)
	}
}

func TestRefusals(t *testing.T) {
	var refusal *Refusal
	if _, err := Admit(example(t, "condition.bin"), Options{Budget: 1}); !errors.As(err, &refusal) || refusal.Place != `policy "readers": checked_condition` {
		t.Errorf("a small budget: %v", err)
	}
	for _, message := range [][]byte{nil, {0xff}} {
		if _, err := Admit(message, Options{}); !errors.As(err, &refusal) {
			t.Errorf("%x: %v", message, err)
		}
	}
	if _, err := Admit(example(t, "any_any.bin"), Options{Budget: MostBudget + 1}); !errors.Is(err, OutOfRange) {
		t.Errorf("a large budget: %v", err)
	}
}

func TestBounds(t *testing.T) {
	smaller := Bounds{Fields: 10, Name: 64, Value: 100, Method: 32, Target: 20, Text: 100}
	filter := filterOf(t, "any_any.bin", Options{Bounds: smaller, Workers: 1})
	if got, err := filter.Decide(get("/"+strings.Repeat("a", 19)), &Facts{}); err != nil || !got.Allowed {
		t.Errorf("inside: %v, %v", got, err)
	}
	for _, request := range []*Request{get("/" + strings.Repeat("a", 20)), get("/", Line{"x", strings.Repeat("v", 101)})} {
		if got, err := filter.Decide(request, &Facts{}); got.Allowed || !errors.Is(err, OutsideLimits) {
			t.Errorf("outside: %v, %v", got, err)
		}
	}
	for _, options := range []Options{{Bounds: Bounds{Fields: 1}}, {Visits: 1 << 63}, {Bounds: Bounds{65, 1, 1, 1, 1, 1}}} {
		if _, err := Admit(example(t, "any_any.bin"), options); !errors.Is(err, OutOfRange) {
			t.Errorf("%v: %v", options, err)
		}
	}
}

// denyCookie is a filter that denies each request with a field cookie, which its message names Cookie.
var denyCookie = []byte("\n\x1b\b\x01\x12\x17\n\x01p\x12\x12\n\x0c\x22\n\n\x06Cookie8\x01\x12\x02\x18\x01")

// admitted is the filter of a message.
func admitted(t testing.TB, message []byte, options Options) *Filter {
	t.Helper()
	filter, err := Admit(message, options)
	if err != nil {
		t.Fatal(err)
	}
	t.Cleanup(filter.Close)
	return filter
}

func TestIgnored(t *testing.T) {
	long := strings.Repeat("c", 5000)
	all, none := example(t, "any_any.bin"), []string(nil)
	many := make([]Line, 60)
	for i := range many {
		many[i] = Line{"x" + strings.Repeat("y", i), "v"}
	}
	for _, row := range []struct {
		name    string
		message []byte
		ignore  []string
		lines   []Line
		want    bool
		fault   error
	}{
		{"a long cookie", all, none, []Line{{"Cookie", long}}, false, OutsideLimits},
		{"a long cookie that is ignored", all, []string{"cookie"}, []Line{{"Cookie", long}}, true, nil},
		{"in other cases", all, []string{"COOkie"}, []Line{{"cooKIE", long}, {"COOKIE", long}}, true, nil},
		{"another long field", all, []string{"cookie"}, []Line{{"Cookie", long}, {"Cookie2", long}}, false, OutsideLimits},
		{"one that begins like it", all, []string{"cookie2"}, []Line{{"Cookie", long}}, false, OutsideLimits},
		{"a letter that Unicode lowers to k", all, []string{"cookie"}, []Line{{"coo\u212aie", "v"}}, false, BadRequest},
		{"many fields", all, []string{"cookie"}, append(many[:60:60], Line{"cookie", ""}, Line{"cookie", ""}), true, nil},
		{"too many fields", all, []string{"cookie"}, append(many[:60:60], Line{"cookie2", ""}), false, OutsideLimits},
		{"a transfer coding", all, []string{"transfer-encoding"}, []Line{{"Transfer-Encoding", "chunked"}}, true, nil},
		{"a DENY", denyCookie, none, []Line{{"cookie", "a"}}, false, nil},
		{"a DENY without the field", denyCookie, none, nil, true, nil},
		{"a DENY on an ignored name", denyCookie, []string{"x", "cookie"}, []Line{{"cookie", "a"}}, true, nil},
		{"a DENY on another name", denyCookie, []string{"x"}, []Line{{"cookie", "a"}}, false, nil},
	} {
		got, err := admitted(t, row.message, Options{Workers: 2, Ignore: row.ignore}).Decide(get("/", row.lines...), &Facts{Scheme: "http"})
		if got.Allowed != row.want || !errors.Is(err, row.fault) {
			t.Errorf("%s: %v, %v; want %v, %v", row.name, got, err, row.want, row.fault)
		}
	}
}

func TestIgnoredNames(t *testing.T) {
	for _, row := range []struct{ name, want string }{
		{"", "is not the name of a field"}, {"a b", "is not the name of a field"}, {"a:", "is not the name of a field"}, {"\u00e9", "is not the name of a field"},
		{"coo\u212aie", "is not the name of a field"}, {"x\n", "is not the name of a field"}, {"x\xff", "is not the name of a field"}, {":path", "is no field"},
		{":authority", "is no field"}, {"host", "cannot be ignored"}, {"HOST", "cannot be ignored"},
	} {
		filter, err := Admit(example(t, "any_any.bin"), Options{Ignore: []string{"cookie", row.name}})
		if filter != nil || err == nil || !strings.Contains(err.Error(), row.want) {
			t.Errorf("%q: %v; want %q", row.name, err, row.want)
		}
	}
	for _, row := range []struct {
		ignore, want []string
	}{
		{nil, nil}, {[]string{"x"}, nil}, {[]string{"x", "COOKIE"}, []string{"cookie"}}, {[]string{"ookie", "cooki"}, nil},
		{[]string{"!#$%&'*+-.^_`|~09azAZ"}, nil},
	} {
		if got := admitted(t, denyCookie, Options{Ignore: row.ignore}).MayReadIgnored(); strings.Join(got, " ") != strings.Join(row.want, " ") {
			t.Errorf("%v: %v; want %v", row.ignore, got, row.want)
		}
	}
	if got := textsAmong([]byte("\x09useragent\x02id"), []string{"user-agent", "x-request-id"}); len(got) != 2 {
		t.Errorf("attributes: %v", got)
	}
}

// TestManyLines has more lines than fit the stack of decide.h; the requests after them have no more of theirs.
func TestManyLines(t *testing.T) {
	filter := filterOf(t, "any_any.bin", Options{Workers: 1})
	for _, count := range []int{0, 61, 62, 63, 64, 65, 1000, 0} {
		lines := make([]Line, count)
		for i := range lines {
			lines[i] = Line{"x", "v"}
		}
		_, err := filter.Decide(get("/", lines...), &Facts{Scheme: "http"})
		if (count > 60) != errors.Is(err, OutsideLimits) {
			t.Errorf("%d lines: %v", count, err)
		}
	}
}

// TestFacts has facts of each form.
func TestFacts(t *testing.T) {
	filter := filterOf(t, "any_any.bin", Options{Workers: 1})
	mutual, id := false, uint64(1)<<63
	for _, facts := range []Facts{{}, {Source: netip.MustParseAddrPort("[fe80::1%eth0]:1"), Destination: netip.MustParseAddrPort("10.0.0.1:65535")},
		{DirectRemoteIP: netip.MustParseAddr("::ffff:10.0.0.1"), RemoteIP: netip.MustParseAddr("::1"), MutualTLS: &mutual, ConnectionID: &id}} {
		facts := facts
		if got, err := filter.Decide(get("/"), &facts); err != nil || !got.Allowed {
			t.Errorf("%v: %v, %v", facts, got, err)
		}
	}
}

// TestAllocations decides without memory of Go's heap.
func TestAllocations(t *testing.T) {
	filter, request := filterOf(t, "condition.bin", Options{Workers: 1, Ignore: []string{"cookie"}}), get("/about", Line{"Cookie", "a"}, Line{"x", "v"})
	facts := &Facts{Scheme: "http", Source: netip.MustParseAddrPort("10.0.0.1:80"), RemoteIP: netip.MustParseAddr("10.0.0.1")}
	if found := testing.AllocsPerRun(100, func() {
		if _, err := filter.Decide(request, facts); err != nil {
			t.Fatal(err)
		}
	}); found != 0 {
		t.Errorf("%v allocations", found)
	}
}

// TestFinalizer lets the garbage collector close a filter that nobody has.
func TestFinalizer(t *testing.T) {
	filter, err := Admit(example(t, "any_any.bin"), Options{Workers: 2})
	if err != nil {
		t.Fatal(err)
	}
	closed := filter.closed
	filter = nil
	for i := 0; i < 100; i++ {
		runtime.GC()
		select {
		case <-closed:
			return
		case <-time.After(50 * time.Millisecond):
		}
	}
	t.Error("the filter was not closed")
}

func TestClosed(t *testing.T) {
	filter := filterOf(t, "any_any.bin", Options{})
	filter.Close()
	filter.Close()
	if got, err := filter.Decide(get("/"), &Facts{}); got.Allowed || err != ErrClosed {
		t.Errorf("%v, %v", got, err)
	}
}

func TestManyGoroutines(t *testing.T) {
	filter := filterOf(t, "condition.bin", Options{Workers: 4})
	var all sync.WaitGroup
	for i := 0; i < 16; i++ {
		all.Add(1)
		go func() {
			defer all.Done()
			for n := 0; n < 200; n++ {
				yes, err := filter.Decide(get("/"), &Facts{})
				no, other := filter.Decide(get("/admin"), &Facts{})
				if err != nil || other != nil || !yes.Allowed || no.Allowed {
					t.Errorf("%v, %v, %v, %v", yes, err, no, other)
					return
				}
			}
		}()
	}
	all.Wait()
}

// TestHandlerIgnores has a next handler that still gets the field.
func TestHandlerIgnores(t *testing.T) {
	next := http.HandlerFunc(func(w http.ResponseWriter, r *http.Request) {
		if len(r.Header.Get("Cookie")) != 5000 {
			t.Errorf("a cookie of %d bytes", len(r.Header.Get("Cookie")))
		}
		w.WriteHeader(http.StatusNoContent)
	})
	for want, options := range map[int]Options{431: {}, 204: {Ignore: []string{"cookie"}}} {
		server := httptest.NewServer(filterOf(t, "any_any.bin", options).Handler(next))
		request, err := http.NewRequest("GET", server.URL, nil)
		if err != nil {
			t.Fatal(err)
		}
		request.Header.Set("Cookie", strings.Repeat("c", 5000))
		answer, err := http.DefaultClient.Do(request)
		if err != nil {
			t.Fatal(err)
		}
		answer.Body.Close()
		server.Close()
		if answer.StatusCode != want {
			t.Errorf("%v: %d; want %d", options, answer.StatusCode, want)
		}
	}
}

func TestHandler(t *testing.T) {
	next := http.HandlerFunc(func(w http.ResponseWriter, _ *http.Request) { w.WriteHeader(http.StatusNoContent) })
	server := httptest.NewServer(filterOf(t, "condition.bin", Options{}).Handler(next))
	defer server.Close()
	for target, want := range map[string]int{"/": 204, "/about": 204, "/admin": 403, "/%61bout": 403, "/" + strings.Repeat("a", 4096): 431} {
		answer, err := http.Get(server.URL + target)
		if err != nil {
			t.Fatal(err)
		}
		answer.Body.Close()
		if answer.StatusCode != want {
			t.Errorf("%.20s: %d; want %d", target, answer.StatusCode, want)
		}
	}
}

// ofHTTP2 admits a filter that allows what the condition `request.protocol == "HTTP/2"` allows.
func ofHTTP2(t *testing.T) *Filter {
	t.Helper()
	message, err := hex.DecodeString("0a4a12480a017012430a02180112021801223922371003323312045f3d3d5f1a1d10022a190a0d100122090a0772657175657374" +
		"120870726f746f636f6c1a0c10041a083206" + hex.EncodeToString([]byte("HTTP/2")))
	if err != nil {
		t.Fatal(err)
	}
	filter, err := Admit(message, Options{})
	if err != nil {
		t.Fatal(err)
	}
	t.Cleanup(filter.Close)
	return filter
}

func TestProtocols(t *testing.T) {
	filter := ofHTTP2(t)
	lines := []Line{{"Host", "h"}}
	for _, row := range []struct {
		request Request
		want    bool
	}{
		{Request{HTTP10: true}, false},
		{Request{HTTP10: true, ProtoMajor: 1}, false},
		{Request{}, false},
		{Request{ProtoMajor: 1}, false},
		{Request{ProtoMajor: 2}, true},
		{Request{ProtoMajor: 3}, false},
	} {
		request := row.request
		request.Method, request.Target, request.Lines = "GET", "/", lines
		if got, err := filter.Decide(&request, &Facts{}); err != nil || got.Allowed != row.want {
			t.Errorf("HTTP10 %v, ProtoMajor %d: %v, %v; want %v", request.HTTP10, request.ProtoMajor, got, err, row.want)
		}
	}
	for _, major := range []int{-1, 4, 11} {
		if got, err := filter.Decide(&Request{Method: "GET", Target: "/", Lines: lines, ProtoMajor: major}, &Facts{}); got.Allowed || !errors.Is(err, OutOfRange) {
			t.Errorf("ProtoMajor %d: %v, %v; want %v", major, got, err, OutOfRange)
		}
	}
	if got, err := filter.Decide(&Request{Method: "GET", Target: "/", ProtoMajor: 2}, &Facts{}); got.Allowed || !errors.Is(err, BadRequest) {
		t.Errorf("no host: %v, %v; want %v", got, err, BadRequest)
	}
}

func TestHandlerByProtocol(t *testing.T) {
	next := http.HandlerFunc(func(w http.ResponseWriter, _ *http.Request) { w.WriteHeader(http.StatusNoContent) })
	for isHTTP2, want := range map[bool]int{true: 204, false: 403} {
		server := httptest.NewUnstartedServer(ofHTTP2(t).Handler(next))
		server.EnableHTTP2 = isHTTP2
		server.StartTLS()
		answer, err := server.Client().Get(server.URL)
		if err != nil {
			t.Fatal(err)
		}
		answer.Body.Close()
		server.Close()
		if (answer.ProtoMajor == 2) != isHTTP2 || answer.StatusCode != want {
			t.Errorf("%s: %d; want %d", answer.Proto, answer.StatusCode, want)
		}
	}
}

func BenchmarkDecide(b *testing.B) {
	filter := filterOf(b, "condition.bin", Options{Workers: 1})
	request, facts := get("/"), &Facts{Scheme: "http"}
	b.ReportAllocs()
	for i := 0; i < b.N; i++ {
		if _, err := filter.Decide(request, facts); err != nil {
			b.Fatal(err)
		}
	}
}
