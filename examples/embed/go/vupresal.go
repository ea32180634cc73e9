// Package vupresal decides on requests by Envoy's RBAC filters, with the library of include/vupresal.h.
//
// A Filter may be asked by any goroutine. Inside, it has a handle for each decision at a time; the handles share one filter. A decision is
// one call of C, and takes no memory of Go's heap once its first requests were like it.
package vupresal

// #cgo pkg-config: vupresal
// #include "decide.h"
import "C"

import (
	"errors"
	"fmt"
	"runtime"
	"sync"
	"unsafe"
)

// MostBudget is the greatest budget of a filter, in steps of its conditions.
const MostBudget = C.VUPRESAL_MOST_BUDGET

// ErrClosed is the error of a filter that was closed.
var ErrClosed = errors.New("vupresal: the filter is closed")

// A Status is why there is no filter or no decision.
type Status int32

// Statuses of requests. All others say why a filter is refused.
const (
	Memory         Status = C.VUPRESAL_MEMORY
	OutOfRange     Status = C.VUPRESAL_OUT_OF_RANGE
	BadRequest     Status = C.VUPRESAL_BAD_REQUEST
	OutsideLimits  Status = C.VUPRESAL_OUTSIDE_LIMITS
	TransferCoding Status = C.VUPRESAL_TRANSFER_CODING
)

// Error is the meaning of the status.
func (s Status) Error() string {
	return "vupresal: " + C.GoString(C.vupresal_status_text(C.int32_t(s)))
}

// A Refusal is why a filter's message is not admitted.
type Refusal struct {
	Status Status
	// Place is the part of the message with the fault; it may be empty.
	Place string
}

func (r *Refusal) Error() string {
	if r.Place == "" {
		return r.Status.Error()
	}
	return fmt.Sprintf("%v: %s", r.Status, r.Place)
}

// Unwrap is the status.
func (r *Refusal) Unwrap() error { return r.Status }

// A Decision is what a filter says of a request.
type Decision struct {
	Allowed bool
	// Matched tells whether a policy matches, and Policy is the name of the first one in the order of names.
	Matched bool
	Policy  string
}

// Options of a filter. The zero value stands for the defaults.
type Options struct {
	// Budget is the most steps that the conditions may take for one request: 1,000,000 by default.
	Budget uint64
	// Workers is the number of decisions at a time: as many as GOMAXPROCS by default.
	Workers int
	// Bounds are the limits of requests. All six 0 are the greatest.
	Bounds Bounds
	// Visits bounds the measuring of the filter's conditions: 4,194,304 by default.
	Visits uint64
	// Ignore names fields, in any case, whose lines are left out of each request before the limits apply. A filter that reads such a
	// field finds none: a DENY on it never matches. MayReadIgnored tells which of these a filter may read.
	Ignore []string
}

// Bounds are the limits of the requests that a filter is asked for: 1 to 64 field lines with 3 for the method, the path and the scheme, 1
// to 128 bytes of a name, 4096 of a value, 32 of a method, 4096 of a target, and 1024 of any other text. A request outside the limits has
// the error OutsideLimits.
type Bounds struct{ Fields, Name, Value, Method, Target, Text uint }

// A Version tells what library this is.
type Version struct {
	// Number has a million for each first number, and a thousand for each second one.
	Number uint64
	Proved bool
}

// LibraryVersion tells what library this program runs with.
func LibraryVersion() Version {
	var build C.vupresal_build
	C.vupresal_version(&build)
	return Version{Number: uint64(build.number), Proved: bool(build.is_proved)}
}

// A Filter is an admitted filter. One that is no longer used is closed by the garbage collector; Close does it at once.
type Filter struct {
	// the workers that no call has
	workers chan *worker
	closed  chan struct{}
	once    sync.Once
	// the policies' names, in ascending order
	names []string
	// the ignored names in lower case, and those of them that the message has as a text; C may not see them beside a handle
	ignored, suspects []string
}

// Admit admits the message of an HTTP RBAC filter. The error is a *Refusal if the message is at fault. There is another error if an ignored
// name is that of no field, or of the host.
func Admit(message []byte, options Options) (*Filter, error) {
	if !bool(C.vupresal_is_expected()) {
		return nil, errors.New("vupresal: the library has another version than its header")
	}
	if options.Budget == 0 {
		options.Budget = 1_000_000
	}
	if options.Workers <= 0 {
		options.Workers = runtime.GOMAXPROCS(0)
	}
	ignored, err := ignoredOf(options.Ignore)
	if err != nil {
		return nil, err
	}
	filter := &Filter{workers: make(chan *worker, options.Workers), closed: make(chan struct{}), ignored: ignored, suspects: textsAmong(message, ignored)}
	workers := make([]worker, options.Workers)
	for i := range workers {
		filter.workers <- &workers[i]
	}
	first := &workers[0].handle
	if err := admit(first, message, &options); err != nil {
		return nil, err
	}
	runtime.SetFinalizer(filter, (*Filter).Close)
	for i := range workers[1:] {
		if status := C.vupresal_filter_share(first, &workers[i+1].handle); status != C.VUPRESAL_OK {
			filter.Close()
			return nil, Status(status)
		}
	}
	for number := C.size_t(0); number < C.vupresal_filter_policies(first); number++ {
		filter.names = append(filter.names, policyName(first, C.uint64_t(number)))
	}
	return filter, nil
}

// Close waits for the decisions that were begun, and frees the filter. Decisions after it have the error ErrClosed.
func (f *Filter) Close() {
	f.once.Do(func() {
		runtime.SetFinalizer(f, nil)
		close(f.closed)
		for i := 0; i < cap(f.workers); i++ {
			C.vupresal_filter_free(&(<-f.workers).handle)
		}
	})
}

// MayReadIgnored are those names of Options.Ignore, in lower case, that the filter's message has as a text: its policies may read these
// fields, and find none. A name that a condition puts together, or meets in a loop over all headers, is not found.
func (f *Filter) MayReadIgnored() []string { return append([]string(nil), f.suspects...) }

// Decide gives the decision on a request. Without an error the decision counts; with one it refuses.
func (f *Filter) Decide(request *Request, facts *Facts) (Decision, error) {
	select {
	case worker := <-f.workers:
		// a worker that is given back keeps the filter from being closed until then
		defer func() { f.workers <- worker }()
		return f.decide(worker, request, facts)
	case <-f.closed:
		return Decision{}, ErrClosed
	}
}

func admit(handle *C.vupresal_filter, message []byte, options *Options) error {
	bounds := C.vupresal_bounds{fields: C.size_t(options.Bounds.Fields), name: C.size_t(options.Bounds.Name), value: C.size_t(options.Bounds.Value),
		method: C.size_t(options.Bounds.Method), target: C.size_t(options.Bounds.Target), text: C.size_t(options.Bounds.Text),
		visits: C.uint64_t(options.Visits)}
	place := make([]byte, 512)
	status := C.vupresal_filter_admit(handle, first(message), C.size_t(len(message)), &bounds, C.uint64_t(options.Budget), first(place), C.size_t(len(place)))
	if status == C.VUPRESAL_OK {
		return nil
	}
	return &Refusal{Status(status), C.GoString((*C.char)(unsafe.Pointer(&place[0])))}
}

func (f *Filter) decide(worker *worker, request *Request, facts *Facts) (Decision, error) {
	if status := worker.decide(request, facts, f.ignored); status != C.VUPRESAL_OK {
		return Decision{}, Status(status)
	}
	decision := &worker.decision
	found := Decision{Allowed: bool(decision.is_allowed), Matched: bool(decision.is_matched)}
	if found.Matched {
		found.Policy = f.names[decision.matched]
	}
	return found, nil
}

func policyName(handle *C.vupresal_filter, number C.uint64_t) string {
	room := make([]byte, 128)
	for {
		length := int(C.vupresal_filter_policy_name(handle, number, first(room), C.size_t(len(room))))
		if length <= len(room) {
			return string(room[:length])
		}
		room = make([]byte, length)
	}
}

// first points to the first of the bytes; nil if there are none.
func first(bytes []byte) *C.uint8_t {
	if len(bytes) == 0 {
		return nil
	}
	return (*C.uint8_t)(unsafe.Pointer(&bytes[0]))
}
