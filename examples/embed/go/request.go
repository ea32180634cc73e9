package vupresal

// #include "decide.h"
import "C"

import "net/netip"

// A Line is a field of a request.
type Line struct{ Name, Value string }

// A Request by its parts.
type Request struct {
	Method string
	// Target is as it was sent, beginning with a slash.
	Target string
	// Lines are the fields in order. The host is a line of the name `host` or `:authority`.
	Lines []Line
	// HTTP10 is for a request of HTTP/1.0, which may have no host.
	HTTP10 bool
	// ProtoMajor is 2 for HTTP/2 and 3 for HTTP/3, as in net/http; 0 and 1 are HTTP/1. Any other is refused.
	ProtoMajor int
}

// Facts are what is known of a connection. An empty text and an invalid address stand for an absent fact.
type Facts struct {
	// Scheme is "http" or "https".
	Scheme                                                                       string
	Source, Destination                                                          netip.AddrPort
	DirectRemoteIP, RemoteIP                                                     netip.Addr
	RequestedServerName, TLSVersion                                              string
	SubjectPeerCertificate, DNSSubjectAlternativeName, URISubjectAlternativeName string
	MutualTLS                                                                    *bool
	ConnectionID                                                                 *uint64
}

// A worker has a handle, and the memory by which one decision at a time passes its request to C: texts one after another, and the length of
// each, in the order of decide.h.
type worker struct {
	handle   C.vupresal_filter
	texts    []byte
	lengths  []C.size_t
	lines    int
	numbers  C.vupresal_go_numbers
	decision C.vupresal_decision
}

// end marks the end of a text that begins after the last one.
func (w *worker) end(before int) { w.lengths = append(w.lengths, C.size_t(len(w.texts)-before)) }

func (w *worker) text(text string) {
	w.texts = append(w.texts, text...)
	w.lengths = append(w.lengths, C.size_t(len(text)))
}

// pack writes the request without its ignored lines, and the facts, in place of those before.
func (w *worker) pack(request *Request, facts *Facts, ignored []string) {
	w.texts, w.lengths = w.texts[:0], w.lengths[:0]
	w.text(request.Method)
	w.text(request.Target)
	w.packFacts(facts)
	w.lines = 0
	for i := range request.Lines {
		if isAmong(ignored, request.Lines[i].Name) {
			continue
		}
		w.lines++
		w.text(request.Lines[i].Name)
		w.text(request.Lines[i].Value)
	}
	if len(w.texts) == 0 {
		// so that there is a first byte
		w.texts = append(w.texts, 0)
	}
	w.numbers.is_http11, w.numbers.protocol = C.bool(!request.HTTP10), 0
	if request.ProtoMajor != 1 {
		w.numbers.protocol = C.uint64_t(request.ProtoMajor)
	}
}

func (w *worker) packFacts(facts *Facts) {
	w.text(facts.Scheme)
	w.endpoint(facts.Source)
	w.endpoint(facts.Destination)
	for _, text := range [...]string{facts.RequestedServerName, facts.TLSVersion, facts.SubjectPeerCertificate, facts.DNSSubjectAlternativeName,
		facts.URISubjectAlternativeName} {
		w.text(text)
	}
	w.address(facts.DirectRemoteIP)
	w.address(facts.RemoteIP)
	w.address(facts.Destination.Addr())
	numbers := C.vupresal_go_numbers{source_port: port(facts.Source), destination_port: port(facts.Destination), mtls: -1}
	if facts.MutualTLS != nil {
		numbers.mtls = 0
		if *facts.MutualTLS {
			numbers.mtls = 1
		}
	}
	if facts.ConnectionID != nil {
		numbers.connection_id, numbers.has_connection_id = C.uint64_t(*facts.ConnectionID), true
	}
	w.numbers = numbers
}

// endpoint writes an address with its port; nothing if there is none.
func (w *worker) endpoint(at netip.AddrPort) {
	before := len(w.texts)
	if at.IsValid() {
		w.texts = netip.AddrPortFrom(at.Addr().Unmap().WithZone(""), at.Port()).AppendTo(w.texts)
	}
	w.end(before)
}

// address writes the bytes of an address; none if there is none.
func (w *worker) address(address netip.Addr) {
	before := len(w.texts)
	if address = address.Unmap(); address.Is4() {
		bytes := address.As4()
		w.texts = append(w.texts, bytes[:]...)
	} else if address.Is6() {
		bytes := address.As16()
		w.texts = append(w.texts, bytes[:]...)
	}
	w.end(before)
}

func port(at netip.AddrPort) C.int32_t {
	if !at.IsValid() {
		return -1
	}
	return C.int32_t(at.Port())
}

// decide asks the filter by one call of C.
func (w *worker) decide(request *Request, facts *Facts, ignored []string) C.int32_t {
	w.pack(request, facts, ignored)
	return C.vupresal_go_decide(&w.handle, (*C.uint8_t)(&w.texts[0]), &w.lengths[0], C.size_t(w.lines), &w.numbers, &w.decision)
}
