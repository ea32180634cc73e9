package vupresal

import (
	"crypto/tls"
	"errors"
	"net"
	"net/http"
	"net/netip"
	"sort"
	"strings"
)

// Handler lets only those requests through to the next handler that the filter allows. Others are answered 403; those without a
// decision 400, 431, 501 or 503.
func (f *Filter) Handler(next http.Handler) http.Handler {
	return http.HandlerFunc(func(w http.ResponseWriter, r *http.Request) {
		decision, err := f.Decide(RequestOf(r), FactsOf(r))
		if err != nil {
			http.Error(w, err.Error(), statusOf(err))
			return
		}
		if !decision.Allowed {
			http.Error(w, "denied", http.StatusForbidden)
			return
		}
		next.ServeHTTP(w, r)
	})
}

func statusOf(err error) int {
	var status Status
	if errors.As(err, &status) && status >= 400 {
		return int(status)
	}
	return http.StatusServiceUnavailable
}

// RequestOf is the request as it was sent. net/http keeps no order of names, so they are in order of the alphabet.
func RequestOf(r *http.Request) *Request {
	request := &Request{Method: r.Method, Target: r.RequestURI, HTTP10: !r.ProtoAtLeast(1, 1), ProtoMajor: r.ProtoMajor}
	if r.Host != "" || !request.HTTP10 {
		request.Lines = append(request.Lines, Line{"host", r.Host})
	}
	names := make([]string, 0, len(r.Header))
	for name := range r.Header {
		names = append(names, name)
	}
	sort.Strings(names)
	for _, name := range names {
		for _, value := range r.Header[name] {
			request.Lines = append(request.Lines, Line{name, value})
		}
	}
	return request
}

// FactsOf is what net/http knows of the request's connection.
func FactsOf(r *http.Request) *Facts {
	facts := &Facts{Scheme: "http"}
	if peer, err := netip.ParseAddrPort(r.RemoteAddr); err == nil {
		facts.Source, facts.DirectRemoteIP, facts.RemoteIP = peer, peer.Addr(), peer.Addr()
	}
	if local, ok := r.Context().Value(http.LocalAddrContextKey).(net.Addr); ok {
		facts.Destination, _ = netip.ParseAddrPort(local.String())
	}
	if r.TLS != nil {
		facts.AddTLS(r.TLS)
	}
	return facts
}

// AddTLS sets the facts that a connection has by TLS, and the scheme https.
func (f *Facts) AddTLS(state *tls.ConnectionState) {
	versions := map[uint16]string{tls.VersionTLS10: "TLSv1", tls.VersionTLS11: "TLSv1.1", tls.VersionTLS12: "TLSv1.2", tls.VersionTLS13: "TLSv1.3"}
	f.Scheme, f.RequestedServerName, f.TLSVersion = "https", strings.ToLower(state.ServerName), versions[state.Version]
	isMutual := len(state.VerifiedChains) > 0
	f.MutualTLS = &isMutual
	if !isMutual {
		return
	}
	peer := state.PeerCertificates[0]
	f.SubjectPeerCertificate = peer.Subject.String()
	if len(peer.DNSNames) > 0 {
		f.DNSSubjectAlternativeName = peer.DNSNames[0]
	}
	if len(peer.URIs) > 0 {
		f.URISubjectAlternativeName = peer.URIs[0].String()
	}
}
