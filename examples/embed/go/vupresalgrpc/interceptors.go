// Package vupresalgrpc lets a server of grpc-go ask an RBAC filter about each call.
package vupresalgrpc

import (
	"context"
	"encoding/base64"
	"errors"
	"net/netip"
	"sort"
	"strings"

	"google.golang.org/grpc"
	"google.golang.org/grpc/codes"
	"google.golang.org/grpc/credentials"
	"google.golang.org/grpc/metadata"
	"google.golang.org/grpc/peer"
	"google.golang.org/grpc/status"

	vupresal "vupresal.example/vupresal.git/examples/embed/go"
)

// Unary lets only those unary calls through that the filter allows. Others get PermissionDenied, and those without a decision
// InvalidArgument, ResourceExhausted, Unimplemented or Unavailable.
func Unary(filter *vupresal.Filter) grpc.UnaryServerInterceptor {
	return func(ctx context.Context, request interface{}, info *grpc.UnaryServerInfo, next grpc.UnaryHandler) (interface{}, error) {
		if err := decide(ctx, filter, info.FullMethod); err != nil {
			return nil, err
		}
		return next(ctx, request)
	}
}

// Stream is the same for calls with streams. A call is asked about once, when it begins.
func Stream(filter *vupresal.Filter) grpc.StreamServerInterceptor {
	return func(server interface{}, stream grpc.ServerStream, info *grpc.StreamServerInfo, next grpc.StreamHandler) error {
		if err := decide(stream.Context(), filter, info.FullMethod); err != nil {
			return err
		}
		return next(server, stream)
	}
}

func decide(ctx context.Context, filter *vupresal.Filter, method string) error {
	decision, err := filter.Decide(RequestOf(ctx, method), FactsOf(ctx))
	if err != nil {
		return status.Error(codeOf(err), err.Error())
	}
	if !decision.Allowed {
		return status.Error(codes.PermissionDenied, "denied")
	}
	return nil
}

func codeOf(err error) codes.Code {
	switch {
	case errors.Is(err, vupresal.BadRequest):
		return codes.InvalidArgument
	case errors.Is(err, vupresal.OutsideLimits):
		return codes.ResourceExhausted
	case errors.Is(err, vupresal.TransferCoding):
		return codes.Unimplemented
	}
	return codes.Unavailable
}

// RequestOf is the request of a call: a POST of HTTP/2 to the method's path, whose fields are the metadata in order of their names. A
// value of a name that ends with -bin is in base64, as it was sent. grpc-go passes no `te` on, so none is there.
func RequestOf(ctx context.Context, method string) *vupresal.Request {
	request := &vupresal.Request{Method: "POST", Target: method, ProtoMajor: 2}
	sent, _ := metadata.FromIncomingContext(ctx)
	names := make([]string, 0, len(sent))
	for name := range sent {
		names = append(names, name)
	}
	sort.Strings(names)
	for _, name := range names {
		for _, value := range sent[name] {
			if strings.HasSuffix(name, "-bin") {
				value = base64.RawStdEncoding.EncodeToString([]byte(value))
			}
			request.Lines = append(request.Lines, vupresal.Line{Name: name, Value: value})
		}
	}
	return request
}

// FactsOf is what grpc-go knows of the call's connection.
func FactsOf(ctx context.Context) *vupresal.Facts {
	facts := &vupresal.Facts{Scheme: "http"}
	from, found := peer.FromContext(ctx)
	if !found {
		return facts
	}
	if at, err := netip.ParseAddrPort(from.Addr.String()); err == nil {
		facts.Source, facts.DirectRemoteIP, facts.RemoteIP = at, at.Addr(), at.Addr()
	}
	if secured, ok := from.AuthInfo.(credentials.TLSInfo); ok {
		facts.AddTLS(&secured.State)
	}
	return facts
}
