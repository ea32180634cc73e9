package vupresalgrpc

import (
	"context"
	"net"
	"os"
	"path/filepath"
	"strings"
	"testing"

	"google.golang.org/grpc"
	"google.golang.org/grpc/codes"
	"google.golang.org/grpc/health"
	checked "google.golang.org/grpc/health/grpc_health_v1"
	"google.golang.org/grpc/metadata"
	"google.golang.org/grpc/status"

	vupresal "vupresal.example/vupresal.git/examples/embed/go"
)

func filterOf(t *testing.T, name string, ignore ...string) *vupresal.Filter {
	t.Helper()
	message, err := os.ReadFile(filepath.Join(os.Getenv("VUPRESAL_EXAMPLES"), name))
	if err != nil {
		t.Fatal(err)
	}
	filter, err := vupresal.Admit(message, vupresal.Options{Ignore: ignore})
	if err != nil {
		t.Fatal(err)
	}
	t.Cleanup(filter.Close)
	return filter
}

// clientOf is a client of a server whose calls the filter decides.
func clientOf(t *testing.T, filter *vupresal.Filter) checked.HealthClient {
	t.Helper()
	server := grpc.NewServer(grpc.UnaryInterceptor(Unary(filter)), grpc.StreamInterceptor(Stream(filter)))
	checked.RegisterHealthServer(server, health.NewServer())
	listener, err := net.Listen("tcp", "127.0.0.1:0")
	if err != nil {
		t.Fatal(err)
	}
	go func() { _ = server.Serve(listener) }()
	t.Cleanup(server.Stop)
	connection, err := grpc.Dial(listener.Addr().String(), grpc.WithInsecure())
	if err != nil {
		t.Fatal(err)
	}
	t.Cleanup(func() { _ = connection.Close() })
	return checked.NewHealthClient(connection)
}

// asked are the codes of a unary call and of one with a stream.
func asked(t *testing.T, client checked.HealthClient, ctx context.Context) [2]codes.Code {
	t.Helper()
	_, unary := client.Check(ctx, &checked.HealthCheckRequest{})
	watched, err := client.Watch(ctx, &checked.HealthCheckRequest{})
	if err == nil {
		_, err = watched.Recv()
	}
	return [2]codes.Code{status.Code(unary), status.Code(err)}
}

func TestCalls(t *testing.T) {
	ctx, cancel := context.WithCancel(context.Background())
	defer cancel()
	all, none := clientOf(t, filterOf(t, "any_any.bin")), clientOf(t, filterOf(t, "deny_any.bin"))
	less := clientOf(t, filterOf(t, "any_any.bin", "X"))
	for _, row := range []struct {
		name   string
		client checked.HealthClient
		lines  []string
		want   codes.Code
	}{
		{"allowed", all, nil, codes.OK},
		{"denied", none, nil, codes.PermissionDenied},
		{"bytes", all, []string{"trace-bin", "\xff\x00"}, codes.OK},
		{"a long value", all, []string{"x", strings.Repeat("v", 5000)}, codes.ResourceExhausted},
		{"a long value that is ignored", less, []string{"x", strings.Repeat("v", 5000)}, codes.OK},
		{"another long value", less, []string{"y", strings.Repeat("v", 5000)}, codes.ResourceExhausted},
	} {
		if got := asked(t, row.client, metadata.AppendToOutgoingContext(ctx, row.lines...)); got != [2]codes.Code{row.want, row.want} {
			t.Errorf("%s: %v; want %v", row.name, got, row.want)
		}
	}
}

func TestRequest(t *testing.T) {
	ctx := metadata.NewIncomingContext(context.Background(), metadata.Pairs(":authority", "h", "x", "1", "x", "2", "a-bin", "\xff"))
	got := RequestOf(ctx, "/s/m")
	want := []vupresal.Line{{Name: ":authority", Value: "h"}, {Name: "a-bin", Value: "/w"}, {Name: "x", Value: "1"}, {Name: "x", Value: "2"}}
	if got.Method != "POST" || got.Target != "/s/m" || got.ProtoMajor != 2 || len(got.Lines) != len(want) {
		t.Fatalf("%v", got)
	}
	for i := range want {
		if got.Lines[i] != want[i] {
			t.Errorf("%v; want %v", got.Lines[i], want[i])
		}
	}
	if facts := FactsOf(ctx); facts.Scheme != "http" || facts.Source.IsValid() {
		t.Errorf("%v", facts)
	}
}
