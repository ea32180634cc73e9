// grpc_go ADDRESS METHOD [AGE]: a control plane of grpc-go at HOST:PORT or unix:PATH, for one method, which standard input drives and
// standard output tells of. Messages are bytes, which go into no message of Protocol Buffers.
//
//	call N KEY=VALUE..   a call began, with its metadata, in hex    message N HEX   it brought a message    over N   it has ended
//	say N HEX            sends a message                            end N CODE TEXT ends it with a status, its text in hex
//	graceful             GOAWAY: no new calls, and the end of the server once its calls are over
//	stop                 ends all at once
//
// With AGE in milliseconds a connection gets GOAWAY when it is that old, and is closed as long after.
package main

import (
	"bufio"
	"encoding/hex"
	"fmt"
	"log"
	"net"
	"os"
	"strconv"
	"strings"
	"sync"
	"time"

	"google.golang.org/grpc"
	"google.golang.org/grpc/codes"
	"google.golang.org/grpc/encoding"
	"google.golang.org/grpc/keepalive"
	"google.golang.org/grpc/metadata"
	"google.golang.org/grpc/status"
)

// plain is the codec of messages that are bytes. It takes the place of Protocol Buffers'.
type plain struct{}

func (plain) Name() string                  { return "proto" }
func (plain) Marshal(v any) ([]byte, error) { return *v.(*[]byte), nil }
func (plain) Unmarshal(data []byte, v any) error {
	*v.(*[]byte) = append([]byte(nil), data...)
	return nil
}

// order is what a call is to do next: a message, or its end.
type order struct {
	message []byte
	end     error
}

// plane has the calls by their numbers.
type plane struct {
	lock  sync.Mutex
	calls []chan order
}

// tell writes a line.
func (p *plane) tell(words ...string) {
	p.lock.Lock()
	defer p.lock.Unlock()
	fmt.Println(strings.Join(words, " "))
}

// call serves one call until it is told to end it, or its client has gone.
func (p *plane) call(_ any, stream grpc.ServerStream) error {
	orders := make(chan order, 64)
	p.lock.Lock()
	number := strconv.Itoa(len(p.calls))
	p.calls = append(p.calls, orders)
	p.lock.Unlock()
	words := []string{"call", number}
	fields, _ := metadata.FromIncomingContext(stream.Context())
	for key, values := range fields {
		for _, value := range values {
			words = append(words, key+"="+hex.EncodeToString([]byte(value)))
		}
	}
	p.tell(words...)
	go func() {
		for {
			var message []byte
			if stream.RecvMsg(&message) != nil {
				p.tell("over", number)
				return
			}
			p.tell("message", number, hex.EncodeToString(message))
		}
	}()
	for {
		select {
		case next := <-orders:
			if next.message == nil {
				return next.end
			}
			if err := stream.SendMsg(&next.message); err != nil {
				return err
			}
		case <-stream.Context().Done():
			return stream.Context().Err()
		}
	}
}

// obey does what a line says.
func (p *plane) obey(server *grpc.Server, words []string) {
	switch words[0] {
	case "graceful":
		go server.GracefulStop()
	case "stop":
		server.Stop()
	case "say", "end":
		number, _ := strconv.Atoi(words[1])
		p.lock.Lock()
		orders := p.calls[number]
		p.lock.Unlock()
		if words[0] == "say" {
			message, _ := hex.DecodeString(words[2])
			orders <- order{message: message}
			return
		}
		code, _ := strconv.Atoi(words[2])
		text, _ := hex.DecodeString(words[3])
		orders <- order{end: status.Error(codes.Code(code), string(text))}
	}
}

func main() {
	encoding.RegisterCodec(plain{})
	network, address := "tcp", os.Args[1]
	if strings.HasPrefix(address, "unix:") {
		network, address = "unix", strings.TrimPrefix(address, "unix:")
	}
	listener, err := net.Listen(network, address)
	if err != nil {
		log.Fatal(err)
	}
	options := []grpc.ServerOption{grpc.KeepaliveEnforcementPolicy(keepalive.EnforcementPolicy{MinTime: time.Second})}
	if len(os.Args) > 3 {
		age, _ := strconv.Atoi(os.Args[3])
		each := time.Duration(age) * time.Millisecond
		options = append(options, grpc.KeepaliveParams(keepalive.ServerParameters{MaxConnectionAge: each, MaxConnectionAgeGrace: each}))
	}
	server := grpc.NewServer(options...)
	service, method, _ := strings.Cut(os.Args[2], "/")
	p := &plane{}
	server.RegisterService(&grpc.ServiceDesc{
		ServiceName: service,
		HandlerType: (*any)(nil),
		Streams:     []grpc.StreamDesc{{StreamName: method, Handler: p.call, ServerStreams: true, ClientStreams: true}},
	}, p)
	go func() {
		lines := bufio.NewReaderSize(os.Stdin, 1<<16)
		for {
			line, err := lines.ReadString('\n')
			if err != nil {
				os.Exit(0)
			}
			p.obey(server, strings.Fields(line))
		}
	}()
	p.tell("listens", listener.Addr().String())
	if err := server.Serve(listener); err != nil {
		log.Fatal(err)
	}
	p.tell("stopped")
	time.Sleep(time.Second)
}
