module vupresal.example/vupresal.git/examples/embed/go/vupresalgrpc

go 1.19

require (
	google.golang.org/grpc v1.33.3
	vupresal.example/vupresal.git/examples/embed/go v0.1.0
)

replace vupresal.example/vupresal.git/examples/embed/go => ../
