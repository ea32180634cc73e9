module vupresal.example/vupresal.git/examples/embed/go

go 1.19
