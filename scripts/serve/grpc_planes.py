"""Control planes of grpcio and of grpc-go for scripts/serve/try_grpc."""
import concurrent.futures
import contextlib
import os
import pathlib
import queue
import subprocess
import threading

from replays import resource, response

TOP = pathlib.Path(__file__).resolve().parent.parent.parent
ADS = ("envoy.service.discovery.v3.AggregatedDiscoveryService", "StreamAggregatedResources")
ECDS = ("envoy.service.extension.v3.ExtensionConfigDiscoveryService", "StreamExtensionConfigs")


class Call:
    """A stream at the control plane."""

    def __init__(self, case, metadata):
        self.metadata, self.heard, self.patience = metadata, queue.Queue(), 20 * case.scale

    def next(self):
        """The next request, as it is on a plain stream; an EOFError once the call is over."""
        message = self.heard.get(timeout=self.patience)
        if message is None:
            raise EOFError("the call is over")
        return b"\0" + len(message).to_bytes(4, "big") + message

    def give(self, version, content):
        """Sends a response with the filter `f`; its answer is returned."""
        self.say(response(version, b"n" + version, resource(b"f", content))[5:])
        return self.next()


class GrpcioCall(Call):
    def __init__(self, case, context):
        super().__init__(case, [(it.key, it.value) for it in context.invocation_metadata()])
        self.said = queue.Queue()

    def say(self, message):
        self.said.put(("message", message))

    def end(self, code, text):
        self.said.put(("end", code, text))


class GrpcioPlane:
    """A control plane of grpcio, for one method, at an address of its own."""

    def __init__(self, case, method, address=None):
        import grpc
        self.case, self.calls = case, queue.Queue()
        self.codes = {it.value[0]: it for it in grpc.StatusCode}
        self.server = grpc.server(concurrent.futures.ThreadPoolExecutor(8), options=[("grpc.so_reuseport", 0)])
        handler = grpc.stream_stream_rpc_method_handler(self.serve)
        self.server.add_generic_rpc_handlers([grpc.method_handlers_generic_handler(method[0], {method[1]: handler})])
        self.port = self.server.add_insecure_port(address or "127.0.0.1:0")
        self.server.start()
        case.ends.callback(self.stop)

    def serve(self, requests, context):
        call = GrpcioCall(self.case, context)

        def listen():
            with contextlib.suppress(Exception):
                for it in requests:
                    call.heard.put(it)
        threading.Thread(target=listen, daemon=True).start()
        self.calls.put(call)
        while context.is_active():
            with contextlib.suppress(queue.Empty):
                kind, *it = call.said.get(timeout=0.05)
                if kind == "end":
                    context.abort(self.codes[it[0]], it[1])
                yield it[0]

    def call(self):
        return self.calls.get(timeout=20 * self.case.scale)

    def stop(self):
        self.server.stop(None).wait()


class GoCall(Call):
    def __init__(self, plane, number, metadata):
        super().__init__(plane.case, metadata)
        self.plane, self.number = plane, number

    def say(self, message):
        self.plane.tell("say", self.number, message.hex())

    def end(self, code, text):
        self.plane.tell("end", self.number, code, text.encode().hex() or "-")


class GoPlane:
    """A control plane of grpc-go, for one method, at an address of its own; with `age` it sends GOAWAY after so many milliseconds."""
    program = None

    def __init__(self, case, method, address=None, age=None):
        self.case, self.calls, self.by_number = case, queue.Queue(), {}
        words = [self.program, address or "127.0.0.1:0", "/".join(method)]
        self.process = subprocess.Popen(words + ([str(age)] if age else []), stdin=subprocess.PIPE, stdout=subprocess.PIPE, text=True)
        case.ends.callback(self.stop)
        self.port = self.process.stdout.readline().split()[1].rpartition(":")[2]
        threading.Thread(target=self.listen, daemon=True).start()

    def listen(self):
        for line in self.process.stdout:
            kind, *words = line.split()
            if kind == "call":
                pairs = [it.split("=") for it in words[1:]]
                call = GoCall(self, words[0], [(name, bytes.fromhex(value).decode()) for name, value in pairs])
                self.by_number[words[0]] = call
                self.calls.put(call)
            elif kind == "message":
                self.by_number[words[0]].heard.put(bytes.fromhex("".join(words[1:])))
            elif kind == "over":
                self.by_number[words[0]].heard.put(None)

    def tell(self, *words):
        self.process.stdin.write(" ".join(map(str, words)) + "\n")
        self.process.stdin.flush()

    def call(self):
        return self.calls.get(timeout=20 * self.case.scale)

    def stop(self):
        self.process.kill()
        self.process.wait()


def go_program(folder):
    """The program of scripts/serve/grpc_go; or why there is none."""
    build = TOP / "bench/build_go"
    if subprocess.run([build, "--is"], capture_output=True).returncode:
        return None, "there is no Go that has grpc-go (bench/setup go)"
    program = pathlib.Path(os.environ.get("GRPC_GO") or pathlib.Path(folder) / "grpc_go")
    made = subprocess.run([build, TOP / "scripts/serve/grpc_go", program], capture_output=True, text=True) if not program.exists() else None
    return (program, None) if not made or made.returncode == 0 else (None, f"grpc_go was not built: {made.stderr.strip()[:300]}")
