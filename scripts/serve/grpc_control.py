"""Cases of scripts/serve/try_grpc in which `rbacd control --grpc` is the control plane: below `rbacd serve`, grpcio and python3-h2, and
below clients that break a rule."""
import contextlib
import queue
import socket
import subprocess
import time

from grpc_planes import ADS, ECDS
from http2_frames import AWAY, DATA, PREFACE, PROTOCOL, SETTINGS, frame, frame_at
from loopback import free_port, listens
from replays import ANY_ANY, NO_POLICY, PLAIN, denied, request, resource, response
from try_serve_base import F, FREES

NO = denied(b"-", 2)
FIRST, SECOND = (response(number, number, resource(b"f", content)) for number, content in ((b"1", ANY_ANY), (b"2", NO_POLICY)))


class Control:
    """`rbacd control --grpc` as a process, which serves two snapshots of the filter `f`."""

    def __init__(self, case):
        self.case, self.port = case, free_port()
        for name, content in (("any_any", ANY_ANY), ("no_policy", NO_POLICY)):
            (case.folder / name).write_bytes(content)
        words = ["control", "--grpc", "--listen", f"127.0.0.1:{self.port}", "--name", "f", "any_any", "no_policy"]
        self.process = subprocess.Popen([case.program, *words], cwd=case.folder, env=FREES, stdin=subprocess.DEVNULL,
                                        stdout=subprocess.PIPE, stderr=subprocess.PIPE)
        case.ends.callback(self.process.kill)
        end = time.monotonic() + 10 * case.scale
        while not listens(self.port) and self.process.poll() is None and time.monotonic() < end:
            time.sleep(0.01)

    def ended(self, line):
        """It ends by itself, and prints this."""
        try:
            said = self.process.communicate(timeout=20 * self.case.scale)
        except subprocess.TimeoutExpired:
            self.case.holds("it ends", False)
            return
        self.case.same("what it prints", (*said, self.process.returncode), (line, b"", 0))


class GrpcioClient:
    """A stream of grpcio at a control plane."""

    def __init__(self, case, port, method):
        import grpc
        self.grpc, self.case, self.asked = grpc, case, queue.Queue()
        self.channel = grpc.insecure_channel(f"127.0.0.1:{port}")
        case.ends.callback(self.channel.close)
        call = self.channel.stream_stream("/" + "/".join(method))
        self.call = call(iter(self.asked.get, None), timeout=20 * case.scale)

    def turn(self, said):
        """Sends a request, and returns the response, as they are on a plain stream."""
        self.asked.put(said[5:])
        message = next(self.call)
        return b"\0" + len(message).to_bytes(4, "big") + message

    def finish(self):
        """Sends no more; the status of the call."""
        self.asked.put(None)
        with contextlib.suppress(self.grpc.RpcError):
            self.case.same("no more comes", list(self.call), [])
        return self.call.code().name


class H2Client:
    """A connection of python3-h2, which writes its octets in parts of a few, if it is told to."""

    def __init__(self, case, port, part=None):
        import h2.config
        import h2.connection
        import h2.events
        self.events, self.part, self.data, self.heads, self.ended = h2.events, part, b"", [], False
        self.peer = socket.create_connection(("127.0.0.1", port), timeout=20 * case.scale)
        self.peer.setsockopt(socket.IPPROTO_TCP, socket.TCP_NODELAY, 1)
        case.ends.callback(self.peer.close)
        self.h2 = h2.connection.H2Connection(h2.config.H2Configuration(client_side=True, header_encoding="utf-8"))
        self.h2.initiate_connection()

    def ask(self, path, content="application/grpc"):
        self.h2.send_headers(1, [(":method", "POST"), (":scheme", "http"), (":path", path), (":authority", "a"), ("te", "trailers"),
                                 ("content-type", content)])
        self.send()

    def send(self):
        octets = self.h2.data_to_send()
        size = self.part or len(octets) or 1
        for at in range(0, len(octets), size):
            self.peer.sendall(octets[at:at + size])

    def turn(self):
        """Reads once; whether something came."""
        octets = self.peer.recv(1 << 16)
        for event in self.h2.receive_data(octets):
            if isinstance(event, self.events.DataReceived):
                self.data += event.data
                self.h2.acknowledge_received_data(event.flow_controlled_length, event.stream_id)
            elif isinstance(event, (self.events.ResponseReceived, self.events.TrailersReceived)):
                self.heads.append(dict(event.headers))
            elif isinstance(event, self.events.StreamEnded):
                self.ended = True
        self.send()
        return octets != b""

    def until(self, condition):
        while not condition() and self.turn():
            pass
        return condition()

    def taken(self, count):
        """So many octets of data."""
        self.until(lambda: len(self.data) >= count)
        found, self.data = self.data, b""
        return found


def below_serve(case):
    """The server, whose control plane it is."""
    control = Control(case)
    server = case.serve(f"grpc://127.0.0.1:{control.port}", until_eof=True)
    case.until("both are accepted", lambda: sum(it.get("update") == "acknowledged" for it in server.logged()) == 2, 10)
    server.answers("by the last", [(PLAIN, NO)])
    server.process.stdin.close()
    case.same("the server ends", server.ended(), 0)
    control.ended(b"acknowledged 2\n")


def below_grpcio(case, method=ADS):
    """A client of grpcio, which refuses the second snapshot."""
    control = Control(case)
    client = GrpcioClient(case, control.port, method)
    case.same("the first", client.turn(request(F, node=True)), FIRST)
    case.same("the second", client.turn(request(F, b"1", b"1")), SECOND)
    client.asked.put(request(F, b"1", b"2", refusal=3)[5:])
    case.same("the status", client.finish(), "OK")
    client.channel.close()
    control.ended(b"acknowledged 1\n")


def below_grpcio_ecds(case):
    """The stream of extension configs."""
    below_grpcio(case, ECDS)


def unknown_method(case):
    """A call of a method that it does not serve."""
    control = Control(case)
    client = GrpcioClient(case, control.port, ("envoy.service.discovery.v3.ClusterDiscoveryService", "StreamClusters"))
    client.asked.put(request(F, node=True)[5:])
    case.same("the status", client.finish(), "UNIMPLEMENTED")
    client.channel.close()
    control.ended(b"acknowledged none\n")


def broken_request(case):
    """A request that is no message of xDS."""
    control = Control(case)
    client = GrpcioClient(case, control.port, ADS)
    client.asked.put(b"\xff")
    case.same("the status", client.finish(), "INVALID_ARGUMENT")
    client.channel.close()
    control.ended(b"acknowledged none\n")


def below_h2(case, part=None, window=65_535):
    """A client of python3-h2."""
    control = Control(case)
    client = H2Client(case, control.port, part)
    client.h2.update_settings({4: window})
    client.ask("/" + "/".join(ADS))
    client.h2.send_data(1, request(F, node=True), pad_length=7)
    client.send()
    case.same("the first", client.taken(len(FIRST)), FIRST)
    case.same("the answer begins", client.heads, [{":status": "200", "content-type": "application/grpc"}])
    acknowledgement = request(F, b"1", b"1")
    for octet in range(len(acknowledgement)):
        client.h2.send_data(1, acknowledgement[octet:octet + 1])
    client.send()
    case.same("the second", client.taken(len(SECOND)), SECOND)
    client.h2.send_data(1, request(F, b"2", b"2"), end_stream=True)
    client.send()
    case.holds("the end", client.until(lambda: client.ended))
    case.same("the answer ends", (client.heads[1:], client.data), ([{"grpc-status": "0"}], b""))
    client.peer.close()
    control.ended(b"acknowledged 2\n")


def below_h2_in_octets(case):
    """A client that writes each octet by itself, and whose window is one octet."""
    below_h2(case, 1, 1)


def other_content(case):
    """A request whose content is not gRPC's."""
    control = Control(case)
    client = H2Client(case, control.port)
    client.ask("/" + "/".join(ADS), "text/plain")
    case.holds("the end", client.until(lambda: client.ended))
    case.same("it is refused", client.heads, [{":status": "200", "content-type": "application/grpc", "grpc-status": "12"}])
    client.peer.close()
    control.ended(b"acknowledged none\n")


def gone_client(case):
    """A client that goes away in the middle of a call."""
    control = Control(case)
    client = H2Client(case, control.port)
    client.ask("/" + "/".join(ADS))
    client.h2.send_data(1, request(F, node=True))
    client.send()
    case.same("the first", client.taken(len(FIRST)), FIRST)
    client.h2.send_data(1, request(F, b"1", b"1"))
    client.send()
    case.same("the second", client.taken(len(SECOND)), SECOND)
    client.peer.close()
    control.ended(b"acknowledged 1\n")


def broken_client(case):
    """Clients that do not begin with the preface, or send data on a stream that they did not open."""
    for octets in (PLAIN + bytes(24), PREFACE + frame(SETTINGS, 0, 0, b"") + frame(DATA, 0, 1, b"x")):
        control = Control(case)
        with socket.create_connection(("127.0.0.1", control.port), timeout=20 * case.scale) as peer:
            peer.sendall(octets)
            said = b""
            while not told(said) and (more := peer.recv(1 << 16)):
                said += more
        case.same("the code", told(said), [PROTOCOL])
        control.ended(b"acknowledged none\n")


def told(octets):
    """The codes of each GOAWAY."""
    at, codes = 0, []
    while True:
        found, at = frame_at(octets, at)
        if not found:
            return codes
        if found[0] == AWAY:
            codes.append(int.from_bytes(found[3][4:8], "big"))


CASES = {f"control_{it.__name__}": it for it in (below_serve, below_grpcio, below_grpcio_ecds, unknown_method, broken_request, below_h2,
                                                 below_h2_in_octets, other_content, gone_client, broken_client)}
