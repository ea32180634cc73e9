"""The part `serving` of scripts/serve/try_http2: a server of one call, with python3-h2 and python3-hpack as the client."""
import h2.config
import h2.connection
import h2.events
import hpack

from http2_faults import MOST_WAITING
from http2_frames import (AWAY, CALM, COMPRESSION, DATA, FLOW, HEADERS, MORE, PING, PREFACE, PRIORITY, PROTOCOL, PUSH, RESET, SETTINGS,
                          SIZE, UPDATE, frame, frames_of, number, setting)
from http2_trial import GRPC

# the codes of RFC 9113, section 7, that only a server tells
CLOSED, REFUSED = 5, 7
ASKS = [(":method", "POST"), (":scheme", "http"), (":path", "/s/m"), (":authority", "a"), ("te", "trailers"),
        ("content-type", "application/grpc")]
STATUS = [("grpc-status", "0"), ("grpc-message", "good")]


def fields(*pairs):
    """A header block with these fields."""
    return hpack.Encoder().encode(list(pairs))


def words(pairs):
    """Fields as the program reads them."""
    return ",".join(f"{name.encode().hex()}:{value.encode().hex()}" for name, value in pairs)


class Served:
    """A server of the program, and what it said."""

    def __init__(self, program):
        self.program, self.said, self.most = program, b"", 0
        self.do("open")

    def do(self, word, text=""):
        count, out, data, self.end, closed, self.asked = self.program.ask(f"s-{word} {text}")
        self.waits, self.shown, self.closed = bytes.fromhex(out[1:]), bytes.fromhex(data[1:]), closed == "true"
        self.most = max(self.most, len(self.waits))
        return int(count)

    def data(self):
        self.do("data")
        return self.shown

    def send(self):
        waits = self.waits
        self.said += waits
        if waits:
            self.do("sent", len(waits))
        return waits

    def hear(self, octets, cut=lambda: 9000, reads=True):
        at = 0
        while at < len(octets) and self.end == "open":
            count = self.do("receive", octets[at:at + cut()].hex())
            at += count
            if reads:
                self.send()
            elif count == 0:
                return at
        return at


class Client:
    """python3-h2 as the client."""

    def __init__(self, served):
        self.served, self.data, self.events, self.refused = served, b"", [], []
        self.h2 = h2.connection.H2Connection(h2.config.H2Configuration(client_side=True, header_encoding="utf-8"))
        self.h2.initiate_connection()

    def turns(self, cut=lambda: 9000):
        """All that waits goes both ways."""
        for _ in range(100):
            octets = self.h2.data_to_send()
            self.served.hear(octets, cut, reads=False)
            waits = self.served.send()
            if not octets and not waits:
                return
            for event in self.h2.receive_data(waits):
                self.events.append(event)
                if isinstance(event, h2.events.DataReceived):
                    self.data += event.data
                    self.h2.acknowledge_received_data(event.flow_controlled_length, event.stream_id)
                if isinstance(event, h2.events.StreamReset):
                    self.refused.append((event.stream_id, int(event.error_code)))

    def heads(self, kind):
        return [[tuple(it) for it in event.headers] for event in self.events if isinstance(event, kind)]


def one_served(trial):
    """A call with data both ways, on some stream; others that the client opens are refused, with their data."""
    rng, served = trial.rng, Served(trial.program)
    client = Client(served)
    stream = rng.choice([1, 3, 5, 2 ** 31 - 9])
    client.turns()
    settings = client.h2.remote_settings
    trial.holds("announced", settings.initial_window_size == 1048581 and settings.max_header_list_size == 16384
                and settings.max_concurrent_streams == 1, settings)
    settings[3] = 100
    settings.acknowledge()
    trial.holds("nothing asked", served.asked == "none" and served.do("answer", words(GRPC)) == 0)
    client.h2.send_headers(stream, ASKS)
    client.turns()
    trial.holds("asked", served.asked == "call" and not served.closed, served.asked)
    trial.holds("no data before the answer", served.do("say", b"abc".hex()) == 0)
    trial.holds("answered", served.do("answer", words(GRPC)) == 1 and served.do("answer", words(GRPC)) == 1)
    brought, taken, given, other, refused = b"", b"", b"", stream, []
    for _ in range(rng.randrange(60)):
        kind = rng.randrange(6)
        if kind < 2:
            data, pad = rng.randbytes(rng.randrange(16000)), rng.choice([None, rng.randrange(200)])
            if client.h2.local_flow_control_window(stream) > len(data) + 300:
                client.h2.send_data(stream, data, pad_length=pad)
                brought += data
        elif kind == 2:
            count = served.do("take", rng.randrange(40000))
            taken += brought[len(taken):len(taken) + count]
        elif kind == 3:
            octets = rng.randbytes(rng.randrange(30000))
            given += octets[:served.do("say", octets.hex())]
        elif kind == 4 and other < 2 ** 31 - 3:
            other += 2
            client.h2.send_headers(other, ASKS)
            client.h2.send_data(other, bytes(rng.randrange(3000)), end_stream=rng.random() < 0.5)
            refused.append((other, REFUSED))
        else:
            client.h2.update_settings({4: rng.choice([0, 1, 100, 65535, 200000])})
        client.turns()
        trial.holds("data of the client", taken + served.data() == brought, len(brought))
    trial.holds("refused", client.refused == refused, (client.refused, refused))
    client.h2.update_settings({4: 200000})
    client.turns()
    served.do("take", 1 << 30)
    if rng.random() < 0.3:
        client.h2.reset_stream(stream, 8)
        client.turns()
        trial.holds("reset", served.end == "reset:8", served.end)
        return
    client.h2.end_stream(stream)
    client.turns()
    trial.holds("closed", served.closed and served.end == "open", served.end)
    trial.holds("finished", served.do("finish", words(STATUS)) == 1 and served.end == "answered", served.end)
    client.turns()
    trial.holds("the answer", client.heads(h2.events.ResponseReceived) == [GRPC] and client.heads(h2.events.TrailersReceived) == [STATUS]
                and client.data == given and any(isinstance(it, h2.events.StreamEnded) for it in client.events), client.events[-3:])


def served_calls(trial):
    """Calls with data both ways."""
    for _ in range(max(1, trial.rounds // 200)):
        one_served(trial)
        trial.counts["calls"] += 1


def bad_requests(begun):
    """Requests that are malformed (RFC 9113, 8.2 and 8.3.1)."""
    plain = dict(ASKS)
    without = [[it for it in ASKS if it[0] != name] for name in (":method", ":scheme", ":path")]
    more = [ASKS + [(":method", "POST")], ASKS[:1] + ASKS, ASKS[3:4] + ASKS, ASKS + [("A", "b")], ASKS + [("te", "gzip")], ASKS + [("connection", "x")],
            ASKS[:1] + [("x", "y")] + ASKS[1:], ASKS[:4] + [(":other", "x")] + ASKS[4:], [(n, "" if n == ":path" else v) for n, v in plain.items()],
            ASKS + [("x", " y")], ASKS + [("x", "a\nb")], ASKS + [("content-length", "x")], ASKS + [("content-length", "1"), ("content-length", "2")]]
    for at, pairs in enumerate(without + more):
        yield f"malformed request {at}", begun + frame(HEADERS, 4, 1, fields(*pairs)), PROTOCOL


def served_faults_of():
    """Streams with a fault, by name, and the code of the GOAWAY that it gets."""
    begun, block = PREFACE + frame(SETTINGS, 0, 0, b""), fields(*ASKS)
    asked = begun + frame(HEADERS, 4, 1, block)
    closed = begun + frame(HEADERS, 5, 1, block)
    yield from [
        ("no preface", b"GET / HTTP/1.1\r\n\r\n", PROTOCOL), ("another preface", PREFACE[:20] + b"x" * 9, PROTOCOL),
        ("first is no settings", PREFACE + frame(PING, 0, 0, bytes(8)), PROTOCOL), ("fields first", PREFACE + frame(HEADERS, 4, 1, block), PROTOCOL),
        ("push 2", PREFACE + frame(SETTINGS, 0, 0, setting(2, 2)), PROTOCOL), ("window of 2^31", PREFACE + frame(SETTINGS, 0, 0, setting(4, 1 << 31)), FLOW),
        ("data on an idle stream", begun + frame(DATA, 0, 1, b"x"), PROTOCOL), ("data on 0", asked + frame(DATA, 0, 0, b"x"), PROTOCOL),
        ("data above", asked + frame(DATA, 0, 3, b"x"), PROTOCOL), ("reset of an idle stream", begun + frame(RESET, 0, 1, number(8)), PROTOCOL),
        ("window of an idle stream", begun + frame(UPDATE, 0, 1, number(8)), PROTOCOL), ("fields on 2", begun + frame(HEADERS, 4, 2, block), PROTOCOL),
        ("data on 2", asked + frame(DATA, 0, 2, b"x"), PROTOCOL), ("push", asked + frame(PUSH, 4, 1, bytes(4) + block), PROTOCOL),
        ("data behind the end", closed + frame(DATA, 0, 1, b"x"), CLOSED), ("trailers behind the end", closed + frame(HEADERS, 5, 1, fields(("x", "y"))), CLOSED),
        ("fields in the middle", asked + frame(HEADERS, 4, 1, fields(("x", "y"))), PROTOCOL), ("pseudo-field in trailers", asked + frame(HEADERS, 5, 1, fields((":path", "/"))), PROTOCOL),
        ("part of another stream", begun + frame(HEADERS, 0, 1, block) + frame(MORE, 4, 3, b""), PROTOCOL), ("part of no block", begun + frame(MORE, 4, 1, b""), PROTOCOL),
        ("ping in a block", begun + frame(HEADERS, 0, 1, block) + frame(PING, 0, 0, bytes(8)), PROTOCOL), ("broken block", begun + frame(HEADERS, 4, 1, b"\xff\xff\xff"), COMPRESSION),
        ("broken block of another stream", asked + frame(HEADERS, 4, 3, b"\xff\xff\xff"), COMPRESSION),
        ("too heavy", begun + frame(HEADERS, 0, 1, b"") + frame(MORE, 0, 1, bytes(16384)) * 3, CALM), ("large list", begun + frame(HEADERS, 4, 1, fields(*ASKS, ("x", "y" * 16384))), CALM),
        ("more than was told", begun + frame(HEADERS, 4, 1, fields(*ASKS, ("content-length", "1"))) + frame(DATA, 0, 1, b"xx"), PROTOCOL),
        ("less than was told", begun + frame(HEADERS, 4, 1, fields(*ASKS, ("content-length", "1"))) + frame(DATA, 1, 1, b""), PROTOCOL),
        ("content told and none", begun + frame(HEADERS, 5, 1, fields(*ASKS, ("content-length", "1"))), PROTOCOL),
        ("more than the window", asked + frame(DATA, 0, 1, bytes(16384)) * 64 + frame(DATA, 0, 1, bytes(6)), FLOW),
        ("more than the connection's window", asked + frame(HEADERS, 4, 3, block) + frame(DATA, 0, 3, bytes(16384)) * 32 + frame(DATA, 0, 1, bytes(16384)) * 65, FLOW),
        ("stream above 2^31 - 1", asked + frame(UPDATE, 0, 1, number(0x7fffffff)), FLOW), ("too large", asked + frame(DATA, 0, 1, b"", 16385), SIZE),
    ]
    yield from bad_requests(begun)


def served_faults(trial):
    """Each fault ends the call, and the client is told its code once."""
    for name, octets, code in served_faults_of():
        for size in (9000, 1) if len(octets) < 10_000 else (9000,):
            trial.counts["faults in single bytes" if size == 1 else "faults"] += 1
            served = Served(trial.program)
            served.send()
            served.said = b""
            served.hear(octets, lambda size=size: size)
            served.send()
            told = [it[3][4:] for it in frames_of(served.said) if it[0] == AWAY]
            trial.holds(name, served.end.startswith("broken") and told == [number(code)], (served.end, told))


def served_others(trial):
    """What may come beside the call is passed over, and a request that is no call of gRPC is seen as such."""
    begun, block = PREFACE + frame(SETTINGS, 0, 0, setting(2, 1)), fields(*ASKS)
    asked = begun + frame(PRIORITY, 0, 9, bytes(5)) + frame(UPDATE, 0, 0, number(5)) + frame(HEADERS, 4, 7, block)
    beside = (frame(HEADERS, 4, 9, b"\xbe" + block) + frame(DATA, 0, 9, b"other") + frame(UPDATE, 0, 9, number(1)) + frame(RESET, 0, 9, number(8)) + frame(HEADERS, 5, 9, block)
              + frame(DATA, 0, 5, b"skipped") + frame(AWAY, 0, 0, bytes(8)) + frame(77, 1, 7, b"unknown"))
    for cut in (lambda: 9000, lambda: 1):
        served = Served(trial.program)
        served.hear(asked + beside + frame(DATA, 1, 7, b"mine"), cut)
        resets = [(it[2], it[3]) for it in frames_of(served.said) if it[0] == RESET]
        trial.counts["calls with others beside them"] += 1
        trial.holds("beside the call", served.end == "open" and served.closed and served.data() == b"mine" and resets == [(9, number(REFUSED))], (served.end, resets))
    for name, value in ((":method", "GET"), (":path", "/s/n"), ("content-type", "text/html")):
        served = Served(trial.program)
        served.hear(begun + frame(HEADERS, 5, 1, fields(*[(n, value if n == name else v) for n, v in ASKS])))
        trial.counts["requests that are no calls"] += 1
        trial.holds("no call", served.end == "open" and served.asked == "other", (name, served.asked))
        trial.holds("its answer", served.do("finish", words(GRPC + [("grpc-status", "12")])) == 1)


def served_floods(trial):
    """Attacks by their names: how much waits at most, and how they end."""
    begun = PREFACE + frame(SETTINGS, 0, 0, b"") + frame(HEADERS, 4, 1, fields(*ASKS))
    streams = b"".join(frame(HEADERS, 4, stream, fields(*ASKS)) + frame(RESET, 0, stream, number(8)) for stream in range(3, 3999, 2))
    for name, octets, end in [
            ("ping flood", frame(PING, 0, 0, bytes(8)), "open"), ("settings flood", frame(SETTINGS, 0, 0, b""), "open"), ("empty data", frame(DATA, 0, 1, b""), "open"),
            ("rapid reset", streams, "open"), ("empty parts without end", frame(HEADERS, 0, 3, b"") + frame(MORE, 0, 3, b"") * 9999, "broken:Connection(EnhanceYourCalm)")]:
        served = Served(trial.program)
        served.hear(begun)
        served.most = 0
        many = octets * (100_000 // len(octets) + 1) if name != "rapid reset" else octets
        at = len(many)
        for _ in range(40 if name != "rapid reset" else 1):
            if at == len(many) and served.end == "open":
                at = served.hear(many, lambda: 16000, reads=False)
        trial.holds(name, served.end == end and served.most <= MOST_WAITING, (served.end, served.most))
        trial.counts["floods"] += 1


def serving(trial):
    """A server of one call: calls, faults, what comes beside a call, floods."""
    for part in (served_calls, served_faults, served_others, served_floods):
        part(trial)
