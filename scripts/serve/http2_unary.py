"""The part `unary` of scripts/serve/try_http2: a server of unary calls, with python3-h2 and python3-hpack as the client."""
import h2.config
import h2.connection
import h2.events
import hpack

from http2_faults import MOST_WAITING
from http2_frames import (AWAY, CALM, COMPRESSION, DATA, FLOW, HEADERS, MORE, PING, PREFACE, PRIORITY, PROTOCOL, RESET, SETTINGS,
                          SIZE, UPDATE, frame, frames_of, number, setting)
from http2_serving import ASKS, CLOSED, REFUSED, STATUS, fields, words
from http2_trial import GRPC

# the most octets of a request's content
MOST = 100_000
WRITTEN, GONE = 1, 3
BEGUN = PREFACE + frame(SETTINGS, 0, 0, b"")


class Unary:
    """A server of the program, what it said, and the calls that it gave, by their streams."""

    def __init__(self, program, most=MOST):
        self.program, self.said, self.most, self.calls = program, b"", 0, {}
        self.do("open", most)

    def do(self, word, text=""):
        count, out, self.end, self.call = self.program.ask(f"u-{word} {text}")
        self.waits = bytes.fromhex(out[1:])
        self.most = max(self.most, len(self.waits))
        return int(count)

    def send(self):
        waits = self.waits
        self.said += waits
        if waits:
            self.do("sent", len(waits))
        return waits

    def take(self):
        """Takes the calls that are whole; their streams."""
        given = []
        while True:
            self.do("call")
            if self.call == "none":
                return given
            stream, asked, _, content = self.call.split(":")
            assert int(stream) not in self.calls, "a call is given twice"
            self.calls[int(stream)] = (asked, bytes.fromhex(content))
            given.append(int(stream))

    def hear(self, octets, cut=lambda: 9000, reads=True, takes=True):
        at = 0
        while at < len(octets) and self.end == "open":
            count = self.do("receive", octets[at:at + cut()].hex())
            at += count
            if takes:
                self.take()
            if reads:
                self.send()
            elif count == 0:
                return at
        return at

    def answer(self, stream, content=b"", trailers=STATUS):
        """A whole answer, as far as the windows allow; how much of the content was taken."""
        if self.do("answer", f"{stream}/{words(GRPC)}") != WRITTEN:
            return None
        at = 0
        while at < len(content):
            count = self.do("say", f"{stream}/{content[at:at + 40000].hex()}")
            if not count:
                return at
            at += count
        return at if self.do("finish", f"{stream}/{words(trailers)}") == WRITTEN else None

    def told(self):
        """The codes of GOAWAY, and the resets."""
        frames = frames_of(self.said + self.waits)
        return [it[3][4:] for it in frames if it[0] == AWAY], [(it[2], it[3]) for it in frames if it[0] == RESET]


class Client:
    """python3-h2 as the client of many calls."""

    def __init__(self, unary):
        self.unary, self.content, self.heads, self.ended, self.resets = unary, {}, {}, set(), []
        self.h2 = h2.connection.H2Connection(h2.config.H2Configuration(client_side=True, header_encoding="utf-8"))
        self.h2.initiate_connection()

    def turns(self, cut=lambda: 9000):
        """All that waits goes both ways."""
        for _ in range(1000):
            octets = self.h2.data_to_send()
            self.unary.hear(octets, cut, reads=False)
            waits = self.unary.send()
            if not octets and not waits:
                return
            for event in self.h2.receive_data(waits):
                self.see(event)

    def see(self, event):
        if isinstance(event, h2.events.DataReceived):
            self.content[event.stream_id] = self.content.get(event.stream_id, b"") + event.data
            if event.flow_controlled_length:
                self.h2.acknowledge_received_data(event.flow_controlled_length, event.stream_id)
        elif isinstance(event, (h2.events.ResponseReceived, h2.events.TrailersReceived)):
            self.heads.setdefault(event.stream_id, []).append([tuple(it) for it in event.headers])
        elif isinstance(event, h2.events.StreamEnded):
            self.ended.add(event.stream_id)
        elif isinstance(event, h2.events.StreamReset):
            self.resets.append((event.stream_id, int(event.error_code)))


class Mixed:
    """Streams of one connection, their frames mixed: what each asked, and what it was answered."""

    def __init__(self, trial):
        self.trial, self.rng, self.unary = trial, trial.rng, Unary(trial.program)
        self.client = Client(self.unary)
        self.next, self.open, self.asked, self.gone, self.answers = 1, {}, {}, set(), {}
        self.cut = self.rng.choice([lambda: 9000, lambda: 1 + self.rng.randrange(60)])

    def opens(self):
        if len(self.open) < 20:
            self.client.h2.send_headers(self.next, ASKS + [("x", self.rng.randbytes(9).hex())])
            self.open[self.next], self.next = b"", self.next + 2

    def says(self, stream):
        data = self.rng.randbytes(self.rng.randrange(3000))
        if self.client.h2.local_flow_control_window(stream) > len(data) + 300:
            self.client.h2.send_data(stream, data, pad_length=self.rng.choice([None, self.rng.randrange(200)]))
            self.open[stream] += data

    def ends(self, stream):
        if self.rng.random() < 0.2:
            self.client.h2.send_headers(stream, [("x", "y")], end_stream=True)
        else:
            self.client.h2.end_stream(stream)
        self.asked[stream] = self.open.pop(stream)

    def step(self):
        stream = self.rng.choice([*self.open, 0])
        kind = self.rng.randrange(9)
        if not stream or kind < 2:
            self.opens()
        elif kind < 6:
            self.says(stream)
        elif kind == 6:
            self.ends(stream)
        elif kind == 7 and self.rng.random() < 0.3:
            self.client.h2.reset_stream(stream, 8)
            self.gone.add(stream)
            del self.open[stream]
        else:
            self.client.h2.update_settings({4: self.rng.choice([0, 1, 100, 65535, 200000])})
        self.client.turns(self.cut)

    def replies(self):
        """Answers each call that came, in any order."""
        self.client.h2.update_settings({4: 1_000_000})
        self.client.h2.increment_flow_control_window(50_000_000)
        self.client.turns(self.cut)
        waits = list(self.unary.calls)
        self.rng.shuffle(waits)
        for stream in waits:
            content = self.rng.randbytes(self.rng.choice([0, 5, self.rng.randrange(60000)]))
            self.trial.holds("answered", self.unary.answer(stream, content) == len(content), stream)
            self.answers[stream] = content
            self.client.turns(self.cut)


def mixed(trial):
    """Calls on many streams at once: each has its own fields and content, and gets its own answer."""
    for _ in range(max(1, trial.rounds // 400)):
        it = Mixed(trial)
        it.client.turns()
        for _ in range(trial.rng.randrange(20, 200)):
            it.step()
        for stream in list(it.open):
            it.ends(stream)
        it.client.turns(it.cut)
        it.replies()
        client, given = it.client, it.unary.calls
        trial.holds("the calls", given == {stream: ("call", content) for stream, content in it.asked.items()}, (len(given), len(it.asked)))
        trial.holds("the answers", client.content == {s: c for s, c in it.answers.items() if c} and client.ended == set(given)
                    and all(client.heads[s] == [GRPC, STATUS] for s in given), it.unary.end)
        trial.holds("no resets", client.resets == [] and it.unary.end == "open", (client.resets, it.unary.end))
        trial.holds("an answer that is over", all(it.unary.answer(s) is None and it.unary.do("finish", f"{s}/") == GONE for s in [*given, *it.gone]))
        trial.counts["connections"] += 1
        trial.counts["calls"] += len(given)
        trial.counts["reset by the client"] += len(it.gone)


def windows(trial):
    """Windows of one octet: content goes within them, in order."""
    for _ in range(max(1, trial.rounds // 1000)):
        unary = Unary(trial.program)
        unary.hear(PREFACE + frame(SETTINGS, 0, 0, setting(4, 0)) + b"".join(frame(HEADERS, 5, s, fields(*ASKS)) for s in (1, 3)))
        unary.send()
        unary.said = b""
        content = {s: trial.rng.randbytes(30) for s in (1, 3)}
        at = {1: 0, 3: 0}
        for s in (1, 3):
            unary.do("answer", f"{s}/{words(GRPC)}")
        for _ in range(60):
            s = trial.rng.choice([1, 3])
            trial.holds("no window", unary.do("say", f"{s}/{content[s][at[s]:].hex()}") == 0)
            unary.hear(frame(UPDATE, 0, s, number(1)))
            count = unary.do("say", f"{s}/{content[s][at[s]:].hex()}")
            trial.holds("one octet", count == min(1, len(content[s]) - at[s]), count)
            at[s] += count
            if not count:
                unary.hear(frame(SETTINGS, 0, 0, setting(4, 0)))
            if at[s] == 30:
                break
        unary.send()
        found = {s: b"".join(it[3] for it in frames_of(unary.said) if it[0] == DATA and it[2] == s) for s in (1, 3)}
        trial.holds("the content", all(found[s] == content[s][:at[s]] for s in (1, 3)), at)
        trial.counts["windows of one octet"] += 60


def resets_of():
    """Frames that reset their stream, by name, with the code; the stream after it is served."""
    block = fields(*ASKS)
    asked, whole = frame(HEADERS, 4, 1, block), frame(HEADERS, 5, 1, block)
    without = [[it for it in ASKS if it[0] != name] for name in (":method", ":scheme", ":path")]
    yield from [
        ("content after the end", whole + frame(DATA, 0, 1, b"x"), CLOSED), ("trailers after the end", whole + frame(HEADERS, 5, 1, fields(("x", "y"))), CLOSED),
        ("trailers without an end", asked + frame(HEADERS, 4, 1, fields(("x", "y"))), PROTOCOL), ("pseudo-field in trailers", asked + frame(HEADERS, 5, 1, fields((":path", "/"))), PROTOCOL),
        ("large list", frame(HEADERS, 4, 1, fields(*ASKS, ("x", "y" * 16384))[:1] and fields(*ASKS, *[("x", "y" * 4000)] * 5)), CALM),
        ("more than was told", frame(HEADERS, 4, 1, fields(*ASKS, ("content-length", "1"))) + frame(DATA, 0, 1, b"xx"), PROTOCOL),
        ("less than was told", frame(HEADERS, 4, 1, fields(*ASKS, ("content-length", "1"))) + frame(DATA, 1, 1, b""), PROTOCOL),
        ("content told and none", frame(HEADERS, 5, 1, fields(*ASKS, ("content-length", "1"))), PROTOCOL),
        ("too much content", asked + frame(DATA, 0, 1, bytes(16384)) * 7, CALM), ("window by 0", asked + frame(UPDATE, 0, 1, number(0)), PROTOCOL),
        ("window above 2^31 - 1", asked + frame(UPDATE, 0, 1, number(0x7fffffff)), FLOW), ("priority of 4 octets", asked + frame(PRIORITY, 0, 1, bytes(4)), SIZE),
    ]
    for at, pairs in enumerate(without + [ASKS + [("A", "b")], ASKS + [("te", "gzip")], ASKS + [("connection", "x")]]):
        yield f"malformed request {at}", frame(HEADERS, 4, 1, fields(*pairs)), PROTOCOL


def stream_faults(trial):
    """A fault of a stream resets it with its code; the others go on."""
    for name, octets, code in resets_of():
        for size in (9000, 1) if len(octets) < 10_000 else (9000,):
            unary = Unary(trial.program)
            unary.hear(BEGUN + frame(HEADERS, 4, 3 if "request" in name else 1, fields(*ASKS)) if False else BEGUN, lambda size=size: size)
            unary.hear(octets + frame(HEADERS, 4, 5, fields(*ASKS)) + frame(DATA, 1, 5, b"five"), lambda size=size: size)
            away, resets = unary.told()
            trial.holds(name, away == [] and resets == [(1, number(code))] and unary.calls.get(5) == ("call", b"five") and unary.end == "open",
                        (away, resets, unary.calls, unary.end))
            trial.holds(f"{name}: nothing is written", unary.answer(1) is None and unary.answer(5, b"y") == 1)
            trial.counts["faults of a stream"] += 1


def connection_faults(trial):
    """A fault of the connection ends it, and the client is told its code once."""
    block = fields(*ASKS)
    asked = BEGUN + frame(HEADERS, 4, 1, block)
    for name, octets, code in [
            ("no preface", b"GET / HTTP/1.1\r\n\r\n", PROTOCOL), ("first is no settings", PREFACE + frame(PING, 0, 0, bytes(8)), PROTOCOL),
            ("window of 2^31", PREFACE + frame(SETTINGS, 0, 0, setting(4, 1 << 31)), FLOW), ("data on an idle stream", BEGUN + frame(DATA, 0, 1, b"x"), PROTOCOL),
            ("data above", asked + frame(DATA, 0, 3, b"x"), PROTOCOL), ("reset of an idle stream", BEGUN + frame(RESET, 0, 1, number(8)), PROTOCOL),
            ("window of an idle stream", BEGUN + frame(UPDATE, 0, 1, number(8)), PROTOCOL), ("fields on 2", BEGUN + frame(HEADERS, 4, 2, block), PROTOCOL),
            ("part of another stream", BEGUN + frame(HEADERS, 0, 1, block) + frame(MORE, 4, 3, b""), PROTOCOL), ("part of no block", BEGUN + frame(MORE, 4, 1, b""), PROTOCOL),
            ("ping in a block", BEGUN + frame(HEADERS, 0, 1, block) + frame(PING, 0, 0, bytes(8)), PROTOCOL), ("broken block", BEGUN + frame(HEADERS, 4, 1, b"\xff\xff\xff"), COMPRESSION),
            ("broken block of another stream", asked + frame(HEADERS, 4, 3, b"\xff\xff\xff"), COMPRESSION), ("too large", asked + frame(DATA, 0, 1, b"", 16385), SIZE),
            ("window of the connection by 0", asked + frame(UPDATE, 0, 0, number(0)), PROTOCOL), ("window of the connection above 2^31 - 1", asked + frame(UPDATE, 0, 0, number(0x7fffffff)), FLOW),
            ("settings above 2^31 - 1 on a stream", asked + frame(UPDATE, 0, 1, number(0x7fff0000)) + frame(SETTINGS, 0, 0, setting(4, 0x7fffffff)), FLOW),
            ("priority of 4 octets on an idle stream", asked + frame(PRIORITY, 0, 3, bytes(4)), SIZE),
            ("too heavy", BEGUN + frame(HEADERS, 0, 1, b"") + frame(MORE, 0, 1, bytes(16384)) * 3, CALM)]:
        for size in (9000, 1) if len(octets) < 10_000 else (9000,):
            unary = Unary(trial.program)
            unary.hear(octets, lambda size=size: size)
            away, _ = unary.told()
            trial.holds(name, away == [number(code)] and unary.end != "open", (away, unary.end))
            trial.counts["faults of the connection"] += 1


def streams_at_once(trial):
    """The 101st stream is refused, its block is decoded, and its data are given back to the connection."""
    encoder, unary = hpack.Encoder(), Unary(trial.program)
    many = b"".join(frame(HEADERS, 4, s, encoder.encode([*ASKS, ("x", str(s))])) for s in range(1, 201, 2))
    refused = frame(HEADERS, 4, 201, encoder.encode([*ASKS, ("only-here", "new")])) + frame(DATA, 0, 201, bytes(16384)) * 100
    unary.hear(BEGUN + many + refused + frame(DATA, 1, 1, b"one"))
    trial.holds("refused", unary.told() == ([], [(201, number(REFUSED))]) and unary.calls == {1: ("call", b"one")}, unary.told())
    unary.answer(1)
    unary.hear(frame(HEADERS, 5, 203, encoder.encode([*ASKS, ("only-here", "new")])))
    trial.holds("room again", unary.told()[1] == [(201, number(REFUSED))] and 203 in unary.calls and unary.end == "open", (unary.told(), unary.end))
    trial.counts["streams at once"] += 101


def unary_floods(trial):
    """Attacks by their names: how much waits at most, and how they end."""
    block = fields(*ASKS)
    cancelled = b"".join(frame(HEADERS, 4, s, block) + frame(RESET, 0, s, number(8)) for s in range(3, 3999, 2))
    made = b"".join(frame(HEADERS, 4, s, block) + frame(UPDATE, 0, s, number(0)) for s in range(3, 3999, 2))
    whole = b"".join(frame(HEADERS, 5, s, block) for s in range(3, 3999, 2))
    for name, octets, end, once in [
            ("ping flood", frame(PING, 0, 0, bytes(8)), "open", False), ("settings flood", frame(SETTINGS, 0, 0, b""), "open", False),
            ("empty data", frame(DATA, 0, 1, b""), "open", False), ("rapid reset", cancelled, "Connection(EnhanceYourCalm)", True),
            ("resets that the client provokes", made, "Connection(EnhanceYourCalm)", True), ("more streams than may be", whole, "open", True),
            ("empty parts without end", frame(HEADERS, 0, 3, b"") + frame(MORE, 0, 3, b"") * 9999, "Connection(EnhanceYourCalm)", True)]:
        unary = Unary(trial.program)
        unary.hear(BEGUN + frame(HEADERS, 4, 1, block))
        unary.most = 0
        many = octets if once else octets * (100_000 // len(octets) + 1)
        at = len(many)
        for _ in range(1 if once else 40):
            if at == len(many) and unary.end == "open":
                at = unary.hear(many, lambda: 16000, reads=False, takes=False)
        trial.holds(name, unary.end == end and unary.most <= MOST_WAITING, (unary.end, unary.most))
        trial.counts["floods"] += 1


def unary(trial):
    """A server of unary calls: streams mixed, windows, faults, and floods."""
    for part in (mixed, windows, stream_faults, connection_faults, streams_at_once, unary_floods):
        part(trial)
