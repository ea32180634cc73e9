"""Streams for scripts/serve/try_http2: legal and odd ones, whose frames python3-h2 and python3-hyperframe make, and calls that python3-h2
serves and judges."""
import h2.config
import h2.connection
import h2.events
from hyperframe.frame import (ContinuationFrame, DataFrame, ExtensionFrame, GoAwayFrame, HeadersFrame, PingFrame, PriorityFrame,
                              SettingsFrame, WindowUpdateFrame)

from http2_frames import HEADERS, PING, SETTINGS, UPDATE, frame, frames_of
from http2_trial import GRPC


def new_server():
    """A connection of python3-h2 in the role of a server."""
    return h2.connection.H2Connection(h2.config.H2Configuration(client_side=False, header_encoding="utf-8"))


def cut_block(trial, ends, block):
    """Frames that have a block, in parts anywhere, and the first one perhaps padded and with a priority."""
    rng, counts = trial.rng, trial.counts
    places = sorted(rng.randrange(len(block) + 1) for _ in range(rng.randrange(4)))
    parts = [block[a:b] for a, b in zip([0, *places], [*places, len(block)])]
    first = HeadersFrame(1, data=parts[0], flags=["END_STREAM"] if ends else [])
    if rng.random() < 0.5:
        first.flags.add("PRIORITY")
        first.depends_on, first.stream_weight, first.exclusive = rng.randrange(2, 8), rng.randrange(256), rng.random() < 0.5
        counts["blocks with a priority"] += 1
    if rng.random() < 0.5:
        first.flags.add("PADDED")
        first.pad_length = rng.randrange(20)
        counts["padded blocks"] += 1
    more = [ContinuationFrame(1, data=part) for part in parts[1:]]
    [first, *more][-1].flags.add("END_HEADERS")
    counts["CONTINUATION frames"] += len(more)
    return b"".join(it.serialize() for it in (first, *more))


def recut(trial, octets):
    """The same frames, with each header block cut anew."""
    return b"".join(cut_block(trial, flags & 1, payload) if kind == HEADERS else frame(kind, flags, stream, payload)
                    for kind, flags, stream, payload in frames_of(octets))


def odd_frame(trial, server, seen):
    """A legal frame after the answer's fields; `seen` has what it brings and asks for."""
    rng, counts = trial.rng, trial.counts
    kind = rng.randrange(10)
    if kind < 3:
        data, pad = rng.randbytes(rng.choice([0, 1, 5, 300, 2000])), rng.choice([None, rng.randrange(255)])
        seen["data"] += data
        server.send_data(1, data, pad_length=pad)
        counts["padded data"] += pad is not None
        return server.data_to_send()
    if kind == 3:
        mark = rng.randbytes(8)
        seen["pings"].append(mark)
        return PingFrame(0, opaque_data=mark).serialize()
    if kind == 4:
        counts["frames of unknown types"] += 1
        made = ExtensionFrame(rng.randrange(10, 256), rng.randrange(1 << 31), rng.randrange(256), rng.randbytes(rng.randrange(40)))
        # python3-hyperframe 6.0 writes the length that was set when a frame was read
        made.body_len = len(made.body)
        return made.serialize()
    if kind == 5:
        counts["priorities"] += 1
        return PriorityFrame(2 * rng.randrange(1, 9) + 1, depends_on=1, stream_weight=rng.randrange(256), exclusive=True).serialize()
    if kind == 6:
        seen["settings"] += 1
        counts["unknown settings"] += 1
        return SettingsFrame(0, settings={3: 100, rng.randrange(16, 256): rng.randrange(1 << 32), 6: 0}).serialize()
    if kind == 7:
        return WindowUpdateFrame(rng.randrange(2), window_increment=rng.randrange(1, 999)).serialize()
    if kind == 8:
        return DataFrame(1, data=b"", flags=["PADDED"], pad_length=rng.randrange(256)).serialize()
    return (SettingsFrame(0, flags=["ACK"]).serialize() + PingFrame(0, opaque_data=bytes(8), flags=["ACK"]).serialize()
            + GoAwayFrame(0, last_stream_id=1, error_code=0, additional_data=b"bye").serialize())


def odd_stream(trial, opening):
    """What python3-h2 answers to a client's opening: settings, interim answers, fields, data, trailers; with odd frames between."""
    rng, server = trial.rng, new_server()
    seen = {"data": b"", "pings": [], "settings": 1, "status": rng.randrange(17), "message": rng.choice([b"", b"a b%", "\u20ac \n".encode()])}
    server.initiate_connection()
    server.receive_data(opening)
    octets = server.data_to_send()
    for _ in range(rng.randrange(3)):
        server.send_headers(1, [(":status", str(rng.randrange(102, 200))), ("link", "x")])
        octets += recut(trial, server.data_to_send())
        trial.counts["interim answers"] += 1
    server.send_headers(1, [*GRPC, ("x", "y" * rng.randrange(300))])
    octets += recut(trial, server.data_to_send())
    for _ in range(rng.randrange(25)):
        octets += odd_frame(trial, server, seen)
    coded = "".join(chr(b) if 32 <= b < 127 and b != 37 else f"%{b:02X}" for b in seen["message"])
    server.send_headers(1, [("grpc-status", str(seen["status"]))] + ([("grpc-message", coded)] if coded else []), end_stream=True)
    trial.counts["trailers"] += 1
    return octets + recut(trial, server.data_to_send()), seen


def streams(trial):
    """Odd but legal streams, each in random cuts and in single bytes."""
    rng = trial.rng
    for _ in range(max(1, trial.rounds // 100)):
        octets, seen = odd_stream(trial, trial.call().send())
        for is_each in (False, True):
            call = trial.call()
            call.send()
            call.said = b""
            if is_each:
                call.hear_each(octets)
            else:
                call.hear(octets, lambda: rng.choice([1, 2, 3, 9, 10, 100, 5000]))
            said, data = frames_of(call.said), call.data()
            is_so = (call.end == f"status:{seen['status']}" and data == seen["data"] and call.message == seen["message"]
                     and [it[3] for it in said if it[0] == PING] == seen["pings"]
                     and sum(it[:2] == (SETTINGS, 1) for it in said) == seen["settings"]
                     and {it[0] for it in said} <= {SETTINGS, PING, UPDATE})
            trial.holds("odd stream", is_so, (call.end, len(data), len(seen["data"]), call.message, octets.hex()[:400]))
            trial.counts["streams in single bytes" if is_each else "streams in random cuts"] += 1


class Server:
    """python3-h2 as the server of a call."""

    def __init__(self, call, is_each):
        self.call, self.is_each, self.data, self.over = call, is_each, b"", None
        self.h2 = new_server()
        self.h2.initiate_connection()
        self.events = self.reads(call.send())

    def reads(self, octets):
        """Its events of these octets; it raises where they are no legal frames."""
        events = self.h2.receive_data(octets)
        for event in events:
            if isinstance(event, h2.events.DataReceived):
                self.data += event.data
                self.h2.acknowledge_received_data(event.flow_controlled_length, 1)
            if isinstance(event, (h2.events.StreamEnded, h2.events.StreamReset, h2.events.ConnectionTerminated)):
                self.over = event
        return events

    def turns(self):
        """All that waits goes both ways."""
        for _ in range(100):
            octets = self.h2.data_to_send()
            waits = b""
            if self.is_each and octets:
                waits = self.call.hear_each(octets)
            else:
                self.call.hear(octets, reads=False)
            waits += self.call.send()
            if not octets and not waits:
                return
            self.reads(waits)


def one_call(trial, is_each):
    """A call with data both ways."""
    rng, call = trial.rng, trial.call()
    server = Server(call, is_each)
    asked = [it for it in server.events if isinstance(it, h2.events.RequestReceived)]
    wanted = [(":method", "POST"), (":scheme", "http"), (":path", "/s/m"), (":authority", "a"), ("te", "trailers"), ("content-type", "application/grpc")]
    trial.holds("request", len(asked) == 1 and [tuple(it) for it in asked[0].headers] == wanted, server.events)
    settings = server.h2.remote_settings
    trial.holds("announced", settings.max_header_list_size == 16384 and settings.enable_push == 0 and settings.initial_window_size == 1048581, settings)
    server.h2.send_headers(1, GRPC)
    brought, taken, given, most = b"", b"", b"", 1000 if is_each else 16000
    for _ in range(rng.randrange(60)):
        kind = rng.randrange(5)
        if kind < 2:
            data, pad = rng.randbytes(rng.randrange(most)), rng.choice([None, rng.randrange(200)])
            if server.h2.local_flow_control_window(1) > len(data) + 300:
                server.h2.send_data(1, data, pad_length=pad)
                brought += data
        elif kind == 2:
            count = call.do("take", rng.randrange(40000))
            taken += brought[len(taken):len(taken) + count]
        elif kind == 3:
            octets = rng.randbytes(rng.randrange(30000))
            given += octets[:call.do("say", octets.hex())]
        else:
            server.h2.update_settings({4: rng.choice([0, 1, 100, 65535, 200000])})
        server.turns()
        trial.holds("data of the peer", taken + call.data() == brought, len(brought))
    server.h2.update_settings({4: 200000})
    server.turns()
    call.do("take", 1 << 30)
    trial.counts["octets that the server sent"] += len(brought)
    trial.counts["octets that the client sent"] += len(given)
    ends_call(trial, call, server, given)


def ends_call(trial, call, server, given):
    """The call's last turns: half-closed by the client, ended by the server; or cancelled."""
    if trial.rng.random() < 0.3:
        call.do("cancel")
        server.turns()
        trial.holds("cancelled", isinstance(server.over, h2.events.StreamReset) and server.over.error_code == 8, server.over)
        return
    trial.holds("finish", call.do("finish") == 1)
    server.turns()
    trial.holds("half-closed", isinstance(server.over, h2.events.StreamEnded) and server.data == given, server.over)
    call.do("ping", 77)
    trial.holds("ping waits", call.ping == "77")
    server.turns()
    trial.holds("ping acknowledged", call.ping == "-")
    server.h2.send_headers(1, [("grpc-status", "0")], end_stream=True)
    server.turns()
    trial.holds("status", call.end == "status:0", call.end)


def one_octet_windows(trial):
    """A call whose windows are opened by one octet again and again: what is sent is what was given, an octet in each frame."""
    call = trial.call()
    server = new_server()
    server.initiate_connection()
    server.receive_data(call.send())
    server.update_settings({4: 0})
    call.hear(server.data_to_send())
    call.said = b""
    octets, given = trial.rng.randbytes(200), 0
    for at in range(200):
        trial.holds("no window", call.do("say", octets[given:].hex()) == 0)
        call.hear(WindowUpdateFrame(1, window_increment=1).serialize())
        given += call.do("say", octets[given:].hex())
        call.send()
        trial.holds("a window of one", given == at + 1, given)
    said = [it for it in frames_of(call.said) if it[0] == 0]
    trial.holds("an octet in each frame", b"".join(it[3] for it in said) == octets and {len(it[3]) for it in said} == {1})
    trial.counts["windows of one octet"] += 200


def calls(trial):
    for at in range(max(1, trial.rounds // 500)):
        one_call(trial, at % 2 == 1)
        trial.counts["calls in single bytes" if at % 2 else "calls"] += 1
    one_octet_windows(trial)
