"""Faults and floods for scripts/serve/try_http2: the code of each fault, and how much waits in a flood."""
import hpack

from http2_frames import (AWAY, COMPRESSION, DATA, FLOW, HEADERS, MORE, PING, PRIORITY, PROTOCOL, PUSH, RESET, SETTINGS, SIZE, UPDATE,
                          frame, frames_of, number, setting)
from http2_trial import GRPC

# while more octets wait than this, nothing is taken; with one answer more, and what is said at the end
PENDING, MOST_WAITING = 65536, 81955


def fields(*pairs):
    return hpack.Encoder().encode(list(pairs))


def fault_cases():
    """Streams with a fault, by name, and the code of the GOAWAY that it gets."""
    first, answer, block = frame(SETTINGS, 0, 0, b""), frame(HEADERS, 4, 1, fields(*GRPC)), fields(*GRPC)
    begun = first + answer
    return [
        ("first is no settings", frame(PING, 0, 0, bytes(8)), PROTOCOL), ("first is an acknowledgement", frame(SETTINGS, 1, 0, b""), PROTOCOL),
        ("too large", first + frame(DATA, 0, 1, b"", 16385), SIZE), ("data on 0", begun + frame(DATA, 0, 0, b"x"), PROTOCOL),
        ("data on 3", begun + frame(DATA, 0, 3, b"x"), PROTOCOL), ("data before fields", first + frame(DATA, 0, 1, b"x"), PROTOCOL),
        ("padding too long", begun + frame(DATA, 8, 1, b"\5xxxx"), PROTOCOL), ("padded, empty", begun + frame(DATA, 8, 1, b""), SIZE),
        ("fields on 0", first + frame(HEADERS, 4, 0, block), PROTOCOL), ("fields on 2", first + frame(HEADERS, 4, 2, block), PROTOCOL),
        ("fields padded too long", first + frame(HEADERS, 12, 1, b"\xff" + block), PROTOCOL),
        ("padding into the priority", first + frame(HEADERS, 44, 1, b"\x03" + bytes(5) + b"\x88\0"), PROTOCOL),
        ("half a priority", first + frame(HEADERS, 36, 1, b"\0\0"), SIZE), ("priority on 0", first + frame(PRIORITY, 0, 0, bytes(5)), PROTOCOL),
        ("priority of 4", first + frame(PRIORITY, 0, 1, bytes(4)), SIZE), ("reset on 0", first + frame(RESET, 0, 0, bytes(4)), PROTOCOL),
        ("reset of 3", first + frame(RESET, 0, 1, bytes(3)), SIZE), ("reset of an idle stream", first + frame(RESET, 0, 3, bytes(4)), PROTOCOL),
        ("settings on 1", first + frame(SETTINGS, 0, 1, b""), PROTOCOL), ("acknowledgement with octets", first + frame(SETTINGS, 1, 0, bytes(6)), SIZE),
        ("settings of 5", first + frame(SETTINGS, 0, 0, bytes(5)), SIZE), ("push on", frame(SETTINGS, 0, 0, setting(2, 1)), PROTOCOL),
        ("push 2", frame(SETTINGS, 0, 0, setting(2, 2)), PROTOCOL), ("window of 2^31", frame(SETTINGS, 0, 0, setting(4, 1 << 31)), FLOW),
        ("frames of 16383", frame(SETTINGS, 0, 0, setting(5, 16383)), PROTOCOL), ("frames of 2^24", frame(SETTINGS, 0, 0, setting(5, 1 << 24)), PROTOCOL),
        ("push", first + frame(PUSH, 4, 1, bytes(4) + block), PROTOCOL), ("ping on 1", first + frame(PING, 0, 1, bytes(8)), PROTOCOL),
        ("ping of 7", first + frame(PING, 0, 0, bytes(7)), SIZE), ("goaway on 1", first + frame(AWAY, 0, 1, bytes(8)), PROTOCOL),
        ("goaway of 7", first + frame(AWAY, 0, 0, bytes(7)), SIZE), ("update of 3", first + frame(UPDATE, 0, 0, bytes(3)), SIZE),
        ("update by 0", first + frame(UPDATE, 0, 0, bytes(4)), PROTOCOL), ("update by 0 on 1", first + frame(UPDATE, 0, 1, bytes(4)), PROTOCOL),
        ("connection above 2^31 - 1", first + frame(UPDATE, 0, 0, number(0x7fffffff)), FLOW), ("stream above it", first + frame(UPDATE, 0, 1, number(0x7fffffff)), FLOW),
        ("above it by settings", first + frame(UPDATE, 0, 1, number(0x7fff0000)) + frame(SETTINGS, 0, 0, setting(4, 0x7fffffff)), FLOW),
        ("part of no block", first + frame(MORE, 4, 1, b""), PROTOCOL), ("data in a block", first + frame(HEADERS, 0, 1, block) + frame(DATA, 0, 1, b""), PROTOCOL),
        ("unknown in a block", first + frame(HEADERS, 0, 1, block) + frame(99, 0, 1, b""), PROTOCOL),
        ("part of another stream", first + frame(HEADERS, 0, 1, block) + frame(MORE, 4, 3, b""), PROTOCOL),
        ("broken block", first + frame(HEADERS, 4, 1, b"\xff\xff\xff"), COMPRESSION), ("table above 4096", first + frame(HEADERS, 4, 1, b"\x3f\xe2\x1f" + block), COMPRESSION),
        ("index out of range", first + frame(HEADERS, 4, 1, b"\xbe"), COMPRESSION), ("name in upper case", first + frame(HEADERS, 4, 1, block + b"\0\1A\1b"), PROTOCOL),
        ("status twice", first + frame(HEADERS, 4, 1, b"\x88" + block), PROTOCOL), ("fields in the middle", begun + frame(HEADERS, 4, 1, fields(("grpc-status", "0"))), PROTOCOL),
        ("more than was told", first + frame(HEADERS, 4, 1, fields(*GRPC, ("content-length", "1"))) + frame(DATA, 0, 1, b"xx"), PROTOCOL),
        ("more than the window", begun + frame(DATA, 0, 1, bytes(16384)) * 64 + frame(DATA, 0, 1, bytes(6)), FLOW),
    ]


def faults(trial):
    """Each fault ends the call, and the peer is told its code once."""
    for name, octets, code in fault_cases():
        for is_each in (False, True) if len(octets) < 10_000 else (False,):
            call = trial.call()
            call.send()
            call.said = b""
            if is_each:
                call.hear_each(octets)
            else:
                call.hear(octets)
                call.send()
            told = [it[3] for it in frames_of(call.said) if it[0] == AWAY]
            trial.counts["faults in single bytes" if is_each else "faults"] += 1
            trial.holds(name, call.end.startswith("broken") and told == [number(0) + number(code)], (call.end, told))


def attacks():
    """Attacks by their names: the octets, which come again and again, and how the call is after them."""
    return [
        ("ping flood", frame(PING, 0, 0, bytes(8)), "open"), ("settings flood", frame(SETTINGS, 0, 0, setting(3, 1)), "open"),
        ("empty data", frame(DATA, 0, 1, b""), "open"), ("data of padding", frame(DATA, 8, 1, b"\xff" + bytes(255)), "open"),
        ("window updates", frame(UPDATE, 0, 0, number(1)), "open"), ("unknown frames", frame(77, 0, 1, bytes(99)), "open"),
        ("priorities", frame(PRIORITY, 0, 3, bytes(5)), "open"), ("resets", frame(RESET, 0, 1, number(8)), "reset:8"),
        ("rapid reset", frame(HEADERS, 4, 3, fields(*GRPC)) + frame(RESET, 0, 3, number(8)), "broken:Connection(Protocol)"),
        ("pushes", frame(PUSH, 4, 1, number(2) + b"\x88"), "broken:Connection(Protocol)"),
        ("parts without end", frame(HEADERS, 0, 1, b"") + frame(MORE, 0, 1, b"\x88" * 99) * 99 * 9, "broken:Connection(EnhanceYourCalm)"),
        ("empty parts without end", frame(HEADERS, 0, 1, b"") + frame(MORE, 0, 1, b"") * 9999, "broken:Connection(EnhanceYourCalm)"),
        ("header bomb", frame(HEADERS, 5, 1, b"\x40\x01a\x7f\x81\x1e" + b"b" * 4000 + b"\xbe" * 8000), "broken:Stream(EnhanceYourCalm)"),
    ]


def floods(trial):
    """How much waits at most in an attack, and how it ends."""
    begun = frame(SETTINGS, 0, 0, b"") + frame(HEADERS, 4, 1, fields(*GRPC))
    for name, octets, end in attacks():
        call = trial.call()
        call.hear(begun)
        call.most = 0
        many = octets * (100_000 // len(octets) + 1)
        at = len(many)
        for _ in range(4):
            if at == len(many) and call.end == "open":
                at = call.hear(many, lambda: 16000, reads=False)
        trial.counts["floods"] += 1
        trial.holds(name, call.end == end and call.most <= MOST_WAITING, (call.end, call.most))
        if end == "open":
            call.send()
            call.hear(many[at:at + -at % len(octets)])
            call.hear(frame(DATA, 0, 1, b"abc") + frame(HEADERS, 5, 1, fields(("grpc-status", "0"))))
            trial.holds(name + " passes", call.end == "status:0" and call.data().endswith(b"abc"), call.end)
