"""Hostile control planes below `rbacd serve`, each by the name of its attack: what it takes of memory, what it is told on the wire,
what the log says, and that clients are answered meanwhile.

What a fault is told is its code of RFC 9113, section 7. A flood of frames that are legal ends nothing: the call goes on after it.
"""
import functools
import pathlib
import re
import time

from http2_frames import (ANSWER, AWAY, CALM, CANCEL, COMPRESSION, DATA, END, FLOW, HEADERS, MORE, PADDED, PING, PRIORITY, PROTOCOL,
                          PUSH, RESET, SETTINGS, SIZE, UPDATE, WHOLE, frame, literal, number, setting)
from http2_peer import Asker, HandMadePlane, begun
from replays import ANY_ANY, NO_POLICY, PLAIN, allowed, denied, request
from try_serve_base import F

YES, NO = allowed(b"0", 1), denied(b"-", 2)
MIB = 1 << 20
# the octets of a flood, and of one against a program that was compiled without a proof, which takes a hundred times as long for each
FLOOD, SLOW_FLOOD = 16 * MIB, MIB // 8
# what an attack may take beside what the server had: the window of 1 MiB, a message of 1 MiB, their copies, and the heap's pages
MOST_GROWN = 8 * MIB
# the seconds of the server's processor that a client may wait for an answer
MOST_WORKED = 1
# the octets that a client announces as the window of its call and of its connection
WINDOW = 1_048_581
NAMES = {PROTOCOL: "PROTOCOL_ERROR", FLOW: "FLOW_CONTROL_ERROR", SIZE: "FRAME_SIZE_ERROR", COMPRESSION: "COMPRESSION_ERROR",
         CALM: "ENHANCE_YOUR_CALM"}
PONG = frame(PING, 0, 0, b"12345678")

# floods of frames that are legal, after the answer's first message
FLOODS = {
    "ping_flood": PONG,
    "settings_flood": frame(SETTINGS, 0, 0, setting(3, 100)),
    "empty_data_flood": frame(DATA, 0, 1, b""),
    "padding_flood": frame(DATA, PADDED, 1, b"\xff" + bytes(255)),
    "window_update_flood": frame(UPDATE, 0, 0, number(1)),
    "unknown_frame_flood": frame(0xbe, 0xff, 1, b"?" * 40),
    "priority_flood": frame(PRIORITY, 0, 3, bytes(5)),
}
BOMB = b"\x40\x01a\x7f\x81\x1e" + b"b" * 4000 + b"\xbe" * 8000
# faults after the answer's first message: the octets, once or again and again, and the code that the client sends
FAULTS = {
    "empty_headers_flood": (frame(HEADERS, WHOLE, 1, b""), PROTOCOL),
    "empty_continuation_flood": (frame(HEADERS, 0, 1, b"") + frame(MORE, 0, 1, b"") * 9999, CALM),
    "continuation_flood": (frame(HEADERS, 0, 1, b"") + frame(MORE, 0, 1, literal(b"a", b"b" * 90) * 99) * 99, CALM),
    "header_bomb": (frame(HEADERS, WHOLE | END, 1, BOMB), CALM),
    "hpack_index_out_of_range": (frame(HEADERS, WHOLE | END, 1, b"\xbe"), COMPRESSION),
    "hpack_index_huge": (frame(HEADERS, WHOLE | END, 1, b"\xff" + b"\xff" * 8 + b"\x7f"), COMPRESSION),
    "huge_table_size": (frame(HEADERS, WHOLE | END, 1, b"\x3f\xe1\xff\xff\xff\x07" + literal(b"grpc-status", b"0")), COMPRESSION),
    "window_overflow": (frame(UPDATE, 0, 0, number(0x7fffffff)), FLOW),
    "stream_window_overflow": (frame(UPDATE, 0, 1, number(0x7fffffff)), FLOW),
    "window_of_2_31": (frame(SETTINGS, 0, 0, setting(4, 1 << 31)), FLOW),
    "window_update_0": (frame(UPDATE, 0, 0, number(0)), PROTOCOL),
    "stream_window_update_0": (frame(UPDATE, 0, 1, number(0)), PROTOCOL),
    "frame_too_long": (frame(DATA, 0, 1, bytes(16_385)), SIZE),
    "frame_of_16_mib": (frame(DATA, 0, 1, bytes(99), (1 << 24) - 1), SIZE),
    "push": (frame(PUSH, WHOLE, 1, number(2) + b"\x82"), PROTOCOL),
    "streams_of_a_server": (frame(HEADERS, WHOLE, 2, ANSWER) + frame(RESET, 0, 2, number(CANCEL)), PROTOCOL),
    "resets_of_no_stream": (frame(RESET, 0, 3, number(CANCEL)), PROTOCOL),
}


def ends(server):
    """Why calls ended, as the log of updates says it."""
    return [it["cause"] for it in server.logged() if it.get("stream") == "ended"]


class Peak:
    """The most memory that a process had from here on, beside what it has now."""

    def __init__(self, server):
        self.process = pathlib.Path(f"/proc/{server.process.pid}")
        (self.process / "clear_refs").write_text("5")
        self.before = self.now()

    def now(self):
        return int(re.search(r"VmHWM:\s+(\d+) kB", (self.process / "status").read_text())[1]) * 1024

    def grown(self):
        return self.now() - self.before


def besieged(case, siege, settings=b"", room=None):
    """A server with a first version, its plane, and the call: `siege` is done while a client asks, and memory is looked at after."""
    plane = HandMadePlane(case, room)
    server = case.serve(f"grpc://127.0.0.1:{plane.port}")
    call = begun(case, plane, ANY_ANY, settings)
    case.same("the first request", call.first, request(F, node=True))
    case.same("its acknowledgement", call.acknowledged, request(F, b"1", b"n1"))
    server.answers("before", [(PLAIN, YES)])
    peak = Peak(server)
    with Asker(server, PLAIN, YES) as asker:
        siege(server, plane, call)
    case.same("answers meanwhile", asker.wrong, None)
    case.holds("clients are answered meanwhile", asker.count > 0, asker.count)
    case.holds("each within its time", asker.most <= MOST_WORKED * case.scale, f"{asker.most:.2f} s of the processor")
    case.holds("memory", peak.grown() <= MOST_GROWN, f"{peak.grown():,} bytes more, and {MOST_GROWN:,} are allowed")
    print(f"    {peak.grown() / MIB:.1f} MiB more at its highest; {asker.count} answers meanwhile, the slowest after {asker.most:.2f} s of the processor")
    return server, plane, call


def flood(case, octets, reads):
    """A flood of legal frames: what waits is bounded, and the call goes on after it."""
    total = FLOOD if case.scale == 1 else SLOW_FLOOD

    def siege(_, __, call):
        count = call.pours(octets, total, reads, seconds=5)
        # if no answer is read, no more is taken than the buffers of the system have
        case.holds("octets were sent", count >= SLOW_FLOOD if reads or total < FLOOD else SLOW_FLOOD < count < total, count)
        call.finishes(octets[count % len(octets):] if count % len(octets) else b"")

    server, _, call = besieged(case, siege, room=None if reads else 4096)
    case.same("nothing is wrong with it", (ends(server), call.away), ([], []))
    case.same("the call goes on", call.give(b"2", NO_POLICY), request(F, b"2", b"n2"))
    server.answers("after it", [(PLAIN, NO)])


def fault(case, octets, code):
    """A fault, again and again: the client sends GOAWAY with its code, the log has its name, and the next call has the version."""
    def siege(_, __, call):
        call.pours(octets, FLOOD, seconds=5)
        case.holds("the connection is closed", call.until_closed())
        case.same("the codes of GOAWAY", call.away, [code])

    server, plane, _ = besieged(case, siege)
    case.until("the end is logged", lambda: ends(server))
    case.same("why", ends(server)[:1], [f"HTTP/2 is not kept: code {code} {NAMES[code]}"])
    case.same("the next call", plane.accept().message(), request(F, b"1", node=True))
    server.answers("the policies stay", [(PLAIN, YES)])


def interim_flood(case):
    """Interim answers without an end, before the answer."""
    plane = HandMadePlane(case)
    server = case.serve(f"grpc://127.0.0.1:{plane.port}", timeouts={"first_response": 600_000})
    call = plane.accept()
    call.message()
    peak = Peak(server)
    octets = frame(HEADERS, WHOLE, 1, b"\x08\x03103" + literal(b"link", b"x" * 99))
    count = call.pours(octets, FLOOD if case.scale == 1 else SLOW_FLOOD, seconds=5)
    call.finishes(octets[count % len(octets):] if count % len(octets) else b"")
    case.holds("memory", peak.grown() <= MOST_GROWN, f"{peak.grown():,} bytes more")
    call.answers()
    case.same("the call goes on", call.give(b"1", ANY_ANY), request(F, b"1", b"n1"))
    server.answers("after it", [(PLAIN, YES)])


def reset_flood(case):
    """The call's reset, again and again: the first one ends it."""
    def siege(_, __, call):
        call.pours(frame(RESET, 0, 1, number(CANCEL)), FLOOD, seconds=5)
        case.holds("the connection is closed", call.until_closed())

    server, plane, _ = besieged(case, siege)
    case.until("the end is logged", lambda: ends(server))
    case.same("why", ends(server)[:1], ["the call was reset: code 8 CANCEL"])
    case.same("the next call", plane.accept().message(), request(F, b"1", node=True))


def rapid_reset(case):
    """A control plane that resets each call as it comes: what a server can do of it. The calls come no faster than `backoff` says."""
    calls = []

    def siege(server, plane, call):
        call.send(frame(RESET, 0, 1, number(CANCEL)))
        end = time.monotonic() + 3
        while time.monotonic() < end:
            call = plane.accept()
            call.send(frame(HEADERS, WHOLE, 1, ANSWER) + frame(RESET, 0, 1, number(CANCEL)))
            calls.append(time.monotonic())

    server, _, _ = besieged(case, siege)
    case.until("the ends are logged", lambda: len(ends(server)) >= len(calls))
    case.same("why", set(ends(server)), {"the call was reset: code 8 CANCEL"})
    # after waits of 50, 100 and then 200 milliseconds
    case.holds("the calls", 3 <= len(calls) <= 18, len(calls))


def goaway(case):
    """A GOAWAY that has none of the client's streams, with a code and a text."""
    def siege(_, __, call):
        call.send(frame(AWAY, 0, 0, number(0) + number(CALM) + "too_many_pings\x1b[31m\u202e".encode()))
        case.holds("the connection is closed", call.until_closed())

    server, _, _ = besieged(case, siege)
    case.until("the end is logged", lambda: ends(server))
    case.same("why", ends(server)[:1], ["GOAWAY: code 11 ENHANCE_YOUR_CALM"])


def message_of_controls(case):
    """A `grpc-message` of control characters, of characters that change the direction of a text, and of 9,000 octets."""
    text = "\x1b]0;x\x07\r\n{\"stream\":\"up\"}\u202eevil\u2066\u200f\x00\x7f\\\"" + "a" * 9000
    coded = b"".join(b"%c" % it if 32 <= it < 127 and it != 37 else b"%%%02X" % it for it in text.encode())
    block = literal(b"grpc-status", b"7") + b"\0\x0cgrpc-message" + b"\x7f" + bytes([(len(coded) - 127) & 127 | 128, (len(coded) - 127) >> 7]) + coded

    def siege(_, __, call):
        call.send(frame(HEADERS, WHOLE | END, 1, block))
        case.holds("the connection is closed", call.until_closed())

    server, _, _ = besieged(case, siege)
    case.until("the end is logged", lambda: ends(server))
    cause = ends(server)[0]
    shown = "".join(chr(it) if 32 <= it <= 126 else "?" for it in text.encode()[:256])
    case.same("why", cause, f"grpc-status 7 PERMISSION_DENIED: {shown}..")
    log = (case.folder / "updates").read_bytes()
    case.holds("the log has printable characters alone", all(32 <= it < 127 or it == 10 for it in log), log)
    case.holds("each line is an object", all(isinstance(it, dict) for it in server.logged()))


def windows_of_one_byte(case):
    """A window that is shut by settings, below what was sent, and opened by one octet again and again: each DATA frame has one octet,
    and the request arrives whole."""
    plane = HandMadePlane(case)
    server = case.serve(f"grpc://127.0.0.1:{plane.port}")
    call = plane.accept()
    call.shuts(len(call.message()))
    call.answers()
    call.sizes.clear()
    wanted = request(F, b"1", b"n1")
    call.respond(b"1", ANY_ANY)
    found = call.drips(len(wanted))
    case.same("the acknowledgement, octet by octet", found, wanted)
    case.same("an octet in each frame", set(call.sizes), {1})
    server.answers("after it", [(PLAIN, YES)])


def window_of_zero(case):
    """A window that stays at zero while responses come: no more than the window that the client announced waits, and its overrun is
    FLOW_CONTROL_ERROR."""
    def siege(_, __, call):
        call.send(frame(SETTINGS, 0, 0, setting(4, 0)))
        call.pours(frame(DATA, 0, 1, b"\0\0\0\0\0" * 3_000), 4 * WINDOW, seconds=10)
        case.holds("the connection is closed", call.until_closed(20))

    server, _, call = besieged(case, siege)
    case.until("the loss is logged", server.losses)
    case.same("the codes of GOAWAY", call.away, [FLOW])
    case.same("why", ends(server)[:1], [f"HTTP/2 is not kept: code {FLOW} {NAMES[FLOW]}"])


CASES = {**{name: functools.partial(flood, octets=octets, reads=True) for name, octets in FLOODS.items()},
         "ping_flood_of_the_deaf": functools.partial(flood, octets=PONG, reads=False),
         **{name: functools.partial(fault, octets=octets, code=code) for name, (octets, code) in FAULTS.items()},
         **{it.__name__: it for it in (interim_flood, reset_flood, rapid_reset, goaway, message_of_controls, windows_of_one_byte,
                                       window_of_zero)}}
