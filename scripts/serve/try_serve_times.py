"""What takes too long is ended after its time, and nothing else waits for it."""
import contextlib
import socket
import time

from loopback import heard
from replays import F, PLAIN, allowed, request
from try_serve_base import timed_out

LONG = 60_000
YES = allowed(b"0", 1)
POST = PLAIN.replace(b"GET", b"POST")


def times(case, **some):
    """All times are long but these, which are given in milliseconds for a proved program."""
    return {"head": LONG, "idle": LONG, "write": LONG, "drain": LONG, "first_response": LONG,
            **{name: int(value * case.scale) for name, value in some.items()}}


def ended_after(case, what, peer, begin, wanted):
    """The connection is closed so many milliseconds after a time, or up to three seconds later. The server may have begun to count a
    little before."""
    peer.settimeout((wanted + 4000) * case.scale / 1000)
    heard(peer, 1)
    passed = (time.monotonic() - begin) * 1000
    case.holds(f"{what}: it is closed", not timed_out(peer))
    case.holds(f"{what}: in time", wanted * case.scale - 100 <= passed < (wanted + 3000) * case.scale, f"{passed:.0f} ms")


def head(case):
    """A head that does not come to its end, whether its client is silent or sends a byte now and then."""
    server, _, _ = case.ready(timeouts=times(case, head=500))
    other = server.answers("another connection", [(PLAIN, YES)])
    quiet, begin = server.connect(), time.monotonic()
    quiet.sendall(PLAIN[:9])
    ended_after(case, "silent", quiet, begin, 500)
    slow, begin = server.connect(), time.monotonic()
    slow.settimeout(0.1)
    for byte in PLAIN:
        with contextlib.suppress(OSError):
            slow.sendall(bytes([byte]))
        if heard(slow, 1) or not timed_out(slow):
            break
        slow.settimeout(0.1)
    ended_after(case, "a byte now and then", slow, begin, 500)
    late, begin = server.answers("the first request", [(PLAIN, YES)]), time.monotonic()
    late.sendall(PLAIN[:9])
    ended_after(case, "the second", late, begin, 500)
    both, begin = server.answers("a request and a part", [(PLAIN + PLAIN[:9], YES)]), time.monotonic()
    ended_after(case, "a part behind a request", both, begin, 500)
    server.answers("a connection that asked for nothing stays", [(PLAIN, YES)], other)
    case.same("they are counted", server.metrics()['rbacd_connections_closed_total{reason="head"}'], 4)


def body(case):
    """A connection whose body came after its head stays open as long as another; it is idle, and no head has begun."""
    server, _, _ = case.ready(timeouts=times(case, head=300))
    peer = server.answers("the head", [(POST[:-2] + b"Content-Length: 5\r\n\r\n", YES)])
    peer.sendall(b"hello")
    time.sleep(0.8 * case.scale)
    with contextlib.suppress(OSError):
        peer.sendall(PLAIN)
    case.same("the next request", heard(peer, len(YES)), YES)


def idle(case):
    """A connection that is not used. Those that are used stay."""
    server, _, _ = case.ready(timeouts=times(case, idle=700))
    begin = time.monotonic()
    used, new, old = server.connect(), server.connect(), server.answers("used once", [(PLAIN, YES)])
    for _ in range(4):
        server.answers("used", [(PLAIN, YES)], used)
        time.sleep(0.1 * case.scale)
    ended_after(case, "never used", new, begin, 700)
    ended_after(case, "used once", old, begin, 700)
    ended_after(case, "no longer used", used, begin, 1000)
    case.same("they are counted", server.metrics()['rbacd_connections_closed_total{reason="idle"}'], 3)


def write(case):
    """A client that never reads: what waits for it is bounded, and it is closed in time."""
    server, _, _ = case.ready(also="unix:s", pending=4096, timeouts=times(case, write=700))
    before, peer = server.memory(), server.connect_unix("s")
    case.holds("it is closed", flooded(peer, 20 * case.scale))
    case.holds("the memory", server.memory() - before < (4 << 20) * case.scale, server.memory() - before)
    case.until("it is counted", lambda: server.metrics()['rbacd_connections_closed_total{reason="blocked"}'] == 1)
    peer = server.connect_unix("s")
    peer.sendall(PLAIN * 20)
    time.sleep(case.scale)
    case.same("one whose few answers the system took is served", heard(peer, 20 * len(YES)), YES * 20)


def flooded(peer, seconds):
    """Sends requests and reads nothing. Whether the connection is closed within the time."""
    peer.settimeout(0.1)
    end = time.monotonic() + seconds
    while time.monotonic() < end:
        try:
            peer.send(PLAIN * 100)
        except TimeoutError:
            pass
        except OSError:
            return True
    return False


def lingers(case):
    """After its last answer a connection is closed in time, though its client neither reads nor closes."""
    server, _, _ = case.ready(timeouts=times(case, write=500))
    peer, begin = server.connect(), time.monotonic()
    peer.sendall(PLAIN.replace(b"1.1", b"1.0"))
    peer.settimeout(0.05)
    closed = False
    while time.monotonic() < begin + 5 * case.scale and not closed:
        try:
            peer.sendall(b"x" * 100_000)
        except TimeoutError:
            pass
        except OSError:
            closed = True
    case.holds("it is closed", closed)
    case.holds("in time", time.monotonic() - begin < 1.5 * case.scale, time.monotonic() - begin)
    server.answers("another", [(PLAIN, YES)])


def first_response(case):
    """A control plane that says nothing is left, and another stream is opened."""
    plane = case.plane()
    server = case.serve(plane.address, timeouts=times(case, first_response=700))
    stream, begin = plane.accept(), time.monotonic()
    case.same("the first request", stream.frame(), request(F, node=True))
    ended_after(case, "silent", stream.peer, begin, 700)
    stream, begin = plane.accept(), time.monotonic()
    case.same("the next stream", stream.frame(), request(F, node=True))
    stream.peer.sendall(bytes.fromhex("0000000100"))
    ended_after(case, "a frame that does not end", stream.peer, begin, 700)
    stream = plane.accept()
    stream.frame()
    stream.give(b"1", bytes.fromhex("0a0f120d0a01701208 0a02180112021801".replace(" ", "")))
    time.sleep(1.2 * case.scale)
    case.holds("after a response it may be silent", timed_out(stream.peer))
    case.until("each is logged", lambda: server.losses() == ["no response in time"] * 2)


def deaf_control(case):
    """A control plane that reads no request is left in time."""
    plane = case.plane()
    plane.listener.setsockopt(socket.SOL_SOCKET, socket.SO_RCVBUF, 2048)
    server = case.serve(plane.address, nack_pause=0, timeouts=times(case, write=700))
    stream = plane.accept()
    stream.frame()
    stream.give(b"v" * 100_000, bytes.fromhex("0a0f120d0a01701208 0a02180112021801".replace(" ", "")), nonce=b"n")
    stream.peer.settimeout(0.1)
    end, closed = time.monotonic() + 30 * case.scale, False
    while time.monotonic() < end and not closed:
        try:
            stream.peer.sendall(bytes(5) * 10)
        except TimeoutError:
            pass
        except OSError:
            closed = True
    case.holds("it is closed", closed)
    case.until("it is logged", lambda: server.losses() == ["a request was not taken in time"])
    server.answers("it serves on", [(PLAIN, YES)])


def drain(case):
    """`/drain` accepts no more, answers what has begun, and ends after its time at the latest."""
    server, _, _ = case.ready(timeouts=times(case, drain=1500))
    used, half, stuck = server.answers("before", [(PLAIN, YES)]), server.connect(), server.connect()
    for peer in (half, stuck):
        peer.sendall(PLAIN[:9])
    time.sleep(0.2 * case.scale)
    begin = time.monotonic()
    case.same("/drain", server.fetch("/drain", "POST"), (200, b"ok\n"))
    case.same("one that is idle is closed", (heard(used, 1), timed_out(used)), (b"", False))
    server.answers("one that has begun", [(PLAIN[9:], YES)], half)
    case.same("it is not ready", server.fetch("/ready")[0], 503)
    late = server.connect() if connects(server) else None
    spent = server.processor_time(0.6 * case.scale)
    case.holds("it does not spin, though a connection waits", spent < 0.15 * case.scale, spent)
    case.same("it ends", server.ended(), 0)
    passed = time.monotonic() - begin
    case.holds("after its time", 1.4 * case.scale < passed < 3 * case.scale, passed)
    if late:
        case.same("a late one gets nothing", heard(late, 1), b"")
    server, _, _ = case.ready(timeouts=times(case))
    server.fetch("/drain", "POST")
    begin = time.monotonic()
    case.same("without connections", server.ended(), 0)
    case.holds("it ends at once", time.monotonic() - begin < case.scale, time.monotonic() - begin)


def drained_pipeline(case):
    """Requests that came before `/drain` are answered, also those behind the one that is under way."""
    server, _, _ = case.ready(timeouts=times(case, drain=60_000))
    peer = server.connect()
    peer.sendall(PLAIN * 400)
    first = peer.recv(len(YES))
    case.same("/drain", server.fetch("/drain", "POST")[0], 200)
    rest = heard(peer, 400 * len(YES))
    case.same("all are answered", first + rest, YES * 400)
    case.same("it ends", server.ended(), 0)


def connects(server):
    with contextlib.suppress(OSError), socket.create_connection(("127.0.0.1", server.port), 1):
        return True
    return False


CASES = {it.__name__: it for it in (head, body, idle, write, lingers, first_response, deaf_control, drain, drained_pipeline)}
