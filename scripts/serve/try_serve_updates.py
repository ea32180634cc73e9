"""Control planes that die, lie, flood or change, over TCP, over a Unix socket, and as a file."""
import contextlib
import os
import socket
import threading
import time

from loopback import free_port, heard
from replays import ANY_ANY, F, NO_POLICY, PLAIN, UNREADY, allowed, denied, field, frame, request, resource, response
from try_serve_base import REFUSED, equals, filter_of, policy, text

YES, NO = allowed(b"0", 1), denied(b"-", 2)
FIRST = response(b"1", b"n1", resource(b"f", ANY_ANY))


def again(case, plane, version=b"1"):
    """The next stream, which begins with the accepted version."""
    stream = plane.accept()
    case.same("the first request of a stream", stream.frame(), request(F, version, node=True))
    return stream


def dies(case):
    """A control plane that dies amid a response, and comes back: the answers stay, and the accepted version is sent."""
    server, plane, stream = case.ready()
    peer = server.answers("before", [(PLAIN, YES)])
    stream.peer.sendall(response(b"2", b"n2", resource(b"f", NO_POLICY))[:100])
    time.sleep(0.1)
    stream.close()
    stream = again(case, plane)
    server.answers("after", [(PLAIN, YES)], peer)
    case.same("a response is read from its own first byte", stream.give(b"2", NO_POLICY), request(F, b"2", b"n2"))
    server.answers("the update", [(PLAIN, NO)], peer)
    stream.peer.setsockopt(socket.SOL_SOCKET, socket.SO_LINGER, b"\1\0\0\0\0\0\0\0")
    stream.close()
    stream = again(case, plane, b"2")
    case.same("bytes cut into single ones", cut(stream, FIRST), request(F, b"1", b"n1"))
    server.answers("after a reset", [(PLAIN, allowed(b"0", 3))], peer)
    case.same("why they were lost", server.losses(), ["closed", "reset"])


def cut(stream, content):
    for byte in content:
        stream.peer.sendall(bytes([byte]))
    return stream.frame()


def backoff(case):
    """The time between two tries doubles up to the greatest, and is the first again after a response."""
    first, greatest = int(100 * case.scale), int(400 * case.scale)
    wanted = [first, 2 * first, greatest, greatest, greatest]
    server, plane, stream = case.ready(backoff={"first": first, "greatest": greatest})
    for _ in range(2):
        stream.close()
        begin, gaps = time.monotonic(), []
        for _ in wanted:
            stream = again(case, plane)
            gaps.append((time.monotonic() - begin) * 1000)
            stream.close()
            begin = time.monotonic()
        stream = again(case, plane)
        case.holds("the times between tries", all(least - 5 <= gap < least + 500 * case.scale for gap, least in zip(gaps, wanted)),
                   [round(gap) for gap in gaps])
        stream.peer.sendall(FIRST)
        case.same("an acknowledgement", stream.frame(), request(F, b"1", b"n1"))


def caused(server):
    """Why streams could not be opened, as the log says it."""
    return {it["cause"] for it in server.logged() if it.get("stream") == "unreachable"}


def unreachable(case):
    """A control plane that is not there: it is logged so, and found once it is there."""
    port = free_port()
    server = case.serve(f"127.0.0.1:{port}")
    server.answers("it answers", [(PLAIN, UNREADY)])
    case.until("it is logged", lambda: caused(server))
    case.same("the cause", caused(server), {"Connection refused (os error 111)"})
    case.same("no stream came up", [it for it in server.logged() if it.get("stream") == "up"], [])
    case.same("the stream's state", server.metrics()["rbacd_stream_up"], 0)
    with socket.create_server(("127.0.0.1", port)) as listener:
        listener.settimeout(10 * case.scale)
        with listener.accept()[0] as peer:
            peer.settimeout(10 * case.scale)
            case.same("the first request", heard(peer, 79), request(F, node=True))
            case.until("it is logged", lambda: any(it.get("stream") == "up" for it in server.logged()))


def lies(case):
    """What is no update: the stream is closed, the reason is logged, and the answers stay."""
    server, plane, stream = case.ready()
    peer = server.connect()
    settings = bytes.fromhex("000000040000000000")
    compressed = "a bad frame: its message is compressed"
    for what, content, reason in (
            ("a compressed frame", "0100000000", compressed),
            ("a frame too long", "0000100001", "a bad frame: its message is longer than 1 MiB"),
            ("no message", frame(b"\xff").hex(), "a bad message: the bytes are not whole fields of Protocol Buffers"),
            ("a request line", b"HTTP/1.1 400 Bad".hex(), compressed),
            ("settings", settings.hex(), "the other end speaks HTTP/2"),
            ("six bytes of settings", "000006040000000000000300000064", "the other end speaks HTTP/2"),
            ("an alert", "15030100020246", "the other end speaks TLS"),
            ("a handshake", "160303007a0200", "the other end speaks TLS"),
            ("a good frame and a bad one", response(b"1", b"x", resource(b"f", ANY_ANY)).hex() + "01", compressed)):
        before = len(server.losses())
        stream.peer.sendall(bytes.fromhex(content))
        if "good" in what:
            case.same("its acknowledgement", stream.frame(), request(F, b"1", b"x"))
        case.holds(f"{what}: the stream is closed", stream.is_closed())
        case.until(f"{what}: it is logged", lambda before=before: len(server.losses()) > before)
        case.same(f"{what}: the reason", server.losses()[-1:], [reason])
        stream = again(case, plane)
        server.answers(f"{what}: answers stay", [(PLAIN, allowed(b"0", 2 if "good" in what else 1))], peer)
    for byte in settings:
        stream.peer.sendall(bytes([byte]))
    case.holds("settings in single bytes: the stream is closed", stream.is_closed())


def floods(case):
    """16 KB of empty frames after an accepted version of 1 MB: at most one refusal waits, so the memory stays."""
    server, _, stream = case.ready(nack_pause=0)
    version = b"v" * 1_000_000
    case.same("a long version", stream.give(version, ANY_ANY, nonce=b"n"), request(F, version, b"n"))
    peer = server.answers("before", [(PLAIN, allowed(b"0", 2))])
    before = server.memory()
    stream.peer.sendall(bytes(5) * 3276)
    most = 0
    for _ in range(50):
        most = max(most, server.memory() - before)
        server.answers("amid them", [(PLAIN, allowed(b"0", 2))], peer)
        time.sleep(0.02 * case.scale)
    case.holds("the memory", most < (16 << 20) * case.scale, most)
    refusal = request(F, version, b"", refusal=17)
    for _ in range(20):
        case.holds("a refusal", stream.frame() == refusal)
    case.holds("the memory later", server.memory() - before < (16 << 20) * case.scale, server.memory() - before)


def pauses(case):
    """After a refusal the stream is not read for a while, so a control plane that repeats itself does no harm."""
    pause = 800 * case.scale
    server, _, stream = case.ready(nack_pause=pause)
    bad = response(b"2", b"n2", resource(b"f", ANY_ANY.replace(b"\x18\x01\x12", b"\x18\x00\x12", 1)))
    begin = time.monotonic()
    stream.peer.sendall(bad * 3 + response(b"3", b"n3", resource(b"f", NO_POLICY)))
    for number in range(3):
        case.same(f"refusal {number}", stream.frame(), request(F, b"1", b"n2", refusal=5))
        passed = (time.monotonic() - begin) * 1000
        case.holds("in time", number * pause <= passed + 50 < number * pause + 3000 * case.scale, passed)
        server.answers("amid a pause", [(PLAIN, YES)])
    case.same("a good one behind them", stream.frame(), request(F, b"3", b"n3"))
    server.answers("it counts", [(PLAIN, NO)])
    told = [it for it in server.logged() if "update" in it]
    case.same("what is logged", [it["update"] for it in told], ["acknowledged", *["refused"] * 3, "acknowledged", "incomplete"])
    wanted = {"version": "2", "nonce": "n2", "refused": 5, "name": "OutOfRange", "cause": "a value is outside its range",
              "filter": "f", "place": 'policy "p": permissions[0].any', "generation": 1}
    case.same("a refusal", {key: told[1].get(key) for key in wanted}, wanted)
    case.holds("times", all(it["time"].endswith("Z") for it in server.logged()), server.logged())


def refused_streams(case):
    """A control plane that closes after each refusal is not asked again before the pause is over."""
    pause = 500 * case.scale
    server, plane, stream = case.ready(nack_pause=pause)
    begin, streams = time.monotonic(), 0
    while time.monotonic() < begin + 4 * pause / 1000:
        stream.peer.sendall(response(b"2", b"n2", resource(b"f", REFUSED)))
        case.same("a refusal", stream.frame(), request(F, b"1", b"n2", refusal=3))
        stream.close()
        stream = again(case, plane)
        streams += 1
    case.holds("so many streams in four pauses", streams <= 5, streams)
    server.answers("answers stay", [(PLAIN, YES)])


def bursts(case):
    """Responses that come together are judged one by one, and requests are answered between them."""
    costly = policy(condition=equals(b"request", b"method", text(b"GET")))
    content = field(1, b"".join(field(2, field(1, b"p%d" % number) + field(2, costly)) for number in range(100)))
    server, _, stream = case.ready(content)
    burst = b"".join(response(b"%d" % number, b"n", resource(b"f", content)) for number in range(2, 22))
    sender = threading.Thread(target=stream.peer.sendall, args=(burst,), daemon=True)
    peer, longest = server.connect(), 0
    begin = time.monotonic()
    sender.start()
    while server.logged()[-1].get("version") != "21" and time.monotonic() < begin + 60 * case.scale:
        since = time.monotonic()
        peer.sendall(PLAIN)
        case.holds("an answer", heard(peer, 100)[:15] == b"HTTP/1.1 200 OK")
        longest = max(longest, time.monotonic() - since)
        peer.close()
        peer = server.connect()
    passed = time.monotonic() - begin
    case.holds("no request waits for all of them", longest < max(0.05, passed / 4), f"{longest:.2f} of {passed:.2f} s")


def unix_control(case):
    """A control plane at the path of a Unix socket, which dies and comes back."""
    plane = case.plane("c")
    server = case.serve(plane.address)
    stream = plane.accept()
    case.same("the first request", stream.frame(), request(F, node=True))
    case.same("its acknowledgement", stream.give(b"1", ANY_ANY), request(F, b"1", b"n1"))
    stream.close()
    stream = again(case, plane)
    server.answers("answers stay", [(PLAIN, YES)])
    plane.listener.close()
    (case.folder / "c").unlink()
    stream.close()
    case.until("it is logged", lambda: caused(server))
    case.same("the cause", caused(server), {"No such file or directory (os error 2)"})
    plane = case.plane("c")
    again(case, plane).give(b"2", NO_POLICY)
    server.answers("the update", [(PLAIN, NO)])


def file_control(case):
    """A file as the control plane: it comes, changes, is bad, vanishes, and comes back."""
    put(case, None)
    server = case.serve("file:policies")
    peer = server.answers("no file yet", [(PLAIN, UNREADY)])
    case.until("it is logged", lambda: caused(server))
    case.same("the cause", caused(server), {"No such file or directory (os error 2)"})
    put(case, FIRST[5:])
    settled(case, server, peer, "it comes", YES)
    put(case, response(b"2", b"", resource(b"f", NO_POLICY))[5:])
    settled(case, server, peer, "it changes", NO)
    refused = response(b"3", b"", resource(b"f", REFUSED))[5:]
    for what, content in (("a filter that is refused", refused), ("no response", b"\xff" * 9), ("nothing", b""),
                          ("too much", bytes(1_048_577)), ("no file", None)):
        before = len(server.logged())
        put(case, content)
        if content is not None:
            case.until(f"{what}: it is logged", lambda before=before: len(server.logged()) > before)
        time.sleep(0.2)
        server.answers(f"{what}: answers stay", [(PLAIN, NO)], peer)
    spent = server.processor_time(1)
    case.holds("it does not spin", spent < 0.25, spent)
    put(case, response(b"4", b"", resource(b"f", ANY_ANY))[5:])
    settled(case, server, peer, "it is back", allowed(b"0", 3))
    (case.folder / "policies").write_bytes(response(b"5", b"", resource(b"f", NO_POLICY))[5:])
    settled(case, server, peer, "it is written in place", denied(b"-", 4))
    put(case, for_method(b"GET"))
    settled(case, server, peer, "a filter for GET", allowed(b"0", 5))
    path = case.folder / "policies"
    before = path.stat()
    path.write_bytes(for_method(b"PUT"))
    os.utime(path, ns=(before.st_atime_ns, before.st_mtime_ns))
    settled(case, server, peer, "its length and its time stay", denied(b"-", 6))


def for_method(name):
    """A response with a filter that lets one method through."""
    allows = filter_of(policy(permission=field(4, field(1, b":method") + field(4, name))))
    return response(b"6", b"", resource(b"f", allows))[5:]


def put(case, content):
    """The file has this content, from one moment on; it is not there if there is none."""
    path = case.folder / "policies"
    if content is None:
        with contextlib.suppress(FileNotFoundError):
            path.unlink()
        return
    (case.folder / "new").write_bytes(content)
    os.replace(case.folder / "new", path)


def settled(case, server, peer, what, wanted):
    """The answer becomes this one."""
    def is_there():
        peer.sendall(PLAIN)
        got = b""
        while b"\r\n\r\n" not in got:
            got += heard(peer, 1)
        length = int(got.split(b"content-length: ")[1].split(b"\r\n")[0])
        return got + (heard(peer, length) if length else b"") == wanted
    case.until(what, is_there, 8)


CASES = {it.__name__: it for it in (dies, backoff, unreachable, lies, floods, pauses, refused_streams, bursts, unix_control,
                                    file_control)}
