"""What a server answers, on one connection and on many, and what it does at its capacity."""
import contextlib
import os
import signal
import socket
import subprocess
import threading
import time

from loopback import heard
from replays import (ANY_ANY, F, METHOD_IS_GET, NO_POLICY, PLAIN, TOO_LARGE, UNREADY, allowed, answer, closing, denied, heads,
                     long_head, request, told, without_body)
from try_serve_base import REFUSED, timed_out

HEAD = PLAIN.replace(b"GET", b"HEAD")
POST = PLAIN.replace(b"GET", b"POST")


def faulty(status, generation):
    return answer(status, b"none", b"-", generation, closes=True)


def with_body(head, length):
    return head[:-2] + b"Content-Length: %d\r\n\r\n" % length


def answers(case):
    """Each answer, byte for byte, before the first policy and after updates on one connection that stays open."""
    plane = case.plane()
    server = case.serve(plane.address)
    stream = plane.accept()
    stream.frame()
    peer = server.answers("no policy yet", [(PLAIN, UNREADY), (HEAD, UNREADY), (PLAIN * 2, UNREADY * 2), (heads(60), UNREADY)])
    server.ends("too many fields", [(heads(61), TOO_LARGE)])
    stream.give(b"1", METHOD_IS_GET)
    yes, no = allowed(b"0", 1), denied(b"-", 1)
    server.answers("after the first", [(PLAIN, yes), (POST, no), (HEAD, without_body(no)), (PLAIN, yes)], peer)
    server.answers("a request between two that are denied", [(POST + PLAIN + POST, no + yes + no)], peer)
    case.same("a response that is refused", stream.give(b"2", REFUSED), request(F, b"1", b"n2", refusal=3))
    server.answers("nothing has changed", [(PLAIN, yes), (POST, no)], peer)
    peer.sendall(PLAIN[:10])
    stream.give(b"3", NO_POLICY)
    server.answers("amid a head", [(PLAIN[10:], denied(b"-", 2))], peer)
    stream.give(b"4", ANY_ANY)
    server.answers("the next", [(PLAIN, allowed(b"0", 3)), (HEAD, allowed(b"0", 3))], peer)
    for byte in PLAIN * 2:
        peer.sendall(bytes([byte]))
        time.sleep(0.001)
    case.same("single bytes", heard(peer, 200), allowed(b"0", 3) * 2)


def bodies(case):
    """Bodies are passed over, in one piece and in many, and a body may look like a request."""
    server, _, _ = case.ready(METHOD_IS_GET)
    yes, no = allowed(b"0", 1), denied(b"-", 1)
    server.answers("in one piece", [(with_body(POST, len(PLAIN)) + PLAIN + PLAIN, no + yes)])
    peer = server.answers("a head alone", [(with_body(POST, 100_000), no)])
    for _ in range(100):
        peer.sendall(b"x" * 1000)
    turns = [(PLAIN, yes), (with_body(PLAIN, 0), yes), (with_body(PLAIN, 3) + b"abc" + PLAIN, yes * 2)]
    server.answers("after its body", turns, peer)


def ends(case):
    """What is closed behind its answer."""
    server, _, _ = case.ready()
    yes = allowed(b"0", 1)
    server.ends("HTTP/1.0", [(PLAIN.replace(b"1.1", b"1.0"), closing(yes))])
    server.ends("HTTP/1.0 without Host", [(b"GET / HTTP/1.0\r\n\r\n", closing(yes))])
    server.ends("close", [(PLAIN, yes), (PLAIN[:-2] + b"Connection: x, CLOSE\r\n\r\n" + PLAIN, closing(yes))])
    server.ends("HEAD and close", [(HEAD[:-2] + b"Connection: close\r\n\r\n", closing(yes))])
    server.ends("no head", [(b"\x16\x03\x01\x02\x00\x01", faulty(b"400 Bad Request", 1))])
    server.ends("no Host", [(b"GET / HTTP/1.1\r\n\r\n", faulty(b"400 Bad Request", 1))])
    server.ends("two", [(PLAIN[:-2] + b"Host: i\r\n\r\n", faulty(b"400 Bad Request", 1))])
    server.ends("a coding", [(PLAIN[:-2] + b"Transfer-Encoding: chunked\r\n\r\n0\r\n\r\n", faulty(b"501 Not Implemented", 1))])
    last = b"GET x HTTP/1.1\r\nHost: h\r\n\r\n"
    server.ends("requests and then a fault", [(PLAIN * 3 + last, yes * 3 + faulty(b"400 Bad Request", 1))])
    server.ends("a fault and then requests", [(last + PLAIN * 3, faulty(b"400 Bad Request", 1))])
    peer = server.answers("a fault", [(last, faulty(b"400 Bad Request", 1))])
    peer.sendall(PLAIN * 3)
    case.same("and requests later", heard(peer, 1), b"")
    peer.close()
    server.answers("the longest head", [(long_head(65_536), yes)]).close()
    server.ends("a byte more", [(long_head(65_537), told(TOO_LARGE, 1))])
    server.ends("a head without an end", [(PLAIN[:-2] + b"a: " + b"b" * 65_537, told(TOO_LARGE, 1))])
    half = server.connect()
    half.sendall(PLAIN * 5)
    half.shutdown(socket.SHUT_WR)
    case.same("a client that closes its direction", heard(half, 501), yes * 5)
    half = server.connect()
    half.sendall(PLAIN + PLAIN[:9])
    half.shutdown(socket.SHUT_WR)
    case.same("amid a head", heard(half, 101), yes)
    for _ in range(20):
        peer = server.connect()
        peer.sendall(PLAIN * 50)
        peer.setsockopt(socket.SOL_SOCKET, socket.SO_LINGER, b"\1\0\0\0\0\0\0\0")
        peer.close()
    server.answers("after resets", [(PLAIN, yes)]).close()
    case.until("each was closed", lambda: server.metrics()["rbacd_connections_open"] == 0)


def many(case):
    """200 connections, each with answers of its own, while one sends a byte a second and one never reads."""
    server, _, stream = case.ready(METHOD_IS_GET, also="unix:s", pending=4096, timeouts={"head": 60_000, "write": 60_000})
    yes, no = allowed(b"0", 1), denied(b"-", 1)
    slow, deaf = server.connect(), server.connect_unix("s")
    done = threading.Event()
    threads = [threading.Thread(target=it, daemon=True) for it in (lambda: trickle(slow, done), lambda: flood(deaf, done))]
    for thread in threads:
        thread.start()
    peers = [server.connect() for _ in range(200)]
    for turn in range(5):
        for number, peer in enumerate(peers):
            peer.sendall((POST if (number + turn) % 2 else PLAIN) + (PLAIN if number % 3 else POST))
        for number, peer in enumerate(peers):
            wanted = (no if (number + turn) % 2 else yes) + (yes if number % 3 else no)
            case.same(f"connection {number}, turn {turn}", heard(peer, len(wanted)), wanted)
    figures = server.metrics()
    case.holds("as many are open", figures["rbacd_connections_open"] == 202, figures["rbacd_connections_open"])
    case.holds("what waits is bounded", server.memory() < (16 << 20) * case.scale, server.memory())
    done.set()
    for thread in threads:
        thread.join(20)
    slow.sendall(PLAIN[2:])
    case.same("the slow one", heard(slow, len(yes)), yes)


def turns(case):
    """One client sends many requests at once, and five others one each: each has one decision in turn."""
    server, _, _ = case.ready(access_log={"path": "decisions"})
    yes, count = allowed(b"0", 1), 32_200 // len(PLAIN)
    many, *others = peers = [server.connect() for _ in range(6)]
    for number, peer in enumerate(peers):
        server.answers(f"connection {number}", [(PLAIN, yes)], peer)
    os.kill(server.process.pid, signal.SIGSTOP)
    many.sendall(PLAIN * count)
    for peer in others:
        peer.sendall(PLAIN)
    os.kill(server.process.pid, signal.SIGCONT)
    for peer in others:
        case.same("one of the others", heard(peer, len(yes)), yes)
    case.same("the many", heard(many, len(yes) * count), yes * count)
    wanted = count + 2 * len(others) + 1
    case.until("each decision is logged", lambda: len(server.logged("decisions")) == wanted, 30)
    places = [it["connection"] for it in server.logged("decisions")[len(peers):]]
    for number in range(1, len(peers)):
        at = places.index(number) if number in places else None
        case.holds(f"connection {number} is among the first", at is not None and at < 2 * len(peers), at)


def trickle(peer, done):
    for byte in PLAIN[:2]:
        peer.sendall(bytes([byte]))
        done.wait(1)
    done.wait()


def flood(peer, done):
    """Sends requests until no more are taken, and reads no answer."""
    peer.settimeout(0.1)
    with contextlib.suppress(OSError):
        while not done.is_set():
            with contextlib.suppress(TimeoutError):
                peer.send(PLAIN * 1000)


def capacity(case):
    """While all places are taken by requests the next connection waits, without processor time. It is served once one is free."""
    server, _, _ = case.ready(connections=2)
    yes = allowed(b"0", 1)
    first, second = server.connect(), server.connect()
    for peer in (first, second):
        peer.sendall(PLAIN[:10])
    time.sleep(0.3 * case.scale)
    waiting = [server.connect() for _ in range(3)]
    for peer in waiting:
        peer.sendall(PLAIN)
    spent = server.processor_time(1)
    case.holds("it does not spin", spent < 0.25, spent)
    for peer in waiting:
        case.holds("they wait", timed_out(peer))
        peer.settimeout(10 * case.scale)
    server.answers("those within are served on", [(PLAIN[10:] + PLAIN[:10], yes)], second)
    first.close()
    for peer in waiting:
        case.same("once one is closed", heard(peer, len(yes)), yes)
    server.answers("the other is served on", [(PLAIN[10:], yes)], second)
    case.same("the greatest", server.metrics()["rbacd_connections_open_greatest"], 2)


def descriptors(case):
    """Descriptors that something else takes: those that are open are served, and the others wait until some are given back."""
    server, plane, stream = case.ready(limit="--nofile=84:84")
    yes = allowed(b"0", 1)
    subprocess.run(["prlimit", f"--pid={server.process.pid}", "--nofile=24:84"], check=True)
    peers = [server.connect() for _ in range(40)]
    for peer in peers:
        peer.sendall(PLAIN[:10])
    time.sleep(0.5 * case.scale)
    spent = server.processor_time(1)
    case.holds("it does not spin", spent < 0.25, spent)
    case.until("it is told", lambda: "cannot accept connections" in server.errors.read_text())
    admin = socket.create_connection(("127.0.0.1", server.admin), 10 * case.scale)
    case.ends.callback(admin.close)
    admin.sendall(b"GET /healthz HTTP/1.1\r\nHost: localhost\r\n\r\n")
    time.sleep(0.3 * case.scale)
    stream.close()
    for peer in peers:
        peer.sendall(PLAIN[10:])
    for peer in peers:
        case.same("an answer", heard(peer, len(yes)), yes)
        peer.close()
    case.same("the update stream comes up again", plane.accept().frame(), request(F, b"1", node=True))
    case.same("the admin port's as well", heard(admin, 15), b"HTTP/1.1 200 OK")
    case.holds("it is counted", server.metrics()["rbacd_connections_refused_total"] > 0)


CASES = {it.__name__: it for it in (answers, bodies, ends, many, turns, capacity, descriptors)}
