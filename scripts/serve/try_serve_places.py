"""Places at their limit: those of connections, of several processes, of descriptors, and of the admin port."""
import contextlib
import http.client
import re
import socket
import subprocess
import time

from loopback import free_port, heard
from replays import ANY_ANY, PLAIN, allowed, resource, response
from try_serve_starts import LEAST

YES = allowed(b"0", 1)
RESPONSE = response(b"1", b"n1", resource(b"f", ANY_ANY))[5:]
CLOSED = 'rbacd_connections_closed_total{reason="idle_full"}'


def heard_now(peer):
    """What came until the end of a connection."""
    with contextlib.suppress(OSError):
        return heard(peer, 1)
    return b""


def idle_full(case):
    """Once the last place is taken, the connection that is idle for the longest time is closed, and busy ones stay."""
    server, _, _ = case.ready(connections=4, timeouts={"head": 60_000})
    busy = server.connect()
    busy.sendall(PLAIN[:10])
    kept = []
    for _ in range(2):
        time.sleep(0.05 * case.scale)
        kept.append(server.answers("within the limit", [(PLAIN, YES)]))
    time.sleep(0.05 * case.scale)
    server.answers("the first is used again", [(PLAIN, YES)], kept[0])
    last = server.answers("the last place", [(PLAIN, YES)])
    case.same("the longest idle one is closed", heard_now(kept[1]), b"")
    for peer in (kept[0], last):
        server.answers("the others are served on", [(PLAIN, YES)], peer)
    server.answers("a request that has begun", [(PLAIN[10:], YES)], busy)
    found = server.metrics()
    names = (CLOSED, "rbacd_connections_open", "rbacd_connections_limit", "rbacd_connections_full_total")
    case.same("the counters", [found[it] for it in names], [1, 3, 4, 1])
    for _ in range(3):
        server.answers("many more", [(PLAIN, YES)])
    found = server.metrics()
    case.holds("one was closed for each but the last", found[CLOSED] in (3, 4), found[CLOSED])
    case.until("standard error says so", lambda: "the limit of 4 connections is reached" in server.errors.read_text())
    time.sleep(1.5)
    case.same("once a minute", server.errors.read_text().count("the limit of 4 connections"), 1)
    spent = server.processor_time(1)
    case.holds("it does not spin", spent < 0.25, spent)


def slow_at_full(case):
    """Requests that have begun take all places but one: a client that asks half a second after it connected is answered."""
    server, _, _ = case.ready(connections=4, timeouts={"head": 60_000})
    busy = [server.connect() for _ in range(3)]
    for peer in busy:
        peer.sendall(PLAIN[:10])
    for _ in range(2):
        with server.connect() as slow:
            time.sleep(0.5)
            server.answers("one that is slow", [(PLAIN, YES)], slow)
    for peer in busy:
        server.answers("a request that has begun", [(PLAIN[10:], YES)], peer)


def metric(admin, name):
    """A metric of a server, by its admin port; None if it does not answer."""
    with contextlib.suppress(OSError, http.client.HTTPException):
        it = http.client.HTTPConnection("127.0.0.1", admin, timeout=30)
        with contextlib.closing(it):
            it.request("GET", "/metrics")
            return int(re.search(rf"(?m)^{name} (\d+)$", it.getresponse().read().decode())[1])
    return None


def shared(case):
    """Three processes at one socket answer 64 kept connections, however they share them."""
    (case.folder / "policies").write_bytes(RESPONSE)
    listener = socket.create_server(("127.0.0.1", 0), backlog=128)
    case.ends.callback(listener.close)
    admins = [free_port() for _ in range(3)]
    for number, admin in enumerate(admins):
        case.config(f"{number}.json", {**LEAST, "listen": "fd:3", "control": "file:policies", "update_log": f"log-{number}",
                                       "admin": admin})
        command = f"exec {case.program} serve --config {number}.json 3<&{listener.fileno()}"
        it = subprocess.Popen(["bash", "-c", command], cwd=case.folder, pass_fds=[listener.fileno()], stdin=subprocess.DEVNULL)
        case.ends.callback(lambda it=it: (it.kill(), it.wait()))
    for admin in admins:
        case.until("each is ready", lambda admin=admin: metric(admin, "rbacd_ready") == 1)
    for what, pause in (("at once", 0), ("in turn", 0.005 * case.scale)):
        peers = [socket.create_connection(listener.getsockname(), 10 * case.scale) for _ in range(64)]
        for peer in peers:
            case.ends.callback(peer.close)
            peer.sendall(PLAIN)
            time.sleep(pause)
        for peer in peers:
            case.same("an answer", heard(peer, len(YES)), YES)
        counts = [metric(admin, "rbacd_connections_open") for admin in admins]
        case.same(f"{what}: all are open", sum(counts), 64)
        print(f"    {what}: the processes have {counts} connections")
        for peer in peers:
            peer.close()
        case.until("all are closed", lambda: sum(metric(admin, "rbacd_connections_open") for admin in admins) == 0)


def few_descriptors(case):
    """A limit of open files below the connections and 64 more: standard error says what fits, and so many are served."""
    server, _, _ = case.ready(limit="--nofile=84:84")
    words = "the limit of open files is 84: it leaves room for 20 of 1024 connections"
    case.until("standard error says so", lambda: words in server.errors.read_text())
    case.same("the metric", server.metrics()["rbacd_connections_limit"], 20)
    peers = [server.answers("within", [(PLAIN, YES)]) for _ in range(60)]
    found = server.metrics()
    names = ("rbacd_connections_open", "rbacd_connections_open_greatest", "rbacd_connections_refused_total")
    case.holds("none was refused", [found[it] for it in names] in ([19, 20, 0], [20, 20, 0]), [found[it] for it in names])
    case.same("the admin port is well", server.fetch("/healthz")[0], 200)
    server.answers("the last is served on", [(PLAIN, YES)], peers[-1])
    case.until("standard error says that the last place was taken", lambda: "the limit of 20 connections is reached" in server.errors.read_text())
    server.stop()
    said = server.errors.read_text()
    server, _, _ = case.ready(limit="--nofile=84:84", connections=20)
    case.same("nothing is said where all fit", server.errors.read_text(), said)


def admin_reserve(case):
    """Silent visitors of the admin port: the next one is answered at once, and the longest silent one is closed."""
    server, _, _ = case.ready()
    quiet = []
    for _ in range(16):
        quiet.append(socket.create_connection(("127.0.0.1", server.admin), 10 * case.scale))
        case.ends.callback(quiet[-1].close)
        quiet[-1].sendall(b"GET / HT")
        time.sleep(0.02 * case.scale)
    quiet[0].sendall(b"TP/1.1\r\n")
    time.sleep(0.3 * case.scale)
    begin = time.monotonic()
    case.same("/healthz", server.fetch("/healthz")[0], 200)
    case.holds("at once", time.monotonic() - begin < 1 * case.scale, time.monotonic() - begin)
    quiet[1].settimeout(2 * case.scale)
    case.same("the longest silent one is closed", heard_now(quiet[1]), b"")
    quiet[0].sendall(b"Host: localhost\r\n\r\n")
    case.same("one that spoke since is answered", heard(quiet[0], 15), b"HTTP/1.1 200 OK")
    for _ in range(40):
        case.same("/healthz again", server.fetch("/healthz")[0], 200)


CASES = {it.__name__: it for it in (idle_full, slow_at_full, shared, few_descriptors, admin_reserve)}
