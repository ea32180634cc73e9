"""Attacks through a front, with an application of hypercorn behind it: for examples/fronts/try.

What the application serves is compared with what rbacd allowed, request by request: method, target and host. Each attack has a number
in its query, so that what it hides is known as its own.
"""
import collections
import concurrent.futures
import contextlib
import json
import re
import signal
import socket
import subprocess
import sys
import time

import attack_bytes
from peers import HERE, PATIENCE, free_port, until
from wsproto import ConnectionType, WSConnection
from wsproto.events import AcceptConnection, BytesMessage, Ping, Pong, RejectConnection, Request, TextMessage

# how long the first bytes of an answer may take, how long nothing comes before what came is the whole, and how long the logs get
BEGINNING, SILENCE, SETTLING = 5, 0.5, 3
# the fields that each front sets by itself
OWN = ("x-real-ip", "x-rbac-verdict", "x-request-id")


class Hypercorn:
    """The application, as a process of its own."""

    def __init__(self, folder):
        self.port, self.log = free_port(), folder / "served"
        self.log.touch()
        self.process = subprocess.Popen([sys.executable, "-E", "-s", "-B", HERE / "application.py", str(self.port), self.log],
                                        stdin=subprocess.DEVNULL, stdout=subprocess.DEVNULL, stderr=open(folder / "hypercorn.log", "wb"))
        if not until(self.is_listening):
            sys.exit(f"try: hypercorn does not begin\n{(folder / 'hypercorn.log').read_text()}")

    def is_listening(self):
        with contextlib.suppress(OSError), socket.create_connection(("127.0.0.1", self.port), 1):
            return True
        return self.process.poll() is not None

    def served(self, mark=""):
        """The requests that it served, whose target has the mark."""
        return [it for it in map(json.loads, self.log.read_text().splitlines()) if mark in it["target"]]

    def end(self):
        self.process.send_signal(signal.SIGKILL)
        self.process.wait()


def values_of(request, name):
    return [value for each, value in request["fields"] if each == name]


def unjudged(trial, mark=""):
    """What the application served and rbacd did not allow."""
    def left():
        allowed = collections.Counter((it["method"], it["target"], it["host"]) for it in trial.rbacd.judged() if it["verdict"] == "allow")
        served = collections.Counter((it["method"], it["target"], ", ".join(values_of(it, "host"))) for it in trial.application.served(mark))
        return sorted((served - allowed).elements())

    until(lambda: not left(), SETTLING)
    return left()


def frame(kind, flags, stream, payload=b""):
    """A frame of HTTP/2 (RFC 9113, 4.1)."""
    return len(payload).to_bytes(3, "big") + bytes([kind, flags]) + stream.to_bytes(4, "big") + payload


def block(*fields):
    """Fields as HPACK has them without a table (RFC 7541, 6.2.2)."""
    return b"".join(b"\0" + bytes([len(name)]) + name.encode() + bytes([len(value)]) + value.encode() for name, value in fields)


PREFACE = b"PRI * HTTP/2.0\r\n\r\nSM\r\n\r\n" + frame(4, 0, 0)


def hidden(mark):
    """A whole conversation of HTTP/2 that asks for a denied path."""
    return PREFACE + frame(1, 5, 3, block((":method", "GET"), (":scheme", "http"), (":path", f"/admin?{mark}"), (":authority", "front.example")))


def received(peer):
    """What comes until it is silent."""
    text = b""
    peer.settimeout(BEGINNING)
    with contextlib.suppress(OSError):
        while piece := peer.recv(65536):
            text += piece
            peer.settimeout(SILENCE)
    return text


def send(trial, text, mark):
    """The statuses of the answers. If the protocol changes, a denied path is asked for in the new one."""
    with socket.create_connection(("127.0.0.1", trial.port), PATIENCE) as peer:
        peer.sendall(text.replace("AT", mark).encode("latin-1"))
        got = received(peer)
        if b" 101 " in got:
            with contextlib.suppress(OSError):
                peer.sendall(hidden(mark))
                received(peer)
    return [int(it) for it in re.findall(rb"HTTP/1\.[01] (\d{3}) ", got)]


def attack(trial, attacks):
    """Sends them side by side, and then compares what came of each."""
    marks = [f"a={trial.number + at}-" for at in range(len(attacks))]
    trial.number += len(attacks)
    with concurrent.futures.ThreadPoolExecutor(24) as pool:
        statuses = list(pool.map(lambda it: send(trial, it[0].text, it[1]), zip(attacks, marks)))
    for it, mark, got in zip(attacks, marks, statuses):
        is_hidden = it.has_two_lines and not trial.front.reads_all_lines
        passed = trial.application.served(mark)
        dropped = sorted({name for request in passed for name, _ in request["fields"] if name in it.dropped and not is_hidden})
        own = [values_of(request, name) for request in passed for name in OWN[:2]]
        is_own = own == [["127.0.0.1"], ["allow"]] * len(passed) and all(len(values_of(request, OWN[2])) == 1 for request in passed)
        trial.same(f"{it.what}: {got}: not judged, not dropped, own fields", (unjudged(trial, mark), dropped, is_own), ([], [], True))


def upgrades(trial):
    """No client speaks another protocol to the application, except over a websocket."""
    attack(trial, attack_bytes.with_upgrades())
    for words in (["-u"], []):
        mark = f"nghttp{''.join(words)}="
        urls = [f"http://127.0.0.1:{trial.port}{path}?{mark}" for path in ("/about", "/admin")]
        with contextlib.suppress(subprocess.TimeoutExpired):
            subprocess.run(["nghttp", "-n", *words, *urls], capture_output=True, timeout=5)
        got = [it["target"].partition("?")[0] for it in trial.application.served(mark)]
        wanted = ["/about"] if words or trial.front.speaks_two else []
        trial.same(f"nghttp {' '.join(words)} /about /admin: not judged, served", (unjudged(trial, mark), got), ([], wanted))
    for protocol in ("h2c", "websocket", "foo"):
        connect_over_two(trial, protocol)
    seen = {it["version"] for it in trial.application.served()}
    upgraded = {value.lower() for it in trial.application.served() for value in values_of(it, "upgrade")}
    trial.same("the versions and upgrades that the application saw", (sorted(seen - {"1.0"}), sorted(upgraded)), (["1.1"], ["websocket"]))


def connect_over_two(trial, protocol):
    """CONNECT with a protocol over HTTP/2 (RFC 8441), for a front that speaks it without TLS."""
    mark = f"connect={protocol}-"
    fields = block((":method", "CONNECT"), (":protocol", protocol), (":scheme", "http"), (":path", f"/about?{mark}"), (":authority", "front.example"))
    with socket.create_connection(("127.0.0.1", trial.port), PATIENCE) as peer, contextlib.suppress(OSError):
        peer.sendall(PREFACE + frame(1, 4, 1, fields))
        received(peer)
        peer.sendall(frame(0, 0, 1, hidden(mark)))
        received(peer)
    trial.same(f"CONNECT with the protocol {protocol} over HTTP/2: not judged", unjudged(trial, mark), [])


def fields(trial):
    """Fields of one connection alone, and names with `_`, reach neither rbacd nor the application."""
    attack(trial, attack_bytes.with_fields())
    seen = trial.application.served()
    names = {name for it in seen for name, _ in it["fields"]}
    trial.same("names with _", sorted(name for name in names if "_" in name), [])
    values = {value.lower() for it in seen for value in values_of(it, "connection")}
    trial.same("what Connection lists for the application", sorted(values - {"close", "keep-alive", "upgrade"}), [])


def hosts(trial):
    """Each host and target that the application gets was judged."""
    attack(trial, attack_bytes.with_hosts())
    trial.same("targets without a path", [it["target"] for it in trial.application.served() if it["target"][:1] != "/"], [])


def bodies(trial):
    """No request hides in another one's body."""
    attack(trial, attack_bytes.with_bodies())


class Websocket:
    """A websocket through the front."""

    def __init__(self, trial, target, fields=()):
        self.peer = socket.create_connection(("127.0.0.1", trial.port), PATIENCE)
        self.side, self.came = WSConnection(ConnectionType.CLIENT), []
        self.peer.sendall(self.side.send(Request(host="front.example", target=target, extra_headers=list(fields))))

    def next(self):
        """The next event; None at the end."""
        while not self.came:
            text = self.peer.recv(65536)
            if not text:
                return None
            self.side.receive_data(text)
            self.came += self.side.events()
        return self.came.pop(0)

    def status(self):
        """101 where it is open, else what it was refused with."""
        event = self.next()
        return 101 if isinstance(event, AcceptConnection) else event.status_code if isinstance(event, RejectConnection) else event

    def echoed(self, message):
        """What comes back of a message, all of its parts."""
        self.peer.sendall(self.side.send(message))
        data, event = type(message.data)(), None
        while not (isinstance(event, type(message)) and event.message_finished):
            event = self.next()
            if not isinstance(event, type(message)):
                return event
            data += event.data
        return data


def websockets(trial):
    """A websocket works from end to end where a filter lets it be opened, and is judged once, when it is opened."""
    it = Websocket(trial, "/sockets?a=w-", [(b"X-Real-IP", b"10.9.9.9"), (b"X-Rbac-Verdict", b"forged")])
    status, long = it.status(), "x" * 200_000
    trial.same("a websocket's status", status, 101)
    if status != 101:
        return
    trial.same("a text, bytes, a long text", (it.echoed(TextMessage("hello")), it.echoed(BytesMessage(b"\0\xff")), it.echoed(TextMessage(long)) == long),
               ("hello", b"\0\xff", True))
    it.peer.sendall(it.side.send(Ping(b"p")))
    trial.same("a ping", it.next(), Pong(b"p"))
    seen = [(name, value) for request in trial.application.served("a=w-") for name, value in request["fields"] if name in OWN[:2]]
    trial.same("the fields of its request", (sorted(seen), unjudged(trial, "a=w-")), ([("x-rbac-verdict", "allow"), ("x-real-ip", "127.0.0.1")], []))
    trial.same("a websocket at a denied path", Websocket(trial, "/admin?a=w-").status(), 403)
    trial.same("GET /sockets without one", send(trial, attack_bytes.HEAD.replace("about", "sockets") + "\r\n", "a=v-"), [403])
    trial.rbacd.publish("second", "9")
    until(lambda: Websocket(trial, "/sockets?a=x-").status() == 403)
    trial.same("after an update that denies it: a new one, the open one", (Websocket(trial, "/sockets").status(), it.echoed(TextMessage("still"))),
               (403, "still"))
    trial.rbacd.end()
    trial.rbacd.start()
    trial.same("after rbacd has started again: the open one", it.echoed(TextMessage("yet")), "yet")


def begin(trial):
    """The filter of the attacks."""
    trial.rbacd.publish("attacked", "1")
    until(lambda: send(trial, attack_bytes.HEAD + "\r\n", "a=0-") == [200])
    trial.same("GET /about", send(trial, attack_bytes.HEAD + "\r\n", "a=0-"), [200])
    trial.number = 1


def everything(trial):
    """The logs as a whole, whatever the attack."""
    time.sleep(0.1)
    trial.same("all that the application served and rbacd did not allow", unjudged(trial), [])
    trial.same("denied paths that it served", [it for it in trial.application.served() if it["target"].startswith("/admin")], [])


PARTS = (begin, upgrades, fields, hosts, bodies, everything, websockets)
