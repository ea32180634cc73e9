"""Control planes of HTTP/2 whose frames are written by hand, so that they can break each rule."""
import contextlib
import select
import socket
import threading
import time

from http2_frames import ACK, ANSWER, AWAY, DATA, HEADERS, PING, PREFACE, SETTINGS, UPDATE, WHOLE, frame, frame_at, number, setting
from loopback import heard
from replays import resource, response

# the most octets of a frame, which each peer takes
MOST = 16_384


class HandMadePlane:
    """A control plane at an address of its own."""

    def __init__(self, case, room=None, address=0):
        """At this port, if one is given. With `room` the system keeps about so many octets that were not read."""
        self.case = case
        self.listener = socket.socket()
        if room:
            self.listener.setsockopt(socket.SOL_SOCKET, socket.SO_RCVBUF, room)
        self.listener.setsockopt(socket.SOL_SOCKET, socket.SO_REUSEADDR, 1)
        self.listener.bind(("127.0.0.1", address))
        self.listener.listen(64)
        self.port, self.peers = self.listener.getsockname()[1], []
        case.ends.callback(self.listener.close)

    def accept(self, settings=b"", seconds=20):
        """The next connection, to which these settings were sent; a TimeoutError if none comes."""
        self.listener.settimeout(seconds * self.case.scale)
        peer = self.listener.accept()[0]
        peer.settimeout(20 * self.case.scale)
        self.case.ends.callback(peer.close)
        self.peers.append(peer)
        return HandMadeCall(self.case, peer, settings)

    def stop(self):
        """Ends all connections, and listens no more."""
        for it in [*self.peers, self.listener]:
            it.close()


class HandMadeCall:
    """A connection with a client that has one call."""

    def __init__(self, case, peer, settings):
        self.case, self.peer = case, peer
        self.octets, self.data, self.away, self.sizes, self.pong = b"", b"", [], [], None
        case.same("the preface", heard(peer, len(PREFACE)), PREFACE)
        self.send(frame(SETTINGS, 0, 0, settings))

    def send(self, octets):
        self.peer.sendall(octets)

    def heed(self, found):
        """What a frame brings; SETTINGS and PING are acknowledged."""
        kind, flags, stream, payload = found
        if kind == DATA:
            self.data += payload
            self.sizes.append(len(payload))
        elif kind == AWAY:
            self.away.append(int.from_bytes(payload[4:8], "big"))
        elif kind == PING and flags & ACK:
            self.pong = payload
        elif kind in (SETTINGS, PING) and not flags & ACK:
            # what a closed connection is told is lost
            with contextlib.suppress(OSError):
                self.send(frame(kind, ACK, 0, payload if kind == PING else b""))
        return kind

    def take(self, octets):
        """Takes octets of the client."""
        octets, at = self.octets + octets, 0
        while True:
            found, at = frame_at(octets, at)
            if not found:
                self.octets = octets[at:]
                return
            self.heed(found)

    def message(self):
        """The next message with its head, as it is on a plain stream; the bytes that came if the connection ends before."""
        while len(self.data) < 5 or len(self.data) < 5 + int.from_bytes(self.data[1:5], "big"):
            octets = self.peer.recv(65536)
            if not octets:
                return self.data
            self.take(octets)
        size = 5 + int.from_bytes(self.data[1:5], "big")
        found, self.data = self.data[:size], self.data[size:]
        return found

    def answers(self):
        """The fields of the answer."""
        self.send(frame(HEADERS, WHOLE, 1, ANSWER))

    def says(self, octets):
        """Data of the call."""
        self.send(b"".join(frame(DATA, 0, 1, octets[at:at + MOST]) for at in range(0, len(octets), MOST)))

    def respond(self, version, content):
        """Sends a response with the filter `f`."""
        self.says(response(version, b"n" + version, resource(b"f", content)))

    def give(self, version, content):
        """Sends a response with the filter `f`; its answer is returned."""
        self.respond(version, content)
        return self.message()

    def shuts(self, count):
        """Shuts the window of a call that sent so many octets: it is of no octets from then on."""
        self.send(frame(SETTINGS, 0, 0, setting(4, 0)))
        self.raises(count)

    def drips(self, count):
        """So many octets of the call, for each of which the window is opened by one; fewer if none comes."""
        while len(self.data) < count:
            before = len(self.data)
            self.raises(1)
            try:
                while len(self.data) == before:
                    octets = self.peer.recv(65536)
                    if not octets:
                        return self.data
                    self.take(octets)
            except TimeoutError:
                return self.data
        found, self.data = self.data[:count], self.data[count:]
        return found

    def raises(self, count, stream=1):
        """Gives so many octets to a window of the client; 0 is the connection's."""
        self.send(frame(UPDATE, 0, stream, number(count)))

    def is_read(self, seconds=10):
        """Sends a PING, and takes what comes until it is acknowledged or the connection is closed: all before it was read then."""
        with contextlib.suppress(OSError):
            self.send(frame(PING, 0, 0, b"the last"))
        self.until_closed(seconds, lambda: self.pong == b"the last")

    def until_closed(self, seconds=10, ends=lambda: False):
        """Takes what the client sends until it closes the connection; whether it does."""
        end = time.monotonic() + seconds * self.case.scale
        while time.monotonic() < end and not ends():
            self.peer.settimeout(max(0.1, end - time.monotonic()))
            try:
                octets = self.peer.recv(65536)
            except TimeoutError:
                return False
            except OSError:
                return True
            if not octets:
                return True
            self.take(octets)
        return False

    def pours(self, octets, total, reads=True, seconds=20):
        """Sends octets again and again, so many in all, and takes what comes meanwhile if it reads. It ends once the client closes
        the connection, takes nothing more for two seconds, or the time is over. Returns how many were sent."""
        many = octets * (MOST // len(octets) + 1)
        sent, end, moved = 0, time.monotonic() + seconds * self.case.scale, time.monotonic()
        self.peer.setblocking(False)
        try:
            while sent < total and time.monotonic() < min(end, moved + 2 * self.case.scale):
                can_read, can_write, _ = select.select([self.peer] if reads else [], [self.peer], [], 0.1)
                if can_read:
                    came = self.peer.recv(65536)
                    if not came:
                        break
                    self.take_blocking(came)
                if can_write:
                    at = sent % len(octets)
                    sent, moved = sent + self.peer.send(many[at:at + MOST]), time.monotonic()
        except BlockingIOError:
            pass
        except OSError:
            self.drain()
        finally:
            self.peer.setblocking(True)
        return sent

    def finishes(self, octets):
        """Sends the rest of a frame, and takes what comes meanwhile, also what the client wrote before it reads on."""
        end = time.monotonic() + 20 * self.case.scale
        self.peer.setblocking(False)
        with contextlib.suppress(OSError):
            while octets and time.monotonic() < end:
                can_read, can_write, _ = select.select([self.peer], [self.peer], [], 0.1)
                if can_read:
                    self.take_blocking(self.peer.recv(65536))
                if can_write:
                    octets = octets[self.peer.send(octets):]
        self.peer.setblocking(True)
        self.peer.settimeout(20 * self.case.scale)

    def take_blocking(self, octets):
        """Takes octets of the client; what is answered to them waits for room."""
        self.peer.setblocking(True)
        self.peer.settimeout(20 * self.case.scale)
        self.take(octets)
        self.peer.setblocking(False)

    def drain(self):
        """What came before the connection was closed."""
        with contextlib.suppress(OSError):
            while octets := self.peer.recv(65536):
                self.take(octets)


def begun(case, plane, content, settings=b""):
    """The next call, whose first response is accepted as version 1."""
    call = plane.accept(settings)
    call.first = call.message()
    call.answers()
    call.acknowledged = call.give(b"1", content)
    return call


class Asker:
    """A client that asks again and again on one connection, and the most that the server worked until it had its answer: the seconds
    of its processor, which do not count what runs beside it."""

    def __init__(self, server, head, wanted):
        self.server, self.peer, self.head, self.wanted = server, server.connect(), head, wanted
        self.count, self.most, self.wrong, self.ends = 0, 0.0, None, threading.Event()
        self.peer.settimeout(120 * server.case.scale)
        self.thread = threading.Thread(target=self.run, daemon=True)

    def run(self):
        while not self.ends.is_set():
            begin = self.server.worked()
            self.peer.sendall(self.head)
            found = heard(self.peer, len(self.wanted))
            self.most = max(self.most, self.server.worked() - begin)
            if found != self.wanted:
                self.wrong = found
                return
            self.count += 1
            self.ends.wait(0.02)

    def __enter__(self):
        self.thread.start()
        return self

    def __exit__(self, *_):
        self.ends.set()
        self.thread.join()
