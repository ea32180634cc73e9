"""The control plane of scripts/soak/soak: an update each interval, good and refused in turn, some in pieces and some cut off, and every
request of the client compared byte for byte."""
import socket
import threading
import time

import soak_policies
from replays import request

NAMES = [soak_policies.FILTER]
PATIENCE = 20
# every so many updates, the stream is closed amid a response
CUT = 15


class Control:
    """Serves one stream at a time. `sent` and `accepted` are shared with the load: the last good version that may be in force, and
    the last one whose acceptance was heard."""

    def __init__(self, sent, accepted, interval):
        self.sent, self.accepted, self.interval = sent, accepted, interval
        self.listener = socket.create_server(("127.0.0.1", 0))
        self.port = self.listener.getsockname()[1]
        self.streams = self.turns = self.refusals = self.cuts = 0
        self.wrong = []
        self.times = []
        self.ends = threading.Event()
        self.chance = soak_policies.chance_of(7)
        self.thread = threading.Thread(target=self.run, daemon=True)

    def start(self):
        self.thread.start()

    def stop(self):
        """No update is sent from now on. The stream stays open until the client closes it."""
        self.ends.set()

    def join(self):
        self.thread.join(PATIENCE)
        if self.thread.is_alive():
            self.wrong.append("the client of the update stream did not close it at the end")

    def run(self):
        self.listener.settimeout(PATIENCE)
        while not self.ends.is_set():
            try:
                with self.listener.accept()[0] as stream:
                    stream.settimeout(PATIENCE)
                    self.serve(stream)
            except OSError as cause:
                if not self.ends.is_set():
                    self.wrong.append(f"the update stream: {cause}")
                    return

    def serve(self, stream):
        """A stream from its first request until it is closed."""
        self.streams += 1
        version = self.resume(stream)
        while version is not None and not self.ends.wait(self.interval):
            self.turns += 1
            if self.turns % CUT == 0:
                self.cut(stream, version + 1)
                return
            if self.turns % 2:
                version = self.update(stream, version)
            elif not self.refuse(stream, version):
                return
        if version is not None:
            stream.settimeout(None)
            self.hears(stream, b"", "the end")

    def resume(self, stream):
        """The version that the first request of a stream names; None where the request is another than wanted."""
        version = self.accepted.value
        known = b"%d" % version if version else b""
        return version if self.hears(stream, request(NAMES, known, node=True), "the first request of a stream") else None

    def update(self, stream, version):
        """The next good version; None where it was not accepted."""
        version += 1
        nonce = b"good-%d" % self.turns
        self.sent.value = version
        begun = time.monotonic()
        self.send(stream, soak_policies.good(version, nonce))
        if not self.hears(stream, request(NAMES, b"%d" % version, nonce), f"the answer to version {version}"):
            return None
        self.times.append(time.monotonic() - begun)
        self.accepted.value = version
        return version

    def refuse(self, stream, version):
        """A response that is refused: the client keeps the version before."""
        nonce = b"bad-%d" % self.turns
        response, reason = soak_policies.refused(self.turns // 2, nonce)
        self.send(stream, response)
        known = b"%d" % version if version else b""
        self.refusals += 1
        return self.hears(stream, request(NAMES, known, nonce, refusal=reason), f"the answer to a response with reason {reason}")

    def cut(self, stream, version):
        """A part of a good version, which is never in force by that, and the end. The processes of the load have the stream too, so to
        close it is not enough."""
        response = soak_policies.good(version, b"cut-%d" % self.turns)
        self.cuts += 1
        stream.sendall(response[:self.chance.randrange(1, len(response))])
        stream.shutdown(socket.SHUT_RDWR)

    def send(self, stream, response):
        """The response at once, or in pieces."""
        pieces = [response] if self.chance.random() < 0.5 else soak_policies.pieces_of(self.chance, response)
        for piece in pieces:
            stream.sendall(piece)
            if len(pieces) > 1:
                time.sleep(0.01)

    def hears(self, stream, wanted, what):
        """Whether the bytes that come next are these; no bytes are the end of the stream."""
        got = b""
        while len(got) < max(len(wanted), 1):
            more = stream.recv(max(len(wanted), 1) - len(got))
            if not more:
                break
            got += more
        if got != wanted:
            self.wrong.append(f"{what} on the update stream:\n  got    {got!r}\n  wanted {wanted!r}")
        return got == wanted
