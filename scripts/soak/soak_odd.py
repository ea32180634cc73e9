"""The odd connections of scripts/soak/soak, each kind again and again in a thread of its own: resets amid a head, slow heads, clients that
never read, half closes, heads that are a byte too long, heads that are none, and pieces that never end between two requests."""
import socket
import struct
import threading
import time

import soak_policies
from replays import answer
from soak_load import Reader, Tally

HEAD_TIME = 4
WRITE_TIME = 3
# how much longer than it is set the server may take to end a connection
GRACE = 6
NO_HEAD = b"GET /\x00 HTTP/1.1\r\n\r\n"


class Odd:
    """One kind of connection, which is made until the end."""

    def __init__(self, shared, port, seed, way):
        self.shared, self.port, self.way = shared, port, way
        self.tally = Tally()
        self.chance = soak_policies.chance_of(seed)
        # requests that were sent whole, and whose answers were not awaited
        self.unread = 0
        self.thread = threading.Thread(target=self.run, daemon=True)

    def run(self):
        while not self.shared.ends.value and not self.tally.wrong:
            self.tally.connections += 1
            try:
                with socket.socket() as it:
                    it.settimeout(HEAD_TIME + WRITE_TIME + GRACE)
                    self.way(self, it)
            except OSError as cause:
                self.tally.fail(f"{self.way.__name__}: {cause!r}")
            time.sleep(max(0.05, self.shared.rest.value))

    def connect(self, it):
        it.connect(("127.0.0.1", self.port))

    def reader(self):
        return Reader(self.tally, self.shared, self.way.__name__)

    def batch(self, reader, most):
        """Some requests, which the reader awaits."""
        content = []
        for _ in range(self.chance.randrange(1, most)):
            request, kind, version, method = soak_policies.random_request(self.chance, reader.generation)
            content.append(request)
            reader.ask(kind, version, method)
        return b"".join(content)

    def read_all(self, it, reader, is_open=False):
        """Reads until all is answered, and unless it stays open until the server closes it."""
        while reader.waits or not is_open:
            got = it.recv(1 << 16)
            if not got:
                break
            if not reader.take(got):
                return
        if reader.waits:
            reader.fails(reader.lacks())


def resets(odd, it):
    """Some requests and a part of one more, perhaps some of the answers, and then a reset."""
    odd.connect(it)
    content = []
    for _ in range(odd.chance.randrange(0, 20)):
        content.append(soak_policies.random_request(odd.chance, odd.shared.accepted.value)[0])
        odd.unread += 1
    it.sendall(b"".join(content) + b"GET /only/1 HTTP/1.1\r\nHost: ")
    if content and odd.chance.random() < 0.5:
        it.recv(odd.chance.randrange(1, 200))
    it.setsockopt(socket.SOL_SOCKET, socket.SO_LINGER, struct.pack("ii", 1, 0))


def is_slow(odd, it):
    """A head whose last bytes come slowly, and in time."""
    odd.connect(it)
    reader = odd.reader()
    request = soak_policies.request_of(0, reader.generation)
    reader.ask(0, reader.generation)
    count = HEAD_TIME - 2
    it.sendall(request[:-count])
    for at in range(count):
        time.sleep(0.9)
        it.sendall(request[len(request) - count + at:][:1])
    odd.read_all(it, reader, is_open=True)


def is_too_slow(odd, it):
    """A byte a second: the server ends it without an answer."""
    odd.connect(it)
    begun = time.monotonic()
    it.settimeout(1)
    for byte in soak_policies.request_of(0, 1):
        try:
            it.send(bytes([byte]))
            got = it.recv(100)
        except TimeoutError:
            if odd.shared.ends.value or time.monotonic() - begun > HEAD_TIME + GRACE:
                break
        except ConnectionError:
            break
        else:
            if got:
                odd.tally.fail(f"is_too_slow: an answer to a part of a head: {got!r}")
            break
    seconds = time.monotonic() - begun
    if not odd.shared.ends.value and not HEAD_TIME - 1 < seconds < HEAD_TIME + GRACE:
        odd.tally.fail(f"is_too_slow: it was ended after {seconds:.1f} s, and {HEAD_TIME} s are set")


def never_reads(odd, it):
    """Requests without end, whose answers are not read: the server stops reading, and ends the connection in time. It begins once
    no connection is kept, since its requests would make the record long."""
    while odd.shared.keeps.value and not odd.shared.ends.value:
        time.sleep(0.1)
    it.setsockopt(socket.SOL_SOCKET, socket.SO_RCVBUF, 4096)
    it.setsockopt(socket.SOL_SOCKET, socket.SO_SNDBUF, 16384)
    odd.connect(it)
    request = soak_policies.request_of(0, 1)
    it.settimeout(0.1)
    begun = last = time.monotonic()
    is_ended = False
    while not is_ended and not odd.shared.ends.value and time.monotonic() - begun < 60:
        try:
            sent = it.send(request * 100)
            odd.unread += sent // len(request) + 1
            last = time.monotonic()
        except TimeoutError:
            if time.monotonic() - last > WRITE_TIME + GRACE:
                odd.tally.fail(f"never_reads: it is open {time.monotonic() - last:.1f} s after the last byte was taken")
                return
        except OSError:
            is_ended = True


def half_closes(odd, it):
    """Requests, and the end of this direction: all are answered, and then the server closes."""
    odd.connect(it)
    reader = odd.reader()
    it.sendall(odd.batch(reader, 100))
    it.shutdown(socket.SHUT_WR)
    odd.read_all(it, reader)


def is_too_long(odd, it):
    """Requests, and a head that is a byte too long."""
    odd.connect(it)
    reader = odd.reader()
    content = odd.batch(reader, 5) + soak_policies.LARGE
    reader.ask(soak_policies.IS_LARGE, 0, closes=True)
    for piece in soak_policies.pieces_of(odd.chance, content):
        it.sendall(piece)
    odd.read_all(it, reader)


def is_no_head(odd, it):
    """Bytes that are no head."""
    odd.connect(it)
    it.sendall(NO_HEAD)
    got = b""
    while more := it.recv(4096):
        got += more
    wanted = [answer(b"400 Bad Request", b"none", b"-", generation, closes=True)
              for generation in range(max(0, odd.shared.accepted.value - 1), odd.shared.sent.value + 1)]
    if got not in wanted:
        odd.tally.fail(f"is_no_head:\n  got    {got!r}\n  wanted {wanted[0]!r}")
    else:
        odd.tally.answers["none"] += 1


def is_amid_bodies(odd, it):
    """Pieces that never end between two requests: each has the end of a body, a head and the beginning of a body."""
    odd.connect(it)
    reader = odd.reader()
    rest = b""
    for _ in range(odd.chance.randrange(2, 100)):
        body = odd.chance.randbytes(odd.chance.randrange(2, 5_000))
        cut = odd.chance.randrange(1, len(body))
        head = soak_policies.request_of(0, reader.generation, b"POST", b"Content-Length: %d\r\n" % len(body))
        reader.ask(0, reader.generation, b"POST")
        it.sendall(rest + head + body[:cut])
        odd.read_all(it, reader, is_open=True)
        rest = body[cut:]
        if odd.tally.wrong or odd.shared.ends.value:
            return


def run_odd(shared, port, seed, floods, results):
    """A process of all odd kinds, until the end."""
    ways = [resets, is_slow, is_slow, is_too_slow, is_too_slow, half_closes, is_too_long, is_no_head, is_amid_bodies]
    ways += [never_reads, never_reads] if floods else []
    odds = [Odd(shared, port, seed + number, way) for number, way in enumerate(ways)]
    for odd in odds:
        odd.thread.start()
    total = Tally()
    for odd in odds:
        odd.thread.join()
        total.add(odd.tally)
    results.put((total, sum(odd.unread for odd in odds)))
