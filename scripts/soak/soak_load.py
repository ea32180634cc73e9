"""The ordinary load of scripts/soak/soak: a process with kept-alive connections, which send heads one by one or pipelined, whole or cut at
random, and compare each answer with what its generation's policy says."""
import array
import collections
import heapq
import re
import selectors
import socket
import time

import soak_policies
from soak_policies import IS_LARGE, Asked

GENERATION = re.compile(rb"\r\nx-rbac-generation: (\d+)\r\n")
MOST_WRONG = 10
# one of so many answers has its time measured
SAMPLE = 16
ROOM = 1 << 16
# how many connections are kept at once, and how long each rests after an answer
KEPT_AT_ONCE = 16
REST_WHILE_KEPT = 0.05


class Tally:
    """What a process of the load counts."""

    def __init__(self):
        self.answers = collections.Counter()
        self.asked = self.connections = 0
        self.times = array.array("f")
        self.kept = {}
        self.wrong = []

    def fail(self, what):
        if len(self.wrong) < MOST_WRONG:
            self.wrong.append(what)

    def add(self, other):
        self.answers += other.answers
        self.asked += other.asked
        self.connections += other.connections
        self.times += other.times
        self.kept.update(other.kept)
        self.wrong += other.wrong


class Reader:
    """The answers of one connection, compared as they come."""

    def __init__(self, tally, shared, name):
        self.tally, self.shared, self.name = tally, shared, name
        self.waits = collections.deque()
        self.bytes = b""
        self.generation = shared.accepted.value

    def ask(self, kind, version, method=b"GET", closes=False, at=None):
        """Notes a request whose last byte is sent now or later."""
        self.waits.append(Asked(version, kind, method == b"HEAD", closes, self.shared.accepted.value, at))
        self.tally.asked += 1

    def take(self, got):
        """Compares what came. Returns whether it is right as far as it goes."""
        self.bytes += got
        start = 0
        while self.waits:
            found = GENERATION.search(self.bytes, start)
            if not found:
                break
            wanted = soak_policies.answer_at(int(found[1]), self.waits[0])
            end = start + len(wanted)
            if len(self.bytes) < end:
                break
            if not self.compare(self.bytes[start:end], wanted, int(found[1])):
                return False
            start = end
        self.bytes = self.bytes[start:]
        if self.bytes and not self.waits:
            return self.fails(f"bytes that nothing asked for: {self.bytes[:200]!r}")
        return True

    def compare(self, got, wanted, generation):
        asked = self.waits.popleft()
        if got != wanted:
            return self.fails(f"to {asked}:\n  got    {got!r}\n  wanted {wanted!r}")
        least, most = max(asked.least, self.generation), self.shared.sent.value
        if not least <= generation <= most:
            return self.fails(f"to {asked}: generation {generation}, where {least} to {most} can be")
        self.generation = generation
        verdict = "none" if asked.match == IS_LARGE else "allow" if generation == asked.version else "deny"
        self.tally.answers[verdict] += 1
        if asked.at and self.tally.answers[verdict] % SAMPLE == 0:
            self.tally.times.append(time.monotonic() - asked.at)
        return True

    def lacks(self):
        """What was asked and not answered."""
        return f"{len(self.waits)} requests were not answered; what came last: {self.bytes[:200]!r}"

    def fails(self, what):
        self.tally.fail(f"{self.name}: {what}")
        return False


class Connection:
    """A connection of the ordinary load. It asks again once all is answered. One that is kept has an end."""

    def __init__(self, load, name, until=None):
        self.load, self.name, self.until = load, name, until
        self.reader = Reader(load.tally, load.shared, name)
        self.socket = socket.create_connection(("127.0.0.1", load.port), 10)
        self.socket.setsockopt(socket.IPPROTO_TCP, socket.TCP_NODELAY, 1)
        self.socket.setblocking(False)
        self.pieces = collections.deque()
        self.kept = None if until is None else bytearray()
        self.is_last = self.is_due = False
        load.tally.connections += 1
        load.selector.register(self.socket, selectors.EVENT_READ, self)

    def ask(self):
        """The next batch of requests, or the end."""
        self.is_due = False
        if self.until is not None and time.monotonic() > self.until:
            self.is_last = True
            self.end()
            return
        chance = self.load.chance
        lines = b"" if self.kept is None else b"X-Kept: %s\r\n" % self.name.encode()
        batch = [soak_policies.random_request(chance, self.reader.generation, lines)
                 for _ in range(1 if chance.random() < 0.7 else chance.randrange(2, 17))]
        whole = b"".join(request for request, *_ in batch)
        self.pieces.extend(soak_policies.pieces_of(chance, whole) if chance.random() < 0.2 else [whole])
        at = time.monotonic() if len(self.pieces) == 1 else None
        for _, kind, version, method in batch:
            self.reader.ask(kind, version, method, at=at)
        self.send()

    def end(self):
        """A connection ends by a request that asks for it, by a head that is too large, by its own end, or by nothing more."""
        way = self.load.chance.randrange(4)
        if way == 0:
            self.reader.ask(0, self.reader.generation, closes=True)
            self.pieces.append(soak_policies.request_of(0, self.reader.generation, lines=b"Connection: close\r\n"))
            self.send()
        elif way == 1:
            self.reader.ask(soak_policies.IS_LARGE, 0, closes=True)
            self.pieces.extend(soak_policies.pieces_of(self.load.chance, soak_policies.LARGE))
            self.send()
        elif way == 2:
            self.socket.shutdown(socket.SHUT_WR)
        else:
            self.close()

    def send(self):
        """Sends the next piece. The one after it is sent a little later."""
        piece = self.pieces.popleft()
        try:
            sent = self.socket.send(piece)
        except BlockingIOError:
            sent = 0
        except OSError as cause:
            self.load.lose(self, f"a write failed: {cause}")
            return
        if sent < len(piece):
            self.pieces.appendleft(piece[sent:])
        if self.pieces:
            self.load.later(self, self.load.chance.random() * 0.004 + 0.0001, "send")
        else:
            self.go_on()

    def go_on(self):
        """Asks again once all is sent and answered."""
        if not (self.reader.waits or self.pieces or self.is_last or self.is_due):
            self.is_due = True
            self.load.later(self, self.load.shared.rest.value if self.kept is None else REST_WHILE_KEPT, "ask")

    def read(self):
        try:
            got = self.socket.recv(ROOM)
        except OSError as cause:
            self.load.lose(self, f"a read failed: {cause}")
            return
        if self.kept is not None:
            self.kept += got
        if not got:
            self.ended()
        elif not self.reader.take(got):
            self.close()
        else:
            self.go_on()

    def ended(self):
        """The server closed it: that is right where it was asked for and all is answered."""
        if self.reader.waits or not self.is_last:
            self.load.lose(self, f"closed by the server: {self.reader.lacks()}")
        else:
            self.close()

    def close(self):
        self.load.close(self)


class Load:
    """The connections of one process."""

    def __init__(self, shared, port, seed):
        self.shared, self.port = shared, port
        self.tally = Tally()
        self.selector = selectors.DefaultSelector()
        self.chance = soak_policies.chance_of(seed)
        self.timed = []
        self.open = set()
        self.numbers = 0

    def later(self, connection, wait, what):
        """Has the connection go on, now or later."""
        if wait <= 0:
            getattr(connection, what)()
            return
        self.numbers += 1
        heapq.heappush(self.timed, (time.monotonic() + wait, self.numbers, connection, what))

    def add(self, name, until=None):
        try:
            connection = Connection(self, name, until)
        except OSError as cause:
            self.tally.fail(f"{name}: no connection: {cause}")
            return
        self.open.add(connection)
        connection.ask()

    def lose(self, connection, why):
        self.tally.fail(f"{connection.name}: {why}")
        self.close(connection)

    def close(self, connection):
        if connection in self.open:
            self.open.remove(connection)
            self.selector.unregister(connection.socket)
            connection.socket.close()
            if connection.kept is not None:
                self.tally.kept[connection.name] = bytes(connection.kept)

    def turn(self):
        """What is ready, and what is due."""
        now = time.monotonic()
        wait = max(0, min(0.05, self.timed[0][0] - now)) if self.timed else 0.05
        for key, _ in self.selector.select(wait):
            if key.data in self.open:
                key.data.read()
        now = time.monotonic()
        while self.timed and self.timed[0][0] <= now:
            _, _, connection, what = heapq.heappop(self.timed)
            if connection in self.open:
                getattr(connection, what)()

    def finish(self, seconds=10):
        """Waits until all that was asked is answered, and closes."""
        until = time.monotonic() + seconds
        for connection in self.open:
            connection.until = 0
        while any(it.reader.waits or it.kept is not None for it in self.open) and time.monotonic() < until:
            self.turn()
        for connection in list(self.open):
            if connection.reader.waits:
                self.tally.fail(f"{connection.name}: at the end {connection.reader.lacks()}")
            self.close(connection)


def run_ordinary(shared, port, seed, count, results):
    """A process of so many connections, until the end. What goes wrong ends one connection, which is opened again."""
    load = Load(shared, port, seed)
    for number in range(count):
        load.add(f"ordinary {seed}.{number}")
    while not shared.ends.value:
        load.turn()
        while len(load.open) < count and not load.tally.wrong:
            load.add(f"ordinary {seed}, again")
    load.finish()
    results.put(load.tally)


def run_kept(shared, port, seed, count, seconds, results):
    """A process of connections whose bytes are kept, some at once, each for a part of these seconds."""
    load = Load(shared, port, seed)
    share = seconds * KEPT_AT_ONCE / count
    for number in range(count):
        while len(load.open) >= KEPT_AT_ONCE:
            load.turn()
        load.add(f"kept-{number}", time.monotonic() + load.chance.uniform(0.1, 1.6) * share)
    load.finish(30)
    results.put(load.tally)
