"""What the parts of scripts/serve/try_http2 share: the program that runs the crates, a call of it, and how much was compared."""
import collections
import random
import resource
import subprocess

# the fields of an answer of gRPC
GRPC = [(":status", "200"), ("content-type", "application/grpc")]


class Program:
    """The program's lines."""

    def __init__(self, path):
        self.run = subprocess.Popen([path], stdin=subprocess.PIPE, stdout=subprocess.PIPE, text=True, bufsize=1 << 16)

    def ask(self, line):
        self.tell(line)
        self.run.stdin.flush()
        return self.run.stdout.readline().split()

    def tell(self, line):
        self.run.stdin.write(line + "\n")

    def close(self):
        """Ends the program; the seconds of a processor that it took."""
        before = resource.getrusage(resource.RUSAGE_CHILDREN)
        self.run.communicate()
        after = resource.getrusage(resource.RUSAGE_CHILDREN)
        return after.ru_utime + after.ru_stime - before.ru_utime - before.ru_stime


class Call:
    """A call of the program, and what it said."""

    def __init__(self, program):
        self.program, self.said, self.most = program, b"", 0
        self.do("open")

    def do(self, word, text=""):
        """Does what a line says; how many octets were taken."""
        count, out, data, self.end, ping, message, cut = self.program.ask(f"{word} {text}")
        self.waits, self.shown = bytes.fromhex(out[1:]), bytes.fromhex(data[1:])
        self.ping, self.message, self.cut = ping[1:], bytes.fromhex(message[1:]), int(cut)
        self.most = max(self.most, len(self.waits))
        return int(count)

    def data(self):
        """The data that wait for the core."""
        self.do("data")
        return self.shown

    def send(self):
        """The peer reads what waits."""
        waits = self.waits
        self.said += waits
        if waits:
            self.do("sent", len(waits))
        return waits

    def hear(self, octets, cut=lambda: 9000, reads=True):
        """The peer writes octets, and reads what waits."""
        at = 0
        while at < len(octets) and self.end == "open":
            count = self.do("receive", octets[at:at + cut()].hex())
            at += count
            if reads:
                self.send()
            elif count == 0:
                return at
        return at

    def hear_each(self, octets):
        """The peer writes each octet by itself, and reads what waits after each; what it read."""
        self.do("each", octets.hex())
        said, self.waits = self.waits, b""
        self.said += said
        return said


class Trial:
    """Counts what holds, and what was compared by its kind."""

    def __init__(self, path, rounds, seed=7):
        self.program, self.rounds, self.rng, self.good, self.bad = Program(path), rounds, random.Random(seed), 0, 0
        self.counts = collections.Counter()

    def holds(self, name, is_so, what=""):
        self.good, self.bad = self.good + bool(is_so), self.bad + (not is_so)
        if not is_so:
            print("differs:", name, what)

    def call(self):
        return Call(self.program)
