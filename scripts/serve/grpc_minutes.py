"""Minutes of `rbacd serve` below one control plane after the other at one address, for scripts/serve/try_grpc --minutes: grpcio's, grpc-go's
that closes old connections, one whose windows are opened by an octet at a time, and one of messages of 1 MiB; each is stopped, and the
next one begins. An update comes each second, and every fifth is refused. Each acknowledgement is compared, and after it the decision on
a request; and what memory the server has."""
import pathlib
import re
import time

from grpc_attacks import MIB, ends
from grpc_planes import ADS, GoPlane, GrpcioPlane
from http2_peer import HandMadePlane
from loopback import free_port
from replays import ANY_ANY, EXTENSION, FILTER, NO_POLICY, PLAIN, allowed, denied, field, request, resource, response, typed
from try_serve_base import F, REFUSED

# the seconds of a control plane
STAGE = 30
# what memory may grow by after the first minute
GROWTH = 4 * MIB


def large(name, content):
    """A resource of nearly 1 MiB: its name comes again and again, and the last one counts."""
    names = field(1, b"x" * 60_000) * 16 + field(1, name)
    return field(2, typed(EXTENSION, names + field(2, typed(FILTER, content))))


class DrippingCall:
    """A call whose window is opened by an octet at a time."""

    def __init__(self, call):
        self.call = call

    def begin(self):
        """The first request."""
        first = self.call.message()
        self.call.shuts(len(first))
        self.call.answers()
        return first

    def exchange(self, octets, count):
        self.call.says(octets)
        return self.call.drips(count)


class LibraryCall:
    """A call of a library's server."""

    def __init__(self, call):
        self.call = call

    def begin(self):
        return self.call.next()

    def exchange(self, octets, _):
        self.call.say(octets[5:])
        return self.call.next()


class Minutes:
    """The server, what was accepted, and what was seen."""

    def __init__(self, case, port):
        self.case, self.port = case, port
        self.version = self.generation = 0
        self.accepted = self.refused = self.streams = self.decisions = 0
        self.slowest, self.sizes = 0.0, []
        self.server = None

    def address(self):
        return f"127.0.0.1:{self.port}"

    def memory(self):
        """The octets of memory, without the pages of files."""
        status = pathlib.Path(f"/proc/{self.server.process.pid}/status").read_text()
        return int(re.search(r"RssAnon:\s+(\d+) kB", status)[1]) * 1024

    def stage(self, kind, seconds):
        """A control plane of this kind, for so many seconds: as many streams as it takes."""
        end = time.monotonic() + seconds
        plane = {"grpcio": self.grpcio, "old": self.old, "drips": self.drips, "large": self.grpcio, "go": self.go}[kind]()
        while time.monotonic() < end:
            call = self.call_of(plane)
            self.streams += 1
            self.resume(kind, call.begin())
            try:
                self.serve(call, end, kind == "large")
            except (OSError, EOFError):
                # the connection was closed, and its client calls again
                self.case.holds(f"{kind}: only an old connection ends", kind == "old")
        self.stop(plane)

    def resume(self, kind, first):
        """The first request of a stream. It names the last version, whose acknowledgement may have been lost with an old stream."""
        if first == request(F, b"%d" % (self.version + 1), node=True):
            self.version, self.generation, self.accepted = self.version + 1, self.generation + 1, self.accepted + 1
        known = b"%d" % self.version if self.version else b""
        self.case.same(f"{kind}: the first request", first, request(F, known, node=True))

    def grpcio(self):
        return GrpcioPlane(self.case, ADS, self.address())

    def go(self):
        return GoPlane(self.case, ADS, self.address()) if GoPlane.program else self.grpcio()

    def old(self):
        """A plane of grpc-go that closes each connection after seven seconds, with GOAWAY five seconds before."""
        return GoPlane(self.case, ADS, self.address(), age=5_000) if GoPlane.program else self.grpcio()

    def drips(self):
        return HandMadePlane(self.case, address=self.port)

    def call_of(self, plane):
        if isinstance(plane, HandMadePlane):
            return DrippingCall(plane.accept())
        return LibraryCall(plane.call())

    def stop(self, plane):
        plane.stop()

    def serve(self, call, end, is_large):
        """An update each second until the time is over."""
        while time.monotonic() < end:
            begin = time.monotonic()
            if (self.accepted + self.refused) % 5 == 4:
                self.refuse(call)
            else:
                self.accept(call, is_large)
            self.slowest = max(self.slowest, time.monotonic() - begin)
            self.decide()
            self.sizes.append((time.monotonic(), self.memory()))
            time.sleep(max(0.0, begin + 1 - time.monotonic()))

    def accept(self, call, is_large):
        version = b"%d" % (self.version + 1)
        content = ANY_ANY if (self.version + 1) % 2 else NO_POLICY
        wanted = request(F, version, b"n" + version)
        octets = response(version, b"n" + version, (large if is_large else resource)(b"f", content))
        found = call.exchange(octets, len(wanted))
        if self.case.same(f"the acknowledgement of {version}", found, wanted):
            self.version, self.generation, self.accepted = self.version + 1, self.generation + 1, self.accepted + 1

    def refuse(self, call):
        wanted = request(F, b"%d" % self.version if self.version else b"", b"bad", refusal=3)
        found = call.exchange(response(b"bad", b"bad", resource(b"f", REFUSED)), len(wanted))
        self.case.same("the refusal", found, wanted)
        self.refused += 1

    def decide(self):
        """The decision on a request, by the policies that were accepted last."""
        wanted = allowed(b"0", self.generation) if self.version % 2 else denied(b"-", self.generation)
        self.server.answers(f"by version {self.version}", [(PLAIN, wanted)]).close()
        self.decisions += 1


def run(case, minutes, kinds):
    """The stages in turn, for so many minutes."""
    it = Minutes(case, free_port())
    it.server = case.serve(f"grpc://{it.address()}", timeouts={"first_response": 60_000})
    kinds, begin, at = kinds or ["grpcio", "old", "drips", "large", "go"], time.monotonic(), 0
    while time.monotonic() < begin + minutes * 60 and not case.wrong:
        kind = kinds[at % len(kinds)]
        it.stage(kind, min(STAGE, minutes * 60 / len(kinds)))
        print(f"    {time.monotonic() - begin:.0f} s, {kind}: {it.accepted} accepted, {it.refused} refused, {it.streams} streams, "
              f"{it.memory() / MIB:.1f} MiB", flush=True)
        at += 1
    first = [size for when, size in it.sizes if when - begin < max(60, minutes * 30)] or [0]
    print(f"    {it.accepted} updates accepted, {it.refused} refused, {it.decisions} decisions right, {it.streams} streams; the slowest "
          f"answer to an update after {it.slowest:.2f} s; memory {it.sizes[0][1] / MIB:.1f} MiB at first, {max(first) / MIB:.1f} at most in "
          f"the first minute, {it.memory() / MIB:.1f} at the end; ends logged: {sorted(set(ends(it.server)))}, losses: "
          f"{sorted(set(it.server.losses()))}")
    case.holds("memory does not grow", it.memory() <= max(first) + GROWTH, (max(first), it.memory()))
