"""What the cases of scripts/serve/try_serve share: a server that runs, a control plane, clients, and how what came is compared."""
import contextlib
import http.client
import json
import os
import pathlib
import queue
import socket
import subprocess
import sys
import tempfile
import time
import traceback

from loopback import free_port, heard, listens
from replays import ANY_ANY, allowed, denied, field, number, request, resource, response

TOP = pathlib.Path(__file__).resolve().parent.parent.parent
F = [b"f"]
# a configuration with two filters, and their names
TWO = json.loads((TOP / "examples/serve_two.json").read_text())["proxy"]
DENY, ALLOW = BOTH = [it["name"].encode() for it in TWO["filters"]]
ANY = b"\x18\x01"
CLOCK = os.sysconf("SC_CLK_TCK")
PAGE = os.sysconf("SC_PAGE_SIZE")
# a program that was compiled without proofs is checked for bad accesses, and would keep what it freed
FREES = {**os.environ, "ASAN_OPTIONS": "quarantine_size_mb=1:thread_local_quarantine_size_kb=64"}


def filter_of(policy):
    """A filter that lets through what its one policy `p` matches."""
    return field(1, field(2, field(1, b"p") + field(2, policy)))


def filter_with(denies=False, **policies):
    """A filter with these policies by name, which denies or lets through what one of them matches."""
    entries = b"".join(field(2, field(1, name.encode()) + field(2, it)) for name, it in policies.items())
    return field(1, (b"\x08\x01" if denies else b"") + entries)


def policy(permission=ANY, principal=ANY, condition=b""):
    """A policy with one permission, one principal and perhaps a checked condition."""
    return field(1, permission) + field(2, principal) + (field(4, field(4, condition)) if condition else b"")


def remote(address, length):
    """The principal of peers in a range of addresses."""
    return field(10, field(1, address) + field(2, b"\x08" + number(length)))


def equals(root, name, constant):
    """The condition that an attribute is a constant."""
    select = b"\x10\x02" + field(5, field(1, b"\x10\x01" + field(4, field(1, root))) + field(2, name))
    return b"\x10\x03" + field(6, field(2, b"_==_") + field(3, select) + field(3, b"\x10\x04" + field(3, constant)))


def whole(value):
    """The constant of an int."""
    return b"\x18" + number(value)


def text(value):
    """The constant of a text."""
    return field(6, value)


def method_is(name):
    """A policy that matches the requests of one method."""
    return policy(permission=field(4, field(1, b":method") + field(4, name)))


# filters for `TWO`: the first denies POST; the second lets GET through by a condition, and PUT
NO_POST = filter_with(denies=True, posts=method_is(b"POST"))
GET_AND_PUT = filter_with(gets=policy(condition=equals(b"request", b"method", text(b"GET"))), puts=method_is(b"PUT"))
# and what they answer
GET_YES, PUT_YES, POST_NO, DELETE_NO = allowed(b"-,0", 1), allowed(b"-,1", 1), denied(b"0", 1), denied(b"-,-", 1)


class Case:
    """One case: its folder, what it started, and how often something else came than was wanted. Times are multiplied by `scale`,
    which is above 1 for a slow program."""

    def __init__(self, program, folder, ends, scale):
        self.program, self.folder, self.ends, self.scale = program, folder, ends, scale
        self.wrong = []

    def same(self, what, got, wanted):
        if got != wanted:
            self.wrong.append(f"{what}:\n  got    {shown(got)}\n  wanted {shown(wanted)}")
        return got == wanted

    def holds(self, what, is_so, found=""):
        if not is_so:
            self.wrong.append(f"{what}: it is not so" + (f"\n  found  {shown(found)}" if found != "" else ""))
        return bool(is_so)

    def until(self, what, condition, seconds=5):
        """Waits until it holds."""
        end = time.monotonic() + seconds * self.scale
        while time.monotonic() < end:
            if found := condition():
                return found
            time.sleep(0.01)
        self.holds(what, condition())
        return condition()

    def plane(self, path=None):
        """A control plane of the case's own, over TCP or at the path of a Unix socket."""
        return Plane(self, path)

    def serve(self, control, limit=None, errors=None, **settings):
        """A server that serves, perhaps with a limit of `prlimit` or with standard error of the case's own. Settings of None are
        left out."""
        return Server(self, control, limit, errors, settings)

    def ready(self, content=ANY_ANY, **settings):
        """A server that has accepted a filter, with its control plane and the update stream."""
        return self.accepted(F, [content], settings)

    def ready_both(self, first=NO_POST, second=GET_AND_PUT, **settings):
        """The same with two filters."""
        return self.accepted(BOTH, [first, second], {"proxy": TWO, **settings})

    def accepted(self, names, contents, settings):
        plane = self.plane()
        server = self.serve(plane.address, **settings)
        stream = plane.accept()
        self.same("the first request", stream.frame(), request(names, node=True))
        self.same("its acknowledgement", stream.give(b"1", *contents, names=names), request(names, b"1", b"n1"))
        return server, plane, stream

    def run(self, *words, given=b""):
        """A command that ends: its status, its output and its errors."""
        it = subprocess.run([self.program, *map(str, words)], cwd=self.folder, input=given, capture_output=True,
                            timeout=30 * self.scale)
        return it.returncode, it.stdout, it.stderr

    def config(self, name, value):
        (self.folder / name).write_text(value if isinstance(value, str) else json.dumps(value))
        return name


def shown(it):
    out = repr(it)
    return out if len(out) < 1500 else f"{out[:700]} .. {out[-700:]}"


class Plane:
    """A control plane that listens."""

    def __init__(self, case, path):
        self.case = case
        if path:
            self.listener, self.address = socket.socket(socket.AF_UNIX), f"unix:{path}"
            self.listener.bind(str(case.folder / path))
        else:
            self.listener = socket.socket()
            self.listener.setsockopt(socket.SOL_SOCKET, socket.SO_REUSEADDR, 1)
            self.listener.bind(("127.0.0.1", 0))
            self.address = "127.0.0.1:%d" % self.listener.getsockname()[1]
        self.listener.listen(64)
        case.ends.callback(self.listener.close)

    def accept(self, seconds=10):
        """The next update stream; a TimeoutError if none comes."""
        self.listener.settimeout(seconds * self.case.scale)
        peer = self.listener.accept()[0]
        peer.settimeout(10 * self.case.scale)
        self.case.ends.callback(peer.close)
        return Updates(peer)


class Updates:
    """The control plane's end of an update stream."""

    def __init__(self, peer):
        self.peer = peer

    def frame(self):
        """The next frame, or what came of it before the stream ended."""
        head = heard(self.peer, 5)
        return head + (heard(self.peer, int.from_bytes(head[1:], "big")) if len(head) == 5 and head[1:] != bytes(4) else b"")

    def give(self, version, *contents, nonce=None, names=F):
        """Sends a response with a filter for each name. Its answer is returned."""
        resources = [resource(name, content) for name, content in zip(names, contents)]
        self.peer.sendall(response(version, nonce or b"n" + version, *resources))
        return self.frame()

    def is_closed(self):
        """Whether the other end closes the stream, and sends nothing before."""
        return heard(self.peer, 1) == b"" and not timed_out(self.peer)

    def close(self):
        self.peer.close()


def timed_out(peer):
    """Whether a peer that sends nothing has its stream open still."""
    peer.setblocking(False)
    try:
        return peer.recv(1) != b""
    except BlockingIOError:
        return True
    except OSError:
        return False


class Server:
    """`rbacd serve` as a process."""

    def __init__(self, case, control, limit, errors, settings):
        self.case = case
        self.port, self.admin = free_port(), free_port()
        proxy = {"node": "n", "cluster": "c", "filters": [{"name": "f"}]}
        value = {"proxy": proxy, "listen": f"127.0.0.1:{self.port}", "control": control, "admin": self.admin,
                 "update_log": "updates", "backoff": {"first": 50, "greatest": 200}, "nack_pause": 100, **settings}
        if also := value.pop("also", None):
            value["listen"] = [value["listen"], also]
        value = {name: it for name, it in value.items() if it is not None}
        case.config("serve.json", value)
        case.config("proxy.json", value["proxy"])
        self.errors = case.folder / "errors"
        limited = ["prlimit", limit] if limit else []
        # a server with a limit ignores SIGXFSZ, as Python does: a write to a file that is too long fails
        with self.errors.open("ab") as own:
            self.process = subprocess.Popen([*limited, case.program, "serve", "--config", "serve.json"], cwd=case.folder, env=FREES,
                                            stdin=subprocess.PIPE, stdout=subprocess.PIPE, stderr=errors or own,
                                            restore_signals=not limit)
        case.ends.callback(self.stop)
        for address in value["listen"] if isinstance(value["listen"], list) else [value["listen"]]:
            place = address.rsplit(":", 1)[1]
            self.wait_until(lambda place=place: listens(int(place)) if place.isdigit() else (case.folder / place).is_socket())

    def wait_until(self, condition):
        end = time.monotonic() + 10 * self.case.scale
        while not condition() and self.process.poll() is None and time.monotonic() < end:
            time.sleep(0.01)

    def stop(self):
        self.process.kill()
        self.process.wait()
        for pipe in (self.process.stdin, self.process.stdout):
            with contextlib.suppress(OSError):
                pipe.close()

    def ended(self, seconds=10):
        """The status with which it ends by itself; None if it does not."""
        with contextlib.suppress(subprocess.TimeoutExpired):
            return self.process.wait(seconds * self.case.scale)

    def connect_unix(self, path):
        """A connection of a client over a Unix socket."""
        peer = socket.socket(socket.AF_UNIX)
        peer.settimeout(10 * self.case.scale)
        peer.connect(str(self.case.folder / path))
        self.case.ends.callback(peer.close)
        return peer

    def connect(self, source=None):
        """A connection of a client; from an address of its own, if one is given."""
        peer = socket.socket()
        if source:
            peer.setsockopt(socket.SOL_SOCKET, socket.SO_REUSEADDR, 1)
            peer.bind(source)
        peer.settimeout(10 * self.case.scale)
        peer.setsockopt(socket.IPPROTO_TCP, socket.TCP_NODELAY, 1)
        peer.connect(("127.0.0.1", self.port))
        self.case.ends.callback(peer.close)
        return peer

    def answers(self, what, turns, peer=None):
        """Sends each text on one connection, and compares what comes back. The connection stays open."""
        peer = peer or self.connect()
        for sent, wanted in turns:
            peer.sendall(sent)
            self.case.same(what, heard(peer, len(wanted)), wanted)
        return peer

    def ends(self, what, turns, peer=None):
        """The same, and then the server closes the connection."""
        peer = self.answers(what, turns, peer)
        self.case.same(f"{what}: the end", heard(peer, 1), b"")
        self.case.holds(f"{what}: closed", not timed_out(peer))
        peer.close()

    def fetch(self, path, method="GET", host=None, **fields):
        """The status and the body of an answer of the admin port."""
        it = http.client.HTTPConnection("127.0.0.1", self.admin, timeout=10 * self.case.scale)
        with contextlib.closing(it):
            it.request(method, path, headers={**({"Host": host} if host else {}), **fields})
            answer = it.getresponse()
            return answer.status, answer.read()

    def metrics(self):
        """Each sample with its labels, and its value."""
        lines = self.fetch("/metrics")[1].decode().splitlines()
        return {line.rsplit(" ", 1)[0]: float(line.rsplit(" ", 1)[1]) for line in lines if line and line[0] != "#"}

    def worked(self):
        """The seconds of processor time that it took so far."""
        fields = pathlib.Path(f"/proc/{self.process.pid}/stat").read_text().rsplit(")", 1)[1].split()
        return (int(fields[11]) + int(fields[12])) / CLOCK

    def processor_time(self, seconds):
        """The seconds of processor time that it takes in so many seconds."""
        before = self.worked()
        time.sleep(seconds)
        return self.worked() - before

    def memory(self):
        """The bytes of memory that it takes."""
        return int(pathlib.Path(f"/proc/{self.process.pid}/statm").read_text().split()[1]) * PAGE

    def logged(self, name="updates"):
        """The objects of a log; a line that is not whole is left out."""
        path = self.case.folder / name
        lines = path.read_bytes().split(b"\n")[:-1] if path.exists() else []
        return [json.loads(line) for line in lines]

    def losses(self):
        """Why update streams were lost so far."""
        return [it["reason"] for it in self.logged() if it.get("stream") == "lost"]


# a filter with a field that no filter has
REFUSED = b"\x22\x00"


def scale_of(program):
    """How much longer than a proved program it may take."""
    return 4 if b"not proved" in subprocess.run([program, "--version"], capture_output=True, check=True).stdout else 1


def tried(it, program, scale):
    """What went wrong in a case."""
    with tempfile.TemporaryDirectory() as folder, contextlib.ExitStack() as ends:
        case = Case(program, pathlib.Path(folder), ends, scale)
        try:
            it(case)
        except (OSError, EOFError, subprocess.TimeoutExpired, ValueError, LookupError, queue.Empty):
            case.wrong.append(traceback.format_exc())
        return case.wrong


def run_cases(title, cases, program, names):
    """Runs the cases of these names, or all of them, and prints how each ended; 1 where something else came than is said, else 0."""
    if unknown := [name for name in names if name not in cases]:
        sys.exit(f"there is no case {unknown[0]}; the cases are {' '.join(cases)}")
    scale, wrong = scale_of(program), 0
    for name in names or cases:
        begin = time.monotonic()
        found = tried(cases[name], program, scale)
        print(f"{name}: {'as said' if not found else f'{len(found)} wrong'} ({time.monotonic() - begin:.1f} s)", flush=True)
        for it in found:
            print("  " + it.replace("\n", "\n  "), flush=True)
        wrong += bool(found)
    print(f"{title}: {'all as said' if not wrong else f'{wrong} cases are wrong'}")
    return 1 if wrong else 0
