"""Measures what a rollout costs one proxy: `rbacd serve` on loopback, below a control plane that is part of this script.

Times are of the process's processor, so that other work on the machine counts little. Of several measures the least is taken.
"""
import contextlib
import json
import pathlib
import platform
import socket
import subprocess
import tempfile

import serving_peers
from loopback import free_port
from messages import any_of, extension, frame, text
from .costs import Costs, filter_name, response_frame

PATIENCE = 60
# the greatest budget, so that it does not limit the policies
BUDGET = 100_000_000
# filters and policies of the responses that are judged
SIZES = ((1, 1), (1, 64), (1, 256), (4, 64), (8, 1), (8, 128))
TIMES, HEADS, BLOCKS = 7, 200, 10


def processor_seconds(pid):
    """What the process has taken of processors."""
    return int(pathlib.Path(f"/proc/{pid}/schedstat").read_text().split()[0]) / 1e9


def read_frame(stream):
    """The bytes of one frame that the program sends."""
    head = stream.recv(5, socket.MSG_WAITALL)
    size = int.from_bytes(head[1:], "big")
    return head + (stream.recv(size, socket.MSG_WAITALL) if size else b"")


class Proxy:
    """`rbacd serve` with an update stream to this script."""

    def __init__(self, program, filters, folder, ends):
        self.folder, self.port = folder, free_port()
        listener = ends.enter_context(socket.create_server(("127.0.0.1", 0)))
        names = [{"name": filter_name(number), "budget": BUDGET} for number in range(filters)]
        settings = {"proxy": {"node": "edge-0001", "cluster": "edge", "filters": names}, "listen": f"127.0.0.1:{self.port}",
                    "control": f"127.0.0.1:{listener.getsockname()[1]}", "update_log": str(folder / "updates"), "nack_pause": 0}
        (folder / "serve.json").write_text(json.dumps(settings))
        self.process = subprocess.Popen([program, "serve", "--config", folder / "serve.json"], stdin=subprocess.DEVNULL)
        ends.callback(self.process.wait)
        ends.callback(self.process.kill)
        listener.settimeout(PATIENCE)
        self.stream = ends.enter_context(listener.accept()[0])
        self.stream.settimeout(PATIENCE)
        self.first = read_frame(self.stream)

    def judge(self, sent):
        """Sends a frame; the answer's bytes, and the seconds that it took."""
        before = processor_seconds(self.process.pid)
        self.stream.sendall(sent)
        answer = read_frame(self.stream)
        return answer, processor_seconds(self.process.pid) - before

    def is_refused(self):
        """Whether the last response was refused."""
        return json.loads((self.folder / "updates").read_text().splitlines()[-1])["update"] == "refused"


@contextlib.contextmanager
def proxy(program, filters):
    with contextlib.ExitStack() as ends:
        folder = pathlib.Path(ends.enter_context(tempfile.TemporaryDirectory()))
        yield Proxy(program, filters, folder, ends)


def judged(program, filters, policies):
    """The least time of judging, and the bytes of the first request and of an answer."""
    with proxy(program, filters) as it:
        answers = [it.judge(response_frame(filters, policies, str(at))) for at in range(TIMES)]
        if it.is_refused():
            raise RuntimeError(f"the program refuses {filters} filters of {policies} policies")
        return min(seconds for _, seconds in answers), len(it.first), max(len(answer) for answer, _ in answers)


def refused(program):
    """The bytes of a refusal: a filter whose action does not exist."""
    url = b"type.googleapis.com/envoy.config.core.v3.TypedExtensionConfig"
    bad = extension(filter_name(0).encode(), text(1, b"\x08\x09"))
    with proxy(program, 1) as it:
        answer, _ = it.judge(frame(text(1, b"1") + text(2, any_of(url, bad)) + text(4, url) + text(5, b"1")))
        if not it.is_refused():
            raise RuntimeError("the program takes a filter whose action does not exist")
        return len(answer)


def decided(program):
    """The processor time of one request of 11 fields, by a filter of 256 policies with conditions; requests are pipelined."""
    fields = "".join(f"{name}: {value}\r\n" for name, value in serving_peers.FIELDS.items())
    head = f"GET {serving_peers.TARGET} HTTP/1.1\r\nHost: bench.example\r\n{fields}\r\n".encode()
    with proxy(program, 1) as it:
        it.judge(response_frame(1, serving_peers.POLICIES))
        found = []
        with socket.create_connection(("127.0.0.1", it.port), PATIENCE) as peer:
            size = answer_bytes(peer, head) * HEADS
            for _ in range(BLOCKS):
                before = processor_seconds(it.process.pid)
                peer.sendall(head * HEADS)
                peer.recv(size, socket.MSG_WAITALL)
                found.append((processor_seconds(it.process.pid) - before) / HEADS)
        return min(found)


def answer_bytes(peer, head):
    """The bytes of an answer without a body; it has to let the request through."""
    peer.sendall(head)
    answer = b""
    while not answer.endswith(b"\r\n\r\n"):
        answer += peer.recv(1)
    if not answer.startswith(b"HTTP/1.1 200 "):
        raise RuntimeError(f"the program answers {answer}")
    return len(answer)


def fitted(rows):
    """Least squares, weighed by one over the value: seconds = a + b * filters + c * filters * policies. None is below zero."""
    matrix = [[1.0, filters, filters * policies] for (filters, policies), _ in rows]
    weights = [1 / seconds ** 2 for _, seconds in rows]
    sums = [[sum(weight * row[i] * row[j] for weight, row in zip(weights, matrix)) for j in range(3)]
            + [sum(weight * row[i] * seconds for weight, row, (_, seconds) in zip(weights, matrix, rows))] for i in range(3)]
    return [max(it, 0.0) for it in solved(sums)]


def solved(rows):
    """The solution of linear equations, by elimination; the last number of each row is its right side."""
    rows, count = [list(row) for row in rows], len(rows)
    for at in range(count):
        rows[at:] = sorted(rows[at:], key=lambda row: -abs(row[at]))
        for other in range(count):
            if other != at:
                share = rows[other][at] / rows[at][at]
                rows[other] = [theirs - share * ours for theirs, ours in zip(rows[other], rows[at])]
    return [rows[at][count] / rows[at][at] for at in range(count)]


def version(program):
    return subprocess.run([program, "--version"], check=True, capture_output=True, text=True).stdout.strip()


def machine():
    """The processor's name."""
    names = [line.partition(":")[2].strip() for line in pathlib.Path("/proc/cpuinfo").read_text().splitlines()
             if line.startswith("model name")]
    return names[0] if names else platform.machine()


def measure(program, say=lambda _: None):
    """The costs of the program on this machine."""
    rows, first, ack = [], 0, 0
    for filters, policies in SIZES:
        seconds, first_bytes, ack = judged(program, filters, policies)
        first = first or first_bytes
        rows.append(((filters, policies), seconds))
        say(f"{filters} filters of {policies} policies: {seconds * 1000:.3f} ms")
    parts = fitted(rows)
    for (filters, policies), seconds in rows:
        fit = parts[0] + filters * (parts[1] + policies * parts[2])
        say(f"{filters} filters of {policies} policies: {fit * 1000:.3f} ms by the fit, {fit / seconds:.2f} of what was measured")
    return Costs(first, ack, refused(program), *parts, decided(program), version(program), machine())
