"""The application behind a front, its clients, and `rbacd serve` below it: for examples/fronts/try."""
import contextlib
import http.client
import http.server
import json
import pathlib
import random
import signal
import socket
import socketserver
import subprocess
import sys
import time

HERE = pathlib.Path(__file__).resolve().parent
POLICY = HERE.parent.parent / "tools" / "policy" / "policy"
PATIENCE = 20


class Application(http.server.BaseHTTPRequestHandler):
    """Says in JSON what it was sent, and counts it."""

    protocol_version = "HTTP/1.1"
    asked = 0

    def body(self):
        if "chunked" not in self.headers.get("Transfer-Encoding", ""):
            return self.rfile.read(int(self.headers.get("Content-Length", 0)))
        text = b""
        while size := int(self.rfile.readline(), 16):
            text += self.rfile.read(size)
            self.rfile.readline()
        self.rfile.readline()
        return text

    def answer(self):
        type(self).asked += 1
        said = {"method": self.command, "target": self.path, "body": self.body().decode(),
                "fields": [[name.lower(), value] for name, value in self.headers.items()]}
        text = json.dumps(said).encode()
        self.send_response(200)
        self.send_header("Content-Length", str(len(text)))
        self.end_headers()
        self.wfile.write(text)

    do_GET = do_POST = do_PATCH = answer

    def log_message(self, *words):
        pass


class Server(socketserver.ThreadingMixIn, http.server.HTTPServer):
    daemon_threads, request_queue_size = True, 256

    def handle_error(self, request, client_address):
        if not isinstance(sys.exc_info()[1], ConnectionError):
            super().handle_error(request, client_address)


def free_port():
    """A port above 20000 at which nobody listens."""
    while True:
        port = random.randint(20001, 32000)
        with contextlib.suppress(OSError), socket.create_server(("127.0.0.1", port)):
            return port


def until(is_so, patience=PATIENCE):
    """Waits until it is so; False if that takes too long."""
    end = time.monotonic() + patience
    while not is_so():
        if time.monotonic() > end:
            return False
        time.sleep(0.05)
    return True


class Authoriser:
    """`rbacd serve` at a TCP socket that this process holds, as systemd does; its control plane is a file."""

    def __init__(self, program, folder, settings):
        self.program, self.folder, self.process = program, folder, None
        self.listener = socket.create_server(("127.0.0.1", 0), backlog=1024)
        self.port = self.listener.getsockname()[1]
        text = (HERE / settings).read_text()
        for place in ("/etc/rbacd", "/var/log/rbacd"):
            text = text.replace(place, str(folder))
        it = {**json.loads(text), "admin": None, "backoff": {"first": 100, "greatest": 200}}
        self.mapped, self.required = list(it["map"].values()), it["require"]
        (folder / "serve.json").write_text(json.dumps(it))

    def start(self):
        words = ["/bin/sh", "-c", f'exec 3<&{self.listener.fileno()}; exec "$@"', "sh", self.program, "serve", "--config", "serve.json"]
        self.process = subprocess.Popen(words, cwd=self.folder, pass_fds=[self.listener.fileno()], stdin=subprocess.DEVNULL,
                                        stderr=open(self.folder / "errors", "ab"))
        if not until(lambda: self.is_answering() or self.process.poll() is not None) or self.process.poll() is not None:
            sys.exit(f"try: rbacd does not begin\n{(self.folder / 'errors').read_text()}")

    def is_answering(self):
        with contextlib.suppress(OSError, IndexError):
            return self.straight([]) > 0
        return False

    def publish(self, name, version):
        """Writes a response with the filter beside the file, and renames it."""
        filter_file, new = self.folder / "filter.bin", self.folder / "policies.new"
        subprocess.run([POLICY, "encode", HERE / f"{name}.yaml", "-o", filter_file], check=True)
        wrapped = subprocess.run([POLICY, "wrap", "--name", "f", "--version", version, filter_file], check=True, stdout=subprocess.PIPE)
        new.write_bytes(wrapped.stdout[5:])
        new.rename(self.folder / "policies.bin")

    def last_judged(self):
        """Target and host of the last request in the access log."""
        lines = []
        until(lambda: lines.append((self.folder / "access.log").read_text()) or len(lines) > 1 and lines[-1] == lines[-2])
        last = json.loads(lines[-1].splitlines()[-1])
        return [last["target"], last["host"]]

    def judged(self):
        """The lines of the access log that are whole."""
        return [json.loads(line) for line in (self.folder / "access.log").read_text().splitlines(True) if line.endswith("\n")]

    def straight(self, fields):
        """The status of a request at its own socket, with these fields."""
        with socket.create_connection(("127.0.0.1", self.port), PATIENCE) as it:
            it.sendall("".join(["GET / HTTP/1.1\r\nHost: h\r\n", *(f"{name}: {value}\r\n" for name, value in fields), "\r\n"]).encode())
            return int(it.makefile("rb").readline().split()[1])

    def send(self, number):
        if self.process and self.process.poll() is None:
            self.process.send_signal(number)

    def end(self):
        self.send(signal.SIGKILL)
        self.process.wait()


class Client:
    """One connection of a client, which is kept."""

    def __init__(self, port, address="127.0.0.1"):
        self.peer = http.client.HTTPConnection("127.0.0.1", port, timeout=PATIENCE, source_address=(address, 0))

    def ask(self, target, method="GET", fields=(), body=None):
        """The status, and what the application was sent if it was asked."""
        has_host = any(name == "Host" for name, _ in fields)
        self.peer.putrequest(method, target, skip_host=has_host, skip_accept_encoding=True)
        for name, value in [*fields, *([("Content-Length", len(body))] if body else [])]:
            self.peer.putheader(name, value)
        self.peer.endheaders(body)
        answer = self.peer.getresponse()
        text = answer.read()
        return answer.status, json.loads(text) if answer.status == 200 and text else None
