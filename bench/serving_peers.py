"""The servers that bench/serving measures, and the heads that they are sent."""
import contextlib
import json
import os
import pathlib
import shutil
import socket
import subprocess
import sys
import tempfile
import threading

from expressions import both, call, checked, ident, string
from loopback import free_port
from messages import entry, extension, filter_of, frame, response, text
from tenants import tenant_policy

HERE = pathlib.Path(__file__).resolve().parent
POLICIES = 256
LAST = POLICIES - 1
# the usual one is too small for so many conditions
BUDGET = 100_000_000
TARGET = f"/svc{LAST:03d}/item?id=7"
# with Host 11 fields
FIELDS = {
    "User-Agent": "bench/1", "Accept": "*/*", "Accept-Encoding": "gzip, deflate, br", "Accept-Language": "en-GB,en;q=0.8",
    "X-Request-Id": "5f2c1e9a-7b7d-4f64-9d0a-1c3f5b7d9e11", "X-Forwarded-For": "192.0.2.17", "X-Forwarded-Proto": "https",
    "X-User": f"user{LAST:03d}", "X-Tenant": f"tenant{LAST:03d}", "Cookie": "session=4b1d9a60c2e84f7d8a35",
}
NGINX = """
daemon off; worker_processes 1; pid {folder}/pid; error_log stderr;
{user}events {{ worker_connections 1024; }}
http {{
  access_log off; keepalive_requests 1000000000;
  client_body_temp_path {folder}/body; proxy_temp_path {folder}/proxy; fastcgi_temp_path {folder}/fastcgi;
  uwsgi_temp_path {folder}/uwsgi; scgi_temp_path {folder}/scgi;
  {servers}
}}
"""
ALLOWS_ALL = "server {{ listen {listen}; location / {{ return 200; }} }}"
# Asks the authoriser at a Unix socket, as examples/fronts/nginx.conf does, and answers with a file of its own. The same for each one.
FRONT = """
  upstream judge {{ server unix:{socket}; keepalive 64; keepalive_requests 1000000000; }}
  server {{
    listen 127.0.0.1:{port};
    root {folder};
    location / {{
      auth_request /_judge;
      auth_request_set $match $upstream_http_x_rbac_match;
      add_header x-rbac-match $match;
      try_files /page =404;
    }}
    location = /_judge {{
      internal;
      proxy_pass http://judge$request_uri;
      proxy_method $request_method;
      proxy_http_version 1.1;
      proxy_set_header Connection "";
      proxy_set_header Host $http_host;
      proxy_set_header X-Real-IP $remote_addr;
      proxy_pass_request_body off;
      proxy_set_header Content-Length "";
    }}
  }}
"""
DONE = """
done = function(summary, latency)
  local errors = summary.errors
  local sum = errors.connect + errors.read + errors.write + errors.status + errors.timeout
  io.write(string.format("figures %d %d %d %d\\n", summary.requests, summary.duration, latency:percentile(99), sum))
end
"""


def heads():
    """wrk's script: the fields of each head, and the figures in one line."""
    return "".join(f'wrk.headers["{name}"] = "{value}"\n' for name, value in FIELDS.items()) + DONE


def condition(number):
    """request.method != "DELETE" && request.headers["x-tenant"] == "tenantNNN"."""
    tenant = call(b"_[_]", ident(b"request.headers"), string(b"x-tenant"))
    return checked(both(call(b"_!=_", ident(b"request.method"), string(b"DELETE")),
                        call(b"_==_", tenant, string(b"tenant%03d" % number))))


def policies():
    """The filter: the policies of the tenants, each with a condition."""
    return filter_of(entry(b"r%03d" % number, tenant_policy("path", number) + text(4, condition(number)))
                     for number in range(POLICIES))


def work():
    return pathlib.Path(os.environ.get("BENCH_WORK") or pathlib.Path(tempfile.gettempdir(), "vupresal-bench")).resolve()


@contextlib.contextmanager
def process(*words, **more):
    it = subprocess.Popen([*map(str, words)], stdin=subprocess.DEVNULL, stdout=subprocess.PIPE, stderr=subprocess.PIPE, **more)
    try:
        yield it
    finally:
        it.terminate()
        it.wait()


class Rbacd:
    """`rbacd serve`, with a control plane that has one response."""

    name, match = "rbacd", str(LAST)

    def __init__(self, program):
        self.program = program

    @contextlib.contextmanager
    def started(self, folder):
        port = free_port()
        with self.listening(folder, f"127.0.0.1:{port}") as it:
            yield it, port

    @contextlib.contextmanager
    def listening(self, folder, address):
        with socket.create_server(("127.0.0.1", 0)) as listener:
            threading.Thread(target=self.control, args=(listener,), daemon=True).start()
            proxy = {"node": "n", "cluster": "c", "filters": [{"name": "f", "budget": BUDGET}]}
            config = {"proxy": proxy, "facts": {}, "listen": address,
                      "control": f"127.0.0.1:{listener.getsockname()[1]}", "update_log": str(folder / "updates")}
            (folder / "config").write_text(json.dumps(config))
            with process(self.program, "serve", "--config", folder / "config") as it:
                yield it

    def control(self, listener):
        """Sends the response, and keeps the stream open."""
        with contextlib.suppress(OSError), listener.accept()[0] as stream:
            stream.recv(1 << 16)
            stream.sendall(frame(response(b"1", [extension(b"f", policies())], b"1")))
            while stream.recv(1 << 16):
                pass


@contextlib.contextmanager
def nginx(folder, servers):
    """One worker, with these servers; as root it runs as root, so that it reaches sockets of mode 0600."""
    user = "user root; " if os.geteuid() == 0 else ""
    (folder / "nginx.conf").write_text(NGINX.format(folder=folder, servers=servers, user=user))
    own = work() / "nginx/usr/sbin/nginx"
    with process(own if own.exists() else "nginx", "-p", folder, "-c", folder / "nginx.conf") as it:
        yield it


class Nginx:
    name, match = "nginx", None

    @contextlib.contextmanager
    def started(self, folder):
        port = free_port()
        with self.listening(folder, f"127.0.0.1:{port}") as it:
            yield it, port

    def listening(self, folder, address):
        return nginx(folder, ALLOWS_ALL.format(listen=address))


class Fronted:
    """nginx in front of an authoriser, which it asks about each request."""

    def __init__(self, authoriser):
        self.authoriser, self.match = authoriser, authoriser.match
        self.name = f"nginx asking {authoriser.name}"

    @contextlib.contextmanager
    def started(self, folder):
        port, below = free_port(), folder / "below"
        below.mkdir(exist_ok=True)
        socket_file = below / "judge.sock"
        socket_file.unlink(missing_ok=True)
        (folder / "page").write_text("a page\n")
        with self.authoriser.listening(below, f"unix:{socket_file}"), nginx(folder, FRONT.format(folder=folder, socket=socket_file, port=port)) as it:
            yield it, port


class Go:
    """The authorizer in Go, with as many processors as it takes by itself, or with one."""

    match = str(LAST)

    def __init__(self, program, processors=None):
        self.program, self.processors = program, processors
        self.name = f"Go, GOMAXPROCS={processors}" if processors else "Go"

    @contextlib.contextmanager
    def started(self, folder):
        port = free_port()
        environment = {name: value for name, value in os.environ.items() if not name.startswith("GO")}
        if self.processors:
            environment["GOMAXPROCS"] = str(self.processors)
        with process(self.program, f"127.0.0.1:{port}", cwd=folder, env=environment) as it:
            yield it, port


def servers(program, folder):
    """The servers in the order in which they are measured; ends the program where one is missing."""
    authorizer = folder / "authorizer_go"
    if subprocess.run([HERE / "build_go", HERE / "peers/authorizer_go", authorizer]).returncode:
        sys.exit(2)
    return [Rbacd(program), Nginx(), Go(authorizer), Go(authorizer, 1)]


def fronted(program):
    """nginx in front of `rbacd serve`, and in front of another nginx that allows everything."""
    return [Fronted(Rbacd(program)), Fronted(Nginx())]


def need_tools():
    """Ends the program where nginx or wrk is missing."""
    if not shutil.which("wrk") or not (shutil.which("nginx") or (work() / "nginx").exists()):
        print("bench: wrk or nginx is not there: run bench/setup", file=sys.stderr)
        sys.exit(2)
