"""Tests: words, places, TLS, and rbacd as the client."""
import asyncio
import socket
import subprocess

import grpc
from control import RESOURCE, Control, Request, response
from proxies import BRIDGE, Bridge, Rbacd
from relaying import FIRST, RULES, accepted

# a permission's field that rbacd does not take: `any: false`
REFUSED = bytes.fromhex("0a0f120d0a017012080a02180012021801")
# no rule applies, and each request is denied
DENIES = bytes.fromhex("0a00")


def said(*words):
    """The status of the bridge, and the last line of its standard error."""
    got = subprocess.run([BRIDGE, *words], capture_output=True, text=True, timeout=20)
    return got.returncode, got.stderr.splitlines()[-1]


async def refuses_words(trial):
    """Mistakes on the command line, and places that cannot be had."""
    for words, line in (
            (["--listen", "x", "--control", "h:1"], "bridge: error: argument --listen: x is neither HOST:PORT nor unix:PATH"),
            (["--listen", "127.0.0.1:0"], "bridge: error: the following arguments are required: --control"),
            (["--listen", "127.0.0.1:0", "--control", "h:1", "--most", "0"],
             "bridge: error: argument --most: 0 is no whole number from 1 to 100000"),
            (["--listen", "127.0.0.1:0", "--control", "h:1", "--tls-key", "f"],
             "bridge: error: --tls-cert and --tls-key need one another"),
            (["--listen", "127.0.0.1:0", "--control", "h:1", "--tls-name", "control.example"],
             "bridge: error: --tls-name has no meaning without TLS: it needs --tls, --tls-ca or --tls-cert"),
            (["--listen", "127.0.0.1:0", "--control", "h:1", "--first-message", "0"],
             "bridge: error: argument --first-message: 0 is no whole number from 1 to 3600"),
            (["--listen", "127.0.0.1:0", "--control", "h:1", "--tls-ca", "/none"], "bridge: cannot read /none: No such file or directory")):
        trial.same(words, said(*words), (2, line))
    with socket.create_server(("127.0.0.1", 0)) as taken:
        place = f"127.0.0.1:{taken.getsockname()[1]}"
        trial.same("a port that is taken", said("--listen", place, "--control", "h:1"), (2, None), contains=f"cannot listen at {place}")


async def takes_paths(trial):
    """A socket at which nobody listens is replaced; another one and a file are not."""
    path = trial.path()
    path.write_text("kept")
    words = "--listen", f"unix:{path}", "--control", "127.0.0.1:1"
    trial.same("a file", said(*words), (2, f"bridge: cannot listen at unix:{path}: it is no socket"))
    trial.same("the file", path.read_text(), "kept")
    path.unlink()
    with socket.socket(socket.AF_UNIX) as it:
        it.bind(str(path))
    _, bridge = await a_bridge(trial, "unix")
    trial.same("a second one", (await asyncio.to_thread(said, *words)), (2, f"bridge: cannot listen at unix:{path}: another program listens there"))
    trial.same("the status", await bridge.end(), 0)
    trial.same("the socket is gone", path.exists(), False)


async def a_bridge(trial, place, *words, credentials=None):
    control = Control()
    await control.start(credentials=credentials)
    trial.ends.push_async_callback(control.stop)
    bridge = await Bridge.start(trial.place(place), control.port, *words)
    trial.ends.push_async_callback(bridge.end)
    return control, bridge


def certificate(folder, name, authority=None):
    """A key and a certificate for localhost: its own authority, or signed by one."""
    key, cert = folder / f"{name}.key", folder / f"{name}.pem"
    words = ["openssl", "req", "-x509", "-newkey", "ec", "-pkeyopt", "ec_paramgen_curve:prime256v1", "-nodes", "-days", "2", "-subj",
             f"/CN={name}", "-addext", "subjectAltName=DNS:control.example", "-keyout", key, "-out", cert]
    if authority:
        words += ["-CA", folder / f"{authority}.pem", "-CAkey", folder / f"{authority}.key", "-addext", "basicConstraints=CA:FALSE"]
    subprocess.run(words, check=True, capture_output=True)
    return key, cert


async def speaks_tls(trial):
    """Both ends with certificates; an authority that did not sign, and a missing certificate, get no stream."""
    folder = trial.folder
    for name, authority in (("ca", None), ("other", None), ("server", "ca"), ("client", "ca")):
        certificate(folder, name, authority)
    read = {it: (folder / it).read_bytes() for it in ("ca.pem", "server.key", "server.pem")}
    server = grpc.ssl_server_credentials([(read["server.key"], read["server.pem"])], read["ca.pem"], True)
    own = ["--tls-cert", folder / "client.pem", "--tls-key", folder / "client.key"]
    name = ["--tls-name", "control.example"]
    for what, words, passes in (("both", ["--tls-ca", folder / "ca.pem", *own, *name], True),
                                ("another authority", ["--tls-ca", folder / "other.pem", *own, *name], False),
                                ("another name", ["--tls-ca", folder / "ca.pem", *own], False),
                                ("no certificate", ["--tls-ca", folder / "ca.pem", *name], False), ("no TLS", [], False)):
        control, bridge = await a_bridge(trial, "tcp", *map(str, words), credentials=server)
        proxy = await bridge.connect()
        await proxy.send(FIRST)
        if passes:
            stream = await control.next()
            trial.same(f"{what}: the first request", await stream.next(), FIRST)
            await stream.send(response("1", "n1"))
            trial.same(f"{what}: a response", await proxy.next(), response("1", "n1").SerializeToString())
        else:
            trial.same(f"{what}: the proxy's end", await proxy.next(), None)
            trial.same(f"{what}: streams", control.arrived.qsize(), 0)
        await bridge.end()
        await control.stop()


async def serves_rbacd(trial):
    """rbacd as the client: its first request, an acknowledgement, a refusal, a push, and a control plane that dies and is back."""
    if not trial.program:
        print("bridge: serves_rbacd: NOT RUN: no PROGRAM is named")
        return
    control, bridge = await a_bridge(trial, "unix")
    rbacd = Rbacd(trial.folder, trial.free_port(), trial.free_port())
    await rbacd.start(trial.program, bridge.place)
    trial.ends.push_async_callback(rbacd.end)
    stream = await control.next()
    first = Request(resource_names=["f"], type_url=RESOURCE, node={"id": "edge-1", "cluster": "edge"})
    trial.same("its first request", await stream.next(), first)
    trial.same("before policies", await rbacd.becomes(503), 503)
    await stream.send(response("1", "n1", [("f", RULES)]))
    trial.same("an acknowledgement", await stream.next(), accepted("1", "n1"))
    trial.same("after it", await rbacd.becomes(200), 200)
    await stream.send(response("2", "n2", [("f", REFUSED)]))
    request = await stream.next()
    trial.same("a refusal", (request.version_info, request.response_nonce, request.HasField("error_detail"), request.error_detail.code),
               ("1", "n2", True, 3))
    trial.same("after it", await rbacd.status(), 200)
    await stream.send(response("3", "n3", [("f", DENIES)]))
    trial.same("an acknowledgement", await stream.next(), accepted("3", "n3"))
    trial.same("after it", await rbacd.becomes(403), 403)
    await control.stop()
    trial.same("without a control plane", await rbacd.status(), 403)
    await control.start(control.port)
    again = Request()
    again.CopyFrom(first)
    again.version_info = "3"
    trial.same("its first request again", await (await control.next()).next(), again)


TESTS = [refuses_words, takes_paths, speaks_tls, serves_rbacd]
