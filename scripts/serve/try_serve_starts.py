"""How a server starts, and how it ends: its settings, its addresses, and its standard input."""
import json
import os
import socket
import stat
import subprocess
import time

from loopback import free_port, heard
from replays import F, PLAIN, allowed, denied, request, resource, response
from try_serve_base import TOP, equals, filter_of, policy, remote, text, timed_out, whole

PROXY = {"node": "n", "cluster": "c", "filters": [{"name": "f"}]}
LEAST = {"proxy": PROXY, "listen": "127.0.0.1:18080", "control": "127.0.0.1:18000"}

# settings that are mistaken, and the member that is named
BAD = [
    ({"proxy": None}, "proxy"), ({"proxy": {**PROXY, "node": 1}}, "proxy"), ({"proxy": {**PROXY, "filters": []}}, "proxy"),
    ({"proxy": {**PROXY, "limits": {"text": 1025}}}, "proxy"), ({"listen": None}, "listen"), ({"listen": []}, "listen"),
    ({"listen": "localhost"}, "listen"), ({"listen": "localhost:80"}, "listen"), ({"listen": 80}, "listen"),
    ({"listen": ["127.0.0.1:1", "127.0.0.1"]}, "listen[1]"), ({"listen": ["127.0.0.1:1"] * 17}, "listen"),
    ({"listen": "unix:"}, "listen"), ({"listen": "unix:" + "a" * 108}, "listen"), ({"listen": "fd:2"}, "listen"),
    ({"listen": "file:a"}, "listen"), ({"control": None}, "control"), ({"control": "127.0.0.1:0"}, "control"),
    ({"control": "fd:3"}, "control"), ({"control": "file:"}, "control"), ({"control": ["127.0.0.1:1"]}, "control"),
    ({"admin": 65536}, "admin"), ({"admin": "localhost:1"}, "admin"), ({"admin": True}, "admin"),
    ({"connections": 0}, "connections"), ({"connections": 100_001}, "connections"), ({"connections": 1.5}, "connections"),
    ({"connections": "9"}, "connections"), ({"pending": 0}, "pending"), ({"pending": -1}, "pending"),
    ({"timeouts": []}, "timeouts"), ({"timeouts": {"head": 0}}, "timeouts.head"), ({"timeouts": {"idle": None}}, "timeouts.idle"),
    ({"timeouts": {"write": 86_400_001}}, "timeouts.write"), ({"timeouts": {"heads": 1}}, "timeouts.heads"),
    ({"timeouts": {"first_response": "1"}}, "timeouts.first_response"), ({"timeouts": {"drain": 0}}, "timeouts.drain"),
    ({"backoff": {"first": 0}}, "backoff.first"), ({"backoff": {"first": 2, "greatest": 1}}, "backoff.first"),
    ({"backoff": {"greatest": 3_600_001}}, "backoff.greatest"), ({"nack_pause": -1}, "nack_pause"),
    ({"silence": 86_401}, "silence"), ({"stale_after": -1}, "stale_after"), ({"silence": 0.5}, "silence"),
    ({"access_log": {}}, "access_log.path"), ({"access_log": "log"}, "access_log"),
    ({"access_log": {"path": "a", "sample": 0}}, "access_log.sample"), ({"access_log": {"path": ""}}, "access_log.path"),
    ({"update_log": ""}, "update_log"), ({"record": {"bytes": 65_536}}, "record.path"),
    ({"record": {"path": "a", "bytes": 65_535}}, "record.bytes"), ({"record": {"path": "a", "files": 1001}}, "record.files"),
    ({"record": {"path": "log"}, "access_log": {"path": "./log"}}, "record.path"),
    ({"record": {"path": "log"}, "update_log": "log.3"}, "record.path"), ({"record": {"path": "./bad"}}, "record.path"),
    ({"record": {"path": "policies"}, "control": "file:policies"}, "record.path"), ({"update_log": "bad"}, "update_log"),
    ({"access_log": {"path": "policies"}, "control": "file:./policies"}, "access_log.path"),
    ({"until_eof": 1}, "until_eof"), ({"lisen": "127.0.0.1:1"}, "lisen"), ({"facts": {"x": 1}}, "facts"), ({"facts": []}, "facts"),
    ({"facts": {"source.address": "a" * 1025}}, "facts"), ({"facts": {"direct_remote_ip": "x"}}, "facts"),
    ({"map": []}, "map"), ({"map": {"verb": "x-a"}}, "map.verb"), ({"map": {"method": "X-A"}}, "map.method"),
    ({"map": {"method": ""}}, "map.method"), ({"map": {"method": ":method"}}, "map.method"), ({"map": {"method": 1}}, "map.method"),
    ({"map": {"method": "x-a", "target": "x-a"}}, "map.target"), ({"map": {"method": {"field": "x-a"}}}, "map.method"),
    ({"map": {"mtls": "x-a"}}, "map.mtls"), ({"map": {"mtls": {"field": "x-a"}}}, "map.mtls.is"),
    ({"map": {"mtls": {"is": "a"}}}, "map.mtls.field"), ({"map": {"mtls": {"field": "x a", "is": "a"}}}, "map.mtls.field"),
    ({"map": {"mtls": {"field": "x-a", "is": 1}}}, "map.mtls.is"), ({"map": {"mtls": {"field": "x-a", "was": ""}}}, "map.mtls.was"),
    ({"map": {"remote_ip": {"hops": 1}}}, "map.remote_ip.field"), ({"map": {"remote_ip": {"field": "x-a", "hops": 0}}}, "map.remote_ip.hops"),
    ({"map": {"remote_ip": {"field": "x-a", "hops": 1001}}}, "map.remote_ip.hops"),
    ({"map": {"remote_ip": {"field": "x-a", "left": 1}}}, "map.remote_ip.left"), ({"map": {"remote_ip": ["x-a"]}}, "map.remote_ip"),
    ({"require": "x-a"}, "require"), ({"require": None, "paths": None, "map": {"host": None}}, "map.host"), ({"require": [1]}, "require[0]"),
    ({"require": ["x-a", "X-B"]}, "require[1]"), ({"require": ["x-a", "x-a"]}, "require[1]"),
    ({"map": {"host": "x-a"}, "require": ["x-a"]}, "require[0]"), ({"paths": "Strict"}, "paths"), ({"paths": True}, "paths"),
    ({"path": "strict"}, "path")]

NAMES = "proxy, facts, listen, control, grpc, admin, connections, pending, timeouts, backoff, nack_pause, silence, stale_after, " \
        "access_log, update_log, record, until_eof, map, require, paths"
NO_HOSTS = "; names of hosts are not taken"
# settings with several mistakes, and all lines below `bad config`: the first mistake of each member, in the order of the members
SEVERAL = [
    ({"proxy": {}}, ["proxy: node is missing or not a text", "proxy: cluster is missing or not a text",
                     "proxy: filters is missing or not an array"]),
    ({"lisen": "127.0.0.1:1", "listen": None, "until_eof": 1}, [
        f'lisen: there is no member "lisen"; the members are {NAMES}', "listen: is missing", "until_eof: is not true or false"]),
    ({"control": "localhost:80", "grpc": {"method": "delta"}, "admin": "localhost:1", "connections": 0,
      "timeouts": {"head": 0, "idle": 0}, "facts": {"x": 1},
      "proxy": {"node": "n", "cluster": 1, "filters": [{"name": ""}, {"name": "f", "budget": 0}]}}, [
        'control: is not a text such as "127.0.0.1:8080", "unix:PATH", "file:PATH", "grpc://127.0.0.1:8080" or "grpc+unix:PATH"' + NO_HOSTS,
        'grpc.method: is neither "ads" nor "ecds"',
        'admin: is not null, a port number from 0 to 65535, or a text such as "127.0.0.1:8080" or "[::1]:8080"' + NO_HOSTS,
        "connections: is not a whole number from 1 to 100000", "timeouts.head: is not a whole number from 1 to 86400000",
        "proxy: cluster is missing or not a text", "proxy: filter 0: its name is not a text of 1 to 256 bytes",
        "proxy: filter 1: its budget is not a whole number from 1 to 100000000", 'facts: there is no fact "x"']),
    ({"proxy": None, "grpc": {}, "map": {"host": "x-a", "verb": "x-b"}, "require": ["X"], "paths": 1}, [
        "proxy: is missing", 'grpc: is only for a control plane "grpc://IP:PORT" or "grpc+unix:PATH"',
        'map.verb: there is no member "verb"; the members are method, target, host, scheme, remote_ip, direct_remote_ip, source.port, '
        "mtls, requested_server_name, subject_peer_certificate, dns_san_peer_certificate, uri_san_peer_certificate",
        'require[0]: is not the name of a field in lower case, such as "x-forwarded-uri"', 'paths: is neither "strict" nor "as_sent"']),
    ({"map": {"host": "x-a"}, "require": ["x-a"], "pending": 0}, [
        "pending: is not a whole number from 1 to 16777216", "require[0]: names a field that is named before"]),
    ({"a.b": 1, "a[0]": 1, "backoff": {"first": 2, "greatest": 1}}, [
        f'a.b: there is no member "a.b"; the members are {NAMES}', f'a[0]: there is no member "a[0]"; the members are {NAMES}',
        "backoff.first: is 2, which is above backoff.greatest, 1"])]


def check(case):
    """`--check` says what settings mean, and serves nothing."""
    case.config("least", LEAST)
    status, out, errors = case.run("serve", "--config", "least", "--check")
    case.same("the least settings", (status, errors), (0, b""))
    wanted = ['node "n"', 'cluster "c"', 'filter "f" budget 1000000 visits 4194304',
              "limits fields 64 name 128 value 4096 method 32 target 4096 text 1024", "listen 127.0.0.1:18080",
              "control 127.0.0.1:18000", "connections 1024", "until_eof false"]
    lines = out.decode().splitlines()
    case.same("what they mean", [line for line in wanted if line not in lines], [])
    names = {"listen", "control", "admin", "connections", "pending", "timeouts", "backoff", "nack_pause", "silence",
             "stale_after", "access_log", "update_log", "record", "until_eof"}
    case.same("each member has a line", names - {line.split()[0] for line in lines}, set())
    more = {"listen": ["127.0.0.1:1", "unix:s", "fd:3"], "control": "file:p", "admin": 18081, "connections": 7, "pending": 8,
            "timeouts": {"head": 11}, "backoff": {"first": 12, "greatest": 13}, "nack_pause": 0, "facts": {"connection.mtls": True},
            "access_log": {"path": "log", "sample": 14}, "update_log": "updates", "record": {"path": "r", "files": 15},
            "until_eof": True, "require": ["x-z"], "paths": "strict",
            "map": {"host": "x-host", "remote_ip": {"field": "x-for", "hops": 16}, "mtls": {"field": "x-verify", "is": "O K"}}}
    case.config("more", {**LEAST, **more})
    status, out, errors = case.run("serve", "--config", "more", "--check")
    case.same("more settings", (status, errors), (0, b""))
    lines = out.decode().splitlines()
    for words in ("listen 127.0.0.1:1", "listen unix:s", "listen fd:3", "control file:p", "admin 127.0.0.1:18081", "connections 7",
                  "pending 8", "head 11", "first 12", "greatest 13", "nack_pause 0", "sample 14", "files 15", "until_eof true",
                  "map host x-host", "map remote_ip x-for hops 16", 'map mtls x-verify is "O K"', "require x-z", "paths strict"):
        case.holds(f"--check says {words}", any(words in line for line in lines), lines)
    case.same("nothing was made", sorted(it.name for it in case.folder.iterdir()), ["least", "more"])


def examples(case):
    """The settings in `examples` are good. Those with two filters say so."""
    shown = {}
    for path in sorted((TOP / "examples").glob("**/*.json")):
        if "listen" in json.loads(path.read_text()):
            status, out, errors = case.run("serve", "--config", path, "--check")
            case.same(path.name, (status, errors), (0, b""))
            shown[path.name] = out.decode().splitlines()
    case.holds("all were tried", {"first.json", "serve.json", "serve_mapped.json", "serve_two.json"} <= set(shown), sorted(shown))
    filters = [line for line in shown["serve_two.json"] if line.startswith("filter ")]
    case.same("two filters", filters, ['filter "deny" budget 1000000 visits 4194304', 'filter "allow" budget 50000 visits 4194304'])


def bad_settings(case):
    """Each mistake has status 6, and the member is named."""
    for change, name in BAD:
        case.config("bad", {key: it for key, it in {**LEAST, **change}.items() if it is not None})
        for words in ((), ("--check",)):
            status, out, errors = case.run("serve", "--config", "bad", *words)
            lines = errors.decode().split("\n")
            case.same(f"{change} {words}", (status, out, lines[0], len(lines)), (6, b"", "bad config", 3))
            case.holds(f"{change}: {name} is named", lines[1].startswith(f"  {name}: "), lines)
    for content, word in (("[]", "configuration"), ("", "the file is empty"), ('{"proxy":', "JSON"), ("\u1b1b", "JSON")):
        case.config("bad", content)
        status, out, errors = case.run("serve", "--config", "bad")
        lines = errors.decode().split("\n")
        case.same(f"the text {content!r}", (status, out, lines[0], word in lines[1]), (6, b"", "bad config", True))
    status, out, errors = case.run("serve", "--config", "none", "--check")
    case.same("no file", (status, out, errors), (2, b"", b"cannot read none\n  No such file or directory (os error 2)\n"))
    case.same("no words", case.run("serve")[0], 2)
    case.same("an unknown word", case.run("serve", "--config", "bad", "--checks")[0], 2)


def several_mistakes(case):
    """All mistakes of a file are told at once: the first of each member, and at most 16."""
    for change, lines in SEVERAL:
        case.config("bad", {key: it for key, it in {**LEAST, **change}.items() if it is not None})
        for words in ((), ("--check",)):
            wanted = "".join(f"  {line}\n" for line in lines)
            case.same(f"{change} {words}", case.run("serve", "--config", "bad", *words), (6, b"", f"bad config\n{wanted}".encode()))
    case.config("bad", {**LEAST, **{f"x{number:02}": 1 for number in range(20)}, "until_eof": 1})
    wanted = "".join(f'  x{number:02}: there is no member "x{number:02}"; the members are {NAMES}\n' for number in range(16))
    case.same("20 unknown members", case.run("serve", "--config", "bad"), (6, b"", f"bad config\n{wanted}".encode()))


def strange_records(case):
    """What is at the path of the record and is no regular file stays there: status 2."""
    (case.folder / "folder").mkdir()
    os.mkfifo(case.folder / "pipe")
    (case.folder / "link").symlink_to("folder")
    for name in ("folder", "pipe", "link"):
        before = (case.folder / name).lstat()
        case.config("bad", {**LEAST, "listen": f"127.0.0.1:{free_port()}", "record": {"path": name}})
        status, out, errors = case.run("serve", "--config", "bad")
        case.same(f"a record at a {name}", (status, out), (2, b""))
        case.holds("its path and why", name in errors.decode() and "it is no regular file" in errors.decode(), errors)
        case.same("it is as it was", (case.folder / name).lstat()[:3], before[:3])


def addresses(case):
    """Addresses at which it cannot listen, and logs that cannot be written: status 2."""
    with socket.create_server(("127.0.0.1", 0)) as taken:
        place = "127.0.0.1:%d" % taken.getsockname()[1]
        for change, words in (({"listen": place}, place), ({"admin": place}, place), ({"listen": "fd:9"}, "fd:9"),
                              ({"listen": "unix:none/s"}, "none/s"), ({"access_log": {"path": "none/log"}}, "none/log"),
                              ({"update_log": "none/log"}, "none/log"), ({"record": {"path": "none/r"}}, "none/r")):
            case.config("bad", {**LEAST, "listen": f"127.0.0.1:{free_port()}", **change})
            status, out, errors = case.run("serve", "--config", "bad")
            case.same(f"{change}", (status, out), (2, b""))
            case.holds(f"{change}: {words} is named", words in errors.decode(), errors)


def unix_paths(case):
    """A Unix socket is its owner's alone. A stale one is replaced; one in use and a regular file stay."""
    plane = case.plane()
    path = case.folder / "s"
    with socket.socket(socket.AF_UNIX) as stale:
        stale.bind(str(path))
    server = case.serve(plane.address, listen="unix:s")
    stream = plane.accept()
    stream.frame()
    case.holds("it is a socket", path.is_socket())
    case.same("its mode", stat.S_IMODE(path.stat().st_mode), 0o600)
    case.same("nothing else is left", [it.name for it in case.folder.iterdir() if it.name.startswith("s.")], [])
    stream.give(b"1", filter_of(policy()))
    with server.connect_unix("s") as peer:
        server.answers("over a Unix socket", [(PLAIN, allowed(b"0", 1))], peer)
        case.config("second", {**LEAST, "listen": "unix:s"})
        status, out, errors = case.run("serve", "--config", "second")
        case.same("a socket in use", (status, out, b"unix:s" in errors), (2, b"", True))
        server.answers("it serves on", [(PLAIN, allowed(b"0", 1))], peer)
    (case.folder / "file").write_text("kept")
    case.config("third", {**LEAST, "listen": "unix:file"})
    status, out, errors = case.run("serve", "--config", "third")
    case.same("a regular file", (status, out, b"unix:file" in errors), (2, b"", True))
    case.same("it stays", (case.folder / "file").read_text(), "kept")
    server.stop()
    again = case.serve(plane.address, listen="unix:s")
    case.holds("after a kill it starts again", again.process.poll() is None)
    unix_path_lengths(case)


def unix_path_lengths(case):
    """A path that `--check` lets pass can be listened at, and a longer one is a mistake in the settings."""
    for length in (101, 102, 107):
        case.config("long", {**LEAST, "listen": "unix:" + "a" * length, "update_log": "updates", "until_eof": True})
        checked, served = (case.run("serve", "--config", "long", *words)[0] for words in (["--check"], []))
        case.holds(f"a path of {length} bytes", checked == served and (checked == 0 if length == 101 else checked in (0, 6)),
                   (checked, served))


def facts(case):
    """Addresses and ports of the peer decide; a Unix socket has none."""
    plane = case.plane()
    server = case.serve(plane.address, also="unix:s")
    port, stream = server.port, plane.accept()
    stream.frame()
    own, other = ("127.0.0.1", free_port()), ("127.0.0.2", free_port())
    name = b"127.0.0.1:%d" % own[1]
    everyone = field_or(remote(b"0.0.0.0", 0), remote(b"::", 0))
    for number, (what, content, verdicts) in enumerate((
            ("one address", policy(principal=remote(b"127.0.0.1", 32)), (True, False, False)),
            ("the other", policy(principal=remote(b"127.0.0.2", 32)), (False, True, False)),
            ("both", policy(principal=remote(b"127.0.0.0", 8)), (True, True, False)),
            ("a range without them", policy(principal=remote(b"10.0.0.0", 8)), (False, False, False)),
            ("every address", policy(principal=everyone), (True, True, False)),
            ("source.port", policy(condition=equals(b"source", b"port", whole(own[1]))), (True, False, False)),
            ("source.address", policy(condition=equals(b"source", b"address", text(name))), (True, False, False)),
            ("destination_port", policy(permission=b"\x30" + varint(port)), (True, True, False)),
            ("destination.port", policy(condition=equals(b"destination", b"port", whole(port))), (True, True, False)),
            ("mtls", policy(principal=b"\x22\x00"), (False, False, False)),
            ("https", policy(condition=equals(b"request", b"scheme", text(b"https"))), (False, False, False)),
            ("http", policy(condition=equals(b"request", b"scheme", text(b"http"))), (True, True, True))), 1):
        stream.give(b"%d" % number, filter_of(content))
        for who, verdict in zip((own, other, None), verdicts):
            with server.connect(who) if who else server.connect_unix("s") as peer:
                server.answers(f"{what}, {who}", [(PLAIN, allowed(b"0", number) if verdict else denied(b"-", number))], peer)
                peer.setsockopt(socket.SOL_SOCKET, socket.SO_LINGER, b"\1\0\0\0\0\0\0\0")


def field_or(*principals):
    """The principal that one of these is."""
    inner = b"".join(b"\x0a" + varint(len(it)) + it for it in principals)
    return b"\x12" + varint(len(inner)) + inner


def varint(value):
    return bytes([value]) if value < 128 else bytes([value & 127 | 128]) + varint(value >> 7)


def mapped_facts(case):
    """A peer of IPv4 at a socket of both families has its address of IPv4."""
    if not socket.has_dualstack_ipv6():
        return
    plane, port = case.plane(), free_port()
    server = case.serve(plane.address, listen=f"[::]:{port}", access_log={"path": "log"})
    server.port, stream = port, plane.accept()
    stream.frame()
    peer = server.connect()
    name = "127.0.0.1:%d" % peer.getsockname()[1]
    stream.give(b"1", filter_of(policy(principal=remote(b"127.0.0.1", 32))))
    server.answers("direct_remote_ip", [(PLAIN, allowed(b"0", 1))], peer)
    stream.give(b"2", filter_of(policy(condition=equals(b"source", b"address", text(name.encode())))))
    server.answers("source.address", [(PLAIN, allowed(b"0", 2))], peer)
    case.until("they are logged", lambda: len(server.logged("log")) == 2)
    case.same("the peer of the log", server.logged("log")[0]["peer"], name)


def no_streams(case):
    """Without standard streams no socket takes their place, so that no log goes to a peer."""
    plane = case.plane()
    for closed in ("<&-", ">&-", "2>&-", "<&- >&- 2>&-"):
        port = free_port()
        case.config("serve.json", {**LEAST, "listen": f"127.0.0.1:{port}", "control": plane.address})
        it = subprocess.Popen(["bash", "-c", f"exec {case.program} serve --config serve.json {closed}"], cwd=case.folder,
                              stdin=subprocess.DEVNULL, stdout=subprocess.DEVNULL, stderr=subprocess.DEVNULL)
        case.ends.callback(lambda it=it: (it.kill(), it.wait()))
        if it.poll() is None:
            stream = plane.accept()
            case.same(f"the first request, {closed}", stream.frame(), request(F, node=True))
            for number in range(1, 4):
                case.same("its acknowledgement", stream.give(b"%d" % number, filter_of(policy())),
                          request(F, b"%d" % number, b"n%d" % number))
                with socket.create_connection(("127.0.0.1", port), 10 * case.scale) as peer:
                    peer.sendall(PLAIN)
                    case.same("an answer", heard(peer, 100), allowed(b"0", number))


def known_facts(case):
    """`facts` says what is known of all connections."""
    known = {"request.scheme": "https", "connection.mtls": True}
    server, _, stream = case.ready(filter_of(policy(principal=b"\x22\x00")), facts=known)
    server.answers("mtls", [(PLAIN, allowed(b"0", 1))])
    stream.give(b"2", filter_of(policy(condition=equals(b"request", b"scheme", text(b"https")))))
    server.answers("https", [(PLAIN, allowed(b"0", 2))])
    stream.give(b"3", filter_of(policy(principal=remote(b"127.0.0.1", 32))))
    server.answers("the address of the peer as well", [(PLAIN, allowed(b"0", 3))])
    server.stop()
    unix_facts(case)


def unix_facts(case):
    """At a Unix socket addresses and ports come from `facts`. At a TCP socket they are the peer's."""
    known = {"source.address": "10.0.0.1:5", "source.port": 5, "direct_remote_ip": "10.0.0.1", "destination.port": 6}
    server, _, stream = case.ready(filter_of(policy(principal=remote(b"10.0.0.1", 32))), facts=known, also="unix:s")
    for number, content in enumerate((
            policy(principal=remote(b"10.0.0.1", 32)), policy(condition=equals(b"source", b"address", text(b"10.0.0.1:5"))),
            policy(condition=equals(b"source", b"port", whole(5))), policy(permission=b"\x30\x06")), 2):
        stream.give(b"%d" % number, filter_of(content))
        server.answers("at a Unix socket", [(PLAIN, allowed(b"0", number))], server.connect_unix("s"))
        server.answers("at a TCP socket", [(PLAIN, denied(b"-", number))])


def until_eof(case):
    """The end of standard input drains: what has begun is answered, and the status is 0."""
    server, _, _ = case.ready(until_eof=True)
    idle, busy = server.connect(), server.connect()
    server.answers("before the end", [(PLAIN, allowed(b"0", 1))], idle)
    busy.sendall(PLAIN[:10])
    time.sleep(0.3 * case.scale)
    server.process.stdin.write(b"not the end")
    server.process.stdin.flush()
    time.sleep(0.3)
    server.answers("bytes that are not the end", [(PLAIN, allowed(b"0", 1))], idle)
    server.process.stdin.close()
    case.same("an idle connection is closed", (heard(idle, 1), timed_out(idle)), (b"", False))
    server.answers("a request that has begun", [(PLAIN[10:], allowed(b"0", 1))], busy)
    case.same("it ends", server.ended(), 0)
    plane = case.plane()
    unheard = case.serve(plane.address)
    unheard.process.stdin.close()
    plane.accept()
    time.sleep(0.3)
    case.same("without until_eof its end does not count", unheard.process.poll(), None)
    case.config("null", {**LEAST, "listen": f"127.0.0.1:{free_port()}", "until_eof": True})
    case.same("an input that is empty", case.run("serve", "--config", "null")[0], 0)


def handed(case, listener, name="fd.json"):
    """Begins a process with these settings, whose descriptor 3 is the socket."""
    command = f"exec {case.program} serve --config {name} 3<&{listener.fileno()}"
    it = subprocess.Popen(["bash", "-c", command], cwd=case.folder, pass_fds=[listener.fileno()], stdin=subprocess.DEVNULL,
                          stderr=subprocess.PIPE)
    case.ends.callback(lambda: (it.kill(), it.communicate()))
    return it


def handed_socket(case):
    """A listening socket that is handed over as descriptor 3, shared by two processes: of TCP, and of Unix."""
    for number, listener in enumerate((socket.create_server(("127.0.0.1", 0)), unix_listener(case.folder / "handed"))):
        plane = case.plane()
        case.ends.callback(listener.close)
        case.config("fd.json", {**LEAST, "listen": "fd:3", "control": plane.address, "update_log": f"updates-{number}"})
        for _ in range(2):
            handed(case, listener)
            stream = plane.accept()
            stream.frame()
            stream.give(b"1", filter_of(policy()))
        for _ in range(20):
            with socket.socket(listener.family) as peer:
                peer.settimeout(10 * case.scale)
                peer.connect(listener.getsockname())
                peer.sendall(PLAIN)
                case.same(f"{listener.family.name}: an answer", heard(peer, 100), allowed(b"0", 1))


def unix_listener(path):
    """A Unix socket that listens at the path."""
    listener = socket.socket(socket.AF_UNIX)
    listener.bind(str(path))
    listener.listen(64)
    return listener


def handed_facts(case):
    """At a Unix socket that is handed over, addresses come from `facts`; a connection that waits before the start is answered."""
    listener = unix_listener(case.folder / "handed")
    case.ends.callback(listener.close)
    peer = socket.socket(socket.AF_UNIX)
    case.ends.callback(peer.close)
    peer.settimeout(10 * case.scale)
    peer.connect(listener.getsockname())
    known = filter_of(policy(principal=remote(b"192.0.2.0", 24), condition=equals(b"source", b"address", text(b"192.0.2.7:9"))))
    (case.folder / "policies").write_bytes(response(b"1", b"n1", resource(b"f", known))[5:])
    case.config("fd.json", {**LEAST, "listen": "fd:3", "control": "file:policies",
                            "facts": {"direct_remote_ip": "192.0.2.7", "source.address": "192.0.2.7:9"}})
    handed(case, listener)
    peer.sendall(PLAIN)
    case.same("an answer", heard(peer, 100), allowed(b"0", 1))


def not_listening(case):
    """What is handed over and does not listen is refused, with its name: a file, and sockets of other kinds."""
    connected, other = socket.socketpair()
    kinds = {"a file": open(case.folder / "a file", "w+b"), "a pair": connected, "one of Unix that does not listen": socket.socket(socket.AF_UNIX),
             "one of TCP that does not listen": socket.socket(), "one of UDP": socket.socket(type=socket.SOCK_DGRAM),
             "datagrams of Unix": socket.socket(socket.AF_UNIX, socket.SOCK_DGRAM)}
    case.ends.callback(other.close)
    case.config("fd.json", {**LEAST, "listen": "fd:3"})
    for what, it in kinds.items():
        case.ends.callback(it.close)
        said = handed(case, it)
        errors = said.communicate(timeout=30 * case.scale)[1]
        case.same(f"{what}: the status", said.returncode, 2)
        case.holds(f"{what}: the line", errors.startswith(b"cannot listen on fd:3: "), errors)


CASES = {it.__name__: it for it in (check, examples, bad_settings, several_mistakes, strange_records, addresses, unix_paths, facts,
                                    mapped_facts, known_facts, until_eof, handed_socket,
                                    handed_facts, not_listening, no_streams)}
