"""What a server tells of itself: the admin port, the metrics, and the logs."""
import contextlib
import json
import os
import re
import shutil
import socket
import subprocess
import time

from loopback import heard
from replays import ANY_ANY, METHOD_IS_GET, NO_POLICY, PLAIN, TOO_LARGE, allowed, denied, field, long_head, told
from try_serve_base import ALLOW, BOTH, DELETE_NO, DENY, GET_AND_PUT, GET_YES, NO_POST, POST_NO, PUT_YES, REFUSED, TWO, policy

POST, PUT, DELETE = (PLAIN.replace(b"GET", name) for name in (b"POST", b"PUT", b"DELETE"))
MATCH = re.compile(r'rbacd_matches_total\{filter="(\w+)",policy="(\w+)"\}')
TIME = re.compile(r"\d{4}-\d\d-\d\dT\d\d:\d\d:\d\d(\.\d+)?Z")


def filters(server):
    """The filters of `/config`: name, budget, and the version, the bound and the names of the policies."""
    found = json.loads(server.fetch("/config")[1])["filters"]
    return [(it["name"], it["budget"], (it["policies"]["version"], it["policies"]["bound"], it["policies"]["names"])
             if it["policies"] else None) for it in found]


def admin(case):
    """The paths of the admin port, with two filters."""
    plane = case.plane()
    server = case.serve(plane.address, proxy=TWO)
    stream = plane.accept()
    stream.frame()
    case.same("/healthz", server.fetch("/healthz")[0], 200)
    case.same("/ready before", server.fetch("/ready"), (503, b"no policies yet: deny\nno policies yet: allow\n"))
    stream.give(b"v1", GET_AND_PUT, names=[ALLOW])
    case.same("/ready with one", server.fetch("/ready"), (503, b"no policies yet: deny\n"))
    case.same("/config with one", filters(server), [("deny", 1_000_000, None), ("allow", 50_000, ("v1", 40, ["gets", "puts"]))])
    stream.give(b"v2", NO_POST, names=[DENY])
    case.same("/ready", server.fetch("/ready"), (200, b"ready\n"))
    stream.give(b"v3", NO_POST, REFUSED, names=BOTH)
    status, body = server.fetch("/config")
    value = json.loads(body)
    case.same("/config", (status, value["generation"], value["version"]), (200, 2, "v2"))
    case.same("both filters", filters(server),
              [("deny", 1_000_000, ("v2", 0, ["posts"])), ("allow", 50_000, ("v1", 40, ["gets", "puts"]))])
    case.same("the last refusal", [value["refusal"][it] for it in ("version", "number", "name", "filter")],
              ["v3", 3, "UnknownField", "allow"])
    case.same("an unknown path", server.fetch("/x")[0], 404)
    for path, method in (("/drain", "GET"), ("/reopen", "GET"), ("/metrics", "POST"), ("/config", "DELETE")):
        case.same(f"{method} {path}", server.fetch(path, method)[0], 405)
    for host, wanted in (("evil.example", 403), ("localhost.evil.example", 403), ("127.0.0.1.evil.example", 403),
                         ("127.0.0.1", 200), (f"localhost:{server.admin}", 200), ("[::1]", 200)):
        for path in ("/config", "/metrics", "/"):
            case.same(f"{path} of the host {host}", server.fetch(path, host=host)[0], wanted)
    case.holds("a host that is none", server.fetch("/config", host="127.0.0.1:1@evil.example")[0] in (400, 403))
    case.same("a foreign host drains nothing", server.fetch("/drain", "POST", host="evil.example")[0], 403)
    case.same("a foreign page drains nothing", server.fetch("/drain", "POST", Origin="http://evil.example")[0], 403)
    case.same("nor a file", server.fetch("/drain", "POST", Origin="null")[0], 403)
    server.answers("it serves on", [(PLAIN, allowed(b"-,0", 2))])
    status, body = server.fetch("/")
    case.same("the page", (status, b"http://" in body.replace(b"http://www.w3.org", b""), b"https://" in body), (200, False, False))
    large = b"GET /healthz HTTP/1.1\r\nHost: localhost\r\n" + b"a: b\r\n" * 9000 + b"\r\n"
    for text in (b"GARBAGE\r\n\r\n", large, b"\0" * 99, b"GET"):
        with socket.create_connection(("127.0.0.1", server.admin), 10 * case.scale) as peer:
            with contextlib.suppress(OSError):
                peer.sendall(text)
                peer.shutdown(socket.SHUT_WR)
            case.holds(f"{text[:9]} is not answered with 200", b" 200 " not in heard(peer, 15))
    case.same("it is well", server.fetch("/healthz")[0], 200)


def admin_waits(case):
    """Visitors of the admin port who say nothing take no processor time, and hold up nobody else for long."""
    server, _, _ = case.ready()
    quiet = [socket.create_connection(("127.0.0.1", server.admin), 10 * case.scale) for _ in range(24)]
    for peer in quiet:
        case.ends.callback(peer.close)
        peer.sendall(b"GET / HT")
    time.sleep(0.3)
    spent = server.processor_time(1)
    case.holds("it does not spin", spent < 0.25, spent)
    server.answers("it serves on", [(PLAIN, allowed(b"0", 1))])
    for peer in quiet:
        peer.close()
    case.same("it is well", server.fetch("/healthz")[0], 200)


def matches(found):
    """How often each policy of each filter matched."""
    return {tuple(MATCH.fullmatch(name).groups()): it for name, it in found.items() if MATCH.fullmatch(name)}


def metrics(case):
    """The metrics are what the case did, and Prometheus' own checker takes their text."""
    server, plane, stream = case.ready_both()
    turns = [(PLAIN * 3, GET_YES * 3), (POST * 2, POST_NO * 2), (PUT + DELETE, PUT_YES + DELETE_NO)]
    server.answers("some", turns).close()
    fault = server.connect()
    fault.sendall(b"GET x HTTP/1.1\r\nHost: h\r\n\r\n")
    heard(fault, 10_000)
    fault.close()
    server.answers("too large", [(long_head(65_537), told(TOO_LARGE, 1))]).close()
    stream.give(b"2", REFUSED, names=[ALLOW])
    peer = server.answers("one more", [(PLAIN, GET_YES)])
    case.until("all are closed but one", lambda: server.metrics()["rbacd_connections_open"] == 1)
    found = server.metrics()
    for name, wanted in (
            ('rbacd_requests_total{verdict="allow"}', 5), ('rbacd_requests_total{verdict="deny"}', 3),
            ('rbacd_requests_total{verdict="fault"}', 2), ('rbacd_requests_total{verdict="unready"}', 0),
            ('rbacd_requests_total{verdict="memory"}', 0), ('rbacd_head_faults_total{status="400"}', 1),
            ('rbacd_head_faults_total{status="431"}', 1),
            ("rbacd_connections_open", 1), ("rbacd_connections_accepted_total", 4), ("rbacd_connections_refused_total", 0),
            ('rbacd_connections_closed_total{reason="served"}', 3), ("rbacd_stream_up", 1),
            ('rbacd_responses_total{result="accepted"}', 1), ('rbacd_responses_total{result="refused"}', 1),
            ("rbacd_admission_seconds_count", 2), ("rbacd_generation", 1), ("rbacd_ready", 1),
            ("rbacd_log_lines_dropped_total", 0)):
        case.same(name, found.get(name), wanted)
    case.same("matches", matches(found), {("deny", "posts"): 2, ("allow", "gets"): 4, ("allow", "puts"): 1})
    case.until("the memory is told", lambda: 0.5 < server.metrics()["rbacd_resident_memory_bytes"] / server.memory() < 2)
    if shutil.which("promtool"):
        text = server.fetch("/metrics")[1]
        checked = subprocess.run(["promtool", "check", "metrics"], input=text, capture_output=True)
        case.same("promtool", (checked.returncode, checked.stdout, checked.stderr), (0, b"", b""))
    server.answers("one in 64 decisions", [(PLAIN * 64, GET_YES * 64)], peer)
    case.same("steps", [server.metrics()[f'rbacd_condition_steps_count{{filter="{it}"}}'] for it in ("deny", "allow")], [0, 1])
    stream.give(b"3", NO_POLICY, names=[ALLOW])
    case.same("matches of policies that were replaced, and of others", matches(server.metrics()), {("deny", "posts"): 2})
    server.answers("and no more match", [(PLAIN, denied(b"-,-", 2))], peer)
    stream.close()
    plane.listener.close()
    case.until("the stream is down", lambda: server.metrics()["rbacd_stream_up"] == 0)


def names(case):
    """Names of any text, in the metrics and as JSON."""
    odd = 'a"b\\c\nd{}=,\u00e4\u202e'
    proxy = {"node": odd, "cluster": "c", "filters": [{"name": odd}]}
    plane = case.plane()
    server = case.serve(plane.address, proxy=proxy, access_log={"path": "log"})
    stream = plane.accept()
    stream.frame()
    stream.give(odd.encode(), field(1, field(2, field(1, odd.encode()) + field(2, policy()))), names=[odd.encode()])
    server.answers("an answer", [(PLAIN, allowed(b"0", 1))])
    label = 'a\\"b\\\\c\\nd{}=,\u00e4\u202e'
    case.same("a label", server.metrics().get(f'rbacd_matches_total{{filter="{label}",policy="{label}"}}'), 1)
    if shutil.which("promtool"):
        checked = subprocess.run(["promtool", "check", "metrics"], input=server.fetch("/metrics")[1], capture_output=True)
        case.same("promtool", (checked.returncode, checked.stderr), (0, b""))
    value = json.loads(server.fetch("/config")[1])
    found = value["filters"][0]
    case.same("/config", (value["version"], found["name"], found["policies"]["names"]), (odd, odd, [odd]))
    case.until("it is logged", lambda: [(it["filter"], it["policy"]) for it in server.logged("log")] == [(odd, odd)])
    case.same("the log of updates", [it["version"] for it in server.logged() if "update" in it], [odd])
    case.same("a filter without policies", server.fetch("/ready"), (200, b"ready\n"))


def decisions(case):
    """Each decision is a line of JSON, with the filter that decided. One in n of the allowed is logged, and each other one."""
    server, _, stream = case.ready_both(access_log={"path": "log"})
    peer = server.connect()
    name = "127.0.0.1:%d" % peer.getsockname()[1]
    odd = POST.replace(b"/", "/\u00e4?\"".encode(), 1)
    server.answers("requests", [(PLAIN, GET_YES), (odd, POST_NO), (PUT, PUT_YES), (DELETE, DELETE_NO)], peer)
    peer.sendall(b"GET x HTTP/1.1\r\nHost: h\r\n\r\n")
    heard(peer, 10_000)
    case.until("five lines", lambda: len(server.logged("log")) >= 5)
    each = {"connection": 0, "peer": name, "host": "h", "target": "/", "generation": 1, "fault": None, "record": None}
    yes, no = {**each, "verdict": "allow", "status": 200}, {**each, "verdict": "deny", "status": 403}
    wanted = [{**yes, "method": "GET", "filter": "allow", "policy": "gets"},
              {**no, "method": "POST", "target": "/\u00e4?\"", "filter": "deny", "policy": "posts"},
              {**yes, "method": "PUT", "filter": "allow", "policy": "puts"},
              {**no, "method": "DELETE", "filter": "allow", "policy": None}]
    lines = server.logged("log")
    case.same("their members", [{key: it for key, it in line.items() if key != "time"} for line in lines[:4]], wanted)
    case.holds("their times", all(TIME.fullmatch(line["time"]) for line in lines), lines)
    case.same("a fault", [lines[4][it] for it in ("verdict", "status", "method", "filter", "policy")],
              ["none", 400, None, None, None])
    case.holds("its cause", lines[4]["fault"])
    os.rename(case.folder / "log", case.folder / "old")
    os.rename(case.folder / "updates", case.folder / "old_updates")
    server.answers("to the file that was renamed", [(PLAIN, GET_YES)])
    case.until("six lines", lambda: len(server.logged("old")) == 6)
    case.same("/reopen", server.fetch("/reopen", "POST")[0], 200)
    case.until("a new file", lambda: (case.folder / "log").exists())
    stream.give(b"2", NO_POLICY, names=[ALLOW])
    server.answers("to the new one", [(PLAIN, denied(b"-,-", 2))])
    case.until("one line", lambda: len(server.logged("log")) == 1)
    case.same("none is lost", [len(server.logged(it)) for it in ("old", "log", "updates")], [6, 1, 2])
    server, _, _ = case.ready(METHOD_IS_GET, access_log={"path": "sampled", "sample": 10})
    server.answers("many", [(PLAIN * 100 + POST * 7, allowed(b"0", 1) * 100 + denied(b"-", 1) * 7)])
    case.until("17 lines", lambda: len(server.logged("sampled")) >= 17)
    lines = server.logged("sampled")
    case.same("one in ten", [line["verdict"] for line in lines].count("allow"), 10)
    case.same("the only filter", {(line["filter"], line["policy"]) for line in lines}, {("f", "p"), ("f", None)})


def full_disk(case):
    """A log that cannot be written: answers go on, and standard error tells it."""
    server, _, _ = case.ready(access_log={"path": "/dev/full"})
    for _ in range(3):
        server.answers("an answer", [(PLAIN * 100, allowed(b"0", 1) * 100)]).close()
    case.until("it is told", lambda: "/dev/full" in server.errors.read_text())
    case.holds("once", server.errors.read_text().count("/dev/full") == 1, server.errors.read_text())
    server.answers("more than waits", [(PLAIN * 500, allowed(b"0", 1) * 500)] * 11)
    case.until("lines are counted", lambda: server.metrics()["rbacd_log_lines_dropped_total"] > 0)


def unread_errors(case):
    """Standard error that nobody reads holds up no answer."""
    plane = case.plane()
    end, start = os.pipe()
    case.ends.callback(os.close, end)
    with os.fdopen(start, "wb") as pipe:
        server = case.serve(plane.address, update_log=None, errors=pipe)
    stream = plane.accept()
    stream.frame()
    stream.peer.settimeout(2 * case.scale)
    for number in range(700):
        if not case.holds(f"response {number} is answered", stream.give(b"v" * 100, ANY_ANY)):
            break
    peer = server.connect()
    peer.settimeout(2 * case.scale)
    peer.sendall(PLAIN)
    case.same("an answer", heard(peer, 102)[:15], b"HTTP/1.1 200 OK")


CASES = {it.__name__: it for it in (admin, admin_waits, metrics, names, decisions, full_disk, unread_errors)}
