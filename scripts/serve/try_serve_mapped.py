"""A server behind a front proxy: the client's request is taken from named fields, and odd paths are refused."""
import json
import time

from loopback import heard
from replays import ANY_ANY, F, METHOD_IS_GET, PLAIN, UNREADY, allowed, answer, closing, denied, request, told, without_body
from try_serve_base import equals, field, filter_of, number, policy, text, whole
from try_serve_records import replayed

YES, NO = allowed(b"0", 1), denied(b"-", 1)
BAD = answer(b"400 Bad Request", b"none", b"-", 1)
LARGE = answer(b"431 Request Header Fields Too Large", b"none", b"-", 1)
TRUE = b"\x10\x01"


def asks(*lines, line=b"GET /auth HTTP/1.1"):
    """A request of the front with these lines."""
    return b"".join(it + b"\r\n" for it in (line, b"Host: front", *lines, b""))


def condition(root, name, constant):
    return filter_of(policy(condition=equals(root, name, constant)))


def from_range(address, length):
    """A filter that lets through requests that come from a range of addresses."""
    return filter_of(policy(principal=field(11, field(1, address) + field(2, b"\x08" + number(length)))))


def directly_from(address, length):
    """The same for connections."""
    return filter_of(policy(principal=field(10, field(1, address) + field(2, b"\x08" + number(length)))))


# a member of `map`, what it is, a filter, a value that the filter lets through, one that it does not, and unreadable ones
MEMBERS = (
    ("method", "x-f", condition(b"request", b"method", text(b"PUT")), b"PUT", b"put", (b"", b"A B", b"A/B", b"A,B")),
    ("target", "x-f", condition(b"request", b"path", text(b"/a?b,c")), b"/a?b,c", b"/a", (b"", b"a", b"*", b"http://h/", b"/a b")),
    ("host", "x-f", condition(b"request", b"host", text(b"h:80")), b"h:80", b"front", (b"", b"a b")),
    ("scheme", "x-f", condition(b"request", b"scheme", text(b"https")), b"https", b"http", (b"", b"HTTPS", b"ftp", b"https,http")),
    ("remote_ip", "x-f", from_range(b"10.0.0.0", 8), b"10.1.2.3", b"11.0.0.1",
     (b"", b"10.1", b"10.1.2.3:80", b"[::1]", b"10.1.2.3, 10.1.2.4", b"unknown")),
    ("remote_ip", "x-f", from_range(b"2001:db8::", 32), b"2001:db8::7", b"2001:db9::", (b"[2001:db8::7]", b"2001:db8::7%1")),
    ("direct_remote_ip", "x-f", directly_from(b"10.0.0.0", 8), b"10.1.2.3", b"127.0.0.1", (b"", b"10.1.2.3,")),
    ("source.port", "x-f", condition(b"source", b"port", whole(4321)), b"4321", b"4322", (b"", b"+1", b"65536", b"x", b"-1")),
    ("mtls", {"field": "x-f", "is": "SUCCESS"}, condition(b"connection", b"mtls", TRUE), b"SUCCESS", b"success", ()),
    ("requested_server_name", "x-f", condition(b"connection", b"requested_server_name", text(b"a b")), b"A b", b"a", ()),
    ("subject_peer_certificate", "x-f", condition(b"connection", b"subject_peer_certificate", text(b"CN=a,O=b")), b"CN=a,O=b",
     b"CN=a", ()),
    ("dns_san_peer_certificate", "x-f", condition(b"connection", b"dns_san_peer_certificate", text(b"a.b")), b"a.b", b"a.c", ()),
    ("uri_san_peer_certificate", "x-f", condition(b"connection", b"uri_san_peer_certificate", text(b"spiffe://a")), b"spiffe://a",
     b"spiffe://b", ()))


def members(case):
    """Each member of `map`: what it lets through, and its faults, after each of which the connection is served on."""
    for name, names, content, good, other, unreadable in MEMBERS:
        server, _, _ = case.ready(content, map={name: names})
        yes, no = asks(b"x-f: " + good), asks(b"X-F: " + other)
        turns = [(yes, YES), (no, NO), (asks(), BAD), (asks(b"x-f: " + good, b"X-F: " + good), BAD), (yes, YES),
                 (asks(b"x-f: " + other, b"a: b", b"x-f: " + good), BAD), (asks(b"x-g: " + good), BAD)]
        turns += [(asks(b"x-f: " + value), BAD) for value in unreadable]
        server.answers(f"{name}: {good}", [*turns, (no + asks() + yes, NO + BAD + YES)])
        server.stop()


# a place from the right, a list, and the answer to requests from 10.0.0.0/8
LISTS = (
    (1, b"10.0.0.1", YES), (1, b"11.0.0.1, 10.0.0.1", YES), (1, b"10.0.0.1, 11.0.0.1", NO), (1, b"10.0.0.1,11.0.0.1", NO),
    (1, b"10.0.0.1, 10.0.0.2, 11.0.0.1", NO), (1, b"10.0.0.1, x", BAD), (1, b"x, 10.0.0.1", YES), (1, b"10.0.0.1,", BAD),
    (1, b"", BAD), (1, b"10.0.0.1 11.0.0.1", BAD), (1, b"evil,,,10.0.0.1", YES), (2, b"10.0.0.1", BAD),
    (2, b"10.0.0.1, 11.0.0.1", YES), (2, b"11.0.0.1, 10.0.0.1", NO), (2, b"10.0.0.1, 11.0.0.1, 12.0.0.1", NO),
    (2, b"11.0.0.1, 10.0.0.1, 12.0.0.1", YES), (3, b"10.0.0.1, 11.0.0.1", BAD),
    # an IPv4 address that is written as one of IPv6 is one of IPv4
    (1, b"::ffff:10.0.0.1", BAD), (1, b"::ffff:a00:1", YES), (1, b"0:0:0:0:0:FFFF:0A00:0001", YES), (1, b"::ffff:b00:1", NO),
    (1, b"::fffe:a00:1", NO))


def lists(case):
    """A list of addresses is read from the right: what a client puts on the left of it changes nothing."""
    for hops in (1, 2, 3):
        server, _, _ = case.ready(from_range(b"10.0.0.0", 8), map={"remote_ip": {"field": "x-forwarded-for", "hops": hops}})
        turns = [(asks(b"x-forwarded-for: " + value), wanted) for place, value, wanted in LISTS if place == hops]
        two = asks(b"x-forwarded-for: 10.0.0.1", b"x-forwarded-for: 10.0.0.1")
        server.answers(f"{hops} hops", [*turns, (two, BAD), *turns[:1]])
        server.stop()


def required(case):
    """Fields that have to be there: one or several of each, and their lines stay."""
    has_x_user = filter_of(policy(permission=field(4, field(1, b"x-user") + field(4, b"a"))))
    server, _, _ = case.ready(has_x_user, require=["x-user", "x-trace"])
    good = asks(b"X-User: a", b"x-trace:")
    server.answers("required", [(good, YES), (asks(b"x-user: b", b"x-trace: t"), NO), (asks(b"x-user: a"), BAD),
                                (asks(b"x-trace: a"), BAD), (asks(), BAD), (asks(b"x-user: a", b"x-trace: 1", b"x-trace: 2"), YES),
                                (good, YES)])


FULL = {"method": "x-method", "target": "x-uri", "host": "x-host"}


def whole_request(case):
    """Named fields leave the request; all other lines stay, also those that frame it."""
    def named(name, value):
        return filter_of(policy(permission=field(4, field(1, name) + value)))
    present, absent = b"\x38\x01", b"\x38\x01\x40\x01"
    lines = (b"x-method: POST", b"x-uri: /u", b"x-host: h", b"a: 1", b"A: 2", b"content-length: 0", b"Connection: keep-alive")
    for name, value, wanted in (
            (b":method", field(4, b"POST"), YES), (b":path", field(4, b"/u"), YES), (b":authority", field(4, b"h"), YES),
            (b"host", absent, YES), (b"x-method", present, NO), (b"x-uri", present, NO), (b"x-host", present, NO),
            (b"a", field(4, b"1,2"), YES), (b"content-length", field(4, b"0"), YES), (b"connection", field(4, b"keep-alive"), YES)):
        server, _, _ = case.ready(named(name, value), map=FULL)
        server.answers(f"{name} {value}", [(asks(*lines), wanted)])
        server.stop()


def framing(case):
    """What a front sends decides how its connection goes on, whatever the client's method is."""
    server, _, _ = case.ready(METHOD_IS_GET, map={"method": "x-method"})

    def by(method, mapped, *lines, version=b"1.1"):
        return asks(b"x-method: " + mapped, *lines, line=method + b" / HTTP/" + version)
    get, post, head = by(b"GET", b"GET"), by(b"GET", b"POST"), by(b"GET", b"HEAD")
    server.answers("GET for HEAD has a body", [(head, NO), (head + get, NO + YES)])
    server.answers("HEAD for GET and POST has none", [(by(b"HEAD", b"GET"), YES), (by(b"HEAD", b"POST"), without_body(NO)),
                                                     (by(b"HEAD", b"POST") + get, without_body(NO) + YES)])
    server.answers("pipelined", [(get * 20 + post * 20 + asks() * 3 + get, YES * 20 + NO * 20 + BAD * 3 + YES)])
    peer = server.connect()
    for byte in post + asks() + get:
        peer.sendall(bytes([byte]))
        time.sleep(0.001)
    case.same("single bytes", heard(peer, len(NO + BAD + YES)), NO + BAD + YES)
    with_body = by(b"POST", b"GET", b"Content-Length: %d" % len(get))
    peer = server.answers("a body that looks like a request", [(with_body + get + post, YES + NO)])
    server.answers("a long body", [(by(b"POST", b"GET", b"content-length: 100000"), YES)], peer)
    for _ in range(100):
        peer.sendall(b"x" * 1000)
    server.answers("after it", [(get, YES), (with_body[:-2] + b"\r\n" + get + get, YES * 2)], peer)
    server.answers("a body after a fault", [(asks(b"content-length: 3", line=b"POST / HTTP/1.1") + b"abc" + get, BAD + YES)])
    server.ends("close", [(get, YES), (by(b"GET", b"GET", b"Connection: close") + get, closing(YES))])
    server.ends("close after a fault", [(asks(b"connection: close") + get, closing(BAD))])
    server.ends("HTTP/1.0", [(by(b"GET", b"GET", version=b"1.0"), closing(YES))])
    server.ends("HTTP/1.0 without Host", [(b"GET / HTTP/1.0\r\nx-method: POST\r\n\r\n", closing(NO))])
    for what, sent, status in (("no head", b"\x16\x03\x01", b"400 Bad Request"),
                               ("no Host", b"GET / HTTP/1.1\r\nx-method: GET\r\n\r\n", b"400 Bad Request"),
                               ("a coding", asks(b"transfer-encoding: chunked"), b"501 Not Implemented"),
                               ("no end", asks()[:-2] + b"a: " + b"b" * 65_537, b"431 Request Header Fields Too Large")):
        server.ends(what, [(get, YES), (sent, answer(status, b"none", b"-", 1, closes=True))])


def updates(case):
    """503 before the first policies, and each request is judged by the latest."""
    plane = case.plane()
    server = case.serve(plane.address, map={"method": "x-method"})
    stream = plane.accept()
    case.same("the first request", stream.frame(), request(F, node=True))
    get, post = asks(b"x-method: GET"), asks(b"x-method: POST")
    peer = server.answers("no policies", [(get, UNREADY), (asks(), told(BAD.replace(b"generation: 1", b"generation: 0"), 0))])
    stream.give(b"1", METHOD_IS_GET)
    server.answers("the first", [(get + post, YES + NO)], peer)
    peer.sendall(post[:20])
    stream.give(b"2", ANY_ANY)
    server.answers("amid a head", [(post[20:], allowed(b"0", 2))], peer)


# spellings of paths that an application could read as another one
ODD = (b"//", b"//a", b"/a//b", b"/a//", b"/./", b"/./a", b"/a/./b", b"/.", b"/a/.", b"/../", b"/../a", b"/a/../b", b"/..", b"/a/..",
       b"/%2e", b"/%2E", b"/a%2eb", b"/%2e%2e/a", b"/.%2E/a", b"/%2f", b"/a%2Fb", b"/%5c", b"/a%5Cb", b"/%00", b"/a%00.txt", b"/\\",
       b"/a\\b", b"/..\\a", b"/;", b"/a;b=c/d", b"/a/..;/b", b"/a/../b?c", b"/a//?b", b"/..?/", b"/#/../a", b"/a/.%00/")
# paths that only look so
PLAIN_PATHS = (b"/", b"/a", b"/a/", b"/a.b", b"/.a", b"/..a", b"/a..", b"/a.", b"/...", b"/a/.../b", b"/.well-known/x", b"/a?b=//c",
               b"/a?../..", b"/a?%2e%2f%5c%00;\\", b"/?/./", b"/%252e", b"/%25", b"/%2", b"/%20", b"/%2a", b"/%3b", b"/%7e", b"/a:b",
               b"/\xc3\xa4")


def paths(case):
    """`strict` refuses each odd path and no other, as it was sent or mapped; `as_sent` refuses none."""
    for what, settings, form in (("as it is sent", {"paths": "strict"}, lambda path: PLAIN.replace(b"/", path, 1)),
                                 ("mapped", {"paths": "strict", "map": {"target": "x-uri"}}, lambda path: asks(b"x-uri: " + path))):
        server, _, _ = case.ready(**settings)
        peer = server.connect()
        for path in ODD:
            server.answers(f"{what}: {path}", [(form(path), BAD), (form(b"/"), YES)], peer)
        for path in PLAIN_PATHS:
            server.answers(f"{what}: {path}", [(form(path), YES)], peer)
        server.stop()
    server, _, _ = case.ready(paths="as_sent")
    server.answers("as_sent", [(PLAIN.replace(b"/", path, 1), YES) for path in (*ODD, *PLAIN_PATHS)])
    server, _, _ = case.ready(paths="strict", map={"target": "x-uri"})
    server.answers("the front's own target does not count", [(asks(b"x-uri: /a", line=b"GET //x/../y HTTP/1.1"), YES)])


def limits(case):
    """A client's request or facts outside the limits are answered 431, and the connection is served on."""
    proxy = {"node": "n", "cluster": "c", "filters": [{"name": "f"}], "limits": {"target": 40, "method": 8, "text": 60}}
    names = {"target": "x-uri", "method": "x-method", "requested_server_name": "x-sni"}
    server, _, _ = case.ready(proxy=proxy, map=names)

    def mapped(target=b"/", method=b"GET", name=b"n"):
        return asks(b"x-uri: " + target, b"x-method: " + method, b"x-sni: " + name)
    good = mapped(b"/" + b"a" * 39, b"M" * 8, b"n" * 60)
    server.answers("limits", [(good, YES), (mapped(b"/" + b"a" * 40), LARGE), (good, YES), (mapped(method=b"M" * 9), LARGE),
                              (mapped(name=b"n" * 61), LARGE), (mapped(name=b"n" * 4000), LARGE), (good * 2, YES * 2)])
    server.ends("the front's own request", [(good, YES), (asks(line=b"GET /%s HTTP/1.1" % (b"a" * 40)),
                                                          answer(b"431 Request Header Fields Too Large", b"none", b"-", 1,
                                                                 closes=True))])


def logged(case):
    """The log of decisions has the client's request, and says why a request was refused; the metrics count each."""
    server, _, _ = case.ready(METHOD_IS_GET, map=FULL, paths="strict", require=["x-user"], access_log={"path": "log"})
    lines = (b"x-method: GET", b"x-uri: /u", b"x-host: h", b"x-user: a")
    turns = [(asks(*lines), YES), (asks(b"x-method: POST", *lines[1:]), NO), (asks(*lines[:3]), BAD), (asks(*lines[1:]), BAD),
             (asks(lines[0], *lines), BAD), (asks(lines[0], b"x-uri: u", *lines[2:]), BAD),
             (asks(lines[0], b"x-uri: /a/../b", *lines[2:]), BAD), (asks(lines[0], b"x-uri: //", *lines[2:]), BAD)]
    peer = server.answers("requests", turns)
    peer.sendall(b"GET x HTTP/1.1\r\n\r\n")
    heard(peer, 10_000)
    case.until("as many lines", lambda: len(server.logged("log")) >= len(turns) + 1)
    found = server.logged("log")
    keys = ("method", "target", "host", "verdict", "status", "policy")
    case.same("decisions", [[it[key] for key in keys] for it in found[:2]],
              [["GET", "/u", "h", "allow", 200, "p"], ["POST", "/u", "h", "deny", 403, None]])
    faults = [it["fault"] for it in found]
    words = (None, None, "missing", "missing", "more than one", "is not what", "..", "//", "does not begin with a slash")
    case.same("reasons", [word is it or word in it for word, it in zip(words, faults)], [True] * 9)
    case.same("statuses of faults", [(it["status"], it["verdict"]) for it in found[2:]], [(400, "none")] * 7)
    case.same("a path that is refused", [(it["method"], it["target"]) for it in found[6:8]], [("GET", "/a/../b"), ("GET", "//")])
    case.same("each request is a connection of its own", [it["connection"] for it in found], [1, 2, *[0] * 7])
    peer.close()
    case.until("it is closed", lambda: server.metrics()["rbacd_connections_open"] == 0)
    metrics = server.metrics()
    for name, wanted in (('rbacd_requests_total{verdict="allow"}', 1), ('rbacd_requests_total{verdict="deny"}', 1),
                         ('rbacd_requests_total{verdict="fault"}', 7), ('rbacd_head_faults_total{status="400"}', 7),
                         ("rbacd_connections_accepted_total", 1), ('rbacd_connections_closed_total{reason="served"}', 1)):
        case.same(name, metrics.get(name), wanted)


def recorded(case):
    """The replay of each mapped request gives the bytes that answered it."""
    server, _, stream = case.ready(METHOD_IS_GET, map={**FULL, "remote_ip": {"field": "x-for"}}, record={"path": "record"},
                                   access_log={"path": "log"})
    lines = (b"x-uri: /u", b"x-host: h", b"x-for: 9.9.9.9, 10.0.0.1")
    get, post = asks(b"x-method: GET", *lines), asks(b"x-method: POST", *lines)
    wanted = [YES, NO, YES, allowed(b"0", 2)]
    peer = server.answers("requests", [(get + post, YES + NO), (asks(), BAD), (get, YES)])
    stream.give(b"2", from_range(b"10.0.0.0", 8))
    server.answers("after an update", [(post, wanted[3])], peer)
    case.until("five lines", lambda: len(server.logged("log")) >= 5)
    time.sleep(0.1)
    found = [it for it in server.logged("log") if it["record"]]
    case.same("recorded", len(found), 4)
    events = [json.loads(line) for line in (case.folder / "record").read_bytes().split(b"\n")[:-1]]
    for line, bytes_of in zip(found, wanted):
        case.same("a replay", replayed(case, "record", line["connection"]), bytes_of)
        event = events[line["record"]["line"] - 1]
        head = bytes.fromhex(event["hex"])
        case.same("its line", (event["event"], event["k"]), ("http_bytes", line["connection"]))
        case.same("the mapped head", head, b"%s /u HTTP/1.1\r\nhost: h\r\n\r\n" % line["method"].encode())
    case.same("opened and closed", [sum(it["event"] == name for it in events) for name in ("http_open", "http_closed")], [4, 4])


def times(case):
    """A head that is not complete in time, a drain, and a client that does not read, as without a mapping."""
    server, _, _ = case.ready(METHOD_IS_GET, map={"method": "x-method"}, pending=4096, timeouts={"head": int(700 * case.scale)})
    get = asks(b"x-method: GET")
    idle, half = server.answers("before", [(get, YES)]), server.connect()
    half.sendall(get[:30])
    case.same("half a head", heard(half, 1), b"")
    deaf = server.connect()
    deaf.settimeout(0.2)
    try:
        while True:
            deaf.sendall(get * 1000)
    except OSError:
        pass
    case.holds("what waits is bounded", server.memory() < (24 << 20) * case.scale, server.memory())
    deaf.close()
    server.answers("it serves on", [(get, YES)], idle)
    begun = server.connect()
    begun.sendall(get[:30])
    time.sleep(0.1)
    case.same("/drain", server.fetch("/drain", "POST")[0], 200)
    server.answers("one that has begun", [(get[30:], YES)], begun)
    case.same("it ends", server.ended(), 0)


CASES = {f"mapped_{it.__name__}": it for it in (members, lists, required, whole_request, framing, updates, paths, limits, logged,
                                                 recorded, times)}
