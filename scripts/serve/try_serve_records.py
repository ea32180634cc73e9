"""The record of a server, which a replay judges again."""
import json
import subprocess
import time

from loopback import heard
from replays import ANY_ANY, NO_POLICY, PLAIN, TOO_LARGE, UNREADY, allowed, answer, denied, long_head, resource, response, told
from try_serve_base import ALLOW, BOTH, DENY, GET_AND_PUT, GET_YES, NO_POST, POST_NO, REFUSED, TWO, filter_with, method_is, policy

POST = PLAIN.replace(b"GET", b"POST")


def removed_record(case):
    """A record that is removed is told, and answers go on."""
    server, _, _ = case.ready(record={"path": "record"}, access_log={"path": "log"})
    peer = server.answers("before", [(PLAIN, allowed(b"0", 1))])
    (case.folder / "record").unlink()
    server.answers("after", [(PLAIN, allowed(b"0", 1))], peer)
    path = case.folder / "record"
    case.until("it is told, or there is a new file", lambda: "record" in server.errors.read_text() or path.exists())


def whole_lines(case, record):
    """The lines of a file of the record; one that is not whole is left out."""
    text = (case.folder / record).read_bytes()
    return text[:text.rfind(b"\n") + 1]


def events(case, record):
    """The events of a file of the record."""
    return [json.loads(line) for line in whole_lines(case, record).splitlines()]


def replayed(case, record, number):
    """What the replay of a connection out of a file of the record answers."""
    status, out, errors = case.run("replay", "--config", "proxy.json", "--connection", number, given=whole_lines(case, record))
    case.same(f"the replay of {number} out of {record}", (status, errors), (0, b""))
    return b"".join(bytes.fromhex(line.split()[2].replace("-", "")) for line in out.decode().splitlines())


def requests(case, record):
    """The requests that the replay of a file of the record sends on the update stream."""
    status, out, errors = case.run("replay", "--config", "proxy.json", given=whole_lines(case, record))
    case.same(f"the replay of {record}", (status, errors), (0, b""))
    return [bytes.fromhex(line.split()[0]) for line in out.decode().splitlines() if line.split()[0] != "-"]


def numbers(case, server):
    """The number of each connection, by its client's port."""
    return {int(line["peer"].rsplit(":", 1)[1]): line["connection"] for line in server.logged("log")}


def record(case):
    """The replay of each connection gives the bytes that its client got: amid updates of one filter, faults and resets of the
    stream."""
    plane = case.plane()
    server = case.serve(plane.address, proxy=TWO, record={"path": "record"}, access_log={"path": "log"})
    peers, got = [server.connect() for _ in range(12)], {}

    def turn(number, sent, wanted):
        server.answers(f"connection {number}", [(sent, wanted)], peers[number])
        got[number] = got.get(number, b"") + wanted
    turn(0, PLAIN, UNREADY)
    stream = plane.accept()
    stream.frame()
    stream.give(b"1", NO_POST, GET_AND_PUT, names=BOTH)
    for number in range(12):
        turn(number, PLAIN + POST, GET_YES + POST_NO)
    stream.give(b"2", REFUSED, names=[ALLOW])
    peers[1].sendall(PLAIN[:11])
    stream.close()
    stream = plane.accept()
    stream.frame()
    stream.give(b"3", filter_with(all=method_is(b"DELETE"), gets=policy()), names=[ALLOW])
    turn(1, PLAIN[11:] + POST, allowed(b"-,1", 2) + denied(b"0", 2))
    for byte in POST[:-2] + b"Content-Length: 3\r\n\r\nabc":
        peers[2].sendall(bytes([byte]))
    turn(2, b"", denied(b"0", 2))
    turn(3, b"GET x HTTP/1.1\r\nHost: h\r\n\r\n", answer(b"400 Bad Request", b"none", b"-", 2, closes=True))
    peers[4].close()
    turn(5, long_head(65_537), told(TOO_LARGE, 2))
    case.until("all are logged", lambda: len(numbers(case, server)) == 12 and len(server.logged("log")) == 30)
    time.sleep(0.1)
    found = numbers(case, server)
    for number, peer in enumerate(peers):
        if number != 4:
            it = found[peer.getsockname()[1]]
            case.same(f"connection {number}", replayed(case, "record", it), got[number])
    lines = (case.folder / "record").read_bytes().split(b"\n")
    for line in server.logged("log"):
        event = json.loads(lines[line["record"]["line"] - 1])
        case.same("the line that a decision names", (event["event"], event["k"]), ("http_bytes", line["connection"]))


# updates of one filter each, with the match of a GET after it
UPDATES = ((ALLOW, filter_with(deletes=method_is(b"DELETE"), gets=policy()), b"-,1"),
           (DENY, filter_with(denies=True, deletes=method_is(b"DELETE")), b"-,1"),
           (ALLOW, GET_AND_PUT, b"-,0"), (DENY, NO_POST, b"-,0"))


def rotation(case):
    """Each file of a record suffices for what it has: it begins with the policies of both filters, also if the last response gave
    those of one."""
    server, _, stream = case.ready_both(record={"path": "record", "bytes": 65_536, "files": 99}, access_log={"path": "log"})
    peers = [server.connect() for _ in range(4)]
    got = [b""] * 4
    version, match = 1, b"-,0"
    for turn in range(60):
        if turn % 10 == 9:
            name, content, match = UPDATES[version % 4 - 1]
            version += 1
            stream.give(b"%d" % version, content, names=[name])
        for number, peer in enumerate(peers):
            padded = PLAIN[:-2] + b"a: %s\r\n\r\n" % (b"x" * 1000)
            half = turn % 2 and number == 3
            server.answers("a request", [(padded, allowed(match, version))] if not half else [], peer)
            if half:
                peer.sendall(padded[:500])
                time.sleep(0.01)
                server.answers("a half", [(padded[500:], allowed(match, version))], peer)
            got[number] += allowed(match, version)
    case.until("all are logged", lambda: len(server.logged("log")) == 240)
    files = sorted((it.name for it in case.folder.glob("record*")), key=lambda it: -int(it[7:] or 0))
    case.holds("there are several files", len(files) > 3, files)
    found = numbers(case, server)
    for number, peer in enumerate(peers):
        it = found[peer.getsockname()[1]]
        parts = [replayed(case, name, it) for name in files]
        case.same(f"connection {number}", b"".join(parts), got[number])
        case.holds("the last file has some of it", number == 3 or parts[-1], [len(part) for part in parts])
    late = server.answers("a late one", [(PLAIN, allowed(match, version))])
    port = late.getsockname()[1]
    case.until("it is logged", lambda: port in numbers(case, server))
    case.same("the last file alone", replayed(case, "record", numbers(case, server)[port]), allowed(match, version))
    last = max(server.logged("log"), key=lambda line: (line["record"]["file"], line["record"]["line"]))["record"]
    case.same("the number of the last file", last["file"], len(files))


def amid_bodies(case):
    """A client that never stops between two requests: each piece that it sends has the end of a body, a head and the beginning of a
    body. New files of the record have its requests all the same, and replay to what it got."""
    server, _, _ = case.ready(record={"path": "record", "bytes": 65_536, "files": 99}, access_log={"path": "log"})
    head, first, rest = POST[:-2] + b"Content-Length: 2000\r\n\r\n", b"a" * 900, b"\r\n\r\n" + b"b" * 1_096
    peer = server.answers("the first one", [(head + first, allowed(b"0", 1))])
    for _ in range(99):
        server.answers("one amid bodies", [(rest + head + first, allowed(b"0", 1))], peer)
    case.until("all are logged", lambda: len(server.logged("log")) == 100)
    files = sorted((it.name for it in case.folder.glob("record*")), key=lambda it: -int(it[7:] or 0))
    case.holds("there are several files", len(files) > 3, files)
    parts = [replayed(case, name, numbers(case, server)[peer.getsockname()[1]]) for name in files]
    case.same("the connection", b"".join(parts), allowed(b"0", 1) * 100)
    case.holds("each file has some of it", all(parts), [len(part) for part in parts])
    places = {line["record"]["file"] for line in server.logged("log")}
    case.same("the files of the lines", places, set(range(1, len(files) + 1)))


def body_of_lines(case):
    """A body of empty lines, with its head and the next request in one piece: it is recorded in a few lines, and not in one for each."""
    server, _, _ = case.ready(record={"path": "record"})
    head = POST[:-2] + b"Content-Length: 100000\r\n\r\n"
    peer = server.answers("two requests", [(head + b"\n" * 100_000 + PLAIN, allowed(b"0", 1) * 2)])
    server.answers("one more", [(PLAIN, allowed(b"0", 1))], peer)
    case.until("all is recorded", lambda: replayed(case, "record", 0) == allowed(b"0", 1) * 3)
    lines = [it for it in events(case, "record") if it["event"] == "http_bytes"]
    case.holds("in a few lines", len(lines) < 100, len(lines))


def long_body(case):
    """A body goes on in an old file of the record until that has twice its bytes. The next request is in the newest file."""
    server, _, _ = case.ready(record={"path": "record", "bytes": 65_536})
    head = POST[:-2] + b"Content-Length: 1000000\r\n\r\n"
    peer = server.answers("the head", [(head, allowed(b"0", 1))])
    for _ in range(100):
        peer.sendall(b"a" * 10_000)
        time.sleep(0.002 * case.scale)
    server.answers("the next one", [(PLAIN, allowed(b"0", 1))], peer)
    case.until("it is recorded", lambda: replayed(case, "record", 0) == allowed(b"0", 1))
    sizes = {it.name: it.stat().st_size for it in case.folder.glob("record*")}
    case.holds("the old file has its end", sizes.keys() == {"record", "record.1"} and 131_072 <= sizes["record.1"] < 400_000, sizes)
    case.same("the old file", replayed(case, "record.1", 0), allowed(b"0", 1))


def fed(case, record):
    """The bytes of the update stream in a file of the record."""
    return b"".join(bytes.fromhex(it["hex"]) for it in events(case, record) if it["event"] == "ads_bytes")


def lost_streams(case):
    """A lost update stream is recorded, and begins the next file as lost. Both files then replay to what the control plane got."""
    plane = case.plane("c")
    server = case.serve(plane.address, record={"path": "record"})
    stream = plane.accept()
    got = [stream.frame(), stream.give(b"1", ANY_ANY)]
    part = response(b"2", b"n2", resource(b"f", NO_POLICY))[:100]
    stream.peer.sendall(part)
    case.until("a part of a response is recorded", lambda: fed(case, "record").endswith(part))
    plane.listener.close()
    (case.folder / "c").unlink()
    stream.close()
    case.until("the loss is recorded", lambda: events(case, "record")[-1] == {"event": "ads_lost"})
    case.same("/reopen", server.fetch("/reopen", "POST")[0], 200)
    case.until("there is a new file", lambda: (case.folder / "record.1").exists())
    case.same("it ends as lost", events(case, "record")[-1], {"event": "ads_lost"})
    stream = case.plane("c").accept()
    later = [stream.frame(), stream.give(b"2", NO_POLICY)]
    case.until("the next response is recorded", lambda: b"".join(requests(case, "record")).endswith(b"".join(later)))
    for name, wanted in (("record.1", got), ("record", got + later)):
        case.same(f"the requests of {name}", requests(case, name), wanted)
        states = [it["event"] for it in events(case, name) if it["event"] != "ads_bytes"]
        case.same(f"the streams of {name}", states, ["ads_up", "ads_lost"] + ["ads_up"] * (name == "record"))


def full_record(case):
    """Lines of the record that cannot be written wait, up to 1 MiB. Further ones are dropped and counted, and answers go on. Once
    there is room, a new file begins."""
    server, _, _ = case.ready_both(limit="--fsize=100000:unlimited", record={"path": "record"})
    peer, count = server.connect(), 0
    padded = PLAIN[:-2] + b"a: %s\r\n\r\n" % (b"x" * 4000)

    def dropped():
        return server.metrics()["rbacd_log_lines_dropped_total"]
    while count < 400 and (count % 20 or not dropped()):
        server.answers("an answer", [(padded, GET_YES)], peer)
        count += 1
    for _ in range(20):
        server.answers("an answer after that", [(padded, GET_YES)], peer)
    case.until("the record is named", lambda: "cannot write record: File too large" in server.errors.read_text())
    subprocess.run(["prlimit", "--pid", str(server.process.pid), "--fsize=unlimited:unlimited"], check=True)
    case.until("there is a new file", lambda: (case.folder / "record.1").exists())
    lines = [it for it in events(case, "record.1") if it["event"] == "http_bytes"]
    case.until("each request that is not recorded is a line", lambda: dropped() >= count + 20 - len(lines) > 0)
    case.same("what waited was written", {it["hex"] for it in lines}, {padded.hex()})
    server.answers("an answer to the new file", [(PLAIN, GET_YES)], peer)
    case.until("it is recorded", lambda: events(case, "record")[-1].get("hex") == PLAIN.hex())
    case.same("its replay", replayed(case, "record", 0), GET_YES)


CASES = {it.__name__: it for it in (removed_record, record, rotation, amid_bodies, body_of_lines, long_body, lost_streams, full_record)}
