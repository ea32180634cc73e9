"""What a server says of a control plane that is silent, whose file is gone or faulty, or that leaves something open."""
import os
import time

from replays import ANY_ANY, FILTER, PLAIN, allowed, denied, field, resource, response, typed
from try_serve_base import BOTH, GET_AND_PUT, NO_POST, timed_out
from try_serve_updates import FIRST, put, settled

# a filter without policies, which denies each request
EMPTY = field(1, b"")


def streams(server):
    """What the log of updates says of the stream: words, and causes where there are some."""
    return [(it["stream"], it.get("cause", it.get("reason"))) for it in server.logged() if "stream" in it]


def causes(server, log):
    """The causes that a log of updates has."""
    return {it.get("cause") for it in server.logged(log)}


def gone_file(case):
    """A file that is removed, is no file, or is empty: one line, the metrics say so, and the policies stay."""
    put(case, FIRST[5:])
    server = case.serve("file:policies")
    peer = server.answers("it comes", [])
    settled(case, server, peer, "it comes", allowed(b"0", 1))
    case.same("it is up", (server.metrics()["rbacd_stream_up"], server.metrics()["rbacd_control_errors_total"]), (1, 0))
    put(case, None)
    case.until("it is logged", lambda: len(streams(server)) > 1)
    case.same("the line", streams(server), [("up", None), ("unreachable", "No such file or directory (os error 2)")])
    case.same("it is down", server.metrics()["rbacd_stream_up"], 0)
    first = server.metrics()["rbacd_control_errors_total"]
    case.until("each look counts", lambda: server.metrics()["rbacd_control_errors_total"] >= first + 2)
    case.same("one line in a minute", len(streams(server)), 2)
    case.holds("/config says so", b"unreachable" in server.fetch("/config")[1])
    case.same("the policies stay", server.fetch("/ready")[0], 200)
    server.answers("answers stay", [(PLAIN, allowed(b"0", 1))], peer)
    put(case, response(b"2", b"", resource(b"f", EMPTY))[5:])
    settled(case, server, peer, "it is back", denied(b"-", 2))
    case.until("it is logged", lambda: streams(server)[2:] == [("up", None)])
    case.same("it is up again", server.metrics()["rbacd_stream_up"], 1)
    put(case, b"")
    case.until("an empty file counts", lambda: server.metrics()["rbacd_stream_up"] == 0)
    server.answers("answers stay", [(PLAIN, denied(b"-", 2))], peer)
    put(case, FIRST[5:])
    settled(case, server, peer, "it has policies again", allowed(b"0", 3))
    case.until("it is up again", lambda: server.metrics()["rbacd_stream_up"] == 1)
    put(case, None)
    os.mkdir(case.folder / "policies")
    case.until("a folder counts", lambda: server.metrics()["rbacd_stream_up"] == 0)
    server.answers("answers stay", [(PLAIN, allowed(b"0", 3))], peer)
    case.same("neither is logged in the same minute", streams(server)[3:], [])
    spent = server.processor_time(1)
    case.holds("it does not spin", spent < 0.25, spent)
    server.stop()
    os.rmdir(case.folder / "policies")
    put(case, b"")
    server = case.serve("file:policies", update_log="empty")
    case.until("an empty file at the start", lambda: "the file is empty" in causes(server, "empty"))
    os.remove(case.folder / "policies")
    os.mkdir(case.folder / "policies")
    server.stop()
    server = case.serve("file:policies", update_log="folder")
    case.until("a folder is no file", lambda: "it is no regular file" in causes(server, "folder"))


def silent_plane(case):
    """A stream without a byte for `silence` ends and is connected again; after `stale_after` the server is not ready."""
    silence = max(1, round(1.5 * case.scale))
    server, plane, stream = case.ready(silence=silence, stale_after=3 * silence)
    for number in range(2, 6):
        time.sleep(silence / 2)
        stream.give(b"%d" % number, ANY_ANY)
    case.same("one that speaks stays", server.losses(), [])
    begin = time.monotonic()
    stream.peer.settimeout(20 * case.scale)
    case.holds("a silent one is closed", stream.is_closed())
    passed = time.monotonic() - begin
    case.holds("after so long", silence - 0.1 <= passed < silence + 1 * case.scale, passed)
    case.until("the reason is logged", lambda: server.losses()[:1] == ["silence"])
    found = server.metrics()["rbacd_control_silence_seconds"]
    case.holds("the gauge", silence - 0.2 <= found < 2.5 * silence, found)
    case.same("it is ready", server.fetch("/ready"), (200, b"ready\n"))
    case.until("it is not ready", lambda: server.fetch("/ready") == (503, b"the control plane is silent\n"))
    case.same("the metric", server.metrics()["rbacd_ready"], 0)
    case.holds("others came and went", server.losses()[:2] == ["silence"] * 2, server.losses())
    server.answers("the policies stay", [(PLAIN, allowed(b"0", 5))])
    # those that were given up come before the one that is open
    stream = plane.accept()
    while not (stream.frame() and timed_out(stream.peer)):
        stream = plane.accept()
    stream.peer.settimeout(10 * case.scale)
    stream.give(b"6", ANY_ANY)
    case.until("it is ready again", lambda: server.fetch("/ready") == (200, b"ready\n"))
    server.stop()


def is_ready(server):
    """Whether it is ready; it is not before it listens."""
    try:
        return server.fetch("/ready")[0] == 200
    except ConnectionRefusedError:
        return False


def file_is_heard(case):
    """A file is heard at each look that reads it, and its stream never ends by silence."""
    put(case, FIRST[5:])
    server = case.serve("file:policies", silence=1, stale_after=max(2, round(2 * case.scale)))
    case.until("it is ready", lambda: is_ready(server))
    time.sleep(3 * case.scale)
    case.same("it stays so", (server.fetch("/ready")[0], server.losses()), (200, []))
    put(case, None)
    case.until("a file that is gone is not heard", lambda: server.fetch("/ready")[0] == 503)
    put(case, FIRST[5:])
    case.until("it is back", lambda: is_ready(server))


def left_open(case):
    """A response that leaves a filter without policies, or has a name that nobody asked for, is accepted: a line has both lists."""
    server, _, stream = case.ready_both(GET_AND_PUT, EMPTY)
    stream.give(b"2", NO_POST, GET_AND_PUT, names=[BOTH[1], b"typo"])
    stream.give(b"3", EMPTY, names=BOTH[:1])
    stream.give(b"4", GET_AND_PUT, names=BOTH[:1])
    told = [it for it in server.logged() if "update" in it]
    whole, part = "acknowledged", "incomplete"
    case.same("the lines", [(it["update"], it["version"]) for it in told],
              [(whole, "1"), (part, "1"), (whole, "2"), (part, "2"), (whole, "3"), (part, "3"), (whole, "4")])
    names = [it.decode() for it in BOTH]
    wanted = [([names[1]], []), ([], ["typo"]), ([names[0]], [])]
    found = [it for it in told if it["update"] == part]
    case.same("their lists", [(it["without_policies"], it["unasked"]) for it in found], wanted)
    case.same("how many", [it["unasked_count"] for it in found], [0, 1, 0])
    case.same("what they are of", [(it["nonce"], it["generation"]) for it in found], [("n1", 1), ("n2", 2), ("n3", 3)])


# control files that are no response, and what the log of updates says of them
FAULTY = [(ANY_ANY, "a bare filter"), (b'{"rules": {}}\n', "JSON"), (b"rules:\n  action: ALLOW\n", "YAML or other text"),
          (ANY_ANY[2:], "a bare envoy.config.rbac.v3.RBAC"), (typed(FILTER, ANY_ANY), "a google.protobuf.Any")]


def faulty_file(case):
    """A control file that is a bare filter, JSON or YAML: the log of updates says so, and the policies stay."""
    put(case, FIRST[5:])
    server = case.serve("file:policies")
    case.until("it is ready", lambda: is_ready(server))
    for content, words in FAULTY:
        put(case, content)
        words = f"; the message looks like {words}"
        case.until(words, lambda words=words: any(words in it.get("cause", it.get("reason", "")) for it in server.logged()))
    server.answers("the policies stay", [(PLAIN, allowed(b"0", 1))])


CASES = {it.__name__: it for it in (gone_file, silent_plane, file_is_heard, left_open, faulty_file)}
