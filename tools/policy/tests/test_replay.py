"""`policy replay`: the requests of a record that another filter would decide in another way."""
import json
import unittest

from policies.wrap import frame, response
from support import ENGINE, NO_ENGINE, encoded
from test_outputs import Room

FILTER = """rules:
  policies:
    readers:
      permissions: [{header: {name: ":method", exact_match: GET}}]
      principals: [{any: true}]
    %s:
      permissions: [{header: {name: x-user, exact_match: alice}}]
      principals: [{%s}]
"""
LAN = "remote_ip: {address_prefix: 10.0.0.0, prefix_len: 8}"
OLD, NEW = FILTER % ("users", "any: true"), FILTER % ("users", LAN)


def bytes_event(kind, data, **more):
    """The line of an event with bytes."""
    return json.dumps({"event": kind, **more, "hex": data.hex()}) + "\n"


def update(*filters):
    """The line of a response with filters."""
    return bytes_event("ads_bytes", frame(response([(name, encoded(text)) for name, text in filters], "1", "n")))


def opened(key, **facts):
    """The line of a connection that opens."""
    return json.dumps({"event": "http_open", "k": key, "facts": facts}) + "\n"


def sent(key, text):
    """The line of bytes of a connection."""
    return bytes_event("http_bytes", text.encode(), k=key)


def head(method, *lines):
    """A head."""
    return "\r\n".join([f"{method} /a HTTP/1.1", "Host: h", *lines, "", ""])


ALICE = head("PUT", "X-User: alice", "Content-Length: 3")


@unittest.skipUnless(ENGINE.exists(), NO_ENGINE)
class Replay(Room):
    """Runs of the command."""

    def replay(self, record, new=NEW, *words):
        """The status, the lines and the errors of a run."""
        self.file("record", record)
        self.file("new.yaml", new)
        status, out, errors = self.run_here("replay", "--engine", ENGINE, *words, "record", "new.yaml")
        return status, out.decode().splitlines(), errors

    def test_changed(self):
        """Requests that change have their line, and are counted by the policies that decide."""
        record = '{"event":"ads_up"}\n' + update(("f", OLD)) + opened(4, remote_ip="11.0.0.1") + opened(5, remote_ip="10.0.0.1")
        # a body is passed over, though it looks like a head, and two heads are in one line
        record += sent(4, ALICE + "GET") + sent(4, ALICE + "\n\r\n" + ALICE) + sent(5, ALICE) + sent(5, "GET" + head("GET"))
        record += '{"event":"http_closed","k":5}\n' + sent(5, ALICE)
        status, lines, errors = self.replay(record)
        pair = 'allow by "users" -> deny'
        wanted = [f"record:{line}: PUT /a: {pair}" for line in (5, 6, 6)]
        self.assertEqual((status, lines, errors), (1, [*wanted, "5 requests: 3 changed, 2 the same", f"  3: {pair}"], ""))

    def test_pieces(self):
        """Heads and frames may be cut anywhere."""
        both = update(("f", OLD)).partition('"hex": "')
        data = bytes.fromhex(both[2].partition('"')[0])
        record = "".join(bytes_event("ads_bytes", bytes([one])) for one in data) + opened(0)
        record += "".join(sent(0, one) for one in ALICE)
        status, lines, _ = self.replay(record)
        self.assertEqual((status, lines[0]), (1, f'record:{len(data) + 1 + len(ALICE)}: PUT /a: allow by "users" -> deny'))

    def test_updates(self):
        """The filter in force counts: not one that is refused, and none before the first."""
        refused = bytes_event("ads_bytes", frame(response([("f", bytes.fromhex("22 00"))], "2", "n")))
        record = opened(0) + sent(0, head("GET")) + update(("f", OLD)) + sent(0, ALICE + "abc") + refused + sent(0, ALICE + "abc")
        record += update(("f", NEW)) + sent(0, ALICE)
        status, lines, _ = self.replay(record)
        places = [line.split(": ")[0] for line in lines[:2]]
        self.assertEqual((status, places, lines[2]), (1, ["record:4", "record:6"], "3 requests: 2 changed, 1 the same; 1 came before a policy"))

    def test_connections(self):
        """What is after a request that ends its connection is no request."""
        for end in ("Connection: x, Close", "Transfer-Encoding: chunked"):
            record = update(("f", OLD)) + opened(0) + sent(0, head("GET", end) + ALICE)
            self.assertEqual(self.replay(record)[:2], (0, ["1 requests: 0 changed, 1 the same"]), end)
        old = head("GET").replace("1.1", "1.0")
        self.assertEqual(self.replay(update(("f", OLD)) + opened(0) + sent(0, old + ALICE))[1], ["1 requests: 0 changed, 1 the same"])

    def test_policies(self):
        record = update(("f", OLD)) + opened(0, remote_ip="10.0.0.1") + sent(0, ALICE)
        other = FILTER % ("lan", LAN)
        self.assertEqual(self.replay(record, other)[0], 0)
        status, lines, _ = self.replay(record, other, "--policies")
        self.assertEqual((status, lines[0]), (1, 'record:3: PUT /a: allow by "users" -> allow by "lan"'))

    def test_names(self):
        record = update(("f", OLD), ("g", NEW)) + opened(0) + sent(0, ALICE)
        self.assertEqual(self.replay(record), (2, [], "policy: the records have the filters f, g; take one by --name\n"))
        self.assertEqual(self.replay(record, NEW, "--name", "g")[0], 0)
        self.assertEqual(self.replay(record, NEW, "--name", "f")[0], 1)
        self.assertEqual(self.replay(opened(0)), (2, [], "policy: the records have the filters none\n"))

    def test_mistakes(self):
        for line in ("x\n", "[]\n", '{"event":"other"}\n'):
            told = "record:2: this line is no event of a record of `rbacd serve`\n"
            self.assertEqual(self.replay('{"event":"ads_up"}\n' + line), (2, [], told))
        self.assertEqual(self.replay('{"event":"ads_bytes","hex":"0"}\n')[2], "record:1: `hex` has pairs of hexadecimal digits\n")
        status, _, errors = self.replay(update(("f", OLD)), "rules: {action: 7}")
        self.assertEqual((status, "refused: 5 OutOfRange" in errors), (2, True))
        status, out, errors = self.run_here("replay", "nothing", "new.yaml")
        self.assertEqual((status, errors), (2, "policy: cannot read nothing: No such file or directory\n"))
