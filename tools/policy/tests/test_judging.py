"""`policy judge`: one request by a policy file, with reasons, and its statuses."""
import json
import unittest

from support import ENGINE, NO_ENGINE, condition
from test_outputs import Room

READERS = """rules:
  policies:
    readers:
      permissions:
      - and_rules: {rules: [{header: {name: ":method", exact_match: GET}}, {url_path: {path: {prefix: /a}}}]}
      principals:
      - header: {name: x-user, exact_match: alice}
"""


@unittest.skipUnless(ENGINE.exists(), NO_ENGINE)
class Judging(Room):
    """Runs of the command."""

    def judge(self, text, *words):
        """The status, the lines and the errors of a run on a filter."""
        self.file("f.yaml", text)
        status, out, errors = self.run_here("judge", "--engine", ENGINE, "f.yaml", *words)
        return status, out.decode().splitlines(), errors

    def test_explained(self):
        """Each policy that was tried, with the leaves that decide."""
        status, lines, errors = self.judge(READERS, "--path", "/ab", "--header", "X-User:  alice")
        self.assertEqual((status, lines[:2], errors), (0, ['allow by "readers"', '  "readers": it matches'], ""))
        status, lines, _ = self.judge(READERS, "--path", "/b", "--header", "x-user: alice")
        wanted = ['deny', '  "readers": no permission of it matches']
        wanted.append('    permissions[0].and_rules.rules[1].url_path: prefix "/a", is "/b"')
        self.assertEqual((status, lines), (3, wanted))
        status, lines, _ = self.judge(READERS, "--path", "/a")
        wanted = ['deny', '  "readers": no principal of it matches']
        wanted.append('    principals[0].header "x-user": exact "alice", is missing')
        self.assertEqual((status, lines), (3, wanted))

    def test_requests(self):
        """Each part of a request reaches the filter."""
        for text, words in [
            ('request.method == "PUT"', ["--method", "PUT"]),
            ('request.host == "b"', ["--host", "b"]),
            ('request.protocol == "HTTP/1.0"', ["--version", "1.0"]),
            ('request.headers["x-a"] == "1,2"', ["--header", "x-a: 1", "--header", "X-A: 2"]),
            ('request.headers["x-a"] == "a:b"', ["--header", "x-a:a:b"]),
            ("source.port == 80 && connection.mtls", ["--fact", "source.port=80", "--fact", "connection.mtls=true"]),
            ('source.address == "80"', ["--fact", "source.address=80"]),
            ('request.path == "/a?b=c" && request.query == "b=c"', ["--path", "/a?b=c"]),
        ]:
            with self.subTest(text):
                self.assertEqual(self.judge(condition(text), *words)[0], 0)
                self.assertEqual(self.judge(condition(f"!({text})"), *words)[0], 3)

    def test_files(self):
        """A request of a file: as tests have it, or a whole head."""
        text = condition('request.path == "/a" && request.headers["x-b"] == "1" && source.port == 80')
        self.file("r.yaml", "request: {path: /a, headers: {x-b: 1}}\nfacts: {source.port: 80}\n")
        self.file("r.json", '{"path": "/a", "headers": {"x-b": "1"}, "facts": {"source.port": 80}}')
        self.file("r.http", "GET /a HTTP/1.1\r\nHost: h\r\nX-B: 1\r\n\r\n")
        for words in (["r.yaml"], ["r.json"], ["r.http", "--fact", "source.port=80"], ["r.yaml", "--fact", "source.port=80"]):
            with self.subTest(words):
                self.assertEqual(self.judge(text, "--request", *words)[0], 0)
        self.assertEqual(self.judge(text, "--request", "r.yaml", "--fact", "source.port=81")[0], 3)

    def test_statuses(self):
        for text, words, status, told in [
            (condition('request.method == "GET"'), ["--method", "A" * 33], 4, "head 431"),
            (condition("true"), ["--version", "3"], 4, "head 400"),
            (condition("true"), ["--header", "transfer-encoding: chunked"], 4, "head 501"),
            ("rules: {action: 7}", [], 1, "refused 5 OutOfRange"),
        ]:
            with self.subTest(told):
                found, lines, _ = self.judge(text, *words)
                self.assertEqual((found, lines[0]), (status, told))

    def test_mistakes(self):
        self.file("two.yaml", "- {path: /a}\n- {path: /b}\n")
        for words, status, told in [
            (["--header", "x-a"], 1, "policy: --header takes a name and a value, as in 'x-user: alice', not \"x-a\"\n"),
            (["--header", "x: \udcff"], 1, "policy: the header is not UTF-8\n"),
            (["--path", "/\udcff"], 1, "policy: the path is not UTF-8\n"),
            (["--fact", "source.address=\udcff"], 1, "policy: the fact is not UTF-8\n"),
            (["--fact", "mtls"], 1, 'policy: --fact takes a name and a value, as in remote_ip=10.0.0.1, not "mtls"\n'),
            (["--request", "two.yaml"], 1, "two.yaml: this file has 2 requests, and one is expected; `policy diff` takes several\n"),
            (["--request", "two.yaml", "--path", "/"], 1, "policy: --request gives the whole request; only --fact goes with it\n"),
            (["--request", "nothing"], 2, "policy: cannot read nothing: No such file or directory\n"),
        ]:
            with self.subTest(words):
                self.assertEqual(self.judge(READERS, *words), (status, [], told))
        status, lines, _ = self.judge(READERS, "--fact", "port=80")
        self.assertEqual(status, 2)
        self.assertIn("port", lines[0])

    def test_json(self):
        status, lines, _ = self.judge(READERS, "--json", "--path", "/a", "--header", "x-user: alice")
        answer = json.loads(lines[0])
        self.assertEqual((status, answer["verdict"], answer["name"], answer["trials"][0]["reason"]), (0, "allow", "readers", "match"))
