"""`policy ask`: requests that meet a question, or that there is none."""
import unittest
from unittest import mock

from policies import requirements
from support import ENGINE, NO_ENGINE, NO_SOLVER, condition, has_solver
from test_outputs import Room

FILTER = """rules:
  action: %s
  policies:
    admins:
      permissions: [{url_path: {path: {prefix: /admin}}}]
      principals: [{authenticated: {principal_name: {prefix: "spiffe://a/"}}}]
    health:
      permissions: [{url_path: {path: {exact: /health}}}]
      principals: [{any: true}]
"""


class Words(Room):
    """What is told without a solver or a question."""

    def test_nothing(self):
        self.file("f.yaml", FILTER % "ALLOW")
        told = "policy: nothing is asked: give --allowed, --denied, --by or --when\n"
        self.assertEqual(self.run_here("ask", "f.yaml"), (2, b"", told))

    def test_without_solver(self):
        self.file("f.yaml", FILTER % "ALLOW")
        with mock.patch.object(requirements, "missing_solver", lambda: ["python3-z3"]):
            status, out, errors = self.run_here("ask", "f.yaml", "--allowed")
        self.assertEqual((status, out), (2, b""))
        self.assertIn("apt-get install -y --no-install-recommends python3-z3", errors)


@unittest.skipUnless(has_solver() and ENGINE.exists(), NO_SOLVER if ENGINE.exists() else NO_ENGINE)
class Asking(Room):
    """Runs of the command."""

    def ask(self, text, *words):
        """The status, the lines and the errors of a run on a filter."""
        self.file("f.yaml", text)
        status, out, errors = self.run_here("ask", "--engine", ENGINE, "--seconds", "120", "f.yaml", *words)
        return status, out.decode().splitlines(), errors

    def test_questions(self):
        none = ["none: no request within the limits"]
        for action, words, status, lines in [
            ("ALLOW", ["--allowed", "--when", 'request.path.startsWith("/admin") && !connection.mtls'], 0, none),
            ("ALLOW", ["--allowed", "--when", 'request.path.startsWith("/x")'], 0, none),
            ("ALLOW", ["--allowed"], 1, None),
            ("ALLOW", ["--allowed", "--by", "health"], 1, ['allow by "health": request: {method: GET, path: /health}']),
            ("ALLOW", ["--denied"], 1, ["deny: request: {method: GET, path: /}"]),
            ("ALLOW", ["--by", "health", "--when", 'request.path != "/health"', "--when", 'request.query == ""'], 1, None),
            ("ALLOW", ["--by", "health", "--when", 'request.url_path != "/health"'], 0, none),
            ("ALLOW", ["--denied", "--by", "health"], 0, none),
            ("DENY", ["--denied", "--by", "health"], 1, ['deny by "health": request: {method: GET, path: /health}']),
            ("DENY", ["--allowed", "--when", 'request.path == "/health"'], 0, none),
            # an error of the question is no answer
            ("ALLOW", ["--allowed", "--when", 'request.headers["a"] == "b" && !("a" in request.headers)'], 0, none),
            ("LOG", ["--denied"], 0, none),
        ]:
            with self.subTest(action, words=words):
                found, told, errors = self.ask(FILTER % action, *words)
                self.assertEqual((found, errors), (status, ""), told)
                if lines is not None:
                    self.assertEqual(told, lines)

    def test_admins(self):
        """A certificate is found, with a name that the policy takes."""
        status, [line], _ = self.ask(FILTER % "ALLOW", "--by", "admins")
        self.assertEqual(status, 1)
        self.assertIn("connection.mtls: true", line)
        self.assertIn('spiffe://a/', line)

    def test_not_decided(self):
        status, [line], _ = self.ask(condition('bytes(request.path) == b"/"'), "--allowed")
        self.assertEqual(status, 3)
        self.assertIn("bytes", line)

    def test_mistakes(self):
        for text, told in [
            ("request.path == 1", '--when:1:14: request.path is a string; == has no overload for string and int: write "1" in quotes (10 NoOverload)'),
            ("  request.pat == 1", "--when:1:11: the engine has no attribute request.pat"),
            ("request.path =", "--when:1:14: `=` is no operator: write `==`"),
            ("request.path", "--when:1:9: "),
            ("", "policy: --when takes a condition in CEL on one line"),
        ]:
            with self.subTest(text):
                status, lines, errors = self.ask(FILTER % "ALLOW", "--allowed", "--when", text)
                self.assertEqual((status, lines), (2, []))
                self.assertTrue(errors.startswith(told), errors)
        status, _, errors = self.ask(FILTER % "ALLOW", "--by", "nobody")
        self.assertEqual((status, errors), (2, "policy: there is no policy nobody: they are admins, health\n"))
        status, _, errors = self.ask("rules: {action: 7}", "--allowed")
        self.assertEqual(status, 2)
        self.assertIn("refused: 5 OutOfRange; `policy check` says why", errors)
