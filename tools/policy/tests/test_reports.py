"""Reports of `policy check` in other forms, what notes do to its status, and commands on folders and again."""
import json
import threading
import time
import unittest
from unittest import mock

from policies import watching
from support import ENGINE, NO_ENGINE, POLICY, condition
from test_outputs import Room

NOTED = POLICY.replace("any: true", "destination_ip: {address_prefix: 10.0.0.1, prefix_len: 8}", 1)
WRONG = condition("source.port == 'a,b'")


class Reports(Room):
    """The forms of reports."""

    def check(self, *words):
        """The status and the output of a run without an engine and a solver."""
        status, out, errors = self.run_here("check", "--without-engine", "--solver", "never", *words)
        self.assertEqual(errors, "")
        return status, out.decode()

    def setUp(self):
        super().setUp()
        self.file("a.yaml", NOTED)
        self.file("b.yaml", WRONG)
        self.file("c.yaml", "rules: [\n")

    def test_sarif(self):
        """A document of SARIF 2.1.0: rules, levels, messages, and places counted from 1."""
        status, out = self.check("--format", "sarif", "a.yaml", "b.yaml", "c.yaml")
        document = json.loads(out)
        self.assertEqual((status, document["version"], len(document["runs"])), (1, "2.1.0", 1))
        run = document["runs"][0]
        self.assertEqual(run["tool"]["driver"]["name"], "policy")
        rules = {rule["id"] for rule in run["tool"]["driver"]["rules"]}
        self.assertEqual(rules, {"host-bits", "NoOverload", "mistake"})
        found = [(one["ruleId"], one["level"]) for one in run["results"]]
        self.assertEqual(found, [("host-bits", "warning"), ("NoOverload", "error"), ("mistake", "error")])
        places = [one["locations"][0]["physicalLocation"] for one in run["results"]]
        self.assertEqual([place["artifactLocation"]["uri"] for place in places], ["a.yaml", "b.yaml", "c.yaml"])
        self.assertEqual(places[0]["region"], {"startLine": 5, "startColumn": 42})
        self.assertTrue(all(one["message"]["text"] for one in run["results"]))

    def test_github(self):
        """A line for each finding; what would end a property or a line is escaped."""
        status, out = self.check("--format", "github", "a.yaml", "b.yaml", "c.yaml")
        lines = out.splitlines()
        self.assertEqual((status, len(lines)), (1, 3))
        self.assertTrue(lines[0].startswith("::warning file=a.yaml,line=5,col=42,title=host-bits::only the first 8 bits count"))
        self.assertTrue(lines[1].startswith("::error file=b.yaml,line=9,col="), lines[1])
        self.assertTrue(lines[2].startswith("::error file=c.yaml,line=1,col=8,title=mistake::this bracket"), lines[2])
        self.file("a,b:100%.yaml", NOTED)
        self.assertIn("file=a%2Cb%3A100%25.yaml,line=5", self.check("--format", "github", "a,b:100%.yaml")[1])

    def test_json(self):
        """The same object by both options."""
        self.assertEqual(self.check("--json", "a.yaml"), self.check("--format", "json", "a.yaml"))

    def test_notes(self):
        """Notes change the status only if that is asked for."""
        self.assertEqual(self.check("a.yaml")[0], 0)
        self.assertEqual(self.check("--fail-on-notes", "a.yaml")[0], 1)
        silent = NOTED.replace("prefix_len: 8}", "prefix_len: 8}  # policy: ignore host-bits")
        self.assertEqual(self.check("--fail-on-notes", self.file("d.yaml", silent))[0], 0)

    def test_summary(self):
        self.assertNotIn("filters:", self.check("a.yaml")[1])
        out = self.check("a.yaml", "b.yaml", "c.yaml", "a.yaml")[1]
        self.assertEqual(out.splitlines()[-1], "4 filters: 2 admitted, 1 refused, 1 not read; 2 notes")


class Folders(Room):
    """Commands on folders."""

    def test_fmt(self):
        """Files of policies and of tests are laid out, and no others."""
        (self.room / "d" / "e").mkdir(parents=True)
        for name, text in [("a.yaml", "rules:   {}\n"), ("e/t.yaml", "policy:   a\ntests:   []\n"), ("values.yaml", "a:   1\n")]:
            self.file(f"d/{name}", text)
        status, _, errors = self.run_here("fmt", "--check", "d")
        told = [line.partition(":")[0] for line in errors.splitlines()]
        self.assertEqual((status, told), (1, ["d/a.yaml", "d/e/t.yaml"]))
        self.assertEqual(self.run_here("fmt", "d")[0], 0)
        self.assertEqual((self.room / "d" / "a.yaml").read_text(), "rules: {}\n")
        self.assertEqual((self.room / "d" / "values.yaml").read_text(), "a:   1\n")

    @unittest.skipUnless(ENGINE.exists(), NO_ENGINE)
    def test_test(self):
        (self.room / "d" / "e").mkdir(parents=True)
        self.file("d/f.yaml", POLICY)
        self.file("d/f.tests.yaml", "policy: f.yaml\ntests: [{name: one, request: {}, expect: allow}]\n")
        self.file("d/e/g.tests.yaml", "tests: [{name: two, policy: ../f.yaml, request: {}, expect: deny}]\n")
        status, out, _ = self.run_here("test", "--engine", ENGINE, "--root", "d", "d")
        self.assertEqual(status, 1)
        self.assertIn("d/e/g.tests.yaml:1: failed: two", out.decode())
        self.assertIn("2 tests in", out.decode())
        self.assertEqual(self.run_here("test", "--engine", ENGINE, "d/e")[0], 1)
        (self.room / "none").mkdir()
        told = (2, b"", "policy: no file of tests is in none\n")
        self.assertEqual(self.run_here("test", "--engine", ENGINE, "none"), told)


class Watching(Room):
    """`--watch`."""

    def test_state(self):
        """A file that is written, made or removed is a change."""
        (self.room / "d").mkdir()
        names = [str(self.room / "d"), str(self.room / "f.yaml")]
        states = [watching.state_of(names)]
        for change in (
            lambda: self.file("f.yaml", POLICY),
            lambda: self.file("d/g.yaml", POLICY),
            lambda: self.file("d/g.yaml", POLICY + "\n"),
            lambda: (self.room / "d" / "g.yaml").unlink(),
        ):
            change()
            states.append(watching.state_of(names))
        self.assertTrue(all(one != other for one, other in zip(states, states[1:])))

    def test_again(self):
        """A check runs again after a change, until it is interrupted."""
        self.file("f.yaml", POLICY)
        rounds = []

        def change(names, before):
            rounds.append(before)
            if len(rounds) > 1:
                raise KeyboardInterrupt
            self.file("f.yaml", "rules: {action: 7}\n")

        with mock.patch.object(watching, "wait_for_change", change):
            status, out, errors = self.run_here("check", "--without-engine", "--solver", "never", "--watch", "f.yaml")
        self.assertEqual((status, len(rounds)), (130, 2))
        self.assertIn("status 0; waiting for a change", errors)
        self.assertIn("status 1; waiting for a change", errors)
        self.assertIn("f.yaml: would be admitted", out.decode())
        self.assertIn("f.yaml: would be refused", out.decode())

    def test_wait(self):
        self.file("f.yaml", POLICY)
        names = [str(self.room / "f.yaml")]
        before = watching.state_of(names)
        timer = threading.Timer(0.1, lambda: self.file("f.yaml", POLICY + "\n"))
        timer.start()
        started = time.monotonic()
        with mock.patch.object(watching, "PAUSE", 0.02):
            watching.wait_for_change(names, before)
        timer.join()
        self.assertGreater(time.monotonic() - started, 0.05)

    def test_standard_input(self):
        status, out, _ = self.run_here("check", "--watch", "-")
        self.assertEqual((status, out), (2, b""))
