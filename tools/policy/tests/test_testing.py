"""`policy test`: which files its tests may name, mistakes in files of tests, and the forms of its output."""
import json
import os
import unittest
import unittest.mock
import xml.etree.ElementTree

from support import ENGINE as BUILT
from support import NO_ENGINE, POLICY
from test_outputs import Room

TESTS = "policy: %s\ntests: [{name: t, request: {}, expect: allow}]\n"
# An engine that admits each filter and lets each request pass.
ENGINE = """#!/bin/sh
case "$*" in
check*) echo '{"admitted":true,"bound":0,"policies":1}' ;;
*) sed 's/.*/{"name":"p","policy":0,"verdict":"allow"}/' ;;
esac
"""


class Named(Room):
    """The files that tests name."""

    def setUp(self):
        super().setUp()
        self.file("engine", ENGINE)
        (self.room / "engine").chmod(0o755)
        for folder in ("tests", "policies"):
            (self.room / folder).mkdir()
        self.file("policies/f.yaml", POLICY)
        self.file("tests/f.yaml", POLICY)
        self.file("secret", "password: hunter2\n")

    def ask(self, policy, *words):
        """A run of a test that names a policy."""
        self.file("tests/t.yaml", TESTS % policy)
        return self.run_here("test", "--engine", "./engine", "tests/t.yaml", *words)

    def test_below(self):
        for policy, words in [
            ("f.yaml", []),
            ("./f.yaml", []),
            ("../tests/f.yaml", []),
            ("../policies/f.yaml", ["--root", "."]),
            # the file of tests is below the current folder
            ("../policies/f.yaml", []),
            (str(self.room / "tests" / "f.yaml"), []),
        ]:
            with self.subTest(policy):
                status, out, errors = self.ask(policy, *words)
                self.assertEqual((status, errors), (0, ""), out)

    def test_outside(self):
        os.symlink(self.room / "secret", self.room / "tests" / "link.yaml")
        os.symlink(self.room, self.room / "tests" / "up")
        for policy, words in [
            ("../../../../../../etc/passwd", []),
            ("../../../../../../etc/passwd", ["--root", "."]),
            ("/etc/passwd", ["--root", "tests"]),
            ("link.yaml", ["--root", "tests"]),
            ("up/secret", ["--root", "tests"]),
            ("../policies/f.yaml", ["--root", "tests"]),
        ]:
            with self.subTest(policy, words=words):
                status, out, errors = self.ask(policy, *words)
                self.assertEqual(status, 1)
                self.assertIn(b"tests/t.yaml:2: not run: t\n", out)
                self.assertRegex(errors, r"^tests/t\.yaml:1:9: \S+ is outside of the folder .*: --root names another folder\n")
                self.assertNotIn("root:", errors.replace("--root", ""))
                self.assertNotIn("hunter2", errors + out.decode())

    def test_no_policy(self):
        """Of a file that holds no policy no line is shown."""
        for name, text in [
            ("plain", "password: hunter2\n"),
            ("passwd", "root:x:0:0:hunter2\n"),
            ("broken", "a: [hunter2\n"),
            ("scalar", "hunter2 is the password\n"),
            ("latin", b"hunter2 \xe9 is the password\n"),
            ("list", "- hunter2\n- b\n"),
            ("secret.yaml", "apiVersion: v1\nkind: Secret\ndata: {password: hunter2}\n"),
        ]:
            with self.subTest(name):
                self.file(f"tests/{name}", text)
                status, out, errors = self.ask(name)
                self.assertEqual(status, 1)
                told = f"tests/t.yaml:1:9: tests/{name} holds no policy: `policy check tests/{name}` says why\n"
                self.assertTrue(errors.startswith(told), errors)
                self.assertNotIn("hunter2", errors + out.decode())

    def test_mistakes(self):
        """Those of a policy are shown, all of them."""
        self.file("tests/g.yaml", "rules: {action: MAYBE, policies: {p: {permission: []}}}")
        status, _, errors = self.ask("g.yaml")
        self.assertEqual(status, 1)
        self.assertIn("tests/g.yaml:1:17: one of these is expected: ALLOW, DENY, LOG", errors)
        self.assertIn("tests/g.yaml:1:39: Policy has no field `permission`", errors)

    def test_names(self):
        """Two tests of one name, and a policy that the filter does not have, are mistakes."""
        tests = "[{name: a, request: {}, expect: allow}, {name: b, request: {}, expect: allow, matched: %s}, {name: a, request: {}, expect: allow}]"
        self.file("tests/t.yaml", f"policy: f.yaml\ntests: {tests % 'q'}\n")
        status, out, errors = self.run_here("test", "--engine", "./engine", "tests/t.yaml")
        self.assertEqual((status, out.decode().count("not run: ")), (1, 2), out)
        self.assertIn('the filter has no policy of this name: it has "p"; `none` is for no policy', errors)
        self.assertIn("the test of line 2 has this name too", errors)
        self.file("tests/t.yaml", f"policy: f.yaml\ntests: {(tests % 'p').replace('name: a', 'name: c', 1)}\n")
        self.assertEqual(self.run_here("test", "--engine", "./engine", "tests/t.yaml")[0], 0)
        self.file("tests/t.yaml", "policy: f.yaml\ntests: [{request: {}, expect: allow, matched: none}]\n")
        self.assertIn(b"failed", self.run_here("test", "--engine", "./engine", "tests/t.yaml")[1])

    def test_no_plain_file(self):
        os.mkfifo(self.room / "tests" / "pipe")
        for name in ("pipe", "../tests"):
            status, _, errors = self.ask(name)
            self.assertEqual(status, 1)
            self.assertIn(f"tests/{name} is no plain file", errors)


# A file of tests with mistakes, and for each the place and words.
WRONG = """policy: f.yaml
budgt: 7
tests:
- {name: passes, request: {}, expect: allow}
- {name: fails, request: {}, expect: deny}
- {name: no request, expect: allow}
- {request: {pth: /, headers: [a]}, expect: allowed, mached: p}
- {name: missing, policy: g.yaml, request: {}, expect: allow}
- {name: also missing, policy: g.yaml, request: {path: "a\\nb"}, expect: allow}
- {name: two hosts, request: {host: a, headers: {Host: b, ":authority": c}}, expect: allow}
- {name: last, request: {head: "GET / HTTP/1.1"}, expect: allow}
"""
TOLD = [
    "2:1: a file of tests has no field `budgt`: it has policy, filter, budget, visits, facts, tests",
    "6:3: a test has a `request`, unless it expects the filter to be refused",
    "7:14: a request has no field `pth`",
    "7:31: headers are a mapping from names to texts, or to lists of texts",
    "7:45: `allowed` is no expectation: write allow, deny, steps, refused (or refused 9), or head 400, 431 or 501",
    "7:54: a test has no field `mached`",
    "8:27: cannot read g.yaml: No such file or directory",
    "9:32: cannot read g.yaml: No such file or directory",
    "9:56: a path is a text of one line",
    "10:50: the host is here twice: as `host`, and as the header `Host`",
    "10:59: the host is here twice: as `host`, and as the header `:authority`",
]


class Mistakes(Room):
    """Mistakes in files of tests: the other tests are run."""

    maxDiff = None

    def setUp(self):
        super().setUp()
        self.file("engine", ENGINE)
        (self.room / "engine").chmod(0o755)
        self.file("f.yaml", POLICY)

    def ask(self, *words):
        """A run."""
        return self.run_here("test", "--engine", "./engine", *words)

    def test_all(self):
        self.file("t.yaml", WRONG)
        status, out, errors = self.ask("t.yaml", "--junit", "t.xml")
        lines = [line for line in errors.splitlines() if line.startswith("t.yaml:")]
        self.assertEqual(status, 1)
        for line, beginning in zip(lines, TOLD, strict=True):
            self.assertTrue(line.startswith(f"t.yaml:{beginning}"), line)
        told = ["t.yaml:1: not run: t.yaml", "t.yaml:5: failed: fails", "  - deny", '  + allow by "p"']
        told += [f"t.yaml:{line}: not run: {name}" for line, name in [(6, "no request"), (7, "test 4"), (8, "missing")]]
        told += ["t.yaml:9: not run: also missing", "t.yaml:10: not run: two hosts", "f.yaml: 1 of 1 policies matched"]
        self.assertEqual(out.decode().splitlines()[:-1], told)
        self.assertRegex(out.decode(), r"9 tests in \d+\.\d s: 2 passed, 1 failed, 6 not run\n$")
        root = xml.etree.ElementTree.parse(self.room / "t.xml").getroot()
        self.assertEqual([root.get(name) for name in ("tests", "failures", "errors")], ["9", "1", "6"])
        cases = {case.get("name"): [part.tag for part in case] for case in root.iter("testcase")}
        self.assertEqual([cases[name] for name in ("passes", "fails", "missing", "last")], [[], ["failure"], ["error"], []])
        [error] = [case[0] for case in root.iter("testcase") if case.get("name") == "no request"]
        self.assertTrue(error.get("message").startswith("t.yaml:6:3: a test has a `request`"))

    def test_files(self):
        """A file that is no YAML, one without tests and one that is not there hide no other one."""
        self.file("good.yaml", "policy: f.yaml\ntests: [{request: {}, expect: allow}]\n")
        self.file("bad.yaml", "tests: [\n")
        self.file("none.yaml", "tests: []\npolcy: x\n")
        status, out, errors = self.ask("bad.yaml", "good.yaml", "none.yaml")
        self.assertEqual((status, out.decode().splitlines()[-1].split(": ")[1]), (1, "1 passed, 0 failed, 2 not run"))
        for words in ["bad.yaml:1:8: this bracket is not closed", "none.yaml:1:8: a file of tests has a list", "none.yaml:2:1: a file"]:
            self.assertIn(words, errors)
        status, out, errors = self.ask("gone.yaml", "good.yaml", "--junit", "t.xml")
        self.assertEqual((status, errors), (2, "policy: cannot read gone.yaml: No such file or directory\n"))
        self.assertIn(b"1 passed, 0 failed, 1 not run", out)
        self.assertEqual(xml.etree.ElementTree.parse(self.room / "t.xml").getroot().get("errors"), "1")

    def test_shared(self):
        """What is wrong with what several tests share is told once, and none of them is run."""
        self.file("g.yaml", "rules: {action: MAYBE}")
        for head, words in [
            ("policy: g.yaml", "g.yaml:1:17: one of these is expected"),
            ("policy: f.yaml\nbudget: x", "t.yaml:2:9: a budget is a number"),
            ("policy: f.yaml\nvisits: 0", "t.yaml:2:9: visits are a number from 1 to 9223372036854775807"),
            ("policy: f.yaml\nfacts: [a]", "t.yaml:2:8: facts are a mapping"),
            ("filter: f", "t.yaml:2:9: `policy` is expected"),
            ("policy: {rules: {action: MAYBE}}", "t.yaml:1:26: one of these is expected"),
        ]:
            with self.subTest(head):
                self.file("t.yaml", head + "\ntests: [{request: {}, expect: allow}, {request: {}, expect: allow}]\n")
                status, out, errors = self.ask("t.yaml")
                self.assertEqual(status, 1)
                self.assertRegex(out, rb"2 tests in \d+\.\d s: 0 passed, 0 failed, 2 not run")
                self.assertEqual(errors.count(words), 1, errors)

    def test_names(self):
        tests = ", ".join(f"{{name: {name}, request: {{}}, expect: allow}}" for name in ("alice reads", "bob reads", "x"))
        self.file("t.yaml", f"policy: f.yaml\ntests: [{tests}]\n")
        for patterns, count in [(["x"], 1), (["*reads"], 2), (["alice*", "x"], 2), (["*"], 3)]:
            words = [word for pattern in patterns for word in ("--name", pattern)]
            status, out, _ = self.ask("t.yaml", *words)
            self.assertEqual(status, 0)
            self.assertIn(f"{count} tests in", out.decode())
        self.assertEqual(self.ask("t.yaml", "--name", "reads"), (2, b"", "policy: no test has such a name: reads\n"))

    def test_forms(self):
        self.file("t.yaml", "policy: f.yaml\ntests:\n- {name: 'a #1', request: {}, expect: allow}\n- {request: {}, expect: deny}\n- {expect: deny}\n")
        status, out, _ = self.ask("--tap", "t.yaml")
        self.assertEqual(status, 1)
        lines = out.decode().splitlines()
        self.assertEqual(lines[:4], ["TAP version 13", "1..3", "ok 1 - a \\#1", "not ok 2 - test 2"])
        wanted = ["  ---", '  at: "t.yaml:4"', "  status: failed", "  message: |2", "    - deny", '    + allow by "p"', "  ..."]
        self.assertEqual(lines[4:12], [*wanted, "not ok 3 - test 3"])
        status, out, _ = self.ask("--json", "t.yaml")
        self.assertEqual(status, 1)
        *tests, counted = map(json.loads, out.decode().splitlines())
        self.assertEqual([test["status"] for test in tests], ["passed", "failed", "not run"])
        self.assertEqual((tests[1]["answer"], tests[1]["matched"], tests[1]["line"]), ("allow", "p", 4))
        self.assertEqual([counted[name] for name in ("tests", "passed", "failed", "not_run", "gaps")], [3, 1, 1, 1, []])
        status, out, errors = self.ask("--json", "--tap", "t.yaml")
        self.assertEqual((status, out), (2, b""))

    def test_without_answers(self):
        """An engine that does not answer is told in words."""
        self.file("engine", "#!/bin/sh\nsleep 5\n")
        self.file("t.yaml", "policy: f.yaml\ntests: [{request: {}, expect: allow}]\n")
        with unittest.mock.patch("policies.engine.PATIENCE", 0):
            status, out, errors = self.ask("t.yaml")
        self.assertEqual((status, out), (2, b""))
        self.assertRegex(errors, r"^policy: \S+/engine does not answer within 0 seconds\n$")


@unittest.skipUnless(BUILT.exists(), NO_ENGINE)
class Many(Room):
    """Many tests of a filter of many policies."""

    def test_two_thousand(self):
        """The requests of all tests are judged at once, and only failures are explained."""
        rows = []
        for number in range(200):
            rows.append(f"    p{number:03d}: {{permissions: [{{url_path: {{path: {{prefix: /{number}/}}}}}}], ")
            rows.append("principals: [{any: true}], checked_condition: {text: request.method == 'GET'}}\n")
        self.file("f.yaml", "rules:\n  policies:\n" + "".join(rows))
        tests = [{"request": {"path": f"/{number % 200}/{number}"}, "expect": "allow"} for number in range(2000)]
        tests[7]["expect"] = "deny"
        self.file("t.json", json.dumps({"policy": "f.yaml", "tests": tests}))
        status, out, errors = self.run_here("test", "--engine", BUILT, "t.json")
        self.assertEqual((status, errors), (1, ""))
        lines = out.decode().splitlines()
        self.assertEqual(lines[:3], ["t.json:1: failed: test 8", "  - deny", '  + allow by "p007"'])
        self.assertEqual(lines[-2], "f.yaml: 200 of 200 policies matched")
        self.assertRegex(lines[-1], r"^2000 tests in \d+\.\d s: 1999 passed, 1 failed$")

    def test_covered(self):
        """Conditions are explained until each was false once."""
        self.file("f.yaml", POLICY + "      checked_condition: {text: request.method == 'GET'}\n")
        for method, told in (("GET", '  "p": its condition was never false\n'), ("PUT", '  "p": never matched\n')):
            self.file("t.yaml", f"policy: f.yaml\ntests: [{{request: {{method: {method}}}, expect: {'allow' if told[7] == 'i' else 'deny'}}}]\n")
            status, out, _ = self.run_here("test", "--engine", BUILT, "--covered", "t.yaml")
            self.assertEqual((status, told in out.decode()), (1, True), out)
