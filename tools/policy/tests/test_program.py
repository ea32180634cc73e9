"""The command line: what it writes, its statuses and its words."""
import os
import pathlib
import subprocess
import tempfile
import unittest

import cases
from policies import requirements
from support import POLICY, TOP, condition, encoded

PROGRAM = TOP / "tools" / "policy" / "policy"
TESTS = TOP / "tools" / "policy" / "test"


class Program(unittest.TestCase):
    """Runs of the program in a folder of their own."""

    def setUp(self):
        room = tempfile.TemporaryDirectory()
        self.addCleanup(room.cleanup)
        self.room = pathlib.Path(room.name)

    def run_it(self, *words, given=b"", **more):
        """One run: its status, output and errors."""
        ran = subprocess.run([PROGRAM, *words], input=given, capture_output=True, cwd=self.room, **more)
        return ran.returncode, ran.stdout, ran.stderr.decode()

    def file(self, name, data):
        """A file in the room."""
        (self.room / name).write_bytes(data if isinstance(data, bytes) else data.encode())
        return name

    def test_there_and_back(self):
        data = bytes.fromhex(cases.BYTES["method_is_get"][1])
        text = cases.BYTES["method_is_get"][0]
        self.assertEqual(self.run_it("encode", self.file("f.yaml", text)), (0, data, ""))
        self.assertEqual(self.run_it("encode", "-", given=text.encode()), (0, data, ""))
        plain = POLICY + '      checked_condition:\n        text: request.method == "GET"\n'
        self.assertEqual(self.run_it("decode", self.file("f.bin", data)), (0, plain.encode(), ""))
        self.assertEqual(self.run_it("decode", "-", given=data), (0, plain.encode(), ""))

    def test_dotted(self):
        status, data, _ = self.run_it("encode", "--dotted", self.file("f.yaml", cases.BYTES["method_is_get"][0]))
        self.assertEqual(status, 0)
        self.assertIn(b"\x22\x10\x0a\x0erequest.method", data)
        self.assertIn(b"dotted: true", self.run_it("decode", self.file("f.bin", data))[1])
        told = condition('request.method == "GET"', "dotted: false")
        kept = self.run_it("encode", "--dotted", self.file("f.yaml", told))[1]
        self.assertEqual(kept, bytes.fromhex(cases.BYTES["method_is_get"][1]))

    def test_wrap(self):
        data = bytes.fromhex(cases.BYTES["true_and_true"][1])
        words = ["wrap", "--name", "f", "--version", "1", "--nonce", "n1", self.file("f.bin", data)]
        status, out, _ = self.run_it(*words)
        self.assertEqual((status, len(out), out[:5].hex()), (0, 261, "0000000100"))
        status, out, _ = self.run_it("wrap", "--version", "1", "--name", "f", "--name", "g", "f.bin", "f.bin")
        self.assertEqual((status, out.count(data), out.count(b"\x0a\x01g\x12")), (0, 2, 1))

    def test_mistake(self):
        text = condition('request.method = "GET"')
        status, out, errors = self.run_it("encode", self.file("f.yaml", text))
        self.assertEqual((status, out), (1, b""))
        self.assertEqual(
            errors,
            "f.yaml:9:31: `=` is no operator: write `==`\n"
            '            text: "request.method = \\"GET\\""\n'
            "                                  ^\n",
        )
        status, out, errors = self.run_it("encode", "-", given=b"rulez: {}")
        self.assertEqual((status, out), (1, b""))
        self.assertTrue(errors.startswith("standard input:1:1: "), errors)

    def test_refused(self):
        """Nothing is written of a filter that the engine would refuse, unless that is asked for."""
        file = self.file("f.yaml", condition("size([]) == 0"))
        status, out, errors = self.run_it("encode", file)
        self.assertEqual((status, out), (1, b""))
        self.assertIn("f.yaml:9:21: nothing tells the type of this empty list", errors)
        status, out, errors = self.run_it("encode", file, "--even-if-refused")
        self.assertEqual((status, out), (0, encoded(condition("size([]) == 0"))))
        self.assertEqual(self.run_it("encode", file, "--output", "f.bin")[:2], (1, b""))
        self.assertFalse((self.room / "f.bin").exists())

    def test_note(self):
        status, out, errors = self.run_it("encode", self.file("f.yaml", "rules: {}\nshadow_rules: {}\n"))
        self.assertEqual((status, out), (0, bytes.fromhex("0a 00 12 00")))
        self.assertIn("f.yaml:2:15: note: the engine skips shadow_rules", errors)

    def test_costly(self):
        text = condition('request.method == "GET"')
        status, out, errors = self.run_it("encode", "--budget", "39", self.file("f.yaml", text))
        self.assertEqual((status, out), (1, b""))
        self.assertIn(
            'f.yaml:9:15: the condition of policy "p" may take 40 steps; the budget is 39 (--budget 40 would admit it) '
            "(15 TooCostly)",
            errors,
        )
        self.assertEqual(self.run_it("encode", "--budget", "40", "f.yaml")[0], 0)

    def test_all_mistakes_are_told(self):
        text = "rules: {policies: {p: {permissions: [{an: true}, {any: 1}]}, q: {principles: []}}}"
        status, out, errors = self.run_it("encode", self.file("f.yaml", text))
        self.assertEqual((status, out), (1, b""))
        for column, words in [(39, "has no field `an`"), (56, "true or false"), (66, "do you mean `principals`?")]:
            self.assertRegex(errors, rf"f.yaml:1:{column}: .*{words}")

    def test_command_line(self):
        self.file("f.bin", b"")
        for words, told in [
            ([], "usage: policy"),
            (["code"], "invalid choice"),
            (["encode"], "FILE"),
            (["encode", "nothing.yaml"], "policy: cannot read nothing.yaml: No such file"),
            (["decode", "nothing.bin"], "policy: cannot read nothing.bin: No such file"),
            (["decode", "."], "policy: cannot read .: Is a directory"),
            (["wrap", "--name", "f", "f.bin"], "--version"),
            (["wrap", "--version", "1", "f.bin"], "0 names for 1 files"),
            (["wrap", "--version", "1", "--name", "f"], "1 names for 0 files"),
        ]:
            with self.subTest(words):
                status, out, errors = self.run_it(*words)
                self.assertEqual((status, out), (2, b""))
                self.assertIn(told, errors)

    def test_help_tells_that_it_is_not_proved(self):
        status, out, _ = self.run_it("--help")
        self.assertEqual(status, 0)
        self.assertIn(b"no part of what is proved", out)

    def test_missing_package(self):
        """Without protoc on the path, and without the modules, the packages are named."""
        for program in (PROGRAM, TESTS):
            ran = subprocess.run([program, "decode", "f"], capture_output=True, env={"PATH": "/nowhere"}, cwd=self.room)
            self.assertEqual((ran.returncode, ran.stdout), (2, b""))
            self.assertIn(b"missing: protobuf-compiler\nto install: apt-get install", ran.stderr)
        kept = dict(requirements.MODULES)
        self.addCleanup(requirements.MODULES.update, kept)
        self.addCleanup(requirements.MODULES.clear)
        requirements.MODULES.update({"no_such_module": "python3-none", "no_such.module": "python3-other"})
        self.assertEqual(requirements.missing(), ["python3-none", "python3-other"])

    def test_another_python_first(self):
        """A python3 that stands first on the path is not taken."""
        other = self.room / "python3"
        other.write_text("#!/bin/sh\nexit 9\n")
        other.chmod(0o755)
        path = {"PATH": f"{self.room}:{os.environ['PATH']}", "PYTHONPATH": str(self.room)}
        self.assertEqual(self.run_it("encode", self.file("f.yaml", "rules: {}"), env=path)[:2], (0, b"\x0a\x00"))
