"""The examples: each policy's bytes are the stored ones, and those of encoders that are not the tool."""
import shutil
import subprocess
import tempfile
import unittest

from google.protobuf import json_format

import cases
from policies import messages
from policies.decode import decode
from random_filters import new
from support import ENGINE, NO_ENGINE, TOP, encoded
from yaml_data import as_data

STORED = TOP / "examples"
OTHERS = TOP / "tools" / "policy" / "examples"


def without_type(text):
    """A policy's data without `@type`, which leaves nothing in the bytes."""
    data = as_data(text)
    data.pop("@type", None)
    return data


class Stored(unittest.TestCase):
    """The repository's examples, policies beside their bytes."""

    def test_make(self):
        ran = subprocess.run([STORED / "make", "test"], capture_output=True)
        self.assertEqual((ran.returncode, ran.stderr), (0, b""))

    def test_make_tells_other_bytes(self):
        with tempfile.TemporaryDirectory() as room:
            shutil.copytree(TOP / "tools", f"{room}/tools", ignore=shutil.ignore_patterns("tests", "__pycache__"))
            shutil.copytree(STORED, f"{room}/examples")
            with open(f"{room}/examples/any_any.bin", "ab") as file:
                file.write(b"\0")
            ran = subprocess.run([f"{room}/examples/make", "test"], capture_output=True)
            self.assertEqual(ran.returncode, 1)
            self.assertIn(b"the stored bytes of any_any.bin are not those of its text", ran.stderr)
            with open(f"{room}/examples/deny_any.yaml", "a") as file:
                file.write("shadow_rules: {}\n")
            ran = subprocess.run([f"{room}/examples/make"], capture_output=True)
            self.assertEqual(ran.returncode, 1)
            self.assertIn(b"deny_any.yaml and deny_any.bin.hex spell different bytes", ran.stderr)

    def test_each_filter_has_its_policy(self):
        for file in STORED.glob("*.bin"):
            with self.subTest(file.name):
                text = file.with_suffix(".yaml").read_text()
                self.assertEqual(encoded(text), file.read_bytes())
                self.assertEqual(as_data(decode(file.read_bytes())), as_data(text))


class Others(unittest.TestCase):
    """Policies to read and to try."""

    def test_bytes(self):
        for file in sorted(OTHERS.glob("*.yaml")):
            with self.subTest(file.name):
                text = file.read_text()
                data = encoded(text)
                self.assertEqual(as_data(decode(data)), without_type(text))
                if file.stem in cases.BYTES:
                    self.assertEqual(data.hex(" "), cases.BYTES[file.stem][1])
                else:
                    message = new(messages.FILTER)
                    json_format.ParseDict(without_type(text), message)
                    self.assertEqual(message.SerializeToString(deterministic=True), data)

    @unittest.skipUnless(ENGINE.exists(), NO_ENGINE)
    def test_tests(self):
        """The example of tests runs as its first line says."""
        file = TOP / "examples" / "policies" / "condition.tests.yaml"
        command = file.read_text().split("\n")[0].rpartition(": ")[2].split()
        self.assertEqual(command[:2], ["tools/policy/policy", "test"])
        ran = subprocess.run([*command, "--engine", ENGINE], cwd=TOP, capture_output=True, text=True)
        self.assertEqual((ran.returncode, ran.stderr), (0, ""))
        self.assertIn("6 passed, 0 failed", ran.stdout)
