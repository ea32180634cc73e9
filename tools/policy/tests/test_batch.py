"""Many requests by one process of the engine, which is a script here."""
import os
import pathlib
import sys
import tempfile
import unittest

from policies import engine
from policies.bounds import Budget
from policies.places import Mistake, Source
from policies.workers import in_processes

SCRIPT = """#!%s -S
import json, os, sys
with open(os.environ["CALLS"], "a") as calls:
    calls.write(" ".join(sys.argv[1:]) + "\\n")
for number, line in enumerate(sys.stdin, 1):
    asked = json.loads(line)
    if set(asked) - {"head", "facts"} or not asked.get("facts", {"a": 1}):
        print(json.dumps({"cause": "no such member", "line": number}))
    elif "bad" in asked.get("facts", {}):
        print(json.dumps({"cause": "unknown fact bad", "line": number}))
    elif "é" in asked["head"]:
        print(json.dumps({"cause": "no token", "head": 400}))
    else:
        print(json.dumps({"verdict": "allow", "policy": 0, "name": str(asked.get("facts")), "trials": []}))
""" % sys.executable


def mistaken(number):
    """The number, or for 30 a mistake in a file."""
    if number == 30:
        raise Source("f.yaml", b"a: b").mistake((0, 3), "no letter", 5)
    return number


class Processes(unittest.TestCase):
    """Work of several processes."""

    def test_order(self):
        self.assertEqual(list(in_processes(str, list(range(50)))), list(map(str, range(50))))
        self.assertEqual(list(in_processes(str, [])), [])

    def test_mistake(self):
        """A mistake keeps its place and its words."""
        with self.assertRaises(Mistake) as caught:
            list(in_processes(mistaken, list(range(50))))
        self.assertEqual((caught.exception.place, caught.exception.number), ((0, 3), 5))
        self.assertTrue(str(caught.exception).startswith("f.yaml:1:4: no letter (5 OutOfRange)"), caught.exception)


class Batch(unittest.TestCase):
    """Runs of the script."""

    def setUp(self):
        self.room = tempfile.TemporaryDirectory()
        self.program = pathlib.Path(self.room.name) / "rbacd"
        self.program.write_text(SCRIPT)
        self.program.chmod(0o755)
        self.calls = pathlib.Path(self.room.name) / "calls"
        os.environ["CALLS"] = str(self.calls)

    def tearDown(self):
        del os.environ["CALLS"]
        self.room.cleanup()

    def test_answers(self):
        heads = [b"GET / HTTP/1.1\r\n\r\n", b"GET / HTTP/1.1\r\n\r\n", "GET /é HTTP/1.1\r\n\r\n".encode()]
        requests = [engine.Request(heads[0], {}), engine.Request(heads[1], {"source.port": 1})]
        requests += [engine.Request(heads[2], {}), engine.Request(heads[0], {"bad": 1})] + 997 * requests[:1]
        with engine.Engine(self.program) as asked:
            answers = asked.decisions(b"", requests, Budget(40))
        self.assertEqual([answers[0]["name"], answers[1]["name"]], ["None", "{'source.port': 1}"])
        self.assertEqual(answers[2], {"cause": "no token", "head": 400})
        self.assertEqual(answers[3], {"bad_facts": "unknown fact bad"})
        self.assertEqual(len(answers), 1001)
        calls = self.calls.read_text().splitlines()
        self.assertEqual(len(calls), 1, "one process for all requests")
        self.assertTrue(calls[0].endswith("--budget 40 --json --batch"), calls[0])

    def test_visits(self):
        """The visits are given to the engine if they are not the usual ones."""
        with engine.Engine(self.program) as asked:
            asked.decisions(b"", [engine.Request(b"", {})], Budget(40, 7))
        self.assertTrue(self.calls.read_text().endswith("--budget 40 --visits 7 --json --batch\n"))

    def test_no_answer(self):
        for words in ("sys.exit(2)", "print('no JSON'); print(2 * '{}'); sys.exit()"):
            self.program.write_text(SCRIPT.replace("for number", words + "\nfor number"))
            with engine.Engine(self.program) as asked, self.assertRaises(engine.NoEngine):
                asked.decisions(b"", [engine.Request(b"", {})] * 2, Budget(40))
