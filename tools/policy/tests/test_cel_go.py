"""Random texts of CEL: cel-go's own checked expressions up to ids, and no type where cel-go finds none.

These run where CELCHECK names the program of `go/cel_check`, built with cel-go (Debian packages it as
golang-github-google-cel-go-dev), or where that is GOPEERS/bin/celcheck. CEL_GO_COUNT says how many texts of each spelling
are compared. Loops of two variables need cel-go 0.30 and its tag newcel: CELCHECK30, or GOPEERS/bin/celcheck30.
"""
import json
import os
import pathlib
import random
import subprocess
import unittest

from policies.cel.attributes import TYPES
from policies.cel.check import check
from policies.cel.infer import types_of_empty
from policies.cel.parse import parse
from policies.cel.tree import ACCUMULATOR, NEW_ACCUMULATOR, in_order, rename_accumulators, shape
from policies.cel.typetext import type_text
from policies.messages import CHECKED_EXPR, descriptor
from policies.reader import read
from policies.trees import message_tree, message_type

PEERS = pathlib.Path(os.environ.get("GOPEERS", "gopeers")) / "bin"
PROGRAM = pathlib.Path(os.environ.get("CELCHECK") or PEERS / "celcheck")
NEWER = pathlib.Path(os.environ.get("CELCHECK30") or PEERS / "celcheck30")
COUNT = int(os.environ.get("CEL_GO_COUNT", "300"))
LEAVES = {
    "bool": ["true", "false", "connection.mtls"],
    "int": ["0", "1", "-7", "9223372036854775807", "source.port", "destination.port"],
    "uint": ["0u", "3u", "connection.id"],
    "string": ["''", "'a'", '"x-user"', "request.method", "request.path", "request.host", "source.address"],
    "bytes": ["b''", "b'a'", "b'\\xff'"],
    "list(int)": ["[1]", "[1, 2, 3]", "[source.port]"],
    "list(string)": ["['a']", "['a', request.path]"],
    "map(string, string)": ["request.headers", "{'a': 'b'}"],
    "map(int, bool)": ["{1: true}", "{1: true, 2: false}"],
}
SAME = ["==", "!="]
ORDERED = ["<", "<=", ">", ">="]


class Maker:
    """Makes random texts, most of which have a type."""

    def __init__(self, seed, two_variables=False):
        self.random = random.Random(seed)
        self.two_variables = two_variables

    def text(self, kind, depth=0, names=()):
        """A text of a type; now and then of another one. `names` are variables of loops with their types."""
        if self.random.random() < 0.01:
            kind = self.random.choice(list(LEAVES))
        known = [name for name, held in names if held == kind]
        if depth > 3 or self.random.random() < 0.2:
            return self.random.choice(known + LEAVES[kind])
        makers = [getattr(self, "_" + kind.split("(")[0], None), self._conditional, self._index]
        maker = self.random.choice([one for one in makers if one is not None])
        return maker(kind, depth + 1, names)

    def _conditional(self, kind, depth, names):
        parts = [self.text("bool", depth, names), self.text(kind, depth, names), self.text(kind, depth, names)]
        return "(%s ? %s : %s)" % tuple(parts)

    def _index(self, kind, depth, names):
        containers = {
            "string": ("map(string, string)", "string"),
            "int": ("list(int)", "int"),
            "bool": ("map(int, bool)", "int"),
        }
        if kind not in containers:
            return self.text(kind, depth + 2, names)
        container, key = containers[kind]
        return f"{self.text(container, depth, names)}[{self.text(key, depth, names)}]"

    def _int(self, kind, depth, names):
        choice = self.random.randrange(5)
        if choice == 4:
            return f"int({self.text('uint', depth, names)})"
        if choice == 0:
            return f"size({self.text(self.random.choice(['string', 'list(int)', 'bytes']), depth, names)})"
        if choice == 1:
            return f"-({self.text('int', depth, names)})"
        sign = self.random.choice("+-*/%")
        return f"({self.text('int', depth, names)} {sign} {self.text('int', depth, names)})"

    def _uint(self, kind, depth, names):
        if self.random.random() < 0.2:
            return f"uint({self.text('int', depth, names)})"
        return f"({self.text('uint', depth, names)} {self.random.choice('+-*/%')} {self.text('uint', depth, names)})"

    def _string(self, kind, depth, names):
        if self.random.random() < 0.3:
            return f"string({self.text(self.random.choice(['int', 'uint', 'bytes']), depth, names)})"
        return f"({self.text('string', depth, names)} + {self.text('string', depth, names)})"

    def _bytes(self, kind, depth, names):
        return f"bytes({self._string(kind, depth, names)})"

    def _list(self, kind, depth, names):
        element = kind[5:-1]
        choice = self.random.randrange(5 if self.two_variables else 4)
        if choice == 0:
            return f"({self.text(kind, depth, names)} + {self.text(kind, depth, names)})"
        if choice == 1:
            inner = [*names, ("v", element)]
            return f"{self.text(kind, depth, names)}.filter(v, {self.text('bool', depth, inner)})"
        if choice == 2:
            inner = [*names, ("w", "int")]
            return f"{self.text('list(int)', depth, names)}.map(w, {self.text(element, depth, inner)})"
        if choice == 4:
            walked, inner = self._walked(depth, names)
            test = self.text("bool", depth, inner) + ", " if self.random.random() < 0.5 else ""
            return f"{walked}.transformList(i, y, {test}{self.text(element, depth, inner)})"
        return f"[{self.text(element, depth, names)}, {self.text(element, depth, names)}]"

    def _bool(self, kind, depth, names):
        choice = self.random.randrange(8)
        if choice < 2:
            sign = self.random.choice(["&&", "||"])
            return f"({self.text('bool', depth, names)} {sign} {self.text('bool', depth, names)})"
        if choice == 2:
            return f"!({self.text('bool', depth, names)})"
        if choice == 3:
            return self._loop(depth, names)
        if choice == 4:
            test = self.random.choice(["contains", "startsWith", "endsWith"])
            return f"{self.text('string', depth, names)}.{test}({self.text('string', depth, names)})"
        if choice == 5:
            return self.random.choice(
                [
                    f"{self.text('string', depth, names)} in {self.text('map(string, string)', depth, names)}",
                    f"{self.text('int', depth, names)} in {self.text('list(int)', depth, names)}",
                    "has(request.headers.host)",
                ]
            )
        of = self.random.choice(list(LEAVES))
        signs = SAME if "(" in of else SAME + ORDERED
        return f"{self._closed(of, depth, names)} {self.random.choice(signs)} {self._closed(of, depth, names)}"

    def _closed(self, kind, depth, names):
        text = self.text(kind, depth, names)
        return f"({text})" if kind == "bool" else text

    def _loop(self, depth, names):
        loop = self.random.choice(["all", "exists", "exists_one"])
        if self.two_variables and self.random.random() < 0.7:
            walked, inner = self._walked(depth, names)
            return f"{walked}.{loop}(i, y, {self.text('bool', depth, inner)})"
        if self.random.random() < 0.5:
            inner = [*names, ("k", "string")]
            return f"request.headers.{loop}(k, {self.text('bool', depth, inner)})"
        inner = [*names, ("x", "int")]
        return f"{self.text('list(int)', depth, names)}.{loop}(x, {self.text('bool', depth, inner)})"

    def _walked(self, depth, names):
        """What a loop of two variables goes over, and the names with its variables."""
        kind = self.random.choice(["list(int)", "list(string)", "map(string, string)", "map(int, bool)"])
        parts = kind[:-1].partition("(")[2].split(", ")
        inner = [*names, ("i", parts[0] if len(parts) == 2 else "int"), ("y", parts[-1])]
        return self.text(kind, depth, names), inner


class Compared(unittest.TestCase):
    """Texts by cel-go and by the tool."""

    def compare_all(self, program, two_variables):
        """Compares random texts of each spelling."""
        for spelling, seed in (("ident", 3), ("select", 4)):
            maker = Maker(seed, two_variables)
            texts = [maker.text("bool") for _ in range(COUNT)]
            asked = [{"attributes": {name: type_text(kind) for name, kind in TYPES.items()}}]
            asked += [{"expr": text, "spelling": spelling} for text in texts]
            lines = "".join(json.dumps(line) + "\n" for line in asked)
            ran = subprocess.run([program], input=lines, capture_output=True, text=True)
            self.assertEqual(ran.returncode, 0, ran.stderr)
            found = [self.compare(*pair) for pair in zip(texts, map(json.loads, ran.stdout.splitlines()), strict=True)]
            self.assertGreater(sum(found), COUNT * 2 // 3)

    def compare(self, text, answer):
        """Compares one text in the spelling that cel-go's tree has; whether both find a type."""
        typed = "checked_hex" in answer
        if not typed:
            self.assertEqual(answer["stage"], "check", (text, answer))
            self.assertTrue(self.typing(parse(text)).faults, (text, answer["error"]))
            return False
        checked = read(descriptor(CHECKED_EXPR), bytes.fromhex(answer["checked_hex"]))
        theirs = rename_accumulators(message_tree(checked.get("expr")), NEW_ACCUMULATOR, ACCUMULATOR)
        ours = next((tree for tree in (parse(text), parse(text, dotted=True)) if shape(tree) == shape(theirs)), None)
        self.assertIsNotNone(ours, text)
        typing = self.typing(ours)
        if typing.faults:
            return False
        kinds = {number: message_type(kind) for number, kind in checked.get("type_map")}
        for mine, their in zip(in_order(ours), in_order(theirs)):
            if mine in typing.types:
                self.assertEqual(typing.types[mine], kinds.get(their.id), (text, mine))
        return True

    def typing(self, tree):
        """The types that the tool finds, empty literals included."""
        entries = {literal.id: kind for literal, kind in types_of_empty(tree).items() if kind is not None}
        return check(tree, entries, {})


@unittest.skipUnless(PROGRAM.exists(), "CELCHECK names no program of go/cel_check")
class Random(Compared):
    """The same texts by cel-go and by the tool."""

    def test_random(self):
        self.compare_all(PROGRAM, two_variables=False)


@unittest.skipUnless(NEWER.exists(), "CELCHECK30 names no program of go/cel_check with cel-go 0.30")
class TwoVariables(Compared):
    """The same with loops of two variables."""

    def test_random(self):
        self.compare_all(NEWER, two_variables=True)
