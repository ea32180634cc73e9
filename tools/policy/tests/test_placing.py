"""The places that the engine names, and the lines of a file that they are."""
import json
import re
import unittest

from policies.forms.envoy import Form
from policies.places import Source
from policies.placing import EnginePlace, engine_place, place_in_file
from policies.reading import encoded
from support import POLICY
from support import encoded as filter_bytes
from test_outputs import Room

INFO = "        source_info: {location: %s, line_offsets: [9, 30], positions: {3: 13, 8: 21}}\n"
TREE = POLICY + """      checked_condition:
        expr:
          id: 1
          call_expr:
            function: "!_"
            args:
            - id: 7
              const_expr: {bool_value: true}
        type_map: {1: bool, 7: bool}
"""
TEXT = POLICY + "      checked_condition:\n        text: request.path == 'a' && source.port == 1\n"
PLACES = {
    '  policy "p": permissions[0].and_rules.rules[2]: 5 OutOfRange': (
        ("rules", "policies", "p", "permissions", 0, "and_rules", "rules", 2),
        None,
    ),
    '  policy "a\\"b": 4 Missing': (("rules", "policies", 'a"b'), None),
    '  policy "p": checked_condition.expr, node 5: 10 NoOverload': (
        ("rules", "policies", "p", "checked_condition", "expr"),
        5,
    ),
    '  policy "p": condition, node -5: 9 UnknownName': (("rules", "policies", "p", "condition"), -5),
    '  policy "p": checked_condition.type_map[5]: 11 BadTypeEntry': (
        ("rules", "policies", "p", "checked_condition", "type_map", 5),
        5,
    ),
    '  policy "p": checked_condition.reference_map[-5]: 12 BadReference': (
        ("rules", "policies", "p", "checked_condition", "reference_map", -5),
        -5,
    ),
    '  policy "\\u{1b}\\n\\\\": permissions[0].header.string_match.prefix: 5 OutOfRange': (
        ("rules", "policies", "\x1b\n\\", "permissions", 0, "header", "string_match", "prefix"),
        None,
    ),
    "  rules.action: 5 OutOfRange": (("rules", "action"), None),
    '  policy "p", field 5: 3 UnknownField': (("rules", "policies", "p"), None),
    '  policy "p": permissions[0].header, field 13: 3 UnknownField': (
        ("rules", "policies", "p", "permissions", 0, "header"),
        None,
    ),
    '  policy "p": checked_condition.type_map: 3 UnknownField': (
        ("rules", "policies", "p", "checked_condition", "type_map"),
        None,
    ),
    "no such thing: 3 UnknownField": ((), None),
    "a value is outside its range": ((), None),
}


class Placing(unittest.TestCase):
    """Paths and nodes."""

    def test_engine_places(self):
        for line, (path, node) in PLACES.items():
            with self.subTest(line):
                place = re.sub(r": \d+ \w+$", "", line.strip())
                self.assertEqual(engine_place(place), EnginePlace(path, node))
        self.assertEqual(engine_place(None), EnginePlace((), None))

    def test_lines(self):
        source = Source("f.yaml", TEXT.encode())
        made = encoded(source, Form("", source.compose()), 1_000_000, False)
        condition = ("rules", "policies", "p", "checked_condition", "expr")
        for path, node, place in [
            (("rules", "policies", "p", "permissions", 0, "any"), None, (4, 13)),
            (condition, None, (8, 14)),
            (condition, 3, (8, 27)),
            (condition, 7, (8, 44)),
            (condition, 99, (8, 14)),
            (condition[:-1] + ("type_map", 3), 3, (8, 27)),
        ]:
            with self.subTest(path, node=node):
                self.assertEqual(place_in_file(EnginePlace(path, node), made.message, made.encoding), place)

    def test_trees(self):
        """A node of a tree, and an entry of a map, are where the file has them."""
        made = encoded(Source("f.yaml", TREE.encode()), Form("", Source("f.yaml", TREE.encode()).compose()), 10, False)
        condition = ("rules", "policies", "p", "checked_condition")
        for path, node, place in [
            (condition + ("expr",), 7, (13, 14)),
            (condition + ("expr",), 8, (9, 10)),
            (condition + ("type_map", 7), 7, (15, 31)),
            (condition + ("reference_map", 8), 8, (8, 8)),
        ]:
            with self.subTest(path, node=node):
                self.assertEqual(place_in_file(EnginePlace(path, node), made.message, made.encoding), place)


class FakeEngine(Room):
    """An engine that refuses what the tool does not, and names a place."""

    def told(self, refusal, place, file):
        """What `policy check` prints of a file where the engine refuses it there."""
        number, name = refusal.split(" ")
        answer = {"refused": int(number), "name": name, "cause": "rbacd", "place": place}
        (self.room / "engine").write_text(f"#!/bin/sh\ncat << 'EOF'\n{json.dumps(answer)}\nEOF\nexit 1\n")
        (self.room / "engine").chmod(0o755)
        status, out, errors = self.run_here("check", "--engine", "./engine", file)
        self.assertEqual((status, errors), (1, ""))
        return out.decode()

    def test_text(self):
        out = self.told("10 NoOverload", 'policy "p": checked_condition.expr, node 3', self.file("f.yaml", TEXT))
        self.assertIn("f.yaml:9:28: the engine refuses node 3, request.path == \"a\": ", out)

    def test_bytes(self):
        """A node of bytes is told with its text, and with its place where source_info has it."""
        place = 'policy "p": checked_condition.expr, node %d'
        self.file("f.bin", filter_bytes(TEXT))
        out = self.told("10 NoOverload", place % 3, "f.bin")
        self.assertIn('f.bin: policy "p": checked_condition.expr: the engine refuses node 3, request.path == "a": ', out)
        self.file("g.bin", filter_bytes(TEXT + INFO % '"<input>"'))
        out = self.told("10 NoOverload", place % 8, "g.bin")
        self.assertIn('the engine refuses node 8, source.port == 1, line 2, column 13 of its text: ', out)
        self.file("h.bin", filter_bytes(TEXT + INFO % "policy.cel"))
        for node, words in ((3, "policy.cel:2:5"), (8, "policy.cel:2:13"), (4, "")):
            out = self.told("11 BadTypeEntry", f'policy "p": checked_condition.type_map[{node}]', "h.bin")
            self.assertIn(f"the engine refuses node {node}, ", out)
            self.assertIn(f", {words}: " if words else '"a": rbacd', out)

    def test_entries(self):
        """An entry of a map has an id too; it is told with its value."""
        text = POLICY + "      checked_condition: {text: '{1: true}[1]'}\n"
        self.file("f.bin", filter_bytes(text))
        place = 'policy "p": checked_condition.expr, node %d'
        lines = [self.told("9 UnknownName", place % node, "f.bin") for node in range(1, 7)]
        found = [re.findall(r"refuses node \d, (.*): rbacd", line) for line in lines]
        self.assertEqual(found, [["{1: true}"], ["1"], ["true"], ["true"], ["{1: true}[1]"], ["1"]])

    def test_own_findings(self):
        """What the tool finds in bytes is told at the place of source_info too."""
        text = TEXT.replace("== 1", "== '1'") + INFO % "policy.cel"
        for source, words in ((text, ", policy.cel:2:13: source.port is an int"), (text.replace("8: 21", "8: -9"), ": source.port")):
            self.file("f.bin", filter_bytes(source))
            status, out, _ = self.run_it("check", "--without-engine", "f.bin")
            self.assertEqual(status, 1)
            self.assertRegex(out.decode(), rf"f.bin: policy \"p\": checked_condition.expr.call_expr.args\[1\]: byte \d+{words}")
