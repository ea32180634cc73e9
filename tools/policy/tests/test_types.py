"""The types of empty literals, where what stands around them tells them."""
import unittest

from policies.cel.infer import types_of_empty
from policies.cel.parse import parse
from policies.cel.typetext import read_type, type_text
from support import condition, encoded, told

# A text, and the types of its empty literals in the order of their ids; None where nothing tells one.
TOLD = [
    ("[].all(x, x == 0)", ["list(int)"]),
    ("[].exists(x, x)", ["list(bool)"]),
    ("[].exists(x, x.startsWith('a'))", ["list(string)"]),
    ("[].exists_one(x, x == request.path)", ["list(string)"]),
    ("[] == [1]", ["list(int)"]),
    ("[1u] != []", ["list(uint)"]),
    ("[] + [b'a']", ["list(bytes)"]),
    ("['a'] + []", ["list(string)"]),
    ("([] + []) == [1]", ["list(int)", "list(int)"]),
    ("request.headers == {}", ["map(string, string)"]),
    ("true ? [] : [true]", ["list(bool)"]),
    ("true ? {1: 'a'} : {}", ["map(int, string)"]),
    ("[[], [1]]", ["list(int)"]),
    ("[[1], [2], []][0] == []", ["list(int)", "list(int)"]),
    ("{'a': [], 'b': [1u]}", ["list(uint)"]),
    ("1 in []", ["list(int)"]),
    ("source.port in []", ["list(int)"]),
    ("connection.id in {}", [None]),
    ("[][0] == 1u", ["list(uint)"]),
    ("{}['a'] == 1", ["map(string, int)"]),
    ("{}.a == 'x'", ["map(string, string)"]),
    ("{}[[1][0]][0] == [true][0]", [None]),
    ("[1, 2].map(x, x + 1) == [2]", ["list(int)"]),
    ("[1, 2].map(x, x > 1, [x])", ["list(list(int))"]),
    ("request.headers.filter(k, k != '')", ["list(string)"]),
    ("request.headers.map(k, request.headers[k]) == []", ["list(string)", "list(string)"]),
    ("[].map(x, x + 1)", ["list(int)", "list(int)"]),
    ("[].filter(x, x == 'a').size()", ["list(string)", "list(string)"]),
    ("[[]].all(x, x == [1])", ["list(int)"]),
    ("[[1], []].all(x, x == [])", ["list(int)", "list(int)"]),
    ("[].all(x, [].all(y, x == y && y > 2))", ["list(int)", "list(int)"]),
    ("[].all(x, x.contains(''))", ["list(string)"]),
    ("[].map(x, {x: []}) == [{1: [2]}]", ["list(int)", "list(map(int, list(int)))", "list(int)"]),
    ("size([]) == 0", [None]),
    ("[].size() == 0", [None]),
    ("size({}) == 0", [None]),
    ("[] == []", [None, None]),
    ("[[]] == []", [None, None]),
    ("[].all(x, true)", [None]),
    ("[].map(x, x)", [None, None]),
    ("has({}.a)", [None]),
    ("'a' in {}", [None]),
    ("[].all(x, x.all(y, y))", [None]),
    ("[] == 1", [None]),
    ("[] == {}", [None, None]),
    ("f([])", [None]),
]


class Types(unittest.TestCase):
    """Inference, and the entries that the tool writes."""

    def test_told(self):
        for text, wanted in TOLD:
            with self.subTest(text):
                found = types_of_empty(parse(text))
                kinds = [found[literal] for literal in sorted(found, key=lambda literal: literal.id)]
                self.assertEqual([kind and type_text(kind) for kind in kinds], wanted)

    def test_dotted(self):
        found = types_of_empty(parse("request.headers == {}", dotted=True))
        self.assertEqual(list(found.values()), [("map", ("string",), ("string",))])

    def test_entry(self):
        """`[].all(x, x == 0)` has an entry list(int) on its literal, whose id is 1."""
        data = encoded(condition("[].all(x, x == 0)"))
        self.assertIn(bytes.fromhex("1a 0a 08 01 12 06 32 04 0a 02 18 02"), data)

    def test_no_entry(self):
        """What nothing tells gets no entry, and a note with the place."""
        data, plain = encoded(condition("size([]) == 0")), encoded(condition("size([]) == 0", "type_map: {}"))
        self.assertEqual(data, plain)
        [line] = told(condition("size([]) == 0"))
        self.assertTrue(line.startswith("filter.yaml:9:21: nothing tells the type"), line)
        self.assertIn('`type_map: {2: "list(int)"}`', line)

    def test_type_texts(self):
        for text in ["bool", "list(int)", "map(string, list(map(uint, bytes)))", "dyn", "list(dyn)"]:
            self.assertEqual(type_text(read_type(text)), text)
        for text in [
            "",
            "integer",
            "list",
            "list()",
            "list(int",
            "list(int))",
            "map(int)",
            "int int",
            "Int",
            "list[a]",
        ]:
            self.assertIsNone(read_type(text), text)
        self.assertIsNone(read_type("list(" * 2000 + "int" + ")" * 2000))
