"""Texts of CEL: the same trees as cel-go's parser makes, and back."""
import json
import unittest

from policies.cel.mistake import TextMistake
from policies.cel.parse import parse
from policies.cel.printing import describe, text_of
from policies.cel.tree import ACCUMULATOR, NEW_ACCUMULATOR, Call, in_order, rename_accumulators, shape
from support import HERE, tree_of


def stored(key):
    """The texts with the trees or the faults of cel-go 0.18.2, and of 0.30.0 with loops of two variables; go/cel_trees
    makes them."""
    found = []
    for name in ("cel_trees.jsonl", "cel_trees_two.jsonl"):
        with open(HERE / name, encoding="utf-8") as lines:
            found += [json.loads(line) for line in lines]
    return [line for line in found if key in line]


class Trees(unittest.TestCase):
    """The stored texts."""

    def test_same_trees(self):
        self.assertGreater(len(stored("tree")), 500)
        for line in stored("tree"):
            with self.subTest(line["text"]):
                self.assertEqual(shape(parse(line["text"])), shape(tree_of(bytes.fromhex(line["tree"]))))

    def test_texts_come_back(self):
        for line in stored("tree"):
            with self.subTest(line["text"]):
                tree = parse(line["text"])
                self.assertEqual(shape(parse(text_of(tree))), shape(tree))


    def test_same_mistakes(self):
        self.assertGreater(len(stored("fault")), 20)
        for line in stored("fault"):
            with self.subTest(line["text"]), self.assertRaises(TextMistake):
                parse(line["text"])


class Ids(unittest.TestCase):
    """The ids run in the order of the text."""

    def ids(self, text, dotted=False):
        """What stands at the ids, from 1 on."""
        nodes = sorted(in_order(parse(text, dotted)), key=lambda node: node.id)
        self.assertEqual([node.id for node in nodes], list(range(1, len(nodes) + 1)))
        return [self.name(node) for node in nodes]

    @staticmethod
    def name(node):
        """A word for a node."""
        if isinstance(node, Call):
            return node.function
        for attribute in ("name", "field", "value"):
            if isinstance(getattr(node, attribute, None), (str, int, bool)):
                return getattr(node, attribute)
        return type(node).__name__

    def test_order(self):
        self.assertEqual(self.ids("true && false"), [True, "_&&_", False])
        self.assertEqual(self.ids("a && b && c || d"), ["a", "_&&_", "b", "_&&_", "c", "_||_", "d"])
        self.assertEqual(self.ids("a.b == c[d]"), ["a", "b", "_==_", "c", "_[_]", "d"])
        self.assertEqual(self.ids("-f(a, !b)"), ["-_", "f", "a", "!_", "b"])
        self.assertEqual(self.ids("a ? b : c"), ["a", "_?_:_", "b", "c"])
        self.assertEqual(self.ids("a.f(b)"), ["a", "f", "b"])
        self.assertEqual(self.ids("{a: [b]}"), ["StructLiteral", "a", "Entry", "ListLiteral", "b"])
        self.assertEqual(self.ids("has(a.b)"), ["a", "b"])

    def test_order_of_a_macro(self):
        accumulator = "__result__"
        self.assertEqual(
            self.ids("r.all(x, p)"),
            ["r", "Comprehension", True, "@not_strictly_false", accumulator, accumulator, "_&&_", "p", accumulator],
        )

    def test_dotted(self):
        self.assertEqual(self.ids("request.method == a", dotted=True), ["request.method", "_==_", "a"])
        self.assertEqual(self.ids("request.headers.a", dotted=True), ["request.headers", "a"])
        self.assertEqual(self.ids("has(request.a)", dotted=True), ["request", "a"])
        loop = self.ids("[1].exists(request, request.a)", dotted=True)
        self.assertIn("request", loop)
        self.assertNotIn("request.a", loop)


class Printing(unittest.TestCase):
    """Texts as people would write them."""

    def test_newer_accumulator(self):
        """A loop of newer versions is described as its macro; its text says another name of the accumulator."""
        text = "x.all(i, [i].exists(j, k, j == k))"
        tree = parse(text)
        rename_accumulators(tree, ACCUMULATOR, NEW_ACCUMULATOR)
        self.assertEqual(describe(tree), text)
        self.assertIsNone(text_of(tree))

    def test_plain_forms(self):
        for text in [
            'request.method == "GET" && !(a in [1, 2u]) || x.all(i, i > -1)',
            "a && b && c && d",
            "(a || b) && c",
            "a - (b - c) - d",
            "a ? b : c ? d : e",
            "-(1)",
            "!(!a)",
            '{"a": [1.5, null], true: b"\\x00\\xff"}',
            "has(a.b) ? x.map(i, i > 0, i * 2) : y.filter(j, has(j.k))",
            'x.exists_one(i, i == "\\n\\u200bé")',
            "x.all(i, j, i < j) || y.exists(k, v, k == v) && z.exists_one(k, v, v)",
            "x.transformList(i, j, i + j) + x.transformList(i, j, i < j, [i].map(k, j))",
            "x.transformMap(k, v, k < v, v)",
            "(-1).size() + (1).size()",
        ]:
            with self.subTest(text):
                self.assertEqual(text_of(parse(text)), text)
