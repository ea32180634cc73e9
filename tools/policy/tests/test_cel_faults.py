"""The faults of conditions' types: the place, the number and the words; and what a condition costs."""
import unittest

import test_bounds
from policies.cel.check import check
from policies.cel.cost import TooMuch, cost
from policies.cel.infer import types_of_empty
from policies.cel.mistake import TextMistake
from policies.cel.parse import parse
from policies.encode import encode
from policies.places import Source
from support import POLICY, condition, told, tree_condition

# A text, the column of its one fault counted from 1, the refusal's number, and words.
FAULTS = [
    (
        'source.port == "80"',
        13,
        10,
        "source.port is an int; == has no overload for int and string: write 80 without quotes",
    ),
    ('"80" == source.port', 6, 10, "source.port is an int; == has no overload for string and int"),
    ("connection.id == 4", 15, 10, "connection.id is a uint; == has no overload for uint and int: write 4u"),
    ('connection.mtls == "true"', 17, 10, ": write true without quotes"),
    ("request.method == 1", 16, 10, ': write "1" in quotes'),
    ('request["method"] == "GET"', 1, 9, "`request` has no index: write `request.method`"),
    ('request["x-user"] == ""', 1, 9, 'a header is request.headers["x-user"]'),
    ("request == 1", 1, 9, "`request` is no value by itself"),
    ("request.headers.transformMap(k, v, v).size() == 0", 17, 9, "write m.transformList(k, v, ..) for a list"),
    ("request.headers.transformMapEntry(k, v, {v: k}).size() == 0", 17, 9, "test the entries, as in m.all(k, v, ..)"),
    ("[1].map(i, x, i) == [1]", 12, 9, "with two it is x.transformList(index, element, result)"),
    ("[1].filter(i, x, i) == [1]", 5, 9, "with two variables it is x.transformList(index, element, test, result)"),
    ("request.headers.exists(k, v, v == 1)", 32, 10, 'write "1" in quotes'),
    ("[1].exists(i, x, i == x && i == 'a')", 30, 10, "i is an int; == has no overload for int and string"),
    ("[1].exists_one(i, x, x)", 22, 10, "x is an int; exists_one takes a test that is a bool"),
    ("[1].transformList(i, x, x, i) == [1]", 25, 10, "x is an int; transformList takes a test that is a bool"),
    ("source.port.all(i, x, true)", 13, 10, "source.port is an int; all goes over a list or a map"),
    ('request.mehtod == "GET"', 9, 9, "`request` has headers, host, id, method, path"),
    ('request.mehtod == "GET"', 9, 9, "do you mean `method`?"),
    ('request.header["a"] == ""', 9, 9, 'do you mean request.headers["name"]?'),
    ("request.time > 3", 9, 9, "Envoy's attribute request.time is not in the profile"),
    ("response.code == 200", 1, 9, "Envoy's `response` is not in the profile"),
    ("port == 80", 1, 9, "do you mean `source.port`?"),
    ("[1].all(user, usr == 1)", 15, 9, "do you mean `user`?"),
    ("request.auth.claims['a'] == 'b'", 9, 9, "the front must remove that header from what clients send"),
    ("source.principal == 'a'", 8, 9, "write connection.uri_san_peer_certificate, or the principal `authenticated`"),
    ("source.ip == '10.0.0.1'", 8, 9, "write the principal direct_remote_ip"),
    ("ip(source.address) == 1", 1, 9, "write the principal direct_remote_ip"),
    ("cidr('10.0.0.0/8') == 1", 1, 9, "write the principal direct_remote_ip"),
    ("cel.bind(x, 1, x == 1)", 1, 9, "there are no variables of one's own"),
    ("optional.of(1) == 1", 1, 9, "there are no optional values"),
    ("math.greatest(1, 2) == 2", 1, 9, "write `x > y ? x : y`"),
    ("sets.contains([1], [1])", 1, 9, "for `sets.contains(a, b)` write `b.all(x, x in a)`"),
    ("request.path.split('/') == ['']", 14, 9, "write startsWith, endsWith or contains"),
    ("request.url.path == '/'", 9, 9, "write request.path (with the query) or request.url_path (without it)"),
    ("request.path.matches('a.*')", 14, 9, "there are no regular expressions"),
    ("request.path.startswith('a')", 14, 9, "do you mean `startsWith`?"),
    ("int('1') == 1", 1, 10, '"1" is a string; int takes a uint, and no text is read as a number'),
    ("uint('1') == 1u", 1, 10, "uint takes an int, and no text is read as a number"),
    ("int(1) == 1", 1, 10, "1 is an int already: leave out int(..)"),
    ("string(request.path) == ''", 1, 10, "request.path is a string already: leave out string(..)"),
    ("string(true) == ''", 1, 10, 'string takes an int, a uint or bytes: write true ? "true" : "false"'),
    ("bytes(1) == b''", 1, 10, "1 is an int; bytes takes a string"),
    ("int(1u, 2u) == 1", 1, 10, "`int` takes one value: int(x)"),
    ("1u.int() == 1", 4, 10, "`int` takes one value: int(x)"),
    ("bool(1) == true", 1, 9, "nothing is converted to a bool"),
    ("connection.id == source.port", 15, 10, "== has no overload for uint and int: write int(connection.id)"),
    ("all(x)", 1, 9, "`all` is written as x.all(element, test) or x.all(index, element, test)"),
    ("has(request.method)", 13, 9, "an attribute that is absent is an error"),
    ("[1, 2].all(x, x)", 15, 10, "x is an int; all takes a test that is a bool"),
    ("[1].filter(x, x + 1) == [1]", 17, 10, "x + 1 is an int; filter takes a test that is a bool"),
    ("request.path.exists(x, true)", 14, 10, "request.path is a string; exists goes over a list or a map"),
    ('[1, "a"] == [1]', 5, 10, "elements of a list have one type"),
    ('{1: 2, "a": 3} == {1: 2}', 8, 10, "keys of a map have one type"),
    ('{1: 2, 3: "a"} == {1: 2}', 11, 10, "values of a map have one type"),
    ("{[1]: 2}[[1]] == 2", 2, 10, "keys are bool, int, uint or string"),
    ("!request.path", 1, 10, "request.path is a string; ! takes bools"),
    ("request.path && true", 14, 10, "request.path is a string; && takes bools"),
    ("-1u == 1u", 1, 10, "- has no overload for uint"),
    ("size(1) == 1", 1, 10, "size takes a string, bytes, a list or a map"),
    ("size(1, 2) == 1", 1, 10, "x.size() or size(x)"),
    ("contains('a', 'b')", 1, 10, "text.contains(part)"),
    ("request.headers[1] == 'a'", 16, 10, "the keys of request.headers are of type string"),
    ("request.path[0] == 'a'", 13, 10, "only a list or a map has an index"),
    ("request.path.a == 'a'", 14, 10, "has no field a"),
    ("true ? 1 : 'a'", 6, 10, "one side of : is an int and the other a string"),
    ("1 ? true : false", 3, 10, "a bool is expected before ?"),
    ("'a' in 'abc'", 5, 10, "whole.contains(part)"),
    ("request.path.contains(1)", 14, 10, "contains takes two strings"),
    ("request.headers < request.headers", 17, 10, "< has no overload for map(string, string)"),
    ("request.method", 9, 13, "request.method is a string; a condition is a bool"),
    ("size([]) == 0", 6, 14, "nothing tells the type of this empty list"),
    ("1.5 == 1.5 || true", 1, 6, "the profile has no doubles"),
    ("request.path == null", 17, 6, "the profile has no null"),
]

# A text and its bound.
COSTS = {
    **test_bounds.BOUNDS,
    "request.headers.all(k, request.headers[k].size() < 10)": 791_686,
    # 1 + 65 + 2 before the loop, 64 turns of 2 + (1 + 1 + (1 + 1 + 4096 + 1 + 3) + 1) + 4, and 2 behind it
    "request.headers.all(k, v, v.size() < 10)": 263_174,
    "request.headers.all(k, v, k.size() < 10)": 9_222,
}


def faults_of(text):
    """The types of a text, whose empty literals have the types that are told."""
    tree = parse(text)
    entries = {literal.id: kind for literal, kind in types_of_empty(tree).items() if kind is not None}
    return tree, check(tree, entries, {})


class Faults(unittest.TestCase):
    """Each fault at its place of a file."""

    def test_places(self):
        for text, column, number, words in FAULTS:
            with self.subTest(text):
                lines = told(POLICY + "      checked_condition:\n        text: |-\n          " + text + "\n")
                here = [line for line in lines if line.startswith(f"filter.yaml:10:{10 + column}: ")]
                self.assertTrue(any(words in line and f" ({number} " in line for line in here), lines)

    def test_line_and_column(self):
        """The file's name, line and column, and the words, in a text of several lines."""
        first = POLICY + "    q:\n      permissions: [{any: true}]\n      principals: [{any: true}]\n"
        text = first + "      checked_condition:\n        text: >-\n          true &&\n" + 18 * " " + 'source.port == "80"\n'
        source = Source("policy.yaml", text.encode())
        [found] = encode(source)[1]
        wanted = "policy.yaml:14:31: source.port is an int; == has no overload for int and string"
        self.assertTrue(source.tell(found.place, found.told()).startswith(wanted), source.tell(found.place, found.told()))

    def test_unchecked(self):
        """The same at the same place of an unchecked condition's text."""
        for text, column, number, words in FAULTS:
            if number != 14:
                with self.subTest(text):
                    lines = told(POLICY + "      condition:\n        text: |-\n          " + text + "\n")
                    here = [line for line in lines if line.startswith(f"filter.yaml:10:{10 + column}: ")]
                    self.assertTrue(any(words in line and f" ({number} " in line for line in here), lines)

    def test_unchecked_empty_literals(self):
        for text, column, words in [
            ("[].all(x, x == 0)", 1, "an empty list has no type in `condition`, which has no type map"),
            ("{} == {'a': 1}", 1, "an empty map has no type in `condition`"),
            ("[1].map(x, x) == [1]", 5, "the empty list with which `map` starts has no type in `condition`"),
        ]:
            with self.subTest(text):
                [line] = told(POLICY + '      condition: {text: "%s"}\n' % text)
                self.assertTrue(line.startswith(f"filter.yaml:8:{25 + column}: {words}"), line)
                self.assertTrue(line.endswith("write `checked_condition` (14 NeedsType)"), line)
                self.assertEqual(told(condition(text)), [])

    def test_expanded_map(self):
        """What cel-go's expansion of transformMap calls is told in a tree."""
        insert = "{call_expr: {function: cel.@mapInsert, args: [{ident_expr: {name: x}}]}}"
        found = [line for line in told(tree_condition(insert)) if "(9 UnknownName)" in line]
        self.assertTrue(any("this loop makes a map by cel.@mapInsert" in line for line in found), found)

    def test_unchecked_costs(self):
        text = POLICY + "      condition: {text: request.method == 'GET'}\n"
        self.assertEqual(told(text, 40), [])
        [line] = told(text, 39)
        self.assertIn('8:25: the condition of policy "p" may take 40 steps; the budget is 39', line)

    def test_one_fault_is_told_once(self):
        for text, _, number, _ in FAULTS:
            if number not in (6, 13):
                with self.subTest(text):
                    self.assertEqual(len(faults_of(text)[1].faults), 1, faults_of(text)[1].faults)

    def test_several(self):
        lines = told(condition("source.port == 'a' && request.x == 1 && foo(2)"))
        self.assertEqual(len(lines), 3, lines)

    def test_entries(self):
        for beside, number in [
            ("type_map: {2: string}", None),
            ("type_map: {2: int}", 11),
            ("type_map: {1: int}", None),
        ]:
            with self.subTest(beside):
                lines = told(condition("request.path == ''", beside))
                self.assertEqual([line for line in lines if f"({number} BadTypeEntry)" in line], lines)
                self.assertEqual(bool(lines), number is not None)

    def test_references(self):
        for beside, is_told in [("request.path", False), ("request.host", True)]:
            lines = told(condition("request.path == ''", "reference_map: {2: {name: %s}}" % beside))
            self.assertEqual(["(12 BadReference)" in line for line in lines], [True] if is_told else [])

    def test_lone_return(self):
        with self.assertRaises(TextMistake) as caught:
            parse("false // x\r|| true")
        self.assertEqual(caught.exception.place, 10)
        self.assertIn("there is a lone carriage return", caught.exception.message)
        parse("false // x\r\n|| true")


class Costs(unittest.TestCase):
    """The bounds that were worked out by hand, and those above all budgets."""

    def test_costs(self):
        for text, wanted in COSTS.items():
            with self.subTest(text):
                tree, typing = faults_of(text)
                self.assertEqual(cost(tree, typing.types), wanted)

    def test_too_much(self):
        everything = "request.headers.all(a, request.headers.all(b, request.headers.all(c, request.headers[a] == request.headers[b])))"
        tree, typing = faults_of(everything)
        with self.assertRaises(TooMuch):
            cost(tree, typing.types)
        [line] = told(condition(everything))
        self.assertIn('policy "p" may take more than 100000000 steps; the budget is 1000000 (15 TooCostly)', line)
