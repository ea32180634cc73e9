"""Wrong YAML is refused at its place, with the line and a caret."""
import unittest

from policies.places import WIDEST, Mistake, Source
from support import POLICY, condition, encoded

RULE = "rules: {policies: {p: {permissions: [%s], principals: [{any: true}]}}}"

# A file, the line and column of its mistake counted from 1, and words of the message.
WRONG = [
    ("rules: [1", 1, 8, "this bracket is not closed: `]` is missing"),
    ("rules:\n  policies: {p: {permissions: [1\n  action: DENY", 2, 31, "this bracket is not closed: `]` is missing"),
    (RULE.replace("]}}}", "}}}") % "1", 1, 54, "this bracket is not closed: `]` is missing"),
    ('rules: {a: "b}', 1, 12, "these quotes are not closed"),
    ("rules: {a: b: c}", 1, 13, "this is no YAML"),
    ("\trules: {}", 1, 1, "a tab is at the beginning of this line: indent it with spaces"),
    ("rules:\n  action: DENY\n\tpolicies: {}", 3, 1, "a tab is at the beginning of this line: indent it with spaces"),
    ("rules: *nothing", 1, 8, "this is no YAML"),
    ("rules: {}\n---\nrules: {}", 3, 1, "one document"),
    ("[]", 1, 1, "the fields of the HTTP RBAC filter"),
    ("text", 1, 1, "the fields of the HTTP RBAC filter"),
    ("rulez: {}", 1, 1, "has no field `rulez`; do you mean `rules`?"),
    ("matcher: {}", 1, 1, "the engine does not know `matcher`"),
    ("rulesStatPrefix: x", 1, 1, "the engine does not know `rulesStatPrefix`"),
    ("rules: {}\nrules: {}", 2, 1, "`rules` is here twice"),
    ("rules: {}\nshadow_rules: {}\nshadowRules: {}", 3, 1, "`shadow_rules` is here twice"),
    ("'@type': type.googleapis.com/a.B\nrules: {}", 1, 10, "this message is type.googleapis.com/envoy.extensions"),
    ("'@oneofs': first\nrules: {}", 1, 12, "`last` is expected"),
    ("rules: x", 1, 8, "the fields of RBAC are expected"),
    ("rules: [a]", 1, 8, "the fields of RBAC are expected"),
    ("rules: {action: PERMIT}", 1, 17, "one of these is expected: ALLOW, DENY, LOG"),
    ("rules: {action: 4294967296}", 1, 17, "a whole number from"),
    ("rules: {action: [DENY]}", 1, 17, "one value of `action`"),
    ("rules: {policies: [p]}", 1, 19, "the entries of policies"),
    ("rules: {policies: {p: x}}", 1, 23, "the fields of Policy"),
    ("rules: {policies: {p: }}", 1, 20, "`p` is empty: indent below it what belongs to it"),
    ("rules: {policies: {p: {}, p: {}}}", 1, 27, "`p` is here twice"),
    ("rules: {policies: {~: {}}}", 1, 20, "a name is expected"),
    ("rules: {policies: {[a]: {}}}", 1, 20, "a name is expected here"),
    ("rules: {policies: {p: {permissions: {any: true}}}}", 1, 37, "a list is expected here"),
    ("rules: {policies: {p: {permissions: [any]}}}", 1, 38, "the fields of Permission"),
    ("rules: {policies: {p: {permissions: [~]}}}", 1, 38, "a value is expected"),
    ("rules: {policies: {p: {cel_config: {}}}}", 1, 24, "the engine does not know `cel_config`"),
    (RULE % "{<<: {any: true}}", 1, 39, "merge keys are not read"),
    ("permissions: [{any: true}]", 1, 1, "`permissions` is a field of a policy"),
    (RULE % "{any: yes}", 1, 44, "true or false is expected"),
    (RULE % '{any: "true"}', 1, 44, "true or false is expected"),
    (RULE % "{any: 1}", 1, 44, "true or false is expected"),
    (RULE % "{any: true, destination_port: 80}", 1, 50, "`destination_port` cannot be used together with `any`"),
    (RULE % "{uri_template: {}}", 1, 39, "the engine does not know `uri_template`"),
    (RULE % "{uriTemplate: {}}", 1, 39, "the engine does not know `uriTemplate`"),
    (RULE % "{headers: {}}", 1, 39, "do you mean `header`?"),
    (RULE % "{destination_port: 1.5}", 1, 57, "a whole number from 0 to 4294967295"),
    (RULE % "{destination_port: -1}", 1, 57, "a whole number from 0 to 4294967295"),
    (RULE % "{destination_port: 0x50}", 1, 57, "a whole number"),
    (RULE % "{destination_port: http}", 1, 57, "a whole number"),
    (RULE % "{destination_port: 1e999}", 1, 57, "a whole number"),
    (RULE % "{header: {name: 80}}", 1, 54, 'in quotes this is one: "80"'),
    (RULE % "{header: {name: on}}", 1, 54, "a text is expected"),
    (RULE % "{header: {name: !!binary aGk=}}", 1, 54, "has no meaning here"),
    (RULE % "{header: {name: {a: b}}}", 1, 54, "one value of `name`"),
    (
        RULE % "{header: {name: a, exact_match: b, prefix_match: c}}",
        1,
        73,
        "cannot be used together with `exact_match`",
    ),
    (RULE % "{header: {name: a, range_match: {start: 9223372036854775808}}}", 1, 78, "a whole number from -9223372036"),
    (RULE % "{destination_ip: {address_prefix: a, prefix_len: x}}", 1, 87, "a whole number"),
    (RULE % "{destination_ip: {address_prefix: a, prefix_len: {value: 8}}}", 1, 87, "a number is expected"),
    (RULE % "{matcher: {typed_config: {a: b}}}", 1, 63, "`@type` is expected"),
    (RULE % "{matcher: {typed_config: {'@type': x.y/Z, a: b}}}", 1, 73, "this type is not known here"),
    (RULE % "{'@wire': 0}", 1, 48, "pairs of hexadecimal digits"),
    (RULE % "{'@wire': '18 01', any: false}", 1, 39, "these bytes do not say"),
    (RULE % "{'@wire': '18', any: true}", 1, 39, "these bytes do not say"),
    (condition("true", "expr: {}"), 10, 9, "`expr` cannot be used together with `text`"),
    (condition("true", "txt: {}"), 10, 9, "has no field `txt`"),
    (condition("true", "ids: 1"), 10, 14, "a list of 1 numbers"),
    (condition("true", "ids: [1, 2]"), 10, 14, "a list of 1 numbers"),
    (condition("true", "ids: [x]"), 10, 15, "a whole number"),
    (condition("true", "dotted: on"), 10, 17, "true or false"),
    (condition("true", "type_map: {1: integer}"), 10, 23, "a type is expected"),
    (condition("true", "type_map: {1: map(int)}"), 10, 23, "a type is expected"),
    (condition("true", "type_map: {x: int}"), 10, 20, "a whole number"),
    (condition("true", "type_map: {1: int, '1': bool}"), 10, 28, "is here twice"),
    (condition("true", "type_map: {1: int, 01: bool}"), 10, 28, "a whole number"),
    (POLICY + "      condition: {text: 1}\n", 8, 25, "a text of CEL"),
    (POLICY + "      condition: {text: a, accumulator: b}\n", 8, 41, "the name of cel-go's accumulators"),
    (POLICY + "      condition: {text: a, type_map: {}}\n", 8, 28, "`type_map` cannot be used together with `text`"),
    (POLICY + "      condition: {const_expr: {bytes_value: x}}\n", 8, 45, "in base64"),
    (POLICY + "      condition: {const_expr: {double_value: x}}\n", 8, 46, "a number is expected"),
    (POLICY + "      condition: {const_expr: {null_value: 1x}}\n", 8, 44, "one of these is expected: NULL_VALUE"),
    ("rules: &r\n  policies: {p: {permissions: &s [{and_rules: {rules: *s}}]}}\n", 2, 31, "names the whole of it"),
    (RULE % ("{not_rule: " * 300 + "{any: true}" + "}" * 300), 1, 3294, "nested more than 300"),
    ("[" * 3000, 1, 2001, "nested more than 2000"),
]


class Places(unittest.TestCase):
    """Each mistake names its place."""

    def test_places(self):
        for text, line, column, words in WRONG:
            with self.subTest(text[-80:]):
                with self.assertRaises(Mistake) as caught:
                    encoded(text)
                first, shown, caret = str(caught.exception).split("\n")
                self.assertTrue(first.startswith(f"filter.yaml:{line}:{column}: "), first)
                self.assertIn(words, first)
                lines = text.split("\n")
                if max(map(len, lines)) > WIDEST:
                    continue
                self.assertEqual(shown, "    " + (lines[line - 1] if line <= len(lines) else ""))
                self.assertEqual(caret.replace("\t", " "), " " * (4 + column - 1) + "^")

    def test_bytes(self):
        for data, line, column, words in [
            (b"rules: \xff", 1, 8, "this is not UTF-8"),
            (b"rules:\n  \xc3\xa9\xc3", 2, 4, "this is not UTF-8"),
            (b"rules: \x07", 1, 8, "this is no YAML"),
        ]:
            with self.subTest(data):
                with self.assertRaises(Mistake) as caught:
                    Source("filter.yaml", data).compose()
                first = str(caught.exception).split("\n")[0]
                self.assertTrue(first.startswith(f"filter.yaml:{line}:{column}: {words}"), first)

    def test_long_lines(self):
        """Of a long line the part around the place is shown, with the caret below it."""
        source = Source("f.json", ("x" * 5000 + "{" + "y" * 5000).encode())
        for column, starts, ends in ((5000, ".. ", " .."), (0, "x", " .."), (10_000, ".. ", "y")):
            first, shown, caret = source.tell((0, column), "words").split("\n")
            self.assertEqual(first, f"f.json:1:{column + 1}: words")
            self.assertTrue(shown[4:].startswith(starts) and shown.endswith(ends), shown)
            self.assertLess(len(shown), 420)
            self.assertEqual(shown[len(caret) - 1], {5000: "{", 0: "x", 10_000: "y"}[column])
