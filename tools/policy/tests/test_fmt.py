"""`policy fmt`: one layout, with all comments and the same parts; what cannot be laid out is left as it is."""
import unittest

from policies.formatting import formatted
from policies.places import Mistake, Source
from support import POLICY

# A file and its layout.
LAID_OUT = [
    ("rules: {}", "rules: {}\n"),
    ("rules:   {action: DENY,policies: {}}\n", "rules:\n  action: DENY\n  policies: {}\n"),
    ("# head\nrules: {} # beside\n# tail", "# head\nrules: {}  # beside\n# tail\n"),
    ("a: [1, 'x y', \"true\", ~]\n", 'a:\n- 1\n- x y\n- "true"\n- null\n'),
    ("a:\n    - b: 1 # one\n      # two\n      c: {} \n", "a:\n- b: 1  # one\n  # two\n  c: {}\n"),
    ("a: [ # beside a list\n  b, # of b\n  # of c\n  c]\n", "# beside a list\na:\n- b  # of b\n# of c\n- c\n"),
    ('t: "one\\ntwo\\n"\nu: "one\\ntwo"\n', "t: |\n  one\n  two\nu: |-\n  one\n  two\n"),
    ("t: | # a comment\n  x # none\n  y\n", "# a comment\nt: |\n  x # none\n  y\n"),
    ("t: 'a \"b\" # c'\n", "t: 'a \"b\" # c'\n"),
    ("a: 1\n---\nb: 2\n", "a: 1\n---\nb: 2\n"),
    ("#a\n\n\n#  b\na: 1\n", "# a\n# b\na: 1\n"),
]
# A file that is left as it is, the line and column, and words of the mistake.
LEFT = [
    ("a: &x 1\nb: *x\n", 1, 4, "anchors and aliases are not laid out"),
    ("a: !!binary aGk=\n", 1, 4, "the tag tag:yaml.org,2002:binary is not laid out"),
    ("%YAML 1.1\n---\na: 1\n", 1, 1, "directives are not laid out"),
    ("a: [1\n", 1, 4, "this bracket is not closed"),
]


class Formats(unittest.TestCase):
    """The layout of texts."""

    def test_layout(self):
        for text, wanted in LAID_OUT:
            with self.subTest(text):
                made = formatted(Source("f.yaml", text.encode()))
                self.assertEqual(made, wanted)
                self.assertEqual(formatted(Source("f.yaml", made.encode())), made)

    def test_own_layout(self):
        """What `policy decode` writes has the layout already."""
        self.assertEqual(formatted(Source("f.yaml", POLICY.encode())), POLICY)

    def test_json(self):
        text = '{"rules": {"policies": {"é": [1, true, null, "a\\u0000"]}}}'
        made = formatted(Source("f.json", text.encode()))
        self.assertTrue(made.startswith('{\n  "rules": {\n'), made)
        self.assertEqual(formatted(Source("f.json", made.encode())), made)

    def test_left(self):
        for text, line, column, words in LEFT:
            with self.subTest(text):
                with self.assertRaises(Mistake) as caught:
                    formatted(Source("f.yaml", text.encode()))
                self.assertTrue(str(caught.exception).startswith(f"f.yaml:{line}:{column}: {words}"), str(caught.exception))
