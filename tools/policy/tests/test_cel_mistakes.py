"""Wrong texts of CEL: each is refused at its place, alone and inside every form of a scalar of YAML."""
import unittest

from policies.cel.mistake import TextMistake
from policies.cel.parse import parse
from policies.places import WIDEST, Mistake
from support import POLICY, condition, encoded

# A text, the line and column of its mistake counted from 1, and words of the message.
WRONG = [
    ('request.method = "GET"', 1, 16, "write `==`"),
    ("a & b", 1, 3, "write `&&`"),
    ("a | b", 1, 3, "write `||`"),
    ("a &&", 1, 5, "ends here"),
    ("&& a", 1, 1, "`&&` is not expected here"),
    ("a b", 1, 3, "`b` is not expected here"),
    ("(a", 1, 3, "ends here"),
    ("a)", 1, 2, "`)` is not expected here"),
    ("[1, 2", 1, 6, "ends here"),
    ("{1: 2", 1, 6, "ends here"),
    ("{1}", 1, 3, "`}` is not expected here"),
    ("{1: }", 1, 5, "`}` is not expected here"),
    ("{a: 1, b}", 1, 9, "`}` is not expected here"),
    ("{1: 2,,}", 1, 7, "`,` is not expected here"),
    ("f(1,)", 1, 5, "`)` is not expected here"),
    ("f(,)", 1, 3, "`,` is not expected here"),
    ("f(a b)", 1, 5, "`b` is not expected here"),
    ("[1,,]", 1, 4, "`,` is not expected here"),
    ("[x for y]", 1, 4, "`for` is not expected here"),
    ("a.", 1, 3, "ends here"),
    ("a.1", 1, 2, "`.1` is not expected here"),
    ("a..b", 1, 3, "`.` is not expected here"),
    ("a.in", 1, 3, "`in` is not expected here"),
    ("a.true", 1, 3, "`true` is not expected here"),
    ("a[]", 1, 3, "`]` is not expected here"),
    ("a[1", 1, 4, "ends here"),
    ("x in", 1, 5, "ends here"),
    ("if", 1, 1, "reserved word"),
    ("a && while", 1, 6, "reserved word"),
    ("for(x)", 1, 1, "reserved word"),
    ("x.all(let, let)", 1, 7, "reserved word"),
    ('"abc', 1, 1, "not closed"),
    ("a == 'abc\"", 1, 6, "not closed"),
    ('"""abc"', 1, 1, "not closed"),
    ("'a\nb'", 1, 1, "not closed"),
    ('r"abc\\', 1, 2, "not closed"),
    ('"a\\q"', 1, 3, "no escape `\\q`"),
    ('"\\x1"', 1, 2, "2 hexadecimal digits"),
    ('"\\xg0"', 1, 2, "2 hexadecimal digits"),
    ('"\\u12"', 1, 2, "4 hexadecimal digits"),
    ('"\\U0001F60"', 1, 2, "8 hexadecimal digits"),
    ('"\\U00110000"', 1, 2, "no code point"),
    ('"\\ud800"', 1, 2, "no code point"),
    ('"\\400"', 1, 2, "no escape `\\4`"),
    ('"\\12"', 1, 2, "three digits"),
    ('"\\189"', 1, 2, "three digits"),
    ('b"\\u0041"', 1, 3, "bytes have no escape"),
    ('b"\\U00000041"', 1, 3, "bytes have no escape"),
    ('rb"x"', 1, 3, '`"x"` is not expected here'),
    ("9223372036854775808", 1, 1, "an int is"),
    ("-9223372036854775809", 1, 2, "an int is"),
    ("-(9223372036854775808)", 1, 3, "an int is"),
    ("18446744073709551616u", 1, 1, "a uint is"),
    ("0x10000000000000000", 1, 1, "an int is"),
    ("1e999", 1, 1, "too great"),
    ("0x", 1, 2, "`x` is not expected here"),
    ("1x", 1, 2, "`x` is not expected here"),
    ("0X1F", 1, 2, "`X1F` is not expected here"),
    ("1.", 1, 3, "ends here"),
    ("1 +* 2", 1, 4, "`*` is not expected here"),
    ("a == == b", 1, 6, "`==` is not expected here"),
    ("a ? b", 1, 6, "ends here"),
    ("a ? b :", 1, 8, "ends here"),
    ("a ? : b", 1, 5, "`:` is not expected here"),
    ("a ? b ? c : d : e", 1, 7, "`?` is not expected here"),
    ("a : b", 1, 3, "`:` is not expected here"),
    ("has(a)", 1, 5, "takes a field"),
    ("has(a[0])", 1, 5, "takes a field"),
    ('b && has("a")', 1, 10, "takes a field"),
    ("has(has(a.b))", 1, 9, "takes a field"),
    ("[1].all(1, true)", 1, 9, "takes the name of a variable"),
    ("[1].exists(a.b, true)", 1, 12, "takes the name of a variable"),
    ('[1].map("x", x)', 1, 9, "takes the name of a variable"),
    ("[1].filter(.x, x)", 1, 12, "takes the name of a variable"),
    ("[1].exists_one([x][0], x)", 1, 16, "takes the name of a variable"),
    ("a.?b", 1, 3, "there are no optional values"),
    ("a[?b]", 1, 3, "there are no optional values"),
    ("a ? ? b", 1, 5, "`?` is not expected here"),
    ("!--1", 1, 3, "`-` is not expected here"),
    ("!-a", 1, 2, "cannot follow `!`"),
    ("-!a", 1, 2, "`!` is not expected here"),
    ("a.b{x}", 1, 6, "`}` is not expected here"),
    ("(a.b){x: 1}", 1, 6, "`{` is not expected here"),
    ("f(x){y: 1}", 1, 5, "`{` is not expected here"),
    ("a.b{1: 2}", 1, 5, "`1` is not expected here"),
    ("a == b # c", 1, 8, "`#` has no meaning"),
    ("a @ b", 1, 3, "`@` has no meaning"),
    ("a ~ b", 1, 3, "`~` has no meaning"),
    ("é == 1", 1, 1, "`é` has no meaning"),
    ("1 / /* 2 */ 3", 1, 5, "`/` is not expected here"),
    ("a &&\n  b c", 2, 5, "`c` is not expected here"),
    ("a\n== 'x\n'", 2, 4, "not closed"),
    ("a || // b\n", 1, 10, "ends here"),
    ('"""one\ntwo\\q"""', 2, 4, "no escape"),
    ("", 1, 1, "a condition is expected here"),
    ("// nothing", 1, 11, "ends here"),
    ("!(" * 300 + "a" + ")" * 300, 1, 251, "more than 250 levels"),
]


def place_of(text, offset):
    """Line and column, from 1."""
    before = text[:offset]
    return before.count("\n") + 1, offset - (before.rfind("\n") + 1) + 1


class Alone(unittest.TestCase):
    """The parser's own places."""

    def test_places(self):
        self.assertGreater(len(WRONG), 60)
        for text, line, column, words in WRONG:
            with self.subTest(text[:60]):
                with self.assertRaises(TextMistake) as caught:
                    parse(text)
                self.assertEqual(place_of(text, caught.exception.place), (line, column))
                self.assertIn(words, caught.exception.message)


class InYaml(unittest.TestCase):
    """The same places in a file."""

    def told(self, text):
        """The message for a file."""
        with self.assertRaises(Mistake) as caught:
            encoded(text)
        return str(caught.exception).splitlines()

    def test_double_quotes(self):
        for text, line, column, words in WRONG:
            if not text or "\n" in text or "\\" in text or '"' in text:
                continue
            with self.subTest(text[:60]):
                first, shown, caret = self.told(condition(text))
                # the text begins behind `text: "`, at column 16
                self.assertTrue(first.startswith(f"filter.yaml:9:{15 + column}: "), first)
                self.assertIn(words, first)
                if len(text) < WIDEST // 2:
                    self.assertEqual(caret.index("^"), 4 + 14 + column)
                    self.assertEqual(shown[4 + 15 : 4 + 15 + len(text)], text)

    def test_literal_block(self):
        for text, line, column, words in WRONG:
            if not text.strip() or text.startswith("//") or text.endswith("\n"):
                continue
            with self.subTest(text[:60]):
                lines = [f"          {part}" for part in text.split("\n")]
                file = POLICY + "      checked_condition:\n        text: |\n" + "\n".join(lines) + "\n"
                first = self.told(file)[0]
                self.assertTrue(first.startswith(f"filter.yaml:{9 + line}:{10 + column}: "), first)
                self.assertIn(words, first)

    def test_each_style(self):
        for style, line, column in [
            ("a = b", 9, 17),
            ("'it = ''s'", 9, 19),
            (r'"\x61 \u003d b"', 9, 21),
            (r'"a\t= \"b\""', 9, 19),
            ("\n          a\n            = b", 11, 13),
            (">\n          a\n          = b", 11, 11),
            (">-\n          a\n\n          ==\n          \n          = b", 14, 11),
            ("&anchor a = b", 9, 25),
            ("!!str a = b", 9, 23),
            ("'a\n           \n           = b'", 11, 12),
            ('"a\\\n          = b"', 10, 11),
        ]:
            with self.subTest(style):
                first = self.told(POLICY + "      checked_condition:\n        text: " + style + "\n")[0]
                self.assertTrue(first.startswith(f"filter.yaml:{line}:{column}: `=` is no operator"), first)
