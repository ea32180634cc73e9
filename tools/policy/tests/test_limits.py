"""What is read of a file is bounded by what an engine takes: nodes and levels of conditions, bytes of filters, parts of files."""
import time
import unittest
from unittest import mock

from policies import places
from policies.bounds import GREATEST_FILTER
from policies.cel.limits import MOST_LEVELS, MOST_NODES, MOST_WORDS, is_within_limits
from policies.cel.mistake import TextMistake
from policies.cel.parse import parse
from policies.encode import encode
from policies.places import Source
from policies.reading import contents
from support import POLICY, condition, encoded, tree_condition
from test_check import slowness
from test_outputs import Room

HEAD = "rules:\n  policies:\n"
ONE = "    %s: {permissions: [{any: true}], principals: [{any: true}], checked_condition: {text: '%s'}}\n"
MANY = " || ".join(f'request.path == "/{number}"' for number in range(400))


def mistakes_of(text):
    """The mistakes that are told of a file's text, without the lines that are shown."""
    return [str(one).split("\n")[0] for one in contents(Source("f.yaml", text.encode())).mistakes]


class Conditions(unittest.TestCase):
    """Texts and trees of conditions."""

    def test_nodes(self):
        flat = "[" + ", ".join(["1"] * (MOST_NODES - 4)) + "] == [1]"
        for text, is_taken in ((flat, True), (flat + " || true", False)):
            with self.subTest(is_taken):
                self.assertEqual(is_within_limits(parse(text)), is_taken)

    def test_levels(self):
        for count in (MOST_LEVELS, MOST_LEVELS + 1):
            text = "-x" if count == 2 else "x" + ".a" * (count - 1)
            self.assertEqual(is_within_limits(parse(text)), count == MOST_LEVELS)

    def test_long_texts(self):
        """A long text is refused at the word that is too much, before a tree is made of it."""
        for text, words in [
            ("1 + " * MOST_NODES + "1", f"the condition has more than {MOST_NODES} nodes"),
            ("(" * MOST_WORDS + "1" + ")" * MOST_WORDS, f"a condition's text has at most {MOST_WORDS} words and signs"),
            ("!" * (MOST_WORDS + 1) + "true", f"a condition's text has at most {MOST_WORDS} words and signs"),
            ("true //" + "x" * GREATEST_FILTER, f"a condition's text has at most {GREATEST_FILTER} characters"),
            ("1 + " * MOST_NODES + "?", f"the condition has more than {MOST_NODES} nodes"),
        ]:
            with self.subTest(words), mock.patch("policies.cel.parse._Builder") as builder:
                with self.assertRaises(TextMistake) as caught:
                    parse(text)
                self.assertEqual((caught.exception.message, caught.exception.number), (words, 8))
                builder.return_value.build.assert_not_called()
        parse("(" * 200 + "true" + ")" * 200 + " " * 3000)

    def test_told(self):
        """The place is that of the word, and the number is the refusal's."""
        [told] = mistakes_of(condition("1 + " * MOST_NODES + "1"))
        self.assertEqual(told, f"f.yaml:9:{16 + 4 * MOST_NODES // 2}: the condition has more than {MOST_NODES} nodes (8 TooLarge)")

    def test_trees(self):
        element, around = "{const_expr: {int64_value: 1}}, ", "{list_expr: {elements: [%s]}}"
        taken = contents(Source("f.yaml", tree_condition(around % (element * (MOST_NODES - 1))).encode()))
        self.assertEqual(taken.mistakes, [])
        text = tree_condition(around % (element * (3 * MOST_NODES)))
        [told] = mistakes_of(text)
        self.assertRegex(told, rf"^f\.yaml:9:\d+: the condition has more than {MOST_NODES} nodes \(8 TooLarge\)$")
        # whoever asks for the bytes of a filter that is refused has all of them
        self.assertIn(8, {one.number for one in encode(Source("f.yaml", text.encode()))[1]})

    def test_equal_texts(self):
        """A text is read once, whether an alias names it or it is written again."""
        text = HEAD + "".join(ONE % (f"p{number}", 'request.path == "/"') for number in range(20))
        for beside in ("", ", type_map: {}"):
            with mock.patch("policies.conditions.parse", wraps=parse) as read:
                data = encoded(text.replace("'}}", f"'{beside}}}}}"))
            self.assertEqual(read.call_count, 1)
            self.assertEqual(data.count(b"request"), 20)
        with mock.patch("policies.conditions.parse", wraps=parse) as read:
            aliases = "".join(f"    p{number}: *a\n" for number in range(20))
            data = encoded(HEAD + ONE.replace("%s:", "%s: &a") % ("p", 'request.path == "/"') + aliases)
        self.assertEqual((read.call_count, data.count(b"request")), (1, 21))

    def test_places_of_equal_texts(self):
        """The faults of each are told where it is."""
        text = HEAD + "".join(ONE % (name, "true && request.x == 1") for name in "ab")
        found = contents(Source("f.yaml", text.encode())).filters[0].findings
        column = text.split("\n")[2].index("request.x") + len("request.")
        self.assertEqual([one.place for one in found], [(2, column), (3, column)])
        self.assertEqual([one.path[2] for one in found], ["a", "b"])


class Files(Room):
    """Files and filters."""

    def test_filters(self):
        """A filter above 1 MiB is told at the part that is too much, and nothing of it is read after that."""
        rule = "      - url_path: {path: {exact: %s}}\n" % ("a" * 1000)
        text = POLICY.split("      - any")[0] + rule * 1200 + "      principals: [{}]\n      txt: 1\n"
        [told] = mistakes_of(text)
        self.assertRegex(told, r"^f\.yaml:10[0-4]\d:\d+: the filter has more than 1048576 bytes, the most that a message ")
        self.file("f.yaml", text.replace("      txt: 1\n", "").replace("[{}]", "[{any: true}]"))
        self.assertEqual(self.run_here("encode", "f.yaml")[:2], (1, b""))
        status, data, _ = self.run_here("encode", "--even-if-refused", "f.yaml")
        self.assertEqual((status, len(data) > GREATEST_FILTER), (0, True))
        self.file("f.bin", data)
        for words in (["decode", "f.bin"], ["wrap", "--version", "1", "--name", "f", "f.bin"]):
            status, out, errors = self.run_here(*words)
            self.assertEqual((status, out), (1, b""))
            self.assertIn(f"f.bin: these are {len(data)} bytes; the engine takes at most 1048576", errors)
        status, out, _ = self.run_here("check", "--without-engine", "f.bin")
        self.assertEqual(status, 1)
        self.assertIn("the engine takes at most 1048576\nf.bin: not read: 1 mistake\n", out.decode())

    def test_whole_filters(self):
        """What the parts do not tell is told of the whole."""
        rules = "".join(f"    p{number}: {{permissions: [{{any: true}}], principals: [{{any: true}}]}}\n" for number in range(200))
        with mock.patch("policies.reading.GREATEST_FILTER", 100):
            [told] = mistakes_of(HEAD + rules)
        self.assertIn("f.yaml:1:1: the filter has more than 1048576 bytes", told)

    def test_parts(self):
        with mock.patch.object(places, "MOST_PARTS", 1000):
            for text, is_taken in (("[" + "a," * 999 + "]", True), ("[" + "a," * 1000 + "]", False)):
                told = " ".join(mistakes_of(text))
                self.assertEqual("a file has at most 1000 keys and values" in told, not is_taken, told)

    def test_one_text_in_many_policies(self):
        """A text of 28 KB that 250 policies name by an alias, and one that is within the limits."""
        rows = "".join(f"    p{number}: *a\n" for number in range(249))
        before = time.process_time()
        for text, told in ((" || ".join([MANY] * 2), "more than 2048 nodes"), (MANY, "more than 1048576 bytes")):
            found = mistakes_of(HEAD + ONE.replace("%s:", "%s: &a") % ("p", text) + rows)
            self.assertEqual(len(found), 1)
            self.assertIn(told, found[0])
        self.assertLess(time.process_time() - before, 1.5 * slowness())

    def test_memory(self):
        """A text of 8 MB takes a part of the memory that a tree of it would."""
        self.file("f.yaml", condition(" || ".join([MANY] * 500)))
        status, errors = self.shell("ulimit -v 500000; $P check --without-engine f.yaml > told")
        self.assertEqual((status, errors), (1, ""))
        self.assertIn("the condition has more than 2048 nodes (8 TooLarge)", (self.room / "told").read_text())
