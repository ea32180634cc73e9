"""Regular expressions as texts: what each is read as, and that it matches what Python's and Go's engines match."""
import json
import os
import pathlib
import random
import re
import shutil
import subprocess
import tempfile
import unittest

from policies.forms.regexes import Shape, Untranslatable, matches, shapes

READ = {
    "foo": [Shape((("exact", "foo"),))],
    "": [Shape((("exact", ""),))],
    "foo.*": [Shape((("prefix", "foo"),))],
    ".*foo": [Shape((("suffix", "foo"),))],
    ".*/ns/foo/.*": [Shape((("contains", "/ns/foo/"),))],
    ".*": [Shape(())],
    ".+": [Shape((), ("",))],
    "foo.+": [Shape((("prefix", "foo"),), ("foo",))],
    "a.*b": [Shape((("prefix", "a"), ("suffix", "b")))],
    "aba.*bab": [Shape((("prefix", "aba"), ("suffix", "bab")), ("abab",))],
    "^/v[12]/.*$": [Shape((("prefix", "/v1/"),)), Shape((("prefix", "/v2/"),))],
    "(GET|HEAD)": [Shape((("exact", "GET"),)), Shape((("exact", "HEAD"),))],
    "(?:a|b(?P<n>c|d).*)": [Shape((("exact", "a"),)), Shape((("prefix", "bc"),)), Shape((("prefix", "bd"),))],
    "https?": [Shape((("exact", "http"),)), Shape((("exact", "https"),))],
    r"www\.example\.com": [Shape((("exact", "www.example.com"),))],
    r"\Qa.b\E.*": [Shape((("prefix", "a.b"),))],
    r"\Qa.b\Ec?": [Shape((("exact", "a.b"),)), Shape((("exact", "a.bc"),))],
}
BEYOND = {
    "a+": (0, "only `.` may be repeated"),
    "/[0-9]+": (1, "only `.` may be repeated"),
    "[^/]*": (0, "more than a few characters"),
    r"\w": (0, "more than one text"),
    "a.b": (1, "any one character"),
    "(?i)a": (0, "`ignore_case: true`"),
    ".*a.*b.*": (0, "two wildcards"),
    "a{2}": (0, "repeated"),
    "(a": (0, "not closed"),
    "a)": (1, "has no `(`"),
    "*a": (0, "there is nothing before"),
    "[0-9][0-9]": (10, "more than 64"),
    "a^b": (0, "in the middle"),
    "a" * 100_000: (1024, "longer than 1024 characters"),
    "a" * 65 + ".*" + "a" * 65: (0, "may overlap"),
    r"\Qab\E?": (6, "the last character before"),
    r"a\Q\E?": (5, "the last character before"),
    r"\Qab\E{2}": (6, "the last character before"),
}
# What Python's expressions do not have.
GO_LEAVES = ["\\Qab\\E", "\\Q.*\\E", "\\Q\\E", "\\Qb\\E?", "a{", "{a", "a}"]
GO = """package main

import (
	"bufio"
	"encoding/json"
	"fmt"
	"os"
	"regexp"
)

func main() {
	lines := bufio.NewScanner(os.Stdin)
	lines.Buffer(make([]byte, 1<<20), 1<<20)
	for lines.Scan() {
		var one [2]string
		if err := json.Unmarshal(lines.Bytes(), &one); err != nil {
			panic(err)
		}
		fmt.Println(regexp.MustCompile("^(?:" + one[0] + ")$").MatchString(one[1]))
	}
}
"""


class Maker:
    """Random expressions, and texts that are near them."""

    def __init__(self, seed, more_leaves=()):
        self.random = random.Random(seed)
        self.leaves = ["a", "b", "/", "ab", "1", "\\.", "[ab]", "\\d", "[a-c]", "\\/", "[.]", *more_leaves]

    def expression(self, depth=0):
        """An expression, often one that is read."""
        choice = self.random.random()
        if depth > 3 or choice < 0.4:
            return self.random.choice(self.leaves)
        if choice < 0.6:
            return self.expression(depth + 1) + self.expression(depth + 1)
        if choice < 0.72:
            return f"({self.expression(depth + 1)}|{self.expression(depth + 1)})"
        if choice < 0.8:
            return f"(?:{self.expression(depth + 1)})" + self.random.choice(["", "?"])
        if choice < 0.94:
            return self.random.choice([".*", ".*", ".*", ".+", ".*?"])
        return self.random.choice(["^", ""]) + self.expression(depth + 1) + self.random.choice(["$", ""])

    def subject(self, found):
        """A text: any short one, or one made of the texts that the shapes have."""
        if self.random.random() < 0.4:
            return "".join(self.random.choice("ab/.1c") for _ in range(self.random.randrange(7)))
        shape = self.random.choice(found)
        if shape.excepted and self.random.random() < 0.4:
            return self.random.choice(shape.excepted)
        between = "".join(self.random.choice("ab/") for _ in range(self.random.randrange(3)))
        return between.join([part for _, part in shape.tests] or [between])

    def pairs(self, count):
        """So many expressions that are read, each with shapes and a text."""
        while count:
            expression = self.expression()
            try:
                found = shapes(expression)
            except Untranslatable:
                continue
            for _ in range(min(count, 4)):
                yield expression, found, self.subject(found)
                count -= 1


def go_program():
    """Go's program, or None where it is not at hand."""
    known = pathlib.Path(os.environ.get("GOPEERS", "gopeers")) / "root/usr/lib/go-1.24/bin/go"
    return str(known) if known.exists() else shutil.which("go")


class Regexes(unittest.TestCase):
    """What is read, and what is not."""

    def test_read(self):
        for expression, wanted in READ.items():
            with self.subTest(expression):
                self.assertEqual(shapes(expression), wanted)

    def test_beyond(self):
        for expression, (place, words) in BEYOND.items():
            with self.subTest(expression):
                with self.assertRaises(Untranslatable) as caught:
                    shapes(expression)
                self.assertEqual(caught.exception.place, place)
                self.assertIn(words, caught.exception.words)

    def test_python(self):
        for expression, found, subject in Maker(1).pairs(10_000):
            wanted = re.fullmatch(expression, subject) is not None
            self.assertEqual(matches(found, subject), wanted, (expression, subject, found))

    @unittest.skipUnless(go_program(), "go is not on the path: Debian packages it as golang-go")
    def test_go(self):
        pairs = list(Maker(2, GO_LEAVES).pairs(10_000))
        with tempfile.TemporaryDirectory() as room:
            (pathlib.Path(room) / "main.go").write_text(GO)
            settings = {
                **os.environ,
                "GO111MODULE": "off",
                "GOFLAGS": "",
                "GOTOOLCHAIN": "local",
                "GOCACHE": f"{room}/cache",
            }
            settings["GOROOT"] = str(pathlib.Path(go_program()).resolve().parents[1])
            given = "".join(json.dumps([expression, subject]) + "\n" for expression, _, subject in pairs)
            ran = subprocess.run(
                [go_program(), "run", "main.go"], cwd=room, input=given, capture_output=True, text=True, env=settings
            )
        self.assertEqual(ran.returncode, 0, ran.stderr)
        for (expression, found, subject), line in zip(pairs, ran.stdout.split(), strict=True):
            self.assertEqual(matches(found, subject), line == "true", (expression, subject, found))
