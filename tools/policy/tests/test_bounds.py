"""The bounds of the worked cases and rows, and why the others are refused, as `rbacd check` prints them.

The program is that of RBACD, or the proved one where it is built (`bin/rbacd` builds it). Where UNPROVED is set and RBACD is
not, it is the sources as `rt try` compiles them, without a proof. Each bound is worked out by hand from the charges of the
instructions and the sizes of what they work on, with the greatest limits.
"""
import os
import pathlib
import re
import subprocess
import tempfile
import time
import unittest

import cases
from support import ENGINE, NO_ENGINE, TOP, condition, encoded, numbers

CRATE = TOP / "crates" / "rbacd"
UNPROVED = bool(os.environ.get("UNPROVED")) and not os.environ.get("RBACD")

# The bound of each condition that is admitted.
BOUNDS = {
    "true && true": 4,
    'request.method == "GET"': 40,
    "9223372036854775807 + 1 == 0": 7,
    "1 / 0 == 0 || true": 10,
    "[0, 1].all(x, 1 / x > 1)": 44,
    "[0, 1].all(x, 1 / x == 1)": 44,
    'request.headers["x-user"] == "a"': 4552,
    "has(request.headers.xuser)": 386,
    "(true ? 1 / 0 : 2) == 2": 10,
    "(false ? 1 / 0 : 2) == 2": 10,
    "connection.mtls ? true : false": 4,
    "-9223372036854775808 % -1 == 0": 7,
    "[0, 1].exists(x, 1 / x == 1)": 46,
    "[true, false, true].all(x, x)": 45,
    "[].all(x, x == 0)": 6,
    "1 in [1]": 8,
    "_in_(1, [1])": 8,
    "[7, 8].all(i, x, x - i == 7)": 44,
    '{"a": 1, "b": 2}.exists(k, v, k == "b" && v == 2)': 68,
    "int(18446744073709551615u) == 0": 6,
    'string(-5) == "-5"': 48,
    'bytes("é") == b"\\xc3\\xa9"': 12,
    'string(b"\\xff") == ""': 8,
}

# Why each other condition is refused.
REFUSALS = {
    "size([]) == 0": "14 NeedsType",
    'request.color == "x"': "9 UnknownName",
    "request.method == 1": "10 NoOverload",
    "request.method": "13 NotBool",
    "1 + 1u": "10 NoOverload",
    "[1, 2u]": "10 NoOverload",
    "{[1]: 2}": "10 NoOverload",
    'size("a")': "13 NotBool",
    '"a".size()': "13 NotBool",
    "int(1)": "10 NoOverload",
    'uint("1")': "10 NoOverload",
}

# Filters by the names that `cases` has for them, and what is printed.
NAMED = {
    "any_any": "admitted: policies 1 bound 0",
    "rules_without_policies": "admitted: policies 0 bound 0",
    "empty": "refused: 4 Missing",
    "any_false": "refused: 5 OutOfRange",
    "unchecked_condition": "admitted: policies 1 bound 4",
    "unchecked_empty_literal": "refused: 14 NeedsType",
    "both_conditions": "refused: 7 BothConditions",
    "two_policies": "admitted: policies 2 bound 0",
    "true_and_true": "admitted: policies 1 bound 4",
    "method_is_get": "admitted: policies 1 bound 40",
    "faulty_loop_condition": "admitted: policies 1 bound 21",
    "doubling_accumulator": "refused: 15 TooCostly",
    "same_names": "refused: 5 OutOfRange",
    "no_accumulator": "refused: 4 Missing",
    "second_variable": "admitted: policies 1 bound 15",
    "second_is_accumulator": "refused: 5 OutOfRange",
    "second_is_first": "refused: 5 OutOfRange",
    "in_by_name": "refused: 14 NeedsType",
    "empty_literal_told": "admitted: policies 1 bound 6",
    "empty_literal_dyn": "refused: 6 Unsupported",
    "empty_literal_untold": "refused: 14 NeedsType",
    "entry_on_select": "refused: 11 BadTypeEntry",
    "entry_on_root": "admitted: policies 1 bound 40",
    "other_reference": "refused: 12 BadReference",
    "depth_64": "admitted: policies 1 bound 64",
    "depth_65": "refused: 8 TooLarge",
}

TWO = """rules:
  policies:
    a: &policy
      permissions: [{any: true}]
      principals: [{any: true}]
      checked_condition: {text: 'request.method == "GET"'}
    b: *policy
"""


def wanted():
    """What is printed for each filter: its name, its bytes, the line, and further words of the command."""
    named = cases.all_cases()
    for text, bound in BOUNDS.items():
        yield text, encoded(condition(text)), f"admitted: policies 1 bound {bound}", ()
    for text, refusal in REFUSALS.items():
        yield text, encoded(condition(text)), f"refused: {refusal}", ()
    for name, line in NAMED.items():
        yield name, encoded(named[name]), line, ()
    yield "condition", encoded((TOP / "examples" / "condition.yaml").read_text()), "admitted: policies 1 bound 8258", ()
    for budget, line in ((80, "admitted: policies 2 bound 80"), (79, "refused: 15 TooCostly")):
        yield f"two conditions, budget {budget}", encoded(TWO), line, ("--budget", str(budget))
    for budget, line in ((40, "admitted: policies 1 bound 40"), (39, "refused: 15 TooCostly")):
        yield f"a method, budget {budget}", encoded(condition('request.method == "GET"')), line, (
            "--budget",
            str(budget),
        )


def by_program(rows):
    """The line that the proved program prints for each filter."""
    for _, data, _, words in rows:
        with tempfile.NamedTemporaryFile() as file:
            file.write(data)
            file.flush()
            ran = subprocess.run([ENGINE, "check", "--policy", file.name, *words], capture_output=True, text=True)
        yield ran.stdout.strip()


def by_sources(rows):
    """The same of the sources as they are, compiled once for all filters without a proof."""
    with tempfile.TemporaryDirectory() as folder:
        for number, (_, data, _, words) in enumerate(rows):
            (pathlib.Path(folder) / f"{number:03d}").write_bytes(data)
            if words:
                (pathlib.Path(folder) / f"{number:03d}.args").write_text("\n".join(words) + "\n")
        command = ["rt", "try", "--cases", folder, "--", "check", "--policy", "{}"]
        ran = subprocess.run(command, cwd=CRATE, capture_output=True, text=True)
    printed = dict(re.findall(r"^== (\d+)\n(.*)$", ran.stdout, re.MULTILINE))
    for number in range(len(rows)):
        yield printed.get(f"{number:03d}", "nothing: " + ran.stderr[-400:]).strip()


@unittest.skipUnless(ENGINE.exists() or UNPROVED, NO_ENGINE)
class Bounds(unittest.TestCase):
    """What `rbacd check` prints."""

    maxDiff = None

    def test_all(self):
        rows = list(wanted())
        answer = by_sources if UNPROVED else by_program
        for (name, _, line, _), printed in zip(rows, answer(rows), strict=True):
            with self.subTest(name):
                self.assertEqual(printed, line)

    def test_each_tree_is_here(self):
        self.assertEqual(set(cases.TREES), set(BOUNDS) | set(REFUSALS))


class Nested(unittest.TestCase):
    """Conditions that are nested on purpose."""

    def test_nested_loops(self):
        """Loops in loops are typed and measured in a short time, whatever they may cost."""
        nests = {"true": "[1].all(x, %s)", "k": "request.headers.map(k, %s)", "request.path": '[%s].filter(x, x != "")[0]'}
        started = time.process_time()
        for inner, around in nests.items():
            text = inner
            for _ in range(20):
                text = around % text
            ending = {"true": "", "k": ".size() == 1", "request.path": ' == "/"'}[inner]
            with self.subTest(inner):
                self.assertLessEqual(numbers(condition(text + ending)), {15})
        self.assertLess(time.process_time() - started, 5)
