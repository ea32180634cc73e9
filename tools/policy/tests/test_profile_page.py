"""docs/PROFILE.md: each example of its tables is asked of the engine, and its types, limits and numbers are compared."""
import re
import unittest

import cases
from policies import profile
from policies.bounds import BUDGET, GREATEST_BUDGET, GREATEST_FILTER, GREATEST_VISITS, VISITS, Budget
from policies.cel.attributes import TYPES
from policies.cel.cost import Limits
from policies.cel.typetext import type_text
from policies.engine import Engine
from policies.files import GREATEST_FILE
from policies.findings import NAMES
from policies.messages import FILTER, descriptor
from policies.places import CHARACTERS_OF_A_PART, GREATEST_EXPANSION, MOST_PARTS
from policies.reader import read
from support import ENGINE, NO_ENGINE, TOP, condition, encoded, numbers
from test_profile import many_policies

PAGE = TOP / "docs" / "PROFILE.md"
# The tool's own page, which has the limits of what it reads.
OWN_PAGE = TOP / "tools" / "policy" / "README.md"
EXAMPLES = {
    "Permission": cases.rule,
    "Principal": cases.principal,
    "Condition": condition,
    "Filter": str,
}
VALUES = {"int": "1", "uint": "1u", "bool": "true"}


def tables():
    """The tables of the page: the names of the columns, and the rows."""
    found = []
    for line in PAGE.read_text(encoding="utf-8").splitlines():
        cells = [cell.strip().replace("\\|", "|") for cell in re.split(r"(?<!\\)\|", line)[1:-1]]
        if not cells:
            found.append(None)
        elif not found or found[-1] is None:
            found.append((cells, []))
        elif not set("".join(cells)) <= {"-"}:
            found[-1][1].append(dict(zip(found[-1][0], cells)))
    return [table for table in found if table is not None]


def rows(*columns):
    """The rows of the tables that have these columns."""
    return [row for names, found in tables() if set(columns) <= set(names) for row in found]


def examples():
    """Each example: its text, its filter, and the engine's answer on the page."""
    for kind, around in EXAMPLES.items():
        for row in rows(kind, "Engine"):
            yield row[kind].strip("`"), encoded(around(row[kind].strip("`"))), row["Engine"]
    for row in rows("Number", "Filter"):
        if row["Filter"]:
            text = row["Filter"].strip("`")
            yield text, encoded(text), f"refused {row['Number']} {row['Name']}"


class Page(unittest.TestCase):
    """What the page says, beside the tool and the engine."""

    def test_there_are_examples(self):
        self.assertGreater(len(list(examples())), 90)

    def test_examples_by_the_tool(self):
        for text, data, answer in examples():
            with self.subTest(text):
                found = numbers_of(data)
                self.assertEqual(sorted(found), [int(answer.split()[1])] if answer != "admitted" else [], text)

    @unittest.skipUnless(ENGINE.exists(), NO_ENGINE)
    def test_examples_by_the_engine(self):
        wanted = list(examples())
        with Engine(ENGINE) as asked:
            answers = asked.admissions([data for _, data, _ in wanted], Budget())
        for (text, _, answer), given in zip(wanted, answers):
            with self.subTest(text):
                line = given.line.replace(":", "").split(" policies")[0]
                self.assertEqual(line, answer)

    def test_attributes(self):
        said = {row["Attribute"]: row["Type"] for row in rows("Attribute")}
        self.assertEqual(said, {name: type_text(kind) for name, kind in TYPES.items()})

    @unittest.skipUnless(ENGINE.exists(), NO_ENGINE)
    def test_longest(self):
        """The bound of a comparison tells the engine's limit of an attribute."""
        wanted, filters = [], []
        for row in rows("Attribute"):
            name, kind, longest = row["Attribute"], row["Type"], row["Longest"]
            if kind == "string":
                wanted.append((name, int(longest) + 5))
                filters.append(encoded(condition(f'{name} == ""')))
            elif kind == "map(string, string)":
                wanted.append((name, 1 + 1 + 1 + 2 * int(longest.split()[0])))
                filters.append(encoded(condition(f'"a" in {name}')))
            else:
                wanted.append((name, 5))
                filters.append(encoded(condition(f"{name} == {VALUES[kind]}")))
        with Engine(ENGINE) as asked:
            answers = asked.admissions(filters, Budget())
        self.assertEqual([(name, answer.bound) for (name, _), answer in zip(wanted, answers)], wanted)

    def test_refusals(self):
        said = {int(row["Number"]): row["Name"] for row in rows("Number")}
        self.assertEqual(said, NAMES)

    def test_limits(self):
        said = {row["Of a filter"]: int(row["Limit"]) for row in rows("Of a filter")}
        self.assertEqual(said["steps of all conditions, the budget"], BUDGET)
        self.assertEqual(said["the greatest budget that may be declared"], GREATEST_BUDGET)
        self.assertEqual(said["visits of all conditions"], VISITS)
        self.assertEqual(said["the most visits that may be declared"], GREATEST_VISITS)
        self.assertEqual(numbers(many_policies(said["policies"])), set())
        self.assertEqual(numbers(many_policies(said["policies"] + 1)), {8})
        levels = said["levels of rules"]
        for count, wanted in ((levels, set()), (levels + 1, {8})):
            self.assertEqual(
                numbers(cases.rule("{not_rule: " * (count - 1) + "{any: true}" + "}" * (count - 1))), wanted
            )
        nodes, deep = said["nodes of a condition"], said["levels of a condition"]
        for count, wanted in ((nodes, set()), (nodes + 1, {8})):
            self.assertEqual(numbers(condition("size([" + ", ".join(["1"] * (count - 4)) + "]) > 0")), wanted)
        self.assertEqual(numbers(condition(cases.nested(deep - 1))), set())
        self.assertEqual(numbers(condition(cases.nested(deep))), {8})
        limits = Limits()
        names = f"names of {limits.name} bytes, values of {limits.value}, a method of {limits.method}"
        self.assertIn(names, re.sub(r"\s+", " ", PAGE.read_text()))

    def test_limits_of_the_tool(self):
        text = re.sub(r"\s+", " ", OWN_PAGE.read_text())
        self.assertIn(f"files of at most {GREATEST_FILE // 2**20} MiB with {MOST_PARTS} keys and values", text)
        self.assertIn(f"filters of at most {GREATEST_FILTER} bytes", text)
        self.assertIn(f"YAML aliases may add at most {GREATEST_EXPANSION} parts to a file.", text)
        self.assertIn(f"Each node is a part, and so is each full {CHARACTERS_OF_A_PART} characters of its text.", text)

    def test_statuses(self):
        said = {row["Program"].strip("`") + row["Status"] for row in rows("Program")}
        self.assertEqual(said, {f"rbacd{number}" for number in range(7)} | {f"policy{number}" for number in range(5)})


def numbers_of(data):
    """The refusals' numbers that the tool finds in a filter's bytes."""
    return {note.number for note in profile.notes(read(descriptor(FILTER), data)) if note.number}
