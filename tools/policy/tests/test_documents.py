"""README, PROGRAM, PROFILE and the tool's own page beside the help of both programs: the same commands, options and numbers."""
import re
import unittest

from policies import manual
from policies.bounds import BUDGET, GREATEST_BUDGET
from policies.compare.candidates import MOST_COMBINATIONS, MOST_LEAVES
from policies.findings import NAMES
from policies.lint.names import MEANINGS
from policies.program import STATUSES, parser_of_words
from support import TOP

HELP = TOP / "crates" / "rbacd" / "cases" / "help"
OWN_PAGE = "tools/policy/README.md"
PAGES = {name: (TOP / name).read_text(encoding="utf-8") for name in ("README.md", "docs/PROGRAM.md", "docs/PROFILE.md", OWN_PAGE)}
OPTION = re.compile(r"(?<![\w-])--[a-z][a-z-]*")


def options(text):
    """The options that a text names."""
    return set(OPTION.findall(text))


class Documents(unittest.TestCase):
    """What pages and help say."""

    def setUp(self):
        self.commands = manual.commands_of(parser_of_words())
        self.helps = {path.name: path.read_text(encoding="utf-8") for path in HELP.iterdir()}

    def test_commands_of_the_tool(self):
        rows = re.findall(r"^\| `policy (\w+)", PAGES["docs/PROGRAM.md"], re.MULTILINE)
        self.assertEqual(set(rows), set(self.commands))
        for name, page in PAGES.items():
            for command in re.findall(r"(?:`|/)policy ([a-z]+)(?=[ `])", page):
                self.assertIn(command, self.commands, name)

    def test_options_of_the_tool(self):
        """Each option that is named beside a command of the tool is one of its own."""
        written = PAGES["docs/PROGRAM.md"].partition("## To write a policy")[2] + PAGES[OWN_PAGE]
        own = {name: options(command.format_help()) for name, command in self.commands.items()}
        self.assertLessEqual(options(written), set().union(*own.values()) | options(self.helps["judge"]))
        for name, words in re.findall(r"^\| `policy (\w+)[^|]*\|([^|]*)\|", written, re.MULTILINE):
            self.assertLessEqual(options(words), own[name], name)

    def test_commands_of_the_engine(self):
        known = set(self.helps) - {"rbacd"}
        listed = set(re.findall(r"^  ([a-z-]+)  ", self.helps["rbacd"].partition("Commands:")[2], re.MULTILINE))
        self.assertEqual(listed, known | {"help"})
        for name, page in PAGES.items():
            for command in re.findall(r"(?:`|/)rbacd (?:--unproved )?([a-z][a-z-]*)(?= -|`)", page):
                # bin/rbacd has one command of its own
                self.assertIn(command, known | {"build"}, name)

    def test_options_of_the_engine(self):
        """The lines of PROGRAM that show how a command is written have all of its options."""
        for name, line in re.findall(r"^- `rbacd ([a-z-]+)([^`]*)`", PAGES["docs/PROGRAM.md"], re.MULTILINE):
            given = options(self.helps[name].partition("Options:")[2].partition("\n\n")[0]) - {"--help"}
            if options(line):
                self.assertLessEqual(options(line), given, name)
            if name in ("check", "judge") and "--batch" not in line:
                self.assertEqual(options(line), given - {"--batch"}, name)

    def test_words(self):
        """The tool's texts have none of the words that CONTRIBUTING bans."""
        table = (TOP / "CONTRIBUTING.md").read_text(encoding="utf-8").partition("\n## Words\n")[2].partition("\n## ")[0]
        words = [word for row in re.findall(r"^\| (`[^|]+`) \|", table, re.MULTILINE) for word in re.findall("`([^`]+)`", row)]
        banned = re.compile("|".join(rf"(?<![\w-]){re.escape(word)}(?![\w-])" for word in words), re.IGNORECASE)
        self.assertGreater(len(words), 20)
        for path in sorted((TOP / "tools" / "policy" / "policies").glob("**/*.py")):
            for number, line in enumerate(path.read_text(encoding="utf-8").splitlines(), 1):
                self.assertIsNone(banned.search(line), f"{path}:{number}: {line.strip()}")

    def test_numbers(self):
        page = PAGES["docs/PROGRAM.md"]
        self.assertIn(f"1 to {GREATEST_BUDGET:,}, and {BUDGET:,} by default", page)
        for text in (self.helps["check"], self.helps["judge"]):
            self.assertIn(f"from 1 to {GREATEST_BUDGET} [default: {BUDGET}]", text)
        self.assertIn(f"(default {BUDGET})", " ".join(self.commands["check"].format_help().split()))
        self.assertEqual([number for number in ("0", "1", "2", "3", "4", "5") if f"{number} " in STATUSES], list("01234"))
        for page in PAGES.values():
            for number, name in re.findall(r"\b(\d+) ([A-Z][a-z]+[A-Z]\w+)", page):
                if name in NAMES.values():
                    self.assertEqual(NAMES[int(number)], name)

    def test_notes(self):
        """The tool's page lists each note by its name."""
        table = PAGES[OWN_PAGE].partition("## Notes")[2].partition("\n## ")[0]
        self.assertEqual(set(re.findall(r"^\| `([a-z-]+)` \|", table, re.MULTILINE)), set(MEANINGS))

    def test_compared(self):
        """The tool's page has the numbers up to which `policy diff` tries all combinations."""
        text = PAGES[OWN_PAGE]
        self.assertIn(f"at most {MOST_LEAVES} different leaves, and at most {MOST_COMBINATIONS:,} requests", text)
