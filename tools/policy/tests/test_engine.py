"""The engine and the comments agree: it refuses a filter for one of the faults told, and admits one without any.

These run where the engine is built (`bin/rbacd` builds it).
"""
import random
import re
import subprocess
import tempfile
import unittest

from policies import engine, reading
from policies.bounds import GREATEST, GREATEST_BUDGET
from policies.conditions_typing import bounds_of
from policies.decode import decode
from policies.forms.envoy import Form
from policies.places import Source
from random_filters import Maker
from support import ENGINE, NO_ENGINE, condition, encoded
from test_cel_go import Maker as TextMaker
from test_profile import REFUSED
from test_round_trip import alter


class WithoutConditions(Maker):
    """Random filters whose policies have no condition."""

    def condition(self, policy):
        pass


@unittest.skipUnless(ENGINE.exists(), NO_ENGINE)
class Engine(unittest.TestCase):
    """Runs of `rbacd judge`."""

    def answer(self, data):
        """The number of the refusal, or None."""
        with tempfile.NamedTemporaryFile() as file:
            file.write(data)
            file.flush()
            words = [ENGINE, "judge", "--policy", file.name]
            out = subprocess.run(words, input=b"GET / HTTP/1.1\r\nHost: h\r\n\r\n", capture_output=True).stdout.decode()
        refused = re.match(r"refused: (\d+) ", out)
        return int(refused[1]) if refused else None

    def check(self, data):
        """One filter: the engine's answer is one of the faults told, or there is none."""
        text = decode(data)
        told = {int(number) for number in re.findall(r"# byte \d+: .* \((\d+) [A-Za-z]+\)$", text, re.MULTILINE)}
        self.assertIn(self.answer(data), told or {None}, text)

    def test_table(self):
        for text, _ in REFUSED:
            with self.subTest(text[-100:]):
                self.check(encoded(text))

    def test_random(self):
        self.check_random(WithoutConditions(7, profile=True), 150)

    def test_random_conditions(self):
        self.check_random(Maker(8, profile=True), 250)

    def check_random(self, maker, count):
        """Random filters, each as it is made and with a byte changed."""
        change = random.Random(7)
        for _ in range(count):
            data = bytearray(maker.filter_bytes())
            self.check(bytes(data))
            alter(data, change)
            self.check(bytes(data))

    def test_bounds(self):
        """Random conditions: the tool's bound is the engine's, or both refuse for the same reason."""
        makers = [TextMaker(11), TextMaker(12, two_variables=True)]
        texts = [maker.text("bool") for maker in makers for _ in range(100)]
        sources = [Source("filter.yaml", condition(text).encode()) for text in texts]
        made = [reading.encoded(one, Form("", one.compose()), GREATEST_BUDGET, False) for one in sources]
        with engine.Engine(ENGINE) as asked:
            answers = asked.admissions([one.data for one in made], GREATEST)
        for text, one, answer in zip(texts, made, answers, strict=True):
            with self.subTest(text):
                found = {finding.number for finding in one.findings if finding.number}
                if answer.number:
                    self.assertIn(answer.number, found)
                else:
                    self.assertEqual((found, bounds_of(one.message)[0].steps), (set(), answer.bound))
