"""Filters compared for all requests: pairs whose answer is known, and random pairs beside the engine."""
import unittest
from functools import partial
from typing import NamedTuple

from cases import rule
from decided_pairs import DIFFERENT_PAIRS, EQUAL_PAIRS, GAPS
from policies.bounds import Budget
from policies.compare.drafts import request_of, shown
from policies.compare.judging import Judges, decisions, side_of
from policies.engine import Engine
from policies.outcomes import told
from policies.places import Mistake
from policies.workers import in_processes
from random_questions import Maker
from support import ENGINE, NO_ENGINE, NO_SOLVER, condition, encoded, has_solver, times

if has_solver():
    from policies.compare.deciding import DIFFER, EQUAL, NOT_DECIDED, decide

BUDGET = Budget()
# So many pairs are made, of which the engine takes so many at least; equal ones are tried by so many requests, in parts.
MADE, PAIRS, TRIED, TRIED_AT_ONCE = 160, 100, 300, 50
SEED = 2
PATIENCE, PATIENCE_AT_RANDOM = 120, 30
# Of random pairs so many at most are not decided.
MOST_OPEN = 0.05


@unittest.skipUnless(has_solver() and ENGINE.exists(), NO_SOLVER if ENGINE.exists() else NO_ENGINE)
class Pairs(unittest.TestCase):
    """Two filters."""

    def setUp(self):
        self.asked = Engine(ENGINE)
        self.addCleanup(self.asked.__exit__)

    def decided(self, old, new, with_policies=False, patience=PATIENCE):
        """What is decided of two filters in YAML; what differs is what the engine says."""
        sides = [side_of(name, encoded(text)) for name, text in (("old", old), ("new", new))]
        found = decide(Judges(self.asked, sides, BUDGET), with_policies, patience)
        requests = [request_of(one.draft) for one in found.differences]
        for one, answers in zip(found.differences, zip(*decisions(self.asked, sides, requests, BUDGET))):
            self.assertEqual(answers, (one.old, one.new))
            if not with_policies:
                self.assertNotEqual(told(one.old), told(one.new), shown(one.draft))
        return found

    def test_equal(self):
        for one, other in EQUAL_PAIRS:
            with self.subTest(one, other=other):
                found = self.decided(condition(one), condition(other))
                self.assertEqual((found.word, found.why), (EQUAL, ""), [shown(one.draft) for one in found.differences])

    def test_different(self):
        for one, other in DIFFERENT_PAIRS:
            with self.subTest(one, other=other):
                self.assertEqual(self.decided(condition(one), condition(other)).word, DIFFER)

    def test_gaps(self):
        """What the model cannot say is named."""
        for one, other, words in GAPS:
            with self.subTest(one):
                found = self.decided(condition(one), condition(other), patience=20)
                self.assertEqual(found.word, NOT_DECIDED)
                self.assertIn(words, found.why)

    def test_parts(self):
        """A server name that is absent: in a rule it is the empty text, in a condition an error."""
        name = "connection.requested_server_name"
        found = self.decided(rule("{requested_server_name: {exact: ''}}"), condition(f'{name} == ""'))
        self.assertEqual((found.word, [("fact", name) in one.draft for one in found.differences]), (DIFFER, [False]))
        other = rule("{not_rule: {requested_server_name: {prefix: a}}}")
        self.assertEqual(self.decided(other, condition(f'!{name}.startsWith("a")')).word, DIFFER)
        self.assertEqual(self.decided(other, rule("{not_rule: {requested_server_name: {prefix: a, ignore_case: true}}}")).word, EQUAL)

    def test_random(self):
        """Of random pairs most are decided. No request that was found is refused by the engine, and nothing equal is told apart by
        random requests."""
        seeds = [SEED * 7_000_003 + number for number in range(MADE * times())]
        found = list(in_processes(partial(compared, self), seeds))
        known = [one for one in found if one.word]
        wrong = [one for one in known if one.word not in (EQUAL, DIFFER, NOT_DECIDED) or "fault" in one.why]
        self.assertFalse(wrong, wrong[:3])
        self.assertGreaterEqual(len(known), PAIRS * times())
        not_decided = [one for one in known if one.word == NOT_DECIDED]
        self.assertLessEqual(len(not_decided), MOST_OPEN * len(known), not_decided[:3])


class Compared(NamedTuple):
    """A random filter and one that was made of it, what was decided of them, or nothing if the engine refuses one, and why."""

    word: str
    why: str
    old: str
    new: str


def compared(test, seed):
    """A random pair; it is another word if random requests tell equal filters apart."""
    maker = Maker(seed)
    old = maker.filter().replace("action: LOG", "action: ALLOW")
    new = maker.changed(old)
    try:
        sides = [side_of(name, encoded(text)) for name, text in (("old", old), ("new", new))]
    except Mistake:
        return Compared("", "", old, new)
    if any(test.asked.admission(part, BUDGET).number for side in sides for part in side.parts):
        return Compared("", "", old, new)
    found = test.decided(old, new, patience=PATIENCE_AT_RANDOM)
    # the engine takes long for a few hundred requests
    for _ in range(TRIED // TRIED_AT_ONCE if found.word == EQUAL else 0):
        requests = [request_of(maker.request()) for _ in range(TRIED_AT_ONCE)]
        one, other = decisions(test.asked, sides, requests, BUDGET)
        if list(map(told, one)) != list(map(told, other)):
            return Compared("not equal", "", old, new)
    return Compared(found.word, found.why, old, new)
