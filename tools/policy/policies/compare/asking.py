"""Questions to one filter: is there a request that it lets pass or denies, and that meets conditions?"""
import time
from typing import Iterator, List, NamedTuple, Optional

from ..conditions_typing import condition_of
from ..meaning.children import worked
from ..meaning.questions import Reading, Search, read, ways
from ..outcomes import told
from .deciding import Decided, Policies, policies_in
from .drafts import Draft, request_of
from .judging import Judges, Side, decisions
from .smaller import smaller

FOUND, NONE_FOUND, NOT_DECIDED, UNCONFIRMED = "found", "none", "not decided", "unconfirmed"
ALLOWED, DENIED = "allow", "deny"


class Question(NamedTuple):
    """What is asked for: a verdict, the policy that decides, and conditions, as filters that let a request pass where each is true."""

    verdict: Optional[str]
    policy: Optional[str]
    conditions: List[Side]


class Found(NamedTuple):
    """A request, what the filter answers to it, and what the conditions' filters do."""

    draft: Draft
    answer: dict
    conditions: List[dict]


class Reply(NamedTuple):
    """A word, a request if one was found, and why there is no answer."""

    word: str
    found: Optional[Found] = None
    why: str = ""


class Unconfirmed(NamedTuple):
    """A request of the solver of which the engine says something else."""

    found: Found


def ask(judges: Judges, question: Question, seconds: float) -> Reply:
    """Answers a question to a filter that the engine admits; each way to decide texts may take so many seconds."""
    policies = policies_in(judges.sides[0])
    reasons: List[str] = []
    for way in ways():
        asking = Asking(judges, policies, question, time.monotonic() + seconds)
        found, why = worked(lambda: asking.requests(way), seconds)
        if found and isinstance(found[0], Unconfirmed):
            return Reply(UNCONFIRMED, found[0].found, way.name)
        if found:
            return Reply(FOUND, found[0])
        if not why:
            return Reply(NONE_FOUND)
        reasons.append(why)
    return Reply(NOT_DECIDED, None, "; ".join(dict.fromkeys(reasons)))


class Asking:
    """A question on its way to an answer, in the process that decides."""

    def __init__(self, judges: Judges, policies: Policies, question: Question, until: float):
        self.judges, self.policies, self.question, self.until = judges, policies, question, until
        asked = [policies_in(side).policies[0] for side in question.conditions]
        self.trees = [condition_of(policy.policy).tree() for policy in asked]

    def requests(self, way) -> Iterator[object]:
        """The smallest request that meets the question, if there is one."""
        reading = read(way, self._formulas)
        search = Search(reading, self._formulas(reading), self.until)
        while True:
            draft = search.next()
            if draft is None:
                return
            [one] = self._judge([draft])
            if self._fits(one):
                yield smaller(one, self._judge, lambda other: self._fits(other) and other.answer == one.answer)
                return
            is_judged = all("verdict" in answer for answer in (one.answer, *one.conditions))
            if not search.may_be_another(draft, is_judged):
                yield Unconfirmed(one)
                return

    def _formulas(self, reading: Reading) -> list:
        """What a request has to meet."""
        decided = Decided(reading, self.policies)
        found = [reading.tree(tree).true for tree in self.trees]
        if self.question.policy is not None:
            found.append(decided.by(self.question.policy))
        if self.question.verdict is not None:
            found.append(decided.passes() if self.question.verdict == ALLOWED else decided.refuses())
        return found

    def _judge(self, drafts: List[Draft]) -> List[Found]:
        """What the filter and the conditions' filters answer to requests."""
        requests, sides = [request_of(draft) for draft in drafts], [*self.judges.sides, *self.question.conditions]
        answers = decisions(self.judges.asked, sides, requests, self.judges.budget)
        return [Found(draft, *_split(given)) for draft, given in zip(drafts, zip(*answers))]

    def _fits(self, one: Found) -> bool:
        """Whether the engine says that a request meets the question."""
        verdict = told(one.answer)
        is_verdict = self.question.verdict in (None, verdict) and "verdict" in one.answer
        is_policy = self.question.policy in (None, one.answer.get("name"))
        return is_verdict and is_policy and all(told(answer) == ALLOWED for answer in one.conditions)


def _split(given: tuple) -> tuple:
    return given[0], list(given[1:])
