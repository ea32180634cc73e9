"""Two filters judged on the same requests, and where they differ."""
from typing import Dict, List, NamedTuple, Tuple

from ..bounds import Budget
from ..engine import Engine, Request, in_parallel
from ..faults import MOST_POLICIES
from ..messages import Message
from ..outcomes import matched_of, message_of, told
from ..writer import PLAIN
from .drafts import Draft, request_of, weight

# So many requests are one run of the engine.
AT_ONCE = 5_000


class Side(NamedTuple):
    """One of the filters: what it is called, and its bytes, whole and in parts of as many policies as the engine takes."""

    name: str
    whole: bytes
    parts: List[bytes]


class Difference(NamedTuple):
    """A request on which two filters differ, and what each answers."""

    draft: Draft
    old: dict
    new: dict


def side_of(name: str, data: bytes) -> Side:
    """A filter, in parts if it has more policies than the engine takes: it matches if one of them does."""
    message = message_of(data)
    rules = message.get("rules")
    policies = (rules.get("policies") or []) if rules is not None and rules.is_whole else []
    if len(policies) <= MOST_POLICIES:
        return Side(name, data, [data])
    for _, policy in policies:
        # what was read is what is written
        policy.wire = bytes(policy.raw)
    ordered = sorted(policies, key=lambda policy: policy[0].encode())
    starts = range(0, len(ordered), MOST_POLICIES)
    return Side(name, data, [_with_policies(message, ordered[start : start + MOST_POLICIES]) for start in starts])


def side_of_some(side: Side, policies: list) -> Side:
    """A filter with some of its policies, each a name and a message."""
    data = _with_policies(message_of(side.whole), policies)
    return Side(side.name, data, [data])


def _with_policies(message: Message, policies: list) -> bytes:
    """The bytes of a filter with other policies."""
    rules, made = message.get("rules"), Message(message.kind)
    inner = Message(rules.kind)
    inner.values = {**rules.values, "policies": policies}
    made.values = {**message.values, "rules": inner}
    return PLAIN.write(made)


def decisions(asked: Engine, sides: List[Side], requests: List[Request], budget: Budget) -> List[List[dict]]:
    """What each filter answers to each request."""
    chunks = [requests[start : start + AT_ONCE] for start in range(0, len(requests), AT_ONCE)]
    # filters that are alike have parts in common
    parts = list(dict.fromkeys(part for side in sides for part in side.parts))
    work = [(part, chunk) for part in parts for chunk in chunks]
    answered = iter(list(in_parallel(lambda one: asked.decisions(one[0], one[1], budget), work)))
    known = {part: [answer for _ in chunks for answer in next(answered)] for part in parts}
    return [[_joined(answers) for answers in zip(*(known[part] for part in side.parts))] for side in sides]


def _joined(answers: Tuple[dict, ...]) -> dict:
    """The answer of a filter by those of its parts: that of the first part with a policy that matches."""
    return next((answer for answer in answers if answer.get("name") is not None), answers[0])


class Judges(NamedTuple):
    """Two filters, and the engine that judges by them."""

    asked: Engine
    sides: List[Side]
    budget: Budget

    def answers(self, drafts: List[Draft]) -> List[Difference]:
        """What both filters answer to each request, equal or not."""
        both = decisions(self.asked, self.sides, [request_of(draft) for draft in drafts], self.budget)
        return [Difference(*one) for one in zip(drafts, *both)]


def differences(drafts: List[Draft], both: List[List[dict]], with_policies: bool) -> List[Difference]:
    """The requests on which the answers differ: the verdict, or if it is asked, the policy that matches."""
    found = []
    for draft, old, new in zip(drafts, *both):
        if told(old) != told(new) or with_policies and matched_of(old) != matched_of(new):
            found.append(Difference(draft, old, new))
    return found


def plainest(found: List[Difference]) -> List[Difference]:
    """The plainest request for each pair of answers, the plainest of all first."""
    kinds: Dict[tuple, Difference] = {}
    for one in sorted(found, key=lambda difference: weight(difference.draft)):
        kinds.setdefault((told(one.old), matched_of(one.old), told(one.new), matched_of(one.new)), one)
    return list(kinds.values())
