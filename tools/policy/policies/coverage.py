"""Which policies of a filter tests matched, and which conditions they found true and false."""
from typing import Dict, List, NamedTuple, Optional, Tuple

from .conditions_typing import condition_of
from .engine import Engine
from .outcomes import NOT_RUN, Outcome, message_of
from .testfiles import Subject

# So many requests are explained at a time, until each condition was false once.
AT_A_TIME = 64


class Coverage(NamedTuple):
    """What tests tried of one filter: its policies' names with how often each matched, and the conditions that were not
    false, if that was asked."""

    subject: str
    matched: Dict[str, int]
    never_false: List[str]

    def gaps(self) -> List[Tuple[str, str]]:
        """Each policy with what no test tried of it."""
        found = []
        for name, count in self.matched.items():
            if not count:
                found.append((name, "never matched"))
            if name in self.never_false:
                found.append((name, "its condition was never false"))
        return found


def coverage(outcomes: List[Outcome], asked: Optional[Engine] = None) -> List[Coverage]:
    """The coverage of each filter by the policies that matched; an engine is asked for the conditions that were false."""
    groups: Dict[bytes, List[Outcome]] = {}
    for outcome in outcomes:
        if outcome.test.subject is not None and outcome.status() != NOT_RUN and "refused" not in outcome.answer:
            groups.setdefault(outcome.test.subject.data, []).append(outcome)
    return [_coverage(group, asked) for group in groups.values()]


def _coverage(outcomes: List[Outcome], asked: Optional[Engine]) -> Coverage:
    subject = outcomes[0].test.subject
    assert subject is not None
    matched = dict.fromkeys(_policies(subject), 0)
    for outcome in outcomes:
        name = outcome.answer.get("name")
        if name is not None:
            matched[name] = matched.get(name, 0) + 1
    return Coverage(subject.name, matched, _never_false(subject, outcomes, asked) if asked is not None else [])


def _never_false(subject: Subject, outcomes: List[Outcome], asked: Engine) -> List[str]:
    """The policies of a filter whose condition was never false, as the engine explains its decisions."""
    left = {name for name, has_condition in _policies(subject).items() if has_condition}
    judged = [outcome.test.request for outcome in outcomes if "verdict" in outcome.answer]
    requests = [request for request in judged if request is not None]
    for start in range(0, len(requests), AT_A_TIME):
        if not left:
            break
        part = requests[start : start + AT_A_TIME]
        for answer in asked.decisions(subject.data, part, subject.budget, explain=True):
            left -= {trial["name"] for trial in answer.get("trials", []) if trial["reason"] == "condition false"}
    return sorted(left, key=str.encode)


def _policies(subject: Subject) -> Dict[str, bool]:
    """The policies of a filter, by ascending name, each with whether it has a condition."""
    rules = message_of(subject.data).get("rules")
    policies = dict(rules.get("policies") or []) if rules is not None and rules.is_whole else {}
    return {name: condition_of(policies[name]) is not None for name in sorted(policies, key=str.encode)}
