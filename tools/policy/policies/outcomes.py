"""Outcomes of tests: what the engine answers, and how that differs from what a test expects.

All requests of a filter are judged by one run of the engine, and those of tests that fail by another, which explains them.
"""
import json
import re
import time
from functools import lru_cache
from typing import Dict, List, NamedTuple, Optional, Tuple

from .engine import Engine, Request, in_parallel
from .messages import FILTER, Message, descriptor
from .placing import EnginePlace, named_node
from .reader import read
from .testfiles import Subject, Test

NONE = "none"
PASSED, FAILED, NOT_RUN = "passed", "failed", "not run"
# So many failures of a filter are explained.
MOST_EXPLAINED = 50
# The members of a trial that its reason has already.
TRIAL = ("name", "number", "reason", "error", "steps", "bound")
# The part of a condition that an error is from, as the engine tells it.
ERROR_PLACE = re.compile(r"(?P<part>checked_condition\.expr|condition), node (?P<node>-?\d+): ")


class Outcome(NamedTuple):
    """What a test gave: the engine's object, the lines of difference (none if it passed), and its part of the seconds that
    its filter took."""

    test: Test
    answer: dict
    difference: List[str]
    seconds: float = 0.0

    def status(self) -> str:
        """Whether it passed, failed or was not run."""
        return NOT_RUN if self.test.mistakes else FAILED if self.difference else PASSED


def run_tests(tests: List[Test], asked: Optional[Engine]) -> List[Outcome]:
    """The outcomes of tests, in order; tests with mistakes are not run, and without others no engine is needed."""
    groups: Dict[Subject, List[int]] = {}
    outcomes: Dict[int, Outcome] = {}
    for index, test in enumerate(tests):
        if test.mistakes or test.subject is None:
            lines = [line for mistake in test.mistakes for line in str(mistake).splitlines()]
            outcomes[index] = Outcome(test, {}, lines)
        else:
            groups.setdefault(test.subject, []).append(index)
    if asked is not None:
        work = [(asked, subject, [tests[index] for index in indices]) for subject, indices in groups.items()]
        for indices, found in zip(groups.values(), in_parallel(lambda one: _of_subject(*one), work)):
            outcomes.update(zip(indices, found))
    return [outcomes[index] for index in range(len(tests))]


def _of_subject(asked: Engine, subject: Subject, tests: List[Test]) -> List[Outcome]:
    """The outcomes of the tests of one filter."""
    started = time.monotonic()
    answers = _answers(asked, subject, tests)
    failed = [index for index, test in enumerate(tests) if not fits(test, answers[index])]
    asked_again = [index for index in failed if "verdict" in answers[index]][:MOST_EXPLAINED]
    requests = [request for request in (tests[index].request for index in asked_again) if request is not None]
    if requests:
        explained = asked.decisions(subject.data, requests, subject.budget, explain=True)
        answers.update(zip(asked_again, explained))
    share = (time.monotonic() - started) / len(tests)
    known = set(failed)
    return [
        Outcome(test, answers[index], _difference(test, answers[index]) if index in known else [], share)
        for index, test in enumerate(tests)
    ]


def _answers(asked: Engine, subject: Subject, tests: List[Test]) -> Dict[int, dict]:
    """What the engine answers to each test of a filter."""
    with_request = [(index, test.request) for index, test in enumerate(tests) if test.request is not None]
    requests: List[Request] = [request for _, request in with_request if request is not None]
    answers: Dict[int, dict] = {}
    if requests:
        decided = asked.decisions(subject.data, requests, subject.budget)
        answers = dict(zip((index for index, _ in with_request), decided))
    if len(answers) < len(tests):
        admission = asked.admission(subject.data, subject.budget).answer
        answers = {**dict.fromkeys(range(len(tests)), admission), **answers}
    return answers


def told(answer: dict) -> str:
    """An engine's object as the words of an expectation."""
    if answer.get("refused"):
        return f"refused {answer['refused']} {answer['name']}"
    if "head" in answer:
        return f"head {answer['head']}"
    if answer.get("out_of_steps"):
        return "steps"
    if "verdict" in answer:
        return answer["verdict"]
    if "bad_facts" in answer:
        return answer["bad_facts"]
    return "admitted" if answer.get("admitted") else "memory ran out"


def fits(test: Test, answer: dict) -> bool:
    """Whether an answer is what a test expects."""
    if test.expect.startswith("refused"):
        words = test.expect.split(" ")[1:]
        return bool(answer.get("refused")) and all(word in (str(answer["refused"]), answer["name"]) for word in words)
    return told(answer) == test.expect and test.matched in (None, matched_of(answer))


def _difference(test: Test, answer: dict) -> List[str]:
    """The lines that tell what was expected and what was answered."""
    by = matched_of(answer)
    wanted = test.expect + (f" by {quoted(test.matched)}" if test.matched is not None else "")
    answered = told(answer) + (f" by {quoted(by)}" if "verdict" in answer else "")
    lines = [f"- {wanted}", f"+ {answered}"]
    data = None if test.subject is None else test.subject.data
    return lines + [f"    {line}" for line in explained(answer, data)]


def explained(answer: dict, data: Optional[bytes]) -> List[str]:
    """The lines on the policies that were tried, with the leaves that decide, and the causes of a refusal."""
    lines: List[str] = []
    for trial in answer.get("trials", []):
        lines.append(f"{quoted(trial['name'])}: {reason(trial)}")
        lines += [f"  {_with_node(line, trial['name'], data)}" for line in details(trial)]
    return lines + [answer[name] for name in ("cause", "place") if answer.get(name)]


def _with_node(line: str, policy: str, data: Optional[bytes]) -> str:
    """A line about a policy of a filter; if it names a node of the condition, with that node as text."""
    found = ERROR_PLACE.match(line)
    if found is None or data is None:
        return line
    place = EnginePlace(("rules", "policies", policy, *found["part"].split(".")), int(found["node"]))
    named = named_node(place, message_of(data))
    return line if named is None else f"{line} ({named.told()})"


@lru_cache(maxsize=16)
def message_of(data: bytes) -> Message:
    """The message of a filter's bytes, kept for the next line about the same one."""
    return read(descriptor(FILTER), data, None)


def matched_of(answer: dict) -> str:
    """The name of the policy that matched, or `none`."""
    return answer["name"] if "verdict" in answer and answer.get("name") is not None else NONE


def quoted(name: str) -> str:
    """A policy's name in quotes; no policy without them."""
    return NONE if name == NONE else f'"{name}"'


def reason(trial: dict) -> str:
    """Why a policy that was tried matched or did not."""
    words = {
        "permission": "no permission of it matches",
        "principal": "no principal of it matches",
        "condition error": f"its condition is the error {trial.get('error')}, which is no match",
        "condition false": "its condition is false",
        "condition true": "its condition is true",
        "match": "it matches",
    }
    return words.get(trial["reason"], trial["reason"])


def details(trial: dict) -> List[str]:
    """What the engine says of a trial beside its reason, such as the leaves that failed."""
    found = [value for name, value in sorted(trial.items()) if name not in TRIAL]
    parts = [part for value in found if value is not None for part in (value if isinstance(value, list) else [value])]
    return [part if isinstance(part, str) else json.dumps(part, ensure_ascii=False) for part in parts]


def by_file(outcomes: List[Outcome]) -> List[Tuple[str, List[Outcome]]]:
    """The outcomes of each file, in order."""
    files: Dict[str, List[Outcome]] = {}
    for outcome in outcomes:
        files.setdefault(outcome.test.file, []).append(outcome)
    return list(files.items())
