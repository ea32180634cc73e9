"""Requests made smaller: what an answer does not need is left out, as the engine decides."""
from typing import Callable, List, TypeVar

from .drafts import Draft
from .spaces import DEFAULTS

# So many rounds are made.
MOST_ROUNDS = 12
# A request with what was answered to it: its `draft` is the request.
Judged = TypeVar("Judged")


def smaller(one: Judged, judge: Callable[[List[Draft]], List[Judged]], fits: Callable[[Judged], bool]) -> Judged:
    """The plainest request whose answer still fits."""
    for _ in range(MOST_ROUNDS):
        tried = [key for key, value in one.draft.items() if value != DEFAULTS.get(key)]
        answers = judge([_without(one.draft, [key]) for key in tried])
        needless = [key for key, other in zip(tried, answers) if fits(other)]
        if not needless:
            return one
        [all_of, first] = judge([_without(one.draft, needless), _without(one.draft, needless[:1])])
        one = all_of if fits(all_of) else first
    return one


def _without(draft: Draft, keys: List[tuple]) -> Draft:
    """A request with some parts as they are in the plainest one."""
    plain = {key: DEFAULTS[key] for key in keys if key in DEFAULTS}
    return {**{key: value for key, value in draft.items() if key not in keys}, **plain}
