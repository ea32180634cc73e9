"""The greatest filter, its budget, and what of that the conditions take."""
from typing import List, NamedTuple

from .conditions_typing import Bound, bounds_of
from .findings import Finding
from .messages import Message

BUDGET = 1_000_000
GREATEST_BUDGET = 100_000_000
# So many visits the measuring of conditions may take.
VISITS = 4_194_304
GREATEST_VISITS = 2**63 - 1
TOO_COSTLY = 15
# As much as a message of the update stream has.
GREATEST_FILTER = 1_048_576
TOO_LONG = f"the filter has more than {GREATEST_FILTER} bytes, the most that a message of the update stream has"


class Budget(NamedTuple):
    """What the conditions of a filter may take together: steps when they run, and visits when they are measured."""

    steps: int = BUDGET
    visits: int = VISITS

    def words(self) -> List[str]:
        """The options of the engine."""
        return ["--budget", str(self.steps), *(["--visits", str(self.visits)] if self.visits != VISITS else [])]


GREATEST = Budget(GREATEST_BUDGET, GREATEST_VISITS)


def too_costly(message: Message, budget: int) -> List[Finding]:
    """The finding that the conditions of a filter may take more steps than its budget, at the one that takes most."""
    bounds = [bound for bound in bounds_of(message) if bound.condition is not None]
    total = sum(GREATEST_BUDGET + 1 if bound.steps is None else bound.steps for bound in bounds)
    if total <= budget:
        return []
    worst = max(bounds, key=_weight)
    words = f'the condition of policy "{worst.policy}" may take {figure(worst)} steps'
    if len(bounds) > 1 and worst.steps is not None:
        words += f", all {len(bounds)} conditions together {total if total <= GREATEST_BUDGET else 'more'}"
    words += f"; the budget is {budget}"
    if worst.steps is not None and total <= GREATEST_BUDGET:
        words += f" (--budget {total} would admit it)"
    return [Finding(TOO_COSTLY, words, None, ("rules", "policies", worst.policy, *(worst.condition or ())))]


def _weight(bound: Bound) -> int:
    return GREATEST_BUDGET + 1 if bound.steps is None else bound.steps


def figure(bound: Bound) -> str:
    """The steps of a condition as text."""
    return f"more than {GREATEST_BUDGET}" if bound.steps is None else str(bound.steps)
