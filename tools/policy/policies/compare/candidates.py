"""The requests on which two filters are compared.

If neither filter has a condition, what each decides depends on its leaves alone. Then all combinations of values that
the leaves can tell apart are tried, if these are not too many. Else requests are sought that each policy matches, and
those beside them.
"""
import itertools
import random
from typing import Dict, Iterator, List, NamedTuple, Optional, Tuple

from ..conditions_typing import condition_of
from .constants import probes_of
from .drafts import Draft, plain_first
from .leaves import ALL, NONE_OF, ONE, Any, Group, Leaf, Policy, Rule, holds, leaves_of
from .spaces import Dimension, Probe, Space, space_of

MOST_LEAVES = 64
MOST_COMBINATIONS = 100_000
MOST_TRIED = 20_000
# So many ways to match are tried for each side of a policy, and so many values of a dimension beside a match.
MOST_WAYS, MOST_BESIDE = 8, 24
SEED = 1
# What a leaf has to answer.
Wanted = Tuple[Leaf, bool]


class Candidates(NamedTuple):
    """Requests to try, how many leaves they are made of, and why they are not all that the filters can tell apart, or
    nothing."""

    drafts: List[Draft]
    leaves: int
    gap: str


def candidates(policies: List[Policy]) -> Candidates:
    """The requests for the policies of both filters."""
    leaves = list(dict.fromkeys(leaf for one in policies for leaf in leaves_of(one.permissions + one.principals)))
    probes: Dict[Dimension, List[Probe]] = {}
    for leaf in leaves:
        probes.setdefault(leaf.dimension, []).append(leaf.probe)
    trees = [condition.tree() for condition in (condition_of(one.policy) for one in policies) if condition is not None]
    for tree in trees:
        for dimension, found in probes_of(tree).items() if tree is not None else ():
            probes.setdefault(dimension, []).extend(found)
    known = {dimension: space_of(dimension, found) for dimension, found in probes.items()}
    known = {one: Space(plain_first(space.values, one), space.is_exact) for one, space in known.items()}
    total = _product(known)
    gap = _gap(known, len(leaves), total, bool(trees))
    if total <= (MOST_TRIED if gap else MOST_COMBINATIONS):
        return Candidates(list(_all(known)), len(leaves), gap)
    return Candidates(_some(policies, known), len(leaves), gap)


def _product(known: Dict[Dimension, Space]) -> int:
    total = 1
    for space in known.values():
        total *= len(space.values)
    return total


def _gap(known: Dict[Dimension, Space], leaves: int, total: int, has_condition: bool) -> str:
    """Why all combinations of the values are not all that the filters can tell apart, or nothing."""
    if has_condition:
        return "a condition may tell more apart"
    if leaves > MOST_LEAVES:
        return f"the filters have {leaves} leaves, and at most {MOST_LEAVES} are tried in all combinations"
    if not all(space.is_exact for space in known.values()):
        return "the leaves tell more texts apart than can be listed"
    if total > MOST_COMBINATIONS:
        return f"the leaves have {total} combinations, and at most {MOST_COMBINATIONS} are tried"
    return ""


def _all(known: Dict[Dimension, Space]) -> Iterator[Draft]:
    """All combinations of values."""
    for values in itertools.product(*(space.values for space in known.values())):
        yield dict(zip(known, values))


def _some(policies: List[Policy], known: Dict[Dimension, Space]) -> List[Draft]:
    """The plainest request, those that policies match, all of them with one value changed, and random ones."""
    found: Dict[tuple, Draft] = {}
    for draft in itertools.chain([{}], *(_matched(one, known) for one in policies)):
        for one in _beside(draft, known):
            found.setdefault(tuple(sorted(one.items(), key=str)), one)
        if len(found) >= MOST_TRIED // 2:
            break
    chance = random.Random(SEED)
    for _ in range(MOST_TRIED - len(found)):
        draft = {dimension: chance.choice(space.values) for dimension, space in known.items()}
        found.setdefault(tuple(sorted(draft.items(), key=str)), draft)
    return list(found.values())[:MOST_TRIED]


def _beside(draft: Draft, known: Dict[Dimension, Space]) -> Iterator[Draft]:
    """A request, and those with one value changed."""
    whole = {dimension: draft.get(dimension, space.values[0]) for dimension, space in known.items()}
    yield whole
    for dimension, space in known.items():
        for value in space.values[:MOST_BESIDE]:
            yield {**whole, dimension: value}


def _matched(policy: Policy, known: Dict[Dimension, Space]) -> Iterator[Draft]:
    """Requests that the rules of a policy match."""
    sides = []
    for rules in (policy.permissions, policy.principals):
        ways = itertools.chain(*(_ways(rule, True) for rule in rules))
        sides.append(list(itertools.islice(ways, MOST_WAYS)))
    for one, other in itertools.product(*sides):
        draft = _solved([*one, *other], known)
        if draft is not None:
            yield draft


def _ways(rule: Rule, wanted: bool) -> Iterator[Tuple[Wanted, ...]]:
    """Ways in which a rule has the wanted answer, each as what leaves have to answer."""
    if isinstance(rule, Any):
        yield from [()] if wanted else []
    elif isinstance(rule, Leaf):
        yield ((rule, wanted),)
    elif rule.kind == NONE_OF:
        yield from _ways(rule.rules[0], not wanted)
    else:
        yield from _of_group(rule, wanted)


def _of_group(group: Group, wanted: bool) -> Iterator[Tuple[Wanted, ...]]:
    if (group.kind == ALL) != wanted:
        for rule in group.rules:
            yield from _ways(rule, wanted)
        return
    assert group.kind in (ALL, ONE)
    parts = [list(itertools.islice(_ways(rule, wanted), MOST_WAYS)) for rule in group.rules]
    for combination in itertools.islice(itertools.product(*parts), MOST_WAYS):
        yield tuple(itertools.chain(*combination))


def _solved(wanted: List[Wanted], known: Dict[Dimension, Space]) -> Optional[Draft]:
    """Values for which the leaves have the wanted answers, or None."""
    draft: Draft = {}
    for dimension in {leaf.dimension for leaf, _ in wanted}:
        asked = [(leaf, answer) for leaf, answer in wanted if leaf.dimension == dimension]
        fitting = (value for value in known[dimension].values if all(holds(leaf, value) == answer for leaf, answer in asked))
        try:
            draft[dimension] = next(fitting)
        except StopIteration:
            return None
    return draft
