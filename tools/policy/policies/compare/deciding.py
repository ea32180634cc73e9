"""Two filters decided for all requests: equal, or requests on which they differ, each confirmed by the engine."""
import time
from functools import partial
from typing import Callable, Dict, Iterator, List, NamedTuple, Optional, Set, Tuple

from ..meaning.children import worked
from ..meaning.formulas import FALSE, TRUE, apart, both, either, no
from ..meaning.questions import NotDecided, Reading, Search, mark, read, ways
from ..outcomes import matched_of, message_of, told
from .drafts import Draft
from .judging import Difference, Judges, Side, side_of_some
from .leaves import Policy, policies_of
from .smaller import smaller

EQUAL, DIFFER, NOT_DECIDED, UNCONFIRMED = "equal", "differ", "not decided", "unconfirmed"
ALLOW, DENY, LOG = 0, 1, 2
# So many requests are found, each for another pair of deciding policies.
MOST_FOUND = 10
# Of more policies that are written in another way, those of one name are compared alone first.
MOST_AT_ONCE = 6
SECONDS_A_PAIR = 3.0
# Of filters with more policies together, requests are made smaller by the policies that differ alone.
MANY = 64


class Decision(NamedTuple):
    """What was decided of two filters: a word, the requests that differ, and why nothing more can be said."""

    word: str
    differences: List[Difference]
    why: str = ""


class Policies(NamedTuple):
    """A filter as the solver reads it: its action and its policies, by ascending name."""

    action: int
    policies: List[Policy]


class Unconfirmed(NamedTuple):
    """A request of the solver on which the engine says that both filters are the same."""

    difference: Difference


def decide(judges: Judges, with_policies: bool, seconds: float, check: Callable[[], None] = lambda: None) -> Decision:
    """Compares two filters by each way to decide texts in turn, which may take so many seconds. Meanwhile it is checked that the
    engine admits the filters."""
    pair = [policies_in(side) for side in judges.sides]
    reasons: List[str] = []
    for way in ways():
        comparison = Comparison(judges, pair, with_policies, time.monotonic() + seconds)
        found, why = worked(lambda: comparison.differences(way), seconds, check)
        check = lambda: None  # noqa: E731
        wrong = [one.difference for one in found if isinstance(one, Unconfirmed)]
        if wrong:
            return Decision(UNCONFIRMED, wrong, way.name)
        if found:
            return Decision(DIFFER, found, why)
        if not why:
            return Decision(EQUAL, [])
        reasons.append(why)
    return Decision(NOT_DECIDED, [], "; ".join(dict.fromkeys(reasons)))


def policies_in(side: Side) -> Policies:
    """The policies of a filter."""
    message = message_of(side.whole)
    rules = message.get("rules")
    return Policies(rules.scalar("action") if rules is not None else ALLOW, policies_of(message))


class Comparison:
    """Two filters on their way to an answer, in the process that decides."""

    def __init__(self, judges: Judges, pair: List[Policies], with_policies: bool, until: float):
        self.judges, self.with_policies, self.until = judges, with_policies, until
        self.old, self.new = pair
        self.found: List[Difference] = []
        # The bytes of policies that are the same in both, which are read only if they decide a request that was found.
        self.common: Set[bytes] = set()
        self.held: List[Policy] = []

    def differences(self, way) -> Iterator[object]:
        """The requests that differ, one for each pair of deciding policies."""
        if not self.with_policies and self.old.action == self.new.action:
            if self.old.action == LOG:
                return
            self.common = self._common(way)
        if self.common and not any(map(self._apart, (self.old, self.new))):
            return
        while (yield from self._search(way)):
            pass

    def _common(self, way) -> Set[bytes]:
        """The policies that are in both filters, by their bytes, and those that say the same."""
        sides = [{_bytes(one): one for one in side.policies} for side in (self.old, self.new)]
        found = sides[0].keys() & sides[1].keys()
        marks = [{mark(one): one for key, one in side.items() if key not in found} for side in sides]
        same = marks[0].keys() & marks[1].keys()
        found |= {_bytes(side[key]) for side in marks for key in same}
        others = [[one for key, one in side.items() if key not in same] for side in marks]
        if sum(map(len, others)) > MOST_AT_ONCE:
            for one, other in _same_name(*others):
                if _are_equal(way, one, other):
                    found |= {_bytes(one), _bytes(other)}
        return found

    def _apart(self, side: Policies) -> List[Policy]:
        """The policies of a filter that the other does not have."""
        return [one for one in side.policies if _bytes(one) not in self.common]

    def _search(self, way) -> Iterator[object]:
        """The requests that differ; whether to search again, with one more policy of both filters read."""
        sides = [Policies(side.action, self._apart(side)) for side in (self.old, self.new)]
        reading = read(way, lambda one: [one.matches(policy) for side in (*sides, Policies(0, self.held)) for policy in side.policies])
        decided = [Decided(reading, side) for side in sides]
        formulas = [self._differ(*decided), *(no(reading.matches(one)) for one in self.held)]
        search = Search(reading, formulas, self.until)
        for one in self.found:
            search.forbid(_same_pair(decided, one))
        while len(self.found) < MOST_FOUND:
            draft = search.next()
            if draft is None:
                return False
            one = self._by_few(draft, sides) or self._answer(draft)
            if not self._is_difference(one):
                if self._hold(one):
                    return True
                if not search.may_be_another(draft, _is_judged(one)):
                    yield Unconfirmed(one)
                    return False
                continue
            if not self._is_large():
                one = smaller(one, self.judges.answers, partial(self._is_same_difference, one))
            self.found.append(one)
            yield one
            search.forbid(_same_pair(decided, one))
            search.hurry(SECONDS_A_PAIR)
        return False

    def _answer(self, draft: Draft) -> Difference:
        """What both filters answer to a request."""
        [one] = self.judges.answers([draft])
        return one

    def _is_large(self) -> bool:
        return len(self.old.policies) + len(self.new.policies) > MANY

    def _by_few(self, draft: Draft, sides: List[Policies]) -> Optional[Difference]:
        """Of large filters the difference with the plainest request: the policies that are read are asked, and the whole filters
        once; None if these answer alike, or decide by other policies."""
        if not self._is_large():
            return None
        named = [[(policy.name, policy.policy) for policy in few.policies] for few in sides]
        few = self.judges._replace(sides=[side_of_some(side, some) for side, some in zip(self.judges.sides, named)])
        [one] = few.answers([draft])
        if not self._is_difference(one):
            return None
        whole = self._answer(smaller(one, few.answers, partial(self._is_same_difference, one)).draft)
        return whole if self._is_same_difference(one, whole) else None

    def _is_same_difference(self, one: Difference, other: Difference) -> bool:
        """Whether the same policies decide another difference."""
        return self._is_difference(other) and _deciders(other) == _deciders(one)

    def _differ(self, old: "Decided", new: "Decided"):
        """That the answers differ: the verdicts, or if it is asked the policies that match."""
        verdicts = apart(old.passes(), new.passes())
        if not self.with_policies:
            return verdicts
        names = dict.fromkeys([*old.names, *new.names])
        return either(verdicts, *(apart(old.by(name), new.by(name)) for name in names))

    def _is_difference(self, one: Difference) -> bool:
        return _is_judged(one) and (told(one.old) != told(one.new) or self.with_policies and matched_of(one.old) != matched_of(one.new))

    def _hold(self, one: Difference) -> bool:
        """Whether a policy of both filters decides, which is read from now on."""
        for side, answer in ((self.old, one.old), (self.new, one.new)):
            policy = next((policy for policy in side.policies if policy.name == answer.get("name")), None)
            if policy is not None and _bytes(policy) in self.common and policy not in self.held:
                self.held.append(policy)
                return True
        return False


class Decided:
    """When a filter lets a request pass, and by which policy."""

    def __init__(self, reading: Reading, side: Policies):
        self.action = side.action
        self.names: Dict[str, object] = {}
        before = FALSE
        for policy in side.policies:
            matches = reading.matches(policy)
            self.names[policy.name] = both(matches, no(before))
            before = either(before, matches)
        self.some = before

    def passes(self):
        """When a request passes."""
        return TRUE if self.action == LOG else self.some if self.action == ALLOW else no(self.some)

    def refuses(self):
        """When a request is denied."""
        return no(self.passes())

    def by(self, name: Optional[str]):
        """When the policy of that name decides, or none."""
        return no(self.some) if name is None else self.names.get(name, FALSE)


def _is_judged(one: Difference) -> bool:
    """Whether both filters answered with a verdict."""
    return "verdict" in one.old and "verdict" in one.new


def _bytes(policy: Policy) -> bytes:
    """The bytes that a policy was read from."""
    return bytes(policy.policy.raw)


def _deciders(one: Difference) -> tuple:
    """The verdicts, and the policies that decide them."""
    return tuple((answer.get("verdict"), answer.get("name")) for answer in (one.old, one.new))


def _same_pair(decided: List[Decided], one: Difference):
    """That the same policies decide as in a difference that was found."""
    return both(*(side.by(answer.get("name")) for side, answer in zip(decided, (one.old, one.new))))


def _same_name(old: List[Policy], new: List[Policy]) -> List[Tuple[Policy, Policy]]:
    names = {one.name: one for one in new}
    return [(one, names[one.name]) for one in old if one.name in names]


def _are_equal(way, one: Policy, other: Policy) -> bool:
    """Whether two policies surely match the same requests."""
    try:
        reading = read(way, lambda reading: [reading.matches(one), reading.matches(other)])
        formula = apart(reading.matches(one), reading.matches(other))
        return Search(reading, [formula], time.monotonic() + SECONDS_A_PAIR).next() is None
    except NotDecided:
        return False
