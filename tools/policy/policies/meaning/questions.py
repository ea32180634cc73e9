"""Questions to policies: formulas over the requests of some policies, and the requests that meet them."""
import time
from typing import Callable, Dict, List, NamedTuple, Optional, Tuple

import z3

from ..cel.tree import shape
from ..compare.drafts import Draft
from ..compare.leaves import Policy
from ..conditions_typing import condition_of
from .automata import Automata
from .cel import Conditions
from .cvc5 import Cvc5, is_there
from .formulas import FALSE, TRUE, both, either, no
from .request import Known, RequestModel
from .rules import Rules
from .sequences import Sequences
from .terms import NotModelled
from .witness import MORE, Witness

# A reading is repeated while it names more headers, so many times.
MOST_READINGS = 6
MOST_TURNS = 5000
BEYOND = "the requests in question are beyond the limits as a whole"
COUNTED = "request.headers.size() beside a loop over headers"


class NotDecided(Exception):
    """Why there is no answer."""


class Meaning(NamedTuple):
    """When a condition is true, and when it is an error."""

    true: z3.BoolRef
    error: z3.BoolRef


class Reading:
    """The formulas of some policies over one request."""

    def __init__(self, way, known: Known = Known()):
        self.way = way
        self.request = RequestModel(way, known)
        self.rules = Rules(self.request)
        self.conditions = Conditions(self.request)
        self.known: Dict[tuple, z3.BoolRef] = {}
        # What was found out about texts holds for each request, and so for each search.
        self.lemmas: List[z3.BoolRef] = []

    def tree(self, tree) -> Meaning:
        """What a condition's tree means."""
        return Meaning(*self.conditions.matches(tree))

    def condition(self, policy: Policy) -> Meaning:
        """What the condition of a policy means, which without one is always true."""
        found = condition_of(policy.policy)
        return Meaning(TRUE, FALSE) if found is None else self.tree(found.tree())

    def side(self, rules) -> z3.BoolRef:
        """When one of the permissions or principals of a policy matches."""
        return either(*map(self.rules.matches, rules))

    def matches(self, policy: Policy) -> z3.BoolRef:
        """When a policy matches."""
        key = mark(policy)
        if key not in self.known:
            sides = (self.side(policy.permissions), self.side(policy.principals))
            self.known[key] = both(*sides, self.condition(policy).true)
        return self.known[key]

    def left_out(self) -> List[str]:
        """The parts for which some requests are left out, so that "none" would be too much to say."""
        return list(dict.fromkeys(self.request.gaps))

    def has_free_headers(self) -> bool:
        """Whether there may be headers that a loop should look at and does not, so that a request may be none."""
        return self.request.counts_headers and self.request.known.others > 0


def mark(policy: Policy) -> tuple:
    """What a policy says, whatever its name."""
    condition = condition_of(policy.policy)
    return repr(policy.permissions), repr(policy.principals), condition and shape(condition.tree())


def read(make_way: Callable, use: Callable[[Reading], object]) -> Reading:
    """A reading of what is used of it, in which all headers are known that it names."""
    known = Known()
    for _ in range(MOST_READINGS):
        reading = Reading(make_way(), known)
        use(reading)
        if reading.request.found() == known:
            return reading
        known = reading.request.found()
    raise NotModelled("headers whose names are made of those of others")


def ways() -> List[Callable]:
    """The ways to decide texts, to be tried in turn."""
    return [Automata, Sequences, *([Cvc5] if is_there() else [])]


class Search:
    """The requests that meet formulas, in turn."""

    def __init__(self, reading: Reading, formulas: List[z3.BoolRef], until: float):
        self.reading, self.until = reading, until
        self.formulas = [*formulas, *reading.request.limits()]
        # for many small questions the other solver takes ten times as long
        self.solver = z3.SimpleSolver() if isinstance(reading.way, Automata) else z3.Solver()
        self.solver.add(*self.formulas, *reading.lemmas)
        # Why requests were left out that could meet the formulas, or nothing.
        self.narrowed = ""

    def forbid(self, formula: z3.BoolRef) -> None:
        """Leaves out the requests that meet a formula."""
        self.formulas.append(no(formula))
        self.solver.add(no(formula))

    def hurry(self, seconds: float) -> None:
        """Leaves at most so many seconds for the next requests."""
        self.until = min(self.until, time.monotonic() + seconds)

    def may_be_another(self, draft: Draft, is_judged: bool) -> bool:
        """After a request that the engine does not confirm: whether the next one may be better. False means that the model is
        wrong; raises NotDecided if it is known to be no exact one."""
        if not is_judged:
            raise NotDecided(BEYOND)
        if self.reading.left_out():
            raise NotDecided("; ".join(self.reading.left_out()))
        if not any(key[0] == "header" and key[1].startswith(MORE) for key in draft) or not self.reading.has_free_headers():
            return False
        # no loop looked at these headers
        self.forbid(self.reading.request.more_headers > 0)
        self.narrowed = COUNTED
        return True

    def next(self) -> Optional[Draft]:
        """A request, or None if there is surely none; raises NotDecided and NotModelled."""
        found = self._found()
        gaps = [*self.reading.left_out(), *filter(None, (self.narrowed, self.reading.way.gap))]
        if found is None and gaps:
            raise NotDecided("; ".join(gaps))
        return found

    def _found(self) -> Optional[Draft]:
        way = self.reading.way
        for _ in range(MOST_TURNS):
            answer, model = self._ask()
            if answer == z3.unsat:
                return None
            if answer != z3.sat or model is None:
                raise NotDecided("no answer in time" if self._left() <= 0 else f"no answer of {way.name}")
            lemmas = way.refine(model, self.formulas)
            if lemmas is None:
                return Witness(self.reading.request, model, way.values(model)).draft()
            self.solver.add(*lemmas)
            self.reading.lemmas += lemmas
        raise NotDecided("too many turns")

    def _left(self) -> float:
        return self.until - time.monotonic()

    def _ask(self) -> Tuple[z3.CheckSatResult, Optional[z3.ModelRef]]:
        left = self._left()
        if left <= 0:
            raise NotDecided("no answer in time")
        if isinstance(self.reading.way, Cvc5):
            return self.reading.way.ask(self.formulas, left)
        self.solver.set("timeout", max(1, int(left * 1000)))
        answer = self.solver.check()
        return answer, self.solver.model() if answer == z3.sat else None
