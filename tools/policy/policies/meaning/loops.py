"""Loops of conditions: those over literals turn by turn, those over headers by as many headers as can matter.

For a loop over headers it is enough to look at those that are named and at one more of any name: a true `exists`, a false
`all` and an error each need one header, and others can be left out. `exists_one` needs two. A loop over headers inside of
another may need more: what it leaves out is named.
"""
from typing import Dict, List, Optional, Set, Tuple

import z3

from ..cel.fold import fold
from ..cel.tree import Comprehension
from .formulas import either, is_true
from .terms import NotModelled
from .values import HEADERS, INT, MAP, Possible, Value, choice, text_of

QUANTIFIERS = {"all": 1, "exists": 1, "exists_one": 2}
NESTED = "a loop over headers in another"


class Loops:
    """The loops of conditions over one request."""

    def __init__(self, conditions):
        self.conditions = conditions
        self.request = conditions.request
        # So many loops over headers are around.
        self.depth = 0
        self.nested: Set[int] = set()
        self.macros: Dict[int, Optional[str]] = {}

    def value(self, node: Comprehension, scope: dict) -> Value:
        """The value of a loop."""
        name = self._macro(node)
        if name is None:
            raise NotModelled("a loop that is no macro's")
        range_ = self.conditions.of(node.iter_range, scope)
        if range_.kind == HEADERS:
            if name not in QUANTIFIERS:
                raise NotModelled(f"{name} over headers")
            return self._over_headers(node, scope, QUANTIFIERS[name])
        if range_.kind == MAP and name not in QUANTIFIERS:
            raise NotModelled(f"{name} over a map")
        if range_.kind == MAP:
            found = self._turns(node, scope, list(range_.value))
        else:
            found = self._over_list(node, scope, range_.value)
        return found._replace(error=either(found.error, range_.error))

    def _macro(self, node: Comprehension) -> Optional[str]:
        """The macro that a loop is of."""
        if id(node) not in self.macros:
            folded = fold(node)
            self.macros[id(node)] = folded.name if folded is not None else None
        return self.macros[id(node)]

    def _over_list(self, node: Comprehension, scope: dict, ways: List[Possible]) -> Value:
        """A loop over each of the possible lists."""
        found: Optional[Value] = None
        for way in reversed(ways):
            indices = [Value(INT, z3.IntVal(number)) for number in range(len(way.elements))]
            pairs = list(zip(indices, way.elements)) if node.iter_var2 else [(one, None) for one in way.elements]
            value = self._turns(node, scope, pairs)
            found = value if found is None else choice(way.test, value, found)
        return found if found is not None else self._turns(node, scope, [])

    def _turns(self, node: Comprehension, scope: dict, pairs: List[Tuple[Value, Optional[Value]]]) -> Value:
        """A loop turn by turn."""
        accumulator = self.conditions.of(node.accu_init, scope)
        for one, two in pairs:
            accumulator = self._turn(node, scope, accumulator, (one, two))
        return self.conditions.of(node.result, {**scope, node.accu_var: accumulator})

    def _turn(self, node: Comprehension, scope: dict, accumulator: Value, values: tuple) -> Value:
        names = dict(zip(node.variables(), values))
        return self.conditions.of(node.loop_step, {**scope, **names, node.accu_var: accumulator})

    def _over_headers(self, node: Comprehension, scope: dict, others: int) -> Value:
        """A quantifier over headers: each turn counts where its header is present."""
        if self.depth == 0 or id(node) not in self.nested:
            self.request.ask_others(others)
        if self.depth:
            self.nested.add(id(node))
            self.request.gaps.append(NESTED)
        self.depth += 1
        accumulator = self.conditions.of(node.accu_init, scope)
        for header in self.request.headers():
            after = self._turn(node, scope, accumulator, (text_of(header.name), text_of(header.text)))
            accumulator = after if is_true(header.present) else choice(header.present, after, accumulator)
        self.depth -= 1
        return self.conditions.of(node.result, {**scope, node.accu_var: accumulator})

