"""Which variables of a model are needed for some formulas to hold, whatever the others are.

Of an `or` that holds, one part is enough. So few tests of each text have to be solved together.
"""
from typing import Dict, Iterable, List, Set, Tuple

import z3

# The names of variables that are tests of texts begin so.
TEST = "~"


class Needed:
    """The variables of one model that formulas need."""

    def __init__(self, model: z3.ModelRef, formulas: Iterable[z3.BoolRef]):
        self.model = model
        self.found: Set[int] = set()
        self.done: Set[Tuple[int, bool]] = set()
        self.taken: Set[int] = set()
        self.values: Dict[int, bool] = {}
        self.left: List[Tuple[z3.ExprRef, bool]] = [(one, True) for one in formulas]
        while self.left:
            self._justify(*self.left.pop())

    def has(self, variable: z3.ExprRef) -> bool:
        """Whether a variable is needed."""
        return variable.get_id() in self.found

    def _holds(self, one: z3.ExprRef) -> bool:
        key = one.get_id()
        if key not in self.values:
            self.values[key] = z3.is_true(self.model.eval(one, model_completion=True))
        return self.values[key]

    def _justify(self, one: z3.ExprRef, wanted: bool) -> None:
        """Takes what is needed for a formula to have the value that it has in the model."""
        if (one.get_id(), wanted) in self.done:
            return
        self.done.add((one.get_id(), wanted))
        kind, parts = one.decl().kind(), one.children()
        if kind == z3.Z3_OP_NOT:
            self.left.append((parts[0], not wanted))
        elif kind in (z3.Z3_OP_AND, z3.Z3_OP_OR):
            self._justify_parts(parts, wanted, (kind == z3.Z3_OP_AND) == wanted)
        elif kind == z3.Z3_OP_ITE and z3.is_bool(one):
            is_first = self._holds(parts[0])
            self.left += [(parts[0], is_first), (parts[1 if is_first else 2], wanted)]
        else:
            self._take(one)

    def _justify_parts(self, parts: List[z3.ExprRef], wanted: bool, are_all: bool) -> None:
        """All parts, or the one that needs least."""
        if are_all:
            self.left += [(part, wanted) for part in parts]
            return
        fitting = [part for part in parts if self._holds(part) == wanted]
        done = [part for part in fitting if (part.get_id(), wanted) in self.done]
        plain = [part for part in fitting if not _is_test(part)]
        self.left.append(((done or plain or fitting)[0], wanted))

    def _take(self, one: z3.ExprRef) -> None:
        """All variables of a formula."""
        left = [one]
        while left:
            part = left.pop()
            if part.get_id() not in self.taken:
                self.taken.add(part.get_id())
                if not part.children():
                    self.found.add(part.get_id())
                left += part.children()


def _is_test(one: z3.ExprRef) -> bool:
    """Whether a part is a test of a text, or its negation."""
    while one.decl().kind() == z3.Z3_OP_NOT:
        one = one.children()[0]
    return one.decl().name().startswith(TEST)
