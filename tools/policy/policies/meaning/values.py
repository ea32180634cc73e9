"""Values of conditions: what a part of a condition is, and when it is an error instead."""
from typing import Dict, List, NamedTuple

import z3

from .formulas import FALSE, both, chosen, either, no
from .terms import Chosen, NotModelled, Term

BOOL, INT, UINT, STRING, LIST, MAP, HEADERS = "bool", "int", "uint", "string", "list", "map", "headers"
NUMBER_KINDS = (INT, UINT)
# So many possible lists are kept of one part.
MOST_WAYS = 64


class Value(NamedTuple):
    """A kind, what the value is (it means nothing where there is an error), and when there is an error.

    A bool is a formula, an int and a uint a number, a string a term. A list is possible lists, of which one holds. A map
    is its pairs. The headers of the request are a kind of their own.
    """

    kind: str
    value: object
    error: z3.BoolRef = FALSE


class Possible(NamedTuple):
    """A list that a part may be, and when it is."""

    test: z3.BoolRef
    elements: List[Value]


def errors_of(parts) -> z3.BoolRef:
    """That one of some values is an error."""
    return either(*(one.error for one in parts))


def bool_of(formula, error=FALSE) -> Value:
    """A formula as a value."""
    return Value(BOOL, formula, error)


def text_of(term: Term, error=FALSE) -> Value:
    """A term as a value."""
    return Value(STRING, term, error)


def list_of(possible: List[Possible], error=FALSE) -> Value:
    """Possible lists as a value; of many, those of one length become one."""
    if len(possible) > MOST_WAYS:
        possible = _by_length(possible)
    if len(possible) > MOST_WAYS:
        raise NotModelled("a list of many possible lengths")
    return Value(LIST, possible, error)


def _by_length(possible: List[Possible]) -> List[Possible]:
    """For each length the list that is the one that holds."""
    found: Dict[int, Possible] = {}
    for one in possible:
        other = found.get(len(one.elements))
        if other is not None:
            elements = [choice(one.test, *pair) for pair in zip(one.elements, other.elements)]
            one = Possible(either(one.test, other.test), elements)
        found[len(one.elements)] = one
    return list(found.values())


def choice(test, one: Value, other: Value) -> Value:
    """The one value where a formula holds, else the other."""
    error = chosen(test, one.error, other.error)
    if one.kind == STRING:
        return Value(STRING, Chosen(test, one.value, other.value), error)
    if one.kind == LIST:
        ways = [Possible(both(test, way.test), way.elements) for way in one.value]
        return list_of(ways + [Possible(both(no(test), way.test), way.elements) for way in other.value], error)
    if one.kind == BOOL:
        return Value(BOOL, chosen(test, one.value, other.value), error)
    if one.kind in NUMBER_KINDS:
        return Value(one.kind, z3.If(test, one.value, other.value), error)
    raise NotModelled("a choice of two maps")


def truth(value: Value) -> z3.BoolRef:
    """That a bool is true, and no error."""
    return both(value.value, no(value.error))
