"""Texts as terms over variables, and tests of them.

A way to decide texts (`Automata`, `Sequences`) has `test` for a variable beside a literal, `compare` for two terms, `length`,
`domain`, `refine` and `values`, and `gap` says why it may leave something out. What is decided without it is decided here.
"""
from typing import NamedTuple, Tuple, Union

import z3

from ..compare.texts import EXACT
from . import decimals
from .domains import WHOLE
from .formulas import TRUE, chosen
from .sought import GREATER, LESS, OF_PARTS, RANGE, Sought


class NotModelled(Exception):
    """A part of a filter that the model cannot say; its text names the part."""


class Literal(NamedTuple):
    """A text that is known."""

    text: str


class Variable(NamedTuple):
    """A text of the request, or of the target its path or its query."""

    name: str
    part: str = WHOLE


class Joined(NamedTuple):
    """Several texts in order, as one."""

    parts: Tuple["Term", ...]


class Decimal:
    """A number as `string` writes it."""

    def __init__(self, number: z3.ArithRef):
        self.number = number

    def __eq__(self, other: object) -> bool:
        return isinstance(other, Decimal) and self.number.eq(other.number)

    def __hash__(self) -> int:
        return self.number.hash()


class Chosen(NamedTuple):
    """The one text where a formula holds, else the other."""

    test: object
    one: "Term"
    other: "Term"


Term = Union[Literal, Variable, Joined, Decimal, Chosen]
EMPTY = Literal("")


def passes(way, term: Term, sought: Sought) -> z3.BoolRef:
    """That a term passes a test."""
    if isinstance(term, Chosen):
        return chosen(term.test, passes(way, term.one, sought), passes(way, term.other, sought))
    if isinstance(term, Literal):
        return z3.BoolVal(sought.passes(term.text))
    if sought.kind in OF_PARTS and not sought.sought:
        return TRUE
    if isinstance(term, Variable):
        return way.test(term, sought)
    if isinstance(term, Decimal):
        return decimals.is_written(term.number, sought)
    if sought.kind == RANGE or sought.fold:
        raise NotModelled("a range or ignore_case of a text made of others")
    return way.compare(sought.kind, term, Literal(sought.sought))


def compared(way, kind: str, one: Term, other: Term) -> z3.BoolRef:
    """That one term is, begins with, ends in, contains or is less than another."""
    for term in (one, other):
        if isinstance(term, Chosen):
            sides = [(term.one, other), (term.other, other)] if term is one else [(one, term.one), (one, term.other)]
            return chosen(term.test, *(compared(way, kind, *side) for side in sides))
    if isinstance(other, Literal):
        return passes(way, one, Sought(kind, other.text))
    if isinstance(one, Literal) and kind in (EXACT, LESS):
        return passes(way, other, Sought(EXACT if kind == EXACT else GREATER, one.text))
    if isinstance(one, Decimal) and isinstance(other, Decimal) and kind == EXACT:
        return one.number == other.number
    if one == other:
        return z3.BoolVal(kind != LESS)
    return way.compare(kind, one, other)


def size_of(way, term: Term) -> z3.ArithRef:
    """How many characters a term has."""
    if isinstance(term, Chosen):
        return z3.If(term.test, size_of(way, term.one), size_of(way, term.other))
    if isinstance(term, Literal):
        return z3.IntVal(len(term.text))
    if isinstance(term, Joined):
        return z3.Sum([size_of(way, one) for one in term.parts])
    if isinstance(term, Decimal):
        return decimals.length(term.number)
    return way.length(term)


def joined(one: Term, other: Term) -> Term:
    """Two terms in order, as one."""
    if isinstance(one, Literal) and isinstance(other, Literal):
        return Literal(one.text + other.text)
    if isinstance(one, Chosen):
        return Chosen(one.test, joined(one.one, other), joined(one.other, other))
    if isinstance(other, Chosen):
        return Chosen(other.test, joined(one, other.one), joined(one, other.other))
    if EMPTY in (one, other):
        return other if one == EMPTY else one
    return Joined(_parts(one) + _parts(other))


def _parts(term: Term) -> Tuple[Term, ...]:
    return term.parts if isinstance(term, Joined) else (term,)
