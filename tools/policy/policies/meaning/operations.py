"""What the operators and functions of conditions are on values, as the language definition of CEL says.

Ints and uints are whole numbers of any size, with an error outside of their 64 bits.
"""
from typing import List

import z3

from ..compare.texts import CONTAINS, EXACT, PREFIX, SUFFIX
from .formulas import FALSE, alike, both, either, no
from .sought import LESS
from .terms import Decimal, NotModelled, compared, joined, size_of
from .values import BOOL, HEADERS, INT, LIST, MAP, NUMBER_KINDS, STRING, UINT, Possible, Value, bool_of, list_of, text_of

BOUNDS = {INT: (-(2**63), 2**63 - 1), UINT: (0, 2**64 - 1)}
TEXT_TESTS = {"startsWith": PREFIX, "endsWith": SUFFIX, "contains": CONTAINS}
ORDERS = ("_<_", "_<=_", "_>_", "_>=_")
ARITHMETIC = ("_+_", "_-_", "_*_", "_/_", "_%_", "-_")


def equal(way, one: Value, other: Value) -> z3.BoolRef:
    """That two values of one type, neither of which is an error, are equal."""
    if one.kind == STRING:
        return compared(way, EXACT, one.value, other.value)
    if one.kind == BOOL:
        return alike(one.value, other.value)
    if one.kind in NUMBER_KINDS:
        return one.value == other.value
    if one.kind != LIST:
        raise NotModelled("two maps compared")
    found = []
    for left in one.value:
        for right in other.value:
            if len(left.elements) == len(right.elements):
                same = [equal(way, *pair) for pair in zip(left.elements, right.elements)]
                found.append(both(left.test, right.test, *same))
    return either(*found)


def ordered(way, name: str, one: Value, other: Value) -> z3.BoolRef:
    """That the order of two values is as an operator says."""
    if one.kind in NUMBER_KINDS:
        a, b = one.value, other.value
        return {"_<_": a < b, "_<=_": a <= b, "_>_": a > b, "_>=_": a >= b}[name]
    if name in ("_>_", "_<=_"):
        one, other = other, one
    if one.kind == BOOL:
        less = both(no(one.value), other.value)
    elif one.kind == STRING:
        less = compared(way, LESS, one.value, other.value)
    else:
        raise NotModelled("bytes compared")
    return less if name in ("_<_", "_>_") else no(less)


def arithmetic(name: str, parts: List[Value], error) -> Value:
    """A sum, a difference, a product, a quotient, a remainder or a negative number."""
    kind, a = parts[0].kind, parts[0].value
    if kind not in NUMBER_KINDS:
        raise NotModelled(f"arithmetic of {kind}")
    least, most = BOUNDS[kind]
    if name == "-_":
        value = -a
    elif name in ("_/_", "_%_"):
        b = parts[1].value
        quotient = _quotient(a, b)
        value = quotient if name == "_/_" else a - b * quotient
        error = either(error, b == 0, both(a == least, b == -1) if kind == INT else FALSE)
    else:
        b = parts[1].value
        value = {"_+_": lambda: a + b, "_-_": lambda: a - b, "_*_": lambda: a * b}[name]()
    return Value(kind, value, either(error, value < least, value > most))


def _quotient(a, b):
    """The quotient rounded towards zero; z3's rounds so that the remainder is not negative."""
    whole = _size(a) / _size(b)
    same_sign = z3.Or(z3.And(a < 0, b < 0), z3.And(a >= 0, b >= 0))
    return z3.If(same_sign, whole, -whole)


def _size(number):
    return z3.If(number < 0, -number, number)


def added(parts: List[Value], error) -> Value:
    """Two texts or lists joined, or the sum of two numbers."""
    one, other = parts
    if one.kind == STRING:
        return text_of(joined(one.value, other.value), error)
    if one.kind == LIST:
        ways = [(left, right) for left in one.value for right in other.value]
        return list_of([Possible(both(l.test, r.test), l.elements + r.elements) for l, r in ways], error)
    return arithmetic("_+_", parts, error)


def converted(name: str, part: Value, error) -> Value:
    """A number as an int, a uint or a string."""
    if part.kind not in NUMBER_KINDS:
        raise NotModelled(f"{name} of {part.kind}")
    if name == "string":
        return text_of(Decimal(part.value), error)
    is_outside = part.value > BOUNDS[INT][1] if name == INT else part.value < 0
    return Value(name, part.value, either(error, is_outside))


def size(request, part: Value) -> z3.ArithRef:
    """The size of a string, a list or a map."""
    if part.kind == STRING:
        return size_of(request.way, part.value)
    if part.kind == LIST:
        return z3.Sum([z3.IntVal(0), *(z3.If(way.test, len(way.elements), 0) for way in part.value)])
    if part.kind == MAP:
        return z3.IntVal(len(part.value))
    assert part.kind == HEADERS, part.kind
    return request.count_of_headers()


def logic(name: str, one: Value, other: Value) -> Value:
    """`&&` or `||`: an error on one side does not count if the other side decides."""
    wanted = (lambda part: part.value) if name == "_||_" else (lambda part: no(part.value))
    decides = either(*(both(wanted(part), no(part.error)) for part in (one, other)))
    error = both(no(decides), either(one.error, other.error))
    return bool_of(decides if name == "_||_" else no(decides), error)
