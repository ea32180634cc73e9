"""The connectives of formulas.

z3 4.8.12 does not end, whatever its timeout, on some `==`, `!=` and `xor` between formulas: `alike` and `apart` are these,
and no other module compares formulas. The connectives are z3's own in C, since z3's in Python look at each part's sort.
"""
from typing import Callable, List

import z3

CONTEXT = z3.main_ctx()
TRUE, FALSE = z3.BoolVal(True), z3.BoolVal(False)
# z3 keeps each formula once, so that equal ones have one address.
TRUE_AT, FALSE_AT = TRUE.ast.value, FALSE.ast.value


def is_true(one: z3.BoolRef) -> bool:
    """Whether a formula is the constant."""
    return one.ast.value == TRUE_AT


def is_false(one: z3.BoolRef) -> bool:
    """Whether a formula is the constant."""
    return one.ast.value == FALSE_AT


def either(*parts) -> z3.BoolRef:
    """One of the parts holds."""
    known = [one for one in parts if not is_false(one)]
    if any(map(is_true, known)):
        return TRUE
    return _of(z3.Z3_mk_or, known) if len(known) > 1 else known[0] if known else FALSE


def both(*parts) -> z3.BoolRef:
    """All parts hold."""
    known = [one for one in parts if not is_true(one)]
    if any(map(is_false, known)):
        return FALSE
    return _of(z3.Z3_mk_and, known) if len(known) > 1 else known[0] if known else TRUE


def no(one) -> z3.BoolRef:
    """The part does not hold."""
    if is_true(one) or is_false(one):
        return FALSE if is_true(one) else TRUE
    return z3.BoolRef(z3.Z3_mk_not(CONTEXT.ref(), one.ast), CONTEXT)


def follows(one, other) -> z3.BoolRef:
    """The other part holds where the one does."""
    return either(no(one), other)


def chosen(test, one, other) -> z3.BoolRef:
    """The one part where the test holds, else the other."""
    if is_true(test) or is_false(test):
        return one if is_true(test) else other
    return z3.BoolRef(z3.Z3_mk_ite(CONTEXT.ref(), test.ast, one.ast, other.ast), CONTEXT)


def alike(one, other) -> z3.BoolRef:
    """Both parts hold, or none does."""
    return either(both(one, other), both(no(one), no(other)))


def apart(one, other) -> z3.BoolRef:
    """One of the two parts holds, and the other does not."""
    return either(both(one, no(other)), both(other, no(one)))


def count_of(parts) -> z3.ArithRef:
    """How many of the parts hold."""
    return z3.Sum([z3.IntVal(0), *(z3.If(one, 1, 0) for one in parts)])


def _of(make: Callable, parts: List[z3.BoolRef]) -> z3.BoolRef:
    """A connective of several parts."""
    held = (z3.Ast * len(parts))(*(part.ast for part in parts))
    return z3.BoolRef(make(CONTEXT.ref(), len(parts), held), CONTEXT)
