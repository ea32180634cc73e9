"""The functions of the profile: what operands each takes, and of what type its result is.

A type is a tuple: its name, then its parts. Operators take no target; `size` takes its operand as target or as
argument; the tests of texts take a target and one argument; conversions take one argument.
"""
from typing import List, Optional

BOOL, INT, UINT, STRING, BYTES = ((name,) for name in "bool int uint string bytes".split())
KEYS = frozenset([BOOL, INT, UINT, STRING])
EQUALITY = frozenset(["_==_", "_!=_"])
ORDER = frozenset(["_<_", "_<=_", "_>_", "_>=_"])
ARITHMETIC = frozenset(["_-_", "_*_", "_/_", "_%_"])
LOGIC = frozenset(["_&&_", "_||_"])
MEMBERSHIP = frozenset(["@in", "_in_", "in"])
NEGATIONS = frozenset(["!_", "@not_strictly_false", "__not_strictly_false__"])
TEXT_TESTS = frozenset(["contains", "startsWith", "endsWith"])
OPERAND_COUNTS = {
    **dict.fromkeys(EQUALITY | ORDER | ARITHMETIC | LOGIC | MEMBERSHIP | {"_+_", "_[_]"}, 2),
    **dict.fromkeys(NEGATIONS | {"-_"}, 1),
    "_?_:_": 3,
}
# What each conversion takes, and what it gives.
CONVERSIONS = {
    "int": ((UINT,), INT),
    "uint": ((INT,), UINT),
    "string": ((INT, UINT, BYTES), STRING),
    "bytes": ((STRING,), BYTES),
}
FUNCTIONS = frozenset(OPERAND_COUNTS) | TEXT_TESTS | set(CONVERSIONS) | {"size"}
CALLED_BY_NAME = ("size", "contains", "startsWith", "endsWith", *CONVERSIONS)


def has_shape(function: str, has_target: bool, count: int) -> bool:
    """Whether a function is called with a target and with that many arguments."""
    if function == "size":
        return count + has_target == 1
    if function in TEXT_TESTS:
        return has_target and count == 1
    if function in CONVERSIONS:
        return not has_target and count == 1
    return not has_target and count == OPERAND_COUNTS[function]


def result_type(function: str, kinds: List[tuple]) -> Optional[tuple]:
    """The type of a call's result, its operands being of these types, or None where no overload takes them."""
    if function in LOGIC or function in NEGATIONS:
        return BOOL if all(kind == BOOL for kind in kinds) else None
    if function in EQUALITY or function in ORDER:
        return BOOL if _are_compared(function, *kinds) else None
    if function == "_+_":
        return kinds[0] if _are_joined(*kinds) else None
    if function in ARITHMETIC:
        return kinds[0] if kinds[0] == kinds[1] and kinds[0] in (INT, UINT) else None
    if function == "-_":
        return INT if kinds[0] == INT else None
    if function == "_?_:_":
        return kinds[1] if kinds[0] == BOOL and kinds[1] == kinds[2] else None
    if function == "_[_]":
        return _indexed(*kinds)
    if function in MEMBERSHIP:
        return BOOL if kinds[1][0] in ("list", "map") and kinds[1][1] == kinds[0] else None
    if function == "size":
        return INT if kinds[0][0] in ("string", "bytes", "list", "map") else None
    if function in CONVERSIONS:
        taken, given = CONVERSIONS[function]
        return given if kinds[0] in taken else None
    return BOOL if kinds == [STRING, STRING] else None


def _are_compared(function: str, left: tuple, right: tuple) -> bool:
    return left == right and (function in EQUALITY or left in (BOOL, INT, UINT, STRING, BYTES))


def _are_joined(left: tuple, right: tuple) -> bool:
    return left == right and left[0] in ("int", "uint", "string", "bytes", "list")


def _indexed(container: tuple, index: tuple) -> Optional[tuple]:
    if container[0] == "list":
        return container[1] if index == INT else None
    return container[2] if container[0] == "map" and container[1] == index else None
