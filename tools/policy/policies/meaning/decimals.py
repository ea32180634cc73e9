"""What `string` writes of a number: tests of it beside a literal, and its size, by the number alone.

Numbers of as many digits are in the order of their texts, so most tests are ranges of numbers for each count of digits.
"""
from typing import Iterator, List, Tuple

import z3

from ..compare.texts import CONTAINS, EXACT, PREFIX, SUFFIX
from .formulas import FALSE, both, either
from .sought import LESS, Sought

# Numbers of 64 bits have so many digits at most.
MOST_DIGITS = 20
MINUS = "-"
Range = Tuple[int, int]


def is_written(number: z3.ArithRef, sought: Sought) -> z3.BoolRef:
    """That the text of a number passes a test."""
    text, digits = sought.sought, sought.sought.removeprefix(MINUS)
    is_signed = digits != text
    if sought.kind in (SUFFIX, CONTAINS) and not is_signed:
        if not _are_digits(text):
            return FALSE
        places = [0] if sought.kind == SUFFIX else range(MOST_DIGITS - len(text) + 1)
        return either(*(_has_at(size(number), text, place) for place in places))
    # a sign is at the beginning alone
    kind = {SUFFIX: EXACT, CONTAINS: PREFIX}.get(sought.kind, sought.kind)
    if kind in (EXACT, PREFIX):
        ranges = list(_negative(_ranges(kind, digits))) if is_signed else _ranges(kind, digits)
    else:
        ranges = list(_ordered(kind, text, digits, is_signed))
    return either(*(both(number >= low, number <= high) for low, high in ranges))


def length(number: z3.ArithRef) -> z3.ArithRef:
    """How many characters the text of a number has."""
    more = [z3.If(size(number) >= 10**count, 1, 0) for count in range(1, MOST_DIGITS)]
    return z3.Sum([z3.IntVal(1), z3.If(number < 0, 1, 0), *more])


def size(number: z3.ArithRef) -> z3.ArithRef:
    """A number without its sign."""
    return z3.If(number < 0, -number, number)


def _are_digits(text: str) -> bool:
    return text.isascii() and text.isdigit()


def _has_at(number: z3.ArithRef, digits: str, place: int) -> z3.BoolRef:
    """That a number has these digits before so many others at its end."""
    count = place + len(digits)
    has_so_many = number >= (10 ** (count - 1) if count > 1 else 0)
    return both((number / 10**place) % 10 ** len(digits) == int(digits), has_so_many)


def _span(count: int) -> Range:
    """The first and the last number of so many digits."""
    return (10 ** (count - 1) if count > 1 else 0), 10**count - 1


def _negative(ranges: List[Range]) -> Iterator[Range]:
    """The negative numbers that have the digits of some ranges."""
    yield from ((-high, -max(1, low)) for low, high in ranges if high)


def _ordered(kind: str, text: str, digits: str, is_signed: bool) -> Iterator[Range]:
    """The numbers whose texts are less or greater than a text: a sign is before all digits."""
    if is_signed:
        yield from _negative(_ranges(kind, digits))
    elif (MINUS < text) == (kind == LESS):
        yield -(10**MOST_DIGITS), -1
    if not is_signed:
        yield from _ranges(kind, text)
    elif kind != LESS:
        yield 0, 10**MOST_DIGITS


def _ranges(kind: str, text: str) -> List[Range]:
    """The numbers from 0 on whose texts begin with a text, are the text, or are less or greater than it."""
    found = []
    for count in range(1, MOST_DIGITS + 1):
        first, last = _span(count)
        if kind == PREFIX and not text:
            low, high = first, last
        elif kind in (EXACT, PREFIX):
            rest = count - len(text)
            if not _are_digits(text) or rest < 0 or kind == EXACT and rest:
                continue
            low, high = int(text) * 10**rest, (int(text) + 1) * 10**rest - 1
        elif kind == LESS:
            low, high = first, _border(text, count) - 1
        else:
            is_one = len(text) == count and _are_digits(text) and str(int(text)) == text
            low, high = _border(text, count) + is_one, last
        if max(low, first) <= min(high, last):
            found.append((max(low, first), min(high, last)))
    return found


def _border(text: str, count: int) -> int:
    """The least number of so many digits, leading zeros counted, whose text is not less than a text."""
    for at, one in enumerate(text[:count]):
        if not _are_digits(one):
            before = int(text[:at] or "0")
            return (before + (one > "9")) * 10 ** (count - at)
    digits = text[:count]
    return int(digits or "0") * 10 ** (count - len(digits)) + (len(text) > count)
