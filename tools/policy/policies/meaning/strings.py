"""Texts as z3 writes and reads them, and its regular expressions of characters and numbers.

z3 4.8.12 does not read its own escapes in `StringVal`, and prints hexadecimal digits above 9 as `:` to `?`.
"""
import re
from typing import Callable, List

import z3

from ..compare.texts import lower_ascii
from .alphabets import LAST_ODD
from .sought import Sought
from .terms import NotModelled

LAST_POINT = 0x2FFFF
ESCAPE = re.compile(r"\\{1,2}u\{([0-9a-f:;<=>?]+)\}")


def string(text: str) -> z3.SeqRef:
    """A literal."""
    if any(ord(one) > LAST_POINT for one in text):
        raise NotModelled("a character above U+2FFFF")
    escaped = "".join(one if " " <= one <= "~" and one != "\\" else "\\u{%x}" % ord(one) for one in text)
    context = z3.main_ctx()
    return z3.SeqRef(z3.Z3_mk_string(context.ref(), escaped), context)


def text_of(value: z3.SeqRef) -> str:
    """The text of a literal."""
    return ESCAPE.sub(_character, value.as_string())


def _character(escape: re.Match) -> str:
    number = 0
    for digit in escape[1]:
        number = number * 16 + (ord(digit) - ord("0") if digit <= "?" else int(digit, 16))
    return chr(number)


def concatenation(parts: List[z3.ReRef]) -> z3.ReRef:
    """Several expressions in order."""
    return z3.Concat(*parts) if len(parts) > 1 else parts[0]


def union(parts: List[z3.ReRef]) -> z3.ReRef:
    """One of some expressions."""
    return z3.Union(*parts) if len(parts) > 1 else parts[0]


def characters(is_allowed: Callable[[str], bool]) -> z3.ReRef:
    """One character of a set."""
    ranges, start = [], None
    for point in [*range(LAST_ODD), LAST_POINT]:
        if is_allowed(chr(point)) and start is None:
            start = point
        elif not is_allowed(chr(point)) and start is not None:
            ranges.append((start, point - 1))
            start = None
    if start is not None:
        ranges.append((start, LAST_POINT))
    return union([z3.Range(string(chr(low)), string(chr(high))) for low, high in ranges])


def folded(sought: str) -> List[z3.ReRef]:
    """Each character of a text in both cases."""
    pairs = [sorted({lower_ascii(one), one.upper() if one.isascii() else one}) for one in sought]
    return [union([z3.Re(string(one)) for one in pair]) for pair in pairs]


def up_to(most: int) -> z3.ReRef:
    """The digits of the numbers from 0 to one, with leading zeros."""
    digit, text = z3.Range("0", "9"), str(most)
    parts = [[z3.Re(text)]]
    for at, one in enumerate(text):
        if one > "0":
            head = [z3.Re(text[:at])] * (at > 0)
            parts.append([*head, z3.Range("0", chr(ord(one) - 1)), *[digit] * (len(text) - at - 1)])
    parts += [[digit] * size for size in range(1, len(text))]
    return z3.Concat(z3.Star(z3.Re("0")), union([concatenation(one) for one in parts]))


def numbers(test: Sought) -> z3.ReRef:
    """The texts of the numbers from one bound to below another, with signs."""
    start, end = test.sought
    parts = []
    if end > 0:
        plus = z3.Concat(z3.Option(z3.Re("+")), up_to(end - 1))
        below = z3.Concat(z3.Option(z3.Re("+")), up_to(start - 1)) if start > 0 else None
        parts.append(plus if below is None else z3.Intersect(plus, z3.Complement(below)))
    minus_zero = z3.Concat(z3.Re("-"), z3.Plus(z3.Re("0")))
    if start <= 0 < end:
        parts.append(minus_zero)
    if start < 0:
        above = z3.Concat(z3.Re("-"), up_to(-end)) if end < 0 else minus_zero
        parts.append(z3.Intersect(z3.Concat(z3.Re("-"), up_to(-start)), z3.Complement(above)))
    return union(parts) if parts else z3.Empty(z3.ReSort(z3.StringSort()))
