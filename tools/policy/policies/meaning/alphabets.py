"""The characters that tests of a text can tell apart: each that is sought, and one of each group of others."""
from typing import Iterable, Iterator, List, Set

from ..compare.texts import ENDS
from .domains import TARGET_TEXT, domain, is_character
from .readers import DIGITS, SIGNS
from .sought import GREATER, LESS, RANGE, Sought

# The first of these that is in no test is shown in requests.
PLAIN = "xyzqwvkjabcdefghilmnoprstuXYZ0123456789-_~"
SPACES = " \t"
# Above these all characters of a text that may have any are allowed.
LAST_ODD, LAST = 0x250, 0x10FFFF


def alphabet(variable: str, tests: Iterable[Sought]) -> List[str]:
    """Characters for a variable's text, plain ones first: any text can be changed to one of them that passes the same tests."""
    tests = list(tests)
    sought = _sought(tests)
    is_ordered = any(test.kind in (LESS, GREATER) for test in tests)
    special = set(ENDS if variable == TARGET_TEXT else "") | set(domain(variable).first)
    special |= set(SPACES if domain(variable).is_trimmed else "")
    found = {one for one in sought | special if is_character(variable, one)}
    others = _others(variable, sought | special, is_ordered)
    return sorted(found | set(others), key=lambda one: (one not in others, not one.isalnum(), one not in PLAIN, one))


def _sought(tests: List[Sought]) -> Set[str]:
    """The characters of tests, in both cases where these count as one."""
    found: Set[str] = set()
    for test in tests:
        if test.kind == RANGE:
            found |= {*DIGITS, *SIGNS}
            continue
        found |= set(test.sought)
        if test.fold:
            found |= {two for one in test.sought if one.isascii() for two in (one.lower(), one.upper())}
    return found


def _others(variable: str, known: Set[str], is_ordered: bool) -> List[str]:
    """A character that is in no test, and where the order counts one between each two that are."""
    plain = [one for one in PLAIN if one not in known and is_character(variable, one)]
    found = plain[:1] or list(_between(variable, -1, LAST + 1, known))[:1]
    if is_ordered:
        borders = [-1, *sorted(map(ord, known)), LAST + 1]
        for low, high in zip(borders, borders[1:]):
            inside = [one for one in plain if low < ord(one) < high][:1]
            found += inside or list(_between(variable, low, high, known))[:1]
    return found


def _between(variable: str, low: int, high: int, known: Set[str]) -> Iterator[str]:
    """The characters between two that a text may have; those far above are all alike."""
    for point in range(low + 1, min(high, LAST_ODD)):
        if chr(point) not in known and is_character(variable, chr(point)):
            yield chr(point)
    far = range(max(low + 1, LAST_ODD), high)
    for point in (*far[:1], *far[-1:], 0x4E00, 0xE000):
        if low < point < high and chr(point) not in known and is_character(variable, chr(point)):
            yield chr(point)
