"""Tests of one text as automata: each reads it from left to right, and its state tells whether it passes."""
from typing import Dict, Tuple, Union

from ..compare.texts import Reader, TextTest
from .sought import GREATER, LESS, RANGE, Sought

DIGITS, SIGNS = "0123456789", "+-"
# More digits than a number of 64 bits has are counted up to here.
MOST_DIGITS = 25
IS_LESS, IS_GREATER = -1, -2


class OrderReader:
    """A text beside another in the order of their characters: how many are equal, or how the first others differ."""

    start = 0

    def __init__(self, sought: Sought):
        self.sought, self.wanted = sought.sought, sought.kind

    def step(self, state: int, character: str) -> int:
        """The state after one more character."""
        if state < 0:
            return state
        if state == len(self.sought):
            return IS_GREATER
        expected = self.sought[state]
        return state + 1 if character == expected else IS_LESS if character < expected else IS_GREATER

    def passes(self, state: int) -> bool:
        """Whether the text that was read is less, or is greater."""
        if self.wanted == LESS:
            return state == IS_LESS or 0 <= state < len(self.sought)
        return state == IS_GREATER


NumberState = Tuple[str, bool, Tuple[int, ...]]
NO_NUMBER: NumberState = ("no number", False, ())


class NumberReader:
    """A decimal number beside two bounds.

    A state is the sign, whether a digit was read, and of the digits after leading zeros: how many, and how they compare
    with as many digits of each bound.
    """

    start: NumberState = ("", False, ())

    def __init__(self, sought: Sought):
        self.bounds: Tuple[int, int] = sought.sought
        self.digits = [str(abs(bound)) for bound in self.bounds]

    def step(self, state: NumberState, character: str) -> NumberState:
        """The state after one more character."""
        sign, has_digit, read = state
        if state == self.start and character in SIGNS:
            return (character, False, ())
        if state == NO_NUMBER or character not in DIGITS:
            return NO_NUMBER
        if not read and character == "0":
            return (sign, True, ())
        count, *sides = read or (0, 0, 0)
        for at, text in enumerate(self.digits):
            if count < len(text) and sides[at] == 0:
                sides[at] = (character > text[count]) - (character < text[count])
        return (sign, True, (min(count + 1, MOST_DIGITS), *sides))

    def passes(self, state: NumberState) -> bool:
        """Whether the number that was read is at least the first bound and below the second."""
        sign, has_digit, read = state
        if not has_digit:
            return False
        first, second = (self._beside(at, sign, read) for at in range(2))
        return first >= 0 > second

    def _beside(self, at: int, sign: str, read: tuple) -> int:
        """Whether the number is below a bound (-1), is the bound (0) or above (1)."""
        bound = self.bounds[at]
        if not read:
            return (0 > bound) - (0 < bound)
        if (sign == "-") != (bound < 0) or bound == 0:
            return -1 if sign == "-" else 1
        length = len(self.digits[at])
        size = (read[0] > length) - (read[0] < length) or read[1 + at]
        return -size if sign == "-" else size


AnyReader = Union[Reader, OrderReader, NumberReader]


def reader_of(sought: Sought) -> AnyReader:
    """The automaton of a test."""
    if sought.kind == RANGE:
        return NumberReader(sought)
    if sought.kind in (LESS, GREATER):
        return OrderReader(sought)
    return Reader(TextTest(sought.kind, sought.sought, sought.fold))


class Steps:
    """A reader whose steps are kept."""

    def __init__(self, sought: Sought):
        self.reader = reader_of(sought)
        self.start = getattr(self.reader, "start", 0)
        self.passes = self.reader.passes
        self.known: Dict[tuple, object] = {}

    def step(self, state, character: str):
        """The state after one more character."""
        key = (state, character)
        if key not in self.known:
            self.known[key] = self.reader.step(state, character)
        return self.known[key]
