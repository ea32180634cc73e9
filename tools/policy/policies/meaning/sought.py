"""Tests of one text beside a literal, or beside two bounds of numbers."""
from typing import NamedTuple

from ..compare.texts import CONTAINS, EXACT, PREFIX, SUFFIX, lower_ascii

LESS, GREATER, RANGE = "less", "greater", "range"
OF_PARTS = (PREFIX, SUFFIX, CONTAINS)


class Sought(NamedTuple):
    """A test of one text: a kind, the text or the two bounds that are sought, and whether A to Z count as a to z."""

    kind: str
    sought: object
    fold: bool = False

    def passes(self, text: str) -> bool:
        """Whether a text that is known passes."""
        if self.kind == RANGE:
            digits = text[1:] if text[:1] in ("+", "-") else text
            return digits.isascii() and digits.isdigit() and self.sought[0] <= int(text) < self.sought[1]
        sought = lower_ascii(self.sought) if self.fold else self.sought
        text = lower_ascii(text) if self.fold else text
        if self.kind == EXACT:
            return text == sought
        if self.kind in OF_PARTS:
            return {PREFIX: text.startswith, SUFFIX: text.endswith, CONTAINS: text.__contains__}[self.kind](sought)
        return text < sought if self.kind == LESS else text > sought
