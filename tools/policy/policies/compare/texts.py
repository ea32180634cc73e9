"""Texts that some tests can tell apart: for each set of tests that a text passes, the shortest such text.

A text is read from left to right by all tests at once. A state says how far each test is, so that what comes after it
depends on the state alone; each state is read on once, from the shortest text that leads to it.
"""
from collections import deque
from typing import Callable, Dict, List, NamedTuple, Optional, Tuple

EXACT, PREFIX, SUFFIX, CONTAINS = "exact", "prefix", "suffix", "contains"
# What ends the path of a target.
ENDS = "?#"
# So many steps of tests are taken before the search ends without a result.
MOST_STEPS = 1_000_000
DEAD = -1
OTHERS = "xyzqwvkj0123456789_-XYZQ~"


class TextTest(NamedTuple):
    """A test of a text, or with `of_path` of its part before the first `?` or `#`."""

    kind: str
    sought: str
    ignore_case: bool = False
    of_path: bool = False

    def passes(self, text: str) -> bool:
        """Whether a text passes."""
        for end in ENDS if self.of_path else "":
            text = text.partition(end)[0]
        text, sought = (lower_ascii(text), lower_ascii(self.sought)) if self.ignore_case else (text, self.sought)
        if self.kind == EXACT:
            return text == sought
        if self.kind == PREFIX:
            return text.startswith(sought)
        return text.endswith(sought) if self.kind == SUFFIX else sought in text


class Domain(NamedTuple):
    """The texts that are possible: their characters, the first one, whether they may be empty or end in white space, and
    the most bytes."""

    is_allowed: Callable[[str], bool]
    longest: int
    first: str = ""
    may_be_empty: bool = True
    is_trimmed: bool = False

    def has(self, text: str) -> bool:
        """Whether a text is possible."""
        if not text:
            return self.may_be_empty
        is_trimmed = not self.is_trimmed or text == text.strip(" \t")
        return is_trimmed and text[0] in (self.first or text[0]) and all(map(self.is_allowed, text)) and self.is_short(text)

    def can_begin(self, character: str) -> bool:
        """Whether a text may begin with a character."""
        return character in (self.first or character) and not (self.is_trimmed and character in " \t")

    def is_short(self, text: str) -> bool:
        """Whether a text is not too long."""
        return len(text.encode()) <= self.longest


def lower_ascii(text: str) -> str:
    """A text with A to Z as a to z, and no other letter changed."""
    return "".join(one.lower() if one.isascii() else one for one in text)


class Reader:
    """One test as it reads a text: how many characters of the sought text are read, or that none can be any more."""

    def __init__(self, test: TextTest):
        self.test = test
        self.sought = lower_ascii(test.sought) if test.ignore_case else test.sought
        self.from_start = test.kind in (EXACT, PREFIX)
        self.known: Dict[Tuple[int, str], int] = {}

    def step(self, state: int, character: str) -> int:
        """The state after one more character."""
        if self.test.ignore_case:
            character = lower_ascii(character)
        key = (state, character)
        if key not in self.known:
            self.known[key] = self._next(state, character)
        return self.known[key]

    def _next(self, state: int, character: str) -> int:
        length = len(self.sought)
        if state == length and self.test.kind in (PREFIX, CONTAINS):
            return length
        if self.from_start:
            return state + 1 if 0 <= state < length and self.sought[state] == character else DEAD
        read = self.sought[:state] + character
        return next(size for size in range(min(length, len(read)), -1, -1) if read.endswith(self.sought[:size]))

    def passes(self, state: int) -> bool:
        """Whether the text that was read passes."""
        return state == len(self.sought)


def classes(tests: List[TextTest], domain: Domain) -> Optional[List[str]]:
    """For each set of tests that a text can pass the shortest possible text, shortest first, or None if they are too many to
    be found."""
    readers = [Reader(test) for test in tests]
    alphabet = _alphabet(tests, domain)
    start = (*(0 for _ in readers), False, False, True)
    seen, left, found = {start}, deque([("", start)]), {}
    steps = 0
    while left:
        text, state = left.popleft()
        passed = tuple(reader.passes(part) for reader, part in zip(readers, state))
        if passed not in found and domain.has(text):
            found[passed] = text
        steps += len(alphabet) * (len(readers) + 1)
        if steps > MOST_STEPS:
            return None
        for character in alphabet if domain.is_short(text + "x") else "":
            if text or domain.can_begin(character):
                after = _after(readers, state, character)
                if after not in seen:
                    seen.add(after)
                    left.append((text + character, after))
    return list(found.values())


def _after(readers: List[Reader], state: tuple, character: str) -> tuple:
    """The state after one more character; its last parts say whether the path has ended, whether the text ends in white
    space, and whether it is empty."""
    ended = state[-3] or character in ENDS
    parts = []
    for reader, part in zip(readers, state):
        parts.append(part if ended and reader.test.of_path else reader.step(part, character))
    return (*parts, ended, character in " \t", False)


def _alphabet(tests: List[TextTest], domain: Domain) -> List[str]:
    """The characters that the tests can tell apart, and one other."""
    known = {character for test in tests for character in test.sought}
    known |= {other for test in tests if test.ignore_case for one in test.sought for other in (lower_ascii(one), _upper(one))}
    known |= set(ENDS if any(test.of_path for test in tests) else "") | set(domain.first)
    folded = {lower_ascii(one) for one in known}
    other = next((one for one in OTHERS if lower_ascii(one) not in folded and domain.is_allowed(one)), None)
    if other is None:
        rest = map(chr, range(0x100, 0x3000))
        other = next((one for one in rest if one not in known and one.isprintable() and domain.is_allowed(one)), None)
    return [one for one in [*([other] if other else []), *sorted(known, key=lambda one: (one == "#", one))] if domain.is_allowed(one)]


def _upper(text: str) -> str:
    return text.upper() if text.isascii() else text


def neighbours(test: TextTest) -> List[str]:
    """Texts around one test: what it seeks, a character less and more on each side, and its case changed."""
    sought = test.sought
    found = [sought, sought[:-1], sought[1:], sought + "x", "x" + sought, "x" + sought + "x", sought.swapcase()]
    if test.of_path:
        found += [sought + "?x", "/" + sought, sought.rstrip("/") + "/x"]
    return found
