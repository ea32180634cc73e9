"""Texts that pass some tests and fail others, found in the product of the tests' automata, by their lengths."""
from collections import deque
from typing import Dict, List, NamedTuple, Optional, Tuple

from .alphabets import SPACES, alphabet
from .domains import PATH, QUERY, TARGET_TEXT, WHOLE, domain
from .readers import Steps
from .sought import Sought
from .terms import NotModelled

# So many states of one text are looked at before the search ends without an answer.
MOST_STATES = 400_000


class Asked(NamedTuple):
    """A test of a part of a text, and whether the text has to pass it."""

    part: str
    test: Sought
    wanted: bool


class State(NamedTuple):
    """How far a text is read: the part of a target that is read, whether the last character was white space, whether the text is
    empty, and how far each test is."""

    stage: int
    is_space: bool
    is_empty: bool
    tests: tuple


# From which state and by which character a state was first reached, and whether the character is counted.
Origin = Optional[Tuple[State, str, bool]]
Row = Dict[State, Origin]


class Product:
    """The texts of a variable for some tests, in rows by how many characters of one part they have."""

    def __init__(self, variable: str, asked: List[Asked], part: str, readers: Dict[Sought, Steps]):
        self.variable, self.asked, self.part = variable, asked, part
        self.readers = [readers[one.test] for one in asked]
        self.letters = alphabet(variable, [one.test for one in asked])
        self.domain = domain(variable)
        self.looked_at = 0
        start = State(0, False, True, tuple(reader.start for reader in self.readers))
        self.rows: List[Row] = [self._spread({start: None})]
        self.possible = self._lengths()

    def _step(self, state: State, character: str) -> Tuple[State, bool]:
        """The state after one more character, and whether the part counts it."""
        before = stage = state.stage
        if self.variable == TARGET_TEXT:
            ends = character == "#" or stage == 2
            stage = 2 if ends else 1 if stage == 1 or character == "?" else 0
        counted = {WHOLE: True, PATH: stage == 0, QUERY: before == 1 and stage == 1}
        tests = zip(self.asked, self.readers, state.tests)
        after = tuple(reader.step(one, character) if counted[asked.part] else one for asked, reader, one in tests)
        return State(stage, character in SPACES, False, after), counted[self.part]

    def _reached(self, state: State):
        """The states after one more character that a text may have there."""
        self.looked_at += 1
        if self.looked_at > MOST_STATES:
            raise NotModelled("a text with too many tests")
        for character in self.letters:
            if not state.is_empty or self.domain.can_begin(character):
                after, is_counted = self._step(state, character)
                yield after, (state, character, is_counted)

    def _spread(self, row: Row) -> Row:
        """A row with all that is reached from it by characters that do not count."""
        queue = deque(row if self.part != WHOLE else ())
        while queue:
            for after, origin in self._reached(queue.popleft()):
                if not origin[2] and after not in row:
                    row[after] = origin
                    queue.append(after)
        return row

    def _next(self, row: Row) -> Row:
        """The row of one character more."""
        found: Row = {}
        for state in row:
            for after, origin in self._reached(state):
                if origin[2] and after not in found:
                    found[after] = origin
        return self._spread(found)

    def _accepts(self, state: State) -> bool:
        """Whether a text that was read so far is possible, and answers each test as is wanted."""
        if state.is_empty and not self.domain.may_be_empty or state.is_space and self.domain.is_trimmed:
            return False
        return all(reader.passes(one) == asked.wanted for reader, one, asked in zip(self.readers, state.tests, self.asked))

    def _lengths(self) -> List[int]:
        """The possible lengths: when a row is as an earlier one, what comes after it is known."""
        longest, found, known = self.domain.longest, [], {}
        for length in range(longest + 1):
            row = self.rows[length]
            if any(map(self._accepts, row)):
                found.append(length)
            key = frozenset(row)
            if key in known:
                return _repeated(found, known[key], length, longest)
            known[key] = length
            if not row or length == longest:
                return found
            self.rows.append(self._next(row))
        return found

    def text(self, length: int) -> str:
        """A text of a possible length."""
        while len(self.rows) <= length:
            self.rows.append(self._next(self.rows[-1]))
        state, found = next(filter(self._accepts, self.rows[length])), []
        while True:
            origin = self.rows[length][state]
            if origin is None:
                return "".join(reversed(found))
            state, character, is_counted = origin
            found.append(character)
            length -= is_counted


def _repeated(found: List[int], first: int, again: int, longest: int) -> List[int]:
    """All lengths, if what comes after the first of two equal rows comes after each of them, up to the longest."""
    period = again - first
    before = [length for length in found if length < first]
    return before + sorted(
        length + turn * period
        for length in found
        if first <= length < again
        for turn in range((longest - length) // period + 1)
    )
