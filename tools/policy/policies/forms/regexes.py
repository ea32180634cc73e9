"""Regular expressions of RE2 that are no more than texts: exact ones, prefixes, suffixes, contained ones, alternatives.

An expression has to match a text wholly. It is read to alternatives, each a run of characters and wildcards; whatever
is more than that is refused with its place in the expression.
"""
from typing import List, NamedTuple, Tuple, Union

MOST_ALTERNATIVES = 64
LONGEST = 1024
SPECIAL = frozenset(".*+?()[]{}|^$\\")
ESCAPES = {"t": "\t", "n": "\n", "r": "\r", "f": "\f", "v": "\v", "a": "\a"}
DIGITS = "0123456789"
EXACT, PREFIX, SUFFIX, CONTAINS = "exact", "prefix", "suffix", "contains"
# Parts of a run beside single characters.
ANY, SOME, START, END = "any", "some", "start", "end"
Run = Tuple[Union[str, Tuple[str]], ...]


class Untranslatable(Exception):
    """Why an expression is more than texts, and where in it."""

    def __init__(self, place: int, words: str):
        super().__init__(words)
        self.place = place
        self.words = words


class Shape(NamedTuple):
    """One alternative: a text that matches all of `tests` and is none of `excepted`."""

    tests: Tuple[Tuple[str, str], ...]
    excepted: Tuple[str, ...] = ()


def shapes(expression: str) -> List[Shape]:
    """The alternatives of an expression; raises Untranslatable."""
    if len(expression) > LONGEST:
        raise Untranslatable(LONGEST, f"this is longer than {LONGEST} characters")
    reader = _Reader(expression)
    runs = reader.alternatives(0)
    if reader.at < len(expression):
        raise Untranslatable(reader.at, "`)` has no `(` before it")
    found: List[Shape] = []
    for run in runs:
        shape = _shape(run)
        if shape not in found:
            found.append(shape)
    return found


class _Reader:
    """Reads an expression from left to right; a run is a tuple of characters and of marks such as `(ANY,)`."""

    def __init__(self, expression: str):
        self.expression = expression
        self.at = 0

    def peek(self) -> str:
        """The next character, or nothing at the end."""
        return self.expression[self.at : self.at + 1]

    def alternatives(self, depth: int) -> List[Run]:
        """The runs of alternatives up to `)` or the end."""
        if depth > 50:
            raise Untranslatable(self.at, "groups are nested too deep")
        runs: List[Run] = []
        while True:
            runs += self._sequence(depth)
            self._bound(runs)
            if self.peek() != "|":
                return runs
            self.at += 1

    def _bound(self, runs: list) -> None:
        if len(runs) > MOST_ALTERNATIVES:
            raise Untranslatable(self.at, f"these are more than {MOST_ALTERNATIVES} alternatives")

    def _sequence(self, depth: int) -> List[Run]:
        runs: List[Run] = [()]
        while self.peek() not in ("", "|", ")"):
            start = self.at
            atom = self._atom(depth)
            parts = self._repeated(atom, start)
            runs = [run + part for run in runs for part in parts]
            self._bound(runs)
        return runs

    def _atom(self, depth: int) -> List[Run]:
        start, character = self.at, self.peek()
        self.at += 1
        if character == "(":
            return self._group(start, depth)
        if character == "[":
            return self._class(start)
        if character == "\\":
            return self._escape(start)
        if character == "^":
            return [((START,),)]
        if character == "$":
            return [((END,),)]
        if character == ".":
            return [(("one",),)]
        if character in "*+?":
            raise Untranslatable(start, f"there is nothing before `{character}`")
        return [(character,)]

    def _group(self, start: int, depth: int) -> List[Run]:
        if self.peek() == "?":
            self._group_head(start)
        runs = self.alternatives(depth + 1)
        if self.peek() != ")":
            raise Untranslatable(start, "`(` is not closed")
        self.at += 1
        return runs

    def _group_head(self, start: int) -> None:
        """Passes over `?:` or a name, and refuses flags."""
        rest = self.expression[self.at :]
        if rest.startswith("?:"):
            self.at += 2
            return
        if rest.startswith("?P<") and ">" in rest:
            self.at += rest.index(">") + 1
            return
        if rest.startswith("?i"):
            raise Untranslatable(
                start, "`(?i)` folds all letters; write `ignore_case: true`, which folds A to Z, and no regex"
            )
        raise Untranslatable(start, "flags are not read")

    def _escape(self, start: int) -> List[Run]:
        letter = self.peek()
        self.at += 1
        if letter == "Q":
            end = self.expression.find("\\E", self.at)
            quoted = self.expression[self.at : end if end >= 0 else len(self.expression)]
            self.at = end + 2 if end >= 0 else len(self.expression)
            if self.peek() and self.peek() in "*+?{":
                raise Untranslatable(self.at, "this repeats the last character before `\\E` alone")
            return [tuple(quoted)]
        if letter == "d":
            return [(digit,) for digit in DIGITS]
        if letter in ESCAPES:
            return [(ESCAPES[letter],)]
        if letter and letter.isascii() and not letter.isalnum():
            return [(letter,)]
        raise Untranslatable(start, f"`\\{letter}` matches more than one text")

    def _class(self, start: int) -> List[Run]:
        """The characters between brackets, where they are few and named one by one or in a range."""
        end = self.expression.find("]", self.at + 1)
        body = self.expression[self.at : end] if end >= 0 else ""
        if (
            not body
            or body[0] == "^"
            or "[" in body
            or "\\" in body
            or "&&" in body
            or "--" in body
            or "~~" in body
            or "||" in body
        ):
            raise Untranslatable(start, "these brackets match more than a few characters")
        self.at = end + 1
        found: List[Run] = []
        index = 0
        while index < len(body):
            last = body[index]
            if body[index + 1 : index + 2] == "-" and index + 2 < len(body):
                last = body[index + 2]
            if last < body[index] or ord(last) - ord(body[index]) > MOST_ALTERNATIVES:
                raise Untranslatable(start, "these brackets match more than a few characters")
            found += [(chr(point),) for point in range(ord(body[index]), ord(last) + 1)]
            index += 3 if body[index + 1 : index + 2] == "-" and index + 2 < len(body) else 1
        return found

    def _repeated(self, atom: List[Run], start: int) -> List[Run]:
        """An atom with the sign after it that repeats it."""
        sign = self.peek()
        if sign not in ("*", "+", "?"):
            if sign == "{" and self.expression[self.at + 1 : self.at + 2].isdigit():
                raise Untranslatable(start, "this is repeated")
            if atom == [(("one",),)]:
                raise Untranslatable(start, "`.` matches any one character")
            return atom
        self.at += 1
        if self.peek() == "?":
            self.at += 1
        if self.peek() in ("*", "+", "?") and self.peek():
            raise Untranslatable(self.at, "there are two repetition signs in a row")
        if sign == "?" and atom != [(("one",),)] and not any((mark,) in run for run in atom for mark in (START, END)):
            return [()] + atom
        if atom == [(("one",),)] and sign != "?":
            return [((ANY,),)] if sign == "*" else [((SOME,),)]
        raise Untranslatable(start, "only `.` may be repeated by `*` and `+`")


def _shape(run: Run) -> Shape:
    """The shape of a run."""
    parts = list(run)
    while parts and parts[0] == (START,):
        parts.pop(0)
    while parts and parts[-1] == (END,):
        parts.pop()
    if (START,) in parts or (END,) in parts:
        raise Untranslatable(0, "`^` or `$` is in the middle")
    marks = [index for index, part in enumerate(parts) if isinstance(part, tuple)]
    if not marks:
        return Shape(((EXACT, "".join(parts)),))
    wild, first, last = _wildcard(parts, marks), marks[0], marks[-1]
    before, after = "".join(parts[:first]), "".join(parts[last + 1 :])
    if last - first + 1 == len(marks):
        return _around(before, after, wild)
    inner = parts[first + 1 : last]
    ends = [index for index, part in enumerate(inner) if isinstance(part, tuple)]
    if before or after or (SOME,) in parts or ends and not _are_at_the_ends(inner, ends):
        raise Untranslatable(0, "two wildcards and more than one text between or around them")
    return Shape(((CONTAINS, "".join(part for part in inner if isinstance(part, str))),))


def _are_at_the_ends(inner: list, ends: List[int]) -> bool:
    """Whether the wildcards inside are beside those around."""
    texts = [index for index, part in enumerate(inner) if isinstance(part, str)]
    return not any(texts[0] < index < texts[-1] for index in ends)


def _wildcard(parts: list, marks: List[int]) -> str:
    """Whether neighbouring wildcards ask for a character at all."""
    asked = [index for index in marks if parts[index] == (SOME,)]
    if len(asked) > 1:
        raise Untranslatable(0, "more than one `.+`")
    return SOME if asked else ANY


def _around(before: str, after: str, wild: str) -> Shape:
    """The shape of a text, a wildcard and a text."""
    tests = ((PREFIX, before),) * bool(before) + ((SUFFIX, after),) * bool(after)
    excepted = [before + after] if wild == SOME else []
    if min(len(before), len(after)) > MOST_ALTERNATIVES:
        raise Untranslatable(0, f"two texts of more than {MOST_ALTERNATIVES} characters around a wildcard may overlap")
    for length in range(1, min(len(before), len(after)) + 1):
        if before.endswith(after[:length]):
            excepted.append(before + after[length:])
    return Shape(tests, tuple(excepted))


def matches(found: List[Shape], subject: str) -> bool:
    """Whether a text is one of those that the shapes say."""
    tests = {
        EXACT: subject.__eq__,
        PREFIX: subject.startswith,
        SUFFIX: subject.endswith,
        CONTAINS: lambda part: part in subject,
    }
    return any(
        all(tests[kind](part) for kind, part in shape.tests) and subject not in shape.excepted for shape in found
    )
